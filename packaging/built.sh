#!/bin/sh
# Puts proved and built programs and libraries into a folder.
#
# Usage: packaging/built.sh FOLDER FILE..
#
# FILE is pdb_symbolizer, pdb_report, libpdb_c.a or liblibc_c.a, which comes from the kit. If LIMBERLIME_BUILT is set,
# each is copied from that folder. Otherwise it is proved and built here, which takes an hour the first time.
set -eu

top=$(cd "$(dirname "$0")/.." && pwd)
folder=$1
shift
mkdir -p "$folder"

# Proves and builds a program, and runs it once.
program() {
    name=$1
    shift
    (cd "$top/crates/$name" && rt run -- "$@") >&2
    cp "$top/crates/$name/out/$name" "$folder"
}

for file; do
    if [ -n "${LIMBERLIME_BUILT:-}" ]; then
        cp "$LIMBERLIME_BUILT/$file" "$folder"
        continue
    fi
    case $file in
    pdb_symbolizer) program pdb_symbolizer --version ;;
    pdb_report) program pdb_report "$top/crates/pdb_report/data/a.json" list ;;
    libpdb_c.a) (cd "$top/crates/pdb_c" && rt lib) >&2 && cp "$top/crates/pdb_c/out/libpdb_c.a" "$folder" ;;
    liblibc_c.a) cp "$(dirname "$(rt doc)")/c/liblibc_c.a" "$folder" ;;
    *) echo "built.sh: $file is no file that is built" >&2 && exit 2 ;;
    esac
done
