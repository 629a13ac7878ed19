#!/bin/sh
# Builds the static library and the examples in C and of the Rust crate in bindings/rust, and compares their reports
# with those of pdb_report.
#
# Usage: examples/run.sh [FOLDER [PROGRAM]]
#
# FOLDER gets the examples. Without FOLDER, a temporary folder is used and removed at the end. PROGRAM is a built
# pdb_report. Without PROGRAM, it is built here. The script needs gcc, cargo, make and rt. bindings/run.sh has the tests
# of the bindings. If LIMBERLIME_BUILT is set, built files are taken from that folder instead (packaging/built.sh).
set -eu

top=$(cd "$(dirname "$0")/.." && pwd)
folder=${1:-$(mktemp -d)}
[ $# -gt 0 ] || trap 'rm -rf "$folder"' EXIT
mkdir -p "$folder"
folder=$(cd "$folder" && pwd)

"$top/packaging/built.sh" "$folder" libpdb_c.a liblibc_c.a
program=${2:-$folder/pdb_report}
[ $# -gt 1 ] || "$top/packaging/built.sh" "$folder" pdb_report

for name in report opened refusals; do
    gcc -std=c11 -O2 -Wall -Wextra -Werror -I "$top/include" -o "$folder/${name}_c" \
        "$top/examples/c/$name.c" "$folder/libpdb_c.a" "$folder/liblibc_c.a"
done
make --no-print-directory -s -C "$top/bindings" OUT="$folder/library" PDB_C="$folder/libpdb_c.a" \
    MEMORY="$folder/liblibc_c.a" "$folder/library/liblimberlime.a"
(cd "$top/bindings/rust" && LIMBERLIME_LIB_DIR="$folder/library" CARGO_TARGET_DIR="$folder/target" \
    cargo build --quiet --offline --release --example opened && rm -f Cargo.lock)
cp "$folder/target/release/examples/opened" "$folder/opened_rust"

records="$top/crates/pdb_report_tests/data/small_x64.json"
"$folder/refusals_c" "$records" "$top/crates/pdb_report_tests/data/failing_parts.json"
failed=0

# Compares what an example prints with what pdb_report printed.
compare() {
    "$@" >"$folder/printed"
    cmp -s "$folder/wanted" "$folder/printed" && return
    echo "$1 prints something else than pdb_report"
    failed=1
}

# shellcheck disable=SC2046
set -- 1544 2b45 6011 1000 ffffffff $(seq 4096 7 25000 | xargs printf '0x%x ')
for command in frames names; do
    "$program" "$records" "$command" "$@" >"$folder/wanted"
    for example in report_c opened_c opened_rust; do
        compare "$folder/$example" "$records" "$command" "$@"
    done
done
[ "$failed" = 0 ] && echo "examples: C and Rust print what pdb_report prints of $# addresses"
exit "$failed"
