#!/bin/bash
# Tests the packages as on a user's machine, in the oldest release of Debian with a glibc that is new enough for them.
#
# Usage: packaging/test.sh OUT
#
# OUT is the output of packaging/build.sh. Run this as root. It makes a new root without compilers, installs the
# programs, makes the first run of README.md, and removes the programs again. Then it installs gcc, cmake, cargo and
# Python from Debian, and the library, and runs an example in each language. It downloads only packages of Debian. The
# exit status is 1 if a test fails.
set -euo pipefail
needed="binutils lintian mmdebstrap util-linux"
# shellcheck disable=SC2086
dpkg -s $needed >/dev/null 2>&1 || apt-get install -y --no-install-recommends $needed

top=$(cd "$(dirname "$0")/.." && pwd)
out=$(cd "$1" && pwd)
work=$(mktemp -d)
trap 'rm -rf --one-file-system "$work"' EXIT
root=$work/root
# The folder in the root with the tested files and with all that is built there.
place=/srv/limberlime

say() {
    printf '%4d s  %s\n' $SECONDS "$*"
}

fail() {
    say "FAILS: $*"
    [ ! -e "$work/said" ] || tail -n 40 "$work/said"
    exit 1
}

# Runs a command in the root, and stops if it fails. Its output is in $work/said.
in_root() {
    # shellcheck disable=SC2016
    unshare --mount sh -c 'mount -t proc proc "$0/proc" && exec chroot "$0" "$@"' "$root" env -i LC_ALL=C.UTF-8 \
        PATH=/usr/sbin:/usr/bin:/sbin:/bin HOME=$place DEBIAN_FRONTEND=noninteractive "$@" \
        >"$work/said" 2>&1 || fail "$*"
}

install_in_root() {
    in_root apt-get install -y --no-install-recommends "$@"
}

# Runs a command in the root that must print the stack of README.md.
prints_the_stack() {
    in_root "$@"
    cmp -s "$work/said" "$work/stack" || fail "prints something else: $*"
    say "prints the stack: $*"
}

# Prints the files of the root, except those that any installation leaves.
files() {
    (cd "$root" && find . -path ./proc -prune -o -path ./var -prune -o -path ./tmp -prune -o -path ./srv -prune -o \
        -name ld.so.cache -o -print | sort)
}

# Prints the oldest release of Debian whose glibc has this version or a later one.
release() {
    while read -r name glibc; do
        [ "$(printf '%s\n' "$glibc" "$1" | sort -V | head -n 1)" = "$1" ] && echo "$name" && return
    done <<'RELEASES'
buster 2.28
bullseye 2.31
bookworm 2.36
trixie 2.41
RELEASES
}

sed -n '/^    shapes::Point/,/^$/s/^    //p' "$top/README.md" | sed '/^$/,$d' >"$work/stack"
echo >>"$work/stack"
(cd "$out" && sha256sum --quiet -c SHA256SUMS) || fail "a sum"
lintian --allow-root --fail-on error "$out"/*.deb >"$work/said" 2>&1 || fail lintian
say "lintian: $(grep -c '^W:' "$work/said" || true) warnings, no error"

glibc=$(dpkg-deb -f "$out"/limberlime_*.deb Depends | sed 's/.*>= \(.*\))/\1/')
suite=$(release "$glibc")
mmdebstrap --quiet --variant=minbase "$suite" "$root" || fail mmdebstrap
[ -e /etc/resolv.conf ] && cat /etc/resolv.conf >"$root/etc/resolv.conf"
mkdir -p "$root$place"
cp "$out"/*.deb "$out"/*.whl "$out"/*.tar.gz "$top"/crates/pdb_symbolizer/data/shapes.* "$root$place"
in_root apt-get update
say "a root of $suite for programs that ask for glibc $glibc"

# Tests the programs, on a machine without compilers.
install_in_root man-db
files >"$work/before"
in_root sh -c "apt-get install -y --no-install-recommends $place/limberlime_*.deb"
prints_the_stack pdb_symbolizer -p $place/shapes.exe 0x140001136
in_root sh -c 'man pdb_symbolizer | grep -e --dump-syms && man pdb_report | grep frames'
in_root bash -c '. /usr/share/bash-completion/completions/pdb_symbolizer && COMP_WORDS=(pdb_symbolizer --dump) &&
    COMP_CWORD=1 && _pdb_symbolizer && [ "${COMPREPLY[*]}" = --dump-syms ]'
in_root pdb_symbolizer --export $place/shapes.json $place/shapes.pdb
in_root pdb_report $place/shapes.json names 0x1136
grep -q 'Framed::draw(int)' "$work/said" || fail pdb_report
rm "$root$place/shapes.json"
in_root apt-get purge -y limberlime
files | cmp -s - "$work/before" || fail "something is left: $(files | comm -3 - "$work/before")"
say "man pages, completions and pdb_report; removed, the package leaves nothing"

# Tests the library. The sources of the examples are those of the repository.
install_in_root gcc g++ libc6-dev make cmake pkg-config cargo python3-venv
say "gcc, cmake, cargo and Python are installed"
files >"$work/before"
cp -r "$top/bindings/c" "$top/bindings/rust" "$top/bindings/python" "$root$place"
in_root sh -c "cd $place/rust && CARGO_TARGET_DIR=$place/target cargo build --offline 2>&1 |
    grep 'Install the package liblimberlime-dev'"
in_root sh -c "apt-get install -y --no-install-recommends $place/liblimberlime*.deb"
in_root sh -c "gcc -std=c11 -Wall -Wextra -Werror -pedantic -o $place/stack_c $place/c/stack.c \
    \$(pkg-config --cflags --libs limberlime)"
prints_the_stack $place/stack_c $place/shapes.pdb 0x1136
in_root sh -c "g++ -std=c++17 -x c++ -Wall -Wextra -Werror -pedantic -o $place/stack_cc $place/c/stack.c \
    \$(pkg-config --cflags --libs limberlime)"
prints_the_stack $place/stack_cc $place/shapes.pdb 0x1136
in_root cmake -S $place/c -B $place/cmake
in_root cmake --build $place/cmake
prints_the_stack $place/cmake/stack $place/shapes.pdb 0x1136
in_root sh -c "cd $place/rust && CARGO_TARGET_DIR=$place/target cargo build --offline --release --example stack"
prints_the_stack $place/target/release/examples/stack $place/shapes.pdb 0x1136
prints_the_stack env PYTHONDONTWRITEBYTECODE=1 python3 $place/python/stack.py $place/shapes.pdb 0x1136
in_root sh -c 'apt-get purge -y "liblimberlime*"'
files | cmp -s - "$work/before" || fail "something is left: $(files | comm -3 - "$work/before")"
say "removed, the library leaves nothing"

# Tests that the wheel and the tarball need nothing else.
in_root sh -c "python3 -m venv $place/venv && $place/venv/bin/pip install --no-index $place/*.whl"
in_root mv $place/python/stack.py $place/stack.py
prints_the_stack $place/venv/bin/python $place/stack.py $place/shapes.pdb 0x1136
in_root sh -c "mkdir $place/unpacked && tar -C $place/unpacked --strip-components 1 -xf $place/limberlime-*.tar.gz"
prints_the_stack $place/unpacked/bin/pdb_symbolizer -p $place/shapes.exe 0x140001136
in_root sh -c "export PKG_CONFIG_PATH=$place/unpacked/lib/pkgconfig && gcc -o $place/stack_tar $place/c/stack.c \
    \$(pkg-config --cflags --libs limberlime) -Wl,-rpath,$place/unpacked/lib"
prints_the_stack $place/stack_tar $place/shapes.pdb 0x1136
in_root cmake -S $place/c -B $place/cmake_tar -DCMAKE_PREFIX_PATH=$place/unpacked
in_root cmake --build $place/cmake_tar
prints_the_stack $place/cmake_tar/stack $place/shapes.pdb 0x1136
say "all packages do what they should"
