#!/bin/sh
# Builds the library and its bindings for C, Rust and Python, runs their tests, and compares what their examples print.
#
# Usage: bindings/run.sh [FOLDER]
#
# FOLDER gets all that is built. Without FOLDER, a temporary folder is used and removed at the end. The script needs rt,
# gcc, g++, make, cmake, pkg-config, valgrind, cargo with clippy, and python3. Tests of bags are skipped if python3 has
# no Dask. Nothing is downloaded. The library is proved and built here, or taken from the folder LIMBERLIME_BUILT
# (packaging/built.sh).
set -eu

top=$(cd "$(dirname "$0")/.." && pwd)
folder=${1:-$(mktemp -d)}
[ $# -gt 0 ] || trap 'rm -rf "$folder"' EXIT
mkdir -p "$folder"
folder=$(cd "$folder" && pwd)
bindings="$top/bindings"
shapes="$top/crates/pdb_symbolizer/data/shapes.pdb"
files="$top/crates/pdb_container_tests/data"
modules="$top/crates/pdb_report_tests/data/modules"
failed=0

"$top/packaging/built.sh" "$folder" libpdb_c.a liblibc_c.a
make --no-print-directory -C "$bindings" OUT="$folder" PDB_C="$folder/libpdb_c.a" MEMORY="$folder/liblibc_c.a" \
    PREFIX="$folder/prefix" install

cat >"$folder/wanted" <<'WANTED'
shapes::Point::length() const at C:\shapes\shapes.h:10:0
 (inlined by) Picture::draw(int) at C:\shapes\main.cpp:29:0
 (inlined by) Framed::draw(int) at C:\shapes\main.cpp:36:0

WANTED

# Runs a command. If it fails, prints its output.
try() {
    if "$@" >"$folder/said" 2>&1; then return; fi
    echo "fails: $*"
    cat "$folder/said"
    failed=1
}

# Runs an example, and checks that it prints the expected stack.
prints_the_stack() {
    if "$@" "$shapes" 0x1136 >"$folder/printed" && cmp -s "$folder/wanted" "$folder/printed"; then return; fi
    echo "prints something else: $*"
    failed=1
}

warnings="-Wall -Wextra -Werror -pedantic -I $top/include"
for build in 'c11 gcc -std=c11' 'c++17 g++ -std=c++17 -x c++'; do
    # shellcheck disable=SC2086
    set -- $build
    name=$1
    shift
    for program in test stack; do
        # shellcheck disable=SC2086
        "$@" -O2 $warnings -c -o "$folder/$program.o" "$bindings/c/$program.c"
        "$1" -o "$folder/${program}_$name" "$folder/$program.o" "$folder/liblimberlime.a"
        # shellcheck disable=SC2086
        "$@" -g $warnings -fsanitize=address,undefined -fno-sanitize-recover=all -c -o "$folder/$program.o" \
            "$bindings/c/$program.c"
        "$1" -fsanitize=address,undefined -o "$folder/${program}_${name}_sanitized" "$folder/$program.o" \
            "$folder/liblimberlime.a"
    done
    try "$folder/test_$name" "$shapes" "$files" "$modules"
    try "$folder/test_${name}_sanitized" "$shapes" "$files" "$modules"
    try valgrind --quiet --error-exitcode=99 --leak-check=full --show-leak-kinds=all --errors-for-leak-kinds=all \
        "$folder/test_$name" "$shapes" "$files" "$modules"
    prints_the_stack "$folder/stack_$name"
    prints_the_stack "$folder/stack_${name}_sanitized"
done

# The following builds use the files that `make install` installed.
export PKG_CONFIG_PATH="$folder/prefix/lib/pkgconfig"
try cmake -S "$bindings/c" -B "$folder/cmake" -DCMAKE_PREFIX_PATH="$folder/prefix"
try cmake --build "$folder/cmake"
prints_the_stack "$folder/cmake/stack"
# shellcheck disable=SC2046
gcc -o "$folder/stack_shared" "$bindings/c/stack.c" \
    $(pkg-config --cflags --libs limberlime)
prints_the_stack env LD_LIBRARY_PATH="$folder/prefix/lib" "$folder/stack_shared"

export CARGO_TARGET_DIR="$folder/target" CARGO_NET_OFFLINE=true
cd "$bindings/rust"
try cargo fmt --check
try cargo clippy --quiet --all-targets -- -D warnings
try cargo test --quiet
try cargo build --quiet --release --examples
prints_the_stack "$folder/target/release/examples/stack"
rm -f Cargo.lock

export LIMBERLIME_LIBRARY="$folder/liblimberlime.so" PYTHONDONTWRITEBYTECODE=1
cd "$bindings/python"
try python3 -m unittest
prints_the_stack python3 stack.py

[ "$failed" = 0 ] && echo "bindings: C, C++, Rust and Python answer what is wanted"
exit "$failed"
