#!/bin/sh
# Builds collections.rs over Rust's own core and alloc, as a Windows program for x64 that imports nothing.
#
# Usage: build_rust.sh OUT LEVEL     LEVEL is the level of optimisation (0, 2, s)
#
# The script writes OUT/collections.exe and OUT/collections.pdb. It needs Debian's rustc, rust-src, clang-22 and lld-22.
set -eu
out=$1 level=$2
here=$(dirname "$(readlink -f "$0")")
library=$(ls -d /usr/src/rustc-*/library)
mkdir -p "$out"
export RUSTC_BOOTSTRAP=1
compile() {
  /usr/bin/rustc --edition 2021 --target x86_64-pc-windows-msvc -C opt-level="$level" -C panic=abort -C codegen-units=1 \
    -g --cap-lints allow --out-dir "$out" -L "$out" "$@"
}
compile -Z force-unstable-if-unmarked --crate-name core --crate-type rlib "$library/core/src/lib.rs"
compile --crate-name compiler_builtins --crate-type rlib "$here/builtins.rs"
compile -Z force-unstable-if-unmarked --crate-name alloc --crate-type rlib "$library/alloc/src/lib.rs"
compile --crate-name collections --crate-type staticlib "$here/collections.rs"
# Code with a large frame calls __chkstk to touch its pages. It must not push anything, so here it only returns.
printf '.globl __chkstk\n__chkstk:\nret\n.globl __CxxFrameHandler3\n__CxxFrameHandler3:\nret\n' >"$out/start.s"
clang-22 --target=x86_64-pc-windows-msvc -c "$out/start.s" -o "$out/start.o"
# The functions for 128-bit division and for lengths of C strings are missing. No code that runs calls them.
lld-link-22 /entry:start /nodefaultlib /subsystem:console /debug /force:unresolved \
  /out:"$out/collections.exe" /pdb:"$out/collections.pdb" "$out/collections.lib" "$out/start.o"
