#!/bin/sh
# Writes the addresses of the program's functions to ../../stdin, and llvm-symbolizer's answers (LLVM 22) to
# ../../stdout. It leaves out 0x10e0, which has two line rows (docs/CONTAINER.md). shapes.exe and shapes.pdb must be in
# the folder above this one, where build.sh puts them.
set -e
here=$(cd "$(dirname "$0")" && pwd)
cd "$here/.."
llvm-pdbutil dump --symbols shapes.pdb |
    sed -n 's/.*addr = 0001:\([0-9]*\), code size = \([0-9]*\)$/\1 \2/p' |
    while read -r offset size; do
        offset=$(echo "$offset" | sed 's/^0*//')
        seq $((4096 + ${offset:-0})) $((4096 + ${offset:-0} + size - 1))
    done | while read -r address; do printf '0x%x\n' "$address"; done |
    grep -v -x 0x10e0 > ../stdin
llvm-symbolizer-22 --obj=shapes.exe --relative-address --functions=short < ../stdin > ../stdout
