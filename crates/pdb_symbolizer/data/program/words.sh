#!/bin/sh
# Builds words.cpp with clang, lld and mingw's library.
#
# Usage: words.sh FOLDER [SPACING]
#
# FOLDER gets words-0.exe (not optimised, with thousands of procedures) and words-1.exe (with thousands of inlined
# bodies), each with its PDB file. It also gets a file of addresses for each, with every SPACING-th address (29) of its
# procedures. The script needs the Debian packages clang, lld, llvm and g++-mingw-w64-x86-64-posix.
set -e
here=$(cd "$(dirname "$0")" && pwd)
folder=$1
spacing=${2:-29}
library=$(dirname "$(x86_64-w64-mingw32-g++-posix -print-libgcc-file-name)")
mkdir -p "$folder"
cd "$folder"
cp "$here/words.cpp" .
for level in 0 1; do
    clang++ --target=x86_64-w64-mingw32 "-O$level" -g -gcodeview -std=c++17 -nostdinc++ \
        -isystem "$library/include/c++" -isystem "$library/include/c++/x86_64-w64-mingw32" -c words.cpp -o words.obj
    clang++ --target=x86_64-w64-mingw32 -fuse-ld=lld -static -Wl,--allow-multiple-definition words.obj "-L$library" -lpthread \
        "-Wl,--pdb=words-$level.pdb" -o "words-$level.exe"
    llvm-pdbutil dump --symbols "words-$level.pdb" |
        sed -n 's/.*addr = 0001:\([0-9]*\), code size = \([0-9]*\)$/\1 \2/p' |
        awk -v spacing="$spacing" '{ for (k = 0; k < $2; k++) if (at++ % spacing == 0) printf "0x%x\n", 4096 + $1 + k }' \
            > "words-$level.addresses"
done
rm words.obj
