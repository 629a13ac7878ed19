#!/bin/sh
# Builds the program of this folder with clang and lld, in a temporary folder. Copies the program and its PDB file to
# the folder above this one.
set -e
here=$(cd "$(dirname "$0")" && pwd)
work=$(mktemp -d)
cd "$work"
cp "$here"/*.cpp "$here"/*.h .
for name in main shapes; do
    clang --target=x86_64-pc-windows-msvc -g -gcodeview -O2 -fno-exceptions -fno-rtti -fno-unwind-tables \
        -fdebug-compilation-dir=. -c "$name.cpp" -o "$name.obj"
done
lld-link /debug /nodefaultlib /entry:entry /subsystem:console /out:shapes.exe /pdb:shapes.pdb \
    /pdbaltpath:shapes.pdb /pdbsourcepath:'C:\\shapes' /timestamp:0 main.obj shapes.obj
cp shapes.pdb "$here/../shapes.pdb"
cp shapes.exe "$here/../shapes.exe"
rm -rf "$work"
