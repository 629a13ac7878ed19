#!/bin/sh
# Builds a program with a thunk, which lld makes for an imported function.
#
# Usage: thunk.sh FOLDER
#
# The script needs the Debian packages clang, lld and llvm.
set -e
mkdir -p "$1"
cd "$1"
printf 'LIBRARY beep.dll\nEXPORTS\n    beep\n' > beep.def
cat > thunk.cpp << 'END'
extern "C" int beep(int count);

extern "C" int entry() {
    int sum = 0;
    for (int count = 0; count < 3; count++)
        sum += beep(count);
    return sum;
}
END
llvm-dlltool -m i386:x86-64 -d beep.def -l beep.lib
clang --target=x86_64-pc-windows-msvc -g -gcodeview -O1 -c thunk.cpp -o thunk.obj
lld-link /debug /nodefaultlib /entry:entry /subsystem:console /out:thunk.exe /pdb:thunk.pdb /timestamp:0 thunk.obj beep.lib
