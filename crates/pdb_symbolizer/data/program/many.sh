#!/bin/sh
# Builds a program of a thousand functions, with bodies inlined up to six deep, with clang and lld.
#
# Usage: many.sh FOLDER [SPACING]
#
# For each target (x86_64, i686, aarch64), FOLDER gets many-TARGET.exe, its PDB file, and the file
# many-TARGET.addresses. That file has every SPACING-th address (5) of its procedures. The script needs the Debian
# packages clang, lld and llvm.
set -e
folder=$1
spacing=${2:-5}
mkdir -p "$folder"
cd "$folder"
cat > many.cpp << 'END'
#include "many.h"

#define SHAPE(n) \
    struct Shape##n { \
        int sides[n % 7 + 1]; \
        int area(int scale) const; \
    }; \
    int Shape##n::area(int scale) const { \
        int sum = 0; \
        for (int k = 0; k < n % 7 + 1; k++) \
            sum += mixed<n % 13>(sides[k], scale) + n; \
        return sum; \
    } \
    int draw##n(const Shape##n *shape, int scale) { \
        Counter counter; \
        counter.add(shape->area(scale)); \
        if (scale > n) \
            counter.add(grown(scale)); \
        return clamped(counter.total, n); \
    }
#define TEN(n) SHAPE(n##0) SHAPE(n##1) SHAPE(n##2) SHAPE(n##3) SHAPE(n##4) \
    SHAPE(n##5) SHAPE(n##6) SHAPE(n##7) SHAPE(n##8) SHAPE(n##9)
#define HUNDRED(n) TEN(n##0) TEN(n##1) TEN(n##2) TEN(n##3) TEN(n##4) \
    TEN(n##5) TEN(n##6) TEN(n##7) TEN(n##8) TEN(n##9)
HUNDRED(1)
HUNDRED(2)
HUNDRED(3)
HUNDRED(4)
HUNDRED(5)

extern "C" int entry() {
    return sink;
}
END
cat > many.h << 'END'
volatile int sink;

inline int grown(int size) {
    return sink ? size + 1 : size * 3;
}

inline int clamped(int value, int most) {
    if (value > most)
        return grown(most);
    return value < 0 ? 0 : value;
}

template <int depth> inline int mixed(int left, int right) {
    sink = left;
    return clamped(mixed<depth - 1>(right, left) ^ depth, right);
}

template <> inline int mixed<0>(int left, int right) {
    return grown(left) - right;
}

struct Counter {
    int total = 0;

    void add(int count) {
        if (count != 0)
            total += clamped(count, 100);
        sink = total;
    }
};
END
for target in x86_64 i686 aarch64; do
    clang --target=$target-pc-windows-msvc -g -gcodeview -O2 -fno-exceptions -fno-rtti -fno-unwind-tables \
        -fdebug-compilation-dir=. -c many.cpp -o many.obj
    lld-link /debug /nodefaultlib /entry:entry /subsystem:console /safeseh:no /opt:noref /opt:noicf "/out:many-$target.exe" \
        "/pdb:many-$target.pdb" /timestamp:0 many.obj
    llvm-pdbutil dump --symbols "many-$target.pdb" |
        sed -n 's/.*addr = 0001:\([0-9]*\), code size = \([0-9]*\)$/\1 \2/p' |
        awk -v spacing="$spacing" '{ for (k = 0; k < $2; k++) if (at++ % spacing == 0) printf "0x%x\n", 4096 + $1 + k }' \
            > "many-$target.addresses"
done
rm many.obj
