#!/usr/bin/env python3
"""Writes an ARM64 assembly program whose functions have the canonical prologues of packed unwind data.

Usage: packed_arm64.py PART PARTS > packed.s     PART is a number from 0 to PARTS - 1

Each function stores a different set of registers, in a frame of a different size, and loads them again. Its packed data
is in the section .pdata. The program's entry point calls each function once. All parts together have each set of
registers of a canonical prologue, with up to nine sizes for the rest of the frame.
"""
import sys

LOCALS = [0, 16, 496, 528, 4064, 4080, 4096, 4608]
LARGEST = 511 * 16
SIGNED, CHAINED = 2, 3


class Frame:
    """A set of registers: the number from x19 on, the number from d8 on minus one, and whether x0 to x7 are stored.
    `link` is the field CR, which says what happens with x30."""

    def __init__(self, registers, floats, homed, link):
        self.registers, self.floats, self.homed, self.link = registers, floats, homed, link
        self.register_size = 8 * registers + (8 if link == 1 else 0)
        self.float_size = 8 * floats + 8 if floats else 0
        self.saved = (self.register_size + self.float_size + 64 * homed + 15) & ~15
        self.prologue, self.epilogue, self.moved = [], [], False

    def both(self, store, load):
        """Adds an instruction to the prologue, and the one that undoes it to the epilogue."""
        self.prologue.append(store)
        self.epilogue.insert(0, load)

    def store(self, names, offset):
        """Stores one register or a pair. The first store moves the stack pointer."""
        store, load = ("stp", "ldp") if "," in names else ("str", "ldr")
        if self.moved:
            self.both(f"{store} {names}, [sp, #{offset}]", f"{load} {names}, [sp, #{offset}]")
        else:
            self.both(f"{store} {names}, [sp, #-{self.saved}]!", f"{load} {names}, [sp], #{self.saved}")
        self.moved = True

    def general(self):
        """Stores the registers from x19 on, and x30 after them."""
        for number in range(0, self.registers, 2):
            if number + 1 < self.registers:
                names = f"x{19 + number}, x{20 + number}"
            else:
                names = f"x{19 + number}" + (", x30" if self.link == 1 else "")
            self.store(names, 8 * number)
        if self.link == 1 and self.registers % 2 == 0:
            self.store("x30", self.register_size - 8)

    def floating(self):
        """Stores the registers from d8 on."""
        count = self.floats + 1 if self.floats else 0
        for number in range(0, count, 2):
            names = f"d{8 + number}" + (f", d{9 + number}" if number + 1 < count else "")
            self.store(names, self.register_size + 8 * number)

    def parameters(self):
        """Stores the registers x0 to x7, which aren't loaded again."""
        for number in range(0, 8, 2):
            names = f"x{number}, x{number + 1}"
            if self.moved:
                self.prologue.append(f"stp {names}, [sp, #{self.register_size + self.float_size + 8 * number}]")
            else:
                self.both(f"stp {names}, [sp, #-{self.saved}]!", f"add sp, sp, #{self.saved}")
                self.moved = True

    def allocate(self, size):
        """Moves the stack pointer, in two steps if the size needs them."""
        for step in ([4080, size - 4080] if size > 4080 else [size] if size else []):
            self.both(f"sub sp, sp, #{step}", f"add sp, sp, #{step}")

    def locals(self, size):
        """Allocates the rest of the frame, with x29 and x30 at its bottom."""
        if self.link < SIGNED:
            self.allocate(size)
        else:
            if size <= 512:
                self.both(f"stp x29, x30, [sp, #-{size}]!", f"ldp x29, x30, [sp], #{size}")
            else:
                self.allocate(size)
                self.both("stp x29, x30, [sp]", "ldp x29, x30, [sp]")
            self.prologue.append("mov x29, sp")

    def function(self, local):
        """Returns the instructions of the function, and its packed data."""
        if self.link == SIGNED:
            self.both("hint #27", "hint #31")
        self.general()
        self.floating()
        if self.homed:
            self.parameters()
        self.locals(local)
        body = [f"mov x{19 + number}, #{number + 7}" for number in range(self.registers)]
        code = self.prologue + body + (["bl leaf"] if self.link else []) + ["nop"] + self.epilogue + ["ret"]
        size = (self.saved + local) // 16
        return code, (1 | len(code) << 2 | self.floats << 13 | self.registers << 16 | self.homed << 20
                      | self.link << 21 | size << 23)


def functions():
    """Yields all functions."""
    for registers in range(11):
        for floats in range(8):
            for homed in range(2):
                for link in range(4):
                    saved = Frame(registers, floats, homed, link).saved
                    for local in LOCALS + [LARGEST - saved]:
                        alone = registers == 1 and link == 1
                        if not alone and local <= LARGEST - saved and (link < SIGNED or local):
                            yield Frame(registers, floats, homed, link).function(local)


def main():
    part, parts = int(sys.argv[1]), int(sys.argv[2])
    chosen = [found for number, found in enumerate(functions()) if number % parts == part]
    print("\t.text\n\t.globl start\nleaf:\n\tret\nstart:\n\tstp x29, x30, [sp, #-16]!")
    for number in range(len(chosen)):
        print(f"\tbl f{number}")
    print("\tldp x29, x30, [sp], #16\n\tret")
    for number, (code, _) in enumerate(chosen):
        print(f"f{number}:\n\t" + "\n\t".join(code))
    print('\t.section .pdata,"dr"')
    for number, (_, data) in enumerate(chosen):
        print(f"\t.long f{number}@IMGREL\n\t.long {data:#x}")


if __name__ == "__main__":
    if len(sys.argv) == 1:
        sys.exit(__doc__)
    main()
