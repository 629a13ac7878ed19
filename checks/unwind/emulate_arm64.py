#!/usr/bin/env python3
"""Runs an ARM64 program in an emulator, and compares the stack at each instruction with what its symbol file says.

Usage: emulate_arm64.py PROGRAM SYMBOLS COUNT     needs Debian's python3-unicorn, so run it by /usr/bin/python3

PROGRAM is an ARM64 EXE that imports nothing. SYMBOLS is its Breakpad symbol file with `STACK CFI` records. The program
runs from its entry point, for at most COUNT instructions. The script keeps its own list of open calls: the registers
x19 to x29 and sp before the call, and the return address. Before each instruction it evaluates the rules of the symbol
file there. The address of the caller's frame, the return address and each of these registers must be those of the list.
x30 must be the return address, as it is when the function has returned. A register without a rule keeps its value.

The script prints how many instructions were compared, at how many addresses, how many were in code without a record,
and the first wrong ones. The exit status is 1 if any was wrong.
"""
import struct
import sys

import unicorn
from unicorn import arm64_const

from emulate import END, STACK, STACK_SIZE, Program, Records, evaluate

KEPT = [f"x{number}" for number in range(19, 30)]
NAMES = [f"x{number}" for number in range(31)] + ["sp"]
NUMBERS = {name: getattr(arm64_const, "UC_ARM64_REG_" + name.upper()) for name in NAMES}


def is_call(code):
    """Returns whether an instruction is `bl` or `blr`."""
    return code & 0xFC00_0000 == 0x9400_0000 or code & 0xFFFF_FC1F == 0xD63F_0000


def is_return(code):
    """Returns whether an instruction is `ret`."""
    return code & 0xFFFF_FC1F == 0xD65F_0000


class Run:
    """A run of a program, compared with the records of its symbol file."""

    def __init__(self, program, records, count):
        self.program, self.records, self.left = program, records, count
        self.calls, self.pending, self.returning = [], None, False
        self.compared = self.uncovered = self.wrong = 0
        self.addresses = set()
        self.machine = unicorn.Uc(unicorn.UC_ARCH_ARM64, unicorn.UC_MODE_ARM)
        size = (program.size + 0xFFFF) & ~0xFFFF
        self.machine.mem_map(program.base, size)
        for rva, data in program.sections:
            self.machine.mem_write(program.base + rva, data)
        self.machine.mem_map(STACK, STACK_SIZE)
        self.machine.mem_map(END, 0x1000)
        for number, name in enumerate(KEPT):
            self.machine.reg_write(NUMBERS[name], 0x1111_0000 + number)
        self.machine.reg_write(NUMBERS["sp"], STACK + STACK_SIZE - 0x1000)
        self.machine.reg_write(NUMBERS["x30"], END)
        self.before_call(END)
        self.machine.hook_add(unicorn.UC_HOOK_CODE, self.step)

    def registers(self):
        return {name: self.machine.reg_read(number) for name, number in NUMBERS.items()}

    def load(self, address):
        try:
            return struct.unpack("<Q", self.machine.mem_read(address, 8))[0]
        except unicorn.UcError:
            return 0xDEAD_DEAD_DEAD_DEAD

    def before_call(self, behind):
        """Remembers the registers that the caller will have when the call has returned to its return address,
        `behind`."""
        values = self.registers()
        self.pending = {name: values[name] for name in KEPT + ["sp"]}
        self.pending["x30"] = self.pending["return address"] = behind

    def step(self, machine, address, size, _):
        if self.pending is not None:
            self.calls.append(self.pending)
            self.pending = None
        if self.returning:
            self.calls.pop()
            self.returning = False
        if address == END or self.left == 0 or not self.calls:
            machine.emu_stop()
            return
        self.left -= 1
        self.compare(address)
        (code,) = struct.unpack("<I", machine.mem_read(address, 4))
        if is_call(code):
            self.before_call(address + 4)
        elif is_return(code):
            self.returning = True

    def compare(self, address):
        """Compares the caller according to the records with the last open call."""
        rules = self.records.at(address - self.program.base)
        if rules is None:
            self.uncovered += 1
            return
        self.compared += 1
        self.addresses.add(address)
        values = self.registers()
        wanted = self.calls[-1]
        values[".cfa"] = evaluate(rules[".cfa"], values, self.load)
        found = {"sp": values[".cfa"], "return address": evaluate(rules[".ra"], values, self.load)}
        for name in KEPT + ["x30"]:
            found[name] = evaluate(rules[name], values, self.load) if name in rules else values[name]
        differing = [name for name, value in found.items() if value != wanted[name]]
        if differing:
            self.wrong += 1
            if self.wrong <= 10:
                print(f"wrong at 0x{address - self.program.base:x}: {', '.join(differing)}")

    def run(self):
        self.machine.emu_start(self.program.base + self.program.entry, END, count=0)


def main():
    with open(sys.argv[1], "rb") as file:
        program = Program(file.read())
    with open(sys.argv[2]) as lines:
        records = Records(line for line in lines if line.startswith("STACK CFI"))
    run = Run(program, records, int(sys.argv[3]))
    try:
        run.run()
    except unicorn.UcError as error:
        print(f"the program stopped: {error}")
    print(f"{run.compared} instructions compared, at {len(run.addresses)} addresses, {run.uncovered} in code without a "
          f"record, {run.wrong} wrong")
    sys.exit(1 if run.wrong or not run.compared else 0)


if __name__ == "__main__":
    if len(sys.argv) == 1:
        sys.exit(__doc__)
    main()
