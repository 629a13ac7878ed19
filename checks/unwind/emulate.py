#!/usr/bin/env python3
"""Runs an x64 program in an emulator, and compares the stack at each instruction with what its symbol file says.

Usage: emulate.py PROGRAM SYMBOLS COUNT     needs Debian's python3-unicorn, so run it by /usr/bin/python3

PROGRAM is an x64 EXE that imports nothing. SYMBOLS is its Breakpad symbol file with `STACK CFI` records. The program
runs from its entry point, for at most COUNT instructions. The script keeps its own list of open calls: where each
return address is on the stack, and the registers rbx, rbp, rsi, rdi, rsp and r12 to r15 before the call. Before each
instruction it evaluates the rules of the symbol file there. The address of the caller's frame, the return address and
each of these registers must be those of the list. A register without a rule keeps its value.

The script prints how many instructions were compared, how many were in code without a record, and the first wrong ones.
The exit status is 1 if any was wrong.
"""
import bisect
import struct
import sys

import unicorn
from unicorn import x86_const

KEPT = ["rbx", "rbp", "rsi", "rdi", "r12", "r13", "r14", "r15"]
NAMES = KEPT + ["rax", "rcx", "rdx", "rsp", "r8", "r9", "r10", "r11"]
NUMBERS = {name: getattr(x86_const, "UC_X86_REG_" + name.upper()) for name in NAMES}
STACK, STACK_SIZE = 0x7000_0000, 0x100_0000
END = 0x6666_0000
MASK = (1 << 64) - 1


class Program:
    """The sections of a program, and its entry point."""

    def __init__(self, data):
        headers = struct.unpack_from("<I", data, 0x3C)[0]
        count, optional_size = struct.unpack_from("<H12xH", data, headers + 6)
        optional = headers + 24
        self.entry = struct.unpack_from("<I", data, optional + 16)[0]
        self.base = struct.unpack_from("<Q", data, optional + 24)[0]
        self.size = struct.unpack_from("<I", data, optional + 56)[0]
        self.sections = []
        for number in range(count):
            at = optional + optional_size + 40 * number
            _, rva, size, offset = struct.unpack_from("<IIII", data, at + 8)
            self.sections.append((rva, data[offset:offset + size]))


class Records:
    """The STACK CFI records of a symbol file. Each has its address, its size, and its rules with their changes."""

    def __init__(self, lines):
        self.records = []
        for line in lines:
            words = line.split()
            if words[:3] == ["STACK", "CFI", "INIT"]:
                start, size = int(words[3], 16), int(words[4], 16)
                self.records.append((start, size, [(start, self.rules(words[5:]))]))
            elif words[:2] == ["STACK", "CFI"]:
                self.records[-1][2].append((int(words[2], 16), self.rules(words[3:])))
        self.records.sort(key=lambda record: record[0])
        self.starts = [record[0] for record in self.records]

    @staticmethod
    def rules(words):
        """Returns the rules by register. A register's name ends with a colon, and its expression follows."""
        rules, name = {}, None
        for word in words:
            if word.endswith(":"):
                name = word[:-1]
                rules[name] = []
            else:
                rules[name].append(word)
        return rules

    def at(self, rva):
        """Returns the rules at an address, or None if no record covers it."""
        position = bisect.bisect_right(self.starts, rva) - 1
        if position < 0 or rva >= self.records[position][0] + self.records[position][1]:
            return None
        rules = {}
        for start, changed in self.records[position][2]:
            if start > rva:
                break
            rules.update(changed)
        return rules


def evaluate(words, values, load):
    """Evaluates an expression in postfix form."""
    stack = []
    for word in words:
        if word == "+":
            right = stack.pop()
            stack.append((stack.pop() + right) & MASK)
        elif word == "-":
            right = stack.pop()
            stack.append((stack.pop() - right) & MASK)
        elif word == "^":
            stack.append(load(stack.pop()))
        elif word in values:
            stack.append(values[word])
        else:
            stack.append(int(word) & MASK)
    (value,) = stack
    return value


def is_call(code):
    """Returns whether an instruction is a call."""
    if code[0] & 0xF0 == 0x40:
        code = code[1:]
    return code[0] == 0xE8 or (code[0] == 0xFF and (code[1] >> 3) & 7 == 2)


def is_return(code):
    """Returns whether an instruction is a return."""
    return code[0] in (0xC3, 0xC2) or code[:2] == b"\xf3\xc3"


class Run:
    """A run of a program, compared with the records of its symbol file."""

    def __init__(self, program, records, count):
        self.program, self.records, self.left = program, records, count
        self.calls, self.pending, self.returning = [], None, False
        self.compared = self.uncovered = self.wrong = 0
        self.machine = unicorn.Uc(unicorn.UC_ARCH_X86, unicorn.UC_MODE_64)
        size = (program.size + 0xFFFF) & ~0xFFFF
        self.machine.mem_map(program.base, size)
        for rva, data in program.sections:
            self.machine.mem_write(program.base + rva, data)
        self.machine.mem_map(STACK, STACK_SIZE)
        self.machine.mem_map(END, 0x1000)
        for number, name in enumerate(KEPT):
            self.machine.reg_write(NUMBERS[name], 0x1111_0000 + number)
        self.machine.reg_write(NUMBERS["rsp"], STACK + STACK_SIZE - 0x1000)
        self.before_call()
        self.machine.mem_write(self.pending["rsp"] - 8, struct.pack("<Q", END))
        self.machine.reg_write(NUMBERS["rsp"], self.pending["rsp"] - 8)
        self.machine.hook_add(unicorn.UC_HOOK_CODE, self.step)

    def registers(self):
        return {name: self.machine.reg_read(number) for name, number in NUMBERS.items()}

    def load(self, address):
        try:
            return struct.unpack("<Q", self.machine.mem_read(address, 8))[0]
        except unicorn.UcError:
            return 0xDEAD_DEAD_DEAD_DEAD

    def before_call(self):
        """Remembers the caller's registers before a call."""
        values = self.registers()
        self.pending = {name: values[name] for name in KEPT + ["rsp"]}

    def step(self, machine, address, size, _):
        if self.pending is not None:
            self.calls.append(self.pending)
            self.pending = None
        if self.returning:
            self.calls.pop()
            self.returning = False
        if address == END or self.left == 0 or not self.calls:
            machine.emu_stop()
            return
        self.left -= 1
        self.compare(address)
        code = bytes(machine.mem_read(address, size))
        if is_call(code):
            self.before_call()
        elif is_return(code):
            self.returning = True

    def compare(self, address):
        """Compares the caller according to the records with the last open call."""
        rules = self.records.at(address - self.program.base)
        if rules is None:
            self.uncovered += 1
            return
        self.compared += 1
        values = {"$" + name: value for name, value in self.registers().items()}
        wanted = self.calls[-1]
        values[".cfa"] = evaluate(rules[".cfa"], values, self.load)
        found = {"rsp": values[".cfa"]}
        for name in KEPT:
            rule = rules.get("$" + name)
            found[name] = evaluate(rule, values, self.load) if rule else values["$" + name]
        returned = evaluate(rules[".ra"], values, self.load)
        differing = [name for name, value in found.items() if value != wanted[name]]
        if returned != self.load(wanted["rsp"] - 8):
            differing.append("return address")
        if differing:
            self.wrong += 1
            if self.wrong <= 10:
                print(f"wrong at 0x{address - self.program.base:x}: {', '.join(differing)}")

    def run(self):
        self.machine.emu_start(self.program.base + self.program.entry, END, count=0)


def main():
    with open(sys.argv[1], "rb") as file:
        program = Program(file.read())
    with open(sys.argv[2]) as lines:
        records = Records(line for line in lines if line.startswith("STACK CFI"))
    run = Run(program, records, int(sys.argv[3]))
    try:
        run.run()
    except unicorn.UcError as error:
        print(f"the program stopped: {error}")
    print(f"{run.compared} instructions compared, {run.uncovered} in code without a record, {run.wrong} wrong")
    sys.exit(1 if run.wrong or not run.compared else 0)


if __name__ == "__main__":
    if len(sys.argv) == 1:
        sys.exit(__doc__)
    main()
