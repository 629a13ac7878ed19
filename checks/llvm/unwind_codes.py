#!/usr/bin/env python3
"""Compares the unwind infos that llvm-readobj shows for x64 programs with those that the second implementation reads.

Usage: unwind_codes.py READOBJ FILE..     READOBJ is llvm-readobj of LLVM 22

`READOBJ --unwind` shows the functions of the exception directory of each FILE. For each one, `stack_records.py` of
`pdb_symbolizer_tests` must read the same version, size of the prologue, frame register and codes. The codes are those
that push, allocate, save and set the frame, with their offsets and operands. Other checks compare the records of symbol
files with that script. The script prints each difference, and how many functions were compared.
"""
import pathlib
import re
import subprocess
import sys

sys.path.append(str(pathlib.Path(__file__).resolve().parents[2] / "crates" / "pdb_symbolizer_tests" / "data"))

from stack_records import REGS, Image, entries, info  # noqa: E402

FUNCTION = re.compile(r"RuntimeFunction \{(.*?)\n  \}\n", re.S)
FIELD = re.compile(r"^ +(\w+): (.*)$", re.M)
CODE = re.compile(r"^ +0x([0-9A-F]+): (\w+)(.*)$", re.M)
ADDRESS = re.compile(r"\(0x([0-9A-F]+)\)")


def operand(text, name):
    """Returns the value of an operand."""
    return re.search(rf"\b{name}=([^,\s]+)", text)[1]


def shown_code(offset, name, operands):
    """Returns a code in the form of the second implementation, or None if that has no such code."""
    if name == "PUSH_NONVOL":
        return offset, "push", REGS.index(operand(operands, "reg").lower())
    if name in ("ALLOC_SMALL", "ALLOC_LARGE"):
        return offset, "alloc", int(operand(operands, "size"), 0)
    if name == "SET_FPREG":
        return offset, "frame", 0
    if name in ("SAVE_NONVOL", "SAVE_NONVOL_FAR"):
        return offset, "save", (REGS.index(operand(operands, "reg").lower()), int(operand(operands, "offset"), 0))
    if name == "PUSH_MACHFRAME":
        return offset, "trap", int(operand(operands, "errcode") == "yes")
    return None


def shown(text, base):
    """Yields the functions that llvm-readobj shows, with begin, end, and the fields of the unwind info. If an info is
    chained, the fields of the next one follow its own, so the first ones count. If the info can't be read, llvm-readobj
    shows no fields, and addresses without the image base."""
    for function in FUNCTION.finditer(text):
        fields = dict(reversed(FIELD.findall(function[1])))
        begin, end = (int(ADDRESS.search(fields[name])[1], 16) for name in ("StartAddress", "EndAddress"))
        if "Version" not in fields:
            yield begin, end, None
            continue
        codes = [shown_code(int(at, 16), name, rest) for at, name, rest in CODE.findall(function[1])]
        frame = fields["FrameRegister"].split()[0].lower()
        yield begin - base, end - base, dict(
            version=int(fields["Version"]), prologue=int(fields["PrologSize"]),
            frame=REGS.index(frame) if frame in REGS else 0, codes=[code for code in codes if code])


def read(image, unwind):
    """Returns what the second implementation reads of an info, or None if it can't be read."""
    try:
        own = info(image, unwind)
    except ValueError:
        return None
    return {**{name: own[name] for name in ("version", "prologue", "codes")}, "frame": own["frame"][0]}


def main():
    readobj, *files = sys.argv[1:]
    compared = different = 0
    for file in files:
        data = pathlib.Path(file).read_bytes()
        image = Image(data)
        text = subprocess.run([readobj, "--unwind", file], capture_output=True, text=True, check=True).stdout
        base = int.from_bytes(data[(at := int.from_bytes(data[0x3C:0x40], "little") + 48):at + 8], "little")
        functions = {(begin, end): what for begin, end, what in shown(text, base)}
        wanted = {(begin, end): read(image, unwind) for begin, end, unwind in entries(image)}
        compared += len(wanted)
        for place in sorted(set(functions) | set(wanted)):
            if functions.get(place) != wanted.get(place):
                different += 1
                print(f"{file}: 0x{place[0]:x}: {functions.get(place)}, read as {wanted.get(place)}")
    print(f"{compared} functions of {len(files)} programs, {different} different")
    sys.exit(1 if different else 0)


if __name__ == "__main__":
    main()
