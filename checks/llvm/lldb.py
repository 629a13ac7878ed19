#!/usr/bin/env python3
"""Has lldb read the symbol file of `pdb_symbolizer --dump-syms`, and compares what lldb prints with the program's
answers.

Usage: lldb.py PROGRAM EXE [COUNT [LLDB]]

EXE is a program with its PDB file in the same folder. The script takes COUNT addresses (200), evenly spread over all
functions of the symbol file. LLDB (lldb-22) loads the program and the symbol file (`target symbols add`). `image
lookup` must print the function itself, and the file and line of the innermost frame, as PROGRAM answers them. lldb 22
takes inlined ranges as relative to their section, so it shows no inlined frames. The script prints the addresses that
differ.
"""
import json
import pathlib
import re
import shutil
import subprocess
import sys
import tempfile

FUNCTION = re.compile(r'^ *(?:Function|Symbol): id = .*?, name ?= ?"(.*?)"(?:, mangled ?= ?"(.*?)")?(?:, range.*)?$', re.M)
LINE = re.compile(r"^ *LineEntry: \[[^)]*\): (.*):(\d+)$", re.M)
FUNC = re.compile(r"^FUNC (?:m )?([0-9a-f]+) ([0-9a-f]+) ", re.M)


def run(*words, text=None):
    """Returns the standard output of a program."""
    return subprocess.run(words, input=text, capture_output=True, text=True, check=True, errors="replace").stdout


def drawn(symbols, count):
    """Returns up to `count` addresses, evenly spread over the functions."""
    ranges = [(int(start, 16), int(size, 16)) for start, size in FUNC.findall(symbols)]
    addresses = [address for start, size in ranges for address in range(start, start + size)]
    return addresses[::max(1, len(addresses) // count)][:count]


def image_base(exe):
    """Returns the image base in the program's header."""
    data = pathlib.Path(exe).read_bytes()
    front = int.from_bytes(data[60:64], "little") + 24
    wide = data[front:front + 2] == b"\x0b\x02"
    return int.from_bytes(data[front + 24:front + 32] if wide else data[front + 28:front + 32], "little")


def wanted(program, exe, addresses):
    """Yields the program's answers: the function at each address, and the file and line of its innermost frame."""
    text = "".join(f"0x{address:x}\n" for address in addresses)
    for line in run(program, "--output-style=JSON", "--relative-address", exe, text=text).splitlines():
        frames = json.loads(line)["Symbol"]
        yield frames[-1]["FunctionName"] or "<name omitted>", frames[0]["FileName"], frames[0]["Line"]


def found(lldb, exe, symbols, addresses):
    """Yields the same as lldb prints it."""
    base = image_base(exe)
    with tempfile.TemporaryDirectory(prefix="lldb-") as room:
        shutil.copy(exe, f"{room}/program.exe")
        pathlib.Path(f"{room}/program.sym").write_text(symbols, encoding="utf-8")
        commands = [f"target create {room}/program.exe", f"target symbols add {room}/program.sym",
                    *(f"image lookup -v -a 0x{base + address:x}" for address in addresses)]
        pathlib.Path(f"{room}/commands").write_text("\n".join(commands) + "\n", encoding="utf-8")
        printed = run(lldb, "--no-lldbinit", "-b", "-s", f"{room}/commands")
    for text in printed.split("(lldb) image lookup")[1:]:
        function, line = FUNCTION.search(text), LINE.search(text)
        yield (function[2] or function[1]) if function else "", line[1] if line else "", int(line[2]) if line else 0


def main(program, exe, count="200", lldb="lldb-22"):
    program = str(pathlib.Path(program).resolve())
    symbols = run(program, "--dump-syms", exe)
    addresses = drawn(symbols, int(count))
    differing = 0
    for address, ours, theirs in zip(addresses, wanted(program, exe, addresses), found(lldb, exe, symbols, addresses), strict=True):
        if ours != theirs:
            differing += 1
            print(f"0x{address:x}\n    here {ours}\n    lldb {theirs}")
    print(f"{len(addresses)} addresses: {differing} differ")
    return differing > 0


if __name__ == "__main__":
    if len(sys.argv) < 3:
        sys.exit(__doc__)
    sys.exit(main(*sys.argv[1:]))
