#!/usr/bin/env python3
"""Runs the built pdb_symbolizer on programs whose unwind tables, code or headers are broken, and compares the unwind
records.

Usage: unwind_tables.py PROGRAM COUNT [SEED] [EXE..]

Each EXE is a program for x64 or ARM64. Its PDB file has the same name and is in the same folder. Without an EXE,
shapes.exe of crates/pdb_symbolizer/data is used. A copy has some bytes of its sections `.pdata`, `.rdata`, `.xdata` and
`.text`, or of its headers, flipped, exchanged or made huge.

`pdb_symbolizer --dump-syms` must then end with status 0, 1 or 2 within ten seconds. If the status is 0, its STACK CFI
records must be those of stack_records.py, the second implementation in crates/pdb_symbolizer_tests/data. For each entry
that stack_records.py leaves out, there must be a line on standard error. There is no second implementation for ARM64,
so records of such a program aren't compared.
"""
import pathlib
import random
import struct
import subprocess
import sys
import tempfile

CRATES = pathlib.Path(__file__).resolve().parents[2] / "crates"
sys.path.insert(0, str(CRATES / "pdb_symbolizer_tests" / "data"))
from stack_records import stack_records

BYTES = [0, 1, 2, 3, 4, 0x21, 0x22, 0x7F, 0x80, 0xFF, 0xC3, 0x58, 0x5C, 0x41, 0xEB, 0xE9]
NUMBERS = [0, 1, 0x7FFFFFFF, 0x80000000, 0xFFFFFFFF]
WEIGHTS = {".pdata": 8, ".rdata": 7, ".xdata": 7, ".text": 3}


def ranges_of(program):
    """Returns the ranges of the headers and the sections that matter. Each is in the list as often as its weight."""
    start = struct.unpack_from("<I", program, 60)[0]
    count, size = struct.unpack_from("<H12xH", program, start + 6)
    found = [(start, start + 24 + size + 40 * count)] * 2
    for number in range(count):
        at = start + 24 + size + 40 * number
        length, offset = struct.unpack_from("<II", program, at + 16)
        name = program[at:at + 8].rstrip(b"\0").decode(errors="replace")
        found += [(offset, offset + length)] * WEIGHTS.get(name, 0)
    return found


def mutated(program, draw):
    """Applies a few changes."""
    ranges, program = ranges_of(program), bytearray(program)
    for _ in range(draw.randrange(1, 7)):
        low, high = draw.choice(ranges)
        at, other = (draw.randrange(low, min(high, len(program) - 12)) for _ in range(2))
        kind = draw.randrange(4)
        if kind == 0:
            program[at] ^= 1 << draw.randrange(8)
        elif kind == 1:
            program[at] = draw.choice(BYTES)
        elif kind == 2:
            struct.pack_into("<I", program, at, draw.choice([*NUMBERS, draw.randrange(0x8000)]))
        else:
            program[at:at + 12] = program[other:other + 12]
    return bytes(program)


def expected(copy):
    """Returns the records of a copy, and the entries that are left out. Both are empty if its headers can't be read."""
    try:
        return stack_records(copy)
    except (ValueError, struct.error):
        return [], []


def is_arm64(copy):
    """Returns whether a copy is for ARM64."""
    return copy.find(b"PE\0\0\x64\xaa") >= 0


def outcome(program, path, copy):
    """Returns the status of a run on a copy, and what is wrong with the run, or None."""
    path.write_bytes(copy)
    try:
        run = subprocess.run([program, "--dump-syms", path], capture_output=True, timeout=10)
    except subprocess.TimeoutExpired:
        return None, "takes more than ten seconds"
    if run.returncode not in (0, 1, 2):
        return run.returncode, f"status {run.returncode}"
    if run.returncode != 0 or is_arm64(copy):
        return run.returncode, None
    found = [line for line in run.stdout.decode(errors="replace").splitlines() if line.startswith("STACK")]
    told = run.stderr.count(b": no unwind records at ")
    records, left_out = expected(copy)
    if found != records:
        return 0, "other records"
    return 0, None if told == len(left_out) else f"{told} lines for {len(left_out)} entries"


def main(words):
    program, count, seed = str(pathlib.Path(words[0]).resolve()), int(words[1]), int(words[2]) if len(words) > 2 else 0
    paths = [pathlib.Path(word) for word in words[3:]] or [CRATES / "pdb_symbolizer" / "data" / "shapes.exe"]
    counts, wrong = {}, 0
    with tempfile.TemporaryDirectory(prefix="unwind-tables-") as folder:
        for path in paths:
            pdb = path.with_suffix(".pdb")
            (pathlib.Path(folder) / pdb.name).write_bytes(pdb.read_bytes())
        for number in range(seed, seed + count):
            draw = random.Random(number)
            path = draw.choice(paths)
            status, fault = outcome(program, pathlib.Path(folder) / path.name, mutated(path.read_bytes(), draw))
            counts[status] = counts.get(status, 0) + 1
            if fault:
                wrong += 1
                print(f"seed {number}: {fault}")
    print(f"{count} programs, {wrong} wrong; " + ", ".join(f"{n} end with {status}" for status, n in counts.items()))
    return wrong > 0


if __name__ == "__main__":
    if len(sys.argv) == 1:
        sys.exit(__doc__)
    sys.exit(main(sys.argv[1:]))
