#!/usr/bin/env python3
"""Runs the built pdb_symbolizer on mutated copies of a PDB file, and reports every run that misbehaves.

Usage: pdb_files.py PROGRAM COUNT [SEED] [PDB..]

Without a PDB, the files of crates/pdb_symbolizer/data are used. A copy has bits flipped, numbers made huge or small,
blocks overwritten by others, numbers in the directory changed, or bytes filled with one value. Others are cut. A run
misbehaves in these cases:

  - It ends by a signal.
  - It takes more than ten seconds.
  - It takes more memory than 64 MiB plus 100 bytes for each byte of the file.
  - Its status is not 0, 1 or 2.
  - Its status is 1 or 2, and standard error has other than one line.
"""
import collections
import pathlib
import random
import resource
import struct
import subprocess
import sys
import tempfile

DATA = pathlib.Path(__file__).resolve().parents[2] / "crates" / "pdb_symbolizer" / "data"
ADDRESSES = ["0", "1000", "1020", "10b0", "1180", "11c0", "1230", "1280", "2000", "7fffffff", "ffffffff"]
NUMBERS = [0, 1, 2, 3, 4, 7, 0x7f, 0x80, 0xff, 0x1000, 0x7fff, 0x8000, 0xffff, 0x7fffffff, 0x80000000, 0xfffffffe, 0xffffffff]


def blocks_of(pdb):
    """Returns the block size, and the offset and length of the first block of the directory."""
    size = struct.unpack_from("<I", pdb, 32)[0]
    length, where = struct.unpack_from("<I", pdb, 44)[0], struct.unpack_from("<I", pdb, 52)[0]
    first = struct.unpack_from("<I", pdb, where * size)[0]
    return size, first * size, min(length, size)


def flipped(pdb, chance):
    """Flips some bits."""
    out = bytearray(pdb)
    for _ in range(chance.choice([1, 1, 2, 8, 64])):
        out[chance.randrange(len(out))] ^= 1 << chance.randrange(8)
    return out


def numbered(pdb, chance):
    """Overwrites numbers of one, two or four bytes, some of them at multiples of four."""
    out = bytearray(pdb)
    for _ in range(chance.choice([1, 1, 2, 4])):
        width = chance.choice([1, 2, 4])
        at = chance.randrange(len(out) - 4)
        at -= at % chance.choice([1, 4])
        out[at:at + width] = struct.pack("<I", chance.choice(NUMBERS))[:width]
    return out


def redirected(pdb, chance):
    """Overwrites numbers of the directory or the superblock: a length, a block, a count."""
    out = bytearray(pdb)
    size, start, length = blocks_of(pdb)
    length = min(length, len(pdb) - start)
    for _ in range(chance.choice([1, 1, 2, 8])):
        at = chance.choice([32, 36, 40, 44, 48, 52] + [start + 4 * k for k in range(length // 4)] * 4)
        number = chance.choice(NUMBERS + [chance.randrange(len(pdb) // size + 2)] * 12)
        struct.pack_into("<I", out, at, number)
    return out


def exchanged(pdb, chance):
    """Overwrites a block by another one."""
    out = bytearray(pdb)
    size = blocks_of(pdb)[0]
    count = len(pdb) // size
    a, b = chance.randrange(1, count), chance.randrange(1, count)
    out[a * size:(a + 1) * size] = pdb[b * size:(b + 1) * size]
    return out


def cut(pdb, chance):
    """Cuts the file at a random place."""
    return bytearray(pdb[:chance.randrange(len(pdb))])


def filled(pdb, chance):
    """Overwrites a range by one repeated byte."""
    out = bytearray(pdb)
    at, length = chance.randrange(len(out)), chance.choice([2, 4, 16, 256, 4096])
    out[at:at + length] = bytes([chance.choice([0, 0xff, 0x80, 0xf1])]) * len(out[at:at + length])
    return out


KINDS = [flipped, numbered, redirected, exchanged, cut, filled]


def misbehaviour(program, path, length):
    """Returns what is wrong with a run on this file, or None, and the run's status."""
    most = 64 * 2**20 + 100 * length
    try:
        run = subprocess.run(
            [program, "--source-url", path] + ADDRESSES, capture_output=True, timeout=10,
            preexec_fn=lambda: resource.setrlimit(resource.RLIMIT_DATA, (most, most)))
    except subprocess.TimeoutExpired:
        return "more than ten seconds", None
    if run.returncode not in (0, 1, 2):
        return f"status {run.returncode}", run.returncode
    if b"memory" in run.stderr:
        return "more memory than it may have", run.returncode
    if run.returncode != 0 and run.stderr.count(b"\n") != 1:
        return f"status {run.returncode} with {run.stderr.count(10)} lines on standard error", run.returncode
    return None, run.returncode


def mutated(pdb, chance):
    """Applies one to three changes."""
    for _ in range(chance.choice([1, 1, 1, 2, 3])):
        if len(pdb) > 64:
            kind = chance.choice(KINDS)
            try:
                pdb = kind(pdb, chance)
            except (struct.error, ArithmeticError, ValueError, IndexError):
                pdb = flipped(pdb, chance)
    return pdb


def main():
    program, count = sys.argv[1], int(sys.argv[2])
    chance = random.Random(int(sys.argv[3]) if len(sys.argv) > 3 else 1)
    pdbs = [pathlib.Path(p).read_bytes() for p in sys.argv[4:] or sorted(DATA.glob("*.pdb"))]
    found = 0
    statuses = collections.Counter()
    with tempfile.TemporaryDirectory() as folder:
        path = pathlib.Path(folder) / "mutated.pdb"
        for number in range(count):
            pdb = mutated(chance.choice(pdbs), chance)
            path.write_bytes(pdb)
            wrong, status = misbehaviour(program, path, len(pdb))
            statuses[status] += 1
            if wrong:
                found += 1
                kept = pathlib.Path(tempfile.gettempdir()) / f"misbehaves-{number}.pdb"
                kept.write_bytes(pdb)
                print(f"{kept}: {wrong}")
    print(f"{count} runs, {found} misbehave, statuses", dict(sorted(statuses.items(), key=str)))
    sys.exit(1 if found else 0)


if __name__ == "__main__":
    if len(sys.argv) == 1:
        sys.exit(__doc__)
    main()
