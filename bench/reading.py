#!/usr/bin/env python3
"""Compares two builds of pdb_symbolizer over PDB files: time to the first answer, total time, and memory.

Usage: reading.py PROGRAM OTHER RUNS PDB..

There are three lists of addresses:

  - one address in the middle of the code
  - twenty addresses: four at each of five places
  - the start and the middle of each function, as `--dump-syms` of PROGRAM lists them

The programs read the addresses from standard input, and take turns. A time is the minimum over RUNS runs, in
milliseconds of a whole run. Memory is the maximum, in bytes per byte of the file. The numbers in parentheses after
OTHER's figures are PROGRAM's figures divided by them. From the second PDB file on, the heading says how many times the
first file's first answer this file's first answer took.
"""
import os
import subprocess
import sys
import tempfile
import time

QUESTIONS = ["first answer", "twenty addresses", "all functions"]


def functions(program, pdb):
    """Returns the start and the middle of each function. It reads line by line, because a child's peak memory starts at
    what this process holds."""
    places = []
    with subprocess.Popen([program, "--dump-syms", pdb], stdout=subprocess.PIPE, stderr=subprocess.DEVNULL) as process:
        for line in process.stdout:
            if line.startswith(b"FUNC ") and not line.startswith(b"FUNC m "):
                _, start, length, _ = line.split(maxsplit=3)
                places.append((int(start, 16), int(length, 16)))
    return [place for start, length in sorted(places) for place in (start, start + length // 2)]


def questions(addresses):
    """Returns the three lists of addresses."""
    middle = addresses[len(addresses) // 2]
    places = [len(addresses) * (2 * number + 1) // 10 for number in range(5)]
    return [[middle], [address for place in places for address in addresses[place:place + 4]], addresses]


def run(program, pdb, path):
    """Returns the milliseconds of a run over a file of addresses, and its peak memory in bytes."""
    with open(path) as addresses, open(os.devnull, "w") as out:
        start = time.perf_counter()
        process = subprocess.Popen([program, pdb], stdin=addresses, stdout=out, stderr=out)
        _, status, usage = os.wait4(process.pid, 0)
        milliseconds = (time.perf_counter() - start) * 1000
    process.returncode = os.waitstatus_to_exitcode(status)
    if process.returncode:
        sys.exit(f"{program} ended with {process.returncode}")
    return milliseconds, usage.ru_maxrss * 1024


def measure(programs, runs, pdb, folder):
    """Returns the file's size, and for each list of addresses the minimum milliseconds and the maximum memory of each
    program."""
    size = os.path.getsize(pdb)
    rows = []
    for number, addresses in enumerate(questions(functions(programs[0], pdb))):
        path = os.path.join(folder, str(number))
        with open(path, "w") as out:
            out.writelines(f"{address:x}\n" for address in addresses)
        turns = [[run(program, pdb, path) for program in programs] for _ in range(runs)]
        rows.append([(min(turn[at][0] for turn in turns), max(turn[at][1] for turn in turns) / size)
                     for at in range(len(programs))])
    return size, rows


def main(program, other, runs, *pdbs):
    first = None
    with tempfile.TemporaryDirectory() as folder:
        for pdb in pdbs:
            size, rows = measure([program, other], int(runs), pdb, folder)
            growth = f", first answer {rows[0][0][0] / first:.2f} times" if first else ""
            print(f"{pdb}: {size / 1e6:.1f} MB, the least of {runs} runs{growth}")
            first = first or rows[0][0][0]
            for question, ((ours, held), (theirs, kept)) in zip(QUESTIONS, rows):
                print(f"| {question} | {ours:.0f} ms | {held:.2f} | {theirs:.0f} ms ({ours / theirs:.3f}) "
                      f"| {kept:.2f} ({held / kept:.2f}) |")


if __name__ == "__main__":
    if len(sys.argv) < 5:
        sys.exit(__doc__)
    main(*sys.argv[1:])
