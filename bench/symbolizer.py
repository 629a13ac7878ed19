#!/usr/bin/env python3
"""Compares the built pdb_symbolizer with llvm-symbolizer of LLVM 22, in time and memory, over programs and their PDB
files.

Usage: symbolizer.py PROGRAM RUNS EXE..

The PDB file of app.exe is app.pdb in the same folder. Each program gets one address in the middle of the code. In
another run it gets the start and the middle of each function, as `--dump-syms` lists them. Addresses come from standard
input, and the programs take turns. Each time is the minimum over RUNS runs, and each memory the maximum. The number in
parentheses after a figure of llvm-symbolizer is its ratio to that of pdb_symbolizer. The output is a table of
bench/RESULTS.md, from which bench/plot.py draws.
"""
import os
import subprocess
import sys
import tempfile
import time

from reading import functions

MEGABYTE = 1_000_000
HEADER = """\
| PDB file | Addresses | Program | First answer | Memory | All addresses | Memory |
|---|---|---|---|---|---|---|"""


def commands(program, pdb, exe):
    """Returns the command of each program, by its name in the table."""
    return {"`pdb_symbolizer`": [program, pdb],
            "`llvm-symbolizer`": ["llvm-symbolizer-22", f"--obj={exe}", "--relative-address"]}


def run(words, path):
    """Returns the seconds of a run over a file of addresses, and its peak memory in megabytes."""
    with open(path) as addresses, open(os.devnull, "w") as out:
        start = time.perf_counter()
        process = subprocess.Popen(words, stdin=addresses, stdout=out)
        _, status, usage = os.wait4(process.pid, 0)
        seconds = time.perf_counter() - start
    process.returncode = os.waitstatus_to_exitcode(status)
    if process.returncode:
        sys.exit(f"{words[0]} ended with {process.returncode}")
    return seconds, usage.ru_maxrss * 1024 / MEGABYTE


def figures(named, runs, paths):
    """Returns for each program the seconds and megabytes of each list of addresses."""
    turns = [{name: [run(words, path) for path in paths] for name, words in named.items()} for _ in range(runs)]
    return {name: [(min(turn[name][at][0] for turn in turns), max(turn[name][at][1] for turn in turns))
                   for at in range(len(paths))] for name in named}


def asked(folder, addresses):
    """Writes the addresses of each list to a file, and returns the paths."""
    paths = []
    for name, some in (("first", addresses[len(addresses) // 2:][:1]), ("all", addresses)):
        paths.append(os.path.join(folder, name))
        with open(paths[-1], "w") as out:
            out.writelines(f"0x{address:x}\n" for address in some)
    return paths


def cells(found, ours):
    """Yields a row's cells: each figure, for llvm-symbolizer with its ratio to that of pdb_symbolizer."""
    for (seconds, memory), (our_seconds, our_memory) in zip(found, ours):
        yield f"{seconds * 1000:.0f} ms" + ("" if found is ours else f" ({seconds / our_seconds:.1f})")
        yield f"{memory:.0f} MB" + ("" if found is ours else f" ({memory / our_memory:.1f})")


def main(program, runs, *exes):
    print(HEADER)
    for exe in exes:
        pdb = os.path.splitext(exe)[0] + ".pdb"
        addresses = functions(program, pdb)
        with tempfile.TemporaryDirectory() as folder:
            found = figures(commands(program, pdb, exe), int(runs), asked(folder, addresses))
        front = f"| {os.path.getsize(pdb) / MEGABYTE:.1f} MB | {len(addresses):,}"
        for name, figure in found.items():
            print(front, name, *cells(figure, found["`pdb_symbolizer`"]), sep=" | ", end=" |\n", flush=True)
            front = "| | "


if __name__ == "__main__":
    if len(sys.argv) < 4:
        sys.exit(__doc__)
    main(*sys.argv[1:])
