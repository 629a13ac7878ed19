#!/usr/bin/env python3
"""Measures how fast the Rust crate finds frames in a PDB file, and compares it with two programs.

Usage: bindings.py FOLDER PDB EXE ADDRESSES RUNS SYMBOLIZER

FOLDER is the output of `bindings/run.sh FOLDER`. ADDRESSES is a file with one address per line, relative to the load
address. SYMBOLIZER is a built pdb_symbolizer.

The script prints these figures, each the minimum over RUNS runs:

  - the time to open the file and do the first lookup
  - the time of each later lookup
  - lookups per second, for the crate, pdb_symbolizer and llvm-symbolizer. Each program gets all addresses in one run.

The exit status is 1 if a later lookup takes more than a fifth of the time for opening the file and the first lookup.
"""
import os
import pathlib
import subprocess
import sys
import time

MOST_OF_THE_FIRST = 5


def crate_figures(folder, pdb, addresses, runs):
    """Returns the milliseconds of opening plus the first lookup, and those of one later lookup."""
    words = [str(folder / "target" / "release" / "examples" / "questions"), pdb, addresses]
    rows = [subprocess.run(words, capture_output=True, check=True, text=True).stdout.split() for _ in range(runs)]
    return min(float(row[0]) for row in rows), min(float(row[1]) for row in rows)


def program_seconds(words, addresses, runs):
    """Returns the seconds that a program needs for all addresses after the first. A run over the first address alone is
    subtracted, so that starting the program and opening the file don't count."""
    lines = pathlib.Path(addresses).read_text().splitlines(keepends=True)
    return max(least(words, "".join(lines), runs) - least(words, lines[0], runs), 1e-9)


def least(words, text, runs):
    seconds = []
    for _ in range(runs):
        start = time.perf_counter()
        subprocess.run(words, input=text, text=True, stdout=subprocess.DEVNULL, check=True)
        seconds.append(time.perf_counter() - start)
    return min(seconds)


def main(folder, pdb, exe, addresses, runs, symbolizer):
    count = len(pathlib.Path(addresses).read_text().split())
    first, later = crate_figures(pathlib.Path(folder), pdb, addresses, int(runs))
    llvm = program_seconds(["llvm-symbolizer", f"--obj={exe}", "--relative-address"], addresses, int(runs))
    program = program_seconds([symbolizer, f"--obj={pdb}"], addresses, int(runs))
    print(f"{os.path.getsize(pdb):,} bytes, {count} addresses")
    print(f"opening and the first question: {first:.2f} ms; a later question: {later:.4f} ms, a {first / later:.0f}th")
    print(f"addresses a second: {1000 / later:,.0f}; pdb_symbolizer: {(count - 1) / program:,.0f}; "
          f"llvm-symbolizer: {(count - 1) / llvm:,.0f}")
    return 0 if later * MOST_OF_THE_FIRST <= first else 1


if __name__ == "__main__":
    if len(sys.argv) != 7:
        sys.exit(__doc__)
    sys.exit(main(*sys.argv[1:]))
