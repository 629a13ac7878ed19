#!/usr/bin/env python3
"""Runs the built pdb_symbolizer over small PDB files, and makes each of its memory allocations fail in turn. It reports
every run that ends in a way it must not.

Usage: refused_pdb_growths.py PROGRAM

The Nth allocation fails alone, or each from the Nth on, as in refused_growths.py. N goes over all allocations of a run.
A run may end in these ways:

- as expected, if the failed allocation wasn't needed
- with status 1 and `Out of memory` as the last line on standard error. Standard output then has whole answers of the
  first addresses, and the rest of standard error is a beginning of the expected lines.

It must not end in another way, by a signal, or after more than ten seconds. After each case the same lookups must still
give the expected answers.
"""
import concurrent.futures
import os
import pathlib
import subprocess
import sys
import tempfile
from collections import Counter

from refused_growths import MODES, SECONDS, WORKERS, Run, compiled, counts

CRATES = pathlib.Path(__file__).resolve().parents[2] / "crates"
MEMORY = b"pdb_symbolizer: Out of memory\n"
# For each case: its folder in the crates, its arguments, and the lines of its standard input.
CASES = [
    ("pdb_symbolizer/data", ["-p", "shapes.pdb", "0x1136", "0x10b0", "0x1180"], b""),
    ("pdb_symbolizer/data", ["-p", "shapes.pdb"], b"0x1136\n0x10b0\n0x1180\n"),
    ("pdb_symbolizer/data", ["-p"], b"shapes.pdb 0x1136\nshapes.pdb 0x10b0\nshapes.exe 0x140001136\n"),
    ("pdb_symbolizer_tests/data", ["--print-source-context-lines=3", "--no-demangle", "source.pdb", "0x1136", "0x1180"], b""),
    ("pdb_symbolizer_tests/data", ["-p"], b"arm64.pdb 0x1104\nsource.exe 0x140001136\narm64.pdb 0x1104\nsource.exe 0x1400010b0\n"),
    ("pdb_symbolizer_tests/data", ["-p", "broken_parts.pdb"], b"0x1020\n0x1200\n0x1050\n"),
    ("pdb_container_tests/data", ["-p", "kinds.pdb"], b"0x1000\n0x1020\n0x1040\n0x1200\n"),
]
AS_WANTED, BEHIND_ANSWERS, AT_FIRST = "as wanted", "out of memory behind whole answers", "out of memory before any answer"


def ask(program, case, library=None, counts_file=None, seconds=SECONDS, **refusal):
    """Runs a case, for at most `seconds`. If a library is given, it is preloaded and makes allocations or reads
    fail."""
    folder, words, lines = case
    environment = dict(os.environ)
    if library:
        environment.update(LD_PRELOAD=str(library), COUNT_TO=str(counts_file))
        environment.update({name: str(number) for name, number in refusal.items()})
    done = subprocess.run([program, *words], cwd=CRATES / folder, env=environment, capture_output=True, timeout=seconds,
                          input=lines)
    return Run(done.returncode, done.stdout, done.stderr)


def is_begin_of_answers(text, whole):
    """Returns whether a text is the first answers of a whole text. Each answer ends with an empty line."""
    return whole.startswith(text) and (not text or text.endswith(b"\n\n"))


def outcome(wanted, run):
    """Returns the kind of end of a run with failing allocations, or None if it must not end so."""
    if run == wanted:
        return AS_WANTED
    told = run.stderr.removesuffix(MEMORY)
    if run.status != 1 or told == run.stderr or not wanted.stderr.startswith(told):
        return None
    if not is_begin_of_answers(run.stdout, wanted.stdout):
        return None
    return BEHIND_ANSWERS if run.stdout else AT_FIRST


def trial(program, case, wanted, library, folder, mode, number):
    """Returns the outcome of a run with a failing allocation, and the run."""
    counts_file = folder / f"{mode}-{number}"
    try:
        run = ask(program, case, library, counts_file, **{mode: number})
    except subprocess.TimeoutExpired:
        return None, f"no end after {SECONDS} s"
    counts_file.unlink(missing_ok=True)
    return outcome(wanted, run), run


def over_case(program, case, library, folder):
    """Tries all allocations of a case. Returns the number of each outcome."""
    wanted = ask(program, case)
    counts_file = folder / "counts"
    if ask(program, case, library, counts_file) != wanted or wanted.status:
        sys.exit(f"{case}: not as wanted with no growth refused: {wanted}")
    calls = counts(counts_file)[0]
    print(f"{' '.join(case[1])}: {calls} growths", flush=True)
    arguments = [(mode, number) for mode in MODES for number in range(1, calls + 1)]
    seen = Counter()
    with concurrent.futures.ThreadPoolExecutor(WORKERS) as pool:
        found = pool.map(lambda pair: trial(program, case, wanted, library, folder, *pair), arguments)
        for (mode, number), (what, run) in zip(arguments, found):
            seen[what] += 1
            if what is None:
                print(f"{mode}={number} {case[1]}: {run}", flush=True)
    if ask(program, case) != wanted:
        sys.exit(f"{case}: not as wanted when it is asked again")
    return seen


def sweep(program, cases, make_library, over_case, names):
    """Tries these cases with a library that makes calls fail, and prints the number of each outcome. Returns the exit
    status."""
    seen = Counter()
    with tempfile.TemporaryDirectory() as folder:
        folder = pathlib.Path(folder)
        library = make_library(folder)
        for case in cases:
            seen += over_case(os.path.abspath(program), case, library, folder)
    print(f"{sum(seen.values())} runs of {len(cases)} cases, {seen[None]} wrong")
    for name in names:
        print(f"{seen[name]:8d}  {name}")
    return 1 if seen[None] else 0


def main(program):
    return sweep(program, CASES, compiled, over_case, (AS_WANTED, BEHIND_ANSWERS, AT_FIRST))


if __name__ == "__main__":
    if len(sys.argv) != 2:
        sys.exit(__doc__)
    sys.exit(main(sys.argv[1]))
