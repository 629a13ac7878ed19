#!/usr/bin/env python3
"""Runs the built pdb_symbolizer over small PDB files, and makes each of its reads fail or end early in turn, or all of
them short. It reports every run that ends in a way it must not.

Usage: refused_reads.py PROGRAM

The Nth read of a file fails, or returns the end of the file. N goes over all reads of a run. The run may end in these
ways:

- as expected, if the read wasn't needed
- with status 2, after whole answers of the first addresses, and with `cannot read FILE` as the last line on standard
  error. If the file was being opened, the line also has the reason
- with status 2 and a line that says that the file is cut short, if the read returned the end of the file

In other runs each read returns few bytes. Such a run must end as expected. After each case the same lookups must still
give the expected answers.
"""
import pathlib
import subprocess
import sys
from collections import Counter

from refused_pdb_growths import CASES, ask, is_begin_of_answers, sweep

HERE = pathlib.Path(__file__).resolve().parent
# The most bytes that each read returns, for the runs with short reads.
SHORT = (1, 7, 512, 4097)
# The time limit of a run, in seconds. Short reads are slow.
MINUTE = 60
AS_WANTED, AS_SHORT, REFUSED = "as wanted", "as wanted by short reads", "refused behind whole answers"
# What follows `cannot read FILE` if the file was being opened.
REASONS = (b": Input/output error (os error 5)\n", b": failed to fill whole buffer\n")
CUT_SHORT = b": the file is cut short before the end of its directory\n"


def compiled(folder):
    """Compiles the library that makes reads fail."""
    library = folder / "refusing_reader.so"
    subprocess.run(["cc", "-O1", "-shared", "-fPIC", "-o", library, HERE / "refusing_reader.c"], check=True)
    return library


def is_refusal(case, mode, run, wanted):
    """Returns whether a run ended because of a failed read, after whole answers."""
    last = run.stderr.splitlines(keepends=True)[-1:]
    refusal = f"pdb_symbolizer: cannot read {file_of(case)}\n".encode()
    refusals = (refusal, *(refusal[:-1] + reason for reason in REASONS))
    refused = last and (last[0] in refusals or mode == "END_AT" and last[0].endswith(CUT_SHORT))
    return refused and run.status == 2 and is_begin_of_answers(run.stdout, wanted.stdout)


def file_of(case):
    """Returns the PDB file that the arguments of a case name, or None. Files that input lines name aren't returned:
    another file than the broken one may be reported then."""
    return next((word for word in case[1] if word.endswith(".pdb")), None)


def shows_sources(case):
    """Returns whether a case prints lines of source files. These are left out if they can't be read."""
    return any(word.startswith("--print-source-context-lines") for word in case[1])


def over_case(program, case, library, folder):
    """Tries all reads of a case. Returns the number of each outcome."""
    wanted = ask(program, case)
    counts_file = folder / "counts"
    if ask(program, case, library, counts_file, MINUTE) != wanted or wanted.status:
        sys.exit(f"{case}: not as wanted with no read refused: {wanted}")
    calls = int(counts_file.read_text())
    print(f"{' '.join(case[1])}: {calls} reads", flush=True)
    seen = Counter()
    for most in SHORT:
        run = ask(program, case, library, counts_file, MINUTE, SHORT=most)
        seen[AS_SHORT if run == wanted else None] += 1
        if run != wanted:
            print(f"SHORT={most} {case[1]}: {run}", flush=True)
    for mode in ("REFUSE_AT", "END_AT"):
        for number in range(1, calls + 1):
            run = ask(program, case, library, counts_file, MINUTE, **{mode: number})
            what = AS_WANTED if run == wanted else REFUSED if is_refusal(case, mode, run, wanted) else None
            seen[what] += 1
            if what is None:
                print(f"{mode}={number} {case[1]}: {run}", flush=True)
    if ask(program, case) != wanted:
        sys.exit(f"{case}: not as wanted when it is asked again")
    return seen


def main(program):
    return sweep(program, [case for case in CASES if file_of(case) and not shows_sources(case)], compiled, over_case, (AS_WANTED, AS_SHORT, REFUSED))


if __name__ == "__main__":
    if len(sys.argv) != 2:
        sys.exit(__doc__)
    sys.exit(main(sys.argv[1]))
