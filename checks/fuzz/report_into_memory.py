#!/usr/bin/env python3
"""Writes reports into a vector in memory, and makes each memory allocation fail in turn. It reports every run that ends
in a way it must not.

Usage: report_into_memory.py [PROGRAM]

pdb_report allocates its output buffer at the start, so no later allocation is the writer's. This script makes a small
program that writes into a vector, in a copy of the repository. `rt run` proves and builds it. It runs over some cases
of refused_growths.py with each allocation failing. PROGRAM is such a program that was built before.

If an allocation of the vector fails, the report must end with `cannot write`. At least one run must end so. All other
runs end as pdb_report may. The program prints what the vector holds: whole texts of the first addresses, or, after
`cannot write`, any beginning of the whole text.
"""
import pathlib
import shutil
import subprocess
import sys
import tempfile
from collections import Counter

from refused_growths import AS_WANTED, HERE, MODES, Run, ask, cases, compiled, counts, numbers, outcome

ROOT = HERE.parents[1]
NAME = "report_into_memory"
LIBRARIES = "pdb_addr2line pdb_report_lib"
CASES = ("public_symbol.json names ", "site_of_a_method.json frames ", "counter.json list ", "counter.json frames ")
NEAR, BETWEEN = 500, 1500
CANNOT_WRITE = b"pdb_report: cannot write\n"
IN_THE_WRITER = "a growth of the writer was refused"

PROGRAM = """//! Writes a report into memory, and then what that holds to standard output.
#![tactic(auto)]

use pdb_report_lib::{Out, Stop, run};
use std::alloc::AllocError;
use std::io::Write;
use std::process::ExitCode;
use std::rt::Env;
use std::{env, io};

/// The words of the command line.
fn words<R: Env + AllocGlobal>(rt: &R) -> io::Result<Vec<String>> {
    let words: Result<Vec<String>, AllocError> = env::args(rt)?.collect(rt.alloc());
    Ok(words?)
}

/// Prints what was written, and why the report ended early.
fn tell<R: Print + Eprint>(rt: &R, text: &[u8], ended: Result<(), Stop<'_>>) -> ExitCode {
    let _ = io::writer(rt).write_all(text);
    match ended {
        Ok(()) => ExitCode::SUCCESS,
        Err(stop) => {
            let _ = eprintln!(rt; "{stop}");
            ExitCode::from(stop.status())
        }
    }
}

fn main(rt: HostRuntime) -> ExitCode {
    let Ok(words) = words(&rt) else {
        return ExitCode::from(3);
    };
    let mut out = Out::new(Vec::new(rt.alloc()));
    let ended = run(&rt, &words, &mut out);
    tell(&rt, &out.into_inner(), ended)
}
"""


def built(folder):
    """Proves and builds the program in a copy of the repository."""
    copy = folder / "copy"
    shutil.copytree(ROOT, copy, ignore=shutil.ignore_patterns("out", ".git"))
    with open(copy / "crates.txt", "a", encoding="utf-8") as crates:
        crates.write(f"{NAME}: {LIBRARIES}\n")
    crate = copy / "crates" / NAME
    (crate / "src").mkdir(parents=True)
    (crate / "src" / "main.rt").write_text(PROGRAM)
    subprocess.run(["rt", "run"], cwd=crate, capture_output=True, check=False)
    program = crate / "out" / NAME
    if not program.exists():
        sys.exit("the program isn't proved: run `rt run` in such a crate")
    return program


def into_memory(case, run):
    """Returns the kind of end of a run, or None if it must not end so."""
    if run.status == 2 and run.stderr == CANNOT_WRITE:
        return IN_THE_WRITER if case.stdout.startswith(run.stdout) else None
    if run == Run(3, b"", b""):
        return "a growth of the list of words was refused"
    return outcome(case, run)


def main(program=None):
    seen, growths = Counter(), 0
    with tempfile.TemporaryDirectory() as folder:
        folder = pathlib.Path(folder)
        program = pathlib.Path(program).resolve() if program else built(folder)
        library, counts_file = compiled(folder), folder / "counts"
        for case in (case for case in cases() if f"{case.name} ".startswith(CASES)):
            run = ask(program, case.words, case.folder, library, counts_file)
            if outcome(case, run) != AS_WANTED:
                sys.exit(f"{case.name}: not as wanted with no growth refused: {run}")
            for mode in MODES:
                for number in numbers(counts(counts_file)[0], NEAR, BETWEEN):
                    counts_here = folder / f"{mode}-{number}"
                    run = ask(program, case.words, case.folder, library, counts_here, **{mode: number})
                    growths += counts(counts_here)[1]
                    what = into_memory(case, run)
                    seen[what] += 1
                    if what is None:
                        print(f"{mode}={number} {case.name}: {run}", flush=True)
    print(f"{growths} growths refused in {sum(seen.values())} runs, {seen[None]} wrong")
    for what, count in sorted((what, count) for what, count in seen.items() if what is not None):
        print(f"{count:8d}  {what}")
    return 0 if seen[IN_THE_WRITER] and not seen[None] else 1


if __name__ == "__main__":
    if len(sys.argv) > 2:
        sys.exit(__doc__)
    sys.exit(main(*sys.argv[1:]))
