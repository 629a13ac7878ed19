#!/usr/bin/env python3
"""Tries the wrong bodies that the gate doesn't try, and shows why each was refused.

Usage: wrong_bodies.py [CRATE ..]     in the repository; needs `rt`. With no crate it tries those of all crates
       wrong_bodies.py --count        counts the wrong bodies of each crate, and those that the gate tries

In a copy of the repository, the edits in crates/CRATE/wrong-bodies replace those in must-fail, and `rt must-fail CRATE
..` tries them. Libraries that `rt check` or `rt lib` built in this repository are copied too; missing ones are proved
first. The script prints one line for each edit, with one of these results:

  - refused at an open goal: only this says that the contract catches the wrong body
  - refused at a written answer that no longer fits
  - refused for a name that a proof file lost
  - refused by a limit of the prover
  - proved
  - can't be applied or compiled
  - not tried

The script fails if an edit has one of the last three results.
"""
import collections
import pathlib
import re
import shutil
import subprocess
import sys
import tempfile

ROOT = pathlib.Path(__file__).resolve().parents[2]
TRIED = re.compile(r"rt: must-fail (\w+/\S+\.edit): (.*)")
# What `rt must-fail` prints for an edit, and the result that this means. The first pattern that matches counts.
OUTCOMES = [
    (r"NOT REFUSED", "proved"),
    (r"BAD EDIT", "can't be applied or compiled"),
    (r"NOT TRIED", "not tried"),
    (r"only by a limit", "refused by a limit of the prover"),
    (r"only because a proof file", "refused for a name that a proof file lost"),
    (r"is not proved|the goal does not follow|found no proof|no answer for", "refused at an open goal"),
    (r"", "refused at a written answer that no longer fits"),
]
FAILURES = {"proved", "can't be applied or compiled", "not tried"}


def edits(crate, folder):
    """Returns the edits in a folder of a crate."""
    return sorted((crate / folder).glob("*.edit"))


def count():
    """Prints the number of wrong bodies that the gate tries for each crate, and the number of the others."""
    print("crate, tried by the gate, beside it")
    totals = [0, 0]
    for crate in sorted((ROOT / "crates").iterdir()):
        numbers = [len(edits(crate, folder)) for folder in ("must-fail", "wrong-bodies")]
        totals = [total + number for total, number in zip(totals, numbers)]
        if any(numbers):
            print(f"{crate.name} {numbers[0]} {numbers[1]}")
    print(f"all {totals[0]} {totals[1]}")


def copy_with_wrong_bodies(room, names):
    """Copies the repository's crates to a folder. The wrong bodies of the named crates become their must-fail edits."""
    for name in ("crates.txt", "HANDLES"):
        shutil.copy(ROOT / name, room)
    shutil.copytree(ROOT / "crates", room / "crates", ignore=shutil.ignore_patterns("incremental", "must-fail"))
    for name in names:
        (room / "crates" / name / "wrong-bodies").rename(room / "crates" / name / "must-fail")


def outcome(said):
    """Returns the result that a message about an edit means."""
    return next(comes_to for words, comes_to in OUTCOMES if re.search(words, said))


def try_all(names):
    """Tries the wrong bodies of the named crates, and prints the result of each. Returns the number of each result."""
    counts = collections.Counter()
    with tempfile.TemporaryDirectory(prefix="wrong-bodies-") as room:
        copy_with_wrong_bodies(pathlib.Path(room), names)
        run = subprocess.Popen(["rt", "must-fail", *names], cwd=room, stdout=subprocess.PIPE, stderr=subprocess.STDOUT,
                               text=True, errors="replace")
        for line in run.stdout:
            tried = TRIED.match(line)
            if tried:
                counts[outcome(tried[2])] += 1
                print(f"{tried[1]}: {outcome(tried[2])}: {tried[2][:200]}", flush=True)
            elif line.startswith("rt: "):
                print(line, end="", flush=True)
        run.wait()
    return counts


def main(words):
    if words == ["--count"]:
        return count()
    known = sorted(it.parent.name for it in ROOT.glob("crates/*/wrong-bodies"))
    unknown = [it for it in words if it not in known]
    if unknown:
        sys.exit(f"no wrong bodies of {', '.join(unknown)}: there are those of {', '.join(known)}")
    names = words or known
    wanted = sum(len(edits(ROOT / "crates" / name, "wrong-bodies")) for name in names)
    counts = try_all(names)
    for comes_to, number in sorted(counts.items()):
        print(f"{number} {comes_to}")
    print(f"{sum(counts.values())} of {wanted} wrong bodies were tried")
    return sum(counts.values()) != wanted or any(counts[it] for it in FAILURES)


if __name__ == "__main__":
    sys.exit(main(sys.argv[1:]))
