#!/usr/bin/env python3
"""Shows that lookups search their tables and don't scan the records instead.

Usage: searches.py      in the repository; needs `rt`, and takes about four minutes

A body that scans the records and ignores its table would satisfy the same contract, so no wrong body can show this. The
script removes the clause about the result from `Segments::find`, and in another run from `StackTable::find`, in a copy
of the crates. The functions that rely on that search must then fail to prove: the searches for contributions,
procedures and whole stacks, and the lookup of the stack from which frames are made. The script fails if one of them is
still proved.
"""
import pathlib
import re
import shutil
import subprocess
import sys
import tempfile

ROOT = pathlib.Path(__file__).resolve().parents[2]
SEGMENTS = ("pdb_tables/src/segments.rt", "pub fn find", "ensures answer { result ≡ value_at self.now x }")
STACKS = ("pdb_inline/src/stack_table.rt", "pub fn find", "ensures answer { result.now ≡ stack_over self.now offset }")
CASES = [
    (SEGMENTS, "pdb_functions", ["contribution_table::ContributionTable::search",
                                 "procedure_table::ProcedureTable::search"]),
    (SEGMENTS, "pdb_inline", ["stack_table::StackTable::find"]),
    (STACKS, "pdb_inline", ["procedure_stacks::ProcedureStacks::search", "procedure_stacks::ProcedureStacks::stack"]),
]


def strike(crates, clause):
    """Removes a clause from its function. Returns the file and its old text."""
    name, function, text = clause
    path = crates / name
    before = path.read_text(encoding="utf-8")
    at = before.index(text, before.index(function))
    path.write_text(before[:at] + before[at + len(text):], encoding="utf-8")
    return path, before


def proved(folder, functions):
    """Returns which of these functions a check of the crate proves, and the check's output."""
    words = ["rt", "check"] + [word for function in functions for word in ("--only", function)]
    said = subprocess.run(words, cwd=folder, capture_output=True, text=True, errors="replace").stdout
    return [f for f in functions if re.search(rf"^fn \S*{re.escape(f)}: proved$", said, re.M)], said


def main():
    failed = False
    with tempfile.TemporaryDirectory() as room:
        shutil.copytree(ROOT / "crates", f"{room}/crates", ignore=shutil.ignore_patterns("out"))
        shutil.copy(ROOT / "crates.txt", room)
        crates = pathlib.Path(room) / "crates"
        subprocess.run(["git", "init", "-q", room], check=True)
        for clause, crate, functions in CASES:
            path, before = strike(crates, clause)
            still, said = proved(crates / crate, functions)
            path.write_text(before, encoding="utf-8")
            seen = [f for f in functions if f in said]
            failed = failed or bool(still) or seen != functions
            print(f"{clause[0]} without its value: {crate}: {len(seen)} of {len(functions)} looked at, "
                  f"{len(still)} still proved {' '.join(still)}")
    sys.exit(1 if failed else 0)


if __name__ == "__main__":
    main()
