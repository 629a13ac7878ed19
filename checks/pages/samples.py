#!/usr/bin/env python3
"""Checks that the Rattle samples of docs/USING.md are whole files of crates/pdb_examples.

Usage: samples.py
"""
import pathlib
import re
import sys

ROOT = pathlib.Path(__file__).resolve().parents[2]


def main():
    page = (ROOT / "docs" / "USING.md").read_text(encoding="utf-8").partition("\n## From C\n")[0]
    files = {path.read_text(encoding="utf-8") for path in (ROOT / "crates" / "pdb_examples" / "src").glob("*.rt")}
    other = [sample for sample in re.findall(r"```rust\n(.*?)```", page, re.S) if sample not in files]
    for sample in other:
        print("no file of pdb_examples:", sample[:200], sep="\n")
    return 1 if other else 0


if __name__ == "__main__":
    sys.exit(main())
