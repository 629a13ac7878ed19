#!/usr/bin/env python3
"""Prints random lines of code, for a reader who then says which crate and file each one is in.

Usage: lines.py COUNT SEED [--places]

The lines are drawn from `src` of all crates except tests, and printed with three lines before and after. With only
docs/ARCHITECTURE.md and docs/FILES.md, a reader should find the place of most of them. `--places` prints the places, to
compare.
"""
import pathlib
import random
import sys

ROOT = pathlib.Path(__file__).resolve().parents[2]
AROUND = 3


def is_code(line):
    """Returns whether a line has code of its own: it isn't blank, a comment, an import, an attribute or a few
    characters."""
    text = line.strip()
    return len(text) > 12 and not text.startswith(("//", "use ", "ghost use", "#[", "pub use", "mod ", "pub mod"))


def crate_of(path):
    """Returns the name of the crate that has a file."""
    return path.relative_to(ROOT / "crates").parts[0]


def main(words):
    count, seed, places = int(words[0]), int(words[1]), "--places" in words
    crates = ROOT / "crates"
    files = sorted(path for path in crates.glob("*/src/**/*.rt") if not crate_of(path).endswith("_tests"))
    lines = [(path, at) for path in files for at, line in enumerate(path.read_text(encoding="utf-8").split("\n"))
             if is_code(line)]
    for number, (path, at) in enumerate(random.Random(seed).sample(lines, count), start=1):
        if places:
            print(f"{number}. {crate_of(path)} {path.name}:{at + 1}")
        else:
            text = path.read_text(encoding="utf-8").split("\n")[max(at - AROUND, 0):at + AROUND + 1]
            print(f"--- {number}", *text, sep="\n")
    return 0


if __name__ == "__main__":
    if len(sys.argv) == 1:
        sys.exit(__doc__)
    sys.exit(main(sys.argv[1:]))
