#!/usr/bin/env python3
"""Makes docs/FILES.md, the list of all code files, from each file's first line.

Usage: files.py            checks whether the page is up to date
       files.py --write    writes the page

The first line of each file in a crate's `src` is a comment, `//!` or `//`, with one whole sentence about the file's
contents. The page has a paragraph for each crate. Crates that depend on others come before them. The script fails if
the page is out of date or a file has no such line. It also fails if a crate has no row in the table of
docs/ARCHITECTURE.md.
"""
import pathlib
import re
import sys

ROOT = pathlib.Path(__file__).resolve().parents[2]
PAGE, MAP = ROOT / "docs" / "FILES.md", ROOT / "docs" / "ARCHITECTURE.md"
HEAD = """# Files

What each file of code holds, by its first line. `checks/pages/files.py --write` makes this page. Crates that depend on
others come before them. [ARCHITECTURE.md](ARCHITECTURE.md) says what each crate is for.

"""
FIRST_LINE = re.compile(r"//!? (\S.*\.)")
# A link to an item. Only the pages of `rt doc` can follow it.
ITEM_LINK = re.compile(r"\[([^]]+)\]\(crate::[^)]*\)")


def crates():
    """Returns the crates with their dependencies, in the order of crates.txt."""
    found = {}
    for line in (ROOT / "crates.txt").read_text(encoding="utf-8").splitlines():
        name, _, others = line.split("#")[0].partition(":")
        if name.strip():
            found[name.split()[0]] = others.split()
    return found


def heights(found):
    """Returns for each crate the length of its longest chain of dependencies in the repository."""
    known = {}

    def height(name):
        if name not in known:
            known[name] = 1 + max((height(other) for other in found[name] if other in found), default=0)
        return known[name]

    return {name: height(name) for name in found}


def subject(path):
    """Returns the sentence of a file's first line, or None."""
    first = path.read_text(encoding="utf-8").split("\n", 1)[0]
    matched = FIRST_LINE.fullmatch(first)
    return matched and ITEM_LINK.sub(r"\1", matched.group(1))


def paragraph(name):
    """Returns the list of a crate's files, and the files without such a first line."""
    source = ROOT / "crates" / name / "src"
    files = sorted(source.rglob("*.rt"), key=lambda path: (path.name not in ("lib.rt", "main.rt"), str(path)))
    subjects = {path.relative_to(source): subject(path) for path in files}
    lines = [f"- `{path}`: {text}" for path, text in subjects.items() if text]
    return [f"**`{name}`**", "", *lines, ""], [f"crates/{name}/src/{path}" for path, text in subjects.items() if not text]


def main(words):
    found = crates()
    order = heights(found)
    listed, failures = [], []
    for name in sorted(found, key=lambda name: (-order[name], name)):
        lines, without = paragraph(name)
        listed += lines
        failures += [f"{path}: the first line doesn't say what the file holds" for path in without]
    made = HEAD + "\n".join(listed)
    table = MAP.read_text(encoding="utf-8")
    failures += [f"{name}: no row in the table of crates" for name in found if f"| `{name}` |" not in table]
    if words == ["--write"]:
        PAGE.write_text(made, encoding="utf-8")
    elif not PAGE.exists() or made != PAGE.read_text(encoding="utf-8"):
        failures.append("docs/FILES.md is out of date: files.py --write")
    return told(failures, f"{sum(line.startswith('- ') for line in listed)} files")


def told(failures, counted):
    """Prints the failures, or the count if there are none. Returns the exit status."""
    print("\n".join(failures) or counted)
    return 1 if failures else 0


if __name__ == "__main__":
    sys.exit(main(sys.argv[1:]))
