#!/usr/bin/env python3
"""Checks that each definition in `specs` has a comment. On demand it writes a copy of docs/DEFINITIONS.md with the
lists of all definitions.

Usage: definitions.py         checks that each definition has a comment, and each crate with definitions has a mark
       definitions.py FILE    also writes the page with the lists to FILE

The comment right above a public definition describes it in one sentence. A mark in the page, `<!-- definitions of CRATE
-->`, is the place for the list of a crate. The list goes file by file in the order of `specs/Lib.antt`, and has the
first line of each file. The script fails if a definition has no comment, or if a crate with definitions has no mark.
"""
import pathlib
import re
import sys

from files import told

ROOT = pathlib.Path(__file__).resolve().parents[2]
PAGE = ROOT / "docs" / "DEFINITIONS.md"
PLACE = "<!-- definitions of {} -->"
MARK = re.compile(r"<!-- definitions of (\w+) -->")


def comment_above(lines, at):
    """Returns the comment that ends right above a line, as one text. An `infix` line may be in between."""
    found = []
    if at > 0 and lines[at - 1].startswith("infix"):
        at -= 1
    while at > 0 and lines[at - 1].startswith("-- "):
        at -= 1
        found.append(lines[at][3:].strip())
    return " ".join(reversed(found))


def name_of(line):
    """Returns the public name that a line of a file defines, or None."""
    if not line or line[0].isspace() or line.startswith(("--", "use ", "pub mod", "mod ", "pub use")):
        return None
    before, _, _ = line.partition(" : ")
    words = before.split("(")[0].split("{")[0].split()
    return words[-1] if "pub" in words and words[-1] != "pub" else None


def definitions(path):
    """Returns the comment at the start of a file, and the comments of the file's public definitions by name."""
    lines = path.read_text(encoding="utf-8").split("\n")
    found = {}
    for at, line in enumerate(lines):
        name = name_of(line)
        if name and name not in found:
            found[name] = comment_above(lines, at)
    first_code = next((at for at, line in enumerate(lines) if not line.startswith("-- ")), len(lines))
    return comment_above(lines, first_code), found


def order_of(folder):
    """Returns the files in a folder of definitions, in the order of Lib.antt."""
    names = re.findall(r"^pub mod (\w+)", (folder / "Lib.antt").read_text(encoding="utf-8"), re.M)
    return [folder / f"{name}.antt" for name in names if (folder / f"{name}.antt").exists()]


def made_list(crate, failures):
    """Returns the list of a crate's definitions. Adds missing comments to `failures`."""
    lines = []
    for path in order_of(ROOT / "crates" / crate / "specs"):
        subject, found = definitions(path)
        if not found:
            continue
        lines += [f"**{path.stem}**" + (f": {subject}" if subject else ""), ""]
        lines += [f"- `{name}`: {text}" for name, text in found.items()]
        lines.append("")
        failures += [f"crates/{crate}/specs/{path.name}: {name} has no comment" for name, text in found.items() if not text]
        failures += [] if subject else [f"crates/{crate}/specs/{path.name}: no first line that says what it defines"]
    return "\n".join(lines)


def main(words):
    page, failures = PAGE.read_text(encoding="utf-8"), []
    made, crates = page, MARK.findall(page)
    for crate in crates:
        place = PLACE.format(crate)
        made = made.replace(place, place + "\n\n" + made_list(crate, failures).rstrip("\n"))
    with_specs = {path.parent.name for path in (ROOT / "crates").glob("*/specs") if list(path.glob("[A-KM-Z]*.antt"))}
    failures += [f"{crate}: no place in the page" for crate in sorted(with_specs - set(crates))]
    if words:
        pathlib.Path(words[0]).write_text(made, encoding="utf-8")
    listed = made.count("\n- `") - page.count("\n- `")
    return told(failures, f"{listed} definitions of {len(crates)} crates")


if __name__ == "__main__":
    sys.exit(main(sys.argv[1:]))
