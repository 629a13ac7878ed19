#!/usr/bin/env python3
"""Prints CHANGELOG.md in the form of Debian's changelogs, or its newest version.

Usage: changelog.py (version|debian DATE)

DATE is the date of the commit, in the form of `date -R`.
"""
import pathlib
import re
import sys
import textwrap

PAGE = pathlib.Path(__file__).resolve().parents[1] / "CHANGELOG.md"
MAINTAINER = "Limberlime maintainers <maintainers@users.noreply.limberlime.example>"


def parts():
    """Returns the versions of the page with their entries, the newest first. Entries on the crates are left out."""
    found = re.split(r"^## (\S+)$", PAGE.read_text(), flags=re.M)[1:]
    texts = [text.partition("\n### Rattle crates")[0] for text in found[1::2]]
    return [(version, re.findall(r"^- (.*)$", text, re.M)) for version, text in zip(found[::2], texts)]


def plain(entry):
    """Returns an entry without Markdown's marks and links."""
    return re.sub(r"\*\*|`", "", re.sub(r"\[(.*?)\]\(.*?\)", r"\1", entry))


def debian(date):
    for version, entries in parts():
        print(f"limberlime ({version}) unstable; urgency=medium\n")
        for entry in entries:
            print(textwrap.fill(plain(entry), 78, initial_indent="  * ", subsequent_indent="    ",
                                break_long_words=False, break_on_hyphens=False))
        print(f"\n -- {MAINTAINER}  {date}\n")


if __name__ == "__main__":
    if sys.argv[1:] == ["version"]:
        print(parts()[0][0])
    elif sys.argv[1:2] == ["debian"] and len(sys.argv) == 3:
        debian(sys.argv[2])
    else:
        sys.exit(__doc__)
