#!/usr/bin/env python3
"""Counts names with more than one meaning: public types, and files of `src`, that several crates have under one name.

Usage: names.py

Test programs don't count. Crates that do the same for other data use the same names, and count as one. STAY has the
reason for each name that may stay. The exit status is 1 if any other name occurs twice.
"""
import collections
import pathlib
import re
import sys

CRATES = pathlib.Path(__file__).resolve().parents[2] / "crates"

# Crates that use the same names for files and types, because they do the same for other data, and what they do.
ALIKE = (
    (("pdb_records", "pdb_json_records", "pdb_export"), "the records; one crate reads them, one writes them"),
    (("pe_unwind", "pe_unwind_arm64"), "unwind info of two processors"),
)

STAY = {
    "Error": "the two errors of the Rust crate: of the records, and of a context",
    "ItemIndex": "an index of a type or of an id: its bytes in `pdb_tpi`, its table in `pdb_types`",
    "error.rt": "the two errors named above",
    "parts.rt": "the public module of both crates that has their parts for callers who need one alone",
}


def crates_of(found):
    """Returns the crates that use a name. Of the crates in a row of ALIKE only the first counts."""
    for crates, _ in ALIKE:
        alike = [crate for crate in crates if crate in found]
        found = found - set(alike[1:])
    return found


def public_types(path):
    return re.findall(r"^pub (?:struct|enum|trait|type) (\w+)", path.read_text(encoding="utf-8"), re.M)


def main():
    names = collections.defaultdict(set)
    for path in CRATES.glob("*/src/**/*.rt"):
        crate = path.relative_to(CRATES).parts[0]
        if crate.endswith("_tests"):
            continue
        if path.name not in ("lib.rt", "main.rt"):
            names[path.name].add(crate)
        for name in public_types(path):
            names[name].add(crate)
    twice = {name: crates_of(found) for name, found in names.items() if len(crates_of(found)) > 1}
    for name, found in sorted(twice.items()):
        print(f"{name}: {', '.join(sorted(found))}; {STAY.get(name, 'has no reason')}")
    return 1 if set(twice) - set(STAY) else 0


if __name__ == "__main__":
    sys.exit(main())
