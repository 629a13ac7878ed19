#!/usr/bin/env python3
"""Writes the PDB files of the stored run, byte by byte, and the expected output.

Usage: write_files.py FOLDER

FOLDER is the folder of the crate. It gets these files:

  - `args`: the names of the PDB files, and of the records file in `data`
  - `stdout`: the expected output for all of them, in order
  - `data/NAME`: each PDB file
"""
import pathlib
import sys

import broken_parts
import kinds
import other_forms
import refused_files

FILES = [("kinds.pdb", kinds.whole), *other_forms.FILES, *broken_parts.FILES,
         *[(name, lambda made=made, why=why: (made(), [why])) for name, made, why in refused_files.FILES]]

RECORDS = "records.json"


def main():
    """Writes all files."""
    folder = pathlib.Path(sys.argv[1])
    wanted = ""
    for name, made in FILES:
        data, lines = made()
        (folder / "data" / name).write_bytes(data)
        wanted += "".join(f"{line}\n" for line in [name, *lines])
    wanted += f"{RECORDS}\n" + (folder / "data" / RECORDS).read_text()
    (folder / "args").write_text("".join(f"{name}\n" for name in [*[name for name, _ in FILES], RECORDS]))
    (folder / "stdout").write_text(wanted)


if __name__ == "__main__":
    main()
