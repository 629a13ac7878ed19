#!/usr/bin/env python3
"""Splits a records file: writes it in version 2, with each module in a file of its own.

    split.py RECORDS FOLDER      writes FOLDER/records.json and FOLDER/0.json, FOLDER/1.json and so on
"""
import json
import pathlib
import sys


def split(path, folder):
    records, folder = json.loads(pathlib.Path(path).read_bytes()), pathlib.Path(folder)
    folder.mkdir(parents=True, exist_ok=True)
    infos = records["module_infos"]
    for number, info in enumerate(infos):
        if isinstance(info, dict) and "error" not in info:
            (folder / f"{number}.json").write_text(json.dumps(info, separators=(",", ":")))
            infos[number] = {"file": f"{number}.json"}
    (folder / "records.json").write_text(json.dumps({**records, "version": 2}, separators=(",", ":")))


def main():
    if len(sys.argv) != 3:
        sys.exit(__doc__)
    split(*sys.argv[1:])


if __name__ == "__main__":
    main()
