#!/usr/bin/env python3
"""Exports PDB files by the built pdb_symbolizer, and compares answers over the PDB file with those over the records
files.

Usage: export.py PROGRAM REPORT PDB ADDRESSES

ADDRESSES is a file with one address per line. Each must be inside a function. The script checks these:

  - The PDB file is exported as one records file, and as one with a file for each module. Exporting either again gives
    the same bytes.
  - PROGRAM, the built pdb_symbolizer, gives the same answers over the PDB file and over both records files.
  - REPORT, the built pdb_report, prints the same frames for both. If a procedure's type can't be printed,
    pdb_symbolizer prints its symbol's name, and pdb_report prints no name.
"""
import itertools
import json
import pathlib
import subprocess
import sys
import tempfile

FRAME = "     {FunctionName} at {FileName}:{Line}\n"
UNKNOWN = {"FunctionName": "<unknown>", "FileName": "??", "Line": "??"}
AT_ONCE = 1000


def run(*words, text=None):
    """Returns the standard output of a program."""
    return subprocess.run(words, input=text, capture_output=True, text=True, check=True).stdout


def frame_line(frame):
    """Formats a frame as pdb_report does. A row may have the line 0. The line of a frame without a file is unknown."""
    known = {"Line": "0"} if frame["FileName"] else {}
    return FRAME.format(**{key: frame[key] or unknown for key, unknown in (UNKNOWN | known).items()})


def report_of(answer):
    """Formats an answer as pdb_report does."""
    frames = answer["Symbol"]
    if not frames:
        return ""
    return f"{answer['Address']} - {len(frames)} frames:\n" + "".join(map(frame_line, frames))


def answers(program, file, addresses):
    """Returns pdb_symbolizer's answers over a file."""
    text = run(program, "--output-style=JSON", file, text="".join(f"{address}\n" for address in addresses))
    return [json.loads(line) | {"ModuleName": ""} for line in text.splitlines()]


def report(program, records, addresses):
    """Returns what pdb_report prints for a records file, a thousand addresses per run."""
    begun = iter(addresses)
    parts = iter(lambda: [*itertools.islice(begun, AT_ONCE)], [])
    return "".join(run(program, records, "frames", *part) for part in parts)


def same_frames(printed, lines):
    """Returns whether pdb_report printed these lines. It may print `<unknown>` for any function's name."""
    pairs = [*zip(printed.splitlines(), lines.splitlines())]
    unknown = FRAME.split("{")[0] + UNKNOWN["FunctionName"]
    return len(printed.splitlines()) == len(lines.splitlines()) and all(
        here == there or here.startswith(unknown) and there.endswith(here.removeprefix(unknown)) for here, there in pairs)


def exported(program, folder, source, name):
    """Exports a source as one records file, and as one with a file for each module."""
    whole, parted = folder / f"{name}.json", folder / f"{name}.parted.json"
    run(program, "--export", whole, source)
    run(program, "--export", parted, "--modules", f"{name}.modules", source)
    return whole, parted


def texts(records):
    """Returns the bytes of a records file and of its module files."""
    modules = sorted((records.parent / f"{records.name.split('.')[0]}.modules").glob("*.json"))
    return [file.read_bytes() for file in ([records, *modules] if ".parted" in records.name else [records])]


def main(program, reporter, pdb, path):
    addresses = open(path).read().split()
    wanted = answers(program, pdb, addresses)
    lines = "".join(report_of(answer) for answer in wanted)
    wrong = []
    with tempfile.TemporaryDirectory() as folder:
        folder = pathlib.Path(folder)
        first = exported(program, folder, pdb, "first")
        for number, records in enumerate(first):
            again = exported(program, folder, records, f"again{number}")
            if texts(again[0]) != texts(first[0]):
                wrong.append(f"{records.name}, exported again, has other bytes")
            if [text.replace(f"again{number}".encode(), b"first") for text in texts(again[1])] != texts(first[1]):
                wrong.append(f"{records.name}, exported again with module files, has other bytes")
            found = answers(program, records, addresses)
            wrong += [f"{records.name}: {a}\n  {b}" for a, b in zip(wanted, found, strict=True) if a != b]
            if not same_frames(report(reporter, records, addresses), lines):
                wrong.append(f"{records.name}: pdb_report prints other frames")
    print("\n".join(wrong[:20]))
    print(f"{len(addresses)} addresses, {len(lines.splitlines())} lines of pdb_report, {len(wrong)} differences")
    return 1 if wrong else 0


if __name__ == "__main__":
    if len(sys.argv) != 5:
        sys.exit(__doc__)
    sys.exit(main(*sys.argv[1:]))
