#!/usr/bin/env python3
"""Compares frames from the Python module with what the built programs print, over PDB files and random records files.

Usage: bindings.py FOLDER SYMBOLIZER REPORT [COUNT] [FIRST_SEED]

FOLDER is the output of `bindings/run.sh FOLDER`. SYMBOLIZER is a built pdb_symbolizer, and REPORT a built pdb_report.
The PDB files are those in the crates' `data`. The random records files are those that checks/model makes for COUNT
(200) seeds from FIRST_SEED (0) on. Last, each memory allocation of a run of the C example fails in turn. Up to 20
differences are printed. The exit status is 1 if there is one.
"""
import os
import pathlib
import re
import subprocess
import sys
import tempfile
from collections import Counter

CHECKS = pathlib.Path(__file__).resolve().parents[1]
CRATES = CHECKS.parent / "crates"
sys.path[:0] = [str(CHECKS / "model"), str(CHECKS.parent / "bindings" / "python")]
from generate import generate  # noqa: E402
from model import with_big_stack  # noqa: E402

MOST_SHOWN = 20
SECONDS = 120
ADDRESS = re.compile(r"(0x)?[0-9a-fA-F]{1,8}")
# The addresses to look up: every STEP bytes from 0x1000 to END, which covers the code of a small program.
STEP, END = 3, 0x9000
UNKNOWN = "?? at ??:0:0\n"
NO_MEMORY = "out of memory"


def run(words, **more):
    return subprocess.run([str(word) for word in words], capture_output=True, timeout=SECONDS, **more)


def symbolizer_lines(frames):
    """Formats frames as `pdb_symbolizer -p` does, without the empty line at the end."""
    lines = [f"{'??' if frame.function is None else frame.function} at {frame.file or '??'}:{frame.line or 0}:0\n"
             for frame in frames]
    return " (inlined by) ".join(lines) if lines else UNKNOWN


def report_lines(address, frames):
    """Formats frames as `pdb_report` does, but with `??` for a line 0, which the library uses for an unknown line."""
    if not frames:
        return f"{address:x} - no frames found\n"
    lines = [f"     {'<unknown>' if frame.function is None else frame.function} at "
             f"{'??' if frame.file is None else frame.file}:"
             f"{'??' if frame.line is None else frame.line}\n" for frame in frames]
    return f"0x{address:x} - {len(frames)} frames:\n" + "".join(lines)


def as_report_names(frames, wanted):
    """Removes the outermost function's name if pdb_report prints `<unknown>`, because pdb_report prints no names of
    symbols."""
    if frames and wanted.splitlines()[-1:] and wanted.splitlines()[-1].startswith("     <unknown> at "):
        return [*frames[:-1], frames[-1]._replace(function=None)]
    return frames


def pdb_differences(limberlime, symbolizer, path, counts):
    """Returns the addresses of a PDB file at which the library's frames differ from what the program prints."""
    addresses = range(0x1000, END, STEP)
    printed = run([symbolizer, "-p", path, *(f"0x{address:x}" for address in addresses)])
    try:
        program = limberlime.Program.open_pdb(path.read_bytes())
    except limberlime.Error as refusal:
        counts[f"refused: {refusal}"] += 1
        return [] if printed.returncode else [(path, str(refusal), printed.stderr.decode())]
    if printed.returncode:
        return [(path, "opened", printed.stderr.decode())]
    answers = printed.stdout.decode().split("\n\n")
    return [found for address, wanted in zip(addresses, answers)
            for found in address_difference(limberlime, program, path, address, wanted + "\n", counts)]


def address_difference(limberlime, program, path, address, wanted, counts):
    try:
        frames = program.find_frames(address)
    except limberlime.Error as refusal:
        counts[f"address: {refusal}"] += 1
        return [] if wanted == UNKNOWN else [(path, address, str(refusal), wanted)]
    counts["addresses with frames" if frames else "addresses without"] += 1
    got = symbolizer_lines(frames)
    return [] if got == wanted else [(path, hex(address), got, wanted)]


def records_differences(limberlime, report, path, data, runs, counts):
    """Returns the addresses of a records file at which the library's frames differ from what the program prints."""
    try:
        program = limberlime.Program.open_records(data)
    except limberlime.Error as refusal:
        counts[f"records: {refusal}"] += 1
        return []
    found = []
    asked = {word for words in runs if words[:1] == ["frames"] for word in words[1:]}
    for word in sorted(filter(ADDRESS.fullmatch, asked)):
        printed = run([report, path, "frames", word])
        wanted = printed.stdout.decode().replace(":0\n", ":??\n")
        try:
            frames = as_report_names(program.find_frames(int(word, 16)), wanted)
            got, status = report_lines(int(word, 16), frames), 0
        except limberlime.Error as refusal:
            got, status = "", 1
            counts[f"records, address: {refusal}"] += 1
        counts["addresses of records files"] += 1
        if (got, status) != (wanted, printed.returncode):
            found.append((path, word, got, wanted, printed.stderr.decode()))
    return found


def growth_differences(folder, place, counts):
    """Runs the C example with one failing memory allocation, for each in turn. A run must end as expected or report the
    failure."""
    allocator = pathlib.Path(place) / "allocator.so"
    run(["gcc", "-O2", "-fPIC", "-shared", "-o", allocator, CHECKS / "fuzz" / "refusing_allocator.c"], check=True)
    words = [folder / "stack_c11", CRATES / "pdb_symbolizer" / "data" / "shapes.pdb", "0x1136", "0x1000"]
    told = pathlib.Path(place) / "told"
    wanted = run(words, env={"LD_PRELOAD": str(allocator), "COUNT_TO": str(told)}).stdout
    growths = int(told.read_text().split()[0])
    found = []
    for growth in sorted({*range(1, min(growths, 400) + 1), *range(1, growths + 1, max(growths // 400, 1))}):
        got = run(words, env={"LD_PRELOAD": str(allocator), "REFUSE_AT": str(growth)})
        refused = got.returncode in (1, 2) and (NO_MEMORY in got.stderr.decode() or b"cannot read" in got.stderr)
        counts["growths refused" if refused else "growths done without"] += 1
        if not refused and (got.returncode, got.stdout) != (0, wanted):
            found.append(("growth", growth, got.returncode, got.stderr.decode(), got.stdout.decode()))
    return found


def compare_all(limberlime, folder, symbolizer, report, count, first):
    counts, found = Counter(), []
    for path in sorted(CRATES.glob("*/data/*.p*d*")):
        if path.suffix in (".pdb", ".pd_"):
            found += pdb_differences(limberlime, symbolizer, path, counts)
    with tempfile.TemporaryDirectory(prefix="bindings-") as place:
        os.chdir(place)
        found += growth_differences(folder, place, counts)
        for seed in range(first, first + count):
            data, modules, runs = generate(seed)
            for path, content in {f"{seed}.json": data, **modules}.items():
                pathlib.Path(path).write_bytes(content)
            found += records_differences(limberlime, report, f"{seed}.json", data, runs, counts)
        os.chdir("/")
    return counts, found


def main(folder, symbolizer, report, count=200, first=0):
    folder = pathlib.Path(folder).resolve()
    os.environ["LIMBERLIME_LIBRARY"] = str(folder / "liblimberlime.so")
    import limberlime
    programs = pathlib.Path(symbolizer).resolve(), pathlib.Path(report).resolve()
    counts, found = with_big_stack(lambda: compare_all(limberlime, folder, *programs, int(count), int(first)))
    for difference in found[:MOST_SHOWN]:
        print("---", *difference, sep="\n")
    print(f"{len(found)} differences")
    for key, number in sorted(counts.items()):
        print(f"{number:7d}  {key}")
    return 1 if found else 0


if __name__ == "__main__":
    if len(sys.argv) < 4:
        sys.exit(__doc__)
    sys.exit(main(*sys.argv[1:]))
