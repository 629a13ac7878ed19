#!/usr/bin/env python3
"""Runs the built pdb_report on mutated records files, and reports every run that misbehaves.

Usage: records_files.py PROGRAM COUNT [SEED]

A run misbehaves in these cases:

  - It ends by a signal, or its status is not 0, 1 or 2.
  - It takes more than ten seconds.
  - Its status is 1 or 2, and standard error has other than one line.
  - Its status is 0, and standard error has a line.
"""
import pathlib
import random
import subprocess
import sys
import tempfile

DATA = pathlib.Path(__file__).resolve().parents[2] / "crates" / "pdb_report_tests" / "data"
NUMBERS = [b"4294967295", b"4294967296", b"18446744073709551615", b"18446744073709551616", b"-1", b"1e999", b"0.5", b"0"]
ADDRESSES = ["0", "1000", "1010", "1025", "2000", "7fffffff", "fffffff0", "ffffffff"]


def number_at(text, random):
    """Replaces a number by another one."""
    starts = [i for i, b in enumerate(text) if chr(b).isdigit() and not chr(text[i - 1]).isdigit()]
    if not starts:
        return text
    start = random.choice(starts)
    end = start
    while end < len(text) and chr(text[end]).isdigit():
        end += 1
    return text[:start] + random.choice(NUMBERS) + text[end:]


def mutated(text, random):
    """Applies one change."""
    a, b = sorted((random.randrange(len(text) + 1), random.randrange(len(text) + 1)))
    b = min(b, a + random.choice([1, 2, 8, 64, 4096]))
    kind = random.randrange(8)
    if kind == 0:
        return text[:a] + text[b:]
    if kind == 1:
        return text[:b] + text[a:b] + text[b:]
    if kind == 2:
        return text[:a]
    if kind == 3:
        return text[:a] + bytes([random.randrange(256)]) + text[a + 1:]
    if kind == 4:
        depth = random.choice([1, 120, 127, 128, 100000])
        return text[:a] + b"[" * depth + b"]" * depth + text[a:]
    if kind == 5:
        words = [b"null", b"{}", b"[]", b'""', b"true", b'{"error":1}', b'{"items":[],"fault":2}']
        return text[:a] + random.choice(words) + text[b:]
    if kind == 6:
        c = random.randrange(len(text) + 1)
        return text[:c] + text[a:b] + text[c:]
    return number_at(text, random)


def misbehaviour(program, path):
    """Returns what is wrong with a run on this file, or None."""
    try:
        run = subprocess.run([program, path, "names"] + ADDRESSES, capture_output=True, timeout=10)
    except subprocess.TimeoutExpired:
        return "more than ten seconds"
    if run.returncode not in (0, 1, 2):
        return f"status {run.returncode}"
    lines = run.stderr.count(b"\n")
    if lines != (0 if run.returncode == 0 else 1):
        return f"status {run.returncode} with {lines} lines on standard error"
    return None


def main():
    program, count = sys.argv[1], int(sys.argv[2])
    seed = int(sys.argv[3]) if len(sys.argv) > 3 else 1
    chance = random.Random(seed)
    texts = [p.read_bytes() for p in sorted(DATA.glob("**/*.json"))]
    found = 0
    with tempfile.TemporaryDirectory() as folder:
        modules = {p.name: p.read_bytes() for p in sorted(DATA.glob("modules/*.json"))}
        path = pathlib.Path(folder) / "mutated.json"
        for number in range(count):
            text = chance.choice(texts)
            for _ in range(chance.choice([1, 1, 2, 5])):
                text = mutated(text, chance) or b"{"
            path.write_bytes(text)
            for name, module in modules.items():
                changed = mutated(module, chance) if chance.random() < 0.1 else module
                (pathlib.Path(folder) / name).write_bytes(changed)
            wrong = misbehaviour(program, str(path))
            if wrong:
                found += 1
                kept = pathlib.Path(f"misbehaves-{seed}-{number}.json")
                kept.write_bytes(text)
                print(f"{kept}: {wrong}")
    print(f"{count} runs, {found} misbehave")
    return 1 if found else 0


if __name__ == "__main__":
    if len(sys.argv) == 1:
        sys.exit(__doc__)
    sys.exit(main())
