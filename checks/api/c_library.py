#!/usr/bin/env python3
"""Compares the examples of C and Rust with the built program, over the records of a genuine program and random ones.

Usage: c_library.py FOLDER PROGRAM [COUNT] [FIRST_SEED]

FOLDER is the output of `examples/run.sh FOLDER`. PROGRAM is a built pdb_report. The random files are those that
checks/model makes for COUNT (200) seeds from FIRST_SEED (0) on. If the program prints a whole report, an example must
print the same. If the program ends early, an example must print only the refusal. Every 20th seed, and the genuine
program, also run under valgrind. Up to 20 differences are printed. The exit status is 1 if there is one.
"""
import json
import os
import pathlib
import re
import subprocess
import sys
import tempfile
from collections import Counter, namedtuple

CHECKS = pathlib.Path(__file__).resolve().parents[1]
sys.path.insert(0, str(CHECKS / "model"))
from generate import generate  # noqa: E402
from model import with_big_stack  # noqa: E402
from records import Fault, module_files  # noqa: E402

SAMPLE = CHECKS.parent / "crates" / "pdb_report_tests" / "data" / "small_x64.json"
# The examples: `report` reads the records at each call, and `opened` reads them once.
EXAMPLES = [("report", "c"), ("opened", "c"), ("opened", "rust")]
MOST_SHOWN = 20
SEEDS_TO_A_CHECK = 20
SECONDS = 120
ADDRESS = re.compile(r"(0x)?[0-9a-fA-F]{1,8}")
VALGRIND = ["valgrind", "--quiet", "--error-exitcode=99", "--leak-check=full"]
# The kinds of leaks that are errors. In C that is each block that isn't freed. Rust's own runtime holds one block to
# the end.
LEAKS = {"c": "all", "rust": "definite,indirect,possible"}

Run = namedtuple("Run", "stdout status stderr")


def run(words):
    done = subprocess.run([str(word) for word in words], capture_output=True, timeout=SECONDS)
    return Run(done.stdout, done.returncode, done.stderr.decode(errors="replace"))


def refusal(program, path, data, command, ended):
    """Returns the refusal that an example must print if the program's run ended early. It follows from the records
    file's fault, or from whether the program also refuses the records without any address."""
    try:
        if module_files(data):
            return "module files"
    except Fault as fault:
        return "not a JSON text" if str(fault) == "not a JSON text" else "no records"
    if ended.status == 2:
        return "not a JSON text" if ended.stderr.endswith(f"{path}: not a JSON text\n") else "no records"
    if run([program, path, command]).status:
        return "the records are refused"
    return "the records of the address's module are refused"


def wanted(program, path, data, words):
    """Returns the run that is expected of an example."""
    if len(words) == 1:
        return Run(b"", 1, "report: no addresses\n")
    ended = run([program, path, *words])
    try:
        reads_others = bool(module_files(data))
    except Fault:
        reads_others = False
    if ended.status == 0 and not reads_others:
        return ended
    return Run(b"", 1, f"report: {refusal(program, path, data, words[0], ended)}\n")


def compare(program, folder, path, data, runs, check, counts):
    """Returns the runs over one file that differ from the expected ones."""
    found = []
    for words in runs:
        report = wanted(program, path, data, words)
        counts[report.stderr.strip() or "whole reports"] += 1
        for example, language in EXAMPLES:
            if example == "opened" and len(words) == 1:
                continue
            kinds = LEAKS[language]
            checked = [*VALGRIND, f"--errors-for-leak-kinds={kinds}", f"--show-leak-kinds={kinds}"]
            for before in ([], checked) if check else ([],):
                got = run([*before, folder / f"{example}_{language}", path, *words])
                counts["runs" + (" under valgrind" if before else "")] += 1
                if seen(example, got) != report:
                    found.append((f"{example}_{language}", bool(before), path, words, report, got))
    return found


def seen(example, got):
    """Makes a run of `opened` comparable with one of `report`. `opened` makes one call per address, so it may have
    printed texts before the call that failed. Its messages also start with its own name."""
    if example == "report" or got.status == 0:
        return got
    return Run(b"", got.status, got.stderr.replace(f"{example}: ", "report: ", 1))


def asked(runs):
    """Returns the runs of a random file that look up valid addresses."""
    return [words for words in runs if words[:1] in (["frames"], ["names"]) and all(map(ADDRESS.fullmatch, words[1:]))]


def sample_runs():
    """Returns runs over the genuine program, with up to 300 addresses spread over its sections."""
    sections = json.loads(SAMPLE.read_bytes())["address_map"]
    places = [section["virtual_address"] + n for section in sections for n in range(0, section["virtual_size"], 37)]
    words = [f"{place:x}" for place in places[::len(places) // 300 + 1]]
    return [[command, *some] for command in ("frames", "names") for some in (words, words[:1], ["0x1544", "0x6011"])]


def compare_all(folder, program, count, first):
    counts, found = Counter(), []
    sample = SAMPLE.read_bytes()
    found += compare(program, folder, SAMPLE, sample, sample_runs(), True, counts)
    for seed in range(first, first + count):
        if len(found) >= MOST_SHOWN:
            break
        data, modules, runs = generate(seed)
        name = f"{seed}.json"
        for path, content in {name: data, **modules}.items():
            pathlib.Path(path).write_bytes(content)
        check = (seed - first) % SEEDS_TO_A_CHECK == 0
        found += compare(program, folder, name, data, [*asked(runs), ["frames"]], check, counts)
        for path in [name, *modules]:
            os.remove(path)
    return counts, found


def main(folder, program, count=200, first=0):
    folder, program = pathlib.Path(folder).resolve(), pathlib.Path(program).resolve()
    with tempfile.TemporaryDirectory(prefix="c_library-") as place:
        os.chdir(place)
        counts, found = with_big_stack(lambda: compare_all(folder, program, int(count), int(first)))
        os.chdir("/")
    for name, checked, path, words, want, got in found[:MOST_SHOWN]:
        print(f"--- {name}{' under valgrind' if checked else ''}: {path} {' '.join(words)[:200]}")
        print(f"wanted: status {want.status}, {want.stderr!r}, {len(want.stdout)} bytes")
        print(f"got:    status {got.status}, {got.stderr[:2000]!r}, {len(got.stdout)} bytes")
    print(f"{int(count)} random files and a genuine one: {len(found)} differences")
    for key, number in sorted(counts.items()):
        print(f"{number:7d}  {key}")
    return 1 if found else 0


if __name__ == "__main__":
    if len(sys.argv) < 3:
        sys.exit(__doc__)
    sys.exit(main(*sys.argv[1:]))
