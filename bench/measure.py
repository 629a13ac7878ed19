#!/usr/bin/env python3
"""Runs the built programs over records files of each shape, and prints tables of bench/RESULTS.md.

    measure.py CRATES RUNS [SUBJECT ..]

CRATES is the folder of the crates, in which pdb_bench and pdb_report were built. Each subject has one table. Without a
SUBJECT, all tables are printed. Each figure is the minimum over RUNS runs, and the sizes of a table take turns. The
number in parentheses is the ratio to the row before.
"""
import os
import pathlib
import subprocess
import sys
import tempfile
import time

import records
import split

MEGABYTE = 1_000_000
FIRST, LATER = "first pass", "later passes"
PASSES = ["Functions, first pass", "later passes", "Frames, first pass", "later passes"]

SYMBOLS = [250_000, 500_000, 1_000_000]
MODULES = (20_000, 28, 1_000)
PROGRAMS = [(3_000, 50, 40_000), (6_000, 50, 80_000), (12_000, 50, 160_000)]
SMALL_PROCEDURES = [(12_500, 10, 12_500), (25_000, 10, 25_000), (50_000, 10, 50_000)]
GENUINE = (3_000, 50, 40_000, 186_000, 37_000)
HOSTILE = [50_000, 100_000, 200_000]
MANY = [125_000, 250_000, 500_000]


class Run:
    """The output of one run of pdb_bench: microseconds of each step, kilobytes of memory, and the number of frames
    found."""

    def __init__(self, steps, counts):
        self.parsed, self.peaks, self.contexts = 0, [], []
        self.functions, self.frames = [], []
        for line in steps.splitlines():
            step, _, figure = line.rpartition(": ")
            number = int(figure.split()[0])
            if step == "records parsed":
                self.parsed = number
            elif step == "peak memory":
                self.peaks.append(number)
            elif step == "context made":
                self.contexts.append(number)
            elif step == "functions":
                self.functions.append(number)
            elif step == "frames":
                self.frames.append(number)
        self.found = int(counts.splitlines()[-1].split()[-2])


class Figures:
    """The minimum of each figure over all runs of one size."""

    def __init__(self, size, runs):
        self.bytes, self.found = size, runs[0].found
        self.parsed = min(run.parsed for run in runs)
        self.context = min(min(run.contexts) for run in runs)
        self.functions = {FIRST: least(run.functions[:1] for run in runs), LATER: least(run.functions[1:] for run in runs)}
        self.frames = {FIRST: least(run.frames[:1] for run in runs), LATER: least(run.frames[1:] for run in runs)}
        self.peak = min(run.peaks[-1] for run in runs)

    def bytes_a_byte(self):
        return f"{self.peak * 1024 / self.bytes:.1f}"


def least(lists):
    return min(min(numbers) for numbers in lists)


def one_run(crates, folder, number):
    words = [f"{crates}/pdb_bench/out/pdb_bench", f"{folder}/{number}.json", f"{folder}/{number}.txt"]
    ran = subprocess.run(words, capture_output=True, text=True, check=True)
    return Run(ran.stderr, ran.stdout)


def measured(crates, runs, shape, sizes):
    """Returns the minimum figures for each size of a shape."""
    with tempfile.TemporaryDirectory() as folder:
        for number, size in enumerate(sizes):
            numbers = size if isinstance(size, tuple) else (size,)
            records.write(shape, numbers, f"{folder}/{number}.json", f"{folder}/{number}.txt")
        turns = [[one_run(crates, folder, number) for number in range(len(sizes))] for _ in range(runs)]
        bytes_of = [os.path.getsize(f"{folder}/{number}.json") for number in range(len(sizes))]
    return [Figures(bytes_of[number], [turn[number] for turn in turns]) for number in range(len(sizes))]


def time_text(microseconds):
    """Formats a time with two or three digits."""
    if microseconds == 0:
        return "under 1 µs"
    if microseconds < 1_000:
        return f"{microseconds:.0f} µs"
    number, unit = (microseconds / 1_000, "ms") if microseconds < 1_000_000 else (microseconds / 1_000_000, "s")
    return f"{number:.0f} {unit}" if number >= 100 else f"{number:.1f} {unit}" if number >= 10 else f"{number:.2f} {unit}"


def memory_text(kilobytes):
    megabytes = kilobytes * 1024 / MEGABYTE
    return f"{megabytes / 1000:.2f} GB" if megabytes >= 1000 else f"{megabytes:.0f} MB"


def size_text(size):
    return ", ".join(f"{number:,}" for number in size) if isinstance(size, tuple) else f"{size:,}"


def column(figures, value):
    """Formats times, each with its ratio to the one before. A time under 10 µs is too short for a ratio, so none
    follows it."""
    times = [value(figure) for figure in figures]
    texts = [time_text(times[0])]
    for before, after in zip(times, times[1:]):
        texts.append(f"{time_text(after)} ({after / before:.2f})" if before >= 10 else time_text(after))
    return texts


def print_table(heads, rows):
    print("\n| " + " | ".join(heads) + " |")
    print("|" + "---|" * len(heads))
    for row in rows:
        print("| " + " | ".join(row) + " |")
    print(flush=True)


def functions(which):
    return lambda figure: figure.functions[which]


def frames(which):
    return lambda figure: figure.frames[which]


def passes(figures):
    """The columns of functions and of frames."""
    return [column(figures, value(which)) for value in (functions, frames) for which in (FIRST, LATER)]


def file_and_reading(figures):
    """The columns for the steps before the first lookup: file size, reading, memory, and making a context."""
    return [
        [f"{figure.bytes / MEGABYTE:.0f} MB" for figure in figures],
        column(figures, lambda figure: figure.parsed),
        [figure.bytes_a_byte() for figure in figures],
        column(figures, lambda figure: figure.context),
    ]


READING = ["File", "Reading", "Memory, bytes a byte", "Making a context"]


def reading(crates, runs):
    figures = measured(crates, runs, "symbols", SYMBOLS)
    columns = [[size_text(size) for size in SYMBOLS], *file_and_reading(figures), *passes(figures)]
    print_table(["Public symbols", *READING, *PASSES], zip(*columns))


def report_run(crates, path, addresses):
    """Returns the microseconds and the peak kilobytes of a whole run of pdb_report, and its standard output."""
    with tempfile.TemporaryFile() as out:
        start = time.perf_counter()
        process = subprocess.Popen([f"{crates}/pdb_report/out/pdb_report", path, "names", *addresses], stdout=out)
        _, status, usage = os.wait4(process.pid, 0)
        microseconds = (time.perf_counter() - start) * 1_000_000
        process.returncode = os.waitstatus_to_exitcode(status)
        if process.returncode:
            sys.exit(f"pdb_report ended with {process.returncode}")
        out.seek(0)
        return microseconds, usage.ru_maxrss, out.read()


def files(crates, runs):
    with tempfile.TemporaryDirectory() as folder:
        whole, asked = f"{folder}/whole.json", f"{folder}/addresses"
        records.write("program", MODULES, whole, asked)
        # (in a process of its own: a child's peak memory would start at what this process holds)
        subprocess.run([sys.executable, split.__file__, whole, f"{folder}/parts"], check=True)
        addresses = pathlib.Path(asked).read_text().split()
        paths = {"one file": whole, "a file for each module": f"{folder}/parts/records.json"}
        turns = [[report_run(crates, path, addresses) for path in paths.values()] for _ in range(runs)]
        size = f"{os.path.getsize(whole) / MEGABYTE:.0f} MB"
    if len({ran[2] for turn in turns for ran in turn}) > 1:
        sys.exit("the records of one file and of many have other answers")
    rows, first = [], None
    for number, name in enumerate(paths):
        spent, held = (min(turn[number][at] for turn in turns) for at in (0, 1))
        ratios = [f" ({now / before:.2f})" for now, before in zip((spent, held), first)] if first else ["", ""]
        rows.append([name, size, time_text(spent) + ratios[0], memory_text(held) + ratios[1]])
        first = first or (spent, held)
    print_table(["Records", "Size", "Whole run", "Peak memory"], rows)


def programs(crates, runs):
    rows = []
    for sizes in (PROGRAMS, SMALL_PROCEDURES):
        figures = measured(crates, runs, "program", sizes)
        found = [f"{figure.found:,}" for figure in figures]
        rows += zip([size_text(size) for size in sizes], found, *file_and_reading(figures), *passes(figures))
    print_table(["Procedures, sites of each, addresses", "Frames", *READING, *PASSES], rows)


def genuine(crates, runs):
    heads = {
        "genuine": "ascending",
        "genuine-descending": "descending",
        "genuine-shuffled": "in no order",
        "genuine-doubles": "each twice",
    }
    rows = []
    for shape, order in heads.items():
        figure = measured(crates, runs, shape, [GENUINE])[0]
        times = [value(which)(figure) for value in (functions, frames) for which in (FIRST, LATER)]
        rows.append([
            order,
            *(texts[0] for texts in file_and_reading([figure])),
            f"{time_text(times[0])} ({times[0] / times[1]:.1f})",
            time_text(times[1]),
            f"{time_text(times[2])} ({times[2] / times[3]:.1f})",
            time_text(times[3]),
        ])
    print_table(["Types", *READING, *PASSES], rows)


def hostile(crates, runs):
    heads = {
        "procedures": "nested procedures",
        "sites": "nested sites",
        "side-by-side": "sites side by side",
        "publics": "public symbols at one section offset",
    }
    rows = []
    for shape, head in heads.items():
        figures = measured(crates, runs, shape, HOSTILE)
        rows += zip([f"{size_text(size)} {head}" for size in HOSTILE], *passes(figures))
    print_table(["Records", *PASSES], rows)


def first_passes(crates, runs, head, value, shapes):
    """Prints a table of first passes, with a column for each shape."""
    columns = [column(measured(crates, runs, shape, MANY), value) for shape in shapes]
    print_table([head, *shapes.values()], zip([size_text(size) for size in MANY], *columns))


def types(crates, runs):
    first_passes(crates, runs, "Types", functions(FIRST), {
        "sizes": "All over a list",
        "references": "Half of them forward references",
        "chain": "A chain through modules",
        "named-chain": "And a module's name as long",
        "circle": "A circle through modules",
    })


def signatures(crates, runs):
    first_passes(crates, runs, "Types", functions(FIRST), {
        "pointers": "Nested pointers",
        "callbacks": "Procedures that take procedures",
        "pointed-arrays": "Pointers to arrays of pointers",
        "arrays": "Nested arrays",
        "arguments": "Arguments of one type",
    })


def ids(crates, runs):
    first_passes(crates, runs, "Functions", frames(FIRST), {"scopes": "Inside one another", "scopes-circle": "In a circle"})


SUBJECTS = {
    "reading": reading,
    "files": files,
    "programs": programs,
    "genuine": genuine,
    "hostile": hostile,
    "types": types,
    "signatures": signatures,
    "ids": ids,
}


def main():
    words = sys.argv[1:]
    if len(words) < 2 or any(word not in SUBJECTS for word in words[2:]):
        sys.exit(__doc__)
    for subject in words[2:] or SUBJECTS:
        print(f"{subject}:")
        SUBJECTS[subject](words[0], int(words[1]))


if __name__ == "__main__":
    main()
