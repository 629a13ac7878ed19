#!/usr/bin/env python3
"""Runs the built program, and makes each of its memory allocations fail in turn. It reports every run that ends in a
way it must not.

Usage: refused_growths.py PROGRAM [CALLS_PROGRAM]

PROGRAM is a built pdb_report. The script compiles an allocator with gcc (or $CC) and preloads it. The allocator fails
the Nth allocation alone, or each from the Nth on. N goes over all allocations of each case. If there are very many, it
goes over the first, the last, and some between. A case is a run of crates/pdb_report_tests/data/cases.txt with its
expected output. The run may end in these ways:

- as expected: the allocation wasn't needed, or was made again;
- with status 1 and `Out of memory`, after no text or after whole texts of the first addresses: memory ran out after the
  file was read;
- with status 2, no text, and `out of memory` after the file's name: memory ran out while the file was read, before any
  lookup.

It must not end with `cannot read` or `cannot write`, because the file can be read and the lines can be written. It must
not end by a signal, take more than ten seconds, print another line, or print a part of an address's text.

CALLS_PROGRAM is a built pdb_call_tests. It runs over the lists of calls for each records file of calls.txt, with single
allocations failing. A call that runs out of memory is made again with the same context, and the calls after it follow.
The run may end in these ways:

- as expected, with a call made again or without;
- with one list that differs, if a call was made again and the list is about broken parts. The call may have found such
  a part and then run out of memory. Made again, it may answer that the part failed before;
- early with status 1, or without answers over a file that it couldn't read, if an allocation of the test program itself
  failed.
"""
import concurrent.futures
import os
import pathlib
import re
import subprocess
import sys
import tempfile
from collections import Counter, namedtuple

HERE = pathlib.Path(__file__).resolve().parent
CRATES = HERE.parents[1] / "crates"
SECONDS = 10
WORKERS = max(1, (os.cpu_count() or 1) // 2)
# How each run of cases.txt begins. The case is the first run that begins like this.
RUNS = [
    "public_symbol.json names 1005",
    "public_symbol.json frames 1005",
    "public_symbol.json list",
    "signatures.json names",
    "circular_types.json names",
    "three_modules.json frames 1025",
    "badly_nested_sites.json frames",
    "site_of_a_method.json frames",
    "failing_lines.json names",
    "failing_lines.json frames 1012",
    "failing_parts.json frames 10c4 1024 10e4",
    "lines_and_files.json frames",
    "types_across_modules.json names",
    "counter.json frames",
    "counter.json list",
    "interleaved_contributions.json names",
    "overlapping_contributions.json names",
    "size_out_of_range.json names",
    "modules/two.json names",
    "modules/broken.json names",
    "modules/missing.json names",
    "small_x64.json names",
    "small_x64.json frames",
    "small_x64.json list",
]
# At most this many allocations fail at the start of a case and as many at its end (NEAR), and about this many between.
NEAR, BETWEEN = 500, 6000
CALLS_NEAR, CALLS_BETWEEN = 200, 600
MODES = ("REFUSE_AT", "REFUSE_FROM")

AS_WANTED = "as wanted"
AT_FIRST = "out of memory before any text"
IN_A_LOOK_UP = "out of memory in a look-up, behind the texts before"
WHILE_READ = "out of memory while the file's text was read"

MADE_AGAIN = "a call was made again, and all answers are as wanted"
OF_A_BROKEN_PART = "a call was made again, and says that a broken part failed before"
ENDS_EARLY = "a growth of the list's own program was refused"
QUESTIONS = ("calls.txt", "sizes.txt", "signatures.txt", "ids.txt", "ways.txt", "lent.txt", "parts.txt")

Case = namedtuple("Case", "name folder words stdout stderr status")
Run = namedtuple("Run", "status stdout stderr")


def cases():
    """Yields the cases, in the order of RUNS."""
    text = (CRATES / "pdb_report_tests" / "data" / "cases.txt").read_text()
    runs = [run.split("\n", 1) for run in re.split(r"(?m)^\$ pdb_report ", text)[1:]]
    for start in RUNS:
        yield next(case(words, rest) for words, rest in runs if f"{words} ".startswith(f"{start} "))


def case(words, rest):
    """Makes a case of a run's command line and of the text after it, which has the expected output and status."""
    printed, status = re.fullmatch(r"(.*?)status (\d)\n\n?", rest, re.S).groups()
    lines = printed.splitlines(True)
    stderr = lines.pop() if status != "0" else ""
    folder = CRATES / "pdb_report_tests" / "data"
    return Case(words, folder, words.split(), "".join(lines).encode(), stderr.encode(), int(status))


def answer_ends(stdout):
    """Returns the lengths of all beginnings of a text that end where an answer ends."""
    ends = {0, len(stdout)}
    for line in re.finditer(rb"(?m)^(?!     )", stdout):
        ends.add(line.start())
    return ends


def ask(program, words, folder, library, counts_file, **refusal):
    """Runs the program with failing allocations."""
    environment = dict(os.environ, LD_PRELOAD=str(library), COUNT_TO=str(counts_file))
    environment.update({name: str(number) for name, number in refusal.items()})
    done = subprocess.run([program, *words], cwd=folder, env=environment, capture_output=True, timeout=SECONDS,
                          stdin=subprocess.DEVNULL)
    return Run(done.returncode, done.stdout, done.stderr)


def counts(counts_file):
    """Returns how many allocations the last run made, and how many of them failed."""
    calls, refused = counts_file.read_text().split()
    return int(calls), int(refused)


def outcome(case, run):
    """Returns the kind of end of a run with failing allocations, or None if it must not end so."""
    name = case.words[0].encode()
    if run == Run(case.status, case.stdout, case.stderr):
        return AS_WANTED
    if run.status == 1 and run.stderr == b"pdb_report: Out of memory\n":
        if case.stdout.startswith(run.stdout) and len(run.stdout) in answer_ends(case.stdout):
            return IN_A_LOOK_UP if run.stdout else AT_FIRST
    if run == Run(2, b"", b"pdb_report: " + name + b": out of memory\n"):
        return WHILE_READ
    return None


def numbers(calls, near, between):
    """Returns the numbers of the allocations to fail, of `calls` in all."""
    step = max(1, (calls - 2 * near) // between)
    chosen = {*range(1, near + 1), *range(near, calls, step), *range(calls - near, calls + 1)}
    return sorted(number for number in chosen if 0 < number <= calls)


def trial(program, case, library, folder, mode, number):
    """Returns the outcome of a run with a failing allocation, the number of allocations that failed, and the run. The
    outcome is None if none failed."""
    counts_file = folder / f"{mode}-{number}"
    try:
        run = ask(program, case.words, case.folder, library, counts_file, **{mode: number})
    except subprocess.TimeoutExpired:
        return None, 0, f"no end after {SECONDS} s"
    if not counts_file.exists():
        return None, 0, run
    refused = counts(counts_file)[1]
    counts_file.unlink()
    return outcome(case, run) if refused else None, refused, run


def trials(program, case, library, folder):
    """Returns the arguments of all trials of a case. First it runs the case without a failing allocation, which must
    end as expected."""
    counts_file = folder / "counts"
    run = ask(program, case.words, case.folder, library, counts_file)
    if outcome(case, run) != AS_WANTED:
        sys.exit(f"{case.name}: not as wanted with no growth refused: {run}")
    calls = counts(counts_file)[0]
    chosen = numbers(calls, NEAR, BETWEEN)
    print(f"{case.name[:60]}: {len(chosen)} of {calls} growths", flush=True)
    return [(program, case, library, folder, mode, number) for mode in MODES for number in chosen]


def over_cases(program, library, folder, seen):
    """Tries all cases and counts the outcomes. Returns the number of allocations that failed."""
    growths = 0
    with concurrent.futures.ThreadPoolExecutor(WORKERS) as pool:
        for case in cases():
            arguments = trials(program, case, library, folder)
            for argument, (what, refused, run) in zip(arguments, pool.map(lambda a: trial(*a), arguments)):
                growths += refused
                seen[what] += 1
                if what is None:
                    print(f"{argument[4]}={argument[5]} pdb_report {case.name}: {run}", flush=True)
    return growths


def calls_outcome(wanted, lists, run):
    """Returns the kind of end of a run of pdb_call_tests with one failing allocation, or None if it must not end so."""
    if run.status == 1 and run.stderr.count(b"\n") == 1 and b"emory" in run.stderr:
        return ENDS_EARLY
    if run.status or run.stderr:
        return None
    if b" was refused\n" in run.stdout:
        return ENDS_EARLY
    if run.stdout == wanted:
        return AS_WANTED
    lines = run.stdout.decode().splitlines()
    again = [line for line in lines if line.endswith(" was made again")]
    differ = [line for line in lines if line.endswith(" differs")]
    if len(again) == 1 and not differ:
        return MADE_AGAIN
    if len(again) == 1 and [line[: -len(" differs")] for line in differ] == [again[0][: -len(" was made again")]]:
        return OF_A_BROKEN_PART if "unsuccessful" in lists else None
    return None


def calls_folder(folder, name, lists):
    """Makes a folder of test data in which calls.txt has only these lists of calls."""
    folder = folder / name
    folder.mkdir()
    (folder / name).symlink_to(CRATES / "pdb_call_tests" / "data" / name)
    for questions in QUESTIONS:
        (folder / questions).write_text(f"file {name}\n{lists}" if questions == QUESTIONS[0] else "")
    return folder


def calls_trial(program, wanted, lists, library, folder, number):
    """Returns the outcome of a run of pdb_call_tests with a failing allocation, and the run."""
    try:
        run = ask(program, [], folder, library, folder / f"counts-{number}", REFUSE_AT=number)
    except subprocess.TimeoutExpired:
        return None, f"no end after {SECONDS} s"
    return calls_outcome(wanted, lists, run), run


def over_calls(program, library, folder):
    """Tries pdb_call_tests over the lists for each records file. Returns the number of each outcome."""
    seen = Counter()
    text = (CRATES / "pdb_call_tests" / "data" / QUESTIONS[0]).read_text()
    for part in text.split("file ")[1:]:
        name, lists = part.split("\n", 1)
        seen += over_lists(program, name, lists, library, calls_folder(folder, name, lists))
    return seen


def over_lists(program, name, lists, library, folder):
    """Tries the lists of calls for one records file. Returns the number of each outcome."""
    run = ask(program, [], folder, library, folder / "counts-0", REFUSE_AT=0)
    if run.status or b" 0 differ" not in run.stdout:
        sys.exit(f"{name}: not as wanted with no growth refused: {run}")
    calls = counts(folder / "counts-0")[0]
    chosen = numbers(calls, CALLS_NEAR, CALLS_BETWEEN)
    print(f"calls over {name}: {len(chosen)} of {calls} growths", flush=True)
    seen = Counter()
    with concurrent.futures.ThreadPoolExecutor(WORKERS) as pool:
        found = pool.map(lambda number: calls_trial(program, run.stdout, lists, library, folder, number), chosen)
        for number, (what, ended) in zip(chosen, found):
            seen[what] += 1
            if what is None:
                print(f"REFUSE_AT={number} pdb_call_tests over {name}: {ended}", flush=True)
    return seen


def compiled(folder):
    """Compiles the failing allocator into this folder."""
    library = folder / "refusing_allocator.so"
    subprocess.run([os.environ.get("CC", "gcc"), "-O2", "-shared", "-fPIC", "-o", library,
                    HERE / "refusing_allocator.c"], check=True)
    return library


def show(seen, names):
    """Prints the number of each outcome. Returns how many outcomes never occurred, not counting `as wanted`."""
    for name in names:
        print(f"{seen[name]:8d}  {name}")
    return sum(not seen[name] for name in names if name != AS_WANTED)


def main(program, calls_program=None):
    failed = 0
    with tempfile.TemporaryDirectory() as folder:
        folder = pathlib.Path(folder)
        library = compiled(folder)
        seen = Counter()
        growths = over_cases(os.path.abspath(program), library, folder, seen)
        print(f"{growths} growths refused in {sum(seen.values())} runs of {len(RUNS)} cases, {seen[None]} wrong")
        failed += seen[None] + show(seen, [AS_WANTED, AT_FIRST, IN_A_LOOK_UP, WHILE_READ])
        if calls_program:
            seen = over_calls(os.path.abspath(calls_program), library, folder)
            print(f"{sum(seen.values())} runs of pdb_call_tests with a growth refused, {seen[None]} wrong")
            failed += seen[None] + show(seen, [AS_WANTED, MADE_AGAIN, ENDS_EARLY])
            show(seen, [OF_A_BROKEN_PART])
    return 1 if failed else 0


if __name__ == "__main__":
    if len(sys.argv) not in (2, 3):
        sys.exit(__doc__)
    sys.exit(main(*sys.argv[1:]))
