"""Compares a built pdb_report with the model on random records files.

Usage: compare.py PROGRAM COUNT [FIRST_SEED] [JOBS]

The files are those of COUNT seeds from FIRST_SEED (0) on. For each run, standard output, standard error and the status
are compared. The script prints up to 20 differences, and then statistics of what the runs reached. If PROGRAM is `-`,
the model runs alone, and only the statistics are printed. The exit status is 1 if a run differs.
"""
import itertools
import multiprocessing
import os
import re
import shutil
import subprocess
import sys
import tempfile
import time
from collections import Counter

import errors
from generate import generate
from model import run, with_big_stack

MOST_SHOWN = 20
SEEDS_OF_A_JOB = 20
MODEL_ALONE = "-"


def ask(program, words):
    """Returns the standard output, status and standard error of a run."""
    try:
        done = subprocess.run([program, *words], capture_output=True, timeout=60)
        return done.stdout, done.returncode, done.stderr
    except subprocess.TimeoutExpired:
        return b"", "no end after 60 s", b""
    except OSError as error:
        return b"", f"can't run: {error}", b""


def compare_seed(program, seed):
    """Returns the counts and the differences of one seed. Its files are written to the current folder, and removed
    after the runs."""
    data, modules, runs = generate(seed)
    name = f"{seed}.json"
    counts, differences = Counter(seeds=1), []
    contents = {name: data, **modules}
    for path, content in contents.items():
        with open(path, "wb") as file:
            file.write(content)
    counts["files with module files"] += bool(modules)
    errors.MET.clear()
    for words in runs:
        words = words[1:] if words[:1] == ["!"] else [name, *words]
        wanted = run(words, contents.get)
        count_run(counts, words, wanted, name)
        if program == MODEL_ALONE:
            continue
        got = ask(program, words)
        if got == wanted:
            counts["agree"] += 1
        else:
            differences.append((seed, words, wanted, got))
    for key, count in errors.MET.items():
        counts["met " + re.sub(r"\d\d\d+", "N", key)] += count
    for path in contents:
        os.remove(path)
    return counts, differences


# --------------------------------------------------------------- statistics


def without_numbers(text, name):
    """Replaces the larger numbers in the text of an error, and those in paths."""
    text = text.replace(name, "FILE")
    if text.startswith("pdb_report: FILE: /"):
        text = re.sub(r"/\d+", "/N", text)
    return re.sub(r"\d\d\d+", "N", text)


def count_run(counts, words, wanted, name):
    """Counts what the expected output of a run shows."""
    stdout, status, stderr = wanted[0].decode(), wanted[1], wanted[2].decode()
    counts["runs"] += 1
    counts[f"status {status}"] += 1
    if status:
        counts["stderr " + without_numbers(stderr.strip(), name)] += 1
    command = words[1:2]
    if command == ["frames"]:
        count_frames(counts, stdout)
    if command == ["names"]:
        counts["answers: no function found"] += stdout.count(" - no function found")
        for line in stdout.splitlines():
            count_name(counts, line)
    if command == ["list"]:
        counts["lines of list"] += stdout.count("\n")


def count_frames(counts, stdout):
    for number in re.findall(r" - (\d+) frames:", stdout):
        counts["answers: frames " + (number if number in ("1", "2") else "3 or more")] += 1
    counts["answers: no frames found"] += stdout.count(" - no frames found")
    counts["frames: file known"] += len(re.findall(r" at (?!\?\?:).*:\d+$", stdout, re.M))
    counts["frames: line known"] += len(re.findall(r":\d+$", stdout, re.M))


def count_name(counts, line):
    """Counts what a line of `names` shows."""
    if not line.startswith("0x"):
        return
    name = line.partition(" - ")[2].rpartition(" ")[0]
    counts["names"] += 1
    counts["names: <unknown>"] += name == "<unknown>"
    counts["names: <name omitted>"] += "<name omitted>" in name
    counts["names: no end"] += line.endswith("..??")
    counts["names: with arguments"] += bool(re.search(r"\([^)]", name))
    counts["names: pointer to function"] += "(*" in name
    counts["names: pointer to member function"] += "::*" in name
    counts["names: arrays"] += bool(re.search(r"\[\d*\]", name))
    counts["names: const method"] += name.endswith(" const")
    counts["names: const"] += "const" in name
    counts["names: missing type"] += "<missing type" in name
    counts["names: decorated"] += name.startswith("?")


def print_statistics(program, counts, seconds):
    head = f"{counts['seeds']} seeds, {seconds:.0f} s; {counts['runs']} runs"
    if program == MODEL_ALONE:
        print(f"{head} of the model alone")
    else:
        print(f"{head} compared, {counts['agree']} agree, {counts['differ']} differ")
    errors = [key for key in counts if key.startswith("stderr ")]
    swallowed = [key for key in counts if key.startswith("met name swallowed")]
    print(f"{len(errors)} distinct texts on standard error, {len(swallowed)} distinct errors of names that "
          f"became <unknown> (numbers past two digits and those in paths count as one)")
    for key, count in sorted(counts.items()):
        if key not in ("seeds", "runs", "agree", "differ") and count:
            print(f"{count:9d}  {key}")


# ---------------------------------------------------------------- all seeds


def show(difference):
    """Prints a difference. Only differing lines of standard output are printed."""
    seed, words, wanted, got = difference
    print(f"--- seed {seed}: {' '.join(words)}")
    for who, (_, status, stderr) in (("model", wanted), ("program", got)):
        print(f"{who}: status {status}, standard error {stderr!r}")
    models, programs = wanted[0].splitlines(True), got[0].splitlines(True)
    for number, (model, program) in enumerate(itertools.zip_longest(models, programs), 1):
        if model != program:
            print(f"  line {number} model   {model!r}\n         program {program!r}")
    sys.stdout.flush()


def compare_seeds(job):
    """Returns the counts and differences of some seeds, which run in a folder of their own."""
    program, seeds, folder = job
    os.makedirs(folder, exist_ok=True)
    os.chdir(folder)
    return with_big_stack(lambda: [compare_seed(program, seed) for seed in seeds])


def gather(answers):
    """Adds up the counts of all seeds. Prints differences, and stops when enough are printed."""
    counts = Counter()
    for seed_counts, differences in answers:
        for difference in differences[:max(0, MOST_SHOWN - counts["differ"])]:
            show(difference)
        counts += seed_counts
        counts["differ"] += len(differences)
        if counts["differ"] >= MOST_SHOWN:
            print(f"stopped after {counts['differ']} differences")
            break
    return counts


def main(program, count, first=0, jobs=1):
    """Compares all seeds in a folder that is removed at the end. Returns the exit status."""
    if program != MODEL_ALONE:
        program = os.path.abspath(program)
    began = time.time()
    folder = tempfile.mkdtemp(prefix="compare-")
    work = [(program, range(first + n, first + min(n + SEEDS_OF_A_JOB, count)), f"{folder}/{n}")
            for n in range(0, count, SEEDS_OF_A_JOB)]
    pool = multiprocessing.Pool(jobs) if jobs > 1 else None
    try:
        lists = pool.imap(compare_seeds, work) if pool else map(compare_seeds, work)
        counts = gather(answer for answers in lists for answer in answers)
    finally:
        if pool:
            pool.terminate()
        os.chdir("/")
        shutil.rmtree(folder, ignore_errors=True)
    print_statistics(program, counts, time.time() - began)
    return 1 if counts["differ"] else 0


if __name__ == "__main__":
    if len(sys.argv) < 3:
        sys.exit(__doc__)
    sys.exit(main(sys.argv[1], *map(int, sys.argv[2:])))
