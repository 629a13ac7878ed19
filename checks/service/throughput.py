#!/usr/bin/env python3
"""Measures one pdb_symbolizer over many requests and many PDB files, and compares a sample of its answers.

Usage: throughput.py PROGRAM [--requests N] [--frames N] [--files N] [--seed N] [--sample N] [--pdb PDB ..]
       [-- OPTION ..]

PROGRAM is a built pdb_symbolizer. The script makes a store of 200 PDB files, and 100,000 requests with a stack of 50
frames. Each frame's file is drawn by a Zipf distribution. One process `--symbolicate-lines` answers all requests. The
script prints the time, the requests and frames per second, the CPU time and the peak memory. For 200 requests, drawn by
the seed, the answers must be those of a process for each request, byte for byte. OPTION is a further option of
pdb_symbolizer, such as `--cache-size=0`. Only the measured process gets it. With `--pdb`, the store has copies of these
PDB files.
"""
import argparse
import contextlib
import os
import pathlib
import random
import shutil
import subprocess
import sys
import tempfile
import threading
import time
from collections import namedtuple

from stores import alone, make_store, report, write_requests

Measured = namedtuple("Measured", "lines length kept status seconds cpu peak")


def arguments():
    parser = argparse.ArgumentParser(usage=__doc__.split("Usage: ")[1].split("\n\n")[0])
    parser.add_argument("program", type=os.path.abspath)
    for name, value in (("requests", 100_000), ("frames", 50), ("files", 200), ("seed", 1), ("sample", 200)):
        parser.add_argument(f"--{name}", type=int, default=value)
    parser.add_argument("--pdb", nargs="+")
    words = sys.argv[1:]
    at = words.index("--") if "--" in words else len(words)
    given = parser.parse_args(words[:at])
    given.options = words[at + 1:]
    return given


def peak_memory(process):
    """Returns the peak resident memory of a process so far, in MiB."""
    status = pathlib.Path(f"/proc/{process.pid}/status").read_text()
    return int(status.split("VmHWM:")[1].split()[0]) / 1024


def feed(process, path):
    """Writes requests to a process that may end early."""
    with open(path, "rb") as file, contextlib.suppress(BrokenPipeError):
        shutil.copyfileobj(file, process.stdin)
        process.stdin.flush()


def answers_of(words, path, count, sample):
    """Runs one process over a file of requests. Returns the number of lines and bytes that it wrote, the lines of the
    sample, its exit status, its times, and its peak memory."""
    lines, length, kept, peak, start = 0, 0, {}, 0, time.monotonic()
    process = subprocess.Popen(words, stdin=subprocess.PIPE, stdout=subprocess.PIPE)
    feeder = threading.Thread(target=feed, args=(process, path))
    feeder.start()
    for line in process.stdout:
        if lines in sample:
            kept[lines] = line
        lines, length = lines + 1, length + len(line)
        if lines == count:
            # The process waits for the end of its input, which comes only now. Until then its peak memory can be read.
            seconds, peak = time.monotonic() - start, peak_memory(process)
            feeder.join()
            process.stdin.close()
    feeder.join()
    _, status, used = os.wait4(process.pid, 0)
    process.returncode = os.waitstatus_to_exitcode(status)
    seconds = seconds if lines >= count else time.monotonic() - start
    return Measured(lines, length, kept, process.returncode, seconds, used.ru_utime + used.ru_stime, peak)


def sample_faults(program, store, path, sample, kept):
    """Returns the answers of the sample that are not those of a process for each request."""
    faults = []
    with open(path, "rb") as file:
        for number, line in enumerate(file):
            if number in sample and kept.get(number) != alone(program, store, line):
                faults.append(f"request {number}: {kept.get(number, b'no answer')[:200]!r}")
    return faults


def measure(given, folder):
    store, path = folder / "store", folder / "requests"
    write_requests(path, make_store(given.program, store, given.files, given.seed, given.pdb), given.requests,
                   given.frames, given.seed)
    sample = set(random.Random(given.seed).sample(range(given.requests), min(given.sample, given.requests)))
    words = [given.program, "--symbolicate-lines", "--pdb-dir", str(store), *given.options]
    found = answers_of(words, path, given.requests, sample)
    print(f"{given.requests} requests of {given.frames} frames over {given.files} PDB files: "
          f"{path.stat().st_size / 1e6:.1f} MB, answers {found.length / 1e6:.1f} MB")
    print(f"{found.seconds:.1f} s, {found.lines / found.seconds:.0f} requests/s, "
          f"{found.lines * given.frames / found.seconds:.0f} frames/s, CPU {found.cpu:.1f} s, "
          f"peak memory {found.peak:.1f} MiB")
    faults = sample_faults(given.program, store, path, sample, found.kept)
    print(f"{len(sample)} answers compared with those of single processes")
    if found.lines != given.requests or found.status != 0:
        faults.append(f"{found.lines} answers, status {found.status}")
    return faults


def main():
    given = arguments()
    with tempfile.TemporaryDirectory() as folder:
        return report(measure(given, pathlib.Path(folder).resolve()))


if __name__ == "__main__":
    sys.exit(main())
