#!/usr/bin/env python3
"""Measures a million frames over many PDB files by Dask and by GNU parallel, and compares their answers.

Usage: dask_scaling.py PROGRAM [--frames N] [--files N] [--seed N] [--workers N ..] [--sample N] [--without-dask]

PROGRAM is a built pdb_symbolizer. The script makes a store of 200 PDB files, and a file of requests with stacks of 50
frames. With 1, 2 and 4 workers, `limberlime.symbolicate_bag` answers the stacks of the file into text files. With as
many jobs, `parallel --pipe -k` has PROGRAM answer the requests into a file. The script prints how long each takes,
without the start of Dask's workers.

The answers of parallel must be those of one process, byte for byte. For 200 stacks, drawn by the seed, the answers of
Dask must be those of a process for each request. All answers of Dask must be the same for each number of workers.

The shared library is the one in LIMBERLIME_LIBRARY, or the installed one. The script needs Debian's packages parallel
and python3-distributed, and so Debian's own Python: run `/usr/bin/python3 dask_scaling.py PROGRAM`.
"""
import argparse
import json
import os
import pathlib
import random
import subprocess
import sys
import tempfile
import time

from stores import alone, make_store, report, write_requests

PYTHON = pathlib.Path(__file__).resolve().parents[2] / "bindings" / "python"
FRAMES, BLOCK = 50, 1 << 20


def arguments():
    parser = argparse.ArgumentParser(usage=__doc__.split("Usage: ")[1].split("\n\n")[0])
    parser.add_argument("program", type=os.path.abspath)
    for name, value in (("frames", 1_000_000), ("files", 200), ("seed", 1), ("sample", 200)):
        parser.add_argument(f"--{name}", type=int, default=value)
    parser.add_argument("--workers", type=int, nargs="+", default=[1, 2, 4])
    parser.add_argument("--without-dask", action="store_true")
    return parser.parse_args()


def stack_of(line):
    """Returns the stack of a request."""
    request = json.loads(line)
    return [(*request["memoryMap"][module], offset) for module, offset in request["stacks"][0]]


def answers_by_dask(path, store, folder, workers):
    """Returns the lines that Dask writes, and the seconds that it takes."""
    import dask.bag
    import dask.distributed

    import limberlime
    with dask.distributed.Client(n_workers=workers, threads_per_worker=1, dashboard_address=None,
                                 local_directory=str(folder)) as client:
        client.wait_for_workers(workers)
        start = time.monotonic()
        stacks = dask.bag.read_text(str(path), blocksize=BLOCK).map(stack_of)
        limberlime.symbolicate_bag(stacks, store).map(json.dumps).to_textfiles(f"{folder}/*.answers")
        seconds = time.monotonic() - start
    parts = sorted(folder.glob("*.answers"))
    return [line for part in parts for line in part.read_text().splitlines()], seconds


def wanted_of(program, store, line):
    """Returns what Dask must write for a request, from the answer of a process that gets only this request."""
    request, result = json.loads(line), json.loads(alone(program, store, line))["results"][0]
    stack = []
    for (module, offset), frame in zip(request["stacks"][0], result["stacks"][0], strict=True):
        name, debug_id = request["memoryMap"][module]
        inlined = [place_of(place) for place in frame.get("inlines", [])]
        stack.append([name, debug_id, offset, result["found_modules"][f"{name}/{debug_id}"], *place_of(frame), inlined])
    return stack


def place_of(frame):
    """Returns function, file and line."""
    return [frame.get("function"), frame.get("file"), frame.get("line")]


def dask_faults(given, path, store, folder):
    """Measures Dask, and compares its answers."""
    sys.path.insert(0, str(PYTHON))
    os.environ["PYTHONPATH"] = os.pathsep.join([str(PYTHON), *filter(None, [os.environ.get("PYTHONPATH")])])
    requests, faults, first = path.read_bytes().splitlines(), [], None
    for workers in given.workers:
        (folder / f"dask_{workers}").mkdir()
        answers, seconds = answers_by_dask(path, store, folder / f"dask_{workers}", workers)
        print(f"Dask, {workers} workers: {seconds:.1f} s, {len(requests) * FRAMES / seconds:.0f} frames/s")
        if first is not None and answers != first:
            faults.append(f"Dask with {workers} workers: other answers than with {given.workers[0]}")
        first = first or answers
    if len(first) != len(requests):
        return [*faults, f"Dask: {len(first)} answers to {len(requests)} stacks"]
    sample = random.Random(given.seed).sample(range(len(requests)), min(given.sample, len(requests)))
    for number in sample:
        if json.loads(first[number]) != wanted_of(given.program, store, requests[number]):
            faults.append(f"Dask, stack {number}: {first[number][:300]}")
    print(f"{len(sample)} stacks of Dask compared with single processes")
    return faults


def parallel_faults(given, path, store, folder):
    """Measures parallel, and compares its answers with those of one process."""
    words = [given.program, "--symbolicate-lines", "--pdb-dir", str(store)]
    runs = [("one process", words)]
    runs += [(f"parallel, {jobs} jobs", ["parallel", "--will-cite", "--pipe", "-k", "--block", str(BLOCK),
                                         "-j", str(jobs), *words]) for jobs in given.workers]
    faults, wanted, frames = [], None, len(path.read_bytes().splitlines()) * FRAMES
    for what, command in runs:
        start = time.monotonic()
        with open(path, "rb") as file, open(folder / "answers", "wb") as out:
            status = subprocess.run(command, stdin=file, stdout=out).returncode
        seconds = time.monotonic() - start
        found = (folder / "answers").read_bytes()
        print(f"{what}: {seconds:.1f} s, {frames / seconds:.0f} frames/s")
        wanted = wanted or found
        if status or found != wanted:
            faults.append(f"{what}: status {status}, {len(found)} bytes instead of {len(wanted)}")
    return faults


def measure(given, folder):
    store, path = folder / "store", folder / "requests"
    write_requests(path, make_store(given.program, store, given.files, given.seed), given.frames // FRAMES, FRAMES,
                   given.seed)
    print(f"{given.frames // FRAMES} requests of {FRAMES} frames over {given.files} PDB files, "
          f"{path.stat().st_size / 1e6:.1f} MB, {os.cpu_count()} processors")
    faults = parallel_faults(given, path, store, folder)
    return faults + ([] if given.without_dask else dask_faults(given, path, store, folder))


def main():
    given = arguments()
    with tempfile.TemporaryDirectory(ignore_cleanup_errors=True) as folder:
        return report(measure(given, pathlib.Path(folder).resolve()))


if __name__ == "__main__":
    sys.exit(main())
