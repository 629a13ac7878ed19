#!/usr/bin/env python3
"""Prints the stacks of requests of the symbolication API, with names, files and lines, by Dask on several processes.

Usage: bag.py STORE REQUESTS [WORKERS]

STORE is a folder with PDB files in the layout of symbol servers (STORE/app.pdb/DEBUGID/app.pdb). REQUESTS is a file
with one request per line, as `pdb_symbolizer --symbolicate-lines` reads it. Each frame is printed as `pdb_symbolizer
-p` prints it, and an empty line follows each stack. WORKERS is 2 if not given.
"""
import json
import pathlib
import sys

import dask.bag
import dask.distributed

import limberlime

BLOCK = 1 << 20


def stacks(line):
    """Yields the stacks of a request. Each frame has the name and the debug id of its PDB file, and the offset."""
    request = json.loads(line)
    for job in request.get("jobs", [request]):
        modules = [*job["memoryMap"], ("", "")]
        for stack in job["stacks"]:
            yield [(*modules[module], offset) for module, offset in stack]


def lines(stack):
    """Formats a stack."""
    text = ""
    for frame in stack:
        calls = [*frame.inlined, limberlime.Frame(frame.function, frame.file, frame.line)]
        text += " (inlined by) ".join(f"{call.function or '??'} at {call.file or '??'}:{call.line or 0}:0\n"
                                      for call in calls)
    return text


def main(store, requests, workers="2"):
    with dask.distributed.Client(n_workers=int(workers), threads_per_worker=1, dashboard_address=None):
        read = dask.bag.read_text(str(pathlib.Path(requests).resolve()), blocksize=BLOCK)
        answered = limberlime.symbolicate_bag(read.map(stacks).flatten(), pathlib.Path(store).resolve())
        for text in answered.map(lines).compute():
            print(text)


if __name__ == "__main__":
    if len(sys.argv) not in (3, 4):
        sys.exit(__doc__)
    main(*sys.argv[1:])
