"""Symbol stores of many PDB files, and requests of the symbolication API over them, for the checks in this folder.

A store has copies of small PDB files of this repository, each with its own name and GUID. Files are drawn by a Zipf
distribution: the k-th file is drawn 1/k times as often as the first one.
"""
import itertools
import json
import pathlib
import random
import subprocess
import uuid
from collections import namedtuple

DATA = pathlib.Path(__file__).resolve().parents[2] / "crates" / "pdb_symbolizer_tests" / "data"
# PDB files with code and without broken records.
NAMES = ("shapes", "source", "parts_of_other_modules", "overlapping_sections", "arm64")
SMALL = [DATA / f"{name}.pdb" for name in NAMES]
# One of this many offsets is drawn from the first 64 KiB of the program, so it is mostly outside of functions.
ELSEWHERE = 20
SHAPES = DATA / "shapes.pdb"
SHAPES_REQUEST = {"memoryMap": [["shapes.pdb", "6B32B94164959A524C4C44205044422E1"]], "stacks": [[[0, 4406]]]}

# A PDB file of a store: its name, its debug id, its path, and the start and the size of each function.
Stored = namedtuple("Stored", "name debug_id path functions")


def printed(program, *words, text=None):
    """Returns the standard output of a program, as bytes. `text` is its standard input."""
    run = subprocess.run([str(program), *map(str, words)], input=text, stdout=subprocess.PIPE, check=True)
    return run.stdout


def debug_id(program, path):
    """Returns the debug id of a PDB file."""
    return printed(program, "--show-id", path).decode().rsplit(maxsplit=2)[0].rsplit(maxsplit=1)[1]


def functions(program, path):
    """Returns the start and the size of each function of a PDB file."""
    lines = printed(program, "--dump-syms", path).decode().splitlines()
    words = [line.split() for line in lines if line.startswith("FUNC ")]
    words = [[word for word in line if word != "m"] for line in words]
    return [(int(line[1], 16), int(line[2], 16)) for line in words]


def with_guid(data, old, new):
    """Returns the bytes of a PDB file with another GUID. All copies of the old GUID are replaced, because unused blocks
    may have it too."""
    old, new = (uuid.UUID(text[:32]).bytes_le for text in (old, new))
    if old not in data:
        raise ValueError("the file's GUID isn't in it")
    return data.replace(old, new)


def make_store(program, folder, count, seed=1, sources=None):
    """Fills a folder with `count` PDB files in the layout of symbol servers: NAME/DEBUGID/NAME."""
    chance, stored = random.Random(seed), []
    known = [(path, debug_id(program, path), functions(program, path)) for path in map(pathlib.Path, sources or SMALL)]
    for number in range(count):
        source, old, ranges = known[number % len(known)]
        new = f"{chance.getrandbits(128):032X}{old[32:]}"
        name = f"{source.stem}_{number:03}.pdb"
        path = pathlib.Path(folder) / name / new / name
        path.parent.mkdir(parents=True)
        path.write_bytes(with_guid(source.read_bytes(), old, new))
        stored.append(Stored(name, new, path, ranges))
    chance.shuffle(stored)
    return stored


def offset(chance, stored):
    """Returns an offset in a PDB file's program, mostly in a function."""
    if not chance.randrange(ELSEWHERE):
        return chance.randrange(0x10000)
    start, size = chance.choice(stored.functions)
    return start + chance.randrange(size)


def requests(stored, count, frames, seed=1):
    """Yields `count` requests as lines of bytes. Each has one stack of `frames` frames, whose files are drawn."""
    chance = random.Random(seed)
    weights = list(itertools.accumulate(1 / place for place in range(1, len(stored) + 1)))
    for _ in range(count):
        drawn = chance.choices(stored, cum_weights=weights, k=frames)
        places = {}
        stack = [[places.setdefault((one.name, one.debug_id), len(places)), offset(chance, one)] for one in drawn]
        request = {"memoryMap": list(places), "stacks": [stack]}
        yield json.dumps(request, separators=(",", ":")).encode() + b"\n"


def write_requests(path, stored, count, frames, seed=1):
    """Writes requests into a file."""
    with open(path, "wb") as file:
        file.writelines(requests(stored, count, frames, seed))


def alone(program, store, line):
    """Returns the answer of a process that gets only this request."""
    return subprocess.run([str(program), "--symbolicate", "--pdb-dir", str(store)], input=line,
                          stdout=subprocess.PIPE, stderr=subprocess.DEVNULL).stdout


def report(faults, shown=10):
    """Prints what was wrong, and then the number of faults. Returns the exit status."""
    print("".join(f"wrong: {fault}\n" for fault in faults[:shown]), end="")
    print(f"{len(faults)} wrong")
    return 1 if faults else 0
