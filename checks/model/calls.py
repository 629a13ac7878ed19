"""Compares a built pdb_call_tests with the model on random lists of calls.

Usage: calls.py PROGRAM COUNT [FIRST_SEED]

The script makes a random records file for each seed from FIRST_SEED (0) on. It skips files with module files, and files
that the library refuses. Over each other file it writes one to three lists of calls with the model's answers. Each list
has a context of its own. It stops after COUNT lists or a few more. The program makes all calls in one run, and prints
the first wrong call of each list. The exit status is 1 if a list differs.
"""
import os
import random
import subprocess
import sys
import tempfile
from collections import Counter

from errors import Error
from frames import Context
from functions import GREATEST, address_of
from generate import generate
from model import parse_words, with_big_stack
from records import Fault, lossy, read_records
from type_reader import FIRST_CROSS_MODULE

OTHER_FILES = ["sizes", "signatures", "ids", "ways", "lent", "parts"]
NAMES = ["f", "C::get", "", "operator ==", "?f"]
MOST_CALLS = 24


def end_of(context, found):
    """Returns the end of a function that was found, or None if it is unknown or doesn't fit 32 bits."""
    if found.procedure:
        end = address_of(context.address_map, found.section, found.start) + found.procedure.len
        return end if end <= GREATEST else None
    following = context.next_global_start(found.section, found.start)
    return None if following is None else address_of(context.address_map, found.section, following)


def range_text(start, end):
    return f"{start:x}.." + ("" if end is None else f"{end:x}")


def function_text(function):
    if function is None:
        return "none"
    start, end, name = function
    return f"{range_text(start, end)} {'?' if name is None else name}"


def frames_text(context, address):
    frames = context.find_frames(address)
    if frames is None:
        return "none"
    found = context.look_up(address)
    texts = [range_text(address_of(context.address_map, found.section, found.start), end_of(context, found))]
    for name, file, line in frames:
        texts.append(f"{'?' if name is None else name} at {'?' if file is None else file}:"
                     f"{'?' if line is None else line}")
    return "; ".join(texts)


def functions_text(context):
    functions = [context.find_function(address) for address in context.start_addresses()]
    return "".join(function_text(function) + "; " for function in functions if function is not None)


def answer(context, call):
    """Returns the model's answer to a call, as the program writes it."""
    kind, *words = call
    try:
        if kind == "function":
            return function_text(context.find_function(words[0]))
        if kind == "frames":
            return frames_text(context, words[0])
        if kind == "functions":
            return functions_text(context)
        if kind == "count":
            return str(len(context.globals))
        if kind == "size":
            return str(context.formatter.size(*words))
        if kind == "signature":
            return context.formatter.format_function(words[2], words[0], words[1])
        return context.formatter.format_id(*words)
    except Error as error:
        return "! " + error.text


def call_text(call):
    """Returns the line for a call."""
    kind, *words = call
    if kind in ("function", "frames"):
        return f"{kind} {words[0]:x}"
    if kind in ("size", "id"):
        return f"{kind} {words[0]} {words[1]:x}"
    return f"signature {words[0]} {words[1]:x} {words[2]}" if kind == "signature" else kind


def addresses_of(runs):
    """Returns the addresses that the runs over a random file look up."""
    parsed = [parse_words(["FILE", *words]) for words in runs]
    return sorted({address for run in parsed if run for address in run[2]}) or [0x1000]


def indices_of(chance, reading):
    """Returns type or id indices to look up: those of the list, those next to them, and cross-module indices."""
    own = [item.index for item in reading.items] or [0x1000]
    return own * 3 + [index + 1 for index in own] + [0] + [
        FIRST_CROSS_MODULE | chance.randrange(2) << 20 | chance.randrange(3) for _ in range(len(own))]


def random_calls(chance, context, addresses):
    """Returns a random list of calls to a context. Some calls are repeated."""
    types, ids = indices_of(chance, context.types), indices_of(chance, context.ids)
    modules = list(range(len(context.modules) + 1)) or [0]
    calls = []
    for _ in range(chance.randrange(1, MOST_CALLS)):
        kind = chance.choice(["function", "frames", "frames", "function", "functions", "count", "size",
                              "signature", "signature", "id", "id"])
        if kind in ("function", "frames"):
            call = (kind, chance.choice(addresses))
        elif kind in ("functions", "count"):
            call = (kind,)
        elif kind == "signature":
            call = (kind, chance.choice(modules), chance.choice(types), chance.choice(NAMES))
        else:
            call = (kind, chance.choice(modules), chance.choice(types if kind == "size" else ids))
        calls.append(call)
    return calls + [chance.choice(calls) for _ in range(chance.randrange(4))]


def list_text(pdb, calls, counts):
    """Returns a list of calls with the model's answers, or None if an answer doesn't fit in one line."""
    context = Context(pdb)
    lines = []
    for call in calls:
        text = lossy(answer(context, call))
        if any(mark in text for mark in ("\n", "\r", "file ")):
            return None
        counts["answers that are errors"] += text.startswith("! ")
        counts[f"calls of {call[0]}"] += 1
        lines.append(f"{call_text(call)} | {text}\n")
    return "".join(lines)


def lists_over(seed, data, runs, counts):
    """Returns the lists of calls over the file of a seed. There are none if the library refuses the file."""
    try:
        pdb = read_records(data, [])
        Context(pdb)
    except (Fault, Error):
        counts["files that are refused"] += 1
        return []
    chance = random.Random(seed)
    addresses = addresses_of(runs)
    texts = [list_text(pdb, random_calls(chance, Context(pdb), addresses), counts)
             for _ in range(chance.randrange(1, 4))]
    return [text for text in texts if text is not None]


def write_lists(folder, count, first):
    """Writes files and lists of calls into a folder, until there are `count` lists. Returns statistics."""
    counts = Counter()
    with open(f"{folder}/calls.txt", "wb") as calls:
        seed = first
        while counts["lists"] < count:
            data, modules, runs = generate(seed)
            lists = [] if modules else lists_over(seed, data, runs, counts)
            if lists:
                with open(f"{folder}/{seed}.json", "wb") as file:
                    file.write(data)
                calls.write("".join([f"file {seed}.json\n", *(text + "\n" for text in lists)]).encode())
                counts["files"] += 1
                counts["lists"] += len(lists)
            seed += 1
    for name in OTHER_FILES:
        open(f"{folder}/{name}.txt", "wb").close()
    return counts


def main(program, count, first=0):
    program = os.path.abspath(program)
    with tempfile.TemporaryDirectory(prefix="calls-") as folder:
        counts = with_big_stack(lambda: write_lists(folder, count, first))
        ran = subprocess.run([program], cwd=folder, capture_output=True, text=True, errors="replace")
    for key, number in sorted(counts.items()):
        print(f"{number:9d}  {key}")
    lines = ran.stdout.splitlines()
    told = next((n for n, line in enumerate(lines, 1) if " calls, " in line), len(lines))
    print("\n".join(lines[:told]) + ran.stderr)
    return 0 if ran.returncode == 0 and " calls, 0 differ" in ran.stdout else 1


if __name__ == "__main__":
    if len(sys.argv) < 3:
        print(__doc__)
        sys.exit(2)
    sys.exit(main(sys.argv[1], *map(int, sys.argv[2:])))
