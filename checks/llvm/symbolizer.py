#!/usr/bin/env python3
"""Compares what the built pdb_symbolizer and llvm-symbolizer of LLVM 22 print, in each style and with each option.

Usage: symbolizer.py PROGRAM EXE ADDRESSES [SHOWN [OPTION..]]

EXE is a program with its PDB file in the same folder. Both programs get the same arguments: `--obj=EXE
--relative-address` and the options. ADDRESSES is a file with one address per line, relative to the load address. In
each style (LLVM, GNU, JSON), all addresses are looked up with each set of options, and with each other option by
itself. The answers are compared address by address.

For each run the script prints how many answers are the same, how many differ by kind, and the first SHOWN of each kind.
If OPTIONs are given, only this set of options is tried. The environment variable LLVM names another program to compare
with. Both programs run in the folder of EXE, and look for source files there.

lines    another number of lines
name     a function's name
unnamed  a function's name that only one of them answers
place    a location that only one of them knows
folder   a file's folders
file     a file's name
line     a line's number, and maybe the file's folders
form     anything else, such as an empty line that one of them has
"""
import collections
import itertools
import json
import os
import re
import subprocess
import sys

LLVM = os.environ.get("LLVM", "llvm-symbolizer-22")
STYLES = ["LLVM", "GNU", "JSON"]
NAMES = ["--functions=short", "--functions=none"]
INLINES = ["--inlines", "--no-inlines"]
FLAGS = ["--addresses", "--pretty-print", "--basenames"]
ADJUST = "--adjust-vma=4096"
SINGLE = ["--verbose", "--demangle", "--no-demangle", ADJUST, "--inlining", "--inlining=true", "--inlining=false",
          "--print-source-context-lines=3", "--cache-size=4096", "--default-arch=x86_64", "--dwp=none.dwp", "--skip-line-zero",
          "--debug-file-directory=.", "--no-untag-addresses"]
PLACE = re.compile(r"(.*?):(\d+)(:\d+)?$")
FRONT = re.compile(r"^(0x[0-9a-f]+: )?( \(inlined by\) )?")
SPACE = re.compile(r"\s*")
KINDS = ("form", "name", "unnamed", "place", "file", "line", "folder")


def option_sets():
    """Yields the sets of options to try."""
    for names, inlines in itertools.product(NAMES, INLINES):
        for count in range(len(FLAGS) + 1):
            for flags in itertools.combinations(FLAGS, count):
                yield [names, inlines, *flags]
    for option in SINGLE:
        yield ["--functions=short", option]


def asked(words, addresses, folder):
    """Returns what a program prints for these addresses."""
    text = "".join(f"{address}\n" for address in addresses)
    return subprocess.run(words, input=text, capture_output=True, text=True, cwd=folder).stdout


def json_answers(text):
    """Parses the JSON objects of a text, with any white space between them."""
    decoder, at, answers = json.JSONDecoder(), 0, []
    while at < len(text):
        answer, at = decoder.raw_decode(text, at)
        at = SPACE.match(text, at).end()
        answers.append(answer)
    return answers


def name_kind(ours, theirs):
    """Returns how two names of functions differ, or None."""
    if ours == theirs:
        return None
    return "unnamed" if {ours, theirs} & {"", "??"} else "name"


def place_kind(ours, theirs):
    """Returns how two locations differ, or None. Each is a file and a line."""
    if ours == theirs:
        return None
    if ours[0] == theirs[0]:
        return "line"
    if {ours[0], theirs[0]} & {"", "??"}:
        return "place"
    here, there = (re.split(r"[\\/]", place[0])[-1] for place in (ours, theirs))
    if here != there:
        return "file"
    return "folder" if ours[1] == theirs[1] else "line"


def first_kind(kinds):
    """Returns the first of KINDS that is among these kinds, or None."""
    return next((kind for kind in KINDS if kind in kinds), None)


def json_kind(ours, theirs):
    """Returns how two answers in JSON differ, or None."""
    if ours == theirs:
        return None
    if [*ours] != [*theirs] or ours.get("Address") != theirs.get("Address"):
        return "form"
    if len(ours["Symbol"]) != len(theirs["Symbol"]):
        return "lines"
    kinds = set()
    for here, there in zip(ours["Symbol"], theirs["Symbol"]):
        kinds.add(name_kind(here["FunctionName"], there["FunctionName"]))
        kinds.add(place_kind(*((frame["FileName"], frame["Line"]) for frame in (here, there))))
    return first_kind(kinds) or "form"


def line_kind(ours, theirs):
    """Returns how two lines differ, or None."""
    if ours == theirs:
        return None
    ours, theirs = FRONT.sub("", ours), FRONT.sub("", theirs)
    here, there = PLACE.match(ours), PLACE.match(theirs)
    if bool(here) != bool(there):
        return "form"
    if not here:
        return name_kind(ours, theirs)
    if here[3] != there[3]:
        return "form"
    names, files = zip(*(place[1].rpartition(" at ")[::2] for place in (here, there)))
    return name_kind(*names) or place_kind(*zip(files, (here[2], there[2])))


def plain_kind(ours, theirs):
    """Returns how two answers in lines differ, or None."""
    if len(ours) != len(theirs):
        return "lines"
    return first_kind({line_kind(*pair) for pair in zip(ours, theirs)})


class Comparison:
    """Two programs that get the same arguments and addresses."""

    def __init__(self, program, exe, addresses):
        self.plain_addresses = addresses
        self.addresses = addresses
        self.programs = [os.path.abspath(program), LLVM]
        self.folder, name = os.path.split(os.path.abspath(exe))
        self.words = [f"--obj={name}", "--relative-address"]

    def adjust(self, options):
        """Adds to the addresses what `--adjust-vma` subtracts, so that the same code is looked up."""
        offset = 4096 if ADJUST in options else 0
        self.addresses = [f"0x{int(address, 16) + offset:x}" for address in self.plain_addresses]

    def texts(self, options, addresses):
        """Returns what both programs print."""
        return [asked([program, *self.words, *options], addresses, self.folder) for program in self.programs]

    def json(self, options):
        """Returns the kinds of differences between the answers in JSON, and the pairs of answers."""
        ours, theirs = (json_answers(text) for text in self.texts(options, self.addresses))
        return [json_kind(*pair) for pair in zip(ours, theirs, strict=True)], list(zip(ours, theirs))

    def plain(self, options):
        """Returns the same for answers in lines. `--addresses` is added, so that each answer begins with its
        address."""
        marked = [*options] if "--addresses" in options else [*options, "--addresses"]
        pairs = zip(*(split(text, self.addresses) for text in self.texts(marked, self.addresses)), strict=True)
        pairs = list(pairs)
        return [plain_kind(*pair) for pair in pairs], pairs


def split(text, addresses):
    """Returns the lines of each answer. Each answer begins with its address."""
    answers, lines = [], text.split("\n")[:-1]
    starts = iter(addresses)
    wanted = next(starts, None)
    for line in lines:
        if wanted is not None and re.match(rf"{wanted}(: |$)", line):
            answers.append([])
            wanted = next(starts, None)
        answers[-1].append(line)
    return answers


def whole(comparison, options):
    """Returns whether, for both programs, `--addresses` only adds the addresses and changes nothing else."""
    if "--addresses" in options or "--output-style=JSON" in options:
        return True
    end = ": " if "--pretty-print" in options else "\n"
    plain = comparison.texts(options, comparison.addresses)
    marked = comparison.texts([*options, "--addresses"], comparison.addresses)
    return all("".join(part for part in re.split(rf"^0x[0-9a-f]+{end}", text, flags=re.M)) == bare
               for bare, text in zip(plain, marked))


def main(program, exe, path, shown, *only):
    addresses = open(path).read().split()
    comparison = Comparison(program, exe, addresses)
    total = collections.Counter()
    for style in STYLES:
        for options in [only] if only else option_sets():
            options = [f"--output-style={style}", *options]
            comparison.adjust(options)
            kinds, pairs = comparison.json(options) if style == "JSON" else comparison.plain(options)
            counts = collections.Counter(kind or "same" for kind in kinds)
            if not whole(comparison, options):
                counts["addresses change the rest"] += 1
            total += counts
            print(" ".join(options), dict(sorted(counts.items())), flush=True)
            for kind in sorted(set(kinds) - {None}):
                for pair in [pair for pair, found in zip(pairs, kinds) if found == kind][:shown]:
                    print(f"  {kind}\n    ours   {pair[0]}\n    theirs {pair[1]}")
    print("all", dict(sorted(total.items())))


if __name__ == "__main__":
    if len(sys.argv) < 4:
        sys.exit(__doc__)
    main(*sys.argv[1:4], int(sys.argv[4]) if len(sys.argv) > 4 else 0, *sys.argv[5:])
