#!/usr/bin/env python3
"""Compares the symbol file that the built pdb_symbolizer writes with its answers, address by address.

Usage: breakpad.py PROGRAM FILE [ADDRESS..]

FILE is a program with its PDB file, or a PDB file. A plain reader of Breakpad's format reads the output of
`--dump-syms`. It looks up each address of each FUNC record by a scan: the function with its file and line, and the
functions inlined there. PROGRAM answers the same addresses in one run. An ADDRESS may be outside all functions. Then
the last PUBLIC record at or before it may name it.

The script prints up to twenty differences, and their number. It also reports records that the format doesn't allow:

  - numbers that no record defines
  - lines and inlined calls outside of their function
  - bytes with two lines or two functions
  - an inlined call without one around it at the level above
"""
import bisect
import json
import re
import subprocess
import sys

HEX, NUMBER = "([0-9a-f]+)", "([0-9]+)"
MODULE = re.compile(r"MODULE windows (\S+) ([0-9A-F]{33,40}) (.+)")
RECORDS = {
    "INFO": re.compile(r"INFO CODE_ID ([0-9A-F]{8}[0-9a-f]+) (.+)"),
    "FILE": re.compile(f"FILE {NUMBER} (.+)"),
    "INLINE_ORIGIN": re.compile(f"INLINE_ORIGIN {NUMBER} (.+)"),
    "FUNC": re.compile(f"FUNC (m )?{HEX} {HEX} {HEX} (.+)"),
    "PUBLIC": re.compile(f"PUBLIC (m )?{HEX} {HEX} (.+)"),
    "STACK": re.compile(f"STACK (CFI (INIT {HEX} {HEX}|{HEX}) \\S.*|WIN 4( {HEX}){{8}} 1 .*|WIN [0-3]( {HEX}){{8}} 0 [01])"),
    "INLINE": re.compile(f"INLINE {NUMBER} {NUMBER} {NUMBER} {NUMBER}((?: {HEX} {HEX})+)"),
}
LINE = re.compile(f"{HEX} {HEX} {NUMBER} {NUMBER}")
UNKNOWN = {"": "", "??": "", "<name omitted>": ""}
SHOWN = 20


class Function:
    """A FUNC record with the line and INLINE records after it."""

    def __init__(self, start, size, name):
        self.start, self.size, self.name = start, size, name
        self.lines, self.inlines = [], []

    def holds(self, start, size):
        """Returns whether this range is inside the function."""
        return size > 0 and self.start <= start and start + size <= self.start + self.size

    def place(self, address):
        """Returns the file and the line of an address, or None."""
        for start, size, line, file in self.lines:
            if start <= address < start + size:
                return file, line
        return None

    def calls(self, address):
        """Returns the inlined calls over an address, by level: the file and the line of the call, and the inlined
        function."""
        found = {}
        for level, line, file, origin, ranges in self.inlines:
            if any(start <= address < start + size for start, size in ranges):
                found.setdefault(level, (file, line, origin))
        return [found[level] for level in sorted(found)]

    def frames(self, address, files, origins):
        """Returns the functions at an address with file and line, the innermost first."""
        frames, name = [], self.name
        for file, line, origin in self.calls(address):
            frames.append((name, files.get(file), line))
            name = origins.get(origin)
        place = self.place(address)
        file, line = (files.get(place[0]), place[1]) if place else ("", 0)
        return [(name, file, line), *reversed(frames)]


class SymbolFile:
    """The records of a symbol file, and what is wrong with them."""

    def __init__(self, text):
        self.files, self.origins, self.functions, self.publics, self.faults = {}, {}, [], [], []
        first, *lines = text.split("\n")
        if not MODULE.fullmatch(first) or lines[-1:] != [""]:
            self.faults.append(f"no module in front, or no end: {first}")
        for line in lines[:-1]:
            self.read(line)
        self.functions.sort(key=lambda function: function.start)
        self.starts = [function.start for function in self.functions]
        self.publics.sort()
        self.look()

    def read(self, line):
        """Reads a record."""
        keyword = line.split(" ", 1)[0]
        found = RECORDS.get(keyword, LINE).fullmatch(line)
        if not found:
            self.faults.append(f"no record: {line}")
        elif keyword in ("FILE", "INLINE_ORIGIN"):
            names = self.files if keyword == "FILE" else self.origins
            if int(found[1]) in names or found[2] in names.values():
                self.faults.append(f"twice: {line}")
            names[int(found[1])] = found[2]
        elif keyword == "FUNC":
            self.functions.append(Function(int(found[2], 16), int(found[3], 16), found[5]))
        elif keyword == "PUBLIC":
            self.publics.append((int(found[2], 16), found[4]))
        elif keyword not in ("INFO", "STACK") and not self.functions:
            self.faults.append(f"before all functions: {line}")
        elif keyword == "INLINE":
            self.inline(line, found)
        elif keyword not in ("INFO", "STACK"):
            self.line(line, found)

    def inline(self, line, found):
        """Reads an INLINE record."""
        level, call_line, file, origin = (int(found[at]) for at in range(1, 5))
        words = [int(word, 16) for word in found[5].split()]
        ranges = list(zip(words[::2], words[1::2]))
        function = self.functions[-1]
        if file not in self.files or origin not in self.origins or not all(function.holds(*range) for range in ranges):
            self.faults.append(f"a number that no record has, or outside of its function: {line}")
        function.inlines.append((level, call_line, file, origin, ranges))

    def line(self, line, found):
        """Reads a line record."""
        start, size, number, file = int(found[1], 16), int(found[2], 16), int(found[3]), int(found[4])
        function = self.functions[-1]
        if file not in self.files or not function.holds(start, size):
            self.faults.append(f"a file that no record has, or outside of its function: {line}")
        function.lines.append((start, size, number, file))

    def look(self):
        """Finds bytes with two functions or two lines, and inlined calls without one around them."""
        spans = [[(function.start, function.size) for function in self.functions]]
        spans += [sorted((start, size) for start, size, *_ in function.lines) for function in self.functions]
        for span in spans:
            self.faults += [f"twice: {other[0]:x}" for one, other in zip(span, span[1:]) if sum(one) > other[0]]
        for function in self.functions:
            for level, _, _, _, ranges in function.inlines:
                for start, size in ranges:
                    if any(len(function.calls(address)) <= level for address in range(start, start + size)):
                        self.faults.append(f"no call around: {start:x} at level {level}")

    def frames(self, address):
        """Returns the functions at an address with file and line, the innermost first."""
        at = bisect.bisect_right(self.starts, address) - 1
        function = self.functions[at] if at >= 0 else None
        if function and function.holds(address, 1):
            return function.frames(address, self.files, self.origins)
        before = [public for public in self.publics if public[0] <= address]
        if before and (function is None or before[-1][0] > function.start):
            return [(before[-1][1], "", 0)]
        return [("", "", 0)]


def run(*words, text=None):
    """Returns the standard output of a program."""
    return subprocess.run(words, input=text, capture_output=True, text=True, check=True, errors="replace").stdout


def answers(program, file, addresses):
    """Yields each address with the frames that the program prints for it."""
    text = "".join(f"0x{address:x}\n" for address in addresses)
    printed = run(program, "--output-style=JSON", "--relative-address", file, text=text)
    for line in printed.splitlines():
        answer = json.loads(line)
        yield int(answer["Address"], 16), [(frame["FunctionName"], frame["FileName"], frame["Line"])
                                           for frame in answer["Symbol"]]


def known(frames):
    """Makes frames comparable: unknown names become empty, and line breaks become spaces."""
    return [tuple(UNKNOWN.get(word, re.sub("[\r\n]", " ", word)) if isinstance(word, str) else word for word in frame)
            for frame in frames]


def main(program, file, *more):
    symbols = SymbolFile(run(program, "--dump-syms", file))
    addresses = [address for function in symbols.functions for address in range(function.start, function.start + function.size)]
    addresses += [int(address, 16) for address in more]
    differing = []
    for wanted, (address, frames) in zip(addresses, answers(program, file, addresses), strict=True):
        found = symbols.frames(address)
        if wanted != address or known(found) != known(frames):
            differing.append(f"0x{address:x}\n    symbol file {found}\n    answer      {frames}")
    inlined = sum(len(function.inlines) for function in symbols.functions)
    lines = sum(len(function.lines) for function in symbols.functions)
    print("\n".join(symbols.faults[:SHOWN] + differing[:SHOWN]), end="\n" if symbols.faults or differing else "")
    print(f"{len(symbols.functions)} functions, {len(symbols.publics)} public, {inlined} inlined, {lines} lines, "
          f"{len(addresses)} addresses: {len(differing)} differ, {len(symbols.faults)} faults")
    return 1 if differing or symbols.faults else 0


if __name__ == "__main__":
    if len(sys.argv) < 3:
        sys.exit(__doc__)
    sys.exit(main(*sys.argv[1:]))
