#!/usr/bin/env python3
"""Compares pdb_symbolizer and llvm-symbolizer of LLVM 22 over a PDB file in which one part can't be read.

Usage: unread_parts.py PROGRAM EXE FIRST LAST

EXE is a program with its PDB file in the same folder. For each of PARTS, a copy of the PDB file is written with that
part broken. An example is public symbols in a stream that doesn't exist. Both programs look up each address from FIRST
to LAST, relative to the load address. If their answers over the whole file agree at an address, the answers over the
copy must have the same frames, by file and line. If LLVM's program crashes, its answers over the whole file are used.
The exit status is 1 if an answer differs, or if no line on standard error says what can't be read.
"""
import json
import pathlib
import shutil
import struct
import subprocess
import sys
import tempfile

LLVM = "llvm-symbolizer-22"
TYPES, DEBUG, IDS = 2, 3, 4


class Container:
    """A PDB file's bytes, and the positions of its streams."""

    def __init__(self, data):
        self.data = bytearray(data)
        self.block, _, _, size, _, map_block = struct.unpack_from("<6I", data, 32)
        blocks = struct.unpack_from(f"<{-(-size // self.block)}I", data, map_block * self.block)
        self.directory = [block * self.block for block in blocks]
        self.count = self.number(0)

    def place(self, offset):
        """Returns the position in the file of the directory's byte at this offset."""
        return self.directory[offset // self.block] + offset % self.block

    def number(self, position):
        """Returns the directory's number at this position."""
        return struct.unpack_from("<I", self.data, self.place(4 * position))[0]

    def start(self, stream):
        """Returns the position in the file of a stream's first byte."""
        sizes = [self.number(1 + at) for at in range(self.count)]
        before = sum(-(-size // self.block) for size in sizes[:stream] if size != 0xFFFFFFFF)
        return self.number(1 + self.count + before) * self.block

    def put(self, stream, offset, form, value):
        """Returns the file with a number overwritten in the first block of a stream."""
        struct.pack_into(form, self.data, self.start(stream) + offset, value)
        return bytes(self.data)

    def resize(self, stream, size):
        """Returns the file with an emptied stream. Its size becomes 0, or 0xFFFFFFFF for no stream, and its blocks are
        removed from the directory."""
        place = self.place(4 * (1 + stream))
        old = struct.unpack_from("<I", self.data, place)[0]
        blocks = -(-old // self.block)
        numbers = [self.number(1 + self.count + at) for at in range(self.all_blocks())]
        before = sum(-(-self.number(1 + at) // self.block) for at in range(stream) if self.number(1 + at) != 0xFFFFFFFF)
        struct.pack_into("<I", self.data, place, size)
        for at, number in enumerate(numbers[:before] + numbers[before + blocks:]):
            struct.pack_into("<I", self.data, self.place(4 * (1 + self.count + at)), number)
        return bytes(self.data)

    def all_blocks(self):
        """Returns the number of blocks of all streams."""
        sizes = [self.number(1 + at) for at in range(self.count)]
        return sum(-(-size // self.block) for size in sizes if size != 0xFFFFFFFF)


PARTS = {
    "types of an old version": lambda file: file.put(TYPES, 0, "<I", 19990903),
    "no types": lambda file: file.resize(TYPES, 0xFFFFFFFF),
    "empty types": lambda file: file.resize(TYPES, 0),
    "ids of an old version": lambda file: file.put(IDS, 0, "<I", 19990903),
    "no public symbols": lambda file: file.put(DEBUG, 20, "<H", 0xFFFF),
    "public symbols behind the last stream": lambda file: file.put(DEBUG, 20, "<H", 0xFFF0),
}


def places(text):
    """Returns the files and lines of each answer's frames."""
    return [[(frame["FileName"], frame["Line"]) for frame in json.loads(line).get("Symbol", [])]
            for line in text.splitlines()]


def ask(program, exe, addresses):
    """Returns the files and lines that a program prints for addresses, and its standard error."""
    run = subprocess.run([program, f"--obj={exe}", "--relative-address", "--output-style=JSON"], input="\n".join(addresses) + "\n",
                         capture_output=True, text=True)
    return places(run.stdout), run.stderr


def main(words):
    program, exe = words[0], pathlib.Path(words[1])
    pdb = exe.with_suffix(".pdb")
    addresses = [hex(address) for address in range(int(words[2], 0), int(words[3], 0) + 1)]
    whole, _ = ask(LLVM, exe, addresses)
    alike = [at for at, pair in enumerate(zip(whole, ask(program, exe, addresses)[0])) if pair[0] == pair[1]]
    failed = 0
    with tempfile.TemporaryDirectory() as folder:
        for name, broken in PARTS.items():
            copy = pathlib.Path(folder) / exe.name
            shutil.copy(exe, copy)
            copy.with_suffix(".pdb").write_bytes(broken(Container(pdb.read_bytes())))
            theirs, _ = ask(LLVM, copy, addresses)
            crashed = len(theirs) < len(addresses)
            ours, error = ask(program, copy, addresses)
            wanted = whole if crashed else theirs
            differ = [at for at in alike if ours[at:at + 1] != wanted[at:at + 1]]
            told = "left out" in error
            failed += bool(differ) or not told or len(ours) != len(addresses)
            print(f"{name}: {len(ours)} answers, of {len(alike)} that are alike over the whole file {len(differ)} differ from LLVM's"
                  f"{' over the whole file, since it crashes' if crashed else ''}; {error.strip() or 'nothing is said'}")
    return 1 if failed else 0


if __name__ == "__main__":
    if len(sys.argv) == 1:
        sys.exit(__doc__)
    sys.exit(main(sys.argv[1:]))
