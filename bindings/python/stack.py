#!/usr/bin/env python3
"""Prints the stack of each address of a PDB file or a records file, as `pdb_symbolizer -p PDB ADDRESS..` does.

Usage: stack.py PDB ADDRESS..

An address is a hexadecimal number, relative to the load address.
"""
import pathlib
import sys

from limberlime import Error, Program, Refusal


def open_file(path):
    """Opens a PDB file. If it isn't one, opens it as a records file."""
    try:
        return Program.open(path)
    except Error as error:
        if error.refusal != Refusal.NOT_A_PDB_FILE:
            raise
        return Program.open_records(pathlib.Path(path).read_bytes())


def print_stack(program, address):
    try:
        frames = program.find_frames(address)
    except Error as error:
        if error.refusal != Refusal.ADDRESS_REFUSED:
            raise
        print(f"stack: {address:#x}: {error}", file=sys.stderr)
        frames = []
    if not frames:
        print("?? at ??:0:0")
    for depth, frame in enumerate(frames):
        before = " (inlined by) " if depth else ""
        function = "??" if frame.function is None else frame.function
        file = "??" if frame.file is None else frame.file
        print(f"{before}{function} at {file}:{frame.line or 0}:0")
    print()


def main(file, *addresses):
    with open_file(file) as program:
        for address in addresses:
            print_stack(program, int(address, 16))


if __name__ == "__main__":
    if len(sys.argv) < 3:
        sys.exit(__doc__)
    try:
        main(*sys.argv[1:])
    except Error as refused:
        sys.exit(f"stack: {refused}")
