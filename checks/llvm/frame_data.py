#!/usr/bin/env python3
"""Compares the STACK WIN records and the parameter sizes that the built pdb_symbolizer writes for x86 PDB files with
what llvm-pdbutil shows.

Usage: frame_data.py PROGRAM FILE..      needs llvm-pdbutil of LLVM 14 or later

`llvm-pdbutil dump -fpo` shows the entries of frame data (`New FPO Data`) and of FPO data (`Old FPO Data`) of each FILE.
Each entry must have one record, in this order, with the same numbers and the same program. There may be no other
records. FPO data is shown in units of four bytes, as in the file; records have bytes. The parameter size in a FUNC or
PUBLIC record is that of the last entry of frame data over its address. If there is none, it is that of the last entry
of FPO data, or 0. The script prints each difference, and how many records were compared.
"""
import re
import subprocess
import sys

FRAME_DATA = re.compile(r"^([0-9A-F]{8}) \|" + r" +(\d+) \|" * 6 + r" +\w+ \| +\w+ \| +\w+ \| (.*)$", re.M)
FPO = re.compile(r"^([0-9A-F]{8}) \|" + r" +(\d+) \|" * 5 + r" +(\w+) \| +\w+ \| +(\w+)$", re.M)
KINDS = {"FPO": 0, "Trap": 1, "TSS": 2, "NonFPO": 3}


def of_frame_data(match):
    """Returns the record that is expected for an entry of frame data."""
    rva = int(match[1], 16)
    size, local_size, parameters, stack, prologue, saved = map(int, match.groups()[1:7])
    return f"STACK WIN 4 {rva:x} {size:x} {prologue:x} 0 {parameters:x} {saved:x} {local_size:x} {stack:x} 1 {match[8]}"


def of_fpo(match):
    """Returns the record that is expected for an entry of FPO data."""
    rva = int(match[1], 16)
    size, local_size, parameters, prologue, saved = map(int, match.groups()[1:6])
    return (f"STACK WIN {KINDS[match[8]]} {rva:x} {size:x} {prologue:x} 0 {4 * parameters:x} {4 * saved:x} {4 * local_size:x}"
            f" 0 0 {int(match[7] == 'true')}")


def wanted(file):
    """Returns all expected records, from what llvm-pdbutil shows."""
    shown = subprocess.run(["llvm-pdbutil", "dump", "-fpo", file], capture_output=True, text=True, check=True).stdout
    old, new = shown.split("New FPO Data")
    return [*map(of_frame_data, FRAME_DATA.finditer(new)), *map(of_fpo, FPO.finditer(old))]


def parameter_size(rows, address):
    """Returns the parameter size at an address as the records say it, or 0 if no record covers the address."""
    over = [fields for fields in map(str.split, rows)
            if int(fields[3], 16) <= address < int(fields[3], 16) + int(fields[4], 16)]
    by_frame_data = [fields for fields in over if fields[2] == "4"]
    return (by_frame_data or over or [["0"] * 8])[-1][7]


def wrong_sizes(rows, dumped):
    """Yields the FUNC and PUBLIC records whose parameter size isn't the expected one."""
    for row in dumped:
        kind, address, *fields = row.split(" ", 4)
        if kind in ("FUNC", "PUBLIC") and fields[kind == "FUNC"] != parameter_size(rows, int(address, 16)):
            yield row


def main():
    program, *files = sys.argv[1:]
    compared = different = functions = 0
    for file in files:
        dumped = subprocess.run([program, "--dump-syms", file], capture_output=True, text=True, errors="replace")
        dumped = dumped.stdout.splitlines()
        written = [row for row in dumped if row.startswith("STACK WIN")]
        rows = wanted(file)
        functions += sum(row.startswith(("FUNC", "PUBLIC")) for row in dumped)
        wrong = list(wrong_sizes(rows, dumped))
        for row in wrong:
            print(f"{file}: another size of parameters: {row}")
        compared += len(rows)
        for row in sorted(set(rows) ^ set(written)):
            print(f"{file}: {'not written' if row in rows else 'not in the file'}: {row}")
        different += rows != written or bool(wrong)
        if rows != written:
            print(f"{file}: {len(written)} records, wanted are {len(rows)}")
    print(f"{compared} records and {functions} functions of {len(files)} files, {different} files with differences")
    sys.exit(1 if different else 0)


if __name__ == "__main__":
    main()
