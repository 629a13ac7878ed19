#!/usr/bin/env python3
"""Compares pdb_symbolizer and llvm-symbolizer of LLVM 22 at all code addresses of programs by rustc, ldc2 and clang 22.

Usage: compilers.py PROGRAM FOLDER [NAME..]

It builds PROGRAMS in FOLDER, each with its PDB file: Rust's core and alloc, D without its runtime, and C++23 with
link-time optimization. If NAMEs are given, it builds only these. Both symbolizers run with `--functions=short` over
each address of each section with code. Answers that differ are counted by the kinds of symbolizer.py and by these
reasons:

no procedure  LLVM answers nothing at an address in no procedure
two rows      LLVM answers the first of two line rows at the address, and the last one after it two files     a
subsection of lines has rows of several files, and LLVM doesn't answer the last row at or before the address first row
in the first row of an inline site, LLVM answers the line of the row after it empty name    an inlined function has an
empty name, which is answered as `<name omitted>`

If a tool is missing, the script names it with its Debian package, and leaves out its programs. The exit status is 1 if
answers differ for no such reason, if a build fails, or if no program was compared. The first three answers of each kind
without a reason are printed.
"""
import collections
import itertools
import pathlib
import re
import shutil
import struct
import subprocess
import sys

import symbolizer

HERE = pathlib.Path(__file__).resolve().parent
UNWIND = HERE.parent / "unwind"
SHAPES = HERE.parents[1] / "crates/pdb_symbolizer/data/program"
PDBUTIL = "llvm-pdbutil-22"
SYMBOL = re.compile(r"\| S_[GL]PROC32 .*\n.* addr = (\d+):(\d+), code size = (\d+)|\| S_INLINESITE .*\n.*\n"
                    r" +03\w+ +code 0x(\w+) .*\n(?: +04\w+ +code end 0x(\w+) .*\n)? +06\w+ +line (-?\d+).*\n"
                    r" +\w+ +(?:code 0x(\w+))?")
ROW = re.compile(r"(\d+) ([0-9A-F]{8})")
LINES = re.compile(r"(?P<file>\S.*) \(.*\)$|  (\d+):(\w+)-(\w+), line/addr|(?P<rows> +\d+ [0-9A-F]{8}.*)")
PART = 20000
LLVM = {"lld-link-22": "lld-22", symbolizer.LLVM: "llvm-22", PDBUTIL: "llvm-22"}
CLANG = {**LLVM, "clang-22": "clang-22"}
RUSTC = {**CLANG, "/usr/bin/rustc": "rustc", "/usr/src/rustc-*/library": "rust-src"}
LDC = {**LLVM, "ldc2": "ldc"}


def link(out, name, objects, entry="start"):
    """Links objects without libraries. Returns the program, which gets a PDB file."""
    run(["lld-link-22", f"/entry:{entry}", "/include:_fltused", "/subsystem:console", "/nodefaultlib", "/debug",
         f"/out:{out / name}.exe", f"/pdb:{out / name}.pdb", *objects])
    return out / f"{name}.exe"


def by_rustc(out, level):
    """Builds a program with Rust's core and alloc."""
    run(["sh", UNWIND / "build_rust.sh", out, level])
    return out / "collections.exe"


def by_ldc(out, level):
    """Builds a program in D, without D's runtime."""
    made = out / "structures.obj"
    run(["ldc2", "-mtriple=x86_64-windows-msvc", "-betterC", "-g", f"-O{level}", "-c", HERE / "structures.d", f"-of={made}"])
    return link(out, "structures", [made])


def by_clang(out, level, *sources, entry="start"):
    """Builds a program in C++23 from all its sources, with link-time optimization."""
    objects = []
    for source in sources:
        objects.append(out / f"{source.stem}.o")
        run(["clang-22", "--target=x86_64-pc-windows-msvc", "-std=c++23", f"-O{level}", "-g", "-gcodeview", "-fno-rtti",
             "-fno-exceptions", "-funwind-tables", "-ffreestanding", "-flto", "-c", source, "-o", objects[-1]])
    return link(out, sources[-1].stem, objects, entry)


PROGRAMS = {
    "rust-2": (RUSTC, by_rustc, "2"),
    "d-0": (LDC, by_ldc, "0"),
    "d-2": (LDC, by_ldc, "2"),
    "frames-2": (CLANG, by_clang, "2", UNWIND / "frames.cpp"),
    "coroutines-0": (CLANG, by_clang, "0", UNWIND / "coroutines.cpp"),
    "coroutines-2": (CLANG, by_clang, "2", UNWIND / "coroutines.cpp"),
    "shapes-2": (CLANG, lambda *words: by_clang(*words, entry="entry"), "2", SHAPES / "main.cpp", SHAPES / "shapes.cpp"),
}


def run(words):
    """Runs a compiler, the linker or llvm-pdbutil. If it fails, its output is printed."""
    done = subprocess.run(words, capture_output=True, text=True, errors="replace")
    if done.returncode:
        sys.exit(f"{words[0]} {words[1]} failed:\n{done.stdout}{done.stderr}")
    return done.stdout


def is_there(tool):
    """Returns whether a program is installed. A tool that starts with `/` is a path, which may have wildcards."""
    return any(pathlib.Path("/").glob(tool[1:])) if tool[0] == "/" else shutil.which(tool)


def sections(exe):
    """Yields for each section its address relative to the image base, its size, and whether it has code."""
    data = exe.read_bytes()
    header = struct.unpack_from("<I", data, 0x3c)[0]
    count, optional = (struct.unpack_from("<H", data, header + at)[0] for at in (6, 20))
    for at in range(header + 24 + optional, header + 24 + optional + 40 * count, 40):
        size, start = struct.unpack_from("<II", data, at + 8)
        yield start, size, struct.unpack_from("<I", data, at + 36)[0] & 0x20000000


def facts(exe, parts):
    """Reads three things from llvm-pdbutil: the addresses in procedures; the addresses in the first row of an inline
    site, with the changes of the line after it; and, for subsections of lines with several files, the file and line of
    each address."""
    procedures, first, subsections, rows_of = set(), collections.defaultdict(set), collections.defaultdict(list), {}
    pdb = exe.with_suffix(".pdb")
    for section, offset, size, begin, end, change, following in SYMBOL.findall(run([PDBUTIL, "dump", "-symbols", pdb])):
        if section:
            start = parts[int(section) - 1][0] + int(offset)
            procedures.update(range(start, start + int(size)))
        else:
            for address in range(start + int(begin, 16), start + int(end or following, 16)):
                first[address].add(int(change))
    for found in filter(None, map(LINES.match, run([PDBUTIL, "dump", "-l", pdb]).split("\n"))):
        if found["rows"]:
            subsections[place].extend((int(offset, 16), file, int(line)) for line, offset in ROW.findall(found["rows"]))
        elif found["file"]:
            file = found["file"]
        else:
            place = int(found[2]), int(found[4], 16)
    for (section, end), rows in subsections.items():
        if len({file for _, file, _ in rows}) > 1:
            rows.sort(key=lambda row: row[0])
            for (offset, *row), (after, *_) in itertools.pairwise([*rows, (end,)]):
                rows_of.update((parts[section - 1][0] + at, tuple(row)) for at in range(offset, after))
    return procedures, first, rows_of


def answers(program, exe, addresses):
    """Yields for each address the kind of difference, our frames, LLVM's, and LLVM's at the next address."""
    for start in range(0, len(addresses), PART):
        # The part has one more address at its end, because the last answer needs LLVM's answer after it.
        part = symbolizer.Comparison(program, exe, [f"0x{address:x}" for address in addresses[start:start + PART + 1]])
        kinds, pairs = part.json(["--output-style=JSON", "--functions=short"])
        ours, theirs = ([answer["Symbol"] for answer in side] for side in zip(*pairs))
        yield from list(zip(kinds, ours, theirs, [*theirs[1:], None]))[:PART]


def reason(address, known, ours, theirs, after):
    """Returns why the answers at an address differ, or None if that isn't known."""
    procedures, first, rows = known
    changes = [there["Line"] - here["Line"] for here, there in zip(ours, theirs) if here != there]
    named = [frame | {"FunctionName": frame["FunctionName"].replace("<name omitted>", "")} for frame in ours]
    if address not in procedures and len(ours) == len(theirs) == 1 and not any(theirs[0].values()):
        return "no procedure"
    if ours == after:
        return "two rows"
    if ours[:-1] == theirs[:-1] and rows.get(address) == (ours[-1]["FileName"], ours[-1]["Line"]):
        return "two files"
    if ours[-1] == theirs[-1] and len(changes) == 1 and changes[0] in first[address]:
        return "first row"
    return "empty name" if named == theirs else None


def compared(program, exe, name):
    """Compares all answers over one program. Returns the number of differences without a known reason."""
    parts = list(sections(exe))
    addresses = [address for start, size, code in parts if code for address in range(start, start + size)]
    known, counts, unknown = facts(exe, parts), collections.Counter(same=0), collections.Counter()
    for address, (kind, *frames) in zip(addresses, answers(program, exe, addresses), strict=True):
        why = kind and reason(address, known, *frames)
        counts[f"other {kind} ({why})" if why else f"other {kind}" if kind else "same"] += 1
        if kind and not why:
            unknown[kind] += 1
            if unknown[kind] <= 3:
                print(f"  {name} 0x{address:x} {kind}", *("\n    " + ", ".join(
                    f"{frame['FunctionName']} {frame['FileName']}:{frame['Line']}" for frame in side) for side in frames[:2]))
    print(f"{name}: {len(addresses)} compared,", ", ".join(f"{count} {what}" for what, count in counts.items()), flush=True)
    return unknown.total()


def main(program, folder, *names):
    wrong = done = 0
    for name in names or PROGRAMS:
        tools, build, level, *sources = PROGRAMS[name]
        missing = [f"{tool} (Debian package {package})" for tool, package in tools.items() if not is_there(tool)]
        if missing:
            print(f"{name} is left out, missing: {', '.join(missing)}", flush=True)
            continue
        out = pathlib.Path(folder).resolve() / name
        out.mkdir(parents=True, exist_ok=True)
        wrong += compared(program, build(out, level, *sources), name)
        done += 1
    print(f"{done} programs, {wrong} differences without a known reason")
    return bool(wrong or not done)


if __name__ == "__main__":
    if len(sys.argv) < 3:
        sys.exit(__doc__)
    sys.exit(main(*sys.argv[1:]))
