#!/usr/bin/env python3
"""Runs the built pdb_symbolizer on mutated copies of a program, and reports every run that misbehaves.

Usage: programs.py PROGRAM COUNT [SEED]

The program is shapes.exe of crates/pdb_symbolizer/data, with its PDB file next to it. A copy has bits flipped, or huge
and small numbers in its headers, its debug directory and its CodeView record. Or it has another path in that record
(with `..`, a device, a folder, thousands of characters), or it is cut. A run misbehaves in these cases:

  - It ends by a signal, or its status is not 0, 1 or 2.
  - It takes more than ten seconds, or more than 1 GiB of address space.
  - Its status is 1 or 2, and it prints nothing on standard error.
  - It opens a file that isn't named by the arguments or by the program, and isn't in the folder of `--pdb-dir`. strace
    checks this for every hundredth copy.
"""
import pathlib
import random
import re
import resource
import struct
import subprocess
import sys
import tempfile

DATA = pathlib.Path(__file__).resolve().parents[2] / "crates" / "pdb_symbolizer" / "data"
NUMBERS = [0, 1, 2, 3, 4, 7, 0x1C, 0x7F, 0x80, 0xFF, 0x1000, 0x7FFF, 0x8000, 0xFFFF, 0x7FFFFFFF, 0x80000000, 0xFFFFFFFE,
           0xFFFFFFFF]
PATHS = [b"..", b"../..", b"../../etc/passwd", b"/etc/passwd", b"/dev/zero", b"/dev/null", b"/", b".", b"", b"/proc/self/mem",
         b"C:\\..\\..\\shapes.pdb", b"a" * 32767, b"\\\\server\\share\\shapes.pdb", b"shapes.pdb/", b"\xff\xfe", b"con", b"NUL",
         b"shapes.pdb", b"symbols", b"./shapes.pdb", b"//shapes.pdb", b"shapes.pdb\n"]
TRACED = 100
LIBRARIES = re.compile(rb'(/etc/ld\.so|/lib|/usr/lib|/proc/self/(maps|auxv)|/sys/)')


def headers_of(program):
    """Returns the ranges of bytes to change, and the offset of the CodeView record. The ranges are the offset of the PE
    header, the headers, and the debug directory with the record."""
    start = struct.unpack_from("<I", program, 60)[0]
    record = program.index(b"RSDS")
    return [(60, 64), (start, start + 24 + 240 + 40 * 4), (record - 60, record + 40)], record


def with_path(program, record, path):
    """Overwrites the path in the CodeView record, and as many bytes after it as the new path needs."""
    made = program[:record + 24] + path + b"\0"
    return made + program[len(made):]


def mutated(program, draw):
    """Applies a few changes."""
    ranges, record = headers_of(program)
    program = bytearray(program)
    for _ in range(draw.choice([1, 1, 2, 3, 8])):
        low, high = draw.choice(ranges)
        at = draw.randrange(low, min(high, len(program) - 8))
        kind = draw.randrange(5)
        if kind == 0:
            program[at] ^= 1 << draw.randrange(8)
        elif kind == 1:
            struct.pack_into("<H", program, at, draw.choice(NUMBERS) & 0xFFFF)
        elif kind == 2:
            struct.pack_into("<I", program, at, draw.choice(NUMBERS))
        elif kind == 3 and b"RSDS" in program:
            program = bytearray(with_path(bytes(program), program.index(b"RSDS"), draw.choice(PATHS)))
        else:
            program = program[:draw.randrange(len(program) // 2, len(program))]
            break
    return bytes(program)


def limits():
    resource.setrlimit(resource.RLIMIT_AS, (1 << 30, 1 << 30))


def is_named(path, program):
    """Returns whether a run on a program may open this path: its own file, the path in the program, or a last part of
    that path. Either may be cut short, because the program also says how long its record is."""
    at = program.find(b"RSDS")
    written = program[at + 24:].split(b"\0")[0] if at >= 0 else b""
    parts = [written, *(written[slash.end():] for slash in re.finditer(rb"[/\\]", written))]
    return path == b"copy.exe" or bool(path) and any(part.startswith(path) for part in parts)


def strangers(trace, program):
    """Returns the files that a run opened and that nothing named."""
    found = re.findall(r'open(?:at)?\((?:AT_FDCWD, )?"((?:\\x[0-9a-f]{2})*)"', trace)
    paths = [bytes.fromhex(path.replace("\\x", "")) for path in found]
    return [path for path in paths if not is_named(path, program) and not path.startswith(b"symbols/")
            and not LIBRARIES.match(path)]


def complaint(run):
    """Returns what is wrong with a run, or None."""
    if run.returncode not in (0, 1, 2):
        return f"status {run.returncode}"
    return None if run.returncode == 0 or run.stderr else "no line on standard error"


def outcome(program, room, copy, traced):
    """Runs the program on a copy. Returns the status, and what is wrong with the run, or None."""
    (room / "copy.exe").write_bytes(copy)
    asked = [program, "--pdb-dir", "symbols", "copy.exe", "0x140001136"]
    if traced:
        asked = ["strace", "-f", "-xx", "-e", "trace=open,openat", "-o", str(room / "trace"), *asked]
    try:
        run = subprocess.run(asked, cwd=room, capture_output=True, timeout=10, preexec_fn=None if traced else limits)
    except subprocess.TimeoutExpired:
        return None, "takes more than ten seconds"
    fault = complaint(run)
    if traced and not fault:
        opened = strangers((room / "trace").read_text(errors="replace"), copy)
        fault = f"opens {opened}" if opened else None
    return run.returncode, fault


def main(words):
    program, count, seed = str(pathlib.Path(words[0]).resolve()), int(words[1]), int(words[2]) if len(words) > 2 else 0
    original = (DATA / "shapes.exe").read_bytes()
    counts, wrong = {}, 0
    with tempfile.TemporaryDirectory(prefix="programs-") as folder:
        room = pathlib.Path(folder)
        (room / "shapes.pdb").write_bytes((DATA / "shapes.pdb").read_bytes())
        for number in range(seed, seed + count):
            status, fault = outcome(program, room, mutated(original, random.Random(number)), number % TRACED == 0)
            if fault:
                wrong += 1
                print(f"seed {number}: {fault}")
            counts[status] = counts.get(status, 0) + 1
    print(f"{count} programs, {wrong} misbehave; " + ", ".join(f"{n} end with {status}" for status, n in counts.items()))
    return wrong > 0


if __name__ == "__main__":
    if len(sys.argv) == 1:
        sys.exit(__doc__)
    sys.exit(main(sys.argv[1:]))
