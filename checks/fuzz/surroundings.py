#!/usr/bin/env python3
"""Runs the built program in a broken environment, and reports every run that ends otherwise than docs/REPORT.md says.

Usage: surroundings.py PROGRAM

These are broken:

  - standard output: it is closed, or full, or nobody reads it
  - the records file: it is a folder, or empty, or can't be read, or comes in pieces
  - arguments: they are not UTF-8
  - texts: they are cut anywhere, or nested too deep
  - module files: all of these

The script compares standard error, the status, and, if it can be read, standard output.
"""
import os
import pathlib
import subprocess
import sys
import tempfile
import threading
import time
from collections import namedtuple

CRATES = pathlib.Path(__file__).resolve().parents[2] / "crates"
DATA = CRATES / "pdb_report_tests" / "data"
EXAMPLE = CRATES / "pdb_report" / "data" / "a.json"
SECONDS = 10
USAGE = "usage: pdb_report RECORDS (frames|names ADDRESS...|list)"
NO_JSON = "not a JSON text"
DEEPEST = 127
# A file that can be opened, but whose bytes can't be read.
UNREADABLE = "/proc/self/mem"
LINE = b"0x1020 - ?f 0x1010..0x1100\n"
MODULE_LINE = b"0x1050 - g 0x1050..0x1090\n"

# `out` makes the standard output of the run. If it is None, standard output is captured.
Check = namedtuple("Check", "what words line status stdout out", defaults=(b"", None))


def refused(what, words, line, out=None):
    """A check of a run that ends with status 2 and this line on standard error."""
    return Check(what, words, line, 2, b"", out)


def records(what, name, fault):
    """A check of a records file that is refused with this fault."""
    return refused(what, [name, "names", "1020"], f"pdb_report: {name}: {fault}")


# ------------------------------------------------------- standard output


def closed():
    """It is closed."""
    return "closed"


def full():
    """The device is full."""
    return os.open("/dev/full", os.O_WRONLY)


def unread():
    """Nobody reads the pipe."""
    reading, writing = os.pipe()
    os.close(reading)
    return writing


def outputs():
    """Checks of lines that can't be written: few, many, and before an error. In others there is nothing to write."""
    for out in (closed, full, unread):
        what = f"standard output: {out.__doc__}"
        for words in ([EXAMPLE, "names", "1020"], [EXAMPLE, "frames", "1020", "1050"], [EXAMPLE, "list"],
                      [DATA / "small_x64.json", "list"],
                      [DATA / "small_x64.json", "frames"] + ["1544"] * 2000,
                      [DATA / "failing_parts.json", "frames", "10c4", "1024"]):
            yield refused(what, words, "pdb_report: cannot write", out)
        yield Check(f"{what} Nothing is written.", [EXAMPLE, "names"], "", 0, b"", out)
        yield Check(f"{what} An error stands before all lines.", [DATA / "failing_lines.json", "frames", "1012"],
                    "pdb_report: PDB error: stream error 7", 1, b"", out)
        yield refused(f"{what} Usage.", [], USAGE, out)


# ---------------------------------------------------------- the arguments


def words():
    """Checks of invalid arguments."""
    name = bytes(EXAMPLE)
    wrong = [[], [name], [name, b"name"], [name, b"names", b"g"], [name, b"list", b"1020"], [name, b"names", b""],
             [b"\xff", b"names", b"1020"], [name, b"\xff", b"1020"], [name, b"names", b"\xff"],
             [name, b"names", b"1020", b"10\xe9"], [name + b"\xc3\x28", b"list"], [b"\xed\xa0\x80", b"list"],
             [name, b"list", b"\xf4\x90\x80\x80"]]
    for given in wrong:
        yield refused(f"words {given}", given, USAGE)


# ------------------------------------------------------ the records file


def unreadable_files(folder):
    """Checks of paths that can't be read."""
    (folder / "folder").mkdir()
    (folder / "circle").symlink_to("circle")
    (folder / "dangling").symlink_to("absent")
    (folder / "inside.json").write_bytes(EXAMPLE.read_bytes())
    names = ["folder", ".", "absent", "circle", "dangling", "inside.json/a", "n" * 300, "n/" * 3000, "", UNREADABLE]
    locked = folder / "locked"
    locked.touch()
    locked.chmod(0)
    if not os.access(locked, os.R_OK):
        names.append("locked")
    for name in names:
        yield refused("a path that can't be read", [name, "names", "1020"], f"pdb_report: cannot read {name}")
        yield refused("a path that can't be read", [name, "list"], f"pdb_report: cannot read {name}")


def beginnings(text):
    """Returns all beginnings of a text that end before its last brace, with the empty one."""
    return [text[:length] for length in range(text.rindex(b"}") + 1)]


def nested(depth):
    """Returns an array nested to this depth."""
    return b"[" * depth + b"]" * depth


def files(folder):
    """Checks of records files that hold no records."""
    yield from unreadable_files(folder)
    for text in beginnings(EXAMPLE.read_bytes()) + [EXAMPLE.read_bytes() + b"}", b"\xff", b"\xef\xbb\xbf{}", b"\0"]:
        name = written(folder, text)
        yield records(f"the text {text[-20:]}", name, NO_JSON)
    for depth in (1, DEEPEST - 1, DEEPEST):
        yield records(f"{depth} nested arrays", written(folder, nested(depth)), ": wanted object")
    for depth in (DEEPEST + 1, DEEPEST + 2, 1_000_000):
        yield records(f"{depth} nested arrays", written(folder, nested(depth)), NO_JSON)
    for depth in (1, 1_000_000):
        yield records(f"{depth} open arrays", written(folder, b"[" * depth), NO_JSON)
    yield Check("a file with more members", [written(folder, deep_member(DEEPEST - 1)), "names", "1020"], "", 0, LINE)
    yield records("a member that is nested too deep", written(folder, deep_member(DEEPEST)), NO_JSON)


def deep_member(depth):
    """Returns the example with one more member, which is an array nested to this depth."""
    return EXAMPLE.read_bytes().replace(b"{", b'{"more":' + nested(depth) + b",", 1)


def written(folder, text, name=None):
    """Writes a file with this text into the folder, and returns its name."""
    name = name or f"{sum(1 for _ in folder.iterdir())}.json"
    (folder / name).write_bytes(text)
    return name


# ------------------------------------------------------- the module files


def module_files(folder):
    """Checks of module files that can't be read or hold no records of a module."""
    text = (DATA / "modules" / "two.json").read_bytes()
    first, second = ((DATA / "modules" / name).read_bytes() for name in ("a.module.json", "b.module.json"))
    written(folder, first, "a.module.json")
    number = 0

    def two(second):
        """Writes a records file whose second module file has this text. Returns the names of both. None writes no
        module file."""
        nonlocal number
        number += 1
        name = f"{number}.module.json"
        if second is not None:
            written(folder, second, name)
        return written(folder, text.replace(b"b.module.json", name.encode()), f"two{number}.json"), name

    yield Check("two module files", [two(second)[0], "names", "1050"], "", 0, MODULE_LINE)
    path = "/module_infos/1/file"
    for begun in beginnings(second) + [second + b"]", b"\xff"]:
        yield records(f"the module file {begun[-20:]}", two(begun)[0], f"{path}: {NO_JSON}")
    for depth in (1, DEEPEST):
        yield records(f"a module file of {depth} nested arrays", two(nested(depth))[0], f"{path}: wanted object")
    for depth in (DEEPEST + 1, 1_000_000):
        yield records(f"a module file of {depth} nested arrays", two(nested(depth))[0], f"{path}: {NO_JSON}")
    name, module = two(None)
    yield refused("an absent module file", [name, "names", "1050"], f"pdb_report: cannot read {module}")
    name, module = two(None)
    (folder / module).mkdir()
    yield refused("a module file that is a folder", [name, "list"], f"pdb_report: cannot read {module}")
    name, module = two(None)
    os.mkfifo(folder / module)
    yield refused("a module file that is a pipe", [name, "names", "1050"], f"pdb_report: cannot read {module}")
    name = written(folder, text.replace(b"b.module.json", UNREADABLE.encode()), "unreadable.json")
    yield refused("a module file that can't be read", [name, "names"], f"pdb_report: cannot read {UNREADABLE}")
    for begun in beginnings(text):
        yield records(f"the text {begun[-20:]}", written(folder, begun, "cut.json"), NO_JSON)


# -------------------------------------------------------------- in pieces


def feed(path, pieces):
    """Writes pieces to a pipe, with pauses between them."""
    with open(path, "wb", buffering=0) as pipe:
        for piece in pieces:
            pipe.write(piece)
            time.sleep(0.2)


def in_pieces(folder):
    """Checks of a records file that comes in pieces. Each has the path of the pipe, and the pieces."""
    text = EXAMPLE.read_bytes()
    half = len(text) // 2
    pipe = folder / "pipe"
    os.mkfifo(pipe)
    yield Check("a file in two pieces", ["pipe", "names", "1020"], "", 0, LINE), pipe, [text[:half], text[half:]]
    yield records("a file of which half comes", "pipe", NO_JSON), pipe, [text[:half]]
    yield records("a file that goes on behind its end", "pipe", NO_JSON), pipe, [text, b"}"]


# -------------------------------------------------------------- all checks


def output(check):
    """Returns the descriptor for standard output, and what the new process does first."""
    made = check.out() if check.out else None
    if made == "closed":
        return None, lambda: os.close(1)
    return made, None


def fault(program, check, folder):
    """Returns what is wrong with a run, or None."""
    out, begin = output(check)
    try:
        done = subprocess.run([program, *check.words], cwd=folder, stdin=subprocess.DEVNULL, stderr=subprocess.PIPE,
                              stdout=out if check.out else subprocess.PIPE, preexec_fn=begin, timeout=SECONDS)
    except subprocess.TimeoutExpired:
        return f"no end after {SECONDS} s"
    finally:
        if out is not None:
            os.close(out)
    line = check.line.encode() + b"\n" if check.line else b""
    wanted = check.status, line, check.stdout
    got = done.returncode, done.stderr, done.stdout or b""
    return None if got == wanted else f"wanted {wanted}\n  got {got}"


def all_checks(folder):
    """Yields all checks. Each has the pipe and the pieces to write to it during the run, or None."""
    for make in (outputs, words):
        for check in make():
            yield check, None
    for make in (files, module_files):
        for check in make(folder):
            yield check, None
    for check, pipe, pieces in in_pieces(folder):
        yield check, (pipe, pieces)


def shown(words):
    """Shortens the arguments for a message."""
    return " ".join(str(word)[:60] for word in words[:6])


def main(program):
    program = os.path.abspath(program)
    count = wrong = 0
    with tempfile.TemporaryDirectory() as folder:
        folder = pathlib.Path(folder)
        for check, fed in all_checks(folder):
            feeder = threading.Thread(target=feed, args=fed, daemon=True) if fed else None
            if feeder:
                feeder.start()
            found = fault(program, check, folder)
            if feeder:
                feeder.join(SECONDS)
            count += 1
            if found:
                wrong += 1
                print(f"{check.what}: pdb_report {shown(check.words)}\n  {found}", flush=True)
    print(f"{count} runs, {wrong} wrong")
    return 1 if wrong else 0


if __name__ == "__main__":
    if len(sys.argv) != 2:
        sys.exit(__doc__)
    sys.exit(main(sys.argv[1]))
