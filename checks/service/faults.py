#!/usr/bin/env python3
"""Breaks PDB files, requests and readers while one pdb_symbolizer answers requests, and reports what goes wrong.

Usage: faults.py PROGRAM [RUNS [REPEATS]]

PROGRAM is a built pdb_symbolizer.

  - Changed files: one process `--symbolicate-lines` gets requests all the time. Between two requests a PDB file is cut,
    overwritten, removed, or replaced by one with another debug id and the same size. Then it is put back. Each answer
    must be that of a `pdb_symbolizer --symbolicate` alone, run before or after the change. The script prints which one
    it was. Answers over another file must not change.
  - Long lines: a process gets lines of 16 MiB and of one byte more.
  - Readers: the reader of a process stops for a while, or closes the pipe. These processes get 20 requests REPEATS
    times (100).
  - Signals: RUNS times (10) a process gets SIGTERM. What it wrote must be a beginning of the answers.
"""
import json
import os
import pathlib
import resource
import select
import shutil
import signal
import subprocess
import sys
import tempfile
import threading
import time

from stores import DATA, SHAPES, alone, debug_id, make_store, report, requests, with_guid

LONGEST = 16777216
TOO_LONG = b'{"error":"a line longer than 16777216 bytes"}\n'
OFFSETS = [0x1000, 0x1025, 0x10e4, 0x1136, 0x1160, 0x1191, 0x1264]
OTHER_GUID = "0123456789ABCDEF0123456789ABCDEF1"
SECONDS = 300
# The most bytes by which a process may grow while nobody reads its output.
MOST_GROWTH = 32 << 20


def request(name, identity, offsets):
    """Returns a request for offsets in a PDB file."""
    value = {"memoryMap": [[name, identity]], "stacks": [[[0, offset] for offset in offsets]]}
    return json.dumps(value, separators=(",", ":")).encode() + b"\n"


class Process:
    """A process that answers requests."""

    def __init__(self, program, store):
        self.process = subprocess.Popen([program, "--symbolicate-lines", "--pdb-dir", store], stdin=subprocess.PIPE,
                                        stdout=subprocess.PIPE, stderr=subprocess.DEVNULL)

    def ask(self, line):
        """Returns the answer to a line, or the part of it that came."""
        try:
            self.process.stdin.write(line)
            self.process.stdin.flush()
        except BrokenPipeError:
            return b"the process ended"
        return self.process.stdout.readline()

    def end(self):
        """Ends the process, and returns its exit status."""
        self.process.stdin.close()
        status = self.process.wait(SECONDS)
        self.process.stdout.close()
        return status


# ------------------------------------------------------- PDB files that change


def cut(path, _):
    """Truncates the file to half."""
    os.truncate(path, path.stat().st_size // 2)


def cut_anew(path, _):
    """Replaces the file by a new one with its first half."""
    put(path, path.read_bytes()[:path.stat().st_size // 2])


def overwrite(path, other):
    """Overwrites the file in place by another one of the same size."""
    with open(path, "r+b") as file:
        file.write(other)


def replace(path, other):
    """Replaces the file by another one of the same size."""
    put(path, other)


def remove(path, _):
    """Removes the file."""
    path.unlink()


def fill_with_zeros(path, _):
    """Overwrites the file in place by zeros."""
    with open(path, "r+b") as file:
        file.write(bytes(path.stat().st_size))


def put(path, data):
    """Replaces a file atomically."""
    beside = path.with_name("beside")
    beside.write_bytes(data)
    beside.rename(path)


class Changes:
    """A folder with a PDB file that changes and one that doesn't, and the process that answers over them."""

    def __init__(self, program, folder):
        self.program, self.folder = program, folder
        self.path, self.good = folder / "app.pdb", SHAPES.read_bytes()
        self.path.write_bytes(self.good)
        shutil.copy(SHAPES, folder / "same.pdb")
        identity = debug_id(program, self.path)
        self.other = with_guid((DATA / "source.pdb").read_bytes(), identity, OTHER_GUID)
        assert len(self.other) == len(self.good)
        self.lines = {"the old id": request("app.pdb", identity, OFFSETS),
                      "the old id at new offsets": request("app.pdb", identity, [0x1112, 0x1198, 0x1280]),
                      "the new id": request("app.pdb", OTHER_GUID, OFFSETS)}
        self.one, self.same = request("app.pdb", identity, [0x1004]), request("same.pdb", identity, OFFSETS)
        self.same_answer = self.alone(self.same)
        self.process = Process(program, folder)

    def alone(self, line):
        """Returns the answer of a process that gets only this request."""
        return alone(self.program, self.folder, line)

    def told(self, when, before, after):
        """Sends all requests, and prints whether each answer is the one before a change, the one after it, or wrong."""
        faults, shown = [], []
        for what, line in self.lines.items():
            answer = self.process.ask(line)
            kinds = [kind for kind, known in (("before", before), ("after", after)) if known[what] == answer]
            shown.append("same" if len(kinds) == 2 else kinds[0] if kinds else "WRONG")
            faults += [] if kinds else [f"{when}, {what}: {answer[:300]!r}"]
        if self.process.ask(self.same) != self.same_answer:
            faults.append(f"{when}: the answer over another file changed")
        print(f"{when}: {', '.join(shown)}")
        return faults

    def change(self, deed, known):
        """Changes the file, sends all requests, puts the file back, and sends them again. If `known`, the process has
        answered all of them before the change. Otherwise a new process has looked up only one offset."""
        before = {what: self.alone(line) for what, line in self.lines.items()}
        if known:
            faults = self.told("before", before, before)
        else:
            faults = [] if self.process.end() == 0 else [f"status of the process before {deed.__name__}"]
            self.process = Process(self.program, self.folder)
            if self.process.ask(self.one) != self.alone(self.one):
                faults.append("the answer over one offset")
        deed(self.path, self.other)
        after = {what: self.alone(line) for what, line in self.lines.items()}
        name = f"{deed.__name__} after {'all offsets' if known else 'one offset'}"
        faults += self.told(name, before, after)
        put(self.path, self.good)
        return faults + self.told(f"put back after {name}", after, before)


def changed_files(program, folder):
    """Checks PDB files that change between requests."""
    changes, faults = Changes(program, folder), []
    for deed in (cut, cut_anew, overwrite, replace, remove, fill_with_zeros):
        faults += changes.change(deed, True) + changes.change(deed, False)
    status = changes.process.end()
    return faults + ([] if status == 0 else [f"status {status} after files changed"])


# ------------------------------------------------------- long lines


def long_lines(program, folder):
    """Checks lines of the greatest length, and lines that are too long."""
    shutil.copy(SHAPES, folder)
    line = request(SHAPES.name, debug_id(program, SHAPES), OFFSETS)
    wanted, process, faults = alone(program, folder, line), Process(program, folder), []
    full = line[:-1] + b" " * (LONGEST - len(line)) + b"\n"
    over = line[:-1] + b" " * (LONGEST + 1 - len(line)) + b"\n"
    checks = (("16 MiB", full, wanted), ("16 MiB and a byte", over, TOO_LONG), ("a few bytes", line, wanted))
    for what, asked, answer in checks:
        found = process.ask(asked)
        print(f"a line of {len(asked)} bytes: {found[:60]!r}..")
        faults += [] if found == answer else [f"a line of {what}: {found[:300]!r}"]
    status = process.end()
    return faults + ([] if status == 2 else [f"status {status} after a line that is too long"])


# ------------------------------------------------------- readers


def memory(process):
    """Returns the resident memory of a process, in bytes."""
    return int(pathlib.Path(f"/proc/{process.pid}/statm").read_text().split()[1]) * resource.getpagesize()


def write_until_blocked(process, text):
    """Writes to a process whose output nobody reads, until it takes no more. Returns how many bytes it took."""
    os.set_blocking(process.stdin.fileno(), False)
    taken = 0
    while taken < len(text) and select.select([], [process.stdin], [], 5)[1]:
        taken += os.write(process.stdin.fileno(), text[taken:taken + 4096])
    os.set_blocking(process.stdin.fileno(), True)
    return taken


def write_rest(process, text):
    """Writes the rest of the input, and closes it."""
    process.stdin.write(text)
    process.stdin.close()


def reader_that_stops(program, store, lines, wanted):
    """Checks a reader that stops for a while and then reads everything."""
    process, text = Process(program, store).process, b"".join(lines)
    process.stdin.write(lines[0])
    process.stdin.flush()
    first = process.stdout.readline()
    before, taken = memory(process), len(lines[0])
    taken += write_until_blocked(process, text[taken:])
    time.sleep(1)
    grown = memory(process) - before
    writer = threading.Thread(target=write_rest, args=(process, text[taken:]))
    writer.start()
    found = first + process.stdout.read()
    writer.join()
    status = process.wait(SECONDS)
    print(f"a reader that stops: {taken} of {len(text)} bytes were taken, memory grew by {grown / 2**20:.1f} MiB, "
          f"status {status}")
    faults = [] if found == wanted and status == 0 else ["a reader that stops: other answers"]
    return faults + ([] if taken < len(text) and grown < MOST_GROWTH else ["a reader that stops: memory grew"])


def reader_that_leaves(program, store, path, wanted):
    """Checks a reader that closes the pipe after one answer."""
    with open(path, "rb") as file:
        process = subprocess.Popen([program, "--symbolicate-lines", "--pdb-dir", store], stdin=file,
                                   stdout=subprocess.PIPE, stderr=subprocess.DEVNULL)
        first = process.stdout.readline()
        process.stdout.close()
        status = process.wait(SECONDS)
    print(f"a reader that leaves: status {status}")
    return [] if status == 0 and wanted.startswith(first) else [f"a reader that leaves: status {status}"]


def undisturbed(program, store, path, wanted):
    """Checks a process without any disturbance, and returns the seconds that it takes."""
    start = time.monotonic()
    with open(path, "rb") as file:
        run = subprocess.run([program, "--symbolicate-lines", "--pdb-dir", store], stdin=file, stdout=subprocess.PIPE,
                             stderr=subprocess.DEVNULL)
    seconds = time.monotonic() - start
    print(f"nothing happens: {seconds:.2f} s, {len(wanted)} bytes, status {run.returncode}")
    return [] if run.stdout == wanted and run.returncode == 0 else ["nothing happens: other answers"], seconds


def ended_by_a_signal(program, store, path, wanted, seconds):
    """Checks a process that gets SIGTERM after some seconds."""
    with open(path, "rb") as file, tempfile.TemporaryFile() as out:
        process = subprocess.Popen([program, "--symbolicate-lines", "--pdb-dir", store], stdin=file, stdout=out,
                                   stderr=subprocess.DEVNULL)
        time.sleep(seconds)
        process.send_signal(signal.SIGTERM)
        status = process.wait(SECONDS)
        out.seek(0)
        found = out.read()
    whole = found.count(b"\n")
    print(f"SIGTERM after {seconds:.2f} s: status {status}, {whole} whole answers, {len(found)} bytes")
    right = wanted.startswith(found) and status in (0, -signal.SIGTERM)
    return [] if right else [f"SIGTERM after {seconds} s: status {status}, not the beginning of the answers"]


def readers_and_signals(program, folder, runs, repeats):
    """Checks readers that stop or leave, and processes that get SIGTERM."""
    store, path = folder / "store", folder / "requests"
    lines = list(requests(make_store(program, store, 4), 20, 50))
    wanted, lines = b"".join(alone(program, store, line) for line in lines) * repeats, lines * repeats
    path.write_bytes(b"".join(lines))
    faults, seconds = undisturbed(program, store, path, wanted)
    faults += reader_that_stops(program, store, lines, wanted) + reader_that_leaves(program, store, path, wanted)
    for run in range(runs):
        faults += ended_by_a_signal(program, store, path, wanted, seconds * run / runs)
    return faults


def main(program, runs="10", repeats="100"):
    program = str(pathlib.Path(program).resolve())
    faults = []
    for check in (changed_files, long_lines,
                  lambda *words: readers_and_signals(*words, int(runs), int(repeats))):
        with tempfile.TemporaryDirectory() as folder:
            faults += check(program, pathlib.Path(folder).resolve())
    return report(faults)


if __name__ == "__main__":
    if not 2 <= len(sys.argv) <= 4:
        sys.exit(__doc__)
    sys.exit(main(*sys.argv[1:]))
