#!/usr/bin/env python3
"""Uses the built pdb_symbolizer as other programs do, which pass lines one by one and wait for each answer.

Usage: clients.py PROGRAM EXE [ASAN_SYMBOLIZE]

EXE is a program with its PDB file in the same folder. Lines go one by one to one run of PROGRAM. Every second line has
no address. After each line the script waits for the empty line that ends the answer. llvm-symbolizer of LLVM 22 gets
the same lines, and its answers must be the same. Then LLVM's script asan_symbolize (`asan_symbolize-14`) uses PROGRAM
to symbolize a stack.
"""
import os
import pathlib
import re
import select
import subprocess
import sys

LLVM = "llvm-symbolizer-22"
SECONDS = 10
STACK = re.compile(r"#(\d+) 0x[0-9a-f]+ in (.*) (\S+:\d+)")


def lines_of(exe, base):
    """Yields by turns lines with an address of the program, and lines that ask for nothing or are invalid."""
    addresses = [f"0x{base + 0x1000 + 7 * number:x}" for number in range(32)]
    wrong = ["zz", "", f"{exe} zz", "CODE", exe, f"{exe} 9x", f"DATA {exe} 0x10", f"FRAME {exe} 0x10", "FILE:", "\t", "-1", "'"]
    for position, address in enumerate(addresses):
        yield f"{exe} {address}"
        yield wrong[position % len(wrong)]


class Client:
    """A run of a program that gets its input line by line."""

    def __init__(self, words, folder):
        self.run = subprocess.Popen(words, stdin=subprocess.PIPE, stdout=subprocess.PIPE, stderr=subprocess.DEVNULL, cwd=folder)
        self.rest = b""

    def answer(self, line):
        """Sends a line, and returns the lines up to the empty one. Returns None if the program ends or doesn't answer
        in time."""
        self.run.stdin.write(line.encode() + b"\n")
        self.run.stdin.flush()
        while not (self.rest.startswith(b"\n") or b"\n\n" in self.rest):
            if not select.select([self.run.stdout], [], [], SECONDS)[0]:
                return None
            read = os.read(self.run.stdout.fileno(), 1 << 16)
            if not read:
                return None
            self.rest += read
        answer, _, self.rest = self.rest.partition(b"\n\n")
        return answer.decode()

    def end(self):
        """Closes standard input, waits for the end, and returns the status."""
        self.run.stdin.close()
        return self.run.wait(SECONDS)


def waiting(program, folder, exe, base):
    """Returns the number of lines whose answers differ from LLVM's or don't come."""
    words = ["--functions=short"]
    ours, theirs = (Client([each, *words], folder) for each in (program, LLVM))
    count = wrong = 0
    for line in lines_of(exe, base):
        pair = [client.answer(line) for client in (ours, theirs)]
        count += 1
        if pair[0] is None or pair[0] != pair[1]:
            wrong += 1
            print(f"{line!r}\n  ours   {pair[0]!r}\n  theirs {pair[1]!r}")
        if None in pair:
            break
    print(f"{count} lines, {wrong} otherwise than by {LLVM}; statuses {ours.end()} and {theirs.end()}")
    return wrong


def sanitizer(script, program, folder, exe, base):
    """Returns whether the script fails to name a frame of the stack."""
    stack = "".join(f"    #{number} 0x{0x7ff600001000 + number:x}  ({folder}/{exe}+0x{base + address:x})\n"
                    for number, address in enumerate((0x1136, 0x1000, 0x1190)))
    done = subprocess.run([script, "-d"], input=stack, capture_output=True, text=True, cwd=folder, timeout=6 * SECONDS,
                          env={**os.environ, "LLVM_SYMBOLIZER_PATH": program})
    found = STACK.findall(done.stdout)
    print(done.stdout, end="")
    print(f"asan_symbolize: {len(found)} frames of a stack of 3 addresses")
    return len(found) < 3


def main(program, exe, script="asan_symbolize-14"):
    path = pathlib.Path(exe).resolve()
    program = str(pathlib.Path(program).resolve())
    front = path.read_bytes()[:0x400]
    header = int.from_bytes(front[0x3c:0x40], "little") + 24
    wide = front[header:header + 2] == b"\x0b\x02"
    base = int.from_bytes(front[header + 24:header + 32] if wide else front[header + 28:header + 32], "little")
    wrong = waiting(program, path.parent, path.name, base)
    return bool(wrong or sanitizer(script, program, path.parent, path.name, base))


if __name__ == "__main__":
    if len(sys.argv) not in (3, 4):
        sys.exit(__doc__)
    sys.exit(main(*sys.argv[1:]))
