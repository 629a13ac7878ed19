"""A model of pdb_report by plain scans of the records.

Usage: model.py RECORDS (frames|names ADDRESS...|list)

`run(words, get)` returns standard output, the status and standard error. `words` are the program's arguments.
`get(name)` returns the bytes of a file, or None. The model leaves out three cases: memory runs out, standard output
can't be written, and arguments are not UTF-8.
"""
import re
import sys
import threading

from errors import Error, note
from frames import Context
from records import Fault, lossy, module_files, read_records

USAGE = "usage: pdb_report RECORDS (frames|names ADDRESS...|list)"


def shown(name):
    return "<unknown>" if name is None else name


def span(start, end):
    return f"0x{start:x}.." + ("??" if end is None else f"0x{end:x}")


def names_text(context, address):
    """Returns the line of `names` for an address."""
    found = context.find_function(address)
    if found is None:
        return f"{address:x} - no function found\n"
    start, end, name = found
    return f"0x{address:x} - {shown(name)} {span(start, end)}\n"


def frames_text(context, address):
    """Returns the lines of `frames` for an address."""
    found = context.find_frames(address)
    if found is None:
        return f"{address:x} - no frames found\n"
    note(f"frames of depth {min(4, len(found))}")
    lines = [f"0x{address:x} - {len(found)} frames:\n"]
    for function, file, line in found:
        file = "??" if file is None else file
        lines.append(f"     {shown(function)} at {file}:{'??' if line is None else line}\n")
    return "".join(lines)


def list_text(context, address):
    """Returns the line of `list` for the function at a start address, or an empty text if there is none."""
    found = context.find_function(address)
    if found is None:
        return ""
    start, end, name = found
    return f"{span(start, end)} {shown(name)}\n"


TEXTS = {"names": names_text, "frames": frames_text, "list": list_text}


def parse_words(words):
    """Returns (records, command, addresses), or None if the arguments are invalid."""
    if len(words) < 2:
        return None
    name, command, rest = words[0], words[1], words[2:]
    if command == "list":
        return (name, command, []) if not rest else None
    if command not in ("frames", "names"):
        return None
    if not all(re.fullmatch(r"(0x)?[0-9a-fA-F]{1,8}", word) for word in rest):
        return None
    return name, command, [int(word, 16) for word in rest]


def ended(status, text="", error=None):
    """Returns the result of a run: standard output, the status, and the one line on standard error."""
    return lossy(text).encode(), status, lossy(f"{error}\n").encode() if error else b""


def report(pdb, command, addresses):
    """Runs a command over records. An error ends the run after the texts of the addresses before."""
    texts = []
    try:
        context = Context(pdb)
        for address in context.start_addresses() if command == "list" else addresses:
            texts.append(TEXTS[command](context, address))
    except Error as error:
        note("ended: " + error.text)
        return ended(1, "".join(texts), f"pdb_report: {error.text}")
    return ended(0, "".join(texts))


def module_path(records, name):
    """Returns the path of a module file. It is relative to the folder of the records file, unless it starts with a
    slash."""
    return name if name.startswith("/") else records[:records.rfind("/") + 1] + name


def run(words, get):
    """Returns standard output, the status and standard error of a run."""
    parsed = parse_words(words)
    if parsed is None:
        return ended(2, error=USAGE)
    name, command, addresses = parsed
    data = get(name)
    if data is None:
        return ended(2, error=f"pdb_report: cannot read {name}")
    try:
        files = []
        for path in (module_path(name, named) for named in module_files(data)):
            files.append(get(path))
            if files[-1] is None:
                return ended(2, error=f"pdb_report: cannot read {path}")
        pdb = read_records(data, files)
    except Fault as fault:
        return ended(2, error=f"pdb_report: {name}: {fault}")
    return report(pdb, command, addresses)


def read_file(name):
    try:
        with open(name, "rb") as file:
            return file.read()
    except OSError:
        return None


def with_big_stack(call):
    """Returns the result of the call, which runs in a thread with a stack for deep recursion."""
    sys.setrecursionlimit(100_000)
    threading.stack_size(512 * 1024 * 1024)
    answers = []
    thread = threading.Thread(target=lambda: answers.append(call()))
    thread.start()
    thread.join()
    return answers[0]


if __name__ == "__main__":
    stdout, status, stderr = with_big_stack(lambda: run(sys.argv[1:], read_file))
    sys.stdout.buffer.write(stdout)
    sys.stderr.buffer.write(stderr)
    sys.exit(status)
