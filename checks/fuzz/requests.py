#!/usr/bin/env python3
"""Passes mutated requests of the symbolication API to the built pdb_symbolizer, and reports every answer that is wrong.

Usage: requests.py PROGRAM COUNT [SEED] [PDB]

PDB is shapes.pdb of crates/pdb_symbolizer/data if not given. The folder of `--pdb-dir` has it under two debug ids. A
third copy is outside that folder, where no request may lead. Some of the COUNT requests are well-formed. The others
have values exchanged, added or left out, or bytes changed. They go to `--symbolicate-lines` in batches, and the first
of each batch also to `--symbolicate`.

For each request the script works out the expected line from docs/FORMATS.md. It is the line of a fault, or an answer.
The frames of the answer are those that PROGRAM prints in JSON for the file at the same addresses. A run misbehaves in
these cases:

  - It ends by a signal, or its status is not 0 or 2.
  - An answer is wrong.
  - It takes more than two minutes.
  - It opens a file outside of the folder that a run without requests doesn't open. This is only checked if strace is
    installed.
"""
import json
import pathlib
import random
import re
import shutil
import subprocess
import sys
import tempfile
import uuid

DATA = pathlib.Path(__file__).resolve().parents[2] / "crates" / "pdb_symbolizer" / "data"
BATCH, SHOWN, DEEPEST = 40, 10, 127
FIELDS = "[0-9a-f]{8}(?:-[0-9a-f]{4}){3}-[0-9a-f]{12}"
UUID = re.compile(rf"[0-9a-f]{{32}}|(?:urn:uuid:)?{FIELDS}|\{{{FIELDS}\}}", re.IGNORECASE)
OPENED = re.compile(r'open\w*\([^"]*"([^"]*)"')
BYTES = b'[]{},:"\\0123456789-.eE \x00\x80\xff\xc3atu'
MEMBERS = ["jobs", "memoryMap", "stacks", "version", "more"]


class Fault(Exception):
    """The reason why a text is not a valid request."""


def no_constant(text):
    """Refuses NaN and infinities, which JSON doesn't have."""
    raise Fault("not a JSON text")


def finite(text):
    """Parses a number, and refuses it if it is too large for a double."""
    if float(text) in (float("inf"), float("-inf")):
        raise Fault("not a JSON text")
    return float(text)


def nesting(value):
    """Returns how deep a value nests. A number or a string has depth 0."""
    inner = value.values() if isinstance(value, dict) else value if isinstance(value, list) else ()
    return max(map(nesting, inner), default=0) + isinstance(value, (dict, list))


def json_of(data):
    """Parses a JSON text."""
    try:
        value = json.loads(data.decode("utf-8"), parse_constant=no_constant, parse_float=finite,
                           parse_int=lambda text: -0.0 if text == "-0" else int(text))
        json.dumps(value, ensure_ascii=False).encode("utf-8")
    except (ValueError, RecursionError):
        raise Fault("not a JSON text") from None
    if nesting(value) > DEEPEST:
        raise Fault("not a JSON text")
    return value


def wanted(value, sort, word, path):
    """Returns the value if it has this type."""
    if not isinstance(value, sort) or isinstance(value, bool):
        raise Fault(f"{path}: wanted {word}")
    return value


def number(value, least, most, path):
    """Returns the value if it is a whole number in this range."""
    wanted(value, (int, float), "number", path)
    if isinstance(value, float) or not least <= value <= most:
        raise Fault(f"{path}: number out of range")
    return value


def elements(value, path):
    """Returns the elements of an array with their paths."""
    return [(f"{path}/{index}", element) for index, element in enumerate(wanted(value, list, "array", path))]


def pair(value, words, path):
    """Returns the two elements of an array of two."""
    if len(wanted(value, list, "array", path)) != 2:
        raise Fault(f"{path}: wanted {words}")
    return value


def frame_of(value, count, path):
    """Reads a frame: the index of one of `count` modules or -1, and an offset."""
    module, offset = pair(value, "index of a module and offset", path)
    if not -1 <= number(module, -2**63, 2**63 - 1, f"{path}/0") < count:
        raise Fault(f"{path}/0: wanted index of memoryMap, or -1")
    return module, number(offset, 0, 2**64 - 1, f"{path}/1")


def job_of(value, path):
    """Reads a job: its modules and its stacks."""
    job = wanted(value, dict, "object", path)
    modules, stacks = [], []
    for at, entry in elements(job.get("memoryMap"), f"{path}/memoryMap"):
        pair(entry, "name and debug id", at)
        modules.append([wanted(text, str, "text", where) for where, text in elements(entry, at)])
    for at, stack in elements(job.get("stacks"), f"{path}/stacks"):
        stacks.append([frame_of(frame, len(modules), where) for where, frame in elements(stack, at)])
    return modules, stacks


def jobs_of(data):
    """Reads the jobs of a request."""
    request = wanted(json_of(data), dict, "object", "")
    if "jobs" not in request and ("memoryMap" in request or "stacks" in request):
        return [job_of(request, "")]
    return [job_of(job, path) for path, job in elements(request.get("jobs"), "/jobs")]


def debug_id(text):
    """Reads a debug id in either form. Returns the digits of the GUID and the age, or None."""
    guid, slash, age = text.partition("/")
    if not slash:
        guid, age = text[:32], text[32:]
        if not re.fullmatch("[0-9a-fA-F]{32}", guid):
            return None
    if not UUID.fullmatch(guid) or not re.fullmatch("[0-9]+" if slash else "[0-9a-fA-F]+", age, re.ASCII):
        return None
    age = int(age, 10 if slash else 16)
    return (re.sub("urn:uuid:|[-{}]", "", guid.lower()), age) if age < 2**32 else None


class Store:
    """A folder with a PDB file under two debug ids, and the expected frames at its addresses."""

    def __init__(self, program, folder, pdb):
        self.program, self.folder, self.name = program, folder / "symbols", pdb.name
        self.known, self.usual, self.strace = {}, set(), shutil.which("strace")
        shutil.copy(pdb, self.outer(folder))
        shutil.copy(pdb, self.outer(self.folder))
        self.id = self.shown(self.folder / self.name)
        raw = uuid.UUID(self.id[:32]).bytes_le
        data = pdb.read_bytes()
        assert data.count(raw) == 1
        other = self.folder / self.name.replace(".", "_2.")
        other.write_bytes(data.replace(raw, bytes([raw[0] ^ 1]) + raw[1:]))
        self.other = self.shown(other)
        placed = self.folder / "stored.pdb" / self.other / "stored.pdb"
        placed.parent.mkdir(parents=True)
        shutil.move(other, placed)
        self.files = {(self.name.lower(), debug_id(self.id)), ("stored.pdb", debug_id(self.other))}
        self.usual = set(self.run("--symbolicate-lines", b"")[1])

    def has(self, name, text):
        """Returns whether there is a file with this name, in upper or lower case, and this debug id."""
        return (name.lower(), debug_id(text)) in self.files

    def outer(self, folder):
        """Makes a folder, and returns the path of the PDB file in it."""
        folder.mkdir(exist_ok=True)
        return folder / self.name

    def shown(self, file):
        """Returns the debug id of a file."""
        return self.printed("--show-id", file).split()[1]

    def printed(self, *words, text=None):
        """Returns the program's standard output."""
        return subprocess.run([self.program, *words], input=text, capture_output=True, text=True, check=True).stdout

    def learn(self, offsets):
        """Looks up addresses of the file that are not known yet."""
        offsets = sorted(offset for offset in offsets if offset not in self.known and offset < 2**32)
        if not offsets:
            return
        text = "".join(f"0x{offset:x}\n" for offset in offsets)
        printed = self.printed("--output-style=JSON", self.folder / self.name, text=text)
        for offset, line in zip(offsets, printed.splitlines(), strict=True):
            frames = json.loads(line)["Symbol"]
            self.known[offset] = [(frame["FunctionName"], frame["FileName"], frame["Line"]) for frame in frames]

    def run(self, word, data):
        """Runs the program over an input. Returns the run, and the files that it opened outside of the folder and that
        a run without requests doesn't open."""
        with tempfile.NamedTemporaryFile() as log:
            trace = [self.strace, "-f", "-e", "trace=open,openat,openat2,creat", "-o", log.name] if self.strace else []
            words = [*trace, self.program, word, "--pdb-dir", self.folder]
            run = subprocess.run(words, input=data, capture_output=True, timeout=120)
            paths = OPENED.findall(log.read().decode(errors="replace"))
        inside = f"{self.folder}/"
        return run, [path for path in paths if path not in self.usual and (not path.startswith(inside) or "/." in path)]


def is_right(store, found, module, offset, frame):
    """Returns whether a frame of an answer is the expected one at an offset."""
    answered = store.known.get(offset, [("", "", 0)]) if found else [("", "", 0)]
    places = [*frame.pop("inlines", []), frame]
    shown = [(place.get("function", ""), place.get("file", ""), place.get("line", 0)) for place in places]
    return shown == answered and frame["module"] == module and frame["module_offset"] == f"0x{offset:x}" \
        and ("function_offset" in frame) == ("function" in frame)


def answer_is_right(store, jobs, line):
    """Returns whether a line is the answer to a request."""
    results = json.loads(line)["results"]
    right = len(results) == len(jobs)
    for (modules, stacks), result in zip(jobs, results):
        named = {module for stack in stacks for module, _ in stack}
        findings = {}
        for index, (name, text) in enumerate(modules):
            found = store.has(name, text) if index in named else None
            before = findings.get(f"{name}/{text}")
            findings[f"{name}/{text}"] = found if before is None else before
        right = right and result["found_modules"] == findings
        right = right and [len(stack) for stack in stacks] == [len(frames) for frames in result["stacks"]]
        for stack, frames in zip(stacks, result["stacks"]):
            for place, ((module, offset), frame) in enumerate(zip(stack, frames)):
                name, text = modules[module] if module >= 0 else ("<unknown>", "")
                found = store.has(name, text)
                right = right and frame["frame"] == place and is_right(store, found, name, offset, frame)
    return right


def a_job(store, chance):
    """Returns a random well-formed job."""
    names = [store.name] * 6 + ["stored.pdb"] * 3 + [store.name.upper(), "Stored.PDB"] + [
        "", ".", "..", "../" + store.name, "./" + store.name, "x\\" + store.name, "C:" + store.name, store.name + "\0",
        "/etc/passwd", "no.pdb", 'q"\n\x7f\u00e9', "stored.pdb/" + store.other]
    ids = [store.id] * 6 + [store.other] * 4 + [
        store.id.lower(), store.other.lower(), "{" + str(uuid.UUID(store.id[:32])) + "}/1", "zz", "", "../1",
        store.id[:32] + "0001", store.id + "0"]
    modules = [[chance.choice(names), chance.choice(ids)] for _ in range(chance.choice([0, 1, 1, 2, 3, 6]))]
    offsets = [0, 1, 0x10, 2**32 - 1, 2**32, 2**64 - 1]
    stacks = [[[chance.randrange(-1, len(modules)), chance.choice([chance.randrange(0xff0, 0x12a0)] * 6 + offsets)]
               for _ in range(chance.choice([0, 1, 3, 9]))] for _ in range(chance.choice([0, 1, 2, 4]))]
    return {"memoryMap": modules, "stacks": stacks}


def a_value(chance):
    """Returns a random value."""
    return chance.choice([None, True, 0, -1, -2, 1.5, 2**63, 2**64, "", "jobs", [], {}, [[]], [0, 1], {"jobs": []},
                          [[[0, 4096]]], ["a.pdb", "b"]])


def changed(value, chance):
    """Changes a value at a random place: replaces, removes or adds an element."""
    if isinstance(value, (dict, list)) and value and chance.random() < 0.85:
        key = chance.choice(list(value) if isinstance(value, dict) else range(len(value)))
        deed = chance.random()
        if deed < 0.1:
            del value[key]
        elif deed < 0.2 and isinstance(value, list):
            value.insert(key, a_value(chance))
        elif deed < 0.25 and isinstance(value, dict):
            value[chance.choice(MEMBERS)] = a_value(chance)
        else:
            value[key] = changed(value[key], chance)
        return value
    return a_value(chance)


def a_request(store, chance):
    """Returns the bytes of a random request, on one line."""
    jobs = [a_job(store, chance) for _ in range(chance.choice([0, 1, 1, 2, 3]))]
    value = a_job(store, chance) if chance.random() < 0.3 else {"jobs": jobs}
    kind = chance.random()
    if kind > 0.45:
        for _ in range(chance.choice([1, 1, 2])):
            value = changed(value, chance)
    data = bytearray(json.dumps(value, ensure_ascii=chance.random() < 0.5).encode("utf-8", "replace"))
    if kind > 0.8:
        for _ in range(chance.choice([1, 1, 3])):
            at = chance.randrange(len(data) + 1)
            data[at:at + chance.choice([0, 1, 1, 4])] = bytes(chance.choices(BYTES, k=chance.choice([0, 1, 1, 2])))
    return bytes(data).replace(b"\n", b" ")


def right_line(store, data, line):
    """Returns whether a line answers a text, and whether the text is a request."""
    try:
        jobs = jobs_of(data)
    except Fault as fault:
        return json.loads(line) == {"error": str(fault)}, False
    store.learn({offset for _, stacks in jobs for stack in stacks for _, offset in stack})
    return answer_is_right(store, jobs, line), True


def batch_faults(store, requests):
    """Returns what is wrong with the runs over these texts, and how many of the texts are requests."""
    run, outside = store.run("--symbolicate-lines", b"".join(data + b"\n" for data in requests))
    lines = run.stdout.split(b"\n")[:-1]
    faults = [f"opened {path}" for path in outside]
    if len(lines) != len(requests):
        return [*faults, f"{len(lines)} answers to {len(requests)} lines, status {run.returncode}"], 0
    looked = [right_line(store, data, line) for data, line in zip(requests, lines)]
    for data, line, (right, _) in zip(requests, lines, looked):
        faults += [] if right else [f"{data[:300]!r}: {line[:300]!r}"]
    good = sum(is_request for _, is_request in looked)
    if run.returncode != (0 if good == len(requests) else 2):
        faults.append(f"status {run.returncode} of {len(requests)} lines, {good} of them requests")
    single, outside = store.run("--symbolicate", requests[0])
    faults += [f"opened {path}" for path in outside]
    if single.stdout != lines[0] + b"\n" or single.returncode != (0 if looked[0][1] else 2):
        faults.append(f"alone: {requests[0][:300]!r}: {single.stdout[:300]!r}, status {single.returncode}")
    return faults, good


def main(program, count, seed="1", pdb=DATA / "shapes.pdb"):
    chance, faults, good, runs = random.Random(int(seed)), [], 0, 0
    with tempfile.TemporaryDirectory() as folder:
        store = Store(str(pathlib.Path(program).resolve()), pathlib.Path(folder).resolve(), pathlib.Path(pdb))
        while runs < int(count):
            requests = [a_request(store, chance) for _ in range(min(BATCH, int(count) - runs))]
            found, requests_here = batch_faults(store, requests)
            faults, good, runs = faults + found, good + requests_here, runs + len(requests)
    print("".join(f"{fault}\n" for fault in faults[:SHOWN]), end="")
    print(f"{runs} requests, {good} of them well-formed, {len(store.known)} addresses, "
          f"{'files traced' if store.strace else 'no strace'}: {len(faults)} wrong")
    return 1 if faults else 0


if __name__ == "__main__":
    if len(sys.argv) < 3:
        sys.exit(__doc__)
    sys.exit(main(*sys.argv[1:]))
