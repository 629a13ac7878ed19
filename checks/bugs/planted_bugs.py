#!/usr/bin/env python3
"""Plants bugs in code that no clause covers, in the readers of PDB files and in `pdb_symbolizer`, and shows which of
them change a stored output.

Usage: planted_bugs.py [JOBS [NAME ..]]     in the repository; needs `rt`, and about a minute of CPU time for each bug

`planted_bugs.txt` lists the bugs. Each has the lines `bug NAME`, `file PATH`, `old TEXT` and `new TEXT`. The old text
must be in the file exactly once. Each bug is planted in a copy of the crates. Then `rt try`, which proves nothing, runs
`pdb_container_tests` over its files, or `pdb_symbolizer_tests` for a bug of that program. A bug is caught if the
standard output differs from the stored one. A bug that isn't caught must have its reason in a line `why TEXT`.

The script fails if a bug without a reason isn't caught, if a bug with a reason is caught, or if a bug can't be planted.
"""
import concurrent.futures
import pathlib
import shutil
import subprocess
import sys
import tempfile

HERE = pathlib.Path(__file__).resolve().parent
ROOT = HERE.parents[1]
# The tests to run for a bug, by the name of its crate or file. All other bugs belong to the readers.
SYMBOLIZER = "pdb_symbolizer_tests"
RUNS = {name: SYMBOLIZER for name in (
    "pdb_symbolizer_lib", "pdb_symbolizer_input", "pdb_answer_printer", "pdb_symbolication", "pdb_session",
    "pdb_identity", "identity.rt", "block_reads.rt", "stream_subset.rt", "msf_layout.rt", "type_places.rt")}
READERS = "pdb_container_tests"


def bugs():
    """Reads the list of bugs. Each bug is a dict of its lines, by their first word."""
    found = []
    for line in (HERE / "planted_bugs.txt").read_text(encoding="utf-8").splitlines():
        word, _, rest = line.partition(" ")
        if word == "bug":
            found.append({"bug": rest})
        elif word in ("file", "old", "new", "why"):
            found[-1][word] = rest
    return found


def outcome(bug):
    """Plants a bug, and returns whether it is caught, or why it can't be planted."""
    with tempfile.TemporaryDirectory(prefix="planted-bug-") as room:
        shutil.copytree(ROOT / "crates", f"{room}/crates", ignore=shutil.ignore_patterns("out", "proofs"))
        for name in ("crates.txt", "HANDLES"):
            shutil.copy(ROOT / name, room)
        file = pathlib.Path(room) / bug["file"]
        text = file.read_text(encoding="utf-8")
        if text.count(bug["old"]) != 1:
            return f"can't be planted: its text stands {text.count(bug['old'])} times in the file"
        file.write_text(text.replace(bug["old"], bug["new"]), encoding="utf-8")
        folder = pathlib.Path(room) / "crates" / RUNS.get(file.name, RUNS.get(file.parts[-3], READERS))
        words = (folder / "args").read_text().split() if (folder / "args").exists() else []
        files = [path.relative_to(folder / "data") for path in (folder / "data").rglob("*") if path.is_file()]
        data = [word for path in files for word in ("--data", f"{path}=data/{path}")]
        run = subprocess.run(["rt", "try", *data, "--", *words], cwd=folder, capture_output=True)
        if b"checked: " not in run.stderr:
            return "can't be planted: " + run.stderr.decode(errors="replace").strip()[-300:]
        return "not caught" if run.stdout == (folder / "stdout").read_bytes() else "caught"


def main(words):
    jobs, names = int(words[0]) if words else 2, words[1:]
    tried = [bug for bug in bugs() if not names or bug["bug"] in names]
    counts, wrong = {}, 0
    with concurrent.futures.ThreadPoolExecutor(jobs) as pool:
        for bug, end in zip(tried, pool.map(outcome, tried)):
            kind = end.partition(":")[0]
            counts[kind] = counts.get(kind, 0) + 1
            wrong += end != ("not caught" if "why" in bug else "caught")
            print(f"{bug['bug']}: {end}{': ' + bug['why'] if 'why' in bug else ''}", flush=True)
    print(", ".join(f"{number} {kind}" for kind, number in sorted(counts.items())))
    return wrong > 0


if __name__ == "__main__":
    sys.exit(main(sys.argv[1:]))
