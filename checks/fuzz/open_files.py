#!/usr/bin/env python3
"""Changes PDB files between the requests of one run of the built pdb_symbolizer, and reports every answer that is
wrong.

Usage: open_files.py PROGRAM COUNT [SEED]

The files are those of crates/pdb_symbolizer_tests/data that share one debug id. They are put under one name at random
places of two folders: directly, in a symbol store with one or two tiers, and under names in another case. Before each
request up to two of them are added, overwritten, renamed or removed. `--symbolicate-lines` answers all requests of a
run, with a limit of memory (`--cache-size`) that keeps all files, some of them, or none. Each answer must be that of
`--symbolicate` in a new process.

The same is done with lines that each name a file and an address. Lines of another file come between these, because a
file isn't looked up again while consecutive lines name it.
"""
import contextlib
import json
import os
import pathlib
import random
import shutil
import subprocess
import sys
import tempfile
import time

DATA = pathlib.Path(__file__).resolve().parents[2] / "crates" / "pdb_symbolizer_tests" / "data"
ID, NAME = "030201000504070608090A0B0C0D0E0F1", "app.pdb"
SOURCES = ["arm64", "broken_parts", "frame_data", "high", "inline_faults", "overlapping_sections", "parts_of_other_modules"]
PLACES = [name for id_shown in (ID, ID.lower()) for name in (
    NAME, "App.PDB", "APP.pdb", f"{NAME}/{id_shown}/{NAME}", f"App.PDB/{id_shown}/app.PDB", f"ap/{NAME}/{id_shown}/{NAME}",
    f"AP/App.pdb/{id_shown}/{NAME}")]
FOLDERS, RUN, SHOWN = ["first", "second"], 30, 10
ADDRESSES = [0x1000, 0x1020, 0x1050, 0x1100, 0x1104, 0x1120, 0x1200, 0x1204, 0x1300, 0x1304, 0x1400]


def change(root, chance):
    """Makes a random change to a random file. Raises OSError if it can't, for example because a folder has the file's
    name."""
    # File times of the system have steps of a few milliseconds.
    time.sleep(0.02)
    place = root / chance.choice(FOLDERS) / chance.choice(PLACES)
    source = DATA / f"{chance.choice(SOURCES)}.pdb"
    deed = chance.random()
    if deed < 0.3:
        place.unlink(missing_ok=True)
    elif deed < 0.4:
        index = root / chance.choice(FOLDERS) / "index2.txt"
        index.unlink() if index.exists() else index.touch()
    elif deed < 0.5 and place.exists():
        place.rename(place.with_name("app.pdb"))
    elif deed < 0.7 and place.exists():
        place.write_bytes(source.read_bytes())
    else:
        place.parent.mkdir(parents=True, exist_ok=True)
        new = root / "new"
        shutil.copy(source, new)
        if chance.random() < 0.3:
            os.utime(new, (1, 1))
        new.rename(place)


def request(chance):
    """Returns a request for the file at some addresses."""
    name = chance.choice([NAME, NAME, "APP.PDB", "aPp.pdb"])
    stack = [[0, address] for address in chance.sample(ADDRESSES, chance.choice([1, 2, 5]))]
    return json.dumps({"memoryMap": [[name, ID]], "stacks": [stack]}) + "\n"


def named(root, chance):
    """Returns a line with a file and an address."""
    return f"{root / chance.choice(FOLDERS) / chance.choice(PLACES)} 0x{chance.choice(ADDRESSES):x}\n"


def answer_of(process, in_one_line):
    """Reads the next answer of a run: one line, or all lines up to an empty one."""
    text = process.stdout.readline()
    while not in_one_line and text and not text.endswith("\n\n"):
        line = process.stdout.readline()
        if not line:
            break
        text += line
    return text


def run_faults(program, root, chance, kind):
    """Returns a message for each wrong answer of one run."""
    folders = [word for folder in FOLDERS for word in ("--pdb-dir", root / folder)]
    size = chance.choice([[], ["--cache-size=0"], ["--cache-size=20000"], ["--cache-size", "60000"]])
    words = [program, *folders] + (["-p"] if kind == "named" else [])
    asked = [*words, *size] + ([] if kind == "named" else ["--symbolicate-lines"])
    alone = words if kind == "named" else [*words, "--symbolicate"]
    faults = []
    with subprocess.Popen(asked, stdin=subprocess.PIPE, stdout=subprocess.PIPE, stderr=subprocess.DEVNULL, text=True) as run:
        for _ in range(RUN):
            if kind == "named":
                run.stdin.write(f"{DATA / 'high.pdb'} 0x1050\n")
                run.stdin.flush()
                answer_of(run, False)
            for _ in range(chance.choice([0, 0, 1, 1, 2])):
                with contextlib.suppress(OSError):
                    change(root, chance)
            text = named(root, chance) if kind == "named" else request(chance)
            run.stdin.write(text)
            run.stdin.flush()
            found = answer_of(run, kind != "named")
            wanted = subprocess.run(alone, input=text, capture_output=True, text=True, timeout=120).stdout
            if found != wanted:
                faults.append(f"{text.strip()}: {found!r}, not {wanted!r}")
    return faults


def main(program, count, seed="1"):
    chance, faults, done = random.Random(int(seed)), [], 0
    program = str(pathlib.Path(program).resolve())
    while done < int(count):
        with tempfile.TemporaryDirectory() as folder:
            root = pathlib.Path(folder).resolve()
            for name in FOLDERS:
                (root / name).mkdir()
            for _ in range(8):
                with contextlib.suppress(OSError):
                    change(root, chance)
            faults += run_faults(program, root, chance, chance.choice(["requests", "requests", "named"]))
        done += RUN
    print("".join(f"{fault}\n" for fault in faults[:SHOWN]), end="")
    print(f"{done} requests: {len(faults)} wrong")
    return 1 if faults else 0


if __name__ == "__main__":
    if len(sys.argv) < 3:
        sys.exit(__doc__)
    sys.exit(main(*sys.argv[1:]))
