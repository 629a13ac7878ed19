#!/usr/bin/env python3
"""Compares the answers of the built pdb_symbolizer over PDB files with its answers over all their records. From a PDB
file it reads only what the addresses need.

Usage: modules.py PROGRAM COUNT [SEED] [PDB..]

The files are the PDB files, by default those in the crates' `data`, and COUNT copies with changes as pdb_files.py makes
them. `--export` writes all records of each as a records file, which is read whole. The check looks up 40 addresses,
some in functions of the records and some elsewhere, once as arguments and once as lines of standard input.

  - Answers and statuses must be the same byte for byte.
  - Each line on standard error for the PDB file must also be there for the records file, except one about
    /DEBUG:FASTLINK. Lines about modules that no address needs may be missing.
  - `--dump-syms` reads a whole PDB file too. If it refuses the file, both runs over the file must refuse it with the
    same line.
"""
import collections
import json
import pathlib
import random
import subprocess
import sys
import tempfile

from pdb_files import mutated

CRATES = pathlib.Path(__file__).resolve().parents[2] / "crates"
COUNT = 40
# The end of a message of `--dump-syms`. A file without a debug id has answers, but no symbol file.
NO_ID = b": no id\n"


def run(*words, text=None):
    """Returns a run's status, standard output and standard error."""
    ended = subprocess.run(words, input=text, capture_output=True, timeout=60)
    return ended.returncode, ended.stdout, ended.stderr


def items(reading):
    """Returns the items of a list in a records file. A list is an array, or an object with `items` and a fault."""
    found = reading.get("items", []) if isinstance(reading, dict) else reading
    return found or []


def functions(records):
    """Yields the section, offset and length of each function in the records."""
    infos = [info for info in records["module_infos"] if info and "error" not in info]
    lists = [records["global_symbols"]] + [info["symbols"] for info in infos]
    for symbols in lists:
        for symbol in items(symbols):
            data = symbol.get("data") or {}
            if data.get("kind") in ("Public", "Procedure", "SeparatedCode", "Thunk"):
                yield data["section"], data["offset"], data.get("len", 16)


def addresses_of(records, chance):
    """Draws addresses in functions, at their ends, and anywhere."""
    places = records["address_map"] if isinstance(records["address_map"], list) else []
    found = [*functions(records)]
    drawn = [chance.choice([chance.randrange(2**32), chance.randrange(0x4000)]) for _ in range(4)]
    for section, offset, length in chance.choices(found, k=COUNT - 4) if found else []:
        if 0 < section <= len(places):
            start = places[section - 1]["virtual_address"] + offset
            drawn.append((start + chance.choice([0, 0, chance.randrange(length + 1), -1])) % 2**32)
    return [f"{address:x}" for address in drawn]


def told(lines, path):
    """Counts the lines of standard error, with the file's name replaced."""
    return collections.Counter(lines.replace(str(path).encode(), b"FILE").splitlines())


def difference(program, folder, pdb, chance):
    """Returns a text about the first difference over a file, or None, and whether the file was refused or answered."""
    path, records = folder / "file.pdb", folder / "file.json"
    path.write_bytes(pdb)
    status, _, refusal = run(program, "--dump-syms", str(path))
    if status and not refusal.endswith(NO_ID):
        parts = [run(program, str(path), "1000"), run(program, str(path), text=b"1000\n")]
        wrong = any((status, b"", refusal) != part for part in parts)
        return ("the refusal differs" if wrong else None), "refused"
    run(program, "--export", str(records), str(path))
    drawn = addresses_of(json.loads(records.read_bytes()), chance)
    text = "".join(f"{address}\n" for address in drawn).encode()
    for words, lines in [(drawn, None), ([], text)]:
        whole = run(program, str(records), *words, text=lines)
        part = run(program, str(path), *words, text=lines)
        names = {b"pdb_symbolizer: FILE: made with /DEBUG:FASTLINK: names but no lines": 1}
        more = told(part[2], path) - told(whole[2], records) - collections.Counter(names)
        if whole[:2] != part[:2] or more:
            return f"by {'words' if words else 'lines'}: {' '.join(drawn)}", "answered"
    return None, "answered"


def main():
    program, count = sys.argv[1], int(sys.argv[2])
    chance = random.Random(int(sys.argv[3]) if len(sys.argv) > 3 else 1)
    files = [pathlib.Path(path) for path in sys.argv[4:]] or [
        path for path in sorted(CRATES.glob("*/data/**/*.pdb")) if path.is_file()]
    pdbs = [path.read_bytes() for path in files]
    outcomes, differing = collections.Counter(), 0
    with tempfile.TemporaryDirectory() as folder:
        for number in range(len(pdbs) + count):
            pdb = pdbs[number] if number < len(pdbs) else mutated(chance.choice(pdbs), chance)
            wrong, outcome = difference(program, pathlib.Path(folder), pdb, chance)
            outcomes[outcome] += 1
            if wrong:
                differing += 1
                kept = pathlib.Path(tempfile.gettempdir()) / f"differs-{number}.pdb"
                kept.write_bytes(pdb)
                print(f"{kept}: {wrong}")
    print(f"{len(pdbs)} files and {count} copies, {dict(sorted(outcomes.items()))}: {differing} differ")
    sys.exit(1 if differing else 0)


if __name__ == "__main__":
    if len(sys.argv) == 1:
        sys.exit(__doc__)
    main()
