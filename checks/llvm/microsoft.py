#!/usr/bin/env python3
"""Runs the built pdb_symbolizer over the programs of LLVM's tests of llvm-symbolizer, and compares the output with
microsoft_cases.txt in this folder.

Usage: microsoft.py PROGRAM FOLDER

FOLDER has test.exe, test-columns.exe and missing_pdb.exe of llvm/test/tools/llvm-symbolizer/pdb/Inputs in LLVM's
sources, with the PDB files of the first two. The script prints each case whose output differs.
"""
import pathlib
import subprocess
import sys

CASES = pathlib.Path(__file__).resolve().with_name("microsoft_cases.txt")


def cases():
    """Yields the arguments, the standard input and the expected output of each case."""
    for case in CASES.read_text(encoding="utf-8").split("\n$ ")[1:]:
        line, _, wanted = case.partition("\n")
        words, _, text = line.partition(" < ")
        yield words.split()[1:], text.replace("|", "\n"), wanted.rstrip("\n")


def printed(program, folder, words, text):
    """Returns the output of a run, with its status."""
    run = subprocess.run([program, *words], input=text, capture_output=True, text=True, cwd=folder)
    errors = [f"standard error: {line}" for line in run.stderr.splitlines()]
    return "\n".join([*errors, *run.stdout.splitlines(), f"status {run.returncode}"])


def main(program, folder):
    program, count, wrong = str(pathlib.Path(program).resolve()), 0, 0
    for words, text, wanted in cases():
        found = printed(program, folder, words, text)
        count += 1
        if found != wanted:
            wrong += 1
            print(f"$ {' '.join(words)}\n{found}")
    print(f"{count} cases, {wrong} otherwise than wanted")
    return wrong > 0


if __name__ == "__main__":
    if len(sys.argv) != 3:
        sys.exit(__doc__)
    sys.exit(main(*sys.argv[1:]))
