#!/usr/bin/env python3
"""Shows that frames can't outlive the records. The compiler refuses a program that drops the records before the frames
that were found in them. It accepts the same program if the records are kept.

usage: dropped_records.py

The script prints the compiler's errors. Its exit status is 0 if the compiler did both. Nothing is proved.
"""

import pathlib
import shutil
import subprocess
import sys
import tempfile

ROOT = pathlib.Path(__file__).resolve().parents[2]
NAME = "dropped_records"
LIBRARIES = "anyhow pdb_addr2line pdb_json"
ADDRESS = "0x1020"
RECORDS = "records.json"

PROGRAM = """#![tactic(auto)]

use pdb_addr2line::ContextPdbData;
use pdb_json::read_records;
use std::fs;

fn main(rt: HostRuntime) -> anyhow::Result<()> {
    let text = fs::read(&rt, "@records")?;
@open    let data = ContextPdbData::try_from_pdb(rt.alloc(), read_records(rt.alloc(), &text)?)?;
    let mut context = data.make_context()?;
    let frames = context.find_frames(@address)?;
@close    println!(rt; "{0}", frames.is_some())?;
    Ok(())
}
"""


def program(open_block="", close_block=""):
    """Returns the program's text, with code inserted before the records are read and after the frames are found."""
    texts = {"@records": RECORDS, "@address": ADDRESS, "@open": open_block, "@close": close_block}
    text = PROGRAM
    for mark, there in texts.items():
        text = text.replace(mark, there)
    return text


KEPT = program()
DROPPED = program("    let frames = {\n", "    frames\n    };\n")


def tried(crate, source):
    """Runs the program without proving it. Returns its exit status and its output."""
    (crate / "src" / "main.rt").write_text(source)
    records = ROOT / "crates" / "pdb_report" / "data" / "a.json"
    ran = subprocess.run(
        ["rt", "try", "--data", f"{RECORDS}={records}"], cwd=crate, capture_output=True, text=True
    )
    return ran.returncode, ran.stdout + ran.stderr


def main():
    with tempfile.TemporaryDirectory() as folder:
        copy = pathlib.Path(folder) / "copy"
        shutil.copytree(ROOT, copy, ignore=shutil.ignore_patterns("out", ".git"))
        with open(copy / "crates.txt", "a") as crates:
            crates.write(f"{NAME}: {LIBRARIES}\n")
        crate = copy / "crates" / NAME
        (crate / "src").mkdir(parents=True)
        kept, said_of_kept = tried(crate, KEPT)
        dropped, said = tried(crate, DROPPED)
    if kept != 0:
        sys.exit(f"the program with the records kept was refused:\n{said_of_kept}")
    errors = [line for line in said.splitlines() if "error" in line]
    print("\n".join(errors[:3]))
    refused = dropped != 0 and any("borrow" in line or "live" in line for line in errors)
    sys.exit(0 if refused else "not refused for the borrow")


if __name__ == "__main__":
    main()
