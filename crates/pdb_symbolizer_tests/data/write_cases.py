#!/usr/bin/env python3
"""Writes cases.txt, and the expected output of its cases to ../stdout.

Usage: write_cases.py FOLDER     FOLDER has shapes.exe with its PDB file, as crates/pdb_symbolizer/data/program/build.sh
                                 builds them

If `llvm-symbolizer` has an answer to the same arguments, that is the expected one. All else is written here by hand,
from docs/CONTAINER.md: the differences in its tables, what LLVM's program doesn't have, and broken files.

clang writes the name of its folder into a PDB file, and the GUID depends on it. So shapes.exe in this folder is the
program with the GUID of shapes.pdb in this folder. other.exe is the program as it was built, and its PDB file is under
`symbols`.

The script also writes these files:

  - high.pdb: broken_parts.pdb with its section at the end of the address space, and its public symbol in the last
    function
  - device.exe and folder.exe: other.exe with a device and a folder as the path of its PDB file
  - device.json: names.json with a device as a module file
  - the folders tiers, untold, cased and packed: symbol stores, whose files request_cases.py writes
  - files of the modules that it imports: inline_faults.py, unread_parts.py, overlapping_sections.py, source_urls.py
    (sources.pdb, broken_links.pdb), further_kinds.py, frame_data.py and arm64_program.py (arm64.exe, arm64.pdb)

parts_of_other_modules.pdb is that of pdb_container_tests.
"""
import itertools
import json
import os
import pathlib
import struct
import subprocess
import sys

from arm64_program import arm64_cases
from frame_data import frame_data_cases
from further_kinds import further_kind_cases
from inline_faults import inline_fault_cases
from overlapping_sections import overlapping_section_cases
from request_cases import request_cases
from source_urls import source_url_cases
from stack_records import stack_records
from stacks import procedure_at, stacks, with_arguments
from symbol_file_texts import symbol_file
from unread_parts import unread_part_cases

HERE = pathlib.Path(__file__).resolve().parent
# Addresses with two nested inlined calls, at a function's start, inside a function, and in a function of another file.
ADDRESSES = ["0x1136", "0x1000", "0x10b0", "0x119f"]
STYLES = ["LLVM", "GNU", "JSON"]
OPTIONS = ["-a", "-p", "--no-inlines", "--inlines"]


def sets_of_options():
    """Yields all sets of the options, in each of the three styles."""
    for style, count in itertools.product(STYLES, range(len(OPTIONS))):
        for options in itertools.combinations(OPTIONS, count):
            if not {"--no-inlines", "--inlines"} <= set(options):
                yield [f"--output-style={style}", *options]


LLVM = "llvm-symbolizer-22"
# Lines that llvm-symbolizer reads as an address or a symbol, and lines that it reads as neither.
LINES = ["0x1136", "4406", "0X1136", "0o10466", "010466", "0b1000100110110", "CODE 0x1136", "DATA 0x1136", "FRAME 0x1136",
         "0x1136 tail", "zz", "", "CODE zz", "DATA zz", "FRAME zz", "-5", "+4406", "entry+0x4", "foo bar", "CODE", "DATA", "FRAME"]
NUMBERS = ["0x", "08", "1000000000000000000000", "0x1136+3"]


def of_llvm(folder, words, lines=None, status=0, variable=None):
    """Returns what llvm-symbolizer prints for these arguments, this standard input and this environment variable."""
    text = None if lines is None else "".join(f"{line}\n" for line in lines)
    environment = {**os.environ, **({} if variable is None else {"LLVM_SYMBOLIZER_OPTS": variable})}
    printed = subprocess.run([LLVM, *words], input=text, capture_output=True, text=True, cwd=folder, env=environment)
    return printed.stdout + f"status {status}\n"


def case(words, lines=None, variable=None):
    """Returns the line of a case."""
    text = "" if lines is None else " < " + "|".join(lines)
    return ("" if variable is None else f'LLVM_SYMBOLIZER_OPTS="{variable}" ') + " ".join(["pdb_symbolizer", *words]) + text


def llvm_cases(folder):
    """Yields cases whose expected output is LLVM's."""
    for options in sets_of_options():
        # LLVM lays out JSON with `-p` differently, with the same content
        if "--output-style=JSON" in options and "-p" in options:
            continue
        words = ["--obj=shapes.exe", "--relative-address", "--functions=short", *options]
        yield " ".join(["pdb_symbolizer", *words, *ADDRESSES]), of_llvm(folder, [*words, *ADDRESSES])
        yield " ".join(["pdb_symbolizer", *words]) + " < " + "|".join(ADDRESSES), of_llvm(folder, words, ADDRESSES)
    for style in ("LLVM", "GNU"):
        for options in (["--functions=none"], ["--functions=short", "--verbose"], ["--functions=short", "--verbose", "-p", "-a"],
                        ["--functions=short", "-C"], ["--functions=short", "--no-demangle"]):
            words = ["--obj=shapes.exe", "--relative-address", f"--output-style={style}", *options, *ADDRESSES]
            yield " ".join(["pdb_symbolizer", *words]), of_llvm(folder, words)
    for style, shown in itertools.product(STYLES, ([], ["-a", "-p"])):
        words = ["--relative-address", "--functions=short", f"--output-style={style}", *shown, "-e", "shapes.exe"]
        if "-p" not in shown or style != "JSON":
            # if nothing has an address, LLVM prints the address of the request before
            lines = [line for line in LINES if not shown or line not in ("DATA zz", "FRAME zz")]
            yield case(words, lines), of_llvm(folder, words, lines)
            wrong = "".join(error(f"{line}: no number") + of_llvm(folder, words, [line]).replace(ENDED, "") for line in NUMBERS)
            yield case(words, NUMBERS), wrong + ENDED
            yield case([*words, "DATA", "zz"]), of_llvm(folder, [*words, "DATA", "zz"])
    for option in ("--inlining", "--inlining=true", "--inlining=false"):
        words = ["--obj=shapes.exe", "--relative-address", "--functions=short", option, *ADDRESSES]
        yield " ".join(["pdb_symbolizer", *words]), of_llvm(folder, words)
    high = ["0x140001136", "5368713526"]
    for options in (["--obj", "shapes.exe"], ["--exe=shapes.exe"], ["-e", "shapes.exe", "--default-arch=x86_64"],
                    ["--obj=shapes.exe", "--cache-size=100", "--dwp=none.dwp", "--debug-file-directory=."]):
        words = ["--functions=short", *options, *high]
        yield case(words), of_llvm(folder, words)
    for offset in ("4096", "0x1000", "0X1000", "0b1000000000000", "0o10000", "010000"):
        words = ["--functions=short", "--obj=shapes.exe", "--adjust-vma", offset, "0x140002136"]
        yield case(words), of_llvm(folder, words)
    yield from repeated_cases(folder)
    yield from source_cases(folder)
    yield from decorated_cases(folder)


def repeated_cases(folder):
    """Yields cases of options that are given more than once, and of options in the environment."""
    front = ["--relative-address", "--obj=shapes.exe"]
    for options in (["-p", "-p"], ["-a", "--addresses", "-a"], ["-s", "--basenames"], ["--verbose", "--verbose"], ["-C", "-C"],
                    ["--no-inlines", "--inlines"], ["--inlines", "--no-inlines"], ["--inlining=false", "--inlining"],
                    ["--no-inlines", "--inlining=true"], ["--inlining=true", "--no-inlines"], ["--obj=nowhere.exe", "-e", "shapes.exe"],
                    ["--functions=none", "--functions=short"], ["--output-style=JSON", "--output-style=GNU"],
                    ["--adjust-vma=1", "--adjust-vma=0"], ["--relative-address"], ["--print-source-context-lines=3", "--print-source-context-lines=0"]):
        # with `-s`, LLVM on Linux keeps the folders of Windows paths, so the address is one without a file
        words = ["--functions=none", *front, *options, "0x10"] if "-s" in options else ["--functions=short", *front, *options, "0x1136"]
        yield case(words), of_llvm(folder, words)
    for variable, words in (("-p --functions=short '--obj=shapes.exe'", ["--relative-address", "0x1136"]),
                            ("-p --functions=none", ["--functions=short", *front, "0x1136"]), ("", ["--functions=short", *front, "0x1136"])):
        yield case(words, None, variable), of_llvm(folder, words, None, 0, variable)


def source_cases(folder):
    """Yields cases of lines of source files. One file has line ends of Windows and none after its last line. The other
    file is too short."""
    lines = {"shapes.h": "\r\n".join(f"line {number} of \"shapes.h\"" for number in range(1, 12)),
             "main.cpp": "".join(f"\tline {number}\n" if number % 3 else "\n" for number in range(1, 37))}
    for place in (pathlib.Path(folder), HERE):
        (place / "shapes.cpp").unlink(missing_ok=True)
        for name, text in lines.items():
            (place / name).write_text(text, encoding="utf-8", newline="")
        for name, old, new in (("exe", b"shapes.pdb", b"source.pdb"), ("pdb", b"C:\\shapes\\", b"./././././")):
            (place / f"source.{name}").write_bytes((place / f"shapes.{name}").read_bytes().replace(old, new))
    for style, count in itertools.product(STYLES, ("1", "2", "3", "5", "21", "100", "0x10")):
        words = ["--functions=short", "--relative-address", "--obj=source.exe", f"--output-style={style}",
                 f"--print-source-context-lines={count}", *ADDRESSES]
        yield case(words), of_llvm(folder, words)
    for options in (["-p"], ["--verbose"], ["--no-inlines", "-a"]):
        words = ["--functions=short", "--relative-address", "--obj=source.exe", "--print-source-context-lines=4", *options, *ADDRESSES]
        yield case(words), of_llvm(folder, words)
    yield "pdb_symbolizer -p --print-source-context-lines=3 names.json 1010", "typed at C:\\b/c.h:7:0\n\n" + ENDED
    yield "pdb_symbolizer --print-source-context-lines=-1 shapes.pdb 1136", error("--print-source-context-lines can't be -1") + "status 2\n"


def decorated_cases(folder):
    """Yields cases of functions with the names of their public symbols."""
    for style, options in (*itertools.product(STYLES, (["--functions=short"],)), ("LLVM", ["--no-inlines"]), ("JSON", ["--no-inlines"]),
                           ("LLVM", ["--functions=none"]), ("GNU", ["--functions=none"])):
        words = ["--no-demangle", *options, "--relative-address", "--obj=shapes.exe", f"--output-style={style}", *ADDRESSES]
        yield case(words), of_llvm(folder, words)
    # here, names of inlined functions have their arguments
    yield "pdb_symbolizer -p --no-demangle shapes.pdb 0x1136", STACK.replace("Framed::draw(int)", "?draw@Framed@@UEAAHH@Z")
    yield "pdb_symbolizer -p --no-demangle -C shapes.pdb 0x1136", STACK
    yield "pdb_symbolizer -p --no-demangle names.json 1010", "typed at C:\\b/c.h:7:0\n\n" + ENDED


INNER = r"shapes::Point::length() const at C:\shapes\shapes.h:10:0"
MIDDLE = r" (inlined by) Picture::draw(int) at C:\shapes\main.cpp:29:0"
OUTER = r" (inlined by) Framed::draw(int) at C:\shapes\main.cpp:36:0"
STACK = "\n".join([INNER, MIDDLE, OUTER, "", "status 0", ""])
NO_NAME = "??\n??:0:0\n\n"
# The system's messages for a file that doesn't exist, and for a folder.
MISSING, FOLDER = "No such file or directory (os error 2)", "Is a directory (os error 21)"
ENDED = "status 0\n"


def json_frame(name, file, line):
    """Returns a frame in JSON."""
    return (f'{{"Column":0,"Discriminator":0,"FileName":"{file}","FunctionName":"{name}","Line":{line},'
            '"StartAddress":"","StartFileName":"","StartLine":0}')


def json_answer(address, file, frames):
    """Returns the answer for an address in JSON."""
    return f'{{"Address":"{address}","ModuleName":"{file}","Symbol":[{",".join(frames)}]}}'


def error(text):
    """Returns a line on standard error."""
    return f"standard error: pdb_symbolizer: {text}\n"


def replaced(name, *pairs):
    """Returns the bytes of a file in this folder. Of each pair, the first, which must occur once, is replaced by the
    second."""
    data = (HERE / name).read_bytes()
    for old, new in pairs:
        assert data.count(old) == 1
        data = data.replace(old, new)
    return data


def name_cases():
    """Yields cases of names with signatures, which LLVM takes from decorated names, and of file names without
    folders."""
    for words in ("", "-f ", "--functions ", "--functions=signature ", "--functions=linkage ", "-i ", "--relative-address "):
        yield f"pdb_symbolizer -p {words}shapes.pdb 0x1136", STACK
    yield "pdb_symbolizer -p -s shapes.pdb 0x1136", STACK.replace("C:\\shapes\\", "")
    yield "pdb_symbolizer --basenames -p names.json 1010", 'typed at c.h:7:0\n\n' + ENDED
    frames = [json_frame("", r"C:\\shapes\\shapes.h", 10), json_frame("", r"C:\\shapes\\main.cpp", 29),
              json_frame("", r"C:\\shapes\\main.cpp", 36)]
    yield "pdb_symbolizer --output-style=JSON --functions=none shapes.pdb 0x1136", \
        f"[{json_answer('0x1136', 'shapes.pdb', frames)}]\n" + ENDED


def address_cases():
    """Yields cases of addresses with a base and an offset, of addresses in no function, and of texts that are not
    addresses."""
    for words, address in (("--base 0x140000000", "0x140001136"), ("--base 140000000", "140001136"), ("--adjust 1", "1137"),
                           ("--adjust-vma 1", "1137"), ("--adjust 0x100 --adjust-vma 48", "0x1266"),
                           ("--base 400000 --adjust 1", "0x401137"), ("--base 0xffffffffffff0000", "0xffffffffffff1136")):
        yield f"pdb_symbolizer -p {words} shapes.pdb {address}", STACK
    yield "pdb_symbolizer -a --base 0x140000000 shapes.pdb 0x140000010", "0x140000010\n" + NO_NAME + ENDED
    yield "pdb_symbolizer --base 0x140000000 shapes.pdb 0x1136 0x240001136", 2 * NO_NAME + ENDED
    yield "pdb_symbolizer shapes.pdb 0x10 ffffffff 0xffffffffffffffff", 3 * NO_NAME + ENDED
    yield "pdb_symbolizer -p shapes.pdb 0x10", "?? at ??:0:0\n\n" + ENDED
    yield "pdb_symbolizer --functions=none shapes.pdb 0x10", "??:0:0\n\n" + ENDED
    yield "pdb_symbolizer --output-style=GNU shapes.pdb 0x10", "??\n??:0\n" + ENDED
    yield "pdb_symbolizer --output-style=JSON shapes.pdb 0x10", \
        f"[{json_answer('0x10', 'shapes.pdb', [json_frame('', '', 0)])}]\n" + ENDED
    yield "pdb_symbolizer shapes.pdb zz", NO_NAME + ENDED
    yield "pdb_symbolizer --output-style=GNU shapes.pdb zz", "??\n??:0\n" + ENDED
    yield "pdb_symbolizer --output-style=JSON shapes.pdb z\"\\z", \
        '[{"Loc":[],"ModuleName":"shapes.pdb","SymName":"z\\"\\\\z"}]\n' + ENDED
    words = ["+1136", "-1", "CODE", "FILE 0x1136"]
    yield "pdb_symbolizer shapes.pdb < " + "|".join(words), 4 * NO_NAME + ENDED
    words = ["0x", "0x0x1", "1_0", "10000000000000000"]
    yield "pdb_symbolizer shapes.pdb < " + "|".join(words), "".join(error(f"{word}: no number") + NO_NAME for word in words) + ENDED
    for line in ("CODE 0x1136", "0x1136 0x1000", "  1136", "0X1136"):
        yield f"pdb_symbolizer -p shapes.pdb < {line}", STACK
    yield "pdb_symbolizer -p shapes.pdb <  0x1136 ", STACK
    yield "pdb_symbolizer --output-style=GNU -p shapes.pdb < |1000000000000136", 2 * "?? at ??:0\n" + ENDED
    for offset in ("-4096", "+1", "zz", "08"):
        yield f"pdb_symbolizer --adjust-vma={offset} shapes.pdb 0x1136", error(f"--adjust-vma can't be {offset}") + "status 2\n"


def program_cases():
    """Yields cases of programs: the search for their PDB file, and their image base."""
    shapes, other = "{6B32B941-6495-9A52-4C4C-44205044422E}/1", "{A9D98A29-E7C1-86D0-4C4C-44205044422E}/1"
    yield "pdb_symbolizer -p shapes.exe 140001136", STACK
    yield "pdb_symbolizer -p --relative-address shapes.exe 1136", STACK
    yield "pdb_symbolizer -p --base 7ff600000000 shapes.exe 0x7ff600001136", STACK
    yield "pdb_symbolizer -p --adjust 1 shapes.exe 0x140001137", STACK
    yield "pdb_symbolizer -p ./shapes.exe 140001136", STACK
    yield "pdb_symbolizer shapes.exe 0x1136", NO_NAME + ENDED
    places = ["shapes.pdb", "shapes.pdb"]
    yield "pdb_symbolizer other.exe 0x140001136", error(f"other.exe: no PDB file of {other}" + "".join(
        f"\n    {place}: its id is {shapes}" for place in places)) + "status 1\n"
    yield "pdb_symbolizer -p --pdb-dir symbols other.exe 0x140001136", STACK
    yield "pdb_symbolizer -p --pdb-dir nowhere --pdb-dir symbols other.exe 0x140001136", STACK
    yield "pdb_symbolizer -p --debug-file-directory=nowhere --debug-file-directory=symbols other.exe 0x140001136", STACK
    places = [f"nowhere/{name}" for name in ("shapes.pdb", "shapes.pdb/A9D98A29E7C186D04C4C44205044422E1/shapes.pdb")]
    yield "pdb_symbolizer --pdb-dir nowhere other.exe 0x140001136", error(f"other.exe: no PDB file of {other}" + "".join(
        f"\n    shapes.pdb: its id is {shapes}" for _ in range(2)) + "".join(
        f"\n    {place}: {MISSING}" for place in places)) + "status 1\n"
    for program, path, name, beside in (("device.exe", "/dev/zero", "zero", MISSING),
                                        ("folder.exe", "symbols", "symbols", "not a regular file")):
        (HERE / program).write_bytes(replaced("other.exe", (b"shapes.pdb\0", path.encode().ljust(11, b"\0"))))
        yield f"pdb_symbolizer {program} 0x140001136", error(f"{program}: no PDB file of {other}" + "".join(
            f"\n    {place}: {why}" for place, why in ((path, "not a regular file"), (name, beside)))) + "status 1\n"
    yield "pdb_symbolizer --show-id shapes.exe other.exe", "shapes.exe 6B32B94164959A524C4C44205044422E1 1 x86_64\n" \
        "other.exe A9D98A29E7C186D04C4C44205044422E1 1 x86_64\n" + ENDED
    yield "pdb_symbolizer --pdb-dir symbols --expect-id 6B32B94164959A524C4C44205044422E1 other.exe 0x140001136", \
        error("symbols/shapes.pdb/A9D98A29E7C186D04C4C44205044422E1/shapes.pdb: "
              f"its id is {other}, not {shapes}") + "status 1\n"
    for address, base in (("0x140001136", "0x140000000"), ("0x401136", "0x400000"), ("0x180001136", "0x180000000")):
        hint = error(f"shapes.pdb: {address} lies in no section: for addresses with the base in them say --base {base}")
        yield f"pdb_symbolizer shapes.pdb {address} 0x140001137 0x401137 0x1c0000000", hint + 4 * NO_NAME + ENDED
    yield "pdb_symbolizer < shapes.pdb 0x401136|source.pdb 0x401136|shapes.pdb 0x401136", error(
        "shapes.pdb: 0x401136 lies in no section: for addresses with the base in them say --base 0x400000") + 3 * NO_NAME + ENDED
    yield "pdb_symbolizer shapes.pdb 0x3fffff", NO_NAME + ENDED
    yield "pdb_symbolizer --base 0 shapes.pdb 0x140001136", NO_NAME + ENDED


def habit_cases(folder):
    """Yields cases of lines that name their files, and of the program under other names."""
    lines = ["shapes.exe 0x140001136", '"shapes.exe" 0x140001136', "CODE shapes.exe 5368713526", "'shapes.exe' 0x140001000",
             "DATA shapes.exe 0x140001136", "FRAME shapes.exe 0x140001136", "FILE:shapes.exe 0x140001136", "CODE FILE: 'shapes.exe' 0x140001136",
             "shapes.exe zz", "DATA shapes.exe zz", "", "shapes.exe 0x140001136"]
    wrong = [("zz", "no address"), ("CODE zz", "no address"), ("shapes.exe", "no address"), ("shapes.exe 9x", "no number"),
             ("FILE:", "no file is named"), ("'shapes.exe 0x1", "no file is named")]
    for style, shown in itertools.product(STYLES, ([], ["-a"])):
        words = ["--functions=short", f"--output-style={style}", *shown]
        asked = [line for line in lines if not shown or line != "DATA shapes.exe zz"]
        yield case(words, asked), of_llvm(folder, words, asked)
        yield case(words, [line for line, _ in wrong]), "".join(
            error(f"{line}: {why}") + of_llvm(folder, words, [line]).replace(ENDED, "") for line, why in wrong) + ENDED
    yield "pdb_symbolizer -p < shapes.pdb 0x1136|shapes.exe 0x140001136|names.json 0x1010|nowhere.pdb 0x1|shapes.pdb 4406", \
        2 * STACK.replace(ENDED, "") + "typed at C:\\b/c.h:7:0\n\n" + error(f"cannot read nowhere.pdb: {MISSING}") + \
        "?? at ??:0:0\n\n" + STACK.replace(ENDED, "status 1\n")
    yield from unopened_cases(folder)
    stack = STACK.replace(":0\n", "\n").replace("\n\n", "\n")
    yield "addr2line -e shapes.exe 140001136", "C:\\shapes\\shapes.h:10\n" + ENDED
    yield "addr2line -e shapes.exe -i 140001136", "C:\\shapes\\shapes.h:10\nC:\\shapes\\main.cpp:29\nC:\\shapes\\main.cpp:36\n" + ENDED
    yield "llvm-addr2line -e shapes.exe -fipC 0x140001136", stack
    yield "addr2line -e shapes.exe -f -s -a < 140001136|zz", \
        "0x140001136\nshapes::Point::length() const\nshapes.h:10\n??\n??:0\n" + ENDED
    yield "llvm-symbolizer -p --obj=shapes.exe 5368713526", STACK
    yield "pdb_symbolizer -p @words.txt 0x140001136", STACK
    yield "pdb_symbolizer @nowhere.txt", error(f"cannot read nowhere.txt: {MISSING}") + "status 2\n"
    yield 'LLVM_ADDR2LINE_OPTS="-f -s" addr2line -e shapes.exe 140001136', "shapes::Point::length() const\nshapes.h:10\n" + ENDED
    yield 'LLVM_SYMBOLIZER_OPTS="-f -s" addr2line -e shapes.exe 140001136', "C:\\shapes\\shapes.h:10\n" + ENDED
    yield "llvm-symbolizer --functions=short -piC --obj=shapes.exe 0x140001136", of_llvm(
        folder, ["--functions=short", "-piC", "--obj=shapes.exe", "0x140001136"])
    yield "llvm-symbolizer -p < shapes.exe 5368713526", STACK
    yield "llvm-symbolizer --obj shapes.exe --pretty-print --print-address 0x140001136", \
        "0x140001136: " + STACK


NO_FILE = "no program (EXE or DLL), PDB file or records file"


def unopened_cases(folder):
    """Yields cases of files that can't be opened. If an option names the file, the status is LLVM's. If a line names
    it, the status is 1, and LLVM's is 0."""
    (HERE / "elf").write_bytes(b"\x7fELF" + bytes(60))
    files = [("nowhere.exe", f"cannot read nowhere.exe: {MISSING}"), ("symbols", f"cannot read symbols: {FOLDER}"),
             ("cases.txt", f"cases.txt: {NO_FILE}"), ("elf", "elf: an ELF file, not a program of Windows"),
             ("stripped.pdb", "stripped.pdb: no section headers (stripped)"),
             ("program.exe", "program.exe: a program (EXE or DLL), not its PDB file"),
             ("other.exe", "other.exe: no PDB file of {A9D98A29-E7C1-86D0-4C4C-44205044422E}/1"
              + 2 * "\n    shapes.pdb: its id is {6B32B941-6495-9A52-4C4C-44205044422E}/1")]
    for file, why in files:
        def answer(address, file=file, why=why):
            return f'{{{address}"Error":{{"Message":{json.dumps(why)}}},"ModuleName":"{file}"'
        for style, lines in itertools.product(STYLES, (None, ["0x1136", "zz"])):
            words = [f"--output-style={style}", f"--obj={file}", *([] if lines else ["0x1136"])]
            yield case(words, lines), (answer('"Address":"0x0",') + "}\n" if style == "JSON" else error(why)) + "status 1\n"
        lines = [f"{file} 0x1136", f"DATA {file} 0x1136", f"{file} zz", f"FRAME {file} zz"]
        for style in ("LLVM", "GNU"):
            told = of_llvm(folder, [f"--output-style={style}"], [line.replace(file, "nowhere.exe") for line in lines])
            ends = {"LLVM": [3, 7, 10, 12], "GNU": [2, 5, 7, 8]}[style]
            answers = told.splitlines(keepends=True)
            yield case([f"--output-style={style}"], lines), "".join(
                error(why) + "".join(answers[start:end]) for start, end in zip([0, *ends], ends)) + "status 1\n"
        yield case(["--output-style=JSON"], [*lines, "shapes.exe zz"]), "".join(
            answer(address) + f"{symbol}}}\n" for address, symbol in 2 * [('"Address":"0x1136",', "")] + 2 * [("", ',"SymName":"zz"')]) + \
            '{"Loc":[],"ModuleName":"shapes.exe","SymName":"zz"}\nstatus 1\n'


CUT, LENGTH = "the bytes end before what is said to stand there", "a length that can't stand there"
CLAIMED = "code that another module claims too is left out"
FRONT_ROWS = ["public symbols end early: " + LENGTH, "the list of modules ends early: " + CUT,
              "the list of contributions ends early: " + CUT,
              f"module a symbol that ends too late: {CLAIMED}", f"module an older form: {CLAIMED}", f"module whole: {CLAIMED}",
              f"module a part that ends too late: {CLAIMED}"]
# The messages about modules when an address in their code is looked up. The first one is about the module at 0x1020 and
# 0x1050.
MODULE_ROWS = ["module more symbols than there are: symbols end early: " + CUT,
               "module a symbol that ends too late: symbols end early: " + CUT,
               "module a symbol too short for its kind: symbols end early: " + LENGTH,
               "module an older form: symbols end early: a signature or a version that isn't known",
               "module more parts than there are: lines are left out: " + CUT,
               "module more parts than there are: inlined functions end early: " + CUT,
               "module a part that ends too late: lines are left out: " + CUT,
               "module a part that ends too late: inlined functions end early: " + CUT,
               "module a file that ends too late: lines are left out: " + CUT,
               "module rows that say less than their own front: lines are left out: " + LENGTH,
               "module an inlinee that ends too late: inlined functions end early: " + CUT,
               "module inlinees of another form: inlined functions end early: a signature or a version that isn't known"]
BROKEN_ROWS = FRONT_ROWS + MODULE_ROWS
ASKED_ROWS = FRONT_ROWS + MODULE_ROWS[:1]


def broken_cases():
    """Yields cases of files that can't be read, that can't be used, or that have broken parts."""
    (HERE / "words.json").write_text("{words\n", encoding="utf-8")
    yield "pdb_symbolizer nowhere.pdb 0x1136", error(f"cannot read nowhere.pdb: {MISSING}") + "status 2\n"
    yield "pdb_symbolizer symbols 0x1136", error(f"cannot read symbols: {FOLDER}") + "status 2\n"
    yield "pdb_symbolizer elf 0x1136", error("elf: an ELF file, not a program of Windows") + "status 2\n"
    (HERE / "msfz").write_bytes(b"Microsoft MSFZ Container\r\n\x1aALD\0\0" + bytes(32))
    yield "pdb_symbolizer msfz 0x1136", error("msfz: a compressed PDB file (MSFZ)") + "status 2\n"
    unread = error(f"cannot read nowhere.exe: {MISSING}")
    yield "llvm-symbolizer --output-style=GNU --obj nowhere.exe < 0x401000|1ffffffff", unread + "status 1\n"
    yield "addr2line -e nowhere.exe 0x401000", unread + "status 1\n"
    yield "pdb_symbolizer --expect-id 6B32B94164959A524C4C44205044422E2 --obj=shapes.pdb 0x1136", error(
        "shapes.pdb: its id is {6B32B941-6495-9A52-4C4C-44205044422E}/1, not {6B32B941-6495-9A52-4C4C-44205044422E}/2") + "status 1\n"
    yield "pdb_symbolizer --dump-syms --obj=nowhere.exe", unread + "status 2\n"
    yield "pdb_symbolizer program.exe 0x1136", error("program.exe: a program (EXE or DLL), not its PDB file") + "status 2\n"
    yield "pdb_symbolizer stripped.pdb 0x1136", error("stripped.pdb: no section headers (stripped)") + "status 1\n"
    yield "pdb_symbolizer cases.txt 0x1136", error(f"cases.txt: {NO_FILE}") + "status 2\n"
    yield "pdb_symbolizer words.json 0x1136", error("words.json: not a JSON text") + "status 2\n"
    for option, shown, usage, tip in (
            ("--cach-size=3", "--cach-size", "--cache-size <BYTES>", ["  tip: a similar argument exists: '--cache-size'", ""]),
            ("-Z", "-Z", "[OPTIONS]", [])):
        yield f"pdb_symbolizer {option} shapes.pdb", "".join(f"standard error: {line}\n" for line in (
            f"error: unexpected argument '{shown}' found", "", *tip, f"Usage: pdb_symbolizer {usage} [WORD]...", "",
            "For more information, try '--help'.")) + "status 2\n"
    yield "pdb_symbolizer --output-style=XML shapes.pdb 0x1136", error("--output-style can't be XML") + "status 2\n"
    yield "pdb_symbolizer --functions=long shapes.pdb 0x1136", error("--functions can't be long") + "status 2\n"
    yield "pdb_symbolizer --inlining=no shapes.pdb 0x1136", error("--inlining can't be no") + "status 2\n"
    yield "pdb_symbolizer --base zz shapes.pdb 0x1136", error("--base can't be zz") + "status 2\n"
    yield "pdb_symbolizer --export written.json shapes.pdb 0x1136", error("--export answers no address") + "status 2\n"
    yield "pdb_symbolizer --export written.json", error("no FILE") + "status 2\n"
    yield "pdb_symbolizer --show-id", error("no FILE") + "status 2\n"
    yield "pdb_symbolizer --adjust=-1 shapes.pdb 0x1136", error("--adjust can't be -1") + "status 2\n"
    yield "pdb_symbolizer -p broken_parts.pdb 0x1020 0x1050", \
        "".join(error(f"broken_parts.pdb: {row}") for row in ASKED_ROWS) + 2 * "?f@@YAXXZ at ??:0:0\n\n" + ENDED
    yield "pdb_symbolizer -p broken_parts.pdb < 0x1020|0x1050|0x1020", \
        "".join(error(f"broken_parts.pdb: {row}") for row in ASKED_ROWS) + 3 * "?f@@YAXXZ at ??:0:0\n\n" + ENDED
    yield "pdb_symbolizer -p < broken_parts.pdb 0x1020|broken_parts.pdb 0x1050", \
        "".join(error(f"broken_parts.pdb: {row}") for row in ASKED_ROWS) + 2 * "?f@@YAXXZ at ??:0:0\n\n" + ENDED


def module_cases():
    """Yields cases of a file whose answers need parts of other modules: a type that an import leads to, a chunk's
    function, and the size of an array's elements. The size is in a type record that no index leads to. All of them are
    read with the module of the address."""
    file, f, g = "pdb_symbolizer -p parts_of_other_modules.pdb", "f(int) at ??:0:0\n\n", "g(int) at ??:0:0\n\n"
    yield f"{file} 0x1100", f + ENDED
    yield f"{file} 0x1300", g + ENDED
    yield f"{file} 0x1400", "h(C[3]*) at ??:0:0\n\n" + ENDED
    yield f"{file} < 0x1200|0x1100|0x1300", g + f + g + ENDED


def identity_cases():
    """Yields cases of debug ids. An id has the GUID of the info stream and the age of the debug information. The first
    three fields of the GUID are stored with the lowest byte first."""
    guid, other = "6B32B94164959A524C4C44205044422E", "{6B32B941-6495-9A52-4C4C-44205044422E}"
    yield "pdb_symbolizer --show-id shapes.pdb broken_parts.pdb", \
        f"shapes.pdb {guid}1 1 x86_64\nbroken_parts.pdb 030201000504070608090A0B0C0D0E0F1 1 x86_64\n" + ENDED
    yield "pdb_symbolizer --show-id shapes.pdb program.exe", \
        f"shapes.pdb {guid}1 1 x86_64\n" + error("program.exe: a program (EXE or DLL), not its PDB file") + "status 2\n"
    for same in (guid + "1", guid.lower() + "01", other + "/1", other.lower() + "/1", guid, other, guid.lower(), other[1:-1]):
        yield f"pdb_symbolizer -p --expect-id {same} shapes.pdb 0x1136", STACK
    for text, shown in ((guid + "10", other + "/16"), (other + "/2", other + "/2"), ("0" + guid[1:] + "1", "{0B" + other[3:] + "/1")):
        yield f"pdb_symbolizer --expect-id {text} shapes.pdb 0x1136", \
            error(f"shapes.pdb: its id is {other}/1, not {shown}") + "status 1\n"
    for wrong in ("0" + guid[1:], "{0B" + other[3:]):
        yield f"pdb_symbolizer --expect-id {wrong} shapes.pdb 0x1136", \
            error(f"shapes.pdb: its id is {other}/1, not " + "{0B" + other[3:]) + "status 1\n"
    for text in ("zz", guid[1:], guid + "+1", other + "1", other + "/x", guid + "100000000"):
        yield f"pdb_symbolizer --expect-id {text} shapes.pdb 0x1136", error(f"--expect-id can't be {text}") + "status 2\n"
    yield f"pdb_symbolizer --expect-id {guid}1 names.json 1010", error("names.json: not a PDB file") + "status 2\n"


def records_cases():
    """Yields cases of a records file with names that JSON escapes, names of symbols, and unknown names; and of records
    files that are written."""
    typed, quoted = "typed at C:\\b/c.h:7:0\n\n", 'q"u\\o\tt\x01 at ??:0:0\n\n'
    yield "pdb_symbolizer -p names.json 1010 1020 1030", typed + quoted + "?? at ??:0:0\n\n" + ENDED
    frames = [json_frame("typed", "C:\\\\b/c.h", 7), json_frame('q\\"u\\\\o\\tt\\u0001', "", 0), json_frame("", "", 0)]
    yield "pdb_symbolizer --output-style=JSON names.json < 1010|1020|1030", "".join(
        json_answer(address, "names.json", [frame]) + "\n"
        for address, frame in zip(("0x1010", "0x1020", "0x1030"), frames)) + ENDED
    yield "pdb_symbolizer --export written.json --modules modules names.json", ENDED
    yield "pdb_symbolizer -p written.json 1010 1030", typed + "?? at ??:0:0\n\n" + ENDED
    records = json.loads((HERE / "names.json").read_text(encoding="utf-8"))
    known, nothing = records["module_infos"]
    yield "cat modules/0.json", json.dumps(known, separators=(",", ":")) + "\n"
    records = {"version": 2, **records, "module_infos": [{"file": "modules/0.json"}, nothing]}
    yield "cat written.json", json.dumps(records, separators=(",", ":")) + "\n"
    device = {"version": 2, **json.loads((HERE / "names.json").read_text(encoding="utf-8")), "module_infos": [{"file": "/dev/zero"}]}
    (HERE / "device.json").write_text(json.dumps(device, separators=(",", ":")) + "\n", encoding="utf-8")
    yield "pdb_symbolizer device.json 1010", error("cannot read /dev/zero") + "status 2\n"
    yield "pdb_symbolizer --export symbols/written.json --modules modules names.json", ENDED
    yield "cat symbols/modules/0.json", json.dumps(known, separators=(",", ":")) + "\n"
    yield "pdb_symbolizer -p symbols/written.json 1010", typed + ENDED
    yield "pdb_symbolizer --export written.json shapes.pdb", ENDED
    yield "pdb_symbolizer -p written.json 0x1136", STACK
    yield "pdb_symbolizer --export nowhere/written.json shapes.pdb", \
        error("nowhere/written.json: cannot write") + "status 2\n"


def write_high():
    """Writes high.pdb. Its last function ends with the section, and that end doesn't fit 32 bits."""
    (HERE / "high.pdb").write_bytes(replaced(
        "broken_parts.pdb", (struct.pack("<II", 0x800, 0x1000), struct.pack("<II", 0x800, 0xfffff800)),
        (struct.pack("<IIH", 2, 0x20, 1) + b"?f@@", struct.pack("<IIH", 2, 0x428, 1) + b"?f@@")))


def broken_symbols(file, *functions):
    """Returns the symbol file of a file with broken parts."""
    rows = ["MODULE windows x86_64 030201000504070608090A0B0C0D0E0F1 " + file, *functions, ENDED]
    return "".join(error(f"{file}: {row}") for row in BROKEN_ROWS) + "\n".join(rows)


def symbol_file_cases(folder):
    """Yields cases of symbol files: from the stacks that LLVM answers, and of a file with broken parts. The functions
    of the latter are the public symbol and the code between starts of contributions, all without lines. Other cases
    have invalid arguments or files."""
    write_high()
    module = "MODULE windows x86_64 6B32B94164959A524C4C44205044422E1 shapes.pdb"
    # the scripts link with `/timestamp:0`, and the size of the image is six pages
    program = "INFO CODE_ID 000000006000 shapes.exe"
    short = stacks(folder)
    whole = dict(with_arguments(short))
    unwind = "".join(f"{row}\n" for row in stack_records((HERE / "shapes.exe").read_bytes())[0])
    yield "pdb_symbolizer --dump-syms shapes.exe", symbol_file([module, program], whole) + unwind + ENDED
    yield "pdb_symbolizer --dump-syms --functions=short ./shapes.pdb", symbol_file([module], short) + ENDED
    yield "pdb_symbolizer --dump-syms --base 140000000 --adjust 1 -s -p --pdb-dir symbols -e other.exe", symbol_file(
        [module.replace("6B32B94164959A524C4C44205044422E", "A9D98A29E7C186D04C4C44205044422E"),
         program.replace("shapes", "other")], whole) + unwind + ENDED
    yield "pdb_symbolizer --dump-syms broken_parts.pdb", broken_symbols(
        "broken_parts.pdb", "FUNC 1000 20 0 <name omitted>", "FUNC 1020 60 0 ?f@@YAXXZ", "FUNC 1200 10 0 <name omitted>",
        "FUNC 1304 40 0 <name omitted>", "FUNC 1420 4 0 <name omitted>", "FUNC 1424 8 0 <name omitted>")
    yield "pdb_symbolizer --dump-syms high.pdb", broken_symbols(
        "high.pdb", "FUNC fffff800 80 0 <name omitted>", "FUNC fffffa00 10 0 <name omitted>",
        "FUNC fffffb04 40 0 <name omitted>", "FUNC fffffc20 4 0 <name omitted>", "FUNC fffffc24 4 0 <name omitted>",
        "PUBLIC fffffc28 0 ?f@@YAXXZ")
    stored = "store/shapes.pdb/6B32B94164959A524C4C44205044422E1/shapes.sym"
    yield "pdb_symbolizer --dump-syms --store store shapes.exe", ENDED
    yield f"cat {stored}", symbol_file([module, program], whole) + unwind
    yield "pdb_symbolizer --dump-syms --functions=short --store=./store shapes.pdb", ENDED
    yield f"cat {stored}", symbol_file([module], short)
    yield "pdb_symbolizer --dump-syms --store shapes.exe shapes.pdb", error(
        stored.replace("store", "shapes.exe", 1) + ": cannot write") + "status 2\n"
    yield "pdb_symbolizer --dump-syms names.json", error("names.json: no id") + "status 1\n"
    yield "pdb_symbolizer --dump-syms stripped.pdb", error("stripped.pdb: no section headers (stripped)") + "status 1\n"
    yield "pdb_symbolizer --dump-syms --expect-id 6B32B94164959A524C4C44205044422E2 shapes.pdb", error(
        "shapes.pdb: its id is {6B32B941-6495-9A52-4C4C-44205044422E}/1, not {6B32B941-6495-9A52-4C4C-44205044422E}/2") + "status 1\n"
    yield "pdb_symbolizer --dump-syms shapes.pdb 0x1136", error("--dump-syms answers no address") + "status 2\n"
    yield "pdb_symbolizer --dump-syms", error("no FILE") + "status 2\n"


def write_below(path, data):
    """Writes a file below this folder."""
    (HERE / path).parent.mkdir(parents=True, exist_ok=True)
    (HERE / path).write_bytes(data)


def api_cases(folder):
    """Yields cases of requests of the symbolication API."""
    short = stacks(folder)
    return request_cases(dict(with_arguments(short)), short, procedure_at, error, ASKED_ROWS, write_below)


def main(words):
    made = [*llvm_cases(words[0]), *habit_cases(words[0]), *name_cases(), *address_cases(), *program_cases(), *broken_cases(),
            *module_cases(), *inline_fault_cases(error, ENDED), *unread_part_cases(error, ENDED), *source_url_cases(ENDED),
            *overlapping_section_cases(ENDED), *further_kind_cases(error, ENDED),
            *frame_data_cases(error, ENDED), *arm64_cases(error, ENDED),
            *identity_cases(), *records_cases(),
            *symbol_file_cases(words[0]), *api_cases(words[0])]
    (HERE / "cases.txt").write_text("".join(f"{line}\n" for line, _ in made), encoding="utf-8")
    (HERE.parent / "stdout").write_text("".join(f"$ {line}\n{text}" for line, text in made), encoding="utf-8")
    print(f"{len(made)} cases")
    return 0


if __name__ == "__main__":
    sys.exit(main(sys.argv[1:]))
