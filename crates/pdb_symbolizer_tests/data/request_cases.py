"""Cases of requests of the symbolication API, with the expected output, for write_cases.py.

The frames of shapes.exe are those of llvm-symbolizer, which write_cases.py passes. All else is written here by hand,
from docs/FORMATS.md.
"""
import json
import pathlib

HERE = pathlib.Path(__file__).resolve().parent
ID, OTHER, BROKEN = ("6B32B94164959A524C4C44205044422E1", "A9D98A29E7C186D04C4C44205044422E1",
                     "030201000504070608090A0B0C0D0E0F1")
SHAPES = ["shapes.pdb", ID]
# Bytes after a procedure belong to the public symbol before them. This is that symbol's address.
PUBLIC_STARTS = {"?count@Picture@@SAHPEBD@Z": 0x1000, "entry": 0x1020, "?draw@Framed@@UEAAHH@Z": 0x1110,
                 "?area@shapes@@YAHPEBUPoint@1@H@Z": 0x1190}


def text(value):
    """Formats a value as JSON without white space."""
    return json.dumps(value, separators=(",", ":"), ensure_ascii=False)


def frame(number, module, offset, known=None):
    """Returns a frame of an answer, with the members in `known`."""
    return {"frame": number, "module": module, "module_offset": f"0x{offset:x}", **(known or {})}


def known_of(start, offset, stack):
    """Returns the members of a frame at an offset. The stack has the function itself first. `inlines` has the innermost
    call first."""
    (name, file, line), *inlined = stack
    known = {"function": name, "function_offset": f"0x{offset - start:x}", "file": file, "line": line}
    if inlined:
        known["inlines"] = [{"function": name, "file": file, "line": line} for name, file, line in reversed(inlined)]
    return known


def answer(*jobs):
    """Returns the line of an answer, from the stacks and the modules of each job."""
    return text({"results": [{"stacks": stacks, "found_modules": modules} for stacks, modules in jobs]}) + "\n"


def job(memory_map, *stacks):
    """Returns a job of a request."""
    return {"memoryMap": memory_map, "stacks": list(stacks)}


def asked(request, words="--pdb-dir ."):
    """Returns the line of a case."""
    return f"pdb_symbolizer --symbolicate {words} < " + (request if isinstance(request, str) else text(request))


class Shapes:
    """The expected frames of shapes.exe."""

    def __init__(self, found, procedure_at):
        self.found, self.procedure_at = found, procedure_at

    def known(self, offset):
        """Returns the members of the frame at an offset."""
        stack = self.found[offset]
        start = self.procedure_at(offset)
        return known_of(PUBLIC_STARTS[stack[0][0]] if start is None else start, offset, stack)

    def frames(self, *offsets, module="shapes.pdb"):
        """Returns the frames at these offsets."""
        return [frame(number, module, offset, self.known(offset)) for number, offset in enumerate(offsets)]


def module_cases(shapes, short):
    """Yields cases of modules in folders, with different names and ids."""
    offsets = (0x1136, 0x1000, 0x10b0, 0x119f, 0x1213, 0x1278)
    stack = [[0, offset] for offset in offsets]
    wanted = shapes.frames(*offsets)
    yield asked({"jobs": [job([SHAPES], stack)]}), answer(([wanted], {f"shapes.pdb/{ID}": True}))
    yield asked(job([SHAPES], stack)), answer(([wanted], {f"shapes.pdb/{ID}": True}))
    yield asked({"version": 5, "jobs": [{**job([SHAPES], stack), "more": [None]}]}), \
        answer(([wanted], {f"shapes.pdb/{ID}": True}))
    yield asked({"jobs": [job([SHAPES], stack)]}, "--functions=short --pdb-dir ."), \
        answer(([short.frames(*offsets)], {f"shapes.pdb/{ID}": True}))
    yield asked(job([SHAPES], stack), "--functions=linkage --base 140000000 --adjust 1 -s --no-inlines --pdb-dir ."), \
        answer(([wanted], {f"shapes.pdb/{ID}": True}))
    for same in (ID.lower(), ID[:-1] + "01", "{6B32B941-6495-9A52-4C4C-44205044422E}/1"):
        yield asked(job([["shapes.pdb", same]], stack)), answer(([wanted], {f"shapes.pdb/{same}": True}))
    for words in ("symbols", "nowhere --pdb-dir symbols", ". --pdb-dir symbols"):
        yield asked(job([["shapes.pdb", OTHER]], stack), f"--pdb-dir {words}"), \
            answer(([wanted], {f"shapes.pdb/{OTHER}": True}))
    between = (0x101e, 0x10da, 0x1103, 0x114f, 0x1256)
    yield asked(job([SHAPES], [[0, offset] for offset in between])), \
        answer(([shapes.frames(*between)], {f"shapes.pdb/{ID}": True}))
    first, last = shapes.frames(0x1136), shapes.frames(0x1213, 0x1136)
    second = job([["no.pdb", ID], SHAPES], [[1, 0x1213], [1, 0x1136]])
    yield asked({"jobs": [job([SHAPES], [[0, 0x1136]], []), second]}), \
        answer(([first, []], {f"shapes.pdb/{ID}": True}), ([last], {f"no.pdb/{ID}": None, f"shapes.pdb/{ID}": True}))
    yield asked(job([SHAPES, SHAPES, ["shapes.pdb", ID.lower()]], [[1, 0x1136]])), \
        answer(([first], {f"shapes.pdb/{ID}": True, f"shapes.pdb/{ID.lower()}": None}))


def unknown_cases():
    """Yields cases of modules that aren't found, and of addresses without an answer."""
    for words, module in (("", SHAPES), ("--pdb-dir nowhere", SHAPES), ("--pdb-dir .", ["shapes.pdb", OTHER]),
                          ("--pdb-dir .", ["shapes.pdb", ID[:-1] + "2"]), ("--pdb-dir .", ["shapes.pdb", "zz"]),
                          ("--pdb-dir .", ["shapes.pdb", ""]), ("--pdb-dir .", ["nowhere.pdb", ID]),
                          ("--pdb-dir .", ["shapes.exe", ID]), ("--pdb-dir .", ["names.json", ID]),
                          ("--pdb-dir .", ["symbols", ID])):
        yield asked(job([module], [[0, 0x1136]]), words), \
            answer(([[frame(0, module[0], 0x1136)]], {"/".join(module): False}))
    names = ["", ".", "..", "./shapes.pdb", "../data/shapes.pdb", "symbols\\shapes.pdb", "C:shapes.pdb", "shapes.pdb\0",
             "/shapes.pdb", 'q"\t\x01é\u2028']
    yield asked(job([[name, ID] for name in names], [[index, 0x1136] for index in range(len(names))])), \
        answer(([[frame(index, name, 0x1136) for index, name in enumerate(names)]],
                {key: False for key in sorted(f"{name}/{ID}" for name in names)}))
    yield asked(job([SHAPES], [[0, 0x10], [-1, 0x1136], [0, 2**32 + 0x1136], [0, 2**64 - 1], [-1, 0]])), \
        answer(([[frame(number, module, offset) for number, (module, offset) in enumerate((
            ("shapes.pdb", 0x10), ("<unknown>", 0x1136), ("shapes.pdb", 2**32 + 0x1136), ("shapes.pdb", 2**64 - 1),
            ("<unknown>", 0)))]], {f"shapes.pdb/{ID}": True}))
    yield asked(job([["b.pdb", ID], SHAPES], [[-1, 1]])), \
        answer(([[frame(0, "<unknown>", 1)]], {f"b.pdb/{ID}": None, f"shapes.pdb/{ID}": None}))
    yield asked({"jobs": []}), answer()
    yield asked(job([])), answer(([], {}))


def broken_cases(error, rows):
    """Yields cases of files with broken parts, and of a file that can't be used."""
    known = {"function": "?f@@YAXXZ", "function_offset": "0x30"}
    yield asked(job([["broken_parts.pdb", BROKEN]], [[0, 0x1050]])), \
        "".join(error(f"./broken_parts.pdb: {row}") for row in rows) + answer(
            ([[frame(0, "broken_parts.pdb", 0x1050, known)]], {f"broken_parts.pdb/{BROKEN}": True}))
    yield asked(job([["stripped.pdb", BROKEN]], [[0, 0x1136]])), \
        error("./stripped.pdb: no section headers (stripped)") + answer(
            ([[frame(0, "stripped.pdb", 0x1136)]], {f"stripped.pdb/{BROKEN}": False}))


# Texts that are not valid requests, with the fault.
MALFORMED = [
    ("", "not a JSON text"), ("{", "not a JSON text"), ('{"jobs":[]} x', "not a JSON text"),
    ("[" * 200 + "]" * 200, "not a JSON text"), ("[]", ": wanted object"), ("7", ": wanted object"),
    ("{}", "/jobs: wanted array"), ('{"jobs":null}', "/jobs: wanted array"), ('{"jobs":{}}', "/jobs: wanted array"),
    ('{"jobs":[7]}', "/jobs/0: wanted object"), ('{"jobs":[{"stacks":[]}]}', "/jobs/0/memoryMap: wanted array"),
    ('{"stacks":[]}', "/memoryMap: wanted array"), ('{"memoryMap":[]}', "/stacks: wanted array"),
    ('{"jobs":[{"memoryMap":[],"stacks":[]},{"memoryMap":[]}]}', "/jobs/1/stacks: wanted array"),
    (job([SHAPES, "shapes.pdb"]), "/memoryMap/1: wanted array"),
    (job([["shapes.pdb"]]), "/memoryMap/0: wanted name and debug id"),
    (job([[*SHAPES, 1]]), "/memoryMap/0: wanted name and debug id"),
    (job([[7, ID]]), "/memoryMap/0/0: wanted text"), (job([["shapes.pdb", None]]), "/memoryMap/0/1: wanted text"),
    (job([SHAPES], 7), "/stacks/0: wanted array"), (job([SHAPES], [[0, 1]], [7]), "/stacks/1/0: wanted array"),
    (job([SHAPES], [[0]]), "/stacks/0/0: wanted index of a module and offset"),
    (job([SHAPES], [[0, 1, 2]]), "/stacks/0/0: wanted index of a module and offset"),
    (job([SHAPES], [["0", 1]]), "/stacks/0/0/0: wanted number"),
    (job([SHAPES], [[0.5, 1]]), "/stacks/0/0/0: number out of range"),
    (job([SHAPES], [[2**63, 1]]), "/stacks/0/0/0: number out of range"),
    (job([SHAPES], [[0, 1], [1, 1]]), "/stacks/0/1/0: wanted index of memoryMap, or -1"),
    (job([SHAPES], [[-2, 1]]), "/stacks/0/0/0: wanted index of memoryMap, or -1"),
    (job([SHAPES], [[0, "0x1136"]]), "/stacks/0/0/1: wanted number"),
    (job([SHAPES], [[0, -1]]), "/stacks/0/0/1: number out of range"),
    (job([SHAPES], [[0, 2**64]]), "/stacks/0/0/1: number out of range"),
    ({"jobs": [job([SHAPES]), job([SHAPES], [], [[0, 1], [0, 2], ["x", 3]])]}, "/jobs/1/stacks/1/2/0: wanted number"),
]


def malformed_cases(error):
    """Yields cases of texts that are not valid requests, and of arguments that no request may have."""
    for request, why in MALFORMED:
        yield asked(request), text({"error": why}) + "\n" + error(f"no request: {why}") + "status 2\n"
    for words in ("--symbolicate shapes.pdb", "--symbolicate-lines shapes.pdb 0x1136", "--symbolicate -e shapes.exe"):
        yield f"pdb_symbolizer {words}", error("--symbolicate takes no FILE and no address") + "status 2\n"


def line_cases(shapes, error):
    """Yields cases with one request per line."""
    start = "pdb_symbolizer --symbolicate-lines --pdb-dir . < "
    good, wanted = text(job([SHAPES], [[0, 0x1136]])), answer(([shapes.frames(0x1136)], {f"shapes.pdb/{ID}": True}))
    wrong = text({"error": "/jobs: wanted array"}) + "\n"
    yield start + good, wanted + "status 0\n"
    yield f"{start}{good}|{good}|", 2 * wanted + "status 0\n"
    empty = text({"error": "not a JSON text"}) + "\n"
    yield f"{start}{good}|{{}}||{good}", \
        wanted + wrong + empty + wanted + error("lines that are no requests: 2") + "status 2\n"
    yield "pdb_symbolizer --symbolicate-lines", "status 0\n"


# The function that arm64_program.py writes: 64 bytes at 0x1100, all in one line.
ARM64 = {"function": "f()", "function_offset": "0x4", "file": "a.cpp", "line": 10}


def arm64_case(name, words):
    """Returns a case of a request for arm64.pdb, under a name in a folder."""
    return asked(job([[name, BROKEN]], [[0, 0x1104]]), words), \
        answer(([[frame(0, name, 0x1104, ARM64)]], {f"{name}/{BROKEN}": True})) + "status 0\n"


def store_cases(error, rows, written):
    """Yields cases of symbol stores: with two tiers, with names in another case, and with compressed files. `written`
    writes a file at a path in this folder."""
    arm64, broken = ((HERE / name).read_bytes() for name in ("arm64.pdb", "broken_parts.pdb"))
    written("tiers/index2.txt", b"")
    written(f"tiers/ar/arm64.pdb/{BROKEN}/arm64.pdb", arm64)
    written(f"untold/ar/arm64.pdb/{BROKEN}/arm64.pdb", arm64)
    # the first two letters of this name lead out of a folder
    outside = "..64.pdb"
    written(f"tiers/{outside}/{BROKEN}/{outside}", arm64)
    written("tiers/ar/index2.txt", b"")
    written("cased/ARM64.Pdb", arm64)
    stored = f"cased/Broken_Parts.PDB/{BROKEN.lower()}/BROKEN_parts.pdb"
    written(stored, broken)
    packed = f"packed/shapes.pdb/{OTHER}/shapes.pd_"
    written(packed, b"MSCF" + bytes(32))
    yield arm64_case("arm64.pdb", "--pdb-dir tiers")
    yield arm64_case("ARM64.PDB", "--pdb-dir tiers")
    yield arm64_case("arm64.pdb", "--pdb-dir cased")
    for name, folder in (("arm64.pdb", "untold"), (outside, "tiers/ar")):
        nothing = [[frame(0, name, 0x1104)]], {f"{name}/{BROKEN}": False}
        yield asked(job([[name, BROKEN]], [[0, 0x1104]]), f"--pdb-dir {folder}"), answer(nothing) + "status 0\n"
    known = {"function": "?f@@YAXXZ", "function_offset": "0x30"}
    found = answer(([[frame(0, "broken_parts.pdb", 0x1050, known)]], {f"broken_parts.pdb/{BROKEN}": True})) + "status 0\n"
    request = job([["broken_parts.pdb", BROKEN]], [[0, 0x1050]])
    for words, path in (("--pdb-dir cased", stored), ("--pdb-dir cased --pdb-dir .", "./broken_parts.pdb")):
        yield asked(request, words), "".join(error(f"{path}: {row}") for row in rows) + found
    compressed = "a compressed file (CAB, .pd_)"
    nothing = [[frame(0, "shapes.pdb", 0x1136)]], {f"shapes.pdb/{OTHER}": False}
    yield asked(job([["shapes.pdb", OTHER]], [[0, 0x1136]]), "--pdb-dir packed"), \
        error(f"{packed}: {compressed}") + answer(nothing) + "status 0\n"
    nothing = [[frame(0, "SHAPES.PDB", 0x1136)]], {f"SHAPES.PDB/{OTHER}": False}
    yield asked(job([["SHAPES.PDB", OTHER]], [[0, 0x1136]]), "--pdb-dir packed"), \
        error(f"{packed}: {compressed}") + answer(nothing) + "status 0\n"
    here, missing = "{6B32B941-6495-9A52-4C4C-44205044422E}/1", "No such file or directory (os error 2)"
    yield "pdb_symbolizer --pdb-dir packed other.exe 0x140001136", error(
        "other.exe: no PDB file of {A9D98A29-E7C1-86D0-4C4C-44205044422E}/1" + "".join(f"\n    {place}: {why}" for place, why in (
            *2 * [("shapes.pdb", f"its id is {here}")], ("packed/shapes.pdb", "not a regular file"),
            (f"packed/shapes.pdb/{OTHER}/shapes.pdb", missing), (packed, compressed)))) + "status 1\n"


def known_offset_cases(shapes):
    """Yields cases of lines with offsets of earlier lines, and with new ones."""
    lines = ((0x1136, 0x1000), (0x1000, 0x10b0), (0x10b0, 0x1136, 0x1000), (0x10, 0x1213, 0x10b0), (0x1213, 0x10))
    requests = "|".join(text(job([SHAPES], [[0, offset] for offset in line])) for line in lines)
    answers = "".join(answer(([[frame(number, "shapes.pdb", offset, None if offset == 0x10 else shapes.known(offset))
                                for number, offset in enumerate(line)]], {f"shapes.pdb/{ID}": True})) for line in lines)
    for size in ("", "--cache-size=40000 ", "--cache-size=0 "):
        yield f"pdb_symbolizer --symbolicate-lines {size}--pdb-dir . < {requests}", answers + "status 0\n"


def kept_cases(error, rows):
    """Yields cases of files that stay open from one line to the next, and of files that are closed at once. The latter
    report their broken parts again."""
    known = {"function": "?f@@YAXXZ", "function_offset": "0x30"}
    request = text(job([["broken_parts.pdb", BROKEN]], [[0, 0x1050]]))
    found = answer(([[frame(0, "broken_parts.pdb", 0x1050, known)]], {f"broken_parts.pdb/{BROKEN}": True}))
    other, found_other = text(job([["arm64.pdb", BROKEN]], [[0, 0x1104]])), \
        answer(([[frame(0, "arm64.pdb", 0x1104, ARM64)]], {f"arm64.pdb/{BROKEN}": True}))
    told = "".join(error(f"./broken_parts.pdb: {row}") for row in rows)
    for size, again in (("", ""), ("--cache-size 1000000 ", ""), ("--cache-size=0x100000 ", ""), ("--cache-size 0 ", told),
                        ("--cache-size=1 ", told)):
        yield f"pdb_symbolizer --symbolicate-lines {size}--pdb-dir . < {request}|{other}|{request}", \
            told + found + found_other + again + found + "status 0\n"
    told = "".join(error(f"broken_parts.pdb: {row}") for row in rows)
    lines = "broken_parts.pdb 0x1050|arm64.pdb 0x1104|broken_parts.pdb 0x1050"
    broken, arm64 = "?f@@YAXXZ at ??:0:0\n\n", "f() at a.cpp:10:0\n\n"
    for size, again in (("", ""), ("--cache-size=0 ", told)):
        yield f"pdb_symbolizer -p {size}< {lines}", told + broken + arm64 + again + broken + "status 0\n"
    for size in ("1k", "-1", "zz"):
        yield f"pdb_symbolizer --symbolicate-lines --cache-size={size}", error(f"--cache-size can't be {size}") + "status 2\n"


def request_cases(whole, short, procedure_at, error, broken_rows, written):
    """Yields all cases. Those that aren't refused end with status 0."""
    shapes = Shapes(whole, procedure_at)
    for line, wanted in (*module_cases(shapes, Shapes(short, procedure_at)), *unknown_cases(),
                         *broken_cases(error, broken_rows)):
        yield line, wanted + "status 0\n"
    yield from malformed_cases(error)
    yield from line_cases(shapes, error)
    yield from store_cases(error, broken_rows, written)
    yield from known_offset_cases(shapes)
    yield from kept_cases(error, broken_rows)
