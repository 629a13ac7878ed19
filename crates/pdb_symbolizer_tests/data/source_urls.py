"""Builds a PDB file that says where its source files can be downloaded, byte by byte, and the expected answers."""
import json
import pathlib
import sys

HERE = pathlib.Path(__file__).resolve().parent
sys.path.append(str(HERE.parents[1] / "pdb_container_tests" / "data"))

from inline_faults import IDS, TYPES, WHOLE  # noqa: E402
from kinds import (SECTIONS, Symbols, container, contribution, debug_stream, item_stream, module_header,  # noqa: E402
                   put_site, subsection, u8, u16, u32)
from other_forms import SHORT  # noqa: E402

MAIN, INNER, OTHER = "C:\\Work\\App\\a b\\Main.cpp", "D:\\lib\\inner.h", "E:\\x.cpp"
NAMES = b"\0" + b"".join(name.encode() + b"\0" for name in (MAIN, INNER, OTHER))

# A Source Link map. Two of its patterns match MAIN, and the longer one wins. A path without a star matches only itself.
LINKS = {"documents": {"C:\\work\\*": "https://example.com/work/*", "c:\\WORK\\app\\*": "https://example.com/raw/c0ffee/*",
                       "C:\\Work\\App\\a b\\Main": "https://example.com/none"}}

# Source server data, which has a line for INNER.
SERVER = """SRCSRV: ini ------------------------------------------------\r
VERSION=2\r
SRCSRV: variables ------------------------------------------\r
SERVER=https://lib.example\r
SRCSRVTRG=%server%/%var3%/%var2%\r
SRCSRV: source files ---------------------------------------\r
d:\\LIB\\inner.h*include/inner.h*v7\r
SRCSRV: end ------------------------------------------------\r
"""
MAIN_URL = "https://example.com/raw/c0ffee/a%20b/Main.cpp"
INNER_URL = "https://lib.example/v7/include/inner.h"


def info_stream(names):
    """Returns the info stream, with these names and numbers of streams."""
    texts = b"".join(name + b"\0" for name in names)
    pairs = b"".join(u32(texts.index(name + b"\0"), number) for name, number in names.items())
    table = u32(len(texts)) + texts + u32(len(names), len(names), 1, (1 << len(names)) - 1, 0) + pairs
    return u32(20000404, 0, 3) + bytes(range(16)) + table + u32(0, 20140508)


def module():
    """Returns a module with a procedure `f` of MAIN, an inline site of INNER at its fifth byte, and a procedure `g` of
    OTHER after it."""
    symbols = Symbols(u32(4))
    for offset, name in ((0x100, b"f"), (0x120, b"g")):
        symbols.put(0x1110, u32(0, 0, 0, 32, 0, 0, 0x1001, offset) + u16(1) + u8(0) + name + b"\0", {"end": 0}, opens=4)
        if name == b"f":
            put_site(symbols, 0x114D, 0x1000, WHOLE, [])
            symbols.close(0x114E)
        symbols.close(6)
    files = b"".join(u32(NAMES.index(name.encode() + b"\0")) + u8(0, 0) + u16(0) for name in (MAIN, INNER, OTHER))
    rows = [u32(0x100) + u16(1, 0) + u32(32) + u32(0, 1, 20) + u32(0, 10),
            u32(0x120) + u16(1, 0) + u32(32) + u32(16, 1, 20) + u32(0, 70)]
    code = (subsection(0xF4, files) + b"".join(subsection(0xF2, it) for it in rows)
            + subsection(0xF6, u32(0) + u32(0x1000, 8, 50)))
    return symbols.data, code


def write_sources(name, links):
    """Writes a file with these bytes as its Source Link map."""
    symbols, code = module()
    header = module_header(10, len(symbols), len(code), b"a.obj")
    debug = debug_stream(header, u32(SHORT) + contribution(1, 0x100, 0x40, 0))
    info = info_stream({b"/names": 5, b"sourcelink$1": 11, b"srcsrv": 12})
    strings = u32(0xEFFEEFFE, 1, len(NAMES)) + NAMES + u32(0, 0)
    streams = [b"", info, item_stream(TYPES), debug, item_stream(IDS), strings, b"", None, b"", SECTIONS, symbols + code,
               links, SERVER.encode()]
    (HERE / name).write_bytes(container(streams))


def frame(file, function, line, url):
    """Returns a frame as JSON has it."""
    members = {"Column": 0, "Discriminator": 0, "FileName": file, "FunctionName": function, "Line": line}
    if url:
        members["SourceUrl"] = url
    return {**members, "StartAddress": "", "StartFileName": "", "StartLine": 0}


def source_url_cases(ended):
    """Yields cases: Source Link answers for MAIN, source server data for INNER, and nothing for OTHER."""
    write_sources("sources.pdb", b"\xef\xbb\xbf" + json.dumps(LINKS).encode())
    write_sources("broken_links.pdb", b'{"documents": ')
    inner, outer = f"inner() at {INNER}:50:0", f"f() at {MAIN}:10:0"
    both = f"{inner} {INNER_URL}\n (inlined by) {outer} {MAIN_URL}\n\n"
    other = f"g() at {OTHER}:70:0\n\n"
    yield "pdb_symbolizer -p --source-url sources.pdb 0x1104 0x1120 0x1500", both + other + "?? at ??:0:0\n\n" + ended
    yield "pdb_symbolizer -p sources.pdb 0x1104", f"{inner}\n (inlined by) {outer}\n\n" + ended
    yield "pdb_symbolizer -p -s --source-url sources.pdb 0x1100", f"f() at Main.cpp:10:0 {MAIN_URL}\n\n" + ended
    yield "addr2line -f -i --source-url -e sources.pdb 0x1104", (
        f"inner()\n{INNER}:50 {INNER_URL}\nf()\n{MAIN}:10 {MAIN_URL}\n" + ended)
    yield "pdb_symbolizer --verbose --source-url sources.pdb 0x1100", (
        f"f()\n  Filename: {MAIN}\n  Line: 10\n  Column: 0\n  SourceUrl: {MAIN_URL}\n\n" + ended)
    frames = [frame(INNER, "inner()", 50, INNER_URL), frame(MAIN, "f()", 10, MAIN_URL)]
    answer = {"Address": "0x1104", "ModuleName": "sources.pdb", "Symbol": frames}
    yield "pdb_symbolizer --output-style=JSON --source-url sources.pdb 0x1104", (
        json.dumps([answer], separators=(",", ":")) + "\n" + ended)
    yield "pdb_symbolizer -p --source-url < sources.pdb 0x1104|broken_links.pdb 0x1104|sources.pdb 0x1100", (
        both + f"{inner} {INNER_URL}\n (inlined by) {outer}\n\n" + f"{outer} {MAIN_URL}\n\n" + ended)
