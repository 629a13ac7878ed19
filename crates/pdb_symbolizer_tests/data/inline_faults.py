"""Builds a PDB file with inline sites whose rows end early, byte by byte, and the expected answers."""
import pathlib
import sys

HERE = pathlib.Path(__file__).resolve().parent
sys.path.append(str(HERE.parents[1] / "pdb_container_tests" / "data"))

from kinds import (SECTIONS, Symbols, container, contribution, debug_stream, info_stream, item_stream,  # noqa: E402
                   module_header, put_site, string_stream, subsection, text, u8, u16, u32)
from other_forms import SHORT  # noqa: E402

# The type `void()`, by which functions and inlined functions are printed.
TYPES = [(0x1201, u32(0), None), (0x1008, u32(3) + u8(0, 0) + u16(0) + u32(0x1000), None)]
IDS = [(0x1601, u32(0, 0x1001) + text(b"inner"), None)]

# Annotations, as pairs of a kind and a number: the code offset (3), the row's length (4), code in a separated chunk
# (2). The kind 14 doesn't exist. A number that begins with 0x80 needs a second byte.
APART_BEHIND_A_ROW = u8(3, 1, 4, 2, 2, 1)
UNKNOWN_BEHIND_A_ROW = u8(3, 8, 4, 4, 14, 1)
NO_NUMBER_BEHIND_A_ROW = u8(3, 4, 4, 2, 3, 0x80)
WHOLE = u8(3, 4, 4, 2)


def module_of(offset, name, *sites):
    """Returns the symbols of a procedure of 32 bytes with these sites, and the module's file, rows and inlinees. The
    procedure is in line 10 of `a.cpp`, and inlined code begins at line 50."""
    symbols = Symbols(u32(4))
    content = u32(0, 0, 0, 32, 0, 0, 0x1001, offset) + u16(1) + u8(0) + name + b"\0"
    symbols.put(0x1110, content, {"end": 0}, opens=4)
    for annotations in sites:
        put_site(symbols, 0x114D, 0x1000, annotations, [])
        symbols.close(0x114E)
    symbols.close(6)
    rows = u32(offset) + u16(1, 0) + u32(32) + u32(0, 1, 20) + u32(0, 10)
    code = (subsection(0xF4, u32(1) + u8(0, 0) + u16(0)) + subsection(0xF2, rows)
            + subsection(0xF6, u32(0) + u32(0x1000, 0, 50)))
    return symbols.data, code


def write_inline_faults():
    """Writes inline_faults.pdb. Of its three modules, the first has two sites whose rows end early, the second has one,
    and the third has none."""
    modules = [(b"a.obj", module_of(0x100, b"f", APART_BEHIND_A_ROW, UNKNOWN_BEHIND_A_ROW, WHOLE)),
               (b"b.obj", module_of(0x200, b"g", NO_NUMBER_BEHIND_A_ROW)), (b"c.obj", module_of(0x300, b"h", WHOLE))]
    headers = b"".join(module_header(10 + at, len(symbols), len(code), name)
                       for at, (name, (symbols, code)) in enumerate(modules))
    contributions = u32(SHORT) + b"".join(contribution(1, 0x100 * (at + 1), 0x20, at) for at in range(3))
    streams = [b"", info_stream(), item_stream(TYPES), debug_stream(headers, contributions), item_stream(IDS),
               string_stream(), b"", None, b"", SECTIONS, *[symbols + code for _, (symbols, code) in modules]]
    (HERE / "inline_faults.pdb").write_bytes(container(streams))


def inline_fault_cases(error, ended):
    """Yields cases. Rows before a fault are answered. Each module whose code is looked up has one line, with its
    first fault and the number of its sites that have one. The lines are in the order of the addresses."""
    write_inline_faults()
    first = error("inline_faults.pdb: module a.obj: rows of 2 inline sites end early: "
                  "code of an inlined body in a separated chunk")
    second = error("inline_faults.pdb: module b.obj: rows of 1 inline site end early: "
                   "a number or a kind that can't stand there")

    def inlined(name):
        """Returns a stack with `inner` inlined into a function."""
        return f"inner() at a.cpp:50:0\n (inlined by) {name}() at a.cpp:10:0\n\n"

    yield "pdb_symbolizer -p inline_faults.pdb 0x1100 0x1101 0x1102 0x1108 0x110b 0x1110", \
        first + "f() at a.cpp:10:0\n\n" + 4 * inlined("f") + "f() at a.cpp:10:0\n\n" + ended
    yield "pdb_symbolizer -p inline_faults.pdb 0x1304", inlined("h") + ended
    yield "pdb_symbolizer -p inline_faults.pdb 0x1204 0x1304 0x1101", \
        second + first + inlined("g") + inlined("h") + inlined("f") + ended
    yield "pdb_symbolizer -p inline_faults.pdb < 0x1304|0x1204|0x1206|0x1204", \
        second + inlined("h") + inlined("g") + "g() at a.cpp:10:0\n\n" + inlined("g") + ended
