"""Builds a PDB file with records that few compilers write, byte by byte, and the expected answers. The records are
procedures of managed code and for Itanium, type aliases, arrays with separate dimensions, `std::nullptr_t`, and inlined
code in chunks."""
import pathlib
import sys

HERE = pathlib.Path(__file__).resolve().parent
sys.path.append(str(HERE.parents[1] / "pdb_container_tests" / "data"))

from kinds import (SECTIONS, Symbols, container, contribution, debug_stream, info_stream, item_stream,  # noqa: E402
                   module_header, put_site, string_stream, subsection, text, u8, u16, u32)
from other_forms import SHORT  # noqa: E402

# `void()` and `void(std::nullptr_t, COLORREF, float[0], std::nullptr_t[2])`. An array of two null pointers has 16
# bytes. An array whose dimensions are in another record has no known size. The last type is the shape of a virtual
# function table.
NULL_POINTER = 0x0103
TYPES = [(0x1201, u32(0), None), (0x1008, u32(3) + u8(0, 0) + u16(0) + u32(0x1000), None),
         (0x150A, u32(0x75) + text(b"COLORREF"), None), (0x1508, u32(0x40, 0x1007) + text(b""), None),
         (0x1503, u32(NULL_POINTER, 0x23) + u16(16) + text(b""), None),
         (0x1201, u32(4, NULL_POINTER, 0x1002, 0x1003, 0x1004), None),
         (0x1008, u32(3) + u8(0, 0) + u16(4) + u32(0x1005), None), (0x000A, u16(1) + u8(5), None)]
IDS = [(0x1601, u32(0, 0x1001) + text(b"inner"), None)]

# Annotations, as pairs of a kind and a number: the chunk (2), the code offset (3), the row's length (4).
IN_THE_FIRST_CHUNK = u8(2, 1, 3, 4, 4, 2)
IN_THE_SECOND_CHUNK = u8(2, 2, 3, 4, 4, 2)
IN_A_THIRD_CHUNK = u8(3, 8, 4, 1, 2, 3, 3, 4)


def put(symbols, kind, offset, typed, name, behind=u8(0)):
    """Adds a procedure of 32 bytes in section 1, up to its closing symbol. The bytes `behind` follow its section."""
    content = u32(0, 0, 0, 32, 0, 0, typed, offset) + u16(1) + behind + text(name)
    symbols.put(kind, content, {"end": 0}, opens=4)


def put_chunk(symbols, offset, site):
    """Adds a chunk of 16 bytes for the function at 0x180, with a site."""
    symbols.put(0x1132, u32(0, 0, 16, 0, offset, 0x180) + u16(1, 1), {"end": 0}, opens=4)
    put_site(symbols, 0x114D, 0x1000, site, [])
    symbols.close(0x114E)
    symbols.close(6)


def write_further_kinds():
    """Writes further_kinds.pdb. Its functions are in line 10 of `a.cpp`, and inlined code begins at line 50."""
    symbols = Symbols(u32(4))
    put(symbols, 0x112A, 0x100, 0x06000001, b"Form.Draw", u8(0) + u16(0))
    symbols.close(6)
    put(symbols, 0x1118, 0x120, 0x1001, b"scale", u16(8) + u8(0))
    symbols.close(6)
    put(symbols, 0x1110, 0x140, 0x1006, b"paint")
    symbols.close(6)
    put(symbols, 0x1110, 0x180, 0x1001, b"split")
    put_site(symbols, 0x114D, 0x1000, IN_A_THIRD_CHUNK, [])
    symbols.close(0x114E)
    symbols.close(6)
    put_chunk(symbols, 0x200, IN_THE_FIRST_CHUNK)
    put_chunk(symbols, 0x240, IN_THE_SECOND_CHUNK)
    rows = u32(0x100) + u16(1, 0) + u32(0x150) + u32(0, 1, 20) + u32(0, 10)
    code = (subsection(0xF4, u32(1) + u8(0, 0) + u16(0)) + subsection(0xF2, rows)
            + subsection(0xF6, u32(0) + u32(0x1000, 0, 50)))
    headers = module_header(10, len(symbols.data), len(code), b"a.obj")
    streams = [b"", info_stream(), item_stream(TYPES), debug_stream(headers, u32(SHORT) + contribution(1, 0x100, 0x150, 0)),
               item_stream(IDS), string_stream(), b"", None, b"", SECTIONS, symbols.data + code]
    (HERE / "further_kinds.pdb").write_bytes(container(streams))


def further_kind_cases(error, ended):
    """Yields cases of names and signatures, and of inlined code in chunks that annotations name by number. If a chunk
    doesn't exist, only the rows before it are answered."""
    write_further_kinds()
    apart = error("further_kinds.pdb: module a.obj: rows of 1 inline site end early: "
                  "code of an inlined body in a separated chunk")

    def inlined(name):
        """Returns a stack with `inner` inlined into a function."""
        return f"inner() at a.cpp:50:0\n (inlined by) {name}() at a.cpp:10:0\n\n"

    yield "pdb_symbolizer -p further_kinds.pdb 0x1100 0x1120 0x1140", \
        apart + "Form.Draw at a.cpp:10:0\n\n" + "scale() at a.cpp:10:0\n\n" \
        + "paint(std::nullptr_t, COLORREF, float[0], std::nullptr_t[2]) at a.cpp:10:0\n\n" + ended
    yield "pdb_symbolizer -p further_kinds.pdb 0x1187 0x1188 0x1189 0x1203 0x1204 0x1206 0x1243 0x1244 0x1246", \
        apart + 3 * ("split() at a.cpp:10:0\n\n" + inlined("split") + "split() at a.cpp:10:0\n\n") + ended
