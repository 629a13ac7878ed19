"""Builds a PDB file with two overlapping sections, byte by byte, and its symbol file."""
import pathlib
import sys

HERE = pathlib.Path(__file__).resolve().parent
sys.path.append(str(HERE.parents[1] / "pdb_container_tests" / "data"))

from kinds import (Symbols, container, contribution, debug_stream, info_stream, item_stream, module_header,  # noqa: E402
                   section_header, string_stream, subsection, u8, u16, u32)
from other_forms import SHORT  # noqa: E402

# The type `void()`, by which the function is printed.
TYPES = [(0x1201, u32(0), None), (0x1008, u32(3) + u8(0, 0) + u16(0) + u32(0x1000), None)]

# The last 32 bytes of the first section, which has no code, are the first 32 bytes of the second one.
SECTIONS = section_header(0x1000, 0x120, 0x40000040) + section_header(0x1100, 0x100, 0x60000020)


def write_overlapping_sections():
    """Writes overlapping_sections.pdb. A function `f` of 64 bytes, in line 10 of `a.cpp`, is at the start of the second
    section."""
    symbols = Symbols(u32(4))
    symbols.put(0x1110, u32(0, 0, 0, 64, 0, 0, 0x1001, 0) + u16(2) + u8(0) + b"f\0", {"end": 0}, opens=4)
    symbols.close(6)
    rows = u32(0) + u16(2, 0) + u32(64) + u32(0, 1, 20) + u32(0, 10)
    code = subsection(0xF4, u32(1) + u8(0, 0) + u16(0)) + subsection(0xF2, rows)
    headers = module_header(10, len(symbols.data), len(code), b"a.obj")
    streams = [b"", info_stream(), item_stream(TYPES), debug_stream(headers, u32(SHORT) + contribution(2, 0, 64, 0)),
               item_stream([]), string_stream(), b"", None, b"", SECTIONS, symbols.data + code]
    (HERE / "overlapping_sections.pdb").write_bytes(container(streams))


def overlapping_section_cases(ended):
    """Yields cases. An address belongs to the first section that contains it. The function has no code in the first
    section, so it is found from its 33rd byte on."""
    write_overlapping_sections()
    yield "pdb_symbolizer -p overlapping_sections.pdb 0x1100 0x111f 0x1120 0x113f 0x1140", \
        2 * "?? at ??:0:0\n\n" + 2 * "f() at a.cpp:10:0\n\n" + "?? at ??:0:0\n\n" + ended
    yield "pdb_symbolizer --dump-syms overlapping_sections.pdb", "".join(f"{row}\n" for row in (
        "MODULE windows x86_64 030201000504070608090A0B0C0D0E0F1 overlapping_sections.pdb", "FILE 0 a.cpp",
        "FUNC 1120 20 0 f()", "1120 20 10 0")) + ended
