"""Builds a PDB file of an x86 program with frame data and FPO data, byte by byte, and its symbol file."""
import pathlib
import sys

HERE = pathlib.Path(__file__).resolve().parent
sys.path.append(str(HERE.parents[1] / "pdb_container_tests" / "data"))

from kinds import (SECTIONS, Symbols, container, contribution, debug_stream, info_stream, item_stream,  # noqa: E402
                   module_header, subsection, u8, u16, u32)
from other_forms import SHORT  # noqa: E402

# The type `void()`, by which the function is printed.
TYPES = [(0x1201, u32(0), None), (0x1008, u32(3) + u8(0, 0) + u16(0) + u32(0x1000), None)]

# File names and programs, each at its offset. The third program has a line break.
NAMES = b"\0a.cpp\0"
RETURN, SAVED, BROKEN = b"$T0 .raSearch = $eip $T0 ^ = \0", b"$ebx $T0 8 - ^ = \0", b"$T0\n\0"
TEXTS = NAMES + RETURN + SAVED + BROKEN
AT_RETURN, AT_SAVED = len(NAMES), len(NAMES) + len(RETURN)
AT_BROKEN = AT_SAVED + len(SAVED)


def frame_data(rva, size, program, local_size=0, parameters=0, stack=0, prologue=0, saved=0):
    """Returns an entry of frame data."""
    return u32(rva, size, local_size, parameters, stack, program) + u16(prologue, saved) + u32(4)


def fpo(rva, size, words, parameters, prologue, registers, base_pointer, frame):
    """Returns an entry of FPO data. Sizes are in units of four bytes, except the prologue's."""
    return u32(rva, size, words) + u16(parameters, prologue | registers << 8 | base_pointer << 12 | frame << 14)


ENTRIES = [frame_data(0x1100, 64, AT_RETURN, 20, 8, 12, 7, 4), frame_data(0x1107, 57, AT_SAVED, 20, 8, 12, 0, 16),
           frame_data(0x1140, 0, AT_RETURN), frame_data(0x1150, 4, 999), frame_data(0x1160, 4, AT_BROKEN),
           frame_data(0xFFFFFFF0, 17, AT_RETURN), frame_data(0xFFFFFFF0, 16, AT_RETURN)]
FPO = [fpo(0x1100, 64, 0, 3, 0, 0, 0, 0), fpo(0x1180, 20, 3, 2, 5, 3, 1, 0), fpo(0x1190, 0, 0, 0, 0, 0, 0, 0),
       fpo(0x11A0, 8, 0, 0, 0, 0, 0, 3)]


def write_pdb(name, machine, more, others=()):
    """Writes a PDB file with a function `f` of 64 bytes, in line 10 of `a.cpp`. The streams `others` follow the
    module's."""
    symbols = Symbols(u32(4))
    symbols.put(0x1110, u32(0, 0, 0, 64, 0, 0, 0x1001, 0x100) + u16(1) + u8(0) + b"f\0", {"end": 0}, opens=4)
    symbols.close(6)
    rows = u32(0x100) + u16(1, 0) + u32(64) + u32(0, 1, 20) + u32(0, 10)
    code = subsection(0xF4, u32(1) + u8(0, 0) + u16(0)) + subsection(0xF2, rows)
    headers = module_header(10, len(symbols.data), len(code), b"a.obj")
    debug = debug_stream(headers, u32(SHORT) + contribution(1, 0x100, 64, 0), more, machine)
    texts = u32(0xEFFEEFFE, 1, len(TEXTS)) + TEXTS + u32(0, 0)
    streams = [b"", info_stream(), item_stream(TYPES), debug, item_stream([]), texts, b"", None, b"", SECTIONS,
               symbols.data + code, *others]
    (HERE / name).write_bytes(container(streams))


def write_frame_data():
    """Writes frame_data.pdb. Its frame data follows a header of four bytes, and its FPO data ends inside an entry."""
    none = 65535
    more = u16(11, none, none, none, none, 9, none, none, none, 12)
    write_pdb("frame_data.pdb", 0x14C, more, [b"".join(FPO) + u32(1), u32(0) + b"".join(ENTRIES)])


def frame_data_cases(error, ended):
    """Yields cases. Each entry has a record, or a line on standard error with the reason. The function's parameter size
    is that of the frame data, although an entry of FPO data covers the function too."""
    write_frame_data()
    left_out = "frame_data.pdb: no unwind records at 0x{:x}: {}"
    yield "pdb_symbolizer --dump-syms frame_data.pdb", "".join((
        error(left_out.format(0x1140, "the frame data covers no code")),
        error(left_out.format(0x1150, "the frame data names a program string that isn't there")),
        error(left_out.format(0x1160, "the program string of the frame data isn't text")),
        error(left_out.format(0xFFFFFFF0, "the frame data reaches past the end of the address space")),
        error(left_out.format(0x1190, "the frame data covers no code")),
        error("frame_data.pdb: FPO data ends early: the bytes end before what is said to stand there"),
    )) + "".join(f"{row}\n" for row in (
        "MODULE windows x86 030201000504070608090A0B0C0D0E0F1 frame_data.pdb", "FILE 0 a.cpp",
        "FUNC 1100 40 8 f()", "1100 40 10 0",
        "STACK WIN 4 1100 40 7 0 8 4 14 c 1 $T0 .raSearch = $eip $T0 ^ = ",
        "STACK WIN 4 1107 39 0 0 8 10 14 c 1 $ebx $T0 8 - ^ = ",
        "STACK WIN 4 fffffff0 10 0 0 0 0 0 0 1 $T0 .raSearch = $eip $T0 ^ = ",
        "STACK WIN 0 1100 40 0 0 c 0 0 0 0 0", "STACK WIN 0 1180 14 5 0 8 c c 0 0 1", "STACK WIN 3 11a0 8 0 0 0 0 0 0 0 0")) + ended
