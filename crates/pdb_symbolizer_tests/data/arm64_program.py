"""Builds an ARM64 program with its PDB file, byte by byte, and its symbol file."""
import struct

from frame_data import HERE, write_pdb
from kinds import more_streams, u8, u16, u32

TEXT, DATA = (0x1000, 0x400), (0x2000, 0x600)

# The unwind codes of a prologue, last instruction first: mov x29, sp; stp x29, x30, [sp, #-48]!; stp x19, x20, [sp,
# #-16]!
CODES = u8(0xE1, 0x80 | 5, 0x20 | 2, 0xE4)


def section(name, place):
    """Returns the header of a section of 512 bytes in memory and in the file."""
    rva, offset = place
    return name.ljust(8, b"\0") + u32(512, rva, 512, offset) + bytes(16)


def directory(entries):
    """Returns the data directories. Those without an entry are empty."""
    return b"".join(u32(*entries.get(number, (0, 0))) for number in range(16))


def write_program():
    """Writes arm64.exe and arm64.pdb. One function's unwind info has one word of codes and no epilogue. Another
    function's unwind data has a reserved flag."""
    headers = u8(0x4D, 0x5A).ljust(0x3C, b"\0") + u32(0x40) + b"PE\0\0"
    headers += u16(0xAA64, 2) + u32(0x01020304, 0, 0) + u16(240, 0)
    headers += (u16(0x20B).ljust(24, b"\0") + struct.pack("<Q", 0x140000000) + bytes(24) + u32(0x3000)).ljust(108, b"\0")
    headers += u32(16) + directory({3: (0x2000, 16), 6: (0x2040, 28)}) + section(b".text", TEXT) + section(b".pdata", DATA)
    entries = u32(0x1100, 0x2020, 0x1140, 3)
    unwind_info = u32(16 | 1 << 27) + CODES
    name = b"RSDS" + bytes(range(16)) + u32(1) + b"arm64.pdb\0"
    debug = u32(0, 0, 0, 2, len(name), 0x2060, DATA[1] + 0x60)
    data = (entries.ljust(0x20, b"\0") + unwind_info).ljust(0x40, b"\0") + debug.ljust(0x20, b"\0") + name
    program = headers.ljust(TEXT[1], b"\0") + bytes(512) + data.ljust(512, b"\0")
    (HERE / "arm64.exe").write_bytes(program)
    write_pdb("arm64.pdb", 0xAA64, more_streams())


def arm64_cases(error, ended):
    """Yields a case. Each instruction of the prologue that changes a rule has a record after it."""
    write_program()
    yield "pdb_symbolizer --dump-syms arm64.exe", error(
        "arm64.exe: no unwind records at 0x1140: the unwind data has a reserved flag") + "".join(f"{row}\n" for row in (
            "MODULE windows arm64 030201000504070608090A0B0C0D0E0F1 arm64.pdb", "INFO CODE_ID 010203043000 arm64.exe",
            "FILE 0 a.cpp", "FUNC 1100 40 0 f()", "1100 40 10 0", "STACK CFI INIT 1100 40 .cfa: sp 0 + .ra: x30",
            "STACK CFI 1104 .cfa: sp 16 + x19: .cfa 16 - ^ x20: .cfa 8 - ^",
            "STACK CFI 1108 .cfa: sp 64 + .ra: .cfa 56 - ^ x29: .cfa 64 - ^ x30: .cfa 56 - ^",
            "STACK CFI 110c .cfa: x29 64 +")) + ended
