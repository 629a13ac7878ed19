"""Builds files that can't be read, or whose types, ids or public symbols can't be read, byte by byte, with the expected
message. A second line says which part is left out, if the rest can be used."""
from kinds import (SECTIONS, container, debug_stream, info_stream, item_stream, more_streams, string_stream, u32)

CUT = "the bytes end before what is said to stand there"


def streams(**changed):
    """Returns the streams of a file without modules. Arguments replace some of them."""
    made = {"info": info_stream(), "types": item_stream([]), "debug": debug_stream(b"", b""), "ids": item_stream([]),
            "publics": b"", "sections": SECTIONS, "more": b""}
    made.update(changed)
    return [b"", made["info"], made["types"], made["debug"], made["ids"], string_stream(), made["more"], None,
            made["publics"], made["sections"]]


def file_of(**changed):
    """Returns a function that builds the file with these streams."""
    return lambda: container(streams(**changed))


def streams_too_long():
    """Returns a file whose directory says that the first stream is one byte longer than the file."""
    made = bytearray(file_of()())
    size, map_block = (int.from_bytes(made[at:at + 4], "little") for at in (32, 52))
    directory = size * int.from_bytes(made[size * map_block:size * map_block + 4], "little")
    made[directory + 4:directory + 8] = u32(len(made) + 1)
    return bytes(made)


def old_types():
    """Returns a file whose types have the form from before 2005."""
    return container(streams(types=u32(19990903) + item_stream([])[4:]))


FILES = [
    ("program.exe", lambda: b"MZ" + bytes(510), "a program (EXE or DLL), not its PDB file"),
    ("portable.pdb", lambda: b"BSJB" + bytes(508), "a .NET portable PDB"),
    ("cabinet.pd_", lambda: b"MSCF" + bytes(508), "a compressed file (CAB, .pd_)"),
    ("compressed.pd_", lambda: b"SZDD\x88\xf0\x27\x33" + bytes(504), "a compressed file (CAB, .pd_)"),
    ("version_2.pdb", lambda: b"Microsoft C/C++ program database 2.00\r\n\x1aJG\0\0" + bytes(470),
     "a PDB file of version 2.00 (JG)"),
    ("text.pdb", lambda: b"Microsoft C", "not a PDB file"),
    ("blocks_of_no_size.pdb", lambda: file_of()()[:32] + u32(1000) + file_of()()[36:], "not a PDB file"),
    ("superblock_alone.pdb", lambda: file_of()()[:56], "the file is cut short before the end of its directory"),
    ("streams_too_long.pdb", streams_too_long, "the streams are longer than the file together"),
    ("objects.pdb", file_of(debug=b""), "a compiler's PDB file, of objects and not of a program"),
    ("no_debug_stream.pdb", file_of(debug=None), "a compiler's PDB file, of objects and not of a program"),
    ("old_debug.pdb", file_of(debug=u32(930803) + bytes(60)),
     "debug information: a signature or a version that isn't known"),
    ("cut_debug.pdb", file_of(debug=debug_stream(b"", b"")[:63]), "debug information: " + CUT),
    ("old_types.pdb", old_types, "types: made by a version from before 2005 (20000404)\nNoTypes(StreamError(5))"),
    ("no_types.pdb", file_of(types=None), "types: the file has no such stream\nNoTypes(StreamError(2))"),
    ("types_behind_their_end.pdb", file_of(types=item_stream([])[:4] + u32(57) + item_stream([])[8:]),
     "types: it begins behind its own end\nNoTypes(StreamError(7))"),
    ("cut_ids.pdb", file_of(ids=item_stream([])[:19]), "ids: " + CUT + "\nNoIds(StreamError(1))"),
    ("no_global_symbols.pdb", file_of(publics=None), "global symbols: the file has no such stream\nNoGlobalSymbols(StreamError(2))"),
    ("stripped.pdb", file_of(debug=debug_stream(b"", b"", more_streams(sections=0xFFFF))), "no section headers (stripped)"),
    ("stripped_of_all.pdb", file_of(debug=debug_stream(b"", b"", b"")), "no section headers (stripped)"),
    ("cut_sections.pdb", file_of(sections=SECTIONS[:79]), "section headers: " + CUT),
    ("rearranged_to.pdb", file_of(debug=debug_stream(b"", b"", more_streams(to=6)), more=u32(0x1000, 0x2000)),
     "rearranged addresses (OMAP): not read"),
    ("rearranged_back.pdb", file_of(debug=debug_stream(b"", b"", more_streams(back=6)), more=u32(0x1000, 0x2000)),
     "rearranged addresses (OMAP): not read"),
]
