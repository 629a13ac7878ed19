"""Builds a PDB file with other forms of records whose kinds kinds.py has already, byte by byte, and the expected
records."""
import struct

from kinds import (SECTIONS, Symbols, class_of, container, debug_stream, info_stream, item_list, item_stream,
                   module_header, primitives, put_site, put_thunk, records, row, string_stream, subsection, text, u16,
                   u32, u8)

# All property bits, and all except the bits of a forward reference and of a unique name.
ALL, ALL_BUT_TWO = 0xFFFF, 0xFD7F


def procedure_type(flags, constructor):
    """Returns a procedure type with these flags."""
    return (0x1008, u32(0x74) + u8(0, flags) + u16(0) + u32(0x100C),
            {"kind": "Procedure", "return_type": 0x74, "is_constructor": constructor, "argument_list": 0x100C})


def method_type(flags, constructor):
    """Returns a method type with these flags."""
    return (0x1009, u32(3, 0x1010, 0x1002) + u8(11, flags) + u16(0) + u32(0x100C, 0),
            {"kind": "MemberFunction", "return_type": 3, "class_type": 0x1010, "this_pointer_type": 0x1002,
             "is_constructor": constructor, "argument_list": 0x100C})


TYPES = [
    procedure_type(0xFD, False), procedure_type(0xFF, True), method_type(0xFD, False), method_type(0xFF, True),
    class_of(0x1504, "Class", ALL, 8, u16(8), b"A", unique=b".?AVA@@", forward=True),
    class_of(0x1504, "Class", ALL_BUT_TWO, 8, u16(8), b"B"),
    # sizes as signed numbers
    class_of(0x1505, "Struct", 0, 100, u16(0x8000) + struct.pack("<b", 100), b"C"),
    class_of(0x1505, "Struct", 0, 300, u16(0x8001) + struct.pack("<h", 300), b"D"),
    class_of(0x1505, "Struct", 0, 70000, u16(0x8003) + struct.pack("<i", 70000), b"E"),
    class_of(0x1505, "Struct", 0, 5000000000, u16(0x8009) + struct.pack("<q", 5000000000), b"F"),
    class_of(0x1505, "Struct", 0, 0x7FFF, u16(0x7FFF), b"G"),
    (0x1001, u32(0x1000) + u16(0xFFFE), {"kind": "Modifier", "underlying_type": 0x1000, "constant": False}),
]


def end_at(symbols, at, end):
    """Sets the end of the procedure whose record is at an offset of the list."""
    symbols.data = symbols.data[:at + 8] + u32(end) + symbols.data[at + 12:]


def put_procedure_to(symbols, offset, end, wanted_end):
    """Adds a procedure with this offset as its end, and the expected position of that end."""
    content = u32(0, end, 0, 32, 0, 0, 0x1009, offset) + u16(1) + u8(0) + text(b"p")
    symbols.put(0x1110, content, {"kind": "Procedure", "section": 1, "offset": offset, "len": 32, "name": "p",
                                  "end": wanted_end, "type_index": 0x1009})


def module_symbols():
    """Returns procedures whose end isn't at a symbol, separated code of another section, and a thunk before a site."""
    symbols = Symbols(u32(4))
    # the end is at a record that is skipped: the next symbol counts
    put_procedure_to(symbols, 0x200, 0, 1)
    end_at(symbols, 4, len(symbols.data))
    symbols.passed(0x0402, u16(0))
    symbols.put(6, b"", {"kind": "Other"})
    # the end is between two symbols: the second one counts
    at = len(symbols.data)
    put_procedure_to(symbols, 0x220, 0, 4)
    end_at(symbols, at, len(symbols.data) + 2)
    symbols.put(6, b"", {"kind": "Other"})
    symbols.put(6, b"", {"kind": "Other"})
    # the end is before the first symbol, or after the last one
    put_procedure_to(symbols, 0x240, 0, 0)
    put_procedure_to(symbols, 0x260, 0xFFFFFFFF, LAST)
    # separated code in another section than its function
    symbols.put(0x1132, u32(0, 0, 8, 0, 0x500, 0x260) + u16(2, 1),
                {"kind": "SeparatedCode", "section": 2, "offset": 0x500, "len": 8, "parent_section": 1,
                 "parent_offset": 0x260, "end": 0}, opens=4)
    symbols.close(6)
    # a thunk before a site of the procedure: the site's offsets count from the procedure's start
    put_procedure_to(symbols, 0x100, 0xFFFFFFFF, LAST)
    put_thunk(symbols, 0x1102, 0x400, b"thunk")
    symbols.close(6)
    # the second row is in the second file
    put_site(symbols, 0x114D, 0x1000, u8(3, 1, 5, 8, 3, 1, 4, 2), [row(0x101, 1, 0, 50), row(0x102, 2, 1, 50)])
    symbols.close(0x114E)
    assert len(symbols.wanted) == LAST
    return symbols


LAST = 14


def module_code():
    """Returns subsections of lines in two sections, one of them with columns, and one that is marked as ignored. There
    are two subsections of imports and two of exports, and three imports."""
    files = subsection(0xF4, u32(1) + u8(0, 0) + u16(0) + u32(7) + u8(0, 0) + u16(0))
    inlinees = subsection(0xF6, u32(1) + u32(0x1000, 0, 50) + u32(1, 8))
    columns = u32(0, 2, 12 + 2 * 8 + 2 * 4) + u32(0, 7, 4, 8) + u16(1, 2, 3, 4)
    in_second = subsection(0xF2, u32(0x40) + u16(2, 1) + u32(16) + columns)
    of_no_line = u32(0, 4, 12 + 4 * 8) + u32(0, 0x80FEEFEE, 4, 5, 8, 0x80F00F00, 12, 0x80000006)
    in_first = subsection(0xF2, u32(0x100) + u16(1, 0) + u32(32) + of_no_line)
    ignored = subsection(0x800000F2, u32(0x300) + u16(1, 0) + u32(32) + u32(0, 1, 20) + u32(0, 9))
    imports = subsection(0xF7, u32(11, 1, 0x1001) + u32(1, 0) + u32(7, 2, 0x1002, 0x1003))
    exports = subsection(0xF8, u32(0x1001, 0x2001))
    data = (in_second + files + inlinees + ignored + in_first + imports + exports + subsection(0xF7, u32(7, 0))
            + subsection(0xF8, u32(1, 2)))
    return data, {
        "line_program": {
            "entries": [
                {"section": 1, "offset": 0x100,
                 "lines": [{"offset": 0x100, "file_index": 0, "line_start": 5},
                           {"offset": 0x10C, "file_index": 0, "line_start": 6}]},
                {"section": 2, "offset": 0x40,
                 "lines": [{"offset": 0x40, "file_index": 0, "line_start": 7},
                           {"offset": 0x44, "file_index": 0, "line_start": 8}]}],
            "files": [1, 7]},
        "inlinees": [0x1000],
        "imports": [{"module": 11, "locals": [0x1001]}, {"module": 1, "locals": []},
                    {"module": 7, "locals": [0x1002, 0x1003]}],
        "exports": [{"local": 0x1001, "global": 0x2001}],
    }


def whole():
    """Returns the file and the expected output."""
    symbols = module_symbols()
    code, info = module_code()
    old_lines = b"lines of the old form..."
    modules = module_header(10, len(symbols.data), len(code), b"a.obj", len(old_lines))
    streams = [b"", info_stream(), item_stream(TYPES, header=64), debug_stream(modules, b""), None, string_stream(), b"",
               None, b"", SECTIONS, symbols.data + old_lines + code]
    wanted = records(
        debug_information={"machine_type": "Amd64", "modules": [{"name": "a.obj"}], "section_contributions": []},
        type_information=primitives() + item_list(TYPES),
        module_infos=[{"symbols": symbols.wanted, **info}])
    return container(streams), [wanted]
