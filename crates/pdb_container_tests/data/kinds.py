"""Builds a PDB file with a record of each kind, byte by byte, and the expected records.

Each record is written twice, side by side: as bytes in the layout of Microsoft's headers and LLVM's documents, and as
its member of a records file (docs/FORMAT.md). Nothing is taken from the reader under test. `write_files.py` writes the
file.
"""
import json
import struct

BLOCK = 512
VERSION = 20040203
CUT, BAD_NUMBER, APART = 1, 9, 10
NO_FILE = 0xFFFFFFFF


def u8(*numbers):
    """Packs numbers of one byte."""
    return struct.pack(f"<{len(numbers)}B", *numbers)


def u16(*numbers):
    """Packs numbers of two bytes."""
    return struct.pack(f"<{len(numbers)}H", *numbers)


def u32(*numbers):
    """Packs numbers of four bytes."""
    return struct.pack(f"<{len(numbers)}I", *numbers)


def text(name):
    """Returns a text that ends with a zero byte."""
    return name + b"\0"


def short(name):
    """Returns a text after a byte with its length."""
    return u8(len(name)) + name


def aligned(data, fill=b"\0"):
    """Fills bytes up to a multiple of four."""
    return data + fill * (-len(data) % 4)


def shown(name):
    """Returns a name as a records file has it: a text, or its bytes if they are not UTF-8."""
    try:
        return name.decode()
    except UnicodeDecodeError:
        return list(name)


# --- types -----------------------------------------------------------------------------------------------------------

PRIMITIVES = [
    (0x00, "NoType"), (0x03, "Void"), (0x08, "HRESULT"), (0x10, "Char"), (0x11, "Short"), (0x12, "Long"),
    (0x13, "Quad"), (0x14, "Octa"), (0x20, "UChar"), (0x21, "UShort"), (0x22, "ULong"), (0x23, "UQuad"),
    (0x24, "UOcta"), (0x30, "Bool8"), (0x31, "Bool16"), (0x32, "Bool32"), (0x33, "Bool64"), (0x40, "F32"),
    (0x41, "F64"), (0x42, "F80"), (0x43, "F128"), (0x44, "F48"), (0x45, "F32PP"), (0x46, "F16"),
    (0x50, "Complex32"), (0x51, "Complex64"), (0x52, "Complex80"), (0x53, "Complex128"), (0x68, "I8"), (0x69, "U8"),
    (0x70, "RChar"), (0x71, "WChar"), (0x72, "I16"), (0x73, "U16"), (0x74, "I32"), (0x75, "U32"), (0x76, "I64"),
    (0x77, "U64"), (0x78, "I128"), (0x79, "U128"), (0x7A, "RChar16"), (0x7B, "RChar32"), (0x7C, "Char8"),
]


# The index of `std::nullptr_t`, and that of a pointer to void.
NULL_POINTER, VOID_POINTER = 0x103, 0x603


def primitives():
    """Returns the built-in types: each primitive, and the seven kinds of pointers to it. One of these pointers is
    `std::nullptr_t`."""
    items = [{"index": mode * 256 + number, "kind": "Primitive", "primitive": name, "indirection": mode > 0}
             for mode in range(8) for number, name in PRIMITIVES]
    null_pointer = {"index": NULL_POINTER, "kind": "Enumeration", "name": "std::nullptr_t",
                    "underlying_type": VOID_POINTER}
    return [null_pointer if item["index"] == NULL_POINTER else item for item in items]


def pointer(mode, attributes, size, const=False):
    """Returns a pointer to the type 0x74, with these bits as its attributes."""
    return (0x1002, u32(0x74, attributes),
            {"kind": "Pointer", "underlying_type": 0x74, "mode": mode, "is_const": const, "size": size})


def class_of(leaf, kind, properties, size, front, name, unique=None, forward=False):
    """Returns a class, a struct or an interface with three members. `front` is its size as the record has it."""
    wanted = {"kind": "Class", "class_kind": kind, "name": shown(name)}
    if unique is not None:
        wanted["unique_name"] = shown(unique)
    wanted.update({"size": size, "forward_reference": forward})
    more = b"" if unique is None else text(unique)
    return (leaf, u16(3, properties) + u32(0x1234, 0, 0) + front + text(name) + more, wanted)


def newer_class(leaf, kind, properties, front, size, name, unique=None):
    """Returns a class, a struct or an interface with three members, in the newer layout."""
    wanted = {"kind": "Class", "class_kind": kind, "name": shown(name)}
    if unique is not None:
        wanted["unique_name"] = shown(unique)
    wanted.update({"size": size, "forward_reference": properties & 0x80 != 0})
    more = b"" if unique is None else text(unique)
    return (leaf, u32(properties, 0x1234, 0, 0) + u16(3) + front + text(name) + more, wanted)


def union(properties, name, unique=None, forward=False):
    """Returns a union of sixteen bytes with two members."""
    wanted = {"kind": "Union", "name": shown(name)}
    if unique is not None:
        wanted["unique_name"] = shown(unique)
    wanted.update({"size": 16, "forward_reference": forward})
    more = b"" if unique is None else text(unique)
    return (0x1506, u16(2, properties) + u32(0x1234) + u16(16) + text(name) + more, wanted)


def enumerate_of(front, kind, value):
    """Returns a value of an enumeration. `front` is its number as the record has it."""
    return (0x1502, u16(3) + front + text(b"Red"),
            {"kind": "Enumerate", "name": "Red", "value": {"kind": kind, "value": value}})


def other(leaf, name):
    """Returns a type or id of a kind that a records file only names."""
    return (leaf, u32(0, 0), {"kind": "Other", "kind_name": name})


TYPES = [
    (0x1001, u32(0x74) + u16(1), {"kind": "Modifier", "underlying_type": 0x74, "constant": True}),
    (0x1001, u32(0x1000) + u16(6), {"kind": "Modifier", "underlying_type": 0x1000, "constant": False}),
    pointer("Pointer", 0x1000C, 8),
    pointer("Pointer", 0x800A | 0x400, 4, const=True),
    pointer("LValueReference", 0x0C | 1 << 5, 8),
    pointer("Member", 0x0A | 2 << 5, 4),
    pointer("MemberFunction", 0x0C | 3 << 5 | 16 << 13, 16),
    pointer("RValueReference", 0x0B | 4 << 5, 0),
    (0x1002, u32(0x74, 7 << 5), {"error": {"stream": BAD_NUMBER}}),
    (0x1008, u32(0x74) + u8(0, 0) + u16(2) + u32(0x100C),
     {"kind": "Procedure", "return_type": 0x74, "is_constructor": False, "argument_list": 0x100C}),
    (0x1008, u32(0) + u8(0, 2) + u16(0) + u32(0x100C),
     {"kind": "Procedure", "is_constructor": True, "argument_list": 0x100C}),
    (0x1009, u32(3, 0x1010, 0x1002) + u8(11, 2) + u16(1) + u32(0x100C, 0),
     {"kind": "MemberFunction", "return_type": 3, "class_type": 0x1010, "this_pointer_type": 0x1002,
      "is_constructor": True, "argument_list": 0x100C}),
    (0x1201, u32(2, 0x74, 0x40), {"kind": "ArgumentList", "arguments": [0x74, 0x40]}),
    (0x1009, u32(3, 0x1010, 0) + u8(0, 0) + u16(0) + u32(0x100C, 0),
     {"kind": "MemberFunction", "return_type": 3, "class_type": 0x1010, "is_constructor": False,
      "argument_list": 0x100C}),
    (0x1201, u32(0), {"kind": "ArgumentList", "arguments": []}),
    (0x1201, u32(2, 0x74), {"error": {"stream": CUT}}),
    class_of(0x1504, "Class", 0, 12, u16(12), b"C"),
    class_of(0x1505, "Struct", 0x200, 70000, u16(0x8004) + u32(70000), b"S", unique=b".?AUS@@"),
    class_of(0x1505, "Struct", 0x280, 0, u16(0), b"S", unique=b".?AUS@@", forward=True),
    class_of(0x1519, "Interface", 0, 5000000000, u16(0x800A) + struct.pack("<Q", 5000000000), b"I\xff"),
    class_of(0x1505, "Struct", 0, 40000, u16(0x8002, 40000), b"W"),
    (0x1505, u16(3, 0) + u32(0, 0, 0) + u16(0x8001) + struct.pack("<h", -1) + text(b"N"),
     {"error": {"stream": BAD_NUMBER}}),
    union(0, b"U"),
    union(0x280, b"U", unique=b".?ATU@@", forward=True),
    (0x1507, u16(2, 0) + u32(0x74, 0x1019) + text(b"E"),
     {"kind": "Enumeration", "name": "E", "underlying_type": 0x74}),
    enumerate_of(u16(7), "U16", 7),
    enumerate_of(u16(0x8000) + struct.pack("<b", -2), "I8", -2),
    enumerate_of(u16(0x8001) + struct.pack("<h", -300), "I16", -300),
    enumerate_of(u16(0x8002, 40000), "U16", 40000),
    enumerate_of(u16(0x8003) + struct.pack("<i", -70000), "I32", -70000),
    enumerate_of(u16(0x8004) + u32(70000), "U32", 70000),
    enumerate_of(u16(0x8009) + struct.pack("<q", -5000000000), "I64", -5000000000),
    enumerate_of(u16(0x800A) + struct.pack("<Q", 5000000000), "U64", 5000000000),
    (0x1502, u16(3, 0x8005) + u32(0) + text(b"Red"), {"error": {"stream": BAD_NUMBER}}),
    (0x1503, u32(0x74, 0x23) + u16(24) + text(b""),
     {"kind": "Array", "element_type": 0x74, "first": 24, "rest": []}),
    (0x1503, u32(0x74, 0x23) + u16(0x800A) + struct.pack("<Q", 5000000000) + text(b""),
     {"error": {"stream": BAD_NUMBER}}),
    newer_class(0x1608, "Class", 0, u16(12), 12, b"C2"),
    newer_class(0x1609, "Struct", 0x200, u16(0x8004) + u32(70000), 70000, b"S2", unique=b".?AUS2@@"),
    newer_class(0x1609, "Struct", 0x10280, u16(0), 0, b"S2", unique=b".?AUS2@@"),
    newer_class(0x160B, "Interface", 0xFD7F, u16(8), 8, b"I2"),
    (0x160A, u32(0x200, 0x1234) + u16(2, 16) + text(b"U2") + text(b".?ATU2@@"),
     {"kind": "Union", "name": "U2", "unique_name": ".?ATU2@@", "size": 16, "forward_reference": False}),
    (0x1608, u32(0, 0, 0, 0), {"error": {"stream": CUT}}),
    other(0x1203, "FieldList"),
    other(0x1205, "Bitfield"),
    other(0x1206, "MethodList"),
    other(0x151D, "VirtualFunctionTable"),
    (0x000A, u16(1) + u8(5), {"kind": "Other", "kind_name": "VirtualFunctionTableShape"}),
    (0x150A, u32(0x75) + text(b"COLORREF"),
     {"kind": "Enumeration", "name": "COLORREF", "underlying_type": 0x75}),
    (0x150A, u32(0x75) + b"no end", {"error": {"stream": CUT}}),
    (0x1508, u32(0x40, 0x1234) + text(b"matrix"),
     {"kind": "Array", "element_type": 0x40, "first": 0, "rest": []}),
    (0x1508, u32(0x40), {"error": {"stream": CUT}}),
    (0x150B, u32(0), {"error": {"unimplemented": 0x150B}}),
    (0x1504, u16(3), {"error": {"stream": CUT}}),
]

IDS = [
    (0x1601, u32(0, 0x1009) + text(b"main"), {"kind": "Function", "function_type": 0x1009, "name": "main"}),
    (0x1601, u32(0x1002, 0x1009) + text(b"f"),
     {"kind": "Function", "scope": 0x1002, "function_type": 0x1009, "name": "f"}),
    (0x1605, u32(0) + text(b"space"), {"kind": "String", "name": "space"}),
    (0x1602, u32(0x1010, 0x100B) + text(b"C"),
     {"kind": "MemberFunction", "parent": 0x1010, "function_type": 0x100B, "name": "C"}),
    (0x1604, u32(1, 0x1002), {"kind": "StringList", "substrings": [0x1002]}),
    other(0x1603, "BuildInfo"),
    other(0x1606, "UserDefinedTypeSource"),
    other(0x1607, "UserDefinedTypeSource"),
    (0x1608, u32(0), {"error": {"unimplemented": 0x1608}}),
    (0x1605, u32(0) + b"no end", {"error": {"stream": CUT}}),
]


def item_stream(items, first=0x1000, header=56):
    """Returns a stream of types or of ids: its header, and each record after its length."""
    records = b"".join(u16(len(content) + 2, leaf) + content for leaf, content, _ in items)
    return u32(VERSION, header, first, first + len(items), len(records)) + bytes(header - 20) + records


def item_list(items, first=0x1000):
    """Returns the items as a records file has them."""
    return [{"index": first + number, **wanted} for number, (_, _, wanted) in enumerate(items)]


# --- symbols ---------------------------------------------------------------------------------------------------------

class Symbols:
    """A list of symbols after the number of its form, and the expected records."""

    def __init__(self, front):
        self.data = front
        self.wanted = []
        self.ends = []

    def passed(self, kind, content):
        """Adds a record that readers skip."""
        self.data += u16(len(content) + 2, kind) + content

    def put(self, kind, content, wanted, opens=None):
        """Adds a symbol. If it opens a scope, the offset of its closing symbol is written at `opens` later."""
        if opens is not None:
            self.ends.append((len(self.data) + 4 + opens, len(self.wanted)))
        self.data += u16(len(content) + 2, kind) + content
        self.wanted.append({"raw_kind": kind, **({} if wanted is None else {"data": wanted})})

    def close(self, kind):
        """Adds the symbol that closes the last open one."""
        at, opened = self.ends.pop()
        self.data = self.data[:at] + u32(len(self.data)) + self.data[at + 4:]
        self.wanted[opened]["data"]["end"] = len(self.wanted)
        self.put(kind, b"", {"kind": "Other"})


def name_of(kind, name):
    """Returns a symbol's name in the form of its kind."""
    return short(name) if kind < 0x1100 else text(name)


# Kinds of procedures for Itanium and for managed code, and the kinds that they have in the records.
AS_OTHERS = {0x1118: 0x110F, 0x1119: 0x1110, 0x112A: 0x1110, 0x112B: 0x110F}
MANAGED = {0x112A, 0x112B}


def put_procedure(symbols, kind, offset, name):
    """Adds a procedure of 32 bytes in section 1. Flags follow its section, and in two forms also the number of a
    register. Managed code has a token instead of its type."""
    behind = u8(0, 0x2A, 0x2A) if kind in AS_OTHERS else u8(0)
    typed = 0x06000001 if kind in MANAGED else 0x1009
    content = u32(0, 0, 0, 32, 0, 0, typed, offset) + u16(1) + behind + name_of(kind, name)
    symbols.put(kind, content, {"kind": "Procedure", "section": 1, "offset": offset, "len": 32, "name": shown(name),
                                "end": 0, "type_index": 0 if kind in MANAGED else 0x1009}, opens=4)
    symbols.wanted[-1]["raw_kind"] = AS_OTHERS.get(kind, kind)


def put_thunk(symbols, kind, offset, name):
    """Adds a thunk of six bytes in section 1."""
    content = u32(0, 0, 0, offset) + u16(1, 6) + u8(0) + name_of(kind, name)
    symbols.put(kind, content, {"kind": "Thunk", "section": 1, "offset": offset, "len": 6, "name": shown(name),
                                "end": 0}, opens=4)


def put_site(symbols, kind, inlinee, annotations, rows):
    """Adds an inline site."""
    front = u32(0, 0, inlinee) + (u32(1) if kind == 0x115D else b"")
    symbols.put(kind, front + annotations, {"kind": "InlineSite", "inlinee": inlinee, "end": 0, "rows": rows}, opens=4)


def put_chunk(symbols, offset, parent, name=None):
    """Adds eight bytes of separated code. With a name it is expected as a procedure of that name."""
    content = u32(0, 0, 8, 0, offset, parent) + u16(1, 1)
    if name is None:
        wanted = {"kind": "SeparatedCode", "section": 1, "offset": offset, "len": 8, "parent_section": 1,
                  "parent_offset": parent, "end": 0}
    else:
        wanted = {"kind": "Procedure", "section": 1, "offset": offset, "len": 8, "name": name, "end": 0,
                  "type_index": 0x1009}
    symbols.put(0x1132, content, wanted, opens=4)


def put_trampoline(symbols, offset, target, name=None, type_index=0):
    """Adds a jump of five bytes. If its function is known, it is expected as a procedure of that name."""
    content = u16(0, 5) + u32(offset, target) + u16(1, 1)
    if name is None:
        symbols.put(0x112C, content, {"kind": "SeparatedCode", "section": 1, "offset": offset, "len": 5,
                                      "parent_section": 1, "parent_offset": target, "end": 0})
        return
    symbols.put(0x112C, content, {"kind": "Procedure", "section": 1, "offset": offset, "len": 5, "name": name,
                                  "end": 0, "type_index": type_index})
    symbols.wanted[-1]["raw_kind"] = 0x1102


def row(offset, length, file_index, line):
    """Returns a row of a site."""
    wanted = {"offset": offset}
    if length is not None:
        wanted["length"] = length
    wanted.update({"file_index": file_index, "line_start": line})
    return wanted


def faulty(items, fault):
    """Returns a list that was read up to a fault."""
    return {"items": items, "fault": fault}


PROCEDURES = [(0x100A, b"local, old"), (0x100B, b"global, old"), (0x110F, b"local"), (0x1110, b"global"),
              (0x1146, b"local by id"), (0x1147, b"global by id"), (0x1155, b"local, device"),
              (0x1156, b"local by id, device"), (0x1118, b"local, Itanium"), (0x1119, b"global, Itanium"),
              (0x112A, b"global, managed"), (0x112B, b"local, managed")]

# The annotations of a site in a procedure at offset 0x100, and the expected rows. The inlinee starts at line 50 of the
# first file. Annotations are pairs of a kind and a number. A number below 128 is one byte. In a change of line the
# lowest bit is the sign.
SITES = [
    # offset +4: a row, which the next one ends; offset +2 and line +3: a row; its length 5
    (u8(3, 4, 11, 0x62, 4, 5),
     [row(0x104, 2, 0, 50), row(0x106, 5, 0, 53)]),
    # line -2, the second file, offset +1: a row without an end
    (u8(6, 5, 5, 8, 3, 1), [row(0x101, None, 1, 48)]),
    # length 3 and offset +0x81: a row with its own length; numbers of two and of four bytes
    (u8(12, 3) + u8(0x80, 0x81) + u8(3) + u8(0xC0, 0x01, 0x00, 0x02) + u8(4, 1),
     [row(0x181, 3, 0, 50), row(0x10183, 1, 0, 50)]),
    # from 0x10 after the procedure's start on; kinds that rows don't show; 0 ends the list
    (u8(1, 0x10, 7, 1, 8, 1, 9, 2, 10, 3, 13, 1, 2, 0, 3, 2, 4, 2) + u8(0, 3, 9), [row(0x112, 2, 0, 50)]),
    # in the function's first chunk, offset +2; then from 0x10 after the chunk's start on
    (u8(3, 1, 2, 1, 3, 2, 4, 3, 1, 0x10, 3, 0),
     [row(0x101, None, 0, 50), row(0x502, 3, 0, 50), row(0x510, None, 0, 50)]),
    # in the third chunk
    (u8(2, 3, 3, 1, 4, 1), [row(0x541, 1, 0, 50)]),
    # in a fourth chunk, which doesn't exist
    (u8(3, 1, 2, 4), faulty([row(0x101, None, 0, 50)], APART)),
    # an unknown kind
    (u8(3, 1, 14, 1), faulty([row(0x101, None, 0, 50)], BAD_NUMBER)),
    # a file offset at which no file starts
    (u8(5, 4, 3, 1, 4, 1), [row(0x101, 1, NO_FILE, 50)]),
]


def module_symbols():
    """Returns symbols of a module, of each kind."""
    symbols = Symbols(u32(4))
    for number, (kind, name) in enumerate(PROCEDURES):
        put_procedure(symbols, kind, 0x200 + 32 * number, name)
        symbols.close(6)
    put_thunk(symbols, 0x0206, 0x400, b"thunk, old")
    symbols.close(6)
    put_thunk(symbols, 0x1102, 0x410, b"thunk\xe9")
    symbols.close(6)
    # a chunk that doesn't follow its function is a procedure with the function's name
    put_chunk(symbols, 0x500, 0x100, "with sites")
    symbols.close(6)
    # a chunk of an unknown function stays as it is
    put_chunk(symbols, 0x508, 0x9999)
    symbols.close(6)
    symbols.passed(0x0402, u16(0))
    symbols.passed(0x0007, u32(0))
    put_procedure(symbols, 0x1110, 0x100, b"with sites")
    for number, (annotations, rows) in enumerate(SITES):
        put_site(symbols, 0x114D if number % 2 == 0 else 0x115D, 0x1000, annotations, rows)
        symbols.close(0x114E)
    # a site has no rows if the module doesn't list its inlinee
    put_site(symbols, 0x114D, 0x1003, u8(3, 4), [])
    symbols.close(0x114E)
    symbols.close(6)
    # a chunk after its function, with a site that starts at the chunk, and a second chunk
    put_chunk(symbols, 0x520, 0x100)
    put_site(symbols, 0x114D, 0x1000, u8(3, 4, 4, 2), [row(0x524, 2, 0, 50)])
    symbols.close(0x114E)
    symbols.close(6)
    put_chunk(symbols, 0x540, 0x100, "with sites")
    symbols.close(6)
    put_trampoline(symbols, 0x600, 0x200, "local, old", 0x1009)
    put_trampoline(symbols, 0x605, 0x20, "?f@@YAXXZ", 0)
    put_trampoline(symbols, 0x60A, 0x7777)
    symbols.put(0x112C, u16(0, 5) + u32(0x60F, 0x200), None)
    symbols.put(0x110E, u32(0, 0x10) + u16(1) + text(b"public here"),
                {"kind": "Public", "section": 1, "offset": 0x10, "name": "public here"})
    symbols.put(0x1101, u32(0) + text(b"object"), {"kind": "Other"})
    symbols.put(0x1110, u32(0, 0), None)
    return symbols


def global_symbols():
    """Returns both kinds of public symbols, one symbol of another kind, and one that is cut."""
    symbols = Symbols(b"")
    symbols.put(0x110E, u32(2, 0x20) + u16(1) + text(b"?f@@YAXXZ"),
                {"kind": "Public", "section": 1, "offset": 0x20, "name": "?f@@YAXXZ"})
    symbols.put(0x1009, u32(2, 0x30) + u16(1) + short(b"old\xff"),
                {"kind": "Public", "section": 1, "offset": 0x30, "name": list(b"old\xff")})
    # at the start of a procedure, whose name a jump has
    symbols.put(0x110E, u32(2, 0x200) + u16(1) + text(b"?local@@YAXXZ"),
                {"kind": "Public", "section": 1, "offset": 0x200, "name": "?local@@YAXXZ"})
    symbols.put(0x1125, u32(0, 0, 0) + u16(1) + text(b"reference"), {"kind": "Other"})
    symbols.put(0x110E, u32(2), None)
    symbols.data += u16(60, 0x110E)
    return symbols


# --- lines, files, inlinees, imports, exports ------------------------------------------------------------------------

TEXTS = b"\0a.cpp\0b.h\0c.obj\0"
FIRST, SECOND, IMPORTED = 1, 7, 11


def subsection(kind, content):
    """Returns a subsection of a module."""
    return aligned(u32(kind, len(content)) + content)


def lines():
    """Returns rows of one function in two files. Rows with the line numbers 0xFEEFEE and 0xF00F00 mean no line, and are
    skipped. The flag for columns is set, but there are no columns."""
    of_first = u32(0, 4, 12 + 4 * 8) + u32(0, 10 | 1 << 31, 4, 0xFEEFEE, 8, 0xF00F00, 12, 12 | 3 << 24)
    of_second = u32(8, 1, 12 + 8) + u32(16, 99)
    content = u32(0x100) + u16(1, 1) + u32(32) + of_first + of_second
    wanted = {"section": 1, "offset": 0x100,
              "lines": [{"offset": 0x100, "file_index": 0, "line_start": 10},
                        {"offset": 0x10C, "file_index": 0, "line_start": 12},
                        {"offset": 0x110, "file_index": 1, "line_start": 99}]}
    return subsection(0xF2, content), wanted


def lines_of_more_procedures():
    """Returns a subsection of lines over three procedures of 32 bytes. The first is at the subsection's start. If two
    rows have the same offset, the last one wins. Each procedure has an entry: the row that covers its start (or the
    first row after it), moved to the start, and all later rows."""
    of_first = u32(0, 2, 12 + 2 * 8) + u32(4, 20, 4, 21)
    of_last = u32(16, 1, 12 + 8) + u32(0x30, 22)
    content = u32(0x220) + u16(1, 0) + u32(0x60) + of_first + of_last

    def entry(offset, *rows):
        return {"section": 1, "offset": offset,
                "lines": [{"offset": at, "file_index": index, "line_start": line} for at, index, line in rows]}

    wanted = [entry(0x220, (0x220, 0, 21), (0x250, 4, 22)), entry(0x240, (0x240, 0, 21), (0x250, 4, 22)),
              entry(0x260, (0x260, 4, 22))]
    return subsection(0xF2, content), wanted


def module_code():
    """Returns the subsections of a module, and the expected records. There are two subsections of files and two of
    inlinees. If two files have the same offset or two inlinees the same id, the first one counts."""
    files = u32(FIRST) + u8(0, 0) + u16(0) + u32(SECOND) + u8(16, 1) + bytes(16)
    more_files = b"".join(u32(name) + u8(0, 0) + u16(0) for name in (IMPORTED, IMPORTED, FIRST))
    inlinees = u32(0) + u32(0x1000, 0, 50)
    more_inlinees = u32(0) + u32(0x1000, 8, 70) + u32(0x1001, 0, 60)
    imports = u32(IMPORTED, 2, 0x1001, 0x80001002)
    exports = u32(0x1001, 0x2001, 0x1002, 0x2002)
    rows, entry = lines()
    short_rows = u32(0x200) + u16(1, 0) + u32(32) + u32(0, 2, 12 + 16) + u32(0, 1)
    cut = {"section": 1, "offset": 0x200, "lines": faulty([], CUT)}
    more_rows, entries = lines_of_more_procedures()
    data = (subsection(0xF4, files) + subsection(0xF6, inlinees) + more_rows + rows + subsection(0xF2, short_rows)
            + subsection(0xF7, imports) + subsection(0xF8, exports) + subsection(0xF1, u32(0))
            + subsection(0xF4, more_files) + subsection(0xF6, more_inlinees))
    return data, {
        "line_program": {"entries": [entry, cut, *entries], "files": [FIRST, SECOND, IMPORTED, IMPORTED, FIRST]},
        "inlinees": [0x1000, 0x1000, 0x1001],
        "imports": [{"module": IMPORTED, "locals": [0x1001, 0x80001002]}],
        "exports": [{"local": 0x1001, "global": 0x2001}, {"local": 0x1002, "global": 0x2002}],
    }


def inlinees_of_more_files():
    """Returns the other form of the list of inlinees, for a module that has nothing else."""
    data = subsection(0xF6, u32(1) + u32(0x1000, 0, 50) + u32(2, 8, 8) + u32(0x1001, 0, 60) + u32(0))
    return data, {"symbols": [], "line_program": {"entries": [], "files": []}, "inlinees": [0x1000, 0x1001],
                  "imports": [], "exports": []}


# --- the whole file --------------------------------------------------------------------------------------------------

def module_header(stream, symbols, code, name, old_lines=0):
    """Returns the header of a module in the debug information."""
    front = bytes(34) + u16(stream) + u32(symbols, old_lines, code) + bytes(16)
    return aligned(front + text(name) + text(b"library"))


def contribution(section, offset, size, module, extra=b""):
    """Returns a section contribution."""
    return u16(section, 0) + u32(offset, size, 0x60000020) + u16(module, 0) + u32(0, 0) + extra


def section_header(address, size, flags):
    """Returns a section header."""
    return b".name\0\0\0" + u32(size, address) + bytes(20) + u32(flags)


CONTRIBUTIONS = u32(0xF12EBA2D) + contribution(1, 0, 0x80, 0) + contribution(1, 0x80, 0x900, 65535)


def more_streams(sections=9, to=0xFFFF, back=0xFFFF):
    """Returns the optional debug header. It has the streams of the OMAP data and of the section headers."""
    return u16(0xFFFF, 0xFFFF, 0xFFFF, to, back, sections)


def debug_stream(modules, contributions=CONTRIBUTIONS, more=more_streams(), machine=0x8664, parts=(b"", b"", b"", b"")):
    """Returns the stream of debug information: its header, modules, contributions, the section map, the list of
    sources, the map of type servers, edit and continue data, and the optional debug header."""
    of_sections, sources, servers, edits = parts
    front = u32(0xFFFFFFFF, 19990903, 1) + u16(6, 0, 7, 0, 8, 0)
    front += u32(len(modules), len(contributions), len(of_sections), len(sources), len(servers), 0, len(more), len(edits))
    front += u16(0, machine) + u32(0)
    return front + modules + contributions + of_sections + sources + servers + edits + more


HAS_IDS = u32(20140508)


def info_stream(features=u32(0, 0x4D544F4E) + HAS_IDS, version=20000404):
    """Returns the PDB info stream: the table of named streams, with one entry, and the list of features. The age is 3,
    and the GUID has the bytes 0 to 15."""
    return u32(version, 0, 3) + bytes(range(16)) + u32(7) + b"/names\0" + u32(1, 1, 1, 1, 0, 0, 5) + features


def string_stream():
    """Returns the string table. A string's reference is its offset."""
    return u32(0xEFFEEFFE, 1, len(TEXTS)) + TEXTS + u32(0, 0)


def container(streams, block=BLOCK, between=0):
    """Returns a file with these streams, in blocks: the superblock, two free block maps, the streams, the directory,
    and the list of the directory's blocks. `between` empty blocks follow each block of that list."""
    blocks = [b"", b"", b""]

    def put(data):
        """Adds data to the blocks, and returns their numbers."""
        own = []
        for start in range(0, len(data), block):
            own.append(len(blocks))
            blocks.append(data[start:start + block])
        return own

    numbers = [put(stream or b"") for stream in streams]
    directory = u32(len(streams), *[0xFFFFFFFF if s is None else len(s) for s in streams])
    directory += b"".join(u32(*own) for own in numbers)
    listed = u32(*put(directory))
    lists = []
    for start in range(0, len(listed), block):
        lists += put(listed[start:start + block])
        blocks.extend([b""] * between)
    blocks[0] = (b"Microsoft C/C++ MSF 7.00\r\n\x1aDS\0\0\0"
                 + u32(block, 1, len(blocks), len(directory), 0, *lists))
    return b"".join(it.ljust(block, b"\0") for it in blocks)


SECTIONS = section_header(0x1000, 0x800, 0x60000020) + section_header(0x2000, 0x30, 0x40000040)
SECTIONS_WANTED = [{"virtual_address": 0x1000, "virtual_size": 0x800, "execute": True},
                   {"virtual_address": 0x2000, "virtual_size": 0x30, "execute": False}]
TEXTS_WANTED = [{"ref": 0, "text": ""}, {"ref": 1, "text": "a.cpp"}, {"ref": 7, "text": "b.h"},
                {"ref": 11, "text": "c.obj"}]


def records(**changed):
    """Returns the expected records of a file without modules, as a line. Arguments replace parts of them."""
    wanted = {
        "version": 2,
        "sections": SECTIONS_WANTED,
        "address_map": [{"virtual_address": it["virtual_address"], "virtual_size": it["virtual_size"]}
                        for it in SECTIONS_WANTED],
        "global_symbols": [],
        "debug_information": {"machine_type": "Amd64", "modules": [], "section_contributions": []},
        "type_information": primitives(),
        "id_information": [],
        "string_table": TEXTS_WANTED,
        "module_infos": [],
    }
    wanted.update(changed)
    return json.dumps(wanted, separators=(",", ":"))


def whole():
    """Returns the file and the expected output."""
    symbols = module_symbols()
    code, info = module_code()
    more, other_info = inlinees_of_more_files()
    publics = global_symbols()
    modules = (module_header(10, len(symbols.data), len(code), b"a.obj") + module_header(0xFFFF, 0, 0, b"* Linker *")
               + module_header(11, 0, len(more), b"b\xff.obj") + module_header(12, 0, 0, b"c.obj")
               + module_header(40, 0, 0, b"d.obj"))
    streams = [b"", info_stream(), item_stream(TYPES), debug_stream(modules), item_stream(IDS), string_stream(), b"",
               None, publics.data, SECTIONS, symbols.data + code, more, None]
    wanted = records(
        global_symbols=faulty(publics.wanted, CUT),
        debug_information={
            "machine_type": "Amd64",
            "modules": [{"name": "a.obj"}, {"name": "* Linker *"}, {"name": list(b"b\xff.obj")}, {"name": "c.obj"},
                        {"name": "d.obj"}],
            "section_contributions": [{"section": 1, "offset": 0, "size": 0x80, "module": 0},
                                      {"section": 1, "offset": 0x80, "size": 0x900, "module": 65535}]},
        type_information=primitives() + item_list(TYPES),
        id_information=item_list(IDS),
        module_infos=[{"symbols": symbols.wanted, **info}, None, other_info, {"error": 2}, {"error": 2}])
    broken = ["GlobalSymbols(StreamError(1))", "Lines { module_index: 0, fault: StreamError(1) }",
              f"InlineRows {{ module_index: 0, fault: StreamError({APART}), sites: 2 }}",
              "Module { module_index: 3, fault: StreamError(2) }", "Module { module_index: 4, fault: StreamError(2) }"]
    return container(streams), [wanted, *broken]
