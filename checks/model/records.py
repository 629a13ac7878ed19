"""Reads the bytes of a records file into records, or finds its first fault.

A stream that failed is Failed(number), a list is Reading(items, fault), and an object is a Record with the object's
members. A reader takes a value and its path. It returns the record or raises a Fault.
"""
import json
import re
from collections import namedtuple
from types import SimpleNamespace as Record

from primitives import PRIMITIVES

Failed = namedtuple("Failed", "number")
Reading = namedtuple("Reading", "items fault")
Unimplemented = namedtuple("Unimplemented", "kind")
ABSENT = object()
READING = Record(version=1)  # the version of the file that is being read
DEEPEST = 127  # the greatest number of levels in a text


class Fault(Exception):
    """A fault of the file. Its text is what the program prints after the file's name."""


class Float:
    """A number that doesn't count as whole: with a point or an exponent, -0, or beyond 64 bits."""


# ---------------------------------------------------------------- JSON text


def nesting(text):
    """Returns how deep the arrays and objects of a text nest."""
    depth = deepest = 0
    for token in re.findall(r'"(?:[^"\\]|\\.)*"?|[\[\]{}]', text, re.DOTALL):
        if token in "[{":
            depth += 1
            deepest = max(deepest, depth)
        elif token in "]}":
            depth -= 1
    return deepest


def as_float(text):
    """Reads a number that doesn't count as whole. A number beyond the greatest double makes the text invalid."""
    if float(text) in (float("inf"), float("-inf")):
        raise ValueError(text)
    return Float()


def as_int(text):
    """Reads a number without a point and an exponent."""
    if text == "-0" or len(text) > 300:
        return as_float(text)
    number = int(text)
    if -(2**63) <= number < 2**64:
        return number
    return as_float(text)


def refuse(text):
    """Refuses NaN and the infinities, which Python's reader accepts but JSON doesn't have."""
    raise ValueError(text)


def refuse_surrogates(value):
    """Refuses half a surrogate pair in a text: encoding it raises a ValueError."""
    if isinstance(value, str):
        value.encode("utf-8")
    elif isinstance(value, list):
        for element in value:
            refuse_surrogates(element)
    elif isinstance(value, dict):
        refuse_surrogates(list(value))
        refuse_surrogates(list(value.values()))


def parse(data):
    """Parses a JSON text."""
    try:
        text = data.decode("utf-8")
        if nesting(text) > DEEPEST:
            raise ValueError("too deep")
        value = json.loads(text, parse_float=as_float, parse_int=as_int, parse_constant=refuse)
        refuse_surrogates(value)
        return value
    except ValueError:  # errors of JSON and of Unicode are ValueErrors
        raise Fault("not a JSON text") from None


# ------------------------------------------------------------------ readers


def wanted(path, sort):
    raise Fault(f"{path}: wanted {sort}")


def need_object(value, path):
    if type(value) is not dict:
        wanted(path, "object")


def whole(low, high):
    """Reads a whole number from `low` to `high`."""
    def read(value, path):
        if isinstance(value, Float):
            raise Fault(f"{path}: number out of range")
        if type(value) is not int:
            wanted(path, "number")
        if not low <= value <= high:
            raise Fault(f"{path}: number out of range")
        return value

    return read


u8, u16, u32, u64 = (whole(0, 2**bits - 1) for bits in (8, 16, 32, 64))


def text(value, path):
    if type(value) is not str:
        wanted(path, "text")
    return value


def name(value, path):
    """Reads a text, or in version 2 also its bytes. Bytes that are not UTF-8 become half surrogates."""
    if READING.version == 2 and type(value) is list:
        return bytes(array(u8)(value, path)).decode("utf-8", "surrogateescape")
    return text(value, path)


def lossy(text):
    """Returns a name as text, with U+FFFD for each piece that is not UTF-8."""
    return text.encode("utf-8", "surrogateescape").decode("utf-8", "replace")


def boolean(value, path):
    if type(value) is not bool:
        wanted(path, "boolean")
    return value


def one_of(names):
    """Reads a text that is one of the names."""
    def read(value, path):
        if text(value, path) not in names:
            wanted(path, "kind")
        return value

    return read


def optional(reader):
    return lambda value, path: None if value is ABSENT or value is None else reader(value, path)


def or_null(reader):
    return lambda value, path: None if value is None else reader(value, path)


def array(reader):
    def read(value, path):
        if type(value) is not list:
            wanted(path, "array")
        return [reader(element, f"{path}/{n}") for n, element in enumerate(value)]

    return read


def reading(reader):
    """Reads an array of items, or an object with the items and the fault after them."""
    def read(value, path):
        if type(value) is dict:
            items = array(reader)(value.get("items", ABSENT), path + "/items")
            return Reading(items, optional(u32)(value.get("fault", ABSENT), path + "/fault"))
        return Reading(array(reader)(value, path), None)

    return read


def stream(reader):
    """Reads a stream: what the reader reads, or an object with the member `error`."""
    def read(value, path):
        if type(value) is dict and "error" in value:
            return Failed(u32(value["error"], path + "/error"))
        return reader(value, path)

    return read


def members(value, path, table):
    """Reads the members of an object, in the table's order."""
    return {name: reader(value.get(name, ABSENT), f"{path}/{name}") for name, reader in table}


def with_members(*table):
    """Reads an object with these members."""
    def read(value, path):
        need_object(value, path)
        return Record(**members(value, path, table))

    return read


def by_kind(tables):
    """Reads an object whose member `kind` selects the table of its other members."""
    def read(value, path):
        need_object(value, path)
        kind = one_of(tables)(value.get("kind", ABSENT), path + "/kind")
        return Record(kind=kind, **members(value, path, tables[kind]))

    return read


def item(tables):
    """Reads a type or an id: its index and its content, which is a Record, Failed or Unimplemented."""
    def read(value, path):
        need_object(value, path)
        index = u32(value.get("index", ABSENT), path + "/index")
        if "error" in value:
            return Record(index=index, content=item_error(value["error"], path + "/error"))
        return Record(index=index, content=by_kind(tables)(value, path))

    return read


def item_error(error, path):
    """Reads the reason why a type or an id has no content."""
    need_object(error, path)
    if "stream" in error:
        return Failed(u32(error["stream"], path + "/stream"))
    if "unimplemented" in error:
        return Unimplemented(u16(error["unimplemented"], path + "/unimplemented"))
    wanted(path, "kind")


# ------------------------------------------------------------------- tables

section = with_members(("virtual_address", u32), ("virtual_size", u32), ("execute", boolean))
span = with_members(("virtual_address", u32), ("virtual_size", u32))
row = with_members(("offset", u32), ("length", optional(u32)), ("file_index", u32), ("line_start", u32))
PLACE = [("section", u16), ("offset", u32)]
symbol_data = by_kind({
    "Public": PLACE + [("name", name)],
    "Procedure": PLACE + [("len", u32), ("name", name), ("end", u32), ("type_index", u32)],
    "SeparatedCode": PLACE + [("len", u32), ("parent_section", u16), ("parent_offset", u32), ("end", u32)],
    "Thunk": PLACE + [("len", u16), ("name", name), ("end", u32)],
    "InlineSite": [("inlinee", u32), ("end", u32), ("rows", reading(row))],
    "Other": [],
})
symbol = with_members(("raw_kind", u16), ("data", optional(symbol_data)))
line = with_members(("offset", u32), ("file_index", u32), ("line_start", u32))
entry = with_members(*PLACE, ("lines", reading(line)))
line_program = with_members(("entries", array(entry)), ("files", array(u32)))
imported = with_members(("module", u32), ("locals", array(u32)))
exported = with_members(("local", u32), ("global", u32))
info = with_members(
    ("symbols", reading(symbol)), ("line_program", stream(line_program)), ("inlinees", reading(u32)),
    ("imports", stream(array(imported))), ("exports", stream(array(exported))))
contribution = with_members(*PLACE, ("size", u32), ("module", u32))
debug = with_members(("machine_type", stream(text)), ("modules", reading(with_members(("name", name)))),
                     ("section_contributions", reading(contribution)))
string = with_members(("ref", u32), ("text", name))

POINTER_MODES = ["Pointer", "LValueReference", "Member", "MemberFunction", "RValueReference"]
VALUES = {f"U{bits}": whole(0, 2**bits - 1) for bits in (8, 16, 32, 64)}
VALUES |= {f"I{bits}": whole(-(2 ** (bits - 1)), 2 ** (bits - 1) - 1) for bits in (8, 16, 32, 64)}


def named_value(value, path):
    """Reads the value of a name of an enumeration."""
    need_object(value, path)
    kind = one_of(VALUES)(value.get("kind", ABSENT), path + "/kind")
    return Record(kind=kind, value=VALUES[kind](value.get("value", ABSENT), path + "/value"))


TYPES = {
    "Primitive": [("primitive", one_of(PRIMITIVES)), ("indirection", boolean)],
    "Class": [("class_kind", one_of(["Class", "Interface", "Struct"])), ("name", name),
              ("unique_name", optional(name)), ("size", u64), ("forward_reference", boolean)],
    "MemberFunction": [("return_type", u32), ("class_type", u32), ("this_pointer_type", optional(u32)),
                       ("is_constructor", boolean), ("argument_list", u32)],
    "Procedure": [("return_type", optional(u32)), ("is_constructor", boolean), ("argument_list", u32)],
    "Pointer": [("underlying_type", u32), ("mode", one_of(POINTER_MODES)), ("is_const", boolean),
                ("size", u8)],
    "Array": [("element_type", u32), ("first", u32), ("rest", array(u32))],
    "Union": [("name", name), ("unique_name", optional(name)), ("size", u64), ("forward_reference", boolean)],
    "Enumeration": [("name", name), ("underlying_type", u32)],
    "Enumerate": [("name", name), ("value", named_value)],
    "Modifier": [("underlying_type", u32), ("constant", boolean)],
    "ArgumentList": [("arguments", array(u32))],
    "Other": [("kind_name", text)],
}
IDS = {
    "MemberFunction": [("parent", u32), ("function_type", u32), ("name", name)],
    "Function": [("scope", optional(u32)), ("function_type", u32), ("name", name)],
    "String": [("name", name)],
    "StringList": [("substrings", array(u32))],
    "Other": [("kind_name", text)],
}


def version(value, path):
    """Reads the file's version: absent, null, or one of the whole numbers 1 and 2."""
    if value is ABSENT or value is None:
        return 1
    if not isinstance(value, Float) and type(value) is not int:
        wanted(path, "number")
    if value not in (1, 2):
        wanted(path, "1 or 2")
    return value


FILE = [
    ("version", version),
    ("sections", stream(or_null(array(section)))),
    ("address_map", stream(array(span))),
    ("global_symbols", stream(reading(symbol))),
    ("debug_information", stream(debug)),
    ("type_information", stream(reading(item(TYPES)))),
    ("id_information", stream(reading(item(IDS)))),
    ("string_table", stream(array(string))),
    ("module_infos", array(lambda value, path: module_info(value, path))),
]


def names_file(value):
    """Returns whether an element of `module_infos` names a module file."""
    return READING.version == 2 and type(value) is dict and "error" not in value and "file" in value


def module_info(value, path):
    """Reads an element of `module_infos`, or the next module file if the element names one."""
    if not names_file(value):
        return or_null(stream(info))(value, path)
    try:
        content = parse(next(READING.files))
    except Fault as fault:
        raise Fault(f"{path}/file: {fault}") from None
    return stream(info)(content, path + "/file")


def root(data):
    """Parses a file's bytes. All further reading follows the file's version."""
    value = parse(data)
    if type(value) is not dict:
        wanted("", "object")
    READING.version = version(value.get("version", ABSENT), "/version")
    return value


def module_files(data):
    """Returns the names of the module files that a file needs."""
    value = root(data)
    if READING.version == 1:
        return []
    infos = value.get("module_infos", ABSENT)
    if type(infos) is not list:
        wanted("/module_infos", "array")
    return [text(element["file"], f"/module_infos/{n}/file") for n, element in enumerate(infos) if names_file(element)]


def read_records(data, files=()):
    """Reads the bytes of a file and of its module files."""
    names = module_files(data)
    if len(names) != len(files):
        raise Fault(f"{len(names)} module files wanted, {len(files)} given")
    READING.files = iter(files)
    return Record(**members(root(data), "", FILE))
