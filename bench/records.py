#!/usr/bin/env python3
"""Writes a records file of a shape, and a file with addresses to look up.

    records.py SHAPE NUMBER .. RECORDS ADDRESSES

Shapes of ordinary programs:

    symbols N           public symbols of 16 bytes, a procedure at each sixteenth one, a thousand modules in turn
    program P S A       P procedures, each with S sites in two nests, line rows and a signature, and A addresses
    genuine P S A T I   the same with T types and I ids. Five hundred of each are used, spread over all of them
    genuine-descending, genuine-shuffled, genuine-doubles
                        the same, with the types from last to first, in random order, or each twice

Shapes that a hostile writer could pass:

    procedures N        procedures, each nested in the one before and covered by it
    sites N             inline sites of one procedure, each directly inside the one before
    side-by-side N      inline sites of one procedure, one after the other inside a first one whose only row is empty
    publics N           public symbols, all at one section offset

Types and ids, used by signatures and by names of inlined functions:

    sizes N             types spread over a list, each the element type of an array in a signature
    references N        the same with forward references, whose classes are in the list's second half
    chain N             enumerations, each over the next one, which is reached by an import from another module
    named-chain N       the same, with a name of the other module that is as long as the chain
    circle N            the same, with the first enumeration as the type of the last
    pointers N          pointers to pointers
    callbacks N         procedures that take procedures
    pointed-arrays N    pointers to arrays of pointers
    arrays N            arrays of arrays
    arguments N         arguments of one type
    scopes N            functions, each the scope of the one before
    scopes-circle N     the same, with the first function as the scope of the last
"""
import json
import random
import sys

SECTION_START = 0x1000
SECTION_SIZE = 0xFFFF_FFFF - SECTION_START
FIRST_INDEX = 0x1000
CROSS_MODULE = 1 << 31
NO_END = 0xFFFF_FFFF
PUBLIC, PROCEDURE, SITE = 0x110E, 0x1110, 0x114D
OTHER = {"raw_kind": 0}
# The number of functions of a program that are inlined, and the number of its types and of its ids that are used.
INLINED = ASKED = 500


class Module:
    """The records of a module. Lists may be generators: they are written once, in order."""

    def __init__(self, symbols=(), entries=(), files=(), inlinees=(), imports=(), exports=(), name=""):
        self.symbols, self.entries, self.files = symbols, entries, files
        self.inlinees, self.imports, self.exports, self.name = inlinees, imports, exports, name


class Program:
    """The records of a program, whose one section holds code. Without contributions, the first module claims the whole
    section."""

    def __init__(self, modules, addresses, publics=(), contributions=None, types=(), ids=(), texts=()):
        whole = [{"section": 1, "offset": 0, "size": SECTION_SIZE, "module": 0}]
        self.modules, self.addresses, self.publics = modules, addresses, publics
        self.contributions = whole if contributions is None else contributions
        self.types, self.ids, self.texts = types, ids, texts


def place(offset):
    return {"section": 1, "offset": offset}


def spread(span, count):
    """Returns `count` addresses spread over the section's code. Neighbours lie at different offsets of their
    functions."""
    step = span // count + 37
    return [SECTION_START + number * step % span for number in range(count)]


def public(offset, name):
    return {"raw_kind": PUBLIC, "data": {"kind": "Public", **place(offset), "name": name}}


def procedure(offset, length, name="", end=0, type_index=0):
    data = {"kind": "Procedure", **place(offset), "len": length, "name": name, "end": end, "type_index": type_index}
    return {"raw_kind": PROCEDURE, "data": data}


def site(inlinee, end, offset, length, file, line):
    row = {"offset": offset, "length": length, "file_index": file, "line_start": line}
    return {"raw_kind": SITE, "data": {"kind": "InlineSite", "inlinee": inlinee, "end": end, "rows": [row]}}


# Ordinary programs.


def symbols(count):
    modules, size, room = 1000, 16, 16 * 16

    def procedures(module):
        for number in range(module, count // 16, modules):
            yield procedure(number * room, size, f"f{number}")

    return Program(
        [Module(symbols=procedures(module), name=f"module_{module}.obj") for module in range(modules)],
        spread(count * size, 1000),
        publics=(public(number * size, f"?function_{number}") for number in range(count)),
        contributions=(
            {"section": 1, "offset": number * room, "size": room, "module": number % modules}
            for number in range(count // 16)
        ),
    )


def nest(position, start, size, sites, inlinees, files):
    """Yields nested sites from a position of a list of symbols on. The deeper a site is, the later its code begins; all
    end together."""
    for depth in range(sites):
        shift = min(depth * size // sites, size)
        inlinee = inlinees[(start + depth) % len(inlinees)]
        yield site(inlinee, position + 2 * sites - depth - 1, start + shift, size - shift, depth % files, depth)
    for _ in range(sites):
        yield OTHER


def one_signature():
    """Returns the types of one signature, and a list of its index."""
    return signature_types("arguments", 2), [FIRST_INDEX]


def some_ids():
    """Returns the ids of the functions that are inlined, and their indices."""
    return (function_id(position, None) for position in range(INLINED)), range(FIRST_INDEX, FIRST_INDEX + INLINED)


def program(procedures, sites, asked, signatures=one_signature, ids=some_ids):
    size, in_module, rows, files = 0x400, 100, 16, 64
    outer = sites * 14 // 25
    types, signature_indices = signatures()
    all_ids, inlinees = ids()

    def numbers(module):
        return range(module * in_module, min(procedures, (module + 1) * in_module))

    def module_symbols(module):
        for turn, number in enumerate(numbers(module)):
            first, start = turn * (2 * sites + 2), number * size
            signature_index = signature_indices[number % len(signature_indices)]
            yield procedure(start, size, "program::part::procedure", first + 2 * sites + 1, signature_index)
            yield from nest(first + 1, start, size // 2, outer, inlinees, files)
            yield from nest(first + 1 + 2 * outer, start + size // 2, size // 2, sites - outer, inlinees, files)
            yield OTHER

    def entries(module):
        for number in numbers(module):
            step = size // rows
            lines = [
                {"offset": number * size + row * step, "file_index": number % files, "line_start": row}
                for row in range(rows)
            ]
            yield {**place(number * size), "lines": lines}

    count = -(-procedures // in_module)
    return Program(
        [Module(module_symbols(at), entries(at), range(files), inlinees) for at in range(count)],
        spread(procedures * size, asked),
        contributions=(
            {"section": 1, "offset": at * in_module * size, "size": len(numbers(at)) * size, "module": at}
            for at in range(count)
        ),
        types=types,
        ids=all_ids,
        texts=({"ref": number, "text": "source/program/part.cpp"} for number in range(files)),
    )


def class_with_a_method(number):
    """Yields six types: a class, a pointer to it, a number, a modifier of the number, an argument list, and a
    function."""
    first = 6 * number
    named = {"kind": "Class", "class_kind": "Class", "name": f"program::Class{number}"}
    yield {**named, "size": 8 * number, "forward_reference": False}
    yield {"kind": "Pointer", "underlying_type": index(first), "mode": "Pointer", "is_const": False, "size": 8}
    yield NUMBER
    yield modifier(index(first + 2))
    yield argument_list([first + 1, first + 3])
    yield function_type(first + 4)


def ascending(types):
    return types


def descending(types):
    return reversed(list(types))


def shuffled(types):
    types = list(types)
    random.Random(1).shuffle(types)
    return types


def doubles(types):
    for entry in types:
        yield entry
        yield {"index": entry["index"], **NUMBER}


def genuine(order):
    """Returns the shape of a program whose list of types is in this order."""

    def made(procedures, sites, asked, types, ids):
        classes = types // 6

        def signatures():
            all_types = (entry for number in range(classes) for entry in class_with_a_method(number))
            return order(numbered(all_types)), [index(6 * (classes * at // ASKED) + 5) for at in range(ASKED)]

        def spread_ids():
            all_ids = (function_id(position, None, index(5)) for position in range(ids))
            return all_ids, [index(ids * at // ASKED) for at in range(ASKED)]

        return program(procedures, sites, asked, signatures, spread_ids)

    return made


# What a hostile writer could pass.


def nested_procedures(count):
    of_module = (procedure(number, count - number, end=2 * count - number) for number in range(count))
    return Program([Module(of_module)], spread(count, 1000))


INLINED_TEXT = {"index": FIRST_INDEX, "kind": "String", "name": "inlined"}


def one_procedure(of_sites, addresses):
    """A procedure that covers the whole section and has these sites. The id of the inlined function is a string."""

    def of_module():
        yield procedure(0, SECTION_SIZE, end=NO_END)
        yield from of_sites

    return Program([Module(of_module(), inlinees=[FIRST_INDEX])], addresses, ids=[INLINED_TEXT])


def nested_sites(count):
    of_sites = (site(FIRST_INDEX, NO_END, number, count - number, 0, number) for number in range(count))
    return one_procedure(of_sites, spread(count, 10))


def sites_side_by_side(count):
    def of_sites():
        yield site(FIRST_INDEX, NO_END, 0, 0, 0, 0)
        for number in range(1, count):
            yield site(FIRST_INDEX, 2 * number + 1, 16 * number, 8, 0, number)
            yield OTHER

    return one_procedure(of_sites(), spread(16 * count, 1000))


def publics(count):
    return Program([Module()], spread(count, 1000), publics=(public(0, "?public") for _ in range(count)))


# Types, and the signatures that use them.


def index(position):
    return FIRST_INDEX + position


NUMBER = {"kind": "Primitive", "primitive": "I32", "indirection": False}


def function_type(arguments):
    return {"kind": "Procedure", "is_constructor": False, "argument_list": index(arguments)}


def argument_list(arguments):
    return {"kind": "ArgumentList", "arguments": [index(argument) for argument in arguments]}


def array(element, size):
    return {"kind": "Array", "element_type": index(element), "first": size, "rest": []}


def modifier(underlying):
    return {"kind": "Modifier", "underlying_type": underlying, "constant": True}


def enumeration(underlying):
    return {"kind": "Enumeration", "name": "E", "underlying_type": underlying}


def numbered(types):
    return ({"index": index(position), **type_data} for position, type_data in enumerate(types))


def sized_types(count, asked):
    """Yields the types of a list, and after them functions that use the sizes of the types at the positions in
    `asked`."""
    yield from range_of_types(count)
    yield from functions_of_arrays(count, asked)


def functions_of_arrays(first, asked):
    """Yields three types for each position in `asked`, from index `first` on: a function, its argument list, and an
    array of the type at that position. Printing the array's length needs the size of that type."""
    for number, position in enumerate(asked):
        at = first + 3 * number
        yield function_type(at + 1)
        yield argument_list([at + 2])
        yield array(position, 1 << 30)


def range_of_types(count):
    """Yields by turns a class, a number, a modifier of the number, and a modifier of that. The classes of the first
    half are forward references to those of the second."""
    half = count // 2
    for position in range(count):
        row = position if position < half else position - half
        if row % 4 == 0:
            forward = position < half
            size = 0 if forward else row + 1
            yield {"kind": "Class", "class_kind": "Class", "name": f"T{row}", "size": size, "forward_reference": forward}
        elif row % 4 == 1:
            yield NUMBER
        else:
            yield modifier(index(position - 1))


def functions_with(types, first_type, asked, **module):
    """A procedure of sixteen bytes for each function type. Function types are three indices apart."""
    procedures = (procedure(16 * number, 16, "f", type_index=index(first_type + 3 * number)) for number in range(asked))
    return Program(
        [Module(procedures, **module)],
        [SECTION_START + 16 * number for number in range(asked)],
        types=numbered(types),
    )


def sizes(count):
    spots = (count * number // 1000 for number in range(1000))
    asked = [spot + 1 if spot < count // 2 and spot % 4 == 0 else spot for spot in spots]
    return functions_with(sized_types(count, asked), count, len(asked))


def references(count):
    there = -(-(count // 2) // 4)
    asked = [4 * (there * number // 1000) for number in range(1000)]
    return functions_with(sized_types(count, asked), count, len(asked))


def chain(count, name="N", circular=False):
    """Builds the chain: module 0 imports each type of it from module 1. Module 1 exports the next type under the
    position of the one before."""

    def types():
        for position in range(count):
            is_number = position + 1 == count and not circular
            yield NUMBER if is_number else enumeration(CROSS_MODULE | position)
        yield from functions_of_arrays(count, asked)

    asked = [count * number // 1000 for number in range(1000)]
    made = functions_with(types(), count, len(asked), imports=[{"module": 0, "locals": range(count)}])
    exports = ({"local": number, "global": index((number + 1) % count)} for number in range(count))
    made.modules.append(Module(exports=exports, name=name))
    made.texts = [{"ref": 0, "text": name}]
    return made


def named_chain(count):
    return chain(count, "N" * count)


def circle(count):
    return chain(count, circular=True)


def type_at(shape, position):
    if shape == "pointers" or shape == "pointed-arrays" and position % 2 == 0:
        target = index(position + 1)
        return {"kind": "Pointer", "underlying_type": target, "mode": "Pointer", "is_const": False, "size": 8}
    if shape in ("arrays", "pointed-arrays"):
        return array(position + 1, 8)
    if shape == "callbacks":
        return function_type(position + 1) if position % 2 == 0 else argument_list([position + 1])
    return NUMBER


def signature_types(shape, count):
    """Returns a function, its argument list, `count` types of a shape, and a number."""

    def types():
        yield function_type(1)
        yield argument_list([2] * (count if shape == "arguments" else 1))
        for position in range(2, count + 2):
            yield type_at(shape, position)
        yield NUMBER

    return numbered(types())


def signature(shape):
    def made(count):
        of_module = [procedure(0, 16, "f", type_index=FIRST_INDEX)]
        return Program([Module(of_module)], [SECTION_START], types=signature_types(shape, count))

    return made


# Ids.


def function_id(position, scope, function_type=FIRST_INDEX):
    made = {"index": index(position), "kind": "Function", "function_type": function_type, "name": "g"}
    return made if scope is None else {**made, "scope": scope}


def scopes(count, circular=False):
    def ids():
        for position in range(count):
            last = position + 1 == count
            scope = index(0) if circular else None
            yield function_id(position, scope if last else index(position + 1))

    made = one_procedure([site(FIRST_INDEX, NO_END, 0, 16, 0, 1)], [SECTION_START])
    made.types, made.ids = numbered([function_type(1), argument_list([])]), ids()
    return made


def scopes_circle(count):
    return scopes(count, circular=True)


SHAPES = {
    "symbols": symbols,
    "program": program,
    "genuine": genuine(ascending),
    "genuine-descending": genuine(descending),
    "genuine-shuffled": genuine(shuffled),
    "genuine-doubles": genuine(doubles),
    "procedures": nested_procedures,
    "sites": nested_sites,
    "side-by-side": sites_side_by_side,
    "publics": publics,
    "sizes": sizes,
    "references": references,
    "chain": chain,
    "named-chain": named_chain,
    "circle": circle,
    "scopes": scopes,
    "scopes-circle": scopes_circle,
    **{shape: signature(shape) for shape in ("pointers", "callbacks", "pointed-arrays", "arrays", "arguments")},
}


# Writing.


def write_list(out, items):
    out.write("[")
    for number, item in enumerate(items):
        if number > 0:
            out.write(",\n")
        out.write(json.dumps(item, separators=(",", ":"), default=list))
    out.write("]")


def write_members(out, members):
    """Writes the members of an object, without braces. Each member is a list."""
    for number, (name, items) in enumerate(members):
        out.write(f'{"," if number else ""}"{name}":')
        write_list(out, items)


def write_module(out, module):
    out.write("{")
    write_members(out, [("symbols", module.symbols)])
    out.write(',"line_program":{')
    write_members(out, [("entries", module.entries), ("files", module.files)])
    out.write("},")
    write_members(out, [("inlinees", module.inlinees), ("imports", module.imports), ("exports", module.exports)])
    out.write("}")


def write_program(out, made):
    section = {"virtual_address": SECTION_START, "virtual_size": SECTION_SIZE}
    out.write("{")
    write_members(out, [("sections", [{**section, "execute": True}]), ("address_map", [section])])
    out.write(",")
    write_members(out, [("global_symbols", made.publics)])
    out.write(',"debug_information":{"machine_type":"Amd64",')
    names = ({"name": module.name} for module in made.modules)
    write_members(out, [("modules", names), ("section_contributions", made.contributions)])
    out.write("},")
    write_members(out, [("type_information", made.types), ("id_information", made.ids), ("string_table", made.texts)])
    out.write(',"module_infos":[')
    for number, module in enumerate(made.modules):
        if number > 0:
            out.write(",\n")
        write_module(out, module)
    out.write("]}\n")


def write(shape, numbers, records, addresses):
    """Writes a records file of a shape, and the file with its addresses."""
    made = SHAPES[shape](*numbers)
    with open(records, "w", encoding="utf-8") as out:
        write_program(out, made)
    with open(addresses, "w", encoding="utf-8") as out:
        out.writelines(f"{address:x}\n" for address in made.addresses)


def main():
    words = sys.argv[1:]
    if len(words) < 4 or words[0] not in SHAPES:
        sys.exit(__doc__)
    write(words[0], [int(word) for word in words[1:-2]], words[-2], words[-1])


if __name__ == "__main__":
    main()
