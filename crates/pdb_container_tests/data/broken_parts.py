"""Builds PDB files with broken parts, byte by byte, and the expected output: what can be read, and what can't."""
from kinds import (CUT, HAS_IDS, SECTIONS, Symbols, container, contribution, debug_stream, faulty, info_stream,
                   item_list, item_stream, module_header, primitives, put_procedure, records, shown, string_stream,
                   subsection, text, u16, u32, u8)

NO_STREAM, TOO_LONG, UNKNOWN_VERSION, BAD_LENGTH = 2, 4, 5, 6
SHORT = 0xF12EBA2D


class Modules:
    """Modules with their streams, and the expected records and broken parts."""

    def __init__(self, first_stream):
        self.headers, self.streams, self.wanted, self.names, self.broken = b"", [], [], [], []
        self.first_stream = first_stream

    def put(self, name, symbols, code, wanted, broken=(), symbols_length=None, code_length=None):
        """Adds a module with these symbols, which start with the number of their form, and this code. The header may
        say that a list is longer than it is."""
        number = len(self.wanted)
        stream = self.first_stream + len(self.streams)
        self.headers += module_header(stream, len(symbols) if symbols_length is None else symbols_length,
                                      len(code) if code_length is None else code_length, name)
        self.streams.append(symbols + code)
        self.names.append({"name": shown(name)})
        self.wanted.append({"symbols": [], "line_program": {"entries": [], "files": []}, "inlinees": [],
                            "imports": [], "exports": [], **wanted})
        self.broken += [f"{part} {{ module_index: {number}, fault: StreamError({fault}) }}" for part, fault in broken]


def one_procedure():
    """Returns the bytes of a procedure and the symbol that ends it, and the expected records."""
    symbols = Symbols(u32(4))
    put_procedure(symbols, 0x1110, 0x100, b"f")
    symbols.close(6)
    return symbols.data, symbols.wanted


ONE_FILE = subsection(0xF4, u32(1) + u8(0, 0) + u16(0))
ROW = u32(0x100) + u16(1, 0) + u32(32) + u32(0, 1, 20) + u32(0, 9)
ENTRY = {"section": 1, "offset": 0x100, "lines": [{"offset": 0x100, "file_index": 0, "line_start": 9}]}
INLINEES = subsection(0xF6, u32(0) + u32(0x1000, 0, 50))


def put_symbol_lists(modules):
    """Adds modules whose list of symbols is longer than its stream, is cut, or has another form."""
    data, wanted = one_procedure()
    modules.put(b"more symbols than there are", data, b"", {"symbols": faulty(wanted, CUT)}, [("Symbols", CUT)],
                symbols_length=len(data) + 4)
    modules.put(b"a symbol that ends too late", data + u16(9, 0x1110), b"", {"symbols": faulty(wanted, CUT)},
                [("Symbols", CUT)])
    modules.put(b"a symbol too short for its kind", data + u16(1) + b"\0", b"", {"symbols": faulty(wanted, BAD_LENGTH)},
                [("Symbols", BAD_LENGTH)])
    modules.put(b"an older form", u32(1) + data[4:], b"", {"symbols": faulty([], UNKNOWN_VERSION)},
                [("Symbols", UNKNOWN_VERSION)])


def put_code_lists(modules):
    """Adds modules whose subsections are longer than their stream, are cut, or have another form."""
    data, wanted = one_procedure()
    whole = ONE_FILE + subsection(0xF2, ROW)
    symbols = {"symbols": wanted}
    modules.put(b"whole", data, whole + INLINEES,
                {**symbols, "line_program": {"entries": [ENTRY], "files": [1]}, "inlinees": [0x1000]})
    modules.put(b"more parts than there are", data, whole,
                {**symbols, "line_program": {"error": CUT}, "inlinees": faulty([], CUT), "imports": {"error": CUT},
                 "exports": {"error": CUT}},
                [("Lines", CUT), ("Inlinees", CUT)], code_length=len(whole) + 8)
    modules.put(b"a part that ends too late", data, whole + u32(0xF6, 40),
                {**symbols, "line_program": {"error": CUT}, "inlinees": faulty([], CUT), "imports": {"error": CUT},
                 "exports": {"error": CUT}},
                [("Lines", CUT), ("Inlinees", CUT)])
    modules.put(b"a file that ends too late", data, subsection(0xF4, u32(1) + u8(40, 1) + u16(0)) + INLINEES,
                {**symbols, "line_program": {"error": CUT}, "inlinees": [0x1000]}, [("Lines", CUT)])
    modules.put(b"rows that say less than their own front", data, ONE_FILE + subsection(0xF2, ROW[:20] + u32(11)),
                {**symbols, "line_program": {"entries": [{**ENTRY, "lines": faulty([], BAD_LENGTH)}], "files": [1]}},
                [("Lines", BAD_LENGTH)])
    modules.put(b"an inlinee that ends too late", data, subsection(0xF6, u32(0) + u32(0x1000, 0, 50) + u32(0x1001, 0)),
                {**symbols, "inlinees": faulty([0x1000], CUT)}, [("Inlinees", CUT)])
    modules.put(b"inlinees of another form", data, subsection(0xF6, u32(2) + u32(0x1000, 0, 50)),
                {**symbols, "inlinees": faulty([], UNKNOWN_VERSION)}, [("Inlinees", UNKNOWN_VERSION)])
    modules.put(b"imports and exports that end too late", data,
                subsection(0xF7, u32(1, 2, 0x1001)) + subsection(0xF8, u32(1)),
                {**symbols, "imports": {"error": CUT}, "exports": {"error": CUT}})


TYPES = [(0x1001, u32(0x74) + u16(1), {"kind": "Modifier", "underlying_type": 0x74, "constant": True})]


def broken_parts():
    """Returns the file and the expected output."""
    modules = Modules(10)
    put_symbol_lists(modules)
    put_code_lists(modules)
    # two modules claim the same bytes: the greater claim counts, or of equal claims the first; one ends beyond 32 bits
    claims = [(0, 0x80, 0), (0x40, 0x20, 1), (0x200, 0x10, 2), (0x208, 0x10, 3), (0x300, 0x10, 4), (0x304, 0x40, 5),
              (0xFFFFFFF0, 0x20, 6), (0x400, 0, 7), (0x420, 8, 7), (0x424, 8, 7)]
    contributions = u32(SHORT) + b"".join(contribution(1, *claim) for claim in claims) + u16(1, 0)
    # the last module of the list is cut
    debug = debug_stream(modules.headers + bytes(64) + b"no end", contributions)
    types = item_stream(TYPES)
    types = types[:16] + u32(len(types) - 56 + 4) + types[20:] + u16(9, 0x1001)
    publics = Symbols(b"")
    publics.put(0x110E, u32(2, 0x20) + u16(1) + text(b"?f@@YAXXZ"),
                {"kind": "Public", "section": 1, "offset": 0x20, "name": "?f@@YAXXZ"})
    streams = [b"", info_stream(HAS_IDS), types, debug, item_stream([]), string_stream(), b"", None,
               publics.data + u16(1) + b"\0", SECTIONS, *modules.streams]
    wanted = records(
        global_symbols=faulty(publics.wanted, BAD_LENGTH),
        debug_information={
            "machine_type": "Amd64", "modules": faulty(modules.names, CUT),
            "section_contributions": faulty(
                [{"section": 1, "offset": offset, "size": size, "module": module} for offset, size, module in claims],
                CUT)},
        type_information=faulty(records_types(), CUT),
        module_infos=modules.wanted)
    broken = [f"GlobalSymbols(StreamError({BAD_LENGTH}))", f"Modules(StreamError({CUT}))",
              f"Contributions(StreamError({CUT}))"]
    broken += [f"ModuleContributions {{ module_index: {module} }}" for module in (1, 3, 4, 6)]
    return container(streams), [wanted, *broken, *modules.broken]


def records_types():
    """Returns the types before the one that is cut."""
    return primitives() + item_list(TYPES)


def modules_of_one_stream():
    """Returns a file whose modules all name one stream. It is read only for as many modules as the file has bytes
    for."""
    data, symbols = one_procedure()
    code = subsection(0xF1, bytes(3000))
    names = [b"first", b"second", b"third", b"fourth"]
    headers = b"".join(module_header(10, len(data), len(code), name) for name in names)
    file = container([b"", info_stream(HAS_IDS), item_stream([]), debug_stream(headers, b""), item_stream([]),
                      string_stream(), b"", None, b"", SECTIONS, data + code])
    read = len(file) // len(data + code)
    info = {"symbols": symbols, "line_program": {"entries": [], "files": []}, "inlinees": [], "imports": [],
            "exports": []}
    wanted = records(
        debug_information={"machine_type": "Amd64", "modules": [{"name": shown(name)} for name in names],
                           "section_contributions": []},
        module_infos=[info] * read + [{"error": TOO_LONG}] * (len(names) - read))
    broken = [f"Module {{ module_index: {number}, fault: StreamError({TOO_LONG}) }}" for number in range(read, len(names))]
    return file, [wanted, *broken]


FILES = [("broken_parts.pdb", broken_parts), ("modules_of_one_stream.pdb", modules_of_one_stream)]
