"""Builds PDB files in unusual forms, byte by byte, and the expected records: older versions, other block sizes, other
lengths."""
import more_kinds
from kinds import (IMPORTED, SECTIONS, Symbols, class_of, container, contribution, debug_stream, info_stream, item_list,
                   item_stream, module_header, more_streams, primitives, put_chunk, put_procedure, put_trampoline, records,
                   section_header, string_stream, subsection, u8, u16, u32)

NO_SYMBOLS = {"symbols": [], "line_program": {"entries": [], "files": []}, "inlinees": [], "imports": [], "exports": []}
SHORT, LONG = 0xF12EBA2D, 0xF13151E4


def before_ids():
    """Returns a file from before PDB files had ids, for Arm64 with x64 code (ARM64EC). So stream 4 is not a list of
    ids. The contributions have 32 bytes, the OMAP stream is empty, all parts of the debug information exist, and one
    section number takes two bytes."""
    modules = module_header(10, 0, 0, b"a.obj")
    contributions = (u32(LONG) + contribution(1, 0x10, 0x20, 0, u32(7)) + contribution(0x123, 0x30, 0x40, 0, u32(8)))
    debug = debug_stream(modules, contributions, more_streams(to=6), 0xA641,
                         (u16(1, 1, 2, 3), u32(1, 2, 3), u32(4), u32(0xEFFEEFFE, 1)))
    streams = [b"", info_stream(b"", 20000404), item_stream([]), debug, b"no ids here", string_stream(), b"", None, b"",
               SECTIONS, b""]
    wanted = records(
        debug_information={
            "machine_type": "Arm64", "modules": [{"name": "a.obj"}],
            "section_contributions": [{"section": 1, "offset": 0x10, "size": 0x20, "module": 0},
                                      {"section": 0x123, "offset": 0x30, "size": 0x40, "module": 0}]},
        module_infos=[NO_SYMBOLS])
    return container(streams, 8192), [wanted]


def first_with_ids():
    """Returns a file of the first version with ids. Nothing after that version in the list of features counts. The
    blocks have 4096 bytes, and the debug information ends exactly at the end of a block. Ids start at 0x1234, and the
    section has only the flag for executable code."""
    modules = b"".join(module_header(0xFFFF, 0, 0, b"%027d" % number) for number in range(2 * 41))
    debug = debug_stream(modules, b"", more_streams(), 0xAA64)
    debug += bytes(-len(debug) % 4096)
    streams = [b"", info_stream(u32(20091201, 0x494E494D)), item_stream([], 0x1000),
               debug, item_stream([(0x1605, u32(0) + b"space\0", None)], 0x1234), string_stream(), b"", None, b"",
               section_header(0x1000, 0x800, 0x20000000)]
    wanted = records(
        sections=[{"virtual_address": 0x1000, "virtual_size": 0x800, "execute": True}],
        address_map=[{"virtual_address": 0x1000, "virtual_size": 0x800}],
        debug_information={"machine_type": "Arm64",
                           "modules": [{"name": "%027d" % number} for number in range(2 * 41)],
                           "section_contributions": []},
        id_information=[{"index": 0x1234, "kind": "String", "name": "space"}],
        module_infos=[None] * (2 * 41))
    return container(streams, 4096), [wanted]


def on_machine(machine):
    """Returns the debug information of a program without modules, for a machine."""
    return {"machine_type": machine, "modules": [], "section_contributions": []}


def many_streams():
    """Returns a file for Itanium with a long directory. The list of its blocks takes two blocks, which are not
    consecutive."""
    streams = [b"", info_stream(), item_stream([]), debug_stream(b"", b"", machine=0x0200), item_stream([]),
               string_stream(), b"", None, b"", SECTIONS] + [None] * 17000
    return container(streams, 512, between=1), [records(debug_information=on_machine("Ia64"))]


def names_only():
    """Returns a file for RISC-V that has only names. Its lines and types are in object files."""
    streams = [b"", info_stream(u32(20140508, 0x494E494D)), item_stream([]), debug_stream(b"", b"", machine=0x5064),
               item_stream([]), string_stream(), b"", None, b"", SECTIONS]
    return container(streams, 16384), ["names only", records(debug_information=on_machine("RiscV64"))]


def other_machine(machine, name):
    """Returns a file for another machine, without modules."""
    streams = [b"", info_stream(), item_stream([]), debug_stream(b"", b"", machine=machine), item_stream([]),
               string_stream(), b"", None, b"", SECTIONS]
    return container(streams), [records(debug_information=on_machine(name))]


def chunks_of_two_modules():
    """Returns a file with two modules that both have a procedure at the start of the chunks' functions. A chunk gets
    the name of the procedure in its own module, if that has one. A jump gets the name of the one in the first
    module."""
    first, second = Symbols(u32(4)), Symbols(u32(4))
    put_procedure(first, 0x1110, 0x100, b"first")
    first.close(6)
    put_procedure(first, 0x1110, 0x120, b"next")
    first.close(6)
    put_chunk(first, 0x500, 0x100, "first")
    first.close(6)
    put_chunk(first, 0x508, 0x140, "other")
    first.close(6)
    put_chunk(second, 0x510, 0x100, "second")
    second.close(6)
    put_procedure(second, 0x1110, 0x140, b"other")
    second.close(6)
    put_procedure(second, 0x1110, 0x100, b"second")
    second.close(6)
    put_procedure(second, 0x1110, 0x100, b"third")
    second.close(6)
    put_chunk(second, 0x518, 0x120, "next")
    second.close(6)
    put_trampoline(second, 0x600, 0x100, "first", 0x1009)
    modules = module_header(10, len(first.data), 0, b"a.obj") + module_header(11, len(second.data), 0, b"b.obj")
    streams = [b"", info_stream(), item_stream([]), debug_stream(modules, b""), item_stream([]), string_stream(), b"",
               None, b"", SECTIONS, first.data, second.data]
    wanted = records(
        debug_information={"machine_type": "Amd64", "modules": [{"name": "a.obj"}, {"name": "b.obj"}],
                           "section_contributions": []},
        module_infos=[{**NO_SYMBOLS, "symbols": it.wanted} for it in (first, second)])
    return container(streams), [wanted]


def put_typed_procedure(symbols, offset, name, type_index):
    """Adds a procedure of 32 bytes in section 1 with this type."""
    content = u32(0, 0, 0, 32, 0, 0, type_index, offset) + u16(1) + u8(0) + name + b"\0"
    symbols.put(0x1110, content, {"kind": "Procedure", "section": 1, "offset": offset, "len": 32, "name": name.decode(),
                                  "end": 0, "type_index": type_index}, opens=4)
    symbols.close(6)


def parts_of_other_modules():
    """Returns a file with four modules whose answers need parts of other modules. The first one's procedure has a type
    that it imports from the second. The third one has a chunk of the second one's procedure. The fourth one's procedure
    takes an array of a class, whose size is in another type record."""
    importing, exporting, chunks, sizes = (Symbols(u32(4)) for _ in range(4))
    put_typed_procedure(importing, 0x100, b"f", 0x80000000)
    put_typed_procedure(exporting, 0x200, b"g", 0x1001)
    put_chunk(chunks, 0x300, 0x200, "g")
    chunks.wanted[0]["data"]["type_index"] = 0x1001
    chunks.close(6)
    put_typed_procedure(sizes, 0x400, b"h", 0x1006)
    imports, exports = subsection(0xF7, u32(IMPORTED, 1, 0x2005)), subsection(0xF8, u32(0x2005, 0x1001))
    types = [(0x1201, u32(1, 0x74), {"kind": "ArgumentList", "arguments": [0x74]}),
             (0x1008, u32(3) + u8(0, 0) + u16(1) + u32(0x1000),
              {"kind": "Procedure", "return_type": 3, "is_constructor": False, "argument_list": 0x1000}),
             class_of(0x1504, "Class", 0x80, 0, u16(0), b"C", forward=True),
             (0x1503, u32(0x1002, 0x23) + u16(24) + b"\0",
              {"kind": "Array", "element_type": 0x1002, "first": 24, "rest": []}),
             (0x1002, u32(0x1003, 0x1000C),
              {"kind": "Pointer", "underlying_type": 0x1003, "mode": "Pointer", "is_const": False, "size": 8}),
             (0x1201, u32(1, 0x1004), {"kind": "ArgumentList", "arguments": [0x1004]}),
             (0x1008, u32(3) + u8(0, 0) + u16(1) + u32(0x1005),
              {"kind": "Procedure", "return_type": 3, "is_constructor": False, "argument_list": 0x1005}),
             class_of(0x1504, "Class", 0, 8, u16(8), b"C")]
    modules = (module_header(10, len(importing.data), len(imports), b"a.obj")
               + module_header(11, len(exporting.data), len(exports), b"C.OBJ")
               + module_header(12, len(chunks.data), 0, b"d.obj") + module_header(13, len(sizes.data), 0, b"e.obj"))
    contributions = u32(SHORT) + b"".join(contribution(1, 0x100 * (at + 1), 0x20, at) for at in range(4))
    streams = [b"", info_stream(), item_stream(types), debug_stream(modules, contributions), item_stream([]),
               string_stream(), b"", None, b"", SECTIONS, importing.data + imports, exporting.data + exports, chunks.data,
               sizes.data]
    wanted = records(
        debug_information={
            "machine_type": "Amd64", "modules": [{"name": "a.obj"}, {"name": "C.OBJ"}, {"name": "d.obj"}, {"name": "e.obj"}],
            "section_contributions": [{"section": 1, "offset": 0x100 * (at + 1), "size": 0x20, "module": at}
                                      for at in range(4)]},
        type_information=primitives() + item_list(types),
        module_infos=[{**NO_SYMBOLS, "symbols": importing.wanted, "imports": [{"module": IMPORTED, "locals": [0x2005]}]},
                      {**NO_SYMBOLS, "symbols": exporting.wanted, "exports": [{"local": 0x2005, "global": 0x1001}]},
                      {**NO_SYMBOLS, "symbols": chunks.wanted}, {**NO_SYMBOLS, "symbols": sizes.wanted}])
    return container(streams), [wanted]


FILES = [("more_kinds.pdb", more_kinds.whole), ("before_ids.pdb", before_ids), ("first_with_ids.pdb", first_with_ids), ("many_streams.pdb", many_streams),
         ("names_only.pdb", names_only), ("chunks_of_two_modules.pdb", chunks_of_two_modules),
         ("parts_of_other_modules.pdb", parts_of_other_modules),
         ("risc_v_128.pdb", lambda: other_machine(0x5128, "RiscV128")),
         ("arm.pdb", lambda: other_machine(0x01C4, "Other"))]
