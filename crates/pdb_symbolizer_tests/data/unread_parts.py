"""Builds PDB files whose types, ids or public symbols can't be read, and the expected answers."""
import pathlib
import sys

HERE = pathlib.Path(__file__).resolve().parent
sys.path.append(str(HERE.parents[1] / "pdb_container_tests" / "data"))

from inline_faults import IDS, TYPES, WHOLE, module_of  # noqa: E402
from kinds import (SECTIONS, container, contribution, debug_stream, info_stream, item_stream, module_header,  # noqa: E402
                   string_stream, u16, u32)
from other_forms import SHORT  # noqa: E402

ADDRESSES = "0x1100 0x1104"


def file_of(types=item_stream(TYPES), ids=item_stream(IDS), symbols=b"", symbol_stream=8):
    """Returns a file of one module, with a procedure `f`. `inner` is inlined at its fifth byte."""
    module, code = module_of(0x100, b"f", WHOLE)
    header = module_header(10, len(module), len(code), b"a.obj")
    debug = debug_stream(header, u32(SHORT) + contribution(1, 0x100, 0x20, 0))
    debug = debug[:20] + u16(symbol_stream) + debug[22:]
    return container([b"", info_stream(), types, debug, ids, string_stream(), b"", None, symbols, SECTIONS, module + code])


FILES = {
    "old_types.pdb": (file_of(types=u32(19990903) + item_stream(TYPES)[4:]),
                      "types are left out: made by a version from before 2005"),
    "no_types.pdb": (file_of(types=None), "types are left out: the file has no such stream"),
    "empty_types.pdb": (file_of(types=b""), "types are left out: the bytes end before what is said to stand there"),
    "cut_ids.pdb": (file_of(ids=item_stream(IDS)[:19]),
                    "ids are left out: the bytes end before what is said to stand there"),
    "no_public_symbols.pdb": (file_of(symbol_stream=0xFFFF), "public symbols are left out: the file has no such stream"),
    "public_symbols_outside.pdb": (file_of(symbol_stream=500),
                                   "public symbols are left out: the file has no such stream"),
}

# The names of `f` and `inner`. Without types, a function is named by its symbol. An inlined function has no name if
# types or ids can't be read.
NAMES = {"old_types.pdb": ("f", "??"), "no_types.pdb": ("f", "??"), "empty_types.pdb": ("f", "??"),
         "cut_ids.pdb": ("f()", "??")}


def unread_part_cases(error, ended):
    """Yields cases. A line says what can't be read, and the rest is answered."""
    for name, (content, why) in FILES.items():
        (HERE / name).write_bytes(content)
        outer, inner = NAMES.get(name, ("f()", "inner()"))
        yield f"pdb_symbolizer -p {name} {ADDRESSES}", (
            error(f"{name}: {why}") + f"{outer} at a.cpp:10:0\n\n{inner} at a.cpp:50:0\n (inlined by) {outer} at a.cpp:10:0\n\n"
            + ended)
