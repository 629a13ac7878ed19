#!/usr/bin/env python3
"""Warns of what is valid in a records file but probably a mistake, each with its path.

Usage: likely_mistakes.py RECORDS ..      exit status 0: nothing to warn of, 1: something

The script doesn't look for faults that make pdb_report refuse the file. Module files that a file refers to are read
from its folder. If a text is not JSON, the script ends with one line.
"""
import json
import pathlib
import sys

PROCEDURES = {0x100A, 0x100B, 0x110F, 0x1110, 0x1146, 0x1147, 0x1155, 0x1156}
SITES = {0x114D, 0x115D}
MACHINES = {"Amd64", "Arm64", "Ia64", "RiscV64", "RiscV128"}
CROSS_MODULE = 0x8000_0000
TYPE_MEMBERS = ("return_type", "class_type", "this_pointer_type", "argument_list", "underlying_type", "element_type")
MEMBERS = {
    "file": "version sections address_map global_symbols debug_information type_information id_information "
            "string_table module_infos",
    "section": "virtual_address virtual_size execute", "range": "virtual_address virtual_size",
    "debug": "machine_type modules section_contributions", "module": "name",
    "contribution": "section offset size module", "string": "ref text", "symbol": "raw_kind data",
    "Public": "kind section offset name", "Procedure": "kind section offset len name end type_index",
    "SeparatedCode": "kind section offset len parent_section parent_offset end",
    "Thunk": "kind section offset len name end", "InlineSite": "kind inlinee end rows", "Other": "kind",
    "row": "offset length file_index line_start",
    "info": "symbols line_program inlinees imports exports file", "lines": "entries files",
    "entry": "section offset lines", "line": "offset file_index line_start"}
MEMBERS = {name: set(members.split()) for name, members in MEMBERS.items()}


def items_of(value):
    """Returns the elements of an array or of a list with `items`. A stream that failed, or another value, has none."""
    if isinstance(value, dict):
        value = value.get("items", [])
    return value if isinstance(value, list) else []


class Checker:
    def __init__(self, file, folder):
        self.file, self.folder, self.warnings = file, folder, []

    def warn(self, path, text):
        self.warnings.append(f"{path}: {text}")

    def members(self, path, value, kind):
        """Warns of members that nothing reads. Returns whether the value is an object."""
        if not isinstance(value, dict):
            return False
        for name in value:
            if name not in MEMBERS[kind] and name not in ("error", "items", "fault"):
                self.warn(f"{path}/{name}", "no such member is read; is the name misspelt?")
        return True

    # ------------------------------------------------------------ the program

    def run(self):
        file = self.file
        if not self.members("", file, "file"):
            return self.warnings
        self.sections = items_of(file.get("sections"))
        self.ranges = items_of(file.get("address_map"))
        debug = file.get("debug_information")
        debug = debug if isinstance(debug, dict) else {}
        self.modules = items_of(debug.get("modules"))
        self.contributions = items_of(debug.get("section_contributions"))
        self.strings = {s.get("ref") for s in items_of(file.get("string_table")) if isinstance(s, dict)}
        self.layout()
        self.machine(debug)
        self.types = self.indices("/type_information", file.get("type_information"))
        self.ids = self.indices("/id_information", file.get("id_information"))
        self.items("/type_information", file.get("type_information"))
        self.items("/id_information", file.get("id_information"))
        infos = file.get("module_infos")
        infos = infos if isinstance(infos, list) else []
        if len(infos) < len(self.modules):
            self.warn("/module_infos", f"{len(infos)} for {len(self.modules)} modules: the last have none")
        for number, info in enumerate(infos):
            self.module(number, info)
        return self.warnings

    def layout(self):
        if not self.ranges:
            self.warn("/address_map", "empty: no address lies in a section, so nothing is ever found")
        if not any(isinstance(s, dict) and s.get("execute") is True for s in self.sections):
            self.warn("/sections", "none holds code: nothing is ever found")
        for name, sections, kind in (("sections", self.sections, "section"), ("address_map", self.ranges, "range")):
            for number, section in enumerate(sections):
                self.members(f"/{name}/{number}", section, kind)
        for number, c in enumerate(self.contributions):
            path = f"/debug_information/section_contributions/{number}"
            if not self.members(path, c, "contribution"):
                continue
            if isinstance(c.get("module"), int) and c["module"] >= len(self.modules):
                self.warn(f"{path}/module", "no module has this position")
            self.place(path, c.get("section"), c.get("offset"))
        for number, module in enumerate(self.modules):
            self.members(f"/debug_information/modules/{number}", module, "module")

    def place(self, path, section, offset):
        """Warns of a section offset in no section, or past its section's end."""
        if not isinstance(section, int) or not isinstance(offset, int):
            return
        if not 1 <= section <= len(self.sections):
            self.warn(f"{path}/section", "no section has this number: they count from 1")
        elif isinstance(self.sections[section - 1], dict) and \
                offset > self.sections[section - 1].get("virtual_size", 0):
            self.warn(f"{path}/offset", "past the end of the section: offsets count from its start")

    def machine(self, debug):
        self.members("/debug_information", debug, "debug")
        machine = debug.get("machine_type")
        if isinstance(machine, str) and machine not in MACHINES:
            self.warn("/debug_information/machine_type", f"not one of {', '.join(sorted(MACHINES))}: "
                      "pointers have 4 bytes then, and array bounds are divided by that")

    # ------------------------------------------------------------ types and ids

    def indices(self, path, information):
        found = {}
        for number, item in enumerate(items_of(information)):
            index = item.get("index") if isinstance(item, dict) else None
            if index in found:
                self.warn(f"{path}/{number}/index", f"element {found[index]} has it too, and the first one counts")
            found.setdefault(index, number)
        return found

    def index(self, path, value, known, what):
        if isinstance(value, int) and not value & CROSS_MODULE and value not in known:
            self.warn(path, f"no {what} has the index {value}; primitives are entries of their own")

    def items(self, path, information):
        for number, item in enumerate(items_of(information)):
            if not isinstance(item, dict) or "error" in item:
                continue
            at = f"{path}/{number}"
            for name in TYPE_MEMBERS:
                self.index(f"{at}/{name}", item.get(name), self.types, "type")
            for name in ("arguments", "substrings"):
                for place, value in enumerate(items_of(item.get(name))):
                    self.index(f"{at}/{name}/{place}", value, self.types, "type")
            self.index(f"{at}/parent", item.get("parent"), self.types, "type")
            if item.get("function_type") != 0:
                self.index(f"{at}/function_type", item.get("function_type"), self.types, "type")
            self.index(f"{at}/scope", item.get("scope"), self.ids, "id")

    # ------------------------------------------------------------ modules

    def module(self, number, info):
        path = f"/module_infos/{number}"
        if isinstance(info, dict) and isinstance(info.get("file"), str) and "error" not in info:
            path = f"{path}/file"
            info = read(self.folder / info["file"])
        if not self.members(path, info, "info") or "error" in info:
            return
        self.inlinees = set(items_of(info.get("inlinees")))
        program = info.get("line_program")
        self.files = items_of(program.get("files")) if isinstance(program, dict) else []
        for place, key in enumerate(self.files):
            if key not in self.strings:
                self.warn(f"{path}/line_program/files/{place}", f"no string has the key {key}")
        symbols = items_of(info.get("symbols"))
        for place, symbol in enumerate(symbols):
            self.symbol(f"{path}/symbols/{place}", number, symbols, place, symbol)
        for place, entry in enumerate(items_of(program.get("entries")) if isinstance(program, dict) else []):
            self.lines(f"{path}/line_program/entries/{place}", entry)

    def symbol(self, path, module, symbols, place, symbol):
        if not self.members(path, symbol, "symbol") or not isinstance(symbol.get("data"), dict):
            return
        data, kind = symbol["data"], symbol["data"].get("kind")
        if kind in MEMBERS:
            self.members(f"{path}/data", data, kind)
        if kind in ("Procedure", "SeparatedCode", "Thunk", "InlineSite"):
            self.end(f"{path}/data/end", symbols, place, data.get("end"))
        if kind in ("Public", "Procedure", "Thunk", "SeparatedCode"):
            self.place(f"{path}/data", data.get("section"), data.get("offset"))
        if kind == "Procedure" and symbol.get("raw_kind") in PROCEDURES:
            if data.get("type_index") != 0:
                self.index(f"{path}/data/type_index", data.get("type_index"), self.types, "type")
            self.in_contribution(path, module, data)
            self.rows(path, symbols, place, data)
        if kind == "InlineSite" and symbol.get("raw_kind") in SITES:
            self.index(f"{path}/data/inlinee", data.get("inlinee"), self.ids, "id")
            if data.get("inlinee") not in self.inlinees:
                self.warn(f"{path}/data/inlinee", "not among the module's inlinees, so its rows don't count")
            for at, row in enumerate(items_of(data.get("rows"))):
                self.members(f"{path}/data/rows/{at}", row, "row")
                if isinstance(row, dict) and isinstance(row.get("file_index"), int) and \
                        row["file_index"] >= len(self.files):
                    self.warn(f"{path}/data/rows/{at}/file_index", "no file has this position in files")

    def end(self, path, symbols, place, end):
        """Warns of a symbol whose `end` isn't the position of a later symbol."""
        if isinstance(end, int) and not place < end < len(symbols):
            self.warn(path, "no later symbol of the list has this position: it closes nothing")

    def in_contribution(self, path, module, data):
        if not any(isinstance(c, dict) and c.get("module") == module and c.get("section") == data.get("section") and
                   c.get("offset", 0) <= data.get("offset", 0) < c.get("offset", 0) + c.get("size", 0)
                   for c in self.contributions):
            self.warn(f"{path}/data", "starts in no contribution of its module, so no address finds it")

    def rows(self, path, symbols, place, data):
        """Warns of rows of inline sites that are outside their procedure."""
        start, end = data.get("offset", 0), data.get("offset", 0) + data.get("len", 0)
        last = data.get("end") if isinstance(data.get("end"), int) else place
        for at in range(place + 1, min(last, len(symbols))):
            site = symbols[at].get("data") if isinstance(symbols[at], dict) else None
            if not isinstance(site, dict) or site.get("kind") != "InlineSite":
                continue
            for number, row in enumerate(items_of(site.get("rows"))):
                if isinstance(row, dict) and not start <= row.get("offset", start) < end:
                    self.warn(f"{path.rsplit('/', 1)[0]}/{at}/data/rows/{number}/offset",
                              "outside its procedure: offsets count from the start of the section")

    def lines(self, path, entry):
        if not self.members(path, entry, "entry"):
            return
        for number, line in enumerate(items_of(entry.get("lines"))):
            self.members(f"{path}/lines/{number}", line, "line")
            if not isinstance(line, dict):
                continue
            if isinstance(line.get("file_index"), int) and line["file_index"] >= len(self.files):
                self.warn(f"{path}/lines/{number}/file_index", "no file has this position in files")
            if line.get("offset", 0) < entry.get("offset", 0):
                self.warn(f"{path}/lines/{number}/offset", "below its function: offsets count from the section's start")


def read(path):
    try:
        return json.loads(pathlib.Path(path).read_bytes())
    except (OSError, ValueError) as error:
        sys.exit(f"{path}: {error}")


def main():
    if len(sys.argv) < 2:
        sys.exit(__doc__)
    warned = False
    for name in sys.argv[1:]:
        for warning in Checker(read(name), pathlib.Path(name).parent).run():
            warned = True
            print(f"{name}: {warning}")
    sys.exit(1 if warned else 0)


if __name__ == "__main__":
    main()
