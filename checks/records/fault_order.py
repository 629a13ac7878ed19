#!/usr/bin/env python3
"""Writes records files with two faults in one object each, and prints what pdb_report must say about them.

Usage: fault_order.py FOLDER

The objects and the order of their members come from the tables in docs/FORMAT.md. For each object and each two
consecutive members, FOLDER gets a records file in which both have a value of a wrong type. The script prints the run
over it, with the fault of the first member. One more file, unknown_members.json, has unknown members in every object.
crates/pdb_report_tests/data/faults is such a folder, and cases.txt in the folder above it has the runs.
"""
import copy
import json
import pathlib
import re
import sys

HERE = pathlib.Path(__file__).resolve().parent
FORMAT = HERE.parents[1] / "docs" / "FORMAT.md"
# For each type of value, one that no member of that type accepts.
WRONG = {"number": "x", "text": 5, "boolean": 5, "array": 5, "object": 5}
SYMBOL_KINDS = ["Public", "Procedure", "SeparatedCode", "Thunk", "InlineSite"]
TYPE_KINDS = ["Primitive", "Class", "MemberFunction", "Procedure", "Pointer", "Array", "Union", "Enumeration",
              "Enumerate", "Modifier", "ArgumentList", "Other"]
ID_KINDS = ["MemberFunction", "Function", "String", "StringList", "Other"]
# The types of members. A member that isn't listed is a number.
TEXTS = {"name", "unique_name", "kind_name", "machine_type", "class_kind", "primitive", "mode", "text", "kind"}
BOOLEANS = {"execute", "indirection", "forward_reference", "is_constructor", "is_const", "constant"}
ARRAYS = {"sections", "address_map", "global_symbols", "type_information", "id_information", "string_table",
          "module_infos", "modules", "section_contributions", "rows", "symbols", "inlinees", "imports", "exports",
          "entries", "files", "locals", "rest", "arguments", "substrings"}
OBJECTS = {"debug_information", "data", "line_program", "value"}


def wanted(member, holder):
    """Returns the word that an error uses for the type of a member."""
    if member == "lines" and holder == "entry":
        return "array"
    for names, word in ((TEXTS, "text"), (BOOLEANS, "boolean"), (ARRAYS, "array"), (OBJECTS, "object")):
        if member in names:
            return word
    return "number"


def members_of(cell):
    """Returns the members that a cell of a table names, in order. Names in parentheses don't count."""
    return re.findall(r"`([a-z_]+)`", re.sub(r"\([^()]*\)", "", re.sub(r"\([^()]*\)", "", cell)))


def table(heading):
    """Returns the table of FORMAT.md with this heading, as the second cell by the first."""
    rows, inside = {}, False
    for line in FORMAT.read_text().splitlines():
        if line.startswith("| " + heading):
            inside = True
        elif inside and not line.startswith("|"):
            break
        elif inside and not line.startswith("|-"):
            name, cell = line.strip("| ").split(" | ", 1)
            rows[name.strip("`")] = cell
    return rows


def objects():
    """Yields each object that has members: its name, its kind if it has variants, and its members in order."""
    for name, cell in table("Object").items():
        if name == "data":
            for part in cell.split("`Public`:")[1:]:
                for kind, members in re.findall(r"`([A-Z]\w+)`: ([^.]*)", "`Public`:" + part):
                    yield "data", kind, ["kind", *members_of(members)]
        elif name not in ("type", "id"):
            yield name, None, members_of(cell)
    for name, heading in (("type", "Kind of type"), ("id", "Kind of id")):
        for kind, cell in table(heading).items():
            yield name, kind, ["index", "kind", *members_of(cell.split(":")[0] if kind == "Enumerate" else cell)]


def lawful(member, holder):
    """Returns a valid value of a member."""
    word = wanted(member, holder)
    named = {"class_kind": "Class", "primitive": "I32", "mode": "Pointer", "machine_type": "Amd64",
             "value": {"kind": "U8", "value": 1}, "line_program": {"entries": [], "files": []},
             "data": {"kind": "Other"},
             "debug_information": {"machine_type": "Amd64", "modules": [], "section_contributions": []}}
    return named.get(member, {"number": 1, "text": "t", "boolean": True, "array": [], "object": {}}[word])


def instance(holder, kind, members):
    """Returns a valid object."""
    made = {member: lawful(member, holder) for member in members}
    if kind:
        made["kind"] = kind
    return made


def file_with(holder, made):
    """Returns a records file that has this object, and the path to the object."""
    info = {"symbols": [], "line_program": {"entries": [], "files": []}, "inlinees": [], "imports": [], "exports": []}
    debug = {"machine_type": "Amd64", "modules": [], "section_contributions": []}
    file = {"sections": [], "address_map": [], "global_symbols": [], "debug_information": debug,
            "type_information": [], "id_information": [], "string_table": [], "module_infos": []}
    symbol = {"raw_kind": 4368, "data": {"kind": "Other"}}
    site = {"kind": "InlineSite", "inlinee": 1, "end": 1, "rows": []}
    if holder == "file":
        return {**made}, ""
    if holder in ("info", "lines", "entry", "line", "row", "import", "export", "data", "symbol"):
        file["module_infos"] = [info]
    places = {
        "section": ("sections", "/sections/0"), "range": ("address_map", "/address_map/0"),
        "string": ("string_table", "/string_table/0"), "type": ("type_information", "/type_information/0"),
        "id": ("id_information", "/id_information/0"),
    }
    if holder in places:
        file[places[holder][0]] = [made]
        return file, places[holder][1]
    if holder == "debug":
        file["debug_information"] = made
        return file, "/debug_information"
    if holder == "module":
        debug["modules"] = [made]
        return file, "/debug_information/modules/0"
    if holder == "contribution":
        debug["section_contributions"] = [made]
        return file, "/debug_information/section_contributions/0"
    if holder == "info":
        file["module_infos"] = [made]
        return file, "/module_infos/0"
    if holder == "lines":
        info["line_program"] = made
        return file, "/module_infos/0/line_program"
    if holder == "entry":
        info["line_program"]["entries"] = [made]
        return file, "/module_infos/0/line_program/entries/0"
    if holder in ("import", "export"):
        info[holder + "s"] = [made]
        return file, f"/module_infos/0/{holder}s/0"
    if holder == "symbol":
        info["symbols"] = [made]
        return file, "/module_infos/0/symbols/0"
    if holder == "data":
        info["symbols"] = [{**symbol, "data": made}]
        return file, "/module_infos/0/symbols/0/data"
    info["symbols"] = [{"raw_kind": 4429, "data": {**site, "rows": [made]}}]
    return file, "/module_infos/0/symbols/0/data/rows/0"


def pairs():
    """Yields, for each two consecutive members, a name, a records file, and its fault."""
    for holder, kind, members in objects():
        members = [member for member in members if (holder, member) not in (("file", "version"), ("info", "file"))]
        for first, second in zip(members, members[1:]):
            made = instance(holder, kind, members)
            for member in (first, second):
                made[member] = WRONG[wanted(member, holder)]
            file, path = file_with(holder, made)
            name = "_".join(word.lower() for word in (holder, kind, first, second) if word)
            yield name, file, f"{path}/{first}: wanted {wanted(first, holder)}"


def with_unknown(value):
    """Returns a JSON value in which every object has an unknown member at its start and another at its end."""
    if isinstance(value, dict):
        inner = {name: with_unknown(member) for name, member in value.items()}
        return {"unknown": [{"kind": 5}], **inner, "beyond": {"error": None}}
    return [with_unknown(element) for element in value] if isinstance(value, list) else value


def lawful_file():
    """Returns a records file with a valid object of each kind."""
    made = {}
    for holder, kind, members in objects():
        members = [member for member in members if (holder, member) not in (("file", "version"), ("info", "file"))]
        made.setdefault(holder, []).append(instance(holder, kind, members))
    file = copy.deepcopy(made["file"][0])
    entry = {**made["entry"][0], "lines": [{"offset": 1, "file_index": 0, "line_start": 1}]}
    sites = [{"raw_kind": 4368, "data": {**data, "rows": made["row"]} if "rows" in data else data} for data in made["data"]]
    info = {**made["info"][0], "symbols": sites, "line_program": {"entries": [entry], "files": [1]},
            "imports": made["import"], "exports": made["export"]}
    debug = {**made["debug"][0], "modules": made["module"]}
    return {**file, "sections": made["section"], "address_map": made["range"], "debug_information": debug,
            "type_information": made["type"], "id_information": made["id"], "string_table": made["string"],
            "module_infos": [info]}


def main(folder):
    folder = pathlib.Path(folder)
    folder.mkdir(parents=True, exist_ok=True)
    runs = []
    for name, file, fault in pairs():
        (folder / f"{name}.json").write_text(json.dumps(file, separators=(",", ":")) + "\n")
        runs.append(f"$ pdb_report faults/{name}.json list\npdb_report: faults/{name}.json: {fault}\nstatus 2\n")
    (folder / "unknown_members.json").write_text(json.dumps(with_unknown(lawful_file()), separators=(",", ":")) + "\n")
    runs.append("$ pdb_report faults/unknown_members.json list\nstatus 0\n")
    print("\n".join(runs), end="")


if __name__ == "__main__":
    if len(sys.argv) != 2:
        sys.exit(__doc__)
    main(sys.argv[1])
