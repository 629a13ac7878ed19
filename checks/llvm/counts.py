#!/usr/bin/env python3
"""Compares the counts in a records file with those that llvm-pdbutil shows for its PDB file, kind by kind.

Usage: counts.py PROGRAM PDB

The built pdb_symbolizer exports the PDB file. The script prints one line with both counts for each kind. Records of
modules are compared module by module. Some counts need care:

  - A module without a stream counts as one without records. For such a module llvm-pdbutil 14 repeats the lines and
    inlinees of the module before it.
  - If several rows of a subsection of lines have the same offset, one of them counts, as in the reader.
  - A records file may have further entries, for procedures inside a subsection. Only entries at the start of a
    subsection count.
"""
import collections
import itertools
import json
import pathlib
import re
import subprocess
import sys
import tempfile

MODULE = re.compile(r"\s*Mod (\d+) \| ")
SYMBOL = re.compile(r"\s*\d+ \| (S_\w+)")
SHOWN = re.compile(r"\s*Showing ([\d,]+) records")
LEAF = re.compile(r"\s*0x[0-9A-F]+ \| (LF_\w+)")
INLINEE = re.compile(r"\s*0x[0-9A-F]+ \| +\d+ \| ")
BLOCK = re.compile(r"\s*(\d+):([0-9A-F]+)-([0-9A-F]+), line/(?:column/)?addr entries = \d+")
ROW = re.compile(r"(NSI|ASI|\d+|\?+) ([0-9A-F]{8})")
PROCEDURES = {"S_GPROC32", "S_LPROC32", "S_GPROC32_ID", "S_LPROC32_ID", "S_LPROC32_DPC", "S_LPROC32_DPC_ID",
              "S_GPROCIA64", "S_LPROCIA64", "S_GMANPROC", "S_LMANPROC"}
KINDS = {"InlineSite": {"S_INLINESITE", "S_INLINESITE2"}, "Procedure": PROCEDURES, "SeparatedCode": {"S_SEPCODE"},
         "Thunk": {"S_THUNK32"}}
TYPES = {
    "ArgumentList": {"LF_ARGLIST"}, "Array": {"LF_ARRAY", "LF_DIMARRAY"},
    "Class": {"LF_CLASS", "LF_INTERFACE", "LF_STRUCTURE"}, "Enumeration": {"LF_ALIAS", "LF_ENUM"},
    "MemberFunction": {"LF_MFUNCTION"}, "Modifier": {"LF_MODIFIER"},
    "Other": {"LF_BITFIELD", "LF_FIELDLIST", "LF_METHODLIST", "LF_VFTABLE", "LF_VTSHAPE"}, "Pointer": {"LF_POINTER"},
    "Procedure": {"LF_PROCEDURE"}, "Union": {"LF_UNION"}}
IDS = {"Function": {"LF_FUNC_ID"}, "MemberFunction": {"LF_MFUNC_ID"}, "Other": {"LF_BUILDINFO", "LF_UDT_SRC_LINE"},
       "String": {"LF_STRING_ID"}, "StringList": {"LF_SUBSTR_LIST"}}
LISTS = {"types": TYPES, "ids": IDS}
# Lower indices are types built into the format, which no record describes.
FIRST = 0x1000


def dump(option, pdb):
    """Returns the lines that llvm-pdbutil prints."""
    done = subprocess.run(["llvm-pdbutil", "dump", option, pdb], capture_output=True, text=True, errors="replace")
    return done.stdout.splitlines()


def by_module(option, pdb):
    """Returns the lines of a dump by module."""
    lines = collections.defaultdict(list)
    module = None
    for line in dump(option, pdb):
        found = MODULE.match(line)
        if found:
            module = int(found[1])
        elif module is not None:
            lines[module].append(line)
    return lines


def symbol_counts(names):
    """Counts the symbols of each kind that has content, and all symbols."""
    counts = {kind: sum(name in kinds for name in names) for kind, kinds in KINDS.items()}
    return counts | {"symbols": len(names)}


def by_kind(name, count, counts):
    """Names the counts of the kinds of a list, and adds the number of records of no known kind."""
    return {f"{name}, {kind}": count for kind, count in (counts | {"unknown": count - sum(counts.values())}).items()}


def shown_parts(lines):
    """Returns the subsections of lines of a module. llvm-pdbutil shows each of them once for each of its files."""
    return [part for part, _ in itertools.groupby(block.groups() for block in map(BLOCK.match, lines) if block)]


def shown_lines(lines):
    """Counts the subsections of lines, and their offsets that have a row with a line."""
    part, rows = None, set()
    for line in lines:
        block = BLOCK.match(line)
        part = block.groups() if block else part
        rows |= {(part, at) for row, at in ([] if block else ROW.findall(line)) if row not in ("NSI", "ASI")}
    return {"parts of lines": len(shown_parts(lines)), "rows": len(rows)}


def shown(pdb):
    """Returns what llvm-pdbutil shows: the counts of the file, the counts of each module that has a stream, and the
    starts of each module's subsections of lines."""
    modules = by_module("--modules", pdb)
    globals_ = [found[1] for found in map(SYMBOL.match, dump("--gsi-records", pdb)) if found]
    whole = {"modules": len(modules), "global symbols": len(globals_),
             "Public": sum(name == "S_PUB32" for name in globals_),
             "section contributions": sum(line.lstrip().startswith("SC[") for line in dump("--section-contribs", pdb)),
             "sections": sum("SECTION HEADER" in line for line in dump("--section-headers", pdb))}
    for name, kinds in LISTS.items():
        lines = dump(f"--{name}", pdb)
        whole[name] = sum(int(found[1].replace(",", "")) for found in map(SHOWN.match, lines) if found)
        leaves = collections.Counter(found[1] for found in map(LEAF.match, lines) if found)
        counts = {kind: sum(leaves[leaf] for leaf in kinds[kind]) for kind in kinds}
        whole |= by_kind(name, whole[name], counts)
    parts = {option: by_module(option, pdb) for option in ("--symbols", "-l", "--il")}
    known, starts = {}, {}
    for module, lines in modules.items():
        starts[module] = {(int(section), int(start, 16)) for section, start, _ in shown_parts(parts["-l"][module])}
        if any("debug stream: 65535" in line for line in lines):
            continue
        symbols = [found[1] for found in map(SYMBOL.match, parts["--symbols"][module]) if found]
        inlinees = sum(bool(INLINEE.match(line)) for line in parts["--il"][module])
        known[module] = symbol_counts(symbols) | shown_lines(parts["-l"][module]) | {"inlinees": inlinees}
    return whole, known, starts


def items(reading):
    """Returns the items of a list in a records file. A stream that failed has none."""
    return reading if isinstance(reading, list) else reading.get("items", [])


def kind_of(symbol):
    """Returns the kind of a symbol's content, or None."""
    return symbol.get("data", {}).get("kind")


def module_counts(info, starts):
    """Counts the records of a module. `starts` are the starts of its subsections of lines."""
    kinds = [kind_of(symbol) for symbol in items(info["symbols"])]
    entries = [entry for entry in info["line_program"].get("entries", [])
               if (entry["section"], entry["offset"]) in starts]
    counts = {kind: kinds.count(kind) for kind in KINDS} | {"symbols": len(kinds)}
    return counts | {"parts of lines": len(entries), "rows": sum(len(items(entry["lines"])) for entry in entries),
                     "inlinees": len(items(info["inlinees"]))}


def recorded(records, starts):
    """Returns what a records file has: the counts of the file, and the counts of each module that has records."""
    debug = records["debug_information"]
    symbols = items(records["global_symbols"])
    whole = {"modules": len(items(debug["modules"])), "global symbols": len(symbols),
             "Public": sum(kind_of(symbol) == "Public" for symbol in symbols),
             "section contributions": len(items(debug["section_contributions"])),
             "sections": len(records["sections"] or [])}
    for name, kinds in LISTS.items():
        found = [item.get("kind") for item in items(records[f"{name[:-1]}_information"]) if item["index"] >= FIRST]
        whole[name] = len(found)
        whole |= by_kind(name, len(found), {kind: found.count(kind) for kind in kinds})
    modules = enumerate(records["module_infos"])
    return whole, {module: module_counts(info, starts[module]) for module, info in modules if info}


def main(program, pdb):
    with tempfile.TemporaryDirectory() as folder:
        out = pathlib.Path(folder) / "records.json"
        subprocess.run([program, "--export", out, pdb], check=True)
        theirs, their_modules, starts = shown(pdb)
        ours, our_modules = recorded(json.loads(out.read_bytes()), starts)
    wrong = 0
    for kind in ours:
        wrong += ours[kind] != theirs[kind]
        print(f"{kind}: {ours[kind]}, shown {theirs[kind]}")
    wrong += our_modules.keys() != their_modules.keys()
    print(f"modules with records: {len(our_modules)}, shown {len(their_modules)}")
    for kind in next(iter(our_modules.values()), {}):
        here, there = ({module: counts[kind] for module, counts in modules.items()}
                       for modules in (our_modules, their_modules))
        apart = [module for module in sorted({*here, *there}) if here.get(module) != there.get(module)]
        wrong += len(apart)
        print(f"{kind}: {sum(here.values())}, shown {sum(there.values())}", f"apart in {apart[:9]}" if apart else "")
    return 1 if wrong else 0


if __name__ == "__main__":
    if len(sys.argv) != 3:
        sys.exit(__doc__)
    sys.exit(main(*sys.argv[1:]))
