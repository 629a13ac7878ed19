"""Random records of code: symbols of procedures and inline sites, public symbols, and line rows."""
from choices import FUNCTION_NAMES, MISSING
from generate_layout import GREATEST, Layout
from generate_types import Types

PROCEDURE_KINDS = [0x110F, 0x1110, 0x1110, 0x1110, 0x1146, 0x1147, 0x1155, 0x1156, 0x100A, 0x100B]
SITE_KINDS = [0x114D, 0x114D, 0x115D]
ALL_KINDS = [0x110E, 0x1009, 0x100A, 0x100B, 0x110F, 0x1110, 0x1146, 0x1147, 0x1155, 0x1156, 0x206, 0x1102,
             0x1132, 0x114D, 0x115D, 0x6, 0x114E, 0x1012, 0, 0xFFFF]
FIRST_MODULE_KEY = 100  # the reference of the first module's name in the string table
PUBLIC_NAMES = ["?f@@YAXXZ", "?g", "?", "foo", "_bar", "", "?é@@", "f", "??0C@@QEAA@XZ", "F"]


class Code(Layout, Types):
    """`starts` are the section offsets at which symbols with code start. `module` is the module that is being made."""

    # -------------------------------------------------------- single symbols

    def procedure(self):
        section, offset = self.place(self.module)
        return {"raw_kind": self.choose(PROCEDURE_KINDS),
                "data": {"kind": "Procedure", "section": section, "offset": offset, "len": self.length(),
                         "name": self.choose(FUNCTION_NAMES), "end": 0, "type_index": self.function_type()}}

    def thunk(self, at, section, offset):
        return {"raw_kind": self.choose([0x206, 0x1102]),
                "data": {"kind": "Thunk", "section": section, "offset": offset, "len": self.length() & 0xFFFF,
                         "name": self.choose(FUNCTION_NAMES), "end": at + self.choose([0, 1, 2])}}

    def rows(self, start, length):
        """Makes rows of an inline site, for a procedure with this start and length."""
        rows = []
        for _ in self.times(0, 3):
            offset = start + self.choose([0, 0, 4, 8, 8, 0x10, length // 2, length - 1 if length else 0])
            size = self.choose([4, 8, 0x10, 0x10, 0x20, length, 1])
            row = {"offset": min(offset, GREATEST), "length": size,
                   "file_index": self.random.randrange(4), "line_start": self.random.randrange(1, 40)}
            if self.broken(0.2):
                row["length"] = self.choose([0, 0, None, 0xFFFFFFFF])
            if self.broken(0.02):
                row["offset"] = self.choose([0, 0xFFFFFFF0])
            if self.broken(0.03):
                del row["length"]
            rows.append(row)
        return self.reading(0.08, rows)

    def site(self, start, length):
        """Makes an inline site of a procedure with this start and length."""
        inlinee = self.choose(self.id_indices) if self.id_indices else 0x1001
        if self.crossing and self.chance(0.12):
            inlinee = self.cross_index()
        if self.broken(0.05):
            inlinee = self.choose(MISSING)
        return {"raw_kind": self.choose(SITE_KINDS),
                "data": {"kind": "InlineSite", "inlinee": inlinee, "end": 0,
                         "rows": self.rows(start, length)}}

    def other(self):
        """Makes a symbol without content, such as the one at which a procedure or a site ends."""
        symbol = {"raw_kind": self.choose([0x6, 0x114E, 0x1012, 0x110F]), "data": {"kind": "Other"}}
        if self.chance(0.2):
            symbol["data"] = None
        if self.broken(0.1):
            symbol["raw_kind"] = self.choose(ALL_KINDS)
        return symbol

    # --------------------------------------------------------------- bodies

    def add_body(self, symbols, start, length, depth):
        """Adds sites of a procedure with this start and length. Most are nested correctly."""
        for _ in self.times(int(self.mode == "walks"), 3 if depth == 0 else 2):
            if len(symbols) > (30 if self.mode == "walks" else 22):
                return
            if self.chance(0.12):
                symbols.append(self.other())
            if self.chance(0.08):
                self.add_inner_procedure(symbols, start, length, depth)
                continue
            site = self.site(start, length)
            symbols.append(site)
            if depth < 4 and self.chance(0.55):
                self.add_body(symbols, start, length, depth + 1)
            site["data"]["end"] = len(symbols)
            if not self.chance(self.bad_nesting * 0.6):  # otherwise it ends at the next symbol, whatever that is
                symbols.append(self.other())

    def add_inner_procedure(self, symbols, start, length, depth):
        """Adds a procedure inside another, where it is skipped, and maybe a site that ends at the same symbol."""
        procedure = self.procedure()
        symbols.append(procedure)
        if self.chance(0.6):
            self.add_body(symbols, start, length, depth + 1)
        procedure["data"]["end"] = len(symbols)
        if self.chance(0.4):
            symbols.append(self.site(start, length))
            symbols[-1]["data"]["end"] = len(symbols)
        symbols.append(self.other())

    # -------------------------------------------------------------- symbols

    def make_symbols(self):
        """Makes the symbols of a module."""
        if self.mode == "signatures" and self.modules:
            return self.many_procedures()
        symbols = []
        for _ in range(self.choose([0, 1, 2, 3, 3, 4, 5] if self.mode == "mixed" else [1, 1, 2])):
            self.add_code(symbols)
        for symbol in symbols:
            self.spoil_symbol(symbol, len(symbols))
        if self.broken(0.05):
            self.random.shuffle(symbols)
        return symbols

    def add_code(self, symbols):
        """Adds a procedure, a thunk or another symbol. The first two may get separated code."""
        roll = self.random.random() * (1 if self.mode == "mixed" else 0.8)
        section, offset = self.place(self.module)
        if roll < 0.72:
            data = self.add_procedure(symbols)
        elif roll < 0.87:
            symbols.append(self.thunk(len(symbols), section, offset))
            data = symbols[-1]["data"]
        else:
            symbols.append(self.other())
            return
        self.starts.append((data["section"], data["offset"]))
        while self.chance(0.25):
            data = self.add_separated_code(symbols, data)
            if self.chance(0.4):
                break

    def add_procedure(self, symbols):
        """Adds a procedure with its sites, and returns its data."""
        at = len(symbols)
        symbols.append(self.procedure())
        data = symbols[at]["data"]
        if self.mode == "walks":
            data["len"] = self.choose([0x20, 0x40, 0x80])
        self.add_body(symbols, data["offset"], data["len"], 0)
        data["end"] = len(symbols)
        if self.chance(self.bad_nesting * 0.4):  # the end comes while sites are open
            data["end"] = self.random.randint(at + 1, len(symbols))
        symbols.append(self.other())
        return data

    def add_separated_code(self, symbols, parent):
        """Adds separated code, mostly of this parent, and returns its data."""
        place = (parent["section"], parent["offset"])
        if self.broken(0.2) or not self.chance(0.8):
            place = self.choose(self.starts + [(parent["section"] % 2 + 1, parent["offset"])])
        section, offset = self.place(self.module)
        data = {"kind": "SeparatedCode", "section": section, "offset": offset, "len": self.length(),
                "parent_section": place[0], "parent_offset": place[1], "end": len(symbols)}
        symbols.append({"raw_kind": 0x1132, "data": data})
        if self.chance(0.5):
            self.add_body(symbols, data["offset"], data["len"], 0)
            data["end"] = len(symbols)
            symbols.append(self.other())
        return data

    def spoil_symbol(self, symbol, count):
        """Sometimes gives a symbol a wrong end, another kind, or no data."""
        data = symbol.get("data")
        if data and "end" in data and self.chance(self.bad_nesting / 2):
            data["end"] = self.choose([0, self.random.randint(0, count + 1), 0xFFFFFFFF,
                                       max(0, data["end"] - 1), data["end"] + 1])
        if self.broken(0.05):
            symbol["raw_kind"] = self.choose(ALL_KINDS)
        if self.broken(0.01):
            symbol["data"] = None

    def many_procedures(self):
        """Makes procedures side by side, each with up to two sites over its first bytes. They are for tests of names
        and ids."""
        symbols = []
        sections = [n for n in range(1, len(self.sections) + 1) if (n - 1) % len(self.modules) == self.module]
        step = self.choose([8, 0x10, 0x10, 0x20])
        count = min(0x100 // step, self.random.randint(6, 14))
        for n in range(count if sections else 0):
            self.add_small_procedure(symbols, sections, n, step)
        return symbols

    def add_small_procedure(self, symbols, sections, number, step):
        """Adds a procedure at `number` times `step`."""
        symbol = self.procedure()
        data = symbol["data"]
        data.update(section=self.choose(sections), offset=number * step,
                    len=self.choose([step, step, step // 2, 2 * step]))
        if data["type_index"] == 0 and self.functions and self.chance(0.7):
            data["type_index"] = self.choose(self.functions)
        symbols.append(symbol)
        self.starts.append((data["section"], data["offset"]))
        for _ in self.times(0, 2):
            site = self.site(data["offset"], step)
            site["data"]["rows"] = [{"offset": data["offset"], "length": step // 2, "file_index": 0,
                                     "line_start": number}]
            symbols.append(site)
            site["data"]["end"] = len(symbols) + self.choose([0, 0, 1])
            symbols.append(self.other())
        data["end"] = len(symbols)
        symbols.append(self.other())

    def make_publics(self):
        """Makes the global symbols, which are mostly public symbols."""
        publics = []
        for _ in self.times(0, 9):
            symbol = {"raw_kind": self.choose([0x110E, 0x110E, 0x1009]),
                      "data": {"kind": "Public", "section": self.section(), "offset": self.offset(),
                               "name": self.choose(PUBLIC_NAMES)}}
            if self.starts and self.chance(0.5):
                symbol["data"]["section"], symbol["data"]["offset"] = self.choose(self.starts)
            if self.broken(0.1):
                symbol["raw_kind"] = self.choose(ALL_KINDS)
            if self.broken(0.05):
                symbol["data"] = self.choose([None, {"kind": "Other"}, self.procedure()["data"]])
            if self.broken(0.02):
                del symbol["data"]
            publics.append(symbol)
        return publics

    # --------------------------------------------------- records of a module

    def make_lines(self, symbols):
        """Makes the line program of a module. Most entries are for starts of its symbols."""
        starts = [(symbol["data"]["section"], symbol["data"]["offset"]) for symbol in symbols
                  if symbol.get("data") and "offset" in symbol["data"]]
        entries = []
        for _ in self.times(0, 5):
            if starts and self.chance(0.75):
                section, offset = self.choose(starts)
            else:
                section, offset = self.section(), self.offset()
            entries.append({"section": section, "offset": offset, "lines": self.line_rows(offset)})
        return {"entries": entries, "files": [self.choose(self.refs) for _ in self.times(0, 4)]}

    def line_rows(self, start):
        """Makes the line rows of a function. Mostly they are in order."""
        rows = []
        for _ in self.times(0, 4):
            offset = start + self.choose([0, 0, 4, 8, 8, 0x10, 0x18, 0x20, -8])
            rows.append({"offset": min(max(offset, 0), GREATEST), "file_index": self.random.randrange(4),
                         "line_start": self.random.randrange(1, 60)})
        if self.chance(0.6):
            rows.sort(key=lambda row: row["offset"])
        return self.reading(0.08, rows)

    def make_inlinees(self, symbols):
        """Returns the inlinees of nearly all sites, and maybe one more."""
        used = [symbol["data"]["inlinee"] for symbol in symbols
                if symbol.get("data") and symbol["data"]["kind"] == "InlineSite"]
        inlinees = [index for index in used if self.chance(0.97) and not self.broken(0.08)]
        if self.chance(0.3) and self.id_indices:
            inlinees.append(self.choose(self.id_indices))
        return inlinees

    def make_imports(self):
        """Makes imports, mostly of what the other modules export."""
        imports = []
        for _ in self.times(2, 3) if self.crossing else self.times(0, 1):
            other = self.random.randrange(max(len(self.modules), 1))
            numbers = [self.choose(self.exports[other])
                       if self.exports.get(other) and not self.broken(0.1) else self.random.randrange(8)
                       for _ in self.times(1, 4)]
            imports.append({"module": self.choose([9, 77]) if self.broken(0.1) else FIRST_MODULE_KEY + other,
                            "locals": numbers})
        return imports

    def make_exports(self, module):
        targets = self.type_indices + self.id_indices
        exports = []
        for local in self.exports[module]:
            if targets and not self.broken(0.2):
                target = self.choose(targets)
            else:
                target = self.choose(MISSING + [0x80000000] * 3 + [0x80000001, 0x80000005])
            exports.append({"local": local, "global": target})
        if self.chance(0.2):
            exports.append({"local": self.random.randrange(6), "global": self.choose(MISSING + targets)})
        return exports

    def make_info(self, module):
        """Makes the records of the module at a module index."""
        self.module = module
        symbols = self.make_symbols()
        inlinees = self.make_inlinees(symbols)
        imports = self.make_imports()
        exports = self.make_exports(module)
        lines = self.stream(0.07, self.make_lines(symbols))
        inlinees = self.reading(0.5 if "error" in lines else 0.05, inlinees)
        return {"symbols": self.reading(0.05, symbols), "line_program": lines, "inlinees": inlinees,
                "imports": self.stream(0.12, imports), "exports": self.stream(0.15, exports)}
