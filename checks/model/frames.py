"""Inlined calls, line rows, and the two lookups: the function at an address, and its frames."""
from errors import Error, FailedParts, note
from functions import GREATEST, PROCEDURE_KINDS, Program, address_of, pick, refuse_failed, refuse_fault
from records import Record
from signatures import Formatter

SITE_KINDS = PROCEDURE_KINDS | {0x114D, 0x115D}


def inline_sites(symbols, procedure):
    """Returns the inline sites of a procedure in the order of symbols, each with the positions of the sites around it.

    A symbol at or after the end of the innermost open site closes that site and does nothing else. The walk stops at
    the procedure's own end. An inner procedure is skipped, with the symbol at its end."""
    sites = []
    ends = [procedure.end]
    around = []  # positions of the open sites, outermost first
    position = procedure.position + 1
    while position < len(symbols):
        data = symbols[position].data
        counts = symbols[position].raw_kind in SITE_KINDS and data
        if position >= ends[-1]:
            ends.pop()
            if not ends:
                break
            around.pop()
        elif counts and data.kind == "Procedure":
            if data.end > position:
                note("procedure skipped")
                position = data.end
        elif counts and data.kind == "InlineSite":
            sites.append(Record(position=position, data=data, around=list(around)))
            ends.append(data.end)
            around.append(position)
        position += 1
    return sites


def intervals(rows):
    return [(row.offset, row.offset + row.length) for row in rows]


def runs_missing(covered, own):
    """Returns the maximal runs of the numbers that `covered` has and `own` hasn't, ascending."""
    edges = sorted({edge for interval in covered + own for edge in interval})
    runs = []
    for low, high in zip(edges, edges[1:]):
        is_covered = any(start <= low and high <= end for start, end in covered)
        if is_covered and not any(start <= low and high <= end for start, end in own):
            if runs and runs[-1][1] == low:
                runs[-1][1] = high
            else:
                runs.append([low, high])
    return runs


def counting_rows(site, inlinees):
    """Returns the rows of a site that aren't empty. There are none if the module doesn't list the site's inlinee."""
    if site.data.inlinee not in inlinees:
        note("site without an inlinee")
        return []
    return [row for row in site.data.rows.items if row.length]


def own_ranges(site):
    """Returns the ranges of a site's rows, as (start, end, inlined function with file and line)."""
    return [(row.offset, row.offset + row.length,
             Record(inlinee=site.data.inlinee, file=row.file_index, line=row.line_start))
            for row in site.rows]


def added_ranges(site, sites):
    """Returns the ranges that a site gets because sites inside of it have rows there and it has none itself.

    They have the file of the site's first row and no line."""
    inner = [row for other in sites if site.position in other.around for row in other.rows]
    file = site.rows[0].file_index if site.rows else None
    return [(low, high, Record(inlinee=site.data.inlinee, file=file, line=None))
            for low, high in runs_missing(intervals(inner), intervals(site.rows))]


def inline_ranges(symbols, procedure, inlinees):
    """Returns for each depth the list of its ranges: first the own ranges of all sites there, and then the added
    ones."""
    sites = inline_sites(symbols, procedure)
    for site in sites:
        site.rows = counting_rows(site, inlinees)
    depths = []
    for depth in range(max([len(site.around) + 1 for site in sites], default=0)):
        there = [site for site in sites if len(site.around) == depth]
        depths.append([found for site in there for found in own_ranges(site)]
                      + [found for site in there for found in added_ranges(site, sites)])
    return depths


def inline_stack(depths, offset):
    """Returns the inlined function over an offset at each depth, outermost first, up to the first depth without one."""
    stack = []
    for ranges in depths:
        best = pick(ranges, offset)
        if best is None:
            break
        stack.append(best[2])
    return stack


def row_over(rows, offset):
    """Returns the line row with the greatest start that is at or below an offset. Of equal starts, the first row
    wins."""
    best = None
    for row in rows:
        if row.offset <= offset and (best is None or row.offset > best.offset):
            best = row
    return best


class Context(Program):
    """The lookups of a program, and the broken parts that they remember."""

    def __init__(self, pdb):
        super().__init__(pdb)
        self.formatter = Formatter(self)
        self.failed = FailedParts()

    # ---------------------------------------------------------------- names

    def printed(self, call):
        """Returns the printed text, or None if printing fails."""
        try:
            return call()
        except Error as error:
            note("name swallowed: " + error.text)
            return None

    def function_name(self, found):
        """Returns the name of a function: a procedure's signature, or the name of a global function.

        If a procedure has no type and no decorated name, the public symbol at its start names it, if that has a
        decorated name."""
        procedure = found.procedure
        if procedure is None:
            note("global function" if found.name is not None else "placeholder")
            return found.name
        public = self.globals.get((procedure.section, procedure.offset)) or ""
        if procedure.type_index == 0 and not procedure.name.startswith("?") and public.startswith("?"):
            note("decorated public name")
            return public
        return self.printed(lambda: self.formatter.format_function(procedure.name, found.module,
                                                                   procedure.type_index))

    # ------------------------------------------------------------ functions

    def find_function(self, address):
        """Returns (start, end or None, name or None) of the function at an address, or None.

        A global function ends where the next one of its section starts. If that start has no address, no function is
        found."""
        found = self.look_up(address)
        if found is None:
            return None
        start = address_of(self.address_map, found.section, found.start)
        end = None
        if found.procedure:
            if start + found.procedure.len <= GREATEST:
                end = start + found.procedure.len
        else:
            following = self.next_global_start(found.section, found.start)
            if following is not None:
                end = address_of(self.address_map, found.section, following)
                if end is None:
                    note("next entry has no address")
                    return None
        return start, end, self.function_name(found)

    # --------------------------------------------------------------- frames

    def find_frames(self, address):
        """Returns the frames (function, file, line) at an address, innermost first, or None."""
        found = self.look_up(address)
        if found is None:
            return None
        name = self.function_name(found)
        info = self.readable_info(found.module)
        if info is None:
            return [(name, None, None)]
        line_program, inlinees = self.failed.ask(
            ("extended", found.module), "ExtendedModuleInfoUnsuccessful", lambda: self.extended(info))
        rows = self.failed.ask(
            ("lines", found.module, found.section, found.start), "ProcedureLinesUnsuccessful",
            lambda: self.function_lines(line_program, found))
        frames = self.inline_frames(found, info, line_program, inlinees)
        row = row_over(rows, found.offset)
        if row is None:
            return frames + [(name, None, None)]
        return frames + [(name, self.file_name(line_program, row.file_index), row.line_start)]

    def extended(self, info):
        """Returns the line program and the inlinees of a module."""
        refuse_failed(info.line_program)
        refuse_fault(info.inlinees)
        return info.line_program, set(info.inlinees.items)

    def function_lines(self, line_program, found):
        """Returns the line rows of the first entry for the start of a function."""
        for entry in line_program.entries:
            if (entry.section, entry.offset) == (found.section, found.start):
                refuse_fault(entry.lines)
                return entry.lines.items
        return []

    def inline_frames(self, found, info, line_program, inlinees):
        """Returns the frames of inlined functions, innermost first. Names are printed from the outermost on."""
        if not found.procedure:
            return []
        frames = []
        depths = inline_ranges(info.symbols.items, found.procedure, inlinees)
        for inlined in inline_stack(depths, found.offset):
            name = self.printed(lambda: self.formatter.format_id(found.module, inlined.inlinee))
            frames.append((name, self.file_name(line_program, inlined.file), inlined.line))
        return frames[::-1]

    def file_name(self, line_program, position):
        """Returns the name of a module's file by its position: the first string with the file's reference."""
        if position is None or position >= len(line_program.files) or self.strings is None:
            return None
        for string in self.strings:
            if string.ref == line_program.files[position]:
                return string.text
        return None
