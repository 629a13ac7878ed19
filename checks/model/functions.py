"""Sections, contributions, global functions and procedures, and the lookup of the function at an address."""
import errors
from errors import Error, note
from records import Failed, Record

GREATEST = 2**32 - 1  # the greatest address or offset
LAST_SECTION = 65535
PUBLIC_KINDS = {0x110E, 0x1009}
PROCEDURE_KINDS = {0x100A, 0x100B, 0x110F, 0x1110, 0x1146, 0x1147, 0x1155, 0x1156}
CODE_KINDS = PROCEDURE_KINDS | {0x0206, 0x1102, 0x1132}


def refuse_failed(*streams):
    """Raises the error of the first stream that failed."""
    for stream in streams:
        if isinstance(stream, Failed):
            raise errors.stream(stream.number)


def refuse_fault(reading):
    """Raises the error of a list's fault, if it has one."""
    if reading.fault is not None:
        raise errors.stream(reading.fault)


def internal_offset(address_map, address):
    """Returns the section offset (section, offset) of an address, in the first section that contains it."""
    for number, section in enumerate(address_map[:LAST_SECTION], 1):
        if section.virtual_address <= address < section.virtual_address + section.virtual_size:
            return number, address - section.virtual_address
    return None


def address_of(address_map, section, offset):
    """Returns the address of a section offset, or None if there is no such section or the sum doesn't fit 32 bits."""
    if section == 0 or section > min(len(address_map), LAST_SECTION):
        return None
    address = address_map[section - 1].virtual_address + offset
    return address if address <= GREATEST else None


def is_executable(sections, number):
    return 1 <= number <= min(len(sections), LAST_SECTION) and sections[number - 1].execute


def pick(intervals, offset):
    """Returns the interval (start, end, value) over an offset with the greatest start. Of equal starts, the first one
    wins."""
    best = None
    for interval in intervals:
        if interval[0] <= offset < interval[1] and (best is None or interval[0] > best[0]):
            best = interval
    return best


# ------------------------------------------------------------ contributions


def claims_and_starts(reading, sections):
    """Returns the ranges of the contributions that count, in reading order, and the start of each.

    A contribution counts if it isn't empty and its section has code."""
    claims, starts = [], []
    for contribution in reading.items:
        if contribution.size == 0 or not is_executable(sections, contribution.section):
            note("contribution dropped")
            continue
        module, section = contribution.module, contribution.section
        end = contribution.offset + contribution.size
        if end > GREATEST:
            raise Error("SectionContributionEndTooLarge",
                        f"The end of a section contribution of module {module} in section {section} does not "
                        f"fit 32 bits")
        claims.append(Record(section=section, start=contribution.offset, end=end, module=module))
        starts.append((section, contribution.offset))
    refuse_fault(reading)
    return claims, starts


def merged_contributions(claims):
    """Sorts the claims by section, start, end and module, and merges them. A claim joins the interval before it if both
    have the same section and module. The interval then ends at the greater end. Any other claim of the section that
    starts before that end is refused."""
    merged = []
    for claim in sorted(claims, key=lambda c: (c.section, c.start, c.end, c.module)):
        before = merged[-1] if merged and merged[-1].section == claim.section else None
        if before and before.module == claim.module:
            note("contribution merged")
            before.end = max(before.end, claim.end)
            continue
        if before and claim.start < before.end:
            raise Error("OverlappingSectionContributions",
                        f"Overlapping section contributions in section {claim.section} from modules "
                        f"{before.module} and {claim.module}")
        if any(other.section == claim.section and other.module == claim.module for other in merged):
            note("module comes back in a section")
        merged.append(Record(section=claim.section, start=claim.start, end=claim.end, module=claim.module))
    return merged


# ---------------------------------------------- global functions, procedures


def global_functions(symbols, sections, contribution_starts):
    """Returns the name, or None, of the global function at each section offset. If several are at one offset, the first
    wins.

    The order is: public symbols, starts of contributions, ends of sections with code."""
    functions = {}
    for symbol in symbols:
        data = symbol.data
        if symbol.raw_kind in PUBLIC_KINDS and data and data.kind == "Public" and \
                is_executable(sections, data.section):
            functions.setdefault((data.section, data.offset), data.name)
    for place in contribution_starts:
        functions.setdefault(place, None)
    for number, section in enumerate(sections[:LAST_SECTION], 1):
        if section.execute:
            functions.setdefault((number, section.virtual_size), None)
    return functions


def name_and_type(data, last):
    """Returns the name and the type of a symbol with code, or None if it doesn't count.

    A thunk has no type. Separated code counts if its parent starts where the last procedure that counts starts. It
    takes that procedure's name and type."""
    if data.kind == "Procedure":
        return data.name, data.type_index
    if data.kind == "Thunk":
        return data.name, 0
    if last is None or (last.section, last.offset) != (data.parent_section, data.parent_offset):
        note("separated code dropped")
        return None
    note("separated code counted")
    return last.name, last.type_index


def procedure_at(position, symbol, last):
    """Returns the procedure of the symbol at a position, or None if it doesn't count. `last` is the last one that
    counted."""
    data = symbol.data
    if symbol.raw_kind not in CODE_KINDS or data is None:
        return None
    if data.kind not in ("Procedure", "SeparatedCode", "Thunk") or data.len == 0:
        return None
    pair = name_and_type(data, last)
    if pair is None:
        return None
    return Record(section=data.section, offset=data.offset, len=data.len, position=position, end=data.end,
                  name=pair[0], type_index=pair[1])


def symbol_procedures(symbols):
    """Returns the procedures of a module in reading order. Of several with one start, the first counts."""
    first_of_start = {}
    last = None
    for position, symbol in enumerate(symbols):
        procedure = procedure_at(position, symbol, last)
        if procedure is not None:
            last = procedure
            first_of_start.setdefault((procedure.section, procedure.offset), procedure)
    return list(first_of_start.values())


class Program:
    """The inputs of a context, and the lookup of functions in them."""

    def __init__(self, pdb):
        """Refuses what can't be read. If several parts can't be read, the first in this order gives the error."""
        refuse_failed(pdb.global_symbols, pdb.debug_information, pdb.type_information, pdb.id_information,
                      pdb.address_map)
        debug = pdb.debug_information
        refuse_fault(debug.modules)
        refuse_failed(debug.machine_type, pdb.sections)
        refuse_fault(pdb.global_symbols)
        sections = pdb.sections or []
        claims, starts = claims_and_starts(debug.section_contributions, sections)
        self.contributions = merged_contributions(claims)
        self.globals = global_functions(pdb.global_symbols.items, sections, starts)
        self.address_map = pdb.address_map
        self.types, self.ids = pdb.type_information, pdb.id_information
        self.strings = None if isinstance(pdb.string_table, Failed) else pdb.string_table
        self.machine = debug.machine_type
        self.modules = [module.name for module in debug.modules.items]
        self.module_infos = pdb.module_infos

    def provided_info(self, module):
        """Returns the records of the module at a module index: an info, None or Failed."""
        return self.module_infos[module] if module < len(self.module_infos) else None

    def readable_info(self, module):
        """Returns the info of a module in the list of modules, or None if there is none or its symbols can't be
        read."""
        if module >= len(self.modules):
            return None
        info = self.provided_info(module)
        if info is None or isinstance(info, Failed) or info.symbols.fault is not None:
            return None
        return info

    def procedures(self, module):
        info = self.readable_info(module)
        return symbol_procedures(info.symbols.items) if info else []

    def contribution_over(self, section, offset):
        for contribution in self.contributions:
            if contribution.section == section and contribution.start <= offset < contribution.end:
                return contribution
        return None

    def procedure_over(self, module, section, offset):
        over = pick([(p.offset, p.offset + p.len, p) for p in self.procedures(module)
                     if p.section == section], offset)
        return over and over[2]

    def global_start(self, section, offset):
        """Returns the greatest start of a global function of a section that is at or below an offset, or None."""
        return max((start for number, start in self.globals if number == section and start <= offset),
                   default=None)

    def next_global_start(self, section, start):
        return min((later for number, later in self.globals if number == section and later > start),
                   default=None)

    def look_up(self, address):
        """Returns what is at an address: its section offset, its module, the start of the function, and either the
        procedure or the name of the global function. Returns None if no function is there.

        A procedure over the section offset comes before a global function. A global function must start in the
        contribution."""
        place = internal_offset(self.address_map, address)
        contribution = place and self.contribution_over(*place)
        if not contribution:
            return None
        section, offset = place
        found = Record(module=contribution.module, section=section, offset=offset, procedure=None, name=None)
        found.procedure = self.procedure_over(contribution.module, section, offset)
        if found.procedure:
            found.start = found.procedure.offset
            return found
        found.start = self.global_start(section, offset)
        if found.start is None or found.start < contribution.start:
            return None
        found.name = self.globals[section, found.start]
        return found

    def start_addresses(self):
        """Returns the addresses at which functions start, ascending and without repeats."""
        places = set(self.globals)
        for module in range(len(self.modules)):
            places |= {(procedure.section, procedure.offset) for procedure in self.procedures(module)}
        addresses = {address_of(self.address_map, *place) for place in places}
        return sorted(addresses - {None})
