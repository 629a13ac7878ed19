"""The runs to make over a random file. Most of their addresses are in a function."""
from generate_layout import Layout

# Invalid arguments, and unusual valid ones. The file's name goes before them.
ODD_WORDS = [
    [], ["list", "10"], ["list", ""], ["names"], ["frames"], ["Names", "10"], ["lists"], [""],
    ["names", "0x"], ["frames", ""], ["names", "123456789"], ["frames", "0x123456789"],
    ["names", "000001000"], ["names", "0X10"], ["frames", "10", "g"], ["names", "-1"],
    ["names", "+1"], ["frames", "0x0x1"], ["names", "1000 "], ["names", "0", "0", "00000000"],
    ["frames", "x10"], ["names", "1_0"], ["frames", "１０"], ["names", "--help"], ["--help"],
    ["names", "0xABCDEFab"], ["frames", "ffffffff"], ["names", "list"]]
# Here "!" means that the rest is all arguments of the run: the file's name doesn't go before them.
ALL_WORDS = [["!"], ["!", "no.json", "names", "10"], ["!", ".", "list"], ["!", "no.json", "list", "1"],
             ["!", "", "names"], ["!", "no/x.json", "frames"], ["!", "list"], ["!", "names", "10", "list"]]


def places_over(section, start, size):
    """Returns section offsets in and around a range of bytes."""
    return [(section, start), (section, start), (section, start + size), (section, start + size - 1),
            (section, start + size // 2), (section, start - 1)]


def symbol_places(symbols):
    """Returns section offsets around symbols and rows of sites. A row is in the section of the last symbol with code
    before its site."""
    found = []
    section = None
    for symbol in symbols:
        data = symbol.get("data") or {}
        if "len" in data:
            section = data["section"]
            found += places_over(section, data["offset"], data["len"]) * 3
        elif data.get("kind") == "Public":
            found += places_over(data["section"], data["offset"], 2)
        elif data.get("kind") == "InlineSite" and section is not None:
            for row in items_of(data["rows"]):
                found += places_over(section, row["offset"], row.get("length") or 0) * 4
    return found


def items_of(reading):
    """Returns the items of a list in a records file. A stream that failed has none."""
    return reading.get("items", []) if isinstance(reading, dict) else reading


def contributions_of(file):
    debug = file["debug_information"]
    return [] if "error" in debug else items_of(debug["section_contributions"])


class Runs(Layout):
    def places(self, file):
        """Returns section offsets (section, offset) of records that an address may be in."""
        found = []
        for contribution in contributions_of(file):
            found += places_over(contribution["section"], contribution["offset"], contribution["size"])
        readings = [file["global_symbols"]] + [info["symbols"] for info in file["module_infos"]
                                               if info and "error" not in info]
        for reading in readings:
            found += symbol_places(items_of(reading))
        for n, span in enumerate(self.address_map, 1):
            found += [(n, 0), (n, span["virtual_size"] - 1), (n, self.random.randrange(0x100))]
        return found

    def is_covered(self, address, file):
        """Returns whether a contribution covers the address."""
        for n, span in enumerate(self.address_map, 1):
            offset = address - span["virtual_address"]
            if 0 <= offset < span["virtual_size"]:
                return any(contribution["section"] == n and
                           contribution["offset"] <= offset < contribution["offset"] + contribution["size"]
                           for contribution in contributions_of(file))
        return False

    def addresses_of_places(self, file):
        """Returns the addresses of these section offsets, by the address map and sometimes also by the sections."""
        found = []
        for section, offset in self.places(file):
            for sections in [self.address_map] + ([self.sections] if self.chance(0.1) else []):
                if section and section <= len(sections):
                    found.append(sections[section - 1]["virtual_address"] + offset)
        return [address for address in found if 0 <= address < 2**32] or [0x1000, 0x1010]

    def addresses(self, file, most):
        """Returns up to `most` addresses to look up, and maybe one at an edge. Some are repeated."""
        found = self.addresses_of_places(file)
        hits = [address for address in found if self.is_covered(address, file)] or found
        chosen = [self.choose(hits if self.chance(0.8) else found) for _ in self.times(1, most)]
        if self.chance(0.2):
            chosen.append(self.choose([0, 0xFFFFFFFF, 0x1000, 0xFFF, 0x7FFFFFFF]))
        chosen += [self.choose(chosen) for _ in self.times(0, 3)]
        self.random.shuffle(chosen)
        return chosen

    def address_words(self, file, most):
        forms = ["{:x}", "0x{:x}", "0x{:x}", "{:X}", "0x{:08x}", "{:08X}"]
        return [self.choose(forms).format(address) for address in self.addresses(file, most)]

    def runs(self, file):
        """Returns the arguments of each run."""
        words = self.address_words(file, 14)
        found = [["names", *words], ["frames", *words], ["list"]]
        for _ in range(3):  # an error ends a run, so some runs are short
            found.append(["frames", *self.address_words(file, 4)])
        if self.chance(0.15):
            found.append(self.choose(ODD_WORDS))
        if self.chance(0.02):
            found.append(self.choose(ALL_WORDS))
        return found
