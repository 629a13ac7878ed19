"""Random sections, section offsets in them, and contributions."""
from choices import Choices

GREATEST = 2**32 - 1


class Layout(Choices):
    def make_layout(self):
        """Makes the sections, the address map, and a few offsets that most records use."""
        self.make_sections()
        self.make_address_map()
        steps = self.choose([4, 8, 16])
        self.offsets = sorted(self.random.sample(range(0, 0x100, steps), self.random.randint(4, 10)))
        if self.broken(0.3):
            self.offsets += [self.choose([0xFFFFFFFF, 0xFFFFFFF0, 0x100, 0xFF, 0x101, 0xFFFFFF00])]

    def make_sections(self):
        self.sections = []
        for n in range(self.choose([1, 1, 2, 2, 3, 4])):
            section = {"virtual_address": 0x1000 * (n + 1),
                       "virtual_size": self.choose([0x100, 0x100, 0x80, 0x60]),
                       "execute": self.chance(0.85)}
            if self.broken(0.2) or self.chance(0.03):
                section["virtual_address"] = self.choose(
                    [0x1000, 0x1080, 0x1100, 0xFFFFFF00, 0xFFFFFFC0, 0, 0x1040])
            if self.broken(0.2):
                section["virtual_size"] = self.choose([0, 1, 0x20, 0x100, 0x101, 0x40, 0xFF, 0xFFFFFFFF])
            self.sections.append(section)

    def make_address_map(self):
        """Makes the address map: the ranges of the sections, with changes."""
        self.address_map = [{name: section[name] for name in ("virtual_address", "virtual_size")}
                            for section in self.sections]
        if self.broken(0.15):
            self.address_map.pop(self.random.randrange(len(self.sections)))
        if self.broken(0.1):
            self.address_map.append({"virtual_address": self.choose([0x1000, 0x1080, 0x5000]),
                                     "virtual_size": 0x80})
        for span in self.address_map:
            if self.broken(0.12):
                span["virtual_address"] = self.choose([0x1000, 0x1080, 0xFFFFFF00, 0xFFFFFF80, 0x1100])
            if self.broken(0.12):
                span["virtual_size"] = self.choose([0, 0x10, 0x80, 0x200, 0xFF])
        if self.broken(0.05):
            self.random.shuffle(self.address_map)

    # ------------------------------------------------------ section offsets

    def section(self):
        """Returns the number of a section, mostly of one with code."""
        if self.broken(0.05):
            return self.choose([0, len(self.sections) + 1, 0xFFFF, len(self.sections)])
        executable = [n for n, section in enumerate(self.sections, 1) if section["execute"]] or [1]
        if self.chance(0.95):
            return self.choose(executable[:1] + executable)
        return self.random.randint(1, len(self.sections))

    def offset(self):
        """Returns one of the file's few offsets, or a neighbour of one."""
        offset = self.choose(self.offsets)
        if self.chance(0.08):
            offset += self.choose([1, 2, -1])
        return min(max(offset, 0), GREATEST)

    def length(self):
        """Returns a random length of a procedure."""
        if self.broken(0.05):
            return self.choose([0, 0xFFFFFFFF, 0xFFFFFF00, 0x1000])
        return self.choose([0, 1, 4, 8, 0x10, 0x10, 0x20, 0x20, 0x40, 0x40, 0x60, 0x80, 0x100])

    def place(self, module):
        """Returns a section and an offset, mostly in a contribution of the module."""
        if self.spots.get(module) and self.chance(0.85):
            return self.choose(self.spots[module])
        return self.section(), self.offset()

    # -------------------------------------------------------- contributions

    def make_contributions(self):
        """Makes the contributions. `spots` are section offsets inside those of each module."""
        if self.mode != "mixed":
            found = [(number, 0, 0x100, (number - 1) % max(len(self.modules), 1))
                     for number in range(1, len(self.sections) + 1)]
        elif self.broken(0.15):
            found = [self.any_contribution() for _ in self.times(1, 5)]
        else:
            found = self.ordered_contributions()
        self.spots = {}
        for section, offset, size, module in found:
            inside = [other for other in self.offsets if offset <= other < offset + size]
            self.spots.setdefault(module, []).extend(
                [(section, offset)] + [(section, other) for other in inside])
        return [{"section": section, "offset": offset, "size": size, "module": module}
                for section, offset, size, module in found]

    def any_module(self):
        modules = len(self.modules)
        if self.broken(0.05):
            return self.choose([modules, modules, modules, modules + 1, 2**32 - 1])
        return self.random.randrange(max(modules, 1))

    def any_contribution(self):
        """Makes a contribution without regard to the others."""
        section, offset = self.section(), self.offset()
        if self.broken(0.05):
            size = self.choose([0, 0xFFFFFFFF, 0xFFFFFF00, 0x1000])
        else:
            size = self.choose([0, 1, 4, 8, 8, 0x10, 0x10, 0x20, 0x20, 0x40, 0x80])
        return section, offset, size, self.any_module()

    def ordered_contributions(self):
        """Makes contributions side by side, with a few changes."""
        found = []
        for number in range(1, len(self.sections) + 1):
            if self.chance(0.3):
                found.append((number, 0, 0x100, self.any_module()))
            else:
                found += self.cut_section(number)
        if self.chance(0.3):  # modules take turns in a section, or are in any order
            self.random.shuffle(found)
        if self.broken(0.25) and found:
            neighbour = self.choose(found)
            found.insert(self.random.randint(0, len(found)), self.odd_contribution(*neighbour))
        if self.chance(0.06) and found:  # a start that is greater than that of the next one
            section, offset, size, module = found[0]
            found[0:1] = [(section, offset + 0x20, size, module), (section, offset, size + 0x20, module)]
        return found

    def cut_section(self, number):
        """Cuts a section into contributions, with gaps and empty ones."""
        places = [0, 0x100] + list(range(0x10, 0x100, 0x10))
        cuts = sorted(self.random.sample(places, self.random.randint(2, 5)))
        if self.chance(0.5):
            cuts[0] = 0
        found = []
        for start, end in zip(cuts, cuts[1:]):
            if self.chance(0.85):
                found.append((number, start, end - start, self.any_module()))
            elif self.chance(0.3):
                found.append((number, start, 0, self.any_module()))
        return found

    def odd_contribution(self, section, offset, size, module):
        """Makes a contribution that repeats, touches or overlaps this one, or that ends near the greatest offset."""
        return self.choose([
            (section, offset, size, module),
            (section, offset + size, 8, module),
            (section, max(offset, 4) - 4, size, module),
            (section, offset + 1, size, module),
            (section, max(offset, 8) - 8, size + 0x10, module),
            (section, max(offset, 8) - 8, size + 8, module),
            (section, offset, GREATEST - offset, module),
            (section, offset, GREATEST + 1 - offset, module),
            (section, offset, GREATEST, module)])
