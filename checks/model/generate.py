"""Makes a random records file, and the runs to make over it.

generate(seed) returns the file's bytes, the bytes of its module files by name, and the arguments of the runs.

Usage: generate.py SEED

It writes the file's text to standard output, and each module file and the arguments of each run to standard error.
"""
import sys

from generate_code import FIRST_MODULE_KEY, Code
from generate_file import broken_text, json_text, with_changes
from generate_runs import Runs

MODULE_NAMES = ["a.obj", "A.obj", "b.obj", "B.OBJ", "c.obj", "Ä.obj", "Ä.obj", "ä.obj", "", "a.obj "]
FILE_NAMES = ["a.cpp", "b.cpp", "C:\\x\\y.h", "", "dé.cpp", "a.h"]
MACHINES = ["Amd64", "Amd64", "Arm64", "Ia64", "RiscV64", "RiscV128", "I386", "Other", "amd64"]


class Generator(Code, Runs):
    def records(self):
        """Returns the value of a records file."""
        self.crossing = self.choose([0, 0, 0.04, 0.1, 0.25])  # how often an index is a cross-module index
        self.make_layout()
        self.starts = []
        self.make_modules()
        self.enter("types")
        self.make_types()
        self.make_ids()
        types, ids = self.reading(0.12, self.types), self.reading(0.12, self.ids)
        strings = self.make_strings()
        self.enter("layout")
        contributions = self.make_contributions()
        self.enter("symbols")
        infos = self.make_infos(contributions)
        self.module = 0
        self.enter("layout")
        publics = self.make_publics()
        return self.file(types, ids, strings, contributions, infos, publics)

    def make_modules(self):
        """Makes the names of the modules, the numbers that each exports, and the references of files."""
        is_wild = self.wildness and self.mode == "mixed"
        self.modules = [self.choose(MODULE_NAMES[:5] if self.chance(0.7) else MODULE_NAMES)
                        for _ in range(self.choose([0, 1, 1, 1, 2, 2, 3, 3] if is_wild else [1, 2, 3]))]
        self.exports = {n: [self.random.randrange(1, 6) for _ in self.times(0, 3)]
                        for n in range(len(self.modules) + 1)}
        self.refs = [1, 2, 3, 4] + ([5, 0] if self.wildness else [])

    def make_strings(self):
        """Returns strings: the names of files and modules. The reference 3 may occur twice."""
        strings = [{"ref": key, "text": self.choose(FILE_NAMES)}
                   for key in self.random.sample([1, 2, 3, 4, 3], 4)]
        for n, name in enumerate(self.modules):
            if self.broken(0.15):
                name = self.choose(["none.OBJ", "None.Ä", "c.obj", "ä.obj"])
            if not self.broken(0.05):
                other_case = name.swapcase() if self.wildness or name.isascii() else name
                strings.append({"ref": FIRST_MODULE_KEY + n, "text": self.choose([name, other_case])})
        self.random.shuffle(strings)
        return strings

    def make_infos(self, contributions):
        """Returns the records of the modules. There may be one too few or one too many."""
        infos = []
        count = len(self.modules)
        for n in range(count):
            infos.append(None if self.broken(0.1 if n else 0.06) else self.stream(0.06, self.make_info(n)))
        has_one_past = any(contribution["module"] == count for contribution in contributions)
        if self.broken(0.06) and infos:
            infos.pop()
        elif self.broken(0.06) or (has_one_past and self.chance(0.8)):
            infos.append(self.choose([None, self.make_info(count), {"error": 2}]))
        return infos

    def file(self, types, ids, strings, contributions, infos, publics):
        """Returns the file of these records, with some streams that failed."""
        seldom = 0.012
        file = {
            "sections": self.stream(seldom, None if self.broken(0.01) else self.sections),
            "address_map": self.stream(seldom, self.address_map),
            "global_symbols": self.stream(seldom, self.reading(seldom, publics)),
            "debug_information": self.stream(seldom, {
                "machine_type": self.stream(seldom, self.choose(MACHINES)),
                "modules": self.reading(seldom, [{"name": name} for name in self.modules]),
                "section_contributions": self.reading(seldom, contributions)}),
            "type_information": self.stream(seldom, types),
            "id_information": self.stream(seldom, ids),
            "string_table": self.failed() if self.crossing and self.chance(0.06)
            else self.stream(0.08, strings),
            "module_infos": infos,
        }
        if self.chance(0.4):
            file["version"] = self.choose([1, 1, None])
        return file


NAMES = ("name", "unique_name", "text")


def with_bytes(chance, value):
    """Writes some names of the value as arrays of bytes. Some of these are not UTF-8, and a few are not bytes."""
    if isinstance(value, list):
        return [with_bytes(chance, element) for element in value]
    if not isinstance(value, dict):
        return value
    value = {key: with_bytes(chance, element) for key, element in value.items()}
    for key in NAMES:
        if isinstance(value.get(key), str) and chance.random() < 0.3:
            name = list(value[key].encode("utf-8"))
            if chance.random() < 0.2:
                name.insert(chance.randrange(len(name) + 1), chance.choice([0x80, 0xC3, 0xE2, 0xF0, 0xFF]))
            if chance.random() < 0.004:
                name.append(chance.choice([256, -1, 1.5, "a", None]))
            value[key] = name
    return value


def with_module_files(chance, file, prefix):
    """Moves some infos to module files, and returns the file and the module files by name. A few of these are missing,
    and a few references to them are invalid."""
    files = {}
    if not isinstance(file.get("module_infos"), list):
        return file, files
    infos = list(file["module_infos"])
    for n, info in enumerate(infos):
        if info is None or chance.random() < 0.3:
            continue
        name = f"{prefix}.{n}.module"
        roll = chance.random()
        infos[n] = {"file": chance.choice([7, None, [97]]) if roll < 0.01 else name}
        if 0.01 <= roll < 0.02:
            infos[n]["error"] = 4
        if roll >= 0.03:
            files[name] = info
    if infos and chance.random() < 0.1:
        infos[chance.randrange(len(infos))] = chance.choice([infos[0], infos[-1]])
    return dict(file, module_infos=infos), files


def in_version_two(generator, seed, file):
    """Returns the file in version 2, and the values of its module files by name."""
    chance = generator.random
    file = dict(with_bytes(chance, file), version=2)
    return with_module_files(chance, file, str(seed))


def module_bytes(generator, value):
    """Returns the bytes of a module file. A few are broken."""
    roll = generator.random.random()
    if roll < 0.02:
        return generator.choose([b"", b"{", b"null", b"[]", b'{"error":null}', b"\xff"])
    if roll < 0.06:
        value = with_changes(generator, value)
    return json_text(generator, value, "plain").encode("utf-8")


def generate(seed):
    """Returns the bytes of a file, its module files, and the arguments of its runs. About every fourth file has a
    fault."""
    generator = Generator(seed)
    file = generator.records()
    runs = generator.runs(file)
    roll = generator.random.random()
    style = generator.choose(["plain", "plain", "escaped", "spaced"])
    modules = {}
    if generator.chance(0.5):
        file, modules = in_version_two(generator, seed, file)
    if roll < 0.2:
        file = with_changes(generator, file)
        runs = runs[:2] + generator.choose([[], runs[2:3]])
    modules = {name: module_bytes(generator, value) for name, value in modules.items()}
    data = json_text(generator, file, style).encode("utf-8")
    if 0.2 <= roll < 0.26:
        data, runs = broken_text(generator, data), runs[:1]
    return data, modules, runs


if __name__ == "__main__":
    data, modules, runs = generate(int(sys.argv[1]))
    sys.stdout.buffer.write(data + b"\n")
    for name, content in modules.items():
        print(name, content, file=sys.stderr)
    for words in runs:
        print(" ".join(words), file=sys.stderr)
