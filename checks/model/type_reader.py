"""Reads types and ids by the indices in a module's records, also across modules, and computes the sizes of types."""
import errors
from errors import Error, FailedParts, note
from primitives import PRIMITIVES
from records import Failed, Record, Unimplemented, lossy

POINTER_SIZES = {"Amd64": 8, "Arm64": 8, "Ia64": 8, "RiscV64": 8, "RiscV128": 16}
FIRST_CROSS_MODULE = 2**31  # from here on, an index is a cross-module index


def module_key(name):
    """Returns the key of a module's name: its text with ASCII letters in lower case. Other letters stay."""
    return "".join(chr(ord(c) + 32) if "A" <= c <= "Z" else c for c in lossy(name))


def aggregate_key(aggregate):
    """Returns the key of a class or a union: its unique name, or else its name."""
    return aggregate.name if aggregate.unique_name is None else aggregate.unique_name


def is_definition(content, key):
    """Returns whether an item is the class or the union with this key, and not a forward reference."""
    return isinstance(content, Record) and content.kind in ("Class", "Union") and \
        not content.forward_reference and aggregate_key(content) == key


def position_of(items, index):
    """Returns the position of the first item with an index. If there is none, raises the error of the list's fault, if
    any."""
    for position, item in enumerate(items.items):
        if item.index == index:
            return position
    if items.fault is not None:
        raise errors.stream(items.fault)
    raise errors.type_not_found(index)


class TypeReader:
    """Types and ids of a program. `module` is always the module index of the module whose record has the index."""

    def __init__(self, program):
        self.program = program
        self.pointer_size = POINTER_SIZES.get(program.machine, 4)
        self.failed = FailedParts()

    # -------------------------------------------------------------- indices

    def read_part(self, name, module):
        """Returns the imports or the exports in the records of a module."""
        if module >= len(self.program.modules):
            raise Error("OutOfRangeModuleIndex", f"The module index {module} was out-of-range.")
        info = self.program.provided_info(module)
        if isinstance(info, Failed):
            raise errors.stream(info.number)
        if info is None:
            raise Error("ModuleInfoNotFound", f"Could not get the ModuleInfo for module index {module}")
        content = getattr(info, name)
        if isinstance(content, Failed):
            raise errors.stream(content.number)
        return content

    def part(self, name, unsuccessful, module):
        """Returns the same. If the part failed before, raises its `unsuccessful` error."""
        def read():
            try:
                return self.read_part(name, module)
            except Error as error:
                note(f"part {name}: {error.variant}")
                raise

        return self.failed.ask((name, module), unsuccessful, read)

    def imported(self, module, index):
        """Returns what a cross-module index refers to: the reference of a module's name, and the local index in that
        module.

        Bits 20 to 30 are a position in the imports. Bits 0 to 19 are a position in the numbers of that import."""
        imports = self.part("imports", "ModuleImportsUnsuccessful", module)
        position, place = (index >> 20) & 0x7FF, index & 0xFFFFF
        if position >= len(imports) or place >= len(imports[position].locals):
            raise errors.cross_reference_not_found(index)
        return imports[position].module, imports[position].locals[place]

    def module_under(self, reference):
        """Returns the module whose name has a reference. If several modules have the name, it is the last. ASCII case
        is ignored."""
        texts = [string.text for string in self.program.strings if string.ref == reference]
        if not texts:
            raise errors.string_not_found(reference)
        name = module_key(texts[0])
        named = [n for n, other in enumerate(self.program.modules) if module_key(other) == name]
        if not named:
            raise Error("ModuleNameNotFound", f"Could not find the module with name {name}")
        return named[-1]

    def resolve(self, module, index):
        """Resolves a cross-module index. The index from an export isn't resolved again."""
        if index < FIRST_CROSS_MODULE:
            return index
        if self.program.strings is None:
            raise errors.plain("CantResolveCrossModuleRefWithoutStringTable")
        reference, local = self.imported(module, index)
        exports = self.part("exports", "ModuleExportsUnsuccessful", self.module_under(reference))
        found = [getattr(export, "global") for export in exports if export.local == local]
        if not found:
            raise Error("LocalIndexNotInExports",
                        f"The local index {local} was not found in the module exports")
        note("cross-module resolved")
        return found[0]

    def read(self, module, index, items=None):
        """Returns the content of the type with an index. With `items`, the item comes from that list."""
        items = items or self.program.types
        content = items.items[position_of(items, self.resolve(module, index))].content
        if isinstance(content, Failed):
            raise errors.stream(content.number)
        if isinstance(content, Unimplemented):
            raise errors.unimplemented(content.kind)
        return content

    # ---------------------------------------------------------------- sizes

    def size(self, module, index):
        """Returns the size of a type, through a chain of enumerations and modifiers. It is 0 for a circle, and if a
        type can't be read."""
        met = set()
        while index not in met:
            met.add(index)
            try:
                content = self.read(module, index)
            except Error as error:
                note(f"size swallowed: {error.variant}")
                return 0
            if content.kind not in ("Enumeration", "Modifier"):
                return self.own_size(module, index, content)
            index = content.underlying_type
        note("size of a circle")
        return 0

    def own_size(self, module, index, content):
        """Returns the size of a type without an underlying type. An array's size is the last of its dimensions."""
        if content.kind == "Primitive":
            return self.pointer_size if content.indirection else PRIMITIVES[content.primitive][0]
        if content.kind in ("Class", "Union"):
            return self.forward_size(module, index, content) if content.forward_reference else content.size
        if content.kind in ("Procedure", "MemberFunction"):
            return self.pointer_size
        if content.kind == "Pointer":
            return content.size
        if content.kind == "Array":
            return ([content.first] + content.rest)[-1]
        if content.kind == "Enumerate":
            return int(content.value.kind[1:]) // 8
        return 0

    def forward_size(self, module, index, forward):
        """Returns the size of the first definition after a forward reference's entry, or else the entry's own size."""
        types = self.program.types
        start = position_of(types, self.resolve(module, index)) + 1
        for item in types.items[start:]:
            if is_definition(item.content, aggregate_key(forward)):
                note("forward size found")
                return item.content.size
        note("forward size own")
        return forward.size
