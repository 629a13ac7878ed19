"""Random types in kits, and the indices by which they refer to one another. The types of a kit belong together."""
from choices import MISSING, Choices
from primitives import PRIMITIVES
from records import POINTER_MODES

CLASS_NAMES = ["C", "S", "C", "S", "D<int>", "", "ns::E", "<lambda_1>", "T*", "U&", "名𝒇"]
KIND_NAMES = ["VirtualFunctionTable", "UserDefinedTypeSource", "", "BuildInfo", "*"]


class Kits(Choices):
    # -------------------------------------------------------------- indices

    def cross_index(self):
        """Returns a cross-module index."""
        if self.chance(0.08):
            return 0x80000000 | self.choose([0x10000, 0x10000, 0x40000000, 0x7FFFFFFF, 0x300000])
        position = self.choose([0, 0, 0, 0, 0, 1, 1, 2])
        return 0x80000000 | position << 20 | self.choose([0, 0, 0, 0, 0, 1, 1, 2])

    def any_index(self):
        roll = self.random.random()
        if roll < 0.35 or not self.type_indices:
            return self.choose(self.low)
        if roll < 0.92 or not self.wildness:
            return self.choose(self.type_indices)
        return self.choose(MISSING)

    def reference(self, role="any"):
        """Returns an index for a field, mostly of a type that fits the role."""
        if self.broken(0.03):
            return self.choose(MISSING)
        if self.chance(self.crossing):
            return self.cross_index()
        if self.broken(0.05):  # any index, also a later one: this makes circles
            return 0x1000 + self.random.randrange(len(self.types) + 4)
        there = self.by_role.get(role, [])
        if there and self.chance(0.93):
            return self.choose(there[-4:] if self.chance(0.5) else there)
        return self.any_index()

    def function_type(self):
        """Returns an index for the type of a procedure."""
        roll = self.random.random()
        if roll < 0.3:
            return 0
        if roll < 0.88:
            return self.choose(self.functions) if self.functions else 0
        if roll < 0.92 and self.crossing:
            return self.cross_index()
        return self.any_index()

    # --------------------------------------------------------- single types

    def add(self, kind, *roles, **fields):
        """Adds a type, sometimes as one that can't be read. Returns its index."""
        index = self.next_index
        self.next_index += 1
        if self.broken(0.03):
            self.next_index += 1
        item = {"index": index, "kind": kind, **fields}
        if self.broken(0.02):
            item = {"index": index, "error": self.choose(
                [{"stream": self.number()}, {"unimplemented": self.choose([0x1234, 0, 0xFFFF])},
                 {"unimplemented": 0x15, "x": 1}, {"stream": 3, "unimplemented": 4}])}
            if self.chance(0.3):
                item["kind"] = kind
        self.types.append(item)
        self.type_indices.append(index)
        for role in (kind,) + roles:
            self.by_role.setdefault(role, []).append(index)
        return index

    def show(self, index):
        """Makes a type more likely as an argument of a function."""
        self.by_role.setdefault("shown", []).append(index)

    def aggregate_fields(self, name, forward):
        """Makes the fields that a class and a union share."""
        name = self.choose(CLASS_NAMES) if name is None else name
        fields = {"name": name, "size": self.choose([0, 1, 4, 8, 12, 16, 24, 2**64 - 1]),
                  "forward_reference": self.chance(0.25) if forward is None else forward}
        if self.chance(0.25):
            fields["unique_name"] = self.choose([None, ".?AU" + name + "@@", "C", "S", ""])
        return fields

    def add_class(self, forward=None, name=None):
        if self.chance(0.2):
            return self.add("Union", "class", "object", **self.aggregate_fields(name, forward))
        return self.add("Class", "class", "object", class_kind=self.choose(["Class", "Interface", "Struct"]),
                        **self.aggregate_fields(name, forward))

    def add_arguments(self):
        count = self.choose([0, 0, 1, 1, 1, 2, 2, 3])
        return self.add("ArgumentList", arguments=[
            self.reference("object" if self.chance(0.75) else "any") for _ in range(count)])

    def add_pointer(self, target, mode=None):
        size = self.choose([4, 8, 8, 16, 0, 255])
        return self.add("Pointer", "object", underlying_type=target, mode=mode or self.choose(POINTER_MODES),
                        is_const=self.chance(0.25), size=size)

    def add_modifier(self, target):
        return self.add("Modifier", "object", underlying_type=target, constant=self.chance(0.7))

    def add_enumeration(self, target):
        return self.add("Enumeration", "object", name=self.choose(CLASS_NAMES), underlying_type=target)

    def add_array(self, target):
        return self.add("Array", "object", element_type=target,
                        first=self.choose([0, 1, 4, 12, 24, 48, 96, 136, 1632, 2**32 - 1]),
                        rest=[self.choose([4, 48, 0]) for _ in range(self.choose([0, 0, 0, 1, 2]))])

    def add_named_value(self):
        """Adds a name of an enumeration with its value."""
        signed, bits = self.choose(["U", "I"]), self.choose(["8", "16", "32", "64"])
        low = -(2 ** (int(bits) - 1)) if signed == "I" else 0
        high = low + 2 ** int(bits) - 1
        return self.add("Enumerate", "object", name=self.choose(CLASS_NAMES),
                        value={"kind": signed + bits, "value": self.choose([low, high, 0, 1])})

    # ----------------------------------------------------------------- kits

    def add_kit(self):
        """Adds a kit."""
        roll = self.random.random()
        kits = [(0.22, self.add_function_kit), (0.47, self.add_method_kit), (0.62, self.add_array_kit),
                (0.75, self.add_forward_kit), (0.79, self.add_sizeless_kit), (0.93, self.add_pointer_kit),
                (1, self.add_small_kit)]
        next(add for below, add in kits if roll < below)()

    def add_function_kit(self):
        """Adds a function, and maybe pointers to it."""
        arguments = self.add_arguments()
        returned = self.choose([None, 3, self.reference(), self.reference("object")])
        function = self.add("Procedure", "function", return_type=returned,
                            is_constructor=self.chance(0.1), argument_list=arguments)
        if self.chance(0.5):
            target = self.add_modifier(function) if self.chance(0.35) else function
            pointer = self.add_pointer(target, "Pointer" if self.chance(0.7) else None)
            if self.chance(0.5):
                self.show(pointer)
            if self.chance(0.3):
                self.add_pointer(pointer)

    def add_method_kit(self):
        """Adds a method with its class, a type of `this`, and maybe a pointer to the method."""
        class_ = self.reference("class") if self.chance(0.5) else self.add_class()
        constant = self.add_modifier(class_)
        this = self.choose([
            None, self.add_pointer(class_, "Pointer"), self.add_pointer(constant, "Pointer"),
            self.add_pointer(constant), self.reference("Pointer"), self.reference("object"),
            self.reference()])
        arguments = self.add_arguments()
        method = self.add("MemberFunction", "method", return_type=self.reference("object"), class_type=class_,
                          is_constructor=self.chance(0.2),
                          argument_list=arguments if self.chance(0.9) else self.reference(),
                          **({} if this is None and self.chance(0.5) else {"this_pointer_type": this}))
        if self.chance(0.4):
            self.add_pointer(method, "MemberFunction" if self.chance(0.7) else None)

    def add_array_kit(self):
        """Adds arrays of arrays. Sometimes an array is an element of itself."""
        array = self.add_array(self.reference("object"))
        for _ in range(self.choose([0, 0, 1, 2])):
            array = self.add_array(array)
        if self.broken(0.15) and "element_type" in self.types[-1]:
            self.types[-1]["element_type"] = array
            self.show(array)
        if self.chance(0.3):
            self.add_pointer(array)

    def add_forward_kit(self):
        """Adds forward references and definitions of one name, and an array whose length shows the size."""
        name = self.choose(["C", "S", "F"])
        order = self.choose([[True, False], [True, False], [True, True, False], [False, True], [True]])
        first = None
        for forward in order + ([False] if self.chance(0.3) else []):
            index = self.add_class(forward, name)
            first = index if forward and first is None else first
        if first and self.chance(0.3):
            first = self.choose([self.add_modifier(first), self.add_enumeration(first), self.cross_index()])
        self.show(self.add_array(first or self.reference("class")))

    def add_sizeless_kit(self):
        """Adds arrays over a chain of enumerations and modifiers. The end of the chain rarely has a size."""
        if self.chance(0.2):
            self.show(self.add_pointer(self.add_array(self.choose(MISSING))))
        over = self.add_enumeration(self.choose([
            self.choose(MISSING), self.cross_index(), self.next_index, self.reference(),
            self.add_array(self.reference()), self.reference("Enumerate")]))
        for _ in self.times(0, 3):
            over = self.add_enumeration(over) if self.chance(0.7) else self.add_modifier(over)
        if self.chance(0.3):
            modifier = self.add_modifier(over)
            if self.broken(0.3) and "underlying_type" in self.types[-2]:
                self.types[-2]["underlying_type"] = modifier
        if self.wildness or self.chance(0.3):
            self.show(self.add_array(over))

    def add_pointer_kit(self):
        """Adds a chain of pointers and modifiers. Sometimes it is a circle."""
        over = self.reference("object")
        for _ in self.times(1, 3):
            over = self.add_modifier(over) if self.chance(0.4) else self.add_pointer(over)
        if self.broken(0.1):
            item = self.choose(self.types[-3:])
            if "underlying_type" in item:
                item["underlying_type"] = over

    def add_small_kit(self):
        """Adds a type of a rarer kind, and maybe an array of it."""
        which = self.random.randrange(4)
        if which == 0:
            enumeration = self.add_enumeration(self.reference())
            if self.chance(0.4):
                self.add_array(enumeration)
        elif which == 1:
            value = self.add_named_value()
            if self.chance(0.5):
                self.show(self.add_array(value))
        elif which == 2:
            self.add("Other", "object", kind_name=self.choose(KIND_NAMES))
        else:
            self.add("Primitive", "object", primitive=self.choose(list(PRIMITIVES)),
                     indirection=self.chance(0.3))
