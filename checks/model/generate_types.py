"""The random lists of types and of ids. Types are made in kits, which are a few types that belong together."""
from choices import FUNCTION_NAMES
from generate_kits import KIND_NAMES, Kits

LOW = {0x3: ("Void", False), 0x74: ("I32", False), 0x70: ("RChar", False), 0x13: ("Quad", False),
       0x403: ("Void", True), 0x470: ("RChar", True), 0x40: ("F32", False), 0x30: ("Bool8", False)}
SCOPE_NAMES = ["ns", "a::b", "", "?A0x1f", "?A0x+1f", "?A0x", "?A0x+", "?A0x100000000", "?A0xFFFFFFFF",
               "?A0x0000000001", "?A0x+ffffffff", "?A0x1g", "?A0x-1", "?A0X1", "?A0x++1", "?A0x 1", "x?A0x1",
               "?A0x1 ", "?a0x1", "?A0xABCDEF", "?A0x１"]
ID_KINDS = ["Function"] * 5 + ["MemberFunction"] * 4 + ["String"] * 3 + ["StringList", "Other"]
INDEX_FIELDS = ["underlying_type", "element_type", "argument_list", "return_type", "class_type",
                "this_pointer_type"]


class Types(Kits):
    def make_types(self):
        """Makes the list of types. `by_role` has their indices by the places where they fit."""
        self.types, self.type_indices, self.by_role, self.next_index = [], [], {}, 0x1000
        self.add_low_types()
        for _ in self.times(1, 9):
            at = len(self.types)
            self.add_kit()
            if self.broken(0.2):
                self.make_circle(self.types[at:])
        for _ in self.times(1, 8 if self.mode == "signatures" else 3):
            self.add_shown_function()
        self.functions = self.by_role.get("function", []) + self.by_role.get("method", [])
        self.spoil_types()

    def add_low_types(self):
        """Adds built-in types, with their usual indices."""
        self.low = self.random.sample(sorted(LOW), self.random.randint(3, len(LOW)))
        for index in self.low:
            primitive, indirection = LOW[index]
            self.types.append({"index": index, "kind": "Primitive", "primitive": primitive,
                               "indirection": indirection})
        self.by_role["object"] = list(self.low)

    def make_circle(self, kit):
        """Makes a type of a kit refer to one of the same kit, or to a later type."""
        places = [(item, field) for item in kit for field in INDEX_FIELDS if item.get(field) is not None]
        places += [(item["arguments"], n) for item in kit for n in range(len(item.get("arguments", [])))]
        if not places:
            return
        place, field = self.choose(places)
        if self.chance(0.8):
            place[field] = self.choose(kit[-2:])["index"]
        else:
            place[field] = self.next_index + self.choose([0, 1, 2])
        for item in kit[-2:]:
            self.show(item["index"])

    def add_shown_function(self):
        """Adds a function whose arguments are mostly the latest types."""
        count = self.choose([0, 1, 1, 2, 2, 3])
        arguments = self.add("ArgumentList", arguments=[self.shown_argument() for _ in range(count)])
        self.add("Procedure", "function", return_type=self.choose([None, 3, self.reference()]),
                 is_constructor=self.chance(0.1), argument_list=arguments)

    def shown_argument(self):
        if self.by_role.get("shown") and self.chance(0.15):
            return self.choose(self.by_role["shown"])
        if self.chance(0.4):
            return self.choose(self.by_role["object"][-7:])
        return self.choose(self.by_role["object"]) if self.chance(0.9) else self.reference()

    def spoil_types(self):
        """Changes the order of types, repeats an index, or removes a type."""
        if self.broken(0.1):
            self.random.shuffle(self.types)
        if self.broken(0.2):
            copy = dict(self.choose(self.types))
            copy["index"] = self.choose(self.type_indices)
            self.types.insert(self.random.randint(0, len(self.types)), copy)
        if self.broken(0.1):
            self.types.pop(self.random.randrange(len(self.types)))

    # ------------------------------------------------------------------ ids

    def make_ids(self):
        self.ids, self.id_indices = [], []
        count = self.random.randint(0, 9)
        for n in range(count):
            self.id_indices.append(0x1000 + n)
            item = {"index": 0x1000 + n, **self.id_content(count)}
            if self.broken(0.05):
                item = {"index": 0x1000 + n, "error": self.choose([{"stream": 5}, {"unimplemented": 0x1601}])}
            self.ids.append(item)
        if count > 1 and self.broken(0.15):
            self.make_circle_of_scopes()
        if self.ids and self.broken(0.1):
            self.ids.pop(self.random.randrange(len(self.ids)))
        if self.broken(0.1):
            self.random.shuffle(self.ids)

    def id_content(self, count):
        """Returns the kind of an id and its members. There will be `count` ids."""
        kind = self.choose(ID_KINDS)
        if kind == "Function":
            return {"kind": kind, **self.function_id(count)}
        if kind == "MemberFunction":
            return {"kind": kind, "parent": self.reference("class"), "name": self.choose(FUNCTION_NAMES),
                    "function_type": self.function_type() if self.broken(0.2) else self.reference("method")}
        if kind == "String":
            return {"kind": kind, "name": self.choose(SCOPE_NAMES)}
        if kind == "StringList":
            return {"kind": kind, "substrings": [self.reference() for _ in self.times(0, 3)]}
        return {"kind": kind, "kind_name": self.choose(KIND_NAMES)}

    def function_id(self, count):
        """Returns the members of a function id that isn't a method."""
        function_type = self.function_type() if self.broken(0.2) else self.reference("function")
        members = {"function_type": function_type, "name": self.choose(FUNCTION_NAMES)}
        scope = self.scope(count)
        if scope is not None or self.chance(0.5):
            members["scope"] = scope
        return members

    def scope(self, count):
        """Returns the scope of the latest id: mostly an earlier id, or none."""
        if self.broken(0.15):
            return self.choose([0x1000 + self.random.randrange(count)] * 3 + [0x3000, self.cross_index()])
        scopes = [None, None] + self.id_indices[:-1]
        crossing = self.cross_index()
        return self.choose(scopes + [crossing] if self.chance(0.2) else scopes)

    def make_circle_of_scopes(self):
        """Makes each of two ids the scope of the other. Only function ids have a scope."""
        first, second = self.random.sample(self.ids, 2)
        for one, other in ((first, second), (second, first)):
            if one.get("kind") == "Function":
                one["scope"] = other["index"]
