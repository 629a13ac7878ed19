"""Prints the signatures of functions and ids, under the default flags.

Text is appended to a list of pieces, `out`, so that the text before an error is known. `open_indices` are the indices
that are being printed. An index that is reached again while it is open is refused as circular. `module` is the module
index of the module whose record is printed.
"""
import re

import errors
from errors import Error, note
from primitives import PRIMITIVES
from type_reader import TypeReader

POINTER_SIGNS = {"Pointer": "*", "LValueReference": "&", "Member": "::*", "MemberFunction": "::*",
                 "RValueReference": "&&"}


def opened(open_indices, index):
    """Returns the open indices with one more."""
    if index in open_indices:
        raise errors.circular(index)
    return open_indices | {index}


def function_name(name):
    return name or "<name omitted>"


def missing(error):
    return f"<missing type 0x{error.number:x}>"


def primitive_text(primitive, constant):
    name = PRIMITIVES[primitive.primitive][1]
    if primitive.indirection:
        return name + (" const*" if constant else "*")
    return "const " + name if constant else name


def namespace_text(name):
    """Returns a namespace's name. An anonymous namespace has `?A0x` and a hexadecimal number of 32 bits instead of a
    name."""
    match = re.fullmatch(r"\?A0x\+?([0-9a-fA-F]+)", name)
    if match and int(match[1], 16) < 2**32:
        note("anonymous namespace")
        return "`anonymous namespace'"
    return name


def signs_text(pointers, space_first):
    """Returns the signs of a chain of pointers, the last of the chain first.

    `const` before a sign follows a space if it comes after another sign or other text (`space_first`)."""
    out = []
    for pointer in reversed(pointers):
        if pointer.target_constant:
            out.append(" const" if out or space_first else "const")
        out.append(POINTER_SIGNS[pointer.mode])
        out.append(" const" if pointer.constant else "")
    return "".join(out)


class Pointer:
    """A pointer of a chain: its sign, whether it is constant, and whether its target is."""

    def __init__(self, mode, constant):
        self.mode, self.constant, self.target_constant = mode, constant, False


class Formatter(TypeReader):
    """Prints signatures, and remembers which parts of the records it found broken."""

    def format_function(self, name, module, index):
        """Returns the signature of a function, from its name and the index of its type. Index 0 means no type."""
        out = []
        if index == 0:
            out.append(function_name(name))
        else:
            self.print_function(module, name, index, out)
        return "".join(out)

    def format_id(self, module, index):
        out = []
        self.print_id(module, index, {index}, out)
        return "".join(out)

    # ------------------------------------------------------------ functions

    def print_function(self, module, name, index, out):
        """Prints a function. If the type isn't a function's, prints only the name, even if it is empty."""
        function = self.read(module, index)
        note(f"function of kind {function.kind}")
        if function.kind == "MemberFunction":
            out.append(function_name(name))
            self.print_method_arguments(module, frozenset({index}), function, True, out)
        elif function.kind == "Procedure":
            out.append(function_name(name))
            self.print_procedure_arguments(module, frozenset({index}), function, out)
        else:
            out.append(name)

    def print_returned(self, module, open_indices, function, out):
        """Prints the return type and a space. A constructor has none."""
        if not function.is_constructor and function.return_type is not None:
            self.print_index(module, open_indices, function.return_type, out)
            out.append(" ")

    def print_procedure_arguments(self, module, open_indices, procedure, out):
        out.append("(")
        self.print_index(module, open_indices, procedure.argument_list, out)
        out.append(")")

    def print_list(self, module, open_indices, arguments, out):
        for n, index in enumerate(arguments):
            if n:
                out.append(", ")
            self.print_index(module, open_indices, index, out)

    def print_method_arguments(self, module, open_indices, method, const_allowed, out):
        """Prints the arguments of a method, and then `const` if the method is constant and `const` is allowed here."""
        open_indices = opened(open_indices, method.argument_list)
        arguments = self.read(module, method.argument_list)
        if arguments.kind != "ArgumentList":
            raise errors.plain("ArgumentTypeNotArgumentList")
        shown, constant = self.this_argument(module, method)
        out.append("(")
        self.print_list(module, open_indices, shown + arguments.arguments, out)
        out.append(")")
        if constant and const_allowed:
            out.append(" const")

    def this_argument(self, module, method):
        """Returns what is printed for `this`, as a list of none or one, and whether the method is constant.

        A pointer to the class, or to a modifier of the class, isn't printed. The method is constant if the modifier
        is."""
        if method.this_pointer_type is None:
            return [], False
        this = self.read(module, method.this_pointer_type)
        if this.kind == "Pointer":
            if this.underlying_type == method.class_type:
                note("this plain")
                return [], False
            target = self.read(module, this.underlying_type)
            if target.kind == "Modifier" and target.underlying_type == method.class_type:
                note("this of a modifier")
                return [], target.constant
        note("this as an argument")
        return [method.this_pointer_type], False

    # ---------------------------------------------------------------- types

    def read_or_print(self, module, index, items, out):
        """Returns the content of an index. If it is missing or of an unknown kind, prints a note and returns None."""
        try:
            return self.read(module, index, items)
        except Error as error:
            if error.variant == "UnimplementedTypeKind":
                note("printed unimplemented")
                out.append(f"<unimplemented type kind 0x{error.number:x}>")
            elif error.variant == "TypeNotFound":
                note("printed missing")
                out.append(missing(error))
            else:
                raise
            return None

    def print_index(self, module, open_indices, index, out):
        """Prints a type by its index, which is open from here on."""
        content = self.read_or_print(module, index, self.program.types, out)
        if content is not None:
            self.print_type(module, opened(open_indices, index), content, out)

    def print_type(self, module, open_indices, content, out):
        """Prints a type that was read. If a type in it is missing, the text ends there, with a note."""
        try:
            self.print_by_kind(module, open_indices, content, out)
        except Error as error:
            if error.variant != "TypeNotFound":
                raise
            note("caught missing")
            out.append(missing(error))

    def print_by_kind(self, module, open_indices, content, out):
        """Prints a type by its kind. A procedure without a pointer before it has no closing parenthesis."""
        note(f"printed {content.kind}")
        if content.kind == "Primitive":
            out.append(primitive_text(content, False))
        elif content.kind in ("Class", "Union", "Enumeration", "Enumerate"):
            out.append(content.name)
        elif content.kind == "MemberFunction":
            out.append("()")
            self.print_method_arguments(module, open_indices, content, False, out)
        elif content.kind == "Procedure":
            out.append("()(")
            self.print_index(module, open_indices, content.argument_list, out)
        elif content.kind == "ArgumentList":
            self.print_list(module, open_indices, content.arguments, out)
        elif content.kind == "Pointer":
            self.print_pointer(module, open_indices, content, False, out)
        elif content.kind == "Array":
            self.print_array(module, open_indices, content, out)
        elif content.kind == "Modifier":
            self.print_modified(module, open_indices, content, out)
        else:
            out.append(f"unhandled type /* {content.kind_name} */")

    def print_pointer(self, module, open_indices, pointer, constant, out):
        """Prints a chain of pointers, with at most one modifier after each. Its indices stay open to its end."""
        chain = [Pointer(pointer.mode, pointer.is_const or constant)]
        content = pointer
        while True:
            index = content.underlying_type
            open_indices = opened(open_indices, index)
            content = self.read(module, index)
            if content.kind == "Modifier":
                chain[-1].target_constant = content.constant
                open_indices = opened(open_indices, content.underlying_type)
                content = self.read(module, content.underlying_type)
            if content.kind != "Pointer":
                break
            chain.append(Pointer(content.mode, content.is_const))
        note(f"pointer to {content.kind}")
        if len(chain) > 1:
            note("pointer to pointer")
        self.print_chain_end(module, open_indices, content, chain, out)

    def print_chain_end(self, module, open_indices, content, chain, out):
        """Prints the end of a chain of pointers, and their signs. Functions have their return types here."""
        if content.kind == "MemberFunction":
            self.print_returned(module, open_indices, content, out)
            out.append("(")
            self.print_index(module, open_indices, content.class_type, out)
            out.append(signs_text(chain, False) + ")")
            self.print_method_arguments(module, open_indices, content, False, out)
        elif content.kind == "Procedure":
            self.print_returned(module, open_indices, content, out)
            out.append("(" + signs_text(chain, False) + ")")
            self.print_procedure_arguments(module, open_indices, content, out)
        else:
            kept_back = []  # if the type fails, none of its text is printed
            self.print_type(module, open_indices, content, kept_back)
            out.extend(kept_back)
            out.append(signs_text(chain, True))

    def print_array(self, module, open_indices, array, out):
        """Prints the type at the end of a chain of arrays, and the number of elements of each level, outermost first.

        An index that the chain reaches twice is refused as circular. If an element has size 0, its number of elements
        is left out."""
        sizes, met = [], set()
        content = array
        while content.kind == "Array":
            sizes.append(content.first)
            index = content.element_type
            if index in met:
                note("circle of arrays")
                raise errors.circular(index)
            met.add(index)
            content = self.read(module, index)
        sizes.append(self.size(module, index))
        self.print_type(module, open_indices, content, out)
        for size, element_size in zip(sizes, sizes[1:]):
            out.append(f"[{size // element_size}]" if element_size else "[]")
        note("array of levels " + str(min(3, len(sizes) - 1)))

    def print_modified(self, module, open_indices, modifier, out):
        open_indices = opened(open_indices, modifier.underlying_type)
        content = self.read(module, modifier.underlying_type)
        if content.kind == "Pointer":
            self.print_pointer(module, open_indices, content, modifier.constant, out)
        elif content.kind == "Primitive":
            out.append(primitive_text(content, modifier.constant))
        else:
            out.append("const " if modifier.constant else "")
            self.print_type(module, open_indices, content, out)

    # ------------------------------------------------------------------ ids

    def print_id(self, module, index, chain, out):
        """Prints an id. `chain` has the ids of the chain of scopes up to this one, which is included."""
        content = self.read_or_print(module, index, self.program.ids, out)
        if content is None:
            return
        note(f"id of kind {content.kind}")
        if content.kind == "MemberFunction":
            self.print_method_id(module, content, out)
        elif content.kind == "Function":
            self.print_function_id(module, content, chain, out)
        elif content.kind == "String":
            out.append(namespace_text(content.name))
        elif content.kind == "StringList":
            self.print_string_list(module, content, out)
        else:
            out.append(f"<unhandled id scope {content.kind_name}>::")

    def print_method_id(self, module, method_id, out):
        """Prints the id of a method. Only the index of its type is open in it."""
        open_indices = frozenset({method_id.function_type})
        method = self.read(module, method_id.function_type)
        if method.kind != "MemberFunction":
            raise errors.plain("MemberFunctionIdIsNotMemberFunctionType")
        self.print_index(module, open_indices, method_id.parent, out)
        out.append("::" + function_name(method_id.name))
        self.print_method_arguments(module, open_indices, method, True, out)

    def print_function_id(self, module, function_id, chain, out):
        """Prints the id of a function that isn't a method, after the whole id of its scope. A scope that is already in
        the chain is refused."""
        procedure = self.read(module, function_id.function_type)
        if procedure.kind != "Procedure":
            raise errors.plain("FunctionIdIsNotProcedureType")
        scope = function_id.scope
        if scope is not None:
            if scope in chain:
                note("circle of scopes")
                raise errors.circular(scope)
            self.print_id(module, scope, chain | {scope}, out)
            out.append("::")
        out.append(function_name(function_id.name))
        self.print_procedure_arguments(module, frozenset({function_id.function_type}), procedure, out)

    def print_string_list(self, module, string_list, out):
        """Prints types in quotation marks. No index is open in it."""
        out.append('"')
        for n, index in enumerate(string_list.substrings):
            if n:
                out.append('" "')
            self.print_index(module, frozenset(), index, out)
        out.append('"')
