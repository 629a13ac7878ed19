"""The errors that end lookups, the parts of the records that were found broken, and the statistics for compare.py."""
from collections import Counter

MET = Counter()

PLAIN = {
    "ArgumentTypeNotArgumentList": "Unexpected type for argument list",
    "FunctionIdIsNotProcedureType": "Id of type Function doesn't have type of Procedure",
    "MemberFunctionIdIsNotMemberFunctionType":
        "Id of type MemberFunction doesn't have type of MemberFunction",
    "ProcedureLinesUnsuccessful": "Getting the procedure lines was unsuccessful",
    "ExtendedModuleInfoUnsuccessful": "Getting the extended module info was unsuccessful",
    "CantResolveCrossModuleRefWithoutStringTable":
        "Could not resolve cross-module reference due to missing string table",
    "ModuleImportsUnsuccessful": "Getting the module imports was unsuccessful",
    "ModuleExportsUnsuccessful": "Getting the module exports was unsuccessful",
}


def note(key):
    """Counts an event for the statistics."""
    MET[key] += 1


class Error(Exception):
    """An error of the program: the name of its variant, its text, and the number in it, if any."""

    def __init__(self, variant, text, number=None):
        super().__init__(text)
        self.variant, self.text, self.number = variant, text, number


class FailedParts:
    """The parts of the records that were found broken. Each returns its own error once."""

    def __init__(self):
        self.parts = set()

    def ask(self, part, unsuccessful, read):
        """Returns what `read` returns. If the part failed before, raises the error `unsuccessful` instead of its
        own."""
        try:
            return read()
        except Error:
            if part in self.parts:
                raise plain(unsuccessful) from None
            self.parts.add(part)
            raise


def plain(variant):
    """An error whose text depends only on its variant."""
    return Error(variant, PLAIN[variant])


def circular(index):
    return Error("CircularTypeDefinition", f"Type with index {index} is circular", index)


def of_reader(variant, text, number):
    """An error of the PDB reader."""
    return Error(variant, "PDB error: " + text, number)


def stream(number):
    return of_reader("Stream", f"stream error {number}", number)


def type_not_found(index):
    return of_reader("TypeNotFound", f"type 0x{index:x} not found", index)


def unimplemented(kind):
    return of_reader("UnimplementedTypeKind", f"unimplemented type kind 0x{kind:x}", kind)


def cross_reference_not_found(index):
    return of_reader("CrossModuleRefNotFound", f"cross module reference 0x{index:x} not found", index)


def string_not_found(reference):
    return of_reader("StringNotFound", f"string {reference} not found", reference)
