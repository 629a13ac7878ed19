"""The stacks at all addresses of shapes.exe, for write_cases.py. They are those of llvm-symbolizer, except for one
line."""
import json
import pathlib
import subprocess

HERE = pathlib.Path(__file__).resolve().parent
# The procedures of shapes.exe by their starts, with their lengths and arguments, from its sources and `llvm-pdbutil
# dump --symbols`.
PROCEDURES = {0x1000: (29, "(char const*)"), 0x1020: (186, "()"), 0x10e0: (35, "(Colour, Bits)"), 0x1110: (62, "(int)"),
              0x1150: (50, "(int)"), 0x1190: (198, "(shapes::Point const*, int)"),
              0x1260: (45, "(shapes::Point const&, unsigned char)")}
# The arguments of the functions that are inlined.
ARGUMENTS = {"Framed::Framed": "()", "Picture::Picture": "()", "Picture::draw": "(int)", "shapes::Point::length": "() const",
             "shapes::Point::moved": "(int) const", "`anonymous namespace'::Walker::walk": "(shapes::Point const&)",
             "`anonymous namespace'::doubled": "(int)", "shapes::Counter<int>::add": "(int)",
             "shapes::Counter<int>::mean": "() const", "shapes::Counter<long long>::add": "(long long)",
             "shapes::Counter<long long>::mean": "() const"}
# The bytes between procedures of one contribution: start, end, the last public symbol before them, and its last row.
# `paint` is static and has no public symbol, so the bytes after it belong to `entry`.
BETWEEN = [(0x101d, 0x1020, "?count@Picture@@SAHPEBD@Z", "main.cpp", 44), (0x10da, 0x10e0, "entry", "main.cpp", 57),
           (0x1103, 0x1110, "entry", "main.cpp", 57), (0x114e, 0x1150, "?draw@Framed@@UEAAHH@Z", "main.cpp", 36),
           (0x1256, 0x1260, "?area@shapes@@YAHPEBUPoint@1@H@Z", "shapes.cpp", 31)]
# Two rows start at this address. LLVM answers the first row there. Here the second one wins.
TWO_ROWS = 0x10e0


def stacks(folder):
    """Returns the stack at each address of shapes.exe, the function itself first. It is LLVM's, except for the line at
    TWO_ROWS."""
    addresses = [address for start, (length, _) in PROCEDURES.items() for address in range(start, start + length)]
    words = ["--obj=shapes.exe", "--relative-address", "--functions=short", "--output-style=JSON"]
    printed = subprocess.run(["llvm-symbolizer-22", *words], input="".join(f"{address}\n" for address in addresses),
                             capture_output=True, text=True, check=True, cwd=folder).stdout
    found = {address: [(frame["FunctionName"], frame["FileName"], frame["Line"]) for frame in reversed(json.loads(line)["Symbol"])]
             for address, line in zip(addresses, printed.splitlines(), strict=True)}
    found[TWO_ROWS][0] = found[TWO_ROWS + 1][0]
    for start, end, name, file, line in BETWEEN:
        found.update({address: [(name, f"C:\\shapes\\{file}", line)] for address in range(start, end)})
    return dict(sorted(found.items()))


def with_arguments(found):
    """Yields the same stacks with arguments in the names."""
    for address, [(name, *place), *inlined] in found.items():
        _, arguments = PROCEDURES.get(procedure_at(address), (0, ""))
        yield address, [(name + arguments, *place), *((name + ARGUMENTS[name], *rest) for name, *rest in inlined)]


def procedure_at(address):
    """Returns the start of the procedure that contains an address, or None."""
    return next((start for start, (length, _) in PROCEDURES.items() if start <= address < start + length), None)
