"""Breakpad symbol files from stacks, for write_cases.py."""
import itertools

from stacks import procedure_at


def runs(found, key):
    """Yields the runs of consecutive addresses with one key: first address, number of addresses, key."""
    grouped = itertools.groupby(enumerate(found), lambda pair: (pair[1] - pair[0], key(pair[1])))
    for (_, value), members in grouped:
        addresses = [address for _, address in members]
        yield addresses[0], len(addresses), value


def calls(stack, level, files, origins):
    """Returns the calls of a stack down to a level, each with its line, its file and the function. Returns None if the
    stack has no call at that level."""
    pairs = list(zip(stack, stack[1:]))
    return tuple((outer[2], files[outer[1]], origins[inner[0]]) for outer, inner in pairs[:level + 1]) if len(pairs) > level else None


def numbers(names):
    """Numbers the names in the order in which they first occur."""
    return {name: number for number, name in enumerate(dict.fromkeys(names))}


def function_records(start, found, files, origins):
    """Yields the records of one function."""
    yield f"FUNC {start:x} {len(found):x} 0 {found[start][0][0]}"
    deepest = max(map(len, found.values())) - 1
    inlines = [(first, level, count, chain[-1]) for level in range(deepest)
               for first, count, chain in runs(found, lambda address: calls(found[address], level, files, origins)) if chain]
    for first, level, count, (line, file, origin) in sorted(inlines):
        yield f"INLINE {level} {line} {file} {origin} {first:x} {count:x}"
    for first, count, stack in runs(found, found.get):
        yield f"{first:x} {count:x} {stack[-1][2]} {files[stack[-1][1]]}"


def symbol_file(front, found):
    """Returns the symbol file of these stacks. It begins with the records `front`."""
    files = numbers(frame[1] for stack in found.values() for frame in stack)
    origins = numbers(frame[0] for stack in found.values() for frame in stack[1:])
    rows = [*front, *(f"FILE {number} {name}" for name, number in files.items()),
            *(f"INLINE_ORIGIN {number} {name}" for name, number in origins.items())]
    for start, count, _ in runs(found, lambda address: (procedure_at(address), found[address][0][0])):
        rows += function_records(start, {address: found[address] for address in range(start, start + count)}, files, origins)
    return "".join(f"{row}\n" for row in rows)
