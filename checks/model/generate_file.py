"""The JSON text of a random file: how it is written, and the faults in its values and its bytes."""
import copy
import json


class Raw(str):
    """A text that is written to the file unchanged."""


class Pairs(list):
    """An object as a list of pairs, in which a member may occur twice."""


ODD = [None, True, False, 0, 1, -1, 7, "", "x", "1", [], {}, [0], [None], {"error": 3}, {"error": None},
       {"error": -1}, {"error": "x"}, {"items": []}, {"items": None}, {"items": [], "fault": 4},
       {"items": [], "fault": -1}, {"items": [], "fault": 1.5}, {"items": [], "error": 3},
       {"kind": "Other"}, {"kind": "other"}, {"kind": 1}, {"stream": 1}, {"stream": None},
       {"unimplemented": 65536}, {"stream": 1, "unimplemented": 65536}, {"unimplemented": 1, "stream": -1},
       2**8 - 1, 2**8, 2**16 - 1, 2**16, 2**31, 2**32 - 1, 2**32, 2**63, 2**64 - 1, 2**64, -(2**63),
       -(2**63) - 1, 1.5, 1.0, Raw("1.0"), Raw("1e0"), Raw("0.0"), Raw("-0"), Raw("-0.0"), Raw("1E+2"),
       Raw("1e-400"), Raw("123456789012345678901234567890"), "Public", "Amd64", "Class", "I32", "kind",
       "Pointer"]
NOT_JSON = [Raw(text) for text in [
    "1e999", "-1e999", "01", "+1", "1.", ".5", "NaN", "Infinity", "nul", "True", "'x'", '"\\x"', '"\\ud800"',
    '"\\udc00x"', '"\\ud800\\u0041"', '"\n"', '"\t"', "[1,]", "{,}", '{"a":1,}', "[1 2]", '{"a" 1}', "{1:2}",
    "1" * 400, "/**/1", "", "-", "1e", "0x1", "\x0b1"]]
SELDOM_WRITTEN = [Raw(text) for text in [
    '"\\ud83d\\ude00"', '"\\u0041\\/\\b\\n"', "\n\t\r 1 ", "0", '"\x7f"', '"\\u0000"']]
ODD_NUMBERS = [odd for odd in ODD if isinstance(odd, (int, float, Raw)) and not isinstance(odd, bool)]
ODD_MEMBERS = [2**8, 2**16, 2**32, 2**64, -1, 1.5, "x", None, {"error": None}, {"error": 1.5}, Raw("-0"),
               Raw('"\\ud83d"'), True, [], {}]
ITEM_ERRORS = [None, 5, [], {}, "x", {"stream": None}, {"stream": 1.5}, {"unimplemented": None}, {"x": 1},
               {"stream": "x", "unimplemented": 1}, {"unimplemented": 65536},
               {"unimplemented": 1, "stream": 2}, {"stream": None, "unimplemented": 1},
               {"unimplemented": -1}, {"stream": 2**32}]
VERSIONS = [0, 2, 1.0, Raw("1.0"), Raw("1e0"), "1", True, [], {}, 2**64, Raw("-0"), -1, None, 1]


# ------------------------------------------------------------ faulty values


def choose_copy(choices, values):
    """Returns a copy of one of the values, because later changes may be made in place."""
    return copy.deepcopy(choices.choose(values))


def is_branch(value):
    """Returns whether a value is an array or an object that can be changed in place."""
    return isinstance(value, (dict, list)) and not isinstance(value, Pairs)


def edges(tree):
    """Yields each (object or array, member or index) of a tree."""
    if is_branch(tree):
        for at in sorted(tree) if isinstance(tree, dict) else range(len(tree)):
            yield tree, at
            yield from edges(tree[at])


def edge_by_name(choices, file):
    """Returns a member somewhere in the file. Each name has the same chance."""
    there = list(edges(file))
    name = choices.choose(sorted({at for _, at in there if isinstance(at, str)}))
    return choices.choose([(node, at) for node, at in there if at == name])


def type_and_id_items(file):
    lists = [file.get("type_information"), file.get("id_information")]
    return [item for items in lists if isinstance(items, list) for item in items if isinstance(item, dict)]


def descend(choices, node, at):
    """Goes down from an edge to one that is to be changed. Returns None if it added a member on the way."""
    while True:
        value = node[at]
        if not is_branch(value) or not value or choices.chance(0.12):
            return node, at
        node = value
        at = choices.choose(sorted(node)) if isinstance(node, dict) else choices.random.randrange(len(node))
        if isinstance(node, dict) and choices.chance(0.04):
            at = choices.choose(["error", "items", "fault", "kind", "x", "stream", "version"])
            node[at] = choose_copy(choices, ODD)
            return None


def replaced(tree, old, new):
    """Returns the tree with the object `old` replaced by `new`. Objects that are only equal to `old` stay."""
    if tree is old:
        return new
    if isinstance(tree, dict):
        return {name: replaced(value, old, new) for name, value in tree.items()}
    if is_branch(tree):
        return [replaced(value, old, new) for value in tree]
    return tree


def with_member_twice(choices, file, node, at):
    """Returns the file with a member of an object given two or three times."""
    pairs = [(at, choose_copy(choices, ODD))] + list(node.items())
    if choices.chance(0.5):
        pairs.append((at, choose_copy(choices, ODD)))
    return replaced(file, node, Pairs(pairs))


def change_edge(choices, file, node, at):
    """Returns the file with the value at an edge removed, given twice, or replaced."""
    roll = choices.random.random()
    if roll < 0.25 and isinstance(node, dict):
        del node[at]
    elif roll < 0.3 and isinstance(node, dict):
        return with_member_twice(choices, file, node, at)
    elif roll < 0.32:
        node[at] = choices.choose(NOT_JSON)
    elif roll < 0.36:
        node[at] = choices.choose(SELDOM_WRITTEN)
    elif roll < 0.6 and type(node[at]) is int:
        node[at] = choices.choose(ODD_NUMBERS)
    else:
        node[at] = choose_copy(choices, ODD)
    return file


def with_change(choices, file):
    """Returns the file with one value changed, mostly in place."""
    if choices.chance(0.12):
        items = type_and_id_items(file)
        if items:
            choices.choose(items)["error"] = choose_copy(choices, ITEM_ERRORS)
            return file
    edge = file, choices.choose(sorted(file))
    roll = choices.random.random()
    if roll < 0.45:
        edge = node, at = edge_by_name(choices, file)
        if choices.chance(0.3):
            node[at] = choose_copy(choices, ODD_MEMBERS)
            return file
    elif roll < 0.6:
        edge = choices.choose(list(edges(file)))
    edge = descend(choices, *edge)
    return change_edge(choices, file, *edge) if edge else file


def with_changes(choices, file):
    """Returns the file with one to three values changed, and sometimes with another version."""
    for _ in range(choices.choose([1, 1, 1, 2, 3])):
        if isinstance(file, dict) and file:
            file = with_change(choices, file)
    if choices.chance(0.1) and isinstance(file, dict):
        file["version"] = choose_copy(choices, VERSIONS)
    return file


# --------------------------------------------------------------------- text


def json_text(choices, value, style):
    """Formats a value as JSON. The style is "plain", "escaped" (ASCII only) or "spaced" (with white space).

    Only the plain style keeps the order of members."""
    def gap():
        return choices.choose(["", "", " ", "\n", "\t "]) if style == "spaced" else ""

    def text(value):
        return json_text(choices, value, style)

    if isinstance(value, Raw):
        return str(value)
    if isinstance(value, (dict, Pairs)):
        pairs = list(value.items()) if isinstance(value, dict) else list(value)
        if style != "plain" and isinstance(value, dict):
            choices.random.shuffle(pairs)
        return "{" + gap() + ",".join(f"{gap()}{json.dumps(name)}{gap()}:{gap()}{text(member)}{gap()}"
                                      for name, member in pairs) + "}"
    if isinstance(value, list):
        return "[" + gap() + ",".join(gap() + text(element) + gap() for element in value) + "]"
    return json.dumps(value, ensure_ascii=style == "escaped")


STRAY_BYTES = [b"\xff", b"\x80", b"\xc3", b"\xed\xa0\x80", b"\x00", b" ", b"1", b'"']
BYTES_BEHIND = [b" ", b"\n", b"x", b"{}", b"\x00", b",", b"]", b"\xef\xbb\xbf"]
OTHER_TEXTS = [b"", b" ", b"null", b"1", b"[]", b"{}", b'"x"', b"true", b"1.5", b"[" * 127 + b"]" * 127,
               b"[" * 128 + b"]" * 128, b"[" * 127, b"1e999", b"-0"]


def broken_text(choices, data):
    """Returns the bytes of a text with one change."""
    kind = choices.choose([0, 1, 2, 3, 4, 5, 5, 5, 6, 7, 8])
    at = choices.random.randrange(len(data))
    if kind == 0:
        return data[:at]
    if kind == 1:
        return data[:at] + choices.choose(STRAY_BYTES) + data[at:]
    if kind == 2:
        return data + choices.choose(BYTES_BEHIND)
    if kind == 3:
        return b"\xef\xbb\xbf" + data
    if kind == 4:
        return choices.choose(OTHER_TEXTS)
    if kind == 5:
        depth = choices.choose([124, 125, 126, 127, 128])  # the root itself is one level
        return b'{"x":' + b"[" * depth + b"]" * depth + b"," + data[1:]
    if kind == 6:
        return data[:at] + data[at + 1:]
    if kind == 7:
        return data.replace(choices.choose([b":", b",", b"{", b"]"]), choices.choose([b"", b" ", b";"]), 1)
    return data[:at] + bytes([choices.random.randrange(256)]) + data[at + 1:]
