#!/usr/bin/env python3
"""Makes the STACK CFI records of an x64 program from its unwind tables and its code. It is written from the rules
alone.

Usage: stack_records.py PROGRAM     prints them. write_cases.py takes the expected records from here
"""
import struct
import sys

REGS = ["rax", "rcx", "rdx", "rbx", "rsp", "rbp", "rsi", "rdi"] + [f"r{n}" for n in range(8, 16)]


class Image:
    """A program's file, with its sections and its exception directory."""
    def __init__(self, data):
        self.data = data
        headers = struct.unpack_from("<I", data, 0x3C)[0]
        machine, count, optional_size = struct.unpack_from("<HH12xH", data, headers + 4)
        optional = headers + 24
        if count > 96:
            raise ValueError("more sections than systems load")
        directories = struct.unpack_from("<I", data, optional + 108)[0]
        self.directory = struct.unpack_from("<II", data, optional + 112 + 8 * 3) if directories > 3 else (0, 0)
        self.is_x64 = machine == 0x8664
        self.sections, self.loaded, self.code = [], [], []
        for n in range(count):
            at = optional + optional_size + 40 * n
            loaded, rva, size, offset = struct.unpack_from("<IIII", data, at + 8)
            self.sections.append((rva, size, offset))
            self.loaded.append((n, rva, min(loaded, size)))
            if struct.unpack_from("<I", data, at + 36)[0] & 0x20000000:
                self.code.append(self.loaded[-1])

    def rest(self, rva):
        """Returns the bytes from an address to the end of its section."""
        for start, length, offset in self.sections:
            if start <= rva < start + length:
                return self.data[offset:offset + length][rva - start:]
        return b""

    def read(self, rva, size):
        """Returns `size` bytes at an address."""
        found = self.rest(rva)[:size]
        if len(found) < size:
            raise ValueError(f"no bytes at {rva:x}")
        return found


def entries(image):
    """Returns the entries of the exception directory."""
    rva, size = image.directory
    data = image.rest(rva)[:size]
    return [struct.unpack_from("<III", data, at) for at in range(0, len(data) - 11, 12)]


def info(image, rva):
    """Reads the unwind info at an address."""
    if rva & 1:
        rva = struct.unpack("<III", image.read(rva & ~1, 12))[2]
    first, prologue, count, frame = image.read(rva, 4)
    version, flags = first & 7, first >> 3
    if version not in (1, 2):
        raise ValueError(f"version {version}")
    slots = image.read(rva + 4, 2 * count)
    codes, at, epilogs, listing = [], 0, [], True
    while at < count:
        offset, op = slots[2 * at], slots[2 * at + 1] & 15
        listing = listing and op == 6
        extra = slots[2 * at + 1] >> 4
        u16 = lambda k: struct.unpack_from("<H", slots, 2 * (at + k))[0]
        u32 = lambda k: struct.unpack_from("<I", slots, 2 * (at + k))[0]
        if op == 0:
            codes.append((offset, "push", extra)); at += 1
        elif op == 1 and extra == 0:
            codes.append((offset, "alloc", u16(1) * 8)); at += 2
        elif op == 1 and extra == 1:
            codes.append((offset, "alloc", u32(1))); at += 3
        elif op == 2:
            codes.append((offset, "alloc", extra * 8 + 8)); at += 1
        elif op == 3:
            codes.append((offset, "frame", 0)); at += 1
        elif op == 4:
            codes.append((offset, "save", (extra, u16(1) * 8))); at += 2
        elif op == 5:
            codes.append((offset, "save", (extra, u32(1)))); at += 3
        elif op == 6 and version == 2:
            epilogs += [(offset, extra)] * listing; at += 1
        elif op == 7 and version == 2:
            at += 3
        elif op == 8:
            at += 2
        elif op == 9:
            at += 3
        elif op == 10:
            codes.append((offset, "trap", extra)); at += 1
        else:
            raise ValueError(f"code {op}")
    if at > count:
        raise ValueError("codes cut")
    parent = None
    if flags & 4:
        parent = struct.unpack("<III", image.read(rva + 4 + 2 * (count + (count & 1)), 12))
    return dict(version=version, prologue=prologue, frame=(frame & 15, (frame >> 4) * 16), codes=codes, parent=parent,
                epilogs=epilogs)


def finish(base, k, saved, trapped):
    """Returns the rules if the return address is stored `k` bytes above a register's value."""
    if trapped:
        return {"cfa": ("load", base, k + 24), "ra": (base, k), "saved": saved}
    return {"cfa": ("sum", base, k + 8), "ra": (base, k), "saved": saved}


def body(image, own, offset):
    """Returns the rules at an offset outside of epilogues."""
    base, k, saved, trapped = 4, 0, {}, False
    inside = offset < own["prologue"]
    chain, current, first = [], own, True
    while current is not None and not trapped:
        done = [c for c in current["codes"] if not (first and inside) or c[0] <= offset]
        register, amount = current["frame"]
        set_up = register and (not (first and inside) or current["parent"] or any(c[1] == "frame" for c in done))
        start = (register, -amount) if set_up else (4, 0)
        for _, op, value in done:
            if op == "push":
                saved[value] = (base, k); k += 8
            elif op == "alloc":
                k += value
            elif op == "frame":
                if register:
                    base, k = register, -amount
            elif op == "save":
                saved[value[0]] = (start[0], start[1] + value[1])
            elif op == "trap":
                k += 8 if value == 1 else 0
                trapped = True
                break
        first = False
        current = info(image, current["parent"][2]) if current["parent"] else None
    return finish(base, k, saved, trapped)


def signed(data):
    """Reads a signed number."""
    return int.from_bytes(data, "little", signed=True)


def epilogue(code, own, begin, end, at):
    """Returns the rules of a version 1 epilogue at the start of this code, or None if no epilogue is there."""
    base, k, saved = 4, 0, {}
    frame = own["frame"][0]
    left = code
    if left[:3] == b"\x48\x83\xc4" and len(left) >= 4:
        k += signed(left[3:4]); left = left[4:]
    elif left[:3] == b"\x48\x81\xc4" and len(left) >= 7:
        k += signed(left[3:7]); left = left[7:]
    elif frame and len(left) >= 4 and left[0] == 0x48 + (frame >> 3) and left[1] == 0x8D and (frame & 7) != 4:
        if left[2] == 0x60 + (frame & 7):
            base, k = frame, signed(left[3:4]); left = left[4:]
        elif left[2] == 0xA0 + (frame & 7) and len(left) >= 7:
            base, k = frame, signed(left[3:7]); left = left[7:]
    for _ in range(16):
        if left and 0x58 <= left[0] < 0x60 and left[0] != 0x5C:
            saved[left[0] - 0x58] = (base, k); k += 8; left = left[1:]
        elif len(left) > 1 and left[0] == 0x41 and 0x58 <= left[1] < 0x60:
            saved[left[1] - 0x50] = (base, k); k += 8; left = left[2:]
        else:
            break
    place = end - len(left)
    leaves = False
    outside = lambda target: not begin <= target < end or (target == begin and not own["parent"])
    if left[:1] == b"\xc3" or (left[:1] == b"\xc2" and len(left) >= 3) or left[:2] == b"\xf3\xc3":
        leaves = True
    elif left[:1] == b"\xeb" and len(left) >= 2:
        leaves = outside(place + 2 + signed(left[1:2]))
    elif left[:1] == b"\xe9" and len(left) >= 5:
        leaves = outside(place + 5 + signed(left[1:5]))
    elif left[:2] == b"\xff\x25" and len(left) >= 6:
        leaves = True
    elif len(left) >= 7 and left[0] & 0xF0 == 0x40 and left[1:3] == b"\xff\x25":
        leaves = True
    elif len(left) >= 3 and left[0] & 0xF8 == 0x48 and left[1] == 0xFF and left[2] & 0xF8 == 0xE0:
        leaves = True
    return finish(base, k, saved, False) if leaves else None


def epilogue2(image, own, length, offset):
    """Returns the rules at an offset in a version 2 epilogue, or None if the offset is in none."""
    if not own["epilogs"]:
        return None
    size, flag = own["epilogs"][0]
    starts = [length - size] if flag & 1 else []
    starts += [length - (low + high * 256) for low, high in own["epilogs"][1:] if low + high * 256]
    for start in starts:
        if 0 <= start <= offset < start + size:
            into, k, saved, at = offset - start, 0, {}, 0
            for _, op, register in own["codes"]:
                if op == "push":
                    at += 1 if register < 8 else 2
                    if at <= into:
                        continue
                    saved[register] = (4, k); k += 8
            return finish(4, k, saved, False)
    return None


def rule(image, own, begin, end, code, offset):
    """Returns the rules at an offset of a function."""
    chained = own["parent"] is not None
    if own["version"] == 2:
        found = epilogue2(image, own, end - begin, offset)
        if found:
            return found
    elif offset >= own["prologue"] or chained:
        found = epilogue(code[offset:], own, begin, end, offset)
        if found:
            return found
    return body(image, own, offset)


def term(base, k, cfa):
    """Returns the expression for a value that is saved at a place."""
    if cfa[0] == "sum" and cfa[1] == base:
        return f".cfa {cfa[2] - k} - ^"
    return f"${REGS[base]} {k} + ^"


def words(found, mentioned):
    """Returns the rules by register, as records have them."""
    kind, base, k = found["cfa"]
    rules = [(".cfa", f"${REGS[base]} {k} +" + (" ^" if kind == "load" else ""))]
    rules.append((".ra", term(*found["ra"], found["cfa"])))
    for register in sorted(set(found["saved"]) | set(mentioned)):
        own = "$" + REGS[register]
        saved = found["saved"].get(register)
        rules.append((own, term(*saved, found["cfa"]) if saved else own))
    return rules


def refuse_long_chains(image, own):
    """Refuses an info with a chain of more than 32 others."""
    for _ in range(32):
        if not own["parent"]:
            return
        own = info(image, own["parent"][2])
    if own["parent"]:
        raise ValueError("chain too long")


def code_of(image, reach, begin, end):
    """Returns the code of a function. Refuses one that starts before the end of an earlier function."""
    if end <= begin:
        raise ValueError("empty")
    code = image.read(begin, end - begin)
    if begin < reach:
        raise ValueError("overlapping")
    return code


def code_ranges(image):
    """Yields the ranges of executable sections. A section that starts before the end of an earlier one is left out."""
    ends = [min(rva + size, 2**32 - 1) for _, rva, size in image.loaded]
    for number, rva, size in image.code:
        if all(end <= rva for end in ends[:number]):
            yield rva, min(rva + size, 2**32 - 1)


def leaf_records(image):
    """Yields records for code that no entry covers. Padding is left out: fewer than 16 bytes, all int3."""
    covering = [(begin, end) for begin, end, _ in entries(image) if begin < end]
    if any(begin < end for (_, end), (begin, _) in zip(covering, covering[1:])):
        return
    for start, stop in code_ranges(image):
        at = start
        for begin, end in [*covering, (stop, stop)]:
            size = min(begin, stop) - at
            if size > 0 and (size >= 16 or set(image.rest(at)[:size]) - {0xCC}):
                yield f"STACK CFI INIT {at:x} {size:x} .cfa: $rsp 8 + .ra: .cfa 8 - ^"
            at = max(at, end)


def stack_records(data):
    """Returns the records of a program, and the reasons why functions have none."""
    image, rows, left_out, reach = Image(data), [], [], 0
    for begin, end, unwind in entries(image) if image.is_x64 else []:
        try:
            code = code_of(image, reach, begin, end)
            reach = end
            own = info(image, unwind)
            refuse_long_chains(image, own)
        except (ValueError, struct.error, IndexError) as error:
            left_out.append((begin, str(error)))
            continue
        mentioned, now = set(), {}
        for offset in range(end - begin):
            found = rule(image, own, begin, end, code, offset)
            changed = []
            for name, text in words(found, mentioned):
                if now.get(name) != text:
                    changed.append(f"{name}: {text}")
                    now[name] = text
            mentioned |= set(found["saved"])
            if offset == 0:
                rows.append(f"STACK CFI INIT {begin:x} {end - begin:x} {' '.join(changed)}")
            elif changed:
                rows.append(f"STACK CFI {begin + offset:x} {' '.join(changed)}")
    if image.is_x64:
        rows += leaf_records(image)
    return rows, left_out


def main():
    with open(sys.argv[1], "rb") as file:
        rows, left_out = stack_records(file.read())
    print("\n".join(rows))
    for begin, why in left_out:
        print(f"{begin:x}: {why}", file=sys.stderr)


if __name__ == "__main__":
    main()
