#!/usr/bin/env python3
"""Writes the tables of the benchmark into a folder: make_tables.py FOLDER.

Each table is made from numbers alone, so two runs write the same bytes.
"""
import os
import random
import sys

FIRST = "ABCDEFGHIJKLMNOPQRSTUVWXYZ_"
OTHER = "ABCDEFGHIJKLMNOPQRSTUVWXYZ0123456789_"
REFUSED = b"\x08\x00\x00"  # A Name without segments: read, and refused by the loader before all others.


def segment(number):
    """The segment of this number, below 27 * 37 ** 3."""
    number, d = divmod(number, 37)
    number, c = divmod(number, 37)
    number, b = divmod(number, 37)
    return (FIRST[number] + OTHER[b] + OTHER[c] + OTHER[d]).encode()


def package(lead, payload):
    """A package: its opcode, its length in the shortest spelling, what it holds."""
    length = len(payload) + 1
    if length < 64:
        return lead + bytes([length]) + payload
    for more in (1, 2, 3):
        length = len(payload) + 1 + more
        if length < 1 << (4 + 8 * more):
            return lead + bytes([more << 6 | length & 15]) + (length >> 4).to_bytes(more, "little") + payload
    raise ValueError("too long")


def bit_count(bits):
    if bits < 64:
        return bytes([bits])
    return bytes([1 << 6 | bits & 15, bits >> 4])


def table(signature, code):
    """A table of revision 2 with this code."""
    head = signature + (36 + len(code)).to_bytes(4, "little") + b"\x02\x00BENCH BENCHING"
    head += (1).to_bytes(4, "little") + b"MADE" + (1).to_bytes(4, "little")
    total = sum(head) + sum(code)
    return head[:9] + bytes([-total % 256]) + head[10:] + code


def name(number, data=b"\x00"):
    return b"\x08" + segment(number) + data


def device(number, items):
    return package(b"\x5B\x82", segment(number) + items)


def filled(size, part):
    """Parts 0, 1, .. as long as they fit into so many bytes, and Names of nothing behind them."""
    parts, length, number = [], 0, 0
    while True:
        it = part(number)
        if length + len(it) > size:
            break
        parts.append(it)
        length += len(it)
        number += 1
    return b"".join(parts)


def names(size):
    """Six bytes an item: 1,024 Names in each Device."""
    inner = b"".join(name(i) for i in range(1024))
    return filled(size, lambda number: device(number, inner))


def fields(size):
    """Devices in one another, 16 deep, each with a region and a Field of eight units."""
    region = b"\x5B\x80REG0\x00\x0A\x00\x0A\x20"
    units = b"".join(segment(1000 + i) + bit_count(4 + i) for i in range(8))
    inner = b""
    for level in range(16):
        inner = device(level, region + package(b"\x5B\x81", b"REG0\x01" + units) + inner)
    return filled(size, lambda number: device(100 + number, inner))


def methods(size):
    """Methods and buffers of 4,000 bytes."""
    code = bytes(i * 7 % 251 for i in range(4000))

    def part(number):
        method = package(b"\x14", segment(2 * number) + b"\x00" + code)
        buffer = package(b"\x11", b"\x0B\xA0\x0F" + code)
        return method + name(2 * number + 1, buffer)

    return filled(size, part)


def scope_of(number, objects):
    """A Device with so many objects of several kinds, about 54 bytes each."""
    items = []
    for i in range(0, objects, 6):
        at = 10 * i
        items.append(name(at, package(b"\x11", b"\x0A\x78" + bytes(120))))
        items.append(package(b"\x14", segment(at + 1) + b"\x01" + b"\x70\x68\x60" * 40 + b"\xA4\x60"))
        items.append(name(at + 2, package(b"\x12", b"\x08" + b"\x0A\x05\x0C\x01\x02\x03\x04\x00" * 4)))
        items.append(b"\x5B\x80" + segment(at + 3) + b"\x00\x0A\x10\x0A\x20")
        units = segment(at + 4) + b"\x08" + segment(at + 5) + b"\x10"
        items.append(package(b"\x5B\x81", segment(at + 3) + b"\x01" + units))
    return device(number, b"".join(items))


def namespace(scopes, objects, first=0):
    return b"".join(scope_of(first + i, objects) for i in range(scopes))


def in_random_order(count):
    numbers = list(range(count))
    random.Random(1).shuffle(numbers)
    return b"".join(map(name, numbers))


def long_field(count):
    units = b"".join(segment(i) + b"\x08" for i in range(count))
    return b"\x5B\x80_REG\x00\x0A\x00\x0A\x20" + package(b"\x5B\x81", b"_REG\x01" + units)


def deep_field(levels, count):
    """A Field so deep, whose region stands at the root."""
    units = b"".join(segment(i) + b"\x08" for i in range(count))
    inner = package(b"\x5B\x81", b"_REG\x01" + units)
    for _ in range(levels):
        inner = device(0, inner)
    return b"\x5B\x80_REG\x00\x0A\x00\x0A\x20" + inner


def firmware():
    """Some 4,200 objects in 68 KB, in the kinds and sizes of a large machine's DSDT."""
    devices = []
    for number in range(200):
        items = [name(1, b"\x0C\x41\xD0\x0A\x03"), name(2, b"\x0A" + bytes([number]))]
        items.append(name(3, package(b"\x11", b"\x0A\x1C" + bytes(28))))
        items.append(b"\x5B\x80REG0\x00\x0A\x10\x0A\x20")
        units = b"".join(segment(100 + i) + b"\x08" for i in range(8))
        items.append(package(b"\x5B\x81", b"REG0\x01" + units))
        items.append(b"\x5B\x01MUT0\x00")
        for i in range(6):
            items.append(package(b"\x14", segment(200 + i) + b"\x01" + b"\x70\x68\x60" * 8 + b"\xA4\x60"))
        items.append(name(4, package(b"\x12", b"\x04" + b"\x0A\x05\x00\x01\xFF")))
        devices.append(device(number, b"".join(items)))
    return package(b"\x10", b"\\_SB_" + b"".join(devices))


def listed_device(number):
    """A Device with five Names and a Method."""
    items = [name(1, b"\x0C\x41\xD0\x0A\x03"), name(2, b"\x0A" + bytes([number])), name(3, b"\x0C" + bytes(4))]
    items.append(name(4, package(b"\x12", b"\x02\x0A\x05\x0A\x04")))
    items.append(name(5, b"\x0D" + b"a device on its bridge" + b"\x00"))
    items.append(package(b"\x14", segment(200) + b"\x01" + b"\x70\x68\x60" * 10 + b"\xA4\x60"))
    return device(100 + number, b"".join(items))


def nested():
    """Some 4,200 objects in 68 KB up to twenty levels deep: bridges in one another, each with devices before and behind the next."""
    inner = b""
    for level in range(17):
        before = b"".join(map(listed_device, range(18)))
        behind = b"".join(map(listed_device, range(18, 35)))
        inner = device(level, before + inner + behind)
    return package(b"\x10", b"\\_SB_" + inner)


def main():
    folder = sys.argv[1]
    os.makedirs(folder, exist_ok=True)

    def write(file, code, signature=b"DSDT", refused=False):
        with open(os.path.join(folder, file), "wb") as handle:
            handle.write(table(signature, (REFUSED if refused else b"") + code))

    for kind in (names, fields, methods):
        for label, size in (("64K", 1 << 16), ("1M", 1 << 20), ("16M", (1 << 24) - 36 - 3)):
            code = kind(size - 36)
            write(f"{kind.__name__}-{label}.aml", code)
            write(f"{kind.__name__}-{label}-read.aml", code, refused=True)
    write("scopes-64K.aml", namespace(8, 150))
    write("scopes-16M.aml", namespace(2000, 150))
    write("many-dsdt.aml", namespace(32, 150))
    for i in range(64):
        write(f"many-ssdt-{i:02}.aml", namespace(8, 150, 100 + 8 * i), b"SSDT")
    for i in range(256):
        write(f"small-ssdt-{i:03}.aml", scope_of(100 + i, 75), b"SSDT")
    for count in (10_000, 100_000, 1_000_000):
        write(f"one-scope-{count}.aml", in_random_order(count))
    for count in (1_000, 10_000, 100_000):
        write(f"field-{count}.aml", long_field(count))
    for count in (100, 1_000, 10_000):
        write(f"deep-{count}.aml", deep_field(1000, count))
    write("firmware.aml", firmware())
    write("nested.aml", nested())
    write("empty.aml", b"")
    for file in sorted(os.listdir(folder)):
        print(file, os.path.getsize(os.path.join(folder, file)))


if __name__ == "__main__":
    main()
