#!/usr/bin/env python3
"""matrices.py REFERENCE: makes stdin and stdout of crates/importer and crates/matrixlist.

REFERENCE is a Python file that has document 01's calls on lists of numbers, written from the document and not from this
repository: read_header(header, bit, kind, rows) and expand(rows, samples, straight, transposed), each giving its reply as a
tuple, number first, with the weights as the bits of f32s. `importer` is given byte 01, the all-default set; `matrixlist` a
header with an entry of each mode from 1 to 6."""
import importlib.util
import os
import sys

from cases import ARENA, ROOT, SIDES

ONE, TWO, HALF_LESS = 0x3c00, 0x4000, 0xb800  # 1, 2 and -0.5


def bits_of(fields):
    """fields (count, value), the lowest bit first, as bytes"""
    bits = [value >> i & 1 for count, value in fields for i in range(count)]
    bits += [0] * (-len(bits) % 8)
    return bytes(sum(bits[8 * i + j] << j for j in range(8)) for i in range(len(bits) // 8))


def numbers(values):
    return [(16, v) for v in values]


def bands(count):
    return [(4, count - 1)] + numbers(([TWO] + [HALF_LESS] * (count - 1)) * 3)


def each_mode():
    entries = [
        [(3, 6)] + bands(3), [(3, 1)] + numbers([ONE, TWO, TWO] * 3), [(3, 2)] + numbers([TWO, ONE] * 9),
        [(3, 3)] + numbers([TWO, ONE] * 3) + bands(2),
    ]
    entries += [[(3, 0)]] * 5
    entries += [[(3, 4)] + numbers([TWO] * 3) + bands(4), [(3, 5)] + numbers([ONE] * 5 + [TWO] + [HALF_LESS] * 3 + [TWO] * 18) + bands(2) + bands(16)]
    entries += [[(3, 0)], [(3, 6)] + bands(16)] + [[(3, 0)]] * 3 + [[(3, 6)] + bands(1)]
    return bits_of([(1, 0)] + [field for entry in entries for field in entry])


def parts(reference, header):
    rows, straight, transposed = [0] * 2176, [0] * ARENA, [0] * ARENA
    reply = reference.read_header(header, 0, 0, rows)
    assert reply[0] == 0, reply
    reply = reference.expand(rows, [], straight, transposed)
    assert reply[0] == 0, reply
    at = 0
    for width, height in SIDES:
        for _ in range(3):
            yield width, straight[at:at + width * height]
            at += width * height


def summary(width, part):
    total = sum(w * (p + 1) for p, w in enumerate(part)) % 2**64
    corners = [part[0], part[width - 1], part[-width], part[-1]]
    return "%d %s" % (total, ",".join("%08x" % w for w in corners))


def write(crate, header, lines):
    with open(os.path.join(ROOT, "crates", crate, "stdin"), "wb") as f:
        f.write(header)
    with open(os.path.join(ROOT, "crates", crate, "stdout"), "w") as f:
        f.write("\n".join(lines) + "\n")


def main():
    spec = importlib.util.spec_from_file_location("reference", sys.argv[1])
    reference = importlib.util.module_from_spec(spec)
    spec.loader.exec_module(reference)
    header = bytes([1])
    write("importer", header, [",".join("%08x" % w for w in part[:width]) for width, part in parts(reference, header)])
    header = each_mode()
    write("matrixlist", header, [summary(width, part) for width, part in parts(reference, header)])


main()
