#!/usr/bin/env python3
"""Makes the small header that `readheader` is shown on (crates/readheader/stdin) and what the program must write of it
(crates/readheader/stdout), both from the same list of fields: flag 0, kind 0 with mode 6 and two bands a channel, and 16
default kinds. Nothing of ours is run here."""
import os
import struct

CRATE = os.path.join(os.path.dirname(os.path.abspath(__file__)), "..", "crates", "readheader")
BANDS = [(49.0, -0.5), (8.75, -0.25), (8.0, -1.0)]


def half(x):
    return struct.unpack("<H", struct.pack("<e", x))[0]


def main():
    numbers = [half(x) for channel in BANDS for x in channel]
    fields = [(0, 1), (6, 3), (len(BANDS[0]) - 1, 4)] + [(n, 16) for n in numbers] + [(0, 3)] * 16
    bits = [value >> i & 1 for value, width in fields for i in range(width)]
    padded = bits + [0] * (-len(bits) % 8)
    with open(os.path.join(CRATE, "stdin"), "wb") as f:
        f.write(bytes(sum(b << i for i, b in enumerate(padded[at:at + 8])) for at in range(0, len(padded), 8)))
    rows = [[6, len(BANDS[0]), 0] + numbers] + [[0]] * 16
    with open(os.path.join(CRATE, "stdout"), "w") as f:
        f.write("reply=0 %d\n" % len(bits))
        for kind, row in enumerate(rows):
            f.write("row.%d=%s\n" % (kind, ",".join("%x" % n for n in row)))


main()
