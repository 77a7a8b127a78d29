"""What the scripts that make the cases of a program share: the vectors, and the program's input beside what it must write."""
import os
import struct

ROOT = os.path.join(os.path.dirname(os.path.abspath(__file__)), "..")
VECTORS = os.path.join(ROOT, "tests", "vectors")
ARENA = 394752
# the width and height of each kind
SIDES = [(8, 8)] * 4 + [(16, 16), (32, 32), (16, 8), (32, 8), (32, 16), (8, 8), (8, 8), (64, 64), (64, 32)]
SIDES += [(128, 128), (128, 64), (256, 256), (256, 128)]
AREAS = [width * height for width, height in SIDES]


def load(name):
    """A vector's lines, the value by its key."""
    with open(os.path.join(VECTORS, name + ".vec")) as f:
        return dict(line.rstrip("\n").split("=", 1) for line in f)


def vectors():
    """All vectors, each with its name."""
    for name in sorted(os.listdir(VECTORS)):
        name = name.rsplit(".", 1)[0]
        yield name, load(name)


def write(crate, cases, case):
    """The program's stdin (how many cases there are, where each begins, and each one's bytes, which `case` makes of the vector, its
    name and where it begins) and stdout (the name of each, and what it must write: bytes)."""
    at = 4 + 4 * len(cases)
    begins, parts, out = [], [], b""
    for name, v, lines in cases:
        begins.append(at)
        parts.append(case(v, name, at))
        at += len(parts[-1])
        out += name.encode() + b"\n" + lines
    assert at <= 65536
    with open(os.path.join(ROOT, "crates", crate, "stdin"), "wb") as f:
        f.write(struct.pack("<%dI" % (1 + len(begins)), len(begins), *begins) + b"".join(parts))
    with open(os.path.join(ROOT, "crates", crate, "stdout"), "wb") as f:
        f.write(out)
