#!/usr/bin/env python3
"""jxl_header.py FILE [--hex | --bytes OUT]: finds the HfGlobal section of a .jxl file and hands out its bytes.

The dequantisation header is what HfGlobal begins with. Prints one line, `bit=B length=N bytes=HEX..` with the bit
at which it starts in the bytes handed out and the first bytes in hex; --hex prints all the bytes in hex; --bytes
writes them to a file. Where the frame has one section for all (a small picture), HfGlobal follows LfGlobal and the LF
groups at a bit that only a decoder can know: the script says so and stops, with status 1.

Field order after ISO/IEC 18181-1 as libjxl 0.7 has it (headers.cc, image_metadata.cc, frame_header.cc, toc.cc).
Says so and stops: ICC profile, preview, permuted TOC, LF frame."""
import struct
import sys


class Stop(Exception):
    pass


class Bits:
    """bits lowest first"""

    def __init__(self, data):
        self.data, self.at = data, 0

    def u(self, n):
        v = 0
        for i in range(n):
            if self.at >= 8 * len(self.data):
                raise Stop("the file ends inside a header")
            v |= (self.data[self.at >> 3] >> (self.at & 7) & 1) << i
            self.at += 1
        return v

    def flag(self):
        return self.u(1) == 1

    def u32(self, *cases):
        bits, add = cases[self.u(2)]
        return add + self.u(bits)

    def u64(self):
        sel = self.u(2)
        if sel < 3:
            return (0, 1, 17)[sel] + self.u((0, 4, 8)[sel])
        v, shift = self.u(12), 12
        while self.flag():
            n = 4 if shift == 60 else 8
            v |= self.u(n) << shift
            shift += n
            if n == 4:
                break
        return v

    def enum(self):
        return self.u32((0, 0), (0, 1), (4, 2), (6, 18))

    def skip(self, n):
        self.at += n

    def to_byte(self):
        self.at = -(-self.at // 8) * 8

    def extensions(self):
        which = self.u64()
        self.skip(sum(self.u64() for _ in range(bin(which).count("1"))))

    def name(self):
        self.skip(8 * self.u32((0, 0), (4, 0), (5, 16), (10, 48)))


SIZE = ((9, 1), (13, 1), (18, 1), (30, 1))
RATIOS = (None, (1, 1), (12, 10), (4, 3), (3, 2), (16, 9), (5, 4), (2, 1))


def size(b):
    small = b.flag()

    def side():
        return 8 * (b.u(5) + 1) if small else b.u32(*SIZE)
    high = side()
    ratio = RATIOS[b.u(3)]
    return (high * ratio[0] // ratio[1] if ratio else side()), high


def depth(b):
    if b.flag():
        b.u32((0, 32), (0, 16), (0, 24), (6, 1))
        b.u(4)
    else:
        b.u32((0, 8), (0, 10), (0, 12), (6, 1))


def animation(b):
    b.u32((0, 100), (0, 1000), (10, 1), (30, 1))
    b.u32((0, 1), (0, 1001), (8, 1), (10, 1))
    b.u32((0, 0), (3, 0), (16, 0), (32, 0))
    return b.flag()


def extra_channel(b):
    if b.flag():
        return
    kind = b.enum()
    depth(b)
    b.u32((0, 0), (0, 3), (0, 4), (3, 1))
    b.name()
    if kind == 0:
        b.flag()
    elif kind == 2:
        b.u(64)
    elif kind == 5:
        b.u32((0, 1), (2, 0), (4, 3), (8, 19))


def colour(b):
    if b.flag():
        return
    icc = b.flag()
    space = b.enum()
    if icc:
        raise Stop("an ICC profile: not handled")
    places = ((19, 0), (19, 524288), (20, 1048576), (21, 2097152))
    if space != 2 and b.enum() == 2:
        for _ in range(2):
            b.u32(*places)
    if space not in (1, 2) and b.enum() == 2:
        for _ in range(6):
            b.u32(*places)
    if space != 2:
        if b.flag():
            b.u(24)
        else:
            b.enum()
    b.enum()


def image(b):
    """the image header: size, number of extra channels, animation, timecodes, XYB"""
    if b.u(16) != 0x0aff:
        raise Stop("no JPEG XL codestream")
    m = {"size": size(b), "extra": 0, "animation": False, "timecodes": False, "xyb": True}
    if not b.flag():
        more = b.flag()
        if more:
            b.u(3)
            if b.flag():
                size(b)
            if b.flag():
                raise Stop("a preview: not handled")
            m["animation"] = b.flag()
            if m["animation"]:
                m["timecodes"] = animation(b)
        depth(b)
        b.flag()
        m["extra"] = b.u32((0, 0), (0, 1), (4, 2), (12, 1))
        for _ in range(m["extra"]):
            extra_channel(b)
        m["xyb"] = b.flag()
        colour(b)
        if more and not b.flag():
            b.skip(16 + 16 + 1 + 16)
        b.extensions()
    if not b.flag():
        if m["xyb"] and not b.flag():
            b.skip(16 * 16)
        which = b.u(3)
        b.skip(16 * sum(n for i, n in enumerate((15, 55, 210)) if which >> i & 1))
    return m


def blending(b, extra, partial):
    mode = b.u32((0, 0), (0, 1), (0, 2), (2, 3))
    if extra and mode in (2, 3):
        b.u32((0, 0), (0, 1), (0, 2), (3, 3))
    if (extra and mode in (2, 3)) or mode == 4:
        b.flag()
    if mode != 0 or partial:
        b.u(2)
    return mode


def passes(b):
    n = b.u32((0, 1), (0, 2), (0, 3), (3, 4))
    if n != 1:
        down = b.u32((0, 0), (0, 1), (0, 2), (1, 3))
        b.skip(2 * (n - 1) + 2 * down)
        for _ in range(down):
            b.u32((0, 0), (0, 1), (0, 2), (3, 0))
    return n


def loop_filter(b, modular):
    if b.flag():
        return
    if b.flag() and b.flag():
        b.skip(6 * 16)
    if b.u(2):
        if not modular and b.flag():
            b.skip(8 * 16)
        if b.flag():
            b.skip(5 * 16)
        if b.flag():
            b.skip((3 if modular else 4) * 16)
        if modular:
            b.skip(16)
    b.extensions()


def crop(b, m, normal):
    """the frame's size and whether it covers less than the picture"""
    if not b.flag():
        return m["size"], False
    sides = ((8, 0), (11, 256), (14, 2304), (30, 18688))
    at = [b.u32(*sides) for _ in range(2)] if normal else [0, 0]
    x, y = (-(v + 1) // 2 if v & 1 else v // 2 for v in at)
    w, h = b.u32(*sides), b.u32(*sides)
    return (w, h), normal and (x > 0 or y > 0 or w + x < m["size"][0] or h + y < m["size"][1])


def frame_header(b, m):
    f = {"modular": False, "passes": 1, "size": m["size"], "shift": 1, "last": True, "up": 1}
    if b.flag():
        return f
    kind = b.u(2)
    normal = kind in (0, 3)
    if kind == 1:
        raise Stop("an LF frame: not handled")
    f["modular"] = b.flag()
    lf = b.u64() & 32
    ycbcr = not m["xyb"] and b.flag()
    if ycbcr and not lf:
        b.skip(6)
    if not lf:
        f["up"] = 1 << b.u(2)
        b.skip(2 * m["extra"])
    if f["modular"]:
        f["shift"] = b.u(2)
    elif m["xyb"]:
        b.skip(6)
    if kind != 2:
        f["passes"] = passes(b)
    f["size"], partial = crop(b, m, normal)
    mode, duration = 0, 0
    if normal:
        mode = [blending(b, m["extra"], partial) for _ in range(1 + m["extra"])][0]
        if m["animation"]:
            duration = b.u32((0, 0), (0, 1), (8, 0), (32, 0))
            if m["timecodes"]:
                b.u(32)
        f["last"] = b.flag()
    f["last"] = f["last"] and kind == 0
    kept = 0 if f["last"] else b.u(2)
    resets = mode == 0 and not partial and normal
    if kind == 2 or (not f["last"] and (duration == 0 or kept != 0) and resets):
        b.flag()
    b.name()
    loop_filter(b, f["modular"])
    b.extensions()
    return f


def frame(b, m):
    """frame header and table of contents: the sections' lengths, and the byte where the first starts"""
    b.to_byte()
    f = frame_header(b, m)
    side = 128 << f["shift"]
    w, h = (-(-s // f["up"]) for s in f["size"])
    groups = -(-w // side) * -(-h // side)
    f["lf"] = -(-w // (8 * side)) * -(-h // (8 * side))
    sections = 1 if groups == f["passes"] == 1 else 2 + f["lf"] + groups * f["passes"]
    if b.flag():
        raise Stop("a permuted table of contents: not handled")
    b.to_byte()
    f["lengths"] = [b.u32((10, 0), (14, 1024), (22, 17408), (30, 4211712)) for _ in range(sections)]
    b.to_byte()
    f["first"] = b.at // 8
    return f


def codestream(data):
    """the codestream: the file itself, or what its boxes jxlc and jxlp hold"""
    if data[:2] == b"\xff\x0a":
        return data
    at, parts = 0, []
    while at + 8 <= len(data):
        n, name = struct.unpack(">I4s", data[at:at + 8])
        head = 8
        if n == 1:
            n, head = int.from_bytes(data[at + 8:at + 16], "big"), 16
        end = len(data) if n == 0 else at + n
        if name == b"jxlc":
            parts.append(data[at + head:end])
        elif name == b"jxlp":
            parts.append(data[at + head + 4:end])
        at = max(end, at + 8)
    return b"".join(parts)


def hf_global(data):
    """the bytes of the HfGlobal section of the first VarDCT frame"""
    stream = codestream(data)
    b = Bits(stream)
    m = image(b)
    while True:
        f = frame(b, m)
        if not f["modular"]:
            break
        b.at = 8 * (f["first"] + sum(f["lengths"]))
        if f["last"] or b.at >= 8 * len(stream):
            raise Stop("no VarDCT frame")
    if len(f["lengths"]) == 1:
        raise Stop("one section for the whole frame: only a decoder knows where HfGlobal starts in it")
    before = 1 + f["lf"]
    start = f["first"] + sum(f["lengths"][:before])
    return stream[start:start + f["lengths"][before]]


def main(args):
    if not args or (len(args) > 1 and args[1] not in ("--hex", "--bytes")):
        sys.exit(__doc__.split(":")[0])
    try:
        with open(args[0], "rb") as f:
            section = hf_global(f.read())
    except Stop as why:
        sys.exit("%s: %s" % (args[0], why))
    if args[1:] == ["--hex"]:
        print(section.hex())
    elif len(args) == 3:
        with open(args[2], "wb") as out:
            out.write(section)
    else:
        print("bit=0 length=%d bytes=%s.." % (len(section), section[:16].hex()))


if __name__ == "__main__":
    main(sys.argv[1:])
