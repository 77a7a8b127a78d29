#!/usr/bin/env python3
"""Makes crates/set_cases/stdin and crates/set_cases/stdout from the vectors of tests/vectors with call=expand, expand_kind, lookup, jpeg,
importer or matrixlist, and from a few runs of documents 01 and 02. A vector with reply_len, or with the number of no order, is for the
C face alone; one that has only the digest of what a program lists is for scripts/listings.py.

A vector is a text file of key=value lines: row.K (the rows, each without the zeros at its end), samples (none, const:V or
lin:A,B,M: sample p is A + p*B mod M; behind it P=V for each sample that stands apart), kind, channel, order, rows_len,
samples_len, straight_len and transposed_len where they aren't the right ones, header (hex), and what the call must give. What the vectors want
goes to stdout: the reply; of an arena whether it is unchanged or zero, or else the total and the weights at the places that the
vector lists; of a part its length, its first and last, and its total, or its values, once they have the digest that the vector
wants, or where it says the part by its place and length, those. Nothing of ours is run here."""
import array
import hashlib
import struct

from cases import ARENA, AREAS, load, vectors, write

CALLS = {"expand": 0, "lookup": 1, "jpeg": 2, "expand_kind": 3, "importer": 4, "matrixlist": 5}
ORDERS = {"none": 0, "straight": 1, "transposed": 2, "0": 0, "1": 1, "2": 2}


def rule(text):
    """base, step, modulus, and those apart: a place and a value each"""
    if text == "none":
        return 0, 0, 0, []
    head, *apart = text.split(";")
    numbers = [int(x) for x in head.split(":")[1].split(",")]
    return *(numbers + [0, 0])[:3], [tuple(map(int, x.split("="))) for x in apart]


def samples(text, n):
    base, step, modulus, apart = rule(text)
    assert not apart
    return [base + (p * step % modulus if modulus else 0) for p in range(n)]


def bits(x):
    return struct.unpack("<I", struct.pack("<f", x))[0]


def arena(v, name):
    want = v["want." + name]
    if want in ("unchanged", "zero"):
        return "%s=%s" % (name, want)
    return "%s=%s,%s" % (name, v["want.%s.total64" % name], v["want.%s.at" % name])


def total(weights):
    """sum of bits x (place + 1), by 2^64"""
    return sum(w * (p + 1) for p, w in enumerate(weights)) % 2**64


def part_of_arena(v):
    kind, channel = int(v["kind"]), int(v["channel"])
    if v.get("want.part") == "empty" or v.get("want.reply") == "1":
        return "part=0"
    arena = 0 if ORDERS[v["order"]] == 1 else 1
    start = sum(3 * a for a in AREAS[:kind]) + channel * AREAS[kind]
    # document 02's vectors say the arena, the first place and the length
    assert v.get("want.reply", "") in ("", "0 %d %d %d" % (arena, start, AREAS[kind]))
    part = range(0x40000000 * arena + start, 0x40000000 * arena + start + AREAS[kind])
    digest = hashlib.sha256(array.array("I", part).tobytes()).hexdigest()
    assert v.get("want.part", "") in ("", "%d %s first %x last %x" % (len(part), digest, part[0], part[-1]))
    # the program's arenas count up from 0 and from 2^20, as numbers
    shown = [bits(x - 0x40000000 + 0x100000 if x >= 0x40000000 else x) for x in part]
    return "part=%d %08x %08x %d" % (len(part), shown[0], shown[-1], total(shown))


def values(v):
    if v.get("want.part") == "empty":
        return "part="
    # document 02's vectors have no part: the reply's values are its first place and its length
    first, length = 64 * int(v["channel"]), 64
    if "want.part" not in v:
        first, length = [int(x) for x in v["want.reply"].split()[1:]] or (0, 0)
    part = samples(v["samples"], ARENA)[first:first + length]
    assert v.get("want.part", "") in ("", "64 %s" % hashlib.sha256(array.array("i", part).tobytes()).hexdigest())
    return "part=" + ",".join("%08x" % bits(x) for x in part)


def wanted(v):
    if v["call"] in ("expand", "expand_kind"):
        return ["reply=" + v["want.reply"], arena(v, "straight"), arena(v, "transposed")]
    if v["call"] == "lookup":
        return [part_of_arena(v)]
    if v["call"] == "jpeg":
        return ["reply=" + v["want.reply"].split()[0], values(v)]
    return bytes.fromhex(v["want.text"]).decode().splitlines()


def lengths(v):
    """how long the samples, the rows and an arena are where the vector does not say"""
    kind = int(v.get("kind", 0))
    if v["call"] != "expand_kind":
        return ARENA, 2176, ARENA
    n = 3 * AREAS[kind] if kind < 17 else 192
    return n, 128, n


def case(v, name, at):
    """the words of a case that begins at a byte, then its places, its rows, the samples apart, its header and its name"""
    places = [int(x.split(":")[0]) for x in v.get("want.straight.at", "").split(",") if x]
    assert places == [int(x.split(":")[0]) for x in v.get("want.transposed.at", "").split(",") if x]
    rows = []
    for k in range(18):
        for i, x in enumerate(v.get("row.%d" % k, "").split(",")):
            if x and int(x, 16):
                rows.append((i if v["call"] == "expand_kind" else 128 * k + i) << 16 | int(x, 16))
    given = v.get("samples", "none")
    base, step, modulus, apart = rule(given)
    apart = [x % 2**32 for pair in apart for x in pair]
    whole, numbers, weights = lengths(v)
    header = bytes.fromhex(v.get("header", ""))
    words = 21
    places_at = at + 4 * words
    rows_at = places_at + 4 * len(places)
    apart_at = rows_at + 4 * len(rows)
    header_at = apart_at + 4 * len(apart)
    name_at = header_at + len(header)
    head = [
        name_at, len(name), CALLS[v["call"]], int(v.get("samples_len", 0 if given == "none" else whole)), base % 2**32, step, modulus,
        int(v.get("kind", 0)), int(v.get("channel", 0)), ORDERS[v.get("order", "none")], places_at, len(places), rows_at, len(rows),
        int(v.get("rows_len", numbers)), int(v.get("straight_len", weights)), int(v.get("transposed_len", weights)), apart_at, len(apart),
        header_at, len(header),
    ]
    assert len(head) == words
    return struct.pack("<%dI" % len(head + places + rows + apart), *(head + places + rows + apart)) + header + name.encode()


def everywhere(v, places, weight, sum_of_all):
    """a vector of one kind that wants the same weight at all of these places, straight and transposed"""
    at = ",".join("%d:%08x" % (p, bits(weight)) for p in places)
    for name in ("straight", "transposed"):
        v = {**v, "want." + name: "", "want.%s.at" % name: at, "want.%s.total64" % name: str(sum_of_all)}
    return v


def denom(kind, v):
    """a vector that wants DENOM with this kind"""
    return {**v, "want.reply": "12 %d" % kind, "want.straight": "unchanged", "want.transposed": "unchanged"}


def runs():
    """document 01's: default kind 3, channel 0 is 1/2200 everywhere (its total is a vector's). Document 02's: denominators bc00, with
    samples -5 that cancel its sign, 8000 and 0000 are DENOM; so is kind 16's, behind a band of kind 0 that is refused where 16 is not"""
    three = load("kind-003")
    assert three["kind"] == "3" and three["row.3"] == "0" and three["want.straight.total64"] == three["want.transposed.total64"]
    yield "channel", everywhere(three, range(64), 1 / 2200, three["want.straight.total64"])
    for name, denominator in ("negative", "bc00"), ("minus-zero", "8000"), ("zero", "0000"):
        yield name, denom(0, {"call": "expand_kind", "kind": "0", "row.0": "7,0,0," + denominator, "samples": "const:-5"})
    band = {"call": "expand", "row.0": "6,2,0,3c00,3c00,0,3c00,3c00,3c00", "samples": "const:5"}
    yield "before-band", denom(16, {**band, "row.16": "7,0,0,bc00"})
    yield "band", {**band, "row.16": "7,0,0,3c00", "want.reply": "7 0 1 1", "want.straight": "zero", "want.transposed": "zero"}


def for_the_library(v):
    """whether the program can make the vector's call, and what it wants of a text is the text and not its digest alone"""
    can_ask = v["call"] in CALLS and "reply_len" not in v and v.get("order", "none") in ORDERS
    return can_ask and ("want.text" in v or "want.text.sha256" not in v)


def main():
    cases = [(name, v) for name, v in vectors() if for_the_library(v)] + list(runs())
    write("set_cases", [(name, v, "".join(line + "\n" for line in wanted(v)).encode()) for name, v in cases], case)


main()
