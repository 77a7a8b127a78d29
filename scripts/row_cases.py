#!/usr/bin/env python3
"""Makes crates/row_cases/stdin and crates/row_cases/stdout from the vectors of tests/vectors with call=read, write_record,
read_record, quantlist or readheader (of headers that are refused), and from a set whose kinds are all raw. A vector with reply_len
is for the C face alone.

A vector is a text file of key=value lines: row.K (the rows, each without the zeros at its end), samples (none, const:V or
lin:A,B,M: sample p is A + p*B mod M), samples_len and rows_len where they aren't the right ones, text (the record to read, hex),
header (hex), bit, kind, room (the buffer's length), and what the call must give. What the vectors want goes to stdout: the reply, the
record or that nothing changed, the rows that differ from the fill abcd, and of samples a total. Where a vector has a digest
only, the record or the samples are worked out here and must have that digest. The two cases at the end, a set whose kinds are all
raw written and read back, are worked out here too. Nothing of ours is run here."""
import array
import hashlib
import struct

from cases import ARENA, SIDES, vectors, write

ROWS, BUFFER = 2176, 4500000
FIXED = [0, 9, 18, 6, 3, 27, 0, 1]  # numbers of a mode that stand before its band lists
LISTS = [0, 0, 0, 1, 1, 2, 1, 0]
CALLS = {"write_record": 0, "read_record": 1, "back": 2, "read": 3, "quantlist": 4, "readheader": 5}
FULL = "lin:-2147483648,2654435761,4294967291"


def rule(text):
    """base, step, modulus"""
    if text == "none":
        return 0, 0, 0
    return tuple(([int(x) for x in text.split(":")[1].split(",")] + [0, 0])[:3])


def samples_of(base, step, modulus):
    """wrapping round by 2^32, as the program's; the vectors' rules stay in the range"""
    values = [base + (p * step % modulus if modulus else 0) for p in range(ARENA)]
    return [(x + 2**31) % 2**32 - 2**31 for x in values]


def row_of(v, k):
    row = [int(x, 16) for x in v.get("row.%d" % k, "0").split(",")]
    return row + [0] * (128 - len(row))


def starts():
    at = 0
    for width, height in SIDES:
        yield at, at + 3 * width * height
        at += 3 * width * height


def record(rows, samples):
    """the record of rows and samples, as document 01 has it"""
    if rows[0][126] == 1:
        return b"default=1\n"
    lines = ["default=0"]
    for k, ((width, height), (start, end)) in enumerate(zip(SIDES, starts())):
        row = rows[k]
        mode, counts = row[0], row[1:1 + LISTS[row[0]]]
        numbers = row[3:3 + FIXED[mode] + 3 * sum(counts)]
        lines += ["kind=%d" % k, "mode=%d" % mode, "orders=" + ("one" if width == height else "two")]
        if counts:
            lines.append("bands=" + ",".join("%d" % n for n in counts))
        if numbers:
            lines.append("numbers=" + ",".join("%04x" % n for n in numbers))
        if mode == 7:
            lines.append("samples=" + ",".join("%d" % x for x in samples[start:end]))
    return "".join(line + "\n" for line in lines).encode()


def total(values):
    return sum(x * (p + 1) for p, x in enumerate(values)) % 2**64


def samples_total(samples):
    return "samples=%d" % total([x % 2**32 for x in samples])


def written(v):
    reply = "reply=%s\n" % v["want.reply"]
    if v.get("want.text") == "unchanged":
        return reply.encode() + b"text=unchanged\n"
    text = record([row_of(v, k) for k in range(17)], samples_of(*rule(v["samples"])))
    assert len(text) == int(v["want.text.length"])
    assert hashlib.sha256(text).hexdigest() == v["want.text.sha256"]
    assert v.get("want.text", text.hex()) == text.hex()
    return reply.encode() + text + b"past=unchanged\n"


def taken_samples(v):
    """77 everywhere but in the kinds that the text has samples of"""
    samples, kind, at = [77] * ARENA, 0, list(starts())
    for line in bytes.fromhex(v["text"]).decode().split("\n"):
        name, _, value = line.partition("=")
        if name == "kind":
            kind = int(value)
        if name == "samples":
            part = [int(x) for x in value.split(",")]
            samples[at[kind][0]:at[kind][1]] = part
    assert len(samples) == ARENA
    assert hashlib.sha256(array.array("i", samples).tobytes()).hexdigest() == v["want.samples"]
    return samples


def told(lines):
    return "".join(line + "\n" for line in lines).encode()


def rows_read(v):
    rows = ["row.%d=%s" % (k, v["want.row.%d" % k]) for k in range(17) if "want.row.%d" % k in v]
    return ["reply=" + v["want.reply"]] + (rows or ["rows=unchanged"])


def samples_read(v):
    return "samples=unchanged" if v["want.samples"] == "unchanged" else samples_total(taken_samples(v))


def wanted(v):
    if v["call"] == "write_record":
        return written(v)
    if v["call"] == "read":
        return told(rows_read(v))
    if v["call"] == "read_record":
        return told(rows_read(v) + [samples_read(v)])
    text = bytes.fromhex(v["want.text"])
    assert v["call"] == "quantlist" or text.count(b"\n") == 1
    return text


def runs():
    """a set whose kinds are all raw, with samples all over the range: written, and read back"""
    samples = samples_of(*rule(FULL))
    text = record([[7, 0, 0, 0x1004] + [0] * 124] * 17, samples)
    assert 65536 <= len(text) <= BUFFER
    rows = {"row.%d" % k: "7,0,0,1004" for k in range(17)}
    write = {"call": "write_record", "samples": FULL, "room": BUFFER, **rows}
    yield "full", write, told(["reply=0 %d" % len(text), "text=%d" % total(text), "past=unchanged"])
    yield "back", {"call": "back", "length": len(text)}, told(["reply=0"] + ["%s=%s" % row for row in rows.items()] + [samples_total(samples)])


def case(v, name, at):
    """the words of a case that begins at a byte, then its rows, its text and its name"""
    rows = []
    for k in range(17):
        for i, x in enumerate(row_of(v, k)):
            if x:
                rows.append((128 * k + i) << 16 | x)
    given = v.get("samples", "none")
    whole = 0 if v["call"] == "write_record" and given == "none" else ARENA
    base, step, modulus = rule(given)
    text = bytes.fromhex(v.get("text", v.get("header", "")))
    words = 16
    bit = int(v.get("bit", 0))
    rows_at = at + 4 * words
    text_at = rows_at + 4 * len(rows)
    name_at = text_at + len(text)
    head = [
        name_at, len(name), CALLS[v["call"]], int(v.get("samples_len", whole)), base % 2**32, step, modulus,
        int(v.get("rows_len", ROWS)), rows_at, len(rows), text_at, v.get("length", len(text)), int(v.get("room", 0)),
        bit % 2**32, bit >> 32, int(v.get("kind", 0)),
    ]
    assert len(head) == words
    return struct.pack("<%dI" % len(head + rows), *(head + rows)) + text + name.encode()


def main():
    cases = [(name, v, wanted(v)) for name, v in vectors() if v["call"] in CALLS and "reply_len" not in v]
    write("row_cases", cases + list(runs()), case)


main()
