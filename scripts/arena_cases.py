#!/usr/bin/env python3
"""Makes crates/arena_cases/stdin and crates/arena_cases/stdout from the vectors of tests/vectors with call=total, replace or short, and from a
few runs of our own. A vector with reply_len, or with a state of another number of bytes, is for the C face alone: examples/c/calls.c and
bindings/rust/tests/short.rs have them.

A vector is a text file of key=value lines: arena and weights (mix:SEED or const:BITS, behind it P=BITS for each place that stands apart),
arena_len and weights_len where they aren't the right ones, first, count, total and kind, and what the call must give; of a short arena its
state and calls one after another (`add KIND RULE [LENGTH]`, `lookup KIND`, `drop KIND`), and what each must give. What the vectors
want goes to stdout: the replies, of a lookup also the total of the part that the replies place, the state, and of an arena that may
change whether it is unchanged, or else its total and the weights at the places that the vector lists, once the arena that they are of
has the digest that the vector wants. Nothing of ours is run here."""
import array
import hashlib
import struct

from cases import ARENA, AREAS, vectors, write

CALLS = {"total": 0, "replace": 1, "short": 2}
OPS = {"add": 0, "lookup": 1, "drop": 2}
STATE = 18
NAN = 0x7fc00000


def rule(text):
    """base, step, jump, mask, and those apart: a place and its bits each"""
    head, *apart = text.split(";")
    name, value = head.split(":")
    apart = [(int(p), int(b, 16)) for p, b in (x.split("=") for x in apart)]
    if name == "const":
        return int(value, 16), 0, 0, 0xffffffff, apart
    return (int(value) * 40503 + 12345) % 2**32, 2654435761, 97, 0xff7fffff, apart


def weights(text, n):
    base, step, jump, mask, apart = rule(text)
    all_of = [(base + p * step + p // 128 * jump) & mask for p in range(n)]
    for p, b in apart:
        all_of[p] = b
    return all_of


def total(part, first):
    """the bits of each weight times its place plus 1, by 2^64; a NaN's bits are 7fc00000"""
    return sum((NAN if b % 2**31 > 0x7f800000 else b) * (first + i + 1) for i, b in enumerate(part)) % 2**64


def places(v):
    return [int(x.split(":")[0]) for x in v.get("want.arena.at", "").split(",") if x]


def length(v, name, right):
    return int(v.get(name + "_len", right))


def lengths(v):
    """how many places the arena has, and how many weights there are"""
    kind = int(v.get("kind", 17))
    return length(v, "arena", ARENA), length(v, "weights", 3 * AREAS[kind] if kind < 17 else 192) if "weights" in v else 0


def ops(v):
    """of each call on a short arena: which, the kind, the weights' rule, and how many weights are lent"""
    for op in v["ops"].split("|"):
        which, kind, *given = op.split()
        kind = int(kind)
        right = 3 * AREAS[kind] if kind < 17 else 192
        yield which, kind, given[0] if given else "const:0", int(given[1]) if given[1:] else right if given else 0


def numbers(text):
    return [int(x) for x in text.split(",") if x]


def kept(v):
    """what calls on a short arena must write, and the arena that they leave, by where the replies that the vector wants place the weights"""
    arena = weights(v["arena"], int(v["arena_len"]))
    state = numbers(v["state"])
    held = [(k, 3 * AREAS[k]) for k in state[1:][:state[0]] if k < 17]
    lines = []
    for (which, kind, given, n), reply in zip(ops(v), v["want.replies"].split("|"), strict=True):
        lines.append("reply=" + reply)
        said, *part = map(int, reply.split())
        first, length = part or (0, 0)
        if which == "lookup":
            lines.append("shown=%d" % total(arena[first:first + length], 0))
        if which == "add" and said == 0:
            arena[first:first + length] = weights(given, n)
            held.append((kind, length))
        if which == "drop" and said == 0:
            before = [k for k, _ in held].index(kind)
            at, end = sum(n for _, n in held[:before]), sum(n for _, n in held)
            gone = held.pop(before)[1]
            arena[at:end] = arena[at + gone:end] + [0] * gone
    if v["want.state"] != "unchanged":
        state = numbers(v["want.state"])
        assert state == ([len(held)] + [k for k, _ in held] + [0] * STATE)[:STATE]
    return lines + ["state=" + ",".join(map(str, state))], arena


def after(v):
    """the arena that a replacement which is done leaves"""
    kind = int(v["kind"])
    start = 3 * sum(AREAS[:kind])
    arena = weights(v["arena"], ARENA)
    arena[start:start + 3 * AREAS[kind]] = weights(v["weights"], 3 * AREAS[kind])
    return arena


def wanted(v):
    lines, arena = kept(v) if v["call"] == "short" else (["reply=" + v["want.reply"]], None)
    if v["call"] == "total":
        return lines
    if v["want.arena"] == "unchanged":
        return lines + ["arena=unchanged"]
    arena = arena or after(v)
    if v["want.arena"] == "zero":
        assert not any(arena)
        return lines + ["arena=0"]
    assert hashlib.sha256(array.array("I", arena).tobytes()).hexdigest() == v["want.arena"]
    assert total(arena, 0) == int(v["want.arena.total64"])
    return lines + ["arena=%s,%s" % (v["want.arena.total64"], v["want.arena.at"])]


def two(n):
    return [n % 2**32, n // 2**32]


def op_words(which, kind, given, n):
    """the eight words of a call on a short arena"""
    *by_rule, apart = rule(given)
    assert not apart
    return [OPS[which], *two(kind), n, *by_rule]


def case(v, name, at):
    """the words of a case that begins at a byte, then the weights apart, its places and its name"""
    n, m = lengths(v)
    *arena, arena_apart = rule(v["arena"])
    *given, weights_apart = rule(v.get("weights", "const:0"))
    lists = [[x for pair in apart for x in pair] for apart in (arena_apart, weights_apart)]
    lists += [places(v), numbers(v.get("state", "")), [x for op in (ops(v) if "ops" in v else ()) for x in op_words(*op)]]
    words = 31
    starts = [at + 4 * (words + sum(map(len, lists[:i]))) for i in range(6)]
    listed = [x for pair in zip(starts, map(len, lists)) for x in pair]
    head = [starts[5], len(name), CALLS[v["call"]], n, *arena, *listed[:2], m, *given, *listed[2:6]]
    for key in "first", "count", "total", "kind":
        head += two(int(v.get(key, 0)))
    head += listed[6:]
    assert len(head) == words
    every = head + sum(lists, [])
    return struct.pack("<%dI" % len(every), *every) + name.encode()


def runs():
    """a NaN counts with the bits 7fc00000, whatever its own and wherever it stands: in a stretch, and among old and new weights; and kind
    17, which has no place, is no kind even where no weight is lent for it"""
    arena = "const:0;3=7fffffff;200=ff800001"
    yield "nan-counted", {"call": "total", "arena": arena, "first": "2", "count": "2", "want.reply": "0 %d" % (4 * NAN)}
    v = {"call": "replace", "arena": arena, "total": str((4 + 201) * NAN), "kind": "0", "weights": "const:0;1=7fc00001"}
    left = str((2 + 201) * NAN)
    yield "no-kind", {**v, "kind": "17", "weights_len": "0", "weights": "const:0", "want.reply": "1", "want.arena": "unchanged"}
    v |= {"want.reply": "0 " + left, "want.arena.total64": left, "want.arena.at": "1:7fc00000,3:00000000,200:7fc00000"}
    yield "nan-replaced", {**v, "want.arena": hashlib.sha256(array.array("I", after(v)).tobytes()).hexdigest()}


def main():
    cases = [(name, v) for name, v in vectors() if v["call"] in CALLS and "reply_len" not in v]
    cases = [(name, v) for name, v in cases if v["call"] != "short" or len(numbers(v["state"])) == STATE] + list(runs())
    write("arena_cases", [(name, v, "".join(line + "\n" for line in wanted(v)).encode()) for name, v in cases], case)


main()
