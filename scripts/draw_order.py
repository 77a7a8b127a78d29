#!/usr/bin/env python3
"""Draws why order matters: one matrix that is not square, straight and transposed, as the product's lookup shows them.
Reads what `cargo run --example order KIND CHANNEL` prints (bindings/rust) on standard input, writes SVG to standard output."""
import math
import struct
import sys

CELL, GAP, TOP, LEFT = 22, 70, 64, 24
INK, KEY = "#222", "#c0392b"


def value(word):
    return struct.unpack(">f", bytes.fromhex(word))[0]


def shade(weight, least, most):
    """Small weights light, large ones dark, by their logarithm."""
    t = (math.log(weight) - math.log(least)) / (math.log(most) - math.log(least))
    return "#%02x%02x%02x" % tuple(round(a + (b - a) * t) for a, b in ((238, 26), (244, 82), (250, 118)))


def text(x, y, words, colour=INK, size=13):
    return f'<text x="{x}" y="{y}" font-family="sans-serif" font-size="{size}" fill="{colour}">{words}</text>'


def grid(words, width, height, left, least, most):
    """A part of width x height weights, its first row framed: the key that an importer cuts."""
    for i, word in enumerate(words):
        x, y = left + i % width * CELL, TOP + i // width * CELL
        yield f'<rect x="{x}" y="{y}" width="{CELL}" height="{CELL}" fill="{shade(value(word), least, most)}" stroke="#fff" stroke-width="0.5"/>'
    yield f'<rect x="{left}" y="{TOP}" width="{width * CELL}" height="{CELL}" fill="none" stroke="{KEY}" stroke-width="2.5"/>'


def main():
    head, straight, transposed, unnamed = (line.split() for line in sys.stdin)
    kind, channel, width, height = map(int, head)
    named = {tuple(straight): "straight", tuple(transposed): "transposed"}[tuple(unnamed)]
    weights = [value(w) for w in straight]
    least, most = min(weights), max(weights)
    right = LEFT + width * CELL + GAP
    tall = TOP + max(width, height) * CELL + 98
    wide = max(right + height * CELL + LEFT, 560)
    out = [f'<svg xmlns="http://www.w3.org/2000/svg" width="{wide}" height="{tall}" viewBox="0 0 {wide} {tall}">',
           f'<rect width="{wide}" height="{tall}" fill="#fff"/>',
           text(LEFT, 24, f"Kind {kind} of the default set, channel {channel}: the same {width * height} weights, shown in two orders", size=14),
           text(LEFT, TOP - 10, f"straight: {width} wide, {height} high"),
           text(right, TOP - 10, f"transposed: {height} wide, {width} high")]
    out += grid(straight, width, height, LEFT, least, most)
    out += grid(transposed, height, width, right, least, most)
    low = TOP + max(width, height) * CELL + 24
    out += [text(LEFT, low, "a key cut from the first row:", KEY),
            text(LEFT, low + 20, "straight " + " ".join(straight[:5]) + " ..", size=12),
            text(LEFT, low + 38, "transposed " + " ".join(transposed[:5]) + " ..", size=12),
            text(LEFT, low + 60, f"A lookup that names no order shows the {named} matrix."),
            "</svg>"]
    print("\n".join(out))


if __name__ == "__main__":
    main()
