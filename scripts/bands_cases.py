#!/usr/bin/env python3
"""Prints what crates/bands_cases prints, by Python's integers and fractions alone: band lists over grids, mode 5's interpolated numbers,
and roots and powers (scripts/powers.py).

    python3 scripts/bands_cases.py > crates/bands_cases/stdout
"""
from fractions import Fraction

from powers import NAN, lines, power, root, rounded, value

GRIDS = {(4, 4), (8, 4), (8, 8), (16, 16), (32, 32), (16, 8), (32, 8), (32, 16), (64, 64), (64, 32), (128, 128), (128, 64), (256, 256), (256, 128)}
FREQS = "0.0 0.0 0.8517779 5.3777843 0.0 0.0 4.734748 5.4492455 1.659827 4.0 7.275749 10.423227 2.6629324 7.6306577 8.962389 12.971662"


def f32(v):
    """The float nearest to a fraction, as a fraction."""
    return -value(rounded(-v)) if v < 0 else value(rounded(v))


def bits(v):
    """The bits of a float that is given as a fraction, or of a NaN that is given as None."""
    if v is None:
        return NAN
    return 0x80000000 + rounded(-v) if v < 0 else rounded(v)


def floats(text):
    return [f32(Fraction(word)) for word in text.split()]


def mult(x):
    return f32(1 + x) if x > 0 else f32(1 / f32(1 - x))


def bands_of(numbers):
    bands = [numbers[0]]
    for x in numbers[1:]:
        bands.append(f32(bands[-1] * mult(x)))
    return bands


def between(bands, position):
    """a x P(b / a, f), None where a is zero."""
    i = position.numerator // position.denominator
    n = f32(position - i) * 2 ** 32
    assert n.denominator == 1 and n < 2 ** 32 and i + 1 < len(bands)
    a, b = bands[i], bands[i + 1]
    if a == 0:
        return None
    return f32(a * value(power(rounded(f32(b / a)), int(n))))


REACH = f32(value(root(rounded(Fraction(2)))) + f32(Fraction(1, 1000000)))


def weight(bands, w, h, y, x):
    if len(bands) == 1:
        return bands[0]
    dx, dy = f32(Fraction(x, w - 1)), f32(Fraction(y, h - 1))
    distance = value(root(rounded(f32(f32(dx * dx) + f32(dy * dy)))))
    return between(bands, f32(f32(distance * (len(bands) - 1)) / REACH))


def called(numbers, count, w, h, size):
    """The reply, and what the output of 7s holds then. No list here has an infinite band."""
    if not (1 <= count <= 16 and len(numbers) == 3 * count and (w, h) in GRIDS and size == 3 * w * h):
        return [1], [bits(Fraction(7))] * size
    lists = [bands_of(numbers[c * count:(c + 1) * count]) for c in range(3)]
    for c in range(3):
        for i in range(1, count):
            if lists[c][i] <= 0:
                return [7, c, i], [0] * size
    return [0], [bits(weight(bands, w, h, y, x)) for bands in lists for y in range(h) for x in range(w)]


def call(text, count, w, h, size):
    reply, out = called(floats(text), count, w, h, size)
    print("reply", *reply)
    print("weights", *out)


def freqs(text):
    p, table = floats(text), floats(FREQS)
    reach = f32(f32(table[15] - table[2]) + f32(Fraction(1, 1000000)))
    out = []
    for c in range(3):
        for k in range(16):
            if k in (0, 1, 4, 5):
                out.append(0)
            else:
                out.append(bits(between(bands_of(p[c * 4:c * 4 + 4]), f32(f32(f32(table[k] - table[2]) * 3) / reach))))
    print("freqs", *out)


def main():
    d = "3150.0 0.0 -0.4 -0.4 -0.4 -2.0 560.0 0.0 -0.3 -0.3 -0.3 -0.3 512.0 -2.0 -1.0 0.0 -1.0 -2.0"
    call(d, 6, 8, 8, 192)
    call(d, 6, 4, 4, 48)
    call(d, 6, 8, 4, 96)
    call(d, 6, 32, 8, 768)
    call(d, 6, 4, 8, 96)
    call(d, 5, 8, 8, 192)
    call("1.5 2.5 3.5", 1, 4, 4, 48)
    call("1 1 0 1 1 1", 2, 4, 4, 48)
    call("1 1 2 3 1 3 1 1 3", 3, 16, 8, 384)
    freqs("414 0 0 0 22 -0.25 -0.25 -0.25 -22 3.25 -0.75 65504")
    freqs("0 3.25 -0.75 65504 58 0 0 0 1 1 2 3")
    lines()


if __name__ == "__main__":
    main()
