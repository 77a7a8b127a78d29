#!/usr/bin/env python3
"""Document 01's power, correctly rounded roots and whole roots, by Python's integers alone, and the lines that crates/bands_cases prints of
them."""
from fractions import Fraction
from math import isqrt

NAN = 2143289344
INFINITY = 0x7F800000


def value(bits):
    """The value of the bits of a finite float that is not negative."""
    field, digits = bits >> 23, bits & 0x7FFFFF
    if field == 0:
        return Fraction(digits, 1 << 149)
    return Fraction((1 << 23) + digits) * Fraction(2) ** (field - 150)


def rounded(v):
    """The bits of the float nearest to the fraction v >= 0, a tie to the even one."""
    if v == 0:
        return 0
    e = v.numerator.bit_length() - v.denominator.bit_length()
    if Fraction(2) ** e > v:
        e -= 1
    e = max(e, -126)
    unit = Fraction(2) ** (e - 23)
    q = v / unit
    m = q.numerator // q.denominator
    rest = q - m
    if rest > Fraction(1, 2) or (rest == Fraction(1, 2) and m % 2 == 1):
        m += 1
    if m * unit >= Fraction(2) ** 128:
        return INFINITY
    if m < 1 << 23:
        return m
    return ((e + 127) << 23) + m - (1 << 23)


def chain(r):
    """R0 to R32: each next one the whole root of (last x 2^31)."""
    out = [r]
    for _ in range(32):
        out.append(isqrt(out[-1] << 31))
    return out


TOP = chain(1 << 32)


def power(bits, n):
    """P(q, n / 2^32) for the q with these bits, which has none where it is zero, negative, an infinity or a NaN."""
    if not 0 < bits < INFINITY:
        return NAN
    q = value(bits)
    e = q.numerator.bit_length() - q.denominator.bit_length()
    s = q / Fraction(2) ** e
    assert 1 <= s < 2
    roots = chain(int(s * (1 << 31)))
    whole, g = divmod(e * n, 1 << 32)
    y = 1 << 30
    for j in range(1, 33):
        if n >> (32 - j) & 1:
            y = (y * roots[j]) >> 31
    for j in range(1, 33):
        if g >> (32 - j) & 1:
            y = (y * TOP[j]) >> 31
    return rounded(Fraction(y, 1 << 30) * Fraction(2) ** whole)


def root(bits):
    """The root, rounded to the nearest float: the largest float m whose square is at most x, or the next one where the middle's square is below x."""
    if bits in (0, INFINITY):
        return bits
    x = value(bits)
    low, high = 0, INFINITY - 1
    while low < high:
        mid = (low + high + 1) // 2
        if value(mid) ** 2 <= x:
            low = mid
        else:
            high = mid - 1
    middle = (value(low) + value(low + 1)) / 2
    if middle ** 2 < x or (middle ** 2 == x and low % 2 == 1):
        return low + 1
    return low


def step(x):
    return (x * 1664525 + 1013904223) % (1 << 32)


def power_line(b, n):
    print("power", b, n, power(b, n))


def root_line(b):
    print("root", b, root(b))


def whole_line(x):
    print("whole", x, isqrt(x))


def lines():
    x = 1
    for _ in range(200):
        a = step(x)
        x = step(a)
        power_line(8388608 + a % 2130706432, x)
        power_line(1006632960 + a % 134217728, x)
        power_line(a % 8388608, x)
    for b in [1, 2, 3, 4194304, 8388607, 8388608]:
        for n in [0, 1, 2147483648, 4294967295]:
            power_line(b, n)
    for n in [3631985767, 3631985768, 3660811050, 3660811051]:
        power_line(1, n)
    for b, n in [
        (1065353216, 4294967295), (1065353216, 0), (1073741824, 2147483648), (1073741824, 1), (2139095039, 4294967295), (2139095039, 0),
        (2139095040, 4294967295), (0, 5),
    ]:
        power_line(b, n)
    x = 2
    for _ in range(60):
        x = step(x)
        root_line(x % 2139095040)
        root_line(x % 8388608)
    for b in [0, 1, 2, 3, 8388607, 8388608, 1065353216, 1073741824, 1082130432, 2139095039, 2139095040]:
        root_line(b)
    x = 3
    for _ in range(60):
        a = step(x)
        x = step(a)
        whole_line(a * 4294967296 + x)
        whole_line(x)
    for x in [0, 1, 3, 4, 18446744065119617024, 18446744065119617025, 18446744073709551615]:
        whole_line(x)

