#!/usr/bin/env python3
"""How far document 01's power P(q, n / 2^32) is from the true one: the worst relative distance over many pairs, against a reference of 256 bits.

    python3 scripts/power_accuracy.py [PAIRS]      (default 120000)

P is computed by scripts/powers.py, by integers alone. The reference is mpmath where it can be imported, else decimal.
"""
import random
import sys

from powers import power, value

try:
    import mpmath

    mpmath.mp.prec = 256

    def distance(bits, n, got):
        """|P / q^f - 1|"""
        q, p = value(bits), value(got)
        true = mpmath.power(mpmath.mpf(q.numerator) / q.denominator, mpmath.mpf(n) / (1 << 32))
        return float(abs(mpmath.mpf(p.numerator) / p.denominator / true - 1))

    NAME = "mpmath %s" % mpmath.__version__
except ImportError:
    import decimal

    decimal.getcontext().prec = 80

    def distance(bits, n, got):
        """|P / q^f - 1|"""
        q, p = value(bits), value(got)
        base = decimal.Decimal(q.numerator) / decimal.Decimal(q.denominator)
        true = (base.ln() * decimal.Decimal(n) / decimal.Decimal(1 << 32)).exp()
        return float(abs(decimal.Decimal(p.numerator) / decimal.Decimal(p.denominator) / true - 1))

    NAME = "decimal"


def pairs(count):
    """Normal q of every size and near 1, the least and the largest; n of every size, few bits and all bits."""
    rng = random.Random(1)
    for i in range(count):
        kind = i % 4
        if kind == 0:
            q = rng.randrange(8388608, 2139095040)
        elif kind == 1:
            q = rng.randrange(1006632960, 1140850688)
        elif kind == 2:
            q = rng.choice([8388608, 8388609, 1065353215, 1065353217, 1073741823, 1073741824, 2139095039]) if i % 8 == 2 else (rng.randrange(1, 255) << 23) + rng.choice([0, 1, 0x7FFFFF])
        else:
            q = (rng.randrange(1, 255) << 23) + 0x7FFFFF - rng.randrange(64)
        shape = (i // 4) % 4
        if shape == 0:
            n = rng.randrange(1 << 32)
        elif shape == 1:
            n = (1 << 32) - 1 - rng.randrange(64)
        elif shape == 2:
            n = rng.randrange(1 << rng.randrange(1, 33))
        else:
            n = rng.randrange(1 << 24) << 8
        yield q, n


def main():
    count = int(sys.argv[1]) if len(sys.argv) > 1 else 120000
    worst = (-1.0, 0, 0)
    for q, n in pairs(count):
        d = distance(q, n, power(q, n))
        if d > worst[0]:
            worst = (d, q, n)
    print("pairs=%d reference=%s" % (count, NAME))
    print("worst=%.4g q=%d n=%d" % worst)
    print("parts in 1,000,000: %.4f" % (worst[0] * 1e6))
    if worst[0] > 1e-6:
        sys.exit("over one part in 1,000,000")


if __name__ == "__main__":
    main()
