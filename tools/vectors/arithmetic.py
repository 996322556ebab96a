#!/usr/bin/env python3
"""Writes crates/vectors/data/arithmetic, the test vectors of the fused multiply-add, of `round` and of a double made a single, and what
the program says of it.

    tools/vectors/arithmetic.py [SEED]

How the list is made: every answer is computed here from its meaning, with whole numbers and exact
fractions alone, and never with a float (tools/floats.py). A float is a pattern of bits, which is read
by its fields, and an answer is an exact fraction, rounded once. Half-way cases of `round` are the
whole part of |x| + 1/2. The arguments are chosen below: first cases by hand, then pseudo-random ones
(random.Random(SEED), SEED 1 if none is given; only its getrandbits is used).

lines.py says what all lists share. The words of a line are three arguments, 0 where there are fewer, and the answer:

    F f  fma_f64 fma_f32       x y z r
    R r  round_f64 round_f32   x 0 0 r
    n    narrow                x 0 0 r; x is a double, r a single
"""
from fractions import Fraction

from lines import Lines, below, between, either, seeded

from floats import F32, F64, fma, half_away, narrow

NAMES = {"F": "fma_f64", "f": "fma_f32", "R": "round_f64", "r": "round_f32", "n": "narrow"}

lines = Lines("arithmetic", NAMES)
remark = lines.remark


def add_fma(f, x, y, z):
    lines.add("F" if f is F64 else "f", x, y, z, fma(f, x, y, z))


def add_round(f, x):
    lines.add("R" if f is F64 else "r", x, 0, 0, half_away(f, x))


def add_narrow(x):
    for b in (x, F64.neg(x)):
        lines.add("n", b, 0, 0, narrow(b))


# ---- pseudo-random arguments

def some_digits(bits):
    """A number of exactly so many bits: dense, or with few ones, or with few zeros."""
    top = 1 << (bits - 1)
    kind = below(4)
    if kind == 0:
        few = top
        for _ in range(below(4)):
            few |= 1 << below(bits)
        return few
    if kind == 1:
        many = 2 * top - 1
        for _ in range(below(4)):
            many &= ~(1 << below(bits))
        return many | top
    return top | below(top)


def some_float(f, lowest, highest):
    """A float whose leading bit weighs from 2^lowest to 2^highest; a subnormal one has fewer bits."""
    e = between(lowest, highest)
    bits = min(f.prec, e - f.low + 1)
    b = f.exactly(some_digits(bits), e - bits + 1)
    return f.neg(b) if below(2) else b


# ---- the cases of the fused multiply-add

def fma_specials(f):
    values = [0, f.sign, f.neg(f.one + f.hidden // 2), f.inf, f.neg(f.inf), f.nan]
    for x in values:
        for y in values:
            for z in values:
                add_fma(f, x, y, z)
    add_fma(f, f.inf + 1, f.one, f.one)
    add_fma(f, f.one, f.sign + f.inf + 1, f.inf)
    add_fma(f, f.max, f.max, f.inf)
    add_fma(f, f.max, f.max, f.neg(f.inf))
    for x in (1, f.neg(1)):
        for z in (0, f.sign):
            add_fma(f, x, 1, z)  # a product that is no zero rounds to a zero with its own sign
            add_fma(f, x, f.one, z)


def fma_ties(f):
    p = f.prec
    ulp = 1 - p
    halfs = [f.exactly(1, -1), f.exactly((1 << (p - 1)) + 1, -p), f.exactly((1 << p) - 1, -p - 1)]
    for m in (1 << (p - 1), (1 << (p - 1)) + 1, (1 << p) - 2, (1 << p) - 1):
        for x in halfs:
            for y in (f.one, f.neg(f.one)):
                add_fma(f, x, y, f.exactly(m, 0))
        add_fma(f, f.one, f.neg(halfs[1]), f.exactly(-m, 0))
    # below a power of two, where the step is half as large
    for x in (f.exactly(1, ulp - 2), f.exactly((1 << (p - 1)) + 1, 2 * ulp - 2), f.exactly((1 << p) - 1, 2 * ulp - 3)):
        add_fma(f, x, f.neg(f.one), f.one)
        add_fma(f, x, f.one, f.neg(f.one))
    # a product half-way between two floats, and what decides it far below or not at all
    for m in ((1 << (p - 1)) + 1, (1 << (p - 1)) + 3):
        x = f.exactly(m, 0)
        three = f.exactly(3, 0)
        for z in (0, 1, f.neg(1), f.least, f.neg(f.least), f.exactly(1, -1), f.exactly(-1, -1), f.neg(f.one)):
            add_fma(f, x, three, z)
        add_fma(f, f.neg(x), three, 1)
        add_fma(f, x, f.neg(three), f.neg(1))


def fma_cancelling(f):
    p = f.prec
    step = p // 2
    x = f.exactly((1 << step) + 1, -step)  # (1 + 2^-12)^2 - 1 = 2^-11 + 2^-24 for an f32
    add_fma(f, x, x, f.neg(f.one))
    add_fma(f, x, f.neg(x), f.one)
    for a, b in ((3, 5), (1, 1), ((1 << step) - 1, (1 << step) - 1)):
        for s in (1, -1):
            add_fma(f, f.exactly(s * a, 0), f.exactly(b, 0), f.exactly(-s * a * b, 0))
            add_fma(f, f.exactly(s * a, 0), f.exactly(b, 0), f.exactly(-s * a * b, 0) + 1)
            add_fma(f, f.exactly(s * a, 0), f.exactly(b, 0), f.exactly(-s * a * b, 0) - 1)
    add_fma(f, f.max, f.one, f.neg(f.max))
    add_fma(f, 1, f.one, f.neg(1))
    add_fma(f, f.least, f.one, f.neg(f.least - 1))
    odd = f.exactly((1 << p) - 1, -p)
    near = f.rounded(False, f.size(odd) * f.size(odd))
    for z in (near - 1, near, near + 1):
        add_fma(f, odd, odd, f.neg(z))
        add_fma(f, odd, f.neg(odd), z)


def fma_far(f):
    """What is added lies far below, down to the other end of the exponents."""
    tiny = [1, f.neg(1), f.least, f.neg(f.least - 1)]
    for z in tiny:
        add_fma(f, f.max, f.one, z)
        add_fma(f, f.one, f.neg(f.one), z)
        add_fma(f, f.exactly(1, f.bias), f.exactly(1, 0), z)
    for x in tiny:
        for z in (f.max, f.one, f.least, f.least - 1, 1, 2, f.neg(3), f.exactly(1, f.bias)):
            add_fma(f, x, 1, z)
    # a power of two less almost nothing
    add_fma(f, f.one, f.one, f.neg(1))
    add_fma(f, 1, f.neg(1), f.least)


def fma_small(f):
    """Around the smallest floats and the first normal one."""
    p = f.prec
    a = f.low // 2
    x = f.exactly(1, a)
    for k in (-2, -1, 0):  # x * y is 2^k smallest values, or a little more or less
        e = f.low - a + k
        for y in (f.exactly(1, e), f.exactly((1 << (p - 1)) + 1, e - p + 1), f.exactly((1 << p) - 1, e - p)):
            for z in (0, f.sign, 1, f.neg(1), 2, f.neg(2), f.least - 1, f.neg(f.least)):
                add_fma(f, x, y, z)
    three = f.exactly(3, f.low - a - 1)  # one and a half
    for z in (0, f.sign, 1, f.neg(1), f.neg(2), f.least - 1, f.least - 2, f.neg(f.least)):
        add_fma(f, x, three, z)
    for z in (0, 1, f.neg(1)):
        add_fma(f, f.least - 1, f.one + 1, z)
        add_fma(f, f.least, f.one - 1, z)
        add_fma(f, f.least + 1, f.exactly(1, -1), z)


def fma_large(f):
    """On both sides of the threshold of the infinity."""
    p = f.prec
    half = f.exactly(1, f.bias - p)  # half a unit in the last place of the largest
    for z in (half, half - 1, half + 1, f.neg(half)):
        add_fma(f, f.max, f.one, z)
        add_fma(f, f.max, f.neg(f.one), f.neg(z))
        add_fma(f, f.exactly(1, f.bias), f.exactly(2, 0), f.neg(z))  # the product is too large by itself
        add_fma(f, half, f.one, f.max)
    for z in (f.neg(f.max), f.max, f.neg(f.max - 1), f.neg(f.exactly(1, f.bias)), 0, f.neg(1)):
        add_fma(f, f.max, f.exactly(2, 0), z)
        add_fma(f, f.max, f.max, z)
        add_fma(f, f.max, f.one + 1, z)
        add_fma(f, f.exactly(1, f.bias), f.exactly(-2, 0), f.neg(z))


def fma_traps():
    """f32 sums that an f64 holds only rounded, to a tie of the f32: narrowing that would be wrong."""
    f = F32
    found = 0
    m = f.hidden + 1
    while found < 24:
        other = (1 << 46) // m + found % 2  # m * other is just below or just above 2^46
        gap = m * other - (1 << 46)
        if 0 < abs(gap) < 1 << 16 and other < 1 << 24:
            x, y = f.exactly(m, -35), f.exactly(other, -35)  # half a unit of 1, almost
            for z in (f.one + found % 2 * 2, f.one + 1):
                add_fma(f, x, y, z)
                add_fma(f, x, f.neg(y), f.neg(z))
            add_fma(f, x, f.neg(y), f.one + 1)
            found += 1
        m += 1


def fma_random(f, n):
    p = f.prec
    for _ in range(n):  # the exponents of the product and the sum near each other
        ex, ey = between(-40, 40), between(-40, 40)
        ez = ex + ey + between(-p - 4, p + 4)
        add_fma(f, some_float(f, ex, ex), some_float(f, ey, ey), some_float(f, ez, ez))
    for _ in range(n):  # the product's first digits cancelled
        x, y = some_float(f, -30, 30), some_float(f, -30, 30)
        near = fma(f, f.neg(x), y, 0)
        add_fma(f, x, y, near + either(0, 0, 1, -1, 2, -2))
    for _ in range(n // 2):  # results that are subnormal, or just not
        ex = between(f.low // 2 - 40, f.low // 2 + 40)
        ey = f.low - ex + between(-3, p + 2)
        ez = f.low + between(0, p + 2)
        add_fma(f, some_float(f, ex, ex), some_float(f, ey, ey), some_float(f, ez, ez))
    for _ in range(n // 4):  # subnormal arguments
        add_fma(f, 1 + below(f.least), some_float(f, -2, f.bias), some_float(f, f.low, f.low + 2 * p))
    for _ in range(n // 4):  # results near the infinity
        ex = between(f.bias // 2, f.bias - 1)
        add_fma(f, some_float(f, ex, ex), some_float(f, f.bias - ex - 1, f.bias - ex + 1), some_float(f, f.bias - 3, f.bias))
    for _ in range(n // 4):  # any patterns
        add_fma(f, below(2 * f.sign), below(2 * f.sign), below(2 * f.sign))
    for _ in range(n // 4):  # any exponents that leave the product in range
        ex = between(f.low, f.bias)
        ey = between(max(f.low, f.low - ex), min(f.bias, f.bias - ex))
        add_fma(f, some_float(f, ex, ex), some_float(f, ey, ey), some_float(f, f.low, f.bias))


# ---- the cases of round

def round_cases(f, n):
    p = f.prec
    half = f.exactly(1, -1)
    whole = f.exactly(1, p - 1)  # from here on every float is a whole number
    values = [0, 1, f.least - 1, f.least, f.exactly(1, -2), half - 1, half, half + 1, f.one - 1, f.one, f.one + 1,
              f.exactly(3, -1) - 1, f.exactly(3, -1), f.exactly(3, -1) + 1, f.exactly(5, -1), f.exactly(5, -1) - 1, f.exactly(7, -1),
              f.rounded(False, Fraction(1, 5)), f.exactly((1 << (p - 1)) - 1, -1), f.exactly((1 << (p - 1)) + 1, -1),
              f.exactly((1 << p) - 1, -1), f.exactly((1 << p) - 3, -1), whole // 2, whole - 2, whole - 1, whole, whole + 1, whole + 2,
              2 * (whole // 2) + f.hidden, f.exactly(1, p) - 1, f.exactly(1, p), f.exactly(1, p) + 1, f.exactly(1, 63), f.exactly(1, 64), f.max, f.inf, f.nan]
    for x in values:
        add_round(f, x)
        add_round(f, f.neg(x))
    for _ in range(n):
        add_round(f, some_float(f, -3, p + 2))
    for _ in range(n // 2):  # a number and a half, and the floats beside it
        bits = between(2, p)
        x = f.exactly(some_digits(bits) | 1, -1) + either(0, 1, -1)
        add_round(f, f.neg(x) if below(2) else x)
    for _ in range(n // 4):
        add_round(f, below(2 * f.sign))


# ---- the cases of a double made a single

def narrow_cases(n):
    for x in (0, 1, F64.least, F64.one, F64.max, F64.inf, F64.nan, F64.inf + 1):
        add_narrow(x)
    # half-way between two singles, or beside that: the smallest, subnormal ones, normal ones, the last and the infinity
    for m, e in ((1, -150), (3, -150), (F32.hidden - 1, -150), (2 * F32.hidden - 1, -150), (2 * F32.hidden + 1, -150),
                 (2 * F32.hidden + 1, -24), (2 * F32.hidden + 3, -24), (4 * F32.hidden - 1, -24), (4 * F32.hidden - 1, 103)):
        tie = F64.exactly(m, e)
        for x in (tie - 1, tie, tie + 1):
            add_narrow(x)
    for _ in range(n):
        add_narrow(some_float(F64, -152, 129))
    for _ in range(n // 2):  # few digits after those of a single
        m, e = some_digits(24), between(-149, 104)
        add_narrow(F64.exactly(2 * m + 1, e - 1) + either(0, 1, -1))
    for _ in range(n // 4):
        add_narrow(below(F64.sign))


def main():
    remark("Test vectors of fma, round and narrow, seed %d: made by tools/vectors/arithmetic.py, which says how" % seeded())
    for f, name in ((F64, "fma_f64"), (F32, "fma_f32")):
        remark(name + ": zeros, infinities and NaNs in every place")
        fma_specials(f)
        remark(name + ": ties")
        fma_ties(f)
        remark(name + ": cancellation")
        fma_cancelling(f)
        remark(name + ": far apart")
        fma_far(f)
        remark(name + ": around the smallest")
        fma_small(f)
        remark(name + ": around the largest")
        fma_large(f)
        if f is F32:
            remark(name + ": double rounding")
            fma_traps()
        remark(name + ": pseudo-random")
        fma_random(f, 160)
    remark("round")
    round_cases(F64, 40)
    round_cases(F32, 40)
    remark("narrow")
    narrow_cases(40)
    lines.write()


main()
