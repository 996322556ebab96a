#!/usr/bin/env python3
"""Holds the answers of the kernels to their definition and to document 01, outside the prover.

    tools/kernels/exact.py [-n POINTS] [-s SEED] [--] HOST...   checks the answers of the program HOST (host.c)
    tools/kernels/exact.py [-n POINTS] [-s SEED]                judges the definition itself by document 01
    tools/kernels/exact.py table                                prints the 256 entries, one to a line

Everything here is whole numbers; no float is ever computed with. A float is a pattern of bits, read by its
fields (tools/floats.py). Three parts:

1. The definition, from crates/table/specs, crates/kernels/specs and, for fma, round and the narrowing of a double,
   crates/soft/specs. Every answer must have its bits (a NaN equals any NaN).
2. Document 01's exact values P, E and L, its rules about them, K4's distances in double, and K1's of exp less 1. L and E - 1 are worked
   out as one fraction. E is enclosed between two numbers of 256 digits after the point, every step cut the safe way; a distance that
   the enclosure cannot decide is decided by the exact fraction.
3. The arguments: edges and the neighbourhoods where a case changes, and pseudo-random ones (random.Random(SEED),
   only its getrandbits). POINTS is about how many of the latter each kernel gets.

It prints what was checked, what was violated, and the worst error as a part of what is allowed; in double that is what
request K4 allows. Status 1 if anything is wrong.
"""
import os
import random
import subprocess
import sys
from bisect import bisect_left
from fractions import Fraction
from math import factorial, lcm

sys.path.insert(0, os.path.join(os.path.dirname(os.path.abspath(__file__)), ".."))
from floats import F32, F64, NAN
from usage import fail, whole

N = 0xB17217F7D1CF79AB


def scaled(m, e, w):
    """m * 2 ^ e * w, rounded down to a whole number"""
    return m * w << e if e >= 0 else m * w >> -e


def fraction(v):
    """±m * 2 ^ e as num, den"""
    return (-1 if v[0] else 1) * v[1] << max(v[2], 0), 1 << max(-v[2], 0)


# ---- 1. the definition: table/specs
def taylor(a, b):
    """P(a / b) as num, den"""
    num = 0
    for j in range(24):
        num += factorial(23) // factorial(j) * a**j * b ** (23 - j)
    return num, factorial(23) * b**23


def entry(i):
    num, den = taylor(i * N, 2**72)
    return 2**62 * num // den


TABLE = [entry(i) for i in range(256)] + [2**63]
FIRST = [bisect_left(TABLE, (513 + k) << 53) for k in range(512)]  # the first entry at or above the interval's end


# ---- Power.antt: Z counts 2 ^ -44 of a step, N / 2 ^ 72; divisions and shifts are whole parts, downward, for either sign
def hi(a, b):
    """a b / 2 ^ 64 without the product of the lower halves"""
    half = 2**32
    return a // half * (b // half) + a // half * (b % half) // half + a % half * (b // half) // half


def coef(u, j):
    return 2**u * N**j // (2 ** (72 * j) * factorial(j))


SINGLES = [coef(40, j) for j in range(3)]
DOUBLES = [coef(64, j) for j in range(6)]


def significand(f, i, s):
    """digits of 2 ^ ((i + s / 2 ^ 44) / 256): 32 of a single, 63 of a double"""
    e = s >> 12
    if f is F32:
        t, c = TABLE[i] >> 31, SINGLES
        return t + (t * (e * (c[1] + (e * c[2] >> 32)) >> 32) >> 40)
    x, c = s << 20, DOUBLES
    h4 = c[4] + (e * c[5] >> 32)
    h3 = c[3] + (e * h4 >> 32)
    h2 = c[2] + (e * (h3 >> 8) >> 24)
    h1 = c[1] + hi(x, h2)
    return TABLE[i] + hi(TABLE[i], hi(x, h1))


PLACES = {F32: 31, F64: 62}


def power(f, z):
    k, i, s = z >> 52, (z >> 44) % 256, z % 2**44
    if k < 1 - f.bias:
        return False, 0, 0
    if k > f.bias:
        return "inf", False
    return f.nearest(False, significand(f, i, s) << max(k, 0), 1 << PLACES[f] + max(-k, 0))


# ---- Logarithm.antt
def moved(w, m):
    return m << (w - m.bit_length())


def steps(m, e):
    """the entry i and J = 256 k + i, for m * 2 ^ e"""
    i = FIRST[(moved(64, m) >> 54) - 512]
    return i, 256 * (e + m.bit_length() - 1) + i


def below64(i, m):
    """-ln(1 - g) in units of 2 ^ -64"""
    g = 2 * (2**63 - hi(moved(64, m), 2 * TABLE[256 - i]))
    e = g >> 24
    h6 = 2**33 // 6 + (e * (2**33 // 7) >> 40)
    h5 = 2**33 // 5 + (e * h6 >> 40)
    h4 = 2**33 // 4 + (e * h5 >> 40)
    h3 = 2**64 // 3 + (e * h4 >> 9)
    h2 = 2**63 + hi(g, h3)
    return g + hi(g, hi(g, h2))


def gap63(i, m):
    return 2**63 - moved(24, m) * (TABLE[256 - i] >> 23)


def unit(m, e):
    return e <= 0 and m == 1 << -e


def logarithm(f, m, e):
    """in units of 2 ^ -56 (single) or 2 ^ -64 (double)"""
    i, j = steps(m, e)
    if f is F64:
        return 0 if unit(m, e) else j * ((N + 128) >> 8) - below64(i, m)
    n = moved(24, m) - 2**23
    if e + m.bit_length() == 1 and n < 2**14:
        return 2**33 * n + n**3 // 24576 - 2**9 * n * n
    g = gap63(i, m)
    e = g >> 24
    w = 2**30 + (e * (2**31 // 3 + (e >> 10)) >> 39)
    return j * (N >> 16) - (g + ((e * e >> 31) * w >> 15) >> 7)


def step_log(f, m, e):
    """in units of 2 ^ -22 (single) or 2 ^ -50 (double) of a step"""
    i, j = steps(m, e)
    if f is F64:
        return 0 if unit(m, e) else (j << 50) - hi(below64(i, m), 2**122 // N)
    e = gap63(i, m) >> 24
    return (j << 22) - (2**95 // N * e + ((e * e >> 31) * (2**94 // N + (e * (2**88 // (3 * N)) >> 32)) >> 8) >> 40)


# ---- Kernels.antt
def finite(v):
    return v != NAN and v[0] != "inf"


def positive(v):
    return finite(v) and not v[0] and v[1] > 0


def powered(v):
    """from -16 to 16"""
    return finite(v) and v[2] <= 0 and v[1] <= 16 << -v[2]


def exp_def(f, x):
    if not finite(x):
        return NAN
    s, m, e = x
    a = scaled(m, e, 2**103 // N << 13) if f is F32 else hi(scaled(m, e, 2**53), 2**127 // N)
    return power(f, -a if s else a)


def tiny(x):
    """between -2 ^ -24 and 2 ^ -24"""
    num, den = fraction(x)
    return abs(num) << 24 < den


def expm1_def(f, x):
    if finite(x) and tiny(x):
        return x
    return narrow_def(f, fma_def(F64, exp_def(F64, x), (False, 1, 0), (True, 1, 0)))  # times 1, less 1


def ln_def(f, x):
    if not positive(x):
        return NAN
    z = logarithm(f, x[1], x[2])
    return f.nearest(z < 0, abs(z), 2**56 if f is F32 else 2**64)


def pow_def(f, x, y):
    if not (positive(x) and powered(y)):
        return NAN
    l = step_log(f, x[1], x[2])
    s, n, d = y
    if f is F32:
        return power(f, 8 * scaled(-n if s else n, d, l << 19))
    a = scaled(n, d - 6, abs(l))
    return power(f, -a if (l < 0) != s else a)


# ---- Narrow.antt, HalfAway.antt and Fma.antt
def narrow_def(f, x):
    if not finite(x):
        return x
    num, den = fraction(x)
    return f.nearest(x[0], abs(num), den)


def round_def(f, x):
    if not finite(x):
        return x
    s, m, e = x
    return f.nearest(s, m << e if e >= 0 else (2 * m + (1 << -e)) >> (1 - e), 1)


def fma_def(f, x, y, z):
    if NAN in (x, y, z):
        return NAN
    if not (finite(x) and finite(y)):
        if any(finite(v) and v[1] == 0 for v in (x, y)):
            return NAN
        s = (x[1] if x[0] == "inf" else x[0]) != (y[1] if y[0] == "inf" else y[0])
        return NAN if not finite(z) and z[1] != s else ("inf", s)
    if not finite(z):
        return z
    s, e = x[0] != y[0], min(x[2] + y[2], z[2])
    a = (-1 if s else 1) * (x[1] * y[1] << (x[2] + y[2] - e))
    b = (-1 if z[0] else 1) * (z[1] << (z[2] - e))
    neg = a + b < 0 or (a + b == 0 and s and z[0])
    return f.nearest(neg, scaled(abs(a + b), max(e, 0), 1), 1 << max(-e, 0))


# ---- 2. document 01's exact values
DIGITS = 256
UNIT = 1 << DIGITS


def split(num, den):
    """k, and the fraction r = A - k N / 2 ^ 64, for A = num / den"""
    k = num * 2**64 // (den * N)
    return k, num * 2**64 - k * N * den, den * 2**64


def E_between(num, den):
    """k, lo and hi: E(num / den) is 2 ^ k p with lo <= p * 2 ^ DIGITS <= hi"""
    k, a, b = split(num, den)
    r = (a << DIGITS) // b
    lo = hi = UNIT
    for j in range(23, 0, -1):  # 1 + r / 1 (1 + r / 2 (1 + ..)): growing in r, and a quotient of quotients cuts once
        lo = UNIT + (r * lo >> DIGITS) // j
        hi = UNIT + ((r + 1) * hi >> DIGITS) // j + 1
    return k, lo, hi


def E(num, den):
    """num, den of E(num / den)"""
    k, a, b = split(num, den)
    p, q = taylor(a, b)
    return p << max(k, 0), q << max(-k, 0)


ODDS = lcm(*range(1, 48, 2))


def L(m, e):
    """num, den of L(m * 2 ^ e)"""
    h = 1 << (m.bit_length() - 1)
    k = e + m.bit_length() - 1
    if m == h:
        return k * N, 2**64
    low = (m & -m).bit_length() - 1
    m, h = m >> low, h >> low
    a2, b2 = (m - h) ** 2, (m + h) ** 2
    acc, bs = 0, 1
    for j in range(23, -1, -1):
        acc = acc * a2 + ODDS // (2 * j + 1) * bs
        bs *= b2
    s, d = 2 * (m - h) * acc, ODDS * (m + h) * (bs // b2)
    return k * N * d + 2**64 * s, 2**64 * d


# ---- document 01's rules, K4's and K1's
LIMITS = {F32: (86, 89, 23), F64: (700, 710, 50)}  # near, far, and the distance 2 ^ -p E
LOGS = {F32: (23, 48), F64: (52, 60)}  # 2 ^ -p |L| + 2 ^ -q
LESS_ONE = 23, 48  # 2 ^ -p |E - 1| + 2 ^ -q
MILLION = 10**6


class Tally:
    """of each rule: how often it was asked, how often violated, the worst error in millionths of the allowed"""

    def __init__(self):
        self.rules, self.shown = {}, 0

    def note(self, rule, ok, part=None, what=()):
        row = self.rules.setdefault(rule, [0, 0, -1])
        row[0] += 1
        row[1] += not ok
        row[2] = max(row[2], -1 if part is None else part)
        if not ok and self.shown < 5:
            self.shown += 1
            print(f"    violated: {rule}: {' '.join(what)}")

    def show(self):
        for rule, (asked, bad, worst) in self.rules.items():
            part = f", worst {worst // MILLION}.{worst % MILLION:06d} of the allowed" if worst >= 0 else ""
            print(f"    {rule:48s} {asked:7d} asked, {bad} violated{part}")
        return sum(bad for _, bad, _ in self.rules.values())


def near(v, num, den, p):
    """whether v lies within 2 ^ -p E of E(num / den), and the error in millionths of that"""
    k, lo, hi = E_between(num, den)
    if not finite(v) or v[0] or v[2] - k + DIGITS < 0:
        return False, 10**9
    y = v[1] << (v[2] - k + DIGITS)
    most = max(abs(y - lo), abs(y - hi)) << p
    least = max(y - hi, lo - y, 0) << p
    if (most <= lo) != (least <= hi):  # the enclosure cannot tell
        e = Fraction(*E(num, den)) * Fraction(1 << DIGITS) / Fraction(2) ** k
        return abs(y - e) * 2**p <= e, most * MILLION // lo
    return most <= lo, most * MILLION // lo


def close_to(v, num, den, p, q):
    """whether v lies within 2 ^ -p |x| + 2 ^ -q of x = num / den, and the error in millionths of that"""
    if not finite(v):
        return False, 10**9
    up, down = max(v[2], 0), max(-v[2], 0)
    error = abs((-1 if v[0] else 1) * (v[1] << up) * den - (num << down)) << (p + q)
    allowed = ((abs(num) << q) + (den << p)) << down
    return error <= allowed, error * MILLION // allowed


def judge_power(f, t, v, num, den, what):
    """the rules of exp and pow for A = num / den"""
    close, far, p = LIMITS[f]
    if abs(num) <= close * den:
        t.note(f"|A| <= {close}: within 2^-{p} E", *near(v, num, den, p), what)
    elif num >= far * den:
        t.note(f"A >= {far}: +infinity", v == ("inf", False), None, what)
    elif num <= -far * den:
        t.note(f"A <= -{far}: +0", finite(v) and v[:2] == (False, 0), None, what)
    else:
        t.note("in between: +0, a number or +infinity", v == ("inf", False) or (finite(v) and not v[0]), None, what)


def is_one(f, v):
    return f.to_bits(v) == f.one


def judge_exp(f, t, v, what, x):
    t.note("refused exactly where x is not finite", (v == NAN) != finite(x), None, what)
    if not finite(x):
        return
    if x[1] == 0:
        t.note("exp(+-0) = 1", is_one(f, v), None, what)
    judge_power(f, t, v, *fraction(x), what)


def judge_expm1(f, t, v, what, x):
    t.note("refused exactly where x is not finite", (v == NAN) != finite(x), None, what)
    if not finite(x):
        return
    if x[1] == 0:
        t.note("expm1(+-0) is the zero given", f.to_bits(v) == f.to_bits(x), None, what)
    num, den = fraction(x)
    close, far, _ = LIMITS[f]
    p, q = LESS_ONE
    if abs(num) <= close * den:
        a, b = E(num, den)
        t.note(f"|A| <= {close}: within 2^-{p} |E - 1| + 2^-{q}", *close_to(v, a - b, b, p, q), what)
    elif num >= far * den:
        t.note(f"A >= {far}: +infinity", v == ("inf", False), None, what)
    elif num <= -far * den:
        t.note(f"A <= -{far}: -1", finite(v) and f.to_bits(v) == f.sign + f.one, None, what)
    else:
        t.note("in between: a number or +infinity", v == ("inf", False) or finite(v), None, what)


def judge_ln(f, t, v, what, x):
    t.note("refused exactly where x is not positive, finite", (v == NAN) != positive(x), None, what)
    if not positive(x):
        return
    num, den = L(x[1], x[2])
    if num == 0:
        t.note("ln 1 = +0", f.to_bits(v) == 0, None, what)
    p, q = LOGS[f]
    t.note(f"within 2^-{p} |L| + 2^-{q}", *close_to(v, num, den, p, q), what)


def judge_pow(f, t, v, what, x, y):
    inside = positive(x) and powered(y)
    t.note("refused exactly outside the domain", (v == NAN) != inside, None, what)
    if not inside:
        return
    num, den = L(x[1], x[2])
    ny, dy = fraction(y)
    if num == 0:
        t.note("pow(1, y) = 1", is_one(f, v), None, what)
    if ny == 0:
        t.note("pow(x, +-0) = 1", is_one(f, v), None, what)
    if num >= 0 and ny <= 0:
        small = finite(v) and not v[0] and scaled(v[1], v[2], UNIT**5) <= UNIT**5
        t.note("x >= 1, y <= 0: never above 1", small, None, what)
    judge_power(f, t, v, num * ny, den * dy, what)


def judge_nothing(f, t, v, what, *xs):
    """fma and round: their definition is the rule"""


# ---- 3. the arguments
class Source:
    def __init__(self, f, seed, n):
        self.f, self.n, self.rnd = f, n, random.Random(f"{seed} {f.name}")
        h, i = f.hidden, f.inf
        subnormals = [1, 2, 3, h // 2, h - 2, h - 1]
        self.positives = subnormals + [h, h + 1, i - 2, i - 1] + [f.one + d for d in range(-4, 5)]
        self.odd = [0, f.sign, i, f.sign + i, i + 1, i + h // 2, f.sign + i + h // 2, f.sign + i + h - 1]
        self.edges = self.odd + self.positives + [f.sign + b for b in self.positives]

    def below(self, n):
        return self.rnd.getrandbits(80) % n

    def bits(self, s, num, den):
        return self.f.to_bits(self.f.nearest(s, num, den))

    def around(self, num, den, w):
        """the patterns up to w steps from the one nearest to num / den"""
        b = self.bits(False, abs(num), den)
        return [(num < 0) * self.f.sign + c for c in range(max(0, b - w), min(self.f.inf, b + w) + 1)]

    def uniform(self, low, high):
        num = (low << 90) + self.rnd.getrandbits(90) * (high - low)
        return self.bits(num < 0, abs(num), 1 << 90)

    def scatter(self, low, high, s=None):
        """any digits, with an exponent from low to high"""
        s = self.rnd.getrandbits(1) if s is None else s
        e = max(0, min(self.f.ones - 1, self.f.bias + low + self.below(high - low + 1)))
        return s * self.f.sign + e * self.f.hidden + self.rnd.getrandbits(self.f.prec - 1)

    def any(self):
        return self.rnd.getrandbits(self.f.width)

    def exps(self):
        f, n = self.f, self.n
        xs = list(self.edges)
        for c in (1, 16, 32, 86, 87, 88, 89, 103, 104, 128, 700, 708, 709, 710, 744, 745, 1023, 1024, 1025, 2048):
            for s in (-1, 1):
                xs += self.around(s * c, 1, 4)
                xs += [self.uniform(s * c - 1, s * c + 1) for _ in range(8)]
        far = f.bias + 40
        for k in range(-far, far + 1):  # where k changes, and beyond both ends
            xs += self.around(k * N, 2**64, 1)
        for _ in range(n // 4):  # where the table's entry changes
            xs += self.around((self.below(512 * f.bias) - 256 * f.bias) * N, 2**72, 1)
        close = LIMITS[f][0]
        xs += [self.uniform(-close, close) for _ in range(n)] + [self.uniform(-4, 4) for _ in range(n // 2)]
        xs += [self.scatter(-80, 7) for _ in range(n // 2)] + [self.any() for _ in range(n // 4)]
        return [(x,) for x in xs]

    def less_ones(self):
        """those of exp, and more next to 0, where little is left of exp less 1"""
        xs = [b for j in range(64) for s in (-1, 1) for b in self.around(s, 2**j, 2)]
        xs += [self.scatter(-30, -1) for _ in range(self.n)]
        return self.exps() + [(x,) for x in xs]

    def logs(self):
        f, n = self.f, self.n
        xs = list(self.edges) + [e * f.hidden for e in range(f.ones + 1)]
        xs += [f.one + s * (1 << j) + d for j in range(f.prec - 2) for s in (-1, 1) for d in (-1, 0, 1)]
        for i in range(256):  # where the table's entry changes
            for k in (0, -1, self.below(2 * f.bias - 1) - f.bias + 1):
                xs += self.around(TABLE[i] << max(k, 0), 2**62 << max(-k, 0), 1)
        xs += [self.rnd.getrandbits(f.prec - 1) >> self.below(f.prec - 1) for _ in range(n // 8)]  # subnormals
        xs += [self.scatter(-f.bias, f.bias, 0) for _ in range(n // 2)]
        xs += [self.scatter(-1, 0, 0) for _ in range(n // 2)]
        xs += [f.one + (self.any() >> self.below(f.width)) % f.hidden for _ in range(n // 4)]
        xs += [f.one - (self.any() >> self.below(f.width)) % f.hidden for _ in range(n // 4)]
        xs += [self.any() for _ in range(n // 8)]
        return [(x,) for x in xs]

    def tall(self):
        """an x with |L| so large that 16 |L| passes every limit"""
        e = 9 if self.f is F32 else 65
        return self.scatter(e, self.f.bias, 0) if self.rnd.getrandbits(1) else self.scatter(-self.f.bias, -e - 1, 0)

    def reach(self, x, num, den, w):
        """(x, y) with y L(x) nearest to num / den, and w steps from it"""
        v = self.f.of_bits(x)
        a, b = L(v[1], v[2])
        return [(x, y) for y in self.around((num if a > 0 else -num) * b, den * abs(a), w)] if a else []

    def pows(self):
        f, n = self.f, self.n
        ys = list(self.odd) + [1, f.sign + 1, f.hidden, f.sign + f.hidden]
        for c, d in ((16, 1), (1, 1), (1, 2), (2, 1), (3, 1), (15, 1), (1, 10), (1, 2**30), (17, 1)):
            ys += [b for s in (-1, 1) for b in self.around(s * c, d, 2 if c == 16 else 0)]
        xs = self.edges + [self.bits(False, *q) for q in ((1, 2), (2, 1), (3, 1), (1, 10**4), (36500, 1), (9, 10))]
        pairs = [(x, y) for x in xs for y in ys]
        for _ in range(n // 40):  # A about the limits
            for c in LIMITS[f][:2] + (32,):
                pairs += self.reach(self.tall(), c, 1, 1) + self.reach(self.tall(), -c, 1, 1)
        for _ in range(n // 8):  # A where k changes
            k = self.below(2 * f.bias) - f.bias
            pairs += self.reach(self.tall(), k * N, 2**64, 1)
        low, high = self.bits(False, 1, 10**4), self.bits(False, 36500, 1)
        pairs += [(low + self.below(high - low), self.uniform(-1, 1)) for _ in range(n)]  # as the scheduler calls it
        pairs += [(self.scatter(-f.bias, f.bias, 0), self.uniform(-16, 16)) for _ in range(n)]
        pairs += [(self.scatter(-6, 6, 0), self.uniform(-16, 16)) for _ in range(n // 2)]
        pairs += [(self.scatter(-f.bias, f.bias, 0), self.scatter(-90, 3)) for _ in range(n // 4)]
        for _ in range(n // 4):  # x at and just above 1, y at and just below 0
            x = f.one + (self.any() >> self.below(f.width)) % f.hidden
            pairs += [(x, self.scatter(-100, 3, 1)), (x, self.uniform(-16, 0)), (f.one, self.uniform(-16, 16))]
            pairs += [(x, self.rnd.getrandbits(1) * f.sign)]
        pairs += [(self.any(), self.any()) for _ in range(n // 8)]
        return pairs

    def rounds(self):
        f, n = self.f, self.n
        xs = list(self.edges)
        for c in list(range(1, 40, 2)) + [2**j + 1 for j in range(5, f.prec + 2)]:
            xs += [b for s in (-1, 1) for b in self.around(s * c, 2, 2)]
        xs += [self.scatter(-3, f.prec + 1) for _ in range(n)] + [self.any() for _ in range(n // 4)]
        return [(x,) for x in xs]

    def fmas(self):
        f, n = self.f, self.n
        some = self.odd[:5] + [1, f.sign + 1, f.hidden - 1, f.hidden, f.one, f.sign + f.one, f.one + 1]
        some += [f.inf - 1, f.sign + f.inf - 1]
        out = [(x, y, z) for x in some for y in some for z in some]
        for _ in range(n):
            x, y = self.scatter(-40, 40), self.scatter(-40, 40)
            p = fma_def(f, f.of_bits(x), f.of_bits(y), (False, 0, 0))
            out += [(x, y, (f.to_bits(p) ^ f.sign) + self.below(7) - 3)]  # the product, almost taken away
            out += [(x, y, self.scatter(-90, 90)), (self.any(), self.any(), self.any())]
        return out


KERNELS = {
    "exp": (exp_def, judge_exp, Source.exps, (F32, F64)),
    "expm1": (expm1_def, judge_expm1, Source.less_ones, (F32,)),
    "ln": (ln_def, judge_ln, Source.logs, (F32, F64)),
    "pow": (pow_def, judge_pow, Source.pows, (F32, F64)),
    "fma": (fma_def, judge_nothing, Source.fmas, (F32, F64)),
    "round": (round_def, judge_nothing, Source.rounds, (F32, F64)),
}


def ask(host, name, f, arguments):
    """the answers of the host program, as patterns"""
    d = f.width // 4
    lines = "".join(f"{name} {' '.join(f'{b:0{d}x}' for b in bs)}\n" for bs in arguments)
    out = subprocess.run(host, input=lines, capture_output=True, text=True, check=True).stdout.split()
    if len(out) != len(arguments):
        sys.exit(f"exact.py: {name}: {len(arguments)} asked, {len(out)} answered")
    return [int(w, 16) for w in out]


def word(b):
    return NAN if b == NAN else f"{b:x}"


def check(f, kernel, host, seed, n):
    definition, judge, source, _ = KERNELS[kernel]
    name = f"fsrs_{kernel}_{f.name}"
    arguments = [tuple(b % (1 << f.width) for b in bs) for bs in source(Source(f, seed, n))]
    values = [[f.of_bits(b) for b in bs] for bs in arguments]
    wanted = [f.to_bits(definition(f, *vs)) for vs in values]
    given = ask(host, name, f, arguments) if host else wanted
    tally, differ = Tally(), 0
    for bs, vs, want, got in zip(arguments, values, wanted, given):
        v = NAN if got == NAN else f.of_bits(got)
        what = [word(b) for b in bs] + ["->", word(got)]
        if (want != NAN) if v == NAN else got != want:
            differ += 1
            if differ <= 5:
                print(f"    differs: {name} {' '.join(what)}, the definition has {word(want)}")
        judge(f, tally, v, what, *vs)
    print(f"{name}: {len(arguments)} answers, {differ} differ from the definition")
    return len(arguments), differ, tally.show()


def audit():
    """the enclosure of E holds the exact fraction"""
    for num, den in [(0, 1), (1, 3), (-1, 3), (86, 1), (-86, 1), (N, 2**64), (-N, 2**64), (700 * 2**40 - 1, 2**40)]:
        k, lo, hi = E_between(num, den)
        p = Fraction(*E(num, den)) / Fraction(2) ** k * UNIT
        assert lo <= p <= hi and hi - lo < 64, (num, den)


def options(words):
    """POINTS, SEED and the words behind them; a wrong option ends with the usage."""
    usage = f"usage: {sys.argv[0]} [-n POINTS] [-s SEED] [[--] HOST...] | table"
    if words == ["--help"]:
        print(usage)
        sys.exit()
    given = {"-n": 4000, "-s": 1}
    while words and words[0] in given:
        if len(words) < 2:
            fail(usage)
        given[words[0]] = whole(words[0], words[1])
        words = words[2:]
    if words[:1] == ["--"]:
        words = words[1:]
    elif words and words[0].startswith("-"):
        fail(usage)
    return given["-n"], given["-s"], words


def main(words):
    n, seed, words = options(words)
    if words == ["table"]:
        print("\n".join(f"0x{t:016X}" for t in TABLE[:256]))
        return 0
    audit()
    total = [check(f, kernel, words, seed, n) for kernel, (*_, formats) in KERNELS.items() for f in formats]
    answers, differ, violated = (sum(column) for column in zip(*total))
    print(f"{answers} answers, {differ} differ from the definition, {violated} violations of document 01, K4 and K1")
    return 0 if differ == violated == 0 else 1


if __name__ == "__main__":
    sys.exit(main(sys.argv[1:]))
