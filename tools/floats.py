"""Floats as patterns of bits, and IEEE 754's arithmetic on them: what the scripts beside this one share.

Everything is worked with whole numbers and exact fractions, and never with a float. A pattern is read by its
fields; what an operation gives is the exact result, rounded once to the nearest pattern, and at a tie to the one
whose last bit is 0. Every NaN that an operation gives is the one pattern `nan` of its format.
"""
from fractions import Fraction

NAN = "nan"


def power(e):
    return Fraction(1 << e) if e >= 0 else Fraction(1, 1 << -e)


class Format:
    """A binary format by the bits of a pattern and of its significand, the hidden one included."""

    def __init__(self, name, width, prec):
        self.name, self.width, self.prec = name, width, prec
        self.sign = 1 << (width - 1)
        self.hidden = 1 << (prec - 1)
        self.ones = (1 << (width - prec)) - 1  # the exponent's field where all its bits are set
        self.bias = self.ones // 2
        self.low = 2 - self.bias - prec  # the exponent of the smallest value
        self.inf = self.ones * self.hidden
        self.nan = self.inf + self.hidden // 2
        self.one = self.bias * self.hidden
        self.max = self.inf - 1
        self.least = self.hidden  # the smallest normal number

    # values

    def of_bits(self, b):
        """nan, ('inf', negative) or (negative, m, e) for ±m * 2 ^ e"""
        s, x, t = b >= self.sign, b % self.sign // self.hidden, b % self.hidden
        if x == self.ones:
            return NAN if t else ("inf", s)
        return (s, t, self.low) if x == 0 else (s, self.hidden + t, x - 1 + self.low)

    def to_bits(self, v):
        """of what `nearest` gives: a NaN stays the word nan"""
        if v == NAN:
            return NAN
        if v[0] == "inf":
            return v[1] * self.sign + self.inf
        s, m, e = v
        n = m << (e - self.low)  # in units of the smallest value
        k = max(0, n.bit_length() - self.prec)
        return s * self.sign + k * self.hidden + (n >> k)

    def nearest(self, s, num, den):
        """the value nearest to ±num / den, ties to even, an infinity from 2 ^ (bias + 1) on"""
        n = num << -self.low
        k = max(0, (n // den).bit_length() - self.prec)
        q, r = divmod(n, den << k)
        q += 2 * r > den << k or (2 * r == den << k and q % 2 == 1)
        return ("inf", s) if q << k >= 1 << (self.bias + 1 - self.low) else (s, q << k, self.low)

    # patterns

    def is_nan(self, b):
        return b % self.sign > self.inf

    def is_inf(self, b):
        return b % self.sign == self.inf

    def neg(self, b):
        return b ^ self.sign

    def size(self, b):
        """The exact value of a finite pattern, less its sign."""
        _, m, e = self.of_bits(b)
        return m * power(e)

    def rounded(self, negative, x):
        """The pattern of the nearest float to the fraction x >= 0, with a sign."""
        return self.to_bits(self.nearest(negative, x.numerator, x.denominator))

    def exactly(self, m, e):
        """The pattern of m * 2^e, which is a float of this format."""
        x = abs(m) * power(e)
        b = self.rounded(m < 0, x)
        assert not self.is_inf(b) and self.size(b) == x, (m, e)
        return b

    def decimal(self, text):
        """The pattern nearest to a decimal fraction."""
        x = Fraction(text)
        return self.rounded(x < 0, abs(x))


F64 = Format("f64", 64, 53)
F32 = Format("f32", 32, 24)


def fma(f, x, y, z):
    if f.is_nan(x) or f.is_nan(y) or f.is_nan(z):
        return f.nan
    minus = (x >= f.sign) != (y >= f.sign)
    product_sign = f.sign if minus else 0
    if f.is_inf(x) or f.is_inf(y):
        if x % f.sign == 0 or y % f.sign == 0:
            return f.nan
        if f.is_inf(z) and z != product_sign + f.inf:
            return f.nan
        return product_sign + f.inf
    if f.is_inf(z):
        return z
    p = f.size(x) * f.size(y)
    q = f.size(z)
    total = (-p if minus else p) + (-q if z >= f.sign else q)
    if total == 0:
        both = minus and z >= f.sign
        return f.sign if both else 0
    return f.rounded(total < 0, abs(total))


def add(f, x, y):
    return fma(f, x, f.one, y)


def sub(f, x, y):
    return add(f, x, f.neg(y))


def mul(f, x, y):
    """-0.0 is added, which leaves a zero its sign."""
    return fma(f, x, y, f.sign)


def div(f, x, y):
    if f.is_nan(x) or f.is_nan(y) or (f.is_inf(x) and f.is_inf(y)):
        return f.nan
    minus = (x >= f.sign) != (y >= f.sign)
    sign = f.sign if minus else 0
    if f.is_inf(x):
        return sign + f.inf
    if f.is_inf(y):
        return sign
    if f.size(y) == 0:
        return f.nan if f.size(x) == 0 else sign + f.inf
    return f.rounded(minus, f.size(x) / f.size(y))


def half_away(f, x):
    """The nearest whole number, and at a tie the one that is farther from zero."""
    if f.is_nan(x):
        return f.nan
    if f.is_inf(x):
        return x
    up = f.size(x) + Fraction(1, 2)
    return f.rounded(x >= f.sign, Fraction(up.numerator // up.denominator))


def narrow(x):
    """A double's pattern made that of a single."""
    v = F64.of_bits(x)
    if v == NAN:
        return F32.nan
    return v[1] * F32.sign + F32.inf if v[0] == "inf" else F32.rounded(v[0], F64.size(x))


def less(f, x, y):
    """x < y: the patterns less their signs are in the order of their values, and no NaN is in that order."""
    if f.is_nan(x) or f.is_nan(y):
        return False

    def place(b):
        return f.sign - b if b >= f.sign else b

    return place(x) < place(y)
