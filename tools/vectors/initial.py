#!/usr/bin/env python3
"""Writes crates/vectors/data/initial, the test vectors of `parameter_initialization`, and what the program says of it.

    tools/vectors/initial.py [SEED]

How the list is made: every answer is computed here, with whole numbers and exact fractions alone, and never with a float. The
lines are the Rust's own, of loss_derivatives and initial_stability in parameter_initialization.rs; the refusals are K6's. This is a
second reading of both: nothing is taken from the definitions of the crate. Each operation is an exact fraction, rounded once
(tools/floats.py); pow is the kernels' definition (tools/kernels/exact.py). The arguments are chosen below: first cases by hand, then
pseudo-random ones (random.Random(SEED), SEED 1 if none is given; only its getrandbits is used).

lines.py says what all lists share; no line w or g is here. A line has

    D    s, the slices of days, shares and counts; the slope and the curvature             loss_derivatives
    S    the default, the slices of days, shares and counts; the refusal and the stability initial_stability

where all are doubles but the refusal and the stability, which is a single. A slice has at most 64 numbers: columns at and past the
limit of 4,096 rows are left to tests/c.
"""
from fractions import Fraction
from functools import partial

from lines import Lines, below, between, either, seeded

import floats
import rules
from exact import pow_def
from floats import F32, F64, NAN, narrow

NAMES = {"D": "loss_derivatives", "S": "initial_stability"}
lines = Lines("initial", NAMES)
remark = lines.remark

# ---- doubles

add, sub, mul, div, less = (partial(operation, F64) for operation in (floats.add, floats.sub, floats.mul, floats.div, floats.less))
neg, double, single = F64.neg, F64.decimal, F32.decimal
ZERO, ONE, TWO, SIXTEENTH = 0, F64.one, double(2), double("0.0625")
INFINITIES = F64.inf, F64.inf + F64.sign


def powf(x, y):
    v = pow_def(F64, F64.of_bits(x), F64.of_bits(y))
    return F64.nan if v == NAN else F64.to_bits(v)


def widened(b):
    """`as f64` of a single that is not negative."""
    return F64.rounded(False, F32.size(b))


def at_most(x, y):
    return not F64.is_nan(x) and not F64.is_nan(y) and not less(y, x)


def is_within(x, low, high):
    return at_most(low, x) and at_most(x, high)


def same_single(x, y):
    a, b = narrow(x), narrow(y)
    return not F32.is_nan(a) and not F32.is_nan(b) and (a == b or a % F32.sign == b % F32.sign == 0)


DECAY = widened(single(rules.FSRS6_DEFAULT_PARAMETERS[20]))
S_MIN, INIT_S_MAX = widened(single("0.0001")), widened(single("100"))
FACTOR = sub(powf(double("0.9"), div(neg(ONE), DECAY)), ONE)

# ---- the Rust


def slope_term(n, a, b):
    return mul(mul(n, a), b)


def squared(y, p, q):
    return mul(mul(sub(ONE, y), p), mul(q, q))


def loss_derivatives(delta_t, recall, count, s, factor=FACTOR, slope_term=slope_term, squared=squared):
    slope = curvature = ZERO
    for t, y, n in zip(delta_t, recall, count):
        c = mul(t, factor)
        p = powf(add(ONE, div(c, s)), neg(DECAY))
        b = div(mul(DECAY, c), mul(s, add(s, c)))
        a = div(sub(p, y), sub(ONE, p))
        slope = add(slope, slope_term(n, a, b))
        bend = mul(mul(a, b), add(div(ONE, s), div(ONE, add(s, c))))
        curvature = add(curvature, mul(n, sub(squared(y, p, div(b, sub(ONE, p))), bend)))
    return slope, curvature


def yielded(next_, low, high):
    return next_


def search(delta_t, recall, count, default, yielded=yielded, pulled=add):
    """The double that is narrowed in the end, and by which exit."""

    def middle():
        return div(add(low, high), TWO)

    slope, _ = loss_derivatives(delta_t, recall, count, default)
    if at_most(slope % F64.sign, SIXTEENTH):
        return default, "default"
    rises, falls = less(ZERO, slope), less(slope, ZERO)
    low, high, prior = (S_MIN, default, neg(SIXTEENTH)) if rises else (default, INIT_S_MAX, SIXTEENTH)
    boundary = low if rises else high
    there = add(loss_derivatives(delta_t, recall, count, boundary)[0], prior)
    if (rises and at_most(ZERO, there)) or (falls and at_most(there, ZERO)):
        return boundary, "lower boundary" if rises else "upper boundary"
    s = default
    for _ in range(80):
        slope, curvature = loss_derivatives(delta_t, recall, count, s)
        slope = pulled(slope, prior)
        if less(ZERO, slope):
            high = s
        else:
            low = s
        if same_single(low, high):
            return middle(), "ends that are one single"
        newton = sub(s, div(slope, curvature))
        next_ = newton if less(ZERO, curvature) and less(low, newton) and less(newton, high) else middle()
        if same_single(next_, s):
            return yielded(next_, low, high), "a guess that is the last one's single"
        s = next_
    return middle(), "80 rounds"


# ---- K6's refusals

DAY_MAX, COUNT_MAX = double(100000), double(1 << 32)


def row_refusal(t, y, n):
    if not (less(ZERO, t) and at_most(t, DAY_MAX)):
        return 7
    return 0 if is_within(y, ZERO, ONE) and less(ZERO, n) and at_most(n, COUNT_MAX) else 8


def refusal(delta_t, recall, count, default):
    if not len(delta_t) == len(recall) == len(count) <= 4096:
        return 3
    if not is_within(default, S_MIN, INIT_S_MAX):
        return 13
    return next((n for n in map(row_refusal, delta_t, recall, count) if n), 0)


# ---- lines

EXITS = {}


def words(columns):
    return [word for column in columns for word in [len(column), *column]]


def ask(default, *columns):
    n, found, exit_ = refusal(*columns, default), 0, "refusal"
    if not n:
        found, exit_ = search(*columns, default)
        found = narrow(found)
        assert floats.less(F32, single("0.00009999"), found) and not floats.less(F32, single("100"), found)
    EXITS[exit_] = EXITS.get(exit_, 0) + 1
    lines.add("S", default, *words(columns), n, found)


def ask_slope(s, *columns):
    lines.add("D", s, *words(columns), *loss_derivatives(*columns, s))


def columns_of(*rows):
    return tuple([double(row[k]) for row in rows] for k in range(3))


USUAL = columns_of(("1", "0.95", "40"), ("2", "0.9", "32"), ("4", "0.8", "17"), ("7", "0.75", "9"), ("13", "0.5", "4"))
SURE = columns_of(("1", "0.999", "900"), ("10", "0.99", "700"))
LOST = columns_of(("1", "0.01", "900"), ("3", "0.001", "700"))
DEFAULTS = [widened(single(x)) for x in rules.FSRS6_DEFAULT_PARAMETERS[:4]]


def by_hand():
    for default in DEFAULTS + [S_MIN, INIT_S_MAX, ONE]:
        for columns in (USUAL, SURE, LOST, ([], [], [])):
            ask(default, *columns)
    even = columns_of(("3", "0.9", "0.0001"))
    for default in DEFAULTS:
        ask(default, *even)


def end_cases():
    """Defaults, days, shares and counts at both ends, and a step past each."""
    for default in (S_MIN - 1, S_MIN, S_MIN + 1, double("0.0001"), INIT_S_MAX - 1, INIT_S_MAX, INIT_S_MAX + 1,
                    ZERO, F64.sign, neg(ONE), F64.nan, *INFINITIES):
        for columns in (USUAL, ([], [], [])):
            ask(default, *columns)
    good = [double(x) for x in ("3", "0.7", "12")]
    for k, cells in enumerate((
        (ZERO, F64.sign, 1, F64.least, double("1e-300"), DAY_MAX, DAY_MAX + 1, neg(ONE), F64.nan, *INFINITIES),
        (ZERO, F64.sign, 1, F64.sign + 1, ONE, ONE - 1, ONE + 1, F64.nan, *INFINITIES),
        (ZERO, F64.sign, 1, ONE, COUNT_MAX, COUNT_MAX + 1, neg(ONE), F64.nan, *INFINITIES),
    )):
        for x in cells:
            row = good[:k] + [x] + good[k + 1:]
            ask(DEFAULTS[2], *([x] for x in row))
            ask(DEFAULTS[2], *([a, x, a] for a, x in zip(good, row)))


def order_cases():
    """Two and three at once: 3, 13, then the first bad row, and in it the day."""
    good, day, share, count = [[double(x) for x in row] for row in
                               (("3", "0.7", "12"), ("0", "0.7", "12"), ("3", "1.5", "12"), ("3", "0.7", "0"))]
    all_bad = [ZERO, F64.nan, F64.nan]
    for first in (good, day, share, count, all_bad):
        for second in (good, day, share, count):
            ask(ONE, *map(list, zip(first, second)))
    for default in (ZERO, ONE):
        for days, shares, counts in ((2, 2, 1), (2, 1, 2), (1, 2, 2), (0, 1, 1), (1, 0, 0), (1, 1, 0)):
            ask(default, 2 * [ZERO] if days == 2 else days * [ONE], shares * [ONE], counts * [ONE])
        ask(default, *([x] for x in all_bad))


def strange_cases():
    """Rows that make infinities and NaNs inside: days next to 0, where the curve is 1, and shares of 0 and 1."""
    for t in ("1e-300", "1e-17", "1e-15"):
        for y in ("0", "0.5", "1"):
            rows = columns_of((t, y, "5"))
            ask_slope(ONE, *rows)
            for default in (DEFAULTS[0], DEFAULTS[3]):
                ask(default, *rows)
                ask(default, *(a + b for a, b in zip(rows, USUAL)))
                ask(default, *(b + a for a, b in zip(rows, USUAL)))
    for y in ("0", "1"):
        for n in ("1", "4294967296"):
            ask(DEFAULTS[1], *columns_of(("100000", y, n)))
            ask(DEFAULTS[1], *columns_of(("0.001", y, n)))


def slope_cases():
    for s in DEFAULTS + [S_MIN, INIT_S_MAX, ZERO, F64.sign, neg(ONE), F64.inf, F64.nan, 1]:
        ask_slope(s, *USUAL)
    ask_slope(ONE, [], [], [])
    # of unlike lengths the shortest counts
    for k in range(3):
        for n in (0, 2, 4):
            ask_slope(DEFAULTS[2], *(c[:n] if i == k else c for i, c in enumerate(USUAL)))


# ---- pseudo-random

def some_double(low, high):
    return F64.rounded(False, low + (high - low) * Fraction(below(1 << 60), 1 << 60))


def some_rows(rows):
    """What a deck of so many days gives: shares that fall with the days, more or less."""
    days = sorted(either(between(1, 30), between(1, 400)) for _ in range(rows))
    keeps = some_double(Fraction(1, 50), Fraction(120))
    shares = []
    for t in days:
        p = F64.size(powf(add(ONE, div(mul(double(t), FACTOR), keeps)), neg(DECAY)))
        shares.append(F64.rounded(False, min(Fraction(1), max(Fraction(0), p + Fraction(between(-40, 40), 1000)))))
    return [double(t) for t in days], shares, [double(between(1, either(4, 60, 3000))) for _ in days]


def some_call():
    return either(*DEFAULTS, some_double(F64.size(S_MIN), Fraction(100))), some_rows(between(1, 8))


def product_with_p(y, p, q):
    return mul(mul(mul(sub(ONE, y), p), q), q)


def slope_from_the_right(n, a, b):
    return mul(n, mul(a, b))


SLOPES_MISREAD = {
    "powi as two products": {"squared": product_with_p},
    "the slope's last product first": {"slope_term": slope_from_the_right},
    "the factor of the single 0.9": {"factor": sub(powf(widened(single("0.9")), div(neg(ONE), DECAY)), ONE)},
}
SEARCH_MISREAD = {
    "the middle where the next guess is yielded": {"yielded": lambda next_, low, high: div(add(low, high), TWO)},
    "rounds without the prior": {"pulled": lambda slope, prior: slope},
}


def misread_cases(n):
    for name, parts in SLOPES_MISREAD.items():
        remark("pseudo-random: where other derivatives come of %s" % name)
        found = 0
        while found < n:
            s, columns = some_call()
            if loss_derivatives(*columns, s, **parts) != loss_derivatives(*columns, s):
                ask_slope(s, *columns)
                found += 1
    for name, parts in SEARCH_MISREAD.items():
        remark("pseudo-random: where another stability comes of %s" % name)
        found = 0
        while found < n:
            default, columns = some_call()
            if narrow(search(*columns, default, **parts)[0]) != narrow(search(*columns, default)[0]):
                ask(default, *columns)
                found += 1


def main():
    remark("Test vectors of parameter_initialization, seed %d: made by tools/vectors/initial.py, which says how" % seeded())
    remark("derivatives: defaults, ends, strange stabilities, and columns of unlike lengths")
    slope_cases()
    remark("stabilities: few, sure and lost recalls, and no rows")
    by_hand()
    remark("each end, and a step past it; NaNs and infinities everywhere")
    end_cases()
    remark("several refusals at once")
    order_cases()
    remark("rows that make infinities and NaNs inside")
    strange_cases()
    misread_cases(4)
    remark("pseudo-random")
    for _ in range(24):
        default, columns = some_call()
        ask(default, *columns)
    for _ in range(12):
        s, columns = some_call()
        ask_slope(s, *columns)
    # every exit that a call can leave by: 80 rounds are never needed
    assert set(EXITS) == {"default", "lower boundary", "upper boundary", "ends that are one single",
                          "a guess that is the last one's single", "refusal"}, EXITS
    lines.write()


main()
