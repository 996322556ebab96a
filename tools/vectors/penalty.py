#!/usr/bin/env python3
"""Writes crates/vectors/data/penalty, the test vectors of `training_v7`, and what the program says of it.

    tools/vectors/penalty.py [SEED]

How the list is made: every answer is computed here, with whole numbers and exact fractions alone, and never with a float. The
lines are the Rust's own, of l2_penalty_value_and_grad in training_v7.rs; the refusals are K13's. This is a second reading of
both: nothing is taken from the definitions of the crates. Each operation is an exact fraction, rounded once (tools/floats.py). The
arguments are chosen below: first cases by hand, then pseudo-random ones (random.Random(SEED), SEED 1 if none is given; only its
getrandbits is used).

lines.py says what all lists share; no line g is here. The weights are those of the last line w. A line has

    P    batch total factor, the slice of the old weights, the slice of the spreads; how many slots are lent and the pattern of
         the first, from which they count up; then the refusal, the penalty, and the first 21 slots as the call leaves them

where the factor and the penalty are doubles, the sizes whole numbers of 64 bits and the slots singles.
"""
from fractions import Fraction
from functools import partial

from lines import Lines, below, between, either, seeded

import floats
import rules
from floats import F32, F64, power

NAMES = {"P": "l2_penalty_value_and_grad"}
SIZE_MAX = 1 << 31
lines = Lines("penalty", NAMES)
remark = lines.remark

# ---- doubles

add, sub, mul, div = (partial(operation, F64) for operation in (floats.add, floats.sub, floats.mul, floats.div))
neg = F64.neg
number, double = F32.decimal, F64.decimal
ZERO, ONE, TWO = 0, F64.one, double(2)
NEGATIVE = double(-1)


def is_finite(f, b):
    return not f.is_nan(b) and not f.is_inf(b)


def is_minus(f, b):
    return b >= f.sign


def widened(b):
    """`as f64` of a single that is finite."""
    return F64.rounded(is_minus(F32, b), F32.size(b))


def narrowed(b):
    """`as f32` of a double."""
    if not is_finite(F64, b):
        return F32.nan if F64.is_nan(b) else is_minus(F64, b) * F32.sign + F32.inf
    return F32.rounded(is_minus(F64, b), F64.size(b))


def of_whole(n):
    return F64.rounded(False, Fraction(n))


# ---- the Rust

def scale_of(batch, total, factor):
    return div(mul(factor, of_whole(batch)), of_whole(total))


def slope(diff, denom, scale):
    return mul(div(mul(TWO, diff), denom), scale)


def terms(w, old, spreads):
    """Of each weight the difference, and the square of its spread."""
    for x, y, spread in zip(w, old, spreads):
        sigma = widened(spread)
        yield sub(widened(x), widened(y)), mul(sigma, sigma)


def l2_penalty_value_and_grad(w, old, batch, total, factor, spreads, scale_of=scale_of, slope=slope, narrowed=narrowed):
    zeros = 0, 21 * [0]
    if total == 0:
        return zeros
    scale, penalty_sum, grad = scale_of(batch, total, factor), ZERO, []
    for diff, denom in terms(w, old, spreads):
        penalty_sum = add(penalty_sum, div(mul(diff, diff), denom))
        grad.append(narrowed(slope(diff, denom, scale)))
    penalty = mul(penalty_sum, scale)
    if not is_finite(F64, penalty):
        return zeros
    return penalty, [g if is_finite(F32, g) else 0 for g in grad]


# ---- K13's refusals

BOX = [tuple(map(number, rules.BOX[k])) for k in range(21)]


def at_most(f, x, y):
    return not f.is_nan(x) and not f.is_nan(y) and not floats.less(f, y, x)


def in_box(w):
    return all(at_most(F32, low, x) and at_most(F32, x, high) for x, (low, high) in zip(w, BOX))


def is_spread(b):
    return is_finite(F32, b) and floats.less(F32, 0, b)


def refusal(w, old, batch, total, spreads, slots):
    if any(len(xs) != 21 for xs in (w, old, spreads)):
        return 1
    if not (in_box(w) and in_box(old)):
        return 2
    if slots != 21:
        return 5
    return 0 if all(map(is_spread, spreads)) and max(batch, total) <= SIZE_MAX else 13


# ---- lines

DEFAULT = [number(x) for x in rules.FSRS6_DEFAULT_PARAMETERS]
ONES = 21 * [F32.one]
# training_v7.rs's PARAMS_STDDEV, the first 21, as an example of spreads
SPREADS = [number(x) for x in """9999 9999 9999 9999 0.523 0.2528 0.4329 0.2966 0.2139 0.2889 0.1862 0.175 0.3812 0.3013 0.9104 0.3234
    0.2448 0.3273 0.1842 0.1735 0.4608""".split()]
LOW, HIGH = ([ends[k] for ends in BOX] for k in (0, 1))


def ask(w, old, batch, total, factor, spreads, slots=21, first=0x3f80_0000):
    lines.give("w", len(w), *w)
    n = refusal(w, old, batch, total, spreads, slots)
    given = [first + i for i in range(21)]
    penalty, left = (0, given) if n else l2_penalty_value_and_grad(w, old, batch, total, factor, spreads)
    lines.add("P", batch, total, factor, len(old), *old, len(spreads), *spreads, slots, first, n, penalty, *left)


def with_one(xs, k, x):
    return xs[:k] + [x] + xs[k + 1:]


def moved(k, x, y):
    """Two sets that differ at k alone."""
    return with_one(DEFAULT, k, x), with_one(DEFAULT, k, y)


UNIT = moved(4, number(2), number(1))  # the difference is 1, and with a spread of 1 the slot is 2 * scale
BACK = moved(4, number(1), number(2))


def around(b, n=2):
    return [b + i for i in range(-n, n + 1)]


def edge_cases():
    for batch, total in ((1, 1), (10, 100), (0, 7), (7, 0), (0, 0), (SIZE_MAX, 1), (1, SIZE_MAX), (SIZE_MAX, SIZE_MAX), (3, 1)):
        ask(*UNIT, batch, total, double("0.3333"), SPREADS)
    for factor in (0, F64.sign, ONE, NEGATIVE, F64.inf, F64.sign + F64.inf, F64.nan, F64.nan + F64.sign, 1, F64.max, F64.least):
        for batch, total in ((5, 10), (0, 10), (5, 0)):
            ask(*UNIT, batch, total, factor, ONES, first=0x8000_0000)
    ask(LOW, HIGH, 1, 1, ONE, SPREADS)
    ask(HIGH, LOW, 1, 1, ONE, SPREADS)


def zero_cases():
    """Signs of zero: the formula's, and +0.0 where a rule gives it."""
    for factor in (ONE, NEGATIVE, 1, F64.sign + 1):
        for batch in (0, 3):
            ask(DEFAULT, DEFAULT, batch, 9, factor, SPREADS)
            ask(*UNIT, batch, 9, factor, ONES)
            ask(*BACK, batch, 9, factor, ONES)
    plus, minus = with_one(DEFAULT, 5, 0), with_one(DEFAULT, 5, F32.sign)
    for w, old in ((plus, minus), (minus, plus), (minus, minus)):
        for factor in (ONE, NEGATIVE):
            ask(w, old, 1, 1, factor, ONES)


def overflow_cases():
    """Slots where a single ends, whose penalty stays; and penalties where a double ends."""
    most = F64.rounded(False, (F32.size(F32.max) + power(127 - 24)) / 2)  # twice that is the tie between the largest single and 2^128
    for factor in around(most) + [neg(x) for x in around(most)] + [F64.rounded(False, F32.size(F32.max) / 2)]:
        ask(*UNIT, 1, 1, factor, ONES)
    thin = with_one(ONES, 4, number("1e-20"))
    ask(*moved(4, number("1.788"), number(1)), 1, 1, ONE, thin)
    ask(*UNIT, 1, 1, ONE, with_one(ONES, 4, 1))  # the smallest spread
    ask(HIGH, LOW, 1, 1, ONE, 21 * [1])
    for factor in around(F64.max, 0) + [F64.max - 1] + around(F64.rounded(False, F64.size(F64.max) / 2)):
        ask(*UNIT, 1, 1, factor, ONES)
    # the sum is 4: the scale is finite and the penalty is not; slots of equal weights then are +0.0 with a negative factor too
    wide = moved(4, number(3), number(1))
    for factor in [*around(F64.rounded(False, power(1022)), 1), F64.max]:
        ask(*wide, 1, 1, factor, ONES)
        ask(*wide, 1, 1, neg(factor), ONES)
    near = moved(4, number(1) + 1, number(1))  # 2^-23 apart: the double of the slot is infinite, and the penalty is not
    for factor in (F64.max, F64.rounded(False, power(1000)), F64.rounded(True, power(1000))):
        ask(*near, 1, 1, factor, ONES)
    # the product with the batch overflows, though the quotient would not
    for batch, total in ((SIZE_MAX, SIZE_MAX), (2, 2), (1, 2)):
        ask(*UNIT, batch, total, F64.max, ONES)


def rounding_cases():
    """Slots next to the tie between two singles, down to where only a zero is left."""
    for b in (number("0.1"), F32.one, F32.one + 1, F32.least - 1, F32.least, 1, 2, 3):
        tie = F64.rounded(False, (F32.size(b) + F32.size(b + 1)) / 4)
        for factor in around(tie, 1):
            ask(*UNIT, 1, 1, factor, ONES)
            ask(*UNIT, 1, 1, neg(factor), ONES)
    for factor in around(F64.rounded(False, power(-151)), 1):
        ask(*UNIT, 1, 1, factor, ONES)
        ask(*BACK, 1, 1, factor, ONES)


def refusal_cases():
    good = dict(w=DEFAULT, old=UNIT[0], batch=1, total=1, factor=ONE, spreads=SPREADS)
    bad_box = [with_one(DEFAULT, 20, number("1.5")), with_one(DEFAULT, 0, F32.nan), with_one(DEFAULT, 8, number("-5.001"))]
    lengths = [DEFAULT[:20], DEFAULT + [F32.one], []]
    spreads = [with_one(SPREADS, k, x) for k, x in (
        (0, 0), (20, F32.sign), (7, number(-1)), (20, F32.inf), (0, F32.sign + F32.inf), (11, F32.nan), (3, F32.sign + 1))]
    for name in ("w", "old"):
        for xs in lengths + bad_box:
            ask(**{**good, name: xs})
    for xs in [SPREADS[:20], SPREADS + [F32.one], []] + spreads:
        ask(**{**good, "spreads": xs})
    for xs in (with_one(SPREADS, 2, 1), with_one(SPREADS, 2, F32.max)):  # the ends of what is taken
        ask(**{**good, "spreads": xs})
    for name in ("batch", "total"):
        for n in (SIZE_MAX, SIZE_MAX + 1, 1 << 32, 1 << 63, (1 << 64) - 1):
            ask(**{**good, name: n})
    for slots in (0, 20, 22):
        ask(**good, slots=slots)
    # several at once: 1, 2, 5, 13, and all of them before a total of 0
    for w in (DEFAULT, bad_box[0], DEFAULT[:20]):
        for old in (DEFAULT, bad_box[2], DEFAULT[:20]):
            for slots, total in ((21, 0), (20, SIZE_MAX + 1), (21, SIZE_MAX + 1)):
                for xs in (SPREADS, spreads[0], SPREADS[:20]):
                    ask(w, old, 1, total, F64.nan, xs, slots=slots)


# ---- pseudo-random

def some_single(low, high):
    """Uniform in its value, between two singles that are not negative."""
    a, b = F32.size(low), F32.size(high)
    return F32.rounded(False, a + (b - a) * Fraction(below(1 << 40), 1 << 40))


def some_weight(k):
    low, high = BOX[k]
    if is_minus(F32, low):
        return either(0, F32.sign) + some_single(0, high)
    return some_single(low, high)


def some_near(x, k):
    """A weight next to another, as one step of a trainer leaves it."""
    y = F32.rounded(is_minus(F32, x), F32.size(x) * (1 + Fraction(below(1 << 20) - (1 << 19), 1 << 23)))
    return y if at_most(F32, BOX[k][0], y) and at_most(F32, y, BOX[k][1]) else x


def some_call():
    old = either(DEFAULT, [some_weight(k) for k in range(21)])
    w = either([some_near(x, k) for k, x in enumerate(old)], [some_weight(k) for k in range(21)])
    spreads = either(SPREADS, [some_single(number("0.01"), number(3)) for _ in range(21)])
    total = between(1, either(100, 10**6, SIZE_MAX))
    factor = either(double("0.3333"), F64.rounded(False, Fraction(below(1 << 60), 1 << between(50, 70))))
    return w, old, between(0, total), total, factor, spreads


def scale_by_quotient(batch, total, factor):
    return mul(factor, div(of_whole(batch), of_whole(total)))


def slope_scaled_first(diff, denom, scale):
    return div(mul(mul(TWO, diff), scale), denom)



MISREAD = {
    "the quotient of the sizes first": {"scale_of": scale_by_quotient},
    "the slot scaled before it is divided": {"slope": slope_scaled_first},
}


def at_a_tie(call):
    """The call with a factor by which one of its slots lies next to a tie of singles: there a last bit of the double shows."""
    w, old, batch, total, factor, spreads = call
    k, batch = 4 + below(17), total
    diff, denom = list(terms(w, old, spreads))[k]
    unit = div(mul(TWO, diff), denom)
    if not F64.size(unit):
        return call
    b = narrowed(mul(unit, factor)) % F32.sign
    tie = (F32.size(b) + F32.size(b + 1)) / 2
    return w, old, batch, total, F64.rounded(False, tie / F64.size(unit)) + below(5) - 2, spreads


def misread_cases(n):
    for name, parts in MISREAD.items():
        remark("pseudo-random: where another answer comes of %s" % name)
        found = 0
        while found < n:
            call = some_call()
            call = at_a_tie(call) if "slope" in parts else call
            if l2_penalty_value_and_grad(*call, **parts) != l2_penalty_value_and_grad(*call):
                ask(*call)
                found += 1


def main():
    remark("Test vectors of training_v7, seed %d: made by tools/vectors/penalty.py, which says how" % seeded())
    remark("sizes and factors at their ends, a total and a batch of 0 among them; and corners of the box")
    edge_cases()
    remark("signs of zero")
    zero_cases()
    remark("where a single or a double ends")
    overflow_cases()
    remark("next to a tie of two singles")
    rounding_cases()
    remark("refusals 1, 2, 5 and 13: each alone, and several at once")
    refusal_cases()
    misread_cases(8)
    remark("pseudo-random")
    for _ in range(40):
        ask(*some_call())
    lines.write()


main()
