#!/usr/bin/env python3
"""Writes crates/vectors/data/study, the test vectors of `domain` and `model_v6`, and what the program says of it.

    tools/vectors/study.py [SEED]

How the list is made: every answer is computed here, with whole numbers and exact fractions alone, and
never with a float. The formulas are the Rust's own, line by line under its names, from model_v6.rs and
inference_v6.rs; the box, the ranges and the refusals are document 01's, 14 is K1's and 15 K2's;
the verdicts are K9's. This is a second
reading of both: nothing is taken from the definitions of the crates, but for what `max` and `min` give of two
zeros with unlike signs, which Rust leaves open. Each sum, difference, product, quotient, fused
multiply-add and `round` is an exact fraction, rounded once (tools/floats.py). exp, exp_m1, ln and pow are
the kernels' definition over whole numbers (tools/kernels/exact.py); what it refuses is a NaN inside a
formula. The arguments are chosen below: first cases by hand, then pseudo-random ones
(random.Random(SEED), SEED 1 if none is given; only its getrandbits is used).

lines.py says what all lists share; no line g is here, and a rating is a whole number. A line has seven
words: the first four are the arguments, the fifth is the number of a refusal, 0 where there is none, and
the sixth and seventh are the values, 0 where there is a refusal: a refused N or O hands back the state
that it was given, which the program holds to the arguments. Where nothing is said a word is 0. Lines u, k
and F have 22 words, a line O has nine: five arguments, the refusal, and three values; and a line R ten:
eight arguments, the refusal, and the verdict's number, 0 for an accepted row and else 1 to 3.

    c    clamp                                  x low high   -> value
    x n  max min                                x y          -> value
    f    is_finite                              x            -> 0 or 1, as a value
    i    is_within                              x low high   -> 0 or 1
    o s  floor_stability clamp_stability        s            -> value
    v d  clamp_interval clamp_difficulty        s; d         -> value
    p q  is_stability is_difficulty             s; d         -> 0 or 1
    t    is_day                                 t            -> 0 or 1
    b    weights_refusal                                     -> refusal
    a    all_finite                                          -> 0 or 1
    u k  default_weights copy_weights           0, and the 21 weights
    F    check_and_fill_parameters_fsrs6        the refusal, and the 21 weights
    C    power_forgetting_curve_scalar          t s          -> refusal, value
    I    next_interval_scalar                   stability retention -> refusal, value
    S    stability_after_success_scalar         s r d rating -> refusal, value
    L    stability_after_failure_scalar         s r d        -> refusal, value
    T    stability_short_term_scalar            s rating     -> refusal, value
    E    init_difficulty_scalar                 rating       -> refusal, value
    M    mean_reversion_scalar                  init current -> refusal, value
    D    next_difficulty_scalar                 d rating     -> refusal, value
    N    next_state_scalar                      stability difficulty day rating -> refusal, stability, difficulty
    O    next_state_on_scalar                   stability difficulty seen day rating -> refusal, stability, difficulty, day
    P    memory_state_from_sm2_scalar           ease interval retention -> refusal, stability, difficulty
    R    check_row                              stability difficulty day rating retention, and the claimed patterns of the
                                                stability, the difficulty and the interval -> refusal, verdict
"""
from fractions import Fraction
from functools import partial

from lines import Lines, below, between, either, seeded

import floats
import rules
from exact import exp_def, expm1_def, ln_def, pow_def
from floats import F32, NAN

NAMES = {
    "c": "clamp", "x": "max", "n": "min", "f": "is_finite", "i": "is_within",
    "o": "floor_stability", "s": "clamp_stability", "v": "clamp_interval", "d": "clamp_difficulty",
    "p": "is_stability", "q": "is_difficulty", "t": "is_day", "b": "weights_refusal", "a": "all_finite",
    "u": "default_weights", "k": "copy_weights", "F": "check_and_fill_parameters_fsrs6", "C": "power_forgetting_curve_scalar",
    "I": "next_interval_scalar", "S": "stability_after_success_scalar", "L": "stability_after_failure_scalar",
    "T": "stability_short_term_scalar", "E": "init_difficulty_scalar", "M": "mean_reversion_scalar",
    "D": "next_difficulty_scalar", "N": "next_state_scalar", "P": "memory_state_from_sm2_scalar",
    "O": "next_state_on_scalar", "R": "check_row",
}

# ---- singles

add, sub, mul, div, fma, rnd, less = (
    partial(operation, F32)
    for operation in (floats.add, floats.sub, floats.mul, floats.div, floats.fma, floats.half_away, floats.less)
)
neg = F32.neg
number = F32.decimal


def kernel(definition, *bits):
    v = definition(F32, *(F32.of_bits(b) for b in bits))
    return F32.nan if v == NAN else F32.to_bits(v)


exp, exp_m1, ln, powf = (partial(kernel, definition) for definition in (exp_def, expm1_def, ln_def, pow_def))


def is_finite(x):
    return not F32.is_nan(x) and not F32.is_inf(x)


def at_most(x, y):
    return not F32.is_nan(x) and not F32.is_nan(y) and not less(y, x)


def is_within(x, low, high):
    return at_most(low, x) and at_most(x, high)


def clamp(x, low, high):
    return low if less(x, low) else high if less(high, x) else x


def maximum(x, y):
    """Of two zeros the second."""
    return x if F32.is_nan(y) or less(y, x) else y


def minimum(x, y):
    return x if F32.is_nan(y) or less(x, y) else y


def up(x):
    """The next single above."""
    return 1 if x == F32.sign else x - 1 if x > F32.sign else x + 1


def down(x):
    return neg(up(neg(x)))


# ---- the numbers of document 01 and inference_v6.rs

ZERO, ONE, TWO, THREE, NINE, TEN, ELEVEN = (number(n) for n in (0, 1, 2, 3, 9, 10, 11))
MINUS = neg(ZERO)
S_MIN, S_MAX, D_MIN, D_MAX = number("0.0001"), number("36500"), number("1"), number("10")
DAY_MAX = number("100000")
FSRS5_DEFAULT_DECAY = number("0.5")
FSRS6_DEFAULT_PARAMETERS = [number(text) for text in rules.FSRS6_DEFAULT_PARAMETERS]
BOX = {i: (number(low), number(high)) for i, (low, high) in rules.BOX.items()}
LOWEST, HIGHEST = ([BOX[i][end] for i in range(21)] for end in (0, 1))


# ---- model_v6.rs

def check_and_fill_parameters_fsrs6(parameters):
    if len(parameters) == 0:
        return list(FSRS6_DEFAULT_PARAMETERS)
    parameters = list(parameters)
    if len(parameters) == 17:
        parameters[4] = fma(parameters[5], TWO, parameters[4])
        parameters[5] = div(ln(fma(parameters[5], THREE, ONE)), THREE)
        parameters[6] = add(parameters[6], number("0.5"))
        parameters += [ZERO, ZERO, ZERO, FSRS5_DEFAULT_DECAY]
    elif len(parameters) == 19:
        parameters += [ZERO, FSRS5_DEFAULT_DECAY]
    return parameters


def power_forgetting_curve_scalar(w, t, s):
    s = maximum(s, S_MIN)
    decay = neg(w[20])
    factor = sub(powf(number("0.9"), div(ONE, decay)), ONE)
    t = rnd(maximum(t, ZERO))
    return powf(fma(div(t, s), factor, ONE), decay)


def next_interval_scalar(w, stability, desired_retention):
    stability = maximum(stability, S_MIN)
    desired_retention = clamp(desired_retention, number("0.0001"), number("0.9999"))
    decay = neg(w[20])
    factor = sub(powf(number("0.9"), div(ONE, decay)), ONE)
    raw = mul(div(stability, factor), sub(powf(desired_retention, div(ONE, decay)), ONE))
    return clamp(raw, ZERO, S_MAX)


def stability_after_success_scalar(w, s, r, d, rating):
    hard_penalty = w[15] if rating == 2 else ONE
    easy_bonus = w[16] if rating == 4 else ONE
    product = mul(exp(w[8]), sub(ELEVEN, d))
    product = mul(product, powf(s, neg(w[9])))
    product = mul(product, sub(exp(mul(sub(ONE, r), w[10])), ONE))
    product = mul(mul(product, hard_penalty), easy_bonus)
    return clamp(mul(s, add(product, ONE)), S_MIN, S_MAX)


def stability_after_failure_scalar(w, s, r, d):
    new_s_min = div(s, exp(mul(w[17], w[18])))
    new_s = mul(w[11], powf(d, neg(w[12])))
    new_s = mul(new_s, sub(powf(add(s, ONE), w[13]), ONE))
    new_s = mul(new_s, exp(mul(sub(ONE, r), w[14])))
    return clamp(minimum(new_s, new_s_min), S_MIN, S_MAX)


def stability_short_term_scalar(w, s, rating):
    sinc = mul(exp(mul(w[17], add(sub(number(rating), THREE), w[18]))), powf(s, neg(w[19])))
    new_s = mul(s, maximum(sinc, ONE) if rating >= 2 else sinc)
    return clamp(new_s, S_MIN, S_MAX)


def init_difficulty_scalar(w, rating):
    return add(sub(w[4], exp(mul(w[5], number(max(rating - 1, 0))))), ONE)


def mean_reversion_scalar(w, init, current):
    return add(mul(w[7], init), mul(sub(ONE, w[7]), current))


def next_difficulty_scalar(w, d, rating):
    delta_d = mul(neg(w[6]), sub(number(rating), THREE))
    new_d = add(d, mul(div(sub(TEN, d), NINE), delta_d))
    return clamp(mean_reversion_scalar(w, init_difficulty_scalar(w, 4), new_d), D_MIN, D_MAX)


def next_state_scalar(w, stability, difficulty, delta_t, rating):
    rating = max(1, min(4, rating))
    delta_t = rnd(maximum(delta_t, ZERO))
    s = clamp(stability, S_MIN, S_MAX)
    d = clamp(difficulty, D_MIN, D_MAX)
    r = power_forgetting_curve_scalar(w, delta_t, s)
    if delta_t in (ZERO, MINUS):
        stability = stability_short_term_scalar(w, s, rating)
    elif rating == 1:
        stability = stability_after_failure_scalar(w, s, r, d)
    else:
        stability = stability_after_success_scalar(w, s, r, d, rating)
    return stability, next_difficulty_scalar(w, d, rating)


def memory_state_from_sm2_scalar(w, ease_factor, interval, sm2_retention):
    """None where the Rust has an error."""
    decay = neg(w[20])
    factor = sub(powf(number("0.9"), div(ONE, decay)), ONE)
    stability = div(mul(maximum(interval, S_MIN), factor), sub(powf(sm2_retention, div(ONE, decay)), ONE))
    product = mul(exp(w[8]), powf(stability, neg(w[9])))
    product = mul(product, exp_m1(mul(sub(ONE, sm2_retention), w[10])))
    difficulty = sub(ELEVEN, div(sub(ease_factor, ONE), product))
    if not is_finite(stability) or not is_finite(difficulty):
        return None
    return stability, clamp(difficulty, D_MIN, D_MAX)


# ---- document 01's refusals, K1's and K2's

def is_stability(s):
    return is_within(s, S_MIN, S_MAX)


def is_difficulty(d):
    return is_within(d, D_MIN, D_MAX)


def is_day(t):
    return is_within(t, neg(DAY_MAX), DAY_MAX)


def is_share(r):
    return is_within(r, ZERO, ONE)


def is_rating(rating):
    return 1 <= rating <= 4


def is_day_number(day):
    return day <= 100000


def weights_refusal(w):
    if len(w) != 21:
        return 1
    return 0 if all(is_within(x, *BOX[i]) for i, x in enumerate(w)) else 2


def filling(parameters):
    """The refusal and the weights."""
    if len(parameters) not in (0, 17, 19, 21):
        return 12, [ZERO] * 21
    if all(is_finite(x) for x in parameters):
        filled = check_and_fill_parameters_fsrs6(parameters)
        if weights_refusal(filled) == 0:
            return 0, filled
    return 2, [ZERO] * 21


# by the letter: the formula, and what its arguments have to be
FORMULAS = {
    "C": (power_forgetting_curve_scalar, (is_day, is_finite)),
    "I": (next_interval_scalar, (is_finite, is_finite)),
    "S": (stability_after_success_scalar, (is_stability, is_share, is_difficulty, is_rating)),
    "L": (stability_after_failure_scalar, (is_stability, is_share, is_difficulty)),
    "T": (stability_short_term_scalar, (is_stability, is_rating)),
    "E": (init_difficulty_scalar, (is_rating,)),
    "M": (mean_reversion_scalar, (is_finite, is_finite)),
    "D": (next_difficulty_scalar, (is_difficulty, is_rating)),
    "N": (next_state_scalar, (is_finite, is_finite, is_day, lambda rating: True)),
    "P": (memory_state_from_sm2_scalar, (is_finite, is_finite, is_finite)),
}
TRUTHS = {"f": is_finite, "i": is_within, "p": is_stability, "q": is_difficulty, "t": is_day}
VALUES = {
    "c": clamp,
    "x": maximum,
    "n": minimum,
    "o": lambda s: maximum(s, S_MIN),
    "s": lambda s: clamp(s, S_MIN, S_MAX),
    "v": lambda s: clamp(s, ZERO, S_MAX),
    "d": lambda d: clamp(d, D_MIN, D_MAX),
}


# ---- the list

lines = Lines("study", NAMES)
remark = lines.remark
weights = None


def one_nan(x):
    return F32.nan if F32.is_nan(x) else x


def take(w):
    """The weights of the lines below."""
    global weights
    weights = list(w)
    lines.give("w", len(w), *w)


def line(letter, arguments, refusal, *values):
    arguments += (0,) * (4 - len(arguments))
    values += (0,) * (2 - len(values))
    lines.add(letter, *arguments, refusal, *values)


def ask(letter, *arguments):
    """A line of a function of the arguments alone, or of a formula over the weights taken last."""
    if letter in TRUTHS:
        line(letter, arguments, 0, int(TRUTHS[letter](*arguments)))
    elif letter in VALUES:
        line(letter, arguments, 0, one_nan(VALUES[letter](*arguments)))
    else:
        formula, ranges = FORMULAS[letter]
        good = all(is_good(x) for is_good, x in zip(ranges, arguments, strict=True))
        refusal = weights_refusal(weights) or (0 if good else 13)
        answer = 0 if refusal else formula(weights, *arguments)
        if answer is None:
            refusal, answer = 14, 0
        values = answer if isinstance(answer, tuple) else (answer,)
        line(letter, arguments, refusal, *(one_nan(x) for x in values))


def ask_on(stability, difficulty, seen, day, rating):
    """K2: the formula N after the days between, and the day that was named."""
    good = is_finite(stability) and is_finite(difficulty) and is_day_number(seen) and is_day_number(day)
    refusal = weights_refusal(weights) or (0 if good else 13) or (15 if day < seen else 0)
    values = 0, 0, 0
    if not refusal:
        values = *map(one_nan, next_state_scalar(weights, stability, difficulty, number(day - seen), rating)), day
    lines.add("O", stability, difficulty, seen, day, rating, refusal, *values)


def row_refusal(stability, difficulty, day, retention):
    good = is_finite(stability) and is_finite(difficulty) and is_day(day) and is_finite(retention)
    return weights_refusal(weights) or (0 if good else 13)


def right(stability, difficulty, day, rating, retention):
    """What the formulas N and I give, I of the stability after the review."""
    s, d = next_state_scalar(weights, stability, difficulty, day, rating)
    return one_nan(s), one_nan(d), one_nan(next_interval_scalar(weights, s, retention))


def ask_row(stability, difficulty, day, rating, retention, claimed):
    """K9: the first of the three fields whose pattern is not ours."""
    refusal, verdict = row_refusal(stability, difficulty, day, retention), 0
    if not refusal:
        wrong = [x != y for x, y in zip(claimed, right(stability, difficulty, day, rating, retention), strict=True)]
        verdict = wrong.index(True) + 1 if any(wrong) else 0
    lines.add("R", stability, difficulty, day, rating, retention, *claimed, refusal, verdict)


def ask_box():
    line("b", (), weights_refusal(weights))


def ask_finite():
    line("a", (), 0, int(all(is_finite(x) for x in weights)))


def ask_copy():
    lines.add("k", 0, *(one_nan(x) for x in (weights + [0] * 21)[:21]))


def ask_filling():
    refusal, filled = filling(weights)
    lines.add("F", refusal, *(one_nan(x) for x in filled))


# ---- the cases of domain

INF, NONE = F32.inf, F32.nan
TINY = [ZERO, MINUS, 1, neg(1), F32.least - 1, F32.least]
HUGE = [F32.max, neg(F32.max), INF, neg(INF)]
NANS = [NONE, neg(NONE), INF + 1, neg(INF + 1), F32.sign - 1]


def around(*ends):
    """Each end with the singles beside it."""
    return [x for end in ends for x in (down(end), end, up(end))]


def float_cases():
    some = [ZERO, MINUS, ONE, neg(F32.max), INF, neg(INF), NONE]
    for x in some:
        for y in some:
            ask("x", x, y)
            ask("n", x, y)
    for x in TINY + HUGE + NANS + [ONE, number("0.9"), number("-36500")]:
        ask("f", x)
    for low, high in ((neg(ONE), TEN), (ZERO, MINUS), (MINUS, ZERO), (neg(INF), INF)):  # Rust takes no other ends
        for x in (ZERO, MINUS, *around(low, high), INF, neg(INF), NONE):
            ask("c", x, low, high)
    for low, high in ((neg(ONE), TEN), (ZERO, MINUS), (neg(INF), INF), (NONE, ONE), (ONE, NONE), (TEN, ONE)):
        for x in (low, high, down(low), up(high), MINUS, NONE):
            ask("i", x, low, high)


def range_cases():
    for letter, ends in (
        ("o", (S_MIN, S_MAX)), ("s", (S_MIN, S_MAX)), ("v", (S_MAX,)), ("d", (D_MIN, D_MAX)),
        ("p", (S_MIN, S_MAX)), ("q", (D_MIN, D_MAX)), ("t", (DAY_MAX, neg(DAY_MAX))),
    ):
        for x in around(*ends) + TINY[:4] + HUGE + NANS[:1]:
            ask(letter, x)


def with_one(w, i, x):
    return w[:i] + [x] + w[i + 1:]


def box_cases():
    for i in range(21):
        low, high = BOX[i]
        for x in (low, high, down(low), up(high), either(*NANS), MINUS):
            take(with_one(FSRS6_DEFAULT_PARAMETERS, i, x))
            ask_box()
    for x in HUGE:
        take(with_one(FSRS6_DEFAULT_PARAMETERS, below(21), x))
        ask_box()
        ask_finite()
        ask_copy()
        ask_filling()


def length_cases():
    longer = FSRS6_DEFAULT_PARAMETERS + [ONE, ONE]
    for n in (0, 1, 16, 17, 18, 19, 20, 21, 22, 23):
        for last in (longer[n - 1], NONE) if n else (None,):  # where the length is wrong, that comes first
            take(longer[: n - 1] + [last] if n else [])
            ask_box()
            ask_finite()
            ask_copy()
            ask_filling()


# ---- the cases of the filling

# Sets of the two shorter lengths that the box takes once they are filled.
SET_17 = [number(text) for text in """
    0.4872 1.4003 3.7145 13.8206 5.1618 1.2298 0.8975 0.031 1.6474 0.1367 1.0461
    2.1072 0.0793 0.3246 1.587 0.2272 2.8755""".split()]
SET_19 = [number(text) for text in """
    0.40255 1.18385 3.173 15.69105 7.1949 0.5345 1.4604 0.0046 1.54575 0.1192 1.01925
    1.9395 0.11 0.29605 2.2698 0.2315 2.9898 0.51655 0.6621""".split()]
NEGATIVE_ZEROS = [MINUS if is_within(ZERO, *BOX[i]) else LOWEST[i] for i in range(21)]


def fill(w):
    take(w)
    ask_filling()


def fill_17(w4, w5, w6=SET_17[6]):
    fill(SET_17[:4] + [w4, w5, w6] + SET_17[7:])


def last_filled(w4, accepted, refused):
    """The last old weight 5 that the box takes, between one that it takes and a larger one that it does not."""
    while refused - accepted > 1:
        middle = (accepted + refused) // 2
        if filling(SET_17[:4] + [w4, middle] + SET_17[6:])[0]:
            refused = middle
        else:
            accepted = middle
    return accepted


def filling_cases():
    for w in ([], SET_17, SET_19, LOWEST, HIGHEST, NEGATIVE_ZEROS):
        fill(w)
    remark("filling 17: the old weight 5 gives weights 4 and 5; its logarithm's ends, and the box of both")
    for text in ("0", "0.333", "1", "3", "-0.9e-8", "-1e-8", "-0.3333333", "-0.33333334", "-0.5"):
        fill_17(SET_17[4], number(text))
    for x in (MINUS, 1, neg(1), F32.max, INF, NONE):
        fill_17(SET_17[4], x)
        fill_17(x, ZERO)
    for w5 in (ONE, number("7.001")):  # the sum at both ends of the box
        for w4 in around(sub(number(20), mul(w5, TWO)), neg(mul(w5, TWO))):
            fill_17(w4, w5)
    below_box = number("-108490")  # only what is made of it has to be in the box
    largest = last_filled(below_box, number("54250"), number("54255"))
    for w5 in (largest, up(largest), number("54250"), number("54200")):
        fill_17(below_box, w5)
    remark("filling 17: weight 6 at both ends, and the others, which stay")
    for w6 in around(number("5.5"), number("-0.5")) + [ZERO, MINUS, F32.max, NONE]:
        fill_17(SET_17[4], SET_17[5], w6)
    for i in (0, 8, 16):
        for x in (*BOX[i], down(BOX[i][0]), up(BOX[i][1]), either(*NANS)):
            fill(with_one(SET_17, i, x))
    remark("filling 19: nothing is worked out, and a zero keeps its sign")
    for i in (4, 5, 6, 17, 18):
        for x in (*BOX[i], up(BOX[i][1]), MINUS):
            fill(with_one(SET_19, i, x))
    fill(with_one(SET_19, 18, neg(INF)))


# ---- the cases of the formulas

DAYS = [ZERO, MINUS, 1, neg(1), neg(DAY_MAX), DAY_MAX, *HUGE, NONE] + [
    number(text) for text in "0.4 0.49999997 0.5 1.5 2.5 -0.4 -1 100000.0078125 -100000.0078125".split()]
FREE = TINY + HUGE + [NONE]  # where every finite number is taken
RATINGS = [0, 1, 2, 3, 4, 5, 4294967295]
R = number("0.9")
GOOD = {
    "C": (TEN, THREE), "I": (TEN, R), "S": (THREE, R, number("5.5"), 3), "L": (TEN, R, number("4.25")), "T": (ONE, 3),
    "E": (2,), "M": (number("5.5"), TWO), "D": (number("5.5"), 3), "N": (number("12.5"), number("6.25"), TEN, 3),
    "P": (number("2.5"), TEN, R),
}
BAD = {
    "C": (NONE, ONE), "I": (ONE, INF), "S": (THREE, TWO, THREE, 3), "L": (ZERO, ONE, THREE), "T": (ONE, 5),
    "E": (0,), "M": (INF, ONE), "D": (ELEVEN, 3), "N": (NONE, ONE, ONE, 3), "P": (NONE, ONE, ZERO),
}


def refusal_cases():
    outside = with_one(FSRS6_DEFAULT_PARAMETERS, 20, up(ONE))
    for w in (FSRS6_DEFAULT_PARAMETERS, outside, outside + [ONE], FSRS6_DEFAULT_PARAMETERS[:20], []):
        take(w)
        for letter in FORMULAS:
            ask(letter, *GOOD[letter])
            ask(letter, *BAD[letter])


def each(letter, place, values):
    """One argument goes through the values, and the others are good."""
    good = GOOD[letter]
    for x in values:
        ask(letter, *good[:place], x, *good[place + 1:])


def edge_cases():
    s_ends, d_ends, r_ends = (
        around(*ends) + [ZERO, MINUS, F32.max, INF, neg(INF), NONE] for ends in ((S_MIN, S_MAX), (D_MIN, D_MAX), (ZERO, ONE)))
    free = FREE + around(S_MIN, S_MAX) + [neg(THREE)]
    remark("power_forgetting_curve_scalar: days and stabilities")
    each("C", 0, DAYS)
    each("C", 1, free)
    remark("next_interval_scalar: stabilities and retentions")
    each("I", 0, free)
    each("I", 1, FREE + around(number("0.0001"), number("0.9999")) + [ONE, number("0.5"), neg(ONE)])
    remark("stability_after_success_scalar: the ends of each range")
    for place, values in enumerate((s_ends, r_ends, d_ends, RATINGS)):
        each("S", place, values)
    remark("stability_after_failure_scalar: the ends of each range")
    for place, values in enumerate((s_ends, r_ends, d_ends)):
        each("L", place, values)
    remark("stability_short_term_scalar: the ends of each range")
    each("T", 0, s_ends)
    each("T", 1, RATINGS)
    for rating in (1, 2, 4):
        for s in (S_MIN, S_MAX):
            ask("T", s, rating)
    remark("init_difficulty_scalar, mean_reversion_scalar, next_difficulty_scalar: the ends of each range")
    each("E", 0, RATINGS)
    each("M", 0, FREE)
    each("M", 1, FREE)
    each("D", 0, d_ends)
    each("D", 1, RATINGS)
    for rating in (1, 2, 4):
        for d in (D_MIN, D_MAX):
            ask("D", d, rating)


def state_cases():
    s, d, _, _ = GOOD["N"]
    remark("next_state_scalar: days, each with a rating, and ratings on the same day and later")
    for t in DAYS:
        ask("N", s, d, t, between(1, 4))
    for rating in RATINGS:
        ask("N", s, d, number("0.4"), rating)
        ask("N", s, d, number("19.5"), rating)
    remark("next_state_scalar: states at and beyond the ends, which are clamped, and ones that are not finite")
    for x in FREE:
        ask("N", x, d, TEN, between(1, 4))
        ask("N", s, x, TEN, between(1, 4))
    for x, y in zip(around(S_MIN, S_MAX), around(D_MIN, D_MAX)):
        for t in (ZERO, ONE):
            ask("N", x, y, t, between(1, 4))
    remark("weights by which a review moves far: to each end of both ranges")
    steep = list(FSRS6_DEFAULT_PARAMETERS)
    for i, text in ((6, "6"), (7, "0"), (8, "5"), (17, "3"), (18, "0"), (19, "0")):
        steep[i] = number(text)
    take(steep)
    for rating in (1, 2, 3, 4):
        ask("D", number(5), rating)
        for s in (S_MIN, number(5), S_MAX):
            ask("T", s, rating)
            ask("S", s, R, number(5), rating)
            ask("N", s, number(5), ZERO, rating)
            ask("N", s, number(5), DAY_MAX, rating)


def corner(is_high):
    return [BOX[i][is_high(i)] for i in range(21)]


def corner_cases():
    corners = [LOWEST, HIGHEST, NEGATIVE_ZEROS, corner(lambda i: i % 2), corner(lambda i: 1 - i % 2)]
    for w in corners + [corner(lambda i: below(2)) for _ in range(4)]:
        take(w)
        for s, r, d in ((S_MIN, ZERO, D_MIN), (number(20), R, number(5)), (S_MAX, ONE, D_MAX)):
            ask("C", either(DAY_MAX, ONE, number(36500)), s)
            ask("I", s, either(ZERO, R, ONE))
            ask("S", s, either(ZERO, r), d, either(2, 3, 4))
            ask("L", s, r, d)
            ask("T", s, between(1, 4))
            ask("D", d, between(1, 4))
            ask("N", s, d, either(ZERO, neg(TEN)), between(1, 4))
            ask("N", s, d, either(ONE, DAY_MAX), 1)
            ask("N", s, d, either(ONE, DAY_MAX), between(2, 4))
        ask("S", S_MAX, ZERO, D_MIN, 4)
        ask("L", S_MAX, ZERO, D_MIN)
        ask("E", between(1, 3))
        ask("E", 4)
        ask("M", D_MAX, D_MIN)


# ---- pseudo-random weights and arguments

def some_single(low, high):
    """From low to high, neither of them negative: any pattern between, or any number."""
    if below(2):
        return between(low, high)
    a, b = F32.size(low), F32.size(high)
    return F32.rounded(False, a + (b - a) * Fraction(below(1 << 40), 1 << 40))


def some_weight(i):
    low, high = BOX[i]
    if below(8) == 0:
        return either(low, high)
    if low > F32.sign:  # from -5 to 5
        return some_single(ZERO, high) ^ either(0, F32.sign)
    return some_single(low, high)


def some_set():
    return [some_weight(i) for i in range(21)]


def some_day():
    return either(some_single(ZERO, TWO), number(below(400)), some_single(ONE, DAY_MAX), neg(some_single(ZERO, DAY_MAX)))


def some_arguments(letter):
    """Inside the ranges of the formula."""
    s, r, d, rating = some_single(S_MIN, S_MAX), some_single(ZERO, ONE), some_single(D_MIN, D_MAX), between(1, 4)
    return {
        "C": (some_day(), s), "I": (s, some_single(number("0.0001"), ONE)), "S": (s, r, d, rating), "L": (s, r, d),
        "T": (s, rating), "E": (rating,), "M": (some_single(D_MIN, D_MAX), d ^ either(0, F32.sign)), "D": (d, rating),
        "N": (s, d, some_day(), rating),
    }[letter]


def some_cases():
    for letter in "CISLTEMDNN":
        ask(letter, *some_arguments(letter))


# ---- misreadings: the same formula in exact numbers, rounded elsewhere

def unfused_curve(w, t, s):
    decay = neg(w[20])
    factor = sub(powf(number("0.9"), div(ONE, decay)), ONE)
    return powf(add(mul(div(rnd(maximum(t, ZERO)), s), factor), ONE), decay)


def interval_in_another_order(w, s, r):
    decay = neg(w[20])
    factor = sub(powf(number("0.9"), div(ONE, decay)), ONE)
    return clamp(mul(s, div(sub(powf(r, div(ONE, decay)), ONE), factor)), ZERO, S_MAX)


def success_in_another_order(w, s, r, d, rating):
    product = mul(mul(exp(w[8]), powf(s, neg(w[9]))), mul(sub(ELEVEN, d), sub(exp(mul(sub(ONE, r), w[10])), ONE)))
    product = mul(mul(product, w[15] if rating == 2 else ONE), w[16] if rating == 4 else ONE)
    return clamp(fma(s, product, s), S_MIN, S_MAX)


def failure_by_a_product(w, s, r, d):
    new_s = mul(mul(w[11], mul(powf(d, neg(w[12])), sub(powf(add(s, ONE), w[13]), ONE))), exp(mul(sub(ONE, r), w[14])))
    return clamp(minimum(new_s, mul(s, exp(neg(mul(w[17], w[18]))))), S_MIN, S_MAX)


def short_term_in_another_order(w, s, rating):
    sinc = mul(exp(add(mul(w[17], sub(number(rating), THREE)), mul(w[17], w[18]))), powf(s, neg(w[19])))
    return clamp(mul(s, maximum(sinc, ONE) if rating >= 2 else sinc), S_MIN, S_MAX)


def first_difficulty_in_another_order(w, rating):
    return sub(w[4], sub(exp(mul(w[5], number(rating - 1))), ONE))


def fused_mean(w, init, current):
    return fma(w[7], init, mul(sub(ONE, w[7]), current))


def difficulty_in_another_order(w, d, rating):
    new_d = add(d, div(mul(sub(TEN, d), mul(neg(w[6]), sub(number(rating), THREE))), NINE))
    return clamp(fused_mean(w, init_difficulty_scalar(w, 4), new_d), D_MIN, D_MAX)


MISREAD = {
    "C": unfused_curve, "I": interval_in_another_order, "S": success_in_another_order, "L": failure_by_a_product,
    "T": short_term_in_another_order, "E": first_difficulty_in_another_order, "M": fused_mean, "D": difficulty_in_another_order,
}


def misread_cases(n):
    """Arguments at which a misreading of the formula gives another answer."""
    for letter, misread in MISREAD.items():
        found = 0
        while found < n:
            w = some_set() if letter in "CTEM" else FSRS6_DEFAULT_PARAMETERS  # those that show it too seldom
            arguments = some_arguments(letter)
            if misread(w, *arguments) != FORMULAS[letter][0](w, *arguments):
                take(w)
                ask(letter, *arguments)
                found += 1
    found = 0
    while found < n:
        w5 = some_single(ZERO, number(4))
        if ln(fma(w5, THREE, ONE)) != ln(add(mul(w5, THREE), ONE)):
            fill_17(SET_17[4], w5)
            found += 1


# ---- the cases of a deck from SM-2

def sm2_edge_cases():
    far = [number(text) for text in "3e38 -3e38 1e30 -1e30".split()]
    for place, texts, ends in (
        (0, "1.3 1.7 2.1 3 5 100 -1", (ONE,)),
        (1, "0.5 1 30 365.25 -3", (S_MIN, S_MAX)),
        (2, "1e-38 1e-10 0.0001 0.1 0.5 0.8 0.95 0.9999 1.5 90 -0.5", (ONE,)),
    ):
        each("P", place, FREE + far + around(*ends) + [number(text) for text in texts.split()])
    for x in (NONE, INF, neg(INF)):  # 13 before 14
        for retention in (ZERO, ONE, x):
            ask("P", x, TEN, retention)
            ask("P", TWO, x, retention)


def last_ease(end):
    """The last ease factor whose difficulty is not below the end: the larger the factor, the smaller the difficulty."""
    above, low = ONE, TEN
    while low - above > 1:
        middle = (above + low) // 2
        _, difficulty = memory_state_from_sm2_scalar(weights, middle, *GOOD["P"][1:])
        above, low = (above, middle) if less(difficulty, end) else (middle, low)
    return above


def sm2_weight_cases():
    for i, texts in ((10, "0 -0.0 1e-30 1e-15 1e-7 5"), (9, "0 1"), (8, "-5 5"), (20, "0.1 0.5 1")):
        for text in texts.split():
            take(with_one(FSRS6_DEFAULT_PARAMETERS, i, MINUS if text == "-0.0" else number(text)))
            for ease in (ONE, number("2.5")):
                for retention in (number("1e-38"), number("0.01"), R, down(ONE), number("1.5"), number("-0.5")):
                    ask("P", ease, TEN, retention)
            ask("P", number("2.5"), number("3e38"), R)
    for w in (LOWEST, HIGHEST, NEGATIVE_ZEROS, *(corner(lambda i: below(2)) for _ in range(6))):
        take(w)
        for _ in range(3):
            ask("P", *some_card())


def some_card():
    """As a deck has them, or anything that is not negative."""
    ease = either(some_single(number("1.3"), number("3.5")), some_single(ZERO, number(100)))
    interval = either(number(1 + below(400)), some_single(ZERO, S_MAX), some_single(ZERO, F32.max))
    return ease, interval, either(some_single(number("0.5"), ONE), some_single(ZERO, ONE))


# ---- misreadings of it; each is given the stability of the formula

def difficulty_of(w, ease, retention, stability, less_one=exp_m1):
    product = mul(mul(exp(w[8]), powf(stability, neg(w[9]))), less_one(mul(sub(ONE, retention), w[10])))
    return clamp(sub(ELEVEN, div(sub(ease, ONE), product)), D_MIN, D_MAX)


def sm2_by_a_quotient(w, ease, interval, retention, stability):
    """The factor is divided first."""
    factor, power = (sub(powf(x, div(ONE, neg(w[20]))), ONE) for x in (number("0.9"), retention))
    stability = mul(maximum(interval, S_MIN), div(factor, power))
    return stability, difficulty_of(w, ease, retention, stability)


def sm2_by_exp(w, ease, interval, retention, stability):
    return stability, difficulty_of(w, ease, retention, stability, lambda x: sub(exp(x), ONE))


def sm2_clamped(w, ease, interval, retention, stability):
    return stability, difficulty_of(w, ease, retention, clamp(stability, S_MIN, S_MAX))


def sm2_in_another_order(w, ease, interval, retention, stability):
    product = mul(powf(stability, neg(w[9])), exp_m1(mul(sub(ONE, retention), w[10])))
    return stability, clamp(sub(ELEVEN, div(sub(ease, ONE), mul(exp(w[8]), product))), D_MIN, D_MAX)


def sm2_some_cases():
    for misread in (sm2_by_a_quotient, sm2_by_exp, sm2_clamped, sm2_in_another_order):
        found = 0
        while found < 6:
            w, card = either(FSRS6_DEFAULT_PARAMETERS, some_set()), some_card()
            answer = memory_state_from_sm2_scalar(w, *card)
            if answer and misread(w, *card, answer[0]) != answer:
                take(w)
                ask("P", *card)
                found += 1
    for w in (FSRS6_DEFAULT_PARAMETERS, *(some_set() for _ in range(12))):
        take(w)
        for _ in range(3):
            ask("P", *some_card())


def sm2_cases():
    remark("memory_state_from_sm2_scalar: ease factors, intervals and retentions, and reasons for 13 and 14 at once")
    take(FSRS6_DEFAULT_PARAMETERS)
    sm2_edge_cases()
    remark("memory_state_from_sm2_scalar: where the difficulty meets an end of its range")
    for end in (D_MAX, up(D_MIN)):
        each("P", 0, around(last_ease(end)))
    remark("memory_state_from_sm2_scalar: weights by which a factor vanishes or a power is 1, and corners of the box")
    sm2_weight_cases()
    remark("memory_state_from_sm2_scalar: pseudo-random, first where the formula worked in another way gives another answer")
    sm2_some_cases()


# ---- reviews on days

def on_day_edge_cases():
    days = (0, 1, 99999, 100000, 100001, 1 << 24, (1 << 32) - 1)
    for seen in days:
        for day in days:
            ask_on(number(5), number(6), seen, day, 3)
    for rating in (0, 1, 2, 3, 4, 5, (1 << 32) - 1):
        for day in (19000, 19001, 19400):
            ask_on(number(5), number(6), 19000, day, rating)
    for bad in (*HUGE[2:], *NANS):
        for seen, day in ((7, 9), (9, 9), (9, 7), (7, 100001), (100001, 7)):
            ask_on(bad, number(6), seen, day, 3)
            ask_on(number(5), bad, seen, day, 3)
    for s in around(S_MIN, S_MAX) + TINY + HUGE[:2]:
        for day in (30, 31, 29):
            ask_on(s, either(ZERO, D_MIN, D_MAX, F32.max), 30, day, between(1, 4))


def on_day_weight_cases():
    bad = [with_one(FSRS6_DEFAULT_PARAMETERS, 20, up(ONE)), with_one(FSRS6_DEFAULT_PARAMETERS, 0, NONE)]
    for w in bad + [FSRS6_DEFAULT_PARAMETERS[:20], []]:
        take(w)
        for seen, day in ((7, 9), (9, 7), (100001, 7)):
            ask_on(number(5), number(6), seen, day, 3)
            ask_on(NONE, number(6), seen, day, 3)


def on_day_some_cases():
    for _ in range(24):
        take(some_set())
        for _ in range(3):
            seen = either(below(100001), below(100))
            day = min(seen + either(0, below(3), below(400), below(100001)), 100000)
            ask_on(some_single(S_MIN, S_MAX), some_single(D_MIN, D_MAX), seen, day, between(1, 4))


def on_day_cases():
    remark("next_state_on_scalar: days at the ends and past them, ratings, states that are not finite or out of their range")
    take(FSRS6_DEFAULT_PARAMETERS)
    on_day_edge_cases()
    remark("next_state_on_scalar: reasons for 1, 2, 13 and 15 at once")
    on_day_weight_cases()
    remark("next_state_on_scalar: pseudo-random")
    on_day_some_cases()


# ---- rows of an app

def with_field(claimed, i, pattern):
    return *claimed[:i], pattern, *claimed[i + 1:]


def row_judged_cases():
    """Each field with every bit flipped, a zero, an infinity or a NaN in its place, and the values of other readings."""
    row = number(5), number(6), number(4), 3, R
    ours = right(*row)
    ask_row(*row, ours)
    for i, pattern in enumerate(ours):
        for bit in range(32):
            ask_row(*row, with_field(ours, i, pattern ^ 1 << bit))
        for other in (*TINY, *HUGE, *NANS, up(pattern), down(pattern)):
            ask_row(*row, with_field(ours, i, other))
    for flips in range(1, 8):  # of several wrong fields the first is named
        ask_row(*row, tuple(pattern ^ (flips >> i & 1) for i, pattern in enumerate(ours)))
    s, d, _ = ours
    for days in (next_interval_scalar(weights, row[0], R), next_interval_scalar(weights, s, number("0.8")), rnd(ours[2])):
        ask_row(*row, (s, d, days))
    ask_row(*row, (d, s, ours[2]))


def row_edge_cases():
    """Accepted rows at the ends of what is taken, and beside each the same row with one bit flipped."""
    s, d = number(5), number(6)
    for day in DAYS:
        row_and_flipped(s, d, day, between(1, 4), R)
    for rating in RATINGS:
        row_and_flipped(s, d, either(ZERO, TEN), rating, R)
    for x in FREE + around(S_MIN, S_MAX):
        row_and_flipped(x, d, either(ZERO, TEN), between(1, 4), R)
    for x in FREE + around(D_MIN, D_MAX):
        row_and_flipped(s, x, either(ZERO, TEN), between(1, 4), R)
    for x in FREE + around(number("0.0001"), number("0.9999")) + [ONE, neg(ONE)]:
        row_and_flipped(s, d, either(ZERO, TEN), between(1, 4), x)


def row_and_flipped(*row):
    ours = right(*row) if row_refusal(row[0], row[1], row[2], row[4]) == 0 else (S_MIN, D_MIN, ZERO)
    ask_row(*row, ours)
    i = below(3)
    ask_row(*row, with_field(ours, i, ours[i] ^ 1 << below(32)))


def row_weight_cases():
    """1, 2 and 13 before any verdict, whatever is claimed."""
    bad = [with_one(FSRS6_DEFAULT_PARAMETERS, 20, up(ONE)), with_one(FSRS6_DEFAULT_PARAMETERS, 0, NONE)]
    for w in bad + [FSRS6_DEFAULT_PARAMETERS[:20], [], FSRS6_DEFAULT_PARAMETERS]:
        take(w)
        for x in (ONE, INF, NONE):
            for claimed in ((ZERO, ZERO, ZERO), (NONE, NONE, NONE)):
                ask_row(x, D_MIN, ONE, 3, R, claimed)
                ask_row(ONE, x, ONE, 3, R, claimed)
                ask_row(ONE, D_MIN, x, 3, R, claimed)
                ask_row(ONE, D_MIN, ONE, 3, x, claimed)


def row_cases():
    remark("check_row: each bit of each field flipped, zeros, infinities and NaNs claimed, several fields wrong, other readings")
    take(FSRS6_DEFAULT_PARAMETERS)
    row_judged_cases()
    remark("check_row: days, ratings, states and retentions at their ends, each accepted and with one bit flipped")
    row_edge_cases()
    remark("check_row: 1, 2 and 13, before any verdict")
    row_weight_cases()
    remark("check_row: corners of the box, and pseudo-random")
    for w in [LOWEST, HIGHEST, NEGATIVE_ZEROS] + [some_set() for _ in range(20)]:
        take(w)
        for _ in range(2):
            row_and_flipped(
                some_single(S_MIN, S_MAX), some_single(D_MIN, D_MAX), some_day(), between(1, 4), some_single(number("0.0001"), ONE))


def main():
    remark("Test vectors of domain and model_v6, seed %d: made by tools/vectors/study.py, which says how" % seeded())
    remark("domain: comparing")
    float_cases()
    remark("domain: the ranges of stability, difficulty, interval and day")
    range_cases()
    remark("the default weights; and for each weight both ends of its box, the next singles outside, a NaN and -0.0")
    lines.add("u", 0, *FSRS6_DEFAULT_PARAMETERS)
    box_cases()
    remark("lengths of a weight set, with a good and a bad last weight")
    length_cases()
    remark("filling: nothing given, a set of each shorter length, the ends of the box")
    filling_cases()
    remark("refusals 1, 2 and 13: each alone, and several at once")
    refusal_cases()
    take(FSRS6_DEFAULT_PARAMETERS)
    edge_cases()
    state_cases()
    remark("corners of the box: all low, all high, all zeros negative, by turns, and pseudo-random ones")
    corner_cases()
    remark("pseudo-random: where a formula worked in another order, or fused or not fused, gives another answer")
    misread_cases(6)
    remark("pseudo-random: arguments, with the default weights and with others")
    take(FSRS6_DEFAULT_PARAMETERS)
    for _ in range(8):
        some_cases()
    for _ in range(12):
        take(some_set())
        some_cases()
    sm2_cases()
    on_day_cases()
    row_cases()
    lines.write()


main()
