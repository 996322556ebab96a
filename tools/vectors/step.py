#!/usr/bin/env python3
"""Writes crates/vectors/data/step, the test vectors of the training step and its reverse, and what the program says of it.

    tools/vectors/step.py [SEED]

How the list is made: every answer is computed here, with whole numbers and exact fractions alone, and
never with a float. The formulas are the Rust's own, line by line under its names, from analytic_v6.rs;
the box, the ranges, the refusals and what is read are document 01's. This is a second reading of both,
and analytic.py, which has the formulas, says what it rests on. The arguments are chosen below:
first cases by hand, then pseudo-random ones (random.Random(SEED), SEED 1 if none is given; only its
getrandbits is used).

lines.py says what all lists share. The row is a whole number; where nothing is said a word is 0.

    T    training_step
    B    training_step_backward

    words     T                                     B
    0-4       stability difficulty day rating row   the same
    5-7       -                                     the gradients by stability, difficulty, retrievability
    8         the refusal, 0 where there is none    the same
    9-10      the state after the step              the gradients by the state before it
    11-12     the record: the state as given        from 11 on: the slots after the call, a slice
    13-14     the state as clamped
    15-19     day, rating, retrievability, and the outputs before their clamp
    20        0 padding, 1 first, 2 same-day, 3 lapse, 4 success
    21-23     first: rating; same-day: raw value active; lapse: raw floor floored
"""
from lines import Lines, below, between, either, seeded

from analytic import (
    BEYOND, BOX, D_MAX, D_MIN, DAY_MAX, DEFAULT, HIGHEST, INF, INF64, LEAST, LEAST64, LOWEST, MINUSES, MIXED, MOST,
    MOST64, NEGATIVE_ZEROS, NONE, NONE64, NUMBERED, Number, ONE, S_MAX, S_MIN, ZERO, around, backward_failure,
    backward_success, corner, double, down, is_unread, near_default, runtime_params, single, some_set, some_single,
    step_backward, stepped, up, weights_refusal, wide, with_some,
)
from floats import F32, F64

NAMES = {"T": "training_step", "B": "training_step_backward"}


# ---- document 01's refusals

def refusal(w, slots, s, d, day, rating, row):
    """`slots` is how many are lent: 21 where none are asked for."""
    if weights_refusal(w):
        return weights_refusal(w)
    if slots != 21:
        return 5
    if not s.is_finite() or not d.is_finite():
        return 13
    if not any(rating == n for n in range(5)):
        return 6
    if not is_unread(s, rating, row) and not (-DAY_MAX <= day and day <= DAY_MAX):
        return 7
    return 0


# ---- the entries

def branch_of(c):
    """The branch's number, and the numbers that it has."""
    if c.padding:
        return 0, 0, 0, 0
    if c.init_selected:
        return 1, c.init_rating, 0, 0
    if c.use_short:
        return 2, c.short_raw.b, c.short_value.b, int(c.short_raw_active)
    if c.use_failure:
        return 3, c.failure_raw.b, c.failure_floor.b, int(c.failure_used_floor)
    return 4, 0, 0, 0


def training_step(w, s, d, day, rating, row):
    """The words of a T line from the refusal on."""
    n = refusal(w, 21, s, d, day, rating, row)
    if n:
        return [n] + [0] * 15
    _, after, c = stepped(w, s, d, day, rating, row)
    numbers = (
        after.s, after.d, c.state_s, c.state_d, c.last_s, c.last_d, c.delta_t, c.rating, c.retrievability,
        c.pre_clamp_s, c.mean_pre_clamp_d,
    )
    return [0, *(x.b for x in numbers), *branch_of(c)]


def training_step_backward(w, s, d, day, rating, row, g_s, g_d, g_r, slots):
    """The words of a B line from the refusal on."""
    n = refusal(w, len(slots), s, d, day, rating, row)
    gw = list(slots)
    grads = [double(0), double(0)]
    if n == 0:
        p, _, c = stepped(w, s, d, day, rating, row)
        grads = step_backward(p, c, g_s, g_d, g_r, gw)
    return [n, *(x.b for x in grads), *slice_of(gw)]


# ---- the list

lines = Lines("step", NAMES)
remark = lines.remark


def slice_of(numbers):
    return [len(numbers), *(x.b for x in numbers)]


def take(w):
    """The weights of the lines below."""
    take.weights = list(w)
    lines.give("w", *slice_of(w))


def start(slots, count=21):
    """The slots that the B lines below start from, so many of them."""
    start.slots = slots[:count]
    lines.give("g", *slice_of(start.slots))


def forward(s, d, day, rating, row):
    given = (s.b, d.b, day.b, rating.b, row, 0, 0, 0)
    lines.add("T", *given, *training_step(take.weights, s, d, day, rating, row))


def reverse(s, d, day, rating, row, g_s, g_d, g_r):
    given = (s.b, d.b, day.b, rating.b, row, g_s.b, g_d.b, g_r.b)
    lines.add("B", *given, *training_step_backward(take.weights, s, d, day, rating, row, g_s, g_d, g_r, start.slots))


def both(step, *grads):
    """The step, and its reverse with each triple of gradients."""
    forward(*step)
    for g in grads:
        reverse(*step, *g)


# ---- what the cases are made of

LAST_ROW = (1 << 64) - 1
G = (double("0.7"), double("-1.3"), double("0.31"))
PLUS = (double("0.9"), double("1.7"), double("2.1"))


def at(s, d, day, rating, row=1):
    return tuple(x if isinstance(x, Number) else single(x) for x in (s, d, day, rating)) + (row,)


# a step of each branch and sub-branch under the default weights
STEPS = {
    "padding at row 0": at(0, 0, 0, 0, 0),
    "padding later": at("12.5", "6.25", 3, 0),
    "first, rating 1": at(0, 0, 0, 1, 0),
    "first, rating 3": at(0, 0, 0, 3, 0),
    "first, rating 4": at(0, 0, 0, 4, 0),
    "same-day, raw": at("0.5", "5.5", 0, 3),
    "same-day, floored": at("1000", "5.5", 0, 2),
    "same-day, rating 1": at("12.5", "4.5", 0, 1),
    "lapse, raw": at("12.5", "6.25", 10, 1),
    "lapse, floored": at("0.25", "2.5", 3000, 1),
    "success, hard": at("12.5", "6.25", 10, 2),
    "success, plain": at("12.5", "6.25", 10, 3),
    "success, easy": at("12.5", "2.25", 30, 4),
}


# ---- the cases

def names_hold():
    """Each of STEPS goes the way that its name says."""
    for name, step in STEPS.items():
        tag, _, _, flag = branch_of(stepped(DEFAULT, *step)[2])
        assert name.startswith(("padding", "first", "same-day", "lapse", "success")[tag]), name
        assert ("floored" in name) == ((tag, flag) in ((2, 0), (3, 1))), name


def branch_cases():
    remark("padding: at row 0 and later, either zero, its day unread; then a state that is clamped")
    for step in (
        at(0, 0, 0, 0, 0), at(0, 0, NONE, -ZERO, 0), at("12.5", "6.25", INF, 0, 1), at("12.5", "6.25", 5, -ZERO, 7),
        at(0, 0, BEYOND, 0, 1), at(-ZERO, -ZERO, -ZERO, 0, 1), at(-5, 20, -INF, 0, LAST_ROW), at(40000, -3, 1, 0, 0),
    ):
        both(step, G)
    remark("first: ratings 1 to 4 at row 0 with a stability of either zero; the day is unread, the difficulty is not used")
    for rating in range(1, 5):
        both(at(0, 0, 0, rating, 0), G)
        both(at(-ZERO, "5.5", either(NONE, INF, BEYOND, -BEYOND), rating, 0), PLUS)
    for d in (-ZERO, 20, MOST):
        both(at(0, d, -INF, 2, 0), G)
    remark("no first step: row 0 with another stability, a later row with stability 0")
    for step in (
        at(LEAST, 0, 0, 3, 0), at(-LEAST, 5, 1, 3, 0), at("12.5", "6.25", 10, 3, 0), at("12.5", "6.25", 0, 1, 0),
        at(0, 0, 0, 3, 1), at(0, 0, 5, 1, 1), at(-ZERO, 5, 5, 4, LAST_ROW), at(0, 5, 0, 1, 2),
    ):
        both(step, G)
    remark("same-day: ratings 1 to 4 with the raw multiplier above 1, below it and floored; either zero")
    for rating in range(1, 5):
        for s in (S_MIN, "0.5", 3, S_MAX):
            both(at(s, "5.5", either(ZERO, -ZERO), rating), G)
    remark("day -0.0 is same-day, one below or next to 0 is not, and none is rounded")
    for day in (-ZERO, LEAST, -LEAST, "-0.25", "0.25", "0.5", "-1", "1.5", DAY_MAX, -DAY_MAX):
        both(at("2.5", "6.25", day, 3), G)
        forward(*at("2.5", "6.25", day, 1))
    remark("lapse and success: raw and floored, hard, plain and easy")
    for name, step in STEPS.items():
        if name.startswith(("lapse", "success")):
            both(step, G)
            both(step[:2] + (single(200),) + step[3:], PLUS)


def raw_one_cases():
    remark("same-day: a raw multiplier of exactly 1 counts as raw; one next below is floored but for rating 1")
    take(with_some(DEFAULT, w17=0, w19=0))
    for rating in range(1, 5):
        both(at("12.5", "4.5", 0, rating), G)
    both(at(S_MIN, 1, -ZERO, 3), G)
    both(at(S_MAX, 10, 0, 2), G)
    take(with_some(DEFAULT, w17=0, w19="0.00000003"))
    for rating in (1, 2, 4):
        for s in (2, S_MIN):
            both(at(s, "4.5", 0, rating), G)
    take(with_some(DEFAULT, w17=-ZERO, w18=-ZERO, w19=-ZERO))
    both(at(5, "4.5", 0, 3), G)


def raw_and_floor(w, step):
    c = stepped(w, *step)[2]
    return c.failure_raw, c.failure_floor


def equal_lapse(w, step):
    """Weight 11 at which raw and floor are one single: both grow or stay as their patterns do."""
    low, high = BOX[11][0].b, BOX[11][1].b
    while low < high:
        middle = (low + high) // 2
        raw, floor = raw_and_floor(with_some(w, w11=Number(F32, middle)), step)
        low, high = (middle + 1, high) if raw < floor else (low, middle)
    w = with_some(w, w11=Number(F32, low))
    raw, floor = raw_and_floor(w, step)
    return w if raw == floor else None


def lapse_cases():
    remark("lapse: floor and raw equal, which takes raw, and weight 11 one step to either side")
    found = 0
    while found < 2:
        step = at(some_single(ONE, single(50)), some_single(D_MIN, D_MAX), some_single(ONE, single(90)), 1)
        w = equal_lapse(with_some(DEFAULT, w17=some_single(ZERO, ONE)), step)
        if w:
            for x in around(w[11]):
                take(with_some(w, w11=x))
                both(step, G)
            found += 1
    take(with_some(DEFAULT, w11=1, w12=0, w13=1, w14=0, w17=0))
    for s in (1, 3):
        assert raw_and_floor(take.weights, at(s, 5, 5, 1))[0] == single(s)
        both(at(s, 5, 5, 1), G)
    remark("lapse: weight 13 zero gives a raw of 0, below the range; day -1 gives a retrievability of 1")
    take(with_some(DEFAULT, w13=0))
    both(at(5, 5, 1, 1), G, PLUS)
    take(DEFAULT)
    both(at("2.5", 5, -1, 1), PLUS)


def output_clamp_cases():
    remark("the stability's output clamp: at each end, next beyond it and far beyond")
    take(with_some(DEFAULT, w17="0.00000012", w18=0, w19=0))
    for s in (S_MAX, down(S_MAX), down(down(S_MAX))):
        both(at(s, 5, 0, 4), G)
    for s in (S_MIN, up(S_MIN), up(up(S_MIN))):
        both(at(s, 5, 0, 1), G)
    take(DEFAULT)
    for step in (at(S_MAX, 5, 100, 3), at(S_MAX, 5, -5, 3), at(S_MIN, 5, -5, 3), at(S_MIN, 5, 1, 1), at(36000, 1, 90000, 4)):
        both(step, G, (INF64, G[1], double(0)))
    take(with_some(DEFAULT, w0=S_MIN, w1=S_MAX, w2=up(S_MIN), w3=down(S_MAX)))
    for rating in range(1, 5):
        both(at(0, 0, 0, rating, 0), G)
    remark("the difficulty's output clamp in a first step: at each end, next beyond it and far beyond")
    for w4 in (0, 1, 10, 20, down(D_MIN), up(D_MIN), down(D_MAX), up(D_MAX)):
        take(with_some(DEFAULT, w4=w4))
        both(at(0, 0, 0, 1, 0), G)
    for rating in (2, 4):
        both(at(0, 0, 0, rating, 0), (G[0], INF64, G[2]), (G[0], -MOST64, G[2]))
    take(with_some(DEFAULT, w5=4))
    both(at(0, 0, 0, 4, 0), G, (G[0], NONE64, G[2]))
    remark("the difficulty's output clamp in a review: at each end, next beyond it and far beyond")
    take(with_some(DEFAULT, w7=0, w6="0.0000001"))
    for d in (D_MIN, up(D_MIN), D_MAX):
        for rating in (1, 3, 4):
            both(at(5, d, 5, rating), G)
    take(with_some(DEFAULT, w4=20, w5=0, w7="0.000001"))
    both(at(5, D_MAX, 5, 3), G, (double(0), INF64, double(0)))
    take(with_some(DEFAULT, w6=6))
    for rating in range(1, 5):
        both(at(5, 5, 5, rating), G, (G[0], -INF64, double(0)))
        reverse(*at(5, 5, 0, rating), *PLUS)


def state_cases():
    remark("the state's clamps: stabilities and difficulties at, beside and beyond the ends, each with a gradient through")
    take(DEFAULT)
    far = [-ZERO, LEAST, -LEAST, -single(3), MOST, -MOST]
    for i, s in enumerate(around(S_MIN, S_MAX) + far):
        both(at(s, "5.5", i % 3, 1 + i % 4), G)
    for i, d in enumerate(around(D_MIN, D_MAX) + far):
        both(at("5.5", d, i % 3, 1 + i % 4), G)
    for s, d in zip(around(S_MIN, S_MAX), around(D_MAX, D_MIN)):
        reverse(*at(s, d, 2, 0), *G)
    remark("both beyond: gradients that a clamp stops, the infinite ones as a NaN")
    for step in (at(-1, 11, 2, 3), at(-1, 11, 0, 3), at(40000, 0, 2, 1), at(40000, 0, 2, 0)):
        both(step, (INF64, -INF64, double(0)), (-G[0], -G[1], G[2]))


def gradient_cases():
    """Each early return is taken and passed, and each gradient goes alone."""
    o, n = double(0), -double(0)
    triples = [
        (o, o, o), (n, n, n), (G[0], o, o), (o, G[1], n), (n, o, -G[2]), (-G[0], n, G[2]), (NONE64, o, o), (o, NONE64, o),
        (o, o, NONE64), (INF64, o, n), (n, n, INF64), (LEAST64, -LEAST64, LEAST64), (MOST64, MOST64, -MOST64),
    ]
    take(DEFAULT)
    for name, step in STEPS.items():
        if name != "padding at row 0":
            remark("gradients, from slots of -0.0: " + name)
            for g in triples:
                reverse(*step, *g)


def cancelled_cases():
    remark("a gradient by the retrievability that the branch's own takes away: the curve is left out, and one step beside")
    take(DEFAULT)
    for name, step in STEPS.items():
        if name in ("lapse, raw", "success, hard", "success, plain", "success, easy"):
            p, _, c = stepped(DEFAULT, *step)
            backward = backward_failure if c.use_failure else backward_success
            g_r = backward(p, c, G[0], list(MINUSES))[2]
            for x in (-g_r, up(-g_r)):
                reverse(*step, G[0], G[1], x)


def zero_cases():
    remark("zeros by their sign: a difficulty that is the easy one, and a stability's gradient too small to be told from -0.0")
    take(with_some(DEFAULT, w4=5, w5=0))
    reverse(*at(5, 5, 5, 3), *G)
    reverse(*at(5, 5, 5, 3), *PLUS)
    take(with_some(DEFAULT, w17=3, w18=0, w19=-ZERO))
    reverse(*at("12.5", "4.5", 0, 1), -LEAST64, double(0), -G[2])


def slot_cases():
    for text, slots in (("+0.0", [double(0)] * 23), ("numbers", NUMBERED), ("what addition treats apart", MIXED)):
        remark("starting slots: " + text)
        start(slots)
        for name, step in STEPS.items():
            if name not in ("padding at row 0", "success, plain"):
                reverse(*step, *G)
        reverse(*STEPS["success, plain"], double(0), -double(0), double(0))
        reverse(*STEPS["first, rating 1"], -double(0), double(0), double(0))
    remark("starting slots one step from what is added, with the sign turned")
    for name in ("lapse, raw", "success, easy", "same-day, raw", "first, rating 4"):
        gw = list(MINUSES)
        p, _, c = stepped(DEFAULT, *STEPS[name])
        step_backward(p, c, *G, gw)
        start([-x if i % 2 or x == 0 else up(-x) for i, x in enumerate(gw)])
        reverse(*STEPS[name], *G)
    start(MINUSES)


# ---- refusals

def refusal_cases():
    good = at("12.5", "6.25", 10, 3)
    take(DEFAULT)
    remark("refusal 13: a state that is not finite, in every branch; before a rating and a day")
    for x in (NONE, INF, -INF):
        for step in (good[2:], (ZERO, ZERO, 0), (ONE, ONE, 0)):
            forward(x, single(5), *step)
            reverse(ZERO, x, *step, *G)
    both((NONE, NONE, NONE, NONE, 0), G)
    both((single(5), INF, BEYOND, single(5), 1), G)
    remark("refusal 6: ratings other than 0 to 4, in a first step too; before a day")
    for text in ("5", "0.5", "-1", "1.5", "4.000001", "3.9999998"):
        both(at("12.5", "6.25", 10, text), G)
    for x in (NONE, INF, -INF, LEAST, -LEAST):
        both(at("12.5", "6.25", BEYOND, x), G)
        forward(*at(0, 0, NONE, x, 0))
    reverse(*at(0, 0, 0, "0.5", 0), *G)
    remark("refusal 7: read days beyond the range; row 0 with a stability, a later row without one")
    assert up(DAY_MAX) == BEYOND
    for x in (BEYOND, -BEYOND, NONE, INF, -INF):
        both(at("12.5", "6.25", x, between(1, 4)), G)
        forward(*at(either(LEAST, single("12.5")), "6.25", x, between(1, 4), 0))
        forward(*at(0, 0, x, between(1, 4), 1))
    remark("refusal 5: not 21 slots; after 1 and 2, before 13, 6 and 7")
    for n in (0, 1, 20, 22, 23):
        start(NUMBERED, n)
        reverse(*either(good, at(0, 0, 0, 0, 0), at(0, 0, 0, 1, 0)), *G)
        reverse(*at(NONE, INF, NONE, 5), *G)
        reverse(*at(ONE, ONE, either(ONE, NONE), either(ONE, NONE)), *G)
    outside = with_some(DEFAULT, w20=up(ONE))
    remark("refusals 1 and 2 before all others")
    for w in (outside, outside + [ONE], DEFAULT[:20], [], DEFAULT + [ONE, ONE]):
        take(w)
        start(NUMBERED, 20)
        reverse(*good, *G)
        start(NUMBERED)
        both(good, G)
        both(at(NONE, 5, NONE, 5), G)
    remark("refusal 2: each weight next to its box, infinite or NaN")
    for i in range(21):
        low, high = BOX[i]
        take(with_some(DEFAULT, **{"w%d" % i: either(down(low), up(high), NONE, INF, -INF)}))
        if i % 2:
            forward(*good)
        else:
            reverse(*good, *G)
    start(MINUSES)


# ---- corners of the box, and pseudo-random ones

def corner_cases():
    corners = [LOWEST, HIGHEST, NEGATIVE_ZEROS, corner(lambda i: i % 2), corner(lambda i: 1 - i % 2)]
    for w in corners + [corner(lambda i: below(2)) for _ in range(2)]:
        take(w)
        both(at(0, 0, 0, between(1, 4), 0), G)
        for s, d in ((S_MIN, D_MIN), (single(20), single(5)), (S_MAX, D_MAX)):
            reverse(*at(s, d, either(ZERO, -ZERO), between(1, 4)), *G)
            reverse(*at(s, d, either(ONE, DAY_MAX, single(-3)), 1), *G)
            both(at(s, d, either(ONE, DAY_MAX, single(30)), between(1, 4)), G)


def some_grad():
    """A double of any digits, from 2 ^ -9 to 2 ^ 6."""
    b = F64.exactly(1, between(-9, 5)) + below(F64.hidden)
    return Number(F64, b + either(0, F64.sign))


def some_state():
    return some_single(S_MIN, S_MAX), some_single(D_MIN, D_MAX)


def some_cases(steps, reverses):
    days = (lambda: ZERO), (lambda: some_single(ONE, single(400))), (lambda: some_single(single("0.01"), DAY_MAX))
    for i in range(steps):
        s, d = some_state()
        rating = between(1, 4)
        step = at(s, d, days[min(i, 2)](), rating)
        forward(*step)
        for _ in range(reverses):
            reverse(*step, some_grad(), some_grad(), some_grad())


# ---- misreadings: what a quotient or a product in another order seldom shows

def another_floor():
    """A step whose floor by a product differs, and gradients."""
    p = runtime_params(DEFAULT)
    while True:
        s = some_single(S_MIN, single(100))
        if s / p.failure_floor_divisor != s * (ONE / p.failure_floor_divisor):
            return at(s, "2.5", either(10, 10000), 1), G


def another_first():
    e = (double(3) * wide(take.weights[5])).exp()
    while True:
        g = some_grad()
        if g * -3 * e != g * (-3 * e):
            return at(0, 0, 0, 4, 0), (G[0], g, G[2])


def another_success():
    """The curve is left out, so that it hides no last bit."""
    while True:
        step = at(some_single(ONE, single(100)), some_single(D_MIN, D_MAX), 20, between(2, 4))
        p, _, c = stepped(DEFAULT, *step)
        g, gw = some_grad(), list(MINUSES)
        g_s, _, g_r = backward_success(p, c, g, gw)
        s, w9 = wide(c.last_s), wide(DEFAULT[9])
        direct = g_s - gw[8] * (-w9 / s)  # near g * (inc + 1)
        if gw[8] * (-w9 / s) != gw[8] * -w9 / s and direct + gw[8] * (-w9 / s) != direct + gw[8] * -w9 / s:
            return step, (g, G[1], -g_r)


def misread_cases():
    take(DEFAULT)
    for misread in (another_floor, another_floor, *[another_success] * 4):
        step, g = misread()
        both(step, g)
    take(with_some(DEFAULT, w5="0.3"))  # so that the difficulty of rating 4 is within its range
    for _ in range(2):
        step, g = another_first()
        reverse(*step, *g)


def main():
    remark("Test vectors of analytic_v6's step and its reverse, seed %d: made by tools/vectors/step.py, which says how" % seeded())
    names_hold()
    take(DEFAULT)
    start(MINUSES)
    branch_cases()
    raw_one_cases()
    lapse_cases()
    output_clamp_cases()
    state_cases()
    gradient_cases()
    cancelled_cases()
    zero_cases()
    slot_cases()
    refusal_cases()
    remark("corners of the box: all low, all high, all zeros negative, by turns, and pseudo-random ones")
    corner_cases()
    remark("pseudo-random: where a quotient or a product in another order gives another answer, though seldom")
    misread_cases()
    remark("pseudo-random: states, days and gradients, with weights near the default and with others")
    for _ in range(8):
        take(near_default())
        some_cases(3, 1)
    for _ in range(6):
        take(some_set())
        some_cases(3, 1)
    lines.write()


if __name__ == "__main__":
    main()
