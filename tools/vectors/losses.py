#!/usr/bin/env python3
"""Writes crates/vectors/data/losses and aligned, the test vectors of the two losses, with gradients and without, and what the program
says of them.

    tools/vectors/losses.py [SEED]
    tools/vectors/losses.py --self [SEED]    tries what has to hold of the answers, and writes nothing

How the lists are made: every answer is computed here, with whole numbers and exact fractions alone, and
never with a float. The losses are the Rust's own, line by line under its names, from analytic_v6.rs; the
limits, the refusals, what is read and what is left in the lent slices are document 01's. This is a second
reading of both, over that of the step and its reverse (analytic.py, which says what it rests on).
The list `aligned` is change request K5's: histories that stand at the end of their columns, behind padding,
and the same tables read from the start.
The arguments are chosen below: first cases by hand, then pseudo-random ones (random.Random(SEED), SEED 1 if
none is given; only its getrandbits is used; the second list begins with the seed anew).

lines.py says what all lists share. Here a whole number has as many digits as it needs, a single 8 and a
double 16. crates/vectors/data/rust holds the same lines: `oracle/run --sample` wrote it, and its answers are
the Rust's own text's.

    0    batch_loss_and_grad       4    batch_loss_and_grad_in, at the end
    1    batch_loss                5    batch_loss_in, at the end
    2    card_loss_and_grad        6    card_loss_and_grad_in, at the end
    3    card_loss                 7    card_loss_in, at the end

The words of a call are the same for all eight; a slice that an entry does not take is empty.

    rows columns
    days ratings                      two slices of singles, by row and then by column
    lengths                           a slice of whole numbers
    target days, labels, weights      three slices of singles; a card has no target days
    records                           how many singles are lent, and the pattern of the first
    step gradients                    how many doubles are lent, and the pattern of the first
    refusal loss                      a whole number and a double
    digest                            of the slots, the records and the step gradients after the call

No slice of singles has more than 128 numbers; there are at most 512 lengths, 640 singles of records and 64
step gradients.

What is lent starts with patterns that count up by one, and wrap. The digest takes the patterns of the three
slices in turn, a single's as a number below 2^32: it is 0xcbf29ce484222325 at first, and each pattern v
makes h into m ^ (m >> 32), where m is (h ^ v) * 0x100000001b3 modulo 2^64. The shift carries the highest bit
down, which no product does: without it two changed signs would undo each other.

Of n records' room, n being a tenth of the lent singles rounded down, field f of row i stands at f * n + i:
0 and 1 the state as given, 2 day, 3 rating, 4 retrievability, 5 and 6 the outputs before their clamp,
7 the branch (0 padding, 1 first, 2 same-day by the raw multiplier, 3 same-day held at 1, 4 lapse by the raw
value, 5 lapse floored, 6 success), 8 the raw multiplier or value, 9 the multiplier used or the floor.
"""
import sys
from types import SimpleNamespace

from lines import Lines, below, between, either, seeded, source

from analytic import (
    BEYOND, BOX, DAY_MAX, DEFAULT, HIGHEST, INF, LEAST, LOWEST, MINUSES, MIXED, NEGATIVE_ZEROS, NONE, NUMBERED, Number,
    ONE, S_MAX, S_MIN, ZERO, around, clamp, clamp_grad, corner, curve_backward, curve_forward, double, down, near_default,
    runtime, single, some_set, some_single, step_backward, stepped, up, weights_refusal, wide, with_some,
)
from floats import F32, F64

NAMES = {"0": "batch_loss_and_grad", "1": "batch_loss", "2": "card_loss_and_grad", "3": "card_loss"}
ALL_NAMES = {**NAMES, **{str(4 + int(letter)): name + "_in" for letter, name in NAMES.items()}}
ROWS_MAX, COLUMNS_MAX, WEIGHT_MAX = 2048, 512, single(1000000)
FIELDS = 10
CELLS, RECORDS, STEP_GRADS = 128, 640, 64

is_trial = sys.argv[1:2] == ["--self"]
if is_trial:
    del sys.argv[1]
seed = seeded("[--self] [SEED]")


# ---- analytic_v6.rs

MIN_PROB = single("1e-7")
MAX_PROB = 1 - MIN_PROB


def bce_loss_and_grad_r(r_raw, label, weight):
    if weight == 0:
        return double(0), double(0)
    r = clamp(r_raw, MIN_PROB, MAX_PROB)
    loss = -((label * r.ln()) + ((1 - label) * (1 - r).ln())) * weight
    grad = -weight * (label / r - (1 - label) / (1 - r))
    grad = wide(grad) if r_raw > MIN_PROB and r_raw < MAX_PROB else double(0)
    return wide(loss), grad


def branch_of(c):
    """The branch's number, and its raw and used numbers."""
    if c.padding:
        return 0, ZERO, ZERO
    if c.init_selected:
        return 1, ZERO, ZERO
    if c.use_short:
        return 2 if c.short_raw_active else 3, c.short_raw, c.short_value
    if c.use_failure:
        return 5 if c.failure_used_floor else 4, c.failure_raw, c.failure_floor
    return 6, ZERO, ZERO


def keep(records, row, c):
    """Puts a step's cache into the lent records."""
    branch, raw, value = branch_of(c)
    fields = (
        c.state_s, c.state_d, c.delta_t, c.rating, c.retrievability, c.pre_clamp_s, c.mean_pre_clamp_d, single(branch),
        raw, value,
    )
    for f, x in enumerate(fields):
        records[f * (len(records) // FIELDS) + row] = x


def cut(c, column):
    return min(c.lengths[column], c.rows)


def first(c, column):
    """K5: 'the first row with a nonzero rating is the first review', the length if there is none. By document 01 it is row 0."""
    n = cut(c, column)
    return next((row for row in range(n) if c.ratings[row * c.columns + column] != 0), n) if c.is_end else 0


def weight_at(c, idx):
    """A card's review weight. K5: 'padding rows are neither scored nor read beyond their rating'."""
    return ZERO if c.is_end and c.ratings[idx] == 0 else c.weights[idx]


def target_weight(c, column):
    """K5: 'An all-padding prefix scores nothing, its target unread.'"""
    return ZERO if c.is_end and first(c, column) == cut(c, column) else c.weights[column]


def step_at(w, c, state, row, column):
    """The state after a row, and its cache. Rows are numbered from the first review, and the state before it stays (0, 0)."""
    idx, number = row * c.columns + column, row - first(c, column)
    after, cache = stepped(w, state.s, state.d, c.days[idx], c.ratings[idx], max(number, 0))[1:]
    return state if number < 0 else after, cache


def prefix_loss_and_grad(w, c, column, lent):
    """`lent` is None where no gradients are asked for."""
    p, weight = runtime(w), target_weight(c, column)
    state = SimpleNamespace(s=ZERO, d=ZERO)
    caches = []
    for t in range(cut(c, column)):
        state, cache = step_at(w, c, state, t, column)
        caches.append(cache)
        if lent:
            keep(lent.records, t, cache)
    loss, g_s, g_d = double(0), double(0), double(0)
    if weight != 0:
        curve = curve_forward(p, c.targets[column], state.s)
        loss, g_r = bce_loss_and_grad_r(curve.retrievability, c.labels[column], weight)
        if lent:
            g_s = curve_backward(p, curve, g_r, lent.gw)
    if lent:
        for cache in reversed(caches):
            g_s, g_d = step_backward(p, cache, g_s, g_d, double(0), lent.gw)
    return loss


def card_column_loss_and_grad(w, c, column, lent):
    p = runtime(w)
    state = SimpleNamespace(s=ZERO, d=ZERO)
    loss = double(0)
    seq_len, reviewed = cut(c, column), first(c, column)
    caches, g_r_losses = [], [double(0)] * seq_len
    for t in range(seq_len):
        idx = t * c.columns + column
        weight = weight_at(c, idx)
        if t + 1 == seq_len:
            g_s, g_d = double(0), double(0)
            if t > reviewed and weight != 0:
                curve = curve_forward(p, c.days[idx], clamp(state.s, S_MIN, S_MAX))
                step_loss, g_r = bce_loss_and_grad_r(curve.retrievability, c.labels[idx], weight)
                loss += step_loss
                if lent:
                    g_s = curve_backward(p, curve, g_r, lent.gw) * clamp_grad(state.s, S_MIN, S_MAX)
            if lent:
                for i, cache in reversed(list(enumerate(caches))):
                    g_s, g_d = step_backward(p, cache, g_s, g_d, g_r_losses[i], lent.gw)
            break
        state, cache = step_at(w, c, state, t, column)
        caches.append(cache)
        if t > reviewed:
            step_loss, g_r_losses[t] = bce_loss_and_grad_r(cache.retrievability, c.labels[idx], weight)
            loss += step_loss
        if lent:
            keep(lent.records, t, cache)
    if lent:
        lent.step_grads[:seq_len] = g_r_losses
    return loss


def summed(w, c, lent):
    """Both batch functions."""
    column_loss = card_column_loss_and_grad if c.is_card else prefix_loss_and_grad
    loss = double(0)
    for column in range(c.columns):
        loss += column_loss(w, c, column, lent)
    return loss


# ---- document 01's refusals, with K5's first review for row 0

def is_rating(x):
    return any(x == n for n in range(5))


def is_day(x):
    return -DAY_MAX <= x and x <= DAY_MAX


def is_label(x):
    return ZERO <= x and x <= ONE


def is_weight(x):
    return ZERO <= x and x <= WEIGHT_MAX


def size_refusal(c):
    per_cell = [c.days, c.ratings]
    per_column = [c.lengths]
    if c.is_card:
        per_cell += [c.labels, c.weights]
    else:
        per_column += [c.targets, c.labels, c.weights]
    if c.rows > ROWS_MAX or c.columns > COLUMNS_MAX:
        return 3
    if any(len(x) < c.rows * c.columns for x in per_cell) or any(len(x) < c.columns for x in per_column):
        return 3
    return 0


def room_refusal(c, lent):
    room = len(lent.records) // FIELDS
    if c.is_card:
        room = min(room, len(lent.step_grads))
    return 4 if any(cut(c, column) > room for column in range(c.columns)) else 0


def prefix_column_fault(c, column):
    """The number of the first that is bad, and its row. K7: 'the row is 0 for 9 and the cut length for a target'."""
    n = cut(c, column)
    if n == 0:
        return 9, 0
    for row in range(n):
        idx = row * c.columns + column
        if not is_rating(c.ratings[idx]):
            return 6, row
        if row > first(c, column) and c.ratings[idx] != 0 and not is_day(c.days[idx]):
            return 7, row
    weight = target_weight(c, column)
    if not is_weight(weight):
        return 8, n
    if weight != 0:
        if not is_label(c.labels[column]):
            return 8, n
        if not is_day(c.targets[column]):
            return 7, n
    return None


def card_column_fault(c, column):
    n = cut(c, column)
    for row in range(n):
        idx = row * c.columns + column
        is_last = row == n - 1
        if (c.is_end or not is_last) and not is_rating(c.ratings[idx]):
            return 6, row
        if row > first(c, column):
            weight = weight_at(c, idx)
            if (weight if is_last else c.ratings[idx]) != 0 and not is_day(c.days[idx]):
                return 7, row
            if not is_weight(weight):
                return 8, row
            if weight != 0 and not is_label(c.labels[idx]):
                return 8, row
    return None


def fault(w, c, lent):
    """K7: the refusal, and the column and row of the cell that it is given for, 0 where there is none."""
    if weights_refusal(w):
        return weights_refusal(w), 0, 0
    if lent and len(lent.gw) != 21:
        return 5, 0, 0
    if size_refusal(c):
        return 3, 0, 0
    if lent and room_refusal(c, lent):
        return 4, 0, 0
    column_fault = card_column_fault if c.is_card else prefix_column_fault
    for column in range(c.columns):
        found = column_fault(c, column)
        if found:
            return found[0], column, found[1]
    return 0, 0, 0


# ---- the entries

def called(w, c, lent):
    """The refusal and the loss."""
    n = fault(w, c, lent)[0]
    return n, summed(w, c, lent) if n == 0 else double(0)


def counting(f, count, first):
    return [Number(f, (first + i) % (1 << f.width)) for i in range(count)]


def lent_to(slots, c):
    return SimpleNamespace(gw=list(slots), records=counting(F32, *c.records), step_grads=counting(F64, *c.step_grads))


def digest(lent):
    h = 0xCBF29CE484222325
    for x in (lent.gw + lent.records + lent.step_grads) if lent else []:
        h = (h ^ x.b) * 0x100000001B3 % (1 << 64)
        h ^= h >> 32
    return h


# ---- the list

branches = set()


def begin(name, names, tell=None):
    """The list that the lines below belong to, and what a line tells of a call where that is not its answer."""
    begin.lines, begin.tell = Lines(name, names), tell or tell_answer


def remark(text):
    begin.lines.remark(text)


def slice_of(xs, digits):
    return [len(xs), *("%0*x" % (digits, x.b) for x in xs)]


def take(w):
    """The weights of the lines below."""
    take.weights = list(w)
    begin.lines.give("w", *slice_of(w, 8))


def start(slots):
    """The slots that the lines below start from."""
    start.slots = list(slots)
    begin.lines.give("g", *slice_of(slots, 16))


def note_branches(c, lent):
    room = len(lent.records) // FIELDS
    steps = max([0, *(cut(c, column) - c.is_card for column in range(c.columns))])
    branches.update(x.b for x in lent.records[7 * room:7 * room + steps])


def tell(c, with_grad=True):
    """A line of a call: with gradients, or the loss alone."""
    begin.tell(c, lent_to(start.slots, c) if with_grad else None)


def inputs_of(c):
    """The words that a call begins with."""
    assert max(len(x) for x in (c.days, c.ratings, c.targets, c.labels, c.weights)) <= CELLS
    assert len(c.lengths) <= COLUMNS_MAX and c.records[0] <= RECORDS and c.step_grads[0] <= STEP_GRADS
    words = [c.rows, c.columns, *slice_of(c.days, 8), *slice_of(c.ratings, 8), len(c.lengths), *c.lengths]
    return words + slice_of(c.targets, 8) + slice_of(c.labels, 8) + slice_of(c.weights, 8)


def tell_answer(c, lent):
    words = inputs_of(c)
    n, loss = called(take.weights, c, lent)
    if lent and n == 0:
        note_branches(c, lent)
    for (count, first), digits in ((c.records, 8), (c.step_grads, 16)):
        words += [count, "%0*x" % (digits, first)] if lent else [0, "0" * digits]
    letter = str(4 * c.is_end + 2 * c.is_card + (not lent))
    begin.lines.add(letter, *words, n, "%016x" % loss.b, "%016x" % digest(lent))


def both(c):
    tell(c)
    tell(c, False)


def one(c):
    """With gradients, or now and then the loss alone."""
    tell(c, below(4) > 0)


# ---- what the cases are made of

BAD_RATINGS = [NONE, INF, -INF, single(5), single("0.5"), single(-1), down(single(4)), LEAST]
BAD_DAYS = [NONE, INF, -INF, BEYOND, -BEYOND]
BAD_WEIGHTS = [NONE, INF, -INF, -LEAST, up(WEIGHT_MAX), single(-1)]
BAD_LABELS = [NONE, INF, -INF, -LEAST, up(ONE), single(2)]
BAD = {"ratings": BAD_RATINGS, "days": BAD_DAYS, "targets": BAD_DAYS, "weights": BAD_WEIGHTS, "labels": BAD_LABELS}
FIRST32 = (0x3F800000, 0x7FBFFFF8, 0x80000000, 0xFF7FFFF0, 0xFFFFFFFC)
FIRST64 = (0x3FF0000000000000, 0x7FEFFFFFFFFFFFFE, 0x8000000000000000, 0xFFF7FFFFFFFFFFFF, 0xFFFFFFFFFFFFFFFE)


def numbers(xs):
    return [x if isinstance(x, Number) else single(x) for x in xs]


def lend(c, room, more=0, step_grads=None):
    """Records of so many rows and some singles beside, and as many step gradients where nothing else is said."""
    c.records = max(0, FIELDS * room + more), either(*FIRST32)
    c.step_grads = (room if step_grads is None else step_grads, either(*FIRST64)) if c.is_card else (0, 0)
    return c


def table(columns, rows, field):
    """One field of the columns' rows, row by row, with 0 or 1 where a column has ended."""
    cells = [column[row][field] if row < len(column) else below(2) for row in range(rows) for column in columns]
    return numbers(cells)


def prefix(*columns, rows=None):
    """Each column has rows of day and rating, and at the end its target's weight, label and day."""
    histories, targets = [column[:-1] for column in columns], [numbers(column[-1]) for column in columns]
    lengths = [len(history) for history in histories]
    rows = max([0, *lengths]) if rows is None else rows
    c = SimpleNamespace(
        is_end=False, is_card=False, rows=rows, columns=len(columns), days=table(histories, rows, 0),
        ratings=table(histories, rows, 1), lengths=lengths, targets=[t[2] for t in targets], labels=[t[1] for t in targets],
        weights=[t[0] for t in targets],
    )
    return lend(c, max([0, *lengths]))


def card(*columns, rows=None):
    """Each column has rows of day, rating, weight and label."""
    lengths = [len(column) for column in columns]
    rows = max([0, *lengths]) if rows is None else rows
    days, ratings, weights, labels = (table(columns, rows, field) for field in range(4))
    c = SimpleNamespace(
        is_end=False, is_card=True, rows=rows, columns=len(columns), days=days, ratings=ratings, lengths=lengths, targets=[],
        labels=labels, weights=weights,
    )
    return lend(c, max([0, *lengths]))


def changed(c, **fields):
    """Another call with some fields changed; its slices are its own."""
    copy = {name: list(x) if isinstance(x, list) else x for name, x in vars(c).items()}
    return SimpleNamespace(**{**copy, **fields})


def place(c, name, row, column):
    """Where a number stands. A prefix's target has no row."""
    return column if not c.is_card and name in ("targets", "labels", "weights") else row * c.columns + column


def put(c, name, row, column, x):
    getattr(c, name)[place(c, name, row, column)] = x if isinstance(x, Number) else single(x)
    return c


def places_read(c):
    """Names and places of what an accepted call reads, beside the lengths."""
    return places_read_at_end(c) if c.is_end else places_read_at_start(c)


def places_read_at_start(c):
    read = []
    for column in range(c.columns):
        cells = [row * c.columns + column for row in range(cut(c, column))]
        steps = cells[:-1] if c.is_card else cells
        read += [("ratings", i) for i in steps]
        read += [("days", i) for i in steps[1:] if c.ratings[i] != 0]
        scored = cells[1:] if c.is_card else [column]
        read += [("weights", i) for i in scored]
        scored = [i for i in scored if c.weights[i] != 0]
        read += [("labels", i) for i in scored]
        read += [("days", i) for i in scored if i == cells[-1]] if c.is_card else [("targets", i) for i in scored]
    return read


def places_read_at_end(c):
    read = []
    for column in range(c.columns):
        cells = [row * c.columns + column for row in range(cut(c, column))]
        reviews = [i for i in cells if c.ratings[i] != 0]
        read += [("ratings", i) for i in cells]
        scored = reviews[1:] if c.is_card else [column] if reviews else []
        read += [("weights", i) for i in scored]
        scored = [i for i in scored if c.weights[i] != 0]
        read += [("labels", i) for i in scored]
        read += [] if c.is_card else [("targets", i) for i in scored]
        read += [("days", i) for i in reviews[1:] if not c.is_card or i != cells[-1] or i in scored]
    return read


def spoiled(c, *kinds):
    """The call with bad numbers in every place that goes unread, or in those of some slices."""
    c, read = changed(c), set(places_read(c))
    for name in kinds or BAD:
        xs = getattr(c, name)
        for i in range(len(xs)):
            if (name, i) not in read:
                xs[i] = either(*BAD[name])
    return c


def some_day():
    return either(
        ZERO, -ZERO, single(-between(1, 9)), single(between(1, 40)), single(between(1, 40)),
        some_single(single("0.01"), single(400)), some_single(LEAST, ONE), some_single(ONE, DAY_MAX))


def some_rating():
    return either(ZERO, *numbers((1, 1, 2, 2, 3, 3, 3, 4, 4)))


def some_label():
    return either(ZERO, ONE, ONE, -ZERO, some_single(ZERO, ONE))


def some_review_weight():
    return either(ONE, ONE, ONE, ZERO, -ZERO, some_single(single("0.001"), single(10)), some_single(LEAST, WEIGHT_MAX))


def some_target():
    return some_review_weight(), some_label(), some_day()


def some_prefix_column(n):
    return [(some_day(), some_rating()) for _ in range(n)] + [some_target()]


def some_card_column(n):
    return [(some_day(), some_rating(), some_review_weight(), some_label()) for _ in range(n)]


def some_call(is_card, columns, most):
    """Columns of lengths from 1 to most; of a card, from 0."""
    if is_card:
        return card(*(some_card_column(between(0, most)) for _ in range(columns)))
    return prefix(*(some_prefix_column(between(1, most)) for _ in range(columns)))


# three columns of which everything is read, but for a card's last ratings and its first row's weights and labels
PREFIX = prefix(
    [(0, 3), (2, 3), (0, 2), (9, 1), (1, 1, 12)], [(0, 1), (0, 1), ("0.5", 2), (2, 1, 3)],
    [(0, 4), (30, 4), (-4, 3), (1, "0.5", 1)])
CARD = card(
    [(0, 3, 1, 1), (2, 3, 1, 1), (8, 1, 2, 0), (1, 2, 1, 1)], [(0, 1, 1, 1), (0, 2, 1, 1), (5, 4, 1, 0)],
    [(0, 4, 1, 1), (20, 4, 1, 1), (60, 2, 3, "0.25"), (-2, 3, 1, 1)])


# ---- branches, targets and rows

def branch_cases():
    remark("a prefix of one row: each rating, either zero")
    for rating in (0, -ZERO, 1, 2, 3, 4):
        both(prefix([(0, rating), (1, 1, 5)]))
    remark("a prefix of two rows: each rating in a column, with a day in each line")
    for day in (0, -ZERO, -3, "0.25", 12, 3000):
        tell(prefix(*([(0, 1 + (i + below(4)) % 4), (day, i), (1, below(2), 20)] for i in range(5))))
    remark("cards of three rows: the same")
    for day in (0, -ZERO, -3, "0.25", 12, 3000):
        tell(card(*([(0, 1 + (i + below(4)) % 4, 1, 1), (day, i, 1, below(2)), (7, 3, 1, 1)] for i in range(5))))
    remark("padding before a review: no first step comes after it; and between reviews")
    for rating in range(1, 5):
        tell(prefix(
            [(0, 0), (0, rating), (1, 1, 3)], [(0, 0), (4, rating), (1, 0, 3)],
            [(0, -ZERO), (0, 0), (2, rating), (1, 1, 9)]))
        tell(card(
            [(0, 0, 1, 1), (0, rating, 1, 1), (3, 3, 1, 1)], [(0, 0, 1, 1), (0, 0, 1, 0), (2, rating, 1, 1), (3, 3, 1, 0)]))
        tell(prefix([(0, rating), (0, 0), (5, 3), (6, 0), (1, 1, 3)]))
        tell(card([(0, rating, 1, 1), (0, 0, 0, 1), (5, 3, 1, 1), (6, 0, 1, 1), (7, 1, 1, 0)]))
    remark("a raw multiplier of exactly 1; a lapse whose floor and raw value are equal")
    take(with_some(DEFAULT, w17=0, w19=0))
    tell(prefix([(0, 2), (0, 3), (0, 1), (1, 1, 4)]))
    tell(card([(0, 2, 1, 1), (0, 3, 1, 1), (0, 2, 1, 0), (4, 3, 1, 1)]))
    take(with_some(DEFAULT, w0=1, w2=3, w11=1, w12=0, w13=1, w14=0, w17=0))
    tell(prefix([(0, 1), (5, 1), (1, 1, 4)], [(0, 3), (5, 1), (1, 0, 4)]))
    tell(card([(0, 1, 1, 1), (5, 1, 1, 0), (4, 3, 1, 1)], [(0, 3, 1, 1), (5, 1, 1, 1), (4, 3, 1, 0)]))
    take(DEFAULT)


HISTORY = [(0, 3), (3, 3)]


def target_cases():
    remark("a prefix's target: weights, labels and days at and beside their ends")
    for weight in (ZERO, -ZERO, LEAST, single("0.3"), ONE, down(WEIGHT_MAX), WEIGHT_MAX):
        both(prefix(HISTORY + [(weight, "0.75", 9)], HISTORY + [(1, 1, 2)]))
    for label in (ZERO, -ZERO, LEAST, single("0.5"), down(ONE), ONE):
        tell(prefix(HISTORY + [("1.5", label, 9)]))
    for day in (ZERO, -ZERO, LEAST, -LEAST, single(-5), DAY_MAX, -DAY_MAX, single("7.25")):
        tell(prefix(HISTORY + [(1, 1, day)], HISTORY + [(1, 0, day)]))
    remark("a card's last row: the same")
    for weight in (ZERO, -ZERO, LEAST, single("0.3"), ONE, down(WEIGHT_MAX), WEIGHT_MAX):
        both(card([(0, 3, 1, 1), (3, 3, 1, 1), (9, 3, weight, "0.75")]))
    for label in (ZERO, -ZERO, LEAST, single("0.5"), down(ONE), ONE):
        tell(card([(0, 3, 1, 1), (3, 3, 0, 1), (9, 3, "1.5", label)]))
    for day in (ZERO, -ZERO, LEAST, -LEAST, single(-5), DAY_MAX, -DAY_MAX, single("7.25")):
        tell(card([(0, 3, 1, 1), (day, 3, 1, 0)], [(0, 3, 1, 1), (3, 3, 0, 1), (day, 3, 1, 1)]))
    remark("a card's rows between: the same; a padding is scored at retrievability 0")
    for weight in (ZERO, -ZERO, LEAST, single("0.3"), ONE, down(WEIGHT_MAX), WEIGHT_MAX):
        both(card([(0, 3, 1, 1), (9, 3, weight, "0.75"), (4, 3, 0, 1)]))
        tell(card([(0, 3, 1, 1), (9, 0, weight, "0.75"), (4, 3, 1, 1)]))
    for label in (ZERO, -ZERO, LEAST, single("0.5"), down(ONE), ONE):
        tell(card([(0, 3, 1, 1), (9, 3, "1.5", label), (4, 3, 0, 1)]))
        tell(card([(0, 3, 1, 1), (9, 0, "1.5", label), (4, 3, 0, 1)]))
    for day in (ZERO, -ZERO, LEAST, -LEAST, single(-5), DAY_MAX, -DAY_MAX, single("7.25")):
        tell(card([(0, 3, 1, 1), (day, either(1, 2, 3, 4), 1, 0), (3, 3, 1, 1)]))


def retrievability(w, s, day):
    return curve_forward(runtime(w), day, s).retrievability


def day_of(w, s, r, low, high):
    """The first day whose retrievability is not above r: it falls, or stays, as the day grows."""
    low, high = low.b, high.b
    while low < high:
        middle = (low + high) // 2
        low, high = (middle + 1, high) if retrievability(w, s, Number(F32, middle)) > r else (low, middle)
    return Number(F32, low)


def clamp_cases():
    remark("the probability clamp: retrievabilities at its upper end, and those beside it")
    for r in (*around(MAX_PROB), ONE):
        day = day_of(DEFAULT, DEFAULT[2], r, ZERO, ONE)
        assert retrievability(DEFAULT, DEFAULT[2], day) == r
        for label in (0, 1):
            tell(prefix([(0, 3), (1, label, day)]))
            tell(card([(0, 3, 1, 1), (day, 3, 1, label), (3, 1, 1, 1)], [(0, 3, 1, 1), (day, 3, 1, label)]))
    remark("the same at its lower end, and far below it")
    for r in around(MIN_PROB):
        while True:
            w = with_some(DEFAULT, w0=S_MIN, w20=some_single(single("0.9"), ONE))
            day = day_of(w, w[0], r, ONE, DAY_MAX)
            if retrievability(w, w[0], day) == r:
                break
        take(w)
        for label in (0, 1):
            tell(prefix([(0, 1), (1, label, day)]))
            tell(card([(0, 1, 1, 1), (day, 3, 1, label), (3, 1, 1, 1)], [(0, 1, 1, 1), (day, 3, 1, label)]))
    take(with_some(DEFAULT, w0=S_MIN, w20=1))
    both(prefix([(0, 1), (1, 1, DAY_MAX)], [(0, 1), (1, 0, DAY_MAX)]))
    both(card([(0, 1, 1, 1), (DAY_MAX, 3, 1, 1), (2, 2, 1, 1)]))
    take(DEFAULT)
    remark("labels that are the retrievability: a gradient of -0.0")
    for rating, day in ((3, 10), (1, 2), (4, 50)):
        r = retrievability(DEFAULT, DEFAULT[rating - 1], single(day))
        tell(prefix([(0, rating), (1, r, day)]))
        tell(card([(0, rating, 1, 1), (day, 3, 1, r)], [(0, rating, 1, 1), (day, 3, 1, r), (4, 3, 0, 1)]))


# ---- sizes, lengths and what is lent

def length_cases():
    remark("lengths from 0 to the row count, and above it, which are cut")
    for n in (1, 2, 3, 4, 5, 0xFFFFFFFF, 0):
        c = changed(PREFIX, lengths=[4, n, 2] if n < 4 else [n, 3, n])
        both(lend(c, 4))
    for n in (0, 1, 2, 3, 4, 5, 0xFFFFFFFF):
        c = changed(CARD, lengths=[2, n, 3] if n < 4 else [n, 3, n])
        both(lend(c, 4))
        tell(lend(changed(CARD, lengths=[n] * 3), 5))
    for n in (0, 1, 2):
        both(lend(card(CARD_COLUMN, rows=2) if n == 2 else changed(card(CARD_COLUMN), lengths=[n]), n))
    remark("no rows: a card is empty, a prefix is refused; no columns; the limits themselves")
    for lengths in ([0], [1], [0, 0xFFFFFFFF], [3, 0, 2]):
        n = len(lengths)
        empty = {"rows": 0, "columns": n, "days": [], "ratings": [], "lengths": lengths}
        both(changed(CARD, labels=[], weights=[], records=(0, 0), step_grads=(0, 0), **empty))
        both(changed(PREFIX, targets=[ONE] * n, labels=[ONE] * n, weights=[ONE] * n, records=(0, 0), **empty))
    nothing = {name: [] for name in ("days", "ratings", "lengths", "labels", "weights")}
    nothing.update(columns=0, records=(0, 0), step_grads=(0, 0))
    for rows in (0, 1, ROWS_MAX):
        both(changed(CARD, rows=rows, **nothing))
        both(changed(PREFIX, rows=rows, targets=[], **nothing))
    tell(lend(changed(CARD, columns=0), 2, 3, 1))
    tell(lend(changed(PREFIX, columns=0), 1, 5))
    wide_card = changed(CARD, rows=0, **{**nothing, "columns": COLUMNS_MAX, "lengths": [0] * COLUMNS_MAX})
    both(wide_card)
    tell(changed(wide_card, is_card=False, targets=[ONE], labels=[ONE], weights=[ONE]))
    remark("slices longer than the table or the columns: what is beyond goes unread")
    for c in (PREFIX, CARD):
        c = changed(c, lengths=c.lengths + [0, 7])
        for name in BAD:
            if name != "targets" or not c.is_card:
                getattr(c, name).extend(either(*BAD[name]) for _ in range(between(1, 3)))
        both(c)
    remark("lengths of columns that are not there: they ask for no room")
    for n in (1, 2):
        tell(lend(changed(PREFIX, columns=n, lengths=[2, 2, 4]), 2))
        tell(lend(changed(CARD, columns=n, lengths=[3, 2, 4]), 3))


CARD_COLUMN = [(0, 2, 1, 1), (4, 3, 1, 1)]


def room_cases():
    remark("records and step gradients: just enough, more, and of a number that ten does not divide")
    for c, most in ((PREFIX, 4), (CARD, 4)):
        for room, more in ((most, 0), (most, 1), (most, 9), (most + 1, 0), (most + 3, 7)):
            tell(lend(changed(c), room, more))
    for step_grads in (4, 5, 9):
        tell(lend(changed(CARD), 4, 0, step_grads))
    for first32, first64 in zip(FIRST32, FIRST64):
        tell(changed(PREFIX, records=(63, first32)))
        tell(changed(CARD, records=(63, first32), step_grads=(6, first64)))
    remark("refusal 4: too few, by one, for the longest column as it is cut, wherever it stands; before 9 and 6 to 8")
    for c in (PREFIX, CARD):
        for lengths in ([4, 1, 1], [1, 4, 1], [1, 1, 4], [9, 1, 2], [2, 0xFFFFFFFF, 1]):
            tell(lend(changed(c, lengths=lengths), 4, -1))
        tell(lend(changed(c, lengths=[1, 9, 2]), 4))
        tell(lend(changed(c, lengths=[2, 1, 1]), 2))
        tell(lend(changed(c, lengths=[2, 1, 1]), 2, -1))
        tell(lend(changed(c), 0))
        tell(lend(put(changed(c, lengths=[4, 0, 3]), "ratings", 0, 0, NONE), 3))
        tell(lend(put(changed(c), "weights", 1, 0, -1), 3))
    for room, step_grads in ((4, 3), (3, 4), (5, 0), (0, 5), (4, 4)):
        tell(lend(changed(CARD), room, 0, step_grads))
    for room, more, step_grads in ((1, 0, 1), (1, -1, 1), (1, 0, 0), (0, 0, 0)):
        tell(lend(changed(CARD, lengths=[1, 1, 0]), room, more, step_grads))
    tell(lend(changed(CARD, lengths=[0, 0, 0]), 0))


def slot_cases():
    zeros = [double(0)] * 21
    for text, slots in (("+0.0", zeros), ("numbers", NUMBERED[:21]), ("what addition treats apart", MIXED[:21])):
        remark("starting slots: " + text)
        start(slots)
        for c in (PREFIX, CARD):
            tell(c)
            tell(put(changed(c), "ratings", 1, 0, NONE))
            for _ in range(2):
                tell(some_call(c.is_card, 2, 4))
    remark("weights of 0 of either sign, their steps still walked backward: one slot of -0.0 beside numbers, each in turn")
    for i in range(21):
        start([-double(0) if j == i else x for j, x in enumerate(NUMBERED[:21])])
        if i % 2 == 0:
            tell(prefix([(0, 1), (3, 2), (0, 1), (6, 1), (0, 1, 5)], [(0, 4), (9, 4), (0, 2), (5, 3), (-ZERO, 1, 5)]))
        if i % 2 or i == 20:
            tell(card(
                [(0, 2, 1, 1), (3, 2, 0, 1), (0, 1, -ZERO, 1), (6, 1, 0, 1), (5, 3, 0, 0)],
                [(0, 3, 1, 1), (9, 4, 0, 1), (5, 0, 0, 1), (5, 3, -ZERO, 0)]))
    remark("the same, with all slots of -0.0")
    start(MINUSES[:21])
    for rating in range(5):
        for weight in (ZERO, -ZERO):
            tell(prefix([(0, rating), (weight, 1, 5)]))
            tell(prefix([(0, rating), (3, 2), (0, 1), (6, 1), (weight, 1, 5)]))
            tell(card([(0, rating, 1, 1), (3, 2, weight, 1), (0, 1, -weight, 1), (6, 1, weight, 1), (5, 3, -weight, 0)]))


def storage_cases():
    remark("columns in turn: a long one, a short one after it, a length of 1 and of 0, the long one last")
    long = [(0, 3), (2, 1), (0, 4), (12, 2), (3, 0), (1, 3)]
    for lengths in ([6, 3, 1], [1, 3, 6], [3, 6, 2], [6, 6, 5], [2, 2, 2]):
        c = prefix(*([(d, (r + i) % 5) for d, r in long] + [(1, i % 2, 4)] for i in range(3)))
        tell(lend(changed(c, lengths=lengths), 7, 3))
    for lengths in ([6, 3, 1], [1, 3, 6], [3, 6, 2], [6, 0, 5], [0, 1, 2], [6, 1, 0], [1, 0, 0]):
        c = card(*([(d, (r + i) % 5, 1 + i, i % 2) for d, r in long] for i in range(3)))
        tell(lend(changed(c, lengths=lengths), 7, 3, 8))


def reversed_sum(losses):
    total = double(0)
    for x in reversed(losses):
        total += x
    return total


def alone(c, *kept):
    """The call with a weight of 0 in all places but some."""
    return changed(c, weights=[x if i in kept else ZERO for i, x in enumerate(c.weights)])


def far_apart():
    return either(WEIGHT_MAX, some_single(single("0.00001"), single("0.01")))


def sum_cases():
    remark("losses far apart: where another order of adding gives another sum")
    found = 0
    while found < 6:
        c = prefix(*([(0, between(1, 4)), (far_apart(), below(2), between(1, 40))] for _ in range(5)))
        if reversed_sum([prefix_loss_and_grad(DEFAULT, c, i, None) for i in range(5)]) != summed(DEFAULT, c, None):
            both(c)
            found += 1
    remark("the same where a card's rows, added one by one to the total, give another sum")
    found = 0
    while found < 6:
        c = card(*([(between(1, 40), between(1, 4), far_apart(), below(2)) for _ in range(4)] for _ in range(2)))
        flat = double(0)
        for column in range(2):
            for row in range(1, 4):
                flat += summed(DEFAULT, alone(c, row * 2 + column), None)
        if flat != summed(DEFAULT, c, None):
            both(c)
            found += 1


# ---- what is read, and refusals

def unread_cases():
    remark("bad numbers in the places that go unread, of one kind and of all")
    padded = prefix(
        [(0, 3), (2, 0), (5, 2), (1, 1, 12)], [(0, 0), (3, 1), (0, 1, 3)], [(0, 2), (1, 0), (1, 0), (-ZERO, 1, 1)],
        rows=5)
    scored = card(
        [(0, 3, 1, 1), (2, 0, 1, 1), (5, 2, 0, 1), (4, 1, 1, 0)], [(0, 0, 1, 1), (3, 1, -ZERO, 1), (2, 2, 0, 1)],
        [(0, 4, 1, 1), (1, 3, 1, 1)], [(0, 4, 1, 1)], rows=5)
    for c in (padded, scored):
        for name in BAD:
            if getattr(c, name):
                tell(spoiled(c, name))
        for _ in range(3):
            both(spoiled(c))
    for _ in range(8):
        tell(spoiled(some_call(False, between(1, 3), 5)))
        tell(spoiled(some_call(True, between(1, 3), 5)))


def bad_cases():
    remark("refusals 6, 7 and 8: each bad number alone, in each place that is read")
    for name, row, column in (
        ("ratings", 0, 1), ("ratings", 3, 0), ("days", 1, 2), ("days", 3, 0), ("weights", 0, 1), ("labels", 0, 2),
        ("targets", 0, 0),
    ):
        for x in BAD[name]:
            one(put(changed(PREFIX), name, row, column, x))
    for name, row, column in (
        ("ratings", 0, 1), ("ratings", 2, 0), ("days", 1, 2), ("days", 3, 0), ("weights", 1, 0), ("weights", 2, 1),
        ("labels", 2, 2), ("labels", 3, 0),
    ):
        for x in BAD[name]:
            one(put(changed(CARD), name, row, column, x))


def bad_pairs(c, *cells):
    c = changed(c)
    for name, row, column in cells:
        put(c, name, row, column, either(*BAD[name]))
    both(c)


def order_cases():
    remark("the order in a row: rating, day, weight, label; in a prefix's target: weight, label, day")
    for cells in (
        [("ratings", 1, 0), ("days", 1, 0)], [("days", 3, 0), ("weights", 0, 0)], [("days", 3, 0), ("targets", 0, 0)],
        [("weights", 0, 1), ("targets", 0, 1)], [("labels", 0, 1), ("targets", 0, 1)], [("weights", 0, 1), ("labels", 0, 1)],
        [("ratings", 2, 0), ("days", 1, 0)], [("ratings", 3, 0), ("weights", 0, 0)],
    ):
        bad_pairs(PREFIX, *cells)
    for cells in (
        [("ratings", 1, 0), ("days", 1, 0)], [("days", 1, 0), ("weights", 1, 0)], [("days", 3, 0), ("weights", 3, 0)],
        [("days", 2, 0), ("labels", 2, 0)], [("weights", 1, 1), ("labels", 1, 1)], [("ratings", 2, 0), ("weights", 1, 0)],
        [("ratings", 2, 0), ("labels", 1, 0)], [("ratings", 1, 0), ("weights", 1, 0), ("labels", 1, 0)],
        [("days", 3, 0), ("labels", 3, 0)], [("days", 2, 0), ("labels", 1, 0)], [("ratings", 2, 0), ("days", 1, 0)],
    ):
        bad_pairs(CARD, *cells)
    remark("columns before rows: what is bad in a later row of an earlier column comes first")
    for c in (PREFIX, CARD):
        bad_pairs(c, ("days", 1, 1) if c.is_card else ("weights", 0, 0), ("ratings", 0, 2))
        bad_pairs(c, ("days", 2, 0), ("ratings", 0, 1))
        bad_pairs(c, ("labels", 2, 1), ("days", 1, 2))
        bad_pairs(c, ("ratings", 1, 1), ("weights", 1, 0), ("days", 1, 2))
    remark("a weight of 0 leaves the label unread, and a target's or a last row's day; a bad weight does not")
    for weight in (ZERO, -ZERO, NONE, single(-1)):
        for name in ("labels", "targets"):
            one(put(put(changed(PREFIX), "weights", 0, 1, weight), name, 0, 1, NONE))
        for row, column, name in ((2, 1, "days"), (2, 1, "labels"), (1, 1, "labels"), (1, 1, "days")):
            one(put(put(changed(CARD), "weights", row, column, weight), name, row, column, INF))
    remark("a padding's day goes unread, its weight and label do not; the last rating is not read")
    for name in ("days", "weights", "labels"):
        one(put(put(changed(CARD), "ratings", 1, 0, 0), name, 1, 0, NONE))
    for x in (NONE, single(7)):
        one(put(changed(CARD), "ratings", 3, 0, x))
    remark("refusal 9: a prefix of length 0, before and after a column with something bad")
    for lengths in ([0, 3, 3], [4, 0, 3], [4, 3, 0], [0, 0, 0]):
        for name, row, column in (("ratings", 0, 0), ("targets", 0, 1), ("labels", 0, 2)):
            one(put(changed(PREFIX, lengths=lengths), name, row, column, either(*BAD[name])))
    remark("some bad numbers at once, anywhere")
    for i in range(16):
        c = changed(either(PREFIX, CARD) if i % 2 else some_call(below(2) == 1, 3, 5))
        for name, at in [either(*places_read(c) or [("ratings", 0)]) for _ in range(between(1, 3))]:
            if at < len(getattr(c, name)):
                getattr(c, name)[at] = either(*BAD[name])
        one(c)


def short_cases():
    remark("refusal 3: a slice that is one too short or empty, each in turn")
    for c in (PREFIX, CARD):
        for name in ("days", "ratings", "lengths", "targets", "labels", "weights"):
            if getattr(c, name):
                one(changed(c, **{name: getattr(c, name)[:-1]}))
                tell(changed(c, **{name: []}))
    remark("refusal 3: rows and columns over their limits, also where their product is none or wraps")
    for rows, columns in (
        (ROWS_MAX + 1, 0), (0, COLUMNS_MAX + 1), (ROWS_MAX + 1, 1), (1, COLUMNS_MAX + 1), (0xFFFFFFFF, 0), (0, 0xFFFFFFFF),
        (0x80000000, 2), (0x10000, 0x10000), (0xFFFFFFFF, 0xFFFFFFFF), (ROWS_MAX, COLUMNS_MAX), (ROWS_MAX, 1),
        (1, COLUMNS_MAX),
    ):
        one(changed(PREFIX, rows=rows, columns=columns))
        one(changed(CARD, rows=rows, columns=columns))
    remark("refusal 3 before 4, 9 and what the columns hold")
    for c in (PREFIX, CARD):
        c = put(changed(c, lengths=[0, 4, 3]), "ratings", 0, 1, NONE)
        tell(lend(changed(c, days=c.days[:-1]), 0))
        tell(lend(changed(c, rows=ROWS_MAX + 1), 0))
        tell(lend(changed(c), 0))
        tell(lend(changed(c), 4))


def first_cases():
    remark("refusal 5: not 21 slots; before 3, 4 and the columns. The loss alone asks for none")
    for n in (0, 20, 22):
        start((NUMBERED + NUMBERED)[:n])
        for c in (PREFIX, CARD):
            both(c)
            tell(changed(c, days=[]))
            tell(changed(c, columns=COLUMNS_MAX + 1))
            tell(lend(changed(c), 0))
            tell(put(changed(c), "ratings", 0, 0, NONE))
    outside = with_some(DEFAULT, w20=up(ONE))
    remark("refusals 1 and 2 before all others")
    for w in (outside, outside + [ONE], DEFAULT[:20], DEFAULT + [ONE], []):
        take(w)
        for c in (PREFIX, CARD):
            start(NUMBERED[:21])
            tell(c)
            start(NUMBERED[:20])
            tell(lend(put(changed(c, days=c.days[:5], lengths=[0, 4, 3]), "ratings", 0, 1, NONE), 0))
        tell(PREFIX, False)
        tell(changed(CARD, days=[]), False)
    remark("refusal 2: each weight next to its box, infinite or NaN, though no column reads it; with no columns too")
    start(NUMBERED[:21])
    for i in range(21):
        low, high = BOX[i]
        take(with_some(DEFAULT, **{"w%d" % i: either(down(low), up(high), NONE, INF, -INF)}))
        c = either(PREFIX, CARD)
        tell(either(card([(0, 0, 1, 1)]), lend(changed(c, columns=0), 0)), below(2) == 1)
    take(DEFAULT)
    start(MINUSES[:21])


# ---- weights of every kind

def some_cases(most):
    for _ in range(2):
        for is_card in (False, True):
            c = some_call(is_card, either(1, 2, 2, 3), most)
            tell(spoiled(c) if below(2) else c, below(6) > 0)


def weight_cases():
    remark("corners of the box: all low, all high, all zeros negative, by turns, and pseudo-random ones")
    corners = [LOWEST, HIGHEST, NEGATIVE_ZEROS, corner(lambda i: i % 2), corner(lambda i: 1 - i % 2)]
    for w in corners + [corner(lambda i: below(2)) for _ in range(3)]:
        take(w)
        some_cases(5)
    remark("pseudo-random: weights near the default, and others")
    for i in range(12):
        take(near_default() if i % 2 else some_set())
        some_cases(either(3, 5, 8, 12))


def long_cases():
    remark("64 rows")
    for w in (DEFAULT, near_default()):
        take(w)
        tell(prefix(some_prefix_column(64)))
        tell(prefix(some_prefix_column(64), some_prefix_column(37)))
        both(card(some_card_column(64)))
    tell(card(some_card_column(20), some_card_column(64)))
    take(DEFAULT)


# ---- histories at the end of their columns

def at_end(c):
    return changed(c, is_end=True)


def modes(c):
    """A table at the end, with gradients and without, and at the start."""
    both(at_end(c))
    tell(c)


def zero():
    return either(ZERO, -ZERO)


def padded(is_card, *masks):
    """A column of four rows for each mask, whose bits say which of them are reviews. Padding has a day, a weight and a label too."""
    reviews = [(3, 3), (1, 1), (0, 2), (7, 4)]
    columns = [[(day, rating if mask >> i & 1 else zero()) for i, (day, rating) in enumerate(reviews)] for mask in masks]
    if is_card:
        return card(*([(*row, 1, below(2)) for row in column] for column in columns))
    return prefix(*(column + [(1, below(2), 5)] for column in columns))


def pad_in_front(c):
    """The call with some padding at the head of each column, from none to all of its rows."""
    c = changed(c)
    for column in range(c.columns):
        n = cut(c, column)
        for row in range(either(0, min(1, n), between(0, n), n - 1, n)):
            put(c, "ratings", row, column, zero())
    return c


def padding_cases():
    remark("four rows, each a review or padding of either sign: at the end, with gradients and without, and at the start")
    for mask in range(16):
        modes(padded(False, mask))
        modes(padded(True, mask))
    remark("each rating as the first review, behind no, one and two rows of padding")
    for rating in range(1, 5):
        for n in range(3):
            front = [(between(0, 9), zero()) for _ in range(n)]
            tell(at_end(prefix(front + [(6, rating), (4, 3), (1, 1, 9)])))
            tell(at_end(card([(*row, 1, 0) for row in front] + [(6, rating, 1, 0), (4, 3, 1, 1), (2, 1, 1, 0)])))
    remark("no padding: both modes give the same")
    for c in (PREFIX, CARD):
        modes(c)
    remark("columns in turn, of several lengths and with padding of several: the last one's records and step gradients stay")
    for masks in ((15, 14, 12, 8), (8, 12, 14, 15), (0, 13, 6, 11), (12, 0, 5, 0), (9, 10, 7, 1)):
        for is_card in (False, True):
            c = lend(padded(is_card, *masks), 5, 3)
            tell(at_end(c))
            tell(at_end(changed(c, lengths=[between(1, 6) for _ in masks])))


def unreviewed_cases():
    remark("a prefix of padding alone: +0.0, and no slot moves, whatever its target holds; beside others too")
    for slots in (NUMBERED[:21], MIXED[:21], [double(0)] * 21, MINUSES[:21]):
        start(slots)
        for n in (1, 3):
            both(at_end(prefix([(NONE, zero())] * n + [tuple(either(*BAD[name]) for name in ("weights", "labels", "targets"))])))
        tell(spoiled(at_end(padded(False, 0, 14, 0))))
        tell(spoiled(at_end(padded(True, 0, 14, 0, 8))))
    remark("lengths that leave padding alone, of 1, of 0 (a prefix: refusal 9), and above the rows")
    for is_card in (False, True):
        for lengths in ([2, 4, 4], [3, 2, 1], [1, 1, 1], [4, 0, 3], [9, 0xFFFFFFFF, 4], [0, 0, 0]):
            tell(at_end(changed(padded(is_card, 12, 8, 15), lengths=lengths)))
    remark("a card's last row: padding, or the first review, scores nothing; a review does, if its weight is not 0")
    for rating in (ZERO, -ZERO, *numbers((1, 2, 3, 4))):
        for weight in (ONE, -ZERO):
            both(at_end(card([(0, 3, 1, 1), (5, rating, weight, 0)], [(0, zero(), 1, 1), (5, rating, weight, 0)])))
            both(at_end(card([(5, rating, weight, 0)])))


def unread_end_cases():
    remark("bad numbers in the places that go unread at the end, of one kind and of all; the same tables at the start")
    for c in (padded(False, 12, 10, 0), padded(True, 12, 10, 0), padded(True, 6, 9, 15), padded(False, 5, 2, 15)):
        c = at_end(c)
        for name in BAD:
            if getattr(c, name):
                tell(spoiled(c, name))
        for _ in range(2):
            bad = spoiled(c)
            both(bad)
            tell(changed(bad, is_end=False))
    for _ in range(8):
        both(spoiled(at_end(pad_in_front(some_call(False, between(1, 3), 5)))))
        both(spoiled(at_end(pad_in_front(some_call(True, between(1, 3), 5)))))


def bad_end_cases():
    remark("refusals 6, 7 and 8 at the end: a bad number in each place that is read")
    for c in (padded(False, 14, 10), padded(True, 14, 10)):
        c = at_end(c)
        for name, i in places_read(c):
            bad = changed(c)
            getattr(bad, name)[i] = either(*BAD[name])
            one(bad)
    remark("each bad rating as a column's first that is not 0, and as a card's last, which the start does not read")
    for x in BAD_RATINGS:
        one(at_end(put(padded(False, 8, 12), "ratings", 1, 0, x)))
        modes(put(padded(True, 15, 12), "ratings", 3, 0, x))


def order_end_cases():
    remark("the order at the end: columns; 9; rows: rating, day, weight, label; a target: weight, label, day")
    for cells in (
        [("ratings", 3, 0), ("days", 2, 0)], [("days", 3, 0), ("weights", 0, 0)], [("labels", 0, 0), ("targets", 0, 0)],
        [("weights", 0, 0), ("targets", 0, 0)], [("ratings", 0, 1), ("days", 3, 0)], [("ratings", 1, 1), ("targets", 0, 0)],
    ):
        bad_pairs(at_end(padded(False, 14, 12)), *cells)
    for cells in (
        [("ratings", 3, 0), ("days", 3, 0)], [("days", 3, 0), ("weights", 3, 0)], [("days", 2, 0), ("weights", 2, 0)],
        [("days", 2, 0), ("labels", 2, 0)], [("ratings", 3, 0), ("labels", 2, 0)], [("ratings", 0, 1), ("days", 3, 0)],
        [("ratings", 1, 1), ("weights", 2, 0)],
    ):
        bad_pairs(at_end(padded(True, 14, 12)), *cells)
    remark("refusal 9 at the end, before and after a column with something bad")
    for lengths in ([0, 4], [4, 0]):
        tell(at_end(put(changed(padded(False, 12, 12), lengths=lengths), "ratings", 3, 0, NONE)))
        tell(at_end(put(changed(padded(False, 12, 12), lengths=lengths), "weights", 0, 1, NONE)))


def lent_end_cases():
    remark("refusals 3, 4 and 5 at the end: room is asked for padding too")
    for c in (at_end(padded(False, 8, 12)), at_end(padded(True, 8, 12))):
        for room, more in ((4, 0), (4, -1), (5, 7), (3, 0), (2, 0), (0, 0)):
            tell(lend(changed(c), room, more))
        for name in ("days", "ratings", "lengths", "targets", "labels", "weights"):
            if getattr(c, name):
                one(changed(c, **{name: getattr(c, name)[:-1]}))
        one(changed(c, rows=ROWS_MAX + 1))
        one(changed(c, columns=COLUMNS_MAX + 1))
        tell(changed(c, columns=0))
    for step_grads in (3, 4, 6):
        tell(lend(at_end(padded(True, 8, 12)), 4, 0, step_grads))
    for n in (0, 20, 22):
        start((NUMBERED + NUMBERED)[:n])
        both(at_end(padded(False, 8, 12)))
        both(at_end(padded(True, 8, 12)))
    remark("refusals 1 and 2 at the end")
    start(MINUSES[:21])
    for w in (with_some(DEFAULT, w20=up(ONE)), DEFAULT[:20], []):
        take(w)
        both(at_end(padded(False, 8, 12)))
        both(at_end(padded(True, 8, 12)))
    take(DEFAULT)


def some_end_cases(most):
    for is_card in (False, True):
        c = pad_in_front(some_call(is_card, either(1, 2, 3), most))
        tell(at_end(c), below(6) > 0)
        one(either(c, spoiled(at_end(c))))


def weight_end_cases():
    remark("pseudo-random, padded in front: corners of the box, weights near the default, and others; some at the start as well")
    for w in (LOWEST, HIGHEST, NEGATIVE_ZEROS, corner(lambda i: i % 2), *(corner(lambda i: below(2)) for _ in range(2))):
        take(w)
        some_end_cases(5)
    for i in range(8):
        take(near_default() if i % 2 else some_set())
        start(either(MINUSES, NUMBERED, MIXED)[:21])
        some_end_cases(either(3, 5, 8, 12))
    remark("64 rows")
    take(DEFAULT)
    for n in (0, 20, 63):
        front = [(some_day(), zero()) for _ in range(n)]
        tell(at_end(prefix(front + some_prefix_column(64 - n))))
        tell(at_end(card([(*row, 1, 0) for row in front] + some_card_column(64 - n))))


# ---- what has to hold of the answers

def outcome(w, slots, c, with_grad=True):
    """The refusal, the loss and the three slices after a call, by their patterns."""
    lent = lent_to(slots, c) if with_grad else None
    n, loss = called(w, c, lent)
    return n, loss.b, *([x.b for x in xs] for xs in ((lent.gw, lent.records, lent.step_grads) if lent else ()))


def only(c, column):
    """The call of one column."""
    slices = ("days", "ratings", "labels", "weights") if c.is_card else ("days", "ratings")
    c = changed(c, columns=1, lengths=[c.lengths[column]], **{name: getattr(c, name)[column::c.columns] for name in slices})
    if not c.is_card:
        c.targets, c.labels, c.weights = ([x[column]] for x in (c.targets, c.labels, c.weights))
    return c


def in_turn(w, slots, c):
    """The columns by calls of their own, one after another over the same slices."""
    lent = lent_to(slots, c)
    loss = double(0)
    for column in range(c.columns):
        n, x = called(w, only(c, column), lent)
        assert n == 0
        loss += x
    return 0, loss.b, *([x.b for x in xs] for xs in (lent.gw, lent.records, lent.step_grads))


def hold(w, slots, c):
    """Of an accepted call."""
    answer = outcome(w, slots, c)
    assert answer[0] == 0
    assert outcome(w, slots, c, False) == answer[:2]
    assert outcome(w, slots, spoiled(c)) == answer
    assert in_turn(w, slots, c) == answer
    before = outcome(w, slots, changed(c, columns=0))
    unscored = outcome(w, slots, changed(c, weights=[-ZERO] * len(c.weights)))
    assert unscored[1] == 0 and all(x == y or x == F64.sign and y == 0 for x, y in zip(before[2], unscored[2]))
    for name, i in places_read(c):
        bad = changed(c)
        getattr(bad, name)[i] = either(*BAD[name])
        refused = outcome(w, slots, bad)
        assert refused[0] in (6, 7, 8) and refused[1:] == before[1:]
        assert outcome(w, slots, bad, False) == refused[:2]


def moved(c):
    """A call at the end, moved to the start: its columns without the padding in front, all other padding with the weight 0. A prefix
    of padding alone keeps one row of it, and its target gets the weight 0."""
    to, tables = changed(c, is_end=False), ("days", "ratings", "labels") if c.is_card else ("days", "ratings")
    for column in range(c.columns):
        begins, n = first(c, column), cut(c, column)
        for row in range(begins, n):
            idx = row * c.columns + column
            for name in tables:
                put(to, name, row - begins, column, getattr(c, name)[idx])
            if c.is_card:
                put(to, "weights", row - begins, column, weight_at(c, idx))
        to.lengths[column] = n - begins
        if not c.is_card and begins == n:
            to.lengths[column], to.weights[column] = 1, ZERO
    return to


def hold_at_end(w, slots, c):
    hold(w, slots, c)
    assert outcome(w, slots, c)[:3] == outcome(w, slots, moved(c))[:3]


def try_answers():
    tried = 0
    for slots in (MINUSES[:21], NUMBERED[:21], MIXED[:21]):
        for w in (DEFAULT, near_default(), some_set(), LOWEST, HIGHEST):
            for is_card in (False, True):
                hold(w, slots, some_call(is_card, between(1, 3), 5))
                hold_at_end(w, slots, at_end(pad_in_front(some_call(is_card, between(1, 3), 5))))
                tried += 2
    print("%d calls hold" % tried)


def write_losses():
    begin("losses", NAMES)
    remark("Test vectors of analytic_v6's losses, seed %d: made by tools/vectors/losses.py, which says how" % seed)
    take(DEFAULT)
    start(MINUSES[:21])
    branch_cases()
    target_cases()
    clamp_cases()
    length_cases()
    room_cases()
    slot_cases()
    storage_cases()
    sum_cases()
    unread_cases()
    bad_cases()
    order_cases()
    short_cases()
    first_cases()
    weight_cases()
    long_cases()
    assert branches == {single(n).b for n in range(7)}
    begin.lines.write()


def write_aligned():
    begin("aligned", ALL_NAMES)
    source.seed(seed)
    remark("Test vectors of analytic_v6's losses at the end, seed %d: made by tools/vectors/losses.py, which says how" % seed)
    take(DEFAULT)
    start(MINUSES[:21])
    padding_cases()
    unreviewed_cases()
    unread_end_cases()
    bad_end_cases()
    order_end_cases()
    lent_end_cases()
    weight_end_cases()
    begin.lines.write()


if __name__ == "__main__":
    if is_trial:
        try_answers()
    else:
        write_losses()
        write_aligned()
