#!/usr/bin/env python3
"""Draws the path of a card's memory, as SVG: stability, retrievability and difficulty over the days, each review marked by the
branch that its step took, and the loss of each that is scored.

    examples/path.py [--end] DECK.txt CARD OUT.svg    the cards of the text count from 1

The text is one for examples/make_batch.py, with --end too. The card is one call of fsrs6.card_loss_and_grad, and all that is drawn
at a review is read from the columns of records that this leaves (fsrs6.record); padding is no review, and is left out. Through
bindings/python/fsrs6.py, which says where the library is looked for.
"""
import math
import os
import sys
from array import array
from html import escape
from typing import NamedTuple

from shared import ROOT, Wrong, keep, run, shown

sys.path.insert(0, os.path.join(ROOT, "bindings", "python"))
import fsrs6
from free import single
from fsrs6 import Branch
from make_batch import CARD, counted, deck_of, label, text_of


# ---- the path

class Review(NamedTuple):
    """A review, by its record."""

    day: float  # since the card's first
    record: fsrs6.Record
    loss: float  # none where it is not scored


class Path(NamedTuple):
    loss: float
    reviews: list


def column(kind, card):
    """The card as a batch of one column, with a row behind its last review: a card's last row is not stepped on. Of a prefix the
    last review alone is scored."""
    scored = [kind == CARD or row == len(card) - 1 for row in range(len(card))]
    return fsrs6.Cards(
        rows=len(card) + 1,
        columns=1,
        days=[*(single(review.day) for review in card), 0.0],
        ratings=[*(single(review.rating) for review in card), 0.0],
        lengths=[len(card) + 1],
        labels=[*(single(label(review.rating)) for review in card), 0.0],
        weights=[*(single(counted(review)) if is_scored else 0.0 for review, is_scored in zip(card, scored)), 0.0],
    )


def path_of(w, kind, card):
    """One call gives the records; the loss of a review is that of a call in which it alone has a weight."""
    cards = column(kind, card)
    records, step_grads = array("f", fsrs6.RECORD * cards.rows * [-1]), array("d", cards.rows * [0])
    loss = fsrs6.card_loss_and_grad(w, cards, array("d", fsrs6.WEIGHTS * [0]), records, step_grads)
    reviews, day = [], 0.0
    for row in range(len(card)):
        record = fsrs6.record(records, row)
        if record.branch == Branch.PADDING:
            continue
        if record.day < 0:
            raise Wrong("line %d: a review %s days before the one before it cannot be drawn" % (card[row].line, -record.day))
        day += record.day if reviews else 0
        weight = cards.weights[row] if row else 0.0
        alone = [weight if i == row else 0.0 for i in range(cards.rows)]
        reviews.append(Review(day, record, fsrs6.card_loss(w, cards._replace(weights=alone)) if weight else None))
    if not reviews:
        raise Wrong("line %d: the card has no review" % card[0].line)
    return Path(loss, reviews)


def recalled(w, state, days):
    """The retrievability so many days after a review that left the state: also for parts of a day, as in training."""
    return fsrs6.training_step(w, fsrs6.Step(state, day=days, rating=3, row=1)).record[fsrs6.RECORD_RETRIEVABILITY]


# ---- the page, in pixels

INK, DIM, RULE, PALE, LINE = "#222222", "#555555", "#dcdcdc", "#ebeff5", "#5b6b7b"
WIDTH, LEFT, WIDE = 960, 64, 872  # the page; where the plots begin, and how wide they are
EDGE, GAP = 24, 50  # from a plot's side to the first review; between reviews of one day
HEAD = 168  # the title and the legend
TALL = {"stability": 170, "retrievability": 150, "difficulty": 110, "loss": 100}
ABOVE = {"stability": 0, "retrievability": 44, "difficulty": 44, "loss": 64}  # a plot's caption
FOOT = 62  # the days below the last plot
CAPTIONS = {
    "stability": "in days, on a logarithmic axis: after so many the probability of recall is 0.9",
    "retrievability": "the probability of recall: it falls from 1 until the next review, which is marked where it came",
    "difficulty": "from 1, easy, to 10; below it the ratings: 1 again, 2 hard, 3 good, 4 easy",
    "loss": "of each scored review, times its weight",
}
MARKS = {
    Branch.FIRST: ("first review", "#222222", "circle", True),
    Branch.SUCCESS: ("success", "#1a7f37", "diamond", True),
    Branch.LAPSE: ("lapse", "#c62828", "triangle", True),
    Branch.LAPSE_FLOORED: ("lapse, by the floor", "#c62828", "triangle", False),
    Branch.SAME_DAY: ("same day", "#1f5fbf", "square", True),
    Branch.SAME_DAY_ONE: ("same day, by the multiplier 1", "#1f5fbf", "square", False),
}
SHAPES = {
    "circle": "M-6 0A6 6 0 1 0 6 0A6 6 0 1 0 -6 0Z",
    "diamond": "M0 -7.5L7.5 0L0 7.5L-7.5 0Z",
    "triangle": "M-7 -5.5H7L0 7Z",
    "square": "M-5.5 -5.5H5.5V5.5H-5.5Z",
}


def text(x, y, words, size=13, anchor="start", ink=INK, more=""):
    return '<text x="%g" y="%g" font-size="%g" text-anchor="%s" fill="%s"%s>%s</text>' % (
        round(x, 1), round(y, 1), size, anchor, ink, more, escape(words))


def line(x1, y1, x2, y2, ink, wide=1, more=""):
    ends = tuple(round(z, 1) for z in (x1, y1, x2, y2))
    return '<line x1="%g" y1="%g" x2="%g" y2="%g" stroke="%s" stroke-width="%g"%s/>' % (*ends, ink, wide, more)


def box(x, y, wide, tall, ink):
    return '<rect x="%g" y="%g" width="%g" height="%g" fill="%s"/>' % (*(round(z, 1) for z in (x, y, wide, tall)), ink)


def mark(x, y, branch, told=""):
    """A branch's mark; a viewer shows what is told of it."""
    _, ink, shape, is_full = MARKS[branch]
    title = "<title>%s</title>" % escape(told) if told else ""
    return '<path transform="translate(%g %g)" d="%s" fill="%s" stroke="%s" stroke-width="1.8">%s</path>' % (
        round(x, 1), round(y, 1), SHAPES[shape], ink if is_full else "#ffffff", ink, title)


def line_of(points, more=""):
    d = "M" + "L".join("%g %g" % (round(x, 1), round(y, 1)) for x, y in points)
    return '<path d="%s" fill="none" stroke="%s" stroke-width="2" stroke-linejoin="round"%s/>' % (d, LINE, more)


def plain(x):
    return "%d" % x if x == int(x) else "%g" % x


def step_of(span, most):
    """The smallest of 1, 2 and 5 times a power of ten that goes into a span so often at most."""
    power = 10.0 ** math.floor(math.log10(span / most))
    return next(n * power for n in (1, 2, 5, 10) if span <= n * power * most * (1 + 1e-9))


class Days:
    """The axis across: days since the first review, where a second review of a day stands beside the one before it, and makes the
    day as much wider."""

    def __init__(self, reviews):
        days = [review.day for review in reviews]
        more = sum(a == b for a, b in zip(days, days[1:]))
        self.gap = min(GAP, 0.4 * WIDE / more) if more else 0
        self.end = (days[-1] or 1) * 1.08
        self.scale = (WIDE - 2 * EDGE - self.gap * more) / self.end
        self.days, self.places = days, [EDGE]
        for a, b in zip(days, days[1:]):
            self.places.append(self.places[-1] + (self.gap if a == b else self.scale * (b - a)))

    def at(self, day):
        """Where a day begins."""
        if day in self.days:
            return self.places[self.days.index(day)]
        last = max(i for i, before in enumerate(self.days) if before < day)
        return self.places[last] + self.scale * (day - self.days[last])

    def spans(self):
        """From each review to the next, or to the end: which, how many days, and from where to where."""
        ends = [*self.days[1:], self.end]
        for i, (day, end) in enumerate(zip(self.days, ends)):
            yield i, end - day, self.places[i], self.places[i + 1] if i + 1 < len(self.days) else WIDE - EDGE

    def together(self):
        """Each day of several reviews: where its first and its last stand."""
        for day in sorted(set(self.days)):
            here = [place for place, other in zip(self.places, self.days) if other == day]
            if here[1:]:
                yield here[0], here[-1]

    def ticks(self):
        step = step_of(self.end, 16)
        return [round(n * step, 9) for n in range(int(self.end / step) + 1)]


# ---- the axes up: from a value to a height below the plot's upper end, and the values that are named

class Linear:
    def __init__(self, tall, low, high, step, foot=12, head=12):
        self.foot, self.rise = tall - foot, (tall - foot - head) / (high - low)
        self.tall, self.low = tall, low
        count = math.floor((high - low) / step + 1e-9)
        self.ticks = [round(high - n * step, 9) for n in range(count + 1)]

    def height(self, x):
        return self.foot - self.rise * (x - self.low)


class Logarithmic:
    def __init__(self, tall, low, high):
        middle, half = math.sqrt(low * high), max(1.2 * math.sqrt(high / low), 2.3)
        self.tall, self.low, self.high = tall, math.log10(middle / half), math.log10(middle * half)
        decades = range(math.floor(self.low), math.ceil(self.high) + 1)
        for digits in ((1, 2, 5), (1,)):
            self.ticks = [float("%de%d" % (n, power)) for power in decades for n in digits]
            self.ticks = [x for x in self.ticks if self.low <= math.log10(x) <= self.high]
            if len(self.ticks) <= 9:
                break

    def height(self, x):
        return self.tall - 8 - (self.tall - 16) * (math.log10(x) - self.low) / (self.high - self.low)


def axes_of(path, lowest):
    """The axis up of each plot; lowest is the lowest retrievability."""
    stabilities = [review.record.after.stability for review in path.reviews]
    most = max(review.loss or 0 for review in path.reviews) or 1
    step = step_of(most, 4)
    return {
        "stability": Logarithmic(TALL["stability"], min(stabilities), max(stabilities)),
        "retrievability": Linear(TALL["retrievability"], lowest, 1, step_of(1 - lowest, 5)),
        "difficulty": Linear(TALL["difficulty"], 1, 10, 3),
        "loss": Linear(TALL["loss"], 0, step * math.ceil(most / step), step, 0, 20),
    }


# ---- the plots

def frame(name, days, axis):
    """A plot without its content."""
    tall = TALL[name]
    out = [box(first - days.gap / 2, 0, last - first + days.gap, tall, PALE) for first, last in days.together()]
    for x in axis.ticks:
        out += [line(0, axis.height(x), WIDE, axis.height(x), RULE), text(-9, axis.height(x) + 4.5, plain(x), anchor="end")]
    out += [line(x, 0, x, tall, RULE, 1, ' stroke-dasharray="2 3"') for x in days.places]
    out += [line(0, 0, 0, tall, INK), line(0, tall, WIDE, tall, INK)]
    caption = '<tspan font-weight="bold" font-size="15" fill="%s">%s</tspan>' % (INK, name.capitalize())
    out.append('<text x="0" y="-11" font-size="13" fill="%s">%s<tspan dx="10">%s</tspan></text>' % (DIM, caption, CAPTIONS[name]))
    return out


def levels(name, path, days, axis, told):
    """What a review sets, and what stays until the next one."""
    heights = [axis.height(getattr(review.record.after, name)) for review in path.reviews]
    points = [(x, heights[i]) for i, _, start, end in days.spans() for x in (start, end)]
    marks = zip(days.places, heights, path.reviews, told)
    return [line_of(points), *(mark(x, height, review.record.branch, words) for x, height, review, words in marks)]


def ratings(path, days, below):
    """The ratings, as far as there is room."""
    out, last = [text(-9, below, "rated", anchor="end", ink=DIM)], -math.inf
    for x, review in zip(days.places, path.reviews):
        if x - last >= 12:
            last = x
            out.append(text(x, below, "%d" % review.record.rating, anchor="middle"))
    return out


def curves_of(w, path, days):
    """The retrievability after each review, as points: where, and how much."""
    for i, span, start, end in days.spans():
        state, count = path.reviews[i].record.after, max(int((end - start) / 6), 8) if span else 1
        parts = [(k / count) ** 2 for k in range(count + 1)]  # it falls most at first
        yield [(start + (end - start) * part, recalled(w, state, span * part)) for part in parts]


def falls(path, days, axis, curves, told):
    out = [line_of([(x, axis.height(r)) for x, r in curve]) for curve in curves]
    for x, review, words in zip(days.places, path.reviews, told):
        if review.record.branch != Branch.FIRST:
            height = axis.height(review.record.retrievability)
            out += [line(x, height, x, axis.height(1), LINE, 1.2), mark(x, height, review.record.branch, words)]
    return out


def bars(path, days, axis):
    """Losses as bars, with their numbers, the greatest first, as far as there is room."""
    out, taken = [], []
    scored = [(review.loss, x, review) for x, review in zip(days.places, path.reviews) if review.loss is not None]
    for loss, x, review in sorted(scored, key=lambda bar: -bar[0]):
        out.append(box(x - 4, axis.height(loss), 8, axis.height(0) - axis.height(loss), MARKS[review.record.branch][1]))
        words = "<0.001" if 0 < loss < 0.001 else "%.3f" % loss if loss < 10 else "%.1f" % loss
        half = 4 * len(words)
        if all(abs(x - other) >= half + width for other, width in taken):
            taken.append((x, half))
            out.append(text(x, axis.height(loss) - 5, words, anchor="middle"))
    return out or [text(WIDE / 2, axis.height(0) - 42, "no review is scored", anchor="middle", ink=DIM)]


def words_of(number, review):
    """What is told of a review, with its numbers."""
    record, branch = review.record, MARKS[review.record.branch][0]
    words = "review %d, day %s, rated %d: %s; stability %.6g, difficulty %.6g" % (
        number, plain(review.day), record.rating, branch, *record.after)
    words += "; retrievability %.6g" % record.retrievability if record.branch != Branch.FIRST else ""
    return words + ("; loss %.6g" % review.loss if review.loss is not None else "")


def legend():
    """The marks, and what else is drawn, in four columns."""
    out, places = [], [LEFT + 8, LEFT + 138, LEFT + 308, LEFT + 560]
    for i, (branch, (words, *_)) in enumerate(MARKS.items()):
        x, y = places[i // 2], 94 + 26 * (i % 2)
        out += [mark(x, y - 4.5, branch), text(x + 16, y, words)]
    x = places[3]
    out += [box(x - 8, 80, 22, 18, PALE), text(x + 22, 94, "reviews of one day, side by side")]
    out += [box(x - 1, 106, 8, 18, DIM), text(x + 22, 120, "loss of a review, in its mark's colour")]
    return out


def page(name, number, path, w):
    days, told = Days(path.reviews), [words_of(i, review) for i, review in enumerate(path.reviews, 1)]
    curves = list(curves_of(w, path, days))
    lowest = min([r for curve in curves for _, r in curve] + [0.99])
    axes = axes_of(path, lowest)
    scored = sum(review.loss is not None for review in path.reviews)
    head = "The path of card %d of %s" % (number, name)
    below = "%d review%s in %s days, of which %d scored: together a loss of %.4f" % (
        len(path.reviews), "s" * (len(path.reviews) != 1), plain(path.reviews[-1].day), scored, path.loss)
    out, y = [text(LEFT, 38, head, 22, more=' font-weight="bold"'), text(LEFT, 62, below, 14, ink=DIM), *legend()], HEAD
    for plot in TALL:
        y += ABOVE[plot]
        out += ['<g id="%s" transform="translate(%d %d)">' % (plot, LEFT, y), *frame(plot, days, axes[plot])]
        if plot == "retrievability":
            out += falls(path, days, axes[plot], curves, told)
        elif plot == "loss":
            out += bars(path, days, axes[plot])
        else:
            out += levels(plot, path, days, axes[plot], told)
        out += [*(ratings(path, days, TALL[plot] + 18) if plot == "difficulty" else []), "</g>"]
        y += TALL[plot]
    for day in days.ticks():
        x = LEFT + days.at(day)
        out += [line(x, y, x, y + 6, INK), text(x, y + 21, plain(day), anchor="middle")]
    out.append(text(LEFT + WIDE / 2, y + 44, "days since the first review", 14, "middle"))
    size = 'viewBox="0 0 %d %d" width="%d" height="%d"' % (2 * (WIDTH, y + FOOT))
    start = '<svg xmlns="http://www.w3.org/2000/svg" %s font-family="Helvetica, Arial, sans-serif" role="img">' % size
    return "\n".join([start, "<title>%s</title>" % escape(head), box(0, 0, WIDTH, y + FOOT, "#ffffff"), *out, "</svg>", ""])


# ---- the command

def card_in(cards, word):
    if not (word.isascii() and word.isdigit() and len(word) < 7 and 1 <= int(word) <= len(cards)):
        raise Wrong("the card must be a whole number from 1 to %d, and not %s" % (len(cards), shown(word)))
    return int(word)


def main(path, word, output, **options):
    kind, weights, cards = deck_of(text_of(path), "end" in options)
    number, w = card_in(cards, word), list(map(single, weights))
    name = "".join(letter if letter.isprintable() else "?" for letter in os.path.basename(path))
    try:
        drawn = page(name, number, path_of(w, kind, cards[number - 1]), w)
    except (fsrs6.Refusal, OSError) as error:
        raise Wrong(error) from None
    keep(drawn, output)


if __name__ == "__main__":
    run(main, __doc__, (3,), "--end")
