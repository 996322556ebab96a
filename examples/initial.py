#!/usr/bin/env python3
"""Draws how a starting stability is found from first recalls, as SVG: the loss over the stability, and below it the rounds of the
search, each with its bracket and its guess.

    examples/initial.py RECALLS.txt DEFAULT OUT.svg    examples/recalls.txt is such a text; the default is a stability, such as 2.3065

A line of the text is a day, the share that was recalled, and a count of cards; # begins a remark. What is found is the library's
(fsrs6.initial_stability), through bindings/python/fsrs6.py, which says where it is looked for. The rounds are worked here, by the
lines of the Rust's parameter_initialization.rs over the library's powers, and have to end where the library does. The loss is plain
Python: the library works only its derivatives.
"""
import math
import os
import struct
import sys
from html import escape
from typing import NamedTuple

from shared import ROOT, Wrong, keep, read, run, shown

sys.path.insert(0, os.path.join(ROOT, "bindings", "python"))
import fsrs6
from path import DIM, INK, LEFT, LINE, RULE, WIDE, WIDTH, box, line, line_of, plain, step_of, text

TEXT_BYTES = 1 << 20


def single(x):
    """`as f32`, widened again."""
    return struct.unpack("<f", struct.pack("<f", x))[0]


LEAST, MOST, PRIOR, ROUNDS = single(0.0001), 100.0, 1 / 16, 80
DECAY = single(0.1542)  # the default weight 20


# ---- the rows

class Recalls(NamedTuple):
    days: list
    shares: list
    counts: list

    def rows(self):
        return zip(*self)


def number(word):
    try:
        return float(word)
    except ValueError:
        raise Wrong("not a number: %s" % shown(word)) from None


def recalls_of(data):
    """The three columns of a text, or the line that is wrong."""
    columns = Recalls([], [], [])
    for i, words in enumerate(data.decode(errors="replace").splitlines(), 1):
        cells = words.split("#")[0].split()
        if cells and len(cells) != 3:
            raise Wrong("line %d: not a day, a share and a count: %s" % (i, shown(words.strip())))
        for column, word in zip(columns, cells):
            try:
                column.append(number(word))
            except Wrong as wrong:
                raise Wrong("line %d: %s" % (i, wrong)) from None
    return columns


# ---- the loss, and the search

def factor():
    return fsrs6.pow_f64(0.9, -1 / DECAY) - 1


def loss_at(recalls, default, s):
    """The cross entropy of the recalls and the default curve, and a sixteenth of the distance from the default; not always finite."""
    total = abs(s - default) * PRIOR
    for day, share, count in recalls.rows():
        p = (1 + day * factor() / s) ** -DECAY
        for part, q in ((share, p), (1 - share, 1 - p)):
            total -= count * part * (math.log(q) if q > 0 else -math.inf) if part else 0
    return total


def over(a, b):
    """A quotient of doubles, also by 0."""
    if b:
        return a / b
    return math.nan if a == 0 or a != a else math.copysign(math.inf, a) * math.copysign(1, b)


def derivatives(recalls, s):
    """loss_derivatives of the Rust, line by line."""
    slope = curvature = 0.0
    for t, y, n in recalls.rows():
        c = t * factor()
        p = fsrs6.pow_f64(1 + c / s, -DECAY)
        b = DECAY * c / (s * (s + c))
        a = over(p - y, 1 - p)
        q = over(b, 1 - p)
        slope += n * a * b
        curvature += n * ((1 - y) * p * (q * q) - a * b * (1 / s + 1 / (s + c)))
    return slope, curvature


class Round(NamedTuple):
    """A round of the search: its guess, how that came about, and the bracket once the slope there is known."""

    guess: float
    way: str
    low: float
    high: float


class Search(NamedTuple):
    found: float
    end: str
    rounds: list


def search(recalls, default):
    """initial_stability of the Rust, line by line."""
    slope, _ = derivatives(recalls, default)
    if abs(slope) <= PRIOR:
        return Search(single(default), "kept, since the recalls pull less than a sixteenth", [])
    low, high, prior = (LEAST, default, -PRIOR) if slope > 0 else (default, MOST, PRIOR)
    boundary = low if slope > 0 else high
    edge = derivatives(recalls, boundary)[0] + prior
    if (slope > 0 and edge >= 0) or (slope < 0 and edge <= 0):
        return Search(single(boundary), "the end of the range, where the loss still falls", [])
    s, way, rounds = default, "default", []
    for _ in range(ROUNDS):
        slope, curvature = derivatives(recalls, s)
        slope += prior
        low, high = (low, s) if slope > 0 else (s, high)
        rounds.append(Round(s, way, low, high))
        if single(low) == single(high):
            return Search(single((low + high) / 2), "the ends of the bracket are one single", rounds)
        newton = s - over(slope, curvature)
        way = "newton" if curvature > 0 and low < newton < high else "half"
        guess = newton if way == "newton" else (low + high) / 2
        if single(guess) == single(s):
            return Search(single(guess), "the next guess is the same single", rounds)
        s = guess
    return Search(single((low + high) / 2), "after %d rounds" % ROUNDS, rounds)


# ---- the page, in pixels; colours, sizes and lines are those of path.py

HEAD, TALL, CAPTION, ROW, FOOT = 128, 270, 56, 26, 62
WAYS = {
    "default": ("the default", "#222222", "M-6 0A6 6 0 1 0 6 0A6 6 0 1 0 -6 0Z"),
    "newton": ("a Newton step, inside the bracket", "#1a7f37", "M0 -7L7 0L0 7L-7 0Z"),
    "half": ("the middle of the bracket, where Newton gives no guess inside it", "#c62828", "M-5.5 -5.5H5.5V5.5H-5.5Z"),
}
BAR, FOUND = "#cfdceb", "#1f5fbf"
SIDE = 128  # right of the rounds: the guess as a number


def mark(x, y, way, told=""):
    _, ink, shape = WAYS[way]
    title = "<title>%s</title>" % escape(told) if told else ""
    return '<path transform="translate(%g %g)" d="%s" fill="%s">%s</path>' % (round(x, 1), round(y, 1), shape, ink, title)


class Across:
    """The axis of stabilities: from 0 to the default where the search goes down, and by powers of ten where it goes up."""

    def __init__(self, default, found):
        self.wide, self.is_log = WIDE - SIDE, found > default
        if self.is_log:
            self.low, self.high = math.log10(default / 1.5), math.log10(MOST * 1.2)
            powers = range(math.floor(self.low), math.ceil(self.high) + 1)
            ticks = [float("%de%d" % (n, power)) for power in powers for n in (1, 2, 5)]
            self.ticks = [x for x in ticks if self.low <= math.log10(x) <= self.high]
        else:
            self.low, self.high = 0.0, default * 1.12
            step = step_of(self.high, 8)
            self.ticks = [round(i * step, 9) for i in range(int(self.high / step) + 1)]

    def at(self, s):
        x = math.log10(s) if self.is_log else s
        return self.wide * (x - self.low) / (self.high - self.low)

    def stabilities(self, count=240):
        """From one end to the other, no less than the least."""
        for i in range(count + 1):
            x = self.low + (self.high - self.low) * i / count
            yield min(max(10.0**x if self.is_log else x, LEAST), MOST)


class Up:
    """The axis of the losses. It ends at twice the height of the default, since the loss may grow without end."""

    def __init__(self, losses, at_default):
        least = min(losses)
        most = max(min(max(losses), least + 2.2 * max(at_default - least, 0.02 * abs(least), 1e-3)), at_default)
        step = step_of(most - least, 6)
        self.low = step * math.floor(least / step)
        self.high = step * math.ceil(most / step)
        self.ticks = [round(self.low + i * step, 9) for i in range(int((self.high - self.low) / step + 1.5))]

    def height(self, x):
        return TALL * (self.high - x) / (self.high - self.low)


def caption(name, words):
    return '<text x="0" y="-11" font-size="13" fill="%s"><tspan font-weight="bold" font-size="15" fill="%s">%s</tspan>' \
        '<tspan dx="10">%s</tspan></text>' % (DIM, INK, name, escape(words))


def columns(across, tall):
    return [line(across.at(x), 0, across.at(x), tall, RULE) for x in across.ticks]


def found_at(found, across, tall):
    x = across.at(found.found)
    return line(x, 0, x, tall, FOUND, 1.5, ' stroke-dasharray="5 4"')


def below(points, high):
    """A line as far as it is no higher than the plot, and up to its upper end."""
    out = points[:1] if points[0][1] <= high else []
    for (s, a), (t, b) in zip(points, points[1:]):
        if (a > high) != (b > high):
            out.append((s + (t - s) * (high - a) / (b - a), high))
        out += [(t, b)] if b <= high else []
    return out


def curve(recalls, default, found, across):
    """The loss as a line, with a mark for the guess of each round."""
    points = [(s, loss_at(recalls, default, s)) for s in sorted({*across.stabilities(), default, found.found})]
    points = [(s, loss) for s, loss in points if math.isfinite(loss)]
    if not points:
        raise Wrong("the loss is nowhere finite, and cannot be drawn")
    up = Up([loss for _, loss in points], dict(points).get(default, points[0][1]))
    out = columns(across, TALL)
    for x in up.ticks:
        out += [line(0, up.height(x), across.wide, up.height(x), RULE), text(-9, up.height(x) + 4.5, plain(x), anchor="end")]
    out += [line(0, 0, 0, TALL, INK), line(0, TALL, across.wide, TALL, INK)]
    out.append(line_of([(across.at(s), up.height(loss)) for s, loss in below(points, up.high)]))
    out += [found_at(found, across, TALL), text(across.at(found.found) + 6, 16, "found: %.6g" % found.found, ink=FOUND)]
    for i, one in enumerate(found.rounds, 1):
        loss = loss_at(recalls, default, one.guess)
        if loss <= up.high:
            words = "round %d: a loss of %.6g at %.6g" % (i, loss, one.guess)
            out.append(mark(across.at(one.guess), up.height(loss), one.way, words))
    return [*out, caption("Loss", "of the recalls under a curve of this stability, and a sixteenth of the distance from the default")]


def ladder(found, across):
    """The rounds from above: the bracket as a bar, and the guess in it."""
    tall = ROW * len(found.rounds)
    out, bars, marks = columns(across, tall), [], []
    for i, one in enumerate(found.rounds):
        y, low, high = ROW * (i + 0.5), across.at(one.low), across.at(one.high)
        words = "round %d: guess %.9g, then from %.9g to %.9g" % (i + 1, one.guess, one.low, one.high)
        bars += [box(low, y - 7, max(high - low, 1), 14, BAR), line(low, y - 9, low, y + 9, LINE), line(high, y - 9, high, y + 9, LINE)]
        marks += [mark(across.at(one.guess), y, one.way, words), text(-9, y + 4.5, "%d" % (i + 1), anchor="end")]
        marks.append(text(across.wide + 14, y + 4.5, "%.7g" % one.guess))
    out += [*bars, found_at(found, across, tall), *marks, text(across.wide + 14, -11, "the guess", ink=DIM)]
    out += [line(0, 0, 0, tall, INK), line(0, tall, across.wide, tall, INK)]
    return [*out, caption("Rounds", "the guess, and as a bar the bracket that is left once the slope there is known")]


def legend():
    out, x = [], LEFT + 8
    for way, (words, *_) in WAYS.items():
        out += [mark(x, 91.5, way), text(x + 14, 96, words)]
        x += 36 + 6.6 * len(words)
    return out


def page(name, recalls, default, found):
    """Both plots, over one axis."""
    across, count = Across(default, found.found), len(found.rounds)
    head = "A starting stability from the first recalls of %s" % name
    cards = "%d row%s, %s cards; from %s days to %.6g" % (
        len(recalls.days), "s" * (len(recalls.days) != 1), plain(sum(recalls.counts)), plain(default), found.found)
    end = "%s in %d round%s: %s" % (cards, count, "s" * (count != 1), found.end) if count else "%s: %s" % (cards, found.end)
    out = [text(LEFT, 38, head, 22, more=' font-weight="bold"'), text(LEFT, 62, end, 14, ink=DIM), *legend()]
    plots, y = [("loss", curve(recalls, default, found, across), TALL)], HEAD + 12
    if found.rounds:
        plots.append(("rounds", ladder(found, across), ROW * count))
    for i, (plot, drawn, tall) in enumerate(plots):
        y += CAPTION * bool(i)
        out += ['<g id="%s" transform="translate(%d %d)">' % (plot, LEFT, y), *drawn, "</g>"]
        y += tall
    for s in across.ticks:
        x = LEFT + across.at(s)
        out += [line(x, y, x, y + 6, INK), text(x, y + 21, plain(s), anchor="middle")]
    out.append(text(LEFT + across.wide / 2, y + 44, "stability, in days", 14, "middle"))
    size = 'viewBox="0 0 %d %d" width="%d" height="%d"' % (2 * (WIDTH, y + FOOT))
    start = '<svg xmlns="http://www.w3.org/2000/svg" %s font-family="Helvetica, Arial, sans-serif" role="img">' % size
    return "\n".join([start, "<title>%s</title>" % escape(head), box(0, 0, WIDTH, y + FOOT, "#ffffff"), *out, "</svg>", ""])


# ---- the command

def main(path, word, output):
    recalls, default = recalls_of(read(path, TEXT_BYTES)), number(word)
    name = "".join(letter if letter.isprintable() else "?" for letter in os.path.basename(path))
    try:
        answer = fsrs6.initial_stability(*recalls, default)
    except (OSError, fsrs6.Refusal) as error:
        raise Wrong(error) from None
    found = search(recalls, default)
    if found.found != answer:
        raise Wrong("the search here ends at %r, and the library's at %r" % (found.found, answer))
    drawn = page(name, recalls, default, found)
    keep(drawn, output)


if __name__ == "__main__":
    run(main, __doc__, (3,))
