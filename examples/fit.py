#!/usr/bin/env python3
"""Fits the weights of a batch file to its reviews, by Adam, and keeps the best: prints the loss before and after, and the weights
as a line that examples/make_batch.py takes. Each weight stays in its range, and one that no review reads stays as it is.

    examples/fit.py [--start] FILE [STEPS]    200 steps, if no number is given

With --start the stabilities after a first review begin where the file's own first recalls put them (fsrs6.initial_stability), and not
at the file's weights; each is told. It calls the library through bindings/python/fsrs6.py, which says where that is looked for.
"""
import os
import struct
import sys
from array import array

from shared import ROOT, Wrong, read, run, say, shown, write

sys.path.insert(0, os.path.join(ROOT, "bindings", "python"))
import fsrs6
from free import BYTES, CARD, WEIGHTS, cell, checked, free, single
from rules import BOX

RATE, KEEP, KEEP_SQUARE, TINY = 0.04, 0.9, 0.999, 1e-8  # Adam's numbers


def loss_at(w, file):
    """The loss of a file with other weights, and its gradient."""
    gradient = array("d", 21 * [0])
    return fsrs6.batch_file(file[:WEIGHTS] + struct.pack("<21f", *w) + file[WEIGHTS + 84:], gradient), gradient


def first_recall(x, column):
    """The day of a column's first later review on another day, its label and its weight, or none: of a prefix only if that is the
    target. A card's last rating goes unread."""
    n = x.length(column)
    rows = (row for row in range(1, n) if cell(x, row, column)[0] > 0 and (cell(x, row, column)[1] != 0 or x.kind == CARD and row == n - 1))
    row = next(rows, None)
    if x.kind == CARD and row is not None:
        at = row * x.columns + column
        return x.days[at], x.labels[at], x.reviews[at]
    if x.kind != CARD and row is None and x.targets[column] > 0:
        return x.targets[column], x.labels[column], x.reviews[column]
    return None


def starts(x, w):
    """For each first rating with recalls: the weight, on how many days, and the stability that the search finds from the weight."""
    for rating in range(1, 5):
        columns = (column for column in range(x.columns) if x.length(column) and x.ratings[column] == rating)
        labels = {}
        for day, label, weight in filter(None, (first_recall(x, column) for column in columns)):
            if weight != 0:
                labels.setdefault(day, []).append(label)
        days = sorted(labels)
        if days:
            shares, counts = [sum(labels[day]) / len(labels[day]) for day in days], [len(labels[day]) for day in days]
            yield rating - 1, len(days), fsrs6.initial_stability(days, shares, counts, w[rating - 1])


def begin(file, w):
    """The weights with these stabilities, each of which is told."""
    w = w[:]
    for k, days, found in list(starts(checked(file), w)):
        say("first rating %d: recalls on %d day%s, stability %.6g -> %.6g" % (k + 1, days, "s" if days > 1 else "", w[k], found))
        w[k] = found
    return w


def fit(file, steps, is_start):
    """The loss and the weights of the file, and the best that were met: not the last, since a step may lead uphill."""
    frozen, ends = free(file), [tuple(map(single, BOX[k])) for k in range(21)]
    w, mean, square = array("f", struct.unpack_from("<21f", file, WEIGHTS)), 21 * [0.0], 21 * [0.0]
    loss, gradient = loss_at(w, file)
    first = best = loss, w[:]
    if is_start:
        w = begin(file, w)
        loss, gradient = loss_at(w, file)
        best = (loss, w[:]) if loss < best[0] else best
    for step in range(1, steps + 1):
        for k in (k for k in range(21) if k not in frozen):
            mean[k] += (1 - KEEP) * (gradient[k] - mean[k])
            square[k] += (1 - KEEP_SQUARE) * (gradient[k] ** 2 - square[k])
            size = (square[k] / (1 - KEEP_SQUARE**step)) ** 0.5 + TINY
            w[k] = min(max(w[k] - RATE * mean[k] / (1 - KEEP**step) / size, ends[k][0]), ends[k][1])
        loss, gradient = loss_at(w, file)
        best = (loss, w[:]) if loss < best[0] else best
        say("\rstep %d of %d: loss %.6f" % (step, steps, loss), end="" if step < steps else "\n")
    return first, best


def main(path, steps="200", start=False):
    if not (steps.isascii() and steps.isdigit() and len(steps) < 7):
        raise Wrong("the steps must be a whole number, and not %s" % shown(steps))
    try:
        (before, _), (after, w) = fit(read(path, BYTES), int(steps), start)
    except (OSError, fsrs6.Refusal) as error:
        raise Wrong(error) from None
    write(("before %r\nafter %r\nweights %s\n" % (before, after, " ".join("%.9g" % x for x in w))).encode())


if __name__ == "__main__":
    run(main, __doc__, (1, 2), "--start")
