#!/usr/bin/env python3
"""Prints the loss and the gradient of a deck whose histories stand at the end of their rows, behind padding, as ./batchgrad prints
those of a batch file: examples/show.py shows them as decimals.

    examples/tablet.py DECK.txt

The text is one for `examples/make_batch.py --end`, which makes a batch file of the same loss and gradient. Here its tables go to the
library as they stand, with `end=True`, through bindings/python/fsrs6.py, which says where the library is looked for.
"""
import os
import struct
import sys

from shared import ROOT, Wrong, run, write

sys.path.insert(0, os.path.join(ROOT, "bindings", "python"))
import fsrs6
from free import single
from make_batch import PREFIX, Review, counted, history, label, parsed, text_of

PADDING = Review(0, "0", "0", "1")


def numbers(columns, number):
    """A table by rows, each column standing at its end."""
    rows = max(map(len, columns))
    columns = [[PADDING] * (rows - len(column)) + column for column in columns]
    return [single(number(review)) for row in zip(*columns) for review in row]


def batch_of(kind, cards):
    """The tables of a deck, as the library takes them."""
    columns = [history(kind, card) for card in cards]
    scored, weight = columns, lambda review: review.weight  # of padding too: nothing reads it
    if kind == PREFIX:
        scored, weight = [card[-1:] for card in cards], counted
    rows = max(map(len, columns))
    given = {
        "rows": rows,
        "columns": len(cards),
        "days": numbers(columns, lambda review: review.day),
        "ratings": numbers(columns, lambda review: review.rating),
        "lengths": [rows] * len(cards),
        "labels": numbers(scored, lambda review: label(review.rating)),
        "weights": numbers(scored, weight),
        "end": True,
    }
    if kind == PREFIX:
        return fsrs6.Prefixes(target_days=numbers(scored, lambda review: review.day), **given)
    return fsrs6.Cards(**given)


def main(path):
    kind, weights, cards = parsed(text_of(path), is_end=True)
    w, gradient = list(map(single, weights)), fsrs6.Gradient()
    add = gradient.add_prefixes if kind == PREFIX else gradient.add_cards
    try:
        loss = add(w, batch_of(kind, cards))
    except (OSError, fsrs6.Refusal) as error:
        raise Wrong(error) from None
    write("".join("%s\n" % struct.pack(">d", x).hex() for x in (loss, *gradient.slots)).encode())


if __name__ == "__main__":
    run(main, __doc__, (1,))
