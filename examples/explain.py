#!/usr/bin/env python3
"""Tells why a card moved: a sentence for each of its reviews, with the rule that gave the stability, the state before and after, and
whether a number was held at an end of its range.

    examples/explain.py [--end] DECK.txt CARD    the cards of the text count from 1

The text is one for examples/make_batch.py, with --end too. Each sentence is one call of fsrs6.explain_step, and of
fsrs6.training_step for the state after it. Days count from the card's first review. Through bindings/python/fsrs6.py, which says where
the library is looked for.
"""
import os
import sys

from shared import ROOT, Wrong, run, write

sys.path.insert(0, os.path.join(ROOT, "bindings", "python"))
import fsrs6
from free import single
from fsrs6 import Held, Reason
from make_batch import deck_of, text_of
from path import card_in, plain


def moved(name, before, after, held):
    """A number of the state, and where it went; a first review comes from nowhere."""
    words = "%s %.5g" % (name, after) if before is None else "%s %.5g → %.5g" % (name, before, after)
    return words if held == Held.FREE else "%s, %s" % (words, held)


def sentence(day, step, why, after):
    begin = "padding" if why.reason == Reason.PADDING else "day %s, rated %d: %s" % (plain(day), step.rating, why.reason)
    before = (None, None) if why.reason == Reason.FIRST else step.state
    held = (why.stability_held, why.difficulty_held)
    return "; ".join([begin, *map(moved, ("stability", "difficulty"), before, after, held)])


def sentences(w, card):
    """Each review from the state that the one before it left. The days of padding and of a first review count nothing."""
    state, day = fsrs6.State(), 0.0
    for row, review in enumerate(card):
        step = fsrs6.Step(state, single(review.day), single(review.rating), row)
        why, state = fsrs6.explain_step(w, step), fsrs6.training_step(w, step).state
        day += 0 if why.reason in (Reason.PADDING, Reason.FIRST) else step.day
        yield sentence(day, step, why, state)


def main(path, word, **options):
    _, weights, cards = deck_of(text_of(path), "end" in options)
    card, w = cards[card_in(cards, word) - 1], list(map(single, weights))
    try:
        told = "".join(line + "\n" for line in sentences(w, card))
    except (fsrs6.Refusal, OSError) as error:
        raise Wrong(error) from None
    write(told.encode())


if __name__ == "__main__":
    run(main, __doc__, (2,), "--end")
