#!/usr/bin/env python3
"""Makes a batch file, which ./batchgrad reads, from a readable text.

    examples/make_batch.py [--end] DECK.txt >DECK.batch

Each line of the text is a review: the days since the review before it, from -100000 to 100000 (a card's first review has none,
and its days go unread), the rating (1 again, 2 hard, 3 good, 4 easy) and, if it is not 1, the review's weight, from 0 to
1000000. A card's reviews follow one another; an empty line ends the card. The rating 0 is padding: it is no review, and its
weight is 0.

A first line `prefix` makes prefixes of the cards: a card's last review is then the one that is scored, and the others, of
which there is at least one, its history. Without it every review after a card's first is scored. A line `weights` with 21
numbers takes the place of the default weights. What stands behind a # is a remark.

With --end the histories of the text stand at the end of their rows, behind padding, which a batch file cannot say. So the file gets
the deck that has the same loss and gradient, bit for bit: each card without the padding in front of its first review. Padding may
then have any weight, which counts nothing; a card that is padding alone, or whose history is, is left out.

A file has at most 512 cards, 512 rows (reviews of the longest card) and 65536 bytes. Where the text is wrong, the line is told
and nothing is written.
"""
import re
import struct
from fractions import Fraction
from typing import NamedTuple

from shared import Wrong, read, run, shown, write

from floats import F32, less
from rules import BOX, FSRS6_DEFAULT_PARAMETERS

PREFIX, CARD = 1, 2
COLUMNS, ROWS, BYTES = 512, 512, 65536  # the most that a file has
TEXT = 1 << 24  # the most bytes of a text
NUMBER = re.compile(r"(?=.{1,64}$)[+-]?([0-9]+\.?[0-9]*|\.[0-9]+)([eE][+-]?[0-9]{1,3})?")


class Review(NamedTuple):
    """A line of the text, with its number; the rest are decimals."""

    line: int
    day: str
    rating: str
    weight: str


def single(text):
    """The bits of the single nearest to a decimal fraction."""
    return F32.decimal(text)


def number(what, word, low, high):
    """A decimal fraction, which must lie from low to high and not be made 0 by rounding."""
    if not NUMBER.fullmatch(word) or not low <= Fraction(word) <= high:
        raise Wrong("%s must be a number from %d to %d, and not %s" % (what, low, high, shown(word)))
    if Fraction(word) and not F32.size(single(word)):
        raise Wrong("%s is too small for a single: %s" % (what, shown(word)))
    return word


def weight(place, word):
    """A weight, which must lie in its range as a single: the ends are the singles nearest to the decimals."""
    low, high = BOX[place]
    if not NUMBER.fullmatch(word) or less(F32, single(word), single(low)) or less(F32, single(high), single(word)):
        raise Wrong("weight %d must be a number from %s to %s, and not %s" % (place, low, high, shown(word)))
    return word


def review(line, words, is_end):
    if len(words) not in (2, 3):
        raise Wrong("not a day, a rating and perhaps a weight: %s" % shown(" ".join(words)))
    day, rating = number("the day", words[0], -100000, 100000), words[1]
    if rating not in ("0", "1", "2", "3", "4"):
        raise Wrong("the rating must be 0, 1, 2, 3 or 4, and not %s" % shown(rating))
    counts = number("the review's weight", words[2], 0, 1000000) if words[2:] else "0" if rating == "0" else "1"
    if rating == "0" and Fraction(counts) and not is_end:
        raise Wrong("padding (rating 0) is no review, so that its weight must be 0")
    return Review(line, day, rating, counts)


class Deck:
    """A text as far as it was read: the kind, the weights and the cards, lists of reviews."""

    def __init__(self, is_end):
        self.kind, self.weights, self.cards = CARD, None, [[]]
        self.is_end, self.is_begun = is_end, False

    def take(self, number, line):
        words = line.split("#")[0].split()
        if words[:1] == ["prefix"]:
            if self.is_begun or words[1:]:
                raise Wrong("`prefix` may stand on the first line only, and alone")
            self.kind = PREFIX
        elif words[:1] == ["weights"]:
            if self.weights:
                raise Wrong("`weights` may stand on one line only, and here is a second")
            if len(words) != 22:
                raise Wrong("`weights` wants 21 numbers, and here are %d" % (len(words) - 1))
            self.weights = [weight(place, word) for place, word in enumerate(words[1:])]
        elif words:
            self.cards[-1].append(review(number, words, self.is_end))
        elif not line.strip() and self.cards[-1]:
            self.cards.append([])
        self.is_begun |= bool(words)


def lines(text):
    """A text's lines. It may begin with the mark that some editors write before UTF-8."""
    for number, line in enumerate(text.removeprefix(b"\xef\xbb\xbf").splitlines(), 1):
        try:
            yield number, line.decode()
        except UnicodeDecodeError:
            raise Wrong("line %d: not UTF-8" % number) from None


def parsed(text, is_end=False):
    """The kind, the weights and the cards of a text, as they stand there."""
    deck, number = Deck(is_end), 1
    for number, line in lines(text):
        try:
            deck.take(number, line)
        except Wrong as wrong:
            raise Wrong("line %d: %s" % (number, wrong)) from None
    cards = [card for card in deck.cards if card]
    if not cards:
        raise Wrong("line %d: the deck ends, and has no card" % number)
    for card in cards:
        if not history(deck.kind, card):
            raise Wrong("line %d: a prefix has at least two reviews: a history, and the one that is scored" % card[0].line)
    return deck.kind, deck.weights or FSRS6_DEFAULT_PARAMETERS, cards


def history(kind, card):
    """All of a card, or what comes before the scored review of a prefix."""
    return card if kind == CARD else card[:-1]


def without_front(kind, card):
    """A card from its first review on; nothing of one without any."""
    begins = (row for row, review in enumerate(history(kind, card)) if review.rating != "0")
    return card[next(begins, len(card)):]


def deck_of(text, is_end=False):
    """The kind, the weights and the cards of a text, as a file takes them."""
    kind, weights, cards = parsed(text, is_end)
    if is_end:
        cards = list(filter(None, (without_front(kind, card) for card in cards)))
    check_limits(kind, cards)
    return kind, weights, cards


def size(kind, rows, columns):
    """The bytes of a file."""
    cells = rows * columns
    return 40 + 4 * (21 + 2 * cells + columns + (3 * columns if kind == PREFIX else 2 * cells))


def check_limits(kind, cards):
    """Tells the first line with which a file would be refused."""
    rows, target = 0, int(kind == PREFIX)
    for columns, card in enumerate(cards, 1):
        begin = "line %d: " % card[0].line
        if len(card) > ROWS + target:
            raise Wrong("line %d: a file has at most %d rows, and here is one more" % (card[ROWS + target].line, ROWS))
        if columns > COLUMNS:
            raise Wrong(begin + "a file has at most %d cards, and here is one more" % COLUMNS)
        rows = max(rows, len(card) - target)
        if size(kind, rows, columns) > BYTES:
            raise Wrong(begin + "a file has at most %d bytes, and this card makes them %d" % (BYTES, size(kind, rows, columns)))


def counted(review):
    """The weight that a review has in a loss: padding is none."""
    return "0" if review.rating == "0" else review.weight


def label(rating):
    """Recalled, unless the rating says otherwise."""
    return "1" if rating in ("2", "3", "4") else "0"


def table(columns, rows, number):
    """Time-major singles of a column's rows, and 0 past its end."""
    return [single(number(column[row])) if row < len(column) else 0 for row in range(rows) for column in columns]


def sections(kind, weights, cards):
    steps = [history(kind, card) for card in cards]
    rows = max(map(len, steps), default=0)
    scored = (cards, rows) if kind == CARD else ([card[-1:] for card in cards], 1)
    return rows, [
        list(map(single, weights)),
        table(steps, rows, lambda review: review.day),
        table(steps, rows, lambda review: review.rating),
        [len(column) for column in steps],
        [] if kind == CARD else table(*scored, lambda review: review.day),
        table(*scored, lambda review: label(review.rating)),
        table(*scored, counted),
    ]


def batch(kind, weights, cards):
    rows, parts = sections(kind, weights, cards)
    offsets = [40]
    for part in parts:
        offsets.append(offsets[-1] + 4 * len(part))
    words = [kind, rows, len(cards)] + offsets[:-1] + [word for part in parts for word in part]
    return struct.pack("<%dI" % len(words), *words)


def text_of(path):
    text = read(path, TEXT)
    if len(text) > TEXT:
        raise Wrong("%s has more than %d bytes" % (path, TEXT))
    return text


def main(path, **options):
    write(batch(*deck_of(text_of(path), "end" in options)))


if __name__ == "__main__":
    run(main, __doc__, (1,), "--end")
