#!/usr/bin/env python3
"""Tells which weights no column of a batch file reads. Each of them may take any value inside its range: no loss and no gradient
changes, and its own slot stays 0 (docs/PROMISES.md, 'What is not read does not count').

    examples/free.py [--end] FILE                their numbers, on one line, or `none`
    examples/free.py --moved FILE | ./batchgrad  the file with each of them at the far end of its range: the same answer

With --end the histories of the file's tables stand at the end of their columns, behind padding (include/fsrs6.h,
fsrs_batch_loss_in). ./batchgrad reads them from the start: `examples/make_batch.py --end` makes a file for it.

What ./batchgrad, or with --end the library, refuses is refused, with the same number.
"""
import struct
from itertools import accumulate
from typing import NamedTuple

from shared import Wrong, read, run, say, write

from floats import F32
from rules import BOX, REFUSALS

PREFIX, CARD = 1, 2
COLUMNS, ROWS, BYTES = 512, 512, 65536  # the most that a file has
WEIGHTS = 40  # where they begin


class Refused(Wrong):
    """A file that ./batchgrad refuses with this number."""

    def __init__(self, number, where=""):
        super().__init__("refused %d: %s%s" % (number, where, REFUSALS[number]))
        self.number = number


class Batch(NamedTuple):
    """The call that a file holds."""

    kind: int
    rows: int
    columns: int
    weights: tuple
    days: tuple
    ratings: tuple
    lengths: tuple
    targets: tuple
    labels: tuple
    reviews: tuple
    is_end: bool = False

    def length(self, column):
        return min(self.lengths[column], self.rows)

    def steps(self, column):
        """'Steps run on all prefix rows, and on rows 0..n-2 of a card.'"""
        return self.length(column) if self.kind == PREFIX else max(self.length(column) - 1, 0)

    def first(self, column):
        """The row of the first review: row 0 or, at the end, the first whose rating is not 0, the length where there is none."""
        rows = range(self.length(column) if self.is_end else 0)
        return next((row for row in rows if self.ratings[row * self.columns + column] != 0), len(rows))


def sections(file):
    """The file taken apart: refusal 11 where it is not what its header says."""
    if not WEIGHTS <= len(file) <= BYTES:
        raise Refused(11)
    kind, rows, columns, *offsets = struct.unpack_from("<10I", file)
    if kind not in (PREFIX, CARD) or rows > ROWS:
        raise Refused(11)
    cells = rows * columns
    targets, scores = (columns, columns) if kind == PREFIX else (0, cells)
    counts = [21, cells, cells, columns, targets, scores, scores]
    if [*offsets, len(file)] != list(accumulate([WEIGHTS] + [4 * count for count in counts])):
        raise Refused(11)
    formats = ("<%d%s" % (count, letter) for count, letter in zip(counts, "fffIfff"))
    return Batch(kind, rows, columns, *(struct.unpack_from(*part) for part in zip(formats, [file] * 7, offsets)))


def single(text):
    """The single nearest to a decimal, as a number."""
    return struct.unpack("<f", struct.pack("<I", F32.decimal(text)))[0]


def is_day(x):
    return -100000 <= x <= 100000


def score(weight, label):
    """A review weight, and a label, which is read only if its weight is not 0."""
    yield 8, 0 <= weight <= 1000000
    yield 8, weight == 0 or 0 <= label <= 1


def prefix_cells(x, column, row, day, rating):
    """What is read of a row, in the order in which it is tested: a refusal's number, and whether the cell is good. The row after
    the last is the target, which goes unread at the end where all is padding."""
    if row < x.length(column):
        yield 6, rating in (0, 1, 2, 3, 4)
        yield 7, row <= x.first(column) or rating == 0 or is_day(day)
    elif not x.is_end or x.first(column) < row:
        yield from score(x.reviews[column], x.labels[column])
        yield 7, x.reviews[column] == 0 or is_day(x.targets[column])


def card_cells(x, column, row, day, rating):
    """The same of a card, whose last rating is read at the end alone; there nothing else of padding is."""
    weight, label = (table[row * x.columns + column] for table in (x.reviews, x.labels))
    is_last = row == x.length(column) - 1
    yield 6, is_last and not x.is_end or rating in (0, 1, 2, 3, 4)
    if row > x.first(column) and not (x.is_end and rating == 0):
        yield 7, (weight if is_last else rating) == 0 or is_day(day)
        yield from score(weight, label)


def cell(x, row, column):
    """The day and the rating, or those of padding past the table's end."""
    place = row * x.columns + column
    return (x.days[place], x.ratings[place]) if row < x.rows else (0, 0)


def checked(file, is_end=False):
    """The call of a file, which is tested as document 01 says, in its order: 11, 2, 3, then column by column."""
    x = sections(file)._replace(is_end=is_end)
    for place, (low, high) in BOX.items():
        if not single(low) <= x.weights[place] <= single(high):
            raise Refused(2, "weight %d: " % place)
    if x.columns > COLUMNS:
        raise Refused(3)
    for column in range(x.columns):
        if x.kind == PREFIX and x.length(column) == 0:
            raise Refused(9, "column %d: " % column)
        for row in range(x.length(column) + (x.kind == PREFIX)):
            cells = (prefix_cells if x.kind == PREFIX else card_cells)(x, column, row, *cell(x, row, column))
            number = next((number for number, is_good in cells if not is_good), 0)
            if number:
                raise Refused(number, "column %d, row %d: " % (column, row))
    return x


def weights_read(row, day, rating):
    """Document 01's table, 'weights read', by step."""
    if rating == 0:
        return set()
    if row == 0:
        return {int(rating) - 1, 4, 5}
    own = {8, 9, 10} | ({15} if rating == 2 else set()) | ({16} if rating == 4 else set())
    if day == 0:
        own = {17, 18, 19}
    elif rating == 1:
        own = {11, 12, 13, 14, 17, 18}
    return own | {4, 5, 6, 7, 20}


def free(file, is_end=False):
    """The weights that no step reads, but for 20, which every call reads. Rows count from the first review."""
    x = checked(file, is_end)
    steps = ((row, column) for column in range(x.columns) for row in range(x.steps(column)))
    read = {20}.union(*(weights_read(row - x.first(column), *cell(x, row, column)) for row, column in steps))
    return [k for k in range(21) if k not in read]


def moved(file, is_end=False):
    """The file with each free weight at the end of its range that is farther from where it stands."""
    other = bytearray(file)
    for k in free(file, is_end):
        place = WEIGHTS + 4 * k
        value, = struct.unpack_from("<f", file, place)
        struct.pack_into("<f", other, place, max(map(single, BOX[k]), key=lambda end: abs(end - value)))
    return bytes(other)


def main(path, **options):
    file, is_end = read(path, BYTES), "end" in options
    if "moved" in options:
        write(moved(file, is_end))
        return
    line = " ".join(map(str, free(file, is_end))) or "none"
    say("weights that no column of %s reads:" % path)
    write(line.encode() + b"\n")


if __name__ == "__main__":
    run(main, __doc__, (1,), "--end", "--moved")
