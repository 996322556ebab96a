#!/usr/bin/env python3
"""Checks reviews that an app has worked out for itself. Prints each row whose state after the review, or next interval, has not the
bits of the proved formulas: its line, its first wrong field, what is claimed and what is right, in decimal and in bits.

    examples/check_rows.py ROWS.csv     (examples/rows.csv is one; /dev/stdin is standard input)

The first line names the columns, in any order: w0 to w20, the weights; stability and difficulty, the state before; day, the days
since the review before; rating; retention; and what the app claims: stability_after, difficulty_after and interval. Other columns
go unread. A rating is a whole number. Any other number is a decimal, which stands for the nearest single (nine digits tell each), or
the bits of a single, as 0x40490fdb; a claimed one may be anything, also nan or inf.

Status 0: every row is accepted. 3: a row is wrong, refused or cannot be read. 1: the file or the library cannot be used. 2: usage.
The library is the one of bindings/python/fsrs6.py, which says where it is looked for.
"""
import csv
import os
import re
import struct
import sys
from fractions import Fraction
from functools import lru_cache

from shared import ROOT, Wrong, run, say, shown, write

sys.path.insert(0, os.path.join(ROOT, "bindings", "python"))
import fsrs6
from floats import F32

WEIGHTS = ["w%d" % k for k in range(fsrs6.WEIGHTS)]
GIVEN = ["stability", "difficulty", "day", "retention"]
CLAIMED = ["stability_after", "difficulty_after", "interval"]  # in the order in which they are judged
COLUMNS = [*WEIGHTS, *GIVEN, "rating", *CLAIMED]
BITS = re.compile(r"0[xX]([0-9a-fA-F]{8})")
NUMBER = re.compile(r"(?=.{1,64}$)[+-]?([0-9]+\.?[0-9]*|\.[0-9]+)([eE][+-]?[0-9]{1,3})?")
OTHER = re.compile(r"[+-]?(nan|inf|infinity)", re.I)
RATING = re.compile(r"[0-9]{1,10}")
STEP = 10000  # rows from one word on standard error to the next


@lru_cache(maxsize=4096)
def pattern(word):
    """The bits of a single, or None where the word is none."""
    if BITS.fullmatch(word):
        return int(word, 16)
    if NUMBER.fullmatch(word):
        return F32.rounded(word.startswith("-"), abs(Fraction(word)))
    if OTHER.fullmatch(word):
        return (F32.nan if word.lower().endswith("nan") else F32.inf) + (F32.sign if word.startswith("-") else 0)
    return None


def single(bits):
    return struct.unpack("<f", struct.pack("<I", bits))[0]


def told(bits):
    return "%.9g (0x%08x)" % (single(bits), bits)


class Row:
    """A line's numbers, as bits, and its rating."""

    def __init__(self, cells):
        self.bits = {name: pattern(cells[name]) for name in COLUMNS if name != "rating"}
        for name, bits in self.bits.items():
            if bits is None:
                raise Wrong("%s is neither a decimal nor 0x and 8 hexadecimal digits: %s" % (name, shown(cells[name])))
        if not RATING.fullmatch(cells["rating"]) or int(cells["rating"]) >= 1 << 32:
            raise Wrong("rating is no whole number of 32 bits: %s" % shown(cells["rating"]))
        self.rating = int(cells["rating"])
        self.w = [single(self.bits[name]) for name in WEIGHTS]
        stability, difficulty, self.day, self.retention = (single(self.bits[name]) for name in GIVEN)
        self.before = fsrs6.State(stability, difficulty)
        self.claimed = fsrs6.Claimed(*(self.bits[name] for name in CLAIMED))

    def verdict(self):
        return fsrs6.check_row(self.w, self.before, self.day, self.rating, self.retention, self.claimed)

    def right(self):
        """What the app should have exported."""
        after = fsrs6.next_state(self.w, self.before, self.day, self.rating)
        return fsrs6.Claimed.of_floats(after, fsrs6.next_interval(self.w, after.stability, self.retention))


def fault(cells):
    """What is to be said of a line, and what it counts as; nothing of an accepted row."""
    try:
        row = Row(cells)
        verdict = row.verdict()
    except Wrong as wrong:
        return str(wrong), "not read"
    except fsrs6.Refusal as refusal:
        return "refused %d: %s" % (refusal.number, refusal), "refused"
    if verdict == fsrs6.ROW_ACCEPTED:
        return None, "accepted"
    field = verdict - fsrs6.ROW_STABILITY
    return "%s: claimed %s, right %s" % (CLAIMED[field], told(row.claimed[field]), told(row.right()[field])), "wrong"


def header(reader):
    names = [name.strip() for name in next(reader, [])]
    for name in COLUMNS:
        if names.count(name) != 1:
            raise Wrong("line 1: %s column %s" % ("no" if name not in names else "more than one", name))
    return names


def rows(file):
    """The number of each line that has a row, and its cells by the names of their columns, or None where it has not as many."""
    reader = csv.reader(file)
    try:
        names = header(reader)
        for cells in reader:
            if cells:
                cells = [cell.strip() for cell in cells]
                yield reader.line_num, dict(zip(names, cells)) if len(cells) == len(names) else None
    except csv.Error as error:
        raise Wrong("line %d: %s" % (reader.line_num, error)) from None


def checked(file):
    """Prints the bad rows and a last line; whether there is none."""
    counts = dict.fromkeys(("accepted", "wrong", "refused", "not read"), 0)
    for line, cells in rows(file):
        text, kind = fault(cells) if cells else ("not as many cells as columns", "not read")
        counts[kind] += 1
        if text:
            write(("line %d: %s\n" % (line, text)).encode(errors="backslashreplace"))
        if sum(counts.values()) % STEP == 0:
            say("%d rows, %d of them accepted" % (sum(counts.values()), counts["accepted"]))
    total = sum(counts.values())
    if total == 0:
        raise Wrong("there is no row")
    write(("%d rows: %s\n" % (total, ", ".join("%d %s" % (n, kind) for kind, n in counts.items()))).encode())
    return counts["accepted"] == total


def main(path):
    try:
        with open(path, encoding="utf-8-sig", errors="replace", newline="") as file:
            fsrs6.load()
            is_good = checked(file)
    except OSError as error:  # a library that cannot be loaded has its own words
        raise Wrong("cannot read %s: %s" % (path, error.strerror) if error.strerror else error) from None
    if not is_good:
        sys.exit(3)


if __name__ == "__main__":
    run(main, __doc__, (1,))
