#!/usr/bin/env python3
"""Writes the kernels' two tables: the `static`s in crates/table/src. The rule of each is computed once over all its entries
(crates/table/proofs/Entries.antt, Indices.antt). Of `POWERS` each row is a line of its own, so that an edit can name it."""
import os
import sys
from fractions import Fraction
from math import factorial

from usage import arguments

N = 0xB17217F7D1CF79AB


def entry(i):
    """The whole part of 2^62 P(i N / 2^72), and 2^63 after the last."""
    if i == 256:
        return 2**63
    r = Fraction(i * N, 2**72)
    return int(2**62 * sum(r**j / factorial(j) for j in range(24)))


def literal(n):
    digits = f"{n:016x}"
    return "0x" + "_".join(digits[j : j + 4] for j in range(0, 16, 4))


SOURCE = """// The fractional powers of two: 2^62 * 2^(i / 256), cut to a whole number; 2^63 from 256 on. `tools/table.py` writes the
// rows.
#![tactic(auto)]

pub mod index;

ghost use Rattle.std.specs.Prelude.{◌≡◌};
ghost use Rattle.table.specs.Entry.{entry};

static POWERS: [u64; 256] = [
%s];

/// The entry `i`: `2^62 * 2^(i / 256)`, cut to a whole number, and `2^63` for every `i` from 256 on.
pub fn entry_at(i: u64) -> u64
    ensures { result ≡ entry i }
{
    if i < 256 {
        POWERS[i as usize]
    } else {
        0x8000_0000_0000_0000
    }
}
"""

INDEX = """// The first entry at or above every significand of an interval, by the 9 digits below the leading one. `tools/table.py`
// writes the rows.
ghost use Rattle.std.specs.Prelude.{◌≡◌, ◌%%◌};
ghost use Rattle.table.specs.Entry.{index_at_def};

static FIRSTS: [u16; 512] = [
%s];

/// The first entry at or above every significand of the interval `k`. Of `k` the last 9 binary digits count.
pub fn index_at(k: u64) -> u64
    ensures { result ≡ index_at_def (k %% 512) }
{
    u64::from(FIRSTS[(k %% 512) as usize])
}
"""


# as many in a line as fit in 100 columns
def lines(items):
    out, line = "", "   "
    for x in items:
        if len(line) + len(x) + 2 > 100:
            out, line = out + line + "\n", "   "
        line += f" {x},"
    return out + line + "\n"


def main():
    arguments("", 0, 0)
    entries = [entry(i) for i in range(257)]
    powers = entries[:256]
    # the first entry at or above the end of each of 512 intervals of a significand
    firsts = [next(i for i, x in enumerate(entries) if x >= (513 + k) << 53) for k in range(512)]
    root = os.path.join(os.path.dirname(os.path.realpath(__file__)), "..", "crates", "table")
    for path, text in (
        ("src/lib.rt", SOURCE % "".join(f"    {literal(x)},\n" for x in powers)),
        ("src/index.rt", INDEX % lines([str(x) for x in firsts])),
    ):
        path = os.path.join(root, path)
        with open(path, "w", encoding="utf-8") as out:
            out.write(text)


if __name__ == "__main__":
    sys.exit(main())
