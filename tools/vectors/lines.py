"""What the scripts beside this one share: a list of test vectors, and pseudo-random choices. To be imported first, since it says
where tools/floats.py, tools/rules.py and tools/kernels/exact.py are.

A list is a file in crates/vectors/data. Its lines are a letter and words of hexadecimal digits, each after one space; one that
begins with '#' is a remark. A float is its pattern, and every NaN among the answers is 7fc00000 or, of a double,
7ff8000000000000. A slice is its length and then its numbers. In every list

    w    sets the weights of the lines below          a slice of at most 128 singles
    g    sets the slots that lines below start from   a slice of at most 64 doubles
"""
import os
import random
import re
import sys

TOOLS = os.path.join(os.path.dirname(os.path.abspath(__file__)), "..")
sys.path += [TOOLS, os.path.join(TOOLS, "kernels")]
from usage import arguments, whole

PROGRAM = os.path.join(TOOLS, "..", "crates", "vectors")

# what those who read a list have room for: the words and the bytes of a line, and the bytes of the list
WORDS, LINE, BYTES = 640, 5000, 1 << 19

source = random.Random()


def seeded(words="[SEED]"):
    """The seed that the command names, or 1."""
    seed = whole("SEED", *(arguments(words, 0, 1) or ["1"]))
    source.seed(seed)
    return seed


def below(n):
    """A number from 0 to n - 1, from 64 bits more than n has."""
    return source.getrandbits(n.bit_length() + 64) % n


def between(a, b):
    return a + below(b - a + 1)


def either(*choices):
    return choices[below(len(choices))]


class Lines:
    """A list by its name. `names` has, by its letter, what a line counts for. A word is a number, or its digits."""

    def __init__(self, name, names):
        self.name, self.names = name, names
        self.lines, self.counts, self.given = [], dict.fromkeys(names, 0), {}

    def remark(self, text):
        self.lines.append("# " + text)

    def put(self, letter, words):
        assert len(words) <= WORDS
        self.lines.append(letter + "".join(" " + (v if isinstance(v, str) else "%x" % v) for v in words))

    def add(self, letter, *words):
        self.counts[letter] += 1
        self.put(letter, words)

    def give(self, letter, *words):
        """A line w or g, where it changes anything."""
        if words != self.given.get(letter):
            self.given[letter] = words
            self.put(letter, words)

    def write(self):
        """The list, and its part of the program's stdout: all passed."""
        text = "".join(line + "\n" for line in self.lines)
        shares = [(name, self.counts[letter]) for letter, name in self.names.items()]
        assert all(len(line) < LINE for line in self.lines) and len(text) < BYTES
        assert text.isascii() and all(n for _, n in shares)
        shares.append(("total", sum(n for _, n in shares)))
        part = self.name + "\n" + "".join("%s %d of %d\n" % (name, n, n) for name, n in shares)
        with open(os.path.join(PROGRAM, "data", self.name), "w", newline="\n") as out:
            out.write(text)
        with open(os.path.join(PROGRAM, "stdout"), "r+", newline="\n") as out:
            whole, found = re.subn(r"^%s\n(.+\n)*?total .+\n" % self.name, part, out.read(), flags=re.M)
            assert found == 1, "stdout has no part of this name"
            out.seek(0)
            out.truncate()
            out.write(whole)
