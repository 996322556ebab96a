#!/usr/bin/env python3
"""Shows what ./batchgrad prints as decimals: the loss, and the 21 slots of its gradient. A refusal gets its reason, and status 1.

    examples/show.py FILE
    ./batchgrad FILE | examples/show.py
"""
import re
import struct

from shared import Wrong, read, run, shown, write

from rules import REFUSALS

NAMES = ["loss"] + ["slot %d" % i for i in range(21)]
BYTES = 17 * len(NAMES)  # 16 digits and a line's end for each


def numbers(lines):
    """The 22 doubles, by their bits."""
    for number, line in enumerate(lines, 1):
        if number > len(NAMES):
            raise Wrong("line %d: more than %d lines" % (number, len(NAMES)))
        if not re.fullmatch("[0-9a-f]{16}", line):
            raise Wrong("line %d: not 16 digits 0 to 9 or a to f: %s" % (number, shown(line)))
        yield struct.unpack(">d", bytes.fromhex(line))[0]
    if len(lines) < len(NAMES):
        raise Wrong("line %d: the end, and %d lines are wanted" % (len(lines) + 1, len(NAMES)))


def main(path=None):
    text = read(path, BYTES).decode("ascii", "replace")
    refused = re.fullmatch(r"refused ([1-9][0-9]?)\n?", text)
    if refused and int(refused[1]) in REFUSALS:
        raise Wrong("refused %s: %s" % (refused[1], REFUSALS[int(refused[1])]))
    lines = text.removesuffix("\n").split("\n") if text else []
    write("".join("%s\t%s\n" % pair for pair in zip(NAMES, list(numbers(lines)))).encode())


if __name__ == "__main__":
    run(main, __doc__, (0, 1))
