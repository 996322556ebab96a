#!/usr/bin/env python3
"""Draws docs/kernels.svg: how far the kernels' answers lie from the exact values, as parts of what is promised.

    tools/kernels/picture.py [--points N] [--seed SEED] [--archive FILE] [--output FILE]

One panel a function. A bin is as wide as one binary exponent, of E or of ln's x, in single, and seven in double; of the N
points of a bin the worst and the median are drawn. In bins next to a zero (of A, or of ln) every second point lies close to it.

The answers are the archive's (host.c, which is compiled with cc). The errors are exact.py's: whole numbers and fractions, E
between two numbers of 256 binary digits, and no float. The promises are those that exact.py judges by: document 01's, in double
change request K4's, of expm1 K1's. The points are pseudo-random (random.Random(SEED), only its getrandbits), and the same
arguments give the same file. It prints each function's worst, and ends with 1 where one lies beyond what is promised, with 2
where there is nothing to draw.
"""
import argparse
import os
import platform
import random
import re
import subprocess
import sys
import tempfile
from statistics import median_high

import exact
from exact import F32, F64, LESS_ONE, LIMITS, LOGS, MILLION, N, UNIT

HERE = os.path.dirname(os.path.abspath(__file__))
ROOT = os.path.dirname(os.path.dirname(HERE))
EXPONENTS = {F32: 1, F64: 7}  # of a bin


def below(rnd, n):
    return rnd.getrandbits(80) % n


# ---- the kernels: each has bins, arguments that fall into one of them, and the error of an answer with the bin of its argument
class Power:
    """exp: its argument A is x itself. The last bins end where the promise does."""

    axis = "A = x"

    def __init__(self, name, f):
        self.name, self.f, self.width = name, f, EXPONENTS[f]
        self.close, _, self.p = LIMITS[f]
        self.half = (self.close << 64) // (N * self.width)
        self.bins = 2 * self.half
        self.ends = (-90, 90, 30) if f is F32 else (-710, 710, 200)

    def promise(self):
        return f"2^-{self.p} E for |A| ≤ {self.close}"

    def edge(self, i):
        """in units of 2 ^ -64"""
        if i in (0, self.bins):
            return (-self.close if i == 0 else self.close) << 64
        return (i - self.half) * self.width * N

    def place(self, i):
        return self.edge(i) / 2**64

    def wanted(self, rnd, i, is_close):
        """an A of the bin, as num, den"""
        low, high = self.edge(i), self.edge(i + 1)
        num = (low << 90) + rnd.getrandbits(90) * (high - low)
        return num >> (below(rnd, 60) if is_close and 0 in (low, high) else 0), 1 << 154

    def draw(self, rnd, i, is_close):
        num, den = self.wanted(rnd, i, is_close)
        return (self.f.nearest(num < 0, abs(num), den),)

    def argument(self, x):
        return exact.fraction(x)

    def part(self, v, num, den):
        return exact.near(v, num, den, self.p)[1]

    def error(self, v, *xs):
        """the bin, none where nothing is promised, and the error in millionths of what is promised"""
        num, den = self.argument(*xs)
        if abs(num) > self.close * den:
            return None, 0
        i = exact.split(num, den)[0] // self.width + self.half
        return min(max(i, 0), self.bins - 1), self.part(v, num, den)


class LessOne(Power):
    """exp less 1"""

    def promise(self):
        return f"2^-{LESS_ONE[0]} |E - 1| + 2^-{LESS_ONE[1]} for |A| ≤ {self.close}"

    def part(self, v, num, den):
        k, low, _ = exact.E_between(num, den)
        one = UNIT << max(-k, 0)
        return exact.close_to(v, (low << max(k, 0)) - one, one, *LESS_ONE)[1]


class General(Power):
    """pow: y is any, and x such that y ln x is the A that is wanted"""

    axis = "A = y ln x"

    def draw(self, rnd, i, is_close):
        f = self.f
        num, den = self.wanted(rnd, i, is_close)
        while True:
            y = f.nearest(rnd.getrandbits(1), rnd.getrandbits(90) + 1, 1 << 86)  # up to 16
            a, b = exact.fraction(y)
            if a == 0:
                continue
            k, low, _ = exact.E_between(num * b * (1 if a > 0 else -1), den * abs(a))
            if not f.low <= k <= f.bias:
                continue
            x = f.nearest(False, low << max(k, 0), UNIT << max(-k, 0))
            if exact.positive(x):
                return x, y

    def argument(self, x, y):
        (a, b), (c, d) = exact.L(x[1], x[2]), exact.fraction(y)
        return a * c, b * d


class Log:
    """ln, over every exponent of a positive number"""

    axis = "binary exponent of x"

    def __init__(self, name, f):
        self.name, self.f, self.width = name, f, EXPONENTS[f]
        self.count = f.bias + 1 - f.low
        self.bins = -(-self.count // self.width)
        self.ends = (f.low, f.bias + 1, 40 if f is F32 else 400)

    def promise(self):
        return f"2^-{LOGS[self.f][0]} |L| + 2^-{LOGS[self.f][1]}"

    def place(self, i):
        return self.f.low + min(i * self.width, self.count)

    def draw(self, rnd, i, is_close):
        f = self.f
        low, high = self.place(i), self.place(i + 1)
        if is_close and low <= 0 <= high:
            sides = [side for side, is_there in ((-1, low < 0), (1, high > 0)) if is_there]
            off = rnd.getrandbits(f.prec - 1) >> below(rnd, f.prec - 1)
            return (f.of_bits(f.one + sides[below(rnd, len(sides))] * off),)
        e = low + below(rnd, high - low)
        digits = min(f.prec - 1, e - f.low)
        return ((False, (1 << digits) + rnd.getrandbits(digits), e - digits),)

    def error(self, v, x):
        i = (x[2] + x[1].bit_length() - 1 - self.f.low) // self.width
        return i, exact.close_to(v, *exact.L(x[1], x[2]), *LOGS[self.f])[1]


# ---- the run
class Panel:
    def __init__(self, kernel, host, seed, n):
        self.kernel, f = kernel, kernel.f
        self.name = f"{kernel.name}_{f.name}"
        rnd = random.Random(f"{seed} {self.name}")
        points = [kernel.draw(rnd, i, j % 2) for i in range(kernel.bins) for j in range(n)]
        answers = exact.ask(host, f"fsrs_{self.name}", f, [[f.to_bits(v) for v in xs] for xs in points])
        bins = [[] for _ in range(kernel.bins)]
        for xs, answer in zip(points, answers):
            i, part = kernel.error(f.of_bits(answer), *xs)
            if i is not None:
                bins[i].append(part)
        parts = [part for some in bins for part in some] or [0]
        self.points, self.most, self.middle = len(parts), max(parts) / MILLION, median_high(parts) / MILLION
        self.worst = [max(some, default=0) / MILLION for some in bins]
        self.median = [median_high(some or [0]) / MILLION for some in bins]


def die(why):
    print(f"picture.py: {why}", file=sys.stderr)
    sys.exit(2)


def build(archive, room):
    """the program that answers for the archive"""
    program = os.path.join(room, "host")
    if not os.path.exists(archive):
        die(f"no {archive}; ./lib writes it")
    cc = [os.environ.get("CC", "cc"), "-std=c11", "-O2", os.path.join(HERE, "host.c"), archive, "-o", program]
    if subprocess.run(cc).returncode:
        die("cannot build host.c")
    return [program]


# ---- the page, in pixels
INK, DIM, RULE, PALE, STRONG, SOFT, LIMIT = "#222222", "#555555", "#d9d9d9", "#ececec", "#1b5e9e", "#6fa3d8", "#b3261e"
WIDTH, HEIGHT = 1000, 1044
LEFT, TOP, ACROSS, DOWN = 66, 128, 492, 236  # the first plot's corner, and from one plot to the next
WIDE, TALL = 420, 150  # a plot
MOST = 1.06  # what its height stands for


def raised(text, size):
    """a minus as printed, and 2^-23 with its exponent raised"""
    text = text.replace("&", "&amp;").replace("<", "&lt;").replace("-", "\u2212")
    up, gap, small = (round(part * size, 1) for part in (0.35, 0.26, 0.72))
    out, *rest = re.split("\\^(\u2212?[0-9]+) ?", text)
    for exponent, after in zip(rest[::2], rest[1::2]):
        out += f'<tspan dy="-{up}" font-size="{small}">{exponent}</tspan>'
        out += f'<tspan dx="{gap}" dy="{up}">{after}</tspan>' if after else ""
    return out


def say(x, y, text, size=12, anchor="start", ink=INK, more=""):
    return f'<text x="{x:g}" y="{y:g}" font-size="{size}" text-anchor="{anchor}" fill="{ink}"{more}>{raised(text, size)}</text>'


def line(x1, y1, x2, y2, ink, wide=1, more=""):
    return f'<line x1="{x1:g}" y1="{y1:g}" x2="{x2:g}" y2="{y2:g}" stroke="{ink}" stroke-width="{wide}"{more}/>'


def box(x, y, wide, tall, ink):
    return f'<rect x="{x:g}" y="{y:g}" width="{wide:g}" height="{tall:g}" fill="{ink}"/>'


def height(part):
    return round(TALL * (1 - part / MOST), 1)


def across(kernel, at):
    low, high, _ = kernel.ends
    return round(WIDE * (at - low) / (high - low), 1)


def steps(kernel, parts, start):
    """a line that keeps its height over each bin"""
    words, last = [f"M{across(kernel, kernel.place(0)):g} {start:g}"], start
    for i, part in enumerate(parts):
        y = height(min(part, MOST))
        if y != last:
            words.append(f"V{y:g}")
        words.append(f"H{across(kernel, kernel.place(i + 1)):g}")
        last = y
    return "".join(words)


def axes(kernel):
    low, high, step = kernel.ends
    out = [box(0, 0, WIDE, TALL, "#ffffff")]
    for a, b in ((low, kernel.place(0)), (kernel.place(kernel.bins), high)):
        if a < b:
            out.append(box(across(kernel, a), 0, across(kernel, b) - across(kernel, a), TALL, PALE))
    for quarter in range(5):
        y = height(quarter / 4)
        out += [line(0, y, WIDE, y, RULE), say(-8, y + 4, f"{quarter / 4:g}", anchor="end")]
    for at in range(-(-low // step) * step, high + 1, step):
        x = across(kernel, at)
        out += [line(x, TALL, x, TALL + 5, INK), say(x, TALL + 18, str(at), anchor="middle")]
    return out + [
        line(0, TALL, WIDE, TALL, INK),
        line(0, 0, 0, TALL, INK),
        say(WIDE / 2, TALL + 36, kernel.axis, anchor="middle"),
        say(-TALL / 2, -44, "error / promised", anchor="middle", more=' transform="rotate(-90)"'),
    ]


def plot(panel, column, row):
    kernel = panel.kernel
    title = f"{kernel.name}, {'single' if kernel.f is F32 else 'double'}"
    worst, median = steps(kernel, panel.worst, TALL) + f"V{TALL}", steps(kernel, panel.median, height(panel.median[0]))
    return [
        f'<g id="{panel.name}" transform="translate({LEFT + column * ACROSS} {TOP + row * DOWN})">',
        *axes(kernel),
        f'<path d="{worst}" fill="{SOFT}" fill-opacity="0.3" stroke="{STRONG}" stroke-width="1.2"/>',
        f'<path d="{median}" fill="none" stroke="{SOFT}" stroke-width="1.2"/>',
        line(0, height(1), WIDE, height(1), LIMIT, 1.5),
        say(0, -12, title, 15, more=' font-weight="bold"'),
        say(WIDE, -12, f"promised: {kernel.promise()}", 13, "end", LIMIT),
        say(WIDE - 18, height(0.85), f"worst {panel.most:.3f}, median {panel.middle:.3f}", 12, "end", DIM),
        "</g>",
    ]


NOTES = [
    (line, STRONG, "the worst of a bin's points"),
    (line, SOFT, "their median"),
    (line, LIMIT, "what is promised"),
    (box, PALE, "no distance is promised; from |A| = 89 (double: 710) on the answer"),
    (None, None, "is +∞, or +0 (expm1: -1), exactly"),
]
SAID = """E and L are document 01's exact fractions, near exp A and ln x. In double
2^-50 E is asked for |A| ≤ 32 and proved for |A| ≤ 700 (request K4).
{points:,} points, {n:,} a bin, seed {seed}. A bin is one binary exponent wide,
of E or of x, and in double seven; next to A = 0 and x = 1 every second
point lies close to it. Errors are worked out with whole numbers and
fractions alone (tools/kernels/picture.py)."""


def notes(column, row, text):
    """the legend, in the place of a plot"""
    out = [f'<g id="notes" transform="translate({LEFT + column * ACROSS} {TOP + row * DOWN})">']
    for i, (mark, ink, words) in enumerate(NOTES):
        y = 20 * i
        if mark is line:
            out.append(line(0, y - 4, 26, y - 4, ink, 2))
        elif mark is box:
            out.append(box(0, y - 11, 26, 14, ink))
        out.append(say(36, y, words))
    out += [say(0, 108 + 17 * i, words, ink=DIM) for i, words in enumerate(text.split("\n"))]
    return out + ["</g>"]


def page(panels, n, seed):
    head = "How far the kernels lie from the exact values"
    out = [
        f'<svg xmlns="http://www.w3.org/2000/svg" viewBox="0 0 {WIDTH} {HEIGHT}" width="{WIDTH}" height="{HEIGHT}" '
        'font-family="Helvetica, Arial, sans-serif" role="img">',
        f"<title>{head}</title>",
        box(0, 0, WIDTH, HEIGHT, "#ffffff"),
        say(LEFT, 40, head, 22, more=' font-weight="bold"'),
        say(LEFT, 64, "The error of each answer, as a part of what is promised: 1 is all of it.", 14, ink=DIM),
    ]
    for panel, column, row in panels:
        out += plot(panel, column, row)
    points = sum(panel.points for panel, _, _ in panels)
    out += notes(1, 3, SAID.format(points=points, n=n, seed=seed))
    return "\n".join(out + ["</svg>", ""])


KERNELS = [
    (Power("exp", F32), 0, 0), (Power("exp", F64), 1, 0), (Log("ln", F32), 0, 1), (Log("ln", F64), 1, 1),
    (General("pow", F32), 0, 2), (General("pow", F64), 1, 2), (LessOne("expm1", F32), 0, 3),
]


def options():
    parser = argparse.ArgumentParser(usage=argparse.SUPPRESS, description=__doc__, formatter_class=argparse.RawDescriptionHelpFormatter)
    folder = "lib" if platform.machine() == "x86_64" else "native"
    archive, output = os.path.join(ROOT, "target", folder, "libfsrs6.a"), os.path.join(ROOT, "docs", "kernels.svg")
    parser.add_argument("--points", type=int, default=1000, metavar="N", help="points a bin: 1000, which take two minutes")
    parser.add_argument("--seed", type=int, default=1, help="1")
    parser.add_argument("--archive", default=archive, metavar="FILE", help="what ./lib wrote")
    parser.add_argument("--output", default=output, metavar="FILE", help="docs/kernels.svg")
    return parser.parse_args()


def main():
    given, panels = options(), []
    if given.points < 1:
        die("a bin wants a point")
    with tempfile.TemporaryDirectory() as room:
        host = build(given.archive, room)
        for kernel, column, row in KERNELS:
            panel = Panel(kernel, host, given.seed, given.points)
            panels.append((panel, column, row))
            print(f"fsrs_{panel.name}: {panel.points} points, worst {panel.most:.6f} of what is promised", flush=True)
    text = page(panels, given.points, given.seed)
    with open(given.output, "w", encoding="utf-8") as file:
        file.write(text)
    return int(any(panel.most > 1 for panel, _, _ in panels))


if __name__ == "__main__":
    sys.exit(main())
