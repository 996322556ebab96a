#!/usr/bin/env python3
"""Draws docs/performance.svg from bench/recorded: nanoseconds for one row of a loss with its gradient, by step of the work.

    bench/picture.py [--rows N] [--output FILE]

A bar for ours, one for the Rust's text over our kernels and one for the Rust as it is, each cut where the loss alone would end: what
is left of the cut goes forward, what is right of it is the way back. The same file gives the same picture.
"""
import argparse
import os
import sys

HERE = os.path.dirname(os.path.abspath(__file__))
INK, DIM, RULE = "#222222", "#555555", "#d9d9d9"
SIDES = [
    ("ours, checks included", "#1b5e9e", "#6fa3d8"),
    ("the Rust's text over our kernels", "#5b6b2f", "#a9b97a"),
    ("the Rust", "#7a4a1e", "#cf9f6f"),
]
LOSSES = [("batch_loss", "prefixes"), ("card_loss", "cards")]
WIDTH, LEFT, RIGHT, TOP, BAR, GAP, GROUP = 900, 250, 70, 76, 24, 8, 44


def die(why):
    print(f"picture.py: {why}", file=sys.stderr)
    sys.exit(2)


def recorded(rows):
    """nanoseconds a row by the name of the loss: ours, mixed, the Rust's"""
    try:
        with open(os.path.join(HERE, "recorded"), encoding="utf-8") as file:
            lines = file.read().splitlines()
    except OSError as error:
        die(f"no bench/recorded ({error.strerror}); bench/run --record writes it")
    words = [line.split() for line in lines if not line.startswith("#")]
    return lines[0].rpartition(": ")[2], {w[0]: [float(x) for x in w[3:6]] for w in words if w[1] == rows}


def text(x, y, words, size=13, anchor="start", fill=INK, weight="normal"):
    return f'<text x="{x:g}" y="{y:g}" font-size="{size}" text-anchor="{anchor}" fill="{fill}" font-weight="{weight}">{words}</text>'


def page(origin, times, rows):
    most = 20 * -(-max(max(ts) for ts in times.values()) // 20)
    height = TOP + len(LOSSES) * (len(SIDES) * (BAR + GAP) + GROUP) + 40
    bottom = height - 56

    def across(ns):
        return LEFT + (WIDTH - LEFT - RIGHT) * ns / most

    out = [
        f'<svg xmlns="http://www.w3.org/2000/svg" width="{WIDTH}" height="{height}" viewBox="0 0 {WIDTH} {height}" font-family="sans-serif">',
        f'<rect width="{WIDTH}" height="{height}" fill="#ffffff"/>',
        text(20, 28, f"Nanoseconds for one row of a loss with its gradient, {rows} rows of 64 columns", 16, weight="bold"),
        text(20, 50, "dark: forward, as the loss alone takes; light: the way back. What the middle bar has more than the last is the kernels'.", 12, fill=DIM),
    ]
    for ns in range(0, int(most) + 1, 20):
        out.append(f'<path d="M{across(ns):.1f} {TOP - 6}V{bottom}" stroke="{RULE}"/>')
        out.append(text(across(ns), bottom + 18, f"{ns}", 11, "middle", DIM))
    y = TOP
    for loss, name in LOSSES:
        alone, whole = times[loss], times[loss + "_and_grad"]
        out.append(text(20, y + 16, name, 14, weight="bold"))
        for (side, dark, light), a, b in zip(SIDES, alone, whole):
            out.append(text(LEFT - 10, y + 16, side, 12, "end"))
            out.append(f'<rect x="{across(0):.1f}" y="{y}" width="{across(a) - across(0):.1f}" height="{BAR}" fill="{dark}"/>')
            out.append(f'<rect x="{across(a):.1f}" y="{y}" width="{across(b) - across(a):.1f}" height="{BAR}" fill="{light}"/>')
            out.append(text(across(a) - 6, y + 16, f"{a:.1f}", 12, "end", "#ffffff"))
            out.append(text(across(b) - 6, y + 16, f"{b - a:.1f}", 12, "end"))
            out.append(text(across(b) + 6, y + 16, f"{b:.1f}", 12, weight="bold"))
            y += BAR + GAP
        y += GROUP
    out += [text(20, height - 14, origin, 11, fill=DIM), "</svg>"]
    return "\n".join(out) + "\n"


def main():
    words = argparse.ArgumentParser(description=__doc__, formatter_class=argparse.RawDescriptionHelpFormatter)
    words.add_argument("--rows", default="64", choices=["16", "64", "512"])
    words.add_argument("--output", default=os.path.join(os.path.dirname(HERE), "docs", "performance.svg"))
    given = words.parse_args()
    origin, times = recorded(given.rows)
    missing = [name for loss, _ in LOSSES for name in (loss, loss + "_and_grad") if name not in times]
    if missing:
        die(f"bench/recorded has no {missing[0]} of {given.rows} rows")
    with open(given.output, "w", encoding="utf-8") as file:
        file.write(page(origin, times, given.rows))


main()
