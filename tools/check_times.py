#!/usr/bin/env python3
"""Writes docs/CHECK-TIMES.md from what the gate printed: tools/check_times.py LOG SECONDS [WHY], where LOG is the output of .ci/run, each
line behind the second at which it came, SECONDS what the whole of it took, and WHY, if it grew much, says why. In bash:

    set -o pipefail; SECONDS=0; .ci/run | while IFS= read -r line; do echo "$SECONDS $line"; done >LOG"""
import datetime
import os
import platform
import re

from usage import arguments, fail, whole


def lines_of(path):
    try:
        with open(path, encoding="utf-8", errors="replace") as log:
            return list(log)
    except OSError as error:
        fail(f"cannot read {path}: {error.strerror}")


def main():
    path, seconds, *why = arguments("LOG SECONDS [WHY]", 2, 3)
    whole_gate = whole("SECONDS", seconds)
    proved, kept, functions, edits, last, crate = {}, [], {}, {}, "", ""
    for line in lines_of(path):
        m = re.match(r"(\d+) (.*)", line)
        at, line = (int(m[1]), m[2]) if m and not re.match(r"\d+ passed", line) else (None, line.strip())
        if m := re.match(r"== (\w+)$", line):
            crate = m[1]
        elif m := re.match(r"logic=proved functions=(\d+)", line):
            functions[crate] = m[1]
        elif m := re.match(r"rt: (\w+) proved$", line):
            proved[m[1]] = at
        elif m := re.match(r"rt: (\w+) is kept:", line):
            kept.append(m[1])
        elif m := re.match(r"rt: must-fail (\w+)/[\w.-]+: refused, as it must be", line):
            edits[m[1]] = edits.get(m[1], 0) + 1
        elif re.match(r"\d+ passed, \d+ failed", line):
            last = line.strip()
    out = ["# Check times", "", f"On {os.cpu_count()} processors ({platform.machine()}), {datetime.date.today()}. `tools/check_times.py` writes this page from the gate's output. The gate", "works at several crates at a time, and at the edits of those that are proved beside them, so a crate's line says when its proof was", "done, in seconds since the gate began, and not how long it took alone.", ""]
    out += ["| crate | functions | proved after | must-fail edits refused |", "| --- | --- | --- | --- |"]
    for crate, after in proved.items():
        out.append(f"| `{crate}` | {functions.get(crate, '')} | {'' if after is None else after} | {edits.get(crate, '')} |")
    if kept:
        out += ["", f"Kept from an earlier run of the same files, and not proved again: {', '.join(f'`{it}`' for it in kept)}."]
    out += ["", f"The whole gate: {whole_gate} seconds ({whole_gate / 60:.1f} minutes), '{last}'."]
    out += ["", *why] if why else []
    path = os.path.join(os.path.dirname(os.path.realpath(__file__)), "..", "docs", "CHECK-TIMES.md")
    with open(path, "w", encoding="utf-8") as page:
        page.write("\n".join(out) + "\n")


if __name__ == "__main__":
    main()
