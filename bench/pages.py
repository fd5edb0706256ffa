#!/usr/bin/env python3
"""Measures what one step costs by the number of rows on its depositor's page.

Usage: bench/pages.py [PROGRAM]     (default: crates/whx12/out/whx12, which `rt run` in that folder leaves)

A page of so many pairs of item and lot is made in a book in memory by `script`, by advices of up to 99
lines. Then one interchange of a single 943 of one line is handed in, or, in another run, one of 1,000
such sets, each a step of its own over the page. The 999 steps between the two take the difference of the
two processor times, since all else is the same. Lines name pairs that the page has, or new pairs that
come after all others or before them in the list of rows. Each run is made several times, in turn, and
the least times count.
"""
import os
import resource
import subprocess
import sys
import tempfile

import lib
from lib import figure, program_of

RUN = {
    "tier": "figures",
    "shows": "what a step costs by the rows of its page",
    "needs": ["program"],
    "words": [""],
    "minutes": 2,
}
SIZES = [100, 1000, 10_000, 100_000]
STEPS, RUNS = 1000, 7
MOST_BYTES = 1_048_576
AT = " --at 2025-03-04T09:15\n"


def interchange(control, sets):
    """An interchange of advices."""
    return lib.interchange("AR", control, *sets)


def advice(number, shipment, pairs):
    """A 943 of these pairs, one of each."""
    return lib.advice(shipment, [(1, item, lot) for item, lot in pairs], "PO", number)


def page(size):
    """Interchanges that make a page of so many pairs, each as large as may be."""
    pairs, made, sets, length = [(f"M{place:05d}", "A") for place in range(size)], [], [], 0
    for first in range(0, size, 99):
        text = advice(len(sets) + 1, f"A{first:05d}", pairs[first:first + 99])
        if length + len(text) > MOST_BYTES - 300 or len(sets) == 1000:
            made.append(sets)
            sets, length = [], 0
            text = advice(1, f"A{first:05d}", pairs[first:first + 99])
        sets.append(text)
        length += len(text)
    return [interchange(place, some) for place, some in enumerate([*made, sets], 1)]


def steps(control, count, item):
    """An interchange of so many advices of one line."""
    return interchange(control, [advice(number, f"B{number:05d}", [(item(number), "A")]) for number in range(1, count + 1)])


def run(program, folder, lines):
    """Processor seconds of a script, which other work on the machine changes less than the time on the wall, and what it prints."""
    with open(f"{folder}/script", "w", encoding="ascii") as file:
        file.write("init ZZ-WHSE1\nenrol ZZ-ACME" + AT + "".join(lines))
    before = resource.getrusage(resource.RUSAGE_CHILDREN)
    ran = subprocess.run([program, "script", "script"], cwd=folder, capture_output=True, text=True, check=True)
    after = resource.getrusage(resource.RUSAGE_CHILDREN)
    return after.ru_utime + after.ru_stime - before.ru_utime - before.ru_stime, ran.stdout


def measure(program, folder, size, item, new):
    """Seconds of one step over a page of so many rows."""
    lines = []
    for place, text in enumerate(page(size), 1):
        with open(f"{folder}/page{place}", "w", encoding="ascii") as file:
            file.write(text)
        lines.append(f"send page{place}" + AT)
    least = {}
    for count in (1, STEPS):
        with open(f"{folder}/steps{count}", "w", encoding="ascii") as file:
            file.write(steps(len(lines) + 1, count, item))
    for _ in range(RUNS):
        for count in (1, STEPS):
            seconds, printed = run(program, folder, [*lines, f"send steps{count}" + AT])
            if f"~AK9*A*{count}*{count}*{count}~" not in printed.splitlines()[-1]:
                sys.exit(f"not every set passed: {printed[-300:]!r}")
            least[count] = min(seconds, least.get(count, seconds))
    rows = run(program, folder, [*lines, f"send steps{STEPS}" + AT, "stock ZZ-ACME\n"])[1].splitlines()
    found = sum(1 for row in rows if len(row) == 106 and not row.startswith("item "))
    if found != size + (STEPS if new else 0):
        sys.exit(f"{found} rows of {size}")
    return (least[STEPS] - least[1]) / (STEPS - 1), least[1]


def main(words):
    program = program_of(words[0] if words else None)
    print(f"microseconds of a step; load {os.getloadavg()[0]:.1f}, least of {RUNS} runs")
    figure("load", os.getloadavg()[0], "running")
    print("   rows   a pair that is there   a new one behind   a new one in front   (all before the step, s)")
    with tempfile.TemporaryDirectory(prefix="whx12-pages-") as folder:
        for size in SIZES:
            kinds = [(lambda number: f"M{number * 7919 % size:05d}", False), (lambda number: f"Z{number:05d}", True),
                     (lambda number: f"B{99999 - number:05d}", True)]
            found = [measure(program, folder, size, item, new) for item, new in kinds]
            print(f"{size:7,d}   " + "   ".join(f"{seconds * 1e6:18.1f}" for seconds, _ in found) + f"   {found[0][1]:12.3f}", flush=True)
            for what, (seconds, _) in zip(("its row is there", "a new row behind", "a new row in front"), found):
                figure(f"step, {size:,} rows, {what}", seconds * 1e6, "us")


if __name__ == "__main__":
    main(sys.argv[1:])
