#!/usr/bin/env python3
"""Measures sets of many lines: what a line costs in a set of 999 beside one of 99.

Usage: bench/lines.py [--larger] [PROGRAM]
       (default: crates/whx12/out/whx12, which `rt run` in that folder leaves)

A cost that grows with the square of the lines would show as ten times the time a line. Each command is
given to a book of its own, once in memory by `script` and once over a book in a file, and its time is
that of the run less that of a run without it: in memory the script before it, in a file an opening, one
query and a closing (`outbox` of a stranger). Processor time, since other work on the machine changes it
less; of several runs the least counts, and the greatest memory.

  one item      an advice of so many lots of one item, and a count of it
  many items    an advice of so many items of one lot each, and a count of it
  order N x M   an order of N lines, each for all of M lots, which hold one each: N times M lots are reserved
  1 MiB         an interchange as large as may be, of advices of 99 and of 999 lines

The lots of an order come into a book in memory by counts of 999 lines, each of which is replayed for the
order as for every command there; into a book in a file they are written as rows by sqlite3, beside a
register that says nothing of them (`verify` would tell). --larger measures orders over more lots too, in
a file.
"""
import os
import resource
import shutil
import sqlite3
import subprocess
import sys
import tempfile
import time

import lib
import pages
from lib import figure, program_of

RUN = {
    "tier": "figures",
    "shows": "what a line costs in sets of 999 lines beside sets of 99",
    "needs": ["program"],
    "words": [""],
    "minutes": 5,
}
AT = ["--at", "2025-03-04T09:15"]
MOST_BYTES = 1_048_576
FEW, MANY = 99, 999
SIZES = [(99, 9), (999, 9), (99, 99)]
LARGER = [(999, 99), (99, 999), (999, 999)]


def envelope(control, function, sets):
    """An interchange of these sets."""
    return lib.interchange(function, control, *sets)


def item(n):
    return f"ITEM-{n:04d}"


def lot(n):
    return f"LOT-{n:04d}"


def order(number, lines, quantity):
    """A 940 of so many items, so many of each."""
    text = "".join(f"LX*{n + 1}~W01*{quantity}*EA**SK*{item(n)}~" for n in range(lines))
    return f"ST*940*0001~W05*N*{number}~{text}W76*{lines * quantity}~SE*{4 + 2 * lines}*0001~"


def one_item(lines):
    return [(item(0), lot(n)) for n in range(lines)]


def many_items(lines):
    return [(item(n), lot(0)) for n in range(lines)]


def largest(lines):
    """Sets of so many lines, as many as an interchange may have, each over the same pairs: half of one item, half of many."""
    sets, length, pairs = [], 300, one_item(lines // 2) + many_items(lines - lines // 2)[1:] + [("LAST", "L")]
    while len(sets) < 1000:
        text = pages.advice(len(sets) + 1, f"SHP{len(sets):04d}", pairs)
        if length + len(text) > MOST_BYTES:
            break
        sets.append(text)
        length += len(text)
    return sets


class Runs:
    """Runs of the program in a folder."""

    def __init__(self, program, folder):
        self.program, self.folder = program, folder

    def write(self, name, text):
        with open(f"{self.folder}/{name}", "w", encoding="ascii") as file:
            file.write(text)

    def run(self, words, status=0, wanted=None):
        """Processor and wall seconds, and the memory in MiB. GNU time stands between, since a child of this process would count this
        process's memory as its own."""
        timed = ["/usr/bin/time", "-o", "peak", "-f", "%M", self.program, *words]
        before, started = resource.getrusage(resource.RUSAGE_CHILDREN), time.monotonic()
        ended = subprocess.run(timed, cwd=self.folder, capture_output=True, text=True)
        after, wall = resource.getrusage(resource.RUSAGE_CHILDREN), time.monotonic() - started
        if ended.returncode != status or wanted is not None and wanted not in ended.stdout:
            sys.exit(f"{words}: status {ended.returncode}: {ended.stdout[-300:]!r} {ended.stderr[-300:]!r}")
        with open(f"{self.folder}/peak", encoding="ascii") as file:
            peak = file.read().split()[-1]
        return after.ru_utime + after.ru_stime - before.ru_utime - before.ru_stime, wall, int(peak) / 1024

    def least(self, runs, words, status=0, wanted=None, before=lambda: None):
        """The least times and the greatest memory of several runs."""
        found = []
        for _ in range(runs):
            before()
            found.append(self.run(words, status, wanted))
        return min(one[0] for one in found), min(one[1] for one in found), max(one[2] for one in found)

    def in_memory(self, runs, lines, last, wanted):
        """What a script's last line costs."""
        begin = ["init ZZ-WHSE1", " ".join(["enrol", "ZZ-ACME", *AT]), *(" ".join([*line, *AT]) for line in lines)]
        self.write("before.script", "\n".join(begin) + "\n")
        self.write("whole.script", "\n".join([*begin, " ".join([*last, *AT])]) + "\n")
        before = self.least(runs, ["script", "before.script"])
        whole = self.least(runs, ["script", "whole.script"], wanted=wanted)
        return whole[0] - before[0], whole[1] - before[1], whole[2]

    def house(self, rows=()):
        """A book in a file with a depositor, and rows of stock beside its register."""
        for name in ("house.book", "house.book-wal"):
            if os.path.exists(f"{self.folder}/{name}"):
                os.remove(f"{self.folder}/{name}")
        self.run(["init", "ZZ-WHSE1", "--book", "house.book"])
        self.run(["enrol", "ZZ-ACME", "--book", "house.book", *AT])
        if rows:
            # amounts of a page are within what its entries can have brought
            self.write("other.x12", envelope(1, "AR", [pages.advice(1, "SHP1", [("OTHER", "L")])]))
            self.write("other.csv", "OTHER,L,1\n")
            self.run(["send", "other.x12", "--book", "house.book", *AT])
            self.run(["count", "ZZ-ACME", "T1", "SHP1", "other.csv", "--book", "house.book", *AT])
        db = sqlite3.connect(f"{self.folder}/house.book")
        with db:
            db.executemany("INSERT INTO stock (who, item, lot, since, expected, on_hand, reserved, shipped) "
                           "VALUES ('ZZ-ACME', ?, ?, 1, 0, 1, 0, 0)", rows)
        db.execute("PRAGMA wal_checkpoint(TRUNCATE)")
        db.close()

    def in_file(self, runs, lines, last, wanted):
        """What a command costs over a copy of the house's book to which these were given."""
        for line in lines:
            self.run([*line, "--book", "house.book", *AT])

        def copy():
            for end in ("", "-wal"):
                if os.path.exists(f"{self.folder}/house.book{end}"):
                    shutil.copy(f"{self.folder}/house.book{end}", f"{self.folder}/copy.book{end}")
                elif os.path.exists(f"{self.folder}/copy.book{end}"):
                    os.remove(f"{self.folder}/copy.book{end}")

        opening = self.least(runs, ["outbox", "ZZ-NONE", "--book", "copy.book"], 1, before=copy)
        whole = self.least(runs, [*last, "--book", "copy.book", *AT], wanted=wanted, before=copy)
        return whole[0] - opening[0], whole[1] - opening[1], whole[2]


def told(place, name, lines, found):
    """Prints a line of the table."""
    seconds, wall, peak = found
    print(f"{place:7} {name:26} {lines:7,d} lines {seconds:9.3f} s {1e6 * seconds / lines:9.1f} us a line {wall:9.3f} s on the wall {peak:8.1f} MiB",
          flush=True)


def measure_lines(runs, how, place, begin):
    """Advices and counts of 99 and 999 lines."""
    for name, pairs_of in (("one item", one_item), ("many items", many_items)):
        for lines in (FEW, MANY):
            pairs = pairs_of(lines)
            runs.write("advice.x12", envelope(1, "AR", [pages.advice(1, "SHP1", pairs)]))
            runs.write("sheet.csv", "".join(f"{item},{lot},1\n" for item, lot in pairs))
            send = ["send", "advice.x12"]
            begin()
            advised = how(9, [], send, "~AK9*A*1*1*1~")
            told(place, f"{name}, advice", lines, advised)
            begin()
            counted = how(9, [send], ["count", "ZZ-ACME", "T1", "SHP1", "sheet.csv"], f"W14*{lines}*{lines}~")
            told(place, f"{name}, count", lines, counted)
            if name == "many items":
                figure(f"line of an advice of {lines} lines, {place}", 1e6 * advised[0] / lines, "us")
                figure(f"line of a count of {lines} lines, {place}", 1e6 * counted[0] / lines, "us")


def measure_largest(runs, how, place, begin):
    """An interchange of 1 MiB."""
    for lines in (FEW, MANY):
        sets = largest(lines)
        text = envelope(1, "AR", sets)
        runs.write("largest.x12", text)
        begin()
        found = how(5, [], ["send", "largest.x12"], f"~AK9*A*{len(sets)}*{len(sets)}*{len(sets)}~")
        told(place, f"1 MiB, sets of {lines}", len(sets) * lines, found)
        print(f"{'':7} {len(text):,d} bytes in {len(sets)} sets: {len(text) / found[0] / 1e6:.1f} MB/s")


def counts_of(runs, lines, lots):
    """Commands that bring so many lots of so many items: an advice of one line for each count, in one interchange, and the counts."""
    pairs = [(item(n), lot(m)) for n in range(lines) for m in range(lots)]
    sheets = [pairs[first:first + MANY] for first in range(0, len(pairs), MANY)]
    runs.write("openings.x12", envelope(1, "AR", [pages.advice(n + 1, f"SHP{n}", pairs[:1]) for n in range(len(sheets))]))
    made = [["send", "openings.x12"]]
    for n, sheet in enumerate(sheets):
        runs.write(f"sheet{n}.csv", "".join(f"{item},{lot},1\n" for item, lot in sheet))
        made.append(["count", "ZZ-ACME", f"T{n}", f"SHP{n}", f"sheet{n}.csv"])
    return made


def measure_orders(runs, sizes, in_memory):
    """Orders over many lots each."""
    for lines, lots in sizes:
        before = counts_of(runs, lines, lots) if in_memory else []
        runs.write("order.x12", envelope(2, "OW", [order("ORD1", lines, lots)]))
        send, wanted = ["send", "order.x12"], "~AK9*A*1*1*1~"
        times = 3 if lines * lots < 100_000 else 1
        if in_memory:
            found = runs.in_memory(times, before, send, wanted)
        else:
            runs.house([(item(n), lot(m)) for n in range(lines) for m in range(lots)])
            found = runs.in_file(times, [], send, wanted)
            db = sqlite3.connect(f"{runs.folder}/copy.book")
            reserved, = db.execute("SELECT count(*) FROM reservation").fetchone()
            db.close()
            if reserved != lines * lots:
                sys.exit(f"{reserved} lots reserved, not {lines * lots}")
        told("memory" if in_memory else "file", f"order {lines} x {lots}", lines, found)
        print(f"{'':7} {1e6 * found[0] / (lines * lots):.2f} us a lot", flush=True)
        if not in_memory:
            figure(f"order of {lines} lines of {lots} lots", found[0], "s")
            figure(f"peak memory, order of {lines} lines of {lots} lots", found[2], "MiB")


def main(words):
    larger = "--larger" in words
    words = [word for word in words if word != "--larger"]
    program = program_of(words[0] if words else None)
    print(f"load {os.getloadavg()[0]:.1f}; processor time, least of several runs")
    figure("load", os.getloadavg()[0], "running")
    with tempfile.TemporaryDirectory(prefix="whx12-lines-") as folder:
        runs = Runs(program, folder)
        for how, place, begin in ((runs.in_memory, "memory", lambda: None), (runs.in_file, "file", runs.house)):
            measure_lines(runs, how, place, begin)
            measure_largest(runs, how, place, begin)
        measure_orders(runs, SIZES, True)
        measure_orders(runs, SIZES + LARGER if larger else SIZES, False)


if __name__ == "__main__":
    main(sys.argv[1:])
