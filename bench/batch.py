#!/usr/bin/env python3
"""Measures how much an opening of the book costs: the same commands one by one, and as one batch.

Usage: bench/batch.py [--largest N] [PROGRAM]
       (default: 100000 entries, crates/whx12/out/whx12, which `rt run` in that folder leaves)

A register of 1,000, 10,000 and so on entries of one depositor is written as rows (register.py). A
hundred depositors are enrolled, each by a command of its own, and a hundred others by `batch`. Printed
are both times on the wall; `verify` must say ok of books of up to 10,000 entries. The status is 1 where
something isn't enrolled.
"""
import os
import subprocess
import sys
import tempfile
import time

import books
import register
from lib import figure, option, program_in

RUN = {
    "tier": "figures",
    "shows": "what an opening costs: a hundred commands one by one, and as one batch",
    "needs": ["program"],
    "words": ["--largest 10000"],
    "minutes": 0.5,
}
COUNT = 100


def timed(words):
    """The time that a command takes; it has to end with 0."""
    start = time.monotonic()
    subprocess.run(words, check=True)
    return time.monotonic() - start


def measure(program, folder, entries):
    """The times of so many enrolments by themselves, and as a batch."""
    book, lines = os.path.join(folder, "long.book"), os.path.join(folder, "lines.txt")
    books.make(program, book, register.Register(1, entries))
    alone = sum(timed([program, "enrol", f"ZZ-ALONE{n:03d}", "--book", book]) for n in range(COUNT))
    with open(lines, "w", encoding="ascii") as file:
        file.writelines(f"enrol ZZ-BATCH{n:03d}\n" for n in range(COUNT))
    together = timed([program, "batch", lines, "--book", book])
    if entries <= 10_000:
        told = subprocess.run([program, "verify", "--book", book], capture_output=True, check=True).stdout
        if told != f"ok {entries + 2 * COUNT}\n".encode():
            raise subprocess.CalledProcessError(1, "verify", told)
    os.remove(book)
    return alone, together


def main(words):
    largest = option(words, "--largest", 100_000)
    program = program_in(words)
    figure("load", os.getloadavg()[0], "running")
    with tempfile.TemporaryDirectory(prefix="whx12-batch-") as folder:
        entries = 1_000
        while entries <= largest:
            try:
                alone, together = measure(program, folder, entries)
            except subprocess.CalledProcessError as error:
                print(f"{entries:,} entries: {error}")
                return 1
            print(f"{entries:,} entries: {COUNT} commands {alone:.2f} s, as one batch {together:.2f} s")
            figure(f"{COUNT} commands one by one, {entries:,} entries", alone, "s")
            figure(f"{COUNT} commands as one batch, {entries:,} entries", together, "s")
            entries *= 10
    return 0


if __name__ == "__main__":
    sys.exit(main(sys.argv[1:]))
