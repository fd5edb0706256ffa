#!/usr/bin/env python3
"""What a commit asks of the disk: syncs, writes and bytes, beside C SQLite's for the same statements.

Usage: bench/syncs.py [--largest N] [PROGRAM]
       (default: up to 100,000 entries; crates/whx12/out/whx12, which `rt run` in that folder
        leaves)

It needs strace, cc and Debian's package libsqlite3-dev. A book is filled as by bench/books.py, whose 200
interchanges of one line (an advice and an order in turn) are given to the program as one `batch`, and
given again, when all are known; bench/statements.c runs the same statements, a transaction for each.
`strace` counts each process's calls that sync a file or write into one, and the bytes they write; what
goes to a terminal isn't counted. What a process without commands does is taken off: its opening and,
where the log is copied into the file at the end, its closing. The same is done with `--wary`. Status 1
where a commit isn't synced once, or with `--wary` twice, or where the known ones write.
"""
import os
import re
import subprocess
import sys
import tempfile

import books
import costs
import register
from lib import HERE, figure, option, program_in

RUN = {
    "tier": "figures",
    "shows": "what a commit asks of the disk: syncs, writes and bytes, beside C SQLite",
    "needs": ["program", "C SQLite", "strace"],
    "words": ["--largest 10000"],
    "minutes": 1,
}
SIZES = [1000, 10_000, 100_000]
CALL = re.compile(r"^(?:\d+ +)?(\w+)\((\d+).*= (\d+)$")
SYNCS, WRITES = ("fsync", "fdatasync"), ("write", "pwrite64", "writev", "pwritev")


def counted(words, wanted, folder):
    """Syncs, writes and bytes of a run, but for what it prints."""
    out = f"{folder}/calls"
    ended = subprocess.run(["strace", "-f", "-o", out, "-e", f"trace={','.join(SYNCS + WRITES)}", *words], capture_output=True, check=False)
    books.same(f"status of {words[:3]}", ended.returncode, wanted)
    syncs = writes = size = 0
    with open(out, encoding="utf-8", errors="replace") as file:
        for found in filter(None, map(CALL.match, file)):
            name, handle, told = found.groups()
            if name in SYNCS:
                syncs += 1
            elif int(handle) > 2:
                writes, size = writes + 1, size + int(told)
    return syncs, writes, size


def a_commit(run, without):
    """What a command asks, where a run of all asks this and one of none that."""
    return [(mine - other) / books.COMMANDS for mine, other in zip(run, without)]


def of_program(program, book, work, folder, *flags):
    work.folder(f"{folder}/files")
    at = books.AT[1]
    sends = costs.lines_into(f"{folder}/sends", [f"send {folder}/files/{place:04d}.x12 --at {at}" for place in range(books.COMMANDS)])
    looks = costs.lines_into(f"{folder}/looks", ["stock ZZ-NONE"])
    path = books.copied(book, folder, "batch.book")
    none = counted([program, "batch", looks, "--book", path, *flags], 1, folder)
    new, known = (counted([program, "batch", sends, "--book", path, *flags], 0, folder) for _ in range(2))
    return a_commit(new, none), a_commit(known, none)


def of_sqlite(statements, book, work, folder):
    work.list(f"{folder}/writes", True)
    work.list(f"{folder}/known", False)
    path = books.copied(book, folder, "stated.book")
    new, known = (counted([statements, path, f"{folder}/{name}"], 0, folder) for name in ("writes", "known"))
    return a_commit(new, known)


def main(words):
    largest = option(words, "--largest", SIZES[-1])
    program = program_in(words)
    wrong = False
    figure("load", os.getloadavg()[0], "running")
    print(" entries depositors | whx12, new: syncs writes  bytes | --wary | known | C, new: syncs writes  bytes")
    for depositors in (1, 100):
        for entries in (size for size in SIZES if size <= largest):
            with tempfile.TemporaryDirectory(prefix="whx12-syncs-") as folder:
                statements, book, made = f"{folder}/statements", f"{folder}/new.book", register.Register(depositors, entries)
                subprocess.run(["cc", "-O2", "-o", statements, f"{HERE}/statements.c", "-lsqlite3"], check=True)
                books.make(program, book, made)
                work = books.Work(made)
                new, known = of_program(program, book, work, folder)
                os.mkdir(f"{folder}/wary")
                wary, _ = of_program(program, book, work, f"{folder}/wary", "--wary")
                theirs = of_sqlite(statements, book, work, folder)
            ours = f"{new[0]:17.2f} {new[1]:6.1f} {new[2]:6.0f} | {wary[0]:6.2f} | {known[1]:5.1f}"
            print(f"{entries:8,d} {depositors:10d} | {ours} | {theirs[0]:13.2f} {theirs[1]:6.1f} {theirs[2]:6.0f}", flush=True)
            for whose, (syncs, _, size) in (("", new), ("--wary, ", wary), ("C SQLite, ", theirs)):
                figure(books.sized(f"{whose}syncs of a new command", depositors, entries), syncs, "syncs")
                figure(books.sized(f"{whose}bytes written by a new command", depositors, entries), size / 1000, "KB")
            wrong = wrong or new[0] < 1 or wary[0] < 2 or any(known)
    return int(wrong)


if __name__ == "__main__":
    sys.exit(main(sys.argv[1:]))
