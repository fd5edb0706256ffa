#!/usr/bin/env python3
"""What a command costs in processor time over one opening of a book, beside the same statements through
Debian's C SQLite.

Usage: bench/costs.py [--largest N] [PROGRAM]
       (default: up to 100,000 entries; crates/whx12/out/whx12, which `rt run` in that folder
        leaves)

It needs cc and Debian's package libsqlite3-dev. For each size a book is filled as by bench/books.py,
whose interchanges of one line, 2,000 of them (an advice and an order in turn), are then given to the
program as one `batch`, a `send` for each file, and given again, when all are known. From the processor
time of a batch that of an opening of the book as it is then is taken: a batch whose one line asks for
the stock of a stranger.
Beside it bench/statements.c runs the statements of the same commands in one process, prepared once,
without reading a file, judging or answering; its processor time counts from after its opening.

Then one interchange of a mebibyte, 1,000 advices of 28 lines over 5,600 pairs, is sent to an empty book,
beside the statements of its rows: each row of `stock` once, and each other row once. The system's time
for a process counts as its own. Of several runs the least counts. The status is 1 where a file of rows
differs.
"""
import os
import resource
import shutil
import sqlite3
import subprocess
import sys
import tempfile

import books
import measure as large
import register
from lib import HERE, figure, option, program_in

RUN = {
    "tier": "figures",
    "shows": "a command's processor time over one opening, new, known and as a mebibyte, "
             "beside C SQLite",
    "needs": ["program", "C SQLite"],
    "words": ["--largest 100000"],
    "minutes": 3,
}
SIZES = [1000, 10_000, 100_000]
COMMANDS, RUNS = 2000, 5
MEASURED = ["new command", "known command", "C SQLite, new command", "C SQLite, known command"]


def spent(words, wanted):
    """Processor seconds of a run."""
    before = resource.getrusage(resource.RUSAGE_CHILDREN)
    ended = subprocess.run(words, capture_output=True, text=True, check=False)
    after = resource.getrusage(resource.RUSAGE_CHILDREN)
    books.same(f"status of {words[:3]}", ended.returncode, wanted)
    return after.ru_utime + after.ru_stime - before.ru_utime - before.ru_stime, ended.stdout


def lines_into(path, lines):
    with open(path, "w", encoding="ascii") as file:
        file.write("".join(f"{line}\n" for line in lines))
    return path


def of_program(program, book, work, folder):
    """Processor seconds of all commands, and of all of them again, without those of an opening."""
    files = f"{folder}/files"
    work.folder(files)
    at = books.AT[1]
    sends = lines_into(f"{folder}/sends", [f"send {files}/{place:04d}.x12 --at {at}" for place in range(COMMANDS)])
    looks = lines_into(f"{folder}/looks", ["stock ZZ-NONE"])
    spans = {"new": ([], []), "known": ([], [])}
    for _ in range(RUNS):
        path = books.copied(book, folder, "batch.book")
        for openings, times in spans.values():
            openings.append(spent([program, "batch", looks, "--book", path], 1)[0])
            seconds, printed = spent([program, "batch", sends, "--book", path], 0)
            books.same("answers", printed, "".join(f"{answer}\n" for answer in work.answers if answer))
            times.append(seconds)
    shutil.rmtree(files)
    return [min(times) - min(openings) for openings, times in spans.values()]


def of_sqlite(statements, book, work, folder):
    """The same through C SQLite."""
    work.list(f"{folder}/writes", True)
    work.list(f"{folder}/known", False)
    new, known = [], []
    for _ in range(RUNS):
        path = books.copied(book, folder, "stated.book")
        for times, name in ((new, "writes"), (known, "known")):
            ran = subprocess.run([statements, path, f"{folder}/{name}"], capture_output=True, text=True, check=True)
            times.append(float(ran.stdout.split()[3]))
    return min(new), min(known)


def of_size(program, statements, entries, folder):
    made, book = register.Register(1, entries), f"{folder}/new.book"
    books.make(program, book, made)
    work = books.Work(made)
    ours, theirs = of_program(program, book, work, folder), of_sqlite(statements, book, work, folder)
    for name, rows in books.rows_of(f"{folder}/batch.book").items():
        books.same(f"rows of {name} after the commands", rows, books.rows_of(f"{folder}/stated.book")[name])
    os.remove(book)
    return [seconds / COMMANDS * 1e6 for seconds in (*ours, *theirs)]


def typed(value):
    if value is None:
        return "n"
    if isinstance(value, int):
        return f"i{value}"
    return f"b{value.decode()}" if isinstance(value, bytes) else f"t{value}"


def list_of_rows(book, before, path):
    """The list for bench/statements.c that writes what a book has more than it had."""
    texts = {"entry": books.ENTRY, "entry_rules": books.RULES, "outgoing": books.OUTGOING, "stock": books.STOCK,
             "advice": books.ADVICE, "advice_line": books.ADVICE_LINE}
    rows = books.rows_of(book)
    lines = [f"T\t{text}" for text in texts.values()] + ["O", "B"]
    for number, name in enumerate(texts):
        was = set(before[name])
        lines += ["\t".join(["X", str(number), *map(typed, row)]) for row in rows[name] if row not in was]
    with open(path, "w", encoding="ascii") as file:
        file.write("\n".join([*lines, "E"]) + "\n")
    return len(lines) - len(texts) - 2


def of_mebibyte(program, statements, folder):
    """Processor seconds of an interchange of a mebibyte, by the program and by C SQLite, and how many rows it writes."""
    text = f"{folder}/large.x12"
    with open(text, "w", encoding="ascii") as file:
        file.write(large.advices())
    empty = f"{folder}/empty.book"
    for words in (["init", "ZZ-WHSE1"], ["enrol", "ZZ-ACME", *books.AT]):
        subprocess.run([program, *words, "--book", empty], check=True)
    before, ours, theirs, openings, known = books.rows_of(empty), [], [], [], []
    for _ in range(RUNS):
        path = books.copied(empty, folder, "large.book")
        openings.append(spent([program, "stock", "ZZ-NONE", "--book", path], 1)[0])
        ours.append(spent([program, "send", text, *books.AT, "--book", path], 0)[0])
        opened = min(spent([program, "stock", "ZZ-NONE", "--book", path], 1)[0] for _ in range(2))
        known.append(spent([program, "send", text, *books.AT, "--book", path], 0)[0] - opened)
    count = list_of_rows(path, before, f"{folder}/rows")
    for _ in range(RUNS):
        path = books.copied(empty, folder, "rows.book")
        ran = subprocess.run([statements, path, f"{folder}/rows"], capture_output=True, text=True, check=True)
        theirs.append(float(ran.stdout.split()[3]))
    for name, rows in books.rows_of(f"{folder}/large.book").items():
        books.same(f"rows of {name} after a mebibyte", rows, books.rows_of(f"{folder}/rows.book")[name])
    return min(ours) - min(openings), min(theirs), min(known), count


def main(words):
    largest = option(words, "--largest", SIZES[-1])
    program = program_in(words)
    books.COMMANDS = COMMANDS
    figure("load", os.getloadavg()[0], "running")
    with tempfile.TemporaryDirectory(prefix="whx12-costs-") as folder:
        statements = f"{folder}/statements"
        subprocess.run(["cc", "-O2", "-o", statements, f"{HERE}/statements.c", "-lsqlite3"], check=True)
        print(f"C SQLite {sqlite3.sqlite_version}; load {os.getloadavg()[0]:.1f}; least of {RUNS} runs, microseconds of processor time a command")
        print(" entries |    new      C  times |  known      C  times")
        for entries in (size for size in SIZES if size <= largest):
            new, known, c_new, c_known = times = of_size(program, statements, entries, folder)
            print(f"{entries:8,d} | {new:6.0f} {c_new:6.0f} {new / c_new:6.1f} | {known:6.0f} {c_known:6.0f} {known / c_known:6.1f}", flush=True)
            for what, value in zip(MEASURED, times):
                figure(books.sized(what, 1, entries), value, "us")
        ours, theirs, known, count = of_mebibyte(program, statements, folder)
        print(f"a mebibyte of advices, {count} rows: {ours:.3f} s, C {theirs:.3f} s, {ours / theirs:.1f} times; again, when it is known: {known:.4f} s")
        figure("mebibyte of advices", ours, "s")
        figure("C SQLite, mebibyte of advices", theirs, "s")


if __name__ == "__main__":
    main(sys.argv[1:])
