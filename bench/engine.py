#!/usr/bin/env python3
"""How much of a command's work is its engine's: instructions, counted by callgrind, beside those of C
SQLite.

Usage: bench/engine.py [PROGRAM]   (default: crates/whx12/out/whx12, which `rt run` in that folder leaves)

It needs valgrind, cc and Debian's package libsqlite3-dev. A batch of 200 interchanges of one line (an
advice and an order in turn) is given to a book of 1,000 entries, then the same batch again, when all are
known, and an interchange of a mebibyte to an empty book, as in bench/costs.py; what an opening of the
book as it is then takes is taken off, and of C SQLite the preparing of the texts too. `engine` are the instructions of all calls that the program's own crates make of the kit's
SQLite (crates `sqlite..`), with what these call in turn. So a program whose own crates cost nothing
would still take that. Beside it bench/statements.c runs the same statements by C SQLite, prepared once.
Instructions don't depend on what else the machine does.
"""
import os
import re
import subprocess
import sys
import tempfile

import books
import costs
import measure as large
import register
from lib import HERE, figure, program_of

RUN = {
    "tier": "figures",
    "shows": "how many of a command's instructions are its engine's, beside C SQLite's",
    "needs": ["program", "C SQLite", "valgrind"],
    "words": [""],
    "minutes": 4,
}
COMMANDS = 200
NAMES = {"new": "new command", "known": "known command", "mebibyte": "mebibyte of advices"}
OWN = re.compile(r"^(books|book_tables|book_transactions|book_statements|app|commands|store)::")


def counted(words, wanted):
    """All instructions of a run, and those of the engine's calls."""
    with tempfile.TemporaryDirectory(prefix="whx12-engine-") as folder:
        out = f"{folder}/out"
        ended = subprocess.run(["valgrind", "-q", "--tool=callgrind", f"--callgrind-out-file={out}", *words], capture_output=True, check=False)
        books.same(f"status of {words[:3]}", ended.returncode, wanted)
        names, here, called, all_of, engine, is_call = {}, "", "", 0, 0, False
        with open(out, encoding="utf-8", errors="replace") as file:
            for line in file:
                if found := re.match(r"(c?fn)=\((\d+)\)(?: (.*))?", line):
                    kind, number, name = found.groups()
                    if name:
                        names[number] = name.strip()
                    if kind == "fn":
                        here = names[number]
                    else:
                        called = names[number]
                elif line.startswith("calls="):
                    is_call = True
                elif is_call:
                    is_call = False
                    if OWN.match(here) and called.startswith("sqlite"):
                        engine += int(line.split()[1])
                elif line.startswith(("summary:", "totals:")):
                    all_of = int(line.split()[1])
    return all_of, engine


def less(run, opening):
    return [mine - other for mine, other in zip(run, opening)]


def of_batch(program, statements, folder):
    """New commands and known ones, by the program and by C."""
    books.COMMANDS = COMMANDS
    made, book = register.Register(1, 1000), f"{folder}/new.book"
    books.make(program, book, made)
    work = books.Work(made)
    files = f"{folder}/files"
    work.folder(files)
    sends = costs.lines_into(f"{folder}/sends", [f"send {files}/{place:04d}.x12 --at {books.AT[1]}" for place in range(COMMANDS)])
    looks = costs.lines_into(f"{folder}/looks", ["stock ZZ-NONE"])
    path = books.copied(book, folder, "batch.book")
    rows = []
    work.list(f"{folder}/writes", True)
    work.list(f"{folder}/known", False)
    other = books.copied(book, folder, "stated.book")
    for name, listed in (("new", f"{folder}/writes"), ("known", f"{folder}/known")):
        opening = counted([program, "batch", looks, "--book", path], 1)
        ours = less(counted([program, "batch", sends, "--book", path], 0), opening)
        idle = counted([statements, other, opening_of(listed)], 0)[0]
        rows.append((name, COMMANDS, ours, counted([statements, other, listed], 0)[0] - idle))
    return rows


def opening_of(listed):
    """The part of a list up to the end of its opening, which prepares all its texts, as a list of its own."""
    with open(listed, encoding="ascii") as file:
        lines = file.read().split("\n")
    with open(f"{listed}.opening", "w", encoding="ascii") as file:
        file.write("\n".join(lines[:lines.index("O") + 1]) + "\n")
    return f"{listed}.opening"


def of_mebibyte(program, statements, folder):
    text = f"{folder}/large.x12"
    with open(text, "w", encoding="ascii") as file:
        file.write(large.advices())
    empty = f"{folder}/empty.book"
    for words in (["init", "ZZ-WHSE1"], ["enrol", "ZZ-ACME", *books.AT]):
        subprocess.run([program, *words, "--book", empty], check=True)
    before = books.rows_of(empty)
    path = books.copied(empty, folder, "large.book")
    opening = counted([program, "stock", "ZZ-NONE", "--book", path], 1)
    ours = less(counted([program, "send", text, *books.AT, "--book", path], 0), opening)
    costs.list_of_rows(path, before, f"{folder}/rows")
    other = books.copied(empty, folder, "rows.book")
    idle = counted([statements, other, opening_of(f"{folder}/rows")], 0)[0]
    return [("mebibyte", 1, ours, counted([statements, other, f"{folder}/rows"], 0)[0] - idle)]


def main(words):
    program = program_of(words[0] if words else None)
    figure("load", os.getloadavg()[0], "running")
    with tempfile.TemporaryDirectory(prefix="whx12-engine-") as folder:
        statements = f"{folder}/statements"
        subprocess.run(["cc", "-O2", "-o", statements, f"{HERE}/statements.c", "-lsqlite3"], check=True)
        rows = of_batch(program, statements, folder) + of_mebibyte(program, statements, folder)
    print("thousands of instructions a command")
    print("          |   program |    engine |         C | program/C | engine/C")
    for name, count, (whole, engine), theirs in rows:
        whole, engine, theirs = (value / count / 1000 for value in (whole, engine, theirs))
        print(f"{name:9} | {whole:9,.0f} | {engine:9,.0f} | {theirs:9,.0f} | {whole / theirs:9.1f} | {engine / theirs:8.1f}")
        figure(f"instructions, {NAMES[name]}, program / C", whole / theirs, "times")
        figure(f"instructions, {NAMES[name]}, engine / C", engine / theirs, "times")


if __name__ == "__main__":
    main(sys.argv[1:])
