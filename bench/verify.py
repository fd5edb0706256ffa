#!/usr/bin/env python3
"""Checks that `verify` says ok of a book, and 43 of each book that differs from it in one cell or one row.

Usage: bench/verify.py [--commands N] [--seed N] [--measure N] [PROGRAM]
              (default: 60 commands, crates/whx12/out/whx12, which `rt run` in that folder leaves; needs
           Debian's sqlite3)

A book on disk takes random interchanges of two depositors and what clerks do; `verify` prints ok and the
number of its entries. Then sqlite3 changes a copy of it: each column of each table, in up to three rows
each; a row left out, and a row too many, of each table; a gap in the numbers of the entries; one byte of
a text that went out. Of each copy `verify` must say: fault 43 NotThisBook, status 3, and leave the rows
as they are. At last standard error is a terminal, on which `verify` says how far it is. Status 1 where
something differs; the folder is then kept.

--measure N also times `verify`, and tells its memory, over registers of 1,000, 10,000 .. up to N
entries, of one depositor and of 100, whose rows bench/register.py writes without the program.
"""
import os
import random
import resource
import shutil
import subprocess
import sys
import tempfile
import time

import books
import compare
import model
import register
import tables
from lib import Wrong, figure, on_terminal, option, program_in, same

RUN = {
    "tier": "night",
    "shows": "`verify` tells a book from each copy with another cell, row or byte",
    "needs": ["program", "sqlite3"],
    "words": [""],
    "minutes": 1,
}
WHO = [b"ZZ-ACME", b"ZZ-BETA"]
compare.NUMBERS = [b"N%d" % n for n in range(1, 60)]
TABLES = ["book", "entry", "outgoing", "stock", "advice", "advice_line", "orders", "order_line", "reservation", "entry_rules",
          "lot_expiry"]


class House:
    def __init__(self, program, seed, folder):
        self.program, self.folder, self.r = program, folder, random.Random(seed)
        self.book, self.copy = os.path.join(folder, "house.book"), os.path.join(folder, "copy.book")
        self.day = compare.Day(seed, folder)
        self.run("init", "ZZ-WHSE1")
        for who in WHO:
            self.run("enrol", who.decode(), "--at", "2025-03-04T09:15")
            self.day.book.enrol(who)

    def run(self, *words, book=None):
        ran = subprocess.run([self.program, *words, "--book", book or self.book], cwd=self.folder, capture_output=True, check=False)
        return ran.returncode, ran.stdout.decode("latin-1"), ran.stderr.decode("latin-1")

    def fill(self, commands):
        """Random commands, of which about half are accepted; each table has rows in the end."""
        day, r = self.day, self.r
        for number in range(commands):
            moment = day.moment()
            if r.random() < 0.6:
                raw = day.interchange(r.choice([b"ACME", b"BETA"]))
                self.run("send", day.file(raw, "x12"), "--at", moment)
                day.book.send(raw, moment)
                continue
            who = r.choice(WHO)
            page, deed = day.book.pages[model.partner(who)], r.choice(["count", "count", "pick", "recount"])
            wanted = [n for n in compare.NUMBERS if (page.advice(n) and not page.counted(n) if deed == "count" else page.order(n) and not page.picked(n))]
            target, ticket, text = r.choice(wanted) if wanted else b"N1", b"T%d" % number, day.sheet(deed)
            name = day.file(text, "csv")
            words = [deed, who.decode(), ticket.decode()] + ([] if deed == "recount" else [target.decode()]) + [name, "--at", moment]
            self.run(*words)
            day.book.clerk(deed, who, ticket, target, text, moment)

    def sql(self, text, path=None):
        return tables.sqlite(path or self.book, text)

    def differs(self, what, statement):
        """A copy that a statement changes is told from the book, and left as it is."""
        shutil.copyfile(self.book, self.copy)
        changed = tables.sqlite(self.copy, f"PRAGMA ignore_check_constraints = ON; {statement}; SELECT changes();")
        if changed.strip() != "1":
            raise Wrong(f"{what}: {changed!r} rows changed by {statement}")
        before = self.sql(".dump", self.copy)
        told = self.run("verify", book=self.copy)
        if told != (3, "", "fault 43 NotThisBook\n"):
            raise Wrong(f"{what}: {told!r} of {statement}")
        if self.sql(".dump", self.copy) != before:
            raise Wrong(f"{what}: rows changed by verify")


def columns(house, table):
    """Name and type of each column, and the rowids of up to three rows."""
    rows = [line.split("|") for line in house.sql(f"PRAGMA table_info({table})").splitlines()]
    ids = house.sql(f"SELECT rowid FROM {table}").split()
    return [(row[1], row[2]) for row in rows], house.r.sample(ids, min(3, len(ids)))


def other(name, kind):
    """Another value than a cell has: a cell's number or text, one more or longer; NULL becomes a text. A ticket with a letter more would be
    another clerk's ticket, with which the book is as good; so a mark gets a kind that there isn't."""
    if name == "mark":
        return "'Q' || mark"
    if kind == "INTEGER":
        return f"{name} + 1000000" if name in ("seq", "n", "line") else f"{name} + 1"
    return f"CAST(coalesce({name}, '') || 'X' AS {kind})"


def watched(house, entries):
    """What `verify` says where standard error is a terminal."""
    wanted = 0, b"ok %s\n" % entries, b"\r%s of %s entries\r\n" % (entries, entries)
    same("what a terminal shows", on_terminal([house.program, "verify", "--book", house.book]), wanted)


def measure(program, folder, largest):
    """The time and the memory of `verify` over long registers."""
    figure("load", os.getloadavg()[0], "running")
    for depositors in (1, 100):
        entries = 1000
        while entries <= largest:
            book = os.path.join(folder, f"long-{depositors}-{entries}.book")
            books.make(program, book, register.Register(depositors, entries))
            started = time.monotonic()
            process = subprocess.Popen([program, "verify", "--book", book], stdout=subprocess.PIPE, stderr=subprocess.PIPE)
            printed = process.stdout.read() + process.stderr.read()
            _, _, usage = os.wait4(process.pid, 0)
            seconds = time.monotonic() - started
            process.stdout.close()
            process.stderr.close()
            if printed != f"ok {entries}\n".encode():
                raise Wrong(f"{entries} entries of {depositors}: {printed!r}")
            print(f"{entries:,} entries of {depositors}: {seconds:.2f} s, {usage.ru_maxrss // 1024} MiB, "
                  f"a file of {os.path.getsize(book) // 1024} KiB")
            figure(books.sized("verify", depositors, entries), seconds, "s")
            if usage.ru_maxrss > resource.getrusage(resource.RUSAGE_SELF).ru_maxrss:
                # else it may be this process's own, of which the program's is a child
                figure(books.sized("peak memory, verify", depositors, entries), usage.ru_maxrss / 1024, "MiB")
            os.remove(book)
            entries *= 10


def main(words):
    commands, seed = option(words, "--commands", 60), option(words, "--seed", 1)
    largest, program = option(words, "--measure", 0), program_in(words)
    folder = tempfile.mkdtemp(prefix="verified")
    cells = rows = 0
    try:
        house = House(program, seed, folder)
        house.fill(commands)
        entries = house.sql("SELECT count(*) FROM entry").strip()
        told = house.run("verify")
        if told != (0, f"ok {entries}\n", ""):
            raise Wrong(f"the book itself: {told!r}, of {entries} entries")
        for table in TABLES:
            names, ids = columns(house, table)
            if not ids:
                raise Wrong(f"{table} has no rows: give another seed")
            for name, kind in names:
                for rowid in ids:
                    house.differs(f"{table}.{name}", f"UPDATE {table} SET {name} = {other(name, kind)} WHERE rowid = {rowid}")
                    cells += 1
            house.differs(f"a row less in {table}", f"DELETE FROM {table} WHERE rowid = {ids[0]}")
            key = {"book": "version", "entry": "seq", "entry_rules": "seq", "outgoing": "n", "advice_line": "line", "order_line": "line"}.get(table)
            cell = lambda name, kind, key=key, table=table: other(name, kind) if name == key or (not key and name == {
                "stock": "lot", "advice": "shipment", "orders": "ord", "reservation": "lot", "lot_expiry": "lot"}[table]) else (
                    f"{name} || 'Y'" if table == "entry" and name == "mark" else f"{name} + 999999" if table == "entry" and name == "n" else name)
            house.differs(f"a row more in {table}", f"INSERT INTO {table} SELECT {', '.join(cell(*pair) for pair in names)} FROM {table} WHERE rowid = {ids[0]}")
            rows += 2
        house.differs("a gap", "UPDATE entry SET seq = seq + 1 WHERE seq = (SELECT max(seq) FROM entry)")
        house.differs("a byte", "UPDATE outgoing SET content = CAST('J' || substr(CAST(content AS TEXT), 2) AS BLOB) "
                                "WHERE rowid = (SELECT max(rowid) FROM outgoing)")
        if house.run("verify") != told:
            raise Wrong("the book itself, in the end")
        watched(house, entries.encode())
        measure(program, folder, largest)
    except Wrong as wrong:
        print(f"{wrong}\nkept: {folder}")
        return 1
    print(f"ok of {entries} entries; {cells} copies with another cell and {rows + 2} with another row or byte are told as 43")
    shutil.rmtree(folder)
    return 0


if __name__ == "__main__":
    sys.exit(main(sys.argv[1:]))
