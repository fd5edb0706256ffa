#!/usr/bin/env python3
"""What a year of a mid-sized house comes to: 100 depositors, 200 interchanges a day each, on 250 days.

Usage: bench/year.py [--days 1,21,63,250] [--folder FOLDER] [PROGRAM]
       (default: crates/whx12/out/whx12, which `rt run` in that folder leaves)

Books are made by `init` and filled, without the program, with the rows of the trade of register.py: half
of the interchanges are advices, half are orders, and each is followed by a clerk's count or pick, so
that a day has 40,000 entries. With --folder they stay there, a book for each number of days, and a later
run takes those that it finds. Over each

  - `stock` of a stranger is an opening, one query and a closing: what each command costs that opens the
    book by itself, and its peak memory;
  - `serve` opens the book once, and is given 200 new interchanges of one line over loopback, and the
    same ones again; each must be answered as the register says. Printed are the time until it listens,
    the wall and the processor time of a command, and the server's peak memory.

A year takes a quarter of an hour to fill and some 10 GB of disk. GNU time is needed.
"""
import contextlib
import os
import shutil
import sqlite3
import subprocess
import sys
import tempfile
import time

import books
import register
from lib import figure, free_port, once, program_of

RUN = {
    "tier": "figures",
    "shows": "what a year of a mid-sized house comes to: file, opening, memory, a command's time",
    "needs": ["program"],
    "words": ["--days 1,21"],
    "minutes": 3,
}
DEPOSITORS, A_DAY = 100, 40_000
PART = 100_000
TICK = os.sysconf("SC_CLK_TCK")


class Year(register.Register):
    """A register that is put into its book in parts, so that it needn't fit into memory."""

    def __init__(self, db):
        self.db, self.written = db, 0
        super().__init__(DEPOSITORS, DEPOSITORS)
        self.turn = DEPOSITORS
        for name in ("stock", "advice", "orders", "entry_rules"):
            self.rows[name].clear()

    def entry(self, depositor, mark, n, body, kind=None, content="", state="-"):
        super().entry(depositor, mark, n, body, kind, content, state)
        seq = self.written + len(self.rows["entry"])
        self.rows["entry"][-1] = (seq, *self.rows["entry"][-1][1:])

    def put(self, name, rows):
        self.db.executemany(f"INSERT OR REPLACE INTO {name} VALUES ({', '.join('?' * register.COLUMNS[name])})", rows)

    def part(self):
        """What was gathered goes into the book; what is closed won't change any more."""
        self.put("entry_rules", [(row[0], 2) for row in self.rows["entry"]])
        self.written += len(self.rows["entry"])
        for name in ("entry", "outgoing", "advice_line", "order_line"):
            self.put(name, self.rows[name])
            self.rows[name].clear()
        self.put("advice", self.advices.values())
        self.put("orders", self.orders.values())
        self.advices = {key: row for key, row in self.advices.items() if row[3]}
        self.orders = {key: row for key, row in self.orders.items() if row[2]}

    def until(self, entries):
        """Goes on to so many entries."""
        while self.written + len(self.rows["entry"]) < entries:
            self.go_on(self.depositors[self.turn % DEPOSITORS])
            self.turn += 1
            if len(self.rows["entry"]) >= PART:
                self.part()
        self.part()
        self.settle()
        self.db.execute("DELETE FROM reservation")
        for name in ("stock", "reservation"):
            self.put(name, self.rows[name])
        for name in ("stock", "reservation", "advice", "orders", "entry_rules"):
            self.rows[name].clear()
        self.db.commit()


def opened(book):
    """The book for writing many rows, with no log in between."""
    db = sqlite3.connect(book, isolation_level=None)
    for pragma in ("journal_mode = OFF", "synchronous = OFF", "locking_mode = EXCLUSIVE", "cache_size = -2000000"):
        db.execute(f"PRAGMA {pragma}").fetchall()
    db.execute("BEGIN")
    return db


def closed(db):
    """The book as the program keeps it."""
    db.execute("PRAGMA journal_mode = WAL").fetchall()
    db.close()


def fill(empty, folder, days):
    """A book for each number of days, from one that was just made."""
    book = f"{folder}/filling.book"
    shutil.copyfile(empty, book)
    made = Year(opened(book))
    for so_many in days:
        made.until(so_many * A_DAY)
        closed(made.db)
        shutil.copyfile(book, f"{folder}/{so_many}.book")
        made.db = opened(book)
    made.db.close()
    os.remove(book)


def depositors_of(book):
    """The depositors of a book, as its tables have them."""
    found = [register.Depositor(place) for place in range(1, DEPOSITORS + 1)]
    with contextlib.closing(sqlite3.connect(book)) as db:
        for depositor in found:
            depositor.n = db.execute("SELECT max(n) FROM outgoing WHERE who = ?", [depositor.who]).fetchone()[0]
            for item, lot, *amounts in db.execute("SELECT item, lot, since, expected, on_hand, reserved, shipped FROM stock WHERE who = ?", [depositor.who]):
                depositor.stock[item, lot] = amounts
    return found


def next_commands(book):
    """200 interchanges of one line, an advice and an order in turn, and their answers."""
    made, texts, answers = depositors_of(book), [], []
    for place in range(books.COMMANDS):
        depositor, k = made[(place // 2) % DEPOSITORS], place // 2 // DEPOSITORS
        name = f"NEXT{depositor.n}"
        text, answer = depositor.advise(name, "PO", k, 3) if place % 2 == 0 else depositor.order(name, k, 1)
        texts.append(text)
        answers.append(answer)
    return texts, answers


def spent(pid):
    """Processor seconds of a process, and its peak memory in MiB."""
    with open(f"/proc/{pid}/stat", encoding="ascii") as file:
        fields = file.read().rpartition(")")[2].split()
    with open(f"/proc/{pid}/status", encoding="ascii") as file:
        peak = next(int(line.split()[1]) for line in file if line.startswith("VmHWM"))
    return (int(fields[11]) + int(fields[12])) / TICK, peak / 1024


def post(at, port, text):
    head = f"POST /x12 HTTP/1.1\r\nHost: {at}\r\nContent-Length: {len(text)}\r\n\r\n"
    return once("127.0.0.1", port, (head + text).encode())


def of_server(program, book, texts, answers):
    """Seconds until a server listens; wall and processor seconds of new commands and of the same ones again; and its peak memory."""
    port = free_port()
    at, told, begun = f"127.0.0.1:{port}", [], time.monotonic()
    words = [program, "serve", "--listen", at, "--count", "65535", *books.AT, "--book", book, "--explain"]
    with subprocess.Popen(words, stdout=subprocess.DEVNULL, stderr=subprocess.PIPE, text=True) as server:
        try:
            server.stderr.readline()
            listens = time.monotonic() - begun
            for _ in range(2):
                before, wall = spent(server.pid)[0], 0.0
                for text, answer in zip(texts, answers):
                    seconds, got = post(at, port, text)
                    server.stderr.readline()
                    wall += seconds
                    books.same("an answer", (got[:15], got.partition(b"\r\n\r\n")[2].decode()), (b"HTTP/1.1 200 OK", answer))
                told.append((wall / len(texts), (spent(server.pid)[0] - before) / len(texts)))
            peak = spent(server.pid)[1]
        finally:
            server.kill()
    return listens, told, peak


def measure(program, book, days):
    with contextlib.closing(sqlite3.connect(book)) as db:
        entries = db.execute("SELECT max(seq) FROM entry").fetchone()[0]
    size = os.path.getsize(book)
    openings = [books.run(program, "stock", "ZZ-NONE", "--book", book, status=1) for _ in range(2 if entries < 1_000_000 else 1)]
    texts, answers = next_commands(book)
    listens, ((new, new_cpu), (known, known_cpu)), peak = of_server(program, book, texts, answers)
    print(f"| {days} | {entries:,} | {size / 1e6:,.0f} | {min(it[0] for it in openings):.2f} s | {max(it[2] for it in openings):,.0f} | {listens:.2f} s | {new * 1e3:.2f} ms | {new_cpu * 1e3:.2f} ms "
          f"| {known * 1e3:.2f} ms | {known_cpu * 1e3:.2f} ms | {peak:,.0f} |", flush=True)
    after = f"after {days} day{'s' if days > 1 else ''}"
    for what, value, unit in (("entries", entries, "entries"), ("file", size / 1e6, "MB"),
                              ("opening", min(it[0] for it in openings), "s"),
                              ("peak memory", max(it[2] for it in openings), "MiB"),
                              ("new command", new_cpu * 1e3, "ms"), ("known command", known_cpu * 1e3, "ms")):
        figure(f"year: {what} {after}", value, unit)


def main(words):
    at, days = None, "1,21,63,250"
    if "--days" in words:
        days = words.pop(words.index("--days") + 1)
        words.remove("--days")
    if "--folder" in words:
        at = words.pop(words.index("--folder") + 1)
        words.remove("--folder")
    program = program_of(words[0] if words else None)
    days = [int(it) for it in days.split(",")]
    figure("load", os.getloadavg()[0], "running")
    with tempfile.TemporaryDirectory(prefix="whx12-year-") as made:
        books.look_at_rows(program, made)
        folder = at or made
        if not all(os.path.exists(f"{folder}/{it}.book") for it in days):
            books.run(program, "init", "ZZ-WHSE1", "--book", f"{made}/empty.book")
            fill(f"{made}/empty.book", folder, days)
        print("| Days | Entries | MB | A command by itself | Peak MiB | Server listens after | New: wall | Processor | Known: wall | Processor | Server's peak MiB |")
        print(f"|{'---|' * 11}")
        for so_many in days:
            measure(program, f"{folder}/{so_many}.book", so_many)


if __name__ == "__main__":
    main(sys.argv[1:])
