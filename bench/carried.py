#!/usr/bin/env python3
"""Opens books of version 1, and looks at what became of them: everything as it was, under version 2.

Usage: bench/carried.py [--commands N] [--seed N] [--most N] [--kills N] [--entries N] [--measure N] [PROGRAM]
              (default: 40 commands, 500 allocations and calls, 200 kills, books of 10,000 entries,
           crates/whx12/out/whx12, which `rt run` in that
       folder leaves)
       bench/carried.py --make OLD_PROGRAM

The books of version 1 stand in bench/version1. The program of the last commit before version 2 (90bcce6)
made them, by `--make`, from the commands that stand below: a book of which nobody is a depositor yet; an
advice, its count and an order that finds too little; an advice with a date, which version 1 refused; an
order of 100 lines, which version 1 refused; and a day of two depositors with orders that are open and
short although goods came for them since. A copy of each is opened by each kind of command first. Then

  - `book` has version 2, each entry has the first rules, no lot has a date, and every other row of every
    table is as it was; the tables are made by the words that a new book's are made by; `verify` says ok;
  - stock, outbox, each text that went out and each picking sheet are those of the second reading of the
    rules (bench/model.py), which played the same commands by the first rules;
  - each command of the book, given again, gets its stored answer, and no row changes;
  - what comes next is judged by the second rules: commands with answers that were worked out by hand,
    and random commands, beside the second reading.

A book of another version than 1 and 2, or without its one row, is told as 43, and one that can't be
carried over for another cause by a fault; each stays as it is. `init` doesn't make a book over one of
version 1. A table of the house's own beside a book of version 1 stays as it is.

Then allocations of an opening that carries a book over are refused in turn, and its reads, writes, syncs
and openings fail in turn, at most N of each under --most N, evenly chosen: the old book is left or the
whole new one, and the next opening is as the first would have been.

--kills N kills an opening of a book of so many --entries N times, at moments spread over its time: the
files hold, to sqlite3, the book as it was or the whole of it under version 2; then it is opened again,
and `verify` says ok. Where standard error is a terminal, an opening says how far it is. --measure N
tells the time and the memory of the opening that carries a book over, and of the next one, over 1,000,
10,000 .. up to N entries. Rows of long books are written by bench/register.py into a copy of the book
without depositors. The folder of a run that fails is kept, and the status is then 1.
"""
import os
import random
import shutil
import signal
import sqlite3
import subprocess
import sys
import tempfile
import time

import allocations
import books
import compare
import faults
import lib
import memory
import model
import register
import tables
from lib import HERE, Wrong, on_terminal, option, program_in, same

RUN = {
    "tier": "night",
    "shows": "books of version 1 are carried over: every row, text and answer as before; a "
             "killed opening leaves the old book or the whole new one",
    "needs": ["program", "gcc"],
    "words": ["--kills 40"],
    "minutes": 10,
}
KEPT = os.path.join(HERE, "version1")
HOUSE, ACME, BETA = b"ZZ-WHSE1", b"ZZ-ACME", b"ZZ-BETA"
AT, LATER = "2025-03-04T09:15", "2025-03-05T10:00"
NINE = ["book", "entry", "outgoing", "stock", "advice", "advice_line", "orders", "order_line", "reservation"]
NOT_THIS = (3, b"", b"fault 43 NotThisBook\n")
compare.NUMBERS = [b"SHP1", b"SHP2", b"SHP3", b"ORD1", b"ORD2", b"ORD3", b"N1", b"N2", b"N3", b"N4"]


# --- the books of version 1 ----------------------------------------------------------------------------------------------------


def received(name, function, number, kind, *segments):
    """An interchange of a depositor with one set, as bytes."""
    return register.interchange(name, "WHSE1", function, number, lib.set_of(kind, segments)).encode()


def advice(name, number, shipment, *lines):
    """An advice of lines of quantity, item, lot and date, where there is one."""
    return register.interchange(name, "WHSE1", "AR", number, lib.advice(shipment, lines, f"PO-{shipment}")).encode()


def order(name, number, ord_, lines, *party):
    """An order of lines of quantity and item, and a lot where it is pinned."""
    inner = [f"LX*{place}~W01*{line[0]}*EA**SK*{line[1]}{''.join(f'~N9*LT*{lot}' for lot in line[2:])}" for place, line in enumerate(lines, 1)]
    segments = "~".join([f"W05*N*{ord_}", *party, *inner, f"W76*{sum(line[0] for line in lines)}"]).split("~")
    return received(name, "OW", number, "940", *segments)


def heard(name, number, group, document, verdict):
    """An acknowledgment of a document."""
    kind = {"RE": "944", "SW": "945", "AW": "947"}[group]
    return received(name, "FA", number, "997", f"AK1*{group}*{document}", f"AK2*{kind}*0001", f"AK5*{verdict}", f"AK9*{verdict}*1*1*{int(verdict == 'A')}")


BOLTS = tables.BOLTS.encode()
ORDER = tables.ORDER.encode()
DATED = tables.BOLTS.replace("N9*LT*L1~", "N9*LT*L1**20250630~").encode()
HUNDRED = [(1, "BOLT"), *((1, f"ITEM-{n:02d}") for n in range(1, 100))]

# The commands of each book, all of which were accepted.
DAYS = {
    "new": [],
    "day": [
        ("enrol", ACME),
        ("send", BOLTS),
        ("count", ACME, b"T1", b"SHP1", b"BOLT,L1,90\n"),
        ("send", ORDER),
    ],
    "dated": [
        ("enrol", ACME),
        ("send", DATED),
    ],
    "lines": [
        ("enrol", ACME),
        ("send", BOLTS),
        ("count", ACME, b"T1", b"SHP1", b"BOLT,L1,90\n"),
        ("send", order("ACME", 2, "ORD1", HUNDRED)),
    ],
    # After the third count there are bolts and nuts for what ORD2 and ORD3 lack. They stay free, since an order gets its
    # goods when it comes.
    "floor": [
        ("enrol", ACME),
        ("enrol", BETA),
        ("send", BOLTS),
        ("count", ACME, b"T1", b"SHP1", b"BOLT,L1,90\n"),
        ("send", ORDER),
        ("pick", ACME, b"T2", b"ORD1", b"BOLT,L1,90\n"),
        ("send", heard("ACME", 3, "SW", 4, "A")),
        ("send", heard("ACME", 4, "RE", 2, "R")),
        ("send", advice("ACME", 5, "SHP2", (40, "NUT", "L10"), (10, "NUT", "L2"))),
        ("send", advice("BETA", 1, "SHP1", (3, "BOLT", "L1"), (99999, "A-1.X", "B"))),
        ("count", ACME, b"T3", b"SHP2", b"NUT,L10,39\nNUT,L2,10\n"),
        ("send", order("ACME", 6, "ORD2", [(30, "NUT", "L10"), (5, "BOLT")], "N1*ST*Jo Shop", "N3*5 Quay Road", "N4*Ulm**89073")),
        ("send", order("ACME", 7, "ORD3", [(25, "NUT")])),
        ("send", advice("ACME", 8, "SHP3", (7, "BOLT", "L2"), (20, "NUT", "L1"))),
        ("count", BETA, b"T1", b"SHP1", b"BOLT,L1,2\nZ,L1,1\n"),
        ("count", ACME, b"T4", b"SHP3", b"BOLT,L2,7\nNUT,L1,20\n"),
        ("recount", ACME, b"T5", None, b"NUT,L2,12\n"),
        ("send", advice("ACME", 9, "N1", (11, "BOLT", "L10"))),
        ("send", order("BETA", 2, "ORD1", [(5, "BOLT")])),
    ],
}


def sent(number, function, group, kind, *inner):
    """The answer to a group of one set of ZZ-ACME: AK lines of the set, and how many passed."""
    *lines, passed = inner
    return tables.sent("FA", number, lib.set_of("997", [f"AK1*{function}*{group}", f"AK2*{kind}*0001", *lines, f"AK9*{'A' if passed else 'R'}*1*1*{passed}"]))


# What version 1 answered where version 2 would answer otherwise: the depositor, its number, and the text. The N9 is the fourth
# segment of its set, and the hundredth LX the 201st: after ST and W05 there are two of each of the 99 lines before it.
JUDGED = {
    "dated": (1, sent(1, "AR", 1, "943", "AK3*N9*4**8", "AK4*4**3", "AK5*R*5", 0).replace("~GS", "~TA1*000000001*250304*0915*A*000~GS", 1)),
    "lines": (3, sent(3, "OW", 2, "940", "AK3*LX*201**2", "AK5*R*5", 0)),
}

# What is given next to a book of version 1, with what is printed, and the rows of `reservation` and `lot_expiry` after it.
NEXT = {
    "day": [(("pick", ACME, b"T2", b"ORD1", b"BOLT,L1,90\n"), tables.SHIPPED, [], [])],
    "dated": [(("send", advice("ACME", 2, "SHP1", (100, "BOLT", "L1", "20250630"))), sent(2, "AR", 2, "943", "AK5*A", 1),
               [], [("ZZ-ACME", "BOLT", "L1", "20250630")])],
    "lines": [(("send", order("ACME", 3, "ORD1", HUNDRED)), sent(4, "OW", 3, "940", "AK5*A", 1),
               [("ZZ-ACME", "ORD1", "BOLT", "L1", 1)], [])],
    # The nuts that are free: of L10 39 less 30 for ORD2 and 9 for ORD3 are none, of L2 12 less 10 for ORD3 are 2, of L1 all 20. An order
    # for 21 by the second rules: of L1 and L2, neither dated, L2 came first.
    "floor": [(("send", order("ACME", 10, "N1", [(21, "NUT")])), sent(15, "OW", 10, "940", "AK5*A", 1),
               [("ZZ-ACME", "N1", "NUT", "L1", 19), ("ZZ-ACME", "N1", "NUT", "L2", 2), ("ZZ-ACME", "ORD2", "NUT", "L10", 30),
                ("ZZ-ACME", "ORD3", "NUT", "L10", 9), ("ZZ-ACME", "ORD3", "NUT", "L2", 10), ("ZZ-BETA", "ORD1", "BOLT", "L1", 2)], [])],
}


# --- one command ---------------------------------------------------------------------------------------------------------------


def run(program, book, *words, **more):
    ran = subprocess.run([program, *words, "--book", book], capture_output=True, env=dict(os.environ, **more), check=False)
    return ran.returncode, ran.stdout, ran.stderr


def give(program, book, command, at=AT):
    """What a process prints and tells of a command."""
    deed, first, *rest = command
    if deed == "enrol":
        return run(program, book, "enrol", first.decode(), "--at", at)
    name = os.path.join(os.path.dirname(book), "text")
    with open(name, "wb") as file:
        file.write(rest[-1] if rest else first)
    names = [first, *rest[:-1]] if rest else []
    return run(program, book, deed, *(name.decode() for name in names if name), name, "--at", at)


def meant(book, command, at=AT):
    """The same by the second reading."""
    deed, *rest = command
    if deed == "enrol":
        printed, told, status = book.enrol(*rest)
    elif deed == "send":
        printed, told, status = book.send(*rest, at)
    else:
        printed, told, status = book.clerk(deed, *rest, at)
    return status, printed, told.encode()


def copied(book, path):
    """A copy of a book's files as they lie there, log and all."""
    for end in ("", "-wal", "-shm"):
        if os.path.exists(path + end):
            os.remove(path + end)
        if end != "-shm" and os.path.exists(book + end):
            shutil.copyfile(book + end, path + end)
    return path


def rows_of(book):
    """All rows of all tables, each table in the order of its rows, and the words that made the tables; read from a copy. The files
    have to be a sound database."""
    path = copied(book, book + ".seen")
    db = sqlite3.connect(path)
    try:
        same("integrity", db.execute("PRAGMA integrity_check").fetchall(), [("ok",)])
        made = dict(db.execute("SELECT name, sql FROM sqlite_schema WHERE type = 'table'"))
        return {name: sorted(db.execute(f"SELECT * FROM {name}"), key=repr) for name in made}, made
    finally:
        db.close()


def carried(before):
    """The rows of a book of version 1 as they have to be under version 2."""
    ((version, qualifier, name),) = before["book"]
    same("version", version, 1)
    rules = sorted(((row[0], 1) for row in before["entry"]), key=repr)
    return {**before, "book": [(2, qualifier, name)], "entry_rules": rules, "lot_expiry": []}


# --- a kept book ---------------------------------------------------------------------------------------------------------------


class House:
    """A kept book: its rows, and its commands as the second reading plays them."""

    def __init__(self, program, name, folder):
        self.program, self.name, self.folder = program, name, folder
        self.kept, self.book = os.path.join(KEPT, name + ".book"), os.path.join(folder, name + ".book")
        self.copy()
        self.before, made = rows_of(self.book)
        same(f"{name}: tables", sorted(made), sorted(NINE))
        self.meant = model.Book(HOUSE, 1)
        for command in DAYS[name]:
            same(f"{name}: {command[0]} by the first rules", meant(self.meant, command)[0], 0)
        self.look_at_rows()
        # from here on by the second rules
        self.meant.rules = 2
        for page in self.meant.pages.values():
            page.rules = 2

    def copy(self):
        return copied(self.kept, self.book)

    def look_at_rows(self):
        """That the kept rows are what the first rules give."""
        texts, stock = [], []
        for (qualifier, name), page in self.meant.pages.items():
            who = (qualifier + b"-" + name).decode()
            texts += [(who, n, kind, content, page.state(n, function) if function else "-") for n, kind, function, content in page.out]
            stock += [(who, pair[0].decode(), pair[1].decode(), page.since(pair), *page.amounts(pair)) for pair in page.pairs()]
        same(f"{self.name}: outgoing of version 1", self.before["outgoing"], sorted(texts, key=repr))
        same(f"{self.name}: stock of version 1", self.before["stock"], sorted(stock, key=repr))
        if self.name in JUDGED:
            number, text = JUDGED[self.name]
            same(f"{self.name}: answer {number}", [row[3] for row in texts if row[1] == number], [text.encode()])

    def look(self, what):
        """That the book is the kept one, carried over."""
        rows, made = rows_of(self.book)
        same(f"{self.name}: tables after {what}", made, self.made)
        wanted = carried(self.before)
        for name in wanted:
            same(f"{self.name}: {name} after {what}", rows[name], wanted[name])

    def asked(self):
        """Every question that may be put to the book, with what the second reading says."""
        yield ["stock", "ZZ-NONE"], (b"", "refused 20 UnknownDepositor\n", 1)
        for (qualifier, name), page in self.meant.pages.items():
            who = qualifier + b"-" + name
            yield ["stock", who.decode(), "--csv"], self.meant.stock(who, True)
            yield ["outbox", who.decode()], self.meant.outbox(who)
            for number, _, _, _ in page.out:
                yield ["outbox", who.decode(), "--number", str(number)], self.meant.outbox(who, number)
            for event in page.of("ordered"):
                number = event[1]["number"]
                yield ["orders", who.decode(), number.decode()], self.meant.orders(who, number)

    def ask(self, anew):
        """Puts every question, each to a new copy of the kept book where it is to be the first."""
        count = 0
        for words, (printed, told, status) in self.asked():
            if anew:
                self.copy()
            same(f"{self.name}: {' '.join(words)}", run(self.program, self.book, *words), (status, printed, told.encode()))
            if anew:
                self.look(" ".join(words))
            count += 1
        return count

    def verify(self, more=0):
        wanted = len(self.before["entry"]) + more
        same(f"{self.name}: verify", run(self.program, self.book, "verify"), (0, b"ok %d\n" % wanted, b""))

    def repeat(self):
        """Each command of the book again: its stored answer, and nothing else."""
        for command in DAYS[self.name]:
            wanted = meant(self.meant, command, LATER)
            same(f"{self.name}: {command[0]} again", give(self.program, self.book, command, LATER), wanted)
        self.look("all commands again")

    def go_on(self):
        """What comes next, by answers that were worked out by hand."""
        for more, (command, printed, reserved, dates) in enumerate(NEXT.get(self.name, []), 1):
            wanted = (0, printed.encode() + b"\n", b"")
            same(f"{self.name}: next by the second reading", meant(self.meant, command), wanted)
            same(f"{self.name}: next", give(self.program, self.book, command), wanted)
            rows, _ = rows_of(self.book)
            same(f"{self.name}: reserved", rows["reservation"], reserved)
            same(f"{self.name}: dates", rows["lot_expiry"], dates)
            same(f"{self.name}: rules", rows["entry_rules"], sorted(carried(self.before)["entry_rules"] + [(len(rows["entry"]), 2)], key=repr))
            self.verify(more)

    def play(self, commands, seed):
        """Random commands, beside the second reading, and every question after them."""
        day = compare.Day(seed, self.folder)
        day.book, day.control, r = self.meant, {b"ACME": 100, b"BETA": 100}, day.r
        for who in (ACME, BETA):
            wanted = meant(self.meant, ("enrol", who))
            same(f"{self.name}: enrol", give(self.program, self.book, ("enrol", who)), wanted)
        for number in range(commands):
            if r.random() < 0.5:
                command = ("send", day.interchange(r.choice([b"ACME", b"ACME", b"BETA"])))
            else:
                deed, who = r.choice(["count", "pick", "pick", "recount"]), r.choice([ACME, ACME, BETA])
                command = (deed, who, b"R%d" % number, None if deed == "recount" else r.choice(compare.NUMBERS), day.sheet(deed))
            at = day.moment()
            same(f"{self.name}: {command}", give(self.program, self.book, command, at), meant(self.meant, command, at))
        entries = sum(len(page.out) + 1 for page in self.meant.pages.values())
        self.verify(entries - len(self.before["entry"]))
        return commands + 2 + self.ask(anew=False)

    def look_all_over(self, commands, seed):
        """How many commands were given."""
        self.copy()
        same(f"{self.name}: init over it", run(self.program, self.book, "init", "ZZ-OTHER"), NOT_THIS)
        same(f"{self.name}: after init over it", rows_of(self.book)[0], self.before)
        fresh = os.path.join(self.folder, "fresh.book")
        copied(os.path.join(self.folder, "none"), fresh)
        same("init", run(self.program, fresh, "init", "ZZ-WHSE1"), (0, b"", b""))
        self.made = rows_of(fresh)[1]
        for command in DAYS[self.name]:
            self.copy()
            same(f"{self.name}: {command[0]} first", give(self.program, self.book, command, LATER), meant(self.meant, command, LATER))
            self.look(f"{command[0]} first")
        asked = self.ask(anew=True)
        self.copy()
        self.verify()
        self.look("verify")
        self.verify()
        self.look("verify again")
        self.repeat()
        self.go_on()
        return len(DAYS[self.name]) * 2 + asked + self.play(commands, seed)


# --- books that aren't carried over --------------------------------------------------------------------------------------------

# A statement that makes of a book of version 1 something else, and whether it is told as 43.
SPOILED = [
    ("UPDATE book SET version = 0", True),
    ("UPDATE book SET version = 3", True),
    ("UPDATE book SET version = -1", True),
    ("DELETE FROM book", True),
    ("INSERT INTO book VALUES (1, 'ZZ', 'OTHER')", True),
    ("UPDATE book SET id = ''", True),
    ("CREATE TABLE entry_rules (seq INTEGER PRIMARY KEY, rules INTEGER NOT NULL) STRICT", False),
    ("CREATE TABLE lot_expiry (who TEXT NOT NULL) STRICT", False),
]


def spoil(program, folder):
    for statement, is_not_this in SPOILED:
        for words in (["stock", "ZZ-ACME"], ["verify"], ["outbox", "ZZ-ACME"], ["enrol", "ZZ-BETA"]):
            book = copied(os.path.join(KEPT, "day.book"), os.path.join(folder, "spoiled.book"))
            db = sqlite3.connect(book)
            db.execute(statement)
            db.commit()
            db.close()
            with open(book, "rb") as file:
                content = file.read()
            before = rows_of(book)
            told = run(program, book, *words)
            what = f"{words[0]} after {statement}"
            if is_not_this:
                same(what, told, NOT_THIS)
            else:
                same(what, (told[0], told[1], told[2][:6]), (3, b"", b"fault "))
            same(f"rows of {what}", rows_of(book), before)
            with open(book, "rb") as file:
                same(f"bytes of {what}", is_not_this and file.read() != content, False)
    return len(SPOILED)


def beside(program, folder):
    """A book of version 1 beside a table of the house's own is carried over too, and the table stays as it is."""
    book = copied(os.path.join(KEPT, "day.book"), os.path.join(folder, "beside.book"))
    db = sqlite3.connect(book)
    db.executescript("CREATE TABLE note (who TEXT NOT NULL, line TEXT NOT NULL) STRICT; CREATE INDEX notes ON note (who); "
                     "INSERT INTO note VALUES ('ZZ-ACME', 'bay 7');")
    db.close()
    wanted = carried(rows_of(book)[0])
    for _ in range(2):
        same("verify beside another table", run(program, book, "verify"), (0, b"ok 4\n", b""))
        same("rows beside another table", rows_of(book)[0], wanted)


# --- openings that are cut short ---------------------------------------------------------------------------------------------------


def cut_short(program, folder, most):
    """Refuses each allocation of an opening that carries a book over, and lets each of its reads, writes, syncs and openings fail, in turn.
    Each time the book is the old one or the whole new one, and the next opening ends as the first one would have."""
    kept, book, words = os.path.join(KEPT, "floor.book"), os.path.join(folder, "short.book"), ("stock", "ZZ-ACME")
    before = rows_of(copied(kept, book))[0]
    after = carried(before)
    for what, library in (("allocations", allocations.built(folder)), ("calls of the system", faults.built(folder))):
        counts = {"old": 0, "new": 0, "faults": 0}
        status, printed, told = run(program, copied(kept, book), *words, LD_PRELOAD=library, TELL_CALLS="1")
        told, calls = memory.calls_of(told)
        same("an opening", (status, told), (0, b""))
        places = range(1, calls + 1, max(1, -(-calls // most)))
        for place in places:
            got = run(program, copied(kept, book), *words, LD_PRELOAD=library, FAIL_AT=str(place))
            if got != (0, printed, b""):
                counts["faults"] += 1
                is_told = got[2] == b"fault 40 OutOfMemory\n" if what == "allocations" else faults.TOLD.fullmatch(got[2])
                same(f"{what}, {place}: {got!r}", (got[0], bool(is_told), printed.startswith(got[1])), (3, True, True))
            rows = rows_of(book)[0]
            counts["old" if rows == before else "new"] += 1
            same(f"rows after {what}, {place}", rows, before if rows == before else after)
            same(f"the next opening after {what}, {place}", run(program, book, *words), (0, printed, b""))
            same(f"rows after the next opening, {what}, {place}", rows_of(book)[0], after)
        print(f"{len(places)} of {calls} {what} of an opening refused in turn: {counts['faults']} ended with a fault; {counts['old']} times the old book was left, "
              f"and {counts['new']} times the new one; none wrong", flush=True)


# --- long books ----------------------------------------------------------------------------------------------------------------


def long_book(folder, depositors, entries):
    """A book of version 1 of so many entries."""
    book = copied(os.path.join(KEPT, "new.book"), os.path.join(folder, f"long-{entries}.book"))
    db = sqlite3.connect(book)
    register.Register(depositors, entries, version=1).fill(db)
    db.close()
    return book


def opening(program, book):
    """The seconds and the peak memory in MiB of an opening, with one query and a closing."""
    seconds, _, peak = books.run(program, "stock", "ZZ-NONE", "--book", book, status=1)
    return seconds, peak


class Killed:
    """A long book, of which openings are killed."""

    def __init__(self, program, folder, entries, seed):
        self.program, self.entries, self.r = program, entries, random.Random(seed)
        self.long = long_book(folder, 3, entries)
        self.book = os.path.join(folder, "killed.book")
        self.before, _ = rows_of(self.long)
        self.after = carried(self.before)
        self.counts = {"old": 0, "new": 0, "begun": 0, "ended": 0}
        self.before_log, self.behind_log = self.times()
        same("rows after an opening", rows_of(self.book)[0], self.after)

    def start(self):
        copied(self.long, self.book)
        return subprocess.Popen([self.program, "stock", "ZZ-NONE", "--book", self.book], stdout=subprocess.PIPE, stderr=subprocess.PIPE)

    def wrote(self):
        """Whether the log has a page of the transaction."""
        log = self.book + "-wal"
        return os.path.exists(log) and os.path.getsize(log) > 4096

    def wait_for_log(self, process):
        while process.poll() is None and not self.wrote():
            time.sleep(0.0001)

    def times(self):
        """The seconds of an opening up to the first page in the log, and from there on."""
        process, started = self.start(), time.monotonic()
        self.wait_for_log(process)
        begun = time.monotonic()
        process.communicate()
        return begun - started, time.monotonic() - begun

    def kill(self):
        """Kills an opening, a third of the times before it writes into the log, else after that; the book is the old one or the whole
        new one."""
        process = self.start()
        if self.r.random() < 0.33:
            time.sleep(self.r.uniform(0, self.before_log))
        else:
            self.wait_for_log(process)
            time.sleep(self.r.choice([0.2, 1]) * self.r.uniform(0, self.behind_log))
        process.send_signal(signal.SIGKILL)
        process.communicate()
        self.counts["ended"] += process.returncode != -signal.SIGKILL
        begun, rows = self.wrote(), rows_of(self.book)[0]
        if rows == self.before:
            self.counts["old"] += 1
            self.counts["begun"] += begun
        else:
            for name in self.after:
                same(f"{name} after a kill", rows.get(name), self.after[name])
            same("tables after a kill", sorted(rows), sorted(self.after))
            self.counts["new"] += 1

    def reopen(self):
        """Opens what is left: then it is the new book, and sound."""
        same("opening after a kill", run(self.program, self.book, "stock", "ZZ-NONE"), (1, b"", b"refused 20 UnknownDepositor\n"))
        same("rows after a kill and an opening", rows_of(self.book)[0], self.after)
        same("verify after a kill", run(self.program, self.book, "verify"), (0, b"ok %d\n" % self.entries, b""))


def kill(program, folder, kills, entries, seed):
    if not kills:
        return
    killed = Killed(program, folder, entries, seed)
    for _ in range(kills):
        killed.kill()
        killed.reopen()
    counts = killed.counts
    print(f"{kills} kills of an opening of a book of {entries:,} entries ({killed.before_log:.2f} s before its log, {killed.behind_log:.2f} s from there; "
          f"{counts['ended']} had ended): {counts['old']} times "
          f"the old book was left, {counts['begun']} of them with a log begun, and {counts['new']} times the new one; each opened, and verify says ok",
          flush=True)


def watched(program, folder):
    """What an opening that carries a book over says where standard error is a terminal, which puts CR before each LF; and that the next one says nothing."""
    steps = lambda what: b"".join(b"\r%d of 250 %s" % (done, what) for done in (100, 200, 250)) + b"\r\n"
    over, checked = steps(b"entries carried over"), steps(b"entries")
    book, other = long_book(folder, 2, 250), os.path.join(folder, "other.book")
    copied(book, other)
    for words, at, wanted in (("depositors", book, over), ("depositors", book, b""), ("verify", other, over + checked), ("verify", other, checked)):
        status, _, shown = on_terminal([program, words, "--book", at])
        same("what a terminal shows", (status, shown), (0, wanted))


def measure(program, folder, largest):
    lib.figure("load", os.getloadavg()[0], "running")
    for depositors in (1, 100):
        entries = 1000
        while entries <= largest:
            book = long_book(folder, depositors, entries)
            size = os.path.getsize(book)
            after = carried(rows_of(book)[0])
            (first, peak), (second, later) = opening(program, book), opening(program, book)
            same(f"rows of {entries} entries", rows_of(book)[0], after)
            print(f"{entries:,} entries of {depositors}, {size / 1e6:.1f} MB: carried over in {first:.2f} s with {peak:.0f} MiB; the next opening {second:.2f} s, "
                  f"{later:.0f} MiB; the file then {os.path.getsize(book) / 1e6:.1f} MB", flush=True)
            lib.figure(books.sized("carrying over", depositors, entries), first, "s")
            lib.figure(books.sized("the next opening", depositors, entries), second, "s")
            for end in ("", "-wal", ".seen"):
                if os.path.exists(book + end):
                    os.remove(book + end)
            entries *= 10


# --- all of it -----------------------------------------------------------------------------------------------------------------


def make(program):
    """Makes the kept books by a program of version 1."""
    os.makedirs(KEPT, exist_ok=True)
    with tempfile.TemporaryDirectory(prefix="whx12-version1-") as folder:
        for name, commands in DAYS.items():
            book, second = os.path.join(folder, name + ".book"), model.Book(HOUSE, 1)
            same("init", run(program, book, "init", HOUSE.decode()), (0, b"", b""))
            for command in commands:
                same(f"{name}: {command}", give(program, book, command), meant(second, command))
            entries = len(commands)
            same(f"{name}: verify", run(program, book, "verify"), (0, b"ok %d\n" % entries, b""))
            shutil.copyfile(book, os.path.join(KEPT, name + ".book"))
            print(f"{name}: {entries} entries, {os.path.getsize(book)} bytes")


def main(words):
    if "--make" in words:
        make(os.path.abspath(words[-1]))
        return 0
    seed, most, commands = option(words, "--seed", 1), option(words, "--most", 500), option(words, "--commands", 40)
    kills, entries, rounds = option(words, "--kills", 200), option(words, "--entries", 10_000), option(words, "--measure", 0)
    program = program_in(words)
    folder = tempfile.mkdtemp(prefix="carried")
    try:
        given = sum(House(program, name, folder).look_all_over(commands, seed) for name in DAYS)
        beside(program, folder)
        spoiled = spoil(program, folder)
        print(f"{len(DAYS)} books of version 1, {given} commands: all carried over, and every row and answer as it has to be; {spoiled} other books "
              "told as faults and left as they are", flush=True)
        watched(program, folder)
        if most:
            cut_short(program, folder, most)
        kill(program, folder, kills, entries, seed)
        measure(program, folder, rounds)
    except Wrong as wrong:
        print(f"{wrong}\nkept: {folder}")
        return 1
    shutil.rmtree(folder)
    return 0


if __name__ == "__main__":
    sys.exit(main(sys.argv[1:]))
