#!/usr/bin/env python3
"""Measures a book in a file: commands a second and the time of an opening, by the number of entries, beside
the same statements through Debian's C SQLite.

Usage: bench/books.py [--largest N] [PROGRAM]
       (default: up to 100,000 entries; crates/whx12/out/whx12, which `rt run` in that folder
        leaves)

It needs cc, GNU time and Debian's packages sqlite3 and libsqlite3-dev. For each size

  - a book is made by `init` and filled with the rows of a register (bench/register.py). That the program
    writes just these rows is looked at first, over a small register, all commands of which it is given;
  - `take` hands in 200 interchanges of one line, an advice and an order in turn, by the depositors in
    turn: all are accepted. Then it hands them in again: all are known. Answers are compared with those
    of the register;
  - `stock` of a stranger is an opening, one query, and a closing;
  - `serve` is given the same interchanges over loopback, a connection each and one after the other, and
    then once more: each is answered with 200, and the second time with the bytes of the first. A
    command's time is that from its connection to its end, in this process;
  - bench/statements.c runs the same statements over a copy of the same file, each text prepared once, a
    transaction for each accepted command. Afterwards the two files hold the same rows.

Both have a log (WAL) that each commit syncs (synchronous FULL), and the file for themselves; both copy
the log into the file once it has 1,000 pages. The program's opening reads the whole file and tests each
row; C SQLite's doesn't, so its quick_check, which does, stands beside it. Of several runs the least time
counts.
"""
import os
import shutil
import sqlite3
import subprocess
import sys
import tempfile
import time

import register
from lib import HERE, figure, free_port, knock, once, option, program_in, same

RUN = {
    "tier": "figures",
    "shows": "a book in a file by its entries, over HTTP and as files, beside C SQLite",
    "needs": ["program", "C SQLite"],
    "words": ["--largest 100000"],
    "minutes": 5,
}
AT = ["--at", "2025-03-04T09:15"]
SIZES = [(1, 1000), (1, 10_000), (1, 100_000), (100, 1000), (100, 10_000), (100, 100_000)]
COMMANDS, RUNS = 200, 5

# The texts that the program asks and writes with (crates/book_statements, crates/book_tables). Each command asks for what is known under its mark: of a known one for the
# entry, its rules and the text of its number, and nothing else; of a new one whether its depositor is enrolled, for the last number, for the advice
# or the order that it names, and for the lots of its item and their expiries.
OPENING = ["SELECT version, qualifier, id FROM book", "SELECT seq FROM entry"]
DEPOSITOR = [("SELECT seq FROM entry WHERE who = ?1 LIMIT 1", ["who"]), ("SELECT n FROM outgoing WHERE who = ?1 ORDER BY n DESC LIMIT 1", ["who"])]
NAMED = [[("SELECT shipment, ord, is_open FROM advice WHERE who = ?1 AND shipment = ?2", ["who", "name"])],
         [("SELECT ord, is_open, to_name, to_one, to_two, to_place FROM orders WHERE who = ?1 AND ord = ?2", ["who", "name"])]]
LOTS = [("SELECT item, lot, since, expected, on_hand, reserved, shipped FROM stock WHERE who = ?1 AND item = ?2 ORDER BY item, lot", ["who", "item"])]
EXPIRIES = [("SELECT item, lot, expiry FROM lot_expiry WHERE who = ?1 AND item = ?2 ORDER BY item, lot", ["who", "item"])]
KNOWN = [("SELECT seq FROM entry WHERE who = ?1 AND mark = ?2 ORDER BY seq", ["who", "mark"]),
         ("SELECT who, mark, n, moment, body FROM entry WHERE seq = ?1", ["seq"]), ("SELECT rules FROM entry_rules WHERE seq = ?1", ["seq"]),
         ("SELECT content, kind, state FROM outgoing WHERE who = ?1 AND n = ?2", ["who", "n"])]
ENTRY = "INSERT INTO entry (seq, who, mark, n, moment, body) VALUES (?1, ?2, ?3, ?4, ?5, ?6)"
RULES = "INSERT INTO entry_rules (seq, rules) VALUES (?1, ?2)"
OUTGOING = "INSERT INTO outgoing (who, n, kind, content, state) VALUES (?1, ?2, ?3, ?4, ?5)"
STOCK = ("INSERT INTO stock (who, item, lot, since, expected, on_hand, reserved, shipped) VALUES (?1, ?2, ?3, ?4, ?5, ?6, ?7, ?8) "
         "ON CONFLICT (who, item, lot) DO UPDATE SET since = ?4, expected = ?5, on_hand = ?6, reserved = ?7, shipped = ?8")
ADVICE = "INSERT INTO advice (who, shipment, ord, is_open) VALUES (?1, ?2, ?3, ?4)"
ADVICE_LINE = "INSERT INTO advice_line (who, shipment, line, item, lot, quantity) VALUES (?1, ?2, ?3, ?4, ?5, ?6)"
ORDERS = "INSERT INTO orders (who, ord, is_open, to_name, to_one, to_two, to_place) VALUES (?1, ?2, ?3, ?4, ?5, ?6, ?7)"
ORDER_LINE = "INSERT INTO order_line (who, ord, line, item, lot, quantity) VALUES (?1, ?2, ?3, ?4, ?5, ?6)"
RESERVATION = "INSERT INTO reservation (who, ord, item, lot, quantity) VALUES (?1, ?2, ?3, ?4, ?5)"


class Work:
    """The commands that are measured, in order: the text of each, its answer, and the rows that it writes."""

    def __init__(self, made):
        self.texts, self.answers, self.writes, self.entries = [], [], [], []
        seq = len(made.rows["entry"])
        for place in range(COMMANDS):
            depositor = made.depositors[(place // 2) % len(made.depositors)]
            number = f"NEXT{place}"
            who, k = depositor.who, place // 2 // len(made.depositors)
            item, lot = register.pair(k)
            text, answer = depositor.advise(number, "PO", k, 3) if place % 2 == 0 else depositor.order(number, k, 1)
            n = depositor.n
            writes = [(ENTRY, seq + place + 1, who, f"X{n:09d}", n, register.STAMP, text.encode()), (RULES, seq + place + 1, 2),
                      (OUTGOING, who, n, "ANS", answer.encode(), "-"), (STOCK, who, item, lot, *depositor.amounts(k))]
            if place % 2 == 0:
                writes += [(ADVICE, who, number, "PO", 1), (ADVICE_LINE, who, number, 1, item, lot, 3)]
            else:
                writes += [(ORDERS, who, number, 1, None, "", "", ""), (ORDER_LINE, who, number, 1, item, None, 1),
                           (RESERVATION, who, number, item, lot, 1)]
            self.texts.append(text)
            self.answers.append(answer)
            self.entries.append({"who": who, "seq": seq + place + 1, "mark": f"X{n:09d}", "n": n, "name": number, "item": item, "kind": place % 2})
            self.writes.append(writes)

    def folder(self, path):
        os.mkdir(path)
        for place, text in enumerate(self.texts):
            with open(f"{path}/{place:04d}.x12", "w", encoding="ascii") as file:
                file.write(text)

    def look_at_answers(self, path):
        for place, answer in enumerate(self.answers):
            same(f"answer {place}", open(f"{path}/{place:04d}.x12.ans", encoding="ascii").read(), answer)

    def list(self, path, writes):
        """The list for bench/statements.c: the opening, then each command, with what it writes or as one that is known."""
        numbers = {}

        def number(sql):
            if sql not in numbers:
                numbers[sql] = len(numbers)
                lines.append(f"T\t{sql}")
            return numbers[sql]

        def typed(value):
            if value is None:
                return "n"
            if isinstance(value, int):
                return f"i{value}"
            return f"b{value.decode()}" if isinstance(value, bytes) else f"t{value}"

        lines = []
        asking = DEPOSITOR + NAMED[0] + NAMED[1] + LOTS + EXPIRIES + KNOWN
        for sql in OPENING + [sql for sql, _ in asking] + [write[0] for some in self.writes for write in some]:
            number(sql)
        lines += [f"Q\t{number(sql)}" for sql in OPENING] + ["O"]
        for entry, some in zip(self.entries, self.writes):
            asked = KNOWN[:1] + DEPOSITOR + NAMED[entry["kind"]] + LOTS + EXPIRIES if writes else KNOWN
            lines += ["\t".join(["Q", str(number(sql)), *(typed(entry[name]) for name in names)]) for sql, names in asked]
            if writes:
                lines += ["B"] + ["\t".join(["X", str(number(sql)), *map(typed, values)]) for sql, *values in some] + ["E"]
        with open(path, "w", encoding="ascii") as file:
            file.write("\n".join(lines) + "\n")


def run(program, *words, status=0):
    """The seconds of one run of the program, what it printed, and its peak memory in MiB. GNU time stands between, since a child of
    this process would count this process's memory as its own."""
    started = time.monotonic()
    ended = subprocess.run(["/usr/bin/time", "-q", "-f", "%M", program, *words], capture_output=True, text=True, check=False)
    seconds = time.monotonic() - started
    *told, peak = ended.stderr.splitlines()
    same(f"status of {words}", (ended.returncode, told), (status, ["refused 20 UnknownDepositor"] if status else []))
    return seconds, ended.stdout, int(peak) / 1024


def start(program):
    """The seconds of the program's start, which is part of each opening."""
    started = time.monotonic()
    subprocess.run([program, "--help"], capture_output=True, check=False)
    return time.monotonic() - started


def rows_of(book):
    """All rows of all tables, each table in the order of its rows."""
    with sqlite3.connect(book) as db:
        return {name: sorted(db.execute(f"SELECT * FROM {name}"), key=repr) for name in [*register.COLUMNS, "book"]}


def make(program, book, made):
    run(program, "init", "ZZ-WHSE1", "--book", book)
    db = sqlite3.connect(book)
    made.fill(db)
    db.close()


def look_at_rows(program, folder):
    """That the program, given all commands of a small register, writes the rows of that register."""
    made, book = register.Register(2, 40), f"{folder}/small.book"
    run(program, "init", "ZZ-WHSE1", "--book", book)
    for _, who, mark, _, _, body in made.rows["entry"]:
        name = f"{folder}/small"
        with open(name, "wb") as file:
            file.write(body.partition(b"\n")[2] if mark[0] == "T" else body)
        if mark == "E":
            words = ["enrol", who]
        elif mark[0] == "X":
            words = ["send", name]
        else:
            deed, number = body.split(b"\n")[0].decode().split(" ")
            words = [deed, who, mark[1:], number, name]
        run(program, *words, *AT, "--book", book)
    written = rows_of(book)
    for name, rows in made.rows.items():
        same(f"rows of {name}", written[name], sorted(rows, key=repr))


def copied(book, folder, name):
    """A new copy of a closed book."""
    path = f"{folder}/{name}"
    for end in ("", "-wal", "-shm"):
        if os.path.exists(path + end):
            os.remove(path + end)
    shutil.copyfile(book, path)
    return path


def of_files(program, book, work, folder):
    """Seconds of an opening, and the peak memory of all commands and of all of them again, handed in as files."""
    openings, peak = [], 0.0
    for turn in range(RUNS):
        path, files = copied(book, folder, "taken.book"), f"{folder}/taken{turn}"
        work.folder(files)
        openings.append(run(program, "stock", "ZZ-NONE", "--book", path, status=1)[0])
        for word in ("accepted", "stored"):
            _, printed, most = run(program, "take", files, *AT, "--book", path)
            same(word, printed, "".join(f"{place:04d}.x12 {word}\n" for place in range(COMMANDS)))
            work.look_at_answers(files)
            peak = max(peak, most)
        shutil.rmtree(files)
    return min(openings), peak


def of_server(program, book, work, folder):
    """Seconds of all commands, and of all of them again, over one serving process."""
    takings, known = [], []
    for _ in range(RUNS):
        path, port = copied(book, folder, "served.book"), free_port()
        at = f"127.0.0.1:{port}"
        server = subprocess.Popen([program, "serve", "--listen", at, "--count", str(2 * COMMANDS + 1), "--book", path],
                                  stdout=subprocess.DEVNULL, stderr=subprocess.DEVNULL)
        knock(port)
        answers = {}
        for times in (takings, known):
            seconds = 0.0
            for place, text in enumerate(work.texts):
                head = f"POST /x12 HTTP/1.1\r\nHost: {at}\r\nContent-Length: {len(text)}\r\n\r\n"
                spent, answer = once("127.0.0.1", port, (head + text).encode())
                seconds += spent
                same(f"answer {place}", answer[:15], b"HTTP/1.1 200 OK")
                same(f"answer {place}", answer, answers.setdefault(place, answer))
            times.append(seconds)
        same("the server's end", server.wait(timeout=60), 0)
    return min(takings), min(known)


def of_sqlite(statements, book, work, folder):
    """The same through C SQLite, but for the memory; and the seconds of a quick_check."""
    works, known, openings, checks = [], [], [], []
    work.list(f"{folder}/writes", True)
    work.list(f"{folder}/known", False)
    for _ in range(RUNS):
        path = copied(book, folder, "stated.book")
        for times, name, ended in ((works, "writes", COMMANDS), (known, "known", 0)):
            ran = subprocess.run([statements, path, f"{folder}/{name}"], capture_output=True, text=True, check=True)
            opening, rest, count, _ = ran.stdout.split()
            same("transactions", int(count), ended)
            openings.append(float(opening))
            times.append(float(rest))
        started = time.monotonic()
        same("quick_check", subprocess.run(["sqlite3", path, "PRAGMA quick_check"], capture_output=True, text=True, check=True).stdout, "ok\n")
        checks.append(time.monotonic() - started)
    return min(openings), min(works), min(known), min(checks)


def sized(what, depositors, entries):
    """The name of a figure of a book of so many entries."""
    return f"{what}, {entries:,} entries, {depositors} depositor{'s' if depositors > 1 else ''}"


def measure(program, statements, depositors, entries, folder):
    made, book = register.Register(depositors, entries), f"{folder}/new.book"
    make(program, book, made)
    shown = run(program, "stock", "ZZ-D001", "--csv", "--book", book)[1].splitlines()
    stock = sorted(made.depositors[0].stock.items())
    same("stock", shown[1:], [",".join([item, lot, "", *map(str, amounts[1:])]) for (item, lot), amounts in stock])
    work = Work(made)
    opening, peak = of_files(program, book, work, folder)
    taken, known = of_server(program, book, work, folder)
    c_opening, c_taken, c_known, check = of_sqlite(statements, book, work, folder)
    for name, rows in rows_of(f"{folder}/taken.book").items():
        same(f"rows of {name} after the commands", rows, rows_of(f"{folder}/stated.book")[name])
    size = os.path.getsize(book)
    os.remove(book)
    print(f"{entries:8,d} {depositors:4d} {size / 1e6:7.1f} | {opening:8.3f} {COMMANDS / taken:8.0f} {COMMANDS / known:8.0f} {peak:7.1f} "
          f"| {c_opening:8.4f} {COMMANDS / c_taken:8.0f} {COMMANDS / c_known:8.0f} {check:8.3f}", flush=True)
    for what, value, unit in (("opening", opening, "s"), ("peak memory", peak, "MiB"),
                              ("new interchange over HTTP", COMMANDS / taken, "requests/s"),
                              ("known interchange over HTTP", COMMANDS / known, "requests/s"),
                              ("C SQLite, transactions", COMMANDS / c_taken, "1/s"),
                              ("C SQLite, quick_check", check, "s")):
        figure(sized(what, depositors, entries), value, unit)


def main(words):
    largest = option(words, "--largest", 100_000)
    program = program_in(words)
    figure("load", os.getloadavg()[0], "running")
    with tempfile.TemporaryDirectory(prefix="whx12-books-") as folder:
        statements = f"{folder}/statements"
        subprocess.run(["cc", "-O2", "-o", statements, f"{HERE}/statements.c", "-lsqlite3"], check=True)
        look_at_rows(program, folder)
        print(f"C SQLite {sqlite3.sqlite_version}; load {os.getloadavg()[0]:.1f}; the program's start "
              f"{min(start(program) for _ in range(RUNS)):.4f} s; {COMMANDS} commands, least of {RUNS} runs")
        print("                         | the program                        | C SQLite, the same statements")
        print(" entries  who      MB    |  opening    new/s  known/s     MiB |  opening    new/s  known/s    check")
        for depositors, entries in SIZES:
            if entries <= largest:
                measure(program, statements, depositors, entries, folder)


if __name__ == "__main__":
    main(sys.argv[1:])
