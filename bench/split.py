#!/usr/bin/env python3
"""Splits a house's depositors over several books, each with a server of its own, and compares them with one
book that has all.

Usage: bench/split.py [--books N] [--depositors N] [--each N] [PROGRAM]
              (default: 4 books, 40 depositors, 50 interchanges each; crates/whx12/out/whx12, which `rt run`
           in that folder leaves)

Depositors don't meet: what one is answered depends on its own entries alone. So a house that outgrows
one process may keep some depositors in one book and some in another. The same interchanges, an advice
each, are posted to one server with one book, and then to several servers with a book each, a client
process for each book in both cases, one connection a request. Every answer has to be the same, byte for
byte, and the books together have to hold the rows that the one book holds. Printed are requests a
second, and how many times as many the several books took; how far that goes is the machine's: its
processors, and what its disk does at once.
"""
import contextlib
import multiprocessing
import os
import sqlite3
import subprocess
import sys
import tempfile
import time

import lib
from lib import figure, free_port, knock, once, post_of, program_of

RUN = {
    "tier": "figures",
    "shows": "depositors over four books with four servers get the answers of one book; how "
             "many times as many a second",
    "needs": ["program"],
    "words": [""],
    "minutes": 0.5,
}
AT = ["--at", "2025-03-04T09:15"]
TABLES = ["outgoing", "stock", "advice", "advice_line", "orders", "order_line", "reservation", "lot_expiry"]


def advice(depositor, number):
    """A 943 of one line, under a control number and a shipment number of its own."""
    line = (number, f"ITEM-{number % 7}", f"L{number % 5}")
    made = lib.advice(f"SHP{number}", [line], f"PO{number}")
    return lib.interchange("AR", number, made, sender=f"D{depositor:03d}", wants=1).encode()


def post(port, text):
    """The body of the response to a posted interchange, and its status."""
    status, _, body = once("127.0.0.1", port, post_of(text))[1].partition(b"\r\n\r\n")
    return status.split(b" ")[1], body


def client(port, depositors, each, start, answers):
    """Posts the interchanges of some depositors, in turn, once all clients are there."""
    start.wait()
    answers.put({(who, number): post(port, advice(who, number)) for number in range(1, each + 1) for who in depositors})


def served(program, folder, name, shares, books, each):
    """Seconds and answers of the shares of depositors, each by a client of its own, over so many books."""
    paths, ports, servers = [], [], []
    for book in range(books):
        path, port = f"{folder}/{name}{book}.book", free_port()
        subprocess.run([program, "init", "ZZ-WHSE1", "--book", path], check=True)
        with open(f"{folder}/enrol", "w", encoding="ascii") as file:
            file.writelines(f"enrol ZZ-D{who:03d} {' '.join(AT)}\n" for at, share in enumerate(shares) if at % books == book for who in share)
        subprocess.run([program, "batch", f"{folder}/enrol", "--book", path], check=True)
        count = sum(each * len(share) for at, share in enumerate(shares) if at % books == book) + 1
        servers.append(subprocess.Popen([program, "serve", "--listen", f"127.0.0.1:{port}", "--count", str(count), *AT, "--book", path],
                                        stdout=subprocess.DEVNULL, stderr=subprocess.DEVNULL))
        paths.append(path)
        ports.append(port)
    for port in ports:
        knock(port)
    start, answers = multiprocessing.Event(), multiprocessing.Queue()
    clients = [multiprocessing.Process(target=client, args=(ports[at % books], share, each, start, answers)) for at, share in enumerate(shares)]
    for one in clients:
        one.start()
    time.sleep(0.3)
    began = time.monotonic()
    start.set()
    found = {}
    for _ in clients:
        found.update(answers.get())
    seconds = time.monotonic() - began
    for one in clients:
        one.join()
    for one in servers:
        if one.wait(timeout=60):
            sys.exit(f"a server ended with {one.returncode}")
    return seconds, found, paths


def rows_of(paths):
    """The rows of all tables but those that go by the register's places."""
    rows = {name: [] for name in TABLES}
    for path in paths:
        with contextlib.closing(sqlite3.connect(path)) as db:
            for name in TABLES:
                rows[name] += db.execute(f"SELECT * FROM {name}").fetchall()
    return {name: sorted(some, key=repr) for name, some in rows.items()}


def number_after(words, name, default):
    if name not in words:
        return default
    at = words.index(name)
    value = int(words[at + 1])
    del words[at:at + 2]
    return value


def main():
    words = sys.argv[1:]
    books, depositors, each = (number_after(words, name, n) for name, n in (("--books", 4), ("--depositors", 40), ("--each", 50)))
    program = program_of(words[0] if words else None)
    figure("load", os.getloadavg()[0], "running")
    shares = [list(range(at, depositors, books)) for at in range(books)]
    with tempfile.TemporaryDirectory(prefix="whx12-split-") as folder:
        one, answers, path = served(program, folder, "one", shares, 1, each)
        several, others, paths = served(program, folder, "several", shares, books, each)
        if answers != others or {status for status, _ in answers.values()} != {b"200"}:
            sys.exit("the answers differ")
        if rows_of(path) != rows_of(paths):
            sys.exit("the rows differ")
        for book in [*path, *paths]:
            said = subprocess.run([program, "verify", "--book", book], capture_output=True, text=True, check=False).stdout
            if not said.startswith("ok "):
                sys.exit(f"verify of {book}: {said}")
    count = len(answers)
    print(f"{count} interchanges: one book {count / one:.0f} a second, {books} books {count / several:.0f} a second, {one / several:.1f} times as many")
    figure("new interchange over HTTP, 1 book", count / one, "requests/s")
    figure(f"new interchange over HTTP, {books} books", count / several, "requests/s")


if __name__ == "__main__":
    main()
