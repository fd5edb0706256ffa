#!/usr/bin/env python3
"""Measures what a server takes to list who is enrolled and what a depositor has open, by the entries of the
book.

Usage: bench/lists.py [--largest N] [PROGRAM]
       (default: up to 100,000 entries, crates/whx12/out/whx12, which `rt run` in that folder
        leaves)

Registers of one depositor and of 100 are written without the program (register.py); each is served over
loopback with --clerks, and each list is asked for fifty times, a connection each. The least times are
printed. The list of depositors must name each of them, in the order in which they were enrolled.
"""
import os
import socket
import subprocess
import sys
import tempfile
import time

import books
import register
from lib import figure, option, program_in

RUN = {
    "tier": "figures",
    "shows": "what a server takes to list who is enrolled and what is open, by the entries of "
             "the book",
    "needs": ["program"],
    "words": ["--largest 100000"],
    "minutes": 1,
}
TIMES = 50


def asked(port, path):
    """The body of the answer, and how long it took."""
    begun = time.time()
    with socket.create_connection(("127.0.0.1", port)) as peer:
        peer.sendall(f"GET {path} HTTP/1.1\r\n\r\n".encode())
        answer = b""
        while part := peer.recv(65536):
            answer += part
    return answer.partition(b"\r\n\r\n")[2].decode(), time.time() - begun


def least(port, path):
    """The body, and the least time in milliseconds."""
    answers = [asked(port, path) for _ in range(TIMES)]
    return answers[0][0], 1000 * min(it[1] for it in answers)


def measure(program, folder, depositors, entries):
    made, book = register.Register(depositors, entries), f"{folder}/{depositors}-{entries}.book"
    books.make(program, book, made)
    words = [program, "serve", "--book", book, "--listen", "127.0.0.1:0", "--count", "65535", "--clerks", "--explain"]
    with subprocess.Popen(words, stdout=subprocess.DEVNULL, stderr=subprocess.PIPE, text=True) as server:
        try:
            port = int(server.stderr.readline().strip().rpartition(":")[2])
            enrolled, listing = least(port, "/depositors")
            wanted = [row[1] for row in made.rows["entry"] if row[3] == 0]
            if enrolled.split() != wanted:
                raise SystemExit(f"{entries} entries of {depositors}: other depositors than those that were enrolled")
            _, looking = least(port, f"/open/{wanted[0]}")
        finally:
            server.kill()
    print(f"{entries:7} entries of {depositors:3}: depositors {listing:6.2f} ms, open {looking:6.2f} ms", flush=True)
    figure(books.sized("list of depositors", depositors, entries), listing, "ms")
    figure(books.sized("list of what is open", depositors, entries), looking, "ms")


def main(words):
    largest = option(words, "--largest", 100_000)
    program = program_in(words)
    figure("load", os.getloadavg()[0], "running")
    with tempfile.TemporaryDirectory(prefix="whx12-lists-") as folder:
        for depositors in (1, 100):
            for entries in (it for it in (1000, 10_000, 100_000) if it <= largest):
                measure(program, folder, depositors, entries)
    return 0


if __name__ == "__main__":
    sys.exit(main(sys.argv[1:]))
