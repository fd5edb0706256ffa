#!/usr/bin/env python3
"""Lets the disk under a server run full, and gives it room again.

Usage: bench/full_disk.py [PROGRAM]     (default: crates/whx12/out/whx12, which `rt run` in that folder leaves)

Wants to be root: the book lies on a file system of its own in memory, of 4 MiB. A server without `--count`
takes interchanges until one is answered 503, as the disk has no room for it. Meanwhile it answers queries
again, in the same process, and after each 503 it opens its book anew. With room it takes what it couldn't,
given again, within some seconds; each answer that it gave is stored, and `verify` says ok. A book that was
replaced while the disk was full isn't served. Status 1 where something differs.
"""
import os
import subprocess
import sys
import tempfile
import time

from lib import LOOPBACK, Wrong, advice, free_port, interchange, once, post_of, program_in, same, wait_for_listener

RUN = {
    "tier": "night",
    "shows": "a server outlives a full disk: it answers 503, opens its book again by itself, and goes on",
    "needs": ["program", "root"],
    "words": [""],
    "minutes": 1,
}
SIZE = 4 << 20
GET = b"GET /stock/ZZ-ACME HTTP/1.1\r\nHost: localhost\r\n\r\n"


def status_of(response):
    return int(response.split(b" ", 2)[1])


class Server:
    """A server of a book without an end, and what it says."""

    def __init__(self, program, book, told):
        self.port = free_port()
        self.told = open(told, "wb")
        line = [program, "serve", "--book", book, "--listen", f"{LOOPBACK}:{self.port}", "--at", "2025-03-04T09:15"]
        self.process = subprocess.Popen(line, stdout=subprocess.DEVNULL, stderr=self.told)
        wait_for_listener(self.port, self.process)

    def ask(self, request, seconds=10):
        """The response, once the server listens; its process is the same."""
        end = time.monotonic() + seconds
        while time.monotonic() < end:
            if self.process.poll() is not None:
                raise Wrong(f"the server ended with {self.process.returncode}")
            try:
                return once(LOOPBACK, self.port, request)[1]
            except OSError:
                time.sleep(0.05)
        raise Wrong("nobody answers")

    def stop(self):
        self.process.kill()
        self.process.wait()
        self.told.close()


def fill(path):
    """Takes all room that is left."""
    with open(path, "wb", buffering=0) as file:
        for size in (1 << 16, 1 << 12, 1):
            try:
                while file.write(b"x" * size) == size:
                    pass
            except OSError:
                continue


def text_of(number):
    lines = [(1 + at, f"ITEM{at:03d}", f"L{number}") for at in range(90)]
    return interchange("AR", number, advice(f"SHP{number}", lines)).encode()


def take_until_full(server, number):
    """Posts interchanges until one has no room; the answers, and the number of that one."""
    answers = {}
    while True:
        response = server.ask(post_of(text_of(number)))
        if status_of(response) == 503:
            return answers, number
        same(f"the answer to {number}", status_of(response), 200)
        answers[number] = response
        number += 1


def outlive(program, folder):
    book, told = f"{folder}/w.book", f"{os.path.dirname(folder)}/told"
    for line in (["init", "ZZ-WHSE1"], ["enrol", "ZZ-ACME", "--at", "2025-03-04T09:15"]):
        subprocess.run([program, *line, "--book", book], check=True)
    server = Server(program, book, told)
    try:
        answers = {number: server.ask(post_of(text_of(number))) for number in range(1, 4)}
        fill(f"{folder}/filler")
        more, number = take_until_full(server, 4)
        answers.update(more)
        for _ in range(3):
            same("a query while the disk is full", status_of(server.ask(GET)), 200)
            same("no room yet", status_of(server.ask(post_of(text_of(number)))), 503)
        os.unlink(f"{folder}/filler")
        response = server.ask(post_of(text_of(number)))
        same("with room again", status_of(response), 200)
        answers[number] = response
        for given, answer in answers.items():
            same(f"{given} given again", server.ask(post_of(text_of(given))), answer)
    finally:
        server.stop()
    with open(told, "rb") as file:
        text = file.read().decode()
    same("what it said", set(text.splitlines()), {"fault 42 Reopen"})
    ended = subprocess.run([program, "verify", "--book", book], capture_output=True, text=True, check=False)
    same("verify", (ended.returncode, ended.stdout), (0, f"ok {len(answers) + 1}\n"))
    return text.count("42")


def replace(program, folder):
    """A book that was replaced while its disk was full isn't served."""
    book, told = f"{folder}/w.book", f"{os.path.dirname(folder)}/told"
    server = Server(program, book, told)
    try:
        fill(f"{folder}/filler")
        take_until_full(server, 1000)
        os.unlink(f"{folder}/filler")
        os.rename(book, f"{folder}/old.book")
        with open(f"{folder}/old.book", "rb") as old, open(book, "wb") as new:
            new.write(old.read())
        end = time.monotonic() + 20
        while server.process.poll() is None and time.monotonic() < end:
            try:
                same("the answer of a replaced book", once(LOOPBACK, server.port, GET)[1], b"")
            except OSError:
                time.sleep(0.2)
        same("it ended", server.process.poll(), 3)
    finally:
        server.stop()


def main(argv):
    program = program_in(argv)
    with tempfile.TemporaryDirectory(prefix="whx12-full-") as own:
        folder = os.path.join(own, "disk")
        os.mkdir(folder)
        subprocess.run(["mount", "-t", "tmpfs", "-o", f"size={SIZE}", "own", folder], check=True)
        try:
            times = outlive(program, folder)
            replace(program, folder)
        finally:
            subprocess.run(["umount", folder], check=True)
    print(f"a full disk: the server opened its book again {times} times, and took what it couldn't; a replaced book ended it")


if __name__ == "__main__":
    main(sys.argv[1:])
