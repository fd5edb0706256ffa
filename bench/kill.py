#!/usr/bin/env python3
"""Kills a serving process again and again over one book, and looks at what is left.

Usage: bench/kill.py [--rounds N] [--seed N] [PROGRAM]
       (default: 200 rounds of crates/whx12/out/whx12, which `rt run` in that folder leaves)

A round serves the book of ZZ-WHSE1, posts up to four interchanges of two depositors, and ends the
process by `kill -9`: between two requests, while a request is being sent, or while its response is
awaited. Then the book is opened again, by the next server or by other commands, and what it shows is
compared with the second reading of the rules (bench/model.py):

  - every interchange that was answered is there: the same bytes get the stored answer, byte for byte;
  - stock and outbox are those of the interchanges that were answered, or those and the one under way;
  - what the program prints from there on goes on from that state: answers, numbers, balances.

Between servers clerks count, pick and recount; half of these commands are killed while they run, and
given again: the document is made once, whether the kill came before it or after it. For every ten rounds
a new book's `init` is killed, given again, and enrols a depositor. Debian's sqlite3 (apt-get install
sqlite3) says in each round, of a copy of the files as the kill left them, whether they are sound and how
many entries they hold, and `verify` does so of another copy; at the end so of the closed book, whose
stock rows are compared too. The folder of a run that fails is kept, and the status is then 1.
"""
import copy
import os
import re
import shutil
import signal
import socket
import subprocess
import sys
import tempfile
import time

import compare
import model
import tables
from lib import Wrong, option, program_in, same

RUN = {
    "tier": "night",
    "shows": "a server killed again and again loses nothing that it answered; clerks' commands "
             "and `init` killed while they run",
    "needs": ["program", "sqlite3"],
    "words": ["--rounds 200"],
    "minutes": 1,
}
WHO = [b"ZZ-ACME", b"ZZ-BETA"]
compare.NUMBERS = [b"N%d" % n for n in range(1, 400)]


class Server:
    """A process that serves the book, each request at the same moment."""

    def __init__(self, program, book, moment):
        with socket.socket() as one:
            one.bind(("127.0.0.1", 0))
            self.port = one.getsockname()[1]
        words = ["serve", "--book", book, "--listen", f"127.0.0.1:{self.port}", "--count", "65535", "--at", moment]
        self.process = subprocess.Popen([program, *words], stdout=subprocess.DEVNULL, stderr=subprocess.PIPE)

    def connect(self):
        """A connection, as soon as the process listens."""
        for _ in range(2000):
            try:
                return socket.create_connection(("127.0.0.1", self.port), 20)
            except OSError:
                if self.process.poll() is not None:
                    raise Wrong(f"the server ended: {self.process.stderr.read()!r}")
                time.sleep(0.005)
        raise Wrong("nobody listens")

    def ask(self, request):
        """The status and the body of the response."""
        with self.connect() as stream:
            stream.sendall(request)
            return response(read_all(stream))

    def get(self, path):
        return self.ask(b"GET " + path + b" HTTP/1.1\r\nHost: localhost\r\n\r\n")

    def kill(self):
        self.process.send_signal(signal.SIGKILL)
        self.process.wait()
        self.process.stderr.close()


def read_all(stream):
    pieces = []
    try:
        while piece := stream.recv(65536):
            pieces.append(piece)
    except OSError:
        pass
    return b"".join(pieces)


def response(text):
    """The status and the body of a whole response, or None."""
    head, gap, body = text.partition(b"\r\n\r\n")
    found = re.match(rb"HTTP/1\.1 (\d{3}) ", head)
    if not gap or not found:
        return None
    length = re.search(rb"Content-Length: (\d+)", head)
    return (int(found[1]), body) if len(body) == (int(length[1]) if length else 0) else None


def post(raw):
    return b"POST /x12 HTTP/1.1\r\nHost: localhost\r\nContent-Length: %d\r\n\r\n" % len(raw) + raw


def answer(printed, told, _):
    """The response that the rules give, from what a script would print and tell."""
    if told.startswith("refused 1 "):
        return 400, b"1 Unreadable\n"
    body = printed[:-1]
    if not told:
        return (200, body) if body else (204, b"")
    return (409 if told.startswith("refused 3 ") else 422), body


class Run:
    def __init__(self, program, seed, folder):
        self.program, self.folder = program, folder
        self.day = compare.Day(seed, folder)
        self.r = self.day.r
        self.book = os.path.join(folder, "killed.book")
        self.answered, self.tickets = [], 0
        self.counts = {"answered": 0, "in": 0, "out": 0, "acts": 0, "cut": 0, "cut in": 0, "begun": 0, "checked": 0}
        self.command("init", "ZZ-WHSE1")
        for who in WHO:
            self.command("enrol", who.decode())
            self.day.book.enrol(who)

    def command(self, *words):
        ran = subprocess.run([self.program, *words, "--book", self.book], cwd=self.folder, capture_output=True, check=False)
        if ran.returncode not in (0, 1):
            raise Wrong(f"{words}: {ran.returncode} {ran.stderr!r}")
        return ran.stdout

    def killed(self, words, book, longest):
        """Whether a command was killed before its end, which comes at a random moment; what it printed, where it wasn't."""
        process = subprocess.Popen([self.program, *words, "--book", book], cwd=self.folder, stdout=subprocess.PIPE, stderr=subprocess.PIPE)
        time.sleep(self.r.uniform(0, longest))
        process.send_signal(signal.SIGKILL)
        printed = process.communicate()[0]
        return process.returncode == -signal.SIGKILL, printed

    def begin(self):
        """A new book's first command is killed, and given again: then there is a book, made once."""
        book = os.path.join(self.folder, "begun.book")
        for end in ("", "-wal", "-shm"):
            if os.path.exists(book + end):
                os.remove(book + end)
        self.killed(["init", "ZZ-WHSE1"], book, 0.03)
        ran = subprocess.run([self.program, "init", "ZZ-WHSE1", "--book", book], cwd=self.folder, capture_output=True, check=False)
        if (ran.returncode, ran.stderr) not in [(0, b""), (3, b"fault 43 NotThisBook\n")]:
            raise Wrong(f"init after a kill: {ran.returncode} {ran.stderr!r}")
        for words in (["enrol", "ZZ-ACME"], ["stock", "ZZ-ACME"]):
            ran = subprocess.run([self.program, *words, "--book", book], cwd=self.folder, capture_output=True, check=False)
            same(f"{words} in a new book", (ran.returncode, ran.stderr), (0, b""))
        same("integrity of a new book", tables.sqlite(book, "PRAGMA integrity_check"), "ok\n")
        self.counts["begun"] += 1

    # what the book shows

    def shown(self, show):
        return [show(b"stock", who) for who in WHO] + [show(b"outbox", who) for who in WHO]

    def settle(self, candidates, show):
        """The state that the book is in, of those that it may be in. An entry whose answer is empty shows in no report, so sqlite3
        counts the entries, in a copy of the files as they lie there."""
        entries, got = self.entries(), self.shown(show)
        for candidate in candidates:
            pages = candidate.pages.values()
            if (entries == len(pages) + sum(len(page.out) for page in pages)
                    and got == [candidate.stock(who)[0] for who in WHO] + [candidate.outbox(who)[0] for who in WHO]):
                return candidate
        raise Wrong(f"neither with the interchange under way nor without it: {entries} entries, {got!r}")

    def by_command(self, name, who):
        return self.command(name.decode(), who.decode())

    def by_server(self, server):
        def show(name, who):
            status, body = server.get(b"/" + name + b"/" + who)
            same("status", status, 200)
            return body
        return show

    # a round

    def clerks(self):
        """Some acts of clerks, over the book as the kill left it."""
        day, r = self.day, self.r
        for _ in range(r.randint(0, 3)):
            who = r.choice(WHO)
            page, deed = day.book.pages[model.partner(who)], r.choice(["count", "pick", "recount"])
            wanted = [n for n in compare.NUMBERS if (page.advice(n) and not page.counted(n) if deed == "count" else page.order(n) and not page.picked(n))]
            target = r.choice(wanted) if wanted else b"N1"
            self.tickets += 1
            ticket, text, moment = b"T%d" % self.tickets, day.sheet(deed), day.moment()
            name = day.file(text, "csv")
            words = [deed, who.decode(), ticket.decode()] + ([] if deed == "recount" else [target.decode()]) + [name, "--at", moment]
            if r.random() < 0.5:
                self.cut(words, lambda book: book.clerk(deed, who, ticket, target, text, moment))  # noqa: B023
            same(" ".join(words), self.command(*words), day.book.clerk(deed, who, ticket, target, text, moment)[0])
            self.counts["acts"] += 1

    def cut(self, words, act):
        """Kills a clerk's command while it runs: the book is as before it, or as after it."""
        before, after = copy.deepcopy(self.day.book), copy.deepcopy(self.day.book)
        wanted = act(after)[0]
        was_killed, printed = self.killed(words, self.book, 0.03)
        if not was_killed:
            same("printed before the kill", printed, wanted)
        self.day.book = self.settle([before, after] if was_killed else [after], self.by_command)
        self.counts["cut"] += was_killed
        self.counts["cut in"] += was_killed and self.day.book is after

    def resend(self, server, moment):
        """Some of what was answered comes again: the stored answer, and nothing else."""
        for raw in self.r.sample(self.answered, min(len(self.answered), 5)):
            same("sent again", server.ask(post(raw)), answer(*self.day.book.send(raw, moment)))

    def take(self, server, moment):
        """Interchanges that are answered."""
        for _ in range(self.r.randint(0, 4)):
            raw = self.day.interchange(self.r.choice([b"ACME", b"BETA"]))
            same("answer", server.ask(post(raw)), answer(*self.day.book.send(raw, moment)))
            self.answered.append(raw)
            self.counts["answered"] += 1

    def interrupt(self, server, moment):
        """Kills the server while a request is under way: the states that the book may be in then."""
        raw = self.day.interchange(self.r.choice([b"ACME", b"BETA"]))
        before, after = copy.deepcopy(self.day.book), self.day.book
        wanted, request = answer(*after.send(raw, moment)), post(raw)
        part = self.r.random() < 0.2
        with server.connect() as stream:
            stream.sendall(request[:self.r.randrange(len(request))] if part else request)
            time.sleep(self.r.choice([0, self.r.uniform(0, 0.002), self.r.uniform(0, 0.02)]))
            server.kill()
            got = response(read_all(stream))
        if got is None:
            return [before, after]
        same("answer at the kill", got, wanted)
        self.answered.append(raw)
        return [after]

    def round(self, candidates):
        """Opens the book, looks at it, goes on and kills: the states that it may be in then."""
        moment, by_server = self.day.moment(), self.r.random() < 0.5
        if not by_server:
            self.day.book = self.settle(candidates, self.by_command)
            self.clerks()
        server = Server(self.program, self.book, moment)
        try:
            if by_server:
                self.day.book = self.settle(candidates, self.by_server(server))
            if len(candidates) == 2:
                self.counts["in" if self.day.book is candidates[1] else "out"] += 1
            self.resend(server, moment)
            self.take(server, moment)
            if self.r.random() < 0.3:
                server.kill()
                candidates = [self.day.book]
            else:
                candidates = self.interrupt(server, moment)
        finally:
            server.kill()
        return candidates

    # sqlite3

    def copied(self, name):
        """A copy of the book's files as they lie there, log and all."""
        path = os.path.join(self.folder, name)
        for end in ("", "-wal", "-shm"):
            if os.path.exists(path + end):
                os.remove(path + end)
            if end != "-shm" and os.path.exists(self.book + end):
                shutil.copyfile(self.book + end, path + end)
        return path

    def entries(self):
        """How many entries the files hold, which have to be a sound database to sqlite3, and to `verify` a book of which every
        table is what its register gives."""
        path = self.copied("copy")
        same("integrity of a copy", tables.sqlite(path, "PRAGMA integrity_check"), "ok\n")
        entries = int(tables.sqlite(path, "SELECT count(*) FROM entry"))
        ran = subprocess.run([self.program, "verify", "--book", self.copied("checked")], capture_output=True, check=False)
        same("verify", (ran.returncode, ran.stdout, ran.stderr), (0, b"ok %d\n" % entries, b""))
        self.counts["checked"] += 1
        return entries

    def end(self, candidates):
        """All that was answered is sent once more, and sqlite3 looks at the closed book."""
        self.day.book = self.settle(candidates, self.by_command)
        moment = self.day.moment()
        server = Server(self.program, self.book, moment)
        try:
            for raw in self.answered:
                same("sent again at the end", server.ask(post(raw)), answer(*self.day.book.send(raw, moment)))
        finally:
            server.kill()
        self.settle([self.day.book], self.by_command)
        same("integrity", tables.sqlite(self.book, "PRAGMA integrity_check"), "ok\n")
        for who in WHO:
            rows = tables.sqlite(self.book, "SELECT item, lot, expected, on_hand, reserved, shipped FROM stock "
                               f"WHERE who = '{who.decode()}' ORDER BY item, lot")
            page = self.day.book.pages[model.partner(who)]
            wanted = "".join("|".join([item.decode(), lot.decode(), *map(str, page.amounts((item, lot)))]) + "\n" for item, lot in page.pairs())
            same("stock rows", rows, wanted)


def main(words):
    rounds, seed = option(words, "--rounds", 200), option(words, "--seed", 1)
    program = program_in(words)
    folder = tempfile.mkdtemp(prefix="killed")
    try:
        run = Run(program, seed, folder)
        candidates = [run.day.book]
        for number in range(rounds):
            candidates = run.round(candidates)
            if number % 10 == 0:
                run.begin()
        run.end(candidates)
    except Wrong as wrong:
        print(f"{wrong}\nkept: {folder}")
        return 1
    counts = run.counts
    print(f"{rounds} kills of a server over one book: {counts['answered']} interchanges answered and there, {counts['acts']} acts of clerks; "
          f"of those under way {counts['in']} were in and {counts['out']} were not; {counts['cut']} kills of clerks' commands, of which "
          f"{counts['cut in']} were in; {counts['begun']} books begun and killed; {counts['checked']} times "
          "sqlite3 and verify say ok")
    shutil.rmtree(folder)
    return 0


if __name__ == "__main__":
    sys.exit(main(sys.argv[1:]))
