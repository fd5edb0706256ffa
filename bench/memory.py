#!/usr/bin/env python3
"""Refuses each allocation of each command of the program in turn, and of a server.

Usage: bench/memory.py [--most N] [--only NAME] [PROGRAM]
       (default: all allocations, crates/whx12/out/whx12, which `rt run` in that folder leaves)

A library put before the C library's (allocations.py) lets the Nth call of malloc or realloc answer that
there is no memory, for N = 1, 2, .. up to as many as a command makes (or N evenly chosen ones under
--most), a process each, over a copy of the book as it stood before the command. Each process must end by
itself, either as it does with ample memory, byte for byte, or with `fault 40 OutOfMemory` and status 3.
The command given again, with memory, then prints what it must: its own text, or the stored one, which
are the same; `init` may find the book already made, and `enrol` the depositor enrolled. After that
`verify` says ok, and stock and outbox are as after the command.

A server is asked by one request of each route: the response is the right one, or a 503 with `40
OutOfMemory`; or nobody listens, and it ended with 40. The request sent again to a server with memory
gets the right response. The status is 1 where something differs; the folder is then kept.
"""
import os
import shutil
import socket
import subprocess
import sys
import tempfile
import time

import allocations
from lib import Wrong, free_port, option, program_in

RUN = {
    "tier": "night",
    "shows": "each allocation of each command, and of a server for each route, is refused in turn",
    "needs": ["program", "gcc"],
    "words": ["--most 40"],
    "minutes": 15,
}
AT = ["--at", "2025-03-04T09:15"]
BOOK = ["--book", "book"]
HEAD = (b"ISA*00*          *00*          *ZZ*ACME           *ZZ*WHSE1          *250304*0915*U*00401*%09d*%d*P*>~"
        b"GS*%s*ACME*WHSE1*20250304*0915*%d*X*004010~")
END = b"GE*1*%d~IEA*1*%09d~"
ADVICE = HEAD % (1, 1, b"AR", 1) + b"ST*943*0001~W06*F*PO77*20250303*SHP1~W04*100*EA**SK*BOLT~N9*LT*L1~W03*100~SE*6*0001~" + END % (1, 1)
ORDER = HEAD % (2, 0, b"OW", 2) + b"ST*940*0001~W05*N*ORD1~LX*1~W01*60*EA**SK*BOLT~W76*60~SE*6*0001~" + END % (2, 2)
FILES = {"advice.x12": ADVICE, "order.x12": ORDER, "count.csv": b"BOLT,L1,90\n", "pick.csv": b"BOLT,L1,60\n", "recount.csv": b"BOLT,L1,28\n",
         "roster.toml": b'depositors = ["ZZ-BETA", "ZZ-GAMMA"]\n'}
# each after those before it, by name
COMMANDS = [
    ("init", ["init", "ZZ-WHSE1"]), ("enrol", ["enrol", "ZZ-ACME"]), ("roster", ["roster", "roster.toml"]), ("send", ["send", "advice.x12"]),
    ("count", ["count", "ZZ-ACME", "T1", "SHP1", "count.csv"]), ("take", ["take", "inbox"]), ("orders", ["orders", "ZZ-ACME", "ORD1"]),
    ("pick", ["pick", "ZZ-ACME", "T2", "ORD1", "pick.csv"]), ("recount", ["recount", "ZZ-ACME", "T3", "recount.csv"]),
    ("stock", ["stock", "ZZ-ACME"]), ("csv", ["stock", "ZZ-ACME", "--csv"]), ("outbox", ["outbox", "ZZ-ACME"]),
    ("number", ["outbox", "ZZ-ACME", "--number", "4"]), ("verify", ["verify"]),
]
# what a command that was kept says when it is given again, where that isn't what it said at first
AGAIN = {"init": (b"", b"fault 43 NotThisBook\n", 3), "enrol": (b"", b"refused 35 AlreadyEnrolled\n", 1),
         "roster": (b"ZZ-BETA refused 35\nZZ-GAMMA refused 35\n", b"", 1), "take": (b"order.x12 stored\n", b"", 0)}
POST = b"POST /x12 HTTP/1.1\r\nHost: localhost\r\nContent-Length: %d\r\n\r\n%s"
ROUTES = [("post", POST % (len(ADVICE), ADVICE)), ("post order", POST % (len(ORDER), ORDER)), ("get stock", b"GET /stock/ZZ-ACME HTTP/1.1\r\n\r\n"),
          ("get outbox", b"GET /outbox/ZZ-ACME HTTP/1.1\r\n\r\n"), ("get text", b"GET /outbox/ZZ-ACME/1 HTTP/1.1\r\n\r\n"), ("no route", b"GET / HTTP/1.1\r\n\r\n")]
NO_MEMORY = b"HTTP/1.1 503 Service Unavailable\r\nContent-Type: text/plain\r\nContent-Length: 15\r\nConnection: close\r\n\r\n40 OutOfMemory\n"


class House:
    """A folder with a book and the files that are handed in."""

    def __init__(self, program, library):
        self.program, self.library = program, library
        self.folder = tempfile.mkdtemp(prefix="memory")
        for name, content in FILES.items():
            with open(os.path.join(self.folder, name), "wb") as file:
                file.write(content)
        self.inbox()

    def inbox(self):
        """The folder with the order alone."""
        shutil.rmtree(os.path.join(self.folder, "inbox"), ignore_errors=True)
        os.mkdir(os.path.join(self.folder, "inbox"))
        shutil.copy(os.path.join(self.folder, "order.x12"), os.path.join(self.folder, "inbox"))

    def run(self, words, **more):
        """One process: what it printed, what it told, its status."""
        environment = dict(os.environ, LD_PRELOAD=self.library, **more) if more else None
        timed = [] if words[0] == "verify" else AT
        ran = subprocess.run([self.program, *words, *BOOK, *timed], cwd=self.folder, env=environment, capture_output=True, timeout=60, check=False)
        return ran.stdout, ran.stderr, ran.returncode

    def keep(self):
        """The files of the book as they stand."""
        return {name: open(os.path.join(self.folder, name), "rb").read() for name in ("book", "book-wal") if os.path.exists(os.path.join(self.folder, name))}

    def put_back(self, files):
        for name in ("book", "book-wal"):
            if os.path.exists(os.path.join(self.folder, name)):
                os.remove(os.path.join(self.folder, name))
        for name, content in files.items():
            with open(os.path.join(self.folder, name), "wb") as file:
                file.write(content)

    def state(self):
        """What the book shows."""
        said = [self.run(words) for words in (["stock", "ZZ-ACME"], ["outbox", "ZZ-ACME"], ["verify"])]
        return said


def calls_of(told):
    """The text without the line that counts calls, and their number."""
    text, _, count = told.rpartition(b"\ncalls=")
    return text, int(count)


def swept(house, name, words, most):
    """Refuses each allocation of a command in turn."""
    before = house.keep()
    if name == "take":
        house.inbox()
    out, told, status = house.run(words, TELL_CALLS="1")
    told, calls = calls_of(told)
    right, after, state = (out, told, status), house.keep(), house.state()
    if status:
        raise Wrong(f"{name}: {right!r}")
    refused = 0
    places = range(1, calls + 1, max(1, -(-calls // most)))
    for place in places:
        house.put_back(before)
        if name == "take":
            house.inbox()
        got = house.run(words, FAIL_AT=str(place))
        if got != right:
            refused += 1
            if got[1:] != (b"fault 40 OutOfMemory\n", 3) or (got[0] and name != "roster"):
                raise Wrong(f"{name}, allocation {place}: {got!r}: {house.folder}")
            again = house.run(words)
            if again not in (right, AGAIN.get(name, right)) and not (name == "roster" and again[2] == 1):
                raise Wrong(f"{name}, allocation {place}, given again: {again!r}: {house.folder}")
        if house.state() != state:
            raise Wrong(f"{name}, allocation {place}: {house.state()!r}: {house.folder}")
        if name == "take" and open(os.path.join(house.folder, "inbox", "order.x12.ans"), "rb").read()[:3] != b"ISA":
            raise Wrong(f"take, allocation {place}: no answer: {house.folder}")
    house.put_back(after)
    print(f"{name}: {calls} allocations, {len(places)} refused in turn, {refused} ended with 40, none wrong", flush=True)


def asked(house, request, **more):
    """A server of one connection: the response to the request, or None where nobody listens; and how it ended."""
    port = free_port()
    environment = dict(os.environ, LD_PRELOAD=house.library, **more)
    server = subprocess.Popen([house.program, "serve", *BOOK, *AT, "--listen", f"127.0.0.1:{port}", "--count", "1"], cwd=house.folder, env=environment,
                              stdout=subprocess.PIPE, stderr=subprocess.PIPE)
    got, deadline = None, time.time() + 20
    while time.time() < deadline:
        try:
            with socket.create_connection(("127.0.0.1", port), 5) as stream:
                stream.sendall(request)
                stream.shutdown(socket.SHUT_WR)
                pieces = []
                while piece := stream.recv(65536):
                    pieces.append(piece)
                got = b"".join(pieces)
            break
        except ConnectionRefusedError:
            if server.poll() is not None:
                break
            time.sleep(0.002)
    out, told = server.communicate(timeout=20)
    return got, out, told, server.returncode


def served(house, name, request, most):
    """Refuses each allocation of a server of one request in turn."""
    before = house.keep()
    got, out, told, status = asked(house, request, TELL_CALLS="1")
    told, calls = calls_of(told)
    right, after, state = got, house.keep(), house.state()
    if status:
        raise Wrong(f"{name}: {told!r}")
    refused = 0
    places = range(1, calls + 1, max(1, -(-calls // most)))
    for place in places:
        house.put_back(before)
        got, out, told, status = asked(house, request, FAIL_AT=str(place))
        if got != right:
            refused += 1
            if got is None and (told, status) != (b"fault 40 OutOfMemory\n", 3) or got is not None and got != NO_MEMORY:
                raise Wrong(f"{name}, allocation {place}: {got!r} {out!r} {told!r} {status}: {house.folder}")
            again = asked(house, request, TELL_CALLS="1")[0]
            if again != right:
                raise Wrong(f"{name}, allocation {place}, sent again: {again!r}: {house.folder}")
        elif status not in (0, 3) or status == 3 and told != b"fault 40 OutOfMemory\n":
            raise Wrong(f"{name}, allocation {place}: {told!r} {status}: {house.folder}")
        if house.state() != state:
            raise Wrong(f"{name}, allocation {place}: {house.state()!r}: {house.folder}")
    house.put_back(after)
    print(f"{name}: {calls} allocations, {len(places)} refused in turn, {refused} answered 40, none wrong", flush=True)


def main(words):
    most, only = option(words, "--most", 1_000_000), option(words, "--only", "")
    program = program_in(words)
    with tempfile.TemporaryDirectory() as built:
        library = allocations.built(built)
        house = House(program, library)
        try:
            for name, line in COMMANDS:
                if only in ("", name):
                    swept(house, name, line, most)
                else:
                    house.run(line)
            house.put_back({})
            for line in (["init", "ZZ-WHSE1"], ["enrol", "ZZ-ACME"]):
                house.run(line)
            for name, request in ROUTES:
                if only in ("", name):
                    served(house, name, request, most)
                else:
                    asked(house, request, TELL_CALLS="1")
        except Wrong as wrong:
            print(wrong)
            return 1
    shutil.rmtree(house.folder)
    return 0


if __name__ == "__main__":
    sys.exit(main(sys.argv[1:]))
