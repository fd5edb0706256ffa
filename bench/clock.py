#!/usr/bin/env python3
"""Runs the program with a clock that is set by hand.

Usage: bench/clock.py [PROGRAM]     (default: crates/whx12/out/whx12, which `rt run` in that folder leaves)

A library put before the C library's answers clock_gettime with the seconds that a file holds. Outside
the years 2000 to 2099 a command that takes its moment from the clock is a usage fault, and nothing is
done; in them the answer has the clock's moment. A server tells of a clock that shows a moment before the
last entry, and where the clock leaves it in the lurch goes on with the last good moment. The status is 1 where something is otherwise.
"""
import calendar
import os
import socket
import subprocess
import sys
import tempfile
import time

import lib
from lib import program_of, same

RUN = {
    "tier": "night",
    "shows": "a clock outside the years that the program takes, at its start and while a "
             "server runs",
    "needs": ["program", "gcc"],
    "words": [""],
    "minutes": 0.3,
}
SHIM = r"""
#define _GNU_SOURCE
#include <stdio.h>
#include <stdlib.h>
#include <time.h>
int clock_gettime(clockid_t clock, struct timespec *at) {
  FILE *file = fopen(getenv("CLOCK_FILE"), "r");
  long long seconds = 0;
  (void)clock;
  if (!file || fscanf(file, "%lld", &seconds) != 1) abort();
  fclose(file);
  at->tv_sec = seconds;
  at->tv_nsec = 0;
  return 0;
}
"""
TOLD = "the clock is not in the years 2000 to 2099\n"
BACK = "the clock shows 2025-03-04T09:15, before the last entry's 2099-12-31T23:59\n"
BAD = [(1999, 12, 31, 23, 59), (2100, 1, 1, 0, 0)]
GOOD = [(2000, 1, 1, 0, 0), (2099, 12, 31, 23, 59)]


def advice(n):
    """A 943 of one line under a control number and a shipment number of its own."""
    return lib.interchange("AR", n, lib.advice(f"SHP{n}", [(5, "BOLT", "L1")]))


class House:
    """A book in a folder, and the clock."""

    def __init__(self, program, folder):
        self.program, self.book, self.clock = program, f"{folder}/house.book", f"{folder}/clock"
        source, library = f"{folder}/clock.c", f"{folder}/clock.so"
        with open(source, "w", encoding="ascii") as file:
            file.write(SHIM)
        subprocess.run(["gcc", "-shared", "-fPIC", "-O1", "-o", library, source], check=True)
        self.environment = dict(os.environ, LD_PRELOAD=library, CLOCK_FILE=self.clock)
        self.folder = folder

    def set(self, moment):
        """Sets the clock, all of it at once."""
        with open(f"{self.clock}.new", "w", encoding="ascii") as file:
            file.write(str(calendar.timegm((*moment, 0))))
        os.replace(f"{self.clock}.new", self.clock)

    def run(self, *words):
        ran = subprocess.run([self.program, *words, "--book", self.book], env=self.environment, capture_output=True, text=True, check=False)
        return ran.returncode, ran.stdout, ran.stderr

    def send(self, n):
        with open(f"{self.folder}/text", "w", encoding="ascii") as file:
            file.write(advice(n))
        return self.run("send", f"{self.folder}/text")

    def serve(self, port, count):
        words = [self.program, "serve", "--listen", f"127.0.0.1:{port}", "--count", str(count), "--book", self.book]
        return subprocess.Popen(words, env=self.environment, stdout=subprocess.PIPE, stderr=subprocess.PIPE, text=True)


def stamp(moment):
    """The date and the time in an answer's ISA."""
    return "{:02d}{:02d}{:02d}*{:02d}{:02d}".format(moment[0] % 100, *moment[1:])


def stamped(answer):
    return answer[70:81]


def connected(port):
    """A connection to the server, which may still be starting."""
    for _ in range(100):
        try:
            return socket.create_connection(("127.0.0.1", port), timeout=10)
        except ConnectionRefusedError:
            time.sleep(0.05)
    sys.exit("nobody listens")


def post(port, n):
    """The body of the response to an advice."""
    body = advice(n).encode()
    with connected(port) as peer:
        peer.sendall(b"POST /x12 HTTP/1.1\r\nHost: localhost\r\nContent-Length: %d\r\n\r\n" % len(body) + body)
        read = b""
        while part := peer.recv(65536):
            read += part
    return read.partition(b"\r\n\r\n")[2].decode()


def commands(house):
    house.set(GOOD[0])
    same("init", house.run("init", "ZZ-WHSE1"), (0, "", ""))
    for moment in BAD:
        house.set(moment)
        same(f"enrol at {moment}", house.run("enrol", "ZZ-ACME"), (2, "", TOLD))
    same("who is enrolled", house.run("stock", "ZZ-ACME")[0], 1)
    house.set(GOOD[0])
    same("enrol", house.run("enrol", "ZZ-ACME"), (0, "", ""))
    for n, moment in enumerate(GOOD, 1):
        house.set(moment)
        status, answer, told = house.send(n)
        same(f"send at {moment}", (status, stamped(answer), told), (0, stamp(moment), ""))


def server(house):
    with socket.socket() as probe:
        probe.bind(("127.0.0.1", 0))
        port = probe.getsockname()[1]
    house.set(BAD[1])
    ended = house.serve(port, 1)
    same("a server at a bad moment", (*ended.communicate(timeout=20), ended.returncode), ("", TOLD, 2))
    first, later = (2025, 3, 4, 9, 15), (2025, 3, 4, 10, 0)
    house.set(first)
    serving = house.serve(port, 4)
    same("the first", stamped(post(port, 3)), stamp(first))
    house.set(BAD[1])
    same("at a bad moment", stamped(post(port, 4)), stamp(first))
    house.set(later)
    same("later", stamped(post(port, 5)), stamp(later))
    house.set(BAD[0])
    same("at a bad moment again", stamped(post(port, 6)), stamp(later))
    same("the server", (*serving.communicate(timeout=20), serving.returncode), ("200\n" * 4, BACK, 0))


def main(words):
    program = program_of(words[0] if words else None)
    with tempfile.TemporaryDirectory(prefix="whx12-clock-") as folder:
        house = House(program, folder)
        commands(house)
        server(house)
    print(f"{len(BAD)} clocks are refused, {len(GOOD)} are taken, and a server goes on with its last good moment")


if __name__ == "__main__":
    main(sys.argv[1:])
