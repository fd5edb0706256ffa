#!/usr/bin/env python3
"""Gives commands while the book is in use: each waits for it, as long as it is told to.

Usage: bench/waiting.py [--processes N] [PROGRAM]
       (default: 40 processes, crates/whx12/out/whx12, which `rt run` in that folder leaves)

  - Many processes enrol a depositor each, all at once: every one of them ends with 0, and each depositor
    is in the book once.
  - A server has the book. A command with `--wait 1` is refused it after a second (44), one with `--wait
    0` at once.
  - A command that waits while the server ends is done then.

The status is 1 where something is otherwise.
"""
import os
import socket
import subprocess
import sys
import tempfile
import time

from lib import Wrong, free_port, option, program_in

RUN = {
    "tier": "night",
    "shows": "commands wait for a book in use as long as they are told to; forty at once all "
             "come in",
    "needs": ["program"],
    "words": [""],
    "minutes": 0.5,
}
FAULT = b"fault 44 Device\n"


def expect(what, is_so, *told):
    if not is_so:
        raise Wrong(what, *told)


def many_at_once(program, count):
    """Enrolments by so many processes, which all want the book."""
    names = [f"ZZ-D{n:04d}" for n in range(count)]
    running = [subprocess.Popen([program, "enrol", name, "--book", "a.book", "--wait", "60"]) for name in names]
    ended = [one.wait() for one in running]
    expect("an enrolment wasn't done", ended == [0] * count, ended)
    again = [subprocess.run([program, "enrol", name, "--book", "a.book"], capture_output=True, check=False).stderr for name in names]
    expect("a depositor isn't in the book", again == [b"refused 35 AlreadyEnrolled\n"] * count, again)
    checked = subprocess.run([program, "verify", "--book", "a.book"], capture_output=True, check=False)
    expect("the book isn't whole", checked.stdout == b"ok %d\n" % count, checked)


def served(program):
    """A server that has the book, once it listens."""
    port = free_port()
    words = [program, "serve", "--book", "a.book", "--listen", f"127.0.0.1:{port}", "--count", "9"]
    server = subprocess.Popen(words, stdout=subprocess.DEVNULL)
    for _ in range(100):
        with socket.socket() as it:
            if it.connect_ex(("127.0.0.1", port)) == 0:
                return server
        time.sleep(0.05)
    raise Wrong("nobody listens")


def while_served(program):
    """Commands while a server has the book, and after it ended."""
    server = served(program)
    for seconds in (0, 1):
        start = time.time()
        ran = subprocess.run([program, "stock", "ZZ-D0000", "--book", "a.book", "--wait", str(seconds)], capture_output=True, check=False)
        took = time.time() - start
        expect("a book in use", (ran.returncode, ran.stdout, ran.stderr) == (3, b"", FAULT), ran)
        expect("how long it waited", seconds <= took < seconds + 1, took)
    waiting = subprocess.Popen([program, "enrol", "ZZ-LAST", "--book", "a.book", "--wait", "30"])
    time.sleep(0.5)
    expect("it didn't wait", waiting.poll() is None)
    server.kill()
    server.wait()
    expect("it wasn't done after the server ended", waiting.wait() == 0)


def main(words):
    count = option(words, "--processes", 40)
    program = program_in(words)
    with tempfile.TemporaryDirectory(prefix="whx12-waiting-") as folder:
        os.chdir(folder)
        try:
            subprocess.run([program, "init", "ZZ-HOUSE", "--book", "a.book"], check=True)
            many_at_once(program, count)
            while_served(program)
        except Wrong as wrong:
            print(*wrong.args)
            return 1
        finally:
            os.chdir("/")
    print(f"{count} processes at once, a server, and one that waited for its end: as they must be")
    return 0


if __name__ == "__main__":
    sys.exit(main(sys.argv[1:]))
