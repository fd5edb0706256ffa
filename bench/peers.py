#!/usr/bin/env python3
"""Good requests beside peers that are silent, slow or deaf: none of these holds up another.

Usage: bench/peers.py [--requests 1000] [--advices 34] [PROGRAM]
       (default: crates/whx12/out/whx12, which `rt run` in that folder leaves)

PROGRAM serves a book with 20 seconds of patience. First so many requests are timed alone. Then beside 200
peers that send nothing, 20 that send a byte a second of a good request, and one that asks for a stock of
some megabytes and reads nothing: the slowest good request takes at most a second longer. The slow ones are
answered too, when their request is whole, and the silent ones are told as 44 when their patience is over.
Then 300 silent peers come to a server with 32 places: the oldest idle ones leave, and good requests are
answered. What each good request got is what the first got. Status 1 where something differs.
"""
import os
import shutil
import socket
import subprocess
import sys
import tempfile
import time

from lib import LOOPBACK, Wrong, advice, figure, interchange, once, option, post_of, program_in, read_all, same, serve

RUN = {
    "tier": "night",
    "shows": "silent, slow and deaf peers hold up nobody: 200 of them beside 1,000 good requests",
    "needs": ["program"],
    "words": [""],
    "minutes": 1,
}
AT = ["--at", "2025-03-04T09:15"]
GOOD = b"GET /outbox/ZZ-ACME HTTP/1.1\r\nHost: 127.0.0.1\r\n\r\n"
LARGE = b"GET /stock/ZZ-ACME HTTP/1.1\r\nHost: 127.0.0.1\r\n\r\n"
PATIENCE = 20
SILENT, SLOW = 200, 20


def connect(port):
    """A connection to the server."""
    return socket.create_connection((LOOPBACK, port), timeout=60)


def slowest(port, count, wanted=None):
    """The most seconds that one of so many good requests takes; each gets what the first got."""
    most = 0.0
    for _ in range(count):
        seconds, answer = once(LOOPBACK, port, GOOD)
        wanted = wanted or answer
        same("a good request", answer, wanted)
        most = max(most, seconds)
    return most, wanted


def fill(program, folder, count):
    """A book with a depositor and a stock of some megabytes."""
    run = lambda *words: subprocess.run([program, *words, "--book", "book", *AT], cwd=folder, capture_output=True, text=True, check=False)
    same("init", run("init", "ZZ-WHSE1").returncode, 0)
    same("enrol", run("enrol", "ZZ-ACME").returncode, 0)
    for number in range(1, count + 1):
        lines = [(100, f"BOLT{number:02}", f"L{n:04}") for n in range(900)]
        with open(os.path.join(folder, "advice.x12"), "w", encoding="ascii") as file:
            file.write(interchange("AR", number, advice(f"SHP{number}", lines)))
        same("an advice", run("send", "advice.x12").returncode, 0)


def slow_ones(port):
    """Peers that have begun a good request."""
    return [(connect(port), bytearray(GOOD)) for _ in range(SLOW)]


def drip(peers):
    """Sends one more byte of each."""
    for peer, rest in peers:
        if rest:
            peer.sendall(bytes(rest[:1]))
            del rest[:1]


def beside(program, folder, count):
    """Good requests beside the others."""
    out = open(os.path.join(folder, "out"), "w+", encoding="ascii")
    server, port = serve(program, "book", "--patience", str(PATIENCE), *AT, cwd=folder, stdout=out)
    try:
        alone, wanted = slowest(port, count)
        silent = [connect(port) for _ in range(SILENT)]
        slow = slow_ones(port)
        deaf = socket.socket()
        deaf.setsockopt(socket.SOL_SOCKET, socket.SO_RCVBUF, 4096)
        deaf.connect((LOOPBACK, port))
        deaf.sendall(LARGE)
        most, began = 0.0, time.monotonic()
        for part in range(10):
            drip(slow)
            seconds, _ = slowest(port, count // 10, wanted)
            most = max(most, seconds)
        took = time.monotonic() - began
        if most > alone + 1:
            raise Wrong(f"the slowest good request took {most:.2f} s beside them, {alone:.2f} s alone")
        for peer, rest in slow:
            peer.sendall(bytes(rest))
            same("a slow request", read_all(peer), wanted)
        time.sleep(max(0.0, began + PATIENCE + 2 - time.monotonic()))
        once(LOOPBACK, port, GOOD)
        for peer in silent:
            peer.settimeout(5)
            same("a silent peer", peer.recv(10), b"")
        deaf.close()
    finally:
        server.terminate()
        server.wait()
    out.seek(0)
    told = out.read().splitlines()
    same("silent peers told", told.count("fault 44 Device"), SILENT)
    figure("slowest good request alone", alone * 1000, "ms")
    figure("slowest good request beside 221 bad peers", most * 1000, "ms")
    return f"{count} good requests beside {SILENT + SLOW + 1} bad peers in {took:.1f} s, slowest {most * 1000:.0f} ms ({alone * 1000:.0f} alone)"


def crowded(program, folder):
    """More silent peers than there are places."""
    server, port = serve(program, "book", "--peers", "32", *AT, cwd=folder)
    try:
        silent = []
        for _ in range(300):
            silent.append(connect(port))
        most, _ = slowest(port, 100)
        if most > 1:
            raise Wrong(f"a good request in a crowd took {most:.2f} s")
        body = interchange("AR", 9001, advice("SHP9001", [(5, "BOLT", "L1")])).encode()
        _, answer = once(LOOPBACK, port, post_of(body))
        same("a post in a crowd", answer.split(b"\r\n")[0], b"HTTP/1.1 200 OK")
    finally:
        server.terminate()
        server.wait()
    return f"300 silent peers at 32 places: a good request in at most {most * 1000:.0f} ms"


def main():
    words = sys.argv[1:]
    count, advices = option(words, "--requests", 1000), option(words, "--advices", 34)
    program = program_in(words)
    folder = tempfile.mkdtemp(prefix="peers")
    try:
        fill(program, folder, advices)
        print(beside(program, folder, count))
        print(crowded(program, folder))
    except Wrong as wrong:
        print(f"{wrong}: see {folder}", file=sys.stderr)
        return 1
    shutil.rmtree(folder)
    return 0


if __name__ == "__main__":
    sys.exit(main())
