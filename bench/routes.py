#!/usr/bin/env python3
"""Asks the server by curl, and measures it on loopback.

Usage: bench/routes.py [PROGRAM]
       (default: crates/whx12/out/whx12, which `rt run` in that folder leaves)
              bench/routes.py --at HOST:PORT   (a server that runs already, over a new book of ZZ-WHSE1 with
           ZZ-ACME enrolled)

PROGRAM makes a book in a new folder and serves it: `init`, `enrol`, and `serve --listen 127.0.0.1:PORT
--count N`. First each request of REQUESTS is sent by curl and its response compared, head and body, with
what the rules of the house give; a date and a time that the clock gave are passed over. Then the same
requests are sent over and over, a connection each and one after the other: the stock report of a
depositor, and an interchange that was accepted before. Python's http.server serves a file of the
report's bytes in the same way. Printed are requests a second, and the median and the 99th percentile of
the time from the connection to its end. Then a peer is reset in the middle of its request, which is told
as fault 44, and the server goes on; peers that send a body which nobody reads get their refusal all the
same; and among 200 good peers 50 say nothing and 50 send a byte now and then: each of these is told as
fault 44 after the patience of a second, and every good one is answered. A server whose book is removed,
moved away or replaced by another file ends with fault 44 at the next connection, which it doesn't
answer. The status is 1 where something differs.
"""
import os
import random
import re
import shutil
import socket
import struct
import subprocess
import sys
import tempfile
import threading
import time

import lib
from lib import figure, free_port, interchange, isa, knock, once, program_of

RUN = {
    "tier": "night",
    "shows": "each route asked by curl; requests a second; peers that are reset, silent, slow "
             "or not read to their end",
    "needs": ["program", "curl"],
    "words": [""],
    "minutes": 2,
}
ROUNDS = 2000
FIGURES = {"stock report": "stock report", "interchange, known": "known interchange",
           "Python's http.server, a file": "Python's http.server, a file"}
PLAIN, X12 = "text/plain", "application/EDI-X12"
STOCK = ("item                 lot          expiry          expected         on hand        reserved         shipped\n"
         "BOLT                 L1                                100               0               0               0\n")


def advice(quantity):
    """A 943 of one line under control number 1: 255 bytes."""
    return interchange("AR", 1, lib.advice("SHP1", [(quantity, "BOLT", "L1")]), wants=1)


ANSWER = (isa("WHSE1", "ACME", 1) + "TA1*000000001*250304*0915*A*000~"
          "GS*FA*WHSE1*ACME*20250304*0915*1*X*004010~ST*997*0001~AK1*AR*1~AK2*943*0001~AK5*A~AK9*A*1*1*1~SE*6*0001~"
          "GE*1*1~IEA*1*000000001~")
REFUSAL = isa("WHSE1", "ACME", 0) + "TA1*000000001*250304*0915*R*025~IEA*0*000000000~"
ACKNOWLEDGMENT = (isa("ACME", "WHSE1", 3) + "GS*FA*ACME*WHSE1*20250304*0915*3*X*004010~ST*997*0001~"
                  "AK1*SW*4~AK2*945*0001~AK5*A~AK9*A*1*1*1~SE*6*0001~GE*1*3~IEA*1*000000003~")


def response(status, kind, body, allow=""):
    """A response with a body."""
    return (f"HTTP/1.1 {status}\r\nContent-Type: {kind}\r\nContent-Length: {len(body)}\r\n{allow}Connection: close\r\n\r\n{body}")


def told(status, allow=""):
    """A response that says its status and no more."""
    return response(status, PLAIN, status + "\n", allow)


# A name, curl's words, the body that is posted, and the response.
REQUESTS = [
    ("no length of its own", ["-H", "Content-Length:", "-X", "POST"], None, told("411 Length Required")),
    ("the first 105 bytes", [], advice(100)[:105], response("400 Bad Request", PLAIN, "1 Unreadable\n")),
    ("an advice", [], advice(100), response("200 OK", X12, ANSWER)),
    ("the same again", [], advice(100), response("200 OK", X12, ANSWER)),
    ("another under its number", [], advice(101), response("409 Conflict", X12, REFUSAL)),
    ("an acknowledgment", [], ACKNOWLEDGMENT, "HTTP/1.1 204 No Content\r\nConnection: close\r\n\r\n"),
    ("a body in chunks", ["-H", "Transfer-Encoding: chunked"], advice(100), told("501 Not Implemented")),
    ("another method", "/x12", None, told("405 Method Not Allowed", "Allow: POST\r\n")),
    ("stock", "/stock/ZZ-ACME", None, response("200 OK", PLAIN, STOCK)),
    ("outbox", "/outbox/ZZ-ACME", None, response("200 OK", PLAIN, "     1 ANS -\n")),
    ("a text of the outbox", "/outbox/ZZ-ACME/1", None, response("200 OK", X12, ANSWER)),
    ("a number with a zero", "/outbox/ZZ-ACME/01", None, told("404 Not Found")),
    ("a stranger", "/stock/ZZ-NONE", None, told("404 Not Found")),
    ("no route", "/", None, told("404 Not Found")),
]


def undated(text):
    """The text without the dates and times that a clock gave."""
    text = re.sub(r"\*\d{6}\*\d{4}\*U\*", "*DATE*TIME*U*", text)
    return re.sub(r"(GS\*FA\*WHSE1\*ACME)\*\d{8}\*\d{4}\*", r"\1*DATE*TIME*", text)


def ask(address, words, body):
    """What curl gets."""
    path = words if isinstance(words, str) else "/x12"
    command = ["curl", "--silent", "--include", "--http1.1", "--max-time", "20", "--header", "Expect:"]
    if not isinstance(words, str):
        command += words
    if body is not None:
        command += ["--data-binary", "@-"]
    command.append(f"http://{address}{path}")
    got = subprocess.run(command, input=(body or "").encode(), capture_output=True, check=False)
    return got.stdout.decode("latin-1")


def measure(name, address, request, rounds):
    """Requests a second, and the times of the middle and of the slowest hundredth."""
    host, port = address.split(":")
    times, start = [], time.perf_counter()
    for _ in range(rounds):
        times.append(once(host, int(port), request)[0])
    whole = time.perf_counter() - start
    times.sort()
    print(f"{name:28} {rounds / whole:9.0f} a second   {times[rounds // 2] * 1e3:7.2f} ms   {times[rounds * 99 // 100] * 1e3:7.2f} ms")
    figure(f"{FIGURES[name]} over HTTP", rounds / whole, "requests/s")


def compare(address):
    """Whether each response is the one that is wanted."""
    good = True
    for name, words, body, wanted in REQUESTS:
        got = ask(address, words, body)
        if undated(got) != undated(wanted):
            good = False
            print(f"{name}: wanted {wanted!r}, got {got!r}")
    print(f"{len(REQUESTS)} requests by curl: {'as wanted' if good else 'NOT as wanted'}")
    return good


def load(address, folder):
    """Times of the server, and of Python's own."""
    body = advice(100).encode()
    figure("load", os.getloadavg()[0], "running")
    measure("stock report", address, b"GET /stock/ZZ-ACME HTTP/1.1\r\nHost: localhost\r\n\r\n", ROUNDS)
    measure("interchange, known", address, b"POST /x12 HTTP/1.1\r\nHost: localhost\r\nContent-Length: 255\r\n\r\n" + body, ROUNDS)
    with open(os.path.join(folder, "stock"), "w", encoding="ascii") as file:
        file.write(STOCK)
    port = free_port()
    python = subprocess.Popen([sys.executable, "-m", "http.server", "--bind", "127.0.0.1", "--directory", folder, str(port)],
                              cwd=folder, stdout=subprocess.DEVNULL, stderr=subprocess.DEVNULL)
    try:
        knock(port)
        measure("Python's http.server, a file", f"127.0.0.1:{port}", b"GET /stock HTTP/1.1\r\nHost: localhost\r\n\r\n", ROUNDS)
    finally:
        python.terminate()
        python.wait()


def reset(address):
    """A peer that is reset in the middle of its request. The server may still be starting."""
    host, port = address.split(":")
    for _ in range(200):
        try:
            with socket.create_connection((host, int(port)), 1) as peer:
                peer.sendall(b"POST /x12 HTTP/1.1\r\nContent-Length: 255\r\n\r\nISA")
                peer.setsockopt(socket.SOL_SOCKET, socket.SO_LINGER, struct.pack("ii", 1, 0))
            return
        except ConnectionRefusedError:
            time.sleep(0.05)
    sys.exit(f"nobody listens at {address}")


def tells_a_reset(program, book):
    """Whether a server tells a peer that is reset, and serves on."""
    address = f"127.0.0.1:{free_port()}"
    words = [program, "serve", *book, "--listen", address, "--count", "2"]
    with subprocess.Popen(words, stdout=subprocess.PIPE, text=True) as server:
        reset(address)
        host, port = address.split(":")
        once(host, int(port), b"GET /stock/ZZ-ACME HTTP/1.1\r\nHost: localhost\r\n\r\n")
        told = server.communicate(timeout=20)[0]
    good = sorted(told.splitlines()) == ["200", "fault 44 Device"]
    print("a peer that is reset is told as fault 44" if good else f"a peer that is reset: {told!r}")
    return good


def is_told_why(program, book):
    """Whether peers whose bodies nobody reads get the response that says why."""
    address = f"127.0.0.1:{free_port()}"
    host, port = address.split(":")
    large = b"A" * 1_500_000
    cases = [(b"POST /nowhere HTTP/1.1\r\nContent-Length: 1500000\r\n\r\n" + large, b"404"), (b"POST /x12 HTTP/1.1\r\nContent-Length: 1500000\r\n\r\n" + large, b"413"),
             (b"POST /x12 HTTP/1.1\r\nTransfer-Encoding: chunked\r\n\r\n" + large, b"501"), (b"POST /x12 HTTP/1.1\r\nX: " + large, b"400")]
    words = [program, "serve", *book, "--listen", address, "--count", str(1 + len(cases))]
    with subprocess.Popen(words, stdout=subprocess.PIPE, text=True) as server:
        knock(address.split(":")[1])
        got = [once(host, int(port), request)[1][9:12] for request, _ in cases]
        server.communicate(timeout=20)
    good = got == [status for _, status in cases]
    print("bodies that nobody reads are refused as wanted" if good else f"bodies that nobody reads: {got!r}")
    return good


def unanswered(host, port):
    """What a peer gets that hands in an interchange: nothing, where it isn't admitted."""
    with socket.create_connection((host, port), 5) as peer:
        body = advice(7).encode()
        try:
            peer.sendall(b"POST /x12 HTTP/1.1\r\nContent-Length: %d\r\n\r\n" % len(body) + body)
            return peer.recv(4096)
        except ConnectionResetError:
            return b""


def ends_when_replaced(program, book):
    """Whether a server whose book is removed, moved away or replaced by a backup ends with 44 and answers nothing more."""
    good = True
    for name, change in {
        "removed": lambda file, other: os.remove(file),
        "moved away": lambda file, other: os.rename(file, file + ".aside"),
        "replaced": lambda file, other: os.replace(other, file),
        "its folder renamed": lambda file, other: os.rename(os.path.dirname(file), os.path.dirname(file) + ".aside"),
    }.items():
        with tempfile.TemporaryDirectory() as top:
            folder = os.path.join(top, "house")
            os.mkdir(folder)
            file, other = os.path.join(folder, "book"), os.path.join(top, "backup")
            for to in (file, other):
                shutil.copyfile(book[1], to)
            address = f"127.0.0.1:{free_port()}"
            host, port = address.split(":")
            words = [program, "serve", "--book", file, "--listen", address, "--count", "9", "--explain"]
            with subprocess.Popen(words, stdout=subprocess.PIPE, stderr=subprocess.PIPE, text=True) as server:
                knock(address.split(":")[1])
                before = once(host, int(port), b"GET /stock/ZZ-ACME HTTP/1.1\r\nHost: localhost\r\n\r\n")[1][9:12]
                change(file, other)
                got = unanswered(host, int(port))
                out, err = server.communicate(timeout=20)
            wanted = f"fault 44 Device\n{file} was removed or replaced while it was served: look for what was answered since, then serve it again\n"
            if (before, got, out[-4:], server.returncode) != (b"200", b"", "200\n", 3) or not err.endswith(wanted):
                print(f"a book that is {name}: {before!r} {got!r} {out!r} {err!r} {server.returncode}")
                good = False
    if good:
        print("a server whose book is removed, moved or replaced ends with 44, and answers nothing more")
    return good


def silent(host, port):
    """A peer that says nothing until the server ends the connection."""
    with socket.create_connection((host, port), 600) as stream:
        stream.settimeout(600)
        try:
            return stream.recv(1)
        except OSError:
            return b""


def trickling(host, port):
    """A peer that sends a byte five times a second."""
    with socket.create_connection((host, port), 600) as stream:
        stream.settimeout(0.2)
        for byte in b"POST /x12 HTTP/1.1\r\n" + b"X: y\r\n" * 1000:
            try:
                stream.sendall(bytes([byte]))
                if stream.recv(1) == b"":
                    break
            except TimeoutError:
                continue
            except OSError:
                break
        return b""


def asking(host, port):
    """A good peer: its response, for which it waits as long as the others take."""
    with socket.create_connection((host, port), 600) as stream:
        stream.settimeout(600)
        stream.sendall(b"GET /stock/ZZ-ACME HTTP/1.1\r\nHost: localhost\r\n\r\n")
        pieces = []
        while piece := stream.recv(65536):
            pieces.append(piece)
        return b"".join(pieces)


def outlasts_the_idle(program, book):
    """Whether every good peer is answered among silent and trickling ones, which are cut off."""
    address = f"127.0.0.1:{free_port()}"
    host, port = address.split(":")
    peers = [silent] * 50 + [trickling] * 50 + [asking] * 200
    random.Random(1).shuffle(peers)
    words = [program, "serve", *book, "--listen", address, "--patience", "1", "--count", str(1 + len(peers))]
    answers, room = [], threading.Semaphore(60)

    def play(peer):
        with room:
            answers.append((peer, peer(host, int(port))))

    with subprocess.Popen(words, stdout=subprocess.PIPE, text=True) as server:
        knock(address.split(":")[1])
        threads = [threading.Thread(target=play, args=(peer,)) for peer in peers]
        for thread in threads:
            thread.start()
        for thread in threads:
            thread.join()
        told = server.communicate(timeout=60)[0].splitlines()
    good = sum(answer.startswith(b"HTTP/1.1 200 ") for peer, answer in answers if peer is asking)
    cut = told.count("fault 44 Device")
    # The first look whether somebody listens says nothing either, and may be told so.
    print(f"{good} of 200 good peers answered, {cut} connections of 100 idle peers and a look cut off")
    return good == 200 and cut in (100, 101) and told.count("200") == 200


def wants_anyone(program, book):
    """Whether an address that other machines reach is listened at only with --anyone beside it."""
    port = free_port()
    words = [program, "serve", *book, "--listen", f"0.0.0.0:{port}", "--count", "2"]
    without = subprocess.run(words, capture_output=True, text=True, timeout=20, check=False)
    with subprocess.Popen([*words, "--anyone"], stdout=subprocess.PIPE, text=True) as server:
        knock(port)
        answer = asking("127.0.0.1", port)
        server.communicate(timeout=20)
    good = (without.returncode, without.stdout) == (2, "") and "--anyone" in without.stderr and answer.startswith(b"HTTP/1.1 200 ")
    print("an address that other machines reach wants --anyone" if good else f"--anyone: {without} {answer[:40]}")
    return good


def main():
    """Serves a new book, or asks the server that is given."""
    with tempfile.TemporaryDirectory() as folder:
        if sys.argv[1:2] == ["--at"]:
            good = compare(sys.argv[2])
            load(sys.argv[2], folder)
            sys.exit(0 if good else 1)
        program = program_of(sys.argv[1] if len(sys.argv) > 1 else None)
        book = ["--book", os.path.join(folder, "book")]
        for words in (["init", "ZZ-WHSE1"], ["enrol", "ZZ-ACME"]):
            subprocess.run([program, *words, *book, "--at", "2025-03-04T09:15"], check=True)
        address = f"127.0.0.1:{free_port()}"
        count = 1 + len(REQUESTS) + 2 * ROUNDS
        server = subprocess.Popen([program, "serve", *book, "--listen", address, "--count", str(count)],
                                  stdout=subprocess.DEVNULL)
        try:
            knock(address.split(":")[1])
            good = compare(address)
            load(address, folder)
        finally:
            if server.poll() is None:
                server.terminate()
            server.wait()
        good = tells_a_reset(program, book) and good
        good = is_told_why(program, book) and good
        good = outlasts_the_idle(program, book) and good
        good = ends_when_replaced(program, book) and good
        good = wants_anyone(program, book) and good
        sys.exit(0 if good else 1)


if __name__ == "__main__":
    main()
