#!/usr/bin/env python3
"""Hands in what was changed by machine: interchanges, sheets, lists of depositors, scripts, and the files
of a book.

Usage: bench/mutate.py [--interchanges N] [--files N] [--seed N] [PROGRAM]
              (default: 100000 interchanges, 10000 of each kind of file, crates/whx12/out/whx12, which `rt
           run` in that folder leaves)

  - Interchanges of compare.py's days, of which most are then changed: bytes flipped, put in, taken out
    or exchanged; segments taken out, repeated, exchanged or put into another interchange; delimiters
    changed; the end cut off. What is printed, told and the exit status are compared with the second
    reading of the rules (model.py), a hundred to a script.
  - Sheets changed so are compared with it too, but for those with a quotation mark, of which model.py
    knows nothing.
  - Of lists of depositors, scripts, and books (bytes flipped, the file cut off or made longer, the log
    of another book beside it, random bytes) each run must end in ten seconds, with a status of 0 to 3,
    and say on standard error nothing but the lines that docs/OPERATIONS.md has.

Status 1 where something differs; the folder is then kept.
"""
import os
import random
import re
import shutil
import subprocess
import sys
import tempfile

import compare
from lib import Wrong, option, program_in

RUN = {
    "tier": "night",
    "shows": "interchanges, sheets, lists, scripts and books changed by machine: each run "
             "ends, and says what it may",
    "needs": ["program"],
    "words": ["--interchanges 20000 --files 1000"],
    "minutes": 5,
}
TOLD = re.compile(rb"(refused \d+ \w+(\(\d{3}\))?|fault 4[0-4] \w+)\n")
AT = "2025-03-04T09:15"


def bent(r, text):
    """The text with one to four changes of its bytes."""
    for _ in range(r.choice([1, 1, 1, 2, 4])):
        at, kind = r.randrange(len(text) + 1), r.randrange(6)
        odd = bytes([r.choice([0, 9, 10, 13, 32, 34, 42, 43, 44, 45, 48, 57, 62, 65, 90, 97, 126, 127, 128, 255, r.randrange(256)])])
        if kind == 0:
            text = text[:at] + odd + text[at + 1:]
        elif kind == 1:
            text = text[:at] + odd * r.choice([1, 1, 1, 2, 30]) + text[at:]
        elif kind == 2:
            text = text[:at] + text[at + r.choice([1, 1, 2, 10, 100]):]
        elif kind == 3 and text:
            at = r.randrange(len(text))
            text = text[:at] + bytes([text[at] ^ 1 << r.randrange(8)]) + text[at + 1:]
        elif kind == 4:
            other = r.randrange(len(text) + 1)
            low, high = sorted([at, other])
            text = text[:low] + text[high:] + text[low:high]
        elif r.random() < 0.2:
            text = text[:at]
    return text


def rebuilt(r, text, other):
    """An interchange whose segments were changed, those of another among them."""
    terminator = text[105:106] or b"~"
    segments, theirs = text.split(terminator), other.split(other[105:106] or b"~")
    for _ in range(r.choice([1, 1, 2, 3])):
        at, to, kind = r.randrange(len(segments)), r.randrange(len(segments)), r.randrange(5)
        if kind == 0:
            segments[at], segments[to] = segments[to], segments[at]
        elif kind == 1:
            segments.insert(to, segments[at])
        elif kind == 2 and len(segments) > 2:
            del segments[at]
        elif kind == 3:
            start = r.randrange(len(theirs))
            segments[at:at] = theirs[start:start + r.choice([1, 2, 5, 20])]
        else:
            segments[at] = segments[at].replace(text[3:4], r.choice([b"*", b"|", b">", b""]))
    return terminator.join(segments)


class Day(compare.Day):
    """A day whose interchanges and sheets are changed."""

    def changed(self, text):
        r = self.r
        if not text or r.random() < 0.25:
            return text
        return rebuilt(r, text, r.choice(self.sent) if self.sent else text) if r.random() < 0.5 else bent(r, text)

    def hand_in(self):
        r, moment = self.r, self.moment()
        raw = self.changed(self.interchange(r.choice([b"ACME", b"ACME", b"BETA"])))
        self.sent.append(raw or b"X")
        self.take(f"send {self.file(raw, 'x12')} --at {moment}", self.book.send(raw, moment))

    def act(self, number):
        r, moment = self.r, self.moment()
        deed, target = r.choice(["count", "pick", "recount"]), r.choice(compare.NUMBERS)
        text = bent(r, self.sheet(deed) or b"BOLT,L1,1\n")
        while b'"' in text:
            text = text.replace(b'"', b"")
        ticket = b"T%d" % number
        words = [deed, "ZZ-ACME", ticket.decode()] + ([] if deed == "recount" else [target.decode()]) + [self.file(text, "csv"), "--at", moment]
        self.take(" ".join(words), self.book.clerk(deed, b"ZZ-ACME", ticket, target, text, moment))

    def play_changed(self, program, interchanges, sheets):
        self.script.append("init ZZ-WHSE1")
        for who in (b"ZZ-ACME", b"ZZ-BETA"):
            self.take(f"enrol {who.decode()} --at {AT}", self.book.enrol(who))
        deeds = ["hand_in"] * interchanges + ["act"] * sheets
        self.r.shuffle(deeds)
        for number, deed in enumerate(deeds):
            self.hand_in() if deed == "hand_in" else self.act(number)
        with open(os.path.join(self.folder, "script.txt"), "w", encoding="ascii") as file:
            file.write("\n".join(self.script) + "\n")
        ran = subprocess.run([program, "script", "script.txt"], cwd=self.folder, capture_output=True, check=False, timeout=120)
        return (ran.stdout, ran.stderr.decode(), ran.returncode) == (self.expected, self.errors, self.status), ran


def days(program, seed, interchanges, sheets):
    """The days, each compared with the second reading."""
    for day in range(seed, seed + interchanges // 100):
        folder = tempfile.mkdtemp(prefix="changed")
        one = Day(day, folder)
        same, ran = one.play_changed(program, 100, sheets // (interchanges // 100))
        if not same:
            for name, content in (("expected.out", one.expected), ("expected.err", one.errors.encode()), ("was.out", ran.stdout), ("was.err", ran.stderr)):
                with open(os.path.join(folder, name), "wb") as file:
                    file.write(content)
            raise Wrong(f"day {day} differs (status {ran.returncode}, expected {one.status}): {folder}")
        shutil.rmtree(folder)


def ended(program, folder, *words):
    """Runs the program, which must end by itself, with a status that it has, and say nothing else than it may."""
    ran = subprocess.run([program, *words], cwd=folder, capture_output=True, check=False, timeout=10)
    if ran.returncode not in (0, 1, 2, 3):
        raise Wrong(f"{words}: status {ran.returncode}, {ran.stderr!r}: {folder}")
    if ran.returncode in (1, 3) and ran.stderr and not TOLD.fullmatch(ran.stderr.splitlines(True)[-1]):
        raise Wrong(f"{words}: {ran.stderr!r}: {folder}")
    return ran


def lists_and_scripts(program, r, folder, many):
    """Lists of depositors and scripts, changed."""
    good = b'# depositors\ndepositors = ["ZZ-ACME", "ZZ-BETA", \'01-X Y\']\n[other]\nkey = 1\n'
    lines = b"init ZZ-WHSE1\nenrol ZZ-ACME --at 2025-03-04T09:15\nstock ZZ-ACME\noutbox ZZ-ACME --number 1\nroster list.toml\n"
    for _ in range(many):
        for name, text in (("list.toml", bent(r, good)), ("script.txt", bent(r, lines))):
            with open(os.path.join(folder, name), "wb") as file:
                file.write(text)
        ended(program, folder, "script", "script.txt")
        with open(os.path.join(folder, "script.txt"), "wb") as file:
            file.write(b"init ZZ-WHSE1\nroster list.toml\n")
        ended(program, folder, "script", "script.txt")


def spoiled(r, text):
    """A file of a book, changed."""
    kind, at = r.randrange(5), r.randrange(len(text) + 1)
    if kind == 0:
        return text[:at]
    if kind == 1:
        return text + r.randbytes(r.choice([1, 100, 4096]))
    if kind == 2:
        return text[:at] + r.randbytes(r.choice([1, 4, 100])) + text[at:]
    if kind == 3:
        return r.randbytes(r.choice([0, 1, 100, 4096, 20000]))
    bytes_at = bytearray(text)
    for _ in range(r.choice([1, 1, 2, 10, 100])):
        if bytes_at:
            bytes_at[r.choice([r.randrange(len(bytes_at)), r.randrange(min(100, len(bytes_at)))])] = r.randrange(256)
    return bytes(bytes_at)


def books(program, r, folder, many):
    """The files of a book, changed: no command says of them more than it may, or hangs."""
    for name in ("mine.book", "other.book"):
        ended(program, folder, "init", "ZZ-WHSE1", "--book", name)
        for number in range(4):
            ended(program, folder, "enrol", f"ZZ-D{number}", "--book", name)
    day = compare.Day(7, folder)
    for number in range(12):
        ended(program, folder, "send", day.file(day.interchange(b"D1"), "x12"), "--book", "mine.book")
    files = {}
    for name in ("mine.book", "mine.book-wal", "other.book", "other.book-wal"):
        path = os.path.join(folder, name)
        files[name] = open(path, "rb").read() if os.path.exists(path) else b""
    for _ in range(many):
        book, log = files["mine.book"], files["mine.book-wal"]
        kind = r.randrange(4)
        book, log = (spoiled(r, book), log) if kind in (0, 1) else (book, spoiled(r, log)) if kind == 2 else (book, files["other.book-wal"] or r.randbytes(4152))
        for name, text in (("bad.book", book), ("bad.book-wal", log)):
            with open(os.path.join(folder, name), "wb") as file:
                file.write(text)
        words = r.choice([("stock", "ZZ-D1"), ("outbox", "ZZ-D1"), ("enrol", "ZZ-NEW"), ("verify",), ("init", "ZZ-WHSE1")])
        ended(program, folder, *words, "--book", "bad.book")


def main(words):
    interchanges, many, seed = option(words, "--interchanges", 100000), option(words, "--files", 10000), option(words, "--seed", 1)
    program = program_in(words)
    folder = tempfile.mkdtemp(prefix="changed")
    try:
        days(program, seed, interchanges, many)
        lists_and_scripts(program, random.Random(seed), folder, many)
        books(program, random.Random(seed), folder, many)
    except (Wrong, subprocess.TimeoutExpired) as wrong:
        print(f"{wrong}\nkept: {folder}")
        return 1
    print(f"{interchanges} interchanges and {many} sheets as the second reading has them; {many} lists, {many} scripts and {many} books ended as they may")
    shutil.rmtree(folder)
    return 0


if __name__ == "__main__":
    sys.exit(main(sys.argv[1:]))
