#!/usr/bin/env python3
"""Plays random days through the program and through the second reading of the rules (bench/model.py), and
compares what is printed, what is told on standard error and the exit status, byte for byte.

Usage: bench/compare.py [--days N] [--seed N] [--rules 1|2] [--batch | --server] [PROGRAM]
              (default: crates/whx12/out/whx12, which `rt run` in that folder leaves; the second version of
           the rules)

A day is played by `script`, over a book in memory; with --batch by `init` and then `batch`, over a book
in a file, and `verify` must say ok after it. With --server each command that a server takes is asked of
one (`serve --clerks`), at one moment for the whole day; the others are given over the book once the
server is killed, and `verify` must say ok in the end.

A day is a script of up to 40 commands of two depositors and strangers: interchanges with advices, orders
and acknowledgments, good ones and such as were changed in a byte, an element, a segment or a group;
resends; counts, picks and recounts with good and bad sheets; reports. The first day that differs is kept
in a folder, whose name is printed, and the status is then 1.
"""
import copy
import os
import random
import re
import subprocess
import sys
import tempfile

import model
from lib import option, program_in

RUN = {
    "tier": "night",
    "shows": "random days give what a second reading of the rules (model.py) gives, byte for "
             "byte; as a script, a batch, and through a server",
    "needs": ["program"],
    "words": ["--days 2000", "--days 40 --batch", "--days 8 --server"],
    "minutes": 3,
}
WHO = [b"ACME", b"BETA"]
ITEMS = [b"BOLT", b"NUT", b"A-1.X", b"Z"]
LOTS = [b"L1", b"L2", b"L10", b"B"]
NUMBERS = [b"N%d" % n for n in range(1, 6)]
ODD = [b"", b"0", b"00000", b"100000", b"1.5", b"ea", b"EAX", b"20250230", b"20250303", b"2025", b"X", b"-", b".", b"A" * 23, b" ",
       b"999999", b"1000000", b"20250401", b"LT", b"SK", b"UP", b"N", b"F", b"0001", b"0002", b"000000007", b"9" * 10, b"99999", b"ST", b"DE", b"~", b">", b"A>B", b"004010"]
DAYS = [b"20250401", b"20250630", b"20250701", b"20241231"]
IDS = [b"ST", b"SE", b"GS", b"GE", b"IEA", b"TA1", b"ISA", b"W03", b"W04", b"W05", b"W06", b"W01", b"W76", b"N1", b"N3", b"N4", b"N9", b"G62", b"LX",
       b"AK1", b"AK2", b"AK3", b"AK4", b"AK5", b"AK9", b"ZZZ", b"Z", b"abc", b"QQQQ"]


# what is asked of a server, and the moment of days that are
TAKEN = {"send", "count", "pick", "recount", "stock", "advices", "orders", "outbox", "open", "depositors"}
MOMENT = "2025-03-04T09:15"


class Server:
    """A server of the day's book, which runs while it is asked."""

    def __init__(self, program, folder):
        words = ["serve", "--book", "day.book", "--listen", "127.0.0.1:0", "--count", "65535", "--clerks", "--at", MOMENT, "--explain"]
        self.run = subprocess.Popen([program, *words], cwd=folder, stdout=subprocess.DEVNULL, stderr=subprocess.PIPE)
        self.address = self.run.stderr.readline().decode().split()[-1]

    def stop(self):
        self.run.kill()
        self.run.stderr.close()
        self.run.wait()


class Day:
    def __init__(self, seed, folder, rules=2, is_served=False):
        self.r, self.folder, self.is_served = random.Random(seed), folder, is_served
        self.script, self.expected, self.errors, self.status = [], b"", "", 0
        self.book = model.Book(b"ZZ-WHSE1", rules)
        self.often_dated = 0.4 if rules == 2 else 0.02
        self.files, self.sent = 0, []
        self.control = {}

    # texts

    def party(self):
        r = self.r
        segments = [[b"N1", r.choice([b"ST", b"ST", b"SF"]), r.choice([b"Nord Hardware", b"", b"X"])]]
        if r.random() < 0.6:
            segments.append([b"N3", b"14 Quay Road"] + ([b"Dock 2"] if r.random() < 0.4 else []))
        if r.random() < 0.6:
            segments.append([b"N4", r.choice([b"Bergen", b""]), r.choice([b"", b"NY"]), r.choice([b"5003", b""]), b"NO"][:r.randint(2, 5)])
        return segments

    def header(self, with_streets):
        r, segments = self.r, []
        for _ in range(r.choice([0, 0, 0, 1, 2])):
            segments += self.party() if with_streets else [[b"N1", b"SF", b"Holm"]]
        segments += [[b"N9", b"ZZ", b"ref"]] * r.choice([0, 0, 0, 1])
        return segments + [[b"G62", b"02", b"20250303"]] * r.choice([0, 0, 1])

    def advice(self, place):
        r = self.r
        pairs = [(item, lot) for item in ITEMS for lot in LOTS]
        lines = r.sample(pairs, r.randint(1, 4))
        segments, total = [[b"W06", b"F", b"PO%d" % r.randint(1, 9), b"20250303", r.choice(NUMBERS)]] + self.header(False), 0
        for item, lot in lines:
            quantity = r.choice([1, 2, 5, 10, 90, 99999])
            total += quantity
            segments += [[b"W04", r.choice([b"%d", b"0%d"]) % quantity if quantity < 99 else b"%d" % quantity, b"EA", b"", b"SK", item], [b"N9", b"LT", lot]]
            if r.random() < self.often_dated:
                segments[-1] += [b"", r.choice(DAYS)]
        return self.closed(b"943", place, segments + [[b"W03", b"%d" % (total + (r.random() < 0.05))]])

    def order(self, place):
        r = self.r
        segments, total = [[b"W05", b"N", r.choice(NUMBERS)] + ([b"ref"] if r.random() < 0.2 else [])] + self.header(True), 0
        for line, item in enumerate(r.sample(ITEMS, r.randint(1, 3))):
            quantity = r.choice([1, 2, 6, 7, 60, 120])
            total += quantity
            segments += [[b"LX", b"%d" % (line + 1)], [b"W01", b"%d" % quantity, b"EA", b"", b"SK", item]]
            if r.random() < 0.2:
                segments.append([b"N9", b"LT", r.choice(LOTS)])
        return self.closed(b"940", place, segments + [[b"W76", b"%d" % (total + (r.random() < 0.05))]])

    def acknowledgment(self, place):
        r = self.r
        segments = [[b"AK1", r.choice([b"RE", b"SW", b"AW", b"FA"]), b"%d" % r.randint(1, 12)]]
        for _ in range(r.choice([0, 1, 1, 2])):
            segments.append([b"AK2", r.choice([b"944", b"945"]), b"0001"])
            if r.random() < 0.3:
                segments.append([b"AK3", b"W07", b"3", b"", b"8"])
                segments += [[b"AK4", b"1", b"", b"7"]] * r.randint(0, 2)
            segments.append([b"AK5", r.choice([b"A", b"R"])])
        return self.closed(b"997", place, segments + [[b"AK9", r.choice([b"A", b"P", b"R"]), b"1", b"1", b"1"]])

    def closed(self, kind, place, segments):
        number = b"%04d" % (place if self.r.random() < 0.95 else 1)
        return [[b"ST", kind, number]] + segments + [[b"SE", b"%d" % (len(segments) + 2), number]]

    def interchange(self, who):
        r = self.r
        self.control[who] = self.control.get(who, 0) + 1
        control = b"%09d" % (self.control[who] if r.random() < 0.93 else r.randint(1, 9))
        segments, groups = [], r.choice([0, 1, 1, 1, 1, 1, 2, 3])
        for g in range(groups):
            function, make = r.choice([(b"AR", self.advice), (b"OW", self.order), (b"OW", self.order), (b"FA", self.acknowledgment)])
            sets = [make(place + 1) for place in range(r.choice([1, 1, 2, 3]))]
            segments.append([b"GS", function, who, b"WHSE1", b"20250304", b"0915", b"%d" % (g + 1), b"X", b"004010"])
            segments += [segment for one in sets for segment in one]
            segments.append([b"GE", b"%d" % len(sets), b"%d" % (g + 1)])
        segments.append([b"IEA", b"%d" % groups, control])
        isa = [b"ISA", b"00", b" " * 10, b"00", b" " * 10, b"ZZ", who.ljust(15), b"ZZ", b"WHSE1".ljust(15), b"250304", b"0915", b"U", b"00401",
               control, r.choice([b"0", b"0", b"1"]), b"P", b">"]
        if r.random() < 0.35:
            self.spoil(segments, isa)
        return self.print_it(isa, segments)

    def spoil(self, segments, isa):
        r = self.r
        for _ in range(r.choice([1, 1, 1, 2])):
            at, kind = r.randrange(len(segments)), r.random()
            segment = segments[at]
            if kind < 0.5 and len(segment) > 1:
                segments[at] = list(segment)
                segments[at][r.randrange(1, len(segment))] = r.choice(ODD)
            elif kind < 0.58:
                segments[at] = segment + [r.choice([b"", b"X"])]
            elif kind < 0.64:
                segments[at] = segment[:-1]
            elif kind < 0.76:
                del segments[at]
            elif kind < 0.82:
                segments.insert(at, segment)
            elif kind < 0.9:
                segments.insert(at, [r.choice(IDS)] + [r.choice(ODD) for _ in range(r.randint(0, 3))])
            elif kind < 0.95:
                segments[at] = [r.choice(IDS)] + segment[1:]
            else:
                place = r.randrange(1, 16)
                odd = r.choice([b"01", b"X", b"1", b"250230", b"2460", b"T", b"U", b"WHSE2", b"ZZ", b"999999999", b"acme", b" ACME"])
                isa[place] = odd[:len(isa[place])].ljust(len(isa[place]))
            if not segments:
                return
        if r.random() < 0.7:
            self.count_again(segments)

    def count_again(self, segments):
        """Makes the counts right again, so that what was changed is met further on."""
        start = sets = groups = 0
        for at, segment in enumerate(segments):
            if not segment:
                continue
            if segment[0] == b"ST":
                start, sets = at, sets + 1
            elif segment[0] == b"GS":
                groups, sets = groups + 1, 0
            counts = {b"SE": at - start + 1, b"GE": sets, b"IEA": groups}
            if segment[0] in counts and len(segment) > 1:
                segments[at] = [segment[0], b"%d" % counts[segment[0]]] + segment[2:]

    def print_it(self, isa, segments):
        r = self.r
        sep, comp, term = (b"*", b">", b"~") if r.random() < 0.8 else r.sample([b"*", b"|", b">", b"^", b"~", b"!", b"\x1c", b"\x1d", b"'"], 3)
        if r.random() < 0.1:
            term = b"\n"
        ends = r.choice([b"", b"", b"", b"\r\n", b"\n"]) if term != b"\n" else b""
        isa = isa[:16] + [comp]
        text = b"".join(sep.join(segment) + term + ends for segment in [isa] + segments)
        if r.random() < 0.06 and text:
            at = r.randrange(len(text))
            text = text[:at] + bytes([r.choice([0, 10, 13, 32, 42, 45, 48, 62, 65, 90, 126, 127, 255])]) + text[at + 1:]
        if r.random() < 0.03:
            text = text[:r.randrange(len(text))]
        if r.random() < 0.03:
            text += r.choice([b"X", b"\n", b"IEA*1*1~", b"ZZ~"])
        return text

    def sheet(self, deed):
        r, page = self.r, self.book.pages.get((b"ZZ", b"ACME"))
        lines = []
        for item, lot in r.sample([(i, l) for i in ITEMS for l in LOTS], r.choice([0, 1, 1, 2, 3])):
            quantity = r.choice([b"0", b"1", b"2", b"5", b"7", b"90", b"010", b"100000", b"1000000000", b"99999"][:r.choice([6, 7, 10])])
            lines.append(item + b"," + lot + b"," + quantity)
        if page and r.random() < 0.7 and deed != "count":
            pairs = page.pairs()
            lines = [item + b"," + lot + b",%d" % max(0, page.amounts((item, lot))[2 if deed == "pick" else r.choice([1, 1, 2])] + r.choice([0, 0, -1, 1]))
                     for item, lot in r.sample(pairs, min(len(pairs), r.choice([1, 1, 2, 4])))]
        if r.random() < 0.05:
            lines.append(r.choice([b"BOLT,L1", b"bolt,L1,3", b"BOLT,L1,x", b"BOLT,L1,", b"BOLT,L1,3,4"]))
        if lines and r.random() < 0.05:
            lines.append(lines[0])
        return b"".join(line + r.choice([b"\n", b"\r\n"]) for line in lines)

    # the day

    def file(self, content, suffix):
        self.files += 1
        name = f"f{self.files}.{suffix}"
        with open(os.path.join(self.folder, name), "wb") as file:
            file.write(content)
        return name

    def take(self, line, answer):
        out, told, status = answer
        self.script.append(line)
        self.expected, self.errors = self.expected + out, self.errors + told
        self.status = max(self.status, status)

    def tried(self, line, act):
        """Tries what is done next, now and then: its answer is told, and the book stays as it is."""
        if self.r.random() < 0.15:
            out, told, status = act(copy.deepcopy(self.book))
            # Words and sheets that can't be read are refused before anything is tried.
            is_read = not re.match("refused 3[0-3] ", told)
            self.take(line + " --try", (out, told + "tried\n" * is_read, status))

    def sheet_of(self, name, who, number):
        """Asks for the sheet of an advice or an order, as text or as CSV."""
        is_csv = self.r.random() < 0.5
        answer = getattr(self.book, name)(who, number, is_csv)
        self.take(f"{name} {who.decode()} {number.decode()}" + (" --csv" if is_csv else ""), answer)

    def moment(self):
        return MOMENT if self.is_served else f"2025-03-{self.r.randint(1, 28):02d}T{self.r.randint(0, 23):02d}:{self.r.randint(0, 59):02d}"

    def word(self, good):
        return self.r.choice(good) if self.r.random() < 0.96 else self.r.choice([b"zz-acme", b"NONE", b"ZZ-NONE", b"ZZACME", b"x" * 25, b"ZZ-A"])

    def command(self):
        r, moment, kind = self.r, self.moment(), self.r.random()
        who = self.word([b"ZZ-ACME", b"ZZ-ACME", b"ZZ-BETA"])
        if kind < 0.45:
            raw = r.choice(self.sent) if self.sent and r.random() < 0.12 else self.interchange(r.choice([b"ACME", b"ACME", b"BETA"]))
            self.sent.append(raw)
            line = f"send {self.file(raw, 'x12')} --at {moment}"
            self.tried(line, lambda book: book.send(raw, moment))
            self.take(line, self.book.send(raw, moment))
        elif kind < 0.85:
            deed = r.choice(["count", "count", "pick", "pick", "recount"])
            ticket, target, text = self.word([b"T%d" % n for n in range(1, 30)]), self.word(NUMBERS), self.sheet(deed)
            name = self.file(text, "csv")
            words = [deed, who.decode(), ticket.decode()] + ([] if deed == "recount" else [target.decode()]) + [name, "--at", moment]
            self.tried(" ".join(words), lambda book: book.clerk(deed, who, ticket, target, text, moment))
            self.take(" ".join(words), self.book.clerk(deed, who, ticket, target, text, moment))
        elif kind < 0.9:
            csv = r.random() < 0.4
            self.take(f"stock {who.decode()}" + (" --csv" if csv else ""), self.book.stock(who, csv))
        elif kind < 0.94:
            self.sheet_of(r.choice(["advices", "orders"]), who, self.word(NUMBERS))
        elif kind < 0.96:
            self.take(f"open {who.decode()}", self.book.open(who))
        elif kind < 0.985:
            number = r.choice([None, r.randint(1, 12)])
            self.take(f"outbox {who.decode()}" + (f" --number {number}" if number else ""), self.book.outbox(who, number))
        else:
            self.take(f"enrol {who.decode()} --at {moment}", self.book.enrol(who))

    def run(self, program, *words):
        return subprocess.run([program, *words], cwd=self.folder, capture_output=True, check=False)

    def batch(self, program):
        """Makes a book in a file by the first line, and plays the others as a batch."""
        with open(os.path.join(self.folder, "script.txt"), "rb") as file:
            first, _, rest = file.read().partition(b"\n")
        with open(os.path.join(self.folder, "batch.txt"), "wb") as file:
            file.write(rest)
        over = ["--book", "day.book"]
        made = self.run(program, *first.decode().split(" "), *over)
        if made.returncode:
            return made
        ran = self.run(program, "batch", "batch.txt", *over)
        checked = self.run(program, "verify", *over)
        return ran if checked.stdout.startswith(b"ok ") else checked

    def ask(self, program):
        """Plays the lines one by one, those that a server takes through one."""
        server, out, told, status = None, b"", b"", 0
        for line in self.script:
            first, *rest = line.split(" ")
            if first in TAKEN:
                server = server or Server(program, self.folder)
                over = ["--server", server.address]
                rest = [word for word in rest if word not in ("--at", MOMENT)]
            else:
                if server:
                    server.stop()
                server, over = None, ["--book", "day.book"]
            ran = self.run(program, first, *rest, *over)
            out, told, status = out + ran.stdout, told + ran.stderr, max(status, ran.returncode)
        if server:
            server.stop()
        checked = self.run(program, "verify", "--book", "day.book")
        return subprocess.CompletedProcess([], status, out, told) if checked.stdout.startswith(b"ok ") else checked

    def play(self, program, is_batch=False):
        self.script.append("init ZZ-WHSE1")
        for who in (b"ZZ-ACME", b"ZZ-BETA"):
            self.take(f"enrol {who.decode()} --at 2025-03-04T09:15", self.book.enrol(who))
        for _ in range(self.r.randint(5, 38)):
            self.command()
        for who in (b"ZZ-ACME", b"ZZ-BETA"):
            self.take(f"stock {who.decode()}", self.book.stock(who))
            self.take(f"outbox {who.decode()}", self.book.outbox(who))
            self.take(f"open {who.decode()}", self.book.open(who))
            for number in NUMBERS:
                self.sheet_of("advices", who, number)
                self.sheet_of("orders", who, number)
        self.take("depositors", self.book.depositors())
        with open(os.path.join(self.folder, "script.txt"), "w", encoding="ascii") as file:
            file.write("\n".join(self.script) + "\n")
        if self.is_served:
            ran = self.ask(program)
        else:
            ran = self.batch(program) if is_batch else self.run(program, "script", "script.txt")
        return (ran.stdout, ran.stderr.decode(), ran.returncode) == (self.expected, self.errors, self.status), ran


def main(words):
    days, seed = option(words, "--days", 300), option(words, "--seed", 1)
    rules, program = option(words, "--rules", 2), program_in(words)
    commands = 0
    for day in range(seed, seed + days):
        folder = tempfile.mkdtemp(prefix="day")
        one = Day(day, folder, rules, "--server" in words)
        same, ran = one.play(program, "--batch" in words)
        commands += len(one.script)
        if not same:
            for name, content in (("expected.out", one.expected), ("expected.err", one.errors.encode()), ("was.out", ran.stdout), ("was.err", ran.stderr)):
                with open(os.path.join(folder, name), "wb") as file:
                    file.write(content)
            print(f"day {day} differs (status {ran.returncode}, expected {one.status}): {folder}")
            return 1
        subprocess.run(["rm", "-r", folder], check=True)
    print(f"{days} days of {commands} commands: all the same")
    return 0


if __name__ == "__main__":
    sys.exit(main(sys.argv[1:]))
