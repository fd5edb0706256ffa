#!/usr/bin/env python3
"""Plays random days with goods in stock through the program and through the second reading of the rules
(bench/model.py), and compares what is printed, what is told on standard error and the exit status, byte
for byte. compare.py does the same with days that hardly ever have goods.

Usage: bench/goods.py [--days N] [--seed N] [--batch] [PROGRAM]
       (default: 300 days, crates/whx12/out/whx12, which `rt run` in that folder leaves; some 0.2 s a day)
       bench/goods.py --dry N [--seed N]
       (N days through the second reading alone: prints how often they made what, by name; some 0.06 s a day)

A day is played by `script`, over a book in memory; with --batch by `init` and then `batch`, over a book
in a file, and `verify` must say ok after it. It has 25 to 105 commands of four depositors and a
stranger. Two of the four have one id and two qualifiers, one is the warehouse. There are

  - advices of few items and lots, so that dates, counts and bytes of lots have to decide which goes out
    first; pairs that stand twice, other dates than before, wrong sums, more parties, references and
    dates than may be, sets that end too early, groups without GS01;
  - counts of what an advice has, picks of what an order has reserved, recounts of what is on hand: of
    all of it or a part, some of them with a piece more or less;
  - acts told again in another form: lines in another order, zeros in front, quotes, a byte order mark,
    other line ends; and under another ticket;
  - sheets with fields in quotes, commas and line ends in fields, quotes in a wrong place, lines that
    can't be read or stand twice. The second reading knows no quotes and no byte order mark: it is given
    the records that Python's csv reads;
  - acknowledgments of documents that went out, several of one, with as many segments as may be and one
    more;
  - in one day of fifteen an advice of 100 to 1,000 lines (999 are the most), its count, an order of as
    many items and its pick;
  - ids, items, lots, numbers and tickets as long as may be, and moments at the ends of months and years.

The table of --dry has what came of each command, the events, what they have that is rare elsewhere, and
the segments in error: `943 N9 8, element 4 7` is a 943 with N9 in AK301 and 8 in AK304, 4 in AK401 and 7
in AK403.

The first day that differs is kept in a folder, whose name is printed, and the status is then 1.
"""
import collections
import csv
import io
import os
import re
import shutil
import sys
import tempfile

import compare
import model
from lib import option, program_in

RUN = {
    "tier": "night",
    "shows": "the same as compare.py, of days with goods in stock: lots, counts, picks, "
             "recounts, repeats in another form, sets of 999 lines",
    "needs": ["program"],
    "words": ["--days 200", "--days 20 --batch"],
    "minutes": 4,
}
# the last isn't enrolled
WHO = [(b"ZZ", b"ACME"), (b"01", b"ACME"), (b"ZZ", b"A.B-C.D-E.F-G12"), (b"ZZ", b"WHSE1"), (b"Z9", b"AB")]
ENROLLED, BUSY = WHO[:4], WHO[:3]
ITEMS = [b"BOLT", b"NUT", b"A-1.X", b"ITEM-OF-20-BYTES-XYZ"]
LOTS = [b"L1", b"L2", b"L10", b"B", b"LOT-OF-12-BY", b"."]
NUMBERS = [b"N1", b"N10", b"N2", b"NUMBER-OF-22-BYTES-XYZ", b"N3", b"N4"] + [b"S%d" % place for place in range(24)]
TICKETS = [b"T%d", b"%09d", b"TICKET.OF-20.BYTE-%02d"]
DATES = [b"20250401", b"20250401", b"20250630", b"00010101", b"99991231", b"20240229"]
NO_DATES = [b"20250230", b"20230229", b"00000101", b"19000229", b"20251301"]
# how many lines a large set has
LARGE = [100, 100, 101, 150, 200, 300, 500, 998, 999, 1000]
BYTE_ORDER_MARK = b"\xef\xbb\xbf"
ODD_RECORDS = [[b"BOLT", b"L1"], [b"BOLT", b"L1", b"3", b"4"], [b""], [b"", b"", b""], [b"BOLT,L1,3"], [b"bolt", b"L1", b"3"],
               [b"BOLT", b"L1", b"x"], [b"BOLT", b"L1", b""], [b"BOLT", b"L,1", b"3"], [b'BO"LT', b"L1", b"3"], [b"BOLT", b"L\n1", b"3"],
               [b"BOLT", b"L1", b"3\r\n"], [b"BOLT", b"L1 ", b"3"], [b"BOLT", b"L1", b"0"], [b"BOLT", b"L1", b"1000000"],
               [b"BOLT", b"L1", b"1000000000"], [b"BOLT", b"L1", b"0000000003"], [b"ITEM-OF-21-BYTES-WXYZ", b"L1", b"3"],
               [b"BOLT", b"LOT-OF-13-BYT", b"3"], [BYTE_ORDER_MARK + b"BOLT", b"L1", b"3"]]


def word_of(who):
    """A depositor as commands name it."""
    return b"-".join(who)


def open_advices(page):
    return [advice for _, advice in page.of("advised") if not page.counted(advice["shipment"])]


def open_orders(page):
    """The open orders that have something reserved, or else all that are open."""
    open_ones = [order for _, order in page.of("ordered") if not page.picked(order["number"])]
    return [order for order in open_ones if held(order)] or open_ones


def held(order):
    """What an order has reserved, by pairs."""
    return {pair: quantity for pair, quantity in order["shares"] if quantity}


def counted_pairs(page):
    return [pair for pair in page.pairs() if page.since(pair)]


def plain(text):
    """A sheet's records as Python's csv reads them, in a text without quotes and byte order mark, of which model.py knows nothing."""
    records = csv.reader(io.StringIO(text.removeprefix(BYTE_ORDER_MARK).decode("latin-1"), newline=""))
    rows = [",".join(re.sub(r"[,\r\n]", "?", field) for field in record) for record in records if record]
    return "".join((row or "?") + "\n" for row in rows).encode("latin-1")


class Day(compare.Day):
    """A day whose goods are advised, counted, ordered and picked."""

    def __init__(self, seed, folder):
        super().__init__(seed, folder)
        self.page = None  # of the depositor whose texts are written
        self.done = []  # the clerks' acts, to be told again
        self.came = collections.Counter()  # what came of the commands

    # values

    def digits(self, number, most=6):
        """A number, now and then with zeros in front."""
        text = b"%d" % number
        return text.rjust(self.r.randint(len(text), most), b"0") if self.r.random() < 0.15 and len(text) < most else text

    def quantity(self):
        return self.r.choice([1, 2, 3, 5, 7, 10, 40, 99999, 100000, 999999])

    def number(self):
        return self.r.choice(NUMBERS)

    def new(self, kind):
        """A shipment or an order number, mostly one that isn't used yet."""
        name = {"advised": "shipment", "ordered": "number"}[kind]
        used = {event[1][name] for event in self.page.of(kind)} if self.page else set()
        free = [number for number in NUMBERS if number not in used]
        return self.r.choice(free) if free and self.r.random() < 0.93 else self.number()

    def ticket(self):
        return self.r.choice(TICKETS) % self.r.randint(1, 70)

    def some(self, things):
        """All of them, or a part in any order."""
        return self.r.sample(things, self.r.randint(0, len(things))) if self.r.random() < 0.3 else list(things)

    def moment(self):
        dice = self.r
        year = dice.choice([2000, 2009, 2024, 2025, 2099])
        month, day = dice.choice([(1, 1), (2, 28), (12, 31), (3, 4)] + ([(2, 29)] if year % 4 == 0 else []))
        return f"{year}-{month:02d}-{day:02d}T{dice.choice([0, 9, 23]):02d}:{dice.choice([0, 5, 59]):02d}"

    # sets

    def party(self, with_streets):
        dice = self.r
        names = dice.choice([[], [b""], [b"Jo Shop"], [b" ", b"9", b"12"], [b"Jo", b"", b"X" * 80]])
        segments = [[b"N1", dice.choice([b"ST", b"SF", b"STX"])] + names]
        if with_streets and dice.random() < 0.6:
            segments.append([b"N3", dice.choice([b"5 Quay", b" ", b"X" * 55])] + dice.choice([[], [b""], [b"Dock"]]))
        if with_streets and dice.random() < 0.6:
            segments.append([b"N4"] + dice.choice([[], [b"Ulm"], [b"Ulm", b"", b"89073"], [b"", b"NY", b"123", b"DEU"], [b"", b"", b"  1"]]))
        return segments

    def seldom(self, choices):
        """Now and then one of these numbers, else 0."""
        return self.r.choice(choices) if self.r.random() < 0.2 else 0

    def header(self, with_streets):
        """Parties, references and dates, now and then as many as may be, or one more."""
        dice, segments = self.r, []
        for _ in range(self.seldom([0, 0, 1, 2, 5, 5, 6]) or dice.choice([0, 0, 1])):
            segments += self.party(with_streets)
        segments += [[b"N9", b"ZZ", b"ref"] + dice.choice([[], [b""], [b"text"]]) for _ in range(self.seldom([0, 1, 5, 6]))]
        return segments + [[b"G62", b"02", dice.choice(DATES + NO_DATES[:1])] for _ in range(self.seldom([1, 2, 3]))]

    def total(self, lines):
        """The sum of the lines' quantities, now and then one more."""
        return self.digits(sum(line[0] for line in lines) + (self.r.random() < 0.04), 9)

    def dated(self):
        """What follows the lot of a line: nothing, empty elements, a text or a date."""
        dice = self.r
        return dice.choice([[], [], [b""], [b"", b""], [b"x" * 45], [b"", dice.choice(DATES)], [b"", b"20250401"], [b"", b"20250401"]])

    def advice_of(self, shipment, lines):
        """The segments of an advice of lines of quantity, item, lot, and what follows the lot."""
        segments = [[b"W06", b"F", self.number(), self.r.choice(DATES), shipment]] + self.header(False)
        for quantity, item, lot, dated in lines:
            segments += [[b"W04", self.digits(quantity), b"EA", b"", b"SK", item], [b"N9", b"LT", lot] + dated]
        return segments + [[b"W03", self.total(lines)]]

    def advice(self, place):
        """An advice of few items and lots, now and then with a pair that stands twice, or a date that is none."""
        dice = self.r
        lines = [(self.quantity(), dice.choice(ITEMS), dice.choice(LOTS), self.dated()) for _ in range(dice.choice([1, 1, 2, 3, 4, 12]))]
        if dice.random() < 0.8:
            lines = list({line[1:3]: line for line in lines}.values())
        if dice.random() < 0.02:
            lines[-1] = lines[-1][:3] + ([b"", dice.choice(NO_DATES)],)
        return self.cut(b"943", place, self.advice_of(self.new("advised"), lines))

    def order_of(self, number, lines):
        """The segments of an order of lines of quantity, item and pin."""
        dice = self.r
        segments = [[b"W05", b"N", number] + dice.choice([[], [b""], [b"ref"]])] + self.header(True)
        for place, (quantity, item, pin) in enumerate(lines):
            segments += [[b"LX", b"%d" % dice.choice([place + 1, 999999])], [b"W01", self.digits(quantity), b"EA", b"", b"SK", item]] + pin
        return segments + [[b"W76", self.total(lines)]]

    def pin(self, lot):
        """The segment of a line that is pinned to a lot, or none."""
        dice = self.r
        return [[b"N9", b"LT", lot] + dice.choice([[], [], [b"x"]])] if dice.random() < 0.2 else []

    def order(self, place):
        """An order of few items, now and then of one twice, or with a date after a lot, which an order can't have."""
        dice = self.r
        items = dice.sample(ITEMS, dice.randint(1, 4)) + ([dice.choice(ITEMS)] if dice.random() < 0.08 else [])
        lines = [(dice.choice([1, 2, 3, 6, 8, 12, 50, 120, 100001, 999999]), item, self.pin(dice.choice(LOTS))) for item in items]
        if dice.random() < 0.01:
            lines[-1] = lines[-1][:2] + ([[b"N9", b"LT", b"L1", b"", b"20250401"]],)
        return self.cut(b"940", place, self.order_of(self.new("ordered"), lines))

    def errors_heard(self):
        """The segments in error of an AK2: none or one, now and then as many as may be, or one more."""
        dice, segments = self.r, []
        for _ in range(dice.choice([0, 0, 1, 99, 100]) if dice.random() < 0.1 else dice.choice([0, 1])):
            element = [b"AK4", dice.choice([b"1", b"1>2", b"1>2>3"]), b"", b"7"] + dice.choice([[], [b"copy"]])
            segments += [[b"AK3", b"W07", b"3", b"", b"8"]] + [element] * dice.choice([0, 1, 2])
        return segments

    def acknowledgment(self, place):
        """Mostly of a document that went out."""
        dice = self.r
        sent = [(function, number) for number, _, function, _ in self.page.out if function] if self.page else []
        function, number = dice.choice([b"RE", b"SW", b"AW", b"FA"]), dice.randint(1, 40)
        if sent and dice.random() < 0.8:
            function, number = dice.choice(sent)
        segments = [[b"AK1", function, self.digits(number, 9)]]
        for _ in range(dice.choice([0, 1, 2])):
            segments += [[b"AK2", b"944", b"0001"]] + self.errors_heard()
            segments.append([b"AK5", dice.choice([b"A", b"R"])] + dice.choice([[], [b"5"], [b"", b"", b"", b"", b"9"]]))
        verdict = [b"AK9", dice.choice([b"A", b"A", b"P", b"R"]), b"1", b"1", b"1"] + dice.choice([[], [b"5"]])
        return self.cut(b"997", place, segments + [verdict])

    def cut(self, kind, place, segments):
        """The set of these segments, now and then without the last of them, and with the right count."""
        if self.r.random() < 0.06:
            segments = segments[:self.r.randrange(len(segments))]
        return self.closed(kind, place, segments)

    # interchanges

    def group(self, who, function, sets, place):
        """GS, the sets and mostly a GE."""
        dice = self.r
        number, time = dice.choice([b"%d", b"0%d"]) % place, dice.choice([b"0915", b"235999", b"0915999", b"23599999"])
        segments = [[b"GS", function, dice.choice([who[1], b"A B"]), b"WHSE1", b"20250304", time, number, b"X", b"004010"]]
        segments += [segment for one in sets for segment in one]
        return segments + ([[b"GE", self.digits(len(sets)), number]] if dice.random() < 0.97 else [])

    def drop(self, segments):
        """Leaves out a GS01, or a segment in the middle, and makes the counts right again."""
        dice = self.r
        heads = [place for place, segment in enumerate(segments) if segment[0] == b"GS"]
        if heads and dice.random() < 0.5:
            place = dice.choice(heads)
            segments[place] = [b"GS"] + dice.choice([[], [b""]]) + segments[place][2:]
        elif len(segments) > 2:
            del segments[dice.randrange(1, len(segments) - 1)]
        self.count_again(segments)

    def enveloped(self, who, groups):
        """An interchange of groups, each a functional identifier and sets; now and then with something wrong."""
        dice, (qualifier, name) = self.r, who
        self.control[who] = self.control.get(who, 0) + 1
        control = b"%09d" % (self.control[who] if dice.random() < 0.95 else dice.choice([0, 1, 999999999]))
        segments = [segment for place, (function, sets) in enumerate(groups) for segment in self.group(who, function, sets, place + 1)]
        segments.append([b"IEA", self.digits(len(groups), 5), control])
        isa = [b"ISA", b"00", b" " * 10, b"00", b" " * 10, qualifier, name.ljust(15), b"ZZ", b"WHSE1".ljust(15), b"250304", b"0915", b"U", b"00401",
               control, dice.choice([b"0", b"0", b"1"]), b"P", b">"]
        if dice.random() < 0.06:
            self.spoil(segments, isa)
        elif dice.random() < 0.02:
            self.drop(segments)
        return self.print_it(isa, segments)

    def interchange(self, who):
        dice, groups = self.r, []
        self.page = self.book.pages.get(who)
        for _ in range(dice.choice([0, 1, 1, 1, 1, 2, 2, 3, 11])):
            function, make = dice.choice([(b"AR", self.advice), (b"OW", self.order), (b"OW", self.order), (b"FA", self.acknowledgment)])
            sets = dice.choice([1, 1, 2, 3, 11] if dice.random() < 0.2 else [1, 1, 2])
            groups.append((function, [make(place + 1) for place in range(sets)]))
        return self.enveloped(who, groups)

    def hand_in(self, raw):
        moment = self.moment()
        self.sent.append(raw)
        self.take(f"send {self.file(raw, 'x12')} --at {moment}", self.book.send(raw, moment))

    # sheets

    def field(self, value, often):
        """A field, in quotes so often, and where it has to be."""
        is_quoted = re.search(rb'[,"\r\n]', value) or self.r.random() < often
        return b'"' + value.replace(b'"', b'""') + b'"' if is_quoted else value

    def printed(self, lines):
        """A text of a sheet's lines: their order, zeros, quotes, line ends and a byte order mark as they come; now and then with something wrong."""
        dice = self.r
        records = [[item, lot, self.digits(quantity, 9)] for (item, lot), quantity in lines.items()]
        if dice.random() < 0.04:
            records.append(dice.choice(ODD_RECORDS + records[:1] * 5))
        dice.shuffle(records)
        often, end = dice.choice([0, 0, 0, 0.3, 1]), dice.choice([b"\n", b"\r\n", b"\r", b"\n\n"])
        text = end.join(b",".join(self.field(value, often) for value in record) for record in records) + (end if dice.random() < 0.8 else b"")
        if dice.random() < 0.01:
            place = dice.randrange(len(text) + 1)
            text = text[:place] + dice.choice([b'"', b'""', b'"\n"', BYTE_ORDER_MARK]) + text[place:]
        return BYTE_ORDER_MARK * dice.choice([1] * 11 + [2] if dice.random() < 0.12 else [0]) + text

    # acts

    def counted(self):
        """The shipment and the lines of a count, mostly of an open advice."""
        dice = self.r
        open_ones = open_advices(self.page)
        if not open_ones or dice.random() >= 0.9:
            return self.number(), {}
        advice, lines = dice.choice(open_ones), {}
        for item, lot, quantity, _ in self.some(advice["lines"]):
            lines[item, lot] = max(0, min(999999, quantity + dice.choice([0, 0, 0, -1, 1, 5])))
        if dice.random() < 0.2:
            lines[dice.choice(ITEMS), dice.choice(LOTS)] = dice.choice([0, 3, 999999])
        return advice["shipment"], lines

    def picked(self):
        """The number and the lines of a pick, mostly of an open order."""
        dice = self.r
        open_ones = open_orders(self.page)
        if not open_ones or dice.random() >= 0.9:
            return self.number(), {}
        order, lines = dice.choice(open_ones), {}
        for pair, quantity in self.some(list(held(order).items())):
            lines[pair] = max(1, quantity + dice.choice([0, 0, 0, 0, -1, 1 if dice.random() < 0.2 else 0]))
        return order["number"], lines

    def recounted(self):
        """The lines of a recount: what is on hand or reserved, or somewhat else."""
        dice, lines = self.r, {}
        pairs = counted_pairs(self.page)
        pairs += [pair for pair in self.page.pairs() if pair not in pairs and dice.random() < 0.05]
        for pair in self.some(dice.sample(pairs, min(4, len(pairs)))):
            amount = self.page.amounts(pair)[dice.choice([1, 1, 2, 2])]
            change = dice.choice([0, 0, 1, -1, -1, 3, 999999000] if dice.random() < 0.6 else [0, 1])
            lines[pair] = min(999999999, max(0, amount + change))
        return self.number(), lines

    def act(self):
        """A depositor, a deed with its target and its lines, mostly such as can be done."""
        dice = self.r
        deed, make = dice.choice([("count", self.counted)] * 7 + [("pick", self.picked)] * 4 + [("recount", self.recounted)] * 3)
        if dice.random() < 0.01:
            return WHO[-1], deed, self.number(), {}
        who = dice.choice([who for who in BUSY if open_advices(self.book.pages[who])] or BUSY)
        self.page = self.book.pages[who]
        return who, deed, *make()

    def tell(self, who, deed, ticket, target, lines):
        """Lets a clerk tell an act."""
        text, moment = self.printed(lines), self.moment()
        named = [ticket] if deed == "recount" else [ticket, target]
        words = [deed, *(word.decode() for word in [word_of(who), *named]), self.file(text, "csv"), "--at", moment]
        self.came["sheets with quotes"] += b'"' in text
        self.came["sheets with a byte order mark"] += text.startswith(BYTE_ORDER_MARK)
        self.take(" ".join(words), self.book.clerk(deed, word_of(who), ticket, target, plain(text), moment))

    def tell_some(self):
        """A new act, or one told again, now and then under another ticket."""
        dice = self.r
        if self.done and dice.random() < 0.12:
            who, deed, ticket, target, lines = dice.choice(self.done)
            self.tell(who, deed, self.ticket() if dice.random() < 0.2 else ticket, target, lines)
            return
        who, deed, target, lines = self.act()
        self.done.append((who, deed, self.ticket(), target, lines))
        self.tell(*self.done[-1])

    def large(self):
        """A large advice, the count of it, an order of as many items and its pick."""
        dice, who = self.r, self.r.choice(BUSY)
        self.page = self.book.pages[who]
        shipment, number, many = self.new("advised"), self.new("ordered"), dice.choice(LARGE)
        lines = [(self.quantity(), b"PART-%d" % place, dice.choice(LOTS), self.dated()) for place in range(many)]
        self.hand_in(self.enveloped(who, [(b"AR", [self.closed(b"943", 1, self.advice_of(shipment, lines))])]))
        self.tell(who, "count", self.ticket(), shipment, {(item, lot): quantity for quantity, item, lot, _ in lines})
        wanted = [(max(1, min(999999, quantity + dice.choice([0, 0, -1, 1]))), item, self.pin(lot)) for quantity, item, lot, _ in lines]
        self.hand_in(self.enveloped(who, [(b"OW", [self.closed(b"940", 1, self.order_of(number, wanted))])]))
        order = self.page.order(number)
        self.tell(who, "pick", self.ticket(), number, held(order) if order else {})

    # the day

    def take(self, line, answer):
        super().take(line, answer)
        self.came[f"{line.split(' ')[0]} {answer[1].strip() or 'done'}"] += 1

    def look(self, word, what):
        """Shows something of a depositor."""
        if what in ("stock", "csv"):
            self.take(f"stock {word.decode()}" + (" --csv" if what == "csv" else ""), self.book.stock(word, what == "csv"))
        elif what == "orders":
            self.sheet_of(self.r.choice(["advices", "orders"]), word, self.number())
        elif what == "number":
            number = self.r.randint(1, 12)
            self.take(f"outbox {word.decode()} --number {number}", self.book.outbox(word, number))
        else:
            self.take(f"{what} {word.decode()}", getattr(self.book, what)(word))

    def command(self):
        dice, kind = self.r, self.r.random()
        if kind < 0.0012:
            self.large()
        elif kind < 0.4:
            is_resent = self.sent and dice.random() < 0.1
            self.hand_in(dice.choice(self.sent) if is_resent else self.interchange(dice.choice(WHO[:2] * 3 + WHO)))
        elif kind < 0.9:
            self.tell_some()
        else:
            self.look(self.word([word_of(who) for who in WHO]), dice.choice(["stock", "csv", "outbox", "number", "orders", "open"]))

    def live(self):
        """Makes the day's commands, and what must come of them."""
        self.script.append("init ZZ-WHSE1")
        for who in ENROLLED:
            self.take(f"enrol {word_of(who).decode()} --at {compare.MOMENT}", self.book.enrol(word_of(who)))
        for _ in range(self.r.randint(25, 105)):
            self.command()
        for who in ENROLLED:
            for what in ("stock", "csv", "outbox", "open"):
                self.look(word_of(who), what)
            for number in NUMBERS:
                self.sheet_of("advices", word_of(who), number)
                self.sheet_of("orders", word_of(who), number)

    def play(self, program, is_batch=False):
        self.live()
        with open(os.path.join(self.folder, "script.txt"), "w", encoding="ascii") as file:
            file.write("\n".join(self.script) + "\n")
        ran = self.batch(program) if is_batch else self.run(program, "script", "script.txt")
        return (ran.stdout, ran.stderr.decode(), ran.returncode) == (self.expected, self.errors, self.status), ran


# what the days made

# where the events of model.py have their sheets
SHEET_AT = {"counted": 3, "picked": 3, "recounted": 2}


def lines_of(event):
    """The lines of an event, or of its sheet."""
    if event[0] in ("advised", "ordered"):
        return event[1]["lines"]
    return event[SHEET_AT[event[0]]] if event[0] in SHEET_AT else []


def events_made(page):
    """Each event, and what of it is rare elsewhere."""
    for event in page.events:
        name, lines = event[0], lines_of(event)
        yield name
        if len(lines) >= 100:
            yield f"{name}, 100 lines or more"
        if name == "picked" and lines:
            yield "picked, with goods"
        if name in ("picked", "recounted") and len(lines) > 1:
            yield f"{name}, several pairs"
        if name == "ordered":
            yield from reserved_of(event[1])


def reserved_of(order):
    """How much an order has reserved."""
    shares = [(pair, quantity) for pair, quantity in order["shares"] if quantity]
    if shares:
        yield "ordered, something reserved"
    if 0 < sum(quantity for _, quantity in shares) < sum(quantity for _, _, quantity in order["lines"]):
        yield "ordered, reserved in part"
    if any(lots > 1 for lots in collections.Counter(item for (item, _), _ in shares).values()):
        yield "ordered, a line from several lots"


def ranks_made(page):
    """What decides between two lots that an order's line could have."""
    for place, event in enumerate(page.events):
        if event[0] == "ordered":
            then, ranks = model.Page(page.rules), collections.defaultdict(list)
            then.events = page.events[:place]
            for pair, _ in event[1]["shares"]:
                ranks[pair[0]].append((then.expiry(pair), then.since(pair)))
            for of_item in ranks.values():
                yield from {deciding(*two) for two in zip(of_item, of_item[1:])}


def deciding(first, second):
    """What puts a lot before the next one, each given as its expiry and its first count."""
    if first[0] == second[0]:
        dates = "one date" if first[0] else "no dates"
        return f"lots, {dates} and one count" if first[1] == second[1] else f"lots, {dates}, the earlier count first"
    return "lots, the earlier date first" + (" though counted later" if first[1] > second[1] else "")


def faults_told(content):
    """The segments in error that an answer tells, by kinds of sets, as its AK3 and AK4 have them."""
    separator, terminator = content[3:4], content[105:106]
    segments = [segment.decode().split(separator.decode()) for segment in content.split(terminator)]
    kind = ""
    for segment, following in zip(segments, segments[1:]):
        if segment[0] == "AK2":
            kind = segment[1]
        elif segment[0] == "AK3":
            yield f"{kind} {segment[1]} {segment[4]}" + (f", element {following[1]} {following[3]}" if following[0] == "AK4" else "")


def groups_unanswered(page):
    """The groups of acknowledgments that a depositor sent, each with its interchange."""
    for mark, (raw, _) in page.keys.items():
        if mark.startswith(b"X"):
            text = model.Text(raw)
            yield from ((text, group) for group in model.structure(text) if group["gs"][1] == b"FA" and not model.group_fault(group))


def faults_untold(page):
    """The segments in error of acknowledgments, which no answer tells."""
    for text, group in groups_unanswered(page):
        numbers = []
        for segments in group["sets"]:
            _, error = model.set_fault(page.rules, text, group, segments, numbers) or (None, None)
            numbers.append(segments[0][2])
            if error:
                segment, _, code, element = error
                yield f"997 {segment} {code}" + (", element {} {}".format(*element) if element else "")


def documents_made(page):
    """The documents that acknowledgments name."""
    for number, _, function, _ in page.out:
        verdicts = {event[4] for event in page.of("acknowledged") if event[1] > number and event[2:4] == (function, number)}
        if verdicts:
            yield "document named"
        if len(verdicts) > 1:
            yield "document named accepted and refused"


def made(day):
    """How often a day made what."""
    counts = collections.Counter(day.came)
    for page in day.book.pages.values():
        counts.update([*events_made(page), *ranks_made(page), *documents_made(page), *faults_untold(page)])
        answers = [content for _, kind, _, content in page.out if kind == "ANS"]
        counts["interchange taken"] += len(answers)
        for content in filter(None, answers):
            counts.update(faults_told(content))
    for command, event in (("send", "interchange taken"), ("count", "counted"), ("pick", "picked"), ("recount", "recounted")):
        counts[f"{command}, stored answer"] = counts.pop(f"{command} done", 0) - counts[event]
    return counts


def show(days, seed):
    """Plays the days through the second reading alone, and prints what they made."""
    counts = collections.Counter()
    for number in range(seed, seed + days):
        with tempfile.TemporaryDirectory(prefix="goods") as folder:
            one = Day(number, folder)
            one.live()
        counts.update(made(one))
    for name in sorted(name for name in counts if counts[name]):
        print(f"{counts[name]:8,} {name}")
    print(f"{days} days, none of them played through the program")


def keep(one, ran):
    """Leaves beside the day's files what had to come and what came."""
    for name, content in (("expected.out", one.expected), ("expected.err", one.errors.encode()), ("was.out", ran.stdout), ("was.err", ran.stderr)):
        with open(os.path.join(one.folder, name), "wb") as file:
            file.write(content)


def play_all(program, days, seed, is_batch):
    """Plays the days through both, up to the first that differs: the status."""
    commands = 0
    for number in range(seed, seed + days):
        one = Day(number, tempfile.mkdtemp(prefix="goods"))
        same, ran = one.play(program, is_batch)
        commands += len(one.script)
        if not same:
            keep(one, ran)
            print(f"day {number} differs (status {ran.returncode}, expected {one.status}): {one.folder}")
            return 1
        shutil.rmtree(one.folder)
    print(f"{days} days of {commands} commands: all the same")
    return 0


def main(words):
    seed = option(words, "--seed", 1)
    if "--dry" in words:
        show(option(words, "--dry", 0), seed)
        return 0
    program = program_in(words)
    return play_all(program, option(words, "--days", 300), seed, "--batch" in words)


if __name__ == "__main__":
    sys.exit(main(sys.argv[1:]))
