"""A second reading of the rules, in Python, to compare the program with. It shares nothing with the
program: it is written from the rules of docs/RULES.md, searches where the program scans, and adds up
where the program keeps running rows.

`Book(warehouse)` plays the commands of a script: each call answers (printed, told, status).
`Book(warehouse, 1)` plays them by the first version of the rules: no lot has an expiry, what was counted
first goes out first, and sets and sheets are smaller.
"""
import datetime
import re

ALNUM = set(b"ABCDEFGHIJKLMNOPQRSTUVWXYZ0123456789")
IDENT = ALNUM | set(b"-.")
DIGIT = set(b"0123456789")
MARKS = {b for b in range(0x21, 0x7F) if not chr(b).isalnum()} - set(b"-.")
DELIMS = MARKS | {0x1C, 0x1D, 0x1E, 0x1F}
WIDTHS = [2, 10, 2, 10, 2, 15, 2, 15, 6, 4, 1, 5, 9, 1, 1, 1]
FUNCTIONS = {b"OW": b"940", b"AR": b"943", b"FA": b"997"}
NAMES = {1: "Unreadable", 3: "Duplicate", 20: "UnknownDepositor", 21: "TicketUsed", 22: "UnknownAdvice", 23: "AdviceClosed",
         24: "UnknownOrder", 25: "OrderClosed", 26: "NotReserved", 27: "UnknownLot", 28: "BelowReserved", 29: "NoDifference",
         30: "TooMuch", 31: "RepeatedLine", 32: "BadText", 33: "TooManyLines", 34: "NumbersUsedUp", 35: "AlreadyEnrolled"}


def is_date(text):
    """Whether eight digits are a date of the years 0001 to 9999."""
    try:
        datetime.date(int(text[:4]), int(text[4:6]), int(text[6:8]))
        return True
    except ValueError:
        return False


def digits(text, least, most):
    return least <= len(text) <= most and set(text) <= DIGIT


def is_time(text):
    return digits(text, 4, 4) and int(text[:2]) < 24 and int(text[2:]) < 60


def ident(text, most, least=1):
    return least <= len(text) <= most and set(text) <= IDENT


def partner(word):
    """The partner that QQ-ID names, as (qualifier, id), or None."""
    qualifier, hyphen, name = word[:2], word[2:3], word[3:]
    if len(qualifier) == 2 and set(qualifier) <= ALNUM and hyphen == b"-" and ident(name, 15, 2):
        return qualifier, name
    return None


# --- reading ---------------------------------------------------------------------------------------------------------------


class Text:
    """An interchange that can be read: its ISA, its segments, its rest. None of `readable` where it can't be."""

    def __init__(self, text):
        self.text = text
        self.readable = self.read()

    def read(self):
        text = self.text
        if len(text) > 1_048_576 or len(text) < 106 or text[:3] != b"ISA":
            return False
        self.sep, self.comp, self.term = text[3], text[104], text[105]
        delims = (self.sep, self.comp, self.term)
        if len(set(delims)) != 3 or self.sep not in DELIMS or self.comp not in DELIMS or self.term not in DELIMS | {0x0A}:
            return False
        self.data = set(range(0x20, 0x7F)) - set(delims)
        self.isa, at = [None], 3
        for width in WIDTHS:
            if text[at] != self.sep:
                return False
            self.isa.append(text[at + 1:at + 1 + width])
            at += 1 + width
        if any(not set(element) <= self.data for element in self.isa[1:16]) or not digits(self.isa[13], 9, 9):
            return False
        return self.cut(text[106:])

    def cut(self, rest):
        self.segments, current, ended = [], bytearray(), True
        for byte in rest:
            if ended and byte in b"\r\n":
                continue
            ended = False
            if byte == self.term:
                self.segments.append(bytes(current).split(bytes([self.sep])))
                current, ended = bytearray(), True
            elif byte in self.data or byte in (self.sep, self.comp):
                current.append(byte)
            else:
                return False
        self.rest = bytes(current)
        return True


def good_control(text, segment):
    """Whether a control segment has exactly its elements."""
    of, elements = segment[0], segment[1:]
    plain = lambda value, least, most: least <= len(value) <= most and set(value) <= text.data
    name = lambda value, least, most: least <= len(value) <= most and set(value) <= ALNUM
    if of == b"GS":
        return (len(elements) == 8 and name(elements[0], 2, 2) and plain(elements[1], 2, 15) and plain(elements[2], 2, 15)
                and digits(elements[3], 8, 8) and is_date(elements[3])
                and len(elements[4]) in (4, 6, 7, 8) and set(elements[4]) <= DIGIT and is_time(elements[4][:4])
                and digits(elements[5], 1, 9) and plain(elements[6], 1, 2) and plain(elements[7], 1, 12))
    if of == b"GE":
        return len(elements) == 2 and digits(elements[0], 1, 6) and digits(elements[1], 1, 9)
    if of == b"ST":
        return len(elements) == 2 and name(elements[0], 3, 3) and name(elements[1], 4, 9)
    if of == b"SE":
        return len(elements) == 2 and digits(elements[0], 1, 10) and name(elements[1], 4, 9)
    return len(elements) == 2 and digits(elements[0], 1, 5) and digits(elements[1], 9, 9)


def structure(text):
    """The groups, each a dict of gs, ge and sets (lists of segments, and whether SE ended it); or None where the content is bad."""
    groups, group, current = [], None, None
    for segment in text.segments[:-1]:
        of = segment[0]
        if not (2 <= len(of) <= 3 and set(of) <= ALNUM) or of in (b"ISA", b"TA1", b"IEA"):
            return None
        if of in (b"GS", b"GE", b"ST", b"SE") and not good_control(text, segment):
            return None
        if of == b"GS":
            group, current = {"gs": segment, "ge": None, "sets": []}, None
            groups.append(group)
        elif group is None:
            return None
        elif of == b"GE":
            group["ge"] = segment
            group, current = None, None
        elif of == b"ST":
            current = [segment]
            group["sets"].append(current)
        elif current is None:
            return None
        else:
            current.append(segment)
            if of == b"SE":
                current = None
    if any(not g["sets"] for g in groups) or len(groups) > 100 or sum(len(g["sets"]) for g in groups) > 1000:
        return None
    return groups


# --- judging ---------------------------------------------------------------------------------------------------------------


def rep(items, least, most):
    return ("rep", tuple(items), least, most)


# by the version of the rules
MOST_LINES = {1: 99, 2: 999}
MOST_QUANTITY = {1: 99_999, 2: 999_999}


def words(rules):
    lines = MOST_LINES[rules]
    return {
        b"943": ("ST", "W06", rep(["N1"], 0, 5), rep(["N9"], 0, 5), rep(["G62"], 0, 2), rep(["W04", "N9"], 1, lines), "W03", "SE"),
        b"940": ("ST", "W05", rep(["N1", rep(["N3"], 0, 1), rep(["N4"], 0, 1)], 0, 5), rep(["N9"], 0, 5), rep(["G62"], 0, 2),
                 rep(["LX", "W01", rep(["N9"], 0, 1)], 1, lines), "W76", "SE"),
        b"997": ("ST", "AK1", rep(["AK2", rep(["AK3", rep(["AK4"], 0, 99)], 0, 99), "AK5"], 0, 999), "AK9", "SE"),
    }


WORDS = {rules: words(rules) for rules in (1, 2)}


def ids_of(items):
    found = set()
    for item in items:
        found |= ids_of(item[1]) if isinstance(item, tuple) else {item}
    return found


SET_IDS = {name: ids_of(word) for name, word in WORDS[1].items()}


def steps(rests, word):
    """What may still come after a word, for each way in which it goes on."""
    found = set()
    for rest in rests:
        found |= step(rest, word)
    return found


def step(rest, word):
    if not rest:
        return set()
    head, tail = rest[0], rest[1:]
    if isinstance(head, str):
        return {tail} if head == word else set()
    _, items, least, most = head
    found = set()
    if most > 0:
        found |= step(items + (("rep", items, max(least - 1, 0), most - 1),) + tail, word)
    if least == 0:
        found |= step(tail, word)
    return found


def shortest(rest):
    out = []
    for item in rest:
        if isinstance(item, str):
            out.append(item)
        else:
            out += shortest(item[1]) * item[2]
    return out


def row(must, kind, least, most):
    return must, kind, least, most


M, O = True, False
LOT = [row(M, ("LT",), 2, 2), row(M, "I", 1, 12), row(O, "T", 1, 45)]
ROWS = {
    "W06": [row(M, ("F",), 1, 1), row(M, "I", 1, 22), row(M, "DT", 8, 8), row(M, "I", 1, 22)],
    "N9": [row(M, "A", 2, 3), row(M, "T", 1, 30), row(O, "T", 1, 45)],
    "W05": [row(M, ("N",), 1, 1), row(M, "I", 1, 22), row(O, "T", 1, 22)],
    "LX": [row(M, "Q", 1, 6)],
    "N1": [row(M, "A", 2, 3), row(O, "T", 1, 60), row(O, "T", 1, 2), row(O, "T", 2, 80)],
    "N3": [row(M, "T", 1, 55), row(O, "T", 1, 55)],
    "N4": [row(O, "T", 2, 30), row(O, "T", 2, 2), row(O, "T", 3, 15), row(O, "T", 2, 3)],
    "G62": [row(M, "A", 2, 2), row(M, "DT", 8, 8)],
    "AK1": [row(M, "A", 2, 2), row(M, "D", 1, 9)],
    "AK2": [row(M, "A", 3, 3), row(M, "A", 4, 9)],
    "AK3": [row(M, "A", 2, 3), row(M, "D", 1, 6), row(O, "T", 1, 4), row(O, "T", 1, 3)],
    "AK4": [row(M, "P", 1, 10), row(O, "D", 1, 4), row(M, "T", 1, 3), row(O, "T", 1, 99)],
    "AK5": [row(M, ("A", "R"), 1, 1)] + [row(O, "T", 1, 3)] * 5,
    "AK9": [row(M, ("A", "P", "R"), 1, 1)] + [row(M, "D", 1, 6)] * 3 + [row(O, "T", 1, 3)] * 5,
}


def rows_of(rules, word, before):
    """The rows of a segment after another, or None where it has none."""
    if word in ("W04", "W01"):
        return [row(M, "Q", 1, 5 if rules == 1 else 6), row(M, ("EA",), 2, 2), row(O, "T", 1, 12), row(M, ("SK",), 2, 2), row(M, "I", 1, 20)]
    if word in ("W03", "W76"):
        return [row(M, "Q", 1, 7 if rules == 1 else 9)]
    if word == "N9" and before == "W01":
        return LOT
    if word == "N9" and before == "W04":
        return LOT if rules == 1 else LOT + [row(O, "DT", 8, 8)]
    return ROWS.get(word)


def element_fault(text, rule, value):
    must, kind, least, most = rule
    if not value:
        return 1 if must else None
    if len(value) > most:
        return 5
    if len(value) < least:
        return 4
    allowed = {"Q": DIGIT, "D": DIGIT, "DT": DIGIT, "I": IDENT, "A": ALNUM, "P": text.data | {text.comp}}.get(kind, text.data)
    if not set(value) <= allowed:
        return 6
    if kind == "Q" and int(value) < 1 or isinstance(kind, tuple) and value.decode() not in kind:
        return 7
    if kind == "DT" and not is_date(value):
        return 8
    return None


def segment_fault(text, rules, elements):
    for place in range(max(len(rules), len(elements))):
        if place >= len(rules):
            return place + 1, 3
        code = element_fault(text, rules[place], elements[place] if place < len(elements) else b"")
        if code:
            return place + 1, code
    return None


def set_error(rules, text, kind, segments):
    """The first segment in error: (id, position, code, element or None), or None."""
    rests, before = {WORDS[rules][kind]}, None
    for place, segment in enumerate(segments):
        word = segment[0].decode()
        after = steps(rests, word)
        if not after:
            if word == "SE":
                return min((shortest(rest) for rest in rests), key=len)[0], place + 1, 3, None
            if not any(word in ids for ids in SET_IDS.values()):
                return word, place + 1, 1, None
            return word, place + 1, 2 if word in SET_IDS[kind] else 6, None
        rows = rows_of(rules, word, before)
        if rows is not None:
            fault = segment_fault(text, rows, segment[1:])
            if fault:
                return word, place + 1, 8, fault
        rests, before = after, word
    return None


def set_fault(rules, text, group, segments, earlier):
    """The code of AK502 with the segment in error, or None."""
    first, last = segments[0], segments[-1]
    if last[0] != b"SE":
        return 2, None
    if first[1] != FUNCTIONS[group["gs"][1]]:
        return 1, None
    if first[2] in earlier:
        return 7, None
    if last[2] != first[2]:
        return 3, None
    if int(last[1]) != len(segments):
        return 4, None
    error = set_error(rules, text, first[1], segments)
    return (5, error) if error else None


def group_fault(group):
    gs, ge = group["gs"], group["ge"]
    if gs[1] not in FUNCTIONS:
        return 1
    if gs[7] != b"X" or gs[8] != b"004010":
        return 2
    if ge is None:
        return 3
    if ge[2] != gs[6]:
        return 4
    if int(ge[1]) != len(group["sets"]):
        return 5
    return None


# --- the trade -------------------------------------------------------------------------------------------------------------


class Page:
    """A depositor: its events, and what was sent out."""

    def __init__(self, rules):
        self.rules = rules
        self.events = []
        self.out = []  # (number, kind, function, content)
        self.keys = {}  # mark -> (bytes, outgoing)

    def of(self, name):
        return [event for event in self.events if event[0] == name]

    def advice(self, shipment):
        return next((e[1] for e in self.of("advised") if e[1]["shipment"] == shipment), None)

    def order(self, number):
        return next((e[1] for e in self.of("ordered") if e[1]["number"] == number), None)

    def counted(self, shipment):
        return any(e[2]["shipment"] == shipment for e in self.of("counted"))

    def picked(self, number):
        return any(e[2]["number"] == number for e in self.of("picked"))

    def since(self, pair):
        return min((n for _, n, _, sheet in self.of("counted") if pair in sheet), default=0)

    def expiry(self, pair):
        """The date in the first advice that gave the pair one, or none."""
        return next((day for e in self.of("advised") for item, lot, _, day in e[1]["lines"] if (item, lot) == pair and day), b"")

    def pairs(self):
        found = set()
        for _, advice in self.of("advised"):
            found |= {(item, lot) for item, lot, _, _ in advice["lines"]}
        for _, _, _, sheet in self.of("counted"):
            found |= set(sheet)
        return sorted(found)

    def amounts(self, pair):
        """Expected, on hand, reserved and shipped, from all events."""
        expected = on_hand = reserved = shipped = 0
        for event in self.events:
            if event[0] == "advised":
                expected += sum(q for item, lot, q, _ in event[1]["lines"] if (item, lot) == pair)
            elif event[0] == "counted":
                expected -= sum(q for item, lot, q, _ in event[2]["lines"] if (item, lot) == pair)
                on_hand += event[3].get(pair, 0)
            elif event[0] == "ordered":
                reserved += sum(q for p, q in event[1]["shares"] if p == pair)
            elif event[0] == "picked":
                gone = event[3].get(pair, 0)
                on_hand, shipped = on_hand - gone, shipped + gone
                reserved -= sum(q for p, q in event[2]["shares"] if p == pair)
            elif event[0] == "recounted" and pair in event[2]:
                on_hand = event[2][pair]
        return expected, on_hand, reserved, shipped

    def allot(self, item, pin, wanted):
        rank = lambda pair: (self.expiry(pair) or b"undated", self.since(pair), pair)
        lots = sorted((pair for pair in self.pairs() if pair[0] == item and self.since(pair)), key=rank)
        lots = [pair for pair in lots if pin is None or pair[1] == pin]
        shares, before = [], 0
        for pair in lots:
            _, on_hand, reserved, _ = self.amounts(pair)
            shares.append((pair, min(on_hand - reserved, max(0, wanted - before))))
            before += on_hand - reserved
        return shares

    def state(self, number, function):
        for _, n, named, document, accepts in self.of("acknowledged"):
            if n > number and document == number and named == function:
                return "accepted" if accepts else "refused"
        return "open"

    def next(self):
        return len(self.out) + 1


def trade(page, number, kind, segments):
    """Lets a set act: the trade fault as a segment in error, or None."""
    if kind == b"943":
        return advise(page, segments)
    if kind == b"940":
        return order(page, segments)
    first = segments[1]
    verdict = next(s for s in segments if s[0] == b"AK9")
    page.events.append(("acknowledged", number, first[1], int(first[2]), verdict[1] == b"A"))
    return None


def advise(page, segments):
    head, lines, seen = segments[1], [], set()
    if page.advice(head[4]):
        return "W06", 2, 8, (4, 7)
    for place, segment in enumerate(segments):
        if segment[0] == b"W04":
            quantity, item = int(segment[1]), segment[5]
        elif segment[0] == b"N9" and segments[place - 1][0] == b"W04":
            day, pair = segment[4] if len(segment) > 4 else b"", (item, segment[2])
            if pair in seen:
                return "N9", place + 1, 8, (2, 7)
            if day and page.expiry(pair) not in (b"", day):
                return "N9", place + 1, 8, (4, 7)
            seen.add(pair)
            lines.append((item, segment[2], quantity, day))
        elif segment[0] == b"W03" and int(segment[1]) != sum(q for _, _, q, _ in lines):
            return "W03", place + 1, 8, (1, 7)
    page.events.append(("advised", {"shipment": head[4], "order": head[2], "lines": lines}))
    return None


def order(page, segments):
    head, lines = segments[1], []
    if page.order(head[2]):
        return "W05", 2, 8, (2, 7)
    for place, segment in enumerate(segments):
        if segment[0] == b"W01":
            if any(item == segment[5] for item, _, _ in lines):
                return "W01", place + 1, 8, (5, 7)
            lines.append((segment[5], None, int(segment[1])))
        elif segment[0] == b"N9" and segments[place - 1][0] == b"W01":
            lines[-1] = (lines[-1][0], segment[2], lines[-1][2])
        elif segment[0] == b"W76" and int(segment[1]) != sum(q for _, _, q in lines):
            return "W76", place + 1, 8, (1, 7)
    shares = [share for item, pin, quantity in lines for share in page.allot(item, pin, quantity)]
    page.events.append(("ordered", {"number": head[2], "lines": lines, "shares": shares, "to": address(segments)}))
    return None


def address(segments):
    """The lines under TO, or None where no N1 is of the ship-to party."""
    element = lambda segment, n: segment[n] if n < len(segment) else b""
    for place, segment in enumerate(segments):
        if segment[0] == b"N1" and element(segment, 1) == b"ST":
            street, town = [b"", b""], b""
            for more in segments[place + 1:place + 3]:
                if more[0] == b"N3":
                    street = [element(more, 1), element(more, 2)]
                elif more[0] == b"N4":
                    town = b" ".join(part for part in (element(more, n) for n in (1, 2, 3)) if part)
                    break
                else:
                    break
            return element(segment, 2), [line for line in street + [town] if line]
    return None


def segments(layout, *values):
    """A layout with values in it, whose own `*` and `~` are told from those of the values."""
    return layout.replace(b"*", b"\0").replace(b"~", b"\2") % values


# --- the book --------------------------------------------------------------------------------------------------------------


def told(number, code=None):
    return f"refused 2 Note({code})\n" if number == 2 else f"refused {number} {NAMES[number]}\n"


class Book:
    """A book, and what each command prints, tells on standard error and ends with."""

    def __init__(self, warehouse, rules=2):
        self.house = partner(warehouse)
        self.rules = rules
        self.pages = {}

    def enrol(self, who):
        depositor = partner(who)
        if depositor is None:
            return b"", told(32), 1
        if depositor in self.pages:
            return b"", told(35), 1
        self.pages[depositor] = Page(self.rules)
        return b"", "", 0

    def envelope(self, marks, to, moment, control, inner, groups):
        """An interchange to a depositor given by its two elements as they stand in ISA."""
        (house, name), (sep, comp, term) = self.house, marks
        date, time = moment[2:10].replace("-", "").encode(), moment[11:].replace(":", "").encode()
        elements = [b"00", b" " * 10, b"00", b" " * 10, house, name.ljust(15), to[0], to[1].ljust(15), date, time, b"U", b"00401",
                    control, b"0", b"P"]
        text = b"ISA\0" + b"\0".join(elements) + b"\0\1\2" + inner + segments(b"IEA*%d*%s~", groups, control)
        return text.replace(b"\0", sep).replace(b"\1", comp).replace(b"\2", term)

    def group(self, function, depositor, moment, number, sets):
        day, time = moment[:10].replace("-", "").encode(), moment[11:].replace(":", "").encode()
        return (segments(b"GS*%s*%s*%s*%s*%s*%d*X*004010~", function, self.house[1], depositor[1], day, time, number)
                + b"".join(sets) + segments(b"GE*%d*%d~", len(sets), number))

    def send(self, raw, moment):
        text = Text(raw)
        if not text.readable:
            return b"", told(1), 1
        isa, marks = text.isa, (bytes([text.sep]), bytes([text.comp]), bytes([text.term]))

        def refuse(code):
            note = segments(b"TA1*%s*%s*%s*R*%s~", isa[13], isa[9], isa[10], code.encode())
            answer = self.envelope(marks, (isa[5], isa[6]), moment, b"000000000", note, 0)
            return answer + b"\n", told(3) if code == "025" else told(2, code), 1

        depositor = (isa[5], isa[6].rstrip(b" "))
        page = self.pages.get(depositor)
        if page is None or isa[6] != depositor[1].ljust(15):
            return refuse("006")
        known = page.keys.get(b"X" + isa[13])
        if known:
            return (known[1] + b"\n" if known[1] else b"", "", 0) if known[0] == raw else refuse("025")
        code = self.halt(text)
        if code:
            return refuse(code)
        groups = structure(text)
        if groups is None:
            return refuse("024")
        number, sets = page.next(), []
        for group in groups:
            answer = self.answer_to(text, page, number, group, len(sets) + 1)
            if group["gs"][1] != b"FA":
                sets.append(answer)
        inner = segments(b"TA1*%s*%s*%s*A*000~", isa[13], isa[9], isa[10]) if isa[14] == b"1" else b""
        if sets:
            inner += self.group(b"FA", depositor, moment, number, sets)
        answer = self.envelope(marks, depositor, moment, b"%09d" % number, inner, 1 if sets else 0) if inner else b""
        page.out.append((number, "ANS", None, answer))
        page.keys[b"X" + isa[13]] = (raw, answer)
        return answer + b"\n" if answer else b"", "", 0

    def halt(self, text):
        isa, segments = text.isa, text.segments
        if (isa[7], isa[8]) != (self.house[0], self.house[1].ljust(15)):
            return "009"
        for code, element, wanted in (("010", 1, b"00"), ("011", 2, b" " * 10), ("012", 3, b"00"), ("013", 4, b" " * 10)):
            if isa[element] != wanted:
                return code
        if not digits(isa[9], 6, 6) or not is_date(b"20" + isa[9]):
            return "014"
        if not is_time(isa[10]):
            return "015"
        for code, element, wanted in (("002", 11, (b"U",)), ("003", 12, (b"00401",)), ("019", 14, (b"0", b"1")), ("020", 15, (b"P",))):
            if isa[element] not in wanted:
                return code
        trailers = [segment for segment in segments if segment[0] == b"IEA"]
        if text.rest or not trailers:
            return "023"
        if any(not good_control(text, segment) for segment in trailers) or segments.index(trailers[0]) != len(segments) - 1:
            return "022"
        if trailers[0][2] != isa[13]:
            return "001"
        if int(trailers[0][1]) != sum(segment[0] == b"GS" for segment in segments):
            return "021"
        return None

    def answer_to(self, text, page, number, group, place):
        """Judges a group and lets its sets act: the 997."""
        gs, ge, sets = group["gs"], group["ge"], group["sets"]
        stated = int(ge[1]) if ge else len(sets)
        lines, passed, fault = [b"AK1*%s*%s" % (gs[1], gs[6])], 0, group_fault(group)
        earlier = []
        for parts in [] if fault else sets:
            found = set_fault(self.rules, text, group, parts, earlier)
            earlier.append(parts[0][2])
            if found is None:
                error = trade(page, number, parts[0][1], parts)
                found = (5, error) if error else None
            lines.append(b"AK2*%s*%s" % (parts[0][1], parts[0][2]))
            if found is None:
                passed += 1
                lines.append(b"AK5*A")
                continue
            if found[1]:
                of, position, code, element = found[1]
                lines.append(b"AK3*%s*%d**%d" % (of.encode(), position, code))
                if element:
                    lines.append(b"AK4*%d**%d" % element)
            lines.append(b"AK5*R*%d" % found[0])
        verdict = b"R" if fault or not passed else b"A" if passed == len(sets) else b"P"
        lines.append(b"AK9*%s*%d*%d*%d" % (verdict, stated, len(sets), passed) + (b"*%d" % fault if fault else b""))
        return segments(b"ST*997*%04d~" % place + b"".join(line + b"~" for line in lines) + b"SE*%d*%04d~" % (len(lines) + 2, place))

    def clerk(self, deed, who, ticket, target, sheet, moment):
        depositor = partner(who)
        if depositor is None or not ident(ticket, 20) or (deed != "recount" and not ident(target, 22)):
            return b"", told(32), 1
        lines, refusal = read_sheet(self.rules, deed, sheet)
        if refusal:
            return b"", told(refusal), 1
        page = self.pages.get(depositor)
        if page is None:
            return b"", told(20), 1
        head = b"recount" if deed == "recount" else deed.encode() + b" " + target
        text = head + b"\n" + b"".join(b"%s,%s,%d\n" % (item, lot, lines[item, lot]) for item, lot in sorted(lines))
        known = page.keys.get(b"T" + ticket)
        if known:
            return (known[1] + b"\n", "", 0) if known[0] == text else (b"", told(21), 1)
        number = page.next()
        made = getattr(self, deed)(page, number, target, lines, moment)
        if isinstance(made, int):
            return b"", told(made), 1
        kind, function, lines = made
        body = segments(b"ST*%s*0001~" % kind.encode() + b"".join(s + b"~" for s in lines) + b"SE*%d*0001~" % (len(lines) + 2))
        inner = self.group(function, depositor, moment, number, [body])
        answer = self.envelope((b"*", b">", b"~"), depositor, moment, b"%09d" % number, inner, 1)
        page.out.append((number, kind, function, answer))
        page.keys[b"T" + ticket] = (text, answer)
        return answer + b"\n", "", 0

    def count(self, page, number, shipment, sheet, moment):
        advice = page.advice(shipment)
        refusal = unless_open(advice, page.counted(shipment), 22)
        if refusal:
            return refusal
        page.events.append(("counted", number, advice, sheet))
        pairs = sorted(set(sheet) | {(item, lot) for item, lot, _, _ in advice["lines"]})
        lines_out = [b"W17*F*%s*%d*%s*%s" % (moment[:10].replace("-", "").encode(), number, advice["order"], shipment)]
        for item, lot in pairs:
            lines_out += [b"W07*%d*EA**SK*%s" % (sheet.get((item, lot), 0), item), b"N9*LT*" + lot]
        return "944", b"RE", lines_out + [b"W14*%d*%d" % (sum(sheet.values()), sum(q for _, _, q, _ in advice["lines"]))]

    def pick(self, page, number, target, sheet, moment):
        found = page.order(target)
        refusal = unless_open(found, page.picked(target), 24)
        if refusal:
            return refusal
        if any(quantity > sum(q for p, q in found["shares"] if p == pair) for pair, quantity in sheet.items()):
            return 26
        page.events.append(("picked", number, found, sheet))
        lines_out = [b"W06*F*%s*%s*%d" % (target, moment[:10].replace("-", "").encode(), number)]
        for place, (item, _, ordered) in enumerate(found["lines"]):
            lots = sorted((lot, q) for (of, lot), q in sheet.items() if of == item)
            shipped = sum(q for _, q in lots)
            code = b"CC" if shipped == ordered else b"CP"
            lines_out += [b"LX*%d" % (place + 1), b"W12*%s*%d*%d*%d*EA**SK*%s" % (code, ordered, shipped, ordered - shipped, item)]
            lines_out += [b"N9*LT*%s*%d" % lot for lot in lots]
        return "945", b"SW", lines_out + [b"W03*%d" % sum(sheet.values())]

    def recount(self, page, number, _, sheet, moment):
        if any(not page.since(pair) for pair in sheet):
            return 27
        if any(quantity < page.amounts(pair)[2] for pair, quantity in sheet.items()):
            return 28
        changed = [(pair, quantity - page.amounts(pair)[1]) for pair, quantity in sorted(sheet.items()) if quantity != page.amounts(pair)[1]]
        if not changed:
            return 29
        page.events.append(("recounted", number, sheet))
        lines_out = [b"W15*%s*%d" % (moment[:10].replace("-", "").encode(), number)]
        for (item, lot), difference in changed:
            lines_out += [b"W19*AA*%d*EA**SK*%s" % (difference, item), b"N9*LT*" + lot]
        return "947", b"AW", lines_out

    # reports

    def asked(self, who):
        depositor = partner(who)
        if depositor is None:
            return 32
        return self.pages.get(depositor, 20)

    def stock(self, who, is_csv=False):
        page = self.asked(who)
        if isinstance(page, int):
            return b"", told(page), 1
        dated = lambda day: [day] if self.rules == 2 else []
        rows = [(pair[0].decode(), pair[1].decode(), *dated(page.expiry(pair).decode()), *page.amounts(pair)) for pair in page.pairs()]
        if is_csv:
            head = ["item", "lot", *dated("expiry"), "expected", "on_hand", "reserved", "shipped"]
            text = "".join(",".join(map(str, r)) + "\n" for r in [head, *rows])
        else:
            head = ("item", "lot", *dated("expiry"), "expected", "on hand", "reserved", "shipped")
            line = " ".join(["%-20s %-12s", *dated("%-8s"), "%15s %15s %15s %15s\n"])
            text = "".join(line % r for r in [head, *rows])
        return text.encode(), "", 0

    def outbox(self, who, number=None):
        page = self.asked(who)
        if isinstance(page, int):
            return b"", told(page), 1
        if number is not None:
            content = next((c for n, _, _, c in page.out if n == number and c), None)
            return (content + b"\n", "", 0) if content else (b"", "", 1)
        text = ""
        for n, kind, function, content in page.out:
            if content:
                text += "%6d %s %s\n" % (n, kind, page.state(n, function) if function else "-")
        return text.encode(), "", 0

    def advices(self, who, number, is_csv=False):
        if partner(who) is not None and not ident(number, 22):
            return b"", told(32), 1
        page = self.asked(who)
        if isinstance(page, int):
            return b"", told(page), 1
        found = next((a for _, a in page.of("advised") if a["shipment"] == number), None)
        refusal = unless_open(found, page.counted(number), 22)
        if refusal:
            return b"", told(refusal), 1
        if is_csv:
            return b"".join(b"%s,%s,%d\n" % line[:3] for line in found["lines"]), "", 0
        return b"ADVICE " + number + b"\n" + b"".join(b"%-20s %-12s %6d  ________\n" % line[:3] for line in found["lines"]), "", 0

    def orders(self, who, number, is_csv=False):
        if partner(who) is not None and not ident(number, 22):
            return b"", told(32), 1
        page = self.asked(who)
        if isinstance(page, int):
            return b"", told(page), 1
        found = page.order(number)
        refusal = unless_open(found, page.picked(number), 24)
        if refusal:
            return b"", told(refusal), 1
        if is_csv:
            reserved = [sorted((pair[1], q) for pair, q in found["shares"] if pair[0] == item and q) for item, _, _ in found["lines"]]
            lines = [(item, lot, q) for (item, _, _), shares in zip(found["lines"], reserved) for lot, q in shares]
            return b"".join(b"%s,%s,%d\n" % line for line in lines), "", 0
        text = b"ORDER " + number + b"\n"
        if found["to"]:
            name, lines = found["to"]
            text += b"TO " + name + b"\n" + b"".join(b"   " + line + b"\n" for line in lines)
        for item, _, ordered in found["lines"]:
            shares = sorted((pair[1], q) for pair, q in found["shares"] if pair[0] == item and q)
            for lot, quantity in shares:
                text += b"%-20s %-12s %6d\n" % (item, lot, quantity)
            short = ordered - sum(q for _, q in shares)
            if short:
                text += b"%-20s %-12s %6d\n" % (item, b"(short)", short)
        return text, "", 0

    def open(self, who):
        page = self.asked(who)
        if isinstance(page, int):
            return b"", told(page), 1
        text = b"%-22s %5s %15s %s\n" % (b"advice", b"lines", b"expected", b"order")
        for advice in sorted((a for _, a in page.of("advised") if not page.counted(a["shipment"])), key=lambda a: a["shipment"]):
            pieces = sum(q for _, _, q, _ in advice["lines"])
            text += b"%-22s %5d %15d %s\n" % (advice["shipment"], len(advice["lines"]), pieces, advice["order"] or b"-")
        text += b"%-22s %5s %s\n" % (b"order", b"lines", b"ship to")
        for order in sorted((o for _, o in page.of("ordered") if not page.picked(o["number"])), key=lambda o: o["number"]):
            text += b"%-22s %5d %s\n" % (order["number"], len(order["lines"]), (order["to"][0] if order["to"] else b"") or b"-")
            for item, _, ordered in order["lines"]:
                short = ordered - sum(q for pair, q in order["shares"] if pair[0] == item)
                if short:
                    text += b"  %-20s %-12s %6d\n" % (item, b"(short)", short)
        return text, "", 0

    def depositors(self):
        return b"".join(b"%s-%s\n" % depositor for depositor in self.pages), "", 0


def unless_open(found, is_closed, unknown):
    """The refusal of an act on what isn't there, or the one after it on what is closed; or None."""
    return unknown if found is None else unknown + 1 if is_closed else None


def read_sheet(rules, deed, text):
    """The lines of a sheet as {(item, lot): quantity}, or its refusal."""
    records = [line.split(b",") for line in re.split(rb"[\r\n]+", text) if line]
    if len(records) > MOST_LINES[rules]:
        return None, 33
    if any(len(r) != 3 or not ident(r[0], 20) or not ident(r[1], 12) or not r[2] or not set(r[2]) <= DIGIT for r in records):
        return None, 32
    if deed == "pick" and any(len(r[2]) <= 9 and int(r[2]) == 0 for r in records):
        return None, 32
    most = 999_999_999 if deed == "recount" else MOST_QUANTITY[rules]
    if any(len(r[2]) > 9 or int(r[2]) > most for r in records):
        return None, 30
    lines = {}
    for item, lot, quantity in records:
        if (item, lot) in lines:
            return None, 31
        lines[item, lot] = int(quantity)
    return lines, None
