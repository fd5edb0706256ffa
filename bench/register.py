"""Registers of any length, as rows of the book's tables, written without the program: a regular trade whose
texts and balances can be told in advance. bench/books.py fills books with them.

Each depositor goes round in fours: an advice of 10 of a pair, its count as 10, an order of 6 of that
item, its pick. There are fifty items, each of one lot, so that every order finds what it wants.
Everything happens on 2025-03-04 at 09:15.
"""
import lib

STAMP = "202503040915"
PAIRS = 50
COLUMNS = {"entry": 6, "outgoing": 5, "stock": 8, "advice": 4, "advice_line": 6, "orders": 7, "order_line": 6, "reservation": 5, "entry_rules": 2}


def interchange(sender, receiver, function, n, text):
    """One group with one set, all under one number."""
    return lib.interchange(function, n, text, sender=sender, receiver=receiver)


def pair(k):
    return f"ITEM-{k % PAIRS:02d}", f"L{k % PAIRS:02d}"


class Depositor:
    """A depositor, with what it has and the number of its last entry."""

    def __init__(self, place, house="WHSE1"):
        self.name, self.house, self.n = f"D{place:03d}", house, 0
        self.who = f"ZZ-{self.name}"
        self.stock = {}

    def amounts(self, k):
        """since, expected, on hand, reserved, shipped of a pair, to be changed."""
        return self.stock.setdefault(pair(k), [0, 0, 0, 0, 0])

    def received(self, function, text):
        return interchange(self.name, self.house, function, self.n, text)

    def sent(self, function, text):
        return interchange(self.house, self.name, function, self.n, text)

    def answer(self, group, kind):
        return self.sent("FA", f"ST*997*0001~AK1*{group}*{self.n}~AK2*{kind}*0001~AK5*A~AK9*A*1*1*1~SE*6*0001~")

    def advise(self, shipment, order, k, quantity):
        """The text of an advice of one line and its answer."""
        self.n += 1
        item, lot = pair(k)
        self.amounts(k)[1] += quantity
        text = (f"ST*943*0001~W06*F*{order}*20250303*{shipment}~W04*{quantity}*EA**SK*{item}~N9*LT*{lot}~W03*{quantity}~SE*6*0001~")
        return self.received("AR", text), self.answer("AR", "943")

    def count(self, shipment, order, k, quantity):
        """The canonical text of a count as advised and the receipt."""
        self.n += 1
        item, lot = pair(k)
        amounts = self.amounts(k)
        amounts[0] = amounts[0] or self.n
        amounts[1] -= quantity
        amounts[2] += quantity
        text = (f"ST*944*0001~W17*F*20250304*{self.n}*{order}*{shipment}~W07*{quantity}*EA**SK*{item}~N9*LT*{lot}~"
                f"W14*{quantity}*{quantity}~SE*6*0001~")
        return f"count {shipment}\n{item},{lot},{quantity}\n", self.sent("RE", text)

    def order(self, number, k, quantity):
        """The text of an order of one line, all of which is free, and its answer."""
        self.n += 1
        amounts = self.amounts(k)
        assert amounts[2] - amounts[3] >= quantity
        amounts[3] += quantity
        text = f"ST*940*0001~W05*N*{number}~LX*1~W01*{quantity}*EA**SK*{pair(k)[0]}~W76*{quantity}~SE*6*0001~"
        return self.received("OW", text), self.answer("OW", "940")

    def pick(self, number, k, quantity):
        """The canonical text of a pick of all that is reserved and the shipment."""
        self.n += 1
        item, lot = pair(k)
        amounts = self.amounts(k)
        amounts[2] -= quantity
        amounts[3] -= quantity
        amounts[4] += quantity
        text = (f"ST*945*0001~W06*F*{number}*20250304*{self.n}~LX*1~W12*CC*{quantity}*{quantity}*0*EA**SK*{item}~"
                f"N9*LT*{lot}*{quantity}~W03*{quantity}~SE*7*0001~")
        return f"pick {number}\n{item},{lot},{quantity}\n", self.sent("SW", text)


class Register:
    """The rows of a register of so many entries of so many depositors, each in its turn. Those of version 1 have no rules."""

    def __init__(self, depositors, entries, version=2):
        self.depositors = [Depositor(place) for place in range(1, depositors + 1)]
        self.rows = {name: [] for name in COLUMNS if version == 2 or name != "entry_rules"}
        self.advices, self.orders = {}, {}
        turn = 0
        while len(self.rows["entry"]) < entries:
            depositor = self.depositors[turn % depositors]
            self.enrol(depositor) if turn < depositors else self.go_on(depositor)
            turn += 1
        self.settle()

    def entry(self, depositor, mark, n, body, kind=None, content="", state="-"):
        rows = self.rows["entry"]
        rows.append((len(rows) + 1, depositor.who, mark, n, STAMP, body.encode()))
        if kind:
            self.rows["outgoing"].append((depositor.who, n, kind, content.encode(), state))

    def enrol(self, depositor):
        self.entry(depositor, "E", 0, "")

    def go_on(self, depositor):
        """The next of the four."""
        k, deed = divmod(depositor.n, 4)
        who, (item, lot) = depositor.who, pair(k)
        shipment, order, number = f"SHP{k}", f"PO{k}", f"ORD{k}"
        if deed == 0:
            body, content = depositor.advise(shipment, order, k, 10)
            self.entry(depositor, f"X{depositor.n:09d}", depositor.n, body, "ANS", content)
            self.advices[who, shipment] = (who, shipment, order, 1)
            self.rows["advice_line"].append((who, shipment, 1, item, lot, 10))
        elif deed == 1:
            body, content = depositor.count(shipment, order, k, 10)
            self.entry(depositor, f"TC{k}", depositor.n, body, "944", content, "open")
            self.advices[who, shipment] = (who, shipment, order, 0)
        elif deed == 2:
            body, content = depositor.order(number, k, 6)
            self.entry(depositor, f"X{depositor.n:09d}", depositor.n, body, "ANS", content)
            self.orders[who, number] = (who, number, 1, None, "", "", "")
            self.rows["order_line"].append((who, number, 1, item, None, 6))
        else:
            body, content = depositor.pick(number, k, 6)
            self.entry(depositor, f"TP{k}", depositor.n, body, "945", content, "open")
            self.orders[who, number] = (who, number, 0, None, "", "", "")

    def settle(self):
        """The rows that the last state decides."""
        self.rows["advice"] = list(self.advices.values())
        self.rows["orders"] = list(self.orders.values())
        if "entry_rules" in self.rows:
            self.rows["entry_rules"] = [(row[0], 2) for row in self.rows["entry"]]
        for depositor in self.depositors:
            for (item, lot), amounts in depositor.stock.items():
                self.rows["stock"].append((depositor.who, item, lot, *amounts))
            k, deed = divmod(depositor.n, 4)
            if deed == 3:
                self.rows["reservation"].append((depositor.who, f"ORD{k}", *pair(k), 6))

    def fill(self, db):
        """Puts the rows into a book that was just made."""
        for name, rows in self.rows.items():
            db.executemany(f"INSERT INTO {name} VALUES ({', '.join('?' * COLUMNS[name])})", rows)
        db.commit()
