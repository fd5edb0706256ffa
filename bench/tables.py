#!/usr/bin/env python3
"""Reads a book with Debian's sqlite3 and compares every row of its eleven tables with rows that were worked
out by hand.

Usage: bench/tables.py [PROGRAM]     (default: crates/whx12/out/whx12, which `rt run` in that folder leaves)

A day of ZZ-WHSE1 and its one depositor ZZ-ACME, a process for each command: an enrolment, an advice, its
count, an order that wants more than there is, its pick, the acknowledgment of that; then an advice of
two lots, of which one expires, its count, an order with an address, a pinned lot and an item of which
nothing is left, and an advice that is still open. A refused count and an advice that comes twice leave
no row. Besides rows it looks at the tables: STRICT, types, keys, which columns may be NULL, and what
`stock` may not hold.
"""
import os
import subprocess
import sys
import tempfile

from lib import program_of, same

RUN = {
    "tier": "night",
    "shows": "every row of the eleven tables of a worked day, read by sqlite3",
    "needs": ["program", "sqlite3"],
    "words": [""],
    "minutes": 0.1,
}
AT = "2025-03-04T09:15"
STAMP = "202503040915"


def sqlite(book, *words):
    """What sqlite3 prints."""
    return subprocess.run(["sqlite3", *words[:-1], book, words[-1]], capture_output=True, text=True, check=True).stdout


# --- the day -----------------------------------------------------------------------------------------------------------------

FROM = "ISA*00*          *00*          *ZZ*ACME           *ZZ*WHSE1          *250304*0915*U*00401*"
TO = "ISA*00*          *00*          *ZZ*WHSE1          *ZZ*ACME           *250304*0915*U*00401*"


def received(function, number, asks, text):
    return (f"{FROM}{number:09d}*{asks}*P*>~GS*{function}*ACME*WHSE1*20250304*0915*{number}*X*004010~{text}GE*1*{number}~"
            f"IEA*1*{number:09d}~")


def sent(function, number, text, ta1=""):
    return (f"{TO}{number:09d}*0*P*>~{ta1}GS*{function}*WHSE1*ACME*20250304*0915*{number}*X*004010~{text}GE*1*{number}~"
            f"IEA*1*{number:09d}~")


BOLTS = received("AR", 1, 1, "ST*943*0001~W06*F*PO77*20250303*SHP1~W04*100*EA**SK*BOLT~N9*LT*L1~W03*100~SE*6*0001~")
BOLTS_TAKEN = sent("FA", 1, "ST*997*0001~AK1*AR*1~AK2*943*0001~AK5*A~AK9*A*1*1*1~SE*6*0001~", "TA1*000000001*250304*0915*A*000~")
BOLTS_COUNTED = sent("RE", 2, "ST*944*0001~W17*F*20250304*2*PO77*SHP1~W07*90*EA**SK*BOLT~N9*LT*L1~W14*90*100~SE*6*0001~")
ORDER = received("OW", 2, 0, "ST*940*0001~W05*N*ORD1~LX*1~W01*120*EA**SK*BOLT~W76*120~SE*6*0001~")
ORDERED = sent("FA", 3, "ST*997*0001~AK1*OW*2~AK2*940*0001~AK5*A~AK9*A*1*1*1~SE*6*0001~")
SHIPPED = sent("SW", 4, "ST*945*0001~W06*F*ORD1*20250304*4~LX*1~W12*CP*120*90*30*EA**SK*BOLT~N9*LT*L1*90~W03*90~SE*7*0001~")
HEARD = received("FA", 3, 0, "ST*997*0001~AK1*SW*4~AK2*945*0001~AK5*A~AK9*A*1*1*1~SE*6*0001~")
NUTS = received("AR", 4, 0, "ST*943*0001~W06*F*PO78*20250303*SHP2~W04*40*EA**SK*NUT~N9*LT*L9~W04*10*EA**SK*NUT~N9*LT*L8**20250630~W03*50~SE*8*0001~")
NUTS_TAKEN = sent("FA", 6, "ST*997*0001~AK1*AR*4~AK2*943*0001~AK5*A~AK9*A*1*1*1~SE*6*0001~")
NUTS_COUNTED = sent("RE", 7, "ST*944*0001~W17*F*20250304*7*PO78*SHP2~W07*10*EA**SK*NUT~N9*LT*L8~W07*39*EA**SK*NUT~N9*LT*L9~W14*49*50~SE*8*0001~")
PINNED = received("OW", 5, 0, "ST*940*0001~W05*N*ORD2~N1*ST*Jo Shop~N3*5 Quay Road~N4*Ulm**89073~LX*1~W01*30*EA**SK*NUT~N9*LT*L9~"
                  "LX*2~W01*5*EA**SK*BOLT~W76*35~SE*12*0001~")
PINNED_TAKEN = sent("FA", 8, "ST*997*0001~AK1*OW*5~AK2*940*0001~AK5*A~AK9*A*1*1*1~SE*6*0001~")
MORE = received("AR", 6, 0, "ST*943*0001~W06*F*PO79*20250303*SHP3~W04*7*EA**SK*BOLT~N9*LT*L2~W03*7~SE*6*0001~")
MORE_TAKEN = sent("FA", 9, "ST*997*0001~AK1*AR*6~AK2*943*0001~AK5*A~AK9*A*1*1*1~SE*6*0001~")

# Words of each command but for the book and the moment, what the file at their end holds, what is printed, and the status.
DAY = [
    (["enrol", "ZZ-ACME"], None, "", 0),
    (["send"], BOLTS, BOLTS_TAKEN, 0),
    (["count", "ZZ-ACME", "T1", "SHP1"], "BOLT,L1,90\n", BOLTS_COUNTED, 0),
    (["count", "ZZ-ACME", "T1", "SHP1"], "BOLT,L1,91\n", "", 1),
    (["send"], ORDER, ORDERED, 0),
    (["pick", "ZZ-ACME", "T2", "ORD1"], "BOLT,L1,90\n", SHIPPED, 0),
    (["send"], HEARD, "", 0),
    (["send"], BOLTS, BOLTS_TAKEN, 0),
    (["send"], NUTS, NUTS_TAKEN, 0),
    (["count", "ZZ-ACME", "T3", "SHP2"], "NUT,L9,39\nNUT,L8,10\n", NUTS_COUNTED, 0),
    (["send"], PINNED, PINNED_TAKEN, 0),
    (["send"], MORE, MORE_TAKEN, 0),
]


def blob(text):
    return f"X'{text.encode().hex()}'"


ACME = "'ZZ-ACME'"
ROWS = {
    "book": ["2,'ZZ','WHSE1'"],
    "entry": [
        f"1,{ACME},'E',0,'{STAMP}',X''",
        f"2,{ACME},'X000000001',1,'{STAMP}',{blob(BOLTS)}",
        f"3,{ACME},'TT1',2,'{STAMP}'," + blob("count SHP1\nBOLT,L1,90\n"),
        f"4,{ACME},'X000000002',3,'{STAMP}',{blob(ORDER)}",
        f"5,{ACME},'TT2',4,'{STAMP}'," + blob("pick ORD1\nBOLT,L1,90\n"),
        f"6,{ACME},'X000000003',5,'{STAMP}',{blob(HEARD)}",
        f"7,{ACME},'X000000004',6,'{STAMP}',{blob(NUTS)}",
        f"8,{ACME},'TT3',7,'{STAMP}'," + blob("count SHP2\nNUT,L8,10\nNUT,L9,39\n"),
        f"9,{ACME},'X000000005',8,'{STAMP}',{blob(PINNED)}",
        f"10,{ACME},'X000000006',9,'{STAMP}',{blob(MORE)}",
    ],
    "outgoing": [
        f"{ACME},1,'ANS',{blob(BOLTS_TAKEN)},'-'",
        f"{ACME},2,'944',{blob(BOLTS_COUNTED)},'open'",
        f"{ACME},3,'ANS',{blob(ORDERED)},'-'",
        f"{ACME},4,'945',{blob(SHIPPED)},'accepted'",
        f"{ACME},5,'ANS',X'','-'",
        f"{ACME},6,'ANS',{blob(NUTS_TAKEN)},'-'",
        f"{ACME},7,'944',{blob(NUTS_COUNTED)},'open'",
        f"{ACME},8,'ANS',{blob(PINNED_TAKEN)},'-'",
        f"{ACME},9,'ANS',{blob(MORE_TAKEN)},'-'",
    ],
    # since, expected, on_hand, reserved, shipped
    "stock": [
        f"{ACME},'BOLT','L1',2,0,0,0,90",
        f"{ACME},'BOLT','L2',0,7,0,0,0",
        f"{ACME},'NUT','L8',7,0,10,0,0",
        f"{ACME},'NUT','L9',7,0,39,30,0",
    ],
    "advice": [f"{ACME},'SHP1','PO77',0", f"{ACME},'SHP2','PO78',0", f"{ACME},'SHP3','PO79',1"],
    "advice_line": [
        f"{ACME},'SHP1',1,'BOLT','L1',100",
        f"{ACME},'SHP2',1,'NUT','L9',40",
        f"{ACME},'SHP2',2,'NUT','L8',10",
        f"{ACME},'SHP3',1,'BOLT','L2',7",
    ],
    "orders": [f"{ACME},'ORD1',0,NULL,'','',''", f"{ACME},'ORD2',1,'Jo Shop','5 Quay Road','','Ulm 89073'"],
    "order_line": [
        f"{ACME},'ORD1',1,'BOLT',NULL,120",
        f"{ACME},'ORD2',1,'NUT','L9',30",
        f"{ACME},'ORD2',2,'BOLT',NULL,5",
    ],
    "reservation": [f"{ACME},'ORD2','NUT','L9',30"],
    "entry_rules": [f"{seq},2" for seq in range(1, 11)],
    "lot_expiry": [f"{ACME},'NUT','L8','20250630'"],
}

# The columns of each table with the place in its key; of `entry` the key is `seq`, and two pairs of columns are unique besides.
COLUMNS = {
    "book": "version INTEGER 0, qualifier TEXT 0, id TEXT 0",
    "entry": "seq INTEGER 1, who TEXT 0, mark TEXT 0, n INTEGER 0, moment TEXT 0, body BLOB 0",
    "outgoing": "who TEXT 1, n INTEGER 2, kind TEXT 0, content BLOB 0, state TEXT 0",
    "stock": "who TEXT 1, item TEXT 2, lot TEXT 3, since INTEGER 0, expected INTEGER 0, on_hand INTEGER 0, reserved INTEGER 0, shipped INTEGER 0",
    "advice": "who TEXT 1, shipment TEXT 2, ord TEXT 0, is_open INTEGER 0",
    "advice_line": "who TEXT 1, shipment TEXT 2, line INTEGER 3, item TEXT 0, lot TEXT 0, quantity INTEGER 0",
    "orders": "who TEXT 1, ord TEXT 2, is_open INTEGER 0, to_name TEXT 0, to_one TEXT 0, to_two TEXT 0, to_place TEXT 0",
    "order_line": "who TEXT 1, ord TEXT 2, line INTEGER 3, item TEXT 0, lot TEXT 0, quantity INTEGER 0",
    "reservation": "who TEXT 1, ord TEXT 2, item TEXT 3, lot TEXT 4, quantity INTEGER 0",
    "entry_rules": "seq INTEGER 1, rules INTEGER 0",
    "lot_expiry": "who TEXT 1, item TEXT 2, lot TEXT 3, expiry TEXT 0",
}
# `seq` is a rowid, which is never NULL.
MAY_BE_NULL = {("entry", "seq"), ("entry_rules", "seq"), ("orders", "to_name"), ("order_line", "lot")}
UNIQUE = {"entry": ["who, mark", "who, n"]}
REFUSED = ["expected = -1", "on_hand = -1", "reserved = -1", "shipped = -1", "reserved = on_hand + 1", "item = NULL", "since = 'x'"]


def play(program, book):
    name = f"{os.path.dirname(book)}/text"
    subprocess.run([program, "init", "ZZ-WHSE1", "--book", book], check=True)
    for words, text, printed, status in DAY:
        if text is not None:
            with open(name, "w", encoding="ascii") as file:
                file.write(text)
            words = [*words, name]
        ran = subprocess.run([program, *words, "--at", AT, "--book", book], capture_output=True, text=True, check=False)
        same(" ".join(words), (ran.stdout, ran.returncode), (printed and printed + "\n", status))


def look(book):
    same("integrity", sqlite(book, "PRAGMA integrity_check"), "ok\n")
    same("tables", sqlite(book, "SELECT name, strict FROM pragma_table_list WHERE name NOT LIKE 'sqlite%' ORDER BY name"),
         "".join(f"{name}|1\n" for name in sorted(ROWS)))
    for name, rows in ROWS.items():
        same(f"rows of {name}", sqlite(book, "-quote", f"SELECT * FROM {name} ORDER BY {'1, 2, 3' if len(COLUMNS[name].split(',')) > 2 else 1}").splitlines(), rows)
        columns = sqlite(book, f"SELECT name, type, pk, \"notnull\" FROM pragma_table_info('{name}')").splitlines()
        same(f"columns of {name}", ", ".join(" ".join(column.split("|")[:3]) for column in columns), COLUMNS[name])
        may = {(name, column.split("|")[0]) for column in columns if column.endswith("|0")}
        same(f"columns of {name} that may be NULL", may, {pair for pair in MAY_BE_NULL if pair[0] == name})
        unique = sqlite(book, f"SELECT (SELECT group_concat(name, ', ') FROM pragma_index_info(l.name)) FROM pragma_index_list('{name}') l "
                        "WHERE origin = 'u' AND \"unique\" ORDER BY seq DESC").splitlines()
        same(f"unique columns of {name}", unique, UNIQUE.get(name, []))


def try_to_spoil(book):
    """What the tables refuse, one statement each."""
    for change in REFUSED:
        ran = subprocess.run(["sqlite3", book, f"UPDATE stock SET {change}"], capture_output=True, text=True, check=False)
        same(f"{change} is refused", (ran.returncode != 0, "constraint failed" in ran.stderr or "cannot store" in ran.stderr), (True, True))


def main(words):
    program = program_of(words[0] if words else None)
    with tempfile.TemporaryDirectory(prefix="whx12-tables-") as folder:
        book = f"{folder}/day.book"
        play(program, book)
        look(book)
        try_to_spoil(book)
        look(book)
    count = sum(len(rows) for rows in ROWS.values())
    print(f"{len(DAY)} commands; sqlite3 {sqlite(':memory:', 'SELECT sqlite_version()').strip()} says ok, and all {count} rows of {len(ROWS)} tables are as worked out by hand")


if __name__ == "__main__":
    main(sys.argv[1:])
