#!/usr/bin/env python3
"""Hands in interchanges that are cut short, changed in a byte or as large as may be.

Usage: bench/hostile.py [PROGRAM]     (default: crates/whx12/out/whx12, which `rt run` in that folder leaves)

Each case is a script over a new book in memory: ZZ-ACME is enrolled, what came before is handed in, and
then the case. What is printed, told and the exit status are compared with the second reading of the
rules (bench/model.py), and, where a line below says what must come, with that too. The status is 1 where
something differs.

  - every beginning but the whole of an advice (255 bytes), an order (237) and an acknowledgment (233),
    each in the state before it;
  - each byte of the advice replaced by each of 00, 0A, 20, 2A, 2D, 30, 5A, 7E, 7F and FF, and single
    changes with their notes;
  - the advice followed by line ends up to 1,048,576 bytes, and by one more;
  - 100 groups and 101, 1,000 sets and 1,001."""
import subprocess
import sys
import tempfile

import model
from lib import program_of

RUN = {
    "tier": "night",
    "shows": "interchanges cut short, changed in each byte, as large as may be",
    "needs": ["program"],
    "words": [""],
    "minutes": 0.3,
}
AT = "2025-03-04T09:15"
HEAD = (b"ISA*00*          *00*          *ZZ*ACME           *ZZ*WHSE1          *250304*0915*U*00401*%09d*%d*P*>~"
        b"GS*%s*ACME*WHSE1*20250304*0915*%d*X*004010~")
END = b"GE*1*%d~IEA*1*%09d~"
ADVICE = HEAD % (1, 1, b"AR", 1) + (
    b"ST*943*0001~W06*F*PO77*20250303*SHP1~W04*100*EA**SK*BOLT~N9*LT*L1~W03*100~SE*6*0001~") + END % (1, 1)
ORDER = HEAD % (2, 0, b"OW", 2) + b"ST*940*0001~W05*N*ORD1~LX*1~W01*120*EA**SK*BOLT~W76*120~SE*6*0001~" + END % (2, 2)
HEARD = HEAD % (3, 0, b"FA", 3) + b"ST*997*0001~AK1*SW*4~AK2*945*0001~AK5*A~AK9*A*1*1*1~SE*6*0001~" + END % (3, 3)
COUNT = ("count", b"T1", b"SHP1", b"BOLT,L1,90\n")
PICK = ("pick", b"T2", b"ORD1", b"BOLT,L1,90\n")
# offset, byte, and what is told: a note, or unreadable
CHANGES = [(3, b"-", "1"), (104, b"*", "1"), (105, b">", "1"), (4, b"1", "010"), (32, b"Y", "006"), (51, b"Y", "009"), (70, b"A", "014"),
           (77, b"3", "015"), (82, b"V", "002"), (88, b"2", "003"), (98, b"2", "001"), (100, b"2", "019"), (102, b"T", "020")]
SMALL = b"ST*943*%04d~SE*2*%04d~"


def play(program, before, raw):
    """What the program and the second reading say to the last interchange of a script."""
    book = model.Book(b"ZZ-WHSE1", 2)
    book.enrol(b"ZZ-ACME")
    lines = ["init ZZ-WHSE1", f"enrol ZZ-ACME --at {AT}"]
    skipped = b""
    with tempfile.TemporaryDirectory() as folder:
        for n, step in enumerate([*before, raw]):
            text = step if isinstance(step, bytes) else step[3]
            with open(f"{folder}/{n}", "wb") as file:
                file.write(text)
            if isinstance(step, bytes):
                lines.append(f"send {n} --at {AT}")
                said = book.send(step, AT)
            else:
                deed, ticket, target, sheet = step
                lines.append(f"{deed} ZZ-ACME {ticket.decode()} {target.decode()} {n} --at {AT}")
                said = book.clerk(deed, b"ZZ-ACME", ticket, target, sheet, AT)
            if step is not raw:
                skipped += said[0]
        with open(f"{folder}/script", "w", encoding="ascii") as file:
            file.write("\n".join(lines) + "\n")
        ran = subprocess.run([program, "script", "script"], cwd=folder, capture_output=True, check=False)
    assert ran.stdout.startswith(skipped), (ran.stdout, skipped)
    return (ran.stdout[len(skipped):], ran.stderr.decode(), ran.returncode), said


def told(what):
    return "refused 1 Unreadable\n" if what == "1" else f"refused 2 Note({what})\n"


def cases():
    """Name, what comes before, the interchange, and what must be told (None: what the second reading says)."""
    for name, before, raw in (("advice", [], ADVICE), ("order", [ADVICE, COUNT], ORDER), ("acknowledgment", [ADVICE, COUNT, ORDER, PICK], HEARD)):
        for size in range(len(raw)):
            yield f"the first {size} bytes of the {name}", before, raw[:size], told("1" if size < 106 else "023")
    for offset in range(len(ADVICE)):
        for byte in b"\x00\x0a\x20\x2a\x2d\x30\x5a\x7e\x7f\xff":
            yield f"byte {byte:02X} at {offset}", [], ADVICE[:offset] + bytes([byte]) + ADVICE[offset + 1:], None
    for offset, byte, what in CHANGES:
        yield f"{byte} at {offset}", [], ADVICE[:offset] + byte + ADVICE[offset + 1:], told(what)
    yield "1,048,576 bytes", [], ADVICE + b"\n" * 1_048_321, ""
    yield "1,048,577 bytes", [], ADVICE + b"\n" * 1_048_322, told("1")
    isa, group = ADVICE[:106], ADVICE[106:162]
    assert group.startswith(b"GS") and isa.endswith(b"~")
    group = ADVICE[106:ADVICE.index(b"ST*")]
    for groups, what in ((100, ""), (101, told("024"))):
        one = group + SMALL % (1, 1) + b"GE*1*1~"
        yield f"{groups} groups", [], isa + one * groups + b"IEA*%d*000000001~" % groups, what
    for sets, what in ((1000, ""), (1001, told("024"))):
        all_sets = b"".join(SMALL % (n, n) for n in range(1, sets + 1))
        yield f"{sets} sets", [], isa + group + all_sets + b"GE*%d*1~IEA*1*000000001~" % sets, what


def main():
    program = program_of(sys.argv[1] if len(sys.argv) > 1 else None)
    count = wrong = 0
    for name, before, raw, what in cases():
        got, said = play(program, before, raw)
        count += 1
        if got != said or what is not None and got[1] != what:
            wrong += 1
            print(f"{name}: {got!r:.300}\n  the second reading says {said!r:.300}; {what!r} must be told")
    print(f"{count} interchanges, {wrong} otherwise than they must be")
    return 1 if wrong else 0


if __name__ == "__main__":
    sys.exit(main())
