#!/usr/bin/env python3
"""Checks that `seal` prints what a second reading of the tables gives, and finds what `verify` doesn't.

Usage: bench/seals.py [--commands N] [--seed N] [PROGRAM]
       (default: 60 commands, crates/whx12/out/whx12, which `rt run` in that folder leaves)

A book on disk takes random interchanges of two depositors and what clerks do. Python reads its tables
`entry` and `entry_rules`, and chains SHA-256 over the entries as docs/PROMISES.md has it: `seal`, and
`seal --first` of each number up to the entries, must print the same, and with more end with status 1;
`verify --seal` says ok of these, and 43 of another.
Then the book is changed where `verify` can't see it: its last entries are taken out as a whole, by a copy
from before; a byte of an interchange is another that no row shows. `verify` says ok of both, and with
the seal of then it says 43 of both. Of a book of version 1 the seals are the same before it is carried over, as
Python reads it, and after. Status 1 where something differs; the folder is then kept.
"""
import glob
import hashlib
import os
import random
import shutil
import sqlite3
import sys
import tempfile

import verify
from lib import HERE, Wrong, option, program_in, same

RUN = {
    "tier": "night",
    "shows": "`seal` prints what a second reading of the tables gives, and finds an older book and a changed byte",
    "needs": ["program", "sqlite3"],
    "words": [""],
    "minutes": 1,
}


def framed(field):
    return b"%d:%s" % (len(field), field)


def entries_of(book):
    """The entries of a book, each as the bytes that are sealed of it and its moment, by Python's SQLite over a copy."""
    with tempfile.TemporaryDirectory(prefix="seals-") as room:
        for file in glob.glob(book + "*"):
            shutil.copy(file, room)
        base = sqlite3.connect(os.path.join(room, os.path.basename(book)))
        base.text_factory = bytes
        has_rules = base.execute("SELECT count(*) FROM sqlite_schema WHERE name = 'entry_rules'").fetchone()[0]
        rules = dict(base.execute("SELECT seq, rules FROM entry_rules")) if has_rules else {}
        rows = base.execute("SELECT seq, who, mark, n, moment, body FROM entry ORDER BY seq").fetchall()
        base.close()
    shown = [(seq, who, mark, n, moment.translate(None, b"-T:"), body) for seq, who, mark, n, moment, body in rows]
    return [(b"".join(framed(it) for it in (who, mark, b"%d" % n, moment, bytes(body), b"%d" % rules.get(seq, 1))), moment.decode())
            for seq, who, mark, n, moment, body in shown]


def seal_of(entries):
    """The line that tells the seal of these entries: their number, the digits, and the moment of the last."""
    seal, last = bytes(32), "-"
    for entry, last in entries:
        seal = hashlib.sha256(seal + entry).digest()
    return f"{len(entries)}:{seal.hex()} {last}\n"


def check(house, book):
    """Each seal of a book is that of the second reading; all of them."""
    entries = entries_of(book)
    seals = [seal_of(entries[:count]) for count in range(len(entries) + 1)]
    same("seal", house.run("seal", book=book), (0, seals[-1], ""))
    for count, seal in enumerate(seals):
        same(f"seal --first {count}", house.run("seal", "--first", str(count), book=book), (0, seal, ""))
    for count in {0, len(entries) // 2, len(entries)}:
        mark = seals[count].split()[0]
        same(f"verify --seal {count}:..", house.run("verify", "--seal", mark, book=book), (0, f"ok {len(entries)}\n", ""))
    if entries:
        other = f"{len(entries)}:{seals[0].split()[0][2:]}"
        same("verify of another seal", house.run("verify", "--seal", other, book=book), (3, "", "fault 43 NotThisBook\n"))
    more = str(len(entries) + 1)
    same("a seal of more", house.run("seal", "--first", more, book=book), (1, "", f"the book has fewer entries than {more}\n"))
    return seals


def change_a_byte(book):
    """Changes the last digit of GS05, a time that nothing shows, in the last interchange that has a group; its number."""
    base = sqlite3.connect(book)
    for seq, body in base.execute("SELECT seq, body FROM entry WHERE mark LIKE 'X%' ORDER BY seq DESC").fetchall():
        star, body = bytes(body)[3:4], bytes(body)
        begun = body.find(b"GS" + star)
        if begun >= 0:
            at = begun + len(star.join(body[begun:].split(star)[:6])) - 1
            digit = b"1" if body[at:at + 1] == b"0" else b"0"
            base.execute("UPDATE entry SET body = ? WHERE seq = ?", (body[:at] + digit + body[at + 1:], seq))
            base.commit()
            base.close()
            return seq
    raise Wrong("no interchange has a group")


def tell_apart(house, seals):
    """An older copy and a changed byte are whole by `verify`, and have other seals."""
    same("verify of an older copy", house.run("verify", book=house.copy)[0], 0)
    status, out, _ = house.run("seal", "--first", str(len(seals) - 1), book=house.copy)
    same("the seal of an older copy", (status, out), (1, ""))
    last = seals[-1].split()[0]
    same("verify of an older copy by its seal", house.run("verify", "--seal", last, book=house.copy), (3, "", "fault 43 NotThisBook\n"))
    shutil.copy(house.book, house.copy)
    seq = change_a_byte(house.copy)
    same("verify of a changed byte", house.run("verify", book=house.copy), (0, f"ok {len(seals) - 1}\n", ""))
    same("the seal before it", house.run("seal", "--first", str(seq - 1), book=house.copy)[1], seals[seq - 1])
    if house.run("seal", "--first", str(seq), book=house.copy)[1] == seals[seq]:
        raise Wrong("a changed byte has the same seal")
    same("verify of a changed byte by its seal", house.run("verify", "--seal", last, book=house.copy), (3, "", "fault 43 NotThisBook\n"))


def main():
    words = sys.argv[1:]
    commands, seed = option(words, "--commands", 60), option(words, "--seed", random.randrange(10 ** 9))
    folder = tempfile.mkdtemp(prefix="whx12-seals-")
    house = verify.House(program_in(words), seed, folder)
    house.fill(commands * 2 // 3)
    shutil.copy(house.book, house.copy)
    house.fill(commands - commands * 2 // 3)
    seals = check(house, house.book)
    tell_apart(house, seals)
    for old in sorted(glob.glob(os.path.join(HERE, "version1", "*.book"))):
        shutil.copy(old, folder)
        check(house, os.path.join(folder, os.path.basename(old)))
    shutil.rmtree(folder)
    print(f"seed {seed}: {len(seals)} seals as a second reading has them; an older copy and a changed byte told apart")
    return 0


if __name__ == "__main__":
    sys.exit(main())
