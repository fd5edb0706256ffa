#!/usr/bin/env python3
"""Kills `take` again and again over one folder, and looks at what is left.

Usage: bench/taken.py [--files N] [--rounds N] [--seed N] [PROGRAM]
       (default: 200 files, 50 kills of crates/whx12/out/whx12, which `rt run` in that folder leaves)

A folder has random interchanges of two depositors, good ones and such as are accepted with faulty sets.
`take` is started over it and ended by `kill -9` at a random moment, again and again, and at last runs to
its end, at the same moment of the rules. Then:

  - each file's answer is the one that the second reading of the rules (bench/model.py) gives when each
    file is sent once, in the order of the names, byte for byte; a file that gets no answer has none; and
    nothing else lies in the folder, where before the end each kill may have left an answer that was
    being written;
  - stock and outbox are those of each file sent once: no order is there twice, and none is missing.

Before that a folder of three files is taken twice at one moment: first the advice is `accepted`, then it
is `stored`, and both times the other files are refused alike; the answers are the same bytes after the
second time as after the first, that of the advice 265.

After each kill sqlite3 says whether a copy of the files is sound. Where standard error is a terminal,
`take` says how far it is. Status 1 where something differs; the folder is then kept.
"""
import os
import random
import shutil
import signal
import subprocess
import sys
import tempfile
import time

import compare
import tables
from lib import Wrong, on_terminal, option, program_in, same

RUN = {
    "tier": "night",
    "shows": "`take` killed again and again over one folder: each answer right, each file in "
             "the book once",
    "needs": ["program", "sqlite3"],
    "words": [""],
    "minutes": 0.5,
}
WHO = [b"ZZ-ACME", b"ZZ-BETA"]
AT = "2025-03-04T09:15"
compare.NUMBERS = [b"N%d" % n for n in range(1, 400)]


class House:
    def __init__(self, program, seed, folder, files):
        self.program, self.folder, self.r = program, folder, random.Random(seed)
        self.book, self.inbox = os.path.join(folder, "house.book"), os.path.join(folder, "inbox")
        os.mkdir(self.inbox)
        self.run("init", "ZZ-WHSE1")
        day = compare.Day(seed, folder)
        for who in WHO:
            self.run("enrol", who.decode())
            day.book.enrol(who)
        self.wanted = {}
        while len(self.wanted) < files:
            raw, name = day.interchange(self.r.choice([b"ACME", b"BETA"])), f"f{len(self.wanted):03}.x12"
            printed, told, _ = day.book.send(raw, AT)
            if told:
                # A refused one isn't recorded, and may be refused otherwise when it comes again.
                continue
            with open(os.path.join(self.inbox, name), "wb") as file:
                file.write(raw)
            self.wanted[name] = printed[:-1]
        self.rules = day.book

    def run(self, *words):
        ran = subprocess.run([self.program, *words, "--book", self.book], cwd=self.folder, capture_output=True, check=False)
        if ran.returncode not in (0, 1):
            raise Wrong(f"{words}: {ran.returncode} {ran.stderr!r}")
        return ran.stdout

    def cut(self, longest):
        """Kills `take` at a random moment: whether it came before the end."""
        words = [self.program, "take", self.inbox, "--at", AT, "--book", self.book]
        process = subprocess.Popen(words, stdout=subprocess.DEVNULL, stderr=subprocess.DEVNULL)
        time.sleep(self.r.uniform(0, longest))
        process.send_signal(signal.SIGKILL)
        process.wait()
        path = os.path.join(self.folder, "copy")
        for end in ("", "-wal", "-shm"):
            if os.path.exists(path + end):
                os.remove(path + end)
            if end != "-shm" and os.path.exists(self.book + end):
                shutil.copyfile(self.book + end, path + end)
        same("integrity of a copy", tables.sqlite(path, "PRAGMA integrity_check"), "ok\n")
        return process.returncode == -signal.SIGKILL

    def answers(self):
        """The answers that lie in the folder, each of which has to be the right one; and what a kill left beside them."""
        found, left = {}, []
        for name in sorted(os.listdir(self.inbox)):
            if name.endswith(".ans"):
                with open(os.path.join(self.inbox, name), "rb") as file:
                    found[name[:-4]] = file.read()
            elif not name.endswith(".x12"):
                left.append(name)
        for name, text in found.items():
            same(f"the answer to {name}", text, self.wanted[name])
        if any(not name.endswith(".x12.new") for name in left):
            raise Wrong(f"left in the folder: {left}")
        return found, left

    def end(self):
        self.run("take", self.inbox, "--at", AT)
        same("the answers", [sorted(part) for part in self.answers()], [sorted(name for name, text in self.wanted.items() if text), []])
        for who in WHO:
            same(f"stock of {who}", self.run("stock", who.decode()), self.rules.stock(who)[0])
            same(f"outbox of {who}", self.run("outbox", who.decode()), self.rules.outbox(who)[0])


def watched(program, seed, folder):
    """What `take` says of 120 files where standard error is a terminal."""
    house = House(program, seed, folder, 120)
    status, _, shown = on_terminal([program, "take", house.inbox, "--at", AT, "--book", house.book])
    same("what a terminal shows", (status, shown), (0, b"\r100 of 120 files\r120 of 120 files\r\n"))


ADVICE = (b"ISA*00*          *00*          *ZZ*ACME           *ZZ*WHSE1          *250304*0915*U*00401*000000001*1*P*>~GS*AR*ACME*WHSE1*20250304*0915*1*X*004010~"
          b"ST*943*0001~W06*F*PO77*20250303*SHP1~W04*100*EA**SK*BOLT~N9*LT*L1~W03*100~SE*6*0001~GE*1*1~IEA*1*000000001~")


def taken_twice(program, folder):
    """A folder taken twice at one moment."""
    os.mkdir(f"{folder}/inbox")
    for name, text in {"a.x12": ADVICE, "b.x12": ADVICE.replace(b"100", b"101"), "c.x12": ADVICE[:100]}.items():
        with open(f"{folder}/inbox/{name}", "wb") as file:
            file.write(text)
    at, seen = ["--book", f"{folder}/book", "--at", "2025-03-04T09:15"], []
    for words in (["init", "ZZ-WHSE1"], ["enrol", "ZZ-ACME"]):
        subprocess.run([program, *words, *at], check=True)
    for told in ("accepted", "stored"):
        ran = subprocess.run([program, "take", f"{folder}/inbox", *at], capture_output=True, text=True, check=False)
        answers = {}
        for name in sorted(os.listdir(f"{folder}/inbox")):
            if name.endswith(".ans"):
                with open(f"{folder}/inbox/{name}", "rb") as file:
                    answers[name] = file.read()
        wanted = (1, f"a.x12 {told}\nb.x12 refused 025\nc.x12 unreadable\n", "")
        if (ran.returncode, ran.stdout, ran.stderr) != wanted:
            raise Wrong(f"a folder taken twice: {ran}")
        seen.append(answers)
    if seen[0] != seen[1] or list(seen[0]) != ["a.x12.ans", "b.x12.ans"] or len(seen[0]["a.x12.ans"]) != 265:
        raise Wrong(f"a folder taken twice: {seen}")


def main(words):
    files, rounds, seed = option(words, "--files", 200), option(words, "--rounds", 50), option(words, "--seed", 1)
    program = program_in(words)
    folder = tempfile.mkdtemp(prefix="taken")
    try:
        with tempfile.TemporaryDirectory() as other:
            watched(program, seed, other)
        with tempfile.TemporaryDirectory() as other:
            taken_twice(program, other)
        house = House(program, seed, folder, files)
        killed, seen = 0, []
        for _ in range(rounds):
            # two milliseconds a file are about what a whole run takes
            killed += house.cut(0.002 * files)
            seen.append(len(house.answers()[0]))
        house.end()
    except Wrong as wrong:
        print(f"{wrong}\nkept: {folder}")
        return 1
    print(f"{files} files, {killed} kills of {rounds} before the end; after the first there were {seen[0]} answers, after the last {seen[-1]}; "
          "each answer is right, and every file is in the book once; a folder taken twice at one moment has the same answers")
    shutil.rmtree(folder)
    return 0


if __name__ == "__main__":
    sys.exit(main(sys.argv[1:]))
