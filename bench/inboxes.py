#!/usr/bin/env python3
"""Takes inboxes away and hands documents on, kills the program at each of its calls, and renames files into an inbox meanwhile.

Usage: bench/inboxes.py [PROGRAM]     (default: crates/whx12/out/whx12, which `rt run` in that folder leaves)

Wants strace, by which a call of the system kills the program, or takes a while.

odd       `take IN --done DONE` of good, refused, unreadable and odd files: what is moved with its answer, under
          odd names too, what stays and says so, nothing twice under one name, DONE on another file system
killed    the same killed before each of its calls that change a folder or a file, over three texts: the next
          run has each text in the book once and in DONE once, with its answer
races     a file is renamed to a name of the inbox while each such call is made: no text is lost, none is
          moved that wasn't handed in
documents `outbox WHO --into DIR`, over a book and by a server, killed before each such call: a document is
          there whole or not at all, and the next run writes what is missing; none that was sent comes again

Status 1 where something differs; the folder is then kept.
"""
import os
import re
import shutil
import subprocess
import sys
import tempfile
import time

import lib
from lib import Wrong, program_of, same

RUN = {
    "tier": "night",
    "shows": "inboxes taken away and documents handed on: odd files, kills at each call, files that come meanwhile",
    "needs": ["program", "strace"],
    "words": [""],
    "minutes": 3,
}
AT = ["--at", "2025-03-04T09:15"]
CALLS = "rename,renameat,renameat2,mkdir,mkdirat,unlink,unlinkat,fsync,fdatasync,openat"


def text_of(number, item="BOLT"):
    """An advice under a control number, and a shipment of the same number."""
    return lib.interchange("AR", number, lib.advice(f"SHP{number}", [(100, item, "L1")]), wants=1)


class House:
    """A folder with a book, an inbox `in`, and `done`."""

    def __init__(self, program):
        self.program = program
        self.folder = tempfile.mkdtemp(prefix="inboxes")
        self.book = self.at("harbor.book")
        for name in ("in", "done"):
            os.mkdir(self.at(name))
        same("init", self.run("init", "ZZ-WHSE1")[0], 0)
        same("enrol", self.run("enrol", "ZZ-ACME", *AT)[0], 0)

    def at(self, *names):
        return os.path.join(self.folder, *names)

    def put(self, content, *names):
        with open(self.at(*names), "w", encoding="ascii") as file:
            file.write(content)

    def read(self, *names):
        with open(self.at(*names), encoding="ascii") as file:
            return file.read()

    def has(self, *names):
        return sorted(os.listdir(self.at(*names)))

    def command(self, *words, over=None):
        return [self.program, *words, *(over or ["--book", self.book])]

    def run(self, *words, before=(), over=None):
        ran = subprocess.run([*before, *self.command(*words, over=over)], cwd=self.folder, capture_output=True, timeout=60, check=False)
        return ran.returncode, ran.stdout.decode("utf-8", "replace"), ran.stderr.decode("utf-8", "replace")

    def take(self, *more, before=()):
        return self.run("take", "in", "--done", "done", *AT, *more, before=before)

    def filed(self):
        """The control numbers of the texts under `done`, each of which has its answer beside it."""
        found = []
        for folder in self.has("done"):
            names = self.has("done", folder)
            texts = [name for name in names if name.endswith(".x12")]
            same(f"answers in {folder}", names, sorted(texts + [f"{name}.ans" for name in texts]))
            for name in texts:
                number = re.search(r"IEA\*1\*(\d+)", self.read("done", folder, name))[1]
                same(f"the answer of {number}", f"TA1*{number}*250304*0915*A*000" in self.read("done", folder, f"{name}.ans"), True)
                found.append(int(number))
        return sorted(found)

    def entries(self):
        """How many entries the book has, which is whole."""
        status, out, told = self.run("verify")
        same("verify", (status, told), (0, ""))
        return int(out.split()[1])


def killing(number):
    return ["strace", "-f", "-qq", "-o", "/dev/null", "-e", f"trace={CALLS}", "-e", f"inject={CALLS}:signal=KILL:when={number}"]


def slowing(number):
    return ["strace", "-f", "-qq", "-o", "/dev/null", "-e", f"trace={CALLS}", "-e", f"inject={CALLS}:delay_enter=80000:when={number}"]


def odd(program):
    """Inboxes with odd files."""
    house = House(program)
    house.put(text_of(1), "in", "a b.x12")
    house.put(text_of(1, "NUT"), "in", "c.x12")
    house.put("X", "in", "d.x12")
    house.put("notes", "in", "notes.txt")
    same("take", house.take(), (1, "a b.x12 accepted\nc.x12 refused 025\nd.x12 unreadable\n", ""))
    run = "2025-03-04T0915"
    same("what was moved", (house.has("done"), house.has("done", run), house.has("done", run, "unreadable")),
         ([run], ["a b.x12", "a b.x12.ans", "c.x12", "c.x12.ans", "unreadable"], ["d.x12"]))
    same("what stays", house.has("in"), ["notes.txt"])
    same("an empty inbox", (house.take(), house.has("done")), ((0, "", ""), [run, "taking"]))
    names = ["-dash.x12", "--book.x12", "a  b.x12", " .x12", "it's.x12", "line\nfeed.x12", "*.x12", "gr\u00f6\u00dfe.x12", "n" * 247 + ".x12", "a.x12 accepted\nb.X12"]
    for number, name in enumerate(names, 2):
        house.put(text_of(number), "in", name)
    status, out, told = house.take()
    same("odd names", (status, sorted(out.splitlines()), told), (0, sorted(f"{name} accepted".replace("\n", "\\x0a") for name in names), ""))
    same("where they are", house.has("done", f"{run}-2"), sorted(names + [f"{name}.ans" for name in names]))
    os.mkdir(house.at("in", "folder.x12"))
    os.symlink("../harbor.book", house.at("in", "link.x12"))
    os.symlink("nowhere", house.at("in", "lost.x12"))
    house.put(text_of(99), "in", "n" * 248 + ".x12")
    house.put(text_of(99)[:50], "in", ".half.X12.part")
    there = house.has("in")
    status, out, told = house.take("--explain")
    same("what can't be taken", (status, out, house.has("in")), (1, "", there))
    for line in ("link.x12 stays: it is a symbolic link", "folder.x12 passed over: no regular file", "lost.x12 passed over: no regular file"):
        same(line, line in told.splitlines(), True)
    for name in there:
        if name.endswith("12"):
            (shutil.rmtree if name == "folder.x12" else os.remove)(house.at("in", name))
    house.put(text_of(98), "in", "z.x12")
    with tempfile.TemporaryDirectory(dir="/dev/shm") as other:
        if os.stat(other).st_dev != os.stat(house.folder).st_dev:
            same("another file system", house.run("take", "in", "--done", other, *AT), (1, "", "z.x12 stays: the other folder is on another file system\n"))
    same("no inbox", house.run("take", "inn", "--done", "done", *AT)[:2], (3, ""))
    same("a done that is a file", house.run("take", "in", "--done", "harbor.book", *AT)[:2], (3, ""))
    same("what stayed", house.take(), (0, "z.x12 accepted\n", ""))
    shutil.rmtree(house.folder)


def killed(program):
    """The program is killed before each call; how many calls there are."""
    house, number, wanted = House(program), 0, []
    for call in range(1, 400):
        for name in ("a.x12", "b.x12", "c.x12"):
            if not os.path.exists(house.at("in", name)):
                number += 1
                house.put(text_of(number), "in", name)
        wanted = list(range(1, number + 1))
        status, _, _ = house.take(before=killing(call))
        if status == 0:
            break
        same("take after a kill", house.take()[0] in (0, 1), True)
    else:
        raise Wrong("no end of calls")
    while house.has("in"):
        same("take at last", house.take()[0], 0)
    shutil.rmtree(house.at("done", "taking"), ignore_errors=True)
    same("each text once, with its answer", (house.filed(), house.entries()), (wanted, len(wanted) + 1))
    shutil.rmtree(house.folder)
    return call


def races(program, calls):
    """A file comes under a name that is taken, while each call is made."""
    house, number = House(program), 0
    for call in range(1, calls + 1):
        number += 2
        house.put(text_of(number - 1), "in", "a.x12")
        house.put(text_of(number), "next")
        with subprocess.Popen([*slowing(call), *house.command("take", "in", "--done", "done", *AT)], cwd=house.folder, stdout=subprocess.DEVNULL) as process:
            time.sleep(0.04)
            # Two names of one file: renaming one to the other would leave both.
            os.rename(house.at("next"), house.at("in", "a.x12"))
            same("take while a file comes", process.wait(60) in (0, 1), True)
        while house.has("in"):
            same("take what came", house.take()[0], 0)
    shutil.rmtree(house.at("done", "taking"), ignore_errors=True)
    found = house.filed()
    same("nothing was moved that wasn't handed in", house.entries() - 1, len(found))
    # A file that is written over before it is taken was lost by who renamed over it.
    same("what came is there", [n for n in range(2, number + 1, 2) if n not in found], [])
    shutil.rmtree(house.folder)


def documents(program):
    """Documents that are handed on."""
    house = House(program)
    house.put(text_of(1), "first.x12")
    same("send", house.run("send", "first.x12", *AT)[0], 0)
    house.put("BOLT,L1,90\n", "count.csv")
    document = house.run("count", "ZZ-ACME", "T1", "SHP1", "count.csv", *AT)[1][:-1]
    words = ["outbox", "ZZ-ACME", "--into", "out"]
    os.mkdir(house.at("out"))
    calls = 0
    for call in range(1, 200):
        ended = house.run(*words, before=killing(call))[0] == 0
        if os.path.exists(house.at("out", "2.x12")):
            same("a document is whole", house.read("out", "2.x12"), document)
        if ended:
            calls = call
            break
        same("the next run", (house.run(*words)[0], house.read("out", "2.x12"), house.has("out")), (0, document, ["2.x12"]))
        os.remove(house.at("out", "2.x12"))
    same("it ended", calls > 0, True)
    same("again", house.run(*words), (0, "", ""))
    os.rename(house.at("out", "2.x12"), house.at("out", "2.x12.sent"))
    same("one that was sent", (house.run(*words), house.has("out")), ((0, "", ""), ["2.x12.sent"]))
    os.remove(house.at("out", "2.x12.sent"))
    house.put("", "out", "2.x12")
    same("another file", (house.run(*words), house.read("out", "2.x12")), ((1, "", "out/2.x12 has other bytes, and stays as it is\n"), ""))
    os.remove(house.at("out", "2.x12"))
    socket = house.at("sock")
    server = subprocess.Popen(house.command("serve", "--listen", f"unix:{socket}"), stdout=subprocess.DEVNULL)
    try:
        while not os.path.exists(socket):
            time.sleep(0.02)
        over = ["--server", f"unix:{socket}"]
        same("by a server", (house.run(*words, over=over), house.read("out", "2.x12")), ((0, "2.x12 written\n", ""), document))
        same("by a server again", house.run(*words, over=over), (0, "", ""))
        same("a stranger", house.run("outbox", "ZZ-NONE", "--into", "out", over=over), (1, "", "refused 20 UnknownDepositor\n"))
    finally:
        server.terminate()
        server.wait(10)
    shutil.rmtree(house.folder)


def main(words):
    program = program_of(words[0] if words else None)
    odd(program)
    calls = killed(program)
    races(program, calls)
    documents(program)
    print(f"odd files as wanted; killed before each of {calls} calls, with a file that came at each; documents whole, each once")
    return 0


if __name__ == "__main__":
    sys.exit(main(sys.argv[1:]))
