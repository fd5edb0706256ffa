#!/usr/bin/env python3
"""Puts odd things where the program reads and writes files.

Usage: bench/files.py [PROGRAM]     (default: crates/whx12/out/whx12, which `rt run` in that folder leaves)

Each case has a folder of its own with a book of ZZ-WHSE1, in which ZZ-ACME is enrolled, and an inbox.
The status is 1 where something is otherwise than said here:

  - a symbolic link to the book and a hard link to a copy of it that stand where an answer, or the file
    that becomes it, is to be written: both stay as they are, byte for byte, and the answer is there as a
    file of its own; a book that has two names itself isn't opened (44);
  - what an earlier stop left is removed; a folder at an answer's name is fault 44, and taking again
    mends it; an old answer beside a text that has none now is removed, and of a link the link alone;
  - pipes, sockets, folders, links that lead nowhere, in a circle or to a folder, names that aren't UTF-8
    and names that are too long are passed over, and the interchanges beside them are taken; a link to a
    file is taken as that file;
  - a file without an end, and one byte more than may be, as an interchange, a sheet, a list and a
    script; what just may be is taken;
  - words that aren't UTF-8.

A process has 20 seconds and 512 MiB.
"""
import os
import resource
import shutil
import socket
import subprocess
import sys
import tempfile

from lib import program_of, same

RUN = {
    "tier": "night",
    "shows": "odd things where files are read and written: links, pipes, names, files without "
             "an end",
    "needs": ["program"],
    "words": [""],
    "minutes": 0.3,
}
AT = ["--at", "2025-03-04T09:15"]
MEMORY = 512 << 20
ADVICE = (b"ISA*00*          *00*          *ZZ*ACME           *ZZ*WHSE1          *250304*0915*U*00401*000000001*1*P*>~"
          b"GS*AR*ACME*WHSE1*20250304*0915*1*X*004010~ST*943*0001~W06*F*PO77*20250303*SHP1~W04*100*EA**SK*BOLT~N9*LT*L1~W03*100~"
          b"SE*6*0001~GE*1*1~IEA*1*000000001~")
ANSWER = (b"ISA*00*          *00*          *ZZ*WHSE1          *ZZ*ACME           *250304*0915*U*00401*000000001*0*P*>~"
          b"TA1*000000001*250304*0915*A*000~GS*FA*WHSE1*ACME*20250304*0915*1*X*004010~ST*997*0001~AK1*AR*1~AK2*943*0001~AK5*A~"
          b"AK9*A*1*1*1~SE*6*0001~GE*1*1~IEA*1*000000001~")
EXPECTED = "item,lot,expiry,expected,on_hand,reserved,shipped\nBOLT,L1,,100,0,0,0\n"
UNREADABLE, BAD_TEXT = (1, "", "refused 1 Unreadable\n"), (1, "", "refused 32 BadText\n")
TOO_MANY = (1, "", "refused 33 TooManyLines\n")
LONG_SCRIPT, NO_TEXT = (2, "", "a script has at most 16,777,216 bytes\n"), (2, "", "a word isn't UTF-8 text\n")
MOST, MOST_SCRIPT = 1_048_576, 16_777_216


def limited():
    resource.setrlimit(resource.RLIMIT_AS, (MEMORY, resource.getrlimit(resource.RLIMIT_AS)[1]))


class House:
    """A book in a new folder, and an inbox beside it with one interchange."""

    def __init__(self, program, folder):
        self.program, self.folder = program, folder
        self.book, self.inbox = f"{folder}/harbor.book", f"{folder}/inbox"
        os.mkdir(self.inbox)
        self.put("a.x12", ADVICE)
        same("init", self.run("init", "ZZ-WHSE1"), (0, "", ""))
        same("enrol", self.run("enrol", "ZZ-ACME", *AT), (0, "", ""))

    def run(self, *words):
        """The exit status of a command over the book, what it printed and what it told."""
        return self.run_words([*words, "--book", self.book])

    def run_words(self, words):
        words = [self.program, *words]
        ran = subprocess.run(words, cwd=self.folder, capture_output=True, check=False, timeout=20, stdin=subprocess.DEVNULL, preexec_fn=limited)
        return ran.returncode, ran.stdout.decode(), ran.stderr.decode()

    def put(self, name, text):
        """Writes a file of the inbox; the name may be bytes."""
        with open(self.path(name), "wb") as file:
            file.write(text)
        return self.path(name)

    def path(self, name):
        return os.path.join(os.fsencode(self.inbox), name if isinstance(name, bytes) else name.encode())

    def holds(self, path):
        with open(path, "rb") as file:
            return file.read()

    def take(self, what, *lines):
        """Takes the inbox; these lines must be printed."""
        same(what, self.run("take", self.inbox, *AT), (0, "".join(f"{line}\n" for line in lines), ""))

    def is_answered(self, what, name="a.x12"):
        """Whether the answer to the advice is a file of its own, and nothing is left of its making."""
        path = self.path(f"{name}.ans")
        same(f"{what}: a link", (os.path.islink(path), os.lstat(path).st_nlink), (False, 1))
        with open(path, "rb") as file:
            same(f"{what}: the answer", file.read(), ANSWER)
        same(f"{what}: left over", os.path.lexists(self.path(f"{name}.new")), False)

    def is_sound(self, what):
        same(f"{what}: the stock", self.run("stock", "ZZ-ACME", "--csv"), (0, EXPECTED, ""))


def links(house):
    """Symbolic links to the book, and hard links to a copy of it, at the names that are written, before the first answer and after it."""
    kept = f"{house.folder}/copy.book"
    shutil.copyfile(house.book, kept)
    told = "accepted"
    for link, to in ((os.symlink, house.book), (os.link, kept)):
        for name in ("a.x12.ans", "a.x12.new"):
            what, path = f"{link.__name__} at {name}", house.path(name)
            for at in {path, house.path("a.x12.ans")}:
                if os.path.lexists(at):
                    os.unlink(at)
            link(os.fsencode(to), path)
            before, copied = house.holds(house.book), house.holds(kept)
            house.take(what, f"a.x12 {told}")
            same(f"{what}: the book", told == "accepted" or house.holds(house.book) == before, True)
            same(f"{what}: the copy", house.holds(kept) == copied, True)
            house.is_answered(what)
            house.is_sound(what)
            told = "stored"
    before = house.holds(house.book)
    os.unlink(house.path("a.x12.ans"))
    os.link(house.book, house.path("a.x12.ans"))
    same("a book with two names", house.run("take", house.inbox, *AT), (3, "", "fault 44 Device\n"))
    same("a book with two names: the book", house.holds(house.book) == before, True)
    os.unlink(house.path("a.x12.ans"))
    house.take("a book with one name again", "a.x12 stored")
    house.is_answered("a book with one name again")


def left_alone(house):
    """An answer that is there already keeps its file; one that goes on after it, or is cut, doesn't."""
    house.take("first", "a.x12 accepted")
    path = house.path("a.x12.ans")
    first = os.lstat(path)
    house.take("again", "a.x12 stored")
    again = os.lstat(path)
    same("the answer's file", (again.st_ino, again.st_mtime_ns, again.st_ctime_ns), (first.st_ino, first.st_mtime_ns, first.st_ctime_ns))
    for what, text in (("longer", ANSWER + b"\n"), ("cut", ANSWER[:-1]), ("other", b"X" + ANSWER[1:]), ("empty", b"")):
        house.put("a.x12.ans", text)
        house.take(what, "a.x12 stored")
        house.is_answered(what)


def left_over(house):
    """What an earlier stop left, and a folder where an answer is to be."""
    house.put("a.x12.new", b"half of an ans")
    house.take("a left-over file", "a.x12 accepted")
    house.is_answered("a left-over file")
    os.unlink(house.path("a.x12.ans"))
    os.mkdir(house.path("a.x12.ans"))
    same("a folder", house.run("take", house.inbox, *AT), (3, "", "fault 44 Device\n"))
    same("a folder: left over", sorted(os.listdir(house.inbox)), ["a.x12", "a.x12.ans"])
    os.rmdir(house.path("a.x12.ans"))
    house.take("mended", "a.x12 stored")
    house.is_answered("mended")


def gone(house):
    """An answer of before, beside a text that has none now: it is removed, and of a link the link alone."""
    house.take("before", "a.x12 accepted")
    house.is_answered("before")
    for what in ("a file", "a link"):
        house.put("a.x12", b"no interchange")
        if what == "a link":
            os.symlink(os.fsencode(house.book), house.path("a.x12.ans"))
        before = house.holds(house.book)
        same(f"{what}: told", house.run("take", house.inbox, *AT), (1, "a.x12 unreadable\n", ""))
        same(f"{what}: what is left", sorted(os.listdir(house.inbox)), ["a.x12"])
        same(f"{what}: the text", house.holds(house.path("a.x12")), b"no interchange")
        same(f"{what}: the book", house.holds(house.book) == before, True)
    house.is_sound("after")


def odd_entries(house):
    """What is passed over, and what is taken beside it."""
    longest, longer = b"n" * 247 + b".x12", b"n" * 248 + b".x12"
    os.mkfifo(house.path("b.x12"))
    os.symlink(b"nowhere", house.path("c.x12"))
    os.symlink(b"d.x12", house.path("d.x12"))
    os.symlink(b".", house.path("e.x12"))
    os.mkdir(house.path("f.x12"))
    with socket.socket(socket.AF_UNIX) as peer:
        peer.bind(house.path("g.x12").decode())
    os.symlink(b"/dev/zero", house.path("h.x12"))
    for name in (b"\xff.x12", b"\xff.txt", b"i\xc3.x12", longer):
        house.put(name, ADVICE)
    house.put("advice", ADVICE)
    os.symlink(b"advice", house.path("l.x12"))
    house.put(longest, ADVICE)
    told = 3 * "an entry passed over: its name isn't UTF-8\n" + f"{longer.decode()} passed over: its name has more than 251 bytes\n"
    lines = f"a.x12 accepted\nl.x12 stored\n{longest.decode()} stored\n"
    same("odd entries", house.run("take", house.inbox, *AT), (1, lines, told))
    for name in ("a.x12", "l.x12", longest.decode()):
        house.is_answered("odd entries", name)
    same("odd entries: answers", sum(name.endswith(b".ans") for name in os.listdir(os.fsencode(house.inbox))), 3)
    same("odd entries: links", os.readlink(house.path("c.x12")), b"nowhere")


def limits(house):
    """Files without an end, and files at their limits."""
    for name in ("/dev/zero", house.put("z.x12", bytes(300 << 20))):
        same(f"send {name}", house.run("send", name, *AT), UNREADABLE)
        same(f"count {name}", house.run("count", "ZZ-ACME", "T1", "SHP1", name, *AT), BAD_TEXT)
        same(f"roster {name}", house.run("roster", name, *AT), BAD_TEXT)
        same(f"script {name}", house.run_words(["script", name]), LONG_SCRIPT)
    same("take", house.run("take", house.inbox, *AT), (1, "a.x12 accepted\nz.x12 unreadable\n", ""))
    house.is_sound("take")
    longer = ADVICE.replace(b"000000001", b"000000002").replace(b"SHP1", b"SHP2").ljust(MOST + 1, b"\n")
    same("an advice too long by one", house.run("send", house.put("a", longer), *AT), UNREADABLE)
    sheet, roster = b"BOLT,L1,90\n", b"depositors = ['ZZ-BETA']\n"
    same("a sheet too long by one", house.run("count", "ZZ-ACME", "T1", "SHP1", house.put("s", sheet.ljust(MOST + 1, b"\n")), *AT), BAD_TEXT)
    same("the longest sheet", house.run("count", "ZZ-ACME", "T1", "SHP1", house.put("s", sheet.ljust(MOST, b"\n")), *AT)[0::2], (0, ""))
    many = sheet * 100_000
    same("a sheet of 100,000 lines", house.run("count", "ZZ-ACME", "T2", "SHP1", house.put("s", many), *AT), TOO_MANY)
    same("a list too long by one", house.run("roster", house.put("r", roster.ljust(MOST + 1, b"\n")), *AT), BAD_TEXT)
    same("the longest list", house.run("roster", house.put("r", roster.ljust(MOST, b"\n")), *AT), (0, "ZZ-BETA enrolled\n", ""))
    script = b"init ZZ-WHSE1\nenrol ZZ-ACME --at 2025-03-04T09:15\nstock ZZ-ACME --csv\nstock ZZ-"
    for size, told in ((MOST_SCRIPT + 1, LONG_SCRIPT), (MOST_SCRIPT, (1, EXPECTED.partition("\n")[0] + "\n", BAD_TEXT[2]))):
        same(f"a script of {size} bytes", house.run_words(["script", house.put("p", script.ljust(size, b"A"))]), told)


def words(house):
    """Words that aren't UTF-8, and a name that is a word of the program's."""
    for line in ([b"stock", b"ZZ-\xff", b"--book", house.book], [b"\xc3"], [b"send", b"\xff", b"--book", house.book], [b"stock", b"ZZ-ACME", b"--book", b"\xff"]):
        same(f"the words {line}", house.run_words(line), NO_TEXT)
    with open(f"{house.folder}/--explain", "wb") as file:
        file.write(ADVICE)
    same("a file named --explain", house.run_words(["send", "--book", house.book, *AT, "--", "--explain"])[0::2], (0, ""))


def main(argv):
    program = program_of(argv[0] if argv else None)
    cases = [links, left_alone, left_over, gone, odd_entries, limits, words]
    for case in cases:
        with tempfile.TemporaryDirectory(prefix="whx12-files-") as folder:
            case(House(program, folder))
    print(f"{len(cases)} folders with odd things in them: links, leftovers, old answers, entries, limits, words")


if __name__ == "__main__":
    main(sys.argv[1:])
