#!/usr/bin/env python3
"""Gives the commands of README.md, docs/OPERATIONS.md, docs/UPGRADING.md and docs/PROFILE.md as a newcomer would, and compares what is printed
with the pages. Not part of CI.

Usage: bench/newcomer.py [--program PROGRAM] [--page PAGE ..]     (default: crates/whx12/out/whx12 of this repository, and the four pages)

The commands are taken out of the pages of the last commit. In a block of ```console a line `$ COMMAND` is a command, and the lines after it are what
it prints, on standard output and standard error, whole. Two dots there stand for what the page leaves out: on a line by themselves for any lines, else
for anything within the line. A comment <!-- first: COMMAND --> is given too, and stands for what the page takes to be there; what it prints isn't
compared. Blocks of ```x12 and ```text hold no commands (bench/guide.py plays the first kind); a block of any other kind is told as `differs`.
A table whose first column is `Printed` has its tries in bench/guide.cases of the last commit (bench/guide.py says how its headings are read), in lines
`NUMBER: COMMAND` or `NUMBER: FILE`: the command ends with what the row of this number says, or the file of the repository shows it. The commands are
given where the table stands. Each row must be tried. A table without its heading is told as `differs`, and so is a heading without its table.

Each page has a fresh clone of the repository, a new HOME and a clean shell (env -i) which begins at the top of the clone, as a newcomer does. It finds the
system's programs, `rt`, and PROGRAM as whx12. PROGRAM also lies where a build leaves it in the clone, so that nothing is proved.
A command that ends with & runs beside those after it until the page kills it, or ends; 127.0.0.1:8080 of the pages is another, free port. The
exit status of a command must be 0, or, where the page shows a refusal or a fault by its number, another one. Wants git, curl, sqlite3 and rt.

A line is printed for each command: `ok`, `passed over: why`, or `differs`, with the page's text and the program's. The status is 1 where one differs.
"""
import argparse
import os
import re
import select
import shlex
import shutil
import signal
import socket
import subprocess
import sys
import tempfile
import time

from guide import CASES, PRINTED, is_kind, read_cases, table_names
from lib import PROGRAM, TOP

RUN = {
    "tier": "night",
    "shows": "each command of README.md and of the pages for operators and partners, given in a clean shell and a fresh clone, prints what "
             "the page shows; each row of the tables of refusals and faults holds",
    "needs": ["program", "git", "curl", "sqlite3", "rt"],
    "words": [""],
    "minutes": 5,
}
PAGES = ["README.md", "CONTRIBUTING.md", "docs/OPERATIONS.md", "docs/UPGRADING.md", "docs/PROFILE.md"]
# What isn't given here, and why: how the command begins, and the reason.
PASSED_OVER = [
    ("rt ci", "proves everything, which takes hours"),
    ("systemctl", "needs a service manager"),
    ("sudo", "needs root"),
]
PART = re.compile(r"^<!-- first: (.*?) -->$|^```(\S*)\n(.*?)^```$|^\| Printed \|[^\n]*\n\|[-|]+\n((?:\|[^\n]*\n)+)", re.M | re.S)
ADDRESS = "127.0.0.1:8080"
SECONDS = 1200


def commands(page, text, sections):
    """What a page says, in its order: a command, and what it prints; None where that isn't compared. No command: what is wrong with the page."""
    found = PART.findall(text)
    names = table_names([PRINTED] * sum(bool(rows) for _, _, _, rows in found))
    for table in [table for name, table in sections if name == page and is_kind(table, [PRINTED]) and table not in names]:
        yield None, f"{CASES} has a section {table}, the page no such table\n"
    for first, kind, block, rows in found:
        if first:
            yield first, None
        elif rows:
            table = names.pop(0)
            if (page, table) in sections:
                yield from told(rows, sections[page, table][1])
            else:
                yield None, f"{CASES} has no section {table}\n"
        elif kind == "console":
            # A line that begins with neither a prompt nor a command before it would be lost.
            head, *parts = re.split(r"^\$ ", block, flags=re.M)
            if head:
                yield None, head
            for part in parts:
                lines = re.match(r"(?:.*\\\n)*.*\n", part).group()
                yield lines.rstrip("\n"), part[len(lines):]
        elif kind not in ("x12", "text"):
            yield None, block


def told(rows, tries):
    """The tries of a table, as commands and what they print at last."""
    names = [re.match(r"\| `(?:fault )?((\d+) [^`]+)`", row).groups() for row in rows.splitlines()]
    left = dict((number, name) for name, number in names)
    for line in tries:
        number, _, command = line.partition(": ")
        name = next((name for name, each in names if each == number), None)
        left.pop(number, None)
        if name is None:
            yield None, f"no row {number}\n"
        elif re.fullmatch(r"(bench|crates)/\S+", command):
            if not os.path.exists(os.path.join(TOP, command)):
                yield None, f"no {command}\n"
        else:
            yield command, f"..\n{'fault' if int(number) >= 40 else 'refused'} {name.replace('code', '..')}\n"
    for name in left.values():
        yield None, f"not tried: {name}\n"


def is_shown(wanted, got):
    """Whether the page shows what was printed."""
    lines = [r"(?:.*\n)*" if line == ".." else ".*".join(map(re.escape, line.split(".."))) + r"\n" for line in wanted.splitlines()]
    return re.fullmatch("".join(lines), got) is not None


class Shell:
    """A clean shell in a fresh clone."""

    def __init__(self, folder, program):
        self.folder, self.home = folder, os.path.join(folder, "home")
        clone, programs = (os.path.join(folder, name) for name in ("whx12", "bin"))
        subprocess.run(["git", "clone", "--quiet", TOP, clone], check=True)
        built = os.path.join(clone, "crates", "whx12", "out")
        for path in (self.home, programs, built):
            os.makedirs(path)
        shutil.copy2(program, os.path.join(built, "whx12"))
        os.symlink(program, os.path.join(programs, "whx12"))
        with open(os.path.join(self.home, ".curlrc"), "w", encoding="ascii") as file:
            # curl draws its meter where it prints to a file, and none on a terminal.
            file.write("no-progress-meter\n")
        if shutil.which("rt"):
            os.symlink(os.path.realpath(shutil.which("rt")), os.path.join(programs, "rt"))
        with socket.socket() as one:
            one.bind(("127.0.0.1", 0))
            self.port = one.getsockname()[1]
        self.clone, self.address, self.given = clone, f"127.0.0.1:{self.port}", 0
        words = ["env", "-i", f"PATH={programs}:/usr/bin:/bin", f"HOME={self.home}", "LC_ALL=C.UTF-8", "sh"]
        self.shell = subprocess.Popen(words, cwd=clone, stdin=subprocess.PIPE, stdout=subprocess.PIPE, text=True, bufsize=1, start_new_session=True)

    def give(self, command):
        """Gives a command: its exit status, and what it printed. None of a status where the shell has ended or the time has."""
        self.given += 1
        printed = os.path.join(self.folder, f"printed{self.given}")
        # Under eval what the shell can't read ends it, and doesn't leave it waiting for the rest.
        self.shell.stdin.write(f"eval {shlex.quote(command.replace(ADDRESS, self.address))} >{printed} 2>&1 </dev/null; echo $?\n")
        self.shell.stdin.flush()
        ready = select.select([self.shell.stdout], [], [], SECONDS)[0]
        told = self.shell.stdout.readline().strip() if ready else ""
        if command.partition(" #")[0].rstrip().endswith("&"):
            self.wait_for_listener()
        with open(printed, encoding="utf-8", errors="replace") as file:
            text = file.read().replace(self.address, ADDRESS)
        return int(told) if told else None, text if not text or text.endswith("\n") else text + "\n"

    def wait_for_listener(self):
        """A server that was just started is given the time in which a person types the next command."""
        for _ in range(200):
            with socket.socket() as one:
                # Bound where nobody listens. A connection would be one of those that the server counts and prints.
                one.setsockopt(socket.SOL_SOCKET, socket.SO_REUSEADDR, 1)
                try:
                    one.bind(("127.0.0.1", self.port))
                except OSError:
                    return
            time.sleep(0.05)

    def close(self):
        """Ends the shell, and what it left running."""
        os.killpg(self.shell.pid, signal.SIGTERM)
        self.shell.wait(20)


def play(page, program):
    """Gives the commands of a page; how many of them were given, and how many differ."""
    given = differ = 0
    with tempfile.TemporaryDirectory(prefix="whx12-newcomer-") as folder:
        shell = Shell(folder, program)
        with open(os.path.join(shell.clone, page), encoding="utf-8") as file:
            text = file.read()
        sections = read_cases(shell.clone)
        try:
            for command, wanted in commands(os.path.basename(page), text, sections):
                why = next((why for begin, why in PASSED_OVER if (command or "").startswith(begin)), None)
                if why:
                    print(f"{page}: passed over: {why}: {command}", flush=True)
                    continue
                if command is None:
                    print(f"{page}: differs: no command:\n{wanted}", flush=True)
                    differ += 1
                    continue
                status, got = shell.give(command)
                given += 1
                refused = re.search(r"^(.* )?(refused|fault) \d", wanted or "", re.M) is not None
                if status is not None and (status != 0) == refused and (wanted is None or is_shown(wanted, got)):
                    print(f"{page}: ok: {command}", flush=True)
                    continue
                differ += 1
                print(f"{page}: differs: {command}\n-- the page\n{wanted or ''}-- the program, with status {status}\n{got}--", flush=True)
                if status is None:
                    break
        finally:
            shell.close()
    return given, differ


def main():
    parser = argparse.ArgumentParser()
    parser.add_argument("--program", default=PROGRAM)
    parser.add_argument("--page", nargs="+", default=PAGES)
    asked = parser.parse_args()
    found = [play(page, os.path.abspath(asked.program)) for page in asked.page]
    given, differ = map(sum, zip(*found))
    for page, table in read_cases(TOP):
        if is_kind(table, [PRINTED]) and page not in map(os.path.basename, PAGES):
            print(f"{CASES} has a section of another page: {page}: {table}")
            differ += 1
    print(f"{given} commands of {len(found)} pages given, {differ} otherwise than the pages have them")
    return 1 if differ or not given else 0


if __name__ == "__main__":
    sys.exit(main())
