#!/usr/bin/env python3
"""Plays the cases of the program's tests by processes of the program, one for each line of a script, over a
book in a file.

Usage: bench/stories.py [--server] [PROGRAM]
       (default: crates/whx12/out/whx12, which `rt run` in that folder leaves)

The cases are those of crates/test_program/data (the files .cases of stories/ and scripts/); their form
is told in crates/test_program/src/playing.rt. Each line of a script is a process that opens the book and
closes it. What is printed and told and the exit status are compared; the status is 1 where one differs.

With --server each line that a server takes (send, count, pick, recount, stock, orders, outbox, open,
depositors) is asked of a server of the book, which is started for it at the line's moment and then
killed: the same texts, the same status.

A case that has `explained` is played once more, each line with --explain: what is told then, but for the
lines' numbers, which a script alone tells.
"""
import glob
import os
import re
import subprocess
import sys
import tempfile

from lib import HERE, program_of, same

RUN = {
    "tier": "night",
    "shows": "the cases of the program's tests, a process a line over books in files; through "
             "servers",
    "needs": ["program"],
    "words": ["", "--server"],
    "minutes": 6,
}
CASES = os.path.join(HERE, "..", "crates", "test_program", "data")


def text_of(path):
    """The text of a file: a line that ends in `\\` goes on in the next one, without the `\\` and the end of the line."""
    with open(path, encoding="utf-8", newline="") as file:
        return file.read().replace("\\\n", "")


def spread(text):
    """The text with each part in braces as often as it says, with its numbers."""
    def many(found):
        times, part = found.group(1).split(":", 1)
        return "".join(part.replace("#", str(n)).replace("%", f"{n + 1:04d}") for n in range(int(times)))
    return re.sub(r"\{([^}]*)\}", many, text)


def sections(text):
    """The sections of a text: the first word, the rest of its line, and what stands below it."""
    for section in text.split("@"):
        head, _, body = section.partition("\n")
        word, _, rest = head.partition(" ")
        yield word, rest, body


def write_files(text, folder):
    for word, name, body in sections(text):
        if word == "file":
            with open(f"{folder}/{name}", "wb") as file:
                file.write(spread(body).encode())


TAKEN = {"send", "count", "pick", "recount", "stock", "orders", "outbox", "open", "depositors"}


def over_book(program, folder, first, rest):
    """Runs a line over the book in its file."""
    return subprocess.run([program, first, "--book", "case.book", *rest], cwd=folder, capture_output=True, check=False)


def over_server(program, folder, first, rest):
    """Asks a server of the book for a line, which is started for it and then killed."""
    at = [rest[n : n + 2] for n, word in enumerate(rest) if word == "--at"][:1]
    words = ["serve", "--book", "case.book", "--listen", "127.0.0.1:0", "--count", "65535", "--clerks", *sum(at, []), "--explain"]
    with subprocess.Popen([program, *words], cwd=folder, stdout=subprocess.DEVNULL, stderr=subprocess.PIPE) as server:
        told = server.stderr.readline().decode()
        if not told.startswith("listening at "):
            sys.exit(f"{words}: {told}")
        asked = [word for n, word in enumerate(rest) if word != "--at" and (n == 0 or rest[n - 1] != "--at")]
        ran = subprocess.run([program, first, "--server", told.split()[-1], *asked], cwd=folder, capture_output=True, check=False)
        server.kill()
    return ran


NUMBERED = re.compile(r"^refused at line \d+\n", re.MULTILINE)


def play(program, name, text, before, by_server, more=()):
    """Plays a case, with more words on each line: how many processes it took."""
    with tempfile.TemporaryDirectory(prefix="whx12-case-") as folder:
        write_files(before, folder)
        write_files(text, folder)
        found = {word: (rest, body) for word, rest, body in reversed(list(sections(text)))}
        printed, told, status, runs = "", "", 0, 0
        for line in found["script"][1].split("\n"):
            if line and status < 2:
                first, *rest = line.split(" ")
                run = over_server if by_server and first in TAKEN else over_book
                ran = run(program, folder, first, [*rest, *more])
                printed, told, status = printed + ran.stdout.decode(), told + ran.stderr.decode(), max(status, ran.returncode)
                runs += 1
        ends = found["ends"]
        wanted = NUMBERED.sub("", found["explained"][1]) if more else ends[1]
        same(name, (printed, told, status), (spread(found.get("printed", ("", ""))[1]), wanted, int(ends[0])))
        if "explained" in found and not more:
            runs += play(program, f"{name}, explained", text, before, by_server, ["--explain"])
        return runs


def main(words):
    by_server = "--server" in words
    words = [word for word in words if word != "--server"]
    program = program_of(words[0] if words else None)
    cases, runs, paths = 0, 0, sorted(glob.glob(f"{CASES}/stories/*.cases") + glob.glob(f"{CASES}/scripts/*.cases"))
    for path in paths:
        before, *texts = text_of(path).split("@case ")
        for text in texts:
            name = f"{os.path.basename(os.path.dirname(path))}/{os.path.basename(path)}, {text.partition(chr(10))[0]}"
            runs += play(program, name, "case " + text, before, by_server)
            cases += 1
    print(f"{cases} cases of {len(paths)} files: {runs} processes, all as told")


if __name__ == "__main__":
    main(sys.argv[1:])
