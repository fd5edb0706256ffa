#!/usr/bin/env python3
"""Whether the first command of a newcomer says what it does meanwhile.

Usage: bench/first.py [--minutes N] [--program PROGRAM]

Runs examples/day/run.sh in a fresh clone of the last commit, where the program isn't built yet: on
standard error it tells which crate is being proved and how many of how many are proved. That is said
within a minute; the crates are those that the program stands on, and their count never falls. With
--minutes it is stopped after so long, and else at its end, where the day's own lines are as printed.txt
has them: after an hour on a new machine. Then it is run with a program that is built, PROGRAM where it
is given: the program is found, nothing is proved, and the lines are the same.
"""
import argparse
import os
import re
import shutil
import signal
import subprocess
import sys
import tempfile
import threading
import time

from lib import TOP, below

RUN = {
    "tier": "night",
    "shows": "a newcomer's first build says which crate is being proved and how many are; a "
             "program that is built is found",
    "needs": ["program", "rt"],
    "words": ["--minutes 3"],
    "minutes": 4,
}
PROVING = re.compile(r"proving (\w+); (\d+) of (\d+) crates are proved")


def run(clone, book, minutes):
    """Runs the day: what it printed, its lines on standard error with the seconds after which each came, and its status; None where it was stopped."""
    start, told = time.time(), []
    with open(f"{clone}.out", "w+", encoding="utf-8") as out:
        with subprocess.Popen([f"{clone}/examples/day/run.sh", book], stdout=out, stderr=subprocess.PIPE, text=True, start_new_session=True) as day:
            stop = threading.Timer(60 * minutes, os.killpg, [day.pid, signal.SIGKILL])
            stop.start()
            for line in day.stderr:
                told.append((time.time() - start, line.rstrip("\n")))
            stop.cancel()
        out.seek(0)
        return out.read(), told, None if day.returncode == -signal.SIGKILL else day.returncode


def building(clone, book, minutes, wanted):
    """What is wrong with what is said while the program is proved and built."""
    crates = below("whx12")
    printed, told, status = run(clone, book, minutes)
    said = [(seconds, *PROVING.fullmatch(line).groups()) for seconds, line in told if PROVING.fullmatch(line)]
    counts = [int(proved) for _, _, proved, _ in said]
    for seconds, name, proved, total in said:
        print(f"after {seconds:.0f} seconds: proving {name}; {proved} of {total} crates are proved")
    if not said or said[0][0] > 60:
        yield "nothing is said within a minute"
    if any(name not in crates or int(total) != len(crates) for _, name, _, total in said):
        yield f"other crates than the {len(crates)} of the program"
    if counts != sorted(counts) or any(count >= len(crates) for count in counts):
        yield f"counts that fall, or are too high: {counts}"
    if status is not None and (status or printed != wanted):
        yield f"status {status}, printed {printed!r:.300}"


def built(clone, book, wanted):
    """What is wrong with a run that finds the program."""
    printed, told, status = run(clone, book, 10)
    if status != 0 or printed != wanted or any(PROVING.match(line) for _, line in told):
        yield f"with the program: status {status}, told {told}, printed {printed!r:.300}"


def main():
    parser = argparse.ArgumentParser()
    parser.add_argument("--minutes", type=float, default=24 * 60)
    parser.add_argument("--program")
    given = parser.parse_args()
    with tempfile.TemporaryDirectory(prefix="whx12-first-") as top:
        clone = f"{top}/whx12"
        subprocess.run(["git", "clone", "-q", TOP, clone], check=True)
        with open(f"{clone}/examples/day/printed.txt", encoding="utf-8") as file:
            wanted = file.read()
        wrong = list(building(clone, f"{top}/first.book", given.minutes, wanted))
        if given.program:
            os.makedirs(f"{clone}/crates/whx12/out", exist_ok=True)
            shutil.copy2(given.program, f"{clone}/crates/whx12/out/whx12")
        wrong += built(clone, f"{top}/second.book", wanted)
    print("\n".join(wrong) or "what is proved is said as it must be, and the program that is built is found")
    sys.exit(1 if wrong else 0)


if __name__ == "__main__":
    main()
