#!/usr/bin/env python3
"""Measures the program on large interchanges: wall time, bytes a second and peak memory.

Usage: bench/measure.py [PROGRAM]
       (default: crates/whx12/out/whx12, which `rt run` in that folder leaves)

Two interchanges are made in a new folder and handed to `script`, each in a run of its own: advices.x12
1 MiB in 1,000 sets of 943, a mix of items and lots; every set passes acks.x12      800 KB in 100 sets of
997; every set passes A run with nothing but the enrolment tells what the program needs without them.
Each is run five times, and the least time and the greatest memory are printed. Where Debian's
X12::Parser is installed (apt-get install libx12-parser-perl) it reads acks.x12 in the same way, from
loop to loop, with its own table of 997.
"""
import os
import subprocess
import sys
import tempfile
import time

import lib
from lib import HERE, figure, program_of

RUN = {
    "tier": "figures",
    "shows": "time and memory of large interchanges, beside X12::Parser where it is installed",
    "needs": ["program"],
    "words": [""],
    "minutes": 0.5,
}
RUNS = 5
NAMES = {"advices.x12": "advices", "acks.x12": "acknowledgments"}
MOST_BYTES = 1_048_576


def interchange(control, function, sets):
    """An interchange of one group, whose sender wants a TA1."""
    return lib.interchange(function, control, *sets, wants=1)


def advice(number, lines):
    """A 943 with that many lines: 400 items in 40 lots, no pair twice in a set."""
    places = range(number * lines, (number + 1) * lines)
    made = [(1 + place % 997, f"ITEM-{place % 400:04d}", f"L{number % 40:02d}") for place in places]
    return lib.advice(f"SHP{number}", made, f"PO{number}", number)


def acknowledgment(number, named):
    """A 997 that names that many sets."""
    text = "".join(f"AK2*945*{place:04d}~AK5*A~" for place in range(1, named + 1))
    return (f"ST*997*{number:04d}~AK1*SW*{number}~{text}AK9*A*{named}*{named}*{named}~SE*{4 + 2 * named}*{number:04d}~")


def advices():
    """The largest interchange of 1,000 advices of one size that is no more than the limit."""
    best = None
    for lines in range(1, 100):
        text = interchange(1, "AR", [advice(number, lines) for number in range(1, 1001)])
        if len(text) > MOST_BYTES:
            return best
        best = text
    return best


def acks():
    """100 acknowledgments, some 800,000 bytes."""
    return interchange(2, "FA", [acknowledgment(number, 417) for number in range(1, 101)])


def run(words, folder):
    """The least wall and processor time, the greatest memory in KiB, and the output of several runs. GNU time stands between, since a child
    of this process would count this process's memory as its own."""
    times, works, peaks, printed = [], [], [], b""
    for _ in range(RUNS):
        with open(f"{folder}/printed", "wb") as out:
            started = time.monotonic()
            ended = subprocess.run(["/usr/bin/time", "-o", "peak", "-f", "%U %S %M", *words], cwd=folder, stdout=out,
                                   stderr=subprocess.STDOUT)
            times.append(time.monotonic() - started)
        user, system, peak = open(f"{folder}/peak").read().split()[-3:]
        works.append(float(user) + float(system))
        peaks.append(int(peak))
        printed = open(f"{folder}/printed", "rb").read()
        if ended.returncode:
            sys.exit(f"{words}: status {ended.returncode}: {printed[-300:]!r}")
    return min(times), min(works), max(peaks), printed


def told(name, size, seconds, work, peak, above):
    """Prints a line of the table."""
    print(f"{name:24} {size:9,d} bytes {seconds:8.3f} s ({work:.2f} s of processor) {size / seconds / 1e6:9.2f} MB/s {peak / 1024:8.1f} MiB"
          f"{'' if above is None else f' {above / 1024:8.1f} MiB above the empty run and the text'}")


def main():
    program = program_of(sys.argv[1] if len(sys.argv) > 1 else None)
    with tempfile.TemporaryDirectory(prefix="whx12-bench-") as folder:
        files = {"advices.x12": advices(), "acks.x12": acks()}
        for name, text in files.items():
            open(f"{folder}/{name}", "w").write(text)
        begin = "init ZZ-WHSE1\nenrol ZZ-ACME --at 2025-03-04T09:15\n"
        open(f"{folder}/empty.txt", "w").write(begin)
        seconds, _, least, _ = run([program, "script", "empty.txt"], folder)
        print(f"{'an enrolment alone':24} {'':15} {seconds:8.3f} s, {least / 1024:.1f} MiB")
        figure("load", os.getloadavg()[0], "running")
        fast = {}
        for name, text in files.items():
            open(f"{folder}/{name}.txt", "w").write(begin + f"send {name} --at 2025-03-04T09:15\n")
            seconds, work, peak, printed = run([program, "script", f"{name}.txt"], folder)
            fast[name] = seconds
            above, what = peak - least - len(text) / 1024, NAMES[name]
            told(f"whx12, {name}", len(text), seconds, work, peak, above)
            figure(f"{what}, bytes a second", len(text) / seconds / 1e6, "MB/s")
            figure(f"{what}, peak above the text", above / 1024, "MiB")
            if name == "advices.x12" and b"~AK9*A*1000*1000*1000~" not in printed:
                sys.exit("not every set passed")
        tables = [f"{path}/X12/Parser/cf/997.cf" for path in ("/usr/share/perl5", "/usr/local/share/perl5")]
        table = next((it for it in tables if os.path.exists(it)), None)
        if table is None:
            print("X12::Parser is not installed: apt-get install libx12-parser-perl, and run this again")
            return
        seconds, work, peak, _ = run(["perl", f"{HERE}/parser.pl", "acks.x12", table], folder)
        told("X12::Parser, acks.x12", len(files["acks.x12"]), seconds, work, peak, None)
        print(f"whx12 takes 1/{seconds / fast['acks.x12']:.1f} of the time of X12::Parser on acks.x12")
        figure("X12::Parser, acknowledgments, bytes a second", len(files["acks.x12"]) / seconds / 1e6, "MB/s")
        figure("acknowledgments, times as fast as X12::Parser", seconds / fast["acks.x12"], "times")


if __name__ == "__main__":
    main()
