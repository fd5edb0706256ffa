#!/usr/bin/env python3
"""Runs `rt ci` in a fresh clone on given processors, and tells where its time goes.

Usage: bench/ci.py [--cpus 0,1] [--keep FOLDER] [--anew]
       (default: processors 0 and 1, in a folder of its own, which is removed)

The clone is of the last commit. With --anew nothing is taken that earlier runs on this machine kept,
which is what a machine does that has seen none. Twice a second the processes of the run are looked at:
each belongs to a crate, and to its proof, its tests, its must-fail edits or its builds. Printed are the
run's own last lines, its wall time, its processor time, and a table of processor seconds crate by crate.
The status is that of `rt ci`.
"""
import collections
import os
import resource
import subprocess
import sys
import tempfile
import time

from lib import HERE, option

RUN = {
    "tier": "by hand",
    "shows": "CI in a fresh clone on two processors: its minutes, and where they go crate by "
             "crate",
    "needs": ["rt"],
    "minutes": 110,
}
TICK = os.sysconf("SC_CLK_TCK")
KINDS = ["proof", "tests", "edits", "build"]


def kind_of(words):
    """The crate of a process of the toolchain, and what it does for it; None of any other process."""
    if "--crate-name" not in words:
        return None
    name = words[words.index("--crate-name") + 1]
    if "--test" in words:
        return name, "tests"
    if "--crate-checked" in words:
        return name, "build"
    return name, "proof"


def processes():
    """The running processes: number, parent, words, folder and processor seconds."""
    for pid in filter(str.isdigit, os.listdir("/proc")):
        try:
            with open(f"/proc/{pid}/stat", "rb") as file:
                fields = file.read().rpartition(b")")[2].split()
            with open(f"/proc/{pid}/cmdline", "rb") as file:
                words = file.read().decode(errors="replace").split("\0")
            folder = os.readlink(f"/proc/{pid}/cwd")
        except OSError:
            continue
        yield int(pid), int(fields[1]), words, folder, (int(fields[11]) + int(fields[12])) / TICK


def is_below(pid, parents, top):
    """Whether a process is of the run."""
    while pid in parents and pid != top:
        pid = parents[pid]
    return pid == top


def watch(run):
    """Seconds by crate and kind, while the run lasts."""
    spent, last = {}, {}
    while run.poll() is None:
        found = {pid: rest for pid, *rest in processes()}
        parents = {pid: rest[0] for pid, rest in found.items()}
        for pid in sorted(pid for pid in found if is_below(pid, parents, run.pid)):
            parent, words, at, seconds = found[pid]
            # a compiler or a linker belongs to what started it
            key = kind_of(words) or last.get(parent)
            if key and "rt-edit-" in at:
                key = key[0], "edits"
            if key:
                last[pid] = key
                spent[pid, key] = max(seconds, spent.get((pid, key), 0))
        time.sleep(0.5)
    sums = collections.Counter()
    for (_, key), seconds in spent.items():
        sums[key] += seconds
    return sums


def keeps():
    """Whether this machine's `rt ci` takes over what earlier runs proved; if not, every run is from nothing, and it has no flag for that."""
    with open("/opt/rattle/bin/rt", encoding="utf-8") as file:
        return "--anew" in file.read()


def main():
    words = sys.argv[1:]
    cpus = option(words, "--cpus", "0,1")
    kept = option(words, "--keep", None)
    with tempfile.TemporaryDirectory(prefix="whx12-ci-") as made:
        clone = os.path.abspath(kept or f"{made}/clone")
        subprocess.run(["git", "clone", "-q", os.path.dirname(HERE), clone], check=True)
        log = f"{clone}.log"
        start = time.time()
        with open(log, "w", encoding="utf-8") as out:
            given = ["taskset", "-c", cpus, "rt", "ci", *(["--anew"] if "--anew" in words and keeps() else [])]
            run = subprocess.Popen(given, cwd=clone, stdout=out, stderr=subprocess.STDOUT)
            sums = watch(run)
        wall, used = time.time() - start, resource.getrusage(resource.RUSAGE_CHILDREN)
        with open(log, encoding="utf-8", errors="replace") as file:
            print("".join(file.readlines()[-3:]), end="")
    print(f"wall {wall / 60:.1f} minutes, processors {(used.ru_utime + used.ru_stime) / 60:.1f} minutes")
    print(f"| Crate | {' | '.join(KINDS)} |\n|---|{'---|' * len(KINDS)}")
    for name in sorted({name for name, _ in sums}):
        print(f"| `{name}` | {' | '.join(f'{sums[name, kind]:.0f}' for kind in KINDS)} |")
    print(f"| all | {' | '.join(f'{sum(n for (_, kind), n in sums.items() if kind == it):.0f}' for it in KINDS)} |")
    return run.returncode


if __name__ == "__main__":
    sys.exit(main())
