#!/usr/bin/env python3
"""Proves the libraries of the repository side by side, so that `rt check` in a crate finds those below it.

Usage: bench/libraries.py [--jobs 4] [--top FOLDER] [NAME..]
       (default: all libraries of this repository, by four jobs)

Two calls of `rt lib` that stand on one crate wait for each other, and `rt all check` reads every crate
once before it proves the first. This proves each library as soon as those below it are proved, those
with the longest way above them first, all in one process of `rt`'s own library. What is proved stays in
crates/NAME/out, where `rt check`, `rt plant` and bench/edits.py look for it; it counts in another clone
too, if crates/NAME/out/rlib and incremental are copied there (`cp -a`) beside the same sources. `rt ci`
takes none of it. The status is 1 where a library isn't proved; what `rt` said of each stands in
out/library.log of its crate.
"""
import importlib.machinery
import importlib.util
import os
import sys
import time
from concurrent.futures import FIRST_COMPLETED, ThreadPoolExecutor, wait

from lib import HERE, option

RUN = {
    "tier": "by hand",
    "shows": "a helper: proves the libraries side by side, so that `rt check`, `rt plant` and "
             "edits.py can use them",
    "needs": ["rt"],
    "minutes": 40,
}
KIT = "/opt/rattle/bin"


def library_of_rt():
    """`rt`'s own library, as a module."""
    loader = importlib.machinery.SourceFileLoader("rtlib", f"{KIT}/rtlib.py")
    spec = importlib.util.spec_from_loader("rtlib", loader)
    made = importlib.util.module_from_spec(spec)
    sys.modules["rtlib"] = made
    loader.exec_module(made)
    return made


def lines_of(folder):
    """Lines of code, and five lines of definitions and proofs as one."""
    count = 0
    for at, folders, files in os.walk(folder):
        folders[:] = [name for name in folders if name != "out"]
        for name in files:
            if name.endswith((".rt", ".antt")):
                with open(f"{at}/{name}", "rb") as file:
                    count += file.read().count(b"\n") * (5 if name.endswith(".rt") else 1)
    return count // 5


def prove(crate, jobs):
    """Proves a library over what was kept of it."""
    began = time.time()
    os.makedirs(f"{crate.folder}/out", exist_ok=True)
    with open(f"{crate.folder}/out/library.log", "w", encoding="utf-8", errors="replace") as crate.out:
        try:
            status = crate.build_rlib(["--jobs", str(jobs)], False)
        except SystemExit:
            status = 2
    said = "proved" if status == 0 else f"NOT PROVED: see {crate.folder}/out/library.log"
    print(f"{time.strftime('%H:%M:%S')} {crate.name} {said}, {time.time() - began:.0f} s", flush=True)
    return crate.name, status == 0


def main():
    words = sys.argv[1:]
    lanes = option(words, "--jobs", 4)
    os.chdir(option(words, "--top", os.path.dirname(HERE)))
    rtlib = library_of_rt()
    # (its first call sets a signal's handler, which only the main thread may)
    rtlib.guarded()
    crates = {it.name: it for it in rtlib.crates_below(os.getcwd())}
    below = {name: {it.name for it in crate.below()} for name, crate in crates.items()}
    asked = words or [name for name, crate in crates.items() if not crate.is_program]
    left = {name for it in asked for name in (it, *below[it])}
    sizes = {name: lines_of(crates[name].folder) for name in left}
    way = {}
    for name in sorted(left, key=lambda it: -len(below[it])):
        way[name] = sizes[name] + max((way[it] for it in way if name in below[it]), default=0)
    done, running = set(), {}
    with ThreadPoolExecutor(lanes) as pool:
        while left or running:
            ready = sorted((it for it in left if below[it] <= done), key=lambda it: -way[it])
            for at, name in enumerate(ready):
                idle = lanes - sum(jobs for _, jobs in running.values())
                if idle > 0:
                    jobs = max(1, min(3, idle // (len(ready) - at)))
                    left.discard(name)
                    running[pool.submit(prove, crates[name], jobs)] = name, jobs
            if not running:
                break
            for task in wait(running, return_when=FIRST_COMPLETED).done:
                name, is_proved = task.result()
                del running[task]
                done |= {name} if is_proved else set()
    if left:
        print(f"not tried: {' '.join(sorted(left))}")
    return 1 if left or any(it not in done for it in asked) else 0


if __name__ == "__main__":
    sys.exit(main())
