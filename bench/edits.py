#!/usr/bin/env python3
"""Tries further wrong bodies, which the prover must refuse too.

Usage: bench/edits.py [--twins] [CRATE..]
       (default: every crate with a folder in bench/edits, or in bench/twins)

CI has the wrong bodies that have a name in this trade. Those of bench/edits/CRATE are put beside them,
in crates/CRATE/must-fail, for as long as `rt must-fail CRATE` runs, each of them by itself: in a copy of
the crate, over the work that `rt check` left. What the prover says of each is printed; the status is 1
where one isn't refused.

With --twins it tries the bodies of bench/twins/CRATE instead, which must be proved. Each has the form of
wrong bodies of CI and does no harm: where it is proved, those are refused for what they do, and not for
their form. The status is 1 where one is refused.
"""
import os
import shutil
import subprocess
import sys

from lib import TOP

RUN = {
    "tier": "by hand",
    "shows": "each further wrong body (edits/) is refused by the prover; with --twins, each "
             "harmless twin (twins/) is proved",
    "needs": ["libraries"],
    "minutes": 240,
}


def tried(crate, folder, twins):
    """Whether the prover says of each body of a folder what it must."""
    to, aside = os.path.join(TOP, "crates", crate, "must-fail"), os.path.join(TOP, "crates", crate, "must-fail.aside")
    had, names = os.path.isdir(to), sorted(os.listdir(folder))
    if twins and had:
        os.rename(to, aside)
    os.makedirs(to, exist_ok=True)
    try:
        for name in names:
            shutil.copy(os.path.join(folder, name), to)
        run = subprocess.run(["rt", "must-fail", crate], cwd=TOP, text=True, stdout=subprocess.PIPE, stderr=subprocess.STDOUT)
    finally:
        for name in names:
            os.remove(os.path.join(to, name))
        if twins or not had:
            os.rmdir(to)
        if twins and had:
            os.rename(aside, to)
    print(run.stdout, end="", flush=True)
    if twins:
        return all(f"{crate}/{name}: NOT REFUSED" in run.stdout for name in names)
    return run.returncode == 0


def main():
    words = sys.argv[1:]
    twins = "--twins" in words
    bodies = os.path.join(TOP, "bench", "twins" if twins else "edits")
    crates = [word for word in words if word != "--twins"] or sorted(os.listdir(bodies))
    good = [tried(crate, os.path.join(bodies, crate), twins) for crate in crates]
    return 0 if all(good) else 1


if __name__ == "__main__":
    sys.exit(main())
