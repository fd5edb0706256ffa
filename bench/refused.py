#!/usr/bin/env python3
"""Whether CI refused each wrong body, and none of them for an edit that doesn't apply or compile.

Usage: bench/refused.py LOG     (what `rt ci` printed)

Each edit of crates/CRATE/must-fail has to have its line `must-fail CRATE/NAME.edit: refused, as
it must be`, and the run has to end with `N passed, 0 failed`; what departs is told, and the status
is 1. Told too, but no failure, is an edit that only a proof file refuses, since a name is gone:
that says little of a contract, so change a value there and keep the names.
"""
import glob
import os
import re
import sys

from lib import TOP

RUN = {
    "tier": "by hand",
    "shows": "CI refused each of its wrong bodies (CI runs this itself, over its own log)",
    "minutes": 0.01,
}
LINE = re.compile(r"^(?:rt: )?must-fail (\S+)\.edit: (.*)$", re.M)
REFUSED, WEAK = "refused, as it must be", "refused, as it must be (only because"


def verdicts_of(log):
    """What the log says of each wrong body of CI."""
    said = dict(LINE.findall(log))
    for path in sorted(glob.glob(f"{TOP}/crates/*/must-fail/*.edit")):
        name = f"{path.split('/')[-3]}/{os.path.basename(path)[:-len('.edit')]}"
        yield name, said.get(name, "CI didn't try it")


def main():
    if len(sys.argv) != 2:
        sys.exit(__doc__)
    with open(sys.argv[1], encoding="utf-8", errors="replace") as file:
        log = file.read()
    verdicts = list(verdicts_of(log))
    print("\n".join(f"{name}: {it}" for name, it in verdicts if it.startswith(WEAK)))
    wrong = [f"{name}: {it}" for name, it in verdicts if not it.startswith(REFUSED)]
    if re.findall(r"^\d+ passed, (\d+) failed$", log, re.M)[-1:] != ["0"]:
        wrong.append("the run didn't end with `N passed, 0 failed`")
    print("\n".join(wrong) or f"{len(verdicts)} wrong bodies, each refused")
    return 1 if wrong else 0


if __name__ == "__main__":
    sys.exit(main())
