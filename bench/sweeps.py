#!/usr/bin/env python3
"""Runs the tests of bench/sweeps: a worked day over a book in tables that is stopped at each call of its
store, and more.

Usage: bench/sweeps.py [--folder FOLDER]     (default: in a folder of its own, which is removed)

The tests stand beside those of `test_calls` and use its worked example. In a copy of the crates their
modules are laid into that crate, whose libraries are then those of a book in tables too, beside what
`test_program` lays books of version 1 by (its laying.rt and version1.rt, and its texts as constants),
and `rt ci test_calls` proves and runs it there, over the libraries that an `rt ci` of the repository
kept on this machine. FOLDER/test_calls_tests is the program that ran, which bench/allocations.py takes.
The status is that of `rt ci`.
"""
import glob
import os
import shutil
import subprocess
import sys
import tempfile

from lib import HERE, TOP
from stories import text_of

RUN = {
    "tier": "by hand",
    "shows": "a worked day over a book in tables stopped, or crashed, at each call of its "
             "store; books of version 1 at each call of their opening (sweeps/)",
    "needs": ["rt"],
    "minutes": 15,
}
# What earlier runs of `rt ci` on this machine kept.
KEPT = "/opt/rattle-kept"
CRATE = "test_calls"
# What the tests use beside the libraries of `test_calls`.
MORE = "books app sqlite sqlite_disk sqlite_trees"
# The texts of `test_program` by which books of version 1 are laid.
VERSION1 = ["tables.sql", "beside.sql", "counted.sql", "ordered.sql", "dated.sql", "order_head.x12", "order_tail.x12", "order_refused.sql"]


def constants(data):
    """Those texts as constants, named as their files are."""
    written = []
    for name in VERSION1:
        text = text_of(os.path.join(data, "version1", name)).replace("\\", "\\\\").replace('"', '\\"')
        written.append(f'pub(crate) const {name.partition(".")[0].upper()}: &str = "\\\n{text}";\n')
    return "//! Texts of books of version 1.\n" + "\n".join(written)


def lay(folder):
    """Copies the crates, and lays the sweeps into `test_calls`."""
    shutil.copytree(os.path.join(TOP, "crates"), os.path.join(folder, "crates"), ignore=shutil.ignore_patterns("out", "must-fail"))
    shutil.copy(os.path.join(TOP, "HANDLES"), folder)
    with open(os.path.join(TOP, "crates.txt"), encoding="utf-8") as file:
        lines = file.read().splitlines()
    with open(os.path.join(folder, "crates.txt"), "w", encoding="utf-8") as file:
        file.writelines(line + (" " + MORE if line.startswith(CRATE + ":") else "") + "\n" for line in lines)
    tests = os.path.join(folder, "crates", CRATE, "src", "tests")
    sweeps = os.path.join(tests, "sweeps")
    os.mkdir(sweeps)
    for name in os.listdir(os.path.join(HERE, "sweeps")):
        # `rt` wants no .rt file outside of a crate, so they stand as texts
        to = tests if name == "sweeps.rt.txt" else sweeps
        shutil.copy(os.path.join(HERE, "sweeps", name), os.path.join(to, name.removesuffix(".txt")))
    program = os.path.join(folder, "crates", "test_program")
    for name in ["laying.rt", "version1.rt"]:
        shutil.copy(os.path.join(program, "src", name), sweeps)
    with open(os.path.join(sweeps, "version1_texts.rt"), "w", encoding="utf-8") as file:
        file.write(constants(os.path.join(program, "data")))
    with open(tests + ".rt", encoding="utf-8") as file:
        modules = sorted([*file.read().splitlines(), "mod sweeps;"])
    with open(tests + ".rt", "w", encoding="utf-8") as file:
        file.writelines(line + "\n" for line in modules)


def run(folder):
    """Lays the sweeps, and runs them: the status of `rt ci`. The program that ran is put into the folder."""
    lay(folder)
    ran = subprocess.run(["rt", "ci", CRATE], cwd=folder, check=False)
    programs = glob.glob(f"{KEPT}/tests-{CRATE}-*/0")
    if ran.returncode == 0 and programs:
        program = shutil.copy(max(programs, key=os.path.getmtime), f"{folder}/{CRATE}_tests")
        os.chmod(program, 0o755)
    return ran.returncode


def main():
    if sys.argv[1:2] == ["--folder"] and len(sys.argv) == 3:
        os.makedirs(sys.argv[2], exist_ok=True)
        sys.exit(run(sys.argv[2]))
    if len(sys.argv) > 1:
        sys.exit(__doc__)
    with tempfile.TemporaryDirectory(prefix="whx12-sweeps-") as folder:
        sys.exit(run(folder))


if __name__ == "__main__":
    main()
