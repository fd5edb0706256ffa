#!/usr/bin/env python3
"""Whether each source is in its layout: the kit's formatter, lengths of lines, scripts that can be read.

Usage: bench/layout.py

Each .rt and .antt file is as `rattle fmt` lays it out, where the kit is there. A line of a .rt file, or of the page's sources, has
at most 100 characters, of a script 180, imports, attributes, lines with a text in quotes and the
texts of tests (crates/case_files) aside. Each
Python script can be parsed, and each shell script by `sh -n`. No function is longer than 60 lines. What
departs is told, and the status is 1.
"""
import ast
import os
import re
import subprocess
import sys

from lib import TOP, files

RUN = {
    "tier": "quick",
    "shows": "sources are in the formatter's layout; lines and functions have their lengths; scripts can be read",
    "minutes": 0.1,
}
RATTLE = "/opt/rattle/bin/rattle"
MOST_CODE, MOST_SCRIPT = 100, 180
FREE = re.compile(r'^\s*(pub )?(ghost )?use |^\s*#!?\[|"')


def long_lines(paths, most):
    """Lines that are longer than they may be."""
    for path in paths:
        with open(f"{TOP}/{path}", encoding="utf-8") as file:
            for at, line in enumerate(file, 1):
                if len(line.rstrip("\n")) > most and not FREE.search(line):
                    yield f"{path}:{at}: {len(line) - 1} characters"


def unread_scripts():
    """Scripts that can't be parsed."""
    for path in [*files("bench/*.py"), "bench/run"]:
        try:
            with open(f"{TOP}/{path}", encoding="utf-8") as file:
                ast.parse(file.read())
        except SyntaxError as error:
            yield f"{path}: {error}"
    for path in [*files("*.sh"), ".ci/run"]:
        ran = subprocess.run(["bash", "-n", path], cwd=TOP, capture_output=True, text=True, check=False)
        if ran.returncode:
            yield f"{path}: {ran.stderr.strip()}"


def unformatted():
    """Sources that the formatter would lay out otherwise."""
    if os.path.exists(RATTLE):
        paths = files("crates/*.rt", "crates/*.antt")
        ran = subprocess.run([RATTLE, "fmt", "--check", *paths], cwd=TOP, capture_output=True, text=True, check=False)
        if ran.returncode:
            yield from (ran.stdout + ran.stderr).splitlines()[:20]


def main():
    code = [path for path in files("crates/*.rt") if not path.startswith("crates/case_files/")]
    wrong = [*long_lines([*code, *files("crates/page/page/*")], MOST_CODE), *long_lines(files("bench/*.py", "*.sh"), MOST_SCRIPT),
             *unread_scripts(), *unformatted()]
    print("\n".join(wrong) or f"{len(files('crates/*.rt', 'crates/*.antt'))} sources are in their layout")
    return 1 if wrong else 0


if __name__ == "__main__":
    sys.exit(main())
