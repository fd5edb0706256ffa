#!/usr/bin/env python3
"""Whether the documents name what is there, and have their lengths.

Usage: bench/documents.py [--words]     (with --words the words of each page are printed)

  - each link and each path that a page names leads to a file or a folder of the repository;
  - each record of docs/DECISIONS.md that a page, a source or a script names by its number is there;
  - lines have at most 100 characters, tables, code and links aside; cells of tables at most 300;
  - no page has more words than its limit, and all together no more than theirs;
  - terms that have another word here aren't used;
  - parts that scripts make (`<!-- made: NAME -->`) are what the scripts make;
  - the number of crates that examples/day/run.sh tells is that of the program;
  - README and CHANGELOG name the version that the program prints.

What departs is told, and the status is 1.
"""
import glob
import importlib.machinery
import importlib.util
import os
import re
import subprocess
import sys

from lib import HERE, TOP, below, files

RUN = {
    "tier": "quick",
    "shows": "pages name what is there, have their lengths, and their generated parts are what scripts make",
    "minutes": 0.02,
}
# The most words of each page; those of made parts don't count, nor what stands in comments.
WORDS = {
    "README.md": 800, "CONTRIBUTING.md": 2200, "CHANGELOG.md": 560, "SECURITY.md": 500, "bench/README.md": 500,
    "docs/ARCHITECTURE.md": 2400, "docs/DECISIONS.md": 4500, "docs/KIT.md": 645, "docs/OPERATIONS.md": 6100,
    "docs/PERFORMANCE.md": 1500, "docs/PLAN.md": 900, "docs/PROFILE.md": 9500, "docs/PROMISES.md": 5250,
    "docs/RULES.md": 3100, "docs/UPGRADING.md": 600,
}
ALL_WORDS = 34_900
# Pages that scripts write as a whole.
MADE = ["docs/WRONG_BODIES.md"]
TERMS = {r"\bmutants?\b": "wrong body", r"\bthe gate\b": "CI"}
PATH = re.compile(r"\b((?:docs|bench|crates|examples)/[\w./-]*[\w/])")
LINK = re.compile(r"\]\(([^)#\s]+)[^)]*\)")
RECORD = re.compile(r"DECISIONS(?:\.md)?,? (\d+)")
BLOCK = re.compile(r"^```.*?^```$|<!--(?! made| end).*?-->", re.M | re.S)
PART = re.compile(r"<!-- made: .*?-->.*?<!-- end -->", re.S)


def read(path):
    with open(f"{TOP}/{path}", encoding="utf-8") as file:
        return file.read()


def pages():
    """The Markdown pages of the repository."""
    return files("*.md")


def words_of(text):
    return len(re.sub(r"<!--.*?-->", "", PART.sub("", text), flags=re.S).split())


def lost_paths(page, text):
    """Paths and links that lead nowhere; a name may stand for several (`crates/NAME`, `*.edit`)."""
    for found in {*PATH.findall(BLOCK.sub("", text)), *LINK.findall(text)}:
        if "/out/" in found or re.search(r"[A-Z]{3,}|://", found.replace("README", "").replace(".md", "")) and not found.startswith("docs/"):
            continue
        near = [f"{TOP}/{found}", f"{TOP}/{os.path.dirname(page)}/{found}"]
        if not any(glob.glob(path + end) for path in near for end in ("", ".rt", ".antt", ".py", ".md")):
            yield f"{page}: no {found}"


def long_parts(page, text):
    """Lines and cells that are longer than they may be."""
    plain = BLOCK.sub(lambda it: "\n" * it[0].count("\n"), PART.sub(lambda it: "\n" * it[0].count("\n"), text))
    for at, line in enumerate(plain.splitlines(), 1):
        if line.startswith("|"):
            cell = max(len(it.strip()) for it in re.split(r"(?<!\\)\|", line))
            if cell > 300:
                yield f"{page}:{at}: a cell of {cell} characters"
        elif len(line) > 100 and not re.search(r"https?://|\]\(", line):
            yield f"{page}:{at}: {len(line)} characters"


def wrong_terms(page, text):
    for term, other in TERMS.items():
        for found in re.finditer(term, BLOCK.sub("", text)):
            yield f"{page}: {found[0]!r}: say {other}"


def lost_records():
    """Records of docs/DECISIONS.md that are named and aren't there."""
    there = set(re.findall(r"^### (\d+)\. ", read("docs/DECISIONS.md"), re.M))
    for path in files("*.md", "*.rt", "*.antt", "*.py", "*.sh", "examples/service/*", "crates.txt"):
        for number in RECORD.findall(read(path)):
            if number not in there:
                yield f"{path}: no record {number} of docs/DECISIONS.md"


def too_many_words(counts):
    for page, count in counts.items():
        if page not in WORDS:
            yield f"{page}: a page without a limit: give it one in bench/documents.py"
        elif count > WORDS[page]:
            yield f"{page}: {count} words, and not {WORDS[page]}"
    if sum(counts.values()) > ALL_WORDS:
        yield f"all pages: {sum(counts.values())} words, and not {ALL_WORDS}"


def old_parts():
    """Pages whose made parts are old."""
    loader = importlib.machinery.SourceFileLoader("run", f"{HERE}/run")
    run = importlib.util.module_from_spec(importlib.util.spec_from_loader("run", loader))
    loader.exec_module(run)
    for path, text in run.made_pages().items():
        with open(path, encoding="utf-8") as file:
            if file.read() != text:
                yield f"{os.path.relpath(path, TOP)}: bench/run --tables makes another text"


def wrong_count():
    """Whether the day's script counts the crates of the program."""
    said = subprocess.run(["sh", "examples/day/run.sh", "--crates"], cwd=TOP, capture_output=True, text=True, check=False).stdout
    wanted = str(len(below("whx12")))
    if said.strip() != wanted:
        yield f"examples/day/run.sh --crates: {said.strip()}, and not {wanted}"


def wrong_edits():
    """Whether README.md counts the wrong bodies of CI."""
    said = re.search(r"refuses (\d+) functions", read("README.md"))
    wanted = str(len(glob.glob(f"{TOP}/crates/*/must-fail/*.edit")))
    if not said or said[1] != wanted:
        yield f"README.md: the wrong bodies of CI are {wanted}"


def other_versions():
    """Pages that name another version than the program's own constant (crates/app/src/run.rt)."""
    version = re.search(r'VERSION: &str = "whx12 (\S+)\\n"', read("crates/app/src/run.rt"))[1]
    told = {"README.md": r"^Version ([\d.]+),", "CHANGELOG.md": r"^## (\d\S*)$"}
    for page, pattern in told.items():
        found = re.search(pattern, read(page), re.M)
        if not found or found[1] != version:
            yield f"{page}: the version isn't {version}"


def main():
    texts = {page: read(page) for page in pages()}
    counts = {page: words_of(text) for page, text in texts.items() if page not in MADE}
    if "--words" in sys.argv:
        print("\n".join(f"{count:6} {page}" for page, count in counts.items()))
    wrong = [*too_many_words(counts), *lost_records(), *old_parts(), *wrong_count(), *wrong_edits(), *other_versions()]
    for page, text in texts.items():
        wrong += [*lost_paths(page, text), *wrong_terms(page, text)]
        if page not in MADE:
            wrong += long_parts(page, text)
    print("\n".join(wrong) or f"{len(texts)} pages, {sum(counts.values())} words: as they must be")
    return 1 if wrong else 0


if __name__ == "__main__":
    sys.exit(main())
