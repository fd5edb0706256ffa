#!/usr/bin/env python3
"""Looks up what docs/PROMISES.md and the wrong bodies name, and writes docs/WRONG_BODIES.md.

Usage: bench/promises.py [--write]

A call is a function or a type of a crate (`rules::decide`, `submit`, `Tables::append`); what stands
in parentheses after it are its clauses, or words of its contract. A definition is a file of specs/
(`Halt` of `profile`, else `store/specs/Runs`), or a name that some definition has. A row, or a
paragraph with a bold head, that names what isn't there is told with its line, and so is a cell that
is too long. That a clause says what the row says is for a reader.

A wrong body is an edit of crates/CRATE/must-fail or of bench/edits/CRATE. Its first two lines say
what the body does (`says: `) and which clause is false of it (`refused by: `), whose names are
looked up too. A twin (bench/twins/CRATE) has the first line alone, which ends in the edits that it
is a twin of. With --write docs/WRONG_BODIES.md is written from these lines; else it has to be what
would be written.

The status is 1 where something is wrong.
"""
import glob
import os
import re
import sys
import textwrap

from lib import TOP

RUN = {
    "tier": "quick",
    "shows": "what docs/PROMISES.md and the wrong bodies name is there; docs/WRONG_BODIES.md is made",
    "minutes": 0.02,
}
PAGE, BODIES = f"{TOP}/docs/PROMISES.md", f"{TOP}/docs/WRONG_BODIES.md"
COLUMNS = ["Promise", "Call and clauses", "Definition", "Not promised"]
LONGEST_CELL = 300
NAME = re.compile(r"`([^`]+)`")
CALLS_WITH_CLAUSES = re.compile(r"((?:`[^`]+`(?:, | and )?)+) \(([^()]*)\)")
INTRODUCTION = (
    "Each wrong body is written into the code by an edit and must be refused by the prover: CI "
    "tries those of `crates/CRATE/must-fail` at every commit, and `bench/edits.py` tries those of "
    "`bench/edits/CRATE`, beside CI. Twins (`bench/twins/CRATE`) are harmless bodies of the same "
    "form that must be proved (`bench/edits.py --twins`), so that no wrong body is refused for its "
    "form alone."
)
ORIGIN = "<!-- Written by `bench/promises.py --write` from the first two lines of each edit. -->"


def read(path):
    """The text of a file."""
    with open(path, encoding="utf-8") as file:
        return file.read()


def sources(ending):
    """The texts of the sources with this ending, by their paths within crates/."""
    for folder, _, names in os.walk(f"{TOP}/crates"):
        if "/out" not in folder:
            for name in sorted(names):
                if name.endswith(ending):
                    path = f"{folder}/{name}"
                    yield os.path.relpath(path, f"{TOP}/crates"), read(path)


def words_of_heads(texts):
    """The words of the heads of all functions with their contracts, by the functions' names."""
    found = {}
    for text in texts:
        for part in re.split(r"(?=\bfn \w+[<(])", text)[1:]:
            words = re.findall(r"[\w.-]+", re.split(r"\n *\{\}?\n", part)[0])
            found.setdefault(re.match(r"fn (\w+)", part)[1], set()).update(words)
    return found


def definitions():
    """The names of all definitions, and of the files that hold them, with and without a crate."""
    first = re.compile(
        r"^(?:pub )?(?:abbrev |record |data |module )?(?:pub )?(?:record |data )?"
        r"([\w-]+) *(?::|\(|$|\{)",
        re.M,
    )
    field = re.compile(r"^ +(?:pub )?([\w-]+) :", re.M)
    found = set()
    for path, text in sources(".antt"):
        if "/specs/" in path:
            file = path.removesuffix(".antt")
            found |= {file, os.path.basename(file), os.path.dirname(file)}
            found |= {*first.findall(text), *field.findall(text)}
    return found


def crates():
    """The names of the crates of crates.txt, and of the standard library."""
    lines = read(f"{TOP}/crates.txt").splitlines()
    return {"std", *re.findall(r"\w+", "\n".join(it for it in lines if not it.startswith("#")))}


def last(name):
    """The last part of a name: `submit` of `store::submit`, `Runs` of `store/specs/Runs`."""
    return re.split("::|/", name)[-1]


class Sources:
    """What the sources name: functions (with the words of their heads), definitions and so on."""

    def __init__(self):
        texts = [text for _, text in sources(".rt")]
        self.heads = words_of_heads(texts)
        self.types = set(re.findall(r"\b(?:struct|enum|trait|type) (\w+)", "\n".join(texts)))
        self.meant = definitions()
        self.crates = crates()

    def words(self, text):
        """The words of the heads of all functions that a text names."""
        return set().union(*(self.heads.get(last(it), ()) for it in NAME.findall(text)))

    def is_known(self, name):
        """Whether a name is that of a function, a type, a definition or a crate."""
        within = last(name)
        if "<" in name or name in self.meant or name in self.crates:
            return True
        return within in self.meant or within in self.types or within in self.heads

    def missing(self, text):
        """What a text names that isn't there, by itself or as a clause of the calls before it."""
        heard = self.words(text)
        for name in NAME.findall(text):
            if name not in heard and not self.is_known(name):
                yield f"no `{name}`"
        for calls, clauses in CALLS_WITH_CLAUSES.findall(text):
            near = self.words(calls)
            for name in NAME.findall(clauses):
                if near and name not in near and name not in self.meant:
                    yield f"no clause `{name}` of {calls}"


def rows_of(page):
    """The rows of the page's tables, without the heads: the line of each, and its cells."""
    for at, line in enumerate(page.splitlines(), 1):
        if line.startswith("|") and not line.startswith((f"| {COLUMNS[0]} |", "|---|")):
            yield at, [cell.strip() for cell in line.split("|")[1:-1]]


def bold_paragraphs(page):
    """The paragraphs that begin with a bold head: the line of each, and its text on one line."""
    for it in re.finditer(r"^\*\*.+(?:\n.+)*", page, re.M):
        yield page.count("\n", 0, it.start()) + 1, it[0].replace("\n", " ")


def wrong_on_page(names, page):
    """What is wrong with the page of promises."""
    for at, cells in rows_of(page):
        if len(cells) != len(COLUMNS):
            yield f"{at}: {len(cells)} cells for {len(COLUMNS)}"
            continue
        for cell in cells:
            if len(cell) > LONGEST_CELL:
                yield f"{at}: a cell of {len(cell)} characters: {cell[:40]}.."
        yield from (f"{at}: {it}" for it in names.missing(cells[1]))
        unknown = [it for it in NAME.findall(cells[2]) if not names.is_known(it)]
        yield from (f"{at}: no definition `{it}`" for it in unknown)
    for at, text in bold_paragraphs(page):
        yield from (f"{at}: {it}" for it in names.missing(text))


class Edit:
    """An edit: its crate, its name, and what its first lines say."""

    def __init__(self, path, crate):
        lines = read(path).split("file: ", 1)[0].splitlines()
        self.path, self.crate = os.path.relpath(path, TOP), crate
        self.name = os.path.basename(path).removesuffix(".edit")
        self.says, self.refused = (
            next((it.removeprefix(key) for it in lines if it.startswith(key)), "")
            for key in ("says: ", "refused by: ")
        )

    def is_of_ci(self):
        """Whether CI tries it, and not a script beside it."""
        return self.path.startswith("crates/")

    def lost_texts(self):
        """The texts that it changes and that don't stand once in their file."""
        texts, path = {}, ""
        for line in read(f"{TOP}/{self.path}").splitlines():
            key, _, text = line.partition(": ")
            if key == "file":
                path = f"{TOP}/crates/{self.crate}/{text.strip()}"
                texts.setdefault(path, read(path) if os.path.exists(path) else "")
            elif key == "old":
                old = text
                if texts[path].count(old) != 1:
                    yield old.strip()
            elif line.startswith("new:"):
                texts[path] = texts[path].replace(old, line.removeprefix("new:").removeprefix(" "))


def edits_at(before, after):
    """The edits of a folder of each crate, in the order of their paths."""
    for path in sorted(glob.glob(f"{TOP}/{before}/*/{after}*.edit")):
        yield Edit(path, os.path.relpath(path, f"{TOP}/{before}").split("/")[0])


def wrong_in_bodies(names, bodies):
    """What is wrong with the first lines of the wrong bodies."""
    for it in bodies:
        if not it.says:
            yield f"{it.path}: no line `says: `"
        if not it.refused:
            yield f"{it.path}: no line `refused by: `"
        yield from (f"{it.path}: {wrong}" for wrong in names.missing(it.refused))


def unapplied(edits):
    """Edits that no longer apply to the sources."""
    for it in edits:
        for text in it.lost_texts():
            yield f"{it.path}: its file doesn't have once: {text[:60]}"


def wrong_in_twins(twins, bodies):
    """What is wrong with the first lines of the twins."""
    known = {f"{it.crate}/{it.name}" for it in bodies}
    for it in twins:
        _, _, names = it.says.rpartition("; twin of ")
        if not set(names.split(" and ")) <= known:
            yield f"{it.path}: says of no wrong body that it is its twin"


def table_of(crate, bodies):
    """The table of a crate's wrong bodies, those that CI tries first."""
    yield from ("", f"## {crate}", "", "| Wrong body | Edit | Refused by | Tried |")
    yield "|---|---|---|---|"
    for it in sorted(bodies, key=lambda it: (not it.is_of_ci(), it.name)):
        tried = "in CI" if it.is_of_ci() else "beside CI"
        yield f"| {it.says} | {it.name} | {it.refused} | {tried} |"


def page_of(bodies):
    """The page of the wrong bodies."""
    lines = ["# Wrong bodies", "", ORIGIN, "", *textwrap.wrap(INTRODUCTION, 100)]
    for crate in sorted({it.crate for it in bodies}):
        lines += table_of(crate, [it for it in bodies if it.crate == crate])
    return "\n".join(lines) + "\n"


def main():
    """Looks everything up, and says what is wrong."""
    names, page = Sources(), read(PAGE)
    bodies = [*edits_at("crates", "must-fail/"), *edits_at("bench/edits", "")]
    twins = list(edits_at("bench/twins", ""))
    wrong = [*wrong_on_page(names, page), *wrong_in_bodies(names, bodies)]
    wrong += [*wrong_in_twins(twins, bodies), *unapplied(bodies + twins)]
    made = page_of(bodies)
    if "--write" in sys.argv[1:]:
        with open(BODIES, "w", encoding="utf-8") as file:
            file.write(made)
    elif not os.path.exists(BODIES) or read(BODIES) != made:
        wrong.append("docs/WRONG_BODIES.md isn't what --write makes of the edits")
    counts = f"{len(list(rows_of(page)))} rows, {len(bodies)} wrong bodies, {len(twins)} twins"
    print("\n".join(wrong) or f"{counts}: all that they name is there")
    return 1 if wrong else 0


if __name__ == "__main__":
    sys.exit(main())
