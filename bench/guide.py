#!/usr/bin/env python3
"""Plays the examples of docs/PROFILE.md and docs/OPERATIONS.md over new books, and compares what comes with what stands there. Not part of CI.

Usage: bench/guide.py [--program PROGRAM] [--page PAGE ..]     (default: crates/whx12/out/whx12 of this repository, and the two pages)

Nothing of the pages is repeated here. A comment before a block of X12 says what is done:
    <!-- run: WORDS -->      the command is given, and nothing is compared
    <!-- sent MOMENT -->     the block is sent at this moment, with LF after each segment, as it stands there
    <!-- answered -->        the block is the answer to what was sent last; no such block: the answer is empty
    <!-- printed: WORDS -->  the block is what the command prints
Answers and documents have no LF between segments; the page has, so they are compared without. Each block of X12 has to be one of these.

A table whose first column is a code, or `Sent`, has its tries in bench/guide.cases, one in a line, under a heading:
    [PAGE: TABLE] [OUTCOME]
    ROW: [later|again] SET[: OLD -> NEW[; all OLD -> NEW ..]][ => WORDS: TEXT]
    ROW: bench/SCRIPT.py     this other script tries it
TABLE is the head of the table's first column, followed by 1, 2, .. where the page has several such tables. ROW is how the row's first cell begins.
The page's first example of SET is changed, and sent to a book that has nothing but the depositor; `again`: after the example itself; `later`: under a
new ISA13, to the book that the page's blocks have left. Each OLD stands in one place; `all`: in any number of places. <LF>, <NOTHING> and the like
stand for what can't be seen. SE01 is counted anew where no change names SE. The answer must have the codes of the row, or OUTCOME, which is a note or
the name of a refusal. After `=>`: then this command must print TEXT somewhere, with one blank for each run of blanks. Each row must be tried. A table
without its heading is a difference, and so is a heading without its table. bench/newcomer.py reads the tries of the tables `Printed` there.

The tables of elements of 943, 940 and 997 are tried too. A set is made of a table, with each segment once. Then each element is given at its longest,
longer, shorter, empty, with a wrong character, with another code, with 0 and as no date; each segment is given as often as it may come, once more, not
at all, and with one element more. All these are sets of one group. The sum of a 943 and 940 is wrong, which is told last, so none of them is done. Faults
of a 997 aren't answered; there the document that it names stays open. Of the tables of what is written, each element of the examples has to have a row,
and its length.

The status is 1 where something differs.
"""
import argparse
import concurrent.futures
import os
import re
import shutil
import subprocess
import sys
import tempfile

from lib import PROGRAM, TOP

RUN = {
    "tier": "night",
    "shows": "each example of docs/PROFILE.md is answered as it says, and each row of its tables of codes and elements holds",
    "needs": ["program"],
    "words": [""],
    "minutes": 0.2,
}
PAGES = ["docs/PROFILE.md", "docs/OPERATIONS.md"]
DAY = os.path.join(TOP, "examples", "day")
STEP = re.compile(r"^<!-- (run|sent|answered|printed):?([^\n]*?)-->\n(?:```x12\n(.*?)^```$)?", re.M | re.S)
TABLE = re.compile(r"^(\|[^\n]*\n)\|[-|]+\n((?:\|[^\n]*\n)+)", re.M)
TRIED = ("TA105", "AK905", "AK502", "AK304", "AK403", "AK403 7 at", "Sent")
PRINTED = "Printed"
CASES = os.path.join("bench", "guide.cases")
HEADING = re.compile(r"\[([^:\]]+): ([^\]]+)\](?: (\w+))?")
ODD = {"<BOM>": "\ufeff", "<TAB>": "\t", "<LF>": "\n", "<CR>": "\r", "<BLANK>": " ", "<NOTHING>": ""}


class Book:
    """A book in a file, whose commands are given in the folder of the day."""

    def __init__(self, program, path):
        self.program, self.path = program, path

    def give(self, words):
        """What a command prints on standard output, without line ends, and on standard error."""
        done = subprocess.run([self.program, *words, "--book", self.path], cwd=DAY, capture_output=True, text=True, timeout=600)
        if done.returncode > 1:
            sys.exit(f"{words}: {done.stderr}")
        return done.stdout.replace("\n", ""), done.stderr

    def send(self, text, moment):
        path = self.path + ".x12"
        with open(path, "w", encoding="utf-8", newline="") as file:
            file.write(text)
        return self.give(["send", path, "--at", moment])

    def copy(self, name):
        to = Book(self.program, f"{self.path}.{name}")
        for end in ("", "-wal"):
            if os.path.exists(self.path + end):
                shutil.copy(self.path + end, to.path + end)
        return to


def play(text, book):
    """The blocks of a page, in their order: how many there are, were played, and differ."""
    steps = STEP.findall(text)
    played = differ = 0
    answer = ""
    for index, (kind, words, block) in enumerate(steps):
        played += bool(block)
        wanted = block.replace("\n", "")
        if kind == "run":
            book.give(words.split())
        elif kind == "sent":
            answer, _ = book.send(block, words.strip())
            if answer and (index + 1 == len(steps) or steps[index + 1][0] != "answered"):
                print(f"sent at{words}: the page has no answer, the program\n  {answer}")
                differ += 1
        elif (got := answer if kind == "answered" else book.give(words.split())[0]) != wanted:
            print(f"{kind}{words}: the page has\n  {wanted}\nthe program\n  {got}")
            differ += 1
    return text.count("```x12"), played, differ


def cells(line):
    return [cell.strip().replace("`", "") for cell in line.strip().strip("|").split("|")]


def read_cases(top):
    """The sections of guide.cases in this clone: of each page's name and table, the outcome and the lines."""
    with open(os.path.join(top, CASES), encoding="utf-8") as file:
        lines = file.read().splitlines()
    sections, tries = {}, None
    for line in lines:
        if heading := HEADING.fullmatch(line):
            page, table, outcome = heading.groups()
            key, tries = (os.path.basename(page), table), []
            if key in sections:
                sys.exit(f"{CASES} has {line} twice")
            sections[key] = outcome or "", tries
        elif line and not line.startswith("#"):
            if tries is None:
                sys.exit(f"{CASES}: no heading before {line}")
            tries.append(line)
    return sections


def table_names(heads):
    """The tables' names in guide.cases: the heads of their first columns, with 1, 2, .. where several have the same."""
    return [head if heads.count(head) == 1 else f"{head} {heads[:at + 1].count(head)}" for at, head in enumerate(heads)]


def is_kind(table, kinds):
    """Whether a name of guide.cases is that of a table of these kinds."""
    return table in kinds or re.sub(r" \d+$", "", table) in kinds


def wanted(head, row, outcome):
    """What the answer, and what is told, must match where a row is tried."""
    if head[0] == "TA105" or outcome.isdigit():
        note = outcome or row[0]
        return [rf"~TA1\*\d{{9}}\*.{{6}}\*.{{4}}\*{'A' if note == '000' else 'R'}\*{note}~"]
    if outcome:
        return [rf"^\nrefused \d+ {outcome}\n$"]
    if head[0] == "AK905":
        return [rf"^(?!.*AK2).*AK9\*R\*\d+\*\d+\*0\*{row[0]}~"]
    if head[0] == "AK502":
        return [rf"AK5\*R\*{row[0]}~"]
    if head[0] == "AK304":
        return [rf"AK3\*\w+\*\d+\*\*{row[0]}~"]
    if head[0] == "AK403":
        return [rf"AK4\*\d+\*\*{row[0]}~"]
    if head[0] == "AK403 7 at":
        segment, element = re.match(r"(\w+).*element (\d)", row[0]).groups()
        return [rf"AK3\*{segment}\*\d+\*\*8~AK4\*{element}\*\*7~"]
    # In words: the codes, the element, the segment.
    told = row[1]
    if told.startswith("nothing"):
        return [r"^\n$"]
    if told.startswith("AK5*A"):
        return [r"~AK2\*\d{3}\*0001~AK5\*A~"]
    segment = re.search(r"\b(?:at|of) (?:the )?(?:next |later )?([A-Z][A-Z0-9]{1,2})\b", told)
    found = [rf"AK3\*{segment.group(1) if segment else '[A-Z0-9]+'}\*\d+\*\*{re.search('AK304 (.)', told).group(1)}~"]
    if code := re.search(r"AK403 (\d)", told):
        found.append(rf"AK4\*{re.search('element (.)', told).group(1)}\*\*{code.group(1)}~")
    return found


def changed(text, changes):
    """An example with some changes, and SE01 counted anew where none of them names SE."""
    for change in filter(None, changes.split("; ")):
        old, new = change.removeprefix("all ").split(" -> ")
        for name, odd in ODD.items():
            old, new = old.replace(name, odd), new.replace(name, odd)
        if change.startswith("all "):
            text = text.replace(old, new)
            continue
        # Of two sets the first one is changed.
        if text.count(old) != 1 and not (text.count(old) == 2 and text.count("~ST*") == 2):
            sys.exit(f"{old} stands in {text.count(old)} places")
        text = text.replace(old, new, 1)
    if "SE*" in changes:
        return text
    segments, first = text.split("~"), None
    for at, segment in enumerate(segments):
        if segment.startswith("ST*"):
            first = at
        elif segment.startswith("SE*") and first is not None:
            segments[at] = re.sub(r"^SE\*\d+", f"SE*{at - first + 1}", segment)
    return "~".join(segments)


def try_tables(page, text, fresh, later, sections):
    """The tries of a page's tables: how many, and how many differ."""
    examples = {}
    for kind, _, block in STEP.findall(text):
        if kind == "sent":
            for name in re.findall(r"^ST\*(\d+)", block, re.M):
                examples.setdefault(name, block.replace("\n", ""))
    asked, differ = [], 0
    found = [(cells(head), [cells(row) for row in rows.splitlines()]) for head, rows in TABLE.findall(text)]
    names = table_names([head[0] for head, _ in found])
    for table in [table for name, table in sections if name == page and table not in names and not is_kind(table, [PRINTED])]:
        print(f"{page} has no table {table}")
        differ += 1
    for table, (head, rows) in zip(names, found):
        if head[0] not in TRIED:
            continue
        if (page, table) not in sections:
            print(f"{CASES} has no section {page}: {table}")
            differ += 1
            continue
        outcome, tries = sections[page, table]
        left = [row[0] for row in rows]
        for line in tries:
            key, _, rest = line.partition(": ")
            row = next((row for row in rows if row[0].startswith(key)), None)
            if row is None:
                sys.exit(f"{page}: {table}: no row begins {key}")
            if row[0] in left:
                left.remove(row[0])
            if re.fullmatch(r"bench/\w+\.py", rest):
                if not os.path.exists(os.path.join(TOP, rest)):
                    sys.exit(f"no {rest}")
                continue
            rest, _, then = rest.partition(" => ")
            how, name, changes = re.fullmatch(r"(?:(later|again) )?(\d{3})(?:: (.*))?", rest).groups()
            sent = changed(examples[name], changes or "")
            if how == "later":
                number = examples[name].split("*")[13]
                sent = sent.replace(f"*{number}*", "*000000999*").replace(f"IEA*1*{number}", "IEA*1*000000999")
            book = (later if how == "later" else fresh).copy(len(asked))
            asked.append((line, row, wanted(head, row, outcome), book, examples[name] if how == "again" else "", sent, then))
        for key in left:
            print(f"not tried: {table}: {key}")
            differ += 1
    with concurrent.futures.ThreadPoolExecutor(os.cpu_count()) as pool:
        return len(asked), differ + sum(pool.map(is_otherwise, asked))


def is_otherwise(asked):
    """Whether a try gives something else than its row says."""
    line, row, patterns, book, before, sent, then = asked
    if before:
        book.send(before, "2026-03-05T09:00")
    answer, told = book.send(sent, "2026-03-05T09:10")
    # Where there is no answer, what is told on standard error.
    got = answer + "\n" + (told if not answer else "")
    bad = [pattern for pattern in patterns if not re.search(pattern, got)]
    if then:
        words, _, text = then.partition(": ")
        printed = " ".join(book.give(words.split())[0].split())
        if text not in printed:
            bad, got = [*bad, text], f"{got}\n  {printed}"
    if bad:
        print(f"{' | '.join(row)}\n  {line}\n  {bad}\n  {got.strip()}", flush=True)
    return bool(bad)


class Row:
    """An element of a table."""

    def __init__(self, row):
        name, _, attributes, what = row
        self.mark, self.kind, lengths = attributes.split()
        self.segment, self.place = re.match(r"(\w+?)(\d\d)\b", name).groups()
        self.least, self.most = map(int, lengths.split("/"))
        # The codes that are named, as `F`; an entity code of an address is one of many.
        self.codes = re.findall(r"`([A-Z0-9]+)`", what) if self.kind == "ID" and "any code" not in what and "first" not in what else []

    def good(self, length):
        if self.codes:
            return self.codes[0]
        return {"N": "1".rjust(length, "0"), "DT": "20260302"}.get(self.kind, "A" * length)

    def odd(self):
        """Values, and the code that each is told with; None of a good one."""
        yield self.good(self.most), None
        yield self.good(self.most) + "1", 5
        if self.least > 1:
            yield self.good(self.least)[:self.least - 1], 4
        yield "", 1 if self.mark == "M" else None
        if self.codes:
            yield next(word for word in ("ZZZ"[:self.least], "YYY"[:self.least]) if word not in self.codes), 7
        elif self.kind == "DT":
            yield "2026-3-2", 6
            yield "20260229", 8
        elif self.kind != "X":
            yield "a".ljust(self.least, "A"), 6
        if self.kind == "N" and self.segment[:2] != "AK":
            yield "0", 7


def variants(name, layout, rows):
    """Sets of a kind, as lists of segments without ST and SE, and what is told of each: place in the set, segment, AK304, element and AK403."""
    parts = []
    for row in rows:
        first, last = re.match(r"(\d\d)(?: to .*(\d\d))?", re.sub(r"^[A-Z]+\d*?(?=\d\d\b)", "", row[0])).groups()
        one = Row(row)
        if first == "01":
            parts.append((one.segment, []))
        parts[-1][1].extend([one] * (int(last or first) - int(first) + 1))
    inner = [line for line in layout if line[0] not in ("ST", "SE")]
    if [line[0] for line in inner] != [segment for segment, _ in parts]:
        sys.exit(f"{name}: the two tables have other segments")
    base = [[segment, *(row.good(row.least) for row in elements)] for segment, elements in parts]
    sums = {"943": "W03", "940": "W76"}.get(name)
    whole = [(len(base) + 1, sums, "8", "1", "7")] if sums else [None]
    if sums:
        # The one line has 2 pieces, and the sum is said to be 7.
        next(each for each in base if each[0] in ("W04", "W01"))[1], base[-1][1] = "2", "7"
    else:
        yield base, None
    for at, (segment, elements) in enumerate(parts):
        for place, row in enumerate(elements, 1):
            for value, code in row.odd():
                made = [list(each) for each in base]
                made[at][place] = value
                yield made, (at + 2, segment, "8", str(place), str(code)) if code else whole[0]
        yield [each + (["A"] if index == at else []) for index, each in enumerate(base)], (at + 2, segment, "8", str(len(elements) + 1), "3")
        without = base[:at] + base[at + 1:]
        if inner[at][2].startswith("1"):
            last = at + 1 == len(base)
            yield without, (at + 2, segment if last else base[at + 1][0], "3" if last else "2", None, None)
        elif sums and base[at + 1][0] != "N3":
            # An N1 with its N3 and N4 is passed over.
            most = int(re.match(r"0 (?:to|or) (\d+)", inner[at][2]).group(1))
            made = base[:at] + [base[at]] * most + base[at + 1:]
            yield made, (len(made) + 1, sums, "8", "1", "7")
            yield made[:at] + [base[at]] + made[at:], (at + most + 2, segment, "2", None, None)
            yield without, (len(base), sums, "8", "1", "7")


def merged(base, some):
    """A set with what some others have otherwise."""
    made = [list(each) for each in base]
    for segments in some:
        for at, each in enumerate(segments):
            made[at] = [new if new != old else kept for old, new, kept in zip(base[at], each, made[at])]
    return made


def in_a_group(name, group, number, made):
    """An interchange with these sets."""
    sets = ["".join("*".join(each) + "~" for each in [["ST", name, f"{at:04}"], *segments, ["SE", str(len(segments) + 2), f"{at:04}"]])
            for at, (segments, _) in enumerate(made, 1)]
    return (f"ISA*00*          *00*          *ZZ*HOLM           *ZZ*HARBOR         *260305*0900*U*00401*00000088{number:d}*0*P*>~"
            f"GS*{group}*HOLM*HARBOR*20260305*0900*1*X*004010~{''.join(sets)}GE*{len(sets)}*1~IEA*1*00000088{number:d}~")


def try_elements(text, fresh, later):
    """The tries of the elements of each set: how many, and how many differ."""
    given = differ = 0
    tables = [(cells(head), [[cell.strip() for cell in row.strip().strip("|").split("|")] for row in rows.splitlines()]) for head, rows in TABLE.findall(text)]
    layouts = [rows for head, rows in tables if head[0] == "Segment"]
    elements = [rows for head, rows in tables if head[:3] == ["Element", "Ref and name", "Attributes"] and rows[0][0] != "ISA01"]
    for name, group, layout, rows in zip(("943", "940", "997"), ("AR", "OW", "FA"), layouts, elements):
        made = list(variants(name, layout, rows))
        given += len(made)
        book = (later if name == "997" else fresh).copy(f"elements{name}")
        if name == "997":
            base, *good = [segments for segments, told in made if not told]
            empty = [segments for segments in good if sum(each.count("") for each in segments)]
            tries = [("open", 2, [each for each in made if each[1]]), ("accepted", 2, [(merged(base, [each for each in good if each not in empty]), None)]),
                     ("accepted", 8, [(merged(base, empty), None)])]
            for at, (state, number, some) in enumerate(tries):
                code = {2: "RE", 8: "AW"}[number]
                sent = re.sub(r"AK1\*RE\*(0*)1~", rf"AK1*{code}*\g<1>{number}~", in_a_group(name, group, at, some))
                book.send(sent, "2026-03-05T09:00")
                listed = book.give(["outbox", "ZZ-HOLM"])[0]
                if not re.search(rf" {number} 94\d {state}", listed):
                    print(f"997: document {number} should be {state}: {listed}\n  {sent[:600]}")
                    differ += 1
            continue
        answer, told = book.send(in_a_group(name, group, 1, made), "2026-03-05T09:00")
        found = re.findall(r"AK2\*\d+\*\d+~(.*?)AK5", answer)
        if len(found) != len(made):
            sys.exit(f"{name}: {len(made)} sets, and of {len(found)} an answer: {answer[:300]}{told}")
        for (segments, wants), got in zip(made, found):
            place, segment, syntax, element, code = wants
            wanted = f"AK3*{segment}*{place}**{syntax}~" + (f"AK4*{element}**{code}~" if element else "")
            if got != wanted:
                print(f"{name}: {'~'.join('*'.join(each) for each in segments)[:400]}\n  the page has {wanted}, the program {got}")
                differ += 1
    return given, differ


def try_written(text):
    """The examples of what the house writes, beside the tables above them: how many elements, and how many have no row or another length."""
    given = differ = 0
    for part in re.split(r"^###? ", text, flags=re.M):
        heads = [(cells(head), rows) for head, rows in TABLE.findall(part)]
        rows = {}
        for row in [cells(row) for head, rows_ in heads if head[:3] == ["Element", "Ref and name", "Length"] for row in rows_.splitlines()]:
            segment, place = re.match(r"(\w+?)(\d\d)\b", row[0]).groups()
            least, _, most = row[2].partition("/")
            rows[segment, int(place)] = (int(least), int(most or least)) if least else (0, 0)
        if not rows:
            continue
        for block in [block for kind, _, block in STEP.findall(part) if kind in ("answered", "printed")]:
            for segment, *elements in (each.split("*") for each in block.replace("\n", "").split("~")[:-1]):
                if segment in ("ISA", "GS", "ST", "SE", "GE", "IEA"):
                    continue
                for place, value in enumerate(elements, 1):
                    least, most = rows.get((segment, place), (1, 0))
                    given += 1
                    if not least <= len(value) <= most:
                        print(f"{segment}, element {place}: {value or 'empty'}; the page has {least} to {most}")
                        differ += 1
    return given, differ


def main():
    parser = argparse.ArgumentParser()
    parser.add_argument("--program", default=PROGRAM)
    parser.add_argument("--page", nargs="+", default=[os.path.join(TOP, page) for page in PAGES])
    asked = parser.parse_args()
    sections = read_cases(TOP)
    strange = [f"{page}: {table}" for page, table in sections if page not in map(os.path.basename, PAGES) and not is_kind(table, [PRINTED])]
    for name in strange:
        print(f"{CASES} has a section of another page: {name}")
    bad = len(strange)
    for page in asked.page:
        with open(page, encoding="utf-8") as file:
            text = file.read()
        with tempfile.TemporaryDirectory(prefix="whx12-guide-") as folder:
            fresh, book = (Book(os.path.abspath(asked.program), os.path.join(folder, name)) for name in ("fresh.book", "harbor.book"))
            for each in (fresh, book):
                each.give(["init", "ZZ-HARBOR"])
                each.give(["enrol", "ZZ-HOLM", "--at", "2026-03-02T07:00"])
            blocks, played, differ = play(text, book)
            elements, other = try_elements(text, fresh, book)
            written, off = try_written(text)
            tries, wrong = try_tables(os.path.basename(page), text, fresh, book, sections)
        print(f"{os.path.basename(page)}: {played} of {blocks} blocks played, {differ} otherwise than the page has them; "
              f"{tries} tries of its tables, {wrong} otherwise; {elements} of the elements that are read, {other} otherwise; "
              f"{written} of those that are written, {off} otherwise")
        bad += differ + wrong + other + off + (blocks - played)
    return 1 if bad else 0


if __name__ == "__main__":
    sys.exit(main())
