#!/usr/bin/env python3
"""Makes the table and the plots of docs/PERFORMANCE.md from the results of the measuring scripts.

Usage: bench/figures.py [--check]

bench/results.jsonl has what each script reported in its last run (lib.figure, bench/run). From it come
the table between `<!-- made: figures -->` and `<!-- end -->` of the page, with the runs that it was made
of below it, and the plots in docs/figures. Runs that failed don't count; where several have a figure, the
newest counts. A figure that no run has is `-` in the table, and no point of a plot; so is one that isn't
above 0, which is the noise of a difference. With --check nothing is written, and the status is 1 where
the page or a plot is another one than would be made.
"""
import json
import math
import os
import sys
from collections import namedtuple
from html import escape

from lib import HERE, TOP, Wrong, with_part

RUN = {
    "tier": "quick",
    "shows": "the table and the plots of docs/PERFORMANCE.md are made of the last results",
    "words": ["--check"],
    "minutes": 0.01,
}
PAGE = "docs/PERFORMANCE.md"
TENS = ["1,000 entries", "10,000 entries", "100,000 entries"]
ALONE, MANY = "{}, 1 depositor", "{}, 100 depositors"
YEAR, LONGER = ["1 day", "21 days"], ["63 days", "250 days"]
ORDERS, LARGER = ["99 lines of 99 lots", "999 lines of 9 lots"], ["999 lines of 99 lots", "999 lines of 999 lots"]
C, PARSER = "C SQLite", "X12::Parser"

# A row of the table: the script that measures it, what it is, at which sizes, the name of the figure at a
# size, whose figure stands beside it under which name, how many digits are told, and sizes that are told
# only where they were measured.
Row = namedtuple("Row", "script what sizes name whose other digits more", defaults=["", "", 2, ()])
TABLE = {
    "A command over an open book, processor time": [
        Row("costs", "new command", TENS, f"new command, {ALONE}", C, f"C SQLite, new command, {ALONE}"),
        Row("costs", "known command", TENS, f"known command, {ALONE}", C,
            f"C SQLite, known command, {ALONE}"),
        Row("costs", "a mebibyte: 1,000 advices of 28 lines", [], "mebibyte of advices", C,
            "C SQLite, mebibyte of advices"),
        Row("lines", "a line of an advice", ["99 lines", "999 lines"], "line of an advice of {}, file"),
        Row("lines", "a line of a count", ["99 lines", "999 lines"], "line of a count of {}, file"),
        Row("lines", "an order", ORDERS, "order of {}", more=LARGER),
        Row("lines", "peak memory of such a command", ORDERS, "peak memory, order of {}", more=LARGER),
        Row("pages", "a set of one line, a new item before all others",
            ["100 rows", "1,000 rows", "10,000 rows", "100,000 rows"], "step, {}, a new row in front"),
    ],
    "Over HTTP, wall time, a connection for each request": [
        Row("routes", "stock report", [], "stock report over HTTP", "Python's http.server, a file",
            "Python's http.server, a file over HTTP"),
        Row("routes", "known interchange", [], "known interchange over HTTP"),
        Row("books", "new interchange", TENS, f"new interchange over HTTP, {ALONE}",
            "C SQLite, its statements alone", f"C SQLite, transactions, {ALONE}"),
        Row("split", "new interchange, four clients", ["1 book", "4 books"],
            "new interchange over HTTP, {}"),
        Row("lists", "list of 100 depositors", TENS, f"list of depositors, {MANY}"),
        Row("lists", "what one depositor has open", TENS, f"list of what is open, {ALONE}"),
    ],
    "Opening a book": [
        Row("books", "opening, 1 depositor", TENS, f"opening, {ALONE}", "C SQLite, quick_check",
            f"C SQLite, quick_check, {ALONE}"),
        Row("books", "opening, 100 depositors", TENS, f"opening, {MANY}", "C SQLite, quick_check",
            f"C SQLite, quick_check, {MANY}"),
        Row("books", "peak memory of an opening and 200 commands", TENS, f"peak memory, {ALONE}"),
        Row("batch", "100 commands, each with an opening", TENS[:2], "100 commands one by one, {}"),
        Row("batch", "100 commands as one batch", TENS[:2], "100 commands as one batch, {}"),
        Row("verify", "`verify`", TENS, f"verify, {ALONE}"),
        Row("verify", "peak memory of `verify`", TENS[2:], f"peak memory, verify, {ALONE}"),
        Row("carried", "carrying a book of version 1 over", TENS, f"carrying over, {ALONE}"),
    ],
    "A house of 40,000 entries a day": [
        Row("year", "entries", YEAR, "year: entries after {}", more=LONGER),
        Row("year", "file", YEAR, "year: file after {}", more=LONGER),
        Row("year", "opening", YEAR, "year: opening after {}", more=LONGER),
        Row("year", "peak memory", YEAR, "year: peak memory after {}", more=LONGER),
        Row("year", "new command over HTTP, processor time", YEAR, "year: new command after {}", more=LONGER),
        Row("year", "known command over HTTP, processor time", YEAR, "year: known command after {}", more=LONGER),
    ],
    "Texts in memory (`script`), wall time": [
        Row("measure", "acknowledgments, 0.8 MB", [], "acknowledgments, bytes a second", PARSER,
            "X12::Parser, acknowledgments, bytes a second"),
        Row("measure", "advices, a mebibyte", [], "advices, bytes a second"),
        Row("measure", "acknowledgments, peak memory above the text", [],
            "acknowledgments, peak above the text"),
        Row("measure", "advices, peak memory above the text", [], "advices, peak above the text"),
    ],
    "Counts, which don't depend on the machine's load": [
        Row("syncs", "syncs of a new command", TENS[:2], f"syncs of a new command, {ALONE}", C,
            f"C SQLite, syncs of a new command, {ALONE}", 3),
        Row("syncs", "written by a new command", TENS[:2], f"bytes written by a new command, {ALONE}", C,
            f"C SQLite, bytes written by a new command, {ALONE}", 3),
        Row("engine", "instructions, all / C SQLite's",
            ["new command", "known command", "mebibyte of advices"], "instructions, {}, program / C"),
        Row("engine", "instructions, engine alone / C SQLite's",
            ["new command", "known command", "mebibyte of advices"], "instructions, {}, engine / C"),
    ],
}
UNITS = {"requests/s": "a second", "1/s": "a second", "entries": "", "syncs": ""}

# --- results -----------------------------------------------------------------------------------


class Results:
    """The figures of the last good runs, and which of these runs were asked for any."""

    def __init__(self, path):
        self.found, self.used = {}, {}
        if os.path.exists(path):
            with open(path, encoding="utf-8") as file:
                runs = [json.loads(line) for line in file]
            for run in sorted(runs, key=lambda it: it["date"]):
                if run["status"] == 0:
                    for name, (value, unit) in run.get("figures", {}).items():
                        if 0 < value < math.inf:
                            self.found[run["script"], name] = value, unit, run

    def ask(self, script, name):
        """A figure's value and unit, or None."""
        if (script, name) not in self.found:
            return None
        value, unit, run = self.found[script, name]
        self.used[run["script"], run["words"]] = run
        return value, unit

    def points(self, script, name, sizes):
        """Pairs of a size and a figure at it, where there is one: sizes are pairs of a text and a number."""
        asked = [(number, self.ask(script, name.format(text))) for text, number in sizes]
        return [(number, got[0]) for number, got in asked if got]


# --- the table ---------------------------------------------------------------------------------


def rounded(value, digits=2):
    """A number with so many digits, and no more behind the point than these want."""
    if not value:
        return "0"
    behind = digits - 1 - math.floor(math.log10(abs(value)))
    return f"{round(value, behind):,.{max(0, behind)}f}"


def told(results, script, names, digits):
    """Figures in one cell, with their unit behind them."""
    got = [results.ask(script, name) for name in names]
    unit = next((UNITS.get(it[1], it[1]) for it in got if it), "")
    return f"{' / '.join(rounded(it[0], digits) if it else '-' for it in got)} {unit}".strip()


def shared(sizes):
    """Sizes in one cell: what they share at their ends is told once."""
    kinds = [size.partition(" ")[2] for size in sizes]
    if all(size[0].isdigit() for size in sizes) and len({kind.rstrip("s") for kind in kinds}) == 1:
        return f"{' / '.join(size.partition(' ')[0] for size in sizes)} {kinds[-1]}"
    return " / ".join(sizes)


def row_of(results, row):
    sizes = [*row.sizes, *(it for it in row.more if results.ask(row.script, row.name.format(it)))]
    names = [row.name.format(size) for size in sizes or [""]]
    cells = [row.what, shared(sizes), told(results, row.script, names, row.digits), "", row.script]
    if row.other:
        others = [row.other.format(size) for size in sizes or [""]]
        cells[3] = f"{row.whose}: {told(results, row.script, others, row.digits)}"
    return f"| {' | '.join(cells)} |"


def runs_of(results):
    """The runs that were used: those of one commit, date and machine in one item of a list."""
    kinds = {}
    for (script, words), run in sorted(results.used.items()):
        load = run["figures"].get("load")
        said = " ".join([f"`{' '.join([script, *words.split()])}`", *([f"({load[0]:.1f})"] if load else [])])
        kinds.setdefault((run["commit"], run["date"], run["machine"]), []).append(said)
    return [f"- Commit {commit}, {date}, {machine}; scripts, with the load before each: {', '.join(said)}."
            for (commit, date, machine), said in sorted(kinds.items())]


def table_of(results):
    lines = ["| What | At | whx12 | Beside it | Script |", "|---|---|---|---|---|"]
    for part, rows in TABLE.items():
        lines += [f"| **{part}** | | | | |", *(row_of(results, row) for row in rows)]
    return "\n".join(lines + [""] + runs_of(results)).rstrip("\n")


# --- plots -------------------------------------------------------------------------------------

WIDTH, HEIGHT, LEFT, RIGHT, HEAD, FOOT = 700, 430, 78, 84, 84, 58
INK, PALE, GRID, FINE = "#1f2933", "#52606d", "#c3cad2", "#e9edf1"
BLUE, SKY, RED, SAND, GREEN = "#0072b2", "#3fa0da", "#c2500a", "#d99a2b", "#00805f"
MARKS = {"circle": "m-4.5 0a4.5 4.5 0 1 0 9 0a4.5 4.5 0 1 0 -9 0z", "square": "m-4.2 -4.2h8.4v8.4h-8.4z",
         "diamond": "m0 -5.6l5.6 5.6l-5.6 5.6l-5.6 -5.6z", "triangle": "m0 -5.6l5.4 9.6h-10.8z"}
STYLE = (f"text{{font:13px sans-serif;fill:{INK}}}.title{{font-weight:bold;font-size:15px}}"
         f".axis{{fill:{PALE}}}.value{{paint-order:stroke;stroke:#ffffff;stroke-width:6px}}"
         f".mid{{text-anchor:middle}}.end{{text-anchor:end}}")
# A line: what it is, its points, its colour, the shape of its marks, and whether it is broken.
Line = namedtuple("Line", "what points colour mark broken", defaults=[False])
# A bar: what stands before it, its value, and the place of its kind in a legend.
Bar = namedtuple("Bar", "what value kind")


def text(x, y, said, kind="", turned=False):
    more = f' class="{kind}"' if kind else ""
    more += f' transform="rotate(-90 {x:.1f} {y:.1f})"' if turned else ""
    return f'<text x="{x:.1f}" y="{y:.1f}"{more}>{escape(said)}</text>'


def stroke(points, colour, width=1.0, broken=False):
    path = "L".join(f"{x:.1f} {y:.1f}" for x, y in points)
    more = ' stroke-dasharray="6 4"' if broken else ""
    return f'<path d="M{path}" fill="none" stroke="{colour}" stroke-width="{width:g}"{more}/>'


def mark(x, y, shape, colour):
    """The mark of a point."""
    return f'<path d="M{x:.1f} {y:.1f}{MARKS[shape]}" fill="{colour}"/>'


def sheet(title, height, drawn):
    """A picture under its title."""
    return "\n".join([
        f'<svg xmlns="http://www.w3.org/2000/svg" width="{WIDTH}" height="{height}" '
        f'viewBox="0 0 {WIDTH} {height}" role="img">',
        f"<title>{escape(title)}</title>", f"<style>{STYLE}</style>",
        f'<rect width="{WIDTH}" height="{height}" fill="#ffffff"/>', text(16, 28, title, "title"), *drawn,
        "</svg>", ""])


def short(value):
    """A number on an axis or at a point."""
    return f"{value:,.0f}" if value >= 1 else f"{value:g}"


class Axis:
    """An axis of powers of ten, from one end of the picture to another."""

    def __init__(self, values, start, end, whole):
        low, high = math.log10(min(values, default=1)), math.log10(max(values, default=10))
        self.low, self.high = (math.floor(low), math.ceil(high)) if whole else (low - 0.1, high + 0.1)
        self.high = max(self.high, self.low + 1)
        self.start, self.end = start, end

    def at(self, value):
        return self.start + (math.log10(value) - self.low) / (self.high - self.low) * (self.end - self.start)

    def ticks(self, steps):
        """Numbers on the axis that are one of these steps times a power of ten."""
        powers = range(math.floor(self.low), math.ceil(self.high) + 1)
        found = [step * 10.0 ** power for power in powers for step in steps]
        return [it for it in found if self.low - 1e-9 <= math.log10(it) <= self.high + 1e-9]


def grid(across, up):
    """Both axes with their numbers."""
    drawn = []
    for steps, colour in (((2, 5), FINE), ((1,), GRID)):
        drawn += [stroke([(across.at(it), up.start), (across.at(it), up.end)], colour) for it in across.ticks(steps)]
        drawn += [stroke([(across.start, up.at(it)), (across.end, up.at(it))], colour) for it in up.ticks(steps)]
    drawn += [text(across.at(it), up.start + 20, short(it), "axis mid") for it in across.ticks((1,))]
    drawn += [text(across.start - 8, up.at(it) + 4.5, short(it), "axis end") for it in up.ticks((1,))]
    return drawn


def legend(lines):
    """What each line is, side by side above the picture."""
    drawn, x = [], 46
    for line in lines:
        drawn += [stroke([(x, 54), (x + 28, 54)], line.colour, 2, line.broken),
                  mark(x + 14, 54, line.mark, line.colour), text(x + 35, 58.5, line.what)]
        x += 35 + 7.5 * len(line.what) + 14
    return drawn


def ends(lines, across, up, unit):
    """The last value of each line, beside its last point; those that would touch are moved apart."""
    drawn, below = [], {}
    for line in sorted((it for it in lines if it.points), key=lambda it: -it.points[-1][1]):
        size, value = line.points[-1]
        y = max(up.at(value) + 4.5, below.get(size, 0))
        below[size] = y + 14
        drawn.append(text(across.at(size) + 10, y, f"{rounded(value)} {unit}", "value"))
    return drawn


def plot(title, along, beside, unit, lines):
    """Lines over two axes of powers of ten."""
    sizes = [size for line in lines for size, _ in line.points]
    values = [value for line in lines for _, value in line.points]
    across = Axis(sizes, LEFT, WIDTH - RIGHT, whole=False)
    up = Axis(values, HEIGHT - FOOT, HEAD, whole=True)
    drawn = [*grid(across, up), text((across.start + across.end) / 2, HEIGHT - 16, along, "axis mid"),
             text(22, (up.start + up.end) / 2, beside, "axis mid", turned=True), *legend(lines)]
    for line in lines:
        places = [(across.at(size), up.at(value)) for size, value in line.points]
        drawn += [stroke(places, line.colour, 2, line.broken)] if len(places) > 1 else []
        drawn += [mark(x, y, line.mark, line.colour) for x, y in places]
    return sheet(title, HEIGHT, drawn + ends(lines, across, up, unit))


def bars(title, along, kinds, found):
    """Bars from the left; kinds are pairs of what a colour is, and the colour."""
    left, right, top, step = 232, 640, 84, 46
    height = top + step * len(found) + 56
    most = max((bar.value for bar in found), default=1)
    unit = 10.0 ** math.floor(math.log10(most))
    unit = next(it * unit for it in (0.2, 0.5, 1, 2) if most / (it * unit) <= 6)
    last = math.ceil(most / unit) * unit
    place, foot, drawn, x = lambda value: left + value / last * (right - left), top + step * len(found), [], left
    for count in range(round(last / unit) + 1):
        drawn += [stroke([(place(count * unit), top - 8), (place(count * unit), foot)], GRID),
                  text(place(count * unit), foot + 20, short(count * unit) if count else "0", "axis mid")]
    for what, colour in kinds:
        drawn += [f'<rect x="{x:.1f}" y="47" width="14" height="14" fill="{colour}"/>', text(x + 21, 58.5, what)]
        x += 21 + 7.3 * len(what) + 24
    for row, bar in enumerate(found):
        y = top + step * row
        drawn += [text(left - 10, y + 20, bar.what, "end"),
                  f'<rect x="{left}" y="{y + 2}" width="{place(bar.value) - left:.1f}" height="28" '
                  f'fill="{kinds[bar.kind][1]}"/>',
                  text(place(bar.value) + 8, y + 20.5, rounded(bar.value), "value")]
    drawn.append(text((left + right) / 2, foot + 42, along, "axis mid"))
    return sheet(title, height, drawn)


def commands_of(results):
    """What a command costs, by the entries of its book."""
    sizes = [(size, int(size.split()[0].replace(",", ""))) for size in TENS]
    asked = [("whx12, new", f"new command, {ALONE}", BLUE, "circle", False),
             ("whx12, known", f"known command, {ALONE}", SKY, "square", False),
             ("C SQLite, new", f"C SQLite, new command, {ALONE}", RED, "triangle", True),
             ("C SQLite, known", f"C SQLite, known command, {ALONE}", SAND, "diamond", True)]
    lines = [Line(what, results.points("costs", name, sizes), *how) for what, name, *how in asked]
    return plot("Processor time of a command over an open book", "entries of the book", "microseconds", "us",
                lines)


def openings_of(results):
    """What an opening costs, by the entries of its book."""
    sizes = [(size, int(size.split()[0].replace(",", ""))) for size in TENS]
    days = [(size, results.ask("year", f"year: entries after {size}")) for size in YEAR + LONGER]
    days = [(size, got[0]) for size, got in days if got]
    lines = [Line("1 depositor", results.points("books", f"opening, {ALONE}", sizes), BLUE, "circle"),
             Line("100 depositors", results.points("books", f"opening, {MANY}", sizes), SKY, "square"),
             Line("days of a house", results.points("year", "year: opening after {}", days), GREEN, "diamond"),
             Line("C SQLite, quick_check", results.points("books", f"C SQLite, quick_check, {ALONE}", sizes),
                  RED, "triangle", True)]
    return plot("Time of an opening, which reads the whole book", "entries of the book", "seconds", "s", lines)


def throughput_of(results):
    """How many requests a server answers."""
    asked = [("stock report", "routes", "stock report over HTTP", 0),
             ("known interchange", "routes", "known interchange over HTTP", 0),
             ("new interchange, one book", "split", "new interchange over HTTP, 1 book", 1),
             ("new interchange, four books", "split", "new interchange over HTTP, 4 books", 1)]
    got = [(what, results.ask(script, name), kind) for what, script, name, kind in asked]
    return bars("Requests that are answered over HTTP", "requests a second, a connection for each",
                [("one client", BLUE), ("four clients", GREEN)],
                [Bar(what, it[0], kind) for what, it, kind in got if it])


PLOTS = {"commands": commands_of, "openings": openings_of, "throughput": throughput_of}

# --- page and files ----------------------------------------------------------------------------


def read(path):
    """A file of the repository; nothing where none is."""
    if not os.path.exists(f"{TOP}/{path}"):
        return ""
    with open(f"{TOP}/{path}", encoding="utf-8") as file:
        return file.read()


def made_files():
    """What this makes: texts by their paths."""
    results = Results(f"{HERE}/results.jsonl")
    made = {f"docs/figures/{name}.svg": drawn(results) for name, drawn in PLOTS.items()}
    return {PAGE: with_part(read(PAGE), "figures", table_of(results)), **made}


def main():
    made = made_files()
    others = [path for path, said in made.items() if read(path) != said]
    if "--check" in sys.argv[1:]:
        if others:
            raise Wrong(f"bench/figures.py makes another {', another '.join(others)}")
    else:
        os.makedirs(f"{TOP}/docs/figures", exist_ok=True)
        for path in others:
            with open(f"{TOP}/{path}", "w", encoding="utf-8") as file:
                file.write(made[path])
    print(f"{PAGE} and {len(PLOTS)} plots are made of bench/results.jsonl")


if __name__ == "__main__":
    main()
