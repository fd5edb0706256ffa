#!/usr/bin/env python3
"""Draws docs/architecture.svg: the crates in their layers, and the way of a command through them.

Usage: bench/picture.py [--check]

The crates are those of crates.txt; LAYERS says where each stands, PATHS where a command goes and
its reply comes back. A crate uses crates of its own layer and of lower ones alone. With --check
nothing is written. The status is 1 where docs/architecture.svg is then another picture than this
one; and always where a crate of crates.txt has no layer, a layer names a crate that isn't there, a
crate has two layers or uses one of a higher layer.
"""
import sys
from collections import namedtuple
from html import escape

from lib import TOP, Wrong, crates_of

RUN = {
    "tier": "quick",
    "shows": "each crate has its layer and uses no higher one; docs/architecture.svg shows them",
    "words": ["--check"],
    "minutes": 0.01,
}
PICTURE = f"{TOP}/docs/architecture.svg"
WIDTH, HEIGHT = 900, 692
# The layers, from the lowest to the highest: a title, some words about it, the left edge, the top
# and the width of its band, and its crates, row by row; `-` leaves a place free.
Layer = namedtuple("Layer", "title about left top width rows")
LAYERS = [
    Layer("Definitions", "what contracts cite, and worked examples", 16, 608, 868,
          ["definitions worked_examples"]),
    Layer("X12 texts", "read, judged, written", 16, 526, 868,
          ["segments envelope group_faults tables sets_in sets_out"]),
    Layer("Goods and rules", "what is decided; no store, no clock", 16, 422, 868,
          ["entries rules set_effects stock page_rows sheets"]),
    Layer("The book", "", 158, 290, 158, ["store"]),
    Layer("SQLite", "the book in tables", 430, 290, 330,
          ["books book_tables -", "book_transactions book_statements seals"]),
    Layer("Edges", "what comes in, and what people see", 158, 98, 442,
          ["commands command_line http_client unready", "folders reports sheet_texts page",
           "intake request_guard head_fields peers counted_io"]),
    Layer("The program", "one line of words, run", 158, 16, 286, ["app whx12"]),
    Layer("Tests", "", 456, 16, 428, ["case_files test_calls test_program"]),
]
ON_THE_WAY = "commands folders intake store rules books book_tables".split()
# Where a command comes from: words, and the place of the crate's row among those of the edges.
SOURCES = ["words, a file", "a folder", "a socket"]
# Ways in pairs, there and back: the line between the two, and what stands beside them.
Pair = namedtuple("Pair", "start end there back")
PATHS = [
    Pair((262, 240), (262, 314), "submit", "Reply"),
    Pair((272, 346), (272, 446), "decide", "Decision"),
    Pair((272, 478), (272, 526), "text", "answer"),
    Pair((302, 330), (444, 330), "load, commit", "Page, Known"),
    Pair((760, 344), (806, 344), "", ""),
]
LEGEND = [
    "a command on its way",
    "what comes back",
    "a main crate on that way",
    "Each crate uses crates of its own",
    "layer and of lower numbers.",
]
ROW, BOX, GAP, SIDE, HEAD = 40, 32, 12, 14, 24
INK, PALE, BLUE, TINT = "#1f2933", "#52606d", "#1f5fa8", "#dcebfa"


# --- crates and layers -------------------------------------------------------------------------


def layers_of():
    """The number of each crate's layer."""
    found = {}
    for number, layer in enumerate(LAYERS, 1):
        for name in " ".join(layer.rows).replace("-", "").split():
            if name in found:
                raise Wrong(f"{name} has two layers")
            found[name] = number
    return found


def test_layers(crates, layers):
    """Fails where the layers aren't those of the crates."""
    wrong = [f"{name} of crates.txt has no layer" for name in crates if name not in layers]
    wrong += [f"no crate {name} in crates.txt" for name in layers if name not in crates]
    wrong += [f"{name} uses {other}, of a higher layer" for name, used in crates.items()
              for other in used if layers.get(other, 0) > layers.get(name, len(LAYERS))]
    if wrong:
        raise Wrong("\n".join(wrong))


# --- shapes ------------------------------------------------------------------------------------


def rect(left, top, width, height, fill, edge, round_by=6):
    return (f'<rect x="{left}" y="{top}" width="{width}" height="{height}" rx="{round_by}" '
            f'fill="{fill}" stroke="{edge}"/>')


def text(x, y, words, kind):
    """Words at a point; the kind is that of a style, and says where their point is."""
    return f'<text x="{x}" y="{y}" class="{kind}">{escape(words)}</text>'


def arrow(start, end, kind):
    return f'<path d="M{start[0]} {start[1]}L{end[0]} {end[1]}" class="{kind}"/>'


def pair(way):
    """A way there and one back beside it, with their words."""
    (x, y), (to_x, to_y) = way.start, way.end
    if x == to_x:
        middle = (y + to_y) // 2 + 7
        return [arrow((x - 9, y), (x - 9, to_y - 2), "there"),
                arrow((x + 9, to_y), (x + 9, y + 2), "back"),
                text(x - 16, middle, way.there, "left"), text(x + 16, middle, way.back, "right")]
    middle = (x + to_x) // 2
    return [arrow((x, y - 7), (to_x - 2, y - 7), "there"),
            arrow((to_x, y + 7), (x + 2, y + 7), "back"),
            text(middle, y - 14, way.there, "mid"), text(middle, y + 22, way.back, "mid")]


def boxes(layer):
    """The crates of a layer."""
    drawn = []
    for row, names in enumerate(it.split() for it in layer.rows):
        width = (layer.width - 2 * SIDE - GAP * (len(names) - 1)) // len(names)
        top = layer.top + HEAD + ROW * row
        for at, name in enumerate(names):
            if name == "-":
                continue
            left = layer.left + SIDE + at * (width + GAP)
            fill, edge = (TINT, BLUE) if name in ON_THE_WAY else ("#ffffff", "#9aa5b1")
            drawn += [rect(left, top, width, BOX, fill, edge, 4),
                      text(left + width // 2, top + 21, name, "crate")]
    return drawn


def band(number, layer):
    """A layer with its crates."""
    height = HEAD + ROW * len(layer.rows) + 4
    right = layer.left + layer.width - SIDE
    return [rect(layer.left, layer.top, layer.width, height, "#f5f7fa", "#cbd2d9"),
            text(layer.left + SIDE, layer.top + 15, f"{number} {layer.title}", "title"),
            text(right, layer.top + 15, layer.about, "about"), *boxes(layer)]


def sources():
    """Where commands come from, beside the crates that take them."""
    drawn = [rect(166, 118, 106, 122, "none", BLUE)]
    for row, words in enumerate(SOURCES):
        top = 98 + HEAD + ROW * row
        drawn += [rect(16, top, 100, BOX, "#ffffff", PALE, 16), text(66, top + 21, words, "plain"),
                  *pair(Pair((116, top + 16), (172, top + 16), "", ""))]
    return drawn


def file():
    """The file with the book."""
    body, rim = "M806 312a39 10 0 0 1 78 0v64a39 10 0 0 1 -78 0z", "M806 312a39 10 0 0 0 78 0"
    return [f'<path d="{it}" fill="none" stroke="{PALE}"/>' for it in (body, rim)] + [
        text(845, 346, "SQLite", "plain"), text(845, 362, "file", "plain")]


def legend():
    drawn = [arrow((628, 131), (664, 131), "there"), arrow((664, 157), (628, 157), "back"),
             rect(628, 174, 36, 18, TINT, BLUE, 4)]
    for at, words in enumerate(LEGEND[:3]):
        drawn.append(text(676, 135 + 26 * at, words, "note"))
    for at, words in enumerate(LEGEND[3:]):
        drawn.append(text(628, 218 + 17 * at, words, "note"))
    return drawn


# --- the picture -------------------------------------------------------------------------------


def styles():
    """How texts and arrows look."""
    mark = ('<marker id="{0}" viewBox="0 0 8 8" refX="7" refY="4" markerWidth="7" '
            'markerHeight="7" orient="auto"><path d="M0 0L8 4L0 8z" fill="{1}"/></marker>')
    way = "path.{0}{{fill:none;stroke:{1};stroke-width:1.6;marker-end:url(#{0}-end){2}}}"
    rules = [
        f"text{{font:12px sans-serif;fill:{INK}}}", ".crate,.plain,.mid{text-anchor:middle}",
        ".crate{font:12px monospace}", ".title{font-weight:bold}", ".about,.left{text-anchor:end}",
        f".about{{fill:{PALE}}}", f".left,.right,.mid{{font:11px monospace;fill:{BLUE}}}",
        way.format("there", BLUE, ""), way.format("back", PALE, ";stroke-dasharray:4 3"),
    ]
    return [f"<defs>{mark.format('there-end', BLUE)}{mark.format('back-end', PALE)}</defs>",
            f"<style>{''.join(rules)}</style>"]


def drawn_picture():
    """The text of the picture."""
    lines = [f'<svg xmlns="http://www.w3.org/2000/svg" width="{WIDTH}" height="{HEIGHT}" '
             f'viewBox="0 0 {WIDTH} {HEIGHT}">',
             "<title>whx12: the crates, and the way of a command</title>", *styles(),
             f'<rect width="{WIDTH}" height="{HEIGHT}" fill="#ffffff"/>']
    for number, layer in enumerate(LAYERS, 1):
        lines += band(number, layer)
    lines += [*sources(), *file(), *legend()]
    for way in PATHS:
        lines += pair(way)
    return "\n".join(lines) + "\n</svg>\n"


def read_picture():
    """The picture that is there; nothing where none is."""
    try:
        with open(PICTURE, encoding="utf-8") as there:
            return there.read()
    except FileNotFoundError:
        return ""


def main():
    crates = crates_of()
    test_layers(crates, layers_of())
    picture = drawn_picture()
    if "--check" not in sys.argv[1:]:
        with open(PICTURE, "w", encoding="utf-8") as out:
            out.write(picture)
    elif read_picture() != picture:
        raise Wrong("docs/architecture.svg is another picture: bench/picture.py draws it")
    print(f"{len(crates)} crates in {len(LAYERS)} layers: docs/architecture.svg shows them")


if __name__ == "__main__":
    main()
