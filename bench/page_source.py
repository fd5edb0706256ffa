#!/usr/bin/env python3
"""Makes the sources of the crate `page` from the page that a browser gets.

Usage: bench/page_source.py            writes crates/page/src and crates/page/specs anew from crates/page/page
       bench/page_source.py --check    compares the two; status 1 where they differ

crates/page/page has the page as it is read and edited: index.html, style.css, paper.css and script/*.js. The page as it is served
is index.html with both styles in its <style> and the scripts, by the order of their names, in its <script>; without the lines that
are empty or a comment alone, and without their indentation. Each file becomes a constant of bytes in a module of its own;
`kind` has the media type and the fields that go with it, with the digests of the style and of the script, so that a browser
runs these and nothing else. `appending` appends the pieces one after the other: a function for each, so that each proof is of two
texts. What can't stand in such a page is told: letters outside ASCII, a text over several lines, more than 80 KiB.
"""
import base64
import hashlib
import os
import sys
import textwrap

from lib import TOP, Wrong

RUN = {
    "tier": "quick",
    "shows": "the constants of the crate `page` are the page's sources, with the digests that its response names",
    "words": ["--check"],
    "minutes": 0.1,
}
CRATE = f"{TOP}/crates/page"
PAGE, MADE = f"{CRATE}/page", ("src", "specs")
MOST_BYTES = 81_920
TYPE = """text/html; charset=utf-8
Content-Security-Policy: default-src 'none'; script-src 'sha256-{script}'; style-src 'sha256-{style}'; connect-src 'self'; \
img-src 'self' data:; form-action 'none'; base-uri 'none'; frame-ancestors 'none'
X-Content-Type-Options: nosniff
Referrer-Policy: no-referrer
Cache-Control: no-store"""
TYPE_IS = "The value of the field Content-Type, and the fields that go with it"
LINE_IS = "The fields of the type, and the name of the field of the length"
APPENDS = """
{about}
#[tactic(auto, unfolding(crate::specs::Pages::from_{name}))]
{public}fn append_from_{name}(out: &mut Vec<u8>) -> Result<(), AllocError>
    ensures {{ OnOk result (out.new.items ≡ out.old.items ++ from_{name}) }}
{{
    out.extend_from_slice({constant})?;
    {then}
}}
"""
MEANT = """
-- the page from {constant} on
unfoldable pub from_{name} : List ℕ
from_{name} = {constant}.now{then}
"""
MADE_BY = "Made by bench/page_source.py from crates/page/page: edit that."
LIBRARY = """
/// How many bytes the page has.
pub const LENGTH: usize = {length};

/// The page. The one error is want of memory.
pub fn page(alloc: Global) -> Result<Vec<u8>, AllocError>
    ensures {{ IfOk result (λ text. text.items ≡ page_text) }}
{{
    let mut text = Vec::with_capacity(alloc, LENGTH)?;
    append_from_top(&mut text)?;
    Ok(text)
}}
"""
PAGES = """
-- its media type, with the fields that go with it
abbrev pub page_type : List ℕ
page_type = TYPE.now

-- the page
abbrev pub page_text : List ℕ
page_text = from_top
"""
MOST_COLUMNS = 100


def read(file):
    with open(f"{PAGE}/{file}", encoding="utf-8") as it:
        return it.read()


def scripts():
    """The names of the scripts, in their order."""
    return sorted(f"script/{name}" for name in os.listdir(f"{PAGE}/script") if name.endswith(".js"))


# --- the page as it is served ------------------------------------------------------------------


def served(file):
    """The lines of a file that a browser needs, without their indentation."""
    kept, in_comment = [], False
    for at, line in enumerate(read(file).splitlines(), 1):
        line = line.strip()
        if not line.isascii():
            raise Wrong(f"{file}:{at}: a letter outside ASCII")
        if line.count("`") % 2:
            raise Wrong(f"{file}:{at}: a text over several lines, whose indentation would be lost")
        begins = line.startswith("/*")
        if not in_comment and not begins and line and not line.startswith("//"):
            kept.append(line)
        in_comment = (in_comment or begins) and not line.endswith("*/")
    return "".join(f"{line}\n" for line in kept)


def body():
    """The pieces of the page, in their order: the module, what it is, the file that it is made from, and its text."""
    top, style, rest = served("index.html").partition("<style></style>\n")
    middle, script, end = rest.partition("<script></script>\n")
    if not style or not script:
        raise Wrong("index.html: no place for the style, or for the script")
    pieces = [("top", "The page before its style", "index.html", f"{top}<style>\n"),
              ("style", "The style", "style.css", served("style.css")),
              ("paper", "The style on paper", "paper.css", served("paper.css")),
              ("middle", "The page between its style and its script", "index.html", f"</style>\n{middle}<script>\n")]
    pieces += [(f"script_{at}", f"The script, part {at}", file, served(file)) for at, file in enumerate(scripts(), 1)]
    return [*pieces, ("end", "The page after its script", "index.html", f"</script>\n{end}")]


def digest(text):
    """A digest as Content-Security-Policy writes it."""
    return base64.b64encode(hashlib.sha256(text.encode()).digest()).decode()


def inside(pieces, *names):
    """What stands in an element: these pieces, after the line end that follows its tag."""
    return "\n" + "".join(text for name, _, _, text in pieces if name.startswith(names))


def type_of(pieces):
    """The media type of the response, with the fields that go with it."""
    style, script = inside(pieces, "style", "paper"), inside(pieces, "script_")
    if "</" in style or "</script" in script or "<!--" in script:
        raise Wrong("the style or the script would end its element")
    length = sum(len(text) for *_, text in pieces)
    if length > MOST_BYTES:
        raise Wrong(f"the page has {length} bytes, more than {MOST_BYTES}")
    return TYPE.format(style=digest(style), script=digest(script)).replace("\n", "\r\n")


def type_line(kind):
    """The fields of the type, and the name of the field of the length."""
    return f"Content-Type: {kind}\r\nContent-Length: "


def response():
    """The whole response, as the program sends it."""
    pieces = body()
    text = "".join(text for *_, text in pieces)
    return f"HTTP/1.1 200 OK\r\n{type_line(type_of(pieces))}{len(text)}\r\nConnection: close\r\n\r\n{text}".encode()


# --- the crate ---------------------------------------------------------------------------------


def comment(mark, text):
    """Lines of a comment."""
    return "".join(f"{mark} {line}\n" for line in textwrap.wrap(text, MOST_COLUMNS - len(mark) - 1))


def literal(text):
    """A literal of bytes: lines of the source for each line of the text, which end in \\ since that passes over the line's end."""
    lines = []
    for line in text.splitlines(keepends=True):
        rest = line.replace("\\", "\\\\").replace('"', '\\"').replace("\r", "\\r").replace("\n", "\\n")
        while len(rest) >= MOST_COLUMNS and " " in rest[:MOST_COLUMNS - 1]:
            cut = rest.rindex(" ", 0, MOST_COLUMNS - 1) + 1
            lines.append(rest[:cut])
            rest = rest[cut:]
        lines.append(rest)
    return 'b"' + "".join(f"{line}\\\n" for line in lines) + '"'


def constant(name, what, text):
    """The source of a constant, in the kit's layout."""
    begin, value = f"pub const {name}: &[u8] =", literal(text)
    gap = " " if len(begin) + 1 + value.index("\n") <= MOST_COLUMNS else "\n    "
    return f"\n/// {what}.\n{begin}{gap}{value};\n"


def module(name, what, file, text):
    """The source of a module with one constant."""
    about = comment("//!", f"{what}. Made by bench/page_source.py from crates/page/page/{file}: edit that.")
    return about + constant(name.upper(), what, text)


def kind(pieces):
    """The source of the module with the media type."""
    text = type_of(pieces)
    return comment("//!", f"The type of the page. {MADE_BY}") + constant("TYPE", TYPE_IS, text) + constant("TYPE_LINE", LINE_IS, type_line(text))


def uses(names):
    """The lines of a specification, or of a source, that name the constants as they are meant."""
    return "".join(f"use Rattle.page.specs.declared.{name}.TheConstants.{{{name.upper()}}}\n" for name in names)


def in_order(names):
    """Names as the kit's layout orders imports: numbers by their size."""
    return sorted(names, key=lambda name: [int(part) if part.isdigit() else part for part in name.split("_")])


def library(pieces):
    """The source of the crate's root."""
    names = [name for name, *_ in pieces]
    modules = "".join(f"mod {name};\n" for name in sorted(["appending", "kind", *names]))
    about = (f"The page by which clerks work in a browser, in {len(pieces)} pieces in this order: {', '.join(names)}. {MADE_BY}")
    ghosts = "ghost use Rattle.std.specs.Prelude.{◌≡◌, IfOk};\nghost use Rattle.page.specs.Pages.{page_text};\n"
    imports = "use appending::append_from_top;\npub use kind::{TYPE, TYPE_LINE};\nuse std::alloc::{AllocError, Global};\n"
    length = sum(len(text) for *_, text in pieces)
    return comment("//!", about) + f"#![tactic(auto)]\n\n{ghosts}\n{modules}\n{imports}" + LIBRARY.format(length=length)


def appending(names):
    """The source of the functions that append the response from each of its pieces on, the last one first."""
    imports = "".join(f"use crate::{name}::{name.upper()};\n" for name in in_order(names))
    functions, then = "", "Ok(())"
    for name in reversed(names):
        is_first = name == names[0]
        about = "/// Appends the page." if is_first else f"// Appends the page from {name.upper()} on."
        functions += APPENDS.format(about=about, name=name, constant=name.upper(), then=then, public="pub(crate) " if is_first else "")
        then = f"append_from_{name}(out)"
    ghosts = "ghost use Rattle.std.specs.Prelude.{◌≡◌, ◌++◌, OnOk};\n"
    ghosts += "ghost use Rattle.page.specs.Pages.{" + ", ".join(f"from_{name}" for name in names) + "};\n"
    about = comment("//!", f"Appends the page, piece by piece. {MADE_BY}")
    return f"{about}{ghosts}\n{imports}use std::alloc::AllocError;\n{functions}"


def meant(names):
    """The specification: what the page is from each of its pieces on, and its type."""
    parts, then = "", ""
    for name in reversed(names):
        parts += MEANT.format(name=name, constant=name.upper(), then=then)
        then = f" ++ from_{name}"
    about = f"-- The page, by its pieces, and its type. {MADE_BY}\nuse Rattle.std.specs.Prelude.{{ℕ, List, ◌++◌}}\n"
    return about + "use Rattle.page.specs.declared.kind.TheConstants.{TYPE}\n" + uses(names) + parts + PAGES


def sources():
    """The files of the crate, by their names."""
    pieces = body()
    names = [name for name, *_ in pieces]
    made = {f"src/{name}.rt": module(name, what, file, text) for name, what, file, text in pieces}
    made |= {"src/lib.rt": library(pieces), "src/kind.rt": kind(pieces), "src/appending.rt": appending(names)}
    return {**made, "specs/Pages.antt": meant(names), "specs/Lib.antt": "pub mod Pages\n"}


def differing(made):
    """The names of files that are missing, too many, or other than they must be."""
    there = {f"{folder}/{name}" for folder in MADE if os.path.isdir(f"{CRATE}/{folder}") for name in os.listdir(f"{CRATE}/{folder}")}
    for name in sorted(there | set(made)):
        if name in there and name in made:
            with open(f"{CRATE}/{name}", encoding="utf-8") as file:
                if file.read() == made[name]:
                    continue
        yield name


def main(words):
    made = sources()
    if words == ["--check"]:
        wrong = list(differing(made))
        print(f"made anew by bench/page_source.py: {', '.join(wrong)}" if wrong else f"{len(made)} sources are made from the page")
        return 1 if wrong else 0
    for folder in MADE:
        os.makedirs(f"{CRATE}/{folder}", exist_ok=True)
    for name in differing(made):
        if name in made:
            with open(f"{CRATE}/{name}", "w", encoding="utf-8") as file:
                file.write(made[name])
        else:
            os.remove(f"{CRATE}/{name}")
    print(f"{len(made)} sources, {len(response())} bytes of a response")
    return 0


if __name__ == "__main__":
    sys.exit(main(sys.argv[1:]))
