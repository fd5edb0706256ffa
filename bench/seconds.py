#!/usr/bin/env python3
"""What each function of a crate costs the prover.

Usage: bench/seconds.py CRATE [--cpus 3] [--most 40] [--keep FOLDER] [FLAG ..]
       (default: processor 3, the forty dearest; further flags go to `rattle check`, as `--only
        MODULE::FUNCTION` or `--allow-holes`)

The crate is checked over the libraries that earlier runs of `rt ci` on this machine kept (the newest of
each), or that bench/libraries.py made, by one job, as CI does it. It asks `rattle` alone: `rt check` of
a crate high up first reads all sources once for each way down crates.txt, for minutes. Printed is what
rattle says, but for what is proved, the seconds of each part of all proofs, and those of each function:
those between what was checked before it and itself, with the lemmas that it is the first to need; after
them, where it takes a second or more, those of its search alone (its module `Proof`), which an answer
would save. With `--keep` what is proved stays in FOLDER and the next run there does only what changed. A
first function pays some 15 seconds for the front end. Other work on the machine makes all of it dearer.
"""
import collections
import glob
import json
import os
import re
import subprocess
import sys
import tempfile

from lib import TOP, crates_of, option

RUN = {
    "tier": "by hand",
    "shows": "what each function of a crate costs the prover",
    "needs": ["libraries"],
    "minutes": 10,
}
KIT = "/opt/rattle"
KEPT = "/opt/rattle-kept"
# the parts of a function's proof, each a module of its own
PARTS = re.compile(r"(Lts|Proof|Tie|Kinds|Answers|Met|Statement|Code|Goals|Text|Invariants|Owed|Parts|Close|Calls|Given)")


def lay(name, folder):
    """Lays the newest library of the crate that a run kept into the folder, or that bench/libraries.py made, and returns its path."""
    made = f"{TOP}/crates/{name}/out/rlib/{name}.rlib"
    if os.path.isdir(made) and not os.path.isdir(KEPT):
        os.symlink(made, f"{folder}/{name}.rlib")
        return f"{folder}/{name}.rlib"
    kept = [it for it in glob.glob(f"{KEPT}/proof-{name}-*") if re.fullmatch(rf"proof-{name}-[0-9a-f]{{64}}", os.path.basename(it))]
    if not kept:
        sys.exit(f"no run of rt ci on this machine has kept {name}: run `rt ci {name}` or bench/libraries.py first")
    at = max(kept, key=lambda it: os.stat(f"{it}/made.json").st_mtime)
    with open(f"{at}/made.json", encoding="utf-8") as file:
        for number, (path, _) in enumerate(json.load(file)["files"]):
            to = f"{folder}/{path.removeprefix('rlib/')}"
            os.makedirs(os.path.dirname(to), exist_ok=True)
            os.symlink(f"{at}/{number}", to)
    return f"{folder}/{name}.rlib"


def words_of(crate, deps, folder):
    """The words of the check, with the libraries below the crate laid into the folder."""
    below = []

    def add(name):
        for it in deps[name]:
            if it in deps and it not in below:
                below.append(it)
                add(it)

    add(crate)
    rlibs = {it: lay(it, folder) for it in below}
    words = [f"{KIT}/bin/rattle", "check", "--crate-name", crate, f"src/{'main' if os.path.exists('src/main.rt') else 'lib'}.rt"]
    for name in [*deps[crate], "std"]:
        words += ["--extern", f"{name}={rlibs.get(name, f'{KIT}/rlibs/{name}.rlib')}"]
    words += ["-L", f"dependency={KIT}/rlibs", "-L", f"dependency={folder}", "--jobs", "1"]
    return [*words, "--antt-project", f"{KIT}/rattle/logic/antt-project.json", "--logic-built", f"{KIT}/logic_built"]


def spent(folder, since):
    """The seconds since a moment of each function, of each part, and of each function's search, by when their modules were written."""
    rows = [(os.stat(f"{at}/{name}").st_mtime, name) for at, _, names in os.walk(folder) if not at.endswith("/records")
            for name in names if name.endswith(".oantt")]
    sums, kinds, searches, last = collections.Counter(), collections.Counter(), collections.Counter(), since
    for moment, name in sorted(it for it in rows if it[0] > since):
        parts = name.removesuffix(".oantt").split(".")
        cut = next((at for at, it in enumerate(parts) if PARTS.match(it)), len(parts))
        kind = parts[cut] if cut < len(parts) else "others"
        sums[".".join(parts[:cut])] += moment - last
        kinds[kind] += moment - last
        if kind == "Proof":
            searches[".".join(parts[:cut])] += moment - last
        last = moment
    return sums, kinds, searches


def main():
    words = sys.argv[1:]
    cpus, most, keep = option(words, "--cpus", "3"), option(words, "--most", 40), option(words, "--keep", None)
    crate = words.pop(0)
    os.chdir(f"{TOP}/crates/{crate}")
    with tempfile.TemporaryDirectory(prefix="whx12-seconds-") as room:
        kept = os.path.abspath(keep or f"{room}/kept")
        os.makedirs(kept, exist_ok=True)
        os.mkdir(f"{room}/rlib")
        begun = f"{room}/begun"
        with open(begun, "w", encoding="utf-8"):
            pass
        run = subprocess.run(["taskset", "-c", cpus, *words_of(crate, crates_of(), f"{room}/rlib"), "--incremental", kept, *words],
                             stdout=subprocess.PIPE, stderr=subprocess.STDOUT, text=True, errors="replace", check=False)
        sums, kinds, searches = spent(kept, os.stat(begun).st_mtime)
    lines = [it for it in run.stdout.splitlines() if not it.startswith(("statements ", "library ")) and not it.endswith(": proved")]
    print("\n".join(lines))
    print(f"{len(sums)} items, {sum(sums.values()):.0f} seconds: {', '.join(f'{it} {seconds:.0f}' for it, seconds in kinds.most_common(6))}")
    for name, seconds in sums.most_common(most):
        print(f"{seconds:7.1f}  {name}{f'  search {searches[name]:.1f}' if searches[name] >= 1 else ''}")
    return run.returncode


if __name__ == "__main__":
    sys.exit(main())
