#!/usr/bin/env python3
"""Runs `rt plant` over the libraries that a run of `rt ci` built, where `rt plant` alone proves all of them
again first.

Usage: bench/plant.py CRATE FOLDER [--keep PLACE] [--only WORD] [--minutes N] [--max N] [--all]

FOLDER is the clone of `bench/ci.py --keep FOLDER`, of the same sources. The crate is checked and planted
in a clone of the last commit of its own, so several crates may be planted side by side; with --keep it
stays in PLACE, and the next run there proves what changed alone. The further words are those of `rt
plant --help`. The status is that of `rt plant`.
"""
import importlib.machinery
import os
import shutil
import subprocess
import sys
import tempfile
import types

from lib import TOP

RUN = {
    "tier": "by hand",
    "shows": "a helper: `rt plant` in a crate, over the libraries that bench/ci.py --keep left",
    "needs": ["rt"],
    "minutes": 20,
}
PLANT = "/opt/rattle/bin/rt-plant"


def module():
    """`rt plant` as a module."""
    made = types.ModuleType("plant")
    made.__file__ = PLANT
    importlib.machinery.SourceFileLoader("plant", PLANT).exec_module(made)
    return made


def lay(folder, clone):
    """Lays the libraries that stand in the folder into the clone, whose sources must be the same."""
    for name in os.listdir(f"{clone}/crates"):
        built, to = f"{folder}/crates/{name}/out/rlib", f"{clone}/crates/{name}/out/rlib"
        if os.path.isdir(f"{built}/{name}.rlib") and not os.path.isdir(to):
            for part in ("src", "specs", "proofs"):
                one, other = (f"{it}/crates/{name}/{part}" for it in (folder, clone))
                is_there = os.path.isdir(one) or os.path.isdir(other)
                if is_there and subprocess.run(["diff", "-rqN", one, other], stdout=subprocess.DEVNULL, check=False).returncode:
                    sys.exit(f"{one} isn't that of the last commit")
            shutil.copytree(built, to, copy_function=os.link)


def main():
    words = sys.argv[1:]
    kept = words.pop(words.index("--keep") + 1) if "--keep" in words else None
    words = [it for it in words if it != "--keep"]
    crate, folder = words.pop(0), os.path.abspath(words.pop(0))
    with tempfile.TemporaryDirectory(prefix="whx12-plant-") as made:
        clone = os.path.abspath(kept or f"{made}/clone")
        if not os.path.isdir(clone):
            subprocess.run(["git", "clone", "-q", TOP, clone], check=True)
        lay(folder, clone)
        plant = module()
        plant.rt.Crate.is_built = lambda it: os.path.isdir(it.rlib)
        # (rt checks the crate over these, and builds none of them)
        plant.rt.Crate.build_rlib = lambda it, _, __: 0 if it.is_built() else 1
        os.chdir(f"{clone}/crates/{crate}")
        return plant.main(*words)


if __name__ == "__main__":
    sys.exit(main())
