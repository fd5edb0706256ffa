#!/usr/bin/env python3
"""Fails each allocation of each test of a crate in turn.

Usage: bench/allocations.py CRATE|PROGRAM [TEST] [--most N]
              (CRATE is one whose tests `rt test` built, as tests: crates/test_calls/out/test_calls_tests;
           PROGRAM is such a program elsewhere, as bench/sweeps.py says)

A library put before the C library's lets the Nth call of malloc or realloc answer that there is no
memory, for N = 1, 2, .. up to as many as the test makes (or N evenly chosen ones under --most), a run
each. Want of memory is a result that code and test hand on: so each run must end well, or with the
test's own error. A run that is killed, hangs, or answers something else in place of the error (a failed
assertion) is listed, and the status is then 1.
"""
import os
import subprocess
import sys
import tempfile

from lib import HERE, preloaded

RUN = {
    "tier": "by hand",
    "shows": "each allocation of a test is refused in turn; the test ends well or with its own "
             "error",
    "needs": ["libraries", "gcc"],
    "minutes": 1,
}
SHIM = r"""
#define _GNU_SOURCE
#include <dlfcn.h>
#include <stdio.h>
#include <stdlib.h>
#include <unistd.h>
static long calls, failing = -1;
static int fails(void) {
  if (failing < 0) { char *text = getenv("FAIL_AT"); failing = text ? atol(text) : 0; }
  return ++calls == failing;
}
void *malloc(size_t size) {
  static void *(*next)(size_t);
  if (!next) next = dlsym(RTLD_NEXT, "malloc");
  return fails() ? 0 : next(size);
}
void *realloc(void *old, size_t size) {
  static void *(*next)(void *, size_t);
  if (!next) next = dlsym(RTLD_NEXT, "realloc");
  return fails() ? 0 : next(old, size);
}
__attribute__((destructor)) static void tell(void) {
  char line[32];
  if (getenv("TELL_CALLS")) (void)!write(2, line, snprintf(line, sizeof line, "\ncalls=%ld\n", calls));
}
"""
# What the tests say where they hand on that there is no memory.
MEMORY = ("AllocError", "AllocFailed", "no memory", "OutOfMemory")


def built(folder):
    """The library that counts and fails calls."""
    return preloaded(folder, SHIM)


def run(program, test, library, folder, **more):
    """One run of one test: its status and what it printed."""
    environment = dict(os.environ, LD_PRELOAD=library, **more)
    ran = subprocess.run([program, test], env=environment, cwd=folder, capture_output=True, text=True, timeout=120, check=False)
    return ran.returncode, ran.stdout + ran.stderr


def swept(program, test, library, folder, most):
    """Fails each allocation of a test: how many runs there were, and the ones that didn't end as they must."""
    status, text = run(program, test, library, folder, TELL_CALLS="1")
    calls = int(text.rsplit("calls=", 1)[1])
    assert status == 0, f"{test} fails without our help"
    wrong, handed_on = [], 0
    places = range(1, calls + 1, max(1, -(-calls // most)))
    for place in places:
        status, text = run(program, test, library, folder, FAIL_AT=str(place))
        if status == 0:
            continue
        if status == 101 and any(word in text for word in MEMORY) and "assert" not in text:
            handed_on += 1
        else:
            wrong.append((place, status, text.strip()[-200:]))
    print(f"{test}: {calls} calls, {len(places)} runs, {handed_on} ended with want of memory, {len(wrong)} wrong")
    for place, status, text in wrong[:5]:
        print(f"  at {place}: status {status}: {text}")
    return len(wrong)


def main(words):
    most = int(words[words.index("--most") + 1]) if "--most" in words else 1_000_000
    crate = words[0]
    chosen = words[1] if len(words) > 1 and not words[1].startswith("--") else ""
    program = crate if os.sep in crate else os.path.join(HERE, "..", "crates", crate, "out", f"{crate}_tests")
    program = os.path.abspath(program)
    listed = subprocess.run([program, "--list"], capture_output=True, text=True, check=True).stdout
    tests = [line.removesuffix(": test") for line in listed.splitlines() if line.endswith(": test") and chosen in line]
    with tempfile.TemporaryDirectory() as folder:
        library = built(folder)
        wrong = sum(swept(program, test, library, folder, most) for test in tests)
    return 1 if wrong else 0


if __name__ == "__main__":
    if len(sys.argv) < 2:
        sys.exit(__doc__)
    sys.exit(main(sys.argv[1:]))
