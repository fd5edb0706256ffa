#!/usr/bin/env python3
"""Lets each read, write, sync and opening of each command of the program fail in turn.

Usage: bench/faults.py [--most N] [--only NAME] [PROGRAM]
       (default: all calls, crates/whx12/out/whx12, which `rt run` in that folder leaves)

A library put before the C library's lets the Nth call of open, read, write, pread, pwrite, fsync,
fdatasync, ftruncate, unlink, rename or lseek give EIO, for N = 1, 2, .. up to as many as a command
makes, a process each, over a copy of the book as it stood before the command (memory.py has the
commands). Calls on standard output and standard error count too. Each process must end by itself: as
without the fault, or with `fault 40`, `41`, `43` or `44` and status 3, or, where what fails is a word's
own file, with its own refusal; where standard error itself failed nothing is told. The command given
again then says what it must, its own text or the stored one, `verify` says ok, and stock and outbox are
as after the command. The status is 1 where something differs; the folder is then kept.
"""
import re
import shutil
import sys
import tempfile

import memory
from lib import option, preloaded, program_in

RUN = {
    "tier": "night",
    "shows": "each read, write, sync and opening of each command fails in turn",
    "needs": ["program", "gcc"],
    "words": [""],
    "minutes": 10,
}
SHIM = r"""
#define _GNU_SOURCE
#include <dlfcn.h>
#include <errno.h>
#include <stdarg.h>
#include <stdio.h>
#include <stdlib.h>
#include <string.h>
#include <sys/types.h>
#include <unistd.h>
static long calls, failing = -1;
static int fails(void) {
  if (failing < 0) { char *text = getenv("FAIL_AT"); failing = text ? atol(text) : 0; }
  if (++calls != failing) return 0;
  errno = EIO;
  return 1;
}
/* what the loader and the C library open for themselves isn't the program's */
static int is_ours(const char *name) {
  return strncmp(name, "/lib", 4) && strncmp(name, "/usr", 4) && strncmp(name, "/etc", 4) && strncmp(name, "/proc", 5) && strncmp(name, "/sys", 4);
}
#define NEXT(type, name, ...) static type (*next)(__VA_ARGS__); if (!next) next = dlsym(RTLD_NEXT, name)
ssize_t read(int fd, void *to, size_t n) { NEXT(ssize_t, "read", int, void *, size_t); return fails() ? -1 : next(fd, to, n); }
ssize_t write(int fd, const void *of, size_t n) { NEXT(ssize_t, "write", int, const void *, size_t); return fails() ? -1 : next(fd, of, n); }
ssize_t pread64(int fd, void *to, size_t n, off64_t at) { NEXT(ssize_t, "pread64", int, void *, size_t, off64_t); return fails() ? -1 : next(fd, to, n, at); }
ssize_t pread(int fd, void *to, size_t n, off_t at) { NEXT(ssize_t, "pread", int, void *, size_t, off_t); return fails() ? -1 : next(fd, to, n, at); }
ssize_t pwrite64(int fd, const void *of, size_t n, off64_t at) { NEXT(ssize_t, "pwrite64", int, const void *, size_t, off64_t); return fails() ? -1 : next(fd, of, n, at); }
ssize_t pwrite(int fd, const void *of, size_t n, off_t at) { NEXT(ssize_t, "pwrite", int, const void *, size_t, off_t); return fails() ? -1 : next(fd, of, n, at); }
int fsync(int fd) { NEXT(int, "fsync", int); return fails() ? -1 : next(fd); }
int fdatasync(int fd) { NEXT(int, "fdatasync", int); return fails() ? -1 : next(fd); }
int ftruncate64(int fd, off64_t n) { NEXT(int, "ftruncate64", int, off64_t); return fails() ? -1 : next(fd, n); }
int ftruncate(int fd, off_t n) { NEXT(int, "ftruncate", int, off_t); return fails() ? -1 : next(fd, n); }
int unlink(const char *name) { NEXT(int, "unlink", const char *); return fails() ? -1 : next(name); }
int rename(const char *old, const char *new) { NEXT(int, "rename", const char *, const char *); return fails() ? -1 : next(old, new); }
off64_t lseek64(int fd, off64_t at, int how) { NEXT(off64_t, "lseek64", int, off64_t, int); return fails() ? -1 : next(fd, at, how); }
off_t lseek(int fd, off_t at, int how) { NEXT(off_t, "lseek", int, off_t, int); return fails() ? -1 : next(fd, at, how); }
static int mode_of(int flags, va_list more) { return flags & 0100 ? va_arg(more, int) : 0; }
int open64(const char *name, int flags, ...) {
  NEXT(int, "open64", const char *, int, ...); va_list more; va_start(more, flags); int mode = mode_of(flags, more); va_end(more);
  return is_ours(name) && fails() ? -1 : next(name, flags, mode);
}
int open(const char *name, int flags, ...) {
  NEXT(int, "open", const char *, int, ...); va_list more; va_start(more, flags); int mode = mode_of(flags, more); va_end(more);
  return is_ours(name) && fails() ? -1 : next(name, flags, mode);
}
__attribute__((destructor)) static void tell(void) {
  char line[32];
  if (getenv("TELL_CALLS")) { long n = calls; (void)!write(2, line, snprintf(line, sizeof line, "\ncalls=%ld\n", n)); }
}
"""
TOLD = re.compile(rb"(fault 4[0134] \w+\n)?")


def built(folder):
    """The library that counts and fails calls."""
    return preloaded(folder, SHIM, "-D_FILE_OFFSET_BITS=32")


def tidy(house):
    """The inbox with the order alone, and no file beside the book's."""
    house.inbox()


def swept(house, name, words, most):
    """Fails each call of a command in turn."""
    before = house.keep()
    tidy(house)
    out, told, status = house.run(words, TELL_CALLS="1")
    told, calls = memory.calls_of(told)
    right, after, state = (out, told, status), house.keep(), house.state()
    if status:
        raise memory.Wrong(f"{name}: {right!r}")
    failed = 0
    places = range(1, calls + 1, max(1, -(-calls // most)))
    for place in places:
        house.put_back(before)
        tidy(house)
        got = house.run(words, FAIL_AT=str(place))
        if got != right:
            failed += 1
            if got[2] != 3 or not TOLD.fullmatch(got[1]) or not (right[0].startswith(got[0]) or name in ("roster", "take")):
                raise memory.Wrong(f"{name}, call {place}: {got!r}: {house.folder}")
            again = house.run(words)
            if again not in (right, memory.AGAIN.get(name, right)) and not (name == "roster" and again[2] == 1):
                raise memory.Wrong(f"{name}, call {place}, given again: {again!r} after {got!r}: {house.folder}")
        if house.state() != state:
            raise memory.Wrong(f"{name}, call {place}: {house.state()!r}: {house.folder}")
    house.put_back(after)
    print(f"{name}: {calls} calls, {len(places)} failed in turn, {failed} ended with a fault, none wrong", flush=True)


def main(words):
    most, only = option(words, "--most", 1_000_000), option(words, "--only", "")
    program = program_in(words)
    with tempfile.TemporaryDirectory() as folder:
        house = memory.House(program, built(folder))
        try:
            for name, line in memory.COMMANDS:
                if only in ("", name):
                    swept(house, name, line, most)
                else:
                    house.run(line)
        except memory.Wrong as wrong:
            print(wrong)
            return 1
    shutil.rmtree(house.folder)
    return 0


if __name__ == "__main__":
    sys.exit(main(sys.argv[1:]))
