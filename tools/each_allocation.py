#!/usr/bin/env python3
"""each_allocation.py PROGRAM WORD...: runs a program with each of its allocations refused in turn.
each_allocation.py --tests PROGRAM...: the same of these programs of tests, for each test that is
written for it.

The first run refuses none. Each further run refuses one allocation, the next one each time, until
a run ends that has fewer. A run must end as the first one did, or with `colock: no memory` on
standard error, nothing on standard output and status 3. The refusals are made by a small library
that is put in front of the C library's allocator. A program of tests that isn't there, or
that has no such test, is a failure.
"""
import os
import subprocess
import sys
import tempfile

# What the names of tests end with that say what comes of refused memory.
TESTS = ("refused_memory", "memory_is_refused")

SHIM = r"""
#define _GNU_SOURCE
#include <dlfcn.h>
#include <errno.h>
#include <stddef.h>
#include <stdlib.h>
#include <unistd.h>
static long calls, refused = -1;
static int is_refused(void) {
    if (refused < 0) { char *word = getenv("REFUSE"); refused = word ? atol(word) : 0; }
    if (++calls != refused) return 0;
    write(atoi(getenv("TELL")), "refused\n", 8);
    return 1;
}
#define NEXT(name) dlsym(RTLD_NEXT, name)
void *malloc(size_t n) {
    static void *(*real)(size_t);
    if (!real) real = (void *(*)(size_t))NEXT("malloc");
    if (is_refused()) { errno = ENOMEM; return NULL; }
    return real(n);
}
void *realloc(void *p, size_t n) {
    static void *(*real)(void *, size_t);
    if (!real) real = (void *(*)(void *, size_t))NEXT("realloc");
    if (is_refused()) { errno = ENOMEM; return NULL; }
    return real(p, n);
}
void *aligned_alloc(size_t a, size_t n) {
    static void *(*real)(size_t, size_t);
    if (!real) real = (void *(*)(size_t, size_t))NEXT("aligned_alloc");
    if (is_refused()) { errno = ENOMEM; return NULL; }
    return real(a, n);
}
int posix_memalign(void **p, size_t a, size_t n) {
    static int (*real)(void **, size_t, size_t);
    if (!real) real = (int (*)(void **, size_t, size_t))NEXT("posix_memalign");
    if (is_refused()) return ENOMEM;
    return real(p, a, n);
}
"""


def shim_in(folder):
    source, library = os.path.join(folder, "shim.c"), os.path.join(folder, "shim.so")
    with open(source, "w", encoding="ascii") as file:
        file.write(SHIM)
    subprocess.run(["cc", "-shared", "-fPIC", "-O1", "-w", "-o", library, source, "-ldl"], check=True)
    return library


def run(words, library, place):
    """What a run with this allocation refused wrote and ended with, and whether it got there."""
    told, tell = os.pipe()
    environment = dict(os.environ, LD_PRELOAD=library, REFUSE=str(place))
    environment["TELL"] = str(tell)
    done = subprocess.run(words, env=environment, pass_fds=[tell], capture_output=True, timeout=60)
    os.close(tell)
    with os.fdopen(told, "rb") as pipe:
        was_refused = pipe.read() != b""
    return (done.stdout, done.stderr, done.returncode), was_refused


def sweep(words, library):
    """How many allocations there are, and without how many of them nothing is written."""
    expected, _ = run(words, library, 0)
    place, starved = 1, 0
    while True:
        got, was_refused = run(words, library, place)
        if not was_refused:
            return place - 1, starved
        if got == (b"", b"colock: no memory\n", 3):
            starved += 1
        elif got != expected:
            sys.exit(f"{' '.join(words)}: allocation {place}: {got}, and not {expected}")
        place += 1


def tests_of(program):
    """The tests that are written for it, by their full names."""
    told = subprocess.run([program, "--list"], check=True, capture_output=True, text=True).stdout
    names = [line.removesuffix(": test") for line in told.split("\n") if line.endswith(": test")]
    return [name for name in names if name.endswith(TESTS)]


def sweep_tests(program, library):
    names = tests_of(program)
    if not names:
        sys.exit(f"{program}: no test of it is written for refused memory")
    for name in names:
        allocations, _ = sweep([program, name], library)
        print(f"{name}: {allocations} allocations, each refused in turn: passed")


def main():
    words = sys.argv[1:]
    is_tests = words[0] == "--tests"
    programs = words[1:]
    if missing := [program for program in programs if is_tests and not os.path.exists(program)]:
        sys.exit(f"{' and '.join(missing)}: not there, so no allocation was refused")
    with tempfile.TemporaryDirectory() as folder:
        library = shim_in(folder)
        if is_tests:
            for program in programs:
                sweep_tests(program, library)
            return
        allocations, starved = sweep(words, library)
    print(f"{allocations} allocations, {starved} of them wanted: no other outcome")


if __name__ == "__main__":
    main()
