#!/usr/bin/env python3
"""Refuses each call its growths of memory in turn, and checks what it answers then.

Usage: bench/refusals.py [--built]
The calls are those of the tests in crates/tt_memory_tests and crates/hintcheck_tests, which `rt test` proves and builds first; with --built they are
taken as `rt ci` has built them. A growth is what a call asks of `malloc` or `realloc`, and not what is asked before the call for what it is made on,
or after it for what is compared. The n-th is refused, for n from 1 until there is none to refuse; first each alone, and then each with all later
ones. There is a line for each call: how many growths it has on all that it is made on, and how often it was refused one. A test fails where its call
doesn't tell then that memory ran out, and the exit status is 1. Two tests run at once. A C compiler makes what refuses (`cc`), put before the C
library's own allocator by LD_PRELOAD.
"""

import collections
import concurrent.futures
import os
import pathlib
import re
import subprocess
import sys
import tempfile

TOP = pathlib.Path(__file__).resolve().parent.parent
CRATES = ("tt_memory_tests", "hintcheck_tests")
PROCESSES = 2

# What a test prints of a call on one example.
LINE = re.compile(r"^(.+?)(?: (?:on|with) .+)?: (\d+) growths refused$", re.MULTILINE)

# A request for MESSAGE bytes or more, which no memory has, is a message of the tests (`MESSAGE` in tt_test_fixtures): what is added is the number of
# the growth that is refused, counted from there. With nothing added none is refused any more, and the answer is whether one was. With ONWARD,
# all growths after it are refused too.
REFUSER = r"""
#define _GNU_SOURCE
#include <dlfcn.h>
#include <stdlib.h>

static const size_t MESSAGE = (size_t)1 << 62;

static size_t count, refused;
static int has_refused;

static int is_granted(size_t number) {
    int was_refused = has_refused;
    refused = number;
    count = 0;
    has_refused = 0;
    return number || was_refused;
}

static int is_refused(void) {
    if (!refused) return 0;
    count += 1;
    if (count == refused || (count > refused && getenv("ONWARD"))) {
        has_refused = 1;
        return 1;
    }
    return 0;
}

void *malloc(size_t size) {
    static void *(*next)(size_t);
    if (!next) next = dlsym(RTLD_NEXT, "malloc");
    if (size >= MESSAGE) return is_granted(size - MESSAGE) ? next(1) : NULL;
    return is_refused() ? NULL : next(size);
}

void *realloc(void *old, size_t size) {
    static void *(*next)(void *, size_t);
    if (!next) next = dlsym(RTLD_NEXT, "realloc");
    return is_refused() ? NULL : next(old, size);
}
"""


def run(crate: str, word: str, **settings: str) -> subprocess.CompletedProcess[str]:
    """Runs the built tests of a crate with a word, and with these settings in the environment."""
    folder = TOP / "crates" / crate
    program = folder / f"out/{crate}_tests"
    return subprocess.run([program, word], cwd=folder, env={**os.environ, **settings}, capture_output=True, text=True, check=False)


def tests() -> list[tuple[str, str]]:
    """The tests: the crate and the full name of each."""
    listed = [(crate, line) for crate in CRATES for line in run(crate, "--list").stdout.splitlines()]
    return [(crate, line.removesuffix(": test")) for crate, line in listed if line.endswith(": test")]


def count_calls(test: tuple[str, str], refuser: str) -> tuple[collections.Counter[str], collections.Counter[str], list[str]]:
    """Runs a test twice: how many growths each of its calls has, how many were refused, and what is said where the test fails."""
    growths: collections.Counter[str] = collections.Counter()
    refusals: collections.Counter[str] = collections.Counter()
    faults = []
    for settings in ({}, {"ONWARD": "1"}):
        done = run(*test, LD_PRELOAD=refuser, **settings)
        for call, refused in LINE.findall(done.stdout):
            growths[call] += 0 if settings else int(refused)
            refusals[call] += int(refused)
        if done.returncode:
            faults.append(f"{' '.join(test)} {settings}: status {done.returncode}\n{done.stdout}{done.stderr}")
    return growths, refusals, faults


def sweep(folder: pathlib.Path) -> bool:
    """Runs all tests: whether each refusal was told."""
    refuser = folder / "refuser.so"
    make = ["cc", "-shared", "-fPIC", "-O2", "-x", "c", "-", "-o", refuser, "-ldl"]
    subprocess.run(make, input=REFUSER.encode(), check=True)
    all_growths = all_refusals = 0
    is_well = True
    with concurrent.futures.ThreadPoolExecutor(PROCESSES) as pool:
        names = tests()
        for (_, test), (growths, refusals, faults) in zip(names, pool.map(lambda name: count_calls(name, str(refuser)), names)):
            for call in growths:
                print(f"{test} {call}: {growths[call]} growths, {refusals[call]} refusals")
            all_growths += growths.total()
            all_refusals += refusals.total()
            is_well = is_well and not faults
            print(*faults, sep="\n", end="")
    print(f"{all_growths} growths, {all_refusals} refusals{'' if is_well else ', WRONG'}")
    return is_well and all_growths > 0


def main() -> None:
    if sys.argv[1:] != ["--built"]:
        # All tests of a crate are proved and built for that, but only one is run.
        for crate, test in zip(CRATES, ("announced", "two_names")):
            subprocess.run(["rt", "test", "--", test], cwd=TOP / "crates" / crate, stdout=sys.stderr, check=True)
    with tempfile.TemporaryDirectory() as folder:
        sys.exit(0 if sweep(pathlib.Path(folder)) else 1)


if __name__ == "__main__":
    main()
