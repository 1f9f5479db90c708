#!/usr/bin/env python3
"""Refuses each allocation of `hintcheck` in turn, and checks what it answers then.

Usage: bench/allocations.py [--built] WORDS..
The words are those of the program, as `verdict FONT`. It is proved and built first; with --built it is taken as `rt ci` has built it. It
runs once for each of its allocations, of which that one is refused, and once more for each, where that one and all later ones are. Either
it answers what it answers with ample memory, or it says that memory ran out, exits with 3 and prints no verdict; each run that does
neither is named, and the exit status is then 1. A C compiler makes what refuses (`cc`), put before the C library's own allocator by
LD_PRELOAD.
"""

import os
import pathlib
import subprocess
import sys
import tempfile
import typing

TOP = pathlib.Path(__file__).resolve().parent.parent
PROGRAM = TOP / "crates/hintcheck_cli/out/hintcheck_cli"

# REFUSED is the number of the allocation that is refused, from 1; with ONWARD, all after it too. With COUNTED, that file gets the
# number of allocations at the end.
REFUSER = r"""
#define _GNU_SOURCE
#include <dlfcn.h>
#include <stdio.h>
#include <stdlib.h>

static long count, refused = -1;
static int onward;

static int is_refused(void) {
    if (refused < 0) {
        const char *number = getenv("REFUSED");
        refused = number ? atol(number) : 0;
        onward = getenv("ONWARD") != NULL;
    }
    count += 1;
    return count == refused || (onward && refused && count > refused);
}

void *malloc(size_t size) {
    static void *(*next)(size_t);
    if (!next) next = dlsym(RTLD_NEXT, "malloc");
    return is_refused() ? NULL : next(size);
}

void *realloc(void *old, size_t size) {
    static void *(*next)(void *, size_t);
    if (!next) next = dlsym(RTLD_NEXT, "realloc");
    return is_refused() ? NULL : next(old, size);
}

__attribute__((destructor)) static void tell(void) {
    long told = count; // opening the file allocates too
    const char *name = getenv("COUNTED");
    FILE *file = name ? fopen(name, "w") : NULL;
    if (file) {
        fprintf(file, "%ld", told);
        fclose(file);
    }
}
"""


class Answer(typing.NamedTuple):
    """What a run answers."""

    status: int
    out: bytes
    err: bytes


def answer(words: list[str], refuser: pathlib.Path, **settings: str) -> Answer:
    """What the program answers to the words, with these settings of what refuses."""
    environment = {**os.environ, "LD_PRELOAD": str(refuser), **settings}
    done = subprocess.run([PROGRAM, *words], capture_output=True, env=environment, check=False)
    return Answer(done.returncode, done.stdout, done.stderr)


def says_out_of_memory(got: Answer) -> bool:
    return got.status == 3 and got.out == b"" and got.err == b"fault: 9 out of memory\n"


def sweep(words: list[str], folder: pathlib.Path) -> int:
    """Refuses each allocation in turn: how many runs answer something else."""
    refuser = folder / "refuser.so"
    make = ["cc", "-shared", "-fPIC", "-O2", "-x", "c", "-", "-o", refuser, "-ldl"]
    subprocess.run(make, input=REFUSER.encode(), check=True)
    counted = folder / "counted"
    ample = answer(words, refuser, COUNTED=str(counted))
    count = int(counted.read_text())
    wrong = refusals = 0
    for number in range(1, count + 1):
        for settings in ({}, {"ONWARD": "1"}):
            got = answer(words, refuser, REFUSED=str(number), **settings)
            if says_out_of_memory(got):
                refusals += 1
            elif got != ample:
                wrong += 1
                print(f"allocation {number} {'and all later ones ' if settings else ''}refused: {got}")
    print(f"status {ample.status}, {count} allocations, {2 * count} runs: {refusals} out of memory, {wrong} wrong, the others as ample")
    return wrong


def main() -> None:
    words = sys.argv[1:]
    is_built = words[:1] == ["--built"]
    if not is_built:
        subprocess.run([TOP / "hintcheck", "--build"], check=True)
    with tempfile.TemporaryDirectory() as folder:
        sys.exit(1 if sweep(words[is_built:], pathlib.Path(folder)) else 0)


if __name__ == "__main__":
    main()
