#!/usr/bin/env python3
"""Checks font files by the library, which Python calls by the module hintcheck, and prints what the command prints of them.

Usage: verdict.py LIBRARY FONT..
LIBRARY is a shared library that is made of the archive:
cc -shared -o libhintcheck.so -Wl,--whole-archive libhintcheck.a -Wl,--no-whole-archive
"""

import pathlib
import sys

import hintcheck

# As examples/embedding/line.c: more than three times what the strict profile needs for real fonts.
STEPS = 20_000_000
LISTED = 3


def lines(answer: hintcheck.Answer) -> list[str]:
    """An answer in the command's words: the first refused programs, and the verdict, or a fault."""
    if answer.is_accepted:
        return [f"accepted: {answer.programs} programs"]
    if answer.status is not hintcheck.Status.REFUSED:
        return [f"status {answer.status}, fault {answer.fault}"]
    return [*map(str, answer.refusals), f"refused: {answer.refused} of {answer.programs} programs"]


def main() -> int:
    if len(sys.argv) < 3:
        sys.exit("usage: verdict.py LIBRARY FONT..")
    library = hintcheck.Library(sys.argv[1])
    for name in sys.argv[2:]:
        for line in lines(library.verdict(pathlib.Path(name).read_bytes(), limit=STEPS, room=LISTED)):
            print(f"{name}: {line}")
    return 0


if __name__ == "__main__":
    sys.exit(main())
