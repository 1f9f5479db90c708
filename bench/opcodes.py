#!/usr/bin/env python3
"""Prints where the product's code names an instruction by its opcode, outside the table of tt_code.

Usage: bench/opcodes.py
An opcode is written as two hexadecimal digits, as 0x45. Comments and texts don't count, nor do the crates of tests and cases. There is a line for each
place; the last one counts them, and the exit status is 1 where there is one.
"""

import pathlib
import re
import sys
import typing

TOP = pathlib.Path(__file__).resolve().parent.parent
TABLE = TOP / "crates/tt_code/src/table.rt"
OPCODE = re.compile(r"\b0x[0-9A-Fa-f]{2}\b")
# What isn't code: a comment up to the line's end, and a text, which may go over lines.
OTHER = re.compile(r'//[^\n]*|"(?:\\.|[^"\\])*"', re.S)


def files() -> list[pathlib.Path]:
    """The sources of the product, without the table."""
    found = TOP.glob("crates/*/src/**/*.rt")
    return sorted(file for file in found if file != TABLE and not re.search(r"_(tests|cases|fixtures)/src/", file.as_posix()))


def places() -> typing.Iterator[str]:
    """Each line that names an opcode."""
    for file in files():
        code = OTHER.sub(lambda other: "\n" * other[0].count("\n"), file.read_text())
        for number, line in enumerate(code.splitlines(), 1):
            if OPCODE.search(line):
                yield f"{file.relative_to(TOP)}:{number}: {line.strip()}"


def main() -> int:
    found = list(places())
    print(*found, sep="\n")
    print(f"{len(found)} places")
    return 1 if found else 0


if __name__ == "__main__":
    sys.exit(main())
