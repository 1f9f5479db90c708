#!/usr/bin/env python3
"""Prints each source file with the sentence with which it begins: the list of files that docs/ARCHITECTURE.md doesn't repeat.

Usage: bench/files.py [CRATE..]
Of the crates that are named, or of all in the order of crates.txt: the files of `src/`, then those of `specs/`, each with the first sentence of its
head, without the section of a standard that it names. A file without a head is printed as such, and the exit status is then 1.
"""

import pathlib
import re
import sys
import typing

TOP = pathlib.Path(__file__).resolve().parent.parent
# The folder of a crate, the files in it, and what a line of their heads begins with.
KINDS = (("src", "*.rt", "//!"), ("specs", "*.antt", "--"))


def first_sentence(text: str, mark: str) -> str:
    """The first sentence of the comment with which a file begins; "" where it begins otherwise."""
    head = []
    for line in text.splitlines():
        if not line.startswith(mark) or line == mark:
            break
        head.append(line.removeprefix(mark).strip())
    told = re.sub(r" \((?:Apple|OpenType)[^()]*\)", "", " ".join(head))
    return re.split(r"(?<=[.:]) (?=[A-Z(])", told, maxsplit=1)[0]


def files_of(crate: str) -> typing.Iterator[tuple[str, str]]:
    """The files of a crate, as paths from its folder, each with its first sentence."""
    folder = TOP / "crates" / crate
    for kind, pattern, mark in KINDS:
        for file in sorted((folder / kind).rglob(pattern)):
            if file.name != "Lib.antt":
                yield str(file.relative_to(folder)), first_sentence(file.read_text(), mark)


def main(crates: list[str]) -> int:
    listed = [line.split(":")[0].split()[0] for line in (TOP / "crates.txt").read_text().splitlines() if line.strip()]
    status = 0
    for crate in crates or listed:
        print(f"{crate}:")
        for file, sentence in files_of(crate):
            print(f"    {file}: {sentence or '(no head)'}")
            status = status if sentence else 1
    return status


if __name__ == "__main__":
    sys.exit(main(sys.argv[1:]))
