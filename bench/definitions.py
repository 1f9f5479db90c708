#!/usr/bin/env python3
"""Lists all public definitions, each with the sentence that its file has before it.

Usage: bench/definitions.py [--check]
For each crate of crates.txt and each file of its `specs/`, the list has the first sentence of the file's head, and a line for each public
definition: its name, and the first sentence of the comment before it. The list is written to `out/definitions.md`. With --check nothing is
written: files without a head and public definitions without a comment are printed, and the exit status is then 1. Those of a crate in UNCOMMENTED
are counted and not printed, and don't change the status.

A definition begins a line with `pub`, or with `abbrev` or `unfoldable` before it. Its comment is the lines that begin with `--` just before it.
"""

import pathlib
import re
import sys
import typing

import files

TOP = pathlib.Path(__file__).resolve().parent.parent
LIST = TOP / "out/definitions.md"
# Crates below most others: a comment that is added there changes a file on which their proofs stand, so that all of these are made again.
UNCOMMENTED = ("tt_symbolic", "tt_cert", "hintcheck_programs", "hintcheck_certificates")

DEFINITION = re.compile(r"(?:abbrev |unfoldable )?pub (?!mod |use )(?:record |data )?([^\s:({]+)")


class Definition(typing.NamedTuple):
    """A public definition: its name, and the first sentence of the comment before it, or ""."""

    name: str
    sentence: str


class File(typing.NamedTuple):
    """A file of definitions: its path from the folder `specs/` of its crate, the first sentence of its head, or "", and its definitions."""

    path: str
    sentence: str
    definitions: list[Definition]


def first_sentence(comment: list[str]) -> str:
    """The first sentence of a comment, without the full stop at its end."""
    told = " ".join(line.removeprefix("--").strip() for line in comment)
    return re.split(r"(?<=\.) (?=[A-Z(`])", told, maxsplit=1)[0].removesuffix(".")


def definitions_in(text: str) -> typing.Iterator[Definition]:
    """The public definitions of a file, in their order. How an operator binds stands between its comment and its definition."""
    comment: list[str] = []
    for line in text.splitlines():
        if found := DEFINITION.match(line):
            yield Definition(found.group(1), first_sentence(comment))
        if line.startswith("--"):
            comment.append(line)
        elif not line.startswith("infix"):
            comment = []


def files_of(crate: str) -> list[File]:
    """The files of definitions of a crate, except for those that only name others."""
    folder = TOP / "crates" / crate / "specs"
    paths = sorted(path for path in folder.rglob("*.antt") if path.name != "Lib.antt")
    texts = [(str(path.relative_to(folder)), path.read_text()) for path in paths]
    return [File(path, files.first_sentence(text, "--"), list(definitions_in(text))) for path, text in texts]


def crates() -> dict[str, list[File]]:
    """The crates that have definitions, in the order of crates.txt, with their files."""
    names = [line.split(":")[0].split()[0] for line in (TOP / "crates.txt").read_text().splitlines() if line.strip()]
    return {name: files_of(name) for name in names if (TOP / "crates" / name / "specs").is_dir()}


def page(listed: dict[str, list[File]]) -> str:
    """The list as a page: a section for each crate, and in it one for each file."""
    lines = ["# All definitions", "", "Written by `bench/definitions.py` from the comments in `specs/`; changes belong there."]
    for crate, of_crate in listed.items():
        lines += ["", f"## {crate}"]
        for file in of_crate:
            lines += ["", f"### {crate}/specs/{file.path}", "", file.sentence or "(no head)"]
            lines += [""] * bool(file.definitions)
            lines += [f"- `{name}`: {sentence or '(no comment)'}" for name, sentence in file.definitions]
    return "\n".join(lines) + "\n"


def lacking(crate: str, of_crate: list[File]) -> list[str]:
    """The files of a crate that have no head, and the definitions that have no comment."""
    heads = [f"{crate}/specs/{file.path} has no head" for file in of_crate if not file.sentence]
    names = [f"{crate}/specs/{file.path}: {name}" for file in of_crate for name, sentence in file.definitions if not sentence]
    return heads + [f"{name} has no comment" for name in names]


def check(listed: dict[str, list[File]]) -> int:
    """Prints what has no comment: the status."""
    found = {crate: lacking(crate, of_crate) for crate, of_crate in listed.items()}
    asked = [fault for crate, faults in found.items() if crate not in UNCOMMENTED for fault in faults]
    for fault in asked:
        print(fault)
    others = {crate: len(faults) for crate, faults in found.items() if crate in UNCOMMENTED}
    told = "".join(f", {count} in {crate}" for crate, count in others.items() if count)
    print(f"{len(asked)} without a comment{told}")
    return 1 if asked else 0


def main(words: list[str]) -> int:
    listed = crates()
    if words == ["--check"]:
        return check(listed)
    LIST.parent.mkdir(exist_ok=True)
    LIST.write_text(page(listed))
    all_files = [file for of_crate in listed.values() for file in of_crate]
    count = sum(len(file.definitions) for file in all_files)
    print(f"{LIST.relative_to(TOP)}: {count} definitions in {len(all_files)} files of {len(listed)} crates")
    return 0


if __name__ == "__main__":
    sys.exit(main(sys.argv[1:]))
