#!/usr/bin/env python3
"""Checks what the pages name: links, files, subcommands with their options, targets of make, and the length of lines.

Usage: bench/pages.py
Each relative link leads to a file and, where it has one, to a heading; each path below a folder of the repository that is in code letters is there;
each `hintcheck WORD` names a subcommand of crates/hintcheck_words, with options that it has; each `make TARGET` is in the Makefile; and no line has
more than 140 characters, the rows of docs/CONTRACTS.md apart. What differs is printed, and the exit status is then 1.
"""

import pathlib
import re
import sys
import typing

TOP = pathlib.Path(__file__).resolve().parent.parent
PAGES = [TOP / "README.md", *sorted(TOP.glob("docs/*.md")), *sorted(TOP.glob("examples/**/*.md"))]
WIDEST = 140
FOLDERS = ("bench", "completions", "crates", "docs", "examples", "include")
# Words in capitals stand for others, as NAME in `crates/NAME/must-fail`.
STANDS_FOR = re.compile(r"\b[A-Z]{2,}\b(?!\.)")


def headings(page: pathlib.Path) -> set[str]:
    """The names by which links find a page's headings."""
    text = re.sub(r"```.*?```", "", page.read_text(), flags=re.S)
    titles = re.findall(r"^#+ (.*)$", text, re.M)
    return {re.sub(r"[^\w\- ]", "", title.lower()).replace(" ", "-") for title in titles}


def code(text: str) -> list[str]:
    """What a page has in code letters, and the commands of its blocks."""
    blocks = re.findall(r"^\$ (.*?)(?:\s+#.*)?$", text, re.M)
    return blocks + re.findall(r"`([^`\n]+)`", re.sub(r"```.*?```", "", text, flags=re.S))


def faults_of_links(page: pathlib.Path, text: str) -> typing.Iterator[str]:
    """Links that lead nowhere."""
    for link in re.findall(r"\]\(([^)\s]+)\)", text):
        name, _, heading = link.partition("#")
        target = (page.parent / name).resolve() if name else page
        if ":" not in link and not target.exists():
            yield f"no file {link}"
        elif heading and ":" not in link and heading not in headings(target):
            yield f"no heading {link}"


def faults_of_paths(text: str) -> typing.Iterator[str]:
    """Paths that aren't there."""
    for word in code(text):
        for path in re.findall(rf"(?<![\w/.])((?:{'|'.join(FOLDERS)})/[\w./*-]+)", word):
            if not STANDS_FOR.search(path) and not list(TOP.glob(path.rstrip("./"))):
                yield f"no path {path}"


def subcommands() -> dict[str, set[str]]:
    """The subcommands with their options, from the comment at the head of CommandLine.antt."""
    head = (TOP / "crates/hintcheck_words/specs/CommandLine.antt").read_text()
    lines = re.findall(r"^-- +hintcheck (\w+)(.*)$", re.sub(r"\n-- {9}", " ", head), re.M)
    return {name: set(re.findall(r"--\w+", words)) for name, words in lines} | {"help": set()}


def faults_of_commands(text: str, known: dict[str, set[str]]) -> typing.Iterator[str]:
    """Commands that aren't there, and options that they don't have."""
    targets = re.findall(r"^([a-z-]+):", (TOP / "Makefile").read_text(), re.M)
    for word in code(text):
        for name, words in re.findall(r"(?:^|[\s/])hintcheck ([a-z]+)\b([^|;&]*)", word):
            options = set(re.findall(r"--\w+", words)) - {"--help"}
            if name not in known or not options <= known[name]:
                yield f"no command hintcheck {name}{words}"
        yield from (f"no target make {name}" for name in re.findall(r"^make ([a-z-]+)", word) if name not in targets)


def faults_of_lines(page: pathlib.Path, text: str) -> typing.Iterator[str]:
    """Lines that are too long."""
    for number, line in enumerate(text.splitlines(), 1):
        if len(line) > WIDEST and not (page.name == "CONTRACTS.md" and line.startswith("|")):
            yield f"line {number} has {len(line)} characters"


def main() -> int:
    known, count = subcommands(), 0
    for page in PAGES:
        text = page.read_text()
        for fault in [*faults_of_links(page, text), *faults_of_paths(text), *faults_of_commands(text, known), *faults_of_lines(page, text)]:
            count += 1
            print(f"{page.relative_to(TOP)}: {fault}")
    print(f"{len(PAGES)} pages, {count} differences")
    return 1 if count else 0


if __name__ == "__main__":
    sys.exit(main())
