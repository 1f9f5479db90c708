#!/usr/bin/env python3
"""Runs the examples of README.md and of the manual page, and compares what is printed with what the pages say.

Usage: bench/examples.py [PROGRAM]
PROGRAM is a built hintcheck: crates/hintcheck_cli/out/hintcheck_cli where no other is named. README's examples are the lines of its blocks that
begin with `$ hintcheck` or `$ ./hintcheck --try`, and have an answer: what is printed must be the lines that follow, where `...` at the end of a line
stands for its rest and, at the end of the last one, for further lines too. Those of the manual page are in its section EXAMPLES and show no answer:
each line that is printed must have one of the forms that the section OUTPUT has, or be an object of JSON. No example may tell a fault. The fonts are
in the folder `examples`, or looked for below /usr/share/fonts, those of README's answers by their bytes, since another version has other programs.
What can't be run since a font isn't there is named. What differs is printed, and the exit status is then 1; so it is where no example can be run.
"""

import functools
import hashlib
import json
import pathlib
import re
import shlex
import subprocess
import sys
import tempfile
import typing

TOP = pathlib.Path(__file__).resolve().parent.parent
PROGRAM = TOP / "crates/hintcheck_cli/out/hintcheck_cli"
README, MANUAL = TOP / "README.md", TOP / "docs/hintcheck.1"
FONTS = pathlib.Path("/usr/share/fonts")
ALL_FONTS = "*.ttf"
MOST_SECONDS = 120
# How README runs the program where it isn't built.
TRIAL = "./hintcheck --try"

# The fonts whose answers README shows, with the SHA-256 of the version that it means: those of Debian 12's fonts-dejavu-core 2.37,
# fonts-liberation2 2.1.5 and fonts-go.
MEANT = {
    "DejaVuSans.ttf": "abdc775b21b1bc470d50c97e790d276f2054b7504e56e5bd3e64f48d68582322",
    "LiberationSans-Regular.ttf": "8d91388f1d3604b3b8ae0e3ee2d140e50cd6122f9214514f4aca772540a4076d",
    "Go-Regular.ttf": "dd02d2f04dbc9f6329f3777b999fd3985f70b8f69b7c8aa522db3ec1fef9ceb2",
}

# The members that each object of JSON has.
MEMBERS = {"version", "tool", "file", "profile", "status"}


class Example(typing.NamedTuple):
    """A command of a page, and the lines that the page shows after it."""

    page: pathlib.Path
    words: list[str]
    shown: list[str]

    def __str__(self) -> str:
        return f"{self.page.name}: {' '.join(self.words)}"

    def names(self) -> set[str]:
        """The names of the fonts that the page speaks of."""
        return {word for word in [*self.words, *(line.partition(": ")[0] for line in self.shown)] if re.fullmatch(r"[\w-]+\.ttf", word)}


def of_readme() -> list[Example]:
    """The examples of README.md."""
    found: list[Example] = []
    for line in "".join(re.findall(r"^```console\n(.*?)^```", README.read_text(), re.M | re.S)).splitlines():
        if line.startswith("$ "):
            command = line[2:].replace(TRIAL, "hintcheck")
            found.append(Example(README, shlex.split(command, comments=True), []))
        else:
            found[-1].shown.append(line)
    return [example for example in found if example.words[0] == "hintcheck" and example.shown]


def section(name: str) -> str:
    """A section of the manual page."""
    return re.search(rf"^\.Sh {name}\n(.*?)^\.Sh ", MANUAL.read_text(), re.M | re.S)[1]


def of_manual() -> list[Example]:
    """The examples of the manual page."""
    return [Example(MANUAL, shlex.split(line), []) for line in re.findall(r"^\.Dl (hintcheck .*)$", section("EXAMPLES"), re.M)]


def form(line: str) -> re.Pattern[str]:
    """What lines have the form of this one of the manual page: words in capitals, single capitals and numbers stand for others, and what is counted
    may be one."""
    text = re.sub(r"\b(?=[a-f]*\d)[0-9a-f]+\b", "[0-9a-f]+", re.escape(line.strip('"')))
    text = re.sub(r"\b(font|refusal)s\b", r"\1s?", text)
    return re.compile(re.sub(r"\b[A-Z]\b", r"\\d+", re.sub(r"\b[A-Z]{2,}\b", ".+", text)))


@functools.cache
def forms() -> list[re.Pattern[str]]:
    """The forms that lines have, except for those of faults."""
    return [form(line) for line in re.findall(r"^\.Dl (.*)$", section("OUTPUT"), re.M) if "fault:" not in line]


def is_meant(path: pathlib.Path) -> bool:
    """Whether a font has the bytes that README means by its name."""
    return path.name not in MEANT or hashlib.sha256(path.read_bytes()).hexdigest() == MEANT[path.name]


def fonts(examples: list[Example]) -> dict[str, pathlib.Path]:
    """The fonts of which these examples speak, as far as they are there."""
    names = set().union(*(example.names() for example in examples))
    return {path.name: path for path in sorted(FONTS.rglob(ALL_FONTS)) if path.name in names and is_meant(path)}


def is_as_shown(shown: list[str], printed: list[str]) -> bool:
    """Whether these lines are those that the page shows."""
    if shown[-1].endswith("..."):
        printed = printed[: len(shown)]
    return len(printed) == len(shown) and all(
        there.startswith(line.removesuffix("...").rstrip()) if line.endswith("...") else there == line for line, there in zip(shown, printed)
    )


def is_object(line: str) -> bool:
    """Whether a line is an object of JSON with the members that each has."""
    try:
        told = json.loads(line)
    except ValueError:
        return False
    return isinstance(told, dict) and told.keys() >= MEMBERS


def has_form(line: str) -> bool:
    """Whether a line has one of the forms, after which it may tell the profile."""
    return any(form.fullmatch(line.removesuffix(" (symbolic)")) for form in forms())


def is_well(example: Example, printed: list[str]) -> bool:
    """Whether what was printed is what the page says."""
    if example.shown:
        return is_as_shown(example.shown, printed)
    if "explain" in example.words:
        return bool(printed)  # It answers in words for people.
    return bool(printed) and all(map(is_object if "--json" in example.words else has_form, printed))


def has_failed(program: pathlib.Path, example: Example, folder: pathlib.Path) -> bool:
    """Runs an example: whether it answers otherwise than the page says, which is then printed."""
    ran = subprocess.run([program, *example.words[1:]], cwd=folder, capture_output=True, text=True, timeout=MOST_SECONDS, check=False)
    if ran.returncode in (0, 1) and all(map(has_form, ran.stderr.splitlines())) and is_well(example, ran.stdout.splitlines()):
        return False
    print(f"{example}: status {ran.returncode}\n{ran.stdout}{ran.stderr}  and not")
    print(*example.shown or ["an answer, in the forms of the section OUTPUT"], sep="\n")
    return True


def with_fonts(example: Example, there: dict[str, pathlib.Path]) -> Example:
    """The example with names in the place of `*.ttf`: of the fonts that the page shows, or of all, as far as they are there."""
    names = sorted(example.names() & there.keys()) if example.shown else sorted(there)
    at = example.words.index(ALL_FONTS)
    shown = [line for line in example.shown if line.partition(": ")[0] in names]
    return example._replace(words=[*example.words[:at], *names, *example.words[at + 1 :]], shown=shown)


def try_page(program: pathlib.Path, examples: list[Example]) -> tuple[int, int]:
    """Runs the examples of a page, in one folder: how many were run, and how many of these failed."""
    tried = failed = 0
    there = fonts(examples)
    with tempfile.TemporaryDirectory() as name:
        folder = pathlib.Path(name)
        (folder / "examples").symlink_to(TOP / "examples")
        for font, path in there.items():
            (folder / font).symlink_to(path)
        for example in examples:
            lacking = sorted(example.names() - there.keys())
            if lacking:
                print(f"can't run here: {example}: no {', no '.join(lacking)}")
            if ALL_FONTS in example.words and there:
                example = with_fonts(example, there)
            elif lacking or ALL_FONTS in example.words:
                continue
            tried += 1
            failed += has_failed(program, example, folder)
    return tried, failed


def main(words: list[str]) -> int:
    """Runs all examples."""
    program = pathlib.Path(words[0]).resolve() if words else PROGRAM
    tried = failed = 0
    for examples in (of_readme(), of_manual()):
        counts = try_page(program, examples)
        tried, failed = tried + counts[0], failed + counts[1]
    print(f"{tried} examples, {failed} differ")
    return 1 if failed or not tried else 0


if __name__ == "__main__":
    sys.exit(main(sys.argv[1:]))
