"""Reads the answers of `hintcheck scan --json`, which sarif.py and annotations.py tell in other forms, and the lines of known refusals.

docs/JSON.md has the members of an answer, docs/CI.md the form of the lines. An answer may also be a line of examples/scale/check-each.sh, which tells
that hintcheck was ended.
"""

from __future__ import annotations

import argparse
import dataclasses
import json
import pathlib
import re
import sys
import typing

VERSION = 1
# The words that name a program. A glyph may have such a word as its name, as the letter f has it.
PROGRAM = re.compile(r"f|p|g(0|[1-9][0-9]*)")
# By the class of a refusal, how severe it is, in SARIF's words. What isn't listed is an error.
LEVELS = {"possible fault": "error", "undecided": "warning", "left out": "note"}


class Unreadable(Exception):
    """Why the answers or the known refusals can't be read."""


@dataclasses.dataclass(frozen=True)
class Refusal:
    """A refused program: its name, that of its glyph, the place as `f:366`, and the reason by its number, its words and its class."""

    program: str
    glyph: str | None
    place: str
    reason: int
    name: str
    class_name: str

    @property
    def level(self) -> str:
        """How severe it is: error, warning or note."""
        return LEVELS.get(self.class_name, "error")

    @property
    def label(self) -> str:
        """The program with the name of its glyph, as `g350 (uni019C)`."""
        return f"{self.program} ({self.glyph})" if self.glyph else self.program

    @property
    def why(self) -> str:
        """The reason in a line, as `26 underflow (possible fault)`."""
        return f"{self.reason} {self.name} ({self.class_name})"

    @property
    def steady_name(self) -> str:
        """The glyph's name, which stays where glyphs are numbered anew; the program, where it has none or one that names a program."""
        return self.glyph if self.glyph and not PROGRAM.fullmatch(self.glyph) else self.program


@dataclasses.dataclass(frozen=True)
class Answer:
    """What hintcheck says of a font: by which profile, in which version, and what it refuses, or why it has no verdict."""

    file: str
    face: int | None
    profile: str
    version: str | None
    refusals: tuple[Refusal, ...]
    fault: str | None

    @property
    def font(self) -> str:
        """The font as lines name it: a face of a collection has its number after the file, as `uming.ttc#2`."""
        return self.file if self.face is None else f"{self.file}#{self.face}"


class Known(typing.NamedTuple):
    """The known refusals, each a line of their file."""

    lines: frozenset[bytes]

    def has(self, answer: Answer, refusal: Refusal) -> bool:
        """Whether a line lists the refusal, by the program or, after a slash, by the name of its glyph."""
        words = [refusal.program] if refusal.glyph is None else [refusal.program, f"/{refusal.glyph}"]
        return any(f"{refusal.reason} {word} {answer.font}".encode() in self.lines for word in words)


def refusal_of(told: dict) -> Refusal:
    """The refusal that an object tells."""
    place = f"{told['place']}:{told['offset']}"
    return Refusal(told["program"], told.get("glyph"), place, int(told["reason"]), told["name"], told["class"])


def fault_of(told: dict) -> str | None:
    """Why an object has no verdict, if it has none."""
    if "ended" in told:
        return f"hintcheck was ended: {told['ended']}"
    return f"{told['fault']['number']} {told['fault']['text']}" if "fault" in told else None


def answer_of(told: dict) -> Answer:
    """The answer that an object tells."""
    if told.get("version", VERSION) != VERSION:
        raise Unreadable(f"version {told['version']}, and not {VERSION}")
    fault = fault_of(told)
    refusals = () if fault else tuple(refusal_of(one) for one in told["refused"])
    return Answer(told["file"], told.get("face"), told.get("profile", ""), told.get("tool", {}).get("version"), refusals, fault)


def read_answers(lines: typing.Iterable[bytes]) -> list[Answer]:
    """The answers of these lines, of which there is at least one."""
    answers = []
    for number, line in enumerate(lines, 1):
        try:
            answers.append(answer_of(json.loads(line)))
        except Unreadable as fault:
            raise Unreadable(f"line {number}: {fault}") from fault
        except (AttributeError, KeyError, TypeError, ValueError) as fault:
            raise Unreadable(f"line {number} is no answer of `hintcheck scan --json`") from fault
    if not answers:
        raise Unreadable("there is no answer: hintcheck has printed none, as where its words are wrong")
    return answers


def read_known(file: pathlib.Path | None) -> Known | None:
    """The known refusals of a file, if one is named."""
    if file is None:
        return None
    try:
        return Known(frozenset(file.read_bytes().split(b"\n")))
    except OSError as fault:
        raise Unreadable(f"{file}: {fault.strerror}") from fault


def reader(page: str) -> argparse.ArgumentParser:
    """The reader of the words of the script that has this page; the script may add some of its own."""
    first, usage, *_ = page.split("\n\n")
    words = argparse.ArgumentParser(usage=usage.removeprefix("Usage: "), description=first)
    words.add_argument("--known", type=pathlib.Path, metavar="FILE", help="the file of known refusals")
    return words


def run(tell: typing.Callable[[argparse.Namespace, list[Answer], Known | None], None], words: argparse.Namespace) -> int:
    """Tells the answers on standard input: exit status 0, or 2 where they can't be read."""
    try:
        tell(words, read_answers(sys.stdin.buffer), read_known(words.known))
    except Unreadable as fault:
        print(f"{pathlib.Path(sys.argv[0]).name}: {fault}", file=sys.stderr)
        return 2
    return 0
