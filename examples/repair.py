#!/usr/bin/env python3
"""Mends a font that hintcheck refuses, by what its answer says, and asks hintcheck again about the font that it wrote.

Usage: repair.py [OPTION..] FONT OUT
    --drop                 take the instructions out of glyphs that no greater number mends
    --drop-all             the same, and where the CVT program is refused take that out, where the font program is, all hints
    --strict               judge by the strict profile alone; without it, where that doesn't accept the font, by the symbolic one
    --max-steps N          bound each profile to N steps (100,000,000)
    --rounds N             edit at most N times (2), each time by the answer for what the last time wrote
    --hintcheck PROGRAM    the program to ask; without it $HINTCHECK, and without that `hintcheck` on the PATH

What it does, and tells in a line each, as `round 1: maxp: maxStorage 56 to 61, for 30 storage in 12 programs`:
- It raises a number of `maxp` that programs pass, to one that hintcheck calls enough, mostly the least one: maxStackElements, maxStorage,
  maxFunctionDefs, maxTwilightPoints, maxZones, maxSizeOfInstructions. An interpreter then reserves more; what the programs do stays the same.
- It adds zeros to `cvt ` where programs use control values that the table doesn't have. FreeType reads a zero there where it isn't pedantic, so
  that glyphs look there as they did. An interpreter that read something else draws them in another way.
- With --drop it takes instructions out. These glyphs are then drawn without hints: look at them.
An answer tells the numbers that programs pass, in its member `needs`. Others may come to light once these are raised: so it asks again about a copy
with greater numbers, until the answer tells no other one.

FONT is never written over, and OUT is written only where something was edited. A font's tool may mend it better: `hintcheck explain FONT` says so
where it knows the fault. Exit status: 0 where the last answer is that all programs are accepted, 1 where some are refused, 2 where FONT, OUT,
hintcheck or the words can't be taken. It needs fontTools (Debian: python3-fonttools).
"""

from __future__ import annotations

import argparse
import collections
import dataclasses
import hashlib
import json
import logging
import os
import pathlib
import shutil
import struct
import subprocess
import sys
import tempfile

try:
    from fontTools.ttLib import TTFont, TTLibError
    from fontTools.ttLib.tables.DefaultTable import DefaultTable
except ImportError:
    sys.exit("repair.py: it needs fontTools (Debian: python3-fonttools)")

CONTROL_VALUES = "control values"
# By the reason of a refusal, the number that may be too small, and the greatest one that it can be. A number of points in the twilight zone near
# 65,535 leaves FreeType no room for its own four.
RAISED_FOR = {
    22: ("maxSizeOfInstructions", 65_535),
    27: ("maxStackElements", 65_535),
    29: (CONTROL_VALUES, 65_535),
    30: ("maxStorage", 65_535),
    31: ("maxFunctionDefs", 65_535),
    32: ("maxTwilightPoints", 65_531),
    33: ("maxZones", 2),
}
MOST = dict(RAISED_FOR.values())
# The tables that only hints need.
HINT_TABLES = ("fpgm", "prep", "cvt ", "cvar")
# How many programs a line names.
NAMED = 5


class CannotMend(Exception):
    """Why nothing can be done: the words after the name of the file."""


# Answers of hintcheck.


@dataclasses.dataclass(frozen=True)
class Refusal:
    """A refused program: its place and its reason."""

    program: str
    place: str
    offset: int
    reason: int
    name: str

    @property
    def glyph(self) -> int | None:
        """The number of the glyph, if it is a glyph's program."""
        return int(self.program[1:]) if self.program.startswith("g") else None


@dataclasses.dataclass(frozen=True)
class Answer:
    """An answer for a font: whose it is, the refused programs, how many programs there are, and the numbers that the font needs."""

    profile: str
    refusals: tuple[Refusal, ...]
    programs: int
    needs: dict[str, int]

    @property
    def end(self) -> str:
        """What a line says of the profile."""
        return " (symbolic)" if self.profile == "symbolic" else ""


def answer_of(told: dict) -> Answer:
    """The answer that an object of JSON tells."""
    if "fault" in told:
        raise CannotMend(f"fault: {told['fault']['number']} {told['fault']['text']}")
    members = ("program", "place", "offset", "reason", "name")
    refusals = tuple(Refusal(*(each[member] for member in members)) for each in told["refused"])
    needs = {need["name"]: need["enough"] for need in told["needs"]}
    return Answer(told["profile"], refusals, told["programs"], needs)


@dataclasses.dataclass
class Checker:
    """How hintcheck is asked, and what it has answered, by the bytes of the fonts."""

    program: str
    is_strict: bool
    max_steps: int
    answers: dict[bytes, Answer] = dataclasses.field(default_factory=dict)

    def ask(self, file: pathlib.Path) -> Answer:
        """The answer for a font file."""
        key = hashlib.sha256(file.read_bytes()).digest()
        if key not in self.answers:
            self.answers[key] = self.ask_anew(file)
        return self.answers[key]

    def ask_anew(self, file: pathlib.Path) -> Answer:
        """The same, by a run of hintcheck."""
        words = [self.program, "scan", "--json", "--needs", f"--max-steps={self.max_steps}", *["--strict"] * self.is_strict, "--", str(file)]
        try:
            lines = subprocess.run(words, capture_output=True, text=True, check=False).stdout.splitlines()
            told = [json.loads(line) for line in lines]
        except (OSError, ValueError) as fault:
            raise CannotMend(f"hintcheck gives no answer: {fault}") from None
        if len(told) != 1:
            raise CannotMend("it is a collection: mend one of its fonts" if told else "hintcheck gives no answer")
        return answer_of(told[0])


# Edits of fonts.


@dataclasses.dataclass
class Edits:
    """What is to be changed in a font: numbers by their names, glyphs without instructions, tables that are taken out."""

    numbers: dict[str, int] = dataclasses.field(default_factory=dict)
    glyphs: set[int] = dataclasses.field(default_factory=set)
    tables: set[str] = dataclasses.field(default_factory=set)

    def __bool__(self) -> bool:
        return bool(self.numbers or self.glyphs or self.tables)


def opened(file: pathlib.Path) -> TTFont:
    """A font whose tables stay as they are, but for those that are edited; its glyphs are named by their numbers, whatever `post` says."""
    font = TTFont(file, lazy=True, recalcBBoxes=False, recalcTimestamp=False)
    font.setGlyphOrder([f"g{number}" for number in range(font["maxp"].numGlyphs)])
    return font


def control_values(font: TTFont) -> bytes:
    """The bytes of the table `cvt `, of which a last half value doesn't count."""
    data = font.reader["cvt "] if "cvt " in font.reader else b""
    return data[: len(data) // 2 * 2]


def declared(font: TTFont, name: str) -> int:
    """The number that a font has by this name."""
    return len(control_values(font)) // 2 if name == CONTROL_VALUES else getattr(font["maxp"], name)


def apply(font: TTFont, edits: Edits) -> None:
    """Makes the edits."""
    for name, number in edits.numbers.items():
        if name == CONTROL_VALUES:
            font["cvt "] = table = DefaultTable("cvt ")
            table.data = control_values(font).ljust(2 * number, b"\0")
        else:
            setattr(font["maxp"], name, number)
    if edits.glyphs:
        # fontTools writes the table `head` anew then, and would mend dates that look wrong to it.
        font["head"].created, font["head"].modified = struct.unpack_from(">QQ", font.reader["head"], 20)
    for glyph in sorted(edits.glyphs):
        font["glyf"].glyphs[f"g{glyph}"].trim(remove_hinting=True)
    for table in edits.tables & set(font.keys()):
        del font[table]


def write(source: pathlib.Path, edits: Edits, target: pathlib.Path) -> None:
    """Writes the font with these edits, first beside its place, so that there is never half a font."""
    part = target.with_name(f"{target.name}.part")
    try:
        with opened(source) as font:
            apply(font, edits)
            font.save(part, reorderTables=False)
        os.replace(part, target)
    finally:
        part.unlink(missing_ok=True)


# What to edit.


def reasons_text(refusals) -> str:
    """Which reasons these refusals have, and how many programs."""
    count = len({refusal.program for refusal in refusals})
    reasons = sorted({f"{refusal.reason} {refusal.name}" for refusal in refusals})
    return f"{', '.join(reasons)} in {count} program{'s' * (count != 1)}"


def names_text(names: list[str]) -> str:
    """The first of these names."""
    more = [f"{len(names) - NAMED} more"] if len(names) > NAMED else []
    return ", ".join([*names[:NAMED], *more])


@dataclasses.dataclass
class Mender:
    """Mends a font round by round."""

    checker: Checker
    drop: bool
    drop_all: bool
    folder: pathlib.Path

    def raised(self, font: pathlib.Path, first: Answer) -> tuple[dict[str, int], Answer]:
        """The numbers to raise, each to one that is enough, and the answer for the font with these; none where they mend no program."""
        with opened(font) as source:
            numbers = {name: declared(source, name) for name in MOST}
        raised: dict[str, int] = {}
        answer, trial = first, self.folder / "raised.ttf"
        for _ in MOST:
            enough = {name: min(number, MOST[name]) for name, number in answer.needs.items()}
            new = {name: number for name, number in enough.items() if number > numbers[name]}
            if not new:
                break
            numbers |= new
            raised |= new
            write(font, Edits(numbers=raised), trial)
            answer = self.checker.ask(trial)
        mended = {refusal.program for refusal in first.refusals} - {refusal.program for refusal in answer.refusals}
        return (raised, answer) if mended else ({}, first)

    def edits_for(self, font: pathlib.Path, answer: Answer) -> Edits:
        """What to change after this answer."""
        numbers, left = self.raised(font, answer)
        edits = Edits(numbers=numbers)
        programs = {refusal.program for refusal in left.refusals}
        if self.drop_all and "f" in programs:
            with opened(font) as source:
                return Edits(glyphs=set(range(source["maxp"].numGlyphs)), tables=set(HINT_TABLES))
        if self.drop_all and "p" in programs:
            edits.tables.add("prep")
        if self.drop:
            edits.glyphs = {refusal.glyph for refusal in left.refusals} - {None}
        return edits


def lines_of(font: pathlib.Path, edits: Edits, answer: Answer) -> list[str]:
    """What these edits of a font do, a line for each."""
    with opened(font) as source:
        old = {name: declared(source, name) for name in edits.numbers}
    lines = []
    for name, number in edits.numbers.items():
        why = [refusal for refusal in answer.refusals if RAISED_FOR.get(refusal.reason, ("",))[0] == name]
        reason = f", for {reasons_text(why)}" if why else ""
        if name == CONTROL_VALUES:
            lines.append(f"cvt: {number - old[name]} zeros after its {old[name]} control values{reason}")
        else:
            lines.append(f"maxp: {name} {old[name]} to {number}{reason}")
    if len(edits.tables) > 1:
        return [*lines, f"all hints: {', '.join(sorted(table.strip() for table in edits.tables))} and all instructions of glyphs are taken out"]
    lines += [f"{table}: the table is taken out" for table in edits.tables]
    by_reason = collections.defaultdict(list)
    known = {refusal.glyph: refusal for refusal in answer.refusals}
    for glyph in sorted(edits.glyphs):
        refusal = known.get(glyph)
        by_reason[f", for {refusal.reason} {refusal.name}" if refusal else ""].append(f"g{glyph}")
    return lines + [f"glyf: the instructions of {names_text(names)} are taken out{why}" for why, names in by_reason.items()]


def tell(font: object, answer: Answer) -> None:
    """Prints what an answer says."""
    if not answer.refusals:
        print(f"{font}: accepted: {answer.programs} programs{answer.end}")
        return
    print(f"{font}: refused: {len(answer.refusals)} of {answer.programs} programs{answer.end}")
    causes = collections.Counter((refusal.place if refusal.place in "fp" else "glyph", refusal.reason, refusal.name) for refusal in answer.refusals)
    for (place, reason, name), count in causes.most_common(NAMED):
        where = {"f": "in the font program", "p": "in the CVT program"}.get(place, "in glyph programs")
        print(f"  {count} program{'s' * (count != 1)}: {where}: {reason} {name}")


def mend(words: argparse.Namespace, folder: pathlib.Path) -> int:
    """Mends the font, tells what it did, and returns the exit status."""
    checker = Checker(words.hintcheck, words.strict, words.max_steps)
    mender = Mender(checker, words.drop or words.drop_all, words.drop_all, folder)
    answer = checker.ask(words.font)
    tell(words.font, answer)
    if any(refusal.reason == 46 for refusal in answer.refusals):
        print("note: a greater --max-steps may accept the programs that are refused for 46")
    current, number = words.font, 0
    while answer.refusals and number < words.rounds:
        edits = mender.edits_for(current, answer)
        if not edits:
            break
        number += 1
        for line in lines_of(current, edits, answer):
            print(f"round {number}: {line}")
        write(current, edits, words.out)
        current = words.out
        answer = checker.ask(current)
        tell(current, answer)
    if current == words.font:
        print(f"nothing was edited, and {words.out} isn't written")
    else:
        with opened(current) as font:
            if "DSIG" in font:
                print("note: the digital signature (DSIG) is that of the font as it was: sign it anew, or take it out")
    if answer.refusals and not words.drop_all:
        print("note: --drop takes the instructions out of refused glyphs, --drop-all also a refused CVT program, or all hints")
    return 1 if answer.refusals else 0


def read_words() -> argparse.Namespace:
    """The words of the command line."""
    parser = argparse.ArgumentParser(description=__doc__.partition("\n")[0], usage=__doc__.partition("Usage: ")[2].partition("\n")[0])
    parser.add_argument("--drop", action="store_true")
    parser.add_argument("--drop-all", action="store_true")
    parser.add_argument("--strict", action="store_true")
    parser.add_argument("--max-steps", type=int, default=100_000_000)
    parser.add_argument("--rounds", type=int, default=2)
    parser.add_argument("--hintcheck", default=os.environ.get("HINTCHECK") or shutil.which("hintcheck") or "hintcheck")
    parser.add_argument("font", type=pathlib.Path)
    parser.add_argument("out", type=pathlib.Path)
    words = parser.parse_args()
    if words.out.exists() and words.font.exists() and words.out.samefile(words.font):
        parser.error("OUT is FONT, which is never written over")
    return words


def main() -> int:
    """Reads the words and mends."""
    logging.disable(logging.ERROR)
    words = read_words()
    with tempfile.TemporaryDirectory(prefix="repair-") as folder:
        try:
            return mend(words, pathlib.Path(folder))
        except (CannotMend, OSError, TTLibError, AssertionError, struct.error, KeyError, IndexError) as fault:
            print(f"{words.font}: {fault}", file=sys.stderr)
            return 2


if __name__ == "__main__":
    sys.exit(main())
