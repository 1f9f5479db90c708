#!/usr/bin/env python3
"""Compares the programs of docs/REASONS.md with what is answered for them.

Usage: bench/reasons.py [PROGRAM]
Each row of the page's tables has programs in hexadecimal digits, the instructions of the last ones, and what is answered. The
instructions are compared with the names in crates/tt_code/src/table.rt, and the answers of the strict profile with those of a
plain search over the states of examples/checker.py, which isn't hintcheck's. Where a built hintcheck is given, it is asked too, by
both profiles. What differs is printed, and the exit status is then 1.
"""

import dataclasses
import pathlib
import re
import struct
import subprocess
import sys
import tempfile
import typing

TOP = pathlib.Path(__file__).resolve().parent.parent
PAGE = TOP / "docs/REASONS.md"
sys.path += [str(TOP / "examples"), str(TOP / "bench")]

import checker  # noqa: E402  (the folders are only known here)
import hostile  # noqa: E402

LIMITS = checker.Limits(zones=2, twilight=4, storage=4, functions=2, stack=8, program=64, controls=10)
MOST_CONTEXTS = 65_535


@dataclasses.dataclass
class Row:
    """A row: the reason of its section, the programs by f, p and g, their instructions, and the answers of both profiles."""

    reason: int
    programs: dict[str, bytes]
    instructions: list[str]
    strict: str
    symbolic: str | None


def rows(text: str) -> typing.Iterator[Row]:
    """The rows of the page's sections of reasons."""
    for number, section in re.findall(r"^## (\d+) [^\n]*\n(.*?)(?=^## |\Z)", text, re.M | re.S):
        for line in re.findall(r"^\| (`[fpg]=.*) \|$", section, re.M):
            programs, instructions, answers = line.split(" | ")
            strict, _, symbolic = answers.partition("; symbolic: ")
            named = re.findall(r"`([fpg])=([0-9A-F]*)(?:\*(\d+))?`", programs)
            data = {name: bytes.fromhex(digits) * int(times or 1) for name, digits, times in named}
            yield Row(int(number), data, re.findall(r"`([^`]*)`", instructions), strict, symbolic or None)


def names() -> list[str]:
    """The names of the codes, "" where a code is no instruction."""
    text = (TOP / "crates/tt_code/src/table.rt").read_text()
    return re.findall(r'"(\w*)"', text[text.index("static NAMES"):])[:256]


def listed(program: bytes, code_names: list[str]) -> str:
    """A program's instructions with the numbers that they push, as the page writes them."""
    texts = []
    for instruction in checker.cut(program).values():
        words = [code_names[instruction.code] or "?", *map(str, instruction.numbers)]
        texts.append(" ".join(words))
    return ", ".join(texts)


class Search:
    """The states of a program, by joins, as far as the strict profile has them."""

    def __init__(self, setting: checker.Setting):
        self.family = checker.Family([None], [{}])
        self.check = checker.Check(setting, self.family, False)
        self.waiting: set[tuple[int, int]] = set()

    def put(self, state: checker.State, place: checker.Next) -> None:
        """A state comes to a place."""
        context = place.context
        if context is None:
            context = len(self.family.calls)
            if context == MOST_CONTEXTS:
                raise self.check.broken(39, place.call, place.offset)
            self.family.calls.append(place.call)
            self.family.states.append({})
            self.family.numbers[place.call] = context
        states, old = self.family.states[context], self.family.states[context].get(place.offset)
        if old and len(old.stack) != len(state.stack):
            raise self.check.broken(38, self.family.calls[context], place.offset)
        new = joined(old, state) if old else state.copy()
        if new != old:
            states[place.offset] = new
            self.waiting.add((context, place.offset))

    def run(self, functions: dict[int, int]) -> dict[int, int]:
        """Finds all states; the functions that are known at the end."""
        setting = self.check.setting
        if setting.kind == 2 and setting.main.length > setting.limits.program:
            raise checker.Broken(22, None, setting.limits.program)
        self.put(checker.State([], [0, 0, 0], [1, 1, 1], 1, functions, {}), checker.Next(0, None, 0))
        while self.waiting:
            point = min(self.waiting)
            self.waiting.remove(point)
            self.carry_on(*point)
        end = self.family.states[0].get(setting.main.length)
        if end is None and setting.kind < 2:
            raise checker.Broken(40, None, 0)
        return end.functions if end else {}

    def carry_on(self, context: int, offset: int) -> None:
        """Carries a state on from a place."""
        if self.check.is_end(context, offset):
            return
        call, state = self.family.calls[context], self.family.states[context][offset].copy()
        if not self.check.starts(context, offset):
            raise self.check.broken(35, call, offset)
        try:
            nexts = self.check.step(context, offset, self.check.program(context)[0].instructions[offset], state)
        except checker.Refusal as refusal:
            raise self.check.broken(refusal.args[0], call, offset) from None
        for place in nexts:
            self.put(state, place)


def joined(a: checker.State, b: checker.State) -> checker.State:
    """What two states of one depth have in common."""
    def cells(x: list, y: list, other: int | None) -> list:
        return [left if left == right else other for left, right in zip(x, y)]

    def entries(x: dict, y: dict) -> dict:
        return {index: value for index, value in x.items() if y.get(index) == value}

    return checker.State(cells(a.stack, b.stack, None), cells(a.references, b.references, None), cells(a.zones, b.zones, checker.EITHER),
                         a.loop if a.loop == b.loop else None, entries(a.functions, b.functions), entries(a.storage, b.storage))


def refused(name: str, broken: checker.Broken) -> str:
    """A refusal as the page tells it, and its reason."""
    return f"{name} refused at {broken.program or name}:{broken.offset}, {broken.reason}"


def searched(programs: dict[str, bytes]) -> str:
    """What the strict profile answers for a font of these programs, by this search."""
    functions: dict[int, int] = {}
    parts: list[checker.Program] = []
    for kind, name in enumerate(("f", "p", "g0")):
        try:
            parts.append(checker.read_program(programs.get(name[0], b"")))
            main, font, prep = parts[-1], parts[0], parts[min(kind, 1)]
            functions = Search(checker.Setting(LIMITS, kind, main, font, prep, 8 * (kind == 2), int(kind == 2))).run(functions)
        except checker.Broken as broken:
            return refused(name, broken)
    return "accepted"


def font(programs: dict[str, bytes]) -> bytes:
    """A font file of these programs."""
    glyph = struct.pack(">h8xHH", 1, 3, len(programs.get("g", b""))) + programs.get("g", b"")
    return hostile.font_of_glyphs([glyph], programs.get("f", b""), stack=8, prep=programs.get("p", b""), size=64)


def asked(program: str, options: list[str], programs: dict[str, bytes]) -> str:
    """What a built hintcheck answers for the font."""
    with tempfile.NamedTemporaryFile(suffix=".ttf") as file:
        file.write(font(programs))
        file.flush()
        lines = subprocess.run([program, "verdict", *options, file.name], capture_output=True, text=True).stdout
    return re.sub(r"refused (\w+) at (\S+): (\d+) .*", r"\1 refused at \2, \3", lines.splitlines()[0]) if "refused" in lines else "accepted"


def told(row: Row, answer: str) -> str:
    """An answer of the page with its reason, which is that of the section where none is named."""
    return f"{answer}, {row.reason}" if "refused" in answer and "," not in answer else answer


def answers(row: Row, program: str | None) -> typing.Iterator[tuple[str, str, str]]:
    """The answers to a row's programs: by whom, that of the page, and the one that is given."""
    strict, symbolic = told(row, row.strict), told(row, row.symbolic or row.strict)
    yield "a search of the strict profile", strict, searched(row.programs)
    if program:
        yield "the strict profile", strict, asked(program, [], row.programs)
        yield "the symbolic profile", symbolic, asked(program, ["--symbolic"], row.programs)


def main(words: list[str]) -> int:
    code_names, found, count = names(), 0, 0
    for count, row in enumerate(rows(PAGE.read_text()), 1):
        shown = {name: data.hex().upper() for name, data in row.programs.items()}
        for by, page, given in answers(row, words[0] if words else None):
            if page != given:
                found += 1
                print(f"{row.reason} {shown}: {by} answers {given}, not {page}")
        for (name, data), text in zip(reversed(row.programs.items()), reversed(row.instructions)):
            try:
                if listed(data, code_names) != text:
                    found += 1
                    print(f"{row.reason} {shown}: the instructions of {name} are {listed(data, code_names)}, not {text}")
            except checker.Broken:
                pass  # It can't be cut, so that there is nothing to compare with.
    print(f"{count} rows, {found} differences")
    return 1 if found or not count else 0


if __name__ == "__main__":
    sys.exit(main(sys.argv[1:]))
