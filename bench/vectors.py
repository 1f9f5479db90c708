#!/usr/bin/env python3
"""Reads examples/certificates/answers.txt, and makes the fonts and certificates that it tells of.

Usage: bench/vectors.py [--write]
Tells which files of the folder aren't as the list says, or writes them.
"""

import dataclasses
import pathlib
import re
import struct
import sys

TOP = pathlib.Path(__file__).resolve().parent.parent
FOLDER = TOP / "examples/certificates"
sys.path += [str(TOP / "examples"), str(TOP / "bench")]

import checker  # noqa: E402  (the folders are only known here)
import hostile  # noqa: E402
import independent_cases as notation  # noqa: E402

FONT_LIMITS = ("stack", "storage", "functions", "zones", "twilight", "size", "cvt")
EDIT = re.compile(r"(\d+)-(\d+)=([0-9A-F]*)")


@dataclasses.dataclass
class Answer:
    """The exit status, and the lines on standard output and on standard error."""

    status: int
    lines: list[str]
    faults: list[str]

    def text(self) -> str:
        """As it is written in the list."""
        marked = [f"| {line}" for line in self.lines] + [f"! {line}" for line in self.faults]
        return " ".join([str(self.status), *marked])


@dataclasses.dataclass
class Vector:
    """What is asked, by two files and the edits of each, and the answer that is expected."""

    place: str
    font: str
    font_edits: list[str]
    certificate: str
    edits: list[str]
    answer: Answer

    def files(self) -> tuple[bytes | None, bytes | None]:
        """The bytes of the two files, where they are there."""
        return (edited(self.font, self.font_edits), edited(self.certificate, self.edits))


@dataclasses.dataclass
class Made:
    """A font and a certificate as the list says them: their names, the limits, the certificate's
    form, and the rows of the programs."""

    font: str
    certificate: str
    limits: dict[str, int]
    form: int
    rows: list[list[str]]


def edited(name: str, edits: list[str]) -> bytes | None:
    """A file of the folder with these edits, one after the other."""
    file = FOLDER / name
    if not file.exists():
        return None
    data = file.read_bytes()
    for edit in edits:
        start, end, put = EDIT.fullmatch(edit).groups()
        data = data[:int(start)] + bytes.fromhex(put) + data[int(end):]
    return data


def answer_of(text: str) -> Answer:
    """An answer: the status, then each line with its mark."""
    status, *marked = re.split(r" (?=[|!] )", text.strip())
    return Answer(int(status), [line[2:] for line in marked if line[0] == "|"],
                  [line[2:] for line in marked if line[0] == "!"])


def vector(place: str, words: list[str], answer: str) -> Vector:
    """What is asked by these words: a font, its edits, a certificate, its edits."""
    font, *others = words
    at = next(number for number, word in enumerate(others) if not EDIT.fullmatch(word))
    return Vector(place, font, others[:at], others[at], others[at + 1:], answer_of(answer))


def made_by(words: list[str]) -> Made:
    """The files that a line names, so far without programs."""
    font, certificate, *options = words
    values = {name: int(value) for name, value in (option.split("=") for option in options)}
    form = values.pop("form", 4)
    return Made(font, certificate, notation.LIMITS | values, form, [])


def read_list() -> tuple[list[Made], list[Vector]]:
    """The files that the list tells of, and what it asks."""
    made: list[Made] = []
    vectors: list[Vector] = []
    kind, asked = "", []
    for number, line in enumerate((FOLDER / "answers.txt").read_text().splitlines(), 1):
        line = line.partition("#")[0].rstrip()
        question, arrow, answer = line.partition(" -> ")
        words = notation.words_of(question)
        if not line:
            continue
        if line[0] == "|":
            vectors[-1].answer.lines.append(line[2:])
            continue
        if line[0] != " ":
            kind, *words = words
            asked = []
        if kind == "files" and line[0] != " ":
            made.append(made_by(words))
        elif kind == "files":
            made[-1].rows.append(words)
        elif arrow:
            vectors.append(vector(f"answers.txt:{number}", asked + words, answer))
        else:
            asked = words
    return made, vectors


def cell(value: checker.Cell) -> bytes:
    """A cell."""
    return b"\0" if value is None else struct.pack(">Bi", 1, value)


def state_text(state: checker.State, form: int) -> bytes:
    """A state, without its place."""
    parts = [struct.pack(">H", len(state.stack)), *map(cell, state.stack + state.references),
             bytes(state.zones), cell(state.loop)]
    lists = [(">HI", state.functions)] + ([(">Hi", state.storage)] if form > 2 else [])
    for layout, entries in lists:
        parts.append(struct.pack(">H", len(entries)))
        parts += [struct.pack(layout, *entry) for entry in sorted(entries.items())]
    return b"".join(parts)


def section_text(kind: int, glyph: int, family: checker.Family, form: int) -> bytes:
    """The section of a program."""
    calls = [struct.pack(">HIIII", *dataclasses.astuple(call)) for call in family.calls[1:]]
    states = [struct.pack(">HI", context, offset) + state_text(listed[offset], form)
              for context, listed in enumerate(family.states) for offset in sorted(listed)]
    return b"".join([struct.pack(">BHH", kind, glyph, len(calls)), *calls,
                     struct.pack(">I", len(states)), *states])


def glyph_data(program: bytes) -> bytes:
    """A glyph of one contour of 4 points, with this program."""
    return struct.pack(">h8xHH", 1, 3, len(program)) + program


def files_of(made: Made) -> dict[str, bytes]:
    """The bytes of the font and of the certificate."""
    programs: dict[str, bytes] = {"f": b"", "p": b""}
    glyphs: list[bytes] = []
    text = struct.pack(">4sHI", b"HCRT", made.form, len(made.rows))
    for program, *words in made.rows:
        name, _, digits = program.partition("=")
        data, family = notation.bytes_of(digits), notation.family_of(words, {})
        if name in programs:
            programs[name] = data
        else:
            if name not in (f"g{len(glyphs)}", f"glyph{len(glyphs)}"):
                raise ValueError(f"{made.certificate}: {name} isn't the next program")
            glyphs.append(data if name.startswith("glyph") else glyph_data(data))
        text += section_text("fpg".index(name[0]), max(len(glyphs) - 1, 0), family, made.form)
    limits = {name: made.limits[name] for name in FONT_LIMITS}
    font = hostile.font_of_glyphs(glyphs, programs["f"], prep=programs["p"], **limits)
    return {made.font: font, made.certificate: text}


def main(words: list[str]) -> int:
    """Compares the files with the list, or writes them."""
    if words not in ([], ["--write"]):
        print(__doc__, file=sys.stderr)
        return 2
    made, others = read_list()[0], 0
    for name, data in (item for each in made for item in files_of(each).items()):
        file = FOLDER / name
        if words:
            file.write_bytes(data)
        elif not file.exists() or file.read_bytes() != data:
            others += 1
            print(f"{name} isn't as the list says")
    print(f"{2 * len(made)} files, {others} differ")
    return int(others > 0)


if __name__ == "__main__":
    sys.exit(main(sys.argv[1:]))
