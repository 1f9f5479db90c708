#!/usr/bin/env python3
"""Asks a second checker of certificates, examples/checker.py, the cases in which whole files are read.

Usage: bench/independent_files.py
These are the cases `read` of fonts.txt, `check_font` of the other files in
crates/hintcheck_font_cases/data and `run check` of those in crates/hintcheck_cases/data, of which
docs/CASES.md has the notation. What `found` and `run find` write in them is here the certificate of
a plain search. Other files that hintcheck writes aren't known: cases that
read one are passed over, and counted. Each that is answered otherwise is printed, and the exit
status is then 1.
"""

import collections.abc
import pathlib
import re
import struct
import sys

TOP = pathlib.Path(__file__).resolve().parent.parent
FONTS, COMMANDS = TOP / "crates/hintcheck_font_cases/data", TOP / "crates/hintcheck_cases/data"
sys.path += [str(TOP / "examples"), str(TOP / "bench")]

import checker  # noqa: E402  (the folders are only known here)
import hostile  # noqa: E402
import independent_cases as notation  # noqa: E402
import independent_trials as trials  # noqa: E402
import vectors  # noqa: E402

FILES = (FONTS / "fonts.txt", FONTS / "certificates.txt", FONTS / "malicious.txt", FONTS / "upgrades.txt",
         COMMANDS / "certificate_commands.txt", COMMANDS / "malicious_commands.txt", COMMANDS / "sessions.txt")
# The file of a folder whose fonts and certificates the others know.
KNOWN = {FONTS: FONTS / "certificates.txt", COMMANDS: COMMANDS / "certificate_commands.txt"}
CHECKED = re.compile(r"(?:run check|check_font) (\S+) (\S+)")
FINDS = re.compile(r"(?:run find|found) (\S+) (\S+)")
# What hintcheck writes otherwise is the second name.
WRITES = re.compile(r"run (?:find|upgrade) (?:--max-steps \d+ )?\S+ (\S+)")
# Names of files that are never there.
MISSING = ("nosuch.cert", "none.ttf")


class Unknown(Exception):
    """A file that isn't known, since hintcheck writes it."""


def pieces(texts: list[str], files: dict[str, bytes]) -> bytes:
    """Bytes in pieces: digits, or what another file holds, or a part of it."""
    data = b""
    for text in texts:
        name, *places = text[1:].split(":")
        if text[0] != "@":
            data += notation.bytes_of(text)
        elif name not in files:
            raise Unknown
        else:
            data += files[name][slice(*map(int, places))] if places else files[name]
    return data


def made_of(glyph: int, times: int) -> bytes:
    """A composite glyph that has another one so many times as a component."""
    parts = [struct.pack(">HHH", 0x20 if number + 1 < times else 0, glyph, 0)
             for number in range(times)]
    return b"".join([b"\xff\xff", bytes(8), *parts])


def font_of(words: list[str]) -> bytes:
    """A font of these programs and glyphs, within the limits of the small fonts."""
    programs, glyphs, times = {"f": b"", "p": b""}, [], 1
    for word in words:
        kind, _, value = word.partition("=")
        if kind in programs:
            programs[kind] = notation.bytes_of(value)
        elif kind == "times":
            times = int(value)
        elif kind == "made":
            glyphs.append(made_of(*map(int, value.split("*"))))
        else:
            data = notation.bytes_of(value)
            glyphs.append(vectors.glyph_data(data) if kind == "g" else data)
    limits = {name: notation.LIMITS[name] for name in vectors.FONT_LIMITS}
    return hostile.font_of_glyphs(glyphs * times, programs["f"], prep=programs["p"], **limits)


def file_of_tables(words: list[str]) -> bytes:
    """A font file of these tables, in their order."""
    tables = []
    for word in words:
        tag, _, value = word.partition("=")
        data = font_of(["g="]) if value == "limits" else notation.bytes_of(value)
        if value == "limits":
            offset, length = checker.font_tables(data)[b"maxp"]
            data = data[offset:offset + length]
        tables.append((tag.ljust(4).encode(), data))
    head, body, at = struct.pack(">IH6x", 0x00010000, len(tables)), b"", 12 + 16 * len(tables)
    for tag, data in tables:
        head += tag + struct.pack(">III", 0, at + len(body), len(data))
        body += data
    return head + body


def written(kind: str, words: list[str], files: dict[str, bytes]) -> bytes:
    """What a line `font`, `tables` or `file` makes."""
    if kind == "font":
        return font_of(words)
    return file_of_tables(words) if kind == "tables" else pieces(words, files)


def shown(data: bytes) -> list[str]:
    """What is read of a font, in the words of fonts.txt."""
    try:
        font = checker.read_font(data)
    except checker.Fault as fault:
        return [f"fault {fault}"]
    limits, components = font.limits, any(glyph.components for glyph in font.glyphs)
    glyphs = [f"g{number} points={glyph.points} contours={glyph.contours} "
              f"g={glyph.program.hex().upper()}" for number, glyph in enumerate(font.glyphs)]
    return [f"storage={limits.storage} functions={limits.functions} stack={limits.stack} "
            f"size={limits.program} zones={limits.zones} twilight={limits.twilight} "
            f"cvt={limits.controls} components={str(components).lower()}",
            f"f={font.font_program.hex().upper()}", f"p={font.cvt_program.hex().upper()}", *glyphs]


def checked(names: tuple[str, str], files: dict[str, bytes], library: bool) -> list[str]:
    """What the check of a font tells, as `check_font` or as the command."""
    missing = [name for name in names if name in MISSING]
    if missing and not library:
        return ["2 ! fault: 44 read", f"! note: {missing[0]}: no such file"]
    if not set(names) <= set(files):
        raise Unknown
    try:
        font = checker.read_font(files[names[0]])
        lines, accepted = checker.Certificate(font, files[names[1]]).answer()
    except checker.Fault as fault:
        return [f"fault {fault}" if library else f"2 ! fault: {fault}"]
    if not library:
        return ["0" if accepted else "1", *lines]
    refused = [re.match(r"refused (\w+) at (\S+): (\d+)", line) for line in lines]
    told = ", ".join(f"{each[1]} {each[3]} at {each[2]}" for each in refused if each)
    return [f"{len(font.glyphs) + 2}" + (" good" if accepted else f": {told}")]


def blocks(path: pathlib.Path) -> collections.abc.Iterator[tuple[str, str, list[str]]]:
    """The lines of a file with a place, what is asked, and the answer's lines."""
    before, block = "", None
    for number, line in enumerate(path.read_text().splitlines(), 1):
        if block and line[:1] in ("|", "!"):
            block[2].append(line[2:] if line[0] == "|" else line)
            continue
        if block:
            yield block
        block = None
        asked, arrow, answer = line.partition(" -> ")
        if not line.strip() or line[0] == "#":
            continue
        if arrow:
            first = answer.strip().split(" | ")
            block = (f"{path.name}:{number}", (before + asked if line[0] == " " else asked), first)
        else:
            before = line.split(" # ")[0]
            yield f"{path.name}:{number}", before, []
    if block:
        yield block


def is_as(told: list[str], wanted: list[str]) -> bool:
    """Whether these are the lines, of which `...` stands for any."""
    if "..." not in wanted:
        return told == wanted
    at, rest = wanted.index("..."), len(wanted) - wanted.index("...") - 1
    return told[:at] == wanted[:at] and told[len(told) - rest:] == wanted[at + 1:]


def answers(path: pathlib.Path) -> collections.abc.Iterator[tuple[str, list[str] | None, list[str]]]:
    """The cases of a file: the place, what is told (None: a file isn't known), what is expected."""
    files: dict[str, bytes] = {}
    known = KNOWN[path.parent]
    others = [known] if path != known else []
    for of, (place, asked, wanted) in ((of, block) for of in [*others, path] for block in blocks(of)):
        kind, *words = asked.split()
        told: list[str] | None = None
        try:
            if not wanted and kind in ("font", "tables", "file"):
                files[words[0]] = written(kind, [word for word in words[1:] if word != "="], files)
            elif kind == "read" and wanted:
                told = shown(written(words[0], words[1:], files))
            elif asks := CHECKED.fullmatch(asked.strip()):
                told = checked(asks.groups(), files, kind != "run")
            elif (found := FINDS.fullmatch(asked.strip())) and found[1] in files and re.match(r"0$|\d+ good", wanted[0]):
                files[found[2]] = trials.certificate_of(checker.read_font(files[found[1]]))
                continue
            elif named := WRITES.match(asked):
                files.pop(named[1], None)
                continue
            else:
                continue
        except Unknown:
            files.pop(words[0], None)
        if wanted and of == path:
            yield place, told, wanted


def main() -> int:
    """Asks all, and tells how many differ."""
    asked = failed = passed_over = 0
    for path in FILES:
        for place, told, wanted in answers(path):
            if told is None:
                passed_over += 1
                continue
            asked += 1
            if not is_as(told, wanted):
                failed += 1
                print(f"{place}: {told}, not {wanted}")
    print(f"{asked} cases, {failed} differ; {passed_over} read what hintcheck writes")
    return int(failed > 0)


if __name__ == "__main__":
    sys.exit(main())
