#!/usr/bin/env python3
"""Compares what two programs answer on fonts: each command, byte for byte.

Usage: bench/same_outputs.py OLD NEW FONT..
OLD and NEW are two builds of the program. Each of COMMANDS is run with both on each font, and each of ALONE once: standard output, standard error,
the exit status and the files that are written must be the same. A line names each difference; the last one counts commands and differences. The exit
status is 1 where there is a difference.
"""

from __future__ import annotations

import pathlib
import subprocess
import sys
import tempfile
import typing

# What is asked of each font, in this order: FONT stands for its name, CERT and NEWER for certificates of it, KNOWN for a file of known refusals,
# which the first command that names it writes, and MORE for another one; LIST and NULS for files that list the font twice and one that isn't there,
# by lines and by NULs.
COMMANDS = (
    "verdict FONT",
    "verdict --symbolic FONT",
    "verdict --both FONT",
    "verdict --max-steps 1000 FONT",
    "verdict --max-bytes 100 FONT",
    "verdict --face 0 FONT",
    "verdict --json FONT",
    "verdict --json --symbolic FONT",
    "scan FONT nosuch.ttf",
    "scan --strict --causes FONT",
    "scan --causes --symbolic --fail-on possible FONT",
    "scan --json --symbolic FONT",
    "scan --json --causes --needs FONT",
    "scan --needs FONT",
    "scan --all-needs FONT",
    "scan --write-expect KNOWN FONT",
    "scan --expect KNOWN FONT",
    "scan --expect KNOWN --strict FONT",
    "scan --expect KNOWN --write-expect MORE --fail-on possible --json FONT",
    "scan --name other.ttf FONT",
    "scan --files-from LIST",
    "scan --files-from0 --json NULS",
    "explain FONT",
    "explain --strict FONT",
    "explain --symbolic FONT",
    "explain FONT f",
    "explain --json FONT g3",
    "explain --symbolic FONT g5 0",
    "list --numbers FONT f",
    "list --numbers FONT p",
    "list FONT g3",
    "find FONT CERT",
    "check FONT CERT",
    "upgrade CERT NEWER",
    "check --max-steps 1000 FONT NEWER",
)
# A `maxp` table, and programs: none; one that moves a point, one that moves the point whose number is measured, one that pops from an empty stack,
# one that can't be cut, and a word that spells none.
MAXP = "0001000000010004000100000000000200040004000200000008004000000000"
PROGRAMS = ("", "B0002E", "4B2E", "21", "4003", "zz")
SUBCOMMANDS = ("scan", "explain", "verdict", "list", "find", "check", "upgrade", "bare")
# What is asked once: single programs, reasons by their numbers, help, the version, and words that aren't taken.
ALONE = (
    *(f"bare {option}{MAXP} 10 4 1 {program}" for program in PROGRAMS for option in ("", "--symbolic ", "--both ", "--max-steps 2 ")),
    *(f"explain {number}" for number in range(50)),
    "--help",
    *(f"help {name}" for name in SUBCOMMANDS),
    *(f"{name} --help" for name in SUBCOMMANDS),
    *SUBCOMMANDS,
    "--version",
    "verdict --no-such-option font.ttf",
)
# The endings of the files that commands write.
WRITTEN = (".cert", ".known")
SECONDS = 600


class Answer(typing.NamedTuple):
    """What a command answers: its exit status, what it prints, and what the files hold afterwards that commands write."""

    status: int
    output: bytes
    errors: bytes
    files: tuple[bytes, ...]


def answers(program: pathlib.Path, commands: tuple[str, ...], font: pathlib.Path | None) -> typing.Iterator[Answer]:
    """What the program answers to each of the commands, in a folder of its own, which has the font, if one is asked of."""
    with tempfile.TemporaryDirectory() as name:
        room = pathlib.Path(name)
        if font:
            (room / "font.ttf").write_bytes(font.read_bytes())
        (room / "font.list").write_text("font.ttf\nnosuch.ttf\n\nfont.ttf")
        (room / "font.nuls").write_text("font.ttf\0nosuch.ttf\0\0font.ttf")
        names = {"FONT": "font.ttf", "CERT": "font.cert", "NEWER": "newer.cert", "KNOWN": "font.known", "MORE": "more.known"}
        names |= {"LIST": "font.list", "NULS": "font.nuls"}
        for command in commands:
            words = [names.get(word, word) for word in command.split()]
            ran = subprocess.run([program, *words], cwd=room, stdin=subprocess.DEVNULL, capture_output=True, timeout=SECONDS)
            written = sorted(file for file in room.iterdir() if file.suffix in WRITTEN)
            files = tuple(file.read_bytes() for file in written)
            yield Answer(ran.returncode, ran.stdout, ran.stderr, files)


def asked(font: pathlib.Path | None) -> tuple[str, ...]:
    """What is asked of a font, or where there is none."""
    return COMMANDS if font else ALONE


def main(words: list[str]) -> int:
    """Compares the programs on the fonts."""
    if len(words) < 3:
        print(__doc__.split("\n\n")[1].splitlines()[0], file=sys.stderr)
        return 2
    old, new, *fonts = (pathlib.Path(word).resolve() for word in words)
    count = differences = 0
    for font in (None, *fonts):
        commands = asked(font)
        for command, before, after in zip(commands, answers(old, commands, font), answers(new, commands, font)):
            count += 1
            if before != after:
                differences += 1
                print(f"{font or 'no font'}: {command}: status {before.status} and {after.status}")
    print(f"{len(fonts)} fonts, {count} commands, {differences} differences")
    return 1 if differences else 0


if __name__ == "__main__":
    sys.exit(main(sys.argv[1:]))
