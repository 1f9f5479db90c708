#!/usr/bin/env python3
"""Checks what hintcheck does where what it prints, or the file that it writes, can't be written.

Usage: bench/outputs.py [PROGRAM]
PROGRAM is a built hintcheck: crates/hintcheck_cli/out/hintcheck_cli where no other is named. Each command is run with a standard output that nobody
reads, a pipe whose reader is closed: it must say nothing and end with status 141. It is run again with a standard output on a full disk (/dev/full),
and the commands that write a file also with that file there: then it must tell the fault 45, which docs/REASONS.md has, and end with status 2. What
differs is printed, and the exit status is then 1.
"""

import contextlib
import os
import pathlib
import subprocess
import sys
import tempfile
import typing

TOP = pathlib.Path(__file__).resolve().parent.parent
PROGRAM = TOP / "crates/hintcheck_cli/out/hintcheck_cli"
FULL = "/dev/full"
MOST_SECONDS = 60

# Of examples/certificates: an accepted font with its certificate, one with refused programs, and a certificate in an older form.
FOLDER = TOP / "examples/certificates"
ACCEPTED, CERTIFICATE = str(FOLDER / "own-bodies.ttf"), str(FOLDER / "own-bodies.cert")
REFUSED, OLD = str(FOLDER / "ways.ttf"), str(FOLDER / "call-pops.form1")

# The commands, and those that write a file, whose name comes last.
COMMANDS = [
    ["help"],
    ["help", "scan"],
    ["--version"],
    ["verdict", REFUSED],
    ["verdict", "--json", ACCEPTED],
    ["scan", ACCEPTED, REFUSED],
    ["scan", "--symbolic", "--causes", REFUSED],
    ["scan", "--all-needs", ACCEPTED],
    ["list", "--numbers", REFUSED, "g0"],
    ["explain", REFUSED],
    ["explain", ACCEPTED, "g0"],
    ["explain", "28"],
    ["check", ACCEPTED, CERTIFICATE],
]
WRITERS = [["find", ACCEPTED], ["upgrade", OLD], ["scan", "--json", REFUSED, "--write-expect"]]


class Answer(typing.NamedTuple):
    """What a run answers: its exit status, and what it says on the error output."""

    status: int
    errors: str


CLOSED = Answer(141, "")
UNWRITTEN = Answer(2, "fault: 45 write\n")


@contextlib.contextmanager
def closed_pipe() -> typing.Iterator[int]:
    """A pipe that nobody reads."""
    reader, writer = os.pipe()
    os.close(reader)
    try:
        yield writer
    finally:
        os.close(writer)


def differs(program: pathlib.Path, words: list[str], output: int | typing.TextIO, wanted: Answer) -> bool:
    """Runs a command with this standard output: whether it answers something else than it should, which is then printed."""
    streams = {"stdin": subprocess.DEVNULL, "stdout": output, "stderr": subprocess.PIPE}
    ran = subprocess.run([program, *words], **streams, text=True, timeout=MOST_SECONDS, check=False)
    told = Answer(ran.returncode, ran.stderr)
    if told != wanted:
        print(f"{' '.join(words)}: {told}, not {wanted}")
    return told != wanted


def main(words: list[str]) -> int:
    """Runs all commands in both ways."""
    program = pathlib.Path(words[0]).resolve() if words else PROGRAM
    failed = 0
    with tempfile.TemporaryDirectory() as folder, closed_pipe() as closed, open(FULL, "w", encoding="utf-8") as full:
        for command in [*COMMANDS, *([*writer, f"{folder}/{writer[0]}"] for writer in WRITERS)]:
            failed += differs(program, command, closed, CLOSED)
            failed += differs(program, command, full, UNWRITTEN)
        for writer in WRITERS:
            failed += differs(program, [*writer, FULL], subprocess.DEVNULL, UNWRITTEN)
    print(f"{2 * len(COMMANDS) + 3 * len(WRITERS)} runs, {failed} differ")
    return int(failed > 0)


if __name__ == "__main__":
    sys.exit(main(sys.argv[1:]))
