#!/usr/bin/env python3
"""Runs the program on fonts without a proof: a trial run, which `./hintcheck --try WORDS..` makes.

Usage: bench/trial.py WORDS..
WORDS are those of the program. The toolchain compiles it with run-time checks, which takes about two minutes, and runs it once in a folder of its
own: each of the words that names a file is handed over as a file of that folder, and its name is put back where it is printed. Output and exit status
are the program's. The run may take 60 seconds and print a megabyte; where it takes more, or a run-time check fails, there is no answer: what the
toolchain says is shown, and the exit status is its own, from 4 on, or 2 where it can't make the run. Files that the program writes would be lost, so
that words which ask for one are refused.
"""

from __future__ import annotations

import os
import pathlib
import re
import shutil
import signal
import subprocess
import sys
import tempfile
import threading
import time

TOP = pathlib.Path(__file__).resolve().parent.parent
CRATE = TOP / "crates/hintcheck_cli"
NOT_PROVED = "not proved: a trial run with run-time checks; `./hintcheck WORDS` proves it first"
TAKES = "the toolchain compiles it first, which takes about two minutes"
# Seconds between two lines that say that it is still at work.
PERIOD = 20

# What stands in a name of the run's folder for the root of all folders, for the folder above, and for the current folder.
ROOT, ABOVE, HERE = "hintcheck-root", "hintcheck-above", "hintcheck-here"
# The names that the toolchain keeps for itself in that folder.
TAKEN = {"program", "stdin", "stdout", "stderr"}

# The subcommands that write a file, the option that does, those by which names of fonts are read from files, and the option whose value names a file
# that is read, where they are one word.
WRITERS, WRITING = {"find", "upgrade"}, {"--write-expect"}
LISTING = {"--files-from", "--files-from0", "-0"}
READING = "--expect="

# The toolchain's own lines, after those of the program on standard error: the last one tells whether the program has ended, and one why it hasn't.
OWN_LINE = re.compile(rb"^(?:interpreter|checked|races|run|rt)[:=].*\n", re.M)
ENDED = re.compile(rb"^run=ended .*\n\Z", re.M)
NO_ANSWER = re.compile(rb"^checked: no-answer: (.*)\n", re.M)
# The greatest exit status that is one of the program's, and the one for what can't be done.
MOST_OWN, CANNOT = 3, 2


def say(text: str) -> None:
    """Tells this on standard error."""
    print(f"hintcheck: {text}", file=sys.stderr, flush=True)


def refuse(text: str) -> None:
    """Tells why the words can't be tried, and ends."""
    say(text)
    sys.exit(CANNOT)


def refuse_writing(words: list[str]) -> None:
    """Refuses words that would write a file, and those that name fonts by a list, since these aren't handed over."""
    options = {word.partition("=")[0] for word in words}
    for asked in {*words[:1]} & WRITERS or options & WRITING:
        refuse(f"a trial run writes no file, so `{asked}` can't be tried; `./hintcheck WORDS` proves the program and does it")
    if options & LISTING:
        refuse("a trial run reads no list of fonts: name the fonts themselves")


def name_of(word: str) -> str:
    """The name that a file has in the run's folder, from which `put_back` makes the word again."""
    parts = [ABOVE if part == ".." else part for part in word.split("/")]
    if not parts[0]:
        return "/".join([ROOT, *parts[1:]])
    return "/".join([HERE, *parts] if parts[0] in TAKEN else parts)


def put_back(text: bytes) -> bytes:
    """What was printed, with the words in the place of these names."""
    for name, word in ((f"{ROOT}/", "/"), (f"{HERE}/", ""), (ABOVE, "..")):
        text = text.replace(name.encode(), word.encode())
    return text


def separate(word: str) -> list[str]:
    """A word, or the option and the name of a file that are joined in it."""
    return [READING.rstrip("="), word.removeprefix(READING)] if word.startswith(READING) else [word]


def command_of(words: list[str]) -> list[str]:
    """The toolchain's words for a trial run on these, with the files that they name."""
    words = [part for word in words for part in separate(word)]
    names = {word: name_of(word) for word in words if os.path.isfile(word)}
    for word in names:
        if "=" in word:
            refuse(f"the toolchain takes no file whose name has an equals sign: {word}")
    files = [part for word, name in names.items() for part in ("--data", f"{name}={os.path.abspath(word)}")]
    return ["rt", "try", *files, "--", *(names.get(word, word) for word in words)]


def tell_of_time(ended: threading.Event) -> None:
    """Says again and again how long it has been at work, until it has ended."""
    start = time.monotonic()
    while not ended.wait(PERIOD):
        gone = int(time.monotonic() - start)
        say(f"compiling and running, {gone // 60}:{gone % 60:02d}")


def run(command: list[str]) -> tuple[int, bytes, bytes]:
    """Makes the trial run: the status, and what comes on standard output and on standard error."""
    ended = threading.Event()
    threading.Thread(target=tell_of_time, args=(ended,), daemon=True).start()
    with tempfile.TemporaryFile() as out, tempfile.TemporaryFile() as errors:
        process = subprocess.Popen(command, cwd=CRATE, stdin=subprocess.DEVNULL, stdout=out, stderr=errors)
        try:
            status = process.wait()
        finally:
            # Where this is told to end, so is `rt`, which then ends what it has started.
            process.terminate()
            process.wait()
            ended.set()
        out.seek(0)
        errors.seek(0)
        return status, out.read(), errors.read()


def show(printed: bytes, errors: bytes) -> None:
    """Shows what the program has printed, on the streams on which it did."""
    sys.stdout.buffer.write(put_back(printed))
    sys.stdout.flush()
    sys.stderr.buffer.write(put_back(errors))
    sys.stderr.flush()


def tell_of_no_answer(errors: bytes) -> None:
    """Says why there is no answer."""
    why = NO_ANSWER.search(errors)
    if why:
        text = why[1].decode(errors="replace")
        say(f"no answer: {text}. A trial run may take 60 seconds and print a megabyte; the proved program has no such bounds")
    else:
        say("no answer, by the lines above: a run-time check failed, or the toolchain couldn't make this trial run")


def main(words: list[str]) -> int:
    """Makes a trial run on these words."""
    for number in (signal.SIGTERM, signal.SIGHUP):
        signal.signal(number, lambda got, _: sys.exit(128 + got))
    if not shutil.which("rt"):
        refuse("rt, the toolchain's command, isn't on the PATH")
    refuse_writing(words)
    command = command_of(words)
    say(NOT_PROVED)
    say(TAKES)
    status, printed, errors = run(command)
    if ENDED.search(errors):
        show(printed, OWN_LINE.sub(b"", errors))
    else:
        show(printed, OWN_LINE.sub(b"", errors) if NO_ANSWER.search(errors) else errors)
        tell_of_no_answer(errors)
        status = status if status > MOST_OWN else CANNOT
    say(NOT_PROVED)
    return status


if __name__ == "__main__":
    try:
        sys.exit(main(sys.argv[1:]))
    except KeyboardInterrupt:
        sys.exit(130)
