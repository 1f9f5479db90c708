#!/usr/bin/env python3
"""Keeps what `rt ci` said of the sources of this checkout, with sums of what it read and of the program that it built.

Usage: bench/gate_record.py
bench/check.py writes the record once `rt ci` has passed on sources that are committed, and bench/pack.py reads it: where it is of other sources, of
another toolchain or of another program than those that are there, it counts for nothing. This prints the record, if it holds; the exit status is 1
where there is none.
"""

from __future__ import annotations

import hashlib
import json
import pathlib
import shutil
import subprocess
import sys

TOP = pathlib.Path(__file__).resolve().parent.parent
PROGRAM = TOP / "crates/hintcheck_cli/out/hintcheck_cli"
RECORD = TOP / "out/gate.json"
# What `rt ci` reads, as git names it, and how its digest is computed by hand.
SOURCES = ("crates", "crates.txt", "HANDLES")
BY_HAND = "git ls-files -z crates crates.txt HANDLES | LC_ALL=C sort -z | xargs -0 sha256sum | sha256sum"


def sum_of(file: pathlib.Path) -> str:
    """The sum of a file's bytes; "" where there is no file."""
    return hashlib.sha256(file.read_bytes()).hexdigest() if file.is_file() else ""


def sources_digest() -> str:
    """The digest of what `rt ci` reads: that of the sums and names of its files, in the order of their names."""
    told = subprocess.run(["git", "-C", str(TOP), "ls-files", "-z", *SOURCES], stdout=subprocess.PIPE, check=True).stdout
    names = sorted(name for name in told.split(b"\0") if name)
    lines = [b"%s  %s\n" % (sum_of(TOP / name.decode()).encode(), name) for name in names]
    return hashlib.sha256(b"".join(lines)).hexdigest()


def toolchain() -> str:
    """The toolchain's line."""
    return subprocess.run(["rt", "version"], stdout=subprocess.PIPE, text=True, check=True).stdout.strip()


def are_committed() -> bool:
    """Whether the sources are those of a commit, with nothing beside them. Without git that can't be told."""
    if not shutil.which("git"):
        return False
    words = ["git", "-C", str(TOP), "status", "--porcelain", "--", *SOURCES]
    told = subprocess.run(words, stdout=subprocess.PIPE, stderr=subprocess.DEVNULL, check=False)
    return told.returncode == 0 and not told.stdout


def now() -> dict[str, str]:
    """What is there: the sources, the toolchain and the program."""
    return {"sources": sources_digest(), "toolchain": toolchain(), "program": sum_of(PROGRAM)}


def before() -> dict[str, str] | None:
    """What `rt ci` is about to read, if it is committed. An earlier record is removed."""
    RECORD.unlink(missing_ok=True)
    return now() if are_committed() else None


def write(read_then: dict[str, str] | None, said: list[str]) -> None:
    """Writes what `rt ci` said, unless the sources or the toolchain aren't what they were before it."""
    after = before()
    if after and read_then and all(read_then[what] == after[what] for what in ("sources", "toolchain")):
        RECORD.parent.mkdir(exist_ok=True)
        RECORD.write_text(json.dumps(after | {"said": said}, indent=1) + "\n")


def read() -> dict[str, str | list[str]] | None:
    """The record, if it is of what is there."""
    told = json.loads(RECORD.read_text()) if RECORD.is_file() else {}
    return told if told and now() == {what: told[what] for what in ("sources", "toolchain", "program")} else None


def main() -> int:
    """Prints the record."""
    told = read()
    print(json.dumps(told, indent=1) if told else "no record of `rt ci` for these sources, this toolchain and this program")
    return 0 if told else 1


if __name__ == "__main__":
    sys.exit(main())
