#!/usr/bin/env python3
"""Measures what a stranger waits for, in a fresh clone of HEAD with nothing kept from earlier runs: the first build and a trial run.

Usage: bench/first_build.py [--store] [PART..]
PART is 4 or 2, a number of processors with which `./hintcheck --build` is run, or `try`, for README's first example, a trial run, with all of them;
all three where none is named. Of each it prints the minutes by the clock, the processor minutes and the peak of memory: the greatest sum, of a look
each two seconds, of what its processes hold, where what several hold counts once. The exit status is 1 where one fails, answers otherwise than README
says, or takes more minutes than it may: 18, 35 and 2.5. What is told meanwhile goes to first_build.log in the current folder. The clone, and a copy
of the toolchain, which keeps what it proves beside itself, are made of links in a folder that is removed at the end. --store writes what each crate
took to bench/build_times.txt, from the first of the builds. Nothing else should run at the same time: an hour with four processors for all of it.
"""

from __future__ import annotations

import argparse
import os
import pathlib
import re
import resource
import subprocess
import sys
import tempfile
import time
import typing

import build

TOP = pathlib.Path(__file__).resolve().parent.parent
LOG = pathlib.Path("first_build.log")
# The parts, each with the minutes that it may take.
MOST_MINUTES = {"4": 18.0, "2": 35.0, "try": 2.5}
# Seconds between two looks at the memory. A crate that takes fewer processor seconds was built already.
LOOK, LEAST_PROOF = 2.0, 5


def trial() -> tuple[list[str], str]:
    """The words of README's first example, and what it says that they print."""
    found = re.search(r"^\$ \./hintcheck (--try .*?)(?: +#.*)?\n((?:[^$`\n].*\n)*)", (TOP / "README.md").read_text(), re.M)
    return found[1].split(), found[2]


class Took(typing.NamedTuple):
    """What a command took: whether it did what it should, minutes by the clock, processor minutes, and the peak of memory in megabytes."""

    is_well: bool
    minutes: float
    processor_minutes: float
    megabytes: int


def toolchain() -> pathlib.Path:
    """The folder of the toolchain."""
    told = subprocess.run(["rt", "doc"], stdout=subprocess.PIPE, text=True, check=True).stdout
    return pathlib.Path(told.strip()).resolve().parent


def copy_toolchain(room: pathlib.Path) -> pathlib.Path:
    """A copy of the toolchain, made of links, beside which nothing is kept."""
    source, copy = toolchain(), room / "toolchain" / "kit"
    copy.parent.mkdir()
    if subprocess.run(["cp", "-al", source, copy], stderr=subprocess.DEVNULL, check=False).returncode:
        sys.exit(f"no links to {source} can be made in {room}: set TMPDIR to a folder on the disk of the toolchain")
    return copy


def parents() -> dict[int, int]:
    """The processes that there are, each with the one that started it."""
    found = {}
    for folder in pathlib.Path("/proc").glob("[0-9]*"):
        try:
            found[int(folder.name)] = int((folder / "stat").read_text().rpartition(")")[2].split()[1])
        except OSError:
            pass  # It has ended.
    return found


def started_by(pid: int) -> list[int]:
    """This process and those that it has started, and those that they have."""
    above, found = parents(), [pid]
    for one in found:
        found += [other for other, parent in above.items() if parent == one]
    return found


def held_by(pid: int) -> int:
    """The megabytes that a process and those that it has started hold, where a page that several of them share counts once."""
    kilobytes = 0
    for one in started_by(pid):
        kilobytes += build.number_in(f"/proc/{one}/smaps_rollup", r"^Pss:\s+(\d+)") or 0
    return kilobytes >> 10


def measured(command: list[str], folder: pathlib.Path, path: str, processors: int, wanted: str) -> Took:
    """Runs a command that should print this, with so many processors, and what it took."""
    every = sorted(os.sched_getaffinity(0))
    used, start, most = resource.getrusage(resource.RUSAGE_CHILDREN), time.monotonic(), 0
    with LOG.open("ab") as log, tempfile.TemporaryFile("w+") as printed:
        streams = {"stdin": subprocess.DEVNULL, "stdout": printed, "stderr": log}
        environment = os.environ | {"PATH": f"{path}:{os.environ['PATH']}"}
        ran = subprocess.Popen(
            command, cwd=folder, env=environment, **streams, preexec_fn=lambda: os.sched_setaffinity(0, every[:processors])
        )
        while ran.poll() is None:
            most = max(most, held_by(ran.pid))
            time.sleep(LOOK)
        printed.seek(0)
        is_well = ran.returncode == int("refused" in wanted) and printed.read() == wanted
    seconds, now = time.monotonic() - start, resource.getrusage(resource.RUSAGE_CHILDREN)
    processor = now.ru_utime + now.ru_stime - used.ru_utime - used.ru_stime
    return Took(is_well, seconds / 60, processor / 60, most)


def measure(part: str, store: bool) -> Took:
    """Measures a part in a clone and with a toolchain of its own."""
    place = build.place_of_rooms()
    with tempfile.TemporaryDirectory(prefix="hintcheck-first-", dir=place) as name:
        room = pathlib.Path(name)
        clone = room / "clone"
        subprocess.run(["git", "clone", "-q", TOP, clone], check=True)
        path = str(copy_toolchain(room) / "bin")
        words, wanted = trial() if part == "try" else (["--build"], "")
        processors = build.processors() if part == "try" else int(part)
        took = measured([str(clone / "hintcheck"), *words], clone, path, processors, wanted)
        if store:
            store_times(clone)
    return took


def store_times(clone: pathlib.Path) -> None:
    """Writes what each crate of the clone took to bench/build_times.txt, and leaves the other lines there as they are."""
    lines = {}
    for file in sorted(clone.glob("crates/*/out/build.sum")):
        line = file.read_text().splitlines()[-1]
        if int(line.split()[1]) >= LEAST_PROOF:
            lines[line.split()[0]] = line
    text = build.TIMES.read_text()
    for name, line in lines.items():
        text = re.sub(rf"^{name} .*\n", "", text, flags=re.M) + line + "\n"
    build.TIMES.write_text(text)


def is_well(part: str, took: Took) -> bool:
    """Prints what a part took, and whether that is well."""
    may = MOST_MINUTES[part]
    verdict = f"FAILED: {LOG} says why" if not took.is_well else "well" if took.minutes <= may else f"MORE than {may:g} minutes"
    figures = f"{took.minutes:.1f} minutes, {took.processor_minutes:.1f} processor minutes, at most {took.megabytes / 1000:.1f} GB"
    name = "hintcheck --try verdict" if part == "try" else f"hintcheck --build, {part} processors"
    print(f"{name}: {figures}: {verdict}", flush=True)
    return took.is_well and took.minutes <= may


def main() -> int:
    """Measures the parts that the words name."""
    parser = argparse.ArgumentParser(usage="bench/first_build.py [--store] [PART..]")
    parser.add_argument("--store", action="store_true")
    parser.add_argument("parts", nargs="*", choices=[[], *MOST_MINUTES])
    asked = parser.parse_args()
    LOG.write_bytes(b"")
    parts, results = asked.parts or list(MOST_MINUTES), []
    for part in parts:
        results.append(is_well(part, measure(part, asked.store and part != "try" and part == parts[0])))
    return 0 if all(results) else 1


if __name__ == "__main__":
    sys.exit(main())
