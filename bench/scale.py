#!/usr/bin/env python3
"""Measures what many fonts take, several at once: the figures of docs/SCALE.md.

Usage: bench/scale.py [--processes N] [--minutes N] PROGRAM FOLDER..
PROGRAM is a built hintcheck. Each file *.ttf below the folders is asked of the strict profile; then, in an order that is random but always the same,
those that it refuses are asked of the symbolic one, until the minutes are over. Each is a process of its own, bounded as by
examples/scale/check-each.sh. Times are processor seconds of these processes, from the system; memory is the most that one of them had resident.
It prints how many fonts there are, their statuses, sums, means, percentiles and the slowest ones, and what that makes for ten thousand fonts;
of the strict profile also of those fonts alone that have a font program.
"""

from __future__ import annotations

import argparse
import collections
import concurrent.futures
import json
import os
import pathlib
import random
import subprocess
import sys
import tempfile
import time
import typing

# How each profile is asked: the strict one with the bound of examples/scale/check-each.sh, the symbolic one with the command's own.
STRICT, SYMBOLIC = ["--strict", "--max-steps", "20000000"], ["--symbolic"]
SECONDS, KILOBYTES = 60, 1_000_000
SLOWEST = 8
MANY = 10_000


class Run(typing.NamedTuple):
    """A font with the status of its process, processor seconds, megabytes, and how many programs it has, 0 where that isn't told."""

    font: pathlib.Path
    status: int
    seconds: float
    megabytes: float
    programs: int


def run(program: str, words: list[str], font: pathlib.Path) -> Run:
    """Asks of one font."""
    bounded = f'ulimit -v {KILOBYTES}; exec timeout --foreground {SECONDS} "$@"'
    command = ["sh", "-c", bounded, "sh", program, "scan", "--json", *words, "--", str(font)]
    with tempfile.TemporaryFile() as output:
        child = subprocess.Popen(command, stdout=output, stderr=subprocess.DEVNULL)
        _, status, used = os.wait4(child.pid, 0)
        child.returncode = os.waitstatus_to_exitcode(status)
        output.seek(0)
        line = output.readline()
    programs = json.loads(line).get("programs", 0) if line else 0
    return Run(font, child.returncode, used.ru_utime + used.ru_stime, used.ru_maxrss / 1024, programs)


def has_font_program(font: pathlib.Path) -> bool:
    """Whether a font file has the table of a font program, and that isn't empty."""
    data = font.read_bytes()
    count = int.from_bytes(data[4:6], "big")
    entries = (data[12 + 16 * place : 28 + 16 * place] for place in range(count))
    return any(entry[:4] == b"fpgm" and entry[12:] != bytes(4) for entry in entries)


def all_runs(program: str, words: list[str], fonts: list[pathlib.Path], processes: int, until: float) -> tuple[list[Run], float]:
    """Asks of the fonts, until it is this time, and says how many seconds that took."""
    since = time.monotonic()
    with concurrent.futures.ThreadPoolExecutor(processes) as pool:
        asked = pool.map(lambda font: run(program, words, font) if time.monotonic() < until else None, fonts)
        runs = [one for one in asked if one]
    return runs, time.monotonic() - since


def tell(name: str, runs: list[Run]) -> None:
    """Prints the figures of some fonts."""
    seconds = sorted(one.seconds for one in runs)
    mean = sum(seconds) / len(seconds)
    statuses = ", ".join(f"{count} with status {status}" for status, count in sorted(collections.Counter(one.status for one in runs).items()))
    shares = ", ".join(f"{share}%: {seconds[min(len(seconds) - 1, share * len(seconds) // 100)]:.3f} s" for share in (50, 90, 95, 99))
    print(f"{name}: {len(runs)} fonts, {sum(one.programs for one in runs)} programs: {statuses}")
    print(f"  {sum(seconds):.1f} s of processors; mean {mean:.4f} s, {shares}, most {seconds[-1]:.1f} s")
    print(f"  the most memory {max(one.megabytes for one in runs):.0f} MB")
    print(f"  computed: {MANY} such fonts take {mean * MANY / 60:.1f} processor minutes, {mean * MANY / 240:.1f} minutes on four cores")


def tell_slowest(runs: list[Run]) -> None:
    """Prints the slowest fonts."""
    for one in sorted(runs, key=lambda one: -one.seconds)[:SLOWEST]:
        print(f"  {one.seconds:8.2f} s {one.megabytes:6.0f} MB  status {one.status:3}  {one.programs:6} programs  {one.font.name}")


def main() -> int:
    parser = argparse.ArgumentParser(usage=__doc__.split("\n")[2].removeprefix("Usage: "))
    parser.add_argument("--processes", type=int, default=2)
    parser.add_argument("--minutes", type=float, default=5)
    parser.add_argument("program")
    parser.add_argument("folders", nargs="+", type=pathlib.Path)
    words = parser.parse_args()
    program = str(pathlib.Path(words.program).resolve())
    until = time.monotonic() + 60 * words.minutes
    files = (path for folder in words.folders for path in folder.rglob("*") if path.is_file() and not path.is_symlink())
    fonts = sorted(file for file in files if file.suffix.lower() == ".ttf")
    print(f"{len(fonts)} fonts, {sum(font.stat().st_size for font in fonts) / 1e6:.0f} MB")
    strict, took = all_runs(program, STRICT, fonts, words.processes, until)
    print(f"strict profile: {took:.1f} s by the clock with {words.processes} processes")
    tell("all", strict)
    tell("with a font program", [one for one in strict if has_font_program(one.font)])
    tell_slowest(strict)
    refused = [one.font for one in strict if one.status == 1]
    random.Random(1).shuffle(refused)
    symbolic, took = all_runs(program, SYMBOLIC, refused, words.processes, until)
    print(f"symbolic profile: {took:.1f} s by the clock with {words.processes} processes")
    tell(f"of the {len(refused)} that the strict profile refuses, in a random order, as far as the minutes went", symbolic)
    tell_slowest(symbolic)
    return 0


if __name__ == "__main__":
    sys.exit(main())
