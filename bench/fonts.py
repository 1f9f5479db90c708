#!/usr/bin/env python3
"""Times `hintcheck verdict` on font files, next to the time to read each file alone and that of `ots-sanitize`, with the greatest memory.

Usage: bench/fonts.py FONT..
Times are in milliseconds of wall clock, of whole processes that take turns: of fifteen runs the least and the median. The ratio is the least
time of hintcheck by that of ots-sanitize. GNU time tells the memory. The sanitizer, and fonts, some of them with many hint programs, as Debian
packages:
    apt-get install time opentype-sanitizer fonts-dejavu fonts-liberation2 fonts-ipafont-gothic fonts-open-sans ttf-bitstream-vera
The fonts are then under /usr/share/fonts.
"""

import pathlib
import statistics
import subprocess
import sys
import time

TOP = pathlib.Path(__file__).resolve().parent.parent
PROGRAM = TOP / "crates/hintcheck_cli/out/hintcheck_cli"
SANITIZER = "ots-sanitize"
RUNS = 15


def run(command: list[object]) -> float:
    """How many milliseconds a command takes, whose output goes nowhere."""
    start = time.perf_counter()
    subprocess.run([str(word) for word in command], stdout=subprocess.DEVNULL, stderr=subprocess.DEVNULL)
    return 1e3 * (time.perf_counter() - start)


def in_turn(*commands: list[object]) -> list[list[float]]:
    """What each command took, run by run, where they take turns."""
    rounds = [[run(command) for command in commands] for _ in range(RUNS)]
    return [list(times) for times in zip(*rounds)]


def answer(font: str) -> tuple[str, str]:
    """The last line of the verdict, and how many kilobytes it took at most."""
    command = ["/usr/bin/time", "-f", "%M", PROGRAM, "verdict", font]
    done = subprocess.run(command, capture_output=True, text=True)
    return done.stdout.strip().rpartition("\n")[2], done.stderr.strip().rpartition("\n")[2]


def main() -> None:
    subprocess.run([TOP / "hintcheck", "--help"], stdout=subprocess.DEVNULL, check=True)
    print(f"{'font':32} {'bytes':>10} {'read':>8} {'verdict':>8} {'median':>8} {'OTS':>8} {'median':>8} {'ratio':>6} {'memory':>10}  answer")
    for font in sys.argv[1:]:
        path = pathlib.Path(font)
        read, verdict, sanitizer = in_turn(["cat", font], [PROGRAM, "verdict", font], [SANITIZER, font, "/dev/null"])
        line, memory = answer(font)
        print(
            f"{path.name:32} {path.stat().st_size:10} {min(read):8.1f} {min(verdict):8.1f} {statistics.median(verdict):8.1f}"
            f" {min(sanitizer):8.1f} {statistics.median(sanitizer):8.1f} {min(verdict) / min(sanitizer):6.1f} {memory:>7} kB  {line}"
        )


if __name__ == "__main__":
    main()
