#!/usr/bin/env python3
"""Times the check of symbolic states: steps a second of a walk along a loop of 20,000 turns on states of a hundred cells.

Usage: bench/symbolic.py
A copy of the repository's crates gets one more, `symbolic_bench`, which is built as LLVM builds it and run. What is told is the processor time
of that program, and the steps a second that come of it.
"""

import pathlib
import resource
import shutil
import subprocess
import sys
import tempfile

TOP = pathlib.Path(__file__).resolve().parent.parent
USES = "tt_code tt_setting tt_symbolic tt_symbolic_check tt_symbolic_search anyhow"
STEPS = 50 * (4 + 20_000 * 9)


def main():
    with tempfile.TemporaryDirectory(prefix="symbolic-") as folder:
        room = pathlib.Path(folder)
        shutil.copytree(TOP / "crates", room / "crates", symlinks=True, ignore=shutil.ignore_patterns("must-fail"))
        crate = room / "crates/symbolic_bench/src"
        crate.mkdir(parents=True)
        shutil.copy(TOP / "bench/symbolic_main.txt", crate / "main.rt")
        (room / "crates.txt").write_text((TOP / "crates.txt").read_text() + f"symbolic_bench: {USES}\n")
        shutil.copy(TOP / "HANDLES", room)
        built = subprocess.run(["rt", "run"], cwd=crate.parent, stdout=subprocess.DEVNULL)
        if built.returncode:
            return built.returncode
        before = resource.getrusage(resource.RUSAGE_CHILDREN)
        subprocess.run([crate.parent / "out/symbolic_bench"], check=True)
        after = resource.getrusage(resource.RUSAGE_CHILDREN)
    seconds = after.ru_utime + after.ru_stime - before.ru_utime - before.ru_stime
    print(f"{STEPS:,} steps in {seconds:.2f} s: {STEPS / seconds:,.0f} a second")
    return 0


if __name__ == "__main__":
    sys.exit(main())
