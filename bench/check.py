#!/usr/bin/env python3
"""Runs all checks: those that need no proof, `rt ci`, and those of what `rt ci` has proved and built.

Usage: bench/check.py
There is a line for each check besides `rt ci`: that it has passed, or that it has FAILED, which is followed by what it printed; that it wasn't run,
since something isn't built for it; or that it can't run here, since the machine lacks something. What `rt ci` prints is shown as it comes. At the
end the checks are counted, and those that haven't passed are named, with the parts of others that can't run here. The last line is that of `rt ci`.
The exit status is 1 where a check or `rt ci` fails, or a check wasn't run that could run here.
"""

import collections
import os
import pathlib
import shutil
import subprocess
import sys
import time
import typing

import examples
import gate_record

TOP = pathlib.Path(__file__).resolve().parent.parent
BENCH = TOP / "bench"
# Without what a `make` that calls this script hands on to another one.
ENVIRONMENT = {name: value for name, value in os.environ.items() if not name.startswith(("MAKE", "MFLAGS"))}

# What `rt ci` builds, and then bench/library.py.
PROGRAM = "crates/hintcheck_cli/out/hintcheck_cli"
TESTS = ("crates/tt_memory_tests/out/tt_memory_tests_tests", "crates/hintcheck_tests/out/hintcheck_tests_tests")
LIBRARY = "crates/hintcheck_c/out/libhintcheck_c.a"

# How it is told that a machine lacks something.
LACKING = {
    "cc": "no C compiler",
    "c++": "no C++ compiler",
    "ar": "no ar",
    "pkg-config": "no pkg-config",
    "freetype2": "no FreeType",
    "fonts": "no fonts",
    "/dev/full": "no /dev/full",
}
OUTCOMES = PASSED, FAILED, NOT_RUN, NOT_HERE = "passed", "FAILED", "not run", "can't run here"


class Check(typing.NamedTuple):
    """A check: its name, the script of this folder with its words, and what it needs, of the machine and of what is built."""

    name: str
    command: str
    needs: tuple[str, ...] = ()
    built: tuple[str, ...] = ()


class Result(typing.NamedTuple):
    """What came of a check, why, and the lines that are shown of what it printed: all where it failed, otherwise those of what can't run here."""

    check: Check
    outcome: str
    why: str = ""
    lines: tuple[str, ...] = ()

    def text(self) -> str:
        """The outcome, and why."""
        return f"{self.outcome}: {self.why}" if self.why else self.outcome


WITHOUT_PROOF = [
    Check("pages", "pages.py"),
    Check("contracts", "contracts.py --check"),
    Check("definitions", "specs.py"),
    Check("no opcode outside the table", "opcodes.py"),
    Check("heads of files", "files.py"),
    Check("comments of definitions", "definitions.py --check"),
    Check("reasons", "reasons.py"),
    Check("test vectors", "vectors.py"),
    Check("second checker on the cases", "independent_cases.py"),
    Check("second checker on whole files", "independent_files.py"),
    Check("order of the first build", "build_order.py"),
    Check("scripts for continuous integration", "../examples/ci/test_ci.py"),
]


def of_built(is_new: bool) -> list[Check]:
    """The checks of what `rt ci` has built. The libraries that it leaves in a checkout are surely its own only where the checkout is new."""
    return [
        Check("reasons, by the program", f"reasons.py {PROGRAM}", built=(PROGRAM,)),
        Check("examples of README and manual", "examples.py", ("fonts",), (PROGRAM,)),
        Check("closed pipe and full disk", "outputs.py", ("/dev/full",), (PROGRAM,)),
        Check("refused allocations", "allocations.py --built verdict examples/certificates/programs.ttf", ("cc",), (PROGRAM,)),
        Check("second checker and the program", f"independent.py --program {PROGRAM}", built=(PROGRAM,)),
        Check("library for C", "library.py" + " --here" * is_new, built=(PROGRAM,)),
        Check("program in C", "embedding.py --built", ("cc", "c++", "ar", "pkg-config", "freetype2"), (PROGRAM, LIBRARY)),
        Check("refused growths", "refusals.py --built", ("cc",), TESTS),
    ]


def is_there(what: str) -> bool:
    """Whether the machine has this."""
    if what == "fonts":
        return bool(examples.fonts([*examples.of_readme(), *examples.of_manual()]))
    if what == "freetype2":
        return subprocess.run(["pkg-config", "--exists", what], check=False).returncode == 0
    return shutil.which(what) is not None or pathlib.Path(what).is_char_device()


def result(check: Check) -> Result:
    """Runs a check, where that can be."""
    lacking = next((LACKING[what] for what in check.needs if not is_there(what)), None)
    if lacking:
        return Result(check, NOT_HERE, lacking)
    missing = next((path for path in check.built if not (TOP / path).exists()), None)
    if missing:
        return Result(check, NOT_RUN, f"{missing} isn't built")
    script, *words = check.command.split()
    streams = {"stdin": subprocess.DEVNULL, "stdout": subprocess.PIPE, "stderr": subprocess.STDOUT}
    ran = subprocess.run([sys.executable, BENCH / script, *words], cwd=TOP, env=ENVIRONMENT, **streams, text=True, errors="replace", check=False)
    lines = ran.stdout.splitlines()
    if ran.returncode:
        return Result(check, FAILED, f"bench/{check.command}, status {ran.returncode}", tuple(lines))
    return Result(check, PASSED, lines=tuple(line for line in lines if line.startswith(NOT_HERE)))


def told(check: Check) -> Result:
    """Runs a check, and prints what came of it."""
    print(f"{check.name}: ", end="", flush=True)
    since = time.monotonic()
    of_check = result(check)
    took = f", {time.monotonic() - since:.0f} s" if of_check.outcome in (PASSED, FAILED) else ""
    print(of_check.text() + took)
    print(*(f"    {line}\n" for line in of_check.lines), sep="", end="", flush=True)
    return of_check


def gate() -> tuple[int, str]:
    """Runs `rt ci`, and shows what it prints: its status and its last line. Where it passes, its last two lines are kept for bench/pack.py."""
    if shutil.which("rt") is None:
        return 1, "rt isn't on the PATH"
    print("rt ci:", flush=True)
    before, last = gate_record.before(), collections.deque([""], maxlen=2)
    with subprocess.Popen(["rt", "ci"], cwd=TOP, stdin=subprocess.DEVNULL, stdout=subprocess.PIPE, text=True, errors="replace") as ran:
        for line in ran.stdout:
            print(line, end="", flush=True)
            last.extend([line.strip()] * bool(line.strip()))
    if ran.returncode == 0:
        gate_record.write(before, list(last))
    return ran.returncode, last[-1]


def summary(results: list[Result], seconds: float) -> None:
    """Counts the checks, and names what hasn't passed and what can't run here."""
    counts = collections.Counter(of_check.outcome for of_check in results)
    told_counts = ", ".join(f"{counts[outcome]} {outcome}" for outcome in OUTCOMES if counts[outcome])
    print(f"{len(results)} checks besides rt ci, {seconds / 60:.1f} minutes: {told_counts}")
    for of_check in results:
        for line in of_check.lines if of_check.outcome == PASSED else [of_check.text()]:
            print(f"    {of_check.check.name}: {line}")


def main() -> int:
    """Runs all checks."""
    is_new = not any(TOP.glob("crates/*/out"))
    since = time.monotonic()
    results = [told(check) for check in WITHOUT_PROOF]
    seconds = time.monotonic() - since
    status, last = gate()
    since = time.monotonic()
    results += [told(check) for check in of_built(is_new)]
    summary(results, seconds + time.monotonic() - since)
    print(last, flush=True)
    return 1 if status or any(of_check.outcome in (FAILED, NOT_RUN) for of_check in results) else 0


if __name__ == "__main__":
    sys.exit(main())
