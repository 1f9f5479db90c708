#!/usr/bin/env python3
"""Proves and builds crates, each as soon as those below it are proved, as many at a time as processors and memory allow.

Usage: bench/build.py [--plan] [--lanes N] [--tests] [CRATE..]
CRATE is a program, as hintcheck_cli, which is meant where none is named, or a library; the crates below it are proved first, and what is built
already and hasn't changed is left as it is. First it tells what it plans; with --plan only that. Then it tells at least every 20 seconds how many
crates and functions are proved, what is at work, the time since the start and an estimate of the rest: on a terminal in one line that is written
anew. --lanes N gives it N processors in place of all. --tests then runs the tests of the crates that are named: their test functions, or a program on
its `args` and `data`. The exit status is 1 where a crate isn't proved; its out/build.log says why. The last line of its out/build.sum is one for
bench/build_times.txt: its name, and what it took.

Each crate is proved by `rt` in a copy of its own, whose files are links to those of this checkout, since `rt` lets only one run at a time work in a
crate and those below it. What it makes is then moved to the crate's folder here. In the end `rt` itself is asked for what was named: it takes what
was made, or makes anew what it wouldn't have made so.
"""

from __future__ import annotations

import argparse
import contextlib
import enum
import fcntl
import functools
import hashlib
import os
import pathlib
import re
import shutil
import signal
import subprocess
import sys
import tempfile
import time
import typing

TOP = pathlib.Path(__file__).resolve().parent.parent
PROGRAM = "hintcheck_cli"
TIMES = TOP / "bench/build_times.txt"

# Seconds between two looks at what is at work, between two lines of a log, and between two writings of a terminal's line.
LOOK, PERIOD, ANEW = 0.5, 15.0, 2.0
# The jobs of a crate at most: more take more processor time together, since each reads the libraries, and end hardly sooner. hintcheck took 366 seconds
# by the clock with two and 363 with four, and 653 and 876 of the processor.
JOBS = 2
# How many times as fast a crate is proved with so many jobs as with one, and how many processors these keep at work, where they have them; and how
# much more memory each further job takes. They are estimates, by which the plan is made.
SPEED = {1: 1.0, 2: 1.7, 3: 2.0, 4: 2.2}
BUSY = {1: 1.0, 2: 1.7, 3: 2.3, 4: 2.8}
MORE_MEMORY = 0.6
# How a command ends that was killed, as where memory ran short: it, or `rt` that tells of it.
KILLED = {-signal.SIGKILL, 128 + signal.SIGKILL, 256 - signal.SIGKILL}
# The part of a crate that is taken to be left as long as it isn't proved.
LEAST_LEFT = 0.05
# The part of the free memory that is planned with, in megabytes; and what is taken of a crate of which nothing is stored.
USABLE = 0.9
UNKNOWN = (60.0, 0, 2000)
# The folders of a crate that `rt` reads to build it, and the file that says of which text a crate's product was made here, and what that took.
SOURCES = ("src", "specs", "proofs")
RECORD = "out/build.sum"
# The limits of a control group, in its two versions: its memory, and of that what is held; its processors, and their period.
MEMORY_LIMITS = (
    ("/sys/fs/cgroup/memory.max", "/sys/fs/cgroup/memory.stat", r"^anon (\d+)"),
    ("/sys/fs/cgroup/memory/memory.limit_in_bytes", "/sys/fs/cgroup/memory/memory.stat", r"^total_rss (\d+)"),
)
PROCESSOR_LIMITS = (
    ("/sys/fs/cgroup/cpu.max", "/sys/fs/cgroup/cpu.max", r" (\d+)"),
    ("/sys/fs/cgroup/cpu/cpu.cfs_quota_us", "/sys/fs/cgroup/cpu/cpu.cfs_period_us", r"(\d+)"),
)


class Kind(enum.Enum):
    """What is made of a crate: the file by which `rt` says that it is built."""

    LIBRARY = "out/rlib/stamp"
    STATIC = "out/lib{}.a"
    PROGRAM = "out/{}.stamp"


class Crate(typing.NamedTuple):
    """A crate: the crates of the repository that it uses, what is made of it, and what is stored of it."""

    name: str
    uses: tuple[str, ...]
    kind: Kind
    seconds: float
    functions: int
    megabytes: int

    def folder(self, top: pathlib.Path = TOP) -> pathlib.Path:
        """Its folder in a checkout."""
        return top / "crates" / self.name

    def command(self, jobs: int) -> list[str]:
        """The command that builds it. A program is run too, since `rt` has no command that only builds it."""
        words = ["--jobs", str(jobs)]
        return ["rt", "run", *words, "--", "--help"] if self.kind is Kind.PROGRAM else ["rt", "lib", *words]

    def product(self, top: pathlib.Path = TOP) -> pathlib.Path:
        """The file that is there in a checkout once it is built."""
        return self.folder(top) / self.kind.value.format(self.name)

    def holds(self, jobs: int) -> float:
        """The megabytes that it needs with so many jobs, as far as that is stored."""
        return self.megabytes * (1 + MORE_MEMORY * (jobs - 1))


Crates = typing.Dict[str, Crate]


def number_in(file: str, pattern: str) -> int | None:
    """The number that the pattern finds in a file, if there is one."""
    with contextlib.suppress(OSError):
        found = re.search(pattern, pathlib.Path(file).read_text(), re.M)
        return int(found[1]) if found else None
    return None


def free_megabytes() -> int:
    """The memory that is free, as the machine and its control group say."""
    free = [(number_in("/proc/meminfo", r"^MemAvailable:\s+(\d+)") or 0) << 10]
    for limit_file, file, pattern in MEMORY_LIMITS:
        limit, held = number_in(limit_file, r"^(\d+)"), number_in(file, pattern)
        if limit is not None and held is not None:
            free.append(limit - held)
    return min(free) >> 20


def processors() -> int:
    """The processors that may be used, as the machine and its control group say."""
    found = len(os.sched_getaffinity(0))
    for quota_file, file, pattern in PROCESSOR_LIMITS:
        quota, period = number_in(quota_file, r"^(\d+)"), number_in(file, pattern)
        if quota and period:
            found = min(found, max(quota // period, 1))
    return found


def stored() -> dict[str, tuple[float, int, int]]:
    """What is stored of each crate: its processor seconds, functions and megabytes."""
    lines = [line.split() for line in TIMES.read_text().splitlines() if line and not line.startswith("#")]
    return {name: (float(seconds), int(functions), int(megabytes)) for name, seconds, functions, megabytes, *_ in lines}


def all_crates() -> Crates:
    """The crates of the repository."""
    rows = re.findall(r"^(\w+)([^:\n]*):(.*)$", (TOP / "crates.txt").read_text(), re.M)
    names, figures = {name for name, _, _ in rows}, stored()
    found = {}
    for name, kind, words in rows:
        uses = tuple(word for word in words.split() if word in names)
        is_program = (TOP / "crates" / name / "src/main.rt").exists()
        made = Kind.PROGRAM if is_program else Kind.STATIC if "staticlib" in kind else Kind.LIBRARY
        found[name] = Crate(name, uses, made, *figures.get(name, UNKNOWN))
    return found


def below(crates: Crates, name: str) -> list[str]:
    """The crates that this one uses, and those that they use, each after those that it uses."""
    found: list[str] = []
    for use in crates[name].uses:
        found += [other for other in [*below(crates, use), use] if other not in found]
    return found


def chain(crates: Crates, tops: list[str]) -> Crates:
    """These crates and those below them, the lowest first."""
    names: list[str] = []
    for top in tops:
        names += [name for name in [*below(crates, top), top] if name not in names]
    return {name: crates[name] for name in names}


@functools.lru_cache(maxsize=None)
def toolchain() -> str:
    """The toolchain's line."""
    return subprocess.run(["rt", "version"], stdout=subprocess.PIPE, universal_newlines=True, check=True).stdout.strip()


def sum_of(file: pathlib.Path) -> str:
    """The sum of a file's bytes; "" where there is no file."""
    return hashlib.sha256(file.read_bytes()).hexdigest() if file.is_file() else ""


def sources(crate: Crate) -> list[pathlib.Path]:
    """The files of a crate that `rt` reads to build it."""
    folders = [crate.folder() / part for part in SOURCES]
    return sorted(file for folder in folders for file in folder.rglob("*") if file.is_file())


def digests(crates: Crates) -> dict[str, str]:
    """A sum for each crate of what it is built from: its files, the crates below it and the toolchain."""
    found: dict[str, str] = {}
    for name, crate in crates.items():
        files = [(str(file.relative_to(TOP)), sum_of(file)) for file in sources(crate)]
        told = (toolchain(), name, crate.kind.name, files, [found[use] for use in crate.uses])
        found[name] = hashlib.sha256(repr(told).encode()).hexdigest()
    return found


class Lanes:
    """Who is proved next, with how many jobs: by the crates, the processors and the megabytes that there are, and how long a chain stands on each."""

    def __init__(self, crates: Crates, lanes: int, megabytes: float) -> None:
        self.crates, self.lanes, self.megabytes = crates, lanes, megabytes
        self.behind: dict[str, float] = {}
        for name in reversed(list(crates)):
            above = [self.behind[other] for other, crate in crates.items() if name in crate.uses]
            self.behind[name] = crates[name].seconds + max(above, default=0.0)

    def next(self, done: set[str], at_work: dict[str, int]) -> tuple[str, int] | None:
        """The crate to begin with and its jobs, if one is to: of those whose turn it is, the one on which the longest chain stands. As many are at
        work as there are processors, and share these; where their memory isn't free, fewer are, or with fewer jobs."""
        ready = [name for name in self.crates if name not in done and name not in at_work and done.issuperset(self.crates[name].uses)]
        if len(at_work) >= self.lanes or not ready:
            return None
        room = self.megabytes - sum(self.crates[name].holds(jobs) for name, jobs in at_work.items())
        first = self.crates[max(ready, key=self.behind.__getitem__)]
        jobs = min(JOBS, self.lanes)
        while jobs > 1 and first.holds(jobs) > room:
            jobs -= 1
        return (first.name, jobs) if not at_work or first.holds(jobs) <= room else None

    def seconds_left(self, done: set[str], at_work: dict[str, tuple[int, float]]) -> float:
        """How long it takes, by what is stored, until all are proved: with these at work, each with its jobs and the part of it that is left."""
        done, now = set(done), 0.0
        jobs = {name: number for name, (number, _) in at_work.items()}
        left = {name: self.crates[name].seconds * part for name, (_, part) in at_work.items()}
        while True:
            begun = self.next(done, jobs)
            while begun:
                jobs[begun[0]], left[begun[0]] = begun[1], self.crates[begun[0]].seconds
                begun = self.next(done, jobs)
            if not jobs:
                return now
            share = min(1.0, self.lanes / sum(BUSY[number] for number in jobs.values()))
            took = {name: left[name] / (SPEED[number] * share) for name, number in jobs.items()}
            first = min(took, key=took.__getitem__)
            left = {name: left[name] - took[first] * SPEED[number] * share for name, number in jobs.items() if name != first}
            now += took[first]
            del jobs[first]
            done.add(first)


class Work:
    """A crate that is being proved, in a copy of its own."""

    def __init__(self, crates: Crates, crate: Crate, jobs: int, rooms: pathlib.Path) -> None:
        self.crate, self.jobs = crate, jobs
        self.room = rooms / crate.name
        make_room(self.room, crates, crate)
        self.log, self.begun = self.room / "build.log", time.time()
        with self.log.open("wb") as log:
            streams = {"stdin": subprocess.DEVNULL, "stdout": log, "stderr": subprocess.STDOUT}
            self.process = subprocess.Popen(crate.command(jobs), cwd=crate.folder(self.room), **streams)
        self.seconds, self.megabytes = 0.0, 0

    def has_ended(self) -> bool:
        """Whether it has ended; then what it took is known."""
        pid, status, used = os.wait4(self.process.pid, os.WNOHANG)
        if not pid:
            return False
        self.process.returncode = os.WEXITSTATUS(status) if os.WIFEXITED(status) else -os.WTERMSIG(status)
        self.seconds, self.megabytes = used.ru_utime + used.ru_stime, used.ru_maxrss >> 10
        return True

    def functions(self) -> int:
        """How many of its functions are proved, as far as the files tell that the prover keeps. What it kept earlier counts too."""
        kept = self.crate.folder(self.room) / "out/incremental"
        return sum(is_proof(self.crate.name, name) for _, _, names in os.walk(kept) for name in names)

    def all_functions(self) -> int:
        """How many functions it has, as its last line says."""
        found = re.findall(rb"^logic=proved .*\bfunctions=(\d+)", self.log.read_bytes(), re.M)
        return int(found[-1]) if found else self.crate.functions

    def is_proved(self) -> bool:
        """Whether it is proved, once it has ended. A program's status is its own, so there what was made decides."""
        product = self.crate.product(self.room)
        is_made = product.is_file() and product.stat().st_mtime >= self.begun - 1
        return is_made if self.crate.kind is Kind.PROGRAM else self.process.returncode == 0 and product.is_file()

    def keep(self) -> None:
        """Moves what was made to the crate's folder in the checkout, with the log."""
        made, to = self.crate.folder(self.room) / "out", self.crate.folder() / "out"
        made.mkdir(exist_ok=True)
        shutil.move(str(self.log), str(made / "build.log"))
        shutil.rmtree(to, ignore_errors=True)
        shutil.move(str(made), str(to))
        shutil.rmtree(self.room, ignore_errors=True)


def is_proof(crate: str, name: str) -> bool:
    """Whether a file that the prover keeps is that of a function's proof: not of an impl's, and not of a cycle of functions."""
    own = re.fullmatch(rf"Rattle-{crate}-proofs\.(.*)\.Proof\.oantt", name)
    return bool(own) and not own[1].endswith(".TheImpl") and ".+" not in own[1]


def link(source: str, target: str) -> None:
    """Makes a link to a file, or a copy where that can't be."""
    try:
        os.link(source, target)
    except OSError:
        shutil.copy2(source, target)


def make_room(room: pathlib.Path, crates: Crates, crate: Crate) -> None:
    """Makes a copy of a crate and of those below it, with what is built of them, as a repository of their own."""
    names = [*below(crates, crate.name), crate.name]
    for name in names:
        parts = ("src", "specs", "proofs", "out" if name == crate.name else "out/rlib")
        for part in parts:
            source = crates[name].folder() / part
            if source.is_dir():
                shutil.copytree(source, crates[name].folder(room) / part, copy_function=link)
    lines = (TOP / "crates.txt").read_text().splitlines(keepends=True)
    (room / "crates.txt").write_text("".join(line for line in lines if re.match(r"\w*", line)[0] in names))
    if (TOP / "HANDLES").exists():
        shutil.copy(TOP / "HANDLES", room)


def place_of_rooms() -> str:
    """A folder for the copies: on the disk of the checkout, so that links can be made, if there is one."""
    device = os.stat(TOP).st_dev
    places = [tempfile.gettempdir(), "/var/tmp", str(TOP.parent)]
    return next((place for place in places if os.path.isdir(place) and os.stat(place).st_dev == device and os.access(place, os.W_OK)), places[0])


@contextlib.contextmanager
def locked(crates: Crates) -> typing.Iterator[None]:
    """Keeps `rt`, and another build, out of these crates' folders, as `rt` does."""
    held = [os.open(crate.folder(), os.O_RDONLY) for crate in crates.values()]
    try:
        for descriptor in held:
            try:
                fcntl.flock(descriptor, fcntl.LOCK_EX | fcntl.LOCK_NB)
            except BlockingIOError:
                say("waiting until another command in this checkout has ended")
                fcntl.flock(descriptor, fcntl.LOCK_EX)
        yield
    finally:
        for descriptor in held:
            os.close(descriptor)


def say(text: str) -> None:
    """Tells this on standard error."""
    print(f"hintcheck: {text}", file=sys.stderr, flush=True)


def minutes(seconds: float) -> str:
    """Seconds as minutes and seconds."""
    return f"{int(seconds) // 60}:{int(seconds) % 60:02d}"


def record(crate: Crate) -> list[str]:
    """The sums that are recorded of the text of which a crate's product was made, and of the product."""
    file = crate.folder() / RECORD
    return file.read_text().partition("\n")[0].split() if file.is_file() else []


class Build:
    """A build: its lanes, what is proved, what is at work, and what was told last."""

    def __init__(self, lanes: Lanes) -> None:
        self.lanes, self.crates = lanes, lanes.crates
        self.start, self.told = time.monotonic(), -PERIOD
        self.digests = digests(self.crates)
        self.done = {name for name, crate in self.crates.items() if record(crate) == [self.digests[name], sum_of(crate.product())]}
        self.at_work: dict[str, Work] = {}
        self.first, self.planned = len(self.done), lanes.seconds_left(self.done, {})
        self.is_terminal = sys.stderr.isatty()

    def left(self, proved: dict[str, int]) -> str:
        """About how long it takes from now on, in words: what is stored, as many times as it has taken longer so far."""
        parts = {name: 1 - proved[name] / max(self.crates[name].functions, proved[name], 1) for name in self.at_work}
        left = self.lanes.seconds_left(self.done, {name: (self.at_work[name].jobs, max(part, LEAST_LEFT)) for name, part in parts.items()})
        slower = (time.monotonic() - self.start + 60) / (max(self.planned - left, 0) + 60)
        return f"some {max(round(slower * left / 60), 1)} min to go"

    def line(self) -> str:
        """How far the build is."""
        proved = {name: work.functions() for name, work in self.at_work.items()}
        proved.update((name, self.crates[name].functions) for name in self.done)
        every = {name: max(crate.functions, proved.get(name, 0)) for name, crate in self.crates.items()}
        counts = f"{len(self.done)} of {len(every)} crates, {sum(proved.values())} of {sum(every.values())} functions"
        work = ", ".join(f"{name} {proved[name]}/{every[name]}" for name in self.at_work)
        return f"hintcheck: {counts}; {minutes(time.monotonic() - self.start)}, {self.left(proved)}; at work: {work}"

    def tell(self) -> None:
        """Tells how far the build is, if that is due."""
        if time.monotonic() - self.told < (ANEW if self.is_terminal else PERIOD):
            return
        self.told = time.monotonic()
        if self.is_terminal:
            width = shutil.get_terminal_size().columns - 1
            print(f"\r{self.line()[:width]}\033[K", end="", file=sys.stderr, flush=True)
        else:
            print(self.line(), file=sys.stderr, flush=True)

    def tell_end(self, text: str) -> None:
        """Tells what came of the build, or of a crate, in a line of its own."""
        if self.is_terminal:
            print("\r\033[K", end="", file=sys.stderr)
        say(text)

    def begin(self, rooms: pathlib.Path) -> None:
        """Begins with each crate whose turn it is."""
        while True:
            begun = self.lanes.next(self.done, {name: work.jobs for name, work in self.at_work.items()})
            if not begun:
                return
            name, jobs = begun
            self.at_work[name] = Work(self.crates, self.crates[name], jobs, rooms)

    def end(self, work: Work) -> bool:
        """Takes what came of a crate, and returns whether to go on: where it was killed beside others, it is tried once more, alone."""
        crate, is_proved = work.crate, work.is_proved()
        took = f"{crate.name} {work.seconds:.0f} {work.all_functions()} {work.megabytes} {work.jobs}"
        del self.at_work[crate.name]
        work.keep()
        if not is_proved and work.process.returncode in KILLED and self.lanes.lanes > 1:
            self.lanes.lanes = 1
            self.tell_end(f"{crate.name} was killed, most likely for memory: from now on one crate at a time")
            return True
        if not is_proved:
            self.tell_end(f"{crate.name} isn't proved (status {work.process.returncode}): {crate.folder() / 'out/build.log'} says why")
            return False
        (crate.folder() / RECORD).write_text(f"{self.digests[crate.name]} {sum_of(crate.product())}\n{took}\n")
        self.done.add(crate.name)
        return True

    def run(self, rooms: pathlib.Path) -> bool:
        """Proves all, and returns whether they are."""
        self.begin(rooms)
        while self.at_work:
            self.tell()
            time.sleep(LOOK)
            for work in [work for work in self.at_work.values() if work.has_ended()]:
                if not self.end(work):
                    return False
            self.begin(rooms)
        return True

    def stop(self) -> None:
        """Ends what is at work, and keeps what it has proved so far."""
        for work in self.at_work.values():
            work.process.terminate()
        for work in self.at_work.values():
            work.process.wait()
            work.keep()

    def plan(self) -> str:
        """What is planned, in words."""
        if len(self.done) == len(self.crates):
            return f"{len(self.crates)} crates are proved already"
        wanted, took = len(self.crates) - len(self.done), max(round(self.planned / 60), 1)
        room = f"{self.lanes.lanes} processors and {self.lanes.megabytes / 1000:.1f} GB of memory"
        return f"proving {wanted} of {len(self.crates)} crates side by side, with {room}: some {took} minutes by bench/build_times.txt"


def built(build: Build) -> bool:
    """Proves all in copies that are removed then, and returns whether they are."""
    # So that what is at work ends, and the copies are removed, where this is told to end.
    for number in (signal.SIGTERM, signal.SIGHUP):
        signal.signal(number, lambda got, _: sys.exit(128 + got))
    if len(build.done) == len(build.crates):
        return True
    with locked(build.crates), tempfile.TemporaryDirectory(prefix="hintcheck-build-", dir=place_of_rooms()) as rooms:
        try:
            return build.run(pathlib.Path(rooms))
        finally:
            build.stop()


def waited_for(process: subprocess.Popen, text: str) -> int:
    """The status of a process once it has ended; until then this is told again and again."""
    while True:
        try:
            return process.wait(PERIOD)
        except subprocess.TimeoutExpired:
            say(text)


def confirm(crate: Crate, lanes: int) -> bool:
    """Asks `rt` for the crate in this checkout, and returns whether it is built. For a static library it isn't asked: it would compile it anew."""
    if crate.kind is Kind.STATIC:
        return crate.product().is_file()
    log_file = crate.folder() / "out/build.log"
    with log_file.open("ab") as log:
        streams = {"stdin": subprocess.DEVNULL, "stdout": log, "stderr": subprocess.STDOUT}
        process = subprocess.Popen(crate.command(min(lanes, JOBS)), cwd=crate.folder(), **streams)
        status = waited_for(process, f"rt is at work on {crate.name}; {log_file} says how far")
    return crate.product().is_file() and (status == 0 or crate.kind is Kind.PROGRAM)


def run_tests(crate: Crate) -> bool:
    """Runs the tests of a crate: a program on its `args` in a copy of its `data`, the test functions of a library. Returns whether all pass."""
    if crate.kind is not Kind.PROGRAM:
        return subprocess.run(["rt", "test"], cwd=crate.folder(), stdin=subprocess.DEVNULL, check=False).returncode == 0
    files = {name: crate.folder() / name for name in ("args", "stdin", "stdout", "status")}
    texts = {name: file.read_bytes() if file.exists() else b"" for name, file in files.items()}
    with tempfile.TemporaryDirectory() as name:
        folder = pathlib.Path(name) / "data"
        shutil.copytree(crate.folder() / "data", folder) if (crate.folder() / "data").exists() else folder.mkdir()
        command = [str(crate.folder() / "out" / crate.name), *texts["args"].decode().splitlines()]
        ran = subprocess.run(command, cwd=folder, input=texts["stdin"], stdout=subprocess.PIPE, check=False)
    is_well = ran.stdout == texts["stdout"] and ran.returncode == int(texts["status"] or 0)
    sys.stdout.buffer.write(b"" if is_well else ran.stdout)
    say(f"{crate.name}: {'printed' if is_well else 'FAILED: it did not print'} what its file stdout has, status {ran.returncode}")
    return is_well


def arguments(words: list[str]) -> argparse.Namespace:
    """What the words ask for."""
    parser = argparse.ArgumentParser(usage="bench/build.py [--plan] [--lanes N] [--tests] [CRATE..]")
    parser.add_argument("--plan", action="store_true")
    parser.add_argument("--lanes", type=int)
    parser.add_argument("--tests", action="store_true")
    parser.add_argument("crates", nargs="*")
    return parser.parse_args(words)


def main(words: list[str]) -> int:
    """Builds what the words name."""
    asked, crates = arguments(words), all_crates()
    tops = asked.crates or [PROGRAM]
    unknown = [name for name in tops if name not in crates]
    if unknown:
        say(f"no crate {unknown[0]} in crates.txt")
        return 2
    if not shutil.which("rt"):
        say("rt, the toolchain's command, isn't on the PATH")
        return 2
    lanes = asked.lanes or processors()
    build = Build(Lanes(chain(crates, tops), lanes, USABLE * free_megabytes()))
    say(build.plan())
    if asked.plan:
        return 0
    try:
        is_proved = built(build) and all(confirm(crates[top], lanes) for top in tops)
    except KeyboardInterrupt:
        build.tell_end("stopped; what is proved so far is kept")
        return 130
    if not is_proved:
        return 1
    now = len(build.done) - build.first
    build.tell_end(f"{len(build.done)} crates are proved, {now} of them now, in {minutes(time.monotonic() - build.start)}")
    return 0 if not asked.tests or all([run_tests(crates[top]) for top in tops]) else 1


if __name__ == "__main__":
    sys.exit(main(sys.argv[1:]))
