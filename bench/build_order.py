#!/usr/bin/env python3
"""Tries bench/build.py on small crates with a stand-in for `rt`, which proves nothing: what is built when, and what comes of failures.

Usage: bench/build_order.py
Each crate is built after those below it, in a copy in which these are built; two that don't need each other are at work together, where there is
memory for both; what hasn't changed isn't built again, and what has changed is, with what is above it; a crate that isn't proved ends the build, and
one that was killed is tried again alone; where the build is interrupted, what is built stays, and no copy is left. What differs is printed, and the
exit status is then 1. It takes some ten seconds.
"""

from __future__ import annotations

import functools
import os
import pathlib
import shutil
import signal
import subprocess
import sys
import tempfile
import time

TOP = pathlib.Path(__file__).resolve().parent.parent
CRATES = "low: std\nleft: low\nright: low\nfree staticlib: low\ntop: left right\n"
# The stand-in: in a copy it notes when it begins and ends, wants what is below to be built, and makes what `rt` would; in the repository it does
# nothing. A file beside it has the name of a crate that fails, is killed once, or is slow, or the names of those that wait for one another.
STAND_IN = """\
#!/bin/sh
name=$(basename "$PWD") here=$(dirname "$0")
[ "$1" != version ] || { echo stand-in; exit; }
is() { [ "$(cat "$here/$1" 2>/dev/null)" = "$name" ]; }
case $1 in run) product=out/$name.stamp ;; *) product=out/rlib/stamp ;; esac
[ "$name" != free ] || product=out/lib$name.a
case $PWD in */repository/*) exit ;; esac
echo "begin $name $3" >>"$here/log"
for use in $(sed -n "s/^$name[^:]*://p" ../../crates.txt); do
    [ ! -d "../$use" ] || [ -f "../$use/out/rlib/stamp" ] || echo "$name lacks $use" >>"$here/log"
done
! is fails || exit 1
if is killed; then rm "$here/killed"; kill -9 $$; fi
if is slow; then sleep 20; fi
touch "$here/at-$name"
for other in $(grep -s -w "$name" "$here/together"); do
    for _ in $(seq 200); do [ -f "$here/at-$other" ] || sleep 0.1; done
    [ -f "$here/at-$other" ] || echo "$name lacks $other beside it" >>"$here/log"
done
mkdir -p out/rlib && cp src/*.rt "$product" && echo "logic=proved functions=3 sum=0"
echo "end $name" >>"$here/log"
"""


class Trial:
    """A repository of small crates, the stand-in, and how often something differed."""

    def __init__(self, room: pathlib.Path) -> None:
        self.room, self.top, self.differ = room, room / "repository", 0
        (self.top / "bench").mkdir(parents=True)
        (room / "rooms").mkdir()
        shutil.copy(TOP / "bench/build.py", self.top / "bench")
        (self.top / "bench/build_times.txt").write_text("".join(f"{name} 10 3 100 1\n" for name in ("low", "left", "right", "top", "free")))
        (self.top / "crates.txt").write_text(CRATES)
        for name in ("low", "left", "right", "free"):
            self.write(name, "lib.rt", "1")
        self.write("top", "main.rt", "1")
        (room / "rt").write_text(STAND_IN)
        (room / "rt").chmod(0o755)

    def write(self, name: str, file: str, text: str) -> None:
        """Writes a crate's source."""
        folder = self.top / "crates" / name / "src"
        folder.mkdir(parents=True, exist_ok=True)
        (folder / file).write_text(f"{name} {text}\n")

    def started(self, *words: str) -> subprocess.Popen:
        """Starts a build."""
        (self.room / "log").write_text("")
        environment = os.environ | {"PATH": f"{self.room}:{os.environ['PATH']}", "TMPDIR": str(self.room / "rooms")}
        streams = {"stdin": subprocess.DEVNULL, "stdout": subprocess.PIPE, "stderr": subprocess.STDOUT, "text": True}
        # A shell's job in the background ignores interrupts, and hands that on.
        heard = functools.partial(signal.signal, signal.SIGINT, signal.SIG_DFL)
        command = [sys.executable, self.top / "bench/build.py", "--lanes", "2", *words]
        return subprocess.Popen(command, env=environment, preexec_fn=heard, **streams)

    def build(self, *words: str) -> tuple[int, list[str]]:
        """Builds, and returns the status and what the stand-in noted."""
        ran = self.started(*words)
        ran.communicate()
        return ran.returncode, self.noted()

    def noted(self) -> list[str]:
        """What the stand-in noted."""
        return (self.room / "log").read_text().splitlines()

    def set(self, what: str, name: str) -> None:
        """Says what the stand-in does with a crate."""
        (self.room / what).write_text(name)

    def must(self, text: str, is_so: bool, seen: object) -> None:
        """Says where something isn't so, or a copy is left."""
        left = list((self.room / "rooms").iterdir())
        if not is_so or left:
            self.differ += 1
            print(f"{text}: {seen}" + f"; left: {left}" * bool(left))


def begun(noted: list[str]) -> list[str]:
    """The crates that were begun with, in order."""
    return [line.split()[1] for line in noted if line.startswith("begin")]


def try_all(trial: Trial) -> None:
    """Tries builds from nothing, from what is there, and after a change."""
    trial.set("together", "left right")
    status, noted = trial.build("top", "free")
    lacks = [line for line in noted if "lacks" in line]
    trial.must("from nothing", status == 0 and not lacks and sorted(begun(noted)) == ["free", "left", "low", "right", "top"], noted)
    trial.must("the lowest first, alone", noted[:2] == ["begin low 2", "end low"], noted)
    trial.set("together", "")
    trial.must("once more", trial.build("top", "free") == (0, []), trial.noted())
    trial.write("right", "lib.rt", "2")
    status, noted = trial.build("top", "free")
    trial.must("after a change", status == 0 and begun(noted) == ["right", "top"], noted)


def try_failures(trial: Trial) -> None:
    """Tries a crate that isn't proved, one that is killed, and an interrupt."""
    for name in ("left", "right"):
        trial.write(name, "lib.rt", "3")
    trial.set("fails", "right")
    status, noted = trial.build("top")
    trial.must("a crate fails", status == 1 and "top" not in begun(noted), noted)
    trial.set("fails", "")
    trial.set("killed", "right")
    for name in ("left", "right"):
        trial.write(name, "lib.rt", "4")
    status, noted = trial.build("top")
    trial.must("a crate is killed", status == 0 and {"begin right 2", "begin right 1", "begin top 1"} <= {*noted}, noted)
    trial.write("top", "main.rt", "5")
    trial.set("slow", "top")
    ran = trial.started("top")
    while "begin top 2" not in trial.noted() and ran.poll() is None:
        time.sleep(0.1)
    ran.send_signal(signal.SIGINT)
    said = ran.communicate()[0]
    trial.must("interrupted", ran.returncode == 130 and "end top" not in trial.noted(), said)
    trial.set("slow", "")
    status, noted = trial.build("top")
    trial.must("after an interrupt", status == 0 and begun(noted) == ["top"], noted)


def main() -> int:
    """Tries all."""
    with tempfile.TemporaryDirectory() as name:
        trial = Trial(pathlib.Path(name))
        try_all(trial)
        try_failures(trial)
    print(f"{trial.differ} differences")
    return 1 if trial.differ else 0


if __name__ == "__main__":
    sys.exit(main())
