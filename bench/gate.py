#!/usr/bin/env python3
"""Runs `rt ci` in a clean clone of HEAD, and reports how its processor time is spent: by crate, for its proof (and a program's two builds), its
tests and its edits.

Usage: bench/gate.py [PROCESSORS]
Nothing is taken from earlier runs: where a kit's `rt ci` keeps its work, it is told to begin anew. With a number, only that many of the
machine's processors are used: where a proof may take several, it shares its work out among copies of the prover, each of which reads the
libraries anew, so that more processors take more of their time together. What `rt ci` prints goes to gate.log in the current folder. The
figures are user and system time of the prover's processes, read once a second while they run, in minutes; the whole is that of all processes.
Nothing else should run at the same time.
"""

import collections
import os
import pathlib
import resource
import subprocess
import sys
import tempfile
import time

TOP = pathlib.Path(__file__).resolve().parent.parent
TICKS = os.sysconf("SC_CLK_TCK")
# As /proc names the folders of processes, without links.
TEMPORARY = os.path.realpath(tempfile.gettempdir())


def name_of(process, room):
    """The crate and the kind of work of a process of the prover, or None for any other process: one of the gate is in the
    room, or in a folder for an edit."""
    folder = os.readlink(process / "cwd")
    is_edit = folder.startswith(f"{TEMPORARY}/rt-edit")
    if not is_edit and not folder.startswith(room):
        return None
    words = (process / "cmdline").read_bytes().decode(errors="replace").split("\0")
    if "--crate-name" not in words:
        return None
    crate = words[words.index("--crate-name") + 1]
    if is_edit:
        return crate, "edits"
    return crate, "tests" if "--test" in words else "proof"


def seconds_of(process):
    fields = (process / "stat").read_text().rpartition(")")[2].split()
    return (int(fields[11]) + int(fields[12])) / TICKS


def look(seen, room):
    """Notes what each process of the prover has taken so far."""
    for process in pathlib.Path("/proc").glob("[0-9]*"):
        try:
            name = name_of(process, room)
            if name:
                seen[process.name, name] = seconds_of(process)
        except OSError:
            pass  # The process has ended.


def gate_command():
    """`rt ci`, from nothing: some kits keep what earlier runs proved, and these have the word for it in their help, on standard error."""
    told = subprocess.run(["rt", "help"], stdout=subprocess.PIPE, stderr=subprocess.STDOUT, text=True).stdout
    return ["rt", "ci", "--anew"] if "--anew" in told else ["rt", "ci"]


def main():
    if sys.argv[1:]:
        os.sched_setaffinity(0, sorted(os.sched_getaffinity(0))[: int(sys.argv[1])])
    seen = {}
    with tempfile.TemporaryDirectory(prefix="gate-", dir=TEMPORARY) as room, open("gate.log", "wb") as log:
        subprocess.run(["git", "clone", "-q", TOP, f"{room}/clone"], check=True)
        begun = time.time()
        gate = subprocess.Popen(gate_command(), cwd=f"{room}/clone", stdout=log, stderr=subprocess.STDOUT)
        while gate.poll() is None:
            look(seen, room)
            time.sleep(1)
    used = resource.getrusage(resource.RUSAGE_CHILDREN)
    table = collections.defaultdict(lambda: collections.defaultdict(float))
    for (_, (crate, kind)), seconds in seen.items():
        table[crate][kind] += seconds / 60
    kinds = ["proof", "tests", "edits"]
    print(f"{'crate':24}" + "".join(f"{kind:>8}" for kind in kinds))
    for crate, row in sorted(table.items()):
        print(f"{crate:24}" + "".join(f"{row[kind]:8.1f}" for kind in kinds))
    print(f"{'all':24}" + "".join(f"{sum(row[kind] for row in table.values()):8.1f}" for kind in kinds))
    whole = (used.ru_utime + used.ru_stime) / 60
    print(f"the whole gate: {whole:.0f} processor minutes, {(time.time() - begun) / 60:.0f} minutes")
    return gate.returncode


if __name__ == "__main__":
    sys.exit(main())
