#!/usr/bin/env python3
"""Tries the edits of bench/edits/CRATE that the prover must refuse, many of them in one check.

Usage: bench/edits_together.py [--dry] [--jobs N] --all | CRATE..
`bench/edits.sh` tries one after the other, each by a check of its own: of a large crate that takes hours. Here as many edits as don't touch the
same function are made in one copy of the repository, whose crate is then checked once, over what earlier checks kept. The prover proves each
function by the contracts of those that it calls, so that one wrong body doesn't hide another: an edit is refused where an open goal or a refused
answer is of the very function that it changes. One whose function shows none is named with `??`: try it alone, by `bench/edits.sh`. A file that
doesn't compile is told, and so is an edit whose text isn't found once.
With --all the crates follow one another that have edits, each checked with N processors, usually 4. With --dry each edit is made and nothing is
checked: that takes a second, and tells which can't be made. The last line counts. The exit status is 0 where each edit is refused, or can be made.
"""

import argparse
import collections
import pathlib
import re
import shutil
import subprocess
import sys
import tempfile
import typing

TOP = pathlib.Path(__file__).resolve().parent.parent

# With the attributes before it, where what is told of a function may be.
FUNCTION = re.compile(r'^( *)(?:#\[.*\]\n *)*(?:pub(?:\(\w+\))? )?(?:const )?(?:extern "C" )?fn (\w+)', re.M)
TOLD = re.compile(r"^(?:note: )?(?:\./)?((?:src|proofs|specs)/\S+?):(\d+):\d+:(?! (?:warning|note: (?:large|only)))", re.M)


class Change(typing.NamedTuple):
    """A text of a file that an edit replaces."""

    path: str
    old: str
    new: str


class Group(typing.NamedTuple):
    """Edits that are made together: their names and changes, and the texts of the files that they change."""

    edits: dict[str, list[Change]]
    texts: dict[str, str]


def changes_of(edit: pathlib.Path) -> list[Change]:
    """The changes of an edit, in their order."""
    path, old, changes = "", "", []
    for line in edit.read_text().splitlines():
        word, _, text = line.partition(": " if ": " in line else ":")
        if word == "file":
            path = text.strip()
        elif word == "old":
            old = text
        elif word == "new":
            changes.append(Change(path, old, text))
    return changes


def function_at(text: str, at: int) -> tuple[str, int, int]:
    """The function around a place of a file: its name, and its first and last line; the whole file where there is none."""
    heads = [head for head in FUNCTION.finditer(text) if head.start() <= at]
    if not heads:
        return "", 1, text.count("\n") + 1
    end = text.find(f"\n{heads[-1].group(1)}}}", heads[-1].end())
    return heads[-1].group(2), text.count("\n", 0, heads[-1].start()) + 1, text.count("\n", 0, end + 1) + 1


def touched(texts: dict[str, str], change: Change) -> tuple[str, str]:
    """The file and the function that a change is in, before it is made."""
    text = texts[change.path]
    return change.path, function_at(text, text.index(change.old))[0]


def made(texts: dict[str, str], changes: list[Change]) -> dict[str, str] | None:
    """The texts with an edit made in them; nothing where a text that it replaces isn't there once."""
    texts = dict(texts)
    for change in changes:
        if texts.get(change.path, "").count(change.old) != 1:
            return None
        texts[change.path] = texts[change.path].replace(change.old, change.new)
    return texts


def originals(crate: pathlib.Path, changes: list[Change]) -> dict[str, str]:
    """The texts of the files that an edit changes, as far as they are there."""
    return {change.path: (crate / change.path).read_text() for change in changes if (crate / change.path).exists()}


def functions_of(texts: dict[str, str], changes: list[Change]) -> set[tuple[str, str]]:
    """The functions that an edit changes, in the texts before it: those of its changes that are in these."""
    return {touched(texts, change) for change in changes if change.old in texts[change.path]}


def joins(group: Group, crate: pathlib.Path, name: str, changes: list[Change]) -> bool:
    """Makes an edit in a group too, if none of its functions is changed already and its texts are still there once."""
    original = originals(crate, changes)
    before = set().union(*(functions_of(originals(crate, others), others) for others in group.edits.values()))
    texts = made(original | {path: group.texts[path] for path in original if path in group.texts}, changes)
    if texts is None or functions_of(original, changes) & before:
        return False
    group.texts.update(texts)
    group.edits[name] = changes
    return True


def grouped(crate: pathlib.Path, edits: dict[str, list[Change]]) -> list[Group]:
    """The edits, each of which can be made, in as few groups as come of taking each into the first one that it joins."""
    groups: list[Group] = []
    for name, changes in edits.items():
        if not any(joins(group, crate, name, changes) for group in groups):
            groups.append(Group({}, {}))
            joins(groups[-1], crate, name, changes)
    return groups


def place_of(change: Change, before: str, after: str) -> int:
    """Where a change's new text is in a file, of several places the one nearest to where the old text was."""
    at = before.find(change.old)
    return min((found.start() for found in re.finditer(re.escape(change.new), after)), key=lambda place: abs(place - at), default=0)


def is_refused(crate: pathlib.Path, group: Group, changes: list[Change], told: list[tuple[str, str]]) -> bool:
    """Whether what the check told is of a function that these changes are in."""
    for change in changes:
        text = group.texts[change.path]
        name, first, last = function_at(text, place_of(change, (crate / change.path).read_text(), text))
        proofs = re.compile(rf"proofs/{re.escape(change.path[4:-3])}/(\w+/)?{name}/")
        if any((path == change.path and first <= int(line) <= last) or proofs.match(path) for path, line in told):
            return True
    return False


def below(crate: str) -> set[str]:
    """The crates of the repository that a crate stands on."""
    uses = {head.split()[0]: words.split() for head, _, words in (line.partition(":") for line in (TOP / "crates.txt").read_text().splitlines())}
    found, left = set(), [crate]
    while left:
        left += [name for name in uses[left.pop()] if name in uses and name not in found]
        found |= set(left)
    return found


def copy_to(room: pathlib.Path, crate: str) -> None:
    """Copies what a crate's check reads to a room: the crates that it stands on, as they are built, and what checks of it have kept."""
    libraries = below(crate)
    for name in ("crates.txt", "HANDLES"):
        shutil.copy(TOP / name, room)
    for folder in (TOP / "crates").iterdir():
        left_out = () if folder.name == crate else ("incremental",) if folder.name in libraries else ("out",)
        shutil.copytree(folder, room / "crates" / folder.name, ignore=shutil.ignore_patterns("must-fail", *left_out))
    subprocess.run(["git", "init", "-q", room], check=True)


def try_group(crate: str, group: Group, jobs: int) -> collections.Counter[str]:
    """Checks the crate with the edits of a group, and counts what is told of them."""
    with tempfile.TemporaryDirectory(prefix="edits-") as folder:
        copy_to(pathlib.Path(folder), crate)
        home = pathlib.Path(folder, "crates", crate)
        for path, text in group.texts.items():
            (home / path).write_text(text)
        how = {"stdout": subprocess.PIPE, "stderr": subprocess.STDOUT, "text": True, "errors": "replace"}
        said = subprocess.run(["rt", "check", "--jobs", str(jobs)], cwd=home, **how).stdout
    if "error[" in said or "logic=" not in said:
        print(f"{crate}: one of {', '.join(group.edits)} doesn't compile:")
        print("\n".join(line for line in said.splitlines() if "error" in line), flush=True)
        return collections.Counter({"not compiled": len(group.edits)})
    told = TOLD.findall(said)
    counts: collections.Counter[str] = collections.Counter()
    for name, changes in group.edits.items():
        is_so = is_refused(TOP / "crates" / crate, group, changes, told)
        counts["refused" if is_so else "not seen to be refused"] += 1
        print(f"{crate}/{name}: {'refused' if is_so else '??'}", flush=True)
    return counts


def try_crate(crate: str, jobs: int, is_dry: bool) -> collections.Counter[str]:
    """Tries the edits of a crate, or only makes them, and counts what is told of them."""
    home = TOP / "crates" / crate
    edits = {edit.stem: changes_of(edit) for edit in sorted((TOP / "bench/edits" / crate).glob("*.edit"))}
    counts: collections.Counter[str] = collections.Counter()
    for name in [name for name, changes in edits.items() if not changes or made(originals(home, changes), changes) is None]:
        print(f"{crate}/{name}: can't be made")
        counts["can't be made"] += 1
        del edits[name]
    groups = grouped(home, edits)
    if is_dry:
        print(f"{crate}: edits: {len(edits)}, checks: {len(groups)}")
        return counts + collections.Counter({"can be made": len(edits)})
    for group in groups:
        counts += try_group(crate, group, jobs)
    return counts


def crates_with_edits() -> list[str]:
    """The crates that have edits, in the order of crates.txt."""
    names = [line.split(":")[0].split()[0] for line in (TOP / "crates.txt").read_text().splitlines() if ":" in line]
    return [name for name in names if (TOP / "bench/edits" / name).is_dir()]


def main() -> int:
    parser = argparse.ArgumentParser(usage=__doc__.split("Usage: ")[1].splitlines()[0])
    parser.add_argument("crates", nargs="*")
    parser.add_argument("--all", action="store_true")
    parser.add_argument("--dry", action="store_true")
    parser.add_argument("--jobs", type=int, default=4)
    words = parser.parse_args()
    if bool(words.crates) == words.all:
        parser.error("either the names of crates or --all")
    counts: collections.Counter[str] = collections.Counter()
    for crate in crates_with_edits() if words.all else words.crates:
        counts += try_crate(crate, words.jobs, words.dry)
    print(f"{counts.total()} edits: {', '.join(f'{count} {what}' for what, count in sorted(counts.items()))}")
    return 0 if counts.total() == counts["can be made" if words.dry else "refused"] else 1


if __name__ == "__main__":
    sys.exit(main())
