#!/usr/bin/env python3
"""Compares what `hintcheck scan` answers on the faces of font collections with what it answers on the font files that fontTools splits off.

Usage: bench/faces.py [COLLECTION..]
Without names, the collections are those of the Debian packages in PACKAGES:
    apt-get install python3-fonttools fonts-wqy-zenhei fonts-wqy-microhei fonts-arphic-uming fonts-arphic-ukai fonts-naver-d2coding
Where `python3` isn't Debian's, which alone sees that fontTools: /usr/bin/python3 bench/faces.py.
Each face has a line in a scan of its collection, `NAME#K: ANSWER`, and the font file that fontTools makes of it a line `NAME: ANSWER`. Both answers
must be the same. fontTools copies the bytes of each table, but orders the tables anew, so that only these lines are compared. A line tells each
collection, and one each difference; the last one counts collections, faces and differences. The exit status is 1 where there is a difference, and 2
where fontTools or a package isn't there.
"""

from __future__ import annotations

import pathlib
import re
import subprocess
import sys
import tempfile

TOP = pathlib.Path(__file__).resolve().parent.parent
PACKAGES = ("fonts-wqy-zenhei", "fonts-wqy-microhei", "fonts-arphic-uming", "fonts-arphic-ukai", "fonts-naver-d2coding")
# The answer of a scan's line on a face, and on a font file.
FACE = re.compile(r"^.*#\d+: (.*)$")
FILE = re.compile(r"^[^:]*: (.*)$")


def collections_of(package: str) -> list[pathlib.Path]:
    """The collections that an installed package has."""
    listed = subprocess.run(["dpkg", "-L", package], capture_output=True, text=True).stdout.splitlines()
    return [pathlib.Path(name) for name in listed if name.endswith((".ttc", ".otc"))]


def split(collection: pathlib.Path, room: pathlib.Path) -> list[str]:
    """Writes each face of a collection as a font file into a folder: their names. Tables that aren't looked at are copied as they are."""
    from fontTools.ttLib import TTCollection

    names = []
    with TTCollection(str(collection), lazy=True, recalcTimestamp=False, recalcBBoxes=False) as faces:
        for number, face in enumerate(faces):
            names.append(f"face{number}.ttf")
            face.save(str(room / names[-1]), reorderTables=None)
    return names


def answers(pattern: re.Pattern[str], names: list[str], room: pathlib.Path) -> list[str]:
    """What a scan answers on each of these files, in a folder. Its last line counts, and is left out."""
    ran = subprocess.run([TOP / "hintcheck", "scan", *names], cwd=room, stdin=subprocess.DEVNULL, stdout=subprocess.PIPE, text=True)
    return [found.group(1) for line in ran.stdout.splitlines() if (found := pattern.match(line))]


def compare(collection: pathlib.Path) -> tuple[int, int]:
    """Compares the answers on the faces of a collection: how many faces there are, and how many differences."""
    with tempfile.TemporaryDirectory() as name:
        room = pathlib.Path(name)
        names = split(collection, room)
        (room / "collection.ttc").symlink_to(collection)
        faces = answers(FACE, ["collection.ttc"], room)
        files = answers(FILE, names, room)
    if len(faces) != len(names) or len(files) != len(names):
        print(f"{collection}: {len(faces)} and {len(files)} answers on {len(names)} faces")
        return len(names), 1
    different = [(number, face, file) for number, (face, file) in enumerate(zip(faces, files)) if face != file]
    for number, face, file in different:
        print(f"{collection}: face {number}: {face}, but of the font file: {file}")
    print(f"{collection.name}: {len(faces)} faces: {'; '.join(faces)}", flush=True)
    return len(faces), len(different)


def main(words: list[str]) -> int:
    """Compares the answers on these collections, or on those of the packages."""
    try:
        import fontTools.ttLib  # noqa: F401
    except ImportError:
        print("fontTools isn't there: apt-get install python3-fonttools", file=sys.stderr)
        return 2
    missing = [package for package in PACKAGES if not collections_of(package)] if not words else []
    if missing:
        print(f"not installed: {' '.join(missing)}", file=sys.stderr)
        return 2
    found = [pathlib.Path(word).resolve() for word in words] or [path for package in PACKAGES for path in collections_of(package)]
    counts = [compare(path) for path in found]
    differences = sum(count for _, count in counts)
    print(f"{len(found)} collections, {sum(count for count, _ in counts)} faces, {differences} differences")
    return 1 if differences else 0


if __name__ == "__main__":
    sys.exit(main(sys.argv[1:]))
