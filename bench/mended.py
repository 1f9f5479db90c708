#!/usr/bin/env python3
"""Mends fonts by examples/repair.py, and loads each, as it was and as it is mended, with FreeType's pedantic interpreter.

Usage: bench/mended.py [--jobs N] PROGRAM FONT..
PROGRAM is a built hintcheck. Each font is mended with --drop-all. A line for each, with tabs: its name, what it comes to (`accepted`, `refused` or
`no answer`), after how many rounds, the edits, and the first error that FreeType reports as it loads all glyphs at five sizes, by the interpreter
versions 35 and 40, before and after. The last lines count. It needs python3-fonttools and libfreetype. The exit status is 1 where a font that is
accepted in the end has an error.
"""

from __future__ import annotations

import collections
import concurrent.futures
import ctypes
import ctypes.util
import dataclasses
import os
import pathlib
import re
import subprocess
import sys
import tempfile

TOP = pathlib.Path(__file__).resolve().parent.parent
REPAIR = TOP / "examples/repair.py"
SIZES = (8, 12, 16, 24, 48)
VERSIONS = (35, 40)
# FT_LOAD_PEDANTIC, FT_LOAD_NO_BITMAP and FT_LOAD_NO_AUTOHINT.
FLAGS = 1 << 7 | 1 << 3 | 1 << 15


class Face(ctypes.Structure):
    """The beginning of FT_FaceRec."""

    _fields_ = [(name, ctypes.c_long) for name in ("num_faces", "face_index", "face_flags", "style_flags", "num_glyphs")]


def first_error(file: str, version: int) -> str:
    """The first glyph at which a load fails by this version of the interpreter, with its size and FreeType's error; empty where none does."""
    library = ctypes.CDLL(ctypes.util.find_library("freetype"))
    handle, face = ctypes.c_void_p(), ctypes.POINTER(Face)()
    library.FT_Init_FreeType(ctypes.byref(handle))
    library.FT_Property_Set(handle, b"truetype", b"interpreter-version", ctypes.byref(ctypes.c_uint(version)))
    try:
        error = library.FT_New_Face(handle, os.fsencode(file), ctypes.c_long(0), ctypes.byref(face))
        if error:
            return f"can't be opened: {error:#x}"
        for size in SIZES:
            library.FT_Set_Char_Size(face, ctypes.c_long(64 * size), ctypes.c_long(0), 72, 72)
            for glyph in range(face.contents.num_glyphs):
                error = library.FT_Load_Glyph(face, glyph, FLAGS)
                if error:
                    return f"g{glyph} at {size}: {error:#x}"
        return ""
    finally:
        library.FT_Done_FreeType(handle)


def errors(file: str) -> str:
    """The first error of each version."""
    return ", ".join(f"{version}: {error}" for version in VERSIONS if (error := first_error(file, version)))


@dataclasses.dataclass
class Mended:
    """What came of a font."""

    font: str
    answer: str
    rounds: int
    edits: list[str]
    before: str
    after: str

    def line(self) -> str:
        """The font's line."""
        edits = "; ".join(self.edits) or "-"
        return f"{pathlib.Path(self.font).name}\t{self.answer}\t{self.rounds}\t{edits}\t{self.before or '-'}\t{self.after or '-'}"


def mend(program: str, font: str) -> Mended:
    """Mends a font."""
    with tempfile.TemporaryDirectory(prefix="mended-") as folder:
        out = pathlib.Path(folder) / "mended.ttf"
        command = [sys.executable, str(REPAIR), "--hintcheck", program, "--drop-all", font, str(out)]
        done = subprocess.run(command, capture_output=True, text=True, check=False)
        edits = re.findall(r"^round \d+: (.*)$", done.stdout, re.M)
        rounds = max(map(int, re.findall(r"^round (\d+): ", done.stdout, re.M)), default=0)
        answer = {0: "accepted", 1: "refused"}.get(done.returncode, f"no answer: {done.stderr.strip()}")
        after = errors(str(out)) if out.exists() else ""
        return Mended(font, answer, rounds, edits, errors(font), after)


def main(words: list[str]) -> int:
    """Mends all fonts."""
    jobs = 1
    if words[:1] == ["--jobs"]:
        jobs, words = int(words[1]), words[2:]
    if len(words) < 2:
        print(__doc__, file=sys.stderr)
        return 2
    program, *fonts = words
    counts, wrong = collections.Counter(), 0
    with concurrent.futures.ThreadPoolExecutor(jobs) as pool:
        for mended in pool.map(lambda font: mend(program, font), fonts):
            print(mended.line(), flush=True)
            is_accepted = mended.answer == "accepted"
            counts[f"{mended.answer.partition(':')[0]} after {mended.rounds} rounds"] += 1
            wrong += is_accepted and bool(mended.after)
    for what, count in sorted(counts.items()):
        print(f"{count} of {len(fonts)} fonts: {what}")
    print(f"{wrong} of those that are accepted have an error in FreeType")
    return 1 if wrong else 0


if __name__ == "__main__":
    sys.exit(main(sys.argv[1:]))
