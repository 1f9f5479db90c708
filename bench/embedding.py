#!/usr/bin/env python3
"""Builds the library and the example of examples/embedding, and compares what they answer with the command.

Usage: bench/embedding.py [--built] [FONT..]
It needs cc, c++, pkg-config and FreeType's headers. The library is built by `make install-library` into a folder of its own, and the command by
`./hintcheck --build`; with --built both are taken as `rt ci` and bench/library.py have built them. The example draws a line of text with an accepted
font, a refused one and one that is cut short, all made here, and what it prints is compared with what is written below. examples/embedding/calls.c
calls the library with requests, pointers and lengths of all kinds, as C99 and C++11, and under valgrind where that is there. Then the library and the command
answer each FONT, or the fonts of /usr/share/fonts, at most 100: their counts of programs and of refused ones, and the first refusals, must be the
same. So must be what a shared library made of the archive answers, called from Python (examples/embedding/verdict.py), whose module has tests of its own
there (test_hintcheck.py). What differs is printed, and the exit status is then 1.
"""

import os
import pathlib
import re
import shutil
import struct
import subprocess
import sys
import tempfile
import time

import hostile

TOP = pathlib.Path(__file__).resolve().parent.parent
SOURCES = TOP / "examples/embedding"
COMMAND = TOP / "crates/hintcheck_cli/out/hintcheck_cli"
MOST_FONTS = 100

# The fonts of the sessions (crates/hintcheck_cases/data/sessions.txt): a function that sets reference point 0 to point 2, and one that takes an element
# of the stack.
FUNCTIONS = b"\xb0\x00\x2c\xb0\x02\x10\x2d" + b"\xb0\x01\x2c\x21\x2d"
# Each glyph's program: SVTCA, function 0, MIAP of point 0 and CVT index 0; a call of function 1 with nothing on the stack; an IF on a measured
# distance whose ways leave stacks of different depths.
GOOD = b"\x00\xb0\x00\x2b\xb1\x00\x00\x3e"
UNDERFLOW = b"\xb0\x01\x2b"
TWO_DEPTHS = b"\xb1\x00\x01\x49\x58\xb0\x07\x59\x21"

# The flags of a component (OpenType specification, `glyf`): its arguments have two bytes each; it has one scale, or a matrix; another one follows; the
# glyph's program follows.
WORDS, SCALE, MORE, MATRIX, PROGRAM = 0x0001, 0x0008, 0x0020, 0x0080, 0x0100


def simple(program: bytes) -> bytes:
    """A glyph of 4 points with this program."""
    return struct.pack(">h8xHH", 1, 3, len(program)) + program


def composite(components: list[tuple[int, int]], program: bytes = b"") -> bytes:
    """A glyph that is made of these components, each with its number and flags, and that has this program."""
    glyph = struct.pack(">h8x", -1)
    for place, (number, flags) in enumerate(components):
        is_last = place == len(components) - 1
        flags |= (PROGRAM if program else 0) if is_last else MORE
        size = (4 if flags & WORDS else 2) + (2 if flags & SCALE else 8 if flags & MATRIX else 0)
        glyph += struct.pack(">HH", flags, number) + bytes(size)
    return glyph + (struct.pack(">H", len(program)) + program if program else b"")


# Glyphs of which some may be drawn with hints: 1 and 6 are refused; 3 and 8 are made of 1, 4 of 3, and 7 of 6. The others are made of accepted ones alone.
COMPOSITES = [
    simple(GOOD),
    simple(UNDERFLOW),
    composite([(0, 0)]),
    composite([(0, 0), (1, 0)]),
    composite([(3, 0)]),
    composite([(2, 0), (0, 0)], GOOD),
    composite([(0, 0)], UNDERFLOW),
    composite([(6, 0)]),
    composite([(0, WORDS | SCALE), (1, 0)]),
    composite([(0, WORDS | MATRIX), (2, SCALE)]),
    b"",
]
# A POP with nothing on the stack.
REFUSED_CVT_PROGRAM = b"\x21"

# What the example prints of each font.
PRINTED = {
    "serif.ttf": "accepted: 5 programs, hinted\n",
    "broken.ttf": "refused g1 at f:10: 26 underflow\nrefused g2 at g2:8: 38 depth mismatch\nrefused: 2 of 5 programs, glyphs with hints: 1\n",
    "short.ttf": "status 2, fault 4, not hinted\n",
}


def collection(files: list[bytes]) -> bytes:
    """A font collection of version 1.0 whose faces are these font files, one after the other."""
    header = struct.pack(">4sII", b"ttcf", 0x10000, len(files))
    place, faces = len(header) + 4 * len(files), b""
    for data in files:
        header += struct.pack(">I", place + len(faces))
        moved = bytearray(data)
        for record in range(struct.unpack_from(">H", data, 4)[0]):
            offset = 12 + 16 * record + 8
            struct.pack_into(">I", moved, offset, struct.unpack_from(">I", data, offset)[0] + place + len(faces))
        faces += moved
    return header + faces


def run(words: list[str], **settings) -> subprocess.CompletedProcess:
    """Runs a program, and returns what it printed."""
    return subprocess.run(words, stdout=subprocess.PIPE, stderr=subprocess.STDOUT, text=True, check=False, **settings)


def must(words: list[str], **settings) -> str:
    """Runs a program that must succeed."""
    ran = run(words, **settings)
    if ran.returncode:
        sys.exit(f"{' '.join(words)}: status {ran.returncode}\n{ran.stdout}")
    return ran.stdout


def install(folder: pathlib.Path, is_built: bool) -> None:
    """Installs the library into the folder. It and the command are built first, unless they have been."""
    if not is_built:
        must([str(TOP / "hintcheck"), "--build"])
    # By -o, make leaves out the target that builds it.
    must(["make", "-s", "-C", str(TOP), *["-o", "library"] * is_built, "install-library", f"PREFIX={folder}"])


def built(folder: pathlib.Path) -> dict[str, pathlib.Path]:
    """The programs, built over the installed library."""
    environment = os.environ | {"PKG_CONFIG_PATH": f"{folder}/lib/pkgconfig:" + os.environ.get("PKG_CONFIG_PATH", "")}
    flags = must(["pkg-config", "--cflags", "--libs", "hintcheck"], env=environment).split()
    free_type = must(["pkg-config", "--cflags", "--libs", "freetype2"]).split()
    warnings = ["-O2", "-Wall", "-Wextra", "-Werror", "-pedantic"]
    programs = {name: folder / name for name in ("line", "calls", "calls++")}
    must(["cc", "-std=c99", *warnings, "-o", str(programs["line"]), str(SOURCES / "line.c"), *flags, *free_type])
    must(["cc", "-std=c99", *warnings, "-o", str(programs["calls"]), str(SOURCES / "calls.c"), *flags])
    must(["c++", "-std=c++11", *warnings, "-x", "c++", "-o", str(programs["calls++"]), str(SOURCES / "calls.c"), "-x", "none", *flags])
    return programs


def differs(what: str, seen: object, wanted: object) -> bool:
    """Whether these differ, which is then printed."""
    if seen == wanted:
        return False
    print(f"{what}: {seen!r}, not {wanted!r}")
    return True


def fails_example(line: pathlib.Path, folder: pathlib.Path) -> bool:
    """Whether the example prints something else than it should."""
    fonts = {
        "serif.ttf": hostile.font([GOOD, b"", GOOD], FUNCTIONS),
        "broken.ttf": hostile.font([GOOD, UNDERFLOW, TWO_DEPTHS], FUNCTIONS),
    }
    fonts["short.ttf"] = fonts["serif.ttf"][:-40]
    failed = False
    for name, data in fonts.items():
        (folder / name).write_bytes(data)
        ran = run([str(line), str(folder / name), "abc", str(folder / "line.pgm")])
        told = re.sub(r"\d+ glyphs drawn\n|no face\n", "", ran.stdout)
        failed |= differs(f"line {name}", told, PRINTED[name])
    certificate = folder / "serif.cert"
    must([str(COMMAND), "find", str(folder / "serif.ttf"), str(certificate)])
    ran = run([str(line), str(folder / "serif.ttf"), "abc", str(folder / "line.pgm"), str(certificate)])
    failed |= differs("line with a certificate", ran.stdout.splitlines()[0], PRINTED["serif.ttf"].strip())
    ran = run([str(line), str(folder / "broken.ttf"), "abc", str(folder / "line.pgm"), str(certificate)])
    hinted = re.search(r"accepted|glyphs with hints: [1-9]", ran.stdout) is not None
    return failed | differs("line with another's certificate", hinted, False)


def fails_calls(programs: dict[str, pathlib.Path], folder: pathlib.Path) -> bool:
    """Whether a call with odd pointers or lengths is answered otherwise than the header says, or memory is misused."""
    failed = False
    fonts = {
        "composites.ttf": hostile.font_of_glyphs(COMPOSITES, FUNCTIONS),
        "cvt.ttf": hostile.font_of_glyphs([simple(GOOD)] * 3, FUNCTIONS, prep=REFUSED_CVT_PROGRAM),
        "circle.ttf": hostile.font_of_glyphs([composite([(1, 0)]), composite([(0, 0)])]),
        "faces.ttc": collection([(folder / name).read_bytes() for name in ("serif.ttf", "broken.ttf")]),
    }
    for name, data in fonts.items():
        (folder / name).write_bytes(data)
    words = [str(folder / name) for name in ("serif.ttf", "broken.ttf", "serif.cert", *fonts)]
    for name in ("calls", "calls++"):
        ran = run([str(programs[name]), *words])
        failed |= differs(name, (ran.returncode, ran.stdout), (0, "all calls answered as the header says\n"))
    if shutil.which("valgrind"):
        ran = run(["valgrind", "-q", "--error-exitcode=9", "--leak-check=full", str(programs["calls"]), *words, "short"])
        failed |= differs("calls under valgrind", (ran.returncode, ran.stdout), (0, "all calls answered as the header says\n"))
    else:
        print("can't run here: calls under valgrind: no valgrind")
    return failed


def fails_shared(folder: pathlib.Path) -> bool:
    """Whether the shared library that is made of the archive answers otherwise than the command, called from Python."""
    library, failed = folder / "libhintcheck.so", False
    archive = folder / "lib/libhintcheck.a"
    must(["cc", "-shared", "-o", str(library), "-Wl,--whole-archive", str(archive), "-Wl,--no-whole-archive"])
    for name in PRINTED:
        told = must([sys.executable, str(SOURCES / "verdict.py"), str(library), str(folder / name)])
        wanted = "".join(f"{folder / name}: {line}\n" for line in by_command(folder / name)[0].splitlines())
        failed |= differs(f"verdict.py {name}", told, wanted)
    tests = run([sys.executable, str(SOURCES / "test_hintcheck.py"), str(library)])
    if tests.returncode:
        print(tests.stdout, end="")
    return failed or tests.returncode != 0


def by_command(font: pathlib.Path) -> tuple[str, float]:
    """What the command answers of a font, in the example's words, and how long it took."""
    start = time.monotonic()
    ran = subprocess.run([COMMAND, "verdict", font], capture_output=True, text=True, check=False)
    took = time.monotonic() - start
    if ran.returncode > 1:
        number = int(re.match(r"fault: (\d+)", ran.stderr).group(1))
        return f"status {ran.returncode}, fault {number}", took
    *lines, last = ran.stdout.splitlines()
    return "\n".join([*lines[:3], last]), took


def by_library(line: pathlib.Path, font: pathlib.Path) -> str:
    """What the library answers of a font."""
    told = run([str(line), str(font), "", "/dev/null"]).stdout
    lines = [re.sub(r", (?:(?:not )?hinted|glyphs with hints: \d+)$", "", text) for text in told.splitlines() if not text.endswith(("glyphs drawn", "no face"))]
    return "\n".join(lines)


def fails_fonts(line: pathlib.Path, fonts: list[pathlib.Path]) -> bool:
    """Whether the library answers a font otherwise than the command."""
    failed, commands, library = False, 0.0, 0.0
    for font in fonts:
        told, took = by_command(font)
        start = time.monotonic()
        answer = by_library(line, font)
        library += time.monotonic() - start
        commands += took
        told = re.sub(r"refused: (?:font|cvt) program$", "refused: 1 of", told)
        failed |= differs(str(font), answer[: len(told)] if told.endswith("1 of") else answer, told)
    print(f"{len(fonts)} fonts: {commands:.2f} s by the command, {library:.2f} s by the example, drawing included")
    return failed


def main() -> int:
    words = sys.argv[1:]
    is_built = words[:1] == ["--built"]
    fonts = [pathlib.Path(word) for word in words[is_built:]] or sorted(pathlib.Path("/usr/share/fonts").rglob("*.[to]tf"))
    with tempfile.TemporaryDirectory() as name:
        folder = pathlib.Path(name)
        install(folder, is_built)
        programs = built(folder)
        failed = fails_example(programs["line"], folder)
        failed |= fails_calls(programs, folder)
        failed |= fails_shared(folder)
        failed |= fails_fonts(programs["line"], fonts[:MOST_FONTS])
    return int(failed)


if __name__ == "__main__":
    sys.exit(main())
