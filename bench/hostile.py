#!/usr/bin/env python3
"""Times hintcheck on font files that are made to take much time or memory, next to benign fonts of 1 MB and of 10 kB.

Usage: bench/hostile.py [--symbolic] [SECONDS]
The files go to a temporary folder. Each is handed to `hintcheck verdict`, and where it is accepted, to `find` and `check`: processor seconds and
the greatest memory of `verdict` and of `check`, the size of the certificate, and the first line of the verdict, with that of `find` or `check` where
it is another one. A run that takes more than SECONDS (60) of the processor is ended. With --symbolic they and some more are handed to
`hintcheck verdict --symbolic` alone.
"""

import pathlib
import resource
import struct
import subprocess
import sys
import tempfile

TOP = pathlib.Path(__file__).resolve().parent.parent
PROGRAM = TOP / "crates/hintcheck_cli/out/hintcheck_cli"

# FDEF of function 0 begins with it, followed by the body.
FDEF = b"\xb0\x00\x2c"
ENDF = b"\x2d"
# An instruction that does nothing to the stack.
RTG = b"\x18"
MILLION = 1_000_000


def font(programs: list[bytes], fpgm: bytes = b"", stack: int = 1100, functions: int = 2, storage: int = 4) -> bytes:
    """A font file with a font program, an empty CVT program and glyphs of 4 points with these programs."""
    glyphs = [struct.pack(">h8xHH", 1, 3, len(program)) + program for program in programs]
    return font_of_glyphs(glyphs, fpgm, stack, functions, storage)


def font_of_glyphs(glyphs: list[bytes], fpgm: bytes = b"", stack: int = 1100, functions: int = 2, storage: int = 4,
                   prep: bytes = b"", size: int = 65535, zones: int = 2, twilight: int = 4, cvt: int = 10) -> bytes:
    """A font file with a font program, a CVT program and these glyphs, whose programs have at most so many bytes."""
    head = bytearray(54)
    head[50:52] = b"\0\1"
    glyf = b"".join(glyphs)
    loca = bytearray(4)
    end = 0
    for glyph in glyphs:
        end += len(glyph)
        loca += struct.pack(">I", end)
    maxp = struct.pack(">I14H", 0x00010000, len(glyphs), 4, 1, 0, 0, zones, twilight, storage, functions, 0, stack, size, 0, 0)
    tables = {b"cvt ": bytes(2 * cvt), b"fpgm": fpgm, b"glyf": glyf, b"head": bytes(head), b"loca": bytes(loca), b"maxp": maxp, b"prep": prep}
    directory = struct.pack(">IHHHH", 0x00010000, len(tables), 0, 0, 0)
    body = bytearray()
    at = 12 + 16 * len(tables)
    for tag, data in tables.items():
        directory += tag + struct.pack(">III", 0, at + len(body), len(data))
        body += data + bytes(-len(data) % 4)
    return directory + bytes(body)


def turns(count: int) -> bytes:
    """LOOPCALL of function 0 with this many turns, 65,534 at most."""
    return b"\xb9" + struct.pack(">hh", count // 2, count - count // 2) + b"\x60\xb0\x00\x2a"


def deep(cells: int) -> bytes:
    """Pushes this many cells, 255 at a time."""
    return (b"\x40\xff" + bytes(255)) * (cells // 255)


def branches(count: int) -> bytes:
    """Jumps by one instruction under a condition that isn't known: after each two ways meet, so that a state is kept."""
    return (b"\xb0\x02\x4b\x78" + RTG) * count


def many_functions(count: int) -> bytes:
    """A font program that defines this many functions besides function 0, all of them empty."""
    return b"".join(b"\xb8" + struct.pack(">h", number) + b"\x2c" + ENDF for number in range(1, count + 1))


def tower(size: int) -> bytes:
    """16 composite glyphs, each made of the one before as often as makes the font this long."""
    times = size // 16 // 6
    glyphs = [bytes(10)]
    for number in range(16):
        entry = struct.pack(">HHH", 0x20, number, 0)
        glyphs.append(b"\xff\xff" + bytes(8) + entry * (times - 1) + struct.pack(">HHH", 0, number, 0))
    return font_of_glyphs(glyphs)


def benign(size: int) -> bytes:
    """A font of this size with glyph programs of 1,000 bytes that push and pop, as long as real ones."""
    program = b"\xb0\x00\x21" * 333
    return font([program] * (size // (len(program) + 18)))


def cases() -> dict[str, bytes]:
    """The fonts by name."""
    one = FDEF + RTG + ENDF
    branching = FDEF + branches(20) + ENDF
    return {
        "benign, 1 MB": benign(MILLION),
        "benign, 10 kB": benign(10_000),
        "composites, 16 levels, 1 MB": tower(MILLION),
        "a font program of 1 MB": font([b""], b"\xb0\x00\x21" * (MILLION // 3)),
        "IFs in each other, 1 MB": font([b""], (b"\x4b\x58" * (MILLION // 3)) + b"\x59" * (MILLION // 3)),
        "65,534 turns of 1": font([turns(65_534)], one),
        "65,534 turns of 900": font([turns(65_534)], FDEF + RTG * 900 + ENDF),
        "65,534 turns of 20 branches": font([turns(65_534)], branching),
        "65,534 turns of 200 branches": font([turns(65_534)], FDEF + branches(200) + ENDF),
        "4,000 turns of 20 branches, 1,020 cells": font([deep(1_020) + turns(4_000)], branching),
        "4,000 turns, 10,000 functions": font([turns(4_000)], one + many_functions(10_000), functions=10_001),
        "51,000 cells, 14,000 instructions": font([deep(51_000) + RTG * 14_000], stack=65_535),
        "51,000 cells, 2,000 branches": font([deep(51_000) + branches(2_000)], stack=65_535),
        "100 glyphs, 65,534 turns of 1": font([turns(65_534)] * 100, one),
        "1,000 glyphs, 65,534 turns of 1": font([turns(65_534)] * 1_000, one),
        "30,000 glyphs, 65,534 turns of 900": font([turns(65_534)] * 30_000, FDEF + RTG * 900 + ENDF),
    }


def symbolic_cases() -> dict[str, bytes]:
    """Fonts whose numbers are measured, by name: sums, ways that meet, and loops whose count is in a range."""
    choice = b"\x4b\x58\xb0\x01\x1b\xb0\x02\x59"
    clamped = b"\x4b\xb8\x7f\xff\x8c\xb0\x00\x8b"
    loop = clamped + b"\xb0\x00\x2a"
    compared = b"\x4b\xb0\x10\x8c\xb0\x00\x8b\x20\xb0\x08\x50\x58\x21\x1b\x21\x59"
    counting = FDEF + b"\xb0\x00\xb0\x00\x43\xb0\x01\x60\x42" + ENDF
    # Function 0 moves an element from the middle of the stack to its top; function 1 calls it 999 times.
    moving = FDEF + b"\xb8\x75\x30\x26" + ENDF + b"\xb0\x01\x2c\xb8\x03\xe7\xb0\x00\x2a" + ENDF
    moves = deep(65_000) + b"\xb8\x03\xe7\xb0\x01\x2a"
    # Numbers that decide far below where they are lost: one of 30 measured ones is a point after all have met.
    late = choice * 30 + b"\xb0\x1d\x26\x2e" + b"\x21" * 29
    return {
        "a sum of 1,000 measured numbers": font([b"\x4b" + b"\x4b\x60" * 1_000 + b"\x21"]),
        "200 choices, each popped": font([(choice + b"\x21") * 200]),
        "1,000 choices, kept": font([choice * 1_000]),
        "64 numbers compared": font([compared * 64]),
        "a measured count of turns": font([loop], FDEF + b"\xb0\x01\x21" + ENDF),
        "a cell counted up in such turns": font([b"\xb0\x00\xb0\x00\x42" + loop], counting),
        "65,000 cells, 998,001 MINDEX": font([moves], moving, stack=65_535),
        "30 choices, used after all": font([late]),
        "1,000 glyphs of 30 choices": font([late] * 1_000),
    }


def print_symbolic(path: pathlib.Path, seconds: int) -> None:
    """Prints what `verdict --symbolic` takes for each font."""
    print(f"{'font':40} {'bytes':>8} {'verdict':>10} {'memory':>8}  answer")
    for name, data in {**cases(), **symbolic_cases()}.items():
        path.write_bytes(data)
        spent, memory, line = measured(["verdict", "--symbolic", str(path)], seconds)
        print(f"{name:40} {len(data):8} {spent:8.2f} s {memory:5} MB ", line, flush=True)


def measured(words: list[str], seconds: int) -> tuple[float, int, str]:
    """The processor seconds of a run, its greatest memory in MB, and the first line that it prints."""
    limit = f'ulimit -t {seconds}; exec "$@"'
    shell = ["/usr/bin/time", "-f", "%U %S %M", "sh", "-c", limit, "", str(PROGRAM), *words]
    done = subprocess.run(shell, capture_output=True, text=True, check=False)
    user, system, memory = done.stderr.splitlines()[-1].split()
    lines = (done.stdout or done.stderr).splitlines()
    line = lines[0] if done.returncode < 4 else "no answer in time"
    return float(user) + float(system), int(memory) // 1024, line


def print_strict(path: pathlib.Path, certificate: pathlib.Path, seconds: int) -> None:
    """Prints what `verdict`, `find` and `check` take for each font."""
    print(f"{'font':40} {'bytes':>8} {'verdict':>10} {'memory':>8} {'check':>10} {'memory':>8} {'certificate':>12}  answer")
    for name, data in cases().items():
        path.write_bytes(data)
        spent, memory, line = measured(["verdict", str(path)], seconds)
        row = f"{name:40} {len(data):8} {spent:8.2f} s {memory:5} MB"
        if line.startswith("accepted"):
            found = measured(["find", str(path), str(certificate)], seconds)[2]
            if found == line:
                checked, room, told = measured(["check", str(path), str(certificate)], seconds)
                row += f" {checked:8.2f} s {room:5} MB {certificate.stat().st_size:12}"
                line += "" if told == line else f"; check: {told}"
            else:
                line += f"; find: {found}"
            certificate.unlink(missing_ok=True)
        print(row, "", line, flush=True)


def main() -> None:
    words = sys.argv[1:]
    is_symbolic = "--symbolic" in words
    numbers = [word for word in words if word != "--symbolic"]
    seconds = int(numbers[0]) if numbers else 60
    subprocess.run([TOP / "hintcheck", "--help"], stdout=subprocess.DEVNULL, check=True)
    resource.setrlimit(resource.RLIMIT_CORE, (0, 0))
    with tempfile.TemporaryDirectory() as folder:
        path = pathlib.Path(folder) / "font.ttf"
        if is_symbolic:
            print_symbolic(path, seconds)
        else:
            print_strict(path, pathlib.Path(folder) / "font.cert", seconds)


if __name__ == "__main__":
    main()
