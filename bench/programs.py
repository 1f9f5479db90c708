#!/usr/bin/env python3
"""Times hintcheck on programs that are long, or made to be slow: the best of three runs, in seconds of wall clock time.

Each is the one glyph program of a font file that is written to a temporary folder and handed to `hintcheck verdict`.
"""

import pathlib
import struct
import subprocess
import tempfile
import time

TOP = pathlib.Path(__file__).resolve().parent.parent
PROGRAM = TOP / "crates/hintcheck_cli/out/hintcheck_cli"


def font(glyph: bytes, fpgm: bytes = b"", stack: int = 1100) -> bytes:
    """A font file with a font program, an empty CVT program and one glyph of 4 points with this program."""
    head = bytearray(54)
    head[50:52] = b"\0\1"
    glyf = struct.pack(">h8xHH", 1, 3, len(glyph)) + glyph
    maxp = struct.pack(">I14H", 0x00010000, 1, 4, 1, 0, 0, 2, 4, 4, 2, 0, stack, 65535, 0, 0)
    tables = {
        b"cvt ": bytes(20),
        b"fpgm": fpgm,
        b"glyf": glyf,
        b"head": bytes(head),
        b"loca": struct.pack(">II", 0, len(glyf)),
        b"maxp": maxp,
        b"prep": b"",
    }
    directory = struct.pack(">IHHHH", 0x00010000, len(tables), 0, 0, 0)
    body = b""
    at = 12 + 16 * len(tables)
    for tag, data in tables.items():
        directory += tag + struct.pack(">III", 0, at + len(body), len(data))
        body += data + bytes(-len(data) % 4)
    return directory + body


def jump_to(target: int, here: int) -> bytes:
    """A jump to an offset from this one: PUSHW, JMPR."""
    return b"\xb8" + struct.pack(">h", target - (here + 3)) + b"\x1c"


def straight() -> bytes:
    """Pushes and pops, 60,000 bytes."""
    return b"\xb0\x00\x21" * 20_000


def storing() -> bytes:
    """A loop back from the end of 28,000 bytes, which makes a storage cell unknown at its second turn."""
    body = b"\xb0\x00\xb0\x00\x43\x60\x21" * 4_000 + b"\xb0\x00\xb0\x00\x43\xb0\x01\x60\x42"
    start = b"\xb1\x00\x07\x42"
    return start + body + jump_to(len(start), len(start) + len(body))


def rising() -> bytes:
    """A stack of 1,000 cells that turns, so that each turn of a loop makes one cell more unknown."""
    cells = b"\x40\xfa" + b"\x01" + bytes(249) + (b"\x40\xfa" + bytes(250)) * 3
    turn = b"\xb8" + struct.pack(">h", 1_000) + b"\x26"
    return cells + turn + jump_to(len(cells), len(cells) + len(turn))


def back_to_start() -> bytes:
    """6,400 conditional jumps back to the start."""
    program = b"\x4b\x21"
    while len(program) < 32_000:
        here = len(program)
        program += b"\xb8" + struct.pack(">h", -(here + 4)) + b"\x4b\x78"
    return program


def into_a_way(first: int, last: int, step: int) -> bytes:
    """A straight way of 8,000 instructions, and after it 4,000 conditional jumps to places inside, from the first to the last."""
    program = b"\x18" * 8_000
    for target in range(first, last, step):
        here = len(program)
        program += b"\xb8" + struct.pack(">h", target - (here + 4)) + b"\x4b\x78"
    return program


def deep() -> bytes:
    """51,000 cells, and a straight way of 14,000 instructions over them."""
    return (b"\x40\xff" + bytes(255)) * 200 + b"\x18" * 14_000


def turns(count: int) -> bytes:
    """LOOPCALL of function 0 with this many turns, 65,534 or a few more."""
    return b"\xb9\x7f\xff\x7f\xff\x60\xb0" + bytes([count - 65_534]) + b"\x60\xb0\x00\x2a"


CASES = {
    "straight, 60,000 bytes": font(straight()),
    "a loop over 28,000 bytes": font(storing()),
    "1,000 cells rise one by one": font(rising()),
    "6,400 jumps back to the start": font(back_to_start()),
    "4,000 jumps into a way, rising": font(into_a_way(1, 8_000, 2)),
    "4,000 jumps into a way, falling": font(into_a_way(7_999, 0, -2)),
    "51,000 cells over a straight way": font(deep(), stack=65_535),
    "LOOPCALL of 65,534 turns": font(turns(65_534), b"\xb0\x00\x2c\x2d"),
    "65,534 turns of 20 instructions": font(turns(65_534), b"\xb0\x00\x2c" + b"\x18" * 20 + b"\x2d"),
    "LOOPCALL of 65,535 turns": font(turns(65_535), b"\xb0\x00\x2c\x2d"),
}


def best(path: str) -> tuple[float, str]:
    """The shortest of three runs on a font file, and the first line of the answer."""
    times = []
    for _ in range(3):
        begin = time.perf_counter()
        answer = subprocess.run([PROGRAM, "verdict", path], capture_output=True, text=True, check=False)
        times.append(time.perf_counter() - begin)
    return min(times), (answer.stdout or answer.stderr).splitlines()[0]


def main() -> None:
    subprocess.run([TOP / "hintcheck", "--help"], stdout=subprocess.DEVNULL, check=True)
    with tempfile.TemporaryDirectory() as folder:
        for name, data in CASES.items():
            path = pathlib.Path(folder) / "font.ttf"
            path.write_bytes(data)
            seconds, answer = best(str(path))
            print(f"{name:32} {seconds:8.3f} s  {answer}")


if __name__ == "__main__":
    main()
