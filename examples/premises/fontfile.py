"""Makes small TrueType fonts from hint programs, with the tables that FreeType asks for.

A program is bytes. `push` and the functions after it write the programs of the fonts here, which
take an element of an empty stack, and so fault, where something isn't as a font says.
"""

import dataclasses
import struct

POINTS = 12
TWILIGHT = 8
STACK = 64
STORAGE = 8
CONTROLS = tuple(range(100, 801, 100))
FUNCTIONS = 64
UNITS_PER_EM = 1024

CALL, FDEF, ENDF = b"\x2b", b"\x2c", b"\x2d"
DEPTH, POP, DUP, ADD, EQ, AND = b"\x24", b"\x21", b"\x20", b"\x60", b"\x54", b"\x5a"
LTEQ, GTEQ = b"\x51", b"\x53"
# IF, ELSE, CLEAR, POP, EIF: takes a condition, and takes one element too many where it is 0.
REQUIRE = b"\x58\x1b\x22\x21\x59"


@dataclasses.dataclass(frozen=True)
class Glyph:
    """A glyph of so many points, or one made of these other glyphs, with its program."""

    name: str
    program: bytes
    components: tuple[int, ...] = ()
    points: int = POINTS


@dataclasses.dataclass(frozen=True)
class Font:
    """A font's programs, and what is expected of its loads where both sizes are equal and where
    they aren't: `holds` (no load fails), `fails` (one or more do), `faults` (all do), `scaled`
    (all do where FreeType scales by more than 32 bits, and none otherwise), or `any` (that differs
    from one FreeType to another). `way` is how premises.c loads it. `twilight` is
    maxTwilightPoints."""

    name: str
    glyphs: list[Glyph]
    fpgm: bytes = b""
    prep: bytes = b""
    equal: str = "holds"
    unequal: str = "holds"
    family: str = "Premises"
    way: str = "hinted"
    twilight: int = TWILIGHT
    controls: tuple[int, ...] = CONTROLS
    units_per_em: int = UNITS_PER_EM


def push_one(number: int) -> bytes:
    """Pushes a number of 32 bits; one of more than 16 is built up byte by byte."""
    if 0 <= number < 256:
        return bytes([0xB0, number])
    if -32768 <= number < 32768:
        return b"\xb8" + struct.pack(">h", number)
    return push_one(number >> 8) + (DUP + ADD) * 8 + push_one(number & 255) + ADD


def push(*numbers: int) -> bytes:
    """Pushes numbers, the last one on top."""
    return b"".join(push_one(number) for number in numbers)


def require_equal(number: int) -> bytes:
    """Takes a number, and faults where it is another one."""
    return push(number) + EQ + REQUIRE


def require_between(low: int, high: int) -> bytes:
    """Takes a number, and faults where it is outside this range."""
    return DUP + push(low) + GTEQ + REQUIRE + push(high) + LTEQ + REQUIRE


def function(number: int, body: bytes) -> bytes:
    """Defines a function."""
    return push(number) + FDEF + body + ENDF


def outline(program: bytes, points: int) -> bytes:
    """A simple glyph: this many points of one contour on a zigzag."""
    steps = [(80, 200 if point % 2 else -150) if point else (0, 0) for point in range(points)]
    flags = b"\x01" * points
    across = b"".join(struct.pack(">h", x) for x, _ in steps)
    upwards = b"".join(struct.pack(">h", y) for _, y in steps)
    box = struct.pack(">hhhhh", 1, 0, -150, 880, 450)
    ends = struct.pack(">HH", points - 1, len(program))
    return padded(box + ends + program + flags + across + upwards)


def composite(components: tuple[int, ...], program: bytes) -> bytes:
    """A glyph made of others, each moved to the right."""
    data = struct.pack(">hhhhh", -1, 0, 0, 1000, 1000)
    for place, glyph in enumerate(components):
        last = place + 1 == len(components)
        flags = 0x0002 | (0x0100 if last else 0x0020)
        data += struct.pack(">HHbb", flags, glyph, 10 * place, 0)
    return padded(data + struct.pack(">H", len(program)) + program)


def padded(data: bytes) -> bytes:
    """The data, and zeros up to a multiple of 4."""
    return data + bytes(-len(data) % 4)


def glyph_names(glyphs: list[Glyph]) -> bytes:
    """The `post` table with the glyphs' names, which tell what each of them tries."""
    header = struct.pack(">IIhhIIIII", 0x00020000, 0, 0, 0, 0, 0, 0, 0, 0)
    numbers = b"".join(struct.pack(">H", 258 + place) for place in range(len(glyphs)))
    texts = b"".join(bytes([len(glyph.name)]) + glyph.name.encode() for glyph in glyphs)
    return header + struct.pack(">H", len(glyphs)) + numbers + texts


def head_table(units_per_em: int) -> bytes:
    """The `head` table, with long offsets in `loca`."""
    start = struct.pack(">IIII", 0x00010000, 0, 0, 0x5F0F3CF5)
    box = struct.pack(">hhhh", 0, -150, 1000, 1000)
    end = struct.pack(">HHhhh", 0, 8, 2, 1, 0)
    return start + struct.pack(">HH16x", 0, units_per_em) + box + end


def maxp_table(glyphs: int, longest: int, twilight: int) -> bytes:
    """The `maxp` table, for programs of at most `longest` bytes."""
    outlines = (POINTS, 1, 4 * POINTS, 4)
    programs = (2, twilight, STORAGE, FUNCTIONS, 0, STACK, longest, 4, 1)
    return struct.pack(">I14H", 0x00010000, glyphs, *outlines, *programs)


def name_table(family: str) -> bytes:
    """The `name` table, with the family name alone."""
    text = family.encode("utf-16-be")
    record = struct.pack(">6H", 3, 1, 0x0409, 1, len(text), 0)
    return struct.pack(">3H", 0, 1, 18) + record + text


def tables_of(font: Font) -> dict[bytes, bytes]:
    """The tables of a font's file."""
    glyphs = [composite(glyph.components, glyph.program) if glyph.components
              else outline(glyph.program, glyph.points) for glyph in font.glyphs]
    places = [0]
    for glyph in glyphs:
        places.append(places[-1] + len(glyph))
    count = len(glyphs)
    longest = max(len(glyph.program) for glyph in font.glyphs)
    return {
        b"cvt ": struct.pack(f">{len(font.controls)}h", *font.controls),
        b"fpgm": font.fpgm,
        b"glyf": b"".join(glyphs),
        b"head": head_table(font.units_per_em),
        b"hhea": struct.pack(">IhhhH11hH", 0x00010000, 800, -200, 0, 1000, *[0] * 11, 1),
        b"hmtx": struct.pack(">Hh", 1000, 0) + bytes(2 * (count - 1)),
        b"loca": struct.pack(f">{count + 1}I", *places),
        b"maxp": maxp_table(count, longest, font.twilight),
        b"name": name_table(font.family),
        b"post": glyph_names(font.glyphs),
        b"prep": font.prep,
    }


def file_of(font: Font) -> bytes:
    """The bytes of a font's file."""
    tables = tables_of(font)
    directory = struct.pack(">IHHHH", 0x00010000, len(tables), 0, 0, 0)
    body = b""
    start = 12 + 16 * len(tables)
    for tag, data in tables.items():
        directory += tag + struct.pack(">III", 0, start + len(body), len(data))
        body += padded(data)
    return directory + body
