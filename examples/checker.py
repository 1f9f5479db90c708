#!/usr/bin/env python3
"""A second checker of certificates, written from the pages and not from hintcheck's code.

Usage: checker.py FONT CERTIFICATE
It answers as `hintcheck check FONT CERTIFICATE` does, with the same exit status. It is made to be
read beside docs/FORMAT.md: first the font, then programs, the certificate, one instruction on what
is known, and the check. It takes its time, and no memory is refused to it.
"""

import dataclasses
import struct
import sys

TEXTS = {
    20: "cannot cut", 21: "structure", 22: "program too long", 23: "opcode",
    24: "instruction definition", 25: "recursion", 26: "underflow", 27: "overflow",
    28: "unknown operand", 29: "cvt", 30: "storage", 31: "function", 32: "point", 33: "zone",
    34: "contour", 35: "target", 36: "count", 37: "definition", 41: "missing point",
    42: "not covered",
}
LEAST, GREATEST = -(1 << 31), (1 << 31) - 1
# What is added to the offset of a body in the CVT program.
CVT_BODIES = 1 << 31
# A zone pointer that may name either zone.
EITHER = 2

Cell = int | None


class Fault(Exception):
    """There is no answer: a fault of the font, of the certificate's form, or of a file."""


class Refusal(Exception):
    """An instruction is refused, for the reason of this number."""


class Broken(Exception):
    """A program is refused: why, in which program (None: itself), and at which offset."""

    def __init__(self, reason: int, program: str | None, offset: int):
        super().__init__(reason, program, offset)
        self.reason, self.program, self.offset = reason, program, offset


# The font.


@dataclasses.dataclass(frozen=True)
class Limits:
    """What `maxp` and the length of `cvt ` allow."""

    zones: int
    twilight: int
    storage: int
    functions: int
    stack: int
    program: int
    controls: int


@dataclasses.dataclass(frozen=True)
class Glyph:
    """A glyph's program, how many points and contours it has itself, and its components."""

    program: bytes
    points: int = 0
    contours: int = 0
    components: tuple[int, ...] = ()


@dataclasses.dataclass(frozen=True)
class Font:
    """What is checked of a font."""

    limits: Limits
    font_program: bytes
    cvt_program: bytes
    glyphs: list[Glyph]


def font_tables(data: bytes) -> dict[bytes, tuple[int, int]]:
    """Where the tables are: the first record with a tag counts."""
    if len(data) < 12:
        raise Fault("2 directory truncated")
    if data[:4] not in (b"\0\1\0\0", b"true"):
        raise Fault("1 not an sfnt file")
    count = struct.unpack_from(">H", data, 4)[0]
    if len(data) < 12 + 16 * count:
        raise Fault("2 directory truncated")
    records: dict[bytes, tuple[int, int]] = {}
    for record in range(count):
        tag, _, offset, length = struct.unpack_from(">4sIII", data, 12 + 16 * record)
        records.setdefault(tag, (offset, length))
    return records


def table(data: bytes, records: dict, tag: bytes, least: int = 0, needed: bool = True) -> bytes:
    """A table's bytes, at least so many."""
    name = tag.decode()
    if tag not in records:
        if needed:
            raise Fault(f"3 missing table '{name}'")
        return b""
    offset, length = records[tag]
    if offset + length > len(data) or length < least:
        raise Fault(f"4 table outside '{name}'")
    return data[offset:offset + length]


def glyph_places(loca: bytes, glyf: bytes, count: int, long: int) -> list[int]:
    """The entries of `loca`, as offsets in `glyf`."""
    if long not in (0, 1):
        raise Fault("6 loca entry 0")
    size, form, unit = (4, ">I", 1) if long else (2, ">H", 2)
    places: list[int] = []
    for entry in range(count + 1):
        if size * (entry + 1) > len(loca):
            raise Fault(f"6 loca entry {entry}")
        place = unit * struct.unpack_from(form, loca, size * entry)[0]
        if place > len(glyf) or (places and place < places[-1]):
            raise Fault(f"6 loca entry {entry}")
        places.append(place)
    return places


def simple_glyph(data: bytes, contours: int) -> Glyph:
    """A glyph with an outline of its own. Too few bytes are a struct.error."""
    if contours == 0 and len(data) == 10:
        return Glyph(b"")
    at = 10 + 2 * contours
    length = struct.unpack_from(">H", data, at)[0]
    points = struct.unpack_from(">H", data, at - 2)[0] + 1 if contours else 0
    return Glyph(struct.unpack_from(f"{length}s", data, at + 2)[0], points, contours)


def composite_glyph(data: bytes) -> Glyph:
    """A glyph that is made of others. Too few bytes are a struct.error."""
    at, flags, components = 10, 0x20, []
    while flags & 0x20:
        flags, glyph = struct.unpack_from(">HH", data, at)
        components.append(glyph)
        scale = 2 if flags & 0x08 else 4 if flags & 0x40 else 8 if flags & 0x80 else 0
        size = 4 + (4 if flags & 0x01 else 2) + scale
        struct.unpack_from(f"{size}s", data, at)
        at += size
    program = b""
    if flags & 0x100:
        length = struct.unpack_from(">H", data, at)[0]
        program = struct.unpack_from(f"{length}s", data, at + 2)[0]
    return Glyph(program, components=tuple(components))


def read_glyph(data: bytes, number: int) -> Glyph:
    """A glyph's own bytes."""
    if not data:
        return Glyph(b"")
    try:
        contours = struct.unpack_from(">h8x", data)[0]
        return simple_glyph(data, contours) if contours >= 0 else composite_glyph(data)
    except struct.error:
        raise Fault(f"7 glyph {number} truncated") from None


def with_sums(glyphs: list[Glyph]) -> list[Glyph]:
    """The glyphs, each with the points and contours of its components, over 16 steps at most."""
    sums = [None if glyph.components else (glyph.points, glyph.contours) for glyph in glyphs]
    for _ in range(16):
        before = sums[:]
        for number, glyph in enumerate(glyphs):
            parts = [before[part] if part < len(glyphs) else None for part in glyph.components]
            if before[number] is None and None not in parts:
                sums[number] = (sum(part[0] for part in parts), sum(part[1] for part in parts))
    for number, total in enumerate(sums):
        if total is None or max(total) > 65535:
            raise Fault(f"8 composite {number}")
    return [dataclasses.replace(glyph, points=total[0], contours=total[1])
            for glyph, total in zip(glyphs, sums)]


def read_font(data: bytes) -> Font:
    """A font file; its first fault in the order in which they are tested."""
    records = font_tables(data)
    maxp = table(data, records, b"maxp", 4)
    if maxp[:4] != b"\0\1\0\0":
        raise Fault("5 maxp version")
    maxp = table(data, records, b"maxp", 32)
    head = table(data, records, b"head", 54)
    loca, glyf = table(data, records, b"loca"), table(data, records, b"glyf")
    cvt, fpgm, prep = (table(data, records, tag, needed=False)
                       for tag in (b"cvt ", b"fpgm", b"prep"))
    fields = struct.unpack_from(">14H", maxp, 4)
    places = glyph_places(loca, glyf, fields[0], struct.unpack_from(">h", head, 50)[0])
    glyphs = [read_glyph(glyf[start:end], number)
              for number, (start, end) in enumerate(zip(places, places[1:]))]
    limits = Limits(*fields[5:9], *fields[10:12], controls=len(cvt) // 2)
    return Font(limits, fpgm, prep, with_sums(glyphs))


# Programs.


@dataclasses.dataclass(frozen=True)
class Instruction:
    """A code, the numbers that it pushes, and the offset after it."""

    code: int
    numbers: tuple[int, ...]
    after: int


@dataclasses.dataclass
class Program:
    """A program's instructions by offset; the body of each (None: the main program); and where an
    IF whose condition is 0, an ELSE that is reached, and a definition lead."""

    length: int
    instructions: dict[int, Instruction]
    bodies: dict[int, int | None]
    partners: dict[int, int]


def cut(data: bytes) -> dict[int, Instruction]:
    """The instructions of a program."""
    instructions, at = {}, 0
    while at < len(data):
        code, count, words, start = data[at], 0, False, at + 1
        if code in (0x40, 0x41):
            count, words, start = (data[start:start + 1] or b"\xff")[0], code == 0x41, at + 2
        elif 0xB0 <= code <= 0xBF:
            count, words = (code & 7) + 1, code >= 0xB8
        after = start + count * (2 if words else 1)
        if after > len(data):
            raise Broken(20, None, at)
        numbers = struct.unpack_from(f">{count}{'h' if words else 'B'}", data, start)
        instructions[at] = Instruction(code, numbers, after)
        at = after
    return instructions


def structured(length: int, instructions: dict[int, Instruction]) -> Program:
    """The program, where its IFs and definitions nest."""
    program = Program(length, instructions, {}, {})
    # What is open: the code and its offset, the definition first, then IFs of its body.
    opened: list[tuple[int, int]] = []
    body: int | None = None
    for at, instruction in instructions.items():
        code = instruction.code
        program.bodies[at] = body
        in_body = any(kind in (0x2C, 0x89) for kind, _ in opened)
        if code in (0x58, 0x2C, 0x89):
            if code != 0x58 and in_body:
                raise Broken(21, None, at)
            opened.append((code, at))
            if code != 0x58:
                # No function has the body after an IDEF: no frame names a negative offset.
                body = instruction.after if code == 0x2C else -instruction.after
        elif code in (0x1B, 0x59, 0x2D):
            wanted = {0x1B: (0x58,), 0x59: (0x58, 0x1B), 0x2D: (0x2C, 0x89)}[code]
            if not opened or opened[-1][0] not in wanted:
                raise Broken(21, None, at)
            program.partners[opened.pop()[1]] = instruction.after
            if code == 0x1B:
                opened.append((code, at))
            elif code == 0x2D:
                body = None
    if opened:
        raise Broken(21, None, length)
    return program


def read_program(data: bytes) -> Program:
    """A program, cut and structured."""
    return structured(len(data), cut(data))


# The certificate.


@dataclasses.dataclass
class State:
    """What is known at a place: cells of the stack, the bottom first, and so on."""

    stack: list[Cell]
    references: list[Cell]
    zones: list[int]
    loop: Cell
    functions: dict[int, int]
    storage: dict[int, int]

    def copy(self) -> "State":
        """A state of its own; what is known of functions is never changed in place."""
        return State(self.stack[:], self.references[:], self.zones[:], self.loop, self.functions,
                     dict(self.storage))


@dataclasses.dataclass(frozen=True, order=True)
class Call:
    """The last call of a context, whose other calls are those of the parent."""

    parent: int
    call: int
    body: int
    turn: int
    count: int


@dataclasses.dataclass
class Family:
    """A section: the contexts, of which the main one comes first, and the states by context."""

    calls: list[Call | None]
    states: list[dict[int, State]]

    def __post_init__(self) -> None:
        self.numbers = {call: number for number, call in enumerate(self.calls)}

    def bodies(self, context: int) -> list[int]:
        """The bodies that run in a context, the innermost first."""
        bodies = []
        while call := self.calls[context]:
            bodies.append(call.body)
            context = call.parent
        return bodies


class Reader:
    """Reads a certificate unit by unit; a fault names a place in it."""

    def __init__(self, data: bytes):
        self.data, self.at, self.form, self.place = data, 0, 0, 0

    def fault(self, place: int) -> Fault:
        """The fault of form at a place."""
        return Fault(f"43 certificate form at byte {place}")

    def unit(self, form: str) -> tuple[int, ...]:
        """The numbers of the next unit, whose place is kept."""
        size = struct.calcsize(form)
        self.place = self.at
        if self.at + size > len(self.data):
            raise self.fault(len(self.data))
        self.at += size
        return struct.unpack_from(form, self.data, self.place)

    def rule(self, holds: bool) -> None:
        """Something that the last unit must keep."""
        if not holds:
            raise self.fault(self.place)

    def header(self, sections: int) -> None:
        """The header of a certificate with so many sections."""
        self.rule(self.unit(">I")[0] == 0x48435254)
        self.form = self.unit(">H")[0]
        self.rule(1 <= self.form <= 4)
        self.rule(self.unit(">I")[0] == sections)

    def end(self) -> None:
        """The end of the certificate."""
        if self.at < len(self.data):
            raise self.fault(self.at)

    def cell(self) -> Cell:
        """A cell."""
        tag = self.unit(">B")[0]
        self.rule(tag < 2)
        return self.unit(">i")[0] if tag else None

    def zone(self) -> int:
        """A zone pointer."""
        zone = self.unit(">B")[0]
        self.rule(zone <= EITHER)
        return zone

    def entries(self, form: str) -> dict[int, int]:
        """A list of entries by ascending number."""
        entries: dict[int, int] = {}
        last = -1
        for _ in range(self.unit(">H")[0]):
            number, value = self.unit(form)
            self.rule(number > last)
            entries[number] = value
            last = number
        return entries

    def state(self) -> State:
        """A state, without its place."""
        stack = [self.cell() for _ in range(self.unit(">H")[0])]
        references = [self.cell() for _ in range(3)]
        zones = [self.zone() for _ in range(3)]
        loop, functions = self.cell(), self.entries(">HI")
        return State(stack, references, zones, loop, functions,
                     self.entries(">Hi") if self.form > 2 else {})

    def contexts(self) -> Family:
        """The contexts of a section, so far without states."""
        family = Family([None], [])
        count = self.unit(">H")[0]
        self.rule(count <= (65534 if self.form == 4 else 4095))
        for number in range(1, count + 1):
            call = Call(*self.unit(">HIIII"))
            self.rule(call.parent < number and 1 <= call.turn <= call.count <= GREATEST)
            self.rule(number == 1 or family.calls[-1] < call)
            self.rule(call.body not in family.bodies(call.parent))
            family.calls.append(call)
        return Family(family.calls, [{} for _ in family.calls])

    def section(self, kind: int, glyph: int) -> Family:
        """The section of a program."""
        start = self.at
        name = self.unit(">BH")
        self.rule(name[0] == 2 or name in ((0, 0), (1, 0)))
        family = self.contexts()
        last = (0, -1)
        for _ in range(self.unit(">I")[0]):
            context, offset = self.unit(">HI")
            self.rule(context < len(family.calls) and (context, offset) > last)
            family.states[context][offset] = self.state()
            last = (context, offset)
        if name != (kind, glyph):
            raise self.fault(start)
        return family


# One instruction, on what is known.
#
# A line: codes | operands, the top first | reference points used | changes | pushes.
# Operands: N any number, C a control value, S a storage cell, Z a zone, K a contour, P1 a point of
# the zone of zp1, P12 of those of zp1 and zp2, PG0 of the glyph zone and that of zp0; *P2 as many
# points as the loop number says; #P0 a count and as many pairs of a point and a number.
# 1@0: rp1 in the zone of zp0. r1=r0: rp1 becomes rp0; r0=1: rp0 becomes operand 1, counted from 0;
# z0=0: so does zp0; s1=0: the storage cell of operand 1 becomes operand 0; l=0: the loop number
# becomes operand 0; l: it becomes 1. ?: a number of which nothing is known; s0: what is stored.
TABLE = """
00-05 0E 18 19 30 31 3D 4D 4E 59 7A 7C 7D | | | |
1A 1D-1F 4F 5E 5F 76 77 7E 7F 85 8D | N | | |
0A 0B 8E | N N | | |
06-09 86 87 | P12 P12 | | |
0C 0D | | | | ? ?
0F | P0 P0 P1 P1 P2 | | |
10 | N | | r0=0 |
11 | N | | r1=0 |
12 | N | | r2=0 |
13 | Z | | z0=0 |
14 | Z | | z1=0 |
15 | Z | | z2=0 |
16 | Z | | z0=0 z1=0 z2=0 |
17 | N | | l=0 |
27 | P01 P01 | | |
29 | P0 | | |
2E 2F | P0 | | r0=0 r1=0 |
32 | *P2 | 2@1 | l |
33 | *P2 | 1@0 | l |
34 | K | 2@1 | |
35 | K | 1@0 | |
36 | Z | 2@1 | |
37 | Z | 1@0 | |
38 | N *P2 | | l |
39 | *P2 | 1@0 2@1 | l |
3A | N P1 | 0@0 | r1=r0 r2=1 |
3B | N P1 | 0@0 | r1=r0 r2=1 r0=1 |
3C | *P1 | 0@0 | l |
3E 3F | C P0 | | r0=1 r1=1 |
42 | N S | | s1=0 |
43 | S | | | s0
44 70 | N C | | |
45 | C | | | ?
46 47 | P2 | | | ?
48 | N P2 | | |
49 4A | P01 P01 | | | ?
4B 4C | | | | ?
5D 71 72 | #P0 | | |
73-75 | #C | | |
56 57 66-6F 88 | N | | | ?
62 63 8B 8C | N N | | | ?
80 | *PG0 | | l |
81 82 | PG0 PG0 | | |
C0-CF | P1 | 0@0 | r1=r0 r2=0 |
D0-DF | P1 | 0@0 | r1=r0 r2=0 r0=0 |
E0-EF | C P1 | 0@0 | r1=r0 r2=1 |
F0-FF | C P1 | 0@0 | r1=r0 r2=1 r0=1 |
"""


def lines_by_code() -> dict[int, list[list[str]]]:
    """The line of each code of the table."""
    lines = {}
    for line in TABLE.strip().splitlines():
        codes, *columns = line.split("|")
        for word in codes.split():
            first, _, last = word.partition("-")
            for code in range(int(first, 16), int(last or first, 16) + 1):
                lines[code] = [column.split() for column in columns]
    return lines


LINES = lines_by_code()


@dataclasses.dataclass(frozen=True)
class Setting:
    """A program that is checked: its kind (0 font program, 1 CVT program, 2 glyph program), the
    programs that are there, and how many points and contours the glyph zone has."""

    limits: Limits
    kind: int
    main: Program
    font: Program
    prep: Program
    points: int
    contours: int


def known(cell: Cell) -> int:
    """The number of a cell that must be looked into."""
    if cell is None:
        raise Refusal(28)
    return cell


def require(holds: bool, reason: int) -> None:
    """A test of an instruction."""
    if not holds:
        raise Refusal(reason)


class Step:
    """Carries out instructions on states, which it changes."""

    def __init__(self, setting: Setting, state: State):
        self.setting, self.limits, self.state = setting, setting.limits, state

    def pop(self) -> Cell:
        """Takes the top of the stack."""
        require(bool(self.state.stack), 26)
        return self.state.stack.pop()

    def push(self, *cells: Cell) -> None:
        """Pushes cells, the last one on top."""
        self.state.stack.extend(cells)

    def below(self, bounds: tuple[int, int], zone: int, number: int) -> bool:
        """Whether a number is below a bound, of zone 0 and of zone 1, wherever a pointer points."""
        return 0 <= number < (min(bounds) if zone == EITHER else bounds[zone])

    def is_point(self, pointers: str, number: int) -> bool:
        """Whether a point is in the zones of these pointers; G is the glyph zone."""
        sizes = (self.limits.twilight, self.setting.points)
        zones = [1 if pointer == "G" else self.state.zones[int(pointer)] for pointer in pointers]
        return all(self.below(sizes, zone, number) for zone in zones)

    def operand(self, kind: str) -> Cell:
        """Takes one operand and tests it."""
        cell = self.pop()
        if kind == "N":
            return cell
        number = known(cell)
        if kind[0] == "P":
            require(self.is_point(kind[1:], number), 32)
        elif kind == "C":
            require(0 <= number < self.limits.controls, 29)
        elif kind == "S":
            require(0 <= number < self.limits.storage, 30)
        elif kind == "Z":
            require(number == 1 or number == 0 and self.limits.zones >= 2, 33)
        elif kind == "K":
            contours = (1, self.setting.contours)
            require(self.below(contours, self.state.zones[2], number), 34)
        return cell

    def operands(self, kinds: list[str]) -> list[Cell]:
        """Takes the operands of a line; no change of a line reads one after a list of them."""
        taken: list[Cell] = []
        for kind in kinds:
            if kind[0] == "*":
                count = known(self.state.loop)
                require(count >= 0, 36)
                for _ in range(count):
                    self.operand(kind[1:])
            elif kind[0] == "#":
                count = known(self.pop())
                require(count >= 0, 36)
                for _ in range(count):
                    self.operand(kind[1:])
                    self.pop()
            else:
                taken.append(self.operand(kind))
        return taken

    def change(self, change: str, taken: list[Cell]) -> None:
        """Makes one change of a line."""
        what, _, source = change.partition("=")
        state = self.state
        if what == "l":
            state.loop = taken[int(source)] if source else 1
        elif what[0] == "s":
            index, number = taken[int(what[1])], taken[int(source)]
            state.storage.pop(index, None)
            if number is not None:
                state.storage[index] = number
        elif what[0] == "z":
            state.zones[int(what[1])] = taken[int(source)]
        elif source[0] == "r":
            state.references[int(what[1])] = state.references[int(source[1])]
        else:
            state.references[int(what[1])] = taken[int(source)]

    def plain(self, line: list[list[str]]) -> None:
        """A line of the table."""
        operands, uses, changes, pushes = line
        taken = self.operands(operands)
        for use in uses:
            point = known(self.state.references[int(use[0])])
            require(self.is_point(use[2], point), 32)
        for change in changes:
            self.change(change, taken)
        for pushed in pushes:
            self.push(None if pushed == "?" else self.state.storage.get(taken[0]))

    def element(self) -> int:
        """Takes an index of CINDEX or MINDEX: the position of the element that it names."""
        index = known(self.pop())
        require(index >= 1, 36)
        require(index <= len(self.state.stack), 26)
        return len(self.state.stack) - index

    def shuffle(self, code: int) -> None:
        """A stack instruction."""
        stack = self.state.stack
        if code == 0x20:
            top = self.pop()
            self.push(top, top)
        elif code == 0x21:
            self.pop()
        elif code == 0x22:
            stack.clear()
        elif code == 0x24:
            self.push(len(stack))
        elif code == 0x25:
            self.push(stack[self.element()])
        elif code == 0x26:
            self.push(stack.pop(self.element()))
        else:
            upper = [self.pop() for _ in range(2 if code == 0x23 else 3)]
            self.push(*(upper if code == 0x23 else (upper[1], upper[0], upper[2])))

    def compute(self, code: int) -> None:
        """Arithmetic, comparisons and logical functions."""
        b = self.pop()
        if code in (0x5C, 0x64, 0x65):
            self.push(None if b is None else
                      exact({0x5C: int(b == 0), 0x64: abs(b), 0x65: -b}[code]))
        else:
            self.push(of_two(code, self.pop(), b))

    def perform(self, instruction: Instruction) -> None:
        """An instruction after which the next one comes."""
        code = instruction.code
        if instruction.numbers or code in (0x40, 0x41):
            self.push(*instruction.numbers)
        elif code in LINES:
            self.plain(LINES[code])
        elif code in (0x20, 0x21, 0x22, 0x23, 0x24, 0x25, 0x26, 0x8A):
            self.shuffle(code)
        elif code in (0x5A, 0x5B, 0x5C, 0x60, 0x61, 0x64, 0x65) or 0x50 <= code <= 0x55:
            self.compute(code)
        else:
            raise Refusal(24 if code == 0x89 else 23)

    def test_depth(self) -> None:
        """The test after each instruction."""
        require(len(self.state.stack) <= self.limits.stack, 27)


def exact(number: int) -> Cell:
    """A result, where it is a number of 32 bits."""
    return number if LEAST <= number <= GREATEST else None


def of_two(code: int, a: Cell, b: Cell) -> Cell:
    """What is computed of two cells, b from the top: known where it is the same for all numbers."""
    if code in (0x5A, 0x5B):
        deciding = [cell for cell in (a, b) if cell is not None and bool(cell) == (code == 0x5B)]
        if deciding or None not in (a, b):
            return int(bool(deciding) == (code == 0x5B))
        return None
    if code in (0x60, 0x61):
        return None if None in (a, b) else exact(a + b if code == 0x60 else a - b)
    if code in (0x54, 0x55):
        return None if None in (a, b) else int((a == b) == (code == 0x54))
    return compared(code, a, b)


def compared(code: int, a: Cell, b: Cell) -> Cell:
    """LT, LTEQ, GT or GTEQ, by the least and the greatest number that each operand may be."""
    if code in (0x52, 0x53):
        code, a, b = code - 2, b, a
    least_a, most_a = (LEAST, GREATEST) if a is None else (a, a)
    least_b, most_b = (LEAST, GREATEST) if b is None else (b, b)
    margin = 1 if code == 0x50 else 0
    if most_a + margin <= least_b:
        return 1
    return 0 if least_a + margin > most_b else None


# The check.


@dataclasses.dataclass(frozen=True)
class Next:
    """Where an instruction leads: a context, or None with the call that it would be; an offset."""

    context: int | None
    call: Call | None
    offset: int


class Check:
    """Checks one program by a family."""

    def __init__(self, setting: Setting, family: Family, leaves_out: bool):
        self.setting, self.family, self.leaves_out = setting, family, leaves_out

    def program(self, context: int) -> tuple[Program, int | None]:
        """The program in which a context's body is, and the body."""
        call = self.family.calls[context]
        if call is None:
            return self.setting.main, None
        in_prep = call.body >= CVT_BODIES
        return (self.setting.prep if in_prep else self.setting.font), call.body % CVT_BODIES

    def starts(self, context: int, offset: int) -> bool:
        """Whether an instruction of the context's body starts at the offset."""
        program, body = self.program(context)
        return offset in program.instructions and program.bodies[offset] == body

    def is_end(self, context: int, offset: int) -> bool:
        """Whether this is the end of the main program."""
        return context == 0 and offset == self.setting.main.length

    def broken(self, reason: int, call: Call | None, offset: int) -> Broken:
        """A refusal at an offset of the body of a context with this last call."""
        program = None if call is None else "p" if call.body >= CVT_BODIES else "f"
        return Broken(reason, program, min(offset, 0xFFFFFFFF))

    def run(self, functions: dict[int, int]) -> dict[int, int] | None:
        """Checks all; the functions that are known at the end, if there is a state."""
        main, states = self.setting.main, self.family.states
        if self.setting.kind == 2 and main.length > self.setting.limits.program:
            raise Broken(22, None, self.setting.limits.program)
        start = State([], [0, 0, 0], [1, 1, 1], 1, functions, {})
        self.meet(start, Next(0, None, 0))
        end = states[0].get(main.length)
        if self.setting.kind < 2 and end is None:
            raise Broken(41, None, main.length)
        for context in range(len(states)):
            self.walk(context)
        return end and end.functions

    def walk(self, context: int) -> None:
        """The states of a context, and those that are left out, by ascending offset."""
        carried: tuple[int, State] | None = None
        for listed in sorted(self.family.states[context]):
            while carried and carried[0] < listed:
                carried = self.visit(context, *carried)
            carried = self.visit(context, listed, self.family.states[context][listed].copy())
        while carried:
            carried = self.visit(context, *carried)

    def visit(self, context: int, offset: int, state: State) -> tuple[int, State] | None:
        """Carries on from a place; what is left out just after it, if anything is."""
        call = self.family.calls[context]
        if any(index >= self.setting.limits.storage for index in state.storage):
            raise self.broken(30, call, offset)
        if self.is_end(context, offset):
            return None
        if not self.starts(context, offset):
            raise self.broken(35, call, offset)
        instruction = self.program(context)[0].instructions[offset]
        try:
            nexts = self.step(context, offset, instruction, state)
        except Refusal as refusal:
            raise self.broken(refusal.args[0], call, offset) from None
        carried = None
        for place in nexts:
            just_after = place.context == context and place.offset == instruction.after
            if self.may_be_left_out(place) and just_after:
                carried = (place.offset, state)
            else:
                self.meet(state, place)
        return carried

    def may_be_left_out(self, place: Next) -> bool:
        """Whether there is no state, where there need be none if one instruction leads there."""
        return (self.leaves_out and place.context is not None
                and place.offset not in self.family.states[place.context]
                and not self.is_end(place.context, place.offset))

    def meet(self, state: State, place: Next) -> None:
        """The family must cover what comes to a place."""
        listed = None
        call = place.call
        if place.context is not None:
            listed = self.family.states[place.context].get(place.offset)
            call = self.family.calls[place.context]
        if listed is None:
            raise self.broken(41, call, place.offset)
        if not covers(listed, state):
            raise self.broken(42, call, place.offset)

    def step(self, context: int, at: int, instruction: Instruction, state: State) -> list[Next]:
        """Carries out an instruction, and says where it leads, the smaller offset first."""
        step, code = Step(self.setting, state), instruction.code
        if code in (0x58, 0x1B, 0x1C, 0x78, 0x79):
            offsets = self.jump(context, at, code, step)
            return [Next(context, None, offset) for offset in sorted(offsets)]
        if code in (0x2A, 0x2B):
            nexts = self.call(context, at, code, step)
        elif code == 0x2D:
            nexts = self.return_from(context)
        elif code == 0x2C:
            self.define(at, step)
            nexts = [Next(context, None, self.setting.main.partners[at])]
        else:
            step.perform(instruction)
            nexts = [Next(context, None, instruction.after)]
        step.test_depth()
        return nexts

    def jump(self, context: int, at: int, code: int, step: Step) -> set[int]:
        """IF, ELSE, JMPR, JROT and JROF: the offsets to which they lead."""
        partner = self.program(context)[0].partners.get(at)
        if code == 0x1B:
            step.test_depth()
            return {partner}
        condition = 1 if code == 0x1C else step.pop()
        if code == 0x58:
            step.test_depth()
            return {at + 1, partner} if condition is None else {at + 1 if condition else partner}
        distance = step.pop()
        step.test_depth()
        ways = set()
        if condition is None or bool(condition) == (code == 0x79):
            ways.add(at + 1)
        if condition is None or bool(condition) != (code == 0x79):
            target = at + known(distance)
            require(self.starts(context, target) or self.is_end(context, target), 35)
            ways.add(target)
        return ways

    def call(self, context: int, at: int, code: int, step: Step) -> list[Next]:
        """CALL and LOOPCALL."""
        number = known(step.pop())
        require(0 <= number < self.setting.limits.functions, 31)
        require(number in step.state.functions, 31)
        body = step.state.functions[number]
        count = 1 if code == 0x2B else known(step.pop())
        step.test_depth()
        if count < 1:
            return [Next(context, None, at + 1)]
        require(body not in self.family.bodies(context), 25)
        call = Call(context, at, body, 1, count)
        return [Next(self.family.numbers.get(call), call, body % CVT_BODIES)]

    def return_from(self, context: int) -> list[Next]:
        """ENDF: to the next turn, or to just after the call."""
        call = self.family.calls[context]
        if call.turn == call.count:
            return [Next(call.parent, None, call.call + 1)]
        again = dataclasses.replace(call, turn=call.turn + 1)
        return [Next(self.family.numbers.get(again), again, call.body % CVT_BODIES)]

    def define(self, at: int, step: Step) -> None:
        """FDEF."""
        require(self.setting.kind < 2, 37)
        number = known(step.pop())
        require(0 <= number < self.setting.limits.functions, 31)
        body = at + 1 + (CVT_BODIES if self.setting.kind == 1 else 0)
        step.state.functions = step.state.functions | {number: body}


def covers(listed: State, state: State) -> bool:
    """Whether what is listed covers what comes."""
    cells = [*zip(listed.stack, state.stack), *zip(listed.references, state.references),
             (listed.loop, state.loop)]
    return (len(listed.stack) == len(state.stack)
            and all(upper is None or upper == lower for upper, lower in cells)
            and all(upper in (EITHER, lower) for upper, lower in zip(listed.zones, state.zones))
            and listed.functions.items() <= state.functions.items()
            and listed.storage.items() <= state.storage.items())


def refused_line(name: str, broken: Broken) -> str:
    """The line of a refused program."""
    place = f"{broken.program or name}:{broken.offset}"
    return f"refused {name} at {place}: {broken.reason} {TEXTS[broken.reason]}"


class Certificate:
    """Checks a font's programs one after another."""

    def __init__(self, font: Font, data: bytes):
        self.font, self.reader = font, Reader(data)
        self.reader.header(len(font.glyphs) + 2)

    def check(self, setting: Setting, family: Family, functions: dict) -> dict[int, int] | None:
        """Checks a program, and says which functions are known at its end."""
        return Check(setting, family, self.reader.form > 1).run(functions)

    def answer(self) -> tuple[list[str], bool]:
        """The lines of the verdict, and whether all is accepted."""
        limits, count = self.font.limits, len(self.font.glyphs)
        family = self.reader.section(0, 0)
        try:
            font = read_program(self.font.font_program)
            known_then = self.check(Setting(limits, 0, font, font, font, 0, 0), family, {})
        except Broken as broken:
            return [refused_line("f", broken), "refused: font program"], False
        family = self.reader.section(1, 0)
        try:
            prep = read_program(self.font.cvt_program)
            known_then = self.check(Setting(limits, 1, prep, font, prep, 0, 0), family, known_then)
        except Broken as broken:
            return [refused_line("p", broken), "refused: cvt program"], False
        lines = []
        for number, glyph in enumerate(self.font.glyphs):
            family = self.reader.section(2, number)
            try:
                main = read_program(glyph.program)
                setting = Setting(limits, 2, main, font, prep, glyph.points + 4, glyph.contours)
                self.check(setting, family, known_then)
            except Broken as broken:
                lines.append(refused_line(f"g{number}", broken))
        self.reader.end()
        if lines:
            return [*lines, f"refused: {len(lines)} of {count + 2} programs"], False
        return [f"accepted: {count + 2} programs"], True


def read_file(name: str) -> bytes:
    """The bytes of a file."""
    try:
        with open(name, "rb") as file:
            return file.read()
    except OSError:
        raise Fault("44 read") from None


def main() -> int:
    """Checks a font by a certificate: 0 accepted, 1 refused, 2 no answer."""
    if len(sys.argv) != 3:
        print(__doc__, file=sys.stderr)
        return 2
    try:
        font = read_font(read_file(sys.argv[1]))
        lines, accepted = Certificate(font, read_file(sys.argv[2])).answer()
    except Fault as fault:
        print(f"fault: {fault}", file=sys.stderr)
        return 2
    print("\n".join(lines))
    return 0 if accepted else 1


if __name__ == "__main__":
    sys.exit(main())
