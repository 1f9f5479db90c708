#!/usr/bin/env python3
"""Writes the fonts that try the premises, and a list of them with what is expected of each.

Usage: fonts.py FOLDER
The list, FOLDER/fonts.txt, has a line for each font and each way in which it is loaded: the font's
name, the way, and what is expected of its loads at equal and at unequal sizes in x and y.
"""

import collections.abc
import dataclasses
import itertools
import pathlib
import sys

import instructions
from fontfile import (ADD, CALL, DEPTH, DUP, ENDF, EQ, FDEF, POP, REQUIRE, Font, Glyph, file_of,
                      function, push, require_between, require_equal)

LEAST, GREATEST = -(1 << 31), (1 << 31) - 1
# Numbers at which a rule may change: around 0, 64 and the ends of 8, 16 and 32 bits.
CORNERS = [LEAST, LEAST + 1, LEAST + 64, -65537, -32769, -32768, -129, -128, -127, -65, -64, -63,
           -1, 0, 1, 63, 64, 65, 127, 128, 129, 255, 256, 32767, 32768, 65536, GREATEST - 64,
           GREATEST]
FEW = [LEAST, -32769, -65, -64, -1, 0, 1, 63, 64, 32768, GREATEST]

LOOPCALL, NEG, ABS, SUB, CEILING, MUL = b"\x2a", b"\x65", b"\x64", b"\x61", b"\x67", b"\x63"
WS, RS, WCVTP, RCVT, WCVTF, DELTAC = b"\x42", b"\x43", b"\x44", b"\x45", b"\x70", b"\x73"
SVTCA_Y, SVTCA_X, IUPS = b"\x00", b"\x01", b"\x30\x31"
SRP0, SRP1, SRP2, SZP0, SZP1, SZP2, SZPS, SLOOP = (bytes([code]) for code in range(0x10, 0x18))
MDAP, MPPEM, GT, IF, EIF, JMPR, ROUND = (bytes([code]) for code in
                                         (0x2E, 0x4B, 0x52, 0x58, 0x59, 0x1C, 0x68))
RTG, RTDG, RUTG, INSTCTRL = b"\x18", b"\x3d", b"\x7c", b"\x8e"
UTP, ALIGNRP, GC, SCFS, SHPIX, SHP_RP2, SHP_RP1 = (bytes([code]) for code in
                                                   (0x29, 0x3C, 0x46, 0x48, 0x38, 0x32, 0x33))
# A point that the twilight zone doesn't have, not even with four phantom points.
GLYPH_POINT = 13
FLIPPT = "0x80"


def is_number(number: int) -> bool:
    """Whether the number has 32 bits."""
    return LEAST <= number <= GREATEST


Tried = collections.abc.Iterable[tuple[str, bytes, int, int]]


def tried(name: str, cases: Tried) -> list[Font]:
    """Two fonts of what is computed and the least and the greatest number that it may be: one that
    requires this, and one that requires a number beside it and so faults at each load."""
    cases = list(cases)
    right = [Glyph(case, program + require_between(low, high))
             for case, program, low, high in cases]
    wrong = [Glyph(case, program + require_equal(high + 1 if high < GREATEST else low - 1))
             for case, program, low, high in cases]
    return [Font(name, right), Font(name + "-wrong", wrong, equal="faults", unequal="faults")]


def extremes() -> Tried:
    """MAX and MIN."""
    for x, y in itertools.product(FEW, FEW):
        yield f"max {x} {y}", push(x, y) + b"\x8b", max(x, y), max(x, y)
        yield f"min {x} {y}", push(x, y) + b"\x8c", min(x, y), min(x, y)


def products() -> Tried:
    """MUL, where one of the operands is a multiple of 64 and the product a number."""
    whole = [64 * k for k in (-(1 << 25), -1025, -2, -1, 0, 1, 2, 3, 1025, (1 << 25) - 1)]
    for x, y in itertools.product(CORNERS, whole):
        product = x * y // 64
        if is_number(product):
            yield f"mul {x} {y}", push(x, y) + MUL, product, product
            yield f"mul {y} {x}", push(y, x) + MUL, product, product


def quotients() -> Tried:
    """DIV by a multiple or a divisor of 64, where 64 times the dividend is a number."""
    dividends = [number for number in CORNERS + [-(1 << 25), 1 - (1 << 25), (1 << 25) - 1]
                 if is_number(64 * number)]
    above = [1, 2, 4, 8, 16, 32, 64, 128, 192, 4096, 64 * 32767, GREATEST - 63]
    for x, y in itertools.product(dividends, above + [-number for number in above] + [LEAST]):
        floor, ceiling = 64 * x // y, -(-64 * x // y)
        if is_number(ceiling):
            yield f"div {x} {y}", push(x, y) + b"\x62", floor, ceiling


def rounded() -> Tried:
    """FLOOR and CEILING, where the result is a number."""
    for x in CORNERS:
        floor, ceiling = x // 64 * 64, -(-x // 64) * 64
        yield f"floor {x}", push(x) + b"\x66", floor, floor
        if is_number(ceiling):
            yield f"ceiling {x}", push(x) + CEILING, ceiling, ceiling


def sums() -> Tried:
    """ADD, SUB, ABS and NEG, where the result is a number, comparisons, AND, OR and NOT, and RS of
    what WS has written."""
    for x, y in itertools.product(FEW, FEW):
        truths = {0x50: x < y, 0x51: x <= y, 0x52: x > y, 0x53: x >= y, 0x54: x == y, 0x55: x != y,
                  0x5A: x != 0 and y != 0, 0x5B: x != 0 or y != 0}
        for code, truth in truths.items():
            yield f"{code:#x} {x} {y}", push(x, y) + bytes([code]), int(truth), int(truth)
        if is_number(x + y):
            yield f"add {x} {y}", push(x, y) + ADD, x + y, x + y
        if is_number(x - y):
            yield f"sub {x} {y}", push(x, y) + SUB, x - y, x - y
    for x in CORNERS:
        yield f"stored {x}", push(1, x) + WS + push(1) + RS, x, x
        yield f"not {x}", push(x) + b"\x5c", int(x == 0), int(x == 0)
        if is_number(-x):
            yield f"neg {x}", push(x) + NEG, -x, -x
            yield f"abs {x}", push(x) + ABS, abs(x), abs(x)


def wide_numbers() -> Font:
    """Results that leave 32 bits: each is some number of 32 bits, or the load fails."""
    computed = {
        "add greatest 1": push(GREATEST, 1) + ADD,
        "add least -1": push(LEAST, -1) + ADD,
        "sub least 1": push(LEAST, 1) + SUB,
        "neg least": push(LEAST) + NEG,
        "abs least": push(LEAST) + ABS,
        "ceiling greatest": push(GREATEST) + CEILING,
        "mul greatest 128": push(GREATEST, 128) + MUL,
        "stored": push(0, GREATEST) + DUP + ADD + WS + push(0) + RS,
        "control value": push(0, GREATEST) + DUP + ADD + WCVTP + push(0) + RCVT,
        "coordinate": (SVTCA_Y + push(0) + SZPS + push(0, GREATEST) + DUP + ADD + SCFS
                       + push(0) + GC),
    }
    glyphs = [Glyph(name, program + require_between(LEAST, GREATEST))
              for name, program in computed.items()]
    return Font("wide-numbers", glyphs, equal="fails", unequal="fails")


def written(x: int, index: int) -> bytes:
    """Writes a control value."""
    return push(index, x) + WCVTP


def read(index: int, number: int) -> bytes:
    """Reads a control value, which must be this number."""
    return push(index) + RCVT + require_equal(number)


def stored(index: int, number: int) -> bytes:
    """Writes a storage cell."""
    return push(index, number) + WS


def fetched(index: int, number: int) -> bytes:
    """Reads a storage cell, which must be this number."""
    return push(index) + RS + require_equal(number)


def control_values() -> list[Font]:
    """RCVT after WCVTP, in one program and from the CVT program to a glyph program."""
    own = [Glyph(f"along y {x}", SVTCA_X + written(x, 3) + SVTCA_Y + read(3, x)) for x in CORNERS]
    own += [Glyph(f"along x {x}", SVTCA_Y + written(x, 3) + SVTCA_X + read(3, x)) for x in CORNERS]
    numbers = [-32768, -100, 0, 1, 99, 1000, 32767, 40000]
    prep = b"".join(written(number, index) for index, number in enumerate(numbers))
    after = [Glyph(f"along {axis} {index}", vector + read(index, number))
             for axis, vector in (("x", SVTCA_X), ("y", SVTCA_Y))
             for index, number in enumerate(numbers)]
    wrong = [Glyph(f"written {x}", written(x, 3) + read(3, x - 1)) for x in FEW if x > LEAST]
    return [Font("control-values", own, unequal="fails"),
            Font("control-values-of-prep", after, prep=prep, unequal="fails"),
            Font("control-values-wrong", wrong, equal="faults", unequal="faults")]


def changed_control_values() -> list[Font]:
    """WCVTF and DELTAC: what they leave is a number, and others aren't changed. MIAP and MIRP
    change none."""
    in_range = require_between(LEAST, GREATEST)
    deltas = push(*itertools.chain(*((16 * size + 15, 2) for size in range(16))), 16)
    changes = {"units": push(2, 500) + WCVTF, "units below 0": push(2, -32768) + WCVTF}
    changes |= {f"delta {code:#x}": deltas + bytes([code]) for code in (0x73, 0x74, 0x75)}
    others = written(77, 1) + written(-78, 3)
    same = read(1, 77) + read(3, -78)
    kept = [Glyph(name, others + written(640, 2) + change + push(2) + RCVT + in_range + same)
            for name, change in changes.items()]
    uses = {f"{code:#x}": push(1, 2) + bytes([code]) for code in (0x3E, 0x3F, 0xE0, 0xFF)}
    kept += [Glyph(name, written(640, 2) + use + read(2, 640)) for name, use in uses.items()]
    unchanged = [Glyph("units", push(2, 500) + WCVTF + read(2, 500)),
                 Glyph("delta", written(640, 2) + changes["delta 0x73"] + read(2, 640))]
    return [Font("changed-control-values", kept),
            Font("control-values-unchanged", unchanged, equal="fails", unequal="fails")]


def memory() -> list[Font]:
    """What the CVT program leaves in memory, before and after glyph programs that write."""
    prep = stored(1, 70001) + stored(2, 11) + written(300, 1) + written(12, 2)
    reads = fetched(1, 70001) + read(1, 300)
    either = either_of(push(2) + RS, 11, 21, 31) + either_of(push(2) + RCVT, 12, 22, 32)
    glyphs = [
        Glyph("reads", reads + either),
        Glyph("writes", reads + stored(2, 21) + written(22, 2) + fetched(2, 21) + read(2, 22)),
        Glyph("writes others", reads + stored(2, 31) + written(32, 2) + stored(3, 1) + read(2, 32)),
        Glyph("calls what writes", push(0) + CALL + reads),
        Glyph("writes, reads", reads + either, (1, 0)),
        Glyph("reads, writes, reads", reads + either, (0, 2, 0)),
    ]
    kept = [Glyph("reads", fetched(2, 11) + read(2, 12)), Glyph("writes", glyphs[1].program),
            Glyph("writes, reads", b"", (1, 0))]
    fpgm = function(0, stored(3, 5) + written(6, 3))
    wrong = [Glyph("storage", fetched(1, 70000)), Glyph("control value", read(1, 301)),
             Glyph("calls", push(0) + CALL + fetched(3, 6))]
    return [Font("memory-of-prep", glyphs, fpgm, prep),
            Font("memory-of-prep-wrong", wrong, fpgm, prep, equal="faults", unequal="faults"),
            Font("memory-that-glyphs-write", kept, fpgm, prep, equal="any", unequal="any")]


def either_of(program: bytes, *numbers: int) -> bytes:
    """Requires what the program pushes to be one of these numbers."""
    tests = b"".join(program + push(number) + EQ for number in numbers)
    return tests + b"\x5b" * (len(numbers) - 1) + REQUIRE


def fresh_start() -> list[Font]:
    """What a program starts with, after programs that leave everything otherwise. Reference points
    are told by points of the twilight zone: point 0 is moved, and others with it."""
    leaves = push(0) + SZPS + push(3, 3, 3, 5) + SLOOP + SRP0 + SRP1 + SRP2 + push(8, 8, 8)
    placed = b"".join(push(point, 64 * point) + SCFS for point in range(4))
    zones = push(GLYPH_POINT) + UTP + push(GLYPH_POINT) + ALIGNRP + push(GLYPH_POINT) + GC + POP
    one_loop = push(2, 3) + ALIGNRP + DEPTH + require_equal(1) + POP
    aligned = placed + push(3) + ALIGNRP + push(3) + GC + require_equal(0)
    shifted = b"".join(placed + push(0, 64) + SHPIX + push(2) + shift + push(2) + GC
                       + require_equal(192) for shift in (SHP_RP1, SHP_RP2))
    empty = DEPTH + require_equal(0) + SVTCA_Y
    registers = push(0) + SZPS + one_loop + aligned + shifted
    glyphs = [
        Glyph("starts", empty + zones + registers),
        Glyph("leaves", leaves),
        Glyph("starts and leaves", empty + zones + registers + leaves),
        Glyph("leaves, starts", empty + registers + leaves, (1, 0)),
        Glyph("all", empty + zones + registers, (2, 2, 1, 0)),
    ]
    others = {"an element": push(1), "rp0 is 1": push(1) + SRP0, "rp1 is 1": push(1) + SRP1,
              "rp2 is 1": push(1) + SRP2, "loop is 2": push(2) + SLOOP, "zp0 is 0": push(0) + SZP0,
              "zp1 is 0": push(0) + SZP1, "zp2 is 0": push(0) + SZP2}
    wrong = [Glyph(name, other + empty + zones + registers) for name, other in others.items()]
    return [Font("fresh-start", glyphs, leaves, empty + registers + leaves),
            Font("fresh-start-wrong", wrong, equal="faults", unequal="faults")]


def functions() -> list[Font]:
    """Functions of the font program and of the CVT program, where they are called."""
    fpgm = function(0, push(10)) + function(1, push(11)) + function(5, push(1) + ADD)
    prep = function(1, push(21)) + function(2, push(22))
    results = b"".join(push(number) + CALL + require_equal(result)
                       for number, result in ((0, 10), (1, 21), (2, 22)))
    counts = b"".join(push(0, count, 5) + LOOPCALL + require_equal(max(0, count))
                      for count in (LEAST, -1, 0, 1, 2, 100))
    glyphs = [Glyph("calls", results), Glyph("calls and leaves", results + push(1, 2)),
              Glyph("counts", counts), Glyph("all", results, (0, 1, 2))]
    wrong = [Glyph("the one before", push(1) + CALL + require_equal(11)),
             Glyph("another", push(2) + CALL + require_equal(21)),
             Glyph("a turn more", push(0, 2, 5) + LOOPCALL + require_equal(3))]
    earlier = push(0) + CALL + require_equal(10) + function(0, push(20))
    later = [Glyph("calls", push(0) + CALL + require_equal(20))]
    return [Font("functions", glyphs, fpgm, prep),
            Font("functions-wrong", wrong, fpgm, prep, equal="faults", unequal="faults"),
            Font("functions-before-prep", later, fpgm, earlier, equal="fails", unequal="fails")]


def functions_of_a_failed_run() -> list[Font]:
    """A CVT program that defines function 0 anew above 20 ppem and then never ends. So no glyph
    program runs there; at a smaller size function 0 is the font program's, which does nothing."""
    above_20 = function(0, POP) + push(-3) + JMPR
    prep = MPPEM + push(20) + GT + IF + above_20 + EIF
    font = Font("functions-after-a-failed-run", [Glyph("calls", push(0) + CALL)], function(0, b""),
                prep)
    ways = {"hinted": "fails", "at-12": "holds", "at-12-30-12": "faults", "sizes-apart": "holds"}
    return [dataclasses.replace(font, way=way, equal=expected, unequal=expected)
            for way, expected in ways.items()]


def touched(point: int) -> bytes:
    """Touches a point of the twilight zone."""
    return push(0) + SZPS + push(point) + MDAP


def twilight_points() -> list[Font]:
    """How many of 100 declared twilight points there are: to FreeType max(30, 2 * (points + control
    values)), phantom points with the others, none in the CVT program; 8 control values."""
    nothing, small = [Glyph("nothing", b"")], Glyph("1 point", touched(29), points=1)
    large = Glyph("12 points", touched(2 * (12 + 4 + 8) - 1))
    in_order = [small, large, Glyph("12 points, 1 point", b"", (1, 0))]
    after_small = [small, large, Glyph("1 point, 12 points", b"", (0, 1))]
    more = [Glyph("1 point", touched(30), points=1), Glyph("12 points", touched(48))]
    return [Font("twilight-of-prep", nothing, prep=touched(29), twilight=100),
            Font("more-twilight-of-prep", nothing, prep=touched(30), equal="faults",
                 unequal="faults", twilight=100),
            Font("twilight-of-glyphs", in_order, twilight=100),
            Font("more-twilight-of-glyphs", more, equal="faults", unequal="faults", twilight=100),
            Font("twilight-after-a-small-one", after_small, equal="fails", unequal="fails",
                 twilight=100)]


def instruction_control() -> list[Font]:
    """INSTCTRL, in each program, with each selector and value."""
    def control(value: int, selector: int) -> bytes:
        return push(value, selector) + INSTCTRL

    nothing, flags = [Glyph("nothing", b"")], {1: 1, 2: 2, 3: 4}
    known = control(4, 3) + control(0, 1) + control(0, 2)
    native = [Glyph("native", control(4, 3)), Glyph("not native", control(0, 3))]
    others = [(0, 1), (1, 1), (0, 2), (2, 2), (1, 3), (3, 3), (7, 3)]
    glyphs = [Glyph(f"{value} for {selector}", control(value, selector))
              for value, selector in others]
    faulting = {"instctrl-of-glyphs": Font("", glyphs)}
    for selector, flag in flags.items():
        faulting[f"instctrl-{selector}-of-fpgm"] = Font("", nothing, control(flag, selector))
        faulting[f"instctrl-{selector}-of-prep"] = Font("", nothing, prep=control(7, selector))
    return [Font("instctrl", native, prep=known),
            *(dataclasses.replace(font, name=name, equal="faults", unequal="faults")
              for name, font in faulting.items())]


def wide_without_arithmetic() -> list[Font]:
    """Numbers of more than 32 bits that no program adds or multiplies: control values of 32,767
    with 16 units per em, in the table and as WCVTF writes them, at 20,000 ppem and more; 2^31 - 1
    after DELTAC, at 9 to 24 ppem, and after ROUND."""
    in_range = require_between(LEAST, GREATEST)
    glyphs = [Glyph("cvt", push(0) + RCVT + in_range),
              Glyph("wcvtf", push(0, 32767) + WCVTF + push(0) + RCVT + in_range)]
    usual = Font("wide-control-values", glyphs, controls=(32767,), units_per_em=16)
    huge = dataclasses.replace(usual, way="at-20000", equal="scaled", unequal="scaled")
    deltas = push(*itertools.chain(*((16 * size + 15, 0) for size in range(16))), 16)
    raised = written(GREATEST, 0) + deltas + DELTAC + push(0) + RCVT + in_range
    modes = {"to grid": RTG, "to double grid": RTDG, "up to grid": RUTG}
    rounds = [Glyph(name, mode + push(GREATEST) + ROUND + in_range) for name, mode in modes.items()]
    return [usual, huge,
            Font("wide-deltas", [Glyph("deltac", raised)], way="at-12", equal="faults",
                 unequal="scaled"),
            Font("wide-rounded", rounds, equal="faults", unequal="faults")]


def many_turns() -> Font:
    """A thousand turns of a function that does nothing."""
    glyph = Glyph("1000 turns", push(1000, 0) + LOOPCALL)
    return Font("many-turns", [glyph], function(0, b""), equal="faults", unequal="faults")


def effects() -> list[Font]:
    """How many elements each instruction takes and leaves, also in the twilight zone, in composite
    glyphs, and after both IUPs."""
    programs = list(instructions.programs())
    others = [(name, program) for name, program in programs if not name.startswith(FLIPPT)]
    flips = [(name, program) for name, program in programs if name.startswith(FLIPPT)]
    twilight = push(0) + SZPS
    return [effects_in("instructions", programs), effects_in("twilight", programs, twilight),
            effects_in("composites", programs, components=(0,)),
            effects_in("instructions-after-iup", others, IUPS),
            effects_in("twilight-after-iup", others, IUPS + twilight),
            effects_in("composites-after-iup", others, IUPS, (0,)),
            effects_in("flippt-after-iup", flips, IUPS, expected="any")]


def effects_in(name: str, programs: list[tuple[str, bytes]], before: bytes = b"",
               components: tuple[int, ...] = (), expected: str = "holds") -> Font:
    """A font of these programs, each after another one, in glyphs with these components."""
    glyphs = [Glyph(text, before + program, components) for text, program in programs]
    return Font(name, [Glyph("outline", b""), *glyphs], instructions.FUNCTIONS, equal=expected,
                unequal=expected)


def nested_calls(depth: int) -> Font:
    """As many calls inside one another."""
    fpgm = function(0, b"") + b"".join(function(number, push(number - 1) + CALL)
                                       for number in range(1, depth))
    expected = "holds" if depth <= 32 else "faults"
    glyph = Glyph(f"{depth} calls", push(depth - 1) + CALL)
    return Font(f"calls-{depth}-deep", [glyph], fpgm, equal=expected, unequal=expected)


def other_errors() -> Font:
    """What isn't a fault of the machine, and an error of FreeType."""
    programs = {"div by 0": push(1, 0) + b"\x62", "debug": push(1) + b"\x4f",
                "sds 7": push(7) + b"\x5f", "sds -1": push(-1) + b"\x5f",
                "sloop -1": push(-1) + SLOOP,
                "instctrl 4": push(0, 4) + b"\x8e"}
    glyphs = [Glyph(name, program) for name, program in programs.items()]
    return Font("other-errors", glyphs, equal="faults", unequal="faults")


def hints_off() -> list[Font]:
    """A program that faults, in two fonts that are loaded with hints and with flags against them:
    FreeType takes the first one for a tricky font by its family name."""
    tricky = Font("tricky", [Glyph("underflow", POP)], family="DFKaiShu")
    ordinary = dataclasses.replace(tricky, name="ordinary", family="Premises")
    ways = {"hinted": ("faults", "faults"), "no-hinting": ("faults", "holds"),
            "no-scale": ("faults", "holds"), "force-autohint": ("faults", "holds"),
            "both-flags": ("holds", "holds")}
    return [dataclasses.replace(font, way=way, equal=expected, unequal=expected)
            for way, of_both in ways.items()
            for font, expected in zip((tricky, ordinary), of_both)]


def fonts() -> list[Font]:
    """All fonts."""
    exact = [tried("extremes", extremes()), tried("products", products()),
             tried("quotients", quotients()), tried("rounded", rounded()), tried("sums", sums())]
    return [*itertools.chain(*exact), wide_numbers(), *control_values(), *changed_control_values(),
            *memory(), *fresh_start(), *functions(), *functions_of_a_failed_run(), *effects(),
            nested_calls(32), nested_calls(33), many_turns(), other_errors(),
            *instruction_control(), *wide_without_arithmetic(), *twilight_points(), *hints_off()]


def main() -> None:
    folder = pathlib.Path(sys.argv[1])
    lines = []
    for font in fonts():
        (folder / f"{font.name}.ttf").write_bytes(file_of(font))
        lines.append(f"{font.name} {font.way} {font.equal} {font.unequal}\n")
    (folder / "fonts.txt").write_text("".join(lines))


if __name__ == "__main__":
    main()
