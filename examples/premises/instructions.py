"""What each instruction takes from the stack and leaves there, as programs that require it."""

import collections.abc

from fontfile import CALL, DEPTH, POP, function, push, require_equal

# At the bottom of the stack, below an instruction's operands.
BELOW = 77
# Function 0 takes an element, and pushes two.
FUNCTIONS = function(0, POP + push(1, 2))

# Codes from the first to the last: their operands, the top one last, and how many they push.
# Points are below 5; of storage cells and control values there are more.
EFFECTS: list[tuple[int, int, tuple[int, ...], int]] = [
    (0x00, 0x05, (), 0), (0x06, 0x09, (1, 2), 0), (0x0A, 0x0B, (0x4000, 0), 0), (0x0C, 0x0D, (), 2),
    (0x0E, 0x0E, (), 0), (0x0F, 0x0F, (4, 0, 1, 2, 3), 0), (0x10, 0x12, (1,), 0),
    (0x13, 0x16, (1,), 0), (0x17, 0x17, (1,), 0), (0x18, 0x19, (), 0), (0x1A, 0x1A, (64,), 0),
    (0x1D, 0x1F, (64,), 0), (0x27, 0x27, (1, 2), 0), (0x29, 0x29, (1,), 0), (0x2E, 0x2F, (1,), 0),
    (0x30, 0x31, (), 0), (0x32, 0x33, (1,), 0), (0x34, 0x35, (0,), 0), (0x36, 0x37, (1,), 0),
    (0x38, 0x38, (1, 64), 0), (0x39, 0x39, (1,), 0), (0x3A, 0x3B, (1, 64), 0),
    (0x3C, 0x3C, (1,), 0),
    (0x3D, 0x3D, (), 0), (0x3E, 0x3F, (1, 0), 0), (0x42, 0x42, (0, 5), 0), (0x43, 0x43, (0,), 1),
    (0x44, 0x44, (0, 5), 0), (0x45, 0x45, (0,), 1), (0x46, 0x47, (1,), 1), (0x48, 0x48, (1, 64), 0),
    (0x49, 0x4A, (1, 2), 1), (0x4B, 0x4C, (), 1), (0x4D, 0x4E, (), 0), (0x50, 0x55, (1, 2), 1),
    (0x56, 0x57, (64,), 1), (0x5A, 0x5B, (1, 2), 1), (0x5C, 0x5C, (1,), 1),
    (0x5D, 0x5D, (16, 1, 16, 2, 2), 0), (0x5E, 0x5E, (9,), 0), (0x5F, 0x5F, (3,), 0),
    (0x60, 0x63, (64, 64), 1), (0x64, 0x65, (1,), 1), (0x66, 0x6F, (64,), 1),
    (0x70, 0x70, (0, 5), 0),
    (0x71, 0x72, (16, 1, 16, 2, 2), 0), (0x73, 0x75, (16, 0, 16, 1, 2), 0), (0x76, 0x77, (72,), 0),
    (0x7A, 0x7A, (), 0), (0x7C, 0x7D, (), 0), (0x7E, 0x7F, (64,), 0), (0x80, 0x80, (1,), 0),
    (0x81, 0x82, (0, 1), 0), (0x85, 0x85, (0,), 0), (0x86, 0x87, (1, 2), 0), (0x88, 0x88, (64,), 1),
    (0x8B, 0x8C, (1, 2), 1), (0x8D, 0x8D, (0,), 0), (0x8E, 0x8E, (4, 3), 0), (0xC0, 0xDF, (1,), 0),
    (0xE0, 0xFF, (1, 0), 0), (0x20, 0x20, (1,), 2), (0x21, 0x21, (1,), 0), (0x23, 0x23, (1, 2), 2),
    (0x24, 0x24, (), 1), (0x25, 0x25, (5, 1), 2), (0x26, 0x26, (5, 6, 2), 2),
    (0x8A, 0x8A, (1, 2, 3), 3),
]

# Instructions that take as many points as the loop number says: what they take after the points.
LOOPS = {0x32: (), 0x33: (), 0x38: (64,), 0x39: (), 0x3C: (), 0x80: ()}


def requires_depth(pushed: int) -> bytes:
    """Requires the depth after an instruction, and the element below its operands."""
    return DEPTH + require_equal(1 + pushed) + POP * pushed + require_equal(BELOW)


def programs() -> collections.abc.Iterator[tuple[str, bytes]]:
    """A program for each instruction, with its name."""
    for first, last, operands, pushed in EFFECTS:
        for code in range(first, last + 1):
            run = push(BELOW, *operands) + bytes([code])
            yield f"{code:#04x}", run + requires_depth(pushed)
    for code, operands in LOOPS.items():
        twice = push(BELOW, 1, 2, *operands) + push(2) + b"\x17" + bytes([code]) + requires_depth(0)
        once = push(BELOW, 1, *operands) + bytes([code]) + requires_depth(0)
        yield f"{code:#04x} twice", twice
        yield f"{code:#04x} twice and once", twice + once
    yield "0x22", push(1, 2) + b"\x22" + push(BELOW) + requires_depth(0)
    for count in range(1, 9):
        yield f"{0xAF + count:#04x}", (push(BELOW) + bytes([0xAF + count]) + bytes(count)
                                       + requires_depth(count))
        yield f"{0xB7 + count:#04x}", (push(BELOW) + bytes([0xB7 + count]) + bytes(2 * count)
                                       + requires_depth(count))
    yield "0x40", push(BELOW) + b"\x40\x03abc" + requires_depth(3)
    yield "0x41", push(BELOW) + b"\x41\x02abcd" + requires_depth(2)
    yield "0x2b", push(BELOW, 5, 0) + CALL + requires_depth(2)
    yield "0x2a", push(BELOW, 5, 3, 0) + b"\x2a" + requires_depth(4)
    yield "0x1c", push(BELOW, 3) + b"\x1c\x21\x21" + requires_depth(0)
    yield "0x78", push(BELOW, 3, 1) + b"\x78\x21\x21" + requires_depth(0)
    yield "0x79", push(BELOW, 3, 0) + b"\x79\x21\x21" + requires_depth(0)
    yield "0x58", push(BELOW, 0) + b"\x58\x21\x1b\xb0\x05\x59" + requires_depth(1)
