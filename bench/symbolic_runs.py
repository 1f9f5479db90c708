#!/usr/bin/env python3
"""Runs glyph programs that the symbolic profile accepts on the machine with control values: a plain interpreter draws each number that the
machine leaves open.

Usage: bench/symbolic_runs.py [--exchanged] PROGRAM [RUNS [SEED]]
PROGRAM is a built hintcheck. Fonts of random programs, which compute their indices, are handed to `PROGRAM verdict --symbolic`. Where the
font program and the CVT program are accepted, they are run, and then accepted glyph programs, one after another in a random order, each with a
memory whose entries are those with which the one before started or those that it left. That is done until RUNS (10,000) runs of glyph programs were made. A fault is printed with all that led
to it, and the exit status is then 1. At last it tells how many programs were accepted and run, and how many steps they made. With --exchanged the
interpreter takes MAX for MIN and MIN for MAX, which no accepted program has to stand: it has to find a fault, or its runs would show little.
"""

import collections
import pathlib
import random
import re
import subprocess
import sys
import tempfile

TOP = pathlib.Path(__file__).resolve().parent.parent
sys.path += [str(TOP / "examples"), str(TOP / "bench")]

import checker  # noqa: E402  (the folders are only known here)
import hostile  # noqa: E402

POINTS, STORAGE, CONTROLS, FUNCTIONS, GLYPHS = 8, 4, 10, 2, 40
MOST_STEPS = 20_000
NUMBERS = [-(1 << 31), -65536, -129, -64, -1, 0, 1, 2, 7, 8, 63, 64, 65, 128, 4096, (1 << 31) - 1]


# The machine.


def any_number(source) -> int:
    """Any number of 32 bits, small ones and those near the ends more often."""
    kind = source.randrange(3)
    if kind == 0:
        return source.choice(NUMBERS)
    return source.randrange(-20, 300) if kind == 1 else source.randrange(checker.LEAST, checker.GREATEST + 1)


def any_memory(source) -> dict[tuple[bool, int], int]:
    """Any numbers in the storage cells and, under True, the control values."""
    entries = [(False, index) for index in range(STORAGE)] + [(True, index) for index in range(CONTROLS)]
    return {entry: any_number(source) for entry in entries}


class Machine(checker.Step):
    """Carries out instructions on a state in which each number is known."""

    def __init__(self, setting, state, memory, source):
        super().__init__(setting, state)
        self.memory, self.random = memory, source

    def push(self, *cells):
        super().push(*(any_number(self.random) if cell is None else cell for cell in cells))

    def perform(self, instruction):
        """An instruction after which the next one comes; first those that read and write memory or compute as only this machine does."""
        code = instruction.code
        top = self.state.stack[-2:]
        if code in (0x43, 0x45):
            index = self.operand("S" if code == 0x43 else "C")
            self.push(self.memory[code == 0x45, index])
        elif 0x73 <= code <= 0x75:
            entries = self.state.stack[-2::-2][:max(0, self.state.stack[-1])] if self.state.stack else []
            super().perform(instruction)
            for index in entries:
                self.memory[True, index] = any_number(self.random)
        else:
            super().perform(instruction)
            self.note(code, top)

    def note(self, code, operands):
        """What an instruction with these operands, the lower one first, does besides."""
        if code == 0x42:
            self.memory[False, operands[0]] = operands[1]
        elif code == 0x44:
            self.memory[True, operands[0]] = operands[1]
        elif code == 0x70:
            self.memory[True, operands[0]] = any_number(self.random)
        elif code in (0x62, 0x63, 0x66, 0x67, 0x8B, 0x8C):
            self.state.stack.pop()
            self.push(self.computed(code, *operands))

    # Whether it takes MAX for MIN and MIN for MAX.
    is_exchanged = False

    def computed(self, code, *operands):
        """MAX, MIN, FLOOR, CEILING, MUL and DIV: the number, or None where it may be any."""
        a, b = operands[0], operands[-1]
        if code in (0x8B, 0x8C):
            return max(a, b) if (code == 0x8B) != self.is_exchanged else min(a, b)
        if code in (0x66, 0x67):
            return checker.exact(b // 64 * 64 if code == 0x66 else -(-b // 64) * 64)
        if code == 0x63:
            return checker.exact(self.rounded(a * b, 64)) if 0 in (a % 64, b % 64) else None
        if b and (b % 64 == 0 or 64 % b == 0) and checker.exact(64 * a) is not None:
            return checker.exact(self.rounded(64 * a, b))
        return None

    def rounded(self, dividend, divisor):
        """The floor or the ceiling of a quotient."""
        return self.random.choice([dividend // divisor, -(-dividend // divisor)])


Frame = collections.namedtuple("Frame", "program call body left")


class Run(checker.Check):
    """A run of a program: frames for the calls that are open, the innermost last."""

    def __init__(self, setting, state, memory, source):
        super().__init__(setting, checker.Family([None], [{}]), True)
        self.frames, self.step_of, self.state = [], Machine(setting, state, memory, source), state
        self.steps = 0

    def program(self, context):
        """The program in which the innermost call's body is, and the body."""
        if not self.frames:
            return self.setting.main, None
        body = self.frames[-1].body
        return (self.setting.prep if body >= checker.CVT_BODIES else self.setting.font), body % checker.CVT_BODIES

    def is_end(self, context, offset):
        return not self.frames and offset == self.setting.main.length

    def to_end(self):
        """Runs to the end of the main program; whether it comes there within the steps that a run may make."""
        offset = 0
        while not self.is_end(0, offset) and self.steps < MOST_STEPS:
            checker.require(self.starts(0, offset), 35)
            offset = self.next(offset, self.program(0)[0].instructions[offset])
            self.step_of.test_depth()
            self.steps += 1
        return self.is_end(0, offset)

    def next(self, at, instruction):
        """Carries out an instruction, and returns where the next one is."""
        code = instruction.code
        if code in (0x58, 0x1B, 0x1C, 0x78, 0x79):
            return min(self.jump(0, at, code, self.step_of))
        if code in (0x2A, 0x2B):
            return self.enter(at, code)
        if code == 0x2D:
            return self.leave()
        if code == 0x2C:
            self.define(at, self.step_of)
            return self.setting.main.partners[at]
        self.step_of.perform(instruction)
        return instruction.after

    def enter(self, at, code):
        """CALL and LOOPCALL."""
        number = self.step_of.pop()
        checker.require(number in self.state.functions, 31)
        count = 1 if code == 0x2B else self.step_of.pop()
        if count < 1:
            return at + 1
        self.frames.append(Frame(0, at, self.state.functions[number], count - 1))
        return self.frames[-1].body % checker.CVT_BODIES

    def leave(self):
        """ENDF."""
        frame = self.frames.pop()
        if frame.left == 0:
            return frame.call + 1
        self.frames.append(frame._replace(left=frame.left - 1))
        return frame.body % checker.CVT_BODIES


# Random programs.


class Writer:
    """Writes random programs that mostly bring their indices into range before they use them."""

    def __init__(self, source):
        self.random = source

    def pushed(self, number):
        """A push of a number."""
        return bytes([0xB0, number]) if 0 <= number < 256 else b"\xb8" + (number & 0xFFFF).to_bytes(2, "big")

    def number(self, depth):
        """Computes some number."""
        kind = self.random.randrange(9 if depth else 3)
        if kind == 0:
            return self.pushed(self.random.choice([-65, -1, 0, 1, 2, 5, 9, 64, 128, 200]))
        if kind == 1:
            return bytes([self.random.choice([0x4B, 0x4C])])
        if kind == 2:
            bound, code = self.random.choice([(STORAGE, 0x43), (CONTROLS, 0x45)])
            return self.index(bound, 0) + bytes([code])
        if kind < 6:
            code = self.random.choice([0x60, 0x61, 0x8B, 0x8C, 0x50, 0x51, 0x52, 0x53, 0x54, 0x55, 0x5A, 0x5B, 0x62, 0x63])
            return self.number(depth - 1) + self.number(depth - 1) + bytes([code])
        if kind == 6:
            return self.number(depth - 1) + bytes([self.random.choice([0x56, 0x5C, 0x64, 0x65, 0x66, 0x67, 0x68])])
        return self.number(0) + b"\x58" + self.number(depth - 1) + b"\x1b" + self.number(depth - 1) + b"\x59"

    def index(self, bound, depth):
        """Computes an index below the bound; now and then the bound itself may come of it."""
        kind = self.random.randrange(5)
        greatest = bound - (self.random.randrange(12) > 0)
        if kind < 2 or not depth:
            return self.pushed(self.random.randrange(bound))
        if kind == 2:
            ways = [self.pushed(self.random.randrange(bound)) for _ in range(2)]
            return self.number(0) + b"\x58" + ways[0] + b"\x1b" + ways[1] + b"\x59"
        if kind == 3:
            return self.number(depth - 1) + self.pushed(greatest) + b"\x8c" + self.pushed(0) + b"\x8b"
        return self.number(depth - 1) + b"\x64" + self.pushed(0) + b"\x8b" + self.pushed(greatest) + b"\x8c"

    def guarded(self, depth):
        """MDAP of a number where it is at least 0 and below the number of points."""
        inner = b"\x20" + self.pushed(0) + b"\x53\x58\x2e\x1b\x21\x59"
        return self.number(depth) + b"\x20" + self.pushed(POINTS) + b"\x50\x58" + inner + b"\x1b\x21\x59"

    def statement(self, depth, calls):
        """Leaves the stack as deep as it was."""
        kind = self.random.randrange(10 if calls else 8)
        if kind == 0:
            return self.index(POINTS, depth) + b"\x2e"
        if kind == 1:
            return self.index(STORAGE, depth) + self.number(depth) + b"\x42"
        if kind == 2:
            return self.index(CONTROLS, depth) + self.number(depth) + bytes([self.random.choice([0x44, 0x44, 0x70])])
        if kind == 3:
            return self.index(POINTS, depth) + self.index(CONTROLS, depth) + b"\x3e"
        if kind == 4:
            return self.guarded(depth)
        if kind == 5:
            return self.pushed(16) + self.index(CONTROLS, depth) + self.pushed(1) + b"\x73"
        if kind < 8:
            ways = [self.statements(depth - 1, calls) if depth else b"" for _ in range(2)]
            return self.number(depth) + b"\x58" + ways[0] + b"\x1b" + ways[1] + b"\x59"
        if kind == 8:
            return self.index(FUNCTIONS, depth) + b"\x2b"
        return self.index(4, depth) + self.index(FUNCTIONS, depth) + b"\x2a"

    def statements(self, depth, calls):
        """Some statements."""
        return b"".join(self.statement(depth, calls) for _ in range(self.random.randrange(1, 4)))

    def font_program(self):
        """Defines the functions."""
        bodies = [self.statements(1, False) for _ in range(FUNCTIONS)]
        return b"".join(self.pushed(number) + b"\x2c" + body + b"\x2d" for number, body in enumerate(bodies))

    def font(self):
        """A font of random programs."""
        programs = [self.statements(2, True) for _ in range(GLYPHS)]
        glyphs = [(1).to_bytes(2, "big") + bytes(8) + (POINTS - 5).to_bytes(2, "big") + len(program).to_bytes(2, "big") + program
                  for program in programs]
        prep = self.statements(2, True) if self.random.randrange(4) else b""
        return hostile.font_of_glyphs(glyphs, self.font_program(), stack=64, functions=FUNCTIONS, storage=STORAGE, prep=prep)


# The runs.


def refused(program, file):
    """The names of the refused programs; None where the font program or the CVT program is one."""
    lines = subprocess.run([program, "verdict", "--symbolic", file], capture_output=True, text=True, check=False).stdout.splitlines()
    if not lines or lines[-1].startswith(("refused: font", "refused: cvt")):
        return None
    return {re.match(r"refused (\S+) ", line)[1] for line in lines[:-1]}


def run(setting, functions, memory, source):
    """Runs a program, and returns the run, and whether it came to its end."""
    state = checker.State([], [0, 0, 0], [1, 1, 1], 1, dict(functions), {})
    made = Run(setting, state, memory, source)
    try:
        return made, made.to_end()
    except checker.Refusal as fault:
        raise AssertionError(f"fault {fault.args[0]}, memory {memory}") from None


def mixed(source, before, after):
    """A memory of which each entry is that of one of these."""
    return {entry: source.choice([before, after])[entry] for entry in before}


def run_font(font, accepted, source, most):
    """Runs the programs of a font; returns how many runs of glyph programs were made, and their steps."""
    main, prep = checker.read_program(font.font_program), checker.read_program(font.cvt_program)
    first, ended = run(checker.Setting(font.limits, 0, main, main, main, 0, 0), {}, any_memory(source), source)
    if not ended:
        return 0, 0
    memory = any_memory(source)
    second, ended = run(checker.Setting(font.limits, 1, prep, main, prep, 0, 0), first.state.functions, memory, source)
    if not ended:
        return 0, 0
    steps, before = 0, memory
    numbers = [source.choice(accepted) for _ in range(min(most, 3 * len(accepted)))]
    for number in numbers:
        glyph = font.glyphs[number]
        setting = checker.Setting(font.limits, 2, checker.read_program(glyph.program), main, prep, glyph.points + 4, glyph.contours)
        before = mixed(source, before, memory)
        memory = dict(before)
        made, _ = run(setting, second.state.functions, memory, source)
        steps += made.steps
    return len(numbers), steps


def main():
    words = [word for word in sys.argv[1:] if word != "--exchanged"]
    if not words:
        print(__doc__, file=sys.stderr)
        return 2
    Machine.is_exchanged = len(words) < len(sys.argv) - 1
    program, wanted = words[0], int((words[1:] or ["10000"])[0])
    source = random.Random(int((words[2:] or ["1"])[0]))
    runs = steps = taken = all_programs = 0
    with tempfile.TemporaryDirectory(prefix="runs-") as folder:
        file = pathlib.Path(folder) / "font.ttf"
        while runs < wanted:
            data = Writer(source).font()
            file.write_bytes(data)
            names = refused(program, str(file))
            if names is None:
                continue
            accepted = [number for number in range(GLYPHS) if f"g{number}" not in names]
            all_programs += GLYPHS
            taken += len(accepted)
            try:
                made = run_font(checker.read_font(data), accepted, source, wanted - runs) if accepted else (0, 0)
            except AssertionError as fault:
                print(f"{fault}: font {data.hex()}")
                return 1
            runs, steps = runs + made[0], steps + made[1]
    print(f"{runs} runs of {taken} accepted programs, of {all_programs}: {steps} steps, no fault")
    return 0


if __name__ == "__main__":
    sys.exit(main())
