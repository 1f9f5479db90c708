#!/usr/bin/env python3
"""Asks a second checker of certificates, examples/checker.py, the cases of hintcheck_font_cases.

Usage: bench/independent_cases.py
These are the cases of check.txt, steps.txt, cells.txt and ways.txt (`full`, `sparse`, `step`) and of
sections.txt (`section`, `cuts`) in crates/hintcheck_font_cases/data, of which docs/CASES.md has the
notation. Each that is answered otherwise is printed, and the exit status is then 1.
"""

import collections.abc
import dataclasses
import pathlib
import re
import sys

TOP = pathlib.Path(__file__).resolve().parent.parent
DATA = TOP / "crates/hintcheck_font_cases/data"
sys.path.append(str(TOP / "examples"))

import checker  # noqa: E402  (the folder is only known here)

LIMITS = {"stack": 8, "storage": 4, "functions": 2, "zones": 2, "twilight": 4, "size": 64,
          "cvt": 10, "points": 4, "contours": 1}
CALL = re.compile(r"(\d+):(\d+)>([p:\d]+?)(?:\*(\d+)(?:-(\d+))?/(\d+))?")
POINT = re.compile(r"(\d+)(?:-(\d+))?:(\d+)")


@dataclasses.dataclass
class Case:
    """A line: its place, its kind, the words after that, the expected answer and the limits."""

    place: str
    kind: str
    words: list[str]
    answer: str
    limits: dict[str, int]


def words_of(text: str) -> list[str]:
    """The words of a line; a stack is one."""
    return re.findall(r"\[[^\]]*\]\S*|\S+", text)


def cases(name: str) -> collections.abc.Iterator[Case]:
    """The cases of a file, without the lines of answers that are longer."""
    limits, before = LIMITS, ""
    for number, line in enumerate((DATA / name).read_text().splitlines(), 1):
        if not line.strip() or line.lstrip()[0] in "#|!":
            continue
        asked, arrow, answer = line.partition("->")
        if line.startswith("limits"):
            pairs = (word.split("=") for word in line.split()[1:])
            limits = LIMITS | {what: int(value) for what, value in pairs}
        elif not arrow:
            before = line
        else:
            kind, *words = words_of(before + asked if line[0] == " " else asked)
            yield Case(f"{name}:{number}", kind, words, answer.strip(), limits)


def bytes_of(text: str) -> bytes:
    """Hexadecimal digits, repeated and joined."""
    data = b""
    for part in text.replace('""', "").split("."):
        digits, _, times = part.partition("*")
        data += bytes.fromhex(digits) * int(times or 1)
    return data


def cell_of(text: str) -> checker.Cell:
    """A number, or one that isn't known."""
    return None if text == "?" else int(text)


def body_of(text: str) -> int:
    """A function's body, in the CVT program with p: before it."""
    return int(text[2:]) + checker.CVT_BODIES if text.startswith("p:") else int(text)


def body_text(body: int) -> str:
    """The same as it is written."""
    return f"p:{body - checker.CVT_BODIES}" if body >= checker.CVT_BODIES else str(body)


def start(functions: dict[int, int], stack: str) -> checker.State:
    """A state as programs start, with this stack."""
    cells = []
    for word in stack.strip("[]").split():
        number, _, times = word.partition("*")
        cells += [cell_of(number)] * int(times or 1)
    return checker.State(cells, [0, 0, 0], [1, 1, 1], 1, functions, {})


def change(state: checker.State, word: str) -> bool:
    """Changes what a word says of a state, if it says anything."""
    named = re.fullmatch(r"(rp|zp|s|loop|f)(\d*)=(\?|-?\d+|p:\d+)", word)
    if not named:
        return False
    what, index = named[1], int(named[2] or 0)
    if what == "f":
        state.functions = state.functions | {index: body_of(named[3])}
        return True
    value = cell_of(named[3])
    if what == "rp":
        state.references[index] = value
    elif what == "zp":
        state.zones[index] = checker.EITHER if value is None else value
    elif what == "loop":
        state.loop = value
    else:
        state.storage[index] = value
    return True


def joined(a: checker.State, b: checker.State) -> checker.State:
    """What two states of the cases have in common."""
    stack = [x if x == y else None for x, y in zip(a.stack, b.stack)]
    return dataclasses.replace(a, stack=stack)


def setting(programs: dict[str, bytes], limits: dict[str, int]) -> checker.Setting:
    """The last program that is given, with those before it."""
    kind = max("fpg".index(name) for name in programs)
    names = ("zones", "twilight", "storage", "functions", "stack", "size", "cvt")
    f, p, g = (checker.read_program(programs.get(name, b"")) for name in "fpg")
    return checker.Setting(checker.Limits(*(limits[name] for name in names)), kind, (f, p, g)[kind],
                           f, p if kind else f, limits["points"] + 4 if kind == 2 else 0,
                           limits["contours"] if kind == 2 else 0)


def calls_of(text: str) -> list[checker.Call]:
    """A call, or several turns of one."""
    parent, call, body, turn, last, count = CALL.fullmatch(text).groups()
    turns = range(int(turn or 1), int(last or turn or 1) + 1)
    return [checker.Call(int(parent), int(call), body_of(body), each, int(count or 1))
            for each in turns]


def refusal(reason: int, program: str | None, offset: int) -> str:
    """A refusal in the words of the cases."""
    return f"{reason} at {program + ':' if program else ''}{offset}"


def family_of(texts: list[str], functions: dict[int, int]) -> checker.Family:
    """The calls that these words list and the states, all of them with these functions."""
    calls: list[checker.Call | None] = [None]
    points: list[tuple[range, int, checker.State]] = []
    words = iter(texts)
    for word in words:
        if word == "call":
            calls += calls_of(next(words))
        elif point := POINT.fullmatch(word):
            contexts = range(int(point[1]), int(point[2] or point[1]) + 1)
            points.append((contexts, int(point[3]), start(functions, next(words))))
        elif not change(points[-1][2], word):
            raise ValueError(word)
    family = checker.Family(calls, [{} for _ in calls])
    for contexts, offset, state in points:
        for context in contexts:
            there = family.states[context].get(offset)
            family.states[context][offset] = joined(there, state) if there else state
    return family


def checked(case: Case) -> str:
    """What the check of a family tells."""
    programs: dict[str, bytes] = {}
    functions: dict[int, int] = {}
    others: list[str] = []
    for word in case.words:
        if word[1:2] == "=" and word[0] in "fpg":
            programs[word[0]] = bytes_of(word[2:])
        elif word.startswith("start="):
            functions = {0: body_of(word[6:])}
        else:
            others.append(word)
    family = family_of(others, functions)
    try:
        checker.Check(setting(programs, case.limits), family, case.kind == "sparse").run(functions)
    except checker.Broken as broken:
        return refusal(broken.reason, broken.program, broken.offset)
    return "good"


def shown(state: checker.State, before: checker.State) -> str:
    """A state, where it isn't as it was before."""
    def text(cell: checker.Cell) -> str:
        """A cell as it is written."""
        return "?" if cell is None else str(cell)

    words = ["[" + " ".join(text(cell) for cell in state.stack) + "]"]
    words += [f"rp{i}={text(state.references[i])}" for i in range(3)
              if state.references[i] != before.references[i]]
    words += [f"zp{i}={state.zones[i]}" for i in range(3) if state.zones[i] != before.zones[i]]
    words += [f"loop={text(state.loop)}"] if state.loop != before.loop else []
    words += [f"s{i}={text(state.storage.get(i))}" for i in sorted(state.storage | before.storage)
              if state.storage.get(i) != before.storage.get(i)]
    return " ".join(words)


def ways(context: int, nexts: list[checker.Next], state: str) -> str:
    """Where an instruction leads, in the words of steps.txt."""
    texts = []
    for each in nexts:
        call = each.call
        if call and call.turn > 1:
            texts.append(f"next turn {state}")
        elif call:
            turns = f"*1/{call.count}" if call.count > 1 else ""
            texts.append(f"enter {call.call}>{body_text(call.body)}{turns} {state}")
        elif each.context != context:
            texts.append(f"return {state}")
        else:
            texts.append(f"to {each.offset} {state}")
    return " or ".join(texts)


def stepped(case: Case) -> str:
    """What an instruction makes of a state."""
    named = dict(word.split("=", 1) for word in case.words if re.match(r"(f|start|at|in)=", word))
    functions = {0: body_of(named["start"])} if "start" in named else {}
    main, *others = [word for word in case.words if not re.match(r"(f|start|at|in)=", word)]
    state = start(functions, "".join(word for word in others if word[0] == "["))
    for word in others:
        change(state, word)
    calls = [None] + (calls_of("0:" + named["in"]) if "in" in named else [])
    font = bytes_of(named.get("f", ""))
    family = checker.Family(calls, [{} for _ in calls])
    check = checker.Check(setting({"f": font, "p": font, "g": bytes_of(main)}, case.limits), family,
                          False)
    context, at, before = len(calls) - 1, int(named.get("at", 0)), state.copy()
    instruction = check.program(context)[0].instructions[at]
    try:
        nexts = check.step(context, at, instruction, state)
    except checker.Refusal as refused:
        broken = check.broken(refused.args[0], calls[context], at)
        return refusal(broken.reason, broken.program, broken.offset)
    return ways(context, nexts, shown(state, before))


def section(data: bytes, form: int) -> str:
    """What reading a section tells."""
    reader = checker.Reader(data)
    reader.form = form
    name = (data[0], int.from_bytes(data[1:3], "big")) if len(data) > 2 else (0, 0)
    try:
        reader.section(*name)
    except checker.Fault as fault:
        return "43 at " + fault.args[0].split()[-1]
    return f"ends at {reader.at}"


def sections() -> collections.abc.Iterator[tuple[str, str, str]]:
    """The cases of sections: the place, what is told, and what is expected."""
    files: dict[str, bytes] = {}
    units: list[bytes] = []

    def data_of(text: str) -> bytes:
        """Bytes in words, of which some stand for those of a file."""
        parts = text.split("#")[0].split()
        return b"".join(files[part[1:]] if part[0] == "@" else bytes_of(part) for part in parts)

    for number, line in enumerate((DATA / "sections.txt").read_text().splitlines(), 1):
        asked, _, answer = line.partition(" -> ")
        place = f"sections.txt:{number}"
        if named := re.fullmatch(r"file (\w+) = (.*)", line):
            files[named[1]] = data_of(named[2])
        elif line == "units":
            units = []
        elif line.startswith("unit "):
            units.append(data_of(line[5:]))
        elif line.startswith("cuts "):
            data = b"".join(units)
            for end in range(len(data)):
                yield place, section(data[:end], 4), f"43 at {end}"
        elif "from=" in asked:
            continue  # It begins at the greatest place of 64 bits, where no file of the checker's is.
        elif one := re.fullmatch(r"section (?:form=(\d) )?(?:unit (\d+) = )?(.*)", asked):
            data = b"".join(units) if one[3] == "units" else data_of(one[3])
            if one[2]:
                data = b"".join(units[:int(one[2])] + [data] + units[int(one[2]) + 1:])
            for form in [int(one[1])] if one[1] else [3, 4]:
                yield place, section(data, form), answer


def answers() -> collections.abc.Iterator[tuple[str, str, str]]:
    """All cases: the place, what is told, and what is expected."""
    for name in ("check.txt", "steps.txt", "cells.txt", "ways.txt"):
        for case in cases(name):
            if case.kind == "step":
                yield case.place, stepped(case), case.answer
            elif case.kind in ("full", "sparse"):
                yield case.place, checked(case), case.answer
    yield from sections()


def main() -> int:
    """Asks all, and tells how many differ."""
    asked = failed = 0
    for place, told, expected in answers():
        asked += 1
        if told.strip() != expected:
            failed += 1
            print(f"{place}: {told}, not {expected}")
    print(f"{asked} cases, {failed} differ")
    return int(failed > 0)


if __name__ == "__main__":
    sys.exit(main())
