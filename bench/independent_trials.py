#!/usr/bin/env python3
"""Compares examples/checker.py with hintcheck where it isn't built: by `rt try`, without a proof.

Usage: bench/independent_trials.py [FONT..]
The answers of examples/certificates/answers.txt, and those that examples/checker.py gives of the
fonts and certificates there with CHANGES changes each, become cases of hintcheck_cases. So do, for
each FONT whose programs the plain search of bench/reasons.py accepts, the certificate of what it
finds, which `find` has to write byte by byte, and changes of it. Then `rt try` compiles
hintcheck_cases and runs the cases, some minutes each; it prints those that differ.
"""

import collections.abc
import pathlib
import random
import subprocess
import sys
import tempfile
import time

TOP = pathlib.Path(__file__).resolve().parent.parent
sys.path += [str(TOP / "examples"), str(TOP / "bench")]

import checker  # noqa: E402  (the folders are only known here)
import reasons  # noqa: E402
import vectors  # noqa: E402

CHANGES = 20
# Of certificates of fonts that are given there are fewer changes.
FEW_CHANGES = 5
# How long a search of a font may take, and the run of all cases.
SEARCH_SECONDS, RUN_SECONDS = 60, 900


def told(font: bytes, certificate: bytes) -> vectors.Answer:
    """What the second checker answers."""
    try:
        lines, accepted = checker.Certificate(checker.read_font(font), certificate).answer()
    except checker.Fault as fault:
        return vectors.Answer(2, [], [f"fault: {fault}"])
    return vectors.Answer(0 if accepted else 1, lines, [])


def change(chance: random.Random, data: bytes) -> tuple[int, bytes, int]:
    """A change: up to where the bytes stay, what comes then, and from where they stay."""
    at = chance.randrange(len(data))
    kind = chance.random()
    if kind < 0.6:
        near = [(data[at] + 1) % 256, (data[at] - 1) % 256, chance.randrange(256)]
        return at, bytes([chance.choice([0, 1, 2, 3, 255, *near])]), at + 1
    if kind < 0.75:
        return at, b"", min(len(data), at + chance.choice([1, 2, 4, 6, 18]))
    if kind < 0.9:
        return at, chance.choice([b"\0", b"\1", bytes(2), bytes(5), chance.randbytes(1)]), at
    return at, b"", len(data)


def case(font: str, certificate: str, data: bytes | None, answer: vectors.Answer) -> list[str]:
    """The lines of a case of `check`, with the bytes that the certificate has."""
    notes = []
    if data and any(fault.endswith(" at byte 0") for fault in answer.faults):
        notes = ["not a certificate"]
    if "fault: 44 read" in answer.faults:
        notes = ["none: no such file"]
    return [f"run check {font} {certificate} -> {answer.status}",
            *(f"| {line}" for line in answer.lines), *(f"! {fault}" for fault in answer.faults),
            *(f"! note: {note}" for note in notes)]


def file_line(name: str, data: bytes) -> str:
    """The line that writes a file."""
    return f"file {name} = {data.hex().upper()}"


def changed_line(name: str, of: str, data: bytes, changed: tuple[int, bytes, int]) -> str:
    """The line that writes a file that is another one with a change."""
    start, put, end = changed
    parts = [f"@{of}:0:{start}"] if start else []
    parts += [put.hex().upper()] if put else []
    parts += [f"@{of}:{end}:{len(data)}"] if end < len(data) else []
    return f"file {name} = {' '.join(parts)}"


def changed_cases(font: tuple[str, bytes], certificate: tuple[str, bytes],
                  count: int) -> collections.abc.Iterator[str]:
    """The certificate with so many changes, one at a time, the same ones each time."""
    name, data = certificate
    chance = random.Random(len(data))
    for _ in range(count):
        start, put, end = changed = change(chance, data)
        text = data[:start] + put + data[end:]
        yield changed_line("changed.cert", name, data, changed)
        yield from case(font[0], "changed.cert", text, told(font[1], text))


def changed_font_cases(font: tuple[str, bytes], certificate: tuple[str, bytes],
                       count: int) -> collections.abc.Iterator[str]:
    """The same of changes of the font."""
    name, data = font
    chance = random.Random(len(data))
    for _ in range(count):
        start, put, end = changed = change(chance, data)
        yield changed_line("changed.ttf", name, data, changed)
        yield from case("changed.ttf", *certificate,
                        told(data[:start] + put + data[end:], certificate[1]))


def vector_cases() -> collections.abc.Iterator[str]:
    """The answers of the list, and changes of its files."""
    made, asked = vectors.read_list()
    for vector in asked:
        names, files = [], vector.files()
        for name, data in zip(("asked.ttf", "asked.cert"), files):
            names.append(name if data is not None else "none")
            if data is not None:
                yield file_line(name, data)
        yield from case(*names, files[1], vector.answer)
    for each in made:
        font, certificate = vectors.files_of(each).items()
        yield file_line(*font)
        yield file_line(*certificate)
        yield from changed_cases(font, certificate, CHANGES)
        yield from changed_font_cases(font, certificate, CHANGES)


def listed(check: checker.Check) -> set[tuple[int, int]]:
    """The places that may not be left out of what a search found: the start, the end, and those to
    which something other than the instruction just before leads."""
    places = {(0, 0)}
    for context, states in enumerate(check.family.states):
        for offset, state in states.items():
            if check.is_end(context, offset):
                places.add((context, offset))
                continue
            instruction = check.program(context)[0].instructions[offset]
            for to in check.step(context, offset, instruction, state.copy()):
                if (to.context, to.offset) != (context, instruction.after):
                    places.add((to.context, to.offset))
    return places


def in_order(check: checker.Check) -> checker.Family:
    """What a search found, without what may be left out, its contexts in the order of a file."""
    family, places = check.family, listed(check)
    inner: dict[int, list[int]] = {}
    for context, call in enumerate(family.calls):
        if call:
            inner.setdefault(call.parent, []).append(context)
    order = [0]
    for context in order:
        order += sorted(inner.get(context, []), key=lambda other: family.calls[other])
    numbers = {context: number for number, context in enumerate(order)}
    calls: list[checker.Call | None] = [None]
    for context in order[1:]:
        call = family.calls[context]
        calls.append(checker.Call(numbers[call.parent], call.call, call.body, call.turn, call.count))
    states = [{offset: state for offset, state in family.states[context].items()
               if (context, offset) in places} for context in order]
    return checker.Family(calls, states)


def certificate_of(font: checker.Font) -> bytes | None:
    """The certificate of what a search finds, where it accepts all programs in its time."""
    functions: dict[int, int] = {}
    programs: list[checker.Program] = []
    text = b"HCRT\0\4" + (len(font.glyphs) + 2).to_bytes(4, "big")
    glyphs = [(glyph.program, glyph.points + 4, glyph.contours) for glyph in font.glyphs]
    since = time.monotonic()
    try:
        for number, (data, points, contours) in enumerate([(font.font_program, 0, 0),
                                                           (font.cvt_program, 0, 0), *glyphs]):
            main, kind = checker.read_program(data), min(number, 2)
            programs += [main] if kind < 2 else []
            setting = checker.Setting(font.limits, kind, main, programs[0], programs[-1], points,
                                      contours)
            search = reasons.Search(setting)
            found = search.run(functions)
            functions = found if kind < 2 else functions
            text += vectors.section_text(kind, max(number - 2, 0), in_order(search.check), 4)
            if time.monotonic() - since > SEARCH_SECONDS:
                return None
    except checker.Broken:
        return None
    return text


def font_cases(path: pathlib.Path, folder: pathlib.Path) -> collections.abc.Iterator[str]:
    """The cases of a font, whose certificate is written to the folder."""
    data = path.read_bytes()
    font = checker.read_font(data)
    text = certificate_of(font)
    if text is None:
        print(f"{path.name}: not accepted by the search, or not in its time")
        return
    name = f"{path.name}.cert"
    (folder / name).write_bytes(text)
    yield f"run find {path.name} found.cert -> 0"
    yield f"| accepted: {len(font.glyphs) + 2} programs"
    yield f"compare found.cert {name} -> same"
    yield from case(path.name, name, text, told(data, text))
    yield from changed_cases((path.name, data), (name, text), FEW_CHANGES)
    print(f"{path.name}: a certificate of {len(text)} bytes", flush=True)


def main(words: list[str]) -> int:
    """Writes the cases, and runs them."""
    fonts = [pathlib.Path(word).resolve() for word in words]
    with tempfile.TemporaryDirectory() as name:
        folder, cases = pathlib.Path(name), {"vectors.txt": list(vector_cases())}
        for font in fonts:
            cases[f"{font.name}.txt"] = list(font_cases(font, folder))
        for file, lines in cases.items():
            (folder / file).write_text("\n".join(lines) + "\n")
        data = [word for file in [*folder.iterdir(), *fonts]
                for word in ("--data", f"{file.name}={file}")]
        command = ["rt", "try", "--seconds", str(RUN_SECONDS), *data, "--", *cases]
        sys.stdout.flush()
        return subprocess.run(command, cwd=TOP / "crates/hintcheck_cases", check=False).returncode


if __name__ == "__main__":
    sys.exit(main(sys.argv[1:]))
