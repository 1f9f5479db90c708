#!/usr/bin/env python3
"""Compares what hintcheck answers in objects of JSON, read by Python's json, with what it answers in lines.

Usage: bench/json_reader.py [--strict | --symbolic] [--jobs N] [PROGRAM [FOLDER..]]
PROGRAM is a built hintcheck: crates/hintcheck_cli/out/hintcheck_cli where no other is named. The fonts are those of the folders, /usr/share/fonts
where none is named, 200 at most; those of examples; files that aren't there or aren't fonts; some with names in which quotes, a tab and line feeds
stand; and one that is made here: of its 65,535 glyphs each pops from an empty stack. Of each, `verdict --json` is compared with `verdict`,
`scan --json --causes --needs` with the lines of `scan --causes --needs`, and `explain --json` with `explain`, of glyph 0: the status, how many
programs there are, how many are refused and in which class, and the name, the place, the number and the text of each refusal, or of the fault. They
are asked by both profiles, with --strict or --symbolic by that one alone. Of the fonts that are made here `scan --write-expect` and `scan --expect`
are compared too, with the file that is written, and `scan --all-needs`; and a collection of them with its faces. The members must be those that
docs/JSON.md names. N fonts are asked at a time, as many as there are processors where no number is named. What differs is printed, and the exit
status is then 1.
"""

from __future__ import annotations

import argparse
import collections
import concurrent.futures
import json
import os
import pathlib
import re
import struct
import subprocess
import sys
import tempfile
import typing

TOP = pathlib.Path(__file__).resolve().parent.parent
PROGRAM = TOP / "crates/hintcheck_cli/out/hintcheck_cli"
FONTS = pathlib.Path("/usr/share/fonts")
EXAMPLES = TOP / "examples"
MOST = 200
MOST_SECONDS = 600

# The members of an object in their order, which begin alike. `face` is there in objects of collections alone, `refused` of an explanation where the
# program is refused.
BEGINNING = ["version", "tool", "file", "profile", "status"]
VERDICT = [*BEGINNING, "programs", "refused"]
MORE = [*VERDICT, "causes", "needs"]
EXPLANATION = [*BEGINNING, "program", "refused", "lines"]
FAULT = [*BEGINNING, "fault"]
TOOL = ["name", "version"]
# The members of a refused program; the glyph's name may be left out. In an explanation some more follow, of which the operand may be left out.
REFUSED = ["program", "glyph", "place", "offset", "reason", "name", "class"]
EXPLAINED = [*REFUSED, "certain", "operand", "calls"]
OPTIONAL = {"glyph", "operand"}

# How the lines name a program that ends the verdict, and how many programs of a cause they name.
ENDING = {"f": "font program", "p": "cvt program"}
NAMED = 5

# A glyph of one contour with a program of two bytes: `POP POP`. Its room is a multiple of 256 bytes, so that its place is easily written.
GLYPH = struct.pack(">hhhhhHH", 1, 0, 0, 0, 0, 0, 2) + b"\x21\x21"
GLYPHS = 65_535
# How many faces the collection has that is made here.
FACES = 3
# What a font of few such glyphs needs: with any numbers the same programs are refused, but for one that allows two bytes of instructions.
ALL_NEEDS = (
    "  needs maxStackElements 0 of 8, maxStorage 0 of 4, maxFunctionDefs 0 of 2, control values 0 of 0, "
    "maxTwilightPoints 0 of 4, maxZones 0 of 2, maxSizeOfInstructions 2 of 64"
)
NO_NEEDS = "  needs no other number"
FEW = 100


class Ran(typing.NamedTuple):
    """What a run answers: its exit status, and the lines of both outputs."""

    status: int
    lines: list[str]
    errors: list[str]


class Asked(typing.NamedTuple):
    """The program, and by which profile it is asked: `strict`, `symbolic` or `both`."""

    program: pathlib.Path
    profile: str

    def run(self, command: str, *words: str) -> Ran:
        """Runs a command at these words; what it asks without an option differs."""
        usual = "strict" if command == "verdict" else "both"
        options = [] if self.profile == usual else [f"--{self.profile}"]
        ran = subprocess.run(
            [self.program, command, *options, *words], stdin=subprocess.DEVNULL, capture_output=True, timeout=MOST_SECONDS, check=False
        )
        return Ran(ran.returncode, lines_of(ran.stdout), lines_of(ran.stderr))

    def is_profile_of(self, told: dict) -> bool:
        """Whether an object may tell its profile: the one that was asked, or of both the one that accepts, the strict one first."""
        if self.profile != "both" or "fault" in told:
            return told["profile"] == self.profile
        return told["profile"] == "symbolic" or (told["profile"] == "strict" and told.get("refused", []) == [])


def table(tag: bytes, data: bytes, offset: int) -> bytes:
    """The record of a table at this offset."""
    return struct.pack(">4sIII", tag, 0, offset, len(data))


def refused_font(glyphs: int) -> bytes:
    """A font of so many glyphs, of which each program is refused."""
    maxp = struct.pack(">IH13H", 0x00010000, glyphs, 4, 1, 0, 0, 2, 4, 4, 2, 0, 8, 64, 0, 0)
    head = bytes(50) + struct.pack(">HH", 1, 0)
    loca = b"".join(struct.pack(">I", len(GLYPH) * number) for number in range(glyphs + 1))
    tables = {b"glyf": GLYPH * glyphs, b"head": head, b"loca": loca, b"maxp": maxp}
    offset = 12 + 16 * len(tables)
    directory, body = b"", b""
    for tag, data in sorted(tables.items()):
        directory += table(tag, data, offset + len(body))
        body += data + bytes(-len(data) % 4)
    return struct.pack(">IHHHH", 0x00010000, len(tables), 0, 0, 0) + directory + body


def lines_of(printed: bytes) -> list[str]:
    """The lines of what is printed: a line feed alone ends one, and the last one has its end too."""
    *lines, rest = printed.decode().split("\n")
    return [*lines, f"{rest} (without an end)"] if rest else lines


def read_object(line: str) -> dict:
    """The object in a line, whose members each come once."""

    def once(pairs: list[tuple[str, typing.Any]]) -> dict:
        counts = collections.Counter(name for name, _ in pairs)
        if max(counts.values(), default=0) > 1:
            raise ValueError(f"a member comes twice: {counts.most_common(1)[0][0]}")
        return dict(pairs)

    return json.loads(line, object_pairs_hook=once)


def shown(name: str) -> str:
    """The name of a file as lines show it: control bytes by their digits."""
    return re.sub(r"[\x00-\x1f\x7f]", lambda found: f"\\x{ord(found[0]):02x}", name)


def refusal_line(refused: dict) -> str:
    """The line with which `verdict` tells the refused program of an object."""
    where = f"{refused['place']}:{refused['offset']}"
    return f"refused {refused['program']} at {where}: {refused['reason']} {refused['name']}"


def end(told: dict) -> str:
    """What a line that tells an object says of the profile."""
    return " (symbolic)" if told["profile"] == "symbolic" else ""


def fault_line(told: dict) -> str:
    """How the line of a scan tells the fault of an object."""
    return f"fault: {told['fault']['number']} {told['fault']['text']}"


def fault_lines(told: dict) -> list[str]:
    """How lines on the error output tell the fault of an object: what helps is in a line of its own, and names the file where that can't be read."""
    line, _, note = fault_line(told).partition(": ")[2].partition(": ")
    name = f"{told['file']}: " if told["fault"]["number"] == 44 else ""
    return [f"fault: {line}", *(f"note: {name}{note}".split("\n") if note else [])]


def last_line(told: dict) -> str:
    """The last line with which `verdict` tells an object, but for the profile."""
    refused = told["refused"]
    if not refused:
        return f"accepted: {told['programs']} programs"
    ending = ENDING.get(refused[0]["program"])
    return f"refused: {ending}" if ending else f"refused: {len(refused)} of {told['programs']} programs"


def label(told: dict) -> str:
    """What lines call the font of an object."""
    return shown(told["file"]) + (f"#{told['face']}" if "face" in told else "")


def scan_line(told: dict) -> str:
    """The line with which `scan` tells an object."""
    name = label(told)
    if "fault" in told:
        return f"{name}: {fault_line(told)}"
    refused = told["refused"]
    if refused and refused[0]["program"] in ENDING:
        return f"{name}: {last_line(told)} ({refused[0]['class']}){end(told)}"
    if not refused:
        return f"{name}: {last_line(told)}{end(told)}"
    classes = collections.Counter(one["class"] for one in refused)
    text = f"{classes['possible fault']} possible faults, {classes['undecided']} undecided"
    if classes["left out"]:
        text += f", {classes['left out']} left out"
    return f"{name}: {last_line(told)} ({text}){end(told)}"


def causes_of(told: dict) -> list[list[dict]]:
    """The refused programs of an object by their causes, the most frequent one first."""
    causes: dict[tuple, list[dict]] = {}
    for refused in told.get("refused", []):
        where = (refused["place"], refused["offset"]) if refused["place"] in ENDING else ()
        causes.setdefault((where, refused["reason"]), []).append(refused)
    return sorted(causes.values(), key=lambda programs: -len(programs))


def cause_line(programs: list[dict]) -> str:
    """The line with which `scan --causes` tells a cause."""
    first = programs[0]
    where = f"{first['place']}:{first['offset']}" if first["place"] in ENDING else "in glyph programs"
    names = [one["program"] + (f" ({one['glyph']})" if "glyph" in one else "") for one in programs[:NAMED]]
    more = ", ..." if len(programs) > NAMED else ""
    count = f"{len(programs)} program{'s' if len(programs) > 1 else ''}"
    return f"  {count}: {where}: {first['reason']} {first['name']} ({first['class']}): {', '.join(names)}{more}"


def cause_object(programs: list[dict]) -> dict:
    """How an object tells a cause."""
    first = programs[0]
    place = {name: first[name] for name in ("place", "offset")} if first["place"] in ENDING else {}
    names = [one["program"] for one in programs[:NAMED]]
    return {"programs": len(programs), **place, "reason": first["reason"], "class": first["class"], "first": names}


def need_text(need: dict) -> str:
    """What a line tells of a need."""
    least, enough = need["least"], need["enough"]
    return f"{need['name']} {least if least == enough else f'{least} to {enough}'} of {need['declared']}"


def need_line(told: dict) -> str:
    """The line with which `scan --needs` tells the needs of an object."""
    return f"  needs {', '.join(map(need_text, told['needs']))}" if told["needs"] else NO_NEEDS


def more_lines(told: dict) -> list[str]:
    """The lines with which `scan --causes --needs` tells an object."""
    more = [] if "fault" in told else [*map(cause_line, causes_of(told)), need_line(told)]
    return [scan_line(told), *more]


def without(told: dict, *members: str) -> dict:
    """An object without these members."""
    return {name: value for name, value in told.items() if name not in members}


def wrong_members(told: dict, wanted: list[str], of_refused: list[str] = REFUSED) -> str | None:
    """Which members an object should have, these or those of a fault, where it has others."""
    wanted = FAULT if "fault" in told else wanted
    if list(without(told, "face")) != wanted or ("face" in told and list(told).index("face") != wanted.index("profile")):
        return f"members {list(told)}, not {wanted}"
    if list(told["tool"]) != TOOL:
        return f"members {list(told['tool'])} of the tool"
    refusals = told.get("refused", [])
    for refused in refusals if isinstance(refusals, list) else [refusals]:
        if list(refused) != [name for name in of_refused if name in refused or name not in OPTIONAL]:
            return f"members {list(refused)} of a refused program"
    return None


def verdict_lines(told: dict) -> tuple[list[str], list[str]]:
    """The lines with which `verdict` tells an object on both outputs."""
    if "fault" in told:
        return [], fault_lines(told)
    return [refusal_line(one) for one in told["refused"]] + [last_line(told) + end(told)], []


def unequal(*pairs: tuple[str, typing.Any, typing.Any]) -> list[str]:
    """What differs of these pairs, each with a word for it."""
    return [f"{what}: {one}, not {other}"[:400] for what, one, other in pairs if one != other]


def verdict_differences(asked: Asked, font: str) -> list[str]:
    """What differs between the object of a font's verdict and its lines."""
    told, lines = asked.run("verdict", "--json", font), asked.run("verdict", font)
    scanned, scan = asked.run("scan", "--json", font), asked.run("scan", font)
    if len(told.lines) != 1 or told.errors or scanned != told:
        return [f"no object alone, or two: {told.errors or scanned.errors or told.lines[1:2]}"]
    answer = read_object(told.lines[0])
    wrong = wrong_members(answer, VERDICT)
    if wrong:
        return [wrong]
    return unequal(
        ("the version", answer["version"], 1),
        ("the file", answer["file"], font),
        ("the profile", asked.is_profile_of(answer), True),
        ("the status", {answer["status"], told.status, lines.status, scan.status}, {answer["status"]}),
        ("verdict", (lines.lines, lines.errors), verdict_lines(answer)),
        ("scan", scan.lines, [scan_line(answer)]),
    ) + more_differences(asked, font, answer)


def more_differences(asked: Asked, font: str, answer: dict) -> list[str]:
    """What differs between this object of a font, the one with causes and needs, and the lines with these."""
    told, lines = asked.run("scan", "--json", "--causes", "--needs", font), asked.run("scan", "--causes", "--needs", font)
    more = read_object(told.lines[0])
    wrong = wrong_members(more, MORE)
    if wrong:
        return [f"scan --json --causes --needs: {wrong}"]
    return unequal(
        ("scan --json --causes --needs", without(more, "causes", "needs"), answer),
        ("the causes", more.get("causes"), None if "fault" in more else [*map(cause_object, causes_of(more))]),
        ("scan --causes --needs", (lines.status, lines.lines), (told.status, more_lines(more))),
    )


def first_lines(answer: dict, program: str) -> list[str]:
    """The lines with which the explanation of an object begins."""
    if "refused" not in answer:
        return [f"accepted {program}{end(answer)}"]
    refused = answer["refused"]
    before = [] if refused["program"] == program else [f"not checked: the {ENDING.get(refused['program'])} is refused"]
    return [*before, refusal_line(refused)]


def explanation_differences(asked: Asked, font: str, program: str) -> list[str]:
    """What differs between the object of the explanation of a font's program and its lines."""
    told, lines = asked.run("explain", "--json", font, program), asked.run("explain", font, program)
    if told == lines and not told.lines and told.errors[0].startswith("fault: words: PROGRAM"):
        return []
    if len(told.lines) != 1 or told.errors:
        return [f"explain --json: no object alone: {told.errors or told.lines[1:2]}"]
    answer = read_object(told.lines[0])
    wrong = wrong_members(answer, [name for name in EXPLANATION if name != "refused" or "refused" in answer], EXPLAINED)
    if wrong:
        return [f"explain --json: {wrong}"]
    faults = fault_lines(answer) if "fault" in answer else []
    begun = [] if faults else first_lines(answer, program)
    return unequal(
        ("explain: the file", answer["file"], font),
        ("explain: the program", answer.get("program", program), program),
        ("explain: the profile", asked.profile in ("both", answer["profile"]), True),
        ("explain: the status", {answer["status"], told.status, lines.status}, {answer["status"]}),
        ("explain: refused exactly with status 1", "refused" in answer, answer["status"] == 1),
        ("explain: the lines", (answer.get("lines", []), faults), (lines.lines, lines.errors)),
        ("explain: the first lines", lines.lines[: len(begun)], begun),
    )


def summary(refused: int, known: str = "") -> str:
    """The line that counts the one font of a scan, of which so many programs are refused, and what is said of known ones."""
    return f"1 font: {int(not refused)} accepted, {int(refused > 0)} refused, 0 without an answer{known}"


def known_text(count: int, unmet: int) -> str:
    """What that line says where this many refusals are known, and so many lines weren't met."""
    return f", {count} known refusal{'s' * (count != 1)}, {unmet} of FILE not met"


def known_differences(asked: Asked, font: str, answer: dict, room: pathlib.Path) -> list[str]:
    """What differs between the object of a font that is made here, and what `scan` tells and writes with a file of known refusals."""
    line, count = scan_line(answer), len(answer["refused"])
    held = [f"{one['reason']} {one['program']} {font}" for one in answer["refused"]]
    last = answer["refused"][-1]
    new = f"  new: {last['reason']} {last['program']} at {last['place']}:{last['offset']} {font}"
    file, again = room / "known refusals", room / "known again"
    written = asked.run("scan", "--write-expect", str(file), font)
    found = unequal(("the file of known refusals", lines_of(file.read_bytes()), held))
    file.write_text("".join(one + "\n" for one in [*reversed(held), f"26 g0 {font}.old"]))
    known = asked.run("scan", "--expect", str(file), font)
    file.write_text("".join(one + "\n" for one in held[:-1]))
    fewer = asked.run("scan", "--expect", str(file), "--write-expect", str(again), font)
    return found + unequal(
        ("scan --write-expect", written, Ran(1, [line], [summary(count)])),
        ("scan --expect", known, Ran(0, [line], [summary(count, known_text(count, 1))])),
        ("scan --expect, without the last one", fewer, Ran(1, [line, new], [summary(count, known_text(count - 1, 0))])),
        ("the file that is written again", lines_of(again.read_bytes()), held),
    )


def made_differences(asked: Asked, font: str, room: pathlib.Path) -> list[str]:
    """What differs between the object of a font that is made here, and what `scan` tells of all needs and of known refusals."""
    answer = read_object(asked.run("scan", "--json", font).lines[0])
    found = []
    if len(answer["refused"]) <= FEW:
        needs = asked.run("scan", "--all-needs", font)
        found = unequal(("scan --all-needs", needs[:2], (1, [scan_line(answer), ALL_NEEDS])))
    if "\n" not in font:
        return found + known_differences(asked, font, answer, room)
    file = room / "unwritten"
    refused = Ran(2, [], ["fault: words: FONT", "note: a font has a line feed in its name"])
    return found + unequal(("scan --write-expect", asked.run("scan", "--write-expect", str(file), font), refused), ("the file", file.exists(), False))


def face_differences(asked: Asked, collection: str) -> list[str]:
    """What differs between the objects of the faces of a collection and its lines, and of one face that is named."""
    told, lines = asked.run("scan", "--json", collection), asked.run("scan", collection)
    answers = [read_object(line) for line in told.lines]
    wrong = [text for answer in answers if (text := wrong_members(answer, VERDICT))]
    if wrong or len(answers) != FACES:
        return wrong or [f"{len(answers)} objects for {FACES} faces"]
    one = asked.run("verdict", "--json", "--face", "1", collection)
    unnamed = read_object(asked.run("verdict", "--json", collection).lines[0])
    fault = {"number": 16, "text": f"collection of {FACES} faces: name one by --face, 0 to {FACES - 1}"}
    return unequal(
        ("the faces", [answer["face"] for answer in answers], list(range(FACES))),
        ("scan", lines.lines, [scan_line(answer) for answer in answers]),
        ("verdict --face 1", one.lines, told.lines[1:2]),
        ("verdict", unnamed.get("fault"), fault),
    )


def moved(font: bytes, place: int) -> bytes:
    """A font file as it stands at this place of a collection: its directory has the offsets of tables from the collection's beginning."""
    records = bytearray(font)
    for number in range(int.from_bytes(font[4:6], "big")):
        at = 12 + 16 * number + 8
        records[at : at + 4] = struct.pack(">I", place + int.from_bytes(font[at : at + 4], "big"))
    return bytes(records)


def collection_of(fonts: list[bytes]) -> bytes:
    """A collection of these fonts."""
    places = [12 + 4 * len(fonts)]
    for font in fonts:
        places.append(places[-1] + len(font))
    head = struct.pack(f">4sII{len(fonts)}I", b"ttcf", 0x00010000, len(fonts), *places[:-1])
    return head + b"".join(map(moved, fonts, places))


def make_fonts(room: pathlib.Path) -> list[str]:
    """Makes fonts whose programs are refused, the first one with as many as a font can have, and returns their names."""
    names = {
        'each "glyph" is refused\\.ttf': GLYPHS,
        "good.ttf: accepted: 3 programs\nnot.ttf": 3,
        "\n\x01\t\x7f\u2028\x85\u00e9.ttf": 7,
    }
    for name, glyphs in names.items():
        (room / name).write_bytes(refused_font(glyphs))
    return [str(room / name) for name in names]


def differences(asked: Asked, font: str, room: pathlib.Path | None) -> list[str]:
    """What differs between the objects of a font and its lines; the folder is for what a font that is made here is asked."""
    found = verdict_differences(asked, font) + explanation_differences(asked, font, "g0")
    return found + made_differences(asked, font, room) if room else found


def read_words() -> argparse.Namespace:
    """The words of the command line."""
    reader = argparse.ArgumentParser(usage=__doc__.split("\n\n")[1].splitlines()[0].removeprefix("Usage: "))
    profile = reader.add_mutually_exclusive_group()
    profile.add_argument("--strict", dest="profile", action="store_const", const="strict", default="both")
    profile.add_argument("--symbolic", dest="profile", action="store_const", const="symbolic")
    reader.add_argument("--jobs", type=int, default=os.cpu_count() or 1)
    reader.add_argument("program", nargs="?", type=pathlib.Path, default=PROGRAM)
    reader.add_argument("folders", nargs="*", type=pathlib.Path, default=[FONTS])
    return reader.parse_args()


def main() -> int:
    """Compares the answers on all fonts."""
    words = read_words()
    asked = Asked(words.program.resolve(), words.profile)
    with tempfile.TemporaryDirectory() as folder:
        room = pathlib.Path(folder)
        empty = room / "empty.ttf"
        empty.write_bytes(b"")
        made = make_fonts(room)
        fonts = [str(font) for font in sorted(font for place in words.folders for font in place.rglob("*.[to]tf"))[:MOST]]
        fonts += [str(font) for font in sorted(EXAMPLES.rglob("*.ttf"))]
        fonts += [str(empty), str(room), str(room / 'no "such"\t.ttf'), str(room / "no such\n.ttf")]
        with concurrent.futures.ThreadPoolExecutor(words.jobs) as pool:
            found = dict(zip(fonts, pool.map(lambda font: differences(asked, font, None), fonts)))
        found |= {font: differences(asked, font, room) for font in made}
        collection = room / "collection.ttc"
        collection.write_bytes(collection_of([refused_font(glyphs) for glyphs in range(1, FACES + 1)]))
        found[str(collection)] = face_differences(asked, str(collection))
    differ = {font: told for font, told in found.items() if told}
    for font, told in differ.items():
        for one in told:
            print(f"{shown(font)}: {one}")
    print(f"{len(found)} files, {len(differ)} differ")
    return 1 if differ else 0


if __name__ == "__main__":
    sys.exit(main())
