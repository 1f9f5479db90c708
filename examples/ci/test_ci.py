#!/usr/bin/env python3
"""Tests the scripts of this folder and the hook for pre-commit, on answers as docs/JSON.md has them and with a stand-in for hintcheck.

Usage: test_ci.py [WORDS of unittest..]
Some tests are skipped where they lack something: the hook needs git and pre-commit, the job for GitHub PyYAML. Logs are compared with the types that
Debian's package golang-github-haya14busa-go-sarif-dev has, which were made from the schema of SARIF, where they are there.
"""

from __future__ import annotations

import functools
import json
import os
import pathlib
import re
import shutil
import subprocess
import tempfile
import typing
import unittest
import urllib.parse

import annotations
import answers
import sarif

try:
    import yaml
except ImportError:
    yaml = None

FOLDER = pathlib.Path(__file__).resolve().parent
HOOKS = FOLDER.parent.parent / ".pre-commit-hooks.yaml"
TYPES = pathlib.Path("/usr/share/gocode/src/github.com/haya14busa/go-sarif/sarif/sarif.go")
MOST_SECONDS = 120

HOSTILE = [
    "quotes \"and\" 'others' `too`.ttf",
    "line\nfeed,\r\nand\u2028.ttf",
    "100%, 25%25 and %0A.ttf",
    "a,b=c::d:e.ttf",
    "grüße 字体.ttf",
    "back\\slash{0}[link](1).ttf",
    "::error::command.ttf",
    "http://example.org/?a=b&c#d.ttf",
    "-f $(id);&|<>.ttf",
]

UNDERFLOW = {"place": "g350", "offset": 30, "reason": 26, "name": "underflow", "class": "possible fault"}
UNKNOWN = {"place": "f", "offset": 366, "reason": 28, "name": "unknown operand", "class": "undecided"}
RECURSION = {"place": "f", "offset": 5, "reason": 25, "name": "recursion", "class": "left out"}
FAULT = {"number": 44, "text": "read: no such file"}

# What stands for hintcheck: each line of a font file is a refusal, as `26 g0`, or `fault`. It notes the words of each call in the file $CALLS.
STAND_IN = """\
#!/usr/bin/env python3
import argparse, json, os, pathlib, re, sys

def read(name):
    return pathlib.Path(name).read_bytes().decode()

reader = argparse.ArgumentParser()
reader.add_argument("command", choices=["scan"])
for option in ("--expect", "--write-expect", "--fail-on"):
    reader.add_argument(option)
for option in ("--json", "--quiet", "--files-from0"):
    reader.add_argument(option, action="store_true")
reader.add_argument("fonts", nargs="+")
words = reader.parse_args()
with open(os.environ["CALLS"], "a") as calls:
    print(json.dumps(sys.argv[1:]), file=calls)
if words.expect and not os.path.exists(words.expect):
    sys.exit(print("fault: 44 read: no such file", file=sys.stderr) or 2)
known = read(words.expect).split("\\n") if words.expect else []
fonts = words.fonts
if words.files_from0:
    fonts = [name for file in fonts for name in read(file).split("\\0")[:-1]]
status, written = 0, ""
for font in fonts:
    lines = read(font).splitlines()
    own = 2 if lines == ["fault"] else 1 if lines else 0
    told = {"version": 1, "file": font, "profile": "symbolic", "status": own}
    if own == 2:
        told["fault"] = {"number": 3, "text": "tables"}
    else:
        told["refused"] = [
            {"program": line.split()[1], "place": "f", "offset": 0, "reason": int(line.split()[0]), "name": "n", "class": "possible fault"}
            for line in lines
        ]
        written += "".join(f"{line} {font}\\n" for line in lines)
        own = int(any(f"{line} {font}" not in known for line in lines))
    if own or not words.quiet:
        shown = re.sub(r"[\\x00-\\x1f]", lambda byte: f"\\\\x{ord(byte[0]):02x}", font)
        print(json.dumps(told) if words.json else f"{shown}: {lines}")
    status = max(status, own)
if words.write_expect:
    pathlib.Path(words.write_expect).write_text(written)
sys.exit(status)
"""


def told(file: str, *refusals: dict, **members: object) -> dict:
    """The object of a font, with these refusals, or without a verdict where the members have a fault."""
    head = {"version": 1, "tool": {"name": "hintcheck", "version": "0.9.0"}, "file": file, "profile": "strict", "status": 1}
    verdict = {} if "fault" in members else {"programs": 600, "refused": list(refusals)}
    return head | verdict | members


def refused(program: str, why: dict, **members: object) -> dict:
    """The object of a refused program."""
    return {"program": program} | why | members


def read(*objects: dict) -> list[answers.Answer]:
    """The answers of these objects."""
    return answers.read_answers(json.dumps(one).encode() + b"\n" for one in objects)


def known(*lines: str) -> answers.Known:
    """Known refusals of these lines."""
    return answers.Known(frozenset(line.encode() for line in lines))


def log_of(*objects: dict, listed: answers.Known | None = None, pages: str | None = None) -> dict:
    """The run of the log of these objects."""
    return sarif.log(read(*objects), listed, sarif.PAGE.read_text(), pages)["runs"][0]


def commands_of(*objects: dict, listed: answers.Known | None = None) -> list[str]:
    """The commands for GitHub of these objects."""
    return [line for answer in read(*objects) for line in annotations.lines(answer, listed)]


class Command(typing.NamedTuple):
    """A workflow command as GitHub's runner reads it."""

    name: str
    properties: dict[str, str]
    message: str


def command_of(line: str) -> Command:
    """Reads a command as the runner does: up to the first `::` there are properties, with commas between them."""
    name, properties, message = re.fullmatch(r"::(\w+) (.*?)::(.*)", line).groups()
    escapes = {"%0D": "\r", "%0A": "\n", "%3A": ":", "%2C": ",", "%25": "%"}

    def plain(text: str) -> str:
        return functools.reduce(lambda read, escape: read.replace(*escape), escapes.items(), text)

    pairs = (one.split("=", 1) for one in properties.split(","))
    return Command(name, {key: plain(value) for key, value in pairs}, plain(message))


class Answers(unittest.TestCase):
    """Answers and known refusals are read."""

    def test_members(self) -> None:
        answer = read(told("a.ttc", refused("g350", UNKNOWN, glyph="uni019C"), face=2, profile="symbolic", added=[1]))[0]
        self.assertEqual((answer.font, answer.profile, answer.version, answer.fault), ("a.ttc#2", "symbolic", "0.9.0", None))
        self.assertEqual((answer.refusals[0].label, answer.refusals[0].place), ("g350 (uni019C)", "f:366"))

    def test_no_verdict(self) -> None:
        for answer, wanted in zip(
            read(told("a.ttf", fault=FAULT, profile="both"), {"file": "b.ttf", "status": 124, "ended": "time"}),
            ["44 read: no such file", "hintcheck was ended: time"],
        ):
            self.assertEqual((answer.fault, answer.refusals), (wanted, ()))

    def test_unreadable(self) -> None:
        good = json.dumps(told("a.ttf")).encode()
        for line in [b"", b"{", b"[]", b"1", b'"a"', b"{}", b'{"file":"a"}', b"\xff", good + b"x", b"a.ttf: accepted: 3 programs"]:
            with self.subTest(line), self.assertRaisesRegex(answers.Unreadable, "line 2"):
                answers.read_answers([good, line])
        with self.assertRaisesRegex(answers.Unreadable, "version 2"):
            read(told("a.ttf", version=2))
        with self.assertRaisesRegex(answers.Unreadable, "no answer"):
            read()

    def test_known(self) -> None:
        answer = read(told("a b.ttf", refused("g350", UNDERFLOW, glyph="uni019C")))[0]
        for line, is_known in {
            "26 g350 a b.ttf": True,
            "26 /uni019C a b.ttf": True,
            "26 uni019C a b.ttf": False,
            "27 /uni019C a b.ttf": False,
            "27 g350 a b.ttf": False,
            "26 g351 a b.ttf": False,
            "26 g350 b.ttf": False,
        }.items():
            self.assertEqual(known(line).has(answer, answer.refusals[0]), is_known, line)

    def test_glyph_named_as_a_program(self) -> None:
        answer = read(told("a.ttf", refused("g73", UNDERFLOW, glyph="f")))[0]
        self.assertFalse(known("26 f a.ttf").has(answer, answer.refusals[0]))
        self.assertTrue(known("26 g73 a.ttf").has(answer, answer.refusals[0]))
        self.assertTrue(known("26 /f a.ttf").has(answer, answer.refusals[0]))

    def test_known_of_a_face(self) -> None:
        answer = read(told("a.ttc", refused("g350", UNDERFLOW), face=2))[0]
        self.assertTrue(known("26 g350 a.ttc#2").has(answer, answer.refusals[0]))
        self.assertFalse(known("26 g350 a.ttc").has(answer, answer.refusals[0]))

    def test_file_of_known_refusals(self) -> None:
        with tempfile.TemporaryDirectory() as folder:
            file = pathlib.Path(folder) / "known"
            file.write_bytes("26 g350 grüße.ttf\n28 f a.ttf".encode())
            self.assertEqual(answers.read_known(file), known("26 g350 grüße.ttf", "28 f a.ttf"))
            with self.assertRaisesRegex(answers.Unreadable, "No such file"):
                answers.read_known(file.with_name("nosuch"))


class Annotations(unittest.TestCase):
    """Answers are told as GitHub's workflow commands."""

    def test_one_for_each_reason(self) -> None:
        programs = [refused(f"g{number}", UNDERFLOW) for number in range(7)]
        lines = commands_of(told("a.ttf", refused("g9", UNKNOWN), *programs, refused("g10", RECURSION), profile="symbolic"))
        self.assertEqual([command_of(line).name for line in lines], ["error", "warning", "notice"])
        first = command_of(lines[0])
        self.assertEqual(first.properties, {"file": "a.ttf", "title": "26 underflow (possible fault)"})
        named = ", ".join(f"g{number} at g350:30" for number in range(5))
        self.assertEqual(first.message, f"7 programs: {named}, ... (symbolic)")

    def test_line(self) -> None:
        lines = commands_of(told("./fonts/X.ttf", refused("g350", UNDERFLOW, glyph="uni019C")))
        self.assertEqual(lines, ["::error file=fonts/X.ttf,title=26 underflow (possible fault)::1 program: g350 (uni019C) at g350:30"])

    def test_no_verdict(self) -> None:
        self.assertEqual(commands_of(told("a.ttc", fault=FAULT, face=1)), ["::error file=a.ttc,title=face 1%3A no verdict::44 read: no such file"])

    def test_known_are_left_out(self) -> None:
        font = told("a.ttf", refused("g1", UNDERFLOW), refused("g2", UNDERFLOW))
        self.assertEqual(len(commands_of(font, listed=known("26 g1 a.ttf"))), 1)
        self.assertEqual(commands_of(font, listed=known("26 g1 a.ttf", "26 g2 a.ttf")), [])
        self.assertEqual(len(commands_of(told("a.ttf", fault=FAULT), listed=known())), 1)

    def test_hostile_names(self) -> None:
        for name in HOSTILE:
            lines = commands_of(told(f"./{name}", refused("g1", UNDERFLOW, glyph='%0A::x,{"')), told(name, fault={"number": 1, "text": name}))
            for line in lines:
                self.assertNotRegex(line, r"[\r\n]")
                self.assertEqual(command_of(line).properties["file"], name.replace("//", "/"))
            self.assertEqual(command_of(lines[0]).message, '1 program: g1 (%0A::x,{") at g350:30')
            self.assertEqual(command_of(lines[1]).message, f"1 {name}")


class Sarif(unittest.TestCase):
    """Answers are told as a log in SARIF."""

    def test_levels(self) -> None:
        run = log_of(told("a.ttf", *(refused("g1", why) for why in (UNDERFLOW, UNKNOWN, RECURSION, UNDERFLOW | {"class": "new"}))))
        self.assertEqual([one["level"] for one in run["results"]], ["error", "warning", "note", "error"])
        self.assertEqual([one["ruleId"] for one in run["results"]], ["26", "28", "25", "26"])

    def test_places(self) -> None:
        run = log_of(told("./fonts/a.ttf", refused("g350", UNKNOWN, glyph="uni019C")), told("/b.ttc", refused("p", UNKNOWN), face=2))
        first, second = (one["locations"][0] for one in run["results"])
        self.assertEqual(first["physicalLocation"]["artifactLocation"], {"uri": "fonts/a.ttf", "uriBaseId": "%SRCROOT%"})
        self.assertEqual(first["logicalLocations"][0]["fullyQualifiedName"], "g350 (uni019C) at f:366")
        self.assertEqual(second["physicalLocation"]["artifactLocation"], {"uri": "file:///b.ttc"})
        self.assertEqual(second["logicalLocations"][0]["fullyQualifiedName"], "p of face 2 at f:366")

    def test_no_verdict(self) -> None:
        run = log_of(told("a.ttf"), told("b.ttf", fault=FAULT))
        told_run = run["invocations"][0]
        self.assertEqual((run["results"], told_run["executionSuccessful"]), ([], False))
        self.assertEqual([one["message"]["text"] for one in told_run["toolExecutionNotifications"]], ["There is no verdict: 44 read: no such file."])
        self.assertTrue(log_of(told("a.ttf"))["invocations"][0]["executionSuccessful"])

    def test_hostile_names(self) -> None:
        run = log_of(*(told(name, refused("g1", UNDERFLOW, glyph="{0}[a](1)\\")) for name in HOSTILE))
        for name, one in zip(HOSTILE, run["results"]):
            uri = one["locations"][0]["physicalLocation"]["artifactLocation"]["uri"]
            self.assertRegex(uri, r"\A([\w.~/-]|%[0-9A-F]{2})+\Z")
            self.assertTrue(uri.isascii())
            self.assertEqual(urllib.parse.unquote(uri), name.replace("//", "/"))
            self.assertTrue(one["message"]["text"].startswith(r"g1 ({{0}}\[a\](1)\\) is refused at"))

    def test_suppressions(self) -> None:
        font = told("a.ttf", refused("g1", UNDERFLOW), refused("g2", UNDERFLOW))
        self.assertEqual(["suppressions" in one for one in log_of(font)["results"]], [False, False])
        self.assertEqual([len(one["suppressions"]) for one in log_of(font, listed=known("26 g2 a.ttf"))["results"]], [0, 1])

    def test_fingerprints(self) -> None:
        def prints(*refusals: dict) -> list[str]:
            return [one["partialFingerprints"]["primaryLocationLineHash"] for one in log_of(told("a.ttf", *refusals))["results"]]

        named = [refused(f"g{number}", UNDERFLOW, glyph=glyph) for number, glyph in enumerate(("a", "b", None, "b"))]
        self.assertEqual(len(set(prints(*named))), 4)
        moved = refused("g7", UNDERFLOW | {"place": "g7", "offset": 40}, glyph="a")
        self.assertEqual(prints(moved), prints(named[0]))
        self.assertNotEqual(prints(named[0] | {"reason": 27}), prints(named[0]))

    def test_rules(self) -> None:
        run = log_of(told("a.ttf", refused("g1", UNDERFLOW | {"reason": 99, "name": "new reason"})))
        rules = {one["id"]: one for one in run["tool"]["driver"]["rules"]}
        headings = re.findall(r"^## (\d+) ", sarif.PAGE.read_text(), re.M)
        self.assertEqual(list(rules), [one for one in headings if one not in ("41", "42")] + ["99"])
        self.assertEqual(rules["99"], {"id": "99", "name": "NewReason", "shortDescription": {"text": "new reason"}})
        self.assertEqual((rules["28"]["name"], rules["28"]["defaultConfiguration"]["level"]), ("UnknownOperand", "warning"))
        self.assertEqual((rules["24"]["defaultConfiguration"]["level"], rules["26"]["defaultConfiguration"]["level"]), ("note", "error"))
        for one in rules.values():
            texts = [one.get(member, {}).get("text", "") for member in ("shortDescription", "fullDescription", "help")]
            self.assertNotRegex("".join(texts), r"[{}\[\]|`]|\*\*")
            self.assertNotIn("](", one.get("help", {}).get("markdown", ""))

    def test_pages(self) -> None:
        rules = {one["id"]: one for one in log_of(told("a.ttf"), pages="https://example.org/docs")["tool"]["driver"]["rules"]}
        self.assertEqual(rules["28"]["helpUri"], "https://example.org/docs/REASONS.md#28-unknown-operand")
        self.assertIn("](https://example.org/docs/EMBEDDING.md#variable-fonts)", rules["23"]["help"]["markdown"])

    def test_without_the_page(self) -> None:
        rules = sarif.rules(read(told("a.ttf", refused("g1", UNDERFLOW))), "", None)
        self.assertEqual(rules, [{"id": "26", "name": "Underflow", "shortDescription": {"text": "underflow"}}])


def types_of(text: str) -> tuple[dict[str, dict[str, tuple[str, bool]]], dict[str, set[str]]]:
    """The structs of the types in Go, each with the type of its members and whether they must be there, and the values of the other types."""
    structs, values = {}, {}
    for name, body in re.findall(r"^type (\w+) struct \{\n(.*?)^\}", text, re.M | re.S):
        members = re.findall(r'^\t\w+\s+(\S+)\s+`json:"([^",]+)(,omitempty)?"`', body, re.M)
        structs[name] = {member: (of, not may_lack) for of, member, may_lack in members}
    for name, value in re.findall(r'^\t\w+ (\w+) = "(.*)"$', text, re.M):
        values.setdefault(name, set()).add(value)
    return structs, values


class Schema(unittest.TestCase):
    """Logs are as SARIF asks for it."""

    LOG = sarif.log(
        read(
            told("a.ttf", refused("g1", UNDERFLOW), refused("p", UNKNOWN), refused("g2", RECURSION, glyph="x")),
            told("/b.ttc", face=1, fault=FAULT),
        ),
        known("26 g1 a.ttf"),
        sarif.PAGE.read_text(),
        "https://example.org",
    )

    def test_required_members(self) -> None:
        run = self.LOG["runs"][0]
        self.assertEqual(self.LOG["version"], "2.1.0")
        self.assertEqual(run["tool"]["driver"]["name"], "hintcheck")
        rules = run["tool"]["driver"]["rules"]
        self.assertEqual(len({one["id"] for one in rules}), len(rules))
        for one in [*run["results"], *run["invocations"][0]["toolExecutionNotifications"]]:
            self.assertTrue(one["message"]["text"])
            self.assertIn(one["level"], ("error", "warning", "note"))
        self.assertLessEqual({one["ruleId"] for one in run["results"]}, {one["id"] for one in rules})
        self.assertIs(run["invocations"][0]["executionSuccessful"], False)

    @unittest.skipUnless(TYPES.exists(), "golang-github-haya14busa-go-sarif-dev isn't installed")
    def test_types(self) -> None:
        self.structs, self.values = types_of(TYPES.read_text())
        self.assertEqual(list(self.faults(json.loads(json.dumps(self.LOG)), "Sarif", "log")), [])
        self.assertEqual(list(self.faults({"versions": "2.1.0", "runs": 1}, "Sarif", "log")), ["log.versions", "log.version", "log.runs"])

    def faults(self, value: object, of: str, path: str) -> typing.Iterator[str]:
        """The paths of what a value has that isn't of this type, or lacks."""
        basic = {"string": str, "bool": bool, "int64": int, "float64": (int, float)}
        of = of.removeprefix("*")
        items = re.fullmatch(r"(\[\]|map\[string\])(.*)", of)
        wanted = (list if items[1] == "[]" else dict) if items else dict if of in self.structs else basic.get(of, str)
        if not isinstance(value, wanted) or value not in self.values.get(of, [value]):
            yield path
        elif items:
            for key, one in enumerate(value) if wanted is list else value.items():
                yield from self.faults(one, items[2], f"{path}.{key}")
        elif of in self.structs:
            yield from self.faults_of_members(value, self.structs[of], path)

    def faults_of_members(self, value: dict, members: dict[str, tuple[str, bool]], path: str) -> typing.Iterator[str]:
        """The same for the members of a value that is a struct."""
        yield from (f"{path}.{member}" for member in value if member not in members)
        yield from (f"{path}.{member}" for member, (_, is_needed) in members.items() if is_needed and member not in value)
        for member in value.keys() & members.keys():
            yield from self.faults(value[member], members[member][0], f"{path}.{member}")


class Scripts(unittest.TestCase):
    """The scripts as they are run, in a folder of their own with a stand-in for hintcheck."""

    def setUp(self) -> None:
        folder = tempfile.TemporaryDirectory()
        self.addCleanup(folder.cleanup)
        self.room = pathlib.Path(folder.name)
        (self.room / "bin").mkdir()
        (self.room / "fonts").mkdir()
        (self.room / "bin/hintcheck").write_text(STAND_IN)
        (self.room / "bin/hintcheck").chmod(0o755)
        git = {f"GIT_{who}_{what}": "nobody@example.org" for who in ("AUTHOR", "COMMITTER") for what in ("NAME", "EMAIL")}
        own = {"CALLS": "calls", "HOME": folder.name, "PRE_COMMIT_HOME": f"{folder.name}/cache", "SCRIPTS": str(FOLDER)}
        self.environment = os.environ | git | own | {"CALLS": f"{folder.name}/calls", "PATH": f"{folder.name}/bin:{os.environ['PATH']}"}

    def run_words(self, *words: object, place: str = ".", text: str | None = None, **environment: str) -> subprocess.CompletedProcess:
        """Runs a command in the folder, or in one of its folders."""
        ran = {"cwd": self.room / place, "env": self.environment | environment, "input": text}
        return subprocess.run([str(word) for word in words], capture_output=True, text=True, timeout=MOST_SECONDS, check=False, **ran)

    def write(self, **files: str) -> None:
        """Writes fonts of the folder `fonts`, by their names without an ending."""
        for name, text in files.items():
            (self.room / f"fonts/{name}.ttf").write_text(text)

    def calls(self) -> list[list[str]]:
        """The words of each call of the stand-in."""
        return [json.loads(line) for line in (self.room / "calls").read_text().splitlines()]

    def test_statuses(self) -> None:
        (self.room / "hints.known").write_text("26 g350 ü.ttf\n")
        text = json.dumps(told("ü.ttf", refused("g350", UNDERFLOW)), ensure_ascii=False) + "\n"
        for script in ("sarif.py", "annotations.py"):
            ran = self.run_words(FOLDER / script, "--known", "hints.known", text=text)
            self.assertEqual((ran.returncode, ran.stderr), (0, ""))
            for words, given in (([], ""), ([], "x"), (["--known", "nosuch"], text)):
                ran = self.run_words(FOLDER / script, *words, text=given)
                self.assertEqual((ran.returncode, ran.stdout), (2, ""))
                self.assertRegex(ran.stderr, rf"\A{re.escape(script)}: .*\n\Z")

    def test_processes_share_a_file(self) -> None:
        for number, name in enumerate(HOSTILE):
            # A line of known refusals can't have a line feed.
            (self.room / "fonts" / name.replace("\n", "").replace("/", "")).write_text(f"28 g1{number}\n26 g2\n" if number != 5 else "")
        ran = self.run_words("hintcheck", "scan", "--write-expect", "whole", *sorted((self.room / "fonts").iterdir()))
        self.assertEqual(ran.returncode, 1)
        ran = self.run_words(FOLDER / "hints.sh", "whole", "now", self.room / "fonts", PROCESSES="3")
        self.assertEqual((ran.returncode, ran.stderr, ran.stdout.count("\n")), (0, "", len(HOSTILE)))
        now, whole = ((self.room / name).read_bytes().splitlines() for name in ("now", "whole"))
        self.assertEqual(sorted(now), sorted(whole))
        self.assertEqual(len(self.calls()), 4)

    def test_order_of_shared_lines(self) -> None:
        self.write(b="28 g10\n26 g9\n", a="30 p\n")
        (self.room / "known").write_text("")
        ran = self.run_words(FOLDER / "hints.sh", "known", "now", "fonts", PROCESSES="2", OPTIONS="--fail-on possible")
        self.assertEqual((ran.returncode, (self.room / "now").read_text()), (1, "30 p fonts/a.ttf\n26 g9 fonts/b.ttf\n28 g10 fonts/b.ttf\n"))
        self.assertIn("--fail-on", self.calls()[0])

    def test_no_verdict_in_a_share(self) -> None:
        self.write(a="fault\n", b="26 g1\n", c="")
        (self.room / "known").write_text("")
        self.assertEqual(self.run_words(FOLDER / "hints.sh", "known", "now", "fonts").returncode, 2)
        self.assertFalse((self.room / "now").exists())

    def test_nothing_to_share(self) -> None:
        for words in (["known", "now", "fonts"], ["known", "now", "fonts", "nosuch"], ["known", "now"]):
            ran = self.run_words(FOLDER / "hints.sh", *words)
            self.assertEqual(ran.returncode, 2)
            self.assertTrue(ran.stderr)
        self.write(a="")
        ran = self.run_words(FOLDER / "hints.sh", "nosuch", "now", "fonts")
        self.assertEqual((ran.returncode, ran.stderr), (2, "fault: 44 read: no such file\n"))

    @unittest.skipUnless(yaml, "PyYAML isn't installed")
    def test_job(self) -> None:
        steps = yaml.safe_load((FOLDER / "github.yml").read_text())["jobs"]["hints"]["steps"]
        script = next(step["run"] for step in steps if step.get("name") == "Check the hints")
        for text, status, commands in (("26 g1\n", 0, 0), ("26 g1\n26 g2\n", 1, 1), ("fault\n", 2, 1)):
            self.write(a=text, b="")
            (self.room / "hints.known").write_text("26 g1 fonts/a.ttf\n")
            ran = self.run_words("bash", "-e", "-c", script)
            self.assertEqual((ran.returncode, ran.stderr, len(ran.stdout.splitlines())), (status, "", commands))
            self.assertEqual(json.loads((self.room / "hintcheck.sarif").read_text())["version"], "2.1.0")
        (self.room / "hints.known").unlink()
        (self.room / "hintcheck.sarif").unlink()
        self.assertEqual(self.run_words("bash", "-e", "-c", script).returncode, 2)

    @unittest.skipUnless(HOOKS.exists() and shutil.which("git") and shutil.which("pre-commit"), "git or pre-commit isn't there")
    def test_hook(self) -> None:
        shutil.copytree(HOOKS.parent, hooks := self.room / "hooks", ignore=lambda folder, names: [name for name in names if name != HOOKS.name])
        (hooks / "hintcheck").write_text("#!/bin/sh\nexit 99\n")
        for words in (["init", "-q"], ["add", "."], ["commit", "-qm", "hook"]):
            self.assertEqual(self.run_words("git", *words, place="hooks").returncode, 0)
        commit = self.run_words("git", "rev-parse", "HEAD", place="hooks").stdout.strip()
        hook = {"id": "hintcheck", "args": ["--expect", "hints.known"]}
        config = {"repos": [{"repo": str(hooks), "rev": commit, "hooks": [hook]}]}
        (self.room / "repository/fonts").mkdir(parents=True)
        fonts = [f"fonts/{number} \"ü\" 'x'.tt{'fc'[number % 2]}" for number in range(50)]
        files = {name: "26 g1\n" for name in fonts} | {"a.txt": "no font\n", "hints.known": "".join(f"26 g1 {name}\n" for name in fonts)}
        for name, text in (files | {".pre-commit-config.yaml": json.dumps(config)}).items():
            (self.room / "repository" / name).write_text(text)
        self.check_hook(fonts)

    def check_hook(self, fonts: list[str]) -> None:
        """Commits the fonts, then one with a refusal that isn't known."""
        for words in (["git", "init", "-q"], ["pre-commit", "install"], ["git", "add", "."], ["git", "commit", "-qm", "fonts"]):
            ran = self.run_words(*words, place="repository")
            self.assertEqual(ran.returncode, 0, ran.stdout + ran.stderr)
        self.assertEqual(len(self.calls()), 1)
        self.assertEqual(self.calls()[0][:4] + sorted(self.calls()[0][4:]), ["scan", "--quiet", "--expect", "hints.known"] + sorted(fonts))
        (self.room / "repository" / fonts[7]).write_text("26 g1\n32 g7\n")
        ran = self.run_words("git", "commit", "-qam", "another hint", place="repository")
        self.assertEqual(ran.returncode, 1)
        self.assertIn(f"{fonts[7]}: ['26 g1', '32 g7']", ran.stderr)
        self.assertEqual(self.calls()[1][4:], [fonts[7]])


if __name__ == "__main__":
    unittest.main()
