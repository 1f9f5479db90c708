#!/usr/bin/env python3
"""Tells answers of `hintcheck scan --json` as a log in SARIF 2.1.0, which code scanning and editors read.

Usage: hintcheck scan --json FONT.. | sarif.py [--known FILE] [--pages URI] >hintcheck.sarif

Each refused program is a result: its rule is the reason, its location the font file, its logical location the program with the place. A possible
fault is an error, what is undecided a warning, what is left out a note. A font without a verdict is a notification of the tool, and the invocation
then counts as not successful. A result keeps its fingerprint as long as font, glyph and reason stay. With --known the refusals that FILE lists are
suppressed. The rules have the texts of docs/REASONS.md, and with --pages a link to this page in the folder that URI names, as
https://example.org/hintcheck/docs.

Don't ask hintcheck for --quiet: without any answer there is no log. Exit status: 0, or 2 where the answers can't be read.
"""

from __future__ import annotations

import argparse
import collections
import hashlib
import json
import pathlib
import posixpath
import re
import sys
import typing
import urllib.parse

import answers
from answers import LEVELS, Answer, Known, Refusal

SCHEMA = "https://json.schemastore.org/sarif-2.1.0.json"
PAGE = pathlib.Path(__file__).resolve().parent.parent.parent / "docs/REASONS.md"
# A section of the page: the number of a reason, its name, and the text, which begins with its class in bold letters.
SECTION = re.compile(r"^## (\d+) ([^\n]+)\n\n(\*\*([\w ]+)[.,]?\*\*.*?)\s*(?=^## |\Z)", re.M | re.S)
LINK = re.compile(r"\[([^\]]*)\]\(([^)]*)\)")
# What a message has to write otherwise, since it may have placeholders and links.
MARKS = str.maketrans({"{": "{{", "}": "}}", "[": r"\[", "]": r"\]", "\\": r"\\"})


def rule(reason: int, name: str) -> dict[str, typing.Any]:
    """A rule of which no more is known than the reason."""
    return {"id": str(reason), "name": name.title().replace(" ", ""), "shortDescription": {"text": name}}


def with_links(text: str, pages: str | None) -> str:
    """The text of the page with its links, where the folder of the pages is named; otherwise without them."""
    return LINK.sub(lambda link: f"[{link[1]}]({urllib.parse.urljoin(f'{pages}/{PAGE.name}', link[2])})" if pages else link[1], text)


def plain(text: str) -> str:
    """The paragraphs of a section, without tables, links and marks."""
    paragraphs = [one for one in with_links(text, None).split("\n\n") if not one.startswith("|")]
    return "\n\n".join(" ".join(one.split()) for one in paragraphs).replace("**", "").replace("`", "")


def rule_of(section: re.Match[str], pages: str | None) -> dict[str, typing.Any]:
    """The rule of a section of the page."""
    reason, name, text, class_name = section.groups()
    told = rule(int(reason), name)
    told["fullDescription"] = {"text": plain(text).partition("\n\n")[0]}
    told["help"] = {"text": plain(text), "markdown": with_links(text, pages)}
    told["defaultConfiguration"] = {"level": LEVELS[class_name.lower()]}
    if pages:
        told["helpUri"] = f"{pages}/{PAGE.name}#{reason}-{name.replace(' ', '-')}"
    return told


def rules(told: list[Answer], page: str, pages: str | None) -> list[dict[str, typing.Any]]:
    """The rules: those of the page for which a scan refuses programs, and other reasons of the answers."""
    found = {int(section[1]): rule_of(section, pages) for section in SECTION.finditer(page) if section[4].lower() in LEVELS}
    for refusal in (one for answer in told for one in answer.refusals):
        found.setdefault(refusal.reason, rule(refusal.reason, refusal.name))
    return [found[reason] for reason in sorted(found)]


def place(answer: Answer) -> dict[str, typing.Any]:
    """The font file of an answer; where its name is relative, it is so to the root of the sources."""
    path = posixpath.normpath(answer.file)
    uri = urllib.parse.quote(path)
    return {"artifactLocation": {"uri": f"file://{uri}"} if path.startswith("/") else {"uri": uri, "uriBaseId": "%SRCROOT%"}}


def result(answer: Answer, refusal: Refusal) -> dict[str, typing.Any]:
    """The result of a refused program, without its fingerprint."""
    program = refusal.label if answer.face is None else f"{refusal.label} of face {answer.face}"
    text = f"{program} is refused at {refusal.place} by the {answer.profile} profile: {refusal.why}."
    logical = {"name": program, "fullyQualifiedName": f"{program} at {refusal.place}", "kind": "program"}
    return {
        "ruleId": str(refusal.reason),
        "level": refusal.level,
        "message": {"text": text.translate(MARKS)},
        "locations": [{"physicalLocation": place(answer), "logicalLocations": [logical]}],
    }


def results(told: list[Answer], known: Known | None) -> list[dict[str, typing.Any]]:
    """The results of all answers. What has one fingerprint is numbered, under the name by which GitHub looks for fingerprints."""
    found: list[dict[str, typing.Any]] = []
    counts: collections.Counter[str] = collections.Counter()
    for answer, refusal in ((answer, refusal) for answer in told for refusal in answer.refusals):
        told_result = result(answer, refusal)
        line = f"{refusal.reason} {refusal.steady_name} {answer.font}"
        digits = hashlib.sha256(line.encode()).hexdigest()[:16]
        counts[digits] += 1
        told_result["partialFingerprints"] = {"primaryLocationLineHash": f"{digits}:{counts[digits]}"}
        if known:
            told_result["suppressions"] = [{"kind": "external", "justification": "a known refusal"}] * known.has(answer, refusal)
        found.append(told_result)
    return found


def notification(answer: Answer) -> dict[str, typing.Any]:
    """What is told of a font without a verdict."""
    of_face = "" if answer.face is None else f" on face {answer.face}"
    text = f"There is no verdict{of_face}: {answer.fault}."
    return {"level": "error", "message": {"text": text.translate(MARKS)}, "locations": [{"physicalLocation": place(answer)}]}


def log(told: list[Answer], known: Known | None, page: str, pages: str | None) -> dict[str, typing.Any]:
    """The log of all answers."""
    driver: dict[str, typing.Any] = {"name": "hintcheck", "rules": rules(told, page, pages)}
    version = next((answer.version for answer in told if answer.version), None)
    if version:
        driver["version"] = version
    faults = [notification(answer) for answer in told if answer.fault]
    run = {
        "tool": {"driver": driver},
        "invocations": [{"executionSuccessful": not faults, "toolExecutionNotifications": faults}],
        "results": results(told, known),
    }
    return {"$schema": SCHEMA, "version": "2.1.0", "runs": [run]}


def tell(words: argparse.Namespace, told: list[Answer], known: Known | None) -> None:
    """Prints the log. Where the page isn't there, the rules have no more than their names."""
    page = PAGE.read_text(encoding="utf-8") if PAGE.exists() else ""
    json.dump(log(told, known, page, words.pages), sys.stdout, indent=1)
    print()


def main() -> int:
    """Reads the words, and tells the answers on standard input."""
    words = answers.reader(__doc__)
    words.add_argument("--pages", metavar="URI", type=lambda uri: uri.rstrip("/"), help="the folder of hintcheck's pages")
    return answers.run(tell, words.parse_args())


if __name__ == "__main__":
    sys.exit(main())
