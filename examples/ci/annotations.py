#!/usr/bin/env python3
"""Tells answers of `hintcheck scan --json` as GitHub's workflow commands, which show them at the font in a pull request.

Usage: hintcheck scan --json FONT.. | annotations.py [--known FILE]

Each font has a line for each reason for which programs are refused, the most frequent first:
::error file=fonts/X.ttf,title=26 underflow (possible fault)::2 programs: g350 (uni019C) at g350:30, g530 (uni0250) at g530:30
A possible fault is an error, what is undecided a warning, what is left out a notice; a font without a verdict is an error. GitHub shows ten of each
for a step. With --known the refusals that FILE lists are left out.

Exit status: 0, or 2 where the answers can't be read. Whether the job fails is told by that of hintcheck.
"""

from __future__ import annotations

import argparse
import posixpath
import sys

import answers
from answers import Answer, Known, Refusal

# How a line tells each level, and how many programs it names.
COMMANDS = {"error": "error", "warning": "warning", "note": "notice"}
NAMED = 5


def escaped(text: str) -> str:
    """A message as the commands ask for it, in one line."""
    return text.replace("%", "%25").replace("\r", "%0D").replace("\n", "%0A")


def escaped_property(text: str) -> str:
    """A property as the commands ask for it."""
    return escaped(text).replace(":", "%3A").replace(",", "%2C")


def line(answer: Answer, level: str, title: str, text: str) -> str:
    """The command that shows this at a font."""
    face = "" if answer.face is None else f"face {answer.face}: "
    file = escaped_property(posixpath.normpath(answer.file))
    return f"::{COMMANDS[level]} file={file},title={escaped_property(face + title)}::{escaped(text)}"


def message(profile: str, refusals: list[Refusal]) -> str:
    """What is said of programs that are refused for one reason."""
    count = "1 program" if len(refusals) == 1 else f"{len(refusals)} programs"
    named = [f"{refusal.label} at {refusal.place}" for refusal in refusals[:NAMED]] + ["..."] * (len(refusals) > NAMED)
    return f"{count}: {', '.join(named)}" + " (symbolic)" * (profile == "symbolic")


def lines(answer: Answer, known: Known | None) -> list[str]:
    """The commands for a font."""
    if answer.fault:
        return [line(answer, "error", "no verdict", answer.fault)]
    reasons: dict[tuple[str, str], list[Refusal]] = {}
    for refusal in answer.refusals:
        if not (known and known.has(answer, refusal)):
            reasons.setdefault((refusal.level, refusal.why), []).append(refusal)
    ordered = sorted(reasons.items(), key=lambda reason: -len(reason[1]))
    return [line(answer, level, title, message(answer.profile, refusals)) for (level, title), refusals in ordered]


def tell(_words: argparse.Namespace, told: list[Answer], known: Known | None) -> None:
    """Prints the commands for all fonts."""
    sys.stdout.reconfigure(encoding="utf-8")
    for answer in told:
        sys.stdout.writelines(f"{command}\n" for command in lines(answer, known))


if __name__ == "__main__":
    sys.exit(answers.run(tell, answers.reader(__doc__).parse_args()))
