#!/usr/bin/env python3
"""Checks that each module of definitions is either meaning or representation.

Usage: bench/specs.py
A module in `specs/` itself is meaning: a clause of a public function cites it, or another such module needs it. A module in
`specs/Representation/` says how the code keeps what the others speak of: no clause of a public function cites it, and no module of meaning
imports it. docs/DEFINITIONS.md leads through all modules of meaning of tt_code and tt_font and through some of the others, each after those
that it imports; the modules, definitions and functions that it names are there. bench/definitions.py lists all modules. The lemma of a closed
definition is named by the one function whose contract shows it. What differs is printed, and the exit status is then 1.
"""

import pathlib
import re
import sys
import typing

import contracts

TOP = pathlib.Path(__file__).resolve().parent.parent
PAGE = TOP / "docs/DEFINITIONS.md"
FOLDER = "Representation"
# The crates of which the page names all modules of meaning.
READ_WHOLE = ("tt_code", "tt_font")
# A module as the page names it: by its file, with the crate where that isn't the one of the section's head.
ON_PAGE = re.compile(r"`(?:(\w+)/specs/)?(\w+)\.antt`")
# A definition or a function as the page names it: a capital begins it, or words are joined in it. Arguments may follow.
WORD = re.compile(r"`([A-Z]\w+|[a-z]+(?:_\w+)+)(?: [\w ]+)?`")
# The road through a font, which other crates go too: its clauses say how the code keeps what is known, and users don't call it.
SHARED = re.compile(r"Programs::|Judge::|Finding::|(?:cut|list_outcome|refused|refused_glyph)$")
# The lemmas that show closed definitions, each with the file of the one function that may name it.
CLOSED = {"answered_by_symbols": ("tt_symbolic_check/src/checking.rt", "tt_symbolic_search/src/search.rt")}
IMPORT = re.compile(r"^(?:pub )?use Rattle\.(\w+)\.specs\.((?:Representation\.)?\w+)", re.M)


class Module(typing.NamedTuple):
    """A module of definitions, by its crate and its name."""

    crate: str
    name: str

    @property
    def path(self) -> pathlib.Path:
        return TOP / "crates" / self.crate / "specs" / f"{self.name.replace('.', '/')}.antt"

    @property
    def is_representation(self) -> bool:
        return self.name.startswith(f"{FOLDER}.")

    def __str__(self) -> str:
        return f"{self.crate}: {self.name}"


def crates() -> list[str]:
    """The crates that have definitions."""
    return sorted(folder.parent.name for folder in TOP.glob("crates/*/specs"))


def modules() -> set[Module]:
    """The modules of meaning of all crates."""
    files = TOP.glob("crates/*/specs/*.antt")
    return {Module(file.parent.parent.name, file.stem) for file in files if file.stem not in ("Lib", FOLDER)}


def imported_by(module: Module) -> set[Module]:
    """The modules of definitions that a module imports."""
    found = {Module(crate, name) for crate, name in IMPORT.findall(module.path.read_text())}
    return {other for other in found if other.path.exists()}


def cited_by_clauses() -> dict[Module, str]:
    """The modules that clauses of public functions cite, each with one of these functions."""
    cited = {}
    for crate in crates():
        for clause in contracts.clauses_of(crate):
            if crate == "hintcheck_programs" and SHARED.match(clause.function):
                continue
            for name in clause.modules:
                source, _, rest = name.partition(".")
                known = source in crates()
                cited[Module(source, rest) if known else Module(crate, name)] = f"{crate}: {clause.function}"
    return {module: function for module, function in cited.items() if module.path.exists()}


def needed(cited: typing.Iterable[Module]) -> set[Module]:
    """These modules, and those that they import, and so on."""
    found: set[Module] = set()
    waiting = list(cited)
    while waiting:
        module = waiting.pop()
        if module not in found:
            found.add(module)
            waiting.extend(imported_by(module))
    return found


def sections() -> list[tuple[str, str]]:
    """The page's sections: the first word of each head, and the text."""
    return re.findall(r"^## (\w+)[^\n]*\n(.*?)(?=^## |\Z)", PAGE.read_text(), re.M | re.S)


def names() -> set[str]:
    """The definitions of all crates, their modules, and the functions."""
    files = TOP.glob("crates/*/src/**/*.rt")
    return contracts.definitions() | {name for file in files for name in re.findall(r"\bfn (\w+)", file.read_text())}


def faults_of_page(meaning: set[Module]) -> typing.Iterator[str]:
    """What is wrong with the page. A module that it names twice has a part that needs less than the other: the last place counts."""
    named = [Module(crate or head, name) for head, text in sections() for crate, name in ON_PAGE.findall(text)]
    yield from (f"{PAGE.name} names {module}, which isn't there" for module in named if module not in meaning)
    yield from (f"{module} isn't in {PAGE.name}" for module in sorted(meaning - set(named)) if module.crate in READ_WHOLE)
    last = {module: at for at, module in enumerate(named)}
    for module in sorted(meaning & set(named)):
        later = sorted(other for other in imported_by(module) & set(named) if other not in named[: last[module]])
        yield from (f"{PAGE.name} names {module} before {other}, which it imports" for other in later)
    known = names()
    words = {word for _, text in sections() for word in WORD.findall(text)}
    yield from (f"{PAGE.name} names {word}, which isn't there" for word in sorted(words - known))


def openings() -> typing.Iterator[str]:
    """The files that name the lemma of a closed definition and may not."""
    files = [*TOP.glob("crates/*/src/**/*.rt"), *TOP.glob("crates/*/proofs/**/*.antt"), *TOP.glob("crates/*/specs/**/*.antt")]
    texts = {file.relative_to(TOP / "crates").as_posix(): file.read_text() for file in files}
    for lemma, owners in CLOSED.items():
        declared = f"{owners[0].split('/')[0]}/specs/Answers.antt"
        yield from (f"{file} names {lemma}" for file, text in sorted(texts.items()) if lemma in text and file not in (*owners, declared))
        yield from (f"{owner} names {lemma} {texts[owner].count(lemma)} times" for owner in owners if texts[owner].count(lemma) != 1)


def faults() -> typing.Iterator[str]:
    """All that is wrong."""
    yield from openings()
    cited = cited_by_clauses()
    yield from (f"{function} cites {module}" for module, function in cited.items() if module.is_representation)
    meaning = modules()
    for module in sorted(meaning):
        yield from (f"{module} imports {other}" for other in sorted(imported_by(module)) if other.is_representation)
    yield from (f"{module} is cited by no public clause, and needed by none that is" for module in sorted(meaning - needed(cited)))
    yield from faults_of_page(meaning)


def main() -> int:
    found = list(faults())
    for fault in found:
        print(fault)
    print(f"{len(found)} differences")
    return 1 if found else 0


if __name__ == "__main__":
    sys.exit(main())
