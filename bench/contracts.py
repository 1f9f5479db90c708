#!/usr/bin/env python3
"""Lists all contracts of public functions and all edits, and compares docs/CONTRACTS.md and the edits with the sources.

Usage: bench/contracts.py [--check]
For each crate of crates.txt whose public functions have contracts, the list has a table with a row for each of these functions, and for each type
of which an `impl` says something: its path, the first paragraph of its doc comment, the names of its clauses and what it asks of its caller, the
definitions that the clauses cite, and the edits that change its body: those that `rt ci` tries, then those of bench/edits. Below the table are the
other edits, each with the private function that it changes, and the public functions that lead there as far as that is found by name. The list
is written to `out/contracts.md`.
With --check nothing is written. What differs is printed, and the exit status is then 1: a public function with a contract that has no doc comment;
an edit whose text isn't found exactly once, or is in no function and no constant; and each clause, function, definition, edit, test module or file
of cases that docs/CONTRACTS.md names and that isn't there.

It reads the sources by their layout, as `rt fmt` writes it: an `impl` or a `trait` begins a line, and a clause is `requires` or `ensures`, a
name or none, and braces. A function is public where the crate's root, `src/lib.rt` or `src/main.rt`, names it, its type or its module as public.
"""

import functools
import pathlib
import re
import sys
import typing

import definitions as listed_definitions
import edits_together
import pages

TOP = pathlib.Path(__file__).resolve().parent.parent
PAGE = TOP / "docs/CONTRACTS.md"
LIST = TOP / "out/contracts.md"

# What the tests share, which promises nothing to users.
FIXTURES = ("tt_test_fixtures",)
# The files of cases, which the page names `cases/NAME`.
CASES = (TOP / "crates/hintcheck_cases/data", TOP / "crates/hintcheck_font_cases/data")
# Words in code letters on the page that name nothing of the sources.
OTHER_WORDS = {"Display", "maxp"}
# Methods that types of the standard library have too: a call of one by this name may be another's.
COMMON = {"clear", "copy", "copy_from", "count", "drop", "fmt", "from", "get", "is_empty", "join", "len", "new", "next", "of", "push", "put", "read", "write"}

OWNER = re.compile(r"^(?:pub )?(impl|trait)\b([^{]*)\{", re.M)
FUNCTION = re.compile(r'^ *(pub(?:\(\w+\))? )?(?:final )?(?:const )?(?:extern "C" )?fn (\w+)', re.M)
CONSTANT = re.compile(r"^ *(?:pub(?:\(\w+\))? )?(?:const|static|enum) (\w+)", re.M)
TYPE = re.compile(r"^(?:pub(?:\(\w+\))? )?(?:struct|enum|trait) (\w+)", re.M)
CLAUSE = re.compile(r"\b(requires|ensures)\b\s*(\w*)\s*\{|[;{]")
GHOST = re.compile(r"ghost (laws|output|from_gives|decides) ?[=:] ?\{")
IMPORT = re.compile(r"ghost use Rattle\.(\w+)\.specs\.((?:Representation\.)?\w+)\.\{([^}]*)\};")
# Comments, and what is in quotes.
QUOTED = re.compile(r"//[^\n]*|\"(?:\\[\s\S]|[^\"\\])*\"|'(?:\\.|[^\\'\n])'")


class Clause(typing.NamedTuple):
    """A clause of a contract: its function or type, its name or "", whether it asks something of the caller, its text, and the words that it
    cites, each with its module of definitions as the list names it."""

    function: str
    name: str
    asks: bool
    text: str
    cited: frozenset[tuple[str, str]]

    @property
    def modules(self) -> frozenset[str]:
        """The modules of definitions that it cites."""
        return frozenset(module for module, _ in self.cited)


class Item(typing.NamedTuple):
    """A function or a constant, or an `impl` that says something of its type: its name, with its type in front; its module; the first paragraph
    of its doc comment; whether it is public; its clauses; and its place in a file."""

    name: str
    module: str
    doc: str
    is_public: bool
    is_function: bool
    clauses: list[Clause]
    file: str
    start: int
    end: int
    text: str

    @property
    def is_row(self) -> bool:
        """Whether it has a row: it is public and has a contract."""
        return self.is_public and bool(self.clauses)


class Edit(typing.NamedTuple):
    """An edit: its name, whether `rt ci` tries it, what it changes, and why it can't be made, or ""."""

    name: str
    is_in_gate: bool
    items: list[Item]
    fault: str


class Crate(typing.NamedTuple):
    """A crate: its name, the names that its root shows, its functions and constants, and its edits."""

    name: str
    shown: set[str]
    items: list[Item]
    edits: list[Edit]


def without_comments(text: str) -> str:
    """The text with spaces for comments, and for brackets and semicolons in quotes: every place stays the same."""
    blank = lambda found: re.sub(r"." if found[0].startswith("//") else r"[{}()\[\];]", " ", found[0])
    return QUOTED.sub(blank, text)


def closing(text: str, at: int, pair: str) -> int:
    """The place after the bracket that closes the one at this place."""
    depth = 0
    while True:
        depth += (text[at] == pair[0]) - (text[at] == pair[1])
        at += 1
        if depth == 0:
            return at


def without_arrays(text: str) -> str:
    """The text with no semicolon in the type of an array, since one ends a signature."""
    return re.sub(r"\[([\w&' ]+); ([\w: ]+)\]", r"[\1  \2]", text)


def root_of(crate: pathlib.Path) -> pathlib.Path | None:
    """The file with which a crate's code begins: a library's or a program's; None where there is no such crate."""
    return next((file for file in (crate / "src/lib.rt", crate / "src/main.rt") if file.exists()), None)


def shown_names(crate: pathlib.Path) -> set[str]:
    """The functions and types that a crate's root names as public."""
    root = without_comments(root_of(crate).read_text())
    names: set[str] = set()
    for path, group in re.findall(r"^pub use ([\w:]+?)(?:::\{([^}]*)\})?(?: as \w+)?;", root, re.M):
        names |= {word.split(" as ")[0].strip() for word in group.split(",")} if group else {path.split("::")[-1]}
    return names | public_in(root)


def public_in(text: str) -> set[str]:
    """The public functions and types of a file."""
    return set(re.findall(r'^pub (?:struct|enum|trait|(?:extern "C" )?fn) (\w+)', text, re.M))


def public_names(crate: pathlib.Path) -> set[str]:
    """The functions and types that a crate shows: those that its root names as public, and the public ones of its public modules."""
    modules = re.findall(r"^pub mod (\w+);", without_comments(root_of(crate).read_text()), re.M)
    texts = [without_comments((crate / f"src/{module}.rt").read_text()) for module in modules]
    return shown_names(crate).union(*(public_in(text) for text in texts))


def owner_of(kind: str, head: str) -> str:
    """The type that an `impl` is for, or the trait."""
    head = re.sub(r"^\s*<.*?>\s(?=\w)", "", head) if kind == "impl" else head
    name = head.split(" where")[0].rsplit(" for ", 1)[-1]
    return re.match(r"\s*(?:\w+::)*(\w+)", name).group(1)


def imports_of(text: str, crate: str) -> dict[str, str]:
    """The words that a file imports from modules of definitions, except for those of the standard library."""
    imports = {}
    for source, module, group in IMPORT.findall(text):
        for word in group.split(","):
            imports[word.split(" as ")[-1].strip()] = module if source == crate else f"{source}.{module}"
        if source == "std":
            for word in group.split(","):
                del imports[word.split(" as ")[-1].strip()]
    return imports


def cited_in(text: str, imports: dict[str, str]) -> frozenset[tuple[str, str]]:
    """The words of a clause that come from modules of definitions, each with its module."""
    return frozenset((imports[word], word) for word in re.findall(r"[A-Za-z_]\w*", text) if word in imports)


def doc_before(text: str, at: int) -> str:
    """The first paragraph of the doc comment before the item that begins at this place. Attributes and other comments may stand between."""
    lines = re.sub(r"(?:^ *(?:#\[(?:[^\]]|\](?!\n))*\]|//(?!/)[^\n]*)\n)+\Z", "", text[:at], flags=re.M).splitlines()
    first = len(lines)
    while first and lines[first - 1].strip().startswith("///"):
        first -= 1
    told = [line.strip().removeprefix("///").strip() for line in lines[first:]]
    return " ".join(told[: told.index("")] if "" in told else told)


def clauses_after(text: str, at: int, function: str, imports: dict[str, str]) -> tuple[list[Clause], int]:
    """The clauses of the function whose parameters end at this place, and the place after its body."""
    clauses = []
    while (found := CLAUSE.search(text, at)) and found.group(1):
        at = closing(text, found.end() - 1, "{}")
        told = " ".join(text[found.end() : at - 1].split())
        clauses.append(Clause(function, found.group(2), found.group(1) == "requires", told, cited_in(told, imports)))
    return clauses, closing(text, found.start(), "{}") if found[0] == "{" else found.end()


def end_of_constant(text: str, at: int) -> int:
    """The place after the constant, or the type, that begins at this place."""
    for bracket in re.compile(r"[;{(\[]").finditer(text, at):
        if bracket.start() < at:
            continue
        if bracket[0] == ";":
            return bracket.end()
        at = closing(text, bracket.start(), {"{": "{}", "(": "()", "[": "[]"}[bracket[0]])
        if bracket[0] == "{":
            return at
    return len(text)


def items_of_file(file: pathlib.Path, crate: pathlib.Path, public: set[str]) -> typing.Iterator[Item]:
    """The functions and constants of a file, and what its types say for a trait."""
    raw = file.read_text()
    text = without_arrays(without_comments(raw))
    imports = imports_of(text, crate.name)
    module = "" if file == root_of(crate) else "::".join(file.relative_to(crate / "src").with_suffix("").parts)
    path = str(file.relative_to(crate))
    owners = [(m.start(), closing(text, m.end() - 1, "{}"), m.group(1), owner_of(m.group(1), m.group(2))) for m in OWNER.finditer(text)]
    for start, end, _, owner in owners:
        clauses = []
        for ghost in GHOST.finditer(text, start, end):
            if owner in public or ghost.group(1) == "laws":
                told = " ".join(text[ghost.end() : closing(text, ghost.end() - 1, "{}") - 1].split())
                clauses.append(Clause(owner, ghost.group(1), False, told, cited_in(told, imports)))
        if clauses:
            yield Item(owner, module, docs_of_types().get(owner, ""), True, False, clauses, path, start, end, "")
    for function in FUNCTION.finditer(text):
        inside = [(kind, owner) for start, end, kind, owner in owners if start <= function.start() < end]
        kind, owner = inside[0] if inside else ("", "")
        name = f"{owner}::{function.group(2)}" if owner else function.group(2)
        is_public = (function.group(1) == "pub " or kind == "trait") and (owner or function.group(2)) in public
        clauses, end = clauses_after(text, closing(text, text.index("(", function.end()), "()"), name, imports)
        yield Item(name, module, doc_before(raw, function.start()), is_public, True, clauses, path, function.start(), end, text[function.end() : end])
    for constant in CONSTANT.finditer(text):
        yield Item(constant.group(1), module, "", False, False, [], path, constant.start(), end_of_constant(text, constant.end()), "")


@functools.cache
def docs_of_types() -> dict[str, str]:
    """The first paragraphs of the doc comments of the types of all crates."""
    texts = [file.read_text() for file in sorted(TOP.glob("crates/*/src/**/*.rt"))]
    return {found.group(1): doc_before(text, found.start()) for text in texts for found in TYPE.finditer(text)}


@functools.cache
def items_of(crate: str) -> list[Item]:
    """The functions and constants of a crate, and what its types say for a trait."""
    folder = TOP / "crates" / crate
    files = sorted((folder / "src").rglob("*.rt"))
    public = public_names(folder)
    return [item for file in files for item in items_of_file(file, folder, public)]


def clauses_of(crate: str) -> list[Clause]:
    """The clauses of a crate's public functions, and of what its types say for a trait."""
    return [clause for item in items_of(crate) if item.is_row for clause in item.clauses]


def changed(items: list[Item], change: edits_together.Change, text: str) -> list[Item]:
    """What a change is in: the innermost function, or a constant; and with it the `impl` around it, where this says something of its type."""
    at = text.find(change.old) + len(change.old) - len(change.old.lstrip())
    around = [item for item in items if item.file == change.path and item.start <= at < item.end]
    impls = [item for item in around if item.clauses and not item.is_function]
    inner = sorted((item for item in around if item not in impls), key=lambda item: (item.is_function, item.start))[-1:]
    return inner if inner and inner[0].is_row else impls[:1] + inner


def edit_of(crate: pathlib.Path, file: pathlib.Path, items: list[Item]) -> Edit:
    """An edit of a crate, with what it changes."""
    changes = edits_together.changes_of(file)
    texts = edits_together.originals(crate, changes)
    found: list[Item] = []
    for change in changes:
        if change.old in texts.get(change.path, ""):
            found += [item for item in changed(items, change, texts[change.path]) if item not in found]
    fault = "is in no function" * (not found)
    if edits_together.made(texts, changes) is None:
        fault = "has a text that isn't found exactly once"
    return Edit(file.stem, file.parent.name == "must-fail", found, fault)


def crate_of(name: str) -> Crate:
    """A crate, with all that is listed of it."""
    folder, items = TOP / "crates" / name, items_of(name)
    files = [*sorted((folder / "must-fail").glob("*.edit")), *sorted((TOP / "bench/edits" / name).glob("*.edit"))]
    return Crate(name, shown_names(folder), items, [edit_of(folder, file, items) for file in files])


def crates() -> list[Crate]:
    """The crates whose public functions have contracts, in the order of crates.txt."""
    names = [line.split(":")[0].split()[0] for line in (TOP / "crates.txt").read_text().splitlines() if line.strip()]
    return [crate_of(name) for name in names if name not in FIXTURES and clauses_of(name)]


def calls(crate: Crate, item: Item) -> re.Pattern[str]:
    """How code of the crate calls a function, or names a constant; nothing calls a type."""
    owner, _, name = item.name.rpartition("::")
    if not item.is_function:
        return re.compile(rf"(?<![\w.]){name}(?!\w)" if name.isupper() else r"(?!)")
    if not owner:
        return re.compile(rf"(?<![\w.:])(?:[a-z_]\w*::)*{name}(?:::<[^>()]*>)?\(")
    is_alone = name not in COMMON and sum(other.name.rpartition("::")[2] == name for other in crate.items if other.is_function) == 1
    return re.compile(rf"(?<!\w){owner}::{name}\(" + rf"|\.{name}\(" * is_alone)


def callers(crate: Crate, item: Item) -> list[Item]:
    """The functions of a crate that call a function, as far as that is found by name."""
    owner, _, name = item.name.rpartition("::")
    words, own = calls(crate, item), re.compile(rf"(?<!\w)(?:Self::|self\.){name}\(")
    alike = sum(other.name == item.name and other.is_function == item.is_function for other in crate.items)
    others = [other for other in crate.items if other.is_function and other != item and (alike == 1 or other.file == item.file)]
    return [other for other in others if words.search(other.text) or (owner and other.name.startswith(f"{owner}::") and own.search(other.text))]


def leading_to(crate: Crate, item: Item) -> list[str]:
    """The public functions with a contract that lead to a private one by calls within the crate."""
    seen, waiting, found = [item], [item], []
    while waiting:
        for caller in callers(crate, waiting.pop(0)):
            if caller not in seen:
                seen.append(caller)
                (found if caller.is_row else waiting).append(caller)
    return sorted({caller.name for caller in found})


def path_of(crate: Crate, item: Item) -> str:
    """The path of a function or a type within its crate."""
    shown = crate.shown if item.is_public else set()
    return item.name if not item.module or item.name.split("::")[0] in shown else f"{item.module}::{item.name}"


def codes(names: typing.Iterable[str]) -> str:
    """Names as a cell lists them."""
    return ", ".join(f"`{name}`" for name in names)


def cell(text: str) -> str:
    """A text as a cell of a table has it."""
    return text.replace("|", "\\|") or "–"


def clauses_cell(clauses: list[Clause]) -> str:
    """The names of clauses, and what callers must ensure."""
    names = list(dict.fromkeys(clause.name for clause in clauses if not clause.asks))
    told = [codes(name for name in names if name), "one without a name" * ("" in names)]
    asked = [f"*asks* {clause.name and f'`{clause.name}`: '}`{clause.text}`" for clause in clauses if clause.asks]
    return "; ".join(filter(None, [*told, *asked]))


def definitions_cell(clauses: list[Clause]) -> str:
    """The definitions that clauses cite, by module."""
    cited = sorted({pair for clause in clauses for pair in clause.cited})
    by_module = {module: [word for other, word in cited if other == module] for module, _ in cited}
    return "; ".join(f"{module}: {codes(words)}" for module, words in by_module.items())


def edits_cell(edits: list[Edit]) -> str:
    """The names of edits: those that `rt ci` tries, then the others."""
    others = codes(edit.name for edit in edits if not edit.is_in_gate)
    return "; ".join(filter(None, [codes(edit.name for edit in edits if edit.is_in_gate), others and f"*also* {others}"]))


def rows_of(crate: Crate) -> list[list[Item]]:
    """The items of each row: a function, or all that says something of a type."""
    rows: dict[tuple[str, str], list[Item]] = {}
    for item in crate.items:
        if item.is_row:
            rows.setdefault((item.module if item.is_function else "", item.name), []).append(item)
    return list(rows.values())


def row(crate: Crate, items: list[Item]) -> str:
    """A function's row, or a type's."""
    clauses = [clause for item in items for clause in item.clauses]
    edits = [edit for edit in crate.edits if any(item in items for item in edit.items)]
    cells = [f"`{path_of(crate, items[0])}`", items[0].doc, clauses_cell(clauses), definitions_cell(clauses), edits_cell(edits)]
    return f"| {' | '.join(cell(text) for text in cells)} |"


def other_edit(crate: Crate, edit: Edit) -> str:
    """The line of an edit that is in no row: what it changes, and the public functions that lead there."""
    found = [(path_of(crate, item), leading_to(crate, item)) for item in edit.items]
    told = [f"`{path}`" + f", called for {codes(names)}" * bool(names) for path, names in found]
    return f"- {'' if edit.is_in_gate else '*also* '}`{edit.name}` changes {'; '.join(told)}"


def section(crate: Crate) -> list[str]:
    """The lines of a crate's section."""
    lines = ["", f"## {crate.name}", "", "| Function | What it does | Clauses | Definitions | Edits |", "|---|---|---|---|---|"]
    lines += [row(crate, items) for items in rows_of(crate)]
    others = [edit for edit in crate.edits if not any(item.is_row for item in edit.items)]
    return lines + ["", "Other edits:", ""] * bool(others) + [other_edit(crate, edit) for edit in others]


HEAD = """# All contracts

Written by `bench/contracts.py` from `crates/*/src`, `crates/*/must-fail` and `bench/edits`; changes belong there. docs/CONTRACTS.md says how to
read this list. An edit is a wrong change that the prover must refuse: `rt ci` tries those that are named first, and `bench/edits_together.py`
those after *also*. Which public function leads to a private one is found by name, within the crate."""


def write(listed: list[Crate]) -> None:
    """Writes the list."""
    LIST.parent.mkdir(exist_ok=True)
    LIST.write_text("\n".join([HEAD, *(line for crate in listed for line in section(crate))]) + "\n")
    rows = sum(len(rows_of(crate)) for crate in listed)
    clauses = sum(len(clauses_of(crate.name)) for crate in listed)
    edits = sum(len(crate.edits) for crate in listed)
    print(f"{LIST.relative_to(TOP)}: {clauses} clauses of {rows} functions and types, and {edits} edits, in {len(listed)} crates")


def definitions() -> set[str]:
    """The definitions of all crates, and their modules."""
    files = list(TOP.glob("crates/*/specs/**/*.antt"))
    names = {found.name for file in files for found in listed_definitions.definitions_in(file.read_text())}
    return names | {file.stem for file in files}


def names_of_sources() -> set[str]:
    """All that the page may name by one word: crates, functions, those of the header for C too, types, definitions, edits and subcommands."""
    items = [item for path in TOP.glob("crates/*/src") if root_of(path.parent) for item in items_of(path.parent.name)]
    types = {name for file in TOP.glob("crates/*/src/**/*.rt") for name in TYPE.findall(file.read_text())}
    edits = {file.stem for file in [*TOP.glob("crates/*/must-fail/*.edit"), *TOP.glob("bench/edits/*/*.edit")]}
    folders = {path.name for path in (TOP / "crates").iterdir()}
    functions = {item.name for item in items} | {item.name.rpartition("::")[2] for item in items}
    header = set(re.findall(r"\bhintcheck_\w+", (TOP / "include/hintcheck.h").read_text()))
    return functions | header | types | edits | folders | definitions() | set(pages.subcommands())


def is_test(owner: str, name: str) -> bool:
    """Whether there is such a file of cases, or such a module of a crate."""
    folders = [(folder, "txt") for folder in CASES] if owner == "cases" else [(TOP / f"crates/{owner}/src", "rt")]
    return any((folder / f"{name}.{ending}").exists() for folder, ending in folders)


def faults_of_page(text: str) -> typing.Iterator[str]:
    """What the page names in code letters and isn't there."""
    known = names_of_sources() | OTHER_WORDS
    crates_here = [path.parent.name for path in TOP.glob("crates/*/src") if root_of(path.parent)]
    clauses = {(clause.function, clause.name) for crate in crates_here for clause in clauses_of(crate)}
    for code in dict.fromkeys(" ".join(code.split()) for code in re.findall(r"`([^`]+)`", text)):
        if pair := re.fullmatch(r"([\w:]+): ([\w, ]+)", code):
            missing = [name for name in pair[2].split(", ") if (pair[1], name) not in clauses]
            yield from (f"there is no clause {pair[1]}: {name}" for name in missing)
        elif test := re.fullmatch(r"(cases|hintcheck_tests|tt_memory_tests)/(\w+)", code):
            yield from [] if is_test(*test.groups()) else [f"there is no test module and no file of cases {code}"]
        elif module := re.fullmatch(r"(\w+/specs/\w+)(?:\.antt)?", code):
            yield from [] if (TOP / f"crates/{module[1]}.antt").exists() else [f"there is no module {code}"]
        elif re.fullmatch(r"[A-Za-z_]\w*(?:::\w+)*", code) and code not in known:
            yield f"there is no function, type, definition or edit {code}"


def faults_of_crate(crate: Crate) -> typing.Iterator[str]:
    """Functions of a crate without a doc comment, and edits that can't be made."""
    yield from (f"{crate.name}: {items[0].name} has no doc comment" for items in rows_of(crate) if not items[0].doc)
    yield from (f"{crate.name}: the edit {edit.name} {edit.fault}" for edit in crate.edits if edit.fault)


def check(listed: list[Crate]) -> int:
    """Prints what differs: the status."""
    with_edits = {path.name for path in (TOP / "bench/edits").iterdir()} | {path.parent.name for path in TOP.glob("crates/*/must-fail")}
    unlisted = sorted(with_edits - {crate.name for crate in listed})
    found = [fault for crate in listed for fault in faults_of_crate(crate)]
    found += [f"{name} has edits and no table" for name in unlisted]
    found += [f"{PAGE.name}: {fault}" for fault in faults_of_page(PAGE.read_text())]
    for fault in found:
        print(fault)
    print(f"{len(found)} differences")
    return 1 if found else 0


def main(words: list[str]) -> int:
    if words not in ([], ["--check"]):
        print("bench/contracts.py takes no word but --check", file=sys.stderr)
        return 2
    if words:
        return check(crates())
    write(crates())
    return 0


if __name__ == "__main__":
    sys.exit(main(sys.argv[1:]))
