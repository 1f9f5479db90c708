#!/usr/bin/env python3
"""Builds the library for C, crates/hintcheck_c/out/libhintcheck_c.a, over what `rt ci` has proved.

Usage: bench/library.py [--here]
`rt ci` proves the library's crate and makes no archive of it. `rt lib` makes one, and first proves anew each crate below that `rt check` hasn't: that
takes as long as `rt ci` from nothing. Here `rt ci` is run on a copy of these crates, where it takes what it passed before on this machine, and the
compiler proves and compiles the library's own crate over what it leaves there: a minute or two. With --here it takes what `rt ci` has left in this
checkout: where a crate had a folder `out` before, that may be another text's.
"""

import pathlib
import re
import shutil
import subprocess
import sys
import tempfile

TOP = pathlib.Path(__file__).resolve().parent.parent
NAME = "hintcheck_c"
ARCHIVE = TOP / f"crates/{NAME}/out/lib{NAME}.a"


def crates() -> dict[str, list[str]]:
    """The crates, each with the libraries that it uses."""
    return {name: words.split() for name, words in re.findall(r"^(\w+).*?:(.*)$", (TOP / "crates.txt").read_text(), re.M)}


def below() -> list[str]:
    """The crates that the library's crate uses, those that they use, and so on."""
    uses, found = crates(), [NAME]
    for name in found:
        found += [other for other in uses[name] if other in uses and other not in found]
    return found[1:]


def copy_crates(folder: pathlib.Path) -> None:
    """Copies the library's crate and those below it, as a repository of their own, without the edits."""
    names = [NAME, *below()]
    for name in names:
        shutil.copytree(TOP / "crates" / name, folder / "crates" / name, ignore=shutil.ignore_patterns("out", "must-fail"))
    lines = (TOP / "crates.txt").read_text().splitlines(keepends=True)
    (folder / "crates.txt").write_text("".join(line for line in lines if re.match(r"\w*", line)[0] in names))
    shutil.copy(TOP / "HANDLES", folder)
    subprocess.run(["git", "init", "-q", folder], check=True)


def compiler_words(top: pathlib.Path) -> list[str | pathlib.Path]:
    """The compiler's words for the library's crate, over the libraries that `rt ci` has left in a checkout: those of `rt ci`, and what is made."""
    doc = subprocess.run(["rt", "doc"], stdout=subprocess.PIPE, text=True, check=True).stdout
    kit = pathlib.Path(doc.strip()).parent
    built = {name: top / f"crates/{name}/out/rlib/{name}.rlib" for name in below()}
    words = ["--crate-name", NAME, "src/lib.rt", "--crate-type", "staticlib", "--links", f"{NAME}="]
    for name in ["std", *crates()[NAME]]:
        words += ["--extern", f"{name}={built.get(name, kit / f'rlibs/{name}.rlib')}"]
    for folder in [kit / "rlibs", *(library.parent for library in built.values())]:
        words += ["-L", f"dependency={folder}"]
    words += ["--antt-project", kit / "rattle/logic/antt-project.json", "--logic-built", kit / "logic_built", "--jobs", "2"]
    return [kit / "bin/rattle", "build", *words, "--toolchain", kit / "toolchain", "--backend", "llvm", "-o", ARCHIVE]


def build(top: pathlib.Path) -> int:
    """Proves and compiles the library's crate in a checkout in which `rt ci` has been run."""
    ARCHIVE.parent.mkdir(parents=True, exist_ok=True)
    ARCHIVE.unlink(missing_ok=True)
    return subprocess.run(compiler_words(top), cwd=top / "crates" / NAME, check=False).returncode


def main(words: list[str]) -> int:
    """Builds the library in this checkout or over a copy."""
    if words == ["--here"]:
        return build(TOP)
    with tempfile.TemporaryDirectory() as name:
        folder = pathlib.Path(name)
        copy_crates(folder)
        return subprocess.run(["rt", "ci"], cwd=folder, check=False).returncode or build(folder)


if __name__ == "__main__":
    sys.exit(main(sys.argv[1:]))
