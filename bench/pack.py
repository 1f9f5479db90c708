#!/usr/bin/env python3
"""Packs what is proved, so that others can install it without a proof: an archive, as `make dist` does, or a Debian package, as `make deb` does.

Usage: bench/pack.py [--unproved] [-o FOLDER] dist|deb..
They hold the program, its manual page and completions, the library with its header and pkg-config file, the examples and the pages; SHA256SUMS with
the sum of each file; and PROVED, which names the commit, the toolchain's line, the digest of the sources and what `rt ci` said of them. `rt ci` is
run first, unless `make check` or an earlier call had it pass for this very text, toolchain and program; only what is committed is packed. The program
is the one that `rt ci` has built, the library is built by bench/library.py. They go to the folder `out`, or to FOLDER. With --unproved what lies in
the crates' `out` is packed as it is, `rt ci` isn't asked, and PROVED says that nothing is: such packages are for trying this script.
"""

from __future__ import annotations

import argparse
import gzip
import hashlib
import os
import pathlib
import re
import shutil
import subprocess
import sys
import tarfile
import tempfile

import check
import gate_record

TOP = pathlib.Path(__file__).resolve().parent.parent
LIBRARY = TOP / "crates/hintcheck_c/out/libhintcheck_c.a"
DOC = "share/doc/hintcheck"
DESCRIPTION = """\
Description: static checker for the hint programs of TrueType fonts
 It decides whether the font program, the CVT program and every glyph program
 of a font keep to the limits that the font declares, before any of them is
 run. That an acceptance rules out each of these faults is proved; the file
 PROVED in /usr/share/doc/hintcheck says of which sources, and by what.
"""


def must(words: list[object], **settings) -> str:
    """Runs a command that must succeed, and returns what it printed."""
    command = [str(word) for word in words]
    ran = subprocess.run(command, stdout=subprocess.PIPE, stderr=subprocess.STDOUT, text=True, errors="replace", check=False, **settings)
    if ran.returncode:
        sys.exit(f"{' '.join(command)}: status {ran.returncode}\n{ran.stdout}")
    return ran.stdout


def git(*words: str) -> str:
    """What git says of this checkout."""
    return must(["git", "-C", TOP, *words]).strip()


def version() -> str:
    """The version, as the pkg-config file has it."""
    return re.search(r"^Version: (\S+)$", (TOP / "include/hintcheck.pc.in").read_text(), re.M)[1]


def gate_said() -> list[str]:
    """What `rt ci` said last of what is there. It is run where no record tells it."""
    if git("status", "--porcelain"):
        sys.exit("there are changes that aren't committed: only what is committed is packed")
    told = gate_record.read()
    if not told:
        status, _ = check.gate()
        told = None if status else gate_record.read()
    if not told:
        sys.exit("`rt ci` hasn't passed, so nothing is packed")
    return told["said"]


def build_library() -> None:
    """Builds the library over what `rt ci` has proved."""
    must([sys.executable, TOP / "bench/library.py"])


def proved(said: list[str] | None) -> str:
    """The text of the file PROVED."""
    head = f"hintcheck {version()}, x86_64-linux, of the commit {git('rev-parse', 'HEAD')}\n\n"
    if said is None:
        return head + "NOTHING IS PROVED of what is in this package: it was made to try how packages are made, and `rt ci` wasn't asked.\n"
    lines = "".join(f"    {line}\n" for line in said)
    return (
        f"{head}Toolchain: {gate_record.toolchain()}\n"
        f"Digest of the sources: {gate_record.sources_digest()}\n"
        f"    In a clone at this commit the same is printed by\n    {gate_record.BY_HAND}\n"
        f"What `rt ci` said of these sources with this toolchain, in its last lines:\n{lines}\n"
        "What that means is in README.md, under \"What is proved\"; docs/CONTRACTS.md names the contracts. The proof is one of the sources: that\n"
        "program and library were compiled from them, as `rt` and bench/library.py do it, is the word of whoever made this package. Whoever has\n"
        "the toolchain proves and builds them in a clone by `make check`, `make install` and `make install-library`.\n"
    )


def install(root: pathlib.Path, prefix: str) -> None:
    """Installs program, library and pages below a folder. By -o, make leaves out the targets that build them."""
    words = ["-s", "-C", TOP, "-o", "all", "-o", "library", "install", "install-library", f"DESTDIR={root}", f"PREFIX={prefix}"]
    must(["make", *words], env=check.ENVIRONMENT)
    doc = pathlib.Path(f"{root}{prefix}") / DOC
    for folder in ("docs", "examples"):
        names = [name for name in git("ls-files", "-z", folder).split("\0") if name]
        for name in names:
            (doc / name).parent.mkdir(parents=True, exist_ok=True)
            shutil.copy(TOP / name, doc / name)
    shutil.copy(TOP / "README.md", doc)


def write_sums(root: pathlib.Path, file: pathlib.Path) -> None:
    """Writes the sum of each file below a folder, with names from there."""
    names = sorted(str(path.relative_to(root)) for path in root.rglob("*") if path.is_file() and "DEBIAN" not in path.parts)
    file.write_text("".join(f"{gate_record.sum_of(root / name)}  {name}\n" for name in names))


def pack_archive(root: pathlib.Path, archive: pathlib.Path, seconds: int) -> None:
    """Packs a folder, so that the same files make the same archive."""

    def plain(entry: tarfile.TarInfo) -> tarfile.TarInfo:
        entry.uid = entry.gid = 0
        entry.uname = entry.gname = "root"
        entry.mtime, entry.mode = seconds, 0o755 if entry.mode & 0o100 else 0o644
        return entry

    with archive.open("wb") as file, gzip.GzipFile("", "wb", fileobj=file, mtime=seconds) as packed:
        with tarfile.open(fileobj=packed, mode="w", format=tarfile.GNU_FORMAT) as made:
            for path in [root, *sorted(root.rglob("*"))]:
                made.add(path, str(path.relative_to(root.parent)), recursive=False, filter=plain)


def make_dist(folder: pathlib.Path, said: list[str] | None, seconds: int) -> pathlib.Path:
    """Makes the archive. Its pkg-config file names the folders by its own place, so that it can be unpacked anywhere."""
    name = f"hintcheck-{version()}-x86_64-linux"
    with tempfile.TemporaryDirectory() as room:
        root = pathlib.Path(room) / name
        install(root, "")
        config = root / "lib/pkgconfig/hintcheck.pc"
        config.write_text(re.sub(r"^prefix=.*$", "prefix=${pcfiledir}/../..", config.read_text(), flags=re.M))
        (root / "PROVED").write_text(proved(said))
        write_sums(root, root / "SHA256SUMS")
        pack_archive(root, folder / f"{name}.tar.gz", seconds)
    return folder / f"{name}.tar.gz"


def needed_libc(program: pathlib.Path) -> str:
    """The newest version of the C library whose symbols the program names."""
    found = re.findall(rb"GLIBC_(\d+)\.(\d+)", program.read_bytes())
    return ".".join(map(str, max((int(major), int(minor)) for major, minor in found)))


def control(root: pathlib.Path) -> str:
    """What the Debian package says of itself."""
    size = sum(path.stat().st_size for path in root.rglob("*") if path.is_file()) >> 10
    fields = {
        "Package": "hintcheck",
        "Version": version(),
        "Architecture": "amd64",
        "Maintainer": git("log", "-1", "--format=%an <%ae>"),
        "Installed-Size": size,
        "Depends": f"libc6 (>= {needed_libc(root / 'usr/bin/hintcheck')})",
        "Suggests": "libc6-dev, pkg-config",
        "Section": "utils",
        "Priority": "optional",
    }
    return "".join(f"{name}: {value}\n" for name, value in fields.items()) + DESCRIPTION


def make_deb(folder: pathlib.Path, said: list[str] | None, seconds: int) -> pathlib.Path:
    """Makes the Debian package."""
    package = folder / f"hintcheck_{version()}_amd64.deb"
    with tempfile.TemporaryDirectory() as room:
        root = pathlib.Path(room) / "root"
        install(root, "/usr")
        manual = root / "usr/share/man/man1/hintcheck.1"
        manual.with_suffix(".1.gz").write_bytes(gzip.compress(manual.read_bytes(), mtime=0))
        manual.unlink()
        (root / "usr" / DOC / "PROVED").write_text(proved(said))
        write_sums(root, root / "usr" / DOC / "SHA256SUMS")
        (root / "DEBIAN").mkdir()
        (root / "DEBIAN/control").write_text(control(root))
        files = [path for path in sorted(root.rglob("*")) if path.is_file() and "DEBIAN" not in path.parts]
        sums = [f"{hashlib.md5(path.read_bytes()).hexdigest()}  {path.relative_to(root)}\n" for path in files]
        (root / "DEBIAN/md5sums").write_text("".join(sums))
        must(["chmod", "-R", "u=rwX,go=rX", root])
        must(["dpkg-deb", "--root-owner-group", "--build", root, package], env=os.environ | {"SOURCE_DATE_EPOCH": str(seconds)})
    return package


def main() -> int:
    """Makes what the words name."""
    parser = argparse.ArgumentParser(usage="bench/pack.py [--unproved] [-o FOLDER] dist|deb..")
    parser.add_argument("--unproved", action="store_true")
    parser.add_argument("-o", dest="folder", type=pathlib.Path, default=TOP / "out")
    parser.add_argument("kinds", nargs="+", choices=["dist", "deb"])
    asked = parser.parse_args()
    said = None if asked.unproved else gate_said()
    if not asked.unproved:
        build_library()
    asked.folder.mkdir(parents=True, exist_ok=True)
    seconds = int(git("log", "-1", "--format=%ct"))
    for kind in asked.kinds:
        print({"dist": make_dist, "deb": make_deb}[kind](asked.folder, said, seconds))
    return 0


if __name__ == "__main__":
    sys.exit(main())
