#!/usr/bin/env python3
"""Tries the packages as whoever installs them: the archive unpacked in a folder, and the Debian package installed in an empty root.

Usage: bench/packages.py [--unproved] [PACKAGE..]
PACKAGE is an archive (.tar.gz) or a Debian package (.deb); where none is named, both are made first by bench/pack.py, to which --unproved is handed
on. Of each is tried: that SHA256SUMS fits and PROVED names a commit; that the program tells its version and answers `verdict` on fonts of the package
itself; that the examples and the manual page are there; and that a C program compiles and links by pkg-config, and answers the same. The Debian
package is installed by `dpkg --root` in an empty folder, in which then nothing is but it and the C library, its program is run there by chroot where
that may be done, and it is removed again. It says of each package that it passes or FAILS and why, and of what can't be tried here why not; the exit
status is 1 where one fails. It needs cc and pkg-config, and dpkg for the latter.
"""

from __future__ import annotations

import os
import pathlib
import re
import shlex
import shutil
import subprocess
import sys
import tempfile
import typing

TOP = pathlib.Path(__file__).resolve().parent.parent
DOC = "share/doc/hintcheck"
# Fonts of the examples, each with the status and the last line of its verdict, as examples/certificates/answers.txt has them.
FONTS = {
    "call-pops.ttf": (0, "accepted: 3 programs"),
    "call-underflows.ttf": (1, "refused: 1 of 3 programs"),
}
VERDICT_C = """\
#include <hintcheck.h>
#include <stdio.h>

static uint8_t font[1 << 20];

int main(int count, char **words)
{
    FILE *file = count == 2 ? fopen(words[1], "rb") : NULL;
    hintcheck_request request = {0};
    hintcheck_answer answer;
    if (!file)
        return 9;
    request.font = font;
    request.font_length = fread(font, 1, sizeof font, file);
    request.limit = HINTCHECK_UNLIMITED;
    fclose(file);
    if (hintcheck_version() != HINTCHECK_VERSION)
        return 8;
    return (int)hintcheck_verdict(&request, NULL, 0, NULL, 0, &answer);
}
"""


class Fails(Exception):
    """Why a package fails."""


def run(words: list[object], **settings) -> subprocess.CompletedProcess:
    """Runs a command, and returns what it printed."""
    command = [str(word) for word in words]
    return subprocess.run(command, stdout=subprocess.PIPE, stderr=subprocess.STDOUT, text=True, errors="replace", check=False, **settings)


def must(words: list[object], **settings) -> str:
    """Runs a command that must succeed."""
    ran = run(words, **settings)
    if ran.returncode:
        raise Fails(f"{' '.join(map(str, words))}: status {ran.returncode}\n{ran.stdout}")
    return ran.stdout


def try_sums(folder: pathlib.Path, sums: pathlib.Path, proved: pathlib.Path) -> None:
    """The sums fit, of every file, and PROVED names a commit."""
    must(["sha256sum", "--quiet", "--strict", "-c", sums], cwd=folder)
    if not re.search(r"of the commit [0-9a-f]{40}$", proved.read_text(), re.M):
        raise Fails("PROVED names no commit")


def try_program(command: list[object], version: str, fonts: pathlib.Path) -> None:
    """The program tells its version, and answers on fonts."""
    told = must([*command, "--version"])
    if not told.startswith(f"hintcheck {version} "):
        raise Fails(f"--version: {told}")
    for name, (status, line) in FONTS.items():
        ran = run([*command, "verdict", fonts / name])
        if ran.returncode != status or not ran.stdout.splitlines()[-1].startswith(line):
            raise Fails(f"verdict {name}: status {ran.returncode}, {ran.stdout}")


def try_pages(share: pathlib.Path) -> None:
    """Pages, examples, manual page and completions are there."""
    names = ["doc/hintcheck/README.md", "doc/hintcheck/docs/CONTRACTS.md", "doc/hintcheck/examples/embedding/line.c"]
    names += ["bash-completion/completions/hintcheck", "zsh/site-functions/_hintcheck", "fish/vendor_completions.d/hintcheck.fish"]
    lacking = [name for name in names if not (share / name).is_file()]
    if lacking or not list((share / "man/man1").glob("hintcheck.1*")):
        raise Fails(f"lacks {lacking or 'the manual page'}")


def try_library(environment: dict[str, str], fonts: pathlib.Path) -> str | None:
    """A C program links by pkg-config, and answers the same. Returns why that can't be tried here."""
    lacking = next((name for name in ("cc", "pkg-config") if not shutil.which(name)), None)
    if lacking:
        return f"the C program: no {lacking}"
    with tempfile.TemporaryDirectory() as name:
        source, program = pathlib.Path(name) / "verdict.c", pathlib.Path(name) / "verdict"
        source.write_text(VERDICT_C)
        flags = shlex.split(must(["pkg-config", "--cflags", "--libs", "hintcheck"], env=os.environ | environment))
        must(["cc", "-std=c99", "-Wall", "-Wextra", "-Werror", "-o", program, source, *flags])
        for font, (status, _) in FONTS.items():
            ran = run([program, fonts / font])
            if ran.returncode != status:
                raise Fails(f"the C program on {font}: status {ran.returncode}, not {status}")
    return None


def try_archive(package: pathlib.Path, room: pathlib.Path) -> list[str]:
    """Tries an archive, and returns what can't be tried here."""
    version = re.fullmatch(r"hintcheck-(.*)-x86_64-linux\.tar\.gz", package.name)[1]
    folder = room / "a folder"
    folder.mkdir()
    must(["tar", "-xzf", package.resolve()], cwd=folder)
    top = folder / package.name.removesuffix(".tar.gz")
    fonts = top / DOC / "examples/certificates"
    try_sums(top, top / "SHA256SUMS", top / "PROVED")
    try_pages(top / "share")
    try_program([top / "bin/hintcheck"], version, fonts)
    why = try_library({"PKG_CONFIG_PATH": str(top / "lib/pkgconfig")}, fonts)
    return [why] if why else []


def empty_root(room: pathlib.Path) -> pathlib.Path:
    """An empty root, with the folders in which dpkg keeps what is installed."""
    root = room / "root"
    (root / "var/lib/dpkg/updates").mkdir(parents=True)
    (root / "var/lib/dpkg/info").mkdir()
    (root / "var/lib/dpkg/status").touch()
    return root


def dpkg(root: pathlib.Path, *words: object) -> str:
    """Runs dpkg on this root. The C library isn't installed there as a package."""
    forced = ["--force-depends", *["--force-not-root"] * bool(os.geteuid())]
    return must(["dpkg", f"--root={root}", *forced, f"--log={root}/dpkg.log", *words])


def copy_libc(root: pathlib.Path, program: pathlib.Path) -> None:
    """Copies what the program loads, the C library, into the root."""
    for path in re.findall(r"(/\S+)", must(["ldd", program])):
        if pathlib.Path(path).is_file():
            to = pathlib.Path(f"{root}{path}")
            to.parent.mkdir(parents=True, exist_ok=True)
            shutil.copy(path, to)


def try_deb(package: pathlib.Path, room: pathlib.Path) -> list[str]:
    """Tries a Debian package, and returns what can't be tried here."""
    if not shutil.which("dpkg"):
        return ["no dpkg"]
    root, not_here = empty_root(room), []
    dpkg(root, "--install", package)
    version = must(["dpkg-deb", "--field", package, "Version"]).strip()
    doc, program = root / "usr" / DOC, root / "usr/bin/hintcheck"
    try_sums(root, doc / "SHA256SUMS", doc / "PROVED")
    try_pages(root / "usr/share")
    if dpkg(root, "--verify", "hintcheck"):
        raise Fails("dpkg --verify: files differ")
    fonts = doc / "examples/certificates"
    try_program([program], version, fonts)
    if os.geteuid() == 0:
        copy_libc(root, program)
        try_program(["chroot", root, "/usr/bin/hintcheck"], version, pathlib.Path("/usr") / DOC / "examples/certificates")
    else:
        not_here.append("chroot: not root")
    why = try_library({"PKG_CONFIG_LIBDIR": str(root / "usr/lib/pkgconfig"), "PKG_CONFIG_SYSROOT_DIR": str(root)}, fonts)
    dpkg(root, "--purge", "hintcheck")
    left = [path for path in (root / "usr").rglob("*") if path.is_file() and "hintcheck" in str(path.relative_to(root))]
    if left:
        raise Fails(f"left after it was removed: {left[0]}")
    return [*not_here, *[why] * bool(why)]


def passes(package: pathlib.Path) -> bool:
    """Tries a package, and says what came of it."""
    tries: typing.Callable[[pathlib.Path, pathlib.Path], list[str]] = try_deb if package.suffix == ".deb" else try_archive
    with tempfile.TemporaryDirectory(prefix="hintcheck-packages-") as room:
        try:
            not_here = tries(package, pathlib.Path(room))
        except Fails as why:
            print(f"{package.name}: FAILS: {why}")
            return False
    print(f"{package.name}: passes" + "".join(f"; can't be tried here: {why}" for why in not_here))
    return True


def main(words: list[str]) -> int:
    """Tries the packages that the words name, or those that are made now."""
    options = [word for word in words if word == "--unproved"]
    packages = [pathlib.Path(word) for word in words if word not in options]
    with tempfile.TemporaryDirectory() as folder:
        if not packages:
            made = [sys.executable, TOP / "bench/pack.py", *options, "-o", folder, "dist", "deb"]
            if subprocess.run(made, check=False).returncode:
                print("no packages were made: FAILS")
                return 1
            packages = sorted(pathlib.Path(folder).iterdir())
        return 0 if all([passes(package) for package in packages]) else 1


if __name__ == "__main__":
    sys.exit(main(sys.argv[1:]))
