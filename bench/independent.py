#!/usr/bin/env python3
"""Compares a second checker of certificates, examples/checker.py, with what is expected and with
`hintcheck check`.

Usage: bench/independent.py [--program PROGRAM] [FONT..]
The files of examples/certificates are compared with what answers.txt says of them. Its answers are
asked of the second checker, and of PROGRAM, a built hintcheck: crates/hintcheck_cli/out/hintcheck_cli
where no other is named and it is there. Where there is one, it finds a certificate for each FONT, or
for the fonts of examples/premises and the 20 smallest of /usr/share/fonts; both check it as it is,
and where it has at most MOST_BYTES also with each of CHANGES bytes changed alone. What differs is
printed, and the exit status is then 1. The second checker takes about a second for a megabyte.
Without a built hintcheck, bench/independent_trials.py compares them.
"""

import pathlib
import random
import subprocess
import sys
import tempfile

TOP = pathlib.Path(__file__).resolve().parent.parent
sys.path.append(str(TOP / "bench"))

import vectors  # noqa: E402  (the folder is only known here)

PROGRAM = TOP / "crates/hintcheck_cli/out/hintcheck_cli"
CHECKER = [sys.executable, str(TOP / "examples/checker.py")]
MOST_FONTS = 20
MOST_BYTES = 300_000
CHANGES = 20


def asked(words: list[str]) -> vectors.Answer:
    """What a program answers, without what only hintcheck says."""
    ran = subprocess.run(words, capture_output=True, text=True, check=False)
    faults = [line for line in ran.stderr.splitlines() if not line.startswith("note: ")]
    return vectors.Answer(ran.returncode, ran.stdout.splitlines(), faults)


def differs(what: str, seen: vectors.Answer, wanted: vectors.Answer) -> bool:
    """Whether these differ, which is then printed."""
    if seen != wanted:
        print(f"{what}\n  {seen.text()}\n  instead of {wanted.text()}")
    return seen != wanted


def fails_vectors(checkers: list[list[str]], folder: pathlib.Path) -> int:
    """How many answers of answers.txt aren't given, by all checkers."""
    failed = tried = 0
    for vector in vectors.read_list()[1]:
        names = [folder / "asked.ttf", folder / "asked.cert"]
        for name, data in zip(names, vector.files()):
            name.unlink(missing_ok=True)
            if data is not None:
                name.write_bytes(data)
        for checker in checkers:
            tried += 1
            seen = asked([*checker, *map(str, names)])
            failed += differs(f"{vector.place}, {pathlib.Path(checker[-1]).name}", seen,
                              vector.answer)
    print(f"{tried} answers to what is expected, {failed} differ")
    return failed


def changed_certificates(certificate: bytes) -> list[bytes]:
    """The certificate, and others with one byte changed, the same ones each time."""
    if not certificate or len(certificate) > MOST_BYTES:
        return [certificate]
    chance = random.Random(len(certificate))
    places = [chance.randrange(len(certificate)) for _ in range(CHANGES)]
    return [certificate] + [certificate[:place] + bytes([chance.randrange(256)])
                            + certificate[place + 1:] for place in places]


def fails_font(program: str, font: pathlib.Path, changed: pathlib.Path) -> int:
    """How many certificates of a font both checkers answer differently."""
    found = asked([program, "find", str(font), str(changed)])
    certificate = changed.read_bytes() if changed.exists() else b""
    failed = 0
    for number, each in enumerate(changed_certificates(certificate)):
        changed.write_bytes(each)
        seen = asked([*CHECKER, str(font), str(changed)])
        wanted = asked([program, "check", str(font), str(changed)])
        failed += differs(f"{font}, certificate {number} of {len(each)} bytes", seen, wanted)
        if number == 0 and certificate:
            failed += differs(f"{font}: as found", seen, found)
    return failed


def usual_fonts(folder: pathlib.Path) -> list[pathlib.Path]:
    """The fonts of examples/premises, made in the folder, and the smallest of the system."""
    subprocess.run([sys.executable, TOP / "examples/premises/fonts.py", folder], check=True)
    fonts = pathlib.Path("/usr/share/fonts").rglob("*.ttf")
    smallest = sorted(fonts, key=lambda font: (font.stat().st_size, font))[:MOST_FONTS]
    return [*sorted(folder.glob("*.ttf")), *smallest]


def main(words: list[str]) -> int:
    """Makes all comparisons."""
    program = str(PROGRAM) if PROGRAM.exists() else ""
    if words[:1] == ["--program"]:
        program, words = words[1], words[2:]
    failed = vectors.main([])
    with tempfile.TemporaryDirectory() as name:
        folder = pathlib.Path(name)
        changed = folder / "changed.cert"
        failed += fails_vectors([CHECKER] + ([[program, "check"]] if program else []), folder)
        fonts = [pathlib.Path(word) for word in words] or (usual_fonts(folder) if program else [])
        for font in fonts if program else []:
            changed.unlink(missing_ok=True)
            failed += fails_font(program, font, changed)
            print(f"{font}: compared")
    if not program:
        print("hintcheck isn't built: only the second checker was asked")
    return int(failed > 0)


if __name__ == "__main__":
    sys.exit(main(sys.argv[1:]))
