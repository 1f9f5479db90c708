#!/usr/bin/env python3
"""Tests the module hintcheck over a shared library.

Usage: test_hintcheck.py LIBRARY [WORDS of unittest..]
The fonts and certificates are those of examples/certificates, with the answers of its answers.txt, and some that the modules of examples/premises make.
What the module says of the header's numbers and structs is compared with include/hintcheck.h.
"""

from __future__ import annotations

import concurrent.futures
import ctypes
import dataclasses
import mmap
import pathlib
import re
import struct
import sys
import tempfile
import tracemalloc
import unittest

import hintcheck
from hintcheck import Profile, ReasonClass, Status

EXAMPLES = pathlib.Path(__file__).resolve().parent.parent
HEADER = EXAMPLES.parent / "include/hintcheck.h"
sys.path.append(str(EXAMPLES / "premises"))

import fontfile  # noqa: E402  (the folder is only known here)

POP, MUL, RCVT = b"\x21", b"\x63", b"\x45"
MEGABYTE = 1 << 20


def example(name: str) -> bytes:
    """A file of examples/certificates."""
    return (EXAMPLES / "certificates" / name).read_bytes()


def changed(data: bytes, start: int, end: int, digits: str) -> bytes:
    """A file with other bytes from `start` up to before `end`, as an edit of answers.txt tells."""
    return data[:start] + bytes.fromhex(digits) + data[end:]


def font_of(*glyphs: fontfile.Glyph) -> bytes:
    """A font of these glyphs."""
    return fontfile.file_of(fontfile.Font("font", list(glyphs)))


def collection_of(*fonts: bytes) -> bytes:
    """A font collection of version 1.0 whose faces are these font files, one after the other."""
    header = struct.pack(">4sII", b"ttcf", 0x10000, len(fonts))
    place, faces = len(header) + 4 * len(fonts), b""
    for font in fonts:
        header += struct.pack(">I", place + len(faces))
        moved = bytearray(font)
        for record in range(struct.unpack_from(">H", font, 4)[0]):
            offset = 12 + 16 * record + 8
            struct.pack_into(">I", moved, offset, struct.unpack_from(">I", font, offset)[0] + place + len(faces))
        faces += moved
    return header + faces


ACCEPTED, REFUSED, CERTIFICATE = example("call-pops.ttf"), example("call-underflows.ttf"), example("call-pops.form4")
# Glyph 1 takes an element of an empty stack, and glyph 3 is made of it; glyph 2 is made of glyph 0.
COMPOSITES = font_of(
    fontfile.Glyph("good", b""), fontfile.Glyph("bad", POP), fontfile.Glyph("of good", b"", (0,)), fontfile.Glyph("of bad", b"", (0, 1))
)
# The index of a control value is computed: 1 times 64, in 64ths.
COMPUTED = font_of(fontfile.Glyph("computed", fontfile.push(1, 64) + MUL + RCVT + POP))


class Test(unittest.TestCase):
    """Tests over one library."""

    library: hintcheck.Library

    def assert_faults(self, answer: hintcheck.Answer, status: Status, fault: int, place: int = 0) -> None:
        """Asserts that there is no verdict, for this reason."""
        self.assertEqual((answer.status, answer.fault, answer.place), (status, fault, place))
        self.assertEqual((answer.programs, answer.refused, answer.refusals, answer.glyphs), (0, 0, (), b""))
        self.assertFalse(answer.is_accepted or answer.may_hint(0))


class Verdicts(Test):
    """What a verdict answers."""

    def test_accepted(self) -> None:
        answer = self.library.verdict(ACCEPTED)
        self.assertTrue(answer.is_accepted)
        self.assertEqual((answer.status, answer.fault, answer.programs, answer.refused, answer.refusals), (Status.ACCEPTED, 0, 3, 0, ()))
        self.assertGreater(answer.steps, 0)
        self.assertEqual((answer.profile, answer.glyphs), (Profile.STRICT, b""))

    def test_refused(self) -> None:
        answer = self.library.verdict(REFUSED)
        self.assertEqual((answer.status, answer.programs, answer.refused), (Status.REFUSED, 3, 1))
        self.assertEqual(answer.refusals, (hintcheck.Refusal(0, hintcheck.FONT_PROGRAM, 3, 26, ReasonClass.POSSIBLE_FAULT, "underflow"),))
        self.assertEqual([str(refusal) for refusal in answer.refusals], ["refused g0 at f:3: 26 underflow"])
        self.assertFalse(answer.is_accepted)

    def test_less_room_than_refusals(self) -> None:
        answer = self.library.verdict(COMPOSITES, room=0)
        self.assertEqual((answer.status, answer.refused, answer.refusals), (Status.REFUSED, 1, ()))

    def test_fonts_that_cannot_be_read(self) -> None:
        self.assert_faults(self.library.verdict(b""), Status.FAULT, 2)
        self.assert_faults(self.library.verdict(changed(ACCEPTED, 0, 1, "01")), Status.FAULT, 1)
        self.assert_faults(self.library.verdict(changed(ACCEPTED, 104, 108, "0000001F"), glyphs=True), Status.FAULT, 4)
        self.assert_faults(self.library.verdict(changed(ACCEPTED, 104, 108, "0000001F"), profile=Profile.SYMBOLIC), Status.FAULT, 4)

    def test_limit(self) -> None:
        needed = self.library.verdict(ACCEPTED).steps
        self.assertTrue(self.library.verdict(ACCEPTED, limit=needed).is_accepted)
        answer = self.library.verdict(ACCEPTED, limit=needed - 1, glyphs=True)
        self.assert_faults(answer, Status.BUDGET, 46)
        self.assertEqual(answer.steps, needed - 1)

    def test_symbolic(self) -> None:
        strict = self.library.verdict(COMPUTED)
        self.assertEqual([(refusal.reason, refusal.reason_class) for refusal in strict.refusals], [(28, ReasonClass.UNDECIDED)])
        symbolic = self.library.verdict(COMPUTED, profile=Profile.SYMBOLIC)
        self.assertTrue(symbolic.is_accepted)
        self.assertEqual((strict.profile, symbolic.profile), (Profile.STRICT, Profile.SYMBOLIC))
        self.assertGreater(symbolic.steps, 0)
        self.assertTrue(self.library.verdict(COMPUTED, profile=Profile.SYMBOLIC, limit=symbolic.steps).is_accepted)
        short = self.library.verdict(COMPUTED, profile=Profile.SYMBOLIC, limit=symbolic.steps - 1)
        self.assertEqual([refusal.reason for refusal in short.refusals], [46])

    def test_both(self) -> None:
        for font, profile in ((ACCEPTED, Profile.STRICT), (COMPUTED, Profile.SYMBOLIC), (COMPOSITES, Profile.SYMBOLIC), (b"", Profile.STRICT)):
            with self.subTest(profile=profile, length=len(font)):
                both = self.library.verdict(font, profile=Profile.BOTH, glyphs=True)
                self.assertEqual(both, self.library.verdict(font, profile=profile, glyphs=True))
                self.assertEqual(both.profile, profile)
        short = self.library.verdict(ACCEPTED, profile=Profile.BOTH, limit=0)
        self.assertEqual((short.status, short.profile), (Status.REFUSED, Profile.SYMBOLIC))

    def test_faces(self) -> None:
        fonts = (ACCEPTED, COMPUTED, REFUSED)
        collection = collection_of(*fonts)
        for profile in Profile:
            for face, font in enumerate(fonts):
                with self.subTest(profile=profile, face=face):
                    answer = self.library.verdict(collection, face=face, profile=profile, glyphs=True)
                    self.assertEqual(answer, self.library.verdict(font, profile=profile, glyphs=True))
            self.assert_faults(self.library.verdict(collection, face=3, profile=profile), Status.FAULT, 13)
            self.assert_faults(self.library.verdict(ACCEPTED, face=1, profile=profile), Status.FAULT, 13)
        self.assert_faults(self.library.verdict(collection[:8]), Status.FAULT, 11)
        self.assert_faults(self.library.verdict(changed(collection, 8, 12, "00000000")), Status.FAULT, 12)
        self.assert_faults(self.library.verdict(changed(collection, 4, 6, "0003")), Status.FAULT, 10)

    def test_glyphs(self) -> None:
        for profile in Profile:
            with self.subTest(profile=profile):
                answer = self.library.verdict(COMPOSITES, profile=profile, glyphs=True)
                self.assertEqual((answer.status, answer.glyphs), (Status.REFUSED, bytes([1, 0, 1, 0])))
                self.assertEqual([refusal.program for refusal in answer.refusals], [1])
                self.assertEqual([answer.may_hint(glyph) for glyph in range(-1, 5)], [False, True, False, True, False, False])


class Certificates(Test):
    """What a check by a certificate answers."""

    def test_its_own(self) -> None:
        self.assertTrue(self.library.check(ACCEPTED, CERTIFICATE).is_accepted)

    def test_another_font(self) -> None:
        answer = self.library.check(REFUSED, CERTIFICATE)
        self.assertEqual((answer.status, answer.refused), (Status.REFUSED, 1))
        self.assertEqual((answer.refusals[0].reason, answer.refusals[0].reason_class), (41, ReasonClass.CERTIFICATE))

    def test_cut_short(self) -> None:
        self.assert_faults(self.library.check(ACCEPTED, CERTIFICATE[:-1]), Status.FAULT, 43, len(CERTIFICATE) - 1)
        self.assert_faults(self.library.check(ACCEPTED, b""), Status.FAULT, 43, 0)

    def test_limit(self) -> None:
        self.assert_faults(self.library.check(ACCEPTED, CERTIFICATE, limit=0), Status.BUDGET, 46)

    def test_face(self) -> None:
        collection = collection_of(REFUSED, ACCEPTED)
        self.assertEqual(self.library.check(collection, CERTIFICATE, face=1), self.library.check(ACCEPTED, CERTIFICATE))
        self.assertFalse(self.library.check(collection, CERTIFICATE).is_accepted)
        self.assert_faults(self.library.check(collection, CERTIFICATE, face=2), Status.FAULT, 13)


class Buffers(Test):
    """How fonts are handed over."""

    def test_kinds(self) -> None:
        owners = {
            "bytes": ACCEPTED,
            "bytearray": bytearray(ACCEPTED),
            "memoryview": memoryview(ACCEPTED),
            "part": memoryview(b"before" + ACCEPTED + b"after")[6 : 6 + len(ACCEPTED)],
            "array": (ctypes.c_ubyte * len(ACCEPTED)).from_buffer_copy(ACCEPTED),
        }
        for name, owner in owners.items():
            with self.subTest(name):
                self.assertTrue(self.library.verdict(owner).is_accepted)
                self.assertTrue(self.library.check(owner, bytearray(CERTIFICATE)).is_accepted)

    def test_empty_ones(self) -> None:
        for owner in (b"", bytearray(), memoryview(b"")):
            self.assert_faults(self.library.verdict(owner), Status.FAULT, 2)

    def test_mapped_file(self) -> None:
        with tempfile.TemporaryFile() as file:
            file.write(REFUSED)
            file.flush()
            with mmap.mmap(file.fileno(), 0, access=mmap.ACCESS_READ) as mapped:
                self.assertEqual(self.library.verdict(mapped).refused, 1)

    def test_no_copy(self) -> None:
        owners = (ACCEPTED + bytes(64 * MEGABYTE), bytearray(ACCEPTED) + bytes(64 * MEGABYTE))
        for owner in owners:
            with hintcheck._lent(owner) as (address, length):  # pylint: disable=protected-access
                self.assertEqual((ctypes.string_at(address, 64), length), (ACCEPTED[:64], len(owner)))
            tracemalloc.start()
            try:
                self.assertTrue(self.library.verdict(owner, room=8).is_accepted)
                self.assertLess(tracemalloc.get_traced_memory()[1], MEGABYTE)
            finally:
                tracemalloc.stop()

    def test_given_back(self) -> None:
        owner = bytearray(ACCEPTED)
        self.assertTrue(self.library.verdict(owner).is_accepted)
        owner += b"more"

    def test_no_buffer(self) -> None:
        for owner in ("font.ttf", None, 7):
            with self.assertRaises(TypeError):
                self.library.verdict(owner)
        with self.assertRaises(BufferError):
            self.library.verdict(memoryview(ACCEPTED)[::2])


class Words(Test):
    """Numbers that can't be handed over, threads, and texts."""

    def test_numbers_out_of_range(self) -> None:
        for words in ({"limit": -1}, {"limit": 1 << 64}, {"room": -1}, {"profile": 3}, {"face": -1}, {"face": 1 << 32}):
            with self.subTest(words), self.assertRaises(ValueError):
                self.library.verdict(ACCEPTED, **words)

    def test_threads(self) -> None:
        fonts = [ACCEPTED, REFUSED, COMPOSITES, COMPUTED] * 25
        alone = [self.library.verdict(font, glyphs=True) for font in fonts]
        with concurrent.futures.ThreadPoolExecutor(8) as pool:
            self.assertEqual(list(pool.map(lambda font: self.library.verdict(font, glyphs=True), fonts)), alone)

    def test_texts(self) -> None:
        numbers = [int(number) for number in re.findall(r"HINTCHECK_REASON_\w+ = (\d+)", HEADER.read_text())]
        told = [number for number in range(100) if self.library.reason_text(number)]
        self.assertEqual(told, sorted(numbers))
        self.assertEqual((self.library.reason_text(26), self.library.reason_text(-1), self.library.reason_text(1 << 32)), ("underflow", None, None))

    def test_no_library(self) -> None:
        with self.assertRaises(OSError):
            hintcheck.Library("/nonexistent/libhintcheck.so")


class Header(Test):
    """What the module says of the header."""

    def test_numbers(self) -> None:
        text = HEADER.read_text()
        numbers = {name: int(number) for name, number in re.findall(r"HINTCHECK_(\w+) = (\d+)", text)}
        for kind in (Status, Profile, ReasonClass):
            self.assertEqual({one.name: one.value for one in kind}, {one.name: numbers[one.name] for one in kind})
        defined = dict(re.findall(r"#define HINTCHECK_(\w+) \D*?(?:UINT64_C\()?(\w+?)[u)]*$", text, re.M))
        self.assertEqual(int(defined["VERSION"], 16), hintcheck.VERSION)
        self.assertEqual(int(defined["USUAL_STEPS"]), hintcheck.USUAL_STEPS)
        self.assertEqual(int(defined["FONT_PROGRAM"]), hintcheck.FONT_PROGRAM)
        self.assertEqual(int(defined["CVT_PROGRAM"]), hintcheck.CVT_PROGRAM)

    def test_structs(self) -> None:
        structs = {"hintcheck_refusal": hintcheck._Refusal, "hintcheck_answer": hintcheck._Answer}  # pylint: disable=protected-access
        text = HEADER.read_text()
        for name, size in re.findall(r"sizeof\((hintcheck_\w+)\) == (\d+)", text):
            self.assertEqual((name, ctypes.sizeof(structs[name])), (name, int(size)))
        offsets = [(name, field, int(offset)) for name, field, offset in re.findall(r"offsetof\((\w+), (\w+)\) == (\d+)", text)]
        fields = [(name, field, getattr(struct, field).offset) for name, struct in structs.items() for field, _ in struct._fields_]
        self.assertEqual(fields, offsets)

    def test_answer_is_a_value(self) -> None:
        answer = self.library.verdict(ACCEPTED)
        with self.assertRaises(dataclasses.FrozenInstanceError):
            answer.status = Status.REFUSED
        self.assertEqual(answer, self.library.verdict(bytearray(ACCEPTED)))


if __name__ == "__main__":
    if len(sys.argv) < 2:
        sys.exit("usage: test_hintcheck.py LIBRARY [WORDS of unittest..]")
    Test.library = hintcheck.Library(sys.argv.pop(1))
    unittest.main()
