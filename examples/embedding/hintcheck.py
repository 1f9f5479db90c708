"""The library of hintcheck for Python: checks the hint programs of TrueType fonts before an interpreter runs them.

    import hintcheck

    library = hintcheck.Library("libhintcheck.so")
    answer = library.verdict(font, limit=20_000_000, glyphs=True)
    if answer.is_accepted or answer.may_hint(glyph):
        ...

The shared library is made of the archive:
cc -shared -o libhintcheck.so -Wl,--whole-archive libhintcheck.a -Wl,--no-whole-archive

A font is any object that lends its bytes, of a font file or of a font collection: bytes, a bytearray, a memoryview, an mmap. The library reads them
where they are, and nothing copies them but that it unpacks the face of a collection; nobody may change them while a call runs, neither another thread
nor another process that has the file mapped. The library has no state, so several threads may call one Library at the same time, and Python runs its
other threads meanwhile.

include/hintcheck.h says what each answer means, and docs/EMBEDDING.md what a renderer does with it. The header's inline functions aren't in the shared
library: this module does what they do, and calls the library's own functions, of which each has its profile.
"""

from __future__ import annotations

import contextlib
import ctypes
import dataclasses
import enum
import os
import typing

# The version of the header for which this module is written: a byte each for its three numbers.
VERSION = 0x000900
# A limit: as many steps as the font asks for.
UNLIMITED = (1 << 64) - 1
# A limit: as many steps as the symbolic profile of the command makes for a font at most.
USUAL_STEPS = 1_000_000_000
# The number of the last face that a collection may have.
LAST_FACE = (1 << 32) - 1
# The numbers of the two programs that no glyph has.
FONT_PROGRAM, CVT_PROGRAM = 65536, 65537
# How many glyphs a font has at most; two more programs may be refused.
MOST_GLYPHS = 65535


class Status(enum.IntEnum):
    """What came of a call. Only ACCEPTED says that the programs are safe."""

    ACCEPTED = 0
    REFUSED = 1
    FAULT = 2
    OUT_OF_MEMORY = 3
    BUDGET = 4
    USAGE = 5


class Profile(enum.IntEnum):
    """By which rules a font is checked: docs/EMBEDDING.md says under which premises each one's acceptance holds."""

    STRICT = 0
    SYMBOLIC = 1
    BOTH = 2
    """The strict one, and the symbolic one where that doesn't accept the font. An answer is by one of the two."""


class ReasonClass(enum.IntEnum):
    """What the reason of a refusal tells."""

    POSSIBLE_FAULT = 0
    UNDECIDED = 1
    LEFT_OUT = 2
    CERTIFICATE = 3


def program_name(number: int) -> str:
    """A program's name, as the command prints it: f, p, or g and the glyph's number."""
    return {FONT_PROGRAM: "f", CVT_PROGRAM: "p"}.get(number, f"g{number}")


@dataclasses.dataclass(frozen=True)
class Refusal:
    """A refused program, with where and why. As a string it is the command's line."""

    program: int
    """The program: a glyph's number, FONT_PROGRAM or CVT_PROGRAM."""
    place: int
    """The program that has the instruction in its bytes: the same one, or the one that defines the function."""
    offset: int
    """The instruction's offset there, in bytes."""
    reason: int
    """The number of the reason (docs/REASONS.md)."""
    reason_class: ReasonClass
    """What that reason tells."""
    text: str
    """The reason in words."""

    def __str__(self) -> str:
        return f"refused {program_name(self.program)} at {program_name(self.place)}:{self.offset}: {self.reason} {self.text}"


@dataclasses.dataclass(frozen=True)
class Answer:
    """What a call answers, as struct hintcheck_answer."""

    status: Status
    """What came of the call."""
    fault: int
    """The fault's number (docs/REASONS.md); 0 where there is a verdict."""
    place: int
    """At fault 43, the offset of the first byte of the certificate that is wrong; otherwise 0."""
    steps: int
    """How many steps the profile that answers made, also where there is no verdict: how often the strict one carried a state on from a place of a
    program, or the symbolic one carried a state over an instruction."""
    programs: int
    """How many programs the font has, its glyphs and 2; 0 where there is no verdict."""
    refused: int
    """How many of them are refused."""
    profile: Profile
    """Which profile answers: STRICT or SYMBOLIC."""
    refusals: tuple[Refusal, ...]
    """The first of these, as many as were asked for."""
    glyphs: bytes
    """For each glyph 1 where it may be drawn with hints, otherwise 0. No bytes where that wasn't asked for, or there is no verdict."""

    @property
    def is_accepted(self) -> bool:
        """Whether every program of the font is accepted."""
        return self.status is Status.ACCEPTED

    def may_hint(self, glyph: int) -> bool:
        """Whether a glyph may be drawn with hints. Not where nothing was said of it."""
        return 0 <= glyph < len(self.glyphs) and self.glyphs[glyph] == 1


class _Refusal(ctypes.Structure):
    """struct hintcheck_refusal."""

    _fields_ = [(name, ctypes.c_uint32) for name in ("program", "place", "offset", "reason", "reason_class")]


class _Answer(ctypes.Structure):
    """struct hintcheck_answer."""

    _fields_ = [
        ("status", ctypes.c_uint32),
        ("fault", ctypes.c_uint32),
        ("place", ctypes.c_uint64),
        ("steps", ctypes.c_uint64),
        ("programs", ctypes.c_uint32),
        ("refused", ctypes.c_uint32),
        ("listed", ctypes.c_size_t),
        ("profile", ctypes.c_uint32),
    ]


class _Buffer(ctypes.Structure):
    """Py_buffer of Python's own interface for C."""

    _fields_ = [
        ("buf", ctypes.c_void_p),
        ("obj", ctypes.c_void_p),
        ("len", ctypes.c_ssize_t),
        ("itemsize", ctypes.c_ssize_t),
        ("readonly", ctypes.c_int),
        ("ndim", ctypes.c_int),
        ("format", ctypes.c_void_p),
        ("shape", ctypes.c_void_p),
        ("strides", ctypes.c_void_p),
        ("suboffsets", ctypes.c_void_p),
        ("internal", ctypes.c_void_p),
    ]


_get_buffer = ctypes.pythonapi.PyObject_GetBuffer
_get_buffer.argtypes = [ctypes.py_object, ctypes.POINTER(_Buffer), ctypes.c_int]
_get_buffer.restype = ctypes.c_int
_release_buffer = ctypes.pythonapi.PyBuffer_Release
_release_buffer.argtypes = [ctypes.POINTER(_Buffer)]
_release_buffer.restype = None
# PyBUF_SIMPLE: bytes one after another, which are only read.
_SIMPLE = 0

# What stands for the bytes of an empty font, since the library takes no null pointer; and the 24 bytes to which the pointer to a text points at first.
_NO_BYTES, _NO_TEXT = ctypes.create_string_buffer(1), bytes(24)

_BYTES = (ctypes.c_void_p, ctypes.c_size_t)
_FACE = (*_BYTES, ctypes.c_uint32)
_REFUSALS = (ctypes.POINTER(_Refusal), ctypes.c_size_t)
_GLYPHS = (ctypes.POINTER(ctypes.c_uint8), ctypes.c_size_t)
_VERDICT = (ctypes.c_uint32, (*_FACE, ctypes.c_uint64, *_REFUSALS, *_GLYPHS, ctypes.POINTER(_Answer)))
_FUNCTIONS: dict[str, tuple[type, tuple[type, ...]]] = {
    "hintcheck_version": (ctypes.c_uint32, ()),
    "hintcheck_verdict_of_bytes": _VERDICT,
    "hintcheck_verdict_symbolic_of_bytes": _VERDICT,
    "hintcheck_verdict_both_of_bytes": _VERDICT,
    "hintcheck_check_of_bytes": (ctypes.c_uint32, (*_FACE, *_BYTES, ctypes.c_uint64, *_REFUSALS, ctypes.POINTER(_Answer))),
    "hintcheck_reason_text_of_number": (ctypes.c_bool, (ctypes.c_uint32, ctypes.POINTER(ctypes.c_char_p))),
}
# The function that answers by each profile.
_CALLS = {
    Profile.STRICT: "hintcheck_verdict_of_bytes",
    Profile.SYMBOLIC: "hintcheck_verdict_symbolic_of_bytes",
    Profile.BOTH: "hintcheck_verdict_both_of_bytes",
}


@contextlib.contextmanager
def _lent(owner: object) -> typing.Iterator[tuple[int, int]]:
    """The address and the length of the bytes that an object lends. It can't move or free them before they are given back."""
    view = _Buffer()
    _get_buffer(owner, ctypes.byref(view), _SIMPLE)
    try:
        yield view.buf or ctypes.addressof(_NO_BYTES), view.len
    finally:
        _release_buffer(ctypes.byref(view))


def _counted(number: int | None, usual: int, most: int, name: str) -> int:
    """A number that the library can be given: the usual one in the place of None."""
    number = usual if number is None else number
    if not 0 <= number <= most:
        raise ValueError(f"{name} is from 0 to {most}")
    return number


class Library:
    """The shared library, opened."""

    def __init__(self, path: str | os.PathLike[str]) -> None:
        """Opens the library. Raises OSError where it can't be loaded, and ValueError where it is of another version than this module."""
        self._library = ctypes.CDLL(os.path.abspath(path))
        for name, (result, arguments) in _FUNCTIONS.items():
            function = getattr(self._library, name)
            function.restype, function.argtypes = result, arguments
        if self.version != VERSION:
            raise ValueError(f"{os.fspath(path)} has the version {self.version:#08x}, and this module is for {VERSION:#08x}")

    @property
    def version(self) -> int:
        """The library's version: a byte each for its three numbers."""
        return self._library.hintcheck_version()

    def reason_text(self, reason: int) -> str | None:
        """The text of a reason, as the command prints it. None where the number is no reason's."""
        text = ctypes.c_char_p(_NO_TEXT)
        is_reason = 0 <= reason < 1 << 32 and self._library.hintcheck_reason_text_of_number(reason, ctypes.byref(text))
        return text.value.decode() if is_reason else None

    def verdict(
        self,
        font: object,
        *,
        face: int = 0,
        profile: Profile = Profile.STRICT,
        limit: int | None = None,
        room: int | None = None,
        glyphs: bool = False,
    ) -> Answer:
        """Checks all programs of a font.

        `face` is the number of a face, from 0, where the bytes are a font collection; a font file has the face 0 alone. Where there is no such face
        the status is FAULT.

        `limit` bounds the work: how many steps each profile makes at most. Where they don't suffice, the answer of STRICT has the status BUDGET, and
        that of SYMBOLIC or of BOTH refuses programs. Without it, STRICT makes as many as the font asks for, and the other two USUAL_STEPS, as the
        command. `room` is how many refusals are listed at most; without it, all are. With `glyphs` the answer also says which glyphs may be drawn with
        hints.

        Raises TypeError or BufferError where `font` doesn't lend its bytes in one piece, and ValueError for another profile or a number out of range.
        """
        profile = Profile(profile)
        limit = _counted(limit, UNLIMITED if profile is Profile.STRICT else USUAL_STEPS, UNLIMITED, "limit")
        face = _counted(face, 0, LAST_FACE, "face")
        call = getattr(self._library, _CALLS[profile])
        refusals = self._room(room)
        # An array without entries has an address too, which is all that the library asks of it.
        entries, answer = (ctypes.c_uint8 * (MOST_GLYPHS if glyphs else 0))(), _Answer()
        with _lent(font) as (address, length):
            call(address, length, face, limit, refusals, len(refusals), entries, len(entries), ctypes.byref(answer))
        return self._told(answer, refusals, ctypes.string_at(entries, max(answer.programs - 2, 0)) if glyphs else b"")

    def check(self, font: object, certificate: object, *, face: int = 0, limit: int | None = None, room: int | None = None) -> Answer:
        """Checks all programs of a font by the bytes of a certificate, as `hintcheck find` writes it, which nobody needs to trust.

        It takes the strict profile, and says nothing of single glyphs. All else is as for `verdict`.
        """
        limit = _counted(limit, UNLIMITED, UNLIMITED, "limit")
        face = _counted(face, 0, LAST_FACE, "face")
        refusals, answer = self._room(room), _Answer()
        with _lent(font) as (address, length), _lent(certificate) as (certificate_address, certificate_length):
            self._library.hintcheck_check_of_bytes(
                address, length, face, certificate_address, certificate_length, limit, refusals, len(refusals), ctypes.byref(answer)
            )
        return self._told(answer, refusals, b"")

    @staticmethod
    def _room(room: int | None) -> ctypes.Array[_Refusal]:
        """Room for this many refusals, or for all that a font can have."""
        most = MOST_GLYPHS + 2
        return (_Refusal * _counted(room, most, most, "room"))()

    def _told(self, answer: _Answer, refusals: ctypes.Array[_Refusal], glyphs: bytes) -> Answer:
        """An answer in Python's types."""
        told = tuple(
            Refusal(one.program, one.place, one.offset, one.reason, ReasonClass(one.reason_class), self.reason_text(one.reason) or "")
            for one in refusals[: answer.listed]
        )
        counts = (answer.fault, answer.place, answer.steps, answer.programs, answer.refused)
        return Answer(Status(answer.status), *counts, Profile(answer.profile), told, glyphs)
