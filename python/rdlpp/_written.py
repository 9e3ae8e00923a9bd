"""Bytes that the library for C writes where they stand, so that no output is copied.

An extension module makes such an object by `PyBytes_FromStringAndSize` without a text, fills it while nobody
else has it, and gives it another length by `_PyBytes_Resize`; so it is here, by ctypes.
"""

from __future__ import annotations

import ctypes
import sys

if sys.implementation.name != "cpython":
    raise ImportError(f"rdlpp needs CPython, whose bytes objects it writes to, and this is {sys.implementation.name}")

# The C library, as the process has it.
c_library = ctypes.CDLL(None)
_new = ctypes.pythonapi.PyBytes_FromStringAndSize
_new.restype = ctypes.c_void_p
_new.argtypes = [ctypes.c_void_p, ctypes.c_ssize_t]
_resize = ctypes.pythonapi._PyBytes_Resize
_resize.restype = ctypes.c_int
_resize.argtypes = [ctypes.POINTER(ctypes.c_void_p), ctypes.c_ssize_t]
_forget = ctypes.pythonapi.Py_DecRef
_forget.restype = None
_forget.argtypes = [ctypes.c_void_p]
_advise = c_library.madvise
_advise.restype = ctypes.c_int
_advise.argtypes = [ctypes.c_void_p, ctypes.c_size_t, ctypes.c_int]

MARGIN = 65_536
FEW = 1_024
# Where the bytes of an object stand in it: it has all of them but one, a zero byte, after its head.
HEAD = bytes.__basicsize__ - 1
PAGE = 4_096
HUGE_PAGES, SMALL_PAGES = 14, 15
# From here on the system's making of small pages costs more than writing into them.
LARGE = 4_194_304
HUGE_PAGE = 2_097_152
# At least what the memory of a large room has beside it: the head of a bytes object and that of a block of malloc.
BESIDE = 128


def roomy(length: int) -> int:
    """The room for an output of about this length.

    A large one has no more than that it is seen to end. glibc's malloc asks the system for new pages wherever a block is larger than
    any that was given back, and making these takes as long as the run: so an output takes the memory of the one before it.
    """
    return length + 1 if length >= LARGE else length + length // 16 + MARGIN


class Written:
    """Room for bytes, which are written after those that were, and then taken as a bytes object, once.

    Attributes:
        place: where they stand.
        filled: how many bytes were written.
        room: how many there is room for.
    """

    _held = ctypes.c_void_p()

    def __init__(self, room: int):
        room = _whole_pages(room, PAGE)
        self.filled = 0
        self.room = room
        # The one object without bytes is everybody's, so there is room for one byte more.
        held = _new(None, room + 1)
        self._held = ctypes.c_void_p(held)
        self.place: int = held + HEAD
        prefer(HUGE_PAGES, self.place, room)

    def end(self, least: int) -> int:
        """The address after the bytes that were written, with room for so many more at least. What stands there stays
        where room is made."""
        if self.room - self.filled < least:
            room = max(self.filled + least, 2 * self.room)
            self._grow(_whole_pages(room, HUGE_PAGE if self.room >= LARGE else PAGE))
        return self.place + self.filled

    def take(self) -> bytes:
        """The bytes that were written. A few are copied, which takes less time than to give their object another length."""
        if self.filled <= FEW:
            return ctypes.string_at(self.place, self.filled)
        _resize(ctypes.byref(self._held), self.filled)
        text: bytes = ctypes.py_object.from_buffer(self._held).value
        return text

    def _grow(self, room: int) -> None:
        # A zero byte is written after the room, for which no huge page should be made.
        prefer(SMALL_PAGES, self.place, self.room)
        _resize(ctypes.byref(self._held), room + 1)
        held = self._held.value
        assert held is not None
        self.place, self.room = held + HEAD, room
        prefer(HUGE_PAGES, self.place, room)

    def __del__(self) -> None:
        _forget(self._held)


def _whole_pages(room: int, page: int) -> int:
    """The room itself, or for a large one so much that its memory is a whole number of pages.

    Large room that grows gets huge ones: the system lets it begin with one, and moves each whole when it grows again. New room
    has small ones up to its first huge one, since the head of the object is written before huge ones are asked for.
    """
    return room if room < LARGE else (room + BESIDE + page - 1) // page * page - BESIDE


def prefer(pages: int, place: int, room: int) -> None:
    """Lets the system make huge pages for a large room from now on, if it wants to, or small ones; nothing else changes.

    It is asked for all of the room's memory: where it is asked for a part, the memory is two parts from then on, which
    malloc can't have moved, but copies where the room grows.
    """
    if room >= LARGE:
        _advise(place // PAGE * PAGE, room + BESIDE, pages)
