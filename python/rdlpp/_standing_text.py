"""The text of a main file, which stands where it was read to, and is lent to the library there."""

from __future__ import annotations

import ctypes

from ._written import HUGE_PAGES, c_library, prefer

_reallocate, _free = c_library.realloc, c_library.free
_reallocate.restype, _reallocate.argtypes = ctypes.c_void_p, [ctypes.c_void_p, ctypes.c_size_t]
_free.restype, _free.argtypes = None, [ctypes.c_void_p]

# More than what else a call holds by the standard limits, and gives back.
SPARE = 6_291_456


class StandingText:
    """A text that is read part by part, and stays where it was read to.

    Its room is so much larger that malloc keeps its memory, and that of the output, for the next call: what is free in the end is
    less than twice the largest block. The system gives no pages for what isn't written.

    Attributes:
        place: where it stands; 0 before it was read.
        filled: how many bytes were read.
        most: how many bytes a part has at most.
    """

    most = 4_194_304
    place = 0
    filled = 0
    _room = 0

    def room(self, least: int, more: int) -> int:
        if self._room - self.filled < least:
            room = max(self.filled + least + more + SPARE, self._room + self._room // 2)
            place = _reallocate(self.place, room)
            if place is None:
                raise MemoryError("memory was refused")
            self.place, self._room = place, room
            prefer(HUGE_PAGES, place, room)
        return self.place + self.filled

    def take(self, length: int, more: int) -> None:
        self.filled += length

    def rest(self) -> StandingText:
        """The text itself, since no part of it was given."""
        return self

    def __del__(self) -> None:
        if self.place:
            _free(self.place)
