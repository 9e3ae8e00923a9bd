"""Handles of the library. Each thread keeps one from a call to the next, so that its memory is used again."""

from __future__ import annotations

import atexit
import ctypes
import os

from . import _library as library
from ._light import TYPE_CHECKING, local

if TYPE_CHECKING:
    from collections.abc import Callable
    from typing import Any

    from ._limits import Limits
    from ._request import Request

# The text that the limits of a kept handle allow; with all its tables it has less than 18 MB then.
MOST_HELD = 4_000_000
# What was given to it at most, of which it has copies, with so much beside each path, folder and definition.
MOST_GIVEN = 1_000_000
BESIDE = 100


class OwnedHandle:
    """A handle, open or closed, with what its calls are given and write to. What is open is closed when its owner drops it.

    Attributes:
        is_small: whether the limits by which it was opened last let it have so little memory that it may be kept.
        at: where the handle is, as calls take it.
        buffers: the room for a name and, after it, for a word.
        word: where the word stands.
        told: the room for both, as calls take it.
        place, most: where a read writes to, and how many bytes at most.
        read: all that a read takes.
        path_length, text_length: the lengths of a path and of the text that is given of it.
    """

    _handle = library.Handle()
    # what a class has is there while an interpreter ends, which the names of a module needn't be
    _close: Callable[..., None] = library.close_handle

    def __init__(self) -> None:
        self._handle = library.Handle()
        self.at = ctypes.byref(self._handle)
        self.buffers: Any = (ctypes.c_char * (library.NAME_ROOM + library.WORD_ROOM))()
        name = ctypes.addressof(self.buffers)
        self.word = name + library.NAME_ROOM
        pointer = ctypes.c_void_p.from_param
        self.told = (pointer(name), library.NAME_LENGTH, pointer(self.word), library.WORD_LENGTH)
        self._request = library.Request()
        self._request.asks = True
        self._open = (ctypes.byref(self._request), *self.told, self.at)
        self._limits: Limits | None = None
        self.is_small = False
        self.place, self.most = ctypes.c_void_p(), ctypes.c_size_t()
        self.read = (self.at, self.place, self.most, *self.told)
        self._mapped: tuple[Any, tuple[Any, ...]] | None = None
        self.path_length, self.text_length = ctypes.c_size_t(), ctypes.c_size_t()

    def open(self, request: Request, pieces: bool) -> library.Outcome:
        """Opens it anew, in the memory that it has where the limits are the same."""
        texts = [] if request.main is None else [(request.path, request.main)]
        pairs, folders = library.pairs(texts), library.folders(request.folders)
        definitions = library.pairs(request.definitions)
        given = self._request
        if request.limits is not self._limits:
            self._take_limits(request.limits)
        given.origins, given.pieces = request.origins, pieces
        given.texts, given.texts_length = ctypes.addressof(pairs), len(texts)
        given.folders, given.folders_length = ctypes.addressof(folders), len(request.folders)
        given.definitions, given.definitions_length = ctypes.addressof(definitions), len(request.definitions)
        given.path, given.path_length = request.path, len(request.path)
        return library.reopen_handle(*self._open)  # type: ignore[no-any-return]

    def _take_limits(self, limits: Limits) -> None:
        self._request.limits = library.GivenLimits(*limits)
        held = limits.definition_bytes + limits.argument_bytes + (limits.includes + 1) * limits.line_bytes
        self.is_small = held <= MOST_HELD
        self._limits = limits

    def mapped(self) -> tuple[Any, tuple[Any, ...]]:
        """The room for the lines of a line map, and all that a read takes which writes them."""
        if self._mapped is None:
            room = (ctypes.c_char * library.MAP_ROOM)()
            self._mapped = room, (*self.read[:3], ctypes.byref(room), library.MAP_LENGTH, *self.told)
        return self._mapped

    def close(self) -> None:
        """Gives back what is open."""
        if self._handle.is_open:
            type(self)._close(self.at)

    def __del__(self) -> None:
        self.close()


class _Thread(local):
    """What belongs to a thread, and goes with it.

    Attributes:
        kept: the handle that it keeps, or none.
    """

    def __init__(self) -> None:
        self.kept: list[OwnedHandle] = []


_thread = _Thread()
# It is never opened, so that each call tells that it is closed.
CLOSED = OwnedHandle()


def kept_here() -> list[OwnedHandle]:
    """What this thread keeps: one handle, or none."""
    return _thread.kept


def taken(kept: list[OwnedHandle]) -> OwnedHandle:
    """The handle that is kept, and no longer is, since a call has it now; or a new one."""
    # a signal's handler may make a call anywhere here: so it is one step that takes it
    try:
        return kept.pop()
    except IndexError:
        return OwnedHandle()


def release() -> None:
    """Gives back the memory that this thread keeps for its next call.

        >>> import rdlpp
        >>> rdlpp.preprocess(b"reg[`W];\\n", defines={"W": "8"})
        b'reg[8];\\n'
        >>> rdlpp.release()

    `preprocess`, `run` and `stream` use memory by their limits, 4.7 MB by the standard ones. When a call has ended, its
    thread keeps this for its next one, and with it copies of what the call was given; a call with other limits gives it
    back first. So a thread keeps the memory of one call, and only where that is small: `definition_bytes +
    argument_bytes + (includes + 1) * line_bytes` are at most 4,000,000, by which it is less than 18 MB; and the sources,
    paths, folders and definitions have at most 1,000,000 bytes together, where each counts as 100 bytes more. It is given
    back by this call and where the thread ends. A stream leaves it to the thread that made it where it is read to its
    end, or closed, there; else it is given back. The child of a fork gives it back at once.
    """
    kept = _thread.kept
    while kept:
        taken(kept).close()


def _leave_the_parent() -> None:
    """In the child of a fork nothing is kept that the parent opened, also of what is still in use."""
    release()
    _thread.kept = []


os.register_at_fork(after_in_child=_leave_the_parent)
atexit.register(release)
