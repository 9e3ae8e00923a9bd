"""The library for C, as rdlpp.h declares it."""

from __future__ import annotations

import ctypes
import os

from ._light import TYPE_CHECKING
from ._limits import Limits
from ._standing_text import StandingText
from ._written import Written

if TYPE_CHECKING:
    from collections.abc import Callable, Sequence
    from typing import Any

WHOLE, STOPPED, BAD_LIMIT, BAD_TEXT, NO_MEMORY, MORE, CLOSED, WANTED, SHORT_MAP, CHANGED = range(10)
NAME_ROOM = 1024
WORD_ROOM = 128
TEXT_ROOM = 64
MAP_ROOM = 65_536
# As calls take them, which else make such a thing of each argument anew.
NAME_LENGTH, WORD_LENGTH, MAP_LENGTH = map(ctypes.c_size_t.from_param, (NAME_ROOM, WORD_ROOM, MAP_ROOM))


class GivenLimits(ctypes.Structure):
    """`rdlpp_limits`."""

    _fields_ = [
        *((name, ctypes.c_size_t) for name in Limits._fields[:-1]),
        (Limits._fields[-1], ctypes.c_uint64),
    ]


class Pair(ctypes.Structure):
    """`rdlpp_text` and `rdlpp_definition`: two texts, each a pointer and a length."""

    _fields_ = [
        ("first", ctypes.c_char_p),
        ("first_length", ctypes.c_size_t),
        ("second", ctypes.c_char_p),
        ("second_length", ctypes.c_size_t),
    ]


class Folder(ctypes.Structure):
    """`rdlpp_folder`."""

    _fields_ = [("path", ctypes.c_char_p), ("path_length", ctypes.c_size_t)]


class Request(ctypes.Structure):
    """`rdlpp_request`; each list is its address, so that the request doesn't keep it."""

    _fields_ = [
        ("limits", GivenLimits),
        ("origins", ctypes.c_bool),
        ("asks", ctypes.c_bool),
        ("pieces", ctypes.c_bool),
        ("texts", ctypes.c_void_p),
        ("texts_length", ctypes.c_size_t),
        ("folders", ctypes.c_void_p),
        ("folders_length", ctypes.c_size_t),
        ("definitions", ctypes.c_void_p),
        ("definitions_length", ctypes.c_size_t),
        ("path", ctypes.c_char_p),
        ("path_length", ctypes.c_size_t),
    ]


class Outcome(ctypes.Structure):
    """`rdlpp_outcome`."""

    _fields_ = [
        ("status", ctypes.c_uint32),
        ("number", ctypes.c_uint32),
        ("line", ctypes.c_uint64),
        ("length", ctypes.c_uint64),
        ("name_length", ctypes.c_size_t),
        ("word_length", ctypes.c_size_t),
    ]


class Mapped(Outcome):
    """`rdlpp_mapped`: an outcome, and what stands after it."""

    _fields_ = [("map_length", ctypes.c_size_t)]


class Handle(ctypes.Structure):
    """`rdlpp_handle`."""

    _fields_ = [("is_open", ctypes.c_bool), ("at", ctypes.c_void_p)]


_NO_PAIRS, _NO_FOLDERS = (Pair * 1)(), (Folder * 1)()
_FILE = os.environ.get("RDLPP_LIBRARY") or os.path.join(os.path.dirname(__file__), "librdlpp_c.so")
_library = ctypes.CDLL(_FILE)
_handle = ctypes.POINTER(Handle)
_text = (ctypes.c_char_p, ctypes.c_size_t)
_buffer = (ctypes.c_void_p, ctypes.c_size_t)


def _declared(name: str, answer: Any, *parameters: Any) -> Callable[..., Any]:
    """A call of the library."""
    call = getattr(_library, name)
    call.restype, call.argtypes = answer, parameters
    return call  # type: ignore[no-any-return]


def _frequent(name: str, answer: Any) -> Callable[..., Any]:
    """A call that is given objects of ctypes, and texts as bytes. Their types aren't looked at, which takes a third of a call."""
    call = getattr(_library, name)
    call.restype = answer
    return call  # type: ignore[no-any-return]


standard_limits = _declared("rdlpp_standard_limits", GivenLimits)
reopen_handle = _frequent("rdlpp_reopen", Outcome)
read_handle = _frequent("rdlpp_read", Outcome)
read_mapped = _frequent("rdlpp_read_mapped", Mapped)
give = _frequent("rdlpp_give", ctypes.c_uint32)
give_part = _declared("rdlpp_give_part", ctypes.c_uint32, _handle, *_buffer, ctypes.c_size_t)
give_once = _frequent("rdlpp_give_once", ctypes.c_uint32)
lend = _declared("rdlpp_lend", ctypes.c_uint32, _handle, *_text, *_buffer)
give_absent = _declared("rdlpp_give_absent", ctypes.c_uint32, _handle, *_text)
give_failed = _declared("rdlpp_give_failed", ctypes.c_uint32, _handle, *_text)
position = _frequent("rdlpp_position", Outcome)
definitions = _declared("rdlpp_definitions", ctypes.c_size_t, _handle, *_buffer)
notes = _declared("rdlpp_notes", ctypes.c_size_t, _handle, *_buffer)
close_handle = _declared("rdlpp_close", None, _handle)
_fault_text = _declared("rdlpp_fault_text", ctypes.c_size_t, ctypes.c_uint32, *_buffer)
_version = _declared("rdlpp_version", ctypes.c_size_t, *_buffer)


def pointer_and_length(text: bytearray | memoryview | StandingText) -> tuple[Any, int]:
    """A text as a call takes it. It is copied only where its memory can't be passed on."""
    if isinstance(text, StandingText):
        return (ctypes.c_void_p(text.place) if text.filled else b""), text.filled
    view = memoryview(text)
    if view.readonly or not view.c_contiguous or not view.nbytes:
        return bytes(view), view.nbytes
    return ctypes.byref(ctypes.c_char.from_buffer(view)), view.nbytes


def pairs(items: Sequence[tuple[bytes, bytes]]) -> Any:
    """An array of pairs of texts. It has a place at least, so that its address is never null."""
    if not items:
        return _NO_PAIRS
    made = (Pair * len(items))()
    for place, (first, second) in enumerate(items):
        made[place] = Pair(first, len(first), second, len(second))
    return made


def folders(paths: Sequence[bytes]) -> Any:
    """An array of folders, as `pairs` makes one of pairs."""
    if not paths:
        return _NO_FOLDERS
    made = (Folder * len(paths))()
    for place, path in enumerate(paths):
        made[place] = Folder(path, len(path))
    return made


def told(call: Callable[..., int], *given: Any) -> bytes:
    """A text that a call writes to a buffer, of which it answers the whole length."""
    room = TEXT_ROOM
    while True:
        text = Written(room)
        length = call(*given, text.end(room), room)
        if length <= room:
            text.filled = length
            return text.take()
        room = length


def fault_text(number: int) -> str:
    """The text of the kind of fault with a number; empty where no kind has it."""
    return told(_fault_text, number).decode()


def version() -> str:
    """The version of the library.

        >>> import rdlpp
        >>> rdlpp.version() == rdlpp.__version__
        True
    """
    return told(_version).decode()
