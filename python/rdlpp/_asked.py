"""Sources that a run asks for: files, the entries of a mapping, or what a callable gives.

Each tells the text at a path, or None where nothing is there. It raises `Unreadable` where something is there that
can't be read; any other exception ends the run and comes out of it.

A text that can be had again isn't kept while nobody reads it: where its path is included again it is asked for again.
"""

from __future__ import annotations

import ctypes
import errno
import os
import stat

from ._light import TYPE_CHECKING, Protocol
from ._standing_text import StandingText
from ._written import c_library

if TYPE_CHECKING:
    from collections.abc import Callable, Mapping
    from typing import Any, Tuple, Union

    # What a mapping and a callable may give as a text.
    Bytes = Union[bytes, bytearray, memoryview]
    # Which file one is, by whatever path it is opened: its device, and its number there.
    FileId = Tuple[int, int]

LF, NUL = b"\n\0"
NUL_IN_NAME = "file name contained an unexpected NUL byte"
# How much of a file is read at once at least, where its size isn't known or less is left.
PART = 262_144
# The size from which on a file is given in parts: a bytes object of that size is made of new pages each time.
LARGE = 131_072

# A file with fewer bytes is read before it is asked what it is, where nobody needs to know which one it is.
SMALL = 32_768

# How a file is opened.
HOW = os.O_RDONLY | os.O_CLOEXEC

# Room from some address on, of which no more is used than a part has.
_room = ctypes.c_char * StandingText.most
_last = c_library.memrchr
_last.restype = ctypes.c_void_p
_last.argtypes = [ctypes.c_void_p, ctypes.c_int, ctypes.c_size_t]


class Parts(Protocol):
    """Takes a text part by part, while it is read.

    Attributes:
        most: how many bytes a part has at most. A signal is seen between two of them.
    """

    most: int

    def room(self, least: int, more: int) -> int:
        """The address of room for the next part, which has at most so many bytes; about so many more follow after it."""

    def take(self, length: int, more: int) -> None:
        """Takes so many bytes that stand there; about so many more follow."""

    def rest(self) -> bytes | StandingText:
        """What is to be told of the text when its last part was taken."""


class Asked(Protocol):
    """What tells a source.

    Attributes:
        stays: whether the text that it told last is kept, so that its path isn't asked for again.
        file: the file in which the text lies that it told last; None of one that is given by its path.
    """

    stays: bool
    file: FileId | None

    def text_at(self, path: bytes, parts: Parts) -> Bytes | StandingText | None:
        """The text at a path in UTF-8, or what is to be told of it when its parts were taken."""


class Unreadable(Exception):
    """A file can't be opened, or can't be read, or what it has isn't what it had.

    Attributes:
        error: what was raised.
        is_open: whether it was opened, so that a read failed.
    """

    def __init__(self, error: OSError | ValueError, is_open: bool):
        super().__init__(error, is_open)
        self.error = error
        self.is_open = is_open

    @property
    def reason(self) -> str:
        """The system's reason."""
        if isinstance(self.error, OSError):
            return f"{self.error.strerror} (os error {self.error.errno})"
        return str(self.error)


class Disk:
    """Files. Of each as much is read as a run can use: up to the first line that passes a limit, so that also
    devices without an end are read to one. A small file is read whole.

    An error without a number isn't the system's: a signal's handler raised it, and it comes out.

    The text of a pipe or a device stays, since it can't be read again.

    Args:
        tells_files: whether `file` is told, for which the system has to be asked.
    """

    def __init__(self, source_bytes: int, line_bytes: int, tells_files: bool) -> None:
        self.stays = False
        self.file: FileId | None = None
        # With so many bytes one line is whole that passes `source_bytes`, or one has more than `line_bytes`.
        self._most = source_bytes + line_bytes + 1
        self._line = line_bytes
        self._tells_files = tells_files

    def text_at(self, path: bytes, parts: Parts) -> bytes | StandingText | None:
        if LF in path:
            return None
        if NUL in path:
            raise Unreadable(ValueError(NUL_IN_NAME), False)
        try:
            file = os.open(path, HOW)
        except OSError as error:
            if error.errno is None:
                raise
            if error.errno == errno.ENOENT:
                return None
            raise Unreadable(error, False) from error
        try:
            small = None if self._tells_files else _small_text(file)
            if small is None:
                return self._text(file, parts)
            self.stays = False
            return small
        except OSError as error:
            if error.errno is None:
                raise
            raise Unreadable(error, True) from error
        finally:
            os.close(file)

    def _text(self, file: int, parts: Parts) -> bytes | StandingText:
        """What a run can use of an open file, which may grow meanwhile."""
        self.file = None
        told = os.fstat(file)
        self.stays = not stat.S_ISREG(told.st_mode)
        if not self.stays:
            self.file = (told.st_dev, told.st_ino)
            if told.st_size < LARGE:
                text = os.read(file, told.st_size + 1)
                # as many as were told, and fewer than were asked for: there are no more
                if len(text) == told.st_size or not os.read(file, 1):
                    return text
                os.lseek(file, 0, os.SEEK_SET)
        self._give_large(file, told.st_size, parts)
        return parts.rest()

    def _give_large(self, file: int, size: int, parts: Parts) -> None:
        """Gives the same of a large file, or of one whose size isn't known, part by part while it is read."""
        size = min(size, self._most)
        length = line = 0
        while length < self._most and line <= self._line:
            part = min(max(size - length, PART), parts.most)
            place = parts.room(part, max(size - length - part, 0))
            count = os.readv(file, [memoryview(_room.from_address(place))[: min(part, self._most - length)]])
            if not count:
                break
            last = _last(place, LF, count)
            line = place + count - 1 - last if last else line + count
            length += count
            parts.take(count, max(size - length, 0))


def _small_text(file: int) -> bytes | None:
    """All of an open file that has fewer than SMALL bytes and can be read again; else None, and it stands where it stood."""
    try:
        text = os.pread(file, SMALL, 0)
    except OSError as error:
        if error.errno == errno.ESPIPE:
            return None
        raise
    # A read that comes back with fewer bytes than there is room for needn't have met the end.
    return None if len(text) == SMALL or os.pread(file, 1, len(text)) else text


def entries(files: Mapping[Any, Bytes], objects: Mapping[str, Any]) -> Asked:
    """The entries of a mapping, each looked up when it is asked for.

    Args:
        objects: the keys that are path objects, by their paths. A key that is the path itself goes first.
    """

    def entry(path: str) -> Bytes | None:
        text = files.get(path)
        return files.get(objects[path]) if text is None and path in objects else text

    return Checked(entry, "files[{!r}]", "be bytes", stays=True)


def given(read: Callable[[str], Bytes | None]) -> Asked:
    """What a callable gives."""
    return Checked(read, "read({!r})", "give bytes, or None where nothing is there", stays=False)


class Checked:
    """What a user's object tells of a path, if it is a text or None. What it raises comes out, but for what would end a
    loop over a stream as if the output were whole: that becomes a RuntimeError, as where a generator raises it."""

    def __init__(self, text_at: Callable[[str], Any], name: str, wanted: str, *, stays: bool):
        self.stays = stays
        self.file: FileId | None = None
        self._text_at, self._name, self._wanted = text_at, name, wanted

    def text_at(self, path: bytes, parts: Parts) -> Bytes | None:
        shown = path.decode()
        try:
            text = self._text_at(shown)
        except (StopIteration, StopAsyncIteration) as error:
            raise RuntimeError(f"{self._name.format(shown)} raised {type(error).__name__}") from error
        if text is None or isinstance(text, (bytes, bytearray, memoryview)):
            return text
        raise TypeError(f"{self._name.format(shown)} must {self._wanted}, not {type(text).__name__}")
