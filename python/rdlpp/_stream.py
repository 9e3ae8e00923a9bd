"""Outputs that are read piece by piece."""

from __future__ import annotations

from collections.abc import AsyncIterator, Iterator

from ._faults import Fault
from ._light import TYPE_CHECKING, RLock, warn
from ._reading import Reading
from ._request import request_of
from ._written import Written

if TYPE_CHECKING:
    from collections.abc import Iterable, Mapping
    from typing import NoReturn

    from ._asked import Bytes
    from ._limits import Limits
    from ._output import Position
    from ._request import MappingFrom, Path, Read, Source

    _Pieces = Iterator[bytes]
    _AwaitedPieces = AsyncIterator[bytes]
else:
    _Pieces, _AwaitedPieces = Iterator, AsyncIterator

# How much one read asks for: it comes back soon, mostly in milliseconds.
PART = 65_536
MOST_ROOM = 1_073_741_824


class Stream(_Pieces, _AwaitedPieces):
    """The pieces of an output, in order; none is empty. `stream` makes it.

    It ends where the output ends, and raises the fault that ends it after the pieces before it. It is read and
    closed in any thread, by one call at a time; others wait. A call looks every few milliseconds whether the
    stream was closed meanwhile, and then ends by a ValueError. Any exception but a fault closes it, so that no
    bytes are lost unseen.

        >>> import rdlpp
        >>> with rdlpp.stream(b"reg[`W];\\n", defines={"W": "8"}, room=4) as pieces:
        ...     for piece in pieces:
        ...         print(piece)
        b'reg['
        b'8];\\n'

    A task reads it by `async for`: each piece is read in a thread, in which `read=` is called too, and the loop goes on
    meanwhile. A task that is cancelled closes it. With `asyncio.to_thread` give `next` an answer for the end, as
    `next(pieces, b"")`, since a StopIteration can't come out of a thread.

        >>> import asyncio
        >>> async def joined():
        ...     with rdlpp.stream(b"reg[`W];\\n", defines={"W": "8"}, room=4) as pieces:
        ...         return b"+".join([piece async for piece in pieces])
        >>> asyncio.run(joined())
        b'reg[+8];\\n'
    """

    def __init__(self, reading: Reading, room: int, positions: bool):
        self._reading = reading
        self._room = room
        self._has_positions = positions
        self._position: Position | None = None
        self._lock = RLock()
        self._is_reading = False
        self._is_closed = False

    def __next__(self) -> bytes:
        try:
            with self._lock:
                piece = self._piece()
        finally:
            self._close_if_asked()
        if piece:
            return piece
        if self._reading.fault is not None:
            raise self._reading.fault.with_traceback(None)
        raise StopIteration

    async def __anext__(self) -> bytes:
        # an import of asyncio takes longer than that of all else here
        from asyncio import get_running_loop
        from contextvars import copy_context

        loop = get_running_loop()
        try:
            piece: bytes = await loop.run_in_executor(None, copy_context().run, next, self, b"")
        except Fault:
            raise
        except BaseException:
            self.close()
            raise
        if piece:
            return piece
        raise StopAsyncIteration

    def close(self) -> None:
        """Gives back what the stream owns; reading on is a ValueError. A call that runs meanwhile ends by one soon."""
        self._is_closed = True
        self._close_if_asked()

    @property
    def position(self) -> Position | None:
        """The place of the first byte of the piece that came last; None before the first one and at the end.

            >>> import rdlpp
            >>> pieces = rdlpp.stream(b"a\\nb `W\\n", defines={"W": "8"}, positions=True)
            >>> for piece in pieces:
            ...     print(piece, pieces.position.line, pieces.position.step)
            b'a\\nb ' 1 1
            b'8' 2 0
            b'\\n' 2 1

        Raises:
            ValueError: the stream was made without `positions=True`.
        """
        if not self._has_positions:
            raise ValueError("a stream tells positions where it is made with positions=True")
        return self._position

    @property
    def sources(self) -> tuple[str, ...]:
        """The path of each source that was opened up to here, in order, once: of a file the first path by which it was opened."""
        return self._reading.sources()

    def __enter__(self) -> Stream:
        return self

    def __exit__(self, *_raised: object) -> None:
        self.close()

    def __del__(self) -> None:
        if not self._is_closed and not self._reading.is_over:
            warn(f"unclosed {self!r}", ResourceWarning, stacklevel=2, source=self)

    def __reduce__(self) -> NoReturn:
        raise TypeError("a stream can't be copied or pickled")

    def _piece(self) -> bytes:
        """The next piece; empty at the end. What is raised closes the stream, since bytes may be lost then."""
        if self._is_reading:
            raise ValueError("the stream is being read")
        self._is_reading = True
        try:
            return self._read()
        except BaseException:
            self._is_closed = True
            raise
        finally:
            self._is_reading = False

    def _read(self) -> bytes:
        """Reads until there is a piece, or the end."""
        if self._is_closed:
            raise ValueError("the stream is closed")
        written = Written(self._room)
        self._position = None
        while written.filled < self._room and not self._reading.is_over:
            self._reading.read(written, min(PART, self._room - written.filled))
            if self._is_closed:
                raise ValueError("the stream was closed")
            if written.filled and self._has_positions:
                self._position = self._reading.position()
                break
        if self._reading.is_over:
            self._reading.close()
        return written.take()

    def _close_if_asked(self) -> None:
        """Closes the output where that was asked for, but while a call reads it: that one closes it then."""
        if self._is_closed and self._lock.acquire(blocking=False):
            try:
                if not self._is_reading:
                    self._reading.close()
            finally:
                self._lock.release()


def stream(
    source: Source,
    include_dirs: Iterable[Path] = (),
    defines: Mapping[str, str] | None = None,
    limits: Limits | None = None,
    origins: bool = False,
    *,
    files: MappingFrom[Path, Bytes] | None = None,
    read: Read | None = None,
    room: int = PART,
    positions: bool = False,
) -> Stream:
    """Preprocesses a text and answers the pieces of the output, as they are asked for.

        >>> import rdlpp
        >>> list(rdlpp.stream(b"reg[`W];\\n", defines={"W": "8"}, room=4))
        [b'reg[', b'8];\\n']

    Args:
        room: how many bytes a piece has, but for the last one: 1 to 1,073,741,824.
        positions: whether a piece ends where the place does, so that `Stream.position` tells it. A piece has fewer
            bytes than there is room for then.

    The other arguments are those of `preprocess`.

    Raises:
        Fault: a definition is refused. Another fault is raised where the output ends by it.
        TypeError, ValueError, MemoryError: as of `preprocess`; ValueError also for a room out of its range.
    """
    if not isinstance(room, int) or isinstance(room, bool):
        raise TypeError(f"room must be an int, not {type(room).__name__}")
    if not 1 <= room <= MOST_ROOM:
        raise ValueError(f"room must be 1 to {MOST_ROOM:,}, not {room:,}")
    if not isinstance(positions, bool):
        raise TypeError(f"positions must be a bool, not {type(positions).__name__}")
    request = request_of(source, include_dirs, defines, limits, origins, files, read)
    return Stream(Reading(request, pieces=positions), room, positions)
