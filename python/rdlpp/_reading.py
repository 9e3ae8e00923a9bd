"""An output that is read from the library, which asks for the sources that it needs."""

from __future__ import annotations

import ctypes

from . import _library as library
from ._asked import Unreadable
from ._faults import Fault, FaultKind
from ._handle import BESIDE, CLOSED, MOST_GIVEN, kept_here, taken
from ._light import TYPE_CHECKING
from ._limits import OPTIONS
from ._output import Position
from ._standing_text import StandingText

if TYPE_CHECKING:
    from typing import Any

    from ._asked import FileId
    from ._limits import Limits
    from ._request import Request
    from ._written import Written

# What a note begins with where it is written.
NOTE = "rdlpp: note: "


class Reading:
    """An output that is open. It is used by one call at a time. It takes the parts of an included text, as `Parts` of `_asked` says.

    Attributes:
        is_over: whether nothing is left to read.
        fault: the fault that ended it, once it was read up to there.
        text_bytes: how many bytes the texts have that were given or lent.
        runs: the lines of the line map for what `read_mapped` wrote.
        most: how many bytes the part of an included text has at most that is given while it is read: it stays in the processor's
            cache until the library has copied it.
    """

    most = 262_144
    # where a part is read to, and the room that it is part of
    _part = 0
    _written: Written | None = None
    # the texts that are lent to the handle, and stand until it is closed
    _lent: tuple[object, ...] = ()

    def __init__(self, request: Request, *, pieces: bool = False):
        self._home = kept_here()
        # the handle while it is this one's to leave, which one step takes out
        self._owned = [taken(self._home)]
        self._handle = self._owned[0]
        self.is_over = False
        self.fault: Fault | None = None
        # the sources that were opened: by each file the path by which it was opened first, by each other path itself
        self._sources: dict[FileId | bytes, bytes] = {}
        self._tells_sources = request.tells_sources
        self.text_bytes = 0
        # how many bytes the handle was given beside them
        self._given = len(request.path) + BESIDE
        self.runs: list[bytes] = []
        self._asked, self._main = request.asked, request.path
        self._limits = request.limits
        self._unreadable: tuple[str, Unreadable] | None = None
        self._open(request, pieces)

    def _open(self, request: Request, pieces: bool) -> None:
        for name, body in request.definitions:
            self._given += len(name) + len(body) + BESIDE
        for folder in request.folders:
            self._given += len(folder) + BESIDE
        main = request.main
        if main is not None:
            self.text_bytes = len(main)
            if self.text_bytes > MOST_GIVEN:
                request = request._replace(main=None)
        outcome = self._handle.open(request, pieces)
        if outcome.status == library.STOPPED:
            raise self._fault(outcome)
        if outcome.status != library.WHOLE:
            _raise_refusal(outcome.status)
        if main is not request.main:
            self._lend(request.path, main, main, self.text_bytes)

    def read(self, written: Written, most: int) -> None:
        """Reads once, at most so many bytes, and no more than there is room for.

        It may be none, also where more follow: `is_over` tells the end.
        """
        handle, left = self._handle, written.room - written.filled
        handle.place.value, handle.most.value = written.place + written.filled, most if most < left else left
        self._go_on(library.read_handle(*handle.read), written)

    def read_mapped(self, written: Written, most: int) -> None:
        """Reads once, as `read` does, and adds the lines of the line map for what it wrote to `runs`."""
        handle, left = self._handle, written.room - written.filled
        handle.place.value, handle.most.value = written.place + written.filled, most if most < left else left
        lines, words = handle.mapped()
        outcome = library.read_mapped(*words)
        if outcome.map_length:
            self.runs.append(lines[: outcome.map_length])
        self._go_on(outcome, written)

    def position(self) -> Position | None:
        """The place of the first byte of what was read last, where there is one."""
        outcome = library.position(self._handle.at, *self._handle.told[:2])
        if outcome.status != library.WHOLE:
            return None
        return Position(self._shown_name(outcome), outcome.line, outcome.number)

    def sources(self) -> tuple[str, ...]:
        """The path of each source that was opened, in order: of a file the one by which it was opened first."""
        return tuple([path.decode() for path in list(self._sources.values())])

    def definitions(self) -> bytes:
        """The live definitions, as `define` lines."""
        return library.told(library.definitions, self._handle.at)

    def close(self) -> None:
        """Leaves what is open to the thread that made this, where it is that one which calls, or gives it back."""
        try:
            handle = self._owned.pop()
        except IndexError:
            return
        self._handle = CLOSED
        is_small = handle.is_small and self.text_bytes + self._given <= MOST_GIVEN
        if is_small and not self._lent and self._home is kept_here():
            self._home[:] = [handle]
        else:
            handle.close()
        self._lent = ()

    def __enter__(self) -> Reading:
        return self

    def __exit__(self, *_raised: object) -> None:
        self.close()

    def _go_on(self, outcome: library.Outcome, written: Written) -> None:
        """Counts what a read wrote, and does what its outcome asks for, so that the next one goes on.

        Where a source is wanted it tells the library what stands there.
        """
        written.filled += outcome.length
        status = outcome.status
        if status != library.WANTED:
            if status != library.MORE:
                self._end(outcome)
            return
        path, asked = self._handle.buffers[: outcome.name_length], self._asked
        self._given += len(path) + BESIDE
        self._written = written
        is_main = path == self._main
        parts: StandingText | Reading = StandingText() if is_main else self
        try:
            text = asked.text_at(path, parts)
        except Unreadable as unreadable:
            self._give_failed(path, unreadable)
            return
        finally:
            self._written = None
        if text is None:
            _raise_refusal(library.give_absent(self._handle.at, path, len(path)))
            return
        if self._tells_sources:
            self._sources.setdefault(asked.file or path, path)
        place, length = (text, len(text)) if isinstance(text, bytes) else library.pointer_and_length(text)
        self.text_bytes += length
        # the main text is open up to the end
        stays = asked.stays or is_main
        if length > MOST_GIVEN and stays and isinstance(text, (bytes, StandingText)):
            self._lend(path, text, place, length)
            return
        handle = self._handle
        handle.path_length.value, handle.text_length.value = len(path), length
        give = library.give if stays else library.give_once
        status = give(handle.at, path, handle.path_length, place, handle.text_length)
        if status != library.WHOLE and status != library.CHANGED:
            _raise_refusal(status)

    def _give_failed(self, path: bytes, unreadable: Unreadable) -> None:
        """Tells the library that a file can't be opened or read."""
        self._unreadable = path.decode(), unreadable
        if unreadable.is_open and self._tells_sources:
            self._sources.setdefault(self._asked.file or path, path)
        _raise_refusal(library.give_failed(self._handle.at, path, len(path)))

    def _lend(self, path: bytes, text: object, place: Any, length: int) -> None:
        """Lends the library a text that stays and never changes, which isn't copied. A handle that has one is closed when this is."""
        self._lent += (text,)
        _raise_refusal(library.lend(self._handle.at, path, len(path), place, length))

    def room(self, least: int, more: int) -> int:
        """Room for a part of an included text: after what was written so far, where nothing stands yet."""
        assert self._written is not None
        self._part = self._written.end(least)
        return self._part

    def take(self, length: int, more: int) -> None:
        """Gives the library the part that was read there, which is copied."""
        _raise_refusal(library.give_part(self._handle.at, self._part, length, more))
        self.text_bytes += length

    def rest(self) -> bytes:
        """What follows after the parts: nothing."""
        return b""

    def _end(self, outcome: library.Outcome) -> None:
        """Takes the outcome that ends an output."""
        if outcome.status == library.STOPPED:
            self.fault = self._fault(outcome)
        elif outcome.status != library.WHOLE:
            _raise_refusal(outcome.status)
        self.is_over = True

    def _shown_name(self, outcome: library.Outcome) -> str:
        name: bytes = self._handle.buffers[: outcome.name_length]
        return name.decode()

    def _fault(self, outcome: library.Outcome) -> Fault:
        """The fault that an outcome tells."""
        kind, line = FaultKind(outcome.number), outcome.line
        name = self._shown_name(outcome)
        word = ctypes.string_at(self._handle.word, outcome.word_length).decode()
        notes = _notes(library.told(library.notes, self._handle.at), self._limits)
        fault = Fault(kind, name, line, word, library.fault_text(kind), notes)
        unreadable, self._unreadable = self._unreadable, None
        if kind == FaultKind.READ_FAILED and unreadable is not None:
            return _of_file(fault, *unreadable)
        return fault


def _of_file(fault: Fault, path: str, unreadable: Unreadable) -> Fault:
    """The fault that an unreadable file ends by: of one that was opened it stands in that file's first line."""
    name, line, notes = fault.name, fault.line, fault.notes
    if unreadable.is_open:
        name, line = path, 1
        if fault.line:
            notes = (f"included from {fault.name}:{fault.line}", *notes)
    made = Fault(fault.kind, name, line, fault.word, fault.text, (f"{path}: {unreadable.reason}", *notes))
    # its traceback leads into this package alone, and would keep what the call held
    made.__cause__ = unreadable.error.with_traceback(None)
    return made


def _notes(told: bytes, limits: Limits) -> tuple[str, ...]:
    """The notes on a fault, each without what a note begins with. One on a limit names the field in the option's place."""
    lines = told.decode("utf-8", "replace").split("\n")[:-1]
    notes = [line[len(NOTE) :] if line.startswith(NOTE) else line for line in lines]
    limit = "the limit is {:d}, set by {}"
    named = {limit.format(value, OPTIONS[name]): limit.format(value, name) for name, value in zip(limits._fields, limits)}
    return tuple(named.get(note, note) for note in notes)


def _raise_refusal(status: int) -> None:
    """Raises the error of a status by which nothing was done."""
    if status == library.NO_MEMORY:
        raise MemoryError("memory was refused")
    if status == library.CLOSED:
        raise ValueError("the output is closed")
    if status != library.WHOLE:
        raise AssertionError(f"the library answers {status}")
