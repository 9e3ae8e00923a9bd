"""What a run gives: the output, and what is told beside it."""

from __future__ import annotations

from collections.abc import Iterator

from ._light import NamedTuple, bisect_right


class Place(NamedTuple):
    """A place in a source: its shown name, and its shown line, from 1.

        >>> import rdlpp
        >>> place = rdlpp.run(b"a\\nb\\n").lines.place(2)
        >>> f"{place.name}:{place.line}"
        '-:2'
    """

    name: str
    line: int


class Position(NamedTuple):
    """The place of the first byte of a piece.

        >>> import rdlpp
        >>> pieces = rdlpp.stream(b"a\\nb\\n", positions=True)
        >>> next(pieces), pieces.position
        (b'a\\nb\\n', Position(name='-', line=1, step=1))
        >>> pieces.close()

    Attributes:
        name: the shown name.
        line: the shown line, from 1.
        step: 1 where each LF byte of the piece begins the next line of its source; 0 where all of the piece
            stands at that one line, as the text of a macro's usage does.
    """

    name: str
    line: int
    step: int


class Lines:
    """Where each line of an output comes from.

    A line has the place of its first byte: the shown name and the shown line that a fault there would have. Of text
    that a macro gives it is the place of the usage.

        >>> import rdlpp
        >>> lines = rdlpp.run(b'a\\n`line 10 "v.rdl" 0\\nb\\n').lines
        >>> len(lines)
        3
        >>> lines.place(1), lines.place(3)
        (Place(name='-', line=1), Place(name='v.rdl', line=10))
        >>> print(bytes(lines).decode().expandtabs(3), end="")
        # rdlpp line map 1
        1  1  1  -
        3  10 1  v.rdl
    """

    HEAD = b"# rdlpp line map 1\n"

    def __init__(self, runs: bytes, text: bytes):
        self._runs = runs
        # the output, until its lines are counted, and then their number
        self._counted: bytes | int = text
        self._starts: list[int] | None = None
        self._parts: list[tuple[bytes, ...]] = []

    def place(self, line: int) -> Place:
        """The place of a line of the output, counted from 1.

        Raises:
            IndexError: the output has no such line.
        """
        if not 1 <= line <= len(self):
            raise IndexError(f"the output has {len(self)} lines, and no line {line}")
        if self._starts is None:
            self._parts = [tuple(run.split(b"\t", 3)) for run in self._runs.split(b"\n")[:-1]]
            self._starts = [int(part[0]) for part in self._parts]
        first, shown, step, name = self._parts[bisect_right(self._starts, line) - 1]
        return Place(name.decode(), int(shown) + int(step) * (line - int(first)))

    def __len__(self) -> int:
        counted = self._counted
        if isinstance(counted, bytes):
            is_unended = bool(counted) and not counted.endswith(b"\n")
            counted = self._counted = counted.count(b"\n") + is_unended
        return counted

    def __iter__(self) -> Iterator[Place]:
        """The place of each line, in order."""
        return (self.place(line) for line in range(1, len(self) + 1))

    def __bytes__(self) -> bytes:
        """The line map as the program writes it to a file."""
        return self.HEAD + self._runs

    def __repr__(self) -> str:
        return f"<Lines of {len(self)} lines>"


class Output(NamedTuple):
    """What a run gives.

        >>> import rdlpp
        >>> output = rdlpp.run("m", files={"m": b'`include "w"\\nreg[`W];\\n', "w": b"`define W 8\\n"})
        >>> output.text
        b'\\n\\nreg[8];\\n'
        >>> output.lines.place(3)
        Place(name='m', line=2)
        >>> output.sources
        ('m', 'w')
        >>> output.definitions
        b'`define W 8\\n'

    Attributes:
        text: the output.
        lines: where each line of it comes from.
        sources: the path of each source that was opened, in order, once; a text that was given as bytes isn't one. A file that is
            opened by several paths is one source, by the first of them. What `files` and `read` give goes by its path.
        definitions: the live definitions at the end, oldest first, as `define` lines.
    """

    text: bytes
    lines: Lines
    sources: tuple[str, ...]
    definitions: bytes

    def __repr__(self) -> str:
        return f"<Output of {len(self.text)} bytes, from {len(self.sources)} sources>"
