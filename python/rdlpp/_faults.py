"""Why a text wasn't preprocessed to its end."""

from __future__ import annotations

from enum import IntEnum

from ._light import TYPE_CHECKING

if TYPE_CHECKING:
    from typing import Any

    from ._output import Output


class FaultKind(IntEnum):
    """The kinds of faults, each with its number.

        >>> FaultKind.UNDEFINED_MACRO
        <FaultKind.UNDEFINED_MACRO: 7>
    """

    EMBEDDED_PERL = 1
    STRING_NOT_CLOSED = 2
    COMMENT_NOT_CLOSED = 3
    LINE_TOO_LONG = 4
    SOURCE_TOO_LONG = 5
    BACKQUOTE_WITHOUT_A_NAME = 6
    UNDEFINED_MACRO = 7
    RECURSIVE_MACRO = 8
    DIRECTIVE_IN_MACRO_TEXT = 9
    ARGUMENTS_MISSING = 10
    ARGUMENTS_NOT_CLOSED = 11
    ARGUMENT_BYTES_PASSED = 12
    WRONG_NUMBER_OF_ARGUMENTS = 13
    DEPTH_PASSED = 14
    NAME_EXPECTED = 15
    RESERVED_NAME = 16
    NAME_TOO_LONG = 17
    BAD_FORMAL_LIST = 18
    FORMAL_GIVEN_TWICE = 19
    TOO_MANY_FORMALS = 20
    DEFINITION_BYTES_PASSED = 21
    TOO_MANY_DEFINITIONS = 22
    BRANCH_OR_ENDIF_WITHOUT_CONDITIONAL = 23
    BRANCH_AFTER_ELSE = 24
    CONDITIONAL_NOT_CLOSED = 25
    TOO_MANY_OPEN_CONDITIONALS = 26
    INCLUDE_NAME_EXPECTED = 27
    SOURCE_NOT_FOUND = 28
    TOO_MANY_OPEN_INCLUDES = 29
    BAD_LINE_DIRECTIVE = 30
    PATH_TOO_LONG = 31
    READ_FAILED = 32
    WRITE_FAILED = 33
    NO_MEMORY_FOR_A_SOURCE = 34
    OUTPUT_BYTES_PASSED = 35


class Fault(Exception):
    """The fault that ended an output. As a text it is the line that the program tells.

        >>> import rdlpp
        >>> try:
        ...     rdlpp.preprocess(b"`W")
        ... except rdlpp.Fault as fault:
        ...     print(fault)
        ...     print(fault.kind.name, fault.name, fault.line, fault.word)
        -:1: error F7: undefined macro 'W'
        UNDEFINED_MACRO - 1 W

    Where a file couldn't be read, its OSError is the fault's `__cause__`.

    Attributes:
        kind: its kind.
        name: the shown name of the source; `-D` for a definition that is refused.
        line: the shown line, from 1; the place of a refused definition; 0 where no line is meant.
        word: the name that it is about; empty where it is about none.
        text: the text of its kind, as 'undefined macro'.
        notes: further lines, which say what helps to mend it.
        output: the output before it; empty of a stream, whose pieces it is.
        partial: of `run`, the output before it with its lines, sources and definitions; else None.
    """

    def __init__(
        self,
        kind: FaultKind,
        name: str,
        line: int,
        word: str = "",
        text: str = "",
        notes: tuple[str, ...] = (),
        output: bytes = b"",
        partial: Output | None = None,
    ):
        super().__init__(kind, name, line, word, text)
        self.kind = kind
        self.name = name
        self.line = line
        self.word = word
        self.text = text
        self.notes = notes
        self.output = output
        self.partial = partial

    @property
    def number(self) -> int:
        """The number of its kind, as 7 for an undefined macro."""
        return int(self.kind)

    def __str__(self) -> str:
        word = f" '{self.word}'" if self.word else ""
        return f"{self.name}:{self.line}: error F{self.number}: {self.text}{word}"

    def __repr__(self) -> str:
        return f"<Fault {self}>"

    def __reduce__(self) -> tuple[Any, ...]:
        parts = (self.kind, self.name, self.line, self.word, self.text, self.notes, self.output, self.partial)
        return type(self), parts


class LimitError(ValueError):
    """A limit is out of its range.

        >>> import rdlpp
        >>> rdlpp.Limits(depth=0)
        Traceback (most recent call last):
          ...
        rdlpp.LimitError: limit depth is 0, and must be 1 to 1,024

    Attributes:
        limit: the name of the first such field of `Limits`.
        value: what was given.
        low: the least value.
        high: the greatest value.
    """

    def __init__(self, limit: str, value: int, low: int, high: int):
        super().__init__(limit, value, low, high)
        self.limit = limit
        self.value = value
        self.low = low
        self.high = high

    def __str__(self) -> str:
        return f"limit {self.limit} is {self.value:,}, and must be {self.low:,} to {self.high:,}"
