"""How much of each thing a run may use."""

from __future__ import annotations

from ._faults import LimitError
from ._light import NamedTuple

RANGES = {
    "depth": (1, 1_024),
    "includes": (0, 64),
    "line_bytes": (256, 1_048_576),
    "source_bytes": (1, 1_073_741_824),
    "argument_bytes": (16, 1_048_576),
    "definition_bytes": (1_024, 16_777_216),
    "definitions": (1, 65_536),
    "conditions": (1, 4_096),
    "output_bytes": (0, 2**64 - 1),
}


# The program's option of each limit, by which the library names it.
OPTIONS = {
    "depth": "--max-depth",
    "includes": "--max-includes",
    "line_bytes": "--max-line",
    "source_bytes": "--max-source",
    "argument_bytes": "--max-argument",
    "definition_bytes": "--max-definition-bytes",
    "definitions": "--max-definitions",
    "conditions": "--max-conditions",
    "output_bytes": "--max-output",
}


class _Fields(NamedTuple):
    depth: int
    includes: int
    line_bytes: int
    source_bytes: int
    argument_bytes: int
    definition_bytes: int
    definitions: int
    conditions: int
    output_bytes: int


class Limits(_Fields):
    """How much of each thing a run may use; what isn't given has its standard value.

        >>> Limits(depth=64).depth
        64

    Args:
        depth: macro bodies, actuals and default texts that are open at once: 1 to 1,024.
        includes: included sources that are open at once: 0 to 64.
        line_bytes: bytes of a line or a logical line, with its LF: 256 to 1,048,576.
        source_bytes: bytes of one source: 1 to 1,073,741,824.
        argument_bytes: bytes of the kept text of one call of a macro: 16 to 1,048,576.
        definition_bytes: bytes of all live definitions together: 1,024 to 16,777,216.
        definitions: live definitions: 1 to 65,536.
        conditions: conditionals that are open at once, over all sources: 1 to 4,096.
        output_bytes: bytes of the output: 0 to 2**64 - 1.

    Raises:
        LimitError: a limit is out of its range.
        TypeError: a limit isn't an int.
    """

    __slots__ = ()

    def __new__(
        cls,
        depth: int = 256,
        includes: int = 16,
        line_bytes: int = 65_536,
        source_bytes: int = 1_073_741_824,
        argument_bytes: int = 65_536,
        definition_bytes: int = 1_048_576,
        definitions: int = 4_096,
        conditions: int = 256,
        output_bytes: int = 2**64 - 1,
    ) -> Limits:
        made = super().__new__(
            cls,
            depth,
            includes,
            line_bytes,
            source_bytes,
            argument_bytes,
            definition_bytes,
            definitions,
            conditions,
            output_bytes,
        )
        made.check()
        return made

    def check(self) -> None:
        """Raises what the constructor raises, also of limits that `_replace` made."""
        for limit, value in zip(self._fields, self):
            if not isinstance(value, int) or isinstance(value, bool):
                raise TypeError(f"limit {limit} must be an int, not {type(value).__name__}")
            low, high = RANGES[limit]
            if not low <= value <= high:
                raise LimitError(limit, value, low, high)
