"""What the package needs of modules whose import takes longer than its own: `bisect`, `threading`, `typing` and `warnings`.

Three of them have it from modules in C, which are imported here. `typing` is for hints alone, which nobody reads while a
program runs: each stays a text, by `from __future__ import annotations`. What hints name is imported where `TYPE_CHECKING`
is true, which it is for a checker of types.
"""

from collections import namedtuple

TYPE_CHECKING = False

if TYPE_CHECKING:
    from bisect import bisect_right as bisect_right
    from threading import RLock as RLock
    from threading import local as local
    from typing import NamedTuple as NamedTuple
    from typing import Protocol as Protocol
    from warnings import warn as warn
else:
    from _bisect import bisect_right
    from _thread import RLock
    from _thread import _local as local
    from _warnings import warn

    Protocol = object

    class _Named(type):
        """Makes of a class that lists fields what `typing.NamedTuple` does: a named tuple with what else the class has."""

        def __new__(cls, name, bases, held):
            if not bases:
                return super().__new__(cls, name, bases, held)
            hints = held.pop("__annotations__")
            made = namedtuple(name, hints, module=held.pop("__module__"))
            made.__annotations__ = made.__new__.__annotations__ = hints
            for key, value in held.items():
                setattr(made, key, value)
            return made

    class NamedTuple(metaclass=_Named):
        """A class that is made from it lists the fields of a named tuple, each with its type."""
