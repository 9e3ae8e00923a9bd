"""The preprocessor for SystemRDL as a library.

    >>> import rdlpp
    >>> rdlpp.preprocess(b"`define W 8\\nreg[`W];\\n")
    b'\\nreg[8];\\n'
    >>> rdlpp.run(b"`define W 8\\nreg[`W];\\n").lines.place(2)
    Place(name='-', line=2)
    >>> list(rdlpp.stream(b"reg[`W];\\n", defines={"W": "8"}, room=4))
    [b'reg[', b'8];\\n']

It is a layer by ctypes over the library for C, which is in the package. `python -m rdlpp` is the program. The source
archive has a guide, `docs/GUIDE.md`, and larger examples, `python/examples`: one is put in front of a compiler.
"""

from ._faults import Fault, FaultKind, LimitError
from ._handle import release
from ._library import version
from ._limits import Limits
from ._output import Lines, Output, Place, Position
from ._run import preprocess, run
from ._stream import Stream, stream

__all__ = [
    "Fault",
    "FaultKind",
    "LimitError",
    "Limits",
    "Lines",
    "Output",
    "Place",
    "Position",
    "Stream",
    "preprocess",
    "release",
    "run",
    "stream",
    "version",
]
__version__ = version()

# Errors and texts of items name the module that has them for users.
for _item in (Fault, FaultKind, LimitError, Limits, Lines, Output, Place, Position, Stream):
    _item.__module__ = __name__
del _item
