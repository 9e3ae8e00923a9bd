"""Preprocessing as one call."""

from __future__ import annotations

from ._light import TYPE_CHECKING
from ._output import Lines, Output
from ._reading import Reading
from ._request import request_of
from ._written import Written, roomy

if TYPE_CHECKING:
    from collections.abc import Callable, Iterable, Mapping

    from ._asked import Bytes
    from ._limits import Limits
    from ._request import MappingFrom, Path, Read, Source

# How much one read asks for: it comes back soon, mostly in milliseconds, so that a signal is seen.
PART = 131_072


def _read_all(reading: Reading, read: Callable[[Written, int], None]) -> bytes:
    """All of an output, by reads that write so many bytes at most. It is often about as long as its sources."""
    written = Written(roomy(reading.text_bytes))
    while not reading.is_over:
        if written.filled == written.room:
            written.end(roomy(max(reading.text_bytes - written.filled, 0)))
        read(written, PART)
    return written.take()


def _raise_fault(reading: Reading, text: bytes, partial: Output | None = None) -> None:
    """Raises the fault of an output that was ended by one, with what was made before it.

    No frame keeps it, so that it goes, and the output with it, as soon as the caller drops it.
    """
    fault, reading.fault = reading.fault, None
    if fault is not None:
        fault.output, fault.partial = text, partial
        try:
            raise fault
        finally:
            del fault


def preprocess(
    source: Source,
    include_dirs: Iterable[Path] = (),
    defines: Mapping[str, str] | None = None,
    limits: Limits | None = None,
    origins: bool = False,
    *,
    files: MappingFrom[Path, Bytes] | None = None,
    read: Read | None = None,
) -> bytes:
    """Preprocesses a text and answers the output.

        >>> import rdlpp
        >>> rdlpp.preprocess(b"`define W 8\\nreg[`W];\\n")
        b'\\nreg[8];\\n'
        >>> rdlpp.preprocess("m", ["inc"], {"W": "8"}, files={"m": b'`include "w"', "inc/w": b"reg[`W];"})
        b'reg[8];\\n'

    A source is asked for when the run needs it: what is skipped or stands in a comment includes nothing. An included text
    is held while it is read, and until the next one comes. Where its path is included again it is read again; if another text
    stands there then, the output ends by the fault READ_FAILED, with a note that says so. That is found by the length
    and a digest of 64 bits, which is no protection against someone who makes two texts of one digest. The texts of
    `files`, and those of pipes and devices, are asked for once, and held.

    The thread keeps the memory of a small call, with copies of what it was given, for its next one (`rdlpp.release`).

    Args:
        source: bytes are the text itself, whose shown name is `-`; anything else is its path.
        include_dirs: the include folders, in the order of the search.
        defines: macros without a formal list that are defined first, each name with its body.
        limits: how much of each thing the run may use; the standard limits where it is None.
        origins: whether lines `// origin: NAME:LINE` are written.
        files: the sources by their paths, which are texts or path objects.
        read: gives the source of a path, or None where nothing is there; of one path always the same. What it raises
            comes out of the call, but for StopIteration, of which a RuntimeError is made, as of one in a generator.
            Where neither `files` nor `read` is given, the sources are files.

    Raises:
        Fault: a fault ended the output; it has the output before it.
        TypeError: an argument is of a wrong type.
        ValueError: an argument can't be used, as a path that UTF-8 can't write.
        MemoryError: memory was refused.
    """
    request = request_of(source, include_dirs, defines, limits, origins, files, read, tells_sources=False)
    with Reading(request) as reading:
        text = _read_all(reading, reading.read)
    _raise_fault(reading, text)
    return text


def run(
    source: Source,
    *,
    include_dirs: Iterable[Path] = (),
    defines: Mapping[str, str] | None = None,
    limits: Limits | None = None,
    origins: bool = False,
    files: MappingFrom[Path, Bytes] | None = None,
    read: Read | None = None,
) -> Output:
    """Preprocesses a text and answers the output with its lines, sources and definitions.

        >>> import rdlpp
        >>> output = rdlpp.run(b"`define W 8\\nreg[`W];\\n")
        >>> output.text, output.lines.place(2), output.definitions
        (b'\\nreg[8];\\n', Place(name='-', line=2), b'`define W 8\\n')

    The arguments and the errors are those of `preprocess`. A fault has what was made before it as its `partial`.
    """
    with Reading(request_of(source, include_dirs, defines, limits, origins, files, read)) as reading:
        text = _read_all(reading, reading.read_mapped)
        definitions = reading.definitions()
    output = Output(text, Lines(b"".join(reading.runs), text), reading.sources(), definitions)
    _raise_fault(reading, text, output)
    return output
