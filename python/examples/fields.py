"""Lists the fields of a SystemRDL source, reading its preprocessed text line by line.

    python3 fields.py timer.rdl

No more of the output is held than one line and the piece that it stands in.
"""

import re
import sys
from typing import Iterable, Iterator, Tuple

import rdlpp

FIELD = re.compile(rb"(\w+)\s*\[(\d+):(\d+)\]")


def lines(pieces: Iterable[bytes]) -> Iterator[bytes]:
    """The lines of a text that comes in pieces, each without its LF."""
    rest = b""
    for piece in pieces:
        *whole, rest = (rest + piece).split(b"\n")
        yield from whole
    if rest:
        yield rest


def fields(pieces: Iterable[bytes]) -> Iterator[Tuple[str, int, int]]:
    """The name and the bits of each field, as `limit[31:8]`, of lines that have one."""
    for line in lines(pieces):
        for name, high, low in FIELD.findall(line.split(b"//")[0]):
            yield name.decode(), int(high), int(low)


def main() -> None:
    with rdlpp.stream(sys.argv[1]) as pieces:
        for name, high, low in fields(pieces):
            print(f"{name}: {high}..{low}")


if __name__ == "__main__":
    main()
