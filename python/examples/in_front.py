"""Preprocesses a source in front of a compiler that takes a file, and leads the compiler's messages back to the source.

    python3 in_front.py [-I FOLDER].. [-D NAME[=TEXT]].. SOURCE -- COMPILER [WORD]..

The compiler is called with its words and then the path of a file that has the preprocessed text. Where its standard error
names a line of that file, as `FILE:LINE`, the place in the source stands there: of text that a macro gives that of the
usage. The status is the compiler's, and 1 where the text has a fault or the compiler can't be called.

    python3 in_front.py timer.rdl -- python3 stand_in_compiler.py
"""

import argparse
import re
import subprocess
import sys
import tempfile
from typing import Any, Sequence

import rdlpp


def led_back(messages: str, path: str, lines: rdlpp.Lines) -> str:
    """Messages of a compiler in which each line of the file at `path` is the place that it comes from."""

    def place(told: "re.Match[str]") -> str:
        # a compiler may name the line after the last one
        line = min(max(int(told[1]), 1), len(lines))
        return "{}:{}".format(*lines.place(line)) if line else told[0]

    return re.sub(re.escape(path) + r":(\d+)", place, messages)


def compile_file(compiler: Sequence[str], source: str, **asked: Any) -> int:
    """Calls a compiler over the preprocessed text of a source, and answers its status.

    What is asked of the text is given as to `rdlpp.run`.

    Raises:
        rdlpp.Fault: the text has a fault; the compiler isn't called.
        OSError: the compiler can't be called, or the file for it can't be written.
    """
    output = rdlpp.run(source, **asked)
    with tempfile.NamedTemporaryFile(suffix=".rdl") as file:
        file.write(output.text)
        file.flush()
        done = subprocess.run([*compiler, file.name], stderr=subprocess.PIPE, text=True, errors="surrogateescape")
        sys.stderr.write(led_back(done.stderr, file.name, output.lines))
    return done.returncode


def main() -> int:
    words = argparse.ArgumentParser(description="Preprocesses a source in front of a compiler.")
    words.add_argument("-I", dest="folders", action="append", default=[], metavar="FOLDER")
    words.add_argument("-D", dest="defines", action="append", default=[], metavar="NAME[=TEXT]")
    words.add_argument("source")
    words.add_argument("compiler", nargs="+")
    given = words.parse_args()
    defines = {name: text for name, _, text in (word.partition("=") for word in given.defines)}
    try:
        return compile_file(given.compiler, given.source, include_dirs=given.folders, defines=defines)
    except rdlpp.Fault as fault:
        print(fault, *fault.notes, sep="\n", file=sys.stderr)
    except OSError as error:
        print(f"in_front.py: {error}", file=sys.stderr)
    return 1


if __name__ == "__main__":
    sys.exit(main())
