"""Runs the Python package and the program over the same sources, and compares all that both tell: the output, the fault, its
notes, the sources that were opened, the lines and the definitions.

`python3 checks/python_agreement.py SEED CASES`, with the package on the path, over the rows and over random sources.
"""

import os
import pathlib
import random
import re
import sys
import tempfile

import rdlpp
from random_sources import case
from row_table import ROWS, Asked, field_of
from running import Tally, run

MAIN = "main_text"
NOTE = "rdlpp: note: "
# The note on a limit, by the program's option.
LIMIT = re.compile(r"(the limit is [0-9]+, set by )--max-([a-z-]+)")
# The note that the program alone has, which keeps the places of macros.
DEFINED = re.compile(r"macro '\w+' was defined at .+")
# What the program writes beside the output, each into a file of this name.
WRITTEN = {"lines": "--line-map", "sources": "--deps", "definitions": "--definitions"}


class Told:
    """What a run tells."""

    def __init__(self, text, fault, notes, sources, lines, definitions):
        self.text, self.fault, self.notes = text, fault, notes
        self.sources, self.lines, self.definitions = sources, lines, definitions


def prerequisites(rule):
    """The sources of a rule for make: what its first line names after the target, where `\\` LF goes on."""
    first = re.split(r"(?<!\\)\n", rule.decode(), maxsplit=1)[0]
    words = re.findall(r"(?:\\.|[^\s\\])+", first.replace("\\\n", " "))
    return tuple(re.sub(r"\\([ #:\t])", r"\1", word).replace("$$", "$") for word in words[1:])


def noted(note):
    """A note of the program as the package has it, which names the argument of a limit in place of the option."""
    told = LIMIT.fullmatch(note)
    return told[1] + field_of(told[2]) if told else note


def by_program(words, main, outside):
    """What the program tells of a source in the working folder; its files are written outside of it."""
    files = {name: outside / name for name in WRITTEN}
    options = [word for name, option in WRITTEN.items() for word in (option, str(files[name]))]
    got = run(["--notes", *options, *words, main], os.getcwd())
    lines = got.faults.decode("utf-8", "replace").split("\n")[:-1]
    notes = [noted(line[len(NOTE) :]) for line in lines if line.startswith(NOTE)]
    notes = [note for note in notes if not DEFINED.fullmatch(note)]
    lines = [line for line in lines if not line.startswith(NOTE)]
    written = {name: file.read_bytes() for name, file in files.items()}
    sources = prerequisites(written["sources"])
    return Told(got.output, "\n".join(lines), tuple(notes), sources, written["lines"], written["definitions"])


def by_package(words, main):
    """What the package tells of the same."""
    asked = Asked(words)
    given = {"include_dirs": asked.folders, "defines": dict(asked.defines), "origins": asked.origins}
    try:
        output, fault, notes = rdlpp.run(main, limits=rdlpp.Limits(**asked.limits), **given), "", ()
    except rdlpp.Fault as caught:
        output, fault, notes = caught.partial, str(caught), caught.notes
    if output is None:
        return Told(b"", fault, notes, None, None, None)
    return Told(output.text, fault, notes, output.sources, bytes(output.lines), output.definitions)


def compare(tally, name, words, main, outside):
    """Counts each part of what both tell."""
    wanted, got = by_program(words, main, outside), by_package(words, main)
    for part in ("text", "fault", "notes", "sources", "lines", "definitions"):
        one, other = getattr(wanted, part), getattr(got, part)
        # of a refused definition a call has nothing but the fault
        tally.hold(f"{name}: {part}", other in (None, one), f"\n  program {one!r:.300}\n  package {other!r:.300}")


def write_files(files):
    for path, text in files.items():
        file = pathlib.Path(path)
        file.parent.mkdir(parents=True, exist_ok=True)
        file.write_bytes(text)


def in_folder(files, check):
    """Runs a check in a scratch folder that has these files, and gives it another one."""
    before = os.getcwd()
    with tempfile.TemporaryDirectory() as folder, tempfile.TemporaryDirectory() as outside:
        os.chdir(folder)
        try:
            write_files(files)
            check(pathlib.Path(outside))
        finally:
            os.chdir(before)


def check_rows(tally):
    for row in ROWS:
        defines = Asked(row.words).defines
        if not row.is_in_memory and len(dict(defines)) == len(defines):
            in_folder(row.files, lambda outside: compare(tally, row.name, row.words, row.main, outside))


def check_random(tally, seeds):
    for seed in seeds:
        made = case(random.Random(seed))
        words = ["-I", "inc", *made.origins, *made.limits]
        files = {**made.files, MAIN: made.text()}
        in_folder(files, lambda outside: compare(tally, f"seed {seed}", words, MAIN, outside))


def check_files(tally):
    """What no row has: files that aren't there, aren't read or have odd names."""
    odd = "odd $name #1: x.rdl"
    for name, main, text in (
        ("no main file", "no", b""),
        ("a folder as the main file", "d", b""),
        ("a main file after a file", "m/i", b""),
        ("a folder as an included file", "m", b'a\n`include "d"\n'),
        ("a file after a file", "m", b'a\n`include "m/i"\n'),
        ("a file that is nowhere", "m", b'a\n`include "no"\n'),
        ("a device without an end", "m", b'a\n`include "/dev/zero"\n'),
        ("an empty device", "m", b'a`include "/dev/null"\nb\n'),
        ("a name with a zero byte", "m", b'`include "a\0b"\n'),
        ("a name that is too long for a file", "m", b'`include "%s"\n' % (b"a" * 300)),
        ("a name that is too long", "m", b'`include "%s"\n' % (b"a" * 1100)),
        ("an odd name", "m", b'`include "%s"\nb\n' % odd.encode()),
        ("a file that is included twice", "m", b'`include "d/i"\n`include "d/i"\n`include "d/../d/i"\n'),
    ):
        files = {"m": text, "d/i": b"q\n", odd: b"o\n", "inc/no.rdl": b""}
        in_folder(files, lambda outside: compare(tally, name, ["-I", "inc"], main, outside))


def main():
    seed, cases = (int(word) for word in (sys.argv[1:] + ["1", "2000"][len(sys.argv) - 1 :]))
    tally = Tally("python_agreement")
    check_files(tally)
    check_rows(tally)
    check_random(tally, range(seed, seed + cases))
    tally.close()


if __name__ == "__main__":
    main()
