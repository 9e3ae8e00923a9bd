"""Compares what the program does with the plain reading of the same texts: each row that files can have, and random ones."""

import os
import pathlib
import random
import sys
import tempfile
from concurrent.futures import ProcessPoolExecutor

from plain_reading import Reading
from random_sources import case
from row_table import ROWS, Asked
from running import Outcome, Tally, run


class PlainCase:
    """A main text with its files, in a folder, and the words of a command line that go before its name."""

    def __init__(self, name, words, files, main):
        self.name, self.words, self.files, self.main = name, words, files, main

    def reading(self):
        return Reading(self.files, self.main, Asked(self.words))

    def write(self, folder):
        for path in [*self.files, "inc/_", "sub/_"]:
            pathlib.Path(folder, path).parent.mkdir(parents=True, exist_ok=True)
        for path, text in self.files.items():
            pathlib.Path(folder, path).write_bytes(text)

    def run(self, folder, *words):
        return run([*self.words, *words, self.main], folder)


def of_row(row):
    return PlainCase(row.name, row.words, row.files, row.main)


def of_seed(seed):
    made = case(random.Random(seed))
    files = {"main_text": made.text(), **made.files}
    return PlainCase(f"seed {seed}", ["-I", "inc", *made.origins, *made.limits], files, "main_text")


def outcome_of(reading):
    """What the program has to do, by a reading."""
    fault = reading.fault.told() + b"\n" if reading.fault else b""
    return Outcome(reading.output(), fault, 1 if fault else 0)


class Comparison:
    """A check by its name, which a function does over a case in a folder that has its files."""

    def __init__(self, name, check):
        self.name, self.check = name, check

    def of(self, made):
        tally = Tally(self.name)
        with tempfile.TemporaryDirectory() as folder:
            made.write(folder)
            self.check(tally, made, folder)
        return tally


def compare(name, check, more=()):
    """Does a check over each row, over further cases, and over random sources: those of the seed and the count on the command
    line, or of 1 and 2,000. Answers its counts."""
    seed, count = (int(word) for word in (sys.argv[1:] + ["1", "2000"][len(sys.argv) - 1 :]))
    cases = [*(of_row(row) for row in ROWS if not row.is_in_memory), *more]
    cases += [of_seed(seed) for seed in range(seed, seed + count)]
    tally = Tally(name)
    with ProcessPoolExecutor(len(os.sched_getaffinity(0))) as pool:
        for told in pool.map(Comparison(name, check).of, cases, chunksize=16):
            tally.add(told)
    return tally
