"""The rows of crates/rdlpp_rows/data, over files in a mapping: in one call, and as streams of pieces."""

import pathlib
import re
import sys
import unittest

import rdlpp

sys.path.insert(0, str(pathlib.Path(__file__).resolve().parents[2] / "checks"))

from row_table import ROWS, Asked  # noqa: E402

ROOMS = (1, 7, 65_536)
LONG = 100_000
# Limits that let the definitions of any row be read again, and what stands for a definition that no line can give.
WIDE = {"line_bytes": 2**20, "source_bytes": 2**30, "output_bytes": 2**64 - 1}
UNDEFINED = re.compile(rb"^// not as a define: .*\n", re.M)


def asked(words):
    """What the words of a row ask for, as arguments of a call."""
    told = Asked(words)
    given = {"include_dirs": told.folders, "defines": dict(told.defines), "origins": told.origins}
    return {**given, "limits": rdlpp.Limits(**told.limits)}


def is_given(row):
    """Whether a mapping can give the definitions of a row: each name once."""
    defines = Asked(row.words).defines
    return len(dict(defines)) == len(defines)


GIVEN = [row for row in ROWS if is_given(row)]


class Rows(unittest.TestCase):
    def check_row(self, row):
        """Runs a row, and compares its output and its fault."""
        try:
            output, fault = rdlpp.preprocess(row.main, files=row.files, **asked(row.words)), ""
        except rdlpp.Fault as caught:
            output, fault = caught.output, str(caught)
        self.assertEqual((output, fault), (row.output, row.fault.decode()))

    def check_stream(self, row, room, positions=False):
        """Reads a row in pieces, and compares them joined, and the fault after them."""
        pieces, fault = [], ""
        try:
            for piece in rdlpp.stream(row.main, files=row.files, room=room, positions=positions, **asked(row.words)):
                pieces.append(piece)
        except rdlpp.Fault as caught:
            fault = str(caught)
        self.assertEqual((b"".join(pieces), fault), (row.output, row.fault.decode()))

    def check_places(self, row):
        """That the positions of the pieces of a row and its lines agree, and that its definitions are read again."""
        given = {"files": row.files, **asked(row.words)}
        try:
            output = rdlpp.run(row.main, **given)
        except rdlpp.Fault as caught:
            output = caught.partial
            if output is None:
                return
        self.assertEqual(output.text, row.output)
        self.assertEqual(self.places_by_pieces(row, given), list(output.lines))
        again = rdlpp.run(output.definitions, limits=given["limits"]._replace(**WIDE))
        self.assertEqual(again.definitions, UNDEFINED.sub(b"", output.definitions))

    def places_by_pieces(self, row, given):
        """The place of each line of an output, by the positions of its pieces."""
        places, begins = [], True
        pieces = rdlpp.stream(row.main, positions=True, **given)
        try:
            for piece in pieces:
                at = pieces.position
                for number, line in enumerate(piece.split(b"\n")):
                    if begins and (line or number < piece.count(b"\n")):
                        places.append((at.name, at.line + number * at.step))
                    begins = number < piece.count(b"\n") or (begins and not line)
        except rdlpp.Fault:
            pass
        return places

    def test_each_row(self):
        for row in GIVEN:
            with self.subTest(row.name):
                self.check_row(row)

    def test_each_row_after_another_one_that_was_left(self):
        """Its handle is opened again by the same limits, after one piece of the row before."""
        for before, row in zip([GIVEN[-1], *GIVEN], GIVEN):
            given = {**asked(before.words), "limits": asked(row.words)["limits"]}
            with self.subTest(row.name, before=before.name):
                try:
                    with rdlpp.stream(before.main, files=before.files, room=1, **given) as pieces:
                        next(pieces, None)
                except rdlpp.Fault:
                    pass
                self.check_row(row)

    def test_each_row_in_pieces(self):
        for row in GIVEN:
            for room in ROOMS if len(row.output) < LONG else ROOMS[-1:]:
                with self.subTest(row.name, room=room):
                    self.check_stream(row, room)

    def test_each_row_in_pieces_with_positions(self):
        for row in GIVEN:
            if len(row.output) < LONG:
                with self.subTest(row.name):
                    self.check_stream(row, 65_536, positions=True)
                    self.check_places(row)


if __name__ == "__main__":
    unittest.main()
