"""Calls of the package: what they give, and how a fault and a limit are told."""

import copy
import ctypes
import gc
import pathlib
import pickle
import re
import subprocess
import sys
import threading
import unittest
import weakref

import rdlpp
from rdlpp import _library, _limits

HEADER = pathlib.Path(__file__).resolve().parents[2] / "include" / "rdlpp.h"

# Calls where there is no memory for a copy of the source, and none for the output.
WANT_OF_MEMORY = """
import resource, rdlpp

resource.setrlimit(resource.RLIMIT_AS, (250 << 20, 250 << 20))
for source, body in (b"reg a @ 0x0;\\n" * 10_000_000, ""), (b"`W\\n" * 500_000, "x" * 1000):
    for call in rdlpp.preprocess, rdlpp.run, lambda *given, **named: list(rdlpp.stream(*given, **named)):
        try:
            call(source, defines={"W": body})
        except MemoryError:
            print("refused")
del source
print(rdlpp.preprocess(b"`W", defines={"W": "8"}))
"""


class Outputs(unittest.TestCase):
    def test_a_text(self):
        self.assertEqual(rdlpp.preprocess(b"`define W 8\nreg[`W];\n"), b"\nreg[8];\n")

    def test_texts_of_other_types(self):
        for text in (bytearray(b"`W"), memoryview(b"`W"), memoryview(b"x`xWx")[1:4:2]):
            self.assertEqual(rdlpp.preprocess(text, defines={"W": "8"}), b"8")

    def test_an_empty_text(self):
        for text in (b"", bytearray(), memoryview(bytearray(b"a"))[1:]):
            self.assertEqual(rdlpp.preprocess(text), b"")

    def test_a_text_that_changes_after_the_call(self):
        text = bytearray(b"a\n`W")
        pieces = rdlpp.stream(text, defines={"W": "8"}, room=2)
        text[:] = b"b\n"
        self.assertEqual(b"".join(pieces), b"a\n8")

    def test_definitions(self):
        self.assertEqual(rdlpp.preprocess(b"`W`V", defines={"W": "8", "V": ""}), b"8")

    def test_origins(self):
        self.assertEqual(rdlpp.preprocess(b"a\n", origins=True), b"// origin: -:1\na\n")

    def test_an_output_that_is_longer_than_its_source(self):
        source = b"`W\n" * 1000
        self.assertEqual(rdlpp.preprocess(source, defines={"W": "x" * 1000}), (b"x" * 1000 + b"\n") * 1000)

    def test_bytes_of_any_encoding(self):
        self.assertEqual(rdlpp.preprocess(b"\xff\0\n"), b"\xff\0\n")

    def test_want_of_memory(self):
        done = subprocess.run([sys.executable, "-c", WANT_OF_MEMORY], capture_output=True, text=True, timeout=60)
        self.assertEqual((done.stdout, done.stderr), ("refused\n" * 6 + "b'8'\n", ""))

    def test_threads(self):
        given = []
        source = b"`define W 8\n" + b"reg[`W];\n" * 1000
        threads = [threading.Thread(target=lambda: given.append(rdlpp.preprocess(source))) for _ in range(8)]
        for thread in threads:
            thread.start()
        for thread in threads:
            thread.join()
        self.assertEqual(given, [b"\n" + b"reg[8];\n" * 1000] * 8)


class Runs(unittest.TestCase):
    FILES = {"m": b'a\n`include "i"\nb`W`W\n`Two\nc', "inc/i": b"q\n`define X x\n"}
    DEFINES = {"W": "8", "Two": "1\n2"}

    def output(self):
        return rdlpp.run("m", include_dirs=["inc"], defines=self.DEFINES, files=self.FILES)

    def test_a_run(self):
        output = self.output()
        self.assertEqual(output.text, b"a\nq\n\n\nb88\n1\n2\nc")
        self.assertEqual(output.sources, ("m", "inc/i"))
        self.assertEqual(output.text, rdlpp.preprocess("m", ["inc"], self.DEFINES, files=self.FILES))

    def test_its_lines(self):
        lines = self.output().lines
        wanted = [("m", 1), ("inc/i", 1), ("inc/i", 2), ("m", 2), ("m", 3), ("m", 4), ("m", 4), ("m", 5)]
        self.assertEqual(list(lines), wanted)
        self.assertEqual([lines.place(line) for line in range(1, len(lines) + 1)], wanted)
        self.assertEqual((lines.place(2).name, lines.place(2).line), ("inc/i", 1))
        for line in (0, 9, -1):
            with self.assertRaises(IndexError):
                lines.place(line)

    def test_its_definitions(self):
        definitions = self.output().definitions
        again = rdlpp.run(definitions + b"`Two`X")
        self.assertEqual(again.definitions, definitions)
        self.assertEqual(again.text[-4:], b"1\n2x")

    def test_an_empty_output(self):
        output = rdlpp.run(b"")
        self.assertEqual((output.text, len(output.lines), output.sources, output.definitions), (b"", 0, (), b""))
        self.assertEqual(bytes(output.lines), b"# rdlpp line map 1\n")

    def test_a_fault_has_what_was_made_before(self):
        with self.assertRaises(rdlpp.Fault) as caught:
            rdlpp.run("m", include_dirs=["inc"], files={**self.FILES, "m": b'`include "i"\n`Q'})
        partial = caught.exception.partial
        self.assertEqual((partial.text, caught.exception.output), (b"q\n\n\n", b"q\n\n\n"))
        self.assertEqual((partial.sources, partial.definitions), (("m", "inc/i"), b"`define X x\n"))
        self.assertEqual(partial.lines.place(3), ("m", 1))

    def test_a_large_output(self):
        text = b"reg a @ 0x0;\n" * 300_000
        output = rdlpp.run(text)
        self.assertEqual(output.text, text)
        self.assertEqual(output.lines.place(299_999), ("-", 299_999))

    def test_many_runs_of_lines(self):
        text = b"`W\nx\n" * 20_000
        lines = rdlpp.run(text, defines={"W": "8"}).lines
        self.assertEqual([place.line for place in lines], list(range(1, 40_001)))

    def test_short_texts_of_it(self):
        output = self.output()
        self.assertEqual(repr(output), "<Output of 15 bytes, from 2 sources>")
        self.assertEqual(repr(output.lines), "<Lines of 8 lines>")


class Faults(unittest.TestCase):
    def fault(self, *given, **named):
        with self.assertRaises(rdlpp.Fault) as caught:
            rdlpp.preprocess(*given, **named)
        return caught.exception

    def test_a_fault(self):
        fault = self.fault(b'a\n`line 10 "v.rdl" 0\n`Unknown')
        self.assertEqual((fault.kind, fault.name, fault.line, fault.word), (7, "v.rdl", 10, "Unknown"))
        self.assertIs(fault.kind, rdlpp.FaultKind.UNDEFINED_MACRO)
        self.assertEqual((fault.number, fault.text, fault.output), (7, "undefined macro", b"a\n\n"))
        self.assertEqual(str(fault), "v.rdl:10: error F7: undefined macro 'Unknown'")

    def test_its_short_text(self):
        fault = self.fault(b"long\n" * 10_000 + b"`Q")
        self.assertEqual(repr(fault), "<Fault -:10001: error F7: undefined macro 'Q'>")

    def test_its_notes(self):
        fault = self.fault("a/m", ["inc"], files={"a/m": b'`include "no"\n'})
        notes = "\n".join(fault.notes)
        for path in ("a/no", "inc/no"):
            self.assertIn(path, notes)

    def test_notes_on_limits_name_the_argument(self):
        for limit, value, text in (
            ("depth", 1, b"`define A `B\n`define B x\n`A"),
            ("includes", 0, b'`include "i"\n'),
            ("line_bytes", 256, b"x" * 257),
            ("source_bytes", 1, b"ab"),
            ("argument_bytes", 16, b"`define A(x) x\n`A(" + b"x" * 17 + b")"),
            ("definition_bytes", 1024, b"`define A " + b"x" * 1024),
            ("definitions", 1, b"`define A\n`define B\n"),
            ("conditions", 1, b"`ifndef A\n`ifndef B\n"),
            ("output_bytes", 2, b"abc"),
        ):
            with self.subTest(limit):
                fault = self.fault(text, limits=rdlpp.Limits(**{limit: value}), files={"i": b""})
                self.assertEqual(fault.notes[0], f"the limit is {value}, set by {limit}")
        fault = self.fault("the limit is 16, set by --max-includes", files={})
        self.assertEqual(fault.notes, ("asked for 'the limit is 16, set by --max-includes'",))

    def test_it_is_pickled(self):
        for copied in (lambda fault: pickle.loads(pickle.dumps(fault)), copy.copy):
            fault = copied(self.fault(b"a\n`Q"))
            self.assertEqual((str(fault), fault.output, fault.kind), ("-:2: error F7: undefined macro 'Q'", b"a\n", 7))
            self.assertEqual(type(fault).__module__, "rdlpp")

    def test_it_goes_as_soon_as_it_is_dropped(self):
        gc.disable()
        self.addCleanup(gc.enable)
        for call in (rdlpp.preprocess, rdlpp.run):
            for given in ({"source": b"a\n`Q"}, {"source": b"a", "defines": {"1x": ""}}, {"source": "/dev"}):
                with self.subTest(call=call, **given):
                    try:
                        call(**given)
                    except rdlpp.Fault as fault:
                        kept = weakref.ref(fault)
                        del fault
                    self.assertIsNone(kept())

    def test_a_fault_after_a_long_output(self):
        fault = self.fault(b"`W\n" * 1000 + b"`Q", defines={"W": "x" * 1000})
        self.assertEqual((fault.output, fault.line), ((b"x" * 1000 + b"\n") * 1000, 1001))

    def test_a_refused_definition(self):
        fault = self.fault(b"a", defines={"W": "8", "1x": "2"})
        self.assertEqual(str(fault), "-D:2: error F15: name expected")

    def test_the_kinds(self):
        told = re.findall(r"RDLPP_FAULT_(\w+) = (\d+)", HEADER.read_text())
        self.assertEqual([(kind.name, str(kind.value)) for kind in rdlpp.FaultKind], told)
        for kind in rdlpp.FaultKind:
            self.assertEqual(_library.fault_text(kind).upper().replace(" ", "_"), kind.name)
        self.assertEqual(_library.fault_text(36), "")


class Limits(unittest.TestCase):
    def test_a_limit_out_of_its_range(self):
        for limit, (low, high) in _limits.RANGES.items():
            for value in (low - 1, high + 1):
                with self.assertRaises(rdlpp.LimitError) as caught:
                    rdlpp.Limits(**{limit: value})
                error = caught.exception
                self.assertEqual((error.limit, error.value, error.low, error.high), (limit, value, low, high))
        self.assertEqual(str(error), f"limit output_bytes is {2**64:,}, and must be 0 to {2**64 - 1:,}")

    def test_a_limit_that_was_replaced(self):
        with self.assertRaises(rdlpp.LimitError):
            rdlpp.preprocess(b"a", limits=rdlpp.Limits()._replace(depth=0))

    def test_a_limit_of_another_type(self):
        for value in ("8", 8.0, None, True):
            with self.assertRaisesRegex(TypeError, "limit depth must be an int, not "):
                rdlpp.Limits(depth=value)

    def test_the_ranges_are_those_of_the_library(self):
        for place, (limit, (low, high)) in enumerate(_limits.RANGES.items(), 1):
            for value in (low, high, low - 1, high + 1):
                if 0 <= value < 2**64:
                    wanted = (_library.WHOLE, 0) if low <= value <= high else (_library.BAD_LIMIT, place)
                    self.assertEqual(self.opened(limit, value), wanted, f"{limit} {value}")

    def opened(self, limit, value):
        """The status and the number by which the library opens an empty text with a limit."""
        room = ctypes.create_string_buffer(1)
        length, limits = ctypes.c_size_t(1), _library.standard_limits()
        setattr(limits, limit, value)
        none, no_folders = ctypes.addressof(_library.pairs([])), ctypes.addressof(_library.folders([]))
        request = _library.Request(limits, False, True, False, none, 0, no_folders, 0, none, 0, b"", 0)
        handle = _library.Handle()
        outcome = _library.reopen_handle(ctypes.byref(request), room, length, room, length, ctypes.byref(handle))
        _library.close_handle(handle)
        return outcome.status, outcome.number

    def test_the_limit_on_the_output(self):
        limits = rdlpp.Limits(output_bytes=3)
        self.assertEqual(rdlpp.preprocess(b"abc", limits=limits), b"abc")
        with self.assertRaises(rdlpp.Fault) as caught:
            rdlpp.preprocess(b"abcd", limits=limits)
        self.assertEqual((caught.exception.number, caught.exception.output), (35, b"abc"))

    def test_the_standard_limits(self):
        given = _library.standard_limits()
        for limit, value in zip(rdlpp.Limits._fields, rdlpp.Limits()):
            self.assertEqual(getattr(given, limit), value, limit)


if __name__ == "__main__":
    unittest.main()
