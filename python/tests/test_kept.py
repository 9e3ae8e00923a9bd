"""What a thread keeps from a call to the next: which handle serves again, when it goes, and that no call sees an earlier one."""

import gc
import os
import pathlib
import signal
import subprocess
import sys
import tempfile
import threading
import unittest
import warnings
import weakref

import rdlpp
from rdlpp import _handle
from rdlpp._reading import Reading
from rdlpp._request import request_of
from rdlpp._written import Written

SOURCE = b'`define A(x) <x>\n`A(long body)`include "i"\n`W\n'
FILES = {"m": SOURCE, "inc/i": b"q"}
WHOLE = b"\n<long body>q\n\n8\n"
DEEP = b"`define A `B\n`define B `C\n`define C x\n"
# Texts that end by a fault, each in another place, with the limits and the definitions that they are given.
FAULTS = {
    "in text": b"a\n<% %>",
    "in a string": b'a "b\n',
    "in a comment": b"/* `define W 1\n",
    "in a line": b"a" * 300,
    "at a name": b"a `1",
    "at a usage": b"`define V 1\n`V`Unknown",
    "in a recursion": b"`define R(x) `R(x)\n`R(1)",
    "in a body": b"`define D `define E\n`D",
    "without a list": b"`define A(x) x\n`A",
    "in a call": b"`define A(x) x\n`A(1, (2\n",
    "in a long call": b"`define A(x) x\n`A(" + b"y" * 100 + b")",
    "in an actual": b"`define A(x) [x x]\n`A(`V)",
    "by the number of actuals": b"`define A(x, y) x y\n`A(1)",
    "in a definition": b"`define 1\n",
    "at a reserved name": b"`define include\n",
    "at a directive": b"`undef\n",
    "in skipped text": b"`ifdef X\n`ifdef Y\n/* ",
    "at an elsif": b"`ifdef X\n`elsif\n`endif\n",
    "after an else": b"`ifdef X\n`else\n`else\n",
    "at a lone endif": b"`endif\n",
    "in a conditional": b"`ifndef X\nopen\n",
    "in many conditionals": b"`ifndef X\n" * 5,
    "at a line": b'`line 10 "other.rdl" 0\n`line x\n',
    "at a source that is not there": b'`include "no"\n',
    "in a source": b'`include "bad"\n',
    "in its own source": b'`include "again"\n',
    "by a definition's bytes": b"".join(b"`define B%d %s\n" % (n, b"y" * 200) for n in range(10)),
    "by the definitions": b"".join(b"`define B%d\n" % n for n in range(20)),
    "by the depth": DEEP + b"`A",
    "by the output": b"`define V x\n" * 8 + b"long text\n" * 20,
    "by its own length": b"short lines\n" * 200,
}
SMALL = {
    "includes": 2,
    "line_bytes": 256,
    "source_bytes": 2_000,
    "argument_bytes": 64,
    "definition_bytes": 1_024,
    "definitions": 12,
    "conditions": 4,
    "output_bytes": 160,
}
# Texts that tell whether anything of an earlier call is there: a macro, a conditional, a name and a line, an owed line end.
AFTER = (
    b"ordinary\n",
    b"`A(1)\n",
    b"`V\n",
    b"`ifdef V\nseen\n`else\nnot seen\n`endif\n`ifdef A\nseen\n`endif\n",
    b"`endif\n",
    b'a\n`include "i"\n`Q',
    b"`define V 2\n`V`V\n",
    b"",
)
BESIDE = {"i": b"q\n", "bad": b'`define V 9\n`ifdef X\n`line 7 "far.rdl" 0\n`endif\n`oops', "again": b'a\n`include "again"\n'}


def told(*given, **named):
    """What `run` tells of a text, of an output or of a fault."""
    try:
        output, fault = rdlpp.run(*given, **named), None
    except rdlpp.Fault as caught:
        output, fault = caught.partial, (str(caught), caught.notes)
    return output and (output.text, bytes(output.lines), output.sources, output.definitions), fault


def in_thread(call):
    """What a call answers in a thread of its own."""
    answers = []
    thread = threading.Thread(target=lambda: answers.append(call()))
    thread.start()
    thread.join()
    return answers[0]


def in_child(call):
    """What a call answers in the child of a fork, as a text."""
    out, into = os.pipe()
    with warnings.catch_warnings():
        warnings.simplefilter("ignore", DeprecationWarning)
        child = os.fork()
    if child == 0:
        try:
            os.write(into, repr(call()).encode())
        finally:
            os._exit(0)
    os.close(into)
    with open(out, "rb") as answer:
        text = answer.read().decode()
    os.waitpid(child, 0)
    return text


def kept():
    """What this thread keeps."""
    return list(_handle.kept_here())


class Kept(unittest.TestCase):
    def setUp(self):
        rdlpp.release()
        self.addCleanup(rdlpp.release)

    def call(self):
        return rdlpp.preprocess("m", ["inc"], {"W": "8"}, files=FILES)


class Calls(Kept):
    def test_each_call_uses_the_handle_again(self):
        self.assertEqual((self.call(), len(kept())), (WHOLE, 1))
        first = kept()
        for call in (rdlpp.preprocess, rdlpp.run, lambda text: list(rdlpp.stream(text))):
            call(b"a\n")
            self.assertEqual(kept(), first)
        self.assertEqual(self.call(), WHOLE)

    def test_it_is_given_back(self):
        self.call()
        gone = weakref.ref(kept()[0])
        rdlpp.release()
        self.assertEqual((kept(), gone()), ([], None))
        rdlpp.release()
        self.assertEqual(self.call(), WHOLE)

    def test_a_stream_goes_on_when_it_is_given_back(self):
        with rdlpp.stream(b"abc", room=1) as pieces:
            self.assertEqual(next(pieces), b"a")
            rdlpp.release()
            self.assertEqual(self.call(), WHOLE)
            rdlpp.release()
            self.assertEqual(list(pieces), [b"b", b"c"])

    def test_nothing_of_an_earlier_call_is_seen(self):
        limits = rdlpp.Limits(depth=2, **SMALL)
        fresh = {}
        for text in (*AFTER, *FAULTS.values()):
            rdlpp.release()
            fresh[text] = told(text, files=BESIDE, limits=limits)
        for name, text in FAULTS.items():
            self.assertIsNotNone(fresh[text][1], name)
            for later in AFTER:
                with self.subTest(name, later=later):
                    self.assertEqual(told(text, files=BESIDE, limits=limits), fresh[text])
                    before = kept()
                    self.assertEqual(told(later, files=BESIDE, limits=limits), fresh[later])
                    self.assertEqual((kept(), len(before)), (before, 1))

    def test_nothing_of_a_stream_that_was_left_is_seen(self):
        wanted = {text: told(text, files=BESIDE) for text in AFTER}
        for text in FAULTS.values():
            for later in AFTER:
                pieces = rdlpp.stream(text + b"\n", files=BESIDE, room=1, defines={"V": "1"})
                try:
                    next(pieces, None)
                except rdlpp.Fault:
                    pass
                pieces.close()
                self.assertEqual(told(later, files=BESIDE), wanted[later])

    def test_definitions_that_are_refused(self):
        for defines in ({"1x": ""}, {"W": "8", "include": "2"}, {"W": "<%"}):
            for _ in range(2):
                with self.assertRaises(rdlpp.Fault):
                    rdlpp.preprocess(b"a", defines=defines)
                with self.assertRaises(rdlpp.Fault) as caught:
                    rdlpp.preprocess(b"`W")
                self.assertEqual(caught.exception.number, 7)
            self.assertEqual(self.call(), WHOLE)

    def test_a_callable_that_raises(self):
        def read(path):
            if path == "i":
                raise KeyError(path)
            return b'`define V 1\na\n`include "i"\n'

        for call in (rdlpp.preprocess, rdlpp.run, lambda path, read: list(rdlpp.stream(path, read=read, room=1))):
            with self.assertRaises(KeyError):
                call("m", read=read)
            self.assertEqual(told(b"`V")[1][0], "-:1: error F7: undefined macro 'V'")
            self.assertEqual(self.call(), WHOLE)

    def test_a_file_that_cannot_be_read(self):
        for _ in range(3):
            with self.assertRaises(rdlpp.Fault) as caught:
                rdlpp.preprocess("/dev")
            self.assertEqual(caught.exception.number, 32)
            self.assertIsInstance(caught.exception.__cause__, OSError)
            self.assertEqual(self.call(), WHOLE)

    def test_an_output_that_is_closed_reads_no_other_one(self):
        first, room = Reading(request_of(b"first", (), None, None, False, None, None)), Written(100)
        first.close()
        second = Reading(request_of(b"second", (), None, None, False, None, None))
        for read in (first.read, first.read_mapped):
            with self.assertRaisesRegex(ValueError, "the output is closed"):
                read(room, 100)
        first.close()
        second.read(room, 100)
        self.assertEqual((room.take(), second.is_over, first.position(), kept()), (b"second", True, None, []))
        second.close()
        self.assertEqual(len(kept()), 1)

    def test_arguments_that_are_refused(self):
        self.call()
        before = kept()
        for wrong in ({"source": 1}, {"source": b"a", "limits": 1}, {"source": b"a", "read": 1}):
            with self.assertRaises(TypeError):
                rdlpp.preprocess(**wrong)
        self.assertEqual(kept(), before)

    def test_a_text_that_changed_is_noticed_anew(self):
        main = b'`include "i"\n`include "j"\n`include "i"\n'
        for texts in ([b"1\n", b"2\n"], [b"3\n", b"3\n"], [b"1\n", b"2\n"]):
            given = iter(texts)
            files = {"m": lambda: main, "i": lambda: next(given), "j": lambda: b"j\n"}
            fault = told("m", read=lambda path: files[path]())[1]
            self.assertEqual(fault is None, texts[0] == texts[1])


class Sizes(Kept):
    def test_equal_and_other_limits_by_turns(self):
        for depth in (1, 256, 1, 1, 256, 256, 2, 1):
            fault = told(DEEP + b"`A", limits=rdlpp.Limits(depth=depth))[1]
            self.assertEqual(fault is None, depth == 256)
            self.assertEqual(len(kept()), 1)

    def test_a_limit_that_differs_alone(self):
        least = {**rdlpp.Limits(1, 0, 256, 1, 16, 1_024, 1, 1, 0)._asdict()}
        for limit, value in least.items():
            with self.subTest(limit):
                text = b'`define A(x) `B\n`define B x\n`ifndef Q\n`ifndef P\n`A(1234567890abcdefg)`include "i"\n'
                text += b"y" * 300 + b"\n`define C " + b"z" * 1_024 + b"\n"
                fault = told(text, files={"i": b"i"}, limits=rdlpp.Limits(**{limit: value}))[1]
                self.assertIn(f"the limit is {value}, set by {limit}", fault[1])
                self.assertNotIn("the limit", str(told(text, files={"i": b"i"})))

    def test_large_limits(self):
        whole = rdlpp.Limits(definition_bytes=4_000_000 - 65_536 * 18)
        self.assertEqual((rdlpp.preprocess(b"a", limits=whole), len(kept())), (b"a", 1))
        for limits in (
            whole._replace(definition_bytes=whole.definition_bytes + 1),
            rdlpp.Limits(line_bytes=1_048_576),
            rdlpp.Limits(includes=64),
        ):
            self.assertEqual((rdlpp.preprocess(b"a", limits=limits), kept()), (b"a", []))
            self.assertEqual((rdlpp.run(b"a", limits=limits).text, kept()), (b"a", []))

    def test_large_texts(self):
        line = b"reg a @ 0x0;\n"
        small, large = line * 70_000, line * 80_000
        for call in (
            lambda text: rdlpp.preprocess(text),
            lambda text: rdlpp.run(text).text,
            lambda text: rdlpp.preprocess("m", read=lambda path: text),
            lambda text: rdlpp.preprocess(b'`include "i"', files={"i": text}),
            lambda text: b"".join(rdlpp.stream(text)),
        ):
            for text in (large, small, large):
                self.assertEqual(call(text).rstrip(b"\n"), text.rstrip(b"\n"))
                self.assertEqual(len(kept()), text is small)

    def test_large_files(self):
        with tempfile.TemporaryDirectory() as folder:
            file = pathlib.Path(folder, "m")
            for length in (10, 100_000, 10):
                file.write_bytes(b"reg a @ 0x0;\n" * length)
                self.assertEqual(rdlpp.preprocess(file), file.read_bytes())
                self.assertEqual(len(kept()), length == 10)

    def test_large_definitions_and_paths(self):
        many = {f"W{number}": "" for number in range(12_000)}
        for given in (
            {"defines": {"W": "x" * 1_000_000}},
            {"defines": many, "limits": rdlpp.Limits(definitions=20_000)},
            {"include_dirs": ["x" * 1_000] * 1_000},
            {"include_dirs": ["x"] * 12_000},
        ):
            self.assertEqual((rdlpp.preprocess(b"a", **given), kept()), (b"a", []))

    def test_many_empty_sources(self):
        for count in (100, 12_000):
            main = b"".join(b'`include "i%d"\n' % number for number in range(count))
            for read in (lambda path: b"", lambda path: None if path.startswith("no/") else b""):
                output = rdlpp.preprocess(main, ["no"], read=read)
                self.assertEqual((output, len(kept())), (b"\n" * count, int(count == 100)))


class Nested(Kept):
    def test_a_callable_that_makes_calls(self):
        inner = []

        def read(path):
            inner.append((self.call(), rdlpp.run(b"`W", defines={"W": path}).text, len(kept())))
            return b'`define W outer\n`W`include "i"\n' if path == "m" else b"`W`W\n"

        for _ in range(3):
            self.assertEqual(rdlpp.preprocess("m", read=read), b"\nouterouterouter\n\n")
            self.assertEqual(len(kept()), 1)
        self.assertEqual(inner, [(WHOLE, b"m", 1), (WHOLE, b"i", 1)] * 3)

    def test_calls_ten_deep(self):
        def read(path):
            return path.encode() if len(path) == 10 else rdlpp.preprocess(path + "m", read=read) + path.encode()

        self.assertEqual(rdlpp.preprocess("m", read=read), b"".join(b"m" * length for length in range(10, 0, -1)))
        self.assertEqual(len(kept()), 1)

    def test_streams_by_turns(self):
        streams = [rdlpp.stream(b"`V" * 3, room=1, defines={"V": str(number)}) for number in range(9)]
        got = [b""] * 9
        for _ in range(4):
            for number, pieces in enumerate(streams):
                got[number] += next(pieces, b"")
                self.assertEqual(self.call(), WHOLE)
        self.assertEqual(got, [str(number).encode() * 3 for number in range(9)])
        self.assertEqual(len(kept()), 1)

    def test_a_signal_s_handler_that_makes_calls(self):
        wrong, count = [], [0]

        def handler(*_signal):
            count[0] += 1
            outputs = self.call(), rdlpp.preprocess(b"b`V", defines={"V": "2"})
            if outputs != (WHOLE, b"b2"):
                wrong.append(outputs)

        self.addCleanup(signal.signal, signal.SIGALRM, signal.signal(signal.SIGALRM, handler))
        self.addCleanup(signal.setitimer, signal.ITIMER_REAL, 0)
        for number in range(3_000):
            signal.setitimer(signal.ITIMER_REAL, 1e-6 * (number % 100 + 1))
            output = rdlpp.preprocess(b"`V", defines={"V": str(number)})
            if output != str(number).encode():
                wrong.append(output)
        signal.setitimer(signal.ITIMER_REAL, 0)
        self.assertEqual(wrong, [])
        self.assertGreater(count[0], 10)
        self.assertLessEqual(len(kept()), 1)

    def test_a_call_that_an_error_of_a_handler_ends_anywhere(self):
        armed = []

        def leave(*_signal):
            if armed:
                raise TimeoutError

        self.addCleanup(signal.signal, signal.SIGALRM, signal.signal(signal.SIGALRM, leave))
        self.addCleanup(signal.setitimer, signal.ITIMER_REAL, 0)
        # one that comes out of a finalizer is told, and lost
        self.addCleanup(setattr, sys, "unraisablehook", sys.unraisablehook)
        sys.unraisablehook = lambda _told: None
        for number in range(1_000):
            try:
                try:
                    armed.append(True)
                    signal.setitimer(signal.ITIMER_REAL, 1e-6 * (number % 100 + 1))
                    self.call()
                finally:
                    armed.clear()
            except TimeoutError:
                pass
            self.assertEqual(self.call(), WHOLE)


class Streams(Kept):
    def test_it_is_kept_at_the_end_and_where_it_is_closed(self):
        for use in (list, lambda pieces: next(pieces), lambda pieces: None):
            rdlpp.release()
            pieces = rdlpp.stream(b"abc", room=1)
            self.assertEqual(kept(), [])
            use(pieces)
            pieces.close()
            pieces.close()
            self.assertEqual((len(kept()), self.call()), (1, WHOLE))
            with self.assertRaisesRegex(ValueError, "the stream is closed"):
                next(pieces)

    def test_a_stream_that_ended_stays_as_it_is(self):
        pieces = rdlpp.stream("m", ["inc"], {"W": "8"}, files=FILES, positions=True)
        self.assertEqual(b"".join(pieces), WHOLE)
        self.call()
        self.assertEqual((list(pieces), pieces.position, pieces.sources), ([], None, ("m", "inc/i")))
        faulty = rdlpp.stream(b"a`Q")
        self.assertEqual(next(faulty), b"a")
        for _ in range(2):
            with self.assertRaises(rdlpp.Fault):
                next(faulty)
            self.assertEqual(self.call(), WHOLE)

    def test_one_that_is_dropped_open_is_given_back(self):
        for drop in (lambda pieces: None, next):
            with warnings.catch_warnings(record=True) as caught:
                warnings.simplefilter("always")
                drop(rdlpp.stream(b"abc", room=1))
                gc.collect()
            self.assertEqual(([warning.category for warning in caught], kept()), ([ResourceWarning], []))
            self.assertEqual(self.call(), WHOLE)
            rdlpp.release()

    def test_another_thread_that_ends_it(self):
        for end in (list, lambda pieces: pieces.close()):
            self.call()
            before = kept()
            pieces = rdlpp.stream(b"abc", room=1)
            self.assertEqual((next(pieces), kept()), (b"a", []))
            self.assertEqual(in_thread(lambda: (end(pieces), kept())[1]), [])
            self.assertEqual(kept(), [])
            self.assertEqual((self.call(), len(before)), (WHOLE, 1))

    def test_a_thread_that_ends_before_its_stream(self):
        pieces = in_thread(lambda: rdlpp.stream(b"abc", room=1))
        self.assertEqual(list(pieces), [b"a", b"b", b"c"])
        pieces.close()
        self.assertEqual(kept(), [])


class Threads(Kept):
    def test_threads_by_turns(self):
        """Each has a handle of its own, and its own results."""
        turn, wrong, handles = threading.Barrier(2), [], {}

        def work(name):
            for number in range(200):
                turn.wait()
                text = f"{name}{number}"
                output = rdlpp.preprocess(b"`define A(x) x`V\n`A(`V)", defines={"V": text})
                if output != b"\n" + 2 * text.encode():
                    wrong.append(output)
                handles.setdefault(name, set()).update(kept())

        threads = [threading.Thread(target=work, args=(name,)) for name in "ab"]
        for thread in threads:
            thread.start()
        for thread in threads:
            thread.join()
        self.assertEqual((wrong, len(handles["a"]), len(handles["b"])), ([], 1, 1))
        self.assertFalse(handles["a"] & handles["b"])
        self.assertEqual(kept(), [])

    def test_what_a_thread_keeps_goes_with_it(self):
        def work():
            self.call()
            return weakref.ref(kept()[0])

        self.call()
        before = kept()
        self.assertIsNone(in_thread(work)())
        self.assertEqual(kept(), before)

    def test_another_thread_gives_its_own_back(self):
        self.call()
        before = kept()
        in_thread(rdlpp.release)
        self.assertEqual(kept(), before)


@unittest.skipUnless(hasattr(os, "fork"), "no forks here")
class Forks(Kept):
    def test_a_child_begins_with_none(self):
        self.call()
        before = kept()
        answer = in_child(lambda: (kept(), self.call(), len(kept()), kept() == before))
        self.assertEqual(answer, repr(([], WHOLE, 1, False)))
        self.assertEqual((kept(), self.call()), (before, WHOLE))

    def test_a_child_of_another_thread(self):
        self.call()

        def forked():
            self.call()
            return in_child(lambda: (kept(), self.call(), len(kept())))

        self.assertEqual(in_thread(forked), repr(([], WHOLE, 1)))

    def test_a_stream_of_the_parent(self):
        with rdlpp.stream(b"abc", room=1) as pieces:
            self.assertEqual(next(pieces), b"a")
            self.assertEqual(in_child(lambda: (list(pieces), kept(), self.call())), repr(([b"b", b"c"], [], WHOLE)))
            self.assertEqual(list(pieces), [b"b", b"c"])

    def test_a_call_that_forks(self):
        answers = []

        def read(path):
            answers.append(in_child(lambda: (kept(), self.call(), len(kept()))))
            return b"a\n"

        for _ in range(2):
            self.assertEqual(rdlpp.preprocess("m", read=read), b"a\n")
        self.assertEqual(answers, [repr(([], WHOLE, 1))] * 2)

    def test_a_call_that_ends_in_the_child(self):
        """What the parent opened isn't kept by the child."""
        out, into = os.pipe()
        child = []

        def read(path):
            with warnings.catch_warnings():
                warnings.simplefilter("ignore", DeprecationWarning)
                child.append(os.fork())
            return b"a\n"

        output = rdlpp.preprocess("m", read=read)
        if child[0] == 0:
            os.write(into, repr((output, kept(), self.call())).encode())
            os._exit(0)
        os.close(into)
        with open(out, "rb") as answer:
            self.assertEqual(answer.read().decode(), repr((b"a\n", [], WHOLE)))
        os.waitpid(child[0], 0)
        self.assertEqual((output, len(kept())), (b"a\n", 1))


class Ends(Kept):
    def ended(self, code):
        """What a fresh interpreter writes that runs some code."""
        done = subprocess.run([sys.executable, "-c", "import rdlpp\n" + code], capture_output=True, text=True)
        return done.returncode, done.stdout, done.stderr

    def test_an_interpreter_s_end(self):
        for code in (
            "rdlpp.preprocess(b'a')",
            "import threading; threading.Thread(target=lambda: rdlpp.preprocess(b'a')).start()",
            "import atexit; atexit.register(lambda: rdlpp.preprocess(b'a')); rdlpp.preprocess(b'a')",
            "class Late:\n  def __del__(self, call=rdlpp.preprocess): call(b'a')\nlate = Late(); rdlpp.preprocess(b'a')",
            "rdlpp.release(); rdlpp.preprocess(b'a'); rdlpp.release()",
        ):
            with self.subTest(code):
                self.assertEqual(self.ended(code), (0, "", ""))

    def test_another_interpreter_in_the_process(self):
        code = (
            "import sys, _xxsubinterpreters as interpreters\n"
            "print(rdlpp.preprocess(b'`W', defines={'W': '1'}))\n"
            "for number in range(3):\n"
            "  other = interpreters.create(isolated=False)\n"
            "  text = f'import sys; sys.path[:] = {sys.path!r}; import rdlpp; rdlpp.preprocess(b\"a\")'\n"
            "  interpreters.run_string(other, text + '; print(rdlpp.preprocess(b\"`W\", defines={\"W\": \"2\"}), flush=True)')\n"
            "  interpreters.destroy(other)\n"
            "  print(rdlpp.preprocess(b'`W', defines={'W': '3'}), flush=True)\n"
        )
        if sys.version_info[:2] not in ((3, 9), (3, 10), (3, 11)):
            self.skipTest("no such interpreters by this name here")
        self.assertEqual(self.ended(code), (0, "b'1'\n" + "b'2'\nb'3'\n" * 3, ""))


if __name__ == "__main__":
    unittest.main()
