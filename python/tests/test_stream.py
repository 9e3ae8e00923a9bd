"""Outputs that are read piece by piece: what the pieces are, how they end, and who may read them."""

import asyncio
import contextvars
import copy
import gc
import pickle
import signal
import threading
import time
import unittest
import warnings

import rdlpp

SOURCE = b'`define A(x) <x>\n`A(long body)`include "i"\n`W\n'
FILES = {"m": SOURCE, "inc/i": b"q"}
WHOLE = b"\n<long body>q\n\n8\n"
# Macros that double nothing so often that no run of them ends in a lifetime.
NOTHING = b"`define E0\n" + b"".join(b"`define E%d `E%d`E%d\n" % (n + 1, n, n) for n in range(60)) + b"`E60\n"
# Lines that each give some bytes after 32,768 steps that give none.
RARE = NOTHING[: NOTHING.index(b"`define E15")] + b"`define L `E14 x\n" + b"`L\n" * 1_000_000


class Pieces(unittest.TestCase):
    def test_every_room(self):
        for room in range(1, 40):
            pieces = list(rdlpp.stream("m", ["inc"], {"W": "8"}, files=FILES, room=room))
            self.assertEqual(b"".join(pieces), WHOLE)
            self.assertTrue(all(len(piece) == room for piece in pieces[:-1]))
            self.assertTrue(all(pieces))

    def test_an_empty_output(self):
        self.assertEqual(list(rdlpp.stream(b"")), [])

    def test_an_output_that_is_longer_than_its_pieces(self):
        source = b"`W\n" * 1000
        given = rdlpp.stream(source, defines={"W": "x" * 1000})
        self.assertEqual(b"".join(given), (b"x" * 1000 + b"\n") * 1000)

    def test_origins(self):
        self.assertEqual(b"".join(rdlpp.stream(b"a\n", origins=True, room=3)), b"// origin: -:1\na\n")

    def test_sources(self):
        with rdlpp.stream("m", ["inc"], {"W": "8"}, files=FILES, room=1) as pieces:
            self.assertEqual(pieces.sources, ())
            next(pieces)
            self.assertEqual(pieces.sources, ("m",))
            list(pieces)
        self.assertEqual(pieces.sources, ("m", "inc/i"))


class Positions(unittest.TestCase):
    def test_each_piece_has_a_place(self):
        files = {"m": b'a\n`W`W\n`line 7 "v" 0\nb `Two\nc\n`include "i"\nd', "i": b"q\nr\n"}
        for room in (1, 2, 3, 100):
            pieces = rdlpp.stream("m", [], {"W": "8", "Two": "1\n2"}, files=files, room=room, positions=True)
            told = {}
            self.assertIsNone(pieces.position)
            for piece in pieces:
                at = pieces.position
                for number, byte in enumerate(piece.split(b"\n")):
                    told.setdefault(byte[:1], (at.name, at.line + number * at.step))
            self.assertIsNone(pieces.position)
            wanted = {b"a": ("m", 1), b"8": ("m", 2), b"b": ("v", 7), b"1": ("v", 7), b"2": ("v", 7), b"c": ("v", 8)}
            wanted.update({b"q": ("i", 1), b"r": ("i", 2), b"d": ("v", 10)})
            self.assertEqual({byte: told.get(byte) for byte in wanted}, wanted, room)

    def test_the_pieces_are_those_of_the_output(self):
        source = b"a `W b\n`W\n" * 1000
        pieces = list(rdlpp.stream(source, defines={"W": "8"}, positions=True))
        self.assertEqual(b"".join(pieces), b"a 8 b\n8\n" * 1000)

    def test_they_have_to_be_asked_for(self):
        with rdlpp.stream(b"a") as pieces, self.assertRaisesRegex(ValueError, "positions=True"):
            pieces.position


class Faults(unittest.TestCase):
    def test_a_fault_after_its_pieces(self):
        for room in (1, 2, 3, 64):
            given, caught = [], None
            pieces = rdlpp.stream(b'a\n`line 10 "v.rdl" 0\n`Unknown', room=room)
            try:
                for piece in pieces:
                    given.append(piece)
            except rdlpp.Fault as fault:
                caught = fault
            self.assertEqual(b"".join(given), b"a\n\n")
            self.assertEqual(str(caught), "v.rdl:10: error F7: undefined macro 'Unknown'")
            self.assertEqual((caught.output, caught.partial), (b"", None))
            with self.assertRaises(rdlpp.Fault):
                next(pieces)

    def test_no_main_text(self):
        with self.assertRaises(rdlpp.Fault) as caught:
            next(rdlpp.stream("n", files={"m": b"a"}))
        self.assertEqual((caught.exception.number, caught.exception.name), (28, "n"))

    def test_what_is_refused_at_once(self):
        with self.assertRaises(rdlpp.Fault) as caught:
            rdlpp.stream(b"a", defines={"W": "8", "1x": "2"})
        self.assertEqual(str(caught.exception), "-D:2: error F15: name expected")
        with self.assertRaises(rdlpp.LimitError):
            rdlpp.stream(b"a", limits=rdlpp.Limits()._replace(depth=0))


class Closing(unittest.TestCase):
    def test_a_closed_stream_has_no_piece(self):
        given = rdlpp.stream(b"abc", room=1)
        self.assertEqual(next(given), b"a")
        given.close()
        given.close()
        for _ in range(2):
            with self.assertRaisesRegex(ValueError, "the stream is closed"):
                next(given)

    def test_a_block(self):
        with rdlpp.stream(b"abc", room=1) as given:
            self.assertEqual(next(given), b"a")
        with self.assertRaisesRegex(ValueError, "the stream is closed"):
            next(given)

    def test_a_stream_that_ended(self):
        given = rdlpp.stream(b"abc")
        self.assertEqual([list(given), list(given)], [[b"abc"], []])
        given.close()
        with self.assertRaises(ValueError):
            next(given)

    def test_a_stream_is_not_copied(self):
        with rdlpp.stream(b"abc", room=1) as given:
            for copied in (copy.copy, copy.deepcopy, pickle.dumps):
                with self.assertRaisesRegex(TypeError, "a stream can't be copied or pickled"):
                    copied(given)
            self.assertEqual(b"".join(given), b"abc")

    def warnings_of(self, drop):
        with warnings.catch_warnings(record=True) as caught:
            warnings.simplefilter("always")
            drop()
            gc.collect()
        return [warning.category for warning in caught]

    def test_a_stream_that_is_dropped(self):
        self.assertEqual(self.warnings_of(lambda: rdlpp.stream(b"abc")), [ResourceWarning])
        self.assertEqual(self.warnings_of(lambda: next(rdlpp.stream(b"abc", room=1))), [ResourceWarning])
        self.assertEqual(self.warnings_of(lambda: list(rdlpp.stream(b"abc"))), [])
        self.assertEqual(self.warnings_of(lambda: rdlpp.stream(b"abc").close()), [])

    def test_a_callable_that_raises_closes_the_stream(self):
        def read(path):
            if path == "m":
                return b'a\n`include "i"\n'
            raise KeyError(path)

        given = rdlpp.stream("m", read=read, room=1)
        self.assertEqual([next(given), next(given)], [b"a", b"\n"])
        with self.assertRaises(KeyError):
            next(given)
        with self.assertRaisesRegex(ValueError, "the stream is closed"):
            next(given)

    def test_a_callable_that_reads_its_own_stream(self):
        caught = []

        def read(path):
            try:
                next(given)
            except ValueError as error:
                caught.append(str(error))
            return b"a"

        given = rdlpp.stream("m", read=read)
        self.assertEqual(list(given), [b"a"])
        self.assertEqual(caught, ["the stream is being read"])

    def test_a_callable_that_closes_its_own_stream(self):
        given = rdlpp.stream("m", read=lambda path: given.close())
        with self.assertRaisesRegex(ValueError, "the stream was closed"):
            next(given)


class Threads(unittest.TestCase):
    def test_another_thread(self):
        given, got = rdlpp.stream(b"abc", room=1), []
        thread = threading.Thread(target=lambda: got.append(next(given)))
        thread.start()
        thread.join()
        self.assertEqual(got + list(given), [b"a", b"b", b"c"])
        thread = threading.Thread(target=given.close)
        thread.start()
        thread.join()
        with self.assertRaises(ValueError):
            next(given)

    def test_many_threads_share_a_stream(self):
        source = b"".join(b"`define N%d %d\n`N%d\n" % (n, n, n) for n in range(3_000))
        given, got = rdlpp.stream(source, room=7), []
        threads = [threading.Thread(target=lambda: got.extend(given)) for _ in range(4)]
        for thread in threads:
            thread.start()
        for thread in threads:
            thread.join()
        whole = rdlpp.preprocess(source)
        self.assertEqual(sorted(got), sorted(whole[at : at + 7] for at in range(0, len(whole), 7)))

    def test_a_read_that_is_closed_meanwhile(self):
        given, caught = rdlpp.stream(NOTHING), []

        def read():
            try:
                list(given)
            except ValueError as error:
                caught.append(str(error))

        thread = threading.Thread(target=read)
        thread.start()
        time.sleep(0.1)
        given.close()
        thread.join(10)
        self.assertEqual(caught, ["the stream was closed"])

    def test_a_thread_of_asyncio(self):
        async def pieces():
            with rdlpp.stream(b"abc", room=1) as given:
                return [await asyncio.to_thread(next, given, b"") for _ in range(4)]

        if hasattr(asyncio, "to_thread"):
            self.assertEqual(asyncio.run(pieces()), [b"a", b"b", b"c", b""])

    def test_a_thread_whose_task_is_cancelled(self):
        async def read():
            with rdlpp.stream(NOTHING) as given:
                while await asyncio.get_running_loop().run_in_executor(None, next, given, b""):
                    pass

        began = time.monotonic()
        with self.assertRaises(asyncio.TimeoutError):
            asyncio.run(asyncio.wait_for(read(), 0.2))
        self.assertLess(time.monotonic() - began, 10)


class Tasks(unittest.TestCase):
    """Streams that a task reads by `async for`."""

    def read(self, given, seconds=10):
        """The pieces that a task reads, and what then ended them."""

        async def read():
            got = []
            try:
                async for piece in given:
                    got.append(piece)
            except Exception as error:
                return got, error
            return got, None

        return asyncio.run(asyncio.wait_for(read(), seconds))

    def test_every_room(self):
        for room in range(1, 40):
            words = ("m", ["inc"], {"W": "8"})
            wanted = list(rdlpp.stream(*words, files=FILES, room=room))
            self.assertEqual(self.read(rdlpp.stream(*words, files=FILES, room=room)), (wanted, None))

    def test_an_empty_output(self):
        given = rdlpp.stream(b"")
        self.assertEqual([self.read(given), self.read(given)], [([], None)] * 2)

    def test_both_ways(self):
        async def read():
            with rdlpp.stream(b"abcd", room=1, positions=True) as given:
                return [next(given), await given.__anext__(), given.position.line, [piece async for piece in given]]

        self.assertEqual(asyncio.run(read()), [b"a", b"b", 1, [b"c", b"d"]])

    def test_a_fault_after_its_pieces(self):
        given = rdlpp.stream(b"a\n`Q", room=1)
        got, fault = self.read(given)
        self.assertEqual((got, str(fault)), ([b"a", b"\n"], "-:2: error F7: undefined macro 'Q'"))
        self.assertIsInstance(fault, rdlpp.Fault)
        self.assertEqual(self.read(given), ([], fault))

    def test_what_a_callable_raises(self):
        for error, wanted in ((KeyError("i"), KeyError), (StopIteration(), RuntimeError), (StopAsyncIteration(), RuntimeError)):
            def read(path):
                if path == "i":
                    raise error
                return b'a\n`include "i"\n'

            given = rdlpp.stream("m", read=read, room=1)
            got, caught = self.read(given)
            self.assertEqual((got, type(caught)), ([b"a", b"\n"], wanted))
            self.assertEqual(str(self.read(given)[1]), "the stream is closed")

    def test_a_callable_sees_the_task_s_variables(self):
        variable = contextvars.ContextVar("variable", default=b"other\n")

        async def read():
            variable.set(b"own\n")
            return [piece async for piece in rdlpp.stream("m", read=lambda path: variable.get())]

        self.assertEqual(asyncio.run(read()), [b"own\n"])

    def test_a_closed_stream(self):
        given = rdlpp.stream(b"a")
        given.close()
        self.assertEqual(str(self.read(given)[1]), "the stream is closed")

    def test_a_task_that_is_cancelled(self):
        given = rdlpp.stream(NOTHING)
        began = time.monotonic()
        with self.assertRaises(asyncio.TimeoutError):
            self.read(given, 0.2)
        with self.assertRaisesRegex(ValueError, "the stream is closed"):
            next(given)
        self.assertLess(time.monotonic() - began, 10)

    def test_other_tasks_go_on(self):
        async def read():
            ticks, reading = 0, asyncio.ensure_future(rdlpp.stream(NOTHING).__anext__())
            while ticks < 20:
                await asyncio.sleep(0.005)
                ticks += 1
            self.assertFalse(reading.done())
            reading.cancel()

        began = time.monotonic()
        asyncio.run(read())
        self.assertLess(time.monotonic() - began, 10)


class Signals(unittest.TestCase):
    def check(self, call):
        """That an alarm ends a call soon."""

        def leave(*_signal):
            raise TimeoutError

        before = signal.signal(signal.SIGALRM, leave)
        self.addCleanup(signal.signal, signal.SIGALRM, before)
        signal.setitimer(signal.ITIMER_REAL, 0.2)
        began = time.monotonic()
        with self.assertRaises(TimeoutError):
            call()
        self.assertLess(time.monotonic() - began, 1)

    def test_an_alarm_ends_each_call(self):
        for call in (rdlpp.preprocess, rdlpp.run, lambda text: list(rdlpp.stream(text))):
            self.check(lambda: call(NOTHING))

    def test_an_alarm_ends_a_call_whose_bytes_come_rarely(self):
        for call in (rdlpp.preprocess, rdlpp.run, lambda text: list(rdlpp.stream(text))):
            self.check(lambda: call(RARE))

    def test_an_alarm_closes_a_stream(self):
        given = rdlpp.stream(NOTHING, room=10)
        self.check(lambda: list(given))
        with self.assertRaisesRegex(ValueError, "the stream is closed"):
            next(given)


if __name__ == "__main__":
    unittest.main()
