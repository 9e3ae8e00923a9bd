"""Where the sources come from: what a run asks for, and in which order; files that are none; limits on what is read."""

import errno
import os
import pathlib
import signal
import sys
import tempfile
import threading
import unittest
from unittest import mock

import rdlpp
from rdlpp import FaultKind, _asked


def resident():
    """How many bytes of this process are in memory."""
    with open("/proc/self/statm") as numbers:
        return int(numbers.read().split()[1]) * os.sysconf("SC_PAGE_SIZE")


class Asked:
    """A `read` over a mapping, which notes what was asked for."""

    def __init__(self, files):
        self.files, self.paths = files, []

    def __call__(self, path):
        self.paths.append(path)
        return self.files.get(path)


class Sources(unittest.TestCase):
    def fault(self, *given, **named):
        with self.assertRaises(rdlpp.Fault) as caught:
            rdlpp.run(*given, **named)
        return caught.exception


class Callables(Sources):
    def test_what_is_asked_for(self):
        main = b'`include "i"\n`include "/r"\n`include "j"\n`include "i"\n'
        read = Asked({"a/m": main, "a/i": b"i", "/r": b"r", "more/j": b"j"})
        output = rdlpp.run("a/m", include_dirs=["inc", "more/", ""], read=read)
        self.assertEqual(read.paths, ["a/m", "a/i", "/r", "a/j", "inc/j", "more/j", "a/i"])
        self.assertEqual(output.sources, ("a/m", "a/i", "/r", "more/j"))

    def test_what_is_skipped_is_not_asked_for(self):
        text = b'// `include "a"\n/* `include "b" */ "`include "\n`ifdef X\n`include "c"\n`endif\n`define D `include "d"\n'
        read = Asked({"m": text})
        rdlpp.preprocess("m", read=read)
        self.assertEqual(read.paths, ["m"])

    def test_a_text_that_is_given(self):
        read = Asked({"i": b"q\n"})
        output = rdlpp.run(b'`include "i"\n', read=read)
        self.assertEqual((output.text, output.sources, read.paths), (b"q\n\n", ("i",), ["i"]))

    def test_a_callable_that_raises(self):
        for error in (KeyError("x"), OSError("y"), KeyboardInterrupt()):
            def read(path):
                if path == "i":
                    raise error
                return b'a\n`include "i"\n'

            for call in (rdlpp.preprocess, rdlpp.run):
                with self.assertRaises(type(error)) as caught:
                    call("m", read=read)
                self.assertIs(caught.exception, error)

    def test_a_callable_that_raises_what_ends_a_loop(self):
        for error in (StopIteration("x"), StopAsyncIteration()):
            def read(path):
                if path == "i":
                    raise error
                return b'a\n`include "i"\nb\n'

            for call in (rdlpp.preprocess, rdlpp.run, lambda path, read: list(rdlpp.stream(path, read=read))):
                with self.assertRaises(RuntimeError) as caught:
                    call("m", read=read)
                self.assertEqual(str(caught.exception), f"read('i') raised {type(error).__name__}")
                self.assertIs(caught.exception.__cause__, error)

    def test_texts_of_other_types(self):
        for text in (bytearray(b"ab"), memoryview(b"abc")[:2], memoryview(b"axbx")[::2]):
            self.assertEqual(rdlpp.preprocess("m", read=lambda path: text), b"ab")

    def test_a_long_text_is_not_copied(self):
        text = b"reg a @ 0x0;\n" * 1_000_000 + b'`include "i"\n'
        for source, read in ((text, lambda path: b"q\n"), ("m", {"m": text, "i": b"q\n"}.get)):
            before = resident()
            with rdlpp.stream(source, read=read) as pieces:
                length = sum(len(piece) for piece in pieces)
                held = resident() - before
            self.assertEqual(length, 13_000_003)
            self.assertLess(held, len(text) // 2)

    def test_a_long_text_goes_with_the_call(self):
        text = b"reg a @ 0x0;\n" * 1_000_000
        before = sys.getrefcount(text)
        for call in (rdlpp.preprocess, rdlpp.run, lambda text: b"".join(rdlpp.stream(text))):
            call(text)
            self.assertEqual(sys.getrefcount(text), before)
        begun = rdlpp.stream(text)
        next(begun)
        self.assertGreater(sys.getrefcount(text), before)
        begun.close()
        self.assertEqual(sys.getrefcount(text), before)

    def test_a_long_text_that_may_change_is_copied(self):
        for kind in (bytearray, lambda text: memoryview(bytearray(text))):
            text = kind(b"reg a @ 0x0;\n" * 200_000)
            with rdlpp.stream("m", read=lambda path: text) as pieces:
                first = next(pieces)
                text[:] = b"`" * len(text)
                self.assertEqual(first + b"".join(pieces), b"reg a @ 0x0;\n" * 200_000)

    def test_a_text_goes_when_it_was_read(self):
        held = []

        def read(path):
            with open("/proc/self/statm") as sizes:
                held.append(int(sizes.read().split()[1]) * os.sysconf("SC_PAGE_SIZE"))
            if path == "m":
                return b"".join(b'`include "i%d"\n' % number for number in range(100)) + b'`include "i0"\n'
            return path.encode() + b"\n" + b"reg a @ 0x0;\n" * 40_000

        with rdlpp.stream("m", read=read) as pieces:
            self.assertEqual(sum(len(piece) for piece in pieces), 101 * 520_002 + 11 * 2 + 90 * 3)
            self.assertEqual(len(pieces.sources), 101)
        self.assertEqual(len(held), 102)
        self.assertLess(max(held) - held[3], 5_000_000)

    def test_a_text_that_is_included_again(self):
        files = {"m": b'`include "i"\n`include "i"\n`include "j"\n`include "i"\n`include "m"\n', "i": b"i\n", "j": b"j\n"}
        read = Asked({**files, "m": b"`ifndef G\n`define G\n" + files["m"] + b"`endif\n"})
        output = rdlpp.run("m", read=read)
        self.assertEqual(output.text.replace(b"\n", b""), b"iiji")
        # of the text that came last, and of the main one, nothing is asked again
        self.assertEqual((read.paths, output.sources), (["m", "i", "j", "i"], ("m", "i", "j")))

    def test_a_text_that_is_included_while_it_is_open(self):
        guarded = b'`ifndef G\n`define G\n`include "j"\n`endif\ni\n'
        read = Asked({"m": b'`include "i"\n', "i": guarded, "j": b'`include "i"\n'})
        self.assertEqual(rdlpp.preprocess("m", read=read).replace(b"\n", b""), b"ii")
        self.assertEqual(read.paths, ["m", "i", "j", "i"])

    def test_another_text_at_a_later_include(self):
        main = b'`include "i"\n`include "j"\nx\n`include "i"\ny\n'
        for first, other in ((b"1\n", b"2\n"), (b"", b"\n"), (b"x" * 99 + b"\n", b"x" * 98 + b"\n")):
            for call in (rdlpp.preprocess, rdlpp.run, lambda path, read: b"".join(rdlpp.stream(path, read=read))):
                texts = [other, first]
                with self.assertRaises(rdlpp.Fault) as caught:
                    call("m", read=lambda path: main if path == "m" else texts.pop() if path == "i" else b"")
                self.assertEqual(str(caught.exception), "m:4: error F32: read failed")
                self.assertEqual(caught.exception.notes[0], "i: its text has changed since it was read first")
                self.assertEqual(texts, [])

    def test_a_text_that_is_gone_at_a_later_include(self):
        texts = [None, b"1\n"]
        main = b'`include "i"\n`include "j"\n`include "i"\n'
        fault = self.fault("m", read=lambda path: main if path == "m" else texts.pop() if path == "i" else b"")
        self.assertEqual(str(fault), "m:3: error F28: source not found")

    def test_no_source(self):
        fault = self.fault("m", read=lambda path: None)
        self.assertEqual(str(fault), "m:0: error F28: source not found")


class Mappings(Sources):
    def test_a_mapping(self):
        self.assertEqual(rdlpp.preprocess("m", files={"m": b"a"}), b"a")
        self.assertEqual(str(self.fault("n", files={"m": b"a"})), "n:0: error F28: source not found")

    def test_a_path_object(self):
        self.assertEqual(rdlpp.preprocess(pathlib.Path("d/m"), files={"d/m": b"a"}), b"a")

    def test_path_objects_as_keys(self):
        class Given:
            def __fspath__(self):
                return "./inc/j"

        files = {pathlib.Path("a/m"): b'`include "i"\n', pathlib.PurePath("inc/i"): b'`include "j"\n', Given(): b"q\n"}
        output = rdlpp.run("a/m", include_dirs=["inc", "./inc"], files={**files, "inc/k": b""})
        self.assertEqual((output.text, output.sources), (b"q\n\n\n", ("a/m", "inc/i", "./inc/j")))

    def test_texts_that_are_given_go_by_their_paths(self):
        files = {"m": b'`include "i"\n`include "./i"\n`include "i"\n', "i": b"", "./i": b""}
        self.assertEqual(rdlpp.run("m", files=files).sources, ("m", "i", "./i"))
        self.assertEqual(rdlpp.run("m", read=files.get).sources, ("m", "i", "./i"))

    def test_a_text_goes_before_a_path_object(self):
        files = {"m": b"text", pathlib.Path("m"): b"object", pathlib.Path("n"): b"object"}
        self.assertEqual([rdlpp.preprocess(path, files=files) for path in ("m", "n")], [b"text", b"object"])
        files[pathlib.Path("n")] = None
        self.assertEqual(str(self.fault("n", files=files)), "n:0: error F28: source not found")

    def test_a_mapping_that_raises_what_ends_a_loop(self):
        class Files(dict):
            def get(self, path):
                raise StopIteration

        with rdlpp.stream("m", files=Files()) as pieces, self.assertRaisesRegex(RuntimeError, r"files\['m'\] raised Stop"):
            list(pieces)

    def test_an_entry_is_asked_for_once(self):
        asked = []

        class Files(dict):
            def get(self, path):
                asked.append(path)
                return super().get(path)

        files = Files({"m": b'`include "i"\n`include "j"\n`include "i"\n', "i": b"i", "j": b"j"})
        self.assertEqual((rdlpp.preprocess("m", files=files), asked), (b"i\n\nj\n\ni\n\n", ["m", "i", "j"]))

    def test_included_entries(self):
        files = {"a/m": b'`include "i"\n', "a/i": b'`include "j"\n', "inc/j": b"q\n"}
        self.assertEqual(rdlpp.preprocess("a/m", ["inc"], files=files), b"q\n\n\n")

    def test_a_mapping_that_changes(self):
        files = {"m": b'`include "i"\n`include "i"\n' + b"x\n" * 100_000 + b'`include "i"\n`include "j"\n', "i": b"1\n"}
        got = []
        with rdlpp.stream("m", files=files, room=2) as pieces:
            for piece in pieces:
                files["i"], files["j"] = b"2\n", b"3\n"
                got.append(piece)
        self.assertEqual(b"".join(got), b"1\n\n1\n\n" + b"x\n" * 100_000 + b"1\n\n3\n\n")

    def test_many_includes(self):
        files = {f"i{number}": b"%d\n" % number for number in range(10_000)}
        files["m"] = b"".join(b'`include "i%d"\n' % number for number in range(10_000))
        output = rdlpp.run("m", files=files)
        self.assertEqual(output.text, b"".join(b"%d\n\n" % number for number in range(10_000)))
        self.assertEqual(len(output.sources), 10_001)

    def test_headers_that_include_each_other(self):
        files = {"m": b'`include "a/a"\n'}
        for name, others in (("a", "bc"), ("b", "ca"), ("c", "ab")):
            text = f"`ifndef {name}\n`define {name}\n" + "".join(f'`include "../{o}/{o}"\n' for o in others) + "`endif\n"
            for front in ("", "a/../", "a/../b/../", "a/../b/../c/../", "a/../c/../", "a/../c/../b/../"):
                files[f"{front}{name}/{name}"] = text.encode()
        read = Asked(files)
        output = rdlpp.run("m", read=read)
        self.assertEqual(output.text.strip(b"\n"), b"")
        self.assertLess(len(read.paths), 10)


class Files(Sources):
    def setUp(self):
        folder = tempfile.TemporaryDirectory()
        self.addCleanup(folder.cleanup)
        self.addCleanup(os.chdir, os.getcwd())
        os.chdir(folder.name)
        self.addCleanup(signal.signal, signal.SIGALRM, signal.signal(signal.SIGALRM, self.hangs))
        signal.alarm(60)
        self.addCleanup(signal.alarm, 0)

    def hangs(self, *_signal):
        raise AssertionError("no end after a minute")

    def write(self, path, text):
        pathlib.Path(path).parent.mkdir(parents=True, exist_ok=True)
        pathlib.Path(path).write_bytes(text)

    def test_a_file(self):
        self.write("m.rdl", b"a\n`Q")
        for path in ("m.rdl", "./m.rdl", pathlib.Path("m.rdl").resolve()):
            fault = self.fault(path)
            self.assertEqual((fault.name, fault.line, fault.output), (str(path), 2, b"a\n"))

    def test_included_files(self):
        self.write("a/m", b'`include "i"\nz\n')
        self.write("inc/i", b"q")
        output = rdlpp.run(pathlib.Path("a/m"), include_dirs=[pathlib.Path("inc")])
        self.assertEqual((output.text, output.sources), (b"q\n\nz\n", ("a/m", "inc/i")))

    def test_no_file(self):
        fault = self.fault("no")
        self.assertEqual((str(fault), fault.__cause__), ("no:0: error F28: source not found", None))

    def test_a_folder_in_the_place_of_a_source(self):
        self.write("m", b'x\n`include "d"\n')
        self.write("inc/d", b"q\n")
        os.mkdir("d")
        fault = self.fault("m", include_dirs=["inc"])
        self.assertEqual((str(fault), fault.output), ("d:1: error F32: read failed", b"x\n"))
        self.assertIsInstance(fault.__cause__, IsADirectoryError)
        self.assertEqual(fault.notes, ("d: Is a directory (os error 21)", "included from m:2"))
        self.assertEqual(fault.partial.sources, ("m", "d"))
        self.assertEqual(str(self.fault("d")), "d:1: error F32: read failed")

    def test_a_path_after_a_file(self):
        self.write("m", b'\n`include "m/i"\n')
        fault = self.fault("m")
        self.assertEqual(str(fault), "m:2: error F32: read failed")
        self.assertIsInstance(fault.__cause__, NotADirectoryError)
        self.assertEqual(fault.notes, ("m/i: Not a directory (os error 20)",))
        self.assertEqual(fault.partial.sources, ("m",))
        self.assertEqual(str(self.fault("m/i")), "m/i:0: error F32: read failed")

    def test_names_that_no_file_has(self):
        self.write("m", b'`include "a\0b"\n')
        self.assertEqual(str(self.fault("m")), "m:1: error F32: read failed")
        self.write("m", b'`include "' + b"a" * 300 + b'"\n')
        self.assertEqual(self.fault("m").kind, FaultKind.READ_FAILED)
        self.write("m", b'`include "' + b"a" * 1100 + b'"\n')
        self.assertEqual(self.fault("m").kind, FaultKind.PATH_TOO_LONG)
        self.write("m", b'`include "\xff"\n')
        self.assertEqual(self.fault("m").kind, FaultKind.INCLUDE_NAME_EXPECTED)
        self.write("a\nb", b"a")
        self.assertEqual(self.fault("a\nb").kind, FaultKind.SOURCE_NOT_FOUND)

    def test_names_of_other_alphabets(self):
        self.write("größe/m", '`include "maß"\n'.encode())
        self.write("größe/maß", b"q\n")
        self.assertEqual(rdlpp.run("größe/m").sources, ("größe/m", "größe/maß"))

    def test_devices(self):
        self.write("m", b'x`include "/dev/null"\ny\n')
        self.assertEqual(rdlpp.preprocess("m"), b"x\ny\n")
        self.write("m", b'x\n`include "/dev/zero"\n')
        for limits in (rdlpp.Limits(), rdlpp.Limits(source_bytes=100)):
            fault = self.fault("m", limits=limits)
            self.assertEqual((str(fault), fault.output), ("/dev/zero:1: error F4: line too long", b"x\n"))

    def test_a_pipe(self):
        self.write("m", b'`include "pipe"\n')
        os.mkfifo("pipe")
        writer = threading.Thread(target=lambda: pathlib.Path("pipe").write_bytes(b"q\n" * 100_000))
        writer.start()
        self.assertEqual(rdlpp.preprocess("m"), b"q\n" * 100_000 + b"\n")
        writer.join()

    def test_a_pipe_that_is_included_again(self):
        self.write("m", b'`include "pipe"\n`include "i"\n`include "pipe"\n')
        self.write("i", b"i\n")
        os.mkfifo("pipe")
        writer = threading.Thread(target=lambda: pathlib.Path("pipe").write_bytes(b"q\n"))
        writer.start()
        self.assertEqual(rdlpp.preprocess("m"), b"q\n\ni\n\nq\n\n")
        writer.join()

    def test_a_file_that_changes(self):
        main = b'`include "i"\n`include "j"\n' + b"x\n" * 100_000 + b'`include "i"\n'
        for first, other in ((b"1\n", b"2\n"), (b"1\n" * 1_000_000, b"1\n" * 999_999 + b"2\n")):
            self.write("m", main)
            self.write("i", first)
            self.write("j", b"j\n")
            with rdlpp.stream("m", limits=rdlpp.Limits(), room=65_536) as pieces:
                got = [next(pieces)]
                while b"j" not in got[-1]:
                    got.append(next(pieces))
                self.write("i", other)
                with self.assertRaises(rdlpp.Fault) as caught:
                    got.extend(pieces)
            self.assertEqual(b"".join(got), first + b"\nj\n\n" + b"x\n" * 100_000)
            self.assertEqual(str(caught.exception), "m:100003: error F32: read failed")
            self.assertEqual(caught.exception.notes, ("i: its text has changed since it was read first",))
            self.assertEqual(pieces.sources, ("m", "i", "j"))

    def test_a_pipe_that_is_not_asked_for(self):
        os.mkfifo("pipe")
        self.write("m", b'// `include "pipe"\n/* `include "pipe" */\n`ifdef X\n`include "pipe"\n`endif\n')
        self.assertEqual(rdlpp.run("m").sources, ("m",))

    def test_a_pipe_without_a_writer_can_be_left(self):
        os.mkfifo("pipe")

        def leave(*_signal):
            raise TimeoutError

        signal.signal(signal.SIGALRM, leave)
        signal.setitimer(signal.ITIMER_REAL, 0.2)
        with self.assertRaises(TimeoutError):
            rdlpp.preprocess("pipe")

    def test_a_file_is_one_source(self):
        headers = ["x0/y0", "x1/y1", "x2/y2"]
        for at, name in enumerate(headers):
            includes = b"".join(b'`include "../%s"\n' % other.encode() for other in headers if other != name)
            self.write(name, b"`ifndef Y%d\n`define Y%d\n%b`endif\n" % (at, at, includes))
        self.write("m", b'`include "x0/y0"\n')
        wanted = ("m", "x0/y0", "x0/../x1/y1", "x0/../x1/../x2/y2")
        self.assertEqual(rdlpp.run("m").sources, wanted)
        with rdlpp.stream("m") as pieces:
            self.assertEqual(b"".join(pieces).strip(), b"")
            self.assertEqual(pieces.sources, wanted)

    def test_links_and_devices(self):
        self.write("i", b"q\n")
        os.link("i", "hard")
        os.symlink("i", "soft")
        self.write("m", b'`include "hard"\n`include "i"\n`include "soft"\n`include "/dev/null"\n`include "/dev/../dev/null"\n')
        self.assertEqual(rdlpp.run("m").sources, ("m", "hard", "/dev/null", "/dev/../dev/null"))

    def test_a_large_file(self):
        text = b"reg a @ 0x0;\n" * (_asked.PART // 10)
        self.write("i", text)
        self.write("m", b'a\n`include "i"\nb\n`include "i"\n')
        self.assertEqual(rdlpp.preprocess("i"), text)
        self.assertEqual(b"".join(rdlpp.stream("i")), text)
        output = rdlpp.run("m")
        self.assertEqual((output.text, output.sources), (b"a\n" + text + b"\nb\n" + text + b"\n", ("m", "i")))

    def test_a_large_file_that_grows_meanwhile(self):
        text = b"reg a @ 0x0;\n" * _asked.PART
        self.write("m", text)
        told = mock.Mock(st_size=_asked.PART, st_mode=os.stat("m").st_mode)
        with mock.patch.object(_asked.os, "fstat", lambda file: told):
            self.assertEqual(rdlpp.preprocess("m"), text)

    def test_a_small_file_that_grows_meanwhile(self):
        text = b"reg a @ 0x0;\n" * 20_000
        self.write("m", text)
        for size in (0, 13, 100_000):
            told = mock.Mock(st_size=size, st_mode=os.stat("m").st_mode)
            with mock.patch.object(_asked.os, "fstat", lambda file: told):
                self.assertEqual(rdlpp.preprocess("m"), text)

    def test_a_large_file_that_shrinks_meanwhile(self):
        self.write("m", b"reg a @ 0x0;\n")
        told = mock.Mock(st_size=2 * _asked.PART, st_mode=os.stat("m").st_mode)
        with mock.patch.object(_asked.os, "fstat", lambda file: told):
            self.assertEqual(rdlpp.run("m").text, b"reg a @ 0x0;\n")
            self.write("m", b"")
            self.assertEqual(rdlpp.run("m").text, b"")

    def test_a_file_that_is_not_asked_which_one_it_is(self):
        for size in (0, 1, _asked.SMALL - 1, _asked.SMALL, _asked.SMALL + 1, 3 * _asked.SMALL):
            text = b"q\n" * (size // 2) + b"\n" * (size % 2)
            self.write("i", text)
            self.write("m", b'`include "i"\n`include "/dev/null"\n`include "i"\n`include "/dev/null"\n')
            self.assertEqual(rdlpp.preprocess("m"), text + b"\n\n" + text + b"\n\n")

    def test_a_read_that_comes_back_early(self):
        text, call = b"reg a @ 0x0;\n" * 100, os.pread
        self.write("m", text)
        with mock.patch.object(_asked.os, "pread", lambda file, most, at: call(file, min(most, 13), at)):
            self.assertEqual(rdlpp.preprocess("m"), text)

    def test_a_small_file_that_fails(self):
        self.write("m", b"x\n")
        for calls in (1, 2):
            call, left = os.pread, list(range(calls))

            def read(*given):
                left.pop()
                if not left:
                    raise OSError(errno.EIO, os.strerror(errno.EIO))
                return call(*given)

            with mock.patch.object(_asked.os, "pread", read), self.assertRaises(rdlpp.Fault) as caught:
                rdlpp.preprocess("m")
            self.assertEqual(str(caught.exception), "m:1: error F32: read failed")
            self.assertEqual(caught.exception.notes, ("m: Input/output error (os error 5)",))

    def test_what_is_no_file_is_told_alike(self):
        os.mkdir("folder")
        for path in ("folder", "missing", "m/i"):
            self.write("m", b'`include "%s"\n' % path.encode())
            with self.assertRaises(rdlpp.Fault) as caught:
                rdlpp.preprocess("m")
            fault = self.fault("m")
            self.assertEqual((str(caught.exception), caught.exception.notes), (str(fault), fault.notes))

    def test_a_file_that_fails_in_the_middle(self):
        def failing(name, at):
            """A read that fails at a call of it, with what it stands for."""
            calls, call = [], getattr(os, name)

            def read(*given):
                calls.append(given)
                if len(calls) == at:
                    raise OSError(errno.EIO, os.strerror(errno.EIO))
                return call(*given)

            return mock.patch.object(_asked.os, name, read)

        large = b"x\n" * _asked.PART
        for name, at, size, text in (("read", 1, 2, b"x\n"), ("read", 2, 1, b"x\n"), ("readv", 2, len(large), large)):
            self.write("m", text)
            told = mock.Mock(st_size=size, st_mode=os.stat("m").st_mode)
            with failing(name, at), mock.patch.object(_asked.os, "fstat", lambda file: told):
                fault = self.fault("m")
            self.assertEqual((str(fault), fault.output), ("m:1: error F32: read failed", b""))
            self.assertEqual((fault.notes, fault.__cause__.errno), (("m: Input/output error (os error 5)",), errno.EIO))

    def reads(self, *given, **named):
        """How many bytes a call reads of files, and its fault."""
        call, lengths = os.readv, []

        def noted(file, places):
            lengths.append(call(file, places))
            return lengths[-1]

        with mock.patch.object(_asked.os, "readv", noted):
            fault = self.fault(*given, **named)
        return sum(lengths), fault

    def test_the_limits_hold_of_what_is_read(self):
        self.write("m", b"text\n" * 1_000_000)
        count, fault = self.reads("m", limits=rdlpp.Limits(source_bytes=1004, line_bytes=256))
        self.assertEqual((str(fault), fault.output), ("m:201: error F5: source too long", b"text\n" * 200))
        self.assertLess(count, 2_000)
        self.write("m", b"text\n" + b"x" * 10_000_000)
        count, fault = self.reads("m", limits=rdlpp.Limits(source_bytes=1_000_000))
        self.assertEqual((str(fault), fault.output), ("m:2: error F4: line too long", b"text\n"))
        self.assertLess(count, 1_100_000)
        self.write("m", b"text\n" * 10_000_000)
        count, fault = self.reads("m", limits=rdlpp.Limits(source_bytes=20_000_000))
        self.assertEqual((str(fault), fault.output), ("m:4000001: error F5: source too long", b"text\n" * 4_000_000))
        self.assertLess(count, 20_100_000)

    def test_a_file_of_two_gigabytes(self):
        with open("m", "wb") as file:
            file.write(b"text\n")
            file.truncate(2**31)
        count, fault = self.reads("m")
        self.assertEqual((str(fault), fault.output), ("m:2: error F4: line too long", b"text\n"))
        self.assertLess(count, 2**23)

    def test_a_file_whose_size_is_not_told(self):
        self.assertEqual(rdlpp.preprocess("/proc/version"), pathlib.Path("/proc/version").read_bytes())


if __name__ == "__main__":
    unittest.main()
