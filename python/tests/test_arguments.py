"""Arguments that are none: each is told by its name, with what is wanted in its place."""

import os
import pathlib
import subprocess
import sys
import unittest

import rdlpp


class BytesPath:
    """A path whose text is bytes."""

    def __fspath__(self):
        return b"a"


class Arguments(unittest.TestCase):
    def check(self, error, told, *given, **named):
        """That each call refuses these arguments by an error that tells this."""
        given = given or (b"a",)
        for call in (rdlpp.preprocess, rdlpp.run, rdlpp.stream):
            with self.assertRaises(error) as caught:
                call(*given, **named)
            self.assertIn(told, str(caught.exception))

    def test_sources(self):
        for source in (1, None, ["m"], b"a".decode):
            self.check(TypeError, "source must be a path (str or os.PathLike) or a text (bytes), not ", source)
        self.check(TypeError, "source must be a path (str or os.PathLike of str), not BytesPath", BytesPath())

    def test_include_dirs(self):
        for folders in ("inc", b"inc", os.curdir, BytesPath()):
            self.check(TypeError, "include_dirs must be a list of paths, not one path", include_dirs=folders)
        self.check(TypeError, "include_dirs must be a list of paths, not int", include_dirs=1)
        self.check(TypeError, "include_dirs must be a list of paths, not NoneType", include_dirs=None)
        self.check(TypeError, "include_dirs[1] must be a path", include_dirs=["inc", 1])
        self.check(TypeError, "include_dirs[0] must be a path", include_dirs=[b"inc"])

    def test_defines(self):
        self.check(TypeError, "defines must be a mapping from names to bodies, not list", defines=["W"])
        self.check(TypeError, "defines must be a mapping from names to bodies, not str", defines="W")
        self.check(TypeError, "defines['W'] must be a str, not int", defines={"W": 8})
        self.check(TypeError, "defines['W'] must be a str, not bytes", defines={"W": b"8"})
        self.check(TypeError, "defines['W'] must be a str, not NoneType", defines={"W": None})
        self.check(TypeError, "the name b'W' in defines must be a str, not bytes", defines={b"W": "8"})

    def test_limits_and_origins(self):
        self.check(TypeError, "limits must be an rdlpp.Limits, not dict", limits={"depth": 4})
        self.check(TypeError, "limits must be an rdlpp.Limits, not tuple", limits=tuple(rdlpp.Limits()))
        for origins in (1, "yes", None):
            self.check(TypeError, "origins must be a bool, not ", origins=origins)

    def test_files_and_read(self):
        self.check(TypeError, "files must be a mapping from paths to bytes, not list", files=["m"])
        self.check(TypeError, "read must be a callable from a path to bytes or None, not dict", read={})
        self.check(ValueError, "files and read can't both be given", files={}, read=lambda path: None)

    def test_keys_of_files(self):
        wanted = "a key of files must be a path (str or os.PathLike of str), not "
        for key in (b"m", 1, None, ("m",), BytesPath()):
            self.check(TypeError, wanted + type(key).__name__, files={"m": b"a", key: b"a"})

    def test_texts_of_sources(self):
        for text in ("text", 1, ["text"]):
            for call in (rdlpp.preprocess, rdlpp.run, lambda *given, **named: list(rdlpp.stream(*given, **named))):
                for key in ("m", pathlib.Path("m")):
                    with self.assertRaisesRegex(TypeError, r"files\['m'\] must be bytes, not "):
                        call("m", files={key: text})
                with self.assertRaisesRegex(TypeError, r"read\('m'\) must give bytes, or None .*, not "):
                    call("m", read=lambda path: text)

    def test_what_is_no_utf_8(self):
        self.check(UnicodeError, "source must be text that UTF-8 can write", "a\udcff")
        self.check(UnicodeError, "include_dirs[0] must be text", include_dirs=["\udcff"])
        self.check(UnicodeError, "a name in defines must be text", defines={"\udcff": "1"})
        self.check(UnicodeError, "defines['W'] must be text", defines={"W": "\udcff"})
        self.check(ValueError, "UTF-8", "a\udcff")

    def test_streams(self):
        for room in ("8", 8.0, None, True):
            with self.assertRaisesRegex(TypeError, "room must be an int, not "):
                rdlpp.stream(b"a", room=room)
        for room in (0, -1, 2**30 + 1, 2**64, 2**64 + 8):
            with self.assertRaisesRegex(ValueError, "room must be 1 to 1,073,741,824, not "):
                rdlpp.stream(b"a", room=room)
        with self.assertRaisesRegex(TypeError, "positions must be a bool, not int"):
            rdlpp.stream(b"a", positions=1)

    def test_a_name_that_is_no_argument(self):
        self.check(TypeError, "include_dir", include_dir=["inc"])


class Interpreters(unittest.TestCase):
    def test_another_interpreter(self):
        code = "import sys; sys.implementation.name = 'pypy'; import rdlpp"
        done = subprocess.run([sys.executable, "-c", code], capture_output=True, text=True, timeout=60)
        told = "ImportError: rdlpp needs CPython, whose bytes objects it writes to, and this is pypy"
        self.assertEqual((done.returncode, done.stderr.splitlines()[-1]), (1, told))


if __name__ == "__main__":
    unittest.main()
