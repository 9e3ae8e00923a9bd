"""The examples: fields of a stream, and a compiler that takes a file."""

import importlib.util
import pathlib
import subprocess
import sys
import tempfile
import unittest

import rdlpp

EXAMPLES = pathlib.Path(__file__).resolve().parent.parent / "examples"
FILES = {
    "inc/fields.rdl": "`define FIELD(name, bits) \\\n    field {} \\\n    name[bits];\n`define OPEN {\n",
    "timer.rdl": '`include "fields.rdl"\naddrmap timer {\n    reg {\n        `FIELD(enable, 0:0)\n'
    "        `FIELD(\n            limit,\n            8:31)\n        field {} mode[1:2];\n    } control @ `BASE;\n};\n"
    "`OPEN\n",
}


def example(name):
    """An example, as a module."""
    spec = importlib.util.spec_from_file_location(name, EXAMPLES / f"{name}.py")
    module = importlib.util.module_from_spec(spec)
    spec.loader.exec_module(module)
    return module


class Fields(unittest.TestCase):
    def test_fields_line_by_line(self):
        source = b"`define F(n, b) field {} n[b];\nreg { // no[0:0]\n`F(enable, 0:0) `F(limit, 31:8)\n} c @ 0x0;"
        for room in (1, 7, 4096):
            found = list(example("fields").fields(rdlpp.stream(source, room=room)))
            self.assertEqual(found, [("enable", 0, 0), ("limit", 31, 8)])


class InFront(unittest.TestCase):
    def run_example(self, *words, compiler=(sys.executable, str(EXAMPLES / "stand_in_compiler.py"))):
        """What the example tells of these files, in a scratch folder."""
        with tempfile.TemporaryDirectory() as folder:
            for path, text in FILES.items():
                file = pathlib.Path(folder, path)
                file.parent.mkdir(exist_ok=True)
                file.write_text(text)
            done = subprocess.run(
                [sys.executable, str(EXAMPLES / "in_front.py"), *words, "timer.rdl", "--", *compiler],
                cwd=folder, capture_output=True, text=True, timeout=60,
            )
        return done.returncode, done.stdout, done.stderr

    def test_messages_are_led_back(self):
        status, fields, errors = self.run_example("-I", "inc", "-D", "BASE=0x0")
        self.assertEqual(fields, "enable: 0..0\nlimit: 8..31\nmode: 1..2\n")
        self.assertEqual(
            errors.splitlines(),
            [
                "timer.rdl:5: error: the bits of 'limit' stand the wrong way round",
                "timer.rdl:8: error: the bits of 'mode' stand the wrong way round",
                "timer.rdl:11: error: a brace isn't closed",
            ],
        )
        self.assertEqual(status, 1)

    def test_a_fault(self):
        status, fields, errors = self.run_example("-I", "inc")
        self.assertEqual((status, fields), (1, ""))
        self.assertEqual(errors.splitlines()[0], "timer.rdl:9: error F7: undefined macro 'BASE'")

    def test_a_compiler_that_is_not_there(self):
        status, fields, errors = self.run_example("-I", "inc", "-D", "BASE=0x0", compiler=["no-compiler"])
        self.assertEqual((status, fields), (1, ""))
        self.assertEqual(errors, "in_front.py: [Errno 2] No such file or directory: 'no-compiler'\n")

    def test_lines_that_are_none(self):
        led_back = example("in_front").led_back
        lines = rdlpp.run("m", files={"m": b"a\nb\n"}).lines
        self.assertEqual(led_back("/t:2: x /t:9 /u:1 /t:0", "/t", lines), "m:2: x m:2 /u:1 m:1")
        self.assertEqual(led_back("/t:1: x", "/t", rdlpp.run(b"").lines), "/t:1: x")


if __name__ == "__main__":
    unittest.main()
