"""The values that calls give, which are named tuples, and the modules that an import of the package brings."""

import copy
import pickle
import subprocess
import sys
import typing
import unittest

import rdlpp

SLOW = ("asyncio", "bisect", "contextvars", "threading", "typing", "warnings")


class Values(unittest.TestCase):
    def test_they_are_named_tuples(self):
        made = {
            "Place(name='a', line=1)": rdlpp.Place("a", line=1),
            "Position(name='a', line=1, step=0)": rdlpp.Position("a", 1, step=0),
            "<Output of 1 bytes, from 0 sources>": rdlpp.Output(b"a", None, (), definitions=b""),
            repr(rdlpp.Limits(depth=8)): rdlpp.Limits(8),
        }
        for told, value in made.items():
            kind = type(value)
            with self.subTest(told):
                self.assertEqual((repr(value), kind.__module__, kind.__qualname__), (told, "rdlpp", kind.__name__))
                self.assertEqual(value, tuple(getattr(value, field) for field in kind._fields))
                self.assertEqual(kind(**value._asdict()), value)
                for copied in (copy.copy, copy.deepcopy, lambda item: pickle.loads(pickle.dumps(item)), kind._make):
                    self.assertEqual((type(copied(value)), copied(value)), (kind, value))
                with self.assertRaises(TypeError):
                    kind(unknown=1)
                with self.assertRaises(AttributeError):
                    value.unknown = 1

    def test_another_value_of_a_field(self):
        self.assertEqual(rdlpp.Place("a", 1)._replace(line=2), ("a", 2))
        self.assertEqual(rdlpp.Limits()._replace(depth=8), rdlpp.Limits(8))

    def test_fields_have_types(self):
        self.assertEqual(typing.get_type_hints(rdlpp.Place), {"name": str, "line": int})
        self.assertEqual(typing.get_type_hints(rdlpp.Position), {"name": str, "line": int, "step": int})


class Import(unittest.TestCase):
    def test_it_brings_no_slow_modules(self):
        before = "import sys, collections, ctypes, enum; before = set(sys.modules); import rdlpp"
        code = f"{before}; print(sorted(set({SLOW}) & set(sys.modules) - before))"
        done = subprocess.run([sys.executable, "-S", "-c", code], capture_output=True, text=True, timeout=60)
        self.assertEqual((done.returncode, done.stdout, done.stderr), (0, "[]\n", ""))


if __name__ == "__main__":
    unittest.main()
