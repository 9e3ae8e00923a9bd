"""The examples in the docstrings of the package are run; each public item has one."""

import doctest
import importlib
import inspect
import pathlib
import unittest

import rdlpp

MODULES = [
    importlib.import_module(f"rdlpp.{file.stem}")
    for file in sorted(pathlib.Path(rdlpp.__file__).parent.glob("_*.py"))
    if file.stem not in ("__init__", "__main__")
]


def load_tests(_loader, tests, _pattern):
    for module in [rdlpp, *MODULES]:
        tests.addTests(doctest.DocTestSuite(module))
    return tests


class Examples(unittest.TestCase):
    def test_each_public_item_has_an_example(self):
        for name in rdlpp.__all__:
            with self.subTest(name):
                self.assertIn(">>> ", inspect.getdoc(getattr(rdlpp, name)) or "")


if __name__ == "__main__":
    unittest.main()
