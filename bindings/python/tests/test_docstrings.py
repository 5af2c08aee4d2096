"""The examples of the docstrings do what they say, and each public item has one."""
import doctest
import importlib
import inspect
import pkgutil
import sys
import unittest
from pathlib import Path

import syned

sys.path.insert(0, str(Path(__file__).resolve().parents[3] / "examples"))
import remove_argument


def load_tests(loader, tests, pattern):
    del loader, pattern
    for module in pkgutil.iter_modules(syned.__path__, "syned."):
        imported = importlib.import_module(module.name)
        if ">>>" in inspect.getsource(imported):
            tests.addTests(doctest.DocTestSuite(imported, optionflags=doctest.ELLIPSIS))
    tests.addTests(doctest.DocTestSuite(syned))
    tests.addTests(doctest.DocTestSuite(remove_argument))
    return tests


def public_items():
    """The public classes and functions, and their public methods, by name."""
    for name in syned.__all__:
        item = getattr(syned, name)
        if not (inspect.isclass(item) or inspect.isfunction(item)):
            continue
        yield name, item
        if inspect.isclass(item):
            for method, value in vars(item).items():
                value = value.__func__ if isinstance(value, staticmethod) else value
                if not method.startswith("_") and (inspect.isfunction(value) or isinstance(value, property)):
                    yield f"{name}.{method}", value


class Docstrings(unittest.TestCase):
    def test_each_public_item_has_an_example(self):
        names = [name for name, _ in public_items()]
        self.assertIn("Script.finish", names)
        self.assertIn("Element.text", names)
        self.assertEqual([name for name, item in public_items() if ">>>" not in (item.__doc__ or "")], [])


if __name__ == "__main__":
    unittest.main()
