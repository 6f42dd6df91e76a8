"""The examples of the package's pages."""
import doctest
import importlib
import pkgutil
import unittest

import balanced


def load_tests(loader, tests, pattern):
    modules = [balanced, *(importlib.import_module(f"balanced.{module.name}") for module in pkgutil.iter_modules(balanced.__path__))]
    for module in modules:
        tests.addTests(doctest.DocTestSuite(module, test_finder=doctest.DocTestFinder(exclude_empty=True)))
    return tests


if __name__ == "__main__":
    unittest.main()
