"""The examples in the package's own documentation."""

import doctest
import importlib
import pkgutil
import unittest

import leveretplate


def load_tests(loader: unittest.TestLoader, tests: unittest.TestSuite, pattern: str) -> unittest.TestSuite:
    names = [module.name for module in pkgutil.iter_modules(leveretplate.__path__)]
    for module in [leveretplate, *(importlib.import_module(f"leveretplate.{name}") for name in names)]:
        tests.addTests(doctest.DocTestSuite(module))
    return tests
