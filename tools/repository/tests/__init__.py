"""The tests of the package. They ask nothing of the toolchain."""
import unittest

from . import of_counted, of_kit, of_pages, of_prose, of_rattle, of_rows, of_tree, of_unproved, of_verdicts

MODULES = (of_counted, of_kit, of_pages, of_prose, of_rattle, of_rows, of_tree, of_unproved, of_verdicts)


def load_tests(loader: unittest.TestLoader, _tests: unittest.TestSuite, _pattern: str | None) -> unittest.TestSuite:
    """The tests of all modules, as unittest asks for them."""
    return unittest.TestSuite(loader.loadTestsFromModule(module) for module in MODULES)
