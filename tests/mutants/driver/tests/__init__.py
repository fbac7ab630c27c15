"""The tests of the driver. They take a second, and ask nothing of the toolchain: what its checker wrote is stored in
controls/said. `PYTHONPATH=../../tools python3 -B -m unittest driver.tests` in tests/mutants runs them."""
import unittest

from . import of_check, of_mutant, of_run, of_scratch, of_verdict


def load_tests(loader: unittest.TestLoader, _tests: unittest.TestSuite, _pattern: str | None) -> unittest.TestSuite:
    """The tests of all modules, as unittest asks for them."""
    modules = (of_check, of_mutant, of_run, of_scratch, of_verdict)
    return unittest.TestSuite(loader.loadTestsFromModule(module) for module in modules)
