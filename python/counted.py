"""Runs the tests of a module, and says in the last line how many passed."""

from __future__ import annotations

import signal
import sys
import unittest


def main(module: str) -> int:
    signal.signal(signal.SIGTERM, signal.default_int_handler)  # So a signal to end ends the program too.
    tests = unittest.defaultTestLoader.loadTestsFromModule(sys.modules[module])
    result = unittest.TextTestRunner(sys.stdout, descriptions=False, verbosity=2).run(tests)
    failed = len({test.id().split()[0] for test, _text in result.failures + result.errors})
    print(f"{result.testsRun - failed} passed, {failed} failed")
    return 1 if failed or not result.testsRun else 0
