"""Runs the tests of the commands, and prints a line for each: `ok: `, `FAILED: ` with what was wrong, or `not run: `
with the reason.

usage: python3 -m tests [NAME..]      in the folder commands/; PARV names the program
"""

from __future__ import annotations

import os
import sys
import unittest
from typing import Any, Tuple

sys.dont_write_bytecode = True


class Lines(unittest.TestResult):
    """Prints how each test has ended."""

    def line(self, word: str, test: unittest.TestCase, why: str = "") -> None:
        name = test.id().replace("tests.test_", "").split(".")[-1].replace("test_", "", 1).replace("_", " ")
        print(f"{word}: {name}{': ' if why else ''}{why}", flush=True)

    def addSuccess(self, test: unittest.TestCase) -> None:
        self.line("ok", test)

    def addSkip(self, test: unittest.TestCase, reason: str) -> None:
        self.line("not run", test, reason)

    def addFailure(self, test: unittest.TestCase, err: Tuple[Any, ...]) -> None:
        super().addFailure(test, err)       # type: ignore[arg-type]
        self.line("FAILED", test, " ".join(self.failures[-1][1].split())[-1500:])

    def addError(self, test: unittest.TestCase, err: Tuple[Any, ...]) -> None:
        super().addError(test, err)         # type: ignore[arg-type]
        self.line("FAILED", test, " ".join(self.errors[-1][1].split())[-1500:])


def main() -> int:
    here = os.path.dirname(os.path.realpath(__file__))
    loader = unittest.TestLoader()
    tests = loader.loadTestsFromNames([f"tests.{name}" for name in sys.argv[1:]]) if sys.argv[1:] else loader.discover(
        here, top_level_dir=os.path.dirname(here))
    result = Lines()
    tests.run(result)
    if not result.testsRun:
        print("FAILED: there are no tests")
    return 0 if result.testsRun and result.wasSuccessful() else 1


if __name__ == "__main__":
    sys.exit(main())
