#!/usr/bin/python3
"""Runs all tests of the tools, and says at the end what was left out and why."""
from __future__ import annotations

import sys
import unittest
from collections import Counter
from pathlib import Path

HERE = Path(__file__).resolve().parent


class Result(unittest.TextTestResult):
    """Counts the tests that passed."""

    passed = 0

    def addSuccess(self, test: unittest.TestCase) -> None:
        super().addSuccess(test)
        self.passed += 1


def main() -> int:
    """0 where no test failed; tests that are left out don't fail."""
    sys.path[:0] = [str(HERE), str(HERE.parent)]
    suite = unittest.TestLoader().discover(str(HERE), top_level_dir=str(HERE))
    result = unittest.TextTestRunner(verbosity=1, resultclass=Result).run(suite)
    assert isinstance(result, Result)
    reasons = Counter(reason for _, reason in result.skipped)
    for reason, count in sorted(reasons.items()):
        print(f"left out: {count} of the tests, classes or files: {reason}")
    print(f"tools: {result.passed} tests passed, "
          f"{len(result.failures) + len(result.errors)} failed, "
          f"{len(result.skipped)} tests, classes or files were left out")
    return 0 if result.wasSuccessful() else 1


if __name__ == "__main__":
    sys.exit(main())
