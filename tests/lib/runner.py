"""Runs the tests of one module in this process, and writes what came of them to a file.

    python3 -m tests.lib.runner FILE MODULE [PATTERN..]

It runs the tests whose names have one of the patterns, or all tests if there are no patterns.
"""

from __future__ import annotations

import json
import sys
import unittest
from collections import Counter
from io import StringIO
from pathlib import Path
from types import TracebackType
from typing import Any, NamedTuple, TextIO, Union

from tests.lib.case import MOST_FAILURES, seeds

Error = Union[tuple[type[BaseException], BaseException, TracebackType], tuple[None, None, None]]


class Outcome(NamedTuple):
    """What came of the tests of a module."""

    # How often a comparison passed, by the name of its test and its own name.
    passed: dict[str, dict[str, int]]
    # How many tests ran, how many comparisons and tests failed, and what was skipped: name and reason.
    tests: int
    failed: int
    skipped: list[tuple[str, str]]

    def comparisons(self) -> int:
        return sum(sum(it.values()) for it in self.passed.values())


class Counting(unittest.TextTestResult):
    """A result that also counts the comparisons that passed, by name."""

    def __init__(self, stream: Any, descriptions: bool, verbosity: int) -> None:
        super().__init__(stream, descriptions, verbosity)
        self.passed: dict[str, Counter[str]] = {}

    def startTest(self, test: unittest.TestCase) -> None:
        super().startTest(test)
        self.passed[name_of(test)] = Counter()

    def addSubTest(self, test: unittest.TestCase, subtest: unittest.TestCase, err: Error | None) -> None:
        super().addSubTest(test, subtest, err)
        if len(self.failures) >= MOST_FAILURES:
            self.stop()
        if err is None:
            self.passed[name_of(test)][str(getattr(subtest, "_message"))] += 1

    def addSuccess(self, test: unittest.TestCase) -> None:
        """A test that neither compared anything nor skipped anything has failed."""
        if self.passed[name_of(test)] or name_of(test) in (name_of(it) for it, _ in self.skipped):
            super().addSuccess(test)
        else:
            self.failures.append((test, "It compared nothing.\n"))


def name_of(test: unittest.TestCase) -> str:
    """The name of a test's class and method; of a subtest, those of its test; else what unittest says, as of a class that could not be set up."""
    whole = getattr(test, "test_case", test)
    return ".".join(whole.id().split(".")[-2:]) if isinstance(whole, unittest.TestCase) else str(whole.id())


def told_of(skipped: list[tuple[unittest.TestCase, str]]) -> list[tuple[str, str]]:
    return [(str(getattr(test, "_message", "") or name_of(test)), why) for test, why in skipped]


def ran(module: str, patterns: list[str], stream: TextIO) -> Outcome:
    """Runs the tests of a module, and writes those that fail to the stream."""
    loader = unittest.TestLoader()
    if patterns:
        loader.testNamePatterns = [it if "*" in it else f"*{it}*" for it in patterns]
    tests = loader.loadTestsFromName(module)
    result = unittest.TextTestRunner(stream, verbosity=0, resultclass=Counting).run(tests)
    assert isinstance(result, Counting)
    passed = {name: dict(counts) for name, counts in result.passed.items() if counts}
    return Outcome(passed, result.testsRun, len(result.failures) + len(result.errors), told_of(result.skipped))


def main() -> int:
    file, module, *patterns = sys.argv[1:]
    told = StringIO()
    came = ran(module, patterns, told)
    if came.failed:
        print(told.getvalue(), end="")
        print("".join(f"random cases: --seed {it}\n" for it in seeds), end="")
    if came.failed >= MOST_FAILURES:
        print("Too many comparisons failed: the other tests of the module were not run.")
    Path(file).write_text(json.dumps(came._asdict()))
    return 1 if came.failed else 0


if __name__ == "__main__":
    sys.exit(main())
