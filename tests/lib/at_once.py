"""Tests with slow parts of which several run at once, before the turns of their tests come."""

from __future__ import annotations

import unittest
from concurrent.futures import Executor, Future, ThreadPoolExecutor
from typing import Generic, Iterable, Iterator, TypeVar

from tests.lib.case import Case

T = TypeVar("T")


class SlowCase(Case, Generic[T]):
    """Tests that have `work`, which takes long and compares nothing. The test takes what came of it from `came`."""

    coming: Future[T] | None = None

    def work(self) -> T:
        raise NotImplementedError

    def begin(self, pool: Executor) -> None:
        """Lets the work begin."""
        self.coming = pool.submit(self.work)

    def came(self) -> T:
        """What came of the work, once it is done."""
        return self.coming.result() if self.coming else self.work()


class AtOnce(unittest.TestSuite):
    """Tests of which the slow ones begin before the first test is run, so many at once."""

    def __init__(self, many: int, tests: Iterable[unittest.TestCase]) -> None:
        super().__init__(tests)
        self.many = many

    def run(self, result: unittest.TestResult, debug: bool = False) -> unittest.TestResult:
        with ThreadPoolExecutor(self.many) as pool:
            for it in self:
                if isinstance(it, SlowCase):
                    it.begin(pool)
            return super().run(result, debug)


def each(tests: unittest.TestSuite) -> Iterator[unittest.TestCase]:
    """The tests of a suite and of those in it."""
    for it in tests:
        if isinstance(it, unittest.TestSuite):
            yield from each(it)
        else:
            yield it
