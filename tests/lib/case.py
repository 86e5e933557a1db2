"""The base of all checks: unittest's TestCase, which also names and counts each single comparison."""

from __future__ import annotations

import os
import threading
import unittest
from typing import Callable

# unittest leaves the functions of this module out of the traceback of a failure.
__unittest = True

# A test with so many failed comparisons ends, so that a program that fails at everything does not print for hours.
MOST_FAILURES = 20
# A failed comparison prints at most so many characters of a value.
MOST_SHOWN = 1200


def shown(value: object) -> str:
    """A value as a failed comparison prints it. A long value is cut, and the length of bytes is told."""
    text = repr(value)
    size = f" ({len(value)} bytes)" if isinstance(value, (bytes, bytearray)) else ""
    return (text if len(text) <= MOST_SHOWN else f"{text[:MOST_SHOWN]} ..") + size


def agreeing(one: bytes, other: bytes) -> int:
    """How many first bytes of two texts are the same."""
    return next((place for place, (a, b) in enumerate(zip(one, other)) if a != b), min(len(one), len(other)))


def difference(came: object, wanted: object) -> str:
    """What a reader needs to find the fault: the value that was wanted, and the value that came."""
    lines = ["", f"wanted: {shown(wanted)}", f"came:   {shown(came)}"]
    if isinstance(came, bytes) and isinstance(wanted, bytes):
        lines.append(f"the first {agreeing(came, wanted)} bytes are the same")
    return "\n".join(lines)


def lines_of(seen: tuple[object, ...]) -> str:
    return "".join(f"\nseen:   {shown(it)}" for it in seen)


# The seeds of random cases in this process. Whoever runs the tests tells them if a test fails.
seeds: list[int] = []


def random_seed(usual: int) -> int:
    """The seed of random cases: the environment variable SEED, or else the usual one, so that each run tries the same cases. A test that uses it
    tells it where it fails."""
    given = os.environ.get("SEED", "")
    seeds.append(int(given) if given.isdigit() else usual)
    return seeds[-1]


class Case(unittest.TestCase):
    """Tests whose comparisons have names: `same` and `holds` make one comparison each.

    After a failed comparison the test goes on. Several threads may compare.
    """

    # Comparisons of several threads are told one after the other.
    telling = threading.RLock()
    failures_here = 0

    def same(self, name: str, came: object, wanted: object, *seen: object) -> bool:
        """Compares what came with what was wanted, and returns whether they are equal. A failure prints both, and `seen`."""
        return self._compared(name, came == wanted, lambda: difference(came, wanted) + lines_of(seen))

    def holds(self, name: str, condition: object, *seen: object) -> bool:
        """Returns whether a condition holds. A failure prints what was seen. Prefer `same`: it also prints what was wanted."""
        return self._compared(name, bool(condition), lambda: lines_of(seen) or "\nit does not hold")

    def skip_part(self, name: str, why: str) -> None:
        """Names a part of the test that cannot be tried on this machine, and why. The test goes on."""
        with self.subTest(name):
            self.skipTest(why)

    def _compared(self, name: str, passed: bool, why: Callable[[], str]) -> bool:
        with self.telling:
            with self.subTest(name):
                if not passed:
                    self.failures_here += 1
                    self.fail(why())
            if self.failures_here >= MOST_FAILURES:
                self.fail("Too many comparisons failed: the others were not made.")
        return passed
