"""Tests that run in a process of their own, such as one that unshare(1) starts. They are told as if they ran here."""

from __future__ import annotations

import json
import os
import subprocess
import tempfile
from typing import Sequence

from tests.lib.case import Case
from tests.lib.places import words_of_module
from tests.lib.runner import Outcome

# unittest leaves the functions of this module out of the traceback of a failure.
__unittest = True

# The environment variable that tells a test that it is there.
INSIDE = "RMT_TEST_IS_INSIDE"


def is_inside() -> bool:
    """Whether this is the process of a test's own."""
    return INSIDE in os.environ


def run_inside(case: Case, before: Sequence[str], **variables: str) -> int:
    """Runs a test once more, in a process that these words begin, tells here what it compared and skipped there, and answers the exit status.

    There `is_inside` is true. The test may hide all folders: what came of it is written to a file that is open before.
    """
    with tempfile.TemporaryFile() as file:
        words = (*before, *words_of_module("tests.lib.runner"), f"/proc/self/fd/{file.fileno()}", case.id())
        ran = subprocess.run(
            words,
            stdin=subprocess.DEVNULL,
            stdout=subprocess.PIPE,
            stderr=subprocess.STDOUT,
            env={**os.environ, INSIDE: "yes", **variables},
            pass_fds=(file.fileno(),),
            text=True,
            errors="replace",
            check=False,
        )
        told = file.read()
    if not told:
        case.fail(f"the process of the test ended with {ran.returncode} before the test did:\n{ran.stdout}")
    tell(case, Outcome(**json.loads(told)), ran.stdout)
    return ran.returncode


def tell(case: Case, came: Outcome, said: str) -> None:
    """Tells what came of a test in another process, which said this of what failed."""
    for counts in came.passed.values():
        for name, count in counts.items():
            for _ in range(count):
                case.holds(name, True)
    for name, why in came.skipped:
        case.skip_part(name, why)
    if came.failed:
        case.fail(f"{came.failed} comparisons failed in the process of the test:\n{said}")
