"""Checks the built programs from outside: runs the modules of tests/checks/, as many at once as there are processors.

    python3 -m tests [-k PATTERN].. [CHECK..]

For example, `python3 -m tests` runs all checks, `python3 -m tests rows` runs those of tests/checks/rows.py, and
`python3 -m tests rows -k rewind` runs the tests of that file that have "rewind" in their names.

It prints what failed in a module when the module has ended. At the end it names all that could not be tried on this machine, and why.
The status is 0 if nothing failed.
"""

from __future__ import annotations

import argparse
import json
import os
import subprocess
import sys
import tempfile
import time
from concurrent.futures import ThreadPoolExecutor, as_completed
from pathlib import Path
from typing import Iterator, NamedTuple

from tests.lib.places import TOP
from tests.lib.runner import Outcome

CHECKS = TOP / "tests/checks"
# The modules that take longest. They run first, so that none of them runs alone at the end.
LONGEST = ("doors", "timeouts", "faults", "night", "refused", "catalog", "kills", "schedules", "recipes", "relay", "reels")
PROGRAMS = ("rmtd", "rdump", "rsim")


class Ran(NamedTuple):
    """What came of a module (None: it did not come to its end), its exit status, what it printed, and how long it took."""

    check: str
    came: Outcome | None
    status: int
    said: str
    minutes: float

    def head(self) -> str:
        counts = (
            f"{self.came.comparisons()} passed in {self.came.tests} tests, {self.came.failed} failed" if self.came else f"ended with {self.status}"
        )
        return f"== tests/checks/{self.check}.py: {counts}, {self.minutes:.1f} minutes"

    def is_empty(self) -> bool:
        """Whether it came to its end, and had no test to run."""
        return self.came is not None and self.came.tests == 0 and not self.came.failed and not self.came.skipped

    def skipped(self) -> list[str]:
        """The lines that name what could not be tried on this machine."""
        return [f"tests/checks/{self.check}.py: skipped: {name}: {why}" for name, why in self.came.skipped] if self.came else []


def names() -> list[str]:
    """The modules of tests/checks/, those that take longest first."""
    found = sorted(it.stem for it in CHECKS.glob("*.py") if it.stem != "__init__")
    return [*(it for it in LONGEST if it in found), *(it for it in found if it not in LONGEST)]


def outcome_in(file: Path) -> Outcome | None:
    """What a module wrote of its tests, None if it did not come to its end."""
    try:
        return Outcome(**json.loads(file.read_text()))
    except (OSError, ValueError):
        return None


def run(check: str, patterns: list[str]) -> Ran:
    """Runs a module in a process of its own."""
    began = time.monotonic()
    with tempfile.TemporaryDirectory(prefix="check-") as folder:
        file = Path(folder, "came")
        words = (sys.executable, "-m", "tests.lib.runner", str(file), f"tests.checks.{check}", *patterns)
        ended = subprocess.run(
            words, cwd=TOP, stdin=subprocess.DEVNULL, stdout=subprocess.PIPE, stderr=subprocess.STDOUT, text=True, errors="replace", check=False
        )
        came = outcome_in(file)
    return Ran(check, came, ended.returncode, ended.stdout, (time.monotonic() - began) / 60)


def tell(file: Path | None, lines: list[str]) -> None:
    """Adds lines to a file, or prints them if there is none."""
    text = "".join(f"{it}\n" for it in lines)
    if file is None:
        print(text, end="", flush=True)
    else:
        with file.open("a") as written:
            written.write(text)


def asked() -> argparse.Namespace:
    parser = argparse.ArgumentParser(prog="python3 -m tests", description="Checks the built programs from outside.")
    parser.add_argument("checks", nargs="*", metavar="CHECK", help="a module of tests/checks/, such as rows; all if none is given")
    parser.add_argument("-k", action="append", default=[], metavar="PATTERN", dest="patterns", help="run only the tests with this in their names")
    parser.add_argument("--seed", type=int, help="the seed of random cases, as a failed test told it")
    parser.add_argument("--minutes", type=Path, help="the file to which the minutes are added, and the names of what was skipped")
    for name in PROGRAMS:
        parser.add_argument(f"--{name}", help=f"the program {name} to check; the one that make build leaves if this is not given")
    words = parser.parse_args()
    unknown = sorted(set(words.checks) - set(names()))
    if unknown:
        parser.error(f"there is no tests/checks/{unknown[0]}.py. The checks are: {', '.join(sorted(names()))}")
    return words


def set_environment(words: argparse.Namespace) -> None:
    """Tells the modules which programs to check, and the seed."""
    for name in PROGRAMS:
        if getattr(words, name):
            os.environ[name.upper()] = os.path.abspath(getattr(words, name))
    if words.seed is not None:
        os.environ["SEED"] = str(words.seed)


def tried(words: argparse.Namespace) -> Iterator[Ran]:
    """Runs the modules that were asked for, and tells what came of each as soon as it has ended. If only some tests are asked for, leaves out modules
    that have none of them."""
    with ThreadPoolExecutor(len(os.sched_getaffinity(0))) as pool:
        runs = [pool.submit(run, it, words.patterns) for it in words.checks or names()]
        for it in as_completed(runs):
            ran = it.result()
            if ran.is_empty() and words.patterns:
                continue
            print(f"{ran.head()}\n{ran.said}", end="", flush=True)
            tell(words.minutes, [f"tests/checks/{ran.check}.py: {ran.minutes:.1f} minutes"] if words.minutes else [])
            yield ran


def main() -> int:
    words = asked()
    set_environment(words)
    every = [*tried(words)]
    tell(words.minutes, [line for it in every for line in it.skipped()])
    print(f"{sum(it.came.comparisons() for it in every if it.came)} comparisons passed")
    if not every:
        print(f"no test has one of these in its name: {', '.join(words.patterns)}")
    wrong = [it.check for it in every if it.status or it.came is None or it.is_empty()]
    if wrong:
        print(f"not as expected: {', '.join(wrong)}")
    return 1 if wrong or not every else 0


if __name__ == "__main__":
    sys.exit(main())
