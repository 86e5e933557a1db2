"""Runs the gate, and prints how long each crate's proof, tests and edits took, and each check from outside.

    python3 -m tests.tools.gate [--edits]

`rt ci` proves each crate and its tests, and tries the few edits of must-fail/ one by one. It is called once, and what it leaves is used: a note is
written beside each library that it has proved (build.py), and when it has passed, beside the programs. `python3 -m tests` then checks these from
outside. With --edits all other edits are tried then too, over these libraries (further.py). This fails if one of them fails.

`rt ci` tells no times, so each second it is looked up which checks run below this process (machine.py). The minutes of a crate are those in which at
least one such check of the crate ran. What failed is named once more at the very end, where a log that was cut off still has it.
"""

from __future__ import annotations

import argparse
import os
import re
import shutil
import subprocess
import sys
import tempfile
import time
from concurrent.futures import ThreadPoolExecutor
from contextlib import suppress
from pathlib import Path
from typing import Callable

from tests.lib.given import given
from tests.lib.places import TOP
from tests.tools import build, further
from tests.tools.machine import CHECK, KEEPS_MEMORY, Turns, Watch, checks_at_once, free_memory, processors
from tests.tools.proved import Libraries, Stale

# The command that checks the programs from outside, and the programs.
OUTSIDE = (sys.executable, "-m", "tests")
PROGRAMS = ("rmtd", "rdump", "rsim")
# What `rt ci` prints of a crate that it has proved, or that an earlier run proved, sometimes behind another message in one line.
PROVED = re.compile(r"rt: (\w+) (?:proved$|is kept\b)")
# What `rt ci` and `python3 -m tests` print of what failed.
FAILED = re.compile(r"NOT PROVED|NOT REFUSED|BAD EDIT|FAILED|passed, [1-9]\d* failed|not as expected: ")


def failures(words: tuple[str, ...], jobs: int, look: Callable[[str], None] = lambda _: None) -> list[str]:
    """Runs a command, prints each line that it prints, and has `look` look at it. Returns those that tell what failed, none if nothing did."""
    found, env, log = [], {**os.environ, "RT_JOBS": str(jobs)}, subprocess.PIPE
    with subprocess.Popen(
        words, cwd=TOP, env=env, stdin=subprocess.DEVNULL, stdout=log, stderr=subprocess.STDOUT, text=True, errors="replace"
    ) as process:
        for line in given(process.stdout):
            print(line, end="", flush=True)
            found += [line.rstrip()] if FAILED.search(line) else []
            look(line)
    return [*found, f"{' '.join(words[:3])} ended with status {process.returncode}"] if process.returncode else []


def check_outside(jobs: int, minutes: Path) -> list[str]:
    """Checks the programs that `rt ci` left from outside, and writes the minutes of that to a file. Builds them first if they are not there. Returns
    what failed."""
    programs = {it: build.made_by(build.listed()[it]) for it in PROGRAMS}
    if not all(it.is_file() for it in programs.values()) and build.build_all([*PROGRAMS], processors()):
        return ["the programs could not be built"]
    named = [word for name, it in programs.items() for word in (f"--{name}", str(it))]
    return failures((*OUTSIDE, "--minutes", str(minutes), *named), jobs)


def rt_ci(jobs: int, libraries: Libraries) -> list[str]:
    """Runs `rt ci`, and returns what failed. Notes and takes each library as soon as it is proved: `rt ci` may put an earlier one in its place when
    it ends. Notes the programs when all has passed."""
    # The clock of files may be a little behind.
    began, crates = time.time() - 1, build.below(build.listed(), [*build.listed()])
    sums = build.sums_of(crates)

    def note(line: str) -> None:
        proved = [it for it in PROVED.findall(line) if not crates[it].is_program()]
        build.note_built(crates, proved, sums, began)
        with suppress(Stale):
            libraries.take(proved)

    failed = failures(("rt", "ci"), jobs, note)
    programs = [it for it in crates if crates[it].is_program()]
    if not failed and (changed := build.note_built(crates, programs, sums, began)):
        print(f"the sources of {', '.join(changed)} were changed while the gate ran: `make build` proves what was changed")
    return failed


def not_refused(trials: list[further.Trial]) -> list[str]:
    """The edits that were not refused, and what came of each."""
    return [f"{it.crate}/{name}: {said}" for it in trials for name, said in sorted(it.found.items()) if not said.startswith(further.WAS_REFUSED)]


def run_all(folder: Path, with_edits: bool) -> list[str]:
    """Runs `rt ci`, then the checks from outside, which write their minutes to a file in this folder, and the edits beside these. Returns what
    failed, none if all pass."""
    # `rt ci` reads each file of the repository, and refuses sources that no crate has.
    shutil.rmtree(build.TREES, ignore_errors=True)
    jobs, libraries = checks_at_once(), Libraries(folder / "libraries")
    if jobs < processors():
        memory = f"{free_memory() / 1e9:.1f} GB of memory are free, and one wants {CHECK / 1e9:.0f}"
        print(f"{jobs} checks at once on {processors()} processors: {memory}")
    if failed := rt_ci(jobs, libraries):
        return failed
    trials = further.trials_of([]) if with_edits else []
    with ThreadPoolExecutor(1) as pool:
        edits = pool.submit(further.try_all, trials, libraries, Turns(jobs)) if with_edits else None
        failed = check_outside(jobs, folder / "minutes")
        return failed + not_refused(trials) if edits and edits.result() else failed


def main() -> int:
    parser = argparse.ArgumentParser(description="Runs the gate, and tells the minutes of each crate and check.")
    parser.add_argument("--edits", action="store_true", help="try the wrong bodies of further/ too")
    asked = parser.parse_args()
    os.environ.update(KEEPS_MEMORY)
    watch = Watch()
    watch.start()
    with tempfile.TemporaryDirectory(prefix="gate-") as folder:
        failed, outside = run_all(Path(folder), asked.edits), Path(folder, "minutes")
        print(f"{outside.read_text() if outside.is_file() else ''}{watch.end()}")
    print("".join(f"failed: {it}\n" for it in failed), end="")
    return int(bool(failed))


if __name__ == "__main__":
    sys.exit(main())
