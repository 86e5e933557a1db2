"""Checks of crates over libraries that are proved already.

`rt ci` leaves the libraries that it proved, and `make build` leaves its own; each has a note of the sources that it was built from (build.py). A
check here is one of the kit's `rattle`, as `rt ci` runs it for an edit: over these libraries, and over what the checks before it in the same folder
have proved. It proves nothing of the crates below, and never reads a library that was built from other sources than those that stand.
"""

from __future__ import annotations

import shutil
import signal
import subprocess
import threading
import time
from contextlib import nullcontext
from pathlib import Path
from typing import Callable, ContextManager, Iterable, NamedTuple

from tests.lib.places import TOP
from tests.tools import build
from tests.tools.edits import Pair, applied

# How much lower the priority of checks is, so that nothing else waits for them.
LOWER = "10"


class Checked(NamedTuple):
    """How a check ended, and its log."""

    status: int
    log: str


class Stale(Exception):
    """A library is not there, or was built from other sources."""


class Libraries:
    """The libraries that checks read, in a folder of their own: links to those of the repository as they were when they were taken. What `rt` puts in
    their places meanwhile changes nothing here."""

    def __init__(self, folder: Path) -> None:
        self.folder = folder
        self.taken: set[str] = set()
        self.alone = threading.Lock()

    def take(self, crates: Iterable[str]) -> None:
        """Takes the libraries of these crates. Stale says which of them is not built from the sources that stand."""
        every = build.below(build.listed(), [*crates])
        sums = build.sums_of(every)
        with self.alone:
            for name in filter(lambda it: it not in self.taken, every):
                self.take_one(every, name, sums)

    def take_one(self, every: build.Crates, name: str, sums: dict[str, str]) -> None:
        try:
            shutil.copytree(build.made_by(every[name]).parent, self.path(name), copy_function=build.link_or_copy)
            # The links are looked at, and not what may stand in their place by now.
            is_noted = build.is_noted(every, name, sums, lambda it: self.path(it.name) / "format")
        except (OSError, shutil.Error):
            is_noted = False
        if not is_noted:
            shutil.rmtree(self.path(name), ignore_errors=True)
            raise Stale(f"{name} is not built from the sources as they are")
        self.taken.add(name)

    def path(self, name: str) -> Path:
        return self.folder / name / f"{name}.rlib"

    def words(self, crate: str) -> list[str]:
        """What `rattle check` is told of a crate."""
        it = build.listed()[crate]
        own, uses = build.below(build.listed(), [*it.uses]), it.line.partition(": ")[2].split()
        libraries = [f"{name}={self.path(name) if name in own else build.kit() / 'rlibs' / f'{name}.rlib'}" for name in ("std", *uses)]
        folders = [f"{build.kit()}/rlibs", *(self.path(name).parent for name in sorted(own))]
        words = ["--crate-name", crate, "src/main.rt" if it.is_program() else "src/lib.rt"]
        words += [word for library in libraries for word in ("--extern", library)]
        words += [word for folder in folders for word in ("-L", f"dependency={folder}")]
        words += ["--antt-project", f"{build.kit()}/rattle/logic/antt-project.json", "--logic-built", f"{build.kit()}/logic_built"]
        return [*words, "--links", f"{crate}=", "--jobs", "1"]


class Work:
    """A crate that is checked again and again, each time with other changes: what a check proves, the later ones take. Each check runs in a
    `turn`."""

    def __init__(self, folder: Path, crate: str, libraries: Libraries, turn: Callable[[], ContextManager[None]] = nullcontext) -> None:
        self.crate, self.turn = crate, turn
        # By this name the gate's watch knows the checks there for those of edits.
        self.folder = folder / f"{crate}-edits"
        self.words = libraries.words(crate)
        self.checks, self.seconds = 0, 0.0
        for part in filter(lambda it: (TOP / "crates" / crate / it).is_dir(), build.PARTS):
            shutil.copytree(TOP / "crates" / crate / part, self.folder / part)

    def check(self, changes: list[Pair], only: Iterable[str] = ()) -> Checked:
        """Checks the crate with these changes: the functions of these names and those that they call, or all where there are none. The files are as
        they were afterwards. A check that was killed, as for memory, is tried once more."""
        try:
            texts = applied(self.folder, changes)
        except ValueError as why:
            return Checked(2, str(why))
        before = {name: (self.folder / name).read_text(encoding="utf-8") for name in texts}
        try:
            for name, text in texts.items():
                (self.folder / name).write_text(text, encoding="utf-8")
            words = [*self.words, "--incremental", str(self.folder / "kept"), *(word for it in only for word in ("--only", it))]
            ran = self.rattle(words)
            return self.rattle(words) if ran.status == -signal.SIGKILL else ran
        finally:
            for name, text in before.items():
                (self.folder / name).write_text(text, encoding="utf-8")

    def rattle(self, words: list[str]) -> Checked:
        with self.turn():
            began = time.monotonic()
            whole, log = ("nice", "-n", LOWER, str(build.kit() / "bin/rattle"), "check", *words), subprocess.PIPE
            ran = subprocess.run(
                whole, cwd=self.folder, stdin=subprocess.DEVNULL, stdout=log, stderr=subprocess.STDOUT, text=True, errors="replace", check=False
            )
        self.checks, self.seconds = self.checks + 1, self.seconds + time.monotonic() - began
        return Checked(ran.returncode, ran.stdout)

    def remove(self) -> None:
        """Removes what the checks kept: a few hundred MB."""
        shutil.rmtree(self.folder, ignore_errors=True)
