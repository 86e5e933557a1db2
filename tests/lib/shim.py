"""The library of hostile.c: programs that run under it have calls refused, failed, shortened or stopped."""

from __future__ import annotations

import os
import shutil
import subprocess
import tempfile
from contextlib import contextmanager
from pathlib import Path
from typing import ClassVar, Iterator, NamedTuple

from tests.lib.case import Case

SOURCE = Path(__file__).resolve().parent / "hostile.c"
COMPILER = "cc"
LIBRARIES = ("-ldl", "-pthread")


class Shim(NamedTuple):
    """The compiled library, and a file that can be the log of a program."""

    library: Path
    log: Path

    def environment(self, rules: str = "", path: str = "", logs: bool = True) -> dict[str, str]:
        """What a program is started with that is to meet these rules. Of calls by a descriptor, those of files with this in their path count."""
        log = {"HOSTILE_LOG": str(self.log)} if logs else {}
        return {**os.environ, "LD_PRELOAD": str(self.library), "HOSTILE": rules, "HOSTILE_PATH": path, **log}

    def forget(self) -> None:
        """Empties the log."""
        self.log.unlink(missing_ok=True)

    def calls(self) -> list[str]:
        """The names of the calls that were logged, in their order. A request for memory stands there as `alloc` and by its own name."""
        return [line.split()[0] for line in self.log.read_text().splitlines()] if self.log.exists() else []

    def sizes(self, name: str = "alloc") -> list[int]:
        """How many bytes each logged call of this name asked for, in their order; of `alloc` each request for memory."""
        lines = [line.split() for line in self.log.read_text().splitlines()] if self.log.exists() else []
        return [int(size) for call, _, size in lines if call == name]


class Compiled(NamedTuple):
    """The library, and how the compiler ended and what it said."""

    shim: Shim
    status: int
    said: str

    def checked(self, case: Case) -> Shim:
        """The library. If the compiler did not make it, the test ends."""
        if not case.same(f"{COMPILER} compiles {SOURCE.name}", self.status, 0, self.said):
            case.fail("the test wants it")
        return self.shim


def compiled_in(folder: Path) -> Compiled:
    """Compiles the library into a folder."""
    shim = Shim(folder / "hostile.so", folder / "log")
    if not shutil.which(COMPILER):
        return Compiled(shim, -1, f"{COMPILER} is not on this machine")
    words = (COMPILER, "-O1", "-shared", "-fPIC", "-o", str(shim.library), str(SOURCE), *LIBRARIES)
    ran = subprocess.run(words, capture_output=True, text=True, check=False)
    return Compiled(shim, ran.returncode, ran.stderr)


@contextmanager
def compiled(case: Case) -> Iterator[Shim]:
    """The library, in a folder that is taken away at the end. If there is no compiler the test fails, and says so."""
    with tempfile.TemporaryDirectory(prefix="hostile-") as folder:
        yield compiled_in(Path(folder)).checked(case)


class ShimCase(Case):
    """Tests with the library, which is compiled once for all tests of a class."""

    compiled: ClassVar[Compiled]
    shim: Shim

    @classmethod
    def setUpClass(cls) -> None:
        super().setUpClass()
        cls.compiled = compiled_in(Path(cls.enterClassContext(tempfile.TemporaryDirectory(prefix="hostile-"))))

    def setUp(self) -> None:
        super().setUp()
        self.shim = self.compiled.checked(self)
