"""The simulator `rsim`, with a folder for the schedules that it is given."""

from __future__ import annotations

import subprocess
import tempfile
from pathlib import Path
from typing import Callable

from tests.lib.case import Case, agreeing
from tests.lib.ended import Ended
from tests.lib.places import built
from tests.lib.waiting import GUARD_SECONDS
from tests.models.world import Outcome

# So many bytes are shown from the first line on that differs.
SHOWN = 300


class Rsim:
    """The program, with a folder for the files that it is given."""

    def __init__(self, program: str, folder: Path) -> None:
        self.program = program
        self.folder = folder
        self.file = folder / "schedule"

    def run(self, *words: str | Path, prepare: Callable[[], None] | None = None) -> Ended[bytes]:
        """Runs the program with these words."""
        asked = (self.program, *words)
        ended = subprocess.run(
            asked, cwd=self.folder, stdin=subprocess.DEVNULL, capture_output=True, preexec_fn=prepare, timeout=GUARD_SECONDS, check=False
        )
        return Ended(ended.stdout, ended.stderr, ended.returncode)

    def of(self, text: bytes, prepare: Callable[[], None] | None = None) -> Ended[bytes]:
        """Runs a file of this text."""
        self.file.write_bytes(text)
        return self.run(self.file, prepare=prepare)


def as_ended(it: Outcome) -> Ended[bytes]:
    """A program that prints what the model prints, tells nothing, and ends so."""
    return Ended(it.output, b"", it.status)


def first_difference(came: bytes, wanted: bytes) -> list[str]:
    """The place of the first line that differs in two long texts, with what is wanted and what came from there on."""
    if came == wanted:
        return []
    begin = wanted.rfind(b"\n", 0, agreeing(came, wanted)) + 1
    return [f"from byte {begin} of {len(it)}: {it[begin : begin + SHOWN]!r}" for it in (wanted, came)]


class RsimCase(Case):
    """Tests that have the simulator, and a folder that is empty at the start of each test."""

    def setUp(self) -> None:
        self.rsim = Rsim(built("rsim"), Path(self.enterContext(tempfile.TemporaryDirectory(prefix="rsim-"))))

    def prints(self, name: str, came: Ended[bytes], wanted: Outcome, *seen: object) -> bool:
        """Compares what the program or the model came to with what is wanted. A failure shows the first line that differs."""
        return self.same(name, came, as_ended(wanted), *first_difference(came.output, wanted.output), *seen)
