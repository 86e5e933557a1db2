"""What `rdump cat` writes of reels, with a length or with a catalog."""

from __future__ import annotations

import subprocess
import tempfile
from pathlib import Path
from typing import Any, Mapping

from tests.lib.case import Case
from tests.lib.ended import Ended
from tests.lib.places import built
from tests.lib.waiting import GUARD_SECONDS

# What is told if a payload was written without a catalog.
LOOK_ALIKE = b"rdump: without a catalog: two payloads of one name, level and dates look alike\n"


def cat_with(*words: str, folder: Path | None = None, stdout: int = subprocess.PIPE, **how: Any) -> Ended[bytes]:
    """What came of `rdump cat` with these words, in a folder, started as `how` tells Popen."""
    ran = subprocess.run(
        (built("rdump"), "cat", *words),
        cwd=folder,
        stdin=subprocess.DEVNULL,
        stdout=stdout,
        stderr=subprocess.PIPE,
        timeout=GUARD_SECONDS,
        check=False,
        **how,
    )
    return Ended(ran.stdout or b"", ran.stderr, ran.returncode)


def cat(length: int, *words: str, folder: Path | None = None, stdout: int = subprocess.PIPE, **how: Any) -> Ended[bytes]:
    """What came of `rdump cat` with this length and these words."""
    return cat_with("--length", str(length), *words, folder=folder, stdout=stdout, **how)


class ReelFolder(Case):
    """A folder of reels."""

    def setUp(self) -> None:
        self.folder = Path(self.enterContext(tempfile.TemporaryDirectory(prefix="cat-")))

    def lay(self, files: Mapping[str, bytes]) -> None:
        """Makes files of these bytes, and their folders."""
        for name, data in files.items():
            path = self.folder / name
            path.parent.mkdir(parents=True, exist_ok=True)
            path.write_bytes(data)
