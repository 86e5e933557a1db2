"""A pseudo-terminal that programs write to, and what clears a line there."""

from __future__ import annotations

import os
import pty
from contextlib import suppress
from typing import Self

CLEAR = "\r\x1b[K"


class Terminal:
    """A pseudo-terminal. Programs write to its far end; once they have ended, `shown` is all that they wrote."""

    def __init__(self) -> None:
        self.near, self.far = pty.openpty()
        self.is_open = True

    def written(self) -> bytes:
        """What was written. Nothing can be written any more then."""
        self.leave()
        taken = b""
        # A read of the near end fails once nobody has the far end open.
        with suppress(OSError):
            while piece := os.read(self.near, 4096):
                taken += piece
        return taken

    def shown(self) -> str:
        """What was written, as text."""
        return self.written().decode()

    def leave(self) -> None:
        """Closes the far end here."""
        if self.is_open:
            os.close(self.far)
        self.is_open = False

    def __enter__(self) -> Self:
        return self

    def __exit__(self, *_: object) -> None:
        self.leave()
        os.close(self.near)
