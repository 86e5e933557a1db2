"""How long a test waits, and a wait until something holds."""

from __future__ import annotations

import time
from contextlib import suppress
from typing import Callable

# What does not come in this time does not come, and a program that does not end in it is killed. So the checks end.
GUARD_SECONDS = 60
# The seconds of a limit of a program's own that no test comes to, and those of the greatest limit, as arguments have them.
FAR, GREATEST = 2 * GUARD_SECONDS, str((1 << 63) - 1)


def soon(holds: Callable[[], object], seconds: float = GUARD_SECONDS) -> bool:
    """Whether it holds now or within some seconds. What cannot be looked at does not hold yet."""
    until = time.monotonic() + seconds
    while True:
        with suppress(OSError):
            if holds():
                return True
        if time.monotonic() > until:
            return False
        time.sleep(0.01)
