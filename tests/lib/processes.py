"""Processes: one that is killed when it does not end, one that is stopped for a while, and what the system tells of one."""

from __future__ import annotations

import os
import re
import signal
import subprocess
import threading
import time
from contextlib import contextmanager, suppress
from pathlib import Path
from typing import Any, AnyStr, Callable, Iterator, Sequence

from tests.lib.case import Case
from tests.lib.ended import Ended
from tests.lib.given import given
from tests.lib.waiting import GUARD_SECONDS, soon


@contextmanager
def guarded(process: subprocess.Popen[AnyStr], seconds: float = GUARD_SECONDS) -> Iterator[subprocess.Popen[AnyStr]]:
    """A process that is killed at the end, and when it does not end in some seconds. Its pipes are closed then."""
    guard = threading.Timer(seconds, process.kill)
    guard.start()
    try:
        yield process
    finally:
        process.kill()
        process.wait()
        guard.cancel()
        for it in (process.stdin, process.stdout, process.stderr):
            with suppress(OSError):
                if it:
                    it.close()


def tried(words: Sequence[str], **how: Any) -> Ended[str]:
    """A program that is to end by itself, started as `how` tells Popen. Where it does not end it is killed."""
    options: dict[str, Any] = {"stdin": subprocess.DEVNULL, "stdout": subprocess.PIPE, "stderr": subprocess.PIPE} | how
    with guarded(subprocess.Popen(words, text=True, **options)) as process:
        output, errors = process.communicate()
    return Ended(output or "", errors or "", process.returncode)


def stop_for(case: Case, process: int, seconds: float, during: Callable[[], object] = lambda: None) -> None:
    """Stops a process for so long. Meanwhile something is done."""
    os.kill(process, signal.SIGSTOP)
    case.holds("a process is stopped", soon(lambda: state(process) == "T"))
    during()
    time.sleep(seconds)
    os.kill(process, signal.SIGCONT)


def state(process: int) -> str:
    """The state of the first thread of a process, a letter."""
    return Path(f"/proc/{process}/stat").read_text().rpartition(") ")[2][0]


def sleeps(process: int) -> bool:
    """Whether the first thread of a process waits for something in the system."""
    return state(process) == "S"


def children(process: int) -> list[int]:
    """The processes that a process has started."""
    return [*map(int, Path(f"/proc/{process}/task/{process}/children").read_text().split())]


def peak_of(process: int) -> int:
    """The greatest resident memory of a process so far, in KiB."""
    return int(given(re.search(r"VmHWM:\s+(\d+) kB", Path(f"/proc/{process}/status").read_text()))[1])
