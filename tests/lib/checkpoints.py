"""Dumps with a checkpoint file: the usual run and what may be counted of it, dumps that are stopped or changed in their midst, and disks that are
full."""

from __future__ import annotations

import os
import signal
import subprocess
import threading
from contextlib import contextmanager, suppress
from pathlib import Path
from typing import Callable, Iterator

from tests.lib.dumping import BLOCKS, DAY, Programs, end_of, requests_of
from tests.lib.ended import Ended
from tests.lib.played_servers import Model, Reel
from tests.lib.waiting import GUARD_SECONDS
from tests.lib.wire import DEVICE
from tests.models.world import Run, Volume

FILE = "usr.checkpoint"
KEPT = ("--checkpoint", FILE)

# The run of the usual words, and what can be counted of it.
RUN = Run(DEVICE.encode(), b"/usr", 0, DAY, 0, 1024, 3)
ONE = (Volume(1, 0, 2),)
BOTH = (*ONE, Volume(2, 2, 1))
ATTEMPTS = [requests_of(1, 0, BLOCKS), requests_of(2, 2, BLOCKS[2:])]

# The requests of the first attempt, and of both; the write of the label of the second volume.
FIRST_REQUESTS, ALL_REQUESTS = len(ATTEMPTS[0]), sum(map(len, ATTEMPTS))
SECOND = FIRST_REQUESTS + 5


def two() -> list[Reel]:
    """Reels for both volumes."""
    return [Reel("r1", 3100), Reel("r2", 3100)]


def kept(p: Programs, name: str = FILE) -> bytes | None:
    """What the file holds, None where there is none."""
    return p.bytes_of(name)


def going_on(counts: tuple[Volume, ...], run: Run = RUN) -> str:
    return f"going on: {len(counts)} volumes, {sum(it.blocks for it in counts)} blocks of {run.blocks} counted\n"


def started(p: Programs, address: str, *more: str, **changed: str | None) -> subprocess.Popen[bytes]:
    """A dump with the file that goes on while others are looked at. Where it writes past a limit that is told, and does not end it."""
    return start(p, p.rdump, *p.dump_words(address, *KEPT, *more, **changed))


def start(p: Programs, *words: str) -> subprocess.Popen[bytes]:
    """A program that goes on, and that a write past a limit does not end."""
    pipe = subprocess.PIPE
    return subprocess.Popen(words, cwd=p.folder, restore_signals=False, stdin=pipe, stdout=pipe, stderr=pipe)


def acted_on(p: Programs, number: int, act: Callable[[subprocess.Popen[bytes]], object], lost: bool, *more: str, **changed: str | None) -> Ended[str]:
    """A dump to which something is done when its request of this number has come. The reply to that is lost then, or is not."""
    return acted_on_saying(p, b"", number, act, lost, *more, **changed)


def acted_on_saying(
    p: Programs, said: bytes, number: int, act: Callable[[subprocess.Popen[bytes]], object], lost: bool, *more: str, **changed: str | None
) -> Ended[str]:
    """The same with a dump whose standard input has these bytes."""
    runs: list[subprocess.Popen[bytes]] = []
    is_there = threading.Event()

    def do() -> None:
        is_there.wait(GUARD_SECONDS)
        act(runs[0])

    with Model(*two(), acts={number: do}, lost=(number,) if lost else ()) as model:
        runs.append(started(p, model.address, *more, **changed))
        is_there.set()
        return end_of(p.case, runs[0], said)


def stopped_at(p: Programs, number: int, *more: str, by: int = signal.SIGKILL, **changed: str | None) -> Ended[str]:
    """A dump that a signal ends when its request of this number has come."""
    return acted_on(p, number, lambda run: stop(run, by), True, *more, **changed)


def stop(run: subprocess.Popen[bytes], by: int = signal.SIGKILL) -> None:
    """Ends a program by a signal."""
    run.send_signal(by)
    run.wait(GUARD_SECONDS)


def fill(folder: Path) -> None:
    """Leaves no room on a small disk."""
    with folder.joinpath("filler").open("wb", buffering=0) as filler, suppress(OSError):
        while True:
            filler.write(bytes(64))


@contextmanager
def small_disk(folder: Path) -> Iterator[bool]:
    """A disk of a few pages at this folder; whether it could be had."""
    folder.mkdir()
    words = ("mount", "-t", "tmpfs", "-o", "size=16k", "small", str(folder))
    mounted = os.geteuid() == 0 and subprocess.run(words, capture_output=True, check=False).returncode == 0
    try:
        yield mounted
    finally:
        if mounted:
            subprocess.run(("umount", str(folder)), check=True)
