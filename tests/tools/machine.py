"""This machine: how many checks of the prover it runs at once, whose turn it is, which checks run below this process, and how much memory is left.

RT_JOBS=N has N checks run at once. Without it one check runs a processor, where memory holds as many.
"""

from __future__ import annotations

import os
import threading
import time
from collections import defaultdict
from contextlib import contextmanager, suppress
from pathlib import Path
from typing import Iterator

KINDS = ("proof", "tests", "edits")
# How many bytes of memory are wanted for a check. Few take as much; the largest took 4.4 GB.
CHECK = 4_000_000_000
# Where the system tells the memory that is free, and a group's limit and what of that is used.
MEMORY = Path("/proc/meminfo")
LIMIT, USED = Path("/sys/fs/cgroup/memory.max"), Path("/sys/fs/cgroup/memory.current")
# What has mimalloc, the allocator of the prover, keep the memory that is free. It would give it back to the system and ask for it again: a check of
# `drives` spent 2 hundredths of its time on the pages that the system then clears. With this the check held a tenth more.
KEEPS_MEMORY = {"MIMALLOC_PURGE_DELAY": "-1"}
# How many seconds to wait before it is looked again whether a check can begin; and how many with nothing to wait for but memory.
PAUSE, LONGEST = 1.0, 60.0


def free_memory() -> int:
    """How many bytes of memory are free, also under the limit of this group of processes, where there is one."""
    told = dict(line.split(":") for line in MEMORY.read_text().splitlines())
    free = 1024 * int(told["MemAvailable"].split()[0])
    try:
        return min(free, int(LIMIT.read_text()) - int(USED.read_text()))
    except (OSError, ValueError):
        # There is no such group, or it has no limit.
        return free


def processors() -> int:
    return len(os.sched_getaffinity(0))


def checks_at_once() -> int:
    """How many checks run side by side."""
    asked = os.environ.get("RT_JOBS", "")
    return int(asked) if asked.isdigit() and int(asked) else max(1, min(processors(), free_memory() // CHECK))


class ShortOfMemory(Exception):
    """A check could not begin: no other runs, and there is too little memory for it."""


class Turns:
    """The turns of checks: at most so many run at once, and none begins with less memory than a check may take."""

    def __init__(self, jobs: int) -> None:
        self.jobs = jobs
        self.changed = threading.Lock()
        self.running = 0
        self.waiting: list[int] = []

    def begins(self, size: int) -> bool:
        """Counts a check of a crate of this size as running, if it begins now: it is the largest that waits, and there is a processor and memory for
        it."""
        with self.changed:
            if size < max(self.waiting) or self.running >= self.jobs or free_memory() < CHECK:
                return False
            self.running += 1
            return True

    @contextmanager
    def turn(self, size: int) -> Iterator[None]:
        """What a check of a crate of this size runs in. ShortOfMemory if there is too little memory for it, and none runs that holds it."""
        with self.changed:
            self.waiting.append(size)
        try:
            stuck = 0.0
            while not self.begins(size):
                stuck = 0.0 if self.running or free_memory() >= CHECK else stuck + PAUSE
                if stuck > LONGEST:
                    raise ShortOfMemory(f"a check wants {CHECK / 1e9:.0f} GB of memory, and {free_memory() / 1e9:.1f} GB are free")
                time.sleep(PAUSE)
        finally:
            # Also if looking failed, or the smaller ones would wait for it for ever.
            with self.changed:
                self.waiting.remove(size)
        try:
            yield
        finally:
            with self.changed:
                self.running -= 1


def processes() -> dict[str, tuple[str, list[str]]]:
    """The parent and the command line of each process, by its number."""
    found = {}
    for it in Path("/proc").glob("[0-9]*"):
        # It may have ended.
        with suppress(OSError):
            words = it.joinpath("cmdline").read_bytes().decode(errors="replace").split("\0")
            found[it.name] = it.joinpath("stat").read_text(errors="replace").rpartition(")")[2].split()[1], words
    return found


def provers() -> list[list[str]]:
    """The command lines of the provers below this process, but for those that a prover started, to work for it."""
    every = processes()

    def above(number: str) -> Iterator[str]:
        while number in every:
            number = every[number][0]
            yield number

    found = [it for it, (_, words) in every.items() if words[0].endswith("/rattle") and str(os.getpid()) in above(it)]
    return [every[it][1] for it in found if every[it][0] not in found]


def check_of(words: list[str]) -> tuple[str, str] | None:
    """The crate that a prover with this command line checks, and what of it; None if it does something else."""
    if not {"check", "build"} & set(words[1:2]) or "--crate-name" not in words:
        return None
    is_edit = any("-edits" in word for word in words)
    return words[words.index("--crate-name") + 1], "edits" if is_edit else "tests" if "--test" in words else "proof"


class Watch(threading.Thread):
    """Looks each second which checks run below this process: adds up the time of each, and keeps the most at once and the least memory."""

    def __init__(self) -> None:
        super().__init__(daemon=True)
        self.seconds: dict[tuple[str, str], float] = defaultdict(float)
        self.most, self.least = 0, free_memory()
        self.began = time.monotonic()
        self.done = threading.Event()

    def run(self) -> None:
        last = self.began
        while not self.done.wait(1):
            now, running = time.monotonic(), provers()
            for check in filter(None, {check_of(it) for it in running}):
                self.seconds[check] += now - last
            self.most, self.least, last = max(self.most, len(running)), min(self.least, free_memory()), now

    def end(self) -> str:
        """Ends it. Returns the minutes of each crate, and a line for the whole."""
        self.done.set()
        self.join()
        crates = sorted({crate for crate, _ in self.seconds}, key=lambda it: -sum(self.seconds.get((it, kind), 0) for kind in KINDS))
        rows = [(it, "".join(f"{self.seconds.get((it, kind), 0) / 60:8.1f}" for kind in KINDS)) for it in crates]
        head = f"{'minutes':17}" + "".join(f"{kind:>8}" for kind in KINDS)
        whole = (time.monotonic() - self.began) / 60
        counts = f"at most {self.most} provers at once on {processors()} processors"
        last = f"{counts}, at least {self.least / 1e9:.1f} GB of memory free, {whole:.1f} minutes"
        return "\n".join([head, *(f"{crate:17}{numbers}" for crate, numbers in rows), last])
