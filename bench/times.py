"""How long programs take: the time that passes, and the processor seconds that they spend in it."""

from __future__ import annotations

import resource
import time
from pathlib import Path
from typing import Callable, Sequence

ROUNDS = 7
# What a benchmark starts and does not measure.
LEFT_OUT = "relay\n"


class Time(float):
    """Seconds that passed, with the processor seconds, the user's and the system's, of all programs that were measured."""

    processor: float

    def __new__(cls, passed: float, processor: float) -> Time:
        made = super().__new__(cls, passed)
        made.processor = processor
        return made

    def __sub__(self, other: float) -> Time:
        return Time(float(self) - float(other), self.processor - (other.processor if isinstance(other, Time) else 0))


def processor_seconds() -> float:
    """The processor seconds of all programs that this thread has started: those that ended, and those that run."""
    ended = resource.getrusage(resource.RUSAGE_CHILDREN)
    running = [it for it in Path("/proc/thread-self/children").read_text().split() if Path(f"/proc/{it}/comm").read_text() != LEFT_OUT]
    # clock_getcpuclockid(3) makes the number of a process's clock so.
    return ended.ru_utime + ended.ru_stime + sum(time.clock_gettime(~int(it) << 3 | 2) for it in running)


def timed(act: Callable[[], object]) -> Time:
    """The time of an act: a server that runs before and after it counts with what it does meanwhile."""
    spent, began = processor_seconds(), time.perf_counter()
    act()
    passed = time.perf_counter() - began
    return Time(passed, processor_seconds() - spent)


def in_turns(acts: Sequence[Callable[[], Time]], rounds: int = ROUNDS) -> list[Time]:
    """The least time of each act. They take turns, so that what else the machine does falls on all of them."""
    return [min(times) for times in zip(*([act() for act in acts] for _ in range(rounds)))]
