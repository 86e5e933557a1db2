"""The ratios of the benchmarks. Each is one line of out/bench.tsv, which table.py prints at the end of `make bench`."""

from __future__ import annotations

from pathlib import Path
from typing import NamedTuple

from bench.times import Time

TOLD = Path(__file__).resolve().parent.parent / "out/bench.tsv"


class Ratio(NamedTuple):
    """What was measured beside what, the ratio, the most that is wanted of it, and the figures that it was made from."""

    name: str
    value: float
    wanted: float | None
    figures: str

    def holds(self) -> bool | None:
        """Whether the ratio is no more than wanted; None where nothing is."""
        return None if self.wanted is None else self.value <= self.wanted


def ratio(name: str, value: float, wanted: float | None = None, figures: str = "") -> None:
    """Adds a line. A name that was told before stands for its last line."""
    TOLD.parent.mkdir(parents=True, exist_ok=True)
    with TOLD.open("a") as lines:
        lines.write(f"{name}\t{value!r}\t{'' if wanted is None else wanted}\t{figures}\n")


def ratio_of_times(name: str, ours: float, theirs: float, wanted: float | None = None) -> float:
    """Adds the ratio of two times in seconds, with the processor seconds of those that have them, and answers it."""
    spent = " / ".join(seconds(it.processor) for it in (ours, theirs) if isinstance(it, Time))
    ratio(name, ours / theirs, wanted, f"{seconds(ours)} / {seconds(theirs)}" + (f"; processor {spent}" if spent else ""))
    return ours / theirs


def seconds(time: float) -> str:
    """A time with its unit."""
    for least, unit in ((1, "s"), (1e-3, "ms"), (1e-6, "us")):
        if abs(time) >= least:
            return f"{time / least:.3g} {unit}"
    return f"{time * 1e9:.3g} ns"


def ratios() -> list[Ratio]:
    """The ratios that were told, each name once."""
    rows = [it.split("\t") for it in TOLD.read_text().splitlines()] if TOLD.is_file() else []
    found = {name: Ratio(name, float(value), float(wanted) if wanted else None, figures) for name, value, wanted, figures in rows}
    return list(found.values())
