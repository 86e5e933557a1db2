"""Measures `rdump ls` on many reels, alone, with as many lines of dumpdates, and with a catalog, in one run.

    python3 -m bench.list [PROGRAM]

Each reel has a dump of its own, of one volume without blocks. It prints ratios of the least of several times: with lines beside
without, without beside `cat` of the reels, and twice as many reels beside half of them.
"""

from __future__ import annotations

import argparse
import subprocess
import sys
import tempfile
from datetime import datetime, timezone
from functools import partial
from pathlib import Path
from typing import NamedTuple, Sequence

from bench.stdio import Words
from bench.times import Time, in_turns, timed
from bench.told import ratio_of_times, seconds
from tests.lib.listings import Label
from tests.models.catalog import Begun, Counted, Finished, Id, sum_of
from tests.models.rmtd import images

BUILT = Path(__file__).resolve().parent.parent / "crates/rdump/out/rdump"

REPEATS = 3
COUNTS = (1_000, 4_000, 20_000, 40_000)
# A date, and the size of blocks that a line names.
DAY, BLOCK = 951_782_400, 1024
# What is wanted at most of a list with lines beside one without, and of twice as many reels.
WANTED_OF_LINES, WANTED_OF_TWICE = 3.0, 2.3


class Shelf(NamedTuple):
    """Reels in a folder, and the lines of their dumps."""

    size: int
    reels: Path
    dates: Path
    catalog: Path


def date_text(date: int) -> str:
    """A date as dumpdates has it."""
    return f"{datetime.fromtimestamp(date, timezone.utc):%a %b %e %H:%M:%S %Y}"


class Dump(NamedTuple):
    """The record file of a dump's only volume, and its lines of dumpdates and of the catalog, three of these."""

    reel: bytes
    dates: str
    catalog: bytes


def dump(id: Id) -> Dump:
    """A dump of a volume without blocks."""
    reel = images([Label(*id, 1, 0).record(), None])
    lines = Begun(id, 0).text() + Counted(id, sum_of(reel), 1, 0, 0, 0, len(reel)).text() + Finished(id, 1, 0, BLOCK, 0).text()
    return Dump(reel, f"{id.name:<32} {id.level} {date_text(id.date)}\n", lines)


def shelf(folder: Path, size: int) -> Shelf:
    """Makes so many reels, and as many lines of dumpdates. The catalog has three lines of each dump."""
    made = Shelf(size, folder / f"reels{size}", folder / f"dates{size}", folder / f"catalog{size}")
    made.reels.mkdir()
    dumps = [dump(Id(f"/fs/{number * 7919 % size}", number % 10, DAY + number, 0)) for number in range(size)]
    for number, it in enumerate(dumps):
        (made.reels / f"r{number}").write_bytes(it.reel)
    made.dates.write_text("".join(it.dates for it in dumps))
    made.catalog.write_bytes(b"".join(it.catalog for it in dumps))
    return made


def run(words: Words) -> None:
    """Runs a program, which has to end well."""
    subprocess.run(words, stdin=subprocess.DEVNULL, stdout=subprocess.DEVNULL, check=True)


def forms(program: Path, it: Shelf) -> dict[str, Words]:
    """The ways in which reels are listed."""
    plain = (str(program), "ls", str(it.reels))
    return {
        "ls": plain,
        "ls --dumpdates": (*plain, "--dumpdates", str(it.dates)),
        "ls --catalog": (*plain, "--catalog", str(it.catalog)),
        "cat": ("find", str(it.reels), "-type", "f", "-exec", "cat", "{}", "+"),
    }


def least_of(program: Path, it: Shelf) -> dict[str, Time]:
    """The least time of each way."""
    ways = forms(program, it)
    return dict(zip(ways, in_turns([partial(timed, partial(run, words)) for words in ways.values()], REPEATS)))


def measure(program: Path, folder: Path, counts: Sequence[int]) -> None:
    """Prints the table."""
    print(f"{'time of':<22}{'reels':>8}{'time':>12}{'processor':>12}{'to cat':>8}{'to ls':>8}{'to half':>9}")
    of_count: dict[int, dict[str, Time]] = {}
    for count in counts:
        times = of_count[count] = least_of(program, shelf(folder, count))
        cat = times.pop("cat")
        for title, time in times.items():
            beside_cat = f"{ratio_of_times(f'{title}, {count:,} reels / cat', time, cat):.2f}"
            beside, twice = "", ""
            if title != "ls":
                beside = f"{ratio_of_times(f'{title}, {count:,} reels / ls', time, times['ls'], WANTED_OF_LINES):.2f}"
            if half := of_count.get(count // 2):
                twice = f"{ratio_of_times(f'{title}, {count:,} reels / half of them', time, half[title], WANTED_OF_TWICE):.2f}"
            row = f"{title:<22}{count:>8,}{seconds(time):>12}{seconds(time.processor):>12}"
            print(f"{row}{beside_cat:>8}{beside:>8}{twice:>9}", flush=True)


def main() -> int:
    """Measures the program, and ends with 0 where it listed all reels."""
    parser = argparse.ArgumentParser(description="Ratios of one run of rdump ls on many reels.")
    parser.add_argument("program", nargs="?", type=Path, default=BUILT, help="the built rdump")
    parser.add_argument("--reels", type=int, nargs="+", default=COUNTS, help="how many reels")
    given = parser.parse_args()
    program = given.program.resolve()
    if not program.is_file():
        parser.error(f"there is no program {program}: make build builds it")
    with tempfile.TemporaryDirectory(prefix="rdump-bench-") as folder:
        measure(program, Path(folder), given.reels)
    return 0


if __name__ == "__main__":
    sys.exit(main())
