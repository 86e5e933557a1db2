"""Measures how long the two readers of `rmt_wire` take for a stream that is fed in pieces.

    python3 -m bench.feed [PROGRAM]

It prints ratios of the least of several times, without the start of a process.
"""

from __future__ import annotations

import argparse
import subprocess
import sys
from pathlib import Path

from bench.stdio import LINEAR, Words, least_times
from bench.told import ratio, ratio_of_times
from bench.wire import GREATEST_RECORD

BUILT = Path(__file__).resolve().parent.parent / "crates/bench_feed/out/bench_feed"

REPEATS = 7
# How many values, of as many data or text bytes as a record has at most, the shorter stream has: 1 MiB of them.
FEW = (1 << 20) // GREATEST_RECORD
# A piece as large as a value, with its line.
WHOLE = GREATEST_RECORD + 12
# Whole pieces take so little time that more of them are fed.
MORE = 200

KINDS = (
    ("requests", f"writes of {GREATEST_RECORD:,} bytes"),
    ("replies", f"replies with {GREATEST_RECORD:,} bytes"),
    ("errors", f"errors with {GREATEST_RECORD:,} bytes of text"),
)


def fed(words: Words, _source: Path) -> None:
    """Runs the program, which ends with 0 only where the reader gave each value that it was fed."""
    subprocess.run(words, stdin=subprocess.DEVNULL, stdout=subprocess.DEVNULL, check=True)


def ratios(program: str, kind: str, title: str) -> str:
    """A line of the table: twice the stream beside the stream, and one byte a piece beside whole pieces."""
    feeds = ((0, 1), (FEW, 1), (2 * FEW, 1), (FEW, 2), (MORE * FEW, WHOLE))
    runs = [((program, kind, str(count), str(piece)), Path()) for count, piece in feeds]
    none, once, twice, pairs, whole = least_times(fed, runs, REPEATS)
    single = once - none
    one_piece = MORE * single / (whole - none)
    nanoseconds = single / (FEW * GREATEST_RECORD) * 1e9
    ratio_of_times(f"fed {title} / half of them", twice - none, single, LINEAR)
    ratio(f"fed {title} / in one piece", one_piece, None, f"{nanoseconds:.0f} ns a byte")
    return f"{title:<36}{(twice - none) / single:>16.2f}{single / (pairs - none):>20.2f}{one_piece:>16.0f}{nanoseconds:>12.0f}"


def main() -> int:
    """Measures the program, and ends with 0 where it was given all that it fed."""
    parser = argparse.ArgumentParser(description="Ratios of one run of the readers on streams in pieces.")
    parser.add_argument("program", nargs="?", type=Path, default=BUILT, help="the built feed")
    program = parser.parse_args().program.resolve()
    if not program.is_file():
        parser.error(f"there is no program {program}: make build builds it")
    print(f"Ratios of this run, of the least of {REPEATS} times each, of one byte a piece.\n")
    print(f"{'fed to a reader':<36}{'to half of it':>16}{'to 2 bytes a piece':>20}{'to one piece':>16}{'ns a byte':>12}")
    for kind, title in KINDS:
        print(ratios(str(program), kind, title), flush=True)
    print("\nAbout 2 beside half of it says that the time grows with the bytes, and no faster: it is linear.")
    print("A piece costs two calls, so one byte a piece takes about twice what two bytes a piece take. In one piece the")
    print("bytes are copied at once, and there is one call of each.")
    return 0


if __name__ == "__main__":
    sys.exit(main())
