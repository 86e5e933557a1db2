"""Measures `rdump dates` on a long dumpdates file, beside `cat` and `wc -l` on the same file in the same run.

    python3 -m bench.dates [PROGRAM]

It prints ratios of the least of several times, each with the start of a process in it but where it is said otherwise.
"""

from __future__ import annotations

import argparse
import subprocess
import sys
import tempfile
from pathlib import Path

from bench.stdio import LINEAR, Words, least_times
from bench.told import ratio_of_times

BUILT = Path(__file__).resolve().parent.parent / "crates/rdump/out/rdump"

REPEATS = 15
LINES = 100_000


def reading(words: Words, source: Path) -> None:
    """Runs a program with a file as its last word."""
    subprocess.run((*words, str(source)), stdin=subprocess.DEVNULL, stdout=subprocess.DEVNULL, check=True)


def lines_of(count: int) -> str:
    """A dumpdates file of so many entries, as it is written, each of another name, with two dates in turn."""
    dates = "Wed Mar  1 00:00:00 2000", "Tue Feb 29 00:00:00 2000"
    return "".join(f"{f'/fs/{number}':<32} {number % 10} {dates[number % 2]}\n" for number in range(count))


def answer(words: Words, source: Path) -> bytes:
    """What a program writes of a file that is its last word."""
    return subprocess.run((*words, str(source)), stdout=subprocess.PIPE, check=True).stdout


def measure(program: Path, folder: Path) -> bool:
    """Prints the table; answers whether the program's answers were right, so the times are those of the work meant."""
    whole, half, none = folder / "whole", folder / "half", folder / "none"
    for path, count in ((whole, LINES), (half, LINES // 2), (none, 0)):
        path.write_text(lines_of(count))
    anew = (str(program), "dates", "--file")
    base = (str(program), "dates", "--name", f"/fs/{LINES - 2}", "--level", "9", "--file")
    print(f"{f'time of rdump dates, {LINES:,} lines':<38}{'to cat':>10}{'to wc -l':>12}{'to half of it':>16}")
    for title, words, wanted in (("the text anew", anew, whole.read_bytes()), ("a base date", base, b"951868800\n")):
        if answer(words, whole) != wanted:
            print(f"{title}: the program's answer is not as expected")
            return False
        runs = [(words, whole), (words, half), (words, none), (("cat",), whole), (("wc", "-l"), whole)]
        all_lines, half_lines, no_lines, cat, wc = least_times(reading, runs, REPEATS)
        name = f"dates, {title}"
        beside_cat = ratio_of_times(f"{name} / cat", all_lines, cat)
        beside_wc = ratio_of_times(f"{name} / wc -l", all_lines, wc)
        beside_half = ratio_of_times(f"{name} / half of the lines", all_lines - no_lines, half_lines - no_lines, LINEAR)
        print(f"{title:<38}{beside_cat:>10.2f}{beside_wc:>12.2f}{beside_half:>16.2f}", flush=True)
    print(f"The file has {whole.stat().st_size:,} bytes. Beside half of it: without what a file of no lines takes.")
    print("About 2 for twice the lines says that the time grows with the lines, and no faster: it is linear.")
    return True


def main() -> int:
    """Measures the program, and ends with 0 where its answers were right."""
    parser = argparse.ArgumentParser(description="Ratios of one run of rdump dates on a long file.")
    parser.add_argument("program", nargs="?", type=Path, default=BUILT, help="the built rdump")
    program = parser.parse_args().program.resolve()
    if not program.is_file():
        parser.error(f"there is no program {program}: make build builds it")
    print(f"Ratios of this run, of the least of {REPEATS} times each.\n")
    with tempfile.TemporaryDirectory(prefix="rdump-bench-") as folder:
        return 0 if measure(program, Path(folder)) else 1


if __name__ == "__main__":
    sys.exit(main())
