"""Measures `rsim` on schedules of growing length: seconds a line, beside those of a schedule a tenth as long.

    python3 -m bench.schedules RSIM

A ratio near 1 says that the time grows with the lines.
"""

from __future__ import annotations

import argparse
import subprocess
import tempfile
import time
from pathlib import Path
from typing import Callable

from bench.told import ratio

SHORT, LONG = 100_000, 1_000_000
HEAD = "drive /dev/st0 9000000000 r1\n"


def comments(lines: int) -> str:
    return HEAD + "# nothing\n" * lines


def words(lines: int) -> str:
    """A stranger who sends a byte a line, each of which is delivered and carried out three lines later."""
    request = ["says 1 43", "says 1 0a", "to-server 1 all", "serve 1", "to-client 1 all"]
    return HEAD + "stranger\n" + "\n".join(request * (lines // len(request))) + "\n"


def seconds(program: str, text: str) -> float:
    with tempfile.TemporaryDirectory() as folder:
        path = Path(folder, "schedule")
        path.write_text(text)
        began = time.monotonic()
        subprocess.run([program, str(path)], stdout=subprocess.DEVNULL, check=True)
        return time.monotonic() - began


def main() -> None:
    parser = argparse.ArgumentParser(description="Measures rsim on schedules of growing length.")
    parser.add_argument("program", help="the built rsim")
    program = parser.parse_args().program
    kinds: list[tuple[str, Callable[[int], str]]] = [("comments", comments), ("a stranger's requests", words)]
    for title, made in kinds:
        short, long = (seconds(program, made(lines)) / lines for lines in (SHORT, LONG))
        ratio(f"rsim, a line of 10 times the lines: {title}", long / short, 1.5, f"{long * 1e6:.2f} us a line")
        print(f"rsim, {title}: {long * 1e6:.2f} microseconds a line of {LONG}; {long / short:.2f} times that of {SHORT}")


if __name__ == "__main__":
    main()
