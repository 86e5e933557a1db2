"""Prints the ratios that the benchmarks told, and the machine that they were measured on.

    python3 -m bench.table [--json FILE]

With --json it also writes them to FILE as JSON. It ends with 0 also where a ratio is more than is wanted of it: what else the machine does falls on a
ratio too.
"""

from __future__ import annotations

import argparse
import json
import os
import platform
import re
import subprocess
import sys
import tempfile
from pathlib import Path
from typing import NamedTuple

from bench.told import Ratio, ratios

WORDS = {True: "held", False: "NOT HELD", None: ""}


class Machine(NamedTuple):
    """The processors, the kernel, the file system of the temporary folder, and the load of the last 1, 5 and 15 minutes."""

    processors: int
    model: str
    system: str
    file_system: str
    load: tuple[float, float, float]

    def line(self) -> str:
        load = ", ".join(f"{it:.1f}" for it in self.load)
        return f"machine: {self.processors} processors, {self.model}; {self.system}; {self.file_system}; load {load}"


def file_system() -> str:
    """The file system of the temporary folder, in which the benchmarks write."""
    folder = tempfile.gettempdir()
    told = subprocess.run(("df", "-PT", folder), stdout=subprocess.PIPE, text=True, check=False).stdout.splitlines()
    return f"{told[1].split()[1] if len(told) > 1 else 'unknown'} under {folder}"


def machine() -> Machine:
    """This machine."""
    model = re.search(r"model name\s*:\s*(.+)", Path("/proc/cpuinfo").read_text())
    system = f"{platform.system()} {platform.release()}"
    return Machine(len(os.sched_getaffinity(0)), model[1] if model else platform.machine(), system, file_system(), os.getloadavg())


def line(it: Ratio, width: int) -> str:
    wanted = "" if it.wanted is None else f"<= {it.wanted:g}"
    return f"{it.name:<{width}}{it.value:>8.2f}{wanted:>10}  {WORDS[it.holds()]:<10}{it.figures}".rstrip()


def table(found: list[Ratio], here: Machine) -> str:
    """The ratios as a table, how many are as wanted, and the machine."""
    width = max(len(it.name) for it in found) + 2
    held = [it.holds() for it in found if it.wanted is not None]
    lines = [
        f"{'measured / beside':<{width}}{'ratio':>8}{'wanted':>10}  {'':<10}times or figures",
        *(line(it, width) for it in found),
        f"{sum(map(bool, held))} of {len(held)} are as wanted",
        here.line(),
    ]
    return "\n".join(lines)


def as_json(found: list[Ratio], here: Machine) -> str:
    """The same as JSON: an object with the machine, and a list with an object for each ratio. CONTRIBUTING.md lists the names in it."""
    told = [{**it._asdict(), "held": it.holds()} for it in found]
    return json.dumps({"machine": here._asdict(), "ratios": told}, indent=1) + "\n"


def main() -> int:
    parser = argparse.ArgumentParser(description="Prints the ratios of all benchmarks.")
    parser.add_argument("--json", type=Path, metavar="FILE", help="also write them to this file as JSON")
    words = parser.parse_args()
    found, here = ratios(), machine()
    if not found:
        print("No benchmark has told a ratio: make bench runs them.")
        return 1
    print(table(found, here))
    if words.json:
        words.json.write_text(as_json(found, here))
    return 0


if __name__ == "__main__":
    sys.exit(main())
