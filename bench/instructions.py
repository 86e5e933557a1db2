"""Counts how many instructions both ends of a dump over the loopback, and of a volume that is read back, run for a byte of a block.

    python3 -m bench.instructions [RMTD [RDUMP]] [--mib N]

The server has its reel in a folder. `valgrind --tool=callgrind` counts, and so the figures are the same whatever else the machine does, but for how
the bytes were cut on their way. What a program takes beside the bytes is left out: the count is that of a dump less that of one a quarter as
long, over the bytes between them. What the system does for them is not counted.
"""

from __future__ import annotations

import argparse
import os
import re
import shutil
import signal
import subprocess
import sys
import tempfile
from pathlib import Path
from typing import Callable, NamedTuple

from bench.network import MIB, Load, Programs, Reels, Words, payload
from bench.told import ratio
from bench.wire import BLOCKS
from tests.lib.given import given
from tests.lib.places import CRATES

COUNT = ("valgrind", "--tool=callgrind", "--callgrind-out-file=/dev/null")
QUARTER = 4


class Counts(NamedTuple):
    """The instructions of the server and of the client."""

    server: int
    client: int

    def beyond(self, other: Counts, size: int) -> tuple[float, float]:
        """How many more they are than others, for each of so many bytes."""
        return (self.server - other.server) / size, (self.client - other.client) / size


def collected(told: bytes) -> int:
    """The instructions that valgrind tells of a program."""
    found = re.search(rb"Collected : (\d+)", told)
    if not found:
        raise RuntimeError(f"valgrind counted nothing: {told.decode(errors='replace')}")
    return int(found[1])


def counted(programs: Programs, reels: Reels, client: Callable[[str], Words]) -> Counts:
    """The instructions of a server, and of a client that it serves."""
    serving = (programs.rmtd, "--listen", "127.0.0.1:0", "--capacity", str(1 << 40), "--bin", str(reels.bin()), f"/dev/st0={reels.paths[0].parent}")
    with subprocess.Popen((*COUNT, *serving), stdout=subprocess.PIPE, stderr=subprocess.PIPE) as server:
        try:
            found = re.search(r"listening on (.+)\n", given(server.stdout).readline().decode())
            ran = subprocess.run((*COUNT, *client(given(found)[1])), stdout=subprocess.DEVNULL, stderr=subprocess.PIPE, check=True)
        finally:
            server.send_signal(signal.SIGTERM)
        return Counts(collected(given(server.stderr).read()), collected(ran.stderr))


def both_ways(programs: Programs, load: Load, out: Path) -> tuple[Counts, Counts]:
    """The instructions of a dump, and of reading a volume back."""
    load.reels.wipe()
    dumped = counted(programs, load.reels, lambda address: programs.writes(address, 0, load.source, load.block))
    load.reels.fill(load.source, load.block)
    return dumped, counted(programs, load.reels, lambda address: programs.reads(address, 0, out))


def measure(programs: Programs, folder: Path, block: int, mib: int) -> None:
    """Prints the lines of one size of blocks."""
    counts, sizes = [], []
    for size in (mib * MIB, mib * MIB // QUARTER):
        load = Load(payload(folder / "source", size), block, Reels(folder / "reels"))
        counts.append(both_ways(programs, load, folder / "out"))
        sizes.append(-(-size // block) * block)
    for way, whole, part in zip(("dumped", "read back"), *counts):
        server, client = whole.beyond(part, sizes[0] - sizes[1])
        for end, value in (("rmtd", server), ("rdump", client)):
            ratio(f"instructions of {end} / byte {way} in blocks of {block:,}", value, None, f"{value * block:,.0f} a block")
        print(f"{f'{way} in blocks of {block:,}':<40}{server:>12.4f}{client:>12.4f}{server * block:>16,.0f}{client * block:>16,.0f}", flush=True)


def main() -> int:
    parser = argparse.ArgumentParser(description="Counts the instructions that both ends of a dump run for a byte.")
    parser.add_argument("rmtd", nargs="?", default=str(CRATES / "rmtd/out/rmtd"))
    parser.add_argument("rdump", nargs="?", default=str(CRATES / "rdump/out/rdump"))
    parser.add_argument("--mib", type=int, default=8, help="how much is dumped")
    words = parser.parse_args()
    if not shutil.which(COUNT[0]):
        print("skipped: valgrind is not on this machine, and so no instructions are counted")
        return 0
    programs = Programs(os.path.abspath(words.rmtd), os.path.abspath(words.rdump))
    print(f"{'instructions':<40}{'rmtd/byte':>12}{'rdump/byte':>12}{'rmtd/block':>16}{'rdump/block':>16}")
    with tempfile.TemporaryDirectory(prefix="rmtd-bench-") as folder:
        for block in BLOCKS:
            measure(programs, Path(folder), block, words.mib)
    return 0


if __name__ == "__main__":
    sys.exit(main())
