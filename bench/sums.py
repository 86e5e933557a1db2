"""Measures `rdump ls --catalog` and `rdump cat` over a reel of 256 MiB, beside `sha256sum` and `cat` of the same file in the same run.

    python3 -m bench.sums [PROGRAM] [--mib N]

It prints ratios of the least of several times, each with the start of a process in it. `rdump ls` without sums stands beside. `rdump cat` and `cat`
write to a file.
"""

from __future__ import annotations

import argparse
import os
import shutil
import subprocess
import sys
import tempfile
from pathlib import Path

from bench.stdio import Words, least_times
from bench.told import ratio_of_times
from bench.wire import BLOCKS, LABEL

BUILT = Path(__file__).resolve().parent.parent / "crates/rdump/out/rdump"

REPEATS = 5
MIB = 1 << 20


def write_reel(path: Path, size: int, total: int) -> int:
    """Makes the record file of a volume of blocks of this size, and answers how many it has."""
    blocks, length = total // size, size.to_bytes(4, "little")
    with path.open("wb") as file:
        file.write(len(LABEL).to_bytes(4, "little") + LABEL + len(LABEL).to_bytes(4, "little"))
        for _ in range(blocks):
            file.write(length + os.urandom(size) + length)
        file.write(bytes(4))
    return blocks


def reading(words: Words, source: Path) -> None:
    """Runs a program with a file as its last word."""
    subprocess.run((*words, str(source)), stdin=subprocess.DEVNULL, stdout=subprocess.DEVNULL, check=True)


def copying(words: Words, source: Path) -> None:
    """Runs a program with a file as its last word, and writes what it prints to a file beside it."""
    with source.with_name("back").open("wb") as back:
        subprocess.run((*words, str(source)), stdin=subprocess.DEVNULL, stdout=back, check=True)


def answer(*words: str) -> str:
    """What a program prints."""
    return subprocess.run(words, stdin=subprocess.DEVNULL, stdout=subprocess.PIPE, text=True, check=True).stdout


def measure(program: Path, folder: Path, size: int, total: int) -> bool:
    """Prints the line of blocks of one size; answers whether the program says of the reel what is so."""
    reel, lines = folder / "r1", folder / "catalog"
    blocks = write_reel(reel, size, total)
    dump, shown = "/usr level 0 date 951782400 since 0", "/usr level 0 date 951782400 (2000-02-29 00:00:00) since 0"
    facts = f" volume 1 first 0, {blocks} blocks of {size} bytes, {reel.stat().st_size} bytes"
    began = f"begun     {dump}: {blocks * size} bytes\n"
    ended = f"finished  {dump}: 1 volumes, {blocks} blocks of {size} bytes, {blocks * size} bytes\n"
    lines.write_text(f"{began}{answer('sha256sum', str(reel)).split()[0]}  {dump}{facts}\n{ended}")
    with_sums, without = (str(program), "ls", "--catalog", str(lines)), (str(program), "ls")
    if answer(*with_sums, str(reel)) != f"{reel}: {shown}{facts}: whole, sum equal\n\n{shown}: all volumes\n":
        print(f"blocks of {size:,}: the program's answer is not as expected")
        return False
    ours, plain, theirs, cat = least_times(reading, [(it, reel) for it in (with_sums, without, ("sha256sum",), ("cat",))], REPEATS)
    title = f"{round(total / MIB)} MiB compared, blocks of {size:,}"
    ratio_of_times(f"ls --catalog, {title} / sha256sum", ours, theirs)
    ratio_of_times(f"ls --catalog, {title} / ls", ours, plain)
    restored, copied = least_times(copying, [(it, reel) for it in ((str(program), "cat", "--length", str(blocks * size)), ("cat",))], REPEATS)
    ratio_of_times(f"rdump cat, {round(total / MIB)} MiB, blocks of {size:,} / cat", restored, copied)
    print(f"{title:<44}{ours / theirs:>14.2f}{ours / cat:>10.2f}{ours / plain:>10.2f}{restored / copied:>18.2f}", flush=True)
    reel.unlink()
    return True


def main() -> int:
    """Measures the program, and ends with 0 where its answers were right."""
    parser = argparse.ArgumentParser(description="Ratios of one run of rdump ls --catalog and rdump cat over a long reel.")
    parser.add_argument("program", nargs="?", type=Path, default=BUILT, help="the built rdump")
    parser.add_argument("--mib", type=int, default=256, help="how much is compared")
    asked = parser.parse_args()
    program = asked.program.resolve()
    if not program.is_file():
        parser.error(f"there is no program {program}: make build builds it")
    if not shutil.which("sha256sum"):
        print("skipped: sha256sum is not on this machine")
        return 0
    print(f"Ratios of this run, of the least of {REPEATS} times each.\n")
    print(f"{'time of rdump ls --catalog':<44}{'to sha256sum':>14}{'to cat':>10}{'to ls':>10}{'rdump cat to cat':>18}")
    with tempfile.TemporaryDirectory(prefix="rdump-bench-") as folder:
        return 0 if all([measure(program, Path(folder), size, asked.mib * MIB) for size in BLOCKS]) else 1


if __name__ == "__main__":
    sys.exit(main())
