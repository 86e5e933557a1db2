"""Measures `rmtd --stdio` on long streams, beside `cat > /dev/null` and GNU rmt on the same bytes in the same run.

    python3 -m bench.stdio [PROGRAM]

It prints ratios of the least of several times, each with the start of a process in it, and what memory the server holds
early, in the middle and at the end of a stream; then what spacing takes, by what it passes and by what stands on the
reel. The streams are files in the temporary folder, some 700 MB in all. GNU rmt is given the null device in place of a
drive, where it answers each operation by an error.
"""

from __future__ import annotations

import argparse
import fcntl
import os
import re
import shutil
import subprocess
import sys
import tempfile
import termios
import time
from dataclasses import dataclass
from functools import partial
from pathlib import Path
from typing import Callable, Iterator, NamedTuple, Sequence

from bench.times import Time, in_turns, timed
from bench.told import ratio_of_times
from bench.wire import GREATEST_RECORD, MARK, NO_OPERATION, REWIND, write
from tests.lib.given import given

BUILT = Path(__file__).resolve().parent.parent / "crates/rmtd/out/rmtd"

REPEATS = 5
# The streams that space are short, so more of their times are cheap, and the least of them is steadier.
SPACING_REPEATS = 20
PIECE = 1 << 20

# What is wanted at most of twice the work beside the work, where the time grows with it and no faster, and of an operation beside the
# same operation elsewhere, where both take the same time.
LINEAR = 2.4
SAME = 1.3

DRIVE = b"/dev/st0"
NULL_DEVICE = b"/dev/null"

WRITE = write(bytes(range(256)) * (GREATEST_RECORD // 256))
ANSWERS = {NO_OPERATION: b"A1\n", REWIND: b"A1\n", WRITE: b"A%d\n" % GREATEST_RECORD}

# How many of the greatest records, with their lengths, the reel in memory holds: its usual room is 1,048,576 bytes.
RECORDS_A_REEL = 1_048_576 // (GREATEST_RECORD + 8)
WRITTEN = 256 << 20

RECORD = b"W1\nx"

# How often a long way is spaced back and forward, and how often one entry is.
LONG_WAYS = 500
SHORT_WAYS = 200_000
FEW_ENTRIES = 10

Words = Sequence[str]


def operations(count: int) -> Iterator[bytes]:
    """Requests that do nothing."""
    for _ in range(count):
        yield NO_OPERATION


def writes(count: int) -> Iterator[bytes]:
    """Writes of the greatest record, with a rewind each time the reel is full."""
    for number in range(1, count + 1):
        yield WRITE
        if number % RECORDS_A_REEL == 0:
            yield REWIND


def from_file(words: Words, source: Path) -> None:
    """Runs a program with the stream as its standard input."""
    with source.open("rb") as stream:
        subprocess.run(words, stdin=stream, stdout=subprocess.DEVNULL, check=True)


def one_byte_a_piece(words: Words, source: Path) -> None:
    """Runs a program with the stream written to it byte by byte, by a pipe in packet mode: one byte is one read."""
    pieces = [bytes((byte,)) for byte in source.read_bytes()]
    read_end, write_end = os.pipe2(os.O_DIRECT | os.O_CLOEXEC)
    with subprocess.Popen(words, stdin=read_end, stdout=subprocess.DEVNULL):
        os.close(read_end)
        for piece in pieces:
            os.write(write_end, piece)
        os.close(write_end)


@dataclass(frozen=True)
class Workload:
    """A kind of stream: its requests after the open, how many of them, and how a program is given them."""

    title: str
    requests: Callable[[int], Iterator[bytes]]
    count: int
    feed: Callable[[Words, Path], None]


WORKLOADS = (
    Workload("200,000 operations", operations, 200_000, from_file),
    Workload("20,000 operations, one byte a piece", operations, 20_000, one_byte_a_piece),
    Workload(f"256 MiB of {GREATEST_RECORD >> 10} KiB writes", writes, WRITTEN // GREATEST_RECORD, from_file),
)


class Streams(NamedTuple):
    """The files of one workload: all of it, half of it, and all of it for the null device."""

    whole: Path
    half: Path
    to_null: Path


def write_stream(path: Path, device: bytes, requests: Iterator[bytes]) -> Path:
    """Makes a file of an open and these requests."""
    with path.open("wb") as stream:
        stream.write(b"O" + device + b"\n2\n")
        stream.writelines(requests)
    return path


def write_streams(folder: Path, workload: Workload) -> Streams:
    """Makes the files of a workload; those of the workload before it are written over."""
    return Streams(
        write_stream(folder / "whole", DRIVE, workload.requests(workload.count)),
        write_stream(folder / "half", DRIVE, workload.requests(workload.count // 2)),
        write_stream(folder / "to_null", NULL_DEVICE, workload.requests(workload.count)),
    )


def answers_are_right(words: Words, source: Path, answers: Iterator[bytes]) -> bool:
    """Whether the server answers the open and then so, so that the times are those of the work meant."""
    with source.open("rb") as stream:
        answered = subprocess.run(words, stdin=stream, stdout=subprocess.PIPE, check=True).stdout
    return answered == b"A0\n" + b"".join(answers)


def least_times(feed: Callable[[Words, Path], None], runs: Sequence[tuple[Words, Path]], repeats: int = REPEATS) -> list[Time]:
    """The least time of each run, from the start of its program to the end."""
    return in_turns([partial(timed, partial(feed, *run)) for run in runs], repeats)


def ratios(server: Words, rmt: Words | None, workload: Workload, streams: Streams) -> str:
    """A line of the table: the server beside `cat`, beside GNU rmt, and beside itself on half of the stream."""
    runs = [(server, streams.whole), (server, streams.half), (("cat",), streams.whole)]
    if rmt:
        runs.append((rmt, streams.to_null))
    whole, half, cat, *others = least_times(workload.feed, runs)
    name = f"stdio, {workload.title}"
    beside_cat = ratio_of_times(f"{name} / cat", whole, cat)
    beside_rmt = f"{ratio_of_times(f'{name} / GNU rmt', whole, others[0]):.2f}" if others else "-"
    beside_half = ratio_of_times(f"{name} / half of it", whole, half, LINEAR)
    return f"{workload.title:<38}{beside_cat:>10.2f}{beside_rmt:>14}{beside_half:>16.2f}"


@dataclass(frozen=True)
class Spacing:
    """A reel and a way to space over it.

    What is written stands on it as often as the count says, so the count leads back from the end to the first record
    or mark.
    """

    title: str
    written: tuple[bytes, ...]
    back: int
    forward: int
    count: int


SPACINGS = (
    Spacing("100,000 records, by records", (RECORD,), 4, 3, 100_000),
    Spacing("50,000 records and marks, by marks", (RECORD, MARK), 2, 1, 50_000),
)


class Spaced(NamedTuple):
    """A file of a stream that spaces, and what is to be answered to it after its open."""

    source: Path
    answers: list[bytes]


def spaced(path: Path, spacing: Spacing, few: bool, count: int, times: int) -> Spaced:
    """Makes a file that writes the whole reel, and spaces back and forward so often by this count from its end.

    Where few entries are to be left it rewinds and writes those anew before it spaces, which cuts off all others.
    """
    requests = list(spacing.written) * spacing.count
    answers = [b"A1\n"] * len(requests)
    if few:
        requests += [REWIND, *(spacing.written * (FEW_ENTRIES // len(spacing.written)))]
        answers += [b"A1\n"] * (1 + FEW_ENTRIES)
    requests += [b"I%d\n%d\n" % (operation, count) for operation in (spacing.back, spacing.forward)] * times
    answers += [b"A%d\n" % count] * (2 * times)
    return Spaced(write_stream(path, DRIVE, iter(requests)), answers)


def spacing_ratios(server: Words, spacing: Spacing, folder: Path) -> str | None:
    """A line of the table of spacing, or nothing where the server's answers are not as expected.

    The time of passing entries is what a stream takes beyond the same requests with a count of 0.
    """
    streams = [
        spaced(folder / "all", spacing, False, spacing.count, LONG_WAYS),
        spaced(folder / "some", spacing, False, spacing.count // 2, LONG_WAYS),
        spaced(folder / "none", spacing, False, 0, LONG_WAYS),
        spaced(folder / "one_of_many", spacing, False, 1, SHORT_WAYS),
        spaced(folder / "one_of_few", spacing, True, 1, SHORT_WAYS),
    ]
    if not all(answers_are_right(server, it.source, iter(it.answers)) for it in streams):
        return None
    runs = [(server, it.source) for it in streams]
    everything, half, nothing, of_many, of_few = least_times(from_file, runs, SPACING_REPEATS)
    name = f"spacing, {spacing.title}"
    passing = ratio_of_times(f"{name} / over half", everything - nothing, half - nothing, LINEAR)
    ratio_of_times(f"{name}: one of many / one of few", of_many, of_few, SAME)
    return f"{spacing.title:<38}{passing:>12.2f}{of_many / of_few:>22.2f}"


def measure_spacing(server: Words) -> bool:
    """Prints the table of spacing; answers whether the server's answers were right."""
    print("\nSpacing back and forward, over all of 100,000 entries beside half, without what a count of 0 takes;")
    print(f"and over one entry, at the end of 100,000 beside the end of {FEW_ENTRIES}.")
    print(f"{'time of spacing':<38}{'all to half':>12}{'one, of many to few':>22}")
    with tempfile.TemporaryDirectory(prefix="rmtd-bench-") as folder:
        for spacing in SPACINGS:
            line = spacing_ratios(server, spacing, Path(folder))
            if line is None:
                print(f"{spacing.title}: the server's answers are not as expected")
                return False
            print(line, flush=True)
    return True


def kilobytes(process: subprocess.Popen[bytes], field: str) -> int:
    """A field of the process's status, in units of 1,024 bytes."""
    status = Path(f"/proc/{process.pid}/status").read_text()
    return int(given(re.search(rf"^{field}:\s*(\d+) kB$", status, re.MULTILINE))[1])


def wait_until_read(process: subprocess.Popen[bytes]) -> None:
    """Returns once the program has read all that stands in the pipe to it, or has ended."""
    unread = bytearray(4)
    while process.poll() is None:
        fcntl.ioctl(given(process.stdin), termios.FIONREAD, unread)
        if not any(unread):
            return
        time.sleep(0.001)


def resident_along(words: Words, source: Path) -> list[int]:
    """What memory a program holds after a sixteenth, a half and all of the stream, and the most that it ever held."""
    size = source.stat().st_size
    with source.open("rb") as stream, subprocess.Popen(words, stdin=subprocess.PIPE, stdout=subprocess.DEVNULL) as process:
        found, to_program = [], given(process.stdin)
        for place in (size // 16, size // 2, size):
            while (rest := place - stream.tell()) > 0:
                to_program.write(stream.read(min(rest, PIECE)))
            to_program.flush()
            wait_until_read(process)
            found.append(kilobytes(process, "VmRSS"))
        return [*found, kilobytes(process, "VmHWM")]


def gnu_rmt() -> Words | None:
    """GNU's server of the same protocol, where this machine has it: other servers of that name are left out."""
    path = os.pathsep.join((os.environ.get("PATH", os.defpath), "/usr/sbin"))
    for found in (shutil.which(it, path=path) for it in ("rmt-tar", "rmt")):
        if found:
            told = subprocess.run((found, "--version"), stdin=subprocess.DEVNULL, capture_output=True, check=False)
            if b"GNU" in told.stdout:
                return (found,)
    return None


def measure_streams(server: Words, rmt: Words | None) -> bool:
    """Prints the tables of long streams, of times and of memory; answers whether the server's answers were right."""
    memory = []
    print(f"{'time of the server':<38}{'to cat':>10}{'to GNU rmt':>14}{'to half of it':>16}")
    with tempfile.TemporaryDirectory(prefix="rmtd-bench-") as folder:
        for workload in WORKLOADS:
            streams = write_streams(Path(folder), workload)
            answers = (ANSWERS[it] for it in workload.requests(workload.count))
            if not answers_are_right(server, streams.whole, answers):
                print(f"{workload.title}: the server's answers are not as expected")
                return False
            print(ratios(server, rmt, workload, streams), flush=True)
            if workload.feed is from_file:
                memory.append((workload.title, resident_along(server, streams.whole)))
    print(f"\n{'resident memory of the server, KiB':<38}{'early':>10}{'middle':>10}{'end':>10}{'most':>10}")
    for title, sizes in memory:
        print(f"{title:<38}" + "".join(f"{size:>10}" for size in sizes))
    return True


def main() -> int:
    """Measures the server, and ends with 0 where its answers were right."""
    parser = argparse.ArgumentParser(description="Ratios of one run of the tape server on long streams.")
    parser.add_argument("program", nargs="?", type=Path, default=BUILT, help="the built rmtd")
    program = parser.parse_args().program.resolve()
    if not program.is_file():
        parser.error(f"there is no program {program}: make build builds it")
    rmt = gnu_rmt()
    print(f"Ratios of this run, of the least of {REPEATS} times each, and of {SPACING_REPEATS} for spacing.")
    print("One byte a piece: with the feeder's own cost.")
    print("" if rmt else "GNU rmt is not on this machine, and is left out.\n")
    server = (str(program), "--stdio")
    return 0 if measure_streams(server, rmt) and measure_spacing(server) else 1


if __name__ == "__main__":
    sys.exit(main())
