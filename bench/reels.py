"""Measures the server over a folder drive, beside `cat`, GNU rmt and a floor on the same bytes in the same run.

    python3 -m bench.reels [PROGRAM] [--mib N]

It prints ratios of the least of several times, each with the start of a process in it: 256 MiB written to a file, and read back; spacing
over many records beside over half of them, and over many marks; one operation at the end of a reel of 1 GiB beside one at its beginning.
Then what memory the server held at most, and, where `strace` is there, how many calls of the system an append takes. All bytes stand in
files in the temporary folder, up to 1 GiB of them at once.

The floor is `floor.c`, which carries requests out one at a time with few calls of the system, and trusts its input. It is built where there
is a C compiler.
"""

from __future__ import annotations

import argparse
import os
import re
import shutil
import subprocess
import sys
import tempfile
from collections import Counter
from functools import partial
from pathlib import Path
from typing import Callable, Iterable, NamedTuple, Sequence

from bench.stdio import BUILT, LINEAR, SAME, Words, from_file, gnu_rmt, kilobytes
from bench.times import Time, in_turns, timed
from bench.told import ratio_of_times
from bench.wire import BLOCKS, GREATEST_RECORD, read, write
from tests.lib.given import given

FLOOR = Path(__file__).resolve().parent / "floor.c"

ROUNDS = 5
MIB = 1 << 20
# What is wanted at most beside `cat`, of the smallest blocks and of greater ones; and beside GNU rmt.
WANTED_OF_SMALLEST, WANTED_OF_GREATER = 1.6, 1.2
WANTED_BESIDE_RMT = 1.0
CAPACITY = 1 << 40

RECORDS = 100_000
RECORD = 100
GREAT_RECORDS = (1 << 30) // GREATEST_RECORD
# What passing the marks, a way, is to take at most, in seconds.
MARKS, WANTED_OF_MARKS = 25_000_000, 5.0
# How often a long way is spaced, and how often one operation is done.
LONG_WAYS = 10
SHORT_WAYS = 50_000
CALLS = 1_000

Streams = dict[str, Path]


class Run(NamedTuple):
    """What is made ready, and the program that is timed then, with the stream that it is given."""

    ready: Callable[[], object]
    words: Words
    source: Path

    def timed(self) -> Time:
        self.ready()
        return timed(partial(from_file, self.words, self.source))


def nothing() -> None:
    """Makes nothing ready."""


def least(runs: Sequence[Run]) -> list[Time]:
    """The least time of each run."""
    return in_turns([run.timed for run in runs], ROUNDS)


class Drive:
    """A folder drive with one reel, and other files beside it."""

    def __init__(self, program: str, folder: Path) -> None:
        self.folder = folder
        stack, bin = folder / "st0", folder / "bin"
        stack.mkdir()
        bin.mkdir()
        self.reel = stack / "r1"
        self.words = (program, "--stdio", "--bin", str(bin), "--capacity", str(CAPACITY), f"/dev/st0={stack}")
        self.wipe()

    def wipe(self) -> None:
        """An empty reel."""
        self.reel.unlink(missing_ok=True)
        self.reel.touch()

    def stream(self, name: str, mode: int, requests: Iterable[bytes], device: str = "/dev/st0") -> Path:
        """Makes a file of an open and these requests."""
        path = self.folder / name
        with path.open("wb") as stream:
            stream.write(b"O%s\n%d\n" % (device.encode(), mode))
            stream.writelines(requests)
        return path


def operation(number: int, count: int) -> bytes:
    return b"I%d\n%d\n" % (number, count)


def length(size: int) -> bytes:
    return size.to_bytes(4, "little")


# Bytes written and read back.


def answered(words: Words, source: Path, reply: bytes, count: int) -> bool:
    """Whether a server answers the open and then so often so, so that the times are those of the work meant."""
    with source.open("rb") as stream, subprocess.Popen(words, stdin=stream, stdout=subprocess.PIPE) as process:
        replies = given(process.stdout)
        good = replies.read(3) == b"A0\n"
        good &= all(replies.read(len(reply)) == reply for _ in range(count)) and not replies.read(1)
    return good and process.returncode == 0


def floor_words(folder: Path) -> Words | None:
    """Builds the floor, and gives how it is called. None where no C compiler builds it."""
    compiler = shutil.which("cc")
    if not compiler:
        return None
    program = str(folder / "floor")
    built = subprocess.run((compiler, "-O2", "-o", program, str(FLOOR)), check=False)
    return (program,) if built.returncode == 0 else None


class Others(NamedTuple):
    """What the server is measured beside, where it is there: GNU rmt, and the floor."""

    rmt: Words | None
    floor: Words | None

    def floor_to(self, drive: Drive, what: str, size: int) -> Words | None:
        """How the floor is called to write or to read records of this size."""
        return (*self.floor, what, str(drive.reel), str(size)) if self.floor else None


class Load(NamedTuple):
    """Records of one size, with the stream that writes them and the one that reads them."""

    size: int
    records: int
    data: bytes
    writes: Path
    reads: Path

    def stream_of_writes(self, drive: Drive, name: str, mode: int, device: str) -> Path:
        return drive.stream(name, mode, (b"W%d\n%s" % (self.size, self.data) for _ in range(self.records)), device)

    def stream_of_reads(self, drive: Drive, name: str, device: str) -> Path:
        return drive.stream(name, 0, (b"R%d\n" % self.size for _ in range(self.records)), device)

    def passes(self, drive: Drive, writer: Words, reader: Words) -> bool:
        """Whether these write the records to an empty reel, and read them back."""
        reply = b"A%d\n" % self.size
        drive.wipe()
        written = answered(writer, self.writes, reply, self.records)
        whole = drive.reel.stat().st_size == self.records * (self.size + 8)
        return written and whole and answered(reader, self.reads, reply + self.data, self.records)


def load_of(drive: Drive, size: int, total: int) -> Load:
    """So many bytes in records of one size."""
    load = Load(size, total // size, bytes(range(256)) * (size // 256), drive.folder / "writes", drive.folder / "reads")
    load.stream_of_writes(drive, "writes", 2, "/dev/st0")
    load.stream_of_reads(drive, "reads", "/dev/st0")
    return load


def time_writes(drive: Drive, others: Others, load: Load) -> None:
    """Prints the line of the writes."""
    plain = drive.folder / "plain"

    def remove() -> None:
        plain.unlink(missing_ok=True)

    runs = {"ours": Run(drive.wipe, drive.words, load.writes), "cat": Run(remove, ("sh", "-c", f"exec cat > {plain}"), load.writes)}
    if others.rmt:
        to_file = load.stream_of_writes(drive, "to_file", 577, str(plain))
        runs["rmt"] = Run(remove, others.rmt, to_file)
        runs["rmt, sync"] = Run(remove, ("sh", "-c", f"{others.rmt[0]} && sync {plain}"), to_file)
    if floor := others.floor_to(drive, "write", load.size):
        runs["floor"] = Run(drive.wipe, floor, load.writes)
    table_line(f"{round(load.size * load.records / MIB)} MiB written by {load.size:,} bytes", runs, wanted_beside_cat(load.size))
    drive.folder.joinpath("to_file").unlink(missing_ok=True)
    remove()


def time_reads(drive: Drive, others: Others, load: Load) -> None:
    """Prints the line of the reads."""
    plain = drive.folder / "plain"
    plain.write_bytes(load.data * load.records)
    runs = {"ours": Run(nothing, drive.words, load.reads), "cat": Run(nothing, ("cat", str(plain)), load.reads)}
    if others.rmt:
        runs["rmt"] = Run(nothing, others.rmt, load.stream_of_reads(drive, "from_file", str(plain)))
    if floor := others.floor_to(drive, "read", load.size):
        runs["floor"] = Run(nothing, floor, load.reads)
    table_line(f"{round(load.size * load.records / MIB)} MiB read by {load.size:,} bytes", runs, wanted_beside_cat(load.size))
    plain.unlink()


def bytes_through(drive: Drive, others: Others, size: int, total: int) -> bool:
    """Prints the lines of writes and reads of one size; answers whether the answers were right."""
    load = load_of(drive, size, total)
    writer, reader = others.floor_to(drive, "write", size), others.floor_to(drive, "read", size)
    if writer and reader and not load.passes(drive, writer, reader):
        print("The floor's answers are not as expected.")
        return False
    if not load.passes(drive, drive.words, drive.words):
        return False
    time_writes(drive, others, load)
    time_reads(drive, others, load)
    load.writes.unlink()
    return True


def wanted_beside_cat(size: int) -> float:
    """What is wanted at most, beside `cat`, of blocks of this size."""
    return WANTED_OF_SMALLEST if size == min(BLOCKS) else WANTED_OF_GREATER


def table_line(title: str, runs: dict[str, Run], wanted: float) -> None:
    """Prints what the server takes beside the others."""
    times = dict(zip(runs, least(list(runs.values()))))
    for other, name, most in (
        ("cat", "cat", wanted),
        ("rmt", "GNU rmt", WANTED_BESIDE_RMT),
        ("rmt, sync", "GNU rmt and sync", WANTED_BESIDE_RMT),
        ("floor", "the floor", None),
    ):
        if other in times:
            ratio_of_times(f"folder, {title} / {name}", times["ours"], times[other], most)
    beside = {name: f"{times['ours'] / time:.2f}" for name, time in times.items()}
    told = "".join(f"{beside.get(it, '-'):>14}" for it in ("rmt", "rmt, sync", "floor"))
    print(f"{title:<38}{beside['cat']:>10}{wanted:>10.1f}{told}", flush=True)


# Spacing.


def write_records(path: Path, count: int, halves: bool = False) -> None:
    """A reel of so many records, with a mark after each half of them where it is asked for."""
    record = length(RECORD) + b"r" * RECORD + length(RECORD)
    half = record * (count // 2) + (bytes(4) if halves else b"")
    path.write_bytes(half + half)


def write_great(path: Path) -> None:
    """A reel of 1 GiB, with no bytes on the disk but those of the lengths."""
    with path.open("wb") as reel:
        for number in range(GREAT_RECORDS):
            reel.seek(number * (GREATEST_RECORD + 8))
            reel.write(length(GREATEST_RECORD))
            reel.seek(GREATEST_RECORD, os.SEEK_CUR)
            reel.write(length(GREATEST_RECORD))


def spacings(drive: Drive) -> bool:
    """Prints what spacing over all takes beside spacing over half; answers whether the server's answers were right."""
    print("\nSpacing over 100,000 records of 100 bytes beside over half of them, without what a count of 0 takes.")
    for title, forward, back, all_of, halves in (
        ("by records, forward", 3, 0, RECORDS, False),
        ("by records, back", 3, 4, RECORDS, False),
        ("by marks, forward", 1, 0, 2, True),
        ("by marks, back", 1, 2, 2, True),
    ):
        write_records(drive.reel, RECORDS, halves)
        streams = []
        for name, count in (("all", all_of), ("half", all_of // 2), ("none", 0)):
            there = operation(forward, count)
            away = operation(back, count) if back else b""
            streams.append(drive.stream(name, 0, [there, away, operation(5, count)] * LONG_WAYS))
            replies = b"A%d\n" % count * (3 if back else 2)
            if not answered(drive.words, streams[-1], replies, LONG_WAYS):
                return False
        whole, half, none = least([Run(nothing, drive.words, it) for it in streams])
        passed = LONG_WAYS * RECORDS * (2 if back else 1)
        beside_half = ratio_of_times(f"folder, spacing {title} / over half", whole - none, half - none, LINEAR)
        print(f"{title:<38}{beside_half:>10.2f}{(whole - none) / passed * 1e9:>12.0f} ns a record", flush=True)
    print("About 2 says that the time grows with the records that are passed, and no faster.")
    return True


def over_marks(drive: Drive, count: int) -> bool:
    """Prints what spacing over marks takes, forward and back, beside `cat` of their file; answers whether the answers were right."""
    drive.reel.write_bytes(bytes(4 * count))
    requests = [operation(1, count), operation(2, count)]
    ways = [drive.stream(f"marks{number}", 0, requests[:number]) for number in range(3)]
    if not answered(drive.words, ways[2], b"A%d\n" % count, 2):
        return False
    none, there, both, cat = least([*(Run(nothing, drive.words, it) for it in ways), Run(nothing, ("cat", str(drive.reel)), ways[0])])
    for way, passed in (("forward", there - none), ("back", both - there)):
        title = f"folder, {count:,} marks {way}"
        beside = ratio_of_times(f"{title} / cat", passed, cat)
        ratio_of_times(f"{title} / {WANTED_OF_MARKS:.0f} s", passed, WANTED_OF_MARKS, 1.0)
        print(f"{f'{count:,} marks {way}':<38}{beside:>10.2f} times cat{passed:>12.3f} s", flush=True)
    drive.wipe()
    return True


def at_the_end(drive: Drive) -> bool:
    """Prints what an operation takes at the end of a great reel beside at its beginning; answers whether the answers were right."""
    print("\nOne operation at the end of a reel of 1 GiB beside at its beginning, without what it takes to come there.")
    for title, requests, replies in (
        ("back over a record, and forward", (operation(4, 1), operation(3, 1)), b"A1\nA1\n"),
        ("back over a record, and a read", (operation(4, 1), b"R1\n"), b"A1\nA1\n\0"),
        ("back over a record, and a write", (operation(4, 1), b"W1\nx"), b"A1\nA1\n"),
    ):
        cuts = requests[1].startswith(b"W")
        times: list[Time] = []
        for place in (GREAT_RECORDS, 1):
            write_great(drive.reel)
            if cuts and place == 1:
                os.truncate(drive.reel, GREATEST_RECORD + 8)
            there = operation(3, place)
            many = drive.stream("many", 2, [there, *requests * SHORT_WAYS])
            none = drive.stream("none", 2, [there, *([] if cuts else [operation(7, 0)])])
            arrived = least([Run(nothing, drive.words, none)])[0]
            if not answered(drive.words, drive.stream("few", 2, [there, *requests * 9]), b"A%d\n%s" % (place, replies * 9), 1):
                return False
            times.append(least([Run(nothing, drive.words, many)])[0] - arrived)
        ratio_of_times(f"folder, {title}: at the end / at the beginning", times[0], times[1], SAME)
        print(f"{title:<38}{times[0] / times[1]:>10.2f}{times[0] / SHORT_WAYS * 1e9:>12.0f} ns for both", flush=True)
    drive.wipe()
    return True


# Memory, and calls of the system.


def ask(process: subprocess.Popen[bytes], requests: bytes, replies: int) -> None:
    """Sends requests, and waits for as many bytes as their replies have."""
    given(process.stdin).write(requests)
    given(process.stdin).flush()
    if len(given(process.stdout).read(replies)) != replies:
        raise RuntimeError("the server ended early")


def memory(drive: Drive) -> None:
    """Prints what memory the server held at most along a session over a reel of 1 GiB."""
    write_great(drive.reel)
    print(f"\n{'most memory of the server, KiB':<38}")
    there, great = b"A%d\n" % GREAT_RECORDS, f"{GREATEST_RECORD:,} bytes"
    answer = len(b"A%d\n" % GREATEST_RECORD)
    steps = (
        ("after the open", b"O/dev/st0\n2\n", 3),
        (f"after a read of {great}", read(), answer + GREATEST_RECORD),
        ("after spacing over 1 GiB", operation(5, 0) + operation(3, GREAT_RECORDS), 3 + len(there)),
        ("and back", operation(4, GREAT_RECORDS), len(there)),
        (f"after 1,000 reads of {great}", read() * 1_000, 1_000 * (answer + GREATEST_RECORD)),
        (f"after 1,000 writes of {great}", write(bytes(GREATEST_RECORD)) * 1_000, 1_000 * answer),
        ("after 100,000 marks", operation(0, 100_000), 8),
        ("and back over them", operation(2, 100_000), 8),
    )
    with subprocess.Popen(drive.words, stdin=subprocess.PIPE, stdout=subprocess.PIPE) as process:
        try:
            for title, requests, replies in steps:
                ask(process, requests, replies)
                print(f"  {title:<36}{kilobytes(process, 'VmHWM'):>10}", flush=True)
        finally:
            process.kill()
    drive.wipe()


def calls_of(drive: Drive, source: Path) -> Counter[str]:
    """How often each call of the system was made on the reel."""
    log = drive.folder / "calls"
    from_file(("strace", "-f", "-y", "-o", str(log), *drive.words), source)
    mine = re.compile(rf"^\d+ +(\w+)\(\d+<{re.escape(str(drive.reel))}>")
    return Counter(found[1] for line in log.read_text(errors="replace").splitlines() if (found := mine.match(line)))


def traced() -> bool:
    """Whether calls of the system can be told here."""
    if not shutil.which("strace"):
        return False
    return subprocess.run(("strace", "-f", "-o", "/dev/null", "true"), capture_output=True, check=False).returncode == 0


def calls(drive: Drive) -> None:
    """Prints which calls of the system one operation makes on the reel, and how many."""
    if not traced():
        print("\nskipped: strace is not on this machine, or may not be used, so calls of the system are not counted")
        return
    print("\nCalls of the system on the reel")
    mark = operation(0, 1)
    for title, ready, requests in (
        ("an append of 10,240 bytes", False, b"W10240\n" + bytes(10_240)),
        (f"an append of {GREATEST_RECORD:,} bytes", False, write(bytes(GREATEST_RECORD))),
        ("a mark", False, mark),
        ("10 marks", False, operation(0, 10)),
        ("a read of 100 bytes", True, b"R100\n"),
        ("forward over a record", True, operation(3, 1)),
        ("forward over a record, one of many", True, None),
        ("a write in place of the last record", True, operation(4, 1) + b"W100\n" + bytes(100)),
        ("back over a record, and forward", True, operation(3, 1) + operation(4, 1)),
    ):
        counts = []
        for times in (CALLS, 2 * CALLS):
            drive.wipe()
            if ready:
                write_records(drive.reel, 2 * CALLS)
            many = [operation(3, times)] if requests is None else [requests] * times
            if requests and requests.startswith(b"I4"):
                many.insert(0, operation(3, 2 * CALLS))
            counts.append(calls_of(drive, drive.stream("calls_in", 2, many)))
        more = counts[1] - counts[0]
        told = ", ".join(f"{count / CALLS:g} {name}" for name, count in sorted(more.items()) if count)
        print(f"  {title:<36}  {told or 'none'}", flush=True)
    print("Wanted of an append: one call, and no read.")
    drive.wipe()


def main() -> int:
    """Measures the server, and ends with 0 where its answers were right."""
    parser = argparse.ArgumentParser(description="Ratios of one run of the tape server over a folder.")
    parser.add_argument("program", nargs="?", type=Path, default=BUILT, help="the built rmtd")
    parser.add_argument("--mib", type=int, default=256, help="how much is written and read back")
    parser.add_argument("--marks", type=int, default=MARKS, help="how many marks are spaced over")
    words = parser.parse_args()
    program = words.program.resolve()
    if not program.is_file():
        parser.error(f"there is no program {program}: make build builds it")
    rmt = gnu_rmt()
    print(f"Ratios of this run, of the least of {ROUNDS} times each.")
    if not rmt:
        print("\nskipped: GNU rmt is not on this machine")
    good = True
    with tempfile.TemporaryDirectory(prefix="rmtd-bench-") as folder:
        drive = Drive(str(program), Path(folder))
        others = Others(rmt, floor_words(drive.folder))
        print("" if others.floor else "skipped: there is no C compiler on this machine, and so no floor\n")
        print(f"{'time of the server over a folder':<38}{'to cat':>10}{'wanted':>10}{'to GNU rmt':>14}{'and sync':>14}{'to floor':>14}")
        for size in BLOCKS:
            good = good and bytes_through(drive, others, size, words.mib * MIB)
        good = good and spacings(drive) and over_marks(drive, words.marks) and at_the_end(drive)
        if good:
            memory(drive)
            calls(drive)
        else:
            print("Some answers are not as expected.")
    return 0 if good else 1


if __name__ == "__main__":
    sys.exit(main())
