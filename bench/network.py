"""Measures dumps over the loopback, and volumes that are read back, beside a floor on the same bytes in the same run.

    python3 -m bench.network [RMTD [RDUMP]] [--mib N]

It prints ratios of the least of several times, each with the start of the clients in it: `rdump dump` and `rdump read` with a server that has a reel
in memory, also over lines of 1 and 10 Gbit/s, and with one that has it in a folder; and 32 of them at once, each with a drive of its own. If the reel
is in memory, it also prints a dump beside `cat` over the same line, and a dump with a catalog beside one without and beside `sha256sum`. If there is
a folder, it prints `rdump fetch` beside the floor's read. Then dumps over TCP and over a Unix socket, without and with limits of time at both ends
(--idle, --timeout), each beside the same floor, which is over TCP. Then what memory the server holds for 32 clients, and what a client holds. A time
into a folder is up to when the bytes are synced. The files are in the temporary folder. With each time are the processor seconds of both ends.

The floor is `netfloor.c`: a client and a server of one block a turn with few calls of the system, and both trust what comes. `relay.c` is a line of a
given rate; its own processor seconds are left out. Both are built where there is a C compiler.
"""

from __future__ import annotations

import argparse
import os
import re
import shutil
import socket
import subprocess
import sys
import tempfile
import time
from contextlib import ExitStack, contextmanager
from functools import partial
from pathlib import Path
from typing import Callable, ContextManager, Iterator, NamedTuple, Sequence, Union

from bench.dump import connected, listening, most_memory, write_volume
from bench.times import ROUNDS, Time, in_turns, timed
from bench.told import ratio, ratio_of_times
from bench.wire import BLOCKS, GREATEST_RECORD, LABEL, write
from tests.lib.given import given
from tests.lib.places import CRATES

HERE = Path(__file__).resolve().parent

MIB = 1 << 20
# The bytes a second of a line of 1 Gbit/s.
GIGABIT = 125_000_000
AT_ONCE = 32
# What is wanted at most, beside the floor, of a folder.
WANTED = 1.25

Words = Sequence[str]


class Reels:
    """Folder drives with one reel each, or one drive with a reel in memory where there is no folder."""

    def __init__(self, folder: Path | None, count: int = 1) -> None:
        self.folder, self.count = folder, count
        self.paths = [folder / f"st{number}" / f"r{number}" for number in range(count)] if folder else []

    def bin(self) -> Path:
        """The bin of drives in a folder."""
        return given(self.folder) / "bin"

    def wipe(self) -> None:
        """Empty reels."""
        if self.folder:
            shutil.rmtree(self.folder, ignore_errors=True)
            self.bin().mkdir(parents=True)
        for it in self.paths:
            it.parent.mkdir()
            it.touch()

    def fill(self, source: Path, block: int) -> None:
        """A volume of the file on each reel."""
        self.wipe()
        for it in self.paths:
            with it.open("wb") as reel:
                reel.writelines(framed(record) for record in (LABEL, *blocks(source, block), b""))
        os.sync()


def framed(record: bytes) -> bytes:
    """How a record stands in a reel's file; a mark, where it has no bytes."""
    length = len(record).to_bytes(4, "little")
    return length + record + length if record else length


def blocks(source: Path, block: int) -> Iterator[bytes]:
    """The blocks of a file, the last one padded."""
    with source.open("rb") as file:
        while data := file.read(block):
            yield data.ljust(block, b"\0")


class Line(NamedTuple):
    """What is between a client and its server on the loopback: a relay that lets so many bytes a second pass, or nothing."""

    relay: str = ""
    rate: int = 0

    @contextmanager
    def to(self, address: str) -> Iterator[str]:
        """Where a client of this address connects."""
        if not self.rate:
            yield address
            return
        host, colon, port = address.rpartition(":")
        with subprocess.Popen((self.relay, port, str(self.rate)), stdout=subprocess.PIPE) as relay:
            try:
                yield host + colon + given(relay.stdout).readline().decode().strip()
            finally:
                relay.kill()


class Way(NamedTuple):
    """Where the server listens, whether each wait has a limit at both ends, the line between them, and a catalog that dumps are entered in."""

    title: str = "over TCP"
    at: str = "127.0.0.1:0"
    limit: str = ""
    line: Line = Line()
    catalog: Path | None = None


class Programs:
    """The server and the client that are measured."""

    def __init__(self, rmtd: str, rdump: str, way: Way = Way()) -> None:
        self.rmtd, self.rdump, self.way = rmtd, rdump, way

    def by(self, way: Way) -> Programs:
        return Programs(self.rmtd, self.rdump, way)

    def listening(self, reels: Reels) -> ContextManager[tuple[str, subprocess.Popen[bytes]]]:
        """A server of these reels, and its address."""
        drives = [f"/dev/st{number}={path.parent}" for number, path in enumerate(reels.paths)]
        idle = ["--idle", self.way.limit] if self.way.limit else []
        return listening(self.rmtd, *idle, *(["--bin", str(reels.bin()), *drives] if drives else []), at=self.way.at)

    @contextmanager
    def serving(self, reels: Reels) -> Iterator[list[str]]:
        """The address of a server, once for each drive."""
        with self.listening(reels) as (address, _), self.way.line.to(address) as near:
            yield [near] * reels.count

    def writes(self, address: str, number: int, source: Path, block: int) -> Words:
        words = (self.rdump, "dump", "--to", address, "--device", f"/dev/st{number}", "--fs", "/usr", "--level", "0")
        limit = ("--timeout", self.way.limit) if self.way.limit else ()
        catalog = ("--catalog", str(self.way.catalog)) if self.way.catalog else ()
        return (*words, *limit, *catalog, "--payload", str(source), "--block", str(block), "--dumpdates", "/dev/null")

    def reads(self, address: str, number: int, out: Path) -> Words:
        return (self.rdump, "read", "--to", address, "--device", f"/dev/st{number}", "--out", str(out))

    def fetches(self, address: str, number: int, into: Path) -> Words:
        return (self.rdump, "fetch", "--to", address, "--device", f"/dev/st{number}", "--into", str(into))

    def fill_memory(self, address: str, source: Path, block: int) -> None:
        """Writes a volume, and leaves the reel on its drive, which a dump does not."""
        write_volume(address, source, block)


class Floor:
    """A server and a client for each connection, which do what has to be done, and no more."""

    def __init__(self, program: str, line: Line = Line()) -> None:
        self.program, self.line = program, line

    @contextmanager
    def serving(self, reels: Reels) -> Iterator[list[str]]:
        """A server for each reel, and their ports."""
        words = [(self.program, "serve", path) for path in [str(it) for it in reels.paths] or ["-"]]
        servers = [subprocess.Popen(it, stdout=subprocess.PIPE) for it in words]
        try:
            ports = [given(it.stdout).readline().decode().strip() for it in servers]
            with ExitStack() as lines:
                yield [lines.enter_context(self.line.to(it)) for it in ports]
        finally:
            for it in servers:
                it.kill()
                it.wait()
                given(it.stdout).close()

    def writes(self, address: str, _number: int, source: Path, block: int) -> Words:
        return (self.program, "write", address, str(block), str(source))

    def reads(self, address: str, _number: int, out: Path) -> Words:
        return (self.program, "read", address, str(GREATEST_RECORD), str(out))

    def fill_memory(self, address: str, source: Path, block: int) -> None:
        run_all([self.writes(address, 0, source, block)])


Ends = Union[Programs, Floor]


def built(folder: Path, name: str) -> str | None:
    """Builds a program of a C file here; None where no C compiler builds it."""
    compiler, program = shutil.which("cc"), str(folder / name)
    if not compiler or subprocess.run((compiler, "-O2", "-o", program, str(HERE / f"{name}.c")), check=False).returncode:
        return None
    return program


def run_all(clients: Sequence[Words]) -> None:
    """Starts clients at once, and returns when all have ended well."""
    running = [subprocess.Popen(it, stdout=subprocess.DEVNULL, stderr=subprocess.DEVNULL) for it in clients]
    if any([it.wait() for it in running]):
        raise RuntimeError(f"{clients[0][0]} failed")


def by_cat(source: Path, line: Line) -> Time:
    """The time of `cat` into one end of a connection, and `cat` out of the other."""
    with socket.create_server(("127.0.0.1", 0)) as listener, line.to("127.0.0.1:%d" % listener.getsockname()[1]) as address:
        near, (far, _) = connected(address), listener.accept()

        def both() -> None:
            with far, subprocess.Popen(("cat",), stdin=far.fileno(), stdout=subprocess.DEVNULL), near:
                subprocess.run(("cat", str(source)), stdout=near.fileno(), check=True)

        return timed(both)


class Load(NamedTuple):
    """What each client dumps, in blocks of this size, and where the volumes stand."""

    source: Path
    block: int
    reels: Reels

    def written(self, ends: Ends) -> Time:
        """The seconds of dumps to empty reels."""
        self.reels.wipe()
        with ends.serving(self.reels) as addresses:
            clients = [ends.writes(address, number, self.source, self.block) for number, address in enumerate(addresses)]
            return timed(lambda: run_all(clients))

    def fetched(self, programs: Programs, into: Path) -> Time:
        """The seconds of copying volumes into new folders, after which the reels are in the bin."""
        self.reels.fill(self.source, self.block)
        folders = [into / str(number) for number in range(self.reels.count)]
        for it in folders:
            it.mkdir(parents=True)
        with programs.serving(self.reels) as addresses:
            clients = [programs.fetches(address, number, it) for number, (address, it) in enumerate(zip(addresses, folders))]
            seconds = timed(lambda: run_all(clients))
        shutil.rmtree(into)
        return seconds

    def read(self, clients: list[Words], outs: list[Path]) -> Time:
        """The seconds of reading volumes into new files, which get their bytes, and may get their labels."""
        for it in outs:
            it.unlink(missing_ok=True)
        seconds = timed(lambda: run_all(clients))
        size = -(-self.source.stat().st_size // self.block) * self.block
        if any(it.stat().st_size - size not in (0, len(LABEL)) for it in outs):
            raise RuntimeError("what was read back has another length than what was written")
        return seconds

    @contextmanager
    def reading(self, ends: Ends, outs: list[Path]) -> Iterator[Callable[[], Time]]:
        """A server of volumes, and what answers the seconds of reading them."""
        with ends.serving(self.reels) as addresses:
            if not self.reels.folder:
                ends.fill_memory(addresses[0], self.source, self.block)
            clients = [ends.reads(address, number, outs[number]) for number, address in enumerate(addresses)]
            yield lambda: self.read(clients, outs)


def measure(title: str, load: Load, ends: tuple[Programs, Floor], folder: Path, wanted: float | None) -> None:
    """Prints the lines of dumps and of volumes that are read back."""
    size, programs = load.source.stat().st_size * load.reels.count, ends[0]
    line, name = programs.way.line, f"dumped into {title}, blocks of {load.block:,}"
    acts: list[Callable[[], Time]] = [partial(load.written, ends[0]), partial(load.written, ends[1])]
    if not load.reels.folder:
        catalog = folder / "catalog"
        catalog.unlink(missing_ok=True)
        acts += [partial(load.written, programs.by(programs.way._replace(catalog=catalog))), partial(by_cat, load.source, line)]
        acts.append(partial(timed, partial(run_all, [("sha256sum", str(load.source))])))
    ours, floor, *others = in_turns(acts)
    tell(name, "the floor", ours, floor, size, wanted)
    if others:
        summed, cat, sums = others
        tell(name, "cat", ours, cat, size)
        tell(f"{name}, with --catalog", "without", summed, ours, size)
        tell(f"{name}, with --catalog", "sha256sum", summed, sums, size)
        if line.rate:
            tell(f"cat over {line.rate // GIGABIT} Gbit/s", "at this rate", cat, size / line.rate, size)
        if catalog.read_bytes().count(b"\n") != 3 * ROUNDS:
            raise RuntimeError("a dump is not in its catalog")
    if load.reels.folder:
        load.reels.fill(load.source, load.block)
    outs = [folder / f"out{number}" for number in range(load.reels.count)]
    with ExitStack() as servers:
        both: tuple[Ends, Ends] = ends
        ours, floor = in_turns([servers.enter_context(load.reading(it, outs)) for it in both])
    name = f"read back from {title}, blocks of {load.block:,}"
    tell(name, "the floor", ours, floor, size, wanted)
    if others:
        tell(name, "cat", ours, others[1], size)
    for it in outs:
        it.unlink()
    # Several reels have one name, and the bin takes one of them.
    if load.reels.folder and load.reels.count == 1:
        (fetched,) = in_turns([partial(load.fetched, programs, folder / "into")])
        tell(f"fetched from {title}, blocks of {load.block:,}", "the floor", fetched, floor, size)


def tell(title: str, other: str, ours: Time, theirs: float, size: int, wanted: float | None = None) -> None:
    name = f"{title} / {other}"
    ratio_of_times(f"network, {name}", ours, theirs, wanted)
    told = f"{wanted:.2f}" if wanted else "-"
    spent = "".join(f"{it.processor if isinstance(it, Time) else 0:>10.3f}" for it in (ours, theirs))
    print(f"{name:<80}{ours / theirs:>8.2f}{told:>8}{size / ours / MIB:>8,.0f}{size / theirs / MIB:>8,.0f}{spent}", flush=True)


def payload(path: Path, size: int) -> Path:
    """A file of so many bytes."""
    with path.open("wb") as file:
        for _ in range(0, size, MIB):
            file.write(os.urandom(MIB))
    return path


def measure_all(programs: Programs, floor: Floor, relay: str, folder: Path, mib: int) -> None:
    whole, part = payload(folder / "whole", mib * MIB), payload(folder / "part", max(1, mib // AT_ONCE) * MIB)
    print(f"{'time over the loopback / beside':<80}{'ratio':>8}{'wanted':>8}{'MiB/s':>8}{'beside':>8}{'processor':>10}{'beside':>10}")
    for title, rate, reels, source, wanted in (
        ("memory", 0, Reels(None), whole, None),
        ("memory over 1 Gbit/s", GIGABIT, Reels(None), whole, None),
        ("memory over 10 Gbit/s", 10 * GIGABIT, Reels(None), whole, None),
        ("a folder", 0, Reels(folder / "one"), whole, WANTED),
        (f"{AT_ONCE} folders at once", 0, Reels(folder / "many", AT_ONCE), part, WANTED),
    ):
        line = Line(relay, rate)
        for block in BLOCKS:
            measure(title, Load(source, block, reels), (programs.by(Way(line=line)), Floor(floor.program, line)), folder, wanted)
        if reels.folder:
            shutil.rmtree(reels.folder)


def measure_ways(programs: Programs, floor: Floor, folder: Path, mib: int) -> None:
    """Prints the lines of dumps into a folder over each kind of socket, without and with limits. All take turns, so they can be compared."""
    socket = f"unix:{folder}/socket"
    ways = (
        Way(),
        Way("over TCP, with limits", limit="3600"),
        Way("over a Unix socket", socket),
        Way("over a Unix socket, with limits", socket, "3600"),
    )
    source, drives = payload(folder / "way_source", mib * MIB), folder / "ways"
    for block in BLOCKS:
        load = Load(source, block, Reels(drives))
        ends: list[Ends] = [programs.by(way) for way in ways]
        *ours, least = in_turns([partial(load.written, it) for it in (*ends, floor)])
        for way, seconds in zip(ways, ours):
            tell(f"dumped {way.title}, blocks of {block:,}", "the floor", seconds, least, source.stat().st_size, WANTED)
    shutil.rmtree(drives)
    source.unlink()


# Memory.


def held_for_clients(programs: Programs, folder: Path, count: int, block: int) -> float:
    """The MiB that a server has held at most when so many clients have written a block each, and are there still."""
    reels = Reels(folder, AT_ONCE)
    reels.wipe()
    expected = b"A0\nA%d\n" % block
    with programs.listening(reels) as (address, server), ExitStack() as streams:
        for number in range(count):
            stream = streams.enter_context(connected(address))
            stream.sendall(b"O/dev/st%d\n2\n" % number + write(bytes(block)))
            if streams.enter_context(stream.makefile("rb")).read(len(expected)) != expected:
                raise RuntimeError("the server's answers are not as expected")
        held = most_memory(server.pid)
    return held


def held_by_client(programs: Programs, source: Path, block: int) -> float:
    """The MiB that a client is seen to hold at most along a dump."""
    most = 0.0
    with programs.serving(Reels(None)) as (address,):
        with subprocess.Popen(programs.writes(address, 0, source, block), stdout=subprocess.DEVNULL) as client:
            while client.poll() is None:
                status = Path(f"/proc/{client.pid}/status").read_text()
                found = re.search(r"VmHWM:\s+(\d+)", status)
                most = max(most, int(found[1]) / 1024) if found else most
                time.sleep(0.001)
    return most


def measure_memory(programs: Programs, folder: Path) -> None:
    """Prints what memory both programs hold at most."""
    print(f"\n{'most memory, MiB':<40}{'server, ' + str(AT_ONCE) + ' clients':>20}{'a client adds':>16}{'client':>10}")
    source = payload(folder / "held_source", 32 * MIB)
    for block in BLOCKS:
        none, many = (held_for_clients(programs, folder / "held", count, block) for count in (0, AT_ONCE))
        client = held_by_client(programs, source, block)
        figures = f"server {many:.1f} MiB, {none:.1f} with no client; rdump {client:.1f}"
        ratio(f"memory, what each of {AT_ONCE} clients adds / its block of {block:,}", (many - none) * MIB / AT_ONCE / block, None, figures)
        print(f"{f'blocks of {block:,}':<40}{many:>20.1f}{(many - none) / AT_ONCE:>16.2f}{client:>10.1f}", flush=True)


def main() -> int:
    parser = argparse.ArgumentParser(description="Measures dumps over the loopback beside a floor.")
    parser.add_argument("rmtd", nargs="?", default=str(CRATES / "rmtd/out/rmtd"))
    parser.add_argument("rdump", nargs="?", default=str(CRATES / "rdump/out/rdump"))
    parser.add_argument("--mib", type=int, default=256, help="how much is dumped and read back each time")
    words = parser.parse_args()
    programs = Programs(os.path.abspath(words.rmtd), os.path.abspath(words.rdump))
    print(f"Ratios of this run, of the least of {ROUNDS} times each.\n")
    with tempfile.TemporaryDirectory(prefix="rmtd-bench-") as name:
        folder = Path(name)
        floor, relay = built(folder, "netfloor"), built(folder, "relay")
        if floor and relay:
            measure_all(programs, Floor(floor), relay, folder, words.mib)
            measure_ways(programs, Floor(floor), folder, words.mib)
        else:
            print("skipped: there is no C compiler on this machine, and so no floor")
        measure_memory(programs, folder)
    return 0


if __name__ == "__main__":
    sys.exit(main())
