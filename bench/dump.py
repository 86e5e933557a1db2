"""Measures operations over the loopback, beside a plain echo of lines, and entries of dumps in long files, beside empty ones, in the same run.

    python3 -m bench.dump [RMTD [RDUMP]]

It prints ratios of the least of several times: requests of an operation that does nothing, and the longest time between one and its reply; and
dumps without bytes that are entered in a dumpdates file, and in a catalog, of 100,000 lines.
"""

from __future__ import annotations

import argparse
import os
import re
import socket
import subprocess
import sys
import tempfile
import time
from contextlib import contextmanager
from functools import partial
from pathlib import Path
from typing import Callable, Iterator

from bench.list import DAY, dump
from bench.times import Time, in_turns, timed
from bench.told import ratio_of_times
from bench.wire import CLOSE, GREATEST_RECORD, MARK, NO_OPERATION, write
from tests.lib.given import given
from tests.lib.places import CRATES
from tests.models.catalog import Id

MIB = 1 << 20
ROOM = 320 * MIB
OPERATIONS = 20_000
DONE_ONE = b"A1\n"
# How long the files are, and what an entry in one may take at most, in seconds.
LINES, WANTED_ENTRY = 100_000, 0.05


@contextmanager
def listening(rmtd: str, *drives: str, at: str = "127.0.0.1:0") -> Iterator[tuple[str, subprocess.Popen[bytes]]]:
    """A server that listens, and its address."""
    words = (rmtd, "--listen", at, "--capacity", str(ROOM), *drives)
    with subprocess.Popen(words, stdout=subprocess.PIPE, stderr=subprocess.DEVNULL) as server:
        try:
            found = re.search(r"listening on (.+)\n", given(server.stdout).readline().decode())
            yield given(found)[1], server
        finally:
            server.kill()


def connected(address: str) -> socket.socket:
    """A connection that sends at once."""
    host, port = address.rsplit(":", 1)
    stream = socket.create_connection((host, int(port)))
    stream.setsockopt(socket.IPPROTO_TCP, socket.TCP_NODELAY, 1)
    return stream


def most_memory(process: int) -> float:
    """The MiB that a process has held at most."""
    status = Path(f"/proc/{process}/status").read_text()
    return int(given(re.search(r"VmHWM:\s+(\d+)", status))[1]) / 1024


def write_volume(address: str, path: Path, block: int) -> None:
    """Writes a volume of the file, the last block padded, and closes without moving the reel."""
    with connected(address) as stream, stream.makefile("rb") as replies, path.open("rb") as source:
        stream.sendall(b"O/dev/st0\n2\nW1024\nlabel\n" + bytes(1018))
        asked = 2
        while data := source.read(block):
            stream.sendall(write(data.ljust(block, b"\0")))
            asked += 1
            while asked > 64:
                replies.readline()
                asked -= 1
        stream.sendall(MARK + CLOSE)
        for _ in range(asked + 2):
            if not replies.readline().startswith(b"A"):
                raise RuntimeError("the server refused a request")


def asked(stream: socket.socket, text: bytes, reply: bytes) -> float:
    """Sends many requests, each after the reply to the one before, and answers the seconds of the longest of them."""
    longest, last = 0.0, time.perf_counter()
    for _ in range(OPERATIONS):
        stream.sendall(text)
        got = b""
        while len(got) < len(reply):
            got += stream.recv(64)
        now = time.perf_counter()
        longest, last = max(longest, now - last), now
    return longest


def echo() -> str:
    """A server that sends back what it gets, and its address."""
    listener = socket.create_server(("127.0.0.1", 0))

    def serve() -> None:
        stream, _ = listener.accept()
        stream.setsockopt(socket.IPPROTO_TCP, socket.TCP_NODELAY, 1)
        while piece := stream.recv(GREATEST_RECORD):
            stream.sendall(piece)

    if os.fork() == 0:
        serve()
        os._exit(0)
    address = "127.0.0.1:%d" % listener.getsockname()[1]
    listener.close()
    return address


def operations(rmtd: str) -> None:
    """Requests a second."""
    with listening(rmtd) as (address, _), connected(address) as stream:
        stream.sendall(b"O/dev/st0\n0\n")
        stream.recv(64)
        longest: list[float] = []
        with connected(echo()) as plain_stream:
            served, plain = in_turns(
                [
                    partial(timed, lambda: longest.append(asked(stream, NO_OPERATION, DONE_ONE))),
                    partial(timed, partial(asked, plain_stream, NO_OPERATION, NO_OPERATION)),
                ]
            )
    os.wait()
    ratio_of_times(f"{OPERATIONS:,} nops over TCP / an echo of lines", served, plain)
    print(f"nop on one connection: {OPERATIONS / served:,.0f} a second, {served / plain:.2f} times the time of a plain echo;", end=" ")
    print(f"the longest took {max(longest) * 1000:.1f} ms")


def entries(rmtd: str, rdump: str, folder: Path) -> None:
    """The time of a dump without bytes that is entered in a long file, beside one that is entered in empty files."""
    payload, none = folder / "payload", folder / "none"
    dumps = [dump(Id(f"/fs/{number}", number % 10, DAY + number, 0)) for number in range(LINES)]
    dates, catalog = "".join(it.dates for it in dumps).encode(), b"".join(it.catalog for it in dumps[: -(-LINES // 3)])
    payload.touch()

    def entered(**texts: bytes) -> Time:
        words = [rdump, "dump", "--device", "/dev/st0", "--fs", "/usr", "--level", "0", "--payload", str(payload), "--block", "1024", "--update"]
        for name in ("dumpdates", "catalog"):
            (folder / name).write_bytes(texts.get(name, b""))
            words += [f"--{name}", str(folder / name)]
        subprocess.run(("sync", *(str(folder / it) for it in ("dumpdates", "catalog"))), check=True)
        with listening(rmtd) as (address, _):
            seconds = timed(lambda: subprocess.run((*words, "--to", address), stdout=subprocess.DEVNULL, stderr=subprocess.DEVNULL, check=True))
        for name, lines in (("dumpdates", 1), ("catalog", 3)):
            if (folder / name).read_bytes().count(b"\n") != texts.get(name, b"").count(b"\n") + lines:
                raise RuntimeError(f"a dump is not in its {name}")
        return seconds

    def copied(text: bytes) -> Time:
        none.write_bytes(text)
        return timed(lambda: subprocess.run(("sh", "-c", f"cat {none} > {none}2 && sync {none}2"), check=True))

    long_ones: list[Callable[[], Time]] = [partial(entered, dumpdates=dates), partial(entered, catalog=catalog)]
    empty, *times = in_turns([entered, *long_ones, partial(copied, dates), partial(copied, catalog)])
    for name, long, copy in zip(("dumpdates", "a catalog"), times[:2], times[2:]):
        title = f"a dump entered in {name} of {LINES:,} lines"
        beside = ratio_of_times(f"{title} / in an empty one", long, empty)
        ratio_of_times(f"{title}, beyond an empty one / cat and sync", long - empty, copy)
        ratio_of_times(f"{title}, beyond an empty one / {WANTED_ENTRY * 1000:.0f} ms", long - empty, WANTED_ENTRY, 1.0)
        print(f"{title}: {beside:.2f} times the time of an empty one, {(long - empty) * 1000:.1f} ms more; cat and sync: {copy * 1000:.1f} ms")


def main() -> int:
    parser = argparse.ArgumentParser(description="Measures operations, and entries of dumps.")
    parser.add_argument("rmtd", nargs="?", default=str(CRATES / "rmtd/out/rmtd"))
    parser.add_argument("rdump", nargs="?", default=str(CRATES / "rdump/out/rdump"))
    programs = parser.parse_args()
    operations(programs.rmtd)
    with tempfile.TemporaryDirectory(prefix="rmtd-bench-") as folder:
        entries(programs.rmtd, programs.rdump, Path(folder))
    return 0


if __name__ == "__main__":
    sys.exit(main())
