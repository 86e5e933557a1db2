"""Measures the server where many connections come to its folder drives at once, on the loopback.

    python3 -m bench.threads [RMTD] [--seconds N] [--seed N] [--soak | --rates]

A soak: 32 clients write volumes of random lengths to 4 drives, and take the reel away or close, while an operator puts reels back. At the
end each reel that a client counted, and that was not put back since, is whole; no drive is held; and the server holds as many files and
threads, and about as much memory, as before.

Then ratios of the least of several times: bytes written by some connections at once, each to a drive of its own, beside as many `cat`s,
each from a connection into a file, with the same sender. Last, how many operations that do nothing are answered in a second.
"""

from __future__ import annotations

import argparse
import hashlib
import os
import random
import re
import socket
import subprocess
import sys
import tempfile
import threading
import time
from contextlib import contextmanager
from pathlib import Path
from typing import Iterator

from bench.wire import CLOSE, GREATEST_RECORD, MARK, NO_OPERATION, OFFLINE
from tests.lib.given import given
from tests.lib.places import CRATES

CLIENTS = 32
DRIVES = 4
REELS_EACH = 3
SECONDS = 30
SEED = 20261124
# How often a reel is taken away again, where the bin's lock was not had.
MOVES = 1_000
# What the server may hold more of memory at the end than after the first clients.
MORE_MEMORY = 2 << 20

ROUNDS = 5
MIB = 1 << 20
TOTAL = 256 * MIB
AT_ONCE = (1, 2, 4, 8, 32)
# What is wanted at most, beside `cat`, and at least, of requests beside as many connections as there are processors.
WANTED_TIME = 1.3
WANTED_REQUESTS = 0.9
REQUEST_SECONDS = 1.0

DONE, DONE_ONE = b"A0\n", b"A1\n"


def opened(number: int, mode: int = 2) -> bytes:
    return b"O/dev/st%d\n%d\n" % (number, mode)


def image(record: bytes) -> bytes:
    """How a record stands in a reel's file."""
    length = len(record).to_bytes(4, "little")
    return length + record + length


class Server:
    """A server that listens, over empty folders."""

    def __init__(self, program: str, folder: Path, drives: int, capacity: int) -> None:
        self.bin = folder / "bin"
        self.stacks = [folder / f"st{number}" for number in range(drives)]
        for it in (self.bin, *self.stacks):
            it.mkdir()
        words = [program, "--listen", "127.0.0.1:0", "--capacity", str(capacity), "--bin", str(self.bin)]
        words += [f"/dev/st{number}={it}" for number, it in enumerate(self.stacks)]
        self.process = subprocess.Popen(words, stdout=subprocess.PIPE, stderr=subprocess.DEVNULL)
        found = given(re.search(r"listening on (.+):(\d+)\n", given(self.process.stdout).readline().decode()))
        self.address = (found[1], int(found[2]))

    def held(self) -> dict[str, int]:
        """The files, threads and bytes of memory that the server holds."""
        status = Path(f"/proc/{self.process.pid}/status").read_text()
        memory, threads = (int(given(re.search(rf"{name}:\s+(\d+)", status))[1]) for name in ("VmRSS", "Threads"))
        return {"files": len(os.listdir(f"/proc/{self.process.pid}/fd")), "threads": threads, "memory": memory << 10}


@contextmanager
def serving(program: str, drives: int, capacity: int = 1 << 40) -> Iterator[Server]:
    """A server in a folder that is taken away at the end."""
    with tempfile.TemporaryDirectory() as folder:
        server = Server(program, Path(folder), drives, capacity)
        try:
            yield server
        finally:
            server.process.kill()
            server.process.wait()
            given(server.process.stdout).close()


class Talk:
    """A connection, spoken to in lock step."""

    def __init__(self, address: tuple[str, int]) -> None:
        self.stream = socket.create_connection(address, timeout=60)
        self.stream.setsockopt(socket.IPPROTO_TCP, socket.TCP_NODELAY, 1)
        self.replies = self.stream.makefile("rb")

    def ask(self, request: bytes) -> bytes:
        """Sends a request, and answers the first line of its reply, nothing where the connection has ended."""
        try:
            self.stream.sendall(request)
            line = self.replies.readline()
            if line.startswith(b"E"):
                self.replies.readline()
            return line
        except ConnectionError:
            return b""

    def end(self) -> None:
        """Ends the connection, and returns once the server has ended it too."""
        try:
            self.stream.shutdown(socket.SHUT_WR)
            self.replies.read()
        except OSError:
            pass
        self.replies.close()
        self.stream.close()


# The soak.


class Books:
    """What clients counted, by the number of the volume: what its reel holds, as a digest. What was put back, and what went wrong."""

    def __init__(self) -> None:
        self.holding = threading.Lock()
        self.volumes = 0
        self.counted: dict[int, str] = {}
        self.put_back: set[int] = set()
        self.waits = 0
        self.moves_refused = 0
        self.faults: list[str] = []
        self.is_over = threading.Event()

    def next_volume(self) -> int:
        with self.holding:
            self.volumes += 1
            return self.volumes

    def fault(self, text: str) -> None:
        with self.holding:
            self.faults.append(text)


def label(volume: int) -> bytes:
    return b"volume %d\n" % volume


def volume_of(data: bytes) -> int | None:
    """The number of the volume whose label stands first in a reel's file."""
    found = re.match(rb"....volume (\d+)\n", data, re.S)
    return int(found[1]) if found else None


def client(server: Server, books: Books, source: random.Random) -> None:
    """Writes one volume after the other, each over a connection of its own, until it is over."""
    while not books.is_over.is_set():
        talk = Talk(server.address)
        try:
            if not write_volume(talk, books, source):
                time.sleep(source.uniform(0, 0.02))
        finally:
            talk.end()


def write_volume(talk: Talk, books: Books, source: random.Random) -> bool:
    """Writes a volume, and counts it where its reel was taken away. False where the drive is busy or has no reel, or there is no room."""
    answer = talk.ask(opened(source.randrange(DRIVES)))
    if answer in (b"E16\n", b"E6\n", b""):
        with books.holding:
            books.waits += 1
        return False
    volume = books.next_volume()
    if answer != DONE:
        books.fault(f"volume {volume}: an open was answered with {answer!r}")
        return False
    records = [label(volume)] + [source.randbytes(source.randrange(1, 9_000)) for _ in range(source.randrange(40))]
    for it in records:
        if (got := talk.ask(b"W%d\n%s" % (len(it), it))) != b"A%d\n" % len(it):
            books.fault(f"volume {volume}: a write was answered with {got!r}")
            return False
    if talk.ask(MARK) != DONE_ONE:
        books.fault(f"volume {volume}: a mark was refused")
        return False
    if source.random() < 0.3:
        talk.ask(CLOSE)
        return True
    if (got := take_away(talk, books)) != DONE_ONE:
        books.fault(f"volume {volume}: the move was answered with {got!r}")
        return False
    digest = hashlib.sha256(b"".join(map(image, records)) + bytes(4)).hexdigest()
    with books.holding:
        books.counted[volume] = digest
    return True


def take_away(talk: Talk, books: Books) -> bytes:
    """Takes the reel away, again and again where the bin's lock was not had, and answers the last reply."""
    for _ in range(MOVES):
        if (answer := talk.ask(OFFLINE)) != b"E5\n":
            break
        with books.holding:
            books.moves_refused += 1
    return answer


def operator(server: Server, books: Books, source: random.Random) -> None:
    """Puts reels of the bin that were counted back on a stack, and notes whose they were, until it is over. Some stay in the bin."""
    while not books.is_over.wait(0.01):
        for path in sorted(server.bin.iterdir()):
            volume = volume_of(path.read_bytes())
            if volume in books.counted and source.random() < 0.5:
                books.put_back.add(volume)
                path.rename(source.choice(server.stacks) / path.name)


def run_soak(server: Server, books: Books, seconds: float, seed: int) -> None:
    """Clients and an operator for some seconds."""
    books.is_over.clear()
    workers = [threading.Thread(target=client, args=(server, books, random.Random(seed + it))) for it in range(CLIENTS)]
    workers.append(threading.Thread(target=operator, args=(server, books, random.Random(seed - 1))))
    for it in workers:
        it.start()
    time.sleep(seconds)
    books.is_over.set()
    for it in workers:
        it.join()


def told(title: str, holds: bool, *seen: object) -> bool:
    """Prints whether it holds."""
    print(f"  {title}: {'yes' if holds else 'NO'}", *seen, flush=True)
    return holds


def soak(program: str, seconds: float, seed: int) -> bool:
    """The soak, and what holds at its end."""
    print(f"soak: {CLIENTS} clients at {DRIVES} drives, {seconds:.0f} seconds, seed {seed}", flush=True)
    with serving(program, DRIVES) as server:
        for number in range(DRIVES * REELS_EACH):
            server.stacks[number % DRIVES].joinpath(f"r{number:02}").touch()
        # As many sessions as there will be have been there once before what the server holds is looked at.
        books = Books()
        run_soak(server, books, 1.0, seed + 1_000)
        time.sleep(0.5)
        before = server.held()
        run_soak(server, books, seconds, seed)
        time.sleep(0.5)
        after = server.held()
        print(f"  {books.volumes} volumes, {len(books.counted)} counted, {books.waits} times a drive was busy or empty,", end=" ")
        print(f"{books.moves_refused} times a move did not get the bin's lock")
        good = told("each request was answered as it has to be", not books.faults, *books.faults[:5])
        good &= told("each counted reel is whole", whole(server, books))
        good &= told("no drive is held", all(is_free(server, number) for number in range(DRIVES)))
        good &= told("as many files and threads", (after["files"], after["threads"]) == (before["files"], before["threads"]), before, after)
        good &= told("about as much memory", after["memory"] <= before["memory"] + MORE_MEMORY)
        return good and server.process.poll() is None


def whole(server: Server, books: Books) -> bool:
    """Whether each counted volume that was not put back stands whole on a reel of the bin."""
    found = {volume_of(it.read_bytes()): hashlib.sha256(it.read_bytes()).hexdigest() for it in server.bin.iterdir()}
    kept = [it for it in books.counted if it not in books.put_back]
    return len(kept) > 0 and all(found.get(it) == books.counted[it] for it in kept)


def is_free(server: Server, number: int) -> bool:
    """Whether a drive can be opened, or is empty."""
    talk = Talk(server.address)
    answer = talk.ask(opened(number))
    talk.end()
    return answer in (DONE, b"E6\n")


# Bytes a second.


def send(stream: socket.socket, head: bytes, source: Path) -> None:
    """Sends these bytes and a file, drops what comes back, and returns once the other side has ended the connection."""

    def drop() -> None:
        while stream.recv(1 << 16):
            pass

    dropper = threading.Thread(target=drop)
    dropper.start()
    stream.sendall(head)
    with source.open("rb") as file:
        stream.sendfile(file)
    stream.shutdown(socket.SHUT_WR)
    dropper.join()


def send_all(streams: list[socket.socket], heads: list[bytes], source: Path) -> float:
    """The seconds until all that is sent on these connections at once is answered."""
    workers = [threading.Thread(target=send, args=(*it, source)) for it in zip(streams, heads)]
    began = time.perf_counter()
    for it in workers:
        it.start()
    for it in workers:
        it.join()
    seconds = time.perf_counter() - began
    for stream in streams:
        stream.close()
    return seconds


def by_server(server: Server, count: int, source: Path) -> float:
    """The seconds of so many connections, each to an empty reel of its own."""
    for it in server.stacks[:count]:
        it.joinpath("r1").write_bytes(b"")
    streams = [socket.create_connection(server.address) for _ in range(count)]
    return send_all(streams, [opened(number) for number in range(count)], source)


def by_cat(folder: Path, count: int, source: Path) -> float:
    """The seconds of so many `cat`s, each from a connection into a file of its own."""
    cats, streams = [], []
    with socket.create_server(("127.0.0.1", 0)) as listener:
        for number in range(count):
            streams.append(socket.create_connection(listener.getsockname()))
            far, _ = listener.accept()
            with far, folder.joinpath(f"cat{number}").open("wb") as sink:
                cats.append(subprocess.Popen(["cat"], stdin=far.fileno(), stdout=sink))
    seconds = send_all(streams, [b""] * count, source)
    for it in cats:
        it.wait()
    return seconds


def rates(program: str) -> bool:
    """Times beside those of `cat`."""
    good = True
    print(f"time to write {TOTAL // MIB} MiB in all, beside cat (wanted at most {WANTED_TIME}):", flush=True)
    with serving(program, max(AT_ONCE)) as server, tempfile.TemporaryDirectory() as folder:
        for count in AT_ONCE:
            source = Path(folder) / "source"
            record = os.urandom(GREATEST_RECORD)
            source.write_bytes(b"W%d\n%s" % (GREATEST_RECORD, record) * (TOTAL // GREATEST_RECORD // count))
            times = [(by_server(server, count, source), by_cat(Path(folder), count, source)) for _ in range(ROUNDS)]
            ours, cats = (min(it) for it in zip(*times))
            reels = [it.joinpath("r1").stat().st_size for it in server.stacks[:count]]
            good &= {*reels} == {(GREATEST_RECORD + 8) * (TOTAL // GREATEST_RECORD // count)} and ours <= WANTED_TIME * cats
            print(f"  {count:2} connections: {ours / cats:.2f}, {TOTAL / MIB / ours:.0f} MiB/s", flush=True)
    return good


# Requests a second.


def count_requests(address: tuple[str, int], ready: int, go: int, out: int) -> None:
    """A process of its own asks in lock step for some time, once it is told to, and writes how often it was answered."""
    talk = Talk(address)
    good = talk.ask(NO_OPERATION) == b"E9\n"
    os.write(ready, b"r")
    os.read(go, 1)
    until, count = time.perf_counter() + REQUEST_SECONDS, 0
    while good and time.perf_counter() < until:
        good = talk.ask(NO_OPERATION) == b"E9\n"
        count += 1
    os.write(out, b"%d\n" % (count if good else 0))
    talk.end()


def requests(address: tuple[str, int], count: int) -> float:
    """How many requests so many clients are answered in a second."""
    (ready, is_ready), (go, goes), (result, out) = os.pipe(), os.pipe(), os.pipe()
    children = []
    for _ in range(count):
        child = os.fork()
        if child == 0:
            count_requests(address, is_ready, go, out)
            os._exit(0)
        children.append(child)
    waiting = count
    while waiting:
        waiting -= len(os.read(ready, waiting))
    os.write(goes, b"g" * count)
    for child in children:
        os.waitpid(child, 0)
    total = sum(int(it) for it in os.read(result, 1 << 16).split())
    for it in (ready, is_ready, go, goes, result, out):
        os.close(it)
    return total / REQUEST_SECONDS


def request_rates(program: str) -> bool:
    """Requests a second of 1 to 32 connections."""
    print("requests a second, each sent after the reply to the one before:", flush=True)
    rate: dict[int, float] = {}
    with serving(program, 1) as server:
        for count in AT_ONCE:
            rate[count] = max(requests(server.address, count) for _ in range(2))
            print(f"  {count:2} connections: {rate[count]:,.0f}", flush=True)
    cores = max(it for it in AT_ONCE if it <= max(1, os.cpu_count() or 1))
    least = min(rate[it] / rate[cores] for it in AT_ONCE if it > cores)
    print(f"  more connections than processors, beside {cores}: {least:.2f} at least (wanted {WANTED_REQUESTS})")
    return least >= WANTED_REQUESTS


def main() -> int:
    parser = argparse.ArgumentParser(description="Measures the server where many connections come at once.")
    parser.add_argument("rmtd", nargs="?", default=str(CRATES / "rmtd/out/rmtd"))
    parser.add_argument("--seconds", type=float, default=SECONDS, help="how long the soak takes")
    parser.add_argument("--seed", type=int, default=SEED)
    alone = parser.add_mutually_exclusive_group()
    alone.add_argument("--soak", action="store_true", help="the soak alone")
    alone.add_argument("--rates", action="store_true", help="no soak")
    words = parser.parse_args()
    program = os.path.abspath(words.rmtd)
    good = words.rates or soak(program, words.seconds, words.seed)
    if not words.soak:
        good &= rates(program)
        good &= request_rates(program)
    return 0 if good else 1


if __name__ == "__main__":
    sys.exit(main())
