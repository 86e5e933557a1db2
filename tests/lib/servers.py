"""Servers that listen, with any words, at the drive of a folder, or at drives of their own; and a connection that is spoken to in lock step."""

from __future__ import annotations

import os
import resource
import shutil
import socket
import subprocess
import tempfile
import threading
from contextlib import contextmanager, suppress
from pathlib import Path
from typing import Any, Iterator, Sequence

from tests.lib.case import Case
from tests.lib.connections import TCP, Address, address_in, connected, text_of
from tests.lib.drives import drive_words
from tests.lib.given import given
from tests.lib.places import built
from tests.lib.waiting import GUARD_SECONDS, soon
from tests.lib.wire import CLOSE, DONE, DONE_ONE, NOTHING, NOTHING_OPEN, device, opened, write
from tests.models.rmtd import Entry, images

# So many connections are served at once.
CONNECTIONS = 32

# Less than a thread takes for its stack, and more than the server takes beside that.
SPARE_MEMORY = 512 << 10

# What stands for a reply that did not come.
LATE = b"(nothing in time)"


# Servers.


@contextmanager
def listening(words: Sequence[str], **how: Any) -> Iterator[tuple[subprocess.Popen[bytes], Address]]:
    """A server with these words, started as `how` tells Popen, and its address. It is killed at the end."""
    with subprocess.Popen(words, stdout=subprocess.PIPE, **how) as process:
        try:
            yield process, address_in(given(process.stdout).readline())
        finally:
            process.kill()


@contextmanager
def at_drive(folder: Path, *more: str) -> Iterator[str]:
    """The address of a server with the drive of a folder, as an argument of `rdump`."""
    with listening((built("rmtd"), "--listen", TCP, *more, *drive_words(folder)), stderr=subprocess.DEVNULL) as (_, address):
        yield text_of(address)


class Server:
    """A server that listens, its drives, its bin, and the file of its log."""

    def __init__(self, folder: Path, drives: int = 1, capacity: int = 1 << 20, more: Sequence[str] = (), at: str = TCP) -> None:
        self.bin = folder / "bin"
        self.stacks = [folder / f"st{number}" for number in range(drives)]
        for it in (self.bin, *self.stacks):
            it.mkdir()
        at = at.replace("FOLDER", str(folder))
        self.words = [built("rmtd"), "--listen", at, "--capacity", str(capacity), "--bin", str(self.bin), *more]
        self.words += [f"{device(number)}={it}" for number, it in enumerate(self.stacks)]
        self.log = folder / "log"
        with self.log.open("wb") as log:
            self.process = subprocess.Popen(self.words, stdout=subprocess.PIPE, stderr=log)
        self.output = given(self.process.stdout)
        self.address = address_in(self.output.readline())

    def reel(self, name: str, number: int = 0, *entries: Entry) -> Path:
        """Makes a reel of these entries on the stack of a drive."""
        path = self.stacks[number] / name
        path.write_bytes(images([*entries]))
        return path

    def held(self) -> tuple[int, int]:
        """How many files and connections the server has open, and how many threads it has."""
        own = Path(f"/proc/{self.process.pid}")
        return len(os.listdir(own / "fd")), len(os.listdir(own / "task"))

    def may_take(self, more: int | None) -> None:
        """From now on the server can take so many bytes of memory more than it has; as many as it wants at None."""
        pages = int(Path(f"/proc/{self.process.pid}/statm").read_text().split()[0])
        most = resource.RLIM_INFINITY if more is None else pages * resource.getpagesize() + more
        resource.prlimit(self.process.pid, resource.RLIMIT_AS, (most, resource.RLIM_INFINITY))

    def is_there(self) -> bool:
        """Whether the server has not ended."""
        return self.process.poll() is None

    def end(self) -> int | None:
        """The status with which the server ends before long; None where it does not end."""
        with suppress(subprocess.TimeoutExpired):
            return self.process.wait(GUARD_SECONDS)
        return None

    def stop(self) -> None:
        self.process.kill()
        self.process.wait()
        self.output.close()


@contextmanager
def serving(*more: str, drives: int = 1, capacity: int = 1 << 20, at: str = TCP, folder: Path | None = None) -> Iterator[Server]:
    """A server with these words more over empty folders: in this folder, or in one that is taken away at the end."""
    with tempfile.TemporaryDirectory() as own:
        server = Server(folder or Path(own), drives, capacity, more, at)
        try:
            yield server
        finally:
            server.stop()


# Connections.


class Talk:
    """A connection, spoken to in lock step."""

    def __init__(self, address: Address) -> None:
        self.stream = connected(address)
        self.replies = self.stream.makefile("rb")

    def reply(self, wants_data: bool = False) -> bytes:
        """The next reply, nothing where the connection has ended, and `LATE` where neither comes in time."""
        try:
            line = self.replies.readline()
            if line.startswith(b"E"):
                return line + self.replies.readline()
            return line + self.replies.read(int(line[1:])) if wants_data and line else line
        except TimeoutError:
            return LATE
        except ConnectionError:
            return b""

    def is_closed(self) -> bool:
        """Whether the server has closed the connection, or does so soon, without an answer."""
        self.stream.settimeout(GUARD_SECONDS)
        return self.reply() == b""

    def ask(self, request: bytes) -> bytes:
        """Sends a request, and returns its reply."""
        try:
            self.stream.sendall(request)
        except ConnectionError:
            return b""
        return self.reply(request.startswith(b"R"))

    def asks(self, case: Case, title: str, *exchanges: tuple[bytes, bytes]) -> bool:
        """Compares the reply to each request with the one that is wanted. Whether all are the same."""
        good = [
            case.same(f"{title}: request {number}", self.ask(request), reply, request[:40]) for number, (request, reply) in enumerate(exchanges, 1)
        ]
        return all(good)

    def end(self) -> None:
        """Ends the connection, and returns once the server has ended it too."""
        with suppress(OSError):
            self.stream.shutdown(socket.SHUT_WR)
            self.replies.read()
        self.close()

    def close(self) -> None:
        self.replies.close()
        self.stream.close()


@contextmanager
def talking(server: Server) -> Iterator[Talk]:
    """A connection to the server."""
    talk = Talk(server.address)
    try:
        yield talk
    finally:
        talk.end()


def is_served(server: Server) -> bool:
    """Whether a new connection is answered."""
    with talking(server) as talk:
        return talk.ask(NOTHING) == NOTHING_OPEN


def is_free(server: Server, number: int) -> bool:
    """Whether a drive can be opened."""
    with talking(server) as talk:
        return talk.ask(opened(number)) == DONE


def converses(address: Address) -> bool:
    """Whether a connection is served: it opens the drive, writes, and closes it."""
    talk = Talk(address)
    good = [talk.ask(it) for it in (opened(), write(b"x"), CLOSE)] == [DONE, DONE_ONE, DONE]
    talk.end()
    return good


def run_all(workers: list[threading.Thread]) -> None:
    for it in workers:
        it.start()
    for it in workers:
        it.join(GUARD_SECONDS)


# Calls of the system that fail or are slow.


@contextmanager
def under_strace(case: Case, server: Server, *words: str) -> Iterator[None]:
    """With strace at the server and its threads, once it is there at all of them."""
    tasks = Path(f"/proc/{server.process.pid}/task")

    def is_at_all() -> bool:
        return not any("TracerPid:\t0\n" in it.joinpath("status").read_text() for it in tasks.iterdir())

    process = subprocess.Popen(("strace", "-f", "-o", "/dev/null", "-p", str(server.process.pid), *words), stderr=subprocess.DEVNULL)
    try:
        case.holds("strace comes to the server", soon(is_at_all))
        yield
    finally:
        process.terminate()
        process.wait()


def can_trace() -> bool:
    """Whether strace is there, and may trace a process that runs."""
    if not shutil.which("strace"):
        return False
    with subprocess.Popen(("sleep", "60")) as process:
        words = ("strace", "-o", "/dev/null", "-p", str(process.pid))
        with subprocess.Popen(words, stderr=subprocess.PIPE, text=True) as tracer:
            good = "attached" in given(tracer.stderr).readline()
            process.kill()
    return good
