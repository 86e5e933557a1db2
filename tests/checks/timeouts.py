"""Checks how long the built client waits, `--timeout`: for a connection, for a reply, and for a peer that takes no bytes.

What a limit of a wait does, and what SIGSTOP and SIGCONT do to a call that has one, follows from socket(7) and signal(7); how a command ends that
has waited for too long, from man/rdump.8. A wait to send over TCP takes root and ip(8). What is not to be had is named as skipped.
tests/checks/doors.py has the limit of the server's waits.
"""

from __future__ import annotations

import ctypes
import os
import random
import re
import shutil
import signal
import socket
import subprocess
import tempfile
import threading
import time
from concurrent.futures import ThreadPoolExecutor
from contextlib import ExitStack, contextmanager, suppress
from pathlib import Path
from typing import IO, Callable, Iterator, NamedTuple, Sequence

from tests.lib.connections import TCP, UNIX, text_of
from tests.lib.dumping import BLOCKS, LABEL, ONE_VOLUME, PAYLOAD, RESTORE, Programs, label, requests_of
from tests.lib.each_command import EachCommandCase, commands, unreached
from tests.lib.ended import ABNORMAL, DONE, Ended
from tests.lib.listings import wire_words
from tests.lib.played_servers import Model, Received, Reel
from tests.lib.processes import sleeps, state, stop_for, tried
from tests.lib.servers import listening, serving
from tests.lib.volumes import ROOMY, printed, reels_of, volumes_of
from tests.lib.waiting import FAR, GREATEST, GUARD_SECONDS, soon
from tests.lib.wire import DEVICE
from tests.models.rmtd import images

TIMED_OUT = "timed out"
# The seconds of `--timeout` that the checks wait for.
LIMIT = 2
# A command to a server that does not answer one request is made again so often at most, where a busy machine was late with another reply.
TURNS = 3


def without_restore(got: Ended[str]) -> Ended[str]:
    """What came of a dump, without the line that says what a restore needs."""
    return got._replace(told=RESTORE.sub("", got.told))


# Servers that do not answer.

# What a server does before a reply, by the number of the request.
Acts = dict[int, Callable[[], object]]


class Mute(Model):
    """A server that does not answer some requests, counted from 1, and waits until their client has ended the connection."""

    stream: socket.socket

    def __init__(self, *reels: Reel, mute: Sequence[int] = (), path: Path | None = None) -> None:
        acts: Acts = {number: self.waits for number in mute}
        super().__init__(*reels, lost=(*mute,), acts=acts, path=path)

    def converse(self, received: Received) -> None:
        self.stream = received.stream
        super().converse(received)

    def waits(self) -> None:
        """Returns once the client has ended the connection."""
        self.stream.settimeout(GUARD_SECONDS)
        with suppress(ConnectionError):
            self.stream.recv(1)


class Full(Mute):
    """A server that takes no more bytes after so many requests, until `over` is set. It has answered them."""

    def __init__(self, *reels: Reel, mute: Sequence[int], path: Path | None = None) -> None:
        self.over = threading.Event()
        super().__init__(*reels, mute=mute, path=path)

    def waits(self) -> None:
        self.stream.sendall(b"A1024\n")
        self.over.wait(GUARD_SECONDS)

    def stop(self) -> None:
        self.over.set()
        super().stop()


def blank() -> Reel:
    return Reel("r1", 1 << 20)


def loaded() -> Reel:
    """A reel with a whole volume."""
    reel = blank()
    reel.entries = [label(1, 0), *BLOCKS, None]
    return reel


# Commands that are not answered.

# How many requests a dump has, the look before a dump, and a list of the reel of a drive.
DUMPS, LOOKS, LISTS = len(requests_of(1, 0, BLOCKS)), 6, 15


def of_dump(number: int, address: str) -> Ended[str]:
    """A volume is not counted unless its last request but the close is answered. A close that is not answered is no failure of the dump."""
    return Ended(ONE_VOLUME, "", DONE) if number == DUMPS else unreached(TIMED_OUT, address)["dump"]


def of_protect(number: int, address: str) -> Ended[str]:
    """The look before the dump: its requests first, then those of the dump."""
    if number <= LOOKS:
        return Ended("retry?\ndump abandoned\n", f"rdump: {address}: the look failed: {TIMED_OUT}\n", ABNORMAL)
    return of_dump(number - LOOKS, address)


def of_read(number: int, address: str) -> Ended[str]:
    """An open and a rewind, the label, each block, the mark, and the close."""
    counts = {4: "0 blocks\n", 5: "1 block of 1024 bytes\n", 6: "2 blocks of 1024 bytes\n"}
    count = counts.get(number, "" if number < 4 else "3 blocks of 1024 bytes\n")
    return Ended(LABEL if number > 3 else "", f"{count}rdump: {address}: {TIMED_OUT}\n", ABNORMAL)


def of_mt(number: int, address: str) -> Ended[str]:
    """An open, the operation, and a close, whose answer changes nothing."""
    return unreached(TIMED_OUT, address)["mt"] if number < 3 else Ended("A1\n", "", DONE)


def of_ls(number: int, address: str) -> Ended[str]:
    """The last request is a close, whose answer changes nothing."""
    words = wire_words(images(loaded().entries))
    return unreached(TIMED_OUT, address)["ls"] if number < LISTS else Ended(f"{DEVICE}: {words}\n", "", DONE)


class Command(NamedTuple):
    """A command to a server that does not answer one of its requests: its words, the reel, and how it ends, by the number of the request."""

    name: str
    more: tuple[str, ...]
    reel: Callable[[], Reel]
    wanted: Callable[[int, str], Ended[str]]


COMMANDS = (
    Command("dump", (), blank, of_dump),
    Command("dump", ("--protect",), blank, of_protect),
    Command("read", (), loaded, of_read),
    Command("mt", (), loaded, of_mt),
    Command("ls", (), loaded, of_ls),
)


def place_in(folder: str, at: str) -> Path | None:
    return Path(folder, "socket") if at == UNIX else None


class Asked(NamedTuple):
    """A command and the number of the request that is not answered, over one kind of socket."""

    command: Command
    number: int
    at: str

    def run(self, p: Programs) -> tuple[Ended[str], Ended[str], Ended[str]]:
        """How it ended, how it has to, and how it ends where the server ends the connection instead, but for the reason."""
        with tempfile.TemporaryDirectory() as folder:
            server: Model = Mute(self.command.reel(), mute=(self.number,), path=place_in(folder, self.at))
            got = self.at_server(p, server, folder)
            wanted = self.command.wanted(self.number, server.address)
        with tempfile.TemporaryDirectory() as folder:
            server = Model(self.command.reel(), lost=(self.number,), path=place_in(folder, self.at))
            other = self.at_server(p, server, folder)
            reason = re.sub(r"the connection ended( before the answer)?\n", f"{TIMED_OUT}\n", other.told)
            address = wanted.told.partition("rdump: ")[2].partition(f": {TIMED_OUT}")[0].removesuffix(": the look failed")
            return got, wanted, other._replace(told=reason.replace(server.address, address))

    def settled(self, p: Programs) -> tuple[Ended[str], Ended[str], Ended[str]]:
        """The same, made again where it is not what it has to be."""
        for _ in range(TURNS - 1):
            got, wanted, other = self.run(p)
            if got == wanted:
                return got, wanted, other
        return self.run(p)

    def at_server(self, p: Programs, server: Model, folder: str) -> Ended[str]:
        """How it ended at this server, without what a restore needs."""
        Path(folder, "payload").write_bytes(PAYLOAD)
        with server:
            got = tried(commands(p, server.address, *self.command.more, "--timeout", str(LIMIT))[self.command.name], cwd=folder)
        return without_restore(got)


class Unanswered(EachCommandCase):
    """The client's limit, `--timeout`, where a server says nothing."""

    def requests(self, command: Command) -> int:
        """How many requests a command makes, where each is answered."""
        self.p.file("payload", PAYLOAD)
        with Mute(command.reel()) as server:
            got = tried(commands(self.p, server.address, *command.more)[command.name], cwd=self.p.folder)
        self.same(f"{command.name} {command.more}: each request is answered", got.status, DONE, got)
        return sum(map(len, server.logs))

    def test_one_request(self) -> None:
        """To one of a command's requests, to each of them in turn."""
        asked = [Asked(it, number, at) for it in COMMANDS for number in range(1, self.requests(it) + 1) for at in (TCP, UNIX)]
        with ThreadPoolExecutor(8) as pool:
            runs = [pool.submit(it.settled, self.p) for it in asked]
            for it, run in zip(asked, runs):
                got, wanted, other = run.result()
                title = f"{it.command.name} {it.command.more}: request {it.number}, {it.at}"
                self.same(f"{title}: it is not answered", got, wanted)
                self.same(f"{title}: as where the connection ends", other, wanted)

    def test_connection_that_is_not_taken(self) -> None:
        """The server never takes the connection from the system."""
        tcp = socket.create_server(("127.0.0.1", 0))
        unix = socket.create_server(str(self.p.folder / "socket"), family=socket.AF_UNIX)
        for at, listener in ((TCP, tcp), (UNIX, unix)):
            with listener:
                address = text_of(listener.getsockname())
                self.all_end(f"a connection that is not taken, {at}", address, TIMED_OUT, "--timeout", str(LIMIT))


def length(path: Path) -> float:
    """The length of a reel, more than any where it has been taken away."""
    try:
        return path.stat().st_size
    except FileNotFoundError:
        return float("inf")


class TimeoutCase(EachCommandCase):
    """Tests of the client's limit, `--timeout`."""

    at = TCP

    def started_dump(self, address: str, limit: int) -> subprocess.Popen[str]:
        """A dump with this limit, which nobody answers."""
        words = [self.p.rdump, *self.p.dump_words(address, "--timeout", str(limit))]
        return subprocess.Popen(words, cwd=self.p.folder, text=True, stdin=subprocess.DEVNULL, stdout=subprocess.PIPE, stderr=subprocess.PIPE)

    def takes_no_bytes(self, name: str) -> None:
        """A peer that takes no bytes while a block is sent."""
        self.p.file("payload", bytes(1 << 20))
        # The fifth request is the label.
        with Full(Reel("r1", 1 << 24), mute=(5,), path=place_in(str(self.p.folder), self.at)) as server:
            got = tried([self.p.rdump, *self.p.dump_words(server.address, "--timeout", str(LIMIT), block="262144")], cwd=self.p.folder)
            self.same(name, got, unreached(TIMED_OUT, server.address)["dump"])


class Timeouts(TimeoutCase):
    """A peer that takes no bytes, a move that is not answered, programs that are stopped, and limits that are none."""

    def test_peer_that_takes_no_bytes(self) -> None:
        self.takes_no_bytes(f"{self.at}: a peer that takes no bytes")

    def test_move_that_is_not_answered(self) -> None:
        """The volume is not counted, and stands on the next reel as well."""
        self.p.file("payload", PAYLOAD)
        answers = self.p.folder / self.p.file("answers", b"yes\n")
        mute = Mute(blank(), Reel("r2", 1 << 20), mute=(DUMPS - 1,), path=place_in(str(self.p.folder), self.at))
        with answers.open("rb") as said, mute as server:
            got = tried([self.p.rdump, *self.p.dump_words(server.address, "--timeout", str(LIMIT))], cwd=self.p.folder, stdin=said)
        wanted = Ended("volume 1 failed: ConnectionEnded\nretry?\n" + ONE_VOLUME, f"rdump: {server.address}: {TIMED_OUT}\n", DONE)
        self.same(f"{self.at}: a move that is not answered", without_restore(got), wanted)
        self.same(f"{self.at}: a move that is not answered: both reels", [it.entries for it in server.bin], [loaded().entries] * 2)

    def test_no_limit(self) -> None:
        """Limits that no wait comes to, and none: a server that is slow is waited for."""
        acts: Acts = dict.fromkeys((1, 6, 10), lambda: time.sleep(0.5))
        for value in ("0", GREATEST, str(FAR), "9223372036", "18446744074"):
            with tempfile.TemporaryDirectory() as folder, Model(blank(), acts=acts, path=place_in(folder, self.at)) as server:
                self.p.file("payload", PAYLOAD)
                got = tried([self.p.rdump, *self.p.dump_words(server.address, "--timeout", value)], cwd=self.p.folder)
                self.same(f"{self.at}: --timeout {value}", without_restore(got), Ended(ONE_VOLUME, "", DONE))

    def test_client_that_is_stopped(self) -> None:
        """A client that is stopped and goes on while it waits for a reply dumps on, whether it was stopped for longer than its limit or not."""
        pids: list[int] = []

        def stop() -> None:
            soon(lambda: bool(pids) and sleeps(pids[0]))
            stop_for(self, pids[0], 0.05)
            soon(lambda: sleeps(pids[0]))

        def stop_long() -> None:
            soon(lambda: bool(pids) and sleeps(pids[0]))
            os.kill(pids[0], signal.SIGSTOP)
            self.holds("the client is stopped", soon(lambda: state(pids[0]) == "T"))
            threading.Timer(LIMIT + 1.5, os.kill, (pids[0], signal.SIGCONT)).start()

        each: Acts = {number: stop for number in range(1, DUMPS + 1)}
        once: Acts = {6: stop_long}
        for title, limit, acts in (("at each request", FAR, each), ("for longer than its limit", LIMIT, once)):
            pids.clear()
            with tempfile.TemporaryDirectory() as folder, Model(blank(), acts=acts, path=place_in(folder, self.at)) as server:
                self.p.file("payload", PAYLOAD)
                with self.started_dump(server.address, limit) as client:
                    pids.append(client.pid)
                    output, errors = client.communicate(timeout=GUARD_SECONDS)
                self.same(f"{self.at}: a client that is stopped {title}", (output, client.returncode), (ONE_VOLUME, DONE), errors)

    def test_server_that_is_stopped(self) -> None:
        """A server that is stopped for a while is waited for; one that stays so is given up. A stop that is shorter than the limit costs nothing."""
        blocks = 1_000
        payload = random.Random(2).randbytes(blocks * 1024)
        self.p.file("payload", payload)
        with serving(capacity=ROOMY, at=self.at) as server:
            reel = server.reel("r1")
            address = text_of(server.address)
            with self.started_dump(address, FAR) as client:
                self.holds(f"{self.at}: the dump begins", soon(lambda: length(reel) > 5_000))
                for _ in range(3):
                    stop_for(self, server.process.pid, 0.7)
                output, errors = client.communicate(timeout=GUARD_SECONDS)
            self.same(f"{self.at}: a server that is stopped for a while", (output, client.returncode), (printed([(0, blocks)]), DONE), errors)
            held = [it.read_bytes() for it in server.bin.iterdir()]
            self.same(f"{self.at}: a server that is stopped for a while: the reel", held, reels_of(payload, 1024, [(0, blocks)]))
            os.kill(server.process.pid, signal.SIGSTOP)
            self.all_end(f"{self.at}: a server that stays stopped", address, TIMED_OUT, "--timeout", str(LIMIT))
            os.kill(server.process.pid, signal.SIGCONT)
            got = tried(commands(self.p, address, "--timeout", str(FAR))["mt"])
            self.holds(f"{self.at}: a server that goes on", got.status in (DONE, ABNORMAL) and TIMED_OUT not in got.told, got)


class TimeoutsAtUnixSocket(Timeouts):
    """The same at a Unix socket."""

    at = UNIX


# A network of one's own, by unshare(2).
CLONE_NEWNET = 0x4000_0000


def narrowed() -> str:
    """Gives this thread, and what it starts, a network of its own with little room for bytes on the way over TCP. Why that is not to be had, or
    nothing."""
    system = ctypes.CDLL(None, use_errno=True)
    if system.unshare(CLONE_NEWNET):
        return f"unshare: {os.strerror(ctypes.get_errno())}"
    up = subprocess.run(("ip", "link", "set", "lo", "up"), capture_output=True, text=True, check=False)
    if up.returncode:
        return f"ip: {up.stderr.strip()}"
    try:
        for name in ("tcp_wmem", "tcp_rmem"):
            Path("/proc/sys/net/ipv4", name).write_text("4096 4096 4096\n")
    except OSError as fault:
        return str(fault)
    return ""


class NarrowTcp(TimeoutCase):
    """A peer that takes no bytes, over TCP, where the system keeps less than a block: it is sent in part, and then waits."""

    def test_peer_that_takes_no_bytes(self) -> None:
        if os.geteuid() != 0 or not shutil.which("ip"):
            self.skipTest("it takes root and ip(8)")
        with ThreadPoolExecutor(1) as pool:
            why = pool.submit(self.narrow).result()
        if why:
            self.skipTest(why)

    def narrow(self) -> str:
        """Tries that in a thread with such a network. Why that cannot be had, or nothing."""
        why = narrowed()
        if why:
            return why
        with socket.create_server(("127.0.0.1", 0)) as listener, socket.create_connection(listener.getsockname()) as stream:
            stream.setblocking(False)
            sent = 0
            with suppress(BlockingIOError):
                while sent <= 1 << 20:
                    sent += stream.send(bytes(1 << 16))
            self.holds("the system keeps less than a block", sent < 262_144, sent)
        self.takes_no_bytes("a peer that takes no bytes, over TCP")
        return ""


@contextmanager
def full_queue() -> Iterator[str | None]:
    """The address of a listener whose queue is full, so that the system answers no connection; None where it is not to be had."""
    with ExitStack() as stack:
        listener = stack.enter_context(socket.socket())
        listener.bind(("127.0.0.1", 0))
        listener.listen(0)
        for _ in range(16):
            stream = stack.enter_context(socket.socket())
            stream.settimeout(1)
            try:
                stream.connect(listener.getsockname())
            except TimeoutError:
                yield text_of(listener.getsockname())
                return
        yield None


class NoAnswer(EachCommandCase):
    """A connection over TCP that the system does not answer."""

    def test_no_answer(self) -> None:
        """It is given up at the limit, and not when the system gives it up, which is after minutes."""
        with full_queue() as address:
            if address is None:
                self.skipTest("this system answers each connection")
            began = time.monotonic()
            self.all_end("a connection that is not answered", address, "connection timed out", "--timeout", str(LIMIT))
            seconds = time.monotonic() - began
            self.holds("a connection that is not answered: how long it took", 4 * LIMIT <= seconds < GUARD_SECONDS, seconds)


# A dump with nobody there.


class Unattended(EachCommandCase):
    """A dump with nobody there, over a server that stops for good and another one that comes back."""

    def test_stopped_within_the_first_volume(self) -> None:
        self.is_stopped("unattended, stopped within the first volume", "r0")

    def test_stopped_within_the_second_volume(self) -> None:
        self.is_stopped("unattended, stopped within the second volume", "r1")

    def is_stopped(self, title: str, amid: str) -> None:
        """Where the dump was over before the stop, one of more blocks is made."""
        self.holds(f"{title}: the server is stopped amid the dump", any(self.back_again(title, amid, blocks) for blocks in (1_000, 4_000, 16_000)))

    def back_again(self, title: str, amid: str, blocks: int) -> bool:
        """A server is stopped for good while this reel is written, ended, and another one comes back at its path. The dump is complete, and each
        volume is on a reel. Whether the dump was not over before the stop."""
        payload = random.Random(blocks).randbytes(blocks * 1024)
        capacity = 1036 + (blocks * 2 // 5) * 1032
        volumes = volumes_of(blocks, 1024, capacity)
        self.p.file("payload", payload)
        with tempfile.TemporaryDirectory() as name, serving(capacity=capacity, at=UNIX, folder=Path(name)) as server:
            for number in range(6):
                server.reel(f"r{number}")
            errors = Path(name, "errors")
            words = ("--protect", "--retry", "60", "--pause", "1", "--timeout", str(LIMIT), "--catalog", f"{name}/catalog")
            with errors.open("wb") as told_there, self.started(self.p.dump_words(text_of(server.address), *words), told_there) as client:
                self.holds(f"{title}: the dump comes there", soon(lambda: length(server.stacks[0] / amid) > 3_000))
                os.kill(server.process.pid, signal.SIGSTOP)
                gives_up = soon(lambda: errors.read_text().count(TIMED_OUT) >= 2 or client.poll() is not None)
                self.holds(f"{title}: it gives up waiting", gives_up, errors.read_text())
                if TIMED_OUT not in errors.read_text():
                    return False
                server.stop()
                with listening(server.words, stderr=subprocess.DEVNULL) as (_, address):
                    self.same(f"{title}: another one comes back", address, server.address)
                    output = client.communicate(timeout=2 * GUARD_SECONDS)[0].decode()
            counted = "".join(line for line in output.splitlines(True) if not line.startswith("retry?") and " failed: " not in line)
            self.same(f"{title}: the dump is complete", (counted, client.returncode), (printed(volumes), DONE), output, errors.read_text())
            held, wanted = [it.read_bytes() for it in server.bin.iterdir()], reels_of(payload, 1024, volumes)
            self.holds(f"{title}: each volume is on a reel", all(it in held for it in wanted), len(held))
            self.holds(f"{title}: no reel has anything else", {*held} <= {*wanted}, len(held))
            return True

    @contextmanager
    def started(self, words: Sequence[str], errors: IO[bytes]) -> Iterator[subprocess.Popen[bytes]]:
        """A dump that is ended by SIGTERM where it is still there."""
        program = (self.p.rdump, *words)
        with subprocess.Popen(program, cwd=self.p.folder, stdin=subprocess.DEVNULL, stdout=subprocess.PIPE, stderr=errors) as client:
            try:
                yield client
            finally:
                client.terminate()
