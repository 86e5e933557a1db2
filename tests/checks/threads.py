"""Checks the built server where many connections come to its folder drives at once, on the loopback and at a Unix socket."""

from __future__ import annotations

import ctypes
import os
import random
import select
import socket
import subprocess
import tempfile
import threading
import time
from contextlib import ExitStack, contextmanager, suppress
from pathlib import Path
from typing import Iterator, Sequence

from tests.lib.case import Case
from tests.lib.connections import TCP, UNIX, Address, connected, reset_at_close, text_of
from tests.lib.drives import data_of
from tests.lib.dumping import DAY, label
from tests.lib.ended import Ended
from tests.lib.listeners import Relay
from tests.lib.places import built
from tests.lib.servers import (
    CONNECTIONS,
    LATE,
    SPARE_MEMORY,
    Server,
    Talk,
    can_trace,
    is_free,
    is_served,
    listening,
    run_all,
    serving,
    talking,
    under_strace,
)
from tests.lib.volumes import printed, reels_of
from tests.lib.waiting import GUARD_SECONDS, soon
from tests.lib.wire import BUSY, CLOSE, DONE, DONE_ONE, IO_ERROR, MARK, NO_REEL, NOTHING, NOTHING_OPEN, OFFLINE, READ, REWIND, device, opened, write

# What a server does of itself, as to end too early, it has done after this time.
PAUSE_SECONDS = 0.5

# So many connections are cut, and which, follows from the seed.
CUTS = 1_000
CUT_DRIVES = 4
SEED = int(os.environ.get("SEED") or 20_261_124)
# How often all connections open one drive at the same moment.
RACES = 50

BLOCK = 1024


# Dumps.


def dump_words(address: str, payload: Path) -> list[str]:
    words = ["dump", "--to", address, "--device", device(0), "--fs", "/usr", "--level", "0", "--payload", str(payload)]
    return [built("rdump"), *words, "--block", str(BLOCK), "--dumpdates", str(payload) + ".dates", "--date", str(DAY)]


def mt_words(server: Server) -> list[str]:
    return [built("rdump"), "mt", "--to", text_of(server.address), "--device", device(0), "nop", "1"]


def said_by(words: Sequence[str]) -> Ended[str]:
    """What comes of a client to which an operator says nothing."""
    got = subprocess.run(words, stdin=subprocess.DEVNULL, capture_output=True, text=True, check=False, timeout=GUARD_SECONDS)
    return Ended(got.stdout, got.stderr, got.returncode)


class Gate(Relay):
    """A relay that holds back what a client sends after so many bytes, until it is opened."""

    def __init__(self, server: Address, most: int) -> None:
        super().__init__(lambda: server)
        self.most = most
        self.passed = 0
        self.is_full = threading.Event()
        self.is_open = threading.Event()

    def to_server(self, piece: bytes, server: socket.socket) -> None:
        if self.passed + len(piece) > self.most and not self.is_open.is_set():
            self.is_full.set()
            self.is_open.wait()
        self.passed += len(piece)
        super().to_server(piece, server)

    def stop(self) -> None:
        self.is_open.set()
        super().stop()


def is_taken_away(talk: Talk, first: bytes) -> bool:
    """Whether the reel with this first record goes to the bin. A move that does not get the bin's lock is answered with an error, and leaves
    the reel open, at its beginning: the record is read there, and the move is asked for again."""
    until = time.monotonic() + GUARD_SECONDS
    while (answer := talk.ask(OFFLINE)) == IO_ERROR and time.monotonic() < until:
        if talk.ask(READ) != b"A%d\n%s" % (len(first), first):
            return False
    return answer == DONE_ONE


# Connections.


def served(server: Server, stack: ExitStack) -> Talk | None:
    """A connection that is served, as soon as there is a place for one. It ends with the stack."""
    found: list[Talk] = []

    def comes() -> bool:
        talk = Talk(server.address)
        if talk.ask(NOTHING) != NOTHING_OPEN:
            talk.end()
            return False
        stack.callback(talk.end)
        found.append(talk)
        return True

    return found[0] if soon(comes) else None


def is_not_served(server: Server) -> bool:
    """Whether a new connection is not had, or not answered for some time."""
    with suppress(ConnectionError):
        talk = Talk(server.address)
        talk.stream.settimeout(PAUSE_SECONDS)
        answer = talk.ask(NOTHING)
        talk.close()
        return answer in (b"", LATE)
    return True


def cut_at(address: Address, stream: bytes, way: str) -> None:
    """A connection that ends after these bytes: by a reset, by a close before its replies are read, or by the end of what is sent, and the
    replies are read up to their end. The server may have closed it before. A Unix socket has no reset: there it is a close."""
    with suppress(ConnectionError), connected(address) as it:
        it.sendall(stream)
        if way == "reset":
            reset_at_close(it)
        elif way == "end":
            it.shutdown(socket.SHUT_WR)
            while it.recv(1 << 16):
                pass


# The call pidfd_getfd(2), which Python has not.
PIDFD_GETFD = 438


@contextmanager
def sockets_of(process: int) -> Iterator[list[socket.socket]]:
    """The sockets of a process, as sockets of this one too. It fails where the system does not let them be had."""
    call = ctypes.CDLL(None, use_errno=True).syscall
    with ExitStack() as stack:
        handle = os.pidfd_open(process)
        stack.callback(os.close, handle)
        found = []
        for name in os.listdir(f"/proc/{process}/fd"):
            if os.readlink(f"/proc/{process}/fd/{name}").startswith("socket:"):
                own = call(PIDFD_GETFD, handle, int(name), 0)
                if own < 0:
                    raise OSError(ctypes.get_errno(), "pidfd_getfd")
                found.append(stack.enter_context(socket.socket(fileno=own)))
        yield found


def has_no_delay(stream: socket.socket) -> bool:
    return bool(stream.getsockopt(socket.IPPROTO_TCP, socket.TCP_NODELAY))


class SendsAtOnce(Case):
    """The server's side of a connection waits with no reply for more of them (`TCP_NODELAY`)."""

    def sends_at_once(self, title: str, process: int, address: Address) -> None:
        talk = Talk(address)
        self.addCleanup(talk.end)
        self.same(f"sends at once, {title}: it is served", talk.ask(NOTHING), NOTHING_OPEN)
        try:
            sockets = self.enterContext(sockets_of(process))
        except OSError as refused:
            self.skip_part(f"sends at once, {title}", str(refused))
            return
        here = [it for it in sockets if it.getsockname()[1] == address[1]]
        found = {has_no_delay(it) for it in here if not it.getsockopt(socket.SOL_SOCKET, socket.SO_ACCEPTCONN)}
        self.same(f"sends at once, {title}", found, {True})

    def test_at_drives_in_folders(self) -> None:
        server = self.enterContext(serving())
        self.sends_at_once("folders", server.process.pid, server.address)

    def test_in_memory(self) -> None:
        words = [built("rmtd"), "--listen", TCP]
        process, address = self.enterContext(listening(words, stderr=subprocess.DEVNULL))
        self.sends_at_once("memory", process.pid, address)


class LaidBackFirst(Case):
    """A drive is busy until the reel of the one who closes it is laid back."""

    def test_laid_back_first(self) -> None:
        """Here that takes five seconds, and who asks for the drive meanwhile is told that it is busy, and never that the reel's file is locked."""
        if not can_trace():
            self.skipTest("it takes strace(1)")
        with serving() as server:
            reel = server.reel("r1")
            with talking(server) as first, talking(server) as second:
                first.asks(self, "laid back first: it is opened", (opened(), DONE), (write(b"x"), DONE_ONE))
                self.same("laid back first: another is served", second.ask(NOTHING), NOTHING_OPEN)
                with under_strace(self, server, "-P", str(reel), "-e", "trace=close", "-e", "inject=close:delay_enter=5000000"):
                    first.stream.sendall(CLOSE)
                    answers = [second.ask(opened())]
                    while answers[-1] != DONE and not select.select([first.stream], [], [], 0)[0]:
                        answers.append(second.ask(opened()))
                    self.same("laid back first: it is busy until then", {*answers[:-1], BUSY}, {BUSY})
                    was_before = answers[0] == BUSY and answers[-1] in (BUSY, DONE)
                    self.holds("laid back first: it was asked for before", was_before, answers[0], answers[-1])
                    self.same("laid back first: the close", first.reply(), DONE)
                second.asks(self, "laid back first: then it is free", (opened(), DONE))


class Connections(Case):
    """Many connections, or a few beside each other, to drives in folders."""

    at = TCP

    def test_busy(self) -> None:
        """A dump of two reels: who opens the drive in mid volume is told that it is busy, and the dump is whole."""
        volumes = [(0, 2), (2, 1)]
        folder = self.enterContext(tempfile.TemporaryDirectory())
        payload = Path(folder) / "usr"
        payload.write_bytes(random.Random(1).randbytes(3 * BLOCK))
        with serving(capacity=3_100, at=self.at) as server, Gate(server.address, most=1024 + BLOCK) as gate:
            for name in ("r1", "r2"):
                server.reel(name)
            words = dump_words(gate.address, payload)
            with subprocess.Popen(words, stdin=subprocess.DEVNULL, stdout=subprocess.PIPE, text=True) as client:
                self.holds("busy: the dump comes to mid volume", gate.is_full.wait(GUARD_SECONDS))
                self.others_are_refused(server, payload)
                gate.is_open.set()
                told = client.communicate(timeout=GUARD_SECONDS)[0]
            self.same("busy: the dump is complete", (client.returncode, told), (0, printed(volumes)))
            reels = [it.read_bytes() for it in sorted(server.bin.iterdir())]
            self.same("busy: both reels", reels, reels_of(payload.read_bytes(), BLOCK, volumes))
            with talking(server) as other:
                other.asks(self, "busy: the drive is free", (opened(), NO_REEL))

    def others_are_refused(self, server: Server, payload: Path) -> None:
        """Whatever another client asks of the drive is refused."""
        with talking(server) as other:
            other.asks(self, "busy: another connection", (opened(), BUSY), (write(b"x"), NOTHING_OPEN))
            other.asks(self, "busy: another connection again", (opened(mode=0), BUSY), (CLOSE, NOTHING_OPEN))
        got = said_by(mt_words(server))
        self.same("busy: an operation of another client", (got.status, got.output), (3, "E16 Device busy\n"), got)
        got = said_by(dump_words(text_of(server.address), payload))
        wanted = "volume 1 failed: Refused 16\nretry?\ndump abandoned\n"
        self.same("busy: a dump of another client", (got.status, got.output), (3, wanted), got)

    def test_all_at_once(self) -> None:
        """As many connections as are served at once dump to as many drives, and each reel is that of its own connection."""
        source = random.Random(2)
        payloads = [source.randbytes(source.randrange(1, 200) * BLOCK) for _ in range(CONNECTIONS)]
        barrier = threading.Barrier(CONNECTIONS, timeout=GUARD_SECONDS)
        answered: set[int] = set()
        with serving(drives=CONNECTIONS, at=self.at) as server:
            for number in range(CONNECTIONS):
                server.reel(f"r{number:02}", number)

            def dump(number: int) -> None:
                talk = Talk(server.address)
                first = talk.ask(opened(number)) == DONE
                barrier.wait()
                blocks = [payloads[number][at : at + BLOCK] for at in range(0, len(payloads[number]), BLOCK)]
                said = [talk.ask(write(it)) == b"A%d\n" % len(it) for it in (label(1, 0), *blocks)]
                last = talk.ask(MARK) == DONE_ONE and is_taken_away(talk, label(1, 0)) and talk.ask(CLOSE) == DONE
                talk.end()
                if first and all(said) and last:
                    answered.add(number)

            run_all([threading.Thread(target=dump, args=(number,), daemon=True) for number in range(CONNECTIONS)])
            self.same("all at once: each request is answered", answered, {*range(CONNECTIONS)})
            for number, payload in enumerate(payloads):
                came = data_of(server.bin / f"r{number:02}")
                self.same(f"all at once: the reel of drive {number}", came, reels_of(payload, BLOCK, [(0, len(payload) // BLOCK)])[0])

    def test_one_too_many(self) -> None:
        """A connection above the most is closed without an answer. Once another one has ended there is room again."""
        with serving(drives=CONNECTIONS + 1, at=self.at) as server, ExitStack() as stack:
            for number in range(CONNECTIONS + 1):
                server.reel("r1" if number == 0 else f"r{number}x", number)
            talks = [stack.enter_context(talking(server)) for _ in range(CONNECTIONS)]
            for number, talk in enumerate(talks):
                talk.asks(self, f"one too many: connection {number + 1}", (opened(number), DONE))
            for title in ("one more", "and one more"):
                with talking(server) as other:
                    self.holds(f"one too many: {title} is closed without an answer", other.is_closed())
            with talking(server) as other:
                self.same("one too many: a request there is not answered", other.ask(opened(CONNECTIONS)), b"")
            got = said_by(mt_words(server))
            self.same("one too many: what a client tells", (got.status, got.output), (3, ""), got)
            talks[5].asks(self, "one too many: those before are served", (write(b"x"), DONE_ONE))
            talks[7].end()
            # The place is free a moment after the end, so the connection that gets it is the one that goes on.
            next_one = served(server, stack)
            self.holds("one too many: there is room again", next_one is not None)
            if next_one:
                next_one.asks(self, "one too many: its drive is free", (opened(7), DONE), (NOTHING, DONE_ONE))
                with talking(server) as another:
                    self.holds("one too many: then there is none", another.is_closed())

    def test_interleaved(self) -> None:
        """Two sessions, request by request in turns: at drives of their own, and at one drive that goes from one to the other."""
        with serving(drives=2, at=self.at) as server:
            server.reel("a")
            server.reel("b", 1)
            with talking(server) as first, talking(server) as second:
                first.asks(self, "interleaved, the first opens", (opened(0), DONE))
                second.asks(self, "interleaved, the second opens", (opened(1), DONE))
                for turn in range(20):
                    ours, theirs = b"first %d" % turn, b"second %d" % turn
                    first.asks(self, f"interleaved, the first, turn {turn}", (write(ours), b"A%d\n" % len(ours)))
                    second.asks(self, f"interleaved, the second, turn {turn}", (write(theirs), b"A%d\n" % len(theirs)))
                first.asks(self, "interleaved, the first rewinds", (REWIND, DONE_ONE))
                second.asks(self, "interleaved, the second rewinds", (REWIND, DONE_ONE), (b"R99\n", b"A8\nsecond 0"))
                first.asks(self, "interleaved, the first reads", (b"R99\n", b"A7\nfirst 0"), (opened(1), BUSY), (b"R99\n", NOTHING_OPEN))
                second.asks(self, "interleaved, the second takes the first's drive", (opened(0), DONE), (b"R99\n", b"A7\nfirst 0"))
                first.asks(self, "interleaved, the first takes the second's", (opened(1), DONE), (b"R99\n", b"A8\nsecond 0"), (opened(0), BUSY))
                second.asks(self, "interleaved, a reel is taken away", (OFFLINE, DONE_ONE), (NOTHING, NO_REEL))
                first.asks(self, "interleaved, its drive is still held", (opened(0), BUSY))
                second.asks(self, "interleaved, until it is closed", (CLOSE, DONE))
                first.asks(self, "interleaved, and is empty then", (opened(0), NO_REEL), (opened(1), DONE))

    def test_one_has_it(self) -> None:
        """All connections open one drive at the same moment, over and over: each time one has it, and each other one is told that it is busy."""
        with serving(at=self.at) as server, ExitStack() as stack:
            server.reel("r1")
            talks = [stack.enter_context(talking(server)) for _ in range(CONNECTIONS)]
            self.same("one has it: all are served", [talk.ask(NOTHING) for talk in talks], [NOTHING_OPEN] * CONNECTIONS)
            for turn in range(RACES):
                for talk in talks:
                    talk.stream.sendall(opened())
                answers = [talk.reply() for talk in talks]
                self.same(f"one has it: turn {turn}", sorted(answers), [DONE] + [BUSY] * (CONNECTIONS - 1))
                for talk, answer in zip(talks, answers):
                    wanted = DONE if answer == DONE else NOTHING_OPEN
                    talk.asks(self, f"one has it: turn {turn}, they close", (CLOSE, wanted))

    def test_silent(self) -> None:
        """Clients that send nothing, half of a request, or nothing more while they hold a drive, and one that reads no reply, hold up no other
        one. They are served when they go on."""
        record = bytes(65_536)
        with serving(drives=3, at=self.at) as server, ExitStack() as stack:
            for number in range(3):
                server.reel(f"r{number}", number, record)
            mute, slow, holder, deaf = (stack.enter_context(talking(server)) for _ in range(4))
            slow.stream.sendall(write(b"hello")[:-1])
            holder.asks(self, "silent: one holds a drive", (opened(0), DONE))
            deaf.asks(self, "silent: another one too", (opened(1), DONE))
            # The replies are more than the system keeps for one who does not read them.
            deaf.stream.sendall((REWIND + READ) * 500)
            with talking(server) as other:
                other.asks(self, "silent: another client opens", (opened(2), DONE), (READ, b"A65536\n" + record))
                other.asks(self, "silent: it writes", *[(write(b"%d" % number), b"A%d\n" % len(b"%d" % number)) for number in range(200)])
                other.asks(self, "silent: it takes the reel away", (MARK, DONE_ONE), (OFFLINE, DONE_ONE), (CLOSE, DONE))
                other.asks(self, "silent: the drives of the others are busy", (opened(0), BUSY), (opened(1), BUSY))
            mute.asks(self, "silent: the first goes on", (NOTHING, NOTHING_OPEN))
            slow.asks(self, "silent: the second goes on", (b"o", NOTHING_OPEN))
            holder.asks(self, "silent: the third goes on", (write(b"x"), DONE_ONE), (REWIND, DONE_ONE), (b"R9\n", b"A1\nx"))
            replies = {(deaf.reply(), deaf.reply(wants_data=True)) for _ in range(500)}
            self.same("silent: the last goes on", replies, {(DONE_ONE, b"A65536\n" + record)})
            reset_at_close(holder.stream)
            holder.close()
            self.holds("silent: a drive is free once its holder is gone", soon(lambda: is_free(server, 0)))

    def test_counted(self) -> None:
        """With `--connections` so many are accepted. The server ends well when the last of them has ended."""
        with serving("--connections", "3", drives=2, at=self.at) as server, ExitStack() as stack:
            server.reel("a")
            server.reel("b", 1)
            first, second, third = (stack.enter_context(talking(server)) for _ in range(3))
            first.asks(self, "counted: the first", (opened(0), DONE))
            second.asks(self, "counted: the second", (opened(1), DONE))
            third.asks(self, "counted: the third", (opened(0), BUSY))
            self.holds("counted: a fourth is not served", is_not_served(server))
            for talk in (third, first):
                talk.end()
                time.sleep(PAUSE_SECONDS)
                self.holds("counted: it waits for the others", server.is_there())
                second.asks(self, "counted: they are served", (write(b"x"), DONE_ONE))
            second.end()
            self.same("counted: it ends", server.end(), 0)

    def test_counted_with_one_too_many(self) -> None:
        """A connection that is closed without an answer is one of those that are counted."""
        with serving("--connections", str(CONNECTIONS + 1), at=self.at) as server, ExitStack() as stack:
            talks = [stack.enter_context(talking(server)) for _ in range(CONNECTIONS)]
            self.same("counted: all are served", [talk.ask(NOTHING) for talk in talks], [NOTHING_OPEN] * CONNECTIONS)
            with talking(server) as other:
                self.holds("counted: one more is closed without an answer", other.is_closed())
            answers = [talk.ask(NOTHING) for talk in talks]
            self.same("counted: it waits for all", (answers, server.is_there()), ([NOTHING_OPEN] * CONNECTIONS, True))
            for talk in talks:
                talk.end()
            self.same("counted: the one more was the last", server.end(), 0)

    def test_counted_to_none(self) -> None:
        with serving("--connections", "0", at=self.at) as server:
            self.same("counted: none", server.end(), 0)

    def test_no_thread(self) -> None:
        """Connections for which no thread can be had, more than are served at once, are closed without an answer. The server goes on, and none
        of them keeps a place."""
        with serving(at=self.at) as server:
            server.reel("r1")
            server.may_take(SPARE_MEMORY)
            for number in range(CONNECTIONS + 1):
                with talking(server) as talk:
                    self.holds(f"no thread: connection {number + 1} is closed without an answer", talk.is_closed())
            server.may_take(None)
            self.holds("no thread: the server is there", server.is_there())
            with talking(server) as talk:
                talk.asks(self, "no thread: the next one is served", (opened(), DONE), (write(b"x"), DONE_ONE))

    def test_cut_connections(self) -> None:
        """Connections that end at a random byte, and then a dump that succeeds."""
        seed, source = f"seed {SEED}", random.Random(SEED)
        with serving(drives=CUT_DRIVES, at=self.at) as server:
            reels = [server.reel(f"r{number}", number) for number in range(CUT_DRIVES)]
            is_served(server)
            self.holds("cut connections: the first has ended", soon(lambda: server.held()[1] == 1))
            before = server.held()
            for _ in range(CUTS):
                number, record = source.randrange(CUT_DRIVES), source.randbytes(source.randrange(1, 3_000))
                stream = b"".join([opened(number), write(record), MARK, REWIND, b"R100\n", opened(number, mode=0), CLOSE])
                cut_at(server.address, stream[: source.randrange(len(stream) + 1)], source.choice(("reset", "close", "end")))
            self.holds("cut connections: the server is there", soon(lambda: is_served(server)) and server.is_there(), seed)
            self.holds("cut connections: no file or thread is left", soon(lambda: server.held() == before), server.held(), before, seed)
            for number in range(CUT_DRIVES):
                self.holds(f"cut connections: drive {number} is free", is_free(server, number), seed)
            payload = Path(self.enterContext(tempfile.TemporaryDirectory())) / "usr"
            payload.write_bytes(source.randbytes(30 * BLOCK))
            got = said_by(dump_words(text_of(server.address), payload))
            self.same("cut connections: the dump is complete", (got.status, got.output), (0, printed([(0, 30)])), got.told, seed)
            held = [it.read_bytes() for it in server.bin.iterdir()]
            self.same("cut connections: the reel", (reels[0].exists(), held), (False, reels_of(payload.read_bytes(), BLOCK, [(0, 30)])), seed)


class ConnectionsAtUnixSocket(Connections):
    """The same at a Unix socket."""

    at = UNIX
