"""Checks what the built server writes on standard error: which lines, of what, and that they stop nobody.

docs/MESSAGES.md has the lines in a table. A listener tells what it does; a server on standard input and output what went wrong.
"""

from __future__ import annotations

import calendar
import fcntl
import os
import re
import resource
import shutil
import socket
import subprocess
import tempfile
import threading
import time
from contextlib import contextmanager
from pathlib import Path
from typing import IO, Iterator, NamedTuple, Sequence

from tests.lib.case import Case
from tests.lib.connections import TCP, UNIX, reset_at_close
from tests.lib.drives import drive_words
from tests.lib.ended import Ended
from tests.lib.given import given
from tests.lib.logs import ADDRESS, HEAD, as_forms, bare, has, lines_of, told
from tests.lib.places import built
from tests.lib.processes import sleeps
from tests.lib.servers import (
    CONNECTIONS,
    SPARE_MEMORY,
    Server,
    Talk,
    can_trace,
    converses,
    is_served,
    listening,
    run_all,
    serving,
    talking,
    under_strace,
)
from tests.lib.stdio_servers import access, as_nobody, site
from tests.lib.waiting import GUARD_SECONDS, soon
from tests.lib.wire import (
    BUSY,
    CLOSE,
    DONE,
    DONE_ONE,
    INVALID,
    IO_ERROR,
    NO_REEL,
    NO_SUCH_FILE,
    NOTHING,
    NOTHING_OPEN,
    OFFLINE,
    READ,
    REWIND,
    opened,
    write,
)
from tests.models.rmtd import images

# What a line is, without the time and the program's name.
FORMS = (
    rf"connection (?P<came>\d+): accepted (from {ADDRESS}|at descriptor \d+)",
    r"connection \d+: closed: .+",
    r"accept failed: .+ \(os error \d+\)",
    r"seat (?P<begun>\d+): connection (?P<served>\d+): served",
    r"seat (?P<left>\d+): connection (?P<ended>\d+): ended: (end|truncated|UnknownCommand|BadNumber|LineTooLong|idle|stream failed)",
    r"seat \d+: /dev/st\d+: .+",
    r"seat \d+: open refused: .+",
)
SMALLEST_PIPE = 4096
IN_MEMORY = "the reel of /dev/st0 is in memory, and is gone when the server ends"
NO_DRIVE = f"--bin is given and no drive: {IN_MEMORY}"


class Ending(NamedTuple):
    """A way in which a connection ends, as a line tells it: after what the client sent, by its end or by a reset."""

    told: str
    sent: bytes
    is_reset: bool = False


ENDINGS = (
    Ending("end", NOTHING),
    Ending("end", b""),
    Ending("truncated", b"W3\nab"),
    Ending("UnknownCommand", b"GET / HTTP/1.1\r\n"),
    Ending("BadNumber", b"I7x\n"),
    Ending("LineTooLong", b"O" + b"x" * 256),
    Ending("stream failed", NOTHING, is_reset=True),
)
LOCKED = "lock: another has the lock"
SYNC_FAILED = r"r1 moved to the bin, folder sync failed: .+ \(os error 5\)"
BIN_UNSYNCED = r"move refused: .+/bin: sync: .+ \(os error 5\)"
FULL_DISK = r", a read or write failed: No space left on device \(os error 28\)"
READ_FAILED = r", a read or write failed: Input/output error \(os error 5\)"


def ran(words: Sequence[str], asked: bytes) -> Ended[bytes]:
    """What comes of a server that is given this on standard input."""
    got = subprocess.run(words, input=asked, capture_output=True, check=False)
    return Ended(got.stdout, got.stderr, got.returncode)


def listen_words(folder: Path, at: str = TCP) -> list[str]:
    """The words of a listener with a drive in a folder that has a reel."""
    for name in ("st0", "bin"):
        (folder / name).mkdir()
    (folder / "st0/r1").touch()
    return [built("rmtd"), "--listen", at, *drive_words(folder)]


def stdio_words(folder: Path) -> list[str]:
    """The words of such a server on standard input and output."""
    program, _, _, *drive = listen_words(folder)
    return [program, "--stdio", *drive]


def through_a_shell(line: str) -> list[str]:
    """The words that have a shell start a program in a line, in which it is called "$@"."""
    return ["/bin/sh", "-c", line, "sh"]


@contextmanager
def locked(file: Path) -> Iterator[None]:
    """With the lock of a file held (flock(2))."""
    with file.open("rb") as held:
        fcntl.flock(held, fcntl.LOCK_EX)
        yield


@contextmanager
def files_limited(server: Server, most: int) -> Iterator[None]:
    """A server that may have so many files, the descriptors of which are below that number."""
    before = resource.prlimit(server.process.pid, resource.RLIMIT_NOFILE)
    resource.prlimit(server.process.pid, resource.RLIMIT_NOFILE, (most, before[1]))
    try:
        yield
    finally:
        resource.prlimit(server.process.pid, resource.RLIMIT_NOFILE, (before[1], before[1]))


def at_drive(lines: Sequence[str]) -> list[str]:
    """What lines tell of the drive `/dev/st0`."""
    return [it.partition("/dev/st0: ")[2] for it in lines if "/dev/st0: " in it]


class Listeners(Case):
    """The lines of a server that listens, of one connection after the other."""

    def test_endings(self) -> None:
        """Each way in which a connection ends: it is accepted, served at a seat, and ended there."""
        with serving() as server:
            for number, it in enumerate(ENDINGS, 1):
                title = f"connection {number}, {it.told}"
                port = self.ended_connection(server, it)
                self.holds(f"{title}: accepted", has(self, server, rf"connection {number}: accepted from 127\.0\.0\.1:{port}"))
                self.holds(f"{title}: served", has(self, server, rf"seat \d+: connection {number}: served"))
                ended = has(self, server, rf"seat \d+: connection {number}: ended: {it.told}")
                self.holds(f"{title}: ended", ended, lines_of(self, server))

    def ended_connection(self, server: Server, ending: Ending) -> int:
        """A connection that ends so. Returns the port that it came from."""
        talk = Talk(server.address)
        talk.stream.sendall(ending.sent)
        if ending.sent == NOTHING:
            self.same(f"ended, {ending.told}: it is served", talk.reply(), NOTHING_OPEN)
        port: int = talk.stream.getsockname()[1]
        if ending.is_reset:
            reset_at_close(talk.stream)
            talk.close()
        else:
            talk.end()
        return port

    def test_reels(self) -> None:
        """A drive that is opened and closed, a reel that is moved, and an open and a move that are refused, each with the seat of its connection."""
        with serving() as server:
            reel = server.reel("r1")
            server.reel("r2")
            (server.bin / "r2").touch()
            with talking(server) as talk:
                talk.asks(self, "reels", (opened(), DONE), (write(b"x"), DONE_ONE), (CLOSE, DONE))
                with locked(reel):
                    talk.asks(self, "reels, locked", (opened(), IO_ERROR))
                talk.asks(self, "reels, moved", (opened(), DONE), (OFFLINE, DONE_ONE), (CLOSE, DONE))
                talk.asks(self, "reels, the name is taken", (opened(), DONE), (OFFLINE, IO_ERROR), (CLOSE, DONE))
            self.holds("reels: the connection is served", has(self, server, r"seat \d+: connection 1: ended: end"))
            lines = lines_of(self, server)
            seat = next((it for it in lines if it.endswith("connection 1: served")), "").split(":")[0]
            wanted = [
                "r1 opened",
                "r1 closed.*",
                rf"open refused: {re.escape(str(reel))}: {LOCKED}",
                "r1 opened",
                "r1 moved to the bin",
                "r2 opened, to read only: the bin has the name",
                "move refused: .*r2.*",
                "r2 closed.*",
            ]
            mine = at_drive([it for it in lines if it.startswith(f"{seat}: /dev/st0: ")])
            self.same("reels: the lines of its seat", as_forms(mine, wanted), wanted, lines)

    def test_read_only(self) -> None:
        """A reel whose file may only be read is told as such. One that may be written is not, whatever mode it is opened in."""
        with site(built("rmtd")) as shop, tempfile.TemporaryFile() as log:
            reel = shop.reel("r1", b"x")
            how = as_nobody(shop)
            with listening([shop.words[0], "--listen", TCP, *shop.words[2:]], stderr=log, **how) as (_, address):
                for title, mode, asked in (("read", 0o400, opened()), ("written", 0o600, opened(mode=0))):
                    with access(reel, mode):
                        talk = Talk(address)
                        refused = ((write(b"y"), IO_ERROR),) if mode == 0o400 else ()
                        talk.asks(self, f"a reel that may be {title}", (asked, DONE), (READ, b"A1\nx"), *refused, (CLOSE, DONE))
                        talk.end()
                ends = soon(lambda: sum(it.endswith("ended: end") for it in told(log).splitlines()) == 2)
                self.holds("a reel that may be read alone: it ends", ends, told(log))
                mine = at_drive(told(log).splitlines())
            failed = "r1 closed, synced, a read or write failed: the reel may only be read"
            self.same("a reel that may be read alone: the lines", mine, ["r1 opened, to read only", failed, "r1 opened", "r1 closed"])

    def test_long_path(self) -> None:
        """After a path of more bytes than a line has the reason stands."""
        top = self.enterContext(tempfile.TemporaryDirectory())
        folder = Path(top, *("f" * 200 for _ in range(5)))
        folder.mkdir(parents=True)
        with serving(folder=folder) as server:
            with talking(server) as talk, locked(server.reel("r1")):
                talk.asks(self, "a long path", (opened(), IO_ERROR))
            refused = rf"seat \d+: /dev/st0: open refused: {re.escape(top)}/f.*\.\.: {LOCKED}"
            self.holds("a long path: the reason is told", has(self, server, refused), lines_of(self, server))

    def test_name_that_is_no_text(self) -> None:
        """The reason stands after a name that is no text, too."""
        with serving() as server:
            Path(os.fsdecode(os.fsencode(server.stacks[0]) + b"/r\xff1")).touch()
            with talking(server) as talk:
                talk.asks(self, "a name that is no text", (opened(), IO_ERROR))
            refused = rf"seat \d+: /dev/st0: open refused: {re.escape(str(server.stacks[0]))}/r\?1: list: .+"
            self.holds("a name that is no text is told", has(self, server, refused), lines_of(self, server))

    def test_unsynced_folders(self) -> None:
        """A move whose bin could not be synced is refused, and told as such; one whose stack could not be is done, and told; and one whose folders
        could both be synced."""
        if not can_trace():
            self.skipTest("it takes strace(1)")
        for number, line, reply in ((2, BIN_UNSYNCED, IO_ERROR), (3, SYNC_FAILED, DONE_ONE), (4, "r1 moved to the bin", DONE_ONE)):
            with serving() as server:
                reel = server.reel("r1")
                with talking(server) as talk:
                    talk.asks(self, f"sync {number} fails", (opened(), DONE))
                    with under_strace(self, server, "-e", "trace=fsync,fdatasync", "-e", f"inject=fsync,fdatasync:error=EIO:when={number}"):
                        talk.asks(self, f"sync {number} fails: a move", (OFFLINE, reply))
                is_told = has(self, server, rf"seat \d+: /dev/st0: {line}")
                self.holds(f"sync {number} fails: it is told", is_told, lines_of(self, server))
                stands = reel.exists(), (server.bin / "r1").is_file()
                self.same(f"sync {number} fails: where the reel is", stands, (number == 2, number != 2))

    def test_refused_calls(self) -> None:
        """A read or a write that the system refused is told at the reel's close, and at its move, by the last one's reason. The next open knows
        nothing of it."""
        if not can_trace():
            self.skipTest("it takes strace(1)")
        with serving() as server:
            reel = server.reel("r1", 0, b"one", b"two")
            with talking(server) as talk:
                self.refuse_calls(server, reel, talk)
            self.holds("refused calls: the connection has ended", has(self, server, r"seat \d+: connection 1: ended: end"))
            wanted = [
                "r1 opened",
                f"r1 closed, synced{FULL_DISK}",
                "r1 opened",
                "r1 closed",
                "r1 opened",
                f"r1 closed{READ_FAILED}",
                "r1 opened",
                f"r1 closed, synced{FULL_DISK}",
                "r1 opened",
                f"r1 moved to the bin{FULL_DISK}",
            ]
            self.same("refused calls: the lines", as_forms(at_drive(lines_of(self, server)), wanted), wanted)

    def refuse_calls(self, server: Server, reel: Path, talk: Talk) -> None:
        """Reads and writes of the reel that the system refuses, and some that it does not."""

        @contextmanager
        def refusing(call: str, error: str) -> Iterator[None]:
            with under_strace(self, server, "-P", str(reel), "-e", f"trace={call}", "-e", f"inject={call}:error={error}"):
                yield

        talk.asks(self, "refused calls: a write", (opened(), DONE), (write(b"x"), DONE_ONE))
        with refusing("writev", "ENOSPC"):
            talk.asks(self, "refused calls: a full disk", (write(b"y"), IO_ERROR), (CLOSE, DONE))
        talk.asks(self, "refused calls: nothing is refused", (opened(), DONE), (CLOSE, DONE), (opened(), DONE))
        with refusing("pread64", "EIO"):
            talk.asks(self, "refused calls: a read", (b"R9\n", IO_ERROR), (CLOSE, DONE))
        talk.asks(self, "refused calls: one after the other", (opened(), DONE))
        with refusing("pread64", "EIO"):
            talk.asks(self, "refused calls: first a read", (b"R9\n", IO_ERROR))
        with refusing("writev", "ENOSPC"):
            talk.asks(self, "refused calls: then a write", (write(b"y"), IO_ERROR), (CLOSE, DONE))
        talk.asks(self, "refused calls: a move", (opened(), DONE))
        with refusing("writev", "ENOSPC"):
            talk.asks(self, "refused calls: a move after a write", (write(b"y"), IO_ERROR), (OFFLINE, DONE_ONE))

    def test_in_memory(self) -> None:
        """A reel in memory is told of once at the start, also that it never comes to the bin, and connections have their lines."""
        for more, first in (((), IN_MEMORY), (("--bin", "/"), NO_DRIVE)):
            words = [built("rmtd"), "--listen", TCP, "--connections", "3", *more]
            with tempfile.TemporaryFile() as log, listening(words, stderr=log) as (process, address):
                self.same("in memory: it is served", (converses(address), converses(address)), (True, True))
                talk = Talk(address)
                self.same("in memory: what is no request is not answered", talk.ask(b"?"), b"")
                talk.end()
                self.same("in memory: it ends", process.wait(GUARD_SECONDS), 0)
                lines = bare(self, "in memory", told(log).splitlines())
            ends = (1, "end"), (2, "end"), (3, "UnknownCommand")
            ways = [f"connection {number}: {what}" for number, end in ends for what in (f"accepted from {ADDRESS}", f"ended: {end}")]
            self.same("in memory: the lines", as_forms(lines, [first, *ways]), [first, *ways])


REFUSED = "open refused: "
NO_ST9 = f"{REFUSED}there is no drive /dev/st9"
NO_ACCESS = f"{REFUSED}the mode 3 for /dev/st0 asks for no access"
EMPTY_STACK = f"{REFUSED}no reel is on the stack of /dev/st0"
# Opens that are refused while the stack of `/dev/st0` is empty, with the reply and the line of each.
REFUSALS = (
    (opened(9), NO_SUCH_FILE, NO_ST9),
    (opened(mode=3), INVALID, NO_ACCESS),
    (opened(), NO_REEL, f"{EMPTY_STACK}: put one into its folder"),
)
# Names of drives that are not there, as they are sent and as a line has them.
NAMES = (
    (b"", ""),
    (b"/dev/st00", "/dev/st00"),
    (b"/dev/\x1b[31m\r\x07\x7f", "/dev/?[31m???"),
    (b"/dev/\xff\xc3(st", "/dev/??(st"),
    ("/dev/bänd".encode(), "/dev/bänd"),
    (b"d" * 255, "d" * 255),
)


def refused_in(lines: Sequence[str]) -> list[str]:
    """The lines of refused opens, without the seat."""
    return [it[it.index(REFUSED) :] for it in lines if REFUSED in it]


class RefusedOpens(Case):
    """The lines of opens that are refused: each has the drive and the reason, and only the first of several equal ones in a row is written."""

    def test_each_reason(self) -> None:
        with serving() as server:
            with talking(server) as talk:
                talk.asks(self, "refused opens", *[(asked, reply) for asked, reply, _ in REFUSALS])
            self.holds("refused opens: the connection has ended", has(self, server, r"seat \d+: connection 1: ended: end"))
            lines = lines_of(self, server)
            seat = next((it for it in lines if it.endswith("connection 1: served")), "").split(":")[0]
            mine = [it for it in lines if it.startswith(f"{seat}: {REFUSED}")]
            self.same("refused opens: the lines of its seat", mine, [f"{seat}: {line}" for _, _, line in REFUSALS], lines)

    def test_held_drive(self) -> None:
        """The line names the seat of the connection that holds the drive."""
        with serving() as server:
            server.reel("r1")
            with talking(server) as first, talking(server) as second:
                for number, (holder, other) in enumerate(((first, second), (second, first)), 1):
                    title = f"a held drive, {number}"
                    holder.asks(self, title, (opened(), DONE))
                    other.asks(self, f"{title}: the other one", (opened(), BUSY))
                    holder.asks(self, f"{title}: it is closed", (CLOSE, DONE))
            for number in (1, 2):
                self.holds(f"a held drive: connection {number} has ended", has(self, server, rf"seat \d+: connection {number}: ended: end"))
            lines = lines_of(self, server)
            seats = [next(it for it in lines if it.endswith(f"connection {number}: served")).split(":")[0] for number in (1, 2)]
            self.same("a held drive: two seats", len(set(seats)), 2, lines)
            wanted = [f"{other}: {REFUSED}/dev/st0 is held by {holder}" for holder, other in (seats, seats[::-1])]
            self.same("a held drive: the lines", [it for it in lines if REFUSED in it], wanted, lines)

    def test_repeated_opens(self) -> None:
        """Of equal refusals in a row the first has a line. Another refusal, an open that succeeds, or another connection ends the row."""
        missing, busy = ((opened(9), NO_SUCH_FILE),) * 40, ((opened(), IO_ERROR),) * 3
        with serving() as server:
            reel = server.reel("r1")
            with talking(server) as talk:
                talk.asks(self, "repeated opens", *missing, (opened(8), NO_SUCH_FILE), *missing)
                talk.asks(self, "repeated opens, and one that succeeds", (opened(), DONE), (CLOSE, DONE), *missing)
                with locked(reel):
                    talk.asks(self, "repeated opens, locked", *busy)
            with talking(server) as talk:
                talk.asks(self, "repeated opens, another connection", *missing)
            self.holds("repeated opens: the connection has ended", has(self, server, r"seat \d+: connection 2: ended: end"))
            lines = [it for it in lines_of(self, server) if "refused" in it]
            refused_lock = rf"seat \d+: /dev/st0: open refused: {re.escape(str(reel))}: {LOCKED}"
            wanted = [*(rf"seat \d+: {it}" for it in (NO_ST9, NO_ST9.replace("9", "8"), NO_ST9, NO_ST9)), refused_lock, rf"seat \d+: {NO_ST9}"]
            self.same("repeated opens: the lines", as_forms(lines, wanted), wanted)

    def test_names_of_clients(self) -> None:
        """A drive's name comes from the client: control characters and what is no text are question marks."""
        with serving() as server:
            with talking(server) as talk:
                talk.asks(self, "names of clients", *[(b"O%s\n2\n" % sent, NO_SUCH_FILE) for sent, _ in NAMES])
            self.holds("names of clients: the connection has ended", has(self, server, r"seat \d+: connection 1: ended: end"))
            self.same("names of clients: the lines", refused_in(lines_of(self, server)), [f"{REFUSED}there is no drive {it}" for _, it in NAMES])

    def test_nothing_of_opens_that_succeed(self) -> None:
        """Nor of other requests that are refused."""
        refused = (NOTHING, NOTHING_OPEN), (CLOSE, NOTHING_OPEN), (READ, NOTHING_OPEN)
        open_ones = (opened(), DONE), (b"R0\n", INVALID), (b"I8\n1\n", INVALID), (OFFLINE, DONE_ONE), (NOTHING, NO_REEL)
        with serving() as server:
            server.reel("r1")
            with talking(server) as talk:
                talk.asks(self, "no refused open", *refused, *open_ones)
            self.holds("no refused open: the connection has ended", has(self, server, r"seat \d+: connection 1: ended: end"))
            self.same("no refused open: no line", refused_in(lines_of(self, server)), [])

    def test_in_memory(self) -> None:
        """A server in memory has these lines too. Its reel is in no folder."""
        words = [built("rmtd"), "--listen", TCP, "--connections", "2"]
        with tempfile.TemporaryFile() as log, listening(words, stderr=log) as (process, address):
            for title in ("in memory", "in memory, another connection"):
                talk = Talk(address)
                talk.asks(self, title, (opened(9), NO_SUCH_FILE), (opened(9), NO_SUCH_FILE), (opened(mode=3), INVALID))
                if title == "in memory":
                    talk.asks(self, f"{title}, moved", (opened(), DONE), (OFFLINE, DONE_ONE))
                talk.asks(self, f"{title}, empty", (opened(), NO_REEL), (opened(9), NO_SUCH_FILE))
                talk.end()
            self.same("in memory: it ends", process.wait(GUARD_SECONDS), 0)
            lines = bare(self, "in memory", told(log).splitlines())
        self.same("in memory: the lines", [it for it in lines if REFUSED in it], [NO_ST9, NO_ACCESS, EMPTY_STACK, NO_ST9] * 2, lines)

    def test_stdio(self) -> None:
        """With drives in folders; with a reel in memory there is no log."""
        asked, replies = b"".join(it for it, _, _ in REFUSALS), b"".join(it for _, it, _ in REFUSALS)
        with tempfile.TemporaryDirectory() as folder:
            words = stdio_words(Path(folder))
            Path(folder, "st0/r1").unlink()
            got = ran(words, asked)
            lines = bare(self, "stdio", got.told.decode().splitlines())
            self.same("stdio: the replies and the lines", (got.status, got.output, lines), (0, replies, [it for _, _, it in REFUSALS]))
            both = subprocess.run(words, input=asked, stdout=subprocess.PIPE, stderr=subprocess.STDOUT, check=False)
            self.same("stdio, one pipe: the replies alone", (both.returncode, both.stdout), (0, replies))
        got = ran([built("rmtd"), "--stdio"], opened(9))
        self.same("stdio in memory: no line", got, Ended(NO_SUCH_FILE, b"", 0))


class ManyConnections(Case):
    """The lines of a server to which more connections come than it serves, or many at once."""

    at = TCP

    def test_too_many(self) -> None:
        """A connection above the most is told as closed, and why."""
        with serving(at=self.at) as server:
            talks = [Talk(server.address) for _ in range(CONNECTIONS)]
            self.same("too many: all are served", [it.ask(NOTHING) for it in talks], [NOTHING_OPEN] * CONNECTIONS)
            with talking(server) as other:
                self.holds("too many: one more is closed", other.is_closed())
            is_told = has(self, server, rf"connection {CONNECTIONS + 1}: closed: no seat is free")
            self.holds("too many: it is told", is_told, lines_of(self, server)[-3:])
            for it in talks:
                it.end()

    def test_no_thread(self) -> None:
        """A connection for which no thread is had is told as closed, and why."""
        with serving(at=self.at) as server:
            server.may_take(SPARE_MEMORY)
            with talking(server) as talk:
                self.holds("no thread: it is closed", talk.is_closed())
            self.holds("no thread: it is told", has(self, server, "connection 1: closed: no thread"), lines_of(self, server))

    def test_failed_accepts(self) -> None:
        """Accepts that fail are told once, while they fail. Connections are served when they fail no more. One for which the system had waited
        before is accepted, and closed since its second file is refused. Another one is served meanwhile, so that no number below those of its
        files is free."""
        with serving(at=self.at) as server, talking(server) as other:
            self.same("accept failed: another one is served", other.ask(NOTHING), NOTHING_OPEN)
            files = server.held()[0]
            for number, title in enumerate(("once", "and once again"), 1):
                self.holds(f"accept failed, {title}: it waits for a connection", soon(lambda: sleeps(server.process.pid)))
                with files_limited(server, files):
                    talk = Talk(server.address)
                    is_told = soon(lambda: self.failed_accepts(server) == number)
                    self.holds(f"accept failed, {title}", is_told, lines_of(self, server)[-3:])
                self.holds(f"accept failed, {title}: connections are served then", is_served(server))
                self.same(f"accept failed, {title}: there is one line", self.failed_accepts(server), number, lines_of(self, server)[-3:])
                talk.end()
                self.holds("accept failed: its files are closed", soon(lambda: server.held()[0] == files))
            is_closed = has(self, server, r"connection \d+: closed: .+ \(os error 24\)")
            self.holds("accept failed: one is closed", is_closed, lines_of(self, server))

    def failed_accepts(self, server: Server) -> int:
        """How many lines tell that accepts failed."""
        return sum(re.fullmatch(r"accept failed: .+ \(os error 24\)", it) is not None for it in lines_of(self, server))

    def test_at_once(self) -> None:
        """The lines of many connections at once: each is whole, each connection has its three, and a seat serves one after the other."""
        with serving(drives=CONNECTIONS, at=self.at) as server:
            for number in range(CONNECTIONS):
                server.reel(f"r{number}", number)

            def converse(number: int) -> None:
                for _ in range(4):
                    talk = Talk(server.address)
                    if talk.ask(opened(number)) == DONE:
                        talk.ask(write(b"x"))
                    talk.end()

            run_all([threading.Thread(target=converse, args=(number,)) for number in range(CONNECTIONS)])
            self.holds("at once: all have ended", soon(lambda: server.held()[1] == 1))
            lines = lines_of(self, server)
        found = [next(filter(None, (re.fullmatch(form, it) for form in FORMS)), None) for it in lines]
        self.same("at once: each line has a form", [line for line, it in zip(lines, found) if not it], [])
        self.seats_serve([it.groupdict() for it in found if it])

    def seats_serve(self, lines: list[dict[str, str | None]]) -> None:
        """Lines by the names of `FORMS`: a seat has one connection after the other, and each that is served is accepted, served and ended."""
        seats: dict[str, str | None] = {}
        for it in lines:
            if it.get("begun"):
                self.holds("at once: the seat is free", it["begun"] not in seats, it, seats)
                seats[str(it["begun"])] = it["served"]
            if it.get("left"):
                self.same("at once: it ends at its seat", seats.pop(str(it["left"]), None), it["ended"], it)
        steps = [(word, it[word]) for it in lines for word in ("came", "served", "ended") if it.get(word)]
        served = {number for word, number in steps if word == "served"}
        for number in served:
            words = [word for word, its in steps if its == number]
            self.same("at once: accepted, served, ended", words, ["came", "served", "ended"], number)
        self.holds("at once: most are served", len(served) > CONNECTIONS, len(served))


class ManyConnectionsAtUnixSocket(ManyConnections):
    """The same at a Unix socket."""

    at = UNIX


class Streams(Case):
    """Standard error that takes no lines."""

    def setUp(self) -> None:
        self.folder = Path(self.enterContext(tempfile.TemporaryDirectory()))

    def test_unwritable(self) -> None:
        """Standard error that is not there, or is full: the lines are dropped, and neither a reel nor a connection gets them."""
        for title, redirection in (("closed", "0<&- 2>&-"), ("full", "2>/dev/full")):
            folder = self.folder / title
            folder.mkdir()
            words = [*through_a_shell(f'exec "$@" {redirection}'), *listen_words(folder)]
            with listening(words, stdin=subprocess.DEVNULL) as (process, address):
                served = [converses(address) for _ in range(3)]
                self.same(f"standard error is {title}: connections are served", (served, process.poll()), ([True] * 3, None))
            self.same(f"standard error is {title}: the reel", Path(folder, "st0/r1").read_bytes(), images([b"x"]))

    def test_nobody_reads(self) -> None:
        """Standard error that is a pipe that nobody has open."""
        with listening(listen_words(self.folder), stderr=subprocess.PIPE) as (process, address):
            given(process.stderr).close()
            served = [converses(address) for _ in range(3)]
            self.same("nobody reads standard error: connections are served", (served, process.poll()), ([True] * 3, None))

    def test_full_pipe(self) -> None:
        """A pipe that is full has the server wait, and it goes on once somebody reads."""
        reader, writer = os.pipe()
        fcntl.fcntl(writer, fcntl.F_SETPIPE_SZ, SMALLEST_PIPE)
        pieces: list[bytes] = []

        def read() -> None:
            while piece := os.read(reader, 1 << 16):
                pieces.append(piece)

        thread = threading.Thread(target=read, daemon=True)
        with listening(listen_words(self.folder), stderr=writer) as (process, address):
            filled = os.write(writer, b"\n" * (SMALLEST_PIPE - 10))
            os.close(writer)
            talk = Talk(address)
            talk.stream.sendall(opened())
            state = Path(f"/proc/{process.pid}/wchan")
            waits = soon(lambda: "pipe" in state.read_text() or not state.read_text().strip("0"))
            self.holds("a full pipe: the server waits", waits)
            thread.start()
            self.same("a full pipe: the server goes on", (talk.reply(), talk.ask(CLOSE)), (DONE, DONE))
            talk.end()
            self.holds("a full pipe: others are served", converses(address))
        thread.join()
        os.close(reader)
        lines = b"".join(pieces)[filled:].decode().splitlines()
        self.holds("a full pipe: no line is lost", any("accepted" in it for it in lines) and all(map(HEAD.match, lines)), lines)


SMALL_FILE, REEL = 65_536, 1_048_576
BY_ITS_SIGNAL = "a longer one ends the server by the signal SIGXFSZ; if the server ignores that signal (trap '' XFSZ), the write is answered with E5"


class Limit(NamedTuple):
    """How a server is started, how many bytes its reels may have, and whether it is told that its files may not."""

    title: str
    before: str
    capacity: int
    is_told: bool


LIMITS = (
    Limit("a limit far below a reel", f"ulimit -f {SMALL_FILE // 512};", REEL, True),
    Limit("a limit of a byte less than a reel", f"ulimit -f {SMALL_FILE // 512};", SMALL_FILE + 1, True),
    Limit("a limit of a reel", f"ulimit -f {SMALL_FILE // 512};", SMALL_FILE, False),
    Limit("a limit whose signal is ignored", f"trap '' XFSZ; ulimit -f {SMALL_FILE // 512};", REEL, False),
    Limit("no limit", "", REEL, False),
)


class Limits(Case):
    """A limit on the size of files that a reel can come to, where that would end the server."""

    def test_with_a_listener(self) -> None:
        """It is told before the server listens."""
        for it in LIMITS:
            lines = [f"a file may have {SMALL_FILE} bytes here and a reel {it.capacity}: {BY_ITS_SIGNAL}"] if it.is_told else []
            with tempfile.TemporaryDirectory() as folder, tempfile.TemporaryFile() as log:
                words = [*through_a_shell(f'{it.before} exec "$@"'), *listen_words(Path(folder)), "--capacity", str(it.capacity)]
                with listening(words, stderr=log):
                    self.same(f"{it.title}: what is told once it listens", bare(self, it.title, told(log).splitlines()), lines)

    def test_with_stdio(self) -> None:
        """On standard input and output it is not told."""
        for it in LIMITS:
            with tempfile.TemporaryDirectory() as folder:
                words = [*through_a_shell(f'{it.before} exec "$@"'), *stdio_words(Path(folder)), "--capacity", str(it.capacity)]
                self.same(f"{it.title}, stdio: nothing is told", ran(words, opened()), Ended(DONE, b"", 0))


SYNCS = "fsync,fdatasync:error=EIO"
FULL = "writev:error=ENOSPC:when=1"
UNSYNCED = r"r1 closed, sync failed: .+ \(os error 5\)"
UNMOVED = r"move refused: .+/r1: sync: .+ \(os error 5\)"
UNWRITTEN = "r1 closed, synced, a read or write failed: the reel may only be read"


class Wrong(NamedTuple):
    """What goes wrong at a drive: what the folders are before, what the system refuses, by strace(1), what is asked, and the lines."""

    title: str
    before: str
    refused: str
    asked: bytes
    told: tuple[str, ...]


WRONG = (
    Wrong("the sync at a close", "", f"{SYNCS}:when=1", CLOSE, (UNSYNCED,)),
    Wrong("the sync at a move", "", f"{SYNCS}:when=1", OFFLINE, (UNMOVED, UNSYNCED)),
    Wrong("the sync at a move that is asked for three times", "", f"{SYNCS}:when=1", OFFLINE * 3, (UNMOVED, UNMOVED, UNMOVED, UNSYNCED)),
    Wrong(
        "the sync at a move, after which the reel is written anew,",
        "",
        f"{SYNCS}:when=1",
        OFFLINE + REWIND + write(b"y") + OFFLINE,
        (UNMOVED,),
    ),
    Wrong(
        "the sync at a move, after which the reel is closed,",
        "",
        f"{SYNCS}:when=1",
        OFFLINE + CLOSE + opened() + OFFLINE,
        (UNMOVED, UNSYNCED),
    ),
    Wrong("the sync of the bin", "", f"{SYNCS}:when=2", OFFLINE, (BIN_UNSYNCED,)),
    Wrong("the sync of the stack", "", f"{SYNCS}:when=3", OFFLINE, (SYNC_FAILED,)),
    Wrong("a write", "", FULL, CLOSE, (r"r1 closed, synced, a read or write failed: .+ \(os error 28\)",)),
    Wrong("a write before a move", "", FULL, OFFLINE, (r"r1 moved to the bin, a read or write failed: .+ \(os error 28\)",)),
    Wrong("the open", "locked", "", CLOSE, (rf"open refused: .+/r1: {LOCKED}",)),
    Wrong(
        "the move",
        "taken",
        "",
        OFFLINE,
        ("r1 opened, to read only: the bin has the name", "move refused: r1: the bin has the name", UNWRITTEN),
    ),
)

# With nothing at /proc, in a view of the mounts of its own that ends with it.
NO_PROC = ("unshare", "--mount", *through_a_shell('mount -t tmpfs none /proc || exit 77; exec "$@"'))
NOT_MOUNTED = 77


class Stdio(Case):
    """A server on standard input and output."""

    def setUp(self) -> None:
        self.folder = Path(self.enterContext(tempfile.TemporaryDirectory()))

    def test_nothing_is_told_of_what_went_well(self) -> None:
        """Nor of what is no request."""
        asked = opened() + write(b"x") + OFFLINE + CLOSE + b"?"
        for title, words in (("folders", stdio_words(self.folder)), ("memory", [built("rmtd"), "--stdio"])):
            got = ran(words, asked)
            self.same(f"stdio, {title}: nothing is told", (got.status, got.told), (3, b""), got)

    def test_what_went_wrong_is_told(self) -> None:
        """And nothing else."""
        traceable = can_trace()
        for number, it in enumerate(WRONG):
            if it.refused and not traceable:
                self.skip_part(f"stdio, {it.title} fails", "it takes strace(1)")
                continue
            folder = self.folder / str(number)
            folder.mkdir()
            words = stdio_words(folder)
            if it.before == "taken":
                (folder / "bin/r1").touch()
            traced = ["strace", "-f", "-o", "/dev/null", "-e", f"inject={it.refused}"] if it.refused else []
            with Path(folder, "st0/r1").open("rb") as held:
                if it.before == "locked":
                    fcntl.flock(held, fcntl.LOCK_EX)
                got = ran([*traced, *words], opened() + write(b"x") + it.asked)
            forms = [f"{HEAD.pattern}/dev/st0: {line}\n" for line in it.told]
            lines = as_forms(got.told.decode().splitlines(keepends=True), forms)
            self.same(f"stdio, {it.title} fails: it is told", (got.status, lines), (0, forms))

    def test_one_stream(self) -> None:
        """Where standard error is the stream that has the answers, as inetd gives them, nothing else stands there."""
        for title, words, answered in (
            ("folders", stdio_words(self.folder), IO_ERROR + NOTHING_OPEN),
            ("memory", [built("rmtd"), "--stdio", "--bin", str(self.folder)], DONE + DONE_ONE),
        ):
            asked = opened() + NOTHING
            with locked(self.folder / "st0/r1"):
                got = subprocess.run(words, input=asked, stdout=subprocess.PIPE, stderr=subprocess.STDOUT, check=False)
                self.same(f"one pipe, {title}: the answers alone", (got.returncode, got.stdout), (0, answered))
                ours, its = socket.socketpair()
                with ours:
                    with its:
                        process = subprocess.Popen(words, stdin=its.fileno(), stdout=its.fileno(), stderr=its.fileno())
                    ours.sendall(asked)
                    ours.shutdown(socket.SHUT_WR)
                    with ours.makefile("rb") as replies:
                        came = replies.read()
                self.same(f"one socket, {title}: the answers alone", (process.wait(GUARD_SECONDS), came), (0, answered))

    def test_without_proc(self) -> None:
        """Nothing is told where the system does not say what standard error is."""
        for title, words, answered in (
            ("folders", stdio_words(self.folder), IO_ERROR),
            ("memory", [built("rmtd"), "--stdio", "--bin", str(self.folder)], DONE),
        ):
            with locked(self.folder / "st0/r1"):
                got = ran([*NO_PROC, *words], opened()) if shutil.which("unshare") else None
            if got is None or got.status == NOT_MOUNTED or got.told.startswith(b"unshare:"):
                self.skip_part(f"stdio without /proc, {title}", "mount(8) may not be used")
            else:
                self.same(f"stdio without /proc, {title}: nothing is told", got, Ended(answered, b"", 0))

    def test_bin_without_a_drive(self) -> None:
        """That is told."""
        got = ran([built("rmtd"), "--stdio", "--bin", "/"], opened())
        lines = bare(self, "a bin and no drive", got.told.decode().splitlines())
        self.same("a bin and no drive: it is told", (got.status, got.output, lines), (0, DONE, [NO_DRIVE]))

    def test_without_streams(self) -> None:
        """With standard output or error closed: the reel is no other stream, so it gets what is asked, and neither replies nor lines."""
        asked = opened() + write(b"hello") + write(b"world") + CLOSE + b"?"
        answered = DONE + b"A5\n" * 2 + DONE
        for folder, closed, wanted in (
            (self.folder / "output", ">&-", (1, b"", images([]))),
            (self.folder / "error", "2>&-", (3, answered, images([b"hello", b"world"]))),
        ):
            folder.mkdir()
            got = ran([*through_a_shell(f'exec "$@" {closed}'), *stdio_words(folder)], asked)
            reel = Path(folder, "st0/r1").read_bytes()
            self.same(f"stdio, {closed}: the reel", (got.status, got.output, reel), wanted, got)


def stream_of(file: IO[bytes]) -> str:
    """A stream as the environment of systemd names it: `DEVICE:INODE` in decimal."""
    found = os.fstat(file.fileno())
    return f"{found.st_dev}:{found.st_ino}"


class Times(Case):
    """Each line begins with the time, unless the environment says that standard error leads to systemd's journal."""

    def heads(self, environment: dict[str, str], log: IO[bytes]) -> list[str]:
        """The times of the lines of a server that is started with these variables, each the empty text where a line has none."""
        words = [built("rmtd"), "--listen", TCP, "--connections", "1"]
        with listening(words, stderr=log, env=os.environ | environment) as (process, address):
            self.holds("the time: it is served", converses(address))
            self.same("the time: it ends", process.wait(GUARD_SECONDS), 0)
        lines = told(log).splitlines()
        found = [re.fullmatch(r"(?:(\S+) )?rmtd: (?:connection 1: (?:accepted from|ended)|the reel of /dev/st0).*", it) for it in lines]
        self.same("the time: three lines of a known form", [bool(it) for it in found], [True] * 3, lines)
        return [it[1] or "" for it in found if it]

    def test_times(self) -> None:
        """The variable JOURNAL_STREAM names standard error, another file, nothing lawful, or is not there."""
        other = self.enterContext(tempfile.TemporaryFile())
        for title, name, is_timed in (
            ("no JOURNAL_STREAM", None, True),
            ("JOURNAL_STREAM of standard error", "{}", False),
            ("JOURNAL_STREAM of another file", stream_of(other), True),
            ("JOURNAL_STREAM with more after it", "{}0", True),
            ("JOURNAL_STREAM with a zero before it", "0{}", True),
            ("JOURNAL_STREAM of one number", "7", True),
            ("an empty JOURNAL_STREAM", "", True),
            ("a long JOURNAL_STREAM", "1" * 100, True),
        ):
            with tempfile.TemporaryFile() as log:
                environment = {} if name is None else {"JOURNAL_STREAM": name.format(stream_of(log))}
                before = int(time.time())
                found = self.heads(environment, log)
                after = int(time.time())
            if is_timed:
                moments = [calendar.timegm(time.strptime(it, "%Y-%m-%dT%H:%M:%SZ")) if it else 0 for it in found]
                self.holds(f"{title}: the time", [before, *moments, after] == sorted([before, *moments, after]), before, found, after)
            else:
                self.same(f"{title}: no time", found, [""] * 3)

    def test_error_at_the_start(self) -> None:
        """It has no time."""
        folder = self.enterContext(tempfile.TemporaryDirectory())
        got = ran([built("rmtd"), "--stdio", "--bin", f"{folder}/none", f"d={folder}/none"], b"")
        wanted = f"rmtd: {folder}/none: No such file or directory (os error 2)\n"
        self.same("an error at the start: no time", (got.status, got.told.decode()), (1, wanted))


ANYWHERE = "it listens at each address of this machine: whoever reaches one of them can read and write all reels"


class Anywhere(Case):
    """That a server listens at each address of its machine is told, before it says that it listens; that it listens at one is not."""

    def test_anywhere(self) -> None:
        for address, is_told in (("0.0.0.0:0", True), ("[::]:0", True), ("[::ffff:0.0.0.0]:0", True), (TCP, False)):
            if address.startswith("[") and not socket.has_dualstack_ipv6():
                self.skip_part(f"a server at {address}", "this machine has no IPv6")
                continue
            for kind in ("memory", "folders"):
                with tempfile.TemporaryDirectory() as folder, tempfile.TemporaryFile() as log:
                    words = [built("rmtd"), "--listen", address] if kind == "memory" else listen_words(Path(folder), address)
                    with listening(words, stderr=log) as (process, _):
                        lines = bare(self, f"at {address}", told(log).splitlines())
                        self.same(f"at {address}, {kind}: it is told", lines.count(ANYWHERE), int(is_told), lines)
                        self.same(f"at {address}, {kind}: it goes on", process.poll(), None)
