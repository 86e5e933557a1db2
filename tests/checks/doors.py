"""Checks how clients come to the built server, and how long it waits for them: addresses, Unix sockets, and `--idle`.

What an address is follows from man/rdump.8. What a socket file is, and who may connect to it, follows from unix(7); what a limit of a wait does,
and what SIGSTOP and SIGCONT do to a call that has one, from socket(7) and signal(7). A second user takes root, the other end of a connection takes
ss(8). What is not to be had is named as skipped. tests/checks/timeouts.py has the limit of the client's waits.
"""

from __future__ import annotations

import fcntl
import os
import random
import re
import shutil
import signal
import socket
import stat
import subprocess
import tempfile
import threading
import time
from contextlib import ExitStack, contextmanager, suppress
from pathlib import Path
from typing import Any, Callable, Iterator, NamedTuple

from tests.lib.case import Case
from tests.lib.connections import TCP, UNIX, text_of
from tests.lib.drives import files_of
from tests.lib.dumping import PAYLOAD, Programs, needs
from tests.lib.each_command import EachCommandCase, commands, unreached
from tests.lib.ended import ABNORMAL, DONE, FAILED, Ended
from tests.lib.given import given
from tests.lib.listings import NOBODY
from tests.lib.logs import ADDRESS, bare, has, lines_of, told
from tests.lib.processes import children, sleeps, stop_for, tried
from tests.lib.servers import Talk, converses, is_free, listening, serving, talking
from tests.lib.volumes import printed, reels_of, volumes_of
from tests.lib.waiting import FAR, GREATEST, GUARD_SECONDS, soon
from tests.lib.wire import CLOSE, DEVICE
from tests.lib.wire import DONE as ANSWERED
from tests.lib.wire import DONE_ONE, NOTHING, NOTHING_OPEN, OFFLINE, READ, REWIND, opened, write

IN_USE = "Address already in use (os error 98)"
NO_SOCKET = "a file that is no socket is there"
LOCKED = "another process has the lock of its folder"
DENIED = "Permission denied (os error 13)"
REFUSED = "Connection refused (os error 111)"
ABSENT = "No such file or directory (os error 2)"
NOT_A_FOLDER = "Not a directory (os error 20)"
NO_ADDRESS = "an address is a host and a port, as in localhost:4711 or [::1]:4711, or unix: and an absolute path, as in unix:/run/rmtd/socket"
NO_NUMBER = "a number is 0 to 9223372036854775807 in digits"
NOT_BOTH = "--idle is given with --listen only"
# What `rmtd` says of a path that is too long, and `rdump`.
TOO_LONG, PATH_TOO_LONG = "path must be shorter than SUN_LEN", "the path of a Unix socket has at most 107 bytes"
BAD_PORT = "invalid port value"
# The bytes of the longest path of a Unix socket, by unix(7): an array of 108 with a zero at the end.
LONGEST = 107

# The seconds of `--idle` that the checks wait for.
IDLE = 3
# A client that sends slowly sends a byte after so many seconds.
DRIP_SECONDS = 0.4
# So many starts at one path at the same moment, so often.
STARTS = ((2, 30), (10, 10))
# A group that no user of the system is in.
GROUP = 64_123
# How another user starts a program, and one who is in that group.
USER: dict[str, Any] = {"user": NOBODY, "group": NOBODY, "extra_groups": [], "cwd": "/"}
MEMBER = USER | {"extra_groups": [GROUP]}


def look(folder: Path) -> dict[str, object]:
    """All that lies in a folder: what each is, which one, when it was changed, and where a link leads."""
    found: dict[str, object] = {}
    for it in sorted(folder.rglob("*")):
        status = it.lstat()
        text = os.readlink(it) if it.is_symlink() else it.read_bytes() if stat.S_ISREG(status.st_mode) else ""
        found[str(it.relative_to(folder))] = (status.st_mode, status.st_ino, status.st_mtime_ns, status.st_ctime_ns, status.st_uid, text)
    return found


class Door(NamedTuple):
    """A path for a socket, and how a server in memory is started at it."""

    case: Case
    rmtd: str
    path: Path

    def at(self) -> str:
        return f"unix:{self.path}"

    def beside(self, name: str) -> Door:
        """The path of this name in the same folder."""
        return self._replace(path=self.path.with_name(name))

    def words(self, *more: str) -> list[str]:
        return [self.rmtd, "--listen", self.at(), *more]

    @contextmanager
    def serving(self, *more: str, **how: Any) -> Iterator[subprocess.Popen[bytes]]:
        """A server that has printed that it listens at the path."""
        with listening(self.words(*more), stderr=subprocess.DEVNULL, **how) as (process, address):
            self.case.same("it listens at the path that is given", address, str(self.path))
            yield process

    def refused(self, title: str, why: str, **how: Any) -> None:
        """A server does not start there, for this reason."""
        self.case.same(title, tried(self.words(), **how), Ended("", f"rmtd: {self.at()}: {why}\n", FAILED))

    def stays(self, title: str, why: str = IN_USE, **how: Any) -> None:
        """No server starts at the path, for this reason, and nothing changes in its folder."""
        before = look(self.path.parent)
        self.refused(title, why, **how)
        self.case.same(f"{title}: nothing is changed", look(self.path.parent), before)

    def ended_by(self, way: str) -> None:
        """A server at the path that was there and has ended, which leaves its file."""
        with self.serving(*(("--connections", "1") if way == "--connections 1" else ())) as process:
            if way == "--connections 1":
                self.case.holds(f"{way}: it is served", self.is_served())
                self.case.same(f"{way}: it ends well", process.wait(GUARD_SECONDS), DONE)
            else:
                process.send_signal(signal.Signals[way])
                process.wait(GUARD_SECONDS)

    def is_served(self) -> bool:
        """Whether a server answers there."""
        with suppress(OSError):
            talk = Talk(str(self.path))
            good = talk.ask(NOTHING) == NOTHING_OPEN
            talk.end()
            return good
        return False


class DoorCase(EachCommandCase):
    """Tests with paths for sockets, and the commands of both programs."""

    @contextmanager
    def door(self, name: str = "socket", theirs: Programs | None = None) -> Iterator[Door]:
        """A path in a folder of its own, which others may search."""
        with tempfile.TemporaryDirectory(prefix="door-") as folder:
            Path(folder).chmod(0o755)
            yield Door(self, (theirs or self.p).rmtd, Path(folder, name))

    @contextmanager
    def copied(self) -> Iterator[Programs]:
        """The programs in a folder that other users may search, so that they can run them."""
        with tempfile.TemporaryDirectory() as folder:
            Path(folder).chmod(0o755)
            theirs = Programs(self, Path(folder))
            theirs.rmtd, theirs.rdump = shutil.copy(self.p.rmtd, folder), shutil.copy(self.p.rdump, folder)
            yield theirs

    def is_refused(self, name: str, got: Ended[str], beginning: str) -> None:
        """The program did nothing but to tell a fault, which begins so."""
        self.same(name, (got.output, got.status, got.told[: len(beginning)]), ("", FAILED, beginning), got.told)

    def no_address(self, address: str, why: str = NO_ADDRESS, title: str = "") -> None:
        """Each command takes this for no address, for this reason, and does nothing. The comparison has the title, or else the address."""
        for name, words in commands(self.p, address).items():
            beginning = f"error: invalid value for '--to <ADDRESS>': {why}\n\nUsage: rdump {name} "
            self.is_refused(f"{name} --to {title or repr(address)}", tried(words, cwd=self.p.folder), beginning)


# Addresses.


def not_found(host: str) -> str:
    """What a program says of a host that the system does not find."""
    try:
        socket.getaddrinfo(host, 4711, type=socket.SOCK_STREAM)
    except socket.gaierror as fault:
        return f"failed to lookup address information: {fault.strerror}"
    return ""


class NoPlace(NamedTuple):
    """What is no place to listen, and no address: why `rmtd` does not start, and `rdump` does not connect. With None it is the host that is not
    found."""

    address: str
    refused: str | None
    unknown: str | None


NO_PLACES = (
    NoPlace("unix:4711", None, None),
    NoPlace("/tmp/x:4711", None, None),
    NoPlace("unix/x:4711", None, None),
    NoPlace(":4711", None, NO_ADDRESS),
    NoPlace("", "invalid socket address", NO_ADDRESS),
    NoPlace("unix", "invalid socket address", NO_ADDRESS),
    NoPlace("/x", "invalid socket address", NO_ADDRESS),
    NoPlace("unix:", BAD_PORT, NO_ADDRESS),
    NoPlace("unix:x", BAD_PORT, NO_ADDRESS),
    NoPlace("unix:@x", BAD_PORT, NO_ADDRESS),
    NoPlace("unix:./x", BAD_PORT, NO_ADDRESS),
    NoPlace("UNIX:/x", BAD_PORT, NO_ADDRESS),
    NoPlace(" unix:/x", BAD_PORT, NO_ADDRESS),
    NoPlace("unix:" + "x" * LONGEST, BAD_PORT, NO_ADDRESS),
)


class Addresses(DoorCase):
    """What both programs take for an address of either kind, and what not."""

    def test_no_places(self) -> None:
        for it in NO_PLACES:
            host = it.address.rpartition(":")[0]
            why = not_found(host)
            if None in (it.refused, it.unknown) and not why:
                self.skip_part(f"the address {it.address!r}", f"this machine knows the host {host}")
                continue
            with tempfile.TemporaryDirectory() as folder:
                got = tried([self.p.rmtd, "--listen", it.address], cwd=folder)
                self.same(f"rmtd --listen {it.address!r}", got, Ended("", f"rmtd: {it.address}: {it.refused or why}\n", FAILED))
                self.same(f"rmtd --listen {it.address!r}: no file", os.listdir(folder), [])
            if it.unknown is None:
                self.all_end(f"--to {it.address!r}", it.address, why)
            else:
                self.no_address(it.address)

    def test_paths_of_sockets(self) -> None:
        with self.door() as it:
            longest = LONGEST - len(str(it.path.parent)) - 1
            for name in ("s", "a b", "x:4711", "[::1]:4711", "ü", "@x", "=", "x" * longest):
                self.goes_there(f"the file {name!r}", it.beside(name))
            self.goes_there("two slashes", it._replace(path=Path("//", *it.path.parts[1:])))
            too_long = it.beside("x" * (longest + 1))
            too_long.refused("a path of 108 bytes", TOO_LONG)
            self.no_address(too_long.at(), PATH_TOO_LONG, "a path of 108 bytes")
            self.same("addresses: what is there", max(map(len, os.listdir(it.path.parent))), longest)

    def goes_there(self, title: str, it: Door) -> None:
        """A server at this path prints so, and a client comes to it."""
        with it.serving() as process:
            self.same(f"{title}: it is served", tried(commands(self.p, it.at())["mt"]), Ended("A1\n", "", DONE))
            process.terminate()
            self.same(f"{title}: nothing more is printed", given(process.stdout).read(), b"")

    def test_hosts(self) -> None:
        for host in ("127.0.0.1", "localhost", "[::1]"):
            if host == "[::1]" and not socket.has_dualstack_ipv6():
                self.skip_part("the address [::1]:4711", "this machine has no IPv6")
                continue
            with self.p.listening(at=f"{host}:0") as (address, _):
                got = tried(commands(self.p, f"{host}:{address.rpartition(':')[2]}")["mt"])
                self.same(f"{host}: it is served", got, Ended("A1\n", "", DONE))


class Arguments(DoorCase):
    """The seconds that both programs take, and what they say of others."""

    def test_no_seconds(self) -> None:
        for value in ("x", "", "-1", "+1", "1.5", "1s", " 1", "9223372036854775808", "1" * 30):
            got = tried([self.p.rmtd, "--listen", TCP, f"--idle={value}"])
            self.is_refused(f"--idle={value!r}", got, f"error: invalid value for '--idle <SECONDS>': {NO_NUMBER}\n")
            for name, words in commands(self.p, "127.0.0.1:1", f"--timeout={value}").items():
                got = tried(words, cwd=self.p.folder)
                self.is_refused(f"{name} --timeout={value!r}", got, f"error: invalid value for '--timeout <SECONDS>': {NO_NUMBER}\n")

    def test_limits_that_are_not_taken(self) -> None:
        """By a list of files, and by a server on standard input and output."""
        self.p.file("r1", b"")
        got = tried([self.p.rdump, "ls", "--timeout", "1", "r1"], cwd=self.p.folder)
        self.is_refused("ls of files has no limit", got, "error: ")
        for value in ("0", "1", "3600"):
            got = tried([self.p.rmtd, "--stdio", "--idle", value])
            self.is_refused(f"--stdio --idle {value}", got, f"error: {NOT_BOTH}\n")

    def test_no_file_is_left(self) -> None:
        """Where the arguments are wrong. Where the address cannot be printed, the file stays, and the next start takes its place."""
        with self.door() as it:
            tried([*it.words(), "--idle", "x"])
            tried([*it.words(), "--capacity", "x"])
            tried([*it.words(), "--bin", str(it.path.parent / "bin"), f"{DEVICE}={it.path.parent / 'st0'}"])
            self.same("arguments that are wrong: no file", os.path.lexists(it.path), False)
            with open("/dev/full", "wb") as full:
                got = tried(it.words(), stdout=full)
            self.same("a full standard output", got, Ended("", f"rmtd: {it.at()}: No space left on device (os error 28)\n", FAILED))
            with it.serving():
                self.holds("a full standard output: the next start takes the place of the file", it.is_served())


# The socket file.


class Caller(NamedTuple):
    """Who comes to a server that is started with this umask and so, and whether the file lets it in."""

    title: str
    umask: int
    how: dict[str, Any]
    who: dict[str, Any]
    is_let_in: bool


CALLERS = (
    Caller("another user", 0o022, {}, USER, False),
    Caller("another user, whom the umask lets in", 0, {}, USER, True),
    Caller("a member of the group", 0o007, {"group": GROUP}, MEMBER, True),
    Caller("who is no member of the group", 0o007, {"group": GROUP}, USER, False),
    Caller("a member of the group, whom the umask keeps out", 0o022, {"group": GROUP}, MEMBER, False),
)
# What lies at the path of a socket and is none.
MAKERS: dict[str, Callable[[Path], object]] = {
    "a file": lambda path: path.write_bytes(b"bytes\n"),
    "an empty file": lambda path: path.touch(),
    "a folder": lambda path: path.mkdir(),
    "a folder that is not empty": lambda path: path.joinpath("x").mkdir(parents=True),
    "a pipe": os.mkfifo,
    "a link to nothing": lambda path: path.symlink_to("nothing"),
    "a link to itself": lambda path: path.symlink_to(path.name),
    "a link to a folder": lambda path: path.symlink_to("."),
}


class SocketFiles(DoorCase):
    """The file of a Unix socket: whose it is, who may connect to it, and when a start replaces what lies at the path."""

    def test_owner_and_mode(self) -> None:
        """The file is a socket that belongs to who made it, with the mode that the umask leaves."""
        for umask in (0o022, 0o007, 0o077, 0o177, 0):
            with self.door() as it, it.serving(umask=umask):
                found = it.path.lstat()
                self.same(f"umask {umask:03o}: the mode", oct(found.st_mode), oct(stat.S_IFSOCK | (0o777 & ~umask)))
                self.same(f"umask {umask:03o}: the owner", (found.st_uid, found.st_gid), (os.geteuid(), os.getegid()))

    def test_who_may_connect(self) -> None:
        """Who may not write to the file does not connect."""
        if os.geteuid() != 0:
            self.skipTest("it takes root, for a second user")
        with self.copied() as theirs:
            for it in CALLERS:
                self.comes(theirs, it)

    def comes(self, theirs: Programs, caller: Caller) -> None:
        """A command of each kind is kept out, or an operation is let in."""
        title, connections = caller.title, 1 + caller.is_let_in
        with ExitStack() as stack:
            it, log = stack.enter_context(self.door(theirs=theirs)), stack.enter_context(tempfile.TemporaryFile())
            stack.enter_context(listening(it.words(), stderr=log, umask=caller.umask, **caller.how))
            theirs.file("payload", PAYLOAD)
            # The other user may read the payload, and write the file of a read, so that only the connection can fail.
            places = {name: str(theirs.folder / name) for name in ("payload", "dumpdates")} | {"read": "/dev/null"}
            for name, (program, command, *words) in commands(theirs, it.at()).items() if not caller.is_let_in else ():
                got = tried([program, command, *(places.get(word, word) for word in words)], **caller.who)
                self.same(f"{title}: {name}", got, unreached(DENIED, it.at())[name])
            wanted = Ended("A1\n", "", DONE) if caller.is_let_in else unreached(DENIED, it.at())["mt"]
            self.same(title, tried(commands(theirs, it.at())["mt"], **caller.who), wanted)
            self.holds(f"{title}: the server is there", it.is_served())
            self.holds(f"{title}: connections", soon(lambda: told(log).count(": ended: ") == connections), told(log))
            self.same(f"{title}: no other connection came", told(log).count(": accepted "), connections, told(log))

    def test_stale(self) -> None:
        """The file of a server that has ended is there, refuses connections, and is replaced by the next one's."""
        for way in ("SIGKILL", "SIGTERM", "--connections 1"):
            with self.door() as it:
                it.ended_by(way)
                before = it.path.lstat()
                self.holds(f"after {way}: the file stays", stat.S_ISSOCK(before.st_mode))
                self.all_end(f"after {way}", it.at(), REFUSED)
                for turn in ("the next", "and another"):
                    with it.serving() as process:
                        self.holds(f"after {way}: {turn} is served", it.is_served())
                        after = it.path.lstat()
                        is_new = stat.S_ISSOCK(after.st_mode) and after.st_ctime_ns > before.st_ctime_ns
                        self.holds(f"after {way}: {turn} has a file of its own", is_new, before, after)
                        process.kill()
                        process.wait()
                    before = after
                self.same(f"after {way}: nothing else is left", os.listdir(it.path.parent), [it.path.name])

    def test_live_server(self) -> None:
        """A server that is there goes on, also where it was stopped, and where a link leads to its socket. No other one starts."""
        with self.door() as it, it.serving() as process:
            it.stays("a live server")
            self.same("a live server goes on", (it.is_served(), process.poll()), (True, None))
            linked = it.beside("link")
            linked.path.symlink_to(it.path)
            linked.stays("a link to a live server", NO_SOCKET)
            self.holds("a live server goes on behind a link", linked.is_served())
            os.kill(process.pid, signal.SIGSTOP)
            it.stays("a server that was stopped")
            os.kill(process.pid, signal.SIGCONT)
            self.holds("a server that was stopped goes on", it.is_served())

    def test_taken(self) -> None:
        """What lies at the path and is no socket that refuses connections stays, and the server does not start: it says that a file that is no
        socket is there."""
        for title, make in MAKERS.items():
            with self.door() as it:
                make(it.path)
                it.stays(title, NO_SOCKET)
        with self.door("other") as it:
            it.ended_by("SIGKILL")
            linked = it.beside("link")
            linked.path.symlink_to(it.path.name)
            linked.stays("a link to the file of a server that has ended", NO_SOCKET)

    def test_no_folder(self) -> None:
        for title, name, why in (("a missing folder", "missing/socket", ABSENT), ("a file for a folder", "file/socket", NOT_A_FOLDER)):
            with self.door() as it:
                it.path.with_name("file").touch()
                before = look(it.path.parent)
                it._replace(path=it.path.parent / name).refused(title, why)
                self.same(f"{title}: nothing is changed", look(it.path.parent), before)

    def test_folders_of_others(self) -> None:
        """A folder that the server's user may not write to, or not search, or not read; and one that it may write to."""
        if os.geteuid() != 0:
            self.skipTest("it takes root, for a second user")
        with self.copied() as theirs:
            with self.door(theirs=theirs) as it:
                it.stays("a folder without write permission", DENIED, **USER)
                it.ended_by("SIGKILL")
                it.stays("a folder without write permission, and a file of a server that has ended", **USER)
                it.path.parent.chmod(0o1777)
                it.stays("another user's file of a server that has ended", **USER)
                it.path.parent.chmod(0o700)
                it.stays("a folder that may not be searched", DENIED, **USER)
                it.path.parent.chmod(0o733)
                it.stays("a folder that may be written to and not read", DENIED, **USER)
            with self.door(theirs=theirs) as it:
                it.path.parent.chmod(0o777)
                for title in ("a folder that another user may write to", "a folder that another user may write to, again"):
                    with it.serving(**USER):
                        self.same(title, (it.path.lstat().st_uid, it.is_served()), (NOBODY, True))

    def test_locked(self) -> None:
        """While another process has the lock of the folder (flock(2)) no server starts there, and nothing changes. One that waits for it starts
        once it has the lock."""
        with self.door() as it:
            it.ended_by("SIGKILL")
            folder = os.open(it.path.parent, os.O_RDONLY)
            self.addCleanup(os.close, folder)
            fcntl.flock(folder, fcntl.LOCK_EX)
            it.stays("a folder that is locked", LOCKED)
            later = threading.Timer(0.3, fcntl.flock, (folder, fcntl.LOCK_UN))
            later.start()
            with it.serving():
                self.holds("a folder that was locked for a moment", it.is_served())
            later.join()


# Starts at the same moment.


def race(it: Door, count: int) -> list[Ended[str]]:
    """So many servers that are started at one moment. Those that listen are killed, once it is known which they are."""
    gate = threading.Barrier(count, timeout=GUARD_SECONDS)
    found: list[Ended[str]] = []
    over = threading.Event()
    left = threading.Semaphore(0)

    def start() -> None:
        gate.wait()
        with subprocess.Popen(it.words(), stdin=subprocess.DEVNULL, stdout=subprocess.PIPE, stderr=subprocess.PIPE) as process:
            line = given(process.stdout).readline()
            left.release()
            if line:
                over.wait(GUARD_SECONDS)
                alive = process.poll() is None
                process.kill()
                found.append(Ended(line.decode(), "", 0 if alive else process.wait()))
            else:
                output, errors = process.communicate(timeout=GUARD_SECONDS)
                found.append(Ended(output.decode(), errors.decode(), process.returncode))

    workers = [threading.Thread(target=start, daemon=True) for _ in range(count)]
    for worker in workers:
        worker.start()
    for _ in workers:
        left.acquire(timeout=GUARD_SECONDS)
    it.case.holds(f"{count} starts: one is served", it.is_served())
    over.set()
    for worker in workers:
        worker.join(GUARD_SECONDS)
    return sorted(found)


def is_race(it: Door, got: list[Ended[str]]) -> bool:
    """Whether just one of these starts serves, and each other one says that it does, or is about to."""
    serves = Ended(f"listening on {it.at()}\n", "", DONE)
    refused = {Ended("", f"rmtd: {it.at()}: {why}\n", FAILED) for why in (IN_USE, LOCKED)}
    return got.count(serves) == 1 and {*got} - {serves} <= refused


@contextmanager
def held_up(it: Door, call: str, seconds: int) -> Iterator[subprocess.Popen[bytes]]:
    """A start whose calls of this name come so much later."""
    words = ("strace", "-f", "-qq", "-o", "/dev/null", "-e", f"trace={call}", "-e", f"inject={call}:delay_enter={seconds}000000", *it.words())
    with subprocess.Popen(words, stdin=subprocess.DEVNULL, stdout=subprocess.PIPE, stderr=subprocess.PIPE) as process:
        try:
            yield process
        finally:
            for child in children(process.pid):
                os.kill(child, signal.SIGKILL)


def end_of(process: subprocess.Popen[bytes]) -> str:
    """The first line of a start that listens, and what one says that does not."""
    return (given(process.stdout).readline() or given(process.stderr).readline()).decode()


class Starts(DoorCase):
    """Several starts at one path."""

    def test_at_the_same_moment(self) -> None:
        """Just one serves, over the file of a server that has ended and over none, each time."""
        for count, rounds in STARTS:
            for title in ("over no file", "over the file of a server that has ended"):
                wrong = []
                for _ in range(rounds):
                    with self.door() as it:
                        if title != "over no file":
                            it.ended_by("SIGKILL")
                        got = race(it, count)
                    wrong += [] if is_race(it, got) else [got]
                self.same(f"{count} starts {title}, {rounds} rounds: one serves, and the others say why", wrong, [])

    def test_between_two_calls(self) -> None:
        """A server whose file is there, and which does not listen yet, is not taken for one that has ended: not by a later start, and not by one
        that began before it."""
        if not shutil.which("strace"):
            self.skipTest("it takes strace(1)")
        with self.door() as it, held_up(it, "listen", 3) as process:
            self.holds("a start that is held up: its file comes", soon(lambda: os.path.lexists(it.path)))
            it.refused("a start while another one is held up", LOCKED)
            self.same("a start that is held up: it listens", end_of(process), f"listening on {it.at()}\n")
            self.holds("a start that is held up: it is served", it.is_served())
        with self.door() as it, held_up(it, "bind", 2) as first:
            self.holds("two starts that are held up: the first has come", soon(lambda: bool(children(first.pid))))
            time.sleep(1)
            with held_up(it, "listen", 4) as second:
                got = {end_of(first), end_of(second)}
                # The second one waits a second for the lock of the folder, which the first one has for about as long.
                wanted = [{f"listening on {it.at()}\n", f"rmtd: {it.at()}: {why}\n"} for why in (IN_USE, LOCKED)]
                self.holds("two starts that are held up: one serves", got in wanted, got, wanted)
                self.holds("two starts that are held up: it is served", it.is_served())


# What is printed and logged.


def other_end(path: Path, talk: Talk, pid: int, descriptor: int) -> bool | None:
    """Whether the descriptor of a server is the other end of a connection, as ss(8) shows it. None where that is not to be had."""
    if not shutil.which("ss"):
        return None
    ours, theirs = os.fstat(talk.stream.fileno()).st_ino, os.stat(f"/proc/{pid}/fd/{descriptor}").st_ino
    shown = subprocess.run(("ss", "-Hx", "state", "established"), capture_output=True, text=True, check=False).stdout.splitlines()
    fields = [it.split() for it in shown]
    return any(str(path) in it and it[it.index(str(path)) + 1] == str(theirs) and str(ours) in it for it in fields)


def without_place(line: str) -> str:
    """A line of the log without the place that a connection came from."""
    return re.sub(r"descriptor \d+$", "descriptor N", re.sub(rf"from {ADDRESS}$", "from ADDRESS", line))


class Lines(DoorCase):
    """The line on standard output, and those of the log, at a Unix socket: a connection by the descriptor of its server's end, else as ever."""

    def test_at_drives_in_folders(self) -> None:
        with serving("--connections", "4", at=UNIX) as server:
            path = Path(str(server.address))
            reel = server.reel("r1")
            server.reel("r2")
            with talking(server) as talk:
                talk.asks(self, "lines", (opened(), ANSWERED), (write(b"x"), DONE_ONE))
                lines = lines_of(self, server)
                found = [it.rpartition(" ")[2] for it in lines if it.startswith("connection 1: accepted at descriptor ")]
                if self.holds("lines: the descriptor", len(found) == 1 and found[0].isdigit(), lines):
                    is_other = other_end(path, talk, server.process.pid, int(found[0]))
                    if is_other is None:
                        self.skip_part("lines: it is the other end of the connection", "it takes ss(8)")
                    else:
                        self.holds("lines: it is the other end of the connection", is_other, found)
                talk.asks(self, "lines, moved", (OFFLINE, DONE_ONE), (CLOSE, ANSWERED), (opened(), ANSWERED))
            for sent in (b"?", b"W3\nab"):
                with talking(server) as talk:
                    talk.stream.sendall(sent)
            # What the client does not read is lost with its end, which the server is told.
            with talking(server) as talk:
                talk.asks(self, "lines, the last", (NOTHING, NOTHING_OPEN))
                talk.stream.sendall(NOTHING)
                talk.stream.recv(1, socket.MSG_PEEK)
                talk.close()
                self.same("lines: it ends with its last connection", server.end(), DONE)
            self.same("lines: nothing more is printed", server.output.read(), b"")
            self.logged([without_place(it) for it in lines_of(self, server)])
            self.same("lines: the reel", (reel.exists(), (server.bin / "r1").exists()), (False, True))
            self.holds("lines: the file stays", stat.S_ISSOCK(path.lstat().st_mode))

    def logged(self, lines: list[str]) -> None:
        """These are the lines of the four connections, in which one drive was used, each with its seat."""
        drive = "/dev/st0: r1 opened", "/dev/st0: r1 moved to the bin", "/dev/st0: r2 opened", "/dev/st0: r2 closed"
        wanted = [
            line
            for number, end in enumerate(("end", "UnknownCommand", "truncated", "stream failed"), 1)
            for line in (
                f"connection {number}: accepted at descriptor N",
                f"connection {number}: served",
                *(drive if number == 1 else ()),
                f"connection {number}: ended: {end}",
            )
        ]
        self.same("lines: the log", [it.partition(": ")[2] if it.startswith("seat ") else it for it in lines], wanted, lines)
        seatless = [it for it in lines if not re.match(r"seat \d+: |connection \d+: accepted", it)]
        self.same("lines: each but that of an accept has its seat", seatless, [], lines)

    def test_in_memory(self) -> None:
        with self.door() as it, tempfile.TemporaryFile() as log, listening(it.words("--connections", "2"), stderr=log) as (process, address):
            self.same("lines, in memory: it is served", (converses(address), converses(address)), (True, True))
            self.same("lines, in memory: it ends", process.wait(GUARD_SECONDS), DONE)
            self.same("lines, in memory: nothing more is printed", given(process.stdout).read(), b"")
            got = bare(self, "lines, in memory", told(log).splitlines())
            wanted = ["the reel of /dev/st0 is in memory, and is gone when the server ends"]
            wanted += [f"connection {number}: {what}" for number in (1, 2) for what in ("accepted at descriptor N", "ended: end")]
            self.same("lines, in memory: the log", [*map(without_place, got)], wanted)


# Both kinds of socket beside each other.


class Work(NamedTuple):
    """What the programs printed, and what lies in the folders afterwards."""

    ran: list[Ended[str]]
    bin: dict[str, bytes]
    copies: dict[str, bytes]


BLOCK = 65_536
SIZE = 10 * BLOCK - 1000
ROOM = 1036 + 4 * (BLOCK + 8)
VOLUMES = volumes_of(-(-SIZE // BLOCK), BLOCK, ROOM)


class BothKinds(DoorCase):
    """A dump, a list, an operation, a read and a fetch over a Unix socket print what they print over TCP, and leave the same reels and copies."""

    def worked(self, at: str, payload: bytes) -> Work:
        """A dump of several volumes, a list, an operation, a read and a fetch over one kind of socket. Addresses are left out of what is printed."""
        with serving(capacity=ROOM, at=at) as server:
            for number in range(len(VOLUMES)):
                server.reel(f"r{number}")
            address = text_of(server.address)
            self.p.file("payload", payload)
            for name in ("dumpdates", "catalog", "volume"):
                self.p.folder.joinpath(name).unlink(missing_ok=True)
            into = self.p.folder / at.partition(":")[0]
            into.mkdir()
            drive = ("--to", address, "--device", DEVICE)
            dump = self.p.dump_words(address, "--update", "--protect", "--catalog", "catalog", block=str(BLOCK))
            ran = [tried([self.p.rdump, *dump], cwd=self.p.folder)]
            held = {it.name: it.read_bytes() for it in sorted(server.bin.iterdir())}
            for it in sorted(server.bin.iterdir()):
                it.rename(server.stacks[0] / it.name)
            for words in (
                ("ls", *drive, "--catalog", "catalog"),
                ("mt", *drive, "fsf", "1"),
                ("read", *drive, "--out", "volume"),
                ("fetch", *drive, "--into", str(into), "--catalog", "catalog"),
            ):
                ran.append(tried([self.p.rdump, *words], cwd=self.p.folder))
            plain = [Ended(it.output.replace(address, "ADDRESS"), it.told.replace(address, "ADDRESS"), it.status) for it in ran]
            return Work(plain, held, files_of(into)[0])

    def test_both_kinds(self) -> None:
        payload = random.Random(59).randbytes(SIZE)
        done = {at: self.worked(at, payload) for at in (TCP, UNIX)}
        for at, it in done.items():
            dump, listed, operation, _, fetched = it.ran
            self.same(f"{at}: the dump", (dump.output, dump.status), (printed(VOLUMES), DONE), dump)
            self.holds(f"{at}: what a restore needs", needs("ADDRESS", SIZE, SIZE // BLOCK + 1) in dump.told, dump)
            reels = reels_of(payload, BLOCK, VOLUMES)
            self.same(f"{at}: the reels", [*it.bin.values()], reels, {name: len(data) for name, data in it.bin.items()})
            reel, *rest = listed.output.splitlines()
            self.holds(f"{at}: the list", reel.endswith(": whole, sum equal") and rest[-1].endswith(": missing: volumes 2 to 3"), listed)
            self.same(f"{at}: the list of one of three volumes", listed.status, ABNORMAL)
            self.same(f"{at}: the operation", operation, Ended("A1\n", "", DONE))
            came = fetched.status, fetched.output.count(": whole, sum equal\n"), [data for _, data in sorted(it.copies.items())]
            self.same(f"{at}: the fetch", came, (DONE, len(reels), reels), fetched)
        self.same("both kinds: the same is printed", done[UNIX].ran, done[TCP].ran)
        self.same("both kinds: the same reels", done[UNIX].bin, done[TCP].bin)


# The server's limit.

RECORD = bytes(65_536)
SLOW = b"W12\nhello world!"


def floods(talk: Talk) -> None:
    """Asks for more than the system keeps for one who does not read it."""
    talk.stream.sendall((REWIND + READ) * 500)


def drips(talk: Talk, sent: bytes) -> float:
    """Sends a byte after the other. Returns the longest time from one to the next."""
    longest, before = 0.0, time.monotonic()
    for at in range(len(sent)):
        time.sleep(DRIP_SECONDS)
        with suppress(ConnectionError):
            talk.stream.sendall(sent[at : at + 1])
        longest, before = max(longest, time.monotonic() - before), time.monotonic()
    return longest


# For how long a server is stopped, one time after the other.
STOPS = (0.1, 0.3, IDLE + 1.5, 0.1, IDLE + 1.5)


class Idle(DoorCase):
    """The server's limit, `--idle`."""

    at = TCP

    def test_at_drives_in_folders(self) -> None:
        """Who gives and takes nothing is ended, and the drive is free. Who sends a little now and then is not."""
        with serving("--idle", str(IDLE), drives=4, at=self.at) as server, ExitStack() as stack:
            for number in range(4):
                server.reel(f"r{number}", number, RECORD)
            mute, holder, half, deaf, slow = (stack.enter_context(talking(server)) for _ in range(5))
            holder.asks(self, f"{self.at}, idle: a client holds a drive", (opened(0), ANSWERED))
            half.asks(self, f"{self.at}, idle: and another one", (opened(1), ANSWERED))
            half.stream.sendall(write(RECORD)[: len(RECORD) // 2])
            deaf.asks(self, f"{self.at}, idle: and a third", (opened(2), ANSWERED))
            floods(deaf)
            slow.asks(self, f"{self.at}, idle: a slow one", (opened(3), ANSWERED))
            longest = drips(slow, SLOW)
            got = slow.reply()
            if longest < IDLE / 2:
                self.same(f"{self.at}, idle: who sends now and then is served", got, b"A12\n", longest)
            else:
                self.skip_part(f"{self.at}, idle: who sends now and then is served", f"a byte took {longest:.1f} seconds on this busy machine")
            for number, title in enumerate(("who sends nothing", "who holds a drive", "who sends half a request", "who reads nothing"), 1):
                is_ended = has(self, server, rf"seat \d+: connection {number}: ended: idle")
                self.holds(f"{self.at}, idle: {title}", is_ended, lines_of(self, server))
            for number in range(3):
                self.holds(f"{self.at}, idle: drive {number} is free", soon(lambda: is_free(server, number)))
            for title, talk in (("who sent nothing", mute), ("who held a drive", holder), ("who sent half a request", half)):
                self.holds(f"{self.at}, idle: the connection of {title} is closed", talk.is_closed())
            found = [(server.stacks[number] / f"r{number}").stat().st_size for number in range(3)]
            self.same(f"{self.at}, idle: the reels", found, [len(RECORD) + 8] * 3)

    def test_no_limit(self) -> None:
        """Nobody is ended where there is no limit, or a far one."""
        with ExitStack() as stack:
            servers = [stack.enter_context(serving(*more, at=self.at)) for more in ((), ("--idle", "0"), ("--idle", GREATEST), ("--idle", str(FAR)))]
            patient = [stack.enter_context(talking(it)) for it in servers]
            for server, talk in zip(servers, patient):
                server.reel("r")
                talk.asks(self, f"{self.at}, no limit", (opened(), ANSWERED))
                talk.stream.sendall(b"W3\na")
            # Twice as long as a server with a limit takes to end who has sent half a request.
            time.sleep(2 * IDLE)
            for server, talk in zip(servers, patient):
                self.same(f"{self.at}, no limit: it is served", talk.ask(b"bc"), b"A3\n")
                self.same(f"{self.at}, no limit: nothing is ended", [it for it in lines_of(self, server) if "ended" in it], [])

    def test_in_memory(self) -> None:
        """One client after the other is served: one that is idle is ended, and the next one is served."""
        with tempfile.TemporaryDirectory() as folder, tempfile.TemporaryFile() as log, ExitStack() as stack:
            words = [self.p.rmtd, "--listen", self.at.replace("FOLDER", folder), "--idle", str(IDLE)]
            _, address = stack.enter_context(listening(words, stderr=log))
            for title, asks in (("nothing", b""), ("half a request", write(RECORD)[:1000]), ("no reply", b"")):
                talk = Talk(address)
                stack.callback(talk.close)
                if title == "no reply":
                    talk.asks(self, f"{self.at}, idle in memory: a record", (opened(), ANSWERED), (write(RECORD), b"A65536\n"))
                    floods(talk)
                talk.stream.sendall(asks)
                self.holds(f"{self.at}, idle in memory: after a client of {title} another one is served", converses(address))
            self.holds(f"{self.at}, idle in memory: all have ended", soon(lambda: told(log).count("ended") == 6))
            got = bare(self, "idle in memory", told(log).splitlines())
            came = "at descriptor N" if self.at == UNIX else "from ADDRESS"
            ends = ["idle", "end"] * 3
            wanted = [f"connection {number}: {what}" for number, end in enumerate(ends, 1) for what in (f"accepted {came}", f"ended: {end}")]
            self.same(f"{self.at}, idle in memory: the log", [without_place(it) for it in got[1:]], wanted, got)

    def test_server_that_is_stopped(self) -> None:
        """When it goes on it ends no client that has sent what it has to, also where it was stopped for longer than the limit."""
        with serving("--idle", str(IDLE), drives=2, at=self.at) as server, talking(server) as asking, talking(server) as half:
            for number, talk in enumerate((asking, half)):
                server.reel(f"r{number}", number)
                talk.asks(self, f"{self.at}, stopped: it is opened", (opened(number), ANSWERED))

            def meanwhile() -> None:
                asking.stream.sendall(write(b"x"))
                half.stream.sendall(b"cd")

            for seconds in STOPS:
                title = f"{self.at}, stopped for {seconds} seconds"
                half.stream.sendall(b"W4\nab")
                soon(lambda: sleeps(server.process.pid))
                stop_for(self, server.process.pid, seconds, meanwhile)
                self.same(f"{title}: who asked meanwhile is answered", asking.reply(), DONE_ONE)
                self.same(f"{title}: who sent the other half", half.reply(), b"A4\n")
            self.same(f"{self.at}, stopped: nothing is ended", [it for it in lines_of(self, server) if "ended" in it], [])

    def test_server_that_is_stopped_before_a_flood(self) -> None:
        """Nor does it end one that reads what it is sent."""
        with serving("--idle", str(IDLE), at=self.at) as server, talking(server) as deaf:
            server.reel("r1", 0, RECORD)
            deaf.asks(self, f"{self.at}, stopped: it is opened", (opened(), ANSWERED))
            for seconds in STOPS:
                floods(deaf)
                stop_for(self, server.process.pid, seconds)
                replies = {(deaf.reply(), deaf.reply(wants_data=True)) for _ in range(500)}
                self.same(f"{self.at}, stopped for {seconds} seconds: who reads afterwards", replies, {(DONE_ONE, b"A65536\n" + RECORD)})
            self.same(f"{self.at}, stopped: nothing is ended", [it for it in lines_of(self, server) if "ended" in it], [])


class IdleAtUnixSocket(Idle):
    """The same at a Unix socket."""

    at = UNIX
