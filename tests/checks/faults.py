"""Fails calls of the system that the built programs make: each one by each of some errors, alone and with all later ones; shortened, interrupted,
stopped, and with the program killed in it.

No output is foretold. What a server answers to a conversation, and what its folders hold then, have to be one lawful history (lawful.py): what a
tape may do whose device failed, and no more. A dump takes a lawful course, and dumpdates is the old file or the new one. A call that fails alone is
told, with the step or the file and the system's reason; those whose failure changes nothing are counted. A fault that has an outcome of its own, as
a sync that failed has, or a full table of files, has a test of its own here.
"""

from __future__ import annotations

import errno
import os
import re
import resource
import signal
import socket
import subprocess
import tempfile
import threading
import time
from collections import Counter
from contextlib import contextmanager, suppress
from pathlib import Path
from typing import IO, Callable, Iterator, Mapping, NamedTuple

from tests.lib.connections import NOWHERE, Address, connected, reset_at_close
from tests.lib.drives import Held, drive_words, folders, held, moved_once
from tests.lib.ended import ABNORMAL, DONE, FAILED
from tests.lib.given import given
from tests.lib.played_servers import Model, Reel
from tests.lib.processes import guarded, sleeps
from tests.lib.servers import listening
from tests.lib.shim import Shim
from tests.lib.shimmed import (
    AT_CONNECTIONS,
    BLOCK,
    DATED,
    DAY,
    KEPT,
    LISTEN,
    NEW_DATES,
    NO_BLOCKS,
    OLD_DATES,
    THREE_BLOCKS,
    Left,
    Ran,
    SiteCase,
    course,
    dump_site,
    dumped,
    kept_words,
    left,
)
from tests.lib.stdio_servers import MOVED, Site, Talk, away, site, talking
from tests.lib.waiting import GUARD_SECONDS, soon
from tests.lib.wire import CLOSE, DEVICE
from tests.lib.wire import DONE as TAKEN
from tests.lib.wire import DONE_ONE, IO_ERROR, NOTHING, NOTHING_OPEN, OFFLINE, REWIND, opened, write
from tests.models.checkpoint import text_of
from tests.models.lawful import DEVICE_FAULT, History, empty, reels_of
from tests.models.rmtd import images
from tests.models.world import Run

ERRORS = {"EIO": 5, "ENOSPC": 28, "EDQUOT": 122, "EROFS": 30, "EMFILE": 24, "EINTR": 4}
# Errors that one call alone has: another file system, and a lock that another process has.
OWN_ERRORS = {"rename": {"EXDEV": 18}, "link": {"EXDEV": 18, "EPERM": 1, "EEXIST": 17}, "flock": {"EWOULDBLOCK": 11}}
# What is interrupted for ever is tried for ever, and a lock that another process keeps is waited for.
ONCE = ("EINTR", "EWOULDBLOCK")
# Requests for memory are those of refused.py. A clock, pages and rights are looked at by themselves.
LEFT_OUT = {"alloc", "malloc", "calloc", "realloc", "memalign", "mmap", "clock_gettime"}

# Two records and two marks, spacing back, reads, a record in place of those after the first, a move to the bin, and the next reel.
TALK = b"".join(
    (
        *(opened(), write(b"hello"), write(b"ab"), b"I0\n2\n", b"I2\n2\n", b"R9\n", REWIND, b"R9\n", b"I3\n1\n", write(b"x"), OFFLINE, CLOSE),
        *(opened(), write(b"z"), CLOSE),
    )
)
HISTORY = History(TALK, empty("r1", "r2"), DEVICE_FAULT)
# At least so many calls were seen when this was written, of the server and of a dump.
LEAST_CALLS, LEAST_DUMP_CALLS = 60, 50
# Where a server has its drive.
DRIVES = ("in memory", "in a folder")


class Rule(NamedTuple):
    """A rule of hostile.c, and its title; and the error of a call that fails alone, if it is one of those that each call has."""

    title: str
    text: str
    error: int = 0


def counted(well: Ran[object]) -> dict[str, int]:
    """How many calls of each name were seen."""
    return {call: count for call, count in Counter(well.calls).items() if call not in LEFT_OUT}


# A server over folders.


def words_of(drive: str, folder: Path) -> tuple[str, ...]:
    """The words that give a server the drive in this folder, none for the drive in memory."""
    return drive_words(folder) if drive == "in a folder" else ()


def is_history(got: Ran[Held]) -> bool:
    """Answers and files are a lawful history."""
    left = tuple(dict(reels_of(it)) for it in got.left)
    return left in [it.held() for it in HISTORY.states(got.output)]


def is_right(got: Ran[Held]) -> bool:
    """It did not start, which is told, and read nothing. Or all was answered."""
    if got.status == FAILED:
        return got.output == b"" and got.told != b"" and "read" not in got.calls and is_history(got)
    return got.status == DONE and HISTORY.answered_all(got.output) and is_history(got)


def is_cut_short(got: Ran[Held]) -> bool:
    """It ended in the middle, as a stream failed: the status alone says so."""
    return got.status == FAILED and faults_of(got) == [] and is_history(got)


class Target(NamedTuple):
    """Calls of one name, at files with this in their path; how many are made, and whether at a standard stream, which are not tried again."""

    call: str
    path: str
    made: int
    is_stream: bool

    def title(self, number: object) -> str:
        return f"{self.call} {number}{' at a standard stream' if self.is_stream else ''}"

    def rules(self) -> Iterator[Rule]:
        """Each of them fails by each error: alone, and with all later ones."""
        for number in range(1, self.made + 1):
            for name, error in (ERRORS | OWN_ERRORS.get(self.call, {})).items():
                for more in ("",) if name in ONCE else ("", "+"):
                    title = f"{self.title(number)}{' and all later ones' if more else ''}: {name}"
                    yield Rule(title, f"{self.call}:{number}{more}:E{error}", error if name in ERRORS and not more else 0)

    def each(self, what: str) -> Iterator[Rule]:
        """This becomes of each of them alone, and of all of them."""
        for number in (*range(1, self.made + 1), "1+"):
            yield Rule(f"{self.title(number)}: {what}", f"{self.call}:{number}:{what}")

    def is_lawful(self, got: Ran[Held]) -> bool:
        """What came where one of them failed is right."""
        return is_cut_short(got) if self.is_stream else is_right(got)


STREAMS = "pipe:"

# What the log calls the step at which a call failed, of an open or a move that is refused.
STEPS = {"open": "open", "openat": "open", "getdents64": "list", "flock": "lock", "link": "link", "unlink": "remove", "fsync": "sync"}
# What is tried again where it was interrupted.
RETRIED = ("open", "getdents64", "flock", "pread", "read", "write", "writev", "ftruncate", "fsync", "recv", "send", "sendmsg", "connect")
# How many calls may fail with nothing to be told. Of a server: the looks at the start for other folders and mounts, and a lock that is given back.
UNTOLD = {"open": 1, "statx": 2, "rename": 1, "flock": 1}
# Of a dump: looks at times and names, a lock that is given back, a lock and a new file that stay, a close once all is counted, rights, and the
# folder's sync.
UNTOLD_OF_DUMP = {"open": 2, "statx": 7, "flock": 1, "unlink": 2, "send": 2, "recv": 2, "fchown": 1, "fchmod": 1, "fsync": 1}
# Of a dump with a checkpoint file, which is put in place three times, and removed.
UNTOLD_OF_KEPT_DUMP = UNTOLD_OF_DUMP | {"open": 6, "statx": 14, "unlink": 3, "fchown": 3, "fsync": 5}
# A file that may not be written to is opened to read alone.
UNWRITTEN = "a read or write failed: the reel may only be read"


def reason(error: int) -> str:
    """How the programs spell an error of the system."""
    return f"{os.strerror(error)} (os error {error})"


def faults_of(got: Ran[object]) -> list[str]:
    """The lines of what went wrong, without times. That a server is busy is none: it may not have seen yet that the last session is over."""
    lines = [re.sub(r"^\S+Z (?=rmtd: )", "", it) for it in got.told.decode().splitlines()]
    return [it for it in lines if it.startswith(("rmtd: ", "rdump: ")) and "Refused 16: " not in it]


def is_told(got: Ran[object], call: str, error: int) -> bool:
    """The server says which step failed of what it was asked for, and why: that of the call that failed."""
    why, step = re.escape(reason(error)), STEPS.get(call, "(stat|open|remove)")
    forms = [
        rf"(open|move) refused: \S+: {step}: {why}",
        rf"r\d (closed(, synced)?|moved to the bin), (a read or write failed|(folder )?sync failed): {why}",
    ]
    forms += [rf"r\d (closed(, synced)?|moved to the bin), {UNWRITTEN}"] if call == "open" and error == ERRORS["EROFS"] else []
    lines = faults_of(got)
    if got.status == FAILED:
        return len(lines) == 1 and re.fullmatch(rf"rmtd: \S+: {why}", lines[0]) is not None
    return lines != [] and all(re.fullmatch(rf"rmtd: /dev/st0: ({'|'.join(forms)})", it) for it in lines)


def continued(process: int) -> None:
    """Continues a child whenever it stopped, until it ends."""
    while (found := ended_or_stopped(process)).si_code == os.CLD_STOPPED:
        os.waitid(os.P_PID, process, os.WSTOPPED)
        os.kill(found.si_pid, signal.SIGCONT)


def ended_or_stopped(process: int) -> os.waitid_result:
    """Waits until a child has ended or stopped, and leaves it so."""
    return given(os.waitid(os.P_PID, process, os.WSTOPPED | os.WEXITED | os.WNOWAIT))


class FaultCase(SiteCase):
    """Tests of programs in which calls fail."""

    def tells(
        self,
        title: str,
        got: Ran[object],
        well: Ran[object],
        call: str,
        error: int,
        is_told: Callable[[Ran[object], str, int], bool],
        untold: Counter[str],
    ) -> None:
        """A call that failed alone was made again if it was interrupted, or is told. Or nothing came of it, which is counted for EIO."""
        is_untold = faults_of(got) == [] and (got.seen() == well.seen() or b"Refused 16: " in got.told)
        if error == ERRORS["EINTR"] and call in RETRIED:
            self.holds(f"{title}: it is made again", is_untold, got.shown())
            return
        self.holds(f"{title}: it is told", is_untold or is_told(got, call, error), got.shown())
        untold[call] += is_untold and error == ERRORS["EIO"]

    def are_few(self, title: str, untold: Counter[str], most: Mapping[str, int]) -> None:
        """No more calls failed with nothing told than may."""
        too_many = {call: count for call, count in untold.items() if count > most.get(call, 0)}
        self.same(f"{title}: how many calls fail and are not told", too_many, {}, untold, most)

    def seen_as(self, name: str, got: Ran[object], well: Ran[object]) -> None:
        """A run ended, printed and left the same as another one."""
        self.same(name, got.seen(), well.seen(), got.shown())


class ServerCalls(FaultCase):
    """Each call of a server over folders fails, is cut short, or is the last."""

    def talked(self, rules: str, path: str = "") -> Ran[Held]:
        """The conversation, with a server that meets these rules."""
        with folders(r1=b"", r2=b"") as folder:
            got = self.p.run((self.p.rmtd, "--stdio", *drive_words(folder)), rules, TALK, path)
            return got.leaving(moved_once(folder / "st0", folder / "bin"))

    def stopped(self, rules: str) -> Ran[Held]:
        """The conversation, with a server that is continued whenever it stopped itself."""
        self.shim.forget()
        with folders(r1=b"", r2=b"") as folder:
            words = (self.p.rmtd, "--stdio", *drive_words(folder))
            server = subprocess.Popen(words, stdin=subprocess.PIPE, stdout=subprocess.PIPE, env=self.shim.environment(rules))
            with guarded(server) as process:
                given(process.stdin).write(TALK)
                given(process.stdin).close()
                continued(process.pid)
                output = given(process.stdout).read()
                process.wait()
            return Ran(process.returncode, output, b"", moved_once(folder / "st0", folder / "bin"), tuple(self.shim.calls()))

    def targets(self) -> list[Target]:
        """The calls of the conversation."""
        all_calls, streams = counted(self.talked("")), counted(self.talked("", STREAMS))
        files = Counter(all_calls) - Counter({call: streams.get(call, 0) for call in ("read", "write")})
        at_files = [Target(call, "/st0/" if call == "write" else "", count, False) for call, count in files.items()]
        found = at_files + [Target(call, STREAMS, streams[call], True) for call in ("read", "write")]
        self.holds(f"at least {LEAST_CALLS} calls of a server are seen", sum(it.made for it in found) >= LEAST_CALLS, found)
        return found

    def test_nothing_fails(self) -> None:
        well = self.talked("")
        as_wanted = well.status, well.output, is_history(well)
        self.same("a server in which nothing fails", as_wanted, (DONE, HISTORY.wanted(), True), well.shown())

    def test_each_call_fails(self) -> None:
        well = self.talked("")
        untold: Counter[str] = Counter()
        for target in self.targets():
            for rule in target.rules():
                got = self.talked(rule.text, target.path)
                self.holds(rule.title, target.is_lawful(got), got.shown())
                if rule.error and not target.is_stream:
                    self.tells(rule.title, got, well, target.call, rule.error, is_told, untold)
        self.are_few("a server", untold, UNTOLD)

    def test_system_lies(self) -> None:
        """A system that says it did what it did not leaves no lawful history."""
        lies = ["writev:1:L", "writev:4:L", "ftruncate:1:L"]
        noticed = [rule for rule in lies if not is_history(self.talked(rule))]
        self.same("a system that says it did what it did not is noticed", noticed, lies)

    def test_killed_before_each_call(self) -> None:
        for target in self.targets():
            for number in range(1, target.made + 1):
                got = self.talked(f"{target.call}:{number}:K", target.path)
                self.same(f"killed before {target.title(number)}", (got.status, is_history(got)), (-signal.SIGKILL, True), got.shown())

    def test_each_call_moves_a_byte(self) -> None:
        well = self.talked("")
        for target in self.targets():
            for rule in target.each("s1") if target.call in ("read", "pread", "write", "writev") else ():
                self.seen_as(rule.title, self.talked(rule.text, target.path), well)

    def test_each_call_moves_nothing(self) -> None:
        for target in self.targets():
            for rule in target.each("s0") if target.call in ("write", "writev") else ():
                got = self.talked(rule.text, target.path)
                self.holds(rule.title, target.is_lawful(got), got.shown())

    def test_stopped_before_each_call(self) -> None:
        well = self.talked("")
        for call in ("read", "writev", "pread", "link", "unlink", "write"):
            self.seen_as(f"stopped before each {call}, and continued", self.stopped(f"{call}:1+:S"), well)

    def test_clock_goes_back(self) -> None:
        got = self.talked(f"clock_gettime:1:t{DAY},clock_gettime:2+:t1")
        self.same("a server whose clock goes back", (got.output, is_history(got)), (HISTORY.wanted(), True), got.shown())


class Syncs(FaultCase):
    """A reel whose sync failed is not moved as long as it is open, until it is written anew from its beginning."""

    @contextmanager
    def talk(self, rules: str = "fsync:1:E5,fdatasync:1:E5") -> Iterator[tuple[Site, Talk]]:
        """A server that meets these rules, over an empty reel."""
        with site(self.p.rmtd) as shop:
            shop.reel("r1")
            with talking(self, shop, how={"env": self.shim.environment(rules)}) as talk:
                yield shop, talk

    def test_record_is_written_anew(self) -> None:
        with self.talk() as (shop, talk):
            talk.asks("a sync that failed", (opened(), TAKEN), (write(b"data"), b"A4\n"), (OFFLINE, IO_ERROR), (OFFLINE, IO_ERROR))
            talk.asks("a sync that failed: the reel is read", (b"R9\n", b"A4\ndata"), (b"R9\n", TAKEN), (OFFLINE, IO_ERROR))
            talk.asks("a sync that failed: more is written", (b"I3\n1\n", DONE_ONE), (write(b"x"), DONE_ONE), (OFFLINE, IO_ERROR))
            self.same("a sync that failed: nothing is moved", shop.names()[1], [])
            talk.asks("a sync that failed: the reel is written anew", (REWIND, DONE_ONE), (write(b"anew"), b"A4\n"), *MOVED)
            anew = shop.bin.joinpath("r1").read_bytes()
            self.same("a sync that failed: the reel that was written anew is moved", anew, images([b"anew"]))

    def test_sync_of_a_folder_fails(self) -> None:
        """A bin that is not synced refuses that move alone, and no later one; a stack that is not synced refuses none."""
        for name, number, moves in (("the bin", 2, ((OFFLINE, IO_ERROR), (b"R9\n", b"A4\ndata"), *MOVED)), ("the stack", 3, MOVED)):
            with self.talk(f"fsync:{number}:E5") as (_, talk):
                talk.asks(f"the sync of {name} that failed", (opened(), TAKEN), (write(b"data"), b"A4\n"), *moves)

    def test_marks_are_written_anew(self) -> None:
        with self.talk() as (_, talk):
            talk.asks("a sync that failed, and marks", (opened(), TAKEN), (b"I0\n2\n", b"A2\n"), (OFFLINE, IO_ERROR), (OFFLINE, IO_ERROR))
            talk.asks("a sync that failed: marks are written anew", (b"I0\n1\n", DONE_ONE), *MOVED)

    def test_reel_is_closed(self) -> None:
        with self.talk() as (_, talk):
            talk.asks("a sync that failed, and a close", (opened(), TAKEN), (write(b"data"), b"A4\n"), (OFFLINE, IO_ERROR), (CLOSE, TAKEN))
            talk.asks("a sync that failed: an open knows nothing of it", (opened(), TAKEN), *MOVED)


# Files of a kilobyte at most, and the signal for that ignored or not.
IGNORED, NOT_IGNORED = (("sh", "-c", f'{first} ulimit -f 1; exec "$@"', "sh") for first in ("trap '' XFSZ;", ""))
# Records of which the larger ones are too large for that.
LIMITED = opened() + write(b"w" * 200) + write(b"w" * 2000) * 2 + write(b"w" * 200) + CLOSE + opened() + OFFLINE


class Limits(FaultCase):
    """Folders that go away, and limits."""

    def test_stack_goes_away_and_comes_back(self) -> None:
        """Its reel is open meanwhile."""
        with site(self.p.rmtd) as shop, talking(self, shop) as talk:
            shop.reel("r1")
            talk.asks("a stack that goes away, before", (opened(), TAKEN), (write(b"before"), b"A6\n"))
            with away(shop.stack):
                talk.asks("a stack that is away: the open reel", (write(b"x"), DONE_ONE), (OFFLINE, IO_ERROR), (b"R9\n", b"A6\nbefore"))
                talk.asks("a stack that is away: a close, and an open", (CLOSE, TAKEN), (opened(), IO_ERROR), (write(b"y"), NOTHING_OPEN))
            talk.asks("a stack that is back", (opened(), TAKEN), (b"R9\n", b"A6\nbefore"), (b"R9\n", b"A1\nx"), (OFFLINE, DONE_ONE))
            self.same("a stack that is back: it ends well", talk.end(), DONE)
            self.same("a stack that is back: the reel", shop.bin.joinpath("r1").read_bytes(), images([b"before", b"x"]))

    def test_size_of_files_is_limited(self) -> None:
        """It is an error of the device."""
        with folders(r1=b"") as folder:
            got = self.p.run((*IGNORED, self.p.rmtd, "--stdio", *drive_words(folder)), None, LIMITED)
            wanted = TAKEN + b"A200\n" + IO_ERROR * 2 + b"A200\n" + TAKEN * 2 + DONE_ONE
            self.ends("a limit on the size of files", got, wanted)
            self.same("a limit on the size of files: the reel", held(folder), ({}, {"r1": images([b"w" * 200] * 2)}))

    def test_size_of_files_is_limited_and_the_signal_is_not_ignored(self) -> None:
        """It ends the server."""
        with folders(r1=b"") as folder:
            got = self.p.run((*NOT_IGNORED, self.p.rmtd, "--stdio", *drive_words(folder)), None, LIMITED)
            self.same("a limit on the size of files, whose signal is not ignored", got.status, -signal.SIGXFSZ, got.shown())
            stands = reels_of(held(folder)[0])
            self.same("a limit on the size of files, whose signal is not ignored: the reel", stands, (("r1", (b"w" * 200,)),))


# A server that listens.


class FaultyServer(NamedTuple):
    """A server that listens at a drive in a folder, or in memory, and meets rules."""

    shim: Shim
    log: IO[bytes]
    process: subprocess.Popen[bytes]
    address: Address

    def connect(self) -> socket.socket:
        return connected(self.address)

    def asked(self, request: bytes) -> bytes:
        """What a connection of one request is answered, and nothing if there is none."""
        with suppress(OSError), self.connect() as stream:
            return ask(stream, request)
        return b""

    def accepts(self) -> int:
        """How often it has asked for a connection."""
        return self.shim.calls().count("accept4")

    def files(self) -> list[int]:
        """The descriptors that it has, but for that of the log."""
        return [int(it) for it in os.listdir(f"/proc/{self.process.pid}/fd") if int(it) < 900]

    def limit_files(self, count: int) -> None:
        resource.prlimit(self.process.pid, resource.RLIMIT_NOFILE, (count, 1024))

    def lines(self) -> list[str]:
        """Its log, without the times."""
        lines = os.pread(self.log.fileno(), 1 << 20, 0).decode().splitlines()
        return [re.sub(r"^\d{4}-\d\d-\d\dT\d\d:\d\d:\d\dZ (?=rmtd: )", "", it) for it in lines]

    def failed_accepts(self) -> list[str]:
        """Its lines that say why an accept failed."""
        return [it for it in self.lines() if it.startswith("rmtd: accept failed: ")]

    def ends(self) -> list[str]:
        """What its lines say of how each connection ended, or why it was closed."""
        return [it.partition(": connection ")[2] for it in self.lines() if re.search(r": connection \d+: (ended|closed): ", it)]

    def ended(self) -> int | None:
        """Its status, and none if it does not end."""
        with suppress(subprocess.TimeoutExpired):
            return self.process.wait(GUARD_SECONDS)
        return None


def ask(stream: socket.socket, request: bytes) -> bytes:
    """The answer to a request, and nothing if the connection ends."""
    with suppress(ConnectionError):
        stream.sendall(request)
        return stream.recv(65536)
    return b""


def answered(stream: socket.socket) -> bytes:
    """The answer that comes, or nothing if the connection ends; and its end."""
    with stream, suppress(OSError):
        return stream.recv(65536)
    return b""


# A server that has no descriptor for a connection waits a tenth of a second before it tries again. So often at most it tries in a second.
TRIES_IN_A_SECOND = 50
# So many descriptors has a server whose table is small.
SMALL_TABLE = 10

# The errors of an accept by their texts: those after which it is tried again, and those by which a listener is broken for good.
PASSING = {5: "Input/output error", 103: "Software caused connection abort", 24: "Too many open files", 105: "No buffer space available"}
LASTING = {
    9: "Bad file descriptor",
    14: "Bad address",
    22: "Invalid argument",
    88: "Socket operation on non-socket",
    95: "Operation not supported",
}


def failed_accept(error: int, text: str) -> str:
    """The line of an accept that failed."""
    return f"rmtd: accept failed: {text} (os error {error})"


class Listeners(FaultCase):
    """A server that listens, and has no thread, no descriptor, or no connection."""

    @contextmanager
    def listening(self, rules: str, *words: str) -> Iterator[FaultyServer]:
        """A server that listens, and is killed at the end."""
        self.shim.forget()
        asked = (self.p.rmtd, *LISTEN, *words)
        with tempfile.TemporaryFile() as log, listening(asked, stderr=log, env=self.shim.environment(rules)) as (process, address):
            yield FaultyServer(self.shim, log, process, address)

    def test_no_thread(self) -> None:
        """Connections for which no thread is had are closed, and each later one is served: 33 of them have not taken the places of 32."""
        for count in (1, 33):
            title, rules = f"no thread for {count} connections", f"pthread_create:1-{count}:E11"
            with folders(r1=b"") as folder, self.listening(rules, "--connections", str(count + 2), *drive_words(folder)) as it:
                answers = [it.asked(NOTHING) for _ in range(count + 2)]
                self.same(f"{title}: they are closed, and the next two are served", answers, [b""] * count + [NOTHING_OPEN] * 2)
                self.same(f"{title}: it ends after so many connections", it.ended(), DONE)

    def test_full_table_of_files_at_a_drive_in_a_folder(self) -> None:
        """The server tries now and then, and who waits is served once there is a place."""
        title = "a full table of files, at a drive in a folder"
        with folders(r1=b"") as folder, self.listening("", "--connections", str(SMALL_TABLE), *drive_words(folder)) as it:
            it.limit_files(SMALL_TABLE)
            streams = self.asking(it, SMALL_TABLE)
            self.holds(f"{title}: it is full", soon(lambda: len(it.files()) == SMALL_TABLE), it.files())
            self.tries(it, title)
            # A session that ends gives its two files back one after the other: a connection that is accepted between them would be closed.
            it.limit_files(1024)
            self.same(f"{title}: each is served once there is a place", [*map(answered, streams)], [NOTHING_OPEN] * SMALL_TABLE)
            self.same(f"{title}: it ends after so many connections", it.ended(), DONE)

    def test_full_table_of_files_at_the_drive_in_memory(self) -> None:
        title = "a full table of files, at the drive in memory"
        with self.listening("", "--connections", "3") as it:
            # The accept that waits has its descriptor already, and a connection takes two.
            self.holds(f"{title}: it waits for a connection", soon(lambda: it.accepts() == 1 and sleeps(it.process.pid)))
            it.limit_files(max(it.files()) + 1)
            self.same(f"{title}: the first has one descriptor, and is closed", it.asked(NOTHING), b"")
            self.same(f"{title}: that is told", it.ends(), [f"1: closed: {reason(errno.EMFILE)}"], it.lines())
            streams = self.asking(it, 2)
            self.tries(it, title)
            it.limit_files(1024)
            self.same(f"{title}: both are served then", [*map(answered, streams)], [NOTHING_OPEN] * 2)
            self.same(f"{title}: it ends after so many connections", it.ended(), DONE)

    def asking(self, it: FaultyServer, count: int) -> list[socket.socket]:
        """So many connections, each of which has sent a request."""
        streams = [it.connect() for _ in range(count)]
        for stream in streams:
            stream.sendall(NOTHING)
        return streams

    def tries(self, it: FaultyServer, title: str) -> None:
        """It runs, tries again, and not without a pause."""
        before = it.accepts()
        self.holds(f"{title}: it tries again", soon(lambda: it.accepts() > before + 1))
        before, began = it.accepts(), time.monotonic()
        time.sleep(1)
        made, seconds = it.accepts() - before, time.monotonic() - began
        few = made <= TRIES_IN_A_SECOND * seconds and it.process.poll() is None
        self.holds(f"{title}: it tries {TRIES_IN_A_SECOND} times a second at most", few, made, seconds)

    def test_accepts_fail(self) -> None:
        """They do not count as connections. The first has one line."""
        for drive in DRIVES:
            for error, text in PASSING.items():
                title = f"two accepts fail by `{text}`, at a drive {drive}"
                with folders(r1=b"") as folder:
                    with self.listening(f"accept4:1-2:E{error}", "--connections", "2", *words_of(drive, folder)) as it:
                        answers = [it.asked(NOTHING) for _ in range(2)]
                        self.same(f"{title}: two connections are served", (answers, it.ended()), ([NOTHING_OPEN] * 2, DONE))
                        self.same(f"{title}: the first has a line", it.failed_accepts(), [failed_accept(error, text)])

    def test_broken_listener(self) -> None:
        """A listener that is broken for good ends the server. It has one line."""
        for drive in DRIVES:
            for error, text in LASTING.items():
                title = f"a listener that is broken by `{text}`, at a drive {drive}"
                with folders(r1=b"") as folder:
                    with self.listening(f"accept4:1+:E{error}", "--connections", "2", *words_of(drive, folder)) as it:
                        self.same(f"{title}, ends the server", it.ended(), FAILED)
                        self.same(f"{title}: that is told", it.failed_accepts(), [failed_accept(error, text)])

    def test_listener_breaks_while_a_session_is_served(self) -> None:
        """And after an accept that failed otherwise: both are told, and the session comes to its end before the server does."""
        rules = "accept4:2:E24,accept4:3+:E9"
        with folders(r1=b"") as folder, self.listening(rules, *drive_words(folder)) as it:
            with it.connect() as stream:
                answers = [ask(stream, opened())]
                wanted = [failed_accept(error, text) for error, text in ((24, PASSING[24]), (9, LASTING[9]))]
                is_told = soon(lambda: it.failed_accepts() == wanted)
                self.holds("a listener that is broken later: that is told", is_told, it.failed_accepts())
                answers += [ask(stream, write(b"x")), ask(stream, CLOSE)]
                self.same("a listener that is broken later: a session is served on", answers, [TAKEN, DONE_ONE, TAKEN])
                self.same("a listener that is broken later: the server waits for it", it.process.poll(), None)
            self.same("a listener that is broken later ends the server", it.ended(), FAILED)

    def test_listener_cannot_be_made(self) -> None:
        """Nothing is printed."""
        for call in ("socket", "bind", "listen"):
            for drive in DRIVES:
                with folders(r1=b"") as folder:
                    words = (self.p.rmtd, *LISTEN, "--connections", "0", *words_of(drive, folder))
                    got = self.p.run(words, f"{call}:1:E13")
                came = got.status, got.output, got.told != b""
                self.same(f"{call} fails, at a drive {drive}", came, (FAILED, b"", True), got.shown())

    def test_a_byte_at_a_time(self) -> None:
        """A server that receives and sends a byte at a time."""
        for rules in ("recv:1+:s1", "send:1+:s1,sendmsg:1+:s1", "recv:1+:s1,send:1+:s1,sendmsg:1+:s1"):
            for drive, names in zip(DRIVES, (("r1",), ("r1", "r2"))):
                with folders(r1=b"", r2=b"") as folder:
                    with self.listening(rules, "--connections", "1", *words_of(drive, folder)) as it, it.connect() as stream:
                        stream.sendall(TALK)
                        stream.shutdown(socket.SHUT_WR)
                        output = all_of(stream)
                self.same(f"a server with {rules}, at the drive {drive}", output, History(TALK, empty(*names), DEVICE_FAULT).wanted())

    def test_reset_in_a_write(self) -> None:
        """A client that resets its connection in a write."""
        with folders(r1=b"") as folder, self.listening("", *drive_words(folder)) as it:
            with it.connect() as stream:
                answers = [ask(stream, opened()), ask(stream, write(b"whole"))]
                stream.sendall(b"W100\n" + b"w" * 50)
                reset_at_close(stream)
            self.same("a reset in a write: before it", answers, [TAKEN, b"A5\n"])
            self.holds("a reset in a write: the drive is free", soon(lambda: it.asked(opened()) == TAKEN))
            self.same("a reset in a write: the whole record stands, and nothing else", held(folder)[0], {"r1": images([b"whole"])})

    def test_stream_fails(self) -> None:
        """A connection of which a read or a write fails is told as that. The next one is served."""
        for call in ("recv", "send"):
            for error in (5, 32, 104, 110):
                title, rules = f"a connection whose {call} fails with {error}", f"{call}:1:E{error}"
                with folders(r1=b"") as folder, self.listening(rules, "--connections", "2", *drive_words(folder)) as it:
                    answers = [it.asked(NOTHING) for _ in range(2)]
                    self.same(f"{title} is answered nothing", (answers, it.ended()), ([b"", NOTHING_OPEN], DONE))
                    self.same(f"{title}: how both ended", it.ends(), ["1: ended: stream failed", "2: ended: end"], it.lines())

    def test_connection_cannot_be_made_to_send_at_once(self) -> None:
        """It is closed, with the reason. The next one is served."""
        for words in ((), ("in a folder",)):
            title = f"a connection that cannot be made to send at once {words}"
            with folders(r1=b"") as folder:
                more = ("--connections", "2", *(drive_words(folder) if words else ()))
                with self.listening("", *more) as it:
                    first = it.shim.calls().count("setsockopt") + 1
                with self.listening(f"setsockopt:{first}:E{errno.ENOBUFS}", *more) as it:
                    answers = [it.asked(NOTHING) for _ in range(2)]
                    self.same(f"{title} is closed", (answers, it.ended()), ([b"", NOTHING_OPEN], DONE))
                    self.same(f"{title}: that is told", it.ends()[:1], [f"1: closed: {reason(errno.ENOBUFS)}"], it.lines())


def all_of(stream: socket.socket) -> bytes:
    """What comes until the connection ends."""
    return b"".join(iter(lambda: stream.recv(65536), b""))


# A dump.

ATTEMPT = b"volume 1 failed: ConnectionEnded\nretry?\n"
ENDED = "the connection ended"
REFUSED_CONNECTION, RESET = reason(errno.ECONNREFUSED), reason(errno.ECONNRESET)
# What two attempts of a client meet: the rules, the request whose reply is lost, and why each of them failed.
TWO_ATTEMPTS: tuple[tuple[str, int, list[str]], ...] = (
    ("connect:1:E111", 1, [REFUSED_CONNECTION, ENDED]),
    ("recv:1:E104", 2, [RESET, ENDED]),
    ("connect:1:E111,recv:1:E104", 0, [REFUSED_CONNECTION, RESET]),
    ("socket:1-2:E24", 0, [reason(errno.EMFILE)] * 2),
    ("setsockopt:1-2:E105", 0, [reason(errno.ENOBUFS)] * 2),
    ("send:1:E32,send:2:E104", 0, [reason(errno.EPIPE), RESET]),
    ("", 1, [ENDED]),
)


class Connections(FaultCase):
    """Connections of a client that cannot be made, or fail."""

    def dumped_to(self, rules: str, lost: tuple[int, ...] = ()) -> tuple[Ran[object], list[str]]:
        """A dump to a server that loses these replies, whose operator says yes once; and what is told of the server."""
        with folders() as folder, Model(*(Reel(it, 3100) for it in ("r1", "r2")), lost=lost) as model:
            folder.joinpath("payload").write_bytes(THREE_BLOCKS.data())
            words = (self.p.rdump, "dump", "--to", model.address, "--device", DEVICE, "--fs", "/usr", "--level", "0", "--block", str(BLOCK), *DATED)
            got = self.p.run((*words, "--payload", str(folder / "payload"), "--dumpdates", str(folder / "none")), rules, b"yes\n")
        head = f"rdump: {model.address}: "
        return got, [it.removeprefix(head) for it in got.told.decode().splitlines() if it.startswith(head)]

    def test_two_attempts(self) -> None:
        """Each has its own reason told, and not that of an earlier one."""
        for rules, lost, why in TWO_ATTEMPTS:
            got, lines = self.dumped_to(rules, (lost,) if lost else ())
            title = f"two attempts of a client, {rules or 'no fault'}, the reply to request {lost} lost"
            wanted = (ATTEMPT * 2 + b"dump abandoned\n", ABNORMAL) if len(why) == 2 else (ATTEMPT + THREE_BLOCKS.printed(), DONE)
            self.ends(title, got, *wanted)
            self.same(f"{title}: what is told", lines, why)

    def test_each_connection_is_made_to_send_at_once(self) -> None:
        self.dumped_to("")
        self.same("each connection of a client is made to send at once", self.shim.sizes("setsockopt"), [1, 1])

    def test_interrupted_calls(self) -> None:
        """They are made again."""
        well, _ = self.dumped_to("")
        for call in ("recv", "send", "connect"):
            for number in range(1, well.calls.count(call) + 1):
                got, lines = self.dumped_to(f"{call}:{number}:E4")
                came = got.status, got.output, lines
                self.same(f"{call} {number} of a client is interrupted", came, (well.status, well.output, []), got.shown())


def are_whole(reels: Mapping[str, bytes]) -> bool:
    """Whether all of these reels are whole volumes."""
    return {*reels.values()} <= {*THREE_BLOCKS.reels()}


def is_dump_right(got: Ran[Left], yes: int, stays: bool = False) -> bool:
    """It did not start and left all as it was; or it took a lawful course, each volume that was counted is whole in the bin, nothing else is there
    but whole volumes, and dumpdates is the old file, or the new one where it says so. Each fault is told. Its lock and its new file may stay where
    they cannot be removed."""
    if not are_whole(got.left.bin) or not {"dates"} <= {*got.left.names} <= ({"dates", "dates.new", "dates.new.1"} if stays else {"dates"}):
        return False
    if got.status == FAILED:
        return got.output == b"" and got.told != b"" and got.left[:2] == ({}, OLD_DATES)
    went = course(THREE_BLOCKS, got.output, yes)
    if went is None or got.status != went.status() or not {*THREE_BLOCKS.reels()[: went.counted]} <= {*got.left.bin.values()}:
        return False
    is_told = got.told != b"" or went.end == "complete"
    return is_told and got.left.dates == (NEW_DATES if went.end == "complete" else OLD_DATES)


# What is told of a payload without the system's reason.
PAYLOAD_FAILS = r"rdump: \S+/payload: (its length could not be read|a block could not be read: the file became shorter, or its disk failed)"
UNREAD = re.compile(rb"rdump: \S+/payload: its length could not be read\n")


def is_client_told(got: Ran[object], call: str, error: int) -> bool:
    """The client names the file or the address at which the call failed, with the reason of that call."""
    why = re.escape(reason(error))
    step = r"((its \.new|it could not be removed|whether it changed while it was dumped cannot be told): )?"
    forms = [rf"rdump: \S+: {step}{why}(: the dump can't be entered)?", *([PAYLOAD_FAILS] if call in ("statx", "pread") else [])]
    forms = [rf"rdump: 127\.0\.0\.1:\d+: {why}"] if call in AT_CONNECTIONS else forms
    lines = faults_of(got)
    return lines != [] and all(re.fullmatch("|".join(forms), it) for it in lines)


# Where these calls fail the lock and the new file may stay: they are removed, and looked at before, so that no other file is removed by their names.
STAYS = ("unlink", "statx")


def but_locks(got: Ran[Left], call: str) -> Ran[Left]:
    """A run without the empty locks that may stay where this call fails."""
    names = [it for it in got.left.names if call not in STAYS or not it.endswith(".new")]
    return got.leaving(got.left._replace(names=names))


# Calls that a dump makes at its files.
AT_FILES = ("open", "statx", "flock", "fchown", "fchmod", "fsync", "rename", "unlink")
# Files that are written, which are told from standard error by their paths.
WRITTEN = {"write": "/dates"}


class DumpCalls(FaultCase):
    """Each call of a client that dumps and enters its run fails, is cut short, or is the last."""

    def dumped(self, rules: str, path: str = "", answer: bytes = b"") -> Ran[Left]:
        """A dump of three blocks that meets these rules."""
        return dumped(self.p, THREE_BLOCKS, answer, rules, path)

    def calls(self) -> dict[str, int]:
        """How many calls of each name a dump makes. Of writes those count that are to dumpdates."""
        found = counted(self.dumped("")) | {"write": self.dumped("", WRITTEN["write"]).calls.count("write")}
        self.holds(f"at least {LEAST_DUMP_CALLS} calls of a dump are seen", sum(found.values()) >= LEAST_DUMP_CALLS, found)
        return found

    def test_nothing_fails(self) -> None:
        well = self.dumped("")
        came = well.status, well.output, is_dump_right(well, 0)
        self.same("a dump in which nothing fails", came, (DONE, THREE_BLOCKS.printed(), True), well.shown())

    def test_each_call_fails(self) -> None:
        well = self.dumped("")
        told: set[bytes] = set()
        untold: Counter[str] = Counter()
        for call, count in self.calls().items():
            for rule in Target(call, WRITTEN.get(call, ""), count, False).rules():
                got = self.dumped(rule.text, WRITTEN.get(call, ""))
                self.holds(f"a dump: {rule.title}", is_dump_right(got, 0, call in STAYS), got.shown())
                if rule.error:
                    self.tells(f"a dump: {rule.title}", but_locks(got, call), well, call, rule.error, is_client_told, untold)
                told.add(got.told)
        self.are_few("a dump", untold, UNTOLD_OF_DUMP)
        self.holds("a dump: a payload whose length cannot be read is told", any(map(UNREAD.fullmatch, told)), sorted(told))

    def test_each_call_moves_a_byte(self) -> None:
        well = self.dumped("")
        for call in ("recv", "send", "sendmsg", "pread", "read", "write"):
            self.seen_as(f"a dump: each {call} is of one byte", self.dumped(f"{call}:1+:s1"), well)

    def test_call_fails_once_and_the_operator_says_yes(self) -> None:
        calls = self.calls()
        for call in ("recv", "pread"):
            for number in range(2, calls.get(call, 0) + 1):
                got = self.dumped(f"{call}:{number}:E5", answer=b"yes\n")
                self.holds(f"a dump: {call} {number} fails once, and the operator says yes", is_dump_right(got, 1), got.shown())

    def test_killed_before_each_call(self) -> None:
        for call, count in self.calls().items():
            for number in range(1, count + 1):
                got = self.dumped(f"{call}:{number}:K", WRITTEN.get(call, ""))
                is_whole = got.left.dates in (OLD_DATES, NEW_DATES) and are_whole(got.left.bin)
                self.same(f"a dump that is killed before {call} {number}", (got.status, is_whole), (-signal.SIGKILL, True), got.shown())

    def test_killed_at_a_file(self) -> None:
        """It leaves an empty lock and a part of the text at most, and the next dump is entered."""
        counts = counted(dumped(self.p, NO_BLOCKS, b"", ""))
        for call in AT_FILES:
            for number in range(1, counts[call] + 1):
                self.killed_at_a_file(f"{call}:{number}:K")
        for moved in range(0, len(NEW_DATES) + 1, 7):
            self.killed_at_a_file(f"write:1:k{moved}", WRITTEN["write"])

    def killed_at_a_file(self, rules: str, path: str = "") -> None:
        """A dump that is killed, and the same again."""
        with dump_site(self.p, NO_BLOCKS) as (folder, words):
            got = self.p.run((*words, *DATED), rules, b"", path).leaving(left(folder))
            texts = {it.name: it.read_bytes() for it in folder.glob("dates.new*")}
            again = self.p.run((*words, *DATED), None, YES_TO_BUSY).leaving(left(folder))
        lock, text = texts.pop("dates.new", b""), texts.pop("dates.new.1", b"")
        came = got.status, got.left.dates in (OLD_DATES, NEW_DATES), lock, NEW_DATES.startswith(text), texts
        title = f"a dump that is killed by {rules}"
        self.same(title, came, (-signal.SIGKILL, True, b"", True, {}), got.shown(), text)
        stays = [it for it in got.left.names if it == "dates.new.1"]
        self.same(f"{title}: the next one", again.seen()[::2], (DONE, again.left._replace(dates=NEW_DATES, names=["dates", *stays])), again.shown())

    def test_clock_before_1970(self) -> None:
        got = dumped(self.p, THREE_BLOCKS, b"", "clock_gettime:1+:t-5", date=())
        untouched = Left({}, OLD_DATES, ["dates"])
        self.same("a clock before 1970", (got.told, got.seen()), (b"rdump: the clock: it tells no date\n", (FAILED, b"", untouched)), got.shown())

    def test_clock_goes_back(self) -> None:
        got = dumped(self.p, THREE_BLOCKS, b"", f"clock_gettime:1:t{DAY},clock_gettime:2+:t1", date=())
        self.seen_as("a dump whose clock goes back", got, self.dumped(""))

    def test_line_cannot_be_printed(self) -> None:
        """The status says so, and the run is not entered where its end was not printed."""
        for number in range(1, len(THREE_BLOCKS.lines()) + 1):
            for more in ("", "+"):
                self.unprinted(number, more)

    def unprinted(self, number: int, more: str) -> None:
        """Standard output fails at this line, and at all later ones at `+`."""
        title, lines = f"line {number}{' and all later ones' if more else ''} cannot be printed", THREE_BLOCKS.lines()
        with dump_site(self.p, THREE_BLOCKS) as (folder, words):
            environment = self.shim.environment(f"write:{number}{more}:E28", "/printed")
            with folder.joinpath("printed").open("wb") as printed:
                got = subprocess.run(
                    (*words, *DATED),
                    stdin=subprocess.DEVNULL,
                    stdout=printed,
                    stderr=subprocess.PIPE,
                    env=environment,
                    timeout=GUARD_SECONDS,
                    check=False,
                )
            text, stands = folder.joinpath("printed").read_text(), left(folder)
        self.same(f"{title}: the status", (got.returncode, got.stderr != b""), (ABNORMAL, True), got, text)
        wanted = [line for at, line in enumerate(lines, 1) if at < number or (at > number and not more)]
        came = text.splitlines(), lines[number - 1] in text
        self.same(f"{title}: what is printed", came, (wanted[: text.count("\n")], False))
        self.holds(f"{title}: no run is entered that is not printed", stands.dates == OLD_DATES or lines[-1] in text, stands.dates, text)

    def test_client_is_stopped_in_mid_volume(self) -> None:
        """It keeps its drive, and ends well once it is continued."""
        with dump_site(self.p, THREE_BLOCKS) as (folder, words):
            environment = self.shim.environment("recv:6:S")
            client = subprocess.Popen((*words, *DATED), stdin=subprocess.DEVNULL, stdout=subprocess.PIPE, env=environment)
            with guarded(client):
                os.waitid(os.P_PID, client.pid, os.WSTOPPED)
                for _ in range(3):
                    other = self.p.run((self.p.rdump, "mt", *words[2:6], "nop", "1"))
                    self.ends("a client that is stopped: the others", other, b"E16 Device busy\n", ABNORMAL)
                os.kill(client.pid, signal.SIGCONT)
                output = given(client.stdout).read()
                self.same("a client that is continued", (output, client.wait()), (THREE_BLOCKS.printed(), DONE))
            reels = {f"r{number}": data for number, data in enumerate(THREE_BLOCKS.reels(), 1)}
            self.same("a client that is continued: what stands", left(folder), Left(reels, NEW_DATES, ["dates"]))


# A dump with a checkpoint file.

KEPT_PATH = f"/{KEPT}"
# At least so many calls of such a dump were seen when this was written.
LEAST_KEPT_CALLS = 70
# The server may not have seen yet that the first client is gone, and the drive is that one's until then: an attempt fails then, and the operator
# says yes. From the second failure in a row on the client waits a second before it asks.
YES_TO_BUSY = b"yes\n" * 20


class KeptRun(NamedTuple):
    """A dump with a checkpoint file that met a rule, and the same words again without one, if it was not complete."""

    got: Ran[Left]
    again: Ran[Left] | None

    def shown(self) -> tuple[object, ...]:
        return self.got.shown(), self.again and self.again.shown()

    def is_complete(self) -> bool:
        """Whether the first run printed the end, and had removed the file."""
        return self.got.output.endswith(THREE_BLOCKS.printed(2)) and self.got.left.kept is None

    def goes_on(self) -> bool:
        """The second run dumps what the file has not, enters the run, and leaves no file."""
        texts = [THREE_BLOCKS.checkpoint(it) for it in range(3)]
        if self.again is None or self.got.left.kept not in (None, *texts):
            return False
        had = 0 if self.got.left.kept is None else texts.index(self.got.left.kept)
        reels, then = THREE_BLOCKS.reels(), self.again.left
        right = (self.again.status, without_busy(self.again.output)) == (DONE, THREE_BLOCKS.printed(had))
        # A volume that the file had is on one reel. Of another one the server may have moved a reel once the client was gone.
        once = all([*then.bin.values()].count(it) == 1 for it in reels[:had])
        # A part of a text that was being written stays, and no lock does.
        names = [it for it in then.names if not re.fullmatch(r"\w+\.new\.1", it)]
        return right and {*then.bin.values()} == {*reels} and once and (then.dates, names, then.kept) == (NEW_DATES, ["dates"], None)


def without_busy(output: bytes) -> bytes:
    """What was printed, but for attempts that failed since another session had the drive."""
    return re.sub(rb"^volume \d+ failed: Refused 16\nretry\?\n", b"", output, flags=re.M)


def is_kept_right(got: Ran[Left], call: str) -> bool:
    """It did not start and left all as it was; or it took a lawful course, and the file has what was printed as counted, but for a count of which it
    is said that it is not kept. Where the folder's sync alone failed that may be there. A file that could not be removed stays, with status 3."""
    names = ["dates"] if got.left.kept is None else [KEPT, "dates"]
    if not are_whole(got.left.bin) or (got.left.names != names and call not in STAYS):
        return False
    if got.status == FAILED:
        return got.output == b"" and got.told != b"" and (got.left.bin, got.left.dates, got.left.kept) == ({}, OLD_DATES, None)
    went = course(THREE_BLOCKS, got.output, 0, 0)
    if went is None or not {*THREE_BLOCKS.reels()[: went.counted]} <= {*got.left.bin.values()}:
        return False
    stays = went.end in ("complete", "abandoned") and got.left.kept is not None
    lawful = texts_after(went.counted, went.end, stays, call)
    is_told = got.told != b"" or (went.end == "complete" and not stays)
    dates = NEW_DATES if went.end == "complete" else OLD_DATES
    return got.left.kept in lawful and got.status == (ABNORMAL if stays else went.status()) and is_told and got.left.dates == dates


def texts_after(counted: int, end: str, stays: bool, call: str) -> list[bytes | None]:
    """What the file may hold after a dump that ended so."""
    if end == "not kept":
        late = [THREE_BLOCKS.checkpoint(counted)] if call == "fsync" else []
        return [THREE_BLOCKS.checkpoint(counted - 1) if counted else None, *late]
    return [THREE_BLOCKS.checkpoint(counted) if stays or end == "not entered" else None]


class KeptDumpCalls(FaultCase):
    """Each call of a client that keeps what it counted fails, or is the last. The same words go on then."""

    def kept_run(self, rules: str, path: str = "") -> KeptRun:
        with dump_site(self.p, THREE_BLOCKS) as (folder, words):
            words += kept_words(folder)
            first = KeptRun(self.p.run((*words, *DATED), rules, b"", path).leaving(left(folder)), None)
            if first.got.left.kept is None and first.got.status in (DONE, ABNORMAL) or first.is_complete():
                return first
            return first._replace(again=self.p.run((*words, *DATED), None, YES_TO_BUSY).leaving(left(folder)))

    def calls(self) -> dict[str, int]:
        """How many calls of each name such a dump makes. Of writes those count that are to the checkpoint file."""
        found = counted(self.kept_run("").got) | {"write": self.kept_run("", KEPT_PATH).got.calls.count("write")}
        self.holds(f"at least {LEAST_KEPT_CALLS} calls of such a dump are seen", sum(found.values()) >= LEAST_KEPT_CALLS, found)
        return found

    def test_nothing_fails(self) -> None:
        well = self.kept_run("").got
        wanted = DONE, THREE_BLOCKS.printed(), (NEW_DATES, ["dates"], None)
        self.same("a dump with a checkpoint file in which nothing fails", (well.status, well.output, well.left[1:]), wanted, well.shown())
        removed = [name for name in well.calls if name in ("unlink", "fsync")]
        self.same("the folder is synced once a checkpoint file and its lock are removed", removed[-3:], ["unlink", "unlink", "fsync"], removed)

    def test_each_call_fails(self) -> None:
        well = self.kept_run("").got
        ends: Counter[int] = Counter()
        untold: Counter[str] = Counter()
        for call, count in self.calls().items():
            path = KEPT_PATH if call == "write" else ""
            for number in range(1, count + 1):
                for what, error in ((f"{number}:E5", 5), (f"{number}:E28", 28), (f"{number}+:E5", 0)):
                    title, it = f"a dump with a checkpoint file, {call}:{what}", self.kept_run(f"{call}:{what}", path)
                    self.holds(title, is_kept_right(it.got, call), it.got.shown())
                    if error:
                        self.tells(title, but_locks(it.got, call), well, call, error, is_client_told, untold)
                    self.holds(f"{title}: it goes on", not it.again or it.goes_on(), it.shown())
                    ends[it.got.status] += 1
        self.are_few("a dump with a checkpoint file", untold, UNTOLD_OF_KEPT_DUMP)
        self.holds("each end of such a dump is met", {DONE, FAILED, ABNORMAL} <= {*ends}, ends)

    def test_killed_before_each_call(self) -> None:
        for call, count in self.calls().items():
            for number in range(1, count + 1):
                self.killed(f"{call}:{number}:K", KEPT_PATH if call == "write" else "")

    def test_each_write_is_of_one_byte(self) -> None:
        well, short = self.kept_run("").got, self.kept_run("write:1+:s1", KEPT_PATH).got
        self.seen_as("a dump with a checkpoint file: each write to it is of one byte", short, well)

    def test_killed_in_each_write(self) -> None:
        """After each number of bytes."""
        for number in (1, 2):
            for moved in range(len(THREE_BLOCKS.checkpoint(number - 1)) + 1):
                self.killed(f"write:{number}:k{moved}", KEPT_PATH)

    def killed(self, rules: str, path: str) -> None:
        """The client is killed: the file is whole, has what was printed at most, and the same words go on."""
        it = self.kept_run(rules, path)
        printed = len(re.findall(rb"^volume \d+: ", it.got.output, re.M))
        lawful = it.got.left.kept in [None, *(THREE_BLOCKS.checkpoint(number) for number in range(printed + 1))]
        title = f"a dump with a checkpoint file that is killed by {rules}"
        is_whole = are_whole(it.got.left.bin) and it.got.left.dates in (OLD_DATES, NEW_DATES)
        self.same(title, (it.got.status, lawful, is_whole), (-signal.SIGKILL, True, True), it.got.shown())
        if it.again and lawful:
            self.holds(f"{title}: it goes on", it.goes_on(), it.shown())

    def test_file_cannot_be_removed(self) -> None:
        """The last call of this name but that for the lock would do that: it is told, and the status says so."""
        it = self.kept_run(f"unlink:{self.calls()['unlink'] - 1}+:E13")
        came = it.got.status, it.got.output, it.got.left[1:], KEPT_PATH.encode() in it.got.told
        wanted = ABNORMAL, THREE_BLOCKS.printed(), (NEW_DATES, [KEPT, f"{KEPT}.new", "dates"], THREE_BLOCKS.checkpoint(2)), True
        self.same("a checkpoint file that cannot be removed", came, wanted, it.got.shown())
        self.holds("a checkpoint file that could not be removed: it is found finished", it.goes_on(), it.shown())

    def test_file_cannot_be_removed_after_the_dump_was_abandoned(self) -> None:
        # The first call of this name is for the lock of dumpdates, which is tried at the start.
        rules = "unlink:2+:E13"
        with dump_site(self.p, THREE_BLOCKS) as (folder, words):
            folder.joinpath(KEPT).write_bytes(THREE_BLOCKS.checkpoint(1))
            nowhere = tuple(it if ":" not in it or "/" in it else NOWHERE for it in words)
            got = self.p.run((*nowhere, *kept_words(folder), *DATED), rules).leaving(left(folder))
        abandoned = b"volume 2 failed: ConnectionEnded\nretry?\ndump abandoned\n"
        came = got.status, got.output, got.left.kept, KEPT_PATH.encode() in got.told
        wanted = ABNORMAL, abandoned, THREE_BLOCKS.checkpoint(1), True
        self.same("a checkpoint file that cannot be removed after the dump was abandoned", came, wanted, got.shown())


# Calls before which one of two dumps with one file is stopped while the other one begins.
MEETING = ("open", "statx", "flock", "write", "fsync", "rename")
# So long the other one may take to begin or to be refused, if it does not wait for the stopped one.
MEETS_SECONDS = 1.5
# The entry of a dump of each level.
ENTERED = b"/usr                             %d Wed Mar  1 00:00:00 2000\n"
# The first request of the second volume of three blocks, before which the count of the first one is kept.
SECOND_VOLUME = 12


class TwoDumps(FaultCase):
    """Two dumps with one checkpoint file, or one dumpdates, of which one is stopped while the other one goes on."""

    def words(self, folder: Path, address: str) -> tuple[str, ...]:
        """The words of both dumps with one checkpoint file."""
        folder.joinpath("payload").write_bytes(THREE_BLOCKS.data())
        words = (self.p.rdump, "dump", "--to", address, "--device", DEVICE, "--fs", "/usr", "--level", "0", "--block", str(BLOCK), *DATED)
        return (*words, "--payload", str(folder / "payload"), "--dumpdates", str(folder / "none"), *kept_words(folder))

    def client(self, words: tuple[str, ...], rule: str | None = None) -> subprocess.Popen[bytes]:
        """A client that runs, and meets this rule."""
        environment = None if rule is None else self.shim.environment(rule)
        return subprocess.Popen(words, stdin=subprocess.DEVNULL, stdout=subprocess.PIPE, stderr=subprocess.PIPE, env=environment)

    def test_one_alone_dumps(self) -> None:
        """The file is not there: one is stopped before each of its calls up to its first connection, and the other begins then."""
        with folders() as folder:
            alone = self.p.run(self.words(folder, NOWHERE), "").calls
        calls = Counter(alone[: alone.index("connect")])
        met: Counter[str] = Counter()
        for call in MEETING:
            for number in range(1, calls[call] + 1):
                met[self.meeting(f"{call}:{number}:S")] += 1
        title = "of two dumps with one file the stopped one and the other one are each met as the one that dumps"
        self.same(title, {*met}, {"stopped", "other"}, met)

    def meeting(self, rule: str) -> str:
        """One dump is stopped by this rule, and the other begins. Returns which of them dumped."""
        self.shim.forget()
        began, leaves = threading.Event(), threading.Event()

        def waits() -> None:
            began.set()
            leaves.wait(GUARD_SECONDS)

        title = f"two dumps with one file, one of them stopped by {rule}"
        with folders() as folder:
            with Model(*(Reel(it, 3100) for it in ("r1", "r2")), acts={3: waits}) as model:
                words = self.words(folder, model.address)
                with guarded(self.client(words, rule)) as stopped:
                    ended_or_stopped(stopped.pid)
                    with guarded(self.client(words)) as other:
                        soon(lambda: began.is_set() or other.poll() is not None, MEETS_SECONDS)
                        os.kill(stopped.pid, signal.SIGCONT)
                        soon(lambda: stopped.poll() is not None or other.poll() is not None, GUARD_SECONDS / 4)
                        leaves.set()
                        ends = [(given(it.stdout).read(), given(it.stderr).read(), it.wait()) for it in (stopped, other)]
            dumped = [name for name, (output, _, status) in zip(("stopped", "other"), ends) if (output, status) == (THREE_BLOCKS.printed(), DONE)]
            refused = [told for output, told, status in ends if (output, status) in ((b"", FAILED), (b"checkpoint not written\n", ABNORMAL)) and told]
            self.same(title, (len(dumped), len(refused)), (1, 1), ends)
            self.same(f"{title}: what is sent", len(model.logs), 2, [len(it) for it in model.logs])
            self.same(f"{title}: it is gone", [*folder.glob(f"{KEPT}*")], [])
        return " and ".join(dumped) or "neither"

    @contextmanager
    def stopped_late(self, words: tuple[str, ...], rule: str) -> Iterator[Callable[[], Ran[object]]]:
        """A client that is stopped by this rule; and what has it go on, and returns how it ended."""
        self.shim.forget()
        with guarded(self.client(words, rule)) as client:
            ended_or_stopped(client.pid)

            def ends() -> Ran[object]:
                os.kill(client.pid, signal.SIGCONT)
                output, told = client.communicate(timeout=GUARD_SECONDS)
                return Ran(client.returncode, output, told, None)

            yield ends

    def test_checkpoint_file_is_locked_late(self) -> None:
        """A dump that opens the checkpoint file of another one, and locks it only once that has put the next in its place, has not got it."""
        title = "a checkpoint file that is locked once another has its name"
        run = Run(DEVICE.encode(), b"/usr", 0, DAY, 0, BLOCK, THREE_BLOCKS.blocks)
        late: list[Ran[object]] = []
        with folders() as folder:
            folder.joinpath(KEPT).write_bytes(text_of(run, ()))
            with self.stopped_late(self.words(folder, NOWHERE), "flock:1:S") as ends:
                with Model(*(Reel(it, 3100) for it in ("r1", "r2")), acts={SECOND_VOLUME: lambda: late.append(ends())}) as model:
                    got = self.p.run(self.words(folder, model.address), None)
            refused = f"rdump: {folder / KEPT}: another run has it\n".encode()
            self.same(title, late, [Ran(FAILED, b"", refused, None)])
            self.ends(f"{title}: the other dump goes on", got, THREE_BLOCKS.printed())
            self.same(f"{title}: the file is gone", folder.joinpath(KEPT).exists(), False)

    def entering(self, folder: Path, address: str) -> tuple[str, ...]:
        """The words of both dumps with one dumpdates, without their levels. They have no block."""
        folder.joinpath("payload").write_bytes(b"")
        to, files = ("--to", address, "--device", DEVICE), ("--payload", str(folder / "payload"), "--dumpdates", str(folder / "dates"))
        return (self.p.rdump, "dump", *to, "--fs", "/usr", "--block", str(BLOCK), *files, *DATED, "--update")

    def test_dumpdates_is_entered_late(self) -> None:
        """A dump whose new file of dumpdates another one takes away, before it is locked, makes another: both dumps are entered."""
        title = "a new file of dumpdates that goes away before it is locked"
        with folders() as folder, Model(*(Reel(it, 3100) for it in ("r1", "r2"))) as model:
            words = self.entering(folder, model.address)
            # The first lock is that of the look at the start.
            with self.stopped_late((*words, "--level", "0"), "flock:2:S") as ends:
                made = sorted(it.name for it in folder.iterdir() if it.name.startswith("dates"))
                other = self.p.run((*words, "--level", "1"), None)
                late = ends()
            entries = b"".join(ENTERED % level for level in (1, 0))
            self.same(f"{title}: it is there", made, ["dates.new"])
            self.ends(f"{title}: the other dump", other, NO_BLOCKS.printed())
            self.ends(f"{title}: the dump", late, NO_BLOCKS.printed())
            text = folder.joinpath("dates").read_bytes() if folder.joinpath("dates").exists() else None
            self.same(f"{title}: both are entered", (text, folder.joinpath("dates.new").exists()), (entries, False))

    def test_lock_of_dumpdates_is_taken_away(self) -> None:
        """A dump whose lock somebody takes away does not undo the entry of another dump."""
        title = "a lock of dumpdates that is taken away before the new text has its name"
        with folders() as folder, Model(*(Reel(it, 3100) for it in ("r1", "r2"))) as model:
            words = self.entering(folder, model.address)
            with self.stopped_late((*words, "--level", "0"), "fsync:1:S") as ends:
                folder.joinpath("dates.new").unlink()
                other = self.p.run((*words, "--level", "1"), None)
                late = ends()
            told = f"rdump: {folder / 'dates'}: its .new was taken away or written: another run may have replaced it\n".encode()
            self.ends(f"{title}: the other dump", other, NO_BLOCKS.printed())
            wanted = ABNORMAL, NO_BLOCKS.printed() + b"dumpdates not updated\n", True
            self.same(title, (late.status, late.output, told in late.told), wanted, late.shown())
            files = {it.name: it.read_bytes() for it in folder.glob("dates*")}
            self.same(f"{title}: the other entry stays", files, {"dates": ENTERED % 1})
