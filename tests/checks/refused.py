"""Refuses each request for memory that the built programs make, alone and with all later ones, and checks what they answer, print and leave.

No request is named by its number, since compilers and kits differ in these: each sweep runs once with all memory, counts the requests of the log,
and parts those before the first request is read, or the first attempt connects, from those after it. It fails where fewer requests are seen than
when it was written, and where refusing one changed nothing.
"""

from __future__ import annotations

import os
import re
import socket
import subprocess
import tempfile
from contextlib import suppress
from pathlib import Path
from typing import Callable, Generic, NamedTuple, TypeVar

from tests.lib.connections import TCP, UNIX, Address, address_in, connected
from tests.lib.drives import Held, drive_words, files_of, folders, held
from tests.lib.ended import ABNORMAL, DONE, FAILED
from tests.lib.fetches import copies, copy_name, fetched, part_name
from tests.lib.given import given
from tests.lib.places import is_unproved
from tests.lib.processes import guarded
from tests.lib.restores import fetch_words
from tests.lib.servers import at_drive
from tests.lib.shimmed import (
    ABANDONED,
    ASKED,
    BLOCK,
    CAPACITY,
    DATED,
    KEPT,
    NEW_DATES,
    NO_BLOCKS,
    NOT_WRITTEN,
    OLD_DATES,
    THREE_BLOCKS,
    Left,
    Payload,
    Ran,
    ShimmedPrograms,
    SiteCase,
    course,
    dump_site,
    dumped,
    kept_words,
    left,
)
from tests.lib.wire import DEVICE
from tests.models.catalog import dump_text
from tests.models.lawful import NO_MEMORY, History, empty, reels_of
from tests.models.rmtd import images

S = TypeVar("S")

# A record and a mark are written and read back; and a reel is taken away, so that none is left.
ROW = b"O/dev/st0\n2\nW5\nhelloI0\n1\nI5\n1\nR10\nR10\nC\n"
AWAY = b"O/dev/st0\n2\nI6\n1\nW1\nxI7\n1\nC\nO/dev/st0\n2\n"
NO_WRITE = b"A0\nE12\nCannot allocate memory\nA1\nA1\nA0\nA0\nA0\n"
NO_MARK = b"A0\nA5\nE12\nCannot allocate memory\nA1\nA5\nhelloA0\nA0\n"

# The bytes that a session reserves: for what it reads from a reel, and for its reader of requests.
RESERVED = [262_144, 262_156]

NAMED = b"out of memory\n"
# What the server says on standard error that was refused memory at its start: the part of the start, or the folder or address that it was at.
TOLD = rb"rmtd: (it did not start|the arguments|the words could not be read|/\S+/(bin|st0)|127\.0\.0\.1:0|unix:/\S+/socket): out of memory\n"
FAILED_START = f"volume 1 failed: OutOfMemory\n{ASKED}\n"


class Sweep(NamedTuple, Generic[S]):
    """A run of a program whose requests for memory are refused one after the other. `least` is how many were seen when this was written, less a
    tenth, as compilers differ. `begins` is the call that reads the first request or begins the first attempt: `before` says whether
    what came is right where a request before it is refused, and `after` so for later ones, and whether all after them are refused too."""

    title: str
    least: int
    begins: str
    go: Callable[[str], Ran[S]]
    before: Callable[[Ran[S]], bool]
    after: Callable[[Ran[S], bool], bool]


class RefusedCase(SiteCase):
    """Tests of programs to which memory is refused."""

    def setUp(self) -> None:
        super().setUp()
        if any(map(is_unproved, ("rmtd", "rdump", "rsim"))):
            self.skipTest("programs that are not proved take memory in another way")

    def swept(self, sweep: Sweep[S]) -> list[Ran[S]]:
        """Makes all the runs, and returns what came."""
        well = sweep.go("")
        first = well.calls.index(sweep.begins) if sweep.begins in well.calls else len(well.calls)
        early, requests = well.calls[:first].count("alloc"), well.calls.count("alloc")
        self.holds(f"{sweep.title}: at least {sweep.least} requests for memory are seen", requests >= sweep.least, requests, well)
        came = []
        for number in range(1, requests + 1):
            for more in (False, True):
                got = sweep.go(f"alloc:{number}{'+' if more else ''}:0")
                title = f"{sweep.title}: request {number} of {requests} is refused{' and all later ones' if more else ''}"
                right = sweep.before(got) if number <= early else sweep.after(got, more)
                self.holds(title, right, got.shown(), f"{early} requests come before `{sweep.begins}`")
                self.holds(f"{title}: that is seen", got.seen() != well.seen(), got.shown())
                came.append(got)
        return came

    def well(self, title: str, got: Ran[S], wanted: tuple[int, bytes, S]) -> None:
        """With all memory it ends, prints and leaves this."""
        self.same(f"{title}: with all memory", got.seen(), wanted, got.shown())


def is_silent(got: Ran[object]) -> bool:
    """It did not start, and printed nothing."""
    return (got.status, got.output) == (FAILED, b"")


def is_told(got: Ran[object]) -> bool:
    """The server did not start, printed nothing, and told why."""
    return is_silent(got) and re.fullmatch(TOLD, got.told) is not None


def is_named(got: Ran[object]) -> bool:
    """It did not start, and printed why."""
    return (got.status, got.output) == (FAILED, NAMED)


def never(got: Ran[object], more: bool) -> bool:
    """No request is refused then."""
    return False


# The server on its standard streams.


def refusals(output: bytes) -> int:
    """How many requests were answered with want of memory."""
    return output.count(NO_MEMORY)


class OnStreams(RefusedCase):
    """A server on its standard streams."""

    def in_memory(self, title: str, row: bytes, least: int) -> list[Ran[object]]:
        """The drive in memory, whose reel takes memory to write."""
        history = History(row, empty("r"), NO_MEMORY, grows=True)

        def after(got: Ran[object], more: bool) -> bool:
            lawful = got.status == DONE and history.states(got.output) and history.answered_all(got.output)
            return bool(lawful) and (more or refusals(got.output) == 1)

        go: Callable[[str], Ran[object]] = lambda rules: self.p.run((self.p.rmtd, "--stdio"), rules, row)
        self.same(f"{title}: what is answered with all memory", go("").output, history.wanted())
        return self.swept(Sweep(title, least, "read", go, is_told, after))

    def test_record_and_mark(self) -> None:
        came = self.in_memory("a record and a mark", ROW, 25)
        alone = {it.output for it in came[::2] if it.status == DONE}
        right = {NO_WRITE} <= alone <= {NO_WRITE, NO_MARK}
        self.holds("a record and a mark: the write alone is refused, and the mark alone where that grows", right, alone)

    def test_reel_that_is_taken_away(self) -> None:
        self.in_memory("a reel that is taken away", AWAY, 23)

    def test_what_a_session_reserves(self) -> None:
        """A session asks once for each of its two buffers, and for nothing else that is as large."""
        self.p.run((self.p.rmtd, "--stdio"), "", ROW)
        large = sorted(it for it in self.shim.sizes() if it >= min(RESERVED))
        self.same("what a session reserves", large, RESERVED)

    def over_a_folder(self, title: str, row: bytes, least: int) -> None:
        """A drive in a folder, whose reels take no memory to write."""
        history = History(row, empty("r1"), NO_MEMORY)

        def go(rules: str) -> Ran[Held]:
            with folders(r1=b"") as folder:
                return self.p.run((self.p.rmtd, "--stdio", *drive_words(folder)), rules, row).leaving(held(folder))

        def before(got: Ran[Held]) -> bool:
            return is_told(got) and got.left == ({"r1": b""}, {})

        def after(got: Ran[Held], more: bool) -> bool:
            left = tuple(dict(reels_of(it)) for it in got.left)
            lawful = got.status == DONE and history.answered_all(got.output)
            return lawful and left in [it.held() for it in history.states(got.output)] and (more or refusals(got.output) == 1)

        self.swept(Sweep(title, least, "read", go, before, after))

    def test_record_and_mark_in_a_folder(self) -> None:
        self.over_a_folder("a record and a mark, in a folder", ROW, 70)

    def test_reel_that_is_taken_away_in_a_folder(self) -> None:
        self.over_a_folder("a reel that is taken away, in a folder", AWAY, 75)


# The listener.

# How the line begins that a server prints once it listens.
LISTENS = b"listening on "
# What each connection was answered, None if it was closed at once.
Answers = list[bytes | None]


def conversed(address: Address) -> bytes | None:
    """What a connection is answered; none if it is closed at once."""
    with suppress(OSError), connected(address) as client:
        client.sendall(ROW)
        client.shutdown(socket.SHUT_WR)
        return b"".join(iter(lambda: client.recv(65536), b"")) or None
    return None


def listened(p: ShimmedPrograms, rules: str, folder: Path | None, count: int = 2, at: str = TCP) -> Ran[Answers]:
    """Connections, one after the other. What is left is what each was answered, and what is told is the log."""
    words = (p.rmtd, "--listen", at, "--connections", str(count), *(drive_words(folder) if folder else ()))
    p.shim.forget()
    with tempfile.TemporaryFile() as log:
        with guarded(subprocess.Popen(words, stdout=subprocess.PIPE, stderr=log, env=p.shim.environment(rules))) as server:
            output = given(server.stdout)
            line = output.readline()
            answers = [conversed(address_in(line)) for _ in range(count)] if line.startswith(LISTENS) else []
            rest = output.read()
            server.wait()
        told = os.pread(log.fileno(), 1 << 20, 0)
    return Ran(server.returncode, b"" if line.startswith(LISTENS) else line + rest, told, answers, tuple(p.shim.calls()))


# What the log says last of a connection: after its answers, and if it is answered nothing.
SERVED, UNSERVED = "ended: end", ("ended: out of memory", "closed: no thread", "closed: no seat is free")


def lasts(got: Ran[Answers]) -> list[str]:
    """What the log says last of each of two connections."""
    lines = got.told.decode().splitlines()
    told = [[it.partition(f"connection {number}: ")[2] for it in lines if f"connection {number}: " in it] for number in (1, 2)]
    return [it[-1] if it else "" for it in told]


def is_logged(got: Ran[Answers]) -> bool:
    """The log says of each connection whether it was served."""
    return all(last in UNSERVED if answer is None else last == SERVED for answer, last in zip(got.left, lasts(got)))


# A server over folders has so many seats.
SEATS = 32


class Connections(RefusedCase):
    """Connections to a server that listens: a refusal alone is met by one of them, and the other is served."""

    def connections(self, title: str, in_folder: bool, least: int, at: str = TCP) -> None:
        history = History(ROW, empty("r1"), NO_MEMORY, grows=not in_folder)
        whole = history.wanted()

        def go(rules: str) -> Ran[Answers]:
            with folders(r1=b"") as folder:
                return listened(self.p, rules, folder if in_folder else None, at=at.replace("FOLDER", str(folder)))

        def before(got: Ran[Answers]) -> bool:
            # What is told before that is not of the refusal: that the reel is in memory, or how many files may be open.
            return is_silent(got) and re.search(rb"^" + TOLD + rb"\Z", got.told, re.M) is not None and not got.left

        def is_lawful(answer: bytes | None) -> bool:
            return answer is None or (bool(history.states(answer)) and history.answered_all(answer))

        def after(got: Ran[Answers], more: bool) -> bool:
            met = [answer for answer in got.left if answer != whole]
            right = got.status == DONE and len(got.left) == 2 and all(map(is_lawful, met)) and len(met) in ((1, 2) if more else (1,))
            return right and is_logged(got)

        self.same(f"{title}: with all memory", go("").left, [whole] * 2)
        came = self.swept(Sweep(title, least, "accept4", go, before, after))
        met = {last for it in came for last in lasts(it)} - {SERVED, ""}
        self.same(f"{title}: what the log says of those that are not served", met, {*(UNSERVED if in_folder else UNSERVED[:1])})

    def test_drive_in_memory(self) -> None:
        self.connections("connections at the drive in memory", False, 45)

    def test_drive_in_memory_over_a_unix_socket(self) -> None:
        self.connections("connections at the drive in memory, over a Unix socket", False, 40, UNIX)

    def test_drive_in_a_folder(self) -> None:
        self.connections("connections at a folder", True, 245)

    def test_seats(self) -> None:
        """A connection to whose seat memory is refused takes none: after more of these than there are seats each later one is served."""
        with folders(r1=b"") as folder:
            calls = listened(self.p, "", folder).calls
        early = calls[: calls.index("accept4")].count("alloc")
        with folders(r1=b"") as folder:
            got = listened(self.p, f"alloc:{early + 1}-{early + 2 * SEATS}:0", folder, 2 * SEATS + 2)
        refused = [it for it in got.told.decode().splitlines() if it.endswith("closed: no seat is free")]
        answered = got.left[len(refused) :]
        are_many = len(refused) > SEATS and not any(got.left[: len(refused)])
        self.holds(f"memory is refused to more than {SEATS} seats", are_many, len(refused), got.left)
        whole = History(ROW, empty("r1"), NO_MEMORY).wanted()
        self.same("seats to which memory was refused: each later connection is served", {*answered}, {whole}, answered)
        self.same("seats to which memory was refused: it ends", got.status, DONE, got.shown())


# The client.


def tells_why(got: Ran[object]) -> bool:
    """Standard error says that it was memory, and not that the file was no dumpdates file."""
    return b"memory" in got.told and b"it is no dumpdates file\n" not in got.told


FAULTS = ("OutOfMemory", "Refused 16")
UNTOUCHED = Left({}, OLD_DATES, ["dates"])


class Dump(NamedTuple):
    """A dump of this payload, where the operator says `yes` so often."""

    payload: Payload
    yes: int

    def go(self, p: ShimmedPrograms, rules: str) -> Ran[Left]:
        return dumped(p, self.payload, b"yes\n" * self.yes, rules)

    def left(self, counted: int, is_entered: bool) -> Left:
        """What a dump leaves that counted so many volumes."""
        reels = {f"r{number}": data for number, data in enumerate(self.payload.reels()[:counted], 1)}
        return Left(reels, NEW_DATES if is_entered else OLD_DATES, ["dates"])

    def is_right(self, got: Ran[Left], more: bool) -> bool:
        """It took a lawful course: what was counted is in the bin, and dumpdates has the run or is as it was. A refusal alone is one fault. Where the
        server has not yet seen the end of the attempt that failed, it refuses the next one."""
        went = course(self.payload, got.output, self.yes)
        if went is None or got.status != went.status() or went.faults[:1] not in ((), ("OutOfMemory",)) or {*went.faults[1:]} - {*FAULTS}:
            return False
        refused = went.faults.count("OutOfMemory") + (went.end == "not entered")
        told = went.end != "not entered" or tells_why(got)
        return got.left == self.left(went.counted, went.end == "complete") and told and (refused >= 1 if more else refused == 1)

    def before(self, got: Ran[Left]) -> bool:
        """It did not start, and touched nothing. Or the start of an attempt failed, which has room for its count before it connects."""
        if is_named(got):
            return got.left == UNTOUCHED and b"it is no dumpdates file" not in got.told
        return got.output.decode().startswith(FAILED_START) and self.is_right(got, got.status != DONE)


class KeptDump(NamedTuple):
    """A dump of this payload with a checkpoint file, which has so many counts at the start or is none, where the operator says `yes` so often."""

    payload: Payload
    yes: int
    had: int | None

    def go(self, p: ShimmedPrograms, rules: str) -> Ran[Left]:
        with dump_site(p, self.payload) as (folder, words):
            if self.had is not None:
                folder.joinpath(KEPT).write_bytes(self.payload.checkpoint(self.had))
            return p.run((*words, *kept_words(folder), *DATED), rules, b"yes\n" * self.yes).leaving(left(folder))

    def left(self, counted: int, is_entered: bool, kept: int | None) -> Left:
        """What a dump leaves that counted so many volumes, where the file has so many of them, or is not there."""
        reels = {f"r{number}": data for number, data in enumerate(self.payload.reels()[self.had or 0 : counted], 1)}
        text = None if kept is None else self.payload.checkpoint(kept)
        names = ["dates"] if text is None else [KEPT, "dates"]
        return Left(reels, NEW_DATES if is_entered else OLD_DATES, names, text)

    def is_right(self, got: Ran[Left], more: bool) -> bool:
        """It took a lawful course, and the file has what was counted, but for a count that could not be kept; it is gone where the dump is complete
        or abandoned, or could not be removed, which is told. A refusal alone is one fault."""
        went = course(self.payload, got.output, self.yes, self.had or 0)
        if went is None or went.faults[:1] not in ((), ("OutOfMemory",)) or {*went.faults[1:]} - {*FAULTS}:
            return False
        stays = went.end in ("complete", "abandoned") and got.left.kept is not None
        refused = went.faults.count("OutOfMemory") + (went.end in ("not entered", "not kept")) + stays
        right = self.left(went.counted, went.end == "complete", self.kept(went.counted, went.end, stays))
        status = ABNORMAL if stays else went.status()
        told = tells_why(got) or not (stays or went.end in ("not entered", "not kept"))
        return got.left == right and got.status == status and told and (refused >= 1 if more else refused == 1)

    def kept(self, counted: int, end: str, stays: bool) -> int | None:
        """How many counts the file has after a dump that ended so, none where it is not there."""
        if end == "not kept":
            return self.had if counted == (self.had or 0) else counted - 1
        return counted if stays or end == "not entered" else None

    def before(self, got: Ran[Left]) -> bool:
        """It did not start, and touched nothing. Or it could not keep that it begins, or the start of an attempt failed."""
        if is_named(got):
            return got.left == self.left(self.had or 0, False, self.had)
        begun = (f"{NOT_WRITTEN}\n", f"volume {(self.had or 0) + 1} failed: OutOfMemory\n{ASKED}\n")
        return got.output.decode().startswith(begun) and self.is_right(got, got.status != DONE)


# What a dump leaves, and the text of its catalog.
Cataloged = tuple[Left, bytes]
NOT_COMPLETE = b"catalog not complete\n"
UNENTERED = rb"^rdump: \S+: out of memory: add this line, above those of later volumes:\n([0-9a-f]{64}  [^\n]+\n)"
THREE_LINES = dump_text(THREE_BLOCKS.reels(), len(THREE_BLOCKS.data()), BLOCK)


def with_catalog(p: ShimmedPrograms, rules: str) -> Ran[Cataloged]:
    """A dump of three blocks with a catalog. What is left is what a dump leaves, and the text of that file."""
    with dump_site(p, THREE_BLOCKS) as (folder, words):
        file = folder / "catalog"
        got = p.run((*words, "--catalog", str(file), *DATED), rules)
        return got.leaving((left(folder), file.read_bytes() if file.exists() else b""))


def catalog_is_right(got: Ran[Cataloged], more: bool) -> bool:
    """It took a lawful course. It began in the file. Each count has its line there, or on standard error, and the dump is finished there once it is
    complete, or it is said that the catalog is not complete."""
    (began, *lines, done), (stands, text) = THREE_LINES.splitlines(keepends=True), got.left
    unentered, went = re.findall(UNENTERED, got.told, re.M), course(THREE_BLOCKS, got.output, 0)
    if went is None or went.faults not in ((), ("OutOfMemory",)):
        return False
    had, is_ended = text.splitlines(keepends=True), went.end in ("complete", "not entered")
    is_unfinished = is_ended and done not in had
    if (NOT_COMPLETE in got.told) != (bool(unentered) or is_unfinished) or (bool(unentered) and done in had):
        return False
    refused = len(went.faults) + (went.end == "not entered") + (len(unentered) or is_unfinished)
    has_all = {*had, *unentered} == {began, *lines[: went.counted], *[done] * (is_ended and not is_unfinished)} and len({*had}) == len(had)
    right = Dump(THREE_BLOCKS, 0).left(went.counted, went.end == "complete")
    status = ABNORMAL if NOT_COMPLETE in got.told else went.status()
    return (got.status, stands) == (status, right) and has_all and (refused >= 1 if more else refused == 1)


class Dumps(RefusedCase):
    """Dumps that are entered, and an operator who tries again once, or does not."""

    def dumps(self, it: Dump) -> None:
        """Each request of this dump is refused."""
        title = f"a dump of {it.payload.blocks} blocks, where the operator says yes {it.yes} times"
        self.well(title, it.go(self.p, ""), (DONE, it.payload.printed(), it.left(len(it.payload.volumes), True)))
        came = self.swept(Sweep(title, 170, "connect", lambda rules: it.go(self.p, rules), it.before, it.is_right))
        self.refused_starts(it, title, came)

    def refused_starts(self, dump: Dump, title: str, came: list[Ran[Left]]) -> None:
        """An attempt whose start is refused makes no connection: where the operator wants it the next one does, and else the dump is abandoned."""
        unconnected = {it.output.decode() for it in came if it.output and not is_named(it) and "connect" not in it.calls}
        abandoned = FAILED_START * (dump.yes + 1) + f"{ABANDONED}\n"
        self.same(f"{title}: a refused start is abandoned without a connection", unconnected, {abandoned})
        for yes in range(1, dump.yes + 1):
            whole = [it for it in came if it.output.decode() == FAILED_START * yes + dump.payload.printed().decode()]
            once = [it for it in whole if it.calls.count("connect") == len(dump.payload.volumes)]
            self.holds(f"{title}: after a refused start the first connection is that of the next attempt", once, len(whole))

    def test_no_blocks(self) -> None:
        self.dumps(Dump(NO_BLOCKS, 0))

    def test_no_blocks_tried_again(self) -> None:
        self.dumps(Dump(NO_BLOCKS, 1))

    def test_three_blocks(self) -> None:
        self.dumps(Dump(THREE_BLOCKS, 0))

    def test_three_blocks_tried_again(self) -> None:
        self.dumps(Dump(THREE_BLOCKS, 1))

    def test_catalog(self) -> None:
        """A dump with a catalog: where the line of a volume cannot be entered it is told whole, and the dump goes on."""
        title = "a dump with a catalog"
        self.well(title, with_catalog(self.p, ""), (DONE, THREE_BLOCKS.printed(), (Dump(THREE_BLOCKS, 0).left(2, True), THREE_LINES)))

        def before(got: Ran[Cataloged]) -> bool:
            is_unbegun = is_silent(got) and re.fullmatch(rb"rdump: .*/catalog: out of memory\n", got.told) is not None
            if is_named(got) or is_unbegun:
                return got.left == (UNTOUCHED, b"")
            return got.output.decode().startswith(FAILED_START) and catalog_is_right(got, got.status != DONE)

        came = self.swept(Sweep(title, 170, "connect", lambda rules: with_catalog(self.p, rules), before, catalog_is_right))
        self.holds(f"{title}: some lines are told", any(re.search(UNENTERED, it.told, re.M) for it in came), len(came))
        unfinished = [it for it in came if NOT_COMPLETE in it.told and not re.search(UNENTERED, it.told, re.M)]
        self.holds(f"{title}: some are not finished", unfinished, len(came))


class KeptDumps(RefusedCase):
    """Dumps with a checkpoint file: a new one, and one that goes on; and one that is finished, which makes no attempt."""

    def dumps(self, it: KeptDump) -> None:
        """Each request of this dump is refused."""
        title = f"a dump whose checkpoint file has {it.had} counts, where the operator says yes {it.yes} times"
        self.well(title, it.go(self.p, ""), (DONE, THREE_BLOCKS.printed(it.had or 0), it.left(2, True, None)))
        self.swept(Sweep(title, 180, "connect", lambda rules: it.go(self.p, rules), it.before, it.is_right))

    def test_new_file(self) -> None:
        self.dumps(KeptDump(THREE_BLOCKS, 0, None))

    def test_new_file_tried_again(self) -> None:
        self.dumps(KeptDump(THREE_BLOCKS, 1, None))

    def test_file_with_a_count(self) -> None:
        self.dumps(KeptDump(THREE_BLOCKS, 0, 1))

    def test_finished_file(self) -> None:
        it = KeptDump(THREE_BLOCKS, 0, 2)
        self.well("a finished checkpoint file", it.go(self.p, ""), (DONE, THREE_BLOCKS.printed(2), it.left(2, True, None)))
        starts: Callable[[Ran[Left]], bool] = lambda got: is_named(got) and got.left == it.left(2, False, 2) or it.is_right(got, True)
        self.swept(Sweep("a finished checkpoint file", 150, "connect", lambda rules: it.go(self.p, rules), starts, never))


def tells_memory(got: Ran[object]) -> bool:
    """It failed, and says that it was memory, on either output."""
    return got.status == FAILED and b"out of memory" in got.output + got.told


class OverFiles(RefusedCase):
    """Commands of the client that read files alone."""

    def test_reels_compared_with_a_catalog(self) -> None:
        reels = dict(zip(("r1", "r2"), THREE_BLOCKS.reels()))
        with folders(**reels) as folder:
            folder.joinpath("catalog").write_bytes(THREE_LINES)
            words = (self.p.rdump, "ls", "--catalog", str(folder / "catalog"), str(folder / "st0"))
            well = self.p.run(words)
            equal = well.status, well.output.count(b": whole, sum equal\n")
            self.same("reels that are compared: with all memory", equal, (DONE, 2), well.shown())
            self.swept(Sweep("reels that are compared", 40, "nothing", lambda rules: self.p.run(words, rules), tells_memory, never))

    def dates(self, title: str, least: int, *asked: str) -> None:
        """A dumpdates file, by these words."""
        with tempfile.NamedTemporaryFile() as file:
            file.write(OLD_DATES)
            file.flush()
            words = (self.p.rdump, "dates", "--file", file.name, *asked)
            self.swept(Sweep(title, least, "nothing", lambda rules: self.p.run(words, rules), is_named, never))

    def test_dates(self) -> None:
        self.dates("dates", 76)

    def test_dates_with_a_name_and_a_level(self) -> None:
        self.dates("dates with a name and a level", 93, "--name", "/usr", "--level", "2")


VOLUME = Payload(3, (3,))
REEL = VOLUME.reels()[0]
LABEL = REEL[4:1028].rstrip(b"\0")
LINE = fetched(REEL).encode()


# What a command leaves: the reel, and the file that is written, if any.
Volume = tuple[bytes, bytes | None]
# A fetch leaves the reels of the stack and of the bin, and the files of its folder.
Fetched = tuple[dict[str, bytes], ...]


def over_a_volume(p: ShimmedPrograms, words: tuple[str, ...], rules: str) -> Ran[Volume]:
    """A command of the client at a reel with a volume. It leaves the reel, and the file that is written, if any."""
    with folders(r1=REEL) as folder, at_drive(folder, "--capacity", str(CAPACITY)) as address:
        out = folder / "out"
        filled = (it.format(out=out) for it in words)
        got = p.run((p.rdump, *filled, "--to", address, "--device", DEVICE), rules)
        return got.leaving((held(folder)[0]["r1"], out.read_bytes() if out.exists() else None))


def read_is_right(got: Ran[Volume], more: bool) -> bool:
    """It failed, which is told. What was read is a beginning of the volume, and the reel is as it was."""
    reel, out = got.left
    begun = LABEL.startswith(got.output) and VOLUME.data().startswith(out or b"")
    return got.status == ABNORMAL and got.told != b"" and begun and reel == REEL


def operation_is_right(got: Ran[Volume], more: bool) -> bool:
    """It failed, which is told, and its answer is not. The reel is as it was, or has the mark."""
    return got.status == ABNORMAL and got.told != b"" and got.output == b"" and got.left[0] in (REEL, images([None]))


def over_a_stack(p: ShimmedPrograms, rules: str) -> Ran[Fetched]:
    """A stack of one reel is fetched. It leaves the reels of the stack and of the bin, and the files of the folder."""
    with folders(r1=REEL) as folder, at_drive(folder, "--capacity", str(CAPACITY)) as address:
        into = folder / "into"
        into.mkdir()
        got = p.run((p.rdump, *fetch_words(address, into=str(into))), rules)
        return got.leaving(files_of(folder / "st0", folder / "bin", into))


def fetch_is_right(got: Ran[Fetched], more: bool) -> bool:
    """It failed, which is told. The reel is as it was, and is gone only if it has its copy. A part is a beginning of that."""
    stack, taken, files = got.left
    copy, part = files.get(copy_name(REEL)), files.get(part_name(REEL), b"")
    is_kept = copy == REEL if taken else copy in (None, REEL)
    is_told = got.told != b"" and LINE.startswith(got.output)
    return got.status == ABNORMAL and is_told and {**stack, **taken} == {"r1": REEL} and is_kept and REEL.startswith(part)


class Commands(RefusedCase):
    """A volume that is read back, a stack that is fetched, and operations, one of which writes. Memory that is refused for the talk with the server
    may end them as an answer that does not come does."""

    def commands(self, title: str, after: Callable[[Ran[Volume], bool], bool], *words: str) -> None:
        """A command at a reel with a volume."""

        def before(got: Ran[Volume]) -> bool:
            return is_named(got) and got.left == (REEL, None) or after(got, False)

        self.swept(Sweep(title, 95, "connect", lambda rules: over_a_volume(self.p, words, rules), before, after))

    def test_volume_that_is_read(self) -> None:
        self.commands("a volume that is read", read_is_right, "read", "--out", "{out}")

    def test_operation(self) -> None:
        self.commands("an operation", operation_is_right, "mt", "nop", "1")

    def test_marks(self) -> None:
        self.commands("marks", operation_is_right, "mt", "weof", "1")

    def test_stack_that_is_fetched(self) -> None:
        """Memory that is refused before the open that finds no more reels is told too, once the reel is fetched."""

        def before(got: Ran[Fetched]) -> bool:
            return is_named(got) and got.left == ({"r1": REEL}, {}, {}) or fetch_is_right(got, False)

        title = "a stack that is fetched"
        self.well(title, over_a_stack(self.p, ""), (DONE, LINE, ({}, {"r1": REEL}, copies(REEL))))
        came = self.swept(Sweep(title, 95, "connect", lambda rules: over_a_stack(self.p, rules), before, fetch_is_right))
        between = [it for it in came if (it.status, it.output) == (ABNORMAL, LINE)]
        self.holds(f"{title}: memory is refused between two reels", between, [it.shown() for it in came[-4:]])


# The simulator.

# The reply to the move of a reel is lost, and the volume is written once more.
LOST_REPLY = """drive /dev/st0 3100 r1 r2 r3
run /dev/st0 /usr 0 951782400 0 1024 3
connect
pump 1 9
send
to-server 1 all
serve 1
cut 1
end-client 1
end-server 1
retry
connect
pump 2 11
connect
pump 3 11
enter
"""
ENDED_ATTEMPT = "volume 1 failed: ConnectionEnded\n"
# Where all later requests are refused too, the line that goes on after such an attempt is named.
REFUSED_LINES = (
    "volume 1 failed: Refused 12\nline 4: out of memory\n",
    f"{ENDED_ATTEMPT}volume 1 failed: Refused 12\nline 13: out of memory\n",
    f"{ENDED_ATTEMPT}volume 2 failed: Refused 12\nline 15: out of memory\n",
)
# A request that is refused memory fails its attempt, and the line after that one finds the client asking.
REFUSED_REQUESTS = (
    "volume 1 failed: Refused 12\nline 5: not possible\n",
    f"{ENDED_ATTEMPT}volume 1 failed: Refused 12\nline 14: not possible\n",
    f"{ENDED_ATTEMPT}volume 2 failed: Refused 12\nline 16: not possible\n",
)


def schedule_is_right(got: Ran[object], more: bool) -> bool:
    """A line that is refused memory is named, and inside a request it is an answer, and no stop."""
    output = got.output.decode()
    named = re.fullmatch(rf"(?:{ENDED_ATTEMPT})?line (\d+): out of memory\n", output)
    if named:
        is_line = 1 <= int(named[1]) <= LOST_REPLY.count("\n")
        return got.status == ABNORMAL and is_line and (int(named[1]) > 9) == output.startswith(ENDED_ATTEMPT)
    # Where the line that names it is refused too there is nothing to print it with.
    if more and output in ("", ENDED_ATTEMPT):
        return got.status == FAILED
    if more and output in REFUSED_LINES:
        return got.status == ABNORMAL
    return got.status == FAILED and output in REFUSED_REQUESTS


class Simulator(RefusedCase):
    """A schedule of the simulator."""

    def test_schedule(self) -> None:
        with tempfile.NamedTemporaryFile("w") as file:
            file.write(LOST_REPLY)
            file.flush()
            go = lambda rules: self.p.run((self.p.rsim, file.name), rules)
            came = self.swept(Sweep("a schedule", 92, "read", go, is_silent, schedule_is_right))
        named = [int(it[1]) for it in (re.search(rb"line (\d+): out of memory", it.output) for it in came[::2]) if it]
        self.same("a schedule: later requests are of later lines", named, sorted(named))
        self.same("a schedule: nothing else is told", [it for it in came if b"Error" in it.told][:3], [])
