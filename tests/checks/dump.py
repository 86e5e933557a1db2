"""Checks the built programs over the loopback: `rmtd --listen`, and `rdump dump`, `read` and `mt` beside it.

Where more reels are wanted than the one of `rmtd`, or what a client sends is looked at, a plain model of a tape server takes its place. It also
notes whether a client sends a request before the reply to the one before. What `rdump` and `rmtd` tell on standard error is only looked at for
the words that name what is at fault.
"""

from __future__ import annotations

import os
import re
import socket
import subprocess
import sys
import threading
import time
from functools import partial
from pathlib import Path
from typing import Mapping, NamedTuple

from tests.lib.connections import NOWHERE, address_of
from tests.lib.drives import drive_words
from tests.lib.dumping import (
    BLOCKS,
    DAY,
    DAY_BEFORE,
    EMPTY_VOLUME,
    ENTRY,
    LABEL,
    ONE_VOLUME,
    PAYLOAD,
    TWO_VOLUMES,
    VERSION,
    DumpCase,
    label,
    lines_of,
    needs,
    requests_of,
    write_volume,
)
from tests.lib.ended import ABNORMAL, DONE, FAILED, Ended
from tests.lib.given import given
from tests.lib.listeners import Relay
from tests.lib.played_servers import Model, Reel
from tests.lib.processes import peak_of
from tests.lib.terminals import CLEAR, Terminal
from tests.lib.waiting import GUARD_SECONDS
from tests.lib.wire import DEVICE
from tests.models.rmtd import GREATEST_RECORD

OLDER = "/home" + 27 * " " + " 0 Mon Feb 28 00:00:00 2000\n"
READ = ("read", "--device", DEVICE, "--out", "read")

# The bytes of the greatest record that a server of before takes.
OLD_RECORD = 65_536
# The state of a socket that listens, in /proc/net/tcp.
LISTENS = 10
# The blocks of a payload that is dumped in large blocks to a terminal.
PIECE, PIECES = 65_536, 8
# Two lines of progress are so far apart at least, and a bit.
BETWEEN_SECONDS = 0.2


class Killer(Relay):
    """A relay that kills a server once it has passed on a MiB. Later connections go to another one, where `to` says so."""

    def __init__(self, address: str, process: subprocess.Popen[bytes]) -> None:
        super().__init__(lambda: address_of(self.to))
        self.to, self.process, self.passed = address, process, 0

    def to_server(self, piece: bytes, server: socket.socket) -> None:
        self.passed += len(piece)
        if self.passed >= 1 << 20:
            self.process.kill()
        super().to_server(piece, server)


class OldModel(Model):
    """A server of before, with the lesser limit."""

    def write(self, data: bytes) -> bytes:
        return super().write(data) if len(data) <= OLD_RECORD else b"E22\nInvalid argument\n"

    def read(self, count: int) -> bytes:
        return super().read(min(count, OLD_RECORD))


def two_reels() -> tuple[Reel, Reel]:
    """Reels for the two volumes of the payload."""
    return Reel("r1", 3100), Reel("r2", 3100)


def pieces(data: bytes, size: int) -> list[bytes]:
    """Data in pieces of a size, of which the last may have less."""
    return [data[at : at + size] for at in range(0, len(data), size)]


class Dumps(DumpCase):
    """Whole dumps, and what they leave on the reels."""

    def test_two_reels(self) -> None:
        self.p.file("payload", PAYLOAD)
        with Model(*two_reels()) as model:
            self.ends("two reels", self.p.dump(model.address), TWO_VOLUMES, DONE)
        self.same("two reels: what is sent", model.logs, [requests_of(1, 0, BLOCKS), requests_of(2, 2, BLOCKS[2:])])
        self.same("two reels: each request after a reply", model.ahead, False)
        held = [[label(1, 0), *BLOCKS[:2], None], [label(2, 2), BLOCKS[2], None]]
        self.same("two reels: the volumes", [it.entries for it in model.bin], held)
        self.same("two reels: dumpdates", self.p.text("dumpdates"), None)

    def test_payloads_of_several_sizes(self) -> None:
        for size in (0, 1, 1024, 10 << 20):
            self.p.file("payload", os.urandom(size))
            blocks = -(-size // 1024)
            capacity = (blocks + 1) * (1024 + 8) + 4
            with self.p.listening("--capacity", str(capacity), "--connections", "1") as (address, server):
                want = f"volume 1: {blocks} blocks from 0\ndump complete: 1 volumes, {blocks} blocks\n"
                self.ends(f"a payload of {size} bytes", self.p.dump(address), want, DONE, *(() if size else ("it is empty",)))
                self.same(f"a payload of {size} bytes: the server ends", server.wait(GUARD_SECONDS), DONE)

    def test_the_last_block_is_padded(self) -> None:
        self.p.file("payload", b"x")
        with Model(Reel("r1", 4096)) as model:
            self.p.dump(model.address)
        self.same("the last block is padded", model.bin[0].entries[1], b"x" + bytes(1023))

    def test_a_reel_that_is_laid_back(self) -> None:
        """The first of two reels is laid back on the stack, and read."""
        self.p.file("payload", PAYLOAD)
        stack, filled = self.p.folder / "back", self.p.folder / "back-bin" / "r1"
        for folder in (stack, filled.parent):
            folder.mkdir()
        for name in ("r1", "r2"):
            stack.joinpath(name).touch()
        words = ("--capacity", "3100", "--bin", str(filled.parent), f"{DEVICE}={stack}")
        with self.p.listening(*words) as (address, _):
            self.ends("two reels in a folder", self.p.dump(address), TWO_VOLUMES, DONE)
            sizes = [it.stat().st_size for it in sorted(filled.parent.iterdir())]
            self.same("two reels in a folder: their bytes", sizes, [3100, 2068])
            filled.rename(stack / "r1")
            self.ends("a reel that was laid back, read", self.p.run(*READ, "--to", address), LABEL, DONE, "2 blocks of 1024 bytes")
        self.same("a reel that was laid back: its 2,048 bytes", self.p.bytes_of("read"), PAYLOAD[:2048])


class GreatestBlocks(DumpCase):
    """Blocks of the greatest size."""

    def setUp(self) -> None:
        super().setUp()
        self.data = os.urandom(5 * GREATEST_RECORD - 1000)
        self.p.file("payload", self.data)

    def test_into_a_folder_and_back(self) -> None:
        for name in ("bin", "st0"):
            self.p.folder.joinpath(name).mkdir()
        reel = self.p.folder / "st0" / "r1"
        reel.touch()
        with self.p.listening("--capacity", str(2 << 20), "--bin", str(self.p.folder / "bin"), f"{DEVICE}={reel.parent}") as (address, _):
            want = "volume 1: 5 blocks from 0\ndump complete: 1 volumes, 5 blocks\n"
            self.ends("the greatest blocks", self.p.dump(address, block=str(GREATEST_RECORD)), want, DONE)
            self.p.folder.joinpath("bin", "r1").rename(reel)
            got = self.p.run(*READ, "--to", address)
            self.ends("the greatest blocks, read", got, LABEL, DONE, f"5 blocks of {GREATEST_RECORD} bytes")
        self.same("the greatest blocks, read: the bytes", self.p.bytes_of("read"), self.data + bytes(1000))

    def test_an_older_server(self) -> None:
        """A server that takes lesser blocks refuses greater ones, and gives back those that it took."""
        failed = "volume 1 failed: Refused 22\nretry?\ndump abandoned\n"
        with OldModel(Reel("r1", 1 << 20)) as model:
            for block in (GREATEST_RECORD, OLD_RECORD + 1):
                got = self.p.dump(model.address, block=str(block))
                self.ends(f"a block of {block} bytes to an older server", got, failed, ABNORMAL, "Refused 22")
                self.same(f"a block of {block} bytes to an older server: what is sent", model.logs[-1][:-1], requests_of(1, 0, [])[:5])
            self.p.file("payload", self.data[:GREATEST_RECORD])
            want = "volume 1: 4 blocks from 0\ndump complete: 1 volumes, 4 blocks\n"
            got = self.p.dump(model.address, block=str(OLD_RECORD))
            self.ends("lesser blocks to an older server", got, want, DONE, "this reel has: /usr level 0")
            model.stack.append(model.bin.pop())
            got = self.p.run(*READ, "--to", model.address)
            self.ends("lesser blocks at an older server, read", got, LABEL, DONE, f"4 blocks of {OLD_RECORD} bytes")
        self.same("lesser blocks at an older server, read: the bytes", self.p.bytes_of("read"), self.data[:GREATEST_RECORD])
        self.same("what a read asks for", model.logs[-1], [b"O/dev/st0\n0\n", b"I5\n1\n", *6 * [b"R262144\n"], b"C\n"])


class Payloads(DumpCase):
    """Payloads that become shorter or longer while they are dumped, large ones, and some that are no plain file."""

    failed = "volume 1 failed: SourceFault\nretry?\n"
    unread = "rdump: payload: a block could not be read: "

    def setUp(self) -> None:
        super().setUp()
        self.payload = self.p.folder / self.p.file("payload", PAYLOAD)

    def test_changed_while_it_is_dumped(self) -> None:
        grew = f"rdump: payload: it changed while it was dumped: it had {len(PAYLOAD)} bytes, and has 9999"
        for title, length, output, status, tells in (
            ("a payload cut short", 2047, self.failed + "dump abandoned\n", ABNORMAL, self.unread),
            ("a payload cut to a block", 1024, self.failed + "dump abandoned\n", ABNORMAL, self.unread),
            ("a payload that grows", 9999, ONE_VOLUME, DONE, grew),
        ):
            self.p.file("payload", PAYLOAD)
            # The sixth request is the first block.
            with Model(Reel("r1", 4200), acts={6: partial(os.truncate, self.payload, length)}) as model:
                self.ends(title, self.p.dump(model.address), output, status, tells)
            sent = [it for it in model.logs[0] if it.startswith(b"W")][1:]
            self.same(f"{title}: the blocks", sent, [b"W1024\n" + it for it in (BLOCKS if status == DONE else BLOCKS[:1])])

    def test_there_again(self) -> None:
        acts = {6: lambda: os.truncate(self.payload, 1024), 7: lambda: self.p.file("payload", PAYLOAD)}
        with Model(Reel("r1", 4200), acts=acts) as model:
            got = self.p.dump(model.address, said="yes\n")
        self.ends("a payload that is there again", got, self.failed + ONE_VOLUME, DONE, self.unread)
        self.same("a payload that is there again: the volume", model.bin[0].entries, [label(1, 0), *BLOCKS, None])

    def test_a_pipe(self) -> None:
        with Model(Reel("r1", 4200)) as model:
            got = self.p.dump(model.address, payload="/dev/stdin", said="x" * 2049)
        self.ends("a pipe", got, ONE_VOLUME, DONE)
        padded = b"x" + bytes(1023)
        self.same("a pipe: the volume", model.bin[0].entries, [label(1, 0), b"x" * 1024, b"x" * 1024, padded, None])

    def test_a_plain_file_without_a_length(self) -> None:
        self.fails("a plain file without a length", self.p.dump(NOWHERE, payload="/proc/version"), "/proc/version", "length")

    def test_a_plain_file_is_not_kept_in_memory(self) -> None:
        small, large = self.peak(65536), self.peak(64 << 20)
        self.holds("a dump of 64 MiB takes no more memory", 0 < large < small + 4096, small, large)

    def peak(self, size: int) -> int:
        """The greatest resident memory of a dump of so many bytes, before the last request is answered."""
        self.p.file("payload", bytes(size))
        blocks = -(-size // 65536)
        seen: list[int] = []
        there = threading.Event()

        def look() -> None:
            there.wait(GUARD_SECONDS)
            seen.append(peak_of(client.pid))

        # An open, a rewind, a look, a rewind, the label and the blocks are followed by the mark, the move to the bin and the close.
        with Model(Reel("r1", size + 8 * blocks + 65536), acts={blocks + 8: look}) as model:
            words = self.p.dump_words(model.address, block="65536", dumpdates="none", date=None)
            with self.p.started(*words, stdin=subprocess.DEVNULL) as client:
                there.set()
                printed = client.communicate(timeout=GUARD_SECONDS)[0].decode()
        wanted = f"volume 1: {blocks} blocks from 0\ndump complete: 1 volumes, {blocks} blocks\n"
        self.same(f"a payload of {size} bytes in large blocks", (printed, client.returncode), (wanted, DONE))
        return seen[0] if seen else 0


def shown_pattern(address: str, on_both: bool) -> str:
    """What a terminal shows of a dump of two volumes, as a pattern; with what is printed if both outputs go there."""
    lines = [CLEAR + it if on_both else CLEAR for it in TWO_VOLUMES.replace("\n", "\r\n").splitlines(keepends=True)]
    later = r"(\rvolume [12], block [123] of 3, \d+ [KM]iB/s\x1b\[K)*"
    since = "since the epoch: every block counts as new\r\n"
    return (
        re.escape(f"{since}\rvolume 1, block 1 of 3, 0 KiB/s\x1b[K")
        + later
        + later.join(re.escape(it) for it in lines)
        + re.escape(needs(address, len(PAYLOAD), 3).replace("\n", "\r\n"))
    )


class Progress(DumpCase):
    """What is shown of a dump on standard error, where that is a terminal."""

    def test_at_a_terminal(self) -> None:
        self.p.file("payload", PAYLOAD)
        for title, on_both in (("a terminal", False), ("one terminal for both outputs", True)):
            with Model(*two_reels()) as model, Terminal() as terminal:
                got = self.p.dump(model.address, stdout=terminal.far if on_both else subprocess.PIPE, stderr=terminal.far)
                shown = terminal.shown()
            self.same(f"{title}: the dump", (got.output, got.status), ("" if on_both else TWO_VOLUMES, DONE), got.told)
            wanted = shown_pattern(model.address, on_both)
            self.holds(f"{title}: what it shows", re.fullmatch(wanted, shown), shown, wanted)

    def test_no_terminal(self) -> None:
        self.p.file("payload", PAYLOAD)
        with Model(*two_reels()) as model:
            self.ends("no terminal, nothing shown", self.p.dump(model.address), TWO_VOLUMES, DONE)

    def test_a_second_attempt(self) -> None:
        """What is shown of it begins with no bytes a second, however many the first one read."""
        self.p.file("payload", bytes(PIECE * PIECES))
        with Model(Reel("r1", 1 << 20), lost=(len(requests_of(1, 0, [])),)) as model, Terminal() as terminal:
            with self.p.started(*self.p.dump_words(model.address, block=str(PIECE)), stderr=terminal.far) as run:
                asked = lines_of(run, 2)
                # A line is shown only where the one before is so old.
                time.sleep(BETWEEN_SECONDS)
                output, _ = run.communicate(b"yes\n")
            shown = terminal.shown()
        self.same("a second attempt: the question", asked, "volume 1 failed: ConnectionEnded\nretry?\n")
        self.same("a second attempt: the dump", (run.returncode, output[:11]), (DONE, b"volume 1: 8"), output)
        first, is_lost, second = shown.partition("the connection ended")
        rates = [re.findall(r"\rvolume 1, block (\d+) of 8, (\d+) ([KM]iB)/s", it) for it in (first, second)]
        wanted = ("the connection ended", [[("1", "0", "KiB")]] * 2)
        self.same("each attempt begins with no bytes a second", (is_lost, [it[:1] for it in rates]), wanted, shown)


class Dates(DumpCase):
    """The base date, and what becomes of dumpdates."""

    def setUp(self) -> None:
        super().setUp()
        self.p.file("payload", b"")
        self.model = self.enterContext(Model(Reel("r1", 4096), Reel("r2", 4096)))

    def first_record(self) -> bytes:
        """The label of the last volume."""
        return given(self.model.bin[-1].entries[0])

    def test_a_level_1(self) -> None:
        self.p.file("dumpdates", b"/usr 0 Mon Feb 28 00:00:00 2000\n")
        self.ends("a level 1", self.p.dump(self.model.address, level="1"), EMPTY_VOLUME, DONE, "it is empty")
        dates = b"level 1\ndate %d\nsince %d\n" % (DAY, DAY_BEFORE)
        self.holds("since is the base date", dates in self.first_record(), dates, self.first_record())
        self.same("no update, no change", self.p.text("dumpdates"), "/usr 0 Mon Feb 28 00:00:00 2000\n")

    def test_an_update(self) -> None:
        self.p.file("dumpdates", OLDER.encode())
        self.ends("an update", self.p.dump(self.model.address, "--update"), EMPTY_VOLUME, DONE, "it is empty")
        self.same("an update: the entry", self.p.text("dumpdates"), OLDER + ENTRY)
        self.same("an update: no other file", self.p.text("dumpdates.new"), None)

    def test_an_update_of_no_file(self) -> None:
        self.ends("an update of no file", self.p.dump(self.model.address, "--update"), EMPTY_VOLUME, DONE, "it is empty")
        self.same("an update of no file: the entry", self.p.text("dumpdates"), ENTRY)

    def test_an_update_that_fails(self) -> None:
        self.p.file("dumpdates", ENTRY.encode())
        self.p.folder.joinpath("dumpdates.new").mkdir()
        got = self.p.dump(self.model.address, "--update", date=str(DAY_BEFORE))
        self.ends("an update that fails", got, EMPTY_VOLUME + "dumpdates not updated\n", ABNORMAL, "dumpdates")
        self.same("an update that fails: unchanged", self.p.text("dumpdates"), ENTRY)

    def test_an_update_in_no_folder(self) -> None:
        got = self.p.dump(self.model.address, "--update", dumpdates="nowhere/dumpdates")
        self.ends("an update in no folder", got, EMPTY_VOLUME + "dumpdates not updated\n", ABNORMAL, "nowhere/dumpdates")

    def test_the_date_of_the_clock(self) -> None:
        before = int(time.time())
        self.ends("the clock's date", self.p.dump(self.model.address, date=None), EMPTY_VOLUME, DONE, "it is empty")
        date = int(given(re.search(rb"date (\d+)", self.first_record()))[1])
        self.holds("the clock's date: now", before <= date <= time.time(), before, date)

    def test_nothing_can_be_printed(self) -> None:
        self.p.file("dumpdates", ENTRY.encode())
        with open("/dev/full", "wb") as full:
            got = self.p.dump(self.model.address, "--update", stdout=full.fileno(), date=str(DAY_BEFORE))
        self.same("nothing can be printed", (got.status, self.p.text("dumpdates")), (ABNORMAL, ENTRY), got)

    def test_a_line_that_cannot_be_printed(self) -> None:
        self.p.file("payload", PAYLOAD)
        with open("/dev/full", "wb") as full, Model(*two_reels()) as model:
            got = self.p.dump(model.address, stdout=full.fileno())
        wanted = (ABNORMAL, [requests_of(1, 0, BLOCKS)])
        self.same("a line that can't be printed: no volume after it", (got.status, model.logs), wanted, got)


class Failure(NamedTuple):
    """An attempt that fails: by replies that are lost or other ones, what is printed of it, and what is told."""

    title: str
    fault: str
    tells: tuple[str, ...]
    lost: tuple[int, ...] = ()
    said: Mapping[int, bytes] = {}


BOTCHED = ("no reply by the protocol",)
FAILURES = (
    Failure("a lost reply to the move", "ConnectionEnded", ("ended",), lost=(10,)),
    Failure("a wrong number", "ShortWrite", ("this reel has: /usr level 0",), said={5: b"A1023\n"}),
    Failure("no reply by the grammar", "Botched", BOTCHED, said={2: b"X\n"}),
    Failure("more than a label", "Botched", BOTCHED, said={3: b"A1025\n" + bytes(1025)}),
    Failure("an error to the look", "Refused 12", ("Refused 12",), said={3: b"E12\nmemory\n"}),
    Failure("an error", "Refused 5", ("Refused 5", "the server's log has the reason"), said={2: b"E5\nbroken\n"}),
)


class Retries(DumpCase):
    """What is asked after an attempt that failed, what the operator answers, and when lines are printed."""

    def test_a_line_at_once(self) -> None:
        """The line of a volume is there before the next one's first request is answered: that waits until the line was read."""
        self.p.file("payload", PAYLOAD)
        read = threading.Event()
        late: list[bool] = []
        acts = {len(requests_of(1, 0, BLOCKS)) + 1: lambda: late.append(not read.wait(GUARD_SECONDS / 2))}
        with Model(*two_reels(), acts=acts) as model, self.p.started(*self.p.dump_words(model.address), stdin=subprocess.DEVNULL) as client:
            first = lines_of(client, 1)
            read.set()
            rest, _ = client.communicate(timeout=GUARD_SECONDS)
        self.same("a line at once", (first + rest.decode(), client.returncode, late), (TWO_VOLUMES, DONE, [False]), first)

    def test_answers(self) -> None:
        self.p.file("payload", PAYLOAD)
        self.p.file("dumpdates", OLDER.encode())
        first = "volume 1: 2 blocks from 0\nvolume 2 failed: Refused 6\nretry?\n"
        again = "volume 2 failed: Refused 6\nretry?\n"
        for title, said, want in (
            ("no", "no\n", first),
            ("the end", "", first),
            ("a word that begins with yes", "yes!\n", first),
            ("yes, then no", "yes\nno\n", first + again),
            ("yes without a line feed", "yes", first + again),
        ):
            with self.p.listening("--capacity", "3100") as (address, _):
                got = self.p.dump(address, "--update", said=said)
            self.ends(f"answered by {title}", got, want + "dump abandoned\n", ABNORMAL, "Refused 6")
        self.same("no dump is entered", self.p.text("dumpdates"), OLDER)

    def test_attempts_that_fail(self) -> None:
        self.p.file("payload", PAYLOAD)
        for it in FAILURES:
            # The reel of an attempt is moved if the reply to the move alone is lost; else the next attempt has to write on it again.
            reels = (*two_reels(), Reel("r3", 3100)) if it.lost else two_reels()
            with Model(*reels, lost=it.lost, said=it.said) as model:
                got = self.p.dump(model.address, said="yes\n")
            self.ends(it.title, got, f"volume 1 failed: {it.fault}\nretry?\n{TWO_VOLUMES}", DONE, *it.tells)
            self.same(f"{it.title}: the volumes", [len(reel.entries) for reel in model.bin[-2:]], [4, 3])

    def test_a_server_that_is_killed(self) -> None:
        """A server that is killed in mid volume, and started again."""
        self.p.file("payload", bytes(8 << 20))
        with self.p.listening("--capacity", str(16 << 20)) as (address, server):
            with Killer(address, server) as relay:
                with self.p.started(*self.p.dump_words(relay.address, block="65536")) as client:
                    self.same("killed: asked", lines_of(client, 2), "volume 1 failed: ConnectionEnded\nretry?\n")
                    with self.p.listening("--capacity", str(16 << 20)) as (again, _):
                        relay.to = again
                        rest, told = client.communicate(b"yes\n", timeout=GUARD_SECONDS)
        want = "volume 1: 128 blocks from 0\ndump complete: 1 volumes, 128 blocks\n"
        self.same("killed: complete", (rest.decode(), client.returncode, relay.address in told.decode()), (want, DONE, True), told)


class Startup(DumpCase):
    """What keeps a dump from starting, in this order: words, payload, dumpdates, the values of the run."""

    def setUp(self) -> None:
        super().setUp()
        self.p.file("payload", PAYLOAD)
        self.p.file("dumpdates", OLDER.encode())
        self.p.file("bad", b"\n\nfoo\n")

    def tearDown(self) -> None:
        self.same("nothing is entered", self.p.text("dumpdates"), OLDER)

    def dump(self, *more: str, **changed: str | None) -> Ended[str]:
        """A dump to no server with the usual words, of which these are changed."""
        return self.p.run(*self.p.dump_words(NOWHERE, *more, **changed))

    def test_words_that_are_missing(self) -> None:
        for name in ("to", "device", "fs", "level", "payload", "block", "dumpdates"):
            self.fails(f"no --{name}", self.dump(**{"payload": "missing", name: None}), f"--{name}")

    def test_values_that_are_none(self) -> None:
        for name, value in (("level", "x"), ("level", ""), ("block", "-1"), ("date", "1.5"), ("block", "99999999999999999999")):
            self.fails(f"--{name} {value}", self.dump(**{name: value, "payload": "missing"}), name)

    def test_words_too_many(self) -> None:
        self.fails("a word too many", self.dump("more", payload="missing"), "more")
        self.fails("an unknown word", self.dump("--more", payload="missing"), "--more")

    def test_files(self) -> None:
        self.fails("no payload", self.dump(payload="missing", dumpdates="bad", level="10"), "missing")
        self.fails("a payload that is a folder", self.dump(payload="."), ".")
        self.ends("a bad dumpdates file", self.dump(dumpdates="bad", level="10"), "line 3: bad line\n", FAILED, "bad")
        self.fails("a dumpdates file that is a folder", self.dump(dumpdates=".", level="10"), ".")

    def test_limits(self) -> None:
        for name, value, fault in (
            ("device", "", "device"),
            ("device", "x" * 256, "device"),
            ("device", "a\nb", "device"),
            ("fs", "", "name"),
            ("fs", "a b", "name"),
            ("fs", "é", "name"),
            ("level", "10", "level"),
            ("date", "253402300800", "date"),
            ("block", "0", "block"),
            ("block", str(GREATEST_RECORD + 1), "block"),
        ):
            self.fails(f"--{name} {value[:9]!r}", self.dump(**{name: value}), fault)
        self.fails("the first limit that is broken", self.dump(device="", fs="", level="10", date="253402300800", block="0"), "device")

    def test_no_server(self) -> None:
        lost = "volume 1 failed: ConnectionEnded\nretry?\ndump abandoned\n"
        self.ends("no server", self.p.dump(NOWHERE), lost, ABNORMAL, NOWHERE)
        self.ends("no such host", self.p.dump("no.such.host.invalid:1"), lost, ABNORMAL, "no.such.host.invalid:1")


# The words that the help of each program names.
HELPS = {
    "rmtd": ("Usage: rmtd [OPTIONS] [DEVICE=DIR]...", "--stdio", "--listen <ADDRESS>", "--capacity <BYTES>", "--connections <N>", "--bin <DIR>"),
    "rdump": ("Usage: rdump <COMMAND>", "dump", "read", "fetch", "ls", "mt", "dates"),
}


def unnamed(words: tuple[str, ...], text: str) -> list[str]:
    """Those of these words that a text does not have."""
    return [it for it in words if not re.search(rf"(^|\s){re.escape(it)}($|\s)", text)]


def listeners(process: int) -> list[str]:
    """Where the sockets of a process listen, as the system tells it; of those that do not, `nowhere`."""
    rows: dict[str, str] = {}
    for line in Path(f"/proc/{process}/net/tcp").read_text().splitlines()[1:]:
        _, local, _, state, *more = line.split()
        host, port = local.split(":")
        at = f"{socket.inet_ntoa(int(host, 16).to_bytes(4, sys.byteorder))}:{int(port, 16)}"
        rows[f"socket:[{more[5]}]"] = at if int(state, 16) == LISTENS else "nowhere"
    files = [os.readlink(it) for it in Path(f"/proc/{process}/fd").iterdir()]
    return [rows.get(it, "nowhere") for it in files if it.startswith("socket:")]


class Servers(DumpCase):
    """What keeps a server from starting, where it listens, and when it ends."""

    def nop(self, address: str) -> Ended[str]:
        return self.p.run("mt", "--to", address, "--device", DEVICE, "nop", "1")

    def test_a_port_that_is_taken(self) -> None:
        with socket.create_server(("127.0.0.1", 0)) as taken:
            address = "127.0.0.1:%d" % taken.getsockname()[1]
            self.fails("a port that is taken", self.p.run("--listen", address, program=self.p.rmtd), address)

    def test_wrong_words(self) -> None:
        for words, fault in (
            ((), "--stdio"),
            (("--stdio", "--listen", "127.0.0.1:0"), "--stdio"),
            (("--listen",), "--listen"),
            (("--listen", "127.0.0.1:0", "--connections", "x"), "--connections"),
            (("--listen", "127.0.0.1:0", "--capacity", "9223372036854775808"), "--capacity"),
            (("--stdio", "/dev/st0=folder"), "/dev/st0=folder"),
            (("--stdio", "--bin", "bin", *(f"/dev/st{n}=st{n}" for n in range(65))), "'/dev/st64=st64'"),
            (("--stdio", "--bin", "bin", "/dev/st0=st0", "st1"), "'st1'"),
            (("--stdio", "--bin", "bin", "/dev/st0=st0", "/dev/st1=st1", "/dev/st0=other"), "'/dev/st0=other'"),
        ):
            self.fails(f"rmtd {' '.join(words)[:80]}", self.p.run(*words, program=self.p.rmtd), fault)
        self.fails("no address", self.p.run("--listen", "nowhere", program=self.p.rmtd), "nowhere")

    def test_standard_output_takes_no_line(self) -> None:
        with open("/dev/full", "wb") as full:
            got = self.p.run("--listen", "127.0.0.1:0", program=self.p.rmtd, stdout=full.fileno())
        self.fails("standard output takes no line", got, "rmtd: 127.0.0.1:0: No space left on device")

    def test_a_number_of_connections(self) -> None:
        """A server ends after so many connections, at once after none."""
        got = self.p.run("--listen", "127.0.0.1:0", "--connections", "0", program=self.p.rmtd)
        self.ends("no connections", got._replace(output=""), "", DONE, "in memory")
        with self.p.listening("--connections", "2") as (address, server):
            for name in ("the first connection", "the second connection"):
                self.ends(name, self.nop(address), "A1\n", DONE)
            self.same("it ends after two", server.wait(GUARD_SECONDS), DONE)

    def test_help_and_version(self) -> None:
        """The help has the words, and the version the version. Both go to standard output alone."""
        for name, program in (("rmtd", self.p.rmtd), ("rdump", self.p.rdump)):
            for word in ("--version", "-V"):
                self.ends(f"{name} {word}", self.p.run(word, program=program), f"{name} {VERSION}\n", DONE)
            for word in ("--help", "-h"):
                got = self.p.run(word, program=program)
                came = (got.status, unnamed(HELPS[name], got.output), VERSION in got.output, got.told)
                self.same(f"{name} {word}", came, (DONE, [], False, ""), got.output)

    def test_where_it_listens(self) -> None:
        """A server has one socket, and that listens at the address of its words, which it prints, and at no other of the machine."""
        for folder in ("st0", "bin"):
            self.p.folder.joinpath(folder).mkdir()
        for title, words in (("in memory", ()), ("in a folder", drive_words(self.p.folder))):
            for host in ("127.0.0.1", "127.0.0.2", "0.0.0.0"):
                with self.p.listening(*words, at=f"{host}:0") as (address, server):
                    self.same(f"at a drive {title}, at {host}: what is printed", address.rsplit(":", 1)[0], host)
                    self.same(f"at a drive {title}, at {host}: where it listens", listeners(server.pid), [address])

    def test_connections_that_are_cut(self) -> None:
        """A drive is free again after a connection that is cut anywhere."""
        text = b"O/dev/st0\n2\nW5\nhelloI5\n1\n"
        with self.p.listening() as (address, _):
            host, port = address.rsplit(":", 1)
            for length in range(len(text) + 1):
                with socket.create_connection((host, int(port))) as stream:
                    stream.sendall(text[:length])
            self.ends("after connections that were cut", self.nop(address), "A1\n", DONE)


ERROR = ("E5 Input/output error\n", ABNORMAL)
# Operations on a new reel of their own, one after the other: the words, what is printed, and the status.
OPERATIONS = (
    (("weof 1", "A1\n", DONE), ("fsf 1", "A1\n", DONE), ("fsf 2", *ERROR)),
    (("fsr 1", *ERROR), ("bsr 1", *ERROR), ("bsf 1", *ERROR)),
    (("rewind 7", "A7\n", DONE), ("nop 0", "A0\n", DONE), ("weof 2147483647", "E28 No space left on device\n", ABNORMAL)),
    (("offline 1", "A1\n", DONE), ("nop 1", "E6 Device not configured\n", ABNORMAL)),
)


class Operations(DumpCase):
    """What `rdump mt` prints."""

    def mt(self, address: str, *words: str, device: str = DEVICE) -> Ended[str]:
        return self.p.run("mt", "--to", address, "--device", device, *words)

    def test_each(self) -> None:
        for rows in OPERATIONS:
            with self.p.listening() as (address, _):
                for words, output, status in rows:
                    faults = (f"refused with {output.split()[0]}: ",) if output.startswith("E") else ()
                    self.ends(f"mt {words}", self.mt(address, *words.split()), output, status, *faults)

    def test_wrong_words(self) -> None:
        with self.p.listening() as (address, _):
            got = self.mt(address, "nop", "1", device="/dev/st9")
            self.ends("mt on another drive", got, "E2 No such file or directory\n", ABNORMAL, "open refused with E2: ")
            self.fails("mt of no operation", self.mt(address, "eject", "1"), "OP")
            self.fails("mt of no count", self.mt(address, "nop"), "COUNT")
            self.fails("mt of a bad count", self.mt(address, "nop", "2147483648"), "count")

    def test_no_server(self) -> None:
        self.ends("mt at no server", self.mt(NOWHERE, "nop", "1"), "", ABNORMAL, NOWHERE)


class Reads(DumpCase):
    """Volumes that are read back."""

    def complains(self, name: str, got: Ended[str]) -> None:
        """Nothing is printed, and something is told."""
        self.same(name, (got.output, got.status, bool(got.told)), ("", ABNORMAL, True), got.told)

    def test_volumes(self) -> None:
        random = os.urandom(10 << 20)
        volumes: dict[str, list[bytes]] = {
            "three blocks": BLOCKS,
            "none": [],
            "records of one byte": [b"x"] * 1000,
            "10 MiB": pieces(random, 65536),
            "10 MiB in the greatest records": pieces(random, GREATEST_RECORD),
        }
        for title, records in volumes.items():
            with self.p.listening("--capacity", str(16 << 20)) as (address, _):
                write_volume(address, [label(1, 0), *records, None])
                for turn in ("first", "second"):
                    got = self.p.run(*READ, "--to", address)
                    self.ends(f"a volume of {title}, read the {turn} time", got, LABEL, DONE, f"{len(records)} blocks")
                    self.same(f"a volume of {title}: the bytes", self.p.bytes_of("read"), b"".join(records))

    def test_what_cannot_be_read(self) -> None:
        with self.p.listening() as (address, _):
            words = ("read", "--to", address, "--device")
            self.complains("a read of another drive", self.p.run(*words, "/dev/st9", "--out", "read"))
            got = self.p.run(*words, DEVICE, "--out", "nowhere/read")
            self.fails("a read into a folder that is not there", got, "nowhere/read")
            write_volume(address, [label(1, 0), *BLOCKS, None])
            got = self.p.run(*words, DEVICE, "--out", "/dev/full")
            self.same("a read into a full file", (got.status, bool(got.told)), (ABNORMAL, True), got)
        self.complains("a read at no server", self.p.run(*READ, "--to", NOWHERE))
