"""Checks from outside what the built `rdump dump --checkpoint FILE` keeps, and how the same words go on after the client was stopped.

The tape server is a plain model. What a file spells, and which line of it is at fault, is what the model of a checkpoint file reads, which is
itself checked by examples that were worked out by hand. A full disk takes root, who may mount a small one; the order of the system's calls takes
strace. What is not to be had is named as skipped.
"""

from __future__ import annotations

import fcntl
import os
import random
import re
import resource
import signal
import subprocess
import time
from functools import partial
from pathlib import Path
from typing import Callable, Iterator, NamedTuple

from tests.lib.case import Case, random_seed
from tests.lib.checkpoints import (
    ALL_REQUESTS,
    ATTEMPTS,
    BOTH,
    FILE,
    FIRST_REQUESTS,
    KEPT,
    ONE,
    RUN,
    SECOND,
    acted_on,
    fill,
    going_on,
    kept,
    small_disk,
    start,
    started,
    stopped_at,
    two,
)
from tests.lib.connections import NOWHERE
from tests.lib.dumping import DAY, DAY_BEFORE, ENTRY, PAYLOAD, TWO_VOLUMES, DumpCase, Programs, end_of, lines_of
from tests.lib.ended import ABNORMAL, DONE, FAILED, Ended
from tests.lib.played_servers import Model, Reel
from tests.lib.terminals import Terminal
from tests.lib.traced import CALLS, in_order, made_in, traced
from tests.lib.waiting import soon
from tests.models.checkpoint import BAD, UNORDERED, Checkpoint, Fault, decoded, is_same_dump, text_of
from tests.models.world import Run, Volume

NONE: tuple[Volume, ...] = ()
LINES = TWO_VOLUMES.splitlines(keepends=True)
REST = "".join(LINES[1:])

NOT_WRITTEN = "checkpoint not written\n"
OF_ANOTHER = "checkpoint is of another dump\n"
NO_PLAIN_NEW = f"rdump: {FILE}: its .new is no plain file\n"
TAKEN = f"rdump: {FILE}: another run has it\n"
# The lock, which is there while a dump runs, and stays if that is killed. A text that was being written may stay then too.
LOCK, TEXT = f"{FILE}.new", f"{FILE}.new.1"

# A lock that is held is told at once, and not waited for as that of dumpdates is.
AT_ONCE_SECONDS = 8
# So many dumps are started together, so often.
TOGETHER, ROUNDS = 6, 8
CHANGED_TEXTS = 250
MANY = 20_000


# The model.


ROW = b"rdump 1\ndevice /dev/st0\nfs /usr\nlevel 0\ndate 951782400\nsince 0\nblock 1024\nblocks 3\ncounted 1 0 2\n"
ROW_RUN = Run(b"/dev/st0", b"/usr", 0, 951_782_400, 0, 1_024, 3)
HEAD_TEXT = ROW[: ROW.index(b"counted")]
NO_BLOCKS = HEAD_TEXT.replace(b"blocks 3", b"blocks 0")
LONG = b"x" * 255

# Texts, and how many volumes and blocks are counted in them.
SPELLED = (
    (ROW, (1, 2)),
    (HEAD_TEXT, (0, 0)),
    (ROW + b"counted 2 2 1\n", (2, 3)),
    (NO_BLOCKS, (0, 0)),
    (NO_BLOCKS + b"counted 1 0 0\n", (1, 0)),
    (ROW.replace(b"/dev/st0", b"\0 \xff\r"), (1, 2)),
    (ROW.replace(b"/dev/st0", LONG), (1, 2)),
    (ROW.replace(b"/usr", b"!" * 255).replace(b"since 0", b"since 253402300799").replace(b"block 1024", b"block 262144"), (1, 2)),
    (HEAD_TEXT.replace(b"blocks 3", b"blocks 2147483647") + b"counted 1 0 2147483647\n", (1, 2_147_483_647)),
)
# Texts, and the line and kind of their faults.
AT_FAULT = (
    # The first line that is bad or missing.
    (b"", (1, BAD)),
    (b"\n", (1, BAD)),
    (b"rdump 1", (1, BAD)),
    (b"rdump 1\n", (2, BAD)),
    (b"rdump 2\n", (1, BAD)),
    (b"rdump 01\n", (1, BAD)),
    (b"\n" + ROW, (1, BAD)),
    (b"rdump 1\r\n" + ROW[8:], (1, BAD)),
    (b"rdump 1 \n" + ROW[8:], (1, BAD)),
    (ROW.replace(b"/dev/st0", b""), (2, BAD)),
    (ROW.replace(b"/dev/st0", LONG + b"x"), (2, BAD)),
    (ROW.replace(b"device /dev/st0\n", b""), (2, BAD)),
    (ROW.replace(b"device", b"Device"), (2, BAD)),
    (ROW.replace(b"/usr", b""), (3, BAD)),
    (ROW.replace(b"/usr", b"/u r"), (3, BAD)),
    (ROW.replace(b"/usr", b"\x7f"), (3, BAD)),
    (ROW.replace(b"/usr", b"x" * 256), (3, BAD)),
    (ROW.replace(b"level 0", b"level 10"), (4, BAD)),
    (ROW.replace(b"level 0", b"level 00"), (4, BAD)),
    (ROW.replace(b"level 0", b"level"), (4, BAD)),
    (ROW.replace(b"level 0", b"level "), (4, BAD)),
    (ROW.replace(b"level 0", b"level  0"), (4, BAD)),
    (ROW.replace(b"level 0", b"level 0 "), (4, BAD)),
    (ROW.replace(b"date 9", b"date +9"), (5, BAD)),
    (ROW.replace(b"date 9", b"date 09"), (5, BAD)),
    (ROW.replace(b"date 951782400", b"date 253402300800"), (5, BAD)),
    (ROW.replace(b"since 0", b"since -1"), (6, BAD)),
    (ROW.replace(b"since 0", b"since 18446744073709551616"), (6, BAD)),
    (ROW.replace(b"since 0", b"since " + b"9" * 5_000), (6, BAD)),
    (ROW.replace(b"block 1024", b"block 0"), (7, BAD)),
    (ROW.replace(b"block 1024", b"block 262145"), (7, BAD)),
    (ROW.replace(b"blocks 3", b"blocks 2147483648"), (8, BAD)),
    (HEAD_TEXT[:-1], (8, BAD)),
    (HEAD_TEXT + b"\n", (9, BAD)),
    (ROW[:-1], (9, BAD)),
    (ROW + b"\n", (10, BAD)),
    (ROW + b"counted 2 2 1", (10, BAD)),
    (ROW.replace(b"counted 1", b"counted 01"), (9, BAD)),
    (ROW.replace(b" 0 2\n", b" 0\n"), (9, BAD)),
    (ROW.replace(b" 0 2\n", b" 0 2 1\n"), (9, BAD)),
    (ROW.replace(b" 0 2\n", b" 0 2147483648\n"), (9, BAD)),
    (ROW.replace(b" 0 2\n", b"  0 2\n"), (9, BAD)),
    (ROW.replace(b"counted", b"Counted"), (9, BAD)),
    # A bad line after a count that is not in order, and before one.
    (HEAD_TEXT + b"counted 2 0 1\ncounted\n", (10, BAD)),
    (ROW.replace(b"level 0", b"level x") + b"counted 9 9 9\n", (4, BAD)),
    # Counts that cannot come after those before them.
    (HEAD_TEXT + b"counted 2 0 2\n", (9, UNORDERED)),
    (HEAD_TEXT + b"counted 0 0 2\n", (9, UNORDERED)),
    (HEAD_TEXT + b"counted 1 1 2\n", (9, UNORDERED)),
    (HEAD_TEXT + b"counted 1 0 4\n", (9, UNORDERED)),
    (HEAD_TEXT + b"counted 1 0 2147483647\n", (9, UNORDERED)),
    (HEAD_TEXT + b"counted 1 0 0\n", (9, UNORDERED)),
    (ROW + b"counted 1 0 2\n", (10, UNORDERED)),
    (ROW + b"counted 2 1 1\n", (10, UNORDERED)),
    (ROW + b"counted 2 2 2\n", (10, UNORDERED)),
    (ROW + b"counted 2 2 0\n", (10, UNORDERED)),
    (ROW + b"counted 2 2 1\ncounted 3 3 0\n", (11, UNORDERED)),
    (ROW + b"counted 3 2 1\ncounted 2 2 1\n", (10, UNORDERED)),
    (NO_BLOCKS + b"counted 1 0 1\n", (9, UNORDERED)),
    (NO_BLOCKS + b"counted 1 0 0\ncounted 2 0 0\n", (10, UNORDERED)),
)


class Examples(Case):
    """Each example is read as was worked out, and what is spelled is written as the same text."""

    def test_the_row(self) -> None:
        self.same("the text of the row is written", text_of(ROW_RUN, (Volume(1, 0, 2),)), ROW)
        self.same("the row is read", decoded(ROW), Checkpoint(ROW_RUN, (Volume(1, 0, 2),)))

    def test_texts_that_are_spelled(self) -> None:
        for text, wanted in SPELLED:
            found = decoded(text)
            counted = (len(found.counts), found.next_block()) if isinstance(found, Checkpoint) else found
            self.same(f"an example: {text[-60:]!r}", counted, wanted)
            again = text_of(*found) if isinstance(found, Checkpoint) else found
            self.same(f"an example that is written again: {text[-60:]!r}", again, text)

    def test_faults(self) -> None:
        for text, wanted in AT_FAULT:
            self.same(f"an example of a fault: {text[-60:]!r}", decoded(text), Fault(*wanted))


# The program.


def no_connection(volume: int) -> str:
    """What is printed where the attempt at a volume comes to no server, and the dump is abandoned."""
    return f"volume {volume} failed: ConnectionEnded\nretry?\ndump abandoned\n"


def allowed(number: int) -> tuple[bytes, ...]:
    """What the file may hold when the request of this number has come. The reply before a close counts, and what is kept may come after that."""
    texts = [text_of(RUN, it) for it in (NONE, ONE, BOTH)]
    done = (number > FIRST_REQUESTS) + (number > ALL_REQUESTS)
    return tuple(texts[done : done + 1 + (number in (FIRST_REQUESTS, ALL_REQUESTS))])


class CheckpointCase(DumpCase):
    """Dumps with a checkpoint file."""

    def setUp(self) -> None:
        super().setUp()
        self.p.file("payload", PAYLOAD)
        # Where the tests run in the background SIGINT is ignored, and so it would be by the dumps that it is to end.
        self.addCleanup(signal.signal, signal.SIGINT, signal.signal(signal.SIGINT, signal.default_int_handler))

    def lying(self) -> list[str]:
        """The names of files that begin as the file's."""
        return sorted(it.name for it in self.p.folder.iterdir() if it.name.startswith(FILE))

    def is_gone(self, title: str) -> None:
        self.same(f"{title}: the file is gone", self.lying(), [])

    def held(self) -> list[str]:
        """The same, but for a text that is or was being written."""
        return [it for it in self.lying() if it != TEXT]

    def stays(self, name: str, text: bytes) -> None:
        """The file has this text, and no other file lies beside it."""
        self.same(name, (kept(self.p), self.lying()), (text, [FILE]))

    def goes_on(self, title: str, counts: tuple[Volume, ...], **changed: str | None) -> None:
        """The same words dump what the file has not, with the date of the file, and remove it."""
        with Model(*two()) as model:
            got = self.p.run(*self.p.dump_words(model.address, *KEPT, **changed))
        self.ends(f"{title}: it goes on", got, "".join(LINES[len(counts) :]), DONE, going_on(counts))
        self.same(f"{title}: what is sent then", model.logs, ATTEMPTS[len(counts) :])
        self.is_gone(title)

    def not_written(self, title: str, got: Ended[str], printed: str, before: bytes | None, why: str = FILE) -> None:
        """The dump ended where it was to keep something, which is told, and the file is as it was."""
        self.ends(title, got, printed + NOT_WRITTEN, ABNORMAL, why)
        self.same(f"{title}: the file is as it was", kept(self.p), before)


class WhatIsKept(CheckpointCase):
    """The file while a dump runs, and after one was stopped or abandoned."""

    def test_a_dump_that_is_not_stopped(self) -> None:
        """The file is there before the first request, has each count before the next attempt, and is gone at the end."""
        seen: dict[int, tuple[bytes | None, list[str]]] = {}

        def look(number: int) -> None:
            seen[number] = (kept(self.p), self.held())

        with Model(*two(), acts={number: partial(look, number) for number in range(1, ALL_REQUESTS + 1)}) as model:
            self.ends("a new dump", self.p.dump(model.address, *KEPT), TWO_VOLUMES, DONE)
        self.same("a new dump: what is sent", model.logs, ATTEMPTS)
        self.same("a new dump: each request was looked at", sorted(seen), list(range(1, ALL_REQUESTS + 1)))
        for number, (text, names) in seen.items():
            self.holds(f"a new dump: the file at request {number}", text in allowed(number), text)
            self.same(f"a new dump: no other file at request {number}", names, [FILE, LOCK])
        self.is_gone("a new dump")

    def test_a_dump_without_the_word(self) -> None:
        with Model(Reel("r1", 4200)) as model:
            got = self.p.dump(model.address)
        self.ends("a dump without the word", got, "volume 1: 3 blocks from 0\ndump complete: 1 volumes, 3 blocks\n", DONE)
        self.same("a dump without the word keeps nothing", self.lying(), [])

    def test_a_dump_that_is_stopped(self) -> None:
        """At each of its requests; the same words go on with what the file has."""
        for number in range(1, ALL_REQUESTS + 1):
            for by in (signal.SIGKILL, signal.SIGINT, signal.SIGTERM) if number in (2, SECOND) else (signal.SIGKILL,):
                title = f"stopped by {by.name} at request {number}"
                got = stopped_at(self.p, number, by=by)
                self.same(f"{title}: the status", got.status, -by, got)
                text = kept(self.p)
                self.same(f"{title}: the files", (text in allowed(number), self.held()), (True, [FILE, LOCK]), text)
                self.p.folder.joinpath(TEXT).unlink(missing_ok=True)
                found = decoded(text or b"")
                counts = found.counts if isinstance(found, Checkpoint) else NONE
                printed = "".join(LINES[: len(counts)])
                self.same(f"{title}: each count of the file was printed", got.output[: len(printed)], printed, got, text)
                self.goes_on(title, counts, date=(str(DAY_BEFORE), None)[number % 2])

    def test_a_dump_that_is_stopped_where_it_asks(self) -> None:
        with Model(Reel("r1", 3100)) as model:
            run = started(self.p, model.address)
            wanted = LINES[0] + "volume 2 failed: Refused 6\nretry?\n"
            self.same("stopped where it asks: what it printed", lines_of(run, 3), wanted)
            run.kill()
            end_of(self, run)
            self.same("stopped where it asks: the file", kept(self.p), text_of(RUN, ONE))
        self.goes_on("stopped where it asks", ONE)

    def test_a_dump_that_is_abandoned(self) -> None:
        for said in ("no\n", "", "yes\nno\n"):
            with Model(Reel("r1", 3100)) as model:
                got = self.p.dump(model.address, *KEPT, said=said)
            again = "volume 2 failed: Refused 6\nretry?\n" * (1 + said.startswith("yes"))
            self.ends(f"abandoned by {said!r}", got, LINES[0] + again + "dump abandoned\n", ABNORMAL, "Refused 6")
            self.is_gone(f"abandoned by {said!r}")
        self.p.file(FILE, text_of(RUN, ONE))
        self.ends("abandoned after it went on", self.p.dump(NOWHERE, *KEPT), no_connection(2), ABNORMAL, going_on(ONE), NOWHERE)
        self.is_gone("abandoned after it went on")

    def test_a_volume_that_is_tried_again(self) -> None:
        texts: list[bytes | None] = []
        acts = dict.fromkeys((1, 10, 11, 16), lambda: texts.append(kept(self.p)))
        with Model(*two(), Reel("r3", 3100), lost=(10,), acts=acts) as model:
            got = self.p.dump(model.address, *KEPT, said="yes\n")
        self.ends("a volume that is tried again", got, "volume 1 failed: ConnectionEnded\nretry?\n" + TWO_VOLUMES, DONE, "ended")
        self.same("a volume that is tried again: the file", texts, [text_of(RUN)] * 4)
        self.is_gone("a volume that is tried again")


class OtherDump(NamedTuple):
    """What differs from the dump of a file: words, and the payload. And what is told of each difference: its name, the value of the file and
    that of the dump."""

    title: str
    changed: dict[str, str]
    differences: tuple[tuple[str, str, str], ...]
    payload: bytes = PAYLOAD

    def lines(self) -> str:
        """What is told."""
        return "".join(f"rdump: {FILE}: its {name} is {kept}, and that of this dump is {here}\n" for name, kept, here in self.differences)


OTHER_DUMPS = (
    OtherDump("another device", {"device": "/dev/st1"}, (("device", "/dev/st0", "/dev/st1"),)),
    OtherDump("a shorter device", {"device": "/dev/st"}, (("device", "/dev/st0", "/dev/st"),)),
    OtherDump("a longer device", {"device": "/dev/st00"}, (("device", "/dev/st0", "/dev/st00"),)),
    OtherDump("a device with a control character", {"device": "/dev/st\a"}, (("device", "/dev/st0", "/dev/st?"),)),
    OtherDump("another name", {"fs": "/usr2"}, (("name", "/usr", "/usr2"),)),
    OtherDump("another level", {"level": "1"}, (("level", "0", "1"),)),
    OtherDump("another block size", {"block": "1500"}, (("block size", "1024", "1500"),)),
    OtherDump("a block more", {}, (("number of blocks", "3", "4"),), PAYLOAD + b"x"),
    OtherDump("a block less", {}, (("number of blocks", "3", "2"),), PAYLOAD[:2048]),
    OtherDump("no block", {}, (("number of blocks", "3", "0"),), b""),
    OtherDump(
        "all at once",
        {"device": "/dev/st1", "fs": "/home", "level": "2", "block": "512"},
        (
            ("device", "/dev/st0", "/dev/st1"),
            ("name", "/usr", "/home"),
            ("level", "0", "2"),
            ("block size", "1024", "512"),
            ("number of blocks", "3", "6"),
        ),
    ),
)


class WhatIsGoneOnWith(CheckpointCase):
    """The dates of a file, files of other dumps, and finished files."""

    def test_dates(self) -> None:
        """The date and the base date are those of the file: on the labels, and in dumpdates."""
        sunday, monday = "/usr 0 Sun Feb 27 00:00:00 2000\n", "/usr 0 Mon Feb 28 00:00:00 2000\n"
        for date in (str(DAY + 5), None, "0"):
            self.p.file("dumpdates", monday.encode())
            stopped_at(self.p, SECOND, level="1")
            self.same("a level 1 that is stopped: the file", kept(self.p), text_of(RUN._replace(level=1, since=DAY_BEFORE), ONE))
            self.p.file("dumpdates", sunday.encode())
            with Model(Reel("r2", 3100)) as model:
                got = self.p.dump(model.address, *KEPT, "--update", level="1", date=date)
            self.ends(f"a level 1 that goes on at the date {date}", got, REST, DONE, going_on(ONE))
            label = b"name /usr\nlevel 1\ndate %d\nsince %d\nvolume 2\nfirst 2\n" % (DAY, DAY_BEFORE)
            labels = [(it.entries[0] or b"").rstrip(b"\0") for it in model.bin]
            self.same("a level 1 that goes on: the label", labels, [label])
            wanted = sunday.replace("/usr ", "/usr" + 29 * " ") + ENTRY.replace(" 0 Tue", " 1 Tue")
            self.same("a level 1 that goes on: the entry", self.p.text("dumpdates"), wanted)
            self.is_gone("a level 1 that goes on")

    def test_files_of_other_dumps(self) -> None:
        """They are refused, and left."""
        for counts in (NONE, ONE, BOTH):
            for it in OTHER_DUMPS:
                self.p.file("payload", it.payload)
                self.p.file(FILE, text_of(RUN, counts))
                got = self.p.run(*self.p.dump_words(NOWHERE, *KEPT, **it.changed))
                self.told(f"{it.title}, {len(counts)} counts", got, OF_ANOTHER, FAILED, it.lines())
                self.stays(f"{it.title}, {len(counts)} counts: the file stays", text_of(RUN, counts))

    def test_other_bytes(self) -> None:
        """What else may differ is not compared."""
        self.p.file("payload", bytes(len(PAYLOAD)))
        self.p.file(FILE, text_of(RUN, ONE))
        with Model(Reel("r2", 3100)) as model:
            got = self.p.dump(model.address, *KEPT)
        self.ends("other bytes in as many blocks", got, REST, DONE, going_on(ONE))
        self.same("other bytes in as many blocks are dumped", [it.entries[1:] for it in model.bin], [[bytes(1024), None]])

    def completes(self, name: str, got: Ended[str], end: str = LINES[2]) -> None:
        """No attempt is made, the end alone is printed, and the file is gone."""
        self.same(name, (got.output, got.status, NOWHERE in got.told, self.lying()), (end, DONE, False, []), got.told)

    def test_finished_and_not_entered(self) -> None:
        """The dump is complete, but cannot be entered: the file stays."""
        self.p.folder.joinpath("dumpdates.new").mkdir()
        with Model(*two()) as model:
            got = self.p.dump(model.address, *KEPT, "--update")
        self.ends("not entered", got, TWO_VOLUMES + "dumpdates not updated\n", ABNORMAL, "dumpdates")
        self.stays("not entered: the file stays", text_of(RUN, BOTH))
        got = self.p.dump(NOWHERE, *KEPT, "--update", date=str(DAY_BEFORE))
        came = (got.output, got.status, NOWHERE in got.told, "dumpdates" in got.told)
        self.same("not entered again", came, (LINES[2] + "dumpdates not updated\n", ABNORMAL, False, True), got.told)
        self.stays("not entered again: the file stays", text_of(RUN, BOTH))

    def test_finished_and_entered(self) -> None:
        """With the date of the file."""
        for turn in ("first", "second"):
            self.p.file(FILE, text_of(RUN, BOTH))
            self.completes(f"entered the {turn} time", self.p.dump(NOWHERE, *KEPT, "--update", date=str(DAY_BEFORE)))
            self.same(f"entered the {turn} time: dumpdates", self.p.text("dumpdates"), ENTRY)
            self.is_gone(f"entered the {turn} time")

    def test_finished_and_not_to_be_entered(self) -> None:
        self.p.file(FILE, text_of(RUN, BOTH))
        self.completes("finished, and not to be entered", self.p.dump(NOWHERE, *KEPT))
        self.same("finished, and not to be entered: dumpdates", self.p.text("dumpdates"), None)

    def test_no_blocks(self) -> None:
        self.p.file("payload", b"")
        line, end = "volume 1: 0 blocks from 0\n", "dump complete: 1 volumes, 0 blocks\n"
        with Model(Reel("r1", 3100)) as model:
            self.ends("no blocks", self.p.dump(model.address, *KEPT), line + end, DONE, "it is empty")
        run = RUN._replace(blocks=0)
        self.p.file(FILE, text_of(run, (Volume(1, 0, 0),)))
        self.completes("no blocks, finished", self.p.dump(NOWHERE, *KEPT), end)
        self.p.file(FILE, text_of(run))
        self.ends("no blocks, not finished", self.p.dump(NOWHERE, *KEPT), no_connection(1), ABNORMAL, going_on(NONE, run))


class Wanted(NamedTuple):
    """What a dump without a server prints over a file, its status, what it tells, and whether the file stays."""

    output: str
    status: int
    told: str
    stays: bool

    def kind(self) -> str:
        """In which way the file is met."""
        return self.output.split(":")[-1].strip() if self.status == FAILED else f"status {self.status}"


def wanted_of(text: bytes) -> Wanted:
    found = decoded(text)
    if isinstance(found, Fault):
        return Wanted(f"{found}\n", FAILED, FILE, True)
    if not is_same_dump(found.run, RUN):
        return Wanted(OF_ANOTHER, FAILED, FILE, True)
    if found.covers():
        return Wanted(f"dump complete: {len(found.counts)} volumes, {RUN.blocks} blocks\n", DONE, "", False)
    return Wanted(no_connection(len(found.counts) + 1), ABNORMAL, going_on(found.counts), False)


def changed_texts(texts: list[bytes], draw: random.Random) -> Iterator[bytes]:
    """Texts in which something was left out, doubled, put in another place, or taken from another."""
    for _ in range(CHANGED_TEXTS):
        text, other = draw.choice(texts), draw.choice(texts)
        at, length = draw.randrange(len(text)), draw.choice((1, 1, 2, 5, 9))
        piece = text[at : at + length]
        lines = text.splitlines(keepends=True)
        one, two_ = draw.randrange(len(lines)), draw.randrange(len(lines))
        swapped = list(lines)
        swapped[one], swapped[two_] = lines[two_], lines[one]
        yield draw.choice(
            (
                text[:at] + text[at + length :],
                text[:at] + piece + text[at:],
                text[:at] + other[at:],
                b"".join(swapped),
                b"".join(lines[:one] + lines[one + 1 :]),
                b"".join(lines[: one + 1] + lines[one:]),
                text[:at] + draw.choice((b"0", b"9", b" ", b"\n", b"\0", b"-", b"+", b"\xff")) + text[at + draw.randrange(2) :],
            )
        )


def cases_of_bytes() -> Iterator[tuple[str, bytes]]:
    """A text that is cut at each byte, and in which each byte is changed."""
    text = text_of(RUN, ONE)
    for at in range(len(text) + 1):
        yield f"cut at byte {at}", text[:at]
    for at, byte in enumerate(text):
        for other in sorted({byte ^ 1, byte ^ 0x80, ord("\n"), ord(" "), ord("0")} - {byte}):
            yield f"byte {at} is {other}", text[:at] + bytes((other,)) + text[at + 1 :]


OTHER_TEXTS = (
    ("much text in a line", b"x" * 1_000_000),
    ("many empty lines", b"\n" * 100_000),
    ("zero bytes", bytes(4096)),
    ("a long device", text_of(RUN._replace(device=b"d" * 255))),
    ("a device that is too long", text_of(RUN._replace(device=b"d" * 256))),
    ("a later date", text_of(RUN._replace(date=253_402_300_799, since=7), ONE)),
    ("a line after all", text_of(RUN, ONE) + b"counted"),
    ("a volume that is counted twice", text_of(RUN, (*ONE, *ONE))),
    ("all in one volume", text_of(RUN, (Volume(1, 0, 3),))),
    ("all in two volumes", text_of(RUN, BOTH)),
    ("all in three volumes", text_of(RUN, (Volume(1, 0, 1), Volume(2, 1, 1), Volume(3, 2, 1)))),
    ("all in two volumes, of a later date", text_of(RUN._replace(date=253_402_300_799, since=7), BOTH)),
)


class Texts(CheckpointCase):
    """What a file spells: it is refused by a line, or gone on with."""

    def is_over(self, title: str, text: bytes, *seen: object) -> Wanted:
        """A file of this text is refused by its line, or resumed with what it spells."""
        self.p.file(FILE, text)
        got, wanted = self.p.dump(NOWHERE, *KEPT), wanted_of(text)
        came = (got.output, got.status, wanted.told in got.told, NOWHERE in got.told)
        right = (wanted.output, wanted.status, True, wanted.status == ABNORMAL)
        self.same(f"{title}: what is said of it", came, right, text, got.told, wanted.told, *seen)
        left = (text, [FILE]) if wanted.stays else (None, [])
        self.same(f"{title}: whether it stays", (kept(self.p), self.lying()), left, text, *seen)
        return wanted

    def test_changed_texts(self) -> None:
        """A file that is cut at each byte, in which each byte is changed, and that is changed at random."""
        ways: dict[str, int] = {}
        seed = random_seed(14)
        texts = [text_of(RUN, it) for it in (ONE, BOTH, NONE, (Volume(1, 0, 1), Volume(2, 1, 1)))]
        drawn = enumerate(changed_texts(texts, random.Random(seed)))
        for title, text in (*cases_of_bytes(), *((f"changed text {number}", it) for number, it in drawn), *OTHER_TEXTS):
            way = self.is_over(title, text, f"seed {seed}").kind()
            ways[way] = ways.get(way, 0) + 1
        self.same("each way is met often", (len(ways), min(ways.values()) >= 5), (5, True), ways)

    def test_many_counts(self) -> None:
        """A file of many counts is read, and gone on with."""
        self.p.file("payload", bytes(2 * MANY + 1))
        run = RUN._replace(block=1, blocks=2 * MANY + 1)
        counts = tuple(Volume(number, 2 * (number - 1), 2) for number in range(1, MANY + 1))
        self.p.file(FILE, text_of(run, counts))
        seen: list[bytes | None] = []
        with Model(Reel("r1", 4096), acts={1: lambda: seen.append(kept(self.p))}) as model:
            got = self.p.dump(model.address, *KEPT, block="1")
        output = f"volume {MANY + 1}: 1 blocks from {2 * MANY}\ndump complete: {MANY + 1} volumes, {run.blocks} blocks\n"
        self.ends("many counts", got, output, DONE, going_on(counts, run))
        self.same("many counts: what is kept of them", seen, [text_of(run, counts)])
        late = text_of(run, (*counts[:-1], counts[-1]._replace(volume=MANY + 1)))
        self.p.file(FILE, late)
        got = self.p.dump(NOWHERE, *KEPT, block="1")
        self.ends("many counts, the last out of order", got, f"line {MANY + 8}: not in order\n", FAILED, FILE)
        self.same("many counts, the last out of order: the file stays", kept(self.p), late)


# Faults that come before a bad file: what is changed, what is printed, and what is told.
BEFORE_A_BAD_FILE: tuple[tuple[str, dict[str, str], str, str], ...] = (
    ("a wrong word", {"level": "x", "payload": "missing"}, "", "level"),
    ("no payload", {"payload": "missing", "dumpdates": "bad", "level": "10"}, "", "missing"),
    ("a bad dumpdates file", {"dumpdates": "bad", "level": "10"}, "line 3: bad line\n", "bad"),
    ("a limit that is broken", {"fs": "a b"}, "", "name"),
    ("a date past its limit", {"date": "253402300800"}, "", "date"),
    ("the file alone", {}, "line 7: bad line\n", FILE),
)


class Startup(CheckpointCase):
    """The faults that come before those of the file, and the words."""

    def test_the_turn_of_a_bad_file(self) -> None:
        bad = text_of(RUN).replace(b"block 1024", b"block x")
        self.p.file("bad", b"\n\nfoo\n")
        for title, changed, output, fault in BEFORE_A_BAD_FILE:
            self.p.file(FILE, bad)
            got = self.p.run(*self.p.dump_words(NOWHERE, *KEPT, **changed))
            self.ends(f"{title}, and a bad file", got, output, FAILED, fault)
            self.stays(f"{title}, and a bad file: it stays", bad)

    def test_words(self) -> None:
        self.fails("the word twice", self.p.dump(NOWHERE, *KEPT, *KEPT), "--checkpoint")
        self.fails("the word without a file", self.p.dump(NOWHERE, "--checkpoint"), "--checkpoint")
        got = self.p.run("dump", "--help")
        self.same("the help has the word", (got.status, "--checkpoint <FILE>" in got.output), (DONE, True), got.output)

    def test_a_folder(self) -> None:
        self.p.folder.joinpath(FILE).mkdir()
        self.fails("a file that is a folder", self.p.dump(NOWHERE, *KEPT), f"rdump: {FILE}: it is no plain file\n")
        self.same("a file that is a folder: it stays", (self.p.folder.joinpath(FILE).is_dir(), self.lying()), (True, [FILE]))


def no_room(run: subprocess.Popen[bytes]) -> None:
    """From now on a write of this process to a file fails."""
    resource.prlimit(run.pid, resource.RLIMIT_FSIZE, (0, resource.RLIM_INFINITY))


class Unwritten(CheckpointCase):
    """The file cannot be written: before the first attempt nothing is sent, and after a count no further attempt is made."""

    def setUp(self) -> None:
        super().setUp()
        self.new = self.p.folder / f"{FILE}.new"

    def is_in_the_way(self, title: str, make: Callable[[], object], unmake: Callable[[], object]) -> None:
        """What is made at the place of the lock keeps a dump from starting, until it is taken away."""
        make()
        self.fails(title, self.p.dump(NOWHERE, *KEPT), NO_PLAIN_NEW)
        self.same(f"{title}: nothing is made", self.lying(), [LOCK])
        self.p.file(FILE, text_of(RUN, ONE))
        self.fails(f"{title}, of a dump that would go on", self.p.dump(NOWHERE, *KEPT), NO_PLAIN_NEW)
        left = kept(self.p), self.lying(), self.p.text("nowhere"), self.p.bytes_of("payload")
        self.same(f"{title}: the files", left, (text_of(RUN, ONE), [FILE, LOCK], None, PAYLOAD))
        unmake()
        self.goes_on(f"{title}, taken away", ONE)

    def test_a_folder_at_the_lock(self) -> None:
        self.is_in_the_way("a folder at the lock", self.new.mkdir, self.new.rmdir)

    def test_links_at_the_lock(self) -> None:
        for title, target in (("a link at the lock", "payload"), ("a link to nothing at the lock", "nowhere")):
            self.is_in_the_way(title, partial(self.new.symlink_to, target), self.new.unlink)

    def test_a_text_that_was_left(self) -> None:
        """A killed dump left its lock and a part of a text, which stays, and is in nobody's way."""
        self.p.file(LOCK, b"")
        self.p.file(TEXT, text_of(RUN, ONE)[:-3])
        with Model(*two()) as model:
            self.ends("a text that was left", self.p.dump(model.address, *KEPT), TWO_VOLUMES, DONE)
        self.same("a text that was left stays", (self.lying(), self.p.bytes_of(TEXT)), ([TEXT], text_of(RUN, ONE)[:-3]))

    def test_a_file_in_no_folder(self) -> None:
        told = "rdump: nowhere/it: its .new: No such file or directory (os error 2)\n"
        self.fails("a file in no folder", self.p.dump(NOWHERE, "--checkpoint", "nowhere/it"), told)

    def test_a_count_that_cannot_be_printed(self) -> None:
        with open("/dev/full", "wb") as full, Model(*two()) as model:
            got = self.p.dump(model.address, *KEPT, stdout=full.fileno())
        self.same("a count that cannot be printed", (got.status, model.logs), (ABNORMAL, ATTEMPTS[:1]), got)
        self.same("a count that cannot be printed is not kept", kept(self.p), text_of(RUN))

    def test_a_limit_on_the_size_of_files(self) -> None:
        limited = ("sh", "-c", 'ulimit -f 0 && exec "$0" "$@"')
        got = end_of(self, start(self.p, *limited, self.p.rdump, *self.p.dump_words(NOWHERE, *KEPT)))
        self.not_written("no room at the start", got, "", None)
        self.same("no room at the start: nothing is left", self.lying(), [])
        self.not_written("no room after a count", acted_on(self.p, 3, no_room, False), LINES[0], text_of(RUN))
        self.same("no room after a count: nothing is left", self.lying(), [FILE])
        self.goes_on("no room after a count", NONE)

    def test_a_full_disk(self) -> None:
        disk = self.p.folder / "small"
        if not self.enterContext(small_disk(disk)):
            self.skipTest("no small disk can be mounted")
        self.p = Programs(self, disk)
        words: dict[str, str | None] = {"payload": "../payload", "dumpdates": "../dumpdates"}
        got = acted_on(self.p, 3, lambda run: fill(disk), False, **words)
        self.not_written("a full disk after a count", got, LINES[0], text_of(RUN))
        self.same("a full disk after a count: nothing is left", self.lying(), [FILE])
        disk.joinpath("filler").unlink()
        self.goes_on("a full disk that is emptied", NONE, **words)
        fill(disk)
        got = self.p.run(*self.p.dump_words(NOWHERE, *KEPT, **words))
        self.not_written("a full disk at the start", got, "", None)
        self.same("a full disk at the start: nothing is left", self.lying(), [])


class Links(CheckpointCase):
    """A file that is a link: what it leads to is replaced, in its own folder."""

    def is_followed(self, title: str, here: Path, there: Path) -> None:
        """A dump that is stopped leaves its counts where the link leads to, and the same words go on with them."""
        stopped_at(self.p, SECOND)
        self.same(f"a link {title}: it stays", here.is_symlink() and os.readlink(here), "other/kept")
        beside = sorted(it.name for it in there.parent.iterdir())
        self.same(f"a link {title}: what it leads to", (kept(self.p), beside), (text_of(RUN, ONE), ["kept", "kept.new"]))
        with Model(Reel("r2", 3100)) as model:
            self.ends(f"a link {title}: it goes on", self.p.dump(model.address, *KEPT), REST, DONE, going_on(ONE))
        left = here.exists(), [*there.parent.iterdir()], here.with_name(LOCK).exists()
        self.same(f"a link {title}: there is no file then", left, (False, [], False))

    def test_links(self) -> None:
        here, there = self.p.folder / FILE, self.p.folder / "other" / "kept"
        there.parent.mkdir()
        for title, text in (("to nothing", None), ("to a file", text_of(RUN))):
            there.unlink(missing_ok=True)
            here.unlink(missing_ok=True)
            if text is not None:
                there.write_bytes(text)
            here.symlink_to("other/kept")
            self.is_followed(title, here, there)


def until_one_is_left(runs: list[subprocess.Popen[bytes]]) -> None:
    """Waits until all dumps have started, and all but one have ended."""
    soon(lambda: len(runs) == TOGETHER and sum(it.poll() is None for it in runs) <= 1)


class TwoDumps(CheckpointCase):
    """Two dumps with one file."""

    def is_kept_out(self, title: str) -> None:
        """A second dump is refused where the file is looked at, and changes nothing."""
        before = kept(self.p)
        for name in (FILE, f"./{FILE}", str(self.p.folder / FILE)):
            began = time.monotonic()
            got = self.p.dump(NOWHERE, "--checkpoint", name)
            took = time.monotonic() - began
            self.fails(f"{title}: a second one, with {name}", got, TAKEN.replace(FILE, name))
            self.holds(f"{title}: it does not wait", took < AT_ONCE_SECONDS, took)
        got = self.p.dump(NOWHERE, *KEPT, dumpdates="bad")
        self.ends(f"{title}: a bad dumpdates file comes first", got, "line 1: bad line\n", FAILED, "bad")
        self.same(f"{title}: the file is as it was", (kept(self.p), self.held()), (before, [FILE, LOCK]))
        got = self.p.dump(NOWHERE, "--checkpoint", "another")
        self.ends(f"{title}: one with another file", got, no_connection(1), ABNORMAL, NOWHERE)
        self.ends(f"{title}: one without the word", self.p.dump(NOWHERE), no_connection(1), ABNORMAL, NOWHERE)

    def test_a_file_that_another_dump_holds(self) -> None:
        """It has just begun, has counted a volume, or has gone on."""
        self.p.file("bad", b"foo\n")
        for title, number, text in (("a new dump", 3, None), ("a dump with a count", SECOND, None), ("a dump that went on", 3, text_of(RUN))):
            if text:
                self.p.file(FILE, text)
            got = acted_on(self.p, number, lambda run: self.is_kept_out(title), False)
            self.ends(f"{title}, which holds the file", got, TWO_VOLUMES, DONE, *([going_on(NONE)] if text else []))
            self.same(f"{title}, which holds the file: it is gone", self.lying(), [])

    def test_a_file_that_another_process_has_locked(self) -> None:
        self.p.file("bad", b"foo\n")
        self.p.file(FILE, text_of(RUN, ONE))
        with self.p.folder.joinpath(self.p.file(LOCK, b"")).open("rb") as locked:
            fcntl.flock(locked, fcntl.LOCK_EX)
            self.is_kept_out("a process that has locked it")
        self.goes_on("a process that had locked it", ONE)

    def exchange(self) -> None:
        """Puts another file in the place of the file."""
        self.p.folder.joinpath(self.p.file("other", text_of(RUN, ONE))).replace(self.p.folder / FILE)

    def test_a_file_that_is_exchanged(self) -> None:
        """While its first volume is dumped: it is not written over, and that another run has it is told once that is to be kept."""
        got = acted_on(self.p, 3, lambda run: self.exchange(), False)
        self.not_written("a file that is exchanged", got, LINES[0], text_of(RUN, ONE), TAKEN)

    def test_a_file_that_is_exchanged_later(self) -> None:
        """It is not removed, which is told too."""
        title = "a file that is exchanged before the dump is abandoned"
        run = started(self.p, NOWHERE)
        self.same(f"{title}: the question", lines_of(run, 2), "volume 1 failed: ConnectionEnded\nretry?\n")
        self.exchange()
        got = end_of(self, run)
        self.ends(title, got, "dump abandoned\n", ABNORMAL, f"rdump: {FILE}: it could not be removed: another run has it\n")
        self.stays(f"{title}: the other file stays", text_of(RUN, ONE))

    def test_dumps_that_start_together(self) -> None:
        """One alone dumps, and each other one says that it cannot."""
        for number in range(ROUNDS):
            runs: list[subprocess.Popen[bytes]] = []
            if number % 2:
                self.p.file(FILE, text_of(RUN))
            with Model(*two(), acts={1: partial(until_one_is_left, runs)}) as model:
                runs += (started(self.p, model.address) for _ in range(TOGETHER))
                got = [end_of(self, it) for it in runs]
            done = [it for it in got if (it.output, it.status) == (TWO_VOLUMES, DONE)]
            others = [it for it in got if (it.output, it.status) in (("", FAILED), (NOT_WRITTEN, ABNORMAL)) and FILE in it.told]
            self.same(f"together, round {number}: one alone dumps", (len(done), len(others)), (1, TOGETHER - 1), got)
            self.same(f"together, round {number}: what is sent", model.logs, ATTEMPTS)
            self.is_gone(f"together, round {number}")


class Going(CheckpointCase):
    """What is shown of a dump that goes on, and in which order all is done."""

    def test_at_a_terminal(self) -> None:
        """The volume and the block that are shown are those that it goes on with."""
        self.p.file(FILE, text_of(RUN, ONE))
        with Model(Reel("r2", 3100)) as model, Terminal() as terminal:
            got = self.p.dump(model.address, *KEPT, stderr=terminal.far)
            shown = terminal.shown()
        self.same("a terminal: the dump", (got.output, got.status), (REST, DONE), got)
        self.holds("a terminal: what it goes on with", going_on(ONE).replace("\n", "\r\n") in shown, shown)
        seen = re.findall(r"\rvolume (\d+), block (\d+) of (\d+)", shown)
        self.same("a terminal: the volume and the block", {*seen}, {("2", "3", "3")}, shown)

    def test_the_order_of_calls(self) -> None:
        """The lock is made. A new file is made, written, synced, renamed, and its folder synced, before a connection is made; a count is printed
        before it is kept, and the end before the file and the lock are removed. The folder is synced after that."""
        strace = traced(self, CALLS)
        if not strace:
            return
        with Model(*two()) as model:
            got = self.p.run(*strace[1:], self.p.rdump, *self.p.dump_words(model.address, *KEPT), program=strace[0])
        self.ends("under strace", got, TWO_VOLUMES, DONE)
        folder = str(self.p.folder.resolve())
        lock, new = re.escape(LOCK), re.escape(TEXT)
        replaced = (
            ("the new file is made", "open", rf'{new}", .*O_CREAT\|O_EXCL'),
            ("the text is written", "write", rf"<{folder}/{new}>, .*blocks 3\\n"),
            ("it is synced", "fsync", rf"<{folder}/{new}>"),
            ("it is renamed", "rename", rf'{new}".*{re.escape(FILE)}"'),
            ("the folder is synced", "fsync", rf"<{folder}>"),
        )
        connects = ("a connection is made", "connect", rf"htons\({model.address.rsplit(':', 1)[1]}\)")
        wanted = (
            ("the lock is made", "open", rf'{lock}", .*O_CREAT\|O_EXCL'),
            ("it is locked", "flock", rf"<{folder}/{lock}>, LOCK_EX"),
            *replaced,
            connects,
            ("a count is printed", "write", r"^1<.*volume 1: 2"),
            *replaced,
            connects,
            ("a count is printed", "write", r"^1<.*volume 2: 1"),
            *replaced,
            ("the end is printed", "write", r"^1<.*dump complete"),
            ("the file is removed", "unlink", rf'{re.escape(FILE)}"'),
            ("the lock is removed", "unlink", rf'{lock}"'),
            ("the folder is synced", "fsync", rf"<{folder}>"),
        )
        in_order(self, made_in(self.p.folder), wanted)
