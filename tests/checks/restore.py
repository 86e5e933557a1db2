"""Reads the first reel of a stack by the built `rdump read` from the built `rmtd`, and looks at the file, at both outputs and at the reels.

What has to come of a reel follows from its records, which a plain decoder gives. The reels of the stack and of the bin are compared to the byte after
each run. The plain model of a tape server takes the place of `rmtd` where what is sent is looked at, or a reply is to be another one.
"""

from __future__ import annotations

import os
import re
import shutil
import subprocess
import threading
import time
from functools import partial
from typing import NamedTuple, Sequence

from tests.lib.connections import NOWHERE
from tests.lib.drives import data_of
from tests.lib.dumping import DumpCase
from tests.lib.ended import ABNORMAL, DONE, FAILED, Ended
from tests.lib.played_servers import Model, Said
from tests.lib.processes import guarded
from tests.lib.refusals import refused_with
from tests.lib.restores import (
    BLOCK,
    CUT,
    EMPTY,
    EMPTY_OR_MARK,
    FOREIGN,
    KINDS,
    LOOK,
    MARK,
    MORE,
    NO_REPLY,
    OPEN,
    PADDED,
    READ,
    UNPRINTED,
    USR,
    answering,
    blocks,
    came_of,
    counted,
    cuts,
    entries,
    foreign,
    laid,
    laid_reel,
    loaded,
    read,
    read_words,
    reel,
    sizes,
    texts,
)
from tests.lib.terminals import CLEAR, Terminal
from tests.lib.traced import in_order, made_in, traced
from tests.lib.waiting import GUARD_SECONDS
from tests.lib.wire import CLOSE, DEVICE, IO_ERROR, REWIND
from tests.models.rmtd import Entry, images

# What the file holds before: there is none, an empty one, one that is shorter than what is read, and one that is longer.
OLD = b"o" * 10_000
BEFORE = (None, b"", b"old", OLD)


class ReadCase(DumpCase):
    """Tests that read reels into the file `out` of their folder."""

    def setUp(self) -> None:
        super().setUp()
        self.out = self.p.folder / "out"

    def put_out(self, before: bytes | None = None) -> None:
        """Has the file hold these bytes before it is read into. If they are None, there is no such file."""
        self.out.unlink(missing_ok=True)
        if before is not None:
            self.out.write_bytes(before)

    def file_holds(self, name: str, data: bytes | None) -> None:
        """The file holds these bytes. If they are None, there is no such file."""
        self.same(f"{name}: the file", data_of(self.out), data)

    def is_read(self, name: str, data: bytes) -> None:
        """This reel is read, whatever the file holds before. It stays, with one behind it."""
        reels = {"r1": data, "r2": reel(3)}
        with laid(self.p, **reels) as site:
            came = came_of(data, site.address)
            for before in BEFORE:
                title = f"{name} over {before and len(before)!r} bytes"
                self.put_out(before)
                self.told(title, site.read(), came.output, DONE, came.told)
                self.file_holds(title, came.file)
                site.reels(title, reels, {})


class Reels(ReadCase):
    """Reels of each kind: what is printed and told of them, and what the file holds then."""

    def test_volumes(self) -> None:
        for name, data in {**KINDS, **{f"volume {it}": reel(it) for it in (1, 2, 3)}}.items():
            self.is_read(name, data)

    def test_blocks_of_two_lengths(self) -> None:
        for lengths in ((1024, 10), (10, 11), (1, 1024, 2)):
            self.is_read(f"blocks of {lengths}", images([USR.label(1, 0), *(b"x" * it for it in lengths), None]))

    def test_more_behind_the_mark(self) -> None:
        """It is not seen."""
        for name, data in MORE.items():
            self.is_read(f"{name} behind the mark", data)

    def test_cuts(self) -> None:
        """A reel that was cut at each kind of place is read up to its last whole record. That it has no mark is not found out."""
        for name, data in cuts(reel(2)).items():
            self.is_read(f"cut {name}", data)

    def test_over_an_older_file(self) -> None:
        """Reels that are no volume. Nothing of an older file is left, also where the reel is empty or begins with a mark."""
        for name, (data, what) in FOREIGN.items():
            self.same(f"{name}: what is told", came_of(data, "").told.endswith(foreign("", what)), True)
            self.is_read(name, data)


# The requests of a read of the second volume, by the names that they have if they are refused, and what may be answered to each.
NAMES = ("open", "rewind", *["read"] * 5, "close")
ERRORS = {f"E{number}": (b"E%d\nno\n" % number, number) for number in (2, 5, 6, 9, 12, 13, 16, 22, 28)}
FAULTS = {"botched": (b"x", NO_REPLY), "lost": (None, CUT)}


class Empty(NamedTuple):
    """What is answered to a request of the look at an empty reel, by its number, and what is told of the reel then."""

    title: str
    number: int
    reply: bytes | None
    what: str


EMPTIES = (
    Empty("as it is", 5, IO_ERROR, EMPTY),
    Empty("the open is refused", 1, b"E16\nDevice or resource busy\n", EMPTY_OR_MARK),
    Empty("the rewind is refused", 2, IO_ERROR, EMPTY_OR_MARK),
    Empty("the read is refused", 3, IO_ERROR, EMPTY_OR_MARK),
    Empty("a record", 3, b"A1\nx", EMPTY_OR_MARK),
    Empty("the second rewind is refused", 4, IO_ERROR, EMPTY_OR_MARK),
    Empty("a mark", 5, b"A1\n", MARK),
    Empty("E6", 5, b"E6\nDevice not configured\n", EMPTY_OR_MARK),
    Empty("no reply", 5, b"x", EMPTY_OR_MARK),
    Empty("an end", 5, None, EMPTY_OR_MARK),
    Empty("the close is refused", 6, IO_ERROR, EMPTY_OR_MARK),
)


class Requests(ReadCase):
    """What is sent to a server, and what comes of it where that fails: until a read is answered, the file is as it was."""

    def test_what_is_sent(self) -> None:
        """No mark is looked for, and no reel is taken away."""
        with loaded(2, 1) as model:
            got = read(self.p, model.address)
            self.told("a volume", got, texts(2), DONE, counted(2))
            self.same("a volume: what is sent", (model.logs, model.ahead), ([[OPEN, REWIND, *[READ] * 5, CLOSE]], False))
        rows: tuple[tuple[str, list[Entry], str], ...] = (("an empty reel", [], EMPTY), ("a mark", [None], MARK))
        for name, records, what in rows:
            with answering(laid_reel(records), replies={}) as model:
                self.told(name, read(self.p, model.address), "", DONE, foreign(model.address, what))
                self.same(f"{name}: what is sent", model.logs, [[OPEN, REWIND, READ, CLOSE], LOOK])

    def test_requests_that_fail(self) -> None:
        """A file that this run made is removed if no read was answered."""
        for number, kind in enumerate(NAMES):
            for way, (reply, error) in ERRORS.items():
                self.request_fails(f"the {kind} (request {number}) is answered {way}", number, reply, refused_with(error, kind)[:-1])
            for way, (other, why) in FAULTS.items():
                self.request_fails(f"the {kind} (request {number}) is {way}", number, other, why)

    def request_fails(self, name: str, number: int, reply: bytes | None, why: str) -> None:
        """This is answered to a request, counted from 0."""
        for before in (None, OLD):
            self.put_out(before)
            with loaded(2, 3, replies={number + 1: reply}) as model:
                got = read(self.p, model.address)
                came = blocks(2, 2 + max(0, min(number - 3, 3)))
                is_answered = number > 2
                tells = (sizes(came) if is_answered else "") + f"rdump: {model.address}: {why}\n"
                self.told(name, got, texts(2) if is_answered else "", ABNORMAL, tells)
                self.file_holds(name, b"".join(came) if is_answered else before)
                sent = [OPEN, REWIND, *[READ] * 5, CLOSE][: number + 1]
                self.holds(f"{name}: what is sent", model.logs in ([sent], [[*sent, CLOSE]]), model.logs)
                self.same(f"{name}: the reels", [it.name for it in model.stack], ["r2", "r3"])

    def test_requests_that_fail_at_an_empty_reel(self) -> None:
        for number, kind in enumerate(("open", "rewind", "read", "close")):
            for reply in (IO_ERROR, b"E6\nno\n", b"E13\nno\n", b"x", None):
                for before in (None, OLD):
                    name = f"an empty reel: {reply!r} to the {kind}"
                    self.put_out(before)
                    with answering(laid_reel([]), replies={number + 1: reply}) as model:
                        got = read(self.p, model.address)
                        self.same(name, (got.output, got.status, f"rdump: {model.address}: " in got.told), ("", ABNORMAL, True), got.told)
                    self.file_holds(name, before if number < 3 else b"")

    def test_drives_without_a_reel(self) -> None:
        with laid(self.p) as site:
            for name, address, device, why in (
                ("no reel", site.address, DEVICE, refused_with(6, "open")),
                ("no drive", site.address, "/dev/st9", refused_with(2, "open", "/dev/st9")),
                ("nobody listens", NOWHERE, DEVICE, "Connection refused (os error 111)\n"),
            ):
                for before in BEFORE:
                    self.put_out(before)
                    got = self.p.run("read", "--to", address, "--device", device, "--out", "out")
                    self.told(name, got, "", ABNORMAL, f"rdump: {address}: {why}")
                    self.file_holds(name, before)

    def test_looks_at_an_empty_reel(self) -> None:
        """The reel is told to be empty only if MTFSF is refused with 5 and the close is done. The file is empty, whatever is answered."""
        for it in EMPTIES:
            self.put_out(OLD)
            with answering(laid_reel([]), replies={4 + it.number: it.reply}) as model:
                self.told(it.title, read(self.p, model.address), "", DONE, foreign(model.address, it.what))
                count = it.number
                sent = [OPEN] if count == 1 else LOOK[:5] if it.reply in (None, b"x") else LOOK if count > 4 else [*LOOK[:count], CLOSE]
                self.same(f"{it.title}: what is sent", model.logs, [[OPEN, REWIND, READ, CLOSE], sent])
            self.file_holds(it.title, b"")


class Files(ReadCase):
    """The file that is read into, and what is printed and shown."""

    def test_pipes_and_devices(self) -> None:
        """They get the blocks."""
        os.mkfifo(self.p.folder / "pipe")
        for name, data in {it: (KINDS.get(it) or FOREIGN[it][0]) for it in ("a byte", "no block", "text", "an empty reel", "a mark")}.items():
            with laid(self.p, r=data) as site:
                output, told, file = came_of(data, site.address)
                with guarded(subprocess.Popen(("cat", "pipe"), cwd=self.p.folder, stdout=subprocess.PIPE)) as reader:
                    self.told(f"{name} into a pipe", site.read(out="pipe"), output, DONE, told)
                    self.same(f"{name} into a pipe: the bytes", reader.communicate()[0], file)
                self.told(f"{name} into nothing", site.read(out="/dev/null"), output, DONE, told)
                self.told(f"{name} into standard output", site.read(out="/dev/stdout"), output + file.decode(), DONE, told)
                if file:
                    told = sizes([]) + told.partition("\n")[2] + "rdump: /dev/full: No space left on device (os error 28)\n"
                self.told(f"{name} into what is full", site.read(out="/dev/full"), output, ABNORMAL if file else DONE, told)

    def test_files_that_cannot_be_written(self) -> None:
        """Nothing is sent."""
        self.p.folder.joinpath("folder").mkdir()
        with loaded(1) as model:
            for out, why in (("folder", "Is a directory (os error 21)"), ("none/out", "No such file or directory (os error 2)")):
                self.told(out, read(self.p, model.address, out=out), "", FAILED, f"rdump: {out}: {why}\n")
            self.same("a file that can't be written: nothing is sent", model.logs, [])

    def test_a_link_to_nothing(self) -> None:
        """The file that it leads to is made, and is removed again if nothing was read."""
        link = self.p.folder / "link"
        link.symlink_to("out")
        with laid(self.p) as empty, laid(self.p, r=reel(1)) as site:
            self.told("a link to nothing, no reel", empty.read(out="link"), "", ABNORMAL, empty.refused(6))
            self.same("a link to nothing, no reel: it stays", (link.is_symlink(), self.out.exists()), (True, False))
            self.told("a link to nothing", site.read(out="link"), texts(1), DONE, counted(1))
        self.file_holds("a link to nothing", PADDED[:2048])

    def test_two_runs_at_once(self) -> None:
        """The first has made the file, and the second is refused. A file that takes the name meanwhile is not removed."""
        for title, other in (("alone", None), ("with another file at its name", b"not ours")):
            gate = threading.Event()
            with Said(b"E16\nbusy\n", before=partial(gate.wait, GUARD_SECONDS)) as server:
                with self.p.started(*read_words(server.address)) as first:
                    while not server.connections and first.poll() is None:
                        time.sleep(0.01)
                    with Model() as unread:
                        self.told(f"two runs, {title}: the second", read(self.p, unread.address), "", FAILED, "rdump: out: another run writes it\n")
                    self.same(f"two runs, {title}: nothing is sent", unread.logs, [])
                    if other is not None:
                        self.put_out(other)
                    gate.set()
                    first.communicate(timeout=GUARD_SECONDS)
            self.same(f"two runs, {title}: the first", first.returncode, ABNORMAL)
            self.file_holds(f"two runs, {title}", other)

    def test_a_full_output(self) -> None:
        """If a label can't be printed nothing more is read, and the file has what it had."""
        for before in BEFORE:
            self.put_out(before)
            with laid(self.p, r=reel(1)) as site, open("/dev/full", "wb") as stream:
                self.told("a full output", site.read(stdout=stream.fileno()), "", ABNORMAL, sizes([]) + UNPRINTED)
                site.reels("a full output", {"r": reel(1)}, {})
            self.file_holds("a full output", before)

    def test_progress_on_a_terminal(self) -> None:
        """How far a read is, in a line that is cleared before others."""
        later = r"(\rvolume 2, block \d+, \d+ [KM]iB/s\x1b\[K)*"
        for title, both in (("a terminal", False), ("one terminal for both outputs", True)):
            with laid(self.p, r=reel(2)) as site, Terminal() as terminal:
                got = site.read(stdout=terminal.far if both else subprocess.PIPE, stderr=terminal.far)
                text = terminal.shown()
            self.same(f"{title}: the read", (got.output, got.status), ("" if both else texts(2), DONE), got)
            first = (texts(2) if both else "").replace("\n", "\r\n") + "\rvolume 2, block 1, 0 KiB/s\x1b[K"
            wanted = re.escape(first) + later + re.escape(CLEAR + counted(2).replace("\n", "\r\n"))
            self.holds(f"{title}: what it shows", re.fullmatch(wanted, text), text, wanted)
            self.file_holds(title, PADDED[2048:5120])

    def test_progress_of_a_reel_without_a_label(self) -> None:
        data = images([b"abc", b"x" * BLOCK, None])
        with laid(self.p, r=data) as site, Terminal() as terminal:
            got, text = site.read(stderr=terminal.far), terminal.shown()
        wanted = f"\rblock 1, 0 KiB/s\x1b[K{CLEAR}" + came_of(data, site.address).told.replace("\n", "\r\n")
        self.same("a reel without a label on a terminal", (got.output, got.status, text), ("abc", DONE, wanted))

    def test_options_that_are_gone(self) -> None:
        """They are refused before anything is opened or sent."""
        self.p.file("sums", b"")
        with loaded(1) as model:
            for more in (("--all",), ("--place",), ("--length", "5"), ("--sums", "sums"), ("--all", "--place", "--length", "5")):
                for before in (None, OLD):
                    self.put_out(before)
                    got = read(self.p, model.address, *more)
                    self.fails(f"{more}", got, "error: ", more[0])
                    self.file_holds(f"{more}", before)
            self.same("options that are gone: nothing is sent", model.logs, [])


CALLS = "openat,open,flock,sendto,write,ftruncate,fsync,fdatasync"
SYNCS = "fsync,fdatasync"
NO_SYNC = "rdump: out: Input/output error (os error 5)\n"
NO_QUOTA = "rdump: out: Disk quota exceeded (os error 122)\n"
NO_FOLDER = "rdump: out: its folder could not be synced\n"


class Unsynced(NamedTuple):
    """What the file holds before, which of the syncs fails and how, what is told of that, and the status."""

    title: str
    before: bytes | None
    fault: str
    tells: str
    status: int


# The syncs of a file that is made and of its folder, or of the file alone.
UNSYNCED = (
    Unsynced("that of a file that is made", None, "EIO:when=1", NO_SYNC, ABNORMAL),
    Unsynced("that of its folder", None, "EIO:when=2", NO_FOLDER, ABNORMAL),
    Unsynced("that of a folder which has none", None, "EINVAL:when=2", "", DONE),
    Unsynced("that of a file that was there", OLD, "EIO:when=1", NO_SYNC, ABNORMAL),
    Unsynced("that of a file that was there, by its quota", OLD, "EDQUOT:when=1", NO_QUOTA, ABNORMAL),
    Unsynced("a second one of a file that was there", OLD, "EIO:when=2", "", DONE),
)
# A volume, and a reel without a record.
TWO_KINDS: tuple[tuple[str, Sequence[Entry]], ...] = (("a volume", entries(1)), ("an empty reel", []))


def can_inject() -> bool:
    """Whether strace is there and may have calls fail."""
    words = ("strace", "-f", "-o", os.devnull, "-e", f"inject={SYNCS}:error=EIO:when=1", "true")
    return bool(shutil.which("strace")) and subprocess.run(words, capture_output=True, check=False).returncode == 0


class Syncs(ReadCase):
    """The file is on the disk, with its name, before a read ends well, also where the reel is empty."""

    def test_order_of_the_calls(self) -> None:
        """The file is locked before anything is sent, and emptied once the label is printed."""
        words = traced(self, CALLS)
        if not words:
            return
        folder = re.escape(str(self.p.folder.resolve()))
        for before in (None, OLD):
            for title, records in TWO_KINDS:
                name = f"{title} over {before and len(before)!r} bytes"
                self.put_out(before)
                with answering(laid_reel(records), replies={}) as model:
                    got = self.p.run(*words[1:], self.p.rdump, *read_words(model.address), program=words[0])
                    came = came_of(images([*records]), model.address)
                self.told(name, got, came.output, DONE, came.told)
                self.file_holds(name, came.file)
                in_order(
                    self,
                    made_in(self.p.folder),
                    (
                        ("the file is locked", "flock", rf"<{folder}/out>, LOCK_EX"),
                        ("the drive is opened", "sendto", r'"O/dev/st0\\n0\\n"'),
                        ("a record is asked for", "sendto", r'"R262144\\n"'),
                        *([("the label is printed", "write", r"^1<.*name /usr")] if records else []),
                        ("the file is emptied", "ftruncate", rf"<{folder}/out>, 0"),
                        *([("the last block is written", "write", rf"<{folder}/out>, .*, {BLOCK}$")] * 2 if records else []),
                        ("the file is synced", "fsync", rf"<{folder}/out>"),
                        *([("its folder is synced", "fsync", rf"<{folder}>")] if before is None else []),
                    ),
                )

    def injected(self, address: str, fault: str, out: str = "out") -> Ended[str]:
        """Reads where these of its syncs fail."""
        words = ("-f", "-qq", "-o", os.devnull, "-e", f"trace={SYNCS}", "-e", f"inject={SYNCS}:error={fault}")
        return self.p.run(*words, self.p.rdump, *read_words(address, out=out), program="strace")

    def test_failing_syncs(self) -> None:
        if not can_inject():
            self.skipTest("strace may not be used")
        for it in UNSYNCED:
            for title, records in TWO_KINDS:
                name = f"{title}, a sync fails, {it.title}"
                self.put_out(it.before)
                with answering(laid_reel(records), replies={}) as model:
                    got, came = self.injected(model.address, it.fault), came_of(images([*records]), model.address)
                self.told(name, got, came.output, it.status, came.told + it.tells)
                self.file_holds(name, came.file)
        with loaded(1) as model:
            self.told("what has no disk", self.injected(model.address, "EIO:when=1+", out="/dev/null"), texts(1), DONE, counted(1))
