"""Checks from outside what the built `rdump dump --payload -` does with standard input.

It reads it into a file, and dumps that. The file has no name, so nothing stays of it; with `--checkpoint FILE` it is FILE.payload, and the same
command goes on with it. What is on the reels is read back by the built `rdump cat`, or follows from the plain model of a server. A full disk takes
root, who may mount a small one.
"""

from __future__ import annotations

import fcntl
import os
import random
import re
import stat
import threading
import time
from pathlib import Path
from typing import NamedTuple

from tests.lib.case import random_seed
from tests.lib.cats import LOOK_ALIKE, cat
from tests.lib.checkpoints import ALL_REQUESTS, BOTH, FILE, FIRST_REQUESTS, KEPT, ONE, SECOND, acted_on_saying, going_on, kept, small_disk, stop, two
from tests.lib.connections import NOWHERE
from tests.lib.drives import folders
from tests.lib.dumping import EMPTY_VOLUME, LOST, PAYLOAD, TWO_VOLUMES, DumpCase, end_of, in_room
from tests.lib.ended import ABNORMAL, DONE, FAILED, Ended
from tests.lib.given import given
from tests.lib.played_servers import Model, Reel
from tests.lib.processes import peak_of
from tests.lib.servers import at_drive
from tests.lib.traced import CALLS, in_order, made_in, traced
from tests.lib.volumes import printed, volumes_of
from tests.lib.waiting import GUARD_SECONDS, soon
from tests.models.checkpoint import Checkpoint, decoded

INPUT = "-"
PIPED: dict[str, str | None] = {"payload": INPUT}
NAMED = f"{FILE}.payload"
# The lock of the checkpoint, which a killed dump leaves.
LOCK = f"{FILE}.new"
SEED = 59

# Sizes around a block, around what a pipe holds, and around what is read from it at once.
SIZES = (1, 1023, 1024, 1025, 3072, 65535, 65536, 65537, 131071, 131072, 131073, 300_000)
# A payload of three blocks that is text.
TEXT = "some text\n" * 307 + "x\n"
LARGE = 64 << 20
# A dump takes so many KiB of memory at most.
MOST_MEMORY = 12 << 10

# What is told.
NO_BYTE = "rdump: standard input: it gave no byte: a dump of nothing needs --allow-empty\n"
NO_BLOCK = "rdump: standard input: it is empty: the dump has no block\n"
LEFT = (
    f"rdump: {NAMED}: it is there without a checkpoint: if a run of this command left it, "
    "remove it, and run the command with its pipe again\n"
)
GONE = f"rdump: {NAMED}: it is gone, and the dump of {FILE} cannot go on without it: remove {FILE}, and run the same command with its pipe again\n"
NOT_READ = f"rdump: going on with {NAMED}: standard input is not read\n"


class Spool(NamedTuple):
    """A file without a name that a process has open: the path that it had, its mode, and its length."""

    path: str
    mode: int
    length: int


def spool_of(process: int) -> Spool | None:
    """The file without a name that a process has open."""
    for it in Path(f"/proc/{process}/fd").iterdir():
        path = os.readlink(it)
        found = it.stat()
        if path.endswith(" (deleted)") and stat.S_ISREG(found.st_mode):
            return Spool(path.removesuffix(" (deleted)"), stat.S_IMODE(found.st_mode), found.st_size)
    return None


class SpoolCase(DumpCase):
    """Dumps of standard input."""

    def dump(self, address: str, said: bytes, *more: str, **changed: str | None) -> Ended[str]:
        """Runs `rdump dump` with these words and these bytes in its standard input, a pipe."""
        with self.p.started(*self.words(address, *more, **changed)) as run:
            return end_of(self, run, said)

    def words(self, address: str, *more: str, **changed: str | None) -> list[str]:
        return self.p.dump_words(address, *more, **{**PIPED, **changed})

    def lying(self) -> list[str]:
        """The names of what lies in the folder."""
        return sorted(it.name for it in self.p.folder.iterdir())

    def lying_but_the_lock(self) -> list[str]:
        """The same, but for the lock of a checkpoint."""
        return [it for it in self.lying() if it != LOCK]

    def unread(self, title: str, told: str, *more: str, address: str = NOWHERE, **changed: str | None) -> None:
        """The dump does not start, says this alone, and has read nothing from standard input, which has no end yet."""
        before, had_lock = self.lying_but_the_lock(), LOCK in self.lying()
        output, told_here, status, rest = self.with_open_pipe(address, *more, **changed)
        self.same(f"{title}: it does not start", (output, told_here, status), ("", told, FAILED))
        self.same(f"{title}: nothing was read", rest, b"bytes")
        self.same(f"{title}: the folder", self.lying_but_the_lock(), before)
        self.holds(f"{title}: it leaves no lock", had_lock or LOCK not in self.lying(), self.lying())

    def calls_come(self, wanted: tuple[tuple[str, str, str], ...], *more: str) -> None:
        """A dump makes these calls of the system, one after the other, and then a connection."""
        strace = traced(self, CALLS)
        if not strace:
            return
        with Model(*two()) as model:
            words = (*strace[1:], self.p.rdump, *self.words(model.address, *more))
            got = self.p.run(*words, said=TEXT, program=strace[0])
        self.same("under strace", (got, blocks_of(model)), (Ended(TWO_VOLUMES, "", DONE), TEXT.encode()))
        connects = ("a connection is made", "connect", rf"htons\({model.address.rsplit(':', 1)[1]}\)")
        in_order(self, made_in(self.p.folder), (*wanted, connects))

    def with_open_pipe(self, address: str, *more: str, **changed: str | None) -> tuple[str, str, int, bytes]:
        """What came of a dump whose standard input has a few bytes and no end, and what it left there."""
        reader, writer = os.pipe()
        try:
            os.write(writer, b"bytes")
            with self.p.started(*self.words(address, *more, **changed), stdin=reader) as run:
                got = end_of(self, run)
            os.set_blocking(reader, False)
            try:
                rest = os.read(reader, 64)
            except BlockingIOError:
                rest = b""
            return got.output, got.told, got.status, rest
        finally:
            os.close(reader)
            os.close(writer)


class Unnamed(SpoolCase):
    """Without a checkpoint."""

    def test_sizes(self) -> None:
        """What is piped is what `rdump cat` writes."""
        seed = random_seed(SEED)
        generator = random.Random(seed)
        for size in SIZES:
            data = generator.randbytes(size)
            with folders(r1=b"") as site, at_drive(site) as address:
                got = self.dump(address, data)
                back = cat(size, str(site / "bin"))
            volumes = printed(volumes_of(-(-size // 1024), 1024, 1 << 30))
            self.same(f"{size} bytes: the dump", got, Ended(volumes, "", DONE), seed)
            self.same(f"{size} bytes: what cat writes", back, Ended(data, LOOK_ALIKE, DONE), seed)
            self.same(f"{size} bytes: nothing stays", self.lying(), [])

    def test_pieces(self) -> None:
        """A pipe that gives its bytes in pieces, with pauses."""
        with Model(*two()) as model, self.p.started(*self.words(model.address)) as run:
            at = 0
            for size in (1, 2, 1000, 21, 1024, 1, 1023):
                given(run.stdin).write(PAYLOAD[at : at + size])
                given(run.stdin).flush()
                at += size
                time.sleep(0.02)
            self.same("pieces: all of it", at, len(PAYLOAD))
            got = end_of(self, run)
        self.same("pieces: the dump", got, Ended(TWO_VOLUMES, "", DONE))
        self.same("pieces: the blocks", blocks_of(model), PAYLOAD)

    def test_a_file_of_that_name(self) -> None:
        """A file named - is dumped as ./-, and standard input is not read."""
        self.p.file("-", PAYLOAD)
        with Model(*two()) as model:
            output, told, status, rest = self.with_open_pipe(model.address, payload="./-")
        self.same("a file named -", (output, told, status, rest), (TWO_VOLUMES, "", DONE, b"bytes"))
        self.same("a file named -: the blocks", blocks_of(model), PAYLOAD)

    def test_no_byte(self) -> None:
        self.same("no byte", self.dump(NOWHERE, b""), Ended("", NO_BYTE, FAILED))
        with Model(*two()) as model:
            got = self.dump(model.address, b"", "--allow-empty")
        self.same("no byte that is allowed", got, Ended(EMPTY_VOLUME, NO_BLOCK, DONE))
        with Model(*two()) as model:
            got = self.dump(model.address, PAYLOAD, "--allow-empty")
        self.same("bytes where none are allowed", got, Ended(TWO_VOLUMES, "", DONE))
        self.same("no byte: nothing stays", self.lying(), [])

    def test_the_file(self) -> None:
        """It is in the folder of --dumpdates or of --spool, only its user may read it, and it has no name. After a kill nothing stays."""
        for it in ("dates", "other"):
            self.p.folder.joinpath(it).mkdir()
        here = os.path.realpath(self.p.folder)
        for title, folder, more, dumpdates in (
            ("the folder of --dumpdates", "dates", (), "dates/dumpdates"),
            ("no folder", ".", (), "dumpdates"),
            ("the folder of --spool", "other", ("--spool", "other"), "dates/dumpdates"),
        ):
            with self.p.started(*self.words(NOWHERE, *more, dumpdates=dumpdates)) as run:
                given(run.stdin).write(PAYLOAD)
                given(run.stdin).flush()
                there = soon(lambda: (found := spool_of(run.pid)) and found.length == len(PAYLOAD))
                found = spool_of(run.pid)
                names = [it.name for it in self.p.folder.joinpath(folder).iterdir() if it.is_file()]
                run.kill()
            self.holds(f"{title}: it has a file without a name", there and found, found)
            self.same(f"{title}: its folder", found and os.path.dirname(found.path), os.path.normpath(f"{here}/{folder}"))
            self.same(f"{title}: its mode, and what has a name there", (found and found.mode, names), (0o600, []))
        left = [str(it) for it in self.p.folder.rglob("*") if it.is_file()]
        self.same("after a kill nothing stays", left, [])

    def test_a_name_that_is_taken(self) -> None:
        """A file of the name that it would have for a moment stays, and another name is taken."""
        self.p.file(".rdump-spool.0", b"of another")
        with Model(*two()) as model:
            got = self.dump(model.address, PAYLOAD)
        self.same("a name that is taken", got, Ended(TWO_VOLUMES, "", DONE))
        self.same("a name that is taken: the file stays", self.p.bytes_of(".rdump-spool.0"), b"of another")

    def test_order_of_faults(self) -> None:
        """What is wrong is told before anything is read."""
        self.p.file("bad", b"hello\n")
        output, told, status, rest = self.with_open_pipe(NOWHERE, dumpdates="bad")
        bad = ("line 1: bad line\n", "rdump: bad: it is no dumpdates file\n", FAILED, b"bytes")
        self.same("bad dumpdates", (output, told, status, rest), bad)
        missing = "rdump: nowhere: No such file or directory (os error 2)\n"
        self.unread("no folder for it", missing, "--spool", "nowhere")
        self.p.file("file", b"")
        self.unread("its folder is a file", "rdump: file: Not a directory (os error 20)\n", "--spool", "file")

    def test_usage(self) -> None:
        alone = "--spool and --allow-empty are given with --payload - only"
        self.p.file("payload", PAYLOAD)
        for title, told, words, payload in (
            ("a spool for a file", alone, ("--spool", "."), "payload"),
            ("a file that may be empty", alone, ("--allow-empty",), "payload"),
            ("a spool and a checkpoint", "--spool or --checkpoint is given, and not both", ("--spool", ".", *KEPT), INPUT),
        ):
            self.fails(title, self.dump(NOWHERE, PAYLOAD, *words, payload=payload), f"error: {told}\n", "Usage: rdump dump")
        self.same("usage: nothing is made", self.lying(), ["payload"])

    def test_nobody_answers(self) -> None:
        """Standard input is at its end when `retry?` is asked."""
        for said in (PAYLOAD, b"yes\n" * 5):
            got = self.dump(NOWHERE, said)
            self.same("a dump that fails", (got.output, got.status), (LOST, ABNORMAL), got.told)
        self.same("a dump that fails: nothing stays", self.lying(), [])

    def test_no_room(self) -> None:
        """A limit on the size of files, and a full disk. Nothing is sent, and nothing stays."""
        for title, said in (("no room", "x" * 20_000), ("room", "x" * 8192)):
            with Model(Reel("r1", 1 << 20)) as model:
                got = self.p.run(*self.words(model.address), said=said, **in_room(8192))
                sent = len(model.logs)
            wanted = Ended("", "rdump: .: File too large (os error 27)\n", FAILED) if title == "no room" else Ended(printed([(0, 8)]), "", DONE)
            self.same(title, (got, sent == 0), (wanted, title == "no room"))
        self.same("no room: nothing stays", self.lying(), [])

    def test_a_full_disk(self) -> None:
        disk = self.p.folder / "small"
        if not self.enterContext(small_disk(disk)):
            self.skipTest("no small disk can be mounted")
        full = "No space left on device (os error 28)\n"
        got = self.dump(NOWHERE, bytes(65536), "--spool", "small")
        self.same("a full disk", got, Ended("", f"rdump: small: {full}", FAILED))
        self.same("a full disk: nothing stays", os.listdir(disk), [])
        got = self.dump(NOWHERE, bytes(65536), "--checkpoint", "small/kept")
        self.same("a full disk, with a checkpoint", got, Ended("", f"rdump: small/kept.payload: {full}", FAILED))
        self.same("a full disk, with a checkpoint: nothing stays", os.listdir(disk), [])

    def test_order_of_calls(self) -> None:
        """The file is made and loses its name; what is read is written, and synced before a connection is made."""
        self.calls_come(
            (
                ("it is made", "open", r'\.rdump-spool\.0", .*O_CREAT\|O_EXCL.*, 0600'),
                ("its name is removed", "unlink", r'\.rdump-spool\.0"'),
                ("the bytes are written", "write", r"\.rdump-spool\.0"),
                ("it is synced", "fsync", r"\.rdump-spool\.0"),
            )
        )

    def test_memory(self) -> None:
        """A large payload from a pipe is not kept in memory."""
        blocks, seen = LARGE // 65536, list[int]()
        there = threading.Event()

        def look() -> None:
            there.wait(GUARD_SECONDS)
            seen.append(peak_of(run.pid))

        # An open, a rewind, a look, a rewind, the label and the blocks are followed by the mark, the move to the bin and the close.
        with Model(Reel("r1", LARGE + 8 * blocks + 65536), acts={blocks + 8: look}) as model:
            with self.p.started(*self.words(model.address, block="65536")) as run:
                there.set()
                got = end_of(self, run, bytes(LARGE))
        self.same("64 MiB: the dump", got, Ended(printed([(0, blocks)]), "", DONE))
        self.holds("64 MiB: the memory", seen and seen[0] < MOST_MEMORY, seen)


def blocks_of(*models: Model) -> bytes:
    """The blocks of the reels in the bins, in order."""
    return b"".join(it or b"" for model in models for reel in model.bin for it in reel.entries[1:-1])


class Named(SpoolCase):
    """With a checkpoint."""

    def kept_dump(self, address: str, said: bytes, *more: str, **changed: str | None) -> Ended[str]:
        return self.dump(address, said, *KEPT, *more, **changed)

    def stopped(self, number: int) -> Ended[str]:
        """A dump of standard input that is killed at its request of this number."""
        return acted_on_saying(self.p, PAYLOAD, number, stop, True, payload=INPUT)

    def test_a_dump_that_is_not_stopped(self) -> None:
        seen: list[tuple[list[str], bytes | None, int]] = []

        def look() -> None:
            mode = stat.S_IMODE(self.p.folder.joinpath(NAMED).stat().st_mode)
            seen.append((self.lying(), self.p.bytes_of(NAMED), mode))

        with Model(*two(), acts={1: look, ALL_REQUESTS: look}) as model:
            got = self.kept_dump(model.address, PAYLOAD)
        self.same("not stopped", got, Ended(TWO_VOLUMES, "", DONE))
        self.same("not stopped: the files meanwhile", seen, [([FILE, LOCK, NAMED], PAYLOAD, 0o600)] * 2)
        self.same("not stopped: nothing stays", self.lying(), [])
        self.same("not stopped: the blocks", blocks_of(model), PAYLOAD)

    def test_order_of_calls(self) -> None:
        """The file is made and locked; what is read is written, and synced with its folder before the checkpoint is kept."""
        folder = re.escape(str(self.p.folder.resolve()))
        named = re.escape(NAMED)
        self.calls_come(
            (
                ("it is made", "open", rf'{named}", .*O_CREAT\|O_EXCL.*, 0600'),
                ("it is locked", "flock", rf"{named}>, LOCK_EX"),
                ("the bytes are written", "write", rf"{named}>"),
                ("it is synced", "fsync", rf"{named}>"),
                ("its folder is synced", "fsync", rf"<{folder}>"),
                ("the checkpoint is kept", "rename", rf'{re.escape(FILE)}\.new\.1".*{re.escape(FILE)}"'),
            ),
            *KEPT,
        )

    def test_a_dump_that_is_stopped(self) -> None:
        """The same command goes on, and reads nothing."""
        for number in (1, 4, FIRST_REQUESTS, FIRST_REQUESTS + 1, SECOND, ALL_REQUESTS):
            title = f"stopped at request {number}"
            self.stopped(number)
            found = decoded(kept(self.p) or b"")
            counts = found.counts if isinstance(found, Checkpoint) else BOTH
            files = [it for it in self.lying() if it != f"{LOCK}.1"]
            self.same(f"{title}: the files", (files, self.p.bytes_of(NAMED)), ([FILE, LOCK, NAMED], PAYLOAD))
            self.p.folder.joinpath(f"{LOCK}.1").unlink(missing_ok=True)
            rest = two()[len(counts) :]
            with Model(*rest) as model:
                output, told, status, left = self.with_open_pipe(model.address, *KEPT)
            lines = TWO_VOLUMES.splitlines(True)[len(counts) :]
            self.same(f"{title}: it goes on", (output, told, status), ("".join(lines), NOT_READ + going_on(counts), DONE))
            self.same(f"{title}: nothing was read", left, b"bytes")
            self.same(f"{title}: the blocks", blocks_of(model), PAYLOAD[2048 * len(counts) :])
            self.same(f"{title}: nothing stays", self.lying(), [])

    def test_nobody_answers(self) -> None:
        """Also where it goes on. The dump is abandoned, and both files are removed."""
        got = self.kept_dump(NOWHERE, PAYLOAD)
        self.same("abandoned", (got.output, got.status, self.lying()), (LOST, ABNORMAL, []), got.told)
        self.stopped(SECOND)
        got = self.kept_dump(NOWHERE, b"yes\n")
        self.same("abandoned where it goes on", (got.output, got.status), (LOST.replace("volume 1", "volume 2"), ABNORMAL), got.told)
        self.holds("abandoned where it goes on: what is told", got.told.startswith(NOT_READ + going_on(ONE)), got.told)
        self.same("abandoned where it goes on: nothing stays", self.lying(), [])

    def test_it_is_stopped_while_it_reads(self) -> None:
        """The file stays, and the next run names it and touches nothing."""
        with self.p.started(*self.words(NOWHERE, *KEPT)) as run:
            given(run.stdin).write(PAYLOAD[:1500])
            given(run.stdin).flush()
            self.holds("while it reads: it has the file", soon(lambda: self.p.bytes_of(NAMED) == PAYLOAD[:1500]))
            self.unread("another run, while it reads", f"rdump: {FILE}: another run has it\n", *KEPT)
            run.kill()
        self.same("stopped while it reads: the files", self.lying(), [LOCK, NAMED])
        self.p.folder.joinpath(LOCK).unlink()
        self.unread("after a run that was stopped", LEFT, *KEPT)
        self.same("stopped while it reads: the bytes", self.p.bytes_of(NAMED), PAYLOAD[:1500])
        self.p.folder.joinpath(NAMED).unlink()
        with Model(*two()) as model:
            got = self.kept_dump(model.address, PAYLOAD)
        self.same("once it is removed", (got, blocks_of(model)), (Ended(TWO_VOLUMES, "", DONE), PAYLOAD))

    def test_what_has_its_name(self) -> None:
        """Nothing that has the name is touched."""
        path = self.p.folder / NAMED
        self.p.file(NAMED, b"of another")
        self.unread("a file", LEFT, *KEPT)
        with path.open() as held:
            fcntl.flock(held, fcntl.LOCK_EX)
            self.unread("a file that is locked", f"rdump: {NAMED}: another run has it\n", *KEPT)
        self.same("a file: it stays", self.p.bytes_of(NAMED), b"of another")
        path.unlink()
        no_file = f"rdump: {NAMED}: it is no plain file\n"
        path.mkdir()
        self.unread("a folder", no_file, *KEPT)
        path.rmdir()
        path.symlink_to("elsewhere")
        self.unread("a link", no_file, *KEPT)
        self.same("a link: what it leads to", self.lying(), [NAMED])
        path.unlink()
        os.mkfifo(path)
        self.unread("a pipe", no_file, *KEPT)

    def test_limits(self) -> None:
        """Arguments that no run has, and files that are one: standard input is not read, and nothing is made."""
        limits = (
            ("a name", {"fs": "a b"}, "--fs <NAME>: a name is 1 to 255 bytes of printable ASCII without a space"),
            ("a level", {"level": "12"}, "--level 12: a level is 0 to 9"),
            ("a block", {"block": "0"}, "--block 0: a block is 1 to 262144 bytes"),
            ("a date", {"date": "253402300800"}, "--date 253402300800: a date is 0 to 253402300799"),
        )
        for title, changed, told in limits:
            for more in ((), KEPT):
                _, told_here, status, rest = self.with_open_pipe(NOWHERE, *more, **changed)
                came = told in told_here, status, rest, self.lying()
                self.same(f"{title}: it does not start", came, (True, FAILED, b"bytes", []), told_here)
        for word, file in (("dumpdates", "the dumpdates file"), ("catalog", "the catalog")):
            for path in (NAMED, f"./{NAMED}"):
                self.unread(f"the {word}: {path}", f"rdump: {path}: it is {file} too: {path}\n", *KEPT, **{word: path})

    def test_a_dump_that_does_not_begin(self) -> None:
        """Nothing stays of what was read, unless there is a checkpoint."""
        self.p.file("catalog.new", b"")
        with self.p.folder.joinpath("catalog.new").open() as held:
            fcntl.flock(held, fcntl.LOCK_EX)
            got = self.kept_dump(NOWHERE, PAYLOAD, "--catalog", "catalog")
        self.same("a catalog that is locked", (got.output, got.status, "catalog" in got.told), ("", FAILED, True), got.told)
        self.same("a catalog that is locked: the files", self.lying_but_the_lock(), ["catalog.new"])

    def test_it_is_gone(self) -> None:
        self.stopped(SECOND)
        before = kept(self.p)
        self.p.folder.joinpath(NAMED).unlink()
        self.unread("it is gone", GONE, *KEPT)
        self.same("it is gone: the checkpoint", kept(self.p), before)

    def test_it_is_another(self) -> None:
        """What took its place during the dump stays."""

        def exchange() -> None:
            self.p.folder.joinpath(NAMED).unlink()
            self.p.file(NAMED, b"of another")

        with Model(*two(), acts={SECOND: exchange}) as model:
            got = self.kept_dump(model.address, PAYLOAD)
        self.same("another took its place", (got.output, got.status, blocks_of(model)), (TWO_VOLUMES, DONE, PAYLOAD), got.told)
        self.same("another took its place: it stays", (self.lying(), self.p.bytes_of(NAMED)), ([NAMED], b"of another"))

    def test_no_byte(self) -> None:
        self.same("no byte", (self.kept_dump(NOWHERE, b""), self.lying()), (Ended("", NO_BYTE, FAILED), []))
        with Model(*two()) as model:
            got = self.kept_dump(model.address, b"", "--allow-empty")
        self.same("no byte that is allowed", (got, self.lying()), (Ended(EMPTY_VOLUME, NO_BLOCK, DONE), []))

    def test_a_link(self) -> None:
        """The checkpoint is a link: the file is beside what the link leads to."""
        other = self.p.folder / "other"
        other.mkdir()
        self.p.folder.joinpath(FILE).symlink_to("other/kept")
        self.stopped(SECOND)
        self.same("a link: the files", sorted(os.listdir(other)), ["kept", "kept.new", "kept.payload"])
        with Model(Reel("r2", 3100)) as model:
            got = self.kept_dump(model.address, b"")
        told = NOT_READ.replace(NAMED, "other/kept.payload") + going_on(ONE)
        self.same("a link: it goes on", got, Ended("".join(TWO_VOLUMES.splitlines(True)[1:]), told, DONE))
        self.same("a link: nothing stays there", os.listdir(other), [])

    def test_it_is_entered(self) -> None:
        """The date of the dump is that of its start, before the pipe is read, and its entry has it."""
        began = int(time.time())
        with Model(*two()) as model, self.p.started(*self.words(model.address, "--update", *KEPT, date=None)) as run:
            self.holds("the date: it waits for the pipe", soon(lambda: self.p.folder.joinpath(NAMED).exists()))
            time.sleep(2.1)
            got = end_of(self, run, PAYLOAD)
        self.same("the date: the dump", (got.output, got.status), (TWO_VOLUMES, DONE), got.told)
        date = self.p.run("dates", "--file", "dumpdates", "--name", "/usr", "--level", "1")
        self.holds("the date: it is that of the start", began <= int(date.output) <= began + 1, began, date)
