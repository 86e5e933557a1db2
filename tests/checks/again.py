"""Lays reels on the drive of the built `rmtd` by hand, in the midst of a dump of the built `rdump`: reels that the dump has counted, and others.

A counted reel is laid back between two volumes, while the client asks whether to try again, and before a dump that was stopped goes on by its
checkpoint file. It has to be left as it is, to the byte, and the attempt has to say whose reel it is. Once the reel is taken away, by hand or by
`rdump mt offline`, the dump goes on to its end. A reel that has anything else is written over, as an empty one is.
"""

from __future__ import annotations

import re
import subprocess
import tempfile
import threading
from contextlib import contextmanager, suppress
from datetime import datetime, timezone
from itertools import count
from pathlib import Path
from typing import Iterator, NamedTuple

from tests.lib.connections import Address, address_of
from tests.lib.drives import drive_words, files_of
from tests.lib.dumping import BLOCKS, DAY, PAYLOAD, RESTORE, DumpCase, Programs, label
from tests.lib.ended import ABNORMAL, DONE
from tests.lib.given import given
from tests.lib.listeners import Relay
from tests.lib.terminals import Terminal
from tests.lib.waiting import GUARD_SECONDS, soon
from tests.lib.wire import DEVICE
from tests.models.rmtd import Entry, images

CAPACITY = 3_100
CHECKPOINT = "kept"

# The volumes of the dump, as their reels' files, and what is printed of them.
FIRST, SECOND = images([label(1, 0), *BLOCKS[:2], None]), images([label(2, 2), BLOCKS[2], None])
BOTH = {"r1": FIRST, "r2": SECOND}
COUNTED = ["volume 1: 2 blocks from 0", "volume 2: 1 blocks from 2"]
COMPLETE = "dump complete: 2 volumes, 3 blocks"
COUNTED_REEL, NO_REEL = "volume 2 failed: CountedReel 1", "volume 2 failed: Refused 6"
ASKED, ABANDONED = "retry?", "dump abandoned"


class File(NamedTuple):
    """What a file holds, and when it was written last."""

    data: bytes
    written: int


def file_of(path: Path) -> File | None:
    """The file of this path, None where there is none."""
    return File(path.read_bytes(), path.stat().st_mtime_ns) if path.exists() else None


class Dump:
    """A dump that runs, whose operator is the test."""

    def __init__(self, p: Programs, words: list[str], errors: int) -> None:
        self.process = subprocess.Popen(
            (p.rdump, *words), cwd=p.folder, stdin=subprocess.PIPE, stdout=subprocess.PIPE, stderr=errors, text=True, bufsize=1
        )
        self.guard = threading.Timer(GUARD_SECONDS, self.process.kill)
        self.guard.start()

    def said(self) -> list[str]:
        """The lines up to the next question, or up to the end."""
        lines: list[str] = []
        while lines[-1:] != [ASKED] and (line := given(self.process.stdout).readline()):
            lines.append(line.rstrip("\n"))
        return lines

    def answer(self, text: str) -> list[str]:
        """Answers, and gives the lines up to the next question, or up to the end."""
        with suppress(BrokenPipeError):
            given(self.process.stdin).write(f"{text}\n")
        return self.said()

    def kill(self) -> None:
        self.process.kill()
        self.process.wait()

    def status(self) -> int:
        """Waits for the end of the dump."""
        with suppress(BrokenPipeError):
            given(self.process.stdin).close()
        return self.process.wait(GUARD_SECONDS)

    def stop(self) -> None:
        self.kill()
        self.guard.cancel()
        with suppress(BrokenPipeError):
            given(self.process.stdin).close()
        given(self.process.stdout).close()


class Site:
    """A server over a stack and a bin, and what lies in these."""

    def __init__(self, p: Programs, address: str) -> None:
        self.p = p
        self.address = address
        self.stack = p.folder / "st0"
        self.bin = p.folder / "bin"
        self.errors = p.folder / "errors"

    def put(self, name: str, data: bytes = b"") -> None:
        """Lays a reel on the stack that holds this."""
        self.stack.joinpath(name).write_bytes(data)

    def lay_back(self, name: str) -> File | None:
        """Moves a reel by hand from the bin onto the stack, and tells what it holds there."""
        self.bin.joinpath(name).rename(self.stack / name)
        return file_of(self.stack / name)

    def take_away(self, name: str) -> None:
        """Moves a reel by hand from the stack into the bin."""
        self.stack.joinpath(name).rename(self.bin / name)

    def mt(self, *words: str) -> str:
        return self.p.run("mt", "--to", self.address, "--device", DEVICE, *words).output

    def is_free(self) -> bool:
        """Whether nobody has the drive, now or soon. An attempt that failed has it until the server has seen its end."""
        return soon(lambda: not self.mt("nop", "1").startswith("E16"))

    def goes_offline(self) -> bool:
        """Whether the first reel of the stack is moved to the bin by the client's own operation."""
        return self.is_free() and self.mt("offline", "1") == "A1\n"

    def reels(self) -> tuple[dict[str, bytes], dict[str, bytes]]:
        """What the reels of the stack and of the bin hold."""
        stack, taken = files_of(self.stack, self.bin)
        return stack, taken

    @contextmanager
    def dump(self, *more: str, to: str = "", errors: int | None = None) -> Iterator[Dump]:
        """A dump of three blocks, whose standard error goes to a file, or there."""
        with self.errors.open("ab") as file:
            run = Dump(self.p, self.p.dump_words(to or self.address, *more), file.fileno() if errors is None else errors)
        try:
            yield run
        finally:
            run.stop()

    def told(self) -> str:
        """What the dumps have told so far."""
        return self.errors.read_text()


class ReelCase(DumpCase):
    """A server over a stack and a bin, and dumps to it in whose midst reels are laid by hand."""

    @contextmanager
    def site(self, *reels: str) -> Iterator[Site]:
        """A site of its own with these empty reels."""
        with tempfile.TemporaryDirectory(dir=self.p.folder) as name:
            own = Programs(self, Path(name))
            own.file("payload", PAYLOAD)
            for it in ("st0", "bin"):
                (own.folder / it).mkdir()
            with own.listening("--capacity", str(CAPACITY), *drive_words(own.folder)) as (address, _):
                site = Site(own, address)
                for reel in reels:
                    site.put(reel)
                yield site

    def stays(self, title: str, it: Site, name: str, before: File | None) -> None:
        """A reel of the stack is as it was, and was not written."""
        now = file_of(it.stack / name)
        self.same(f"{title}: the reel is as it was", (now is not None, now), (True, before))

    def tells_what_to_do(self, title: str, it: Site) -> None:
        """Standard error says how the reel is taken away."""
        self.holds(f"{title}: what is told", "offline" in it.told(), it.told())

    def completes(self, title: str, it: Site, run: Dump, lines: list[str], in_bin: dict[str, bytes]) -> None:
        """The dump is complete, and the bin has these reels."""
        self.same(f"{title}: the dump is complete", (lines, run.status()), ([COUNTED[1], COMPLETE], DONE), it.told())
        self.same(f"{title}: the bin", it.reels()[1], in_bin)

    def gives_way(self, title: str, it: Site, run: Dump, lines: list[str], laid: File | None) -> None:
        """The attempt failed by the counted reel, which is as it was laid; it is taken away, and the dump is complete on another one."""
        self.same(f"{title}: the attempt fails", lines, [COUNTED_REEL, ASKED], it.told())
        self.stays(title, it, "r1", laid)
        self.tells_what_to_do(title, it)
        self.holds(f"{title}: the reel is taken away", it.goes_offline())
        it.put("r2")
        self.completes(title, it, run, run.answer("yes"), BOTH)


class BetweenVolumes(ReelCase):
    """The first volume is counted, and its reel is laid back before the connection for the second one passes."""

    @contextmanager
    def laid_between(self, title: str) -> Iterator[tuple[Site, Dump, File | None]]:
        """The attempt at the second volume has failed by the counted reel."""
        with self.site("r1", "r2") as it:
            laid: list[File | None] = []
            connections = count(1)

            def lay() -> Address:
                if next(connections) == 2:
                    laid.append(it.lay_back("r1"))
                return address_of(it.address)

            with Relay(lay) as relay, it.dump(to=relay.address) as run:
                self.same(f"{title}: the attempt fails", run.said(), [COUNTED[0], COUNTED_REEL, ASKED], it.told())
                self.same(f"{title}: the reel has its volume", [file and file.data for file in laid], [FIRST])
                self.stays(title, it, "r1", laid[0])
                self.tells_what_to_do(title, it)
                yield it, run, laid[0]

    def test_it_is_moved_offline(self) -> None:
        title = "between volumes, then offline"
        with self.laid_between(title) as (it, run, _):
            self.holds(f"{title}: the reel is taken away", it.goes_offline(), it.reels()[0].keys())
            self.completes(title, it, run, run.answer("yes"), BOTH)

    def test_another_reel_is_laid_before_it(self) -> None:
        title = "between volumes, then another reel is laid before it"
        with self.laid_between(title) as (it, run, laid):
            self.holds(f"{title}: the drive is free", it.is_free())
            it.put("r0")
            self.completes(title, it, run, run.answer("yes"), {"r0": SECOND})
            self.stays(title, it, "r1", laid)

    def test_it_is_taken_away_by_hand(self) -> None:
        title = "between volumes, then taken away by hand"
        with self.laid_between(title) as (it, run, _):
            self.holds(f"{title}: the drive is free", it.is_free())
            it.take_away("r1")
            self.completes(title, it, run, run.answer("yes"), BOTH)

    def test_it_stays_there(self) -> None:
        title = "between volumes, and it stays there"
        with self.laid_between(title) as (it, run, laid):
            for number in range(2):
                self.holds(f"{title}: the drive is free", it.is_free())
                self.same(f"{title}: attempt {number + 2} fails", run.answer("yes"), [COUNTED_REEL, ASKED])
                self.stays(title, it, "r1", laid)
            self.same(f"{title}: the dump is abandoned", (run.answer("no"), run.status()), ([ABANDONED], ABNORMAL))
            self.stays(title, it, "r1", laid)
            self.same(f"{title}: the other reel is empty", it.reels(), ({"r1": FIRST, "r2": b""}, {}))


class Counted(ReelCase):
    """Counted reels that are laid back while the operator is asked, and before a dump goes on."""

    def stop_a_dump(self, it: Site, title: str) -> None:
        """A dump with a checkpoint file is killed where it asks for a reel for the second volume."""
        with it.dump("--checkpoint", CHECKPOINT) as run:
            self.same(f"{title}: no reel is left", run.said(), [COUNTED[0], NO_REEL, ASKED], it.told())
            run.kill()
        text = it.p.text(CHECKPOINT) or ""
        self.holds(f"{title}: the file has the count", text.endswith("blocks 3\ncounted 1 0 2\n"), text)
        self.holds(f"{title}: the drive is free", it.is_free())

    def test_at_the_question(self) -> None:
        """The stack is empty after the first volume, and the operator lays the reel back that was counted; then another one."""
        title = "at the question"
        with self.site("r1") as it, it.dump() as run:
            self.same(f"{title}: no reel is left", run.said(), [COUNTED[0], NO_REEL, ASKED], it.told())
            self.holds(f"{title}: the drive is free", it.is_free())
            laid = it.lay_back("r1")
            self.gives_way(title, it, run, run.answer("yes"), laid)

    def test_before_a_dump_goes_on(self) -> None:
        """The dump that was stopped knows the reel by its checkpoint file."""
        title = "before a dump goes on"
        with self.site("r1") as it:
            self.stop_a_dump(it, title)
            laid = it.lay_back("r1")
            with it.dump("--checkpoint", CHECKPOINT) as run:
                self.gives_way(title, it, run, run.said(), laid)
            self.same(f"{title}: the file is gone", it.p.bytes_of(CHECKPOINT), None)

    def test_without_the_checkpoint_file(self) -> None:
        title = "a new dump with the same words, and no file"
        with self.site("r1") as it:
            self.stop_a_dump(it, title)
            (it.p.folder / CHECKPOINT).unlink()
            it.lay_back("r1")
            it.put("r2")
            with it.dump("--checkpoint", CHECKPOINT) as run:
                self.same(f"{title}: it counts nothing, and is complete", run.said(), [*COUNTED, COMPLETE], it.told())
            self.same(f"{title}: the bin", it.reels(), ({}, BOTH))

    def test_each_of_three_volumes(self) -> None:
        """Two volumes are counted: the reel of either is known, whichever is laid back."""
        block = BLOCKS[0]
        volumes = [[label(1, 0), block, block, None], [label(2, 2), block, block, None], [label(3, 4), block, None]]
        with self.site("r1", "r2") as it:
            it.p.file("payload", 5 * block)
            with it.dump() as run:
                counted = ["volume 1: 2 blocks from 0", "volume 2: 2 blocks from 2", "volume 3 failed: Refused 6", ASKED]
                self.same("three volumes: two are counted", run.said(), counted, it.told())
                for volume, name in ((2, "r2"), (1, "r1"), (2, "r2")):
                    self.holds(f"three volumes, {name}: the drive is free", it.is_free())
                    laid = it.lay_back(name)
                    lines = run.answer("yes")
                    self.same(f"three volumes, {name}: the attempt fails", lines, [f"volume 3 failed: CountedReel {volume}", ASKED])
                    self.stays(f"three volumes, {name}", it, name, laid)
                    self.holds(f"three volumes, {name}: the reel is taken away", it.goes_offline())
                it.put("r3")
                wanted = ["volume 3: 1 blocks from 4", "dump complete: 3 volumes, 5 blocks"]
                self.same("three volumes: complete", (run.answer("yes"), run.status()), (wanted, DONE))
            reels = {f"r{number}": images(entries) for number, entries in enumerate(volumes, 1)}
            self.same("three volumes: the bin", it.reels(), ({}, reels))


class Other(NamedTuple):
    """What a reel may hold that is written over in a dump that has counted its first volume, and whose label is told: none of what is no label."""

    title: str
    data: bytes
    whose: str = ""


def labels() -> Iterator[Other]:
    """Reels with a label that is none of a counted volume, or nearly a label."""
    text = label(1, 0)
    of_others: tuple[tuple[str, list[Entry], str], ...] = (
        ("of another name", [text.replace(b"/usr", b"/opt"), BLOCKS[0], None], "/opt level 0 2000-02-29, volume 1"),
        ("of another date", [label(1, 0, date=DAY - 1), BLOCKS[0], None], "/usr level 0 2000-02-28, volume 1"),
        ("of another base date", [label(1, 0, since=1), BLOCKS[0], None], "/usr level 0 2000-02-29, volume 1"),
        ("of another level", [text.replace(b"level 0", b"level 1"), BLOCKS[0], None], "/usr level 1 2000-02-29, volume 1"),
        ("of a volume that was not counted", [label(2, 2), BLOCKS[2]], "/usr level 0 2000-02-29, volume 2"),
        ("of a volume from another block on", [label(1, 1), *BLOCKS[1:], None], "/usr level 0 2000-02-29, volume 1"),
        ("of which the last byte differs", [text[:-1] + b"x", None], ""),
        ("without its last byte", [text[:-1], None], ""),
        ("without its zero bytes", [text.rstrip(b"\0"), None], ""),
    )
    for title, entries, whose in of_others:
        yield Other(f"a label {title}", images(entries), whose)


OTHERS = (
    *labels(),
    Other("a foreign tape", images([b"hello", None])),
    Other("a foreign tape of long records", images([b"t" * 2_560, None])),
    Other("a mark before a counted volume", images([None, label(1, 0), *BLOCKS[:2]])),
    Other("marks alone", images([None, None, None])),
    Other("a blank reel", b""),
    Other("a blank reel with a torn record", images([label(1, 0)])[:-1]),
)
COPIES: tuple[tuple[str, list[Entry]], ...] = (
    ("a copy of a counted volume", [label(1, 0), *BLOCKS[:2], None]),
    ("a label and a byte more", [label(1, 0) + b"\0", None]),
)


class Others(ReelCase):
    """Other reels, for the second volume: what they hold is written over, and nothing is asked."""

    def test_what_is_written_over(self) -> None:
        """Whose label it was is told."""
        for other in OTHERS:
            with self.site("r1") as it:
                it.put("r2", other.data)
                with it.dump() as run:
                    self.same(f"{other.title}: the dump is complete", (run.said(), run.status()), ([*COUNTED, COMPLETE], DONE), it.told())
                self.same(f"{other.title}: the bin", it.reels(), ({}, BOTH))
                told = RESTORE.sub("", it.told())
                self.same(f"{other.title}: what is told", told, f"this reel has: {other.whose}\n" if other.whose else "")

    def test_copies_of_counted_volumes(self) -> None:
        for title, entries in COPIES:
            with self.site("r1") as it:
                it.put("r2", images(entries))
                before = file_of(it.stack / "r2")
                with it.dump() as run:
                    self.same(f"{title}: the attempt fails", run.said(), [COUNTED[0], COUNTED_REEL, ASKED], it.told())
                    self.stays(title, it, "r2", before)

    def test_what_a_terminal_is_told(self) -> None:
        """What is written over: a label, and nothing of a blank reel."""
        at = int(datetime(2026, 11, 20, 13, 5, tzinfo=timezone.utc).timestamp())
        text = f"name /home\nlevel 3\ndate {at}\nsince 0\nvolume 2\nfirst 7\n".encode().ljust(1024, b"\0")
        for other in (
            Other("a label of another dump", images([text, BLOCKS[0], None]), "/home level 3 2026-11-20, volume 2"),
            Other("a label that was not counted", images([label(1, 0)]), "/usr level 0 2000-02-29, volume 1"),
            Other("a blank reel", b""),
        ):
            with self.site() as it, Terminal() as terminal:
                it.put("r1", other.data)
                it.put("r2")
                with it.dump(errors=terminal.far) as run:
                    terminal.leave()
                    self.same(f"{other.title}: the dump is complete", (run.said(), run.status()), ([*COUNTED, COMPLETE], DONE))
                shown = terminal.shown()
                wanted = [f"this reel has: {other.whose}\r\n"] if other.whose else []
                self.same(f"{other.title}: what a terminal tells", re.findall("this reel has.*\n", shown), wanted, shown)
