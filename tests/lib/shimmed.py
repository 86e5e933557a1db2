"""The built programs under the library of hostile.c: what comes of a run, a dump to a server over a drive, and the courses that one may take."""

from __future__ import annotations

import subprocess
from contextlib import contextmanager
from pathlib import Path
from typing import Generic, Iterator, NamedTuple, TypeVar

from tests.lib.drives import folders, held
from tests.lib.ended import ABNORMAL, DONE
from tests.lib.places import built
from tests.lib.servers import at_drive
from tests.lib.shim import Shim, ShimCase
from tests.lib.waiting import GUARD_SECONDS
from tests.lib.wire import DEVICE
from tests.models.checkpoint import text_of
from tests.models.rmtd import images
from tests.models.world import Run, Volume

# The least word for a listener: any port of the loopback.
LISTEN = ("--listen", "127.0.0.1:0")

# The calls that a client makes at a connection.
AT_CONNECTIONS = ("socket", "connect", "setsockopt", "send", "sendmsg", "recv")

L = TypeVar("L", covariant=True)
T = TypeVar("T")


class Ran(NamedTuple, Generic[L]):
    """What a program ended with (below 0: a signal), wrote to standard output and standard error, and left behind, and the calls that were
    seen of it."""

    status: int
    output: bytes
    told: bytes
    left: L
    calls: tuple[str, ...] = ()

    def leaving(self, left: T) -> Ran[T]:
        """The same run, which left this behind."""
        return Ran(self.status, self.output, self.told, left, self.calls)

    def seen(self) -> tuple[int, bytes, L]:
        """All but what is told on standard error."""
        return self.status, self.output, self.left

    def shown(self) -> tuple[object, ...]:
        """What is told of a run that is not as it has to be."""
        left = self.left.shown() if isinstance(self.left, Left) else self.left
        return self.status, self.output, self.told[-300:], left


class ShimmedPrograms(NamedTuple):
    """The built programs, and the library that they run under. Those of `dumping.Programs` run by themselves in a folder, and tell text."""

    rmtd: str
    rdump: str
    rsim: str
    shim: Shim

    def run(self, words: tuple[str, ...], rules: str | None = "", sent: bytes = b"", path: str = "") -> Ran[object]:
        """Runs a program that meets these rules, or by itself if they are None."""
        self.shim.forget()
        environment = None if rules is None else self.shim.environment(rules, path)
        try:
            got = subprocess.run(words, input=sent, capture_output=True, env=environment, timeout=GUARD_SECONDS, check=False)
        except subprocess.TimeoutExpired as hung:
            return Ran(-1, hung.stdout or b"", hung.stderr or b"", None, tuple(self.shim.calls()))
        return Ran(got.returncode, got.stdout, got.stderr, None, tuple(self.shim.calls()))


class SiteCase(ShimCase):
    """Tests that run the built programs under the library."""

    p: ShimmedPrograms

    def setUp(self) -> None:
        super().setUp()
        self.p = ShimmedPrograms(built("rmtd"), built("rdump"), built("rsim"), self.shim)

    def ends(self, name: str, got: Ran[object], output: bytes, status: int = DONE) -> bool:
        """A program wrote this to standard output, and ended with this status."""
        return self.same(name, (got.output, got.status), (output, status), got.shown())


# Dumps.

BLOCK, CAPACITY = 1024, 3_100
DAY, DAY_BEFORE = 951_868_800, 951_782_400
OLD_DATES = b"/usr 0 Tue Feb 29 00:00:00 2000\n/usr 1 Tue Feb 29 00:00:00 2000\n/home 0 Thu Jan 1 00:00:00 1970\n"
NEW_DATES = b"".join(
    b"%-32s %d %s\n" % line
    for line in (
        (b"/usr", 0, b"Tue Feb 29 00:00:00 2000"),
        (b"/usr", 1, b"Wed Mar  1 00:00:00 2000"),
        (b"/home", 0, b"Thu Jan  1 00:00:00 1970"),
    )
)
ASKED, ABANDONED, NOT_UPDATED, NOT_WRITTEN = "retry?", "dump abandoned", "dumpdates not updated", "checkpoint not written"


class Payload(NamedTuple):
    """A payload of so many blocks, and how many of them each of its volumes takes."""

    blocks: int
    volumes: tuple[int, ...]

    def data(self) -> bytes:
        return b"".join(bytes((number,)) * BLOCK for number in range(self.blocks))

    def firsts(self) -> list[int]:
        """The first block of each volume."""
        return [sum(self.volumes[:number]) for number in range(len(self.volumes))]

    def reels(self) -> list[bytes]:
        """The record files of the volumes."""
        files = []
        for number, (first, count) in enumerate(zip(self.firsts(), self.volumes), 1):
            text = f"name /usr\nlevel 1\ndate {DAY}\nsince {DAY_BEFORE}\nvolume {number}\nfirst {first}\n".encode().ljust(1024, b"\0")
            blocks = [self.data()[at * BLOCK : (at + 1) * BLOCK] for at in range(first, first + count)]
            files.append(images([text, *blocks, None]))
        return files

    def lines(self) -> list[str]:
        """What is printed of the volumes, and at the end."""
        counts = [f"volume {number}: {count} blocks from {first}" for number, (first, count) in enumerate(zip(self.firsts(), self.volumes), 1)]
        return [*counts, f"dump complete: {len(self.volumes)} volumes, {self.blocks} blocks"]

    def printed(self, had: int = 0) -> bytes:
        """What a dump without a fault prints, which goes on with so many volumes."""
        return "\n".join([*self.lines()[had:], ""]).encode()

    def checkpoint(self, counted: int) -> bytes:
        """The text of the checkpoint file once so many volumes are counted."""
        run = Run(DEVICE.encode(), b"/usr", 1, DAY, DAY_BEFORE, BLOCK, self.blocks)
        counts = [Volume(number, *it) for number, it in enumerate(zip(self.firsts(), self.volumes), 1)]
        return text_of(run, tuple(counts[:counted]))


NO_BLOCKS, THREE_BLOCKS = Payload(0, (0,)), Payload(3, (2, 1))


class Left(NamedTuple):
    """What a dump leaves: the reels of the bin, dumpdates, the names of files that begin like it or like the checkpoint file, and what that holds."""

    bin: dict[str, bytes]
    dates: bytes
    names: list[str]
    kept: bytes | None = None

    def shown(self) -> tuple[object, ...]:
        """What is told of it: of each reel its length."""
        return {name: len(data) for name, data in self.bin.items()}, self.dates, self.names, self.kept


@contextmanager
def dump_site(p: ShimmedPrograms, payload: Payload) -> Iterator[tuple[Path, tuple[str, ...]]]:
    """A folder with a server over three reels, the payload and dumpdates; and the words of a dump to it that is entered."""
    with folders(r1=b"", r2=b"", r3=b"") as folder, at_drive(folder, "--capacity", str(CAPACITY)) as address:
        folder.joinpath("payload").write_bytes(payload.data())
        folder.joinpath("dates").write_bytes(OLD_DATES)
        to = ("--to", address, "--device", DEVICE)
        what = ("--fs", "/usr", "--level", "1", "--block", str(BLOCK), "--payload", str(folder / "payload"))
        yield folder, (p.rdump, "dump", *to, *what, "--dumpdates", str(folder / "dates"), "--update")


DATED = ("--date", str(DAY))
KEPT = "checkpoint"


def kept_words(folder: Path) -> tuple[str, str]:
    """The words that have a dump keep what it counted."""
    return "--checkpoint", str(folder / KEPT)


def left(folder: Path) -> Left:
    """What stands after a dump."""
    dates, kept = folder / "dates", folder / KEPT
    names = sorted(it.name for it in folder.iterdir() if it.name.startswith((dates.name, KEPT)))
    return Left(held(folder)[1], dates.read_bytes(), names, kept.read_bytes() if kept.exists() else None)


def dumped(p: ShimmedPrograms, payload: Payload, answer: bytes, rules: str, path: str = "", date: tuple[str, ...] = DATED) -> Ran[Left]:
    """A dump that is entered, by a client that meets these rules."""
    with dump_site(p, payload) as (folder, words):
        return p.run((*words, *date), rules, answer, path).leaving(left(folder))


class Course(NamedTuple):
    """What a dump printed, where that is lawful: how many volumes are counted, the faults of the attempts that failed, and how it ended."""

    counted: int
    faults: tuple[str, ...]
    end: str

    def status(self) -> int:
        return DONE if self.end == "complete" else ABNORMAL


def course(payload: Payload, output: bytes, yes: int, had: int | None = None) -> Course | None:
    """The course of a dump where the operator says `yes` so often. None where no dump prints this. Of one with a checkpoint file `had` is how many
    volumes that has at the start: it ends also where a count, or that it begins, cannot be kept."""
    lines, counted, keeps = output.decode().split("\n"), had or 0, had is not None
    faults: tuple[str, ...] = ()
    if lines.pop() != "":
        return None
    while lines:
        line = lines.pop(0)
        failed = f"volume {counted + 1} failed: "
        if line.startswith(failed) and lines[:1] == [ASKED]:
            faults += (line.removeprefix(failed),)
            lines.pop(0)
            keeps = False
            if len(faults) > yes:
                return Course(counted, faults, "abandoned") if lines == [ABANDONED] else None
        elif keeps and line == NOT_WRITTEN and not lines:
            return Course(counted, faults, "not kept")
        elif counted < len(payload.volumes) and line == payload.lines()[counted]:
            counted, keeps = counted + 1, had is not None
        elif counted == len(payload.volumes) and line == payload.lines()[-1] and lines in ([], [NOT_UPDATED]):
            return Course(counted, faults, "not entered" if lines else "complete")
        else:
            return None
    return None
