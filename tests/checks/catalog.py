"""Checks from outside what the built `rdump dump --catalog FILE` keeps, and which files it takes for a catalog.

What the line of a volume has to be follows from the reel's file: its SHA-256 by hashlib, which is compared with that of `sha256sum`, and what the
plain decoder of tests/lib/listings.py says of it. Which lines are entered follows from the plain model in tests/models/catalog.py. The server is the
built `rmtd`; the plain model of a server takes its place where a request is lost, or something is done meanwhile. A full disk takes root, who may
mount a small one; the order of the system's calls takes strace.
"""

from __future__ import annotations

import fcntl
import os
import random
import re
import shutil
import signal
import stat
import subprocess
import threading
from collections import Counter
from contextlib import contextmanager
from functools import partial
from pathlib import Path
from typing import IO, Callable, Iterator, NamedTuple

from tests.lib import drives, listings, shimmed
from tests.lib.case import Case
from tests.lib.checkpoints import ALL_REQUESTS, FIRST_REQUESTS, KEPT, ONE, RUN, SECOND, fill, going_on
from tests.lib.checkpoints import kept as kept_text
from tests.lib.checkpoints import small_disk, stopped_at, two
from tests.lib.connections import NOWHERE
from tests.lib.drives import data_of
from tests.lib.dumping import (
    BLOCKS,
    DAY,
    ENTRY,
    NO_BLOCK,
    PAYLOAD,
    RESTORE,
    ROOM,
    TWO_VOLUMES,
    DumpCase,
    Programs,
    as_nobody,
    end_of,
    in_room,
    label,
)
from tests.lib.ended import ABNORMAL, DONE, FAILED, Ended
from tests.lib.given import given
from tests.lib.listings import Label
from tests.lib.places import built
from tests.lib.played_servers import Granting, Model, Reel
from tests.lib.shim import compiled
from tests.lib.terminals import CLEAR, Terminal
from tests.lib.traced import CALLS, in_order, made_in, traced
from tests.lib.volumes import ROOMY, printed, reels_of, volumes_of
from tests.lib.waiting import GUARD_SECONDS
from tests.models import checkpoint
from tests.models.checkpoint import Checkpoint, decoded
from tests.models.rmtd import images
from tests.models.catalog import EQUAL, Begun, Finished, Id, Run, bad_line, compared, counted, dump_text, line_of, lines_of, text_of
from tests.models.world import Volume

FILE = "catalog"
CATALOG = ("--catalog", FILE)
NOT_COMPLETE = "catalog not complete\n"
ADD = "add this line, above those of later volumes:\n"
SEED = 53
# So many dumps of one file at once, so often.
TOGETHER = ((2, 20), (12, 3))
MANY_LINES = 1000
# So many sequences of so many dumps and changes; and what another does to the file between two dumps.
SEQUENCES, STEPS = 20, 7
CHANGES = ("another begins", "another volume", "the last line is cut off", "it is removed")
# What an operator answers who always says yes.
YES = "yes\n" * 20

# The volumes of the usual dump, on reels for two blocks and on one reel, and the reels of each.
SPLIT = [(0, 2), (2, 1)]
FILES = reels_of(PAYLOAD, 1024, SPLIT)
ONE_FILE = reels_of(PAYLOAD, 1024, [(0, 3)])

Act = Callable[[], object]
Make = Callable[[Path], object]


# Lines.


def text_for(reels: list[bytes], size: int = len(PAYLOAD), block: int = 1024) -> bytes:
    """What a dump enters of which these are the reels."""
    return dump_text(reels, size, block)


def lines_for(reels: list[bytes]) -> bytes:
    """The lines of these reels alone."""
    return b"".join(map(line_of, reels))


def known(reels: list[bytes]) -> bytes:
    """The dumps of these reels begin, and their volumes are counted, in the order of their numbers."""
    lines = sorted(map(counted, reels), key=lambda it: (it.id, it.volume))
    return text_of([*(Begun(it, 1) for it in sorted({line.id for line in lines})), *lines])


def volume_line(volume: int, first: int) -> bytes:
    """The line of a volume that has no blocks."""
    return line_of(images([label(volume, first), None]))


OLD = volume_line(9, 9)
USR = Id("/usr", 0, DAY, 0)
# The usual dump begins.
BEGAN = Begun(USR, len(PAYLOAD)).text()


def by_coreutils(folder: Path, names: list[str]) -> list[str] | None:
    """What `sha256sum` says of these files, None where it is not installed."""
    if not shutil.which("sha256sum"):
        return None
    ran = subprocess.run(("sha256sum", *names), cwd=folder, capture_output=True, text=True, timeout=GUARD_SECONDS, check=True)
    return [it.split()[0] for it in ran.stdout.splitlines()]


# Dumps over the built server.


class Site(NamedTuple):
    """The programs, and a server over empty reels of one capacity."""

    p: Programs
    folder: Path
    address: str

    def dump(self, *more: str, **changed: str | None) -> Ended[str]:
        """Runs `rdump dump --catalog` with these words."""
        return self.p.run(*self.p.dump_words(self.address, *CATALOG, *more, **changed))

    def bin(self) -> dict[str, bytes]:
        """The reels of the bin, in the order in which they were taken."""
        return dict(sorted(drives.held(self.folder)[1].items()))


@contextmanager
def site(p: Programs, reels: int, capacity: int) -> Iterator[Site]:
    """A server over so many empty reels."""
    with drives.folders(**{f"r{number:03}": b"" for number in range(1, reels + 1)}) as folder:
        with p.listening("--capacity", str(capacity), *drives.drive_words(folder)) as (address, _):
            yield Site(p, folder, address)


class CatalogCase(DumpCase):
    """Tests of a folder with a payload of three blocks, where dumps keep their sums in one file."""

    def setUp(self) -> None:
        super().setUp()
        self.p.file("payload", PAYLOAD)
        self.kept, self.new = self.p.folder / FILE, self.p.folder / "catalog.new"

    def catalog(self, name: str = FILE) -> bytes | None:
        """What a catalog holds, None if there is none."""
        return data_of(self.p.folder / name)

    def lying(self) -> list[str]:
        """The names of files that begin as the file's."""
        return sorted(it.name for it in self.p.folder.iterdir() if it.name.startswith(FILE))

    def put(self, files: dict[str, bytes]) -> None:
        """Makes files of these bytes, and their folders."""
        for path, data in files.items():
            self.p.folder.joinpath(path).parent.mkdir(exist_ok=True)
            self.p.file(path, data)

    def dump(
        self,
        reels: list[Reel],
        *more: str,
        said: str = "",
        lost: tuple[int, ...] = (),
        acts: dict[int, Act] | None = None,
        **changed: str | None,
    ) -> Ended[str]:
        """A dump to the plain model of a server with these reels."""
        with Model(*reels, lost=lost, acts=acts) as model:
            return self.p.run(*self.p.dump_words(model.address, *more, **changed), said=said)

    def are_told(self, title: str, reels: dict[str, bytes], *paths: str, name: str = FILE) -> None:
        """The verdicts of `rdump ls --catalog` on these reels, which are the files below these paths, are those that have to be."""
        text = self.catalog(name) or b""
        words = {path: listings.said(data).words for path, data in reels.items()}
        wanted = {path: f"{it}, {compared(reels[path], text)}" if it == "whole" else it for path, it in words.items()}
        got = self.p.run("ls", "--catalog", name, *paths)
        came = {path: line.rsplit(": ", 1)[1] for line in got.output.splitlines() for path in reels if line.startswith(f"{path}: ")}
        self.same(f"{title}: ls", (came, got.told, got.status in (DONE, ABNORMAL)), (wanted, "", True))

    def are_kept(self, title: str, it: Site, reels: list[bytes], size: int = len(PAYLOAD), block: int = 1024) -> None:
        """The reels are these, the file has a line for each, and that the dump began and is finished, and every program says so."""
        taken, bin = it.bin(), it.folder / "bin"
        self.same(f"{title}: the reels", [*taken.values()], reels, {name: len(data) for name, data in taken.items()})
        text = self.catalog() or b""
        self.same(f"{title}: the lines", text, text_for(reels, size, block))
        found = by_coreutils(bin, [*taken])
        lines = text.splitlines()[1:-1]
        self.holds(f"{title}: sha256sum", found in (None, [line[:64].decode() for line in lines]), found, text)
        got = self.p.run("ls", "--catalog", FILE, str(bin))
        words = [f": {line[66:].decode().split(' level ', 1)[0]} level " for line in lines]
        came = got.status, sum(line.endswith(": whole, sum equal") for line in got.output.splitlines()), [it for it in words if it not in got.output]
        self.same(f"{title}: ls says that all are equal", came, (DONE, len(reels), []), got)

    def refused(self, title: str, told: str, *more: str, **changed: str | None) -> None:
        """The dump does not start, says this and no more, and leaves the folder as it was."""
        before = self.everything()
        with Model(*two()) as model:
            got = self.p.run(*self.p.dump_words(model.address, *more, **changed))
        self.same(f"{title}: it does not start", (got.output, got.status, model.logs), ("", FAILED, []), got.told)
        self.holds(f"{title}: what is told", re.fullmatch(told, got.told), got.told, told)
        self.same(f"{title}: the files", self.everything(), before)

    def everything(self) -> dict[str, bytes | None]:
        """All that lies in the folder, by name: the bytes of a plain file, and None for a folder, a pipe, or a link to nothing."""
        return {it.name: it.read_bytes() if it.is_file() else None for it in self.p.folder.iterdir()}

    def unentered(self, title: str, got: Ended[str], files: list[bytes], why: str) -> None:
        """The lines of these reels could not be entered, for this reason: each is told whole, and the dump went on and is complete."""
        tells = "".join(f"rdump: {FILE}: {why}: {ADD}{line_of(it).decode()}" for it in files) + NOT_COMPLETE
        self.same(f"{title}: what is told", got.told, tells)
        is_complete = (got.output.splitlines() or [""])[-1].startswith("dump complete: ")
        self.same(f"{title}: the dump", (got.status, is_complete), (ABNORMAL, True), got)
        self.same(f"{title}: it is entered", self.p.text("dumpdates"), ENTRY)
        self.p.folder.joinpath("dumpdates").unlink(missing_ok=True)


# Examples of the model that were worked out by hand: a volume without blocks, and one of two blocks of 512 bytes of zeros, each with its mark. Their
# sums were made by `sha256sum`, of what `printf` and `dd bs=1024 conv=sync` wrote.
LABEL = b"name /usr\nlevel 0\ndate 951782400\nsince 0\nvolume 1\nfirst 0\n".ljust(1024, b"\0")
FRAME, ZEROS = (1024).to_bytes(4, "little"), b"\0\2\0\0" + bytes(512) + b"\0\2\0\0"
USR_WORDS = b"/usr level 0 date 951782400 since 0 volume 1 first 0"
SHA_256 = (
    b"35063d3736453d6b1b0141ccb150c798066209e3024dd756d5c9091f1694b9f1",
    b"d1b08b5078fcf49363f4647a045b8dfc4329b417c9ee8a2d3ed2d547a52dcd35",
)
EXAMPLES = (
    (FRAME + LABEL + FRAME + bytes(4), SHA_256[0] + b"  " + USR_WORDS + b", 0 blocks of 0 bytes, 1036 bytes\n"),
    (FRAME + LABEL + FRAME + 2 * ZEROS + bytes(4), SHA_256[1] + b"  " + USR_WORDS + b", 2 blocks of 512 bytes, 2076 bytes\n"),
)
# What makes the second line one that is none, if it comes in place of other bytes.
SPOILED = (
    *((b"2 blocks", b"3 blocks"), (b"512", b"0"), (b"volume 1", b"volume 0"), (b"level 0", b"level 10"), (b"level 0", b"level 00")),
    *((b"  /", b" /"), (b"/usr", b""), (b"/usr", b"a b"), (b"2076", b"2077"), (b"\n", b"\r\n"), (b"\n", b"")),
    *((b" bytes\n", b" bytes: whole\n"), (b"951782400", b"253402300800"), (b"first 0", b"first 2147483648"), (b"since 0", b"since")),
    *((SHA_256[1][:1], b"g"), (SHA_256[1][:1], b"")),
)


# A dump begins and is finished, and what makes such a line none.
DUMP_LINES = (
    b"begun     /usr level 0 date 951782400 since 0: 1024 bytes\n",
    b"finished  /usr level 0 date 951782400 since 0: 1 volumes, 2 blocks of 512 bytes, 1024 bytes\n",
)
SPOILED_DUMPS = (
    *((b"begun     ", b"begun    "), (b"begun     ", b"begun      "), (b"finished  ", b"finished "), (b"finished", b"Finished"), (b"/usr", b"")),
    *((b"since 0:", b"since 0"), (b"since 0", b"since 00"), (b"level 0", b"level 10"), (b"1024 bytes", b"18446744073709551616 bytes")),
    *((b"1 volumes", b"0 volumes"), (b"1 volumes", b"2147483648 volumes"), (b"512", b"0"), (b"512", b"262145"), (b"\n", b""), (b"\n", b" \n")),
)


class Examples(Case):
    """The model of a catalog says what was worked out by hand."""

    def test_lines(self) -> None:
        for data, line in EXAMPLES:
            self.same("the model: a line", line_of(data), line)
            self.same("the model: a line is read", (bad_line(line), compared(data, DUMP_LINES[0] + line)), (None, EQUAL), line)

    def test_lines_that_are_none(self) -> None:
        line = EXAMPLES[1][1]
        for old, new in SPOILED:
            spoiled = line.replace(old, new, 1)
            self.same(f"the model: {old!r} is {new!r}", bad_line(line + spoiled), 2, spoiled)
        self.same("the model: no line", (bad_line(b""), bad_line(b"\n")), (None, 1))

    def test_lines_of_dumps(self) -> None:
        for line in DUMP_LINES:
            self.same("the model: a dump begins, or is finished", (bad_line(line), text_of(lines_of(line))), (None, line))
            for old, new in SPOILED_DUMPS:
                spoiled = line.replace(old, new, 1)
                self.same(f"the model: {old!r} is {new!r}", bad_line(line + spoiled), None if spoiled == line else 2, spoiled)

    def test_verdicts(self) -> None:
        """What is in force, by hand."""
        reel = EXAMPLES[1][0]
        line, other = EXAMPLES[1][1], EXAMPLES[1][1].replace(SHA_256[1], SHA_256[0])
        first, begins = EXAMPLES[0][1], DUMP_LINES[0]
        for text, verdict in (
            (line, "no sum known"),
            (begins, "no sum known"),
            (begins + line, "sum equal"),
            (begins + other, "sum differs"),
            (begins + first, "no sum known"),
            (begins + line + other, "of a volume that was written again"),
            (begins + other + line, "sum equal"),
            (begins + line + first, "of a volume that was written again"),
            (begins + line + begins, "of a dump that was begun anew"),
            (begins + line + begins + line, "sum equal"),
            (begins + line + begins + other, "of a dump that was begun anew"),
            (begins + line + begins.replace(b"/usr", b"/var"), "sum equal"),
            (line + begins, "of a dump that was begun anew"),
        ):
            at = text.replace(b"volume 1 first 0, 0 blocks", b"volume 1 first 9, 0 blocks")
            self.same("the model: a verdict", compared(reel, at), verdict, at)


def changed_texts(text: bytes) -> Iterator[tuple[str, bytes]]:
    """A catalog without a line, and with another digit in that of a volume."""
    lines = text.splitlines(keepends=True)
    for at, line in enumerate(lines):
        if b" volume " not in line:
            yield f"without line {at + 1}", b"".join(lines[:at] + lines[at + 1 :])
            continue
        other = bytes((ord("0") + (line[at % 64] == ord("0")),))
        changed = line[: at % 64] + other + line[at % 64 + 1 :]
        yield f"without line {at + 1}", b"".join(lines[:at] + lines[at + 1 :])
        yield f"another digit in line {at + 1}", b"".join([*lines[:at], changed, *lines[at + 1 :]])
        yield f"another digit in a second line {at + 1}", b"".join([*lines[:at], changed, *lines[at:]])


WHOLE_DUMPS = (
    ("no blocks", 0, 1024, 4096),
    ("one block", 1024, 1024, 4096),
    ("part of a block", 1, 1024, 4096),
    ("a volume that ends with the payload", 3 * 1024, 1024, 1036 + 5 * 1032),
    ("a volume that ends with the payload, and is full", 3 * 1024, 1024, 1036 + 3 * 1032),
    ("reels of one block", 4 * 1024, 1024, 1036 + 1032),
    ("reels of two blocks and some bytes", 7 * 1024 - 5, 1024, 1036 + 2 * 1032 + 40),
    ("reels of five blocks but a byte", 11 * 1024, 1024, 1036 + 5 * 1032 - 1),
    ("blocks of a byte", 40, 1, 1036 + 15 * 9),
    ("blocks of 64 bytes", 5000, 64, 1036 + 30 * 72 + 71),
    ("blocks of 262,144 bytes", 3 * 262_144 + 5, 262_144, 1036 + 2 * 262_152),
)


ODD_NAMES = (
    *("/", "level", ",", "0,", "\"'`$(x)", "/usr:", "~", "!", "volume", "blocks,of", "/n" * 127, "%s%n", "\\n", "#", "whole", "--catalog"),
    *("0" * 64, "a" * 255),
)


class Dumps(CatalogCase):
    """Dumps that end well: their reels, and the lines that are kept of them."""

    def test_whole_dumps(self) -> None:
        """Volumes that end with the payload, and by a refused block. Then the file is changed, and the reels are compared with that."""
        for title, size, block, capacity in WHOLE_DUMPS:
            payload = random.Random(size).randbytes(size)
            self.p.file("payload", payload)
            volumes = volumes_of(-(-size // block), block, capacity)
            self.kept.unlink(missing_ok=True)
            with site(self.p, len(volumes) + 1, capacity) as it:
                self.ends(title, it.dump(block=str(block)), printed(volumes), DONE, *(() if size else (NO_BLOCK,)))
                self.are_kept(title, it, reels_of(payload, block, volumes), size, block)
                bin = it.folder / "bin"
                paths = {str(bin / name): data for name, data in it.bin().items()}
                for change, other in [*changed_texts(self.catalog() or b""), ("no lines", b"")]:
                    self.p.file("changed", other)
                    self.are_told(f"{title}, {change}", paths, str(bin), name="changed")

    def test_reels_of_many_sizes(self) -> None:
        """One dump over such reels, and a second dump that is kept in the same file."""
        payload = random.Random(SEED).randbytes(9 * 1024 - 7)
        self.p.file("payload", payload)
        capacities = (1036 + 1032, 1036 + 3 * 1032 + 1, 1036 + 2 * 1032, ROOMY)
        volumes = [(0, 1), (1, 3), (4, 2), (6, 3)]
        with Model(*(Reel(f"r{number}", it) for number, it in enumerate(capacities))) as model:
            got = self.p.dump(model.address, *CATALOG)
        self.ends("reels of many sizes", got, printed(volumes), DONE)
        files = [images(it.entries) for it in model.bin]
        self.same("reels of many sizes: the reels", files, reels_of(payload, 1024, volumes), list(map(len, files)))
        text = text_for(files, len(payload))
        self.same("reels of many sizes: the lines", self.catalog(), text)
        with site(self.p, 3, ROOMY) as it:
            for turn in ("another", "the same again"):
                self.ends(f"{turn} dump in the same file", it.dump(), printed([(0, 9)]), DONE)
                text += text_for([[*it.bin().values()][-1]], len(payload))
                self.same(f"{turn} dump in the same file: the lines", self.catalog(), text)

    def test_odd_names_of_file_systems(self) -> None:
        for name in ODD_NAMES:
            self.kept.unlink(missing_ok=True)
            with site(self.p, 2, ROOMY) as it:
                got = self.p.run(*self.p.dump_words(it.address, *CATALOG, fs=None), f"--fs={name}")
                self.ends(f"a file system {name[:40]!r}", got, printed([(0, 3)]), DONE)
                files = [images([Label(name, 0, DAY, 0, 1, 0).record(), *BLOCKS, None])]
                self.are_kept(f"a file system {name[:40]!r}", it, files)

    def test_odd_names_of_files(self) -> None:
        for name, shown in (("a b", "a b"), ("ü", "ü"), ("a\nb", "a?b"), ("a\x1b[2Jb", "a?[2Jb"), ("-", "-"), ("'", "'"), ("s" * 200, "s" * 200)):
            with site(self.p, 2, ROOMY) as it:
                self.ends(f"a catalog {name!r}", self.p.dump(it.address, f"--catalog={name}"), printed([(0, 3)]), DONE)
                self.same(f"a catalog {name!r}: the lines", self.catalog(name), text_for(ONE_FILE))
                got = self.p.run("ls", f"--catalog={name}", str(it.folder / "bin"))
                self.same(f"a catalog {name!r}: ls", (got.status, got.output.endswith(": all volumes\n")), (DONE, True), got)
            self.p.file(name, b"bad\n")
            got = self.p.run("ls", f"--catalog={name}", "payload")
            self.same(f"a bad catalog {name!r}", got, Ended("", f"rdump: {shown}: it is no catalog: line 1: bad line\n", FAILED))
            self.p.folder.joinpath(f"{name}.new").mkdir()
            self.p.folder.joinpath(name).unlink()
            told = f"rdump: {shown}: its .new is no plain file: the catalog can't be kept\n"
            got = self.p.dump(NOWHERE, f"--catalog={name}")
            self.same(f"a catalog {name!r} that cannot be written", got, Ended("", told, FAILED))
            self.p.folder.joinpath(f"{name}.new").rmdir()

    def test_many_lines(self) -> None:
        """A file of many lines is read, compared with, and added to."""
        labels = [Label("/usr", number % 10, DAY, number % 3, number + 1, number) for number in range(MANY_LINES)]
        reels = {f"many/{number:04}": images([it.record(), b"%d" % number, None]) for number, it in enumerate(labels)}
        self.put(reels)
        text = known([*reels.values()])
        self.p.file(FILE, text)
        self.are_told("many lines", reels, "many")
        lines = text.splitlines(keepends=True)
        random.Random(SEED).shuffle(lines)
        self.p.file(FILE, b"".join(lines[:-1]))
        self.are_told("many lines but one, in another order", reels, "many")
        before = b"".join(lines[:-1])
        for turn in range(2):
            with site(self.p, 3, 3100) as it:
                self.ends(f"a dump after many lines, {turn}", it.dump(), TWO_VOLUMES, DONE)
            before += text_for(FILES)
            self.same(f"a dump after many lines, {turn}: the lines", self.catalog(), before)
        self.p.file(FILE, b"".join(lines) + b"bad\n")
        told = f"rdump: {FILE}: it is no catalog: line {len(lines) + 1}: bad line\n"
        self.same("many lines, and a bad one", self.p.run("ls", *CATALOG, "many"), Ended("", told, FAILED))

    def test_dumps_at_once(self) -> None:
        """Dumps whose reels are moved at the same moment, with one file: each line is there once, in the order of its dump, and the others stay."""
        self.p.file("payload", b"x")
        server = self.enterContext(Granting())
        for count, rounds in TOGETHER:
            lost = []
            for number in range(rounds):
                self.p.file(FILE, OLD)
                server.gate = threading.Barrier(count)
                names = [f"/fs{number}/{it}" for it in range(count)]
                runs = [self.started(*self.p.dump_words(server.address, *CATALOG, fs=it)) for it in names]
                got = [end_of(self, it) for it in runs]
                if not self.are_lined(names, got):
                    lost.append((self.catalog(), got))
            self.same(f"{count} dumps at once, in each of {rounds} rounds", lost, [])
            self.same(f"{count} dumps at once leave nothing", self.lying(), [FILE])

    def started(self, *words: str) -> subprocess.Popen[bytes]:
        """A dump that goes on while others do."""
        pipe = subprocess.PIPE
        return subprocess.Popen((self.p.rdump, *words), cwd=self.p.folder, stdin=subprocess.DEVNULL, stdout=pipe, stderr=pipe)

    def are_lined(self, names: list[str], got: list[Ended[str]]) -> bool:
        """Whether dumps of these file systems, which came to this, have their lines behind the old one. If the disk is slow the last of many have
        waited for too long, and say their lines."""
        made = [text_for([images([Label(it, 0, DAY, 0, 1, 0).record(), b"x" + bytes(1023), None])], 1).splitlines(True) for it in names]
        late = [number for number, it in enumerate(got) if it.status == ABNORMAL and it.told.endswith(NOT_COMPLETE)]
        lines = (self.catalog() or b"").splitlines(keepends=True)
        own = [[line for line in lines if line in wanted] for wanted in made]
        are_done = all(it.status == DONE and not it.told and own[at] == made[at] for at, it in enumerate(got) if at not in late)
        are_late = all(own[at] in (made[at][:1], made[at][:2]) for at in late)
        return lines[:1] == [OLD] and len(lines) == 1 + sum(map(len, own)) and are_done and are_late and len(late) <= len(names) // 2

    def test_modes(self) -> None:
        """A catalog keeps its mode and its owner; a new one has the mode of the process."""
        self.addCleanup(os.umask, os.umask(0o027))
        for mode in (None, 0o600, 0o644, 0o664, 0o400):
            self.kept.unlink(missing_ok=True)
            owner = os.geteuid(), os.getegid()
            if mode is not None:
                self.p.file(FILE, OLD)
                self.kept.chmod(mode)
                owner = (1234, 4321) if os.geteuid() == 0 else owner
                os.chown(self.kept, *owner)
            self.ends(f"a catalog of mode {mode}", self.dump(two(), *CATALOG), TWO_VOLUMES, DONE)
            now = self.kept.stat()
            self.same(f"a catalog of mode {mode}: the mode", oct(stat.S_IMODE(now.st_mode)), oct(0o640 if mode is None else mode))
            self.same(f"a catalog of mode {mode}: the owner", (now.st_uid, now.st_gid), owner)


# Dumps that fail, and go on.


def counts_of(output: str) -> set[str]:
    """The volumes that a dump printed, in the words of their lines."""
    found = re.finditer(r"^volume (\d+): (\d+) blocks from (\d+)$", output, re.M)
    return {f"volume {it[1]} first {it[3]}, {it[2]} blocks" for it in found}


class Retries(CatalogCase):
    """Dumps of which something fails, and whose operator says yes: the lines are of the volumes that were counted."""

    def test_lost_requests(self) -> None:
        """Each request of a dump is lost, and more reels are there."""
        for number in range(1, ALL_REQUESTS + 1):
            self.kept.unlink(missing_ok=True)
            got = self.dump([*two(), Reel("r3", 3100)], *CATALOG, said=YES, lost=(number,))
            is_complete = got.output.endswith(TWO_VOLUMES.splitlines(True)[-1])
            self.same(f"request {number} is lost: the dump", (got.status, is_complete), (DONE, True), got)
            self.same(f"request {number} is lost: the lines", self.catalog(), text_for(FILES))

    def test_lost_requests_and_another_payload(self) -> None:
        """The payload changes when a request is lost."""
        for number in range(1, ALL_REQUESTS + 1):
            self.lost_with_another_payload(number, f"request {number} is lost, and the payload changes")

    def lost_with_another_payload(self, number: int, title: str) -> None:
        """The payload changes when this request is lost."""

        def change() -> None:
            with self.p.folder.joinpath("payload").open("r+b") as payload:
                payload.write(bytes(reversed(PAYLOAD)))

        self.p.file("payload", PAYLOAD)
        self.kept.unlink(missing_ok=True)
        reels = [*two(), Reel("r3", 9000), Reel("r4", 9000)]
        with Model(*reels, acts={number: change}, lost=(number,)) as model:
            got = self.p.dump(model.address, *CATALOG, said=YES)
        is_told = "it changed while it was dumped" in got.told, NOT_COMPLETE in got.told
        self.same(f"{title}: the dump is not finished", (got.status, is_told), (ABNORMAL, (True, True)), got)
        of_reels = {line_of(images(it.entries)) for it in model.bin}
        counts = counts_of(got.output)
        first, *lines = (self.catalog() or b"").splitlines(keepends=True)
        self.same(f"{title}: it began", first, BEGAN)
        self.same(f"{title}: a line for a count", len(lines), len(counts), lines, counts)
        words = {given(re.search(r"volume .* blocks", it.decode()))[0] for it in lines}
        self.same(f"{title}: each is of a reel", ({*lines} <= of_reels, words), (True, counts), lines)

    def test_replies_and_blocks_that_fail(self) -> None:
        """Over the built server each reply that comes in fails once, or each block that is read."""
        shim = self.enterContext(compiled(self))
        p = shimmed.ShimmedPrograms(built("rmtd"), built("rdump"), built("rsim"), shim)
        three = shimmed.THREE_BLOCKS
        for call in ("recv", "pread"):
            with shimmed.dump_site(p, three) as (folder, words):
                count = p.run((*words, "--catalog", str(folder / FILE), *shimmed.DATED)).calls.count(call)
            self.holds(f"{call} is seen", count > 0, count)
            for number in range(1, count + 1):
                with shimmed.dump_site(p, three) as (folder, words):
                    got = p.run((*words, "--catalog", str(folder / FILE), *shimmed.DATED), f"{call}:{number}:E5", YES.encode())
                    text, reels = data_of(folder / FILE), drives.held(folder)[1]
                title = f"{call} {number} of {count} fails, and the operator says yes"
                if got.status == FAILED:
                    self.same(f"{title}: nothing was dumped", (text, reels), (None, {}), got)
                    continue
                self.same(f"{title}: the dump", (got.status, got.output.endswith(three.printed(2))), (DONE, True), got)
                self.same(f"{title}: the lines", text, text_for(three.reels(), len(three.data())))


# A dump of six blocks, each on a reel of its own.
SIX = [(at, 1) for at in range(6)]
SIX_PAYLOAD = bytes(range(6)) * 1024
SIX_LINES = [*map(line_of, reels_of(SIX_PAYLOAD, 1024, SIX))]
SIX_COUNTS = tuple(Volume(number, *it) for number, it in enumerate(SIX, 1))
SIX_RUN = RUN._replace(blocks=6)
ANOTHER_DATE = line_of(images([label(1, 0, date=DAY + 1), bytes(1024), None]))
SIX_OTHER = images([label(6, 5), b"6" * 1024, None])

SIX_BEGAN = Begun(USR, len(SIX_PAYLOAD)).text()
SIX_DONE = Finished(USR, 6, 6, 1024, len(SIX_PAYLOAD)).text()
OTHERS = text_for([images([Label("/var", 0, DAY, 0, 1, 0).record(), bytes(1024), None])])
TWICE = f"rdump: {FILE}: 2 dumps of this name, level and dates began: nothing is entered\n"

# The lines that a file has of five volumes that were counted, and what is told of those that it has not.
OF_SIX: tuple[tuple[str, list[bytes], str], ...] = (
    ("no line", [], "no sum of volumes 1 to 5\n"),
    ("that it began", [SIX_BEGAN], "no sum of volumes 1 to 5\n"),
    ("all lines, and not that it began", SIX_LINES[:5], "no sum of volumes 1 to 5\n"),
    ("all lines", [SIX_BEGAN, *SIX_LINES[:5]], ""),
    ("all lines, and others between them", [OTHERS, SIX_BEGAN, *SIX_LINES[:2], OTHERS, ANOTHER_DATE, *SIX_LINES[2:5], OTHERS], ""),
    ("all lines, and a later one", [SIX_BEGAN, *SIX_LINES], ""),
    ("all lines, and a later one that is another", [SIX_BEGAN, *SIX_LINES[:5], line_of(SIX_OTHER)], ""),
    ("all lines, and that it is finished", [SIX_BEGAN, *SIX_LINES, SIX_DONE], ""),
    ("all lines, and that another is finished", [SIX_BEGAN, *SIX_LINES, SIX_DONE.replace(b"6144", b"6145")], ""),
    ("all lines, and that it is finished too early", [SIX_BEGAN, *SIX_LINES[:5], SIX_DONE], ""),
    ("all lines twice", [SIX_BEGAN, *SIX_LINES[:5], *SIX_LINES[:5]], ""),
    ("all lines, and the second again", [SIX_BEGAN, *SIX_LINES[:5], SIX_LINES[1]], "no sum of volumes 3 to 5\n"),
    ("all lines, in another order", [SIX_BEGAN, *reversed(SIX_LINES[:5])], "no sum of volumes 2 to 5\n"),
    ("all lines before it began", [*SIX_LINES[:5], SIX_BEGAN], "no sum of volumes 1 to 5\n"),
    ("all lines, and that it began anew", [SIX_BEGAN, *SIX_LINES[:5], SIX_BEGAN], "no sum of volumes 1 to 5\n"),
    ("all lines of one that began anew", [SIX_BEGAN, SIX_BEGAN, *SIX_LINES[:5]], TWICE),
    ("all but the first", [SIX_BEGAN, *SIX_LINES[1:5]], "no sum of volume 1\n"),
    ("all but the last", [SIX_BEGAN, *SIX_LINES[:4]], "no sum of volume 5\n"),
    ("all but two", [SIX_BEGAN, SIX_LINES[0], SIX_LINES[3], SIX_LINES[4]], "no sum of volumes 2 to 3\n"),
    ("every other one", [SIX_BEGAN, SIX_LINES[1], SIX_LINES[3]], "no sum of volume 1\nno sum of volume 3\nno sum of volume 5\n"),
    ("two gaps", [SIX_BEGAN, SIX_LINES[2]], "no sum of volumes 1 to 2\nno sum of volumes 4 to 5\n"),
    ("two gaps, and one that began anew", [SIX_BEGAN, SIX_BEGAN, SIX_LINES[2]], "no sum of volumes 1 to 2\nno sum of volumes 4 to 5\n"),
    ("a line with another count", [SIX_BEGAN, volume_line(1, 0), *SIX_LINES[1:5]], "no sum of volume 1\n"),
    ("a line with another size", [SIX_BEGAN, *SIX_LINES[:4], line_of(images([label(5, 4), bytes(512), None]))], "no sum of volume 5\n"),
    ("a line with another first block", [SIX_BEGAN, *SIX_LINES[:4], line_of(images([label(5, 5), bytes(1024), None]))], "no sum of volume 5\n"),
    ("a line of another date", [SIX_BEGAN, ANOTHER_DATE, *SIX_LINES[1:5]], "no sum of volume 1\n"),
    ("a line with another sum", [SIX_BEGAN, *SIX_LINES[:4], line_of(images([label(5, 4), bytes(1024), None]))], ""),
)


def counts_kept(text: bytes | None) -> tuple[Volume, ...]:
    """The volumes that a checkpoint has."""
    found = decoded(text or b"")
    return found.counts if isinstance(found, Checkpoint) else ()


def resumed(text: bytes, had: int | None, reels: list[bytes], size: int, block: int = 1024) -> tuple[bytes, bool]:
    """What a catalog has to hold after a dump went on of which these are the reels, and of which so many were counted before (none: there was no
    checkpoint); and whether it is complete."""
    lines = [*map(counted, reels)]
    run = Run(lines[0].id, size, block)
    if had or (had is not None and run.has_begun(text)):
        run.go_on(text, lines[:had])
    else:
        text = run.begin(text)
    for line in lines[had or 0 :]:
        text = run.count(text, line)
    return run.finish(text, lines), run.is_complete


class GoingOn(CatalogCase):
    """Dumps with a checkpoint file that go on."""

    def test_stopped_dumps(self) -> None:
        """A dump is killed at each of its requests: each count of its checkpoint has its line, and all lines are there in the end, once since
        it began last."""
        wanted = text_for(FILES)
        for number in range(1, ALL_REQUESTS + 1):
            self.kept.unlink(missing_ok=True)
            stopped_at(self.p, number, *CATALOG)
            counts, is_kept = counts_kept(kept_text(self.p)), kept_text(self.p) is not None
            text = self.catalog() or b""
            title = f"stopped at request {number}"
            self.holds(f"{title}: each count has its line", wanted.startswith(text) and text.count(b"\n") > len(counts), text, counts)
            got = self.dump(two(), *KEPT, *CATALOG)
            self.ends(f"{title}: it goes on", got, "".join(TWO_VOLUMES.splitlines(True)[len(counts) :]), DONE, going_on(counts))
            self.same(f"{title}: what is told is that it goes on", got.told, going_on(counts))
            had = len(counts) if is_kept else None
            self.same(f"{title}: the lines in the end", (self.catalog(), True), resumed(text, had, FILES, len(PAYLOAD)))

    def test_stopped_twice(self) -> None:
        """A dump that was stopped before it counted a volume, and again after that: it goes on as one that began once."""
        stopped_at(self.p, 3, *CATALOG)
        stopped_at(self.p, SECOND, *CATALOG)
        self.same("it was stopped twice", self.catalog(), BEGAN + line_of(FILES[0]))
        got = self.dump([Reel("r2", 3100)], *KEPT, *CATALOG, "--update")
        self.same("it was stopped twice, and goes on", got, Ended("".join(TWO_VOLUMES.splitlines(True)[1:]), going_on(ONE), DONE))
        files = (self.catalog(), self.p.text("dumpdates"), kept_text(self.p))
        self.same("it was stopped twice: the files", files, (text_for(FILES), ENTRY, None))

    def test_a_first_run_without_a_catalog(self) -> None:
        stopped_at(self.p, SECOND)
        got = self.dump([Reel("r2", 3100)], *KEPT, *CATALOG)
        wanted = Ended("".join(TWO_VOLUMES.splitlines(True)[1:]), going_on(ONE) + "no sum of volume 1\n" + NOT_COMPLETE, ABNORMAL)
        self.same("the first run kept no catalog", got, wanted)
        self.same("the first run kept no catalog: the file", self.catalog(), None)

    def test_runs_before_that_entered_not_all(self) -> None:
        self.p.file("payload", SIX_PAYLOAD)
        for title, lines, told in OF_SIX:
            self.p.file("usr.checkpoint", checkpoint.text_of(SIX_RUN, SIX_COUNTS[:5]))
            self.p.file(FILE, b"".join(lines))
            got = self.dump([Reel("r6", 3100)], *KEPT, *CATALOG)
            output = "volume 6: 1 blocks from 5\ndump complete: 6 volumes, 6 blocks\n"
            is_complete = not told
            tells = going_on(SIX_COUNTS[:5], SIX_RUN) + told + NOT_COMPLETE * (not is_complete)
            self.same(f"of six volumes {title}", got, Ended(output, tells, DONE if is_complete else ABNORMAL))
            reels = reels_of(SIX_PAYLOAD, 1024, SIX)
            wanted = resumed(b"".join(lines), 5, reels, len(SIX_PAYLOAD))
            self.same(f"of six volumes {title}: the lines", (self.catalog(), is_complete), wanted)

    def test_a_finished_dump(self) -> None:
        """All volumes were counted before: the dump is finished in the catalog, unless that has not all lines, or the payload is younger."""
        self.p.file("payload", SIX_PAYLOAD)
        output = "dump complete: 6 volumes, 6 blocks\n"
        whole = SIX_BEGAN + b"".join(SIX_LINES)
        for title, text, told, after in (
            ("without all lines", SIX_BEGAN + b"".join(SIX_LINES[:4]), "no sum of volumes 5 to 6\n", b""),
            ("with all lines", whole, "", SIX_DONE),
            ("that is finished already", whole + SIX_DONE, "", b""),
            ("that is finished, and of which a volume follows", whole + SIX_DONE + SIX_LINES[5], "", SIX_DONE),
        ):
            self.p.file("usr.checkpoint", checkpoint.text_of(SIX_RUN, SIX_COUNTS))
            self.p.file(FILE, text)
            got = self.p.dump(NOWHERE, *KEPT, *CATALOG, "--update")
            wanted = Ended(output, going_on(SIX_COUNTS, SIX_RUN) + told + NOT_COMPLETE * bool(told), ABNORMAL if told else DONE)
            self.same(f"a dump {title}", got, wanted)
            self.same(f"a dump {title}: the file", (self.catalog(), self.p.text("dumpdates")), (text + after, ENTRY))
            self.p.folder.joinpath("dumpdates").unlink()

    def test_a_younger_payload(self) -> None:
        """The payload is younger than the checkpoint: the dump is complete, and not finished in the catalog."""
        self.p.file("payload", SIX_PAYLOAD)
        path = self.p.folder / self.p.file("usr.checkpoint", checkpoint.text_of(SIX_RUN, SIX_COUNTS[:5]))
        os.utime(path, (DAY, DAY))
        text = SIX_BEGAN + b"".join(SIX_LINES[:5])
        self.p.file(FILE, text)
        got = self.dump([Reel("r6", 3100)], *KEPT, *CATALOG, "--update")
        came = got.status, "it is younger than the checkpoint" in got.told, got.told.endswith(NOT_COMPLETE)
        self.same("a younger payload", came, (ABNORMAL, True, True), got)
        self.same("a younger payload: the files", (self.catalog(), self.p.text("dumpdates")), (text + SIX_LINES[5], ENTRY))


# Dumps of one name, level and dates, and a file that another changes.

ANOTHER = f"rdump: {FILE}: another dump of this name, level and dates began: nothing more is entered\n"
OTHER_PAYLOAD = bytes(reversed(PAYLOAD))


class Anew(CatalogCase):
    """A dump that is begun anew, and a catalog that another changes while a dump goes on."""

    def test_a_dump_begun_anew(self) -> None:
        """Volume 1 is counted, the dump is abandoned, and the same words are given again, for the same payload and for another one: all lines of the
        second dump are there, also that of an equal first volume."""
        for title, payload in (("the same payload", PAYLOAD), ("another payload", OTHER_PAYLOAD)):
            self.kept.unlink(missing_ok=True)
            self.p.file("payload", PAYLOAD)
            got = self.dump(two()[:1], *CATALOG)
            self.same(f"{title}: it is abandoned", (got.output.endswith("dump abandoned\n"), got.status), (True, ABNORMAL), got)
            before = BEGAN + line_of(FILES[0])
            self.same(f"{title}: it is abandoned: the lines", self.catalog(), before)
            self.p.file("payload", payload)
            files = reels_of(payload, 1024, SPLIT)
            self.ends(f"{title}: it is begun anew", self.dump(two(), *CATALOG), TWO_VOLUMES, DONE)
            self.same(f"{title}: it is begun anew: the lines", self.catalog(), before + text_for(files))

    def test_two_catalogs(self) -> None:
        """Dumps of two file systems at one catalog, one after the other."""
        text = b""
        for name in ("/usr", "/var", "/usr"):
            self.ends(f"a dump of {name}", self.dump(two(), *CATALOG, fs=name), TWO_VOLUMES, DONE)
            files = [it.replace(b"name /usr\n", f"name {name}\n".encode()) for it in FILES]
            text += text_for(files)
            self.same(f"a dump of {name}: the lines", self.catalog(), text)

    def changed(self, title: str, number: int, act: Act, told: str, after: bytes | None) -> None:
        """Something is done to the file at a request, this is told, and the file is then this."""
        self.kept.unlink(missing_ok=True)
        got = self.dump(two(), *CATALOG, "--update", acts={number: act})
        self.same(f"{title}: the dump", got, Ended(TWO_VOLUMES, told + NOT_COMPLETE, ABNORMAL))
        self.same(f"{title}: the files", (self.catalog(), self.p.text("dumpdates")), (after, ENTRY))
        self.p.folder.joinpath("dumpdates").unlink()

    def test_another_dump_of_the_label(self) -> None:
        """Another dump of this name, level and dates begins, at once, and between two volumes: nothing more is entered."""

        def begin() -> None:
            with self.kept.open("ab") as file:
                file.write(BEGAN)

        for number, had in ((1, 0), (3, 0), (FIRST_REQUESTS + 1, 1), (ALL_REQUESTS - 2, 1)):
            text = BEGAN + lines_for(FILES[:had]) + BEGAN
            self.changed(f"another dump begins at request {number}", number, begin, ANOTHER, text)

    def test_a_file_that_is_taken_away_or_cut(self) -> None:
        """The file is removed, emptied, or cut after it said that the dump began, between two volumes."""
        line = lines_for(FILES[:1])
        at = FIRST_REQUESTS + 1
        self.changed("it is removed", at, self.kept.unlink, ANOTHER, None)
        self.changed("it is emptied", at, lambda: self.p.file(FILE, b""), ANOTHER, b"")
        self.changed("it has another dump alone", at, lambda: self.p.file(FILE, OTHERS), ANOTHER, OTHERS)
        uncovered = f"rdump: {FILE}: a counted volume has no line in force\n"
        self.changed("its last line is cut off", at, lambda: self.p.file(FILE, BEGAN), uncovered, BEGAN + line_of(FILES[1]))
        other, second = line_of(images([label(1, 0), bytes(1024), None])), line_of(FILES[1])
        for title, text in (("is another", BEGAN + other), ("was written again", BEGAN + line + other)):
            self.changed(f"its first volume {title}", at, partial(self.p.file, FILE, text), uncovered, text + second)

    def test_lines_that_are_there(self) -> None:
        """The line of a volume that is in force already is not added again; one that is no longer in force is."""
        both, first, second = lines_for(FILES), line_of(FILES[0]), line_of(FILES[1])
        end = text_for(FILES)[len(BEGAN + both) :]
        for title, text, after in (
            ("both lines", BEGAN + both, end),
            ("both lines, and others", BEGAN + both + OTHERS, end),
            ("both lines, the first again", BEGAN + both + first, second + end),
            ("the second line", BEGAN + second, both + end),
            ("both lines, and that it is finished", BEGAN + both + end, b""),
            ("both lines, finished as another", BEGAN + both + end.replace(b"3072", b"3073"), end),
        ):
            self.kept.unlink(missing_ok=True)
            got = self.dump(two(), *CATALOG, acts={3: partial(self.p.file, FILE, text)})
            self.same(f"{title} are there", got, Ended(TWO_VOLUMES, "", DONE))
            self.same(f"{title} are there: the lines", self.catalog(), text + after)

    def test_a_payload_that_changes(self) -> None:
        """The payload is written to, or gets another length, while it is dumped: dumpdates has its entry, and the catalog does not say that
        the dump is finished."""

        def written() -> None:
            with self.p.folder.joinpath("payload").open("r+b") as payload:
                payload.write(PAYLOAD[:1])

        def longer() -> None:
            with self.p.folder.joinpath("payload").open("ab") as payload:
                payload.write(b"more")

        for title, act in (("written to", written), ("longer", longer)):
            for number in (2, FIRST_REQUESTS + 2):
                self.p.file("payload", PAYLOAD)
                self.kept.unlink(missing_ok=True)
                got = self.dump(two(), *CATALOG, "--update", acts={number: act})
                is_told = "it changed while it was dumped" in got.told, got.told.startswith(NOT_COMPLETE)
                self.same(f"a payload {title}, {number}", (got.output, got.status, is_told), (TWO_VOLUMES, ABNORMAL, (True, True)), got)
                wanted = BEGAN + lines_for(FILES), ENTRY
                self.same(f"a payload {title}, {number}: the files", (self.catalog(), self.p.text("dumpdates")), wanted)
                self.p.folder.joinpath("dumpdates").unlink()

    def test_a_beginning_that_cannot_be_entered(self) -> None:
        """Nothing else is done then."""
        old = b"".join(volume_line(number, 9) for number in range(1, 2 * ROOM // 120))
        old = old[: old.rindex(b"\n", 0, ROOM) + 1]
        while len(old) + len(BEGAN) <= ROOM:
            old += BEGAN.replace(b"/usr", b"/var")
        self.p.file(FILE, old)
        with Model(*two()) as model:
            got = self.p.run(*self.p.dump_words(model.address, *CATALOG, *KEPT, "--update"), **in_room(ROOM))
        wanted = Ended("", f"rdump: {FILE}: File too large (os error 27)\n", FAILED)
        self.same("it cannot begin", (got, model.logs), (wanted, []))
        self.same("it cannot begin: the files", (self.catalog(), self.p.text("dumpdates"), kept_text(self.p)), (old, None, None))


class Sequences(CatalogCase):
    """Dumps of one name, level and dates, one after the other, at a catalog that another changes between them at times: it holds what the model
    says."""

    def test_sequences(self) -> None:
        source = random.Random(SEED)
        ends: Counter[object] = Counter()
        for number in range(SEQUENCES):
            self.kept.unlink(missing_ok=True)
            self.p.folder.joinpath("usr.checkpoint").unlink(missing_ok=True)
            done: list[str] = []
            text = b""
            for _ in range(STEPS):
                step = source.choice(("whole", "abandoned", "stopped", "stopped", "going on", "going on", "going on", *CHANGES))
                done.append(step)
                text, is_complete = self.changed_by(step, text), None
                if step not in CHANGES:
                    text, is_complete = self.step(source, step, text)
                if not self.same(f"sequence {number}: the file", self.catalog() or b"", text, done):
                    return
                ends[step, is_complete] += 1
        for it in (("whole", True), ("going on", True), ("going on", False), ("stopped", None), ("abandoned", None)):
            self.holds(f"sequences: {it} is met", ends[it] >= 3, ends)

    def changed_by(self, step: str, text: bytes) -> bytes:
        """Another changes the file, which held this. What it holds then."""
        lines = text.splitlines(keepends=True)
        changed = {
            "another begins": text + BEGAN,
            "another volume": text + volume_line(1, 0),
            "the last line is cut off": b"".join(lines[:-1]),
            "it is removed": b"",
        }.get(step, text)
        if step in CHANGES:
            self.p.file(FILE, changed)
        return changed

    def step(self, source: random.Random, step: str, text: bytes) -> tuple[bytes, bool | None]:
        """A dump, given what the catalog holds: what it has to hold then, and whether it is complete, if the dump was."""
        lines = [*map(counted, FILES)]
        run = Run(USR, len(PAYLOAD), 1024)
        had, is_kept = len(counts_kept(kept_text(self.p))), kept_text(self.p) is not None
        if step == "abandoned":
            self.dump(two()[:1], *CATALOG)
            return run.count(run.begin(text), lines[0]), None
        if step == "stopped":
            stopped_at(self.p, source.randint(1, ALL_REQUESTS - FIRST_REQUESTS if had else ALL_REQUESTS), *CATALOG)
            now = max(had, len(counts_kept(kept_text(self.p))))
            if had or (is_kept and run.has_begun(text)):
                run.go_on(text, lines[:had])
            else:
                text = run.begin(text)
            for it in lines[had:now]:
                text = run.count(text, it)
            return text, None
        goes_on = step == "going on" and is_kept
        text, is_complete = resumed(text, had if goes_on else None, FILES, len(PAYLOAD))
        got = self.dump(two()[had:] if step == "going on" else two(), *(KEPT if step == "going on" else ()), *CATALOG)
        self.same(f"{step}: the status", got.status, DONE if is_complete else ABNORMAL, got)
        return text, is_complete


# Which files it may be.


def too(path: str, other: str, its_path: str, which: str = "it") -> str:
    """What is told of two files that are one."""
    return re.escape(f"rdump: {path}: {which} is {other} too: {its_path}\n")


class Clash(NamedTuple):
    """The words of a dump whose catalog is another one of its files, what is told, and what the dumpdates file is then."""

    title: str
    told: str
    more: tuple[str, ...]
    dumpdates: str = "dumpdates"


DATES, NEW_DATES = "the dumpdates file", "the .new of the dumpdates file"
EITHER = r"rdump: \S+: (it|its \.new) is the (\.new of the )?(checkpoint file|catalog) too: \S+\n"
CLASHES = (
    Clash("it is the payload", too("payload", "the payload", "payload"), ("--catalog", "payload")),
    Clash("it is the payload by another path", too("./payload", "the payload", "payload"), ("--catalog", "./payload")),
    Clash("it is the payload by a link", too("to-payload", "the payload", "payload"), ("--catalog", "to-payload")),
    Clash("it is the payload by a hard link", too("hard", "the payload", "payload"), ("--catalog", "hard")),
    Clash("it is the dumpdates file", too("dd", DATES, "dd"), ("--catalog", "dd"), "dd"),
    Clash("it is the dumpdates file, to be entered", too("dd", DATES, "dd"), ("--catalog", "dd", "--update"), "dd"),
    Clash("it is the dumpdates file in a link", too("link/dd", DATES, "in/dd"), ("--catalog", "link/dd"), "in/dd"),
    Clash("it is the dumpdates file by a link", too("in/missing", DATES, "to-nothing"), ("--catalog", "in/missing"), "to-nothing"),
    Clash("it is the .new of dumpdates", too("dd.new", NEW_DATES, "dd"), ("--catalog", "dd.new", "--update"), "dd"),
    Clash("its .new is the dumpdates file", too("catalog", DATES, "catalog.new", "its .new"), CATALOG, "catalog.new"),
    Clash("its .new is the dumpdates file, to be entered", too("catalog", DATES, "catalog.new", "its .new"), (*CATALOG, "--update"), "catalog.new"),
    Clash("it is the checkpoint file", EITHER, ("--catalog", "one", "--checkpoint", "one")),
    Clash("it is the checkpoint file by a link", EITHER, ("--catalog", "in/one", "--checkpoint", "link/one")),
    Clash("it is the .new of the checkpoint file", EITHER, ("--catalog", "one.new", "--checkpoint", "one")),
    Clash("its .new is the checkpoint file", EITHER, ("--catalog", "one", "--checkpoint", "one.new")),
)


class OneFile(CatalogCase):
    """The file is no other one of the dump, by whatever name, and its .new is none."""

    def setUp(self) -> None:
        super().setUp()
        folder = self.p.folder
        folder.joinpath("in").mkdir()
        for name, to in (("link", "in"), ("to-payload", "payload"), ("to-nothing", "in/missing")):
            folder.joinpath(name).symlink_to(to)
        os.link(folder / "payload", folder / "hard")

    def test_the_payload_is_the_new_file(self) -> None:
        self.p.file("catalog.new", PAYLOAD)
        self.refused("the payload is the .new", too("catalog", "the payload", "catalog.new", "its .new"), *CATALOG, payload="catalog.new")
        self.p.file("x.new", text_for(ONE_FILE))
        self.refused("the payload is the .new, of lines", too("x", "the payload", "x.new", "its .new"), "--catalog", "x", payload="x.new")

    def test_clashes(self) -> None:
        for it in CLASHES:
            self.refused(it.title, it.told, *it.more, dumpdates=it.dumpdates)

    def test_files_beside_one_another(self) -> None:
        for title, more, dumpdates in (
            ("files beside one another", ("--catalog", "in/dd", "--checkpoint", "in/usr", "--update"), "dd"),
            ("it is at a .new that is not made", ("--catalog", "other.new"), "other"),
        ):
            got = self.dump([Reel("r1", 9000)], *more, dumpdates=dumpdates)
            self.ends(title, got, printed([(0, 3)]), DONE)
            self.same(f"{title}: the lines", self.catalog(more[1]), text_for(ONE_FILE))


NEW_KINDS: tuple[tuple[str, Make, Make], ...] = (
    ("a folder", Path.mkdir, Path.rmdir),
    ("a link", lambda it: it.symlink_to("payload"), Path.unlink),
    ("a link to nothing", lambda it: it.symlink_to("nowhere"), Path.unlink),
    ("a pipe", os.mkfifo, Path.unlink),
)


class Kinds(CatalogCase):
    """A folder, a pipe, a file in no folder, one without permissions; and a link, which stays."""

    def test_files_that_it_may_not_be(self) -> None:
        self.p.folder.joinpath("folder").mkdir()
        os.mkfifo(self.p.folder / "pipe")
        for path in ("folder", "pipe", "/dev/zero", "/dev/full", "/dev/null"):
            self.refused(f"it is {path}", rf"rdump: {path}: it is no plain file\n", "--catalog", path)
        self.refused("it is in no folder", r"rdump: no/catalog: .*No such file or directory \(os error 2\).*\n", "--catalog", "no/catalog")

    def test_bad_words(self) -> None:
        self.refused("an empty name", r"(rdump: : .*|.*--catalog.*)\n", "--catalog", "")
        self.refused("the word twice", r"(?s).*--catalog.*", *CATALOG, *CATALOG)
        self.refused("the word without a file", r"(?s).*--catalog.*", "--catalog")

    def test_what_its_new_file_may_not_be(self) -> None:
        for path, make, unmake in NEW_KINDS:
            make(self.new)
            self.refused(f"its .new is {path}", r"rdump: catalog: its \.new is no plain file: the catalog can't be kept\n", *CATALOG)
            unmake(self.new)
        self.same("nothing was made", (self.lying(), self.p.folder.joinpath("nowhere").exists()), ([], False))

    def test_links(self) -> None:
        self.p.folder.joinpath("folder").mkdir()
        there = self.p.folder / "folder/kept"
        for title, target, before in (("to a file", "folder/kept", OLD), ("by a whole path", str(there), OLD), ("to nothing", "folder/kept", None)):
            there.unlink(missing_ok=True)
            self.kept.unlink(missing_ok=True)
            if before is not None:
                there.write_bytes(before)
            self.kept.symlink_to(target)
            self.ends(f"a link {title}", self.dump([Reel("r1", 9000)], *CATALOG), printed([(0, 3)]), DONE)
            self.same(f"a link {title}: it stays", os.readlink(self.kept) if self.kept.is_symlink() else None, target)
            self.same(f"a link {title}: the lines", self.catalog("folder/kept"), (before or b"") + text_for(ONE_FILE))
            left = [it.name for it in there.parent.iterdir()], self.lying()
            self.same(f"a link {title}: nothing is left", left, (["kept"], [FILE]))

    def test_help(self) -> None:
        got = self.p.run("dump", "--help")
        self.same("the help has the word", (got.status, "--catalog <FILE>" in got.output), (DONE, True), got)
        for command in ("ls", "fetch"):
            got = self.p.run(command, "--help")
            self.same(f"the help of {command} has the word", (got.status, "--catalog <FILE>" in got.output), (DONE, True), got)

    def test_permissions(self) -> None:
        """A file, or a folder, without permissions, as a user who is not root."""
        shut, text = self.p.folder / "shut", text_for(ONE_FILE)
        self.put({"shut/there": text, "shut/unread": text})
        self.p.folder.chmod(0o755)
        shut.joinpath("there").chmod(0o644)
        shut.joinpath("unread").chmod(0)
        shut.chmod(0o555)
        self.addCleanup(shut.chmod, 0o755)
        for name, more in (("there", ": the catalog can't be kept"), ("missing", ": the catalog can't be kept"), ("unread", "")):
            got = self.p.run(*self.p.dump_words(NOWHERE, "--catalog", f"shut/{name}"), **as_nobody())
            told = rf"rdump: shut/{name}: (its \.new: )?Permission denied \(os error 13\){more}\n"
            is_told = re.fullmatch(told, got.told) is not None
            self.same(f"no permission, {name}", (got.output, got.status, is_told), ("", FAILED, True), got.told, told)
        self.same("no permission: what is there", (shut.joinpath("there").read_bytes(), len([*shut.iterdir()])), (text, 2))


# What it spells.


def bad_texts(good: bytes) -> Iterator[tuple[str, bytes]]:
    """Texts of which most are no catalog."""
    lines = good.splitlines(keepends=True)
    for at in range(len(good)):
        yield f"cut at byte {at}", good[:at]
        for other in sorted({good[at] ^ 1, good[at] ^ 0x20, ord("0"), ord(" "), ord("\n"), 0xFF} - {good[at]}):
            yield f"byte {at} is {other}", good[:at] + bytes((other,)) + good[at + 1 :]
        yield f"byte {at} twice", good[:at] + good[at : at + 1] + good[at:]
        yield f"byte {at} is left out", good[:at] + good[at + 1 :]
    yield from (("an empty line", good + b"\n"), ("an empty line first", b"\n" + good), ("zero bytes", bytes(4096)), ("a note", good + b"# a note\n"))
    yield from (("no file of text", random.Random(SEED).randbytes(4096)), ("much in a line", b"a" * 1_000_000), ("empty lines", b"\n" * 10_000))
    yield from (("carriage returns", good.replace(b"\n", b"\r\n")), ("a dumpdates file", ENTRY.encode()))
    yield "a checkpoint", checkpoint.text_of(RUN, ONE)
    yield from (("lines in another order", b"".join(reversed(lines))), ("lines twice", good + good), ("capitals", good.upper()))
    yield ("what sha256sum prints", b"".join(it[:64] + b"  r001\n" for it in lines))


# Changes of the line of a dump that begins, or that is finished, to a limit.
DUMP_LIMITS = (
    *((b"1024 bytes", b"0 bytes"), (b"1024 bytes", b"18446744073709551615 bytes"), (b"1 volumes", b"2147483647 volumes"), (b"512", b"1")),
    *((b"512", b"262144"), (b"2 blocks", b"0 blocks"), (b"2 blocks", b"2147483647 blocks"), (b"2 blocks", b"2147483648 blocks")),
    *((b"951782400", b"253402300799"), (b"951782400", b"253402300800"), (b"since 0", b"since 253402300800")),
)
LINE, SIZED = line_of(images([label(1, 0), bytes(1024), None])), b"1 blocks of 1024 bytes, 2068 bytes"


def sized(blocks: int, block: int) -> bytes:
    """What a line says of so many blocks of a size."""
    return b"%d blocks of %d bytes, %d bytes" % (blocks, block, 1024 + 8 + blocks * (block + 8) + 4)


def limits() -> list[bytes]:
    """Lines at a limit, and past one."""
    changes = [(b"/usr", b"n" * it) for it in (1, 32, 255, 256)] + [(b"level 0", b"level %d" % it) for it in (9, 10)]
    changes += [(b"date 951782400", b"date %d" % it) for it in (0, 253_402_300_799, 253_402_300_800)]
    changes += [(b"since 0", b"since %d" % it) for it in (253_402_300_799, 253_402_300_800)]
    changes += [(b"volume 1", b"volume %d" % it) for it in (0, 2**31 - 1, 2**31, 2**32 + 1)]
    changes += [(b"first 0", b"first %d" % it) for it in (2**31 - 1, 2**31, 2**64)]
    changes += [(SIZED, sized(*it)) for it in ((0, 0), (0, 1), (1, 0), (1, 1), (1, 262_144), (1, 262_145), (2**31 - 1, 262_144), (2**31, 1))]
    changes += [(SIZED, SIZED.replace(*it)) for it in ((b"2068", b"2067"), (b"2068", b"02068"), (b"blocks", b"block"))]
    dumps = [(it, b"7") for it in (b"1", b"9")]
    return [LINE.replace(*it) for it in changes] + [line.replace(*it) for line in DUMP_LINES for it in (*SPOILED_DUMPS, *dumps, *DUMP_LIMITS)]


def no_catalog(text: bytes) -> str:
    """What is told of a text that is no catalog."""
    return f"rdump: {FILE}: it is no catalog: line {bad_line(text)}: bad line\n"


class Texts(CatalogCase):
    """A file that is cut, changed at each byte, or of another kind is refused by its first bad line, by each command, and stays."""

    good = text_for(ONE_FILE)

    def test_texts(self) -> None:
        """What `rdump ls` says of a reel by each text."""
        self.same("a line by hand", LINE[66:-1], b"/usr level 0 date 951782400 since 0 volume 1 first 0, " + SIZED, LINE)
        self.p.file("r1", FILES[0])
        ways: Counter[str] = Counter()
        for title, text in [*bad_texts(self.good), *((f"limit {number}", it) for number, it in enumerate(limits()))]:
            self.p.file(FILE, text)
            if bad_line(text) is None:
                ways["good"] += 1
                self.are_told(title, {"r1": FILES[0]}, "r1")
            else:
                ways["bad"] += 1
                self.same(f"{title}: ls", self.p.run("ls", *CATALOG, "r1"), Ended("", no_catalog(text), FAILED))
        self.holds("texts: each way is met often", ways["bad"] > 500 and ways["good"] > 20, ways)

    def test_dumps_with_bad_texts(self) -> None:
        for text in (self.good[:-1], b"\n", b"\n\n" + self.good, self.good + b"x\n", self.good.upper()):
            self.p.file(FILE, text)
            self.refused(f"a dump with {text[-20:]!r}", re.escape(no_catalog(text)), *CATALOG)

    def test_no_file_and_a_folder(self) -> None:
        self.p.file("r1", FILES[0])
        self.told("no file", self.p.run("ls", *CATALOG, "r1"), "", FAILED, f"rdump: {FILE}: No such file or directory (os error 2)\n")
        self.kept.mkdir()
        self.fails("a folder", self.p.run("ls", *CATALOG, "r1"), f"rdump: {FILE}: ")

    def test_faults_that_come_before_it(self) -> None:
        self.p.file("bad", b"foo\n")
        self.p.file(FILE, b"bad\n")
        got = self.p.dump(NOWHERE, *CATALOG, payload="missing")
        self.ends("no payload comes before the catalog", got, "", FAILED, "missing")
        got = self.p.dump(NOWHERE, *CATALOG, dumpdates="bad")
        self.ends("a bad dumpdates file comes before the catalog", got, "line 1: bad line\n", FAILED, "rdump: bad: ")


# Its .new.


class NewFiles(CatalogCase):
    """A .new that has a byte stays; an empty one is taken over; one that is locked is waited for."""

    def test_new_files_of_another(self) -> None:
        text = text_for(ONE_FILE)
        for number, it in enumerate((b"own\n", b"\n", bytes(512), text, text[:-3], ENTRY.encode())):
            self.p.file("catalog.new", it)
            told = re.escape("rdump: catalog.new: it is not one that rdump left: it is not touched\n")
            self.refused(f"a .new of another, {number}", told, *CATALOG)

    def test_what_was_left(self) -> None:
        """An empty .new is taken over. A part of a text that was being written stays."""
        self.p.file("catalog.new", b"")
        self.p.file("catalog.new.1", BEGAN[:-3])
        self.ends("what was left", self.dump([Reel("r1", 9000)], *CATALOG), printed([(0, 3)]), DONE)
        files = self.lying(), self.catalog(), self.catalog("catalog.new.1")
        self.same("what was left: the files", files, ([FILE, "catalog.new.1"], text_for(ONE_FILE), BEGAN[:-3]))

    def test_a_new_file_of_another_that_comes_late(self) -> None:
        title = "a .new of another that comes late"
        got = self.dump([Reel("r1", 9000)], *CATALOG, "--update", acts={5: lambda: self.p.file("catalog.new", b"own\n")})
        self.unentered(title, got, ONE_FILE, "its .new is not one that rdump left: it is not touched")
        self.same(f"{title}: it stays", (self.catalog(), self.catalog("catalog.new")), (BEGAN, b"own\n"), self.lying())

    def lock(self) -> IO[bytes]:
        """Locks a new file, as another run does that enters a line."""
        other = self.new.open("w+b")
        self.addCleanup(other.close)
        fcntl.flock(other, fcntl.LOCK_EX)
        return other

    def test_a_lock_that_is_held_for_a_while(self) -> None:
        """Another process has the .new for two seconds, which is waited for."""

        def hold() -> None:
            other = self.lock()
            threading.Timer(2, let_go, (other,)).start()

        def let_go(other: IO[bytes]) -> None:
            self.new.unlink()
            fcntl.flock(other, fcntl.LOCK_UN)

        got = self.dump([Reel("r1", 9000)], *CATALOG, "--update", acts={5: hold})
        wanted = Ended(printed([(0, 3)]), "", DONE), text_for(ONE_FILE)
        self.same("a lock that is held for a while", (got, self.catalog()), wanted)

    def test_a_lock_that_is_held_for_too_long(self) -> None:
        title = "a lock that is held for too long"
        got = self.dump([Reel("r1", 9000)], *CATALOG, "--update", acts={5: self.lock})
        self.unentered(title, got, ONE_FILE, "its .new was locked for ten seconds")
        self.same(f"{title}: the files", (self.lying(), self.catalog(), self.catalog("catalog.new")), ([FILE, "catalog.new"], BEGAN, b""))


# What cannot be written.


def take_away(path: Path) -> None:
    """Removes a file, a link or an empty folder."""
    if path.is_dir() and not path.is_symlink():
        path.rmdir()
    else:
        path.unlink()


class NoRoom(CatalogCase):
    """A line cannot be entered. The dump goes on."""

    def by_hand(self, title: str, got: Ended[str], files: list[bytes], name: str = FILE) -> None:
        """The lines that were told are added by hand: then `ls --catalog` says that all are equal."""
        told = [it for it in got.told.splitlines(keepends=True) if re.match(r"[0-9a-f]{64}  ", it)]
        self.same(f"{title}: the lines that are told", "".join(told).encode(), lines_for(files))
        with self.p.folder.joinpath(name).open("ab") as file:
            file.write("".join(told).encode())
        reels = {f"by-hand/{number}": it for number, it in enumerate(files)}
        self.put(reels)
        got = self.p.run("ls", "--catalog", name, *reels)
        count = got.output.count("whole, sum equal\n")
        self.same(f"{title}: added by hand, all are equal", count, len(files), got)
        shutil.rmtree(self.p.folder / "by-hand")

    def test_a_limit_on_the_size_of_files(self) -> None:
        old = b"".join(volume_line(number, 9) for number in range(1, 2 * ROOM // 120))
        old = old[: old.rindex(b"\n", 0, ROOM - len(BEGAN)) + 1]
        self.p.file(FILE, old)
        with Model(*two()) as model:
            got = self.p.run(*self.p.dump_words(model.address, *CATALOG, "--update"), **in_room(ROOM))
        self.same("in little room: the dump", got.output, TWO_VOLUMES, got)
        self.unentered("in little room", got, FILES, "File too large (os error 27)")
        self.same("in little room: the file", (self.catalog(), self.lying()), (old + BEGAN, [FILE]))
        self.by_hand("in little room", got, FILES)

    def test_files_that_became_others(self) -> None:
        """The file becomes bad, or a folder, and its .new one that is no plain file."""

        def become_a_folder() -> None:
            self.kept.unlink()
            self.kept.mkdir()

        rows: tuple[tuple[str, Act, str], ...] = (
            ("a file that became a bad one", lambda: self.p.file(FILE, b"own\n"), "it is no catalog: line 1: bad line"),
            ("a file that became a folder", become_a_folder, "it is no plain file"),
            ("a new file that is a folder", self.new.mkdir, "its .new is no plain file"),
            ("a new file that is a link", lambda: self.new.symlink_to("payload"), "its .new is no plain file"),
        )
        for title, act, why in rows:
            self.kept.unlink(missing_ok=True)
            got = self.dump(two(), *CATALOG, "--update", acts={5: act})
            self.same(f"{title}: the dump", got.output, TWO_VOLUMES, got)
            self.unentered(title, got, FILES, why)
            for path in [self.p.folder / it for it in self.lying()]:
                take_away(path)
            self.same(f"{title}: the payload", self.p.folder.joinpath("payload").read_bytes(), PAYLOAD)
            self.p.file(FILE, BEGAN)
            self.by_hand(title, got, FILES)

    def test_a_full_disk(self) -> None:
        """A disk is full from some moment on."""
        with small_disk(self.p.folder / "small") as mounted:
            if not mounted:
                self.skipTest("no small disk can be mounted")
            for title, number, unwritten in (("the first volume", 3, FILES), ("the second volume", SECOND, FILES[1:])):
                self.full_from(f"a full disk from {title} on", number, unwritten)
            fill(self.p.folder / "small")
            got = self.p.dump(NOWHERE, "--catalog", "small/catalog", "--update")
            wanted = Ended("", "rdump: small/catalog: No space left on device (os error 28)\n", FAILED)
            self.same("a disk that is full at the start", (got, self.p.text("dumpdates")), (wanted, None))

    def full_from(self, title: str, number: int, unwritten: list[bytes]) -> None:
        """The disk is full from this request on, and the lines of these reels cannot be written."""
        disk, name = self.p.folder / "small", "small/catalog"
        self.p.folder.joinpath(name).unlink(missing_ok=True)
        got = self.dump(two(), "--catalog", name, "--update", acts={number: lambda: fill(disk)})
        disk.joinpath("filler").unlink()
        why = f"rdump: {name}: No space left on device (os error 28): {ADD}"
        tells = "".join(why + line_of(it).decode() for it in unwritten) + NOT_COMPLETE
        self.same(f"{title}: what is told", got, Ended(TWO_VOLUMES, tells, ABNORMAL))
        self.same(f"{title}: it is entered", self.p.text("dumpdates"), ENTRY)
        text = self.catalog(name) or b""
        self.same(f"{title}: the file", text, BEGAN + lines_for(FILES[: 2 - len(unwritten)]))
        self.same(f"{title}: nothing is left", [it.name for it in disk.iterdir()], ["catalog"])
        self.by_hand(title, got, unwritten, name)
        self.p.folder.joinpath("dumpdates").unlink(missing_ok=True)

    def test_other_faults_beside(self) -> None:
        """A dump that is abandoned, and one whose dumpdates file cannot be written either."""
        abandoned = "volume 1: 2 blocks from 0\nvolume 2 failed: Refused 6\nretry?\ndump abandoned\n"
        not_entered = TWO_VOLUMES + "dumpdates not updated\n"
        for title, count, more, bad_from, output in (
            ("abandoned", 1, (), None, abandoned),
            ("abandoned, and no line", 1, (), 5, abandoned),
            ("dumpdates cannot be written, and no line", 2, ("--update",), 6, not_entered),
            ("dumpdates cannot be written", 2, ("--update",), None, not_entered),
        ):
            self.p.folder.joinpath("dumpdates.new").mkdir()
            acts: dict[int, Act] = {bad_from: self.new.mkdir} if bad_from else {}
            got = self.dump(two()[:count], *CATALOG, *more, acts=acts)
            self.p.folder.joinpath("dumpdates.new").rmdir()
            if self.new.exists():
                self.new.rmdir()
            self.same(f"{title}: the dump", (got.output, got.status), (output, ABNORMAL), got)
            says = got.told.endswith(NOT_COMPLETE), NOT_COMPLETE in got.told
            self.same(f"{title}: whether the catalog is complete", says, (bool(bad_from), bool(bad_from)), got)
            tell = f"rdump: {FILE}: its .new is no plain file: {ADD}"
            are_told = [tell + line_of(it).decode() in got.told for it in FILES[:count]]
            self.same(f"{title}: the lines that are told", are_told, [bool(bad_from)] * count, got)
            entered = BEGAN if bad_from else text_for(FILES) if count == 2 else BEGAN + lines_for(FILES[:count])
            self.same(f"{title}: the lines", self.catalog(), entered)
            self.kept.unlink(missing_ok=True)

    def test_a_count_that_cannot_be_printed(self) -> None:
        with open("/dev/full", "wb") as full, Model(*two()) as model:
            got = self.p.dump(model.address, *CATALOG, *KEPT, stdout=full.fileno())
        self.same("a count that cannot be printed has its line", (self.catalog(), got.status), (BEGAN + line_of(FILES[0]), ABNORMAL), got)

    def test_progress_on_a_terminal(self) -> None:
        """The line of progress is cleared before a line that could not be entered is told."""
        with Model(Reel("r1", 9000), acts={5: self.new.mkdir}) as model, Terminal() as terminal:
            got, shown = self.p.dump(model.address, *CATALOG, stderr=terminal.far), terminal.shown()
        self.same("on a terminal: the dump", (got.output, got.status), (printed([(0, 3)]), ABNORMAL), got)
        told = f"rdump: {FILE}: its .new is no plain file: {ADD}{line_of(ONE_FILE[0]).decode()}".replace("\n", "\r\n")
        self.holds("on a terminal: a line that could not be entered", CLEAR + told in shown, shown, told)
        self.holds("on a terminal: the catalog is not complete", NOT_COMPLETE.replace("\n", "\r\n") in shown, shown)


# In which order all is done.

CATALOG_PATH = f"/{FILE}"
THREE = shimmed.THREE_BLOCKS
THREE_LINES = text_for(THREE.reels(), len(THREE.data())).splitlines(keepends=True)
THREE_BEGAN, *THREE_VOLUMES, THREE_DONE = THREE_LINES


class KeptRun(NamedTuple):
    """How a dump with a checkpoint file and a catalog ended, what it left and what its catalog held then; and the same words again, if it was not
    complete, and what the catalog held after those."""

    got: shimmed.Ran[object]
    left: shimmed.Left
    text: bytes
    again: shimmed.Ran[object] | None
    then: bytes

    def shown(self) -> tuple[object, ...]:
        """What is told of a run that is not as it has to be."""
        return self.got.shown(), self.left.shown(), self.text


def kept_run(p: shimmed.ShimmedPrograms, rules: str, path: str = "") -> KeptRun:
    """A dump with both files, by calls that meet these rules."""
    with shimmed.dump_site(p, THREE) as (folder, words):
        file = folder / FILE
        words = (*words, *shimmed.kept_words(folder), "--catalog", str(file), *shimmed.DATED)
        got = p.run(words, rules, b"", path)
        left, text = shimmed.left(folder), data_of(file) or b""
        if left.kept is None and (got.status in (DONE, ABNORMAL) or got.output.endswith(THREE.printed(2))):
            return KeptRun(got, left, text, None, text)
        again = p.run(words, None, YES.encode())
        return KeptRun(got, left, text, again, data_of(file) or b"")


def lines_told(told: bytes) -> list[bytes]:
    """The lines that a dump says are to be added."""
    return [it[1] for it in re.finditer(rb"^rdump: [^\n]*: add this line, above those of later volumes:\n([0-9a-f]{64}  [^\n]*\n)", told, re.M)]


def broken_rules(it: KeptRun) -> list[str]:
    """The rules that such a dump does not keep."""
    got, told, text = it.got, lines_told(it.got.told), it.text
    counted = max(len(re.findall(rb"^volume \d+: ", got.output, re.M)), len(counts_kept(it.left.kept)))
    had = [*text.splitlines(keepends=True), *told]
    tells, is_killed = RESTORE.sub("", got.told.decode()), got.status < 0
    is_ended, is_finished = b"dump complete: " in got.output, THREE_DONE in had
    is_short, is_whole = bool(told) or (is_ended and not is_finished), {*THREE_VOLUMES} <= {*had}
    rules = {
        "each count that was printed, or that the checkpoint has, has its line, or that is told": {*THREE_VOLUMES[:counted]} <= {*had},
        "each line is of the dump": {*had} <= {*THREE_LINES},
        "no line is there twice": len({*had}) == len(had),
        "the lines are in their order": text == b"".join(line for line in THREE_LINES if line in text),
        "it has begun before anything is printed, written or kept": THREE_BEGAN in had or not (got.output or it.left.bin or it.left.kept is not None),
        "it is finished only if all lines are there, and the end was printed": not is_finished or (is_whole and is_ended and not told),
        "dumpdates has it only if it is finished, or not complete": it.left.dates == shimmed.OLD_DATES or is_finished or is_short,
        "it is told whether the catalog is complete": tells.endswith(NOT_COMPLETE) or is_killed if is_short else NOT_COMPLETE not in tells,
        "each line that is to be added is told whole": got.told.count(b"add this line,") == len(told),
        "the status says whether the catalog is complete": not is_short or got.status == ABNORMAL or is_killed,
    }
    return [rule for rule, is_kept in rules.items() if not is_kept]


def met(made: dict[str, int]) -> Iterator[tuple[str, int, str]]:
    """The calls, each with what it meets. Looks at files are many, and no client is killed before one."""
    ways = {"statx": ("E5",), "write": ("E5", "E28", "K")}
    for call, count in made.items():
        for number in range(1, count + 1):
            yield from ((call, number, what) for what in ways.get(call, ("E5", "K")))


class Calls(CatalogCase):
    """The calls of a dump with a checkpoint file and a catalog: their order, and each of them fails."""

    def test_order(self) -> None:
        """A line is on the disk, and its file in place, before its volume is printed and before a checkpoint has its count."""
        strace = traced(self, CALLS)
        if not strace:
            return
        with Model(*two()) as model:
            got = self.p.run(*strace[1:], self.p.rdump, *self.p.dump_words(model.address, *KEPT, *CATALOG, "--update"), program=strace[0])
        self.ends("under strace", got, TWO_VOLUMES, DONE)
        port = model.address.rsplit(":", 1)[1]
        connects = ("a connection is made", "connect", rf"htons\({port}\)")
        wanted = (
            *(*self.replaced(FILE, "begun     /usr"), *self.replaced("usr.checkpoint", r"blocks 3\\n"), connects),
            *self.replaced(FILE, "volume 1 first 0, 2 blocks"),
            *(("a count is printed", "write", r"^1<.*volume 1: 2"), *self.replaced("usr.checkpoint", r"counted 1 0 2\\n"), connects),
            *(*self.replaced(FILE, "volume 2 first 2, 1 blocks"), ("a count is printed", "write", r"^1<.*volume 2: 1")),
            *(*self.replaced("usr.checkpoint", r"counted 2 2 1\\n"), ("the end is printed", "write", r"^1<.*dump complete")),
            *(*self.replaced(FILE, "finished  /usr"), *self.replaced("dumpdates", "/usr")),
        )
        made = made_in(self.p.folder)
        in_order(self, made, wanted)
        renames = [text for name, text in made if name == "rename" and f'{FILE}.new.1"' in text]
        self.same("under strace: the catalog is replaced once for a line", len(renames), 4, renames)
        locks = [text for name, text in made if name == "flock" and f"/{FILE}.new>, LOCK_EX" in text]
        self.same("under strace: it is locked for each, and at the start", len(locks), 5, locks)

    def replaced(self, name: str, text: str) -> tuple[tuple[str, str, str], ...]:
        """The calls that replace a file by a new one with this text."""
        folder, new, old = re.escape(str(self.p.folder.resolve())), re.escape(f"{name}.new.1"), re.escape(name)
        return (
            (f"{old}: the new file is made", "open", rf'{new}", .*O_CREAT\|O_EXCL'),
            (f"{old}: the text is written", "write", rf"<{folder}/{new}>, .*{text}"),
            (f"{old}: it is synced", "fsync", rf"<{folder}/{new}>"),
            (f"{old}: it is renamed", "rename", rf'{new}".*{old}"'),
            (f"{old}: the folder is synced", "fsync", rf"<{folder}>"),
        )

    def under_the_library(self) -> shimmed.ShimmedPrograms:
        """The programs, which run under the library of hostile.c."""
        return shimmed.ShimmedPrograms(built("rmtd"), built("rdump"), built("rsim"), self.enterContext(compiled(self)))

    def goes_on(self, title: str, it: KeptRun) -> None:
        """The same words again, if they were needed, entered what the model says, and ended well if that is all."""
        if it.again is None:
            return
        had = None if it.left.kept is None else len(counts_kept(it.left.kept))
        wanted, is_complete = resumed(it.text, had, THREE.reels(), len(THREE.data()))
        came = it.again.status, it.then
        self.same(f"{title}: it goes on, and all lines are there", came, (DONE if is_complete else ABNORMAL, wanted), it.again.shown())

    def test_each_call_fails(self) -> None:
        """And before each the client is killed. The same words go on then, and all lines are there once the dump is complete, but those that were
        told."""
        p = self.under_the_library()
        well = kept_run(p, "")
        self.same("a dump in which nothing fails", (well.got.status, well.got.output, well.text), (DONE, THREE.printed(), b"".join(THREE_LINES)))
        names = ("open", "openat", "statx", "flock", "fsync", "rename", "unlink", "fchmod", "fchown", "recv", "connect")
        counts = {it: well.got.calls.count(it) for it in names}
        at_catalog = {it: kept_run(p, "", CATALOG_PATH).got.calls.count(it) for it in ("write", "read", "fsync", "flock")}
        are_seen = counts["rename"], at_catalog["write"] >= 4, at_catalog["fsync"] >= 4
        self.same("the calls of such a dump are seen", are_seen, (8, True, True), counts, at_catalog)
        ways: set[object] = set()
        for path, made in (("", counts), (CATALOG_PATH, at_catalog)):
            for call, number, what in met(made):
                it = kept_run(p, f"{call}:{number}:{what}", path)
                title = f"{call} {number} of {made[call]} {'of the catalog ' * bool(path)}meets {what}"
                came = broken_rules(it), it.got.status == -signal.SIGKILL
                self.same(f"{title}: each count has its line", came, ([], what == "K"), it.shown())
                ways.add("told" if lines_told(it.got.told) else it.got.status)
                self.goes_on(title, it)
        self.holds("each way is met", {"told", DONE, FAILED, ABNORMAL, -signal.SIGKILL} <= ways, ways)

    def test_killed_in_a_write(self) -> None:
        """The client is killed when so many bytes of a line are written."""
        p = self.under_the_library()
        for moved in range(0, len(b"".join(THREE_LINES)) + 1, 11):
            for number in (1, 2, 3, 4):
                it = kept_run(p, f"write:{number}:k{moved}", CATALOG_PATH)
                title = f"killed after {moved} bytes of write {number}"
                self.same(f"{title}: each count has its line", (broken_rules(it), it.got.status), ([], -signal.SIGKILL), it.shown())
                self.goes_on(title, it)

    def test_short_writes(self) -> None:
        it = kept_run(self.under_the_library(), "write:1+:s1", CATALOG_PATH)
        self.same("each write is of one byte", (it.got.status, it.text), (DONE, b"".join(THREE_LINES)), it.shown())
