"""Checks what the built `rdump cat` writes of record files: the payload of one dump, from its volumes in any order, or nothing.

A plain decoder says which files are whole volumes, and a plain model says what has to come of them. The reels are record files that this file makes;
those of random dumps are made by the built `rmtd` and `rdump dump`.
"""

from __future__ import annotations

import fcntl
import os
import random
import re
import socket
import subprocess
import tempfile
from contextlib import contextmanager
from itertools import permutations, product
from pathlib import Path
from typing import Any, Iterator, Mapping, NamedTuple

from tests.lib.case import random_seed
from tests.lib.cats import LOOK_ALIKE, ReelFolder, cat
from tests.lib.drives import files_of
from tests.lib.dumping import DAY, DAY_BEFORE, Programs, as_nobody, in_room
from tests.lib.ended import ABNORMAL, DONE, FAILED, Ended
from tests.lib.given import given
from tests.lib.listings import GREATEST_RECORD, Label, decoded, dump_words, said, volume_of
from tests.lib.places import built
from tests.lib.processes import guarded
from tests.lib.servers import at_drive
from tests.lib.shim import compiled
from tests.lib.terminals import CLEAR, Terminal
from tests.lib.volumes import reels_of, volumes_of
from tests.models.rmtd import Entry, images

BLOCK = 512
USR_BYTES = bytes(range(256)) * 15 + b"the end"
PADDED = USR_BYTES + bytes(-len(USR_BYTES) % BLOCK)
# The volumes of this payload have 3, 3 and 2 blocks.
VOLUMES = volumes_of(len(PADDED) // BLOCK, BLOCK, 2600)
R1, R2, R3 = reels_of(USR_BYTES, BLOCK, VOLUMES)
THREE = {"r1": R1, "r2": R2, "r3": R3}
USR = Label("/usr", 0, DAY, 0, 2, 3)
BLOCKS = [PADDED[at * BLOCK : (at + 1) * BLOCK] for at in range(3, 6)]

LIST_THEM = "rdump ls with the same files prints what each of them has"
NO_VOLUME = f"no file has a whole volume of such a dump: {LIST_THEM}"
MISSING = f"volume 2 is missing: {LIST_THEM}"
DISPLACED = "r2: it does not begin at block 3, where the volume before it ends"
TWO_SIZES = "r1 and r2 have blocks of different sizes: leave out one of them"
TWO_DUMPS = "the files have volumes of more than one dump: choose one by --fs, --level and --date"

# How many dumps of random shape are made, and how many random shelves are tried.
DUMPS, SHELVES = 200, 300


def other_length(blocks: int, block: int = BLOCK) -> str:
    """What is told of a length that does not end in the last block."""
    return f"the volumes have {blocks} blocks of {block} bytes, and a payload of this length has another number of blocks: {LIST_THEM}"


def two_reels(one: str, other: str) -> str:
    """What is told of two reels of one volume."""
    return f"{one} and {other} have the same volume, with different bytes: leave out one of them"


def changed(path: str) -> bytes:
    """What is told of a reel that changed after it was checked."""
    return f"rdump: {path}: it was changed or could not be read again: the payload is not whole\n".encode()


def dump_line(label: Label) -> str:
    """The dump of a label, as it is named if there are several."""
    return dump_words(*label[:4])


def second(label: Label = USR, blocks: list[bytes] | None = None) -> bytes:
    """The reel of the second volume, with another label, or with other blocks."""
    records: list[Entry] = [label.record(), *(BLOCKS if blocks is None else blocks), None]
    return images(records)


# Files without a whole volume, one in place of the second reel: it is ignored.
IGNORED = {
    "an empty reel": b"",
    "a mark": images([None]),
    "a mark and the volume": images([None]) + R2,
    "the payload": USR_BYTES,
    "a label that is cut": R2[:1031],
    "a label with a byte more": images([USR.record() + b"\0", *BLOCKS, None]),
    "a label with a line more": images([USR.record().rstrip(b"\0").ljust(1023, b"x") + b"\0", *BLOCKS, None]),
    "another length behind the label": R2[:1028] + b"\1" + R2[1029:],
    "no mark": R2[:-4],
    "a label alone": R2[:1032],
    "another length behind a block": R2[:-8] + b"\1" + R2[-7:],
    "a record that is too long": images([USR.record(), bytes(GREATEST_RECORD + 1), None]),
    "a shorter block": second(blocks=[*BLOCKS[:2], b"short"]),
    "a second mark": R2 + images([None]),
    "a record behind the mark": R2 + images([b"more"]),
    "a tail": R2 + b"\5\0\0\0tail",
    "a byte behind the mark": R2 + b"\0",
    "two volumes": R2 + R3,
    "the first reel again": R1,
}
# Files that are refused in place of the second reel, each with what is told.
REFUSED = {
    "a block before": (second(USR._replace(first=2)), DISPLACED),
    "a block behind": (second(USR._replace(first=4)), DISPLACED),
    "longer blocks": (second(blocks=[it + it for it in BLOCKS]), TWO_SIZES),
    "no block": (second(blocks=[]), TWO_SIZES),
    "a block less": (second(blocks=BLOCKS[:2]), DISPLACED.replace("r2", "r3").replace("3,", "5,")),
    "a block more": (second(blocks=[*BLOCKS, BLOCKS[0]]), DISPLACED.replace("r2", "r3").replace("3,", "7,")),
}
# Labels of other dumps.
OTHER_DUMPS = {
    "another name": USR._replace(name="/usr2"),
    "another level": USR._replace(level=1),
    "another date": USR._replace(date=DAY + 1),
    "another base date": USR._replace(since=DAY_BEFORE),
}


class Wanted(NamedTuple):
    """The dump that is wanted, as far as it is given."""

    name: str | None = None
    level: int | None = None
    date: int | None = None

    def words(self) -> tuple[str, ...]:
        """The options that say so."""
        named = (("--fs", self.name), ("--level", self.level), ("--date", self.date))
        return tuple(str(word) for option, value in named if value is not None for word in (option, value))

    def fits(self, label: Label) -> bool:
        return all(value in (None, its) for value, its in zip(self, label))


class Volume(NamedTuple):
    """A whole volume, the file that has it, and all bytes of the file."""

    label: Label
    blocks: tuple[bytes, ...]
    path: str
    data: bytes


def whole_volumes(files: Mapping[str, bytes], wanted: Wanted = Wanted()) -> list[Volume]:
    """The whole volumes that are wanted, in the order of their numbers."""
    found = []
    for path, data in files.items():
        volume = volume_of(decoded(data)[0]) if said(data).is_whole() else None
        if volume and wanted.fits(volume[0]):
            found.append(Volume(volume[0], tuple(volume[1]), path, data))
    return sorted(found, key=lambda it: it.label.volume)


def faults_of(volumes: list[Volume], length: int) -> set[int]:
    """The statuses by which these volumes can be refused: none if the payload is whole."""
    one = list({it.label.volume: it for it in volumes}.values())
    blocks = [block for it in one for block in it.blocks]
    ends = [sum(len(it.blocks) for it in one[:number]) for number in range(len(one))]
    faults = {FAILED} if len({it.label[:4] for it in volumes}) > 1 else set()
    is_whole = (
        bool(volumes)
        and len({it.data for it in volumes}) == len(one)
        and len({len(it.blocks[0]) if it.blocks else 0 for it in one}) == 1
        and [(it.label.volume, it.label.first) for it in one] == [*enumerate(ends, 1)]
        and -(-length // max(1, len(blocks[0]) if blocks else 0)) == len(blocks)
    )
    return faults if is_whole else faults | {ABNORMAL}


def payload_of(volumes: list[Volume], length: int) -> bytes:
    """The payload of the volumes of one dump."""
    return b"".join(block for it in {it.label.volume: it for it in volumes}.values() for block in it.blocks)[:length]


class CatCase(ReelFolder):
    """The command with a length, in a folder of reels."""

    def cat(self, length: int, *words: str, **how: Any) -> Ended[bytes]:
        return cat(length, *words, folder=self.folder, **how)

    def comes_back(self, name: str, payload: bytes, *words: str, length: int | None = None) -> None:
        got = self.cat(len(payload) if length is None else length, *words)
        self.same(name, got, Ended(payload, LOOK_ALIKE, DONE))

    def refused(self, name: str, why: str, *words: str, length: int = len(USR_BYTES), status: int = ABNORMAL) -> None:
        """Nothing is written, and this is told, line by line."""
        told = "".join(f"rdump: {it}\n" for it in why.split("\n"))
        self.same(name, self.cat(length, *words), Ended(b"", told.encode(), status))


class Reels(CatCase):
    """Reels of one dump."""

    def setUp(self) -> None:
        super().setUp()
        self.lay(THREE)

    def test_orders(self) -> None:
        """The reels in any order, with a copy of one of them, and as a folder. No file is changed."""
        self.lay({"again": R2})
        times = {it: it.stat().st_mtime_ns for it in self.folder.iterdir()}
        for names in permutations(("r1", "r2", "r3")):
            self.comes_back(f"{names}", USR_BYTES, *names)
        for names in permutations(("r1", "r2", "r3", "again")):
            self.comes_back(f"{names}", USR_BYTES, *names)
        self.comes_back("a folder", USR_BYTES, ".")
        self.comes_back("a whole path", USR_BYTES, str(self.folder))
        self.comes_back("a reel twice", USR_BYTES, "r2", "r1", "r2", "r3", "r1")
        self.same("the files", files_of(self.folder), (THREE | {"again": R2},))
        self.same("the times of the files", {it: it.stat().st_mtime_ns for it in self.folder.iterdir()}, times)

    def test_sizes(self) -> None:
        """Blocks of a byte and the longest ones, many reels, and a dump without blocks."""
        kinds = (
            (b"abc", 1, 1100),
            (bytes(range(250)), 1, 1060),
            (bytes(range(250)) * 2800, GREATEST_RECORD, 600000),
            (bytes(GREATEST_RECORD * 2), GREATEST_RECORD, 1 << 20),
            (b"", BLOCK, 2000),
        )
        for payload, block, capacity in kinds:
            volumes = volumes_of(-(-len(payload) // block), block, capacity)
            with tempfile.TemporaryDirectory(dir=self.folder) as folder:
                reels = reels_of(payload, block, volumes)
                self.lay({f"{folder}/{number}": it for number, it in enumerate(reels)})
                self.comes_back(f"{len(reels)} reels, blocks of {block}", payload, folder)

    def test_many_reels(self) -> None:
        """A thousand reels, in an order that is not that of the volumes."""
        payload = random.Random(7).randbytes(1000)
        reels = reels_of(payload, 1, [(number, 1) for number in range(1000)])
        self.lay({f"many/{number * 7 % 1000:03}": it for number, it in enumerate(reels)})
        self.comes_back("a thousand reels", payload, "many")

    def test_lengths(self) -> None:
        """Each length that ends in the last block is written, and no other one is."""
        least = len(PADDED) - BLOCK + 1
        for length in (least, least + 1, len(USR_BYTES), len(PADDED) - 1, len(PADDED)):
            self.comes_back(f"{length} bytes", PADDED[:length], "r1", "r2", "r3")
        for length in (0, 1, least - 1, len(USR_BYTES) - BLOCK, len(PADDED) + 1, len(USR_BYTES) + BLOCK, 1 << 32, (1 << 63) - 1):
            self.refused(f"{length} bytes", other_length(8), "r1", "r2", "r3", length=length)
        self.lay({"none": images([Label("/usr", 0, DAY, 0, 1, 0).record(), None])})
        self.comes_back("no block", b"", "none")
        self.refused("no block, and a byte is wanted", other_length(0, 0), "none", length=1)

    def test_refused(self) -> None:
        """Another reel in the place of the second one."""
        for names in (("r1", "r2", "r3"), ("r3", "r2", "r1")):
            for title, data in IGNORED.items():
                self.lay({"r2": data})
                self.refused(f"{title}: {names}", MISSING, *names)
                self.lay({"good": R2})
                self.comes_back(f"{title}, and the reel: {names}", USR_BYTES, "good", *names)
            for title, (data, why) in REFUSED.items():
                self.lay({"r2": data})
                self.refused(f"{title}: {names}", why, *names)
            for title, label in OTHER_DUMPS.items():
                self.lay({"r2": second(label)})
                lines = [dump_line(label if it == "r2" else USR) for it in names[:2]]
                self.refused(f"{title}: {names}", "\n".join((TWO_DUMPS, *lines)), *names, status=FAILED)

    def test_cut(self) -> None:
        """The last reel without its last bytes, however many are missing."""
        for size in range(len(R3)):
            if size % 100 < 3 or len(R3) - size < 20 or abs(size - 1032) < 10:
                self.lay({"r3": R3[:size]})
                self.refused(f"{size} bytes", other_length(6), "r3", "r2", "r1")

    def test_missing(self) -> None:
        """Each reel is left out."""
        self.refused("the first", MISSING.replace("2", "1"), "r3", "r2")
        self.refused("the second", MISSING, "r3", "r1")
        self.refused("the last", other_length(6), "r2", "r1")
        self.refused("the first two", MISSING.replace("2", "1"), "r3")
        self.refused("the last two", other_length(3), "r1")
        for name in THREE:
            (self.folder / name).write_bytes(b"")
        self.refused("all of them", NO_VOLUME, *THREE)
        self.refused("all of them, of a folder", NO_VOLUME, ".")

    def test_two_reels(self) -> None:
        """A second reel of a volume with other bytes: both are named."""
        for name, data in THREE.items():
            for title, place in (("first", 1036), ("last", len(data) - 9)):
                self.lay({"again": data[:place] + bytes([data[place] ^ 1]) + data[place + 1 :]})
                got = self.cat(len(USR_BYTES), *THREE, "again")
                told = [f"rdump: {two_reels(*it)}\n".encode() for it in ((name, "again"), ("again", name))]
                self.holds(f"the {title} byte of the blocks of {name}", got.told in told and got[::2] == (b"", ABNORMAL), got)

    def test_bits(self) -> None:
        """A bit of each byte of a small reel is changed. Nothing is written, unless it is a bit of a block's data. Nothing can notice that without
        the sums, and the payload comes with it."""
        payload = b"one two three four five."
        first, middle, last = reels_of(payload, 4, [(0, 2), (2, 2), (4, 2)])
        self.lay({"r1": first, "r3": last})
        data = {1032 + number * 12 + 4 + byte: 8 + number * 4 + byte for number in range(2) for byte in range(4)}
        for place, byte in enumerate(middle):
            other = bytes([byte ^ 1 << place % 8])
            self.lay({"r2": middle[:place] + other + middle[place + 1 :]})
            got = self.cat(len(payload), "r1", "r2", "r3")
            if place in data:
                wanted = payload[: data[place]] + other + payload[data[place] + 1 :]
                self.same(f"byte {place} of the data", got, Ended(wanted, LOOK_ALIKE, DONE))
            else:
                self.same(f"byte {place}: nothing is written", (got.output, got.status in (FAILED, ABNORMAL)), (b"", True), got)


class Shelves(CatCase):
    """Reels of several dumps, folders, and files that are no reels."""

    def test_other_dumps(self) -> None:
        """Reels of four dumps: each choice gives the payload of the dump that it names, or names all dumps that it leaves."""
        dumps = [Label(name, level, date, 0, 1, 0) for name, level, date in (("/usr", 0, 5), ("/usr", 1, 5), ("/usr", 0, 6), ("/home", 0, 5))]
        files = {f"r{number}": images([it.record(), b"%08d" % number, None]) for number, it in enumerate(dumps)}
        self.lay(files)
        for wanted in map(Wanted._make, product((None, "/usr", "/home", "/", "/usr/"), (None, 0, 1, 9), (None, 5, 6, 0))):
            found = [number for number, it in enumerate(dumps) if wanted.fits(it)]
            words = (*wanted.words(), *files)
            if len(found) == 1:
                self.comes_back(f"{wanted}", b"%08d" % found[0], *words)
            elif found:
                lines = [TWO_DUMPS, *(dump_line(dumps[it]) for it in found)]
                self.refused(f"{wanted}", "\n".join(lines), *words, length=8, status=FAILED)
            else:
                self.refused(f"{wanted}", NO_VOLUME, *words, length=8)

    def test_folders(self) -> None:
        """A folder's plain files, without names that begin with a dot, and without what is below it. Folders over folders, and links to either."""
        self.lay({"a/1": R1, "b/2": R2, "c/3": R3, "c/.r": R1[:-9] + b"x" + R1[-8:], "a/.hidden": b"", "c/below/r": R2[:-9] + b"x" + R2[-8:]})
        self.lay({"over/a/1": R1, "over/2": R2, "over/3": R3, "a/strange\n\x1b[2J name ": b"", "other": R3[:-9] + b"x" + R3[-8:]})
        for name, to in (("a/link", "../other"), ("a/dangling", "nowhere"), ("to_b", "b"), ("to_3", "c/3")):
            os.symlink(to, self.folder / name)
        os.mkfifo(self.folder / "b/fifo")
        with socket.socket(socket.AF_UNIX) as server:
            server.bind(str(self.folder / "b/socket"))
            self.comes_back("three folders", USR_BYTES, "c", "a", "b")
            self.comes_back("a folder with a slash", USR_BYTES, "c/", "a/", "b/")
            self.comes_back("a folder, and files", USR_BYTES, "c/3", "b", "a/1")
            self.comes_back("links that are named", USR_BYTES, "a", "to_b", "to_3")
        self.refused("a folder over a folder", MISSING.replace("2", "1"), "over")
        self.comes_back("a folder over a folder, and that one", USR_BYTES, "over", "over/a")
        self.lay({"all/a/1": R1, "all/b/2": R2, "all/c/3": R3})
        self.refused("a folder over three folders", NO_VOLUME, "all")
        self.comes_back("each of the three", USR_BYTES, "all/a", "all/b", "all/c")

    def test_names(self) -> None:
        """Names with spaces and with what controls a terminal: what is told has no control character."""
        for name, shown in (("a b", "a b"), ("x\n\x1b[2Jy\x07", "x??[2Jy?"), ("--", "./--"), ("\u00e9 $(x) '\"", "\u00e9 $(x) '\"")):
            path = f"./{name}" if name == "--" else name
            self.lay({path: R2, "r1": R1, "r3": R3})
            self.comes_back(f"{name!r}", USR_BYTES, "r3", path, "r1")
            self.lay({path: second(USR._replace(first=4))})
            self.refused(f"{name!r}: it is told", DISPLACED.replace("r2", shown), "r1", path, "r3")

    def test_files_that_fail(self) -> None:
        """What cannot be read is told, and nothing is written, though the other files have the payload."""
        self.lay(THREE | {"closed/r": b"", "shut": R2})
        os.mkfifo(self.folder / "fifo")
        self.folder.chmod(0o755)
        (self.folder / "shut").chmod(0)
        (self.folder / "closed").chmod(0)
        for path, why in (
            ("none", "No such file"),
            ("r1/x", "Not a directory"),
            ("", "No such file"),
            ("fifo", "it is no plain file and no folder"),
            ("/dev/null", "it is no plain file and no folder"),
            ("shut", "denied"),
            ("closed", "denied"),
        ):
            for words in ((*THREE, path), (path, *THREE)):
                got = self.cat(len(USR_BYTES), *words, **as_nobody())
                is_told = got.told.startswith(f"rdump: {path}: ".encode()) and why.encode() in got.told and got.told.count(b"\n") == 1
                self.same(f"{words}", (got.output, got.status, is_told), (b"", FAILED, True), got)
        (self.folder / "closed").chmod(0o700)
        got = self.cat(len(USR_BYTES), "none", *THREE, "nor this")
        self.same("both are told", (got.output, got.status, got.told.count(b"\n")), (b"", FAILED, 2), got)

    def test_arguments(self) -> None:
        """No reel, and values that are none."""
        self.lay(THREE)
        for words, why in (
            (("--length", "1"), "a FILE or a FOLDER is required"),
            (("r1",), "--catalog, --length or --partial is required"),
            (("--length", "1", "--catalog", "c", "r1"), "--catalog or --length is given, and not both"),
            *(((f"--length={it}", "r1"), "invalid value for '--length <BYTES>'") for it in ("", "-1", "+1", " 1", "1k", "0x1", str(1 << 63))),
            *((("--length", "1", f"--level={it}", "r1"), "invalid value for '--level <LEVEL>'") for it in ("", "10", "-1", "a", "00")),
            *((("--length", "1", f"--date={it}", "r1"), "invalid value for '--date <SECONDS>'") for it in ("", "-1", "now", str(1 << 63))),
        ):
            got = subprocess.run((built("rdump"), "cat", *words), cwd=self.folder, capture_output=True, check=False)
            told = (why.encode() in got.stderr, b"Usage: rdump cat " in got.stderr)
            self.same(f"{words}", (got.stdout, got.returncode, told), (b"", FAILED, (True, True)), got.stderr)

    def test_random_shelves(self) -> None:
        """Reels of two dumps, some of them damaged, doubled or missing, and a length. The result is that of the plain model."""
        first = random_seed(91)
        came: set[int] = set()
        for seed in range(first, first + SHELVES):
            source = random.Random(seed)
            files = random_shelf(source)
            length = source.choice((20, 20, 20, 19, 18, 17, 16, 21, 0))
            wanted = source.choice((Wanted(), Wanted("/usr"), Wanted(level=1), Wanted(date=DAY)))
            with tempfile.TemporaryDirectory(dir=self.folder) as folder:
                self.lay({f"{folder}/{name}": data for name, data in files.items()})
                got = self.cat(length, *wanted.words(), folder)
            volumes = whole_volumes(files, wanted)
            faults = faults_of(volumes, length)
            came.add(got.status)
            if faults:
                self.same(f"shelf {seed}", (got.output, got.status in faults, got.told != b""), (b"", True, True), got, faults)
            else:
                self.same(f"shelf {seed}", got, Ended(payload_of(volumes, length), LOOK_ALIKE, DONE))
        self.same("each status came", came, {DONE, FAILED, ABNORMAL})


def random_shelf(source: random.Random) -> dict[str, bytes]:
    """The reels of a dump of five blocks, with or without those of a second one, and what may have happened to them."""
    reels: list[bytes] = []
    for level in range(source.choice((1, 1, 2))):
        cuts = sorted({0, *source.sample(range(1, 5), source.randrange(4)), 5})
        for number, (first, end) in enumerate(zip(cuts, cuts[1:]), 1):
            label = Label("/usr", level, DAY + source.choice((0,) * 30 + (1,)), 0, number, first)
            reels.append(images([label.record(), *(b"%d%03d" % (level, at) for at in range(first, end)), None]))
    files = [*reels]
    for _ in range(source.choice((0, 0, 1, 2))):
        data = source.choice(reels)
        place = source.choice((source.randrange(len(data) - 16, len(data)), source.randrange(80)))
        other = data[:place] + bytes([data[place] ^ 1]) + data[place + 1 :]
        files.append(source.choice((data, data, data[:place], other, data + bytes(4), b"")))
        if data in files and source.random() < 0.5:
            files.remove(data)
    source.shuffle(files)
    return {str(number): it for number, it in enumerate(files)}


class Outputs(CatCase):
    """What standard output does, and reels that change or fail meanwhile."""

    # Blocks of the greatest length: a payload that no pipe takes at once.
    LARGE = random.Random(8).randbytes(5 * GREATEST_RECORD - 9)
    # The volumes have 2, 2 and 1 blocks.
    LARGE_REELS = dict(zip(("r1", "r2", "r3"), reels_of(LARGE, GREATEST_RECORD, [(0, 2), (2, 2), (4, 1)])))

    @contextmanager
    def under_way(self) -> Iterator[subprocess.Popen[bytes]]:
        """The command with the large payload: the first byte was read, and a pipe that holds a page takes no more for now."""
        self.lay(self.LARGE_REELS)
        words = (built("rdump"), "cat", "--length", str(len(self.LARGE)), "r3", "r2", "r1")
        here, there = os.pipe()
        fcntl.fcntl(here, fcntl.F_SETPIPE_SZ, 4096)
        with guarded(subprocess.Popen(words, cwd=self.folder, stdin=subprocess.DEVNULL, stdout=there, stderr=subprocess.PIPE, bufsize=0)) as run:
            os.close(there)
            run.stdout = open(here, "rb", buffering=0)
            self.same("the first byte", run.stdout.read(1), self.LARGE[:1])
            yield run

    def test_a_reader_that_has_enough(self) -> None:
        """The pipe is closed before the start, and after a byte: the status is 0, and no failure is told."""
        self.lay(THREE)
        here, there = os.pipe()
        os.close(here)
        self.same("a closed pipe", self.cat(len(USR_BYTES), "r1", "r2", "r3", stdout=there), Ended(b"", LOOK_ALIKE, DONE))
        self.same("a closed pipe, and a reel is missing", self.cat(len(USR_BYTES), "r1", "r3", stdout=there).status, ABNORMAL)
        os.close(there)
        with self.under_way() as run:
            given(run.stdout).close()
            self.same("closed after a byte", (given(run.stderr).read(), run.wait()), (LOOK_ALIKE, DONE))
        with self.under_way() as run:
            rest, told = run.communicate()
            self.same("not closed", (self.LARGE[:1] + rest, told, run.returncode), (self.LARGE, LOOK_ALIKE, DONE))

    def test_a_full_disk(self) -> None:
        """An output that takes nothing, and one that takes a part. That nothing is written is no failure of the output."""
        self.lay(self.LARGE_REELS)
        with open("/dev/full", "wb") as full:
            got = self.cat(len(self.LARGE), *self.LARGE_REELS, stdout=full.fileno())
            told = b"rdump: standard output could not be written: No space left on device: the payload is not whole\n"
            self.same("a full disk", (got.status, got.told.replace(b" (os error 28)", b"")), (FAILED, told))
            self.same("a full disk, and a reel is missing", self.cat(len(self.LARGE), "r2", stdout=full.fileno()).status, ABNORMAL)
        out = self.folder / "out"
        with out.open("wb") as file:
            got = self.cat(len(self.LARGE), *self.LARGE_REELS, stdout=file.fileno(), **in_room(300_000))
        found = (out.read_bytes(), got.status, got.told.endswith(b": the payload is not whole\n"))
        self.same("a disk that is full later", found, (self.LARGE[:300_000], FAILED, True), got)

    def test_closed_streams(self) -> None:
        """No reel takes the place of a standard stream that is closed at the start."""
        self.lay(THREE)
        for title, closed, payload, status in (
            ("input", "<&-", USR_BYTES, DONE),
            ("output", ">&-", b"", FAILED),
            ("error", "2>&-", USR_BYTES, DONE),
            ("output and error", ">&- 2>&-", b"", FAILED),
            ("all", "<&- >&- 2>&-", b"", FAILED),
        ):
            words = ("sh", "-c", f'exec "$0" "$@" {closed}', built("rdump"), "cat", "--length", str(len(USR_BYTES)), *THREE)
            ran = subprocess.run(words, cwd=self.folder, stdin=subprocess.DEVNULL, capture_output=True, check=False)
            self.same(title, (ran.stdout, ran.returncode), (payload, status), ran.stderr)
            self.same(f"{title}: the reels", files_of(self.folder), (THREE,))

    def test_reels_that_change(self) -> None:
        """A reel is changed after it was checked, before it is written: the status is 3, and this is told."""
        data = self.LARGE_REELS["r3"]
        for title, other in {
            "it is cut": data[:-1],
            "it is longer": data + bytes(4),
            "it is empty": b"",
            "another length of its block": data[:1032] + b"\1" + data[1033:],
            "another volume": self.LARGE_REELS["r2"],
            "another date": data.replace(b"date %d\n" % DAY, b"date %d\n" % (DAY + 1)),
            "another first block": data.replace(b"first 4\n", b"first 5\n"),
            "another number": data.replace(b"volume 3\n", b"volume 4\n"),
        }.items():
            with self.under_way() as run:
                (self.folder / "r3").write_bytes(other)
                rest, told = run.communicate()
            self.same(title, (self.LARGE[:1] + rest, told, run.returncode), (self.LARGE[: 4 * GREATEST_RECORD], changed("r3"), ABNORMAL))
        with self.under_way() as run:
            (self.folder / "r3").unlink()
            rest, told = run.communicate()
        self.same("it is gone", (len(rest) + 1, told, run.returncode), (4 * GREATEST_RECORD, changed("r3"), ABNORMAL))

    def test_progress(self) -> None:
        """On a terminal a line shows which reel is read, and how much was. It is cleared at the end, and before anything is told."""
        self.lay(THREE)
        shows = r"(\rreel \d, 0 MiB, \d+ [KM]iB/s\x1b\[K)+" + re.escape(CLEAR)
        alike = LOOK_ALIKE.decode().replace("\n", "\r\n")
        rows = (THREE, USR_BYTES, DONE, alike), (("r1", "r3"), b"", ABNORMAL, f"rdump: {MISSING}\r\n")
        for names, payload, status, told in rows:
            with Terminal() as terminal:
                words = (built("rdump"), "cat", "--length", str(len(USR_BYTES)), *names)
                ran = subprocess.run(words, cwd=self.folder, stdin=subprocess.DEVNULL, stdout=subprocess.PIPE, stderr=terminal.far, check=False)
                shown = terminal.shown()
            self.same(f"{names}", (ran.stdout, ran.returncode), (payload, status), shown)
            self.holds(f"{names}: the progress", re.fullmatch(shows + re.escape(told), shown), shown)

    def test_a_disk_that_fails(self) -> None:
        """Each read of a reel fails in turn: while it is checked, nothing is written, and later the beginning of the payload."""
        self.lay(THREE)
        with compiled(self) as shim:
            shim.forget()
            got = self.cat(len(USR_BYTES), *THREE, env=shim.environment("", "/r2"))
            self.same("no read fails", got, Ended(USR_BYTES, LOOK_ALIKE, DONE))
            reads = len(shim.sizes("pread"))
            statuses = []
            for number in range(1, reads + 1):
                got = self.cat(len(USR_BYTES), *THREE, env=shim.environment(f"pread:{number}:E5", "/r2"))
                statuses.append(got.status)
                is_checked = got == Ended(b"", b"rdump: r2: it could not be read\n", FAILED)
                is_written = got.told == changed("r2") and len(got.output) >= 3 * BLOCK and USR_BYTES.startswith(got.output)
                self.holds(f"read {number} of {reads} fails", is_checked if got.status == FAILED else is_written and got.status == ABNORMAL, got)
            self.same("both came", {*statuses}, {FAILED, ABNORMAL})


class RealDumps(CatCase):
    """Reels that the built programs made."""

    def test_random_dumps(self) -> None:
        """Dumps of random shape, whose reels are shuffled over three folders."""
        first = random_seed(57)
        for seed in range(first, first + DUMPS):
            source = random.Random(seed)
            block = source.choice((1, 7, 512, 1024, 4096, 65536))
            size = source.choice((0, 1, block, 3 * block, source.randrange(1, 12 * block), source.randrange(1, 12 * block)))
            room = source.randrange(1, 7)
            with tempfile.TemporaryDirectory(dir=self.folder) as name:
                self.random_dump(source, Programs(self, Path(name)), block, size, room)

    def random_dump(self, source: random.Random, p: Programs, block: int, size: int, room: int) -> None:
        """A dump of so many bytes on reels that have room for so many blocks."""
        title = f"{size} bytes in blocks of {block}, {room} on a reel"
        payload = source.randbytes(size)
        p.file("payload", payload)
        folders = [p.folder / it for it in ("st0", "bin", "a", "b", "c")]
        for it in folders:
            it.mkdir()
        for number in range(-(-size // block) // room + 1):
            (folders[0] / f"r{number:03}").touch()
        with at_drive(p.folder, "--capacity", str(1032 + room * (block + 8) + 4)) as address:
            dumped = p.ran(*p.dump_words(address, block=str(block)))
        length = given(re.search(r"^to restore: \d+ blocks, (\d+) bytes: ", dumped.told, re.M))[1]
        self.same(f"{title}: the length that is told", length, str(size), dumped)
        for it in folders[1].iterdir():
            it.rename(source.choice(folders[2:]) / it.name)
        for it in folders[2:]:
            (it / "empty").touch()
        got = cat(int(length), *source.sample("abc", 3), folder=p.folder)
        self.same(f"{title}: the payload", got, Ended(payload, LOOK_ALIKE, DONE))
