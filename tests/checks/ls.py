"""Checks what the built `rdump ls` says of record files, of folders, and of the reel on a drive of the built `rmtd`.

A plain decoder of record files says what each line has to be. Then every word of the program's is met: tails of each length, a small volume cut at
each byte, files that no server wrote, folders, many reels and a long one, and dumpdates files with gaps. Over the wire the same, and a relay that
answers one request after the other with an error, or ends the connection there.
"""

from __future__ import annotations

import itertools
import os
import random
import re
import socket
import subprocess
import tempfile
from contextlib import contextmanager, suppress
from pathlib import Path
from typing import IO, Iterator, NamedTuple

from tests.lib.case import Case, random_seed
from tests.lib.connections import Address, address_of, connected
from tests.lib.dumping import as_nobody
from tests.lib.listeners import Listener
from tests.lib.listings import (
    ALL_WHOLE,
    FAILED,
    GREATEST_RECORD,
    LABEL_BYTES,
    LAST_BLOCK,
    LAST_SECOND,
    LISTING_SECONDS,
    LONG_RECORDS,
    NOT_WHOLE,
    USR,
    VOLUME,
    WIRE_REELS,
    Label,
    Listed,
    Rdump,
    at_reel,
    dates_of,
    said,
    utc,
    wire_end,
)
from tests.lib.places import built, is_unproved
from tests.lib.refusals import OPEN, refused_with
from tests.lib.shim import Shim, compiled
from tests.lib.terminals import CLEAR, Terminal
from tests.lib.wire import DEVICE, IO_ERROR
from tests.models.rmtd import Entry, image, images

# So many times 500 random files are made.
RANDOM_TURNS = 10
MANY_REELS = 20_000
LONG_REEL = 2 << 30

WHOLE = VOLUME + image(None)


def lines_of(files: dict[str, bytes]) -> list[str]:
    """The lines of these files, by their paths, sorted."""
    told = sorted((said(data).place, path.encode(), said(data).line(path)) for path, data in files.items())
    return [line for _, _, line in told]


def status_of(files: dict[str, bytes]) -> int:
    """The status that these files have to end with."""
    return ALL_WHOLE if all(said(it).is_whole() for it in files.values()) else NOT_WHOLE


class LsCase(Case):
    """Tests that list files."""

    @contextmanager
    def rdump(self) -> Iterator[Rdump]:
        """The program in an empty folder."""
        with tempfile.TemporaryDirectory(prefix="ls-") as folder:
            yield Rdump(self, Path(folder))

    def listed(self, title: str, rdump: Rdump, files: dict[str, bytes], *words: str) -> bool:
        """Makes these files, and lists them by these words, or each by its path. What is said of them is what has to be."""
        rdump.put(files)
        got = rdump.ls(*(words or tuple(files)))
        wanted = Listed(lines_of(files), "", status_of(files))
        return self.same(title, got, wanted, [it for it in zip(got.lines, wanted.lines) if it[0] != it[1]][:3])


# Rows written by hand.

# The most marks that may follow one another.
MOST_MARKS = 1_000_000
USR_SAID = "/usr level 0 date 951782400 (2000-02-29 00:00:00) since 0 volume 1 first 0"
TORN = image(b"torn away")

ROWS = (
    (VOLUME + image(None), f"{USR_SAID}, 2 blocks of 1024 bytes, 3100 bytes: whole", ALL_WHOLE),
    (VOLUME, f"{USR_SAID}, 2 blocks of 1024 bytes, 3096 bytes: no mark: 2 whole blocks", NOT_WHOLE),
    (images([USR.record()]), f"{USR_SAID}, 0 blocks of 0 bytes, 1032 bytes: no mark: 0 whole blocks", NOT_WHOLE),
    (images([USR.record(), None]), f"{USR_SAID}, 0 blocks of 0 bytes, 1036 bytes: whole", ALL_WHOLE),
    (VOLUME + images([None, None]), f"{USR_SAID}, 2 blocks of 1024 bytes, 3104 bytes: more after the mark", NOT_WHOLE),
    (VOLUME + images([None, b"x"]), f"{USR_SAID}, 2 blocks of 1024 bytes, 3109 bytes: more after the mark", NOT_WHOLE),
    (b"", "0 bytes: empty", NOT_WHOLE),
    (images([None]), "0 records, 1 marks, 4 bytes: not a volume of rdump", NOT_WHOLE),
    (images([None, USR.record()]), "1 records, 1 marks, 1036 bytes: not a volume of rdump", NOT_WHOLE),
    (images([b"hello", None]), "1 records, 1 marks, 17 bytes: not a volume of rdump", NOT_WHOLE),
    (VOLUME + images([b"c", None]), "4 records, 1 marks, 3109 bytes: not a volume of rdump", NOT_WHOLE),
    (VOLUME + image(None) + b"\1\0\0", f"{USR_SAID}, 2 blocks of 1024 bytes, 3103 bytes: tail of 3 bytes", NOT_WHOLE),
    (VOLUME + b"\1\0\0", f"{USR_SAID}, 2 blocks of 1024 bytes, 3099 bytes: no mark: 2 whole blocks, tail of 3 bytes", NOT_WHOLE),
    (VOLUME + images([None, None]) + b"x", f"{USR_SAID}, 2 blocks of 1024 bytes, 3105 bytes: more after the mark, tail of 1 bytes", NOT_WHOLE),
    (b"hello", "5 bytes: tail of 5 bytes", NOT_WHOLE),
    (images([None]) + b"hi", "0 records, 1 marks, 6 bytes: not a volume of rdump, tail of 2 bytes", NOT_WHOLE),
)


# Labels.


def label_texts() -> Iterator[bytes]:
    """Records that are almost labels, and some that are."""
    text = USR.record().rstrip(b"\0")
    yield from (USR.record()[:-1], USR.record() + b"\0", bytes(LABEL_BYTES))
    for old, new in ((b"level 0", b"level 00"), (b"level 0", b"level 10"), (b"level 0", b"level 9"), (b"volume 1", b"volume 0")):
        yield text.replace(old, new).ljust(LABEL_BYTES, b"\0")
    for old, new in ((b"/usr", b""), (b"/usr", b"a b"), (b"/usr", b"\xff"), (b"/usr", b"n" * 255), (b"/usr", b"n" * 256)):
        yield text.replace(old, new).ljust(LABEL_BYTES, b"\0")
    for limit in (LAST_SECOND, LAST_SECOND + 1):
        yield text.replace(b"since 0", b"since %d" % limit).ljust(LABEL_BYTES, b"\0")
    for limit in (LAST_BLOCK, LAST_BLOCK + 1):
        yield text.replace(b"volume 1", b"volume %d" % limit).ljust(LABEL_BYTES, b"\0")
        yield text.replace(b"first 0", b"first %d" % limit).ljust(LABEL_BYTES, b"\0")
    yield text.ljust(LABEL_BYTES - 1, b"\0") + b"x"
    yield (text + b"more 1\n").ljust(LABEL_BYTES, b"\0")


# Random files.


def random_file(source: random.Random) -> bytes:
    """The file of random entries, which may be changed or cut."""
    length = source.choice((1, 4, 5, 1024, 4096))
    label = Label(source.choice(("/usr", "/home", "/")), source.randrange(10), source.randrange(1000), source.randrange(1000), 1, 0)
    entries: list[Entry] = [label.record()] if source.random() < 0.8 else []
    for _ in range(source.randrange(6)):
        entries.append(None if source.random() < 0.2 else source.randbytes(length if source.random() < 0.9 else length + 1))
    data = bytearray(images([*entries]))
    if data and source.random() < 0.5:
        data[source.randrange(len(data))] ^= 1 << source.randrange(8)
    return bytes(data[: source.randrange(len(data) + 1)] if source.random() < 0.3 else data)


def ls_under(shim: Shim, rdump: Rdump, rules: str, name: str) -> tuple[Listed, list[int]]:
    """What is said of a good reel and of this one, whose reads meet these rules, and how many bytes each of these asked for."""
    shim.forget()
    got = rdump.ls("good", name, environment=shim.environment(rules, f"/{name}"))
    return got, shim.sizes("pread")


class Files(LsCase):
    """Record files, and folders of them."""

    def test_rows(self) -> None:
        """Each row, alone."""
        for number, (data, line, status) in enumerate(ROWS, 1):
            with self.rdump() as rdump:
                rdump.put({"r1": data})
                self.same(f"row {number}", rdump.ls("r1"), Listed([f"r1: {line}"], "", status))
                self.same(f"row {number}: the decoder", said(data).line("r1"), f"r1: {line}")
                self.same(f"row {number}: the file is as it was", (rdump.folder / "r1").read_bytes(), data)

    def test_labels(self) -> None:
        """Each label at a limit, and past one, alone on its reel, with a block and a mark."""
        with self.rdump() as rdump:
            for number, record in enumerate(label_texts(), 1):
                self.listed(f"label {number}", rdump, {f"l{number}": images([record, b"block", None])})

    def test_tails(self) -> None:
        """A tail of each length that a torn entry can leave, after each kind of reel; a length too great; two lengths that differ."""
        before = {"whole": WHOLE, "cut": VOLUME, "more": VOLUME + images([None, b"x"]), "empty": b"", "other": images([b"y", None])}
        files = {f"{name}/{count:02}": data + TORN[:count] for name, data in before.items() for count in range(len(TORN) + 1)}
        for name, data in before.items():
            files[f"{name}/long"] = data + (GREATEST_RECORD + 1).to_bytes(4, "little") + bytes(100)
            files[f"{name}/unlike"] = data + TORN[:-1] + b"\1"
        with self.rdump() as rdump:
            self.listed("tails", rdump, files, *before)

    def test_cuts(self) -> None:
        """A small volume and a small one with more after its mark, cut at each byte."""
        data = images([USR.record(), b"block1", b"block2", None, b"more", None])
        files = {f"cuts/{count:04}": data[:count] for count in range(len(data) + 1)}
        with self.rdump() as rdump:
            self.listed("cuts", rdump, files, "cuts")

    def test_random_files(self) -> None:
        """Files of random entries, some of them changed or cut at random."""
        first = random_seed(43)
        for seed in range(first, first + RANDOM_TURNS):
            source = random.Random(seed)
            files = {f"random/{number:04}": random_file(source) for number in range(500)}
            with self.rdump() as rdump:
                if not self.listed(f"random files of seed {seed}", rdump, files, "random"):
                    self.tell_the_shortest(seed, rdump, files)

    def tell_the_shortest(self, seed: int, rdump: Rdump, files: dict[str, bytes]) -> None:
        """Compares the files one by one, up to the shortest one of which something wrong is said. Its bytes are told."""
        for path, data in sorted(files.items(), key=lambda it: len(it[1])):
            wanted = Listed([said(data).line(path)], "", status_of({path: data}))
            if not self.same(f"a random file of seed {seed}", rdump.ls(path), wanted, data):
                return

    def test_folders(self) -> None:
        """A folder's plain files, without names that begin with a dot. A link or a folder is none of them; a path may be a link to either."""
        files = {"st0/r2": WHOLE, "st0/r10": WHOLE, "st0/R": b"", "st0/\xe9": images([None]), "alone": WHOLE}
        with self.rdump() as rdump:
            rdump.put({**files, "st0/.hidden": b"", "st0/sub/r": b"", "elsewhere": b""})
            for name, to in (("st0/link", "../elsewhere"), ("st0/dangling", "nowhere"), ("to_st0", "st0"), ("to_alone", "alone")):
                os.symlink(to, rdump.folder / name)
            os.mkfifo(rdump.folder / "st0/fifo")
            for folder in ("st0", "to_st0"):
                wanted = [it.replace("st0/", f"{folder}/") for it in lines_of(files)]
                self.same(f"folder {folder}", rdump.ls(folder, "alone"), Listed(wanted, "", NOT_WHOLE))
            inside = lines_of({name: it for name, it in files.items() if name != "alone"} | {"st0/.hidden": b""})
            got = rdump.ls("st0/", "st0/.hidden")
            self.same("a folder with a slash, and a dotted name by its path", got, Listed(inside, "", NOT_WHOLE))
            both = Listed(lines_of({"alone": WHOLE, "to_alone": WHOLE}), "", ALL_WHOLE)
            self.same("a link to a file, and a file", rdump.ls("to_alone", "alone"), both)

    def test_paths_that_fail(self) -> None:
        """What can't be read is told, and the others are listed."""
        whole = {"good": WHOLE}
        with self.rdump() as rdump:
            rdump.put({**whole, "file/x": b"", "closed/r": b"", "shut": b""})
            os.mkfifo(rdump.folder / "fifo")
            os.chmod(rdump.folder, 0o755)
            os.chmod(rdump.folder / "shut", 0)
            os.chmod(rdump.folder / "closed", 0)
            for path, why in (
                ("nothing", "No such file"),
                ("good/x", "Not a directory"),
                ("", "No such file"),
                ("shut", "denied"),
                ("closed", "denied"),
            ):
                got = rdump.ls("good", path, as_nobody=True)
                is_told = f"rdump: {path}: " in got.told
                self.same(f"{path!r} is told", (got.lines, got.status, is_told), (lines_of(whole), FAILED, True), got.told)
                self.holds(f"{path!r}: why", why in got.told, got.told)
            for path in ("fifo", "/dev/null", "/dev/zero"):
                wanted = Listed(lines_of(whole), f"rdump: {path}: it is no plain file and no folder\n", FAILED)
                self.same(f"{path} is no reel", rdump.ls(path, "good"), wanted)
            os.chmod(rdump.folder / "closed", 0o700)
            got = rdump.ls("good", "nothing", "file")
            self.same("that something failed is said before what is not whole", (got.status, len(got.lines)), (FAILED, 2), got)

    def test_marks_without_end(self) -> None:
        """A sparse file of zeros is nothing but marks. After a million of them in a row the list goes on with the next reel."""
        if is_unproved("rdump"):
            self.skipTest("a program that is not proved takes long for millions of marks")
        many = image(None) * MOST_MARKS
        with self.rdump() as rdump:
            rdump.put({"many": many[:-4] + image(b"x") + many, "more": VOLUME + many + image(None), "z": WHOLE, "catalog": b""})
            with (rdump.folder / "huge").open("wb") as file:
                file.truncate(1 << 40)
            lines = [
                "huge: cannot be told: it has too many marks",
                f"many: 1 records, 1999999 marks, {len(many) * 2 + 5} bytes: not a volume of rdump",
                f"more: {USR_SAID}, 2 blocks of 1024 bytes: cannot be told: it has too many marks",
                said(WHOLE).line("z"),
            ]
            got = rdump.ls("huge", "more", "many", "z")
            self.same("too many marks", (sorted(got.lines), got.told, got.status), (lines, "", NOT_WHOLE), got)
            got = rdump.ls("--catalog", "catalog", "huge", "z")
            lines = ["", lines[0], f"{lines[3]}, no sum known"]
            self.same("too many marks, with a catalog", (sorted(got.lines), got.told, got.status), (lines, "", NOT_WHOLE), got)

    def test_strange_names(self) -> None:
        """Names with bytes that are no text, or would begin a line of their own."""
        with self.rdump() as rdump:
            rdump.put({"st0/a": WHOLE, "st0/b\nc: whole": b"", "st0/d\x1be": b""})
            lines = [said(WHOLE).line("st0/a"), "st0/b?c: whole: 0 bytes: empty", "st0/d?e: 0 bytes: empty"]
            self.same("names that control a terminal", rdump.ls("st0"), Listed(lines, "", NOT_WHOLE))
            with suppress(OSError):
                (rdump.folder / "st0" / os.fsdecode(b"\xff")).write_bytes(WHOLE)
                wanted = Listed(lines, "rdump: st0: a name in it is not UTF-8\n", FAILED)
                self.same("a name that is no text", rdump.ls("st0"), wanted)

    def test_order(self) -> None:
        """Lines are sorted by name, level, date, volume and path, whatever the order of the paths."""
        source = random.Random(43)
        keys = itertools.product(("/", "/a", "/ab", "/b"), (0, 9), (5, 40), (2, 10))
        labels = [Label(name, level, date, 0, volume, 0) for name, level, date, volume in keys]
        files = {f"{number % 7}/{number}": images([it.record(), b"x", None]) for number, it in enumerate(source.sample(labels * 2, len(labels) * 2))}
        files |= {"0/none": b"", "z": b"", "a": images([None])}
        paths = list(files)
        with self.rdump() as rdump:
            for turn in range(5):
                source.shuffle(paths)
                self.listed(f"order {turn}", rdump, files, *paths)
            lines = ["a: 0 records, 1 marks, 4 bytes: not a volume of rdump", *["z: 0 bytes: empty"] * 2]
            self.same("a path that is named twice", rdump.ls("z", "z", "a"), Listed(lines, "", NOT_WHOLE))

    def test_many_reels(self) -> None:
        """A folder of many reels, and their dump."""
        files = {f"many/{n:05}": images([Label("/usr", 0, 7, 0, n + 1, n).record(), b"x", None]) for n in range(MANY_REELS)}
        with self.rdump() as rdump:
            self.listed(f"{MANY_REELS} reels", rdump, files, "many")
            rdump.put({"dates": dates_of(("/usr", 0, 7))})
            got = rdump.ls("many", "--dumpdates", "dates", "--blocks", str(MANY_REELS))
            last = f"/usr level 0 date {utc(7)}: volumes 1 to {MANY_REELS}, all {MANY_REELS} blocks"
            self.same(f"the dump of {MANY_REELS} reels", (got.lines[-2:], got.status), (["", last], ALL_WHOLE))

    def test_long_reel(self) -> None:
        """A reel of more bytes than 31 bits count, with holes where its blocks are zero bytes."""
        step = GREATEST_RECORD + 8
        blocks = LONG_REEL // step + 1
        length = GREATEST_RECORD.to_bytes(4, "little")
        with self.rdump() as rdump:
            with (rdump.folder / "long").open("wb") as file:
                file.write(image(USR.record()) + length)
                for number in range(1, blocks + 1):
                    file.seek(LABEL_BYTES + 8 + number * step - 4)
                    file.write(length + (length if number < blocks else bytes(4)))
            size = LABEL_BYTES + 8 + blocks * step + 4
            line = f"long: {USR_SAID}, {blocks} blocks of {GREATEST_RECORD} bytes, {size} bytes: whole"
            self.same("a long reel", rdump.ls("long"), Listed([line], "", ALL_WHOLE))

    def test_a_disk_that_fails(self) -> None:
        """A disk that gives some bytes of a long record, and not all, is told, whichever they are: each read of the file fails in turn."""
        good = {"good": WHOLE}
        with compiled(self) as shim, self.rdump() as rdump:
            rdump.put(good | LONG_RECORDS)
            for name, data in LONG_RECORDS.items():
                both = good | {name: data}
                got, sizes = ls_under(shim, rdump, "", name)
                self.same(f"a long {name} is read", got, Listed(lines_of(both), "", status_of(both)))
                self.holds(f"a long {name}: each of its bytes is asked for", sum(sizes) >= len(data), sizes, len(data))
                told = Listed(lines_of(good), f"rdump: {name}: it could not be read\n", FAILED)
                for number in range(1, len(sizes) + 1):
                    got, _ = ls_under(shim, rdump, f"pread:{number}:E5", name)
                    self.same(f"a long {name}: that read {number} of {len(sizes)} fails is told", got, told)

    def test_output_that_takes_nothing(self) -> None:
        with self.rdump() as rdump, open("/dev/full", "wb") as full:
            rdump.put({"r": WHOLE})
            words = (built("rdump"), "ls", "r")
            ran = subprocess.run(words, cwd=rdump.folder, stdout=full, stderr=subprocess.PIPE, timeout=LISTING_SECONDS, check=False)
            self.same("a full device", (ran.returncode, ran.stderr), (FAILED, b"rdump: standard output could not be written\n"))


# Dumps of a dumpdates file.


class Part(NamedTuple):
    """A volume of the dump of /usr at level 0 and second 7: its number, its first block, how many blocks, and what is unlike others."""

    volume: int
    first: int
    blocks: int
    since: int = 0
    length: int = 4
    end: tuple[Entry, ...] = (None,)
    name: str = "/usr"
    level: int = 0
    date: int = 7

    def data(self) -> bytes:
        """Its record file."""
        label = Label(self.name, self.level, self.date, self.since, self.volume, self.first)
        return images([label.record(), *[bytes(self.length)] * self.blocks, *self.end])


CUT: tuple[Entry, ...] = ()
MORE = (None, None)

# The parts that are there, the number of blocks that is given, what is said, and whether nothing is missing.
DUMPS: tuple[tuple[tuple[Part, ...], int | None, str, bool], ...] = (
    ((Part(1, 0, 2), Part(2, 2, 3)), None, "volumes 1 to 2, ends at block 5", True),
    ((Part(1, 0, 2), Part(2, 2, 3)), 5, "volumes 1 to 2, all 5 blocks", True),
    ((Part(1, 0, 2), Part(2, 2, 3)), 6, "block 5 is missing", False),
    ((Part(1, 0, 2), Part(2, 2, 3)), 9, "blocks 5 to 8 are missing", False),
    ((Part(1, 0, 2), Part(2, 2, 3)), 4, "volumes 1 to 2, ends at block 5, not 4", False),
    ((Part(1, 0, 5),), 5, "volumes 1 to 1, all 5 blocks", True),
    ((Part(1, 0, 0),), 0, "volumes 1 to 1, all 0 blocks", True),
    ((Part(1, 0, 0),), None, "volumes 1 to 1, ends at block 0", True),
    ((), None, "no volume", False),
    ((), 0, "no volume", False),
    ((Part(1, 0, 2, name="/home"),), None, "no volume", False),
    ((Part(1, 0, 2, level=1),), None, "no volume", False),
    ((Part(1, 0, 2, date=8),), None, "no volume", False),
    ((Part(1, 0, 2, end=CUT),), None, "no volume", False),
    ((Part(1, 0, 2, end=MORE),), None, "no volume", False),
    ((Part(2, 2, 3),), None, "volume 1 is missing", False),
    ((Part(1, 0, 2, end=CUT), Part(2, 2, 3)), None, "volume 1 is missing", False),
    ((Part(1, 0, 2), Part(3, 5, 1)), None, "volume 2 is missing", False),
    ((Part(1, 0, 2), Part(3, 5, 1)), 6, "volume 2 is missing", False),
    ((Part(1, 0, 2), Part(2, 2, 3, end=CUT), Part(3, 5, 1)), None, "volume 2 is missing", False),
    ((Part(1, 1, 2),), None, "volume 1 begins at block 1, not 0", False),
    ((Part(1, 0, 2), Part(2, 3, 3)), None, "volume 2 begins at block 3, not 2", False),
    ((Part(1, 0, 2), Part(2, 1, 3)), 4, "volume 2 begins at block 1, not 2", False),
    # A volume that is written twice, with different counts: the dump goes on after one of them.
    ((Part(1, 0, 2), Part(1, 0, 3), Part(2, 2, 3)), None, "volumes 1 to 2, ends at block 5", True),
    ((Part(1, 0, 2), Part(1, 0, 3), Part(2, 3, 3)), 6, "volumes 1 to 2, all 6 blocks", True),
    ((Part(1, 0, 2), Part(1, 0, 3), Part(2, 2, 1), Part(2, 3, 2), Part(3, 5, 1)), 6, "volumes 1 to 3, all 6 blocks", True),
    ((Part(1, 0, 2), Part(1, 0, 3), Part(2, 2, 2), Part(2, 3, 2), Part(3, 4, 3)), None, "volumes 1 to 3, ends at block 7", True),
    ((Part(1, 0, 2), Part(1, 0, 3), Part(2, 4, 2)), None, "volume 2 begins at block 4, not 3", False),
    ((Part(1, 0, 2), Part(2, 2, 3), Part(2, 2, 3)), 5, "volumes 1 to 2, all 5 blocks", True),
    # The blocks that reach farthest are taken, and not the most volumes.
    ((Part(1, 0, 2), Part(1, 0, 5), Part(2, 2, 1)), None, "volumes 1 to 1, ends at block 5", True),
    ((Part(1, 0, 5), Part(1, 0, 2), Part(2, 2, 1)), 5, "volumes 1 to 1, all 5 blocks", True),
    ((Part(1, 0, 2), Part(1, 0, 5), Part(2, 2, 1)), 6, "block 5 is missing", False),
    ((Part(1, 0, 2), Part(2, 2, 7), Part(2, 2, 1), Part(3, 3, 2)), 9, "volumes 1 to 2, all 9 blocks", True),
    ((Part(1, 0, 2), Part(2, 2, 3), Part(2, 9, 1)), 5, "volumes 1 to 2, all 5 blocks", True),
    # Volumes that are of another dump, though it has the same name, level and date.
    ((Part(1, 0, 2, since=1), Part(2, 2, 3)), None, "volume 2 is missing", False),
    ((Part(1, 0, 2, length=8), Part(2, 2, 3)), None, "volume 2 is missing", False),
    ((Part(1, 0, 0), Part(2, 0, 3)), 3, "volumes 1 to 2, all 3 blocks", True),
    ((Part(1, 0, 1), Part(2, 1, 0), Part(3, 1, 1)), 2, "volumes 1 to 3, all 2 blocks", True),
)


class Dumps(LsCase):
    """What is said of the dumps of a dumpdates file."""

    def test_dumps(self) -> None:
        """Each row, alone; the lines of the reels come first, and an empty one after them."""
        for number, (parts, blocks, words, is_complete) in enumerate(DUMPS, 1):
            files = {f"st0/{at}": it.data() for at, it in enumerate(parts)}
            with self.rdump() as rdump:
                rdump.put({**files, "dates": dates_of(("/usr", 0, 7)), "st0/.keep": b""})
                got = rdump.ls("st0", "--dumpdates", "dates", *(("--blocks", str(blocks)) if blocks is not None else ()))
            lines = [*lines_of(files), "", f"/usr level 0 date {utc(7)}: {words}"]
            status = ALL_WHOLE if files and is_complete and status_of(files) == ALL_WHOLE else NOT_WHOLE
            tells = "" if files else "rdump: no reel was found\n"
            self.same(f"dump {number}", got, Listed(lines, tells, status))

    def test_entries(self) -> None:
        """Each entry of a dumpdates file, in its order. A file that can't be read, or is none, is told, and the reels are listed."""
        files = {"a": Part(1, 0, 2).data(), "b": Part(1, 0, 1, name="/home", level=3, date=90_000).data()}
        with self.rdump() as rdump:
            rdump.put({**files, "dates": dates_of(("/usr", 1, 7), ("/home", 3, 90_000), ("/usr", 0, 7)), "none": b"", "bad": b"x\n"})
            got = rdump.ls("a", "b", "--dumpdates", "dates")
            lines = [f"/usr level 1 date {utc(7)}: no volume", f"/home level 3 date {utc(90_000)}: volumes 1 to 1, ends at block 1"]
            lines = [*lines_of(files), "", *lines, f"/usr level 0 date {utc(7)}: volumes 1 to 1, ends at block 2"]
            self.same("entries in their order", got, Listed(lines, "", NOT_WHOLE))
            got = rdump.ls("a", "b", "--dumpdates", "none")
            self.same("no entries", got, Listed([*lines_of(files), ""], "", ALL_WHOLE))
            for path, why in (("bad", "line 1: bad line"), ("missing", "No such file or directory")):
                got = rdump.ls("a", "b", "--dumpdates", path)
                self.same(f"{path} is told", (got.lines, got.status), (lines_of(files), FAILED), got.told)
                self.holds(f"{path}: why", f"rdump: {path}: {why}" in got.told, got.told)


# Over the wire.

REFUSE, REFUSE_ALL, HANG_UP = "refused", "refused with all after it", "met by the end of the connection"


class Refuser(Listener):
    """Passes requests on to a server, in lock step. From the one of this number on one or all are refused, and do not come to the server, or the
    connection ends; none where the number is 0."""

    def __init__(self, server: Address, number: int, way: str) -> None:
        super().__init__()
        self.server = server
        self.number = number
        self.way = way
        self.seen = 0

    def serve(self, client: socket.socket) -> None:
        with connected(self.server) as server, client.makefile("rb") as asked, server.makefile("rb") as told:
            while request := self.request_of(asked):
                self.seen += 1
                if self.is_met() and self.way == HANG_UP:
                    return
                if self.is_met():
                    client.sendall(IO_ERROR)
                else:
                    server.sendall(request)
                    client.sendall(self.reply_of(told, request))

    def is_met(self) -> bool:
        """Whether the last request that was seen is refused, or met by the end."""
        return 0 < self.number <= self.seen if self.way == REFUSE_ALL else self.seen == self.number

    def request_of(self, asked: IO[bytes]) -> bytes:
        """The next request, whole."""
        line = asked.readline()
        return line + asked.readline() if line[:1] in (b"O", b"I") else line

    def reply_of(self, told: IO[bytes], request: bytes) -> bytes:
        """The reply to a request, whole."""
        line = told.readline()
        if line[:1] == b"E":
            return line + told.readline()
        return line + told.read(int(line[1:])) if request[:1] == b"R" else line


RELAYED = ("whole", "no mark", "a second mark", "a record after the mark", "empty", "a mark first", "no label", "two lengths")


def ls_with(folder: Path, terminal: int, *words: str) -> subprocess.CompletedProcess[bytes]:
    """Lists with a terminal at standard error, as nobody, if root, who may read all files, runs the tests."""
    return subprocess.run(
        (built("rdump"), "ls", *words),
        cwd=folder,
        stdin=subprocess.DEVNULL,
        stdout=subprocess.PIPE,
        stderr=terminal,
        timeout=LISTING_SECONDS,
        check=False,
        **as_nobody(),
    )


class Drives(LsCase):
    """The reel on a drive of a server."""

    def test_reels(self) -> None:
        """Each reel on a drive: what is said of it, and that it is there as it was. Then with a dumpdates file."""
        for name, data in WIRE_REELS.items():
            with self.rdump() as rdump, at_reel(rdump.folder, data) as address:
                true = wire_end(data)
                self.same(f"on a drive, {name}", rdump.ls("--to", address, "--device", DEVICE), true)
                self.same(f"on a drive, {name}: nothing is written", (rdump.folder / "st0/r1").read_bytes(), data)
                rdump.put({"dates": dates_of(("/usr", 0, 7))})
                got = rdump.ls("--to", address, "--device", DEVICE, "--dumpdates", "dates")
                self.same(f"on a drive, {name}: a dump", got.lines, [*true.lines, "", f"/usr level 0 date {utc(7)}: no volume"], got)

    def test_progress(self) -> None:
        """On a terminal a line shows which reel is read, and how much was: of files, and of a drive. It is cleared before anything else is told. What
        is not there is told before the first reel is read."""
        good = {name: WHOLE for name in ("a", "b")}
        first, later = r"\rreel 1, 0 MiB, 0 KiB/s\x1b\[K", r"(\rreel [12], 0 MiB, \d+ [KM]iB/s\x1b\[K)*"
        missing, denied = "rdump: z: No such file or directory (os error 2)\r\n", "rdump: shut: Permission denied (os error 13)\r\n"
        with self.rdump() as rdump, at_reel(rdump.folder, WHOLE) as address:
            rdump.put(good | {"shut": WHOLE})
            rdump.folder.chmod(0o755)
            (rdump.folder / "shut").chmod(0)
            drive = ("--to", address, "--device", DEVICE)
            rows = (
                (("a", "b"), ALL_WHOLE, "", CLEAR, lines_of(good)),
                (("a", "z", "b"), FAILED, missing, CLEAR, lines_of(good)),
                (("a", "shut", "b"), FAILED, "", CLEAR + denied, lines_of(good)),
                (drive, ALL_WHOLE, "", CLEAR, wire_end(WHOLE).lines),
            )
            for words, status, before, cleared, lines in rows:
                with Terminal() as terminal:
                    ran, shown = ls_with(rdump.folder, terminal.far, *words), terminal.shown()
                self.same(f"{words}: the lines beside progress", (ran.stdout.decode().splitlines(), ran.returncode), (lines, status), shown)
                more = later + re.escape(CLEAR) if status == FAILED else ""
                wanted = re.escape(before) + first + later + re.escape(cleared) + (r"(" + more + r")?" if more else "")
                self.holds(f"{words}: the progress", re.fullmatch(wanted, shown), shown, wanted)

    def test_no_session(self) -> None:
        """If no session can be had that is told."""
        with self.rdump() as rdump, at_reel(rdump.folder, None) as address:
            for device, number in ((DEVICE, 6), ("/dev/st9", 2)):
                got = rdump.ls("--to", address, "--device", device)
                self.same(f"{device} is refused", got, Listed([], f"rdump: {address}: {refused_with(number, OPEN, device)}", FAILED))
        with self.rdump() as rdump, socket.socket() as unheard:
            unheard.bind(("127.0.0.1", 0))
            address = "127.0.0.1:%d" % unheard.getsockname()[1]
            got = rdump.ls("--to", address, "--device", DEVICE)
            self.same("no server", (got.lines, got.status, f"rdump: {address}: " in got.told), ([], FAILED, True), got.told)

    def test_relays(self) -> None:
        """Each request of a session is refused in turn, alone and with all after it, and each is met by the end of the connection. What is said
        then is what has to be, or that it can't be told."""
        for name in RELAYED:
            true = wire_end(WIRE_REELS[name])
            got, _, last = self.relayed(WIRE_REELS[name], 0, REFUSE)
            self.same(f"{name}, by a relay", got, true)
            for number, way in itertools.product(range(1, last + 1), (REFUSE, REFUSE_ALL, HANG_UP)):
                got, address, _ = self.relayed(WIRE_REELS[name], number, way)
                title = f"{name}, request {number} of {last} {way}"
                if number == last:
                    self.same(f"{title}: what the close is answered changes nothing", got, true)
                elif way == HANG_UP or number == 1:
                    why = "the connection ended" if way == HANG_UP else refused_with(5, OPEN)[:-1]
                    self.same(f"{title}: told", got, Listed([], f"rdump: {address}: {why}\n", FAILED))
                else:
                    untold = len(got.lines) == 1 and "cannot be told: " in got.lines[0] and got.status == NOT_WHOLE and not got.told
                    self.holds(f"{title}: true or untold", got == true or untold, got, true)

    def relayed(self, data: bytes, number: int, way: str) -> tuple[Listed, str, int]:
        """One session: what is said, the relay's address, and how many requests there were."""
        with self.rdump() as rdump, at_reel(rdump.folder, data) as address:
            with Refuser(address_of(address), number, way) as relay:
                got = rdump.ls("--to", relay.address, "--device", DEVICE)
            return got, relay.address, relay.seen
