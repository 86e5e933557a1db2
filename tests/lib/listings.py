"""What `rdump ls` has to say of record files and of the reel on a drive, by a plain decoder; files, reels and a server to try it with."""

from __future__ import annotations

import os
import re
import subprocess
from contextlib import contextmanager
from datetime import datetime, timezone
from pathlib import Path
from typing import Iterator, NamedTuple

from tests.lib.case import Case
from tests.lib.places import built
from tests.lib.servers import at_drive
from tests.lib.wire import DEVICE
from tests.models.rmtd import Entry, image, images

ALL_WHOLE, FAILED, NOT_WHOLE = 0, 1, 3

# A list of long reels takes longer than other runs. One that does not end is killed after this time.
LISTING_SECONDS = 120

# The limits of labels and records.
LABEL_BYTES, GREATEST_RECORD, LAST_SECOND, LAST_BLOCK = 1024, 262_144, 253_402_300_799, 2_147_483_647

# The user that files without permissions are read as, where the tests run as the one that may read all.
NOBODY = 65_534


class Label(NamedTuple):
    """What the label of a volume says."""

    name: str
    level: int
    date: int
    since: int
    volume: int
    first: int

    def record(self) -> bytes:
        lines = "name %s\nlevel %d\ndate %d\nsince %d\nvolume %d\nfirst %d\n" % self
        return lines.encode().ljust(LABEL_BYTES, b"\0")


def utc(date: int) -> str:
    """A date with its text in UTC in brackets, as `rdump ls` prints it."""
    return f"{date} ({datetime.fromtimestamp(date, timezone.utc):%Y-%m-%d %H:%M:%S})"


def dump_words(name: str, level: int, date: int, since: int) -> str:
    """A dump, as `rdump ls` names it. A base date of 0 is none, and has no text."""
    return f"{name} level {level} date {utc(date)} since {utc(since) if since else 0}"


def label_words(label: Label) -> str:
    """What a label says, as `rdump ls` prints it."""
    return f"{dump_words(*label[:4])} volume {label.volume} first {label.first}"


def label_of(record: bytes) -> Label | None:
    """The label that a record is."""
    number = rb"(0|[1-9]\d{0,11})"
    lines = rb"name ([!-~]{1,255})\nlevel %s\ndate %s\nsince %s\nvolume %s\nfirst %s\n\0*" % ((number,) * 5)
    found = re.fullmatch(lines, record)
    if len(record) != LABEL_BYTES or not found:
        return None
    label = Label(found[1].decode(), *(int(it) for it in found.groups()[1:]))
    lawful = label.level <= 9 and max(label.date, label.since) <= LAST_SECOND
    lawful = lawful and 1 <= label.volume <= LAST_BLOCK and label.first <= LAST_BLOCK
    return label if lawful else None


def decoded(data: bytes) -> tuple[list[Entry], int]:
    """The entries of a file, and how many bytes stand after them."""
    entries: list[Entry] = []
    at = 0
    while at + 4 <= len(data):
        length = int.from_bytes(data[at : at + 4], "little")
        record = data[at + 4 : at + 4 + length]
        if length and (length > GREATEST_RECORD or data[at : at + 8 + length] != image(record) or len(record) != length):
            break
        entries.append(record if length else None)
        at += 8 + length if length else 4
    return entries, len(data) - at


class Said(NamedTuple):
    """What has to be said of a reel: its numbers as a catalog has them and as `rdump ls` prints them, its words, and what its line is sorted by."""

    numbers: str
    shown: str
    words: str
    place: tuple[object, ...]

    def is_whole(self) -> bool:
        return self.words == "whole"

    def line(self, path: str) -> str:
        return f"{path}: {self.shown}: {self.words}"


def volume_of(entries: list[Entry]) -> tuple[Label, list[bytes], list[Entry]] | None:
    """The label, the blocks and what follows them, where the entries are a volume."""
    label = label_of(entries[0]) if entries and entries[0] is not None else None
    if label is None:
        return None
    marks = [at for at, it in enumerate(entries) if it is None]
    end = marks[0] if marks else len(entries)
    blocks = [it for it in entries[1:end] if it is not None]
    return (label, blocks, entries[end:]) if len({len(it) for it in blocks}) <= 1 else None


def end_words(blocks: list[bytes], rest: list[Entry]) -> str:
    """What is said of a volume by what follows its blocks."""
    if not rest:
        return f"no mark: {len(blocks)} whole blocks"
    return "whole" if len(rest) == 1 else "more after the mark"


def with_tail(words: str, tail: int) -> str:
    if not tail:
        return words
    return f"tail of {tail} bytes" if words in ("whole", "empty") else f"{words}, tail of {tail} bytes"


def said(data: bytes) -> Said:
    """What has to be said of a record file."""
    entries, tail = decoded(data)
    found = volume_of(entries)
    if found:
        label, blocks, rest = found
        size = f", {len(blocks)} blocks of {len(blocks[0]) if blocks else 0} bytes, {len(data)} bytes"
        return Said(
            "%s level %d date %d since %d volume %d first %d" % label + size,
            label_words(label) + size,
            with_tail(end_words(blocks, rest), tail),
            (0, label.name, label.level, label.date, label.volume),
        )
    if not entries:
        return Said(f"{len(data)} bytes", f"{len(data)} bytes", with_tail("empty", tail), (1,))
    marks = entries.count(None)
    numbers = f"{len(entries) - marks} records, {marks} marks, {len(data)} bytes"
    return Said(numbers, numbers, with_tail("not a volume of rdump", tail), (1,))


class Listed(NamedTuple):
    """The lines that `rdump ls` printed, what it told, and its status."""

    lines: list[str]
    told: str
    status: int


class Rdump(NamedTuple):
    """The program, the folder that it runs in, and the test that runs it."""

    case: Case
    folder: Path

    def ls(self, *words: str, environment: dict[str, str] | None = None, as_nobody: bool = False) -> Listed:
        """Runs `rdump ls` with these words: as nobody, if root, who may read all files, runs the tests."""
        drops_rights = as_nobody and os.geteuid() == 0
        ran = subprocess.run(
            (built("rdump"), "ls", *words),
            cwd=self.folder,
            stdin=subprocess.DEVNULL,
            capture_output=True,
            env=environment,
            timeout=LISTING_SECONDS,
            check=False,
            user=NOBODY if drops_rights else None,
            group=NOBODY if drops_rights else None,
            extra_groups=[] if drops_rights else None,
        )
        output = ran.stdout.decode(errors="backslashreplace")
        self.case.holds(f"{words}: lines are whole", output == "" or output.endswith("\n"), output[-200:])
        return Listed(output.split("\n")[:-1], ran.stderr.decode(errors="replace"), ran.returncode)

    def put(self, files: dict[str, bytes]) -> None:
        """Makes files of these bytes, and their folders."""
        for name, data in files.items():
            path = self.folder / name
            path.parent.mkdir(parents=True, exist_ok=True)
            path.write_bytes(data)


USR = Label("/usr", 0, 951_782_400, 0, 1, 0)
BLOCKS = (b"a" * 1024, b"b" * 1024)
VOLUME = images([USR.record(), *BLOCKS])

# Reels with records of more bytes than are read at once.
LONG_RECORDS = {
    "record": images([bytes(GREATEST_RECORD), None]),
    "block": images([USR.record(), bytes(GREATEST_RECORD), None]),
    "two blocks": images([USR.record(), *[bytes(GREATEST_RECORD - 1)] * 2, None]),
}
MONTHS = ("Jan", "Feb", "Mar", "Apr", "May", "Jun", "Jul", "Aug", "Sep", "Oct", "Nov", "Dec")


def dates_of(*dumps: tuple[str, int, int]) -> bytes:
    """A dumpdates file of dumps in the first days of 1970: names, levels and seconds."""
    days = ("Thu", "Fri", "Sat", "Sun", "Mon", "Tue", "Wed")
    lines = []
    for name, level, date in dumps:
        day, second = divmod(date, 86_400)
        clock = f"{second // 3600:02}:{second // 60 % 60:02}:{second % 60:02}"
        lines.append(f"{name} {level} {days[day]} {MONTHS[0]} {day + 1} {clock} 1970\n")
    return "".join(lines).encode()


def wire_words(data: bytes) -> str:
    """What has to be said of a reel on a drive: no bytes are told, and no tail is seen."""
    entries, _ = decoded(data)
    found = volume_of(entries)
    if not entries:
        return "cannot be told: no record is read, and spacing is refused"
    if not found:
        return "not a volume of rdump"
    label, blocks, rest = found
    length = len(blocks[0]) if blocks else 0
    facts = f"{label_words(label)}, {len(blocks)} blocks of {length} bytes"
    return f"{facts}: {end_words(blocks, rest)}"


@contextmanager
def at_reel(folder: Path, data: bytes | None) -> Iterator[str]:
    """The address of a server with one drive in this folder, that has this reel, if any."""
    for name in ("st0", "bin"):
        (folder / name).mkdir(exist_ok=True)
    if data is not None:
        (folder / "st0/r1").write_bytes(data)
    with at_drive(folder) as address:
        yield address


WIRE_REELS = {
    "whole": VOLUME + image(None),
    "a label and a mark": images([USR.record(), None]),
    "no mark": VOLUME,
    "a label alone": images([USR.record()]),
    "a second mark": VOLUME + images([None, None]),
    "three marks": VOLUME + images([None, None, None]),
    "a record after the mark": VOLUME + images([None, b"x"]),
    "two volumes": (VOLUME + image(None)) * 2,
    "a tail": VOLUME + image(None) + b"\1\0",
    "a tail and no mark": VOLUME + b"\1\0",
    "empty": b"",
    "a mark first": images([None, USR.record(), None]),
    "no label": images([b"hello", None]),
    "two lengths": VOLUME + images([b"c", None]),
    "blocks of the greatest length": images([USR.record(), bytes(GREATEST_RECORD), bytes(GREATEST_RECORD), None]),
}


def wire_end(data: bytes) -> Listed:
    """What has to be said of a reel on a drive, and the status."""
    words = wire_words(data)
    return Listed([f"{DEVICE}: {words}"], "", ALL_WHOLE if words.endswith(": whole") else NOT_WHOLE)
