"""The text of a catalog, written and read plainly, and its rules: what `rdump dump --catalog` enters is checked against it.

A dump has a line with which it begins, a line for each counted volume, and a line that says that it is finished. The line of a volume is the SHA-256
of its record file, two spaces, and what the plain decoder of tests/lib/listings.py says of that file. Numbers have no leading zeros, and each line
ends with a line feed. The lines of a dump that count are those after the last one with which it began. A line of a volume is in force if no later
line of the dump is of the same volume, or of one before it.
"""

from __future__ import annotations

import hashlib
import re
from typing import Iterable, NamedTuple, Union

from tests.lib.given import given
from tests.lib.listings import GREATEST_RECORD, LABEL_BYTES, LAST_BLOCK, LAST_SECOND, Label, decoded, said, volume_of

EQUAL, DIFFERS, UNKNOWN = "sum equal", "sum differs", "no sum known"
ANEW, VOID = "of a dump that was begun anew", "of a volume that was written again"

NUMBER = rb"(0|[1-9]\d{0,19})"
ID = rb"([!-~]{1,255}) level ([0-9]) date %s since %s" % ((NUMBER,) * 2)
BEGUN = re.compile(rb"begun     %s: %s bytes" % (ID, NUMBER))
VOLUME = re.compile(rb"([0-9a-f]{64})  %s volume %s first %s, %s blocks of %s bytes, %s bytes" % (ID, *(NUMBER,) * 5))
FINISHED = re.compile(rb"finished  %s: %s volumes, %s blocks of %s bytes, %s bytes" % (ID, *(NUMBER,) * 4))


class Id(NamedTuple):
    """What names a dump."""

    name: str
    level: int
    date: int
    since: int

    def words(self) -> str:
        return "%s level %d date %d since %d" % self

    def is_lawful(self) -> bool:
        return max(self.date, self.since) <= LAST_SECOND


class Begun(NamedTuple):
    """A dump begins, with a payload of so many bytes."""

    id: Id
    size: int

    def text(self) -> bytes:
        return f"begun     {self.id.words()}: {self.size} bytes\n".encode()

    def is_lawful(self) -> bool:
        return self.id.is_lawful() and self.size < 2**64


class Counted(NamedTuple):
    """A volume is counted."""

    id: Id
    sum: str
    volume: int
    first: int
    blocks: int
    block: int
    length: int

    def text(self) -> bytes:
        place = f"volume {self.volume} first {self.first}"
        return f"{self.sum}  {self.id.words()} {place}, {self.blocks} blocks of {self.block} bytes, {self.length} bytes\n".encode()

    def is_lawful(self) -> bool:
        lawful = self.id.is_lawful() and 1 <= self.volume <= LAST_BLOCK and max(self.first, self.blocks) <= LAST_BLOCK
        lawful = lawful and (1 <= self.block <= GREATEST_RECORD if self.blocks else self.block == 0)
        return lawful and self.length == LABEL_BYTES + 8 + self.blocks * (self.block + 8) + 4


class Finished(NamedTuple):
    """A dump of so many volumes and blocks, with a payload of so many bytes, is finished."""

    id: Id
    volumes: int
    blocks: int
    block: int
    size: int

    def text(self) -> bytes:
        return f"finished  {self.id.words()}: {self.volumes} volumes, {self.blocks} blocks of {self.block} bytes, {self.size} bytes\n".encode()

    def is_lawful(self) -> bool:
        lawful = self.id.is_lawful() and 1 <= self.volumes <= LAST_BLOCK and self.blocks <= LAST_BLOCK
        return lawful and 1 <= self.block <= GREATEST_RECORD and self.size < 2**64


Line = Union[Begun, Counted, Finished]


# Lines, and what they are read as.


def sum_of(data: bytes) -> str:
    return hashlib.sha256(data).hexdigest()


def line_of(data: bytes) -> bytes:
    """The line of a record file."""
    return f"{sum_of(data)}  {said(data).numbers}\n".encode()


def id_of(label: Label) -> Id:
    return Id(*label[:4])


def label_in(data: bytes) -> Label:
    """The label of the volume in a record file."""
    return given(volume_of(decoded(data)[0]))[0]


def parsed(text: bytes) -> Line | None:
    """The line that a text is, which stands here without its line feed."""
    for form in (BEGUN, VOLUME, FINISHED):
        found = form.fullmatch(text)
        if not found:
            continue
        words = [it.decode() for it in found.groups()]
        sums = [words.pop(0)] if form is VOLUME else []
        name, *numbers = words
        id, rest = Id(name, *map(int, numbers[:3])), [*map(int, numbers[3:])]
        line: Line = Begun(id, *rest) if form is BEGUN else Finished(id, *rest) if form is FINISHED else Counted(id, sums[0], *rest)
        return line if line.is_lawful() else None
    return None


def lines_of(text: bytes) -> list[Line]:
    """The lines of a catalog."""
    lines: list[Line] = []
    for it in text.splitlines():
        line = parsed(it)
        assert line is not None, it
        lines.append(line)
    return lines


def bad_line(text: bytes) -> int | None:
    """The number of the first line that is none, None where this is a catalog."""
    lines = text.split(b"\n")
    rest = lines.pop()
    for number, line in enumerate(lines, 1):
        if not parsed(line):
            return number
    return len(lines) + 1 if rest else None


# Which lines count.


def begun(lines: list[Line], id: Id) -> int:
    """With how many lines a dump began."""
    return sum(isinstance(it, Begun) and it.id == id for it in lines)


def split_at_begun(lines: list[Line], id: Id) -> tuple[list[Line], list[Line]] | None:
    """The lines before the last one with which a dump began, and those after it."""
    places = [at for at, it in enumerate(lines) if isinstance(it, Begun) and it.id == id]
    return (lines[: places[-1]], lines[places[-1] + 1 :]) if places else None


def lately(lines: list[Line], id: Id) -> list[Line]:
    """The lines of a dump that follow the last one with which it began."""
    found = split_at_begun(lines, id)
    return [it for it in found[1] if it.id == id] if found else []


def in_force(lines: list[Line], id: Id) -> dict[int, Counted]:
    """The lines of a dump's volumes that are in force, by their numbers."""
    force: dict[int, Counted] = {}
    for it in lately(lines, id):
        if isinstance(it, Counted):
            force = {number: line for number, line in force.items() if number < it.volume}
            force[it.volume] = it
    return force


def finished(lines: list[Line], id: Id) -> Finished | None:
    """The line that says that a dump is finished, if no volume's line follows it."""
    last = lately(lines, id)[-1:]
    return last[0] if last and isinstance(last[0], Finished) else None


def compared(data: bytes, text: bytes) -> str | None:
    """What a comparison of a record file with a catalog comes to, None where the file is not whole."""
    if not said(data).is_whole():
        return None
    label, sum = label_in(data), sum_of(data)
    lines, id = lines_of(text), id_of(label)

    def is_of(line: Line) -> bool:
        return isinstance(line, Counted) and (line.id, line.volume, line.first) == (id, label.volume, label.first)

    split = split_at_begun(lines, id)
    if split is None:
        return UNKNOWN
    force = [it for it in in_force(lines, id).values() if is_of(it)]
    before, after = ([isinstance(it, Counted) and is_of(it) and it.sum == sum for it in part] for part in split)
    if any(it.sum == sum for it in force):
        return EQUAL
    return ANEW if any(before) else VOID if any(after) else DIFFERS if force else UNKNOWN


# What a dump enters.


def counted(data: bytes) -> Counted:
    """The line of a record file, as it is read."""
    line = parsed(line_of(data)[:-1])
    if not isinstance(line, Counted):
        raise ValueError(line)
    return line


def text_of(lines: Iterable[Line]) -> bytes:
    return b"".join(it.text() for it in lines)


def dump_text(reels: list[bytes], size: int, block: int) -> bytes:
    """All that a dump enters of which these are the reels, with a payload of so many bytes."""
    lines = [*map(counted, reels)]
    id = lines[0].id
    end = Finished(id, len(lines), sum(it.blocks for it in lines), block, size)
    return text_of([Begun(id, size), *lines, end])


class Run:
    """A run of a dump that keeps a catalog: what it enters, given what the file holds at each step. Where it enters nothing more, `is_complete` is
    false."""

    def __init__(self, id: Id, size: int, block: int) -> None:
        self.id, self.size, self.block = id, size, block
        self.began: int | None = None
        self.is_complete = True

    def begin(self, text: bytes) -> bytes:
        """The dump begins."""
        text += Begun(self.id, self.size).text()
        self.began = begun(lines_of(text), self.id)
        return text

    def has_begun(self, text: bytes) -> bool:
        """Whether exactly one line says that the dump began, with a payload of this size."""
        return [it.size for it in lines_of(text) if isinstance(it, Begun) and it.id == self.id] == [self.size]

    def go_on(self, text: bytes, counts: list[Counted]) -> None:
        """The dump goes on with volumes that were counted before, whose sums are not looked at."""
        force = in_force(lines_of(text), self.id)
        has_all = all(it.volume in force and force[it.volume]._replace(sum=it.sum) == it for it in counts)
        self.began = 1
        if not has_all or begun(lines_of(text), self.id) != 1:
            self.close()

    def close(self) -> None:
        """Nothing more is entered."""
        self.began, self.is_complete = None, False

    def count(self, text: bytes, line: Counted) -> bytes:
        """A volume is counted."""
        lines = lines_of(text)
        if self.began is not None and begun(lines, self.id) != self.began:
            self.close()
        if self.began is None or in_force(lines, self.id).get(line.volume) == line:
            return text
        return text + line.text()

    def finish(self, text: bytes, counts: list[Counted]) -> bytes:
        """All volumes are counted."""
        lines = lines_of(text)
        force = in_force(lines, self.id)
        has_all = all(it.volume in force and force[it.volume]._replace(sum=it.sum) == it for it in counts)
        if not self.is_complete or not has_all or begun(lines, self.id) != self.began:
            self.close()
            return text
        end = Finished(self.id, len(counts), sum(it.blocks for it in counts), self.block, self.size)
        return text if finished(lines, self.id) == end else text + end.text()
