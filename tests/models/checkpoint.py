"""The text of a checkpoint file, written and read plainly: what `rdump dump --checkpoint` is checked against.

A text is lines that each end with a line feed: a title, seven lines with the values of a run, and a line for each counted volume. A number is
digits without a leading zero. The first line that has not its shape, is past a limit, lacks its line feed or is missing is a bad line. Where all
lines have their shape, the first count that cannot come after those before it is not in order.
"""

from __future__ import annotations

import re
from typing import Callable, NamedTuple

from tests.models.rmtd import GREATEST_NUMBER, GREATEST_RECORD
from tests.models.world import LAST_SECOND, LONGEST_NAME, Run, Volume, is_printed

TITLE = b"rdump 1"
GREATEST_LEVEL = 9


class Checkpoint(NamedTuple):
    """What a text spells: a run, and the volumes that were counted of it."""

    run: Run
    counts: tuple[Volume, ...]

    def next_block(self) -> int:
        """The first block that no counted volume has."""
        return sum(it.blocks for it in self.counts)

    def covers(self) -> bool:
        """Whether the counts are the whole run: one volume at least, and all blocks."""
        return bool(self.counts) and self.next_block() == self.run.blocks


class Fault(NamedTuple):
    """The line at fault, from 1, and what is said of it."""

    line: int
    kind: str

    def __str__(self) -> str:
        return f"line {self.line}: {self.kind}"


BAD, UNORDERED = "bad line", "not in order"


# Written.


def text_of(run: Run, counts: tuple[Volume, ...] = ()) -> bytes:
    """The one text of a run and its counts."""
    head = (
        *(TITLE, b"device " + run.device, b"fs " + run.name, b"level %d" % run.level, b"date %d" % run.date, b"since %d" % run.since),
        *(b"block %d" % run.block, b"blocks %d" % run.blocks),
    )
    return b"".join(it + b"\n" for it in (*head, *(b"counted %d %d %d" % it for it in counts)))


# Read.


def number(field: bytes, least: int, most: int) -> int | None:
    """The number that a field spells, within these limits."""
    spelled = re.fullmatch(rb"0|[1-9][0-9]*", field)
    # A field of more digits than the greatest limit has none within it; the system refuses to read very long ones.
    return int(field) if spelled and len(field) <= 20 and least <= int(field) <= most else None


def is_device(field: bytes) -> bool:
    return 1 <= len(field) <= LONGEST_NAME


def is_name(field: bytes) -> bool:
    return 1 <= len(field) <= LONGEST_NAME and is_printed(field)


# The words of the lines after the title, in order, and what their values have to be: names, and then numbers within limits.
NAMES: tuple[tuple[bytes, Callable[[bytes], bool]], ...] = ((b"device ", is_device), (b"fs ", is_name))
NUMBERS = (
    (b"level ", 0, GREATEST_LEVEL),
    (b"date ", 0, LAST_SECOND),
    (b"since ", 0, LAST_SECOND),
    (b"block ", 1, GREATEST_RECORD),
    (b"blocks ", 0, GREATEST_NUMBER),
)
HEAD_LINES = 1 + len(NAMES) + len(NUMBERS)


def field_at(lines: list[bytes], place: int, word: bytes) -> bytes:
    """What stands after the word of a line, counted from 1; nothing where the line has another word or is missing. No value is spelled so."""
    line = lines[place - 1] if place <= len(lines) else b""
    return line.removeprefix(word) if line.startswith(word) else b""


def run_of(lines: list[bytes]) -> Run | Fault:
    """The run that the title and the seven lines after it spell, or the first of them that is bad."""
    if lines[:1] != [TITLE]:
        return Fault(1, BAD)
    names: list[bytes] = []
    for place, (word, is_right) in enumerate(NAMES, 2):
        names.append(field_at(lines, place, word))
        if not is_right(names[-1]):
            return Fault(place, BAD)
    numbers: list[int] = []
    for place, (word, least, most) in enumerate(NUMBERS, 2 + len(NAMES)):
        spelled = number(field_at(lines, place, word), least, most)
        if spelled is None:
            return Fault(place, BAD)
        numbers.append(spelled)
    return Run(names[0], names[1], *numbers)


def count(line: bytes) -> Volume | None:
    """The volume of a line of a count, and None where the line is bad."""
    word, *fields = line.split(b" ")
    numbers = [it for it in (number(field, 0, GREATEST_NUMBER) for field in fields) if it is not None]
    return Volume(*numbers) if word == b"counted" and len(fields) == len(numbers) == 3 else None


def first_out_of_order(run: Run, counts: list[Volume]) -> int | None:
    """The place of the first count that cannot come after those before it, from 0."""
    block = 0
    for place, it in enumerate(counts):
        is_over = place > 0 and block == run.blocks
        follows = (it.volume, it.first) == (place + 1, block) and block + it.blocks <= run.blocks
        if is_over or not follows or (it.blocks == 0 and run.blocks > 0):
            return place
        block += it.blocks
    return None


def decoded(text: bytes) -> Checkpoint | Fault:
    """What a text spells, or its first fault."""
    *lines, rest = text.split(b"\n")
    run = run_of(lines)
    if isinstance(run, Fault):
        return run
    counts: list[Volume] = []
    for place, line in enumerate(lines[HEAD_LINES:], HEAD_LINES + 1):
        counted = count(line)
        if counted is None:
            return Fault(place, BAD)
        counts.append(counted)
    if rest:
        return Fault(len(lines) + 1, BAD)
    wrong = first_out_of_order(run, counts)
    return Checkpoint(run, tuple(counts)) if wrong is None else Fault(HEAD_LINES + 1 + wrong, UNORDERED)


def is_same_dump(one: Run, other: Run) -> bool:
    """Whether two runs are of one dump: all but their dates agree."""
    return one._replace(date=0, since=0) == other._replace(date=0, since=0)
