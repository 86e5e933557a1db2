"""What `rdump ls --catalog` has to say of reels and of the dumps of a catalog, by a plain model.

The model reads the lines one after the other, and remembers of each dump which lines are in force. A line of a volume takes those of this volume and
of later ones out of force, and with them that the dump is finished. A dump that begins takes all of its lines out of force.
"""

from __future__ import annotations

import hashlib
from typing import NamedTuple, Sequence

from tests.lib.given import given
from tests.lib.listings import ALL_WHOLE, NOT_WHOLE, Label, decoded, dump_words, said, volume_of

EQUAL, DIFFERS, ANEW, VOID, UNKNOWN = (
    "sum equal",
    "sum differs",
    "of a dump that was begun anew",
    "of a volume that was written again",
    "no sum known",
)
# The verdicts that do not fail a list of whole reels.
PASSED = (None, EQUAL, ANEW, VOID)


class Dump(NamedTuple):
    """The name, the level and the dates of a dump."""

    name: str
    level: int
    date: int
    since: int

    def text(self) -> str:
        return "%s level %d date %d since %d" % self


class Line(NamedTuple):
    """A line of a volume: its label and its sum."""

    label: Label
    sum: str


class State:
    """What the lines of a dump say, up to one of them."""

    def __init__(self) -> None:
        self.has_begun = False
        self.before: set[Line] = set()
        self.void: set[Line] = set()
        self.in_force: dict[int, Line] = {}
        self.volumes: int | None = None

    def begin(self) -> None:
        self.has_begun = True
        self.before |= self.void | set(self.in_force.values())
        self.void, self.in_force, self.volumes = set(), {}, None

    def add(self, line: Line) -> None:
        number = line.label.volume
        self.void |= {it for at, it in self.in_force.items() if at >= number}
        self.in_force = {at: it for at, it in self.in_force.items() if at < number} | {number: line}
        self.volumes = None

    def verdict(self, label: Label, sum_: str) -> str:
        if not self.has_begun:
            return UNKNOWN
        line, here = Line(label, sum_), self.in_force.get(label.volume)
        if here == line:
            return EQUAL
        if line in self.before:
            return ANEW
        if line in self.void:
            return VOID
        return DIFFERS if here is not None and here.label == label else UNKNOWN


def states_of(text: bytes) -> dict[Dump, State]:
    """The dumps of a catalog, in the order in which they last began."""
    states: dict[Dump, State] = {}
    for line in text.decode().splitlines():
        words = line.removeprefix("begun     ").removeprefix("finished  ").split()
        is_volume = not line.startswith(("begun     ", "finished  "))
        at = 1 if is_volume else 0
        level, date, since = (int(it.rstrip(":")) for it in (words[at + 2], words[at + 4], words[at + 6]))
        dump = Dump(words[at], level, date, since)
        state = states.setdefault(dump, State())
        if is_volume:
            state.add(Line(Label(*dump, int(words[9]), int(words[11].rstrip(","))), words[0]))
        elif line.startswith("begun"):
            state.begin()
            states[dump] = states.pop(dump)
        else:
            state.volumes = int(words[7])
    return states


def sum_of(data: bytes) -> str:
    return hashlib.sha256(data).hexdigest()


def label_in(data: bytes) -> Label:
    """The label of a reel of a volume."""
    return given(volume_of(decoded(data)[0]))[0]


def volume_line(data: bytes) -> bytes:
    """The line of a whole reel."""
    return f"{sum_of(data)}  {said(data).numbers}\n".encode()


def begun_line(dump: Dump, length: int = 0) -> bytes:
    return f"begun     {dump.text()}: {length} bytes\n".encode()


def finished_line(dump: Dump, volumes: int, blocks: int = 0, size: int = 1024, length: int = 0) -> bytes:
    return f"finished  {dump.text()}: {volumes} volumes, {blocks} blocks of {size} bytes, {length} bytes\n".encode()


def catalog_of(*reels: bytes) -> bytes:
    """The catalog of these whole reels, where each dump began before its first one. No volume is written again: a reel that is given twice has one
    line."""
    dumps: dict[Dump, dict[int, bytes]] = {}
    for data in reels:
        label = label_in(data)
        dumps.setdefault(Dump(*label[:4]), {})[label.volume] = volume_line(data)
    return b"".join(begun_line(dump) + b"".join(line for _, line in sorted(lines.items())) for dump, lines in dumps.items())


def verdict_on(data: bytes, text: bytes) -> str | None:
    """The verdict on a reel, None if it is not whole."""
    if not said(data).is_whole():
        return None
    label = label_in(data)
    state = states_of(text).get(Dump(*label[:4]))
    return state.verdict(label, sum_of(data)) if state else UNKNOWN


def ranges_of(numbers: Sequence[int]) -> list[tuple[int, int]]:
    """The ranges of numbers in order."""
    ranges: list[tuple[int, int]] = []
    for number in numbers:
        if ranges and ranges[-1][1] == number - 1:
            ranges[-1] = (ranges[-1][0], number)
        else:
            ranges.append((number, number))
    return ranges


def found_words(volumes: int | None, there: set[int]) -> str:
    """What is there of a dump of so many volumes, of which these are there."""
    if volumes is None:
        return "not finished"
    missing = ranges_of([it for it in range(1, volumes + 1) if it not in there])
    if not missing:
        return "all volumes"
    texts = [f"{first}" if first == last else f"{first} to {last}" for first, last in missing]
    one = len(missing) == 1 and missing[0][0] == missing[0][1]
    return f"missing: volume{'' if one else 's'} {', '.join(texts)}"


class Asked(NamedTuple):
    """The dumps that the arguments name."""

    name: str | None = None
    level: int | None = None
    date: int | None = None

    def words(self) -> list[str]:
        given_words = (("--fs", self.name), ("--level", self.level), ("--date", self.date))
        return [it for name, value in given_words if value is not None for it in (name, str(value))]

    def has(self, dump: Dump) -> bool:
        return all(wanted is None or wanted == had for wanted, had in zip(self, dump))


def listing(reels: dict[str, bytes], text: bytes, asked: Asked = Asked()) -> tuple[list[str], int]:
    """What `rdump ls --catalog` has to print of reels by their paths, and its status."""
    verdicts = {path: verdict_on(data, text) for path, data in reels.items()}
    order = sorted(reels, key=lambda path: (said(reels[path]).place, path.encode()))
    lines = [said(reels[path]).line(path) + (f", {verdicts[path]}" if verdicts[path] else "") for path in order]
    good = all(said(data).is_whole() and verdicts[path] in PASSED for path, data in reels.items())
    labels = {path: label_in(data) for path, data in reels.items() if said(data).is_whole()}
    lines.append("")
    has_dump = False
    for dump, state in states_of(text).items():
        is_given = dump in {Dump(*it[:4]) for it in labels.values()}
        if not state.has_begun or not (asked.has(dump) if asked.words() else is_given):
            continue
        has_dump = has_dump or bool(asked.words())
        there = {it.volume for path, it in labels.items() if Dump(*it[:4]) == dump and verdicts[path] == EQUAL}
        words = found_words(state.volumes, there)
        good = good and words == "all volumes"
        lines.append(f"{dump_words(*dump)}: {words}")
    return lines, ALL_WHOLE if good and (reels or has_dump) else NOT_WHOLE
