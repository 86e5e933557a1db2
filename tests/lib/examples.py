"""The worked conversations, which stand in the tables under *Examples* in docs/PROTOCOL.md."""

from __future__ import annotations

import re
from itertools import pairwise
from typing import Iterator, NamedTuple

from tests.lib.given import given
from tests.lib.places import TOP

PROTOCOL = TOP / "docs/PROTOCOL.md"
CODE = re.compile(r"`([^`]*)`")


class Turn(NamedTuple):
    """A row of a conversation: the request, the reply, and the words after them, which may be none."""

    request: bytes
    answer: bytes
    place: str


class Example(NamedTuple):
    """A table of requests and replies, and the words above it."""

    name: str
    turns: tuple[Turn, ...]

    def sent(self) -> bytes:
        return b"".join(it.request for it in self.turns)

    def answers(self) -> bytes:
        return b"".join(it.answer for it in self.turns)


class Stream(NamedTuple):
    """A row of the table of whole streams."""

    sent: bytes
    answers: bytes
    status: int


class Table(NamedTuple):
    """A table, and the paragraph above it."""

    above: str
    head: list[str]
    rows: list[list[str]]


def cells(line: str) -> list[str]:
    return [it.strip() for it in line.strip().strip("|").split("|")]


def tables() -> Iterator[Table]:
    """The tables under Examples."""
    text = PROTOCOL.read_text().split("\n## Examples\n")[1].split("\n## ")[0]
    parts = [it.strip() for it in text.split("\n\n")]
    for above, part in pairwise(parts):
        if part.startswith("|"):
            head, _, *rows = map(cells, part.splitlines())
            yield Table(above, head, rows)


def bytes_in(cell: str) -> bytes:
    """The bytes that a cell shows: each character is its ASCII byte, but \\n and \\r. A cell without any shows none."""
    found = CODE.match(cell)
    return found[1].replace("\\n", "\n").replace("\\r", "\r").encode("ascii") if found else b""


def turn(row: list[str]) -> Turn:
    request, answer, *place = row
    return Turn(bytes_in(request), bytes_in(answer), CODE.sub(r"\1", "".join(place)))


def examples() -> list[Example]:
    """The conversations, each of which ends with the exit status 0."""
    found = [it for it in tables() if it.head[:2] == ["Request", "Reply"]]
    return [Example(it.above.split(".")[0], tuple(map(turn, it.rows))) for it in found]


def streams() -> list[Stream]:
    """The whole streams."""
    rows = [row for it in tables() if it.head == ["Input", "Output", "Status"] for row in it.rows]
    return [Stream(bytes_in(sent), bytes_in(answers), int(given(re.match(r"\d+", status))[0])) for sent, answers, status in rows]
