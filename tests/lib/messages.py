"""The messages of docs/MESSAGES.md and docs/OPERATING.md, and those that MESSAGES has no row for, which tests/lib/self_evident.txt lists."""

from __future__ import annotations

import re
from typing import Iterator, NamedTuple

from tests.lib.places import TOP

PAGE = TOP / "docs/MESSAGES.md"
OPERATING = TOP / "docs/OPERATING.md"
SELF_EVIDENT = TOP / "tests/lib/self_evident.txt"

# The sections of both, each with its program.
SECTIONS = {
    "rmtd at its start": "rmtd",
    "The log of rmtd": "rmtd",
    "rdump": "rdump",
    "The errors of a server": "rdump",
    "The lines of rdump ls": "rdump",
    "rsim": "rsim",
}


class Message(NamedTuple):
    """A message, where it stands, its section, and the exit statuses of its program; none if the message decides none, or the page has it."""

    place: str
    section: str
    text: str
    statuses: tuple[str, ...] = ()

    @property
    def program(self) -> str:
        return SECTIONS[self.section]

    def covers(self, other: str) -> bool:
        """Whether another message is one of those that this one abbreviates by `..`."""
        return ".." in self.text and bool(re.fullmatch(".*".join(map(re.escape, self.text.split(".."))), other))


def page_tables() -> Iterator[list[Message]]:
    """The messages of each table of messages."""
    section, is_of_messages, table = "", False, list[Message]()
    for number, line in enumerate([*PAGE.read_text().splitlines(), ""], 1):
        if line.startswith("## "):
            section = line[3:]
        if line.startswith("| Message |"):
            is_of_messages = section in SECTIONS
        elif not line.startswith("|"):
            if table:
                yield table
            is_of_messages, table = False, []
        found = re.match(r"\| `([^`]+)` \|", line)
        if found and is_of_messages:
            table.append(Message(f"docs/MESSAGES.md:{number}", section, found[1]))


def operating_table() -> Iterator[Message]:
    """What the first cells of the tables of messages of docs/OPERATING.md quote."""
    text = OPERATING.read_text()
    for table in re.finditer(r"^\| Message \|.*\n\|[-|]+\n((?:\|.*\n)+)", text, re.M):
        for number, row in enumerate(table[1].splitlines(), text.count("\n", 0, table.start(1)) + 1):
            if row.startswith("| `"):
                quoted = re.findall(r"`([^`]+)`", row.split(" | ")[0])
                yield from (Message(f"docs/OPERATING.md:{number}", "rdump", it) for it in quoted)


def self_evident() -> Iterator[list[Message]]:
    """The messages of each section of the list."""
    section, messages = "", list[Message]()
    for number, line in enumerate([*SELF_EVIDENT.read_text().splitlines(), ""], 1):
        if line.startswith("## "):
            section = line[3:]
        found = re.fullmatch(r"(-|\d(?:,\d)?) +(.+)", line)
        if found:
            messages.append(Message(f"tests/lib/self_evident.txt:{number}", section, found[2], tuple(re.findall(r"\d", found[1]))))
        elif messages:
            yield messages
            messages = []
