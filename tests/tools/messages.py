"""Compares the messages of the documents, and the list of those that have no row there, with the texts of the programs, both ways.

    python3 -m tests.tools.messages

A text of the source is a string in the crates of a program, with those below it, that has two words or more. Each is a part of a message of
docs/MESSAGES.md or of the list, in a section of a program that has the crate. A message of a document is in the first cell of a row of a table of
messages. The list is tests/lib/self_evident.txt: it has the messages that say themselves what is wrong and what to do, those that a row abbreviates
by `..`, and those of docs/OPERATING.md. Each message consists of texts of the source alone, or abbreviates one of the list; one of
OPERATING has parts of such texts.

Some parts of a text vary. In the source such a part is `{..}`. In a message it is `..`, a number, or a word in capitals, as FILE. What lies
between two such parts, without the punctuation around it, is a piece. Pieces are what is compared.

The messages of each table of MESSAGES, and of each section of the list, are in alphabetical order, and no section has one twice. Most texts that
refuse wrong arguments are left out, since they name what is wrong.
"""

from __future__ import annotations

import re
import sys
from typing import Iterator, NamedTuple

from tests.lib.messages import Message, operating_table, page_tables, self_evident
from tests.lib.places import CRATES
from tests.tools.build import below, listed

PROGRAMS = ("rmtd", "rdump", "rsim")
# Crates whose faults a program may print, or whose texts are answers. The page need not have them.
LIBRARIES = ("rmt_wire", "rmt_server", "dump_client", "dump_run", "dumpdates", "rmtd_args", "rdump_args")
# Texts that no program prints: what is read from other files, the forms of dumpdates and of a checkpoint, the help of `rsim`, and a fault
# in whose place the system's reason is printed.
NOT_PRINTED = (
    "Max file size",
    " 0 Www Mmm 00 00:00:00 0000",
    "rdump 1\ndevice d\nfs f\nlevel 0\ndate 0\nsince 0\nblock 1\nblocks 0\n",
    "counted {volume} {first} {least}\n",
    "The schedule",
    "Simulator of dumps to a remote tape, under a schedule of events",
    "the read was stopped",
)
# Files all of whose strings are printed, those of one word too.
ALL_PRINTED = ("rdump_net/src/lines.rt", "rdump_list/src/verdict.rt", "rmtd_serve/src/ended.rt")
# What a program prints that is in no string of these crates, but in the kit or in an argument: the first word of a wrong argument, what the
# address of a Unix socket begins with, and reasons.
FROM_THE_KIT = (
    "error",
    "unix",
    "permission denied",
    "Address already in use",
    "path must be shorter than SUN_LEN",
    "connection timed out",
    "timed out",
)

# A comment, a character, or a string, whose text is the group.
TOKEN = re.compile(r'//[^\n]*|\'(?:\\.|[^\'\\])\'|"((?:\\.|[^"\\])*)"', re.DOTALL)
VARIES = re.compile(r"\{[^}]*\}|\.\.|\d+|\b(?:ADDRESS|DATE|DEVICE|FILE|FOLDER|N|NAME|REASON|REEL|TIME)\b")
PUNCTUATION = " \n\r.,:;()/'\""


class Text(NamedTuple):
    """A string of the source, and where it is."""

    place: str
    text: str


def pieces(text: str) -> list[str]:
    """What lies between the parts that vary of a string or a message, without the punctuation around it."""
    found = (it.strip(PUNCTUATION) for it in VARIES.split(text))
    return [it for it in found if re.search("[A-Za-z]", it)]


def strings(crates: list[str]) -> Iterator[Text]:
    """Each string in the sources of these crates."""
    for path in (it for crate in crates for it in sorted((CRATES / crate / "src").rglob("*.rt"))):
        source = path.read_text()
        for token in TOKEN.finditer(source):
            # A definition of a contract spells a text too, as in `codes "line "`.
            if token[1] is not None and not source[: token.start()].endswith("codes "):
                text = re.sub(r"\\\n\s*", "", token[1]).replace("\\n", "\n").replace('\\"', '"').replace("\\r", "").replace("\\x1b[K", "")
                yield Text(f"{path.relative_to(CRATES)}:{source.count(chr(10), 0, token.start()) + 1}", text)


def is_printed(it: Text) -> bool:
    """Whether a message has to have a string."""
    words = re.findall(r"[A-Za-z][\w'-]*", re.sub(r"\{[^}]*\}|/\S*", " ", it.text))
    whole_file = it.place.rpartition(":")[0] in ALL_PRINTED and words
    return it.text not in NOT_PRINTED and bool(whole_file or len(words) > 1)


def crates_of(program: str) -> list[str]:
    """A program's crate and those below it."""
    return [*below(listed(), [program])]


def check_strings(messages: list[Message]) -> Iterator[str]:
    """Each string that is in no message of a program that has its crate."""
    above = {it: [program for program in PROGRAMS if it in crates_of(program)] for program in PROGRAMS for it in crates_of(program)}
    for crate, programs in above.items():
        known = [" .. ".join(pieces(it.text)) for it in messages if it.program in programs]
        for it in strings([crate] if crate not in LIBRARIES else []):
            wanted = re.compile(".*".join(map(re.escape, pieces(it.text))))
            if is_printed(it) and not any(wanted.search(message) for message in known):
                yield f"crates/{it.place}: docs/MESSAGES.md and self_evident.txt have no such message: {it.text.strip()}"


def check_messages(messages: list[Message], others: list[Message]) -> Iterator[str]:
    """Each message that has a piece of no string, but for those that abbreviate one of the list."""
    for program in PROGRAMS:
        known = {piece for it in strings(crates_of(program)) for piece in pieces(it.text)} | set(FROM_THE_KIT)
        one = "|".join(map(re.escape, sorted(known, key=len, reverse=True)))
        several = re.compile(f"(?:{one})(?:[ ,:;/()]+(?:{one}))*")
        for it in (it for it in messages if it.program == program):
            if not any(other.program == program and it.covers(other.text) for other in others):
                for piece in pieces(it.text):
                    if not several.fullmatch(piece):
                        yield f"{it.place}: no text of {program} is so: {piece}"


def check_operating() -> Iterator[str]:
    """Each message of docs/OPERATING.md that has a piece of no string."""
    texts = "\n".join(it.text for program in PROGRAMS for it in strings(crates_of(program)))
    for it in operating_table():
        yield from (f"{it.place}: no program has a text {piece}" for piece in pieces(it.text) if piece not in texts)


def check_order(table: list[Message]) -> Iterator[str]:
    """Each message that belongs before the one above it, or is the same."""
    for above, it in zip(table, table[1:]):
        if above.text.casefold() >= it.text.casefold():
            yield f"{it.place}: this belongs above `{above.text}`, or is the same: {it.text}"


def check_twice(rows: list[Message], listed: list[Message]) -> Iterator[str]:
    """Each message of the list that the page has too."""
    there = {(it.section, it.text) for it in rows}
    for it in listed:
        if (it.section, it.text) in there:
            yield f"{it.place}: docs/MESSAGES.md has this message too: {it.text}"


def main() -> int:
    tables, lists = list(page_tables()), list(self_evident())
    rows, others = [it for table in tables for it in table], [it for section in lists for it in section]
    wrong = [line for table in (*tables, *lists) for line in check_order(table)]
    wrong += [*check_twice(rows, others), *check_strings([*rows, *others]), *check_messages([*rows, *others], others), *check_operating()]
    for line in wrong:
        print(line)
    print(f"{len(rows)} messages of docs/MESSAGES.md, {len(others)} of self_evident.txt, {len(wrong)} faults")
    return 1 if wrong else 0


if __name__ == "__main__":
    sys.exit(main())
