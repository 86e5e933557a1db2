"""Stops the built server in each call that changes a reel's file, after each number of bytes, and has a healthy server read the reel then.

The call fails, or the server is killed in it. The entries before the place stand then, and after them what stood, nothing, or what was written:
that is written by hand for each write, and each of these has to be met.
"""

from __future__ import annotations

import signal
from typing import Iterator, NamedTuple

from tests.lib.drives import drive_words, folders
from tests.lib.ended import DONE
from tests.lib.shimmed import Ran, SiteCase
from tests.lib.wire import IO_ERROR
from tests.models.rmtd import Entry

# Two records, as a file.
STOOD = (b"abc", b"de")
FILE = bytes.fromhex("03000000 616263 03000000 02000000 6465 02000000")
MARK = None
OPEN = b"O/dev/st0\n2\n"
OPENED = b"A0\n"
# Only calls at files of the stack count.
PATH = "/st0/"
# A call that is interrupted is made again.
INTERRUPTED = "E4"

Entries = tuple[Entry, ...]


class Write(NamedTuple):
    """Requests of which the last one writes, the answers where all goes well, how many bytes it writes, and which entries may stand where it was
    stopped. The last of these are what it writes."""

    title: str
    requests: bytes
    answers: bytes
    size: int
    allowed: tuple[Entries, ...]

    def rules(self) -> Iterator[str]:
        """The call that cuts the file, where something stands after the place, and the one that writes to it fail or are the last: before a byte, or
        after each number of them."""
        if self.allowed[1][: len(STOOD)] != STOOD:
            yield from (f"ftruncate:1:{what}" for what in ("E5", "E28", "K"))
        yield from (f"writev:1:{what}" for what in ("E5", "E28", "K"))
        yield from (f"writev:1:k{moved}" for moved in range(self.size + 1))
        for moved in range(1, self.size):
            # The rest of what was cut short goes by one of these calls.
            yield from (f"writev:1:s{moved},writev:2:{what},write:1:{what}" for what in ("E5", "E28", "K", INTERRUPTED))

    def stands(self, read: bytes) -> int:
        """Which of the allowed entries a reel has of which this was read back, -1 if it has none of them."""
        texts = [read_back(it) for it in self.allowed]
        return texts.index(read) if read in texts else -1


RECORD_FOR_TWO = Write("a record in place of two", b"W1\nx", b"A1\n", 9, (STOOD, (), (b"x",)))
MARKS_FOR_TWO = Write("three marks in place of two records", b"I0\n3\n", b"A3\n", 12, (STOOD, (), (MARK,), (MARK,) * 2, (MARK,) * 3))
RECORD_AFTER_ONE = Write("a record after the first one", b"I3\n1\nW1\nx", b"A1\nA1\n", 9, (STOOD, (b"abc",), (b"abc", b"x")))
MARKS_AFTER_ONE = Write(
    "two marks after the first record", b"I3\n1\nI0\n2\n", b"A1\nA2\n", 8, (STOOD, (b"abc",), (b"abc", MARK), (b"abc", MARK, MARK))
)
RECORD_AT_THE_END = Write("a record at the end", b"I3\n2\nW2\nxy", b"A2\nA2\n", 10, (STOOD, (*STOOD, b"xy")))

READ_BACK = OPEN + b"R9\n" * 8 + b"I5\n1\n" + b"I1\n1\n" * 4


def read_back(entries: Entries) -> bytes:
    """What is answered of a reel with these entries: to an open, eight reads, a rewind, and going past four marks, one by one."""
    reads = [b"A%d\n" % len(it or b"") + (it or b"") for it in entries] + [b"A0\n"] * (8 - len(entries))
    marks = entries.count(MARK)
    return OPENED + b"".join(reads) + b"A1\n" + b"A1\n" * marks + IO_ERROR * (4 - marks)


class Stops(SiteCase):
    """A server that is stopped in a write, by each rule for it."""

    def tried(self, write: Write, rule: str) -> tuple[Ran[object], Ran[object]]:
        """What a server answers that meets this rule, and what a healthy one reads then."""
        with folders(r=FILE) as folder:
            words = (self.p.rmtd, "--stdio", *drive_words(folder))
            return self.p.run(words, rule, OPEN + write.requests, PATH), self.p.run(words, "", READ_BACK)

    def stopped(self, write: Write, rule: str) -> tuple[str, int]:
        """Stops the server by this rule. Returns what became of the write, and which of the allowed entries stand."""
        title = f"{write.title}, {rule}"
        got, then = self.tried(write, rule)
        stands = write.stands(then.output)
        self.holds(f"{title}: the reel", then.status == DONE and stands >= 0, got.shown(), then.shown())
        if got.status == -signal.SIGKILL:
            self.holds(f"{title}: nothing is answered", not got.output.startswith(OPENED + write.answers), got.shown())
            return "killed", stands
        if got.output == OPENED + write.answers:
            self.same(f"{title}: what is answered stands", (got.status, stands), (DONE, len(write.allowed) - 1), got.shown(), then.output)
            return "done", stands
        before = write.answers[: write.answers.rindex(b"A")]
        self.ends(f"{title}: a fault of the device", got, OPENED + before + IO_ERROR)
        return "failed", stands

    def stops(self, write: Write) -> None:
        """Stops the server everywhere in a write."""
        ways: dict[str, set[int]] = {"done": set(), "failed": set(), "killed": set()}
        for rule in write.rules():
            way, stands = self.stopped(write, rule)
            self.same(f"{write.title}, {rule}: it is met", way == "done", rule.endswith(INTERRUPTED), way)
            ways[way].add(stands)
        every = {*range(len(write.allowed))}
        self.same(f"{write.title}: each lawful outcome is met where the server is killed", ways["killed"], every, ways)
        self.same(f"{write.title}: each but the whole is met where the call fails", ways["failed"], every - {len(every) - 1}, ways)

    def test_record_in_place_of_two(self) -> None:
        self.stops(RECORD_FOR_TWO)

    def test_marks_in_place_of_two_records(self) -> None:
        self.stops(MARKS_FOR_TWO)

    def test_record_after_the_first(self) -> None:
        self.stops(RECORD_AFTER_ONE)

    def test_marks_after_the_first_record(self) -> None:
        self.stops(MARKS_AFTER_ONE)

    def test_record_at_the_end(self) -> None:
        self.stops(RECORD_AT_THE_END)
