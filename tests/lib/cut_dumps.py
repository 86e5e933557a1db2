"""A dump of two volumes, request by request in a table, and the cuts of it with what follows from the table."""

from __future__ import annotations

from itertools import accumulate, takewhile
from typing import Iterator, NamedTuple


class Request(NamedTuple):
    """A request: its bytes but for the data, its reply, how many bytes of data follow it, and the entry that it leaves on the reel."""

    line: bytes
    reply: bytes
    data: int = 0
    entry: str = ""

    def sent(self) -> int:
        """How many bytes the client sends."""
        return len(self.line) + self.data


OPEN = Request(b"O/dev/st0\n2\n", b"A0\n")
REWIND = Request(b"I5\n1\n", b"A1\n")

# What a blank reel shows.
LOOK = Request(b"R1024\n", b"A0\n")
LABEL = BLOCK = Request(b"W1024\n", b"A1024\n", 1024, "R1024")
NO_ROOM = Request(b"W1024\n", b"A0\n", 1024)
MARK = Request(b"I0\n1\n", b"A1\n", 0, "M")
OFFLINE = Request(b"I6\n1\n", b"A1\n")
CLOSE = Request(b"C\n", b"A0\n")

# The dump, where nothing is cut: what each attempt sends, and is answered. All that is expected of a dump that is cut follows from this table.
ATTEMPTS = (
    (OPEN, REWIND, LOOK, REWIND, LABEL, BLOCK, BLOCK, NO_ROOM, MARK, OFFLINE, CLOSE),
    (OPEN, REWIND, LOOK, REWIND, LABEL, BLOCK, MARK, OFFLINE, CLOSE),
)
REELS = ("r1", "r2", "r3", "r4")
ENTRY = "/usr                             0 Tue Feb 29 00:00:00 2000"


def entries(requests: tuple[Request, ...]) -> list[str]:
    """What these requests leave on a reel that was rewound."""
    return [it.entry for it in requests if it.entry]


def blocks(volume: int) -> int:
    """How many blocks a volume has."""
    return entries(ATTEMPTS[volume - 1]).count(BLOCK.entry) - 1


def first_block(volume: int) -> int:
    return sum(blocks(it) for it in range(1, volume))


class Cut(NamedTuple):
    """The direction of an attempt, counted from 1, that is cut after so many bytes."""

    attempt: int
    to_server: bool
    passed: int

    def requests(self) -> tuple[Request, ...]:
        """What the attempt would send."""
        return ATTEMPTS[self.attempt - 1]

    def ends(self) -> list[int]:
        """After how many bytes of the direction each of its requests, or replies, ends."""
        return [*accumulate(it.sent() if self.to_server else len(it.reply) for it in self.requests())]

    def answered(self) -> tuple[Request, ...]:
        """The requests whose replies reach the client whole."""
        return self.requests()[: len([*takewhile(lambda end: end <= self.passed, self.ends())])]

    def rest(self) -> int:
        """How many bytes of the next request, or reply, are delivered."""
        return self.passed - [0, *self.ends()][len(self.answered())]

    def carried_out(self) -> tuple[Request, ...]:
        """The requests that the server carries out: where a reply is cut, its request, too."""
        return self.answered() if self.to_server else self.requests()[: len(self.answered()) + 1]

    def is_whole(self) -> bool:
        """Whether nothing of the attempt is lost."""
        return self.answered() == self.requests()

    def is_taken_away(self) -> bool:
        """Whether the reel goes to the bin."""
        return OFFLINE in self.carried_out()

    def is_counted(self) -> bool:
        """Whether the client counts the volume."""
        return OFFLINE in self.answered()

    def is_held(self) -> bool:
        """Whether the session still has the drive at the cut."""
        return OPEN in self.carried_out() and CLOSE not in self.carried_out()


def cuts(every: int, near: int) -> Iterator[Cut]:
    """Each cut after a multiple of so many bytes, and each that is so near to the beginning, or to an end of a request or a reply."""
    for attempt in range(1, len(ATTEMPTS) + 1):
        for to_server in (True, False):
            ends = [0, *Cut(attempt, to_server, 0).ends()]
            for passed in range(ends[-1] + 1):
                if passed % every == 0 or any(abs(passed - it) <= near for it in ends):
                    yield Cut(attempt, to_server, passed)
