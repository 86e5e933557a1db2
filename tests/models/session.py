"""Plain, slow drives, reels and sessions in which a device can fail: the server's half of the model of `rsim`.

A reel is a list of entries: a record as its bytes, a mark as None. Requests are read from all bytes that are there, from their beginning, each time
anew. A rule of a world can be turned off, by its name among `off`.
"""

from __future__ import annotations

from typing import Collection, NamedTuple

from tests.lib.given import given
from tests.models.rmtd import GREATEST_NUMBER, GREATEST_RECORD, LONGEST_LINE, TEXTS

Entry = bytes | None

# How a device call fails: what stood is kept, lost, or so much of what was being written stands.
Trouble = tuple[str, int]

ROOM = GREATEST_RECORD + 12
LINE_FEED, SPACE = 10, 32

# Rules of the server that can be turned off.
KEEPS_THE_OLD_TAIL = "keeps-the-old-tail"
STAYS_HELD = "stays-held-after-the-end"
TAKES_FROM_A_HOLDER = "takes-from-a-holder"
WRITES_A_PART = "writes-a-part-of-a-record"


# The wire.


class Fault(Exception):
    """A byte that no value can have there."""


class Unfinished(Exception):
    """The bytes end inside a value."""


class Request(NamedTuple):
    """A whole request. The numbers are those of its lines, in order; data are given where they are not too long."""

    letter: str
    device: bytes = b""
    numbers: tuple[int, ...] = ()
    data: bytes = b""


def end_of_line(data: bytes, at: int, start: int) -> int:
    """Where the line ends that began at `start`, looked for from `at` on."""
    end = data.find(b"\n", at, start + LONGEST_LINE + 1)
    if end >= 0:
        return end
    raise Fault if len(data) > start + LONGEST_LINE else Unfinished


def number_at(data: bytes, start: int, mode: bool = False, most: int = GREATEST_NUMBER) -> tuple[int, int]:
    """The number of a line, at most so great, and where the next line begins. In a mode a space and any text may stand after it."""
    value = 0
    for at in range(start, len(data)):
        byte = data[at]
        if 48 <= byte <= 57:
            value = 10 * value + byte - 48
            if at == start + 10 or value > most:
                raise Fault
        elif at > start and byte == LINE_FEED:
            return value, at + 1
        elif at > start and byte == SPACE and mode:
            return value, end_of_line(data, at, start) + 1
        else:
            raise Fault
    raise Unfinished


def first_request(data: bytes) -> tuple[Request, int]:
    """The request that the bytes begin with, and its length."""
    if not data:
        raise Unfinished
    letter = chr(data[0])
    if letter == "O":
        end = end_of_line(data, 1, 1)
        mode, length = number_at(data, end + 1, mode=True)
        return Request(letter, bytes(data[1:end]), (mode,)), length
    if letter == "C":
        return Request(letter), end_of_line(data, 1, 1) + 1
    if letter not in "WRI":
        raise Fault
    number, at = number_at(data, 1)
    if letter == "R":
        return Request(letter, b"", (number,)), at
    if letter == "I":
        count, length = number_at(data, at)
        return Request(letter, b"", (number, count)), length
    if len(data) < at + number:
        raise Unfinished
    return Request(letter, b"", (number,), bytes(data[at : at + number]) if number <= GREATEST_RECORD else b""), at + number


def room_beside(data: bytes) -> int:
    """How many bytes a reader takes beside these: the data of a first write that is too long take no room."""
    dropped = 0
    if data[:1] == b"W":
        try:
            number, at = number_at(data, 1)
            dropped = min(number, len(data) - at) if number > GREATEST_RECORD else 0
        except (Fault, Unfinished):
            dropped = 0
    return ROOM - (len(data) - dropped)


def first_reply(data: bytes, most: int | None = None) -> tuple[tuple[str, int], int]:
    """The letter and the number of the reply that the bytes begin with, and its length. A number is wanted, or at most so many bytes of data, which
    are the last ones of the reply then."""
    if not data:
        raise Unfinished
    letter = chr(data[0])
    if letter not in "AE":
        raise Fault
    number, at = number_at(data, 1, most=GREATEST_NUMBER if most is None or letter == "E" else most)
    if letter == "A":
        length = at if most is None else at + number
        if len(data) < length:
            raise Unfinished
        return (letter, number), length
    end = data.find(b"\n", at)
    if end < 0:
        raise Unfinished
    return (letter, number), end + 1


def done(number: int) -> bytes:
    return b"A%d\n" % number


def error(number: int) -> bytes:
    return b"E%d\n%s\n" % (number, TEXTS[number])


# Reels and drives.


def size(entry: Entry) -> int:
    """The bytes that an entry takes of a capacity."""
    return 4 if entry is None else len(entry) + 8


class Reel:
    """Entries, and how many bytes there is room for."""

    def __init__(self, name: bytes, capacity: int) -> None:
        self.name = name
        self.capacity = capacity
        self.entries: list[Entry] = []
        self.offsets = [0]

    def put(self, place: int, entries: list[Entry], keeps: bool = False) -> None:
        """These entries stand at the place, and nothing after them, but where a broken rule keeps what stood there."""
        tail = self.entries[place + len(entries) :] if keeps else []
        del self.entries[place:]
        del self.offsets[place + 1 :]
        for it in entries + tail:
            self.entries.append(it)
            self.offsets.append(self.offsets[-1] + size(it))


class Drive:
    """A stack of reels, and the number of the session that holds the drive, 0 where none does."""

    def __init__(self, name: bytes, stack: list[Reel]) -> None:
        self.name = name
        self.stack = stack
        self.holder = 0


class Shop:
    """Drives by their names, and the bin."""

    def __init__(self, drives: list[Drive], off: Collection[str] = ()) -> None:
        self.drives = {it.name: it for it in drives}
        self.bin: list[Reel] = []
        self.off = frozenset(off)


# The session.


class Session:
    """One connection at the server: nothing open, or a drive with an access and a reel that is online at a place, or offline."""

    def __init__(self, shop: Shop, number: int) -> None:
        self.shop = shop
        self.number = number
        self.drive: Drive | None = None
        self.access = 0
        self.reel: Reel | None = None
        self.place = 0
        self.failed = False

    def end(self, held: bool = False) -> None:
        """Closes what is open."""
        if self.drive and not held:
            self.drive.holder = 0
        self.drive = self.reel = None

    def end_of_input(self, rest: bytes) -> None:
        """The connection is over, with these bytes of an unfinished request."""
        if WRITES_A_PART in self.shop.off:
            self.write_a_part(rest)
        self.end(STAYS_HELD in self.shop.off)

    def write_a_part(self, rest: bytes) -> None:
        """What a server does that carries out what came of a record."""
        try:
            number, at = number_at(rest, 1) if rest[:1] == b"W" else (0, 0)
        except (Fault, Unfinished):
            return
        if at < len(rest) < at + number and self.drive and self.reel and self.access and number <= GREATEST_RECORD:
            self.write(bytes(rest[at:]), None)

    def carry_out(self, request: Request, trouble: Trouble | None) -> bytes:
        """The reply to a request. `failed` tells then whether a device call of it failed."""
        self.failed = False
        if request.letter == "O":
            return self.open(request.device, request.numbers[0] % 4, trouble)
        if not self.drive:
            return error(9)
        if request.letter == "C":
            self.end()
            return done(0)
        if not self.reel:
            return error(6)
        if request.letter == "W":
            return self.asked_to_write(request.numbers[0], request.data, trouble)
        if request.letter == "R":
            return self.read(request.numbers[0], trouble)
        operation, count = request.numbers
        return self.operation(operation, count, trouble)

    def fails(self, trouble: Trouble | None) -> bool:
        """A device call: whether it fails."""
        self.failed = trouble is not None
        return self.failed

    def open(self, device: bytes, access: int, trouble: Trouble | None) -> bytes:
        self.end()
        drive = self.shop.drives.get(device)
        if access == 3:
            return error(22)
        if not drive:
            return error(2)
        if drive.holder and TAKES_FROM_A_HOLDER not in self.shop.off:
            return error(16)
        if not drive.stack:
            return error(6)
        if self.fails(trouble):
            return error(5)
        drive.holder = self.number
        self.drive, self.access, self.reel, self.place = drive, access, drive.stack[0], 0
        return done(0)

    def asked_to_write(self, count: int, data: bytes, trouble: Trouble | None) -> bytes:
        if self.access == 0:
            return error(9)
        if not 1 <= count <= GREATEST_RECORD:
            return error(22)
        if not self.write(data, trouble):
            return done(0)
        return error(5) if self.failed else done(count)

    def write(self, data: bytes, trouble: Trouble | None) -> bool:
        """Whether there was room for a record."""
        reel = given(self.reel)
        if reel.offsets[self.place] + len(data) + 12 > reel.capacity:
            return False
        self.put([data], trouble)
        return True

    def put(self, entries: list[Entry], trouble: Trouble | None) -> None:
        """Writes at the place, as far as the trouble lets it."""
        self.failed = trouble is not None
        if trouble is None:
            given(self.reel).put(self.place, entries, KEEPS_THE_OLD_TAIL in self.shop.off)
            self.place += len(entries)
        elif trouble[0] != "kept":
            given(self.reel).put(self.place, entries[: trouble[1]])

    def read(self, count: int, trouble: Trouble | None) -> bytes:
        if self.access == 1:
            return error(9)
        if count == 0:
            return error(22)
        if self.fails(trouble):
            return error(5)
        entries = given(self.reel).entries
        if self.place == len(entries):
            return done(0)
        data = (entries[self.place] or b"")[:count]
        self.place += 1
        return done(len(data)) + data

    def operation(self, operation: int, count: int, trouble: Trouble | None) -> bytes:
        if operation > 7:
            return error(22)
        if operation == 0:
            return self.mark(count, trouble)
        if operation == 5:
            self.place = 0
        if operation == 6:
            return self.take_offline(count, trouble)
        if operation in (5, 7) or count == 0:
            return done(count)
        if self.fails(trouble):
            return error(5)
        return done(count) if self.space(operation, count) else error(5)

    def mark(self, count: int, trouble: Trouble | None) -> bytes:
        if self.access == 0:
            return error(13)
        reel = given(self.reel)
        if reel.offsets[self.place] + 4 * count > reel.capacity:
            return error(28)
        if count:
            self.put([None] * count, trouble)
        return error(5) if self.failed else done(count)

    def take_offline(self, count: int, trouble: Trouble | None) -> bytes:
        self.place = 0
        if self.fails(trouble):
            return error(5)
        reel = given(self.reel)
        given(self.drive).stack.remove(reel)
        self.shop.bin.append(reel)
        self.reel = None
        return done(count)

    def space(self, operation: int, count: int) -> bool:
        """Spaces over marks (1 forward, 2 back) or records (3 forward, 4 back); whether there were so many."""
        entries = given(self.reel).entries
        marks = [at for at, it in enumerate(entries) if it is None]
        ahead = [it for it in marks if it >= self.place]
        behind = [it for it in marks if it < self.place]
        if operation == 1:
            self.place, there = (ahead[count - 1] + 1, True) if count <= len(ahead) else (len(entries), False)
        elif operation == 2:
            self.place, there = (behind[-count], True) if count <= len(behind) else (0, False)
        elif operation == 3:
            end = ahead[0] if ahead else len(entries)
            there = self.place + count <= end
            self.place = self.place + count if there else min(end + 1, len(entries))
        else:
            begin = behind[-1] + 1 if behind else 0
            there = self.place - count >= begin
            self.place = self.place - count if there else max(begin - 1, 0)
        return there
