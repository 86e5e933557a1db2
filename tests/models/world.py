"""A plain, slow world of a tape server, a dump client and strangers: what `rsim` is checked against, and a double of it.

    python3 -m tests.models.world [--off RULE] FILE

Bytes on the way are queues, an event is a method, and one that is not possible raises `NotPossible` and changes nothing. Of each client's
connection it is written down what was sent and answered and which writes were accepted; of each accepted open for writing what the client had
counted then; and of each write in which session and on which reel it was carried out; so that `headline.py` can look at it afterwards.
With `--off` the double breaks one rule, so that the checks themselves are tried on it.
"""

from __future__ import annotations

import sys
from collections import Counter
from datetime import datetime, timedelta
from typing import Callable, Collection, Iterator, NamedTuple

from tests.lib.given import given
from tests.models.rmtd import GREATEST_NUMBER, GREATEST_RECORD
from tests.models.session import Drive, Entry, Fault, Reel, Request, Session, Shop, Trouble, Unfinished, first_reply, first_request, room_beside

DONE, FAILED, NO_MEMORY = 0, 1, 3
GREATEST = 9_223_372_036_854_775_807
LAST_SECOND = 253_402_300_799
LABEL_LENGTH = 1_024
MOST_DRIVES = 64
LONGEST_NAME = 255
LONGEST_REEL = 32
EPOCH = datetime(1970, 1, 1)
WEEKDAYS = "Mon Tue Wed Thu Fri Sat Sun".split()
MONTHS = "Jan Feb Mar Apr May Jun Jul Aug Sep Oct Nov Dec".split()

# Rules of the client and of the world that can be turned off.
COUNTS_AT_THE_MARK = "counts-at-the-mark"
ENTERS_A_PART = "enters-an-unfinished-run"
LISTS_NO_OPEN = "does-not-list-an-open"
LISTS_NO_WRITE = "does-not-list-a-write"
LOOKS_AT_NO_LABEL = "looks-at-no-label"
TAKES_A_SMALLER_NUMBER = "takes-a-smaller-number"
A_COUNT_MORE = "comes-back-with-a-count-more"
KEEPS_AN_ENTERED_RUN = "keeps-a-run-that-was-entered"
KEEPS_OVER_A_NEW_RUN = "keeps-over-a-new-run"


# The client.


class Run(NamedTuple):
    """What is dumped. The bytes of block i are each i modulo 256."""

    device: bytes
    name: bytes
    level: int
    date: int
    since: int
    block: int
    blocks: int

    def is_lawful(self) -> bool:
        """Whether a client takes it."""
        return (
            1 <= len(self.device) <= LONGEST_NAME
            and b"\n" not in self.device
            and 1 <= len(self.name) <= LONGEST_NAME
            and is_printed(self.name)
            and self.level <= 9
            and max(self.date, self.since) <= LAST_SECOND
            and 1 <= self.block <= GREATEST_RECORD
            and self.blocks <= GREATEST_NUMBER
        )

    def label(self, volume: int, first: int) -> bytes:
        lines = b"name %s\nlevel %d\ndate %d\nsince %d\nvolume %d\nfirst %d\n"
        return (lines % (self.name, self.level, self.date, self.since, volume, first)).ljust(LABEL_LENGTH, b"\0")

    def record(self, block: int) -> bytes:
        return bytes((block % 256,)) * self.block

    def volume(self, volume: int, first: int, count: int) -> list[Entry]:
        """What a reel holds that has this volume and nothing else."""
        return [self.label(volume, first), *map(self.record, range(first, first + count)), None]


def is_printed(text: bytes) -> bool:
    return all(33 <= it <= 126 for it in text)


class Volume(NamedTuple):
    """A volume: its number, its first block, and how many blocks it has."""

    volume: int
    first: int
    blocks: int


# The requests of an attempt, in order, and their letters.
OPEN, REWIND, LOOK, REWIND_AGAIN, LABEL, BLOCK, MARK, OFFLINE, CLOSE = range(1, 10)
LETTERS = "OIRIWWIIC"


class Client:
    """A run, what is counted of it, and the attempt at a volume."""

    def __init__(self, number: int, run: Run, off: Collection[str]) -> None:
        self.number = number
        self.run = run
        self.off = off
        self.state = "Ready"
        self.counted: list[Volume] = []
        self.entered = False
        self.volume, self.first = 1, 0
        self.step, self.written, self.heard = OPEN, 0, b""

    def checkpoint(self) -> tuple[int, int]:
        """The volume and the first block of the next attempt."""
        return len(self.counted) + 1, sum(it.blocks for it in self.counted)

    def is_complete(self) -> bool:
        return bool(self.counted) and self.checkpoint()[1] == self.run.blocks

    def start(self) -> None:
        self.volume, self.first = self.checkpoint()
        self.state, self.step, self.written, self.heard = "ToSend", OPEN, 0, b""

    def reads_a_block(self) -> bool:
        """Whether the next request needs a block."""
        return self.step == BLOCK

    def next_request(self) -> bytes:
        self.state = "Waiting"
        if self.step == OPEN:
            return b"O%s\n2\n" % self.run.device
        if self.step in (LABEL, BLOCK):
            label = self.step == LABEL
            data = self.run.label(self.volume, self.first) if label else self.run.record(self.first + self.written)
            return b"W%d\n%s" % (len(data), data)
        if self.step == LOOK:
            return b"R%d\n" % LABEL_LENGTH
        return {REWIND: b"I5\n1\n", REWIND_AGAIN: b"I5\n1\n", MARK: b"I0\n1\n", OFFLINE: b"I6\n1\n", CLOSE: b"C\n"}[self.step]

    def most(self) -> int | None:
        """How many bytes of data the reply has at most that is wanted; None where a number is wanted."""
        return LABEL_LENGTH if self.step == LOOK else None

    def feed(self, piece: bytes) -> str | None:
        """The bytes of answers: the fault where the attempt fails by them. The state tells all else."""
        if self.state == "ToSend":
            return self.over("Botched")
        self.heard += piece
        try:
            (letter, number), length = first_reply(self.heard, self.most())
        except Unfinished:
            return None
        except Fault:
            return self.over("Botched")
        if self.step == CLOSE:
            return self.over("")
        reply, rest, self.heard = self.heard[:length], self.heard[length:], b""
        fault = self.shown(reply[length - number :]) if (self.step, letter) == (LOOK, "A") else self.answered(letter, number)
        if fault:
            return self.over(fault)
        self.state = "ToSend"
        return self.feed(rest) if rest else None

    def over(self, fault: str) -> str | None:
        """The attempt is over: it failed, but where its volume is counted. Answers the fault."""
        if self.step != CLOSE:
            self.state = "Asking"
            return fault
        self.state = "Finished" if self.is_complete() else "Ready"
        return None

    def shown(self, data: bytes) -> str | None:
        """The first record of the reel: the attempt fails where it is the label of a volume that is counted."""
        for it in [] if LOOKS_AT_NO_LABEL in self.off else self.counted:
            if data == self.run.label(it.volume, it.first):
                return f"CountedReel {it.volume}"
        self.step = REWIND_AGAIN
        return None

    def answered(self, letter: str, number: int) -> str | None:
        """A whole answer to one of the requests before the close: the next step, or the fault."""
        done = letter == "A"
        if self.step in (LABEL, BLOCK):
            return self.answered_to_a_write(done, number)
        if not done:
            return f"Refused {number}"
        if self.step != OPEN and number != 1:
            return "Botched"
        if self.step == OFFLINE or (self.step == MARK and COUNTS_AT_THE_MARK in self.off):
            self.count()
        if self.step != CLOSE:
            self.step += 1
        return None

    def count(self) -> None:
        """The volume is counted, once."""
        if self.checkpoint() == (self.volume, self.first):
            self.counted.append(Volume(self.volume, self.first, self.written))

    def answered_to_a_write(self, done: bool, number: int) -> str | None:
        length = LABEL_LENGTH if self.step == LABEL else self.run.block
        if (done and number == 0) or (not done and number == 28):
            if TAKES_A_SMALLER_NUMBER not in self.off or not done:
                if not self.written:
                    return "ReelTooSmall"
                self.step = MARK
                return None
        elif not done:
            return f"Refused {number}"
        elif number != length:
            return "ShortWrite"
        self.written += self.step == BLOCK
        self.step = BLOCK if self.first + self.written < self.run.blocks else MARK
        return None


# The world.


class NotPossible(Exception):
    """An event that cannot come here."""


class Link:
    """A connection: the bytes on the way both ways, those that reached the session, the session, and which sides are live.

    Of the client's it is written down of which run and volume it is, what was sent and answered, what the look showed, which writes were accepted,
    and which reel.
    """

    def __init__(self, number: int, session: Session, client: Client | None) -> None:
        self.number = number
        self.session = session
        self.toward, self.back, self.reached = bytearray(), bytearray(), bytearray()
        self.cut = False
        self.server_live = self.other_live = True
        self.is_mine = client is not None
        self.run_number = client.number if client else 0
        self.volume, self.first = client.checkpoint() if client else (0, 0)
        self.sent: list[bytes] = []
        self.got: list[tuple[str, int]] = []
        self.shown: bytes | None = None
        self.carried = 0
        self.reel: Reel | None = None
        self.accepted: list[Entry] = []
        self.write_failed = False

    def is_over(self) -> bool:
        """Whether no event but a refused one can come here."""
        return not self.server_live and not self.other_live

    def server_ends(self) -> None:
        """The server's side is over, and what was on the way to it is lost."""
        self.session.end_of_input(bytes(self.reached))
        self.server_live = False
        self.reached.clear()
        self.toward.clear()


class Count(NamedTuple):
    run: int
    volume: Volume
    reel: Reel
    link: int


class Opening(NamedTuple):
    """An accepted open for writing: of which connection and reel, and what the client had counted then."""

    link: int
    reel: Reel
    listed: tuple[Volume, ...]


class Writing(NamedTuple):
    """A write, of a record or of marks, that a session carried out on the reel that it has open for writing, after so many of these openings."""

    link: int
    reel: Reel
    after: int


class Listed(NamedTuple):
    """A run by its number, and what its client had counted: as it was entered, or as it was kept."""

    run: int
    counts: tuple[Volume, ...]


class World:
    """The server with its drives, all connections, at most one client, and what has been written down."""

    def __init__(self, drives: list[Drive], off: Collection[str] = ()) -> None:
        self.off = frozenset(off)
        self.shop = Shop(drives, off)
        self.reels = [reel for drive in drives for reel in drive.stack]
        self.links: list[Link] = []
        self.alive: dict[int, Link] = {}
        self.runs: list[Run] = []
        self.client: Client | None = None
        self.own: Link | None = None
        self.counts: list[Count] = []
        self.opens: list[Opening] = []
        self.writings: list[Writing] = []
        self.entered: list[Listed] = []
        self.kept: Listed | None = None
        self.dates: list[tuple[bytes, int, int]] = []
        self.failures: list[tuple[int, str]] = []
        self.seen: Counter[str] = Counter()

    def link(self, number: int, live: str = "") -> Link:
        """The connection of this number, whose side of this name is live."""
        if not 1 <= number <= len(self.links) or (live and not getattr(self.links[number - 1], live)):
            raise NotPossible
        return self.links[number - 1]

    def state(self) -> str:
        return self.client.state if self.client else "none"

    def begun(self, client: Client | None) -> Link:
        """A new connection."""
        number = len(self.links) + 1
        link = Link(number, Session(self.shop, number), client)
        self.links.append(link)
        self.alive[number] = link
        return link

    def saw(self, what: str) -> None:
        """An event was made, or a request answered, of this kind."""
        self.seen[what] += 1

    def forget(self, link: Link) -> None:
        if link.is_over():
            self.alive.pop(link.number, None)

    # What the client and its operator do.

    def start_run(self, run: Run) -> None:
        if self.state() not in ("none", "Finished", "Abandoned"):
            raise NotPossible
        self.runs.append(run)
        self.client = Client(len(self.runs), run, self.off)
        if KEEPS_OVER_A_NEW_RUN not in self.off:
            self.kept = None

    def connect(self) -> None:
        if self.state() != "Ready":
            raise NotPossible
        self.own = self.begun(self.client)
        given(self.client).start()

    def send(self, fails: bool = False) -> None:
        if self.state() != "ToSend":
            raise NotPossible
        client, own = given(self.client), given(self.own)
        if fails and client.reads_a_block():
            self.after_the_client(client.over("SourceFault"))
            return
        text = client.next_request()
        own.sent.append(text)
        if not own.cut:
            own.toward += text

    def answer(self, state: str) -> None:
        if self.state() != "Asking":
            raise NotPossible
        given(self.client).state = state
        if state == "Abandoned":
            self.kept = None

    def is_entered(self) -> bool:
        """Whether the client's run is finished and entered."""
        return self.state() == "Finished" and given(self.client).entered

    def can_be_kept(self) -> bool:
        """Whether there is a run that was not abandoned, nor finished and entered."""
        return bool(self.client) and self.state() != "Abandoned" and not self.is_entered()

    def save(self) -> None:
        """The run is kept, with what is counted of it now."""
        if not self.can_be_kept():
            raise NotPossible
        client = given(self.client)
        self.kept = Listed(client.number, tuple(client.counted))

    def client_restart(self) -> None:
        """The client is gone. The run that is kept comes back with what was counted of it when it was kept."""
        if not self.client:
            raise NotPossible
        self.hang_up()
        self.client = self.come_back(self.kept) if self.kept else None

    def come_back(self, kept: Listed) -> Client:
        client = Client(kept.run, self.runs[kept.run - 1], self.off)
        client.counted = [*kept.counts]
        if A_COUNT_MORE in self.off and client.checkpoint()[1] < client.run.blocks:
            client.counted.append(Volume(*client.checkpoint(), 1))
        client.state = "Finished" if client.is_complete() else "Ready"
        newer = sum(it.run == kept.run for it in self.counts) > len(kept.counts)
        self.saw(f"event a run comes back{' with fewer counts than were made' if newer else ''}")
        return client

    def can_be_entered(self) -> bool:
        """Whether the run is finished, which a broken rule does not ask, and was not entered."""
        if not self.client or self.client.entered:
            return False
        part = ENTERS_A_PART in self.off and bool(self.client.counted)
        return self.client.state == "Finished" or part

    def enter(self) -> None:
        if not self.can_be_entered():
            raise NotPossible
        client = given(self.client)
        client.entered = True
        self.entered.append(Listed(client.number, tuple(client.counted)))
        if KEEPS_AN_ENTERED_RUN not in self.off:
            self.kept = None
        run = client.run
        self.dates = entered(self.dates, (run.name, run.level, run.date))

    def hang_up(self) -> None:
        """The client's side of its connection is over."""
        if self.own:
            self.own.cut = True
            self.own.other_live = False
            self.forget(self.own)
            self.own = None

    def after_the_client(self, fault: str | None) -> None:
        """What follows where the client has moved: a failure, or the end of its attempt."""
        client = given(self.client)
        if fault:
            self.failures.append((client.volume, fault))
            self.saw("failed CountedReel" if fault.startswith("CountedReel") else f"failed {fault}")
        if client.state in ("Asking", "Ready", "Finished"):
            self.hang_up()

    # What strangers and the operator of the server do.

    def stranger(self) -> None:
        self.begun(None)

    def says(self, number: int, data: bytes) -> None:
        link = self.link(number, "other_live")
        if link.is_mine:
            raise NotPossible
        if not link.cut:
            link.toward += data

    def arrange(self, device: bytes, names: list[bytes]) -> None:
        drive = self.shop.drives.get(device)
        if not drive or drive.holder:
            raise NotPossible
        there = {it.name: it for it in drive.stack + self.shop.bin}
        if len(set(names)) < len(names) or not there.keys() >= set(names):
            raise NotPossible
        old = drive.stack
        drive.stack = [there[it] for it in names]
        self.shop.bin = [it for it in self.shop.bin + old if it not in drive.stack]

    # What happens on the way.

    def on_way(self, number: int) -> tuple[int, int]:
        """How many bytes can be delivered now to the server and to the other side."""
        link = self.link(number)
        here = min(len(link.toward), room_beside(link.reached)) if link.server_live else 0
        return here, len(link.back) if link.other_live else 0

    def to_server(self, number: int, count: int | None) -> None:
        link = self.link(number, "server_live")
        most = self.on_way(number)[0]
        count = most if count is None else count
        if not 1 <= count <= most:
            raise NotPossible
        link.reached += link.toward[:count]
        del link.toward[:count]

    def to_client(self, number: int, count: int | None) -> None:
        link = self.link(number, "other_live")
        count = len(link.back) if count is None else count
        if not 1 <= count <= len(link.back):
            raise NotPossible
        piece = bytes(link.back[:count])
        del link.back[:count]
        if link.is_mine:
            self.feed(link, piece)

    def feed(self, link: Link, piece: bytes) -> None:
        """Bytes come to the client."""
        client = given(self.client)
        counted = len(client.counted)
        self.note_reply(link, client, piece)
        fault = client.feed(piece)
        if len(client.counted) > counted:
            self.counts.append(Count(client.number, client.counted[-1], given(link.reel), link.number))
        self.after_the_client(fault)

    def note_reply(self, link: Link, client: Client, piece: bytes) -> None:
        """Writes down a reply that is waited for and is whole with this piece."""
        heard = client.heard + piece if client.state == "Waiting" else b""
        try:
            reply, length = first_reply(heard, client.most())
        except (Fault, Unfinished):
            return
        link.got.append(reply)
        if (client.step, reply[0]) == (LOOK, "A"):
            link.shown = heard[length - reply[1] : length]
        self.saw(f"told {LETTERS[client.step - 1]} {reply[0]}")

    def cut(self, number: int) -> None:
        link = self.link(number)
        if link.cut:
            raise NotPossible
        link.cut = True

    def end_at_server(self, number: int) -> None:
        link = self.link(number, "server_live")
        if not link.cut:
            raise NotPossible
        link.server_ends()
        self.forget(link)

    def end_at_client(self, number: int) -> None:
        link = self.link(number, "other_live")
        if not link.cut:
            raise NotPossible
        if link.is_mine:
            self.after_the_client(given(self.client).over("ConnectionEnded"))
        link.back.clear()
        link.other_live = False
        self.forget(link)

    def server_restart(self) -> None:
        for link in [*self.alive.values()]:
            link.cut = True
            if link.server_live:
                link.server_ends()
            self.forget(link)

    # What the server does.

    def serve(self, number: int, trouble: Trouble | None = None) -> None:
        link = self.link(number, "server_live")
        try:
            request, length = first_request(link.reached)
        except Unfinished:
            raise NotPossible from None
        except Fault:
            self.saw("answered a fault with an end")
            link.cut = True
            link.server_ends()
            self.forget(link)
            return
        reply = link.session.carry_out(request, trouble)
        del link.reached[:length]
        self.note_request(link, request, reply)
        if not link.cut:
            link.back += reply

    def note_request(self, link: Link, request: Request, reply: bytes) -> None:
        """Writes down an open for writing, a write and, of the client's, what was accepted."""
        session = link.session
        letter, number = first_reply(reply)[0]
        asked = request.letter + (str(min(request.numbers[0], 8)) if request.letter == "I" else "")
        self.saw(f"{asked} {letter}{number if letter == 'E' or number == 0 else 'n'}{' failing' * session.failed}")
        if request.letter == "O" and letter == "A":
            listed = request.numbers[0] % 4 != 0 and not (LISTS_NO_OPEN in self.off and session.access == 1)
            if listed:
                self.opens.append(Opening(link.number, given(session.reel), tuple(self.client.counted) if self.client else ()))
            link.reel = session.reel
        written_on = session.reel if session.drive and session.access in (1, 2) else None
        if written_on and (request.letter == "W" or asked == "I0") and not (LISTS_NO_WRITE in self.off and not link.is_mine):
            self.writings.append(Writing(link.number, written_on, len(self.opens)))
        link.carried += 1
        if not link.is_mine:
            return
        if request.letter == "W" and (letter, number) == ("A", len(request.data)):
            link.accepted.append(request.data)
        elif request.letter == "I" and request.numbers[0] == 0 and letter == "A":
            link.accepted += [None] * number
        elif (request.letter == "W" or asked == "I0") and session.failed:
            link.write_failed = True


def entered(dates: list[tuple[bytes, int, int]], entry: tuple[bytes, int, int]) -> list[tuple[bytes, int, int]]:
    """These entries with this one in place of the first of its name and level, and without further ones of them."""
    same = [at for at, it in enumerate(dates) if it[:2] == entry[:2]]
    rest = [entry if at == same[0] else it for at, it in enumerate(dates) if at not in same[1:]] if same else [*dates, entry]
    return rest


def written(entry: tuple[bytes, int, int]) -> bytes:
    """The line of an entry in dumpdates."""
    name, level, seconds = entry
    at = EPOCH + timedelta(seconds=seconds)
    ctime = f"{WEEKDAYS[at.weekday()]} {MONTHS[at.month - 1]} {at.day:2} {at:%H:%M:%S} {at.year}"
    return b"%s %d %s" % (name.ljust(32), level, ctime.encode())


def shown(entry: Entry) -> bytes:
    return b"M" if entry is None else b"R%d" % len(entry)


def report(world: World) -> Iterator[bytes]:
    """What is printed at the end, line by line."""
    for reel in world.reels:
        yield b" ".join((b"reel", reel.name, *map(shown, reel.entries)))
    for drive in world.shop.drives.values():
        yield b" ".join((b"stack", drive.name, *(it.name for it in drive.stack)))
    yield b" ".join((b"bin", *(it.name for it in world.shop.bin)))
    for run, volume, reel, _ in world.counts:
        yield b"counted %d %d %d %d %s" % (run, *volume, reel.name)
    yield b"dumpdates"
    yield from map(written, world.dates)


# Schedules.


class BadLine(Exception):
    """A line that is none of a schedule's."""


def number_of(field: bytes) -> int:
    """A number within its limit, in digits."""
    digits = field.lstrip(b"0")
    if not field.isdigit() or len(digits) > 19 or int(digits or b"0") > GREATEST:
        raise BadLine
    return int(digits or b"0")


def count_of(field: bytes) -> int | None:
    """How many bytes: None for all."""
    return None if field == b"all" else number_of(field)


def device_of(field: bytes) -> bytes:
    if not 1 <= len(field) <= LONGEST_NAME or not field.isascii():
        raise BadLine
    return field


def reel_of(field: bytes) -> bytes:
    if not 1 <= len(field) <= LONGEST_REEL or not is_printed(field):
        raise BadLine
    return field


def data_of(field: bytes) -> bytes:
    """Bytes spelled by pairs of digits."""
    if not field or len(field) % 2 or field.strip(b"0123456789abcdef"):
        raise BadLine
    return bytes.fromhex(field.decode())


def trouble_of(fields: list[bytes]) -> Trouble | None:
    if not fields:
        return None
    if fields in ([b"kept"], [b"lost"]):
        return fields[0].decode(), 0
    if len(fields) == 2 and fields[0] == b"written":
        return "written", number_of(fields[1])
    raise BadLine


Event = Callable[[], None]


class Schedule:
    """A world that lines drive, and what is printed of its failed attempts."""

    def __init__(self, off: Collection[str] = ()) -> None:
        self.off = off
        self.drives: list[Drive] = []
        self.made: World | None = None

    def world(self) -> World:
        """The world, once the lines of its drives were read."""
        if not self.drives:
            raise BadLine
        if not self.made:
            self.made = World(self.drives, self.off)
        return self.made

    def line(self, text: bytes) -> None:
        """Carries a line out."""
        if not text or text.startswith(b"#"):
            return
        fields = text.split(b" ")
        if fields[0] == b"drive":
            self.drive(fields[1:])
            return
        event = self.event(fields[0].decode("latin-1"), fields[1:])
        event()
        self.world().saw(f"event {kind_of(fields)}")

    def drive(self, fields: list[bytes]) -> None:
        if self.made or len(fields) < 2 or len(self.drives) == MOST_DRIVES:
            raise BadLine
        device, capacity, names = device_of(fields[0]), number_of(fields[1]), [reel_of(it) for it in fields[2:]]
        taken = {reel.name for drive in self.drives for reel in drive.stack}
        if any(it.name == device for it in self.drives) or taken & set(names) or len(set(names)) < len(names):
            raise BadLine
        self.drives.append(Drive(device, [Reel(it, capacity) for it in names]))

    def event(self, word: str, fields: list[bytes]) -> Event:
        """What a line does that has its shape."""
        world = self.world()
        alone: dict[str, Event] = {
            "connect": world.connect,
            "send": world.send,
            "restart-server": world.server_restart,
            "restart-client": world.client_restart,
            "save": world.save,
            "retry": lambda: world.answer("Ready"),
            "abandon": lambda: world.answer("Abandoned"),
            "stranger": world.stranger,
            "enter": world.enter,
        }
        if word in alone and not fields:
            return alone[word]
        if word == "send" and fields == [b"fault"]:
            return lambda: world.send(True)
        if word == "run" and len(fields) == 7:
            run = Run(device_of(fields[0]), fields[1], *map(number_of, fields[2:]))
            if run.is_lawful():
                return lambda: world.start_run(run)
        if word == "arrange" and fields:
            device, names = device_of(fields[0]), [reel_of(it) for it in fields[1:]]
            return lambda: world.arrange(device, names)
        if not fields:
            raise BadLine
        return self.event_of(word, number_of(fields[0]), fields[1:])

    def event_of(self, word: str, number: int, fields: list[bytes]) -> Event:
        """What a line does that speaks of a connection."""
        world = self.world()
        ends = {"cut": world.cut, "end-server": world.end_at_server, "end-client": world.end_at_client}
        if word in ends and not fields:
            return lambda: ends[word](number)
        if word == "serve":
            trouble = trouble_of(fields)
            return lambda: world.serve(number, trouble)
        if len(fields) != 1:
            raise BadLine
        if word in ("to-server", "to-client"):
            count = count_of(fields[0])
            return lambda: (world.to_server if word == "to-server" else world.to_client)(number, count)
        if word == "says":
            data = data_of(fields[0])
            return lambda: world.says(number, data)
        if word == "pump":
            rounds = number_of(fields[0])
            return lambda: self.pump(number, rounds)
        raise BadLine

    def pump(self, number: int, rounds: int) -> None:
        """So many rounds on a connection, up to one without an event."""
        world = self.world()
        if not 1 <= number <= len(world.links):
            return
        events: tuple[Event, ...] = (
            lambda: self.send_on(number),
            lambda: world.to_server(number, None),
            lambda: world.serve(number),
            lambda: world.to_client(number, None),
        )
        while rounds and [it for it in events if happened(it)]:
            rounds -= 1

    def send_on(self, number: int) -> None:
        world = self.world()
        if not world.own or world.own.number != number:
            raise NotPossible
        world.send()

    def failed(self) -> bytes:
        """The failed attempts so far, as they are printed."""
        failures = self.made.failures if self.made else []
        return b"".join(b"volume %d failed: %s\n" % (volume, fault.encode()) for volume, fault in failures)


def happened(event: Event) -> bool:
    """Makes an event where it is possible."""
    try:
        event()
    except NotPossible:
        return False
    return True


WORDS = frozenset((b"all", b"fault", b"kept", b"lost", b"written"))


def kind_of(fields: list[bytes]) -> str:
    """The kind of a line: its first word, and those that are no name and no number."""
    return b" ".join((fields[0], *(it for it in fields[2:] or fields[1:] if it in WORDS))).decode()


class Outcome(NamedTuple):
    """What is printed, and the status."""

    output: bytes
    status: int


def lines_of(text: bytes) -> list[bytes]:
    lines = text.split(b"\n")
    return lines if lines[-1] else lines[:-1]


def outcome(text: bytes, off: Collection[str] = ()) -> Outcome:
    """What `rsim` does with a file of this text."""
    schedule = Schedule(off)
    for number, line in enumerate(lines_of(text), 1):
        try:
            schedule.line(line)
        except BadLine:
            return Outcome(schedule.failed() + b"line %d: bad line\n" % number, FAILED)
        except NotPossible:
            return Outcome(schedule.failed() + b"line %d: not possible\n" % number, FAILED)
    return at_the_end(schedule)


def at_the_end(schedule: Schedule) -> Outcome:
    """What is printed after the last line."""
    if not schedule.drives:
        return Outcome(b"line 1: bad line\n", FAILED)
    world = schedule.world()
    return Outcome(schedule.failed() + b"".join(it + b"\n" for it in report(world)), DONE)


def main() -> int:
    words = sys.argv[1:]
    if words in (["--help"], ["-h"]):
        print(__doc__)
        return DONE
    off = words[1:2] if words[:1] == ["--off"] else []
    files = words[2:] if off else words
    if len(files) != 1 or files[0].startswith("-"):
        sys.stderr.write("rsim: one word is wanted, the file\n")
        return FAILED
    try:
        with open(files[0], "rb") as file:
            text = file.read()
    except OSError as fault:
        sys.stderr.write(f"rsim: {files[0]}: {fault.strerror}\n")
        return FAILED
    output, status = outcome(text, off)
    sys.stdout.buffer.write(output)
    return status


if __name__ == "__main__":
    sys.exit(main())
