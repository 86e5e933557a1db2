"""Random schedules: each line is one that is possible where it comes, by the model of the world; and lines that are not possible there.

A few connections are alive at a time. The weights of the kinds of lines are such that each kind of event and of answer comes often.
"""

from __future__ import annotations

import random
from typing import Callable, Iterable, Iterator, Mapping, NamedTuple

from tests.models.rmtd import GREATEST_NUMBER, GREATEST_RECORD
from tests.models.session import Fault, Unfinished, first_request
from tests.models.world import GREATEST, LAST_SECOND, Link, Schedule, World

Make = Callable[[], bytes | None]

NO_DEVICE = b"/dev/st9"
NAMES = (b"/usr", b"/home", b"!", b"/" + b"n" * 31, b"~" * 32, b"/" + b"n" * 40, b"x" * 255)
MODES = (b"0", b"1", b"2", b"3", b"513", b"2 O_RDWR", b"0000000001", b"2147483646", b"6 ")
COUNTS = (0, 1, 1, 1, 2, 3, GREATEST_NUMBER)
LENGTHS = (0, 1, 1, 5, 40, 100, 1_000)
TROUBLES = (b"kept", b"lost", b"written 0", b"written 1", b"written 2", b"written 9", b"written %d" % GREATEST)
HOPELESS = (b"S\n", b"O\n\n", b"W-1\n", b"I5\nx", b"R00000000001\n", b"R2147483648\n", b"O/dev/st0\n2x", b"C" + b"c" * 256, b"o", b"\n", b"\xff")


class Profile(NamedTuple):
    """What a random schedule is like: how many drives and reels there are, what the reels have room for, and how often a line is of a kind."""

    name: str
    weights: Mapping[str, float]
    drives: tuple[int, ...] = (1, 2, 3)
    reels: tuple[int, ...] = (1, 2, 3, 4)
    capacities: tuple[int, ...] = (0, 1_040, 3_100, 3_100, 3_100, 3_100, 5_000, 5_000, 20_000)
    blocks: tuple[int, ...] = (0, 1, 2, 3, 5, 9)
    sizes: tuple[int, ...] = (1, 10, 512, 1_024, 1_024)
    names: tuple[bytes, ...] = NAMES
    troubles: float = 0.1
    pieces: float = 0.5
    long_writes: float = 0.0
    alive: int = 6


DUMPING: Mapping[str, float] = {
    "run": 9,
    "connect": 25,
    "send": 25,
    "to-server": 25,
    "serve": 25,
    "to-client": 25,
    "pump": 4,
    "cut": 0.6,
    "end-server": 9,
    "end-client": 6,
    "restart-server": 0.1,
    "restart-client": 0.1,
    "save": 2,
    "retry": 9,
    "abandon": 0.15,
    "stranger": 0.3,
    "says": 3,
    "enter": 20,
    "arrange": 4,
    "blank": 0.3,
}
STRANGE: Mapping[str, float] = {**DUMPING, "stranger": 2, "says": 14, "to-server": 40, "serve": 60, "pump": 2}
ROUGH: Mapping[str, float] = {
    **DUMPING,
    "cut": 4,
    "restart-server": 0.8,
    "restart-client": 0.8,
    "abandon": 1,
    "stranger": 2,
    "says": 15,
    "arrange": 3,
    "pump": 12,
}

PROFILES = (
    Profile("dumps", DUMPING, troubles=0.03),
    Profile("dumps in pieces", {**DUMPING, "pump": 0.5}, troubles=0.02, pieces=0.9),
    Profile("strangers", STRANGE, troubles=0.15),
    Profile("rough", ROUGH, troubles=0.25),
)
LONG_WRITES = Profile(
    "long writes", STRANGE, capacities=(280_000, 600_000), sizes=(GREATEST_RECORD, 30_000), blocks=(1, 2, 4), long_writes=0.3, pieces=0.3, alive=4
)
MANY_DRIVES = Profile("many drives", ROUGH, drives=(64,), reels=(0, 1, 2))


class Walk:
    """A schedule that grows line by line, and the model that it drives."""

    def __init__(self, source: random.Random, profile: Profile, off: Iterable[str] = (), lines: Iterable[bytes] = ()) -> None:
        self.source = source
        self.profile = profile
        self.lines: list[bytes] = []
        self.schedule = Schedule(tuple(off))
        self.unsaid: dict[int, bytes] = {}
        for line in lines or self.drives():
            self.take(line)
        self.world = self.schedule.world()
        self.devices = [*self.world.shop.drives]
        self.kinds = [*profile.weights]
        self.weights = [*profile.weights.values()]
        self.makers: dict[str, Make] = {
            "run": self.run,
            "connect": self.connect,
            "send": self.send,
            "to-server": self.to_server,
            "serve": self.serve,
            "to-client": self.to_client,
            "pump": self.pump,
            "cut": self.cut,
            "end-server": self.end_server,
            "end-client": self.end_client,
            "restart-server": lambda: b"restart-server",
            "restart-client": self.restart_client,
            "retry": lambda: self.answer(b"retry"),
            "abandon": lambda: self.answer(b"abandon"),
            "stranger": self.stranger,
            "says": self.says,
            "enter": self.enter,
            "save": self.save,
            "arrange": self.arrange,
            "blank": lambda: source.choice((b"", b"#", b"# drive", b"#\xff\r")),
        }

    def drives(self) -> Iterator[bytes]:
        """The lines that begin a schedule."""
        reel = 0
        for number in range(self.source.choice(self.profile.drives)):
            names = [b"r%d" % it for it in range(reel, reel + self.source.choice(self.profile.reels))]
            reel += len(names)
            yield b" ".join((b"drive", b"/dev/st%d" % number, b"%d" % self.source.choice(self.profile.capacities), *names))

    def take(self, line: bytes) -> None:
        """One line more."""
        self.lines.append(line)
        self.schedule.line(line)

    def grow(self, lines: int) -> None:
        """Makes so many lines in all."""
        while len(self.lines) < lines:
            self.take(self.next())

    def next(self) -> bytes:
        """A line that is possible now."""
        if len(self.world.alive) > self.profile.alive:
            return self.one_less()
        while True:
            kind = self.source.choices(self.kinds, self.weights)[0]
            line = self.makers[kind]()
            if line is not None:
                return line

    def text(self) -> bytes:
        return b"".join(it + b"\n" for it in self.lines)

    def some(self, fits: Callable[[Link], bool]) -> Link | None:
        """A connection that is not over and of which this is so."""
        found = [it for it in self.world.alive.values() if fits(it)]
        return self.source.choice(found) if found else None

    def one_less(self) -> bytes:
        """A line that brings the oldest connection nearer to its end."""
        link = next(it for it in self.world.alive.values() if it is not self.world.own)
        word = b"cut" if not link.cut else b"end-server" if link.server_live else b"end-client"
        return b"%s %d" % (word, link.number)

    # The client and its operator.

    def run(self) -> bytes | None:
        if self.world.state() not in ("none", "Finished", "Abandoned"):
            return None
        device = self.source.choices((self.source.choice(self.devices), NO_DEVICE, b"/dev/" + b"d" * 250), (40, 1, 0.5))[0]
        date = self.source.choice((0, 951_782_400, 951_868_800, self.source.randrange(LAST_SECOND), LAST_SECOND))
        numbers = self.source.randrange(10), date, self.source.choice((0, 7, date)), self.source.choice(self.profile.sizes)
        return b"run %s %s %d %d %d %d %d" % (device, self.source.choice(self.profile.names), *numbers, self.source.choice(self.profile.blocks))

    def connect(self) -> bytes | None:
        return b"connect" if self.world.state() == "Ready" else None

    def send(self) -> bytes | None:
        if self.world.state() != "ToSend":
            return None
        return b"send fault" if self.source.random() < self.profile.troubles / 4 else b"send"

    def answer(self, word: bytes) -> bytes | None:
        """An answer of the operator, who seldom tries anew where there is no such drive."""
        if self.world.state() != "Asking":
            return None
        hopeless = self.world.failures[-1][1] == "Refused 2"
        return None if hopeless and word == b"retry" and self.source.random() < 0.95 else word

    def restart_client(self) -> bytes | None:
        return b"restart-client" if self.world.client else None

    def save(self) -> bytes | None:
        return b"save" if self.world.can_be_kept() else None

    def enter(self) -> bytes | None:
        return b"enter" if self.world.can_be_entered() else None

    # On the way.

    def count(self, most: int) -> bytes:
        """So many bytes, or all."""
        if self.source.random() >= self.profile.pieces:
            return b"all"
        return b"%d" % self.source.choice((1, most, (most + 1) // 2, self.source.randint(1, most), self.source.randint(1, min(most, 9))))

    def to_server(self) -> bytes | None:
        link = self.some(lambda it: self.world.on_way(it.number)[0] > 0)
        return b"to-server %d %s" % (link.number, self.count(self.world.on_way(link.number)[0])) if link else None

    def to_client(self) -> bytes | None:
        link = self.some(lambda it: self.world.on_way(it.number)[1] > 0)
        return b"to-client %d %s" % (link.number, self.count(self.world.on_way(link.number)[1])) if link else None

    def serve(self) -> bytes | None:
        link = self.some(is_served)
        if not link:
            return None
        if self.source.random() >= self.profile.troubles:
            return b"serve %d" % link.number
        return b"serve %d %s" % (link.number, self.source.choice(TROUBLES))

    def pump(self) -> bytes:
        numbers = [*self.world.alive, *self.world.alive, len(self.world.links) + 1]
        return b"pump %d %d" % (self.source.choice(numbers), self.source.choice((0, 1, 1, 2, 3, 5, 11)))

    def cut(self) -> bytes | None:
        link = self.some(lambda it: not it.cut)
        return b"cut %d" % link.number if link else None

    def end_server(self) -> bytes | None:
        link = self.some(lambda it: it.cut and it.server_live)
        return b"end-server %d" % link.number if link else None

    def end_client(self) -> bytes | None:
        link = self.some(lambda it: it.cut and it.other_live)
        return b"end-client %d" % link.number if link else None

    # Strangers, and the operator of the server.

    def stranger(self) -> bytes | None:
        return b"stranger" if len(self.world.alive) < self.profile.alive - 1 else None

    def says(self) -> bytes | None:
        link = self.some(lambda it: not it.is_mine and it.other_live and len(it.toward) < 300)
        if not link:
            return None
        text = self.unsaid.pop(link.number, b"") or self.requests(link)
        cut = self.source.randrange(1, len(text) + 1) if self.source.random() < 0.25 else len(text)
        if text[cut:]:
            self.unsaid[link.number] = text[cut:]
        return b"says %d %s" % (link.number, text[:cut].hex().encode())

    def requests(self, link: Link) -> bytes:
        """A request, sometimes several, seldom what is none."""
        if self.source.random() < 0.02:
            return self.source.choice(HOPELESS)
        return b"".join(self.request(link) for _ in range(self.source.choice((1, 1, 1, 2, 3))))

    def request(self, link: Link) -> bytes:
        """A request, mostly one for which the session has what it needs."""
        if self.source.random() < (0.08 if link.session.drive else 0.85):
            return b"O%s\n%s\n" % (self.device(), self.source.choice(MODES + (b"1", b"2", b"2", b"2") * 6))
        letter = self.source.choices("CWRI", (1, 8, 5, 13))[0]
        if letter == "C":
            return self.source.choice((b"C\n", b"C/dev/st0\n"))
        if letter == "W":
            return self.write()
        if letter == "R":
            return b"R%d\n" % self.source.choice((0, 1, 10, GREATEST_RECORD, GREATEST_RECORD + 1, GREATEST_NUMBER))
        operation = self.source.choices((0, 1, 2, 3, 4, 5, 6, 7, 8, GREATEST_NUMBER), (5, 3, 3, 3, 4, 5, 0.6, 0.6, 0.3, 0.3))[0]
        return b"I%d\n%d\n" % (operation, self.source.choice(COUNTS))

    def device(self) -> bytes:
        """A device, mostly one that is free and has a reel."""
        free = [it.name for it in self.world.shop.drives.values() if it.stack and not it.holder]
        if free and self.source.random() < 0.8:
            return self.source.choice(free)
        return self.source.choice((*self.devices * 8, NO_DEVICE, b""))

    def write(self) -> bytes:
        if self.world.counts and self.source.random() < 0.1:
            return self.counted_label()
        length = self.source.choice(LENGTHS)
        if self.source.random() < self.profile.long_writes:
            length = GREATEST_RECORD + self.source.choice((-1, 0, 1, 13, 34_000, 75_000))
        return b"W%d\n%s" % (length, self.source.randbytes(1) * length)

    def counted_label(self) -> bytes:
        """The write of a label that was counted, or of one with a byte less or more."""
        count = self.source.choice(self.world.counts[-3:])
        label = self.world.runs[count.run - 1].label(count.volume.volume, count.volume.first)
        record = self.source.choice((label, label, label[:-1], label + b"\0"))
        return b"W%d\n%s" % (len(record), record)

    def arrange(self) -> bytes | None:
        free = [it for it in self.world.shop.drives.values() if not it.holder]
        bare = [it for it in free if not it.stack]
        if not free or (not bare and self.source.random() < 0.7):
            return None
        drive = self.source.choice(bare or free)
        there = [it.name for it in drive.stack + self.world.shop.bin]
        self.source.shuffle(there)
        names = there[: self.source.choice((len(there), 1, 2, 3)) if bare else self.source.randint(0, len(there))]
        return b" ".join((b"arrange", drive.name, *names))


def is_served(link: Link) -> bool:
    """Whether a request, or what is none, has come whole to the server."""
    if not link.server_live or not link.reached:
        return False
    try:
        first_request(link.reached)
    except Unfinished:
        return False
    except Fault:
        return True
    return True


# Lines that are not possible.


def candidates(world: World) -> Iterator[bytes]:
    """Lines of every kind that can be impossible, some of which are possible now."""
    yield b"run /dev/st0 /usr 0 0 0 1 1"
    yield from (b"connect", b"send", b"send fault", b"restart-client", b"save", b"retry", b"abandon", b"enter")
    numbers = [0, *sorted(world.alive), len(world.links), len(world.links) + 1, GREATEST]
    for number in dict.fromkeys(numbers):
        there = 1 <= number <= len(world.links)
        here, back = world.on_way(number) if there else (0, 0)
        for word, most in ((b"to-server", here), (b"to-client", back)):
            yield from (b"%s %d %s" % (word, number, it) for it in (b"0", b"%d" % (most + 1), b"%d" % GREATEST))
            if not most:
                yield b"%s %d all" % (word, number)
        yield from (b"%s %d" % (word, number) for word in (b"serve", b"cut", b"end-server", b"end-client"))
        yield from (b"serve %d kept" % number, b"serve %d written 3" % number, b"says %d 00" % number)
    yield b"arrange /dev/st9"
    yield b"arrange /dev/st9 r0"
    for drive in world.shop.drives.values():
        yield b"arrange %s unknown" % drive.name
        yield b"arrange %s" % drive.name
        for reel in world.reels:
            yield b"arrange %s %s" % (drive.name, reel.name)
            yield b"arrange %s %s %s" % (drive.name, reel.name, reel.name)


def is_possible(world: World, line: bytes) -> bool:
    """Whether a line is possible now, which is told without carrying it out."""
    fields = line.split(b" ")
    word = fields[0].decode()
    state = world.state()
    wanted = {"connect": "Ready", "send": "ToSend", "retry": "Asking", "abandon": "Asking"}
    if word in wanted:
        return state == wanted[word]
    if word == "run":
        return state in ("none", "Finished", "Abandoned")
    if word == "restart-client":
        return world.client is not None
    if word == "enter":
        return state == "Finished" and not world.is_entered()
    if word == "save":
        return state in ("Ready", "ToSend", "Waiting", "Asking") or (state == "Finished" and not world.is_entered())
    if word == "arrange":
        return can_be_arranged(world, fields[1], fields[2:])
    number = int(fields[1])
    if not 1 <= number <= len(world.links):
        return False
    link = world.links[number - 1]
    if word in ("to-server", "to-client"):
        most = world.on_way(number)[word == "to-client"]
        return 1 <= (most if fields[2] == b"all" else int(fields[2])) <= most
    events: dict[str, Callable[[], bool]] = {
        "serve": lambda: is_served(link),
        "cut": lambda: not link.cut,
        "end-server": lambda: link.cut and link.server_live,
        "end-client": lambda: link.cut and link.other_live,
        "says": lambda: not link.is_mine and link.other_live,
    }
    return events[word]()


def can_be_arranged(world: World, device: bytes, names: list[bytes]) -> bool:
    drive = world.shop.drives.get(device)
    if not drive or any(it.server_live and it.session.drive is drive for it in world.alive.values()):
        return False
    there = [it.name for it in (*drive.stack, *world.shop.bin)]
    return all(names.count(it) == 1 and it in there for it in names)
