"""A dump of three volumes that is read back: its payload and its reels, what is told of them, and servers that have them."""

from __future__ import annotations

import random
import subprocess
import time
from contextlib import contextmanager
from pathlib import Path
from typing import Iterator, Mapping, NamedTuple, Sequence

from tests.lib.drives import drive_words, folders, held
from tests.lib.dumping import DAY, Programs
from tests.lib.ended import Ended
from tests.lib.listings import GREATEST_RECORD, LAST_BLOCK, LAST_SECOND, Label, decoded, label_of
from tests.lib.played_servers import Model, Reel
from tests.lib.refusals import refused_with
from tests.lib.waiting import GUARD_SECONDS
from tests.lib.wire import CLOSE, DEVICE, REWIND, opened
from tests.models.rmtd import Entry, images

BLOCK = 1024

# What was dumped: its last block is not full.
PAYLOAD = random.Random(14).randbytes(6 * BLOCK - 300)
PADDED = PAYLOAD + bytes(300)

# The first block of each volume, and the one after its last.
VOLUMES = ((0, 2), (2, 5), (5, 6))

# What a reel begins with that is no volume.
NO_LABEL, EMPTY, MARK = "it begins with a record that is no label", "it is empty", "it begins with a mark"
EMPTY_OR_MARK = "it is empty, or begins with a mark"

NO_REPLY, CUT = "no reply by the protocol", "the connection ended"
UNPRINTED = "rdump: standard output could not be written\n"

# What is asked of a drive: to open it for reading alone, to read a record, to go back over one, and over a mark.
OPEN, READ, BACK, OVER = opened(mode=0), b"R262144\n", b"I4\n1\n", b"I1\n1\n"
# What a look asks of a reel that gives no record.
LOOK = [OPEN, REWIND, b"R1024\n", REWIND, OVER, CLOSE]

# The folder of the copies of reels.
INTO = "into"


def foreign(address: str, why: str) -> str:
    """What is told of a reel that is no volume."""
    return f"rdump: {address}: the first reel of {DEVICE} is not a volume of rdump: {why}\n"


class Dump(NamedTuple):
    """What the labels of a dump have in common."""

    name: str = "/usr"
    level: int = 0
    date: int = DAY
    since: int = 0

    def label(self, volume: int, first: int) -> bytes:
        """The label of a volume."""
        return Label(*self, volume, first).record()


USR = Dump()


def blocks(first: int, end: int) -> list[bytes]:
    """These blocks of the payload, of which the last one is filled up."""
    return [PADDED[at * BLOCK : (at + 1) * BLOCK] for at in range(first, end)]


def entries(volume: int, dump: Dump = USR) -> list[Entry]:
    """The records of a volume, and its mark."""
    first, end = VOLUMES[volume - 1]
    return [dump.label(volume, first), *blocks(first, end), None]


def reel(volume: int, dump: Dump = USR) -> bytes:
    """The record file of a volume."""
    return images(entries(volume, dump))


# Volumes of no block, of small blocks, of the longest ones, of many blocks, and with the least and the greatest numbers.
KINDS = {
    "no block": images([USR.label(1, 0), None]),
    "a byte": images([USR.label(1, 0), b"x", None]),
    "the longest": images([USR.label(1, 0), bytes(GREATEST_RECORD), b"y" * GREATEST_RECORD, None]),
    "many": images([USR.label(1, 0), *(number.to_bytes(2, "big") for number in range(3000)), None]),
    "the greatest numbers": images([Dump("x" * 20, 9, LAST_SECOND, LAST_SECOND).label(LAST_BLOCK, LAST_BLOCK), b"z", None]),
    "the least": images([Dump("x", 0, 0, 0).label(1, 0), b"z", None]),
}

# The first volume, with more behind its mark.
MORE = {
    "a second volume": images([*entries(1), *entries(2)]),
    "a second mark": images([*entries(1), None]),
    "records": images([*entries(1), b"x", b"y"]),
    "a mark and a volume": images([*entries(1), None, *entries(3)]),
    "a tail": reel(1) + b"tail",
}

# Reels that are no volume, each with what is told of it.
FOREIGN = {
    "an empty reel": (b"", EMPTY),
    "a tail that is no record": (b"\x05\0\0\0hel", EMPTY),
    "half a label": (reel(1)[:500], EMPTY),
    "a label without its last byte": (reel(1)[:1031], EMPTY),
    "a mark": (images([None]), MARK),
    "a mark and a volume": (images([None, *entries(1)]), MARK),
    "text": (images([b"hello", b"world", None]), NO_LABEL),
    "zero bytes": (images([bytes(1024), *blocks(0, 2), None]), NO_LABEL),
    "a volume 0": (images([USR.label(0, 0), *blocks(0, 2), None]), NO_LABEL),
    "a level 10": (images([Dump(level=10).label(1, 0), *blocks(0, 2), None]), NO_LABEL),
    "a line more": (images([USR.label(1, 0).rstrip(b"\0") + b"more 1\n", *blocks(0, 2), None]), NO_LABEL),
    "a name with a control character": (images([Dump(name="/u\x1bsr").label(1, 0), *blocks(0, 2), None]), NO_LABEL),
    "a name with a letter that is no ASCII": (images([Dump(name="/\xfc").label(1, 0), None]), NO_LABEL),
    "a long record": (images([bytes(GREATEST_RECORD), None]), NO_LABEL),
}


def cuts(data: bytes) -> dict[str, bytes]:
    """A reel that was cut at each kind of place behind its label, by the name of the place."""
    ends = [len(images(decoded(data)[0][:count])) for count in range(1, len(decoded(data)[0]))]
    places = {f"behind record {number}": end for number, end in enumerate(ends)}
    for number, end in enumerate(ends[:-1]):
        places |= {f"{more} bytes behind record {number}": end + more for more in (1, 4, 500, 1028, 1031)}
    places |= {f"{more} bytes behind the last record": ends[-1] + more for more in (1, 3)}
    return {name: data[:end] for name, end in places.items()}


def up_to_mark(data: bytes) -> list[Entry]:
    """The entries of a record file up to its first mark, which is the last of them if there is one."""
    entries, _ = decoded(data)
    return entries[: entries.index(None) + 1] if None in entries else entries


def sizes(blocks: Sequence[bytes]) -> str:
    """What is told of so many blocks that were read."""
    lengths = [*map(len, blocks)]
    if len(lengths) < 2:
        return f"1 block of {lengths[0]} bytes\n" if lengths else "0 blocks\n"
    if min(lengths) == max(lengths):
        return f"{len(lengths)} blocks of {lengths[0]} bytes\n"
    return f"{len(lengths)} blocks of {min(lengths)} to {max(lengths)} bytes, {sum(lengths)} bytes in all\n"


def counted(volume: int) -> str:
    """What is told of the blocks of a volume."""
    return sizes(blocks(*VOLUMES[volume - 1]))


def texts(*volumes: int) -> str:
    """The texts of the labels of these volumes, one after the other."""
    return "".join(USR.label(it, VOLUMES[it - 1][0]).rstrip(b"\0").decode() for it in volumes)


class Came(NamedTuple):
    """What comes of a reel that is read: what is printed and told, and what the file holds then."""

    output: str
    told: str
    file: bytes


def came_of(data: bytes, address: str) -> Came:
    """What comes of this reel. Of an empty one, and of a mark, that is told which it is."""
    found = up_to_mark(data)
    records = [it for it in found if it is not None]
    if not records:
        return Came("", foreign(address, MARK if found else EMPTY), b"")
    first, *rest = records
    what = "" if label_of(first) else foreign(address, NO_LABEL)
    return Came(first.split(b"\0")[0].decode(), sizes(rest) + what, b"".join(rest))


def read_words(address: str, *more: str, out: str = "out") -> tuple[str, ...]:
    """The words of `rdump read`, which come after the name of the program."""
    return ("read", "--to", address, "--device", DEVICE, "--out", out, *more)


def read(p: Programs, address: str, *more: str, out: str = "out") -> Ended[str]:
    """Runs `rdump read`."""
    return p.run(*read_words(address, *more, out=out))


def fetch_words(address: str, *more: str, into: str = INTO) -> tuple[str, ...]:
    """The words of `rdump fetch`, which come after the name of the program."""
    return ("fetch", "--to", address, "--device", DEVICE, "--into", into, *more)


class Site(NamedTuple):
    """A server over a stack and a bin, and the programs."""

    p: Programs
    folder: Path
    address: str

    def ran(self, words: tuple[str, ...], stdout: int, stderr: int) -> Ended[str]:
        """Runs a command once nobody has the drive: a run that stopped at a reel has it until the server has seen its end."""
        until = time.monotonic() + GUARD_SECONDS
        while (got := self.p.run(*words, stdout=stdout, stderr=stderr)).told.endswith(self.refused(16)) and time.monotonic() < until:
            time.sleep(0.01)
        return got

    def read(self, *more: str, out: str = "out", stdout: int = subprocess.PIPE, stderr: int = subprocess.PIPE) -> Ended[str]:
        """Reads the first reel."""
        return self.ran(read_words(self.address, *more, out=out), stdout, stderr)

    def fetch(self, *more: str, into: str = INTO, stdout: int = subprocess.PIPE, stderr: int = subprocess.PIPE) -> Ended[str]:
        """Fetches the reels."""
        return self.ran(fetch_words(self.address, *more, into=into), stdout, stderr)

    def refused(self, number: int) -> str:
        """What is told if the open is refused: with 6 if the stack is empty, and with 16 if another has the drive."""
        return f"rdump: {self.address}: {refused_with(number, 'open')}"

    def reels(self, name: str, stack: dict[str, bytes], taken: dict[str, bytes]) -> None:
        """The stack and the bin have these reels."""
        found = held(self.folder)
        lengths = [{it: len(data) for it, data in place.items()} for place in found]
        self.p.case.same(f"{name}: the reels", found, (stack, taken), lengths)


def named(*reels: bytes) -> dict[str, bytes]:
    """Reels by their names, in the order of a stack."""
    return {f"r{number:03d}": data for number, data in enumerate(reels)}


@contextmanager
def laid(p: Programs, **reels: bytes) -> Iterator[Site]:
    """A server with a stack of these reels."""
    with folders(**reels) as folder:
        with p.listening("--capacity", "1048576", *drive_words(folder)) as (address, _):
            yield Site(p, folder, address)


def laid_reel(records: Sequence[Entry], name: str = "r") -> Reel:
    """A reel of the plain model with these entries."""
    found = Reel(name, 1 << 20)
    found.entries = [*records]
    return found


def answering(*reels: Reel, replies: Mapping[int, bytes | None]) -> Model:
    """The plain model of a server with these reels. It gives these replies to the requests of these numbers, counted from 1; to one whose reply is
    None, it ends the connection."""
    said = {number: it for number, it in replies.items() if it is not None}
    return Model(*reels, said=said, lost=tuple(number for number, it in replies.items() if it is None))


def loaded(*volumes: int, replies: Mapping[int, bytes | None] | None = None) -> Model:
    """The same, with a reel for each of these volumes."""
    return answering(*(laid_reel(entries(it), f"r{it}") for it in volumes), replies=replies or {})
