"""Checks the built server over folders: what it answers, and the files to the byte afterwards.

First each worked conversation with its reel in a folder. Then files that no server wrote: each is opened as a reel, spaced over both ways
by records and marks, read to its end, and written at each place. The plain model in models/rmtd.py says what is answered and what stands
in the file. One server carries out many such conversations, in as many drives at once as it has.
"""

from __future__ import annotations

import itertools
import os
import random
import re
import selectors
import subprocess
import tempfile
import time
from pathlib import Path
from typing import IO, Callable, ClassVar, Iterable, Iterator, NamedTuple, Sequence

from tests.lib.case import Case, random_seed
from tests.lib.conversations import CONVERSATIONS, WRITTEN_AND_READ_BACK, Conversation, beginnings
from tests.lib.drives import Held, drive_words, folders, held
from tests.lib.dumping import label
from tests.lib.given import given
from tests.lib.input_forms import Answered, in_lock_step, in_one_piece, one_byte_a_piece
from tests.lib.places import built
from tests.lib.servers import at_drive
from tests.lib.shimmed import CAPACITY
from tests.lib.waiting import GUARD_SECONDS
from tests.lib.wire import DEVICE
from tests.models.rmtd import Entry, Files, answers, entries_of, image, images

NAME = "r1"
OPEN, CLOSE, DONE = b"O/dev/st0\n2\n", b"C\n", b"A0\n"

# A conversation of so many bytes is not cut into pieces of one byte.
PIECES = 10_000


# Worked conversations, with the reel in a folder.

FORMS: dict[str, Callable[[Sequence[str], Conversation], Answered]] = {
    "in one piece": in_one_piece,
    "one byte a piece": one_byte_a_piece,
    "in lock step": in_lock_step,
}

HELLO = bytes.fromhex("05000000 68656c6c6f 05000000 00000000")
X = bytes.fromhex("01000000 78 01000000")
TORN = bytes.fromhex("05000000 68656c")

# A reel before, what is sent, what is answered, what the file holds then.
ROWS = (
    ("a record and a mark", b"", b"O/dev/st0\n2\nW5\nhelloI0\n1\nC\n", b"A0\nA5\nA1\nA0\n", HELLO),
    ("a record and a mark, read by a later server", HELLO, b"O/dev/st0\n0\nR10\nR10\nR10\n", b"A0\nA5\nhelloA0\nA0\n", HELLO),
    ("a torn record is no entry", TORN, b"O/dev/st0\n2\nR5\n", b"A0\nA0\n", TORN),
    ("a write where a torn record stood", TORN, b"O/dev/st0\n2\nR5\nW1\nx", b"A0\nA0\nA1\n", X),
    ("the old tail is lost", b"", b"O/dev/st0\n2\nW3\nabcW2\ndeI5\n1\nW1\nxR5\nC\n", b"A0\nA3\nA2\nA1\nA1\nA0\nA0\n", X),
    ("a write that is not whole", b"", b"O/dev/st0\n2\nW5\nhel", b"A0\n", b""),
    ("no marks leave the tail", TORN, b"O/dev/st0\n2\nI0\n0\nC\n", b"A0\nA0\nA0\n", TORN),
    ("a write that has no room leaves the tail", TORN, b"O/dev/st0\n2\nI0\n262145\n", b"A0\nE28\nNo space left on device\n", TORN),
    ("a mark in place of a tail", TORN, b"O/dev/st0\n2\nI0\n1\nC\n", b"A0\nA1\nA0\n", bytes(4)),
)


def server_words(folder: Path) -> tuple[str, ...]:
    """The words of a server on standard streams over the folders of a drive."""
    return (built("rmtd"), "--stdio", *drive_words(folder))


def answered(data: bytes, sent: bytes) -> tuple[bytes, Held]:
    """What a server answers that has a reel of these bytes, and what the folders hold then."""
    with folders(**{NAME: data}) as folder:
        told = subprocess.run(server_words(folder), input=sent, stdout=subprocess.PIPE, check=False, timeout=GUARD_SECONDS).stdout
        return told, held(folder)


class Worked(Case):
    """Rows written by hand to the byte, and each worked conversation in each form."""

    def test_rows(self) -> None:
        for name, before, sent, wanted, after in ROWS:
            told, files = answered(before, sent)
            self.same(f"{name}: the answers", told, wanted)
            self.same(f"{name}: the files", files, ({NAME: after}, {}))

    def worked(self, it: Conversation, form: str) -> None:
        """One worked conversation in one form: the answers, the status, and the files to the byte."""
        drives = Files({NAME: b""})
        told = answers(drives, it.sent())
        with folders(**{NAME: b""}) as folder:
            got = FORMS[form](server_words(folder), it)
            self.same(f"{it.name}, {form}: the answers", got, Answered(it.answers(), it.status))
            self.same(f"{it.name}, {form}: the model", told, it.answers())
            self.same(f"{it.name}, {form}: the files", held(folder), drives.held())

    def test_conversations_in_one_piece(self) -> None:
        for it in CONVERSATIONS:
            self.worked(it, "in one piece")

    def test_conversations_in_lock_step(self) -> None:
        for it in CONVERSATIONS:
            self.worked(it, "in lock step")

    def test_conversations_in_pieces_of_a_byte(self) -> None:
        for it in CONVERSATIONS:
            if len(it.sent()) < PIECES:
                self.worked(it, "one byte a piece")

    def test_beginnings_of_a_conversation(self) -> None:
        for it in beginnings(WRITTEN_AND_READ_BACK):
            self.worked(it, "in one piece")


class Words(Case):
    """Words over folders that are there and empty."""

    def setUp(self) -> None:
        self.folder = self.enterContext(folders())
        self.bin = ("--bin", str(self.folder / "bin"))
        self.stacks = [self.folder / f"stack {number}" for number in range(65)]
        for it in self.stacks:
            it.mkdir()
        self.many = [f"/dev/st{number}={it}" for number, it in enumerate(self.stacks)]

    def run_server(self, *words: str, sent: bytes) -> subprocess.CompletedProcess[bytes]:
        return subprocess.run((built("rmtd"), *words), input=sent, capture_output=True, check=False, timeout=GUARD_SECONDS)

    def test_words_that_break_a_rule(self) -> None:
        """Nothing is answered, though the input has requests."""
        drive = f"{DEVICE}={self.folder / 'st0'}"
        for title, words in (
            ("no bin", (drive,)),
            ("a bin without a folder", (drive, "--bin")),
            ("a bin of no name", ("--bin", "", drive)),
            ("two bins", (*self.bin, *self.bin, drive)),
            ("a drive without a folder", (*self.bin, DEVICE)),
            ("a drive with a folder of no name", (*self.bin, f"{DEVICE}=")),
            ("a drive of no name", (*self.bin, f"={self.folder / 'st0'}")),
            ("a drive named twice", (*self.bin, drive, f"{DEVICE}={self.stacks[0]}")),
            ("65 drives", (*self.bin, *self.many)),
        ):
            for way in (("--stdio",), ("--listen", "127.0.0.1:0", "--connections", "0")):
                got = self.run_server(*way, *words, sent=b"I7\n1\n")
                self.same(f"{way[0]} with {title}", (got.returncode, got.stdout, bool(got.stderr)), (1, b"", True), got)

    def test_as_many_drives_as_there_can_be(self) -> None:
        got = self.run_server("--stdio", *self.bin, *self.many[:64], sent=b"O/dev/st63\n2\n")
        self.same("64 drives", (got.returncode, got.stdout), (0, b"E6\nDevice not configured\n"), got)


# A dump over the loopback, into a folder.


class Dumped(Case):
    """A run of three blocks over two reels that have room for two blocks each."""

    def test_dump_over_two_reels(self) -> None:
        payload = bytes(range(256)) * 12
        blocks = [payload[at : at + 1024] for at in range(0, 3072, 1024)]
        volumes = {"r1": images([label(1, 0), *blocks[:2], None]), "r2": images([label(2, 2), *blocks[2:], None])}
        with folders(r1=b"", r2=b"") as folder:
            path = folder / "payload"
            path.write_bytes(payload)
            with at_drive(folder, "--capacity", str(CAPACITY)) as address:
                asked = (built("rdump"), "dump", "--to", address, "--device", DEVICE, "--fs", "/usr", "--level", "0", "--payload", str(path))
                dated = ("--block", "1024", "--dumpdates", f"{folder}/dumpdates", "--date", "951782400")
                got = subprocess.run((*asked, *dated), stdin=subprocess.DEVNULL, stdout=subprocess.PIPE, check=False, timeout=GUARD_SECONDS)
            printed = b"volume 1: 2 blocks from 0\nvolume 2: 1 blocks from 2\ndump complete: 2 volumes, 3 blocks\n"
            self.same("a dump over two reels: what is printed", (got.stdout, got.returncode), (printed, 0))
            self.same("a dump over two reels: the sizes", [len(it) for it in volumes.values()], [CAPACITY, 2068])
            self.same("a dump over two reels: the bin to the byte", held(folder), ({}, volumes))


# Files that no server wrote.


def of_bytes(alphabet: bytes, longest: int) -> Iterator[bytes]:
    """Every text over these bytes, up to this length."""
    for length in range(longest + 1):
        for text in itertools.product(alphabet, repeat=length):
            yield bytes(text)


def some_entries(source: random.Random) -> list[Entry]:
    """A few marks and records, some of lengths whose lower byte begins anew."""
    lengths = (1, 1, 2, 3, 5, 8, 20, 255, 256, 257)
    kinds = source.choices((False, True), (2, 3), k=source.randint(1, 5))
    return [source.randbytes(source.choice(lengths)) if it else None for it in kinds]


def torn(source: random.Random, count: int) -> Iterator[bytes]:
    """Images of entries, cut after each byte, or at some bytes where they are long."""
    for _ in range(count):
        whole = images(some_entries(source))
        cuts = range(len(whole) + 1)
        for cut in cuts if len(whole) < 80 else sorted(source.sample(cuts, 20)):
            yield whole[:cut]


def changed(source: random.Random, count: int) -> Iterator[bytes]:
    """Images of entries with one byte changed, or one put in, or one taken out, or with other bytes after them."""
    for _ in range(count):
        whole = bytearray(images(some_entries(source)))
        at = source.randrange(len(whole))
        byte = source.choice((0, 0, 1, 2, 4, 255, source.randrange(256)))
        kind = source.randrange(4)
        if kind == 3:
            whole += source.randbytes(source.randint(1, 12))
        else:
            whole[at : at + (kind != 1)] = bytes((byte,)) if kind < 2 else b""
        yield bytes(whole)


def by_hand() -> Iterator[bytes]:
    """Files at the limits of a length, and some in which one length is wrong."""
    for length in (65_535, 65_536, 65_537, 131_072, 262_143, 262_144, 262_145, 524_288):
        number = length.to_bytes(4, "little")
        whole = number + b"d" * length + number
        yield from (whole, whole[:-1], whole + bytes(4), whole[:-4] + bytes(4), bytes(4) + whole + X)
    for text in ("02000000 6465 02", "02000000 6465 03000000", "00000000 02000000 64", "01000100", "01000400", "00000000 000000"):
        yield bytes.fromhex(text)
    for other in (0, 2, 256, 65_537, 262_145, 1 << 24, 1 << 31, (1 << 32) - 1):
        number = other.to_bytes(4, "little")
        yield from (image(b"x")[:5] + number, number + b"x" + image(b"x")[5:], X + number + X, number, X + number)


def random_files(seed: int) -> Iterator[bytes]:
    """Files that begin as reels do, that are reels with a fault, or that have any bytes."""
    source = random.Random(seed)
    yield from torn(source, 120)
    yield from changed(source, 3_000)
    for _ in range(1_000):
        yield source.randbytes(source.randint(1, 30))


# What is done with each.

COUNTS = (1, 2, 2_147_483_647)


def operation(number: int, count: int) -> bytes:
    return b"I%d\n%d\n" % (number, count)


def to_place(place: int) -> bytes:
    """Requests by which a reel stands at a place, wherever it stood."""
    return operation(5, 1) + b"R1\n" * place


def looked_at(entries: list[Entry]) -> bytes:
    """From each place each spacing, and a read where it stopped; and all entries whole, with a read at the end."""
    text = b""
    for place in range(len(entries) + 1):
        for number, count in itertools.product((1, 2, 3, 4), COUNTS):
            text += to_place(place) + operation(number, count) + b"R3\n"
    text += to_place(0) + b"".join(operation(number, 0) for number in range(5))
    return text + b"R262144\n" * (len(entries) + 2) + operation(3, 1) + operation(4, 1) + b"W0\n"


def written(place: int, what: bytes) -> bytes:
    """A write at a place, and what stands there then: after it nothing, before it itself and what stood before."""
    return to_place(place) + what + b"R9\n" + operation(3, 1) + operation(4, 1) + b"R9\n" + operation(2, 9) + b"R9\n"


WRITES = (b"W5\nhello", operation(0, 2))
# One mark more than a reel has room for.
REFUSED = operation(0, 262_145)


class Talk(NamedTuple):
    """What is sent to a reel, and what is to be answered by it."""

    sent: bytes
    answered: bytes


class Job(NamedTuple):
    """A file, a conversation about it between an open and a close, and what the file is to hold then."""

    data: bytes
    talk: Talk
    after: bytes

    def answered(self) -> bytes:
        """What is answered with the open and the close."""
        return DONE + self.talk.answered + DONE


class Talks:
    """The conversations about files, by the entries that they hold: what stands after the entries is to change nothing."""

    def __init__(self) -> None:
        self.known: dict[tuple[Entry, ...], list[tuple[Talk, bytes | None]]] = {}

    def about(self, data: bytes) -> Iterator[Job]:
        """Each conversation about a file."""
        entries = entries_of(data)
        known = self.known.get(tuple(entries))
        if known is None:
            known = self.known[tuple(entries)] = [*self.made(entries)]
        for talk, after in known:
            yield Job(data, talk, data if after is None else after)

    def made(self, entries: list[Entry]) -> Iterator[tuple[Talk, bytes | None]]:
        """Each conversation about these entries, and what the file holds then, None where it holds what it held."""
        yield self.talk(entries, looked_at(entries) + REFUSED), None
        places = range(len(entries) + 1)
        for place, what in itertools.product(places, WRITES):
            talk = self.talk(entries, written(place, what))
            yield talk, self.after

    def talk(self, entries: list[Entry], sent: bytes) -> Talk:
        """What the model answers."""
        drives = Files({NAME: images(entries)})
        answered = answers(drives, b"O/dev/st0\n2\n" + sent)
        self.after = drives.stack[NAME]
        return Talk(sent, answered.removeprefix(b"A0\n"))


MEMORY = "/dev/shm"

# A job whose conversation is longer is carried out alone.
PIPE = 60_000
DRIVES = 64


class Server:
    """A running server with as many drives as it can have, each with one reel."""

    def __init__(self, program: str, folder: Path) -> None:
        folder.joinpath("bin").mkdir()
        self.reels: list[str] = []
        words = [program, "--stdio", "--bin", str(folder / "bin")]
        for drive in range(DRIVES):
            stack = folder / f"st{drive}"
            stack.mkdir()
            self.reels.append(str(stack / NAME))
            words.append(f"/dev/st{drive}={stack}")
        self.process = subprocess.Popen(words, stdin=subprocess.PIPE, stdout=subprocess.PIPE, bufsize=0)
        self.requests: IO[bytes] = given(self.process.stdin)
        self.replies: IO[bytes] = given(self.process.stdout)
        os.set_blocking(self.replies.fileno(), False)
        self.waiting = selectors.DefaultSelector()
        self.waiting.register(self.replies, selectors.EVENT_READ)

    def carried_out(self, jobs: list[Job]) -> list[tuple[bytes, bytes]]:
        """What these jobs, one in a drive, are answered, and what their files hold then. What is answered beyond that stands at the end."""
        for job, reel in zip(jobs, self.reels):
            put(reel, job.data)
        sent = b"".join(b"O/dev/st%d\n2\n%sC\n" % (drive, job.talk.sent) for drive, job in enumerate(jobs))
        wanted = [job.answered() for job in jobs]
        told, came = self.answered(sent, sum(map(len, wanted))), []
        for it, reel in zip(wanted, self.reels):
            came.append((told[: len(it)], held_by(reel)))
            told = told[len(it) :]
        return [*came, (told, b"")] if told else came

    def answered(self, sent: bytes, wanted: int) -> bytes:
        """So many bytes that are answered, fewer if no more come."""
        rest = memoryview(sent)
        answered = b""
        ends = time.monotonic() + GUARD_SECONDS
        while (rest or len(answered) < wanted) and time.monotonic() < ends and self.process.poll() is None:
            if rest:
                try:
                    rest = rest[self.requests.write(rest[:4096]) :]
                except BrokenPipeError:
                    break
            if self.waiting.select(0 if rest else 0.5):
                piece = self.replies.read(1 << 20)
                if not piece:
                    break
                answered += piece
        return answered

    def stop(self) -> None:
        self.waiting.close()
        self.process.kill()
        self.process.communicate()


def put(path: str, data: bytes) -> None:
    """Makes a file anew."""
    file = os.open(path, os.O_WRONLY | os.O_CREAT | os.O_TRUNC)
    if data:
        os.write(file, data)
    os.close(file)


def held_by(path: str) -> bytes:
    """What a file holds."""
    file = os.open(path, os.O_RDONLY)
    data = os.read(file, 1 << 21)
    os.close(file)
    return data


def in_batches(jobs: Iterable[Job]) -> Iterator[list[Job]]:
    """Jobs by as many as there are drives, and so that a pipe takes what is sent and what is answered."""
    batch: list[Job] = []
    size = 0
    for job in jobs:
        own = len(job.talk.sent) + len(job.talk.answered) + 40
        if batch and (len(batch) == DRIVES or size + own > PIPE):
            yield batch
            batch, size = [], 0
        batch.append(job)
        size += own
    if batch:
        yield batch


# A conversation that fails.

REQUEST = re.compile(rb"[OI].*\n.*\n|[CR].*\n|W(\d+)\n")


def requests_in(sent: bytes) -> list[bytes]:
    """The requests of a conversation, one by one."""
    found, at = [], 0
    while match := REQUEST.match(sent, at):
        end = match.end() + int(match[1] or 0)
        found.append(sent[at:end])
        at = end
    return found


def wanted_of(data: bytes, sent: bytes) -> tuple[bytes, Held]:
    """What is to be answered over a reel of these bytes, and what the folders are to hold then, as the model has it."""
    drives = Files({NAME: data})
    return answers(drives, sent), drives.held()


def in_one(requests: list[bytes]) -> bytes:
    """These requests between an open and a close."""
    return OPEN + b"".join(requests) + CLOSE


def shortened(data: bytes, requests: list[bytes]) -> list[bytes]:
    """Of requests that fail those that are needed for that: none more can be left out."""
    size = len(requests)
    while size:
        at = 0
        while at < len(requests):
            fewer = requests[:at] + requests[at + size :]
            if answered(data, in_one(fewer)) != wanted_of(data, in_one(fewer)):
                requests = fewer
            else:
                at += size
        size //= 2
    return requests


class Foreign(Case):
    """Files that no server wrote, each in each conversation, in folders in memory if there can be such: a disk would be asked to keep each file at
    its close."""

    talks: ClassVar[Talks]

    @classmethod
    def setUpClass(cls) -> None:
        super().setUpClass()
        cls.talks = Talks()

    def carried_out(self, files: Iterable[bytes], *seen: object) -> None:
        """Each conversation about each of these files, by one server."""
        folder = self.enterContext(tempfile.TemporaryDirectory(dir=MEMORY if os.access(MEMORY, os.W_OK) else None))
        server = Server(built("rmtd"), Path(folder))
        self.addCleanup(server.stop)
        for batch in in_batches(job for data in dict.fromkeys(files) for job in self.talks.about(data)):
            came = server.carried_out(batch)
            wanted = [(job.answered(), job.after) for job in batch]
            if came != wanted:
                all(self.alone(job, *seen) for job in batch)
                got, it = next((got, it) for got, it in itertools.zip_longest(came, wanted) if got != it)
                self.same("many conversations with one server", got, it, *seen)
                return
            for got, it in zip(came, wanted):
                self.same("a conversation of a batch", got, it)

    def alone(self, job: Job, *seen: object) -> bool:
        """Whether one job goes well by a server of its own. Of a conversation that fails as few requests are told as make it fail."""
        requests = requests_in(job.talk.sent)
        if answered(job.data, in_one(requests)) != (job.answered(), ({NAME: job.after}, {})):
            requests = shortened(job.data, requests)
        told, files = answered(job.data, in_one(requests))
        wanted = wanted_of(job.data, in_one(requests))
        title = f"the file {job.data[:60].hex(' ', 4)} of {len(job.data)} bytes, sent {b''.join(requests)[-80:]!r}"
        is_answered = self.same(f"{title}: the answers", told, wanted[0], in_one(requests), *seen)
        return self.same(f"{title}: the file", files, wanted[1], in_one(requests), *seen) and is_answered

    def test_all_short_files_of_two_bytes(self) -> None:
        self.carried_out(of_bytes(bytes((0, 1)), 14))

    def test_all_short_files_of_four_bytes(self) -> None:
        self.carried_out(of_bytes(bytes((0, 1, 2, 255)), 7))

    def test_files_by_hand(self) -> None:
        self.carried_out(by_hand())

    def test_random_files(self) -> None:
        seed = random_seed(14)
        self.carried_out(random_files(seed), f"the seed is {seed}")
