"""A plain, slow tape server over folders: what `rmtd` is checked against, and a double of it that the checks themselves are tried on.

    python3 -m tests.models.rmtd --stdio --bin DIR [--capacity BYTES] DEVICE=DIR...
    python3 -m tests.models.rmtd --listen ADDRESS --bin DIR [--capacity BYTES] [--connections N] DEVICE=DIR...

A reel is a list of entries: a record as its bytes, a mark as None. It is read from a file whole and at once, and a list says what each
request does. Faults of the wire end a session as those of `rmtd` do. Each connection has a thread; which drives are held is a set behind a
lock.
"""

from __future__ import annotations

import argparse
import fcntl
import io
import os
import socket
import stat
import sys
import threading
from contextlib import suppress
from pathlib import Path
from typing import IO, Iterator, NamedTuple, NoReturn

from tests.lib.given import given

Entry = bytes | None

GREATEST_RECORD = 262_144
GREATEST_NUMBER = 2_147_483_647
LONGEST_LINE = 255
CAPACITY = 1_048_576
# So many connections are served at once.
SEATS = 32
# So often the lock of the bin's folder is asked for.
LOCK_TURNS = 1_000_000
END, FAILED, TRUNCATED, BROKEN = range(4)

TEXTS = {
    2: b"No such file or directory",
    5: b"Input/output error",
    6: b"Device not configured",
    9: b"Bad file descriptor",
    13: b"Permission denied",
    16: b"Device busy",
    22: b"Invalid argument",
    28: b"No space left on device",
}


# The record file.


def image(entry: Entry) -> bytes:
    """How an entry stands in a file: a record between its length and its length, a mark as the length 0."""
    if entry is None:
        return bytes(4)
    length = len(entry).to_bytes(4, "little")
    return length + entry + length


def images(entries: list[Entry]) -> bytes:
    """How entries stand in a file, one after the other."""
    return b"".join(image(it) for it in entries)


def first_entry(data: bytes, at: int) -> tuple[Entry, int] | None:
    """The whole entry that stands at an offset, and the offset after it; None where no whole entry stands."""
    length = int.from_bytes(data[at : at + 4], "little")
    if data[at : at + 4] == bytes(4):
        return None, at + 4
    record = data[at + 4 : at + 4 + length]
    if 1 <= length <= GREATEST_RECORD and data[at : at + length + 8] == image(record):
        return record, at + length + 8
    return None


def entries_of(data: bytes) -> list[Entry]:
    """The entries of a file. The first offset at which no whole entry stands begins the tail, which is none of them."""
    entries: list[Entry] = []
    at = 0
    while found := first_entry(data, at):
        entry, at = found
        entries.append(entry)
    return entries


# The tape.


class Tape:
    """Entries, the bytes after them, a place among them, and how many bytes there is room for."""

    def __init__(self, data: bytes, capacity: int = CAPACITY) -> None:
        self.entries = entries_of(data)
        self.tail = data[len(images(self.entries)) :]
        self.place = 0
        self.capacity = capacity

    def data(self) -> bytes:
        """The file."""
        return images(self.entries) + self.tail

    def offset(self) -> int:
        """The bytes of the entries before the place."""
        return sum(4 if it is None else len(it) + 8 for it in self.entries[: self.place])

    def put(self, entries: list[Entry]) -> None:
        """These entries stand at the place, and nothing after them. The place is after them."""
        self.entries[self.place :] = entries
        self.tail = b""
        self.place += len(entries)

    def write(self, record: bytes) -> bool:
        """Whether there was room for a record."""
        fits = self.offset() + len(record) + 12 <= self.capacity
        if fits:
            self.put([record])
        return fits

    def mark(self, count: int) -> bool:
        """Whether there was room for so many marks."""
        fits = self.offset() + 4 * count <= self.capacity
        if fits and count:
            self.put([None] * count)
        return fits

    def read(self, count: int) -> bytes:
        """The first bytes of the entry at the place, which is passed: none of a mark, and none at the end."""
        if self.place == len(self.entries):
            return b""
        self.place += 1
        return (self.entries[self.place - 1] or b"")[:count]

    def space(self, operation: int, count: int) -> bool:
        """Spaces over marks (1 forward, 2 back) or records (3 forward, 4 back); whether there were so many."""
        forward, records = operation in (1, 3), operation in (3, 4)
        while count:
            if self.place == (len(self.entries) if forward else 0):
                return False
            met = self.entries[self.place if forward else self.place - 1]
            self.place += 1 if forward else -1
            if met is None and records:
                return False
            count -= records or met is None
        return True


class FileTape(Tape):
    """A tape whose entries are also written to a file, which is locked as long as it is open."""

    def __init__(self, file: IO[bytes], name: str, capacity: int) -> None:
        self.file = file
        self.name = name
        super().__init__(file.read(), capacity)

    def put(self, entries: list[Entry]) -> None:
        """The same in the file. Where that fails the place stays, and the file says what stands on the reel."""
        place, offset = self.place, self.offset()
        try:
            self.file.truncate(offset)
            self.file.seek(offset)
            rest = memoryview(images(entries))
            while rest:
                rest = rest[self.file.write(rest) :]
        except OSError:
            self.file.seek(0)
            super().__init__(self.file.read(), self.capacity)
            self.place = place
            raise
        super().put(entries)


# Drives.


class Drives:
    """Drives by their names, each with the folder of its stack, and the folder that is the bin."""

    def __init__(self, folders: dict[bytes, Path], bin: Path, capacity: int) -> None:
        self.folders = folders
        self.bin = bin
        self.capacity = capacity

    def latch(self, device: bytes) -> FileTape | None:
        """The first reel of a stack, in the order of the bytes of their names; None where there is none."""
        folder = self.folders[device]
        names = sorted(os.fsencode(it.name) for it in folder.iterdir() if stat.S_ISREG(it.lstat().st_mode))
        for name in names:
            try:
                name.decode()
            except UnicodeDecodeError as fault:
                raise OSError("a name that is no UTF-8") from fault
        if not names:
            return None
        descriptor = os.open(folder / os.fsdecode(names[0]), os.O_RDWR | os.O_NOFOLLOW | os.O_CLOEXEC)
        file = open(descriptor, "r+b", buffering=0)
        try:
            fcntl.flock(file, fcntl.LOCK_EX | fcntl.LOCK_NB)
            return FileTape(file, names[0].decode(), self.capacity)
        except OSError:
            file.close()
            raise

    def closed(self, reel: Tape) -> None:
        """A reel is not open any more."""
        assert isinstance(reel, FileTape)
        reel.file.close()

    def offline(self, device: bytes, reel: Tape) -> None:
        """Moves a reel to the bin and closes it, once it is on the disk, where no reel of that name lies there. What is moved is not moved back."""
        assert isinstance(reel, FileTape)
        os.fsync(reel.file.fileno())
        bin = os.open(self.bin, os.O_RDONLY | os.O_DIRECTORY)
        stack = os.open(self.folders[device], os.O_RDONLY | os.O_DIRECTORY)
        try:
            lock(bin)
            if os.path.lexists(self.bin / reel.name):
                raise FileExistsError(reel.name)
            os.rename(self.folders[device] / reel.name, self.bin / reel.name)
            for folder in (bin, stack):
                with suppress(OSError):
                    os.fsync(folder)
        finally:
            os.close(stack)
            os.close(bin)
        reel.file.close()


def lock(folder: int) -> None:
    """Takes the lock of a folder, which others of this program may have, too."""
    for _ in range(LOCK_TURNS - 1):
        with suppress(BlockingIOError):
            return fcntl.flock(folder, fcntl.LOCK_EX | fcntl.LOCK_NB)
        os.sched_yield()
    fcntl.flock(folder, fcntl.LOCK_EX | fcntl.LOCK_NB)


class Files:
    """The same over files in memory, one stack: a list of names, and what each file holds."""

    def __init__(self, stack: dict[str, bytes], capacity: int = CAPACITY, device: bytes = b"/dev/st0") -> None:
        self.folders = {device: None}
        self.stack = dict(stack)
        self.bin: dict[str, bytes] = {}
        self.capacity = capacity
        self.reel: Tape | None = None
        self.name = ""

    def latch(self, device: bytes) -> Tape | None:
        if not self.stack:
            return None
        self.name = min(self.stack)
        self.reel = Tape(self.stack[self.name], self.capacity)
        return self.reel

    def closed(self, reel: Tape) -> None:
        self.stack[self.name] = reel.data()
        self.reel = None

    def offline(self, device: bytes, reel: Tape) -> None:
        self.bin[self.name] = reel.data()
        del self.stack[self.name]
        self.reel = None

    def held(self) -> tuple[dict[str, bytes], dict[str, bytes]]:
        """What stack and bin hold, also of a reel that is open."""
        stack = dict(self.stack)
        if self.reel:
            stack[self.name] = self.reel.data()
        return stack, self.bin


# The session.


class Request(NamedTuple):
    """A whole request. The numbers are those of its lines; a write of too many bytes has none of them."""

    letter: bytes
    device: bytes = b""
    numbers: tuple[int, ...] = ()
    data: bytes = b""


def error(number: int) -> bytes:
    return b"E%d\n%s\n" % (number, TEXTS[number])


def done(number: int) -> bytes:
    return b"A%d\n" % number


class Holders:
    """Which devices sessions hold."""

    def __init__(self) -> None:
        self.looking = threading.Lock()
        self.held: set[bytes] = set()

    def take(self, device: bytes) -> bool:
        """Whether nobody held it. Then it is held."""
        with self.looking:
            was_free = device not in self.held
            self.held.add(device)
            return was_free

    def give(self, device: bytes) -> None:
        with self.looking:
            self.held.remove(device)


class Session:
    """One client, with nothing open or one device, whose reel is there or has been taken away."""

    def __init__(self, drives: Drives | Files, holders: Holders | None = None) -> None:
        self.drives = drives
        self.holders = holders or Holders()
        self.device: bytes | None = None
        self.access = 0
        self.reel: Tape | None = None

    def end(self) -> None:
        """Closes what is open."""
        if self.reel:
            self.drives.closed(self.reel)
        if self.device is not None:
            self.holders.give(self.device)
        self.device = self.reel = None

    def reply(self, request: Request) -> bytes:
        """Carries a request out."""
        if request.letter == b"O":
            return self.open(request.device, request.numbers[0] % 4)
        if self.device is None:
            return error(9)
        if request.letter == b"C":
            self.end()
            return done(0)
        if self.reel is None:
            return error(6)
        try:
            if request.letter == b"W":
                return self.write(request.numbers[0], request.data)
            if request.letter == b"R":
                return self.read(request.numbers[0])
            return self.operation(*request.numbers)
        except OSError:
            return error(5)

    def open(self, device: bytes, access: int) -> bytes:
        self.end()
        if access == 3:
            return error(22)
        if device not in self.drives.folders:
            return error(2)
        if not self.holders.take(device):
            return error(16)
        self.device, self.access = device, access
        try:
            self.reel = self.drives.latch(device)
        except OSError:
            self.end()
            return error(5)
        if self.reel is None:
            self.end()
            return error(6)
        return done(0)

    def write(self, count: int, data: bytes) -> bytes:
        if self.access == 0:
            return error(9)
        if not 1 <= count <= GREATEST_RECORD:
            return error(22)
        return done(count if given(self.reel).write(data) else 0)

    def read(self, count: int) -> bytes:
        if self.access == 1:
            return error(9)
        if count == 0:
            return error(22)
        data = given(self.reel).read(min(count, GREATEST_RECORD))
        return done(len(data)) + data

    def operation(self, operation: int, count: int) -> bytes:
        if operation > 7:
            return error(22)
        if operation == 0 and self.access == 0:
            return error(13)
        reel = given(self.reel)
        if operation == 0:
            return done(count) if reel.mark(count) else error(28)
        if operation in (5, 6):
            reel.place = 0
        if operation == 6:
            self.drives.offline(given(self.device), reel)
            self.reel = None
        if 1 <= operation <= 4:
            return done(count) if reel.space(operation, count) else error(5)
        return done(count)


# The wire.


class Fault(Exception):
    """A byte that no request can have there."""


class Unfinished(Exception):
    """The input ended inside a request."""


class Wire:
    """The requests of a stream of bytes."""

    def __init__(self, stream: IO[bytes]) -> None:
        self.stream = stream

    def requests(self) -> Iterator[Request]:
        """Each whole request, up to the end of the input, to a fault, or to an end inside a request."""
        while letter := self.stream.read(1):
            if letter == b"O":
                yield Request(letter, self.line(), (self.number(mode=True),))
            elif letter == b"C":
                self.line()
                yield Request(letter)
            elif letter == b"W":
                count = self.number()
                yield Request(letter, b"", (count,), self.data(count))
            elif letter == b"R":
                yield Request(letter, b"", (self.number(),))
            elif letter == b"I":
                yield Request(letter, b"", (self.number(), self.number()))
            else:
                raise Fault

    def byte(self) -> bytes:
        if byte := self.stream.read(1):
            return byte
        raise Unfinished

    def line(self, text: bytes = b"") -> bytes:
        """The rest of a line that began with this text."""
        while (byte := self.byte()) != b"\n":
            text += byte
            if len(text) > LONGEST_LINE:
                raise Fault
        return text

    def number(self, mode: bool = False) -> int:
        """A number and the line feed after it, or, in a mode, a space and any text."""
        digits = b""
        while (byte := self.byte()).isdigit():
            digits += byte
            if len(digits) > 10 or int(digits) > GREATEST_NUMBER:
                raise Fault
        if not digits or byte not in (b"\n", b" ") or (byte == b" " and not mode):
            raise Fault
        if byte == b" ":
            self.line(digits + byte)
        return int(digits)

    def data(self, count: int) -> bytes:
        """The data of a write, of which those of one that is too long are dropped."""
        kept = b""
        left = count
        while left:
            piece = self.stream.read(min(left, GREATEST_RECORD))
            if not piece:
                raise Unfinished
            left -= len(piece)
            kept = kept + piece if count <= GREATEST_RECORD else b""
        return kept


def requests_of(text: bytes) -> Iterator[Request]:
    """The whole requests of these bytes, up to the first fault."""
    try:
        yield from Wire(io.BytesIO(text)).requests()
    except (Fault, Unfinished):
        return


def answers(drives: Drives | Files, text: bytes) -> bytes:
    """What a session answers to these bytes."""
    session = Session(drives)
    answered = b"".join([session.reply(it) for it in requests_of(text)])
    session.end()
    return answered


def serve(drives: Drives, requests: IO[bytes], replies: IO[bytes], holders: Holders | None = None) -> int:
    """Serves one client, and answers the exit status."""
    session = Session(drives, holders)
    try:
        for request in Wire(requests).requests():
            replies.write(session.reply(request))
            replies.flush()
    except Unfinished:
        return TRUNCATED
    except Fault:
        return BROKEN
    except OSError:
        return FAILED
    finally:
        session.end()
    return END


# The program.


# A time that no connection comes to, and Python can wait for.
FOREVER = 1_000_000_000


class Parser(argparse.ArgumentParser):
    """Ends with status 1 for words that are wrong."""

    def error(self, message: str) -> NoReturn:
        refuse(message)


def refuse(message: str) -> NoReturn:
    """Tells what is wrong, and ends."""
    sys.stderr.write(f"rmtd: {message}\n")
    sys.exit(FAILED)


def lawful_number(word: str) -> int:
    if not word.isdecimal() or int(word) > 9_223_372_036_854_775_807:
        raise argparse.ArgumentTypeError(f"{word!r} is no number")
    return int(word)


def drives_of(words: argparse.Namespace) -> Drives:
    """The drives that the words name, whose folders are there and can be written."""
    folders: dict[bytes, Path] = {}
    for word in words.drives:
        device, parted, folder = word.partition("=")
        if not device or not parted or not folder or os.fsencode(device) in folders:
            refuse(f"{word!r} is no drive")
        folders[os.fsencode(device)] = Path(folder)
    if not words.bin or not 1 <= len(folders) <= 64:
        refuse("--bin and 1 to 64 drives are required: " + " ".join(words.drives))
    for folder in (*folders.values(), Path(words.bin)):
        if not folder.is_dir() or not os.access(folder, os.R_OK | os.W_OK | os.X_OK):
            refuse(f"{folder}: not a folder that can be written")
    return Drives(folders, Path(words.bin), words.capacity)


def serve_connection(drives: Drives, stream: socket.socket, holders: Holders, seats: threading.Semaphore) -> None:
    """Serves a connection, and ends it."""
    with stream, suppress(OSError), stream.makefile("rb") as requests, stream.makefile("wb") as replies:
        serve(drives, requests, replies, holders)
    seats.release()


def is_left(path: str) -> bool:
    """Whether a socket that refuses connections lies at a path."""
    with suppress(FileNotFoundError), socket.socket(socket.AF_UNIX) as stream:
        try:
            is_socket = stat.S_ISSOCK(os.lstat(path).st_mode)
            stream.connect(path)
        except ConnectionRefusedError:
            return is_socket
    return False


def bound(address: str) -> socket.socket:
    """A listener at a host and a port, or at a path, where a socket that was left is replaced."""
    if not address.startswith("unix:/"):
        host, _, port = address.rpartition(":")
        return socket.create_server((host, int(port)))
    path = address.removeprefix("unix:")
    if is_left(path):
        os.unlink(path)
    return socket.create_server(path, family=socket.AF_UNIX)


def listen(drives: Drives, address: str, connections: int | None, idle: int) -> int:
    """Serves each connection in a thread of its own. One that comes while as many as there are seats are served is closed, and so is one
    that gets no thread. One that gives and takes nothing for so many seconds is ended."""
    holders, seats = Holders(), threading.Semaphore(SEATS)
    with bound(address) as listener:
        print("listening on", address if listener.family == socket.AF_UNIX else "%s:%d" % listener.getsockname(), flush=True)
        while connections is None or connections > 0:
            stream, _ = listener.accept()
            stream.settimeout(min(idle, FOREVER) or None)
            connections = None if connections is None else connections - 1
            if not seats.acquire(blocking=False):
                stream.close()
                continue
            try:
                threading.Thread(target=serve_connection, args=(drives, stream, holders, seats)).start()
            except RuntimeError:
                stream.close()
                seats.release()
        for _ in range(SEATS):
            seats.acquire()
    return END


def main() -> int:
    parser = Parser(description="A plain model of the tape server.", allow_abbrev=False)
    way = parser.add_mutually_exclusive_group(required=True)
    way.add_argument("--stdio", action="store_true")
    way.add_argument("--listen", metavar="ADDRESS")
    parser.add_argument("--capacity", type=lawful_number, default=CAPACITY)
    parser.add_argument("--connections", type=lawful_number)
    parser.add_argument("--idle", type=lawful_number)
    parser.add_argument("--bin", metavar="DIR")
    parser.add_argument("drives", nargs="*", metavar="DEVICE=DIR")
    words = parser.parse_args()
    if sys.argv.count("--bin") > 1:
        refuse("--bin is given twice")
    if words.stdio and words.idle is not None:
        refuse("--idle is given with --listen only")
    drives = drives_of(words)
    if words.listen:
        return listen(drives, words.listen, words.connections, words.idle or 0)
    return serve(drives, sys.stdin.buffer, sys.stdout.buffer)


if __name__ == "__main__":
    sys.exit(main())
