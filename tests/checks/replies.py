"""Plays a server to the built `rdump dump` over the loopback: replies that come a byte at a time, that are followed by a byte more, or cut off by a
close or a reset after each number of their bytes, and bytes that are no reply.

What is wanted are the lists of docs/WORLD.md, by hand: before the count each of these fails the attempt, and after it nothing does. What a reel shows
to the look goes on, unless it is the label of a volume that is counted.
"""

from __future__ import annotations

import socket
from typing import NamedTuple

from tests.lib.checkpoints import RUN
from tests.lib.connections import reset_at_close
from tests.lib.dumping import DAY, DumpCase, label, requests_of
from tests.lib.ended import ABNORMAL, DONE
from tests.lib.listeners import Listener
from tests.lib.played_servers import Received
from tests.lib.waiting import GUARD_SECONDS
from tests.lib.wire import record
from tests.models.checkpoint import text_of
from tests.models.world import Volume

BLOCK = bytes(range(256)) * 4
# What a dump of one block sends, and the replies that it goes on with: to an open, a rewind, a look at a blank reel, a rewind, a label, a block, a
# mark, the move to the bin, a close.
REQUESTS = requests_of(1, 0, [BLOCK])
REPLIES = (b"A0\n", b"A1\n", b"A0\n", b"A1\n", b"A1024\n", b"A1024\n", b"A1\n", b"A1\n", b"A0\n")
REWIND, LOOK, BLOCK_WRITE, MOVE, CLOSING = 2, 3, 6, 8, 9
COMPLETE = "volume 1: 1 blocks from 0\ndump complete: 1 volumes, 1 blocks\n"
CLOSE, RESET = "close", "reset"
# Replies are sent in one piece, or in pieces of a byte.
WHOLE, BYTES = 1 << 16, 1


def failed(fault: str, volume: int = 1) -> str:
    """What is printed where the first attempt at a volume fails so, and the operator abandons the dump."""
    return f"volume {volume} failed: {fault}\nretry?\ndump abandoned\n"


def manner(piece: int) -> str:
    return "in one piece" if piece > 1 else "a byte at a time"


class Reply(NamedTuple):
    """What is sent in place of a reply, in pieces of so many bytes, and the end of the connection after it, if any."""

    data: bytes
    piece: int = WHOLE
    end: str = ""

    def send(self, stream: socket.socket) -> None:
        for at in range(0, len(self.data), self.piece):
            stream.sendall(self.data[at : at + self.piece])


class Played(Listener):
    """A server that sends these in place of the replies of their numbers, counted from 1 in each connection. It notes all that is sent to it."""

    def __init__(self, replies: dict[int, Reply]) -> None:
        self.replies = replies
        self.log: list[bytes] = []
        super().__init__()

    def serve(self, client: socket.socket) -> None:
        client.settimeout(GUARD_SECONDS)
        received = Received(client)
        received.log = self.log
        for number, whole in enumerate(REPLIES, 1):
            if not received.request():
                return
            reply = self.replies.get(number, Reply(whole))
            reply.send(client)
            if reply.end:
                # The next request shows that a whole reply was heard before the end.
                if reply.data == whole:
                    received.request()
                if reply.end == RESET:
                    reset_at_close(client)
                return
        received.request()


class Dumped(NamedTuple):
    """What a dump printed, its status, and what it sent."""

    printed: str
    status: int
    sent: list[bytes]


class ReplyCase(DumpCase):
    """A dump of one block to a server of the test's own."""

    def setUp(self) -> None:
        super().setUp()
        self.p.file("payload", BLOCK)

    def dump(self, replies: dict[int, Reply], **changed: str) -> Dumped:
        """Dumps to a server that replies so, and abandons a dump that failed."""
        with Played(replies) as server:
            got = self.p.run(*self.p.dump_words(server.address, **changed))
        return Dumped(got.output, got.status, server.log)

    def completes(self, title: str, replies: dict[int, Reply]) -> None:
        """The dump is complete, and what it sends is what it has to be."""
        got = self.dump(replies)
        self.same(title, got, Dumped(COMPLETE, DONE, REQUESTS[: len(got.sent)]))

    def breaks(self, title: str, fault: str, at: int, replies: dict[int, Reply]) -> None:
        """The attempt fails so at the reply of this number, and nothing more is sent."""
        self.same(title, self.dump(replies), Dumped(failed(fault), ABNORMAL, REQUESTS[:at]))


class ByteAtATime(ReplyCase):
    """Each reply, and all of them, in pieces of a byte; and errors so."""

    def test_replies(self) -> None:
        self.completes("each reply in one piece", {})
        self.completes("each reply a byte at a time", {number: Reply(data, BYTES) for number, data in enumerate(REPLIES, 1)})
        for number, data in enumerate(REPLIES, 1):
            self.completes(f"reply {number} a byte at a time", {number: Reply(data, BYTES)})

    def test_errors(self) -> None:
        for number in range(1, MOVE + 1):
            replies = {number: Reply(b"E5\nInput/output error\n", BYTES)}
            self.breaks(f"an error for reply {number}, a byte at a time", "Refused 5", number, replies)
        self.completes("an error for the close, a byte at a time", {CLOSING: Reply(b"E9\nBad file descriptor\n", BYTES)})


class ByteMore(ReplyCase):
    """A byte after each reply: it fails the attempt before the count, and nothing after it."""

    def is_followed_by(self, byte: bytes) -> None:
        """Each reply is, in one piece and a byte at a time.

        Where the byte comes late the client may have sent its next request. It is the first byte of a reply then, and the LF that the server sends
        there makes it none.
        """
        for number, data in enumerate(REPLIES, 1):
            for piece in (WHOLE, BYTES):
                title = f"reply {number} and the byte {byte!r}, {manner(piece)}"
                if number >= MOVE:
                    self.completes(title, {number: Reply(data + byte, piece)})
                    continue
                got = self.dump({number: Reply(data + byte, piece), number + 1: Reply(b"\n", end=CLOSE)})
                self.same(title, (got.printed, got.status), (failed("Botched"), ABNORMAL))
                self.holds(f"{title}: what is sent", got.sent in (REQUESTS[:number], REQUESTS[: number + 1]), got.sent)

    def test_letters_of_replies(self) -> None:
        for byte in (b"A", b"E"):
            self.is_followed_by(byte)

    def test_bytes_that_begin_no_reply(self) -> None:
        for byte in (b"\n", b"z", b"\0"):
            self.is_followed_by(byte)


class CutOff(ReplyCase):
    """The end of the connection after each number of bytes of each reply."""

    def ends_anywhere(self, way: str) -> None:
        for number, data in enumerate(REPLIES, 1):
            for count in range(len(data) + 1):
                title = f"a {way} after {count} bytes of reply {number}"
                replies = {number: Reply(data[:count], end=way)}
                if number > MOVE or (number, count) == (MOVE, len(data)):
                    self.completes(title, replies)
                else:
                    self.breaks(title, "ConnectionEnded", number + (count == len(data)), replies)

    def test_by_a_close(self) -> None:
        self.ends_anywhere(CLOSE)

    def test_by_a_reset(self) -> None:
        self.ends_anywhere(RESET)


# To a rewind, in place of `A1`.
TO_THE_REWIND = (
    (b"A00000000001\n", "Botched"),
    (b"A\n", "Botched"),
    (b"B1\n", "Botched"),
    (b"A1 \n", "Botched"),
    (b"A 1\n", "Botched"),
    (b"A-1\n", "Botched"),
    (b"A2147483648\n", "Botched"),
    (b"A2\n", "Botched"),
    (b"\n", "Botched"),
    (b"\0", "Botched"),
    (b"a1\n", "Botched"),
    (b"E5\nInput/output error\n", "Refused 5"),
    (b"E0000000028\n\n", "Refused 28"),
    (b"E5\n" + b"z" * 10_000 + b"\n", "Refused 5"),
)
# What waits for more bytes.
UNFINISHED = (b"E5\n", b"E5\nInput", b"E", b"A", b"A0000000001", b"E5\n" + b"z" * 10_000)
# To a block, in place of `A1024`.
TO_A_BLOCK = ((b"A1025\n", "ShortWrite"), (b"A1\n", "ShortWrite"), (b"A0\n", "ReelTooSmall"), (b"E28\nfull\n", "ReelTooSmall"), (b"X\n", "Botched"))


class Noise(ReplyCase):
    """Bytes that are no reply, or another one than is wanted."""

    def test_to_the_rewind(self) -> None:
        for piece in (WHOLE, BYTES):
            how = manner(piece)
            self.completes(f"leading zeros, {how}", {REWIND: Reply(b"A0000000001\n", piece)})
            for data, fault in TO_THE_REWIND:
                self.breaks(f"{data[:40]!r} to the rewind, {how}", fault, REWIND, {REWIND: Reply(data, piece)})

    def test_unfinished_replies(self) -> None:
        for piece in (WHOLE, BYTES):
            for data in UNFINISHED:
                for way in (CLOSE, RESET):
                    title = f"{data[:40]!r} to the rewind, {manner(piece)}, and a {way}"
                    self.breaks(title, "ConnectionEnded", REWIND, {REWIND: Reply(data, piece, way)})

    def test_to_a_block(self) -> None:
        for piece in (WHOLE, BYTES):
            for data, fault in TO_A_BLOCK:
                self.breaks(f"{data!r} to a block, {manner(piece)}", fault, BLOCK_WRITE, {BLOCK_WRITE: Reply(data, piece)})


# What a reel may begin with where nothing is counted: a record of another program, labels, and what begins as one.
FOREIGN = (b"x", b"hello", bytes(1024), BLOCK, label(1, 0), label(1, 0)[:-1], label(2, 1), label(1, 0).replace(b"/usr", b"/opt"))
# In place of the reply to the look.
TO_THE_LOOK = (
    (b"A1025", "Botched"),
    (b"A2147483647", "Botched"),
    (b"A00000000001", "Botched"),
    (b"A\n", "Botched"),
    (b"A-1\n", "Botched"),
    (b"X\n", "Botched"),
    (b"E5\nInput/output error\n", "Refused 5"),
    (b"E12\nCannot allocate memory\n", "Refused 12"),
    (b"E28\nNo space left on device\n", "Refused 28"),
)


class Looks(ReplyCase):
    """What a reel begins with, where nothing is counted: the attempt goes on at each record, and ends where the record does not come whole."""

    def test_records(self) -> None:
        for piece in (WHOLE, 100, BYTES):
            for data in FOREIGN:
                self.completes(f"a reel that begins with {data[:20]!r}, in pieces of {piece}", {LOOK: Reply(record(data), piece)})
            self.completes(f"leading zeros to the look, in pieces of {piece}", {LOOK: Reply(b"A0000000005\nhello", piece)})

    def test_other_replies(self) -> None:
        for piece in (WHOLE, 100, BYTES):
            for data, fault in TO_THE_LOOK:
                self.breaks(f"{data!r} to the look, in pieces of {piece}", fault, LOOK, {LOOK: Reply(data, piece)})

    def test_records_that_are_cut_off(self) -> None:
        for way in (CLOSE, RESET):
            for data in (record(b"hello"), record(label(1, 0))):
                for count in (it for it in (*range(16), len(data) - 1) if it < len(data)):
                    title = f"a {way} after {count} bytes of {len(data)} to the look"
                    self.breaks(title, "ConnectionEnded", LOOK, {LOOK: Reply(data[:count], end=way)})


# A dump of three blocks that goes on with two counts.
COUNTS = (Volume(1, 0, 1), Volume(2, 1, 1))
LAST_REQUESTS = requests_of(3, 2, [BLOCK])
LAST = "volume 3: 1 blocks from 2\ndump complete: 3 volumes, 3 blocks\n"
# What is none of its labels, though nearly one.
NEARLY = (
    label(3, 2),
    label(1, 1),
    label(2, 0),
    label(1, 0)[:-1],
    label(1, 0)[:-1] + b"x",
    label(1, 0, since=1),
    label(1, 0, date=DAY + 1),
    label(1, 0).replace(b"/usr", b"/opt"),
    label(1, 0).replace(b"level 0", b"level 1"),
    label(1, 0).rstrip(b"\0"),
    b"",
    b"x",
)


class CountedReels(ReplyCase):
    """What a reel begins with, where two volumes are counted: at the label of either the attempt fails, and nothing more is sent."""

    def setUp(self) -> None:
        super().setUp()
        self.p.file("three", 3 * BLOCK)

    def last_volume(self, look: Reply) -> Dumped:
        """The dump goes on at its third volume, where the look is answered so."""
        self.p.file("kept", text_of(RUN, COUNTS))
        return self.dump({LOOK: look}, payload="three", checkpoint="kept")

    def test_labels_that_are_counted(self) -> None:
        for piece in (WHOLE, 100, BYTES):
            for it in COUNTS:
                wanted = Dumped(failed(f"CountedReel {it.volume}", 3), ABNORMAL, LAST_REQUESTS[:LOOK])
                got = self.last_volume(Reply(record(label(it.volume, it.first)), piece))
                self.same(f"the label of volume {it.volume}, in pieces of {piece}", got, wanted)

    def test_what_is_nearly_such_a_label(self) -> None:
        for piece in (WHOLE, 100, BYTES):
            for data in NEARLY:
                got = self.last_volume(Reply(record(data), piece))
                self.same(f"what is no label of it, {data[:60]!r}, in pieces of {piece}", got, Dumped(LAST, DONE, LAST_REQUESTS))

    def test_a_label_without_its_last_byte(self) -> None:
        got = self.last_volume(Reply(record(label(1, 0))[:-1], end=CLOSE))
        wanted = Dumped(failed("ConnectionEnded", 3), ABNORMAL, LAST_REQUESTS[:LOOK])
        self.same("the label of volume 1 but for its last byte", got, wanted)
