"""Conversations with `rmtd --stdio`, written by hand: what is sent, and what is to be answered. Those of docs/PROTOCOL.md are read
from there.

The server has one drive, `/dev/st0`, with one empty reel of 1,048,576 bytes in memory. Each line of text ends with LF.
"""

from __future__ import annotations

from dataclasses import dataclass
from typing import NamedTuple

from tests.lib.examples import examples
from tests.lib.wire import INVALID, IO_ERROR, NO_PERMISSION, NO_REEL, NO_SPACE, NO_SUCH_FILE, NOTHING_OPEN

END_OF_INPUT = 0
FAILED = 1
CUT_SHORT = 2
BROKEN = 3

OPEN = b"O/dev/st0\n2\n"

GREATEST_RECORD = b"r" * 262_144


class Exchange(NamedTuple):
    """One whole request and the answer to it."""

    request: bytes
    answer: bytes


@dataclass(frozen=True)
class Conversation:
    """Exchanges in a row, what is sent after them and gets no answer, and the status that the server ends with."""

    name: str
    exchanges: tuple[Exchange, ...] = ()
    unanswered: bytes = b""
    status: int = END_OF_INPUT

    def sent(self) -> bytes:
        """All that is sent."""
        return b"".join(it.request for it in self.exchanges) + self.unanswered

    def answers(self) -> bytes:
        """All that is to be answered."""
        return b"".join(it.answer for it in self.exchanges)


OPENED = Exchange(OPEN, b"A0\n")
CLOSED = Exchange(b"C\n", b"A0\n")

# Those of docs/PROTOCOL.md, each row an exchange.
EXAMPLES = tuple(Conversation(it.name, tuple(Exchange(*turn[:2]) for turn in it.turns)) for it in examples())

# The first of them: a record and a mark are written, and read back after a rewind. The read of the mark gives no bytes.
WRITTEN_AND_READ_BACK = EXAMPLES[0]

# A record of 4 bytes takes 12 bytes of the reel, and a mark 4. After a record one mark always has room.
LITTLE_REELS = {
    16: Conversation(
        "a record and a mark fill the reel",
        (
            OPENED,
            Exchange(b"W4\nabcd", b"A4\n"),
            Exchange(b"W1\nx", b"A0\n"),
            Exchange(b"I0\n1\n", b"A1\n"),
            Exchange(b"I0\n1\n", NO_SPACE),
            CLOSED,
        ),
    ),
    15: Conversation(
        "marks fill the reel but for 3 bytes",
        (OPENED, Exchange(b"W4\nabcd", b"A0\n"), Exchange(b"I0\n3\n", b"A3\n"), Exchange(b"I0\n1\n", NO_SPACE)),
    ),
}

# Spacing over marks (1 forward, 2 back) and records (3 forward, 4 back), and all that ends it before its count.
SPACING = (
    # The end is met before a record. Above 7 there is no operation.
    Conversation(
        "spacing on an empty reel",
        (OPENED, Exchange(b"I3\n1\n", IO_ERROR), Exchange(b"I8\n1\n", INVALID)),
    ),
    # `a`, a mark, `b`, a mark. Back over both marks the place is before the first, where a read passes it. Back from
    # there that mark is met before a record, and the place is before it again. Forward over it stands `b`.
    Conversation(
        "marks, spaced over both ways",
        (
            OPENED,
            Exchange(b"W1\na", b"A1\n"),
            Exchange(b"I0\n1\n", b"A1\n"),
            Exchange(b"W1\nb", b"A1\n"),
            Exchange(b"I0\n1\n", b"A1\n"),
            Exchange(b"I2\n2\n", b"A2\n"),
            Exchange(b"R9\n", b"A0\n"),
            Exchange(b"I4\n1\n", IO_ERROR),
            Exchange(b"I1\n1\n", b"A1\n"),
            Exchange(b"R1\n", b"A1\nb"),
            CLOSED,
        ),
    ),
    # `a`, `b`, a mark, and the end at place 3. Back: the mark is met first, so place 2; five records are too many, so
    # place 0. Forward: two records to place 2; then the mark is met first, so place 3. Back over the mark to place 2;
    # there is no other, so place 0. Forward there is one mark, so the end. A count of 0 is done where it stands.
    Conversation(
        "records and marks, spaced over past the ends",
        (
            OPENED,
            Exchange(b"W1\na", b"A1\n"),
            Exchange(b"W1\nb", b"A1\n"),
            Exchange(b"I0\n1\n", b"A1\n"),
            Exchange(b"I4\n1\n", IO_ERROR),
            Exchange(b"I4\n5\n", IO_ERROR),
            Exchange(b"I3\n2\n", b"A2\n"),
            Exchange(b"I3\n1\n", IO_ERROR),
            Exchange(b"I2\n1\n", b"A1\n"),
            Exchange(b"I2\n1\n", IO_ERROR),
            Exchange(b"I1\n2\n", IO_ERROR),
            Exchange(b"I2\n0\n", b"A0\n"),
        ),
    ),
    # `a`, `b`, a mark, `c`. A read shows where the spacing before it stopped.
    Conversation(
        "where spacing stops",
        (
            OPENED,
            Exchange(b"W1\na", b"A1\n"),
            Exchange(b"W1\nb", b"A1\n"),
            Exchange(b"I0\n1\n", b"A1\n"),
            Exchange(b"W1\nc", b"A1\n"),
            # back over one record: before `c`
            Exchange(b"I4\n1\n", b"A1\n"),
            Exchange(b"R1\n", b"A1\nc"),
            # back over two: `c`, and then the mark is met, before which it stops; the read passes the mark
            Exchange(b"I4\n2\n", IO_ERROR),
            Exchange(b"R1\n", b"A0\n"),
            Exchange(b"R1\n", b"A1\nc"),
            # back over the mark, and over `b`
            Exchange(b"I2\n1\n", b"A1\n"),
            Exchange(b"I4\n1\n", b"A1\n"),
            Exchange(b"R1\n", b"A1\nb"),
            # two marks are not there: the beginning
            Exchange(b"I2\n2\n", IO_ERROR),
            Exchange(b"R1\n", b"A1\na"),
            # three records ahead: `b`, and then the mark is met, after which it stops
            Exchange(b"I3\n3\n", IO_ERROR),
            Exchange(b"R1\n", b"A1\nc"),
            # one record back, one mark ahead is not there: the end
            Exchange(b"I4\n1\n", b"A1\n"),
            Exchange(b"I1\n1\n", IO_ERROR),
            Exchange(b"R1\n", b"A0\n"),
            # one record on is not there either: the end again
            Exchange(b"I3\n1\n", IO_ERROR),
            Exchange(b"R1\n", b"A0\n"),
            # the greatest count, over all: the beginning, and the first entry
            Exchange(b"I2\n2147483647\n", IO_ERROR),
            Exchange(b"R1\n", b"A1\na"),
            # the greatest count forward over records: `b`, then the mark
            Exchange(b"I3\n2147483647\n", IO_ERROR),
            Exchange(b"R1\n", b"A1\nc"),
        ),
    ),
    # A count of 0 moves nothing in each of the four operations, also right before a mark: the read passes that mark.
    Conversation(
        "spacing by no count",
        (
            OPENED,
            Exchange(b"W1\na", b"A1\n"),
            Exchange(b"I0\n1\n", b"A1\n"),
            Exchange(b"W1\nb", b"A1\n"),
            Exchange(b"I2\n1\n", b"A1\n"),
            Exchange(b"I1\n0\n", b"A0\n"),
            Exchange(b"I2\n0\n", b"A0\n"),
            Exchange(b"I3\n0\n", b"A0\n"),
            Exchange(b"I4\n0\n", b"A0\n"),
            Exchange(b"R1\n", b"A0\n"),
            Exchange(b"R1\n", b"A1\nb"),
        ),
    ),
    # Whatever the access a device may be spaced over, and spacing cuts nothing off. With nothing open it is refused.
    Conversation(
        "spacing with each access",
        (
            Exchange(b"I1\n1\n", NOTHING_OPEN),
            Exchange(b"I4\n0\n", NOTHING_OPEN),
            Exchange(b"O/dev/st0\n1\n", b"A0\n"),
            Exchange(b"W1\na", b"A1\n"),
            Exchange(b"I0\n1\n", b"A1\n"),
            Exchange(b"W1\nb", b"A1\n"),
            Exchange(b"I4\n1\n", b"A1\n"),
            Exchange(b"I2\n1\n", b"A1\n"),
            Exchange(b"O/dev/st0\n0\n", b"A0\n"),
            Exchange(b"I3\n1\n", b"A1\n"),
            Exchange(b"I1\n1\n", b"A1\n"),
            Exchange(b"R1\n", b"A1\nb"),
            Exchange(b"I2\n1\n", b"A1\n"),
            Exchange(b"I4\n1\n", b"A1\n"),
            Exchange(b"R1\n", b"A1\na"),
        ),
    ),
    # `a`, a mark, `b`, a mark. A write before the second mark puts `c` in its place. Then there is one mark.
    Conversation(
        "a write where spacing stopped",
        (
            OPENED,
            Exchange(b"W1\na", b"A1\n"),
            Exchange(b"I0\n1\n", b"A1\n"),
            Exchange(b"W1\nb", b"A1\n"),
            Exchange(b"I0\n1\n", b"A1\n"),
            Exchange(b"I2\n1\n", b"A1\n"),
            Exchange(b"W1\nc", b"A1\n"),
            Exchange(b"I2\n2\n", IO_ERROR),
            Exchange(b"I1\n1\n", b"A1\n"),
            Exchange(b"R1\n", b"A1\nb"),
            Exchange(b"R1\n", b"A1\nc"),
            Exchange(b"R1\n", b"A0\n"),
        ),
    ),
    # With no reel in the drive that comes before every other check of a request: the access, the count, the operation's
    # number, and a write that is too long.
    Conversation(
        "no reel before all other checks",
        (
            Exchange(b"I6\n1\n", NOTHING_OPEN),
            Exchange(b"O/dev/st0\n0\n", b"A0\n"),
            Exchange(b"I6\n0\n", b"A0\n"),
            Exchange(b"I6\n1\n", NO_REEL),
            Exchange(b"W0\n", NO_REEL),
            Exchange(b"W262145\n" + bytes(262_145), NO_REEL),
            Exchange(b"R0\n", NO_REEL),
            Exchange(b"R1\n", NO_REEL),
            Exchange(b"I0\n1\n", NO_REEL),
            Exchange(b"I5\n1\n", NO_REEL),
            Exchange(b"I8\n1\n", NO_REEL),
            # the mode and the name are looked at before the stack
            Exchange(b"O/dev/st0\n3\n", INVALID),
            Exchange(b"C\n", NOTHING_OPEN),
            Exchange(b"O/dev/st9\n2\n", NO_SUCH_FILE),
            Exchange(b"O/dev/st0\n2\n", NO_REEL),
            Exchange(b"R1\n", NOTHING_OPEN),
        ),
    ),
)

# A record takes its length and 8 bytes, a mark 4, and a record has to leave room for a mark after it.
FULL_REELS = (
    # 262,144 marks take all of the 1,048,576 bytes: one more mark is too many, also at once. Back by one mark, there is
    # room for that mark and for no record.
    Conversation(
        "a reel full of marks",
        (
            OPENED,
            Exchange(b"I0\n262145\n", NO_SPACE),
            Exchange(b"I0\n262144\n", b"A262144\n"),
            Exchange(b"I0\n1\n", NO_SPACE),
            Exchange(b"I0\n0\n", b"A0\n"),
            Exchange(b"W1\nx", b"A0\n"),
            Exchange(b"I2\n1\n", b"A1\n"),
            Exchange(b"W1\nx", b"A0\n"),
            Exchange(b"I0\n1\n", b"A1\n"),
            Exchange(b"I0\n1\n", NO_SPACE),
            Exchange(b"I2\n262145\n", IO_ERROR),
            Exchange(b"I1\n262144\n", b"A262144\n"),
            Exchange(b"I1\n1\n", IO_ERROR),
            Exchange(b"I5\n0\n", b"A0\n"),
            Exchange(b"R1\n", b"A0\n"),
            Exchange(b"I2\n1\n", b"A1\n"),
            Exchange(b"I2\n1\n", IO_ERROR),
            CLOSED,
        ),
    ),
    # 15 records of 65,536 bytes take 983,160 bytes. With the 12 beside it a record of 65,405 bytes is a byte too long.
    # One of 65,404 leaves room for just a mark.
    Conversation(
        "a reel full of records",
        (
            Exchange(b"O/dev/st0\n1\n", b"A0\n"),
            *(Exchange(b"W65536\n" + GREATEST_RECORD[:65_536], b"A65536\n") for _ in range(15)),
            Exchange(b"W65405\n" + GREATEST_RECORD[:65_405], b"A0\n"),
            Exchange(b"W65404\n" + GREATEST_RECORD[:65_404], b"A65404\n"),
            Exchange(b"I0\n1\n", b"A1\n"),
            Exchange(b"I0\n1\n", NO_SPACE),
            # back over the mark and the last record there is as much room as before; the short one cuts off both
            Exchange(b"I2\n1\n", b"A1\n"),
            Exchange(b"I4\n1\n", b"A1\n"),
            Exchange(b"W65405\n" + GREATEST_RECORD[:65_405], b"A0\n"),
            Exchange(b"W1\nx", b"A1\n"),
            Exchange(b"I4\n17\n", IO_ERROR),
            Exchange(b"I3\n16\n", b"A16\n"),
        ),
    ),
    # 3 of the greatest records take 786,456 bytes. A record of 262,109 bytes is a byte too long then. One of 262,108 leaves room for
    # just a mark.
    Conversation(
        "a reel full of the greatest records",
        (
            OPENED,
            *(Exchange(b"W262144\n" + GREATEST_RECORD, b"A262144\n") for _ in range(3)),
            Exchange(b"W262109\n" + GREATEST_RECORD[:262_109], b"A0\n"),
            Exchange(b"W262108\n" + GREATEST_RECORD[:262_108], b"A262108\n"),
            Exchange(b"I0\n1\n", b"A1\n"),
            Exchange(b"I0\n1\n", NO_SPACE),
            Exchange(b"I5\n1\n", b"A1\n"),
            Exchange(b"R262145\n", b"A262144\n" + GREATEST_RECORD),
            CLOSED,
        ),
    ),
    # 262,140 marks leave 16 bytes: a record of 4 bytes with a mark after it.
    Conversation(
        "16 bytes left",
        (
            OPENED,
            Exchange(b"I0\n262140\n", b"A262140\n"),
            Exchange(b"W5\nabcde", b"A0\n"),
            Exchange(b"W4\nabcd", b"A4\n"),
            Exchange(b"W1\nx", b"A0\n"),
            Exchange(b"I0\n1\n", b"A1\n"),
            Exchange(b"I0\n1\n", NO_SPACE),
            Exchange(b"I4\n1\n", IO_ERROR),
            Exchange(b"I4\n1\n", b"A1\n"),
            Exchange(b"R5\n", b"A4\nabcd"),
            CLOSED,
        ),
    ),
    # A record of 1 byte and 262,138 marks leave 15 bytes: too few for that record, enough for three marks.
    Conversation(
        "15 bytes left",
        (
            OPENED,
            Exchange(b"W1\nr", b"A1\n"),
            Exchange(b"I0\n262138\n", b"A262138\n"),
            Exchange(b"W4\nabcd", b"A0\n"),
            Exchange(b"I0\n4\n", NO_SPACE),
            Exchange(b"I0\n3\n", b"A3\n"),
            Exchange(b"I0\n1\n", NO_SPACE),
            Exchange(b"I2\n262141\n", b"A262141\n"),
            Exchange(b"I4\n1\n", b"A1\n"),
            Exchange(b"R5\n", b"A1\nr"),
            CLOSED,
        ),
    ),
)

CONVERSATIONS = (
    *EXAMPLES,
    *SPACING,
    *FULL_REELS,
    # No request, so no answer; the input ends between requests.
    Conversation("an empty input"),
    # The data of a write are read also where nothing is open, so that the next request would be found.
    Conversation("a write with no open device", (Exchange(b"W3\nabc", NOTHING_OPEN),)),
    # The input ends inside the data: the request is not carried out.
    Conversation("a write cut short", (OPENED,), unanswered=b"W5\nhel", status=CUT_SHORT),
    # Mode 0 reads only. A write and a mark are refused by different errors.
    Conversation(
        "writes to a device open for reading",
        (
            Exchange(b"O/dev/st0\n0\n", b"A0\n"),
            Exchange(b"W1\nx", NOTHING_OPEN),
            Exchange(b"I0\n1\n", NO_PERMISSION),
        ),
    ),
    # The greatest record is taken; one byte more, or no byte, is refused, and the session goes on after the data.
    Conversation(
        "sizes of a record",
        (
            OPENED,
            Exchange(b"W262144\n" + GREATEST_RECORD, b"A262144\n"),
            Exchange(b"W262145\n" + GREATEST_RECORD + b"r", INVALID),
            Exchange(b"W0\n", INVALID),
            Exchange(b"I7\n9\n", b"A9\n"),
        ),
    ),
    # After the number of a mode, a space and any text are ignored.
    Conversation("a mode with its name", (Exchange(b"O/dev/st0\n2 O_RDWR\n", b"A0\n"),)),
    # Of a mode the two lowest bits count, and both set are no access.
    Conversation("a mode that is no access", (Exchange(b"O/dev/st0\n3\n", INVALID),)),
    # 513 has the lowest bits of 1, which writes only; its higher bits are ignored.
    Conversation(
        "a read from a device open for writing",
        (Exchange(b"O/dev/st0\n513\n", b"A0\n"), Exchange(b"R1\n", NOTHING_OPEN)),
    ),
    # There is one drive, and it has another name.
    Conversation("a drive that is not there", (Exchange(b"O/dev/st9\n2\n", NO_SUCH_FILE),)),
    # A request for the device's status, which is not spoken here, ends the session without an answer.
    Conversation("a letter that is no request", (OPENED,), unanswered=b"S\n", status=BROKEN),
    # The tenth digit makes the number greater than 2147483647.
    Conversation("a number that is too great", unanswered=b"W99999999999\n", status=BROKEN),
    # A number ends with LF and nothing else.
    Conversation("a number with a letter in it", unanswered=b"W3x", status=BROKEN),
    # A write at the reel's beginning loses what stood after it, so the read finds the reel's end.
    Conversation(
        "a write over older records",
        (
            OPENED,
            Exchange(b"W3\nabc", b"A3\n"),
            Exchange(b"W2\nde", b"A2\n"),
            Exchange(b"I5\n1\n", b"A1\n"),
            Exchange(b"W1\nx", b"A1\n"),
            Exchange(b"R5\n", b"A0\n"),
            CLOSED,
        ),
    ),
)


def beginnings(whole: Conversation) -> list[Conversation]:
    """Each beginning of a conversation that ends well, from nothing to all of it."""
    found = []
    for place, exchange in enumerate(whole.exchanges):
        before = whole.exchanges[:place]
        for length in range(len(exchange.request)):
            part = exchange.request[:length]
            name = f"{whole.name}: {place} requests and {length} bytes"
            found.append(Conversation(name, before, part, CUT_SHORT if part else END_OF_INPUT))
    return [*found, whole]


# It follows a first byte. Past a byte that is refused it has a whole request, which is not to be answered any more.
AFTER_A_FIRST_BYTE = b"7\n1\nI7\n1\n"

# The exchanges, the unanswered rest and the status where each of the five letters stands before those bytes.
FIRST_BYTES_OF_REQUESTS: dict[int, tuple[tuple[Exchange, ...], bytes, int]] = {
    # Device `7` with mode 1, then an operation with nothing open, since an open closes first.
    ord("O"): ((Exchange(b"O7\n1\n", NO_SUCH_FILE), Exchange(b"I7\n1\n", NOTHING_OPEN)), b"", END_OF_INPUT),
    # A close whose text is ignored, then the digit 1, which begins no request.
    ord("C"): ((Exchange(b"C7\n", b"A0\n"),), b"1\nI7\n1\n", BROKEN),
    # Seven bytes of data: all that follows the line. It is a whole write.
    ord("W"): ((Exchange(b"W7\n1\nI7\n1\n", b"A7\n"),), b"", END_OF_INPUT),
    # A read at the end of the empty reel, then the digit 1.
    ord("R"): ((Exchange(b"R7\n", b"A0\n"),), b"1\nI7\n1\n", BROKEN),
    # The operation that does nothing, twice.
    ord("I"): ((Exchange(b"I7\n1\n", b"A1\n"), Exchange(b"I7\n1\n", b"A1\n")), b"", END_OF_INPUT),
}


def first_byte_alone(byte: int) -> Conversation:
    """One byte and no more: the beginning of a request, or no request at all."""
    status = CUT_SHORT if byte in FIRST_BYTES_OF_REQUESTS else BROKEN
    return Conversation(f"first byte 0x{byte:02x} alone", (), bytes((byte,)), status)


def first_byte_after_an_open(byte: int) -> Conversation:
    """One byte where a request is to begin, between an open and the same bytes for each of them."""
    refused = ((), bytes((byte,)) + AFTER_A_FIRST_BYTE, BROKEN)
    exchanges, unanswered, status = FIRST_BYTES_OF_REQUESTS.get(byte, refused)
    return Conversation(f"first byte 0x{byte:02x} after an open", (OPENED, *exchanges), unanswered, status)


# A rewind with nothing open is answered so, and so is a close or a read of the number that follows.
REFUSED_REWIND = b"I5\n1\n"
DIGITS = range(ord("0"), ord("9") + 1)
LF = ord("\n")


def first_byte_of_a_rewind(byte: int) -> Conversation:
    """A rewind with this byte in place of its letter, and nothing open."""
    name, sent = f"byte 0x{byte:02x} in place of a rewind's letter", bytes((byte,)) + REFUSED_REWIND[1:]
    if byte == ord("I"):
        return Conversation(name, (Exchange(sent, NOTHING_OPEN),))
    # A device `5` with mode 1; the first two bytes of five; and a close, or a read, after which the digit 1 begins no request.
    if byte == ord("O"):
        return Conversation(name, (Exchange(sent, NO_SUCH_FILE),))
    if byte == ord("W"):
        return Conversation(name, (), sent, CUT_SHORT)
    if byte in b"CR":
        return Conversation(name, (Exchange(sent[:3], NOTHING_OPEN),), sent[3:], BROKEN)
    return Conversation(name, (), sent, BROKEN)


def byte_of_a_rewind(place: int, byte: int) -> Conversation:
    """A rewind with this byte at this place of its text, and nothing open."""
    if place == 0:
        return first_byte_of_a_rewind(byte)
    name = f"byte 0x{byte:02x} at place {place} of a rewind"
    sent = REFUSED_REWIND[:place] + bytes((byte,)) + REFUSED_REWIND[place + 1 :]
    ends_a_number = REFUSED_REWIND[place] == LF
    # A digit in place of a digit is another operation or count, which is looked at after what is open. One in place of LF makes the
    # number longer, and the request has not come to its end then.
    if byte == LF if ends_a_number else byte in DIGITS:
        return Conversation(name, (Exchange(sent, NOTHING_OPEN),))
    return Conversation(name, (), sent, CUT_SHORT if ends_a_number and byte in DIGITS else BROKEN)


def bytes_of_a_rewind() -> list[Conversation]:
    """Each of the 256 bytes at each place of a rewind."""
    return [byte_of_a_rewind(place, byte) for place in range(len(REFUSED_REWIND)) for byte in range(256)]
