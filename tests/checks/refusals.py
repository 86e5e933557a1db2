"""Checks what each command of the built `rdump` tells of an error that a server answers: what it means for the request, and what to do.

Standard output and the status are compared too: they are as ever. A server of the tests answers a request of each kind with each error.
"""

from __future__ import annotations

from tests.lib.dumping import LABEL, PAYLOAD, DumpCase, label
from tests.lib.ended import ABNORMAL, FAILED
from tests.lib.played_servers import Model, Said
from tests.lib.refusals import CLOSE, LONG_WRITE, OFFLINE, OPEN, READ, REWIND, SPACE, WEOF, WRITE, refused, refused_with, words_of
from tests.lib.wire import DEVICE, record

NUMBERS = (2, 5, 6, 9, 12, 13, 16, 22, 28)
ASKED = "retry?\ndump abandoned\n"
# The replies to an attempt, up to the label, and to its first block.
OPENED = (b"A0\n", b"A1\n", b"A0\n", b"A1\n")
LABELLED = (*OPENED, b"A1024\n")
BLOCK = len(PAYLOAD)
# What an attempt asks, and the replies before.
ATTEMPT: tuple[tuple[str, str, tuple[bytes, ...]], ...] = (
    ("the open", OPEN, ()),
    ("the rewind", REWIND, OPENED[:1]),
    ("the look", READ, OPENED[:2]),
    ("the second rewind", REWIND, OPENED[:3]),
    ("the label", WRITE, OPENED),
    ("a block", WRITE, LABELLED),
    ("the mark", WEOF, (*LABELLED, b"A%d\n" % BLOCK)),
    ("the move to the bin", OFFLINE, (*LABELLED, b"A%d\n" % BLOCK, b"A1\n")),
)
# An `A0` or an E28 to the label or to the first block means that the reel is too small.
TOO_SMALL = {(28, "the label"), (28, "a block")}
# What a look asks.
LOOK: tuple[tuple[str, str, tuple[bytes, ...]], ...] = (
    ("the open", OPEN, ()),
    ("the rewind", REWIND, (b"A0\n",)),
    ("the read", READ, (b"A0\n", b"A1\n")),
    ("the space", SPACE, (b"A0\n", b"A1\n", b"A0\n", b"A1\n")),
)
# The operations of `rdump mt`, and what they are called if they are refused.
OPERATIONS = (("fsf", SPACE), ("bsf", SPACE), ("fsr", SPACE), ("bsr", SPACE), ("rewind", REWIND), ("offline", OFFLINE), ("weof", WEOF))


def error(number: int) -> bytes:
    """An error with a text that no program knows."""
    return b"E%d\nany text\n" % number


class Refusals(DumpCase):
    """Each error to each request."""

    def setUp(self) -> None:
        super().setUp()
        self.p.file("payload", PAYLOAD)

    def test_attempts(self) -> None:
        """To each request of an attempt."""
        for title, request, before in ATTEMPT:
            for number in NUMBERS:
                if (number, title) in TOO_SMALL:
                    continue
                with Said(*before, error(number)) as server:
                    got = self.p.dump(server.address, block=str(BLOCK))
                tells = f"rdump: {server.address}: {refused(number, request)}"
                self.told(f"E{number} to {title}", got, f"volume 1 failed: Refused {number}\n{ASKED}", ABNORMAL, tells)

    def test_long_blocks(self) -> None:
        """A block of more than 65,536 bytes is refused by an older server."""
        self.p.file("payload", bytes(1 << 17))
        for block, request in ((65536, WRITE), (65537, LONG_WRITE), (1 << 17, LONG_WRITE)):
            for number in (5, 22):
                with Said(*LABELLED, error(number)) as server:
                    got = self.p.dump(server.address, block=str(block))
                tells = f"rdump: {server.address}: {refused(number, request)}"
                self.told(f"E{number} to {block} bytes", got, f"volume 1 failed: Refused {number}\n{ASKED}", ABNORMAL, tells)

    def test_looks(self) -> None:
        """To each request of the look of a dump that protects reels."""
        for title, request, before in LOOK:
            for number in NUMBERS:
                # With E5 to the space the reel is empty.
                if (request, number) == (SPACE, 5):
                    continue
                with Model(said=dict(enumerate((*before, error(number), b"A0\n"), 1))) as server:
                    got = self.p.dump(server.address, "--protect")
                tells = f"rdump: {server.address}: the look failed: {request}: {refused(number, request)}"
                self.told(f"E{number} to {title} of a look", got, ASKED, ABNORMAL, tells)

    def test_reads(self) -> None:
        for number in NUMBERS:
            rows: tuple[tuple[str, tuple[bytes, ...], str], ...] = (
                (OPEN, (), ""),
                (REWIND, (b"A0\n",), ""),
                (READ, (b"A0\n", b"A1\n", record(label(1, 0))), LABEL),
            )
            for request, before, output in rows:
                with Said(*before, error(number)) as server:
                    got = self.p.run("read", "--to", server.address, "--device", DEVICE, "--out", "volume")
                tells = f"rdump: {server.address}: {refused_with(number, request)}"
                self.told(f"E{number} to the {request} of a read", got, output, ABNORMAL, ("0 blocks\n" if output else "") + tells)

    def test_lists(self) -> None:
        for number in NUMBERS:
            with Said(error(number)) as server:
                got = self.p.run("ls", "--to", server.address, "--device", DEVICE)
            self.told(f"E{number} to a list", got, "", FAILED, f"rdump: {server.address}: {refused_with(number, OPEN)}")

    def test_operations(self) -> None:
        """Standard output has the server's own text."""
        for operation, request in OPERATIONS:
            for number in NUMBERS:
                for at, before in ((OPEN, ()), (request, (b"A0\n",))):
                    with Said(*before, error(number), b"A0\n") as server:
                        got = self.p.run("mt", "--to", server.address, "--device", DEVICE, operation, "1")
                    tells = f"rdump: {server.address}: {refused_with(number, at)}"
                    self.told(f"E{number} to the {at} of {operation}", got, f"E{number} any text\n", ABNORMAL, tells)

    def test_other_numbers(self) -> None:
        """A number that no server of this protocol answers has the system's text."""
        texts = {1: "Operation not permitted", 99: "Cannot assign requested address", 130: "Owner died"}
        for number, text in texts.items():
            with Said(error(number)) as server:
                got = self.p.dump(server.address)
            tells = f"rdump: {server.address}: Refused {number}: {text} (os error {number})\n"
            self.told(f"E{number}", got, f"volume 1 failed: Refused {number}\n{ASKED}", ABNORMAL, tells)

    def test_names_of_drives(self) -> None:
        """Control characters in the name of a drive are not printed."""
        device = "/dev/\x1b[31mst9"
        with Said(error(2)) as server:
            got = self.p.dump(server.address, device=device)
        tells = f"rdump: {server.address}: {refused(2, OPEN, '/dev/?[31mst9')}"
        self.told("a drive with a control character", got, f"volume 1 failed: Refused 2\n{ASKED}", ABNORMAL, tells)


class OneText(DumpCase):
    """All commands tell the same of an empty stack, and of a drive that the server does not have."""

    def test_commands(self) -> None:
        self.p.file("payload", PAYLOAD)
        for it in ("st0", "bin"):
            self.p.folder.joinpath(it).mkdir()
        with self.p.listening("--bin", str(self.p.folder / "bin"), f"{DEVICE}={self.p.folder / 'st0'}") as (address, _):
            for number, device in ((6, DEVICE), (2, "/dev/st9")):
                words = ("--to", address, "--device", device)
                for title, got in (
                    ("dump", self.p.dump(address, device=device)),
                    ("dump --protect", self.p.dump(address, "--protect", device=device)),
                    ("read", self.p.run("read", *words, "--out", "volume")),
                    ("ls", self.p.run("ls", *words)),
                    ("mt", self.p.run("mt", *words, "rewind", "1")),
                    ("mt offline", self.p.run("mt", *words, "offline", "1")),
                ):
                    ends = got.told.endswith(f": {words_of(number, OPEN, device)}\n")
                    self.same(f"E{number} in {title}", (ends, got.told.count("\n")), (True, 1), got)


class Closes(DumpCase):
    """The close of a look is the one request whose refusal is told as that of a close."""

    def test_the_close_of_a_look(self) -> None:
        self.p.file("payload", PAYLOAD)
        replies = (b"A0\n", b"A1\n", record(label(1, 0)), error(5))
        with Said(*replies) as server:
            got = self.p.dump(server.address, "--protect")
        self.told("a refused close", got, ASKED, ABNORMAL, f"rdump: {server.address}: the look failed: close: {refused(5, CLOSE)}")
