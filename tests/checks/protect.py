"""Checks `rdump dump --protect` over the loopback: on which reels it writes, what it tells of the others, and what the look asks.

The server is the built `rmtd` at a drive in a folder. Where it is to answer otherwise, or what the look sends is compared, a model stands in its
place.
"""

from __future__ import annotations

import select
import subprocess
import tempfile
from contextlib import contextmanager
from pathlib import Path
from typing import Iterator, NamedTuple

from tests.lib.connections import NOWHERE
from tests.lib.dumping import BLOCKS, DAY, DAY_BEFORE, ENTRY, ONE_VOLUME, PAYLOAD, RESTORE, TWO_VOLUMES, DumpCase, lines_of, requests_of, write_volume
from tests.lib.ended import ABNORMAL, DONE, FAILED, Ended
from tests.lib.played_servers import Model, Reel, Said
from tests.lib.refusals import refused
from tests.lib.waiting import GUARD_SECONDS
from tests.lib.wire import DEVICE
from tests.models.rmtd import Entry

HELD = "retry?\ndump abandoned\n"
THIS_REEL = "this reel has: /usr level 0 2000-02-29, volume "
# A reel of this size takes two of the payload's three blocks, and then is at its end.
TWO_BLOCKS = 3100
OPEN, REWIND, READ, SPACE, CLOSE = b"O/dev/st0\n0\n", b"I5\n1\n", b"R1024\n", b"I1\n1\n", b"C\n"
EMPTY_LOOK = [OPEN, REWIND, READ, REWIND, SPACE, CLOSE]
RECORD_LOOK = [OPEN, REWIND, READ, CLOSE]


def said_label(name: str = "/usr", level: int = 0, date: int = DAY, volume: int = 1) -> bytes:
    """A label that says this."""
    text = f"name {name}\nlevel {level}\ndate {date}\nsince 0\nvolume {volume}\nfirst 0\n".encode()
    return text + bytes(1024 - len(text))


NO_LABEL, MARK = "begins with a record that is no label", "begins with a mark"


def other(said: str) -> str:
    """What is told that a reel of another dump has."""
    return f"has a volume of another dump: {said}"


def protected(address: str, what: str, device: str = DEVICE, word: str = DEVICE) -> str:
    """What is told of a reel on which the dump does not write, with the command that takes it away."""
    away = f"take it away (rdump mt --to {address} --device {word} offline 1) or lay another reel first, then answer yes"
    return f"rdump: {address}: protected: the first reel of {device} {what}; {away}\n"


OF_HOME = other(f"/home level 0 date {DAY}, volume 1")


def recorded(name: str, *entries: Entry) -> Reel:
    """A reel with these entries, with room for more."""
    reel = Reel(name, 1 << 20)
    reel.entries = list(entries)
    return reel


class Held(NamedTuple):
    """What a reel holds, and what is told of it."""

    title: str
    entries: tuple[Entry, ...]
    tells: str


OWN: tuple[Entry, ...] = (said_label(), *BLOCKS, None)
PROTECTED = (
    Held("a label of another name", (said_label(name="/home"), *BLOCKS, None), OF_HOME),
    Held("a label of a name that begins with this one", (said_label(name="/usr2"), None), other(f"/usr2 level 0 date {DAY}, volume 1")),
    Held("a label of another level", (said_label(level=1), *BLOCKS, None), other(f"/usr level 1 date {DAY}, volume 1")),
    Held("a label of another date", (said_label(date=DAY_BEFORE), *BLOCKS, None), other(f"/usr level 0 date {DAY_BEFORE}, volume 1")),
    Held("a later volume of another dump", (said_label(name="/var", volume=12), None), other(f"/var level 0 date {DAY}, volume 12")),
    Held("a short record", (b"hello", None), NO_LABEL),
    Held("a long record", (bytes(4096), None), NO_LABEL),
    Held("a label without its last byte", (said_label()[:-1], None), NO_LABEL),
    Held("a label with a byte after its lines", (said_label()[:-1] + b"x", None), NO_LABEL),
    Held("no label, and one behind it", (b"x", *OWN), NO_LABEL),
    Held("a mark", (None,), MARK),
    Held("a mark, and a volume of this dump behind it", (None, *OWN), MARK),
    Held("two marks", (None, None), MARK),
)
UNPROTECTED = (
    Held("an empty reel", (), ""),
    Held("this volume", OWN, f"{THIS_REEL}1\n"),
    Held("another volume of this dump", (said_label(volume=7), *BLOCKS), f"{THIS_REEL}7\n"),
    Held("a label of this dump alone", (said_label(),), f"{THIS_REEL}1\n"),
)


class Site(NamedTuple):
    """A server at a drive in a folder."""

    address: str
    stack: Path
    bin: Path
    server: subprocess.Popen[bytes]

    def binned(self) -> list[str]:
        """The names of the reels in the bin."""
        return sorted(it.name for it in self.bin.iterdir())


class ProtectCase(DumpCase):
    """A payload of three blocks, and servers at a drive in a folder."""

    def setUp(self) -> None:
        super().setUp()
        self.p.file("payload", PAYLOAD)

    @contextmanager
    def site(self, *reels: str, capacity: int = 1 << 20, more: tuple[str, ...] = ()) -> Iterator[Site]:
        """A server whose stack has these empty reels."""
        with tempfile.TemporaryDirectory(dir=self.p.folder) as folder:
            stack, bin = Path(folder) / "st0", Path(folder) / "bin"
            for it in (stack, bin):
                it.mkdir()
            for name in reels:
                stack.joinpath(name).touch()
            with self.p.listening("--capacity", str(capacity), *more, "--bin", str(bin), f"{DEVICE}={stack}") as (address, server):
                yield Site(address, stack, bin, server)

    def end_of(self, client: subprocess.Popen[bytes], said: bytes) -> Ended[str]:
        """Answers a dump that asks, and waits for its end. What a restore needs is left out."""
        output, told = client.communicate(said, timeout=GUARD_SECONDS)
        return Ended(output.decode(), RESTORE.sub("", told.decode()), client.returncode)


class Reels(ProtectCase):
    """On which reels a dump writes, and what is told of each other one, which keeps all its bytes."""

    def test_reels_that_are_kept(self) -> None:
        for it in PROTECTED:
            with self.site("r1") as at:
                write_volume(at.address, list(it.entries))
                before = at.stack.joinpath("r1").read_bytes()
                got = self.p.dump(at.address, "--protect")
                self.told(it.title, got, HELD, ABNORMAL, protected(at.address, it.tells))
                self.same(f"{it.title}: the reel", (at.stack.joinpath("r1").read_bytes(), at.binned()), (before, []))
                got = self.p.run("mt", "--to", at.address, "--device", DEVICE, "nop", "1")
                self.same(f"{it.title}: the drive is free", got.output, "A1\n")

    def test_reels_that_are_written(self) -> None:
        for it in UNPROTECTED:
            with self.site("r1") as at:
                write_volume(at.address, list(it.entries))
                self.told(it.title, self.p.dump(at.address, "--protect"), ONE_VOLUME, DONE, it.tells)
                self.same(f"{it.title}: the reel", at.binned(), ["r1"])

    def test_no_reel(self) -> None:
        with self.site() as at:
            words = f"rdump: {at.address}: the look failed: open: {refused(6, 'open')}"
            self.told("an empty stack", self.p.dump(at.address, "--protect"), HELD, ABNORMAL, words)
            words = f"rdump: {at.address}: the look failed: open: {refused(2, 'open', '/dev/st9')}"
            self.told("no such drive", self.p.dump(at.address, "--protect", device="/dev/st9"), HELD, ABNORMAL, words)

    def test_a_reel_in_memory(self) -> None:
        with self.p.listening() as (address, _):
            write_volume(address, [said_label(name="/home"), None])
            self.told("a reel in memory", self.p.dump(address, "--protect"), HELD, ABNORMAL, protected(address, OF_HOME))

    def test_the_command(self) -> None:
        """It takes the reel away. A drive with a space stands in quotes as a word."""
        with self.site("r1") as at:
            write_volume(at.address, [said_label(name="/home"), None])
            command = self.p.dump(at.address, "--protect").told.split("(")[1].split(")")[0].split()
            self.same("the command", self.p.run(*command[1:]).output, "A1\n")
            self.same("the command: the reel", at.binned(), ["r1"])
        with Said(b"A0\n", b"A1\n", b"A1\nx", b"A0\n") as server:
            got = self.p.dump(server.address, "--protect", device="/dev/st 0")
        self.told("a drive with a space", got, HELD, ABNORMAL, protected(server.address, NO_LABEL, "/dev/st 0", "'/dev/st 0'"))

    def test_without_the_word(self) -> None:
        """A reel of another dump is written over, and standard error says whose it was."""
        with self.site("r1") as at:
            write_volume(at.address, [said_label(name="/home", volume=3), None])
            self.told("without the word", self.p.dump(at.address), ONE_VOLUME, DONE, "this reel has: /home level 0 2000-02-29, volume 3\n")
        with Model(recorded("r1", said_label(name="/home"), None)) as model:
            self.p.dump(model.address)
        self.same("without the word: no look", model.logs, [requests_of(1, 0, BLOCKS)])

    def test_reels_of_this_dump(self) -> None:
        """A label that an attempt of this dump left is written over, and one of a volume that is counted is not."""
        # The first look has six requests. The label is the fifth request of the attempt, and the first block the sixth.
        with Model(Reel("r1", 1 << 20), said={12: b"E5\nbroken\n"}) as model:
            got = self.p.dump(model.address, "--protect", said="yes\n")
        reason = f"rdump: {model.address}: {refused(5, 'write')}"
        self.told("a label that was left", got, f"volume 1 failed: Refused 5\nretry?\n{ONE_VOLUME}", DONE, f"{reason}{THIS_REEL}1\n")
        # With the close of the first attempt its reel is laid on the stack again.
        closed = len(EMPTY_LOOK) + len(requests_of(1, 0, BLOCKS))
        with Model(Reel("r1", TWO_BLOCKS), acts={closed: lambda: model.stack.append(model.bin.pop())}) as model:
            got = self.p.dump(model.address, "--protect")
        failed = "volume 1: 2 blocks from 0\nvolume 2 failed: CountedReel 1\nretry?\ndump abandoned\n"
        came = (got.output, got.status, "CountedReel 1: " in got.told, "protected" in got.told)
        self.same("a counted reel", came, (failed, ABNORMAL, True, False), got.told)


class Slow(Model):
    """A tape server that sees whether another connection comes before it answers a close."""

    early = False

    def reply(self, request: bytes) -> bytes:
        if request == CLOSE:
            self.early |= bool(select.select((self.listener,), (), (), 0.2)[0])
        return super().reply(request)


class Looks(ProtectCase):
    """What a look asks, over a connection of its own, and then what the attempt does."""

    def test_what_is_sent(self) -> None:
        whole = requests_of(1, 0, BLOCKS)
        for title, reel, sent in (
            ("an empty reel", recorded("r1"), [EMPTY_LOOK, whole]),
            ("a label of this dump", recorded("r1", said_label()), [RECORD_LOOK, whole]),
            ("a label of another dump", recorded("r1", said_label(level=3)), [RECORD_LOOK]),
            ("no label", recorded("r1", b"x"), [RECORD_LOOK]),
            ("a mark", recorded("r1", None), [EMPTY_LOOK]),
        ):
            with Model(reel) as model:
                self.p.dump(model.address, "--protect")
            self.same(f"what is sent at {title}", (model.logs, model.ahead), (sent, False))

    def test_the_close_is_waited_for(self) -> None:
        """The attempt waits until the look's close is answered, so it does not find the drive held."""
        with Slow(Reel("r1", TWO_BLOCKS), Reel("r2", TWO_BLOCKS)) as model:
            self.told("two volumes", self.p.dump(model.address, "--protect"), TWO_VOLUMES, DONE, "")
        self.same("no connection before the close is answered", model.early, False)
        self.same("a look before each attempt", [it[0] for it in model.logs], [OPEN, b"O/dev/st0\n2\n"] * 2)

    def test_many_volumes(self) -> None:
        self.p.file("payload", bytes(40 * 1024))
        # A reel takes one block.
        with self.site(*(f"r{number:02}" for number in range(40)), capacity=2100) as at:
            lines = "".join(f"volume {number + 1}: 1 blocks from {number}\n" for number in range(40))
            self.told("forty volumes", self.p.dump(at.address, "--protect"), f"{lines}dump complete: 40 volumes, 40 blocks\n", DONE, "")

    def test_connections(self) -> None:
        """Each look counts for the connections that a server takes."""
        for count, words in ((1, ()), (2, ("--protect",))):
            with self.site("r1", more=("--connections", str(count))) as at:
                self.told(f"{count} connections", self.p.dump(at.address, *words), ONE_VOLUME, DONE, "")
                self.same(f"{count} connections: the server ends", at.server.wait(GUARD_SECONDS), DONE)


REFUSED = b"E5\nbroken\n"
LOOKED = (b"A0\n", b"A1\n", b"A0\n", b"A1\n", REFUSED, b"A0\n")
# Replies of which one or two are refusals, what is told then, and how many requests are sent.
REFUSALS: tuple[tuple[str, tuple[bytes, ...], str, int], ...] = (
    ("the open", (b"E16\nbusy\n",), f"open: {refused(16, 'open')}", 1),
    ("the rewind", (b"A0\n", REFUSED, b"A0\n"), f"rewind: {refused(5, 'rewind')}", 3),
    ("the read", (b"A0\n", b"A1\n", REFUSED, b"A0\n"), f"read: {refused(5, 'read')}", 4),
    ("the second rewind", (b"A0\n", b"A1\n", b"A0\n", REFUSED, b"A0\n"), f"rewind: {refused(5, 'rewind')}", 5),
    ("the mark", (b"A0\n", b"A1\n", b"A0\n", b"A1\n", b"E9\nno\n", b"A0\n"), f"space: {refused(9, 'space')}", 6),
    ("the close", (b"A0\n", b"A1\n", b"A0\n", b"A1\n", REFUSED, REFUSED), f"close: {refused(5, 'close')}", 6),
    ("the read and the close", (b"A0\n", b"A1\n", REFUSED, b"E9\nno\n"), f"read: {refused(5, 'read')}", 4),
)


class LooksThatFail(ProtectCase):
    """Looks that find nothing out, and what is asked in each."""

    def test_refusals(self) -> None:
        for title, replies, tells, sent in REFUSALS:
            with Model(said=dict(enumerate(replies, 1))) as server:
                got = self.p.dump(server.address, "--protect")
            self.told(f"refused: {title}", got, HELD, ABNORMAL, f"rdump: {server.address}: the look failed: {tells}")
            wanted = [*EMPTY_LOOK[: sent - 1], CLOSE] if sent > 1 else [OPEN]
            self.same(f"refused: {title}: what is sent", server.logs, [wanted])

    def test_connections_that_end(self) -> None:
        for count in range(len(LOOKED)):
            with Said(*LOOKED[:count]) as server:
                got = self.p.dump(server.address, "--protect")
            tells = f"rdump: {server.address}: the look failed: the connection ended\n"
            self.told(f"an end after {count} replies", got, HELD, ABNORMAL, tells)
            self.same(f"an end after {count} replies: connections", server.connections, 1)

    def test_no_replies(self) -> None:
        for count in range(len(LOOKED)):
            with Said(*LOOKED[:count], b"X\n") as server:
                got = self.p.dump(server.address, "--protect")
            self.told(f"no reply after {count}", got, HELD, ABNORMAL, f"rdump: {server.address}: the look failed: no reply by the protocol\n")

    def test_no_server(self) -> None:
        words = f"rdump: {NOWHERE}: the look failed: Connection refused (os error 111)\n"
        self.told("no server", self.p.dump(NOWHERE, "--protect"), HELD, ABNORMAL, words)
        self.told("no server, again", self.p.dump(NOWHERE, "--protect", said="yes\n"), "retry?\n" + HELD, ABNORMAL, words * 2)


class Answers(ProtectCase):
    """What may be answered: `yes` looks again, at the reel that is first then, and all else abandons the dump."""

    def test_the_same_reel(self) -> None:
        with self.site("r1") as at:
            write_volume(at.address, [said_label(name="/home"), None])
            line = protected(at.address, OF_HOME)
            for said, times in (("no\n", 1), ("", 1), ("yes!\n", 1), ("Yes\n", 1), ("yes\nno\n", 2), ("yes\nyes\n", 3)):
                got = self.p.dump(at.address, "--protect", said=said)
                self.told(f"answered by {said!r}", got, "retry?\n" * times + "dump abandoned\n", ABNORMAL, line * times)

    def test_another_reel(self) -> None:
        with self.site("r1") as at:
            write_volume(at.address, [said_label(name="/home"), None])
            with self.p.started(*self.p.dump_words(at.address, "--protect", "--update")) as client:
                self.same("exchanged: asked", lines_of(client, 1), "retry?\n")
                at.stack.joinpath("r1").rename(at.stack.parent / "shelf")
                at.stack.joinpath("r2").touch()
                self.told("exchanged: complete", self.end_of(client, b"yes\n"), ONE_VOLUME, DONE, protected(at.address, OF_HOME))
            self.same("exchanged: the reel", at.binned(), ["r2"])
        self.same("exchanged: the entry", self.p.text("dumpdates"), ENTRY)


class Going(ProtectCase):
    """Dumps that have counted a volume, and dumps that go on."""

    first, last = TWO_VOLUMES.split("\n", 1)[0] + "\n", TWO_VOLUMES.split("\n", 1)[1]

    def test_the_second_reel_is_of_another_dump(self) -> None:
        """With a checkpoint and without."""
        for title, words in (("without a checkpoint", ()), ("with a checkpoint", ("--checkpoint", "kept"))):
            with self.site("r2", capacity=TWO_BLOCKS) as at:
                write_volume(at.address, [said_label(name="/home"), None])
                for name in ("r1", "r3"):
                    at.stack.joinpath(name).touch()
                self.is_abandoned(title, at, *words)
                at.bin.joinpath("r1").unlink()
                at.stack.joinpath("r1").touch()
                self.is_completed(title, at, *words)

    def is_abandoned(self, title: str, at: Site, *words: str) -> None:
        """The dump is abandoned at the second reel, which keeps its bytes, and leaves no checkpoint."""
        held = at.stack.joinpath("r2").read_bytes()
        got = self.p.dump(at.address, *words, "--protect")
        self.told(f"{title}: abandoned", got, f"{self.first}{HELD}", ABNORMAL, protected(at.address, OF_HOME))
        self.same(f"{title}: no checkpoint", self.p.folder.joinpath("kept").exists(), False)
        self.same(f"{title}: the reel", at.stack.joinpath("r2").read_bytes(), held)

    def is_completed(self, title: str, at: Site, *words: str) -> None:
        """The second reel is taken away while the dump asks, and then the dump is complete on the third one."""
        with self.p.started(*self.p.dump_words(at.address, *words, "--protect")) as client:
            self.same(f"{title}: asked", lines_of(client, 2), f"{self.first}retry?\n")
            self.same(f"{title}: the checkpoint", self.p.folder.joinpath("kept").exists(), bool(words))
            at.stack.joinpath("r2").rename(at.stack.parent / "shelf")
            self.told(f"{title}: complete", self.end_of(client, b"yes\n"), self.last, DONE, protected(at.address, OF_HOME))
        self.same(f"{title}: the volumes", at.binned(), ["r1", "r3"])

    def test_the_date_of_a_checkpoint(self) -> None:
        """A dump that goes on from a checkpoint knows its reels by the date of that."""
        kept = f"rdump 1\ndevice {DEVICE}\nfs /usr\nlevel 0\ndate {DAY_BEFORE}\nsince 0\nblock 1024\nblocks 3\n".encode()
        for title, date, output, status in (("its own", DAY_BEFORE, ONE_VOLUME, DONE), ("another", DAY, HELD, ABNORMAL)):
            self.p.file("kept", kept)
            with self.site("r1") as at:
                write_volume(at.address, [said_label(date=date), None])
                got = self.p.dump(at.address, "--checkpoint", "kept", "--protect")
                own = "this reel has: /usr level 0 2000-02-28, volume 1\n"
                tells = own if status == DONE else protected(at.address, other(f"/usr level 0 date {DAY}, volume 1"))
                self.told(f"a reel of {title} date", got, output, status, f"going on: 0 volumes, 0 blocks of 3 counted\n{tells}")


class Words(ProtectCase):
    """The word itself."""

    def test_the_help_names_it(self) -> None:
        got = self.p.run("dump", "--help")
        self.same("the help", (got.status, "--protect" in got.output), (DONE, True), got.output)

    def test_it_takes_no_value(self) -> None:
        self.same("a value", self.p.dump(NOWHERE, "--protect=yes").status, FAILED)
