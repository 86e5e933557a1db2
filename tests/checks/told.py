"""Checks what the built `rdump` tells on standard error.

What stands on standard output and the status are compared too. A server of the tests answers with what it is told to, and sees when a client ends
the connection. A payload on a block device takes root and a loop device; where they are not to be had, that is named as skipped.
tests/checks/restore.py has the file that a volume is read back into.
"""

from __future__ import annotations

import os
import re
import shutil
import socket
import subprocess
import time
from contextlib import contextmanager
from pathlib import Path
from typing import Iterator

from tests.lib.connections import NOWHERE, reset_at_close
from tests.lib.dumping import BLOCKS, DAY, EMPTY_VOLUME, ENTRY, LABEL, LOST, NO_BLOCK, PAYLOAD, TWO_VOLUMES, DumpCase, label, lines_of, write_volume
from tests.lib.ended import ABNORMAL, DONE, FAILED, Ended
from tests.lib.played_servers import Model, Reel, Said
from tests.lib.processes import peak_of
from tests.lib.refusals import OPEN, refused
from tests.lib.restores import NO_LABEL, foreign
from tests.lib.terminals import CLEAR, Terminal
from tests.lib.waiting import GUARD_SECONDS
from tests.lib.wire import DEVICE, record

# So long at most may attempts take that wait for three seconds in all, on a busy machine.
MOST_SECONDS = 30
REFUSED = f"rdump: {NOWHERE}: Connection refused (os error 111)\n"
ENDED = "the connection ended"
ASKED = "retry?\ndump abandoned\n"
ANSWERS = "(yes, or anything else to abandon)"
OLD = b"what the file held before, which is longer than some volumes" * 100


class Resets(Said):
    """A server that takes a byte of each connection, and ends it by a reset."""

    def converse(self, client: socket.socket) -> None:
        client.recv(1)
        reset_at_close(client)


class TellCase(DumpCase):
    """Runs of `rdump`, and all that they tell."""

    def read(self, address: str, out: str = "volume", stdout: int = subprocess.PIPE, stderr: int = subprocess.PIPE) -> Ended[str]:
        return self.p.run("read", "--to", address, "--device", DEVICE, "--out", out, stdout=stdout, stderr=stderr)

    def nop(self, address: str, stdout: int = subprocess.PIPE, stderr: int = subprocess.PIPE) -> Ended[str]:
        return self.p.run("mt", "--to", address, "--device", DEVICE, "nop", "1", stdout=stdout, stderr=stderr)


class Volumes(TellCase):
    """What is told of a volume that is read back."""

    def test_volumes(self) -> None:
        words = LABEL.splitlines(keepends=True)
        rows: tuple[tuple[str, bytes, list[bytes], str, bool], ...] = (
            ("three blocks", label(1, 0), BLOCKS, "3 blocks of 1024 bytes\n", False),
            ("no block", label(1, 0), [], "0 blocks\n", False),
            ("one block", label(1, 0), BLOCKS[:1], "1 block of 1024 bytes\n", False),
            ("several lengths", label(1, 0), [b"x", BLOCKS[0], b"yy"], "3 blocks of 1 to 1024 bytes, 1027 bytes in all\n", False),
            ("a reel of another", b"hello", [b"world"], "1 block of 5 bytes\n", True),
            ("a label with a word less", "".join(words[:-1]).encode() + bytes(64), [], "0 blocks\n", True),
            ("a label with a word more", LABEL.encode() + b"more 1\n" + bytes(64), [], "0 blocks\n", True),
            ("a label without a number", LABEL.replace("level 0", "level ").encode(), [], "0 blocks\n", True),
            ("words in another order", "".join(reversed(words)).encode(), [], "0 blocks\n", True),
        )
        for title, first, blocks, tells, is_foreign in rows:
            with self.p.listening("--capacity", str(1 << 16)) as (address, _):
                write_volume(address, [first, *blocks, None])
                tells += foreign(address, NO_LABEL) if is_foreign else ""
                self.told(title, self.read(address), first.split(b"\0")[0].decode(), DONE, tells)
            self.same(f"{title}: the file", self.p.bytes_of("volume"), b"".join(blocks))


class Reasons(TellCase):
    """Why an attempt failed: the address and the system's reason, or what is to be done."""

    def setUp(self) -> None:
        super().setUp()
        self.p.file("payload", PAYLOAD)

    def test_no_server(self) -> None:
        self.told("a dump to no server", self.p.dump(NOWHERE), LOST, ABNORMAL, REFUSED)
        self.told("a read from no server", self.read(NOWHERE), "", ABNORMAL, REFUSED)
        self.told("an operation at no server", self.nop(NOWHERE), "", ABNORMAL, REFUSED)

    def test_no_host(self) -> None:
        got = self.p.dump("no.such.host.invalid:1")
        came = (got.output, got.status, got.told.startswith("rdump: no.such.host.invalid:1: "), "lookup" in got.told)
        self.same("a dump to no host", came, (LOST, ABNORMAL, True, True), got.told)

    def test_connections_that_end(self) -> None:
        with Said(b"A0\n") as server:
            self.told("a server that is gone", self.p.dump(server.address), LOST, ABNORMAL, f"rdump: {server.address}: {ENDED}\n")
        with Resets() as server:
            got = self.p.dump(server.address)
        came = (got.output, "Connection reset by peer (os error 104)" in got.told)
        self.same("a connection that is reset", came, (LOST, True), got)

    def test_no_replies(self) -> None:
        rows: tuple[tuple[bytes, ...], ...] = ((b"X\n",), (b"A0\n", b"A2\n"), (b"A0\n", b"A1\n", b"A1025\n" + bytes(1025)))
        for replies in rows:
            with Said(*replies) as server:
                words = f"rdump: {server.address}: no reply by the protocol\n"
                got = self.p.dump(server.address)
            self.told(f"no reply, after {len(replies)} requests", got, f"volume 1 failed: Botched\n{ASKED}", ABNORMAL, words)

    def test_a_payload_that_became_shorter(self) -> None:
        """Its path is told, once for each attempt that fails by it."""
        payload = self.p.folder / "payload"
        began = (b"A0\n", b"A1\n", b"A0\n", b"A1\n", b"A1024\n")
        with Said(*began, *began, before=lambda: os.truncate(payload, 10)) as server:
            got = self.p.dump(server.address, said="yes\n")
        words = "rdump: payload: a block could not be read: the file became shorter, or its disk failed\n"
        output = "volume 1 failed: SourceFault\nretry?\n" * 2 + "dump abandoned\n"
        self.told("a payload that became shorter, twice", got, output, ABNORMAL, words * 2)

    def test_reels_that_are_too_small(self) -> None:
        """What a volume of one block takes is told: its label, its block and its mark."""
        for capacity, block, takes in ((1000, 1024, 2068), (1040, 1024, 2068), (2067, 1024, 2068), (1040, 512, 1556)):
            with self.p.listening("--capacity", str(capacity)) as (address, _):
                got = self.p.dump(address, block=str(block))
            words = (
                f"rdump: {address}: ReelTooSmall: a volume of one block takes {takes} bytes (label 1032, block {block + 8}, mark 4), "
                "and the reel has less room: the server's capacity or disk is too small; "
                "start rmtd with a larger --capacity, or use a smaller --block\n"
            )
            self.told(f"a reel of {capacity} bytes", got, f"volume 1 failed: ReelTooSmall\n{ASKED}", ABNORMAL, words)
        with self.p.listening("--capacity", "2068") as (address, _):
            got = self.p.dump(address)
        self.same("a reel of 2068 bytes", got.output.startswith("volume 1: 1 blocks from 0\n"), True, got)

    def test_an_empty_payload(self) -> None:
        """It is told, and the dump goes on."""
        self.p.file("payload", b"")
        for more in ((), ("--checkpoint", "kept")):
            with Model(Reel("r1", 4096)) as model:
                got = self.p.dump(model.address, *more)
            self.told(f"an empty payload {more}", got, EMPTY_VOLUME, DONE, NO_BLOCK)

    def test_a_counted_reel(self) -> None:
        """What to do with it is told, once for each attempt that fails by it; a device with a space stands in quotes as a word."""
        volume = (b"A0\n", b"A1\n", b"A0\n", b"A1\n", *[b"A1024\n"] * 3, b"A0\n", b"A1\n", b"A1\n", b"A0\n")
        laid_again = (b"A0\n", b"A1\n", record(label(1, 0)))
        output = "volume 1: 2 blocks from 0\n" + "volume 2 failed: CountedReel 1\nretry?\n" * 2 + "dump abandoned\n"
        for name, device, word in (
            ("a counted reel, twice", DEVICE, DEVICE),
            ("a counted reel on a drive with a space, twice", "/dev/st 0", "'/dev/st 0'"),
        ):
            with Said(*volume, *laid_again, *laid_again) as server:
                got = self.p.dump(server.address, device=device, said="yes\n")
            words = (
                f"rdump: {server.address}: CountedReel 1: the first reel of the stack of {device} begins with the label of volume 1, "
                f"which this dump has counted; take it away (rdump mt --to {server.address} --device {word} offline 1) or lay another one first, "
                "then answer yes\n"
            )
            self.told(name, got, output, ABNORMAL, words * 2)


class Pauses(TellCase):
    """How long an attempt waits after one that came to no server, and after failures that a server answered: not after the first of these."""

    def setUp(self) -> None:
        super().setUp()
        self.p.file("payload", PAYLOAD)

    def test_no_server(self) -> None:
        with Said() as silent:
            for title, address in (("no server", NOWHERE), ("a server that says nothing", silent.address)):
                began = time.monotonic()
                got = self.p.dump(address, said="yes\n" * 3)
                took = time.monotonic() - began
                self.holds(f"{title}: three seconds for four attempts", 3 <= took < MOST_SECONDS, took)
                self.same(f"{title}: four attempts", got.output.count("failed: ConnectionEnded"), 4, got)

    def test_failures_that_are_answered(self) -> None:
        for failures, least in ((1, 0), (4, 3)):
            said = dict.fromkeys(range(1, failures + 1), b"E5\nbroken\n")
            with Model(Reel("r1", 3100), Reel("r2", 3100), said=said) as model:
                began = time.monotonic()
                got = self.p.dump(model.address, said="yes\n" * failures)
                took = time.monotonic() - began
            self.holds(f"{failures} failures that are answered", got.output.endswith(TWO_VOLUMES), got)
            self.holds(f"{failures} failures that are answered: {least} seconds", least <= took < MOST_SECONDS, took)


class Words(TellCase):
    """Words that are wrong, and values that are past a limit."""

    def setUp(self) -> None:
        super().setUp()
        self.p.file("payload", PAYLOAD)

    def test_addresses(self) -> None:
        for to in ("localhost", "localhost:", ":4711", "4711", "127.0.0.1", "localhost:65536", "localhost:+1", "localhost:x", "::1", "::1:4711", ""):
            for title, got in (("dump", self.p.dump(to, payload="missing")), ("read", self.read(to)), ("mt", self.nop(to))):
                begins = got.told.startswith("error: invalid value for '--to <ADDRESS>': ")
                came = (got.output, got.status, begins, f"Usage: rdump {title} " in got.told)
                self.same(f"{title} --to {to!r}", came, ("", FAILED, True, True), got.told)
        self.same("no file is made", self.p.folder.joinpath("volume").exists(), False)

    def test_limits(self) -> None:
        for name, value, limit in (
            ("level", "10", "--level 10: a level is 0 to 9"),
            ("level", "x", "'--level <LEVEL>': a level is 0 to 9"),
            ("block", "0", "--block 0: a block is 1 to 262144 bytes"),
            ("block", "262145", "--block 262145: a block is 1 to 262144 bytes"),
            ("block", "1k", "'--block <BYTES>': a block is 1 to 262144 bytes"),
            ("date", "253402300800", "--date 253402300800: a date is 0 to 253402300799"),
            ("date", "x", "'--date <SECONDS>': a date is 0 to 253402300799"),
        ):
            got = self.p.run(*self.p.dump_words(NOWHERE, **{name: value}))
            tells = (limit in got.told, "Usage: rdump dump " in got.told, "9223372036854775807" in got.told)
            self.same(f"--{name} {value}", (got.output, got.status, tells), ("", FAILED, (True, True, False)), got.told)

    def test_the_payload_comes_before_the_level(self) -> None:
        got = self.p.dump(NOWHERE, level="10", payload="missing")
        self.told("the payload before the level", got, "", FAILED, "rdump: missing: No such file or directory (os error 2)\n")


class Unprinted(TellCase):
    """Outputs that take nothing, and standard streams that are closed."""

    def setUp(self) -> None:
        super().setUp()
        self.p.file("payload", PAYLOAD)
        self.full = self.enterContext(open("/dev/full", "wb")).fileno()

    def test_dumps(self) -> None:
        """The status where neither output can be written is 3 once something was sent."""
        with Model(Reel("r1", 4200)) as model:
            self.same("a dump", self.p.dump(model.address, stdout=self.full, stderr=self.full).status, ABNORMAL)
        self.same("a dump to no server", self.p.dump(NOWHERE, stdout=self.full, stderr=self.full).status, ABNORMAL)
        got = self.p.dump(NOWHERE, payload="missing", stdout=self.full, stderr=self.full)
        self.same("a dump that does not start", got.status, FAILED)

    def test_reads_and_operations(self) -> None:
        with self.p.listening() as (address, _):
            write_volume(address, [label(1, 0), *BLOCKS, None])
            self.same("a read", self.read(address, stdout=self.full, stderr=self.full).status, ABNORMAL)
            self.same("a read into no folder", self.read(address, "none/volume", stdout=self.full, stderr=self.full).status, FAILED)
            for title, to in (("an operation", address), ("an operation at no server", NOWHERE)):
                self.same(title, self.nop(to, stdout=self.full, stderr=self.full).status, ABNORMAL)
        self.same("a read that can't be told of", self.read(NOWHERE, stderr=self.full).status, ABNORMAL)

    def test_wrong_words(self) -> None:
        self.same("wrong words", self.p.run("tape", stdout=self.full, stderr=self.full).status, FAILED)

    def closed(self, closing: str, *words: str) -> Ended[str]:
        """Runs `rdump` with standard streams that a shell closes by these words."""
        return self.p.run("-c", f'exec "$0" "$@" {closing}', self.p.rdump, *words, program="sh")

    def test_no_file_gets_the_place_of_a_closed_output(self) -> None:
        words = ("read", "--device", DEVICE, "--out", "closed", "--to")
        for title, closing, status in (
            ("standard error", "2>&-", DONE),
            # The label can't be printed, so the file has what the read before wrote.
            ("standard output", ">&-", ABNORMAL),
        ):
            with self.p.listening() as (address, _):
                write_volume(address, [label(1, 0), *BLOCKS, None])
                got = self.closed(closing, *words, address)
            self.same(f"a read with {title} closed", (got.status, self.p.bytes_of("closed")), (status, b"".join(BLOCKS)), got)
        self.p.file("closed", OLD)
        got = self.closed("2>&-", *words, NOWHERE)
        self.same("a read that fails with standard error closed", (got.status, self.p.bytes_of("closed")), (ABNORMAL, OLD), got)

    def test_no_file_gets_the_place_of_a_closed_input(self) -> None:
        self.p.file("payload", b"yes\n" * 9)
        got = self.closed("<&-", *self.p.dump_words(NOWHERE))
        came = (got.status, got.output.endswith(ASKED), got.output.count("retry?"))
        self.same("a dump with standard input closed", came, (ABNORMAL, True, 1), got)


class Asked(TellCase):
    """What is told while the operator is asked, and what the server sees meanwhile."""

    def setUp(self) -> None:
        super().setUp()
        self.p.file("payload", PAYLOAD)

    def test_at_a_terminal(self) -> None:
        with Said(b"E2\nno\n", b"E2\nno\n") as server, Terminal() as terminal:
            got = self.p.dump(server.address, said="yes\nno\n", stdout=terminal.far, stderr=terminal.far)
            shown = terminal.shown().replace(CLEAR, "").replace("\r\n", "\n")
        reason = f"rdump: {server.address}: {refused(2, OPEN)}"
        failed = f"{reason}volume 1 failed: Refused 2\nretry?\n{ANSWERS}\n"
        came = (got.status, shown.endswith(failed * 2 + "dump abandoned\n"))
        self.same("what a terminal tells", came, (ABNORMAL, True), shown, failed)

    def test_the_connection_has_ended(self) -> None:
        """After an attempt that failed the server sees the end of its connection."""
        with Said(b"E5\nbroken\n", stays=True) as server, self.p.started(*self.p.dump_words(server.address)) as client:
            self.same("asked", lines_of(client, 2), "volume 1 failed: Refused 5\nretry?\n")
            self.same("the server sees the end", (server.left.wait(GUARD_SECONDS), client.poll()), (True, None))
            rest, _ = client.communicate(b"no\n", timeout=GUARD_SECONDS)
            self.same("abandoned", (rest, client.returncode), (b"dump abandoned\n", ABNORMAL))


class Based(TellCase):
    """The date that a dump builds on is told at a terminal alone. That it is after the dump's own, or that dumpdates can't be written, is told
    wherever standard error goes."""

    late = "rdump: the base date, Tue Feb 29 00:00:00 2000, is after the date of this dump\n"

    def setUp(self) -> None:
        super().setUp()
        self.p.file("payload", b"")
        self.p.file("dumpdates", ENTRY.encode())

    def dump(self, *more: str, **changed: str) -> Ended[str]:
        """A dump of no block to a reel of its own."""
        with Model(Reel("r1", 4096)) as model:
            return self.p.run(*self.p.dump_words(model.address, *more, **changed))

    def test_at_a_terminal(self) -> None:
        for level, since in (("1", "since Tue Feb 29 00:00:00 2000"), ("0", "since the epoch: every block counts as new")):
            with Model(Reel("r1", 4096)) as model, Terminal() as terminal:
                got = self.p.dump(model.address, level=level, stderr=terminal.far)
                shown = terminal.shown()
            came = (got.output, got.status, shown.replace("\r\n", "\n").startswith(f"{NO_BLOCK}{since}\n"))
            self.same(f"a level {level}", came, (EMPTY_VOLUME, DONE, True), got, shown)
            self.told(f"a level {level}, and no terminal", self.dump(level=level), EMPTY_VOLUME, DONE, NO_BLOCK)

    def test_it_is_after_the_date_of_the_dump(self) -> None:
        for date, tells in ((DAY - 1, self.late), (DAY, ""), (DAY + 1, ""), (0, self.late)):
            for more in ((), ("--checkpoint", "kept")):
                self.told(f"a dump of {date} {more}", self.dump(*more, level="1", date=str(date)), EMPTY_VOLUME, DONE, NO_BLOCK + tells)

    def test_a_dump_that_goes_on(self) -> None:
        """Its dates are those of the file."""
        for date, tells in ((DAY - 1, self.late), (DAY, "")):
            kept = f"rdump 1\ndevice {DEVICE}\nfs /usr\nlevel 1\ndate {date}\nsince {DAY}\nblock 1024\nblocks 0\n"
            self.p.file("kept", kept.encode())
            got = self.dump("--checkpoint", "kept", level="1", date="5")
            self.told(f"a dump of {date} that goes on", got, EMPTY_VOLUME, DONE, f"going on: 0 volumes, 0 blocks of 0 counted\n{NO_BLOCK}{tells}")

    def test_dumpdates_cannot_be_written(self) -> None:
        self.p.folder.joinpath("dumpdates.new").mkdir()
        for more, output, status, lines in ((("--update",), "dumpdates not updated\n", ABNORMAL, 3), ((), "", DONE, 1)):
            got = self.dump(*more)
            self.same(f"dumpdates can't be written {more}", (got.output, got.status), (EMPTY_VOLUME + output, status), got.told)
            warned = re.search(r"rdump: dumpdates: .+: the dump can't be entered\n", got.told) is not None
            self.same(f"dumpdates can't be written {more}: a warning", (warned, len(got.told.splitlines())), (bool(more), lines), got.told)


@contextmanager
def looped(path: Path) -> Iterator[str | None]:
    """A block device that is this file; None where there is none to be had."""
    try:
        ran = subprocess.run(("losetup", "--find", "--show", str(path)), capture_output=True, text=True, timeout=GUARD_SECONDS, check=False)
    except OSError:
        yield None
        return
    device = ran.stdout.strip()
    if ran.returncode or not device:
        yield None
        return
    try:
        yield device
    finally:
        subprocess.run(("losetup", "--detach", device), check=False)


class BlockDevice(TellCase):
    """A payload on a block device, and a volume that is read back to one."""

    def device(self, data: bytes) -> str:
        """A block device with these bytes. Where there is none to be had the test is skipped."""
        found = self.enterContext(looped(self.p.folder / self.p.file("disk", data)))
        if found is None:
            self.skipTest("there is no loop device")
        return found

    def test_a_payload_is_read_block_by_block(self) -> None:
        data = os.urandom(64 << 20)
        device, blocks = self.device(data), 1024
        seen: list[int] = []
        # An open, a rewind, a look, a rewind, the label and the blocks are followed by the mark, the move to the bin and the close.
        with Model(Reel("r1", len(data) + 8 * blocks + 65536), acts={blocks + 8: lambda: seen.append(peak_of(client.pid))}) as model:
            words = self.p.dump_words(model.address, payload=device, block="65536", dumpdates="none", date=None)
            with self.p.started(*words, stdin=subprocess.DEVNULL) as client:
                client.communicate(timeout=GUARD_SECONDS)
        self.same("a block device: the dump", client.returncode, DONE)
        self.same("a block device: the volume", b"".join(it or b"" for it in model.bin[0].entries[1:-1]), data)
        self.holds("a block device: it is not kept in memory", bool(seen) and seen[0] < 32 << 10, seen)

    def test_a_sync_fails(self) -> None:
        device = self.device(bytes(1 << 20))
        if not shutil.which("strace"):
            self.skipTest("strace is not installed")
        fails = ("-f", "-qq", "-o", os.devnull, "-e", "trace=fsync,fdatasync", "-e", "inject=fsync,fdatasync:error=EIO:when=1")
        with Said(b"A0\n", b"A1\n", record(label(1, 0)), record(BLOCKS[0]), b"A0\n", b"A0\n") as server:
            words = ("read", "--to", server.address, "--device", DEVICE, "--out", device)
            got = self.p.run(*fails, self.p.rdump, *words, program="strace")
        tells = f"1 block of 1024 bytes\nrdump: {device}: Input/output error (os error 5)\n"
        self.told("a block device that can't be synced", got, LABEL, ABNORMAL, tells)
