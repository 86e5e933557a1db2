"""Checks the built `rdump dump --retry`, which answers its questions itself: after which setbacks it tries again, how often, how long it waits
before, and what it prints and leaves once it gives up.

The servers are of this file, or a model. A dump that is to end at once has a pause that no test waits for, so one that waits is killed.
tests/checks/timeouts.py has a dump over a server that stops, and tests/checks/night.py the script that dumps so.
"""

from __future__ import annotations

import os
import re
import signal
import socket
import subprocess
import time
from contextlib import contextmanager
from typing import Iterator, NamedTuple

from tests.lib.checkpoints import FIRST_REQUESTS, ONE, RUN, going_on, two
from tests.lib.connections import NOWHERE
from tests.lib.dumping import DAY, ENTRY, PAYLOAD, TWO_VOLUMES, DumpCase, end_of, label, lines_of
from tests.lib.ended import ABNORMAL, DONE, Ended
from tests.lib.given import given
from tests.lib.places import is_unproved
from tests.lib.played_servers import Model, Reel, Said
from tests.lib.processes import guarded
from tests.lib.recipes import OPERATING
from tests.lib.refusals import CLOSE, OPEN, READ, REWIND, SPACE, WRITE, refused
from tests.lib.shimmed import DATED, NO_BLOCKS, Left, Ran, SiteCase, dumped
from tests.lib.terminals import CLEAR, Terminal
from tests.lib.wire import record
from tests.models.checkpoint import text_of

# No test waits for this pause.
LONG = ("--pause", "1000")
AT_ONCE = ("--pause", "0")
KEPT = ("--checkpoint", "kept")
ABANDONED = "dump abandoned\n"
GIVEN_UP = "rdump: kept: given up, and this file stays: mend what is named above, leave the payload as it is, and run the same command\n"
BEGUN, FIRST_COUNTED = text_of(RUN), text_of(RUN, ONE)
REFUSED = f"rdump: {NOWHERE}: Connection refused (os error 111)\n"
# What is told at a terminal of a dump at level 0.
NO_BASE = "since the epoch: every block counts as new\n"
FAILED = "volume 1 failed: ConnectionEnded\nretry?\n"
FIRST, LAST = TWO_VOLUMES.splitlines(True)[0], "".join(TWO_VOLUMES.splitlines(True)[1:])


def abandoned_at(address: str) -> str:
    return f"rdump: {address}: given up: without --checkpoint the dump is abandoned\n"


def again(seconds: int) -> str:
    """What is told before each further attempt."""
    return f"rdump: it is tried again in {seconds} seconds\n"


class Setback(NamedTuple):
    """Why an attempt fails or does not begin: the replies that come to it, what it prints before it asks, what is told of it after the server's
    address, and whether it stays."""

    title: str
    replies: tuple[bytes, ...]
    printed: str
    told: str
    stays: bool

    def output(self) -> str:
        return f"{self.printed}retry?\n"


def error(number: int) -> bytes:
    return b"E%d\nno\n" % number


def failed(fault: str, volume: int = 1) -> str:
    return f"volume {volume} failed: {fault}\n"


OPENED = (b"A0\n", b"A1\n", b"A0\n", b"A1\n")
ENDED, BOTCHED = "the connection ended\n", "no reply by the protocol\n"
TOO_SMALL = (
    "ReelTooSmall: a volume of one block takes 2068 bytes (label 1032, block 1032, mark 4), and the reel has less room: the server's capacity or "
    "disk is too small; start rmtd with a larger --capacity, or use a smaller --block\n"
)
STAYS, PASSES = (2, 9, 13, 22), (5, 6, 12, 16, 28)

ATTEMPTS = (
    *(Setback(f"E{it} to the open", (error(it),), failed(f"Refused {it}"), refused(it, OPEN), True) for it in STAYS),
    *(Setback(f"E{it} to a write", (*OPENED, error(it)), failed(f"Refused {it}"), refused(it, WRITE), True) for it in STAYS),
    Setback("no reply of the protocol", (b"X\n",), failed("Botched"), BOTCHED, True),
    Setback("a write of fewer bytes", (*OPENED, b"A1023\n"), failed("ShortWrite"), "", True),
    Setback("a reel that is too small", (*OPENED, b"A0\n"), failed("ReelTooSmall"), TOO_SMALL, True),
    *(Setback(f"E{it} to the open", (error(it),), failed(f"Refused {it}"), refused(it, OPEN), False) for it in PASSES),
    # E28 to the write of a label is a reel that is too small.
    *(Setback(f"E{it} to a write", (*OPENED, error(it)), failed(f"Refused {it}"), refused(it, WRITE), False) for it in PASSES if it != 28),
)

LOOKED = (b"A0\n", b"A1\n", b"A0\n", b"A1\n")
FAILS = "the look failed: "


def protected(what: str) -> str:
    """What is told of a reel on which the dump does not write. ADDRESS is the server's."""
    away = "take it away (rdump mt --to ADDRESS --device /dev/st0 offline 1) or lay another reel first, then answer yes"
    return f"protected: the first reel of /dev/st0 {what}; {away}\n"


LOOKS = (
    *(Setback(f"E{it} to the open of a look", (error(it),), "", f"{FAILS}open: {refused(it, OPEN)}", True) for it in STAYS),
    *(
        Setback(f"E{it} to a later request of a look", (*before, error(it), b"A0\n"), "", f"{FAILS}{request}: {refused(it, request)}", True)
        for it in STAYS
        for before, request in ((LOOKED[:1], REWIND), (LOOKED[:2], READ), (LOOKED, SPACE))
    ),
    Setback("E22 to the close of a look", (*LOOKED, error(5), error(22)), "", f"{FAILS}close: {refused(22, CLOSE)}", True),
    Setback("no reply of the protocol to a look", (b"X\n",), "", FAILS + BOTCHED, True),
    Setback("no reply of the protocol later in a look", (*LOOKED, b"X\n"), "", FAILS + BOTCHED, True),
    Setback("a volume of another dump", (*LOOKED[:2], record(label(1, 0).replace(b"/usr", b"/var")), b"A0\n"), "", "", True)._replace(
        told=protected("has a volume of another dump: /var level 0 date 951782400, volume 1")
    ),
    Setback("a reel of another program", (*LOOKED[:2], record(b"x"), b"A0\n"), "", protected("begins with a record that is no label"), True),
    Setback("a reel that begins with a mark", (*LOOKED, b"A1\n", b"A0\n"), "", protected("begins with a mark"), True),
    *(Setback(f"E{it} to the open of a look", (error(it),), "", f"{FAILS}open: {refused(it, OPEN)}", False) for it in PASSES),
    Setback("E5 to the read of a look", (*LOOKED[:2], error(5), b"A0\n"), "", f"{FAILS}read: {refused(5, READ)}", False),
)


class RetryCase(DumpCase):
    """A payload of two volumes on the reels of a model, and what a dump leaves."""

    def setUp(self) -> None:
        super().setUp()
        self.p.file("payload", PAYLOAD)

    def left(self) -> bytes | None:
        """The checkpoint, which is taken away."""
        found = self.p.bytes_of("kept")
        self.p.folder.joinpath("kept").unlink(missing_ok=True)
        return found

    def goes_on(self, title: str, *reels: Reel) -> None:
        """The same command completes a dump that counted no volume, or one, on the reels that are left. Its reels are those of a dump that was not
        interrupted, and it is entered."""
        with Model(*two()) as whole:
            self.p.dump(whole.address, dumpdates="others")
        counted = self.p.bytes_of("kept") == FIRST_COUNTED
        with Model(*(reels or two())) as model:
            model.bin, model.stack = model.stack[: int(counted)], model.stack[int(counted) :]
            got = self.p.dump(model.address, *KEPT, "--update", "--retry", "1", *LONG)
        self.told(f"{title}: the same command", got, LAST if counted else TWO_VOLUMES, DONE, going_on(ONE if counted else ()))
        self.same(f"{title}: the reels", [it.entries for it in model.bin], [it.entries for it in whole.bin])
        self.same(f"{title}: the entry", (self.p.text("dumpdates"), self.left()), (ENTRY, None))
        self.p.folder.joinpath("dumpdates").unlink()


def heeds_signals() -> None:
    """Lets signals end a program that were ignored when the tests began, as SIGINT is of what runs in the background."""
    for it in (signal.SIGHUP, signal.SIGINT, signal.SIGTERM):
        signal.signal(it, signal.SIG_DFL)


class Setbacks(RetryCase):
    """After which setbacks a dump is tried again."""

    def test_attempts(self) -> None:
        for it in ATTEMPTS:
            self.ends_as(it)

    def test_looks(self) -> None:
        for it in LOOKS:
            self.ends_as(it, "--protect")

    def ends_as(self, it: Setback, *more: str) -> None:
        """A dump with one try gives up at once after a setback that stays, and after the try otherwise. It abandons, or leaves its checkpoint."""
        for kept in ((), KEPT):
            with Said(*it.replies * 2) as server:
                got = self.p.dump(server.address, *more, *kept, "--retry", "1", *(LONG if it.stays else AT_ONCE))
            reason = f"rdump: {server.address}: {it.told}".replace("ADDRESS", server.address) if it.told else ""
            tries = 0 if it.stays else 1
            told = (reason + again(0)) * tries + reason + (GIVEN_UP if kept else abandoned_at(server.address))
            self.told(f"{it.title} {kept}", got, it.output() * (tries + 1) + ("" if kept else ABANDONED), ABNORMAL, told)
            self.same(f"{it.title} {kept}: the checkpoint", self.left(), BEGUN if kept else None)

    def test_no_server(self) -> None:
        for more, printed, told in ((), FAILED, REFUSED), (("--protect",), "retry?\n", REFUSED.replace("Conn", FAILS + "Conn")):
            got = self.p.dump(NOWHERE, *more, "--retry", "2", *AT_ONCE)
            self.told(f"no server {more}", got, printed * 3 + ABANDONED, ABNORMAL, (told + again(0)) * 2 + told + abandoned_at(NOWHERE))

    def test_connections_that_end(self) -> None:
        for title, replies in (("at the start", ()), ("later", OPENED)):
            for more, printed, told in ((), FAILED, ENDED), (("--protect",), "retry?\n", FAILS + ENDED):
                with Ends(*replies * 2) as server:
                    got = self.p.dump(server.address, *more, "--retry", "1", *AT_ONCE)
                reason = f"rdump: {server.address}: {told}"
                self.told(f"an end {title} {more}", got, printed * 2 + ABANDONED, ABNORMAL, reason + again(0) + reason + abandoned_at(server.address))

    def test_a_silent_server(self) -> None:
        """The system accepts the connections."""
        with socket.create_server(("127.0.0.1", 0)) as listener:
            address = "127.0.0.1:%d" % listener.getsockname()[1]
            for more, printed, told in ((), FAILED, ""), (("--protect",), "retry?\n", FAILS):
                got = self.p.dump(address, *more, "--timeout", "1", "--retry", "1", *AT_ONCE)
                reason = f"rdump: {address}: {told}timed out\n"
                ends = reason + again(0) + reason + abandoned_at(address)
                self.told(f"a silent server {more}", got, printed * 2 + ABANDONED, ABNORMAL, ends)

    def test_a_payload_that_became_shorter(self) -> None:
        payload = self.p.folder / "payload"
        with Said(*OPENED, b"A1024\n", before=lambda: os.truncate(payload, 10)) as server:
            got = self.p.dump(server.address, *KEPT, "--retry", "2", *LONG)
        told = f"rdump: payload: a block could not be read: the file became shorter, or its disk failed\n{GIVEN_UP}"
        self.told("a payload that became shorter", got, "volume 1 failed: SourceFault\nretry?\n", ABNORMAL, told)
        self.p.file("payload", PAYLOAD)
        os.utime(payload, (DAY, DAY))
        self.goes_on("a payload that is as it was")

    def test_a_counted_reel(self) -> None:
        """With the close of the first attempt its reel is laid on the stack again."""
        for more, look in ((), 0), (("--protect",), 6):
            with Model(*two(), acts={look + FIRST_REQUESTS: lambda: model.stack.insert(0, model.bin.pop())}) as model:
                got = self.p.dump(model.address, *more, *KEPT, "--retry", "2", *LONG)
            came = (got.output, got.status, "CountedReel 1: " in got.told, "tried again" in got.told, got.told.endswith(GIVEN_UP))
            self.same(f"a counted reel {more}", came, (f"{FIRST}{failed('CountedReel 1', 2)}retry?\n", ABNORMAL, True, False, True), got.told)
            self.goes_on(f"a counted reel {more}", *model.stack)

    def test_documents(self) -> None:
        """docs/OPERATING.md lists what is given up, and what its table has an operator answer with `no` is among it. Each failure of the table
        is tried above."""
        tested = {*(it.printed[16:].strip() for it in ATTEMPTS), "ConnectionEnded", "SourceFault", "CountedReel", "OutOfMemory"}
        given_up = {*(it.printed[16:].strip() for it in ATTEMPTS if it.stays), "SourceFault", "CountedReel"}
        text = OPERATING.read_text()
        rows: dict[str, str] = {}
        for cell, to_do in re.findall(r"(?m)^\| ((?:`[^`|]+`(?:, )?)+) \|[^|]*\| ([^|]*) \|$", text.partition("| Message |")[2].partition("\n\n")[0]):
            for name in re.findall("`([^`]+)`", cell):
                name = f"Refused {name}" if name.isdigit() else name.removesuffix(" N")
                if re.fullmatch(r"[A-Z][a-z]+[A-Z]\w+|Botched|Refused \d+", name):
                    rows[name] = to_do
        self.holds("docs/OPERATING.md has failures", len(rows) > 10, rows)
        self.same("each failure of docs/OPERATING.md is tried", rows.keys() - tested, set())
        self.same("what is answered with no is given up", {it for it, to_do in rows.items() if "answer `no`" in to_do} - given_up, set())
        part = text.partition("**If waiting cannot help**")[2].partition("\n\n")[0]
        self.same("docs/OPERATING.md lists what is given up", {" ".join(it.split()) for it in re.findall("`([^`]+)`", part)}, given_up)


class Ends(Said):
    """A server that ends each of two connections after half of its replies."""

    def __init__(self, *replies: bytes) -> None:
        self.share = len(replies) // 2
        super().__init__(*replies)

    def converse(self, client: socket.socket) -> None:
        rest, self.replies = self.replies[self.share :], self.replies[: self.share]
        super().converse(client)
        self.replies = rest


class Memory(SiteCase):
    """Memory that is refused to a dump, each request for it alone."""

    def test_out_of_memory(self) -> None:
        """An attempt that fails by it is tried again, and the dump completes."""
        if is_unproved("rdump"):
            self.skipTest("programs that are not proved take memory in another way")
        words = (*DATED, "--retry", "9", *AT_ONCE)
        came: list[Ran[Left]] = []
        for number in range(1, dumped(self.p, NO_BLOCKS, b"", "", date=words).calls.count("alloc") + 1):
            got = dumped(self.p, NO_BLOCKS, b"", f"alloc:{number}:0", date=words)
            if b"volume 1 failed: OutOfMemory\nretry?\n" in got.output:
                came.append(got)
        self.holds("attempts fail by it", len(came) > 1, len(came))
        wrong = [it.shown() for it in came if it.status != DONE or again(0).encode() not in it.told]
        self.same("each is tried again", wrong, [])


class Turns(RetryCase):
    """How often in a row a dump is tried again."""

    def test_tries_in_a_row(self) -> None:
        """A counted volume makes all tries available again. With one try fewer the dump gives up before the volume, or after it."""
        for before, after, times in ((0, 3, 3), (2, 3, 3), (3, 0, 3), (3, 3, 3), (3, 3, 2), (1, 3, 2), (1, 1, 1), (0, 2, 1)):
            title = f"{before} setbacks before a volume and {after} after it, {times} tries"
            refusals = (*range(1, before + 1), *range(before + FIRST_REQUESTS + 1, before + FIRST_REQUESTS + after + 1))
            with Model(*two(), said=dict.fromkeys(refusals, error(16))) as model:
                got = self.p.dump(model.address, "--retry", str(times), *AT_ONCE)
            reason = f"rdump: {model.address}: {refused(16, OPEN)}"
            output, told, left = "", "", times
            for volume, count, line in ((1, before, FIRST), (2, after, LAST)):
                tries = min(count, times)
                output += f"volume {volume} failed: Refused 16\nretry?\n" * tries
                told += (reason + again(0)) * tries
                left = times - count
                if left < 0:
                    output += f"volume {volume} failed: Refused 16\nretry?\n{ABANDONED}"
                    told += reason + abandoned_at(model.address)
                    break
                output += line
            self.told(title, got, output, ABNORMAL if left < 0 else DONE, told)

    def test_looks_and_attempts_in_a_row(self) -> None:
        """Both kinds of setbacks count."""
        with Said(error(6), *LOOKED, error(5), b"A0\n", error(6), error(16)) as server:
            got = self.p.dump(server.address, "--protect", "--retry", "2", *AT_ONCE)
        reasons = (f"{FAILS}open: {refused(6, OPEN)}", refused(6, OPEN), f"{FAILS}open: {refused(16, OPEN)}")
        told = again(0).join(f"rdump: {server.address}: {it}" for it in reasons) + abandoned_at(server.address)
        self.told("a look, an attempt and a look", got, f"retry?\n{failed('Refused 6')}retry?\nretry?\n{ABANDONED}", ABNORMAL, told)

    def test_a_setback_that_stays_comes_later(self) -> None:
        """The dump ends then, with tries left."""
        with Said(error(16), error(2)) as server:
            got = self.p.dump(server.address, *KEPT, "--retry", "9", *AT_ONCE)
        reasons = [f"rdump: {server.address}: {refused(it, OPEN)}" for it in (16, 2)]
        output = "".join(f"{failed(f'Refused {it}')}retry?\n" for it in (16, 2))
        self.told("it comes later", got, output, ABNORMAL, again(0).join(reasons) + GIVEN_UP)

    def test_the_same_command(self) -> None:
        """A dump that gave up goes on, from its start, and after a volume that it had counted."""
        for title, number, output, kept in (
            ("before a volume", 3, failed("Refused 22"), BEGUN),
            ("after a volume", FIRST_REQUESTS + 3, FIRST + failed("Refused 22", 2), FIRST_COUNTED),
        ):
            with Model(*two(), said={number: error(22)}) as model:
                got = self.p.dump(model.address, *KEPT, "--retry", "1", *LONG)
            told = f"rdump: {model.address}: {refused(22, READ)}{GIVEN_UP}"
            self.told(title, got, f"{output}retry?\n", ABNORMAL, told)
            self.same(f"{title}: the checkpoint", self.p.bytes_of("kept"), kept)
            self.goes_on(title, *model.bin, *model.stack)


class Streams(RetryCase):
    """What is read and printed."""

    def test_no_answer_is_read(self) -> None:
        """Standard input is closed, ends, says no, or says yes: it makes no difference, and nothing is taken from it."""
        wanted = Ended(FAILED * 2 + ABANDONED, REFUSED + again(0) + REFUSED + abandoned_at(NOWHERE), ABNORMAL)
        words = self.p.dump_words(NOWHERE, "--retry", "1", *AT_ONCE)
        got = self.p.run("-c", 'exec "$0" "$@" <&-', self.p.rdump, *words, program="sh")
        self.same("standard input is closed", got, wanted)
        for said in ("", "no\n", "yes\n" * 9):
            got = self.p.run("-c", '"$0" "$@"; status=$?; cat; exit $status', self.p.rdump, *words, program="sh", said=said)
            self.same(f"standard input has {said!r}", got, wanted._replace(output=wanted.output + said))

    def test_at_a_terminal(self) -> None:
        """Nobody is asked to answer."""
        with Terminal() as terminal:
            got = self.p.dump(NOWHERE, *KEPT, "--retry", "1", *AT_ONCE, stdout=terminal.far, stderr=terminal.far)
            shown = terminal.shown().replace(CLEAR, "").replace("\r\n", "\n")
        wanted = f"{NO_BASE}{REFUSED}{FAILED}{again(0)}{REFUSED}{FAILED}{GIVEN_UP}"
        self.same("a terminal", (got.status, shown), (ABNORMAL, wanted))

    def test_output_that_takes_nothing(self) -> None:
        """The dump ends at the first line. If standard error takes nothing, it goes on."""
        with open("/dev/full", "wb") as full:
            got = self.p.dump(NOWHERE, *KEPT, "--retry", "9", *LONG, stdout=full.fileno())
            self.same("standard output takes nothing", (got.status, self.left()), (ABNORMAL, BEGUN), got)
            got = self.p.dump(NOWHERE, *KEPT, "--retry", "1", *AT_ONCE, stderr=full.fileno())
            self.same("standard error takes nothing", (got.status, got.output, self.left()), (ABNORMAL, FAILED * 2, BEGUN), got)


class Pauses(RetryCase):
    """How long a dump waits before it tries again."""

    def test_pauses(self) -> None:
        """No pause is shorter than it was asked for, and each has its own."""
        for seconds in (0, 1, 2):
            with Model(*two(), said={1: error(16), FIRST_REQUESTS + 2: error(16)}) as model:
                began = time.monotonic()
                got = self.p.dump(model.address, "--retry", "1", "--pause", str(seconds))
                took = time.monotonic() - began
            self.same(f"{seconds} seconds", (got.status, got.told.count(again(seconds)), took >= 2 * seconds), (DONE, 2, True), took, got)

    def test_the_usual_pause(self) -> None:
        """It is a minute. A try that is announced is not made before."""
        with self.waiting("--retry", "1", pause=60) as dump:
            time.sleep(2)
            self.same("it waits", dump.poll(), None)

    def test_signals(self) -> None:
        """A signal ends the dump while it waits, and the same command goes on."""
        for sent in (signal.SIGHUP, signal.SIGINT, signal.SIGTERM, signal.SIGKILL):
            with self.waiting(*KEPT, "--retry", "9", *LONG, pause=1000) as dump:
                dump.send_signal(sent)
                got = end_of(self, dump)
            self.same(f"{sent!r}", (got.status, got.output, got.told, self.p.bytes_of("kept")), (-sent, "", "", BEGUN))
            self.goes_on(f"{sent!r}")

    def test_a_stop(self) -> None:
        """A dump that is stopped and continued while it waits goes on."""
        with self.waiting("--retry", "1", "--pause", "2", pause=2) as dump:
            dump.send_signal(signal.SIGSTOP)
            time.sleep(1)
            dump.send_signal(signal.SIGCONT)
            self.same("it is tried again", end_of(self, dump), Ended(FAILED + ABANDONED, REFUSED + abandoned_at(NOWHERE), ABNORMAL))

    @contextmanager
    def waiting(self, *more: str, pause: int) -> Iterator[subprocess.Popen[bytes]]:
        """A dump that waits before it tries again, and has printed nothing since."""
        words, pipe = (self.p.rdump, *self.p.dump_words(NOWHERE, *more)), subprocess.PIPE
        process = subprocess.Popen(words, cwd=self.p.folder, stdin=subprocess.DEVNULL, stdout=pipe, stderr=pipe, preexec_fn=heeds_signals)
        with guarded(process) as dump:
            self.same("it asks", lines_of(dump, 2), FAILED)
            told = "".join(given(dump.stderr).readline().decode() for _ in range(2))
            self.same("it is tried again", told, REFUSED + again(pause))
            yield dump
