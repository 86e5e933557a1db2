"""Kills the built server at random moments of dumps, starts it again, and looks at every reel at the end of each dump; and kills the client, the
server or both at moments of dumps with a checkpoint file and a catalog, and has the same words go on until the dump is complete.

The client connects to a gate of this file, which passes its bytes on to the server that runs: over the loopback, or over a Unix socket, whose file
the killed server leaves, and the next one replaces. The moments are after a number of bytes either way, after some time, and around the move of a
reel to the bin: before the request for it has passed, within the move, when its reply has come, which is lost then, and when that has passed; and
where there is a checkpoint file also around the reply to the close, after which that is written. The first failure ends a test.
"""

from __future__ import annotations

import os
import random
import re
import signal
import socket
import subprocess
import tempfile
import threading
import time
from contextlib import contextmanager, suppress
from pathlib import Path
from typing import Iterator, NamedTuple

from tests.lib.case import Case
from tests.lib.connections import TCP, UNIX, Address, address_in
from tests.lib.drives import moved_once
from tests.lib.dumping import ENTRY, label
from tests.lib.given import given
from tests.lib.listeners import Relay
from tests.lib.places import built
from tests.lib.processes import guarded
from tests.lib.wire import DEVICE
from tests.models.catalog import Begun, Counted, Finished, Id, Line, begun, counted, in_force, lately, lines_of
from tests.models.checkpoint import Checkpoint, decoded
from tests.models.rmtd import Entry, images
from tests.models.world import Run

# The seed of the moments, and how often is killed: so often, and half as often with a checkpoint file.
SEED = int(os.environ.get("SEED") or 200)
KILLS = int(os.environ.get("KILLS") or 200)
# A dump with a checkpoint file meets so many kills at most: each may cost a reel.
KILLS_A_DUMP = 5

# Where no server listens.
NOWHERE = ("127.0.0.1", 1)

BLOCK = 64
BLOCKS = 40
# A volume has a label and 15 blocks at most, so a dump has three.
A_VOLUME = 15
CAPACITY = 1024 + 8 + A_VOLUME * (BLOCK + 8) + 4
VOLUMES = 3
REELS = [f"r{number}" for number in range(1, 10)]
MOVE, CLOSE = b"I6\n1\n", b"C\n"

SERVER, CLIENT, BOTH = "the server", "the client", "both"


class Moment(NamedTuple):
    """When the server, the client or both are killed: at a part of a dump, which is the number of bytes or moves passed, and so much later."""

    kind: str
    part: int
    later: float
    who: str = SERVER


# Of a move: before its request has passed on, after it, when its reply has come, and when that has passed on.
AROUND_A_MOVE = ("before the request", "in the move", "before the reply", "after the reply")
# Of a close: when its reply has passed on, after which a count is printed and kept.
AFTER_A_CLOSE = "after the close"
KEEPING_SECONDS = 0.01


class Pace(NamedTuple):
    """A dump that is not killed passes so many bytes in so much time, and a move of it takes so long."""

    passed: int
    seconds: float
    move_seconds: float


def a_moment(source: random.Random, pace: Pace) -> Moment:
    """A random moment of a dump of this pace."""
    return moment_of(source, source.choice(("bytes", "time", *AROUND_A_MOVE, "in the move")), pace)


def a_moment_of_both(source: random.Random, pace: Pace) -> Moment:
    """A random moment of a dump of this pace, at which the client, the server or both are killed."""
    kind = source.choice(("bytes", "time", *AROUND_A_MOVE, AFTER_A_CLOSE, AFTER_A_CLOSE))
    return moment_of(source, kind, pace)._replace(who=source.choice((CLIENT, CLIENT, BOTH, SERVER)))


def moment_of(source: random.Random, kind: str, pace: Pace) -> Moment:
    """A random moment of this kind."""
    if kind == "bytes":
        return Moment(kind, source.randrange(1, pace.passed), 0.0)
    if kind == "time":
        return Moment(kind, 0, source.uniform(0, pace.seconds))
    most = {"in the move": 1.2 * pace.move_seconds, AFTER_A_CLOSE: KEEPING_SECONDS}.get(kind, 0.0)
    return Moment(kind, source.randrange(VOLUMES), source.uniform(0, most) if most else 0.0)


def place_of(moment: Moment | None) -> str:
    """Where the server of a dump listens that is killed at this moment: at a Unix socket where its part is odd."""
    return UNIX if moment and moment.part % 2 else TCP


class Served:
    """The server over its folders: started, killed, started again."""

    def __init__(self, folder: Path, at: str) -> None:
        self.stack = folder / "st0"
        self.bin = folder / "bin"
        self.stack.mkdir()
        self.bin.mkdir()
        for name in REELS:
            self.stack.joinpath(name).touch()
        at = at.replace("FOLDER", str(folder))
        self.words = (built("rmtd"), "--listen", at, "--capacity", str(CAPACITY), "--bin", str(self.bin), f"{DEVICE}={self.stack}")
        self.process: subprocess.Popen[bytes] | None = None
        self.address: Address = NOWHERE

    def start(self) -> None:
        """Starts it where it does not run."""
        if self.process and self.process.poll() is None:
            return
        self.process = subprocess.Popen(self.words, stdout=subprocess.PIPE, stderr=subprocess.DEVNULL)
        self.address = address_in(given(self.process.stdout).readline())

    def looked_at(self) -> tuple[dict[str, bytes], dict[str, bytes]]:
        """What the reels of the stack and of the bin hold, by name."""
        return moved_once(self.stack, self.bin)

    def kill(self) -> None:
        """Kills it, and returns once it is gone. Its port may be another's then."""
        self.address = NOWHERE
        if self.process:
            self.process.kill()
            self.process.wait()
            given(self.process.stdout).close()


class Gate(Relay):
    """Passes each connection on to the server, and kills the server or the client at a moment, once."""

    def __init__(self, served: Served) -> None:
        super().__init__(lambda: served.address)
        self.served = served
        self.client: subprocess.Popen[bytes] | None = None
        self.kills = 0
        self.closes = False
        self.moment: Moment | None = None
        self.timer: threading.Timer | None = None
        self.killing = threading.Lock()
        self.killed = False
        self.passed = 0
        self.moves = 0
        self.asked = 0.0
        self.longest_move = 0.0

    def set(self, moment: Moment | None) -> None:
        """Kills at this moment, counted from now on."""
        self.moment = moment
        self.killed = moment is None
        self.passed = self.moves = 0
        if moment and moment.kind == "time":
            self.later(moment.later)

    def later(self, seconds: float) -> None:
        # A client that is gone meanwhile has it settled at once, so it runs before it can be seen.
        timer = threading.Timer(seconds, self.kill)
        timer.start()
        self.timer = timer

    def kill(self) -> bool:
        """Kills who is to be killed at this moment, where that was not done before; whether it did."""
        with self.killing:
            if self.killed or not self.moment:
                return False
            self.killed = True
            self.kills += 1
            if self.moment.who != SERVER and self.client:
                self.client.kill()
            if self.moment.who != CLIENT:
                self.served.kill()
            return True

    def settle(self) -> None:
        """Returns once no timer is left."""
        if self.timer:
            self.timer.cancel()
            self.timer.join()
            self.timer = None

    def count(self, piece: bytes) -> None:
        self.passed += len(piece)
        if self.moment and self.moment.kind == "bytes" and self.passed >= self.moment.part:
            self.kill()

    def moment_here(self, kind: str, moves: int) -> Moment | None:
        """The moment, where it is of this kind and comes after so many moves."""
        return self.moment if self.moment and (self.moment.kind, self.moment.part) == (kind, moves) else None

    def to_server(self, piece: bytes, server: socket.socket) -> None:
        move = piece == MOVE
        self.closes = piece == CLOSE
        if move and self.moment_here("before the request", self.moves):
            self.kill()
        self.asked = time.perf_counter() if move else 0.0
        if move and (moment := self.moment_here("in the move", self.moves)):
            self.later(moment.later)
        server.sendall(piece)
        self.count(piece)

    def to_client(self, piece: bytes, client: socket.socket) -> None:
        """Passes on what the server replied. The reply before which it is killed is lost."""
        move = self.asked > 0.0
        if move:
            self.longest_move = max(self.longest_move, time.perf_counter() - self.asked)
            self.asked = 0.0
            if self.moment_here("before the reply", self.moves) and self.kill():
                return
        client.sendall(piece)
        if move and self.moment_here("after the reply", self.moves):
            self.kill()
        if self.closes and (moment := self.moment_here(AFTER_A_CLOSE, self.moves - 1)):
            self.later(moment.later)
        self.closes = False
        self.moves += move
        self.count(piece)

    def stop(self) -> None:
        self.settle()
        super().stop()


@contextmanager
def gate_of(folder: Path, moment: Moment | None) -> Iterator[Gate]:
    """A server in this folder that runs, and the gate before it, of a dump in which is killed first at this moment."""
    served = Served(folder, place_of(moment))
    try:
        served.start()
        with Gate(served) as gate:
            yield gate
    finally:
        served.kill()


# A volume of the dump: its number, its first block, and how many it has.
Count = tuple[int, int, int]

WHOLE = ((1, 0, 15), (2, 15, 15), (3, 30, 10))
COMPLETE = f"dump complete: {VOLUMES} volumes, {BLOCKS} blocks"
DATED, LATER = ("--date", "951782400"), ("--date", "951868800")
RUN = Run(DEVICE.encode(), b"/usr", 0, 951_782_400, 0, BLOCK, BLOCKS)
USR = Id("/usr", 0, 951_782_400, 0)
BEGAN, DONE = Begun(USR, BLOCK * BLOCKS), Finished(USR, VOLUMES, BLOCKS, BLOCK, BLOCK * BLOCKS)


def reel_of(payload: bytes, number: int, first: int, count: int) -> bytes:
    """The record file of a volume."""
    blocks: list[Entry] = [payload[at * BLOCK : (at + 1) * BLOCK] for at in range(first, first + count)]
    return images([label(number, first), *blocks, None])


class Dump:
    """One dump from its start to its end, in which somebody is killed."""

    def __init__(self, case: Case, title: str, folder: Path, gate: Gate, payload: bytes) -> None:
        self.case = case
        self.title = title
        self.gate = gate
        self.folder = folder
        self.served = gate.served
        self.volumes: dict[bytes, Count] = {reel_of(payload, *it): it for it in WHOLE}
        folder.joinpath("payload").write_bytes(payload)
        self.words = [built("rdump"), "dump", "--to", gate.address, "--device", DEVICE, "--fs", "/usr", "--level", "0"]
        self.words += ["--payload", str(folder / "payload"), "--block", str(BLOCK), "--dumpdates", str(folder / "dumpdates")]
        self.lines: list[str] = []

    def same(self, name: str, came: object, wanted: object, *seen: object) -> bool:
        return self.case.same(f"{self.title}: {name}", came, wanted, *seen, f"seed {SEED}")

    def holds(self, name: str, condition: object, *seen: object) -> bool:
        return self.case.holds(f"{self.title}: {name}", condition, *seen, f"seed {SEED}")

    def run(self, *more: str) -> int:
        """Dumps, starts the server anew whenever the client asks whether to try again, and returns the status."""
        words = (*self.words, *(more or DATED))
        client = subprocess.Popen(words, stdin=subprocess.PIPE, stdout=subprocess.PIPE, stderr=subprocess.DEVNULL, bufsize=0)
        with guarded(client):
            self.gate.client = client
            for line in given(client.stdout):
                self.lines.append(line.decode().rstrip("\n"))
                if self.lines[-1] == "retry?":
                    self.settled()
                    with suppress(BrokenPipeError):
                        given(client.stdin).write(b"yes\n")
        return client.returncode

    def settled(self) -> None:
        """The server runs again, and every reel is what it has to be. A server that was not killed yet is left as it is."""
        if self.gate.killed:
            self.gate.settle()
        with self.gate.killing:
            self.reels_hold()
            self.served.start()

    def counted(self) -> list[Count]:
        """The volumes that the client has counted so far."""
        found = [re.fullmatch(r"volume (\d+): (\d+) blocks from (\d+)", it) for it in self.lines]
        return [(int(it[1]), int(it[3]), int(it[2])) for it in found if it]

    def reels_hold(self) -> None:
        """Each volume that was counted is in the bin, to the byte, only whole volumes are there, and no name is gone or stands twice."""
        stack, bin = self.served.looked_at()
        self.same("each name stands once", sorted([*stack, *bin]), REELS, [*stack], [*bin])
        there = {self.volumes.get(it) for it in bin.values()}
        counted = self.counted()
        self.holds("each counted volume is in the bin", len(bin) >= len(counted) and there >= {*counted}, there, counted)
        parts = {name: len(it) for name, it in bin.items() if it not in self.volumes}
        self.same("no part of a volume is in the bin", parts, {})

    def ends_well(self) -> None:
        """The dump ended well, and every reel is what it has to be."""
        self.same("the counts", (self.counted(), self.lines[-1:]), ([*WHOLE], [COMPLETE]), self.lines)
        self.reels_hold()


class KeptDump(Dump):
    """One dump with a checkpoint file that is entered, by as many clients as it takes. The dates of the words are others once there is a file."""

    def __init__(self, case: Case, title: str, folder: Path, gate: Gate, payload: bytes) -> None:
        super().__init__(case, title, folder, gate, payload)
        self.file = folder / "kept"
        self.catalog = folder / "catalog"
        self.words += ["--checkpoint", str(self.file), "--catalog", str(self.catalog), "--update"]
        # Whether a client went on with a dump that had begun more than once, and entered nothing.
        self.is_short = False
        # How many reels had the label of a volume when the file was first seen to have that volume.
        self.had: dict[int, int] = {}

    def run_to_the_end(self, moments: list[Moment]) -> int:
        """Dumps, and has the same words go on whenever the client was killed: at each of these moments, one for a client. Returns the last status."""
        status = 0
        for moment in (*moments, None):
            self.gate.set(moment)
            printed, going = len(self.lines), self.spelled()
            self.is_short = self.is_short or (bool(going) and begun(self.known(), USR) != 1)
            status = self.run(*(LATER if self.file.exists() else DATED))
            self.gate.settle()
            self.goes_on_with(going, self.lines[printed:])
            if status != -signal.SIGKILL or self.is_over():
                break
            self.stops()
        return status

    def is_over(self) -> bool:
        """Whether the dump was complete when the client was killed, which has removed the file then."""
        return not self.file.exists() and self.lines[-1:] == [COMPLETE]

    def spelled(self) -> list[Count]:
        """The volumes that the file has."""
        if not self.file.exists():
            return []
        found = decoded(self.file.read_bytes())
        is_ours = isinstance(found, Checkpoint) and found.run == RUN
        self.holds("the file is of this run, with its date", is_ours, found, RUN)
        return [(it.volume, it.first, it.blocks) for it in found.counts] if isinstance(found, Checkpoint) and is_ours else []

    def goes_on_with(self, going: list[Count], lines: list[str]) -> None:
        """A client that began with a file of these volumes printed none of them again."""
        again = [it for it in lines if re.match(r"volume \d+:? ", it) and int(it.split()[1].rstrip(":")) <= len(going)]
        self.same("no volume that the file had is tried again", again, [], going, lines)

    def stops(self) -> None:
        """A client was killed: what the file has is a beginning of the dump, was printed, and each volume of it is in the bin and has its line."""
        with self.gate.killing:
            self.served.start()
        file = self.spelled()
        self.same("the file has a beginning of the dump", file, [*WHOLE[: len(file)]])
        self.holds("what the file has was printed", {*file} <= {*self.counted()}, file, self.lines)
        self.reels_hold()
        self.holds("what the file has is on reels", {*file} <= {*self.there()}, file)
        self.lines_hold(file)
        for number, _, _ in file:
            self.had.setdefault(number, self.reels_of(number))

    def known(self) -> list[Line]:
        """The lines of the catalog."""
        return lines_of(self.catalog.read_bytes()) if self.catalog.exists() else []

    def lines_hold(self, counts: list[Count]) -> None:
        """The catalog has a line in force for each of these counts, whose sum is that of its reel, unless nothing more was entered. It has no line of
        another volume, and none twice since the dump began."""
        found = self.known()
        _, bin = self.served.looked_at()
        lines = {self.volumes.get(it): counted(it) for it in bin.values()}
        force, own = in_force(found, USR), lately(found, USR)
        wanted = [lines.get(it) for it in counts]
        self.holds("each count has its line", self.is_short or wanted == [force.get(it[0]) for it in counts], counts, found)
        volumes = [it for it in found if isinstance(it, Counted)]
        self.holds("each line is of a reel, once", {*volumes} <= {*lines.values()} and len({*own}) == len(own), found)
        self.holds("it began with its payload", not found or (found[0] == BEGAN and {it for it in found if isinstance(it, Begun)} == {BEGAN}), found)

    def there(self) -> list[Count | None]:
        """The volumes of the bin, None for what is no volume."""
        _, bin = self.served.looked_at()
        return [self.volumes.get(it) for it in bin.values()]

    def reels_of(self, number: int) -> int:
        """How many reels have the label of a volume, on the stack too."""
        stack, bin = self.served.looked_at()
        return sum(f"\nvolume {number}\n".encode() in it for it in (*stack.values(), *bin.values()))

    def ends_well(self) -> None:
        """The dump ended well, every reel is what it has to be, the run is entered once, and no volume was dumped again once the file had it."""
        self.same("the counts", ({*self.counted()}, self.lines[-1:]), ({*WHOLE}, [COMPLETE]), self.lines)
        self.reels_hold()
        self.same("each volume is in the bin", {*self.there()}, {*WHOLE})
        self.lines_hold([*WHOLE])
        ends = [it for it in self.known() if isinstance(it, Finished)]
        self.same("it is finished in the catalog, if that has all lines", ends, [] if self.is_short else [DONE], self.known())
        dates = self.folder / "dumpdates"
        self.same("the run is entered once", dates.read_text() if dates.exists() else None, ENTRY)
        self.same("no volume that the file had is dumped again", {number: self.reels_of(number) for number in self.had}, self.had)
        left = [it.name for it in self.folder.iterdir() if it.name.startswith(("kept", "catalog", "dumpdates"))]
        # A part of a text that a killed client was writing stays, and no lock does.
        texts = [it for it in left if re.fullmatch(r"\w+\.new\.\d+", it)]
        self.same("the file and the locks are gone", sorted({*left} - {*texts}), ["catalog", "dumpdates"])


class Kills(Case):
    """Dumps in which somebody is killed at random moments, which follow from the seed and from the pace of a dump that is not killed."""

    def setUp(self) -> None:
        self.source = random.Random(SEED)
        self.payload = self.source.randbytes(BLOCK * BLOCKS)
        _, self.pace = self.dumped(None)

    def dumped(self, moment: Moment | None) -> tuple[int, Pace]:
        """One dump in which the server is killed, or nobody: how often it was, and the pace of the dump."""
        title = f"killed at {moment}" if moment else "not killed"
        with tempfile.TemporaryDirectory() as name:
            with gate_of(Path(name), moment) as gate:
                gate.set(moment)
                began = time.perf_counter()
                dump = Dump(self, title, Path(name), gate, self.payload)
                status = dump.run()
                pace = Pace(gate.passed, time.perf_counter() - began, gate.longest_move)
            dump.same("the status", status, 0, dump.lines)
            dump.ends_well()
            return gate.kills, pace

    def kept_dump(self, moments: list[Moment]) -> int:
        """One dump with a checkpoint file in which is killed at these moments: how often it was."""
        with tempfile.TemporaryDirectory() as name:
            with gate_of(Path(name), moments[0]) as gate:
                dump = KeptDump(self, f"with a checkpoint file, killed at {moments}", Path(name), gate, self.payload)
                status = dump.run_to_the_end(moments)
            ended = 3 if dump.is_short else 0
            dump.holds("the status", status == ended or (status == -signal.SIGKILL and dump.is_over()), status, dump.lines)
            dump.ends_well()
            return gate.kills

    def test_the_server_is_killed(self) -> None:
        kills = 0
        while kills < KILLS and not self.failures_here:
            kills += self.dumped(a_moment(self.source, self.pace))[0]

    def test_who_is_killed_with_a_checkpoint_file(self) -> None:
        kills = 0
        while kills < KILLS // 2 and not self.failures_here:
            kills += self.kept_dump([a_moment_of_both(self.source, self.pace) for _ in range(self.source.randint(1, KILLS_A_DUMP))])
