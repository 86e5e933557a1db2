"""Fails, shortens and stops calls that the built `rdump read` makes at its file and its connection, and says what each becomes: the line that is
printed, the status, the file, and what is sent.

The tape server is the plain model of tests/lib/played_servers.py. Calls are failed by the library of hostile.c.
"""

from __future__ import annotations

import os
import signal
import subprocess
import tempfile
from collections import Counter
from contextlib import contextmanager
from pathlib import Path
from typing import Callable, Iterator, NamedTuple

from tests.lib.case import Case
from tests.lib.dumping import in_room
from tests.lib.ended import ABNORMAL, DONE, FAILED
from tests.lib.places import built
from tests.lib.played_servers import Model
from tests.lib.restores import BLOCK, EMPTY_OR_MARK, PADDED, READ, answering, came_of, counted, foreign, laid_reel, loaded, read_words, sizes, texts
from tests.lib.shim import compiled
from tests.lib.shimmed import AT_CONNECTIONS, Ran, ShimmedPrograms
from tests.lib.waiting import GUARD_SECONDS

OUT = "/out"
IO = "Input/output error (os error 5)"
TOO_LARGE = "File too large (os error 27)"

# What writes meet, and how often is written then, so that each block is written whole.
SHORT_WRITES = {"1+:s1": 2 * BLOCK, "1:s1": 3, "2:s1000": 3, "1:E4": 3, "2:E4": 3}

# What a call becomes that fails: nothing is opened and nothing sent; the file fails, or the connection; or nothing at all.
UNOPENED, FILE, CONNECTION, NOTHING = "it is not opened", "the file fails", "the connection fails", "nothing"
# A file system without locks is written to all the same.
UNSEEN = {"flock": (1, 1), "open": (0, 1)}
# Memory, clocks and standard streams are looked at elsewhere.
LEFT_OUT = ("alloc", "malloc", "calloc", "realloc", "memalign", "mmap", "read", "clock_gettime")

# What is printed and told of the first volume that is read whole, and what the file holds then.
WHOLE = texts(1).encode(), counted(1).encode(), PADDED[: 2 * BLOCK]


class Reading(NamedTuple):
    """The programs, and a folder with the file."""

    p: ShimmedPrograms
    folder: Path

    def out(self) -> Path:
        """The file."""
        return self.folder / "out"

    def words(self, address: str) -> tuple[str, ...]:
        """The words that read from a server into the file."""
        return (self.p.rdump, *read_words(address, out=str(self.out())))

    def read(self, model: Model, rules: str, path: str = "") -> Ran[object]:
        """Reads by calls that meet these rules. What is left is what the file holds, if it is there."""
        got = self.p.run(self.words(model.address), rules, path=path)
        return got._replace(left=self.held())

    def put(self, data: bytes | None) -> None:
        """Makes the file of these bytes. With None, it is not made."""
        if data is not None:
            self.out().write_bytes(data)

    def held(self) -> bytes | None:
        """What the file holds, None if it is not there."""
        return self.out().read_bytes() if self.out().exists() else None

    def told(self, why: str) -> bytes:
        """The line that names the file."""
        return f"rdump: {self.out()}: {why}\n".encode()


def stopped(it: Reading, model: Model, rule: str, meanwhile: Callable[[], object]) -> Ran[object]:
    """Reads with a stop before a call, and goes on once something was done."""
    it.p.shim.forget()
    with subprocess.Popen(
        it.words(model.address),
        env=it.p.shim.environment(rule),
        stdin=subprocess.DEVNULL,
        stdout=subprocess.PIPE,
        stderr=subprocess.PIPE,
    ) as process:
        try:
            os.waitid(os.P_PID, process.pid, os.WSTOPPED | os.WEXITED | os.WNOWAIT)
            meanwhile()
            os.kill(process.pid, signal.SIGCONT)
            output, told = process.communicate(timeout=GUARD_SECONDS)
        finally:
            process.kill()
    return Ran[object](process.returncode, output, told, it.held(), tuple(it.p.shim.calls()))


class ReadFaults(Case):
    """Readings of a small volume, in a folder each."""

    def setUp(self) -> None:
        shim = self.enterContext(compiled(self))
        self.p = ShimmedPrograms(built("rmtd"), built("rdump"), built("rsim"), shim)

    @contextmanager
    def reading(self, is_empty: bool = False, before: bytes | None = None) -> Iterator[tuple[Reading, Model]]:
        """A folder in which the file holds something, and a server with the first volume on its only reel, or with an empty one."""
        server = answering(laid_reel([]), replies={}) if is_empty else loaded(1)
        with tempfile.TemporaryDirectory(prefix="read-") as folder, server as model:
            it = Reading(self.p, Path(folder))
            it.put(before)
            yield it, model

    def test_short_writes(self) -> None:
        """Writes that move a byte at most, or are interrupted, and one that moves some: each block is written whole."""
        for rule, calls in SHORT_WRITES.items():
            with self.reading() as (it, model):
                got = it.read(model, f"write:{rule}", path=OUT)
                self.same(f"write:{rule}", (got.output, got.told, got.left, got.status), (*WHOLE, DONE), got.calls)
                self.same(f"write:{rule}: how often is written", got.calls.count("write"), calls)

    def test_a_limit_on_the_size_of_files(self) -> None:
        """The limit is inside a block: what is before that is written, the system's reason is told, and the reel stays."""
        for inside in (1, 452, BLOCK - 1):
            with self.reading(before=b"own") as (it, model):
                words = it.words(model.address)
                got = subprocess.run(
                    words, stdin=subprocess.DEVNULL, capture_output=True, timeout=GUARD_SECONDS, check=False, **in_room(BLOCK + inside)
                )
                title = f"a limit at {inside} bytes of a block"
                wanted = texts(1).encode(), sizes([PADDED[:BLOCK]]).encode() + it.told(TOO_LARGE), ABNORMAL
                self.same(title, (got.stdout, got.stderr, got.returncode), wanted)
                self.same(f"{title}: the file", it.held(), PADDED[: BLOCK + inside])
                self.same(f"{title}: the reel stays", (len(model.stack), len(model.bin)), (1, 0))

    def test_a_file_that_is_exchanged(self) -> None:
        """A file that has lost its name, or whose name another file has, by the time that it is locked is not written: the one of that name is."""
        for there in (False, True):
            for another in (False, True):
                self.exchanged(there, another)

    def exchanged(self, there: bool, another: bool) -> None:
        """The file was there, or is made. Before it is locked it goes away, and another one may come."""
        own = b"own" if there else None
        with self.reading(before=own) as (it, model):
            away = it.folder / "away"

            def exchange() -> None:
                it.out().rename(away)
                if another:
                    it.put(b"")

            got = stopped(it, model, "flock:1:S", exchange)
            state = "was there" if there else "is made"
            title = f"a file that {state} and {'is exchanged' if another else 'goes away'} before it is locked"
            self.same(title, (got.output, got.told, got.left, got.status), (*WHOLE, DONE))
            self.same(f"{title}: it is as it was", away.read_bytes() if away.exists() else None, own or b"")
            self.same(f"{title}: the one of its name is locked too", got.calls.count("flock"), 2, got.calls)

    def test_failing_calls(self) -> None:
        """Each call of a reading fails: what is told is the file or the address, with the system's reason, and the status says that it failed."""
        met: set[str] = set()
        for before in (None, b"own"):
            unseen: Counter[str] = Counter()
            for call, count in self.calls_of(False, before).items():
                for number in range(1, count + 1):
                    what = self.failed(call, number, before)
                    met.add(what)
                    unseen[call] += what == NOTHING
            right = all(least <= unseen[call] <= most for call, (least, most) in UNSEEN.items()) and {*+unseen} <= {*UNSEEN}
            self.holds(f"calls whose failure changes nothing, {before!r}", right, unseen)
        self.same("each kind of failure is met", met, {UNOPENED, FILE, CONNECTION, NOTHING})

    def calls_of(self, is_empty: bool, before: bytes | None) -> Counter[str]:
        """How often each call is made in which nothing fails. Of writes, those to the file count."""
        with self.reading(is_empty, before) as (it, model):
            well, names = it.read(model, ""), Counter(it.read(model, "", path=OUT).calls)
        self.same("a reading in which nothing fails", well.status, DONE, well.shown())
        calls = Counter({call: count for call, count in Counter(well.calls).items() if call not in (*LEFT_OUT, "write")})
        return calls + Counter({"write": names["write"]})

    def failed(self, call: str, number: int, before: bytes | None) -> str:
        """A call of a reading fails. Returns what it becomes."""
        with self.reading(before=before) as (it, model):
            got = it.read(model, f"{call}:{number}:E5", path=OUT if call == "write" else "")
            title = f"{call} {number} fails, over {before!r}"
            if (got.output, got.told, got.status) == (*WHOLE[:2], DONE):
                self.same(title, got.left, WHOLE[2], got.shown())
                return NOTHING
            if got.status == FAILED:
                came = got.output, got.told, model.logs, got.left in (before, before or b"")
                self.same(f"{title}: nothing is opened", came, (b"", it.told(IO), [], True), got.shown())
                return UNOPENED
            is_lawful = got.status == ABNORMAL and (got.output, got.told, got.left) in self.lawful_ends(it, model, call, before)
            self.holds(f"{title}: what is told", is_lawful, got.shown())
            self.same(f"{title}: the reel stays", len(model.stack), 1)
            return CONNECTION if call in AT_CONNECTIONS else FILE

    def lawful_ends(self, it: Reading, model: Model, call: str, before: bytes | None) -> list[tuple[bytes, bytes, bytes | None]]:
        """What a reading may print and tell in which a call fails, and what the file may hold then."""
        line = f"rdump: {model.address}: {IO}\n".encode()
        ends = (line,) if call in AT_CONNECTIONS else (it.told(IO), it.told("its folder could not be synced"))
        blocks = [PADDED[:BLOCK], PADDED[BLOCK : 2 * BLOCK]]
        lawful = [("", "", before), *((texts(1), sizes(blocks[:count]), b"".join(blocks[:count])) for count in range(3))]
        # A file that can't be emptied has what it had, and one that was made is taken away again.
        lawful += [(texts(1), sizes([]), before)] * (call == "ftruncate")
        return [(output.encode(), told.encode() + end, data) for output, told, data in lawful for end in ends]

    def test_failing_calls_at_an_empty_reel(self) -> None:
        """The file is as it was, or empty, and a reading that ends well has emptied it."""
        for before in (None, b"own"):
            for call, count in self.calls_of(True, before).items():
                for number in range(1, count + 1):
                    self.failed_at_an_empty_reel(call, number, before)

    def failed_at_an_empty_reel(self, call: str, number: int, before: bytes | None) -> None:
        """A call of a reading fails. A look at the reel that fails is no failure."""
        with self.reading(True, before) as (it, model):
            got = it.read(model, f"{call}:{number}:E5")
            title = f"an empty reel: {call} {number} fails, over {before!r}"
            told = got.told.decode()
            tells = [came_of(b"", model.address).told, foreign(model.address, EMPTY_OR_MARK)]
            if got.status == DONE:
                self.same(title, (got.output, told in tells, got.left), (b"", True, b""), got.shown())
            else:
                is_named = f"rdump: {it.out()}: " in told or f"rdump: {model.address}: {IO}\n" in told
                self.same(title, (got.output, got.status in (FAILED, ABNORMAL), is_named), (b"", True, True), got.shown())
                # A file that is made stays, empty, where it could not be opened.
                may_be_empty = READ in sum(model.logs, []) or (got.status, before) == (FAILED, None)
                self.holds(f"{title}: the file", got.left == before or (got.left == b"" and may_be_empty), got.shown())
