"""Checks what the built `rdump cat --partial` writes: the blocks that the reels have, each in its place, zero bytes for each missing block, and never
status 0.

A plain model says what has to come of whole reels. A reel counts if it is a whole volume, and with a catalog if its sum is in force.
"""

from __future__ import annotations

import random
import tempfile
from typing import NamedTuple

from tests.checks.cat import MISSING, TWO_DUMPS, Volume, dump_line, random_shelf, whole_volumes
from tests.lib.case import random_seed
from tests.lib.cats import ReelFolder, cat_with
from tests.lib.dumping import DAY
from tests.lib.ended import ABNORMAL, FAILED, Ended
from tests.lib.listings import Label
from tests.lib.volumes import reels_of
from tests.models.found import EQUAL, Dump, begun_line, finished_line, verdict_on, volume_line
from tests.models.rmtd import images

# A payload of 24 bytes in six blocks of 4 bytes, on four reels.
A = b"one two three four five."
REELS = dict(zip(("r1", "r2", "r3", "r4"), reels_of(A, 4, [(0, 2), (2, 1), (3, 2), (5, 1)])))
USR = Dump("/usr", 0, DAY, 0)
BEGUN = begun_line(USR, len(A))
LINES = BEGUN + b"".join(map(volume_line, REELS.values()))
FINISHED = LINES + finished_line(USR, 4, 6, 4, len(A))

NO_GAP = "--partial: no block is missing"

# How many random shelves are tried.
SHELVES = 300


class Parts(NamedTuple):
    """What has to be written, and the ranges of blocks that are missing."""

    payload: bytes
    gaps: list[tuple[int, int]]


def told_of(gaps: list[tuple[int, int]]) -> bytes:
    """What is told of these ranges."""
    lines = [f"blocks {first} to {end - 1} are missing: zero bytes are in their place" for first, end in gaps] or [NO_GAP]
    return "".join(f"rdump: {it}\n" for it in lines).encode()


def parts_of(volumes: list[Volume], length: int | None) -> Parts | None:
    """What whole volumes have of a payload of this length, or None if nothing must be written."""
    one = list({it.label.volume: it for it in volumes}.values())
    sizes = {len(it.blocks[0]) if it.blocks else 0 for it in one}
    if not one or len({it.label[:4] for it in one}) > 1 or len({it.data for it in volumes}) > len(one) or len(sizes) > 1:
        return None
    (size,) = sizes
    end, payload, gaps = 0, b"", []
    for it in one:
        if it.label.first < end or (it.label.first > end and not size):
            return None
        gaps += [(end, it.label.first)] if it.label.first > end else []
        payload += bytes(size * (it.label.first - end)) + b"".join(it.blocks)
        end = it.label.first + len(it.blocks)
    if length is None:
        return Parts(payload, gaps)
    blocks = -(-length // size) if size else 0
    gaps += [(end, blocks)] if blocks > end else []
    return Parts(payload[:length] + bytes(max(0, length - len(payload))), gaps)


class Partial(ReelFolder):
    """Some of the reels of a dump."""

    def setUp(self) -> None:
        super().setUp()
        self.lay(REELS)

    def comes(self, name: str, payload: bytes, gaps: list[tuple[int, int]], *words: str, why: str = "") -> None:
        got = cat_with("--partial", *words, folder=self.folder)
        self.same(name, got, Ended(payload, why.encode() + told_of(gaps), ABNORMAL))

    def refused(self, name: str, why: str, *words: str, status: int = ABNORMAL) -> None:
        told = "".join(f"rdump: {it}\n" for it in why.split("\n"))
        self.same(name, cat_with("--partial", *words, folder=self.folder), Ended(b"", told.encode(), status))

    def test_each_choice(self) -> None:
        """Each set of the four reels, with a length, without one, and with a catalog."""
        ends = [(0, 2), (2, 3), (3, 5), (5, 6)]
        self.lay({"c": FINISHED, "unfinished": LINES})
        for chosen in range(1, 16):
            names = [f"r{number + 1}" for number in range(4) if chosen >> number & 1]
            have = [range(*ends[number]) for number in range(4) if chosen >> number & 1]
            is_there = [any(block in it for it in have) for block in range(6)]
            payload = b"".join(A[4 * at : 4 * at + 4] if it else bytes(4) for at, it in enumerate(is_there))
            edges = [at for at in range(7) if (at == 0 or is_there[at - 1]) != (at == 6 or is_there[at])]
            gaps = list(zip(edges[::2], edges[1::2]))
            last = have[-1][-1] + 1
            self.comes(f"{names}", payload[: 4 * last], [it for it in gaps if it[0] < last], *names)
            for length in (24, 23, 21):
                self.comes(f"{names}, {length} bytes", payload[:length], gaps, "--length", str(length), *names[::-1])
            for catalog in ("c", "unfinished"):
                self.comes(f"{names}, {catalog}", payload, gaps, "--catalog", catalog, *names)

    def test_lengths(self) -> None:
        """A length beyond the last volume is filled up with zero bytes, and a shorter one cuts."""
        self.comes("a longer one", A[:8] + bytes(93), [(2, 26)], "--length", "101", "r1")
        self.comes("a shorter one", A[:5], [], "--length", "5", "r1")
        self.comes("none", b"", [], "--length", "0", "r1")
        self.lay({"none": images([Label("/usr", 0, DAY, 0, 1, 0).record(), None])})
        self.comes("no block", b"", [], "none")
        self.comes("no block, and bytes are wanted", bytes(9), [], "--length", "9", "none")

    def test_sums(self) -> None:
        """With a catalog a reel whose sum differs is missing. Without one its bytes are written."""
        bad = bytearray(REELS["r2"])
        bad[1036] ^= 1
        self.lay({"r2": bytes(bad), "c": FINISHED})
        payload = A[:8] + bytes([A[8] ^ 1]) + A[9:]
        self.comes("without", payload, [], "--length", "24", *REELS)
        why = "rdump: r2: sum differs: it is set aside\n"
        self.comes("with", A[:8] + bytes(4) + A[12:], [(2, 3)], "--catalog", "c", *REELS, why=why)
        self.lay({"c": FINISHED + begun_line(USR, 6)})
        whys = [f"r{number}: of a dump that was begun anew: it is set aside" for number in (1, 3, 4)]
        got = cat_with("--partial", "--catalog", "c", "r1", "r3", "r4", folder=self.folder)
        self.same("begun anew", got[::2], (b"", ABNORMAL), got)
        self.holds("begun anew: why", all(it.encode() in got.told for it in whys), got)

    def test_refused(self) -> None:
        """Reels that are not of one payload: nothing is written."""
        self.lay({"c": begun_line(USR._replace(name="/"), 5)})
        self.refused("no such dump", "c: it has no such dump", "--catalog", "c", "r1")
        again = bytearray(REELS["r2"])
        again[1036] ^= 1
        self.lay({"again": bytes(again)})
        why = "r2 and again have the same volume, with different bytes: leave out one of them"
        got = cat_with("--partial", "r2", "again", folder=self.folder)
        self.holds("two reels", got[::2] == (b"", ABNORMAL) and why.split(":", maxsplit=1)[1].encode() in got.told, got)
        other = Label("/usr", 1, DAY, 0, 2, 2)
        self.lay({"other": images([other.record(), b"else", None])})
        lines = "\n".join((TWO_DUMPS, dump_line(Label("/usr", 0, DAY, 0, 1, 0)), dump_line(other)))
        self.refused("two dumps", lines, "r1", "other", status=FAILED)
        self.lay({"back": images([Label("/usr", 0, DAY, 0, 3, 2).record(), b"else", None])})
        self.refused("a volume before the end", "back: it does not begin at block 3, where the volume before it ends", "r2", "back")
        self.lay({"empty": b""})
        self.refused("no volume", "no file has a whole volume of such a dump: rdump ls with the same files prints what each of them has", "empty")

    def test_whole(self) -> None:
        """Without the option the same reels are refused."""
        got = cat_with("--length", "24", "r1", "r3", "r4", folder=self.folder)
        self.same("one is missing", got, Ended(b"", f"rdump: {MISSING}\n".encode(), ABNORMAL))

    def test_random_shelves(self) -> None:
        """Reels of two dumps, some of them damaged, doubled or missing: what comes is what the plain model says."""
        first = random_seed(97)
        came = set()
        for seed in range(first, first + SHELVES):
            source = random.Random(seed)
            files = random_shelf(source)
            for name in source.sample(sorted(files), source.randrange(len(files))):
                del files[name]
            length = source.choice((None, None, 20, 18, 9, 30, 0))
            words = () if length is None else ("--length", str(length))
            with tempfile.TemporaryDirectory(dir=self.folder) as folder:
                self.lay({f"{folder}/{name}": data for name, data in files.items()})
                got = cat_with("--partial", *words, folder, folder=self.folder)
            wanted = parts_of(whole_volumes(files), length)
            came.add(wanted is None)
            if wanted is None:
                self.same(f"shelf {seed}", (got.output, got.status in (ABNORMAL, FAILED), got.told != b""), (b"", True, True), got)
            else:
                self.same(f"shelf {seed}", got, Ended(wanted.payload, told_of(wanted.gaps), ABNORMAL))
        self.same("both came", came, {True, False})

    def test_verdicts(self) -> None:
        """The catalog has the sum of each reel."""
        self.same("each", {verdict_on(it, FINISHED) for it in REELS.values()}, {EQUAL})
