"""Cuts a dump of two volumes after each byte by the built `rsim`, tries it to its end, and compares the whole report with what the bytes foretell.

One direction of one attempt is cut after a number of bytes; all else is delivered. The client sees the end at once, the server too, or only after
the next attempt. Then nothing else happens, the server restarts, or the client does, and its dump is run anew. The dump is tried until it is
finished, and is entered.

Each cut near an end of a request or a reply is made, and each Nth of the others; with EVERY=1 in the environment all are.
"""

from __future__ import annotations

import os
import tempfile
from collections import defaultdict
from pathlib import Path
from typing import Iterator, NamedTuple

from tests.lib.case import Case
from tests.lib.cut_dumps import ATTEMPTS, BLOCK, ENTRY, LABEL, MARK, OFFLINE, REELS, Cut, Request, blocks, cuts, entries, first_block
from tests.lib.places import built
from tests.lib.simulator import Rsim
from tests.models.world import DONE

# By hand: how many bytes each attempt sends, and is answered; and of the first one, up to the request for the move to the bin, and up to the replies
# to the mark and to that request.
TOTALS = ((4_160, 42), (2_100, 33))
MOVED, MARKED, COUNTED = 4_158, 36, 39

DRIVE = "drive /dev/st0 3100 " + " ".join(REELS)
RUN = "run /dev/st0 /usr 0 951782400 0 1024 3"

NOTHING, SERVER_RESTARTS, CLIENT_RESTARTS = "nothing", "restart-server", "restart-client"

# So many bytes lie between two cuts.
EVERY = int(os.environ.get("EVERY") or 64)
# So near to an end of a request or a reply each byte is cut.
NEAR = 2


class Trial(NamedTuple):
    """A cut, what follows it, and whether the server sees its end only after the next attempt."""

    cut: Cut
    after: str
    is_late: bool

    def is_unseen(self) -> bool:
        """Whether the session is still there at the next attempt."""
        return self.is_late and self.after != SERVER_RESTARTS


def trials(cut: Cut, *afters: str) -> Iterator[Trial]:
    """What can come of a cut: each of these may follow it, and the server may see its end at once or not."""
    for after in afters:
        for is_late in (False, True):
            yield Trial(cut, after, is_late)


class Course:
    """The lines of a schedule, and what they are to come to. Nothing is simulated: what an attempt does stands in the table of cuts."""

    def __init__(self) -> None:
        self.lines = [DRIVE, RUN]
        self.failed: list[str] = []
        self.counted: list[str] = []
        self.reels: list[list[str]] = [[] for _ in REELS]
        self.in_bin = 0
        self.connections = 0
        self.run = 1
        self.volume = 1
        self.asks = False

    def connect(self) -> int:
        """Begins an attempt, and returns the number of its connection."""
        self.lines += [*(["retry"] if self.asks else []), "connect"]
        self.asks = False
        self.connections += 1
        return self.connections

    def wrote(self, requests: tuple[Request, ...]) -> None:
        """The server has carried out these requests, the first of an attempt."""
        if found := entries(requests):
            self.reels[self.in_bin] = found
        self.in_bin += OFFLINE in requests

    def fail(self, fault: str) -> None:
        self.failed.append(f"volume {self.volume} failed: {fault}")
        self.asks = True

    def count(self) -> None:
        """The client counts the volume on the reel that went to the bin last."""
        reel = REELS[self.in_bin - 1]
        self.counted.append(f"counted {self.run} {self.volume} {first_block(self.volume)} {blocks(self.volume)} {reel}")
        self.volume += 1

    def attempt(self, is_busy: bool) -> None:
        """An attempt of which nothing is cut. It fails where another session has the drive."""
        number = self.connect()
        self.lines.append(f"pump {number} {max(map(len, ATTEMPTS))}")
        if is_busy:
            self.fail("Refused 16")
        else:
            self.wrote(ATTEMPTS[self.volume - 1])
            self.count()

    def cut(self, cut: Cut) -> None:
        """An attempt that is cut. Each number of bytes is spelled: one that the table has wrong makes a line that is not possible."""
        number = self.connect()
        for it in cut.answered():
            self.lines += ["send", f"to-server {number} {it.sent()}", f"serve {number}", f"to-client {number} {len(it.reply)}"]
        if not cut.is_whole():
            self.lines += [*lost(cut, number), f"cut {number}", f"end-client {number}"]
        self.wrote(cut.carried_out())
        if cut.is_counted():
            self.count()
        else:
            self.fail("ConnectionEnded")

    def restart_client(self) -> None:
        """The client begins the dump anew."""
        self.lines += [CLIENT_RESTARTS, RUN]
        self.run += 1
        self.volume = 1
        self.asks = False

    def is_finished(self) -> bool:
        return self.volume > len(ATTEMPTS)

    def report(self) -> str:
        """All that is printed."""
        reels = [" ".join(["reel", name, *found]) for name, found in zip(REELS, self.reels)]
        stack = " ".join(["stack", "/dev/st0", *REELS[self.in_bin :]])
        in_bin = " ".join(["bin", *REELS[: self.in_bin]])
        return "".join(f"{it}\n" for it in (*self.failed, *reels, stack, in_bin, *self.counted, "dumpdates", ENTRY))

    def text(self) -> bytes:
        """The schedule as a file has it."""
        return "".join(f"{it}\n" for it in self.lines).encode()


def lost(cut: Cut, number: int) -> list[str]:
    """The lines of the request that is lost, or whose reply is."""
    rest = cut.rest()
    if cut.to_server:
        return ["send", *([f"to-server {number} {rest}"] if rest else [])]
    sent = cut.carried_out()[-1].sent()
    return ["send", f"to-server {number} {sent}", f"serve {number}", *([f"to-client {number} {rest}"] if rest else [])]


def course(trial: Trial) -> Course:
    """A dump with this cut, tried to its end."""
    it = Course()
    while it.volume < trial.cut.attempt:
        it.attempt(is_busy=False)
        it.lines.append(f"end-server {it.connections}")
    it.cut(trial.cut)
    end = f"end-server {it.connections}"
    it.lines += [] if trial.is_late else [end]
    if trial.after == SERVER_RESTARTS:
        it.lines.append(SERVER_RESTARTS)
    if trial.after == CLIENT_RESTARTS:
        it.restart_client()
    unseen = [end] if trial.is_unseen() else []
    is_busy = trial.is_unseen() and trial.cut.is_held()
    while not it.is_finished():
        it.attempt(is_busy)
        it.lines += [*unseen, f"end-server {it.connections}"]
        unseen, is_busy = [], False
    it.lines.append("enter")
    return it


# What is read from the reports.


def holds_all(report: str) -> bool:
    """Whether each counted reel has a label, its blocks and one mark, and no more, and the last run's volumes have all blocks in order."""
    lines = [it.split(" ") for it in report.splitlines()]
    reels = {words[1]: words[2:] for words in lines if words[0] == "reel"}
    next_block: dict[str, int] = {}
    last_run = ""
    for last_run, _, first, count, reel in (words[1:] for words in lines if words[0] == "counted"):
        if int(first) != next_block.get(last_run, 0) or reels[reel] != [LABEL.entry] + [BLOCK.entry] * int(count) + [MARK.entry]:
            return False
        next_block[last_run] = int(first) + int(count)
    return next_block.get(last_run) == first_block(len(ATTEMPTS) + 1)


def where_it_stands(report: str) -> str:
    """The reel of volume 1 in a report of one run, by which connection it was counted, and what else has come to the bin."""
    lines = report.splitlines()
    reel = [it.split(" ")[-1] for it in lines if it.startswith("counted 1 1 ")]
    connection = 1 + len([it for it in lines if it.startswith("volume 1 failed: ")])
    counted = {it.split(" ")[-1] for it in lines if it.startswith("counted ")}
    spare = [it for line in lines if line.startswith("bin ") for it in line.split(" ")[1:] if it not in counted]
    more = "".join(f"; {it} stays in the bin, uncounted" for it in spare)
    return f"{', '.join(reel)}, by connection {connection}{more}"


def ranges(rows: dict[int, set[str]]) -> list[tuple[int, int, str]]:
    """The first and the last number of each range of numbers, and what is told of all in it."""
    found: list[tuple[int, int, str]] = []
    for passed, told in sorted(rows.items()):
        text = " or ".join(sorted(told))
        first = found.pop()[0] if found and found[-1][2] == text else passed
        found.append((first, passed, text))
    return found


# By hand, where the connection of the first attempt is cut and the client does not restart: the reel of volume 1, and by which connection it is
# counted, by the bytes that were passed. First whether the session is still there at the next attempt, and whether the way to the server is cut.
FIRST, SECOND, THIRD = "r1, by connection 1", "r1, by connection 2", "r1, by connection 3"
AGAIN, AGAIN_LATER = (f"r2, by connection {number}; r1 stays in the bin, uncounted" for number in (2, 3))
OPENED = 12
WHERE = {
    (False, True): [(0, MOVED - 1, SECOND), (MOVED, 4_160, FIRST)],
    (False, False): [(0, MARKED - 1, SECOND), (MARKED, COUNTED - 1, AGAIN), (COUNTED, 42, FIRST)],
    (True, True): [(0, OPENED - 1, SECOND), (OPENED, MOVED - 1, THIRD), (MOVED, 4_160, FIRST)],
    (True, False): [(0, MARKED - 1, THIRD), (MARKED, COUNTED - 1, AGAIN_LATER), (COUNTED, 42, FIRST)],
}


def title(trial: Trial) -> str:
    direction = "to the server" if trial.cut.to_server else "of replies"
    late = ", the end seen after the next attempt" if trial.is_late else ""
    return f"attempt {trial.cut.attempt} cut after {trial.cut.passed} bytes {direction}, then {trial.after}{late}"


class Cuts(Case):
    """Dumps of which one connection is cut."""

    def setUp(self) -> None:
        folder = self.enterContext(tempfile.TemporaryDirectory(prefix="cuts-"))
        self.rsim = Rsim(built("rsim"), Path(folder))

    def test_numbers(self) -> None:
        """The table of cuts comes to the numbers that were added up by hand."""
        totals = tuple(tuple(Cut(attempt, way, 0).ends()[-1] for way in (True, False)) for attempt in range(1, len(ATTEMPTS) + 1))
        self.same("the bytes of each attempt", totals, TOTALS)
        at = ATTEMPTS[0].index(OFFLINE)
        sent, answered = (Cut(1, way, 0).ends() for way in (True, False))
        self.same("the bytes up to the move to the bin", (sent[at], answered[at - 1], answered[at]), (MOVED, MARKED, COUNTED))

    def test_then_nothing(self) -> None:
        self.all_come_to_their_end(NOTHING)

    def test_then_the_server_restarts(self) -> None:
        self.all_come_to_their_end(SERVER_RESTARTS)

    def test_then_the_client_restarts(self) -> None:
        self.all_come_to_their_end(CLIENT_RESTARTS)

    def test_where_volume_1_stands(self) -> None:
        """The table of docs/WORLD.md, from the reports of cuts near the ends of requests and replies."""
        rows: dict[tuple[bool, bool], dict[int, set[str]]] = defaultdict(lambda: defaultdict(set))
        for cut in cuts(1 << 20, NEAR):
            for trial in trials(cut, NOTHING, SERVER_RESTARTS) if cut.attempt == 1 else ():
                rows[trial.is_unseen(), cut.to_server][cut.passed].add(where_it_stands(self.report(course(trial))))
        for (is_unseen, to_server), wanted in WHERE.items():
            name = f"the reel of volume 1, cut {'to the server' if to_server else 'of replies'}, the end {'un' * is_unseen}seen"
            self.same(name, ranges(rows[is_unseen, to_server]), wanted)

    def report(self, run: Course) -> str:
        return self.rsim.of(run.text()).output.decode()

    def all_come_to_their_end(self, after: str) -> None:
        """The report of each dump that is cut is as it was foretold, and has all that was dumped."""
        for cut in cuts(EVERY, NEAR):
            for trial in trials(cut, after):
                wanted = course(trial)
                got = self.rsim.of(wanted.text())
                if self.same(title(trial), tuple(got), (wanted.report().encode(), b"", DONE), *wanted.lines):
                    self.holds(f"{title(trial)}: each counted reel is whole", holds_all(got.output.decode()), got.output)
