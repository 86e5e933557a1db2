"""Checks the built `rsim` from outside, to the byte: schedules and bad lines written by hand, random schedules beside a plain model, and words."""

from __future__ import annotations

import os
import random
import resource
import tempfile
import time
from collections import Counter
from pathlib import Path
from typing import Iterable, NamedTuple

from tests.lib.case import random_seed
from tests.lib.dumping import VERSION
from tests.lib.ended import Ended
from tests.lib.random_schedules import LONG_WRITES, MANY_DRIVES, PROFILES, Profile, Walk, candidates, is_possible
from tests.lib.simulator import RsimCase, as_ended
from tests.lib.vectors import BAD_LINES, BAD_TEXTS, GOOD_LINES, GOOD_TEXTS, LATE_BAD_LINES, LATE_NOT_POSSIBLE, REUSED, VECTORS
from tests.models.broken_rules import LENGTH, RULES, broken_by, first_break, searched, shortened, shorter
from tests.models.headline import SENTENCES, broken
from tests.models.world import DONE, FAILED, NO_MEMORY, Outcome, at_the_end, lines_of, outcome

# The program starts in so much memory, and a payload of more bytes does not fit into it.
ROOM = 256 << 20

# The usual seed of random schedules.
SEED = 20_261_124

# Of each kind of event and of answer that the model has met in the random schedules, at least so many are wanted.
OFTEN = 20
# If a kind came less often, so many more schedules are made at most until it did.
MOST_MORE = 40

# So many random schedules are searched at most for one that breaks the headline where a rule is off, and so many are made with every rule on.
SEARCHED = 5_000
UNBROKEN = 100

# A schedule of which the program prints something else is made smaller for so many seconds.
SMALLER_SECONDS = 20


def stopped(text: bytes, status: int = FAILED) -> Outcome:
    """What is printed of a schedule that does not come to its end."""
    return Outcome(text, status)


def text_of(lines: list[bytes]) -> bytes:
    return b"".join(it + b"\n" for it in lines)


def refused(got: Ended[bytes]) -> bool:
    """Whether a program did nothing but to tell a fault."""
    return (got.status, got.output) == (FAILED, b"") and len(got.told) > 1 and got.told.endswith(b"\n")


class ByHand(RsimCase):
    """Schedules and lines written by hand. The model is checked by them, too."""

    def test_schedules(self) -> None:
        for name, text, output in (*VECTORS, *GOOD_TEXTS):
            wanted = Outcome(output, DONE)
            self.prints(f"{name}, the model", as_ended(outcome(text)), wanted)
            self.prints(name, self.rsim.of(text), wanted)
            self.prints(f"{name}, without the last line feed", self.rsim.of(text.removesuffix(b"\n")), wanted)

    def test_texts_with_a_line_at_fault(self) -> None:
        for name, text, output in BAD_TEXTS:
            self.prints(f"{name}, the model", as_ended(outcome(text)), stopped(output))
            self.prints(name, self.rsim.of(text), stopped(output))

    def test_bad_lines(self) -> None:
        """Each bad line, at several places."""
        drives = b"drive /dev/st0 3100 r1 r2\n"
        failed, number = failed_attempts(), len(lines_of(REUSED)) + 1
        for line in BAD_LINES:
            for begin, place, before in ((drives, 2, b""), (b"\n# a\n" + drives + b"\n", 5, b""), (REUSED, number, failed)):
                text, wanted = begin + line + b"\nconnect\n", stopped(before + b"line %d: bad line\n" % place)
                self.prints(f"the line {line[:90]!r} at {place}, the model", as_ended(outcome(text)), wanted)
                self.prints(f"the line {line[:90]!r} at {place}", self.rsim.of(text), wanted)

    def test_lines_after_failed_attempts(self) -> None:
        """Bad lines, and lines that are not possible there."""
        failed, number = failed_attempts(), len(lines_of(REUSED)) + 1
        for line, fault in [(it, b"bad line") for it in LATE_BAD_LINES] + [(it, b"not possible") for it in LATE_NOT_POSSIBLE]:
            text, wanted = REUSED + line, stopped(failed + b"line %d: %s\n" % (number, fault))
            self.prints(f"the late line {line[:90]!r}, the model", as_ended(outcome(text)), wanted)
            self.prints(f"the late line {line[:90]!r}", self.rsim.of(text), wanted)

    def test_lawful_lines(self) -> None:
        drives = b"drive /dev/st0 3100 r1 r2\n"
        for line in GOOD_LINES:
            wanted = outcome(drives + line)
            self.same(f"the model takes the line {line[:90]!r}", wanted.status, DONE, wanted)
            self.prints(f"the line {line[:90]!r}", self.rsim.of(drives + line + b"\n"), wanted)


def failed_attempts() -> bytes:
    """What is printed of the failed attempts of the reused schedule."""
    return outcome(REUSED).output.split(b"reel")[0]


class Words(RsimCase):
    """The words of the program, and the file that they name."""

    good = VECTORS[0].text

    def setUp(self) -> None:
        super().setUp()
        self.rsim.file.write_bytes(self.good)

    def test_bad_words(self) -> None:
        file = str(self.rsim.file)
        for asked in ((), (file, file), ("--file", file), ("-x",), ("-x", file)):
            got = self.rsim.run(*asked)
            self.holds(f"the words {list(asked)}: the status, nothing printed, and a fault told", refused(got), got)

    def test_files_that_cannot_be_read(self) -> None:
        for asked in ("", str(self.rsim.folder / "none"), str(self.rsim.folder), f"{self.rsim.file}/"):
            got = self.rsim.run(asked)
            self.holds(f"the file {asked!r}: the status, nothing printed, and one line told", refused(got) and got.told.count(b"\n") == 1, got)

    def test_help(self) -> None:
        for word in ("--help", "-h"):
            got = self.rsim.run(word)
            self.same(f"the word {word}", (got.status, got.told, b"\nUsage: rsim <FILE>\n" in got.output), (DONE, b"", True), got)

    def test_version(self) -> None:
        for word in ("--version", "-V"):
            self.prints(f"the word {word}", self.rsim.run(word), Outcome(f"rsim {VERSION}\n".encode(), DONE))

    def test_a_file_of_its_folder(self) -> None:
        self.prints("the word of a file in this folder", self.rsim.run(self.rsim.file.name), outcome(self.good))
        self.same("the file stays as it is", self.rsim.file.read_bytes(), self.good)


def in_little_room() -> None:
    """Grants the process `ROOM` bytes of memory in all."""
    resource.setrlimit(resource.RLIMIT_AS, (ROOM, ROOM))


class Memory(RsimCase):
    """A payload that memory is refused for: that is printed, after the failed attempts so far."""

    huge = b"run /dev/st0 /usr 0 0 0 65536 %d\n"
    drives = b"drive /dev/st0 1040 r1\n"

    def test_a_payload(self) -> None:
        for blocks in (2 * ROOM // 65_536, 2_147_483_647):
            wanted = stopped(b"line 2: out of memory\n", NO_MEMORY)
            self.prints(f"a payload of {blocks} blocks", self.rsim.of(self.drives + self.huge % blocks + b"x\n", in_little_room), wanted)

    def test_a_payload_after_a_failed_attempt(self) -> None:
        failed = self.drives + b"run /dev/st0 /usr 0 0 0 1024 1\nconnect\npump 1 11\nabandon\n"
        wanted = stopped(b"volume 1 failed: ReelTooSmall\nline 6: out of memory\n", NO_MEMORY)
        self.prints("such a payload after a failed attempt", self.rsim.of(failed + self.huge % 1_000_000, in_little_room), wanted)

    def test_a_schedule(self) -> None:
        _, text, output = VECTORS[0]
        self.prints("little memory is enough for a schedule", self.rsim.of(text, in_little_room), Outcome(output, DONE))


class Plan(NamedTuple):
    """So many random schedules of a kind, each of so many lines."""

    profile: Profile
    many: int
    lines: int


PLANS = (
    *(Plan(it, 30, 1_000) for it in PROFILES),
    *(Plan(it, 2, 10_000) for it in PROFILES),
    Plan(PROFILES[0], 1, 100_000),
    Plan(PROFILES[2], 1, 100_000),
    Plan(LONG_WRITES, 6, 1_000),
    Plan(MANY_DRIVES, 4, 2_000),
)

WANTED_EVENTS = (
    "run",
    "connect",
    "send",
    "send fault",
    "to-server",
    "to-server all",
    "serve",
    "serve kept",
    "serve lost",
    "serve written",
    "to-client",
    "to-client all",
    "cut",
    "end-server",
    "end-client",
    "restart-server",
    "restart-client",
    "retry",
    "abandon",
    "arrange",
    "stranger",
    "says",
    "enter",
    "pump",
    "save",
    "a run comes back",
    "a run comes back with fewer counts than were made",
)
WANTED_FAILURES = ("ConnectionEnded", "ReelTooSmall", "SourceFault", "CountedReel", "Refused 2", "Refused 5", "Refused 6", "Refused 16")

# The letter of a request and its operation, the answer (`An`: a number above 0), and `failing` where a device call failed.
WANTED_REPLIES = (
    *"O A0,O E2,O E5 failing,O E6,O E16,O E22,C A0,C E9,W A0,W An,W E5 failing,W E6,W E9,W E22".split(","),
    *"R A0,R An,R E5 failing,R E6,R E9,R E22,I0 A0,I0 An,I0 E5 failing,I0 E6,I0 E9,I0 E13,I0 E28".split(","),
    *(f"I{op} {it}" for op in (1, 2, 3, 4) for it in ("A0", "An", "E5", "E5 failing", "E9")),
    *"I5 A0,I5 An,I5 E9,I6 An,I6 E5 failing,I6 E9,I7 An,I7 E9,I8 E22,I8 E9,answered a fault with an end".split(","),
)
# The kinds of which each that came at all has to come often, by how their names begin; and those that have to come.
KINDS = {"Events": "event ", "Answers to the client": "told ", "Failed attempts": "failed "}
WANTED = (
    tuple(f"event {it}" for it in WANTED_EVENTS),
    tuple(f"failed {it}" for it in WANTED_FAILURES),
    WANTED_REPLIES,
)


def few(seen: Counter[str], kinds: Iterable[str]) -> list[tuple[str, int]]:
    """Those of these kinds that did not come often, and how often they came."""
    return [(it, seen[it]) for it in kinds if seen[it] < OFTEN]


def few_that_begin(seen: Counter[str], begins: str) -> list[tuple[str, int]]:
    return few(seen, (it for it in sorted(seen) if it.startswith(begins)))


def came_often(seen: Counter[str]) -> bool:
    """Whether each kind came often."""
    return not any(few(seen, it) for it in WANTED) and not any(few_that_begin(seen, it) for it in KINDS.values())


class Randomly(RsimCase):
    """Random schedules: what is printed of each, and that the headline holds in the model. The names tell the seed."""

    def test_random_schedules(self) -> None:
        """Each kind of event and of answer comes often in them."""
        seed = random_seed(SEED)
        seen: Counter[str] = Counter()
        for plan in PLANS:
            for number in range(plan.many):
                seen += self.random_one(plan, seed, number)
        for number in range(MOST_MORE):
            if not came_often(seen):
                seen += self.random_one(PLANS[number % len(PROFILES)], seed, PLANS[0].many + number)
        for title, begins in KINDS.items():
            self.same(f"{title} come often", few_that_begin(seen, begins), [], seed)
        for kinds in WANTED:
            self.same(f"these come at least {OFTEN} times", few(seen, kinds), [], seed)

    def random_one(self, plan: Plan, seed: int, number: int) -> Counter[str]:
        """A random schedule. Answers how often each event and answer came."""
        name = f"{plan.profile.name}, {plan.lines} lines, seed {seed}/{number}"
        walk = Walk(random.Random(f"{plan.profile.name}/{plan.lines}/{seed}/{number}"), plan.profile)
        walk.grow(plan.lines)
        self.same(f"{name}: the headline in the model", broken(walk.world, SENTENCES), None)
        self.as_the_model(name, walk.lines, at_the_end(walk.schedule))
        return walk.world.seen

    def test_last_lines_after_random_schedules(self) -> None:
        """After short random schedules, lines of every kind that can be impossible: whether they are. And bad lines."""
        seed = random_seed(SEED)
        for number in range(80):
            source = random.Random(f"last lines/{seed}/{number}")
            walk = Walk(source, source.choice(PROFILES))
            walk.grow(source.randint(20, 200))
            found = [*dict.fromkeys(candidates(walk.world))]
            for line in source.sample(found, min(10, len(found))):
                self.last_line(walk, line, seed)
            line = source.choice(BAD_LINES)
            name = f"after {len(walk.lines)} lines, seed {seed}/{number}, {line!r}"
            self.prints(name, self.rsim.of(walk.text() + line), at_fault(walk, b"bad line"))

    def test_last_lines_by_hand(self) -> None:
        """The same after each beginning of a schedule that is written by hand."""
        lines = lines_of(REUSED)
        for length in range(2, len(lines)):
            walk = Walk(random.Random(0), PROFILES[0], lines=lines[:length])
            for line in dict.fromkeys(candidates(walk.world)):
                self.last_line(walk, line)

    def last_line(self, walk: Walk, line: bytes, *seed: int) -> None:
        """One line more: the program says as the model whether it is possible."""
        possible = is_possible(walk.world, line)
        lines = [*walk.lines, line]
        wanted = outcome(text_of(lines))
        name = f"after {len(walk.lines)} lines {line!r}, the model"
        self.holds(name, possible or wanted == at_fault(walk, b"not possible"), wanted, *seed)
        self.holds(name, not possible or wanted.status == DONE, wanted, *seed)
        self.as_the_model(f"after {len(walk.lines)} lines ending with {walk.lines[-4:]}, {line!r}", lines, wanted, *seed)

    def as_the_model(self, name: str, lines: list[bytes], wanted: Outcome, *seen: object) -> None:
        """The program prints what the model prints. A failure tells fewer lines of which it prints something else, and the file that has them."""
        came = self.rsim.of(text_of(lines))
        if came != as_ended(wanted):
            left = self.smaller(lines)
            kept = Path(tempfile.gettempdir(), f"rsim-differs-{os.getpid()}")
            kept.write_bytes(text_of(left))
            seen = (*seen, f"it differs after these lines, too, kept as {kept}", left, self.rsim.of(text_of(left)), outcome(text_of(left)))
        self.prints(name, came, wanted, *seen)

    def differs(self, lines: list[bytes]) -> bool:
        """Whether the program prints something else than the model."""
        return self.rsim.of(text_of(lines)) != as_ended(outcome(text_of(lines)))

    def smaller(self, lines: list[bytes]) -> list[bytes]:
        """Lines of which the program prints something else, with many left out: first the last ones, then others."""
        until = time.monotonic() + SMALLER_SECONDS
        least, most = 0, len(lines)
        while least < most:
            middle = (least + most) // 2
            least, most = (least, middle) if self.differs(lines[:middle]) else (middle + 1, most)
        left = lines[:most]
        while fewer := self.fewer(left, until):
            left = fewer
        return left

    def fewer(self, lines: list[bytes], until: float) -> list[bytes] | None:
        """Fewer lines of which the program prints something else. None if none are found before a time."""
        for it in shorter(lines):
            if time.monotonic() > until:
                return None
            if len(it) < len(lines) and self.differs(it):
                return it
        return None


def at_fault(walk: Walk, fault: bytes) -> Outcome:
    """What is printed where the next line is at fault."""
    return stopped(walk.schedule.failed() + b"line %d: %s\n" % (len(walk.lines) + 1, fault))


class BrokenRules(RsimCase):
    """With a rule of the model off, a list of lines breaks the headline. With every rule on none does, and the program does as the model."""

    def test_each_rule(self) -> None:
        seed = random_seed(SEED)
        for rule in RULES:
            found, _ = searched(rule, iter(range(seed, seed + SEARCHED)))
            if not self.holds(f"a break without the rule {rule}", found, seed) or not found:
                continue
            short = shortened(found, rule)
            self.same(f"no break of the same list with every rule: {rule}", broken_by(short.lines, ""), None, short.lines)
            text = text_of(short.lines)
            self.prints(f"the list that breaks the headline without the rule {rule}", self.rsim.of(text), outcome(text), short.lines)

    def test_every_rule_on(self) -> None:
        seed = random_seed(SEED)
        found = [it for it in (first_break("", seed + number) for number in range(UNBROKEN)) if it]
        self.same(f"no break with every rule on, in {UNBROKEN} schedules of {LENGTH} lines", found[:1], [], seed)
