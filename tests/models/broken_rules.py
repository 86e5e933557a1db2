"""Rules of the model that are turned off one at a time, and a short list of events found then that breaks the headline.

    python3 -m tests.models.broken_rules RULE [--seed N]

It shows such a list. The rule `none` turns no rule off, and `all` each in turn.

A search makes random schedules, and looks at the world of each after each line. From the first that breaks a sentence lines are left out as long as
a sentence is still broken. With every rule on no schedule breaks any.
"""

from __future__ import annotations

import argparse
import itertools
import random
from typing import Collection, Iterator, NamedTuple

from tests.lib.random_schedules import DUMPING, Profile, Walk
from tests.models.headline import BESIDE, HEADLINE, SENTENCES, broken
from tests.models.session import KEEPS_THE_OLD_TAIL, STAYS_HELD, TAKES_FROM_A_HOLDER, WRITES_A_PART
from tests.models.world import (
    A_COUNT_MORE,
    COUNTS_AT_THE_MARK,
    ENTERS_A_PART,
    KEEPS_AN_ENTERED_RUN,
    KEEPS_OVER_A_NEW_RUN,
    LISTS_NO_OPEN,
    LISTS_NO_WRITE,
    LOOKS_AT_NO_LABEL,
    TAKES_A_SMALLER_NUMBER,
    BadLine,
    NotPossible,
    Schedule,
)

# Each rule that can be turned off, and what the server, the client or the world does then.
RULES = {
    LOOKS_AT_NO_LABEL: "the client goes on whatever label it is shown",
    LISTS_NO_OPEN: "an accepted open to write only is not listed",
    LISTS_NO_WRITE: "a write of a stranger is not listed",
    COUNTS_AT_THE_MARK: "the client counts at the answer to the mark",
    WRITES_A_PART: "the server writes what came of a record when the connection is over",
    TAKES_FROM_A_HOLDER: "an open of a held drive is not refused",
    KEEPS_THE_OLD_TAIL: "a write keeps the entries after it",
    TAKES_A_SMALLER_NUMBER: "the client takes a smaller number in answer to a write",
    ENTERS_A_PART: "a run is entered with a volume missing",
    STAYS_HELD: "the end of a session leaves the drive held",
    A_COUNT_MORE: "a run that comes back has a count that was not made",
    KEEPS_AN_ENTERED_RUN: "a run that was entered can come back",
    KEEPS_OVER_A_NEW_RUN: "a run comes back in place of one that was begun after it",
}

# A part of a record can come onto a reel only before it is counted, an older run that comes back is one that was counted too, and a write follows an
# open, which is listed: the headline alone does not tell these.
LOOKED_AT = {rule: HEADLINE for rule in RULES} | {it: BESIDE for it in (WRITES_A_PART, KEEPS_OVER_A_NEW_RUN, LISTS_NO_WRITE)} | {"": SENTENCES}

PUMPED = Profile(
    "pumped",
    {**DUMPING, "pump": 30, "stranger": 3, "says": 15, "cut": 3, "arrange": 8},
    drives=(1, 1, 2),
    reels=(1, 2),
    capacities=(3_100, 1_040, 5_000),
    blocks=(0, 1, 3),
    sizes=(1_024,),
    names=(b"/usr",),
    pieces=0.2,
    alive=4,
)
CUT = PUMPED._replace(name="cut", weights={**DUMPING, "pump": 2, "cut": 4, "end-server": 20, "stranger": 1}, pieces=0.4, alive=3)
RESTARTED = PUMPED._replace(name="restarted", weights={**PUMPED.weights, "save": 8, "restart-client": 5})
SEARCHED = (PUMPED, CUT, RESTARTED)
LENGTH = 150

SEED = 20_261_124

# The words after which the number of a connection stands, and how many lines are few.
NUMBERED = frozenset(b"to-server to-client serve cut end-server end-client says pump".split())
FEW = 40


class Break(NamedTuple):
    """A schedule after which a sentence of the headline does not hold, and that sentence with its case."""

    lines: list[bytes]
    told: str


def first_break(rule: str, seed: int) -> Break | None:
    """The first line of a random schedule after which something is broken, with all before it."""
    walk = Walk(random.Random(seed), SEARCHED[seed % len(SEARCHED)], [rule])
    while len(walk.lines) < LENGTH:
        walk.take(walk.next())
        if told := broken(walk.world, LOOKED_AT[rule]):
            return Break(walk.lines, told)
    return None


def broken_by(lines: list[bytes], rule: str) -> Break | None:
    """The lines that are possible of these, up to the first after which something is broken."""
    schedule = Schedule([rule])
    made: list[bytes] = []
    for line in lines:
        try:
            schedule.line(line)
        except (BadLine, NotPossible):
            continue
        made.append(line)
        told = schedule.made and broken(schedule.made, LOOKED_AT[rule])
        if told:
            return Break(made, told)
    return None


def without(lines: list[bytes], places: Collection[int]) -> list[bytes]:
    """The same without some lines. Of connections that are not made then no line speaks, and the others have the numbers that they have then."""
    numbers: dict[int, int] = {}
    made, left = 0, []
    for place, line in enumerate(lines):
        word, _, rest = line.partition(b" ")
        if word in (b"connect", b"stranger"):
            made += 1
            if place not in places:
                numbers[made] = len(numbers) + 1
        if word in NUMBERED:
            number, *others = rest.split(b" ")
            if int(number) not in numbers:
                continue
            line = b" ".join((word, b"%d" % numbers[int(number)], *others))
        if place not in places:
            left.append(line)
    return left


def joined(lines: list[bytes], at: int) -> list[bytes]:
    """The same with two lines of one connection as one, where both are bytes of a stranger or rounds."""
    one, other = (it.split(b" ") for it in lines[at : at + 2])
    if one[:2] != other[:2] or one[0] not in (b"says", b"pump"):
        return lines
    last = one[2] + other[2] if one[0] == b"says" else b"%d" % (int(one[2]) + int(other[2]))
    return [*lines[:at], b" ".join((*one[:2], last)), *lines[at + 2 :]]


def pumped(lines: list[bytes], at: int) -> list[bytes]:
    """The same with the lines of a request and its reply as a round, where they are that."""
    words = [it.split(b" ") for it in lines[at : at + 4]]
    number = words[-1][1:2]
    if [it[0] for it in words] != [b"send", b"to-server", b"serve", b"to-client"] or any(it[1:2] != number for it in words[1:]):
        return lines
    return [*lines[:at], b"pump %s 1" % number[0], *lines[at + 4 :]]


def shorter(lines: list[bytes]) -> Iterator[list[bytes]]:
    """Shorter lists: without some lines in a row, with two lines, or those of a request, as one, and, of few lines, without any lines in a row
    and any two lines."""
    step = len(lines) // 2
    while step:
        yield from (without(lines, range(at - step, at)) for at in range(len(lines), 0, -step))
        step //= 2
    yield from (pumped(lines, at) for at in range(len(lines) - 3))
    yield from (joined(lines, at) for at in range(len(lines) - 1))
    ends = range(len(lines) + 1 if len(lines) <= FEW else 0)
    yield from (without(lines, range(*piece)) for piece in itertools.combinations(ends, 2))
    yield from (without(lines, pair) for pair in itertools.combinations(ends[:-1], 2))


def shortened(found: Break, rule: str) -> Break:
    """The same with as many lines left out as can be, one change after the other."""
    for lines in shorter(found.lines):
        fewer = broken_by(lines, rule) if len(lines) < len(found.lines) else None
        if fewer:
            return shortened(fewer, rule)
    return found


def searched(rule: str, seeds: Iterator[int]) -> tuple[Break | None, int]:
    """The first break that is found, and how many schedules were made."""
    made = 0
    for seed in seeds:
        made += 1
        if found := first_break(rule, seed):
            return found, made
    return None, made


def told_of(rule: str, found: Break, made: int) -> str:
    """A break, as a reader wants it."""
    lines = "\n".join("  " + (it if len(it) < 130 else it[:127] + b"...").decode() for it in found.lines)
    return f"{rule}: {RULES[rule]}\n{lines}\n  breaks: {found.told} (after {made} random schedules)"


def shown(rule: str, seed: int, most: int) -> str:
    """What a search finds where a rule is off, or, of the name "", where none is."""
    found, made = searched(rule, iter(range(seed, seed + most)))
    if not found:
        return f"{rule or 'every rule is on'}: no break in {made} random schedules of {LENGTH} lines"
    return told_of(rule, shortened(found, rule), made)


def main() -> None:
    parser = argparse.ArgumentParser(prog="python3 -m tests.models.broken_rules", description="Shows what breaks the headline where a rule is off.")
    parser.add_argument("rule", choices=["all", "none", *RULES])
    parser.add_argument("--seed", type=int, default=SEED)
    asked = parser.parse_args()
    for rule in {"all": [*RULES, ""], "none": [""]}.get(asked.rule, [asked.rule]):
        print(shown(rule, asked.seed, 2_000 if rule else 500), flush=True)


if __name__ == "__main__":
    main()
