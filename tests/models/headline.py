"""What must hold in the world of `world.py` after every event, looked at from nothing: by no step of the model's own.

The headline: each counted reel that no foreign session opened for writing since holds exactly its volume, its label, its blocks and one mark; no
two sessions hold one drive; dumpdates gained only runs of which the client's list, as they were entered, is all their blocks in order, and each
volume of that stands among the counts; and the counts are exactly those of what the client sent and was answered. A session is foreign to a count
unless its connection is the client's, of the same run, and the client's list held that volume and first block as the open was accepted.

Beside it: what the client lists, and what is kept of a run, was counted, in order, and the run that is kept is the last that was begun, and not
entered; from the label on a client's reel holds the writes that were accepted and nothing else, until one met a device fault or another session
that has the reel open for writing carried out a write on it; as long as no foreign session opened a counted reel for writing since, no session
that opened it since carries out a write on it; a client that was shown the label of a volume that it has counted sends no more; and it sends one
request at a time.
"""

from __future__ import annotations

from typing import Callable, Iterable, Iterator

from tests.lib.given import given
from tests.models.session import Reel
from tests.models.world import Count, Link, Opening, Volume, World, entered

Sentence = Callable[[World], Iterator[str]]


def broken(world: World, sentences: Iterable[Sentence]) -> str | None:
    """The first of these sentences that does not hold, told with its case; None where all hold."""
    return next((told for sentence in sentences for told in sentence(world)), None)


def opened_at(world: World, reel: Reel, link: int) -> int | None:
    """How many openings for writing there were once this connection had opened this reel; None where that is not listed."""
    return next((at for at, it in enumerate(world.opens, 1) if it.link == link and it.reel is reel), None)


def is_foreign(world: World, opening: Opening, count: Count) -> bool:
    """Whether the session that opened a reel is foreign to a count."""
    link = world.links[opening.link - 1]
    is_of_the_run = link.is_mine and link.run_number == count.run
    return not is_of_the_run or count.volume[:2] not in [it[:2] for it in opening.listed]


def is_spared(world: World, count: Count) -> bool:
    """Whether no foreign session opened the reel of a count for writing after the count's own."""
    at = opened_at(world, count.reel, count.link)
    return at is not None and not any(it.reel is count.reel and is_foreign(world, it, count) for it in world.opens[at:])


def writers_since(world: World, reel: Reel, link: int) -> list[int]:
    """The other sessions that carried out a write on this reel after this connection opened it."""
    at = opened_at(world, reel, link)
    return [it.link for it in world.writings if it.reel is reel and it.link != link and at is not None and it.after >= at]


def counted_reels(world: World) -> Iterator[str]:
    for count in world.counts:
        run = world.runs[count.run - 1]
        whole = run.volume(*count.volume)
        if opened_at(world, count.reel, count.link) is None:
            volume, reel = count.volume.volume, count.reel.name.decode()
            yield f"connection {count.link} counted volume {volume} of run {count.run}, and its open of {reel} is not listed"
        if count.reel.entries != whole and is_spared(world, count):
            held = [it and len(it) for it in count.reel.entries]
            yield f"reel {count.reel.name.decode()}, counted as volume {count.volume.volume} of run {count.run}, holds {held}"


def holders(world: World) -> Iterator[str]:
    open_in: dict[bytes, int] = {}
    for link in world.alive.values():
        drive = link.session.drive if link.server_live else None
        if drive and drive.name in open_in:
            yield f"sessions {open_in[drive.name]} and {link.number} both hold {drive.name.decode()}"
        if drive:
            open_in[drive.name] = link.number
    for drive in world.shop.drives.values():
        if drive.holder != open_in.get(drive.name, 0):
            yield f"{drive.name.decode()} is held by {drive.holder}, and open in session {open_in.get(drive.name, 0)}"


def covers(counts: list[Volume], blocks: int) -> bool:
    """Whether these volumes, in this order, are all blocks."""
    block = 0
    for place, it in enumerate(counts, 1):
        if (it.volume, it.first) != (place, block):
            return False
        block += it.blocks
    return bool(counts) and block == blocks


def entered_runs(world: World) -> Iterator[str]:
    dates: list[tuple[bytes, int, int]] = []
    for number, listed in world.entered:
        run = world.runs[number - 1]
        dates = entered(dates, (run.name, run.level, run.date))
        if not covers([*listed], run.blocks):
            yield f"run {number} of {run.blocks} blocks was entered, listed were {[tuple(it) for it in listed]}"
        if uncounted := not_counted(world, number, listed):
            yield f"run {number} was entered, and {uncounted} were not counted"
    runs = [it.run for it in world.entered]
    if dates != world.dates or len(set(runs)) < len(runs):
        yield f"entered were {runs}, dumpdates are {world.dates}"


def not_counted(world: World, run: int, listed: Iterable[Volume]) -> list[tuple[int, ...]]:
    """Those of these volumes that are not among the counts of a run."""
    counts = {it.volume for it in world.counts if it.run == run}
    return [tuple(it) for it in listed if it not in counts]


def position_of(link: Link, world: World) -> Volume | None:
    """The volume that is counted by what was sent and answered on a connection."""
    run = world.runs[link.run_number - 1]
    requests = [f"O{run.device.decode()}\n2\n".encode(), b"I5\n1\n", b"R1024\n", b"I5\n1\n"]
    label = run.label(link.volume, link.first)
    requests.append(b"W%d\n%s" % (len(label), label))
    blocks = 0
    while link.first + blocks < run.blocks and len(requests) < len(link.got) and link.got[len(requests)] == ("A", run.block):
        block = run.record(link.first + blocks)
        requests.append(b"W%d\n%s" % (len(block), block))
        blocks += 1
    if link.shown is None or shows_a_counted_label(link, world):
        return None
    wanted = [("A", link.got[0][1]), ("A", 1), ("A", len(link.shown)), ("A", 1), ("A", 1024), *[("A", run.block)] * blocks]
    if link.first + blocks < run.blocks and link.got[len(requests) :][:1] in ([("A", 0)], [("E", 28)]) and blocks:
        block = run.record(link.first + blocks)
        wanted.append(link.got[len(requests)])
        requests.append(b"W%d\n%s" % (len(block), block))
    elif link.first + blocks < run.blocks:
        return None
    requests += [b"I0\n1\n", b"I6\n1\n"]
    wanted += [("A", 1), ("A", 1)]
    whole = link.sent[: len(requests)] == requests and link.got[: len(wanted)] == wanted
    return Volume(link.volume, link.first, blocks) if whole else None


def shows_a_counted_label(link: Link, world: World) -> bool:
    """Whether the look of a connection showed the label of a volume that the client had counted as its open was accepted."""
    run = world.runs[link.run_number - 1]
    listed = [volume for it in world.opens if it.link == link.number for volume in it.listed]
    return link.shown in [run.label(it.volume, it.first) for it in listed]


def counts_of_positions(world: World) -> Iterator[str]:
    for link in world.links:
        if link.is_mine:
            volume = position_of(link, world)
            here = [it for it in world.counts if it.link == link.number]
            want = [Count(link.run_number, volume, given(link.reel), link.number)] if volume else []
            if here != want:
                yield f"connection {link.number} counts {[tuple(it.volume) for it in here]}, its position is {volume}"


def accepted_writes(world: World) -> Iterator[str]:
    for link in world.links:
        if not link.is_mine or not link.accepted or link.write_failed:
            continue
        reel = given(link.reel)
        if reel.entries != link.accepted and not writers_since(world, reel, link.number):
            held = [[it and len(it) for it in entries] for entries in (link.accepted, reel.entries)]
            yield f"of connection {link.number} were accepted {held[0]}, reel {reel.name.decode()} holds {held[1]}"


def spared_reels(world: World) -> Iterator[str]:
    for count in world.counts:
        writers = writers_since(world, count.reel, count.link)
        if writers and is_spared(world, count):
            yield f"sessions {writers} wrote on reel {count.reel.name.decode()}, counted as volume {count.volume.volume} of run {count.run}"


def stopped_attempts(world: World) -> Iterator[str]:
    for link in world.links:
        if link.is_mine and link.shown is not None and shows_a_counted_label(link, world) and link.sent[3:]:
            yield f"connection {link.number} was shown the label of a counted volume, and sent {len(link.sent)} requests"


def requests_ahead(world: World) -> Iterator[str]:
    for link in world.links:
        if link.is_mine and not len(link.got) <= len(link.sent) <= len(link.got) + 1:
            yield f"connection {link.number} sent {len(link.sent)} requests and was answered {len(link.got)}"


def is_beginning(counts: Iterable[Volume], blocks: int) -> bool:
    """Whether these volumes are the first ones of a run, in order."""
    block = 0
    for place, it in enumerate(counts, 1):
        if (it.volume, it.first) != (place, block) or block + it.blocks > blocks:
            return False
        block += it.blocks
    return True


def listed_volumes(world: World) -> Iterator[str]:
    """What the client lists, and what is kept."""
    lists = [("the client", world.client.number, (*world.client.counted,))] if world.client else []
    lists += [("what is kept", *world.kept)] if world.kept else []
    for who, run, listed in lists:
        if uncounted := not_counted(world, run, listed):
            yield f"{who} lists {uncounted} of run {run}, which were not counted"
        if not is_beginning(listed, world.runs[run - 1].blocks):
            yield f"{who} lists {[tuple(it) for it in listed]} of run {run}"
    if world.kept and (world.kept.run != len(world.runs) or world.kept.run in [it.run for it in world.entered]):
        yield f"run {world.kept.run} is kept, {len(world.runs)} were begun, entered were {[it.run for it in world.entered]}"


HEADLINE = (counted_reels, holders, entered_runs, counts_of_positions)
BESIDE = (accepted_writes, spared_reels, stopped_attempts, requests_ahead, listed_volumes)
SENTENCES = (*HEADLINE, *BESIDE)
