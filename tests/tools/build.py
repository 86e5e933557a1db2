"""Builds programs or libraries: the libraries that they stand on first, side by side where none stands on another, each by `rt lib`, and then the
programs by `rt run`.

    python3 -m tests.tools.build [--jobs N] CRATE..

It says first how long it is likely to take, and then tells each crate as it is built. `rt` locks each crate below the one that it
works in, so each runs in a tree of its own under out/build, which has links to the sources and libraries that it needs; what it built
then goes to the crate's own out/, where `rt` finds it.

Beside what was built lies a note: the checksum of all the sources that it was made from, and of what was made. The gate writes such notes too,
beside what `rt ci` leaves. What has a note that fits is not built again.
"""

from __future__ import annotations

import argparse
import fcntl
import hashlib
import os
import shutil
import subprocess
import sys
import time
from contextlib import contextmanager, suppress
from functools import lru_cache
from pathlib import Path
from typing import Callable, Iterable, Iterator, NamedTuple

from tests.lib.places import CRATES, TOP

TREES = TOP / "out/build"
PARTS = ("src", "specs", "proofs")
# A program is also run once, when `rt` has built it: with words with which it ends at once, and does nothing.
VERSION = ("--version",)
WORDS = {"bench_feed": ("replies", "1", "1000")}
# The seconds of one processor that a crate took, a line of it, and a program beside that, as measured of the server and what it stands on.
SECONDS_A_CRATE = 90.0
SECONDS_A_LINE = 0.07
SECONDS_A_PROGRAM = 190.0
# How many processors one crate keeps busy at most.
BUSY = 2.0
# What a crate runs with that no crate of the longest chain waits for.
FEW_JOBS = 2
NICE = 5


class Crate(NamedTuple):
    """A line of crates.txt."""

    name: str
    line: str
    uses: tuple[str, ...]

    def folder(self) -> Path:
        return CRATES / self.name

    def is_program(self) -> bool:
        return (self.folder() / "src/main.rt").is_file()


Crates = dict[str, Crate]


def listed() -> Crates:
    """The crates of crates.txt."""
    found: Crates = {}
    for line in (TOP / "crates.txt").read_text().splitlines():
        head, _, uses = line.partition("#")[0].partition(":")
        if head.split():
            found[head.split()[0]] = Crate(head.split()[0], line, tuple(uses.split()))
    return {name: it._replace(uses=tuple(use for use in it.uses if use in found)) for name, it in found.items()}


def below(crates: Crates, names: list[str]) -> Crates:
    """These crates and all that they stand on, lowest first."""
    found: Crates = {}
    for name in names:
        found |= below(crates, list(crates[name].uses))
        found[name] = crates[name]
    return found


# What was built, and from which sources.


@lru_cache
def kit() -> Path:
    """The folder of the kit."""
    told = subprocess.run(("rt", "doc"), stdin=subprocess.DEVNULL, capture_output=True, text=True, check=True).stdout
    return Path(told.strip()).parent


@lru_cache
def version() -> str:
    """What the kit says of itself."""
    return subprocess.run(("rt", "version"), stdin=subprocess.DEVNULL, capture_output=True, text=True, check=True).stdout


def sums_of(crates: Crates) -> dict[str, str]:
    """The checksum of all that each of these crates is built from: the kit, the crate's line, its sources, what it may use, and the same of the
    crates below it, which come first here."""
    found: dict[str, str] = {}
    for name, crate in crates.items():
        own = hashlib.sha256(version().encode() + (TOP / "HANDLES").read_bytes() + f"{crate.line}\n".encode())
        for file in sorted(it for part in PARTS for it in (crate.folder() / part).rglob("*") if it.is_file()):
            text = file.read_bytes()
            own.update(f"{file.relative_to(crate.folder())} {len(text)}\n".encode() + text)
        own.update("".join(found[use] for use in crate.uses).encode())
        found[name] = own.hexdigest()
    return found


def made_by(crate: Crate) -> Path:
    """The file that tells what was made: the program, or the part of a library that has the sum of its other parts."""
    return crate.folder() / "out" / (crate.name if crate.is_program() else f"rlib/{crate.name}.rlib/format")


def note_of(crate: Crate) -> Path:
    """Where the note lies. `rt` removes or moves a library with all that lies beside it."""
    return crate.folder() / "out" / ("" if crate.is_program() else "rlib") / f"{crate.name}.proved"


def note(crates: Crates, name: str, sums: dict[str, str], place: Callable[[Crate], Path] = made_by) -> str:
    """What is noted of a crate with these sources: their checksum, and that of what was made; of a library also of those below it, since it fits only
    those that it was built over."""
    found = hashlib.sha256()
    for crate in [crates[name]] if crates[name].is_program() else below(crates, [name]).values():
        found.update(hashlib.sha256(place(crate).read_bytes()).digest())
    return f"{sums[name]} {found.hexdigest()}\n"


def is_noted(crates: Crates, name: str, sums: dict[str, str], place: Callable[[Crate], Path] = made_by) -> bool:
    """Whether what lies in the crate's place was made, with its proofs, from the sources as they are."""
    try:
        return note_of(crates[name]).read_text() == note(crates, name, sums, place)
    except OSError:
        return False


def note_built(crates: Crates, names: Iterable[str], before: dict[str, str], since: float) -> list[str]:
    """Notes what was built of these crates since a time. Returns those whose sources are no longer those that the build began with: they get no
    note."""
    changed = []
    for name in names:
        if sums_of(below(crates, [name]))[name] != before[name]:
            changed.append(name)
            continue
        # What `rt` put back in its place has an older time. Something below it may be gone too.
        with suppress(OSError):
            if made_by(crates[name]).stat().st_ctime >= since:
                note_of(crates[name]).write_text(note(crates, name, before))
    return changed


def unbuilt(crates: Crates, sums: dict[str, str]) -> Crates:
    """Those of these crates that have to be built, with those that stand on them. `rt` builds over libraries that it knows by a stamp of its own; `rt
    ci` leaves none, so if a crate is to be built, such libraries below it are built too."""
    lost = [name for name in crates if not is_noted(crates, name, sums)]
    unknown = [name for name, it in below(crates, lost).items() if not (it.is_program() or (it.folder() / "out/rlib/stamp").is_file())]
    found: Crates = {}
    for name, crate in crates.items():
        if name in lost or name in unknown or any(use in found for use in crate.uses):
            found[name] = crate
    return found


def link_or_copy(one: str, other: str) -> None:
    """Gives a file a second name, or copies it, as to another file system."""
    try:
        os.link(one, other)
    except OSError:
        shutil.copy(one, other)


# How long it is likely to take.


def lines_of(crate: Crate) -> int:
    return sum(it.read_bytes().count(b"\n") for it in (crate.folder() / "src").rglob("*.rt"))


def seconds_of(crates: Crates) -> dict[str, float]:
    """The processor seconds that each crate is likely to take."""
    own = {name: SECONDS_A_CRATE + SECONDS_A_LINE * lines_of(it) for name, it in crates.items()}
    return {name: seconds + SECONDS_A_PROGRAM * crates[name].is_program() for name, seconds in own.items()}


def chains(crates: Crates) -> dict[str, float]:
    """The processor seconds of each crate and of the longest chain of crates that wait for it."""
    found = seconds_of(crates)
    for name, own in reversed(found.copy().items()):
        found[name] = own + max((found[it.name] for it in crates.values() if name in it.uses), default=0)
    return found


def likely_seconds(crates: Crates, processors: int) -> float:
    """How long these take where nothing else runs: as long as the longest chain of them, or as all of them at these processors."""
    return max(max(chains(crates).values()) / min(BUSY, processors), sum(seconds_of(crates).values()) / processors)


# One crate.


def make_tree(crates: Crates, crate: Crate) -> Path:
    """A tree of links to what the crate is built from. The crate's own earlier work is moved there."""
    tree = TREES / crate.name
    shutil.rmtree(tree, ignore_errors=True)
    needed = below(crates, [crate.name])
    for it in needed.values():
        for part in (*PARTS, "out/rlib"):
            if (it.folder() / part).is_dir() and (it is not crate or part in PARTS):
                shutil.copytree(it.folder() / part, tree / "crates" / it.name / part, copy_function=os.link)
    (tree / "crates.txt").write_text("".join(f"{it.line}\n" for it in needed.values()))
    shutil.copy(TOP / "HANDLES", tree)
    if (crate.folder() / "out").is_dir():
        (crate.folder() / "out").rename(tree / "crates" / crate.name / "out")
    return tree


def take_back(crate: Crate) -> None:
    """Moves what was built to the crate's own folder, and removes the tree."""
    tree = TREES / crate.name
    made = tree / "crates" / crate.name / "out"
    if made.is_dir():
        shutil.rmtree(crate.folder() / "out", ignore_errors=True)
        made.rename(crate.folder() / "out")
    shutil.rmtree(tree, ignore_errors=True)


def log_of(crate: Crate) -> Path:
    return TREES / f"{crate.name}.log"


def start(crates: Crates, crate: Crate, jobs: int, nice: int) -> subprocess.Popen[bytes]:
    """Starts the build of a crate whose lower crates are built."""
    folder = make_tree(crates, crate) / "crates" / crate.name
    words = ["nice", "-n", str(nice), "rt", "run" if crate.is_program() else "lib", "--jobs", str(jobs)]
    words += ["--", *WORDS.get(crate.name, VERSION)] if crate.is_program() else []
    with log_of(crate).open("wb") as log:
        return subprocess.Popen(words, cwd=folder, stdin=subprocess.DEVNULL, stdout=log, stderr=subprocess.STDOUT)


# All of them.


@contextmanager
def locked(crates: Crates) -> Iterator[None]:
    """Keeps other runs of `rt` out of the crates' folders, as `rt` itself does, in the same order."""
    held = [os.open(it, os.O_RDONLY) for it in sorted(it.folder() for it in crates.values())]
    try:
        for it in held:
            fcntl.flock(it, fcntl.LOCK_EX)
        yield
    finally:
        for it in held:
            os.close(it)


class Run(NamedTuple):
    """A build that goes on."""

    crate: Crate
    process: subprocess.Popen[bytes]
    began: float


class Done(NamedTuple):
    """A crate that has ended: the status of `rt`, and what it took of the clock and of the processors."""

    crate: Crate
    status: int
    seconds: float
    processor: float


def ended(running: dict[int, Run]) -> Done:
    """Waits until one of these has ended."""
    number, status, used = os.wait3(0)
    run = running.pop(number)
    run.process.returncode = os.waitstatus_to_exitcode(status)
    take_back(run.crate)
    return Done(run.crate, run.process.returncode, time.monotonic() - run.began, used.ru_utime + used.ru_stime)


def builds(crates: Crates, wanted: Crates, processors: int) -> Iterator[Done]:
    """Builds these, as many at once as there are processors, and gives each as it ends. It starts no other after a failure.

    The one with the longest chain of crates that wait for it comes first, and before the others at the processors.
    """
    left, first = dict(wanted), chains(wanted)
    running: dict[int, Run] = {}
    try:
        while left or running:
            busy = {it.crate.name for it in running.values()}
            ready = [it for it in left.values() if not any(use in left or use in busy for use in it.uses)]
            for crate in sorted(ready, key=lambda it: first[it.name], reverse=True)[: processors - len(running)]:
                is_first = all(first[it] < first[crate.name] for it in busy)
                del left[crate.name]
                busy.add(crate.name)
                process = start(crates, crate, processors if is_first else FEW_JOBS, 0 if is_first else NICE)
                running[process.pid] = Run(crate, process, time.monotonic())
            done = ended(running)
            yield done
            left = left if done.status == 0 else {}
    finally:
        for run in running.values():
            run.process.wait()
            take_back(run.crate)


def minutes(seconds: float) -> str:
    return f"{seconds / 60:.1f} minutes" if seconds >= 60 else f"{seconds:.0f} seconds"


def told(names: list[str], wanted: Crates, processors: int) -> str:
    """What there is to build, and how long it is likely to take."""
    likely = likely_seconds(wanted, processors)
    what = ", ".join(names) if len(names) < 4 else f"{len(names)} crates"
    return f"{what}: builds {len(wanted)} crates, about {minutes(likely)} on {processors} processors"


def build(crates: Crates, wanted: Crates, processors: int, sums: dict[str, str]) -> int:
    """Builds these, and tells of each; answers the exit status."""
    shutil.rmtree(TREES, ignore_errors=True)
    TREES.mkdir(parents=True)
    began, total, processor = time.monotonic(), len(wanted), 0.0
    for number, done in enumerate(builds(crates, wanted, processors), 1):
        if done.status:
            print(f"{done.crate.name} was not built:\n{log_of(done.crate).read_text(errors='replace')[-4000:]}")
            return 1
        # `rt` leaves as it is what it finds built.
        if note_built(crates, [done.crate.name], sums, since=0):
            print(f"the sources of {done.crate.name}, or of a crate below it, were changed meanwhile: run this again")
            return 1
        processor += done.processor
        took = f"{done.seconds:.0f} seconds, {done.processor:.0f} of a processor"
        print(f"  {number} of {total}: {done.crate.name}, {took}", flush=True)
    print(f"built in {minutes(time.monotonic() - began)}, with {minutes(processor)} of a processor")
    return 0


def build_all(names: list[str], processors: int) -> int:
    """Builds these crates, if they are not built as they are, with those below them that are not; answers the exit status."""
    crates = below(listed(), names)
    lost = [it for it in names if not is_noted(crates, it, sums_of(crates))]
    crates = below(crates, lost)
    with locked(crates):
        sums = sums_of(crates)
        wanted = unbuilt(crates, sums)
        if wanted:
            print(told(lost, wanted, processors), flush=True)
        return build(crates, wanted, processors, sums) if wanted else 0


def main() -> int:
    parser = argparse.ArgumentParser(description="Builds crates and what they stand on, side by side.")
    parser.add_argument("--jobs", type=int, default=len(os.sched_getaffinity(0)), help="how many processors it may use")
    parser.add_argument("crate", nargs="+", help="a crate of crates.txt")
    words = parser.parse_args()
    return build_all(words.crate, words.jobs)


if __name__ == "__main__":
    try:
        sys.exit(main())
    except KeyboardInterrupt:
        sys.exit(130)
