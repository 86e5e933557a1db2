"""The calls of the system that a program under strace made: which they were, and whether some of them came in an order."""

from __future__ import annotations

import re
import shutil
from pathlib import Path

from tests.lib.case import Case

# A call that went well, with the paths of its descriptors.
CALL = re.compile(r"^(?:\d+ +)?(\w+)\((.*)\) += \d")

# The calls of a dump at its files and its connection.
CALLS = "openat,open,flock,write,writev,fsync,fdatasync,rename,renameat,renameat2,connect,unlink,unlinkat"

# How many calls are shown where one was not found.
SHOWN = 20


def traced(case: Case, calls: str) -> tuple[str, ...]:
    """The words before a program that is to tell these calls in the file `calls`; none where strace is not installed, which is named as skipped."""
    strace = shutil.which("strace")
    if not strace:
        case.skip_part("the order of the system's calls", "strace is not installed")
        return ()
    return (strace, "-f", "-qq", "-y", "-s", "4096", "-e", f"trace={calls}", "-o", "calls")


def made_in(folder: Path) -> list[tuple[str, str]]:
    """The calls that the file `calls` of a folder tells, by name, each with the text of what it was given."""
    file = folder / "calls"
    found = [CALL.match(it) for it in (file.read_text(errors="replace") if file.exists() else "").splitlines()]
    return [(it[1].removesuffix("at").removesuffix("at2"), it[2]) for it in found if it]


def in_order(case: Case, made: list[tuple[str, str]], wanted: tuple[tuple[str, str, str], ...]) -> None:
    """Checks that these were made, one after the other: each is a title, the name of a call, and a pattern of what it is given."""
    at = 0
    for title, call, given in wanted:
        places = [n for n, (name, text) in enumerate(made) if n >= at and name == call and re.search(given, text)]
        case.holds(f"under strace: {title}, after all before it", bool(places), made[at : at + SHOWN])
        at = places[0] + 1 if places else at
