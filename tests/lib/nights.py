"""The scripts of etc/ that dump with nobody there, a clock that a test moves, and the lines of crontabs."""

from __future__ import annotations

import re
import time
from calendar import timegm
from pathlib import Path
from typing import NamedTuple

from tests.lib.places import TOP

NIGHT = str(TOP / "etc/night")
NEW_REELS = str(TOP / "etc/new-reels")
TO_SHELF = str(TOP / "etc/to-shelf")


def moved_clock(folder: Path, now: Path, when: str) -> None:
    """Makes a `date` that tells the time of a file. A date that is asked for by its words is the system's."""
    folder.mkdir(exist_ok=True)
    path = folder / "date"
    path.write_text(f'#!/bin/sh\ncase "$*" in *@*) exec /bin/date "$@" ;; *) exec /bin/date -d "@$(cat {now})" "$@" ;; esac\n')
    path.chmod(0o755)
    set_clock(now, when)


def set_clock(now: Path, when: str) -> int:
    """Writes a time, and answers its seconds."""
    seconds = timegm(time.strptime(when, "%Y-%m-%d %H:%M"))
    now.write_text(f"{seconds}\n")
    now.chmod(0o644)
    return seconds


class Job(NamedTuple):
    """A line of a crontab: its five fields or `@reboot`, its user, its command, and the variables above it."""

    when: tuple[str, ...]
    user: str
    command: str
    variables: dict[str, str]

    def is_due(self, now: time.struct_time) -> bool:
        """Whether it runs at this minute."""
        values = (now.tm_min, now.tm_hour, now.tm_mday, now.tm_mon, (now.tm_wday + 1) % 7)
        return len(self.when) == 5 and all(matches(field, value) for field, value in zip(self.when, values))


def matches(field: str, value: int) -> bool:
    """Whether a field of a crontab names a value."""
    if field == "*":
        return True
    first, _, last = field.partition("-")
    return int(first) <= value <= int(last or first)


def jobs_of(table: Path) -> list[Job]:
    """The lines of a crontab."""
    found: list[Job] = []
    variables: dict[str, str] = {}
    for line in table.read_text().splitlines():
        if re.match(r"\w+=", line):
            name, _, value = line.partition("=")
            variables[name] = value
        elif line.startswith("@reboot "):
            _, user, command = line.split(" ", 2)
            found.append(Job(("@reboot",), user, command, dict(variables)))
        elif line and not line.startswith("#"):
            *when, user, command = line.split(" ", 6)
            found.append(Job(tuple(when), user, command, dict(variables)))
    return found
