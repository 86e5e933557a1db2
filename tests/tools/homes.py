"""Looks for numbers that are written outside their one home: in src/, specs/ and proofs/ of the crates but those of tests.

    python3 -m tests.tools.homes

A number of the protocol stands once, as a constant with a name, and all else takes it by the name. What is printed or documented may spell it in
digits: texts and comments are left out, and a text that tells a limit is compared with the constant. It fails where a second home is found.
"""

from __future__ import annotations

import re
import sys
from pathlib import Path
from typing import Iterator, NamedTuple

TOP = Path(__file__).resolve().parents[2]


class Home(NamedTuple):
    """Where a number stands, and how one looks that stands elsewhere."""

    file: str
    names: tuple[str, ...]
    elsewhere: str


OPERATIONS = ("MTWEOF", "MTFSF", "MTBSF", "MTFSR", "MTBSR", "MTREW", "MTOFFL", "MTNOP")
ERRORS = ("ENOENT", "EIO", "ENXIO", "EBADF", "ENOMEM", "EACCES", "EBUSY", "EINVAL", "ENOSPC")
HOMES = (
    Home("rmt_wire/src/limits.rt", ("RECORD_LIMIT", "READER_LIMIT"), r"\b262_?144\b|\b262_?156\b"),
    Home("rmt_wire/src/mtio.rt", OPERATIONS, r"\bconst (?:" + "|".join(OPERATIONS) + r")\b|\bOp \d+ |\bOp \{ op: \d"),
    Home("rmt_wire/src/fcntl.rt", ("O_RDONLY", "O_WRONLY", "O_RDWR", "ACCESS_MODES"), r"\bconst O_\w+|\bmode % 4\b"),
    Home("rmt_wire/src/errno.rt", ERRORS, r"\bconst (?:" + "|".join(ERRORS) + r")\b|\bRefusedWith \d|\bRefused\(\d"),
    Home("hold_table/src/table.rt", ("SEAT_LIMIT",), r"\bconst SEATS?\b|\bdealt \w+ 32\b"),
    Home("drives/src/holds.rt", ("DRIVE_LIMIT",), r"; 64\]"),
)


def without_texts(line: str, antt: bool) -> str:
    """A line of code without its comment and its texts."""
    line = re.sub(r'"(?:\\.|[^"\\])*"', '""', line)
    return re.sub(r"--.*$" if antt else r"//.*$", "", line)


def sources() -> Iterator[Path]:
    crates = (it for it in sorted((TOP / "crates").iterdir()) if not it.name.endswith("_tests"))
    every = (it for crate in crates for folder in ("src", "specs", "proofs") for it in sorted((crate / folder).rglob("*")))
    return (it for it in every if it.suffix in (".rt", ".antt"))


def misplaced() -> Iterator[str]:
    """Each line that writes a number outside its home."""
    for path in sources():
        name = str(path.relative_to(TOP / "crates"))
        for number, line in enumerate(path.read_text().splitlines(), 1):
            code = without_texts(line, path.suffix == ".antt")
            for home in HOMES:
                if name != home.file and re.search(home.elsewhere, code):
                    yield f"crates/{name}:{number}: its home is crates/{home.file}: {line.strip()[:80]}"


def missing() -> Iterator[str]:
    """Each name that does not stand in its home."""
    for home in HOMES:
        path = TOP / "crates" / home.file
        text = path.read_text() if path.exists() else ""
        for name in home.names:
            if not re.search(rf"\bpub const {name}\b", text):
                yield f"crates/{home.file}: no constant {name}"


def main() -> int:
    found = [*missing(), *misplaced()]
    for line in found:
        print(line)
    print(f"{len(HOMES)} homes of numbers, {len(found)} faults")
    return 1 if found else 0


if __name__ == "__main__":
    sys.exit(main())
