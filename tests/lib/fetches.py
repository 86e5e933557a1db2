"""Reels that `rdump fetch` copies: the names of their copies, what these hold, and what is printed of them."""

from __future__ import annotations

from pathlib import Path

from tests.lib.drives import data_of, files_of
from tests.lib.dumping import DumpCase
from tests.lib.given import given
from tests.lib.listings import Label, decoded, said, volume_of
from tests.lib.restores import INTO, up_to_mark
from tests.models.found import verdict_on
from tests.models.rmtd import images

NO_MARK, CANNOT = "no mark", "cannot be told"

# The most bytes that the name of a copy has.
MOST_NAME = 249


def copy_of(data: bytes) -> bytes:
    """What the copy of a record file holds."""
    return images(up_to_mark(data))


def escaped(name: str) -> str:
    """The name of a dump, as that of a copy has it."""
    escapes = {"%": "%25", "/": "%2F"}
    text = "".join(escapes.get(it, it) for it in name)
    return f"%2E{text[1:]}" if text.startswith(".") else text


def label_in(data: bytes) -> Label:
    """The label of a record file that begins with one."""
    return given(volume_of(decoded(data)[0][:1]))[0]


def copy_name(data: bytes) -> str:
    """The name of the copy of a record file that begins with a label."""
    label = label_in(data)
    return f"{escaped(label.name)}.{label.level}.{label.date}.{label.volume}"


def part_name(data: bytes) -> str:
    """The name of the part of the copy of a record file."""
    return f".{copy_name(data)}.part"


def copies(*reels: bytes) -> dict[str, bytes]:
    """The copies of these reels, by their names."""
    return {copy_name(it): copy_of(it) for it in reels}


def fetched(*reels: bytes, catalog: bytes | None = None) -> str:
    """What is printed of these reels once they are fetched, with this catalog if there is one."""
    lines = []
    for it in map(copy_of, reels):
        verdict = "" if catalog is None else f", {verdict_on(it, catalog)}"
        lines.append(f"{said(it).line(copy_name(it))}{verdict}\n")
    return "".join(lines)


def stays(address: str, data: bytes, why: str, place: str = "stays") -> str:
    """What is told of a reel with a label that is not fetched."""
    label = label_in(data)
    return f"rdump: {address}: volume {label.volume} of {label.name} level {label.level} {place}: {why}\n"


class FetchCase(DumpCase):
    """Tests that fetch reels into the folder `into` of their folder."""

    def setUp(self) -> None:
        super().setUp()
        self.into = self.p.folder / INTO
        self.into.mkdir()

    def has(self, name: str, files: dict[str, bytes], folder: Path | None = None) -> bool:
        """The folder holds these files, and nothing else."""
        found = files_of(folder or self.into)[0]
        return self.same(f"{name}: the copies", found, files, {it: len(data) for it, data in found.items()})

    def clear(self, files: dict[str, bytes] | None = None) -> None:
        """Empties the folder, and puts these files into it."""
        for it in self.into.iterdir():
            if it.is_dir() and not it.is_symlink():
                it.rmdir()
            else:
                it.unlink()
        for name, data in (files or {}).items():
            self.into.joinpath(name).write_bytes(data)

    def copy(self, name: str) -> bytes | None:
        """What a copy holds, None if there is none."""
        return data_of(self.into / name)
