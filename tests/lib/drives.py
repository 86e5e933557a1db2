"""The folders of a drive, which are a stack and a bin: a server's words for them, and what their files hold."""

from __future__ import annotations

import tempfile
from contextlib import contextmanager, suppress
from pathlib import Path
from typing import Callable, Iterator, TypeVar

from tests.lib.wire import DEVICE

T = TypeVar("T")


@contextmanager
def folders(**reels: bytes) -> Iterator[Path]:
    """A folder with a stack of these reels and a bin."""
    with tempfile.TemporaryDirectory(prefix="site-") as name:
        folder = Path(name)
        for it in ("st0", "bin"):
            folder.joinpath(it).mkdir()
        for reel, data in reels.items():
            folder.joinpath("st0", reel).write_bytes(data)
        yield folder


def settled(look: Callable[[], T]) -> T:
    """What two looks in a row see alike: of one moment, though a session that lost its client may still move a reel."""
    while True:
        with suppress(FileNotFoundError):
            first, again = look(), look()
            if first == again:
                return first


# What the files of a stack and of a bin hold, by their names.
Held = tuple[dict[str, bytes], dict[str, bytes]]


def files_of(*folders: Path) -> tuple[dict[str, bytes], ...]:
    """The files of each of these folders, at one moment: what each holds, by its name."""
    return settled(lambda: tuple({it.name: it.read_bytes() for it in folder.iterdir()} for folder in folders))


def held(folder: Path) -> Held:
    """The files of the stack and of the bin."""
    stack, bin = files_of(folder / "st0", folder / "bin")
    return stack, bin


def moved_once(stack: Path, bin: Path) -> Held:
    """The files of the stack and of the bin, at one moment. A file that a stop left with its name in both is in the bin alone: the next open
    removes the other name."""

    def look() -> Held:
        there = {it.name for it in bin.iterdir()}
        left = [it for it in stack.iterdir() if not (it.name in there and it.samefile(bin / it.name))]
        return {it.name: it.read_bytes() for it in left}, {it.name: it.read_bytes() for it in bin.iterdir()}

    return settled(look)


def drive_words(folder: Path) -> tuple[str, ...]:
    return ("--bin", str(folder / "bin"), f"{DEVICE}={folder / 'st0'}")


def data_of(path: Path) -> bytes | None:
    """What a file holds, None if there is none."""
    return path.read_bytes() if path.is_file() else None
