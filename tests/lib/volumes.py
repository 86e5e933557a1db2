"""Which volumes a dump makes of a payload on reels of one capacity: their blocks, what is printed of them, and their record files."""

from __future__ import annotations

from tests.lib.dumping import label
from tests.models.rmtd import images

# A reel of so many bytes has room for all of a small payload.
ROOMY = 1 << 22


def volumes_of(blocks: int, block: int, capacity: int) -> list[tuple[int, int]]:
    """The first block of each volume and how many it has, on reels of one capacity. A mark has to find room behind each record."""
    most = (capacity - 4 - (1024 + 8)) // (block + 8)
    firsts = range(0, blocks, most) if blocks else (0,)
    return [(first, min(most, blocks - first)) for first in firsts]


def printed(volumes: list[tuple[int, int]]) -> str:
    """What a dump of these volumes prints."""
    lines = [f"volume {number}: {count} blocks from {first}\n" for number, (first, count) in enumerate(volumes, 1)]
    return "".join(lines) + f"dump complete: {len(volumes)} volumes, {sum(count for _, count in volumes)} blocks\n"


def reels_of(payload: bytes, block: int, volumes: list[tuple[int, int]]) -> list[bytes]:
    """The record files of these volumes."""
    padded = payload + bytes(-len(payload) % block)
    parts = [[padded[at * block : (at + 1) * block] for at in range(first, first + count)] for first, count in volumes]
    return [images([label(number, first), *part, None]) for number, ((first, _), part) in enumerate(zip(volumes, parts), 1)]
