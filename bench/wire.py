"""What the benchmarks send: the sizes of records, a label, and the operations of mtio with a count of 1. Each benchmark takes them from here."""

from __future__ import annotations

GREATEST_RECORD = 262_144
# The sizes of blocks that are measured: the greatest, a quarter of it, and what tar writes unless it is told otherwise.
BLOCKS = (GREATEST_RECORD, GREATEST_RECORD // 4, 10_240)

# The label of a volume, as a record.
LABEL = b"name /usr\nlevel 0\ndate 951782400\nsince 0\nvolume 1\nfirst 0\n".ljust(1024, b"\0")

MARK = b"I0\n1\n"
REWIND = b"I5\n1\n"
OFFLINE = b"I6\n1\n"
NO_OPERATION = b"I7\n1\n"
CLOSE = b"C\n"


def write(data: bytes) -> bytes:
    """A write of these bytes as one record."""
    return b"W%d\n" % len(data) + data


def read(count: int = GREATEST_RECORD) -> bytes:
    """A read of a record."""
    return b"R%d\n" % count
