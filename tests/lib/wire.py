"""Requests of the protocol and replies to them, as bytes, and the names of devices."""

from __future__ import annotations

DEVICE = "/dev/st0"

CLOSE, MARK, REWIND, OFFLINE, NOTHING = b"C\n", b"I0\n1\n", b"I5\n1\n", b"I6\n1\n", b"I7\n1\n"
READ = b"R65536\n"

DONE, DONE_ONE = b"A0\n", b"A1\n"
NO_SUCH_FILE = b"E2\nNo such file or directory\n"
IO_ERROR = b"E5\nInput/output error\n"
NO_REEL = b"E6\nDevice not configured\n"
NOTHING_OPEN = b"E9\nBad file descriptor\n"
NO_PERMISSION = b"E13\nPermission denied\n"
BUSY = b"E16\nDevice busy\n"
INVALID = b"E22\nInvalid argument\n"
NO_SPACE = b"E28\nNo space left on device\n"


def device(number: int) -> str:
    return f"/dev/st{number}"


def opened(number: int = 0, mode: int = 2) -> bytes:
    return b"O%s\n%d\n" % (device(number).encode(), mode)


def write(record: bytes) -> bytes:
    return b"W%d\n%s" % (len(record), record)


def record(data: bytes) -> bytes:
    """The reply to a read of a record of these bytes."""
    return b"A%d\n%s" % (len(data), data)
