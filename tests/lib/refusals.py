"""What `rdump` tells of an error that a server answers: the words for each error and each request, written out by hand."""

from __future__ import annotations

from tests.lib.wire import DEVICE

# The requests that a server may refuse, by the names that `rdump` gives them.
OPEN, REWIND, SPACE, READ, WRITE, WEOF, OFFLINE, CLOSE = "open", "rewind", "space", "read", "write", "weof", "offline", "close"
# A write of more than 65,536 bytes.
LONG_WRITE = "a long write"

OTHER_SERVER = "rmtd never gives this answer: check which program listens there"
NOT_WRITTEN = (
    "the server's log has the reason; if its disk is full, move reels from the bin to another disk; "
    "if the bin has a reel of that name, rename one of the two"
)
# The words for an error of a request.
ONE = {
    (2, OPEN): "the server has no drive {}: correct --device, or the arguments of the server",
    (5, OPEN): "the server could not open the first reel of {}: its log has the reason, such as a lock that another program holds",
    (5, SPACE): "there are too few marks or records, or the drive failed: then the server's log has the reason",
    (5, READ): "the server could not read the reel of {}: its log has the reason",
    (5, WRITE): NOT_WRITTEN,
    (5, LONG_WRITE): NOT_WRITTEN,
    (5, WEOF): NOT_WRITTEN,
    (5, OFFLINE): NOT_WRITTEN,
    (6, OPEN): "no reel is on the stack of {}: put one into its folder",
    (12, READ): "the server is out of memory, or the tape of {} begins with a longer record than rdump reads",
    (13, OPEN): "the server has no permission to open {}: check as which user it runs",
    (16, OPEN): "another session holds {}: the server's log says which; wait until the drive is free, or use another one",
    (22, LONG_WRITE): "an older server takes blocks of at most 65,536 bytes: use a smaller --block",
}
# Those for all other requests.
ALL = {
    2: OTHER_SERVER,
    5: "the drive {} failed: the server's log has the reason",
    6: "the drive {} is offline: its reel is in the bin",
    9: OTHER_SERVER,
    12: "the server is out of memory: stop other programs on its machine",
    13: OTHER_SERVER,
    16: OTHER_SERVER,
    22: OTHER_SERVER,
    28: "the reel of {} has too little room: take it away, and put another one on the stack",
}


def words_of(number: int, request: str, device: str = DEVICE) -> str:
    """What an error means as the answer to a request."""
    return ONE.get((number, request), ALL[number]).format(device)


def refused(number: int, request: str, device: str = DEVICE) -> str:
    """What a dump tells of a refused request, after the address."""
    return f"Refused {number}: {words_of(number, request, device)}\n"


def refused_with(number: int, request: str, device: str = DEVICE) -> str:
    """What the other commands tell of a refused request, after the address."""
    return f"{request} refused with E{number}: {words_of(number, request, device)}\n"
