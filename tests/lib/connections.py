"""Addresses of servers, over TCP and at Unix sockets, and connections to them."""

from __future__ import annotations

import re
import socket
import struct

from tests.lib.waiting import GUARD_SECONDS, soon

# Where a server listens: at a free port of the loopback, or at a socket file in its own folder.
TCP, UNIX = "127.0.0.1:0", "unix:FOLDER/socket"

# Nobody listens there.
NOWHERE = "127.0.0.1:1"

# A host and a port, or the path of a Unix socket.
Address = tuple[str, int] | str


def address_in(line: bytes) -> Address:
    """The address in the line that a server prints once it listens."""
    found = re.fullmatch(r"listening on (unix:/.+|.+:\d+)\n", line.decode())
    if not found:
        raise RuntimeError(f"the server printed {line!r}")
    return address_of(found[1])


def address_of(text: str) -> Address:
    """The address that an argument of `rdump` gives so."""
    if text.startswith("unix:"):
        return text.removeprefix("unix:")
    host, _, port = text.rpartition(":")
    return host, int(port)


def text_of(address: Address) -> str:
    """An address as an argument of `rdump`."""
    return f"unix:{address}" if isinstance(address, str) else "%s:%d" % address


def send_at_once(stream: socket.socket) -> None:
    """Has a connection over TCP wait with no bytes for more of them."""
    if stream.family != socket.AF_UNIX:
        stream.setsockopt(socket.IPPROTO_TCP, socket.TCP_NODELAY, 1)


def connected(address: Address) -> socket.socket:
    """A connection to a server, which sends at once."""
    if isinstance(address, str):
        stream = socket.socket(socket.AF_UNIX)
        stream.settimeout(GUARD_SECONDS)
        stream.connect(address)
        return stream
    stream = socket.create_connection(address, timeout=GUARD_SECONDS)
    send_at_once(stream)
    return stream


def reset_at_close(stream: socket.socket) -> None:
    """Lets the end of a connection be a reset, which drops what is on the way, and is sent as the socket is closed."""
    stream.setsockopt(socket.SOL_SOCKET, socket.SO_LINGER, struct.pack("ii", 1, 0))


def wait_for(address: Address) -> None:
    """Waits until a server listens there."""

    def listens() -> bool:
        connected(address).close()
        return True

    if not soon(listens):
        raise RuntimeError(f"no server listens at {text_of(address)}")
