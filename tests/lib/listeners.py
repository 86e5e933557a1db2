"""Servers of a test's own: a listener that serves one connection after the other, and a relay that passes each on to another server."""

from __future__ import annotations

import socket
import threading
from contextlib import suppress
from pathlib import Path
from typing import Callable, Self

from tests.lib.connections import Address, connected, send_at_once, text_of
from tests.lib.waiting import GUARD_SECONDS


class Listener:
    """Serves connections, one after the other, in a thread of its own, as long as it is entered as a context: at a free port of the loopback, or at
    a socket file."""

    def __init__(self, path: Path | None = None) -> None:
        self.listener = socket.create_server(str(path), family=socket.AF_UNIX) if path else socket.create_server(("127.0.0.1", 0))
        self.address = text_of(self.listener.getsockname())
        self.worker = threading.Thread(target=self.accept, daemon=True)

    def __enter__(self) -> Self:
        self.worker.start()
        return self

    def __exit__(self, *_: object) -> None:
        self.stop()

    def stop(self) -> None:
        """Ends the worker before the listener is closed, since another one may get the same descriptor."""
        self.listener.shutdown(socket.SHUT_RDWR)
        self.worker.join(GUARD_SECONDS)
        self.listener.close()
        if self.worker.is_alive():
            raise RuntimeError(f"the worker of {self.address} has not ended")

    def accept(self) -> None:
        """Takes connections until the listener is shut down."""
        while True:
            try:
                client, _ = self.listener.accept()
            except OSError:
                return
            self.take(client)

    def take(self, client: socket.socket) -> None:
        """Serves a connection, which is closed afterwards. One that is reset is one that ended."""
        with client, suppress(ConnectionError):
            send_at_once(client)
            self.serve(client)

    def serve(self, client: socket.socket) -> None:
        """What is done with a connection."""
        raise NotImplementedError


class Relay(Listener):
    """Passes each connection on to a server, whose address it asks for then. The pieces that come pass through `to_server` and `to_client`."""

    def __init__(self, server: Callable[[], Address]) -> None:
        super().__init__()
        self.server = server

    def serve(self, client: socket.socket) -> None:
        """A connection that fails is one that ended."""
        with suppress(OSError), connected(self.server()) as server:
            server.settimeout(None)
            back = threading.Thread(target=self.carry, args=(server, client, self.to_client), daemon=True)
            back.start()
            self.carry(client, server, self.to_server)
            back.join()

    def carry(self, source: socket.socket, target: socket.socket, passes_on: Callable[[bytes, socket.socket], None]) -> None:
        """Passes on what comes, and ends both ways at the end of one."""
        with suppress(OSError):
            while piece := source.recv(1 << 16):
                passes_on(piece, target)
        for end in (source, target):
            with suppress(OSError):
                end.shutdown(socket.SHUT_RDWR)

    def to_server(self, piece: bytes, server: socket.socket) -> None:
        """Passes on what the client sent."""
        server.sendall(piece)

    def to_client(self, piece: bytes, client: socket.socket) -> None:
        """Passes on what the server replied."""
        client.sendall(piece)
