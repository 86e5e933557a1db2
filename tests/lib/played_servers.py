"""Servers that a test plays to a client: a plain model of a tape server, one that says what it is told to, and one that takes every dump."""

from __future__ import annotations

import socket
import threading
from pathlib import Path
from typing import Callable, Mapping

from tests.lib.given import given
from tests.lib.listeners import Listener
from tests.lib.waiting import GUARD_SECONDS


class Reel:
    """A reel: its name, how many bytes it holds, and its entries, a mark as None."""

    def __init__(self, name: str, capacity: int) -> None:
        self.name = name
        self.capacity = capacity
        self.entries: list[bytes | None] = []

    def used(self, place: int) -> int:
        """The bytes of the entries before a place."""
        return sum(4 if it is None else len(it) + 8 for it in self.entries[:place])


class Received:
    """The bytes of a connection, request by request."""

    def __init__(self, stream: socket.socket) -> None:
        self.stream = stream
        self.ahead = False
        self.log: list[bytes] = []

    def take(self, count: int) -> bytes:
        """So many bytes, fewer at the end."""
        taken = b""
        while len(taken) < count:
            piece = self.stream.recv(count - len(taken))
            if not piece:
                break
            taken += piece
        return taken

    def line(self) -> bytes:
        """The bytes up to a line feed, which ends them, or up to the end."""
        taken = b""
        while not taken.endswith(b"\n"):
            byte = self.take(1)
            if not byte:
                break
            taken += byte
        return taken

    def request(self) -> bytes:
        """The next request whole, no bytes at the end. Notes whether more came with it."""
        letter = self.take(1)
        text = letter
        if letter in (b"O", b"I"):
            text += self.line() + self.line()
        elif letter:
            text += self.line()
        if letter == b"W":
            text += self.take(int(text[1:]))
        if text:
            self.stream.setblocking(False)
            try:
                self.ahead |= bool(self.stream.recv(1, socket.MSG_PEEK))
            except BlockingIOError:
                pass
            self.stream.setblocking(True)
            self.log.append(text)
        return text


class Model(Listener):
    """A tape server with one drive, of these reels, one connection after the other. `lost` are requests whose reply is the end instead,
    `said` are other replies, and `acts` is what is done before a reply, each by the number of the request, counted from 1. With `path` it
    listens at a Unix socket."""

    def __init__(
        self,
        *reels: Reel,
        lost: tuple[int, ...] = (),
        said: Mapping[int, bytes] | None = None,
        acts: Mapping[int, Callable[[], object]] | None = None,
        path: Path | None = None,
    ) -> None:
        self.stack = list(reels)
        self.bin: list[Reel] = []
        self.logs: list[list[bytes]] = []
        self.ahead = False
        self.lost = lost
        self.said = dict(said or {})
        self.acts = dict(acts or {})
        self.open: Reel | None = None
        self.place = 0
        super().__init__(path)

    def serve(self, client: socket.socket) -> None:
        self.converse(Received(client))

    def converse(self, received: Received) -> None:
        """One connection."""
        self.logs.append(received.log)
        self.open, self.place = None, 0
        while request := received.request():
            self.ahead |= received.ahead
            reply = self.reply(request)
            number = sum(len(it) for it in self.logs)
            if number in self.acts:
                self.acts[number]()
            if number in self.lost:
                return
            received.stream.sendall(self.said.get(number, reply))

    def reply(self, request: bytes) -> bytes:
        """Carries a request out."""
        letter, words = request[:1], request[1:].split(b"\n")
        if letter == b"O":
            self.open, self.place = (self.stack[0] if self.stack else None), 0
            return b"A0\n" if self.open else b"E6\nDevice not configured\n"
        if letter == b"C":
            self.open = None
            return b"A0\n"
        if self.open is None:
            return b"E6\nDevice not configured\n"
        if letter == b"W":
            return self.write(request.split(b"\n", 1)[1])
        if letter == b"R":
            return self.read(int(words[0]))
        return self.operation(int(words[0]), int(words[1]))

    def write(self, data: bytes) -> bytes:
        if given(self.open).used(self.place) + len(data) + 12 > given(self.open).capacity:
            return b"A0\n"
        given(self.open).entries[self.place :] = [data]
        self.place += 1
        return b"A%d\n" % len(data)

    def read(self, count: int) -> bytes:
        if self.place == len(given(self.open).entries):
            return b"A0\n"
        data = (given(self.open).entries[self.place] or b"")[:count]
        self.place += 1
        return b"A%d\n" % len(data) + data

    def operation(self, op: int, count: int) -> bytes:
        if op == 0:
            given(self.open).entries[self.place :] = [None] * count
            self.place += count
        elif op in (1, 2, 3, 4):
            return self.space(op, count)
        elif op in (5, 6):
            self.place = 0
        if op == 6:
            self.bin.append(self.stack.pop(0))
            self.open = None
        return b"A%d\n" % count

    def space(self, op: int, count: int) -> bytes:
        """Goes over marks, forward (1) or back (2), or over records, forward (3) or back (4). A mark ends the way over records, behind it."""
        way, is_over_marks = (1 if op in (1, 3) else -1), op in (1, 2)
        for _ in range(count):
            is_mark = self.step(way)
            while is_over_marks and is_mark is False:
                is_mark = self.step(way)
            if is_mark is None or is_mark != is_over_marks:
                return b"E5\nInput/output error\n"
        return b"A%d\n" % count

    def step(self, way: int) -> bool | None:
        """Goes over an entry, forward (1) or back (-1), and answers whether that is a mark. None at either end."""
        at = self.place if way > 0 else self.place - 1
        if not 0 <= at < len(given(self.open).entries):
            return None
        self.place += way
        return given(self.open).entries[at] is None


class Said(Listener):
    """A server that answers each request with the next of these replies, over any number of connections. After the last it ends a
    connection at the next request, or leaves it open. It notes how many connections came, and when a client ended one. Once a connection has
    come, `before` is called."""

    def __init__(self, *replies: bytes, stays: bool = False, before: Callable[[], object] = lambda: None) -> None:
        self.replies = list(replies)
        self.stays = stays
        self.before = before
        self.connections = 0
        self.left = threading.Event()
        super().__init__()

    def serve(self, client: socket.socket) -> None:
        self.connections += 1
        self.before()
        self.converse(client)

    def converse(self, client: socket.socket) -> None:
        """One connection. Where it stays, the end that the client makes is waited for."""
        received = Received(client)
        while self.replies and received.request():
            client.sendall(self.replies.pop(0))
        if not received.request() and self.stays:
            self.left.set()


class Granting(Listener):
    """A tape server that takes every dump, many at once. It answers the move offline once so many dumps wait for that."""

    def __init__(self) -> None:
        super().__init__()
        self.gate = threading.Barrier(1)

    def take(self, client: socket.socket) -> None:
        threading.Thread(target=super().take, args=(client,), daemon=True).start()

    def serve(self, client: socket.socket) -> None:
        """Each request is granted."""
        with client.makefile("rb") as requests:
            while line := requests.readline():
                letter, number, reply = line[:1], line[1:-1], b"0"
                if letter == b"O":
                    requests.readline()
                elif letter == b"I":
                    reply = requests.readline()[:-1]
                elif letter == b"W":
                    requests.read(int(number))
                    reply = number
                if (letter, number) == (b"I", b"6"):
                    self.gate.wait(GUARD_SECONDS)
                client.sendall(b"A" + reply + b"\n")
