"""A server on its standard streams that is spoken to in lock step, the folders of its reels, and changes to folders that are taken back."""

from __future__ import annotations

import os
import pwd
import shutil
import stat
import subprocess
import tempfile
import threading
from contextlib import contextmanager
from pathlib import Path
from typing import IO, Iterator, TypedDict

from tests.lib.case import Case
from tests.lib.given import given
from tests.lib.processes import children
from tests.lib.waiting import GUARD_SECONDS
from tests.lib.wire import DONE_ONE, NO_REEL, NOTHING, OFFLINE
from tests.models.rmtd import Entry, images

# A request and its reply.
Turn = tuple[bytes, bytes]

# What the moves of a reel to the bin are answered that go well.
MOVED = (OFFLINE, DONE_ONE), (NOTHING, NO_REEL)


class Start(TypedDict, total=False):
    """How a program is started, as subprocess.Popen has it: its user, its environment and its folder."""

    user: int
    group: int
    extra_groups: list[int]
    env: dict[str, str]
    cwd: str


class Site:
    """A folder with a copy of the program, a stack for each drive, and a bin."""

    def __init__(self, program: str, folder: Path, drives: int = 1, capacity: int = 16 << 20) -> None:
        self.folder = folder
        self.bin = folder / "bin"
        self.stacks = [folder / f"st{number}" for number in range(drives)]
        self.stack = self.stacks[0]
        for it in (self.bin, *self.stacks):
            it.mkdir()
        self.program = folder / "rmtd"
        shutil.copy(program, self.program)
        self.words = [str(self.program), "--stdio", "--bin", str(self.bin), "--capacity", str(capacity)]
        self.words += [f"/dev/st{number}={it}" for number, it in enumerate(self.stacks)]
        self.shell = folder / "shell"
        self.script(self.shell, f"exec {' '.join(self.words)}")

    def script(self, path: Path, text: str) -> None:
        """Makes a script of a line."""
        path.write_text(f"#!/bin/sh\n{text}\n")
        path.chmod(0o755)

    def reel(self, name: str, *entries: Entry, stack: Path | None = None) -> Path:
        """Makes a reel of these entries, as an operator does with no entries."""
        path = (stack or self.stack) / name
        path.write_bytes(images([*entries]))
        return path

    def names(self) -> tuple[list[str], list[str]]:
        """The names in the first stack and in the bin."""
        stack, bin = (sorted(it.name for it in folder.iterdir()) for folder in (self.stack, self.bin))
        return stack, bin

    def given_to(self, user: str) -> None:
        """Gives the folders and the reels to a user, to whom all that leads there is open."""
        self.folder.chmod(0o755)
        owner = pwd.getpwnam(user)
        for top in (self.bin, *self.stacks):
            for it in (top, *top.iterdir()):
                os.chown(it, owner.pw_uid, owner.pw_gid)


@contextmanager
def site(program: str, drives: int = 1, capacity: int = 16 << 20) -> Iterator[Site]:
    """A site in a folder that is taken away at the end."""
    with tempfile.TemporaryDirectory() as folder:
        yield Site(program, Path(folder), drives, capacity)


class Talk:
    """A server that runs, spoken to in lock step by a test."""

    def __init__(self, case: Case, shop: Site, through: tuple[str, ...] = (), how: Start | None = None) -> None:
        self.case = case
        self.process = subprocess.Popen(
            [*through, *shop.words],
            bufsize=0,
            stdin=subprocess.PIPE,
            stdout=subprocess.PIPE,
            stderr=subprocess.DEVNULL,
            restore_signals=False,
            **(how or {}),
        )
        self.requests: IO[bytes] = given(self.process.stdin)
        self.replies: IO[bytes] = given(self.process.stdout)
        self.guard = threading.Timer(GUARD_SECONDS, self.process.kill)
        self.guard.start()

    def ask(self, request: bytes) -> bytes:
        """Sends a request, and returns the whole reply."""
        try:
            self.requests.write(request)
        except BrokenPipeError:
            return b""
        return self.replied(request)

    def replied(self, request: bytes) -> bytes:
        """The whole reply to a request that was sent."""
        reply = self.replies.readline()
        if reply.startswith(b"E"):
            return reply + self.replies.readline()
        left = int(reply[1:]) if request.startswith(b"R") and reply else 0
        while left and (piece := self.replies.read(left)):
            reply += piece
            left -= len(piece)
        return reply

    def asks(self, title: str, *turns: Turn) -> None:
        """Each request gets its reply."""
        for number, (request, reply) in enumerate(turns, 1):
            self.case.same(f"{title}: request {number}", self.ask(request), reply, request[:40])

    def server(self) -> int | None:
        """The process of the server, if it was started through another program; None if that has not started it yet."""
        below = children(self.process.pid)
        return below[0] if below else None

    def end(self) -> int:
        """Ends the input, and returns the status."""
        self.requests.close()
        return self.process.wait()

    def stop(self) -> None:
        self.process.kill()
        self.process.wait()
        self.requests.close()
        self.replies.close()
        self.guard.cancel()
        self.guard.join()


@contextmanager
def talking(case: Case, shop: Site, through: tuple[str, ...] = (), how: Start | None = None) -> Iterator[Talk]:
    """A server, started through another program if that is given, and the talk of a test with it."""
    talk = Talk(case, shop, through, how)
    try:
        yield talk
    finally:
        talk.stop()


def seen(path: Path) -> tuple[int, int, int] | None:
    """Which file stands there, of which kind and size; None if there is none."""
    try:
        found = path.lstat()
    except FileNotFoundError:
        return None
    return found.st_ino, found.st_mode, found.st_size


def as_nobody(shop: Site) -> Start:
    """How a server is started as nobody, if this is run by root, and else as who runs this."""
    if os.geteuid() != 0:
        return {}
    shop.given_to("nobody")
    nobody = pwd.getpwnam("nobody")
    return {"user": nobody.pw_uid, "group": nobody.pw_gid, "extra_groups": [], "env": {"PATH": "/usr/bin:/bin"}, "cwd": "/"}


@contextmanager
def access(path: Path, mode: int) -> Iterator[None]:
    """A path with another access for a while."""
    before = stat.S_IMODE(path.stat().st_mode)
    path.chmod(mode)
    try:
        yield
    finally:
        path.chmod(before)


@contextmanager
def away(path: Path) -> Iterator[None]:
    """A path that is not there for a while."""
    other = path.with_name(path.name + " away")
    path.rename(other)
    try:
        yield
    finally:
        other.rename(path)
