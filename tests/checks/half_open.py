"""Checks a half-open connection: its client's machine is gone without a word, and the drive stays held until an operator ends the connection, or
until the server does, with `--idle`.

Two hosts are two network namespaces with a link between them, which goes down. The steps are those of docs/OPERATING.md, *A client that says
nothing*. Where no namespaces can be made, or the kernel can end no connection, that is named as skipped.
"""

from __future__ import annotations

import os
import re
import shutil
import subprocess
import sys
import tempfile
from contextlib import contextmanager
from pathlib import Path
from typing import Iterator

from tests.lib.case import Case
from tests.lib.drives import drive_words
from tests.lib.given import given
from tests.lib.places import built
from tests.lib.waiting import soon

SERVER, CLIENT = f"rmt-server-{os.getpid()}", f"rmt-client-{os.getpid()}"
SERVER_ADDRESS, CLIENT_ADDRESS = "10.9.8.1", "10.9.8.2"
# The seconds of `--idle`.
LIMIT = 2
# A client that opens the drive, says that it has it, and then nothing more.
SILENT = """
import socket, sys, time
talk = socket.create_connection((sys.argv[1], int(sys.argv[2])))
talk.sendall(b"O/dev/st0\\n2\\n")
print(talk.recv(100).decode(), end="", flush=True)
time.sleep(600)
"""


def tool(*words: str) -> subprocess.CompletedProcess[str]:
    """Runs a tool, and answers what it said."""
    return subprocess.run(words, stdin=subprocess.DEVNULL, capture_output=True, text=True, check=False)


def on_host(host: str, *words: str) -> list[str]:
    """The words that run a program on a host."""
    return ["ip", "netns", "exec", host, *words]


@contextmanager
def hosts() -> Iterator[bool]:
    """Two hosts with a link between them; whether they could be made. They are gone afterwards."""
    steps = [
        f"netns add {SERVER}",
        f"netns add {CLIENT}",
        f"link add toward netns {SERVER} type veth peer name back netns {CLIENT}",
        f"-n {SERVER} addr add {SERVER_ADDRESS}/24 dev toward",
        f"-n {CLIENT} addr add {CLIENT_ADDRESS}/24 dev back",
        f"-n {SERVER} link set toward up",
        f"-n {CLIENT} link set back up",
        f"-n {SERVER} link set lo up",
    ]
    try:
        yield all(tool("ip", *it.split()).returncode == 0 for it in steps)
    finally:
        for host in (SERVER, CLIENT):
            tool("ip", "netns", "del", host)


@contextmanager
def started(words: list[str], log: Path) -> Iterator[subprocess.Popen[str]]:
    """A program, whose standard error goes to a file. It is ended afterwards."""
    with log.open("wb") as errors:
        process = subprocess.Popen(words, stdin=subprocess.DEVNULL, stdout=subprocess.PIPE, stderr=errors, text=True)
    try:
        yield process
    finally:
        process.kill()
        process.wait()
        given(process.stdout).close()


class Site:
    """A server on one host, its log, and the client's program on that host too."""

    def __init__(self, rdump: str, log: Path, port: int) -> None:
        self.rdump, self.log, self.port = rdump, log, port

    def nothing(self) -> str:
        """What an operation that does nothing is answered on the drive."""
        words = (self.rdump, "mt", "--to", f"{SERVER_ADDRESS}:{self.port}", "--device", "/dev/st0", "nop", "1")
        return tool(*on_host(SERVER, *words)).stdout

    def lines(self, pattern: str) -> list[str]:
        """The lines of the log that have this in them."""
        return [it for it in self.log.read_text().splitlines() if re.search(pattern, it)]

    def connections(self) -> list[str]:
        """The connections of the client's host, as `ss` shows them on the server's."""
        shown = tool(*on_host(SERVER, "ss", "-Htn", "state", "established", "dst", CLIENT_ADDRESS)).stdout
        return shown.splitlines()


class HalfOpen(Case):
    """A client on one host opens the drive of a server on the other host; then the link between the hosts goes down."""

    def setUp(self) -> None:
        made = self.enterContext(hosts())
        if not made or not shutil.which("ss"):
            self.skipTest("root, ip and ss, with network namespaces, cannot be used on this machine")
        self.folder = Path(self.enterContext(tempfile.TemporaryDirectory()))
        for name in ("st0", "bin"):
            (self.folder / name).mkdir()
        (self.folder / "st0/r1").touch()

    @contextmanager
    def with_the_link_down(self, *more: str) -> Iterator[Site]:
        """The server, and the client's machine gone."""
        words = [built("rmtd"), "--listen", f"{SERVER_ADDRESS}:0", "--capacity", "100000", *more, *drive_words(self.folder)]
        with started(on_host(SERVER, *words), self.folder / "log") as server:
            port = int(given(server.stdout).readline().rpartition(":")[2])
            silent = on_host(CLIENT, sys.executable, "-c", SILENT, SERVER_ADDRESS, str(port))
            with started(silent, self.folder / "errors") as client:
                self.same("the client has the drive", given(client.stdout).readline(), "A0\n")
                tool("ip", "-n", CLIENT, "link", "set", "back", "down")
                yield Site(built("rdump"), self.folder / "log", port)

    def test_an_operator_ends_the_connection(self) -> None:
        """The drive is held. The operator finds its connection in the log and ends it. Then the drive is free."""
        with self.with_the_link_down() as site:
            self.same("the drive is held", site.nothing(), "E16 Device busy\n")
            served, ended = site.lines(r"connection 1: served"), site.lines(r"connection 1: ended")
            self.same("the log names the connection that has not ended", (len(served), ended), (1, []), site.log.read_text())
            accepted = site.lines(rf"connection 1: accepted from {re.escape(CLIENT_ADDRESS)}:\d+$")
            self.same("and where it came from", len(accepted), 1, site.log.read_text())
            port = accepted[0].rpartition(":")[2] if accepted else "0"
            self.same("which ss shows", [it.split()[-1] for it in site.connections()], [f"{CLIENT_ADDRESS}:{port}"])
            tool(*on_host(SERVER, "ss", "-tK", "dst", CLIENT_ADDRESS, "dport", "=", port))
            if site.connections():
                self.skipTest("the kernel ends no connection")
            self.holds("it has ended", soon(lambda: bool(site.lines(r"connection 1: ended: stream failed$"))), site.log.read_text())
            self.holds("the drive is free", soon(lambda: site.nothing() == "A1\n"), site.nothing(), site.log.read_text())

    def test_the_server_ends_it_with_idle(self) -> None:
        """The server ends the connection when it was silent for as long as it may. Then the drive is free."""
        with self.with_the_link_down("--idle", str(LIMIT)) as site:
            self.holds("it has ended", soon(lambda: bool(site.lines(r"connection 1: ended: idle$"))), site.log.read_text())
            self.holds("the drive is free", soon(lambda: site.nothing() == "A1\n"), site.nothing(), site.log.read_text())
