"""Dumps two volumes by the built `rdump` to the built `rmtd`, through a relay that ends a connection after a number of bytes of a direction.

The end is a close or a reset. After each other number of bytes both ends come to the relay over a Unix socket, where a reset is a close with
something unread. The operator answers `yes` until the dump is complete. What is told, what each reel holds and what dumpdates has then follows from
the bytes alone, by the table of `tests/lib/cut_dumps.py`. Where the server has not yet seen the end it refuses the next attempt: nothing rests on
when it does.
"""

from __future__ import annotations

import os
import select
import socket
import subprocess
import tempfile
from contextlib import suppress
from pathlib import Path

from tests.lib.case import Case
from tests.lib.connections import TCP, UNIX, Address, connected, reset_at_close
from tests.lib.cut_dumps import ATTEMPTS, ENTRY, REELS, Cut, blocks, cuts, first_block
from tests.lib.drives import drive_words, files_of
from tests.lib.dumping import DAY, label
from tests.lib.given import given
from tests.lib.listeners import Listener
from tests.lib.places import built
from tests.lib.processes import guarded
from tests.lib.servers import listening
from tests.lib.waiting import GUARD_SECONDS
from tests.lib.wire import DEVICE
from tests.models.rmtd import images

BLOCK = 1024
CAPACITY = 3_100

# So many bytes lie between two cuts; with EVERY=1 in the environment each cut is made.
EVERY = int(os.environ.get("EVERY") or 97)
# So near to an end of a request or a reply each byte is cut.
NEAR = 1

CLOSE, RESET = "close", "reset"


class Cutter(Listener):
    """Passes connections on to a server, and cuts one of them. It has done so where, after a close, both have ended theirs."""

    def __init__(self, server: Address, cut: Cut, way: str, path: Path | None) -> None:
        super().__init__(path)
        self.server = server
        self.cut = cut
        self.way = way
        self.number = 0
        self.has_cut = False

    def serve(self, client: socket.socket) -> None:
        self.number += 1
        with suppress(OSError), connected(self.server) as server:
            for it in (client, server):
                it.settimeout(GUARD_SECONDS)
            self.pass_on(client, server, self.cut.passed if self.number == self.cut.attempt else None)

    def pass_on(self, client: socket.socket, server: socket.socket, left: int | None) -> None:
        """Passes bytes on both ways up to the end of one, or until so many of the counted direction are passed and a next one has come. It shows
        that all before it were delivered, and answered."""
        other = {client: server, server: client}
        counted = client if self.cut.to_server else server
        while True:
            for source in select.select((client, server), (), (), GUARD_SECONDS)[0]:
                is_counted = left is not None and source is counted
                if is_counted and left == 0 and source.recv(1, socket.MSG_PEEK):
                    return self.end(client, server)
                piece = source.recv((left if is_counted else 0) or 1 << 16)
                if not piece:
                    return None
                other[source].sendall(piece)
                if left is not None and is_counted:
                    left -= len(piece)

    def end(self, client: socket.socket, server: socket.socket) -> None:
        """Ends both sides. After a close it waits until both have ended theirs; a reset is sent where the sockets are closed next."""
        for it in (client, server):
            if self.way == RESET:
                reset_at_close(it)
            else:
                it.shutdown(socket.SHUT_WR)
        for it in (client, server) if self.way == CLOSE else ():
            with suppress(ConnectionError):
                while it.recv(1 << 16):
                    pass
        self.has_cut = True


class Site:
    """A folder with a stack of empty reels, a bin, a payload, and what the programs tell on standard error."""

    def __init__(self, folder: Path) -> None:
        self.folder = folder
        self.stack = folder / "st0"
        self.bin = folder / "bin"
        self.dates = folder / "dumpdates"
        self.told = folder / "told"
        for it in (self.stack, self.bin):
            it.mkdir()
        for name in REELS:
            self.stack.joinpath(name).touch()
        folder.joinpath("payload").write_bytes(b"".join(payload()))

    def server_words(self, at: str) -> list[str]:
        """The words of a server over the folder."""
        return [built("rmtd"), "--listen", at.replace("FOLDER", str(self.folder)), "--capacity", str(CAPACITY), *drive_words(self.folder)]

    def dump(self, address: str) -> tuple[int, list[str]]:
        """Dumps, answers `yes` whenever the client asks, and returns its status and the lines that it printed."""
        words = [built("rdump"), "dump", "--to", address, "--device", DEVICE, "--fs", "/usr", "--level", "0", "--date", str(DAY), "--update"]
        words += ["--payload", str(self.folder / "payload"), "--block", str(BLOCK), "--dumpdates", str(self.dates)]
        lines: list[str] = []
        with self.told.open("ab") as told:
            client = subprocess.Popen(words, stdin=subprocess.PIPE, stdout=subprocess.PIPE, stderr=told, bufsize=0)
        with guarded(client):
            for line in given(client.stdout):
                lines.append(line.decode().rstrip("\n"))
                if lines[-1] == "retry?":
                    with suppress(BrokenPipeError):
                        given(client.stdin).write(b"yes\n")
            return client.wait(), lines

    def reels(self) -> dict[str, bytes]:
        """The files of the bin and of the stack."""
        places = self.bin, self.stack
        return {f"{place.name}/{name}": data for place, files in zip(places, files_of(*places)) for name, data in files.items()}


# What is wanted.


def payload() -> list[bytes]:
    """The blocks of the dump: the bytes of each are its number."""
    return [bytes((number,)) * BLOCK for number in range(first_block(len(ATTEMPTS) + 1))]


def volume(number: int) -> bytes:
    """The record file of a volume."""
    first = first_block(number)
    return images([label(number, first), *payload()[first : first + blocks(number)], None])


def wanted_reels(cut: Cut) -> dict[str, bytes]:
    """The files of all reels at the end. One whose last reply was lost is whole in the bin, and its volume stands on the next one as well."""
    volumes = [*range(1, len(ATTEMPTS) + 1)]
    if cut.is_taken_away() and not cut.is_counted():
        volumes.insert(cut.attempt, cut.attempt)
    in_bin = {f"bin/{name}": volume(number) for name, number in zip(REELS, volumes)}
    return in_bin | {f"st0/{name}": b"" for name in REELS[len(volumes) :]}


def wanted_lines(cut: Cut) -> list[str]:
    """What the client prints, but for attempts that are refused as the drive is still held."""
    lines = []
    for number in range(1, len(ATTEMPTS) + 1):
        if number == cut.attempt and not cut.is_counted():
            lines += [f"volume {number} failed: ConnectionEnded", "retry?"]
        lines.append(f"volume {number}: {blocks(number)} blocks from {first_block(number)}")
    return [*lines, f"dump complete: {len(ATTEMPTS)} volumes, {len(payload())} blocks"]


def without_refusals(cut: Cut, lines: list[str]) -> list[str]:
    """The lines without those of attempts that find the drive held by the session that was cut."""
    refused = f"volume {cut.attempt + cut.is_counted()} failed: Refused 16"
    kept: list[str] = []
    for line in lines:
        if line == "retry?" and kept[-1:] == [refused] and cut.is_held():
            kept.pop()
        else:
            kept.append(line)
    return kept


class Relayed(Case):
    """Dumps of which one connection is cut."""

    def test_closes_to_the_server(self) -> None:
        self.all_cut(to_server=True, way=CLOSE)

    def test_resets_to_the_server(self) -> None:
        self.all_cut(to_server=True, way=RESET)

    def test_closes_of_replies(self) -> None:
        self.all_cut(to_server=False, way=CLOSE)

    def test_resets_of_replies(self) -> None:
        self.all_cut(to_server=False, way=RESET)

    def all_cut(self, to_server: bool, way: str) -> None:
        """A dump for each cut of this direction. Where nothing is lost there is no next byte at which the relay cuts."""
        for cut in cuts(EVERY, NEAR):
            if cut.to_server == to_server and not cut.is_whole():
                self.dumped(cut, way)

    def dumped(self, cut: Cut, way: str) -> None:
        """One dump: the connection is cut, and what is left is as the table of cuts foretells it."""
        direction = "to the server" if cut.to_server else "of replies"
        at = UNIX if cut.passed % 2 else TCP
        title = f"attempt {cut.attempt}, a {way} after {cut.passed} bytes {direction}, {at}"
        with tempfile.TemporaryDirectory(prefix="relay-") as folder:
            site = Site(Path(folder))
            with site.told.open("ab") as log, listening(site.server_words(at), stderr=log) as (_, address):
                with Cutter(address, cut, way, Path(folder, "relay") if at == UNIX else None) as relay:
                    status, lines = site.dump(relay.address)
            told = site.told.read_bytes()[-500:]
            reels = site.reels()
            dates = site.dates.read_text() if site.dates.exists() else ""
        self.holds(f"{title}: the connection was cut", relay.has_cut, told)
        self.same(f"{title}: the dump is complete", (status, without_refusals(cut, lines)), (0, wanted_lines(cut)), lines[-20:], told)
        self.same(f"{title}: the reels", reels, wanted_reels(cut), {name: len(it) for name, it in reels.items()}, lines[-20:], told)
        self.same(f"{title}: dumpdates has the dump once", dates, f"{ENTRY}\n", told)
