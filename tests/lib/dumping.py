"""The dump client beside a server: both programs with a folder for their files, and what a dump of three blocks sends and prints."""

from __future__ import annotations

import os
import re
import resource
import signal
import subprocess
import tempfile
from contextlib import contextmanager
from pathlib import Path
from typing import Any, Iterator

from tests.lib.case import Case
from tests.lib.connections import address_of, connected, text_of
from tests.lib.drives import data_of
from tests.lib.ended import FAILED, Ended
from tests.lib.given import given
from tests.lib.listings import NOBODY
from tests.lib.places import CRATES, built
from tests.lib.processes import guarded
from tests.lib.servers import listening
from tests.lib.waiting import GUARD_SECONDS
from tests.lib.wire import DEVICE

DAY = 951_782_400  # Tue Feb 29 00:00:00 2000
DAY_BEFORE = 951_696_000
ENTRY = "/usr" + 28 * " " + " 0 Tue Feb 29 00:00:00 2000\n"

# A program that runs after these words can write files of 8192 bytes at most, as if the disk were full then.
ROOM = 8192
IN_LITTLE_ROOM = ("sh", "-c", 'ulimit -f 16 && exec "$0" "$@"')

# What a dump says last, once it is complete.
RESTORE = re.compile(r"^to restore: .*\n", re.M)


def needs(address: str, size: int, blocks: int) -> str:
    """What a dump of so many bytes and blocks says last."""
    return f"to restore: {blocks} blocks, {size} bytes: rdump fetch --to {address} --device {DEVICE} --into FOLDER\n"


def in_room(room: int) -> dict[str, Any]:
    """How a program is started that can write files of so many bytes at most, as if the disk were full then."""

    def limit() -> None:
        signal.signal(signal.SIGXFSZ, signal.SIG_IGN)
        resource.setrlimit(resource.RLIMIT_FSIZE, (room, room))

    return {"preexec_fn": limit, "restore_signals": False}


def as_nobody() -> dict[str, Any]:
    """How a program is started as nobody, if root, who may read and write all files, runs the tests."""
    return {"user": NOBODY, "group": NOBODY, "extra_groups": []} if os.geteuid() == 0 else {}


def without_restore(case: Case, output: str, told: str, status: int) -> str:
    """What is told, without the line that says what a restore needs: a dump that printed its end has one, where nothing killed it, and nothing
    else has."""
    found = len(RESTORE.findall(told))
    right = found == output.count("dump complete: ") if status >= 0 else found <= 1
    case.holds("what a restore needs is told once where a dump is complete", right, output, told, status)
    return RESTORE.sub("", told)


def end_of(case: Case, run: subprocess.Popen[bytes], said: bytes = b"") -> Ended[str]:
    """Says this to a dump that was started, and waits for its end. What a restore needs is not among what it told."""
    with guarded(run):
        output, told = run.communicate(said)
    rest = without_restore(case, output.decode(), told.decode(errors="replace"), run.returncode)
    return Ended(output.decode(), rest, run.returncode)


class Programs:
    """Both programs, a folder for their files, and the test that runs them."""

    def __init__(self, case: Case, folder: Path) -> None:
        self.case = case
        self.rmtd = built("rmtd")
        self.rdump = built("rdump")
        self.folder = folder

    def ran(
        self, *words: str, said: str = "", stdout: int = subprocess.PIPE, stderr: int = subprocess.PIPE, program: str | None = None, **how: Any
    ) -> Ended[str]:
        """What came of `rdump`, or of another program, with these words and this standard input, started as `how` tells Popen."""
        ended = subprocess.run(
            (program or self.rdump, *words),
            cwd=self.folder,
            input=said.encode(),
            stdout=stdout,
            stderr=stderr,
            timeout=GUARD_SECONDS,
            check=False,
            **how,
        )
        return Ended((ended.stdout or b"").decode(), (ended.stderr or b"").decode(errors="replace"), ended.returncode)

    def run(
        self, *words: str, said: str = "", stdout: int = subprocess.PIPE, stderr: int = subprocess.PIPE, program: str | None = None, **how: Any
    ) -> Ended[str]:
        """The same, but what is told is without the line that says what a restore needs. It is told once where a dump is complete."""
        got = self.ran(*words, said=said, stdout=stdout, stderr=stderr, program=program, **how)
        is_seen = stdout == stderr == subprocess.PIPE
        return got._replace(told=without_restore(self.case, *got) if is_seen else RESTORE.sub("", got.told))

    def file(self, name: str, text: bytes) -> str:
        """Makes a file of these bytes."""
        self.folder.joinpath(name).write_bytes(text)
        return name

    def text(self, name: str) -> str | None:
        """What a file holds, None where there is none."""
        path = self.folder / name
        return path.read_text() if path.is_file() else None

    def bytes_of(self, name: str) -> bytes | None:
        """The bytes that a file holds, None where there is none."""
        return data_of(self.folder / name)

    def dump_words(self, address: str, *more: str, **changed: str | None) -> list[str]:
        """The usual words of `rdump dump`, of which these are changed, or left out at None."""
        words = {
            "to": address,
            "device": DEVICE,
            "fs": "/usr",
            "level": "0",
            "payload": "payload",
            "block": "1024",
            "dumpdates": "dumpdates",
            "date": str(DAY),
        } | changed
        return ["dump", *(it for name, value in words.items() if value is not None for it in (f"--{name}", value)), *more]

    def dump(
        self, address: str, *more: str, said: str = "", stdout: int = subprocess.PIPE, stderr: int = subprocess.PIPE, **changed: str | None
    ) -> Ended[str]:
        """Runs `rdump dump` with these words."""
        return self.run(*self.dump_words(address, *more, **changed), said=said, stdout=stdout, stderr=stderr)

    @contextmanager
    def started(
        self, *words: str, stdin: int = subprocess.PIPE, stdout: int = subprocess.PIPE, stderr: int = subprocess.PIPE
    ) -> Iterator[subprocess.Popen[bytes]]:
        """`rdump` under way with these words. It is killed at the end, if it is still there, and when it does not end."""
        with guarded(subprocess.Popen((self.rdump, *words), cwd=self.folder, stdin=stdin, stdout=stdout, stderr=stderr)) as client:
            yield client

    @contextmanager
    def listening(self, *words: str, at: str = "127.0.0.1:0") -> Iterator[tuple[str, subprocess.Popen[bytes]]]:
        """A server that listens, and its address."""
        with listening((self.rmtd, "--listen", at, *words), stderr=subprocess.PIPE) as (server, address):
            yield text_of(address), server


def label(volume: int, first: int, since: int = 0, date: int = DAY) -> bytes:
    """The label of a volume."""
    text = f"name /usr\nlevel 0\ndate {date}\nsince {since}\nvolume {volume}\nfirst {first}\n".encode()
    return text + bytes(1024 - len(text))


# The text of the label of a first volume.
LABEL = label(1, 0).rstrip(b"\0").decode()


def requests_of(volume: int, first: int, blocks: list[bytes]) -> list[bytes]:
    """What an attempt sends."""
    data = [label(volume, first), *blocks]
    return [
        b"O/dev/st0\n2\n",
        b"I5\n1\n",
        b"R1024\n",
        b"I5\n1\n",
        *(b"W%d\n" % len(it) + it for it in data),
        b"I0\n1\n",
        b"I6\n1\n",
        b"C\n",
    ]


PAYLOAD = bytes(range(256)) * 12
BLOCKS = [PAYLOAD[at : at + 1024] for at in range(0, 3072, 1024)]
# What a dump prints: on one reel, on two reels, of no blocks, and where nobody answers and nobody wants more attempts.
ONE_VOLUME = "volume 1: 3 blocks from 0\ndump complete: 1 volumes, 3 blocks\n"
TWO_VOLUMES = "volume 1: 2 blocks from 0\nvolume 2: 1 blocks from 2\ndump complete: 2 volumes, 3 blocks\n"
EMPTY_VOLUME = "volume 1: 0 blocks from 0\ndump complete: 1 volumes, 0 blocks\n"
# What is told of a payload without a byte.
NO_BLOCK = "rdump: payload: it is empty: the dump has no block\n"
LOST = "volume 1 failed: ConnectionEnded\nretry?\ndump abandoned\n"


def lines_of(client: subprocess.Popen[bytes], count: int) -> str:
    """The next lines that a program prints, so many, fewer at the end."""
    return "".join(given(client.stdout).readline().decode() for _ in range(count))


# The version of the programs is that of the newest section.
VERSION = given(re.search(r"^## (\d+\.\d+\.\d+)", CRATES.parent.joinpath("CHANGELOG.md").read_text(), re.M))[1]


def write_volume(address: str, records: list[bytes | None]) -> None:
    """Writes records and marks, and closes without moving the reel."""
    with connected(address_of(address)) as stream, stream.makefile("rb") as replies:
        for text in (b"O/dev/st0\n2\n", *(b"I0\n1\n" if it is None else b"W%d\n" % len(it) + it for it in records), b"C\n"):
            stream.sendall(text)
            reply = replies.readline()
            if not reply.startswith(b"A"):
                raise RuntimeError(f"the server answered {reply!r}")


class DumpCase(Case):
    """Tests that have both programs and a folder, which is empty at the start of each test."""

    def setUp(self) -> None:
        self.p = Programs(self, Path(self.enterContext(tempfile.TemporaryDirectory())))

    def ends(self, name: str, got: Ended[str], output: str, status: int, *faults: str) -> None:
        """The output and the status are these, and each of these words is told. If there are no words, nothing is told."""
        untold = [it for it in faults if it.lower() not in got.told.lower()]
        self.same(name, (got.output, got.status, bool(got.told), untold), (output, status, bool(faults), []), got.told)

    def fails(self, name: str, got: Ended[str], *faults: str) -> None:
        """It did not start: status 1, nothing on standard output, and each of these words is told."""
        self.ends(name, got, "", FAILED, *faults)

    def told(self, name: str, got: Ended[str], output: str, status: int, words: str) -> None:
        """The output, the status and all that is told are these."""
        self.same(name, got, Ended(output, words, status))
