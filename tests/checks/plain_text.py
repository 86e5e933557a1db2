"""Checks that no text of others controls a terminal: names of files, words, error texts of a server, first records of reels.

A control character (U+0000 to U+001F, U+007F to U+009F) of such a text, and bytes that are no UTF-8, stand as `?` on standard error wherever that
goes, and on standard output where that is a terminal. In a pipe the answer of a server and a first record stand as they came. A terminal is a
pseudo-terminal here.
"""

from __future__ import annotations

import os
import re
import subprocess
import tempfile
from pathlib import Path

from tests.lib.connections import NOWHERE
from tests.lib.dumping import BLOCKS, LABEL, DumpCase, label, write_volume
from tests.lib.ended import ABNORMAL, DONE, FAILED, Ended
from tests.lib.played_servers import Model, Reel, Said
from tests.lib.refusals import REWIND, refused_with
from tests.lib.terminals import Terminal
from tests.lib.waiting import GUARD_SECONDS
from tests.lib.wire import DEVICE

# A text of others, and what is printed of it: the sequence that clears a screen, the same by one character, a bell, a line feed, a delete, what is
# beside the control characters, and letters of two to four bytes.
UGLY = "a\x1b[2Jb\u009b2Jc\x07d\ne\x7ff\x80g\u00a0h\u00e4i\u20acj\U0001f4fck"
PLAIN = "a?[2Jb?2Jc?d?e?f?g\u00a0h\u00e4i\u20acj\U0001f4fck"
# Bytes, some of which are no UTF-8: a byte alone, an overlong form, half of a surrogate, and sequences that are cut off. `?` stands once for each
# sequence as long as it could begin a character, as Unicode recommends (chapter 3, "U+FFFD Substitution of Maximal Subparts").
BROKEN = b"a\xffb\xc0\xafc\xed\xa0\x80d\xe2\x82e\xf0\x9f\x93f\xf4\x90\x80\x80g\x9b2J\xe2\x82"
MENDED = "a?b??c???d?e?f????g?2J?"
# What no program may print of others, but for the line feeds that end its own lines.
CONTROL = re.compile("[\x00-\x09\x0b-\x1f\x7f-\x9f]")
MISSING = "No such file or directory (os error 2)"
# A device with control characters in its name, and what is printed of it.
UGLY_DEVICE, PLAIN_DEVICE = "/dev/\x1b[2Jst0\u009b", "/dev/?[2Jst0?"


def is_plain(text: bytes) -> bool:
    """Whether a text is UTF-8, with no control character but line feeds."""
    try:
        return CONTROL.search(text.decode()) is None
    except UnicodeDecodeError:
        return False


def place(shown: bool) -> str:
    return "at a terminal" if shown else "in a pipe"


class PlainTextCase(DumpCase):
    """Runs of a program with its standard output in a pipe, or at a terminal."""

    def ran(self, *words: str | bytes, program: str | None = None, shown: bool = False, said: bytes = b"") -> Ended[bytes]:
        """What came of `rdump`, or of another program, with these words and this standard input."""
        with Terminal() as terminal:
            got = subprocess.run(
                (program or self.p.rdump, *words),
                cwd=self.p.folder,
                input=said,
                stdout=terminal.far if shown else subprocess.PIPE,
                stderr=subprocess.PIPE,
                timeout=GUARD_SECONDS,
                check=False,
            )
            output = terminal.written().replace(b"\r\n", b"\n") if shown else got.stdout
        return Ended(output, got.stderr, got.returncode)

    def tells(self, title: str, got: Ended[bytes], line: str) -> None:
        """It failed, and this line alone is told."""
        self.same(title, (got.told, got.status), (f"{line}\n".encode(), FAILED), got.output)

    def is_plain_throughout(self, title: str, got: Ended[bytes], status: int = FAILED) -> None:
        """It ended so, and all that it printed and told is plain."""
        self.same(title, (got.status, is_plain(got.told), is_plain(got.output)), (status, True, True), got)


class Client(PlainTextCase):
    """What `rdump` prints and tells of texts of others."""

    def test_error_texts_of_a_server(self) -> None:
        """`rdump mt` prints them."""
        for title, text, plain in (
            ("text", UGLY.replace("\n", "\r").encode(), PLAIN),
            ("no UTF-8", BROKEN, MENDED),
            ("nothing else", b"Input/output error", "Input/output error"),
        ):
            for shown in (False, True):
                with Said(b"A0\n", b"E5\n" + text + b"\n", b"A0\n") as server:
                    got = self.ran("mt", "--to", server.address, "--device", DEVICE, "rewind", "1", shown=shown)
                wanted = b"E5 " + (plain.encode() if shown else text) + b"\n"
                tells = f"rdump: {server.address}: {refused_with(5, REWIND)}".encode()
                self.same(f"mt, {title}, {place(shown)}", got, Ended(wanted, tells, ABNORMAL))

    def test_first_records(self) -> None:
        """`rdump read` prints the first record of a reel: one that is no label, and a label."""
        for title, first, plain in (
            ("text", UGLY.encode(), PLAIN),
            ("no UTF-8", BROKEN, MENDED),
            ("a label", label(1, 0), LABEL),
            ("a label that is none", label(1, 0)[: len(LABEL)] + b"more\x1b\n", LABEL.replace("\n", "?") + "more??"),
        ):
            for shown in (False, True):
                with self.p.listening("--capacity", str(1 << 16)) as (address, _):
                    write_volume(address, [first, *BLOCKS, None])
                    got = self.ran("read", "--to", address, "--device", DEVICE, "--out", "volume", shown=shown)
                wanted = plain.encode() if shown else first.split(b"\0")[0]
                name = f"read, {title}, {place(shown)}"
                self.same(name, (got.output, got.status, is_plain(got.told)), (wanted, DONE, True), got.told)
                self.same(f"{name}: the file", self.p.bytes_of("volume"), b"".join(BLOCKS))

    def test_names_of_reels(self) -> None:
        """`rdump ls` prints them, and `rdump cat` tells of them."""
        self.tells("ls: no such file", self.ran("ls", UGLY), f"rdump: {PLAIN}: {MISSING}")
        self.tells("cat: no such file", self.ran("cat", "--length", "0", UGLY), f"rdump: {PLAIN}: {MISSING}")
        for shown in (False, True):
            with tempfile.TemporaryDirectory(dir=self.p.folder) as folder:
                Path(folder, UGLY).touch()
                for path in (f"{folder}/{UGLY}", folder):
                    got = self.ran("ls", path, shown=shown)
                    wanted = f"{folder}/{PLAIN}: 0 bytes: empty\n".encode()
                    self.same(f"ls, shown {shown}: a name", (got.output, is_plain(got.told)), (wanted, True), got.told)

    def test_names_of_what_cannot_be_listed(self) -> None:
        folder = self.p.folder / UGLY
        folder.mkdir()
        Path(os.fsdecode(os.fsencode(folder) + b"/r\xff")).touch()
        self.tells("ls: a name that is not UTF-8", self.ran("ls", UGLY), f"rdump: {PLAIN}: a name in it is not UTF-8")
        os.mkfifo(folder / "fifo")
        self.tells("ls: a pipe", self.ran("ls", f"{UGLY}/fifo"), f"rdump: {PLAIN}/fifo: it is no plain file and no folder")
        self.p.file(f"{UGLY}.d", b"no line\n")
        got = self.ran("ls", "--dumpdates", f"{UGLY}.d", ".")
        came = (got.status, f"rdump: {PLAIN}.d: ".encode() in got.told, is_plain(got.told))
        self.same("ls: a dumpdates file that is none", came, (FAILED, True, True), got)

    def test_names_of_files_that_cannot_be_used(self) -> None:
        none = f"{UGLY}/none"
        self.tells("dates: no such file", self.ran("dates", "--file", none), f"rdump: {PLAIN}/none: {MISSING}")
        got = self.ran("read", "--to", NOWHERE, "--device", DEVICE, "--out", none)
        self.tells("read: no such folder", got, f"rdump: {PLAIN}/none: {MISSING}")
        self.p.file("payload", b"")
        for name in ("payload", "dumpdates", "checkpoint"):
            more = ("--update",) if name == "dumpdates" else ()
            got = self.ran(*self.p.dump_words(NOWHERE, *more, **{name: none}), said=b"no\n")
            came = (f"rdump: {PLAIN}/none: ".encode() in got.told, is_plain(got.told))
            self.same(f"dump, {name}: it is named", came, (True, True), got)

    def test_names_of_devices(self) -> None:
        """The name of a device stands in messages and lines."""
        with Said(b"E5\n\x1b[2J\n", b"E5\n\x1b[2J\n") as server:
            self.is_plain_throughout("ls: a device that is refused", self.ran("ls", "--to", server.address, "--device", UGLY_DEVICE))
        with self.p.listening() as (address, _):
            self.is_plain_throughout("ls: no such device", self.ran("ls", "--to", address, "--device", UGLY_DEVICE))
        with Said(b"A0\n", b"A1\n", b"A0\n", b"A0\n", b"A0\n", b"A0\n", b"A0\n") as server:
            got = self.ran("ls", "--to", server.address, "--device", UGLY_DEVICE)
        self.same("ls: the line of a device", (PLAIN_DEVICE.encode() in got.output, is_plain(got.output)), (True, True), got)

    def test_the_device_of_a_dump(self) -> None:
        """It stands in what a restore needs."""
        self.p.file("payload", b"x")
        with Model(Reel("r1", 4096), said={3: b"A1024\n" + label(1, 0)}) as model:
            got = self.ran(*self.p.dump_words(model.address, device=UGLY_DEVICE), said=b"no\n")
        self.is_plain_throughout("dump: the device in what a restore needs", got, DONE)


class Both(PlainTextCase):
    """Words that are wrong, which an error of either program repeats."""

    def test_wrong_words(self) -> None:
        for program in (self.p.rdump, self.p.rmtd):
            name = Path(program).name
            for words in (
                ("--no\x1b[2J\u009bword",),
                ("no\x1b[2Jword\x7f",),
                ("dump", "--level", "1\u009b2J"),
                ("--listen", "\x1b[2J"),
                ("mt", "--to", "\x1b:1\u009b"),
            ):
                got = self.ran(*words, program=program)
                came = (got.status, got.told != b"", is_plain(got.told), is_plain(got.output))
                self.same(f"{name} {words!r}", came, (FAILED, True, True, True), got)
            self.is_plain_throughout(f"{name}: a word that is not UTF-8", self.ran(b"no\xff\x1b", program=program))


class Server(PlainTextCase):
    """The names of folders and reels that a server names in its messages and in its log."""

    def setUp(self) -> None:
        super().setUp()
        (self.p.folder / "bin").mkdir()

    def served(self, *words: str, said: bytes = b"") -> Ended[bytes]:
        return self.ran(*words, program=self.p.rmtd, said=said)

    def test_folders_that_are_not_there(self) -> None:
        self.tells("rmtd: no such folder", self.served("--stdio", "--bin", "bin", f"d={UGLY}"), f"rmtd: {PLAIN}: {MISSING}")
        got = self.served("--listen", "127.0.0.1:0", "--bin", UGLY, f"d={UGLY}")
        self.tells("rmtd: no such bin", got, f"rmtd: {PLAIN}: {MISSING}")

    def test_reels(self) -> None:
        (self.p.folder / UGLY).mkdir()
        for reel in (os.fsencode(UGLY), b"r\xff\x1b"):
            # A folder that is not empty is no reel.
            path = Path(os.fsdecode(os.fsencode(self.p.folder / UGLY) + b"/" + reel))
            path.mkdir()
            path.joinpath("x").touch()
            got = self.served("--stdio", "--bin", "bin", f"d\x1b={UGLY}", said=b"Od\x1b\n2\nC\n")
            self.same(f"rmtd: a reel {reel!r}", (got.status, is_plain(got.told)), (DONE, True), got)
            path.joinpath("x").unlink()
            path.rmdir()
