"""Checks from outside which files `rdump dump` touches, and what it says of its payload and of a restore.

The lock `FILE.new` that a dump makes beside its dumpdates and its checkpoint file is taken over where a stopped run left it, which is empty, and
nothing else is touched. No two files of a dump are one. A file that is no plain one is not waited for. What is said of a payload that changed, of an
entry of a later date and of what a restore needs stands on standard error. The tape server is a plain model.
"""

from __future__ import annotations

import fcntl
import os
import re
import shlex
import stat
import subprocess
import threading
from functools import partial
from typing import Callable, Mapping, NamedTuple

from tests.lib.checkpoints import BOTH, ONE, RUN
from tests.lib.connections import NOWHERE
from tests.lib.drives import files_of
from tests.lib.dumping import DAY, ENTRY, LOST, NO_BLOCK, ONE_VOLUME, PAYLOAD, RESTORE, DumpCase, needs
from tests.lib.ended import ABNORMAL, DONE, FAILED, Ended
from tests.lib.played_servers import Model, Reel
from tests.lib.restores import fetch_words
from tests.lib.volumes import reels_of
from tests.lib.waiting import GUARD_SECONDS
from tests.models.checkpoint import text_of

NOT_UPDATED, NOT_WRITTEN = "dumpdates not updated\n", "checkpoint not written\n"
LOST_LOCK = "its .new was taken away or written: another run may have replaced it"
UPDATE, KEPT = ("--dumpdates", "dd", "--update"), ("--checkpoint", "usr")
HOME = f"{'/home':<32} 9 Mon Feb 28 00:00:00 2000\n"
# What is no lock, since it is not empty.
FOREIGN = (b"own\n", b"\0", bytes(512), os.urandom(3000), ENTRY.encode(), ENTRY[:20].encode(), text_of(RUN, ONE), text_of(RUN, ONE)[:-3])


class FileCase(DumpCase):
    """Dumps of three blocks to a reel that takes them all, whose files are looked at."""

    def setUp(self) -> None:
        super().setUp()
        self.p.file("payload", PAYLOAD)

    def words(self, address: str, *more: str, **changed: str | None) -> list[str]:
        """The words of a dump, without the usual word for dumpdates where that is among these."""
        return self.p.dump_words(address, *more, **({"dumpdates": None} if "--dumpdates" in more else {}) | changed)

    def acted_on(self, acts: Mapping[int, Callable[[], object]], *more: str, **changed: str | None) -> tuple[Ended[str], int]:
        """What came of a dump, and how many connections it made. Something is done when the requests of these numbers have come."""
        with Model(Reel("r1", 4200), acts=acts) as model:
            got = self.p.run(*self.words(model.address, *more, **changed))
        return got, len(model.logs)

    def dumped(self, *more: str, **changed: str | None) -> Ended[str]:
        """What came of a dump."""
        return self.acted_on({}, *more, **changed)[0]

    def raw(self, address: str, *more: str, **changed: str | None) -> Ended[str]:
        """What came of a dump, with all that it told."""
        return self.p.ran(*self.words(address, *more, **changed))

    def refused(self, title: str, names: tuple[str, ...], kept: Mapping[str, bytes | None], *more: str, **changed: str | None) -> None:
        """The dump does not start, names these, and leaves these files as they are."""
        got, connections = self.acted_on({}, *more, **changed)
        self.same(f"{title}: it does not start", (got.output, got.status, connections), ("", FAILED, 0), got.told)
        unnamed = [it for it in names if it not in got.told]
        self.same(f"{title}: what it names", (got.told[:7], got.told.count("\n"), unnamed), ("rdump: ", 1, []), got.told)
        for name, data in kept.items():
            self.same(f"{title}: {name} stays", self.p.bytes_of(name), data)


class Strangers(FileCase):
    """A file that no run left lies where a new file would be made: it is named, and stays."""

    def test_the_payload(self) -> None:
        """The payload lies there."""
        for name, more in (("usr.new", KEPT), ("dd.new", UPDATE)):
            for data in (PAYLOAD, b"", ENTRY.encode(), text_of(RUN, ONE)):
                self.p.file(name, data)
                kept = {name: data, "dd": None, "usr": None}
                self.refused(f"{name} is the payload, {more}", (name, more[1], "the payload"), kept, *more, payload=name)
            os.remove(self.p.folder / name)

    def test_the_payload_where_nothing_is_entered(self) -> None:
        self.p.file("dd.new", PAYLOAD)
        got = self.dumped("--dumpdates", "dd", payload="dd.new")
        self.ends("dd.new is the payload, and nothing is entered", got, ONE_VOLUME, DONE)
        self.same("dd.new is the payload, and nothing is entered: it stays", self.p.bytes_of("dd.new"), PAYLOAD)

    def test_files_of_others(self) -> None:
        for name, more, told in (("dd.new", UPDATE, "rdump: dd.new: it is not one"), ("usr.new", KEPT, "rdump: usr: its .new is not one")):
            for number, text in enumerate(FOREIGN):
                self.p.file(name, text)
                self.refused(f"{name} of another, {number}", (told, "not touched"), {name: text}, *more)
            got = self.p.dump(NOWHERE, *more, dumpdates=None if more == UPDATE else "none", payload="missing")
            self.ends(f"{name} of another, and no payload", got, "", FAILED, "missing")
            os.remove(self.p.folder / name)

    def test_a_file_of_another_that_is_locked(self) -> None:
        """It is no lock, so it is not waited for."""
        with self.p.folder.joinpath(self.p.file("dd.new", b"own\n")).open("rb") as other:
            fcntl.flock(other, fcntl.LOCK_EX)
            self.refused("dd.new of another that is locked", ("rdump: dd.new: ", "not touched"), {"dd.new": b"own\n"}, *UPDATE)

    def test_the_turn_among_the_faults_of_a_start(self) -> None:
        self.p.file("usr.new", b"own\n")
        self.p.file("bad", b"foo\n")
        got = self.p.dump(NOWHERE, *KEPT, dumpdates="bad")
        self.ends("a bad dumpdates file comes before usr.new", got, "line 1: bad line\n", FAILED, "rdump: bad: ")
        self.ends("a limit comes before usr.new", self.p.dump(NOWHERE, *KEPT, fs="a b"), "", FAILED, "BadName")
        self.p.file("dd.new", b"own\n")
        got = self.p.dump(NOWHERE, *UPDATE, *KEPT, dumpdates=None, fs="a b")
        self.ends("dd.new comes before a limit", got, "", FAILED, "rdump: dd.new: ")
        self.p.file("usr", b"bad\n")
        os.remove(self.p.folder / "dd.new")
        self.ends("usr.new comes before a bad checkpoint file", self.p.dump(NOWHERE, *KEPT), "", FAILED, "rdump: usr: its .new is not one")

    def test_it_is_not_looked_at_where_nothing_is_entered(self) -> None:
        self.p.file("dd.new", b"own\n")
        self.ends("dd.new is not looked at where nothing is entered", self.dumped("--dumpdates", "dd"), ONE_VOLUME, DONE)
        self.same("dd.new is not looked at where nothing is entered: it stays", self.p.bytes_of("dd.new"), b"own\n")

    def test_a_file_that_comes_late(self) -> None:
        """A file of another comes to the place of the lock of dumpdates while a dump runs."""
        got, _ = self.acted_on({5: partial(self.p.file, "dd.new", b"own\n")}, *UPDATE)
        tells = "rdump: dd: its .new is not one that rdump left: it is not touched\n"
        self.ends("dd.new of another that comes late", got, ONE_VOLUME + NOT_UPDATED, ABNORMAL, tells)
        self.same("dd.new of another that comes late: it stays", self.p.bytes_of("dd.new"), b"own\n")

    def test_what_comes_in_place_of_the_lock_of_a_checkpoint(self) -> None:
        """The dump has lost its lock, and ends once its checkpoint is to be kept. What is there stays."""
        path = self.p.folder / "usr.new"

        def exchange(make: Callable[[], object]) -> None:
            path.unlink()
            make()

        rows: tuple[tuple[str, Callable[[], object], str | None], ...] = (
            ("bytes in the lock", partial(path.write_bytes, b"own\n"), "own\n"),
            ("another file", partial(exchange, partial(path.write_bytes, b"own\n")), "own\n"),
            ("another empty file", partial(exchange, path.touch), ""),
            ("a link", partial(exchange, partial(path.symlink_to, "mine")), "mine"),
            ("nothing", path.unlink, None),
        )
        self.p.file("mine", b"mine")
        for title, act, stays in rows:
            got, _ = self.acted_on({5: act}, *KEPT)
            self.ends(f"usr.new: {title}", got, ONE_VOLUME.splitlines(True)[0] + NOT_WRITTEN, ABNORMAL, f"rdump: usr: {LOST_LOCK}\n")
            left = os.readlink(path) if path.is_symlink() else path.read_text() if path.exists() else None
            self.same(f"usr.new: {title}: it stays", (left, self.p.bytes_of("mine")), (stays, b"mine"))
            self.same(f"usr.new: {title}: the checkpoint is as it was", self.p.bytes_of("usr"), text_of(RUN))
            path.unlink(missing_ok=True)
            self.p.folder.joinpath("usr").unlink()


class Left(FileCase):
    """An empty file that a stopped run left is taken over; what another run has locked is waited for. Taken names of the text are passed over."""

    def lying(self) -> list[str]:
        """The names of what lies beside the payload."""
        return sorted(it.name for it in self.p.folder.iterdir() if it.name != "payload")

    def test_an_empty_file(self) -> None:
        for mode in (0o600, 0o644, 0o400):
            self.p.folder.joinpath(self.p.file("dd.new", b"")).chmod(mode)
            self.ends(f"an empty dd.new of mode {mode:o}", self.dumped(*UPDATE), ONE_VOLUME, DONE)
            self.same(f"an empty dd.new of mode {mode:o}: it is gone", (self.lying(), self.p.bytes_of("dd")), (["dd"], ENTRY.encode()))
            os.remove(self.p.folder / "dd")
            self.p.folder.joinpath(self.p.file("usr.new", b"")).chmod(mode)
            self.ends(f"an empty usr.new of mode {mode:o}", self.p.dump(NOWHERE, *KEPT), LOST, ABNORMAL, NOWHERE)
            self.same(f"an empty usr.new of mode {mode:o}: it is gone", self.lying(), [])

    def test_a_file_that_is_locked(self) -> None:
        with self.p.folder.joinpath(self.p.file("dd.new", b"")).open("rb") as other:
            fcntl.flock(other, fcntl.LOCK_EX)

            def free() -> None:
                os.remove(self.p.folder / "dd.new")
                fcntl.flock(other, fcntl.LOCK_UN)

            timer = threading.Timer(2, free)
            timer.start()
            got = self.dumped(*UPDATE)
            timer.join()
        self.ends("dd.new that another run has locked for a while", got, ONE_VOLUME, DONE)

    def test_names_that_are_taken(self) -> None:
        """The text gets the first name with a number that is free. What has the others stays, whatever it is, and no link is followed."""
        self.p.file("mine", b"mine")
        for name, more in (("dd", UPDATE), ("usr", KEPT)):
            self.p.file(f"{name}.new.1", b"own\n")
            self.p.folder.joinpath(f"{name}.new.2").symlink_to("mine")
            self.p.folder.joinpath(f"{name}.new.3").symlink_to("nowhere")
            self.p.folder.joinpath(f"{name}.new.4").mkdir()
            seen: list[list[str]] = []
            got, _ = self.acted_on({5: lambda: seen.append(self.lying())}, *more)
            taken = [f"{name}.new.{number}" for number in range(1, 5)]
            self.ends(f"taken names of {name}", got, ONE_VOLUME, DONE)
            self.same(f"taken names of {name}: they stay", [it for it in self.lying() if it.startswith(f"{name}.new")], taken)
            came = self.p.bytes_of(taken[0]), os.readlink(self.p.folder / taken[1]), self.p.bytes_of("mine"), self.p.bytes_of("nowhere")
            self.same(f"taken names of {name}: nothing is changed", came, (b"own\n", "mine", b"mine", None))
            self.same(f"taken names of {name}: none more meanwhile", [it for it in seen[0] if re.search(r"new\.[5-9]", it)], [])

    def test_names_that_are_all_taken(self) -> None:
        for number in range(1, 1001):
            self.p.file(f"dd.new.{number}", b"")
        told = "rdump: dd: its .new.1 to .new.1000 are taken: remove these files\n"
        self.ends("all names are taken", self.dumped(*UPDATE), ONE_VOLUME + NOT_UPDATED, ABNORMAL, told)
        self.same("all names are taken: nothing else is left", (len(self.lying()), self.p.bytes_of("dd")), (1000, None))


class Names(NamedTuple):
    """Names of files of a dump, by its words, and what is told of them where two are one."""

    title: str
    tells: tuple[str, ...]
    more: tuple[str, ...]
    changed: dict[str, str | None]


ONE_FILE = (
    Names("dumpdates is the payload", ("rdump: payload: ", "the payload"), (), {"dumpdates": "payload"}),
    Names("dumpdates is the payload, to be entered", ("rdump: payload: ", "the payload"), ("--update",), {"dumpdates": "payload"}),
    Names("by another path", ("rdump: ./payload: ", "the payload"), (), {"dumpdates": "./payload"}),
    Names("by a link", ("rdump: to-payload: ", "the payload"), (), {"dumpdates": "to-payload"}),
    Names("by a hard link", ("rdump: hard: ", "the payload"), (), {"dumpdates": "hard"}),
    Names("the checkpoint is the payload", ("rdump: payload: ", "the payload"), ("--checkpoint", "payload"), {}),
    Names("the checkpoint is the payload by a hard link", ("rdump: hard: ", "the payload"), ("--checkpoint", "hard"), {}),
    Names("the payload is a link to the checkpoint", ("rdump: payload: ", "to-payload"), ("--checkpoint", "payload"), {"payload": "to-payload"}),
    Names("both are one that is not there", ("rdump: dd: ", "the dumpdates file"), ("--checkpoint", "dd"), {"dumpdates": "dd"}),
    Names("both are one in a folder", ("rdump: in/dd: ", "link/dd"), ("--checkpoint", "in/dd"), {"dumpdates": "link/dd"}),
    Names("both are one by a link to nothing", ("rdump: in/missing: ", "to-nothing"), ("--checkpoint", "in/missing"), {"dumpdates": "to-nothing"}),
    Names(
        "the checkpoint is the .new",
        ("rdump: dd.new: ", ".new of the dumpdates file"),
        ("--checkpoint", "dd.new", "--update"),
        {"dumpdates": "dd"},
    ),
    Names("dumpdates is the checkpoint's .new", ("rdump: usr: its .new", "usr.new"), ("--checkpoint", "usr"), {"dumpdates": "usr.new"}),
    Names("a .new by a link in a folder", ("rdump: link/usr: its .new", "in/usr.new"), ("--checkpoint", "link/usr"), {"dumpdates": "in/usr.new"}),
)


class OneFile(FileCase):
    """No two files of a dump are one, by whatever names."""

    def setUp(self) -> None:
        super().setUp()
        self.p.folder.joinpath("in").mkdir()
        for name, target in (("link", "in"), ("to-payload", "payload"), ("to-nothing", "in/missing")):
            self.p.folder.joinpath(name).symlink_to(target)
        os.link(self.p.folder / "payload", self.p.folder / "hard")

    def test_names_of_one_file(self) -> None:
        whole = str(self.p.folder / "payload")
        for it in (*ONE_FILE, Names("by a whole path", (f"rdump: {whole}: ", "the payload"), (), {"dumpdates": whole})):
            kept = {"payload": PAYLOAD, "hard": PAYLOAD, "dd": None, "usr": None}
            self.refused(it.title, it.tells, kept, *it.more, **it.changed)

    def test_hard_links(self) -> None:
        os.link(self.p.folder / "payload", self.p.folder / "usr.new")
        title = "the .new is a hard link of the payload"
        self.refused(title, ("rdump: usr: its .new", "the payload"), {"usr.new": PAYLOAD}, *KEPT)
        os.link(self.p.folder / self.p.file("dd", ENTRY.encode()), self.p.folder / "dd.new")
        title = "the .new is a hard link of dumpdates"
        self.refused(title, ("rdump: dd: its .new", "the dumpdates file"), {"dd.new": ENTRY.encode()}, *UPDATE)

    def test_the_payload_is_standard_input(self) -> None:
        self.p.file("usr.new", PAYLOAD)
        for payload in ("/dev/stdin", "/dev/fd/0"):
            words = (self.p.rdump, *self.p.dump_words(NOWHERE, *KEPT, payload=payload))
            with self.p.folder.joinpath("usr.new").open("rb") as given:
                ran = subprocess.run(words, cwd=self.p.folder, stdin=given, capture_output=True, text=True, timeout=GUARD_SECONDS, check=False)
            came = (ran.returncode, ran.stdout, self.p.bytes_of("usr.new"), "rdump: usr: its .new" in ran.stderr)
            self.same(f"the payload is {payload}, and the .new", came, (FAILED, "", PAYLOAD, True), ran.stderr)

    def test_files_that_are_several(self) -> None:
        self.p.file("dd", ENTRY.encode())
        for title, more in (
            ("files beside one another", ("--checkpoint", "in/dd", "--update")),
            ("one name in two folders", ("--checkpoint", "in/other", "--update")),
            ("the checkpoint is at a .new that is not made", ("--checkpoint", "other.new")),
        ):
            got = self.dumped(*more, dumpdates="other")
            self.ends(title, got, ONE_VOLUME, DONE)


class Modes(FileCase):
    """A checkpoint is its user's alone, from its making on; dumpdates keeps its mode, and a new one has that of the process."""

    def mode_of(self, name: str) -> str:
        return oct(stat.S_IMODE(self.p.folder.joinpath(name).stat().st_mode))

    def test_a_checkpoint(self) -> None:
        self.addCleanup(os.umask, os.umask(0))
        seen: list[str] = []
        look = {1: lambda: seen.append(self.mode_of("usr"))}
        got, _ = self.acted_on(look, *KEPT)
        self.ends("a new checkpoint", got, ONE_VOLUME, DONE)
        for mode in (0o644, 0o666, 0o400):
            self.p.folder.joinpath(self.p.file("usr", text_of(RUN))).chmod(mode)
            got, _ = self.acted_on(look, *KEPT)
            self.ends(f"a checkpoint of mode {mode:o}", got, ONE_VOLUME, DONE, "going on")
        self.same("the mode of a checkpoint", seen, ["0o600"] * 4)

    def test_dumpdates(self) -> None:
        self.p.folder.joinpath(self.p.file("dd", ENTRY.encode())).chmod(0o640)
        got = self.dumped(*UPDATE)
        self.ends("dumpdates of mode 640", got, ONE_VOLUME, DONE)
        self.same("dumpdates of mode 640: it stays so", self.mode_of("dd"), "0o640")


# How many bytes a dumpdates file or a catalog may have, and what is told of a longer one.
MOST_BYTES = 256 << 20
TOO_LONG = "it has more than 256 MiB"


class Kinds(FileCase):
    """A file that has to be a plain one is refused if it is another, before anything is sent or made. A pipe is not waited for, but for the
    payload."""

    def test_files_that_are_no_plain_ones(self) -> None:
        os.mkfifo(self.p.folder / "pipe")
        self.p.folder.joinpath("folder").mkdir()
        for path in ("pipe", "folder", "/dev/zero", "/dev/full", "/dev/null"):
            tells = (f"rdump: {path}: it is no plain file\n",)
            rows: tuple[tuple[str, tuple[str, ...], dict[str, str | None]], ...] = (
                ("dumpdates", (), {"dumpdates": path}),
                ("dumpdates to be entered", ("--update",), {"dumpdates": path}),
                ("the checkpoint", ("--checkpoint", path), {}),
                ("the catalog", ("--catalog", path), {}),
            )
            for title, more, changed in rows:
                if (title, path) != ("dumpdates", "/dev/null"):
                    self.refused(f"{title} is {path}", tells, {f"{path}.new": None}, *more, **changed)

    def test_the_null_device(self) -> None:
        """It is an empty dumpdates file, if nothing is entered there."""
        self.told("dumpdates is the null device", self.dumped(dumpdates="/dev/null"), ONE_VOLUME, DONE, "")

    def test_long_files(self) -> None:
        """A dumpdates file or a catalog that is too long is not read."""
        rows: tuple[tuple[str, tuple[str, ...], dict[str, str | None]], ...] = (
            ("dd", (), {"dumpdates": "dd"}),
            ("catalog", ("--catalog", "catalog"), {}),
        )
        for name, more, changed in rows:
            with self.p.folder.joinpath(name).open("wb") as file:
                file.truncate(MOST_BYTES + 1)
            self.refused(f"{name} is too long", (f"rdump: {name}: {TOO_LONG}\n",), {}, *more, **changed)

    def test_files_of_other_commands(self) -> None:
        """They are refused if they are too long, or a device that may have no end."""
        self.p.file("reel", b"")
        with self.p.folder.joinpath("long").open("wb") as file:
            file.truncate(MOST_BYTES + 1)
        for path, why in (("long", TOO_LONG), ("/dev/zero", "it is no plain file"), ("/dev/full", "it is no plain file")):
            tells = f"rdump: {path}: {why}\n"
            self.told(f"dates of {path}", self.p.run("dates", "--file", path), "", FAILED, tells)
            self.told(f"ls --catalog {path}", self.p.run("ls", "--catalog", path, "reel"), "", FAILED, tells)
            got = self.p.run("ls", "--dumpdates", path, "reel")
            self.told(f"ls --dumpdates {path}", got, "reel: 0 bytes: empty\n", FAILED, tells)
            self.told(f"fetch --catalog {path}", self.p.run(*fetch_words(NOWHERE, "--catalog", path, into=".")), "", FAILED, tells)

    def test_files_of_other_commands_that_are_read(self) -> None:
        """The null device is empty, and a pipe is read to its end."""
        self.told("dates of the null device", self.p.run("dates", "--file", "/dev/null"), "", DONE, "")
        os.mkfifo(self.p.folder / "pipe")
        writer = threading.Thread(target=self.p.file, args=("pipe", ENTRY.encode()))
        writer.start()
        got = self.p.run("dates", "--file", "pipe")
        writer.join()
        self.told("dates of a pipe", got, ENTRY, DONE, "")

    def test_new_files(self) -> None:
        os.mkfifo(self.p.folder / "usr.new")
        got = self.p.dump(NOWHERE, *KEPT)
        self.ends("the .new is a pipe", got, "", FAILED, "rdump: usr: its .new is no plain file\n")

    def test_payloads(self) -> None:
        os.mkfifo(self.p.folder / "payload.pipe")
        writer = threading.Thread(target=self.p.file, args=("payload.pipe", PAYLOAD))
        writer.start()
        got = self.dumped(payload="payload.pipe")
        writer.join()
        self.ends("the payload is a pipe", got, ONE_VOLUME, DONE)

    def test_a_device(self) -> None:
        got = self.dumped(dumpdates="/dev/null")
        self.ends("dumpdates is /dev/null", got, ONE_VOLUME, DONE)


class Payloads(FileCase):
    """What is said of a payload that changed while it was dumped, or that is younger than the checkpoint."""

    def setUp(self) -> None:
        super().setUp()
        self.payload = self.p.folder / "payload"

    def exchange(self) -> None:
        self.payload.unlink()
        self.p.file("payload", b"another")

    def append(self) -> None:
        with self.payload.open("ab") as payload:
            payload.write(b"more")

    def written(self, nanoseconds: int) -> None:
        """Moves the time when the payload was written last."""
        os.utime(self.payload, ns=(0, self.payload.stat().st_mtime_ns + nanoseconds))

    def test_changed_while_it_was_dumped(self) -> None:
        rows: tuple[tuple[str, Callable[[], object], str], ...] = (
            ("nothing", lambda: None, ""),
            ("it was read", self.payload.read_bytes, ""),
            ("its mode", partial(self.payload.chmod, 0o600), ""),
            ("longer", self.append, f"it had {len(PAYLOAD)} bytes, and has {len(PAYLOAD) + 4}"),
            ("as long", partial(self.p.file, "payload", bytes(len(PAYLOAD))), "it was written to"),
            ("a nanosecond", partial(self.written, 1), "it was written to"),
            ("exchanged", self.exchange, ""),
        )
        for title, act, tells in rows:
            for more in ((), KEPT, UPDATE):
                self.p.file("payload", PAYLOAD)
                os.utime(self.payload, ns=(0, DAY * 10**9))
                got, _ = self.acted_on({6: act}, *more)
                line = f"rdump: payload: it changed while it was dumped: {tells}\n" if tells else ""
                self.told(f"a payload that changed, {title} {more}", got, ONE_VOLUME, DONE, line)
            self.same(f"a payload that changed, {title}: it is entered", self.p.bytes_of("dd"), ENTRY.encode())
            os.remove(self.p.folder / "dd")

    def test_an_empty_payload(self) -> None:
        self.p.file("payload", b"")
        got, _ = self.acted_on({6: lambda: self.p.file("payload", b"more")})
        output = "volume 1: 0 blocks from 0\ndump complete: 1 volumes, 0 blocks\n"
        tells = f"{NO_BLOCK}rdump: payload: it changed while it was dumped: it had 0 bytes, and has 4\n"
        self.told("an empty payload that changed", got, output, DONE, tells)

    def test_younger_than_the_checkpoint(self) -> None:
        """A dump goes on, and its payload is younger than the checkpoint, or not."""
        kept_at = 951_868_800
        for title, written_at, tells in (
            ("older", kept_at - 1, ""),
            ("as old", kept_at, ""),
            ("younger", kept_at + 3601, "it was written to at Wed Mar  1 01:00:01 2000, and usr at Wed Mar  1 00:00:00 2000"),
            ("much younger", 2**33, "it was written to at Wed Mar 16 12:56:32 2242, and usr at Wed Mar  1 00:00:00 2000"),
        ):
            self.p.file("usr", text_of(RUN, ONE))
            os.utime(self.payload, (0, written_at))
            os.utime(self.p.folder / "usr", (0, kept_at))
            got = self.dumped(*KEPT)
            line = f"rdump: payload: it is younger than the checkpoint: {tells}\n" if tells else ""
            wanted = "volume 2: 1 blocks from 2\ndump complete: 2 volumes, 3 blocks\n"
            self.told(f"a payload that is {title}", got, wanted, DONE, f"going on: 1 volumes, 2 blocks of 3 counted\n{line}")

    def test_younger_by_a_nanosecond(self) -> None:
        for at in (1, 2):
            self.p.file("usr", text_of(RUN, ONE))
            os.utime(self.payload, ns=(0, DAY * 10**9 + at))
            os.utime(self.p.folder / "usr", ns=(0, DAY * 10**9 + 1))
            got = self.p.dump(NOWHERE, *KEPT)
            self.same(f"a payload that is younger by {at - 1} nanoseconds", "younger" in got.told, at == 2, got)


class LaterEntry(FileCase):
    """What is said where the entry that a dump replaces has a later date."""

    line = "rdump: dd: the entry of /usr level 0 that this dump is to replace has a later date, Tue Feb 29 00:00:00 2000\n"

    def test_entries(self) -> None:
        other = HOME.replace("/home", "/usr ").replace(" 9 Mon", " 1 Mon").replace("2000", "2028")
        for title, text, date, more, tells in (
            ("later", ENTRY, DAY - 1, UPDATE, self.line),
            ("the same", ENTRY, DAY, UPDATE, ""),
            ("earlier", ENTRY, DAY + 1, UPDATE, ""),
            ("later, and not to be replaced", ENTRY, DAY - 1, UPDATE[:2], ""),
            ("of another level or name", HOME.replace("2000", "2028") + other, DAY - 1, UPDATE, ""),
            ("later, the second of two", ENTRY.replace("Tue Feb 29", "Mon Feb 28") + ENTRY, DAY - 1, UPDATE, self.line),
        ):
            self.p.file("dd", text.encode())
            got = self.dumped(*more, date=str(date))
            self.told(f"an entry of a date that is {title}", got, ONE_VOLUME, DONE, tells)

    def test_the_date_of_a_checkpoint(self) -> None:
        self.p.file("dd", ENTRY.encode())
        self.p.file("usr", text_of(RUN._replace(date=DAY - 1)))
        got = self.dumped(*UPDATE, *KEPT, date=str(DAY + 9))
        tells = f"going on: 0 volumes, 0 blocks of 3 counted\n{self.line}"
        self.same("an entry of a later date than the checkpoint's", got.told, tells)


class Restored(FileCase):
    """What a dump says that a restore needs, word for word; and a shell does it."""

    def test_sizes(self) -> None:
        for size, block in ((2500, 1024), (0, 512), (3072, 1024), (1, 1)):
            self.p.file("payload", os.urandom(size))
            with Model(Reel("r1", 1 << 16)) as model:
                got = self.raw(model.address, block=str(block))
            empty = "" if size else NO_BLOCK
            self.same(f"{size} bytes: what a restore needs", got.told, empty + needs(model.address, size, -(-size // block)))

    def test_a_shell_fetches_it(self) -> None:
        """From a device whose name has characters that a shell takes for others."""
        reels = reels_of(PAYLOAD, 1024, [(0, 2), (2, 1)])
        for name in ("bin", "st0", "FOLDER"):
            self.p.folder.joinpath(name).mkdir()
        stack, taken = self.p.folder / "st0", self.p.folder / "bin"
        odd = "/dev/it's a tape; $(false)"
        with self.p.listening("--capacity", "3100", "--bin", str(taken), f"{odd}={stack}") as (address, _):
            for more in ((), KEPT, UPDATE):
                for name in ("r1", "r2"):
                    stack.joinpath(name).touch()
                got = self.raw(address, *more, device=odd)
                line = got.told.split(": ", 2)[2] if RESTORE.fullmatch(got.told) else ""
                self.same(f"an odd device {more}: the words", shlex.split(line)[4:6], ["--device", odd], got)
                for it in taken.iterdir():
                    it.rename(stack / it.name)
                status, (copies, left, bin) = self.shell(line), files_of(self.p.folder / "FOLDER", stack, taken)
                self.same(f"an odd device {more}: a shell fetches it", (status, [*dict(sorted(copies.items())).values()]), (DONE, reels))
                self.same(f"an odd device {more}: the reels are in the bin", (left, bin), ({}, dict(zip(("r1", "r2"), reels))))
                for it in (*taken.iterdir(), *self.p.folder.joinpath("FOLDER").iterdir()):
                    it.unlink()

    def shell(self, line: str) -> int:
        """The status of a shell that runs this line, in which `rdump` is the program."""
        text = f'rdump() {{ {shlex.quote(self.p.rdump)} "$@"; }}; {line}'
        return self.p.ran("-c", text, program="sh").status

    def test_an_abandoned_dump(self) -> None:
        got = self.raw(NOWHERE)
        self.same("a dump that is abandoned says nothing of a restore", "restore" in got.told, False, got)

    def test_a_dump_that_is_not_entered(self) -> None:
        with Model(Reel("r1", 4200), acts={5: lambda: self.p.file("dd.new", b"own\n")}) as model:
            got = self.raw(model.address, *UPDATE)
        came = (RESTORE.findall(got.told), got.status)
        wanted = ([needs(model.address, len(PAYLOAD), 3)], ABNORMAL)
        self.same("a dump that is not entered says what a restore needs", came, wanted, got)

    def test_a_dump_that_is_found_complete(self) -> None:
        self.p.file("usr", text_of(RUN, BOTH))
        got = self.raw(NOWHERE, *KEPT)
        wanted = [needs(NOWHERE, len(PAYLOAD), 3)]
        self.same("a dump that is found complete says what a restore needs", RESTORE.findall(got.told), wanted, got)
