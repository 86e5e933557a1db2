"""Checks the scripts of etc/ that dump with nobody there, with the built programs.

`new-reels` runs in folders, and `night` in a folder beside a server, and without the variables that a crontab sets. tests/checks/shelf.py has what
`to-shelf` does.

The recipe *A night* of docs/OPERATING.md runs as it stands there, on a machine of its own, and then the lines of its two crontabs, at the
times that they name. No cron runs: this file reads them, and moves the clock, which is a `date` that comes first in PATH. What a line prints
is its mail. The forced command runs on such a machine too, with a syslog of this file. That takes root and unshare(1); where they are not to
be had, it is named as skipped.
"""

from __future__ import annotations

import fcntl
import os
import random
import re
import shutil
import signal
import socket
import subprocess
import tempfile
import time
from calendar import timegm
from contextlib import contextmanager, suppress
from pathlib import Path
from typing import Callable, Iterator, NamedTuple

from tests.lib import machines
from tests.lib.case import Case
from tests.lib.cats import cat_with
from tests.lib.checkpoints import small_disk
from tests.lib.connections import NOWHERE, text_of, wait_for
from tests.lib.dumping import IN_LITTLE_ROOM
from tests.lib.ended import ABNORMAL, DONE, Ended
from tests.lib.given import given
from tests.lib.inside import is_inside, run_inside
from tests.lib.nights import NEW_REELS, NIGHT, Job, jobs_of, moved_clock, set_clock
from tests.lib.places import built
from tests.lib.processes import children, guarded, state
from tests.lib.recipes import all_recipes, script_of, with_those_before
from tests.lib.servers import serving
from tests.lib.traced import traced
from tests.lib.waiting import GUARD_SECONDS
from tests.lib.wire import DEVICE

DATE_OF_A_LABEL = 951782400


def run(folder: Path, *words: str, **variables: str) -> Ended[str]:
    """Runs a program in a folder, with variables more."""
    ran = subprocess.run(
        words, cwd=folder, env={**os.environ, **variables}, stdin=subprocess.DEVNULL, capture_output=True, timeout=GUARD_SECONDS, check=False
    )
    return Ended(ran.stdout.decode(), ran.stderr.decode(), ran.returncode)


def is_zombie(process: int) -> bool:
    try:
        return state(process) == "Z"
    except OSError:
        return True


class ScriptCase(Case):
    """Tests of a script, in a folder that is empty at the start of each test."""

    def setUp(self) -> None:
        self.folder = Path(self.enterContext(tempfile.TemporaryDirectory()))


class NightByHand(ScriptCase):
    """The script of a night, as a person starts it without a crontab."""

    def test_variables_that_are_missing(self) -> None:
        """It says which variables are missing, before it packs anything."""
        tree, kept = self.folder / "tree", self.folder / "kept"
        tree.mkdir()
        kept.mkdir(0o700)
        wanted = Ended("", "night: the variables TO (the server's address) and DEVICE (its drive) must be set\n", 1)
        for name, variables in (
            ("neither", {"TO": "", "DEVICE": ""}),
            ("no TO", {"TO": "", "DEVICE": DEVICE}),
            ("no DEVICE", {"TO": "127.0.0.1:4711", "DEVICE": ""}),
        ):
            self.same(f"{name}: it says so", run(self.folder, NIGHT, "0", "/usr", "tree", "kept", **variables), wanted)
            self.same(f"{name}: it makes nothing", [*kept.iterdir()], [])
        environment = {name: value for name, value in os.environ.items() if name not in ("TO", "DEVICE")}
        ran = subprocess.run((NIGHT, "0", "/usr", "tree", "kept"), cwd=self.folder, env=environment, capture_output=True, text=True, check=False)
        self.same("no variables at all: it says so", (ran.stdout, ran.stderr, ran.returncode), tuple(wanted))


class NewReels(ScriptCase):
    """The script that makes reels: which are made, and that nothing that is there changes."""

    def setUp(self) -> None:
        super().setUp()
        moved_clock(self.folder / "clock", self.folder / "now", "2026-11-27 23:59")
        for it in ("stack", "bin", "shelf/2026-11-20", "other"):
            self.folder.joinpath(it).mkdir(parents=True)

    def make(self, *words: str) -> Ended[str]:
        return run(self.folder, NEW_REELS, *words, PATH=f"{self.folder / 'clock'}:{os.environ['PATH']}")

    def names(self) -> list[str]:
        """What is in the stack."""
        return sorted(it.name for it in self.folder.joinpath("stack").iterdir())

    def test_reels(self) -> None:
        self.same("three reels", self.make("stack", "bin", "3"), Ended("", "", DONE), self.names())
        self.same("their names", self.names(), ["2026-11-27-001", "2026-11-27-002", "2026-11-27-003"])
        made = [(it.stat().st_size, it.stat().st_mode & 0o777) for it in self.folder.joinpath("stack").iterdir()]
        self.same("they are empty, and this user's alone", made, [(0, 0o600)] * 3)

    def test_names_that_are_taken(self) -> None:
        self.make("stack", "bin", "3")
        self.folder.joinpath("stack/2026-11-27-001").write_bytes(b"a volume")
        self.folder.joinpath("stack/2026-11-27-002").rename(self.folder / "bin/2026-11-27-002")
        self.folder.joinpath("stack/2026-11-27-003").rename(self.folder / "shelf/2026-11-20/2026-11-27-003")
        self.folder.joinpath("other/2026-11-27-004").touch()
        link = self.folder / "stack/2026-11-27-005"
        link.symlink_to("nowhere")
        os.mkfifo(self.folder / "stack/2026-11-27-006")
        self.folder.joinpath("stack/2026-11-27-007").mkdir()
        self.same("two reels more", self.make("stack", "bin", "2", "shelf", "other"), Ended("", "", DONE), self.names())
        wanted = ["2026-11-27-001", *(f"2026-11-27-{it:03}" for it in (5, 6, 7, 8, 9))]
        self.same("no name that is taken", self.names(), wanted)
        self.same("what was there is as it was", self.folder.joinpath("stack/2026-11-27-001").read_bytes(), b"a volume")
        nowhere = self.folder / "stack/nowhere"
        self.same("a link stays one, and what it names is not made", (link.is_symlink(), nowhere.exists()), (True, False))
        self.same("no reel", (self.make("stack", "bin", "0"), self.names()), (Ended("", "", DONE), wanted))
        self.make("stack", "bin", "10", "shelf", "other")
        self.same("a third call: they are in the order of their numbers", self.names()[-11:], [f"2026-11-27-{it:03}" for it in range(9, 20)])
        self.same("a reel of the numbers that are left", self.make("stack", "bin", "980", "shelf", "other"), Ended("", "", DONE))
        got = self.make("stack", "bin", "1", "shelf", "other")
        self.same("no number is left", (got.status, "up to 999" in got.told, self.names()[-1]), (1, True, "2026-11-27-999"), got)

    def test_bad_words(self) -> None:
        self.make("stack", "bin", "3")
        before = self.names()
        for words in (
            ("stack", "bin"),
            ("stack", "bin", "x"),
            ("stack", "bin", "1000"),
            ("none", "bin", "1"),
            ("stack", "none", "1"),
            ("stack", "bin", "1", "none"),
        ):
            got = self.make(*words)
            self.same(f"{words}: it fails", (got.status, got.told.startswith("new-reels: "), self.names()), (1, True, before), got)

    def test_the_stack_of_another_user(self) -> None:
        if os.geteuid() != 0:
            self.skipTest("root cannot be used on this machine")
        os.chown(self.folder / "stack", 65534, 65534)
        got = self.make("stack", "bin", "1")
        self.same("the stack of another user", (got.status, "another user's" in got.told), (1, True), got)


# What a mail ends with if a dump is not finished.
AGAIN = "night: to complete it, run night with level {0} and the same other arguments: it then makes a dump of level {0} too\n"
# Of so many bytes a payload has more than one block.
LONG = 300000


class NightCase(ScriptCase):
    """Tests of the script that packs a tree and dumps it, with a tree, a folder and a clock of their own."""

    def setUp(self) -> None:
        super().setUp()
        if not machines.is_there("flock") or not machines.is_there("tar"):
            self.skipTest("flock and tar cannot be used on this machine")
        self.programs, self.tree, self.place = (self.folder / it for it in ("programs", "tree", "place"))
        moved_clock(self.programs, self.folder / "now", "2026-11-29 02:00")
        (self.programs / "rdump").symlink_to(built("rdump"))
        self.tree.mkdir()
        (self.tree / "file").write_bytes(random.Random(5).randbytes(LONG))
        self.place.mkdir(0o700)

    def dumps(self, to: str, level: int = 0, before: tuple[str, ...] = ()) -> Ended[str]:
        """What comes of the script at a level. A volume that fails is tried a second time at once."""
        return run(self.folder, *before, *self.words(level), **self.variables(to), TIMES="1", PAUSE="0")

    def words(self, level: int) -> tuple[str, ...]:
        return (NIGHT, str(level), "/usr", str(self.tree), str(self.place))

    def variables(self, to: str) -> dict[str, str]:
        return {"TO": to, "DEVICE": DEVICE, "PATH": f"{self.programs}:{os.environ['PATH']}"}

    def left(self) -> list[str]:
        """What a run left that is large, or that the next one goes on from."""
        return sorted(it.name for it in self.place.iterdir() if it.name.startswith(("payload", "checkpoint", "snapshot.new")))


class NightScript(NightCase):
    """What the script leaves in its folder."""

    def test_full_disk(self) -> None:
        """tar finds no room for the payload: what it packed is removed."""
        self.place.rmdir()
        with small_disk(self.place) as is_small:
            self.place.chmod(0o700)
            got = self.dumps(NOWHERE, before=() if is_small else IN_LITTLE_ROOM)
            self.same("no room for the payload", (got.status, "nothing is dumped" in got.told, self.left()), (1, True, []), got)

    def test_what_an_earlier_run_left(self) -> None:
        """A run that was killed left files that no dump needs. They go before tar needs the room."""
        for it in ("payload", "payload.new", "snapshot.new"):
            (self.place / it).write_bytes(bytes(1000))
        (self.programs / "tar").write_text(f'#!/bin/sh\nls {self.place}\nexit 2\n')
        (self.programs / "tar").chmod(0o755)
        got = self.dumps(NOWHERE)
        self.same("while tar packs", (got.status, "payload" in got.output, self.left()), (1, False, []), got)

    def test_payload_is_on_the_disk(self) -> None:
        """Before the dump has a checkpoint the payload is synced, and so is the folder that has its name."""
        before = traced(self, "fsync,rename,renameat,renameat2,openat")
        if not before:
            return
        got = self.dumps(NOWHERE, before=before)
        self.same("the dump has a checkpoint", (got.status, self.left()), (ABNORMAL, ["checkpoint", "payload"]), got)
        lines = (self.folder / "calls").read_text(errors="replace").splitlines()
        lines = lines[: next(number for number, it in enumerate(lines) if "checkpoint.new" in it)]
        place = re.escape(str(self.place))
        for title, pattern in (
            ("the payload is synced", rf"fsync\(\d+<{place}/payload(\.new)?>\) += 0"),
            ("it gets its name", r'rename\w*\(.*"payload\.new", .*"payload".*\) += 0'),
            ("the folder is synced", rf"fsync\(\d+<{place}>\) += 0"),
        ):
            at = next((number for number, it in enumerate(lines) if re.search(pattern, it)), None)
            self.holds(f"before the checkpoint: {title}, after all before it", at is not None, lines[-20:])
            lines = lines[(at or 0) + 1 :]

    def test_mail(self) -> None:
        """The mail names each dump before what is printed of it. If a dump fails, its last lines say how it ended, and what to run."""
        number, again = "night: /usr level 0 date {}\n".format, AGAIN.format
        sunday, monday = (timegm((2026, 11, it, 2, 0, 0)) for it in (29, 30))
        ended = "night: /usr level {} date {} ended with status {}\n"
        got = self.dumps(NOWHERE)
        self.same("it is not finished", (got.status, got.told.startswith(number(sunday))), (ABNORMAL, True), got)
        self.holds("it is not finished: the end", got.told.endswith(ended.format(0, sunday, 3) + again(1)), got)
        set_clock(self.folder / "now", "2026-11-30 02:00")
        got = self.dumps(NOWHERE, 1)
        self.holds("it fails again", got.told.endswith(ended.format(0, sunday, 3) + again(1)), got)
        with serving() as server:
            server.reel("r1")
            got = self.dumps(text_of(server.address), 1)
            first, found, second = got.told.partition(number(monday).replace("level 0", "level 1"))
            self.same("two dumps", (first.startswith(number(sunday)), first.count("to restore: "), bool(found)), (True, 1, True), got)
            self.holds("the second fails", second.endswith(ended.format(1, monday, 3) + again(1)), got)

    def test_mail_of_a_killed_dump(self) -> None:
        """Its last lines have the status, the name of the signal, and what completes the dump."""
        sunday = timegm((2026, 11, 29, 2, 0, 0))
        for name, status in (("KILL", 137), ("TERM", 143)):
            with self.waiting() as night:
                (dump,) = children(night.pid)
                os.kill(dump, getattr(signal, f"SIG{name}"))
                told = night.communicate()[1].decode()
            end = f"night: /usr level 0 date {sunday} ended with status {status} (signal {name})\n{AGAIN.format(1)}"
            left = ["checkpoint", "checkpoint.new", "payload"]
            self.same(name, (night.returncode, told.endswith(end), self.left()), (status, True, left), told)
        with serving() as server:
            server.reel("r1")
            server.reel("r2")
            set_clock(self.folder / "now", "2026-11-30 02:00")
            got = self.dumps(text_of(server.address), 1)
            self.same("it is completed", (got.status, got.output.count("dump complete: "), self.left()), (DONE, 2, []), got)

    @contextmanager
    def waiting(self) -> Iterator[subprocess.Popen[bytes]]:
        """A night whose dump waits before it tries again. There is no server."""
        environment = {**os.environ, **self.variables(NOWHERE)}
        with guarded(
            subprocess.Popen(self.words(0), env=environment, stdin=subprocess.DEVNULL, stdout=subprocess.PIPE, stderr=subprocess.PIPE)
        ) as night:
            self.holds("it waits a minute", any(it == b"rdump: it is tried again in 60 seconds\n" for it in given(night.stderr)))
            yield night

    def test_variables(self) -> None:
        """What the dump gets from the variables, and what it gets if they are not set, or are empty. A number that is none is refused."""
        (self.programs / "rdump").unlink()
        (self.programs / "rdump").write_text('#!/bin/sh\necho "$@"\n')
        (self.programs / "rdump").chmod(0o755)
        rows: tuple[tuple[dict[str, str], str], ...] = (
            ({}, "--protect --timeout 3600 --retry 60 --pause 60"),
            ({"TIMES": "", "PAUSE": "", "TIMEOUT": ""}, "--protect --timeout 3600 --retry 60 --pause 60"),
            ({"TIMES": "7", "PAUSE": "8", "TIMEOUT": "0"}, "--protect --timeout 0 --retry 7 --pause 8"),
        )
        for number, (variables, wanted) in enumerate(rows):
            set_clock(self.folder / "now", f"2026-11-29 02:{number:02}")
            got = run(self.folder, *self.words(0), **self.variables(NOWHERE), **variables)
            self.holds(f"{variables}", got.output.endswith(f" {wanted}\n"), got)
        (self.programs / "rdump").unlink()
        (self.programs / "rdump").symlink_to(built("rdump"))
        for number, name in enumerate(("TIMES", "PAUSE", "TIMEOUT"), 10):
            set_clock(self.folder / "now", f"2026-11-29 02:{number}")
            got = run(self.folder, *self.words(0), **self.variables(NOWHERE), **{name: "x"})
            found = (got.status, got.output, "error: invalid value for '--" in got.told, "checkpoint" in self.left())
            self.same(f"{name}=x", found, (1, "", True, False), got)

    def test_unfinished_dump_of_another_folder(self) -> None:
        """A dump that fails names the unfinished dumps of the folders beside this one, and nothing else that has this name."""
        line = "rdump 1\ndevice /dev/st{}\nfs /home\nlevel 2\ndate 951782400\nsince 0\nblock 1024\nblocks 8\n".format
        for name, text in (("other", line(0)), ("another drive", line(1)), ("of another program", "level 2\n")):
            (self.folder / name).mkdir()
            (self.folder / name / "checkpoint").write_text(text)
        (self.folder / "pipe").mkdir()
        os.mkfifo(self.folder / "pipe/checkpoint")
        got = self.dumps(NOWHERE)
        told = re.findall(r"(?m)^night: .*checkpoint.*$", got.told)
        other = f"{self.folder}/other/checkpoint is of an unfinished dump too: /home level 2 date 951782400"
        wanted = [f"night: {other}. If its reel is in the way, complete it first"]
        self.same("it is named", (got.status, told), (ABNORMAL, wanted), got)

    def test_another_payload(self) -> None:
        """The payload of an unfinished dump has another length: the message names it, and what to do, and that does it."""
        self.same("the dump is not finished", (self.dumps(NOWHERE).status, self.left()), (ABNORMAL, ["checkpoint", "payload"]))
        payload, checkpoint = self.place / "payload", self.place / "checkpoint"
        rows: tuple[tuple[str, str, Callable[[], object]], ...] = (
            ("shorter", "1", lambda: os.truncate(payload, 1000)),
            ("missing", "no", payload.unlink),
        )
        with serving() as server:
            for title, blocks, changes in rows:
                changes()
                got = self.dumps(text_of(server.address))
                told = {it: it in got.told for it in (f"{payload} has {blocks} blocks", "has 2", f"remove {checkpoint}")}
                self.same(f"{title}: the message", (got.status, told), (1, dict.fromkeys(told, True)), got)
                self.same(f"{title}: nothing is dumped", ([*server.bin.iterdir()], checkpoint.exists()), ([], True))
            checkpoint.unlink()
            server.reel("r1")
            set_clock(self.folder / "now", "2026-11-30 02:00")
            got = self.dumps(text_of(server.address))
            self.same("the checkpoint is removed", (got.status, "dump complete" in got.output, self.left()), (DONE, True, []), got)

    def test_catalog(self) -> None:
        """After each dump the catalog has all volumes of each entry. A dump that is continued without a volume began once."""
        with serving() as server:
            for day, level in ((29, 0), (30, 1), (30, 2)):
                server.reel(f"{day} {level}")
                self.is_kept(f"a dump of level {level}", f"2026-11-{day} 0{level + 2}:00", text_of(server.address), server.bin, level)
            server.reel("another")
            (self.tree / "file").write_bytes(bytes(2 * LONG))
            self.is_kept("another of level 0", "2026-12-06 02:00", text_of(server.address), server.bin, 0)
            set_clock(self.folder / "now", "2026-12-07 02:00")
            self.same("one that is not finished", self.dumps(NOWHERE, 1).status, ABNORMAL)
            for it in ("going on", "after it"):
                server.reel(it)
            self.is_kept("it goes on, before one of level 2", "2026-12-08 02:00", text_of(server.address), server.bin, 2)
        begun = re.findall(r"(?m)^begun .* level (\d) ", (self.place / "catalog").read_text())
        self.same("what has begun", begun, [*"012012"])

    def is_kept(self, title: str, when: str, to: str, reels: Path, level: int) -> None:
        """Dumps at a time. The catalog has each entry, and each of its reels."""
        set_clock(self.folder / "now", when)
        got = self.dumps(to, level)
        self.same(title, (got.status, self.left()), (DONE, []), got)
        words = (str(reels), "--dumpdates", str(self.place / "dumpdates"), "--catalog", str(self.place / "catalog"))
        listed = run(self.folder, built("rdump"), "ls", *words)
        _, entries, dumps = listed.output.split("\n\n")
        whole = [it for it in dumps.splitlines() if it.endswith(": all volumes")]
        lacking = [it for it in entries.splitlines() if not any(dump.startswith(it.partition("): ")[0]) for dump in whole)]
        self.same(f"{title}: all volumes of each entry", (listed.status, lacking, entries == ""), (DONE, [], False), listed)

    def test_bad_catalog(self) -> None:
        """Nothing is dumped if the catalog is none."""
        with serving() as server:
            server.reel("r1")
            (self.place / "catalog").write_text("hello\n")
            got = self.dumps(text_of(server.address))
            self.same("it is no catalog", (got.status, "catalog: it is no catalog" in got.told, [*server.bin.iterdir()]), (1, True, []), got)
            (self.place / "catalog").unlink()
            set_clock(self.folder / "now", "2026-11-30 02:00")
            self.same("it is away", self.dumps(text_of(server.address)).status, DONE)


# The nights. All below runs on a machine of its own.

NOW = Path("/mnt/now")
STACK, BIN, SHELF, CLIENT = Path("/srv/tape/st0"), Path("/srv/tape/bin"), Path("/srv/tape/shelf"), Path("/var/lib/night")
TAKEN = Path("/srv/tape/clients")
TABLES = (Path("/etc/cron.d/rmtd"), Path("/etc/cron.d/night"))
# Where the server listens, and where the client's tunnel to it begins.
LISTENER, TUNNEL = "/run/rmtd/socket", "/run/rdump/socket"


def started(job: Job, **more: str) -> subprocess.Popen[bytes]:
    """Starts a job as cron does."""
    home = {"root": machines.HOME, "rmtd": "/srv/tape"}[job.user]
    is_root = job.user == "root"
    assert "%" not in job.command
    return subprocess.Popen(
        (job.variables["SHELL"], "-c", job.command),
        env={**job.variables, "HOME": home, "LOGNAME": job.user, "LANG": "C.UTF-8", **more},
        cwd=home,
        stdin=subprocess.DEVNULL,
        stdout=subprocess.PIPE,
        stderr=subprocess.STDOUT,
        user=job.user,
        group=None if is_root else job.user,
        extra_groups=None if is_root else (),
    )


class Mail(NamedTuple):
    """What a line of a crontab printed, and its status."""

    text: str
    status: int


class Crontabs:
    """The recipe's two crontabs. What they start with the machine runs until they are left."""

    def __init__(self) -> None:
        self.jobs = [it for table in TABLES for it in jobs_of(table)]
        self.background = [started(it, PATH=it.variables["PATH"]) for it in self.jobs if it.when == ("@reboot",)]

    def run(self, when: str, during: Callable[[subprocess.Popen[bytes]], bytes] | None = None, **more: str) -> Mail:
        """Runs what is due at a minute, and answers its mail. While it runs another thing can be done."""
        seconds = set_clock(NOW, when)
        due = [it for it in self.jobs if it.is_due(time.gmtime(seconds))]
        assert len(due) == 1, (when, due)
        process = started(due[0], **more)
        seen = during(process) if during else b""
        rest, _ = process.communicate(timeout=GUARD_SECONDS * 3)
        return Mail((seen + rest).decode(), process.returncode)

    def stop(self) -> None:
        for it in self.background:
            it.kill()
            it.wait()
            given(it.stdout).close()


def rdump(*words: str) -> Ended[str]:
    return run(Path("/"), "/usr/local/sbin/rdump", *words)


def listener(capacity: int) -> None:
    """Starts the server as the recipe of a listener does, with another capacity. It ends with the machine."""
    words = ("runuser", "-u", "rmtd", "--", "/usr/local/sbin/rmtd", "--listen", f"unix:{LISTENER}", "--capacity", str(capacity))
    drives = ("--bin", str(BIN), "/dev/st0=/srv/tape/st0", "/dev/st1=/srv/tape/st1")
    with open("/run/rmtd.log", "ab") as log:
        process = subprocess.Popen((*words, *drives), stdout=subprocess.PIPE, stderr=log, umask=0o007)
    given(process.stdout).readline()


def comes_back(process: subprocess.Popen[bytes]) -> bytes:
    """The server comes back at the first question of a job. Answers what the job printed up to that."""
    lines = []
    for line in given(process.stdout):
        lines.append(line)
        if line == b"retry?\n":
            break
    listener(1000000000)
    return b"".join(lines)


def stop(program: str) -> None:
    """Ends each process of this machine that runs a program, and waits for their ends. The machine has its own processes alone."""
    while found := [it for it in map(int, filter(str.isdigit, os.listdir("/proc"))) if runs(it, program)]:
        for it in found:
            with suppress(ProcessLookupError):
                os.kill(it, signal.SIGKILL)
        time.sleep(0.01)


def runs(process: int, program: str) -> bool:
    """Whether a process runs a program, and has not ended."""
    try:
        return Path(f"/proc/{process}/comm").read_text() == f"{program}\n" and not is_zombie(process)
    except OSError:
        return False


def empty(*folders: Path) -> None:
    """Takes away what lies in folders."""
    for it in (it for folder in folders for it in folder.iterdir()):
        it.unlink()


def stack() -> list[str]:
    return sorted(it.name for it in STACK.iterdir())


def shelf() -> dict[str, list[str]]:
    return {it.name: sorted(reel.name for reel in it.iterdir()) for it in sorted(SHELF.iterdir())}


def days() -> list[str]:
    """The days of the shelf's folders."""
    return [it.removesuffix("-%2Fusr") for it in shelf()]


def held(folder: Path) -> dict[str, bytes]:
    """The files of a folder."""
    return {it.name: it.read_bytes() for it in sorted(folder.iterdir())}


def dumpdates() -> str:
    return (CLIENT / "dumpdates").read_text()


def connection(sent: bytes) -> tuple[int, bytes]:
    """The status and the answers of the script, whose three streams are one connection, as inetd gives them."""
    ours, its = socket.socketpair()
    with ours, subprocess.Popen(
        ("/usr/local/sbin/tapes",),
        env={"PATH": machines.SYSTEM_PATH},
        stdin=its.fileno(),
        stdout=its.fileno(),
        stderr=its.fileno(),
        user="rmtd",
        group="rmtd",
        extra_groups=(),
        cwd="/",
    ) as process:
        its.close()
        ours.sendall(sent)
        ours.shutdown(socket.SHUT_WR)
        answers = b"".join(iter(lambda: ours.recv(4096), b""))
        return process.wait(GUARD_SECONDS), answers


def ssh(*words: str) -> Ended[str]:
    return run(Path("/"), "ssh", "-o", "ExitOnForwardFailure=yes", "-o", "BatchMode=yes", *words, HOME=machines.HOME)


class Nights(Case):
    """What follows the recipe *A night*, each part on a machine of its own."""

    def setUp(self) -> None:
        missing = [it for it in ("sshd", "ssh", "ssh-keygen", "tar", "flock", "logger") if not machines.is_there(it)]
        if not is_inside() and (missing or not machines.has_machines()):
            self.skipTest(f"{', '.join(missing) or 'root, unshare and make'} cannot be used on this machine")

    def test_nights(self) -> None:
        """Nights in a row and the months after them: a server that is down, a reel that is wanted, and what goes from the shelf."""
        self.after_the_recipe(self.nights)

    def test_keys(self) -> None:
        """What the key of a client may do: a way to the listener, while it is up and while it is not, and nothing else."""
        self.after_the_recipe(self.keys)

    def test_syslog(self) -> None:
        """The forced command's lines go to syslog, and to the file where there is none. The client gets none of them, and the status is the
        server's."""
        self.after_the_recipe(self.syslog)

    def after_the_recipe(self, part: Callable[[], None]) -> None:
        """Runs the recipe on a machine of its own, and then a part of this class."""
        if not is_inside():
            self.same("the nights", run_inside(self, machines.UNSHARE), DONE)
            return
        found = all_recipes()
        machines.loopback()
        machines.furnish()
        machines.open_for_ssh()
        moved_clock(Path("/usr/local/sbin"), NOW, "2026-11-28 12:00")
        os.chdir(machines.HOME)
        # What the recipe leaves running goes on.
        with tempfile.TemporaryFile() as output:
            ran = subprocess.run(
                ("/bin/sh", "-c", script_of(with_those_before(found["A night"], found))),
                stdin=subprocess.DEVNULL,
                stdout=output,
                stderr=subprocess.STDOUT,
                env=machines.ENVIRONMENT,
                check=False,
            )
            output.seek(0)
            self.same("the recipe comes to its end", ran.returncode, DONE, output.read()[-600:])
        self.keep_small_tree()
        part()

    def keep_small_tree(self) -> None:
        """Lets the client's lines dump a small tree in the place of /usr. All else of them is as it stands: programs are still found in /usr."""
        small = Path("/mnt/usr")
        (small / "share").mkdir(parents=True)
        (small / "share/file").write_text("a file\n")
        os.utime(small / "share/file", (DATE_OF_A_LABEL, DATE_OF_A_LABEL))
        text = TABLES[1].read_text()
        assert text.count(" /usr /usr ") == 2
        TABLES[1].write_text(text.replace(" /usr /usr ", " /usr /mnt/usr "))

    def nights(self) -> None:
        # The tunnel is the one that cron starts with the machine, and not that of the recipe before.
        stop("ssh")
        cron = Crontabs()
        wait_for(TUNNEL)
        empty(STACK, BIN)
        tree = Path("/mnt/usr/share/night")
        tree.mkdir()
        self.sunday(cron)
        self.monday(cron, tree)
        self.tuesday(cron, tree)
        self.wednesday(cron)
        mail = cron.run("2026-12-03 09:00")
        self.same("a morning without a dump: its mail", mail, Mail(f"to-shelf: {TAKEN}/usr: no dump came\n", 1))
        self.restored(tree)
        self.months(cron)
        cron.stop()

    def sunday(self, cron: Crontabs) -> None:
        """Sunday, 29 November 2026."""
        reels = cron.run("2026-11-29 01:00")
        self.same("new reels: no mail", (reels.text, stack()), ("", [f"2026-11-29-{it:03}" for it in (1, 2, 3)]))
        mail = cron.run("2026-11-29 02:00")
        complete = re.search(r"^dump complete: 1 volumes, \d+ blocks$", mail.text, re.M) is not None
        self.same("night 1: its mail", (mail.status, complete), (DONE, True), mail)
        left = [it for it in ("payload", "checkpoint") if (CLIENT / it).exists()]
        self.same("night 1: no payload stays", left, [])
        self.same("night 1: it is entered", dumpdates(), "/usr                             0 Sun Nov 29 02:00:00 2026\n")
        self.same("night 1: the server has the entries", (TAKEN / "usr").read_text(), dumpdates())
        self.same("night 1: the server has the catalog", (TAKEN / "usr.catalog").read_text(), (CLIENT / "catalog").read_text())
        self.same("morning 1: no mail", cron.run("2026-11-29 09:00"), Mail("", DONE))
        self.same("morning 1: the shelf", (shelf(), list(BIN.iterdir())), ({"2026-11-29-%2Fusr": ["2026-11-29-001"]}, []))
        self.same("morning 1: a reel may only be read", (SHELF / "2026-11-29-%2Fusr/2026-11-29-001").stat().st_mode & 0o777, 0o400)

    def monday(self, cron: Crontabs, tree: Path) -> None:
        """The server is down at the start, and comes back."""
        (tree / "monday").write_bytes(b"monday" * 1000)
        os.utime(tree / "monday", (set_clock(NOW, "2026-11-29 12:00"),) * 2)
        reels = cron.run("2026-11-30 01:00")
        self.same("night 2: reels", (reels.text, "2026-11-30-003" in stack()), ("", True), stack())
        stop("rmtd")
        mail = cron.run("2026-11-30 02:00", comes_back, PAUSE="1", TIMES="100000")
        self.holds("night 2: it was down", mail.text.count("retry?\n") >= 1, mail)
        self.same("night 2: it came to its end", (mail.status, "dump complete: 1 volumes, " in mail.text), (DONE, True), mail)
        entry = "/usr                             1 Mon Nov 30 02:00:00 2026\n"
        self.holds("night 2: a second level", entry in dumpdates(), dumpdates())
        mail = cron.run("2026-11-30 09:00")
        self.same("morning 2", (mail, shelf().get("2026-11-30-%2Fusr")), (Mail("", DONE), ["2026-11-29-002"]), shelf())

    def tuesday(self, cron: Crontabs, tree: Path) -> None:
        """Reels of a million bytes, and one too few of them."""
        (tree / "tuesday").write_bytes(random.Random(3).randbytes(2500000))
        os.utime(tree / "tuesday", (set_clock(NOW, "2026-11-30 12:00"),) * 2)
        cron.run("2026-12-01 01:00")
        for it in stack()[2:]:
            (STACK / it).unlink()
        stop("rmtd")
        listener(1000000)
        mail = cron.run("2026-12-01 02:00", PAUSE="0", TIMES="2")
        self.same("night 3: a reel is wanted", (mail.status, mail.text.count("Refused 6: no reel is on the stack")), (ABNORMAL, 3), mail)
        ends = mail.text.endswith(f" ended with status 3\n{AGAIN.format(1)}")
        self.same("night 3: it gave up", (ends, "dump complete" in mail.text), (True, False), mail)
        kept = (CLIENT / "checkpoint").read_text()
        found = (kept.count("\ncounted "), "\nlevel 1\n" in kept, (CLIENT / "payload").exists())
        self.same("night 3: two volumes are kept", found, (2, True, True), kept)
        mail = cron.run("2026-12-01 09:00")
        self.same("morning 3: two reels", (len(shelf()["2026-12-01-%2Fusr"]), list(BIN.iterdir())), (2, []), mail, shelf())
        self.same("morning 3: they are no whole dump", mail, Mail(f"to-shelf: {TAKEN}/usr: no dump came\n", 1))

    def wednesday(self, cron: Crontabs) -> None:
        """Tuesday's dump comes to its end first, with its own date."""
        cron.run("2026-12-02 01:00")
        stop("rmtd")
        listener(1000000000)
        mail = cron.run("2026-12-02 02:00", PAUSE="0", TIMES="2")
        self.same("night 4: two dumps", (mail.status, mail.text.count("dump complete: ")), (DONE, 2), mail)
        # The mail has both streams, and lines of the one keep their order among themselves alone.
        lines = "".join(re.findall(r"(?m)^(?:volume|dump complete).*\n", mail.text))
        found = ("going on: 2 volumes, " in mail.text, "dump complete: 3 volumes, 10 blocks\nvolume 1: " in lines)
        self.same("night 4: the first goes on", found, (True, True), mail)
        self.holds("night 4: the entries", dumpdates().endswith("1 Wed Dec  2 02:00:00 2026\n"), dumpdates())
        self.same("morning 4", cron.run("2026-12-02 09:00"), Mail("", DONE), shelf())

    def months(self, cron: Crontabs) -> None:
        """What goes from the shelf. The first week's level 0 stays as long as a dump of level 1 builds on it."""
        cron.run("2027-02-07 01:00")
        mail = cron.run("2027-02-07 02:00")
        self.same("week 2: level 0", mail.status, DONE, mail)
        cron.run("2027-02-07 09:00")
        self.same("what is older than 60 days goes, and not what is built on", days(), ["2026-11-29", "2026-12-02", "2027-02-07"])
        cron.run("2027-02-08 01:00")
        cron.run("2027-02-08 02:00")
        mail = cron.run("2027-02-08 09:00")
        self.same("the whole first week goes", days(), ["2027-02-07", "2027-02-08"], mail)
        got = rdump("ls", *(str(SHELF / it) for it in shelf()), "--dumpdates", str(CLIENT / "dumpdates"), "--catalog", str(CLIENT / "catalog"))
        self.same("each entry has its volumes", got.status, DONE, got)
        # The reel of level 0 is gone: nothing goes, though a dump comes in the place of the old level 1.
        empty(SHELF / "2027-02-07-%2Fusr")
        for when in ("2027-06-01 01:00", "2027-06-01 02:00"):
            cron.run(when)
        mail = cron.run("2027-06-01 09:00")
        found = ("no volume" in mail.text, "no dump came" in mail.text, "nothing is removed" in mail.text, "2027-02-08" in days())
        self.same("nothing goes where a volume is missing", found, (True, False, True, True), mail, shelf())

    def restored(self, tree: Path) -> None:
        """The tree that was dumped comes back from the reels of level 0 and those of the last level 1."""
        wanted = {"monday": (tree / "monday").read_bytes(), "tuesday": (tree / "tuesday").read_bytes()}
        back = Path("/mnt/back")
        back.mkdir()
        for level in "01":
            # The next level's base is the last dump of this one.
            date = rdump("dates", "--file", str(TAKEN / "usr"), "--name", "/usr", "--level", str(int(level) + 1)).output.strip()
            words = ("--fs", "/usr", "--level", level, "--date", date, *(str(SHELF / it) for it in shelf()))
            payload = cat_with("--catalog", str(TAKEN / "usr.catalog"), *words)
            self.same(f"level {level} comes back", (payload.told, payload.status), (b"", DONE))
            subprocess.run(("tar", "-x", "-C", str(back), "-f", "-"), input=payload.output, check=True, stderr=subprocess.DEVNULL)
        for name, data in wanted.items():
            file = back / "share/night" / name
            self.same(f"{name} is back", file.read_bytes() if file.exists() else None, data)

    def keys(self) -> None:
        port = ssh("-W", "127.0.0.1:22", "rmtd@tapehost")
        self.same("-W to a port", (port.status, "prohibited" in port.told), (255, True), port)
        self.takes()
        self.forwards()
        stop("rmtd")
        os.unlink(LISTENER)
        for title, way in (
            ("the socket of the listener", f"{LISTENER}:127.0.0.1:22"),
            ("a port", "127.0.0.1:4799:127.0.0.1:22"),
            ("a path in a stack", "/srv/tape/st0/socket:127.0.0.1:22"),
        ):
            told, status = taken_back(way)
            self.same(f"-R of {title}", (status, b"failed" in told), (255, True), told)
        self.same("no socket in the stack", Path("/srv/tape/st0/socket").exists(), False)
        self.same("no socket of the listener", Path(LISTENER).exists(), False)

    def takes(self) -> None:
        """The command of the key takes entries, and the catalog after them. What is anything else changes nothing."""
        entry = b"/usr                             0 Tue Feb 29 00:00:00 2000\n"
        dump = b"/usr level 0 date 951782400 since 0"
        begun = b"begun     %s: 8192 bytes\n" % dump
        volume = b"%s  %s volume 1 first 0, 8 blocks of 1024 bytes, 9292 bytes\n" % (b"0" * 64, dump)
        finished = b"finished  %s: 1 volumes, 8 blocks of 1024 bytes, 8192 bytes\n" % dump
        catalog = begun + volume + finished
        for title, sent, taken in (
            ("entries and a catalog", entry + catalog, (entry, catalog)),
            ("entries alone: the catalog stays", entry, (entry, catalog)),
            ("a longer catalog", entry * 2 + catalog + begun, (entry * 2, catalog + begun)),
            ("a catalog before the entries", catalog + entry, (entry, catalog)),
            ("the last line has no end", entry + catalog[:-1], (entry, catalog)),
            ("a zero byte after them", entry + catalog + b"\0", None),
            ("zero bytes", bytes(1000), None),
            ("nothing", b"", None),
            ("a catalog alone", catalog, None),
            ("a bad line", entry + b"hello\n", None),
            ("a part of a catalog's line", entry + catalog[:-3], None),
            ("a bad line among the catalog's", entry + begun + b"hello bytes\n" + volume, None),
            ("a bad line among them", entry + begun + b"hello\n" + volume, None),
        ):
            before = held(TAKEN)
            got = subprocess.run(
                ("ssh", "-o", "BatchMode=yes", "-T", "rmtd@tapehost"),
                input=sent,
                capture_output=True,
                env={**os.environ, "HOME": machines.HOME},
                timeout=GUARD_SECONDS,
                check=False,
            )
            wanted = {"usr": taken[0], "usr.catalog": taken[1]} if taken else before
            self.same(f"{title}: what is taken", (got.returncode == 0, held(TAKEN)), (taken is not None, wanted), got)

    def forwards(self) -> None:
        """A way to the listener is had, and one to another socket is not."""
        ways = {"/run/rdump/way": LISTENER, "/run/rdump/other": "/run/rmtd/other"}
        forwards = [word for here, there in ways.items() for word in ("-L", f"{here}:{there}")]
        with socket.socket(socket.AF_UNIX) as other:
            other.bind("/run/rmtd/other")
            os.chmod("/run/rmtd/other", 0o777)
            other.listen()
            tunnel = subprocess.Popen(("ssh", "-N", "-o", "ExitOnForwardFailure=yes", *forwards, "rmtd@tapehost"), stderr=subprocess.DEVNULL)
            wait_for("/run/rdump/other")
            answer, refused = (rdump("mt", "--to", f"unix:{it}", "--device", "/dev/st1", "nop", "1") for it in ways)
            tunnel.kill()
            tunnel.wait()
        self.holds("-L to the listener", answer.output.startswith(("A1", "E6")), answer)
        self.same("-L to another socket", (refused.status, refused.output), (ABNORMAL, ""), refused)

    def syslog(self) -> None:
        own_devices()
        log, reel = Path("/srv/tape/log"), Path("/srv/tape/st0/locked")
        empty(STACK)
        reel.touch()
        shutil.chown(reel, "rmtd", "rmtd")
        refused = b"E5\nInput/output error\n"
        with reel.open() as held:
            fcntl.flock(held, fcntl.LOCK_EX)
            self.same("without syslog: the client", connection(b"O/dev/st0\n0\n"), (0, refused))
            self.holds("without syslog: the file", "rmtd: /dev/st0: open refused: " in log.read_text(), log.read_text())
            log.write_text("")
            heard: list[bytes] = []
            with socket.socket(socket.AF_UNIX, socket.SOCK_DGRAM) as server:
                server.bind("/dev/log")
                os.chmod("/dev/log", 0o666)
                server.settimeout(GUARD_SECONDS)
                for sent, status in ((b"O/dev/st0\n0\n", 0), (b"O/dev/st0\n0\nO/dev", 2), (b"O/dev/st0\n0\nGET /\r\n", 3)):
                    self.same(f"with syslog: the client, {sent!r}", connection(sent), (status, refused))
                    with suppress(TimeoutError):
                        heard.append(server.recv(4096))
        form = re.compile(rb"<28>.* tapes\[\d+\]: (\S+Z )?rmtd: /dev/st0: open refused: /srv/tape/st0/locked: lock: another has the lock")
        self.same("with syslog: its lines", [bool(form.match(it)) for it in heard], [True] * 3, heard)
        left = (log.read_text(), list(Path("/tmp").iterdir()))
        self.same("with syslog: nothing in the file, and no folder stays", left, ("", []))


def taken_back(way: str) -> tuple[bytes, int | None]:
    """What ssh tells that asks for a way back, and its status, None where it was granted."""
    process = subprocess.Popen(("ssh", "-N", "-o", "ExitOnForwardFailure=yes", "-R", way, "rmtd@tapehost"), stderr=subprocess.PIPE)
    try:
        return process.communicate(timeout=GUARD_SECONDS)[1], process.returncode
    except subprocess.TimeoutExpired:
        process.kill()
        process.communicate()
        return b"it was taken", None


def own_devices() -> None:
    """Gives this machine a /dev of its own, with few devices and no syslog."""
    own = Path("/mnt/dev")
    own.mkdir()
    for it in ("null", "zero", "full", "random", "urandom", "tty"):
        (own / it).touch()
        machines.mount("--bind", f"/dev/{it}", str(own / it))
    (own / "fd").symlink_to("/proc/self/fd")
    machines.mount("--rbind", str(own), "/dev")
