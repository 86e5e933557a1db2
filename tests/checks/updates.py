"""Checks from outside how the built `rdump` enters dumps in a dumpdates file: many at once, killed ones, links, locks, and a full disk.

A plain tape server takes every dump. It can hold back the replies to the move offline until so many dumps wait for theirs, so that these enter what
they dumped at the same moment. The order of the system's calls is looked at with strace, if it is installed.
"""

from __future__ import annotations

import fcntl
import os
import random
import re
import stat
import subprocess
import tempfile
import threading
import time
from contextlib import contextmanager
from pathlib import Path
from typing import Iterator

from tests.lib.case import Case, random_seed
from tests.lib.connections import NOWHERE
from tests.lib.dumping import IN_LITTLE_ROOM, ROOM, end_of
from tests.lib.ended import ABNORMAL, DONE, FAILED, Ended
from tests.lib.places import built
from tests.lib.played_servers import Granting
from tests.lib.traced import in_order, made_in, traced
from tests.lib.waiting import GUARD_SECONDS

DATE = 951_782_400
CTIME = "Tue Feb 29 00:00:00 2000"
NOT_UPDATED = "dumpdates not updated\n"

PAIRS = 40
ROUNDS = 3
KILLS = 40
# So many dumps at once.
AT_ONCE = 20
EIGHT = 8
# How long `rdump` waits for a lock, and in how long it has to be done with that on a busy machine.
WAITS_SECONDS = 10
HELD_SECONDS = 30
# Within so many seconds after its reel was moved, one of two dumps is killed.
KILLED_WITHIN = 0.012
LATE = "its .new was locked for ten seconds"
NO_PLAIN_FILE = "rdump: dumpdates: its .new is no plain file\n"
CALLS = "openat,open,flock,read,write,fsync,fdatasync,rename,renameat,renameat2,unlink,unlinkat"


def entry(fs: str) -> str:
    """The line of a dump."""
    return f"{fs:<32} 0 {CTIME}\n"


OLD = entry("/old")


class Updates(Case):
    """Dumps of one block to a server that takes every dump. Each is to be entered in a dumpdates file of the test's folder."""

    def setUp(self) -> None:
        self.folder = Path(self.enterContext(tempfile.TemporaryDirectory(prefix="rdump-updates-")))
        self.folder.joinpath("payload").write_bytes(b"x")
        self.server = self.enterContext(Granting())
        self.new = self.folder / "dumpdates.new"

    def start(self, fs: str, dumpdates: str = "dumpdates", before: tuple[str, ...] = (), address: str | None = None) -> subprocess.Popen[bytes]:
        """Starts the dump of a file system that is to be entered, by another program if one is named before it."""
        to = ("--to", address or self.server.address, "--device", "d")
        what = ("--fs", fs, "--level", "0", "--payload", "payload", "--block", "1024", "--date", str(DATE))
        return subprocess.Popen(
            (*before, built("rdump"), "dump", *to, *what, "--dumpdates", dumpdates, "--update"),
            cwd=self.folder,
            stdin=subprocess.DEVNULL,
            stdout=subprocess.PIPE,
            stderr=subprocess.PIPE,
            # A write past the limit is to fail, and not to end the program.
            restore_signals=False,
        )

    def dump(self, fs: str, dumpdates: str = "dumpdates", before: tuple[str, ...] = (), address: str | None = None) -> Ended[str]:
        """Dumps a file system, and enters it."""
        return end_of(self, self.start(fs, dumpdates, before, address))

    def at_once(self, names: list[str]) -> list[Ended[str]]:
        """Dumps these, whose reels are moved at the same moment."""
        self.server.gate = threading.Barrier(len(names))
        runs = [self.start(it) for it in names]
        return [end_of(self, it) for it in runs]

    def text(self, name: str = "dumpdates") -> str | None:
        """What a file holds, None if there is none."""
        path = self.folder / name
        return path.read_text() if path.is_file() else None

    def put(self, text: str, name: str = "dumpdates") -> Path:
        """Makes a file of this text."""
        path = self.folder / name
        path.parent.mkdir(exist_ok=True)
        path.write_text(text)
        return path

    def left(self) -> list[str]:
        """The locks and the new files that lie about."""
        return [str(it.relative_to(self.folder)) for it in self.folder.rglob("*.new*")]

    def entered(self, title: str, got: Ended[str]) -> None:
        """The dump ended well, and tells of nothing."""
        self.same(title, got, Ended("volume 1: 1 blocks from 0\ndump complete: 1 volumes, 1 blocks\n", "", DONE))

    def not_entered(self, title: str, got: Ended[str], *reasons: str) -> None:
        """The dump is complete and not entered, and the reason is told; at the start too, if it was so then."""
        untold = [it for it in reasons if it not in got.told]
        is_right = got.output.endswith("1 blocks\n" + NOT_UPDATED) and got.told.count("\n") in (1, 2)
        self.same(title, (got.status, is_right, untold), (ABNORMAL, True, []), got)

    def texts_are(self, title: str, text: str) -> None:
        """The dumpdates file holds this, and no new file lies about."""
        self.same(f"{title}: the texts", (self.text(), self.left()), (text, []))

    # Several dumps.

    def enter_at_once(self, count: int, rounds: int, old: str | None = OLD) -> None:
        """So many dumps at once, so often: each is entered. Before each round the file has this text, or is not there."""
        lost = []
        for number in range(rounds):
            self.folder.joinpath("dumpdates").unlink(missing_ok=True)
            if old is not None:
                self.put(old)
            names, began = [f"/fs{number}/{it}" for it in range(count)], time.monotonic()
            ends = dict(zip(names, self.at_once(names)))
            # If the disk is slow the last of many have waited for too long.
            late = [it for it in names if ends[it].status != DONE]
            wanted = sorted([*([old] if old else []), *(entry(it) for it in names if it not in late)])
            lines = (self.text() or "").splitlines(keepends=True)
            if sorted(lines) != wanted or len(late) > count // 2:
                lost.append((lines, late))
            for it in late:
                self.not_entered(f"{it} is late", ends[it], f"rdump: dumpdates: {LATE}\n")
                self.holds(f"{it} is late: it has waited", time.monotonic() - began >= WAITS_SECONDS)
        self.same(f"{count} dumps at once are entered, in each of {rounds} rounds", lost, [])
        self.same(f"{count} dumps at once leave nothing", self.left(), [])

    def test_pairs_at_once(self) -> None:
        self.enter_at_once(2, PAIRS)

    def test_many_at_once(self) -> None:
        self.enter_at_once(AT_ONCE, ROUNDS)

    def test_many_at_once_that_make_the_file(self) -> None:
        self.enter_at_once(EIGHT, ROUNDS, None)

    @contextmanager
    def watched(self, seen: set[str | None]) -> Iterator[None]:
        """Notes each text that the file has meanwhile."""
        stop = threading.Event()

        def watch() -> None:
            while not stop.is_set():
                seen.add(self.text())
                time.sleep(0.0005)

        watcher = threading.Thread(target=watch)
        watcher.start()
        try:
            yield
        finally:
            stop.set()
            watcher.join()

    def test_one_of_two_is_killed(self) -> None:
        """The file is always whole, and the other one is entered."""
        seed = random_seed(35)
        draw = random.Random(seed)
        one, other = entry("/one"), entry("/other")
        whole = {OLD + it for it in ("", one, other, one + other, other + one)}
        wrong: list[object] = []
        for _ in range(KILLS):
            self.put(OLD)
            seen: set[str | None] = set()
            self.server.gate = threading.Barrier(3)
            with self.watched(seen):
                runs = self.start("/one"), self.start("/other")
                self.server.gate.wait(GUARD_SECONDS)
                time.sleep(draw.random() * KILLED_WITHIN)
                runs[0].kill()
                ends = [end_of(self, it) for it in runs]
            text = self.text() or ""
            if not seen | {text} <= whole or ends[1].status != DONE or other not in text or (ends[0].status == DONE and one not in text):
                wrong.append((seen, text, ends))
        self.same(f"one of two that is killed, in each of {KILLS} rounds", wrong, [], f"seed {seed}")
        self.server.gate = threading.Barrier(1)
        self.entered("a dump after those that were killed", self.dump("/other"))
        left = [it for it in self.left() if not re.fullmatch(r"dumpdates\.new\.\d+", it)]
        self.same("those that were killed leave no lock then", left, [], self.left())

    # The lock.

    def test_a_lock_that_is_held_for_too_long(self) -> None:
        """Another process holds the lock, and the dump waits for ten seconds."""
        title = "a lock that is held for too long"
        self.put(OLD)
        with self.put("", "dumpdates.new").open("r+") as other:
            fcntl.flock(other, fcntl.LOCK_EX)
            began = time.monotonic()
            got = end_of(self, self.start("/late"))
            took = time.monotonic() - began
            self.not_entered(title, got, f"rdump: dumpdates: {LATE}\n")
            self.holds(f"{title}: how long it waits", WAITS_SECONDS <= took < HELD_SECONDS, took)
            self.same(f"{title}: nothing changed", (self.text(), self.text("dumpdates.new")), (OLD, ""))

    def test_a_lock_that_is_held_for_a_while(self) -> None:
        """Another process holds the lock for two seconds, and the dump waits for that."""
        title = "a lock that is held for a while"
        self.put(OLD)
        with self.put("", "dumpdates.new").open("r+") as other:
            fcntl.flock(other, fcntl.LOCK_EX)
            run = self.start("/late")
            time.sleep(2)
            fcntl.flock(other, fcntl.LOCK_UN)
            self.entered(title, end_of(self, run))
        self.texts_are(title, OLD + entry("/late"))

    def test_a_lock_that_was_left(self) -> None:
        self.put(OLD)
        self.put("", "dumpdates.new").chmod(0o400)
        self.entered("a lock that was left", self.dump("/left"))
        self.texts_are("a lock that was left", OLD + entry("/left"))

    def test_a_lock_that_is_a_link(self) -> None:
        """A link where the lock is to be made is not followed."""
        victim = self.put("not ours", "victim")
        for title, target in (("a file", "victim"), ("nothing", "nowhere")):
            self.put(OLD)
            self.new.symlink_to(target)
            self.not_entered(f"a lock that is a link to {title}", self.dump("/linked"), NO_PLAIN_FILE)
            self.same(f"a lock that is a link to {title}: nothing is changed", (self.text(), self.new.is_symlink()), (OLD, True))
            came = victim.read_text(), self.text("nowhere")
            self.same(f"a lock that is a link to {title}: not followed", came, ("not ours", None))
            self.new.unlink(missing_ok=True)

    def test_a_new_file_of_an_operator(self) -> None:
        """A file that rdump did not leave stays, and the dump does not start."""
        self.put(OLD)
        self.put("an operator's own", "dumpdates.new")
        got = self.dump("/refused")
        self.same("an operator's own file", got, Ended("", "rdump: dumpdates.new: it is not one that rdump left: it is not touched\n", FAILED))
        self.same("an operator's own file: it stays", (self.text("dumpdates.new"), self.text()), ("an operator's own", OLD))

    def test_a_dump_that_is_abandoned(self) -> None:
        """It leaves the file as it was, and a text that a killed run left."""
        self.put(OLD)
        self.put("", "dumpdates.new")
        self.put(entry("/killed")[:-5], "dumpdates.new.1")
        got = self.dump("/abandoned", address=NOWHERE)
        self.same("a dump that is abandoned", (got.status, got.output.endswith("dump abandoned\n")), (ABNORMAL, True), got)
        self.same("a dump that is abandoned: what stays", (self.text(), self.left()), (OLD, ["dumpdates.new.1"]))

    def test_a_lock_that_is_a_folder(self) -> None:
        self.put(OLD)
        self.new.mkdir()
        self.not_entered("a lock that is a folder", self.dump("/folder"), NO_PLAIN_FILE)
        self.same("a lock that is a folder: nothing is changed", self.text(), OLD)

    # The file.

    def test_links(self) -> None:
        """A file that is a link: what it leads to is replaced, in its own folder."""
        here, there = self.folder / "dumpdates", self.folder / "other/dates"
        rows = (
            ("to another folder", "other/dates", OLD),
            ("by a whole path", str(there), OLD),
            ("to a link", "other/link", OLD),
            ("to nothing", "other/dates", None),
        )
        for title, target, old in rows:
            here.unlink(missing_ok=True)
            self.put(old or "", "other/dates")
            self.folder.joinpath("other/link").unlink(missing_ok=True)
            self.folder.joinpath("other/link").symlink_to("dates")
            if old is None:
                there.unlink()
            here.symlink_to(target)
            self.entered(f"a link {title}", self.dump("/linked"))
            self.same(f"a link {title}: it stays", os.readlink(here) if here.is_symlink() else None, target)
            self.same(f"a link {title}: the text", self.text("other/dates"), (old or "") + entry("/linked"))
            self.same(f"a link {title}: nothing is left", self.left(), [])

    def test_mode_and_owner_stay(self) -> None:
        path = self.put(OLD)
        if os.geteuid() == 0:
            os.chown(path, 1234, 4321)
        for mode in (0o640, 0o600, 0o664):
            path.chmod(mode)
            was = path.stat()
            self.entered(f"the mode {mode:o}", self.dump("/rights"))
            now = path.stat()
            self.same(f"the mode {mode:o} stays", oct(stat.S_IMODE(now.st_mode)), oct(mode))
            self.same(f"the mode {mode:o}: the owner stays", (now.st_uid, now.st_gid), (was.st_uid, was.st_gid))
            self.holds(f"the mode {mode:o}: another file", now.st_ino != was.st_ino, now)

    def test_no_room(self) -> None:
        """The text cannot be written: the file is as it was, and nothing is left."""
        long = "".join(entry(f"/fs/{it}") for it in range(2 * ROOM // 60))
        self.put(long)
        self.not_entered("no room", self.dump("/full", before=IN_LITTLE_ROOM), "dumpdates", "File too large")
        self.texts_are("no room", long)

    def test_a_file_that_became_a_bad_one(self) -> None:
        def spoil() -> None:
            self.put("no entry\n")

        self.put(OLD)
        self.server.gate = threading.Barrier(1, spoil)
        self.not_entered("a file that became a bad one", self.dump("/bad"), "rdump: dumpdates: it is no dumpdates file\n")
        self.texts_are("a file that became a bad one", "no entry\n")

    def test_no_folder(self) -> None:
        missing = self.dump("/missing", dumpdates="nowhere/dumpdates")
        self.not_entered("no folder", missing, "nowhere/dumpdates", "its .new: No such file")

    def test_order_of_the_calls(self) -> None:
        """The lock, the reading, the text, its sync, the rename, the end of the lock, and the folder's sync."""
        strace = traced(self, CALLS)
        if not strace:
            return
        self.put(OLD)
        self.entered("under strace", self.dump("/traced", before=strace))
        folder = re.escape(str(self.folder.resolve()))
        wanted = (
            ("the lock is made", "open", r'"dumpdates\.new", .*O_CREAT\|O_EXCL'),
            ("it is locked", "flock", rf"<{folder}/dumpdates\.new>, LOCK_EX"),
            ("the file is read", "read", rf"<{folder}/dumpdates>, .*/old"),
            ("the new file is made", "open", r'"dumpdates\.new\.1", .*O_CREAT\|O_EXCL'),
            ("the text is written", "write", rf"<{folder}/dumpdates\.new\.1>, .*/traced"),
            ("it is synced", "fsync", rf"<{folder}/dumpdates\.new\.1>"),
            ("it is renamed", "rename", r'"dumpdates\.new\.1".*"dumpdates"'),
            ("the lock is removed", "unlink", r'"dumpdates\.new"'),
            ("the folder is synced", "fsync", rf"<{folder}>"),
        )
        in_order(self, made_in(self.folder), wanted)
