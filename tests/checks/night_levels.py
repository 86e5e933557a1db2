"""Checks that the levels of `etc/night` leave nothing out: trees that change between the levels are restored as docs/OPERATING.md says, and compared.

The script is killed at each of its commands, alone or with all that it started, as a power loss does. The clock is a `date` that comes first in
PATH. It moves the dates of dumps, and not those of files. What comes with an old time is made by dpkg(1), mv(1) and cp(1). Attributes and mounts
take root.
"""

from __future__ import annotations

import os
import random
import re
import shutil
import signal
import stat
import subprocess
import time
from calendar import timegm
from contextlib import contextmanager
from pathlib import Path
from typing import Iterator, NamedTuple

from tests.checks.night import NightCase, run
from tests.lib import machines
from tests.lib.case import random_seed
from tests.lib.cats import cat_with
from tests.lib.connections import NOWHERE, text_of
from tests.lib.ended import DONE, Ended
from tests.lib.given import given
from tests.lib.nights import NIGHT, set_clock
from tests.lib.places import built
from tests.lib.recipes import MORE, OPERATING
from tests.lib.servers import Server, serving
from tests.lib.waiting import GUARD_SECONDS
from tests.lib.wire import device

# How docs/OPERATING.md unpacks a payload of tar.
UNPACKS = "tar -x --listed-incremental=/dev/null --one-file-system --xattrs --xattrs-include='*' --acls --numeric-owner"
OLD = (1000000000, 1000000000)
SECOND = 0.02
TREES = 5
# The status of restore(8) where files differ, as their flags do on another kind of file system.
MODIFIED = 2
# Files whose last bytes are a hole.
HOLES = "for k in 1 2 3 4 5; do for t in 1 500 1023 1025; do seq 9999 | head -c $((k * 1024)) > hole.$k.$t; truncate -s +$t hole.$k.$t; done; done"
STEPS = (1, 2, 3, 5, 15)
# So many of the commands above a night calls at level 0 and at level 1.
CALLS = (16, 16)

# It does what the program of its name does, and at the call of a number kills the script, or all that the script started.
KILLS = """#!/bin/sh
n=$(cat {count})
echo $((n + 1)) > {count}
test "$n" -ne {at} || {kill}
PATH={path} {name} "$@"
status=$?
test "$n" -ne {at} || {kill_after}
exit $status
"""
KILLED = ("date", "stat", "flock", "rdump", "sed", "tar", "sync", "mv", "cp", "rm", "grep")


class Facts(NamedTuple):
    """What is compared of a file."""

    mode: int
    owner: tuple[int, int]
    data: str
    attributes: dict[str, bytes]


def facts_of(tree: Path) -> dict[str, Facts]:
    """All files of a tree by their paths. The time of a folder is not compared."""
    found = {}
    for it in (tree, *sorted(tree.rglob("*"))):
        its = it.lstat()
        data = f"{its.st_mtime_ns}" if stat.S_ISREG(its.st_mode) else ""
        if stat.S_ISLNK(its.st_mode):
            data = os.readlink(it)
        elif stat.S_ISREG(its.st_mode) and its.st_blocks:
            data += f" {it.read_bytes()!r}"
        names = os.listxattr(it, follow_symlinks=False)
        attributes = {name: os.getxattr(it, name, follow_symlinks=False) for name in names}
        found[str(it.relative_to(tree))] = Facts(its.st_mode, (its.st_uid, its.st_gid), data, attributes)
    return found


class TreeCase(NightCase):
    """Tests that restore what the script dumped."""

    def setUp(self) -> None:
        super().setUp()
        (self.tree / "file").unlink()
        self.reels = 0
        self.server: Server = self.enterContext(serving())

    def at(self, day: int) -> None:
        """Moves the clock to a night."""
        set_clock(self.folder / "now", f"2026-12-{day:02} 02:00")

    def night(self, day: int, level: int, *words: str) -> Ended[str]:
        """A night at a level, with a reel for each dump, and with other words where there are any."""
        self.at(day)
        for _ in range(3):
            self.reels += 1
            self.server.reel(f"r{self.reels:03}")
        # A file that changes from now on has another time than those before.
        time.sleep(SECOND)
        words = (NIGHT, str(level), "/usr", *(words or (str(self.tree), str(self.place))))
        got = run(self.folder, *words, TO=text_of(self.server.address), DEVICE=device(0), PATH=self.path(), TIMES="1", PAUSE="0")
        time.sleep(SECOND)
        return got

    def path(self) -> str:
        return f"{self.programs}:{os.environ['PATH']}"

    def done(self, title: str, day: int, level: int, *words: str) -> Ended[str]:
        """A night that dumps."""
        got = self.night(day, level, *words)
        self.same(title, (got.status, self.left()), (DONE, []), got)
        return got

    def payload(self, level: int) -> Path:
        """The payload of the last dump of a level that is entered, as its reel has it."""
        words = ("--file", str(self.place / "dumpdates"), "--name", "/usr", "--level", str(level + 1))
        date = run(self.folder, built("rdump"), "dates", *words).output.strip()
        got = cat_with("--catalog", str(self.place / "catalog"), "--level", str(level), "--date", date, str(self.server.bin))
        self.same(f"level {level} comes back", (got.told, got.status), (b"", DONE))
        out = self.folder / f"back.{level}"
        out.write_bytes(got.output)
        return out

    def restored(self, title: str, *levels: int) -> None:
        """The tree comes back from the last dumps of these levels."""
        back = self.folder / "back"
        back.mkdir()
        (self.folder / "bare").write_text(of_document("bare"))
        for it in levels:
            if it:
                self.same(f"{title}: before level {it}", run(self.folder, "sh", "bare", "back"), Ended("", "", DONE))
            got = run(self.folder, "sh", "-c", f"{UNPACKS} -f {self.payload(it)} -C {back}")
            self.same(f"{title}: level {it} is unpacked", (got.status, got.told), (DONE, ""))
        wanted, came = facts_of(self.tree), facts_of(back)
        differ = {it: (wanted.get(it), came.get(it)) for it in wanted.keys() | came.keys() if wanted.get(it) != came.get(it)}
        self.same(f"{title}: the tree that came back", differ, {})
        shutil.rmtree(back)

    def stops(self, title: str, got: Ended[str], *facts: str) -> None:
        """Nothing is dumped, and the last line says why."""
        before = len([*self.server.bin.iterdir()])
        told = {it: it in got.told.splitlines()[-1] for it in ("night: ", *facts)} if got.told else {}
        wanted = dict.fromkeys(("night: ", *facts), True)
        self.same(title, (got.status, told, self.left(), len([*self.server.bin.iterdir()])), (1, wanted, [], before), got)

    def night_that_is_killed(self, day: int, level: int) -> int:
        """A night whose status is its signal."""
        self.at(day)
        variables = {**os.environ, "TO": text_of(self.server.address), "DEVICE": device(0), "PATH": self.path(), "TIMES": "1", "PAUSE": "0"}
        words = ("sh", "-c", 'GROUP=$$ exec "$@"', "sh", NIGHT, str(level), "/usr", str(self.tree), str(self.place))
        quiet = subprocess.DEVNULL
        return subprocess.run(words, env=variables, stdin=quiet, stdout=quiet, stderr=quiet, start_new_session=True, check=False).returncode

    def anew(self) -> None:
        """Takes away all that was dumped, and what the script keeps. Other dumps have the same dates."""
        for it in (it for folder in (self.place, self.server.bin, self.server.stacks[0]) for it in folder.iterdir()):
            it.unlink()

    def free(self) -> None:
        """Waits until nothing has the folder's lock."""
        subprocess.run(("flock", str(self.place / "lock"), "true"), timeout=GUARD_SECONDS, check=True)


class Levels(TreeCase):
    """What changes between levels."""

    def files(self, *names: str) -> None:
        """Makes old files, and leaves them as they are from now on."""
        for it in names:
            path = self.tree / it
            path.parent.mkdir(parents=True, exist_ok=True)
            path.write_text(f"{it}\n")
            os.utime(path, OLD)

    def test_old_times(self) -> None:
        """Files that come with an old time are in the next dump: of a package, moved, copied and unpacked ones."""
        self.files("share/kept", "share/over", "share/moved")
        self.done("level 0", 1, 0)
        package, outside = self.folder / "package", self.folder / "outside"
        for it, name in ((package, "share/doc/notice"), (outside, "old")):
            (it / name).parent.mkdir(parents=True, exist_ok=True)
            (it / name).write_text("came with an old time\n")
            os.utime(it / name, OLD)
        (package / "DEBIAN").mkdir()
        (package / "DEBIAN/control").write_text("Package: small\nVersion: 1\nArchitecture: all\nMaintainer: none\nDescription: none\n")
        run(self.folder, "dpkg-deb", "--root-owner-group", "--build", "package", "small.deb")
        if machines.is_there("dpkg"):
            self.same("dpkg unpacks", run(self.folder, "dpkg", "-x", "small.deb", str(self.tree)).status, DONE)
        self.done("level 1", 2, 1)
        self.restored("a package", 0, 1)
        subprocess.run(("cp", "-p", outside / "old", self.tree / "share/over"), check=True)
        (outside / "old").rename(self.tree / "old")
        (self.tree / "share/moved").rename(self.tree / "moved")
        subprocess.run(f"tar -c -C {package} share | tar -x -C {self.tree}/share", shell=True, check=True)
        self.done("level 2", 3, 2)
        self.restored("moved and copied files", 0, 1, 2)

    def test_folders(self) -> None:
        """Folders that are renamed, exchanged, moved and removed, and files in the place of folders."""
        for title, commands in (
            ("renamed", "mv a n"),
            ("removed", "rm -r a"),
            ("in the place of a removed one", "rm -r a; mv b a"),
            ("three rotate", "mv a t; mv b a; mv c b; mv t c"),
            ("two are exchanged", "mv a t; mv b a; mv t b"),
            ("a parent goes into its child", "mv a/sub s; mv a s/"),
            ("a folder in the place of a file", "rm a/file; mv b a/file"),
            ("a file in the place of a folder", "mv a n; mv b/file a"),
            ("an old folder comes", "mv ../outside a/"),
        ):
            shutil.rmtree(self.tree)
            self.files("a/file", "a/sub/of a", "b/file", "b/sub/of b", "c/file", "c/sub/of c", "../outside/sub/old")
            self.done(f"{title}: level 0", 1, 0)
            subprocess.run(commands, shell=True, cwd=self.tree, check=True)
            self.done(f"{title}: level 1", 2, 1)
            self.restored(title, 0, 1)
            shutil.rmtree(self.folder / "outside", ignore_errors=True)
            self.anew()

    def test_random_trees(self) -> None:
        """Trees that change at random are restored from three levels."""
        seed = random_seed(11)
        for number in range(TREES):
            changes = Changes(self.tree, random.Random(seed + number))
            changes.some(40)
            for level in (0, 1, 2):
                self.done(f"seed {seed + number}: level {level}", level + 1, level)
                if level < 2:
                    changes.some(changes.random.choice(STEPS))
            self.restored(f"seed {seed + number}", 0, 1, 2)
            self.anew()

    def test_attributes(self) -> None:
        """Capabilities, access lists, other attributes, owners and holes come back from each level."""
        if os.geteuid() != 0 or not all(map(machines.is_there, ("setcap", "setfacl", "setfattr"))):
            self.skipTest("root, setcap, setfacl and setfattr cannot be used on this machine")
        self.files("first", "second", "third", "folder/in it")
        os.truncate(self.tree / "third", 100 << 20)
        for level, name in enumerate(("first", "second", "folder/in it")):
            os.chown(self.tree / name, 12345, 54321)
            for words in (
                ("setcap", "cap_net_raw+ep", name),
                ("setfacl", "-m", "u:12345:r,g:54321:rw", name),
                ("setfacl", "-d", "-m", "u:12345:rx", "folder"),
                ("setfattr", "-n", "user.level", "-v", str(level), name),
                ("setfattr", "-n", "trusted.level", "-v", str(level), name),
            ):
                self.same(f"{words}", run(self.tree, *words).status, DONE)
            self.done(f"level {level}", level + 1, level)
        self.holds("they are there", len(facts_of(self.tree)["first"].attributes) == 4, facts_of(self.tree)["first"])
        self.restored("attributes", 0, 1, 2)
        self.removed_attributes()
        self.same("a hole stays one", (self.folder / "back.0").stat().st_size < 2 << 20, True)

    def removed_attributes(self) -> None:
        """Attributes of folders and of a file are removed: they do not come back, and others stay."""
        folders = (".", "folder", "with a 'name\\ ", "\u00e9/-x")
        names = ("user.gone", "trusted.gone", "user.kept", 'user.an odd "$name`')
        for it in folders:
            (self.tree / it).mkdir(parents=True, exist_ok=True)
            for name in names:
                os.setxattr(self.tree / it, name, b"a value")
        self.done("level 0 again", 4, 0)
        run(self.tree, "setfacl", "-b", "folder")
        os.removexattr(self.tree / "first", "user.level")
        for it in folders:
            for name in names:
                if name != "user.kept":
                    os.removexattr(self.tree / it, name)
        self.done("level 1 again", 5, 1)
        shutil.copytree(self.tree / "folder", self.tree / "folder/new", symlinks=True)
        self.done("level 2 again", 6, 2)
        self.restored("removed attributes", 0, 1, 2)

    def test_a_mount(self) -> None:
        """What is mounted in the tree is left out, and the mail says so. A restore over a mount leaves it as it is."""
        mount, back = self.tree / "mounted", self.folder / "back"
        self.files("file")
        for it in (mount, back / "mounted"):
            it.mkdir(parents=True)
        if os.geteuid() != 0 or run(self.folder, "mount", "-t", "tmpfs", "none", str(mount)).status != DONE:
            self.skipTest("root and mount cannot be used on this machine")
        run(self.folder, "mount", "-t", "tmpfs", "none", str(back / "mounted"))
        try:
            (mount / "inside").touch()
            (back / "mounted/another").touch()
            for level in (0, 1, 2):
                got = self.done(f"level {level}", level + 1, level)
                self.holds(f"level {level}: its mail", "./mounted: directory is on a different filesystem; not dumped\n" in got.told, got)
                unpacked = run(self.folder, "sh", "-c", f"{UNPACKS} -f {self.payload(level)} -C {back}")
                self.same(f"level {level} is unpacked", unpacked.status, DONE, unpacked)
            found = sorted(str(it.relative_to(back)) for it in back.rglob("*"))
            self.same("what came, and what stays", found, ["file", "mounted", "mounted/another"])
        finally:
            run(self.folder, "umount", str(mount), str(back / "mounted"))

    def test_documents(self) -> None:
        """The recipes unpack as these tests do."""
        for document in (OPERATING, MORE):
            unpacks = re.findall(r"tar -x .* -C back\b", document.read_text())
            self.holds(f"{document.name} unpacks payloads", len(unpacks) >= 1, unpacks)
            self.same(f"{document.name}: with these words", [it for it in unpacks if not it.startswith(UNPACKS)], [])


class Changes:
    """Changes of a tree at random: few names, so that one comes in the place of another."""

    def __init__(self, tree: Path, generator: random.Random) -> None:
        shutil.rmtree(tree)
        tree.mkdir()
        self.tree, self.random, self.number = tree, generator, 0

    def some(self, count: int) -> None:
        for _ in range(count):
            self.number += 1
            try:
                self.one()
            except OSError:
                # A folder cannot go into itself, nor in the place of one that has files.
                continue

    def one(self) -> None:
        paths = sorted(self.tree.rglob("*"))
        folders = [self.tree, *(it for it in paths if it.is_dir() and not it.is_symlink())]
        files = [it for it in paths if it.is_file() and not it.is_symlink()]
        new, path, file = self.random.choice(folders) / self.random.choice("abcdefgh"), *(
            self.random.choice(it) if it else self.tree / "none" for it in (paths, files)
        )
        change = self.random.choice(("folder", "file", "file", "old", "edit", "move", "move", "move", "remove", "exchange", "link", "symlink"))
        if change == "move":
            path.rename(new)
        elif change == "edit" and file.exists():
            file.write_text(f"{self.number}\n")
        elif change == "remove" and path.exists():
            shutil.rmtree(path) if path in folders else path.unlink()
        elif change == "exchange" and paths:
            self.exchange(path, self.random.choice(paths))
        elif not os.path.lexists(new):
            self.comes(change, new, file)

    def exchange(self, one: Path, other: Path) -> None:
        """Two files or folders change their places, unless one is in the other."""
        between = self.tree.with_name("between")
        if not one.is_relative_to(other) and not other.is_relative_to(one):
            one.rename(between)
            other.rename(one)
            between.rename(other)

    def comes(self, change: str, new: Path, file: Path) -> None:
        """A file of some kind is new."""
        if change == "folder":
            new.mkdir()
        elif change == "link":
            os.link(file, new)
        elif change == "symlink":
            new.symlink_to("nowhere")
        elif change in ("file", "old"):
            new.write_text(f"{self.number}\n")
            if change == "old":
                os.utime(new, OLD)


class Stops(TreeCase):
    """Nights that dump nothing, and say why."""

    def snapshot(self, level: int) -> Path:
        """The snapshot of a level."""
        return next(self.place.glob(f"snapshot.{level}.*"))

    def test_base_is_later_than_now(self) -> None:
        """The clock was ahead at the base, or is behind now."""
        (self.tree / "file").touch()
        self.done("level 0, years ahead", 20, 0)
        self.stops("level 1", self.night(2, 1), "the base, of level 0", "later than now", "dump level 0")
        self.done("level 0 again", 2, 0)
        self.done("level 1, ahead", 20, 1)
        self.stops("level 2", self.night(3, 2), "the base, of level 1", "later than now", "dump level 1")
        self.done("level 1 again", 3, 1)
        (self.tree / "more").touch()
        self.done("level 2 again", 4, 2)
        self.restored("levels", 0, 1, 2)

    def test_no_lower_level(self) -> None:
        (self.tree / "file").touch()
        self.stops("level 1 first", self.night(1, 1), "no dump of a lower level", "dump level 0")
        self.done("level 0", 2, 0)
        self.done("level 2", 3, 2)
        self.restored("level 2 after level 0", 0, 2)
        for it in ("", "x", "10", "-1", "01"):
            self.at(4)
            got = run(self.folder, NIGHT, it, "/usr", str(self.tree), str(self.place), TO=NOWHERE, DEVICE=device(0), PATH=self.path())
            self.stops(f"level {it!r}", got, "not a level")

    def test_snapshots(self) -> None:
        """A snapshot that is not that of the base is not used: one that is missing, or has another level, date or file system."""
        (self.tree / "file").touch()
        self.done("level 0", 1, 0)
        self.done("level 1", 2, 1)
        names = {it.name for it in self.place.glob("snapshot.*")}
        self.same("one a level, for this user alone", [(self.place / it).stat().st_mode & 0o777 for it in names], [0o600] * 2)
        for level in (0, 1):
            kept = self.snapshot(level)
            _, at, date, which = kept.name.split(".")
            for title, name in (
                ("missing", "away"),
                ("another level", f"snapshot.{1 - int(at)}.{date}.{which}"),
                ("another date", f"snapshot.{at}.{int(date) + 1}.{which}"),
                ("another file system", f"snapshot.{at}.{date}.{which}0"),
            ):
                kept.rename(self.place / name)
                self.stops(f"level {level + 1}: {title}", self.night(3, level + 1), f"{kept}, the snapshot", f"dump level {level}")
                (self.place / name).rename(kept)
        (self.tree / "more").touch()
        self.done("level 2", 3, 2)
        self.restored("they are back", 0, 1, 2)
        self.done("another level 0", 4, 0)
        self.same("its snapshot is the only one of its level", len([*self.place.glob("snapshot.0.*")]), 1)
        self.done("another level 1", 5, 1)
        self.restored("they go on", 0, 1)

    def test_one_second(self) -> None:
        """Two dumps of a level in one second would be one dump for the entries and the snapshots."""
        (self.tree / "file").touch()
        self.done("level 0", 1, 0)
        self.stops("level 0 in this second", self.night(1, 0), "this second", "run this again")

    def test_folder(self) -> None:
        """The folder has to be this user's alone."""
        for mode in (0o755, 0o770, 0o1777):
            self.place.chmod(mode)
            self.stops(f"mode {mode:o}", self.night(1, 0), str(self.place), "mode 700")
            self.same(f"mode {mode:o}: it makes nothing", [*self.place.iterdir()], [])
        if os.geteuid() == 0:
            self.place.chmod(0o700)
            os.chown(self.place, 65534, 65534)
            self.stops("another user's", self.night(1, 0), "must belong to this user")

    def test_two_at_once(self) -> None:
        """A second night with this folder ends at once, also if the first one was killed and what it started goes on."""
        (self.tree / "file").touch()
        tar = self.programs / "tar"
        tar.write_text(f"#!/bin/sh\nkill -KILL $PPID\necho > {self.folder}/packs\nexec sleep 1000\n")
        tar.chmod(0o755)
        self.same("the first is killed", self.night_that_is_killed(1, 0), -signal.SIGKILL)
        tar.unlink()
        got = self.night(2, 0)
        self.same("the second", got, Ended("", f"night: another run has {self.place}\n", 1))
        (holder,) = (it for it in Path("/proc").glob("[0-9]*") if has_open(it, self.place / "lock"))
        os.kill(int(holder.name), signal.SIGKILL)
        self.free()
        self.done("once it has ended", 2, 0)


def has_open(process: Path, file: Path) -> bool:
    """Whether a process has a file open."""
    try:
        return any(os.path.realpath(it) == str(file) for it in process.joinpath("fd").iterdir())
    except OSError:
        return False


class Kills(TreeCase):
    """The script is killed at one of its commands, alone or with all that it started, and the nights after that leave nothing out."""

    def test_kills(self) -> None:
        seed = random_seed(3)
        generator = random.Random(seed)
        for level in (0, 1):
            for is_all in (False, True):
                for is_after in (False, True):
                    title = f"seed {seed}: level {level}, {'all' if is_all else 'alone'}, {'after' if is_after else 'before'} call {{}}"
                    at = generator.randrange(CALLS[level])
                    self.is_killed(title.format(at), level, at, is_all, is_after)

    def is_killed(self, title: str, level: int, at: int, is_all: bool, is_after: bool) -> None:
        """The script is killed at this call. The nights after it leave nothing out."""
        self.anew()
        shutil.rmtree(self.tree)
        self.tree.mkdir()
        self.comes("first")
        self.done(f"{title}: the first level 0", 1, 0)
        self.done(f"{title}: the first level 1", 2, 1)
        self.comes("second")
        self.same(f"{title}: its status", self.killed_at(3, level, at, is_all, is_after), -signal.SIGKILL, (self.folder / "count").read_text())
        self.comes("third")
        # A dump that the kill left unfinished comes to its end first.
        self.done(f"{title}: level 1", 4, 1)
        self.restored(f"{title}: level 1", 0, 1)
        self.comes("fourth")
        self.done(f"{title}: level 2", 5, 2)
        self.restored(title, 0, 1, 2)

    def comes(self, name: str) -> None:
        """Files come: one with an old time, and one in a folder of its own. An older one goes."""
        for it in (self.tree / f"{name}.old", self.tree / name / "file"):
            it.parent.mkdir(exist_ok=True)
            it.write_text(f"{name}\n")
            os.utime(it, OLD)
        for it in sorted(self.tree.glob("*.old"))[1:2]:
            it.unlink()

    def killed_at(self, day: int, level: int, at: int, is_all: bool, is_after: bool) -> int:
        """The status of a night that is killed at a call."""
        count, programs = self.folder / "count", self.folder / "killed"
        count.write_text("0\n")
        programs.mkdir(exist_ok=True)
        kill = "kill -KILL -$GROUP" if is_all else "kill -KILL $GROUP"
        for name in KILLED:
            kills = (":", kill) if is_after else (kill, ":")
            text = KILLS.format(count=count, at=at, kill=kills[0], kill_after=kills[1], path=f"'{self.path()}'", name=name)
            (programs / name).write_text(text)
            (programs / name).chmod(0o755)
        self.server.reel(f"killed {day} {level} {at} {is_all} {is_after}")
        path = self.path
        setattr(self, "path", lambda: f"{programs}:{path()}")
        try:
            return self.night_that_is_killed(day, level)
        finally:
            setattr(self, "path", path)
            self.free()


class Commands(TreeCase):
    """Payloads that a command prints."""

    def command(self, text: str) -> tuple[str, ...]:
        """The words of a command for a shell."""
        return (str(self.place), "sh", "-c", text)

    def test_what_it_prints(self) -> None:
        """Its output is the payload. It knows the level, the name and the base date, and keeps what it wants in a file that each level has."""
        shows = 'echo "$LEVEL $NAME $SINCE"; cat "$SNAPSHOT"; echo "$LEVEL" >> "$SNAPSHOT"; pwd; cat'
        base = [seconds(1), seconds(2)]
        for day, (level, since, kept) in enumerate(((0, 0, ""), (1, base[0], "0\n"), (2, base[1], "0\n1\n"), (1, base[0], "0\n")), 1):
            self.done(f"level {level}", day, level, *self.command(shows))
            wanted = f"{level} /usr {since}\n{kept}{self.place}\n".encode()
            self.same(f"level {level}: the payload", self.payload(level).read_bytes(), wanted)
        names = [it.name for it in self.place.glob("snapshot.*")]
        self.same("one snapshot a level", sorted(it.split(".")[1] for it in names), ["0", "1", "2"], names)
        self.stops("the base of tar is none of another command", self.night(5, 1), "the snapshot of the base, is missing")

    def test_what_fails(self) -> None:
        """A command that fails, prints nothing or is not there: nothing is dumped, and it is named."""
        self.stops("it fails", self.night(1, 0, *self.command("echo a part; exit 3")), "sh failed with status 3: nothing is dumped")
        self.stops("it prints nothing", self.night(1, 0, *self.command(":")), "sh printed nothing: nothing is dumped")
        self.stops("it is not there", self.night(1, 0, str(self.place), "none"), "none: no such folder or command")
        self.stops("it is killed", self.night(1, 0, *self.command("kill -KILL $$")), "sh failed with status 137")
        for it in ("fail", "dump_payload", "base_date"):
            self.stops(f"{it} is no command", self.night(1, 0, str(self.place), it), f"{it} failed with status 127")
        self.stops("a folder that is not there", self.night(1, 0, str(self.tree), str(self.folder / "none")), "none: no such folder or command")
        got = self.night(1, 0, str(self.tree), str(self.place), "more")
        self.stops("a word too many", got, f"{self.tree} must belong to this user and have mode 700")
        self.same("nothing is made in the tree", [*self.tree.iterdir()], [])

    def test_dump_of_a_file_system(self) -> None:
        """dump(8) of a file system at three levels by the command of docs/OPERATING.md, which restore(8) brings back and compares."""
        mounted, back = self.file_system(words_of_mke2fs())
        with self.disk() as disk:
            changes = (f"seq 9 > kept; seq 5 > removed; {HOLES}", "rm removed; mkdir new; seq 7 > new/file", "mv new old; seq 3 > kept")
            for level, change in enumerate(changes):
                self.changes(disk, change)
                self.done(f"level {level}", level + 1, level, str(self.place), "dump-device", disk)
                payload = self.payload(level)
                for words in (("restore", "-r"), ("restore", "-C", "-D", ".")):
                    got = run(back, *words, "-f", str(payload))
                    told = [it for it in got.told.splitlines() if ": flags changed from " not in it]
                    self.same(f"level {level}: {words}", (got.status in (DONE, MODIFIED), told), (True, []), got)
            for name, lines in (("kept", 3), ("old/file", 7)):
                self.same(f"{name} came back", (back / name).read_text(), "".join(f"{it}\n" for it in range(1, lines + 1)))
            left = sorted(it.name for it in back.iterdir() if not it.name.startswith("hole."))
            self.same("nothing else came back", left, ["kept", "lost+found", "old", "restoresymtable"])
            self.same("no byte is lost before a hole", self.lost(disk, mounted, back), [])

    def test_another_device(self) -> None:
        """A level above 0 of a device that the snapshot does not name: dump(8) would make a level 0, and nothing is dumped."""
        self.file_system(words_of_mke2fs())
        with self.disk() as disk:
            self.changes(disk, "seq 9 > kept")
            self.done("level 0", 1, 0, str(self.place), "dump-device", disk)
            with self.disk() as other:
                got = self.night(2, 1, str(self.place), "dump-device", other)
                self.stops("another device", got, "dump-device failed with status 1: nothing is dumped")
                self.holds("it is named", f"no dump of {other}\n" in got.told, got)
            link = self.folder / "disk"
            link.symlink_to(disk)
            self.stops("another name", self.night(2, 1, str(self.place), "dump-device", str(link)), "dump-device failed with status 1")
            self.done("level 1", 2, 1, str(self.place), "dump-device", disk)
            for level in (0, 1):
                got = run(self.folder / "back", "restore", "-r", "-f", str(self.payload(level)))
                self.same(f"level {level} is restored", got.status, DONE, got)

    def test_blocks_of_1_kib(self) -> None:
        """What docs/OPERATING.md says of restore(8) 0.4b47 and blocks of 1 KiB: it loses bytes with status 0, and -C finds them."""
        mounted, back = self.file_system(("-t", "ext4", "-b", "1024"))
        if "0.4b47" not in run(self.folder, "restore").told:
            self.skipTest("restore is not of version 0.4b47")
        with self.disk() as disk:
            self.changes(disk, HOLES)
            dumped = run(self.folder, "dump", "-q", "-0", "-f", "payload", disk)
            got = run(back, "restore", "-r", "-f", str(self.folder / "payload"))
            self.same("dump and restore", (dumped.status, got.status), (DONE, DONE), dumped, got)
            lost = self.lost(disk, mounted, back)
            self.holds("bytes are lost", len(lost) > 0, lost)
            got = run(back, "restore", "-C", "-D", ".", "-f", str(self.folder / "payload"))
            found = sorted(set(re.findall(r"(?m)^\./(hole\.\S*): (?!flags)", got.told)))
            self.same("-C finds them", (got.status, found), (MODIFIED, lost), got)

    def file_system(self, words: tuple[str, ...]) -> tuple[Path, Path]:
        """Makes a file system by the words of mke2fs, and folders where it is mounted and restored."""
        if os.geteuid() != 0 or not all(map(machines.is_there, ("dump", "restore", "mke2fs", "losetup"))):
            self.skipTest("root, dump, restore, mke2fs and losetup cannot be used on this machine")
        program = self.programs / "dump-device"
        program.write_text(of_document("dump-device"))
        program.chmod(0o755)
        image, mounted, back = (self.folder / it for it in ("image", "mounted", "back"))
        mounted.mkdir()
        back.mkdir()
        run(self.folder, "truncate", "-s", "4M", str(image))
        self.same("a file system", run(self.folder, "mke2fs", "-q", *words, str(image)).status, DONE)
        return mounted, back

    @contextmanager
    def disk(self) -> Iterator[str]:
        """A device of the file system."""
        disk = run(self.folder, "losetup", "--find", "--show", str(self.folder / "image")).output.strip()
        try:
            yield disk
        finally:
            run(self.folder, "losetup", "--detach", disk)

    def changes(self, disk: str, change: str) -> None:
        """Changes files of the file system."""
        changed = run(self.folder, "sh", "-c", f"mount {disk} mounted && (cd mounted; {change}); umount mounted")
        self.same("it changes", changed.status, DONE, changed)
        # dump(8) has dates of whole seconds.
        time.sleep(1.1)

    def lost(self, disk: str, mounted: Path, back: Path) -> list[str]:
        """The files with holes that did not come back as they are."""
        run(self.folder, "mount", "-o", "ro", disk, str(mounted))
        try:
            holes = sorted(mounted.glob("hole.*"))
            self.holds("there are files with holes", len(holes) > 10, holes)
            return [it.name for it in holes if it.read_bytes() != (back / it.name).read_bytes()]
        finally:
            run(self.folder, "umount", str(mounted))


def words_of_mke2fs() -> tuple[str, ...]:
    """The words of docs/OPERATING.md that make a file system, without its files. Each recipe has the same ones."""
    (words,) = set(re.findall(r"(?m)^mke2fs -q (.*) -d src \S+$", OPERATING.read_text()))
    return tuple(words.split())


def of_document(name: str) -> str:
    """A script of docs/OPERATING.md."""
    return given(re.search(rf"(?ms)^cat > \S*\b{name} <<'END'\n(.*?)^END$", OPERATING.read_text()))[1]


def seconds(day: int) -> int:
    """The date of a night."""
    return timegm(time.strptime(f"2026-12-{day:02} 02:00", "%Y-%m-%d %H:%M"))
