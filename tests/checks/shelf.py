"""Checks `etc/to-shelf` with the built `rdump`: which reels it moves to the shelf, which folders it removes from it, and what it prints.

The reels are record files that this file makes, and so are the entries and the catalogs of the clients. The clock is a `date` that comes first in
PATH. A disk that is full is a small one of memory, which root mounts for the shelf, and a run that is killed while it copies is killed by a `cp`
that comes first in PATH.
"""

from __future__ import annotations

import os
import re
import shlex
import subprocess
import tempfile
import time
from calendar import timegm
from pathlib import Path
from typing import Callable, NamedTuple

from tests.checks.night import Mail
from tests.lib.case import Case
from tests.lib.ended import DONE
from tests.lib.listings import Label, dump_words, utc
from tests.lib.nights import TO_SHELF, moved_clock, set_clock
from tests.lib.places import built
from tests.lib.recipes import MORE
from tests.lib.waiting import GUARD_SECONDS
from tests.models.found import Dump as DumpId
from tests.models.found import begun_line, finished_line, volume_line
from tests.models.rmtd import images

BLOCK = 1024
# With its label and its mark, a volume of so many blocks is less than a page.
MOST = 2
GOOD = Mail("", DONE)
# The clock at an old dump, at the new one in its place, and later than that by more than the 60 days for which all stays.
FIRST, OLD, NEW, LATER = "2026-11-01 02:00", "2026-11-02 02:00", "2027-02-07 02:00", "2027-06-01 02:00"

# Odd names of dumps.
NAMES = ("/usr", "/usr.*", "[/usr]", "ann:/usr", "a|/usr\\\\", "/", "//usr", "%2Fusr", "-x", "..", "$(false)`false`'\"", "x:")

# It copies a part, and kills the script that started it.
KILLING_CP = '#!/bin/sh\nfor it; do from=$to to=$it; done\nhead -c 100 "$from" > "$to"\nkill -KILL $PPID\n'


def seconds_of(when: str) -> int:
    return timegm(time.strptime(when, "%Y-%m-%d %H:%M"))


def folder_of(when: str, name: str = "%2Fusr") -> str:
    """The shelf's folder of a day and a name."""
    return f"{when.split(' ')[0]}-{name}"


def encoded(name: str) -> str:
    """The name of a dump as a part of the name of a folder."""
    return name.replace("%", "%25").replace("/", "%2F")


class Dump(NamedTuple):
    """A dump of some blocks, at a time."""

    when: str
    blocks: int = 4
    level: int = 0
    since: str | None = None
    name: str = "/usr"

    def id(self) -> DumpId:
        return DumpId(self.name, self.level, seconds_of(self.when), seconds_of(self.since) if self.since else 0)

    def reels(self) -> dict[str, bytes]:
        """Its reels by their names, with as many blocks each as a reel has room for."""
        found = {}
        for volume, first in enumerate(range(0, self.blocks, MOST), 1):
            label = Label(*self.id(), volume, first)
            blocks = [self.block(at) for at in range(first, min(first + MOST, self.blocks))]
            found[f"{self.when.split(' ')[0]}-{volume}"] = images([label.record(), *blocks, None])
        return found

    def block(self, number: int) -> bytes:
        return f"{self.name} {self.when} {number}".encode().ljust(BLOCK, b".")

    def payload(self) -> bytes:
        return b"".join(map(self.block, range(self.blocks)))

    def entry(self) -> str:
        """Its line of a dumpdates file."""
        return f"{self.name:<32} {self.level} " + time.strftime("%a %b %e %H:%M:%S %Y\n", time.gmtime(seconds_of(self.when)))

    def lines(self, volumes: int | None = None) -> bytes:
        """Its lines of a catalog. It finished with so many volumes, or with all."""
        reels = self.reels().values()
        end = finished_line(self.id(), len(reels) if volumes is None else volumes, self.blocks, BLOCK, self.blocks * BLOCK)
        return b"".join((begun_line(self.id(), self.blocks * BLOCK), *map(volume_line, reels), end))

    def named(self) -> str:
        """It, as the messages name it."""
        return dump_words(*self.id())


class ShelfCase(Case):
    """Tests of the script, with a bin, a shelf and clients' files that are empty at the start of each test."""

    def setUp(self) -> None:
        self.begin()

    def begin(self) -> None:
        """Begins with empty folders."""
        self.folder = Path(self.enterContext(tempfile.TemporaryDirectory()))
        self.bin, self.shelf, self.clients = (self.folder / it for it in ("bin", "shelf", "clients"))
        for it in (self.bin, self.shelf, self.clients):
            it.mkdir()
        self.programs = self.folder / "programs"
        moved_clock(self.programs, self.folder / "now", FIRST)
        (self.programs / "rdump").symlink_to(built("rdump"))
        self.client, self.catalog = self.clients / "usr", self.clients / "usr.catalog"

    def came(self, *dumps: Dump) -> None:
        """The reels of these dumps come into the bin."""
        for dump in dumps:
            for name, data in dump.reels().items():
                (self.bin / name).write_bytes(data)

    def entered(self, *dumps: Dump, client: str = "usr") -> None:
        """A client's files come: the entries of these dumps and no others, and a catalog that has these dumps too."""
        (self.clients / client).write_text("".join(it.entry() for it in dumps))
        catalog = self.clients / f"{client}.catalog"
        text = catalog.read_bytes() if catalog.exists() else b""
        catalog.write_bytes(text + b"".join(it.lines() for it in dumps if it.lines() not in text))

    def run_at(self, when: str, days: int = 60) -> Mail:
        """Runs the script at a time, as cron does, with each client. Answers what it prints, and its status."""
        set_clock(self.folder / "now", when)
        clients = sorted(str(self.clients / it) for it in {it.name.removesuffix(".catalog") for it in self.clients.iterdir()})
        ran = subprocess.run(
            (TO_SHELF, str(self.bin), str(self.shelf), str(days), *clients),
            env={**os.environ, "PATH": f"{self.programs}:{os.environ['PATH']}", "TMPDIR": str(self.folder)},
            stdin=subprocess.DEVNULL,
            stdout=subprocess.PIPE,
            stderr=subprocess.STDOUT,
            timeout=GUARD_SECONDS,
            check=False,
        )
        return Mail(ran.stdout.decode(), ran.returncode)

    def old_and_new(self, old: Dump, new: Dump) -> None:
        """Shelves a dump, and has a later one in its place come and entered."""
        self.came(old)
        self.entered(old)
        self.same("the old dump: no mail", self.run_at(old.when), GOOD)
        self.came(new)
        self.entered(new)

    def held(self) -> dict[str, list[str]]:
        """The names in each folder of the shelf."""
        return {it.name: sorted(reel.name for reel in it.iterdir()) for it in sorted(self.shelf.iterdir()) if it.is_dir()}

    def alarm(self, *names: str) -> Mail:
        """The mail of a morning on which all is well, but that no dump of these clients came."""
        return Mail("".join(f"to-shelf: {self.clients / it}: no dump came\n" for it in names), 1)

    def stays(self, title: str, mail: Mail, *facts: str) -> None:
        """The old dump's folder is as it was, and the mail says why, with these facts."""
        self.same(f"{title}: the old dump stays", self.held().get(folder_of(OLD)), [*Dump(OLD).reels()], mail)
        told = {it: it in mail.text for it in ("nothing is removed", *facts)}
        self.same(f"{title}: the mail", (mail.status, told), (1, dict.fromkeys(told, True)), mail.text)


class WhatIsRemoved(ShelfCase):
    """An old dump stays until the one in its place is whole."""

    def test_whole(self) -> None:
        """The old dump goes, once it is old enough, where all is well. What a needed dump builds on stays."""
        old, new = Dump(OLD), Dump(NEW)
        self.old_and_new(old, new)
        self.same("all is well: no mail", self.run_at(NEW), GOOD)
        self.same("all is well: the old dump goes", self.held(), {folder_of(NEW): [*new.reels()]})

    def test_what_is_built_on(self) -> None:
        base, old, new = Dump(FIRST), Dump(OLD, level=1, since=FIRST), Dump(NEW)
        self.came(base)
        self.entered(base)
        self.same("a base: no mail", self.run_at(FIRST), GOOD)
        self.came(old)
        self.entered(base, old)
        self.same("two levels: no mail", self.run_at(OLD), GOOD)
        self.came(new)
        self.entered(new, old)
        self.same("a new level 0: no mail", self.run_at(NEW), GOOD)
        self.same("a new level 0: what level 1 builds on stays", [*self.held()], [folder_of(it) for it in (FIRST, OLD, NEW)])
        # The base is not entered any more, but level 1 is nothing without it.
        name = [*base.reels()][0]
        (self.shelf / folder_of(FIRST) / name).rename(self.folder / name)
        mail = self.run_at(NEW)
        told = (f"{base.named()}: missing: volume 1\n" in mail.text, "nothing is removed" in mail.text)
        self.same("a volume of the base is missing", (mail.status, told), (1, (True, True)), mail)
        (self.folder / name).rename(self.shelf / folder_of(FIRST) / name)
        later = Dump("2027-02-08 02:00", level=1, since=NEW)
        self.came(later)
        self.entered(new, later)
        self.same("a new level 1: no mail", self.run_at(later.when), GOOD)
        self.same("a new level 1: both old levels go", [*self.held()], [folder_of(NEW), folder_of(later.when)])

    def test_days(self) -> None:
        """A folder that is not older than the days stays."""
        old, new = Dump(OLD), Dump("2026-12-01 02:00")
        self.old_and_new(old, new)
        self.same("a month later: no mail", self.run_at(new.when), GOOD)
        self.same("a month later: both stay", [*self.held()], [folder_of(OLD), folder_of(new.when)])
        self.same("two months later: no dump came", self.run_at("2027-01-01 02:00"), self.alarm("usr"))
        self.same("two months later: the old dump stays", folder_of(OLD) in self.held(), True)
        self.same("a day later: no dump came", self.run_at("2027-01-02 02:00"), self.alarm("usr"))
        self.same("a day later: it goes", folder_of(OLD) in self.held(), False)

    def test_last_volume_is_missing(self) -> None:
        """Somebody took the last reel, or the last two, before they came to the shelf. The reels alone do not show it."""
        new = Dump(NEW, 6)
        self.old_and_new(Dump(OLD), new)
        names = [*new.reels()]
        (self.bin / names[2]).rename(self.folder / names[2])
        self.stays("the last volume is missing", self.run_at(NEW), f"{new.named()}: missing: volume 3")
        (self.shelf / folder_of(NEW) / names[1]).rename(self.folder / names[1])
        self.stays("the last two are missing", self.run_at("2027-02-08 02:00"), "missing: volumes 2 to 3", "no dump came")
        (self.shelf / folder_of(NEW) / names[0]).rename(self.folder / names[0])
        self.stays("no volume is there", self.run_at("2027-02-08 02:00"), f"date {utc(seconds_of(NEW))}: no volume: no reel")
        for it in names:
            (self.folder / it).rename(self.bin / it)
        self.same("they come: no mail", self.run_at("2027-02-09 02:00"), GOOD)
        self.same("they come: the old dump goes", folder_of(OLD) in self.held(), False)

    def test_two_clients(self) -> None:
        """Each client has an alarm of its own, and what one lacks does not keep the reels of another."""
        old, new = (Dump(when, name="ann:/home*") for when in (OLD, NEW))
        self.old_and_new(Dump(OLD), Dump(NEW))
        self.came(old)
        self.entered(old, client="home")
        self.same("the dump of one came", self.run_at(OLD, 365), GOOD)
        (self.shelf / folder_of(OLD) / [*Dump(NEW).reels()][0]).unlink()
        (self.shelf / folder_of(OLD) / [*Dump(NEW).reels()][1]).unlink()
        self.came(new)
        self.entered(new, client="home")
        facts = (f"{self.client}: {it}" for it in ("no dump came", f"/usr level 0 date {utc(seconds_of(NEW))}: no volume"))
        self.stays("the other one lacks its dump", self.run_at(NEW), *facts)
        self.same("it goes of the first", [*self.held()], [folder_of(OLD), folder_of(NEW, encoded("ann:/home*"))])

    def test_a_name_of_two_clients(self) -> None:
        """A client sends the name of another one's dump, in either of its files."""
        for title, client, catalog in (("an entry", Dump(LATER).entry(), b""), ("a line", "", Dump(LATER).lines())):
            self.begin()
            self.old_and_new(Dump(OLD), Dump(NEW))
            (self.clients / "home").write_text(client)
            (self.clients / "home.catalog").write_bytes(catalog)
            self.stays(title, self.run_at(NEW), f"{self.client}: another client has this name too: %2Fusr")

    def test_other_folders(self) -> None:
        """Other folders stay, even if they are empty, and so do reels of a name that no client has."""
        others = ("1999-my-xx", "keep-me-ok")
        for it in others:
            (self.shelf / it).mkdir()
        self.old_and_new(Dump(OLD), Dump(NEW))
        opt = Dump(OLD, name="/opt/")
        self.came(opt)
        self.same("all is well: no mail", self.run_at(NEW), GOOD)
        self.same("the other folders stay", [*self.held()], [others[0], folder_of(NEW, encoded("/opt/")), folder_of(NEW), others[1]])

    def test_names(self) -> None:
        """Whatever a client calls its dumps, each name has a folder of its own, and goes from it."""
        old, new = ([Dump(when, 1, name=it) for it in NAMES] for when in (OLD, NEW))
        for dumps in (old, new):
            for number, dump in enumerate(dumps):
                (self.bin / f"r{number}").write_bytes([*dump.reels().values()][0])
            self.entered(*dumps)
            self.same("no mail", self.run_at(dumps[0].when), GOOD)
            self.same("a folder for each name", [*self.held()], sorted(folder_of(it.when, encoded(it.name)) for it in dumps))

    def test_damaged(self) -> None:
        """The last reel is damaged in the bin or on the shelf."""
        for title, damages in (("no mark", no_mark), ("cut", cut), ("empty", emptied), ("no label", no_label), ("more after the mark", more)):
            for place in ("bin", "shelf"):
                self.begin()
                self.damaged(f"{title}, in the {place}", damages, place == "shelf")
        self.begin()
        self.damaged("another byte", another_byte, True)

    def damaged(self, title: str, damages: Callable[[bytes], bytes], is_shelved: bool) -> None:
        new = Dump(NEW, 6)
        self.old_and_new(Dump(OLD), new)
        last = [*new.reels()][-1]
        if is_shelved:
            # The first run is too early to remove anything.
            self.same(f"{title}: no mail before", self.run_at(NEW, 365), GOOD)
            damaged = self.shelf / folder_of(NEW) / last
        else:
            damaged = self.bin / last
        damaged.chmod(0o600)
        damaged.write_bytes(damages(damaged.read_bytes()))
        self.stays(title, self.run_at("2027-02-08 02:00"), f"{damaged}: ", "missing: volume 3")
        mail = self.run_at("2027-02-08 02:00")
        self.stays(f"{title}, again", mail, "missing: volume 3")
        self.same(f"{title}: a reel that the shelf never had whole is named once", f"/{last}: " in mail.text, is_shelved, mail)

    def test_what_is_no_volume(self) -> None:
        """It goes to a folder of its own, and is named once. It keeps nothing from being removed."""
        self.old_and_new(Dump(OLD), Dump(NEW))
        (self.bin / "empty").write_bytes(b"")
        (self.bin / "its own").write_bytes(b"")
        (self.bin / "tar: x level 0 date 1 since 0: whole").write_bytes(images([b"hello", None]))
        mail = self.run_at(NEW)
        other = folder_of(NEW).replace("-%2Fusr", ".other")
        goes = f"it goes to {self.shelf}/{other}\n"
        told = [f"to-shelf: {self.bin}/{it}" in mail.text for it in (f"empty: 0 bytes: empty: {goes}", f"its own: 0 bytes: empty: {goes}", "tar: x")]
        self.same("the mail", (mail.status, told, mail.text.count(goes), mail.text.count("\n")), (1, [True] * 3, 3, 3), mail)
        wanted = {other: ["empty", "its own", "tar: x level 0 date 1 since 0: whole"], folder_of(NEW): [*Dump(NEW).reels()]}
        self.same("the old dump goes", self.held(), dict(sorted(wanted.items())))
        self.same("the next morning", self.run_at("2027-02-08 02:00"), self.alarm("usr"))
        (self.bin / "empty").write_bytes(b"")
        mail = self.run_at(NEW)
        told = [f"{self.shelf}/{other}/empty is there already" in mail.text]
        self.same("its name is taken", (told, [*self.bin.iterdir()]), ([True], [self.bin / "empty"]), mail)

    def test_catalogs(self) -> None:
        """Catalogs that do not have the dump that is entered, whole and finished, or cannot be read."""
        old, new = Dump(OLD), Dump(NEW)
        no_line = f"date {utc(seconds_of(NEW))}: volumes 1 to 2, ends at block 4: no reel, or no line of the catalog"
        lines = new.lines().splitlines(keepends=True)
        for title, text, fact in (
            ("no file", None, "No such file"),
            ("an empty file", b"", no_line),
            ("another dump", old.lines(), no_line),
            ("another level", old.lines() + new._replace(level=1).lines(), no_line),
            ("another client's", new._replace(name="/home").lines(), no_line),
            ("it is not finished", old.lines() + b"".join(lines[:-1]), f"{new.named()}: not finished"),
            ("a volume is not there", lines[0] + lines[1] + lines[-1], "missing: volume 2"),
            ("it has more volumes", new.lines(3), "missing: volume 3"),
            ("it is begun anew", old.lines() + new.lines() + lines[0], f"{new.named()}: not finished"),
            ("it did not begin", b"".join(lines[1:]), no_line),
            ("a part of a line", new.lines()[:-3], "it is no catalog"),
            ("a bad line", new.lines() + b"hello\n", "it is no catalog"),
        ):
            self.begin()
            self.old_and_new(old, new)
            self.catalog.unlink()
            if text is not None:
                self.catalog.write_bytes(text)
            self.stays(title, self.run_at(NEW), fact)
            self.entered(new)
            self.catalog.write_bytes(new.lines())
            self.same(f"{title}: it comes", (self.run_at(NEW), [*self.held()]), (GOOD, [folder_of(NEW)]))

    def test_entries(self) -> None:
        """Entries that cannot be read."""
        self.old_and_new(Dump(OLD), Dump(NEW))
        for title, text in (("a bad line", "hello\n"), ("no file", None)):
            if text is None:
                self.client.unlink()
            else:
                self.client.write_text(text)
            self.stays(title, self.run_at(NEW), f"{self.client}: it cannot be compared with the shelf", f"rdump: {self.client}: ")

    def test_two_entries(self) -> None:
        """Of two entries of a name and level, what the first one needs stays too."""
        self.old_and_new(Dump(OLD), Dump(NEW))
        self.entered(Dump(NEW), Dump(OLD))
        self.same("no mail", self.run_at(NEW), GOOD)
        self.same("both stay", [*self.held()], [folder_of(OLD), folder_of(NEW)])

    def test_dumps_that_build_on_one_another(self) -> None:
        """A catalog that somebody made: the script comes to its end."""
        one, other = Dump(NEW, since=LATER, level=1), Dump(LATER, since=NEW, level=2)
        self.came(one, other)
        self.entered(one, other)
        self.same("no mail", self.run_at(NEW), GOOD)

    def test_unreadable(self) -> None:
        """A part of the shelf cannot be read."""
        self.old_and_new(Dump(OLD), Dump(NEW))
        self.same("no mail before", self.run_at(NEW, 365), GOOD)
        (self.shelf / folder_of("2027-02-01")).symlink_to(self.folder / "nowhere")
        self.stays("a folder that is away", self.run_at("2027-02-08 02:00"), "2027-02-01")

    def test_another_hidden_file(self) -> None:
        """A file that no run left stays, in a folder that stays too, and the mail says so."""
        old = Dump(OLD)
        self.old_and_new(old, Dump(NEW, 2))
        others = [".note", f".{[*old.reels()][0]}", ".to-shelf"]
        for it in others:
            (self.shelf / folder_of(OLD) / it).write_text("mine\n")
        mail = self.run_at(NEW)
        self.same("hidden files: they stay", self.held().get(folder_of(OLD)), sorted([*others, *old.reels()]), mail)
        self.same("hidden files: the mail names the folder", (mail.status, str(self.shelf / folder_of(OLD)) in mail.text), (1, True), mail)


def no_mark(data: bytes) -> bytes:
    return data[:-4]


def cut(data: bytes) -> bytes:
    return data[:1500]


def emptied(_data: bytes) -> bytes:
    return b""


def no_label(data: bytes) -> bytes:
    return data[:4] + b"?" + data[5:]


def more(data: bytes) -> bytes:
    return data + images([b"more", None])


def another_byte(data: bytes) -> bytes:
    return data[:-20] + b"x" * 12 + data[-8:]


class OtherDisk(ShelfCase):
    """The shelf is on a disk of its own, with room for four reels."""

    def setUp(self) -> None:
        super().setUp()
        if os.geteuid() != 0 or not self.mounted("size=16k"):
            self.skipTest("no small disk can be mounted on this machine")
        self.addCleanup(self.unmount)

    def unmount(self) -> None:
        subprocess.run(("umount", str(self.shelf)), check=True)

    def mounted(self, options: str) -> bool:
        words = ("mount", "-t", "tmpfs", "-o", options, "small", str(self.shelf))
        return subprocess.run(words, capture_output=True, check=False).returncode == 0

    def test_full_disk(self) -> None:
        """The last reel finds no room. The old dump stays, and so does the reel."""
        new = Dump(NEW, 6)
        self.old_and_new(Dump(OLD), new)
        names = [*new.reels()]
        mail = self.run_at(NEW)
        self.stays("no room", mail, f"{names[2]}: it could not be copied, and stays")
        left = ([it.name for it in self.bin.iterdir()], self.held()[folder_of(NEW)])
        self.same("no room: the last reel stays in the bin", left, ([names[2]], names[:2]))
        # The next morning it is the same, though no reel's copy failed before in that folder.
        self.stays("no room the next day", self.run_at("2027-02-08 02:00"), "could not be copied", "no dump came")
        self.same("no room the next day: no folder for nothing", [*self.held()], [folder_of(OLD), folder_of(NEW)])
        self.holds("more room", self.mounted("remount,size=64k"))
        self.same("more room: no mail", self.run_at("2027-02-09 02:00"), GOOD)
        self.same("more room: the old dump goes", self.held(), {folder_of(NEW): names[:2], folder_of("2027-02-09"): names[2:]})

    def test_killed_while_it_copies(self) -> None:
        """A part of a copy stays in the folder of that day. It goes, and so does the folder later."""
        old, new = Dump(OLD, 2), Dump(NEW, 2)
        self.came(old)
        self.entered(old)
        stand_in = self.programs / "cp"
        stand_in.write_text(KILLING_CP)
        stand_in.chmod(0o755)
        for day in ("2026-11-02 02:00", "2026-11-03 02:00"):
            killed = self.run_at(day)
            self.same(f"{day}: it is killed", (killed.status, [*self.held()][-1]), (-9, folder_of(day)), killed)
        stand_in.unlink()
        self.same("the next day: no mail", self.run_at("2026-11-04 02:00"), GOOD)
        self.same("the next day: the reel is there once", [it for names in self.held().values() for it in names], [*old.reels()])
        self.came(new)
        self.entered(new)
        mail = self.run_at(NEW)
        self.same("months later", (mail, self.held()), (GOOD, {folder_of(NEW): [*new.reels()]}))


class WhatCame(ShelfCase):
    """A morning without a new dump has a mail."""

    def setUp(self) -> None:
        super().setUp()
        self.dump = Dump(OLD)
        self.came(self.dump)
        self.entered(self.dump)
        self.same("the dump: no mail", self.run_at(OLD), GOOD)

    def copied(self, *renamed: str) -> list[Path]:
        """A restore leaves copies of the dump's reels in the bin, with these names in the place of their own."""
        copies = []
        for name, to in zip(self.dump.reels(), renamed or self.dump.reels()):
            copies.append(self.bin / to)
            copies[-1].write_bytes((self.shelf / folder_of(OLD) / name).read_bytes())
        return copies

    def test_no_reel(self) -> None:
        self.same("an empty bin", self.run_at("2026-11-03 02:00"), self.alarm("usr"))
        self.bin.rmdir()
        mail = self.run_at("2026-11-03 02:00")
        self.same("no bin", (mail.status, f"{self.bin}: it could not be read" in mail.text), (1, True), mail)

    def test_what_is_not_entered(self) -> None:
        """Reels of a dump that is not finished, or of another one's label, are no dump that came."""
        new = Dump("2026-11-03 02:00", 6)
        name, data = [*new.reels().items()][0]
        (self.bin / name).write_bytes(data)
        self.same("it is not finished: the mail", self.run_at(new.when), self.alarm("usr"))
        (self.bin / "of another one").write_bytes(another_byte(self.dump.reels()[[*self.dump.reels()][0]]))
        mail = self.run_at("2026-11-04 02:00")
        self.same("another one's: the mail", ("whole, sum differs\n" in mail.text, "no dump came" in mail.text), (True, True), mail)

    def test_copies(self) -> None:
        """The copies of a restore are no dump that came: they stay in the bin, and the mail names them."""
        for title, names in (("their own names", ()), ("other names", ("copy 1", "copy 2"))):
            copies = self.copied(*names)
            mail = self.run_at("2026-11-03 02:00")
            self.same(f"{title}: no dump came", (mail.status, "no dump came" in mail.text), (1, True), mail)
            self.same(f"{title}: the mail names them", [str(it) in mail.text for it in copies], [True] * 2, mail)
            self.same(f"{title}: they stay", (sorted(self.bin.iterdir()), [*self.held()]), (copies, [folder_of(OLD)]))
            for it in copies:
                it.unlink()

    def test_removal_without_a_dump(self) -> None:
        """What is no longer needed goes on a morning without a dump too, so that a full disk does not stay full."""
        new = Dump(NEW)
        self.came(new)
        self.entered(new)
        self.same("no mail", self.run_at(NEW, 365), GOOD)
        (self.bin / "copy").write_bytes([*self.dump.reels().values()][0])
        mail = self.run_at("2027-02-08 02:00")
        told = ("no dump came" in mail.text, "nothing is removed" in mail.text)
        self.same("no dump came: what the mail says", (mail.status, told), (1, (True, False)), mail)
        self.same("no dump came: the old dump goes", self.held(), {folder_of(NEW): [*new.reels()]}, mail)

    def test_copies_beside_a_dump(self) -> None:
        copies = self.copied()
        new = Dump("2026-11-03 02:00", level=1, since=OLD)
        self.came(new)
        self.entered(self.dump, new)
        mail = self.run_at(new.when)
        told = ("no dump came" in mail.text, [str(it) in mail.text for it in copies])
        self.same("a dump came, beside copies", (mail.status, told), (1, (False, [True] * 2)), mail)
        self.same("a dump came: it is on the shelf", self.held(), {folder_of(OLD): [*self.dump.reels()], folder_of(new.when): [*new.reels()]})
        self.same("a dump came: the copies stay", sorted(self.bin.iterdir()), copies)

    def test_the_same_volume_on_another_reel(self) -> None:
        """A volume that was dumped again, whose blocks differ, is another reel."""
        name = [*self.dump.reels()][1]
        (self.bin / "again").write_bytes(another_byte(self.dump.reels()[name]))
        lines = self.catalog.read_bytes().splitlines(keepends=True)
        self.catalog.write_bytes(b"".join((*lines[:-1], volume_line((self.bin / "again").read_bytes()), lines[-1])))
        self.same("the same volume, other bytes", self.run_at("2026-11-03 02:00"), GOOD)
        self.same("the same volume: both stay", self.held().get(folder_of("2026-11-03")), ["again"])

    def test_stopped_between_the_link_and_the_removal(self) -> None:
        """The reel has its name in the bin and on the shelf. It is no dump that came."""
        name = [*self.dump.reels()][0]
        os.link(self.shelf / folder_of(OLD) / name, self.bin / name)
        mail = self.run_at("2026-11-03 02:00")
        self.same("two names: no dump came", (mail.status, "no dump came" in mail.text), (1, True), mail)
        self.same("two names: one is left", (list(self.bin.iterdir()), [*self.held()]), ([], [folder_of(OLD)]))


class ReelsOfOneDump(ShelfCase):
    """How the recipe *A night by hand* restores the last dump of a level from a shelf of many."""

    def test_reels(self) -> None:
        """Those of another name, level or date stay, and those that are not whole, whatever the bytes of the names are."""
        (commands,) = re.findall(r"(?m)^date=.*\nrdump cat .* /srv/tape/shelf/\*-%2Fusr(?= > tree.back)", MORE.read_text())
        commands = commands.replace("/srv/tape/shelf", str(self.shelf)).replace("/srv/tape/clients", str(self.clients))
        last = [Dump(when, 5, level, FIRST if level else None, name) for name in NAMES for level, when in enumerate((NEW, LATER))]
        dumps = [*last, *(it._replace(when=OLD) for it in last)]
        for number, dump in enumerate(dumps):
            day = self.shelf / folder_of(dump.when, encoded(dump.name))
            day.mkdir(exist_ok=True)
            for volume, data in enumerate(dump.reels().values(), 1):
                (day / f"{number}: *[a] usr level 0 '\\\\ \"$x\" \u00e9 {volume} ").write_bytes(data)
            (day / f"{number} cut").write_bytes(data[:-4])
        self.entered(*last)
        for dump in last:
            named = commands.replace("--name /usr --level 1", f"--name={shlex.quote(dump.name)} --level {dump.level + 1}")
            named = named.replace("--level 0", f"--level {dump.level}").replace("*-%2Fusr", f"*-{shlex.quote(encoded(dump.name))}")
            got = subprocess.run(
                ("sh", "-c", named),
                cwd=self.folder,
                env={**os.environ, "PATH": f"{self.programs}:{os.environ['PATH']}"},
                capture_output=True,
                timeout=GUARD_SECONDS,
                check=False,
            )
            self.same(f"{dump.named()}: its payload", (got.stdout, got.stderr, got.returncode), (dump.payload(), b"", DONE))
