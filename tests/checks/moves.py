"""Checks what the built server does with names that both the stack and the bin have, and with files that are no reels any more once they are opened.

A move never replaces what the bin has, whenever it came there. A move that a stop cut short is finished before anything is written. A reel whose
name the bin has, or that may only be read, is not written. A lock that fails is not had. The server is stopped, killed, or has calls refused by the
library of hostile.c.
"""

from __future__ import annotations

import os
import re
import signal
import subprocess
from itertools import chain, repeat
from pathlib import Path
from typing import Callable, NamedTuple

from tests.lib.drives import data_of, drive_words, folders, held
from tests.lib.shimmed import Ran, SiteCase
from tests.lib.stdio_servers import MOVED, Site, Start, Talk, away, seen, site, talking
from tests.lib.traced import traced
from tests.lib.waiting import GUARD_SECONDS
from tests.lib.wire import CLOSE
from tests.lib.wire import DONE as TAKEN
from tests.lib.wire import DONE_ONE, IO_ERROR, NO_REEL, NOTHING, NOTHING_OPEN, OFFLINE, opened, write
from tests.models.rmtd import images

# The look at the start asks for one rename for each drive. The move asks for a link, and for a rename only where there are no links.
BEFORE_THE_MOVE = "link:1:S,rename:2:S"
# What the system says where it makes no hard links, or none of this file.
NO_LINKS = {"EPERM": 1, "EOPNOTSUPP": 95, "EMLINK": 31, "ENOSYS": 38}

# The rule of a file system without links.
WITHOUT_LINKS = f"link:1+:E{NO_LINKS['EPERM']}"

# The sync of the bin's folder in a move of a reel that was written to: the second one, after that of the reel.
BIN_SYNC = "fsync:2:E5"
# What is said of it, where the move is refused, and where it cannot be undone.
BIN_UNSYNCED = r"move refused: .*/bin: sync: .+ \(os error 5\)"
NAME_KEPT = r"r1 moved to the bin, its name in the stack was kept: the bin could not be synced: .+ \(os error 5\)"
# What is said of a move after which the last sync of a folder failed.
UNSYNCED = r"r1 moved to the bin, folder sync failed: .+ \(os error 5\)"

# What is said of a name that the bin has.
HAS_NAME = "r1 opened, to read only: the bin has the name"
TAKEN_NAME = "move refused: r1: the bin has the name"
READ_ONLY = "r1 closed(, synced)?, a read or write failed: the reel may only be read"


class Thing(NamedTuple):
    """Something that can stand in a folder, and how it is made."""

    title: str
    make: Callable[[Path], object]


COMES_MEANWHILE = (
    Thing("a reel", lambda path: path.write_bytes(images([b"other"]))),
    Thing("an empty reel", lambda path: path.touch()),
    Thing("a link", lambda path: path.symlink_to("nowhere")),
    Thing("a folder", lambda path: path.mkdir()),
)
HAD_BEFORE = (
    Thing("a reel", lambda path: path.write_bytes(images([b"older"]))),
    Thing("a copy of the reel", lambda path: path.write_bytes(images([b"newer"]))),
    Thing("a link", lambda path: path.symlink_to("../st0/r1")),
    Thing("a folder", lambda path: path.mkdir()),
    Thing("a pipe", os.mkfifo),
)
# What takes a reel's place, and the reply to the open then.
IN_PLACE = (
    (Thing("a pipe", os.mkfifo), NO_REEL),
    (Thing("a link to another file", lambda path: path.symlink_to("../other")), NO_REEL),
    (Thing("another reel", lambda path: path.write_bytes(images([b"another"]))), TAKEN),
)


class Removal(NamedTuple):
    """A way in which a server removes or replaces a name: what the system refuses, by strace(1), and each call that does so, with the path at which
    it looks just before."""

    title: str
    refused: tuple[str, ...]
    calls: tuple[tuple[str, str], ...]


REMOVALS = (
    Removal("a move", (), (("unlink", "st0/r1"),)),
    Removal("a move whose name in the stack is not removed", ("unlink,unlinkat:error=EIO:when=1",), (("unlink", "st0/r1"), ("unlink", "bin/r1"))),
    Removal("a move whose bin is not synced", ("fsync:error=EIO:when=2",), (("unlink", "bin/r1"),)),
    Removal("a move without links", ("link,linkat:error=EPERM",), (("rename", "bin/r1"),)),
    Removal(
        "a move without links whose bin is not synced",
        ("link,linkat:error=EPERM", "fsync:error=EIO:when=2"),
        (("rename", "bin/r1"), ("rename", "st0/r1")),
    ),
)
# The calls of a server that take, look at or remove a name or sync a folder, and those that look.
CALLS = "openat,open,flock,fsync,link,linkat,rename,renameat,renameat2,unlink,unlinkat,statx,newfstatat,lstat,stat"
LOOKS = ("statx", "newfstatat", "lstat")


def looked_at(call: str, given: str) -> str:
    """The path of a reel at which a call looks, below the folder of the stack and the bin; nothing if the call is no look."""
    path = re.search(r'"[^"]*/((?:st0|bin)/r1)"', given)
    return path[1] if path and call in LOOKS else ""


def in_form(lines: list[str], forms: tuple[str, ...]) -> list[str]:
    """The lines, but each that has the form at its place is that form."""
    return [form if re.fullmatch(form, line) else line for line, form in zip(lines, chain(forms, repeat("")))]


def stopped(talk: Talk, request: bytes, meanwhile: Callable[[], object]) -> bytes:
    """The reply to a request on whose way the server stops itself, and is continued once something was done."""
    talk.requests.write(request)
    os.waitid(os.P_PID, talk.process.pid, os.WSTOPPED)
    meanwhile()
    os.kill(talk.process.pid, signal.SIGCONT)
    return talk.replied(request)


def written(path: Path) -> tuple[int, int]:
    """Which file stands there, and when it was written to."""
    found = path.stat()
    return found.st_ino, found.st_mtime_ns


class MoveCase(SiteCase):
    """Tests of a server that meets rules of hostile.c, at the reel `r1` of its drive."""

    def meeting(self, rules: str) -> Start:
        """How a server is started that meets these rules."""
        return {"env": self.shim.environment(rules)}

    def asked(self, folder: Path, sent: bytes, rules: str = "") -> Ran[object]:
        """What a server on standard streams does with these requests, that meets these rules."""
        return self.p.run((self.p.rmtd, "--stdio", *drive_words(folder)), rules, sent)

    def said(self, title: str, got: Ran[object], *forms: str) -> None:
        """It said lines of these forms of the drive, and no others."""
        lines = [it.partition("/dev/st0: ")[2] for it in got.told.decode(errors="replace").splitlines()]
        self.same(f"{title}: what is told", in_form(lines, forms), [*forms], lines)

    def is_moved(self, name: str, shop: Site, data: bytes) -> None:
        """The reel is in the bin alone, and has this."""
        self.same(name, (data_of(shop.bin / "r1"), shop.names()), (data, ([], ["r1"])))

    def opens_until_locked(self) -> int:
        """How many files a server has opened when it locks a reel's: the last one is the reel."""
        with folders(r1=b"") as folder:
            calls = self.asked(folder, opened()).calls
        return calls[: calls.index("flock")].count("open")


class Moves(MoveCase):
    """Moves to the bin."""

    def test_bin_gets_the_name_during_a_move(self) -> None:
        """What comes into the bin between the look at its names and the move stays there, and the reel stays on its stack."""
        for thing in COMES_MEANWHILE:
            title = f"{thing.title} that comes into the bin during a move"
            with site(self.p.rmtd) as shop:
                reel, there = shop.reel("r1", b"newer"), shop.bin / "r1"
                came: list[object] = []

                def comes() -> None:
                    thing.make(there)
                    came.append(seen(there))

                with talking(self, shop, how=self.meeting(BEFORE_THE_MOVE)) as talk:
                    talk.asks(title, (opened(), TAKEN))
                    reply = stopped(talk, OFFLINE, comes)
                    self.same(f"{title}: the move is refused", reply, IO_ERROR)
                    self.same(f"{title}: both stand", ([seen(there)], data_of(reel)), (came, images([b"newer"])))
                    talk.asks(f"{title}: the reel is open", (b"R9\n", b"A5\nnewer"))
                    there.rename(shop.folder / "away")
                    talk.asks(f"{title}, and goes again", *MOVED)
                    self.is_moved(f"{title}, and goes again: the reel is moved", shop, images([b"newer"]))

    def test_server_is_killed_in_a_move(self) -> None:
        """A server that is killed between the two steps of a move leaves both names: the next open finishes the move, and takes the next reel."""
        title = "a server that is killed in a move"
        with folders(r1=b"", r2=b"") as folder:
            stack, bin = folder / "st0/r1", folder / "bin/r1"
            got = self.asked(folder, opened() + write(b"data") + OFFLINE, "unlink:1:K")
            self.ends(f"{title}: it is killed", got, TAKEN + b"A4\n", -signal.SIGKILL)
            self.same(f"{title}: both names are of the reel", (seen(stack), data_of(bin)), (seen(bin), images([b"data"])))
            got = self.asked(folder, opened() + write(b"next") + CLOSE)
            self.ends(f"{title}: the next open", got, TAKEN + b"A4\n" + TAKEN)
            self.same(f"{title}: the reels", held(folder), ({"r2": images([b"next"])}, {"r1": images([b"data"])}))
            self.said(title, got, "r1 moved to the bin: a stop had cut the move short")

    def test_move_that_was_cut_short_cannot_be_finished(self) -> None:
        """Then nothing is opened. The next open that can finishes it."""
        for title, rules, told in (
            ("a move that cannot be finished", "unlink:1:E5", r"open refused: .*/st0/r1: remove: .+ \(os error 5\)"),
            ("a move of which the bin cannot be looked at", "open:2+:E5", r"open refused: .+ \(os error 5\)"),
            ("a move of which the bin cannot be synced", "fsync:1:E5", r"open refused: .*/bin: sync: .+ \(os error 5\)"),
        ):
            with folders(r1=images([b"data"]), r2=b"") as folder:
                os.link(folder / "st0/r1", folder / "bin/r1")
                got = self.asked(folder, opened() + write(b"x"), rules)
                self.ends(f"{title}: nothing is opened", got, IO_ERROR + NOTHING_OPEN)
                self.same(f"{title}: the reel stands", data_of(folder / "bin/r1"), images([b"data"]))
                self.said(title, got, told)
                got = self.asked(folder, opened(mode=0) + b"R9\n" + CLOSE)
                self.ends(f"{title}: it is finished then", got, TAKEN * 3)
                self.same(f"{title}: the reels", held(folder), ({"r2": b""}, {"r1": images([b"data"])}))

    def test_two_moves_were_cut_short(self) -> None:
        reels = {"r1": images([b"one"]), "r2": images([b"two"])}
        with folders(**reels) as folder:
            for name in reels:
                os.link(folder / "st0" / name, folder / "bin" / name)
            got = self.asked(folder, opened() + write(b"x"))
            self.ends("two moves that were cut short", got, NO_REEL + NOTHING_OPEN)
            self.same("two moves that were cut short: the reels", held(folder), ({}, reels))

    def test_call_of_a_move_fails(self) -> None:
        """The move is refused, with the reel on its stack and open."""
        data = images([b"data"])
        for call in ("link:1:E5", "link:1:E28", "unlink:1:E5", "unlink:1:E1", "unlink:1:E5,fsync:3:E5"):
            title = f"a move that meets {call}"
            with site(self.p.rmtd) as shop:
                reel = shop.reel("r1")
                with talking(self, shop, how=self.meeting(call)) as talk:
                    talk.asks(title, (opened(), TAKEN), (write(b"data"), b"A4\n"), (OFFLINE, IO_ERROR), (b"R4\n", b"A4\ndata"))
                    self.same(f"{title}: the reel is on its stack alone", (data_of(reel), shop.names()), (data, (["r1"], [])))
                    talk.asks(f"{title}, and is asked for again", *MOVED)
                    self.is_moved(f"{title}, and is asked for again: the reel is in the bin", shop, data)

    def test_sync_of_the_bin_fails_in_a_move(self) -> None:
        """What the move did is undone, and the move is refused: the reel is open and on its stack alone. It goes when it is asked for again."""
        data = images([b"data"])
        for how, rules in (("by a link", BIN_SYNC), ("by a rename", f"{WITHOUT_LINKS},{BIN_SYNC}")):
            title = f"a move {how} whose bin is not synced"
            sent, answers = opened() + write(b"data") + OFFLINE + b"R4\n", TAKEN + b"A4\n" + IO_ERROR + b"A4\ndata"
            with folders(r1=b"") as folder:
                got = self.asked(folder, sent, rules)
                self.ends(f"{title}: it is refused", got, answers)
                self.same(f"{title}: the reel is on its stack alone", held(folder), ({"r1": data}, {}))
                self.said(title, got, BIN_UNSYNCED)
            with folders(r1=b"") as folder:
                got = self.asked(folder, sent + OFFLINE + NOTHING, rules)
                self.ends(f"{title}, and is asked for again", got, answers + DONE_ONE + NO_REEL)
                self.same(f"{title}, and is asked for again: the reel is in the bin", held(folder), ({}, {"r1": data}))
                self.said(f"{title}, and is asked for again", got, BIN_UNSYNCED)

    def test_sync_of_the_stack_fails_in_a_move(self) -> None:
        """The move is done, and it is told."""
        for how, rules in (("by a link", "fsync:3:E5"), ("by a rename", f"{WITHOUT_LINKS},fsync:3:E5")):
            title = f"a move {how} whose stack is not synced"
            with folders(r1=b"") as folder:
                got = self.asked(folder, opened() + write(b"data") + OFFLINE + NOTHING, rules)
                self.ends(title, got, TAKEN + b"A4\n" + DONE_ONE + NO_REEL)
                self.same(f"{title}: the reel", held(folder), ({}, {"r1": images([b"data"])}))
                self.said(title, got, UNSYNCED)

    def test_file_system_syncs_no_folders(self) -> None:
        """The system says so with EINVAL: the move is done, and it is told."""
        for how, rules in (("by a link", "fsync:2-3:E22"), ("by a rename", f"{WITHOUT_LINKS},fsync:2-3:E22")):
            title = f"a move {how} where no folder is synced"
            with folders(r1=b"") as folder:
                got = self.asked(folder, opened() + write(b"data") + OFFLINE + NOTHING, rules)
                self.ends(title, got, TAKEN + b"A4\n" + DONE_ONE + NO_REEL)
                self.same(f"{title}: the reel", held(folder), ({}, {"r1": images([b"data"])}))
                self.said(title, got, r"r1 moved to the bin, folder sync failed: .+ \(os error 22\)")

    def test_bin_is_not_synced_and_its_name_is_not_removed(self) -> None:
        """The reel is in the bin, and its name in the stack is kept: the next open removes it."""
        title, data = "a move whose bin is not synced, and whose link is not removed", images([b"data"])
        with folders(r1=b"", r2=b"") as folder:
            got = self.asked(folder, opened() + write(b"data") + OFFLINE + NOTHING, f"{BIN_SYNC},unlink:1:E5")
            self.ends(f"{title}: it is done", got, TAKEN + b"A4\n" + DONE_ONE + NO_REEL)
            self.same(f"{title}: the reel has both names", held(folder), ({"r1": data, "r2": b""}, {"r1": data}))
            self.said(title, got, NAME_KEPT)
            got = self.asked(folder, opened() + write(b"next"))
            self.ends(f"{title}: then the next reel is opened", got, TAKEN + b"A4\n")
            self.same(f"{title}: then both reels", held(folder), ({"r2": images([b"next"])}, {"r1": data}))

    def test_rename_cannot_be_undone(self) -> None:
        """The bin is not synced, and the reel is not renamed back, because the system refuses that or its name in the stack is taken: the move holds,
        and nothing is replaced."""
        data, unsynced = images([b"data"]), f"{WITHOUT_LINKS},{BIN_SYNC}"
        title = "a rename that the system does not undo"
        with folders(r1=b"") as folder:
            # The look at the start asks for the first rename.
            got = self.asked(folder, opened() + write(b"data") + OFFLINE + NOTHING, f"{unsynced},rename:3:E5")
            self.ends(title, got, TAKEN + b"A4\n" + DONE_ONE + NO_REEL)
            self.same(f"{title}: the reel is in the bin", held(folder), ({}, {"r1": data}))
            self.said(title, got, UNSYNCED)
        for thing in COMES_MEANWHILE:
            title = f"a rename after which the stack has {thing.title} of the name"
            with site(self.p.rmtd) as shop:
                reel = shop.reel("r1")
                # The lock of the bin is given back between the rename and the sync: the third call at a lock.
                with talking(self, shop, how=self.meeting(f"{unsynced},flock:3:S")) as talk:
                    talk.asks(title, (opened(), TAKEN), (write(b"data"), b"A4\n"))
                    reply = stopped(talk, OFFLINE, lambda: thing.make(reel))
                    came = seen(reel)
                    self.same(f"{title}: the move stands", (reply, data_of(shop.bin / "r1")), (DONE_ONE, data))
                self.same(f"{title}: it stands too", (came is not None, seen(reel)), (True, came))

    def test_last_look_is_just_before(self) -> None:
        """Between the last look at a name and its removal, or a rename that could replace it, the server makes no other call."""
        for it in REMOVALS:
            with folders(r1=b"") as folder:
                self.looks_before(it, folder, opened() + write(b"data") + OFFLINE)
        with folders(r1=images([b"data"])) as folder:
            os.link(folder / "st0/r1", folder / "bin/r1")
            self.looks_before(Removal("a move that was cut short", (), (("unlink", "st0/r1"),)), folder, opened())

    def looks_before(self, removal: Removal, folder: Path, sent: bytes) -> None:
        """Each call that removes or replaces a name comes right after a look at it, and these calls are those of the removal."""
        if not (words := traced(self, CALLS)):
            return
        refused = [word for it in removal.refused for word in ("-e", f"inject={it}")]
        server = (self.p.rmtd, "--stdio", *drive_words(folder))
        subprocess.run((*words, *refused, *server), input=sent, capture_output=True, cwd=folder, timeout=GUARD_SECONDS, check=False)
        made = re.findall(r"^(?:\d+ +)?(\w+)\((.*)\) += ", (folder / "calls").read_text(), re.MULTILINE)
        # Those of the look at the start have other names.
        changes = [at for at, (call, given) in enumerate(made) if call.startswith(("unlink", "rename")) and "/r1" in given]
        found = [(made[at][0].removesuffix("2").removesuffix("at"), looked_at(*made[at - 1])) for at in changes]
        self.same(f"{removal.title}: the call, and the last look", found, [*removal.calls], made[-20:])

    def test_no_name_can_be_removed_after_a_move(self) -> None:
        """The reel is in the bin, and nothing is opened until its name in the stack can be removed."""
        title, data = "a move after which no name can be removed", images([b"data"])
        with folders(r1=b"", r2=b"") as folder:
            got = self.asked(folder, opened() + write(b"data") + OFFLINE + CLOSE + opened() + write(b"x"), "unlink:1+:E5")
            wanted = TAKEN + b"A4\n" + DONE_ONE + TAKEN + IO_ERROR + NOTHING_OPEN
            self.ends(f"{title}: the reel is in the bin, and nothing is opened", got, wanted)
            self.same(f"{title}: it stands", data_of(folder / "bin/r1"), data, held(folder))
            left = r"r1 moved to the bin, its name in the stack could not be removed: .+ \(os error 5\)"
            self.said(title, got, left, r"open refused: .*/st0/r1: remove: .+ \(os error 5\)")
            got = self.asked(folder, opened() + write(b"next"))
            self.ends(f"{title}: then the next reel is opened", got, TAKEN + b"A4\n")
            self.same(f"{title}: then both reels", held(folder), ({"r2": images([b"next"])}, {"r1": data}))


class Links(MoveCase):
    """Moves where there are no hard links, and of a reel that has another one."""

    def test_file_system_without_links(self) -> None:
        """The reel is renamed, if the bin has no such name."""
        for name, error in NO_LINKS.items():
            title = f"a file system without links, {name}"
            with site(self.p.rmtd) as shop:
                reel, there = shop.reel("r1", b"data"), shop.bin / "r1"
                with talking(self, shop, how=self.meeting(f"link:1+:E{error}")) as talk:
                    talk.asks(title, (opened(), TAKEN))
                    there.write_bytes(b"older")
                    talk.asks(f"{title}, and the bin has the name", (OFFLINE, IO_ERROR), (b"R9\n", b"A4\ndata"))
                    stands = data_of(there), data_of(reel)
                    self.same(f"{title}, and the bin has the name: both stand", stands, (b"older", images([b"data"])))
                    there.unlink()
                    talk.asks(f"{title}, a move", *MOVED)
                    self.is_moved(f"{title}: the reel is moved", shop, images([b"data"]))

    def test_reel_has_a_link_elsewhere(self) -> None:
        with site(self.p.rmtd) as shop, talking(self, shop) as talk:
            other = shop.folder / "copy"
            os.link(shop.reel("r1", b"data"), other)
            talk.asks("a reel that has a link elsewhere", (opened(), TAKEN), (b"R9\n", b"A4\ndata"), *MOVED)
            stands = seen(shop.bin / "r1"), shop.names(), data_of(other)
            title = "a reel that has a link elsewhere is moved, and the link stays"
            self.same(title, stands, (seen(other), ([], ["r1"]), images([b"data"])))

    def test_two_servers_without_links(self) -> None:
        """The bin is locked until a reel is renamed: another server that moves a reel of the same name waits, and finds the name taken then. Both
        reels stand."""
        title, no_links = "two servers without links", f"link:1+:E{NO_LINKS['EPERM']}"
        with site(self.p.rmtd, drives=2) as shop:
            reels = [shop.reel("r1", data, stack=stack) for data, stack in zip((b"one", b"two"), shop.stacks)]
            # The look at the start asks for one rename for each of the two drives.
            stops = self.meeting(f"{no_links},rename:3:S")
            with talking(self, shop, how=stops) as first, talking(self, shop, how=self.meeting(no_links)) as second:
                first.asks(title, (opened(), TAKEN))
                second.asks(title, (opened(1), TAKEN))
                meanwhile = f"{title}: the second one, before the first one's rename"
                reply = stopped(first, OFFLINE, lambda: second.asks(meanwhile, (OFFLINE, IO_ERROR)))
                self.same(f"{title}: the first one moves its reel", reply, DONE_ONE)
                second.asks(f"{title}: the second one, after it", (OFFLINE, IO_ERROR), (b"R9\n", b"A3\ntwo"))
            stands = [data_of(it) for it in (shop.bin / "r1", *reels)]
            self.same(f"{title}: both reels stand", stands, [images([b"one"]), None, images([b"two"])])


class Opens(MoveCase):
    """Opens of a reel whose name the bin has, whose lock fails, or whose file is another one by then."""

    def test_lock_fails(self) -> None:
        """A lock that fails, and not as another has it, is not had: nothing is opened or moved, and the system's reason is told."""
        reel = images([b"data"])
        for error in (5, 22, 37):
            why = rf"lock: {os.strerror(error)} \(os error {error}\)"
            for title, sent, rule, wanted, line in (
                ("a reel", opened() + b"R9\n", "flock:1", IO_ERROR + NOTHING_OPEN, rf"open refused: .*/st0/r1: {why}"),
                ("the bin", opened() + OFFLINE + b"R9\n", "flock:2", TAKEN + IO_ERROR + b"A4\ndata", rf"move refused: .*/bin: {why}"),
            ):
                title = f"the lock of {title} fails with {error}"
                with folders(r1=reel) as folder:
                    got = self.asked(folder, sent, f"{rule}:E{error}")
                    self.ends(title, got, wanted)
                    self.same(f"{title}: the reel stands", held(folder), ({"r1": reel}, {}))
                    self.said(title, got, line)

    def test_bin_has_the_name(self) -> None:
        """A reel whose name the bin has is opened to read alone, at each open: nothing is written, and it is told why."""
        for thing in HAD_BEFORE:
            title = f"the bin has {thing.title} of the name"
            with folders(r1=images([b"newer"])) as folder:
                reel, there = folder / "st0/r1", folder / "bin/r1"
                thing.make(there)
                before = seen(there), written(reel)
                sent = opened() + write(b"x") + b"R9\nI0\n1\n" + OFFLINE + CLOSE + opened(mode=1) + write(b"x") + CLOSE + opened(mode=0) + b"R9\n"
                got = self.asked(folder, sent)
                answers = TAKEN + IO_ERROR + b"A5\nnewer" + IO_ERROR * 2 + TAKEN, TAKEN + IO_ERROR + TAKEN, TAKEN + b"A5\nnewer"
                self.ends(title, got, b"".join(answers))
                stands = (seen(there), written(reel)), reel.read_bytes()
                self.same(f"{title}: both stand", stands, (before, images([b"newer"])))
                self.said(title, got, HAS_NAME, TAKEN_NAME, READ_ONLY, HAS_NAME, READ_ONLY, HAS_NAME)
                there.rename(folder / "away")
                got = self.asked(folder, opened() + write(b"anew") + CLOSE)
                self.ends(f"{title} no more", got, TAKEN + b"A4\n" + TAKEN)
                self.same(f"{title} no more: it is written", reel.read_bytes(), images([b"anew"]))

    def test_bin_gets_the_name_after_the_open(self) -> None:
        title = "a name that comes into the bin after the open"
        with site(self.p.rmtd) as shop, talking(self, shop) as talk:
            reel = shop.reel("r1")
            talk.asks(title, (opened(), TAKEN))
            shop.bin.joinpath("r1").write_bytes(b"other")
            talk.asks(title, (write(b"data"), b"A4\n"), (OFFLINE, IO_ERROR), (b"R9\n", b"A4\ndata"))
            self.same(f"{title}: both stand", (data_of(reel), data_of(shop.bin / "r1")), (images([b"data"]), b"other"))

    def test_file_is_replaced_as_it_is_opened(self) -> None:
        """A reel's file in whose place something else stands by the time that it is opened is not latched, and nothing of it is written."""
        number = self.opens_until_locked()
        self.holds("a reel's file is opened by a call that is seen", number > 0, number)
        for thing, reply in IN_PLACE:
            title = f"{thing.title} in place of a reel that is being opened"
            with site(self.p.rmtd) as shop:
                reel, other, gone = shop.reel("r1", b"data"), shop.folder / "other", shop.folder / "r1 away"
                other.write_bytes(b"other")
                with talking(self, shop, how=self.meeting(f"open:{number}:S")) as talk:
                    got = stopped(talk, opened(), lambda: (reel.rename(gone), thing.make(reel)))
                    self.same(title, got, reply)
                    if reply == TAKEN:
                        talk.asks(f"{title}: it is latched in its place", (b"R9\n", b"A7\nanother"))
                    else:
                        talk.asks(f"{title}: nothing is open", (write(b"x"), NOTHING_OPEN))
                self.same(f"{title}: what stood stands", (data_of(gone), data_of(other)), (images([b"data"]), b"other"))

    def test_reel_that_may_only_be_read(self) -> None:
        """A reel that the system opens to read alone, as on a file system without writes, is read, and not written. Any other failure refuses the
        open."""
        number, reel = self.opens_until_locked(), images([b"data"])
        sent = opened() + b"R9\n" + write(b"x") + b"I0\n1\n" + CLOSE
        for error, opens in ((30, True), (13, True), (5, False), (24, False)):
            title = f"a reel whose open to write fails with {error}"
            with folders(r1=reel) as folder:
                got = self.asked(folder, sent, f"open:{number}:E{error}")
                self.ends(title, got, TAKEN + b"A4\ndata" + IO_ERROR * 2 + TAKEN if opens else IO_ERROR + NOTHING_OPEN * 4)
                self.same(f"{title}: it stands", held(folder), ({"r1": reel}, {}))
                refused = rf"open refused: .*/st0/r1: open: {os.strerror(error)} \(os error {error}\)"
                self.said(title, got, READ_ONLY if opens else refused)

    def test_pipe_in_place_of_a_folder(self) -> None:
        """It is an error of the device at once: nobody waits for its other end."""
        for which in ("bin", "st0"):
            title = f"a pipe in place of {which}"
            with site(self.p.rmtd) as shop:
                shop.reel("r1", b"data")
                with talking(self, shop) as talk:
                    talk.asks(title, (opened(), TAKEN))
                    place = shop.folder / which
                    with away(place):
                        os.mkfifo(place)
                        talk.asks(title, (OFFLINE, IO_ERROR), (b"R9\n", b"A4\ndata"), (CLOSE, TAKEN), (opened(), IO_ERROR))
                        place.unlink()
                    talk.asks(f"{title} no more", (opened(), TAKEN), *MOVED)
