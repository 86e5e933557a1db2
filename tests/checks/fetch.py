"""Brings the reels of stacks home by the built `rdump fetch` from the built `rmtd`, and compares each copy with the reel to the byte.

The right copy follows from the reel's file: a plain decoder gives its entries up to the first mark. What is printed of it is what the same
decoder says of the copy. The plain model of a tape server takes the place of `rmtd` where what is sent is looked at, or a reply is to be another
one. The client is also killed before each call of the system that it makes at its files and its connection.
"""

from __future__ import annotations

import fcntl
import os
import random
import signal
import socket
import subprocess
from itertools import permutations
from pathlib import Path
from typing import NamedTuple

from tests.lib.case import random_seed
from tests.lib.connections import address_of
from tests.lib.drives import drive_words, files_of, folders, held, moved_once
from tests.lib.dumping import as_nobody, in_room
from tests.lib.ended import ABNORMAL, DONE, FAILED, Ended
from tests.lib.fetches import CANNOT, MOST_NAME, NO_MARK, FetchCase, copies, copy_name, copy_of, fetched, label_in, part_name, stays
from tests.lib.listeners import Relay
from tests.lib.listings import GREATEST_RECORD, decoded
from tests.lib.played_servers import Model
from tests.lib.refusals import refused_with
from tests.lib.restores import (
    BACK,
    CUT,
    EMPTY,
    EMPTY_OR_MARK,
    FOREIGN,
    INTO,
    KINDS,
    LOOK,
    MARK,
    MORE,
    NO_REPLY,
    OPEN,
    OVER,
    READ,
    UNPRINTED,
    USR,
    Dump,
    Site,
    answering,
    blocks,
    cuts,
    entries,
    fetch_words,
    foreign,
    laid,
    laid_reel,
    named,
    reel,
    up_to_mark,
)
from tests.lib.shim import compiled
from tests.lib.terminals import CLEAR, Terminal
from tests.lib.traced import in_order, made_in, traced
from tests.lib.waiting import GUARD_SECONDS
from tests.lib.wire import CLOSE, DEVICE, OFFLINE, REWIND
from tests.models.found import ANEW, DIFFERS, UNKNOWN, VOID, begun_line, catalog_of, finished_line, sum_of, volume_line
from tests.models.found import Dump as FoundDump
from tests.models.rmtd import Entry, image, images

# How many random stacks are fetched.
STACKS = int(os.environ.get("STACKS") or 60)

THERE = "it is there already, and is not equal to the reel"
NO_FILE, TAKEN = "it is no plain file", "another run writes it"
TOO_LARGE = "File too large (os error 27)"


class Whole(FetchCase):
    """Reels that are whole."""

    def test_stacks(self) -> None:
        """A stack in each order. Each copy is the reel's file to the byte."""
        for order in [*permutations((1, 2, 3)), (1, 1, 2, 3), (3, 2, 1, 2, 3)]:
            name = f"a stack of {order}"
            self.clear()
            reels = [reel(it) for it in order]
            with laid(self.p, **named(*reels)) as site:
                self.told(name, site.fetch(), fetched(*reels), DONE, "")
                site.reels(name, {}, named(*reels))
            self.has(name, copies(*reels))
            self.same(f"{name}: the reels' bytes", {*copies(*reels).values()}, {*reels})

    def test_kinds(self) -> None:
        """Volumes of each kind; what is behind the mark of one is not seen, and is not copied."""
        for name, data in {**KINDS, **MORE}.items():
            self.clear()
            with laid(self.p, r=data) as site:
                self.told(name, site.fetch(), fetched(data), DONE, "")
                site.reels(name, {}, {"r": data})
            self.has(name, {copy_name(data): data if name in KINDS else reel(1)})

    def test_many_reels(self) -> None:
        """A stack of 20 reels, and one that is fetched again in part."""
        reels = [images([USR.label(it + 1, it), bytes((it,)) * 100, None]) for it in range(20)]
        with laid(self.p, **named(*reels)) as site:
            self.told("many reels", site.fetch(), fetched(*reels), DONE, "")
            site.reels("many reels", {}, named(*reels))
        self.has("many reels", copies(*reels))
        more = [*reels[5:9], images([USR.label(50, 49), b"new", None])]
        with laid(self.p, **named(*more)) as site:
            self.told("some again", site.fetch(), fetched(*more), DONE, "")
            site.reels("some again", {}, named(*more))
        self.has("some again", copies(*reels, *more))

    def test_folders(self) -> None:
        """The folder by its path, with a slash behind it, from within, and through a link. Other files in it stay."""
        self.p.folder.joinpath("link").symlink_to("into")
        for path in (INTO, f"{INTO}/", str(self.into), "link", "./into/../into"):
            self.clear({"other": b"1", ".hidden": b"2"})
            with laid(self.p, r=reel(1)) as site:
                self.told(path, site.fetch(into=path), fetched(reel(1)), DONE, "")
            self.has(path, {"other": b"1", ".hidden": b"2"} | copies(reel(1)))
        with laid(self.p, r=reel(2)) as site:
            got = self.p.run("-c", f'cd into && exec "$0" fetch --to {site.address} --device {DEVICE} --into .', self.p.rdump, program="sh")
            self.told("from within", got, fetched(reel(2)), DONE, "")

    def test_what_is_sent(self) -> None:
        """The requests of a whole reel, and that the drive is opened to read."""
        with Model(laid_reel(entries(1)), laid_reel(entries(3))) as model:
            got = self.p.run(*fetch_words(model.address))
            self.told("what is sent", got, fetched(reel(1), reel(3)), DONE, "")
            asked = [[OPEN, REWIND, *[READ] * (count + 2), BACK, REWIND, b"I3\n%d\n" % (count + 1), OVER, OFFLINE, CLOSE] for count in (2, 1)]
            self.same("what is sent: the requests", model.logs, [*asked, [OPEN]])

    def test_empty_stack(self) -> None:
        with laid(self.p) as site:
            self.told("an empty stack", site.fetch(), "", ABNORMAL, site.refused(6))
        self.has("an empty stack", {})

    def test_order_of_calls(self) -> None:
        """Under strace: the part and the folder are synced, and the copy has its name, before the reel goes."""
        words = traced(self, "openat,fsync,link,linkat,unlink,unlinkat,sendto,flock,ftruncate,writev")
        if not words:
            return
        with laid(self.p, **named(reel(1), reel(2))) as site:
            got = self.p.run(*words[1:], self.p.rdump, *fetch_words(site.address), program=words[0])
            self.told("under strace", got, fetched(reel(1), reel(2)), DONE, "")
        wanted: list[tuple[str, str, str]] = []
        for data in (reel(1), reel(2)):
            part, name = rf"into/{part_name(data)}".replace(".", r"\."), rf"into/{copy_name(data)}".replace(".", r"\.")
            wanted += [
                ("the part is opened", "open", part),
                ("it is locked", "flock", rf"{part}>, LOCK_EX"),
                ("the records are written", "writev", part),
                ("it is synced", "fsync", part),
                ("it gets its name", "link", rf'{part}.*{name}"'),
                ("the part's name goes", "unlink", part),
                ("the folder is synced", "fsync", r"/into>$"),
                ("the reel is taken away", "sendto", r'"I6\\n1\\n"'),
            ]
        in_order(self, made_in(self.p.folder), tuple(wanted))

    def test_terminal(self) -> None:
        """A terminal shows the volume, the block and the rate, and the line is gone at the end."""
        reels = [images([USR.label(number, 0), *[bytes(GREATEST_RECORD)] * 4, None]) for number in (1, 2)]
        with laid(self.p, **named(*reels)) as site, Terminal() as terminal:
            got = site.fetch(stderr=terminal.far)
            self.same("at a terminal", (got.output, got.status), (fetched(*reels), DONE))
            shown = terminal.shown()
            self.holds("at a terminal: volume, block and rate", "\rvolume 1, block " in shown and "iB/s\x1b[K" in shown, shown)
            self.holds("at a terminal: the line is gone", shown.endswith(CLEAR), shown)


class Stays(FetchCase):
    """Reels that stay in the drive."""

    def stays(self, name: str, data: bytes, why: str, left: dict[str, bytes]) -> None:
        """A reel that stays, as the first one and as the last, and what is left of it."""
        rows: tuple[tuple[list[bytes], list[bytes]], ...] = (([], [reel(3)]), ([reel(1)], []))
        for before, behind in rows:
            title = f"{name}, {'the last' if before else 'the first'}"
            self.clear()
            files = named(*before, data, *behind)
            with laid(self.p, **files) as site:
                self.told(title, site.fetch(), fetched(*before), ABNORMAL, why.format(to=site.address))
                gone = {it: files[it] for it in [*files][: len(before)]}
                site.reels(title, {it: files[it] for it in files if it not in gone}, gone)
            self.has(title, copies(*before) | left)

    def test_no_volume(self) -> None:
        """Nothing is left of a reel without a label."""
        for name, (data, what) in FOREIGN.items():
            self.stays(name, data, foreign("{to}", what), {})

    def test_cuts(self) -> None:
        """Reels that were cut at each kind of place have no mark. The part keeps all that was read."""
        for name, data in cuts(reel(2)).items():
            self.stays(name, data, stays("{to}", data, NO_MARK), {part_name(data): images(decoded(data)[0])})

    def test_blocks_of_two_lengths(self) -> None:
        for sizes in ((1024, 1023), (10, 11), (5, 5, 6), (7, GREATEST_RECORD)):
            data = images([USR.label(2, 2), *(bytes(it) for it in sizes), None])
            why = f"a block of {sizes[-1]} bytes after one of {sizes[0]}"
            left = images([USR.label(2, 2), *(bytes(it) for it in sizes[:-1])])
            self.stays(f"blocks of {sizes}", data, stays("{to}", data, why), {part_name(data): left})

    def test_the_next_run(self) -> None:
        """The part that an earlier run left is written anew, shorter or longer, and goes."""
        for name, data in cuts(reel(2)).items():
            self.clear()
            with laid(self.p, r=data) as site:
                self.same(f"{name}: it stays", site.fetch().status, ABNORMAL)
                site.folder.joinpath("st0/r").write_bytes(reel(2))
                self.told(f"{name}: the whole", site.fetch(), fetched(reel(2)), DONE, "")
            self.has(f"{name}: the whole", copies(reel(2)))

    def test_output_that_cannot_be_written(self) -> None:
        """The reel is in the bin, its copy is there, and the run ends."""
        with laid(self.p, **named(reel(1), reel(2))) as site, open("/dev/full", "wb") as full:
            got = site.fetch(stdout=full.fileno())
            self.told("a full output", got, "", ABNORMAL, UNPRINTED)
            site.reels("a full output", {"r001": reel(2)}, {"r000": reel(1)})
        self.has("a full output", copies(reel(1)))


class Catalogs(FetchCase):
    """Reels that are compared with a catalog."""

    def test_catalogs(self) -> None:
        """Sums that are equal, and that are not known. A copy whose sum is equal has the sum of the line by SHA-256."""
        begun = catalog_of(reel(1))
        for name, text in (
            ("all equal", catalog_of(*map(reel, (1, 2, 3)))),
            ("none known", b""),
            ("one known", catalog_of(reel(2))),
            ("begun anew, with equal reels", catalog_of(*map(reel, (1, 2, 3))) * 2),
            ("no line begins the dump", b"".join(volume_line(reel(it)) for it in (1, 2, 3))),
            ("it began, and no volume is known", begun[: begun.index(b"\n") + 1]),
        ):
            self.clear()
            self.p.file("catalog", text)
            reels = [reel(it) for it in (1, 2, 3)]
            with laid(self.p, **named(*reels)) as site:
                self.told(name, site.fetch("--catalog", "catalog"), fetched(*reels, catalog=text), DONE, "")
                site.reels(name, {}, named(*reels))
            self.has(name, copies(*reels))
        known = {volume_line(reel(it)).split()[0].decode() for it in (1, 2, 3)}
        self.same("the copies' sums", {sum_of(it.read_bytes()) for it in self.into.iterdir()}, known)

    def test_reels_that_stay(self) -> None:
        """A reel stays whose sum differs, or that is of a dump that was begun anew, or of a volume that was written again. What was read is left in
        the part: its records."""
        changed = images([USR.label(2, 2), *blocks(2, 4), b"x" * 1024, None])
        less = images([USR.label(2, 2), *blocks(2, 4), None])
        both, first = catalog_of(reel(1), reel(2)), catalog_of(reel(1))
        begun = first[: first.index(b"\n") + 1]
        for name, data, text, why in (
            ("a byte of a block", changed, both, DIFFERS),
            ("a block less", less, both, DIFFERS),
            ("another sum", reel(2), catalog_of(reel(1), changed), DIFFERS),
            ("begun anew", reel(2), begun + volume_line(reel(2)) + first, ANEW),
            ("begun anew, with another reel of this volume", reel(2), begun + volume_line(reel(2)) + catalog_of(reel(1), changed), ANEW),
            ("written again", reel(2), both + volume_line(changed), VOID),
            ("the volume before was written again", reel(2), begun + volume_line(changed) + volume_line(reel(2)) + volume_line(reel(1)), VOID),
        ):
            self.clear()
            self.p.file("catalog", text)
            files = named(reel(1), data, reel(3))
            with laid(self.p, **files) as site:
                got = site.fetch("--catalog", "catalog")
                self.told(name, got, fetched(reel(1), catalog=text), ABNORMAL, stays(site.address, data, why))
                site.reels(name, {"r001": data, "r002": reel(3)}, {"r000": reel(1)})
            self.has(name, copies(reel(1)) | {part_name(data): data[:-4]})

    def test_finished_dumps(self) -> None:
        """Whether the dump is finished does not matter."""
        text = catalog_of(reel(1))
        dump = FoundDump(*label_in(reel(1))[:4])
        for more in (finished_line(dump, 1), finished_line(dump, 5), begun_line(dump._replace(level=9))):
            self.clear()
            self.p.file("catalog", text + more)
            with laid(self.p, r=reel(1)) as site:
                self.told(f"{more!r}", site.fetch("--catalog", "catalog"), fetched(reel(1), catalog=text), DONE, "")

    def test_other_labels(self) -> None:
        """A line of another label says nothing of a reel."""
        for other in (Dump(name="/home"), Dump(level=1), Dump(date=1), Dump(since=5)):
            self.clear()
            text = catalog_of(reel(2, other))
            self.p.file("catalog", text)
            with laid(self.p, r=reel(2)) as site:
                self.told(f"{other}", site.fetch("--catalog", "catalog"), fetched(reel(2), catalog=text), DONE, "")

    def test_more_behind_the_mark(self) -> None:
        """The sum is that of the copy."""
        text = catalog_of(reel(1))
        self.p.file("catalog", text)
        data = MORE["a second volume"]
        with laid(self.p, r=data) as site:
            self.told("more behind", site.fetch("--catalog", "catalog"), fetched(data, catalog=text), DONE, "")

    def test_reels_that_are_not_compared(self) -> None:
        """Of a reel that is not whole, or no volume, the same is told as without a catalog."""
        cut = reel(2)[:-4]
        for name, data, told in (
            ("no mark", cut, stays("{to}", cut, NO_MARK)),
            *((name, data, foreign("{to}", what)) for name, (data, what) in FOREIGN.items()),
        ):
            for text in (b"", catalog_of(reel(2))):
                self.p.file("catalog", text)
                with laid(self.p, r=data) as site:
                    self.told(name, site.fetch("--catalog", "catalog"), "", ABNORMAL, told.format(to=site.address))
                    site.reels(name, {"r": data}, {})

    def test_changed_bytes(self) -> None:
        """A byte of a small reel is changed: it is never told to be equal, and goes only if its label is another one."""
        data = images([USR.label(1, 0), b"block one", b"block two", None])
        self.p.file("catalog", catalog_of(data))
        # The label's zero bytes are alike.
        for at in [it for it in range(len(data)) if not (70 < it < 1020 and it % 37)]:
            self.clear()
            changed = data[:at] + bytes((data[at] ^ 1,)) + data[at + 1 :]
            with laid(self.p, r=changed) as site:
                got = site.fetch("--catalog", "catalog")
                is_unknown = got.status == DONE and got.output.endswith(f": whole, {UNKNOWN}\n")
                self.holds(f"byte {at} is changed", is_unknown or (got.output, got.status) == ("", ABNORMAL), got)
                stack, taken = ({}, {"r": changed}) if is_unknown else ({"r": changed}, {})
                site.reels(f"byte {at} is changed", stack, taken)


class There(FetchCase):
    """Files that are in the folder already."""

    def test_equal_copies(self) -> None:
        """Such a copy keeps its file, and the reel goes."""
        for data in (reel(2), images([USR.label(1, 0), None]), images([USR.label(1, 0), *[bytes(GREATEST_RECORD)] * 2, None])):
            self.clear(copies(data))
            before = (self.into / copy_name(data)).stat()
            with laid(self.p, r=data) as site:
                self.told("an equal copy", site.fetch(), fetched(data), DONE, "")
                site.reels("an equal copy", {}, {"r": data})
            after = (self.into / copy_name(data)).stat()
            self.same("an equal copy: the file", (after.st_ino, after.st_mtime_ns, after.st_nlink), (before.st_ino, before.st_mtime_ns, 1))
            self.has("an equal copy", copies(data))

    def test_other_copies(self) -> None:
        """They stay as they are, and so does the reel. The part keeps all that was read."""
        data = reel(2)
        for name, there in (
            ("empty", b""),
            ("a byte less", data[:-1]),
            ("a byte more", data + b"\0"),
            ("another first byte", b"x" + data[1:]),
            ("another last byte", data[:-1] + b"x"),
            ("another byte", data[:2000] + b"\0" + data[2001:]),
            ("another volume", reel(1)),
        ):
            self.clear({copy_name(data): there})
            with laid(self.p, r=data) as site:
                told = stays(site.address, data, f"{INTO}/{copy_name(data)}: {THERE}")
                self.told(name, site.fetch(), "", ABNORMAL, told)
                site.reels(name, {"r": data}, {})
            self.has(name, {copy_name(data): there, part_name(data): data})

    def test_doubled_reels(self) -> None:
        """Two reels of one label on a stack: equal ones both go, and of others the second stays."""
        other = images([USR.label(2, 2), *blocks(2, 4), b"y" * 1024, None])
        later = reel(2, Dump(since=7))
        for data in (other, later, images([USR.label(2, 1), *blocks(2, 5), None])):
            self.clear()
            with laid(self.p, **named(reel(2), reel(2), data)) as site:
                told = stays(site.address, data, f"{INTO}/{copy_name(data)}: {THERE}")
                self.told("doubled", site.fetch(), fetched(reel(2), reel(2)), ABNORMAL, told)
                site.reels("doubled", {"r002": data}, {"r000": reel(2), "r001": reel(2)})
            self.has("doubled", copies(reel(2)) | {part_name(data): data})

    def test_no_files(self) -> None:
        """At the name of a copy or of its part links are never followed, and what is no file is never opened."""
        data = reel(2)
        away, name, part = self.p.folder / "away", copy_name(data), part_name(data)
        for place, which, target, other, left in ((name, "", data, part, data), (part, "its .part: ", b"kept", name, None)):
            for kind in ("a link", "a dangling link", "a folder", "a pipe"):
                title = f"{kind} at {place}"
                self.clear()
                away.write_bytes(target)
                self.made(kind, self.into / place)
                with laid(self.p, r=data) as site:
                    self.told(title, site.fetch(), "", ABNORMAL, stays(site.address, data, f"{INTO}/{name}: {which}{NO_FILE}"))
                    site.reels(title, {"r": data}, {})
                self.same(f"{title}: the other name", self.copy(other), left)
                self.same(f"{title}: away", (away.read_bytes(), self.p.folder.joinpath("nowhere").exists()), (target, False))

    def made(self, name: str, at: Path) -> None:
        """Makes what is no file at a path."""
        if name == "a folder":
            at.mkdir()
        elif name == "a pipe":
            os.mkfifo(at)
        else:
            at.symlink_to(self.p.folder / ("away" if name == "a link" else "nowhere"))

    def test_parts(self) -> None:
        """A part that is there is written anew. One that has the copy's name too, as after a stop, does not take that along."""
        data = reel(2)
        for name, part in (("an empty part", b""), ("a longer part", b"x" * 100_000), ("the same", data)):
            self.clear({part_name(data): part})
            with laid(self.p, r=data) as site:
                self.told(name, site.fetch(), fetched(data), DONE, "")
            self.has(name, copies(data))
        for there in (data, reel(1), data + b"\0"):
            self.clear({copy_name(data): there})
            (self.into / part_name(data)).hardlink_to(self.into / copy_name(data))
            with laid(self.p, r=data) as site:
                told = "" if there == data else stays(site.address, data, f"{INTO}/{copy_name(data)}: {THERE}")
                self.told("a second name", site.fetch(), "" if told else fetched(data), ABNORMAL if told else DONE, told)
            self.has("a second name", {copy_name(data): there} | ({part_name(data): data} if told else {}))

    def test_locked_part(self) -> None:
        """Another run has the part: the reel stays, and so does what the other wrote."""
        data = reel(2)
        self.clear({part_name(data): b"another's"})
        with open(self.into / part_name(data), "rb") as file, laid(self.p, r=data) as site:
            fcntl.flock(file, fcntl.LOCK_EX)
            told = stays(site.address, data, f"{INTO}/{copy_name(data)}: its .part: {TAKEN}")
            self.told("a locked part", site.fetch(), "", ABNORMAL, told)
            site.reels("a locked part", {"r": data}, {})
            self.has("a locked part", {part_name(data): b"another's"})
            fcntl.flock(file, fcntl.LOCK_UN)
            self.told("a part that is free again", site.fetch(), fetched(data), DONE, "")
        self.has("a part that is free again", copies(data))

    def test_two_runs_at_once(self) -> None:
        """Two runs from two servers with the same reels into one folder: each reel that goes has its copy, and a run that met the other ends."""
        reels = [images([USR.label(it + 1, it), bytes((it,)) * 3000, None]) for it in range(12)]
        with laid(self.p, **named(*reels)) as one, laid(self.p, **named(*reels)) as other:
            started = [self.enterContext(self.p.started(*fetch_words(it.address))) for it in (one, other)]
            ends = [it.communicate() for it in started]
            for site, run, (output, told) in zip((one, other), started, ends):
                stack, taken = held(site.folder)
                met = f"its .part: {TAKEN}" in told.decode() or "another file took its place" in told.decode()
                self.same("at once: the status", run.returncode, ABNORMAL if stack else DONE, told)
                self.same("at once: it ended early only where it met the other", bool(stack), met, told)
                self.same("at once: what is printed", output.decode(), fetched(*(taken[it] for it in sorted(taken))))
                self.holds("at once: each reel that is gone has its copy", all(self.copy(copy_name(it)) == it for it in taken.values()))
                rest = fetched(*(stack[it] for it in sorted(stack)))
                self.told("at once: the rest", site.fetch(), rest, DONE if stack else ABNORMAL, "" if stack else site.refused(6))
        self.has("at once", copies(*reels))


class Names(FetchCase):
    """The names of copies."""

    def test_unlucky_names(self) -> None:
        """No name leads out of the folder, is hidden, or is that of another dump."""
        wanted = {
            "/": "%2F",
            "/usr/home": "%2Fusr%2Fhome",
            ".": "%2E",
            "..": "%2E.",
            "../../etc/passwd": "%2E.%2F..%2Fetc%2Fpasswd",
            "%2F": "%252F",
            "%": "%25",
            "a.b": "a.b",
            "-rf": "-rf",
            "~root": "~root",
            "*?[a]$HOME`x`;|&<>'\"\\!#": "*?[a]$HOME`x`;|&<>'\"\\!#",
            "a.0.951782400.1": "a.0.951782400.1",
        }
        reels = {name: images([Dump(name=name).label(1, 0), name.encode(), None]) for name in wanted}
        with laid(self.p, **named(*reels.values())) as site:
            self.told("unlucky names", site.fetch(), fetched(*reels.values()), DONE, "")
        self.has("unlucky names", {f"{text}.0.951782400.1": reels[name] for name, text in wanted.items()})
        self.same("unlucky names: beside the folder", sorted(it.name for it in self.p.folder.iterdir()), [INTO])

    def test_long_names(self) -> None:
        """A name with more bytes than a file's can have is refused before anything is read of the reel but its label."""
        end = len(".0.951782400.1")
        for name in ("x" * (MOST_NAME - end), "x" * (MOST_NAME - end - 3) + "/"):
            data = images([Dump(name=name).label(1, 0), b"x", None])
            self.clear()
            with laid(self.p, r=data) as site:
                self.told("the longest name", site.fetch(), fetched(data), DONE, "")
            self.has("the longest name", copies(data))
        self.clear()
        for name in ("x" * (MOST_NAME - end + 1), "x" * 255, "/" * 255):
            record = Dump(name=name).label(1, 0)
            length = len(copy_name(images([record])))
            with Model(laid_reel([record, b"x", None])) as model:
                why = f"{INTO}/{copy_name(images([record]))}: its name has {length} bytes, and {MOST_NAME} are the most"
                told = stays(model.address, images([record]), why)
                self.told("a name that is too long", self.p.run(*fetch_words(model.address)), "", ABNORMAL, told)
                self.same("a name that is too long: what is sent", model.logs, [[OPEN, REWIND, READ]])
        self.has("a name that is too long", {})


class Arguments(FetchCase):
    """Arguments, folders and files that cannot be used: nothing is sent."""

    def fails_before(self, name: str, words: tuple[str, ...], told: str) -> None:
        """It ends with status 1, having said so. Nobody was asked for anything."""
        with Model(laid_reel(entries(1))) as model:
            got = self.p.run("fetch", *(it.format(to=model.address) for it in words))
            self.same(name, (got.output, got.status, told in got.told, model.logs), ("", FAILED, True, []), got.told)

    def test_arguments(self) -> None:
        usual = ("--to", "{to}", "--device", DEVICE, "--into", INTO)
        for name, words, told in (
            ("no address", usual[2:], "--to"),
            ("no device", (*usual[:2], *usual[4:]), "--device"),
            ("no folder", usual[:4], "--into"),
            ("a bad address", ("--to", "x", *usual[2:]), "invalid value for '--to <ADDRESS>'"),
            ("a bad device", (*usual[:2], "--device", "a\nb", *usual[4:]), "invalid value for '--device <DEVICE>'"),
            ("a bad limit", (*usual, "--timeout", "x"), "invalid value for '--timeout <SECONDS>'"),
            ("another argument", (*usual, "--all"), "--all"),
            ("no such folder", (*usual[:4], "--into", "missing"), "rdump: missing: No such file or directory (os error 2)\n"),
            ("a file", (*usual[:4], "--into", "file"), "rdump: file: it is no folder\n"),
            ("no catalog", (*usual, "--catalog", "missing"), "rdump: missing: No such file or directory (os error 2)\n"),
            ("a bad catalog", (*usual, "--catalog", "file"), "rdump: file: it is no catalog: line 1: bad line\n"),
            ("a folder as the catalog", (*usual, "--catalog", INTO), f"rdump: {INTO}: "),
        ):
            self.p.file("file", b"no catalog\n")
            self.fails_before(name, words, told)
        self.has("bad arguments", {})

    def test_timeout(self) -> None:
        with Model(laid_reel(entries(1)), lost=()) as model:
            got = self.p.run(*fetch_words(model.address, "--timeout", "60"))
            self.told("a limit", got, fetched(reel(1)), DONE, "")

    def test_nobody_listens(self) -> None:
        got = self.p.run(*fetch_words("127.0.0.1:1"))
        self.told("nobody listens", got, "", ABNORMAL, "rdump: 127.0.0.1:1: Connection refused (os error 111)\n")


class Requests(FetchCase):
    """Servers that refuse a request, or cut the connection."""

    # The requests of a reel of two blocks, by the names that they have if they are refused.
    KINDS = ("open", "rewind", *["read"] * 4, "back", "rewind again", "forward", "over", "offline", "close")
    REPLIES = {"refused": b"E5\nno\n", "refused otherwise": b"E22\nno\n", "botched": b"x", "lost": None}

    def test_requests_that_fail(self) -> None:
        """Each request of the second reel in turn. The next run fetches the rest."""
        for number, kind in enumerate(self.KINDS):
            for way in self.REPLIES:
                self.request_fails(number, kind, way)

    def request_fails(self, number: int, kind: str, way: str) -> None:
        name = f"{kind} (request {number}) {way}"
        self.clear()
        first = len(self.KINDS)
        second = images([USR.label(2, 2), *blocks(2, 4), None])
        reels = [reel(1), second, reel(3)]
        reply = self.REPLIES[way]
        at = first + number + 1
        with answering(*(laid_reel(decoded(it)[0], f"r{place}") for place, it in enumerate(reels)), replies={at: reply}) as model:
            got = self.p.run(*fetch_words(model.address))
            if kind == "back" and way == "refused":
                self.told(name, got, fetched(*reels), DONE, "")
                return
            is_kept = kind in ("offline", "close")
            self.told(name, got, fetched(*reels[: 1 + is_kept]), ABNORMAL, self.tells(model.address, second, number, kind, way))
            read = up_to_mark(second)[: max(0, min(number - 2, 3))]
            part = {part_name(second): images(read)} if read and not is_kept else {}
            self.has(name, copies(*reels[: 1 + is_kept]) | part)
            model.said, model.lost = {}, ()
            rest = [images(it.entries) for it in model.stack]
            again = self.p.run(*fetch_words(model.address))
            self.told(f"{name}: the rest", again, fetched(*rest), DONE, "")
            self.has(f"{name}: the rest", copies(*reels))

    def tells(self, address: str, data: bytes, number: int, kind: str, way: str) -> str:
        """What is told of the reel whose request this is."""
        search = kind in ("back", "rewind again", "forward", "over")
        error = 5 if way == "refused" else 22
        why = {"botched": NO_REPLY, "lost": CUT}.get(way) or (CANNOT if search else refused_with(error, kind)[:-1])
        place = "stays"
        if kind == "close":
            place = "is in the bin" if way.startswith("refused") else "may be in the bin"
        if kind == "offline" and not way.startswith("refused"):
            place = "may be in the bin"
        return stays(address, data, why, place) if number > 2 else f"rdump: {address}: {why}\n"

    def test_no_record(self) -> None:
        """A reel that gives no record is looked at again, over a connection of its own."""
        kinds: tuple[tuple[str, list[Entry], str], ...] = (("empty", [], EMPTY), ("a mark", [None], MARK))
        for title, records, what in kinds:
            with Model(laid_reel(records)) as model:
                self.told(title, self.p.run(*fetch_words(model.address)), "", ABNORMAL, foreign(model.address, what))
                self.same(f"{title}: what is sent", model.logs[1:], [LOOK])
        with Model(laid_reel([]), lost=(5,)) as model:
            self.told("a look that fails", self.p.run(*fetch_words(model.address)), "", ABNORMAL, foreign(model.address, EMPTY_OR_MARK))

    def test_stack_that_ends(self) -> None:
        """Only E6 to an open, after a reel, is the end of the stack."""
        at = len(self.KINDS) + 1
        for error, text in ((2, b"No such file or directory"), (5, b"Input/output error"), (13, b"Permission denied"), (16, b"Device busy")):
            self.clear()
            with Model(laid_reel(entries(1)), said={at: b"E%d\n%s\n" % (error, text)}) as model:
                told = f"rdump: {model.address}: {refused_with(error, 'open')}"
                self.told(f"E{error}", self.p.run(*fetch_words(model.address)), fetched(reel(1)), ABNORMAL, told)


class Disk(FetchCase):
    """Folders and disks that do not take a copy."""

    def test_full_disk(self) -> None:
        """Files may have so many bytes only. The reel stays, and the next run writes its part anew."""
        data = reel(2)
        for room in (1, 500, 1031, 1032, 2000, len(data) - 5, len(data) - 4, len(data) - 1):
            self.clear()
            with laid(self.p, **named(data, reel(3))) as site:
                got = self.p.run(*fetch_words(site.address), **in_room(room))
                told = stays(site.address, data, f"{INTO}/{copy_name(data)}: {TOO_LARGE}")
                self.told(f"{room} bytes", got, "", ABNORMAL, told)
                site.reels(f"{room} bytes", named(data, reel(3)), {})
                self.has(f"{room} bytes", {part_name(data): data[:room]})
                self.told(f"{room} bytes, and then enough", site.fetch(), fetched(data, reel(3)), DONE, "")
            self.has(f"{room} bytes, and then enough", copies(data, reel(3)))
        self.clear()
        with laid(self.p, r=data) as site:
            self.told("just enough", self.p.run(*fetch_words(site.address), **in_room(len(data))), fetched(data), DONE, "")

    def test_unwritable_folder(self) -> None:
        """A folder in which nothing may be made, and a part that may not be written: the reel stays."""
        data = reel(2)
        self.p.folder.chmod(0o755)
        self.into.chmod(0o555)
        with laid(self.p, r=data) as site:
            why = f"{INTO}/{copy_name(data)}: its .part: Permission denied (os error 13)"
            self.told("an unwritable folder", self.p.run(*fetch_words(site.address), **as_nobody()), "", ABNORMAL, stays(site.address, data, why))
            site.reels("an unwritable folder", {"r": data}, {})
            self.has("an unwritable folder", {})
            self.into.chmod(0o777)
            self.into.joinpath(part_name(data)).write_bytes(b"root's")
            self.into.joinpath(part_name(data)).chmod(0o444)
            self.told("an unwritable part", self.p.run(*fetch_words(site.address), **as_nobody()), "", ABNORMAL, stays(site.address, data, why))
            self.has("an unwritable part", {part_name(data): b"root's"})


# The calls before which the client is killed. Those at files also fail.
AT_FILES = ("open", "openat", "statx", "flock", "ftruncate", "writev", "fsync", "link", "unlink", "write")
AT_CONNECTIONS = ("socket", "connect", "send", "sendmsg", "recv")
CALLS = (*AT_FILES, *AT_CONNECTIONS)


class Killer(Relay):
    """A relay that kills the server once it has answered so many bytes."""

    def __init__(self, address: str, process: subprocess.Popen[bytes], count: int) -> None:
        super().__init__(lambda: address_of(address))
        self.process, self.left = process, count

    def to_client(self, piece: bytes, client: socket.socket) -> None:
        client.sendall(piece[: self.left])
        self.left -= len(piece[: self.left])
        if self.left == 0:
            self.process.kill()
            self.process.wait()


class Stops(FetchCase):
    """The client is killed before each of its calls, or a call fails, or the server is killed. No reel is lost: each that left the stack has an equal
    copy."""

    def setUp(self) -> None:
        super().setUp()
        self.shim = self.enterContext(compiled(self))
        self.reels = [reel(3), images([USR.label(1, 0), None])]

    def run_by(self, site: Site, rule: str, logs: bool = False) -> subprocess.CompletedProcess[bytes]:
        """Fetches by calls that meet this rule."""
        self.shim.forget()
        return subprocess.run(
            (self.p.rdump, *fetch_words(site.address)),
            cwd=self.p.folder,
            env=self.shim.environment(rule, logs=logs),
            stdin=subprocess.DEVNULL,
            capture_output=True,
            timeout=GUARD_SECONDS,
            check=False,
        )

    def counts(self) -> dict[str, int]:
        """How often a fetch of the reels makes each call."""
        self.clear()
        with laid(self.p, **named(*self.reels)) as site:
            got = self.run_by(site, "", logs=True)
            self.same("by itself", (got.returncode, got.stdout.decode()), (DONE, fetched(*self.reels)), got.stderr)
        made = self.shim.calls()
        return {it: made.count(it) for it in CALLS if it in made}

    def test_kills(self) -> None:
        counts = self.counts()
        least = {"writev": 5, "fsync": 4, "link": 2, "unlink": 2, "flock": 2}
        self.same("the calls that a fetch makes", {it: counts.get(it, 0) >= count for it, count in least.items()}, dict.fromkeys(least, True), counts)
        for call, count in counts.items():
            for number in range(1, count + 1):
                self.stopped(f"{call}:{number}:K")
        for number in range(1, counts["writev"] + 1):
            for moved in (0, 3, 700):
                self.stopped(f"writev:{number}:k{moved}")

    def stopped(self, rule: str) -> None:
        """A fetch that this rule kills. The next one fetches the rest. How often a fetch receives depends on the pieces that come: one that receives
        less often ends before."""
        self.clear()
        with laid(self.p, **named(*self.reels)) as site:
            got = self.run_by(site, rule)
            is_over = rule.startswith("recv:") and got.returncode == DONE
            if self.holds(f"{rule}: it is killed", is_over or got.returncode == -signal.SIGKILL, got):
                self.goes_on(rule, site)

    def test_servers_that_are_killed(self) -> None:
        """Another one over the same folders goes on."""
        for count in (3, 20, 500, 1040, 2000, 2080, 2095, 2120, 2150, 3000):
            title = f"the server is killed after {count} bytes"
            self.clear()
            with folders(**named(*self.reels)) as folder:
                words = drive_words(folder)
                with self.p.listening(*words) as (address, server), Killer(address, server, count) as relay:
                    got = self.p.run(*fetch_words(relay.address))
                self.same(title, (got.status, "rdump: " in got.told), (ABNORMAL, True), got)
                with self.p.listening(*words) as (address, _):
                    self.goes_on(title, Site(self.p, folder, address))

    def goes_on(self, rule: str, site: Site) -> None:
        """Each reel that left the stack has an equal copy, and the next run fetches the rest."""
        stack, taken = moved_once(site.folder / "st0", site.folder / "bin")
        there = files_of(self.into)[0]
        lost = [name for name, data in taken.items() if there.get(copy_name(data)) != data]
        self.same(f"{rule}: reels that left without a copy", lost, [], sorted(there))
        wrong = [name for name, data in there.items() if not name.startswith(".") and copies(*self.reels).get(name) != data]
        self.same(f"{rule}: copies that are not whole", wrong, [])
        again = site.fetch()
        stack, taken = moved_once(site.folder / "st0", site.folder / "bin")
        is_over = again == Ended("", site.refused(6), ABNORMAL)
        self.holds(f"{rule}: the next run", is_over or (again.status, again.told) == (DONE, ""), again)
        self.same(f"{rule}: all reels are home", (stack, taken), ({}, named(*self.reels)))
        self.has(f"{rule}: all reels are home", copies(*self.reels))

    def test_calls_that_fail(self) -> None:
        """Each call at the files fails once. The reel stays, or all goes well; no copy is wrong, and the next run fetches the rest."""
        counts = self.counts()
        for call in AT_FILES:
            for number in range(1, counts.get(call, 0) + 1):
                self.fails_by(f"{call}:{number}:{'E28' if call == 'writev' else 'E5'}")
        for rule in ("writev:1+:s1", "writev:2:s1000", "writev:1:E4", "writev:3:E4"):
            self.clear()
            with laid(self.p, **named(*self.reels)) as site:
                got = self.run_by(site, rule)
                self.same(f"{rule}: all goes well", (got.returncode, got.stdout.decode(), got.stderr), (DONE, fetched(*self.reels), b""))
            self.has(rule, copies(*self.reels))

    def fails_by(self, rule: str) -> None:
        """A fetch in which this rule fails a call. The next one fetches the rest."""
        self.clear()
        with laid(self.p, **named(*self.reels)) as site:
            got = self.run_by(site, rule)
            stack, _ = held(site.folder)
            is_whole = (got.returncode, got.stderr) == (DONE, b"") and not stack
            self.holds(f"{rule}: a failure is told", is_whole or (got.returncode in (FAILED, ABNORMAL) and got.stderr), got, len(stack))
            self.goes_on(rule, site)


class RandomReel(NamedTuple):
    """A reel, and whether it stays: by no mark, or by what it begins with."""

    data: bytes
    stays: bool


def random_reel(source: random.Random, number: int) -> RandomReel:
    """A reel of this number: whole, with more behind its mark, cut at any place, or another's."""
    dump = Dump(name=source.choice(("/usr", "/", ".x", "a%b")), level=source.randrange(10))
    size = source.choice((1, 10, 1000, 70_000))
    label = dump.label(number, source.randrange(1000))
    records: list[Entry] = [label, *(source.randbytes(size) for _ in range(source.randrange(5)))]
    kind = source.choice(("whole", "whole", "whole", "whole", "more", "cut", "foreign"))
    whole = images([*records, None])
    if kind == "more":
        behind: tuple[list[Entry], ...] = ([None], [b"x", None], records)
        return RandomReel(whole + images(source.choice(behind)), False)
    if kind == "cut":
        return RandomReel(whole[: source.randrange(len(image(label)), len(whole))], True)
    if kind == "foreign":
        return RandomReel(source.choice((b"", images([None]), images([b"x", None]), image(label)[: source.randrange(len(image(label)))])), True)
    return RandomReel(whole, False)


class Random(FetchCase):
    """Random stacks of random reels, with a catalog at times."""

    def test_random_stacks(self) -> None:
        source = random.Random(random_seed(77))
        for number in range(STACKS):
            self.random_stack(f"stack {number}", source)

    def random_stack(self, name: str, source: random.Random) -> None:
        self.clear()
        reels = [random_reel(source, number + 1) for number in range(source.randrange(1, 7))]
        if source.random() < 0.3:
            reels.append(source.choice(reels))
        files = named(*(it.data for it in reels))
        stop = next((at for at, it in enumerate(reels) if it.stays), len(reels))
        good = [it.data for it in reels[:stop]]
        catalog = catalog_of(*(copy_of(it) for it in good if source.random() < 0.7)) if source.random() < 0.5 else None
        more = () if catalog is None else ("--catalog", self.p.file("catalog", catalog))
        with laid(self.p, **files) as site:
            got = site.fetch(*more)
            self.same(name, (got.output, got.status), (fetched(*good, catalog=catalog), ABNORMAL if stop < len(reels) else DONE), got.told)
            taken = dict([*files.items()][:stop])
            site.reels(name, {it: data for it, data in files.items() if it not in taken}, taken)
        left = files_of(self.into)[0]
        for it in good:
            self.same(f"{name}: a copy", left.get(copy_name(it)), copy_of(it))
        self.same(f"{name}: other files", {it for it in left if not it.startswith(".")}, {copy_name(it) for it in good})
