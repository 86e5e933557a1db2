"""Checks the built server over folders with those who use it: tar, cpio, dump and restore, two servers at once, and an operator.

The clients start the server by a remote shell, in whose place a script of two lines stands. A client that is not on this machine is named
as skipped. If this is run by root, the server of the checks of folders runs as nobody.
"""

from __future__ import annotations

import fcntl
import os
import re
import resource
import shutil
import stat
import subprocess
import sys
import tempfile
import time
from collections import Counter
from contextlib import AbstractContextManager, contextmanager
from functools import cache
from pathlib import Path
from typing import IO, Callable, Iterator

from tests.lib.case import Case
from tests.lib.drives import data_of
from tests.lib.ended import FAILED
from tests.lib.given import given
from tests.lib.logs import bare
from tests.lib.places import built
from tests.lib.stdio_servers import Site, Talk, Turn, access, as_nobody, away, seen, site, talking
from tests.lib.waiting import GUARD_SECONDS, soon
from tests.lib.wire import CLOSE, DEVICE, DONE, DONE_ONE, IO_ERROR, NO_REEL, NO_SPACE, NOTHING, NOTHING_OPEN, OFFLINE, REWIND, opened, write
from tests.models.rmtd import Entry, entries_of, images

# A move waits for the bin's lock for a second by the clock, on a busy machine for more.
LOCK_GUARD_SECONDS = 15

# For so long a call of the system is held up.
DELAY_SECONDS = 6

# A folder on another file system than that of the others.
MEMORY = "/dev/shm"

# Both ways in which a server is started.
WAYS = ("--stdio",), ("--listen", "127.0.0.1:0", "--connections", "0")

# How two reels of one archive end: by what, in what capacity, and by which words of tar.
REELS_END: tuple[tuple[str, int, tuple[str, ...]], ...] = (("by their length", 1 << 20, ("-L", "150")), ("by their end", 150_000, ()))

# The words of a client, with more words.
Words = Callable[..., list[str]]
# A change that is taken back: of a site, or of a path.
Change = Callable[[Site], AbstractContextManager[None]]
PathChange = Callable[[Path], AbstractContextManager[None]]


def grow(folder: Path) -> Path:
    """A tree of files and links."""
    top = folder / "tree"
    nested = top / "a" / "b b" / "ü"
    nested.mkdir(parents=True)
    for number, size in enumerate((0, 1, 511, 512, 513, 10_240, 65_536, 100_000)):
        top.joinpath(f"file {number}").write_bytes(os.urandom(size))
    nested.joinpath("deep").write_bytes(b"deep\n" * 1_000)
    nested.joinpath("run").write_text("#!/bin/sh\n")
    nested.joinpath("run").chmod(0o755)
    top.joinpath("link").symlink_to("a/b b")
    os.link(top / "file 3", top / "hard link")
    return top


def tree_of(top: Path, leaving: tuple[str, ...] = ()) -> dict[str, tuple[str, int, bytes | str]]:
    """All that stands below a folder: the kind, the access and the bytes of each."""
    found: dict[str, tuple[str, int, bytes | str]] = {}
    for it in sorted(top.rglob("*")):
        name = str(it.relative_to(top))
        mode = it.lstat().st_mode
        if name in leaving:
            continue
        if stat.S_ISLNK(mode):
            found[name] = ("link", 0, os.readlink(it))
        elif stat.S_ISDIR(mode):
            found[name] = ("folder", stat.S_IMODE(mode), "")
        else:
            found[name] = ("file", stat.S_IMODE(mode), it.read_bytes())
    return found


def records_of(reel: Path) -> list[bytes]:
    """The records of a reel. A mark is one without bytes here, as no record is."""
    return [it or b"" for it in entries_of(reel.read_bytes())]


def run(words: list[str], folder: Path, sent: bytes = b"", env: dict[str, str] | None = None) -> subprocess.CompletedProcess[bytes]:
    """Runs a client in a folder."""
    return subprocess.run(words, cwd=folder, input=sent, env=env, capture_output=True, check=False, timeout=GUARD_SECONDS)


def tar_words(shop: Site, *words: str, device: str = DEVICE) -> list[str]:
    return ["tar", f"--rsh-command={shop.shell}", "--rmt-command=rmt", "-f", f"localhost:{device}", *words]


@contextmanager
def loop_of(image: Path) -> Iterator[str | None]:
    """A device whose blocks are those of a file; None if there can be none."""
    got = subprocess.run(["losetup", "--find", "--show", "--read-only", str(image)], capture_output=True, text=True, check=False)
    device = got.stdout.strip() if got.returncode == 0 else None
    try:
        yield device
    finally:
        if device:
            subprocess.run(["losetup", "--detach", device], check=True)


class FolderCase(Case):
    """Tests of the server over the folders of a site."""

    rmtd = built("rmtd")

    def is_moved(self, name: str, shop: Site, data: bytes) -> None:
        """The reel `r1` is in the bin, and has this, and the stack is empty."""
        self.same(name, (data_of(shop.bin / "r1"), shop.names()[0]), (data, []))

    def ends_well(self, title: str, talk: Talk) -> None:
        self.same(f"{title}: it ends well", talk.end(), 0)


class RealClients(FolderCase):
    """The clients that this server is for."""

    def needs(self, *programs: str) -> None:
        """The test is skipped if one of these is not on this machine."""
        missing = [it for it in programs if not shutil.which(it)]
        if missing:
            self.skipTest(f"{', '.join(missing)} is not on this machine")

    def well(self, title: str, got: subprocess.CompletedProcess[bytes]) -> subprocess.CompletedProcess[bytes]:
        """It ended well, and told nothing."""
        self.same(f"{title}: it ends well", (got.returncode, got.stderr), (0, b""), got)
        return got

    def extracted(self, title: str, shop: Site, words: Words, top: Path) -> None:
        """A tree comes back equal."""
        with tempfile.TemporaryDirectory(dir=shop.folder) as target:
            self.well(title, run(words("-x", "-p", "-C", target), shop.folder))
            self.same(f"{title}: the tree", tree_of(Path(target) / "tree"), tree_of(top))

    def test_tar(self) -> None:
        """Create, list, extract, compare and append, in records of four sizes, of which the last is the greatest."""
        for blocks in ("1", "20", "128", "512"):
            with site(self.rmtd) as shop:
                self.through_tar(blocks, shop)

    def through_tar(self, blocks: str, shop: Site) -> None:
        """That in records of so many blocks."""
        reel = shop.reel("r1")
        top = grow(shop.folder)
        words: Words = lambda *more: tar_words(shop, "-b", blocks, *more)
        title = f"tar with {blocks} blocks a record"
        self.well(f"{title}, create", run(words("-c", "tree"), shop.folder))
        plain = run(["tar", "-c", "-b", blocks, "-f", "-", "tree"], shop.folder).stdout
        records = records_of(reel)
        self.same(f"{title}: the records", ({*map(len, records)}, b"".join(records)), ({512 * int(blocks)}, plain))
        names = run(["tar", "-t", "-f", "-"], shop.folder, plain).stdout
        self.same(f"{title}: the list", self.well(f"{title}, list", run(words("-t"), shop.folder)).stdout, names)
        self.well(f"{title}, compare", run(words("-d"), shop.folder))
        self.extracted(f"{title}, extract", shop, words, top)
        top.joinpath("file 5").write_bytes(os.urandom(10_240))
        other = run(words("-d"), shop.folder)
        self.same(f"{title}: compared with another tree", (other.returncode, b"file 5" in other.stdout), (1, True), other)
        top.joinpath("new").write_bytes(os.urandom(30_000))
        self.well(f"{title}, append", run(words("-r", "tree/new", "tree/file 5"), shop.folder))
        self.extracted(f"{title}, extract what was appended", shop, words, top)
        self.same(f"{title}: nothing was moved", shop.names(), (["r1"], []))

    def test_tar_over_two_drives(self) -> None:
        with site(self.rmtd, drives=2) as shop:
            for name, stack in zip(("r1", "r2"), shop.stacks):
                shop.reel(name, stack=stack)
            top = grow(shop.folder)
            words: Words = lambda *more: tar_words(shop, "-f", "localhost:/dev/st1", "-M", *more)
            self.well("tar over two drives, create", run(words("-L", "150", "-c", "tree"), shop.folder))
            lengths = [it.stat().st_size for stack in shop.stacks for it in stack.iterdir()]
            self.holds("tar over two drives: both are used", min(lengths) > 10_000, lengths)
            self.extracted("tar over two drives, extract", shop, words, top)

    def test_tar_over_two_reels(self) -> None:
        """Two reels for one archive, one after the other in one drive."""
        for title, capacity, length in REELS_END:
            with site(self.rmtd, capacity=capacity) as shop:
                for name in ("r1", "r2"):
                    shop.reel(name)
                self.one_after_the_other(f"tar over two reels, {title}", shop, grow(shop.folder), length)

    def one_after_the_other(self, title: str, shop: Site, top: Path, length: tuple[str, ...]) -> None:
        """An archive over two reels of one drive. Where a reel ends tar hangs up, and then tells of a close that failed, but goes on."""
        change = shop.folder / "change"
        # Where a reel has ended tar sends no close, and its server has the file's lock until it has seen the end.
        locked = rf"flock -w {GUARD_SECONDS} {shop.stack}/r1 true"
        shop.script(change, rf"{locked}; printf 'O{DEVICE}\n0\nI6\n1\nC\n' | {shop.shell} > {shop.folder}/changed")
        words: Words = lambda *more: tar_words(shop, "-M", "-F", str(change), *more)
        got = run(words(*length, "-c", "tree"), shop.folder)
        if length:
            self.well(title, got)
        told = [it for it in got.stderr.splitlines() if b"Cannot close" not in it and b"Exiting with failure" not in it]
        self.same(f"{title}: what tar tells", (told, got.returncode in (0, 2)), ([], True), got)
        self.same(f"{title}: the reel is changed", shop.folder.joinpath("changed").read_bytes(), DONE + DONE_ONE + DONE)
        self.same(f"{title}: where they lie", shop.names(), (["r2"], ["r1"]))
        shop.bin.joinpath("r1").rename(shop.stack / "r1")
        self.extracted(f"{title}, extract", shop, words, top)

    def test_cpio(self) -> None:
        """A tree out and in."""
        self.needs("cpio")
        for kind in ("newc", "odc"):
            with site(self.rmtd) as shop:
                reel = shop.reel("r1")
                top = grow(shop.folder)
                names = subprocess.run(["find", "tree", "-print0"], cwd=shop.folder, stdout=subprocess.PIPE, check=True).stdout
                words = ["cpio", "--quiet", f"--rsh-command={shop.shell}", "-F", f"localhost:{DEVICE}"]
                self.well(f"cpio {kind}, out", run([*words, "-o", "-0", "-H", kind], shop.folder, names))
                self.same(f"cpio {kind}: the records", {*map(len, records_of(reel))}, {512})
                target = shop.folder / "back"
                target.mkdir()
                self.well(f"cpio {kind}, in", run([*words, "-i", "-d"], target))
                self.same(f"cpio {kind}: the tree", tree_of(target / "tree"), tree_of(top))

    def test_dump_and_restore(self) -> None:
        """A small file system dumped and restored, in records of the usual size and of the greatest."""
        self.needs("dump", "restore", "mke2fs", "losetup")
        for size in ("10", "256"):
            with site(self.rmtd) as shop:
                self.restored(size, shop)

    def restored(self, size: str, shop: Site) -> None:
        """That in records of so many KiB."""
        reel = shop.reel("r1")
        top = grow(shop.folder)
        image = shop.folder / "image"
        image.write_bytes(bytes(4 << 20))
        subprocess.run(["mke2fs", "-q", "-t", "ext2", "-d", str(top), str(image)], check=True, stdin=subprocess.DEVNULL)
        environment = os.environ | {"RSH": str(shop.shell)}
        with loop_of(image) as device:
            if device is None:
                self.skipTest("there is no loop device to dump")
            got = run(["dump", "-0", "-b", size, "-f", f"localhost:{DEVICE}", device], shop.folder, env=environment)
            self.same(f"dump -b {size}: it ends well", (got.returncode, b"DUMP IS DONE" in got.stderr), (0, True), got)
            lengths = [len(it) for it in records_of(reel) if it]
            self.same(f"dump -b {size}: the records", max(lengths), 1024 * int(size), lengths)
        target = shop.folder / "back"
        target.mkdir()
        got = run(["restore", "-r", "-b", size, "-f", f"localhost:{DEVICE}"], target, env=environment)
        self.same(f"restore -b {size}: it ends well", got.returncode, 0, got)
        self.same(f"restore -b {size}: the tree", tree_of(target, ("lost+found", "restoresymtable")), tree_of(top))


def processor_seconds(process: int) -> float:
    """The processor time that a process has used."""
    parts = Path(f"/proc/{process}/stat").read_text().rpartition(")")[2].split()
    return (int(parts[11]) + int(parts[12])) / os.sysconf("SC_CLK_TCK")


class Locked(FolderCase):
    """Reels and bins that another server or another program has locked."""

    def test_two_servers(self) -> None:
        """Two servers over one folder: a reel is that of the first one that opened it, until it is closed or that server is gone."""
        with site(self.rmtd) as shop, talking(self, shop) as first, talking(self, shop) as second:
            reel = shop.reel("r1")
            first.asks("two servers, the first", (opened(), DONE), (write(b"first"), b"A5\n"))
            second.asks("two servers, the second", (opened(), IO_ERROR), (write(b"second"), NOTHING_OPEN), (opened(mode=0), IO_ERROR))
            first.asks("two servers, the first again", (write(b"again"), b"A5\n"), (b"I0\n1\n", DONE_ONE))
            self.same("two servers: the reel is the first one's", reel.read_bytes(), images([b"first", b"again", None]))
            first.asks("two servers, the first closes", (CLOSE, DONE))
            second.asks("two servers, the second after that", (opened(), DONE), (b"R9\n", b"A5\nfirst"), (write(b"x"), DONE_ONE))
            first.asks("two servers, the first after that", (opened(), IO_ERROR))
            second.process.kill()
            second.process.wait()
            first.asks("two servers, the second is killed", (opened(), DONE), (b"R9\n", b"A5\nfirst"), (b"R9\n", b"A1\nx"), (b"R9\n", DONE))
            self.same("two servers: the first ends well", first.end(), 0)

    def test_reel_that_another_program_locked(self) -> None:
        with site(self.rmtd) as shop, talking(self, shop) as talk, shop.reel("r1", b"first", b"x").open("rb") as held:
            fcntl.flock(held, fcntl.LOCK_EX)
            talk.asks("a reel that another program locked", (opened(), IO_ERROR))
            fcntl.flock(held, fcntl.LOCK_UN)
            talk.asks("a reel that is locked no more", (opened(), DONE), (b"R9\n", b"A5\nfirst"))

    def test_bin_that_another_program_locked(self) -> None:
        """It takes no reel, and loses none."""
        with site(self.rmtd) as shop, talking(self, shop) as talk:
            shop.reel("r1", b"first", b"x")
            bin = os.open(shop.bin, os.O_RDONLY)
            self.addCleanup(os.close, bin)
            fcntl.flock(bin, fcntl.LOCK_EX)
            talk.asks("a bin that is locked", (opened(), DONE), (b"I3\n1\n", DONE_ONE))
            began, used = time.monotonic(), processor_seconds(talk.process.pid)
            talk.asks("a bin that is locked, a move", (OFFLINE, IO_ERROR))
            took, used = time.monotonic() - began, processor_seconds(talk.process.pid) - used
            self.holds("a bin that is locked: a move waits for about a second", 0.9 < took < LOCK_GUARD_SECONDS, took)
            self.holds("a bin that is locked: a move that waits sleeps", used < 0.3, used)
            talk.asks("a bin that is locked, afterwards", (b"R9\n", b"A5\nfirst"))
            self.same("a bin that is locked: nothing is moved", shop.names()[1], [])
            fcntl.flock(bin, fcntl.LOCK_UN)
            talk.asks("a bin that is locked no more", (OFFLINE, DONE_ONE), (NOTHING, NO_REEL))
            self.same("a bin that is locked no more: the reel is moved", shop.names()[1], ["r1"])


# Gives a file one name after the other, some thousand a second, until its input ends.
RENAMES = """import os, sys, threading, time
threading.Thread(target=lambda: (sys.stdin.read(), os._exit(0)), daemon=True).start()
print(flush=True)
while True:
    for old, new in (("r1", "r2"), ("r2", "r0"), ("r0", "r1")):
        os.rename(old, new)
        time.sleep(0.0002)
"""

# Names that the bin has already: as a file, a link that leads nowhere, or a folder.
TAKEN: tuple[tuple[str, Callable[[Path], object]], ...] = (
    ("a reel", lambda path: path.write_bytes(images([b"older"]))),
    ("a link", lambda path: path.symlink_to("nowhere")),
    ("a folder", lambda path: path.mkdir()),
)


class Names(FolderCase):
    """What in a folder is a reel, in which order, what no move goes over, and reels that others rename."""

    def test_order_of_reels(self) -> None:
        with site(self.rmtd) as shop:
            for name in ("Z9", "a", "é", "10", "Z10", "B", "9"):
                shop.reel(name, name.encode())
            with talking(self, shop) as talk:
                for number, name in enumerate(("10", "9", "B", "Z10", "Z9", "a", "é"), 1):
                    data = name.encode()
                    talk.asks(f"reel {number}", (opened(), DONE), (b"R9\n", b"A%d\n%s" % (len(data), data)), (OFFLINE, DONE_ONE))
                    self.same(f"reel {number}: the bin", (len([*shop.bin.iterdir()]), shop.bin.joinpath(name).is_file()), (number, True))
                talk.asks("no reel is left", (opened(), NO_REEL))
                shop.bin.joinpath("B").rename(shop.stack / "B")
                talk.asks("a reel that was put back", (CLOSE, NOTHING_OPEN), (opened(), DONE), (b"R9\n", b"A1\nB"))

    def test_what_is_no_reel(self) -> None:
        with site(self.rmtd) as shop:
            shop.stack.joinpath("a").mkdir()
            shop.stack.joinpath("b").symlink_to(shop.reel("elsewhere", b"linked", stack=shop.folder))
            shop.stack.joinpath("c").symlink_to("nowhere")
            os.mkfifo(shop.stack / "d")
            with talking(self, shop) as talk:
                talk.asks("a folder, links and a pipe are no reels", (opened(), NO_REEL))
                shop.reel("e", b"plain")
                talk.asks("a plain file among them is one", (opened(), DONE), (b"R9\n", b"A5\nplain"), (CLOSE, DONE))

    def test_name_that_is_no_text(self) -> None:
        with site(self.rmtd) as shop, talking(self, shop) as talk:
            Path(os.fsdecode(os.fsencode(shop.stack) + b"/r\xff")).touch()
            talk.asks("a name that is no text", (opened(), IO_ERROR))

    def test_names_with_a_dot_before_them(self) -> None:
        with site(self.rmtd) as shop:
            hidden = shop.reel(".r1.swp", b"hidden")
            Path(os.fsdecode(os.fsencode(shop.stack) + b"/.\xff")).touch()
            with talking(self, shop) as talk:
                talk.asks("names with a dot before them are no reels", (opened(), NO_REEL))
                shop.reel("r1", b"plain")
                talk.asks("a plain file among them is one", (opened(), DONE), (b"R9\n", b"A5\nplain"), (OFFLINE, DONE_ONE), (opened(), NO_REEL))
            self.same("names with a dot before them: they stand", hidden.read_bytes(), images([b"hidden"]))

    def test_name_that_the_bin_has(self) -> None:
        for title, make in TAKEN:
            title = f"the bin has {title} of that name"
            with site(self.rmtd) as shop:
                reel, data = shop.reel("r1", b"newer", None), images([b"newer", None])
                there = shop.bin / "r1"
                make(there)
                before = seen(there)
                with talking(self, shop) as talk:
                    talk.asks(title, (opened(), DONE), (b"I3\n1\n", DONE_ONE), (OFFLINE, IO_ERROR), (b"R9\n", b"A5\nnewer"))
                    self.same(f"{title}: both stand as they were", (seen(there), data_of(reel)), (before, data))
                    there.rename(shop.folder / "away")
                    talk.asks(f"{title} no more", (OFFLINE, DONE_ONE), (NOTHING, NO_REEL))
                    self.is_moved(f"{title} no more: the reel is moved", shop, data)

    def test_stack_whose_files_are_renamed(self) -> None:
        """An operator who gives the first file of a stack other names while a drive is opened again and again meets no error of the device, and
        the drive has that file each time: no other was first at any moment."""
        opens = 3_000
        with site(self.rmtd) as shop:
            for name in ("r1", "r5"):
                shop.reel(name, name.encode())
            words = (sys.executable, "-c", RENAMES)
            with subprocess.Popen(words, cwd=shop.stack, stdin=subprocess.PIPE, stdout=subprocess.PIPE) as operator:
                given(operator.stdout).readline()
                got = run(shop.words, shop.folder, (opened(mode=0) + b"R9\n" + CLOSE) * opens)
                given(operator.stdin).close()
            replies = Counter(got.stdout.splitlines(keepends=True))
            wanted = {DONE: opens, b"A2\n": opens, b"r1" + DONE: opens}
            self.same("a stack whose files are renamed", (got.returncode, replies), (0, wanted))

    def test_file_that_took_the_name_of_a_latched_reel(self) -> None:
        """It is not moved in the reel's place."""
        with site(self.rmtd) as shop, talking(self, shop) as talk:
            reel = shop.reel("r1", b"latched")
            talk.asks("a reel that is renamed", (opened(), DONE), (b"R9\n", b"A7\nlatched"))
            reel.rename(shop.stack / "r2")
            talk.asks("a reel that is renamed, a move", (OFFLINE, IO_ERROR))
            shop.reel("r1", b"other")
            talk.asks("a reel whose name another file has", (OFFLINE, IO_ERROR), (b"R9\n", b"A7\nlatched"), (CLOSE, DONE))
            self.same("a reel whose name another file has: nothing is moved", shop.names()[1], [])
            self.same("a reel whose name another file has: both stand", shop.names()[0], ["r1", "r2"])


SYNCS = "fsync,fdatasync"
LINKS, UNLINKS = "link,linkat", "unlink,unlinkat"

# What fails in a move, by what of strace, and whether the move is refused then.
FAILING_CALLS = (
    ("the sync of the reel", f"{SYNCS}:error=EIO:when=1", True),
    ("the sync of the bin", f"{SYNCS}:error=EIO:when=2", True),
    ("the sync of the stack's folder", f"{SYNCS}:error=EIO:when=3", False),
    ("the move", f"{LINKS}:error=EIO:when=1", True),
    ("the removal of the old name", f"{UNLINKS}:error=EIO:when=1", True),
)

READS, END = (b"R9\n", b"A4\ndata"), (b"R9\n", DONE)
# What comes before the end of a session, and the syncs then.
CLOSES: tuple[tuple[str, tuple[Turn, ...], list[str]], ...] = (
    ("a record is written", ((write(b"data"), b"A4\n"), (CLOSE, DONE)), ["sync r1"]),
    ("a record is written anew", ((write(b"DATA"), b"A4\n"), (CLOSE, DONE)), ["sync r1"]),
    ("marks are written", ((b"I3\n1\n", DONE_ONE), (b"I0\n2\n", b"A2\n"), (CLOSE, DONE)), ["sync r1"]),
    ("a record is written, and there is no close", ((write(b"data"), b"A4\n"),), ["sync r1"]),
    ("it is read", (READS, END, (CLOSE, DONE)), []),
    ("no marks are written", ((b"I0\n0\n", DONE), (CLOSE, DONE)), []),
    ("it is read, after a close that synced", ((write(b"data"), b"A4\n"), (CLOSE, DONE), (opened(), DONE), READS, (CLOSE, DONE)), ["sync r1"]),
)
# The same where the file's length and time are those of the open: what fails of the cuts, and what is asked.
UNDATED: tuple[tuple[str, str, tuple[Turn, ...]], ...] = (
    ("a record is written anew", "", ((write(b"DATA"), b"A4\n"),)),
    ("a cut fails", ":error=EIO:when=1", ((write(b"DATA"), IO_ERROR), (b"R4\n", b"A4\ndata"))),
)


@cache
def untraced() -> str | None:
    """Why calls of the system cannot be told here, or made to fail; None if they can."""
    if not shutil.which("strace"):
        return "strace is not on this machine"
    words = ["strace", "-f", "-y", "-o", os.devnull, "-e", f"inject={SYNCS}:error=EIO:when=1", "true"]
    return None if subprocess.run(words, capture_output=True, check=False).returncode == 0 else "strace may not be used"


def has_open(process: int | None, path: Path) -> bool:
    """Whether a process has the file open."""
    if process is None:
        return False
    handles = Path(f"/proc/{process}/fd")
    return any(os.readlink(it) == str(path) for it in handles.iterdir())


def steps(log: str) -> Iterator[str]:
    """What of a move the calls of the system were: each sync with its file, the names that came and went, the reply."""
    for line in log.splitlines():
        if found := re.search(r"f(?:data)?sync\(\d+<([^>]*)>\) += 0", line):
            yield f"sync {Path(found[1]).name}"
        elif found := re.search(r"\b((?:un)?link)(?:at)?\(.*\) += 0", line):
            yield found[1]
        elif "write(1<" in line and '"A3\\n"' in line:
            yield "reply"


class OnTheDisk(FolderCase):
    """What the system is asked for: a reel that is said to be moved, or that is closed, is on the disk. The server runs under strace."""

    def setUp(self) -> None:
        if why := untraced():
            self.skipTest(why)

    def test_order_of_the_calls_of_a_move(self) -> None:
        with site(self.rmtd) as shop:
            shop.reel("r1")
            log = shop.folder / "calls"
            with talking(self, shop, ("strace", "-f", "-y", "-o", str(log), "-e", f"trace={SYNCS},{LINKS},{UNLINKS},write")) as talk:
                talk.asks("a move that is traced", (opened(), DONE), (write(b"data"), b"A4\n"), (b"I6\n3\n", b"A3\n"))
                talk.end()
            calls = list(steps(log.read_text(errors="replace")))
            self.same("a move that is traced: the order", calls, ["sync r1", "link", "sync bin", "unlink", "sync st0", "reply"])

    def test_call_of_a_move_fails(self) -> None:
        """What is answered then, and where the reel is."""
        for title, fault, fails in FAILING_CALLS:
            with site(self.rmtd) as shop, talking(self, shop, ("strace", "-f", "-o", os.devnull, "-e", f"inject={fault}")) as talk:
                self.move_fails(title, fails, shop, talk)

    def move_fails(self, title: str, fails: bool, shop: Site, talk: Talk) -> None:
        reel, data = shop.reel("r1"), images([b"data"])
        talk.asks(f"{title} fails, before", (opened(), DONE), (write(b"data"), b"A4\n"))
        if fails:
            talk.asks(f"{title} fails", (OFFLINE, IO_ERROR), (b"R4\n", b"A4\ndata"))
            self.same(f"{title} fails: the reel stands where it was", (data_of(reel), shop.names()[1]), (data, []))
        if title == "the sync of the reel":
            # The system tells a lost write once: the reel has to be written from its beginning.
            talk.asks(f"{title} failed once", (OFFLINE, IO_ERROR), (REWIND, DONE_ONE), (write(b"data"), b"A4\n"))
        talk.asks(f"{title} fails, then", (OFFLINE, DONE_ONE), (NOTHING, NO_REEL), (CLOSE, DONE), (opened(), NO_REEL))
        self.is_moved(f"{title} fails: the reel is moved then", shop, data)
        talk.end()

    def test_close_syncs_what_was_written(self) -> None:
        """A close, or the end of a session, syncs a reel that was written to, and no other."""
        for title, turns, wanted in CLOSES:
            title = f"a close where {title}"
            with site(self.rmtd) as shop:
                log = shop.folder / "calls"
                shop.reel("r1", b"data")
                with talking(self, shop, ("strace", "-f", "-y", "-o", str(log), "-e", f"trace={SYNCS},{LINKS},{UNLINKS}")) as talk:
                    talk.asks(title, (opened(), DONE), *turns)
                    self.ends_well(title, talk)
                self.same(f"{title}: the syncs", [*steps(log.read_text(errors="replace"))], wanted)

    def test_close_syncs_though_length_and_time_are_those_of_the_open(self) -> None:
        """It syncs what was written, or was to be."""
        for title, fails, turns in UNDATED:
            title = f"a close after which the file's time is that of the open, where {title}"
            with site(self.rmtd) as shop:
                reel, log = shop.reel("r1", b"data"), shop.folder / "calls"
                before = reel.stat()
                inject = ("-e", f"inject=ftruncate{fails}") if fails else ()
                with talking(self, shop, ("strace", "-f", "-y", "-o", str(log), "-e", f"trace={SYNCS},ftruncate", *inject)) as talk:
                    talk.asks(title, (opened(), DONE), *turns)
                    os.utime(reel, ns=(before.st_atime_ns, before.st_mtime_ns))
                    self.same(f"{title}: its length too", reel.stat().st_size, before.st_size)
                    talk.asks(title, (CLOSE, DONE))
                    self.ends_well(title, talk)
                self.same(f"{title}: the syncs", [*steps(log.read_text(errors="replace"))], ["sync r1"])

    def test_sync_of_a_close_fails(self) -> None:
        """It changes no answer."""
        with site(self.rmtd) as shop:
            shop.reel("r1")
            with talking(self, shop, ("strace", "-f", "-o", os.devnull, "-e", f"inject={SYNCS}:error=EIO:when=1+")) as talk:
                talk.asks("a close whose sync fails", (opened(), DONE), (write(b"data"), b"A4\n"), (CLOSE, DONE), (opened(), DONE), READS)
                self.ends_well("a close whose sync fails", talk)

    def test_reel_that_is_moved_meanwhile(self) -> None:
        """A reel that another server moves to the bin, after its file was opened here and before it is locked, is not latched."""
        slowly = ("strace", "-f", "-o", os.devnull, "-e", f"inject=flock:delay_enter={DELAY_SECONDS}000000:when=1")
        with site(self.rmtd) as shop, talking(self, shop) as first, talking(self, shop, slowly) as second:
            reel = shop.reel("r1")
            first.asks("a reel that is moved meanwhile, the first server", (opened(), DONE), (write(b"first"), b"A5\n"))
            second.requests.write(opened())
            is_open = soon(lambda: has_open(second.server(), reel))
            self.holds("a reel that is moved meanwhile: the second has its file open", is_open)
            first.asks("a reel that is moved meanwhile, by the first server", (OFFLINE, DONE_ONE))
            self.same("a reel that is moved meanwhile: it is not latched", second.replied(opened()), NO_REEL)
            second.asks("a reel that is moved meanwhile, the second server", (write(b"second"), NOTHING_OPEN))
            self.same("a reel that is moved meanwhile: it stands", data_of(shop.bin / "r1"), images([b"first"]))


# Folders and reels that fail after the start, for a user who is not root.
FAILING: tuple[tuple[str, Change], ...] = (
    ("a stack that can't be read", lambda shop: access(shop.stack, 0o000)),
    ("a stack that can't be listed", lambda shop: access(shop.stack, 0o300)),
    ("a stack that is gone", lambda shop: away(shop.stack)),
    ("a reel that can't be read", lambda shop: access(shop.stack / "r1", 0o200)),
    ("a reel that can't be opened", lambda shop: access(shop.stack / "r1", 0o000)),
)
FAILING_MOVES: tuple[tuple[str, Change], ...] = (
    ("a bin that can't be written", lambda shop: access(shop.bin, 0o500)),
    ("a bin that can't be read", lambda shop: access(shop.bin, 0o000)),
    ("a bin that is gone", lambda shop: away(shop.bin)),
    ("a stack that can't be written", lambda shop: access(shop.stack, 0o500)),
)
# What room a file system has, in bytes; a request that does not fit, and its reply where it does.
FULL = (
    ("no byte", 0, write(b"w" * 100), b"A100\n"),
    ("a part of a length", 2, write(b"w" * 100), b"A100\n"),
    ("a part of a record", 40, write(b"w" * 100), b"A100\n"),
    ("all but the last byte", 107, write(b"w" * 100), b"A100\n"),
    ("a part of the greatest record", 40_000, write(b"w" * 262_144), b"A262144\n"),
    ("some marks", 10, b"I0\n9\n", b"A9\n"),
    ("some of many marks", 40_001, b"I0\n100000\n", b"A100000\n"),
)


def locks(file: IO[bytes]) -> bool:
    """Whether the file's advisory lock can be had, which is kept then."""
    try:
        fcntl.flock(file, fcntl.LOCK_EX | fcntl.LOCK_NB)
    except BlockingIOError:
        return False
    return True


def limit_files(talk: Talk, size: int | None) -> None:
    """Files of the server end at this size, or where they may. The signal for that is ignored, as this program ignores it."""
    _, most = resource.prlimit(talk.process.pid, resource.RLIMIT_FSIZE)
    resource.prlimit(talk.process.pid, resource.RLIMIT_FSIZE, (most if size is None else size, most))


class Faults(FolderCase):
    """Folders and files that fail after the start."""

    def test_folder_or_reel_fails(self) -> None:
        """It is an error of the device, and what was answered before stands."""
        data = images([b"before", None])
        for title, change in FAILING:
            with site(self.rmtd) as shop:
                reel = shop.reel("r1")
                with talking(self, shop, how=as_nobody(shop)) as talk:
                    talk.asks(f"{title}, before", (opened(), DONE), (write(b"before"), b"A6\n"), (b"I0\n1\n", DONE_ONE), (CLOSE, DONE))
                    with change(shop):
                        replies = talk.ask(opened()), talk.ask(write(b"x"))
                    self.same(f"{title}: an error of the device", replies, (IO_ERROR, NOTHING_OPEN))
                    self.same(f"{title}: the reel stands", reel.read_bytes(), data)
                    talk.asks(f"{title}, afterwards", (opened(), DONE), (b"R9\n", b"A6\nbefore"), (write(b"x"), DONE_ONE), (CLOSE, DONE))
                    self.ends_well(title, talk)

    def test_reel_that_may_only_be_read(self) -> None:
        """It is opened in any mode and read, and what would change it is an error of the device."""
        entries: tuple[Entry, ...] = (b"before", None)
        changes = (write(b"x"), IO_ERROR), (b"I0\n1\n", IO_ERROR)
        reads = (b"R9\n", b"A6\nbefore"), (b"R9\n", DONE)
        with site(self.rmtd, capacity=100) as shop:
            reel = shop.reel("r1", *entries)
            with access(reel, 0o400), talking(self, shop, how=as_nobody(shop)) as talk, reel.open("rb") as other:
                talk.asks("a protected reel, to read", (opened(mode=0), DONE), *reads, (write(b"x"), NOTHING_OPEN), (CLOSE, DONE))
                talk.asks("a protected reel, to write", (opened(mode=1), DONE), *changes, (b"R9\n", NOTHING_OPEN), (CLOSE, DONE))
                talk.asks("a protected reel", (opened(), DONE), *changes, *reads, *changes, (REWIND, DONE_ONE), *reads)
                talk.asks("a protected reel, what changes nothing", (b"I0\n0\n", DONE), (write(b"w" * 200), DONE), (b"I0\n90\n", NO_SPACE))
                self.same("a protected reel: it is locked", locks(other), False)
                talk.asks("a protected reel is closed", (CLOSE, DONE))
                self.same("a protected reel is closed: it is locked no more", locks(other), True)
                fcntl.flock(other, fcntl.LOCK_UN)
                self.same("a protected reel: it stands", reel.read_bytes(), images([*entries]))
                talk.asks("a protected reel is moved", (opened(mode=0), DONE), (OFFLINE, DONE_ONE), (NOTHING, NO_REEL))
                shop.bin.joinpath("r1").rename(reel)
                self.ends_well("a protected reel", talk)

    def test_move_fails(self) -> None:
        """It leaves the reel in the drive, at its beginning."""
        for title, change in FAILING_MOVES:
            with site(self.rmtd) as shop:
                shop.reel("r1")
                with talking(self, shop, how=as_nobody(shop)) as talk:
                    talk.asks(f"{title}, before", (opened(), DONE), (write(b"before"), b"A6\n"))
                    with change(shop):
                        talk.asks(title, (OFFLINE, IO_ERROR), (b"R9\n", b"A6\nbefore"), (OFFLINE, IO_ERROR))
                    self.same(f"{title}: nothing is moved", shop.names(), (["r1"], []))
                    talk.asks(f"{title}, afterwards", (OFFLINE, DONE_ONE), (NOTHING, NO_REEL), (CLOSE, DONE), (opened(), NO_REEL))
                    self.same(f"{title}: it is moved", shop.bin.joinpath("r1").read_bytes(), images([b"before"]))

    def test_file_system_is_full(self) -> None:
        """What was written stands, and the place too."""
        for title, left, request, reply in FULL:
            title = f"a file system with room for {title}"
            with site(self.rmtd) as shop:
                reel = shop.reel("r1")
                with talking(self, shop) as talk:
                    talk.asks(f"{title}, before", (opened(), DONE), (write(b"before"), b"A6\n"), (b"I0\n1\n", DONE_ONE))
                    stands = reel.read_bytes()
                    limit_files(talk, len(stands) + left)
                    talk.asks(title, (request, IO_ERROR), (request, IO_ERROR), (b"I2\n1\n", DONE_ONE), (b"I4\n1\n", DONE_ONE))
                    self.same(f"{title}: what was answered stands", reel.read_bytes()[: len(stands)], stands)
                    limit_files(talk, None)
                    talk.asks(f"{title}, afterwards", (b"R9\n", b"A6\nbefore"), (b"R9\n", DONE), (request, reply), (CLOSE, DONE))
                    data: list[Entry] = [request.split(b"\n", 1)[1]] if request.startswith(b"W") else [None] * int(request.split()[1])
                    self.same(f"{title}: the file", reel.read_bytes(), images([b"before", None, *data]))
                    self.ends_well(title, talk)


# With a folder mounted over itself, to write or only to read, in a view of the mounts of its own that ends with it.
MOUNTED = """mount --bind "$1" "$1" && mount -o "remount,bind,$2" "$1" || exit 77
cd / && shift 2 && exec "$@"
"""
NOT_MOUNTED = 77
APART, UNWRITABLE = b"the bin is on another mount\n", b"(os error 30)\n"
# What is mounted, how, and the end of what is told then.
MOUNTS = (
    ("the bin on another mount", "bin", "rw", APART),
    ("the stack on another mount", "st0", "rw", APART),
    ("the bin on a mount that takes no writes", "bin", "ro", APART),
    ("all on a mount that takes no writes", ".", "ro", UNWRITABLE),
    ("all on one mount", ".", "rw", None),
)


@contextmanager
def of_another(path: Path) -> Iterator[None]:
    """A folder in which its owner alone may write, who is root for a while; if this is not run by root, nobody may write in it."""
    if os.geteuid() != 0:
        with access(path, 0o500):
            yield
        return
    before = path.stat()
    os.chown(path, 0, 0)
    try:
        with access(path, 0o755):
            yield
    finally:
        os.chown(path, before.st_uid, before.st_gid)


@contextmanager
def as_file(path: Path) -> Iterator[None]:
    """A file in place of a folder for a while."""
    with away(path):
        path.touch()
        try:
            yield
        finally:
            path.unlink()


UNUSABLE: tuple[tuple[str, PathChange], ...] = (
    ("is gone", away),
    ("can't be written", lambda path: access(path, 0o500)),
    ("is another user's", of_another),
    ("is a file", as_file),
)


class Starts(FolderCase):
    """Folders that are looked at before anything is read."""

    def test_folder_that_cannot_be_used(self) -> None:
        """A folder that is missing or can't be written is named."""
        for title, change in UNUSABLE:
            for way in WAYS:
                for which in ("st0", "st1", "bin"):
                    with site(self.rmtd, drives=2) as shop:
                        how = as_nobody(shop)
                        words = [shop.words[0], *way, *shop.words[2:]]
                        path = shop.folder / which
                        with change(path):
                            got = subprocess.run(words, input=opened(), capture_output=True, check=False, timeout=GUARD_SECONDS, **how)
                        told = got.returncode, got.stdout, os.fsencode(path) in got.stderr
                        self.same(f"{way[0]} where {which} {title}", told, (FAILED, b"", True), got)

    def test_all_folders_are_there(self) -> None:
        with site(self.rmtd, drives=2) as shop:
            how = as_nobody(shop)
            got = subprocess.run(shop.words, input=opened(), capture_output=True, check=False, timeout=GUARD_SECONDS, **how)
            lines = bare(self, "all folders are there", got.stderr.decode().splitlines())
            told = ["open refused: no reel is on the stack of /dev/st0: put one into its folder"]
            self.same("all folders are there", (got.returncode, got.stdout, lines), (0, NO_REEL, told))

    def test_folders_that_do_not_go_together(self) -> None:
        """They are told: one line, with a folder and what is wrong with it."""
        memory = MEMORY if os.access(MEMORY, os.W_OK) else None
        with site(self.rmtd, drives=2) as shop, tempfile.TemporaryDirectory(dir=memory) as elsewhere:
            link = shop.folder / "link"
            link.symlink_to(shop.stack)
            one, other, bin = (str(it) for it in (*shop.stacks, shop.bin))
            self.clash(shop, (one, one), bin, one, "an earlier drive has this folder too")
            self.clash(shop, (one, str(link)), bin, str(link), "an earlier drive has this folder too")
            self.clash(shop, (one, f"{one}/../st0/"), bin, f"{one}/../st0/", "an earlier drive has this folder too")
            self.clash(shop, (one, other), other, other, "the bin is this folder too")
            self.clash(shop, (one, other), str(link), one, "the bin is this folder too")
            if os.stat(elsewhere).st_dev == os.stat(one).st_dev:
                self.skip_part("a bin on another file system", f"{MEMORY} is none")
                return
            self.clash(shop, (one, other), elsewhere, one, "the bin is on another file system")
            self.clash(shop, (one, elsewhere), bin, elsewhere, "the bin is on another file system")

    def clash(self, shop: Site, folders: tuple[str, str], bin: str, at_fault: str, wrong: str) -> None:
        """A server with these folders of two drives, and this bin, tells that this folder is at fault."""
        for way in WAYS:
            words = [shop.words[0], *way, "--bin", bin, *(f"/dev/st{drive}={it}" for drive, it in enumerate(folders))]
            got = subprocess.run(words, input=opened(), capture_output=True, check=False, timeout=GUARD_SECONDS)
            told = got.returncode, got.stdout, got.stderr.decode()
            self.same(f"{way[0]} where {wrong}", told, (FAILED, b"", f"rmtd: {at_fault}: {wrong}\n"))

    def test_other_mounts(self) -> None:
        """A bin, and a stack, on another mount of the same file system, and both on one that takes no writes, are told."""
        for title, name, how, told in MOUNTS:
            with site(self.rmtd) as shop:
                shop.reel("r1")
                words = ["unshare", "--mount", "/bin/sh", "-c", MOUNTED, "sh", str(shop.folder / name), how, *shop.words]
                got = run(words, shop.folder, opened() + OFFLINE) if os.geteuid() == 0 and shutil.which("unshare") else None
                if got is None or got.returncode == NOT_MOUNTED or got.stderr.startswith(b"unshare:"):
                    self.skip_part(title, "mount(8) may not be used")
                elif told is None:
                    self.same(title, (got.returncode, got.stdout, got.stderr), (0, DONE + DONE_ONE, b""))
                else:
                    at_fault = got.stderr.startswith(b"rmtd: %s: " % os.fsencode(shop.stack)) and got.stderr.endswith(told)
                    self.same(title, (got.returncode, got.stdout, at_fault), (FAILED, b"", True), got)
                    self.same(f"{title}: the reel stands", shop.names(), (["r1"], []))
