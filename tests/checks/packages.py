"""Packs the programs as Debian packages, reads what is in the packages, and installs them on machines of their own.

A machine is a copy of this one, an overlay over its files, of which this check changes nothing. There the packages are installed beside
Debian's `dump`, used, upgraded under a server that runs, removed and purged, and installed where users, groups, folders or settings are
not as the packages expect them. That takes root, unshare(1), overlays and Debian's dpkg with systemd; where they are not to be had, these
parts are named as skipped.
"""

from __future__ import annotations

import os
import re
import shutil
import socket
import subprocess
import sys
import tempfile
import unittest
from concurrent.futures import ThreadPoolExecutor
from pathlib import Path
from typing import Callable, NamedTuple

from tests.lib.case import Case
from tests.lib.given import given
from tests.lib.inside import is_inside, run_inside
from tests.lib.machines import UNSHARE, mount
from tests.lib.places import TOP, built
from tests.lib.waiting import GUARD_SECONDS
from tests.tools.build import below, listed

DEB = TOP / "packaging/deb.py"
PROGRAMS = ("rmtd", "rdump", "rsim")
# What makes or installs packages, or looks at them, takes longer than other runs.
MAKING_SECONDS = 120
LINTIAN_SECONDS = 600

# The environment variable that tells a test on a machine of its own where the packages are.
PACKAGES = "RMT_TEST_PACKAGES"
# Where the packages are made once more.
ELSEWHERE = "another folder"
ENVIRONMENT = {"PATH": "/usr/sbin:/usr/bin:/sbin:/bin", "HOME": "/root", "LANG": "C.UTF-8", "DEBIAN_FRONTEND": "noninteractive"}
MACHINES = Path("/mnt")
# Files that come before those of the package.
OF_AN_ADMINISTRATOR = (
    *(f"systemd/system/{it}" for it in ("rmtd.service", "tapes.socket", "tapes@.service")),
    *(f"{it}.d/rmtd.conf" for it in ("sysusers", "tmpfiles")),
)

# Notes in a copy of the repository that the programs there were proved.
NOTE = """
from tests.tools import build
crates = build.below(build.listed(), ["rmtd", "rdump", "rsim"])
assert not build.note_built(crates, ["rmtd", "rdump", "rsim"], build.sums_of(crates), 0.0)
"""

# The files of the packages, but for the pages in docs/.
FILES = {
    "rmtd": """\
        644 etc/default/rmtd
        755 usr/lib/rmtd/new-reels
        755 usr/lib/rmtd/take-dumpdates
        755 usr/lib/rmtd/tapes
        755 usr/lib/rmtd/to-shelf
        644 usr/lib/systemd/system/rmtd.service
        644 usr/lib/systemd/system/tapes.socket
        644 usr/lib/systemd/system/tapes@.service
        644 usr/lib/sysusers.d/rmtd.conf
        644 usr/lib/tmpfiles.d/rmtd.conf
        755 usr/sbin/rmtd
        644 usr/share/doc/rmtd/CHANGELOG.md
        644 usr/share/doc/rmtd/README.md
        644 usr/share/doc/rmtd/changelog.gz
        644 usr/share/doc/rmtd/copyright
        644 usr/share/doc/rmtd/examples/cron.d/rmtd
        644 usr/share/doc/rmtd/examples/sshd_config.d/rmtd.conf
        644 usr/share/man/man8/new-reels.8.gz
        644 usr/share/man/man8/rmtd.8.gz
        644 usr/share/man/man8/take-dumpdates.8.gz
        644 usr/share/man/man8/tapes.8.gz
        644 usr/share/man/man8/to-shelf.8.gz
    """,
    "rdump": """\
        755 usr/bin/rsim
        755 usr/lib/rdump/night
        755 usr/sbin/rdump
        644 usr/share/doc/rdump/CHANGELOG.md
        644 usr/share/doc/rdump/README.md
        644 usr/share/doc/rdump/changelog.gz
        644 usr/share/doc/rdump/copyright
        644 usr/share/doc/rdump/examples/cron.d/night
        644 usr/share/man/man1/rsim.1.gz
        644 usr/share/man/man5/rdump.5.gz
        644 usr/share/man/man8/night.8.gz
        644 usr/share/man/man8/rdump.8.gz
    """,
}
# What dpkg reads of each package, but for the lines that both have.
FIELDS = {
    "rmtd": {
        "Depends": r"libc6 \(>= [\d.]+\)(, libgcc-s1( \(>= [\d.]+\))?)?"
        + "".join(rf", systemd \| systemd-standalone-{it} \| systemd-{it}" for it in ("sysusers", "tmpfiles")),
    },
    "rdump": {"Depends": r"libc6 \(>= [\d.]+\)(, libgcc-s1( \(>= [\d.]+\))?)?"},
}
FIELDS_OF_BOTH = {
    "Version": r"\d+\.\d+\.\d+~git\d{14}\.[0-9a-f]{8}(\+changed)?(\+unproved)?",
    "Maintainer": "those who built this package <nobody@example.org>",
    "Section": "non-free/admin",
    "Pre-Depends": "",
    "Conflicts": "",
}
CONTROL = {"rmtd": {"conffiles", "control", "md5sums", "postinst", "postrm", "prerm"}, "rdump": {"control", "md5sums", "postrm", "preinst"}}
TAPES_SOCKET = {"ListenStream": "/run/rmtd.socket", "SocketUser": "rmtd", "SocketGroup": "tape", "SocketMode": "0660", "KeepAlive": "yes"}
# Paths that only documents name: of what an administrator installs by hand, and of this repository.
FOREIGN = (b"/usr/local/sbin/r", b"/usr/local/sbin/tapes", b"/srv/tape", b"/crates/")

# Opens the drive, writes a record, moves the reel to the bin, and closes the drive.
WRITE_AND_MOVE = b"O/dev/st0\n2\nW5\nhelloI6\n1\nC\n"
WRITTEN_AND_MOVED = b"A0\nA5\nA1\nA0\n"
A_REEL = bytes.fromhex("05000000 68656c6c6f 05000000")
# Opens the drive and holds it; then asks for nothing but an answer.
OPEN, OPENED = b"O/dev/st0\n0\n", b"A0\n"
NOTHING, NOTHING_DONE = b"I7\n1\n", b"A1\n"


def ran(
    *command: str,
    cwd: str | Path | None = None,
    env: dict[str, str] | None = None,
    input: bytes | None = None,
    umask: int = -1,
    timeout: int = MAKING_SECONDS,
) -> subprocess.CompletedProcess[bytes]:
    """Runs a command, and keeps what it prints on both streams together."""
    return subprocess.run(
        command,
        cwd=cwd,
        env=env,
        stdin=subprocess.DEVNULL if input is None else None,
        input=input,
        stdout=subprocess.PIPE,
        stderr=subprocess.STDOUT,
        umask=umask,
        timeout=timeout,
        check=False,
    )


def read(*command: str) -> str:
    """What a command prints that has to succeed."""
    return subprocess.run(command, stdin=subprocess.DEVNULL, capture_output=True, check=True, text=True).stdout


# The packages as files.


def pack(
    programs: list[Path], folder: Path, umask: int, *before: str, cwd: str | None = None, env: dict[str, str] | None = None
) -> subprocess.CompletedProcess[bytes]:
    """Packs the programs into a folder, perhaps by a command that runs another."""
    return ran(*before, sys.executable, str(DEB), *map(str, programs), str(folder), umask=umask, cwd=cwd, env=env)


def packages_in(folder: Path) -> dict[str, Path]:
    """The packages of a folder by their names."""
    return {it.name.partition("_")[0]: it for it in folder.glob("*.deb")}


def copied(folder: Path) -> Path:
    """A copy of the repository with its files as they are, without what was built."""
    copy = folder / "copy"
    subprocess.run(("git", "clone", "--quiet", str(TOP), str(copy)), check=True)
    for it in read("git", "-C", str(TOP), "ls-files", "-z", "--cached", "--others", "--exclude-standard").split("\0"):
        if TOP.joinpath(it).is_file():
            copy.joinpath(it).parent.mkdir(parents=True, exist_ok=True)
            shutil.copy(TOP / it, copy / it)
    return copy


def by_another_user() -> tuple[str, ...]:
    """What runs a command so that root takes itself for another user. Nothing for other users, or where there are no user namespaces."""
    command = ("unshare", "--user", "--map-user=1000", "--map-group=1000")
    return command if os.geteuid() == 0 and ran(*command, "true").returncode == 0 else ()


def pack_elsewhere(folder: Path) -> subprocess.CompletedProcess[bytes]:
    """Packs the programs as another user, from another folder, with another umask, other times, modes and variables."""
    elsewhere = folder / ELSEWHERE
    elsewhere.mkdir(mode=0o2770)
    copies = [elsewhere / it for it in PROGRAMS]
    for copy in copies:
        shutil.copy(built(copy.name), copy)
        copy.chmod(0o700)
        os.utime(copy, (10**9, 10**9))
    variables = {"TMPDIR": str(elsewhere), "TZ": "Asia/Kathmandu", "LC_ALL": "C", "SOURCE_DATE_EPOCH": "1"}
    return pack(copies, elsewhere / "packages", 0o077, *by_another_user(), cwd="/", env=os.environ | variables)


def kit_folder() -> Path | None:
    """The folder of the kit's crates, None where there is no kit."""
    if not shutil.which("rt"):
        return None
    pages = re.findall(r"/\S+/START-HERE\.md", ran("rt", "doc").stdout.decode())
    return Path(pages[0]).parent / "rattle" if pages else None


def libraries_of(program: str) -> set[str]:
    """The ports of Rust's libraries that a program is made of. Those of jiff are one, and clap uses strsim."""
    crates = listed()
    uses = {use for it in below(crates, [program]).values() for use in it.line.partition(":")[2].split()} - {*crates, "atomic_table"}
    return {"jiff" if it.startswith("jiff_") else it for it in uses} | ({"strsim"} if "clap" in uses else set())


def content_of(file: Path) -> bytes:
    """The bytes of a file. One that is compressed is unpacked."""
    content = file.read_bytes()
    return subprocess.run(("gzip", "-dc"), input=content, stdout=subprocess.PIPE, check=True).stdout if file.suffix == ".gz" else content


def section_of(text: str, title: str) -> dict[str, str]:
    """The settings of a section of a unit."""
    lines = text.partition(f"[{title}]\n")[2].partition("\n[")[0].splitlines()
    return {name: value for name, is_setting, value in (it.partition("=") for it in lines) if is_setting and not name.startswith("#")}


class PackageCase(Case):
    """Tests of the packages, which are made once for the tests of a class."""

    folder: Path
    packages: dict[str, Path]
    packed: subprocess.CompletedProcess[bytes]

    @classmethod
    def setUpClass(cls) -> None:
        missing = [it for it in ("dpkg-deb", "dpkg", "git", "gzip") if not shutil.which(it)]
        if missing:
            raise unittest.SkipTest(f"{', '.join(missing)} cannot be used on this machine")
        if is_inside():
            cls.folder = Path(os.environ[PACKAGES])
        else:
            cls.folder = Path(cls.enterClassContext(tempfile.TemporaryDirectory(prefix="packages-")))
            cls.pack()
        cls.packages = packages_in(cls.folder / "first")

    @classmethod
    def pack(cls) -> None:
        """Makes the packages."""
        cls.packed = pack([Path(built(it)) for it in PROGRAMS], cls.folder / "first", 0o022)

    def setUp(self) -> None:
        if not self.packages.keys() >= FILES.keys():
            self.fail(f"deb.py made no packages: {self.packed.stdout.decode()}")


class Packed(PackageCase):
    """All that the packages say by themselves. They are made twice, at the same time."""

    again: subprocess.CompletedProcess[bytes]

    @classmethod
    def pack(cls) -> None:
        with ThreadPoolExecutor(1) as pool:
            again = pool.submit(pack_elsewhere, cls.folder)
            super().pack()
        cls.again = again.result()

    def test_two_builds(self) -> None:
        """What another user packs elsewhere is the same."""
        more = packages_in(self.folder / ELSEWHERE / "packages")
        for done, made in ((self.packed, self.packages), (self.again, more)):
            self.same("deb.py makes two packages", (done.returncode, set(made)), (0, set(FILES)), done.stdout)
        for name, it in self.packages.items():
            here = (it.name, it.read_bytes()) == (more[name].name, more[name].read_bytes())
            self.holds(f"{name}: two builds have one name and the same bytes", here, it.name, more[name].name)

    def test_unproved(self) -> None:
        """A version says so if no note says that these programs were proved, with these sources."""
        folder = Path(self.enterContext(tempfile.TemporaryDirectory(dir=self.folder)))
        copy = copied(folder)
        programs = [copy / "crates" / it / "out" / it for it in PROGRAMS]
        for it in programs:
            it.parent.mkdir()
            shutil.copy(built(it.name), it)
        self.packed_as("no notes", copy, programs, PROGRAMS)
        if not shutil.which("rt"):
            self.skip_part("notes", "rt cannot be used on this machine")
            return
        subprocess.run((sys.executable, "-c", NOTE), cwd=copy, check=True)
        self.packed_as("noted, and elsewhere", copy, [Path(built(it)) for it in PROGRAMS], ())
        folder.joinpath("rt").write_text("#!/bin/sh\nexit 1\n")
        folder.joinpath("rt").chmod(0o755)
        self.packed_as("no kit", copy, programs, PROGRAMS, {"PATH": f"{folder}:{os.environ['PATH']}"})
        programs[1].write_bytes(programs[1].read_bytes() + b"more")
        self.packed_as("other bytes", copy, programs, ("rdump",))
        with copy.joinpath("crates/rmtd/src/main.rt").open("a") as source:
            source.write("// More.\n")
        self.packed_as("other bytes and sources", copy, programs, ("rmtd", "rdump"))

    def packed_as(self, name: str, copy: Path, programs: list[Path], unproved: tuple[str, ...], variables: dict[str, str] | None = None) -> None:
        """Packs programs in a copy of the repository. If some are unproved, the version and one line say so."""
        folder = copy / "out/deb"
        shutil.rmtree(folder, ignore_errors=True)
        command = (sys.executable, str(copy / "packaging/deb.py"), *map(str, programs), str(folder))
        got = ran(*command, env=os.environ | (variables or {}))
        packages = packages_in(folder)
        self.same(f"{name}: deb.py makes two packages", (got.returncode, set(packages)), (0, set(FILES)), got.stdout)
        versions = {read("dpkg-deb", "--field", str(it), "Version").strip() for it in packages.values()}
        self.same(f"{name}: the version", {it.endswith("+unproved") for it in versions}, {bool(unproved)}, versions)
        lines = [it for it in got.stdout.decode().splitlines() if not it.endswith(".deb")]
        wanted = [f"deb.py: the version has +unproved: no note says that these were proved as they are: {', '.join(unproved)}"] if unproved else []
        self.same(f"{name}: what deb.py says", lines, wanted)

    def test_contents(self) -> None:
        """The files of a package, their owners and modes."""
        for name, package in self.packages.items():
            pages = {f"644 usr/share/doc/{name}/docs/{it.name}" for it in TOP.glob("docs/*.md")}
            wanted = {line.strip() for line in FILES[name].splitlines() if line.strip()} | pages
            listing = read("dpkg-deb", "--contents", str(package)).splitlines()
            rows = [(it.split()[0], it.split()[1], it.split(None, 5)[5]) for it in listing]
            self.same(f"{name}: all is root's", {owner for _, owner, _ in rows}, {"root/root"}, rows)
            self.same(f"{name}: each folder can be entered", {mode for mode, _, _ in rows if mode[0] == "d"}, {"drwxr-xr-x"}, rows)
            modes = {"-rw-r--r--": "644", "-rwxr-xr-x": "755"}
            found = {f"{modes.get(mode, mode)} {path[2:]}" for mode, _, path in rows if mode[0] != "d"}
            self.same(f"{name}: its files and their modes", found, wanted, found - wanted, wanted - found)

    def test_fields(self) -> None:
        """What dpkg reads of a package."""
        architecture = read("dpkg", "--print-architecture").strip()
        for name, package in self.packages.items():
            fields = {"Package": name, "Architecture": architecture, **FIELDS_OF_BOTH, **FIELDS[name]}
            for field, pattern in fields.items():
                value = read("dpkg-deb", "--field", str(package), field).strip()
                self.holds(f"{name}: {field}", re.fullmatch(pattern, value), value, pattern)

    def test_control_archives(self) -> None:
        """The files of a package's control archive."""
        for name in self.packages:
            root = self.unpacked(name)
            control = root / "DEBIAN"
            self.same(f"{name}: the files of its control archive", {it.name for it in control.iterdir()}, CONTROL[name])
            sums = ran("md5sum", "--check", "--quiet", str(control / "md5sums"), cwd=root)
            self.same(f"{name}: its sums are those of its files", sums.returncode, 0, sums.stdout)
            for it in (root / line.split("  ")[1] for line in control.joinpath("md5sums").read_text().splitlines()):
                self.holds(f"{name}: a sum is of a file", it.is_file(), it)
            for it in control.glob("p*"):
                found = (ran("sh", "-n", str(it)).returncode, os.access(it, os.X_OK))
                self.same(f"{name}: {it.name} is a script of sh", found, (0, True))

    def test_settings_and_units_of_rmtd(self) -> None:
        root = self.unpacked("rmtd")
        kept = [it.read_text() for it in root.joinpath("DEBIAN").glob("conffiles")]
        self.same("rmtd: its settings are a file that dpkg keeps", kept, ["/etc/default/rmtd\n"])
        unit = section_of(root.joinpath("usr/lib/systemd/system/tapes.socket").read_text(), "Socket")
        self.same("rmtd: who reaches tapes.socket", {it: unit.get(it) for it in TAPES_SOCKET}, TAPES_SOCKET, unit)

    def test_places(self) -> None:
        """No file names a place of this machine, and only documents name places that a package has no part in."""
        kit, home = kit_folder(), Path.home()
        folders = {*(TOP / it for it in ("crates", "packaging", "out")), *((kit,) if kit else ())}
        # A home such as /root or /tmp may be in a document.
        places = {str(it).encode() for it in folders | ({home} if len(home.parts) > 2 else set())}
        for name in self.packages:
            root = self.unpacked(name)
            for it in (it for it in root.rglob("*") if it.is_file()):
                content, path = content_of(it), it.relative_to(root)
                self.same(f"{name}: {path} names no place of this machine", [place for place in places if place in content], [])
                if "share" not in path.parts:
                    self.same(f"{name}: {path} has the paths of a package", [place for place in FOREIGN if place in content], [])

    def test_paths_of_manual_pages(self) -> None:
        """Each file below /usr that a manual page names is in the page's package."""
        for name in self.packages:
            root = self.unpacked(name)
            for it in sorted(root.joinpath("usr/share/man").rglob("*.gz")):
                named = set(re.findall(r"/usr/[\w./-]*\w", content_of(it).decode()))
                self.holds(f"{name}: {it.name} names files", named)
                missing = [path for path in sorted(named) if not root.joinpath(path[1:]).is_file()]
                self.same(f"{name}: the files that {it.name} names are in the package", missing, [])

    def unpacked(self, name: str) -> Path:
        """The files of a package, and those of its control archive in DEBIAN."""
        root = Path(self.enterContext(tempfile.TemporaryDirectory(dir=self.folder)), name)
        subprocess.run(("dpkg-deb", "--raw-extract", str(self.packages[name]), str(root)), check=True)
        return root

    def test_copyright(self) -> None:
        """`copyright` has each library of the kit that the programs are made of, and the text that lies beside the library."""
        text = TOP.joinpath("packaging/copyright").read_text()
        rows = {name: tuple(it.strip(",") for it in programs.split()) for name, programs in re.findall(r"(?m)^  (\w+) +(r[a-z, ]+?)  ", text)}
        libraries = {it: libraries_of(it) for it in PROGRAMS}
        wanted = {name: tuple(it for it in PROGRAMS if name in libraries[it]) for name in set().union(*libraries.values())}
        self.same("copyright names the libraries of each program", rows, wanted)
        kit = kit_folder()
        if kit is None:
            self.skip_part("the texts of licences", "the kit cannot be found on this machine")
            return
        words = " ".join(text.split())
        for it in sorted((*rows, "unicode")):
            files = [kit / it / name for name in ("LICENSE-MIT", "LICENSE", "LICENSE-UNICODE")]
            texts = [" ".join(file.read_text().split()) for file in files if file.is_file()]
            self.same(f"copyright has the text of {it}", [one in words for one in texts], [True])

    def test_lintian(self) -> None:
        if not shutil.which("lintian"):
            self.skipTest("lintian cannot be used on this machine")
        done = ran("lintian", "--fail-on", "error", *map(str, self.packages.values()), timeout=LINTIAN_SECONDS)
        self.same("lintian finds no error", done.returncode, 0, done.stdout)


# Machines of their own. All below runs where mounts are private.


def packed(root: Path) -> Path:
    """The package of the files in a folder."""
    made = root.with_suffix(".deb")
    quick = ("dpkg-deb", "--root-owner-group", "-Zgzip", "-z1", "--build", str(root), str(made))
    subprocess.run(quick, check=True, stdout=subprocess.DEVNULL)
    return made


def changed(package: Path, root: Path, pattern: str, value: str) -> Path:
    """The files of a package in a folder, with another text in what dpkg reads of it."""
    subprocess.run(("dpkg-deb", "--raw-extract", str(package), str(root)), check=True)
    control = root / "DEBIAN/control"
    control.write_text(re.sub(pattern, value, control.read_text()))
    return root


def later(package: Path, root: Path) -> Path:
    """The same package with a later version."""
    return packed(changed(package, root, r"(?m)^(Version: .*)$", r"\1.1"))


def broken(package: Path, root: Path) -> Path:
    """The same package with a later version, and with a file of the package another, so that dpkg stops when it has unpacked the rest."""
    return packed(with_last_file(changed(package, root, r"(?m)^(Version: .*)$", r"\1.2")))


def with_last_file(root: Path) -> Path:
    """Adds a file that dpkg unpacks after all others."""
    root.joinpath("usr/share/zz").mkdir(parents=True)
    root.joinpath("usr/share/zz/file").write_text("file\n")
    return root


def described(name: str, version: str, root: Path) -> Path:
    """Adds what dpkg reads of a package."""
    root.joinpath("DEBIAN").mkdir(parents=True)
    fields = f"Package: {name}\nVersion: {version}\nArchitecture: all\nMaintainer: nobody <nobody@example.org>\nDescription: of a test\n"
    root.joinpath("DEBIAN/control").write_text(fields)
    return root


def earlier(package: Path, root: Path) -> Path:
    """Our rdump as it was packed first: it has an earlier version, no scripts, and the field that keeps dump away."""
    changed(package, root, r"(?m)^Version: .*$", "Version: 0.0.9\nConflicts: dump")
    for it in ("preinst", "postrm"):
        root.joinpath("DEBIAN", it).unlink(missing_ok=True)
    return packed(root)


def dump_of(folder: str, version: str, root: Path) -> Path:
    """A package that has a rdump as Debian's dump has it: a link beside dump in a folder, and a link that is its manual page."""
    for at, name in ((folder, "dump"), ("usr/share/man/man8", "dump.8.gz")):
        root.joinpath(at).mkdir(parents=True)
        root.joinpath(at, name).write_text("Debian's\n")
        root.joinpath(at, f"r{name}").symlink_to(name)
    return packed(described("dump", version, root))


def missing_for_machines() -> str:
    """What is missing for machines of their own, nothing where they can be made."""
    tools = ("dpkg", "unshare", "chroot", "systemd-sysusers", "systemd-tmpfiles", "systemctl", "useradd", "runuser")
    missing = [it for it in tools if not shutil.which(it, path=ENVIRONMENT["PATH"])]
    if missing or os.geteuid() != 0:
        return ", ".join(missing) or "root"
    options = "lowerdir=/,upperdir=/mnt/u,workdir=/mnt/w"
    steps = f"mount -t tmpfs machine /mnt && mkdir /mnt/u /mnt/w /mnt/r && mount -t overlay -o {options} machine /mnt/r"
    is_possible = ran(*UNSHARE, "sh", "-c", f"{steps} && chroot /mnt/r dpkg-query --status systemd").returncode == 0
    return "" if is_possible else "a machine of its own with Debian's systemd"


class Machine:
    """A machine over this one's files, which has these packages in /tmp."""

    def __init__(self, case: Case, name: str, packages: dict[str, Path]) -> None:
        self.case = case
        self.name = name
        place = MACHINES / name
        for it in ("upper", "work", "root"):
            place.joinpath(it).mkdir(parents=True)
        self.root = place / "root"
        options = f"lowerdir=/,upperdir={place}/upper,workdir={place}/work"
        mount("-t", "overlay", "-o", options, "machine", str(self.root))
        mount("-t", "proc", "proc", str(self.root / "proc"))
        mount("--rbind", "/dev", str(self.root / "dev"))
        for it, mode in (("run", "755"), ("tmp", "1777")):
            mount("-t", "tmpfs", "-o", f"mode={mode}", "machine", str(self.root / it))
        for it, package in packages.items():
            shutil.copy(package, self.root / f"tmp/{it}.deb")
        # What somebody has installed on this machine is not on a new one.
        for it in OF_AN_ADMINISTRATOR:
            self.path(f"/etc/{it}").unlink(missing_ok=True)
        self.run("sh", "-c", "dpkg --purge --force-depends rmtd rdump; userdel rmtd; groupdel rmtd; rm -rf /var/lib/rmtd /etc/default/rmtd")

    def run(self, *command: str, user: str = "root", groups: str = "", input: bytes | None = None) -> subprocess.CompletedProcess[bytes]:
        """Runs a command there."""
        return ran(*self.command(*command, user=user, groups=groups), env=ENVIRONMENT, input=input)

    def command(self, *command: str, user: str = "root", groups: str = "") -> tuple[str, ...]:
        """What runs a command there, as a user with more groups than its own."""
        who = () if user == "root" else (f"--userspec={user}",)
        return ("chroot", *who, *((f"--groups={groups}",) if groups else ()), str(self.root), *command)

    def done(self, *command: str, user: str = "root", input: bytes | None = None) -> str:
        """Runs a command there that has to succeed, and answers what it printed."""
        got = self.run(*command, user=user, input=input)
        self.case.same(f"{self.name}: {' '.join(command)}: it succeeds", got.returncode, 0, got.stdout)
        return got.stdout.decode()

    def dpkg(self, *command: str) -> subprocess.CompletedProcess[bytes]:
        """Runs dpkg there. What other packages do after an installation is left out."""
        return self.run("dpkg", "--no-triggers", "--force-unsafe-io", *command)

    def install(self, *packages: str) -> None:
        """Installs packages that have been copied there."""
        got = self.dpkg("--install", *(f"/tmp/{it}.deb" for it in packages))
        self.case.same(f"{self.name}: {' and '.join(packages)} can be installed", got.returncode, 0, got.stdout)

    def path(self, path: str) -> Path:
        """Where a file of the machine lies."""
        return self.root / path.lstrip("/")

    def exists(self, path: str) -> bool:
        return self.path(path).exists()

    def modes(self, *paths: str) -> list[str]:
        """The owners and modes of files there."""
        return self.done("stat", "--format", "%U %G %a %n", *paths).splitlines()

    def running(self, program: str) -> list[int]:
        """The processes of a program there."""
        return [int(it.name) for it in Path("/proc").iterdir() if it.name.isdigit() and runs(it, program, self.root)]

    def user(self, name: str) -> list[str]:
        """The fields of a user, none where there is no such user."""
        return self.run("getent", "passwd", name).stdout.decode().strip().split(":")

    def has_group(self, name: str) -> bool:
        return self.run("getent", "group", name).returncode == 0

    def enabled(self) -> list[str]:
        """The units of the package that systemd starts by itself."""
        links = self.path("/etc/systemd/system").glob("*.wants/*")
        return sorted(it.name for it in links if it.name in ("rmtd.service", "tapes.socket"))

    def lay(self, reel: str) -> None:
        """Puts an empty reel on the stack."""
        self.done("runuser", "-u", "rmtd", "--", "touch", f"/var/lib/rmtd/st0/{reel}")

    def in_the_bin(self) -> dict[str, bytes]:
        """The reels in the bin, none where there is no bin."""
        folder = self.path("/var/lib/rmtd/bin")
        return {it.name: it.read_bytes() for it in folder.iterdir()} if folder.is_dir() else {}

    def tapes(self) -> tuple[int, bytes]:
        """The status and the answers of `tapes`, which is asked to write a record and to move the reel to the bin."""
        got = self.run("/usr/lib/rmtd/tapes", user="rmtd", input=WRITE_AND_MOVE)
        return got.returncode, got.stdout

    def mt(self, user: str, groups: str = "") -> tuple[int, str]:
        """The status of `rdump mt` at the server's socket, and what it prints."""
        words = ("rdump", "mt", "--to", "unix:/run/rmtd/socket", "--device", "/dev/st0", "nop", "1")
        got = self.run(*words, user=user, groups=groups)
        return got.returncode, got.stdout.decode()


def runs(process: Path, program: str, root: Path) -> bool:
    """Whether a process runs a program below a root."""
    try:
        return process.joinpath("comm").read_text() == f"{program}\n" and os.readlink(process / "root") == str(root)
    except OSError:
        return False


class Server:
    """The server of rmtd.service, started as the unit says it."""

    def __init__(self, on: Machine) -> None:
        self.on = on
        self.unit = section_of(on.path("/usr/lib/systemd/system/rmtd.service").read_text(), "Service")
        folder = f"/run/{self.unit['RuntimeDirectory']}"
        who = ("-o", self.unit["User"], "-g", self.unit["Group"], "-m", self.unit["RuntimeDirectoryMode"])
        on.done("install", "-d", *who, folder)
        self.socket = on.path(f"{folder}/socket")
        self.start()

    def start(self) -> None:
        """Starts it, and waits until it listens."""
        script = f"set -f -a; . {self.unit['EnvironmentFile']}; umask {self.unit['UMask']}; exec {self.unit['ExecStart']}"
        command = self.on.command("/bin/sh", "-c", script, user=f"{self.unit['User']}:{self.unit['Group']}")
        self.process = subprocess.Popen(command, stdin=subprocess.DEVNULL, stdout=subprocess.PIPE, stderr=subprocess.DEVNULL, env=ENVIRONMENT)
        first = given(self.process.stdout).readline().decode()
        self.on.case.same("the server listens as its unit says it", first, "listening on unix:/run/rmtd/socket\n", script)

    def kill(self) -> None:
        """Kills it."""
        self.process.kill()
        self.process.communicate()

    def connect(self) -> socket.socket:
        """A connection to it."""
        it = socket.socket(socket.AF_UNIX)
        it.settimeout(GUARD_SECONDS)
        it.connect(str(self.socket))
        return it


def answer(connection: socket.socket, request: bytes, length: int) -> bytes:
    """The first bytes of an answer to a request, fewer if the connection ends."""
    connection.sendall(request)
    got = b""
    while len(got) < length and (more := connection.recv(length - len(got))):
        got += more
    return got


class Found(NamedTuple):
    """Whose each of these files is: "ours", "dump's", or what is in it. An empty text says that there is none."""

    rdump: str = ""
    page: str = ""
    # Where those of others are kept: the program of /sbin, that of /usr/sbin, and the manual page.
    of_sbin: str = ""
    of_usr_sbin: str = ""
    of_page: str = ""


PLACES = Found(
    "/usr/sbin/rdump",
    "/usr/share/man/man8/rdump.8.gz",
    "/usr/sbin/rdump.dump",
    "/usr/sbin/rdump.dump.usr",
    "/usr/share/man/man8/rdump.dump.8.gz",
)
OURS = Found("ours", "ours")
# With a dump that has its rdump in /sbin, and with one that has it in /usr/sbin.
BESIDE = {"sbin": OURS._replace(of_sbin="dump's", of_page="dump's"), "usr_sbin": OURS._replace(of_usr_sbin="dump's", of_page="dump's")}
DUMP_ALONE = Found("dump's", "dump's")

# Prints what dpkg finds wrong with packages.
AUDIT = ("sh", "-c", 'dpkg --audit "$@"; dpkg --verify "$@"', "audit")
# The packages that dpkg knows where there are few: the one that has /sbin, and those that ours need.
KNOWN = tuple(f"Package: {it}" for it in ("base-files", "libc6", "libgcc-s1", "python3", "systemd"))

FOLDERS = ("/var/lib/rmtd", "/var/lib/rmtd/st0", "/var/lib/rmtd/st1", "/var/lib/rmtd/bin")
MADE = ["root root 755 /var/lib/rmtd", *(f"rmtd rmtd 700 {it}" for it in FOLDERS[1:]), "rmtd rmtd 600 /var/lib/rmtd/log"]


class MachineCase(PackageCase):
    """Tests on machines of their own."""

    on: Machine

    @classmethod
    def setUpClass(cls) -> None:
        lacking = "" if is_inside() else missing_for_machines()
        if lacking:
            raise unittest.SkipTest(f"{lacking} cannot be used on this machine")
        super().setUpClass()

    def more_packages(self) -> dict[str, Path]:
        """Packages that are made for these tests."""
        return {"later": later(self.packages["rmtd"], MACHINES / "later")}

    def on_a_machine(self, name: str, situation: Callable[[], None]) -> None:
        """Lets a situation be on a machine of its own."""
        if not is_inside():
            status = run_inside(self, UNSHARE, **{PACKAGES: str(self.folder)})
            self.same(f"{name}: it comes to its end", status, 0)
            return
        mount("-t", "tmpfs", "-o", "mode=755", "machine", str(MACHINES))
        files = {**self.packages, **self.more_packages()}
        self.on = Machine(self, name, files)
        situation()


class Installed(MachineCase):
    """The packages on machines of their own, each in a situation of its own."""

    def test_life(self) -> None:
        self.on_a_machine("life", self.life)

    def test_other_owners(self) -> None:
        self.on_a_machine("other_owners", self.other_owners)

    def test_linked_folder(self) -> None:
        self.on_a_machine("linked_folder", self.linked_folder)

    def test_settings(self) -> None:
        self.on_a_machine("settings", self.settings)

    def test_with_systemd(self) -> None:
        self.on_a_machine("with_systemd", self.with_systemd)

    def test_without_systemd(self) -> None:
        self.on_a_machine("without_systemd", self.without_systemd)

    def test_other_user(self) -> None:
        self.on_a_machine("other_user", self.other_user)

    # The situations.

    def life(self) -> None:
        """From the installation to the purge."""
        self.on.dpkg("--force-depends", "--purge", "dump")
        self.on.install("rmtd", "rdump")
        self.installed()
        self.serves_tapes("installed")
        entry = b"/usr                             0 Tue Feb 29 00:00:00 2000\n"
        self.on.done("/usr/lib/rmtd/take-dumpdates", "/tmp/dumpdates", user="rmtd", input=entry)
        self.same("installed: a client's dumpdates file is taken", self.on.path("/tmp/dumpdates").read_bytes(), entry)
        server = Server(self.on)
        self.same("server: it is found among the processes", self.on.running("rmtd"), [server.process.pid])
        self.reaches(server)
        self.upgrade(server)
        server.kill()
        self.removal()

    def other_owners(self) -> None:
        """The folders are there, and are others'."""
        on = self.on
        on.done("install", "-d", "-o", "nobody", "-m", "777", "/var/lib/rmtd")
        on.done("install", "-d", "-o", "daemon", "-m", "755", "/var/lib/rmtd/st0")
        reel = on.path("/var/lib/rmtd/st0/of another")
        reel.write_bytes(b"bytes")
        on.install("rmtd")
        self.made("folders of others")
        self.same("folders of others: what lies there stays", (reel.read_bytes(), reel.stat().st_uid), (b"bytes", 0))
        on.done("runuser", "-u", "rmtd", "--", "/usr/lib/rmtd/new-reels", "/var/lib/rmtd/st1", "/var/lib/rmtd/bin", "3", "/var/lib/rmtd/st0")
        self.same("folders of others: new reels", len(list(on.path("/var/lib/rmtd/st1").iterdir())), 3)

    def linked_folder(self) -> None:
        """The operator moved a stack to another place and left a link."""
        on = self.on
        on.install("rmtd")
        on.done("sh", "-c", "mkdir /var/lib/disk && mv /var/lib/rmtd/st0 /var/lib/disk/ && ln -s /var/lib/disk/st0 /var/lib/rmtd/st0")
        on.install("later")
        self.same("a link: it stays", os.readlink(on.path("/var/lib/rmtd/st0")), "/var/lib/disk/st0")
        self.same("a link: its folder stays", on.modes("/var/lib/disk/st0"), ["rmtd rmtd 700 /var/lib/disk/st0"])
        self.serves_tapes("a link")

    def settings(self) -> None:
        """Settings that name no drives start no server; a name with a space is quoted."""
        on = self.on
        on.install("rmtd")
        file, log = on.path("/etc/default/rmtd"), on.path("/var/lib/rmtd/log")
        on.lay("r1")
        drives = "--bin /var/lib/rmtd/bin /dev/st0=/var/lib/rmtd/st0"
        for name, text in (
            ("a missing file", None),
            ("an empty file", ""),
            ("a value that is not quoted", f"RMTD_DRIVES={drives}\n"),
            ("a quote that is not closed", f'RMTD_DRIVES="{drives} \'"\n'),
        ):
            file.unlink(missing_ok=True)
            if text is not None:
                file.write_text(text)
            log.write_bytes(b"")
            status, answers = on.tapes()
            self.same(f"settings: {name}: no server starts, and nothing is answered", (status != 0, answers), (True, b""), status)
            self.holds(f"settings: {name}: the log says why", log.read_bytes())
        on.done("sh", "-c", "cd /var/lib/rmtd && install -d -o rmtd -m 700 'my tapes' && mv st0/r1 'my tapes/'")
        file.write_text("RMTD_DRIVES=\"--bin /var/lib/rmtd/bin '/dev/st0=/var/lib/rmtd/my tapes'\"\n")
        self.same("settings: a name with a space that is quoted", on.tapes(), (0, WRITTEN_AND_MOVED))
        self.same("settings: a name with a space: the reel is in the bin", on.in_the_bin().get("r1"), A_REEL, on.in_the_bin())

    def with_systemd(self) -> None:
        """Where systemd runs, an installation and an upgrade start, stop and enable nothing. A removal stops the server."""
        on = self.on
        log, program = on.path("/run/systemctl"), on.path("/usr/bin/systemctl")
        on.path("/run/systemd/system").mkdir(parents=True)
        program.unlink()
        program.write_text('#!/bin/sh\necho "$@" >> /run/systemctl\n')
        program.chmod(0o755)
        for name, step, wanted in (
            ("installed", ("--install", "/tmp/rmtd.deb"), {"daemon-reload"}),
            ("upgraded", ("--install", "/tmp/later.deb"), {"daemon-reload"}),
            ("removed", ("--remove", "rmtd"), {"stop tapes.socket rmtd.service", "--quiet disable tapes.socket rmtd.service", "daemon-reload"}),
            ("purged", ("--purge", "rmtd"), {"daemon-reload"}),
        ):
            log.write_text("")
            got = on.dpkg(*step)
            self.same(f"systemd: rmtd is {name}", got.returncode, 0, got.stdout)
            self.same(f"systemd: the calls of systemctl when rmtd is {name}", set(log.read_text().splitlines()), wanted)

    def without_systemd(self) -> None:
        """Where systemd is missing, the package waits for it, and is then complete."""
        on = self.on
        tools = [on.path(f"/usr/bin/{it}") for it in ("systemd-sysusers", "systemd-tmpfiles", "systemctl")]
        hidden = [it.rename(it.with_name(f"{it.name}.hidden")) for it in tools]
        got = on.dpkg("--install", "/tmp/rmtd.deb")
        found = (got.returncode, b"rmtd" in got.stdout)
        self.same("no systemd: dpkg says that the package is not set up", found, (1, True), got.stdout)
        found_here = (on.user("rmtd"), on.exists("/var/lib/rmtd"))
        self.same("no systemd: there is no user and no folder", found_here, ([""], False))
        for tool, to in list(zip(tools, hidden))[:2]:
            to.rename(tool)
        got = on.dpkg("--configure", "rmtd")
        self.same("no systemd: with its tools for users and folders it is set up", got.returncode, 0, got.stdout)
        self.made("no systemd")
        self.serves_tapes("no systemd")
        got = on.dpkg("--purge", "rmtd")
        self.same("no systemd: it can be purged", got.returncode, 0, got.stdout)

    def other_user(self) -> None:
        """There is a user rmtd with another home and another group, and no group tape."""
        on = self.on
        on.run("groupdel", "tape")
        self.same("another user: there is no group tape", on.has_group("tape"), False)
        on.done("useradd", "--system", "--home-dir", "/srv/tape", "--shell", "/bin/sh", "--gid", "users", "rmtd")
        on.install("rmtd")
        self.same("another user: it stays as it is", on.user("rmtd")[5:6], ["/srv/tape"], on.user("rmtd"))
        self.same("another user: the group tape is made", on.has_group("tape"), True)
        self.made("another user")
        self.serves_tapes("another user")

    # What several of them compare, and the steps of a life.

    def made(self, name: str) -> None:
        """The folders and the log belong to whom they should."""
        found = self.on.modes(*FOLDERS, "/var/lib/rmtd/log")
        self.same(f"{name}: the owners and modes of the folders and the log", found, MADE)

    def serves_tapes(self, name: str) -> None:
        """A reel that is written through `tapes` is in the bin."""
        self.on.lay("r1")
        self.same(f"{name}: tapes serves its standard input", self.on.tapes(), (0, WRITTEN_AND_MOVED))
        found = self.on.in_the_bin()
        self.same(f"{name}: the reel is in the bin", found.get("r1"), A_REEL, found)

    def installed(self) -> None:
        """What an installation makes, and that it starts nothing."""
        on = self.on
        self.made("installed")
        user = on.user("rmtd")
        self.same("installed: the user", (user[0], user[5:]), ("rmtd", ["/var/lib/rmtd", "/bin/sh"]), user)
        self.same("installed: the group tape", on.has_group("tape"), True)
        self.same("installed: no server runs", on.running("rmtd"), [])
        self.same("installed: nothing is enabled", on.enabled(), [])
        for it in ("/usr/sbin/rmtd", "/usr/sbin/rdump", "/usr/bin/rsim"):
            got = on.run(it, "--version", user="nobody")
            self.same(f"installed: {it} runs for each user", got.returncode, 0, got.stdout)
        if on.exists("/usr/bin/systemd-analyze"):
            got = on.run("systemd-analyze", "--man=no", "verify", "rmtd.service", "tapes.socket", "tapes@.service")
            self.same("installed: systemd finds no fault in the units", (got.returncode, got.stdout), (0, b""))
        else:
            self.skip_part("installed: systemd finds no fault in the units", "systemd-analyze cannot be used on this machine")

    def reaches(self, server: Server) -> None:
        """Who reaches the server: its user and the members of the group tape."""
        on = self.on
        found = on.modes("/run/rmtd", "/run/rmtd/socket")
        self.same("server: its folder and its socket", found, ["rmtd tape 710 /run/rmtd", "rmtd tape 770 /run/rmtd/socket"])
        for it in ("ann", "bob"):
            on.done("useradd", "--no-create-home", "--user-group", it)
        on.lay("r2")
        self.same("server: a member of the group is served", on.mt("ann", "tape"), (0, "A1\n"))
        # A server whose folder is locked can't take the place of the socket of an earlier one.
        got = on.run("flock", "--nonblock", "/run/rmtd", "true", user="ann", groups="tape")
        is_refused = got.returncode != 0 and b"Permission denied" in got.stdout
        self.holds("server: a member of the group can't lock its folder", is_refused, got.returncode, got.stdout)
        self.same("server: its own user is served", on.mt("rmtd"), (0, "A1\n"))
        message = "rdump: unix:/run/rmtd/socket: Permission denied (os error 13)\n"
        self.same("server: another user is not", on.mt("bob"), (3, message))
        on.path("/tmp/usr.img").write_bytes(b"payload" * 1000)
        on.done("install", "-d", "-o", "ann", "/tmp/ann")
        to = ("--to", "unix:/run/rmtd/socket", "--device", "/dev/st0", "--fs", "/usr", "--level", "0", "--block", "512")
        files = ("--payload", "/tmp/usr.img", "--dumpdates", "/tmp/ann/dumpdates", "--update")
        got = on.run("rdump", "dump", *to, *files, user="ann", groups="tape")
        is_complete = b"dump complete: 1 volumes" in got.stdout
        self.same("server: a member of the group dumps", (got.returncode, is_complete), (0, True), got.stdout)
        got = on.run("rdump", "ls", "/var/lib/rmtd/bin/r2")
        self.same("server: the reel of the dump is whole", (got.returncode, b": whole\n" in got.stdout), (0, True), got.stdout)
        server.kill()
        self.same("server: one that is killed leaves its socket", server.socket.is_socket(), True)
        server.start()
        on.lay("r3")
        self.same("server: it is started again over that socket", on.mt("ann", "tape"), (0, "A1\n"))

    def upgrade(self, server: Server) -> None:
        """An upgrade keeps the operator's settings, and leaves the server and its connections as they are."""
        settings = self.on.path("/etc/default/rmtd")
        settings.write_text(settings.read_text() + "# The operator's own line.\n")
        kept = settings.read_bytes()
        with server.connect() as connection:
            self.same("upgrade: a client holds the drive before", answer(connection, OPEN, len(OPENED)), OPENED)
            self.on.install("later")
            self.same("upgrade: the server's process goes on", server.process.poll(), None)
            self.same("upgrade: the client goes on", answer(connection, NOTHING, len(NOTHING_DONE)), NOTHING_DONE)
        version = self.on.done("dpkg-query", "--show", "--showformat", "${Version} ${Status}", "rmtd")
        self.holds("upgrade: it is done", version.endswith(".1 install ok installed"), version)
        self.same("upgrade: the settings that the operator edited stay", settings.read_bytes(), kept)
        self.made("upgrade")

    def removal(self) -> None:
        """A removal keeps the settings, a purge removes them and the log; reels, folders and the user stay after both."""
        on = self.on
        on.done("systemctl", "enable", "rmtd.service", "tapes.socket")
        self.same("removed: both units were enabled", on.enabled(), ["rmtd.service", "tapes.socket"])
        reels = on.in_the_bin()
        got = on.dpkg("--remove", "rmtd")
        self.same("removed: dpkg removes it", got.returncode, 0, got.stdout)
        self.same("removed: no unit is enabled any more", on.enabled(), [])
        self.same("removed: the program is gone", on.exists("/usr/sbin/rmtd"), False)
        self.same("removed: the settings stay", on.exists("/etc/default/rmtd"), True)
        self.made("removed")
        got = on.dpkg("--purge", "rmtd")
        self.same("purged: dpkg purges it", got.returncode, 0, got.stdout)
        gone = ("/etc/default/rmtd", "/var/lib/rmtd/log", "/usr/lib/rmtd", "/usr/share/doc/rmtd")
        self.same("purged: settings, log and files are gone", [it for it in gone if on.exists(it)], [])
        found = on.in_the_bin()
        self.same("purged: the reels stay", (found, {"r1", "r2"} <= set(found)), (reels, True))
        self.same("purged: the folders and the user stay", (on.modes(*FOLDERS), on.user("rmtd")[0]), (MADE[:-1], "rmtd"))
        got = on.dpkg("--purge", "rdump")
        self.same("purged: rdump can be purged", (got.returncode, on.exists("/usr/sbin/rdump")), (0, False), got.stdout)


class Diverted(MachineCase):
    """Our rdump and another one, that of the package dump: both are installed, ours is found as rdump, and nothing is lost."""

    def more_packages(self) -> dict[str, Path]:
        rdump = self.packages["rdump"]
        return {
            "sbin": dump_of("sbin", "1", MACHINES / "sbin"),
            "usr_sbin": dump_of("usr/sbin", "2", MACHINES / "usr_sbin"),
            "earlier": earlier(rdump, MACHINES / "earlier"),
            "later": later(rdump, MACHINES / "later"),
            "broken": broken(rdump, MACHINES / "broken"),
            "another": packed(with_last_file(described("another", "1", MACHINES / "another"))),
        }

    def test_debians_dump(self) -> None:
        if not is_inside() and ran("dpkg-query", "--status", "dump").returncode:
            self.skipTest("Debian's dump is not installed on this machine")
        self.on_a_machine("debians_dump", self.debians_dump)

    def test_dump_first(self) -> None:
        self.on_a_machine("dump_first", self.dump_first)

    def test_rdump_first(self) -> None:
        self.on_a_machine("rdump_first", self.rdump_first)

    def test_dump_moves(self) -> None:
        self.on_a_machine("dump_moves", self.dump_moves)

    def test_upgrade(self) -> None:
        self.on_a_machine("upgrade", self.upgrade)

    def test_upgrade_beside_dump(self) -> None:
        self.on_a_machine("upgrade_beside_dump", self.upgrade_beside_dump)

    def test_failures(self) -> None:
        self.on_a_machine("failures", self.failures)

    def test_files_of_nobody(self) -> None:
        self.on_a_machine("files_of_nobody", self.files_of_nobody)

    def test_diversions_of_others(self) -> None:
        self.on_a_machine("diversions_of_others", self.diversions_of_others)

    # What is compared after each step.

    def step(self, name: str, words: tuple[str, ...], wanted: Found, status: int = 0) -> bytes:
        """Runs dpkg, and compares whose the files then are. dpkg finds no fault after it."""
        got = self.on.dpkg(*words)
        self.same(f"{name}: the status of dpkg", got.returncode, status, got.stdout)
        self.same(f"{name}: whose the files are", self.found(), wanted, got.stdout)
        if there := self.there():
            self.same(f"{name}: dpkg --audit and dpkg --verify are silent", self.on.run(*AUDIT, *there).stdout, b"")
        return got.stdout

    def install(self, package: str, wanted: Found, name: str = "") -> None:
        self.step(name or f"{self.on.name}: {package} is installed", ("--install", f"/tmp/{package}.deb"), wanted)

    def remove(self, package: str, wanted: Found, how: str = "--remove") -> None:
        self.step(f"{self.on.name}: {how} {package}", (how, package), wanted)

    def refused(self, name: str, package: str, wanted: Found) -> bytes:
        """A package is not installed, and what was there stays."""
        return self.step(f"{self.on.name}: {name}", ("--install", f"/tmp/{package}.deb"), wanted, 1)

    def there(self) -> list[str]:
        """Which of the two packages are installed."""
        return [it for it in ("dump", "rdump") if b"ii" in self.on.run("dpkg-query", "--show", "--showformat", "${db:Status-Abbrev}", it).stdout]

    def found(self) -> Found:
        """Whose the files are."""
        return Found(*map(self.whose, PLACES))

    def whose(self, path: str) -> str:
        """Whose a file is."""
        it = self.on.path(path)
        if it.is_symlink():
            return "dump's" if os.readlink(it) in ("dump", "dump.8.gz") else os.readlink(it)
        if not it.exists():
            return ""
        content = it.read_bytes()
        return "ours" if content[:4] == b"\x7fELF" or content[:2] == b"\x1f\x8b" else content.decode()

    def diversions(self) -> list[str]:
        """What is diverted, but for what others divert."""
        return [it for it in self.on.done("dpkg-divert", "--list", "*rdump*").splitlines() if it.endswith(" by rdump")]

    def nothing_diverted(self, name: str) -> None:
        self.same(f"{self.on.name}: {name}: nothing is diverted", self.diversions(), [])

    def clean(self) -> None:
        """There is no dump, and nothing at all in the places. dpkg knows few packages, so that its steps are short."""
        self.on.dpkg("--force-depends", "--purge", "dump")
        self.same(f"{self.on.name}: nothing is there before", self.found(), Found())
        database = self.on.path("/var/lib/dpkg")
        known = [it for it in database.joinpath("status").read_text().split("\n\n") if it.split("\n")[0] in KNOWN]
        database.joinpath("status").write_text("".join(f"{it}\n\n" for it in known))
        for it in ("File", "Unincorp"):
            database.joinpath("triggers", it).write_text("")

    # The situations.

    def debians_dump(self) -> None:
        """Debian's own dump, which was there before."""
        on = self.on
        self.same("debians_dump: it is there", self.found(), DUMP_ALONE)
        is_in_sbin = on.run("dpkg-query", "--search", "/sbin/rdump").returncode == 0
        beside = BESIDE["sbin" if is_in_sbin else "usr_sbin"]
        self.install("rdump", beside)
        kept = PLACES[beside.index("dump's")]
        got = on.run(kept)
        self.holds("debians_dump: its rdump still runs", f"usage:\t{kept} [-level#]".encode() in got.stdout, got.stdout)
        self.install("later", beside)
        self.remove("rdump", DUMP_ALONE)
        self.install("rdump", beside)
        self.remove("rdump", DUMP_ALONE, "--purge")
        self.nothing_diverted("purged")
        self.install("rdump", beside)
        self.step("debians_dump: it is removed", ("--force-depends", "--purge", "dump"), OURS)
        self.remove("rdump", Found(), "--purge")

    def dump_first(self) -> None:
        """Our rdump is installed beside a dump that is there, wherever that has its rdump."""
        self.clean()
        self.on.install("rmtd")
        for folder, beside in BESIDE.items():
            self.install(folder, DUMP_ALONE)
            self.install("rdump", beside)
            self.same(f"dump_first: {folder}: what is diverted", len(self.diversions()), 3)
            self.install("later", beside, f"dump_first: {folder}: upgraded")
            self.install("later", beside, f"dump_first: {folder}: installed again")
            self.install(folder, beside, f"dump_first: {folder}: dump is installed again")
            self.remove("rdump", DUMP_ALONE)
            self.nothing_diverted(f"{folder}: removed")
            self.install("rdump", beside)
            self.remove("dump", OURS, "--purge")
            self.remove("rdump", Found(), "--purge")
            self.nothing_diverted(f"{folder}: purged")

    def rdump_first(self) -> None:
        """Another dump is installed beside our rdump."""
        self.clean()
        for folder, beside in BESIDE.items():
            self.install("rdump", OURS)
            self.install(folder, beside)
            self.install("later", beside, f"rdump_first: {folder}: upgraded")
            self.remove("dump", OURS)
            self.install(folder, beside, f"rdump_first: {folder}: dump is there again")
            self.remove("rdump", DUMP_ALONE, "--purge")
            self.nothing_diverted(f"{folder}: purged")
            self.remove("dump", Found(), "--purge")

    def dump_moves(self) -> None:
        """A later dump has its rdump in /usr/sbin, and comes in the place of one that has it in /sbin."""
        self.clean()
        self.install("sbin", DUMP_ALONE)
        self.install("rdump", BESIDE["sbin"])
        self.install("usr_sbin", BESIDE["usr_sbin"])
        self.step("dump_moves: and back", ("--force-downgrade", "--install", "/tmp/sbin.deb"), BESIDE["sbin"])
        self.install("usr_sbin", BESIDE["usr_sbin"])
        self.remove("rdump", DUMP_ALONE)

    def upgrade(self) -> None:
        """The package that kept dump away is upgraded. If that fails, nothing of it stays."""
        on = self.on
        self.clean()
        on.install("another")
        self.install("earlier", OURS)
        self.refused("the earlier package keeps dump away", "sbin", OURS)
        self.refused("an upgrade that fails", "broken", OURS)
        self.nothing_diverted("an upgrade that fails")
        self.same("upgrade: the earlier version stays", on.done("dpkg-query", "--show", "--showformat", "${Version}", "rdump"), "0.0.9")
        self.install("rdump", OURS)
        self.install("sbin", BESIDE["sbin"])
        self.refused("a later upgrade that fails", "broken", BESIDE["sbin"])
        self.same("upgrade: a later upgrade that fails leaves the diversions", len(self.diversions()), 3)
        self.remove("rdump", DUMP_ALONE)

    def upgrade_beside_dump(self) -> None:
        """The earlier package was installed beside dump by force. What is left of dump's own stays."""
        self.clean()
        force = ("--force-conflicts", "--force-overwrite", "--install")
        self.install("earlier", OURS)
        self.on.dpkg(*force, "/tmp/sbin.deb")
        self.same("upgrade_beside_dump: dump's own have taken the place of ours", self.found(), DUMP_ALONE)
        self.install("rdump", BESIDE["sbin"])
        self.remove("rdump", DUMP_ALONE, "--purge")
        self.nothing_diverted("purged")

    def failures(self) -> None:
        """An installation that fails leaves all as it was, with dump and without."""
        self.clean()
        self.on.install("another")
        self.refused("it fails without dump", "broken", Found())
        self.nothing_diverted("it fails without dump")
        for folder, beside in BESIDE.items():
            self.install(folder, DUMP_ALONE)
            self.refused(f"{folder}: it fails beside dump", "broken", DUMP_ALONE)
            self.nothing_diverted(f"{folder}: it fails beside dump")
            self.install("rdump", beside)
            self.refused(f"{folder}: an upgrade fails", "broken", beside)
            self.remove("rdump", DUMP_ALONE)
            self.remove("dump", Found(), "--purge")

    def files_of_nobody(self) -> None:
        """Files that are no package's are kept and come back, or keep the package away."""
        on = self.on
        self.clean()
        mine = Found("my program", "my page")
        for path, text in zip(PLACES, mine):
            if text:
                on.path(path).write_text(text)
        kept = OURS._replace(of_usr_sbin="my program", of_page="my page")
        self.install("rdump", kept)
        self.install("later", kept)
        self.remove("rdump", mine, "--purge")
        for it in PLACES[:2]:
            on.path(it).unlink()
        for folder in BESIDE:
            self.install(folder, DUMP_ALONE)
            for place in PLACES[2:]:
                on.path(place).write_text("mine")
                wanted = Found(*("mine" if it == place else whose for it, whose in zip(PLACES, DUMP_ALONE)))
                said = self.refused(f"{folder}: {place} is there", "rdump", wanted)
                is_named = f"/{Path(place).name} exists".encode() in said
                self.holds(f"files_of_nobody: {folder}: {place} is named", is_named, said)
                self.nothing_diverted(f"{folder}: {place} is there")
                on.path(place).unlink()
            self.remove("dump", Found(), "--purge")
        # A file that was kept cannot come back where dump's own does.
        on.path(PLACES.rdump).write_text("my program")
        self.install("rdump", OURS._replace(of_usr_sbin="my program"))
        self.install("sbin", BESIDE["sbin"]._replace(of_usr_sbin="my program"))
        self.remove("rdump", DUMP_ALONE._replace(of_usr_sbin="my program"))
        self.nothing_diverted("removed")

    def diversions_of_others(self) -> None:
        """The administrator has diverted a file of dump's already. That stays."""
        on = self.on
        self.clean()
        self.install("sbin", DUMP_ALONE)
        mine = "/usr/sbin/rdump.mine"
        on.done("dpkg-divert", "--local", "--rename", "--divert", "/sbin/rdump.mine", "/sbin/rdump")
        for step, wanted in (
            (("--install", "/tmp/rdump.deb"), BESIDE["sbin"]._replace(of_sbin="")),
            (("--install", "/tmp/later.deb"), BESIDE["sbin"]._replace(of_sbin="")),
            (("--purge", "rdump"), Found(page="dump's")),
        ):
            self.step(f"diversions_of_others: {' '.join(step)}", step, wanted)
            self.same(f"diversions_of_others: {' '.join(step)}: dump's own is where it was", self.whose(mine), "dump's")
        self.nothing_diverted("purged")
        # What the administrator diverts is diverted for our package too.
        on.done("dpkg-divert", "--local", "--rename", "--divert", f"{PLACES.page}.mine", PLACES.page)
        self.refused("our page has no place", "rdump", Found())
        self.nothing_diverted("our page has no place")
