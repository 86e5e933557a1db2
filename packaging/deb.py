#!/usr/bin/env python3
"""Packs the programs as two Debian packages: rmtd has the server, rdump has the client and rsim.

    deb.py RMTD RDUMP RSIM FOLDER

The packages are put in FOLDER, and their paths are printed. The programs are packed as they are: `make deb` proves and builds them first.
The version is what the programs print, and the time and the name of the commit, so that a later commit has a later version; and
`+changed`, if a file was changed since; and `+unproved`, unless a note of `make build` or `make test` says of each program that these bytes were
proved and built from the sources as they are. To know that, it asks `rt`. The same programs at the same commit give the same bytes. Needs
dpkg-deb and git, and uses dpkg-shlibdeps and strip if they are there.
"""

from __future__ import annotations

import argparse
import hashlib
import os
import shutil
import subprocess
import sys
import tempfile
import time
from pathlib import Path
from typing import NamedTuple

TOP = Path(__file__).resolve().parent.parent
sys.path.insert(0, str(TOP))

from tests.tools.build import below, is_noted, listed, sums_of  # noqa: E402

HERE = TOP / "packaging"
SCRIPTS = ("preinst", "postinst", "prerm", "postrm")
# A package has to name a maintainer. This one is nobody.
MAINTAINER = "those who built this package <nobody@example.org>"
# What Debian's tools read of the changes.
CHANGELOG = """{package} ({version}) unstable; urgency=medium

  * Built from a commit. CHANGELOG.md has the changes.

 -- {maintainer}  {date}
"""
# The libraries that the programs need, if there is no dpkg-shlibdeps.
LIBRARIES = "libc6 (>= 2.34), libgcc-s1"
# Paths in the files of etc/ and man/, and what a package has in their place. They are replaced in this order.
MOVED = (
    ("/usr/local/share/doc/rdump/", "/usr/share/doc/{package}/docs/"),
    ("/usr/local/sbin/tapes", "/usr/lib/rmtd/tapes"),
    ("/usr/local/sbin/rmtd", "/usr/sbin/rmtd"),
    ("/usr/local/sbin/rdump", "/usr/sbin/rdump"),
    ("PATH=/usr/local/sbin:", "PATH=/usr/lib/rmtd:/usr/lib/rdump:/usr/local/sbin:"),
    ("/srv/tape", "/var/lib/rmtd"),
)


class Packed(NamedTuple):
    """A file of a package: where it comes from, where it goes, and its mode. The source is a file of this repository, or a program's name."""

    source: str
    to: str
    mode: int = 0o644


def documents(package: str) -> tuple[Packed, ...]:
    """The documents of a package, in the folders in which they link to each other."""
    folder = f"usr/share/doc/{package}"
    pages = sorted(it.name for it in TOP.glob("docs/*.md"))
    return (
        Packed("packaging/copyright", f"{folder}/copyright"),
        Packed("CHANGELOG.md", f"{folder}/CHANGELOG.md"),
        Packed("README.md", f"{folder}/README.md"),
        *(Packed(f"docs/{it}", f"{folder}/docs/{it}") for it in pages),
    )


def pages_of(*scripts: str) -> tuple[Packed, ...]:
    """The manual page of the scripts, under the name of each."""
    return tuple(Packed("man/night.8", f"usr/share/man/man8/{it}.8.gz") for it in scripts)


PACKAGES = {
    "rmtd": (
        Packed("rmtd", "usr/sbin/rmtd", 0o755),
        Packed("etc/tapes", "usr/lib/rmtd/tapes", 0o755),
        Packed("etc/new-reels", "usr/lib/rmtd/new-reels", 0o755),
        Packed("etc/to-shelf", "usr/lib/rmtd/to-shelf", 0o755),
        Packed("etc/take-dumpdates", "usr/lib/rmtd/take-dumpdates", 0o755),
        Packed("etc/default/rmtd", "etc/default/rmtd"),
        Packed("etc/systemd/system/rmtd.service", "usr/lib/systemd/system/rmtd.service"),
        Packed("etc/systemd/system/tapes.socket", "usr/lib/systemd/system/tapes.socket"),
        Packed("etc/systemd/system/tapes@.service", "usr/lib/systemd/system/tapes@.service"),
        Packed("etc/sysusers.d/rmtd.conf", "usr/lib/sysusers.d/rmtd.conf"),
        Packed("etc/tmpfiles.d/rmtd.conf", "usr/lib/tmpfiles.d/rmtd.conf"),
        Packed("etc/ssh/sshd_config.d/rmtd.conf", "usr/share/doc/rmtd/examples/sshd_config.d/rmtd.conf"),
        Packed("etc/cron.d/rmtd", "usr/share/doc/rmtd/examples/cron.d/rmtd"),
        Packed("man/rmtd.8", "usr/share/man/man8/rmtd.8.gz"),
        *pages_of("new-reels", "take-dumpdates", "tapes", "to-shelf"),
        *documents("rmtd"),
    ),
    "rdump": (
        Packed("rdump", "usr/sbin/rdump", 0o755),
        Packed("rsim", "usr/bin/rsim", 0o755),
        Packed("etc/night", "usr/lib/rdump/night", 0o755),
        Packed("etc/cron.d/night", "usr/share/doc/rdump/examples/cron.d/night"),
        Packed("man/rdump.5", "usr/share/man/man5/rdump.5.gz"),
        Packed("man/rdump.8", "usr/share/man/man8/rdump.8.gz"),
        Packed("man/rsim.1", "usr/share/man/man1/rsim.1.gz"),
        *pages_of("night"),
        *documents("rdump"),
    ),
}


def output(*command: str, cwd: str | None = None, env: dict[str, str] | None = None) -> str:
    """What a command prints. If it fails, this program ends with what the command printed on standard error."""
    ran = subprocess.run(command, cwd=cwd, env=env, capture_output=True, text=True, check=False)
    if ran.returncode:
        sys.exit(f"deb.py: {' '.join(command)}: status {ran.returncode}\n{ran.stderr}")
    return ran.stdout.strip()


class Build(NamedTuple):
    """What the packages of a build have in common."""

    programs: dict[str, Path]
    folder: Path
    version: str
    architecture: str
    seconds: int


def git(*command: str) -> str:
    """What git prints of this repository."""
    return output("git", "-C", str(TOP), *command, env=os.environ | {"TZ": "UTC", "GIT_OPTIONAL_LOCKS": "0"})


def unproved(programs: dict[str, Path]) -> list[str]:
    """The programs of which no note says that they were proved, with the sources as they are. Without the kit these are all."""
    crates = below(listed(), list(programs))
    try:
        sums = sums_of(crates)
    except (OSError, subprocess.CalledProcessError):
        return list(programs)
    return [name for name in programs if not is_noted(crates, name, sums, lambda it: programs[it.name])]


def build_of(programs: dict[str, Path], folder: Path) -> Build:
    """Finds the version, the architecture and the time of the commit."""
    printed = {output(str(it), "--version").split()[-1] for it in programs.values()}
    if len(printed) != 1:
        sys.exit(f"deb.py: the programs have several versions: {', '.join(sorted(printed))}")
    seconds, date, name = git("log", "-1", "--date=format-local:%Y%m%d%H%M%S", "--format=%ct %cd %H").split()
    changed = "+changed" if git("status", "--porcelain", "--untracked-files=no") else ""
    version = f"{printed.pop()}~git{date}.{name[:8]}{changed}"
    if lacking := unproved(programs):
        print(f"deb.py: the version has +unproved: no note says that these were proved as they are: {', '.join(lacking)}", file=sys.stderr)
        version += "+unproved"
    return Build(programs, folder, version, output("dpkg", "--print-architecture"), int(seconds))


def libraries_of(programs: list[Path]) -> str:
    """The packages of the libraries that the programs need."""
    if not shutil.which("dpkg-shlibdeps"):
        return LIBRARIES
    with tempfile.TemporaryDirectory() as folder:
        control = Path(folder, "debian/control")
        control.parent.mkdir()
        control.write_text("Source: programs\n\nPackage: programs\nArchitecture: any\n")
        found = output("dpkg-shlibdeps", "-O", *(f"-e{it}" for it in programs), cwd=folder)
    return found.partition("shlibs:Depends=")[2]


def moved(content: bytes, package: str) -> bytes:
    """A file of etc/ or man/ with the paths that it has in a package."""
    for here, there in MOVED:
        content = content.replace(here.encode(), there.format(package=package).encode())
    return content


def compressed(content: bytes) -> bytes:
    """A file as gzip compresses it, without its name and its time."""
    return subprocess.run(("gzip", "-9n"), input=content, stdout=subprocess.PIPE, check=True).stdout


def content_of(it: Packed, package: str, programs: dict[str, Path]) -> bytes:
    """The bytes of a packed file."""
    if it.source in programs:
        return programs[it.source].read_bytes()
    content = TOP.joinpath(it.source).read_bytes()
    if it.source.startswith(("etc/", "man/")):
        content = moved(content, package)
    return compressed(content) if it.to.endswith(".gz") else content


def put(path: Path, content: bytes, mode: int) -> None:
    """Writes a file with a mode, in folders that it makes."""
    path.parent.mkdir(parents=True, exist_ok=True)
    path.write_bytes(content)
    path.chmod(mode)


def fill(root: Path, package: str, build: Build) -> None:
    """Writes the files of a package below a folder."""
    for it in PACKAGES[package]:
        put(root / it.to, content_of(it, package, build.programs), it.mode)
        if it.source in build.programs and shutil.which("strip"):
            output("strip", "--strip-unneeded", "--remove-section=.comment", str(root / it.to))
    date = time.strftime("%a, %d %b %Y %H:%M:%S +0000", time.gmtime(build.seconds))
    text = CHANGELOG.format(package=package, version=build.version, maintainer=MAINTAINER, date=date)
    put(root / f"usr/share/doc/{package}/changelog.gz", compressed(text.encode()), 0o644)


def describe(root: Path, package: str, build: Build) -> None:
    """Writes what dpkg reads of a package, below the folder that has its files."""
    control = root / "DEBIAN"
    files = sorted(it for it in root.rglob("*") if it.is_file())
    own = [root / it.to for it in PACKAGES[package] if it.source in build.programs]
    values = {
        "@VERSION@": build.version,
        "@MAINTAINER@": MAINTAINER,
        "@ARCHITECTURE@": build.architecture,
        "@SIZE@": str(sum(-(-it.stat().st_size // 1024) for it in files)),
        "@DEPENDS@": libraries_of(own),
    }
    text = HERE.joinpath(package, "control").read_text()
    for name, value in values.items():
        text = text.replace(name, value)
    put(control / "control", text.encode(), 0o644)
    sums = (f"{hashlib.md5(it.read_bytes(), usedforsecurity=False).hexdigest()}  {it.relative_to(root)}\n" for it in files)
    put(control / "md5sums", "".join(sums).encode(), 0o644)
    settings = "".join(f"/{it.to}\n" for it in PACKAGES[package] if it.to.startswith("etc/"))
    if settings:
        put(control / "conffiles", settings.encode(), 0o644)
    for script in SCRIPTS:
        source = HERE / package / script
        if source.is_file():
            put(control / script, source.read_bytes(), 0o755)


def pack(package: str, build: Build) -> Path:
    """Makes a package, and returns its path."""
    made = build.folder / f"{package}_{build.version}_{build.architecture}.deb"
    with tempfile.TemporaryDirectory() as scratch:
        root = Path(scratch, "root")
        fill(root, package, build)
        describe(root, package, build)
        for it in (root, *root.rglob("*")):
            if it.is_dir():
                it.chmod(0o755)
            os.utime(it, (build.seconds, build.seconds))
        environment = os.environ | {"SOURCE_DATE_EPOCH": str(build.seconds)}
        output("dpkg-deb", "--root-owner-group", "-Zgzip", "-z6", "--build", str(root), str(made), env=environment)
    return made


def main() -> int:
    parser = argparse.ArgumentParser(description="Packs the programs as two Debian packages.")
    for name in ("rmtd", "rdump", "rsim"):
        parser.add_argument(name, type=Path, help=f"the program {name}")
    parser.add_argument("folder", type=Path, help="where the packages are put")
    asked = parser.parse_args()
    programs = {name: getattr(asked, name).resolve() for name in ("rmtd", "rdump", "rsim")}
    asked.folder.mkdir(parents=True, exist_ok=True)
    build = build_of(programs, asked.folder)
    for package in PACKAGES:
        print(pack(package, build))
    return 0


if __name__ == "__main__":
    sys.exit(main())
