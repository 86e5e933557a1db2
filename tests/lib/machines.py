"""Machines of their own: what a process that unshare(1) started does to have its own folders, processes and loopback.

It takes root, unshare(1) and make(1). /usr/local is what `make install` leaves, or the packages lie in the user's folder; other folders that may
be changed are empty or copies.
"""

from __future__ import annotations

import fcntl
import os
import re
import shutil
import socket
import struct
import subprocess
import sys
from functools import cache
from pathlib import Path

from tests.lib.connections import wait_for
from tests.lib.places import TOP, built

# The programs, each with the Makefile's word for its place.
PROGRAMS = {"rmtd": "SERVER", "rdump": "CLIENT", "rsim": "SIMULATOR"}
UNSHARE = ("unshare", "--mount", "--net", "--pid", "--fork", "--kill-child", "--mount-proc")
HOME = "/home/root"
SYSTEM_PATH = "/usr/sbin:/usr/bin:/sbin:/bin"
ENVIRONMENT = {"PATH": f"/usr/local/sbin:/usr/local/bin:{SYSTEM_PATH}", "HOME": HOME, "USER": "root", "LANG": "C.UTF-8"}

# The programs that make packages, and those that an installation needs.
PACKERS = ("dpkg-deb", "git", "gzip", "systemctl", "systemd-sysusers", "systemd-tmpfiles")


# Whether there can be machines.


@cache
def has_machines() -> bool:
    """Whether a test can have a machine of its own."""
    if os.geteuid() != 0 or not shutil.which("unshare") or not shutil.which("make"):
        return False
    words = (*UNSHARE, "mount", "-t", "tmpfs", "machine", "/mnt")
    return subprocess.run(words, capture_output=True, check=False).returncode == 0


@cache
def has_overlays() -> bool:
    """Whether a machine can have overlays."""
    words = "mount -t tmpfs machine /mnt && mkdir /mnt/c /mnt/w && mount -t overlay -o lowerdir=/usr,upperdir=/mnt/c,workdir=/mnt/w machine /usr"
    return os.geteuid() == 0 and subprocess.run((*UNSHARE, "sh", "-c", words), capture_output=True, check=False).returncode == 0


def is_there(program: str) -> bool:
    """Whether a program is on this machine, and can be used."""
    if program == "systemctl":
        return Path("/run/systemd/system").is_dir()
    if program == "losetup" and not Path("/dev/loop-control").exists():
        return False
    if program == "apt" and not (has_overlays() and all(shutil.which(it, path=SYSTEM_PATH) for it in PACKERS)):
        return False
    return shutil.which(program, path=SYSTEM_PATH) is not None


# What a machine does for itself.


def mount(*words: str) -> None:
    """Mounts a file system on this machine."""
    subprocess.run(("mount", *words), check=True)


def loopback() -> None:
    """Brings up the loopback, as `ip link set lo up` does."""
    flags, up = 0x8914, 0x1
    with socket.socket(socket.AF_INET, socket.SOCK_DGRAM) as it:
        fcntl.ioctl(it, flags, struct.pack("16sh", b"lo", up))


def make(target: str, folder: str) -> None:
    """Makes `install` or `uninstall` below a folder. The target `build` is taken for done, so nothing is proved again."""
    places = [f"{word}={built(name)}" for name, word in PROGRAMS.items()]
    environment = {name: value for name, value in os.environ.items() if name not in ("MAKEFLAGS", "MFLAGS", "MAKELEVEL")}
    words = ("make", "-s", "-C", str(TOP), "-o", "build", target, *places, "PREFIX=/usr/local", f"DESTDIR={folder}")
    subprocess.run(words, check=True, env=environment, umask=0o077, stdout=subprocess.DEVNULL)


def pack(folder: str) -> None:
    """Makes packages of the programs in a folder."""
    subprocess.run((sys.executable, str(TOP / "packaging/deb.py"), *map(built, PROGRAMS), folder), check=True, stdout=subprocess.DEVNULL)


def overlay(folder: str) -> None:
    """Lets a recipe change the files below a folder, which stay as they are."""
    own = Path("/mnt/overlays", folder.lstrip("/"))
    for it in ("changed", "work"):
        own.joinpath(it).mkdir(parents=True)
    mount("-t", "overlay", "-o", f"lowerdir={folder},upperdir={own}/changed,workdir={own}/work", "machine", folder)


def furnish(has_packages: bool = False) -> None:
    """Folders that a recipe may change: a copy of /etc, what is installed or the packages, and empty ones."""
    mount("-t", "tmpfs", "-o", "mode=755", "machine", "/mnt")
    subprocess.run(("cp", "-a", "/etc", "/mnt/etc"), check=True)
    shutil.copytree(TOP / "etc", "/mnt/of_the_repository")
    empty = [("/srv", "755"), ("/home", "755"), ("/run", "755"), ("/tmp", "1777")]
    if has_packages:
        pack("/mnt/packages")
        os.makedirs("/mnt/installed/usr/local")
        overlay("/usr")
        overlay("/var")
    else:
        make("install", "/mnt/installed")
        empty.append(("/var/lib", "755"))
    mount("--bind", "/mnt/etc", "/etc")
    mount("--bind", "/mnt/installed/usr/local", "/usr/local")
    for folder, mode in empty:
        mount("-t", "tmpfs", "-o", f"mode={mode}", "machine", folder)
    os.mkdir(HOME, 0o700)
    shutil.copytree("/mnt/of_the_repository", f"{HOME}/etc")
    if has_packages:
        shutil.copytree("/mnt/packages", f"{HOME}/out/deb")
    with open("/etc/hosts", "a") as hosts:
        hosts.write("\n127.0.0.1 tapehost\n")
    users = Path("/etc/passwd")
    users.write_text(re.sub(r"(?m)^(root:.*):[^:]*:([^:]*)$", rf"\1:{HOME}:\2", users.read_text()))


def open_for_ssh() -> None:
    """Starts sshd, whose keys the clients of this machine know."""
    os.mkdir("/run/sshd", 0o755)
    subprocess.run(("ssh-keygen", "-A"), check=True, stdout=subprocess.DEVNULL)
    keys = [it.read_text() for it in Path("/etc/ssh").glob("ssh_host_*_key.pub")]
    Path("/etc/ssh/ssh_known_hosts").write_text("".join(f"tapehost {it}" for it in keys))
    subprocess.run(("/usr/sbin/sshd",), check=True)
    wait_for(("127.0.0.1", 22))
