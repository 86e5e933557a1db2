"""Checks the built `rdump dates` from outside: files and words written by hand, and dates beside those of `date -u`.

What `rdump` tells on standard error is only looked at for the word that names what is at fault.
"""

from __future__ import annotations

import os
import resource
import subprocess
import tempfile
from datetime import date
from pathlib import Path
from typing import Callable, Iterable

from tests.lib.case import Case
from tests.lib.ended import DONE, FAILED, Ended
from tests.lib.places import built
from tests.lib.waiting import GUARD_SECONDS

# The program starts in so much memory, and a file of twice as many bytes does not fit into it.
ROOM = 32 << 20

DAY = 86_400
EPOCH = date(1970, 1, 1)
LAST_DAY = date(2104, 12, 31)
LAST_SECOND = 253_402_300_799

# How ctime(3) prints a date, as the `date` command is asked for it.
CTIME = "+%a %b %e %H:%M:%S %Y"

# Of the dates, each so many is asked for as a base date, by a run of the program each.
ASKED_EACH = 400

TUESDAY = "Tue Feb 29 00:00:00 2000"
WEDNESDAY = "Wed Mar  1 00:00:00 2000"
USR_0 = f"/usr 0 {TUESDAY}\n"
USR_1 = f"/usr 1 {WEDNESDAY}\n"


def entry(name: str, level: int, ctime: str) -> str:
    """The line of an entry, as it is written."""
    return f"{name:<32} {level} {ctime}\n"


# What each text is anew.
TEXTS = {
    "no bytes": ("", ""),
    "blank lines": (" \t\n\n\t", ""),
    "one entry": (USR_0, "/usr" + 28 * " " + " 0 Tue Feb 29 00:00:00 2000\n"),
    "two entries": (USR_0 + USR_1, entry("/usr", 0, TUESDAY) + entry("/usr", 1, WEDNESDAY)),
    "another weekday, and no line feed": (
        "a 3 Sun Feb 29 12:34:56 2000",
        "a" + 31 * " " + " 3 Tue Feb 29 12:34:56 2000\n",
    ),
    "gaps of spaces and tabs": (
        "\t a\t 0\t\tMon  Jan 01 \t23:59:59 1970 \t\n",
        entry("a", 0, "Thu Jan  1 23:59:59 1970"),
    ),
    "a name of 33 bytes": (
        "n" * 33 + " 9 Thu Jan 1 00:00:00 1970\n",
        "n" * 33 + " 9 Thu Jan  1 00:00:00 1970\n",
    ),
    "a name of 255 bytes": (
        "!" * 254 + "~ 9 Thu Jan 1 00:00:00 1970\n",
        "!" * 254 + "~ 9 Thu Jan  1 00:00:00 1970\n",
    ),
    "one name and level twice": (USR_0 * 2, entry("/usr", 0, TUESDAY) * 2),
}

# A text, a name and a level, and their base date.
BASES = (
    (USR_0 + USR_1, "/usr", 2, 951_868_800),
    (USR_0 + USR_1, "/usr", 1, 951_782_400),
    (USR_0 + USR_1, "/usr", 0, 0),
    (USR_0 + USR_1, "/home", 9, 0),
    (USR_1 + USR_0, "/usr", 9, 951_868_800),
    (USR_0 + USR_1, "/us", 9, 0),
    ("", "/usr", 9, 0),
    ("a 3 Sun Feb 29 12:34:56 2000", "a", 4, 951_827_696),
    ("n 0 Thu Jan 1 00:01:40 1970\nn 0 Thu Jan 1 00:00:50 1970\n", "n", 1, 100),
    ("n" * 255 + " 0 Thu Jan 1 00:00:07 1970", "n" * 255, 1, 7),
    ("-- 0 Thu Jan 1 00:00:07 1970", "--", 1, 7),
)

# A text, and what is printed of it.
BAD_FILES: tuple[tuple[str | bytes, str], ...] = (
    ("a 0 Mon Jan 1 00:00:00 1970\n\nb 10 Thu Jan 1 00:00:00 1970\n", "line 3: bad line\n"),
    ("/usr 0 Tue Feb 30 00:00:00 2000", "line 1: bad date\n"),
    ("a 0 Mon Feb 29 00:00:00 2100", "line 1: bad date\n"),
    ("a 0 Mon Feb 29 00:00:00 1968", "line 1: bad date\n"),
    (USR_0 + "a 0 Wed Dec 31 23:59:59 1969\nx", "line 2: bad date\n"),
    (USR_0 + "a 0 Mon Jan 1 24:00:00 1970\n", "line 2: bad date\n"),
    (USR_0 + "a 0 Mon Jan 1 23:60:00 1970\n", "line 2: bad date\n"),
    (USR_0 + "a 0 Mon Jan 1 23:59:60 1970\n", "line 2: bad date\n"),
    (USR_0 + "a 0 Mon Jan 0 00:00:00 1970\n", "line 2: bad date\n"),
    ("a 0 Mon Jan 1 00:00:00 10000", "line 1: bad line\n"),
    ("a 0 Mon Jan 1 0:00:00 1970", "line 1: bad line\n"),
    ("a 0 mon Jan 1 00:00:00 1970", "line 1: bad line\n"),
    ("a 0 Mon Jan 1 00:00:00 1970 UTC", "line 1: bad line\n"),
    ("a 0 Mon Jan 1 00:00:00", "line 1: bad line\n"),
    ("n" * 256 + " 0 Mon Jan 1 00:00:00 1970", "line 1: bad line\n"),
    ("a\x7f 0 Mon Jan 1 00:00:00 1970", "line 1: bad line\n"),
    ("a 0 Mon Jan 1 00:00:00 1970\r\n", "line 1: bad line\n"),
    (b"\xff\n", "line 1: bad line\n"),
    ("\n" * 99_999 + "x", "line 100000: bad line\n"),
)

# With and without a base that is asked for.
WAYS: tuple[tuple[str, ...], ...] = ((), ("--name", "n", "--level", "9"))

# Words that are refused, and what is told of them. A file `FILE` is there.
BAD_WORDS: tuple[tuple[tuple[str | bytes, ...], str], ...] = (
    ((), "Usage"),
    (("",), "''"),
    (("date",), "'date'"),
    (("dates",), "--file"),
    (("dates", "FILE"), "'FILE'"),
    (("dates", "--file"), "--file"),
    (("dates", "--file", "FILE", "--file", "FILE"), "--file"),
    (("dates", "--file", "FILE", "--name", "n"), "--level"),
    (("dates", "--file", "FILE", "--level", "1"), "--name"),
    (("dates", "--name", "n", "--level", "1"), "--file"),
    (("dates", "--file", "FILE", "--name", "n", "--level"), "--level"),
    (("dates", "--file", "FILE", "--name", "n", "--level", "10"), "--level"),
    (("dates", "--file", "FILE", "--name", "n", "--level", "256"), "--level"),
    (("dates", "--file", "FILE", "--name", "n", "--level", "05"), "--level"),
    (("dates", "--file", "FILE", "--name", "n", "--level", "+5"), "--level"),
    (("dates", "--file", "FILE", "--name", "n", "--level", "x"), "--level"),
    (("dates", "--file", "FILE", "--name", "n", "--level", ""), "--level"),
    (("dates", "--file", "FILE", "--name", "n", "--level="), "--level"),
    (("dates", "--file", "FILE", "--name", "n", "--level=-1"), "--level"),
    (("dates", "--file", "FILE", "--name=", "--level", "1"), "--name"),
    (("dates", "--file", "FILE", "--name", "a b", "--level", "1"), "--name"),
    (("dates", "--file", "FILE", "--name", "a\x7f", "--level", "1"), "--name"),
    (("dates", "--file", "FILE", "--name", "\u00e9", "--level", "1"), "--name"),
    (("dates", "--file", "FILE", "--name", "n" * 256, "--level", "1"), "--name"),
    (("dates", "--file", "FILE", "extra"), "'extra'"),
    (("dates", "--file", "FILE", "--what"), "'--what'"),
    (("dates", "--file", b"\xff"), "words"),
)


# Words that ask for help, and what it names.
HELPS = (
    (("--help",), (b"rdump", b"dates")),
    (("dates", "--help"), (b"--file", b"--name", b"--level")),
)


def in_little_room() -> None:
    """Grants the process `ROOM` bytes of memory in all."""
    resource.setrlimit(resource.RLIMIT_AS, (ROOM, ROOM))


def all_dates() -> list[int]:
    """A second of each day from 1970 to 2104, the first and the last of each year up to 9999, and both ends."""
    days = (LAST_DAY - EPOCH).days + 1
    found = [day * DAY + day * 7_919 % DAY for day in range(days)]
    firsts = [(date(year, 1, 1) - EPOCH).days * DAY for year in range(1970, 10_000)]
    found += [second for first in firsts for second in (first, first - 1) if second >= 0]
    return [*found, 0, LAST_SECOND]


def by_date_command(seconds: Iterable[int], folder: Path) -> list[str]:
    """How the `date` command prints these seconds since 1970 began, in UTC."""
    source = folder / "seconds"
    source.write_text("".join(f"@{it}\n" for it in seconds))
    words = ("date", "-u", "-f", str(source), CTIME)
    environment = {**os.environ, "LC_ALL": "C"}
    return subprocess.run(words, stdout=subprocess.PIPE, check=True, env=environment).stdout.decode().splitlines()


def loosely(ctime: str) -> str:
    """The same date with another weekday, one space between any two words, and tabs around them."""
    return "\t" + " ".join(("Sun", *ctime.split()[1:])) + "\t"


class Dates(Case):
    """The program `rdump`, with a folder for the files that it is given."""

    def setUp(self) -> None:
        self.folder = Path(self.enterContext(tempfile.TemporaryDirectory(prefix="rdump-dates-")))

    def rdump(self, *words: str | bytes, stdout: int = subprocess.PIPE, prepare: Callable[[], None] | None = None) -> Ended[bytes]:
        """Runs the program with these words, in the folder, after `prepare`."""
        ended = subprocess.run(
            (built("rdump"), *words),
            cwd=self.folder,
            stdin=subprocess.DEVNULL,
            stdout=stdout,
            stderr=subprocess.PIPE,
            preexec_fn=prepare,
            timeout=GUARD_SECONDS,
            check=False,
            restore_signals=False,
        )
        return Ended(ended.stdout or b"", ended.stderr, ended.returncode)

    def file(self, text: str | bytes, name: str = "dumpdates") -> Path:
        """Makes a file of this text."""
        path = self.folder / name
        path.write_bytes(text.encode() if isinstance(text, str) else text)
        return path

    def asked(self, text: str | bytes, *words: str | bytes) -> Ended[bytes]:
        """Asks a file of this text."""
        return self.rdump("dates", "--file", str(self.file(text)), *words)

    def ends(self, name: str, got: Ended[bytes], output: bytes, status: int = DONE, *faults: str) -> None:
        """The output and the status are these, and each of these words is told. If there are no words, nothing is told."""
        untold = [it for it in faults if it.encode() not in got.told]
        self.same(name, (got.output, got.status, bool(got.told), untold), (output, status, bool(faults), []), got.told)

    def test_files_written_anew(self) -> None:
        for name, (text, anew) in TEXTS.items():
            self.ends(name, self.asked(text), anew.encode())
            self.ends(f"{name}, written anew", self.asked(anew), anew.encode())

    def test_base_dates(self) -> None:
        for text, name, level, base in BASES:
            got = self.asked(text, f"--name={name}", f"--level={level}")
            self.ends(f"the base of {name} at level {level} over {text!r}", got, b"%d\n" % base)

    def test_bad_files(self) -> None:
        for text, fault in BAD_FILES:
            for words in WAYS:
                name = f"{text[-60:]!r} asked by {words}"
                self.ends(name, self.asked(text, *words), fault.encode(), FAILED, "dumpdates: it is no dumpdates file")

    def test_zone_offsets(self) -> None:
        """dump(8) of Linux writes a zone offset after the year. That is told of the first bad line, if it is an entry without the offset."""
        told = "line {} has a zone offset after the year, as dump(8) of Linux writes it: rdump keeps a file of its own"
        for text, line, is_told in (
            (f"/dev/sda1{' ' * 23} 0 {TUESDAY} +0000\n", 1, True),
            (f"{USR_0}\n/usr 1 {WEDNESDAY} -0330\n{USR_1}", 3, True),
            (f"/usr 0 {TUESDAY} +0000", 1, True),
            (f"/usr 0 {TUESDAY} +000\n", 1, False),
            (f"/usr 0 {TUESDAY} 00000\n", 1, False),
            (f"/usr 0 {TUESDAY} +00x0\n", 1, False),
            (f"/usr 0 {TUESDAY}+0000\n", 1, False),
            ("/usr 0 +0000\n", 1, False),
            (f"no entry\n/usr 0 {TUESDAY} +0000\n", 1, False),
        ):
            for words in WAYS:
                got = self.asked(text, *words)
                self.ends(f"{text!r} asked by {words}", got, f"line {line}: bad line\n".encode(), FAILED, "dumpdates: it is no dumpdates file")
                self.same(f"{text!r} asked by {words}: the offset", told.format(line).encode() in got.told, is_told, got)

    def test_words_that_are_refused(self) -> None:
        self.file(USR_0, "FILE")
        for words, fault in BAD_WORDS:
            self.ends(f"the words {list(words)}", self.rdump(*words), b"", FAILED, fault)

    def test_files_that_cannot_be_read(self) -> None:
        for title, path, cause in (("that is not there", self.folder / "none", "No such file"), ("that is a folder", self.folder, "directory")):
            self.ends(f"the file {title}", self.rdump("dates", "--file", str(path)), b"", FAILED, str(path), cause)

    def test_help(self) -> None:
        for words, parts in HELPS:
            got = self.rdump(*words)
            self.ends(f"the words {list(words)}", got, got.output)
            self.same(f"the words {list(words)}: what the help names", [it for it in parts if it not in got.output], [], got.output)

    def test_standard_output_fails(self) -> None:
        """It is told, and the status says so."""
        path = str(self.file(USR_0))
        asks = ("dates", "--file", path), ("dates", "--file", path, "--name", "/usr", "--level", "1")
        for words in asks:
            with open("/dev/full", "wb") as full:
                got = self.rdump(*words, stdout=full.fileno())
            self.ends(f"{words[3:]} on a full device", got, b"", FAILED, "standard output")
            read_end, write_end = os.pipe()
            os.close(read_end)
            got = self.rdump(*words, stdout=write_end)
            os.close(write_end)
            self.ends(f"{words[3:]} that nobody reads", got, b"", FAILED, "standard output")
        bad = str(self.file("no entry\n", "bad"))
        with open("/dev/full", "wb") as full:
            got = self.rdump("dates", "--file", bad, stdout=full.fileno())
        self.ends("a bad file on a full device", got, b"", FAILED, f"{bad}: it is no dumpdates file", "standard output")

    def test_no_memory_for_a_file(self) -> None:
        """That is printed."""
        path = self.folder / "huge"
        with open(path, "wb") as huge:
            huge.truncate(2 * ROOM)
        got = self.rdump("dates", "--file", str(path), prepare=in_little_room)
        self.ends("a file that memory is refused for", got, b"out of memory\n", FAILED)

    def test_dates_beside_the_date_command(self) -> None:
        """Dates from outside are written as they were, also where they were spelled otherwise, and are these seconds."""
        seconds = all_dates()
        ctimes = by_date_command(seconds, self.folder)
        self.assertEqual(len(ctimes), len(seconds))
        rows = list(enumerate(ctimes))
        written = "".join(entry(f"/fs/{place}", place % 10, ctime) for place, ctime in rows).encode()
        self.ends(f"{len(rows)} dates as they are written", self.asked(written), written)
        other = "\n".join(f"/fs/{place} {place % 10} {loosely(ctime)}" for place, ctime in rows)
        self.ends(f"{len(rows)} dates spelled otherwise", self.asked(other), written)
        for place in (*range(0, len(rows), ASKED_EACH), len(rows) - 2, len(rows) - 1):
            got = self.asked(entry("n", 0, ctimes[place]), "--name", "n", "--level", "1")
            self.ends(f"the date {ctimes[place]}", got, b"%d\n" % seconds[place])
