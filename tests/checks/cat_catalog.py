"""Checks what the built `rdump cat --catalog` writes: the payload of a dump that the catalog has as finished, from reels with its sums, or nothing.

The catalogs and the reels are made here. A plain model says which of the reels have a sum that is in force.
"""

from __future__ import annotations

import os
import random
import re
import tempfile
from pathlib import Path
from typing import Mapping, Sequence

from tests.lib.case import random_seed
from tests.lib.cats import ReelFolder, cat_with
from tests.lib.dumping import DAY
from tests.lib.ended import ABNORMAL, DONE, FAILED, Ended
from tests.lib.listings import Label, decoded, dump_words, said, volume_of
from tests.lib.volumes import reels_of
from tests.models.found import EQUAL, UNKNOWN, Dump, begun_line, finished_line, label_in, states_of, verdict_on, volume_line
from tests.models.rmtd import images

# Two payloads of one name, level and dates, each on three reels, and one of another length on two.
A, B, C = b"one two three four five.", b"ONE TWO THREE FOUR FIVE.", b"six seven eig"
A_REELS, B_REELS = (reels_of(it, 4, [(0, 2), (2, 3), (5, 1)]) for it in (A, B))
C_REELS = reels_of(C, 4, [(0, 3), (3, 1)])
USR = Dump("/usr", 0, DAY, 0)

LIST_THEM = "rdump ls with the same files prints what each of them has"
NO_VOLUME = f"no file has a whole volume of such a dump: {LIST_THEM}"
NO_DUMP, NOT_FINISHED = "c: it has no such dump", "c: the dump is not finished"
TWO_DUMPS = "the files have volumes of more than one dump: choose one by --fs, --level and --date"

# How many random catalogs are tried.
CATALOGS = 400


def missing(number: int) -> str:
    return f"volume {number} is missing: {LIST_THEM}"


def aside(path: str, words: str) -> str:
    return f"{path}: {words}: it is set aside"


def events(payload: bytes, reels: list[bytes]) -> list[bytes]:
    """The lines of a dump of this payload, which has these reels."""
    blocks = -(-len(payload) // 4)
    return [begun_line(USR, len(payload)), *map(volume_line, reels), finished_line(USR, len(reels), blocks, 4, len(payload))]


A_LINES, B_LINES, C_LINES = events(A, A_REELS), events(B, B_REELS), events(C, C_REELS)
A_CATALOG = b"".join(A_LINES)


def told(*lines: str) -> bytes:
    return "".join(f"rdump: {it}\n" for it in lines).encode()


def known_twice(first: str, second: str) -> Ended[bytes]:
    """What comes if the catalogs of these names have lines of the dump."""
    return Ended(b"", told(f"{first} and {second} have lines of one dump, {dump_words(*USR)}: leave out one of them"), FAILED)


def twice(first: int, second: int) -> Ended[bytes]:
    return known_twice(f"c{first}", f"c{second}")


def last_length(text: bytes) -> int:
    """The length in the last line of a finished dump."""
    return int(re.findall(rb"(?m)^finished .* (\d+) bytes$", text)[-1])


def wanted_of(files: Mapping[str, bytes], text: bytes) -> tuple[bytes, int]:
    """What has to be written of whole reels of one dump, in the order of their paths, and the status. The lines are of this dump alone."""
    state = states_of(text).get(USR)
    if state is None or not state.has_begun or state.volumes is None:
        return b"", ABNORMAL
    equal = {label_in(it).volume: it for it in files.values() if verdict_on(it, text) == EQUAL}
    if sorted(equal) != [*range(1, state.volumes + 1)]:
        return b"", ABNORMAL
    first, payload = 0, b""
    for _, data in sorted(equal.items()):
        found = volume_of(decoded(data)[0])
        if found is None or found[0].first != first:
            return b"", ABNORMAL
        first += len(found[1])
        payload += b"".join(found[1])
    length = last_length(text)
    return (payload[:length], DONE) if -(-length // 4) == first else (b"", ABNORMAL)


def asides(files: Mapping[str, bytes], text: bytes) -> list[str]:
    """The lines of the reels that are set aside."""
    verdicts = [(path, verdict_on(it, text)) for path, it in files.items()]
    return [aside(path, it) for path, it in verdicts if it is not None and it != EQUAL]


class CatalogCase(ReelFolder):
    """The command with a catalog, in a folder of reels."""

    def cat(self, text: bytes, *words: str) -> Ended[bytes]:
        self.lay({"c": text})
        return cat_with("--catalog", "c", *words, folder=self.folder)

    def comes_back(self, name: str, payload: bytes, text: bytes, *words: str, why: tuple[str, ...] = ()) -> None:
        self.same(name, self.cat(text, *words), Ended(payload, told(*why), DONE))

    def refused(self, name: str, text: bytes, *words: str, why: tuple[str, ...], status: int = ABNORMAL) -> None:
        """Nothing is written, and this is told."""
        self.same(name, self.cat(text, *words), Ended(b"", told(*why), status))

    def nothing(self, name: str, text: bytes, *words: str) -> Ended[bytes]:
        """Nothing is written, whatever is told."""
        got = self.cat(text, *words)
        self.same(name, (got.output, got.status in (FAILED, ABNORMAL), got.told != b""), (b"", True, True), got)
        return got


class TwoPayloads(CatalogCase):
    """Payloads that have one name, one level and one date."""

    def test_each_order(self) -> None:
        """The dump of A ends after each of its lines, and then that of B, or of another one. The reels of both are there, or of one of them."""
        reels = {f"a{number}": it for number, it in enumerate(A_REELS)} | {f"b{number}": it for number, it in enumerate(B_REELS)}
        reels |= {f"c{number}": it for number, it in enumerate(C_REELS)}
        self.lay({f"all/{name}": it for name, it in reels.items()})
        for name, it in reels.items():
            self.lay({f"of_{name[0]}/{name}": it})
        came = set()
        for one, ones in (("A", A_LINES), ("C", C_LINES)):
            for count in range(len(ones) + 1):
                for other, others in (("B", B_LINES), ("A", A_LINES), ("C", C_LINES)):
                    for more in range(len(others) + 1):
                        text = b"".join([*ones[:count], *others[:more]])
                        for folder in ("all", "of_a", "of_b", "of_c"):
                            files = {f"{folder}/{name}": it for name, it in reels.items() if folder in ("all", f"of_{name[0]}")}
                            title = f"{count} lines of {one}, {more} of {other}, the reels of {folder}"
                            payload, status = wanted_of(files, text)
                            got = self.cat(text, folder)
                            self.same(title, (got.output, got.status), (payload, status), got)
                            lines = asides(files, text) if states_of(text).get(USR) and NOT_FINISHED.encode() not in got.told else []
                            self.holds(f"{title}: what is set aside", got.told.startswith(told(*lines)), got)
                            came.add(got.output)
        self.same("each payload came", came, {A, B, C, b""})

    def test_random_catalogs(self) -> None:
        """The lines of three dumps under one name in random order, and some of their reels."""
        first = random_seed(94)
        came = set()
        reels = [*A_REELS, *B_REELS, *C_REELS]
        for seed in range(first, first + CATALOGS):
            source = random.Random(seed)
            lines: list[bytes] = []
            for _ in range(source.randrange(1, 5)):
                ones = source.choice((A_LINES, B_LINES, C_LINES))
                lines += ones[source.choice((0, 0, 0, 1)) : source.choice((len(ones), len(ones), source.randrange(len(ones) + 1)))]
            for _ in range(source.choice((0, 0, 1, 2))):
                lines.insert(source.randrange(len(lines) + 1), source.choice((*A_LINES, *B_LINES, *C_LINES)))
            text = b"".join(lines)
            with tempfile.TemporaryDirectory(dir=self.folder) as name:
                folder = Path(name).name
                chosen = source.sample(reels, source.choice((3, 5, 8, 8, 8)))
                files = {f"{folder}/{number}": it for number, it in enumerate(chosen)}
                self.lay(files)
                got = self.cat(text, folder)
            payload, status = wanted_of(files, text)
            came.add(got.output)
            self.same(f"catalog {seed}", (got.output, got.status), (payload, status), got, text)
        self.holds("both came", {b""} < came, came)

    def test_a_length_cannot_tell(self) -> None:
        """The first reel of A with the others of B: without a catalog this is written, and it is neither A nor B."""
        self.lay({"r1": A_REELS[0], "r2": B_REELS[1], "r3": B_REELS[2]})
        mixed = A[:8] + B[8:]
        self.same("with a length", cat_with("--length", str(len(A)), "r1", "r2", "r3", folder=self.folder)[::2], (mixed, DONE))
        text = b"".join([*A_LINES[:2], *B_LINES])
        why = (aside("r1", "of a dump that was begun anew"), missing(1))
        self.refused("with a catalog", text, "r1", "r2", "r3", why=why)
        self.lay({"r4": B_REELS[0]})
        self.comes_back("with a catalog, and the reel of B", B, text, "r1", "r2", "r3", "r4", why=why[:1])


class Reels(CatalogCase):
    """Reels of one dump, and what may have happened to them."""

    def setUp(self) -> None:
        super().setUp()
        self.lay({f"r{number}": it for number, it in enumerate(A_REELS, 1)})

    def test_they_come_back(self) -> None:
        """The reels in another order, with a copy of one of them, and as a folder. The catalog has lines of other dumps too."""
        self.comes_back("the reels", A, A_CATALOG, "r3", "r1", "r2")
        self.lay({f"all/{number}": it for number, it in enumerate((*A_REELS, A_REELS[1], b""))})
        self.comes_back("a folder", A, A_CATALOG, "all")
        other = Dump("/home", 0, DAY, 0)
        text = begun_line(other, 5) + A_CATALOG + begun_line(other, 6) + finished_line(other, 1, 0, 4, 0)
        self.comes_back("lines of another dump", A, text, "all")

    def test_each_byte(self) -> None:
        """A bit of each byte of each reel is changed, in place of the reel and beside it."""
        for number, data in enumerate(A_REELS, 1):
            for place, byte in enumerate(data):
                if 100 < place < 1020 and place % 16:
                    continue
                other = data[:place] + bytes([byte ^ 1 << place % 8]) + data[place + 1 :]
                self.lay({f"r{number}": other})
                got = self.nothing(f"byte {place} of reel {number}", A_CATALOG, "r1", "r2", "r3")
                self.holds(f"byte {place} of reel {number}: why", f"volume {number} is missing".encode() in got.told or got.status == FAILED, got)
                self.lay({"good": data})
                got = self.cat(A_CATALOG, "r1", "r2", "r3", "good")
                self.holds(f"byte {place} of reel {number}, and the reel", got[::2] in ((A, DONE), (b"", FAILED)), got)
            self.lay({f"r{number}": data})

    def test_each_cut(self) -> None:
        """Each reel without its last bytes, and with more of them."""
        for number, data in enumerate(A_REELS, 1):
            for size in range(len(data)):
                if size % 100 < 3 or len(data) - size < 30 or abs(size - 1032) < 10:
                    self.lay({f"r{number}": data[:size]})
                    self.refused(f"{size} bytes of reel {number}", A_CATALOG, "r1", "r2", "r3", why=(missing(number),))
            for more in (bytes(1), bytes(4), data):
                self.lay({f"r{number}": data + more})
                self.refused(f"reel {number} and {len(more)} bytes", A_CATALOG, "r1", "r2", "r3", why=(missing(number),))
            self.lay({f"r{number}": data})

    def test_each_is_missing(self) -> None:
        """Each reel is left out, or given twice. The last volume is named too."""
        names = ("r1", "r2", "r3")
        for number, name in enumerate(names, 1):
            self.refused(f"without {name}", A_CATALOG, *(it for it in names if it != name), why=(missing(number),))
            self.comes_back(f"{name} twice", A, A_CATALOG, *names, name)
        self.refused("the last two", A_CATALOG, "r1", why=(missing(2),))
        self.lay({"empty": b""})
        self.refused("an empty reel", A_CATALOG, "empty", why=(NO_VOLUME,))

    def test_one_of_two_is_right(self) -> None:
        """Two reels of a volume, one of them with other bytes: the right one is taken, whichever is named first."""
        for number, data in enumerate(A_REELS, 1):
            for place in (1036, len(data) - 9):
                self.lay({"bad": data[:place] + bytes([data[place] ^ 1]) + data[place + 1 :]})
                why = (aside("bad", "sum differs"),)
                self.comes_back(f"byte {place} of reel {number}: first", A, A_CATALOG, "bad", "r1", "r2", "r3", why=why)
                self.comes_back(f"byte {place} of reel {number}: last", A, A_CATALOG, "r3", "r2", "r1", "bad", why=why)

    def test_other_dumps(self) -> None:
        """A reel of another dump, one that is cut too: the dumps are named, and each can be chosen."""
        for other in (USR._replace(name="/home"), USR._replace(level=1), USR._replace(date=DAY + 1)):
            reel = images([Label(*other, 1, 0).record(), b"else", None])
            text = A_CATALOG + begun_line(other, 3) + volume_line(reel) + finished_line(other, 1, 1, 4, 3)
            why = (TWO_DUMPS, dump_words(*USR), dump_words(*other))
            self.lay({"other": reel, "cut": reel[:-4]})
            self.refused(f"{other}", text, "r1", "r2", "r3", "other", why=why, status=FAILED)
            self.refused(f"{other}, cut", text, "r1", "r2", "r3", "cut", why=why, status=FAILED)
            for dump, payload in ((USR, A), (other, b"els")):
                words = ("--fs", dump.name, "--level", str(dump.level), "--date", str(dump.date))
                self.comes_back(f"{other}: {dump} is chosen", payload, text, *words, "r1", "r2", "r3", "other")
        since = Dump("/usr", 0, DAY, 5)
        self.lay({"other": images([Label(*since, 1, 0).record(), b"else", None])})
        why = (TWO_DUMPS, dump_words(*USR), dump_words(*since))
        self.refused("another base date", A_CATALOG, "--fs", "/usr", "r1", "r2", "r3", "other", why=why, status=FAILED)
        self.refused("no such dump is there", A_CATALOG, "--fs", "/", "r1", "r2", "r3", why=(NO_VOLUME,))

    def test_set_aside(self) -> None:
        """Reels that are set aside are named, each with why."""
        self.lay({"old": B_REELS[1]})
        begun, one, two, three, finished = A_LINES
        again = begun + one + volume_line(B_REELS[1]) + two + three + finished
        words = ("r1", "r2", "r3", "old")
        self.comes_back("a volume that was written again", A, again, *words, why=(aside("old", "of a volume that was written again"),))
        self.comes_back("begun anew", A, b"".join(B_LINES) + A_CATALOG, *words, why=(aside("old", "of a dump that was begun anew"),))
        self.comes_back("another sum", A, A_CATALOG, *words, why=(aside("old", "sum differs"),))
        self.lay({"old": images([Label(*USR, 4, 6).record(), b"more", None])})
        self.comes_back("a volume without a line", A, A_CATALOG, *words, why=(aside("old", UNKNOWN),))
        why = (*(aside(f"r{number}", "of a dump that was begun anew") for number in (1, 2, 3)), missing(1))
        empty = begun_line(USR, 1) + volume_line(B_REELS[0]) + finished_line(USR, 1, 2, 4, 8)
        self.refused("all of them", A_CATALOG + empty, "r1", "r2", "r3", why=("r1: of a dump that was begun anew: it is set aside", *why[1:]))

    def test_names(self) -> None:
        """The name of a reel that is set aside is told without control characters."""
        self.lay({"x\n\x1b[2Jy": B_REELS[0]})
        why = (aside("x??[2Jy", "sum differs"),)
        self.comes_back("a name with control characters", A, A_CATALOG, "x\n\x1b[2Jy", "r1", "r2", "r3", why=why)


class Catalogs(CatalogCase):
    """Catalogs that do not have the dump as finished, or are none."""

    def setUp(self) -> None:
        super().setUp()
        self.lay({f"r{number}": it for number, it in enumerate(A_REELS, 1)})

    def test_not_finished(self) -> None:
        """Each beginning of the lines, and a line of a volume behind the last one."""
        for count in range(1, len(A_LINES)):
            self.refused(f"{count} lines", b"".join(A_LINES[:count]), "r1", "r2", "r3", why=(NOT_FINISHED,))
        for number in (1, 2, 3):
            self.refused(f"volume {number} again", A_CATALOG + A_LINES[number], "r1", "r2", "r3", why=(NOT_FINISHED,))
        self.refused("begun anew", A_CATALOG + A_LINES[0], "r1", "r2", "r3", why=(NOT_FINISHED,))

    def test_no_such_dump(self) -> None:
        """No line says that the dump began."""
        self.refused("no line", b"", "r1", "r2", "r3", why=(NO_DUMP,))
        self.refused("no begun line", b"".join(A_LINES[1:]), "r1", "r2", "r3", why=(NO_DUMP,))
        for other in (USR._replace(name="/usr2"), USR._replace(level=1), USR._replace(date=DAY + 1), USR._replace(since=1)):
            text = A_CATALOG.replace(USR.text().encode(), other.text().encode())
            self.refused(f"{other}", text, "r1", "r2", "r3", why=(NO_DUMP,))

    def test_numbers(self) -> None:
        """The line of the finished dump has another number of volumes, or another length."""
        lines = b"".join(A_LINES[:-1])
        words = ("r1", "r2", "r3")
        self.refused("more volumes", lines + finished_line(USR, 4, 6, 4, len(A)), *words, why=(missing(4),))
        why = f"there are more volumes than the 2 of the dump in the catalog: {LIST_THEM}"
        self.refused("fewer volumes", lines + finished_line(USR, 2, 6, 4, len(A)), *words, why=(why,))
        for length in (0, 19, 20, 25, 1 << 40, (1 << 64) - 1):
            why = f"the volumes have 6 blocks of 4 bytes, and a payload of this length has another number of blocks: {LIST_THEM}"
            self.refused(f"{length} bytes", lines + finished_line(USR, 3, 6, 4, length), *words, why=(why,))
        for length in (21, 22, 23, 24):
            self.comes_back(f"{length} bytes", A[:length], lines + finished_line(USR, 3, 6, 4, length), *words)

    def test_no_catalog(self) -> None:
        """What is no catalog is told with the number of the first bad line, and nothing is written."""
        words = ("r1", "r2", "r3")
        for title, text, number in (
            ("a line that is cut", A_CATALOG[:-1], 5),
            ("a byte more", A_CATALOG + b"x", 6),
            ("an empty line", A_CATALOG + b"\n", 6),
            ("another word", A_CATALOG.replace(b"begun", b"Begun"), 1),
            ("a sum in capitals", A_LINES[0] + A_LINES[1].upper(), 2),
            ("a sums file with a bad number", A_CATALOG.replace(b"first 2", b"first 02"), 3),
        ):
            self.refused(title, text, *words, why=(f"c: it is no catalog: line {number}: bad line",), status=FAILED)
        for path, why in (("none", "No such file"), ("r1/c", "Not a directory"), (".", "")):
            got = cat_with("--catalog", path, *words, folder=self.folder)
            is_told = got.told.startswith(f"rdump: {path}: ".encode()) and why.encode() in got.told and got.told.count(b"\n") == 1
            self.same(path, (got.output, got.status, is_told), (b"", FAILED, True), got)

    def test_outputs(self) -> None:
        """A pipe that is closed, and a disk that is full. Nothing else is told than without a catalog."""
        self.lay({"c": A_CATALOG})
        here, there = os.pipe()
        os.close(here)
        got = cat_with("--catalog", "c", "r1", "r2", "r3", folder=self.folder, stdout=there)
        self.same("a closed pipe", got, Ended(b"", b"", DONE))
        os.close(there)
        with open("/dev/full", "wb") as full:
            got = cat_with("--catalog", "c", "r1", "r2", "r3", folder=self.folder, stdout=full.fileno())
        self.same("a full disk", (got.status, b"standard output could not be written" in got.told), (FAILED, True), got)

    def test_many_reels(self) -> None:
        """A thousand reels, in an order that is not that of the volumes."""
        payload = random.Random(11).randbytes(1000)
        reels = reels_of(payload, 1, [(number, 1) for number in range(1000)])
        self.lay({f"many/{number * 7 % 1000:03}": it for number, it in enumerate(reels)})
        text = begun_line(USR, 1000) + b"".join(map(volume_line, reels)) + finished_line(USR, 1000, 1000, 1, 1000)
        self.comes_back("a thousand reels", payload, text, "many")

    def test_no_blocks(self) -> None:
        """A dump of an empty payload."""
        reel = images([Label(*USR, 1, 0).record(), None])
        self.lay({"none": reel})
        text = begun_line(USR, 0) + volume_line(reel) + finished_line(USR, 1, 0, 4, 0)
        self.same("its line", said(reel).is_whole(), True)
        self.comes_back("an empty payload", b"", text, "none")


class Several(CatalogCase):
    """Several catalogs: only one of them may have lines of the dump."""

    def setUp(self) -> None:
        super().setUp()
        self.lay({f"r{number}": it for number, it in enumerate(A_REELS, 1)})

    def of_all(self, texts: Sequence[bytes], *words: str) -> Ended[bytes]:
        """What came of the command with catalogs of these texts, which have the names c0, c1, .."""
        names = [f"c{number}" for number in range(len(texts))]
        self.lay(dict(zip(names, texts)))
        return cat_with(*(it for name in names for it in ("--catalog", name)), *words, folder=self.folder)

    def come(self, name: str, texts: Sequence[bytes], came: Ended[bytes], *words: str) -> None:
        self.same(name, self.of_all(texts, *words), came)

    def test_a_dump_in_each(self) -> None:
        """Each of two catalogs has a dump, and each dump comes back, in both orders, also beside catalogs without a line."""
        other = Dump("/home", 1, DAY + 1, DAY)
        reel = images([Label(*other, 1, 0).record(), b"else", None])
        text = begun_line(other, 3) + volume_line(reel) + finished_line(other, 1, 1, 4, 3)
        self.lay({"other": reel})
        for title, texts in (("first", [A_CATALOG, text]), ("last", [text, A_CATALOG]), ("among others", [b"", A_CATALOG, b"", text, b""])):
            self.come(f"{title}: A", texts, Ended(A, b"", DONE), "--fs", "/usr", "r1", "r2", "r3", "other")
            self.come(f"{title}: the other one", texts, Ended(b"els", b"", DONE), "--fs", "/home", "r1", "r2", "r3", "other")
            why = told(TWO_DUMPS, dump_words(*USR), dump_words(*other))
            self.come(f"{title}: both are wanted", texts, Ended(b"", why, FAILED), "r1", "r2", "r3", "other")
            self.come(f"{title}: a reel is missing", texts, Ended(b"", told(missing(2)), ABNORMAL), "--fs", "/usr", "r1", "r3")

    def test_one_is_none(self) -> None:
        """What is no catalog is named, with the number of its own first bad line, and nothing is written. So is a file that is not there."""
        cut = A_CATALOG[:-1]
        for title, texts, number, line in (
            ("the first", [cut, b"".join(B_LINES)], 0, 5),
            ("the second", [A_CATALOG, A_CATALOG + b"\n"], 1, 6),
            ("the third", [A_CATALOG, b"", b"x"], 2, 1),
            ("two of them", [A_CATALOG, b"\n", b"\n"], 1, 1),
        ):
            why = told(f"c{number}: it is no catalog: line {line}: bad line")
            self.come(title, texts, Ended(b"", why, FAILED), "r1", "r2", "r3")
        for place in range(1, len(A_CATALOG)):
            if A_CATALOG[:place].endswith(b"\n"):
                continue
            line = A_CATALOG[:place].count(b"\n") + 1
            why = told(f"c0: it is no catalog: line {line}: bad line")
            self.come(f"cut at byte {place}", [A_CATALOG[:place], A_CATALOG[place:]], Ended(b"", why, FAILED), "r1", "r2", "r3")
        self.lay({"c": A_CATALOG})
        for words in (("c", "none"), ("none", "c")):
            got = cat_with(*(it for name in words for it in ("--catalog", name)), "r1", "r2", "r3", folder=self.folder)
            is_told = got.told.startswith(b"rdump: none: No such file") and got.told.count(b"\n") == 1
            self.same(f"{words}", (got.output, got.status, is_told), (b"", FAILED, True), got)

    def test_two_have_it(self) -> None:
        """Two catalogs with a line of the dump are refused, in each order, whatever the lines are. The first two are named."""
        words = ("r1", "r2", "r3")
        for count in range(1, len(A_LINES)):
            one, two = b"".join(A_LINES[:count]), b"".join(A_LINES[count:])
            self.come(f"{count} lines first", [one, two], twice(0, 1), *words)
            self.come(f"{count} lines last", [two, one], twice(0, 1), *words)
        for number, line in enumerate(A_LINES):
            self.come(f"line {number} and all", [line, A_CATALOG], twice(0, 1), *words)
            self.come(f"all and line {number}", [A_CATALOG, line], twice(0, 1), *words)
        self.come("the same lines", [A_CATALOG, A_CATALOG], twice(0, 1), *words)
        self.come("another payload", [A_CATALOG, b"".join(B_LINES)], twice(0, 1), *words)
        self.come("the second and the last of four", [b"", A_CATALOG, b"", A_CATALOG], twice(1, 3), *words)
        self.come("all of three", [A_CATALOG, A_CATALOG, A_CATALOG], twice(0, 1), *words)
        self.come("a reel is missing", [A_CATALOG, A_CATALOG], twice(0, 1), "r1", "r3")
        for first, last in (("a\n", "b"), ("b", "a\n")):
            self.lay({first: A_CATALOG, last: A_CATALOG})
            got = cat_with("--catalog", first, "--catalog", last, *words, folder=self.folder)
            self.same(f"{first!r} and {last!r}", got, known_twice(first.replace("\n", "?"), last.replace("\n", "?")))

    def test_the_same_file_twice(self) -> None:
        """A catalog that is given twice is refused if it has the dump."""
        for text, came in ((A_CATALOG, known_twice("c", "c")), (b"", Ended(b"", told(NO_DUMP, NO_DUMP), ABNORMAL))):
            self.same(f"{len(text)} bytes", self.cat(text, "--catalog", "c", "r1", "r2", "r3"), came)

    def test_one_has_it(self) -> None:
        """A catalog that alone has lines of the dump is taken as if no other were given. If none has any, each is named."""
        other = USR._replace(since=1)
        beside = A_CATALOG.replace(USR.text().encode(), other.text().encode())
        words = ("r1", "r2", "r3")
        for title, text, why in (
            ("a finished dump", A_CATALOG, ""),
            ("not finished", b"".join(A_LINES[:-1]), "the dump is not finished"),
            ("not begun", b"".join(A_LINES[1:]), "it has no such dump"),
        ):
            for place in range(3):
                texts = [b"", beside]
                texts.insert(place, text)
                came = Ended(b"", told(f"c{place}: {why}"), ABNORMAL) if why else Ended(A, b"", DONE)
                self.come(f"{title}, in catalog {place}", texts, came, *words)
        none = told(*(f"c{number}: it has no such dump" for number in range(3)))
        self.come("in none", [b"", beside, b""], Ended(b"", none, ABNORMAL), *words)

    def test_random_files(self) -> None:
        """The lines of two dumps in random order, in some files: what comes is what the model says of the one file that has lines of the dump."""
        first = random_seed(95)
        came = set()
        reels = {f"all/{number}": it for number, it in enumerate((*A_REELS, *B_REELS, *C_REELS))}
        self.lay(reels)
        other = Dump("/home", 0, DAY, 0)
        others = [it.replace(USR.text().encode(), other.text().encode()) for it in A_LINES]
        for seed in range(first, first + CATALOGS // 2):
            source = random.Random(seed)
            texts = []
            for _ in range(source.randrange(1, 4)):
                ones = source.choice((A_LINES, B_LINES, C_LINES, others, others, others))
                texts.append(b"".join(ones[source.choice((0, 0, 0, 1)) : source.choice((len(ones), len(ones), source.randrange(len(ones) + 1)))]))
            having = [number for number, it in enumerate(texts) if USR.text().encode() in it]
            got = self.of_all(texts, "all")
            if len(having) > 1:
                self.same(f"files {seed}", got, twice(*having[:2]))
            else:
                payload, status = wanted_of(reels, b"".join(texts[number] for number in having))
                self.same(f"files {seed}", (got.output, got.status), (payload, status), got, texts)
            came.add((got.output, got.status))
        self.holds("each came", {(b"", ABNORMAL), (b"", FAILED)} < came, came)

    def test_parts(self) -> None:
        """With --partial too, one catalog is taken, and two with lines of the dump are refused. With a length, none may be given."""
        words = ("--partial", "r1", "r3")
        for title, texts in (("first", [A_CATALOG, b""]), ("last", [b"", A_CATALOG])):
            got = self.of_all(texts, *words)
            self.same(title, (got.output, got.status), (A[:8] + bytes(12) + A[20:], ABNORMAL), got)
        self.come("in both", [A_CATALOG, A_LINES[0]], twice(0, 1), *words)
        self.come("in none", [b"", b""], Ended(b"", told("c0: it has no such dump", "c1: it has no such dump"), ABNORMAL), *words)
        self.same("the same file", self.cat(A_CATALOG, "--catalog", "c", *words), known_twice("c", "c"))
        got = self.of_all([A_CATALOG, b""], "--length", str(len(A)), "r1", "r2", "r3")
        self.same("a length too", (got.output, got.status, b"--catalog or --length is given" in got.told), (b"", FAILED, True), got)
