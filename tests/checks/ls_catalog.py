"""Checks what the built `rdump ls --catalog` says of reels and of the dumps of a catalog.

Each line and the status have to be what the plain model of tests/models/found.py says. Rows that were worked out by hand check the model.
"""

from __future__ import annotations

import random
import tempfile
from contextlib import contextmanager
from pathlib import Path
from typing import Iterator, NamedTuple

from tests.lib.case import Case, random_seed
from tests.lib.listings import (
    ALL_WHOLE,
    FAILED,
    LONG_RECORDS,
    NOT_WHOLE,
    VOLUME,
    WIRE_REELS,
    Label,
    Listed,
    Rdump,
    at_reel,
    dates_of,
    said,
    utc,
    wire_end,
)
from tests.lib.shim import compiled
from tests.lib.wire import DEVICE
from tests.models.found import (
    ANEW,
    DIFFERS,
    EQUAL,
    UNKNOWN,
    VOID,
    Asked,
    Dump,
    begun_line,
    finished_line,
    found_words,
    listing,
    verdict_on,
    volume_line,
)
from tests.models.rmtd import image, images

FILE = "catalog"
CATALOG = ("--catalog", FILE)
SEED = 59
TURNS = 60

USR = Dump("/usr", 0, 951_782_400, 0)
HOME = Dump("/home", 1, 951_868_800, 951_782_400)
USR_SAID = "/usr level 0 date 951782400 (2000-02-29 00:00:00) since 0"
HOME_SAID = "/home level 1 date 951868800 (2000-03-01 00:00:00) since 951782400 (2000-02-29 00:00:00)"


def reel(volume: int, content: bytes = b"x", dump: Dump = USR, first: int | None = None) -> bytes:
    """A whole reel of one block."""
    return images([Label(*dump, volume, volume - 1 if first is None else first).record(), content, None])


def text_of(dump: Dump, reels: list[bytes], finished: int | None = None) -> bytes:
    """The lines of a dump of these reels."""
    return begun_line(dump) + b"".join(map(volume_line, reels)) + (finished_line(dump, finished) if finished else b"")


class CatalogCase(Case):
    """Tests of `rdump ls --catalog`."""

    @contextmanager
    def rdump(self) -> Iterator[Rdump]:
        """The program in an empty folder."""
        with tempfile.TemporaryDirectory(prefix="ls-catalog-") as folder:
            yield Rdump(self, Path(folder))

    def listed(self, title: str, rdump: Rdump, reels: dict[str, bytes], text: bytes, *words: str, asked: Asked = Asked()) -> Listed:
        """Makes these reels and this catalog, and lists the reels by these words, or each by its path. What is said is what has to be."""
        rdump.put({**reels, FILE: text})
        lines, status = listing(reels, text, asked)
        tells = "" if reels or len(lines) > 1 else "rdump: no reel was found\n"
        got = rdump.ls(*CATALOG, *asked.words(), *(words or tuple(reels)))
        self.same(title, got, Listed(lines, tells, status), text)
        return got


# Rows that were worked out by hand: the reels, the catalog, the verdict on each reel, the words of each dump, and the status.

A1, A2, A3, A4, A5 = (reel(number) for number in range(1, 6))
B1, B2 = reel(1, b"y"), reel(2, b"y")


class Row(NamedTuple):
    """Reels and a catalog, and what has to be said of them."""

    name: str
    reels: list[bytes]
    text: bytes
    verdicts: list[str]
    dumps: list[str]
    status: int


def usr(words: str) -> str:
    return f"{USR_SAID}: {words}"


ROWS = (
    Row("all volumes", [A1, A2], text_of(USR, [A1, A2], 2), [EQUAL, EQUAL], [usr("all volumes")], ALL_WHOLE),
    Row("not finished", [A1, A2], text_of(USR, [A1, A2]), [EQUAL, EQUAL], [usr("not finished")], NOT_WHOLE),
    Row("the first volume is missing", [A2], text_of(USR, [A1, A2], 2), [EQUAL], [usr("missing: volume 1")], NOT_WHOLE),
    Row("the last volume is missing", [A1], text_of(USR, [A1, A2], 2), [EQUAL], [usr("missing: volume 2")], NOT_WHOLE),
    Row("the last volumes are missing", [A1], text_of(USR, [A1, A2, A3], 3), [EQUAL], [usr("missing: volumes 2 to 3")], NOT_WHOLE),
    Row("one between is missing", [A1, A3], text_of(USR, [A1, A2, A3], 3), [EQUAL, EQUAL], [usr("missing: volume 2")], NOT_WHOLE),
    Row("some are missing", [A1, A4], text_of(USR, [A1, A2, A3, A4, A5], 5), [EQUAL] * 2, [usr("missing: volumes 2 to 3, 5")], NOT_WHOLE),
    Row("two single ones", [A1, A3], text_of(USR, [A1, A2, A3, A4], 4), [EQUAL] * 2, [usr("missing: volumes 2, 4")], NOT_WHOLE),
    Row("a reel differs", [A1, B2], text_of(USR, [A1, A2], 2), [EQUAL, DIFFERS], [usr("missing: volume 2")], NOT_WHOLE),
    Row("one of two reels differs", [A1, A2, B2], text_of(USR, [A1, A2], 2), [EQUAL, EQUAL, DIFFERS], [usr("all volumes")], NOT_WHOLE),
    Row("two equal reels", [A1, A1], text_of(USR, [A1], 1), [EQUAL, EQUAL], [usr("all volumes")], ALL_WHOLE),
    Row("no line begins the dump", [A1], volume_line(A1) + finished_line(USR, 1), [UNKNOWN], [], NOT_WHOLE),
    Row("an empty catalog", [A1], b"", [UNKNOWN], [], NOT_WHOLE),
    Row("another dump's catalog", [A1], text_of(HOME, [reel(1, dump=HOME)], 1), [UNKNOWN], [], NOT_WHOLE),
    Row("a volume without a line", [A1, A2], text_of(USR, [A1], 2), [EQUAL, UNKNOWN], [usr("missing: volume 2")], NOT_WHOLE),
    # A's first volume, then the dump is begun anew with B's payload.
    Row(
        "two payloads under one date",
        [A1, B1, B2],
        text_of(USR, [A1]) + text_of(USR, [B1, B2], 2),
        [ANEW, EQUAL, EQUAL],
        [usr("all volumes")],
        ALL_WHOLE,
    ),
    Row(
        "A's volume alone, of two payloads",
        [A1],
        text_of(USR, [A1]) + text_of(USR, [B1, B2], 2),
        [ANEW],
        [usr("missing: volumes 1 to 2")],
        NOT_WHOLE,
    ),
    Row("A's finished dump, begun anew", [A1], text_of(USR, [A1], 1) + begun_line(USR), [ANEW], [usr("not finished")], NOT_WHOLE),
    Row("an equal first volume, begun anew", [A1], text_of(USR, [A1]) + text_of(USR, [A1], 1), [EQUAL], [usr("all volumes")], ALL_WHOLE),
    # A volume that is written again voids its line and the later ones.
    Row(
        "a volume written again",
        [A1, A2, B2],
        text_of(USR, [A1, A2]) + volume_line(B2) + finished_line(USR, 2),
        [EQUAL, VOID, EQUAL],
        [usr("all volumes")],
        ALL_WHOLE,
    ),
    Row(
        "an earlier volume written again",
        [A1, A2, B1],
        text_of(USR, [A1, A2]) + volume_line(B1) + finished_line(USR, 2),
        [VOID, VOID, EQUAL],
        [usr("missing: volume 2")],
        NOT_WHOLE,
    ),
    Row("a volume after the end", [A1, A2], text_of(USR, [A1], 1) + volume_line(A2), [EQUAL, EQUAL], [usr("not finished")], NOT_WHOLE),
    Row("a void line alone", [A2], text_of(USR, [A1, A2]) + volume_line(B1), [VOID], [usr("not finished")], NOT_WHOLE),
)


class Rows(CatalogCase):
    """Catalogs and reels by hand."""

    def test_rows(self) -> None:
        for row in ROWS:
            reels = {f"r{number}": data for number, data in enumerate(row.reels)}
            with self.rdump() as rdump:
                got = self.listed(row.name, rdump, reels, row.text)
            self.same(f"{row.name}: the model", [verdict_on(it, row.text) for it in row.reels], row.verdicts)
            self.same(f"{row.name}: by hand", (got.lines[len(row.reels) :], got.status), (["", *row.dumps], row.status), got)

    def test_words(self) -> None:
        """The words for what is missing of a dump of up to 7 volumes, for each set of volumes, by the program."""
        whole = [reel(number) for number in range(1, 8)]
        with self.rdump() as rdump:
            rdump.put({f"w{number}": data for number, data in enumerate(whole, 1)})
            for volumes in (1, 2, 7):
                text = text_of(USR, whole, volumes)
                rdump.put({FILE: text})
                for bits in range(1, 1 << 7):
                    there = {number for number in range(1, 8) if bits >> number - 1 & 1}
                    got = rdump.ls(*CATALOG, *(f"w{number}" for number in sorted(there)))
                    wanted = usr(found_words(volumes, there))
                    status = ALL_WHOLE if wanted.endswith("all volumes") else NOT_WHOLE
                    self.same(f"{volumes} volumes, {sorted(there)}", (got.lines[-1], got.status), (wanted, status), got)


class Asks(CatalogCase):
    """Which dumps are told."""

    TEXT = text_of(USR, [A1], 1) + text_of(HOME, [reel(1, dump=HOME)], 1) + text_of(USR, [B1], 1) + begun_line(Dump("/", 0, 7, 0))

    def test_dumps_of_which_a_reel_is_given(self) -> None:
        """No other dump of the catalog is told, and each once, in the order in which they last began."""
        home = reel(1, dump=HOME)
        other = reel(1, dump=Dump("/other", 0, 7, 0))
        with self.rdump() as rdump:
            for reels in ({"a": home, "b": A1, "c": B1}, {"a": home}, {"b": B1}, {"o": other}, {"o": other, "a": home}):
                self.listed(f"{sorted(reels)}", rdump, reels, self.TEXT)
            got = self.listed("in their order", rdump, {"a": home, "c": B1}, self.TEXT)
            self.same("by hand", got.lines[-2:], [f"{HOME_SAID}: all volumes", usr("all volumes")])

    def test_named_dumps(self) -> None:
        """With --fs, --level and --date the dumps that have these values are told, whether or not a reel is there, and no other."""
        home, cut = reel(1, dump=HOME), A1[:-4]
        asks = (
            *(Asked(name=it) for it in ("/usr", "/home", "/", "/us", "")),
            *(Asked(level=it) for it in (0, 1, 9)),
            *(Asked(date=it) for it in (USR.date, HOME.date, 7, 8, 0)),
            *(Asked("/usr", 0), Asked("/usr", 1), Asked("/usr", 0, USR.date), Asked("/home", 1, USR.date), Asked(None, 0, 7)),
        )
        shelves: tuple[dict[str, bytes], ...] = ({}, {"st0/a": home}, {"st0/b": B1}, {"st0/a": home, "st0/b": B1}, {"st0/a": A1}, {"st0/c": cut})
        with self.rdump() as rdump:
            for asked in asks:
                for reels in shelves:
                    for it in ("st0/a", "st0/b", "st0/c"):
                        rdump.folder.joinpath(it).unlink(missing_ok=True)
                    rdump.put({"st0/.keep": b""})
                    self.listed(f"{asked} {sorted(reels)}", rdump, reels, self.TEXT, "st0", asked=asked)

    def test_words_without_a_catalog(self) -> None:
        with self.rdump() as rdump:
            rdump.put({"a": A1, FILE: b""})
            for words in (("--fs", "/usr"), ("--level", "0"), ("--date", "7")):
                got = rdump.ls("a", *words)
                told = "--fs, --level and --date are given with --catalog only" in got.told
                self.same(f"{words} alone", (got.lines, told, got.status), ([], True, FAILED), got)
            for words in (("--level", "10"), ("--level", "x"), ("--level", "01"), ("--date", "-1"), ("--date", "x"), ("--date", "")):
                got = rdump.ls("a", *CATALOG, *words)
                self.same(f"{words}", (got.lines, got.told != "", got.status), ([], True, FAILED), got)

    def test_a_dumpdates_file(self) -> None:
        """Its lines come before those of the catalog, each after an empty line."""
        seven = Dump("/usr", 0, 7, 0)
        data = reel(1, dump=seven)
        with self.rdump() as rdump:
            rdump.put({"r": data, "dates": dates_of(("/usr", 0, 7), ("/home", 0, 7)), FILE: text_of(seven, [data], 1)})
            dumps = [f"/usr level 0 date {utc(7)}: volumes 1 to 1, all 1 blocks", f"/home level 0 date {utc(7)}: no volume"]
            lines = [f"{said(data).line('r')}, {EQUAL}", "", *dumps, "", f"/usr level 0 date {utc(7)} since 0: all volumes"]
            got = rdump.ls("r", "--dumpdates", "dates", *CATALOG, "--blocks", "1")
            self.same("a dumpdates file and a catalog", got, Listed(lines, "", NOT_WHOLE))
            rdump.put({"dates": dates_of(("/usr", 0, 7))})
            got = rdump.ls("r", "--dumpdates", "dates", *CATALOG, "--blocks", "1")
            self.same("both are good", got, Listed([*lines[:3], *lines[4:]], "", ALL_WHOLE))


class Files(CatalogCase):
    """The catalog as a file."""

    def test_catalogs_that_are_none(self) -> None:
        """The number of the first bad line is told, and no reel is read."""
        good = text_of(USR, [A1], 1)
        bad = (
            (b"\n", 1),
            (good + b"x\n", 4),
            (good[:-1], 3),
            (good.replace(b"begun     ", b"begun    "), 1),
            (good.replace(b"finished  ", b"finished "), 3),
            (good.replace(b"1 volumes", b"0 volumes"), 3),
            (good.replace(b": 0 bytes", b": -0 bytes"), 1),
            (good.replace(b"\n", b"\r\n"), 1),
            (good.replace(b"1045 bytes", b"1046 bytes"), 2),
        )
        with self.rdump() as rdump:
            rdump.put({"a": A1})
            for text, number in bad:
                rdump.put({FILE: text})
                wanted = Listed([], f"rdump: {FILE}: it is no catalog: line {number}: bad line\n", FAILED)
                self.same(f"a bad line {number}", rdump.ls("a", *CATALOG), wanted, text)

    def test_catalogs_that_cannot_be_read(self) -> None:
        with self.rdump() as rdump:
            rdump.put({"a": A1, "shut": b"", "folder/x": b""})
            rdump.folder.chmod(0o755)
            (rdump.folder / "shut").chmod(0)
            for path, why in (("missing", "No such file or directory"), ("shut", "Permission denied"), ("folder", "")):
                got = rdump.ls("a", "--catalog", path, as_nobody=path == "shut")
                self.same(path, (got.lines, got.told.startswith(f"rdump: {path}: "), why in got.told, got.status), ([], True, True, FAILED), got)

    def test_paths(self) -> None:
        """A folder, its names, and what is missing."""
        reels = {"st0/a": A1, "st0/b": A2, "st0/cut": A3[:-4], "st0/none": b"", "st0/more": A3 + bytes(4)}
        text = text_of(USR, [A1, A2, A3], 3)
        with self.rdump() as rdump:
            self.listed("a folder", rdump, reels, text, "st0")
            self.listed("its names", rdump, reels, text)
            lines, _ = listing({"st0/a": A1}, text)
            got = rdump.ls(*CATALOG, "st0/a", "missing")
            self.same("a missing path", got, Listed(lines, "rdump: missing: No such file or directory (os error 2)\n", FAILED))
            self.same("without a catalog", rdump.ls("st0/a"), Listed([said(A1).line("st0/a")], "", ALL_WHOLE))

    def test_each_byte_is_changed(self) -> None:
        """Each byte of a small reel is changed in three ways: none of these files is ever equal, and the volume is never there."""
        files = {f"reels/{at:04}-{by:02x}": A1[:at] + bytes((A1[at] ^ by,)) + A1[at + 1 :] for at in range(len(A1)) for by in (1, 0x80, 0xFF)}
        with self.rdump() as rdump:
            got = self.listed("each byte is changed", rdump, files, text_of(USR, [A1], 1), "reels")
            is_there = any(it.endswith((EQUAL, "all volumes")) for it in got.lines)
            self.same("none is equal", (is_there, got.status), (False, NOT_WHOLE))

    def test_a_disk_that_fails(self) -> None:
        """A disk that does not give some bytes of a reel: that is told, and nothing is compared."""
        good = reel(9)
        with compiled(self) as shim, self.rdump() as rdump:
            for name, data in LONG_RECORDS.items():
                if not said(data).is_whole():
                    continue
                text = text_of(USR, [data, good], 9)
                rdump.put({"good": good, name: data, FILE: text})
                shim.forget()
                got = rdump.ls(*CATALOG, "good", name, environment=shim.environment("", f"/{name}"))
                self.same(f"a long {name} is equal", (sum(EQUAL in it for it in got.lines), got.lines[-1]), (2, usr("missing: volumes 2 to 8")), got)
                count = shim.calls().count("pread")
                self.holds(f"a long {name}: its reads are seen", count > 0, count)
                lines, _ = listing({"good": good}, text)
                for number in range(1, count + 1):
                    got = rdump.ls(*CATALOG, "good", name, environment=shim.environment(f"pread:{number}:E5", f"/{name}"))
                    wanted = Listed(lines, f"rdump: {name}: it could not be read\n", FAILED)
                    self.same(f"a long {name}: read {number} of {count} fails", got, wanted)


class Drives(CatalogCase):
    """The reel on a drive."""

    def test_reels(self) -> None:
        """Each reel on a drive, with its line, with the line of another reel, and without a line."""
        rot = VOLUME[:1100] + b"X" + VOLUME[1101:] + image(None)
        whole = VOLUME + image(None)
        for name, data in {**WIRE_REELS, "another byte": rot}.items():
            for title, of in (("its line", data), ("the line of another", whole if data == rot else rot), ("no line", None)):
                lines = b"" if of is None or not said(of).is_whole() else volume_line(of)
                text = begun_line(USR) + lines + finished_line(USR, 1)
                self.on_a_drive(f"on a drive, {name}, {title}", data, text)

    def on_a_drive(self, name: str, data: bytes, text: bytes) -> None:
        """What is said of a reel by this catalog. A tail is not seen over the wire."""
        true = wire_end(data)
        lines, status = [*true.lines, ""], NOT_WHOLE
        if true.status == ALL_WHOLE:
            seen = data if said(data).is_whole() else data[:-2]
            verdict = verdict_on(seen, text)
            told, status = listing({"r": seen}, text)
            lines = [f"{true.lines[0]}, {verdict}", *told[1:]]
        with self.rdump() as rdump, at_reel(rdump.folder, data) as address:
            rdump.put({FILE: text})
            got = rdump.ls("--to", address, "--device", DEVICE, *CATALOG)
            self.same(name, got, Listed(lines, "", status))
            self.same(f"{name}: it is as it was", (rdump.folder / "st0/r1").read_bytes(), data)


# Random catalogs.


def random_text(source: random.Random, pool: list[bytes], dumps: list[Dump]) -> bytes:
    """Random lines of these reels and dumps."""
    lines = [begun_line(it, source.randrange(9)) for it in dumps if source.random() < 0.8]
    for _ in range(source.randrange(1, 14)):
        kind, dump = source.random(), source.choice(dumps)
        if kind < 0.15:
            lines.append(begun_line(dump))
        elif kind < 0.4:
            lines.append(finished_line(dump, source.randrange(1, 5)))
        else:
            lines.append(volume_line(source.choice(pool)))
    return b"".join(lines)


class Random(CatalogCase):
    """Random catalogs, with random reels and words."""

    def test_random_catalogs(self) -> None:
        first = random_seed(SEED)
        dumps = [USR, HOME, USR._replace(since=5)]
        pool = [reel(volume, content, dump) for dump in dumps for volume in range(1, 4) for content in (b"x", b"y")]
        pool += [reel(2, b"x", USR, 7)]
        for seed in range(first, first + TURNS):
            source = random.Random(seed)
            text = random_text(source, pool, dumps)
            reels = {f"r{number}": source.choice(pool) for number in range(source.randrange(1, 6))}
            if source.random() < 0.2:
                reels["cut"] = source.choice(pool)[:-4]
            asked = source.choice((Asked(), Asked(), Asked("/usr"), Asked("/usr", 0), Asked(level=1), Asked(date=USR.date)))
            with self.rdump() as rdump:
                self.listed(f"seed {seed}", rdump, reels, text, asked=asked)
