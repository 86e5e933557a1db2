"""Tests how further.py forms lots, and reads logs, with a made repository and a made prover."""

from __future__ import annotations

import os
import tempfile
import time
from pathlib import Path
from typing import Iterable
from unittest.mock import patch

from tests.lib.case import Case
from tests.tools import build, edits, further, machine, proved
from tests.tools.edits import Pair
from tests.tools.further import Edit

CRATE = """//! Words.
use other::Word;

/// The longest word.
const LONGEST: usize = 7;
pub(crate) const WIDEST: usize = 7;

/// Whether a word is long.
pub fn is_long(word: &[u8]) -> bool
    ensures { result ≡ (length word.now > 7) }
{
    word.len() > LONGEST
}

impl<'a, R: Read> Words<'a, R> {
    /// How many words came.
    pub fn count(&self) -> u64
        ensures { result ≡ self.now.count }
    {
        self.came
    }

    pub fn clear(&mut self) {
        self.count = 0;
    }
}

impl From<AllocError> for WordFault {
    fn from(_: AllocError) -> WordFault {
        WordFault::OutOfMemory
    }
}
"""


def edit(name: str, old: str, new: str) -> Edit:
    """An edit of the made crate."""
    changes = [Pair("src/lib.rt", old, new)]
    folder = build.listed()["words"].folder()
    return Edit(name, changes, edits.places_of("words", folder, changes), further.only_of("words", folder, changes))


FILES = {
    "crates/words/src/lib.rt": CRATE,
    "crates/words/specs/Words.antt": "-- words\n",
    "crates/words/further/counts_one_less.edit": "file: src/lib.rt\nold:         self.came\nnew:         self.came - 1\n",
    "crates/other/src/lib.rt": "//! Others.\n",
    "crates.txt": "# Two.\nother:\nwords: other itoa\nabove: words\n",
    "HANDLES": "Handles allowed: none.\n",
}


def write_files(top: Path, files: dict[str, str]) -> None:
    """Writes files below a folder, by their paths."""
    for name, text in files.items():
        (top / name).parent.mkdir(parents=True, exist_ok=True)
        (top / name).write_text(text, encoding="utf-8")


class Made(Case):
    """A made repository of two crates, one on the other, with an edit, in a temporary folder."""

    def setUp(self) -> None:
        self.folder = Path(self.enterContext(tempfile.TemporaryDirectory(prefix="test-further-")))
        self.top = self.folder / "top"
        for module in (build, further, proved):
            self.enterContext(patch.object(module, "TOP", self.top))
        self.enterContext(patch.object(build, "CRATES", self.top / "crates"))
        self.enterContext(patch.object(build, "version", lambda: "a kit"))
        write_files(self.top, FILES)


class Places(Made):
    """Which functions an edit changes."""

    def test_places(self) -> None:
        """The functions that an edit changes, none named "" among them if it changes no more, and what a check is told to look at."""
        body, head = "word.len() > LONGEST", "        ensures { result ≡ self.now.count }"
        long, wide, none = "const LONGEST: usize = 7;", "pub(crate) const WIDEST: usize = 7;", list[str]()
        traits = ["WordFaultFromAllocError::from", "WordFaultFromAllocError::other"]
        for name, old, new, places, only in (
            ("a free function", body, "word.len() >= LONGEST", ["is_long"], ["words::is_long"]),
            ("a method", "self.came", "self.came - 1", ["count"], ["Words::count"]),
            ("a method of a trait", "WordFault::OutOfMemory", "WordFault::Other", ["from"], traits[:1]),
            ("a use line", "use other::Word;", "use other::{Other, Word};", none, none),
            ("a constant changes who names it", long, "const LONGEST: usize = 8;", ["is_long"], ["words::is_long"]),
            ("one that other files see is not local", wide, "pub(crate) const WIDEST: usize = 8;", [""], none),
            ("what more of the crate sees changes none", long, f"pub(crate) {long}", none, none),
            ("but where something else changes too", long, "pub(crate) const LONGEST: usize = 8;", ["is_long"], ["words::is_long"]),
            ("what is added to a head is a body", head, f"{head} {{ 0 }} fn whole(&self) -> u64", ["count", "whole"], ["Words::count"]),
            ("what is added to the impl of a trait", "fn from(", "fn other() {} fn from(", ["from", "other"], traits),
            ("the same text changes nothing", "self.count = 0;", "self.count = 0;", none, none),
        ):
            found = edit(name, old, new)
            self.same(name, ([*map("::".join, found.places)], found.only), ([f"words::{it}" for it in places], only))
            self.same(f"{name}: what it is", (found.is_local(), found.is_of_constant()), ("" not in places, old in (long, wide)))

    def test_owners(self) -> None:
        for head, owner in (
            ("impl<'a, R: Read<u8>> Source<'a, R> {", "Source"),
            ("impl<R: Read> Source<R, File> {", "Source+R+File"),
            ("impl Source<File> {", "Source+File"),
            ("pub fn open() {", ""),
        ):
            self.same(f"the owner of {head}", further.owner_of(f"impl Other {{\n}}\n{head}\n    fn open"), owner)

    def test_more_lines(self) -> None:
        found = edits.pairs("file: src/lib.rt\nold: a\nnew: b\nmore:   c\nmore:\nmore: d: e\nfile: src/word.rt\nold: f\nnew: g\n# breaks: words\n")
        self.same("lines after the new one", found, [Pair("src/lib.rt", "a", "b\n  c\n\nd: e"), Pair("src/word.rt", "f", "g")])

    def test_controls(self) -> None:
        body, lemma, answer = "src/lib.rt", "proofs/Words.antt", "proofs/count/Answers.antt"
        wrong = [Pair(body, "a", "b"), Pair(lemma, "c", "d"), Pair(answer, "e", "f")]
        for title, control, wanted in (
            ("another body", [Pair(body, "a", "c"), *wrong[1:]], True),
            ("another body and answer", [Pair(body, "a", "c"), wrong[1], Pair(answer, "e", "g")], True),
            ("another lemma", [Pair(body, "a", "c"), Pair(lemma, "c", "e"), wrong[2]], False),
            ("the same", wrong, False),
            ("another place", [Pair(body, "b", "c"), *wrong[1:]], False),
        ):
            self.same(title, edits.is_beside(control, wrong), wanted)


class Lots(Made):
    """Which edits are tried at once."""

    def names(self, edits: list[Edit], *waits: tuple[further.Place, further.Place]) -> list[str]:
        return [it.name for it in further.lot_of(self.top / "crates/words", edits, {*waits})]

    def test_lots(self) -> None:
        long, longer = edit("long", "word.len() > LONGEST", "word.len() >= LONGEST"), edit("longer", "word.len() > LONGEST", "true")
        clear = edit("clear", "self.count = 0;", "self.count = 1;")
        wide = edit("wide", "pub(crate) const WIDEST: usize = 7;", "pub(crate) const WIDEST: usize = 8;")
        lost = Edit("lost", [Pair("src/lib.rt", "no such text", "")], [("words", "lost")], [])
        self.same("edits of two functions are one lot", self.names([long, clear]), ["long", "clear"])
        self.same("two of one function are none", self.names([long, longer, clear]), ["long", "clear"])
        clears = clear._replace(name="clears", places=[("words::list", "clear")], changes=long.changes)
        self.same("two of one name in two modules are one lot", self.names([clear, clears]), ["clear", "clears"])
        self.same("one that changes more than bodies is alone", (self.names([long, wide]), self.names([wide, long])), (["long"], ["wide"]))
        pair = (("words", "is_long"), ("words", "clear"))
        found = self.names([long, clear], pair), self.names([clear, long], pair)
        self.same("a function and one that waits for it are none", found, (["long"], ["clear"]))
        self.same("one that can't be applied is in no lot", (self.names([lost, clear]), self.names([lost])), (["clear"], []))


class Prover(proved.Work):
    """A crate whose functions are right in this text alone, and two of which call others. It has none of the name `List::first`."""

    calls = {"first": "second", "second": "third"}

    def __init__(self, crate: Path, wrong: Iterable[str], unread: Iterable[str] = ()) -> None:
        self.folder, self.wrong, self.unread = crate, {*wrong}, {*unread}
        self.asked: list[list[str]] = []
        self.only: list[list[str]] = []

    def check(self, changes: list[Pair], only: Iterable[str] = ()) -> proved.Checked:
        names = [it.new for it in changes]
        self.asked.append(names)
        self.only.append([*only])
        if "List::first" in only:
            return proved.Checked(2, "rattle: error: `words` has no function `List::first`: help: write the name that a check prints")
        if self.unread & {*names}:
            return proved.Checked(1, "src/lib.rt:1:1: error: unexpected word\nlogic=not-proved")
        lines, bad = [], {it for it in names if it in self.wrong}
        for name in sorted(names):
            callee = self.calls.get(name, "")
            waits = f"no proof: it calls `words::{callee}`, which is not proved" if callee in bad else "proved"
            lines.append(f"fn words::{name}: {'not proved' if name in bad and callee not in bad else waits}")
        return proved.Checked(1 if bad else 0, "\n".join([*lines, f"only={len(names)} proved={len(names) - len(bad)}"]))


EVERY = ("first", "second", "third", "fourth", "fifth")


def made(*names: str) -> list[Edit]:
    """Edits of functions of these names, in a crate that has a line for each."""
    return [Edit(it, [Pair("src/lib.rt", f"[{it}]", it)], [("words", it)], [f"words::{it}"]) for it in names]


def beginnings(found: dict[str, str]) -> dict[str, str]:
    """How what is said of each edit begins, by the edit's name."""
    known = ("refused", "NOT REFUSED", "BAD EDIT", "NOT TRIED")
    return {name: next((it for it in known if said.startswith(it)), said) for name, said in found.items()}


class Outcomes(Case):
    """What comes of edits that are tried with a made prover."""

    def setUp(self) -> None:
        self.folder = Path(self.enterContext(tempfile.TemporaryDirectory(prefix="test-further-")))
        (self.folder / "src").mkdir()
        (self.folder / "src/lib.rt").write_text(" ".join(f"[{it}]" for it in EVERY))

    def test_outcomes(self) -> None:
        lost = Edit("lost", [Pair("src/lib.rt", "no such text", "")], [("words", "lost")], [])
        for name, wrong, unread, other, said in (
            ("each is refused, but for one that can't be applied", EVERY, (), "lost", "BAD EDIT"),
            ("one that is proved is told", ("first", "second", "fourth", "fifth"), (), "third", "NOT REFUSED"),
            ("one that can't be read is found", EVERY, ("fourth",), "fourth", "BAD EDIT"),
        ):
            found = further.outcomes(Prover(self.folder, wrong, unread), [*made(*EVERY), lost])
            self.same(name, beginnings(found), {**dict.fromkeys(EVERY, "refused"), "lost": "BAD EDIT", other: said}, found)
        prover = Prover(self.folder, EVERY)
        further.outcomes(prover, made(*EVERY))
        self.same("those that wait are tried again, and not together", prover.asked, [[*EVERY], ["first"], ["second"]])
        with patch.object(Prover, "check", lambda *_: proved.Checked(-9, "")):
            found = further.outcomes(prover, made(*EVERY))
        self.same("none is refused by a check that was killed", beginnings(found), dict.fromkeys(EVERY, "NOT TRIED"), found)

    def test_names_that_are_not_found(self) -> None:
        """A function that is not found by its name is looked for in its module."""
        one = Edit("first", [Pair("src/lib.rt", "[first]", "first")], [("words::list", "first")], ["List::first"])
        root = one._replace(places=[("words", "first")])
        for name, first, instead in (("a name that is not found", one, ["list", "words::fourth"]), ("one of the root module", root, [])):
            prover = Prover(self.folder, {"first"})
            further.tried(prover, [first, *made("fourth")])
            self.same(name, prover.only, [["List::first", "words::fourth"], instead])


class Logs(Case):
    """What is read from the logs of checks."""

    enter = Edit("enter", [], [("words::list", "enter")], [])
    line = "fn words::list::List::enter: not proved; it calls `words::from`, which is not proved\n"
    own = "./proofs/list/List/enter/Answers.antt:8:4: error: `returns`: `search`: no proof of `a ≡ b`\n"

    def test_refused(self) -> None:
        names = "./proofs/list/List/enter/Answers.antt:8:4: error: `returns`: module `Goals` has no `returns-in` that can be named\n"
        refused = ["words::list::List::enter"]
        for name, log, wanted in (
            ("a function that waits is not refused", self.line, []),
            ("one whose own answer is none is", self.own + self.line, refused),
            ("one whose proof names what is gone is not, while it waits", names + self.line, []),
            ("one that waits for none is", "fn words::list::List::enter: not proved\n", refused),
        ):
            self.same(name, further.refused_in(self.enter, log), wanted)

    def test_one_name_in_two_modules(self) -> None:
        """Two edits of one lot change functions of one name."""
        both = [
            Edit("in_list", [], [("words::list", "enter")], ["List::enter"]),
            Edit("in_text", [], [("words::text", "enter")], ["Text::enter"]),
        ]
        refused = "fn words::list::List::enter: not proved\n"
        unclear = f"{refused}fn words::list::Text::enter: not proved\n"
        other = "fn words::text::enter: proved\nfn words::list::List::enter: proved\nfn words::list::Text::enter: not proved\n"
        for name, lot, log, wanted in (
            ("the one that is refused is shown", both, f"{refused}fn words::text::Text::enter: proved\n", ["in_list"]),
            ("where the log does not tell which is whose, none is", both, unclear, []),
            ("and one that is tried alone is", both[1:], unclear, ["in_text"]),
            ("nor one whose module has the type of the other", both, other, []),
        ):
            self.same(name, [*further.refused_of(lot, f"{log}only=2 proved=1\n")], wanted)

    def test_waits(self) -> None:
        both = [self.enter, Edit("from", [], [("words", "from")], [])]
        log = (
            "fn words::list::List::enter: no proof: it calls `words::more` and `words::other`, which are not proved\n"
            "fn words::more: not proved; it passes the block `words::FaultFromError`, which is not proved\n"
            "fn words::FaultFromError::from: not proved\n"
        )
        self.same("one that waits through another waits", further.waits_in(both, log), {(("words::list", "enter"), ("words", "from"))})

    def test_goals(self) -> None:
        self.same("the goal is told", further.why_not("words::list::List::enter", self.own + self.line), self.own.strip()[2:])


PROVED = proved.Checked(0, "only=1 proved=1")
REFUSED = proved.Checked(1, "fn words::Words::count: not proved\nonly=1 proved=0")
LIMITED = proved.Checked(1, f"note: src/lib.rt:5:1: it is not proved (`returns`); `search` {further.GAVE_UP}\n{REFUSED.log}")


class Answering(proved.Work):
    """A made crate whose checks all have one answer."""

    def __init__(self, answer: proved.Checked) -> None:
        self.answer = answer
        self.checks, self.seconds, self.folder = 1, 1.0, build.listed()["words"].folder()
        self.asked: list[list[str]] = []

    def check(self, changes: list[Pair], only: Iterable[str] = ()) -> proved.Checked:
        self.asked.append([*only])
        return self.answer

    def remove(self) -> None:
        pass


class Trials(Made):
    """The edit of the made crate is tried."""

    def tried(self, work: Answering) -> further.Trial:
        """A trial of the crate, with these answers."""
        trial = further.Trial("words")
        with patch.object(further, "Work", lambda *_: work), patch.object(proved.Libraries, "take", lambda *_: None):
            trial.run(self.folder, proved.Libraries(self.folder), machine.Turns(1))
        return trial

    def test_what_fails(self) -> None:
        for name, answer, failed in (("one that is proved fails", PROVED, 1), ("one that is refused passes", REFUSED, 0)):
            work = Answering(answer)
            trial = self.tried(work)
            self.same(name, (trial.failed(), work.asked), (failed, [["Words::count"]]), trial.found)

    def test_refused_at_a_limit(self) -> None:
        trial = self.tried(Answering(LIMITED))
        self.same("one at whose goal a search gave up", trial.untold(), ["words/counts_one_less"], trial.found)
        trial.files[0].write_text(f"# limit: the clause of `Words::count`.\n{trial.files[0].read_text()}")
        self.same("one that tells it", trial.untold(), [], trial.found)

    def test_more_than_bodies(self) -> None:
        wide = edit("both", "pub(crate) const WIDEST: usize = 7;", "pub(crate) const WIDEST: usize = 8;")
        both = wide._replace(places=[*wide.places, ("words", "count")], only=["Words::count"])
        for name, answer, asked, wanted in (
            ("one that changes more than bodies is tried on the functions that it changes", REFUSED, [["Words::count"]], "refused"),
            ("and on all where these are proved", PROVED, [["Words::count"], []], "NOT REFUSED"),
        ):
            work = Answering(answer)
            found = beginnings(further.shown(work, [both], set()))
            self.same(name, (work.asked, found), (asked, {"both": wanted}))


class Libraries(Made):
    """Which libraries a check may read."""

    def setUp(self) -> None:
        super().setUp()
        for name in ("other", "words"):
            self.build(name)

    def build(self, name: str, text: str = "made") -> None:
        """Leaves a library, as `rt ci` does, and its note."""
        crates = build.below(build.listed(), [name])
        made = build.made_by(crates[name])
        made.parent.mkdir(parents=True, exist_ok=True)
        made.write_text(text)
        build.note_built(crates, [name], build.sums_of(crates), since=0)

    def stale(self, name: str = "words") -> str:
        """Why a library can't be taken, nothing where it can."""
        with tempfile.TemporaryDirectory(dir=self.folder) as folder:
            try:
                proved.Libraries(Path(folder)).take([name])
            except proved.Stale as why:
                return str(why)
        return ""

    def test_sources(self) -> None:
        self.same("libraries of the sources as they are", self.stale(), "")
        source = self.top / "crates/other/src/lib.rt"
        source.write_text("//! More.\n")
        self.same("one of other sources", self.stale("other"), "other is not built from the sources as they are")
        trial = further.Trial("words")
        told = trial.run(self.folder, proved.Libraries(self.folder / "links"), machine.Turns(1))
        self.same("a crate above it is not checked", told, "no checks")
        self.same("and its edits are not tried", trial.found, {"counts_one_less": "NOT TRIED: other is not built from the sources as they are"})
        source.write_text("//! Others.\n")
        self.same("the old sources again", self.stale(), "")

    def test_made(self) -> None:
        made = build.made_by(build.listed()["other"])
        made.write_text("made anew")
        self.same("one that was replaced", self.stale("other"), "other is not built from the sources as they are")
        self.build("other", "made anew")
        self.same("one that is noted anew", self.stale("other"), "")
        self.same("but one above it was built over another", self.stale(), "words is not built from the sources as they are")
        libraries = proved.Libraries(self.folder / "links")
        libraries.take(["other"])
        made.unlink()
        self.same("one that is not there", self.stale("other"), "other is not built from the sources as they are")
        libraries.take(["other"])
        self.same("what was taken stays as it was", libraries.path("other").joinpath("format").read_text(), "made anew")

    def test_what_is_put_back(self) -> None:
        crates = build.below(build.listed(), ["other"])
        build.note_of(crates["other"]).unlink()
        build.note_built(crates, ["other"], build.sums_of(crates), since=time.time() + 1)
        self.same("an older library gets no note", self.stale("other"), "other is not built from the sources as they are")

    def test_sources_that_change_meanwhile(self) -> None:
        crates = build.below(build.listed(), ["words"])
        before = build.sums_of(crates)
        (self.top / "crates/other/src/lib.rt").write_text("//! More.\n")
        self.same("what was built of changed sources is told", build.note_built(crates, ["words"], before, since=0), ["words"])
        self.same("and not noted", build.is_noted(crates, "words", build.sums_of(crates)), False)

    def test_what_is_built(self) -> None:
        crates = build.below(build.listed(), ["words"])
        self.same("nothing", [*build.unbuilt(crates, build.sums_of(crates))], [])
        (self.top / "crates/words/src/lib.rt").write_text("//! Words.\n")
        self.same("with what `rt ci` left below it", [*build.unbuilt(crates, build.sums_of(crates))], ["other", "words"])
        (self.top / "crates/other/out/rlib/stamp").write_text("a stamp")
        self.same("and without what `rt` knows", [*build.unbuilt(crates, build.sums_of(crates))], ["words"])


class Turns(Case):
    """Which check begins."""

    def setUp(self) -> None:
        self.turns = machine.Turns(2)
        self.free = self.enterContext(patch.object(machine, "free_memory", return_value=machine.CHECK))

    def test_which_check_begins(self) -> None:
        self.turns.waiting = [3, 5]
        self.same("the largest crate begins", (self.turns.begins(3), self.turns.begins(5)), (False, True))
        self.turns.waiting = [3]
        self.same("no check begins if all processors are taken", (self.turns.begins(3), self.turns.begins(3)), (True, False))

    def test_memory(self) -> None:
        self.turns.waiting = [3]
        self.free.return_value = machine.CHECK - 1
        self.same("no check begins without memory", self.turns.begins(3), False)
        self.turns.waiting = []
        with patch.object(machine, "PAUSE", 0.001), patch.object(machine, "LONGEST", 0.002):
            with self.assertRaises(machine.ShortOfMemory), self.turns.turn(3):
                pass
        self.same("and one that would wait for ever fails", (self.turns.running, self.turns.waiting), (0, []))

    def test_turns(self) -> None:
        def counted() -> tuple[int, list[int]]:
            return self.turns.running, self.turns.waiting

        with patch.object(self.turns, "begins", lambda _: 1 / 0), self.assertRaises(ZeroDivisionError), self.turns.turn(6):
            pass
        self.same("a turn that fails waits no longer", counted(), (0, []))
        with self.turns.turn(4):
            self.same("a turn counts", counted(), (1, []))
        self.same("up to its end", self.turns.running, 0)


class Processes(Case):
    """What is read of the processes of this machine."""

    def test_checks(self) -> None:
        check, own = ["/kit/rattle", "check", "--crate-name", "words", "src/lib.rt"], str(os.getpid())
        every = {"7": (own, check), "8": ("7", check), "9": ("1", check), "10": ("6", ["/kit/rattle", "build"]), "6": (own, ["rt"])}
        with patch.object(machine, "processes", lambda: every):
            self.same("the provers below this process", machine.provers(), [check, ["/kit/rattle", "build"]])
        for more, what in (("", "proof"), ("--test", "tests"), ("--incremental /tmp/a/words-edits/kept", "edits")):
            self.same(f"a check of {what}", machine.check_of([*check, *more.split()]), ("words", what))
        self.same("another program", machine.check_of(["/kit/rattle", "fmt"]), None)
