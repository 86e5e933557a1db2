"""Tries the further edits: wrong bodies that the prover has to refuse, many in one check.

    python3 -m tests.tools.further [CRATE..]

The edits that `rt ci` tries are crates/CRATE/must-fail/NAME.edit, and each costs it a check. All others are crates/CRATE/further/NAME.edit, written
alike, with controls beside them too. `make edits` tries these, and first builds the libraries below that are not built as they are (build.py).
Functions are proved one by one, so many edits are tried at once: no two of a lot change functions of one name in one module. The log names each
function that is refused. An edit is refused where a function that it changes is, for itself: where one only calls another that is refused, the edit
is tried again in a later lot. A lot that shows none is halved.

A crate's lots run one after the other, over the libraries of the crates below, and each over what those before it proved of this crate: so each
function that a lot needs is proved once. Only the functions that a lot changes and those that they call are checked. As many crates are tried at once
as there are processors and memory for. It prints for each edit

    refused         and why: the goals of a function that it changes which are not proved, or what is wrong with its proof
    NOT REFUSED     the functions that it changes are proved with it
    ELSEWHERE       it is refused, but no function that it changes is
    BAD EDIT        it can't be applied, or the prover can't read it
    NOT TRIED       its crate is not proved as it stands, or its check was killed

and for each crate how many checks that took; then the edits that were refused at a limit of a search and do not say so by a line `# limit:`. It fails
where an edit is not refused.
"""

from __future__ import annotations

import os
import re
import sys
import tempfile
from concurrent.futures import ThreadPoolExecutor
from itertools import takewhile
from pathlib import Path
from typing import NamedTuple

from tests.lib.given import given
from tests.lib.places import TOP
from tests.tools import build
from tests.tools.edits import REFUSED, WAITS, Pair, applied, changed_at, module_of, names_of, pairs, places_of, verdicts
from tests.tools.machine import KEEPS_MEMORY, ShortOfMemory, Turns, checks_at_once, processors
from tests.tools.proved import Checked, Libraries, Stale, Work

# How every refusal begins, and nothing else that is said of an edit.
WAS_REFUSED = "refused"
# A function of a crate: its module, as a log writes it, and its name.
Place = tuple[str, str]
# What the prover says at last of what it read, and did not prove.
UNPROVED = re.compile(r"^(?:logic=not-proved|only=\d+ proved=\d+)", re.M)
# What it says where it met a limit of its own, and could not tell.
LIMIT = re.compile(r"antt ran out of (?:stack|the (?:steps|memory))|(?:outgrew the memory limit|stopped at the step limit) \(")
# A text of src/ or specs/ that it can't read: what is wrong there is not about a goal, or is about a name.
OF_NAMES = "is not in scope|has no field|is no name|operand is missing|expected the end|cannot continue"
UNREAD = re.compile(rf"^(?:\./)?(?:src|specs)/\S+: error: (?:(?!`)|.*(?:{OF_NAMES})).*", re.M)
# What it says where its search gave up at a limit of its own, and the line of an edit that tells of a limit.
GAVE_UP = "gave up at one of its limits"
TOLD = re.compile(r"^# limit: ", re.M)
# What it says of a proof file that names what the edit took away, or what was refused elsewhere.
NAMES = re.compile(r"has no field|is not in scope|has no `|was not admitted|which was rejected, was not checked")
# What it says of a function that waits for others.
WAITING = re.compile(r"^fn (\S+): (?:not proved|no proof)[:;] it (?:calls|passes) (.*)", re.M)
QUOTED = re.compile(r"`([^`]+)`")
# A line that begins what functions stand in, or a function that stands in nothing.
OWNER = re.compile(r"^(?:pub(?:\([^)]*\))? )?(?:unsafe )?(?:(impl)\b([^{]*)|trait (\w+)|(?:const )?fn )", re.M)
CONSTANT = re.compile(r"(?:pub(?:\([^)]*\))? )?(?:static|const) \w+:")
FUNCTION = re.compile(r"\bfn (\w+)")
# What it says of a name that it was told to look at, and that fits no function or several.
MISNAMED = re.compile(r"^rattle: error: .*(?:has no function|several functions are named) `([^`]+)`", re.M)


class Edit(NamedTuple):
    """A further edit: its name, what it changes, in which functions, and how a check is told to look at these alone."""

    name: str
    changes: list[Pair]
    places: list[Place]
    only: list[str]

    def is_local(self) -> bool:
        """Whether it changes the bodies of functions alone."""
        return all(name for _, name in self.places)

    def is_of_constant(self) -> bool:
        """Whether it changes a constant. Where contracts name that, only who calls may be refused."""
        return any(CONSTANT.match(it.old) and it.old != it.new for it in self.changes)


# Pairs of functions of which the first waits for the second: it calls it, or one that does.
Waits = set[tuple[Place, Place]]


class Lot:
    """Edits that are tried at once: no two change functions of one name in one module, or of which one is known to wait for the other, each can be
    applied after those before it, and one that is not local is alone."""

    def __init__(self, folder: Path, waits: Waits) -> None:
        self.folder = folder
        self.waits = waits
        self.edits: list[Edit] = []
        self.texts: dict[str, str] = {}

    def is_against(self, edit: Edit) -> bool:
        """Whether an edit of the lot and this one can't be tried at once."""
        if self.edits and not all(it.is_local() for it in (*self.edits, edit)):
            return True
        pairs_of = ((one, other) for it in self.edits for one in it.places for other in edit.places)
        return any(one == other or (one, other) in self.waits or (other, one) in self.waits for one, other in pairs_of)

    def takes(self, edit: Edit) -> bool:
        """Takes an edit, and says whether it did."""
        if self.is_against(edit):
            return False
        try:
            self.texts = applied(self.folder, edit.changes, self.texts)
        except ValueError:
            return False
        self.edits.append(edit)
        return True


def lot_of(folder: Path, edits: list[Edit], waits: Waits) -> list[Edit]:
    """As many of these edits as can be tried at once; none where none can be applied."""
    lot = Lot(folder, waits)
    for edit in edits:
        lot.takes(edit)
    return lot.edits


def is_of_trait(text: str) -> bool:
    """Whether the end of a text is in an `impl` of a trait for a type."""
    found = [*OWNER.finditer(text)]
    return bool(found and found[-1][1]) and " for " in found[-1][2]


def owner_of(text: str) -> str:
    """The type, or the type with the trait, whose functions the end of a text is among, as a log writes it; nothing where it is among none."""
    found = [*OWNER.finditer(text)]
    if not found or not (found[-1][1] or found[-1][3]):
        return ""
    if found[-1][3]:
        return found[-1][3]
    own = re.match(r"<((?:[^<>]|<[^<>]*>)*)>", found[-1][2])
    head = found[-1][2][own.end() if own else 0 :].split(" where ")[0]
    trait, is_of_trait, kind = head.rpartition(" for ")
    name = given(re.search(r"[A-Z]\w*|$", kind))[0]
    if is_of_trait:
        # What is written in capitals is the names of types: `impl<R: Read> From<Fault> for Source<R>` has SourceFromFault.
        return name + "".join(re.findall(r"\b[A-Z]\w*", trait))
    # `impl<R> Source<R>` has Source, and `impl<R> Source<R, File>` has Source+R+File.
    arguments = re.findall(r"(?<!')\b[A-Z]\w*", kind)[1:]
    parameters = {it.split(":")[0].strip() for it in own[1].split(",")} if own else set()
    return name if parameters.issuperset(arguments) else "+".join((name, *arguments))


def only_of(crate: str, folder: Path, changes: list[Pair]) -> list[str]:
    """How a check is told to look at the functions that changes change, and at those that they add to a trait's `impl`: no function that is changed
    has to call these."""
    found: list[tuple[str, str]] = []
    texts: dict[str, str] = {}
    for it in changes:
        text, module = texts.get(it.file) or (folder / it.file).read_text(encoding="utf-8"), module_of(crate, it.file)
        if it.old != it.new:
            found += [(owner_of(text[: at.end()]) or module, at[1]) for at in changed_at(text, it) if at]
            before, known = text[: text.index(it.old)], FUNCTION.findall(it.old)
            added = FUNCTION.findall(it.new) if is_of_trait(before) else []
            found += [(owner_of(before), name) for name in added if name not in known]
        texts[it.file] = text.replace(it.old, it.new)
    return [*dict.fromkeys(f"{owner}::{name}" for owner, name in found)]


def own_errors(name: str, log: str) -> list[str]:
    """What a log says is wrong in the proof files of a function."""
    folder = "/".join(("proofs", *name.split("::")[1:], ""))
    return re.findall(rf"^(?:\./)?({re.escape(folder)}\S+: error: .*)", log, re.M)


def is_refused(name: str, verdict: str, log: str) -> bool:
    """Whether a function is refused for itself: its line names no other, or an answer in its proof files is none."""
    return verdict == REFUSED or verdict == WAITS and any(not NAMES.search(it) for it in own_errors(name, log))


def functions_in(edit: Edit, log: str) -> set[str]:
    """A log's names of the functions that an edit changes."""
    found = verdicts(log)
    return {name for place in edit.places for name in names_of(found, *place)}


def refused_in(edit: Edit, log: str) -> list[str]:
    """Those functions that an edit changes which a log names as refused themselves, and not only since they call one that is."""
    found = verdicts(log)
    return sorted(name for name in functions_in(edit, log) if is_refused(name, found[name], log))


def waited_for(log: str) -> dict[str, set[str]]:
    """The functions, and the blocks of a trait's functions, that each function of a log waits for, itself or through others."""
    found = {name: {*QUOTED.findall(rest)} for name, rest in WAITING.findall(log)}
    for middle in found:
        for name, others in found.items():
            if middle in others:
                found[name] = others | found[middle]
    return found


def waits_in(edits: list[Edit], log: str) -> Waits:
    """Which functions that edits of a lot change wait for others of them, by the log of its check."""
    waits, known = waited_for(log), verdicts(log)
    names = {place: names_of(known, *place) for it in edits for place in it.places}
    found: Waits = set()
    for one in edits:
        seen = {it for place in one.places for name in names[place] for it in waits.get(name, ())}
        others = [place for other in edits if other is not one for place in other.places]
        met = [place for place in others if any(name in seen or name.rpartition("::")[0] in seen for name in names[place])]
        found |= {(place, other) for place in one.places for other in met}
    return found


def why_not(name: str, log: str) -> str:
    """Why a function is not proved: the first goal of its proof file that is refused; or those that have no answer, of which the log tells above the
    line of the function, and in it; or what else is wrong with the proof file, as a name in it that the edit took away."""
    errors = own_errors(name, log)
    line = re.search(rf"^fn {re.escape(name)}: (?!proved).*", log, re.M)
    above = log[: line.start() if line else 0].splitlines()
    notes = [*takewhile(lambda it: not re.match(r"(?:fn|struct|enum|impl) ", it), reversed(above))]
    goals = [it[1] + it[2] for it in (re.match(r"note: \S+: it is not proved .*?\((`[^`]*`)\)(.*)", it) for it in reversed(notes)) if it]
    goals += re.findall(r"did not prove (.*)", line[0] if line else "")
    told = [it for it in errors if not NAMES.search(it)] + [f"{name}: no proof of {it}" for it in goals] + errors
    return (told or [f"{name} is not proved"])[0][:200]


def reason(log: str) -> str:
    """The first line of a log that says what is wrong."""
    said = [it for it in log.splitlines() if re.match(r"\S+:\d+:\d+: error|fn \S+: (?:not proved|no proof)|rattle: ", it)]
    return (said or log.splitlines()[-1:] or ["it said nothing"])[0][:200]


def tried(work: Work, edits: list[Edit]) -> Checked:
    """Checks the crate with these edits: only the functions that they change, and what these call, where each changes one. Where a function is not
    found by its name, as in an `impl` for one argument of a type, all of its module are checked; in the root module, all of the crate."""
    changes = [it for edit in edits for it in edit.changes]
    only = {it for edit in edits for it in edit.only} if all(it.only for it in edits) else set()
    ran = work.check(changes, sorted(only))
    while only and (wrong := MISNAMED.search(ran.log)):
        modules = {module.partition("::")[2] for edit in edits if wrong[1] in edit.only for module, _ in edit.places}
        only = only - {wrong[1]} | modules if wrong[1] in only and all(modules) else set()
        ran = work.check(changes, sorted(only))
    return ran


def outcome(edit: Edit, ran: Checked) -> str:
    """What comes of an edit that was tried alone."""
    if ran.status == 0:
        return "NOT REFUSED"
    if unread := UNREAD.search(ran.log):
        return f"BAD EDIT: {unread[0][:200]}"
    names = refused_in(edit, ran.log)
    if names:
        return f"refused: {why_not(names[0], ran.log)}"
    if LIMIT.search(ran.log):
        return f"refused, at a limit: {reason(ran.log)}"
    if not UNPROVED.search(ran.log):
        return f"BAD EDIT: {reason(ran.log)}"
    is_own = not edit.is_local() or edit.is_of_constant()
    return f"refused: {reason(ran.log)}" if is_own else f"ELSEWHERE: {reason(ran.log)}"


def is_of_one(name: str, edit: Edit, edits: list[Edit], log: str) -> bool:
    """Whether a log's name of a function is surely that of a function that this edit of a lot changes, and no other edit does."""
    function = name.rpartition("::")[2]
    others = [it for it in edits if it is not edit and function in (place[1] for place in it.places)]
    is_told = any(f"::{name}".endswith(f"::{it}") for it in edit.only)
    return not others or is_told and not any(name in functions_in(it, log) for it in others)


def refused_of(edits: list[Edit], log: str) -> dict[str, str]:
    """Those edits of a lot that the log of its check shows as refused, with what is said of each. A function that may be that of two edits shows none
    of them: a log names a method by its type, which may be of another module than the method."""
    if not UNPROVED.search(log) or UNREAD.search(log):
        return {}
    names = {it.name: [name for name in refused_in(it, log) if is_of_one(name, it, edits, log)] for it in edits}
    return {name: f"refused: {why_not(refused[0], log)}" for name, refused in names.items() if refused}


def shown(work: Work, edits: list[Edit], waits: Waits) -> dict[str, str]:
    """What comes of those edits of a lot that a check shows: one at least. Where a check of all shows none, as where one can't be read, each half is
    tried. Notes which functions wait for others."""
    ran = tried(work, edits)
    if ran.status < 0:
        return dict.fromkeys((it.name for it in edits), f"NOT TRIED: the check was killed by signal {-ran.status}")
    if len(edits) == 1:
        edit = edits[0]
        is_everywhere = edit.is_of_constant() or not edit.is_local()
        return {edit.name: outcome(edit, work.check(edit.changes, []) if ran.status == 0 and is_everywhere else ran)}
    waits |= waits_in(edits, ran.log)
    half = len(edits) // 2
    return refused_of(edits, ran.log) or shown(work, edits[:half], waits) | shown(work, edits[half:], waits)


def outcomes(work: Work, edits: list[Edit]) -> dict[str, str]:
    """What comes of each edit. Those that a lot does not show are tried in a later one."""
    found: dict[str, str] = {}
    waits: Waits = set()
    left = sorted(edits, key=lambda it: not it.is_local())
    while lot := lot_of(work.folder, left, waits):
        found |= shown(work, lot, waits)
        left = [it for it in left if it.name not in found]
    return found | dict.fromkeys((it.name for it in left), "BAD EDIT: it can't be applied")


def edit_of(crate: str, file: Path) -> Edit:
    """A further edit. One that can't be applied changes no function."""
    changes, folder = pairs(file.read_text(encoding="utf-8")), TOP / "crates" / crate
    try:
        return Edit(file.stem, changes, places_of(crate, folder, changes), only_of(crate, folder, changes))
    except (OSError, ValueError):
        return Edit(file.stem, changes, [], [])


class Trial:
    """The further edits of a crate, and what comes of each."""

    def __init__(self, crate: str) -> None:
        self.crate = crate
        self.files = sorted(TOP.glob(f"crates/{crate}/further/*.edit"))
        self.found: dict[str, str] = {}

    def size(self) -> int:
        """About how long it takes, beside other crates."""
        return sum(it.stat().st_size for it in TOP.glob(f"crates/{self.crate}/src/**/*.rt")) * (1 + len(self.files))

    def run(self, folder: Path, libraries: Libraries, turns: Turns) -> str:
        """Tries the edits, and answers how many checks that took."""
        try:
            libraries.take(build.listed()[self.crate].uses)
        except Stale as why:
            self.give_up(str(why))
            return "no checks"
        size = self.size()
        work = Work(folder, self.crate, libraries, lambda: turns.turn(size))
        try:
            self.found = outcomes(work, [edit_of(self.crate, it) for it in self.files])
        except ShortOfMemory as why:
            self.give_up(str(why))
        work.remove()
        return f"{work.checks} checks, {work.seconds:.0f} seconds"

    def give_up(self, why: str) -> None:
        """Says of each edit why it was not tried."""
        self.found = {it.stem: f"NOT TRIED: {why}" for it in self.files}

    def told(self, how: str) -> str:
        """What is printed."""
        lines = [f"{self.crate}/{it}: {self.found[it]}" for it in sorted(self.found)]
        return "\n".join([*lines, f"{self.crate}: {len(self.found)} further edits; {how}"])

    def untold(self) -> list[str]:
        """The edits that were refused since a search gave up at a limit, and that have no line `# limit:`."""
        at_limit = [it for it in self.files if GAVE_UP in self.found.get(it.stem, "")]
        return [f"{self.crate}/{it.stem}" for it in at_limit if not TOLD.search(it.read_text(encoding="utf-8"))]

    def failed(self) -> int:
        return sum(not it.startswith(WAS_REFUSED) for it in self.found.values())


def trials_of(crates: list[str]) -> list[Trial]:
    """The trials of these crates, or of all that have further edits."""
    return [Trial(it) for it in crates or sorted({it.parent.name for it in (TOP / "crates").glob("*/further")})]


def try_all(trials: list[Trial], libraries: Libraries, turns: Turns) -> int:
    """Tries the edits of these crates, and prints what comes of each edit as soon as its crate is done. Returns how many were not refused."""
    with tempfile.TemporaryDirectory(prefix="further-") as folder, ThreadPoolExecutor(max(1, len(trials))) as pool:

        def try_one(trial: Trial) -> None:
            print(trial.told(trial.run(Path(folder), libraries, turns)), flush=True)

        list(pool.map(try_one, trials))
    count, failed = sum(len(it.found) for it in trials), sum(it.failed() for it in trials)
    if untold := [name for it in trials for name in it.untold()]:
        print(f"a search gave up at a limit, and the edit has no line `# limit:`: {', '.join(untold)}")
    print(f"further edits: {count - failed} refused, {failed} not", flush=True)
    return failed


def main() -> int:
    """Tries the further edits of the crates that are named, or of all, and fails where one is not refused."""
    asked = sys.argv[1:]
    wrong = [it for it in asked if not (TOP / "crates" / it / "further").is_dir()]
    if wrong:
        print(f"no further edits: {' '.join(wrong)}")
        return 2
    os.environ.update(KEEPS_MEMORY)
    trials = trials_of(asked)
    needed = sorted({name for it in trials for name in build.listed()[it.crate].uses})
    if build.build_all(needed, processors()):
        return 1
    with tempfile.TemporaryDirectory(prefix="libraries-") as folder:
        return int(try_all(trials, Libraries(Path(folder)), Turns(checks_at_once())) > 0)


if __name__ == "__main__":
    sys.exit(main())
