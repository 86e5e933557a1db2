"""Checks the edits and docs/PROMISES.md against the contracts of the crates, or prints a contract.

    python3 -m tests.tools.promises
    python3 -m tests.tools.promises --of NAME

With `--of` it prints each call or law of this name, and each definition in specs/: its words, its clauses, and the edits that break it. `NAME` is a
name as an edit has it (`Client::feed`, `FileReel as Reel`, or `restore/restore` for one crate's alone), or its last part.

Without it checks that each edit, whether `rt ci` tries it (must-fail/) or further.py (further/), can be applied and names clauses that are there, and
that each public call that has a contract and returns or changes something has an edit, or says that no other body has its type. At most 25 edits are
in must-fail/, since `rt ci` tries each in a check of its own. Each control changes the same places as its edit. In docs/PROMISES.md, each contract
that the last cell of a row names has the named file, function and clauses.
"""

from __future__ import annotations

import re
import signal
import sys
from pathlib import Path
from typing import Iterator

from tests.tools.contracts import TOP, Breaks, Call, breaks_of, calls_of, definitions, facts, libraries, of_trait
from tests.tools.edits import FOLDERS, applied, is_beside, pairs

PAGE = TOP / "docs" / "PROMISES.md"
# The lines that an edit may have.
LINES = re.compile(r"(?:file|old|new|more|# breaks|# limit):|$")
# Those of an edit that `rt ci` tries.
LINES_ALONE = re.compile(r"(?:file|old|new|# breaks|# limit):|$")
NO_OTHER = "The types allow no other body, so no wrong body is tried."
# How many edits `rt ci` tries at most.
MOST_ALONE = 25
# The rows of a table of docs/PROMISES.md, and a contract in the last cell: the file, the function, and clauses, if it has some with names.
TABLE = re.compile(r"^\|.* Contract \|\n\|[-|]+\|\n((?:\|.*\n)+)", re.M)
EACH = "each function"
NAMED = re.compile(r"`(\w+/src/[\w/]+\.rt)` `([\w: ]+)`(?:: ((?:`\w+`(?:, )?)+))?(?:; )?")


def files(ending: str) -> list[Path]:
    """The edits or the controls of all crates, by the end of their names."""
    return [it for folder in FOLDERS for it in sorted(TOP.glob(f"crates/*/{folder}/*{ending}"))]


def edits() -> dict[str, Path]:
    """The file of each edit, by its name: the crate's and its own."""
    return {f"{it.parent.parent.name}/{it.stem}": it for it in files(".edit")}


def faults_of_edits() -> Iterator[str]:
    """What is wrong with edits and controls: a file is neither, two edits of a crate have one name, one can't be applied to its file, it has a line
    that nothing reads, or a control stands elsewhere than its edit."""
    known = edits()
    alone = [it for it in files(".edit") if it.parent.name == FOLDERS[0]]
    others = {*files("")} - {*files(".edit"), *(it.with_suffix(".control.md") for it in files(".edit"))}
    yield from (f"{it.relative_to(TOP)} is no edit, and no control beside one" for it in sorted(others))
    yield from (f"{it.parent.parent.name} has two edits {it.stem}" for it in files(".edit") if it not in known.values())
    if len(alone) > MOST_ALONE:
        yield f"{len(alone)} edits are in must-fail/, and not {MOST_ALONE} at most: move the others to further/, with their controls"
    for it in files(".edit") + files(".control.md"):
        try:
            applied(it.parent.parent, pairs(it.read_text()))
        except ValueError as why:
            yield f"{it.relative_to(TOP)} can't be applied: {why}"
    for name, edit in known.items():
        control = edit.with_suffix(".control.md")
        lines = LINES_ALONE if edit.parent.name == FOLDERS[0] else LINES
        yield from (f"{name} has a line that nothing reads: {line}" for line in edit.read_text().split("\n") if not lines.match(line))
        if control.exists() and not is_beside(pairs(control.read_text()), pairs(edit.read_text())):
            yield f"the control of {name} is no other text at the places of its edit"


def clauses_of(calls: list[Call]) -> set[str]:
    """The clauses that may be named of calls of one heading: of a trait's calls, those of the trait too, and the definitions that they use."""
    first, own = calls[0], {one for it in calls for one in it.clauses}
    if " as " not in first.heading and first.method:
        return own
    return own | of_trait(first.heading.split(" as ")[-1]) | facts(first.crate) | facts("tape")


def lacking(crate: str, heading: str, names: tuple[str, ...]) -> str:
    """Why a contract with these clauses is not there, "" if it is."""
    calls = [it for it in calls_of(crate) if it.heading == heading] if crate in libraries() else []
    if not any(it.has_contract or " as " in heading for it in calls):
        return f"{heading} of {crate}, which has no contract or is not there"
    missing = [it for it in names if it not in clauses_of(calls)]
    return f"{', '.join(missing)} of {heading} of {crate}, which has no such clause" if missing else ""


def broken_by(edit: Path) -> list[Breaks]:
    return breaks_of(edit.parent.parent.name, edit.read_text())


def faults_of_breaks() -> Iterator[str]:
    """Each edit that does not say what it breaks, or breaks no clause that is there, and each call that needs an edit."""
    broken: set[tuple[str, str]] = set()
    for name, edit in sorted(edits().items()):
        if not broken_by(edit):
            yield f"{name} does not say what it breaks"
        for it in broken_by(edit):
            broken.add((it.crate, it.heading))
            if fault := lacking(it.crate, it.heading, it.names):
                yield f"{name} breaks {fault}"
    for crate in libraries():
        free = {it.heading for it in calls_of(crate) if NO_OTHER in " ".join(re.sub(r"(?m)^\s*//", "", it.text).split())}
        needing = dict.fromkeys(it.heading for it in calls_of(crate) if it.public and it.has_contract and it.acts)
        yield from (f"{it} of {crate} has no edit" for it in needing if it not in free and (crate, it) not in broken)


def faults_of_page() -> Iterator[str]:
    """Each contract that docs/PROMISES.md names and that is not there, and each last cell that names none."""
    cells = [row.removesuffix(" |").rpartition("| ")[2] for rows in TABLE.findall(PAGE.read_text()) for row in rows.splitlines()]
    for cell in (it for it in cells if it != EACH):
        named = NAMED.findall(cell)
        if not named or NAMED.sub("", cell).strip():
            yield f"docs/PROMISES.md: `CRATE/src/FILE.rt` `FUNCTION`: `CLAUSE` is wanted, and not {cell}"
        for file, heading, clauses in named:
            crate = file.split("/")[0]
            there = crate in libraries() and any(it.heading == heading and it.file == file for it in calls_of(crate))
            fault = lacking(crate, heading, tuple(re.findall(r"\w+", clauses))) if there else f"{heading}, which is not in crates/{file}"
            if fault:
                yield f"docs/PROMISES.md names {fault}"
    if not cells:
        yield "docs/PROMISES.md has no table of contracts"


def is_meant(call: Call, name: str) -> bool:
    crate, slash, heading = name.rpartition("/")
    names = (call.heading, call.heading.rpartition("::")[2], call.heading.split(" as ")[-1])
    return heading in names and (not slash or call.crate == crate) and (call.has_contract or not call.method)


def print_edits(crate: str, heading: str) -> None:
    """Prints the edits that break this contract, each with the clauses, and why it is refused if that is a limit of the search."""
    for name, edit in sorted(edits().items()):
        for it in broken_by(edit):
            if (it.crate, it.heading) == (crate, heading):
                limit = re.search(r"^# limit: (.+)$", edit.read_text(), re.M)
                clauses = ", ".join(it.names) or "the contract"
                print(f"  refused: {name}: {clauses}" + (f"; the search ended at a limit: {limit[1]}" if limit else ""))


def print_contracts(name: str) -> int:
    """Prints each call and each definition of this name. Returns the exit status."""
    signal.signal(signal.SIGPIPE, signal.SIG_DFL)
    calls = [it for crate in libraries() for it in calls_of(crate) if is_meant(it, name)]
    for crate, heading in dict.fromkeys((it.crate, it.heading) for it in calls):
        for call in (it for it in calls if (it.crate, it.heading) == (crate, heading)):
            print(f"crates/{call.place}\n{call.text}\n")
        print_edits(crate, heading)
    found = list(definitions(name))
    for place, text in found:
        print(f"crates/{place}\n{text}\n")
    if not calls and not found:
        print(f"nothing in the crates has a contract and is named {name}")
    return 0 if calls or found else 1


def main() -> int:
    if len(sys.argv) == 3 and sys.argv[1] == "--of":
        return print_contracts(sys.argv[2])
    if len(sys.argv) > 1:
        print(__doc__)
        return 2
    wrong = [*faults_of_edits(), *faults_of_breaks(), *faults_of_page()]
    count = sum(it.has_contract for crate in libraries() for it in calls_of(crate))
    told = f"promises: {count} contracts and {len(edits())} edits fit each other, and docs/PROMISES.md names what is there"
    print("\n".join(wrong) if wrong else told)
    return 1 if wrong else 0


if __name__ == "__main__":
    sys.exit(main())
