"""Tells which edits show the contract: those that have a control.

    python3 -m tests.tools.controls [CRATE..]

That an edit is refused shows a contract only if a right body in the same place is proved with the same proof files. Such a body is the edit's
control: NAME.control.md beside NAME.edit, in crates/CRATE/must-fail/ or crates/CRATE/further/, with the same lines `file:` and `old:`, and another
line `new:`. This applies each control to a copy of its crate and checks that the functions which it changes are proved, over the libraries below,
which it first builds if they are not built as they are (build.py). It prints for each edit

    with control        the control is proved, so what refuses the edit is what the edit does
    refuses the text    there is no control: the edit may be refused for its words alone

It fails where a control is not proved, or stands at another place than its edit. A crate's controls are tried all at once, since functions are proved
one by one. Where that is refused, the log names the functions that are proved and those that are not: a control whose functions are all proved there
is proved, and each of the others is tried alone.
"""

from __future__ import annotations

import sys
import tempfile
from pathlib import Path

from tests.lib.places import TOP
from tests.tools import build
from tests.tools.edits import FOLDERS, PROVED, REFUSED, Pair, is_beside, names_of, pairs, places_of, verdicts
from tests.tools.further import Edit, only_of, reason, tried
from tests.tools.machine import processors
from tests.tools.proved import Checked, Libraries, Work


def suspects(places: dict[str, list[tuple[str, str]]], log: str) -> list[str]:
    """Of the controls of a lot that was refused those that the log does not show as proved, by the places of their changes. A control is shown where
    each of its functions is named, and proved. Where a function is refused that no control changes, none is shown."""
    found = verdicts(log)
    names = {place: names_of(found, *place) for it in places.values() for place in it}
    refused = {name for name, verdict in found.items() if verdict == REFUSED}
    if not refused or not refused <= set().union(*names.values()):
        return [*places]
    shown = {place for place, it in names.items() if {found[name] for name in it} == {PROVED}}
    return [name for name, it in places.items() if not shown.issuperset(it)]


def rounds(controls: dict[str, list[Pair]]) -> list[list[str]]:
    """The names of controls in as few lots as there is need for: no two of a lot put different texts in one place."""
    lots: list[tuple[list[str], dict[tuple[str, str], str]]] = []
    for name, changes in controls.items():
        places = {(it.file, it.old): it.new for it in changes}
        lot = next((it for it in lots if all(it[1].get(at, new) == new for at, new in places.items())), None)
        if not lot:
            lot = ([], {})
            lots.append(lot)
        lot[0].append(name)
        lot[1].update(places)
    return [names for names, _ in lots]


def checked(work: Work, controls: list[list[Pair]]) -> Checked:
    """Checks the crate with these controls at once."""
    changes = list(dict.fromkeys(it for control in controls for it in control))
    try:
        places, only = places_of(work.crate, work.folder, changes), only_of(work.crate, work.folder, changes)
    except ValueError:
        return Checked(2, "it can't be applied")
    return tried(work, [Edit("controls", changes, places, only)])


def why_not_each(work: Work, controls: dict[str, list[Pair]]) -> dict[str, str]:
    """Why each control is not proved, or nothing where it is: first many at once, then, where that is refused, those alone that may not be proved."""
    found: dict[str, str] = {}
    for names in rounds(controls):
        lot = checked(work, [controls[it] for it in names])
        alone = names if lot.status else []
        if lot.status and len(names) > 1 and verdicts(lot.log):
            alone = suspects({name: places_of(work.crate, work.folder, controls[name]) for name in names}, lot.log)
        for name in alone:
            ran = lot if len(names) == 1 else checked(work, [controls[name]])
            found[name] = reason(ran.log) if ran.status else ""
    return dict.fromkeys(controls, "") | found


def try_crate(crate: str) -> int:
    """Tries the controls of a crate, tells of each edit, and returns how many controls failed."""
    folders = [TOP / "crates" / crate / it for it in FOLDERS]
    edits = {it.stem: pairs(it.read_text(encoding="utf-8")) for folder in folders for it in sorted(folder.glob("*.edit"))}
    files = [it for folder in folders for it in sorted(folder.glob("*.control.md"))]
    controls = {it.name.removesuffix(".control.md"): pairs(it.read_text(encoding="utf-8")) for it in files}
    beside = {name: it for name, it in controls.items() if is_beside(it, edits.get(name, []))}
    with tempfile.TemporaryDirectory(prefix="controls-") as folder:
        libraries = Libraries(Path(folder, "libraries"))
        libraries.take(build.listed()[crate].uses)
        found = why_not_each(Work(Path(folder), crate, libraries), beside)
    why = {name: "it stands at another place than its edit" for name in controls} | found
    for name in sorted(edits | controls):
        said = f"THE CONTROL IS NOT PROVED: {why[name]}" if why.get(name) else "with control" if name in why else "refuses the text"
        print(f"{crate}/{name}: {said}", flush=True)
    return sum(map(bool, why.values()))


def main() -> int:
    """Tries the controls of the crates that are named, or of all, and fails where one does not stand."""
    known = sorted({it.parent.name for name in FOLDERS for it in (TOP / "crates").glob(f"*/{name}")})
    wrong = [it for it in sys.argv[1:] if it not in known]
    if wrong:
        print(f"no edits: {' '.join(wrong)}")
        return 2
    asked = sys.argv[1:] or known
    if build.build_all(sorted({use for it in asked for use in build.listed()[it].uses}), processors()):
        return 1
    failed = sum(map(try_crate, asked))
    print("ok" if not failed else f"{failed} failed")
    return 1 if failed else 0


if __name__ == "__main__":
    sys.exit(main())
