"""Looks for names that a proof takes from another crate, and that are not there.

    python3 -m tests.tools.imports

A proof may name the files of `specs` and `proofs` of the crates below its own. Who takes a lemma away as soon as its own crate is proved without it
learns from this in a second which proof still names it. The gate would tell it too, but only when it proves the crate that names it, near its end.
Only a name's spelling is looked for, and whether it is public: what it means is left to the prover. It fails where a file or a name is missing.
"""

from __future__ import annotations

import re
import sys
from functools import lru_cache
from pathlib import Path
from typing import Iterator

TOP = Path(__file__).resolve().parents[2]
CRATES = TOP / "crates"
# A `use` line: the crate, the folder, and the path below it; then names in braces, or none.
USE = re.compile(r"^\s*(?:ghost |pub )?use Rattle\.(\w+)\.(specs|proofs)\.([^\s;{]+?)\.?(?:\{([^}]*)\})?(?: as \S+)?;?\s*$", re.M)
# The modules that the prover makes: of a function, of the contracts, and of what `src` declares.
MADE = {"Met", "Goals", "Statement", "contracts", "declared"}


def file_of(folder: Path, path: list[str]) -> tuple[Path, list[str]] | None:
    """The file that a path leads to, and what is left of the path: the names in this file. None where there is none."""
    for count in range(len(path), 0, -1):
        file = folder.joinpath(*path[:count]).with_suffix(".antt")
        if file.is_file():
            return file, path[count:]
    return None


@lru_cache(maxsize=None)
def code_of(file: Path) -> str:
    """A file without its comments, and with operators as they are spelled: `◌++◌` as `++`."""
    return re.sub(r"--.*", "", file.read_text(encoding="utf-8")).replace("◌", "")


def is_named(name: str, code: str) -> bool:
    """Whether a name stands in a file's code, and not only as what the file keeps to itself."""
    word = rf"(?<![\w-]){re.escape(name)}(?![\w-])"
    return bool(re.search(word, code)) and not re.search(rf"^(?:(?!pub)\w+ )?{re.escape(name)} :", code, re.M)


def missing_in(file: Path) -> Iterator[str]:
    """What a file takes from other crates by its `use` lines, and is not there."""
    own = file.relative_to(CRATES).parts[0]
    for crate, part, told, braced in USE.findall(file.read_text(encoding="utf-8")):
        path = told.split(".")
        if crate == own or not (CRATES / crate).is_dir() or MADE.intersection(path):
            continue
        found = file_of(CRATES / crate / part, path)
        if not found:
            yield f"{crate} has no file of {part} for {told}"
            continue
        names = [*found[1], *(it.split(" as ")[0].strip() for it in braced.split(",") if it.strip())]
        home = found[0].relative_to(CRATES)
        yield from (f"{home} gives no {it}" for it in names if not is_named(it.replace("◌", ""), code_of(found[0])))


def main() -> int:
    files = sorted(it for kind in ("antt", "rt") for it in CRATES.rglob(f"*.{kind}") if "out" not in it.relative_to(CRATES).parts)
    found = [f"{file.relative_to(TOP)}: {it}" for file in files for it in missing_in(file)]
    for line in found:
        print(line)
    print(f"{len(files)} files, {len(found)} names that other crates do not give")
    return 1 if found else 0


if __name__ == "__main__":
    sys.exit(main())
