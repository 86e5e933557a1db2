"""Tells how many seconds the proof of each function of a crate took: of the 25 that took longest.

    python3 -m tests.tools.costs CRATE

It looks at the work that the last check of the crate kept, in crates/CRATE/out/incremental: a file for each module, which has the time
at which its check ended. The seconds of a module are those since the file before it, so they mean something after a check
from nothing with one job alone:

    rm -rf crates/CRATE/out/incremental; (cd crates/CRATE && rt check --jobs 1)

With `rt check --test --jobs 1` they are those of the tests.
"""

from __future__ import annotations

import sys
from collections import Counter
from itertools import pairwise

from tests.lib.places import CRATES

# The modules of one function, by the last part of their names. `Lts` is the borrow checker's, `Proof` and `Answers` are those of the contract.
PARTS = {"Lts", "Proof", "Answers", "Code", "Goals", "Met", "Statement", "Invariants", "Tie", "Kinds", "Mir", "Layout"}


def split(module: str) -> tuple[str, str]:
    """The function that a module is of, and which part of it; the module itself, where it is of none."""
    parts = module.split(".")
    known = next((at for at, it in enumerate(parts) if it in PARTS), None)
    return (module, "") if known is None else (".".join(parts[:known]), parts[known])


def main() -> int:
    files = [it for name in sys.argv[1:] for it in (CRATES / name / "out/incremental").rglob("Rattle*.oantt") if it.is_file()]
    if not files or len(sys.argv) != 2:
        print(f"{__doc__}\nThere is no such work.")
        return 2
    # When the check of each module ended, in nanoseconds, and its name.
    found = sorted((it.stat().st_mtime_ns, it.name.removesuffix(".oantt").removesuffix(".decls")) for it in files)
    functions, parts = Counter[str](), Counter[str]()
    for (before, _), (after, module) in pairwise(found):
        function, part = split(module)
        functions[function] += after - before
        parts[part] += after - before
    print("seconds in all:", round((found[-1][0] - found[0][0]) / 1e9), *(f"{part} {took / 1e9:.0f}" for part, took in parts.most_common(4) if part))
    for function, took in functions.most_common(25):
        print(f"{took / 1e9:8.1f}  {function}")
    return 0


if __name__ == "__main__":
    sys.exit(main())
