"""Where the repository and its built programs are."""

from __future__ import annotations

import os
import sys
from pathlib import Path

# The repository's folder.
TOP = Path(__file__).resolve().parents[2]
CRATES = TOP / "crates"


def built(name: str) -> str:
    """The path of the program `name`: the environment variable RMTD, RDUMP or RSIM, or else where `make build` leaves the program."""
    return os.path.abspath(os.environ.get(name.upper()) or CRATES / name / "out" / name)


def is_unproved(name: str) -> bool:
    """Whether the program `name` was compiled without its proofs, by `make try` or `make quick`."""
    return Path(built(name)).with_suffix(".sources").is_file()


def words_of_module(name: str) -> tuple[str, ...]:
    """The command that runs a module of tests/, from any folder."""
    start = f"import runpy, sys; sys.path.insert(0, {str(TOP)!r}); sys.argv[0] = {name!r}; runpy.run_module({name!r}, run_name='__main__')"
    return sys.executable, "-c", start
