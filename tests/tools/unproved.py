"""Compiles programs without their proofs, as out/try/PROGRAM, so that a change can be tried before it is proved.

    python3 -m tests.tools.unproved PROGRAM..

`rt try` compiles a program with checks that stop it at an overflow, an index out of bounds or a bad access, runs it, and keeps nothing. So it
is given words with which the program waits, and the program's file is copied while it runs. The checksum of the sources is noted beside it: what was
compiled from the sources as they are is not compiled again. PROGRAM is rmtd, rdump or rsim. Of these checks the kit lets none be left out.
"""

from __future__ import annotations

import argparse
import os
import shutil
import subprocess
import sys
import tempfile
import time
from concurrent.futures import ThreadPoolExecutor
from pathlib import Path

from tests.lib.places import TOP
from tests.tools.build import below, listed, sums_of
from tests.tools.machine import checks_at_once

TRIED = TOP / "out/try"
# Words with which each program waits: for a client, or for somebody who writes to the pipe of this name.
PIPE = "PIPE"
WAITING = {"rmtd": ("--listen", "127.0.0.1:0"), "rdump": ("dates", "--file", PIPE), "rsim": (PIPE,)}


def sources_of(name: str) -> str:
    """The checksum of what a program is compiled from."""
    return sums_of(below(listed(), [name]))[name]


def running_below(folder: Path) -> Path | None:
    """The file below a folder that a process runs, None where there is none."""
    for process in Path("/proc").iterdir():
        try:
            words = process.joinpath("cmdline").read_bytes().split(b"\0") if process.name.isdigit() else []
        except OSError:
            continue
        found = [os.fsdecode(it) for it in words if it.startswith(bytes(folder)) and it.endswith(b"/program")]
        if found and os.access(found[0], os.X_OK):
            return Path(found[0])
    return None


def compile_to(name: str, folder: Path, to: Path) -> str | None:
    """Compiles a program in a folder for temporary files, and copies it. Answers what `rt try` said where that did not come to a program."""
    pipe, said = folder / PIPE, folder / "said"
    os.mkfifo(pipe)
    words = ("rt", "try", "--", *(str(pipe) if it == PIPE else it for it in WAITING[name]))
    crate, env = listed()[name].folder(), os.environ | {"TMPDIR": str(folder)}
    with said.open("wb") as output, subprocess.Popen(words, cwd=crate, env=env, stdin=subprocess.DEVNULL, stdout=output, stderr=output) as process:
        while process.poll() is None:
            program = running_below(folder)
            if program:
                shutil.copy(program, to)
                process.terminate()
                return None
            time.sleep(0.5)
    return said.read_text(errors="replace")


def unproved(name: str) -> Path:
    """A program that was compiled without its proofs from the sources as they are."""
    program, sources = TRIED / name, sources_of(name)
    made, told = program.with_suffix(".new"), program.with_suffix(".sources")
    if program.is_file() and told.is_file() and told.read_text() == sources:
        return program
    TRIED.mkdir(parents=True, exist_ok=True)
    with tempfile.TemporaryDirectory(prefix="unproved-") as folder:
        said = compile_to(name, Path(folder), made)
    if said is not None:
        sys.exit(f"`rt try` made no program of {name}:\n{said[-4000:]}")
    made.chmod(0o755)
    told.unlink(missing_ok=True)
    made.rename(program)
    told.write_text(sources)
    return program


def main() -> int:
    parser = argparse.ArgumentParser(description="Compiles programs without their proofs.")
    parser.add_argument("program", choices=WAITING, nargs="+")
    names = parser.parse_args().program
    print(f"{', '.join(names)}: compiled without proofs, in a minute or two.", flush=True)
    with ThreadPoolExecutor(checks_at_once()) as pool:
        for program in pool.map(unproved, names):
            told = program.relative_to(TOP)
            print(f"{told}: UNPROVED. It is for trying alone: `make build` proves and builds what is to be relied on.", flush=True)
    return 0


if __name__ == "__main__":
    sys.exit(main())
