"""Checks the recipe *Restore* of docs/OPERATING.md where not all is well: at a damaged reel it stops, and no reel is changed.

The recipe runs as it stands there, up to the restore of the whole tree, on a machine of its own. Then a reel is damaged, and the commands of this
restore run as a person pastes them. That takes root and unshare(1); where they are not to be had, it is named as skipped.
"""

from __future__ import annotations

import os
import shutil
import subprocess
import tempfile
from pathlib import Path

from tests.lib import machines
from tests.lib.case import Case
from tests.lib.ended import DONE
from tests.lib.inside import is_inside, run_inside
from tests.lib.recipes import all_recipes, script_of, with_those_before
from tests.models.rmtd import images

SHELF = Path("shelf")
LABEL_BYTES = 1024


def ran(script: str) -> tuple[int, bytes]:
    """The status of a script, and what it printed. What it leaves running goes on."""
    with tempfile.TemporaryFile() as output:
        words = ("/bin/sh", "-c", script)
        ended = subprocess.run(words, stdin=subprocess.DEVNULL, stdout=output, stderr=subprocess.STDOUT, env=machines.ENVIRONMENT, check=False)
        output.seek(0)
        return ended.returncode, output.read()


def no_mark(data: bytes) -> bytes:
    return data[:-4]


def no_block(data: bytes) -> bytes:
    """The label and the mark of a volume: its blocks are gone."""
    return images([data[4 : 4 + LABEL_BYTES], None])


def no_label(data: bytes) -> bytes:
    return data[:4] + b"?" + data[5:]


class Levels(Case):
    """The restore of several levels."""

    def setUp(self) -> None:
        if not is_inside() and not (machines.has_machines() and machines.is_there("tar")):
            self.skipTest("root, unshare, make and tar cannot be used on this machine")

    def test_damaged_reel(self) -> None:
        """Nothing is unpacked from a damaged reel, nor from one after it."""
        if not is_inside():
            self.same("the restore", run_inside(self, machines.UNSHARE), DONE)
            return
        found = all_recipes()
        machines.loopback()
        machines.furnish()
        os.chdir(machines.HOME)
        *before, recipe = with_those_before(found["Restore"], found)
        at = next(number for number, block in enumerate(recipe.blocks) if any("for date in" in it.text for it in block))
        status, printed = ran(script_of([*before, recipe._replace(blocks=recipe.blocks[:at])]))
        self.same("the dumps are made", status, DONE, printed[-600:])
        restore = "\n".join(it.text for it in recipe.blocks[at])
        reels = {it.name: it.read_bytes() for it in SHELF.iterdir()}
        for name, level in (("r1", 0), ("r2", 1)):
            for title, damages in (("no mark", no_mark), ("no block", no_block), ("no label", no_label)):
                there = reels | {name: damages(reels[name])}
                (SHELF / name).write_bytes(there[name])
                _, printed = ran(restore)
                unpacked = sorted(it.name for it in Path("back").rglob("*") if it.is_file())
                self.same(f"{title} of level {level}: what is unpacked", unpacked, ["gone", "old"] if level else [], printed)
                self.holds(f"{title} of level {level}: the reels", there == {it.name: it.read_bytes() for it in SHELF.iterdir()}, printed)
                (SHELF / name).write_bytes(reels[name])
                shutil.rmtree("back")
