"""Tests the gate with a made repository and a made kit, whose `rt` and `rattle` count their calls. Like one of the real kits, it keeps nothing."""

from __future__ import annotations

import os
import subprocess
import tempfile
from contextlib import redirect_stdout
from io import StringIO
from pathlib import Path
from unittest.mock import patch

from tests.lib.places import TOP
from tests.tools import build, gate
from tests.tools.machine import Watch
from tests.tools.test_further import Made, write_files

RT = """#!/bin/sh
echo "rt $1" >> "$CALLS"
case $1 in
version) echo "rattle-kit-0a logic 0123456789abcdef" ;;
doc) echo "$KIT/START-HERE.md" ;;
ci)
    for it in other words; do
        mkdir -p crates/$it/out/rlib/$it.rlib
        cat crates/$it/src/lib.rt > crates/$it/out/rlib/$it.rlib/format
        echo "rt: $it proved"
    done
    eval "$MEANWHILE"
    echo "2 passed, 0 failed"
    ;;
esac
"""
# It refuses the edit of the made repository, and nothing else.
RATTLE = """#!/bin/sh
echo "rattle $*" >> "$CALLS"
grep -q 'self.came - 1' src/lib.rt || { echo "only=1 proved=1"; exit 0; }
echo "fn words::Words::count: not proved"
echo "only=1 proved=0"
exit 1
"""


class Gate(Made):
    """Runs of the gate."""

    def setUp(self) -> None:
        super().setUp()
        self.calls, kit = self.folder / "calls", self.folder / "kit"
        write_files(kit, {"path/rt": RT, "bin/rattle": RATTLE})
        for name in ("path/rt", "bin/rattle"):
            (kit / name).chmod(0o755)
        path = f"{kit / 'path'}:{os.environ['PATH']}"
        self.enterContext(patch.dict(os.environ, {"PATH": path, "CALLS": str(self.calls), "KIT": str(kit), "MEANWHILE": ""}))
        self.enterContext(patch.object(gate, "TOP", self.top))
        self.enterContext(patch.object(gate, "check_outside", lambda *_: []))
        build.kit.cache_clear()
        self.addCleanup(build.kit.cache_clear)

    def run_gate(self, with_edits: bool = True) -> tuple[list[str], str]:
        """What failed in a run of the gate, and what it printed."""
        with redirect_stdout(StringIO()) as said:
            failed = gate.run_all(Path(self.enterContext(tempfile.TemporaryDirectory(dir=self.folder))), with_edits)
        return failed, said.getvalue()

    def called(self, name: str) -> list[str]:
        return [it for it in self.calls.read_text().splitlines() if it.startswith(name)]

    def test_edits(self) -> None:
        failed, said = self.run_gate()
        self.same("it passes", failed, [], said)
        self.holds("the edit is refused", "further edits: 1 refused, 0 not" in said, said)
        self.same("`rt ci` is called once", self.called("rt ci"), ["rt ci"])
        found = self.called("rattle ")
        self.same("one check tries the edit, over the library below it", ["--extern other=" in it for it in found], [True], found)

    def test_no_edits(self) -> None:
        failed, said = self.run_gate(with_edits=False)
        self.same("no edit is tried", (failed, self.called("rattle "), "further" in said), ([], [], False), said)

    def test_sources_that_change_meanwhile(self) -> None:
        with patch.dict(os.environ, {"MEANWHILE": "echo '//! More.' > crates/other/src/lib.rt"}):
            self.run_gate()
        crates = build.below(build.listed(), ["words"])
        sums = build.sums_of(crates)
        self.same("no library counts as built", [it for it in crates if build.is_noted(crates, it, sums)], [])

    def test_a_run_that_fails(self) -> None:
        with patch.dict(os.environ, {"MEANWHILE": "echo 'rt: words NOT PROVED'; echo '1 passed, 1 failed'; exit 1"}):
            failed, said = self.run_gate()
        wanted = ["rt: words NOT PROVED", "1 passed, 1 failed", "rt ci ended with status 1"]
        self.same("it tells what failed, and no edit is tried", (failed, self.called("rattle ")), (wanted, []), said)

    def test_an_edit_that_is_not_refused(self) -> None:
        (self.top / "crates/words/further/counts_one_less.edit").write_text("file: src/lib.rt\nold:         self.came\nnew:         self.came + 1\n")
        failed, said = self.run_gate()
        self.same("it is named", failed, ["words/counts_one_less: NOT REFUSED"], said)

    def test_a_library_that_is_put_back(self) -> None:
        """`rt ci` ends with an earlier library, without a note, in the place of the one that it proved."""
        library = "crates/other/out/rlib"
        with patch.dict(os.environ, {"MEANWHILE": f"sleep 1; rm -r {library}; mkdir -p {library}/other.rlib; touch {library}/other.rlib/format"}):
            failed, said = self.run_gate()
        self.same("the edit is tried over the one that was proved", (failed, len(self.called("rattle "))), ([], 1), said)

    def test_what_is_proved(self) -> None:
        for line, names in (
            ("rt: words proved", ["words"]),
            ("rt: words is kept: an earlier run on this machine proved the same files over the same libraries", ["words"]),
            ("rt: above: another run is proving the same; waiting for itrt: words is kept: an earlier run", ["words"]),
            ("rt: words: trying its must-fail edits (2)", []),
            ("rt: words NOT PROVED", []),
        ):
            self.same(line, gate.PROVED.findall(line), names)

    def test_another_logic(self) -> None:
        """`make kit` with the made kit."""
        ran = subprocess.run(("make", "-s", "kit"), cwd=TOP, capture_output=True, text=True, check=False)
        self.holds("it is refused", ran.returncode, ran)
        line = ran.stderr.splitlines()[0]
        wanted = next(it.split()[-1] for it in (TOP / "Makefile").read_text().splitlines() if it.startswith("LOGIC :="))
        self.holds("one line names both", wanted in line and "0123456789abcdef" in line, ran.stderr)

    def test_minutes(self) -> None:
        """What is told of a run at its end."""
        watch = Watch()
        watch.start()
        watch.seconds["words", "proof"] = 90.0
        lines = watch.end().splitlines()
        self.same("the minutes of a crate", lines[1].split(), ["words", "1.5", "0.0", "0.0"])
        self.holds("one line for the whole", lines[2].startswith("at most 0 provers at once on "), lines)
