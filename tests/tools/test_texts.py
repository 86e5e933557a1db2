"""Tests which names and links imports.py and links.py find to lead nowhere, in made repositories."""

from __future__ import annotations

import tempfile
from pathlib import Path
from unittest.mock import patch

from tests.lib.case import Case
from tests.tools import imports, links
from tests.tools.test_further import write_files

LEMMAS = """-- told once: gone_since
use Rattle.low.specs.Held.{Held}

pub whole : (held : Held) → held ≡ held
whole held = refl

abbrev pub ◌≤ₕ◌ : Held → Held → Type 0
a ≤ₕ b = a ≡ b

own_fact : Held
own_fact = Full
"""

FILES = {
    "crates.txt": "# Two.\nlow: itoa\nhigh may_wait=1: low\n",
    "crates/low/src/lib.rt": "pub fn serve() {}\n",
    "crates/low_tests/src/tests/reader.rt": "#[test]\nfn reads_a_line() {}\n\npub(crate) fn serve_pairs() {}\n",
    "crates/high_tests/src/tests/whole.rt": "#[test]\nfn ample_memory() {}\n",
    "tests/checks/moves.py": "class Moves(Case):\n    def test_lock_fails(self) -> None: ...\n",
    "A.md": "# One\n## One\n[a](#one-1) [b](https://no.example) `[c](D.md)`\n```\n[e](F.md)\n```\n[g](H.md) [i](A.md#two)\n",
}
ROWS = """| Call | A wrong body | {heading} |
|---|---|---|
| `open` | `opens` nothing | {cell} |
"""


class Imports(Case):
    """A crate whose proof takes names from another."""

    def test_names(self) -> None:
        crates = Path(self.enterContext(tempfile.TemporaryDirectory()))
        self.enterContext(patch.object(imports, "CRATES", crates))
        write_files(crates, {"low/proofs/Lemmas.antt": LEMMAS, "low/specs/Held.antt": "data pub Held : Type 0\n| Full\n"})
        for line, *said in (
            ("low.proofs.Lemmas.{whole, ◌≤ₕ◌ as ◌≤◌}",),
            ("low.specs.Held.Held.{Full}",),
            ("low.proofs.Lemmas as lemmas",),
            ("low.proofs.f.Met.{met}",),
            ("low.specs.declared.fault.Fault.TheVariants.{Empty}",),
            ("high.proofs.Other.{nothing}",),
            ("std.proofs.Common.{refl}",),
            ("low.proofs.Lemmas.{whole, halves}", "low/proofs/Lemmas.antt gives no halves"),
            ("low.proofs.Lemmas.{gone_since}", "low/proofs/Lemmas.antt gives no gone_since"),
            ("low.proofs.Lemmas.{own_fact}", "low/proofs/Lemmas.antt gives no own_fact"),
            ("low.specs.Held.Held.{Empty}", "low/specs/Held.antt gives no Empty"),
            ("low.proofs.Entries.{entry}", "low has no file of proofs for Entries"),
        ):
            write_files(crates, {"high/proofs/Own.antt": f"use Rattle.{line}\n"})
            self.same(line, [*imports.missing_in(crates / "high/proofs/Own.antt")], said)


class Links(Case):
    """A repository of two crates of tests, a file of checks and a document."""

    def setUp(self) -> None:
        self.folder = Path(self.enterContext(tempfile.TemporaryDirectory()))
        self.enterContext(patch.object(links, "TOP", self.folder))
        write_files(self.folder, FILES)
        links.names_of.cache_clear()
        links.all_names.cache_clear()

    def test_cells(self) -> None:
        """What the last cell of a row names."""
        for cell, *fault in (
            ("`reads_a_line`, `serve_pairs` and the tests of `low_tests`",),
            ("`ample_memory` in `high_tests`",),
            ("`tests/checks/moves.py` (`Moves`, `test_lock_fails`)",),
            ("`tests/checks/moves.py` (expects `E12`); `--bin` alone",),
            ("no test: `close` ignores the error",),
            ("`reads_a_word`", "there is no test reads_a_word"),
            ("`ample_memory` in `low_tests`", "low_tests has no ample_memory"),
            ("`tests/checks/moves.py` (`test_lock`)", "tests/checks/moves.py has no test_lock"),
            ("`tests/checks/lists.py`", "there is no tests/checks/lists.py"),
        ):
            self.same(cell, [*links.faults("PROMISES.md", ROWS.format(heading="Rejected by", cell=cell))], fault)

    def test_documents(self) -> None:
        half, tests = ROWS.format(heading="Rejected by", cell="`half`"), ROWS.format(heading="Tests", cell="`half`")
        other_column = ROWS.format(heading="Tests", cell="no test").replace("`open`", "`Session::open`")
        for name, document, text, *fault in (
            ("a call in another column", "PROMISES.md", other_column),
            ("an item", "PROMISES.md", "- Reels.\n  - Tests: `reads_a_line`;\n    `whole`\n- `nothing` else\n"),
            ("an item of a test that is gone", "PROMISES.md", "- Reels.\n  - Tests: `whole`;\n    `halves`\n", "there is no test halves"),
            ("a table of tests", "PROMISES.md", tests, "there is no test half"),
            ("the tables", "ONLY_TESTED_TABLES.md", half, "there is no test half"),
            ("another document", "README.md", half),
            ("any crate", "README.md", "`crates/CRATE/further/NAME.edit` and `tests/checks/`"),
            ("a path in any document", "README.md", "see `bench/none.py`", "there is no bench/none.py"),
        ):
            self.same(name, [*links.faults(document, text)], fault)
        found = [*links.faults_of_crates("| Crate | Has |\n|---|---|\n| `low`, `middle` | `high` |\n")]
        self.same("a crate without a row and one that is gone", found, ["no row has the crate high", "there is no crate middle"])
        wanted = ["there is no file H.md", "A.md has no heading #two"]
        self.same("links to a file and a heading", [*links.broken(self.folder / "A.md")], wanted)
