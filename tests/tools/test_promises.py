"""Tests what promises.py finds wrong and prints, with a made crate."""

from __future__ import annotations

import re
import shutil
import subprocess
import sys
import tempfile
from pathlib import Path

from tests.lib.case import Case
from tests.lib.given import given
from tests.lib.places import TOP
from tests.tools.test_further import write_files

WORD_FILE, EDIT_FILE, PAGE_FILE = "crates/words/src/word.rt", "crates/words/further/always_long.edit", "docs/PROMISES.md"
CRATE = """//! Words and how long they are (see `Word`).
mod word;

pub use word::{is_long, print, Longer, Word};
"""

WORD = """//! A word.

/// Whether a word is long. It reads all of it.
#[inline]
pub fn is_long(word: &[u8], most: usize) -> bool
    // This comment is about no clause.
    requires { most < 100 }
    // It is true exactly
    // of a word that is longer.
    //
    // In it, `twice`: the same of the same word.
    ensures value { result ≡ (length word.now > most) }
    ensures whole { word.now ≡ word.now }
    ensures most { most ≡ most }
{
    // a comment of the body
    word.len() > most
}

/// Prints a word.
pub fn print() {
    go();
}

/// A word that can be made longer.
pub trait Longer {
    /// Makes a word longer.
    fn longer(&mut self)
        ensures { length self.old < length self.new };
}

impl Longer for Word {
    // longer: It gets one letter more.
    //
    // The letter is any.

    fn longer(&mut self) {
        self.count += 1;
    }
}

fn hidden() -> u32
    ensures { result ≡ 1 }
{
    1
}
"""

SPEC = """-- A word that is long
-- enough.
abbrev pub is_enough : List ℕ → Bool
is_enough word = 3 < length word

abbrev pub other : Bool
"""

# The second of these names no clause, and the last a number that nothing reads.
OF_TRAIT = "# breaks: words/Word as Longer: longer\n# breaks: Longer::longer\n# breaks: Longer::longer: 3"
EDITS = {
    "always_long": ("    word.len() > most", "    true", "# breaks: is_long: value, whole 1"),
    "never_long": ("    word.len() > most", "    false", "# breaks: is_long: value\n# limit: the clause `value`."),
    "one_letter": ("        self.count += 1;", "        self.count += 2;", OF_TRAIT),
}

PAGE = """| Question | Contract |
|---|---|
| How long? | `words/src/word.rt` `is_long`: `value`, `most`; `words/src/word.rt` `hidden` |
| Longer? | `words/src/word.rt` `Word as Longer`: `longer` |
| Can it crash? | each function |

| Another table |
|---|
| `words/src/word.rt` |
"""

OF_IS_LONG = (
    "crates/words/src/word.rt:5\n"
    + given(re.search(r"/// Whether .*?\n(?=\{)", WORD, re.S))[0]
    + """
  refused: words/always_long: value, whole
  refused: words/never_long: value; the search ended at a limit: the clause `value`.
"""
)

OF_IS_ENOUGH = "crates/words/specs/Words.antt:3\n" + SPEC.partition("\n\n")[0] + "\n\n"

NO_OTHER = "    // The types allow no other body, so no\n    // wrong body is tried.\n    ensures most"

FILES = {PAGE_FILE: PAGE, "crates.txt": "words:\n", WORD_FILE: WORD, "crates/words/src/lib.rt": CRATE, "crates/words/specs/Words.antt": SPEC}


class Promises(Case):
    """The promises.py of a made repository of one crate."""

    def setUp(self) -> None:
        self.room = Path(self.enterContext(tempfile.TemporaryDirectory(prefix="promises-")))
        for part in ("lib", "tools"):
            shutil.copytree(TOP / "tests" / part, self.room / "tests" / part, ignore=shutil.ignore_patterns("__pycache__"))
        write_files(self.room, FILES)
        for name, (old, new, said) in EDITS.items():
            edit, changes = f"crates/words/further/{name}", f"file: src/word.rt\nold: {old}\nnew: "
            write_files(self.room, {f"{edit}.edit": f"{changes}{new}\n{said}\n", f"{edit}.control.md": f"{changes}{old} // right\n"})

    def ran(self, *words: str) -> tuple[int, str]:
        """What promises.py ends with, and what it prints."""
        command = (sys.executable, "-m", "tests.tools.promises", *words)
        it = subprocess.run(command, cwd=self.room, stdin=subprocess.DEVNULL, capture_output=True, text=True, check=False)
        return it.returncode, it.stdout + it.stderr

    def with_change(self, file: str, old: str, new: str) -> str:
        """What promises.py says with a text of a file replaced, which is put back."""
        path = self.room / file
        text = path.read_text()
        self.assertIn(old, text)
        path.write_text(text.replace(old, new, 1))
        _, said = self.ran()
        path.write_text(text)
        return said

    def test_right(self) -> None:
        wanted = "promises: 3 contracts and 3 edits fit each other, and docs/PROMISES.md names what is there\n"
        self.same("all fits", self.ran(), (0, wanted))

    def test_of(self) -> None:
        """What `--of` prints."""
        for name, text in (("is_long", OF_IS_LONG), ("words/is_long", OF_IS_LONG), ("is_enough", OF_IS_ENOUGH)):
            self.same(name, self.ran("--of", name), (0, text))
        for name, line, count in (("longer", "  refused: words/one_letter: the contract\n", 2), ("Word as Longer", "The letter is any.\n", 1)):
            status, said = self.ran("--of", name)
            self.same(name, (status, said.count(line)), (0, count), said)
        for name in ("print", "is_longer", "other/is_long"):
            self.same(name, self.ran("--of", name), (1, f"nothing in the crates has a contract and is named {name}\n"))

    def test_faults(self) -> None:
        """Changes after which promises.py has to say what is wrong."""
        said, long, page = "breaks: is_long:", "is_long of words", "docs/PROMISES.md names"
        for name, file, old, new, wanted in (
            ("an edit that says nothing", EDIT_FILE, "# breaks: is_long: value, whole 1\n", "", "words/always_long does not say what it breaks"),
            ("an edit of another call", EDIT_FILE, said, "breaks: is_short:", "words/always_long breaks is_short of words, which has no contract"),
            ("an edit of another crate", EDIT_FILE, said, "breaks: no/is_long:", "words/always_long breaks is_long of no, which has no contract"),
            ("an edit of a call without a contract", EDIT_FILE, said, "breaks: print:", "breaks print of words, which has no contract"),
            ("an edit of no clause", EDIT_FILE, "value, whole 1", "value, half 1", f"breaks half of {long}, which has no such clause"),
            ("a clause that is there no more", WORD_FILE, "ensures whole", "ensures all", f"breaks whole of {long}, which has"),
            ("a line that nothing reads", EDIT_FILE, "breaks:", "break:", "words/always_long has a line that nothing reads: # break: is_long"),
            ("an edit in no place", EDIT_FILE, "word.len() > most", "word.len() < most", "can't be applied"),
            ("a page with another clause", PAGE_FILE, "`most`", "`least`", f"{page} least of {long}, which has no such clause"),
            ("a page with another call", PAGE_FILE, "`hidden`", "`seen`", f"{page} seen, which is not in crates/words/src/word.rt"),
            ("a page with another file", PAGE_FILE, "src/word.rt", "src/lib.rt", f"{page} is_long, which is not in crates/words/src/lib.rt"),
            ("a page with another crate", PAGE_FILE, "words/src", "no/src", f"{page} is_long, which is not in crates/no/src/word.rt"),
            ("a row without a contract", PAGE_FILE, "`Word as Longer`", "`Word`, all", "`FUNCTION`: `CLAUSE` is wanted, and not `words/src/word.rt`"),
        ):
            printed = self.with_change(file, old, new)
            self.holds(name, wanted in printed, wanted, printed)

    def test_a_call_without_an_edit(self) -> None:
        for name in ("always_long", "never_long"):
            (self.room / "crates" / "words" / "further" / f"{name}.edit").unlink()
        _, said = self.ran()
        self.holds("a call without an edit", "is_long of words has no edit" in said, said)
        marked = self.with_change(WORD_FILE, "    ensures most", NO_OTHER)
        self.holds("a call of whose type no other body is", "is_long of words has no edit" not in marked, marked)
