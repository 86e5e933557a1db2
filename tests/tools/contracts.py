"""The contracts of the crates, as tests/tools/promises.py reads them.

A call is named `CALL` if it stands alone, `TYPE::CALL` if it is a type's own, and `TYPE as TRAIT` if it is a trait's. An edit names what it breaks by
lines `# breaks: CALL`, `# breaks: CALL: clause, clause` or `# breaks: CRATE/CALL: clause`. With no clause it breaks the call's contract as a whole. A
number may follow: it said which text of a comment the edit breaks, and nothing reads it.
"""

from __future__ import annotations

import re
from functools import lru_cache
from pathlib import Path
from typing import Iterator, NamedTuple

from tests.lib.given import given

TOP = Path(__file__).resolve().parents[2]
# What ends a contract: a doc comment, a body or its end, an attribute, another function, or an empty line.
END = re.compile(r"\s*(///|\{$|\}|#\[)|.*\bfn \w|\s*$|\s*\).*\{$")
CLAUSE = re.compile(r"\s*ensures\*?\s+(\w+)?\s*\{")
FUNCTION = re.compile(r"(?: {4})?(pub(?:\([^)]*\))? )?(?:const |unsafe )*fn (\w+)")
# A contract, with the head of its function, has fewer characters.
MOST_OF_A_CONTRACT = 20_000


class Call(NamedTuple):
    """A call or a law of a crate, or the block of a trait or of a type that has it: how it is named, where it begins, and its text up to its body.
    One acts if it has a body, and returns something or changes what it is given: a law does neither."""

    heading: str
    method: str
    place: str
    text: str
    clauses: frozenset[str]
    public: bool
    has_contract: bool
    acts: bool

    @property
    def file(self) -> str:
        return self.place.rpartition(":")[0]

    @property
    def crate(self) -> str:
        return self.place.partition("/")[0]


class Breaks(NamedTuple):
    """What a line `# breaks:` names: a call of a crate, and names of its clauses."""

    crate: str
    heading: str
    names: tuple[str, ...]


@lru_cache
def libraries() -> list[str]:
    names = [line.split(":")[0].split()[0] for line in (TOP / "crates.txt").read_text().splitlines() if line.strip()]
    return [it for it in names if not it.endswith("_tests") and (TOP / "crates" / it / "src" / "lib.rt").exists()]


def exported(crate: str) -> set[str]:
    """The public names of a crate: those that lib.rt passes on, and the functions of its public modules."""
    folder = TOP / "crates" / crate / "src"
    text = (folder / "lib.rt").read_text()
    modules = [folder / f"{it}.rt" for it in re.findall(r"^pub mod (\w+)", text, re.M)]
    named = {name for used in re.findall(r"pub use ([^;]+);", text) for name in re.findall(r"\w+", used)}
    return named | {it for file in modules if file.exists() for it in re.findall(r"^pub fn (\w+)", file.read_text(), re.M)}


def without_generics(text: str) -> str:
    """What follows the parameters `<..>` at the front of a text."""
    depth = 0
    for i, it in enumerate(text):
        depth += (it == "<") - (it == ">" and text[i - 1] not in "-=")
        if depth == 0:
            return text[i + 1 :].strip() if text.startswith("<") else text.strip()
    return text


def owner_of(line: str) -> tuple[str, bool] | None:
    """The type or trait whose calls follow a line, and whether they are as public as that; None if the line begins none."""
    if found := re.match(r"(?:pub )?trait (\w+)", line):
        return found[1], True
    if re.match(r"impl\b", line):
        rest = without_generics(line[4:].strip())
        held = re.match(r"(\w+).*? for &?(?:'\w+ )?(\w+)", rest)
        return (f"{held[2]} as {held[1]}", True) if held else (given(re.match(r"\w+", rest))[0], False)
    return ("", False) if re.match(r"(?:pub(?:\([^)]*\))? )?(?:const |unsafe )*fn ", line) else None


def front(lines: list[str], i: int) -> int:
    """The line at which the comment and the attributes above a line begin."""
    while i > 0 and re.match(r"\s*(?:///|--|#\[)", lines[i - 1]):
        i -= 1
    return i


def end_of_contract(lines: list[str], i: int) -> int:
    """The line behind the contract of the function whose declaration begins at a line."""
    if re.search(r"[{;]$", lines[i]):
        return i + 1
    return next((at for at in range(i + 1, len(lines)) if not lines[at].lstrip().startswith("// ") and END.match(lines[at])), len(lines))


def end_of_block(lines: list[str], i: int) -> int:
    """The line behind the head of the block that begins at a line, and behind the comment at its top."""
    while "{" not in lines[i]:
        i += 1
    while lines[i + 1].startswith("    // ") or lines[i + 1] == "    //":
        i += 1
    return i + 1


def can_act(text: str) -> bool:
    """Whether the function whose declaration this text begins with has a body, and returns something or changes what it is given."""
    text = re.sub(r"(?m)^\s*//.*\n", "", text[:MOST_OF_A_CONTRACT])
    text = re.sub(r"\[[^][]*\]", "", text)
    head = re.split(r"\b(?:ensures|requires)\b|[{;]", text, maxsplit=1)[0]
    return bool(re.search(r"->|&(?:'\w+ )?mut ", head)) and has_body(text)


def has_body(text: str) -> bool:
    """Whether a body follows the clauses of the declaration that this text begins with, and not a semicolon."""
    depth, within_clause = 0, False
    for word in re.findall(r"\bensures\b|\brequires\b|[{}();]", text):
        if depth == 0 and word in "{;" and not within_clause:
            return bool(word == "{")
        depth += (word in "({") - (word in ")}")
        within_clause = word in ("ensures", "requires") or (within_clause and not (word == "}" and depth == 0))
    return False


@lru_cache
def calls_of(crate: str) -> list[Call]:
    return [it for file in sorted((TOP / "crates" / crate / "src").glob("**/*.rt")) for it in read_calls(file, exported(crate))]


def read_calls(file: Path, shown: set[str]) -> Iterator[Call]:
    owner, of_trait = "", False
    lines = file.read_text().split("\n")
    for i, line in enumerate(lines):
        place = f"{file.relative_to(TOP / 'crates')}:{i + 1}"
        # The head of an impl may go on in the next line.
        if begun := owner_of(line + lines[i + 1].lstrip() if re.match(r"impl<.*>$", line) else line):
            owner, of_trait = begun
            if of_trait:
                yield Call(owner, "", place, "\n".join(lines[front(lines, i) : end_of_block(lines, i)]), frozenset(), False, False, False)
        if found := re.match(r"    ghost (\w+):?", line):
            yield Call(owner, found[1], place, line, frozenset([found[1]]), False, False, False)
        if not (found := FUNCTION.match(line)):
            continue
        end = end_of_contract(lines, i)
        clauses = [it[1] or "" for at in range(i + 1, end) if (it := CLAUSE.match(lines[at]))]
        head = owner if " as " in owner else f"{owner}::{found[2]}" if owner else found[2]
        public = (of_trait or found[1] == "pub ") and (owner.split(" ")[0] or found[2]) in shown
        text = "\n".join(lines[front(lines, i) : end])
        yield Call(head, found[2], place, text, frozenset(clauses) - {""}, public, bool(clauses), can_act("\n".join(lines[i:])))


@lru_cache
def facts(crate: str) -> set[str]:
    """The words of the definitions of a crate, whose fields an edit of a trait's call may name."""
    texts = [it.read_text() for it in (TOP / "crates" / crate / "specs").glob("**/*.antt")]
    return {word for text in texts for word in re.findall(r"[A-Za-z_]\w*", text)}


@lru_cache
def of_trait(trait: str) -> set[str]:
    """The clauses and the calls of a trait, and of each type that has it."""
    every = [it for crate in libraries() for it in calls_of(crate)]
    return {one for it in every if it.heading.split("::")[0].split(" as ")[-1] == trait for one in it.clauses | {it.method}}


def definitions(name: str) -> Iterator[tuple[str, str]]:
    """Each definition of this name in the specs of the crates: where it begins, and its text with the comment above it."""
    begins = re.compile(rf"(?:(?:unfoldable|abbrev|pub|record|data) )*{re.escape(name)} ")
    for file in (it for crate in libraries() for it in sorted((TOP / "crates" / crate / "specs").glob("**/*.antt"))):
        lines = file.read_text().split("\n")
        if at := next((at for at, line in enumerate(lines) if begins.match(line)), 0):
            end = next((it for it in range(at, len(lines)) if not lines[it].strip()), len(lines))
            yield f"{file.relative_to(TOP / 'crates')}:{at + 1}", "\n".join(lines[front(lines, at) : end])


def breaks_of(crate: str, edit: str) -> list[Breaks]:
    """What the text of an edit of a crate says that it breaks."""
    return [breaks(crate, rest) for rest in re.findall(r"^# breaks: (.+)$", edit, re.M)]


def breaks(crate: str, said: str) -> Breaks:
    """What is said after `# breaks: ` in an edit of a crate."""
    call, _, clauses = said.partition(": ")
    other, slash, heading = call.rpartition("/")
    names = re.sub(r"(?:^| )\d+$", "", clauses).split(", ")
    return Breaks(other if slash else crate, heading, tuple(it for it in names if it))
