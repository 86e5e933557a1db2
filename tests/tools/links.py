"""Looks for what the documents link to or name, and that is not there: files, headings, crates and tests.

    python3 -m tests.tools.links

ONLY_TESTED_TABLES names for each wrong body the tests that reject it, and PROMISES names for each question the tests of what is only tested. If a
test gets another name, or is split in two, its old name is left there. Only the name is looked for, in the place where the document says that it is:
no tool knows what a test shows. Paths are looked for in all documents at the top and in docs/, and links in those of tests/ too. Links to other
places are left alone. The tables of ARCHITECTURE name each crate. It fails if a name, a path or a link leads nowhere, or a crate has no row.
"""

from __future__ import annotations

import re
import sys
from collections import Counter
from functools import lru_cache
from pathlib import Path
from typing import Iterator

TOP = Path(__file__).resolve().parents[2]
CODE = re.compile(r"^```.*?^```", re.M | re.S)
LINK = re.compile(r"\]\(([^)\s]+)\)")
# The words in backquotes, and what may follow one: names in parentheses after a file's path, or `in` and the crates of a test. Of a part that says
# that there is no test, what follows is no name. `CRATE` and `NAME` in a path are for any.
WORD = re.compile(r"`([^`]+)`")
PATH = re.compile(r"`((?:bench|crates|docs|etc|man|packaging|tests)/[\w./-]*\w/?)`(?: \(([^()]*)\))?")
PLACED = re.compile(r"`(\w+)` in ((?:`\w+_tests`(?:, | and )?)+)")
# The documents that name tests: in the last cell of a row below the heading `Rejected by` or `Tests`, and in a list after `Tests:`.
NAMING_TESTS = ("ONLY_TESTED_TABLES.md", "PROMISES.md")
TABLE = re.compile(r"^\|(?:[^\n]*\|)? (?:Rejected by|Tests) \|\n\|[-| ]+\|\n((?:\|.*\n)+)", re.M)
# The first cell of a row of crates.
CRATES = re.compile(r"^\| ((?:`\w+`(?:, )?)+) \|", re.M)
LIST = re.compile(r"\bTests: (.*?)(?=\n\s*(?:- |\||\n)|\Z)", re.S)


@lru_cache(maxsize=None)
def headings(path: Path) -> frozenset[str]:
    """The names by which a link may have the headings of a document."""
    names: Counter[str] = Counter()
    found = set()
    for title in re.findall(r"^#+ (.*)", CODE.sub("", path.read_text(encoding="utf-8")), re.M):
        name = re.sub(r"[^\w\- ]", "", title.lower()).replace(" ", "-")
        found.add(f"{name}-{names[name]}" if names[name] else name)
        names[name] += 1
    return frozenset(found)


def broken(document: Path) -> Iterator[str]:
    """Each link of a document that leads nowhere. Its blocks of code and its code in lines have none."""
    for link in LINK.findall(WORD.sub("", CODE.sub("", document.read_text(encoding="utf-8")))):
        file, _, heading = link.partition("#")
        target = (document.parent / file).resolve() if file else document
        if "://" not in link and not target.exists():
            yield f"there is no file {file}"
        elif "://" not in link and heading and heading not in headings(target):
            yield f"{target.name} has no heading #{heading}"


@lru_cache(maxsize=None)
def names_of(place: str) -> frozenset[str]:
    """What a crate of tests, or a file of Python, declares: functions, modules and classes."""
    path = TOP / place
    files = sorted((path / "src").rglob("*.rt")) if path.is_dir() else [path]
    text = "\n".join(it.read_text(encoding="utf-8") for it in files)
    return frozenset(re.findall(r"^\s*(?:pub |pub\(crate\) )?(?:fn|mod|def|class) (\w+)", text, re.M)) | {it.stem for it in files}


@lru_cache(maxsize=None)
def all_names() -> frozenset[str]:
    """What may be named without a place: crates, and what the crates of tests declare."""
    crates = [it.relative_to(TOP).as_posix() for it in sorted((TOP / "crates").glob("*_tests"))]
    return frozenset(it.name for it in (TOP / "crates").iterdir()).union(*map(names_of, crates))


def is_name(word: str) -> bool:
    """Whether a word is spelled like a test: small letters. `E12`, `--bin` and types are not."""
    return re.fullmatch(r"[a-z]\w+", word) is not None


def paths_in(text: str) -> Iterator[str]:
    """Each path that is not there, and each name in parentheses after a file of Python that this file does not have."""
    for path, told in PATH.findall(text):
        if not any(it.isupper() for it in path.split("/")) and not (TOP / path).exists():
            yield f"there is no {path}"
        elif path.endswith(".py"):
            named = [it for it in WORD.findall(told) if it.startswith("test_") or re.fullmatch(r"[A-Z][a-z]\w+", it)]
            yield from (f"{path} has no {it}" for it in named if it not in names_of(path))


def tests_in(text: str) -> Iterator[str]:
    """Each name of a test that no crate of tests has, or not the crate where it is said to be."""
    for name, crates in PLACED.findall(text):
        for crate in WORD.findall(crates):
            if (TOP / "crates" / crate).is_dir() and is_name(name) and name not in names_of(f"crates/{crate}"):
                yield f"{crate} has no {name}"
    alone = PLACED.sub("", PATH.sub("", text.partition("no test")[0]))
    yield from (f"there is no test {it}" for it in WORD.findall(alone) if is_name(it) and it not in all_names())


def faults(name: str, text: str) -> Iterator[str]:
    """What a document of this name says is there, and is not."""
    yield from paths_in(text)
    if name in NAMING_TESTS:
        cells = [row.rstrip("|").rpartition(" | ")[2] for rows in TABLE.findall(text) for row in rows.splitlines()]
        for part in (*cells, *LIST.findall(text)):
            yield from tests_in(part)


def faults_of_crates(text: str) -> Iterator[str]:
    """Each crate that no table of this text names, and each that it names and that is not there."""
    listed = re.findall(r"^(\w+)[^:\n]*:", (TOP / "crates.txt").read_text(encoding="utf-8"), re.M)
    named = WORD.findall(" ".join(CRATES.findall(text)))
    yield from (f"no row has the crate {it}" for it in listed if it not in named)
    yield from (f"there is no crate {it}" for it in named if it not in listed)


def main() -> int:
    documents = [*sorted(TOP.glob("*.md")), *sorted((TOP / "docs").glob("*.md"))]
    found = [f"{it.relative_to(TOP)}: {fault}" for it in documents for fault in faults(it.name, it.read_text(encoding="utf-8"))]
    found += [f"docs/ARCHITECTURE.md: {it}" for it in faults_of_crates((TOP / "docs/ARCHITECTURE.md").read_text(encoding="utf-8"))]
    documents += sorted((TOP / "tests").rglob("*.md"))
    found += [f"{it.relative_to(TOP)}: {fault}" for it in documents for fault in broken(it)]
    for line in found:
        print(line)
    print(f"{len(documents)} documents, {len(found)} names and links that lead nowhere")
    return 1 if found else 0


if __name__ == "__main__":
    sys.exit(main())
