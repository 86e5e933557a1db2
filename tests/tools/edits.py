"""Edits: what they change, in which functions, and what a log of the prover says of these."""

from __future__ import annotations

import re
from pathlib import Path
from typing import Collection, NamedTuple

# Where the edits of a crate stand: those that `rt ci` tries one by one, and those that further.py tries.
FOLDERS = ("must-fail", "further")
# What a log says of a function.
PROVED, REFUSED, WAITS = "proved", "refused", "waits"


class Pair(NamedTuple):
    """What an edit takes away from a file, and what it puts there."""

    file: str
    old: str
    new: str


def pairs(text: str) -> list[Pair]:
    """The pairs of an edit or a control, in order. A line `more:` is one more line of the text of the pair before it."""
    found, file, old = [], "", ""
    for line in text.splitlines():
        word, _, rest = line.partition(": " if ": " in line else ":")
        if word == "file":
            file = rest.strip()
        elif word == "old":
            old = rest
        elif word == "new":
            found.append(Pair(file, old, rest))
        elif word == "more":
            found[-1] = found[-1]._replace(new=f"{found[-1].new}\n{rest}")
    return found


def is_beside(control: list[Pair], edit: list[Pair]) -> bool:
    """Whether a control stands where its edit stands, and says something else. Where the edit brings definitions and lemmas of its own, the control
    brings the same: only the answers of a function may differ as its body does."""
    is_other = [it.file.startswith("src/") or it.file.endswith("/Answers.antt") or it in edit for it in control]
    return [it[:2] for it in control] == [it[:2] for it in edit] and control != edit and all(is_other)


def applied(folder: Path, changes: list[Pair], texts: dict[str, str] | None = None) -> dict[str, str]:
    """The files of a crate that changes leave otherwise, each change made to what those before it left; on top of these texts, if any. ValueError
    says why one can't be made."""
    found = dict(texts or {})
    for it in changes:
        path = folder / it.file
        text = found.get(it.file) or (path.read_text(encoding="utf-8") if path.is_file() else "")
        if text.count(it.old) != 1:
            raise ValueError(f"`{it.old}` is in {it.file} {text.count(it.old)} times")
        found[it.file] = text.replace(it.old, it.new)
    return found


def verdicts(log: str) -> dict[str, str]:
    """The functions that a log names, and whether each is proved, is refused, or waits for others: it calls some that are refused, or passes them
    on."""
    found: dict[str, str] = {}
    for name, verdict, calls in re.findall(r"^fn (\S+): (proved|no holes|not proved|no proof)\b([:;] it (?:calls|passes) )?", log, re.M):
        said = PROVED if verdict in ("proved", "no holes") else WAITS if calls else REFUSED
        found[name] = said if found.get(name, PROVED) == PROVED else found[name]
    return found


def module_of(crate: str, file: str) -> str:
    """The module that a file of src/ is, as a log writes it."""
    parts = Path(file).with_suffix("").parts[1:]
    return "::".join((crate, *(it for it in parts if it not in ("lib", "main", "mod"))))


def function_around(text: str, start: int, end: int, has_head: bool = False) -> re.Match[str] | None:
    """The name of the function in whose body a piece of a file lies, where it stands, or in whose head; None where it lies in none."""
    heads = [*re.finditer(r"\bfn (\w+)", text[:end])]
    if not heads:
        return None
    between = text[heads[-1].end() : start]
    is_inside = heads[-1].start() >= start or between.count("{") > between.count("}")
    is_in_head = has_head and not re.search(r"^\s*(?:\{|\})$|\{$|;$", between, re.M)
    return heads[-1] if is_inside or is_in_head else None


def functions_naming(text: str, constant: str) -> list[re.Match[str]]:
    """The functions of a file in whose bodies a constant is named."""
    named = [function_around(text, it.start(), it.end()) for it in re.finditer(rf"\b{constant}\b", text)]
    return [*{it.start(): it for it in named if it}.values()]


def changed_at(text: str, change: Pair) -> list[re.Match[str] | None]:
    """The names, where they stand in a file, of the functions whose bodies a change changes; None for what is none of one. Outside functions, a
    comment or a `use` line changes none, nor does a `pub(crate)` that is added, and a constant that no other file sees changes those that name it.
    What is added to the head of a function is another body.
    """
    start = text.index(change.old)
    found = function_around(text, start, start + len(change.old), change.new.startswith(change.old))
    if not found and (re.fullmatch(r"\s*//.*|use .*", change.old) or change.new.replace("pub(crate) ", "") == change.old):
        return []
    constant = None if found else re.match(r"(?:static|const) (\w+):", change.old)
    if not constant:
        return [found]
    return [*functions_naming(text, constant[1])] or [None]


def is_of(name: str, function: str) -> bool:
    """Whether a log's name is that of a function, or of a closure in it: that one has the function's name after the part `fn`."""
    parts = name.split("::")
    return parts[-1] == function or f"fn::{function}::" in name


def names_of(found: Collection[str], module: str, function: str) -> set[str]:
    """Those of a log's names that are a function's, or of closures in it. A method is named by its type, which may lie in another module than it:
    where the module has none of that name, all of the crate count."""
    here = {it for it in found if is_of(it, function)}
    return {it for it in here if it.startswith(f"{module}::")} or here


def places_of(crate: str, folder: Path, changes: list[Pair]) -> list[tuple[str, str]]:
    """The module and the function of each change, and of each function that it adds, in the text that the changes before it left. A pair that puts
    back the same text changes nothing."""
    found: list[tuple[str, str]] = []
    texts: dict[str, str] = {}
    for it in changes:
        text = texts.get(it.file) or (folder / it.file).read_text(encoding="utf-8")
        changed = [at[1] if at else "" for at in changed_at(text, it)]
        named = [*changed, *re.findall(r"\bfn (\w+)", it.new)] if it.old != it.new else []
        found += [(module_of(crate, it.file), name) for name in dict.fromkeys(named)]
        texts[it.file] = text.replace(it.old, it.new)
    return found
