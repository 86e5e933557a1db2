"""The recipes of the documents: sections that have commands, with what the commands print."""

from __future__ import annotations

import re
from typing import Iterator, NamedTuple

from tests.lib.places import TOP

# What begins a heading of a section: in OPERATING.md those of its parts, and those below them.
HEADING = "## "
README, TUTORIAL, OPERATING = TOP / "README.md", TOP / "docs/TUTORIAL.md", TOP / "docs/OPERATING.md"
MORE = TOP / "tests/checks/more_recipes.md"
DOCUMENTS = {README: HEADING, TUTORIAL: HEADING, OPERATING: "## |### ", MORE: HEADING}

# The recipe of the README, which a user runs who is not root.
USED = "A server that is killed"

# What makes a dump.
DUMPS = re.compile(r"\b(?:rdump dump|night \d)")
# What no command prints stands before each command, with the number of its line.
SIGN = "\1"

# Recipes that stand in no document: what is installed, and what OPERATING.md says of tar 1.34.
UNWRITTEN = """\
## What is installed

All files under /usr/local are these and the documents, each folder can be entered, and the programs run for a user who is not root.

```console
$ find /usr/local ! -type d ! -path '*/share/doc/*' -printf '%m %u %g %P\\n' | sort -k 4
755 root root bin/rsim
755 root root sbin/rdump
755 root root sbin/rmtd
644 root root share/man/man1/rsim.1
644 root root share/man/man5/rdump.5
644 root root share/man/man8/new-reels.8
644 root root share/man/man8/night.8
644 root root share/man/man8/rdump.8
644 root root share/man/man8/rmtd.8
644 root root share/man/man8/take-dumpdates.8
644 root root share/man/man8/tapes.8
644 root root share/man/man8/to-shelf.8
$ find /usr/local/share/doc -name MESSAGES.md -printf '%m %u %g %P\\n'
644 root root rdump/MESSAGES.md
$ find /usr/local -type d ! -perm 755
$ runuser -u nobody -- /usr/local/sbin/rmtd --help > help; echo $?; grep Usage help
0
Usage: rmtd [OPTIONS] [DEVICE=DIR]...
$ runuser -u nobody -- /usr/local/sbin/rdump --help > help; echo $?; grep Usage help
0
Usage: rdump <COMMAND>
$ runuser -u nobody -- /usr/local/bin/rsim --help > help; echo $?; grep Usage help
0
Usage: rsim <FILE>
```

## The manual pages that are installed

Needs `man`.

```console
$ man -w rmtd rdump rsim night to-shelf 5 rdump
/usr/local/share/man/man8/rmtd.8
/usr/local/share/man/man8/rdump.8
/usr/local/share/man/man1/rsim.1
/usr/local/share/man/man8/night.8
/usr/local/share/man/man8/to-shelf.8
/usr/local/share/man/man5/rdump.5
$ find /usr/local/share/man -type f -exec man --warnings -l {} + 2>&1 > /dev/null
```

## tar 1.34 of a user who is not root

Needs `tar`.

```console
$ runuser -u nobody -- tar --rsh-command=/bin/true -tf localhost:/dev/st0 > told 2>&1; test $? = 2 && grep -c initgroups told > calls
$ tar --version | head -n 1 | grep -qv ' 1.34$' || echo 1 | cmp - calls
```
"""


class Command(NamedTuple):
    """Commands, the line of the document where they begin, and what they print; None where they have to succeed and may print anything."""

    line: int
    text: str
    wanted: str | None


class Recipe(NamedTuple):
    """A section: the recipe before it, the programs that it needs, and the commands of each block."""

    title: str
    after: str | None
    needs: tuple[str, ...]
    blocks: tuple[tuple[Command, ...], ...]

    def commands(self) -> Iterator[Command]:
        """The commands of all blocks."""
        return (it for block in self.blocks for it in block)


def sections(text: str, heading: str = HEADING) -> Iterator[tuple[str, int, list[str]]]:
    """The title of each section, the number of the line below it, and its lines. `heading` is a pattern of what begins a heading."""
    lines = text.splitlines()
    starts = [number for number, line in enumerate(lines) if re.match(heading, line)]
    for start, end in zip(starts, [*starts[1:], len(lines)]):
        yield lines[start].lstrip("# "), start + 2, lines[start + 1 : end]


def blocks(lines: list[str], first: int) -> Iterator[tuple[str, int, list[str]]]:
    """The kind of each block, the number of its first line, and its lines."""
    start, kind = None, ""
    for number, line in enumerate(lines):
        if not line.startswith("```"):
            continue
        if start is None:
            start, kind = number + 1, line[3:]
        else:
            yield kind, first + start, lines[start:number]
            start = None


def console(first: int, lines: list[str]) -> Iterator[Command]:
    """The commands of a console, each with what it prints. A command goes on after a line that ends with a backslash."""
    command: list[str] = []
    printed: list[str] = []
    at = first
    for number, line in enumerate(lines, first):
        if line.startswith("$ "):
            if command:
                yield Command(at, "\n".join(command), "".join(f"{it}\n" for it in printed))
            command, printed, at = [line[2:]], [], number
        elif command[-1].endswith("\\") and not printed:
            command.append(line)
        else:
            printed.append(line)
    yield Command(at, "\n".join(command), "".join(f"{it}\n" for it in printed))


def recipe_of(title: str, first: int, lines: list[str]) -> Recipe:
    """The recipe of a section."""
    text = "\n".join(lines)
    after = re.search(r"^After \*([^*]+)\*", text, re.M)
    needs = re.search(r"^(?:After \*[^*]+\*\. )?Needs ([^.]+)\.", text, re.M)
    found: list[tuple[Command, ...]] = []
    for kind, at, block in blocks(lines, first):
        if kind == "sh":
            found.append((Command(at, "\n".join(block), None),))
        elif kind == "output":
            # What the commands of the block before print.
            found[-1] = (found[-1][0]._replace(wanted="".join(f"{it}\n" for it in block)),)
        elif kind == "console":
            found.append(tuple(console(at, block)))
    return Recipe(title, after[1] if after else None, tuple(re.findall("`([^`]+)`", needs[1])) if needs else (), tuple(found))


def recipes_of(text: str, heading: str = HEADING) -> list[Recipe]:
    """The sections that have commands."""
    found = [recipe_of(*it) for it in sections(text, heading)]
    return [it for it in found if it.blocks]


def all_recipes() -> dict[str, Recipe]:
    """The recipes of the documents, and those that are in none, by their titles."""
    found = [*recipes_of(UNWRITTEN), *(it for document, heading in DOCUMENTS.items() for it in recipes_of(document.read_text(), heading))]
    by_title = {it.title: it for it in found}
    assert len(by_title) == len(found), "two recipes have the same title"
    return by_title


def with_those_before(recipe: Recipe, recipes: dict[str, Recipe]) -> list[Recipe]:
    """The recipe after those that come before it."""
    before = with_those_before(recipes[recipe.after], recipes) if recipe.after else []
    return [*before, recipe]


def script_of(recipes: list[Recipe], pause: str = "") -> str:
    """What a shell is given: before each command its line is printed, after the sign, and each block ends with the pause. A dump has the date of a
    second, so after a recipe that makes one a second passes."""
    parts: list[str] = []
    for recipe in recipes:
        for block in recipe.blocks:
            for it in block:
                parts.append(f"set {'-e' if it.wanted is None else '+e'}\nprintf '\\{ord(SIGN):03o}%s\\n' {it.line}\n{it.text}\n")
            parts.append(pause)
        if recipe != recipes[-1] and any(DUMPS.search(it.text) for it in recipe.commands()):
            parts.append("sleep 1\n")
    return "".join(parts) + "exit 0\n"
