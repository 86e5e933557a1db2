"""Runs the recipes of docs/TUTORIAL.md and docs/OPERATING.md as they are written there, and compares what they print with what is written
there. It runs those of tests/checks/more_recipes.md too, which are for tests alone.

A section of a document with commands is a recipe. In docs/OPERATING.md the headings of the second and the third level begin sections, in the
others those of the second. A block `sh` is commands of which each has to succeed; in a block `console` a line after `$ ` is a command, and the
lines below it are all that it prints. The line `After *TITLE*` names the recipe that is done before, and `Needs` names programs. A recipe whose
programs are not on this machine is named as skipped. The test of a recipe has its title, with `_` for each space: `python3 -m tests recipes -k
A_server_that_is_killed` runs one recipe.

A section of README.md is a recipe too. A user who is not root runs *A server that is killed*, in a home of their own, with a pause of a second
after each block, as a person takes it; and pastes it whole into a shell, 20 times in a row.

Each recipe has a machine of its own: its /usr/local is what `make install` leaves, other folders that it may change are empty or copies, a
copy of the repository's etc/ lies where it runs, the loopback is its own, and its processes end with it. That takes root, unshare(1) and
make(1). Where they are not to be had, all recipes are named as skipped.

On the machine of a recipe that needs apt(8), nothing is installed. The packages that packaging/deb.py makes of the programs lie in out/deb, as
`make deb` leaves them, and /usr and /var are overlays. Where they are not to be had, the recipe is named as skipped.

Each message of docs/MESSAGES.md and of tests/lib/self_evident.txt that `rdump` prints, or `rmtd` at its start, is in a block `console` of one
of these with its status, or below with the reason why it is not.
"""

from __future__ import annotations

import re
import shutil
import subprocess
import tempfile
import unittest
from pathlib import Path
from typing import Iterator, NamedTuple

from tests.lib.at_once import AtOnce, SlowCase, each
from tests.lib.case import Case
from tests.lib.machines import UNSHARE, has_machines, is_there, make
from tests.lib.messages import page_tables, self_evident
from tests.lib.places import words_of_module
from tests.lib.recipe_machine import PASTED
from tests.lib.recipes import SIGN, USED, Command, Recipe, all_recipes, with_those_before

# A recipe that takes longer is killed, so that the checks end.
RECIPE_SECONDS = 900
# The same of a recipe that is pasted many times.
PASTED_SECONDS = 2400
# So many recipes run at once.
AT_ONCE = 4

RECIPES = all_recipes()

# What ends the messages about a reel that is protected, and what begins those about a reel that is no volume.
AWAY = "take it away (rdump mt --to ADDRESS --device DEVICE offline 1) or lay another reel first, then answer yes"
FOREIGN = "rdump: ADDRESS: the first reel of DEVICE is not a volume of rdump:"
# The messages that no recipe shows, each with the reason.
UNSHOWN = {
    "rdump: ADDRESS: given up: without --checkpoint the dump is abandoned": "tests/checks/unattended.py shows it",
    "rdump: FILE and FILE have lines of one dump, NAME level N date N since N: leave out one of them": "tests/checks/cat_catalog.py shows it",
    "rdump: FILE.payload: it could not be removed: REASON": "it takes a folder that its user may no longer write during the dump",
    "rdump: FILE: it could not be replaced": "the system's error stands in its place",
    (
        "rdump: FILE: it is gone, and the dump of FILE cannot go on without it: remove FILE, and run the same command with its pipe again"
    ): "tests/checks/spooled.py shows it",
    (
        "rdump: FILE: it is there without a checkpoint: if a run of this command left it, remove it, and run the command with its pipe again"
    ): "tests/checks/spooled.py shows it",
    "rdump: FOLDER: its names .rdump-spool.0 to .rdump-spool.999 are taken: remove these files": "it takes a thousand files of these names",
    "rdump: going on with FILE: standard input is not read": "tests/checks/spooled.py shows it",
    "rdump: standard input: REASON": "it takes a stream whose read fails",
    "rdump: standard input: it gave no byte: a dump of nothing needs --allow-empty": "tests/checks/spooled.py shows it",
    "error: invalid value for '--idle <SECONDS>': a number is 0 to 9223372036854775807 in digits": "tests/checks/doors.py shows it",
    "rdump: --partial: no block is missing": "tests/checks/cat_partial.py shows it",
    "rdump: blocks N to N are missing: zero bytes are in their place": "tests/checks/cat_partial.py shows it",
    "rmtd: unix:FILE: another process has the lock of its folder": "tests/checks/doors.py shows it",
    "rmtd: unix:FILE: path must be shorter than SUN_LEN": "tests/checks/doors.py shows it",
    (
        "error: invalid value for '--to <ADDRESS>': an address is a host and a port, as in localhost:4711 or [::1]:4711, or unix: and an absolute"
        " path, as in unix:/run/rmtd/socket"
    ): "tests/checks/doors.py shows it",
    "error: invalid value for '--to <ADDRESS>': the path of a Unix socket has at most 107 bytes": "tests/checks/doors.py shows it",
    "rdump: ADDRESS: connection timed out": "tests/checks/timeouts.py shows it: it takes a system that answers no connection",
    "rmtd: FOLDER: an earlier drive has this folder too": "tests/checks/clients.py shows it",
    "rmtd: FOLDER: the bin is on another file system": "tests/checks/clients.py shows it",
    "rmtd: FOLDER: the bin is on another mount": "tests/checks/clients.py shows it",
    "rmtd: FOLDER: the bin is this folder too": "tests/checks/clients.py shows it",
    "rmtd: it did not start: out of memory": "tests/checks/refused.py shows it: an allocation fails there only by chance",
    "(yes, or anything else to abandon)": "tests/checks/told.py shows it: it takes a terminal",
    "since the epoch: every block counts as new": "tests/checks/told.py shows it: it takes a terminal",
    "volume N, block N of N, .. MiB/s": "a test of parts_tests shows it: it takes a terminal",
    "volume N, block N, .. MiB/s": "tests/checks/restore.py shows it: it takes a terminal",
    "block N, .. MiB/s": "tests/checks/restore.py shows it: it takes a terminal",
    "reel N, N MiB, .. MiB/s": "tests/checks/ls.py shows it: it takes a terminal",
    "error: BadBlockSize: --block N: a block is 1 to 262144 bytes": "a test of dump_tests has this fault",
    "error: BadDate: --date N: a date is 0 to 253402300799": "a test of dump_tests has this fault",
    "error: BadDevice: --device <DEVICE>: a device is 1 to 255 bytes of one line": "a test of dump_tests has this fault",
    "error: BadName: --fs <NAME>: a name is 1 to 255 bytes of printable ASCII without a space": "tests/checks/new_files.py shows it",
    "error: TooManyBlocks: --block N: a dump has at most 2147483647 blocks": "a test of dump_tests has this fault",
    "N block of N bytes": "tests/checks/restore.py shows it",
    "N blocks of N to N bytes, N bytes in all": "tests/checks/restore.py shows it",
    "no sum of volume N": "tests/checks/catalog.py shows it",
    f"rdump: ADDRESS: protected: the first reel of DEVICE begins with a mark; {AWAY}": "tests/checks/protect.py shows it",
    f"rdump: ADDRESS: protected: the first reel of DEVICE begins with a record that is no label; {AWAY}": "tests/checks/protect.py shows it",
    f"{FOREIGN} it begins with a mark": "tests/checks/restore.py shows it: it takes a reel that no dump makes",
    f"{FOREIGN} it begins with a record that is no label": "tests/checks/told.py shows it: it takes a reel that no dump makes",
    f"{FOREIGN} it is empty, or begins with a mark": "tests/checks/restore.py shows it: it takes a server that answers in another way",
    f"{FOREIGN} it is empty, status 3": "tests/checks/fetch.py shows it",
    "rdump: ADDRESS: volume N of NAME level N is in the bin: ..": "tests/checks/fetch.py shows it: it takes a server that refuses the close",
    "rdump: ADDRESS: volume N of NAME level N may be in the bin: ..": (
        "tests/checks/fetch.py shows it: it takes a server that ends the connection"
    ),
    "rdump: ADDRESS: volume N of NAME level N stays: ..": "tests/checks/fetch.py shows it",
    "rdump: ADDRESS: volume N of NAME level N stays: a block of N bytes after one of N": (
        "tests/checks/fetch.py shows it: it takes a reel that no dump makes"
    ),
    "rdump: ADDRESS: volume N of NAME level N stays: cannot be told": (
        "tests/checks/fetch.py shows it: it takes a server that answers in another way"
    ),
    "rdump: ADDRESS: volume N of NAME level N stays: FILE: another file took its place": "it takes an exchange between two calls of the system",
    "rdump: ADDRESS: volume N of NAME level N stays: FILE: it is no plain file": "tests/checks/fetch.py shows it",
    "rdump: ADDRESS: volume N of NAME level N stays: FILE: it is there already, and is not equal to the reel": "tests/checks/fetch.py shows it",
    "rdump: ADDRESS: volume N of NAME level N stays: FILE: its .part: another run writes it": "tests/checks/fetch.py shows it",
    "rdump: ADDRESS: volume N of NAME level N stays: FILE: its .part: it is no plain file": "tests/checks/fetch.py shows it",
    "rdump: ADDRESS: volume N of NAME level N stays: FILE: its .part: REASON": "tests/checks/fetch.py shows it",
    "rdump: ADDRESS: volume N of NAME level N stays: FILE: its folder could not be synced": (
        "tests/checks/fetch.py shows it: it takes a failure of the disk"
    ),
    "rdump: ADDRESS: volume N of NAME level N stays: FILE: its name has N bytes, and 249 are the most": "tests/checks/fetch.py shows it",
    "rdump: ADDRESS: volume N of NAME level N stays: FILE: REASON": "tests/checks/fetch.py shows it: it takes a full disk",
    "rdump: ADDRESS: volume N of NAME level N stays: no mark": "tests/checks/fetch.py shows it",
    "rdump: ADDRESS: volume N of NAME level N stays: of a dump that was begun anew": "tests/checks/fetch.py shows it",
    "rdump: ADDRESS: volume N of NAME level N stays: of a volume that was written again": "tests/checks/fetch.py shows it",
    "rdump: ADDRESS: volume N of NAME level N stays: sum differs": "tests/checks/fetch.py shows it",
    "rdump: FILE.new: it is not one that rdump left: it is not touched": "tests/checks/new_files.py shows it",
    "rdump: FILE: a counted volume has no line in force": "tests/checks/catalog.py shows it",
    "rdump: FILE: another dump of this name, level and dates began: nothing more is entered": "tests/checks/catalog.py shows it",
    "rdump: FILE: another file took its place while it was opened": "it takes an exchange between two calls of the system",
    "rdump: FILE: another run writes it": "tests/checks/restore.py shows it: it takes a server that does not answer",
    "rdump: FILE: it changed while it was dumped: ..": "tests/checks/new_files.py shows it: the payload has to change",
    "rdump: FILE: it changed while it was dumped: it had N bytes, and has N": "tests/checks/new_files.py shows it: the payload has to change",
    "rdump: FILE: it changed while it was dumped: it was written to": "tests/checks/new_files.py shows it: the payload has to change",
    "rdump: FILE: it could not be read": "tests/checks/ls.py shows it: it takes a disk that fails while the file is read",
    "rdump: FILE: it was changed or could not be read again: the payload is not whole": "tests/checks/cat.py shows it: the reel has to change",
    "rdump: FILE and FILE have blocks of different sizes: leave out one of them": "tests/checks/cat.py shows it: it takes two dumps of one second",
    "rdump: standard output could not be written: the payload is not whole": "it takes a failure for which the system has no reason",
    "rdump: out of memory": "an allocation fails there only by chance",
    "rdump: FILE: it could not be read or replaced": "it takes a failure for which the system has no reason",
    "rdump: FILE: it could not be read or replaced: add this line, above those of later volumes:": (
        "it takes a failure for which the system has no reason"
    ),
    "rdump: FOLDER: it is no folder": "tests/checks/fetch.py shows it",
    "rdump: FILE: it could not be removed": "it takes a failure for which the system has no reason",
    "rdump: FILE: it is no dumpdates file, status 3": "tests/checks/updates.py shows it: the file has to change while a dump runs",
    "rdump: FILE: it has more than 256 MiB": "tests/checks/new_files.py shows it",
    "rdump: FILE: it is empty: the dump has no block": "tests/checks/told.py shows it",
    "rdump: FILE: it is no plain file": "tests/checks/new_files.py shows it",
    "rdump: FILE: it is the catalog too: FILE": "tests/checks/new_files.py shows others of this form",
    "rdump: FILE: it is the checkpoint file too: FILE": "tests/checks/new_files.py shows others of this form",
    "rdump: FILE: it is the dumpdates file too: FILE": "tests/checks/new_files.py shows others of this form",
    "rdump: FILE: it is the payload too: FILE": "tests/checks/new_files.py shows it",
    "rdump: FILE: it is younger than the checkpoint: it was written to at DATE, and FILE at DATE": "tests/checks/new_files.py shows it",
    "rdump: FILE: its .new is no plain file": "tests/checks/updates.py shows it",
    "rdump: FILE: its .new is not one that rdump left: it is not touched": (
        "tests/checks/new_files.py shows it: the file has to come while a dump runs"
    ),
    "rdump: FILE: its .new is the .new of the catalog too: FILE": "tests/checks/new_files.py shows others of this form",
    "rdump: FILE: its .new is the .new of the checkpoint file too: FILE": "tests/checks/new_files.py shows others of this form",
    "rdump: FILE: its .new is the .new of the dumpdates file too: FILE": "tests/checks/new_files.py shows others of this form",
    "rdump: FILE: its .new.1 to .new.1000 are taken: remove these files": "tests/checks/new_files.py shows it",
    "rdump: FILE: its .new was locked for ten seconds": "tests/checks/updates.py shows it, and waits for it beside other checks",
    "rdump: FILE: its .new was taken away or written: another run may have replaced it": "tests/checks/new_files.py shows it",
    "rdump: FILE: its block size is N, and that of this dump is N": "tests/checks/checkpoint.py shows it",
    "rdump: FILE: its device is DEVICE, and that of this dump is DEVICE": "tests/checks/checkpoint.py shows it",
    "rdump: FILE: its name is NAME, and that of this dump is NAME": "tests/checks/checkpoint.py shows it",
    "rdump: FILE: its number of blocks is N, and that of this dump is N": "tests/checks/checkpoint.py shows it",
    "rdump: FILE: its folder could not be synced": "tests/checks/restore.py shows it: it takes a sync that fails",
    "rdump: FILE: its length could not be read": "tests/checks/faults.py shows it: it takes a disk that fails between two calls",
    "rdump: FILE: line N has a zone offset after the year, as dump(8) of Linux writes it: rdump keeps a file of its own": (
        "tests/checks/dates.py shows it"
    ),
    "rdump: FILE: N dumps of this name, level and dates began: nothing is entered": "tests/checks/catalog.py shows it",
    "rdump: FILE: line N: bad date": "tests/checks/ls.py shows it",
    "rdump: FILE: line N: bad line": "tests/checks/ls.py shows it",
    "rdump: FILE: out of memory: add this line, above those of later volumes:": "it takes an allocation that fails while a volume is counted",
    "rdump: FILE: the entry of NAME level N that this dump is to replace has a later date, DATE": "tests/checks/new_files.py shows it",
    "rdump: FILE: whether it changed while it was dumped cannot be told: REASON": "tests/checks/faults.py shows it: it takes a call that fails",
    "rdump: FOLDER: a name in it is not UTF-8": "tests/checks/ls.py shows it",
    "rdump: no reel was found": "tests/checks/ls.py shows it",
    (
        "rdump: there are more volumes than the N of the dump in the catalog: rdump ls with the same files prints what each of them has"
    ): "tests/checks/cat_catalog.py shows it: somebody has to change the catalog",
    "rdump: volume N has no sum": "no test knows how to bring it about: a sum is known of each volume that was counted",
    "rdump: the clock: it tells no date": "tests/checks/faults.py shows it: all processes of a machine have one clock",
    "this reel has: NAME level N DATE, volume N": "tests/checks/again.py shows it",
    "volume N failed: OutOfMemory": "tests/checks/refused.py shows it: an allocation fails in a dump, and not before it, only by chance",
}


# A recipe on a machine of its own.


class Ran(NamedTuple):
    """The status of a recipe, None where it did not end, and all that it printed, each part by the line of its command."""

    status: int | None
    printed: dict[int, str]


def ran(guard: int, *words: str) -> Ran:
    """Runs recipes on a machine of their own, by the words of the module that does."""
    with tempfile.TemporaryFile() as output:
        inside = (*UNSHARE, *words_of_module("tests.lib.recipe_machine"), *words)
        try:
            status = subprocess.run(inside, stdin=subprocess.DEVNULL, stdout=output, stderr=subprocess.STDOUT, timeout=guard, check=False).returncode
        except subprocess.TimeoutExpired:
            status = None
        output.seek(0)
        head, *parts = output.read().decode(errors="replace").split(SIGN)
    return Ran(status, {0: head} | {int(number): text for number, _, text in (it.partition("\n") for it in parts)})


def missing_for(recipe: Recipe) -> str:
    """What a recipe, or one before it, needs that is not on this machine, nothing if all is."""
    missing = [it for one in with_those_before(recipe, RECIPES) for it in one.needs if not is_there(it)]
    return ", ".join(missing) or ("" if has_machines() else "root, unshare and make")


class RecipeCase(SlowCase[Ran]):
    """Tests that run a recipe beside others."""

    def recipe(self) -> Recipe:
        """The recipe of this test."""
        raise NotImplementedError

    def words(self) -> tuple[str, ...]:
        """What the module is told that runs it."""
        raise NotImplementedError

    guard = RECIPE_SECONDS

    def work(self) -> Ran:
        return Ran(None, {}) if self.missing() else ran(self.guard, *self.words())

    def missing(self) -> str:
        return missing_for(self.recipe())

    def setUp(self) -> None:
        if self.missing():
            self.skipTest(f"{self.missing()} cannot be used on this machine")


def method_name(title: str) -> str:
    """The name of the test of a recipe."""
    return re.sub(r"\W+", "_", f"test {title}").rstrip("_")


class Recipes(RecipeCase):
    """Each recipe prints what the document says. It has a test, of its title."""

    recipes = {method_name(it.title): it for it in RECIPES.values()}

    def recipe(self) -> Recipe:
        return self.recipes[self._testMethodName]

    def words(self) -> tuple[str, ...]:
        return tuple(it.title for it in with_those_before(self.recipe(), RECIPES))

    def compare(self) -> None:
        """Compares what the recipe printed with what stands in the document."""
        recipe, got = self.recipe(), self.came()
        last, said = [*got.printed.items()][-1]
        self.same(f"{recipe.title}: it comes to its end", got.status, 0, f"line {last}", said)
        for it in recipe.commands():
            if it.wanted is not None:
                name = f"{recipe.title}, line {it.line}: {it.text.splitlines()[0]}"
                self.same(name, got.printed.get(it.line), it.wanted)


for name in Recipes.recipes:
    setattr(Recipes, name, Recipes.compare)


class Pasted(RecipeCase):
    """The recipe of the README does the same each time where it is pasted whole, and leaves nothing."""

    guard = PASTED_SECONDS

    def recipe(self) -> Recipe:
        return RECIPES[USED]

    def shell(self) -> str:
        return self._testMethodName.rpartition("_")[2]

    def words(self) -> tuple[str, ...]:
        return "--paste", self.shell(), USED

    def missing(self) -> str:
        return super().missing() or ("" if is_there(self.shell()) else self.shell())

    def test_into_sh(self) -> None:
        self.compare()

    def test_into_bash(self) -> None:
        self.compare()

    def compare(self) -> None:
        self.same(f"{USED}, pasted {PASTED} times into {self.shell()}", self.came(), Ran(0, {0: f"{PASTED}"}))


class Uninstall(Case):
    """`make uninstall` takes away what `make install` put there, and nothing else."""

    def test_make_uninstall(self) -> None:
        if not shutil.which("make"):
            self.skipTest("make cannot be used on this machine")
        folder = self.enterContext(tempfile.TemporaryDirectory())
        make("install", folder)
        of_another = Path(folder, "usr/local/sbin/other")
        of_another.touch()
        make("uninstall", folder)
        left = [it for it in Path(folder).rglob("*") if not it.is_dir()]
        self.same("make uninstall removes what make install put there, and nothing else", left, [of_another])


# The messages.


# The sections of messages that are compared.
SECTIONS = ("rmtd at its start", "rdump")
# The exit statuses of the messages of the page that a program ends with.
STATUSES = {
    "catalog not complete": ("3",),
    "checkpoint is of another dump": ("1",),
    "checkpoint not written": ("3",),
    "dumpdates not updated": ("3",),
    "line N: bad line": ("1",),
    "rdump: ADDRESS: .. refused with E6: ..": ("3", "1"),
    "rdump: ADDRESS: the connection ended": ("3", "1"),
    "rdump: ADDRESS: timed out": ("3", "1"),
    "rdump: FILE and FILE have the same volume, with different bytes: leave out one of them": ("3",),
    "rdump: FILE: it could not be removed: REASON": ("3",),
    "rdump: FILE: it does not begin at block N, where the volume before it ends": ("3",),
    "rdump: FILE: it was changed or could not be read again: the payload is not whole": ("3",),
    "rdump: FILE: the dump is not finished": ("3",),
    "rdump: standard output could not be written": ("1", "3"),
    "rdump: without a catalog: two payloads of one name, level and dates look alike": ("0",),
    "rmtd: unix:FILE: Address already in use": ("1",),
    "rmtd: unix:FILE: another process has the lock of its folder": ("1",),
}
# What varies in a message, and what is printed in its place.
VARIES = {
    "..": ".*",
    "ADDRESS": r"(?:unix:/\S+|[\w.-]+:\d+)",
    "DATE": ".+",
    "DEVICE": r"/\S+",
    "FILE": r"\S+",
    "FOLDER": r"(?:/\S+|FOLDER)",
    "N": r"\d+",
    "NAME": r"\S+",
    "REASON": r".+ \(os error \d+\)",
}


class Row(NamedTuple):
    """A message: its program, its text, the pattern of its lines, and its statuses, None for any."""

    program: str
    message: str
    pattern: re.Pattern[str]
    statuses: tuple[str | None, ...]


def pattern_of(message: str) -> re.Pattern[str]:
    """The lines that are a message, perhaps after another program's words, or with the number of an error behind."""
    words = "|".join(rf"\b{it}\b" if it.isalpha() else re.escape(it) for it in VARIES)
    parts = [VARIES.get(it, re.escape(it)) for it in re.split(f"({words})", message)]
    return re.compile(f"(?:^|: ){''.join(parts)}(?: \\(os error \\d+\\))?$", re.M)


def rows() -> Iterator[Row]:
    """The messages of these sections, of the page and of the list."""
    for it in (it for table in (*page_tables(), *self_evident()) for it in table):
        if it.section in SECTIONS:
            yield Row(it.program, it.text, pattern_of(it.text), it.statuses or STATUSES.get(it.text) or (None,))


def is_of(command: Command, program: str) -> bool:
    """Whether a command runs a program by its name, or by the name of a script of the document."""
    return re.search(rf"\b({program}|{'tapes' if program == 'rmtd' else 'try|cat told|cat why'})\b", command.text) is not None


def has_status(command: Command, status: str | None) -> bool:
    """Whether a command prints its status, and it is this one. None is any."""
    return status is None or ("echo $?" in command.text and status in (command.wanted or "").splitlines())


def printed_with(commands: list[Command], program: str, status: str | None) -> Iterator[str]:
    """What the commands of a program print that end with a status."""
    return (it.wanted or "" for it in commands if is_of(it, program) and has_status(it, status))


class Messages(Case):
    """Each message is shown with its status, or is one of those that are not shown."""

    def test_messages_are_shown(self) -> None:
        commands = [it for recipe in RECIPES.values() for it in recipe.commands()]
        self.same("there are messages of both programs", {it.program for it in rows()}, {"rmtd", "rdump"})
        for it in rows():
            for status in it.statuses:
                shown = any(it.pattern.search(text) for text in printed_with(commands, it.program, status))
                is_named = bool({it.message, f"{it.message}, status {status}"} & set(UNSHOWN))
                name = f"{it.program} prints `{it.message}`, status {status or 'any'}"
                self.same(f"{name}: a recipe shows it, or it is named as not shown", shown, not is_named)

    def test_what_is_not_shown_is_a_message(self) -> None:
        messages = {it.message for it in rows()}
        for it in (*UNSHOWN, *STATUSES):
            self.holds("what is not shown, or has a status, is a message", it.partition(", status ")[0] in messages, it)


def load_tests(loader: unittest.TestLoader, tests: unittest.TestSuite, pattern: str | None) -> unittest.TestSuite:
    """The tests, of which the recipes run at once."""
    return AtOnce(AT_ONCE, each(tests))
