"""Runs recipes on the machine that this process has for itself, and prints what they print.

    python3 -m tests.lib.recipe_machine [--paste SHELL] TITLE..

With --paste one recipe is pasted into a shell many times: it prints how often it printed what it should. The exit status is that of the shell.
"""

from __future__ import annotations

import argparse
import os
import pwd
import subprocess
import sys
import tempfile
from pathlib import Path
from typing import Iterable, NamedTuple

from tests.lib.machines import ENVIRONMENT, furnish, loopback, open_for_ssh
from tests.lib.recipes import USED, Recipe, all_recipes, script_of

USER = "ann"
USER_ENVIRONMENT = {"PATH": "/usr/local/bin:/usr/bin:/bin", "HOME": f"/home/{USER}", "USER": USER, "LANG": "C.UTF-8"}
# As a person takes it.
PAUSE = "sleep 1\n"
PASTED = 20


class Who(NamedTuple):
    """Who runs the recipes, in which environment, and how long after each block the next one begins."""

    environment: dict[str, str] = ENVIRONMENT
    pause: str = ""
    user: str | None = None
    group: int | None = None
    groups: Iterable[int] | None = None


def added_user() -> Who:
    """Adds the user who runs the README's commands, with a home."""
    subprocess.run(("useradd", "--create-home", "--shell", "/bin/sh", USER), check=True, stdout=subprocess.DEVNULL)
    return Who(USER_ENVIRONMENT, PAUSE, USER, pwd.getpwnam(USER).pw_gid, ())


def who_runs(titles: list[str]) -> Who:
    """Who runs these recipes."""
    return added_user() if titles == [USED] else Who()


def paste(recipe: Recipe, shell: str, who: Who) -> int:
    """Gives a shell all commands of a recipe at once, as often as they are pasted, and prints how often it printed what it should."""
    text = "".join(f"{it.text}\n" for it in recipe.commands())
    wanted = "".join(it.wanted or "" for it in recipe.commands())
    with tempfile.TemporaryFile() as told:
        ran = subprocess.run(
            (shell,),
            input=text * PASTED,
            stdout=subprocess.PIPE,
            stderr=told,
            env=who.environment,
            user=who.user,
            group=who.group,
            extra_groups=who.groups,
            text=True,
            check=False,
        )
    print(ran.stdout.count(wanted) if ran.stdout == wanted * PASTED else ran.stdout, end="")
    left = [*Path("/tmp").iterdir(), *(it for it in Path(who.environment["HOME"]).iterdir() if not it.name.startswith("."))]
    return ran.returncode or len(left)


def run(recipes: list[Recipe], who: Who) -> int:
    """Runs recipes one after the other."""
    script = Path("/mnt/script")
    script.write_text(script_of(recipes, who.pause))
    script.chmod(0o644)
    return subprocess.run(
        ("/bin/sh", str(script)),
        stdin=subprocess.DEVNULL,
        stderr=subprocess.STDOUT,
        env=who.environment,
        user=who.user,
        group=who.group,
        extra_groups=who.groups,
        check=False,
    ).returncode


def main() -> int:
    parser = argparse.ArgumentParser(prog="python3 -m tests.lib.recipe_machine", description="Runs recipes on the machine that it is started on.")
    parser.add_argument("--paste", metavar="SHELL")
    parser.add_argument("titles", nargs="+", metavar="TITLE")
    words = parser.parse_args()
    found = all_recipes()
    recipes = [found[it] for it in words.titles]
    loopback()
    furnish(any("apt" in it.needs for it in recipes))
    if any("sshd" in it.needs for it in recipes):
        open_for_ssh()
    who = who_runs(words.titles)
    os.chdir(who.environment["HOME"])
    return paste(recipes[0], words.paste, who) if words.paste else run(recipes, who)


if __name__ == "__main__":
    sys.exit(main())
