"""A command of `rdump` of each kind at one address, and how each ends where no server is reached."""

from __future__ import annotations

from tests.lib.dumping import LOST, PAYLOAD, DumpCase, Programs
from tests.lib.ended import ABNORMAL, FAILED, Ended
from tests.lib.processes import tried
from tests.lib.wire import DEVICE


def commands(p: Programs, address: str, *more: str) -> dict[str, list[str]]:
    """A command of `rdump` of each kind at this address."""
    drive = ("--to", address, "--device", DEVICE, *more)
    return {
        "dump": [p.rdump, *p.dump_words(address, *more)],
        "read": [p.rdump, "read", *drive, "--out", "read"],
        "fetch": [p.rdump, "fetch", *drive, "--into", "."],
        "mt": [p.rdump, "mt", *drive, "nop", "1"],
        "ls": [p.rdump, "ls", *drive],
    }


def unreached(why: str, address: str) -> dict[str, Ended[str]]:
    """How each command ends where there is no connection, for this reason."""
    reason = f"rdump: {address}: {why}\n"
    statuses = {"dump": ABNORMAL, "read": ABNORMAL, "fetch": ABNORMAL, "mt": ABNORMAL, "ls": FAILED}
    return {name: Ended(LOST if name == "dump" else "", reason, status) for name, status in statuses.items()}


class EachCommandCase(DumpCase):
    """Tests that run a command of each kind."""

    def all_end(self, title: str, address: str, why: str, *more: str) -> None:
        """Each command ends without a connection, for this reason."""
        self.p.file("payload", PAYLOAD)
        for name, words in commands(self.p, address, *more).items():
            self.same(f"{title}: {name}", tried(words, cwd=self.p.folder), unreached(why, address)[name])
