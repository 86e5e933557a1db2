"""Checks that the built `rdump ls --to` and `rdump fetch` decide alike whether a mark ends the records of a reel.

The tape server is the plain model of tests/lib/played_servers.py. It answers the request that spaces back over a record, or another one of the
search, with an error that says nothing of the reel, or with bytes that are no reply.
"""

from __future__ import annotations

from tests.lib.ended import ABNORMAL, DONE, FAILED, Ended
from tests.lib.fetches import CANNOT, NO_MARK, FetchCase, fetched, stays
from tests.lib.listings import dump_words
from tests.lib.played_servers import Model
from tests.lib.restores import BACK, NO_REPLY, OVER, USR, fetch_words, loaded, reel
from tests.lib.wire import CLOSE, DEVICE, REWIND

# The requests of a session that reads the first volume, up to the close: the open, the rewind, the label, two blocks and a read of nothing. Then
# comes the search: back over a record, the rewind, over all records, over the mark.
AT_BACK, AT_REWIND, AT_RECORDS, AT_MARK = 7, 8, 9, 10
SEARCH = {AT_BACK: BACK, AT_REWIND: REWIND, AT_RECORDS: b"I3\n3\n", AT_MARK: OVER}
EIO = 5
# Errors that no reel gives to a space, with their texts.
ERRORS = {1: b"Operation not permitted", 6: b"Device not configured", 12: b"Cannot allocate memory", 22: b"Invalid argument"}
NAMES = {AT_BACK: "spacing", AT_REWIND: "the rewind", AT_RECORDS: "spacing", AT_MARK: "spacing"}


class Marks(FetchCase):
    """What both say of a reel with a volume, where a server refuses a request of the search for the mark."""

    def ended(self, model: Model, is_list: bool) -> Ended[str]:
        """What `ls` or `fetch` prints of the reel of this server."""
        return self.p.run(*(("ls", "--to", model.address, "--device", DEVICE) if is_list else fetch_words(model.address)))

    def both_ways(self, number: int, reply: bytes, without_mark: bool = False) -> tuple[list[str], list[int], list[list[bytes]]]:
        """What `ls` and `fetch` print, their statuses, and the requests that they make from the search on."""
        lines: list[str] = []
        statuses: list[int] = []
        logs: list[list[bytes]] = []
        for is_list in (True, False):
            with loaded(1, replies={number: reply}) as model:
                if without_mark:
                    model.stack[0].entries.pop()
                got = self.ended(model, is_list)
                lines.append(got.output + got.told.replace(model.address, "ADDRESS"))
                statuses.append(got.status)
                logs.append(model.logs[0][AT_BACK - 1 :])
        return lines, statuses, logs

    def test_another_error_than_EIO(self) -> None:
        """A space back over a record that is refused with another error than EIO says nothing of the reel: both say so, and close the drive."""
        label = f"{DEVICE}: {dump_words(*USR[:4])} volume 1 first 0, 2 blocks of 1024 bytes"
        for number, text in ERRORS.items():
            for without_mark in (False, True):
                reply = b"E%d\n%s\n" % (number, text)
                title = f"back over a record is answered E{number}, {'no mark' if without_mark else 'a mark'}"
                lines, statuses, logs = self.both_ways(AT_BACK, reply, without_mark)
                wanted = [f"{label}: cannot be told: spacing was answered with E{number}\n", stays("ADDRESS", reel(1), CANNOT)]
                self.same(f"{title}: what is printed", lines, wanted)
                self.same(f"{title}: the statuses", statuses, [ABNORMAL, ABNORMAL])
                self.same(f"{title}: the close is next", logs, [[BACK, CLOSE]] * 2)

    def test_refused_later(self) -> None:
        """A request of the search after that is refused: both say that it cannot be told, and close the drive."""
        for number in (AT_REWIND, AT_RECORDS, AT_MARK):
            for error in (EIO, *ERRORS):
                title = f"request {number} is answered E{error}"
                lines, statuses, logs = self.both_ways(number, b"E%d\nno\n" % error)
                self.holds(f"{title}: told", f": cannot be told: {NAMES[number]} was answered with E{error}\n" in lines[0], lines)
                self.same(f"{title}: told by fetch", lines[1], stays("ADDRESS", reel(1), CANNOT))
                self.same(f"{title}: the statuses", statuses, [ABNORMAL, ABNORMAL])
                self.same(f"{title}: the close is next", logs, [[*(SEARCH[it] for it in range(AT_BACK, number + 1)), CLOSE]] * 2)

    def test_spaced_back(self) -> None:
        """The space back over a record is done, whatever number is answered: both say that there is no mark, and close the drive."""
        for reply in (b"A0\n", b"A1\n", b"A7\n"):
            lines, statuses, logs = self.both_ways(AT_BACK, reply)
            self.same(f"{reply!r}: told by ls", lines[0].endswith(": no mark: 2 whole blocks\n"), True, lines)
            self.same(f"{reply!r}: told by fetch", lines[1], stays("ADDRESS", reel(1), NO_MARK))
            self.same(f"{reply!r}: the statuses", statuses, [ABNORMAL, ABNORMAL])
            self.same(f"{reply!r}: the close is next", logs, [[BACK, CLOSE]] * 2)

    def test_whole(self) -> None:
        """Where each request is answered as a reel with a mark makes it, both find the mark."""
        with loaded(1) as model:
            got = self.ended(model, True)
            self.same("ls", (got.status, got.told, got.output.endswith(": whole\n")), (DONE, "", True), got.output)
            self.told("fetch", self.ended(model, False), fetched(reel(1)), DONE, "")

    def test_no_reply(self) -> None:
        """After bytes that are no reply nothing more is sent, whichever request they answer."""
        for number in (2, 3, 4, 6, *SEARCH):
            for is_list in (True, False):
                with loaded(1, replies={number: b"X"}) as model:
                    got = self.ended(model, is_list)
                    title = f"request {number} gets no reply, {'ls' if is_list else 'fetch'}"
                    self.same(f"{title}: requests", len(model.logs[0]), number, model.logs[0])
                    self.holds(f"{title}: told", got.told.endswith(f": {NO_REPLY}\n"), got)
                    self.same(f"{title}: the status", got.status, FAILED if is_list else ABNORMAL)
