"""Lawful histories of a session with one drive: what may be answered, and what may stand then, whatever device failed and whatever memory was
refused. The states that are possible are carried from request to request, so no output has to be foretold.

Without a fault the plain model of `rmtd.py` says what is answered and done. With one the answer is E5 or E12, and docs/PROTOCOL.md says what
may stand then: all else unchanged, but that an open has closed, and a move to the bin has rewound; and of a write the entries before its place,
followed by what stood, nothing, or what was being written.
"""

from __future__ import annotations

import re
from functools import cache
from typing import Iterable, Iterator, NamedTuple

from tests.lib.given import given
from tests.models.rmtd import Entry, Files, Request, Session, entries_of, error, images, requests_of

DEVICE = b"/dev/st0"
MTWEOF, MTREW, MTOFFL, MTNOP = 0, 5, 6, 7
DEVICE_FAULT, NO_MEMORY = error(5), b"E12\nCannot allocate memory\n"

Entries = tuple[Entry, ...]
Reels = tuple[tuple[str, Entries], ...]


class State(NamedTuple):
    """The reels of the stack and of the bin; whether the drive is open; the place on the open reel, none where that was taken away."""

    stack: Reels
    bin: Reels = ()
    is_open: bool = False
    place: int | None = None

    def first(self) -> Entries:
        """The entries of the first reel, which is the open one."""
        return min(self.stack)[1]

    def with_first(self, entries: Entries, place: int) -> State:
        """With these entries in the open reel, at this place."""
        return self._replace(stack=tuple(sorted(((min(self.stack)[0], entries), *sorted(self.stack)[1:]))), place=place)

    def closed(self) -> State:
        return self._replace(is_open=False, place=None)

    def held(self) -> tuple[dict[str, Entries], dict[str, Entries]]:
        """What the folders hold."""
        return dict(self.stack), dict(self.bin)


def empty(*names: str) -> State:
    """The drive with these empty reels."""
    return State(tuple((name, ()) for name in sorted(names)))


def reels_of(files: dict[str, bytes]) -> Reels:
    return tuple(sorted((name, tuple(entries_of(data))) for name, data in files.items()))


@cache
def well(state: State, request: Request) -> tuple[bytes, State]:
    """The answer where nothing fails, and the state then."""
    drives = Files({name: images([*entries]) for name, entries in state.stack}, device=DEVICE)
    drives.bin = {name: images([*entries]) for name, entries in state.bin}
    session = Session(drives)
    if state.is_open:
        session.device, session.access = DEVICE, 2
        session.holders.take(DEVICE)
    if state.place is not None:
        session.reel = given(drives.latch(DEVICE))
        session.reel.place = state.place
    answer = session.reply(request)
    stack, bin = drives.held()
    place = session.reel.place if session.reel else None
    return answer, State(reels_of(stack), reels_of(bin), session.device is not None, place)


def written(request: Request) -> Entries:
    """What a write is to write."""
    return (request.data,) if request.letter == b"W" else (None,) * request.numbers[1]


def is_write(request: Request) -> bool:
    return request.letter == b"W" or (request.letter == b"I" and request.numbers[0] == MTWEOF)


def is_move(request: Request) -> bool:
    return request.letter == b"I" and request.numbers[0] == MTOFFL


def after_a_device_fault(state: State, request: Request) -> Iterator[State]:
    """The states that may be where the device failed in this request."""
    if request.letter == b"O":
        yield state.closed()
    elif state.place is None or request.letter == b"C" or (request.letter == b"I" and request.numbers[0] in (MTREW, MTNOP)):
        return
    elif is_move(request):
        yield state._replace(place=0)
    elif is_write(request):
        before, stood, new = state.first()[: state.place], state.first()[state.place :], written(request)
        for left in {stood, *(new[:count] for count in range(len(new) + 1))}:
            yield state.with_first(before + left, state.place)
    else:
        yield state


def after_no_memory(state: State, request: Request, grows: bool) -> Iterator[State]:
    """The states that may be where memory was refused in this request, over reels that take memory to write, or none."""
    if request.letter == b"O":
        yield state.closed()
    elif state.place is not None and is_move(request):
        yield state._replace(place=0)
    elif state.place is not None and is_write(request) and grows:
        yield state


def split(requests: Iterable[Request], output: bytes) -> tuple[list[bytes], bytes]:
    """The whole answers, one for each request, and what comes after them. The data of a read are told by their number."""
    answers, rest = [], output
    for request in requests:
        lines = re.match(rb"E[^\n]*\n[^\n]*\n|A[^\n]*\n", rest)
        if not lines:
            break
        end = lines.end() + (int(rest[1 : lines.end()]) if request.letter == b"R" and rest[:1] == b"A" else 0)
        if end > len(rest):
            break
        answers.append(rest[:end])
        rest = rest[end:]
    return answers, rest


class History(NamedTuple):
    """What is sent to a session, how all is at first, which of the two faults may come, and whether a write to these reels takes memory."""

    sent: bytes
    first: State
    fault: bytes
    grows: bool = False

    def requests(self) -> list[Request]:
        return [*requests_of(self.sent)]

    def successors(self, state: State, request: Request, answer: bytes) -> set[State]:
        """The states that may be after a request that was answered so."""
        wanted, then = well(state, request)
        found = {then} if answer == wanted else set()
        if answer == self.fault == DEVICE_FAULT:
            found.update(after_a_device_fault(state, request))
        if answer == self.fault == NO_MEMORY:
            found.update(after_no_memory(state, request, self.grows))
        return found

    def states(self, output: bytes) -> set[State]:
        """How all may be after this was answered: none where no session may answer so. The request after the last whole answer, if any, may have been
        carried out, and it was where a part of its answer came."""
        requests = self.requests()
        answers, part = split(requests, output)
        states = {self.first}
        for request, answer in zip(requests, answers):
            states = {then for state in states for then in self.successors(state, request, answer)}
        if len(answers) == len(requests):
            return set() if part else states
        request = requests[len(answers)]
        return (set() if part else states) | {then for state in states for then in self.unanswered(state, request, part)}

    def unanswered(self, state: State, request: Request, part: bytes) -> set[State]:
        """The states that may be after a request of whose answer this beginning came."""
        answers = [it for it in (well(state, request)[0], self.fault) if it.startswith(part)]
        return {then for answer in answers for then in self.successors(state, request, answer)}

    def wanted(self) -> bytes:
        """What is answered where nothing fails."""
        state, output = self.first, b""
        for request in self.requests():
            answer, state = well(state, request)
            output += answer
        return output

    def answered_all(self, output: bytes) -> bool:
        answers, part = split(self.requests(), output)
        return len(answers) == len(self.requests()) and not part
