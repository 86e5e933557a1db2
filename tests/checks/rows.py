"""Checks the built server from outside: the conversations of docs/PROTOCOL.md and others written by hand, in several forms, to the byte
and the exit status.

What one session on standard input cannot show is left out here and tested in the crates: that a refused or unfinished
write left the reel as it was, that an ended session gave its drive back, and all that takes several drives or reels.
"""

from __future__ import annotations

import subprocess
from dataclasses import replace
from typing import Callable, Sequence

from tests.lib.case import Case
from tests.lib.conversations import (
    BROKEN,
    CONVERSATIONS,
    FAILED,
    LITTLE_REELS,
    WRITTEN_AND_READ_BACK,
    Conversation,
    Exchange,
    beginnings,
    bytes_of_a_rewind,
    first_byte_after_an_open,
    first_byte_alone,
)
from tests.lib.examples import streams
from tests.lib.given import given
from tests.lib.input_forms import Answered, in_lock_step, in_one_piece, one_byte_a_piece
from tests.lib.places import built
from tests.lib.processes import guarded
from tests.lib.wire import NO_SUCH_FILE

# Each differs from the one lawful line of words, `--stdio`.
BAD_WORDS = (
    (),
    ("",),
    ("stdio",),
    ("--stdin",),
    ("--stdio", "--stdio"),
    ("--stdio", "extra"),
    ("extra", "--stdio"),
    ("--stdio", "--listen", "127.0.0.1:0"),
    ("--stdio", "--capacity"),
    ("--stdio", "--capacity", "9223372036854775808"),
    ("--stdio", "--capacity", "+1"),
    ("--stdio", "--connections", "two"),
    ("--stdio", "/dev/st0=stack"),
)

PIECES = ("in one piece", "one byte a piece")
FORMS: dict[str, Callable[[Sequence[str], Conversation], Answered]] = {
    "in lock step": in_lock_step,
    "in one piece": in_one_piece,
    "one byte a piece": one_byte_a_piece,
}


def wanted_of(conversation: Conversation) -> Answered:
    """What the server is to write and to end with."""
    return Answered(conversation.answers(), conversation.status)


def with_no_reader(words: Sequence[str]) -> Answered:
    """Sends one request once the other end of standard output is closed, with the signal for that ignored."""
    with guarded(subprocess.Popen(words, stdin=subprocess.PIPE, stdout=subprocess.PIPE, restore_signals=False)) as process:
        given(process.stdout).close()
        process.communicate(WRITTEN_AND_READ_BACK.exchanges[0].request)
    return Answered(b"", process.returncode)


class Rows(Case):
    """Conversations with a server on standard input: what it answers, to the byte, and its exit status."""

    words = (built("rmtd"), "--stdio")

    def answered(self, conversation: Conversation, forms: Sequence[str], words: Sequence[str] = words) -> None:
        """The server answers the conversation in each of these forms."""
        for form in forms:
            self.same(f"{conversation.name}, {form}", FORMS[form](words, conversation), wanted_of(conversation))

    def test_conversations_in_lock_step(self) -> None:
        for it in CONVERSATIONS:
            self.answered(it, ("in lock step",))

    def test_conversations_in_pieces(self) -> None:
        for it in CONVERSATIONS:
            self.answered(it, PIECES)

    def test_beginnings_of_a_conversation(self) -> None:
        for it in beginnings(WRITTEN_AND_READ_BACK):
            self.answered(it, PIECES)

    def test_first_bytes(self) -> None:
        """Each byte, alone and after an open."""
        for byte in range(256):
            self.answered(first_byte_alone(byte), PIECES)
            self.answered(first_byte_after_an_open(byte), PIECES)

    def test_each_byte_of_a_rewind(self) -> None:
        for it in bytes_of_a_rewind():
            self.answered(it, ("in one piece",))

    def test_longest_device(self) -> None:
        """A device has at most 255 bytes."""
        longest = b"O" + b"d" * 255
        refused = Exchange(longest + b"\n2\n", NO_SUCH_FILE)
        self.answered(Conversation("the longest device", (refused,)), PIECES)
        self.answered(Conversation("a longer device", (), longest + b"d", BROKEN), PIECES)

    def test_streams_of_the_document(self) -> None:
        """Each whole stream of docs/PROTOCOL.md."""
        for it in streams():
            whole = Conversation(f"the stream {it.sent!r}", (), it.sent)
            for form in PIECES:
                self.same(f"{whole.name}, {form}", FORMS[form](self.words, whole), Answered(it.answers, it.status))

    def test_full_reels(self) -> None:
        """Reels of so few bytes that they are full."""
        for capacity, it in LITTLE_REELS.items():
            named = replace(it, name=f"{it.name}, of {capacity} bytes")
            self.answered(named, [*FORMS], (*self.words, "--capacity", str(capacity)))

    def test_bad_words(self) -> None:
        """Words other than the lawful ones: nothing is answered, though the input has requests."""
        for words in BAD_WORDS:
            got = in_one_piece((self.words[0], *words), WRITTEN_AND_READ_BACK)
            self.same(f"the words {list(words)}", got, Answered(b"", FAILED))

    def test_streams_that_fail(self) -> None:
        """Each ends the server with the status of a failure."""
        failed = Answered(b"", FAILED)
        for name, redirection in (("standard input closed", "<&-"), ("standard output closed", ">&-")):
            closing = ("sh", "-c", f'exec "$@" {redirection}', "sh", *self.words)
            self.same(name, in_one_piece(closing, WRITTEN_AND_READ_BACK), failed)
        self.same("standard output that nobody reads", with_no_reader(self.words), failed)
