"""The forms in which a program is given its input, and what it answers and ends with."""

from __future__ import annotations

import os
import subprocess
import tempfile
from contextlib import contextmanager, suppress
from typing import IO, Iterator, NamedTuple, Sequence, Union

from tests.lib.conversations import Conversation
from tests.lib.given import given
from tests.lib.processes import guarded

# A program takes longer than others whose input comes a byte at a time.
BYTES_SECONDS = 180

# What a program can be given as one of its standard streams.
Stream = Union[int, IO[bytes], None]


class Answered(NamedTuple):
    """All that a program wrote to standard output, and its exit status (below 0: the signal that ended it)."""

    output: bytes
    status: int


@contextmanager
def started(
    words: Sequence[str], stdin: Stream = None, stdout: Stream = None, stderr: Stream = None, bufsize: int = -1
) -> Iterator[subprocess.Popen[bytes]]:
    """A running program, whose end is waited for."""
    with guarded(subprocess.Popen(words, bufsize, stdin=stdin, stdout=stdout, stderr=stderr), BYTES_SECONDS) as process:
        yield process
        process.wait()


def in_one_piece(words: Sequence[str], conversation: Conversation) -> Answered:
    """Gives the input as a file, of which a read takes as much as it asks for."""
    with tempfile.TemporaryFile() as source, tempfile.TemporaryFile() as answers:
        source.write(conversation.sent())
        source.seek(0)
        with started(words, stdin=source, stdout=answers, stderr=subprocess.DEVNULL) as process:
            pass
        return Answered(all_of(answers), process.returncode)


def one_byte_a_piece(words: Sequence[str], conversation: Conversation) -> Answered:
    """Gives the input through a pipe in packet mode, where one read takes what one write put in: a byte."""
    read_end, write_end = os.pipe2(os.O_DIRECT | os.O_CLOEXEC)
    with tempfile.TemporaryFile() as answers:
        with started(words, stdin=read_end, stdout=answers, stderr=subprocess.DEVNULL) as process:
            os.close(read_end)
            with suppress(BrokenPipeError):
                for byte in conversation.sent():
                    os.write(write_end, bytes((byte,)))
            os.close(write_end)
        return Answered(all_of(answers), process.returncode)


def in_lock_step(words: Sequence[str], conversation: Conversation) -> Answered:
    """Sends each request only after as many bytes as the answer before it has were received."""
    received = b""
    with started(words, stdin=subprocess.PIPE, stdout=subprocess.PIPE, stderr=subprocess.DEVNULL, bufsize=0) as process:
        with given(process.stdin) as requests, given(process.stdout) as answers:
            with suppress(BrokenPipeError):
                for exchange in conversation.exchanges:
                    send(requests, exchange.request)
                    received += receive(answers, len(exchange.answer))
                send(requests, conversation.unanswered)
            requests.close()
            received += answers.read()
    return Answered(received, process.returncode)


def all_of(file: IO[bytes]) -> bytes:
    """What a file holds, from its beginning."""
    file.seek(0)
    return file.read()


def send(stream: IO[bytes], data: bytes) -> None:
    """Writes all of the data, however much one write takes."""
    rest = memoryview(data)
    while rest:
        rest = rest[stream.write(rest) :]


def receive(stream: IO[bytes], count: int) -> bytes:
    """Reads `count` bytes, or fewer if the stream ends before."""
    received = b""
    while len(received) < count:
        piece = stream.read(count - len(received))
        if not piece:
            break
        received += piece
    return received
