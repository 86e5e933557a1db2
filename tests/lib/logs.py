"""The lines that a server writes on standard error."""

from __future__ import annotations

import os
import re
from typing import IO, Sequence

from tests.lib.case import Case
from tests.lib.servers import Server
from tests.lib.waiting import soon

ADDRESS = r"127\.0\.0\.1:\d+"

# What a line begins with: the time in UTC, as RFC 3339 has it, in whole seconds, and the program's name.
HEAD = re.compile(r"(\d{4}-\d\d-\d\dT\d\d:\d\d:\d\dZ) rmtd: ")


def bare(case: Case, title: str, lines: Sequence[str]) -> list[str]:
    """Lines without the time and the program's name, with which each has to begin."""
    case.same(f"{title}: each line begins with the time and the program's name", [it for it in lines if not HEAD.match(it)], [], lines)
    return [HEAD.sub("", it, count=1) for it in lines]


def whole_lines(server: Server) -> list[str]:
    """The whole lines of the log so far."""
    return server.log.read_text().split("\n")[:-1]


def lines_of(case: Case, server: Server) -> list[str]:
    """The whole lines of the log so far, without the time and the program's name."""
    return bare(case, "the log", whole_lines(server))


def has(case: Case, server: Server, pattern: str) -> bool:
    """Whether the log has such a line, or soon has. The lines that it has then begin as each has to."""
    soon(lambda: any(re.fullmatch(f"{HEAD.pattern}(?:{pattern})", it) for it in whole_lines(server)))
    return any(re.fullmatch(pattern, it) for it in lines_of(case, server))


def told(log: IO[bytes]) -> str:
    """What a file has that somebody writes to."""
    return os.pread(log.fileno(), 1 << 20, 0).decode()


def as_forms(lines: Sequence[str], forms: Sequence[str]) -> list[str]:
    """The lines, but in place of each that matches the pattern of its place that pattern: equal to the patterns if all match."""
    found = [form if re.fullmatch(form, line) else line for line, form in zip(lines, forms)]
    return [*found, *lines[len(forms) :]]
