"""Compares each copy of a worked conversation with docs/PROTOCOL.md.

    python3 -m tests.tools.examples

The stored run of the server, in crates/rmtd, is the first example. The crates that test sessions have, right after the bytes of a
conversation, its answers.
"""

from __future__ import annotations

import ast
import re
import sys
from itertools import pairwise
from typing import Iterator

from tests.lib.conversations import CONVERSATIONS
from tests.lib.examples import Example, examples, streams
from tests.lib.places import TOP

STORED = TOP / "crates/rmtd"
# The crates of tests that repeat conversations: the bytes that are sent, and after them those that are answered.
REPEATING = ("server_tests", "parts_tests", "client_tests", "programs_tests")
# A comment, a character, or a string of Rust, of which byte strings have a group.
TOKEN = re.compile(r"""//[^\n]*|b?'(?:[^'\\]|\\.)'|b"((?:[^"\\]|\\.)*)"|"(?:[^"\\]|\\.)*\"""", re.DOTALL)


def stored_faults(first: Example) -> Iterator[str]:
    """What of the stored run is not the first example."""
    for name, wanted in (("stdin", first.sent()), ("stdout", first.answers())):
        if (STORED / name).read_bytes() != wanted:
            yield f"crates/rmtd/{name} is not as the first example of docs/PROTOCOL.md says: {wanted!r}"
    if (STORED / "args").read_text().split() != ["--stdio"]:
        yield "crates/rmtd/args is not --stdio"


def literals(text: str) -> list[bytes]:
    """The byte strings of a file of Rust, without those that go over several lines."""
    found = (it[1] for it in TOKEN.finditer(text))
    return [ast.literal_eval(f'b"{it}"') for it in found if it is not None and "\n" not in it]


def repeated(known: dict[bytes, bytes]) -> Iterator[tuple[str, bytes, bytes]]:
    """Where a crate of tests has the bytes of a conversation, and the byte string that stands after them there."""
    for path in sorted(it for crate in REPEATING for it in TOP.glob(f"crates/{crate}/src/**/*.rt")):
        for sent, answers in pairwise(literals(path.read_text())):
            if sent in known:
                yield str(path.relative_to(TOP)), sent, answers


def main() -> int:
    known = {it.sent(): it.answers() for it in examples()} | {it.sent(): it.answers() for it in CONVERSATIONS}
    known |= {it.sent: it.answers for it in streams()}
    del known[b""]
    found = list(repeated(known))
    wrong = list(stored_faults(examples()[0]))
    wrong += [f"{path}: after {sent!r} stands {said!r}, and not {known[sent]!r}" for path, sent, said in found if said != known[sent]]
    told = f"the stored run and {len(found)} conversations in crates of tests are as docs/PROTOCOL.md and tests/lib/conversations.py say"
    print("\n".join(wrong) if wrong else told)
    return 1 if wrong else 0


if __name__ == "__main__":
    sys.exit(main())
