"""Shows a conversation with the server, turn by turn: what is sent, what is answered, and what the server did.

    python3 -m tests.tools.run [PROGRAM]

With no PROGRAM it takes the server that was built from the sources as they are. Where there is none, it compiles them without their
proofs, as `make try` does, which takes a minute or two. The conversation is the first under *Examples* in docs/PROTOCOL.md. It ends with 0
where each answer is as expected there.
"""

from __future__ import annotations

import argparse
import subprocess
import sys
from pathlib import Path
from typing import Iterator

from tests.lib.examples import Turn, examples
from tests.lib.given import given
from tests.lib.input_forms import receive, send, started
from tests.tools.build import below, is_noted, listed, made_by, sums_of
from tests.tools.unproved import unproved

SERVER = "rmtd"
NOT_BUILT = f"""{SERVER} is not built yet: `make build` proves and builds it.
Its sources are compiled without their proofs now, in a minute or two.
"""

# What the server did by a request that it did not refuse, by the letter of the request, and by the number of an operation.
DONE = {"O": "opened the drive", "C": "closed the drive, and rewound its reel", "W": "wrote a record", "R": "read a record"}
OPERATIONS = (
    "wrote marks",
    "went forward over marks",
    "went back over marks",
    "went forward over records",
    "went back over records",
    "rewound the reel",
    "took the reel away to the bin",
    "did nothing",
)


def done(turn: Turn) -> str:
    """What the server did, in words."""
    letter, head = chr(turn.request[0]), turn.request[1:].split(b"\n")[0]
    said = "refused it" if turn.answer.startswith(b"E") else OPERATIONS[int(head)] if letter == "I" else DONE[letter]
    said = "read no byte" if letter == "R" and turn.answer == b"A0\n" else said
    return f"{said}; now at place {turn.place}" if turn.place else said


def shown(data: bytes) -> str:
    """Bytes as the documents show them."""
    return data.decode(errors="backslashreplace").replace("\n", "\\n") or "nothing"


def built() -> Path | None:
    """The server that was built from the sources as they are."""
    crates = below(listed(), [SERVER])
    return made_by(crates[SERVER]) if is_noted(crates, SERVER, sums_of(crates)) else None


def turns(program: Path, wanted: tuple[Turn, ...]) -> Iterator[bytes]:
    """Sends each request after the answer to the one before, and gives what is answered; at the end, what the server still wrote."""
    streams = {"stdin": subprocess.PIPE, "stdout": subprocess.PIPE, "bufsize": 0}
    with started((str(program), "--stdio"), **streams) as process, given(process.stdin) as requests, given(process.stdout) as answers:
        for turn in wanted:
            send(requests, turn.request)
            yield receive(answers, len(turn.answer))
        requests.close()
        yield answers.read()


def main() -> int:
    parser = argparse.ArgumentParser(description="Shows a conversation with the tape server.")
    parser.add_argument("program", nargs="?", type=Path, help=f"a built {SERVER}")
    program, example = parser.parse_args().program or built(), examples()[0]
    if not program:
        print(NOT_BUILT, flush=True)
        program = unproved(SERVER)
    wrong, answers = 0, turns(program.resolve(), example.turns)
    print(f"A conversation with rmtd --stdio (docs/PROTOCOL.md): {example.name[0].lower()}{example.name[1:]}.\n", flush=True)
    for number, (turn, answer) in enumerate(zip(example.turns, answers), 1):
        print(f"{number}. sent      {shown(turn.request)}\n   answered  {shown(answer)}")
        if answer == turn.answer:
            print(f"   the server {done(turn)}", flush=True)
        else:
            wrong += 1
            print(f"   expected  {shown(turn.answer)}", flush=True)
    rest = next(answers)
    wrong += rest != b""
    print(f"\n{'Each answer is as expected.' if not wrong else f'Not as expected: {wrong}. After the last answer came {shown(rest)}.'}")
    return 1 if wrong else 0


if __name__ == "__main__":
    sys.exit(main())
