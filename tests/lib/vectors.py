"""Schedules and lines written by hand, and what `rsim` prints of them."""

from __future__ import annotations

from typing import Iterator, NamedTuple


class Vector(NamedTuple):
    """A schedule and what is printed."""

    name: str
    text: bytes
    output: bytes


def vector(name: str, text: str, output: str) -> Vector:
    return Vector(name, text.lstrip("\n").encode(), output.lstrip("\n").encode())


ONE_BLOCK = "run /dev/st0 /usr 0 951782400 0 1024 1\n"
THREE_BLOCKS = "run /dev/st0 /usr 0 951782400 0 1024 3\n"
USR = "/usr" + 28 * " " + " 0 Tue Feb 29 00:00:00 2000\n"
TWO_VOLUMES = "reel r1 R1024 R1024 R1024 M\nreel r2 R1024 R1024 M\nstack /dev/st0\nbin r1 r2\ncounted 1 1 0 2 r1\ncounted 1 2 2 1 r2\ndumpdates\n"

VECTORS = (
    vector(
        "the answer to the move is lost",
        "drive /dev/st0 3100 r1 r2 r3\n" + THREE_BLOCKS + "connect\npump 1 9\nsend\nto-server 1 all\nserve 1\ncut 1\nend-client 1\nend-server 1\n"
        "retry\nconnect\npump 2 11\nconnect\npump 3 11\nenter\n",
        "volume 1 failed: ConnectionEnded\nreel r1 R1024 R1024 R1024 M\nreel r2 R1024 R1024 R1024 M\nreel r3 R1024 R1024 M\nstack /dev/st0\n"
        "bin r1 r2 r3\ncounted 1 1 0 2 r2\ncounted 1 2 2 1 r3\ndumpdates\n" + USR,
    ),
    vector(
        "a stale session",
        "drive /dev/st0 3100 r1 r2\n" + THREE_BLOCKS + "connect\npump 1 5\ncut 1\nend-client 1\nretry\nconnect\npump 2 1\nend-server 1\nretry\n"
        "connect\npump 3 11\n",
        "volume 1 failed: ConnectionEnded\nvolume 1 failed: Refused 16\nreel r1 R1024 R1024 R1024 M\nreel r2\nstack /dev/st0 r2\nbin r1\n"
        "counted 1 1 0 2 r1\ndumpdates\n",
    ),
    vector(
        "a reel too small",
        "drive /dev/st0 1040 r1\n" + ONE_BLOCK + "connect\npump 1 11\n",
        "volume 1 failed: ReelTooSmall\nreel r1 R1024\nstack /dev/st0 r1\nbin\ndumpdates\n",
    ),
    vector(
        "no blocks",
        "drive /dev/st0 1040 r1\nrun /dev/st0 /usr 0 951782400 0 1024 0\nconnect\npump 1 11\n",
        "reel r1 R1024 M\nstack /dev/st0\nbin r1\ncounted 1 1 0 0 r1\ndumpdates\n",
    ),
    vector(
        "a fault in a write",
        "drive /dev/st0 3100 r1\n" + ONE_BLOCK + "connect\npump 1 4\nsend\nto-server 1 all\nserve 1 written 1\nto-client 1 all\n",
        "volume 1 failed: Refused 5\nreel r1 R1024\nstack /dev/st0 r1\nbin\ndumpdates\n",
    ),
    vector(
        "a stranger's bytes",
        "drive /dev/st0 3100 r1\nstranger\nsays 1 4f2f6465762f7374300a320a57350a68656c\npump 1 11\ncut 1\nend-server 1\n",
        "reel r1\nstack /dev/st0 r1\nbin\ndumpdates\n",
    ),
    vector(
        "a counted reel is written again",
        "drive /dev/st0 3100 r1\n" + ONE_BLOCK + "connect\npump 1 11\narrange /dev/st0 r1\nstranger\nsays 2 4f2f6465762f7374300a320a57310a78\n"
        "pump 2 11\ncut 2\nend-server 2\n",
        "reel r1 R1\nstack /dev/st0 r1\nbin\ncounted 1 1 0 1 r1\ndumpdates\n",
    ),
    vector(
        "a server restart",
        "drive /dev/st0 3100 r1 r2\n" + THREE_BLOCKS + "connect\npump 1 5\nrestart-server\nend-client 1\nretry\nconnect\npump 2 11\n"
        "connect\npump 3 11\n",
        "volume 1 failed: ConnectionEnded\n" + TWO_VOLUMES,
    ),
    vector(
        "a client restart after a save",
        "drive /dev/st0 3100 r1 r2 r3\n" + THREE_BLOCKS + "connect\npump 1 11\nsave\nconnect\npump 2 6\nrestart-client\nend-server 2\nconnect\n"
        "pump 3 11\nenter\n",
        "reel r1 R1024 R1024 R1024 M\nreel r2 R1024 R1024 M\nreel r3\nstack /dev/st0 r3\nbin r1 r2\ncounted 1 1 0 2 r1\ncounted 1 2 2 1 r2\n"
        "dumpdates\n" + USR,
    ),
    vector(
        "a save before any count",
        "drive /dev/st0 3100 r1 r2 r3\n" + THREE_BLOCKS + "save\nconnect\npump 1 11\nrestart-client\nconnect\npump 2 11\nconnect\npump 3 11\nenter\n",
        "reel r1 R1024 R1024 R1024 M\nreel r2 R1024 R1024 R1024 M\nreel r3 R1024 R1024 M\nstack /dev/st0\nbin r1 r2 r3\ncounted 1 1 0 2 r1\n"
        "counted 1 1 0 2 r2\ncounted 1 2 2 1 r3\ndumpdates\n" + USR,
    ),
    vector(
        "a counted reel is laid again",
        "drive /dev/st0 3100 r1 r2\n" + THREE_BLOCKS + "connect\npump 1 11\narrange /dev/st0 r1 r2\nconnect\npump 2 9\nend-server 2\nretry\n"
        "arrange /dev/st0 r2\nconnect\npump 3 9\n",
        "volume 2 failed: CountedReel 1\n" + TWO_VOLUMES,
    ),
)
NAMED = {it.name: it for it in VECTORS}

# A schedule with two failed attempts, after which the client is ready, three connections have been, and the drive is free.
REUSED = NAMED["a stale session"].text


def says(number: int, data: bytes) -> str:
    return f"says {number} {data.hex()}\n"


OPENED = b"O/dev/st0\n2\n"
EMPTY = "stack /dev/st0 r1\nbin\ndumpdates\n"


def carried_out(data: bytes, *serves: str, capacity: int = 3_100) -> str:
    """A stranger's bytes on one drive with one reel, and each request carried out with one of these troubles."""
    lines = "".join(f"serve 1 {it}".rstrip() + "\n" for it in serves)
    return f"drive /dev/st0 {capacity} r1\nstranger\n" + says(1, data) + "to-server 1 all\n" + lines


def of_troubles() -> Iterator[Vector]:
    """Writes that fail after two records, at place 1 or 0, and calls that a trouble does not touch."""
    two = OPENED + b"W3\nabcW2\ndeI5\n1\n"
    at_one = two + b"R9\n"
    records = (("kept", "R3 R2"), ("lost", "R3"), ("written 0", "R3"), ("written 1", "R3 R1"), ("written 9", "R3 R1"), ("", "R3 R1"))
    for trouble, held in records:
        yield vector(f"a record, {trouble or 'no trouble'}", carried_out(at_one + b"W1\nx", *[""] * 5, trouble), f"reel r1 {held}\n" + EMPTY)
    for trouble, held in (("kept", "R3 R2"), ("lost", ""), ("written 2", "M M"), ("written 9", "M M M"), ("written 9223372036854775807", "M M M")):
        text = carried_out(two + b"I0\n3\n", *[""] * 4, trouble)
        yield vector(f"three marks, {trouble}", text, f"reel r1 {held}".rstrip() + "\n" + EMPTY)
    # The place after a failed call is the one before it: the next write tells it.
    yield vector("a read fails and stays", carried_out(at_one + b"R9\nW1\nx", *[""] * 5, "lost", ""), "reel r1 R3 R1\n" + EMPTY)
    yield vector("spacing fails and stays", carried_out(at_one + b"I3\n1\nW1\nx", *[""] * 5, "kept", ""), "reel r1 R3 R1\n" + EMPTY)
    yield vector("a failed write stays", carried_out(at_one + b"W1\nxW4\nmore", *[""] * 5, "written 1", ""), "reel r1 R3 R4\n" + EMPTY)
    quiet = {"a rewind": b"I5\n1\n", "no operation": b"I7\n1\n", "no marks": b"I0\n0\n", "no bytes": b"W0\n", "no spacing": b"I1\n0\n"}
    for name, request in quiet.items():
        text = carried_out(OPENED + request + b"W1\nx", "", "lost", "")
        yield vector(f"{name} under a trouble, which is gone then", text, "reel r1 R1\n" + EMPTY)
    text = carried_out(OPENED + b"W9\n123456789W1\nx", "", "lost", "", capacity=20)
    yield vector("no room for a record under a trouble", text, "reel r1 R1\n" + EMPTY)
    text = carried_out(OPENED + b"W1\nxI6\n1\nW2\nxy", "", "", "kept", "")
    yield vector("a move that fails has rewound", text, "reel r1 R2\n" + EMPTY)
    text = carried_out(OPENED + b"I6\n1\nI6\n1\n", "", "written 3", "")
    yield vector("a move that failed is made again", text, "reel r1\nstack /dev/st0\nbin r1\ndumpdates\n")
    text = carried_out(OPENED + b"W1\nx" + OPENED + b"W2\nxy", "", "", "lost", "")
    yield vector("an open that fails has closed", text, "reel r1 R1\n" + EMPTY)
    text = carried_out(OPENED + b"C\n" + OPENED + b"W2\nxy", "", "kept", "", "")
    yield vector("a close under a trouble", text, "reel r1 R2\n" + EMPTY)


def run(name: str = "/usr", level: int = 0, date: int = 951_782_400, blocks: int = 0, device: str = "/dev/st0") -> str:
    return f"run {device} {name} {level} {date} 0 1024 {blocks}\n"


def of_dates() -> Iterator[Vector]:
    """Runs of no blocks, entered one after the other."""
    names = [f"r{number}" for number in range(1, 8)]
    asked = (
        ("/usr", 0, 951_782_400),
        ("/usr", 1, 951_782_400),
        ("/home", 0, 0),
        ("/usr", 1, 951_868_800),
        ("n" * 32, 9, 253_402_300_799),
        ("n" * 255, 3, 951_827_696),
        ("/usr", 0, 951_782_399),
    )
    text = "drive /dev/st0 1040 " + " ".join(names) + "\n"
    for number, it in enumerate(asked, 1):
        text += run(*it) + f"connect\npump {number} 11\nenter\n"
    output = "".join(f"reel {it} R1024 M\n" for it in names) + "stack /dev/st0\nbin " + " ".join(names) + "\n"
    output += "".join(f"counted {number} 1 0 0 r{number}\n" for number in range(1, 8)) + "dumpdates\n"
    output += "/usr" + 28 * " " + " 0 Mon Feb 28 23:59:59 2000\n" + "/usr" + 28 * " " + " 1 Wed Mar  1 00:00:00 2000\n"
    output += "/home" + 27 * " " + " 0 Thu Jan  1 00:00:00 1970\n" + "n" * 32 + " 9 Fri Dec 31 23:59:59 9999\n"
    output += "n" * 255 + " 3 Tue Feb 29 12:34:56 2000\n"
    yield vector("seven runs are entered", text, output)


def of_runs() -> Iterator[Vector]:
    """What follows where a run is given up, forgotten or not entered, and where its payload cannot be read."""
    fault = "drive /dev/st0 3100 r1\n" + ONE_BLOCK + "connect\nsend fault\npump 1 5\nsend fault\n"
    yield vector("a payload that cannot be read", fault, "volume 1 failed: SourceFault\nreel r1 R1024\nstack /dev/st0 r1\nbin\ndumpdates\n")
    text = fault + "abandon\n" + run() + "end-server 1\nconnect\npump 2 11\n" + run("/home") + "restart-client\n"
    text += run("/opt", blocks=1) + "connect\n"
    output = "volume 1 failed: SourceFault\nreel r1 R1024 M\nstack /dev/st0\nbin r1\ncounted 2 1 0 0 r1\ndumpdates\n"
    yield vector("an abandoned run, one that was not entered, and one that was forgotten", text, output)
    text = "drive /dev/st0 3100 r1 r2\n" + THREE_BLOCKS + "connect\npump 1 11\nrestart-client\n" + run(blocks=1) + "connect\npump 2 11\nenter\n"
    output = "reel r1 R1024 R1024 R1024 M\nreel r2 R1024 R1024 M\nstack /dev/st0\nbin r1 r2\ncounted 1 1 0 2 r1\ncounted 2 1 0 1 r2\ndumpdates\n"
    yield vector("the counts of a forgotten run stay", text, output + USR)
    text = "drive /dev/st0 3100 r1\n" + ONE_BLOCK + "connect\npump 1 8\ncut 1\nend-client 1\nenter\n"
    output = "reel r1 R1024 R1024 M\nstack /dev/st0\nbin r1\ncounted 1 1 0 1 r1\ndumpdates\n" + USR
    yield vector("after the count the end of the stream is no failure", text, output)
    text = "drive /dev/st0 3100 r1\n" + run(device="/dev/st1") + "connect\npump 1 1\nretry\n"
    text += "connect\nend-server 1\nrestart-server\nend-client 2\nabandon\n"
    output = "volume 1 failed: Refused 2\nvolume 1 failed: ConnectionEnded\nreel r1\n" + EMPTY
    yield vector("a device that is not there", text, output)
    text = "drive /dev/st0 3100 r1\n" + THREE_BLOCKS + "connect\npump 1 11\nconnect\npump 2 1\narrange /dev/st0 r1\nretry\nend-server 1\n"
    output = "volume 2 failed: Refused 6\nreel r1 R1024 R1024 R1024 M\nstack /dev/st0 r1\nbin\ncounted 1 1 0 2 r1\ndumpdates\n"
    yield vector("an empty stack", text, output)
    text = "drive /dev/st0 3100 r1\n" + ONE_BLOCK + "connect\ncut 1\nsend\npump 1 11\nend-client 1\n"
    yield vector("what is sent after the cut is lost", text, "volume 1 failed: ConnectionEnded\nreel r1\n" + EMPTY)
    text = "drive /dev/st0 3100 r1\n" + ONE_BLOCK + "connect\npump 1 4\nsend\ncut 1\nrestart-client\nto-server 1 1000\nto-server 1 all\nserve 1\n"
    yield vector("what was on the way before the cut is carried out", text, "reel r1 R1024\n" + EMPTY)


def of_saves() -> Iterator[Vector]:
    """Runs that are kept, and come back."""
    drive = "drive /dev/st0 3100 r1 r2 r3\n"
    finished = "connect\npump 1 11\nconnect\npump 2 11\n"
    two = "reel r1 R1024 R1024 R1024 M\nreel r2 R1024 R1024 M\nreel r3\nstack /dev/st0 r3\nbin r1 r2\n"
    two += "counted 1 1 0 2 r1\ncounted 1 2 2 1 r2\ndumpdates\n"
    yield vector("a finished run comes back, and is entered", drive + THREE_BLOCKS + finished + "save\nrestart-client\nenter\n", two + USR)
    text = drive + THREE_BLOCKS + finished + "save\nrestart-client\nrestart-client\nsave\nrestart-client\nenter\n"
    yield vector("a finished run comes back three times", text, two + USR)
    text = drive + THREE_BLOCKS + "connect\npump 1 11\nsave\nrestart-client\nconnect\npump 2 11\nenter\n"
    yield vector("a run comes back after its count", text, two + USR)
    text = drive + THREE_BLOCKS + "connect\nsend\nsave\nrestart-client\nend-server 1\nconnect\npump 2 11\nconnect\npump 3 11\nenter\n"
    yield vector("a run is kept in an attempt", text, two + USR)
    asking = "connect\npump 1 11\nconnect\ncut 2\nend-client 2\n"
    text = drive + THREE_BLOCKS + asking + "save\nrestart-client\nend-server 2\nconnect\npump 3 11\nenter\n"
    yield vector("a run that asks comes back ready", text, "volume 2 failed: ConnectionEnded\n" + two + USR)
    text = drive + THREE_BLOCKS + "save\n" + asking + "retry\nrestart-client\nend-server 2\nconnect\npump 3 11\nconnect\npump 4 11\nenter\n"
    output = "volume 2 failed: ConnectionEnded\n" + NAMED["a save before any count"].output.decode()
    yield vector("a retry leaves what is kept", text, output)
    text = drive + run(blocks=0) + "save\nconnect\npump 1 11\nsave\nrestart-client\nenter\n"
    yield vector("no blocks are kept", text, "reel r1 R1024 M\nreel r2\nreel r3\nstack /dev/st0 r2 r3\nbin r1\ncounted 1 1 0 0 r1\ndumpdates\n" + USR)
    text = drive + run(blocks=0) + "connect\npump 1 11\nsave\n" + run("/home") + "restart-client\n" + run("/opt") + "connect\npump 2 11\nenter\n"
    output = "reel r1 R1024 M\nreel r2 R1024 M\nreel r3\nstack /dev/st0 r3\nbin r1 r2\ncounted 1 1 0 0 r1\ncounted 3 1 0 0 r2\ndumpdates\n"
    yield vector("a new run drops what is kept", text, output + USR.replace("/usr", "/opt"))


def of_looks() -> Iterator[Vector]:
    """What the first record of a reel is to a client that looks at it."""
    drive = "drive /dev/st0 3100 r1 r2\n"
    first = "connect\npump 1 11\n"
    again = "volume 2 failed: CountedReel 1\n"
    held = "reel r1 R1024 R1024 R1024 M\n"
    counted = "counted 1 1 0 2 r1\n"
    laid = drive + THREE_BLOCKS + first + "arrange /dev/st0 r1 r2\nconnect\npump 2 3\n"
    stack = "stack /dev/st0 r1 r2\nbin\n"
    yield vector("a counted reel ends the attempt at the look", laid, again + held + "reel r2\n" + stack + counted + "dumpdates\n")
    text = laid + "end-server 2\nretry\nconnect\npump 3 11\nend-server 3\nretry\nconnect\npump 4 11\n"
    yield vector("a counted reel is tried three times", text, 3 * again + held + "reel r2\n" + stack + counted + "dumpdates\n")
    text = laid + "end-server 2\nstranger\n" + says(3, b"O/dev/st0\n0\nI6\n1\nC\n") + "pump 3 3\nretry\nconnect\npump 4 9\nenter\n"
    yield vector("a counted reel is moved to the bin by an open for reading", text, again + TWO_VOLUMES + USR)
    text = drive + THREE_BLOCKS + first + "save\nrestart-client\narrange /dev/st0 r1 r2\nconnect\npump 2 9\n"
    yield vector("a run that comes back knows its reel", text, again + held + "reel r2\n" + stack + counted + "dumpdates\n")
    text = drive + THREE_BLOCKS + "save\n" + first + "restart-client\narrange /dev/st0 r1 r2\nconnect\npump 2 6\n"
    output = "reel r1 R1024 R1024\nreel r2\n" + stack + counted + "dumpdates\n"
    yield vector("a run that comes back without its count does not", text, output)
    text = drive + THREE_BLOCKS + first + "restart-client\n" + THREE_BLOCKS + "arrange /dev/st0 r1 r2\nconnect\npump 2 6\n"
    yield vector("a new run with the same label does not", text, output)
    text = drive + run() + "connect\npump 1 9\n" + run("/home") + "arrange /dev/st0 r1 r2\nconnect\npump 2 9\n"
    output = "reel r1 R1024 M\nreel r2\nstack /dev/st0 r2\nbin r1\ncounted 1 1 0 0 r1\ncounted 2 1 0 0 r1\ndumpdates\n"
    yield vector("the label of another dump is written over", text, output)
    text = "drive /dev/st0 2068 r1 r2 r3\n" + THREE_BLOCKS + "connect\npump 1 10\nconnect\npump 2 10\narrange /dev/st0 r2 r3\nconnect\npump 3 9\n"
    output = "volume 3 failed: CountedReel 2\nreel r1 R1024 R1024 M\nreel r2 R1024 R1024 M\nreel r3\nstack /dev/st0 r2 r3\nbin r1\n"
    yield vector("the reel of the second volume", text, output + "counted 1 1 0 1 r1\ncounted 1 2 1 1 r2\ndumpdates\n")
    yield from of_other_looks()


FIRST_LABEL = b"name /usr\nlevel 0\ndate 951782400\nsince 0\nvolume 1\nfirst 0\n".ljust(1_024, b"\0")


def looks_but_for_a_byte() -> str:
    """A client is shown a label that it has not counted, but for the last byte of it."""
    text = "drive /dev/st0 3100 r1\nstranger\n" + says(1, OPENED + b"W1024\n" + FIRST_LABEL + b"C\n") + "pump 1 3\n" + ONE_BLOCK
    return text + "connect\npump 2 2\nsend\nto-server 2 all\nserve 2\nto-client 2 6\nto-client 2 1023\n"


def of_other_looks() -> Iterator[Vector]:
    """Reels that strangers wrote, reels that were not counted, and a look that fails."""
    label = FIRST_LABEL
    two = "drive /dev/st0 3100 r1 r2\n" + THREE_BLOCKS + "connect\npump 1 11\n"
    for name, record, is_counted in (
        ("the label of a counted volume", label, True),
        ("such a label and a byte more", label + b"\0", True),
        ("such a label without its last byte", label[:-1], False),
        ("such a label of which the last byte differs", label[:-1] + b"x", False),
        ("the label of the volume that is written", label.replace(b"volume 1\nfirst 0", b"volume 2\nfirst 2"), False),
        ("such a label from another block on", label.replace(b"first 0", b"first 1"), False),
        ("a byte", b"x", False),
    ):
        written = says(2, OPENED + b"W%d\n" % len(record) + record + b"C\n") + "pump 2 3\n"
        text = two + "stranger\n" + written + "connect\npump 3 9\n"
        failed = f"reel r1 R1024 R1024 R1024 M\nreel r2 R{len(record)}\nstack /dev/st0 r2\nbin r1\ncounted 1 1 0 2 r1\ndumpdates\n"
        yield vector(f"{name}, by a stranger", text, "volume 2 failed: CountedReel 1\n" + failed if is_counted else TWO_VOLUMES)
    text = two + "stranger\n" + says(2, OPENED + b"I0\n1\nW1024\n" + label + b"C\n") + "pump 2 4\nconnect\npump 3 9\n"
    yield vector("a mark before such a label", text, TWO_VOLUMES)
    lost = NAMED["the answer to the move is lost"].text.decode().partition("pump 3")[0]
    text = lost.replace("pump 2 11\nconnect\n", "pump 2 11\narrange /dev/st0 r1 r3\nconnect\npump 3 9\n")
    output = "volume 1 failed: ConnectionEnded\nvolume 2 failed: CountedReel 1\nreel r1 R1024 R1024 R1024 M\nreel r2 R1024 R1024 R1024 M\nreel r3\n"
    output += "stack /dev/st0 r1 r3\nbin r2\ncounted 1 1 0 2 r2\ndumpdates\n"
    yield vector("a reel with the same label that was not counted", text, output)
    look = "drive /dev/st0 3100 r1\n" + ONE_BLOCK + "connect\npump 1 2\nsend\nto-server 1 all\nserve 1 lost\nto-client 1 all\n"
    yield vector("a look that fails", look, "volume 1 failed: Refused 5\nreel r1\n" + EMPTY)
    text = looks_but_for_a_byte() + "cut 2\nend-client 2\n"
    yield vector("a look that is cut off", text, "volume 1 failed: ConnectionEnded\nreel r1 R1024\n" + EMPTY)
    yield vector("a label of no count is written over", looks_but_for_a_byte() + "to-client 2 1\npump 2 2\n", "reel r1 R1024\n" + EMPTY)


def of_shapes() -> Iterator[Vector]:
    """Texts that are lawful in unusual ways."""
    yield vector("a drive alone", "drive /dev/st0 0\n", "stack /dev/st0\nbin\ndumpdates\n")
    yield vector("comments and empty lines", "\n# a\n\n#\ndrive /dev/st0 1 r1\n#connect\n\n#" + "x" * 100_000 + "\n", "reel r1\n" + EMPTY)
    odd = b"# \xc3\xa9 \xff \x00 \r\n#\r\ndrive /dev/st0 1 r1\n#\t\n"
    yield Vector("comments of any bytes", odd, b"reel r1\n" + EMPTY.encode())
    long = "".join(chr(it) for it in range(33, 127))
    names = [long[at : at + 32] for at in range(0, 94, 32)]
    text = f"drive /dev/st0 9223372036854775807 {' '.join(names)}\narrange /dev/st0\n"
    yield vector("names of 32 bytes", text, "".join(f"reel {it}\n" for it in names) + f"stack /dev/st0\nbin {' '.join(names)}\ndumpdates\n")
    text = "".join(f"drive /dev/st{it} 5 r{it}\n" for it in range(64))
    output = "".join(f"reel r{it}\n" for it in range(64)) + "".join(f"stack /dev/st{it} r{it}\n" for it in range(64)) + "bin\ndumpdates\n"
    yield vector("64 drives", text, output)
    yield vector("a reel with the name of a drive", "drive r1 5 r1\n", "reel r1\nstack r1 r1\nbin\ndumpdates\n")
    device = "d" * 255
    text = f"drive {device} 1040 r1\n" + run(device=device) + "connect\npump 1 11\n"
    yield vector("a device of 255 bytes", text, f"reel r1 R1024 M\nstack {device}\nbin r1\ncounted 1 1 0 0 r1\ndumpdates\n")
    text = "drive a 9 r1 r2 r3\ndrive b 9 r4\narrange a r3 r1\narrange b r2\narrange a r4 r3\narrange b\narrange b r1\n"
    yield vector("reels are arranged", text, "reel r1\nreel r2\nreel r3\nreel r4\nstack a r4 r3\nstack b r1\nbin r2\ndumpdates\n")
    text = "drive /dev/st0 5 r1\npump 1 9\npump 0 0\nstranger\npump 1 9223372036854775807\npump 2 1\n"
    yield vector("rounds that do nothing", text, "reel r1\n" + EMPTY)
    text = "drive /dev/st0 0003100 r1\nstranger\n" + says(1, OPENED + b"W1\nx")
    text += "to-server 0001 0000000000000000000000000014\npump 01 02\npump 1 1\n"
    yield vector("numbers with leading zeros", text, "reel r1 R1\n" + EMPTY)
    text = "drive /dev/st0 3100 r1\n" + run("n" * 255, 9, 253_402_300_799) + "restart-client\nrun /dev/st0 ! 0 0 253402300799 262144 1\n"
    yield vector("the greatest numbers of a run", text, "reel r1\n" + EMPTY)


def of_lengths() -> Iterator[Vector]:
    """Requests at the limits of a reader, and writes that are dropped."""
    begin = "drive /dev/st0 280000 r1\nstranger\n" + says(1, OPENED) + "pump 1 1\n"
    whole = says(1, b"W0000262144\n" + b"d" * 262_144 + b"C\n")
    yield vector("the longest request", begin + whole + "to-server 1 262156\nserve 1\nto-server 1 2\nserve 1\n", "reel r1 R262144\n" + EMPTY)
    dropped = says(1, b"W262200\n" + b"d" * 262_200 + b"W1\nx")
    served = begin + dropped + "to-server 1 262156\nto-server 1 all\nserve 1\nserve 1\nto-client 1 24\n"
    yield vector("a dropped write", served, "reel r1 R1\n" + EMPTY)
    yield vector("a dropped write, by rounds", begin + dropped + "pump 1 4\n", "reel r1 R1\n" + EMPTY)
    read = carried_out(OPENED + b"W40\n" + b"d" * 40 + b"I5\n1\nR39\n", *[""] * 4) + "to-client 1 52\n"
    yield vector("a record that is read", read, "reel r1 R40\n" + EMPTY)


GOOD_TEXTS = (*of_shapes(), *of_troubles(), *of_dates(), *of_runs(), *of_saves(), *of_looks(), *of_lengths())

TWO_FILES = (OPENED, b"W1\na", b"I0\n1\n", b"W1\nb", b"I0\n1\n")
DONE_TWICE = "A0\nA1\nA1\nA1\nA1\n"
IO = "E5\nInput/output error\n"

# Requests of a session on a reel of 3,100 bytes, and all that it answers.
ANSWERS = (
    ((b"O/dev/st9\n2\n",), "E2\nNo such file or directory\n"),
    ((OPENED, b"I1\n1\n"), "A0\nE5\nInput/output error\n"),
    ((OPENED, b"I6\n1\n", b"W1\nx"), "A0\nA1\nE6\nDevice not configured\n"),
    ((b"C\n",), "E9\nBad file descriptor\n"),
    ((b"O/dev/st0\n0\n", b"I0\n1\n"), "A0\nE13\nPermission denied\n"),
    ((b"O/dev/st0\n3\n",), "E22\nInvalid argument\n"),
    ((OPENED, b"I0\n776\n"), "A0\nE28\nNo space left on device\n"),
    ((OPENED, b"I0\n775\n", b"I2\n775\n", b"I1\n0\n", b"I7\n2147483647\n"), "A0\nA775\nA775\nA0\nA2147483647\n"),
    ((OPENED, b"W3080\n" + b"d" * 3_080, b"I5\n1\n", b"R99999\n", b"R1\n"), "A0\nA3080\nA1\nA3080\n" + "d" * 3_080 + "A0\n"),
    ((OPENED, b"W3089\n" + b"d" * 3_089, b"W0\n", b"R0\n", b"I8\n1\n"), "A0\nA0\n" + 3 * "E22\nInvalid argument\n"),
    ((OPENED, b"W3088\n" + b"d" * 3_088, b"I0\n1\n", b"I2\n1\n", b"I0\n2\n"), "A0\nA3088\nA1\nA1\nE28\nNo space left on device\n"),
    ((b"O/dev/st0\n1\n", b"R1\n", b"W1\nx"), "A0\nE9\nBad file descriptor\nA1\n"),
    ((OPENED, b"W1\nx", b"O/dev/st0\n0\n", b"R1\n", b"W1\nx"), "A0\nA1\nA0\nA1\nxE9\nBad file descriptor\n"),
    ((b"O/dev/st9\n3\n",), "E22\nInvalid argument\n"),
    (TWO_FILES + (b"I2\n2\n", b"R9\n", b"I4\n1\n", b"I1\n1\n", b"R1\n", b"C\n"), DONE_TWICE + f"A2\nA0\n{IO}A1\nA1\nbA0\n"),
    (TWO_FILES + (b"I5\n1\n", b"I1\n2\n", b"R9\n", b"I2\n1\n", b"R9\n", b"I3\n1\n"), DONE_TWICE + f"A1\nA2\nA0\nA1\nA0\n{IO}"),
    (TWO_FILES + (b"I5\n1\n", b"I3\n2\n", b"R9\n", b"I4\n1\n", b"R9\n"), DONE_TWICE + f"A1\n{IO}A1\nbA1\nA1\nb"),
    (TWO_FILES + (b"I4\n1\n", b"R9\n", b"I2\n3\n", b"R9\n"), DONE_TWICE + f"{IO}A0\n{IO}A1\na"),
    (TWO_FILES + (b"I2\n1\n", b"I4\n2\n", b"R9\n", b"I1\n2\n", b"W1\nc"), DONE_TWICE + f"A1\n{IO}A0\n{IO}A1\n"),
    (TWO_FILES + (b"I2\n2\n", b"I4\n1\n", b"I4\n1\n", b"I3\n1\n", b"R9\n"), DONE_TWICE + f"A2\nA1\n{IO}A1\nA0\n"),
    ((OPENED, OPENED, b"C text\n", b"C\n"), "A0\nA0\nA0\nE9\nBad file descriptor\n"),
)
BUSY = "E16\nDevice busy\n"


def stops(name: str, text: str, fault: str = "not possible", before: str = "") -> Vector:
    """A text whose last line is at fault."""
    return vector(name, text, f"{before}line {text.count(chr(10))}: {fault}\n")


def of_answers() -> Iterator[Vector]:
    """Whole answers are delivered, and one byte more is not on the way."""
    for requests, answers in ANSWERS:
        text = carried_out(b"".join(requests), *[""] * len(requests)) + f"to-client 1 {len(answers)}\nto-client 1 1\n"
        yield stops(f"the answers {answers[-60:]!r}", text)
        more = text.replace(f"1 {len(answers)}\nto-client 1 1\n", f"1 {len(answers) + 1}\n")
        yield stops(f"the answers {answers[-60:]!r} and a byte more", more)
    busy = carried_out(OPENED, "") + "stranger\n" + says(2, OPENED) + "pump 2 0\nto-server 2 all\nserve 2\n"
    yield stops("a busy drive is told", busy + f"to-client 2 {len(BUSY)}\nto-client 2 1\n")


def of_rooms() -> Iterator[Vector]:
    """More bytes than a reader has room for are not taken."""
    begin = "drive /dev/st0 280000 r1\nstranger\n" + says(1, b"W0000262144\n" + b"d" * 262_144 + b"C\n")
    yield stops("a byte more than there is room for", begin + "to-server 1 262157\n")
    yield stops("a byte more where there is no room left", begin + "to-server 1 all\nto-server 1 1\n")
    yield stops("all, where there is no room left", begin + "to-server 1 all\nto-server 1 all\n")
    begin = "drive /dev/st0 280000 r1\nstranger\n" + says(1, b"C\nW262200\n" + b"d" * 262_201)
    yield stops("a dropped write after a request has no room of its own", begin + "to-server 1 262156\nto-server 1 1\n")
    text = begin + "to-server 1 262156\nserve 1\nto-server 1 all\nserve 1\nserve 1\n"
    yield stops("a dropped write, and a byte that is no request", text + "serve 1\n")
    yield stops("a part of a request", "drive /dev/st0 5 r1\nstranger\n" + says(1, b"O/dev/st0\n2") + "to-server 1 all\nserve 1\n")
    for part in (b"C" + b"c" * 255, b"O" + b"o" * 255 + b"\n", b"O\n2" + b" " * 254, b"W0000000001\n", b"R2147483647", b"I0\n", b"W"):
        begin = "drive /dev/st0 5 r1\nstranger\n" + says(1, part) + "to-server 1 all\n"
        yield stops(f"a beginning, {part[:20]!r}", begin + "serve 1\n")
        yield stops(f"no beginning, {part[:20]!r}", begin + says(1, b"x") + "to-server 1 all\nserve 1\nserve 1\n")
    text = "drive /dev/st0 5 r1\nstranger\n" + says(1, b"W1\nxS") + "to-server 1 all\n"
    yield stops("a request, and a byte that is none", text + "serve 1\nserve 1\nserve 1\n")
    hopeless = (b"S", b"\n", b"O\n ", b"O\nx", b"O\n\n", b"O\n2\t", b"W ", b"W\n", b"W5 ", b"I0\n ", b"R00000000001", b"R2147483648", b"R9999999999")
    for sent in hopeless:
        begin = "drive /dev/st0 5 r1\nstranger\n" + says(1, sent) + "to-server 1 all\n"
        yield stops(f"no request, {sent!r}", begin + "serve 1\nend-server 1\n")
    text = "drive /dev/st0 5 r1\nstranger\n" + says(1, b"W1\nxS") + "to-server 1 all\n"
    yield stops("a connection is cut by such a byte", text + "serve 1\nserve 1\ncut 1\n")


NO_COMMAND = (("no bytes", ""), ("an empty line", "\n"), ("a comment", "# drive /dev/st0 5 r1"), ("comments and empty lines", "\n\n#\n\n# x\n"))
R33 = "r" * 33


# Texts whose last line is bad.
BAD_LAST = (
    ("a device doubled", "drive a 5 r1\ndrive a 5 r2\n"),
    ("a reel doubled", "drive a 5 r1\ndrive b 5 r2 r1\n"),
    ("a reel doubled in a line", "drive a 5 r1 r2 r1\n"),
    ("a drive after another command", "drive a 5 r1\nstranger\ndrive b 5 r2\n"),
    ("a drive after rounds of nothing", "drive a 5 r1\npump 1 1\ndrive b 5 r2\n"),
    ("a command before the first drive", "# a\nstranger\n"),
    ("a run before the first drive", THREE_BLOCKS),
    ("a reel of 33 bytes", f"drive a 5 r1 {R33}\n"),
    ("no capacity", "drive a\n"),
    ("no device", "drive  5 r1\n"),
    ("no words", "drive\n"),
    ("a capacity that is too great", "drive a 9223372036854775808 r1\n"),
    ("a capacity that is no number", "drive a r1\n"),
    ("a capacity with a sign", "drive a +5 r1\n"),
    ("an empty capacity", "drive a  r1\n"),
    ("an empty reel", "drive a 5  r1\n"),
    ("an empty last reel", "drive a 5 r1 \n"),
    ("a space after the capacity", "drive a 5 \n"),
    ("a space before the word", " drive a 5\n"),
    ("a tab between fields", "drive\ta 5\n"),
    ("a tab in a reel", "drive a 5 r\t1\n"),
    ("a carriage return after a reel", "drive a 5 r1\r\n"),
    ("a carriage return after a capacity", "drive a 5\r\n"),
    ("a carriage return alone", "\r\n"),
    ("a carriage return after a command", "drive a 5 r1\nstranger\r\n"),
    ("a carriage return in an empty line", "drive a 5 r1\nstranger\n\r\n"),
    ("carriage returns for line feeds", "drive a 5 r1\rstranger\n"),
    ("a delete in a reel", "drive a 5 r\x7f\n"),
    ("a byte above 127 in a reel", "drive a 5 r\u00e9\n"),
    ("a byte above 127 in a device", "drive \u00e9 5 r1\n"),
    ("a device of 256 bytes", "drive " + "d" * 256 + " 5 r1\n"),
    ("a byte above 127 in a word", "drive a 5 r1\nconnect\u00e9\n"),
    ("a byte order mark", "\ufeffdrive a 5 r1\n"),
    ("a zero byte", "drive a 5 r1\n\0\n"),
    ("a zero byte in a reel", "drive a 5 r\0\n"),
    ("spaces alone", "drive a 5 r1\n  \n"),
    ("another case", "Drive a 5 r1\n"),
)


def of_bad_texts() -> Iterator[Vector]:
    """Texts without a command, and bad lines of many kinds."""
    for name, text in NO_COMMAND:
        yield Vector(name, text.encode(), b"line 1: bad line\n")
    many = "".join(f"drive /dev/st{it} 5\n" for it in range(65))
    yield stops("a 65th drive", many, "bad line")
    yield stops("a 65th drive, after comments", "#\n \n".replace(" ", "") + "#\n" + many, "bad line")
    for name, text in BAD_LAST:
        yield stops(name, text, "bad line")._replace(text=text.encode())


def of_first_faults() -> Iterator[Vector]:
    """Which line is at fault first, also after failed attempts."""
    begin = "drive a 5 r1\n"
    yield vector("a bad line before one that is not possible", begin + "foo\nconnect\n", "line 2: bad line\n")
    yield vector("a line that is not possible before a bad one", begin + "connect\nfoo\n", "line 2: not possible\n")
    small = "drive /dev/st0 1040 r1\n" + ONE_BLOCK + "connect\npump 1 11\n"
    failed = "volume 1 failed: ReelTooSmall\n"
    yield stops("a bad line after a failed attempt", small + "foo\n", "bad line", failed)
    yield stops("a line that is not possible after a failed attempt", small + "\n# a\nconnect\n", "not possible", failed)
    again = "retry\nconnect\npump {0} 11\n"
    text = small + again.format(2) + "end-server 1\n" + again.format(3)
    yield stops("after three failed attempts", text + "enter\n", "not possible", failed + "volume 1 failed: Refused 16\n" + failed)


def of_worlds() -> Iterator[Vector]:
    """Events that are not possible."""
    drive = "drive /dev/st0 3100 r1 r2\n"
    yield stops("an answer without a run", drive + "retry\n")
    yield stops("two connections of a client", drive + THREE_BLOCKS + "connect\nconnect\n")
    yield stops("a connection is cut twice", drive + "stranger\ncut 1\ncut 1\n")
    yield stops("a held drive is arranged", drive + THREE_BLOCKS + "connect\npump 1 1\narrange /dev/st0 r1\n")
    yield stops("a drive held without its reel is arranged", drive + THREE_BLOCKS + "connect\npump 1 10\narrange /dev/st0 r1\n")
    yield stops("no bytes are delivered", drive + THREE_BLOCKS + "connect\nsend\nto-server 1 0\n")
    yield stops("a byte of what a look shows is not there yet", looks_but_for_a_byte() + "send\n")
    shown = NAMED["a counted reel is laid again"].text.decode().partition("end-server")[0]
    yield stops("nothing is sent after a counted reel was shown", shown + "send\n", before="volume 2 failed: CountedReel 1\n")
    yield stops("an unfinished run is entered", drive + THREE_BLOCKS + "connect\npump 1 11\nenter\n")
    yield stops("a run is entered twice", drive + run() + "connect\npump 1 11\nenter\nenter\n")
    yield stops("a counted run is entered before its attempt ends", drive + run() + "connect\npump 1 7\nenter\n")
    yield stops("an entered run is answered", drive + run() + "connect\npump 1 11\nenter\nretry\n")
    yield stops("a second run", drive + run() + run())
    yield stops("nothing is kept without a run", drive + "save\n")
    yield stops("an entered run is kept", drive + run() + "connect\npump 1 11\nenter\nsave\n")
    yield stops("an entered run does not come back", drive + run() + "save\nconnect\npump 1 11\nsave\nenter\nrestart-client\nenter\n")
    text = drive + run(device="/dev/st9") + "save\nconnect\npump 1 11\nabandon\n"
    yield stops("an abandoned run is kept", text + "save\n", before="volume 1 failed: Refused 2\n")
    yield stops("an abandoned run does not come back", text + "restart-client\nconnect\n", before="volume 1 failed: Refused 2\n")
    yield stops("a run that a new one dropped does not come back", drive + run() + "connect\npump 1 11\nsave\n" + run() + "restart-client\nenter\n")
    yield stops("a restart without a save", NAMED["a client restart after a save"].text.decode().replace("save\n", "").partition("pump 3")[0])
    yield stops("a run comes back without an attempt", drive + THREE_BLOCKS + "connect\nsave\nrestart-client\nsend\n")


BAD_TEXTS = (*of_answers(), *of_rooms(), *of_bad_texts(), *of_first_faults(), *of_worlds())


# Lines after two lines of drives.


def runs(*fields: str) -> str:
    return "run " + " ".join(fields)


LAWFUL = ("/dev/st0", "/usr", "0", "0", "0", "1", "1")


def of_bad_runs() -> Iterator[str]:
    """Runs of which one field is at fault."""
    faults = {
        0: ("", "d" * 256, "/dev/\u00e9"),
        1: ("", "n" * 256, "\x7f", "a\tb", "caf\u00e9", "a\0"),
        2: ("10", "", "x", "-1", "+1", "0x0", "9223372036854775808"),
        3: ("253402300800", "9223372036854775807", "", "now", "1.0"),
        4: ("253402300800", "9223372036854775808", "", "1e3", "-0"),
        5: ("0", "262145", "", "1k", "18446744073709551617"),
        6: ("2147483648", "9223372036854775808", "", "all", "1,000", "\u0661"),
    }
    for place, texts in faults.items():
        for text in texts:
            yield runs(*LAWFUL[:place], text, *LAWFUL[place + 1 :])
    yield from (runs(*LAWFUL[:6]), runs(*LAWFUL, "1"), runs(*LAWFUL, ""), "run", "run ", runs(*LAWFUL).replace(" 0 0 0 ", " 0  0 0 "))


ALONE = ("connect", "send", "restart-server", "restart-client", "retry", "abandon", "stranger", "enter", "save")
OF_ONE = ("cut", "end-server", "end-client")
NUMBERS = ("", "x", "-1", "+1", "1.0", "0x1", "9223372036854775808", "99999999999999999999999999", "all", "1\r", "\u0661")


def of_bad_lines() -> Iterator[str]:
    """Lines that are none of a schedule's, wherever they come."""
    yield from of_bad_runs()
    for word in ALONE:
        yield from (word + " ", word + " 1", " " + word, word.upper(), word + "s", word + "\r", word + "\t")
    yield from ("send Fault", "send  fault", "send fault ", "send fault fault", "restart", "restart server", "restart_server", "quit", "-")
    for word in (*OF_ONE, "serve"):
        yield from (word, word + "  1", word + " 1 ", word + " 1 1", *(f"{word} {it}" for it in NUMBERS))
    for end in ("", " ", " x", " -1", " 1 1", " 9223372036854775808"):
        yield f"serve 1 written{end}"
    for end in ("Kept", "kept ", "kept 1", "lost 1", "none", "fault"):
        yield f"serve 1 {end}"
    for word in ("to-server", "to-client"):
        yield from (word, word + " 1", word + " 1 ", word + " all 1", word + " 1 ALL", word + " 1 1 1", word + " 1 all all", word + " 1 -1")
        yield from (f"{word} {it} 1" for it in NUMBERS)
    yield from ("to_server 1 all", "toserver 1 all", "server 1 all")
    for data in ("0", "000", "0g", "0A", "00 00", "0x00", "00\r", " 00", "-1", "\u0661\u0661"):
        yield f"says 1 {data}"
    yield from ("says", "says 1", "says x 00", "says 00", "says all 00", "say 1 00")
    yield from ("pump", "pump 1", "pump 1 all", "pump 1 x", "pump all 1", "pump 1 1 1", "pump 1 -1", "pump 1 9223372036854775808", "pump 1 1 ")
    yield from ("arrange", "arrange ", *(f"arrange /dev/st0 {it}" for it in ("", " r1", "r1 ", R33, "r\t1", "r1\r", "\u00e9")))
    yield from (" ", "\t", "\r", "\0", " #", "\\", "\u00a0", "stranger # a", "stranger;", "drives a 5", "x" * 70_000)


BAD_LINES = tuple(it.encode() for it in of_bad_lines())

# Lines after the drive `/dev/st0` with the reels r1 and r2 that are carried out.
GOOD_LINES = tuple(
    it.encode()
    for it in (
        *("", "#", "#x", "# " + "\u00e9", "stranger", "restart-server", "pump 0 0", "pump 1 1", "pump 1 0", "arrange /dev/st0"),
        *("arrange /dev/st0 r2", "arrange /dev/st0 r2 r1", "pump 9223372036854775807 9223372036854775807"),
        *(runs(*LAWFUL), runs("#", "#", "9", "0", "0", "262144", "3")),
        *(runs("d" * 255, "n" * 255, "00", "253402300799", "253402300799", "0001", "0"), runs("/dev/st9", "~", "1", "1", "2", "1", "1000000")),
    )
)

# Lines after the reused schedule, in which a run is there and is not finished.
LATE_BAD_LINES = (
    b"drive /dev/st1 5 r5",
    b"drive",
    runs("/dev/st0", "/usr", "10", "0", "0", "1", "1").encode(),
    b"cut 9223372036854775808",
    b"serve 4 keep",
    b"to-server 9 one",
    b"says 9 0",
    b"arrange /dev/st9 " + R33.encode(),
    b"retry now",
)
LATE_NOT_POSSIBLE = (
    runs(*LAWFUL).encode(),
    b"retry",
    b"abandon",
    b"send",
    b"send fault",
    b"enter",
    b"cut 3",
    b"cut 0",
    b"cut 4",
    b"end-client 3",
    b"end-server 1",
    b"to-server 3 all",
    b"to-server 3 1",
    b"to-client 3 all",
    b"serve 3",
    b"serve 3 kept",
    b"serve 4",
    b"serve 9223372036854775807 lost",
    b"serve 3 written 9223372036854775807",
    b"to-client 0 9223372036854775807",
    b"says 1 00",
    b"says 4 00",
    b"says 0 00",
    b"arrange /dev/st9",
    b"arrange /dev/st0 r9",
    b"arrange /dev/st0 r1 r1",
    b"arrange r1 r1",
    b"arrange " + b"d" * 255,
)
