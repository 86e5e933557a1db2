"""What came of a program that ended."""

from __future__ import annotations

from typing import AnyStr, Generic, NamedTuple

# The exit statuses: it did what it was asked for, it could not start or go on, and of `rdump` that something was not done.
DONE, FAILED, ABNORMAL = 0, 1, 3


class Ended(NamedTuple, Generic[AnyStr]):
    """What a program wrote to standard output and to standard error, as bytes or as text, and its exit status (below 0: the signal that ended it)."""

    output: AnyStr
    told: AnyStr
    status: int
