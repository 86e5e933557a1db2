"""A value that may be None by its type, and is not."""

from __future__ import annotations

from typing import TypeVar

T = TypeVar("T")


def given(value: T | None) -> T:
    """The value itself: for what is there by the way it was made, such as the pipe of a program that was started with one."""
    assert value is not None
    return value
