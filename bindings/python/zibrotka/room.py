"""Whether the machine can hold a list. It is asked before the list is made, so that a count which is too large costs no time."""

from __future__ import annotations

import os
from typing import Optional


def memory() -> Optional[int]:
    """How many bytes of memory this machine has, where the system tells."""
    try:
        return os.sysconf("SC_PHYS_PAGES") * os.sysconf("SC_PAGE_SIZE")
    except (AttributeError, ValueError, OSError):
        return None


def judge(what: str, needed: int, instead: str) -> None:
    """Raises MemoryError where so many bytes are more than the machine has."""
    there = memory()
    if there is not None and needed > there:
        raise MemoryError(f"{what} takes {needed:,} bytes, and this machine has {there:,}: use {instead}")


def length_of(given: object, name: str) -> int:
    """The length of a list. A range may be longer than Python can tell."""
    try:
        return len(given)  # type: ignore[arg-type]
    except OverflowError:
        raise MemoryError(f"{name} is longer than any list that a machine holds") from None
