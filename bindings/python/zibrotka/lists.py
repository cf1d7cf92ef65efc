"""The lists that the package makes: NumPy arrays where NumPy is there, else arrays of the standard library and plain lists."""

from __future__ import annotations

import itertools
from array import array
from collections.abc import Sequence
from typing import TYPE_CHECKING, Any, Optional, Union

from . import room
from .calls import ITEMS

try:
    import numpy
except ImportError:
    numpy = None  # type: ignore[assignment]

if TYPE_CHECKING:
    from numpy.typing import NDArray

    WholeNumbers = Union[Sequence[int], NDArray[Any]]
    Floats = Union[Sequence[float], NDArray[Any]]
else:
    WholeNumbers, Floats = Sequence, Sequence

_TYPES = {"i32": "int32", "u32": "uint32", "u64": "uint64", "f64": "float64"}

# What a number takes besides in a list of Python's numbers: the number and where it is.
_PLAIN_BYTES = 40


def zeros(item: str, length: int) -> Any:
    """A list of zeros to be lent: a NumPy array or an array.array.

    >>> print(list(zeros("u64", 3)) == [0, 0, 0])
    True
    """
    if numpy is not None and item in _TYPES:
        return numpy.zeros(length, _TYPES[item])
    return array(ITEMS[item].letter, bytes(ITEMS[item].size)) * length


def handed(numbers: Any, rows: Optional[int] = None) -> Any:
    """The finished list as it is handed out: a NumPy array, or a plain list. With `rows` it is cut into so many rows of one length."""
    if numpy is not None:
        return numbers if rows is None else numbers.reshape(rows, -1)
    if rows is None:
        return numbers.tolist()
    width = len(numbers) // rows
    return [numbers[row * width : (row + 1) * width].tolist() for row in range(rows)]


def cut(given: Any, length: int) -> Any:
    """A list of which at most one number more is kept than it must have: enough for the library to refuse one that is too long."""
    if not isinstance(given, Sequence) or isinstance(given, (str, bytes, bytearray, memoryview, array)):
        return given
    return list(itertools.islice(given, length + 1))


def judge_room(what: str, instead: str, handed_out: int, item: str, lent: int = 0) -> None:
    """Raises MemoryError where the machine cannot hold the numbers that are handed out, besides `lent` bytes."""
    each = ITEMS[item].size + (0 if numpy is not None else _PLAIN_BYTES)
    room.judge(what, handed_out * each + lent, instead)
