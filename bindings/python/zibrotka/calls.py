"""The exported calls of the library, one to one, with lists that the caller lends.

`call(name, *arguments)` takes one argument for each parameter that calls.txt lists and answers the library's number: its value, or minus a
refusal. `answer` raises `Refused` instead of a negative number. Every argument is judged before the library is called:

- a whole number must be one, and within its width; a float must be exact; a bool must be True or False;
- a list that is read (`&[u8]`) is any list of numbers in one dimension. Whole numbers are copied, so that what is judged is what is used.
  Floats in a buffer of exactly these items, and `bytes`, stay where they lie;
- a list that is written (`&mut [u8]`), a lent number (`&mut u64`) or an array (`&mut [u64; 3]`) is a writable buffer of exactly these items,
  such as a NumPy array, an array.array or a ctypes array;
- what is written must not overlap anything else that is given, but for a list with gaps that is read, since that is copied.

Python's other threads wait while the library runs. What a binding cannot see is the caller's duty. In a Python without a GIL, or from C code
in another thread, leave a lent list alone. While a list is lent, do not move it from another thread by NumPy's `resize(refcheck=False)` or by
`ctypes.resize`.

>>> from array import array
>>> triangle = b"GLS" + bytes([1, 0, 3, 3, 1, 0, 1, 0, 0, 1, 0, 2, 1, 2, 0, 1, 2])
>>> states = array("i", [0] * 9)
>>> call("enumerate_gauge_invariant", triangle, states)
3
>>> print(states.tolist())
[-1, 1, -1, 0, 0, 0, 1, -1, 1]
>>> call("enumerate_gauge_invariant", triangle, states[:8])
-15
"""

from __future__ import annotations

import ctypes
import itertools
import numbers
import operator
import os
import platform
import re
import reprlib
import struct
import sys
from array import array
from collections.abc import Sequence
from contextlib import ExitStack
from typing import Any, Dict, Iterable, List, NamedTuple, Optional, Tuple

from . import room
from .refusals import Refused

__version__ = "1.0.0"

HERE = os.path.dirname(os.path.realpath(__file__))


class Item(NamedTuple):
    """The items of a list: their name in calls.txt, their letter for `array` and `struct`, and which whole numbers they hold."""

    name: str
    letter: str
    size: int
    low: int
    high: int


def _item(name: str, letter: str) -> Item:
    bits = int(name[1:])
    low = -(1 << bits - 1) if name[0] == "i" else 0
    return Item(name, letter, bits // 8, low, low + (1 << bits) - 1)


_LETTERS = {
    "u8": "B", "u16": "H", "u32": "I", "u64": "Q", "i8": "b", "i16": "h", "i32": "i", "i64": "q", "f16": "e", "f32": "f", "f64": "d",
}  # fmt: skip
ITEMS = {name: _item(name, letter) for name, letter in _LETTERS.items()}

_CTYPES = {"u64": ctypes.c_uint64, "i64": ctypes.c_int64, "i32": ctypes.c_int32, "f64": ctypes.c_double, "bool": ctypes.c_bool}


class Parameter(NamedTuple):
    """One parameter of a call. Its kind is one of: number, bool, read, written, lent. A bool has no item, a lent one a fixed length."""

    name: str
    type: str
    kind: str
    item: Any
    length: Optional[int]


class Call(NamedTuple):
    """One exported call, as calls.txt lists it."""

    name: str
    parameters: Tuple[Parameter, ...]
    result: str


def _parameter(text: str) -> Parameter:
    name, kind = text.split(": ")
    if kind == "bool":
        return Parameter(name, kind, "bool", None, None)
    found = re.fullmatch(r"(&(?:mut )?)?(\[)?(\w+)(?:; (\d+))?\]?", kind)
    if found is None:
        raise ImportError(f"calls.txt has a parameter of no known type: {text}")
    lent, is_list, item, length = found.groups()
    if lent is None:
        return Parameter(name, kind, "number", ITEMS[item], None)
    if lent == "&":
        return Parameter(name, kind, "read", ITEMS[item], None)
    if is_list and length is None:
        return Parameter(name, kind, "written", ITEMS[item], None)
    return Parameter(name, kind, "lent", ITEMS[item], int(length or 1))


def _read_calls(path: str) -> Dict[str, Call]:
    calls = {}
    with open(path, encoding="ascii") as lines:
        for line in lines:
            found = re.fullmatch(r"(\w+)\((.*)\) -> (\w+)\n", line)
            if found is None:
                raise ImportError(f"calls.txt has a line that is no call: {line}")
            name, parameters, result = found.groups()
            calls[name] = Call(name, tuple(map(_parameter, re.split(r", (?=\w+:)", parameters))) if parameters else (), result)
    return calls


CALLS = _read_calls(os.path.join(HERE, "calls.txt"))


# Finding the library


def judge_machine(*there: Any) -> None:
    """Raises ImportError where the library cannot run, or where Python has not CPython's calls for buffers."""
    if there != ("cpython", 64, "linux", "x86_64"):
        raise ImportError("zibrotka needs CPython of 64 bits on x86-64 Linux, and this is {} of {} bits, {} {}".format(*there))


def _places() -> List[str]:
    """Where the library may lie, the first place first: beside this file, in the repository, in an unpacked archive.

    The last two count only where the package lies in bindings/python, since an installed one has somebody else's folders around it.
    """
    places = [os.path.join(HERE, "libzibrotka.so")]
    bindings, python = os.path.split(os.path.dirname(HERE))
    if (os.path.basename(bindings), python) == ("bindings", "python"):
        top = os.path.dirname(bindings)
        places += [os.path.join(top, "target", "shared", "libzibrotka.so"), os.path.join(top, "lib", "libzibrotka.so")]
    return places


def _open(path: str) -> ctypes.PyDLL:
    """The library as one during whose calls Python's other threads wait."""
    try:
        return ctypes.PyDLL(path)
    except OSError as error:
        raise ImportError(f"the library {path} cannot be loaded: {error}") from None


def _find() -> ctypes.PyDLL:
    named = os.environ.get("ZIBROTKA_LIBRARY")
    if named:
        if not os.path.isfile(named):
            raise ImportError(f"ZIBROTKA_LIBRARY names no file: {named}")
        return _open(os.path.abspath(named))
    for place in _places():
        if os.path.isfile(place):
            return _open(place)
    try:
        return ctypes.PyDLL("libzibrotka.so.1")
    except OSError:
        looked = ", ".join(_places())
        raise ImportError(
            f"there is no libzibrotka.so: looked for {looked}, and for libzibrotka.so.1 where the system keeps libraries; "
            "ZIBROTKA_LIBRARY may name the file"
        ) from None


def _release_of(version: str) -> int:
    first, second, third = map(int, version.split("."))
    return 10000 * first + 100 * second + third


def _c_types(parameter: Parameter) -> List[Any]:
    if parameter.kind in ("number", "bool"):
        return [_CTYPES[parameter.type]]
    return [ctypes.c_void_p] if parameter.kind == "lent" else [ctypes.c_void_p, ctypes.c_size_t]


def _function(library: ctypes.PyDLL, entry: Call) -> Any:
    try:
        function = getattr(library, "zibrotka_" + entry.name)
    except AttributeError:
        raise ImportError(f"the library {library._name} has no call zibrotka_{entry.name}") from None
    function.argtypes = [c_type for parameter in entry.parameters for c_type in _c_types(parameter)]
    function.restype = _CTYPES[entry.result]
    return function


def _load(library: ctypes.PyDLL) -> Dict[str, Any]:
    """All calls of a library of this version. The version is asked first, since another one may have other calls."""
    release, wanted = _function(library, CALLS["release"])(), _release_of(__version__)
    if release != wanted:
        raise ImportError(f"the library {library._name} has the release {release}, and this package needs {wanted}, {__version__}")
    return {name: _function(library, entry) for name, entry in CALLS.items()}


judge_machine(sys.implementation.name, 8 * struct.calcsize("P"), sys.platform, platform.machine())
_LIBRARY = _find()
_FUNCTIONS = _load(_LIBRARY)


# Numbers


def shown(value: Any) -> str:
    """A value in a message, cut where it is long. Python refuses to print some numbers, and these are told by their type."""
    try:
        return reprlib.repr(value)
    except Exception:
        return f"a value of the type {type(value).__name__}"


def is_bool(value: Any) -> bool:
    """Whether a value is True or False, NumPy's too. NumPy calls its type bool_ or bool."""
    kind = type(value)
    return kind is bool or (kind.__module__ == "numpy" and kind.__name__ in ("bool_", "bool"))


def whole(value: Any, item: Item, name: str) -> int:
    """The whole number that a value is, if the item can hold it."""
    if is_bool(value) or not hasattr(type(value), "__index__"):
        raise TypeError(f"{name} must be a whole number, not {shown(value)}")
    number = int.__index__(operator.index(value))
    if not item.low <= number <= item.high:
        raise OverflowError(f"{name} must be a whole number from {item.low} to {item.high}, not {shown(number)}")
    return number


def exact(value: Any, name: str) -> float:
    """The float that a value is, if it is one exactly."""
    if isinstance(value, float):
        return float.__float__(value)
    if is_bool(value) or not isinstance(value, numbers.Real):
        raise TypeError(f"{name} must be a float, not {shown(value)}")
    try:
        number = float(value)
    except OverflowError:
        raise OverflowError(f"{name} is too large for a float: {shown(value)}") from None
    if number != value and value == value:
        raise ValueError(f"{name} is no float exactly: {shown(value)}")
    return number


# So many numbers are judged at a time. Each is one of Python's then, which is larger than in the list that is made of them.
_PART = 1 << 16


def _part(values: List[Any], item: Item, name: str, first: int) -> array[Any]:
    """A part of the numbers. Where all are plain, they are judged by the smallest and the largest."""
    kinds = set(map(type, values))
    if item.name == "f64":
        if not kinds <= {float}:
            values = [exact(value, f"{name}[{place}]") for place, value in enumerate(values, first)]
    elif not kinds <= {int} or not item.low <= min(values) <= max(values) <= item.high:
        values = [whole(value, item, f"{name}[{place}]") for place, value in enumerate(values, first)]
    return array(item.letter, values)


def checked(values: Iterable[Any], length: int, item: Item, name: str) -> memoryview:
    """So many numbers, each judged, as a list of these items."""
    room.judge(f"a copy of {name}", length * item.size, "a shorter list")
    found, rest = array(item.letter), iter(values)
    while len(found) <= length and (part := list(itertools.islice(rest, min(_PART, length - len(found) + 1)))):
        found.extend(_part(part, item, name, len(found)))
    if len(found) != length:
        raise ValueError(f"{name} has the length {length}, and another number of items")
    return memoryview(found)


# Lists


class _Buffer(ctypes.Structure):
    """Python's Py_buffer."""

    _fields_ = [
        ("address", ctypes.c_void_p),
        ("owner", ctypes.c_void_p),
        ("bytes", ctypes.c_ssize_t),
        ("item_bytes", ctypes.c_ssize_t),
        ("read_only", ctypes.c_int),
        ("dimensions", ctypes.c_int),
        ("format", ctypes.c_char_p),
        ("shape", ctypes.c_void_p),
        ("strides", ctypes.c_void_p),
        ("suboffsets", ctypes.c_void_p),
        ("internal", ctypes.c_void_p),
    ]


_get_buffer = ctypes.pythonapi.PyObject_GetBuffer
_get_buffer.argtypes = [ctypes.py_object, ctypes.POINTER(_Buffer), ctypes.c_int]
_get_buffer.restype = ctypes.c_int
_release_buffer = ctypes.pythonapi.PyBuffer_Release
_release_buffer.argtypes = [ctypes.POINTER(_Buffer)]
_release_buffer.restype = None


def address_of(view: memoryview) -> int:
    """Where the bytes of a view without gaps lie. Python's own buffer call tells it, also of what may only be read, such as bytes.

    It stays right as long as the view is not released, since a view keeps what it shows in its place.
    """
    buffer = _Buffer()
    _get_buffer(view, ctypes.byref(buffer), 0)
    try:
        return buffer.address or 0
    finally:
        _release_buffer(ctypes.byref(buffer))


_KINDS = {**dict.fromkeys("BHILQN", "u"), **dict.fromkeys("bhilqn", "i"), **dict.fromkeys("efd", "f")}
_FOREIGN = (">", "!") if sys.byteorder == "little" else ("<",)


def item_of(view: memoryview) -> Tuple[Optional[Item], bool]:
    """The items of a view, if they are numbers, and whether their bytes lie in this machine's order."""
    order, letter = (view.format[:1], view.format[1:]) if view.format[:1] in tuple("@=^<>!") else ("@", view.format)
    item = ITEMS.get(f"{_KINDS.get(letter)}{8 * view.itemsize}")
    return item, order not in _FOREIGN or view.itemsize == 1


def _begins_well(view: memoryview, item: Item) -> bool:
    """Whether items lie at multiples of their size. An empty list lies nowhere."""
    return view.nbytes == 0 or address_of(view) % item.size == 0


def _is_plain(view: memoryview, item: Item) -> bool:
    """Whether the library can take these items where they lie."""
    return item_of(view) == (item, True) and view.c_contiguous and _begins_well(view, item)


def _is_masked(given: Any) -> bool:
    masked = sys.modules.get("numpy.ma")
    return masked is not None and isinstance(given, masked.MaskedArray)


def view_of(given: Any, name: str) -> Optional[memoryview]:
    """The buffer of what is given, or None where it has none. That of a masked array would not tell which of its numbers count."""
    if _is_masked(given):
        raise TypeError(f"{name} must be a list of numbers, and a masked array has a mask besides")
    try:
        return memoryview(given)
    except TypeError:
        return None
    except (ValueError, BufferError) as error:
        raise TypeError(f"{name} cannot be read as a list of numbers: {error}") from None


def _lasting(view: memoryview, given: Any, views: ExitStack) -> Any:
    """What can be viewed again without code of the caller's: what is given, or the view, where a class of the caller's made that."""
    return given if view.obj is given or type(given) is memoryview else views.enter_context(memoryview(view))


def _copied_sequence(given: Any, item: Item, name: str) -> memoryview:
    if isinstance(given, str) or not isinstance(given, Sequence):
        raise TypeError(f"{name} must be a list of numbers, not {shown(given)}")
    return checked(given, room.length_of(given, name), item, name)


def _copied_buffer(view: memoryview, given: Any, item: Item, name: str) -> memoryview:
    """The numbers of a buffer as a list of these items: whole where it has the same, else one by one."""
    found, in_order = item_of(view)
    if found is None or (found.name[0] == "f" and item.name != "f64"):
        raise TypeError(f"{name} must hold {item.name}, and the buffer has the format {view.format!r}")
    if isinstance(given, (bytes, bytearray)) and item.name != "u8":
        raise TypeError(f"{name} must hold {item.name}, and bytes hold u8")
    room.judge(f"a copy of {name}", view.nbytes, "a shorter list")
    if (found, in_order) == (item, True):
        return memoryview(view.tobytes()).cast(item.letter)
    order = ("<" if sys.byteorder == "little" else ">") if in_order else _FOREIGN[0]
    values = itertools.chain.from_iterable(struct.iter_unpack(f"{order}{found.letter}", view.tobytes()))
    return checked(values, view.nbytes // found.size, item, name)


class Ready(NamedTuple):
    """A list before its address is taken: the buffer that was given, if one was, and the copy, if one was made."""

    given: Any
    copy: Optional[memoryview]

    def used(self) -> Any:
        return self.given if self.copy is None else self.copy


def read_list(given: Any, item: Item, name: str, views: ExitStack) -> Ready:
    """A list that the library reads."""
    view = view_of(given, name)
    if view is None:
        return Ready(None, _copied_sequence(given, item, name))
    with view:
        if view.ndim == 0:
            raise TypeError(f"{name} must be a list, not {shown(given)}")
        if view.ndim > 1:
            raise ValueError(f"{name} must be a list in one dimension, not in {view.ndim}")
        stays = _is_plain(view, item) and (item.name == "f64" or type(given) is bytes)
        return Ready(_lasting(view, given, views), None if stays else _copied_buffer(view, given, item, name))


def written_list(given: Any, item: Item, name: str, views: ExitStack) -> Ready:
    """A list that the library writes: always what is given."""
    view = view_of(given, name)
    if view is None:
        raise TypeError(f"{name} is written and must be a buffer of {item.name}, not {shown(given)}")
    with view:
        return Ready(_lasting(view, given, views), None)


def _judge_written(view: memoryview, parameter: Parameter) -> None:
    name, item = parameter.name, parameter.item
    if item_of(view) != (item, True):
        raise TypeError(f"{name} must hold {item.name} in this machine's order of bytes, and the buffer has the format {view.format!r}")
    if view.readonly:
        raise TypeError(f"{name} is written, and the buffer can only be read")
    if not view.c_contiguous:
        raise TypeError(f"{name} is written, and the buffer has gaps or another order than row by row")
    if parameter.kind == "written" and view.ndim == 0:
        raise TypeError(f"{name} must be a list, not a single number")
    length = view.nbytes // item.size
    if parameter.length not in (None, length):
        raise ValueError(f"{name} must have the length {parameter.length}, not {length}")
    if not _begins_well(view, item):
        raise ValueError(f"{name} must begin at a multiple of {item.size} bytes")


# Calling


class _Lent(NamedTuple):
    """Where a list lies that is lent to a call."""

    name: str
    start: int
    end: int
    written: bool


def _judge_overlap(lent: List[_Lent]) -> None:
    for one in lent:
        for other in lent:
            if one.written and one is not other and one.start < other.end and other.start < one.end:
                raise ValueError(f"{one.name} and {other.name} overlap: what a call writes must share nothing with what else it is given")


def _ready(parameter: Parameter, argument: Any, views: ExitStack) -> Any:
    """A number as it is passed, or a list made ready. Code of the caller's may run here, as of a class that tells its index."""
    name, item = parameter.name, parameter.item
    if parameter.kind == "bool":
        if not is_bool(argument):
            raise TypeError(f"{name} must be True or False, not {shown(argument)}")
        return bool(argument)
    if parameter.kind == "number":
        return exact(argument, name) if item.name == "f64" else whole(argument, item, name)
    return (read_list if parameter.kind == "read" else written_list)(argument, item, name, views)


def _lies(parameter: Parameter, view: memoryview) -> List[_Lent]:
    """Where a given buffer lies. One with gaps is always copied, and an empty one lies nowhere."""
    if not view.nbytes or not view.c_contiguous:
        return []
    address = address_of(view)
    return [_Lent(parameter.name, address, address + view.nbytes, parameter.kind != "read")]


def _lend(parameter: Parameter, ready: Ready, views: ExitStack, lent: List[_Lent]) -> List[Any]:
    """What is passed for a list: its address, and its length where the call takes one. An empty one goes as NULL."""
    view = views.enter_context(memoryview(ready.used()))
    if parameter.kind != "read":
        _judge_written(view, parameter)
    elif not _is_plain(view, parameter.item):
        raise ValueError(f"{parameter.name} was changed while another argument was judged")
    if ready.given is not None:
        lent += _lies(parameter, views.enter_context(memoryview(ready.given)))
    address = address_of(view) if view.nbytes else None
    return [address] if parameter.kind == "lent" else [address, view.nbytes // parameter.item.size]


def call(name: str, *arguments: Any) -> int:
    """What the library answers: the value of the call, or minus the number of a refusal.

    >>> call("refusal_text", 18, bytearray())
    -13
    """
    entry = CALLS.get(name)
    if entry is None:
        raise ValueError(f"the library has no call of the name {shown(name)}")
    parameters = entry.parameters
    if len(arguments) != len(parameters):
        raise TypeError(f"{entry.name} takes {len(parameters)} arguments ({', '.join(p.name for p in parameters)}), not {len(arguments)}")
    lent: List[_Lent] = []
    passed: List[Any] = []
    with ExitStack() as views:
        ready = [_ready(parameter, argument, views) for parameter, argument in zip(parameters, arguments)]
        # From here on no argument's own code runs, which could free a list that was judged.
        for parameter, argument in zip(parameters, ready):
            if parameter.kind in ("number", "bool"):
                passed.append(argument)
            else:
                passed += _lend(parameter, argument, views, lent)
        _judge_overlap(lent)
        answered: int = _FUNCTIONS[entry.name](*passed)
    return answered


def refusal_text(number: int) -> str:
    """The sentence of a refusal, asked of the library.

    >>> refusal_text(1)
    'the sheet has fewer than 11 bytes'
    """
    text = bytearray(200)
    return text[: answer("refusal_text", number, text)].decode("ascii")


def answer(name: str, *arguments: Any) -> int:
    """What the library answers, where a refusal is raised as `Refused`.

    >>> answer("count_states", b"GLS")
    Traceback (most recent call last):
    zibrotka.refusals.Refused: refused 1: the sheet has fewer than 11 bytes
    """
    number = call(name, *arguments)
    if number < 0:
        raise Refused(-number, refusal_text(-number))
    return number
