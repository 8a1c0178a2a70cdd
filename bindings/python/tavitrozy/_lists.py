"""Lists of numbers: a numpy array, an array.array, a memoryview or any sequence becomes an array of this package's own, which is lent to the library.

The library needs that nobody writes a list while it reads it, so the caller's own memory is never lent. Each number is checked to stay what it is."""

import ctypes
from array import array
from ctypes import POINTER, c_double, c_uint8, c_uint64
from typing import Any, Iterable, List, Tuple

_CTYPES = {"d": c_double, "B": c_uint8, "Q": c_uint64}
_NAMES = {"d": "doubles", "B": "bytes (0 to 255)", "Q": "whole numbers from 0 on"}
_POINTERS = {code: POINTER(ctype) for code, ctype in _CTYPES.items()}
# the formats of buffers that hold one of the three on this machine
_SAME = {"d": "d", "B": "B", "Q": "Q", "L": "Q", "N": "Q"}


def numbers(code: str, items: Any) -> array:
    """A copy of any list of numbers, as doubles ('d'), bytes ('B') or 64-bit whole numbers ('Q')."""
    if isinstance(items, str):
        raise TypeError(f"{_NAMES[code]} are expected, not a string")
    try:
        view = memoryview(items)
    except TypeError:
        return _exact(code, items)
    if view.ndim != 1:
        raise TypeError(f"a list has one dimension, not {view.ndim}")
    if _SAME.get(view.format.lstrip("@=<")) == code and view.itemsize == ctypes.sizeof(_CTYPES[code]):
        return array(code, view.tobytes())
    return _exact(code, _listed(view))


def _exact(code: str, items: Iterable[Any]) -> array:
    """A copy in which each number is the one that was given."""
    given = list(items)
    try:
        copy = array(code, given)
    except (TypeError, ValueError, OverflowError) as error:
        raise type(error)(f"{_NAMES[code]} are expected: {error}") from None
    for number, kept in zip(given, copy):
        if number != kept and number == number:
            raise ValueError(f"{number!r} is no double")
    return copy


def _listed(view: memoryview) -> List[Any]:
    try:
        return view.tolist()
    except NotImplementedError:
        raise TypeError(f"a buffer of format {view.format!r} is not of this machine's numbers") from None


def pairs(items: Any) -> Tuple[array, array]:
    """Pairs of numbers (a list of pairs, or a buffer of two columns) as two lists of doubles."""
    try:
        view = memoryview(items)
    except TypeError:
        rows = [tuple(pair) for pair in items]
    else:
        if view.ndim != 2:
            raise TypeError(f"pairs are expected: a buffer of two columns, not of {view.ndim} dimensions")
        rows = [tuple(pair) for pair in _listed(view)]
    if any(len(row) != 2 for row in rows):
        raise ValueError("pairs are expected")
    return numbers("d", [row[0] for row in rows]), numbers("d", [row[1] for row in rows])


def slots(code: str, count: int) -> array:
    """Room for so many numbers."""
    return array(code, bytes(count * ctypes.sizeof(_CTYPES[code])))


def lent(*lists: array) -> List[Any]:
    """Arrays as the library takes them, a pointer and a length each. Whoever calls keeps the arrays, and nobody resizes them."""
    parts = []
    for items in lists:
        address, length = items.buffer_info()
        parts += [ctypes.cast(address, _POINTERS[items.typecode]) if length else None, length]
    return parts
