"""What needs no set: names and clip times of a template, samples in any order, the total order, the floating-point environment."""

from array import array
from typing import Any, Optional, Tuple, Union

from . import _library, _lists
from ._answers import accepted
from ._library import calls


def template_times(start: float, end: float, stride: float, offset: Optional[float]) -> Tuple[_library.TemplateTimes, bool]:
    """A template's numbers as they are handed over, and whether there is an offset."""
    return _library.TemplateTimes(start, end, stride, 0.0 if offset is None else offset), offset is not None


def pattern_bytes(pattern: Union[str, bytes]) -> array:
    return _lists.numbers("B", pattern.encode() if isinstance(pattern, str) else pattern)


def name(pattern: Union[str, bytes], clip_time: float) -> Union[str, bytes]:
    """The file name of a template's clip at a clip time: of f.###.usd at 2, f.002.usd. Refused with 1, 2 or 6."""
    text, out = pattern_bytes(pattern), _lists.slots("B", _library.MAX_NAME_BYTES)
    reply = calls.tavitrozy_name(*_lists.lent(text), _library.ClipTime(clip_time), *_lists.lent(out))
    accepted(reply.number)
    written = out[: reply.count].tobytes()
    return written.decode() if isinstance(pattern, str) else written


def template_clip_times(start: float, end: float, stride: float, offset: Optional[float] = None) -> array:
    """The clip times of a template's clips, in order: `name` at the i-th is clip i's file. Refused with 2, 7 or 8."""
    times = _lists.slots("d", _library.MAX_CLIPS)
    reply = calls.tavitrozy_template_clip_times(*template_times(start, end, stride, offset), *_lists.lent(times))
    accepted(reply.number)
    return times[: reply.count]


def normalize(times: Any, values: Any, marks: Any) -> Tuple[array, array, array]:
    """One clip's samples in any order, sorted; of equal times the first time stays, with the last value and mark. Refused with 1, 2 or 9."""
    given = _lists.numbers("d", times), _lists.numbers("d", values), _lists.numbers("B", marks)
    first, second, third = (_lists.slots(code, len(given[0])) for code in "ddB")
    reply = calls.tavitrozy_normalize(*_lists.lent(*given, first, second, third))
    accepted(reply.number)
    return first[: reply.count], second[: reply.count], third[: reply.count]


def total_key(bits: int) -> int:
    """The key of a double's bit pattern: keys are in the total order of the patterns, and only equal patterns have equal keys.

    The order has a place for every pattern: negative NaNs (the larger payload first), -infinity, .., -0.0, 0.0, .., infinity, NaNs. Bits and key are whole
    numbers from 0 to 2**64 - 1; others raise an OverflowError.

        >>> import struct
        >>> def key(number):
        ...     return total_key(int.from_bytes(struct.pack(">d", number), "big"))
        >>> sorted([float("nan"), 0.0, 1.5, -0.0, -2.0], key=key)
        [-2.0, -0.0, 0.0, 1.5, nan]
    """
    return calls.tavitrozy_total_key(*_lists.numbers("Q", [bits]))


# Names and no literals, so that Python does not compute with them beforehand.
_ONE, _HALF, _STEP, _LEAST_NORMAL, _LEAST, _LIFT = 1.0, 0.5, 2.0**-52, 2.0**-1022, 2.0**-1074, 2.0**52


def environment_is_exact() -> bool:
    """Whether this thread computes doubles as the library needs it: round to nearest, no flush to zero (FTZ), no denormals-are-zero (DAZ).

    Animation hosts often set the latter two; many tracks are then wrong.
    """
    tie, up = _ONE + _STEP * _HALF, _ONE + _STEP * (_HALF + _HALF * _HALF)
    return not tie > _ONE and up > _ONE and _LEAST_NORMAL * _HALF > 0.0 and _LEAST * _LIFT > 0.0
