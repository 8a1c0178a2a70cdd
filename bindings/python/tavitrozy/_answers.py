"""What calls answer: a value, blocked or absent; and the refusal, by its number."""

import enum
from dataclasses import dataclass
from typing import Union

from . import _library

# as in include/tavitrozy.h
_WORDS = {
    1: "a clip count or an input list above its limit, paired lists of unlike length, clip ends unlike the clips in number, "
    "sample counts unlike the sets in number or not adding up",
    2: "a time, or a template's or retiming's number, not finite; a time beyond 2^40 (also after expansion or retiming); a NaN under mark 0",
    3: "a clip number not finite, negative, not whole or not below the clip count",
    4: "two equal starts (-0.0 and 0.0 are equal)",
    5: "three knots of one x (two are a jump, and fine)",
    6: "a pattern without #, with a # too many, or with too wide a run of them",
    7: "stride <= 0, end < start, |offset| > stride",
    8: "a 257th clip from a template",
    9: "samples not strictly ascending within a clip, clip ends falling or not closing the list, a mark not allowed in its place",
    10: "a stage time asked about that is not finite",
    20: "no set stands, or none of that name",
    21: "no longer given; up to 0.2.0: the set is already retimed",
    22: "the shortest of the output lists is shorter than the reply",
    23: "a 17th set, a second set of one name, a name above 255 bytes, an order list above 255 names or whose name ends fall or do not close it",
}


class Refused(Exception):
    """A call that is refused: `number` says why (docs/VALUE-CLIPS.md), `words` the same in words. What stood still stands."""

    def __init__(self, number: int) -> None:
        self.number = number
        self.words = _WORDS.get(number, "not known to this version")
        super().__init__(f"refused with {number}: {self.words}")

    def __reduce__(self):
        return Refused, (self.number,)


def accepted(number: int) -> None:
    if number:
        raise Refused(number)


@dataclass(frozen=True)
class Value:
    """A number: it is drawn. Two are equal as numbers: 0.0 and -0.0 are, as a track counts it; `math.copysign` tells the sign that `Resolver.value` keeps."""

    value: float


@dataclass(frozen=True)
class Blocked:
    """A block: nothing is drawn."""


@dataclass(frozen=True)
class Absent:
    """What a set without starts answers, and a dispatcher of which no set qualifies."""


Answer = Union[Value, Blocked, Absent]


class State(enum.Enum):
    """Whether there is a value at all, asked without a time."""

    PRESENT = 0
    BLOCKED = 1
    ABSENT = 2


def answer_of(mark: int, value: float) -> Answer:
    if mark == _library.VALUE:
        return Value(value)
    return Blocked() if mark == _library.BLOCK else Absent()


def mark_of(answer: Answer) -> int:
    if isinstance(answer, Value):
        return _library.VALUE
    if isinstance(answer, Blocked):
        return _library.BLOCK
    if isinstance(answer, Absent):
        return _library.NONE
    raise TypeError(f"{answer!r} is no answer: Value, Blocked or Absent")


def value_of(answer: Answer) -> float:
    return float(answer.value) if isinstance(answer, Value) else 0.0
