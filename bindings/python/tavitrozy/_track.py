"""A track: what holds first, and every change."""

from array import array
from typing import Any, Iterator, Tuple

from . import _library, _lists
from ._answers import Answer, Value, answer_of, mark_of, value_of
from ._library import calls


class Track:
    """The value at every stage time: a head, and changes that each hold from their time on.

    `bake` makes one; it can also be made of a head (`Value`, `Blocked` or `Absent`) and three lists of one length: ascending stage times, values, and
    marks (0 a value, 1 a block). The lists are copied, with zero as 0.0, of times and values, and under a block the value 0.0, as a bake writes them. A track
    does not change. Two tracks are equal if their heads and their changes are: at equal times, with equal marks and equal numbers.
    """

    __slots__ = ("_head", "_times", "_values", "_marks", "_lent")

    def __init__(self, head: Answer, times: Any, values: Any, marks: Any) -> None:
        times, values, marks = _lists.numbers("d", times), _lists.numbers("d", values), _lists.numbers("B", marks)
        if not len(times) == len(values) == len(marks):
            raise ValueError("times, values and marks are lists of one length")
        if max(marks, default=0) > _library.NONE:
            raise ValueError("a mark is 0 (a value), 1 (a block) or 2 (absent)")
        for place, mark in enumerate(marks):
            times[place] = times[place] or 0.0  # -0.0 becomes 0.0
            values[place] = values[place] or 0.0 if mark == _library.VALUE else 0.0
        self._hold(Value(0.0) if head == Value(0.0) else head, times, values, marks)

    @classmethod
    def _of(cls, head: Answer, times: array, values: array, marks: array) -> "Track":
        """A track of arrays that nobody else has."""
        track = cls.__new__(cls)
        track._hold(head, times, values, marks)
        return track

    def _hold(self, head: Answer, times: array, values: array, marks: array) -> None:
        self._head, self._times, self._values, self._marks = head, times, values, marks
        entry = _library.Entry(value_of(head), mark_of(head))
        self._lent = (entry, *_lists.lent(times, values, marks))

    @property
    def head(self) -> Answer:
        """What holds before the first change."""
        return self._head

    @property
    def times(self) -> memoryview:
        """The stage times of the changes, ascending; read-only, and as good as an array to numpy."""
        return memoryview(self._times).toreadonly()

    @property
    def values(self) -> memoryview:
        """The value of each change; 0.0 where its mark is not 0. A value zero is 0.0, whatever its sign was."""
        return memoryview(self._values).toreadonly()

    @property
    def marks(self) -> memoryview:
        """The mark of each change: 0 a value, 1 a block."""
        return memoryview(self._marks).toreadonly()

    def read(self, stage_time: float) -> Answer:
        """What the track gives at a stage time: the last change at or before it, else the head. (A NaN gives the head.)"""
        entry = calls.tavitrozy_read(*self._lent, _library.StageTime(stage_time))
        return answer_of(entry.mark, entry.value)

    def __len__(self) -> int:
        """How many changes there are."""
        return len(self._times)

    def __bool__(self) -> bool:
        """A track without a change is still one."""
        return True

    def __iter__(self) -> Iterator[Tuple[float, Answer]]:
        """Each change: its stage time and what holds from there on."""
        return ((time, answer_of(mark, value)) for time, value, mark in zip(self._times, self._values, self._marks))

    def _bits(self) -> Tuple[bytes, ...]:
        """What is equal for equal tracks: zero is 0.0 here, so bits differ where numbers do. (A NaN equals its own bits.)"""
        head = _library.Entry(value_of(self._head), 0)
        return bytes([mark_of(self._head)]), bytes(head)[:8], self._times.tobytes(), self._values.tobytes(), self._marks.tobytes()

    def __eq__(self, other: object) -> bool:
        return self._bits() == other._bits() if isinstance(other, Track) else NotImplemented

    def __hash__(self) -> int:
        return hash(self._bits())

    def __reduce__(self):
        return Track, (self._head, self._times, self._values, self._marks)

    def __repr__(self) -> str:
        return f"<Track: head {self._head}, {len(self)} changes>"
