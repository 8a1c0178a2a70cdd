"""The dispatcher: several sets on one part, each under its name, and the two questions that one of them answers."""

import ctypes
import threading
from ctypes import POINTER, c_double, c_uint8, c_uint64
from functools import partial
from typing import Any, Callable, Iterable, List, NamedTuple, Optional, Tuple, Union

from . import _library, _lists
from ._answers import accepted, answer_of
from ._library import calls
from ._resolver import Samples, ValueRead
from ._set import Default, Prepared, StandingSet, shown, with_explicit, with_template
from ._track import Track

Name = Union[str, bytes]


class SetSamples:
    """The samples of all sets of a dispatcher, also of those that do not answer: in the order of acceptance, one set after the other.

    counts: how many samples each set has, one count for each set. ends: the clip ends of all sets, each set's counted from its own first sample.
    times, values, marks: as in `Samples`, of all sets. The lists are copied: later changes to them are not seen.
    """

    __slots__ = ("_lists", "_lent")

    def __init__(self, counts: Any, ends: Any, times: Any, values: Any, marks: Any) -> None:
        self._lists = tuple(_lists.numbers(code, items) for code, items in zip("QQddB", (counts, ends, times, values, marks)))
        self._lent = _lists.lent(*self._lists)

    @classmethod
    def of_sets(cls, sets: Iterable[Samples]) -> "SetSamples":
        """From each set's own samples."""
        counts, joined = [], [_lists.slots(code, 0) for code in "ddBQ"]
        for samples in sets:
            times, values, marks, _ = samples._lists
            if not len(times) == len(values) == len(marks):
                raise ValueError("a set's times, values and marks are lists of one length")
            counts.append(len(times))
            for whole, own in zip(joined, samples._lists):
                whole.extend(own)
        times, values, marks, ends = joined
        return cls(counts, ends, times, values, marks)

    def __len__(self) -> int:
        """How many samples there are, over all sets."""
        return len(self._lists[2])

    def __reduce__(self):
        return SetSamples, self._lists


class Placed(NamedTuple):
    """What a dispatcher replies: which set answers, and what it replies.

    set: the place, from 0, of the set that answers in the order in force, which is the order list without names that no set has and each name once, or the byte
    order of all names. Sets that do not qualify are counted. None: no set qualifies, and the answer is `Absent()`.
    """

    set: Optional[int]
    reply: Any


class NamedSet(NamedTuple):
    """A set of a dispatcher: its name, whether its manifest declares the attribute, and the set as it stands. A copy."""

    name: bytes
    declares: bool
    set: StandingSet


def _name_bytes(name: Name) -> bytes:
    return name.encode() if isinstance(name, str) else bytes(memoryview(name))


def _order(names: Optional[Iterable[Name]]) -> Tuple[bool, List[Any]]:
    """An order list as it is lent, and whether there is one."""
    if isinstance(names, (str, bytes)):
        raise TypeError("an order list is a list of names, not one name")
    listed, ends = _lists.slots("B", 0), _lists.slots("Q", 0)
    for name in names or ():
        listed.frombytes(_name_bytes(name))
        ends.append(len(listed))
    return names is not None, [listed, ends]


_POINTERS = {"numbers": POINTER(c_double), "counts": POINTER(c_uint64), "bytes": POINTER(c_uint8)}
# as the library takes a dispatcher: of each array the parts that it is lent, from where and how long
_PARTS = [
    ("numbers", 0, 4096),
    ("counts", 0, 4096),
    ("numbers", 4096, 8192),
    ("numbers", 12288, 8192),
    ("numbers", 20480, 4096),
    ("numbers", 24576, 16),
    ("counts", 4096, 81),
    ("bytes", 0, 4144),
]


class _Held:
    """A dispatcher as the header has it, which is not written again once a `Dispatcher` has it. Whoever lends it keeps it until the call is back."""

    __slots__ = ("struct", "lent")

    def __init__(self, old: Optional["_Held"] = None) -> None:
        self.struct = _library.Dispatcher()
        self.lent: List[Any] = []
        for field, first, length in _PARTS:
            items = getattr(self.struct, field)
            self.lent += [ctypes.cast(ctypes.addressof(items) + first * ctypes.sizeof(items._type_), _POINTERS[field]), length]
        if old is not None:
            ctypes.memmove(ctypes.byref(self.struct), ctypes.byref(old.struct), ctypes.sizeof(self.struct))
        elif not calls.tavitrozy_sets_fresh(*self.lent):
            raise RuntimeError("the library has dispatchers of another size: it is not the version that this package was written for")

    def set(self, i: int) -> NamedSet:
        """The i-th set, as the header says where it lies."""
        numbers, counts, raw = self.struct.numbers, self.struct.counts, self.struct.bytes
        clips, starts, knots, blocks = (counts[4097 + 16 * kind + i] for kind in range(4))
        mark, interpolate, declares = (raw[4096 + 16 * kind + i] for kind in range(3))
        name = bytes(raw[256 * i + 1 : 256 * i + 1 + raw[256 * i]])

        def part(items: Any, first: int, length: int) -> Any:
            return items[first : first + length]

        pairs = (
            zip(part(numbers, 256 * i, starts), part(counts, 256 * i, starts)),
            zip(part(numbers, 4096 + 512 * i, knots), part(numbers, 12288 + 512 * i, knots)),
        )
        default = _library.Default(mark, numbers[24576 + i])
        return NamedSet(name, bool(declares), shown(clips, *pairs, part(numbers, 20480 + 256 * i, blocks), default, bool(interpolate)))


class Dispatcher:
    """Holds up to 16 sets, each under a name, and takes value and track from one of them. A refused call raises `Refused` and changes nothing.

    The first set answers, in the order, that has starts and whose manifest declares the attribute. The order is that of a list of names, if one is given, and else
    the byte order of all names. Sets are accepted or installed one by one and stay: none is replaced or removed. A name is a string or bytes, at most 255 bytes.
    The samples of all sets are lent with each question, and all are checked.

        >>> hinge = Dispatcher()
        >>> hinge.accept("coarse", True, 1, [(0, 0)])
        >>> hinge.accept("fine", True, 1, [(0, 0)])
        >>> coarse, fine = Samples.of_clips([[(0, 10.0)]]), Samples.of_clips([[(0, 9.5), (1, 10.5)]])
        >>> samples = SetSamples.of_sets([coarse, fine])
        >>> hinge.value(samples, 1)
        Placed(set=0, reply=Value(value=10.0))
        >>> hinge.value(samples, 1, order=["fine", "coarse"])
        Placed(set=0, reply=Value(value=10.5))

    It stands beside any `Resolver`, and neither touches the other. Any threads may use one dispatcher: a question is about the sets that stood when it was asked.
    `copy.copy` gives one with the same sets.
    """

    __slots__ = ("_held", "_changing")

    def __init__(self) -> None:
        self._held = _Held()
        self._changing = threading.Lock()

    def __copy__(self) -> "Dispatcher":
        other = Dispatcher()
        other._held = self._held
        return other

    def __deepcopy__(self, memo: Any) -> "Dispatcher":
        return self.__copy__()

    def __reduce__(self):
        raise TypeError("a dispatcher is not pickled: accept its sets again")

    # ---- calls that may change it

    def _change(self, call: Callable[..., int], name: Name, *arguments: Any) -> None:
        """The call writes to a copy, which is held if it is accepted."""
        text = _lists.numbers("B", _name_bytes(name))
        with self._changing:
            new = _Held(self._held)
            accepted(call(*new.lent, *_lists.lent(text), *arguments))
            self._held = new

    def accept(
        self,
        name: Name,
        declares: bool,
        clips: int,
        starts: Any,
        knots: Any = (),
        blocks: Any = (),
        default: Default = None,
        interpolate: bool = False,
    ) -> None:
        """An explicit set under a name, its fields as for `Resolver.accept`. Refused with 23, 1, 2, 3, 4, 5 or 9.

        declares: whether the set's manifest declares the attribute.
        """
        call = partial(self._change, calls.tavitrozy_sets_accept, name, bool(declares))
        with_explicit(call, clips, starts, knots, blocks, default, interpolate)

    def accept_template(
        self,
        name: Name,
        declares: bool,
        pattern: Union[str, bytes],
        start: float,
        end: float,
        stride: float,
        offset: Optional[float] = None,
        blocks: Any = (),
        default: Default = None,
        interpolate: bool = False,
    ) -> None:
        """A template set under a name, its fields as for `Resolver.accept_template`. Refused with 23, 1, 2, 7, 6, 8, 2, 4, 5 or 9."""
        call = partial(self._change, calls.tavitrozy_sets_accept_template, name, bool(declares))
        with_template(call, pattern, (start, end, stride, offset), blocks, default, interpolate)

    def install(self, name: Name, declares: bool, prepared: Prepared) -> None:
        """Puts a prepared set under a name. Refused with 23 alone. The set may go under several names, and stays as it was prepared."""
        self._change(calls.tavitrozy_sets_install, name, bool(declares), prepared._set)

    def retime(self, name: Name, offset: float = 0.0, scale: float = 1.0) -> None:
        """Moves the set of that name, as `Resolver.retime` does. Refused with 20 (no set has the name), 2, 4 or 5."""
        self._change(calls.tavitrozy_sets_retime, name, _library.LayerOffset(offset, scale))

    # ---- questions

    @property
    def sets(self) -> Tuple[NamedSet, ...]:
        """The sets, in the order of acceptance."""
        held = self._held
        return tuple(held.set(i) for i in range(held.struct.counts[4096]))

    def value(self, samples: SetSamples, stage_time: float, order: Optional[Iterable[Name]] = None) -> Placed:
        """The value at a stage time, by the set that answers. Refused with 23, 1, 2, 9 or 10.

        order: a list of names, from the first that may answer to the last; one without names is a list too, by which no set answers. None: no list.
        """
        place, read = self.value_read(samples, stage_time, order)
        return Placed(place, read.value)

    def value_read(self, samples: SetSamples, stage_time: float, order: Optional[Iterable[Name]] = None) -> Placed:
        """The same, and the sample that it was read from, by clip and place within the answering set's own samples: a `ValueRead` as the reply."""
        held, (given, names) = self._held, _order(order)
        told = calls.tavitrozy_sets_value(*held.lent, given, *_lists.lent(*names), *samples._lent, _library.StageTime(stage_time))
        accepted(told.reply.number)
        return Placed(told.set if told.placed else None, ValueRead._of(told.reply))

    def bake(self, samples: SetSamples, order: Optional[Iterable[Name]] = None) -> Placed:
        """The track of the set that answers, as the reply; where no set qualifies its head is absent. Refused with 23, 1, 2 or 9."""
        held, (given, names) = self._held, _order(order)
        # Enough where the knots do not turn back; otherwise room is added until the track fits.
        room = min(len(samples), _library.MAX_SAMPLES) + _library.MAX_STARTS
        while True:
            times, values, marks = _lists.slots("d", room), _lists.slots("d", room), _lists.slots("B", room)
            outputs = _lists.lent(times, values, marks)
            told = calls.tavitrozy_sets_bake(*held.lent, given, *_lists.lent(*names), *samples._lent, *outputs)
            if told.reply.number != _NO_ROOM:
                break
            room *= 4
        accepted(told.reply.number)
        count = told.reply.count
        track = Track._of(answer_of(told.reply.mark, told.reply.value), times[:count], values[:count], marks[:count])
        return Placed(told.set if told.placed else None, track)


_NO_ROOM = 22
