"""A set: its fields as they are handed over, what is shown of one, and one that is examined before it is installed."""

import operator
from typing import Any, Callable, Iterable, NamedTuple, Optional, Tuple, Union

from . import _library, _lists
from ._answers import Absent, Blocked, Value, accepted, answer_of
from ._library import calls
from ._without_set import pattern_bytes, template_times

Default = Union[None, float, Value, Blocked, Absent]


class StandingSet(NamedTuple):
    """The set that stands: sorted, expanded, and moved by every retiming since it was accepted or installed. A copy."""

    clips: int
    starts: Tuple[Tuple[float, int], ...]
    knots: Tuple[Tuple[float, float], ...]
    blocks: Tuple[float, ...]
    default: Union[None, Value, Blocked]
    interpolate: bool


def shown(
    clips: int, starts: Iterable[Any], knots: Iterable[Any], blocks: Iterable[float], fallback: _library.Default, interpolate: bool
) -> StandingSet:
    default = answer_of(fallback.mark, fallback.value)
    return StandingSet(clips, tuple(starts), tuple(knots), tuple(blocks), None if isinstance(default, Absent) else default, interpolate)


# ---- fields


def _default(given: Default) -> _library.Default:
    """The manifest default, as it is handed over: None (or Absent()) is none."""
    if given is None or isinstance(given, Absent):
        return _library.Default(_library.NONE, 0.0)
    if isinstance(given, Blocked):
        return _library.Default(_library.BLOCK, 0.0)
    return _library.Default(_library.VALUE, given.value if isinstance(given, Value) else given)


def _count(clips: int) -> int:
    count = operator.index(clips)
    if not 0 <= count < 2**64:
        raise OverflowError("a clip count is a whole number from 0 on")
    return count


def with_explicit(call: Callable[..., Any], clips: int, starts: Any, knots: Any, blocks: Any, default: Default, interpolate: bool) -> Any:
    """Calls with the fields of an explicit set as the library takes them; the lists are kept until the call is back."""
    lists = (*_lists.pairs(starts), *_lists.pairs(knots), _lists.numbers("d", blocks))
    return call(_count(clips), *_lists.lent(*lists), _default(default), bool(interpolate))


def with_template(
    call: Callable[..., Any], pattern: Union[str, bytes], numbers: Tuple[Any, ...], blocks: Any, default: Default, interpolate: bool
) -> Any:
    """Calls with the fields of a template set; numbers are its start, end, stride and offset."""
    text, given = pattern_bytes(pattern), _lists.numbers("d", blocks)
    return call(*_lists.lent(text), *template_times(*numbers), *_lists.lent(given), _default(default), bool(interpolate))


# ---- examined sets


class Prepared:
    """A set that `examine` or `examine_template` gave: the very set that an acceptance would put in the resolver.

    It does not change. It may be kept, copied and pickled, and `Resolver.install` puts it in a resolver at any later time, as often as wanted and in as many
    resolvers; whatever retimings these see, it stays as it was prepared.
    """

    __slots__ = ("_set",)

    def __init__(self) -> None:
        raise TypeError("a prepared set is given by examine or examine_template")

    @classmethod
    def _of(cls, examined: _library.Examined) -> "Prepared":
        accepted(examined.number)
        prepared = cls.__new__(cls)
        prepared._set = examined.set
        return prepared

    @property
    def set(self) -> StandingSet:
        """The set, as it stands once it is installed."""
        held = self._set
        starts, knots, blocks = (items.items[: items.count] for items in (held.active, held.knots, held.blocks))
        pairs = [(start.time, start.clip) for start in starts], [(knot.x, knot.y) for knot in knots]
        return shown(held.clips, *pairs, blocks, held.fallback, held.interpolate)

    def __copy__(self) -> "Prepared":
        return self

    def __deepcopy__(self, memo: Any) -> "Prepared":
        return self

    def __reduce__(self):
        # Examined again, since install rests on sets that only the library wrote.
        return examine, tuple(self.set)

    def __repr__(self) -> str:
        held = self._set
        return f"<Prepared: {held.clips} clips, {held.active.count} starts, {held.knots.count} knots>"


def examine(
    clips: int, starts: Any, knots: Any = (), blocks: Any = (), default: Default = None, interpolate: bool = False
) -> Prepared:
    """Examines an explicit set, given as for `Resolver.accept`, and touches no resolver. Refused with 1, 2, 3, 4, 5 or 9.

    So a set can be shown before it takes the place of the one that stands:

        >>> from tavitrozy import Resolver
        >>> desk, preview = Resolver(), Resolver()
        >>> desk.accept(2, [(20, 0), (28, 1)])
        >>> prepared = examine(2, [(20, 0), (24, 1)])
        >>> preview.install(prepared)
        >>> preview.active_clip(25), desk.active_clip(25)
        (1, 0)
        >>> desk.install(prepared)
        >>> desk.active_clip(25)
        1
    """
    return Prepared._of(with_explicit(calls.tavitrozy_examine, clips, starts, knots, blocks, default, interpolate))


def examine_template(
    pattern: Union[str, bytes],
    start: float,
    end: float,
    stride: float,
    offset: Optional[float] = None,
    blocks: Any = (),
    default: Default = None,
    interpolate: bool = False,
) -> Prepared:
    """Examines a template set, given as for `Resolver.accept_template`, and touches no resolver. Refused with 1, 2, 7, 6, 8, 2, 4, 5 or 9."""
    numbers = (start, end, stride, offset)
    return Prepared._of(with_template(calls.tavitrozy_examine_template, pattern, numbers, blocks, default, interpolate))
