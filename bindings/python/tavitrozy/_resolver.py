"""The resolver: one clip set, and every question about it."""

import ctypes
from array import array
from ctypes import c_double, c_uint64
from functools import partial
from typing import Any, Callable, Iterable, List, NamedTuple, Optional, Tuple, Union

from . import _library, _lists
from ._answers import Answer, State, accepted, answer_of
from ._library import calls
from ._set import Default, Prepared, StandingSet, shown, with_explicit, with_template
from ._track import Track


class Samples:
    """The samples of all clips of a set, as three lists of one length, the clips one after the other, and where each clip ends.

    times: clip times, strictly ascending within a clip. values: doubles. marks: 0 a value, 1 a block (the value's slot may then hold anything).
    ends: one for each clip of the set; ends 2, 2, 3 give clip 0 the first two samples, clip 1 none and clip 2 the third.
    The lists are copied: later changes to them are not seen.
    """

    __slots__ = ("_lists", "_lent")

    def __init__(self, times: Any, values: Any, marks: Any, ends: Any) -> None:
        self._lists = tuple(_lists.numbers(code, items) for code, items in zip("ddBQ", (times, values, marks, ends)))
        self._lent = _lists.lent(*self._lists)

    @classmethod
    def of_clips(cls, clips: Iterable[Iterable[Tuple[float, Optional[float]]]]) -> "Samples":
        """From each clip's samples as pairs of clip time and value, `None` for a block."""
        times, values, marks, ends = [], [], [], []
        for clip in clips:
            for time, value in clip:
                times.append(time)
                values.append(0.0 if value is None else value)
                marks.append(_library.BLOCK if value is None else _library.VALUE)
            ends.append(len(times))
        return cls(times, values, marks, ends)

    def __len__(self) -> int:
        """How many samples there are, over all clips."""
        return len(self._lists[0])

    def __reduce__(self):
        return Samples, self._lists


class SampleRead(NamedTuple):
    """A sample, by the number of its clip and its place there, counted from 0 at the clip's first sample.

    In the lists of `Samples` it stands at `place`, of clip 0, and at `ends[clip - 1] + place`, of any other clip.
    """

    clip: int
    place: int


class ValueRead(NamedTuple):
    """The value at a stage time, and the sample that it was read from: None for the default, a blocked answer (a block that was read, too) and an absent one."""

    value: Answer
    sample: Optional[SampleRead]

    @classmethod
    def _of(cls, reply: _library.ValueReply) -> "ValueRead":
        sample = SampleRead(reply.clip, reply.place) if reply.sampled else None
        return cls(answer_of(reply.mark, reply.value), sample)


class StageSample(NamedTuple):
    """A stage time at which a start, a knot or a sample lies, and whether no value is supplied there."""

    time: float
    blocked: bool


class _Held(NamedTuple):
    """A shape and its five lists, which are not written again once a resolver has them."""

    shape: _library.Shape
    starts: Any
    numbers: Any
    xs: Any
    ys: Any
    blocks: Any

    @property
    def lent(self) -> List[Any]:
        """As the library takes it."""
        return [self.shape, *(part for items in self[1:] for part in (items, len(items)))]


def _nothing() -> _Held:
    starts, knots, blocks = _library.MAX_STARTS, _library.MAX_KNOTS, _library.MAX_BLOCKS
    lists = (c_double * starts)(), (c_uint64 * starts)(), (c_double * knots)(), (c_double * knots)(), (c_double * blocks)()
    return _Held(calls.tavitrozy_lent_fresh(), *lists)


class Resolver:
    """Holds one clip set, or none; answers questions about it. A refused call raises `Refused` and changes nothing.

    Any threads may use one resolver: a question is about the set that stood when it was asked. `copy.copy` gives one with the same set.
    """

    __slots__ = ("_held",)

    def __init__(self) -> None:
        self._held = _nothing()

    def __copy__(self) -> "Resolver":
        other = Resolver()
        other._held = self._held
        return other

    def __deepcopy__(self, memo: Any) -> "Resolver":
        return self.__copy__()

    def __reduce__(self):
        raise TypeError("a resolver is not pickled: accept its set again")

    # ---- calls that may change what stands

    def _settle(self, call: Callable[..., _library.Settled], *arguments: Any) -> None:
        """The call writes to lists of its own, which are held if it is accepted."""
        held, new = self._held, _nothing()
        for old, copy in zip(held[1:], new[1:]):
            ctypes.memmove(copy, old, ctypes.sizeof(old))
        settled = call(*new._replace(shape=held.shape).lent, *arguments)
        accepted(settled.number)
        self._held = new._replace(shape=settled.shape)

    def accept(
        self, clips: int, starts: Any, knots: Any = (), blocks: Any = (), default: Default = None, interpolate: bool = False
    ) -> None:
        """An explicit set, which replaces the one that stood. Refused with 1, 2, 3, 4, 5 or 9.

        clips: how many clips there are. starts: pairs of a stage time and the number of the clip that is active from there on (OpenUSD's `active`).
        knots: pairs of a stage time and the clip time there (`times`); without knots clip time is stage time. Each list may be in any order, or a
        buffer of two columns. blocks: manifest block times, the starts at which a clip is known to have no value; they count with `interpolate` alone.
        default: the manifest default, which holds where the active clip has no samples: a number, `Blocked()` or None.
        interpolate: OpenUSD's interpolateMissingClipValues. It interpolates nothing: a missing value is looked for at other starts.
        """
        with_explicit(partial(self._settle, calls.tavitrozy_lent_accept), clips, starts, knots, blocks, default, interpolate)

    def accept_template(
        self,
        pattern: Union[str, bytes],
        start: float,
        end: float,
        stride: float,
        offset: Optional[float] = None,
        blocks: Any = (),
        default: Default = None,
        interpolate: bool = False,
    ) -> None:
        """A template set: a clip for each stride from start to end. Refused with 1, 2, 7, 6, 8, 2, 4, 5 or 9.

        pattern: a file name with one or two runs of #, as f.###.usd. offset: None, or how far each start lies from its clip time. The rest as in `accept`.
        """
        numbers = (start, end, stride, offset)
        with_template(partial(self._settle, calls.tavitrozy_lent_accept_template), pattern, numbers, blocks, default, interpolate)

    def install(self, prepared: Prepared) -> None:
        """Puts a prepared set in place of the one that stood. Never refused.

        It may be installed at any time after it was examined (`tavitrozy.examine`), as often as wanted and in as many resolvers: it brings the set back as
        it was prepared. `accept` is the examining and, where that is not refused, the installing.
        """
        new = _nothing()
        self._held = new._replace(shape=calls.tavitrozy_lent_install(*new.lent, prepared._set))

    def retime(self, offset: float = 0.0, scale: float = 1.0) -> None:
        """Moves all stage times t of the set to offset + scale * t. Refused with 20, 2, 4 or 5.

        It may be repeated: each retiming moves what the one before left, with its own roundings. (0, 1) changes nothing.
        """
        self._settle(calls.tavitrozy_lent_retime, _library.LayerOffset(offset, scale))

    # ---- questions

    @property
    def standing(self) -> Optional[StandingSet]:
        """The set that stands, or None."""
        shape, starts, numbers, xs, ys, blocks = self._held
        if not shape.stands:
            return None
        counts, manifest = shape.counts, shape.manifest
        pairs = zip(starts[: counts.starts], numbers[: counts.starts]), zip(xs[: counts.knots], ys[: counts.knots])
        return shown(shape.clips, *pairs, blocks[: counts.blocks], manifest.fallback, manifest.interpolate)

    def active_clip(self, stage_time: float) -> Optional[int]:
        """The number of the clip that is active at a stage time; None in a set without starts. Refused with 20 or 10."""
        reply = calls.tavitrozy_lent_active_clip(*self._held.lent, _library.StageTime(stage_time))
        accepted(reply.number)
        return reply.clip if reply.found else None

    def clip_time(self, stage_time: float) -> float:
        """The clip time at a stage time. Refused with 20 or 10."""
        reply = calls.tavitrozy_lent_clip_time(*self._held.lent, _library.StageTime(stage_time))
        accepted(reply.number)
        return reply.time.value

    def value(self, samples: Samples, stage_time: float) -> Answer:
        """The value at a stage time, with the bits that were lent: -0.0 stays -0.0. Refused with 20, 1, 2, 9 or 10."""
        return self.value_read(samples, stage_time).value

    def value_read(self, samples: Samples, stage_time: float) -> ValueRead:
        """The value at a stage time, and the sample that it was read from. Refused with 20, 1, 2, 9 or 10.

        A missing value that was found at another start has that start's clip; one that is held has what was read where it is held from.

            >>> resolver = Resolver()
            >>> resolver.accept(2, starts=[(0, 0), (10, 1)])
            >>> samples = Samples.of_clips([[(0, 1.0), (5, 2.0)], [(10, 3.0), (20, None)]])
            >>> resolver.value_read(samples, 12)
            ValueRead(value=Value(value=3.0), sample=SampleRead(clip=1, place=0))
            >>> resolver.value_read(samples, 20)
            ValueRead(value=Blocked(), sample=None)
        """
        reply = calls.tavitrozy_lent_value(*self._held.lent, *samples._lent, _library.StageTime(stage_time))
        accepted(reply.number)
        return ValueRead._of(reply)

    def _ask(self, call: Callable[..., Any], samples: Samples, *outputs: array, held: Optional[_Held] = None) -> Any:
        """A question about the samples, with lists to write to."""
        reply = call(*(held or self._held).lent, *samples._lent, *_lists.lent(*outputs))
        accepted(reply.number)
        return reply

    def untimed(self, samples: Samples) -> State:
        """Whether there is a value at all, asked without a time. Refused with 20, 1, 2 or 9."""
        return State(self._ask(calls.tavitrozy_lent_untimed, samples).state)

    def stage_sample_times(self, samples: Samples) -> array:
        """The stage times at which starts, knots and samples lie, ascending. Refused with 20, 1, 2 or 9."""
        held = self._held
        times = _lists.slots("d", self._ask(calls.tavitrozy_lent_stage_sample_count, samples, held=held).count)
        self._ask(calls.tavitrozy_lent_stage_sample_times, samples, times, held=held)
        return times

    def stage_samples(self, samples: Samples) -> List[StageSample]:
        """The same times, each with whether a value is supplied there. Refused with 20, 1, 2 or 9."""
        held = self._held
        count = self._ask(calls.tavitrozy_lent_stage_sample_count, samples, held=held).count
        times, marks = _lists.slots("d", count), _lists.slots("B", count)
        self._ask(calls.tavitrozy_lent_stage_samples, samples, times, marks, held=held)
        return [StageSample(time, mark == _library.BLOCK) for time, mark in zip(times, marks)]

    def bake(self, samples: Samples) -> Track:
        """The track: the value at every stage time, zero as 0.0; from -0.0 to 0.0 is no change. Refused with 20, 1, 2 or 9."""
        held = self._held
        count = self._ask(calls.tavitrozy_lent_change_count, samples, held=held).count
        times, values, marks = _lists.slots("d", count), _lists.slots("d", count), _lists.slots("B", count)
        baked = self._ask(calls.tavitrozy_lent_bake, samples, times, values, marks, held=held)
        return Track._of(answer_of(baked.mark, baked.value), times, values, marks)
