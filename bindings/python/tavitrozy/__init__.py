"""Tavitrozy: OpenUSD value clips resolved and baked, exactly.

A `Resolver` holds one clip set, or none. It answers what an attribute is at a stage time, and bakes the whole answer into a `Track`: what holds first,
and every change, at the very double where the value changes.

    >>> import tavitrozy
    >>> resolver = tavitrozy.Resolver()
    >>> resolver.accept(2, starts=[(20, 0), (28, 1)], knots=[(20, 10), (28, 0), (36, 8)])
    >>> samples = tavitrozy.Samples.of_clips([[(0, 1.0), (10, 2.0)], [(0, 3.0), (2, None)]])
    >>> track = resolver.bake(samples)
    >>> track.read(24)
    Value(value=2.0)
    >>> track.read(30)
    Blocked()

`examine` judges a set without a resolver and gives it as a `Prepared` one, so that it can be shown before `Resolver.install` puts it in place of another.

A `Dispatcher` holds several sets, each under its name, and answers from one of them.

Values are doubles and held, never interpolated; one attribute at a time. docs/VALUE-CLIPS.md of the repository says what every call answers.
A *start* is an entry of OpenUSD's `active`, a *knot* an entry of `times`, a *block* is no value: nothing is drawn.

Lists may be numpy arrays, array.array, memoryviews or any sequences of numbers; they are copied. Any threads may call at once.
"""

from ._answers import Absent, Answer, Blocked, Refused, State, Value
from ._dispatcher import Dispatcher, NamedSet, Placed, SetSamples
from ._library import (
    MAX_BLOCKS,
    MAX_CLIPS,
    MAX_KNOTS,
    MAX_LISTED_NAMES,
    MAX_NAME_BYTES,
    MAX_SAMPLES,
    MAX_SET_NAME_BYTES,
    MAX_SETS,
    MAX_STARTS,
    MAX_TEMPLATE_BYTES,
    MAX_TIME,
)
from ._resolver import Resolver, SampleRead, Samples, StageSample, ValueRead
from ._set import Prepared, StandingSet, examine, examine_template
from ._track import Track
from ._without_set import environment_is_exact, name, normalize, template_clip_times, total_key

__version__ = "0.7.0"

__all__ = [
    "Absent",
    "Answer",
    "Blocked",
    "Dispatcher",
    "MAX_BLOCKS",
    "MAX_CLIPS",
    "MAX_KNOTS",
    "MAX_LISTED_NAMES",
    "MAX_NAME_BYTES",
    "MAX_SAMPLES",
    "MAX_SETS",
    "MAX_SET_NAME_BYTES",
    "MAX_STARTS",
    "MAX_TEMPLATE_BYTES",
    "MAX_TIME",
    "NamedSet",
    "Placed",
    "Prepared",
    "Refused",
    "Resolver",
    "SampleRead",
    "Samples",
    "SetSamples",
    "StageSample",
    "StandingSet",
    "State",
    "Track",
    "Value",
    "ValueRead",
    "environment_is_exact",
    "examine",
    "examine_template",
    "name",
    "normalize",
    "template_clip_times",
    "total_key",
]
