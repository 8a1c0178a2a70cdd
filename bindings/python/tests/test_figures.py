"""The worked figures of docs/VALUE-CLIPS.md, as a Python program meets them."""

import doctest
import math
import unittest

import tavitrozy
from tavitrozy import Absent, Blocked, Refused, Resolver, Samples, StageSample, State, Track, Value


def resolver(clips, starts, knots=(), **more):
    made = Resolver()
    made.accept(clips, starts, knots, **more)
    return made


class Figures(unittest.TestCase):
    def refused(self, number, call, *arguments, **more):
        with self.assertRaises(Refused) as caught:
            call(*arguments, **more)
        self.assertEqual(caught.exception.number, number)

    def test_active_clip(self):
        r = resolver(2, [(0, 0), (10, 1)])
        self.assertEqual([r.active_clip(t) for t in (-5, 9.5, 10)], [0, 0, 1])

    def test_equal_entries(self):
        r = Resolver()
        self.refused(4, r.accept, 2, [(0.0, 0), (-0.0, 1)])
        self.refused(3, r.accept, 2, [(0.0, 1.5)])
        self.refused(5, r.accept, 1, [(0, 0)], [(5, 1), (5, 2), (5, 3)])
        self.assertIsNone(r.standing)
        r.accept(1, [(0, 0)], [(5, 1), (5, 2)])
        self.assertEqual(r.standing.knots, ((5.0, 1.0), (5.0, 2.0)))

    def test_clip_time(self):
        r = resolver(1, [(0, 0)], [(0, 0), (10, 10), (10, 0), (20, 10)])
        self.assertEqual([r.clip_time(t) for t in (-1, 5, 10, 15, 25)], [0, 5, 0, 5, 10])

    def test_retimed_again(self):
        """Each moves what the one before left, with its own roundings: joined, the two would be (0, 1)."""
        r = resolver(1, [(0.7, 0)], [(0.7, 5)], blocks=[0.7])
        r.retime(0, 3)
        self.assertEqual(r.standing.starts, ((2.0999999999999996, 0),))
        r.retime(0, 0.3333333333333333)
        moved = 0.6999999999999998
        self.assertEqual((r.standing.starts, r.standing.knots, r.standing.blocks), (((moved, 0),), ((moved, 5.0),), (moved,)))
        r.accept(1, [(0.0, 0)])
        r.retime(-0.0, -1)
        r.retime()
        self.assertEqual(math.copysign(1, r.standing.starts[0][0]), -1)

    def test_template(self):
        r = Resolver()
        r.accept_template("f.###.usd", 1, 3, 1)
        self.assertEqual(r.standing.starts, ((1.0, 0), (2.0, 1), (3.0, 2)))
        names = [tavitrozy.name("f.###.usd", time) for time in tavitrozy.template_clip_times(1, 3, 1)]
        self.assertEqual(names, ["f.001.usd", "f.002.usd", "f.003.usd"])
        r.accept_template("f.###.usd", 101, 103, 1, 0.5)
        self.assertEqual([time for time, _ in r.standing.starts], [101.5, 102.5, 103.5])
        self.assertEqual(list(tavitrozy.template_clip_times(101, 103, 1, 0.5)), [101, 102, 103])
        self.refused(5, r.accept_template, "f.###.usd", 1, 1, 1, 0)
        r.accept_template("f.###.usd", 1, 1, 1)

    def test_names(self):
        self.assertEqual(tavitrozy.name("f.###.usd", -5), "f.-05.usd")
        self.assertEqual(tavitrozy.name("f.##.##.usd", -0.5), "f.-00.50.usd")
        self.assertEqual(tavitrozy.name("f.##.##.usd", 0.125), "f.00.12.usd")
        self.assertEqual(tavitrozy.name(b"f.##.##.usd", 0.375), b"f.00.38.usd")
        self.assertEqual(tavitrozy.name("größe.#.usd", 7), "größe.7.usd")

    def test_held(self):
        r = resolver(2, [(0, 0), (20, 1)], [(0, 10), (20, 0)])
        samples = Samples.of_clips([[(0, 1.0), (10, 2.0)], [(0, 3.0)]])
        self.assertEqual(r.value(samples, 5), Value(2.0))
        track = r.bake(samples)
        self.assertEqual(track.head, Value(2.0))
        self.assertEqual(list(track), [(20.0, Value(3.0))])
        self.assertEqual(r.untimed(samples), State.PRESENT)
        self.assertEqual(list(r.stage_sample_times(samples)), [0.0, 20.0])
        self.assertEqual(r.stage_samples(samples), [StageSample(0.0, False), StageSample(20.0, False)])

    def test_missing(self):
        starts = [(0, 0), (10, 1), (20, 2)]
        samples = Samples.of_clips([[(0, 1.0)], [], [(20, 3.0)]])
        self.assertEqual(resolver(3, starts).value(samples, 15), Blocked())
        self.assertEqual(list(resolver(3, starts).bake(samples)), [(10.0, Blocked()), (20.0, Value(3.0))])
        self.assertEqual(resolver(3, starts, interpolate=True).value(samples, 15), Value(1.0))
        self.assertEqual(resolver(3, starts, default=7).value(samples, 15), Value(7.0))
        self.assertEqual(resolver(3, starts, default=Blocked()).value(samples, 15), Blocked())
        track = resolver(3, starts, blocks=[0], interpolate=True).bake(samples)
        self.assertEqual((track.head, len(track)), (Value(3.0), 0))

    def test_falling(self):
        r = resolver(1, [(0, 0)], [(0, 10), (10, 0)])
        samples = Samples.of_clips([[(0, 1.0), (5, 2.0), (10, 3.0)]])
        track = r.bake(samples)
        (first, second) = track.times
        self.assertEqual(track.head, Value(3.0))
        self.assertEqual(list(track.values), [2.0, 1.0])
        self.assertTrue(0 < first < 1e-14)
        self.assertEqual(second, 5.000000000000001)
        for time, answer in track:
            self.assertEqual(r.value(samples, time), answer)
            self.assertNotEqual(r.value(samples, _below(time)), answer)

    def test_zeros(self):
        """A track writes zero as 0.0, and two zeros are no change; a value keeps its sign."""

        def signs(*numbers):
            return [math.copysign(1, number) for number in numbers]

        for clips, changes in (
            ([[(0, -0.0)], [(0, 0.0)]], []),
            ([[(0, 0.0)], [(0, -0.0)]], []),
            ([[(0, -0.0), (5, None)], [(0, 0.0)]], [(5.0, Blocked()), (10.0, Value(0.0))]),
            ([[(0, -0.0), (5, 1.0)], [(0, -0.0)]], [(5.0, Value(1.0)), (10.0, Value(0.0))]),
        ):
            r, samples = resolver(2, [(0, 0), (10, 1)]), Samples.of_clips(clips)
            track = r.bake(samples)
            self.assertEqual(list(track), changes)
            self.assertEqual(signs(track.head.value, *track.values), [1.0] * (1 + len(changes)))
            self.assertEqual(signs(*(r.value(samples, t).value for t in (-5, 15))), signs(clips[0][0][1], clips[1][0][1]))
            for time in (-5, 5, 10, 15):
                self.assertEqual(track.read(time), r.value(samples, time))
        r, samples = resolver(2, [(0, 0), (10, 1)], default=-0.0), Samples.of_clips([[(0, 0.0)], []])
        self.assertEqual((len(r.bake(samples)), signs(r.standing.default.value, r.value(samples, 15).value)), (0, [-1.0, -1.0]))
        r, samples = resolver(1, [(0, 0)], [(0, 10), (10, 0)]), Samples.of_clips([[(0, -0.0), (5, 0.0), (10, 1.0)]])
        self.assertEqual((r.bake(samples).head, list(r.bake(samples).values)), (Value(1.0), [0.0]))
        self.assertEqual(signs(r.value(samples, 5).value, r.value(samples, 5.000000000000001).value), [1.0, -1.0])

    def test_no_starts(self):
        r = resolver(0, [])
        samples = Samples.of_clips([])
        self.assertIsNone(r.active_clip(3))
        self.assertEqual((r.value(samples, 3), r.untimed(samples), r.clip_time(3)), (Absent(), State.ABSENT, 3.0))
        self.assertEqual(r.bake(samples), Track(Absent(), [], [], []))

    def test_normalize(self):
        times, values, marks = tavitrozy.normalize([2, 1, 2], [5, 6, 7], [0, 0, 1])
        self.assertEqual((list(times), list(values), list(marks)), ([1, 2], [6, 7], [0, 1]))

    def test_total_key(self):
        ascending = [2**64 - 1, 0xFFF8000000000001, 0xFFF8000000000000, 0xFFF0000000000001, 0xFFF0000000000000, 0xC000000000000000, 0xBFF0000000000000]
        ascending += [2**63 + 1, 2**63, 0, 1, 0x3FF0000000000000, 0x4000000000000000, 0x7FF0000000000000, 0x7FF0000000000001, 0x7FF8000000000000, 2**63 - 1]
        keys = [tavitrozy.total_key(bits) for bits in ascending]
        self.assertEqual(keys, sorted(set(keys)))
        self.assertEqual((keys[0], keys[8], keys[9], keys[-1]), (0, 2**63 - 1, 2**63, 2**64 - 1))
        for bits, error in [(-1, OverflowError), (2**64, OverflowError), (1.0, TypeError), ("0", TypeError)]:
            with self.subTest(bits=bits), self.assertRaises(error):
                tavitrozy.total_key(bits)

    def test_docstrings(self):
        for module in (tavitrozy, tavitrozy._dispatcher, tavitrozy._resolver, tavitrozy._set, tavitrozy._without_set):
            self.assertEqual(doctest.testmod(module).failed, 0)
        for name in tavitrozy.__all__:
            self.assertTrue(name.isupper() or name == "Answer" or getattr(tavitrozy, name).__doc__, name)


class SamplesRead(unittest.TestCase):
    """The sample that a value was read from."""

    refused = Figures.refused

    def check(self, r, samples, times, expected):
        """At each time the value, and clip and place of its sample."""
        read = [r.value_read(samples, time) for time in times]
        self.assertEqual(read, expected)
        self.assertEqual([r.value(samples, time) for time in times], [value for value, _ in read])

    def test_places(self):
        samples = Samples.of_clips([[(0, 1.0), (5, 2.0)], [(10, 3.0), (15, 3.0)]])
        expected = [(Value(1.0), (0, 0)), (Value(2.0), (0, 1)), (Value(3.0), (1, 0)), (Value(3.0), (1, 1))]
        self.check(resolver(2, [(0, 0), (10, 1)]), samples, [-1, 5, 10, 15], expected)
        read = resolver(2, [(0, 0), (10, 1)]).value_read(samples, 7)
        self.assertEqual((read.value, read.sample.clip, read.sample.place), (Value(2.0), 0, 1))

    def test_clip_and_not_start(self):
        samples = Samples.of_clips([[], [(0, 8.0)], [], [(0, 1.0)]])
        self.check(resolver(4, [(0, 3), (10, 3)]), samples, [5, 15], [(Value(1.0), (3, 0))] * 2)

    def test_at_another_start(self):
        r = resolver(1, [(0, 0), (10, 0)], blocks=[10], interpolate=True)
        self.check(r, Samples.of_clips([[(0, 1.0), (12, 2.0)]]), [13], [(Value(1.0), (0, 0))])
        starts, samples = [(0, 0), (10, 1), (20, 2)], Samples.of_clips([[(0, 1.0)], [], [(20, 3.0)]])
        self.check(resolver(3, starts, interpolate=True), samples, [15], [(Value(1.0), (0, 0))])
        self.check(resolver(3, starts, blocks=[0], interpolate=True), samples, [15], [(Value(3.0), (2, 0))])

    def test_where_it_is_held_from(self):
        r = resolver(1, [(0, 0), (1000, 0)], [(0, 2), (3, 10)])
        self.check(r, Samples.of_clips([[(2, 1.0), (7.6, 2.0)]]), [2.5, 3], [(Value(1.0), (0, 0)), (Value(2.0), (0, 1))])

    def test_none(self):
        """For the default, though a number that equals it has a sample; for a block, read or not; for what is absent."""
        starts, samples = [(0, 0), (10, 1)], Samples.of_clips([[(0, 7.0), (5, None)], []])
        self.check(resolver(2, starts, default=7), samples, [0, 5, 10], [(Value(7.0), (0, 0)), (Blocked(), None), (Value(7.0), None)])
        self.check(resolver(2, starts), samples, [10], [(Blocked(), None)])
        self.check(resolver(2, []), samples, [0], [(Absent(), None)])

    def test_refused(self):
        r, samples = resolver(1, [(0, 0)]), Samples.of_clips([[(0, 1.0)]])
        self.refused(20, Resolver().value_read, samples, 0)
        self.refused(1, r.value_read, Samples([], [], [], []), 0)
        self.refused(2, r.value_read, Samples([math.nan], [1], [0], [1]), 0)
        self.refused(9, r.value_read, Samples([0], [1], [2], [1]), 0)
        self.refused(10, r.value_read, samples, math.inf)

    def test_as_the_lists_have_it(self):
        """Clip 3 has no samples; every sixth sample is a block."""
        clips = [[(i * 4 + clip, None if i % 6 == 5 else clip * 100.0 + i) for i in range(0 if clip == 3 else 10)] for clip in range(5)]
        r = resolver(5, [(i * 10, i * 7 % 5) for i in range(20)], [(0, 0), (90, 40), (130, 3)], interpolate=True)
        samples, told = Samples.of_clips(clips), set()
        for time in (i * 0.25 for i in range(-80, 1000)):
            value, sample = r.value_read(samples, time)
            self.assertEqual(value, Blocked() if sample is None else Value(clips[sample.clip][sample.place][1]), time)
            told.add(sample)
        self.assertTrue(None in told and len(told) > 10)


class Examined(unittest.TestCase):
    """Sets that are examined and then installed: what an acceptance does, in two steps."""

    refused = Figures.refused

    def standing(self):
        """A set of which every field must give way."""
        return resolver(4, [(-3, 0), (-2, 1), (-1, 2), (0, 3), (7, 3)], [(1, 1), (2, 2), (3, 3)], blocks=[5, 6], default=8, interpolate=True)

    def both_ways(self, accept, examine, *fields, **more):
        """The same stands whether the set is accepted, or examined and installed; a zero's sign too."""
        first, second = self.standing(), self.standing()
        accept(first, *fields, **more)
        prepared = examine(*fields, **more)
        second.install(prepared)
        self.assertEqual([repr(second.standing), repr(prepared.set)], [repr(first.standing)] * 2)
        return prepared.set

    def both_refused(self, number, accept, examine, *fields, **more):
        desk = self.standing()
        self.refused(number, accept, desk, *fields, **more)
        self.refused(number, examine, *fields, **more)
        self.assertEqual(desk.standing, self.standing().standing)

    def test_explicit(self):
        ways = Resolver.accept, tavitrozy.examine
        shown = self.both_ways(*ways, 3, [(10, 1), (-0.0, 0), (5, 2)], [(20, 7), (10, 9), (0, 8), (10, -0.0)], [10, 0, 10], -0.0, True)
        self.assertEqual(shown.starts, ((0.0, 0), (5.0, 2), (10.0, 1)))
        self.assertEqual(shown.knots, ((0.0, 8.0), (10.0, 9.0), (10.0, 0.0), (20.0, 7.0)))
        self.assertEqual(shown[3:], ((10.0, 0.0, 10.0), Value(0.0), True))
        self.assertEqual(self.both_ways(*ways, 0, []), (0, (), (), (), None, False))
        self.assertEqual(self.both_ways(*ways, 2, [(0, 1)], default=Blocked()).default, Blocked())
        pairs = [(i, i % 256) for i in range(512)]
        self.assertEqual(len(self.both_ways(*ways, 256, pairs[:256], pairs, range(256)).knots), 512)

    def test_template(self):
        ways = Resolver.accept_template, tavitrozy.examine_template
        shown = self.both_ways(*ways, "f.###.usd", 1, 3, 1, 0.5, blocks=[2, 1], default=4)
        self.assertEqual((shown.clips, shown.starts, len(shown.knots)), (3, ((1.5, 0), (2.5, 1), (3.5, 2)), 5))
        self.assertEqual(self.both_ways(*ways, b"f.###.usd", 1, 256, 1, interpolate=True).clips, 256)

    def test_refused(self):
        ways = Resolver.accept, tavitrozy.examine
        self.both_refused(1, *ways, 257, [(math.nan, 0.5)])
        self.both_refused(2, *ways, 1, [(1, 0.5)], blocks=[math.inf])
        self.both_refused(3, *ways, 1, [(1, 0), (1, 1)])
        self.both_refused(4, *ways, 1, [(1, 0), (1, 0)], [(5, 1), (5, 2), (5, 3)])
        self.both_refused(5, *ways, 1, [(1, 0)], [(5, 1), (5, 2), (5, 3)])
        ways = Resolver.accept_template, tavitrozy.examine_template
        self.both_refused(1, *ways, "f" * 256, math.nan, 3, 1)
        self.both_refused(2, *ways, "f", math.nan, 3, 0)
        self.both_refused(7, *ways, "f", 1, 3, 0)
        self.both_refused(6, *ways, "f", 1, 257, 1)
        self.both_refused(8, *ways, "f.#", 1, 257, 1)
        self.both_refused(2, *ways, "f.#", 0, 0, 2199023255553, 2199023255552)
        self.both_refused(4, *ways, "f.#", 900000000000, 900000000000.001, 0.0001)
        self.both_refused(5, *ways, "f.#", 1, 1, 1, 0)

    def test_installed_again(self):
        prepared = tavitrozy.examine(2, [(0, 0), (10, 1)], blocks=[10])
        first, second = self.standing(), Resolver()
        for r in (first, second):
            r.install(prepared)
        first.retime(100, -2)
        self.assertEqual(first.standing.starts, ((80.0, 1), (100.0, 0)))
        self.assertEqual([second.standing, prepared.set], [prepared.set, (2, ((0.0, 0), (10.0, 1)), (), (10.0,), None, False)])
        first.install(prepared)
        self.assertEqual(first.standing, second.standing)

    def test_nothing_stays(self):
        desk, none = self.standing(), Samples.of_clips([[]])
        desk.install(tavitrozy.examine(1, [(0, 0)]))
        self.assertEqual((desk.value(none, 2), desk.clip_time(100)), (Blocked(), 100.0))
        desk.install(tavitrozy.examine(0, []))
        self.assertEqual((desk.value(Samples.of_clips([]), 2), desk.active_clip(2)), (Absent(), None))

    def test_preview(self):
        desk, preview = resolver(2, [(0, 0), (10, 1)]), Resolver()
        samples = Samples.of_clips([[(0, 1.0)], [(0, 2.0), (24, None)]])
        drawn = desk.bake(samples)
        prepared = tavitrozy.examine(2, [(0, 0), (5, 1)])
        preview.install(prepared)
        shown = preview.bake(samples)
        self.assertEqual((list(shown), desk.bake(samples)), ([(5.0, Value(2.0)), (24.0, Blocked())], drawn))
        desk.install(prepared)
        self.assertEqual(desk.bake(samples), shown)


class Refusals(unittest.TestCase):
    refused = Figures.refused

    def test_of_sets(self):
        r = Resolver()
        self.refused(20, r.retime, 0, 1)
        self.refused(20, r.active_clip, 0)
        self.refused(1, r.accept, 257, [])
        self.refused(2, r.accept, 1, [(math.nan, 0)])
        self.refused(2, r.accept, 1, [], default=math.nan)
        self.refused(6, r.accept_template, "f.usd", 1, 3, 1)
        self.refused(7, r.accept_template, "f.#.usd", 1, 3, 0)
        self.refused(8, r.accept_template, "f.#.usd", 1, 257, 1)
        self.assertIsNone(r.standing)
        r.accept(1, [(3, 0)], default=2.5)
        stood = r.standing
        self.refused(2, r.retime, math.inf)
        self.assertEqual(r.standing, stood)
        r.retime(5, 2)
        self.assertEqual((r.standing.starts, r.standing.default), (((11.0, 0),), Value(2.5)))
        self.refused(10, r.clip_time, math.nan)

    def test_of_a_second_retiming(self):
        r = resolver(1, [(0, 0), (10, 0)])
        r.retime(1, 2)
        stood = r.standing
        self.refused(2, r.retime, math.nan)
        self.refused(2, r.retime, 0, 1e300)
        self.refused(4, r.retime, 0, 0)
        self.assertEqual(r.standing, stood)
        r.retime(-1)
        self.assertEqual(r.standing.starts, ((0.0, 0), (20.0, 0)))

    def test_of_samples(self):
        r = resolver(1, [(0, 0)])
        for call in (r.bake, r.untimed, r.stage_samples, r.stage_sample_times):
            self.refused(1, call, Samples([], [], [], []))
            self.refused(2, call, Samples([math.nan], [1], [0], [1]))
            self.refused(9, call, Samples([1, 0], [1, 2], [0, 0], [2]))
            self.refused(9, call, Samples([0], [1], [2], [1]))
        self.refused(2, tavitrozy.normalize, [0], [math.nan], [0])
        self.refused(2, tavitrozy.template_clip_times, 0, math.inf, 1)
        self.refused(6, tavitrozy.name, "f.usd", 1)

    def test_words(self):
        self.assertEqual(str(Refused(4)), "refused with 4: two equal starts (-0.0 and 0.0 are equal)")


def _below(time):
    """The next double below: of a positive time the one whose bits are one less."""
    import struct

    (bits,) = struct.unpack("<q", struct.pack("<d", time))
    return struct.unpack("<d", struct.pack("<q", bits - 1))[0]
