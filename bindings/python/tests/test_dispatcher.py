"""Several sets on one part: which of them answers, by what order and at which place, and every number in its order."""

import ctypes
import math
import pickle
import unittest

import tavitrozy
from tavitrozy import Absent, Blocked, Dispatcher, Placed, Resolver, Samples, SetSamples, Track, Value

from . import test_figures

FIT, UNDECLARED, EMPTY = range(3)


def part(*sets):
    """Sets of one clip, by name and kind; the clip of the i-th has the value i."""
    made = Dispatcher()
    for name, kind in sets:
        made.accept(name, kind != UNDECLARED, 1, [] if kind == EMPTY else [(0, 0)])
    return made, SetSamples.of_sets(Samples.of_clips([[(0, float(i))]]) for i in range(len(sets)))


class Dispatchers(unittest.TestCase):
    refused = test_figures.Figures.refused

    def answers(self, sets, expected, order=None):
        """The number of the set that answers and its place, or None."""
        made, samples = part(*sets)
        told = Placed(None, Absent()) if expected is None else Placed(expected[1], Value(float(expected[0])))
        self.assertEqual(made.value(samples, 3, order), told)
        track = made.bake(samples, order)
        self.assertEqual((track.set, track.reply), (told.set, Track(told.reply, [], [], [])))

    def test_by_name(self):
        self.answers([("fine", FIT), ("coarse", FIT)], (1, 0))
        self.answers([("b", FIT), ("ab", FIT), ("a", UNDECLARED)], (1, 1))
        self.answers([(b"\x7f", FIT), (b"\x80", FIT), (b"", EMPTY), (b"Z", UNDECLARED)], (0, 2))
        self.answers([("ä", FIT), ("z", FIT)], (1, 0))
        self.answers([("a", EMPTY), ("b", UNDECLARED)], None)
        self.answers([], None)

    def test_by_list(self):
        sets = [("fine", FIT), ("coarse", FIT)]
        self.answers(sets, (0, 0), ["fine", "coarse"])
        self.answers(sets, (1, 0), ("coarse", b"fine"))
        self.answers(sets, None, ["fin", "fine "])
        self.answers(sets, None, [])
        self.answers([], None, ["fine"])
        made, samples = part(*sets)
        self.assertEqual(made.value(samples, 0, (name for name in ["fine"])), (0, Value(0.0)))
        for wrong in ("fine", b"fine", [1], [None], 5):
            with self.subTest(order=wrong), self.assertRaises(TypeError):
                made.value(samples, 0, wrong)

    def test_places(self):
        sets = [("A", UNDECLARED), ("B", FIT), ("C", EMPTY), ("", FIT)]
        self.answers(sets, (1, 1), ["x", "A", "A", "B"])
        self.answers(sets, (3, 2), ["C", "A", "C", "y", "A", "", "B"])
        self.answers(sets, None, ["C", "A"])
        self.answers(sets, (3, 0))

    def test_as_on_a_desk(self):
        clips = [[(i * 2.5, None if i % 7 == 3 else i % 5 - 2.0) for i in range(20)], [], [(1, -0.0), (8, 0.5), (30, None)]]
        fields = (3, [(20, 2), (0, 0), (10, 1), (35, 0)], [(0, 4), (30, 0), (12, 40), (30, 9), (60, 2)], [20, 5], None, True)
        own, others = Samples.of_clips(clips), Samples.of_clips([[(i, 100.0 + i) for i in range(9)]])
        for place in range(3):
            desk, made = Resolver(), Dispatcher()
            desk.accept(*fields)
            for i, name in enumerate("abc"):
                if i == place:
                    made.accept("own", True, *fields)
                else:
                    made.accept(name, True, 1, [(0, 0)])
            samples = SetSamples.of_sets(own if i == place else others for i in range(3))
            for moved in ((0, 1), (0.7, -1.1), (-3, 1 / 3)):
                desk.retime(*moved)
                made.retime("own", *moved)
                for time in (i * 0.375 for i in range(-200, 200)):
                    read = made.value_read(samples, time, ["nobody", "own", "a"])
                    self.assertEqual(read, (0, desk.value_read(own, time)))
                    self.assertEqual(repr(read.reply), repr(desk.value_read(own, time)))
                self.assertEqual(made.bake(samples, ["own"]), (0, desk.bake(own)))
                self.assertGreater(len(desk.bake(own)), 5)

    def test_own_samples(self):
        made = Dispatcher()
        made.accept("z", True, 1, [(0, 0)])
        made.accept("a", True, 2, [(0, 0), (10, 1)])
        first, second = Samples.of_clips([[(0, 1.0), (1, 2.0), (2, 3.0)]]), Samples.of_clips([[(0, 4.0)], [(0, 5.0), (11, 6.0)]])
        samples = SetSamples.of_sets([first, second])
        self.assertEqual((len(samples), [list(items) for items in samples._lists[:2]]), (6, [[3, 3], [3, 1, 3]]))
        for lent in (samples, pickle.loads(pickle.dumps(samples)), SetSamples([3, 3], [3, 1, 3], [0, 1, 2, 0, 0, 11], range(1, 7), bytes(6))):
            read = made.value_read(lent, 12)
            self.assertEqual((read.set, read.reply.value, read.reply.sample), (0, Value(6.0), (1, 1)))
        with self.assertRaises(ValueError):
            SetSamples.of_sets([first, Samples([0], [], [], [])])

    def test_samples_of_another_kind(self):
        one, every, d, r = Samples.of_clips([[(0, 1.0)]]), SetSamples([1], [1], [0], [1], [0]), Dispatcher(), Resolver()
        for call, *arguments in ((d.value, one, 0), (d.value_read, one, 0), (d.bake, one), (r.value, every, 0), (r.bake, every)):
            with self.assertRaises((TypeError, ctypes.ArgumentError)):
                call(*arguments)

    def test_sets(self):
        made, desk = Dispatcher(), Resolver()
        made.accept_template("template", False, "f.###.usd", 1, 3, 1, 0.5, [2], 4)
        prepared = tavitrozy.examine(3, [(5, 2), (-0.0, 1)], [(3, -0.0), (2, 1)], [9, 4], -0.0, True)
        made.install("one", True, prepared)
        made.install(b"\xff\x00", False, prepared)
        made.retime("one", 100, -2)
        self.assertEqual([named[:2] for named in made.sets], [(b"template", False), (b"one", True), (b"\xff\x00", False)])
        desk.accept_template("f.###.usd", 1, 3, 1, 0.5, [2], 4)
        self.assertEqual(made.sets[0].set, desk.standing)
        desk.install(prepared)
        desk.retime(100, -2)
        self.assertEqual([repr(made.sets[1].set), repr(made.sets[2].set)], [repr(desk.standing), repr(prepared.set)])
        self.assertEqual(Dispatcher().sets, ())
        made.accept("blocked", True, 1, [(0, 0)], default=Blocked())
        self.assertEqual(made.sets[3].set.default, Blocked())

    def test_refused_changes(self):
        made, _ = part(("fine", FIT))
        made.accept("two", True, 1, [(0, 0), (10, 0)], [(0, 0), (1, 0), (2, 0)])
        stood, prepared = made.sets, tavitrozy.examine(0, [])
        bad = (257, [(math.nan, 0.5)])
        self.refused(23, made.accept, "fine", True, *bad)
        self.refused(23, made.accept, "n" * 256, True, *bad)
        self.refused(1, made.accept, "new", True, *bad)
        self.refused(2, made.accept, "new", True, 1, [(1, 0.5)], blocks=[math.inf])
        self.refused(3, made.accept, "new", True, 1, [(1, 0), (1, 1)])
        self.refused(4, made.accept, "new", True, 1, [(1, 0), (1, 0)], [(5, 1), (5, 2), (5, 3)])
        self.refused(5, made.accept, "new", True, 1, [(1, 0)], [(5, 1), (5, 2), (5, 3)])
        self.refused(23, made.accept_template, "fine", True, "f", math.nan, 3, 1)
        self.refused(2, made.accept_template, "new", True, "f", math.nan, 3, 0)
        self.refused(7, made.accept_template, "new", True, "f", 1, 3, 0)
        self.refused(6, made.accept_template, "new", True, "f", 1, 257, 1)
        self.refused(8, made.accept_template, "new", True, "f.#", 1, 257, 1)
        self.refused(5, made.accept_template, "new", True, "f.#", 1, 1, 1, 0)
        self.refused(23, made.install, "fine", True, prepared)
        self.refused(20, made.retime, "coarse", math.nan)
        self.refused(20, made.retime, b"n" * 300)
        self.refused(2, made.retime, "two", math.nan)
        self.refused(2, made.retime, "two", 2e12, 0)
        self.refused(4, made.retime, "two", 0, 0)
        self.assertEqual(made.sets, stood)
        made.install("n" * 255, True, prepared)
        for wrong in (None, 5, 1.5, ["a"]):
            with self.subTest(name=wrong), self.assertRaises(TypeError):
                made.retime(wrong)

    def test_refused_questions(self):
        made = Dispatcher()
        for name, declares, clips in (("first", False, 1), ("second", True, 1), ("third", False, 3)):
            made.accept(name, declares, clips, [(0, 0)])
        good = {
            "counts": [1, 2, 3],
            "ends": [1, 2, 2, 2, 3],
            "times": [0, 0, 3, 0, 1, 5],
            "values": [9, 7, 8, 1, 2, 3],
            "marks": [0] * 6,
        }

        def asked(time=5, order=None, **spoiled):
            return made.value(SetSamples(**{**good, **spoiled}), time, order)

        def baked(order=None, **spoiled):
            return made.bake(SetSamples(**{**good, **spoiled}), order)

        self.assertEqual((asked(), asked(order=["third", "second"])), ((1, Value(8.0)), (1, Value(8.0))))
        self.assertEqual(baked(), (1, Track(Value(7), [3], [8], [0])))
        ends, times, marks = [1, 2, 2, 3, 2], [0, 0, 3, 0, 1, math.nan], [0, 0, 0, 0, 2, 0]
        faults = [
            (1, {"counts": [1, 2, 2]}),
            (1, {"counts": [1, 2, 3, 0]}),
            (1, {"counts": [2**64 - 1, 4, 3]}),
            (1, {"ends": ends[1:]}),
            (1, {"values": []}),
            (2, {"times": times}),
            (2, {"values": [math.nan, 7, 8, 1, 2, 3]}),
            (9, {"marks": marks}),
            (9, {"ends": ends}),
            (9, {"ends": [1, 3, 2, 2, 3]}),
        ]
        for number, spoiled in faults:
            for rest in ({}, {"marks": marks}) if number < 9 else ({},):
                self.refused(number, asked, math.nan, **{**rest, **spoiled})
                self.refused(number, baked, **{**rest, **spoiled})
                self.refused(23, asked, math.nan, ["n" * 256], **{**rest, **spoiled})
                self.refused(23, baked, ["n"] * 256, **{**rest, **spoiled})
        self.refused(2, asked, times=times, marks=[2, 0, 0, 0, 0, 0])  # 2 of the last set comes before 9 of the first
        self.refused(10, asked, math.inf)
        self.assertEqual(asked(order=["n" * 255] * 254 + ["second"]).set, 0)
        none = SetSamples([], [], [], [], [])
        self.refused(1, made.value, none, 0)
        self.refused(10, Dispatcher().value, none, math.nan)
        self.refused(1, Dispatcher().value, SetSamples([], [], [0], [0], [0]), math.nan)

    def test_sixteen(self):
        made, samples = part(*((f"{i:02}", UNDECLARED if i < 15 else FIT) for i in range(16)))
        self.assertEqual(made.value(samples, 0), (15, Value(15.0)))
        self.refused(23, made.accept, "17th", True, 1, [(0, 0)])
        self.refused(23, made.install, "17th", True, tavitrozy.examine(0, []))
        self.assertEqual(len(made.sets), tavitrozy.MAX_SETS)

    def test_many_changes(self):
        made, desk, knots = Dispatcher(), Resolver(), [(i, i % 2 * 4095) for i in range(512)]
        made.accept("", True, 1, [(0, 0)], knots)
        desk.accept(1, [(0, 0)], knots)
        own = Samples(range(4096), range(4096), bytes(4096), [4096])
        track = made.bake(SetSamples.of_sets([own]))
        self.assertEqual((track.set, len(track.reply)), (0, 4095 * 511))
        self.assertEqual(track.reply, desk.bake(own))
