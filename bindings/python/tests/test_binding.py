"""The binding's own part: tracks, buffers, copies, the library's place, the floating-point environment."""

import copy
import ctypes
import math
import os
import pickle
import re
import subprocess
import sys
import threading
import unittest
from array import array
from pathlib import Path

import tavitrozy
from tavitrozy import Absent, Blocked, Dispatcher, Refused, Resolver, Samples, SetSamples, Track, Value, _library, _lists

try:
    import numpy
except ImportError:
    numpy = None


class Tracks(unittest.TestCase):
    def test_read(self):
        track = Track(Value(-7), [0, 10, 20], [1, 0, 3], [0, 1, 0])
        self.assertEqual([track.read(t) for t in (-1, 0, 9.9, 10, 25)], [Value(-7.0), Value(1.0), Value(1.0), Blocked(), Value(3.0)])
        self.assertEqual((track.read(math.nan), track.read(-math.inf), track.read(math.inf)), (Value(-7.0), Value(-7.0), Value(3.0)))
        self.assertEqual((len(track), bool(Track(Absent(), [], [], []))), (3, True))

    def test_equal_as_numbers(self):
        track = Track(Value(1), [0], [0.0], [0])
        for same in (Track(Value(1), [0], [0.0], [0]), Track(Value(1), [-0.0], [-0.0], [0])):
            self.assertEqual((track, hash(track)), (same, hash(same)))
        for other in (
            Track(Value(1), [0], [-5e-324], [0]),
            Track(Value(1), [0], [0.0], [1]),
            Track(Value(1), [1], [0.0], [0]),
            Track(Value(2), [0], [0.0], [0]),
            Track(Blocked(), [0], [0.0], [0]),
            Track(Value(1), [], [], []),
        ):
            self.assertNotEqual(track, other)
        for head in (Value(-0.0), Value(0)):
            same = Track(head, [], [], [])
            self.assertEqual((Track(Value(0.0), [], [], []), hash(Track(Value(0.0), [], [], []))), (same, hash(same)))
        self.assertEqual((Value(0.0), hash(Value(0.0))), (Value(-0.0), hash(Value(-0.0))))
        self.assertNotEqual(Value(0.0), Blocked())
        self.assertNotEqual(Track(Value(0.0), [], [], []), Track(Blocked(), [], [], []))
        self.assertNotEqual(track, "a track")
        self.assertEqual(pickle.loads(pickle.dumps(track)), track)

    def test_as_a_bake_writes(self):
        self.assertEqual(Track(Blocked(), [-0.0], [5], [1]), Track(Blocked(), [0.0], [0], [1]))
        made = Track(Value(-0.0), [-0.0, 1], [-0.0, -0.0], [1, 0])
        written = [made.head.value, *made.times, *made.values, made.read(-1).value, made.read(1).value]
        self.assertEqual([math.copysign(1, number) for number in written], [1.0] * len(written))

    def test_not_writable(self):
        times = array("d", [1, 2])
        track = Track(Value(0), times, [1, 2], [0, 0])
        times[0] = 5
        self.assertEqual(list(track.times), [1, 2])
        with self.assertRaises(TypeError):
            track.times[0] = 3
        with self.assertRaises(AttributeError):
            track.times = []

    def test_bad_lists(self):
        with self.assertRaises(ValueError):
            Track(Value(0), [1], [1, 2], [0])
        with self.assertRaises(ValueError):
            Track(Value(0), [1], [1], [3])
        with self.assertRaises(TypeError):
            Track(0.0, [], [], [])

    def test_many_changes(self):
        r = Resolver()
        knots = [(i, i % 2 * 4095) for i in range(512)]
        r.accept(1, [(0, 0)], knots)
        samples = Samples(range(4096), range(4096), bytes(4096), [4096])
        track = r.bake(samples)
        self.assertEqual(len(track), 4095 * 511)
        self.assertEqual(track.read(0.5), r.value(samples, 0.5))


class Lists(unittest.TestCase):
    def baked(self, times, values, marks, ends):
        r = Resolver()
        r.accept(2, [(0, 0), (10, 1)])
        return r.bake(Samples(times, values, marks, ends))

    def setUp(self):
        self.track = self.baked([0.0, 1.0, 0.0], [1.0, 2.0, 3.0], [0, 1, 0], [2, 3])

    def test_kinds(self):
        t, v, m, e = array("d", [0, 1, 0]), array("d", [1, 2, 3]), array("B", [0, 1, 0]), array("Q", [2, 3])
        self.assertEqual(self.baked(t, v, m, e), self.track)
        self.assertEqual(self.baked(*(memoryview(x) for x in (t, v, m, e))), self.track)
        self.assertEqual(self.baked(*(memoryview(x).toreadonly() for x in (t, v, m, e))), self.track)
        self.assertEqual(self.baked(array("f", t), array("i", [1, 2, 3]), bytes([0, 1, 0]), (2, 3)), self.track)
        self.assertEqual(self.baked(memoryview(array("d", [0, 9, 1, 9, 0]))[::2], v, bytearray(m), array("L", [2, 3])), self.track)
        self.assertEqual(self.baked(range(0), [], b"", [0, 0]).head, Blocked())

    def test_copied(self):
        times = array("d", [0, 1, 0])
        r = Resolver()
        r.accept(2, [(0, 0), (10, 1)])
        samples = Samples(times, [1, 2, 3], [0, 1, 0], [2, 3])
        times[1] = math.nan
        times.append(7)
        self.assertEqual(r.bake(samples), self.track)
        self.assertEqual(r.bake(pickle.loads(pickle.dumps(samples))), self.track)

    def test_numbers_stay_what_they_are(self):
        for code, items, error in [
            ("d", [2**53 + 1], ValueError),
            ("d", ["1"], TypeError),
            ("d", "12", TypeError),
            ("d", [10**400], OverflowError),
            ("B", [256], OverflowError),
            ("B", [-1], OverflowError),
            ("B", [0.5], TypeError),
            ("Q", [-1], OverflowError),
            ("Q", [2**64], OverflowError),
            ("Q", array("d", [1.0]), TypeError),
            ("d", memoryview(bytes(16)).cast("d", [1, 2]), TypeError),
            ("d", None, TypeError),
        ]:
            with self.subTest(code=code, items=items), self.assertRaises(error):
                _lists.numbers(code, items)

    def test_pairs(self):
        columns = memoryview(array("d", [0, 0, 10, 1]).tobytes()).cast("d", [2, 2])
        r = Resolver()
        r.accept(2, columns)
        self.assertEqual(r.standing.starts, ((0.0, 0), (10.0, 1)))
        for bad in ([(1, 2, 3)], [1], memoryview(bytes(8)), 5):
            with self.assertRaises((TypeError, ValueError)):
                r.accept(2, bad)
        with self.assertRaises(OverflowError):
            r.accept(-1, [])
        with self.assertRaises(TypeError):
            r.accept(1.5, [])

    @unittest.skipIf(numpy is None, "numpy is not there")
    def test_numpy(self):
        t, v = numpy.array([0, 1, 0.0]), numpy.array([1, 2, 3.0])
        m, e = numpy.array([0, 1, 0], numpy.uint8), numpy.array([2, 3], numpy.uint64)
        self.assertEqual(self.baked(t, v, m, e), self.track)
        self.assertEqual(self.baked(t.astype("f4"), v.astype("i8"), m.astype(bool), e.astype("i4")), self.track)
        self.assertEqual(self.baked(numpy.array([0, 9, 1, 9, 0.0])[::2], v, m, e), self.track)
        self.assertEqual(self.baked(list(t), list(v.astype("f4")), list(m), list(e)), self.track)
        for bad in (t.astype(">f8"), t.reshape(1, 3), t.astype(complex)):
            with self.assertRaises(TypeError):
                self.baked(bad, v, m, e)
        with self.assertRaises(ValueError):
            _lists.numbers("d", numpy.array([2**53 + 1]))
        r = Resolver()
        r.accept(numpy.int64(2), numpy.array([[0, 0], [10, 1]]), numpy.zeros((0, 2)))
        self.assertEqual(r.standing.starts, ((0.0, 0), (10.0, 1)))
        self.assertEqual(numpy.asarray(self.track.times).tolist(), list(self.track.times))
        self.assertEqual(self.track.read(numpy.float32(0.5)), Value(1.0))

    def test_numpy_is_not_imported(self):
        code = "import sys, tavitrozy; sys.exit('numpy' in sys.modules)"
        self.assertEqual(subprocess.run([sys.executable, "-c", code]).returncode, 0)


class Copies(unittest.TestCase):
    def test_a_copy_is_its_own(self):
        for how in (copy.copy, copy.deepcopy):
            r = Resolver()
            r.accept(1, [(0, 0)], [(0, 1), (2, 3)], blocks=[4], default=5, interpolate=True)
            other = how(r)
            self.assertEqual(other.standing, r.standing)
            r.retime(1, 1)
            self.assertEqual((other.standing.starts, r.standing.starts), (((0.0, 0),), ((1.0, 0),)))
        with self.assertRaises(TypeError):
            pickle.dumps(r)
        self.assertEqual(pickle.loads(pickle.dumps(Refused(5))).number, 5)

    def test_a_dispatchers_copy_is_its_own(self):
        for how in (copy.copy, copy.deepcopy):
            d = Dispatcher()
            d.accept("a", True, 1, [(0, 0)], [(0, 1), (2, 3)], blocks=[4], default=5, interpolate=True)
            other = how(d)
            self.assertEqual(other.sets, d.sets)
            d.retime("a", 1, 1)
            other.accept("b", False, 0, [])
            shown = [[(named.name, named.set.starts) for named in made.sets] for made in (d, other)]
            self.assertEqual(shown, [[(b"a", ((1.0, 0),))], [(b"a", ((0.0, 0),)), (b"b", ())]])
        with self.assertRaises(TypeError):
            pickle.dumps(d)

    def test_a_prepared_set_is_a_value(self):
        explicit = tavitrozy.examine(3, [(5, 2), (-0.0, 1)], [(3, -0.0), (2, 1)], [9, 4], -0.0, True)
        template = tavitrozy.examine_template("f.#.usd", 1, 256, 1, 0.5, default=Blocked())
        r = Resolver()
        for prepared in (explicit, template):
            for how in (copy.copy, copy.deepcopy, lambda made: pickle.loads(pickle.dumps(made))):
                self.assertEqual(repr(how(prepared).set), repr(prepared.set))
            r.install(pickle.loads(pickle.dumps(prepared)))
            self.assertEqual(repr(r.standing), repr(prepared.set))
        self.assertEqual(repr(explicit), "<Prepared: 3 clips, 2 starts, 2 knots>")
        with self.assertRaises(AttributeError):
            explicit.set = template.set
        with self.assertRaises(TypeError):
            tavitrozy.Prepared()
        for wrong in (None, explicit.set, r):
            with self.assertRaises((AttributeError, ctypes.ArgumentError)):
                r.install(wrong)
        self.assertEqual(repr(r.standing), repr(template.set))

    def test_the_size_of_a_prepared_set(self):
        """It goes by value, so its struct must be the header's to the byte."""
        self.assertEqual((ctypes.sizeof(_library.Prepared), ctypes.sizeof(_library.Examined)), (14392, 14400))


class Threads(unittest.TestCase):
    def test_any_threads(self):
        """Questions while another thread accepts: each answer is of one of the two sets, whole."""
        r = Resolver()
        sets = [(1, [(0, 0)]), (256, [(i, i) for i in range(256)])]
        r.accept(*sets[0])
        samples = Samples(range(256), range(256), bytes(256), range(1, 257)), Samples([0], [7], [0], [1])
        told = set()

        def ask():
            for _ in range(2000):
                for lent in samples:
                    try:
                        told.add(len(r.bake(lent)))
                    except Refused as refused:
                        told.add(f"refused with {refused.number}")

        threads = [threading.Thread(target=ask) for _ in range(3)]
        for thread in threads:
            thread.start()
        while any(thread.is_alive() for thread in threads):
            for made in sets:
                r.accept(*made)
        self.assertLessEqual(told, {0, 255, "refused with 1"})


    def test_no_set_is_lost(self):
        """Sixteen threads accept a set each, while others ask: all stand then."""
        d, start = Dispatcher(), threading.Barrier(16)

        def accept(i):
            start.wait()
            d.accept(f"{i:02}", True, 1, [(i, 0)])
            for _ in range(20):
                stood = d.sets
                samples = SetSamples.of_sets([Samples.of_clips([[(0, float(named.name))]]) for named in stood])
                try:
                    told = d.value(samples, 3)
                except Refused as refused:
                    self.assertEqual(refused.number, 1)  # a set was added in between
                else:
                    self.assertEqual(told, (0, Value(float(min(named.name for named in stood)))))

        threads = [threading.Thread(target=accept, args=[i]) for i in range(16)]
        for thread in threads:
            thread.start()
        for thread in threads:
            thread.join()
        self.assertEqual(sorted((named.name, named.set.starts[0][0]) for named in d.sets), [(b"%02d" % i, float(i)) for i in range(16)])


class Library(unittest.TestCase):
    def imported(self, path):
        told = {**os.environ, "TAVITROZY_LIBRARY": path}
        return subprocess.run([sys.executable, "-c", "import tavitrozy"], env=told, stderr=subprocess.PIPE, text=True)

    def test_named_library(self):
        self.assertEqual(self.imported(_library.find()).returncode, 0)
        for wrong in ("/nowhere/libtavitrozy.so", "libm.so.6"):
            reply = self.imported(wrong)
            self.assertNotEqual(reply.returncode, 0)
            self.assertIn("ImportError", reply.stderr)

    def test_as_the_header_has_it(self):
        text = (Path(__file__).resolve().parents[3] / "include/tavitrozy.h").read_text()
        said = {int(number): words for number, words in re.findall(r"^#define TAVITROZY_REFUSED_\w+ (\d+) +/\* (.*) \*/$", text, re.M)}
        self.assertEqual({number: Refused(number).words for number in said}, said)
        self.assertEqual(len(said), 14)
        limits = dict(re.findall(r"^#define TAVITROZY_(MAX_\w+) ([0-9.]+)", text, re.M))
        self.assertEqual({name: float(value) for name, value in limits.items()}, {name: getattr(tavitrozy, name) for name in limits})
        self.assertEqual(len(limits), 11)
        of_dispatchers = dict(re.findall(r"^#define TAVITROZY_(DISPATCHER_\w+) (\d+)", text, re.M))
        sizes = {name.upper(): kind._length_ for name, kind in _library.Dispatcher._fields_}
        self.assertEqual({name: int(of_dispatchers[f"DISPATCHER_{name}"]) for name in sizes}, sizes)

    def test_the_size_of_a_value_reply(self):
        """The library writes it to where the caller made room: no byte less than the header's."""
        self.assertEqual((ctypes.sizeof(_library.ValueReply), _library.ValueReply.sampled.offset, _library.ValueReply.place.offset), (32, 2, 24))

    def test_the_sizes_of_a_dispatcher(self):
        sizes = [ctypes.sizeof(kind) for kind in (_library.Dispatcher, _library.PlacedValue, _library.PlacedBaked)]
        self.assertEqual((sizes, _library.PlacedValue.set.offset, _library.PlacedBaked.set.offset), ([234296, 48, 40], 40, 32))

    def test_limits(self):
        with self.assertRaises(Refused):
            Resolver().accept(1, [(math.nextafter(tavitrozy.MAX_TIME, math.inf), 0)])


class Environment(unittest.TestCase):
    def within(self, change):
        """What is told of an environment in which the 32 bytes of fegetenv were changed."""
        libm = ctypes.CDLL("libm.so.6")
        usual, other = (ctypes.c_uint8 * 32)(), (ctypes.c_uint8 * 32)()
        libm.fegetenv(usual), libm.fegetenv(other)
        change(other)
        libm.fesetenv(other)
        try:
            return tavitrozy.environment_is_exact()
        finally:
            libm.fesetenv(usual)

    def mxcsr(self, bits):
        def change(environment):
            ctypes.cast(ctypes.addressof(environment) + 28, ctypes.POINTER(ctypes.c_uint32))[0] |= bits

        return change

    def test_environment(self):
        self.assertTrue(tavitrozy.environment_is_exact())
        self.assertTrue(self.within(self.mxcsr(0)))
        for bits in (0x8000, 0x0040, 0x8040, 0x2000, 0x4000, 0x6000):  # FTZ, DAZ, both; down, up, toward zero
            self.assertFalse(self.within(self.mxcsr(bits)), hex(bits))
        self.assertTrue(tavitrozy.environment_is_exact())
