"""Runs of offsets in lists, arrays and memoryviews."""

import array
import math
import unittest

from uppinalo import Axis, Refused
from uppinalo._runs import lendable

from .calls import needs

DAY = 86_400_000_000
BOTH = ("read_units", "read_wholes", "read_doubles")


def days(calendar="proleptic_gregorian"):
    return Axis("days since 1970-01-01", calendar=calendar)


class Sources(unittest.TestCase):
    @needs(*BOTH)
    def test_every_source_gives_the_same_instants(self):
        expected = array.array("q", [0, DAY, -2 * DAY])
        wholes, doubles = [0, 1, -2], [0.0, 1.0, -2.0]
        for source in (
            wholes,
            doubles,
            tuple(wholes),
            iter(doubles),
            [0, 1.0, -2],
            *(array.array(kind, wholes) for kind in "bhilq"),
            *(array.array(kind, doubles) for kind in "df"),
            memoryview(array.array("q", wholes)),
            memoryview(array.array("d", doubles)),
            memoryview(array.array("d", [0.0, 9.0, 1.0, 9.0, -2.0]))[::2],
        ):
            run = days().read_run(source)
            self.assertEqual((run.instants, run.rounded, len(run)), (expected, 0, 3), source)

    def test_arrays_are_not_copied(self):
        for kind in "dq":
            offsets = array.array(kind, [1, 2])
            self.assertIs(lendable(offsets), offsets)
            view = memoryview(offsets)
            self.assertIs(lendable(view), view)

    @needs(*BOTH)
    def test_a_read_only_source(self):
        source = memoryview(array.array("d", [0.25]).tobytes()).cast("d")
        self.assertEqual(days().read_run(source).instants, array.array("q", [DAY // 4]))

    @needs(*BOTH)
    def test_a_source_that_is_not_aligned(self):
        memory = bytearray(b"x") + array.array("q", [1, 2]).tobytes()
        source = memoryview(memory)[1:].cast("q")
        self.assertEqual(days().read_run(source).instants, array.array("q", [DAY, 2 * DAY]))

    @needs(*BOTH)
    def test_empty(self):
        for source in ([], (), array.array("d"), array.array("q"), range(0), memoryview(b"").cast("d")):
            run = days().read_run(source)
            self.assertEqual((run.instants, run.rounded, len(run)), (array.array("q"), 0, 0))

    @needs(*BOTH)
    def test_a_range(self):
        self.assertEqual(days().read_run(range(100_000)).instants[-1], 99_999 * DAY)

    @needs(*BOTH)
    def test_rounded_are_counted(self):
        run = Axis("seconds since 1970-01-01").read_run([3 / 128, 1.0, 1 / 3, 0.5])
        self.assertEqual((list(run.instants), run.rounded), ([23_438, 1_000_000, 333_333, 500_000], 2))


class Refusals(unittest.TestCase):
    @needs(*BOTH)
    def test_the_first_refused_offset(self):
        for source, number, place in [
            ([0, 1, 2_932_897, 10**30], 5, 2),
            ([10**30, 0], 5, 0),
            ([0, -(2**63) - 1], 5, 1),
            ([0.0, math.nan, math.inf], 8, 1),
            ([0.5, 10**400], 5, 1),
            ([1e300, math.nan], 5, 0),
        ]:
            with self.assertRaises(Refused) as caught:
                days().read_run(source)
            self.assertEqual((caught.exception.number, caught.exception.place), (number, place), source)

    @needs(*BOTH)
    def test_a_refused_run_writes_nothing(self):
        room = array.array("q", [7, 8, 9])
        with self.assertRaises(Refused):
            days().read_run([0, 1, 10**9], out=room)
        self.assertEqual(room, array.array("q", [7, 8, 9]))

    @needs(*BOTH)
    def test_too_little_room(self):
        room = array.array("q", [7, 8])
        with self.assertRaises(Refused) as caught:
            days().read_run([0, 1, 2], out=room)
        self.assertEqual((caught.exception.number, caught.exception.place), (7, None))
        self.assertEqual(room, array.array("q", [7, 8]))


class Rooms(unittest.TestCase):
    @needs(*BOTH)
    def test_places_beyond_the_run_stay(self):
        room = array.array("q", [7, 8, 9])
        run = days().read_run(array.array("d", [1.0, 2.0]), out=room)
        self.assertIs(run.instants, room)
        self.assertEqual((room, len(run)), (array.array("q", [DAY, 2 * DAY, 9]), 2))

    @needs(*BOTH)
    def test_rooms_that_are_none(self):
        for room in (
            array.array("d", [0.0]),
            array.array("i", [0, 0]),
            array.array("Q", [0]),
            [0],
            b"12345678",
            bytearray(8),
            memoryview(bytes(8)).cast("q"),
            memoryview(array.array("q", [0, 0, 0, 0]))[::2],
            memoryview(bytearray(9))[1:].cast("q"),
            0,
            "room",
        ):
            with self.assertRaises(TypeError, msg=repr(room)):
                days().read_run([1], out=room)

    @needs(*BOTH)
    def test_a_room_over_the_source(self):
        memory = array.array("q", [1, 2, 3, 4])
        view = memoryview(memory)
        for source, room in [(memory, memory), (view[:2], view[1:]), (view[2:], view[:3])]:
            with self.assertRaises(ValueError):
                days().read_run(source, out=room)
        self.assertEqual(memory, array.array("q", [1, 2, 3, 4]))
        days().read_run(view[:2], out=view[2:])
        self.assertEqual(memory, array.array("q", [1, 2, DAY, 2 * DAY]))

    @needs(*BOTH)
    def test_nothing_stays_lent(self):
        source, room = array.array("d", [1.0]), array.array("q", [0])
        days().read_run(source, out=room)
        with self.assertRaises(Refused):
            days().read_run(array.array("d", [math.nan]), out=room)
        with self.assertRaises(TypeError):
            days().read_run(room, out=source)
        source.append(2.0)
        room.append(0)
