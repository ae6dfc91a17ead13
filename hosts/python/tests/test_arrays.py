"""Whole arrays: fields, ISO texts and offsets of a run are those of single calls."""

import array
import datetime
import doctest
import math
import random
import unittest

from uppinalo import Axis, Calendar, Fields, LeapSeconds, Refused, Run, UtcFields, _runs, fields_of, write_iso

from .calls import REPOSITORY, needs

try:
    import numpy
except ImportError:
    numpy = None

DAY = 86_400_000_000
CALLS = ("read_units", "read_wholes", "read_doubles", "fields_of", "write_iso", "write_instant", "day_of_date")
UNITS = ("days since 1850-01-30", "calendar months since 1930-01-30", "calendar years since 2000-02-28", "months since 1930-01-01")


def runs():
    """Runs of every calendar, about the cutover and the ends of the years too."""
    draw = random.Random(20)
    for calendar in Calendar:
        for units in ("seconds since 1850-01-01", "hours since 1582-10-04", "days since -9998-01-01"):
            yield Axis(units, calendar), [draw.randrange(-300, 300) for _ in range(40)] + [draw.uniform(-200, 1e5) for _ in range(40)]
    english = Axis("days since 1752-09-01", cutover=(1752, 9, 14))
    yield english, [draw.uniform(-20, 20) for _ in range(60)]


@needs(*CALLS)
class Examples(unittest.TestCase):
    def test_examples_of_runs(self):
        result = doctest.testmod(_runs)
        self.assertEqual((result.failed, result.attempted), (0, 6))


@needs(*CALLS)
class Elements(unittest.TestCase):
    def test_fields_and_texts(self):
        for axis, offsets in runs():
            run = axis.read_run(offsets)
            calendar, cutover = axis.calendar, axis.cutover
            self.assertEqual(run.fields(), [fields_of(instant, calendar, cutover=cutover) for instant in run.instants])
            self.assertEqual(run.isoformat(), [write_iso(instant, calendar, cutover=cutover) for instant in run.instants])
            self.assertTrue(all(isinstance(fields, Fields) for fields in run.fields()))

    def test_only_what_was_read(self):
        run = Axis("days since 1970-01-01").read_run([0, 1], out=array.array("q", [7, 8, 9]))
        self.assertEqual((len(run.fields()), len(run.isoformat())), (2, 2))

    def test_shapes(self):
        self.assertEqual(Axis("days since 1970-01-01").read_run([0, 1]).shape, (2,))
        self.assertEqual(Run(array.array("q", [1, 2, 3]), 0, 3, Calendar.NOLEAP).shape, (3,))

    def test_a_room_that_was_cut(self):
        room = array.array("q", [7, 8, 9])
        run = Axis("days since 1970-01-01").read_run([0, 1], out=room)
        del room[1:]
        for call in (run.fields, run.isoformat, lambda: Axis("days since 1970-01-01").write_run(run)):
            self.assertRaises(ValueError, call)

    def test_negative_years_beside_others(self):
        run = Axis("days since -1-12-31").read_run([0, 1, 0])
        self.assertEqual([text[:11] for text in run.isoformat()], ["-0001-12-31", "0001-01-01T", "-0001-12-31"])
        self.assertEqual([len(text) for text in run.isoformat()], [28, 27, 28])

    def test_empty(self):
        run = Axis("days since 1970-01-01").read_run([])
        self.assertEqual((run.fields(), run.isoformat(), len(run)), ([], [], 0))


@needs(*CALLS, "read_whole")
class Offsets(unittest.TestCase):
    def test_there_and_back(self):
        for calendar in Calendar:
            for units in UNITS:
                axis, offsets = Axis(units, calendar), array.array("q", range(-500, 500))
                written = axis.write_run(axis.read_run(offsets))
                for offset, found in zip(offsets, written):
                    self.assertEqual(found, axis.write(axis.read(offset)), units)

    def test_times_of_every_kind(self):
        axis = Axis("days since 1970-01-02")
        for times in ([0, DAY], (0, DAY), iter([0, DAY]), array.array("q", [0, DAY]), range(0, 2 * DAY, DAY), axis.read_run([-1, 0])):
            self.assertEqual(axis.write_run(times), array.array("q", [-1, 0]))
        self.assertEqual(axis.write_run([]), array.array("q"))

    def test_refused_with_the_place(self):
        axis = Axis("days since 1970-01-01")
        for times, number, place in [([0, 1], 6, 1), ([0, 2**63 - 1, 1], 5, 1), ([10**30], 5, 0)]:
            with self.assertRaises(Refused) as caught:
                axis.write_run(times)
            self.assertEqual((caught.exception.number, caught.exception.place), (number, place))
        self.assertTrue(str(refusal(axis.write_run, [0, 1])).endswith(": a run of instants, at place 1"))

    def test_missing(self):
        axis = Axis("days since 1970-01-01")
        run = axis.read_run([1, None, 3], missing=math.nan)
        self.assertEqual(axis.write_run(run, missing=-999), array.array("q", [1, -999, 3]))
        with self.assertRaises(ValueError):
            axis.write_run(run)

    def test_calendars(self):
        for source, target, is_taken in [
            (Axis("days since 2000-01-01", "proleptic_gregorian"), Axis("days since 1970-01-01"), True),
            (Axis("days since 2000-01-01"), Axis("days since 1970-01-01", "proleptic_gregorian"), True),
            (Axis("days since 1752-09-14", cutover=(1752, 9, 14)), Axis("days since 1752-09-14"), True),
            (Axis("days since 1752-09-13"), Axis("days since 1752-09-14", cutover=(1752, 9, 14)), False),
            (Axis("days since 1582-10-14", "proleptic_gregorian"), Axis("days since 1970-01-01"), False),
            (Axis("days since 2000-01-01", "julian"), Axis("days since 1970-01-01"), False),
            (Axis("days since 2000-01-01"), Axis("days since 1970-01-01", "noleap"), False),
        ]:
            run = source.read_run([0, 1])
            if is_taken:
                self.assertEqual(target.write_run(run)[1], target.write_run(run)[0] + 1)
            else:
                self.assertRaises(ValueError, target.write_run, run)

    def test_types(self):
        axis = Axis("days since 1970-01-01")
        for times in (None, 1, 1.5, "12", b"12", [1.0], [None], ["0"], [True], array.array("d", [0.0])):
            with self.assertRaises(TypeError, msg=repr(times)):
                axis.write_run(times)
        with self.assertRaisesRegex(TypeError, "an instant must be an int, not str, at place 1"):
            axis.write_run([0, "1"])


def refusal(call, *arguments):
    try:
        call(*arguments)
    except Refused as refused:
        return refused


@unittest.skipIf(numpy is None, "NumPy is not installed")
@needs(*CALLS, "read_datetime64", "read_tt2000", "write_tt2000")
class Numpy(unittest.TestCase):
    def test_fields_and_texts(self):
        for axis, offsets in runs():
            run, plain = axis.read_run(numpy.array(offsets).reshape(2, -1)), axis.read_run(offsets)
            fields, texts = run.fields(), run.isoformat()
            self.assertEqual((fields.shape, fields.dtype.names), (run.shape, Fields._fields))
            self.assertEqual([Fields(*one) for one in fields.ravel().tolist()], plain.fields())
            self.assertEqual((texts.shape, texts.ravel().tolist()), (run.shape, plain.isoformat()))

    def test_as_numpy_shows_them(self):
        run = Axis("seconds since 1850-01-01", "proleptic_gregorian").read_run(numpy.arange(0, 10**10, 987_654_321.1))
        shown = numpy.char.add(numpy.datetime_as_string(run.datetime64()), "Z")
        numpy.testing.assert_array_equal(run.isoformat(), shown)
        numpy.testing.assert_array_equal(run.fields()["year"], run.datetime64().astype("M8[Y]").astype(int) + 1970)

    def test_missing(self):
        run = Axis("days since 1970-01-01").read_run(numpy.array([numpy.nan, 1.0]), missing=numpy.nan)
        self.assertEqual(run.fields().tolist(), [(0,) * 7, (1970, 1, 2, 0, 0, 0, 0)])
        self.assertEqual(run.isoformat().tolist(), ["", "1970-01-02T00:00:00.000000Z"])

    def test_shapes(self):
        run = Axis("days since 1970-01-01").read_run(numpy.zeros((2, 3)))
        self.assertEqual((run.shape, run.length, len(run)), ((2, 3), 6, 6))
        self.assertEqual(Axis("days since 1970-01-01").read_run(numpy.array(1.5)).shape, ())

    def test_only_what_was_read(self):
        axis, room = Axis("days since 1970-01-01", "proleptic_gregorian"), numpy.full(5, 9)
        run = axis.read_run(numpy.arange(4.0).reshape(2, 2), out=room)
        self.assertEqual((run.datetime64().shape, run.datetime64()[1, 1].item()), ((2, 2), datetime.datetime(1970, 1, 4)))
        self.assertTrue(numpy.shares_memory(run.datetime64(), room))
        self.assertEqual(axis.read_run([1], out=array.array("q", [7, 8])).datetime64().shape, (1,))

    def test_places(self):
        for offsets, number, place in [
            (numpy.array([[[0, 1], [numpy.nan, 2]]]).T, 8, 1),
            (numpy.array([[0, 1], [numpy.nan, 2]])[1], 8, 0),
            (numpy.array(numpy.inf), 8, 0),
        ]:
            refused = refusal(Axis("days since 1970-01-01").read_run, offsets)
            self.assertEqual((refused.number, refused.place), (number, place))

    def test_offsets_written(self):
        axis = Axis("hours since 1970-01-01", "proleptic_gregorian")
        offsets = numpy.arange(-6, 6).reshape(3, 4)
        for times in (axis.read_run(offsets), axis.read_run(offsets).instants, axis.read_run(offsets).datetime64()):
            written = axis.write_run(times)
            self.assertEqual(written.dtype, numpy.int64)
            numpy.testing.assert_array_equal(written, offsets)
        for unit in ("h", "s", "ms", "us", "ns"):
            times = axis.read_run(offsets).datetime64().astype(f">M8[{unit}]")
            numpy.testing.assert_array_equal(axis.write_run(times[:, ::-2].T), offsets[:, ::-2].T)
        self.assertEqual(refusal(axis.write_run, axis.read_run(offsets).instants + (offsets == 3)).place, 9)

    def test_not_a_time(self):
        axis = Axis("hours since 1970-01-01")
        times = numpy.array([["1970-01-01T05", "NaT"]], "M8[s]")
        numpy.testing.assert_array_equal(axis.write_run(times, missing=-1), [[5, -1]])
        numpy.testing.assert_array_equal(axis.write_run(numpy.ma.array([3_600_000_000, 7], mask=[0, 1]), missing=-1), [1, -1])
        for wrong in (times, numpy.ma.array([0, 7], mask=[0, 1])):
            self.assertRaises(ValueError, axis.write_run, wrong)

    def test_times_of_datetime64_are_gregorian(self):
        for calendar in ("julian", "noleap"):
            self.assertRaises(ValueError, Axis("days since 2000-01-01", calendar).write_run, numpy.zeros(1, "M8[D]"))
        early = numpy.array(["1582-10-15", "1582-10-14"], "M8[D]")
        with self.assertRaisesRegex(ValueError, "1582-10-14T00:00:00.000000Z, at place 1$"):
            Axis("days since 2000-01-01").write_run(early)
        self.assertEqual(Axis("days since 1582-10-04").write_run(early[:1]).tolist(), [1])

    def test_utc_fields(self):
        """An array with a field of each name, as a table of times is held."""
        leap_seconds = LeapSeconds((REPOSITORY / "data" / "leap_seconds_2017.bin").read_bytes())
        numbers = numpy.array([0, 536_500_868_184_000_000, 536_500_869_184_000_000, 2**63 - 1]).reshape(2, 2)
        kind = [(name, "i8" if name == "year" else "u4") for name in UtcFields._fields]
        fields = numpy.array(leap_seconds.read_run(numbers.ravel()), kind).reshape(2, 2)
        numpy.testing.assert_array_equal(leap_seconds.write_run(fields), numbers)
        numpy.testing.assert_array_equal(leap_seconds.write_run(fields[:, ::-1].T), numbers[:, ::-1].T)
        self.assertRaises(TypeError, leap_seconds.write_run, numbers)
        fields["hour"][1, 0] = 24
        refused = refusal(leap_seconds.write_run, fields)
        self.assertEqual((refused.number, refused.place), (4, 2))

    def test_one_time(self):
        axis = Axis("hours since 1970-01-01")
        self.assertEqual(axis.write(numpy.datetime64("1970-01-02")), 24)
        self.assertEqual(axis.write(numpy.int64(3_600_000_000)), 1)
        self.assertEqual(refusal(axis.write, numpy.datetime64(1, "s")).place, None)
        self.assertRaises(ValueError, axis.write, numpy.datetime64("NaT"))
