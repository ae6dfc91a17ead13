"""Runs in NumPy arrays, skipped where there is no NumPy; and that there is one, or none, as the run of the tests asks."""

import array
import datetime
import unittest

from uppinalo import Axis, Refused, fields_of, write_iso
from uppinalo._runs import lendable

from . import NUMPY
from .calls import needs

try:
    import numpy
except ImportError:
    numpy = None

DAY = 86_400_000_000
BOTH = ("read_units", "read_wholes", "read_doubles")


def days(calendar="proleptic_gregorian"):
    return Axis("days since 1970-01-01", calendar=calendar)


class Presence(unittest.TestCase):
    def test_numpy_is_there_as_asked(self):
        self.assertIn(NUMPY, (None, "yes" if numpy else "no"), "the tests with NumPy run just where it is asked for")

    @needs(*BOTH)
    def test_only_datetime64_needs_it(self):
        run = days().read_run([0, 1])
        self.assertEqual(run.instants, array.array("q", [0, DAY]))
        if numpy is None:
            self.assertRaises(ImportError, run.datetime64)


@unittest.skipIf(numpy is None, "NumPy is not installed")
class Arrays(unittest.TestCase):
    @needs(*BOTH)
    def test_kinds(self):
        expected = numpy.array([0, DAY, 2 * DAY])
        for kind in "f2 f4 f8 >f4 >f8 i1 i2 i4 i8 >i8 u1 u2 u4 u8 >u8".split():
            run = days().read_run(numpy.arange(3, dtype=kind))
            self.assertEqual((run.instants.dtype, run.rounded), (numpy.int64, 0), kind)
            numpy.testing.assert_array_equal(run.instants, expected, kind)

    @needs(*BOTH)
    def test_singles_are_widened_exactly(self):
        singles = numpy.array([0.1, 1 / 3], dtype=numpy.float32)
        expected = [days().read(float(single)).instant for single in singles]
        self.assertEqual(days().read_run(singles).instants.tolist(), expected)

    @needs(*BOTH)
    def test_shapes(self):
        for shape in ((), (0,), (3, 0), (2, 3), (2, 3, 4)):
            offsets = numpy.arange(numpy.prod(shape, dtype=int), dtype=float).reshape(shape)
            run = days().read_run(offsets)
            self.assertEqual((run.instants.shape, len(run)), (shape, offsets.size))
            numpy.testing.assert_array_equal(run.instants, (offsets * DAY).astype(int))

    @needs(*BOTH)
    def test_arrays_that_are_not_contiguous_or_aligned(self):
        whole = numpy.arange(20, dtype=float).reshape(4, 5)
        packed = numpy.zeros(3, dtype=[("a", "i1"), ("b", "f8")])
        packed["b"] = [1, 2, 3]
        odd = numpy.frombuffer(b"x" + whole.tobytes(), dtype=float, offset=1)
        for offsets in (whole.T, whole[::2, ::-1], numpy.asfortranarray(whole), packed["b"], odd):
            numpy.testing.assert_array_equal(days().read_run(offsets).instants, (offsets * DAY).astype(int))

    def test_arrays_are_not_copied(self):
        for offsets in (numpy.arange(5.0), numpy.arange(5), numpy.arange(6.0).reshape(2, 3)):
            self.assertIs(lendable(offsets), offsets)

    @needs(*BOTH)
    def test_read_only_arrays(self):
        offsets = numpy.arange(5.0)
        offsets.flags.writeable = False
        self.assertIs(lendable(offsets), offsets)
        self.assertEqual(days().read_run(offsets).instants.tolist(), [n * DAY for n in range(5)])

    @needs(*BOTH)
    def test_what_holds_an_array(self):
        class Series:
            def __array__(self, dtype=None, copy=None):
                return numpy.arange(3.0)

        self.assertEqual(days().read_run(Series()).instants.tolist(), [0, DAY, 2 * DAY])

    @needs(*BOTH)
    def test_places_of_refusals(self):
        for offsets, number, place in [
            (numpy.array([[0, 1], [numpy.nan, 2]]), 8, 2),
            (numpy.array([0, 2**64 - 1], dtype="u8"), 5, 1),
            (numpy.array([0, -(2**63)]), 5, 1),
        ]:
            with self.assertRaises(Refused) as caught:
                days().read_run(offsets)
            self.assertEqual((caught.exception.number, caught.exception.place), (number, place))

    @needs(*BOTH)
    def test_masked_arrays(self):
        offsets = numpy.ma.array([1.0, 2.0], mask=[False, False])
        self.assertEqual(days().read_run(offsets).instants.tolist(), [DAY, 2 * DAY])
        offsets[1] = numpy.ma.masked
        with self.assertRaises(ValueError):
            days().read_run(offsets)

    @needs(*BOTH)
    def test_rooms(self):
        room = numpy.full(4, 9)
        run = days().read_run(numpy.arange(2.0), out=room[1:])
        self.assertEqual((room.tolist(), run.instants.tolist()), ([9, 0, DAY, 9], [0, DAY, 9]))
        days().read_run([3], out=room)
        self.assertEqual(room.tolist(), [3 * DAY, 0, DAY, 9])
        mixed = array.array("q", [0, 0])
        days().read_run(numpy.arange(2.0), out=mixed)
        self.assertEqual(list(mixed), [0, DAY])
        fixed = numpy.zeros(4, dtype=int)
        fixed.flags.writeable = False
        for wrong in (room[::2], room.astype("i4"), room.astype(float), room.astype(">i8"), room.astype("u8"), fixed):
            with self.assertRaises(TypeError):
                days().read_run([1], out=wrong)
        with self.assertRaises(ValueError):
            days().read_run(room[:2], out=room[1:])

    @needs(*BOTH)
    def test_kinds_that_are_none(self):
        for kind in ("?", "c16", "U3", "S3", "O", "M8[us]", "m8[us]", numpy.longdouble, [("a", "f8")]):
            with self.assertRaises(TypeError, msg=kind):
                days().read_run(numpy.zeros(2, dtype=kind))


@unittest.skipIf(numpy is None, "NumPy is not installed")
class Scalars(unittest.TestCase):
    @needs("read_units", "read_whole", "read_double")
    def test_scalars(self):
        for kind in (numpy.float16, numpy.float32, numpy.float64, numpy.int8, numpy.int64, numpy.uint64):
            self.assertEqual(days().read(kind(3)), days().read(3), kind)
        for wrong in (numpy.True_, numpy.longdouble(3), numpy.complex128(3), numpy.datetime64(3, "us"), numpy.arange(2)):
            with self.assertRaises(TypeError, msg=repr(wrong)):
                days().read(wrong)
            with self.assertRaises(TypeError, msg=repr(wrong)):
                days().read_run([wrong])

    @needs("read_units", "read_wholes", "write_iso")
    def test_the_english_cutover(self):
        """From the cutover on, the instants are those of NumPy's dates."""
        run = Axis("days since 1752-09-02", cutover=(1752, 9, 14)).read_run(numpy.arange(1, 60_000))
        dates = numpy.arange("1752-09-14", 59_999, dtype="datetime64[D]")
        numpy.testing.assert_array_equal(run.instants, dates.astype("datetime64[us]").astype(numpy.int64))
        with self.assertRaises(ValueError):
            run.datetime64()

    @needs("read_units", "write_instant", "fields_of", "read_wholes")
    def test_instants_of_an_array(self):
        instant = days().read_run(numpy.array([5])).instants[0]
        self.assertEqual(days().write(instant), 5)
        self.assertEqual(fields_of(instant, "proleptic_gregorian").day, 6)


@unittest.skipIf(numpy is None, "NumPy is not installed")
class Datetime64(unittest.TestCase):
    @needs(*BOTH)
    def test_as_datetime64(self):
        run = days().read_run(numpy.arange(-719_528.0, 2_932_896.0, 12_345.25))
        dates = run.datetime64()
        self.assertEqual(dates.dtype, numpy.dtype("M8[us]"))
        self.assertTrue(numpy.shares_memory(dates, run.instants))
        for date, instant in zip(dates, run.instants):
            self.assertEqual(str(date) + "Z", write_iso(int(instant), "proleptic_gregorian"))

    @needs(*BOTH)
    def test_of_lists_too(self):
        dates = days().read_run([0, 1]).datetime64()
        self.assertEqual(dates[1].item(), datetime.datetime(1970, 1, 2))

    @needs(*BOTH)
    def test_other_calendars_have_none(self):
        for calendar in ("standard", "julian", "noleap", "all_leap", "360_day"):
            with self.assertRaises(ValueError):
                days(calendar).read_run([0]).datetime64()
