"""Missing values: NaN, None, fill values and masks, in lists and in NumPy's arrays."""

import array
import math
import unittest

from uppinalo import Axis, Refused

from .calls import needs

try:
    import numpy
except ImportError:
    numpy = None

DAY = 86_400_000_000
CALLS = ("read_units", "read_wholes", "read_doubles", "write_iso")
NOT_A_TIME = -(2**63)
NAN = math.nan


def days(calendar="proleptic_gregorian"):
    return Axis("days since 1970-01-01", calendar=calendar)


@needs(*CALLS)
class Elements(unittest.TestCase):
    def read(self, offsets, missing, instants, mask):
        run = days().read_run(offsets, missing=missing)
        self.assertEqual((list(run.instants), run.mask, run.rounded), (instants, mask, 0), (offsets, missing))

    def test_what_is_missing(self):
        for offsets, missing, mask in [
            ([1.0, NAN], NAN, [False, True]),
            ([1.0, NAN], (), [False, True]),
            ([1.0, NAN], -999.0, [False, True]),
            ([1, -999], -999, [False, True]),
            ([1, -999], -999.0, [False, True]),
            ([1.0, 1e20], 1e20, [False, True]),
            ([1.0, 1e20, -9.0], (-9, 1e20), [False, True, True]),
            ([None, 1.5], NAN, [True, False]),
            (array.array("d", [1.0, NAN]), NAN, [False, True]),
            (array.array("q", [1, 2**63 - 1]), 2**63 - 1, [False, True]),
            (memoryview(array.array("d", [NAN, 7.0, 1.0]))[::2], NAN, [True, False]),
            ([1.0, math.inf], math.inf, [False, True]),
        ]:
            instants = [NOT_A_TIME if is_missing else int(offset * DAY) for offset, is_missing in zip(offsets, mask)]
            self.read(offsets, missing, instants, mask)
            self.read(iter(offsets), missing, instants, mask)

    def test_nothing_is_missing(self):
        for offsets in ([1, 2], [1.0, 2.0], array.array("d", [1, 2]), (1, 2)):
            for missing in (NAN, (), -999, 0.5, 10**400):
                self.read(offsets, missing, [DAY, 2 * DAY], None)
        self.read([], NAN, [], None)

    def test_rounded_speaks_of_what_is_read(self):
        run = Axis("seconds since 1970-01-01").read_run([1 / 3, NAN, 3 / 128, 1.0], missing=NAN)
        self.assertEqual((run.rounded, len(run)), (2, 4))

    def test_refused_with_its_place(self):
        for offsets, missing, number, place in [
            ([NAN, 1.0], None, 8, 0),
            ([NAN, math.inf], NAN, 8, 1),
            ([NAN, -999, 1e300], -999, 5, 2),
            ([NAN, 1e9], NAN, 5, 1),
        ]:
            with self.assertRaises(Refused) as caught:
                days().read_run(offsets, missing=missing)
            self.assertEqual((caught.exception.number, caught.exception.place), (number, place), offsets)

    def test_rooms(self):
        room = array.array("q", [7, 8, 9])
        run = days().read_run([NAN, 1.0], out=room, missing=NAN)
        self.assertEqual((list(room), run.isoformat()), ([NOT_A_TIME, DAY, 9], ["", "1970-01-02T00:00:00.000000Z"]))
        with self.assertRaises(Refused):
            days().read_run([NAN, 1e300], out=room, missing=NAN)
        self.assertEqual(list(room), [NOT_A_TIME, DAY, 9])

    def test_calendar_months(self):
        run = Axis("calendar months since 1930-01-31").read_run([1, None, 2], missing=NAN)
        self.assertEqual(run.isoformat(), ["1930-02-28T00:00:00.000000Z", "", "1930-03-31T00:00:00.000000Z"])

    def test_types(self):
        for missing in ("-999", b"", [-999], True, 1j, (1, "2"), object()):
            with self.assertRaises(TypeError, msg=missing):
                days().read_run([1], missing=missing)
        for offsets in (["1"], [1, [2]], "12", b"12", None, 1):
            with self.assertRaises(TypeError, msg=offsets):
                days().read_run(offsets, missing=NAN)
        with self.assertRaises(TypeError):
            days().read_run([None])


@unittest.skipIf(numpy is None, "NumPy is not installed")
@needs(*CALLS)
class Arrays(unittest.TestCase):
    def test_fill_values_of_every_kind(self):
        """A file stores its fill value in the type of the variable."""
        for kind, fill in [("f4", 1e20), ("f4", 9.96921e36), ("f8", 1e20), ("f2", -999.0), (">f4", 1e20), ("i2", -999), ("i4", -999.0)]:
            given = numpy.array([1, fill, 3], dtype=kind)
            for missing in (fill, numpy.float64(fill), given[1]):
                run = days().read_run(given, missing=missing)
                self.assertEqual((run.mask.tolist(), run.instants.tolist()), ([False, True, False], [DAY, NOT_A_TIME, 3 * DAY]), kind)
        for kind, fill in [("i2", 99_999), ("u1", -1), ("i8", 2**63), ("f2", 1e20), ("i4", 0.5), ("i4", NAN), ("f4", 10**400)]:
            self.assertIsNone(days().read_run(numpy.array([0, 1], dtype=kind), missing=fill).mask, kind)

    def test_masked_arrays(self):
        given = numpy.ma.array([[1.0, 2.0], [NAN, 4.0]], mask=[[True, False], [False, False]])
        run = days().read_run(given, missing=())
        self.assertEqual(run.mask.tolist(), [[True, False], [True, False]])
        self.assertEqual(run.instants.tolist(), [[NOT_A_TIME, 2 * DAY], [NOT_A_TIME, 4 * DAY]])
        with self.assertRaises(ValueError):
            days().read_run(given)

    def test_layouts(self):
        whole = numpy.arange(24.0).reshape(4, 6)
        whole[1, 2] = whole[3, 5] = NAN
        for given in (whole, whole.T, whole[::2, ::-1], numpy.asfortranarray(whole), whole.astype(">f8"), whole[1, 2], whole[3:, 5]):
            run = days().read_run(given, missing=NAN)
            expected = numpy.where(numpy.isnan(given), NOT_A_TIME, numpy.nan_to_num(given) * DAY).astype("i8")
            numpy.testing.assert_array_equal(run.instants, expected)
            self.assertEqual(run.datetime64().shape, given.shape)
            if run.mask is not None:
                numpy.testing.assert_array_equal(run.mask, numpy.isnan(given))
                numpy.testing.assert_array_equal(numpy.isnat(run.datetime64()), run.mask)

    def test_what_is_given_stays(self):
        given = numpy.array([NAN, -999.0, 1.0])
        days().read_run(given, missing=-999.0)
        numpy.testing.assert_array_equal(given, [NAN, -999.0, 1.0])

    def test_places_are_those_of_the_whole_array(self):
        with self.assertRaises(Refused) as caught:
            days().read_run(numpy.array([[NAN, 1.0], [NAN, math.inf]]), missing=NAN)
        self.assertEqual((caught.exception.number, caught.exception.place), (8, 3))

    def test_rooms(self):
        room = numpy.full((2, 3), 9)
        run = days().read_run(numpy.array([1.0, NAN]), out=room, missing=NAN)
        self.assertEqual((room.tolist(), run.mask.tolist()), ([[DAY, NOT_A_TIME, 9], [9, 9, 9]], [False, True]))
        plain = array.array("q", [9, 9, 9])
        days().read_run(numpy.array([1.0, NAN]), out=plain, missing=NAN)
        self.assertEqual(list(plain), [DAY, NOT_A_TIME, 9])
