"""Axes, one offset read, offsets written: the cases by hand and the edges of Python's numbers."""

import math
import pickle
import unittest

from uppinalo import Axis, Calendar, Fields, Mode, Period, Reading, Refused, read_iso

from .calls import needs

READ = [
    ("standard", "days since 1582-10-04", 1, "1582-10-15"),
    ("proleptic_gregorian", "days since 1582-10-04", 1, "1582-10-05"),
    ("standard", "days since -1-12-31", 1, "0001-01-01"),
    ("julian", "days since 1900-02-28", 1, "1900-02-29"),
    ("360_day", "days since 2023-02-30", 1, "2023-03-01"),
    ("noleap", "days since 2000-02-28", 1, "2000-03-01"),
    ("standard", "months since 1930-01-01", 1, "1930-01-31T10:29:03.831225Z"),
    ("standard", "years since 1850-01-01", 10, "1860-01-01T10:07:39.747000Z"),
    ("standard", "calendar months since 1930-01-31", 1, "1930-02-28"),
    ("standard", "calendar months since 1582-09-10", 1, "1582-10-04"),
    ("standard", "hours since 1930-01-01 00:30 +01:00", 1, "1930-01-01T00:30:00.000000Z"),
    ("standard", "days since 1970-01-01", 2_932_896, "9999-12-31"),
    ("360_day", "days since 1970-01-01", 2_890_799, "9999-12-30"),
    ("julian", "days since 1-01-01", -1, "-0001-12-31"),
    ("julian", "days since -5-02-28", 1, "-0005-02-29"),
    ("julian", "calendar years since -5-02-29", 5, "0001-02-28"),
]
REFUSED = [
    ("standard", "days since 1900-13-01", 4),
    ("standard", "days since 1900-02-30T24:00", 4),
    ("standard", "days since 1582-10-05T00+24", 4),
    ("standard", "days since 0000-13-01", 4),
    ("standard", "days since 1900-02-30", 12),
    ("julian", "days since 0000-01-01", 12),
    ("360_day", "days since 9999-12-31 23-01", 12),
    ("noleap", "days since 2000-02-29", 12),
    ("standard", "days since 1582-10-05", 13),
    ("standard", "days since 1582-10-14 23:59:59.999999 -23:59", 13),
    ("standard", "ss since 1970", 3),
    ("standard", "days since 1970-01-01Z", 3),
    ("standard", "days since 1970-01-01" + " " * 108, 1),
    ("tai", "days since 1970", 2),
    ("standard", "", 3),
    ("standard", "days since 9999-12-31 23-01", 5),
]
#: Offsets in calendar months and years, the date of each, and by how many days it was stepped back.
STEPS = [
    ("standard", "calendar months since 1930-01-31", 1, "1930-02-28", 3),
    ("standard", "calendar months since 1930-01-31", 2, "1930-03-31", 0),
    ("standard", "calendar months since 1930-01-31", -2, "1929-11-30", 1),
    ("standard", "calendar months since 1932-01-31", 1, "1932-02-29", 2),
    ("standard", "calendar months since 1582-09-04", 1, "1582-10-04", 0),
    ("standard", "calendar months since 1582-09-05", 1, "1582-10-04", 1),
    ("standard", "calendar months since 1582-09-14", 1, "1582-10-04", 10),
    ("standard", "calendar months since 1582-09-15", 1, "1582-10-15", 0),
    ("standard", "calendar years since 1581-10-14", 1, "1582-10-04", 10),
    ("standard", "calendar years since 2000-02-29", 1, "2001-02-28", 1),
    ("proleptic_gregorian", "calendar months since 1582-09-14", 1, "1582-10-14", 0),
    ("julian", "calendar years since -5-02-29", 5, "0001-02-28", 1),
    ("noleap", "calendar months since 2000-01-31", 1, "2000-02-28", 3),
    ("all_leap", "calendar months since 1900-01-31", 1, "1900-02-29", 2),
    ("360_day", "calendar months since 2023-01-30", 1, "2023-02-30", 0),
]
WHOLE = ("read_units", "read_whole", "write_iso")


class Units(unittest.TestCase):
    @needs("read_units")
    def test_parts(self):
        axis = Axis("calendar months since 1970-01-02", calendar="360_day")
        parts = (axis.calendar, axis.period, axis.mode, axis.reference)
        self.assertEqual(parts, (Calendar.DAYS_360, Period.MONTH, Mode.CALENDAR, 86_400_000_000))
        self.assertEqual(axis, Axis(b"CALENDAR mon SINCE 1970-1-2", calendar=b"uniform30day"))
        self.assertEqual(hash(axis), hash(Axis("calendar mons since 1970-1-2", Calendar.DAYS_360)))
        self.assertNotEqual(axis, Axis("months since 1970-01-02", calendar="360_day"))
        self.assertNotEqual(axis, "calendar months since 1970-01-02")

    @needs("read_units")
    def test_refused(self):
        for calendar, units, number in REFUSED:
            with self.assertRaises(Refused) as caught:
                Axis(units, calendar=calendar)
            self.assertEqual((caught.exception.number, caught.exception.place), (number, None), units)
            self.assertIn(repr(units), str(caught.exception))

    @needs("fields_of")
    def test_of_parts(self):
        axis = Axis.of(Calendar.NOLEAP, Period.DAY, Mode.FIXED, 0)
        self.assertEqual(eval(repr(axis)), axis)
        self.assertEqual(pickle.loads(pickle.dumps(axis)), axis)
        for reference in (2**63 - 1, -(2**63), 10**30):
            with self.assertRaises(Refused) as caught:
                Axis.of(Calendar.NOLEAP, Period.DAY, Mode.FIXED, reference)
            self.assertEqual(caught.exception.number, 5)


class OneOffset(unittest.TestCase):
    @needs(*WHOLE)
    def test_cases_by_hand(self):
        for calendar, units, offset, expected in READ:
            text = expected if "T" in expected else f"{expected}T00:00:00.000000Z"
            reading = Axis(units, calendar=calendar).read(offset)
            self.assertEqual((reading.isoformat(), reading.exact), (text, True), units)

    @needs(*WHOLE, "read_double", "read_iso")
    def test_days_back(self):
        for calendar, units, offset, date, days_back in STEPS:
            axis = Axis(units, calendar=calendar)
            at = read_iso(date, calendar)
            self.assertEqual(axis.read(offset), Reading(at.instant, True, axis.calendar, days_back), units)
            self.assertEqual(axis.read(float(offset)).days_back, days_back, units)
            self.assertEqual((axis.read(0).days_back, at.days_back), (0, 0), units)

    @needs(*WHOLE, "read_double")
    def test_no_days_back_in_fixed_mode_and_shorter_periods(self):
        for units in ("months since 1930-01-31", "years since 1932-02-29", "calendar days since 1930-01-31", "days since 1582-09-14"):
            for offset in (0, 1, 20, 28, 1.0, -1):
                self.assertEqual(Axis(units).read(offset).days_back, 0, units)
        self.assertEqual(Axis("months since 1930-01-31").read(0.5).days_back, 0)

    @needs(*WHOLE, "read_double")
    def test_a_whole_float_is_read_as_the_int(self):
        for calendar, units, offset, _ in READ:
            axis = Axis(units, calendar=calendar)
            self.assertEqual(axis.read(float(offset)), axis.read(offset), units)

    @needs("read_units", "read_double")
    def test_doubles(self):
        axis = Axis("seconds since 1970-01-01")
        self.assertEqual(axis.read(3 / 128), Reading(23_438, False, Calendar.STANDARD))
        self.assertEqual(axis.read(-3 / 128), Reading(-23_438, False, Calendar.STANDARD))
        self.assertEqual(axis.read(1 / 128), Reading(7812, False, Calendar.STANDARD))
        self.assertEqual(axis.read(-0.0), Reading(0, True, Calendar.STANDARD))
        self.assertEqual(axis.read(5e-324), Reading(0, False, Calendar.STANDARD))
        for offset, number in [(math.nan, 8), (math.inf, 8), (-math.inf, 8), (1e300, 5), (-1e12, 5)]:
            with self.assertRaises(Refused) as caught:
                axis.read(offset)
            self.assertEqual(caught.exception.number, number, offset)

    @needs("read_units", "read_double")
    def test_doubles_in_calendar_mode(self):
        axis = Axis("calendar days since 1970-01-01")
        self.assertEqual(axis.read(2.0).instant, 2 * 86_400_000_000)
        for offset, number in [(0.5, 6), (math.nan, 8), (2.0**63, 5)]:
            with self.assertRaises(Refused) as caught:
                axis.read(offset)
            self.assertEqual(caught.exception.number, number, offset)

    @needs("read_units", "read_whole")
    def test_ints_of_any_size(self):
        for units in ("millisec since 1970", "calendar years since 1970", "calendar months since 1970"):
            for offset in (2**63 - 1, -(2**63), 2**64, 2**64 + 1, -(10**40)):
                with self.assertRaises(Refused) as caught:
                    Axis(units).read(offset)
                self.assertEqual(caught.exception.number, 5, offset)


class Writing(unittest.TestCase):
    @needs("read_units", "read_iso", "write_instant", "write_fields")
    def test_cases_by_hand(self):
        axis = Axis("calendar months since 1930-01-31")
        self.assertEqual(axis.write(read_iso("1930-02-28")), 1)
        self.assertEqual(axis.write(Fields(1930, 2, 28)), 1)
        for time in (read_iso("1930-02-27"), Fields(1930, 2, 27)):
            with self.assertRaises(Refused) as caught:
                axis.write(time)
            self.assertEqual(caught.exception.number, 6)

    @needs("read_units", "read_whole", "write_instant", "write_fields", "fields_of")
    def test_reading_is_undone(self):
        for calendar, units, offset, _ in READ:
            axis = Axis(units, calendar=calendar)
            reading = axis.read(offset)
            for time in (reading, reading.instant, reading.fields):
                self.assertEqual(axis.write(time), offset, units)

    @needs("read_units", "write_instant")
    def test_instants_of_any_size(self):
        for instant in (2**63 - 1, -(2**63), 2**70):
            with self.assertRaises(Refused) as caught:
                Axis("s since 1970").write(instant)
            self.assertEqual(caught.exception.number, 5)

    @needs("read_units", "write_fields")
    def test_order_of_refusals(self):
        axis = Axis("days since 1970-01-01")
        for fields, number in [
            (Fields(10_000, 13), 5),
            (Fields(10**30, 1), 5),
            (Fields(2000, 13), 4),
            (Fields(2000, 1, 1, -1), 4),
            (Fields(2000, 1, 1, 0, 0, 0, 2**32), 4),
            (Fields(0, 13), 4),
            (Fields(1900, 2, 30, 24), 4),
            (Fields(1582, 10, 5, 0, 0, 60), 4),
            (Fields(0), 12),
            (Fields(1900, 2, 29, 1), 12),
            (Fields(1582, 10, 14, 1), 13),
            (Fields(2000, 1, 1, 1), 6),
        ]:
            with self.assertRaises(Refused) as caught:
                axis.write(fields)
            self.assertEqual(caught.exception.number, number, fields)

    @needs("read_units", "write_instant")
    def test_an_instant_of_another_calendar(self):
        with self.assertRaises(ValueError):
            Axis("days since 1970", calendar="noleap").write(Reading(0, True, Calendar.JULIAN))
