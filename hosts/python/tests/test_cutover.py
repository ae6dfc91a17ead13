"""The cutover of ``standard``: the English one, those that are not allowed, and what an axis, a reading and a reader make of it."""

import copy
import datetime
import pickle
import unittest

from uppinalo import CUTOVER_1582, Axis, Calendar, Date, Fields, Mode, Period, Reading, Refused, UnitsReader
from uppinalo import date_of_day, day_of_date, fields_of, read_iso, write_iso

from .calls import needs
from .readers import CALLS

ENGLISH = Date(1752, 9, 14)
RUSSIAN = Date(1918, 2, 14)
#: Dates that are no cutover of ``standard``.
NOT_ALLOWED = [RUSSIAN, (1582, 10, 14), (1924, 1, 1), (1752, 9, 12), (1700, 2, 29), (1752, 13, 14), (0, 0, 0), (2**70, -1, 2**32)]
#: A cutover, a date, and what the date is refused with, or 0.
DATES = [
    (ENGLISH, Date(1752, 9, 2), 0),
    (ENGLISH, Date(1752, 9, 3), 13),
    (ENGLISH, Date(1752, 9, 13), 13),
    (ENGLISH, Date(1752, 9, 14), 0),
    (ENGLISH, Date(1752, 9, 31), 12),
    (ENGLISH, Date(1582, 10, 10), 0),
    (ENGLISH, Date(1700, 2, 29), 0),
    (ENGLISH, Date(1800, 2, 29), 12),
    ((1752, 10, 1), Date(1752, 9, 30), 13),
    ((1752, 10, 1), Date(1752, 9, 31), 12),
    ((1700, 3, 1), Date(1700, 2, 29), 13),
    ((1700, 3, 1), Date(1700, 2, 30), 12),
    ((1700, 2, 28), Date(1700, 2, 29), 12),
]
#: A cutover, the reference of calendar months, an offset, the date of it, and the days stepped back.
STEPS = [
    (ENGLISH, "1752-08-13", 1, "1752-09-02", 11),
    (ENGLISH, "1752-08-14", 1, "1752-09-14", 0),
    (ENGLISH, "1582-09-10", 1, "1582-10-10", 0),
    ((1752, 10, 1), "1752-08-31", 1, "1752-09-19", 12),
    ((1901, 3, 1), "1901-01-31", 1, "1901-02-15", 16),
    (None, "1582-09-14", 1, "1582-10-04", 10),
]


class Standard(unittest.TestCase):
    def refused(self, number, call, *arguments, **named):
        with self.assertRaises(Refused) as caught:
            call(*arguments, **named)
        self.assertEqual((caught.exception.number, caught.exception.place), (number, None), f"{arguments} {named}")
        return str(caught.exception)

    @needs("read_units", "read_whole", "write_iso", "fields_of", "write_instant", "write_fields")
    def test_english_diary(self):
        diary = Axis("days since 1752-09-02", cutover=ENGLISH)
        reading = diary.read(1)
        self.assertEqual(reading.isoformat(), "1752-09-14T00:00:00.000000Z")
        self.assertEqual(reading.fields, Fields(*ENGLISH))
        self.assertEqual([diary.write(time) for time in (reading, reading.instant, reading.fields)], [1, 1, 1])
        self.assertEqual(Axis("days since 1752-09-02").read(1).isoformat(), "1752-09-03T00:00:00.000000Z")
        self.assertIn("refused 13", self.refused(13, diary.write, Fields(1752, 9, 3)))

    @needs("date_of_day", "day_of_date")
    def test_days(self):
        day = day_of_date(ENGLISH, "standard", cutover=ENGLISH)
        self.assertEqual(date_of_day(day - 1, "standard", cutover=ENGLISH), Date(1752, 9, 2))
        self.assertEqual(date_of_day(day, Calendar.STANDARD, cutover=ENGLISH), ENGLISH)
        self.assertEqual(day, day_of_date(ENGLISH, "proleptic_gregorian"))

    @needs("day_of_date", "read_iso", "read_units")
    def test_dropped_and_missing_dates(self):
        for cutover, date, number in DATES:
            text = f"{date.year}-{date.month}-{date.day}"
            if number == 0:
                self.assertEqual(read_iso(text, cutover=cutover).fields[:3], date)
                day_of_date(date, "standard", cutover=cutover)
                continue
            self.refused(number, day_of_date, date, "standard", cutover=cutover)
            self.refused(number, read_iso, text, cutover=cutover)
            self.refused(number, Axis, f"days since {text}", cutover=cutover)

    @needs("read_units", "read_whole", "read_double", "read_iso")
    def test_days_back(self):
        for cutover, reference, offset, date, days_back in STEPS:
            axis = Axis(f"calendar months since {reference}", cutover=cutover)
            at = read_iso(date, cutover=cutover)
            expected = Reading(at.instant, True, Calendar.STANDARD, days_back, axis.cutover)
            self.assertEqual(axis.read(offset), expected, reference)
            self.assertEqual(axis.read(float(offset)), expected, reference)

    @needs(*CALLS, "read_iso", "write_iso", "date_of_day", "day_of_date")
    def test_not_allowed(self):
        for cutover in NOT_ALLOWED:
            self.refused(16, Axis, "days since 1970", cutover=cutover)
            self.refused(16, Axis, "", calendar="gregorian", cutover=cutover)
            self.refused(16, Axis.of, "", Period.DAY, Mode.FIXED, 2**63, cutover)
            self.refused(16, read_iso, "1970-13", cutover=cutover)
            self.refused(16, write_iso, 2**63, "standard", cutover=cutover)
            self.refused(16, fields_of, 0, Calendar.STANDARD, cutover=cutover)
            self.refused(16, date_of_day, 0, "", cutover=cutover)
            self.refused(16, day_of_date, Date(10_000, 13), "", cutover=cutover)
            self.refused(16, UnitsReader(cutover=cutover).end)
            self.refused(2, Axis, "days since 1970", calendar="tai", cutover=cutover)
            self.refused(1, Axis, " " * 129, cutover=cutover)
        self.assertIn("cutover 1918-02-14", self.refused(16, Axis, "days since 1918-01-01", cutover=RUSSIAN))

    @needs("read_units", "read_whole", "write_iso")
    def test_other_calendars_take_any(self):
        for calendar in list(Calendar)[1:]:
            usual = Axis("calendar months since 1752-08-10", calendar)
            for cutover in (ENGLISH, RUSSIAN, Date(0, 0, 0), Date(-(2**63), 2**32 - 1, 2**32 - 1)):
                axis = Axis("calendar months since 1752-08-10", calendar, cutover=cutover)
                self.assertEqual((axis.cutover, axis.reference), (cutover, usual.reference))
                self.assertEqual(axis.read(1).isoformat(), usual.read(1).isoformat())


class Values(unittest.TestCase):
    @needs("read_units")
    def test_forms(self):
        axis = Axis("days since 1752-09-02", cutover=ENGLISH)
        self.assertEqual((axis.cutover, Axis("days since 1752-09-02").cutover), (ENGLISH, CUTOVER_1582))
        for cutover in ((1752, 9, 14), datetime.date(1752, 9, 14)):
            same = Axis("days since 1752-09-02", cutover=cutover)
            self.assertEqual((same, hash(same), same.cutover), (axis, hash(axis), ENGLISH))
        self.assertNotEqual(axis, Axis("days since 1752-09-02"))
        self.assertEqual(Axis("s since 1970", cutover=(1582, 10, 15)), Axis("s since 1970"))

    @needs("fields_of")
    def test_shown_and_stored(self):
        for cutover in (None, ENGLISH):
            axis = Axis.of(Calendar.STANDARD, Period.DAY, Mode.FIXED, 0, cutover)
            self.assertEqual(eval(repr(axis)), axis)
            self.assertEqual([pickle.loads(pickle.dumps(axis)), copy.copy(axis), copy.deepcopy(axis)], [axis] * 3)
            self.assertEqual("1752" in repr(axis), cutover is ENGLISH)

    @needs("read_units", "read_whole", "write_instant")
    def test_instants_of_two_cutovers(self):
        diary, usual = Axis("days since 1800-01-01", cutover=ENGLISH), Axis("days since 1800-01-01")
        self.assertEqual(diary.read(1).instant, usual.read(1).instant)
        self.assertNotEqual(diary.read(1), usual.read(1))
        with self.assertRaises(ValueError):
            diary.write(usual.read(1))
        in_julian = Axis("days since 1800-01-01", "julian", cutover=ENGLISH).read(1)
        self.assertEqual(Axis("days since 1800-01-01", "julian").write(in_julian), 1)

    @needs("read_units", "read_wholes", "read_whole")
    def test_run(self):
        diary = Axis("days since 1752-08-30", cutover=ENGLISH)
        run = diary.read_run(range(6))
        self.assertEqual((run.calendar, run.cutover), (Calendar.STANDARD, ENGLISH))
        days = [fields_of(instant, run.calendar, cutover=run.cutover).day for instant in run.instants]
        self.assertEqual(days, [30, 31, 1, 2, 14, 15])

    @needs(*CALLS, "read_whole", "write_iso")
    def test_reader(self):
        reader = UnitsReader(cutover=datetime.date(1752, 9, 14))
        reader.add(b"days since 1752-09-02")
        copied = pickle.loads(pickle.dumps(reader))
        self.assertEqual((reader.cutover, copied.cutover), (ENGLISH, ENGLISH))
        self.assertEqual(copied.end(), Axis("days since 1752-09-02", cutover=ENGLISH))
        other = copy.copy(reader)
        self.assertEqual(other.end(cutover=CUTOVER_1582), Axis("days since 1752-09-02"))
        reader.cutover = None
        self.assertEqual(reader.end("julian").cutover, CUTOVER_1582)
        refused = UnitsReader(cutover=RUSSIAN)
        for asked in (refused.end, lambda: refused.axis):
            with self.assertRaises(Refused) as caught:
                asked()
            self.assertEqual(caught.exception.number, 16)
            self.assertIn("cutover 1918-02-14", str(caught.exception))
