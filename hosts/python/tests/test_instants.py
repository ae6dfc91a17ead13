"""Instants, days and ISO texts."""

import datetime
import re
import unittest

from uppinalo import Calendar, Date, Fields, Reading, Refused, calendar_of, date_of_day, day_of_date, fields_of
from uppinalo import read_iso, write_iso

from .calls import REPOSITORY, needs

DAY = 86_400_000_000


class Days(unittest.TestCase):
    @needs("date_of_day", "day_of_date")
    def test_dates_of_python(self):
        """`proleptic_gregorian` against Python's own calendar."""
        for ordinal in range(1, datetime.date.max.toordinal(), 977):
            date = datetime.date.fromordinal(ordinal)
            day = ordinal - datetime.date(1970, 1, 1).toordinal()
            ours = Date(date.year, date.month, date.day)
            self.assertEqual(date_of_day(day, Calendar.PROLEPTIC_GREGORIAN), ours)
            self.assertEqual(day_of_date(ours, Calendar.PROLEPTIC_GREGORIAN), day)

    @needs("date_of_day", "day_of_date")
    def test_cutover(self):
        day = day_of_date(Date(1582, 10, 4), Calendar.STANDARD)
        self.assertEqual(date_of_day(day + 1, Calendar.STANDARD), Date(1582, 10, 15))

    @needs("day_of_date")
    def test_mistyped_missing_and_dropped(self):
        for date, calendar, number in [
            (Date(0, 13), Calendar.STANDARD, 4),
            (Date(2000, 1, 32), Calendar.DAYS_360, 4),
            (Date(0), Calendar.JULIAN, 12),
            (Date(2000, 1, 31), Calendar.DAYS_360, 12),
            (Date(2000, 2, 30), Calendar.ALL_LEAP, 12),
            (Date(1582, 10, 5), Calendar.STANDARD, 13),
            (Date(1582, 10, 14), Calendar.STANDARD, 13),
        ]:
            with self.assertRaises(Refused) as caught:
                day_of_date(date, calendar)
            self.assertEqual((caught.exception.number, caught.exception.place), (number, None), date)

    @needs("day_of_date")
    def test_numbers_of_any_size(self):
        for date, number in [
            (Date(10_000), 5),
            (Date(-(10**30)), 5),
            (Date(2000, 10**30), 4),
            (Date(2000, -1), 4),
            (Date(2000, 2**32 + 1), 4),
            (Date(2**64 + 2000), 5),
            (Date(2000, 1, 2**32 + 1), 4),
        ]:
            with self.assertRaises(Refused) as caught:
                day_of_date(date, Calendar.NOLEAP)
            self.assertEqual(caught.exception.number, number, date)

    @needs("date_of_day")
    def test_days_of_any_size(self):
        for day in (2**64, -(2**64), 10**40, 2**63 - 1, -(2**63)):
            with self.assertRaises(Refused) as caught:
                date_of_day(day, Calendar.DAYS_360)
            self.assertEqual(caught.exception.number, 5, day)


class FieldsOfInstants(unittest.TestCase):
    @needs("fields_of")
    def test_before_1970(self):
        self.assertEqual(fields_of(-1, Calendar.STANDARD), Fields(1969, 12, 31, 23, 59, 59, 999_999))

    @needs("fields_of")
    def test_against_python(self):
        epoch = datetime.datetime(1970, 1, 1)
        for instant in range(-60_000 * 10**12, 250_000 * 10**12, 99_999_999_999_977):
            time = epoch + datetime.timedelta(microseconds=instant)
            ours = fields_of(instant, Calendar.PROLEPTIC_GREGORIAN)
            self.assertEqual(datetime.datetime(*ours), time)

    @needs("fields_of")
    def test_past_the_range(self):
        for instant in (2**63 - 1, -(2**63), 2**64, 10**40):
            with self.assertRaises(Refused) as caught:
                fields_of(instant, Calendar.STANDARD)
            self.assertEqual(caught.exception.number, 5)

    @needs("fields_of")
    def test_reading(self):
        reading = Reading(DAY, True, Calendar.ALL_LEAP)
        self.assertEqual(reading.fields, Fields(1970, 1, 2))
        self.assertNotEqual(reading, Reading(DAY, True, Calendar.NOLEAP))
        moved = Reading(DAY, True, Calendar.ALL_LEAP, days_back=2)
        self.assertNotEqual(reading, moved)
        self.assertEqual((reading.days_back, moved.days_back, moved.fields), (0, 2, reading.fields))
        self.assertIn("days_back=2", repr(moved))


class Names(unittest.TestCase):
    NAMES = {
        Calendar.STANDARD: ["", "standard", "gregorian"],
        Calendar.PROLEPTIC_GREGORIAN: ["proleptic_gregorian", "ISO8601"],
        Calendar.JULIAN: ["julian"],
        Calendar.NOLEAP: ["noleap", "no_leap", "365_day"],
        Calendar.ALL_LEAP: ["all_leap", "366_day"],
        Calendar.DAYS_360: ["uniform30day", "360_day"],
    }

    @needs("read_units")
    def test_names(self):
        for calendar, names in self.NAMES.items():
            self.assertIn(calendar.cf_name, names)
            for name in names:
                self.assertIs(calendar_of(name), calendar)
                self.assertIs(calendar_of(name.encode()), calendar)

    @needs("date_of_day", "day_of_date")
    def test_calendars_of_the_readme(self):
        readme = (REPOSITORY / "README.md").read_text()
        rows = re.findall(r"^\| `(\w+)` \| (`.*`.*) \| .* \| (yes|no) \|$", readme, re.MULTILINE)
        self.assertEqual([row[0] for row in rows], [calendar.cf_name for calendar in Calendar])
        for calendar, (_, names, year_0) in zip(Calendar, rows):
            listed = re.findall(r"`(\w+)`", names) + ([""] if "empty" in names else [])
            self.assertEqual(sorted(listed), sorted(self.NAMES[calendar]))
            before = date_of_day(day_of_date(Date(1, 1, 1), calendar) - 1, calendar)
            self.assertEqual(before.year, 0 if year_0 == "yes" else -1)

    @needs("day_of_date")
    def test_no_year_0(self):
        for calendar in (Calendar.STANDARD, Calendar.JULIAN):
            with self.assertRaises(Refused) as caught:
                day_of_date(Date(0, 1, 1), calendar)
            self.assertEqual(caught.exception.number, 12)

    @needs("read_units")
    def test_unknown_names(self):
        for name in ("Standard", "tai", "utc", "none", "noleap ", "noleap\0", "\u0660", "\udcff", "x" * 10_000):
            with self.assertRaises(Refused) as caught:
                calendar_of(name)
            self.assertEqual(caught.exception.number, 2, name)


class IsoTexts(unittest.TestCase):
    @needs("write_iso")
    def test_written(self):
        self.assertEqual(write_iso(0, Calendar.STANDARD), "1970-01-01T00:00:00.000000Z")
        self.assertEqual(write_iso(-1, Calendar.JULIAN), "1969-12-31T23:59:59.999999Z")
        with self.assertRaises(Refused) as caught:
            write_iso(2**63 - 1, Calendar.STANDARD)
        self.assertEqual(caught.exception.number, 5)

    @needs("write_iso", "read_iso", "read_units")
    def test_there_and_back(self):
        for calendar in Calendar:
            for instant in range(-37 * 10**16, 24 * 10**16, 3_333_333_333_333_333):
                text = write_iso(instant, calendar)
                self.assertEqual(len(text), 28 if text.startswith("-") else 27)
                self.assertEqual(read_iso(text, calendar), Reading(instant, True, calendar))

    @needs("read_iso", "read_units")
    def test_read(self):
        self.assertEqual(read_iso("1970-01-01T01:30+01:00").instant, 1_800_000_000)
        self.assertEqual(read_iso(b"1970", "360_day").calendar, Calendar.DAYS_360)

    @needs("read_iso", "read_units")
    def test_refused(self):
        for text, name, number in [
            ("1" * 129, "", 1),
            ("1970", "tai", 2),
            ("", "", 3),
            ("1970-01-01t00", "", 3),
            ("\u0661970", "", 3),
            ("1970\0", "", 3),
            ("1582-10-05T24", "", 4),
            ("1970-01-31 00+24", "360_day", 4),
            ("1970-01-31", "360_day", 12),
            ("1582-10-05", "", 13),
            ("9999-12-31 23:00-01:00", "", 5),
        ]:
            with self.assertRaises(Refused) as caught:
                read_iso(text, name)
            self.assertEqual((caught.exception.number, caught.exception.place), (number, None), text)
