"""Readers of units texts in fragments: texts, and what the tests of them ask."""

import unittest

from uppinalo import Calendar, Refused, UnitsReader

CALLS = ("read_units", "start_units", "add_units", "end_units", "fields_of")
TEXT = b"days since 1850-01-01"
#: Calendar, units text, and the number of its refusal or 0.
TEXTS = [
    ("noleap", TEXT, 0),
    ("", b"hours since 1900-01-01 00:00:0.0", 0),
    ("360_day", b"CALENDAR  mons SINCE   2023-02-30", 0),
    ("julian", b"calendar years since -4713-01-01 12:00 UTC", 0),
    ("gregorian", b"msec since 2000-1-1T12:30:15.25 +05:30", 0),
    ("tai", b"days", 2),
    ("", b"", 3),
    ("", b"days since 1970-13-01Z", 3),
    ("", b"days since 1970-01-01\0", 3),
    ("", "days since 197\u0660".encode(), 3),
    ("", b"\xffdays since 1970", 3),
    ("standard", b"days since 1582-10-05T00+24", 4),
    ("360_day", b"days since 1970-01-31 24:00", 4),
    ("360_day", b"days since 1970-01-31", 12),
    ("standard", b"days since 1582-10-05", 13),
    ("standard", b"days since 9999-12-31 23-01", 5),
]


def long_text(length):
    """A text of so many bytes that is good, its length apart."""
    return b"days since" + b"1970-01-01".rjust(length - 10)


def reader_of(*fragments, calendar=Calendar.STANDARD):
    reader = UnitsReader(calendar=calendar)
    for fragment in fragments:
        reader.add(fragment)
    return reader


def outcome(call, *arguments):
    """What a call gives, or the number of its refusal."""
    try:
        return call(*arguments)
    except Refused as refused:
        return refused.number


class Case(unittest.TestCase):
    def refused(self, number, call, *arguments):
        with self.assertRaises(Refused) as caught:
            call(*arguments)
        self.assertEqual((caught.exception.number, caught.exception.place), (number, None))
        return caught.exception

    def closed(self, reader):
        """Whatever is asked of a reader is refused with 11, and its state keeps every byte."""
        before = bytes(reader._state)
        for fragment in (b"", b"x", TEXT, bytes(1000)):
            self.refused(11, reader.add, fragment)
        for name in ("", "noleap", "tai"):
            self.refused(11, reader.end, name)
        self.assertEqual(bytes(reader._state), before)
