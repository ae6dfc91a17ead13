"""What has the wrong type is a TypeError, whatever it is; and threads may share an axis, and have readers of their own."""

import array
import datetime
import decimal
import fractions
import threading
import unittest

from uppinalo import Axis, Calendar, Date, Fields, Mode, Period, Reading, UnitsReader, calendar_of, date_of_day, day_of_date
from uppinalo import fields_of, read_datetime64, read_iso, write_datetime64, write_iso

from .calls import needs

NO_NUMBERS = [None, "1", b"1", True, False, 1j, [], {}, object(), decimal.Decimal(1), fractions.Fraction(1, 2), int, ...]


class WrongTypes(unittest.TestCase):
    def refused(self, call, *arguments, **named):
        with self.assertRaises(TypeError, msg=f"{arguments!r} {named!r}"):
            call(*arguments, **named)

    def test_calendars(self):
        for calendar in (None, 0, 3, 1.0, True, [], Period.DAY, object()):
            self.refused(calendar_of, calendar)
            self.refused(fields_of, 0, calendar)
            self.refused(write_iso, 0, calendar)
            self.refused(Axis.of, calendar, Period.DAY, Mode.FIXED, 0)
            self.refused(UnitsReader, calendar=calendar)

    def test_texts(self):
        for text in (None, 0, 1.5, True, [], bytearray(b"1970"), memoryview(b"1970")):
            self.refused(read_iso, text)
            self.refused(Axis, text)
            self.refused(Axis, "days since 1970", calendar=text)

    @needs("start_units", "add_units")
    def test_fragments(self):
        for fragment in (None, 0, 1.5, True, "days", [], [b"days"], object(), array.array("d", [1.0]), array.array("i", [1])):
            self.refused(UnitsReader().add, fragment)
        self.refused(UnitsReader().add)
        self.refused(UnitsReader, b"days")

    def test_instants_and_days(self):
        for number in [*NO_NUMBERS, 1.0, 1.5]:
            self.refused(fields_of, number, Calendar.NOLEAP)
            self.refused(date_of_day, number, Calendar.NOLEAP)
            self.refused(write_iso, number, Calendar.NOLEAP)
            self.refused(day_of_date, Date(2000, number), Calendar.NOLEAP)
            self.refused(Axis.of, Calendar.NOLEAP, Period.DAY, Mode.FIXED, number)

    def test_dates(self):
        for date in (None, (2000, 1, 1), "2000-01-01", Fields(2000), [2000, 1, 1]):
            self.refused(day_of_date, date, Calendar.NOLEAP)

    def test_cutovers(self):
        day = datetime.datetime(1752, 9, 14)
        for cutover in (1752, "1752-09-14", b"1752", day, [1752, 9, 14], (1752, 9), (1752.0, 9, 14), (1752, True, 14), Fields(1752), {}):
            self.refused(Axis, "days since 1970", cutover=cutover)
            self.refused(Axis.of, Calendar.NOLEAP, Period.DAY, Mode.FIXED, 0, cutover)
            self.refused(read_iso, "1970", cutover=cutover)
            self.refused(write_iso, 0, Calendar.NOLEAP, cutover=cutover)
            self.refused(fields_of, 0, Calendar.NOLEAP, cutover=cutover)
            self.refused(date_of_day, 0, Calendar.NOLEAP, cutover=cutover)
            self.refused(day_of_date, Date(1970), Calendar.NOLEAP, cutover=cutover)
            self.refused(UnitsReader, cutover=cutover)
            self.refused(UnitsReader().end, cutover=cutover)

    def test_parts_of_an_axis(self):
        self.refused(Axis.of, Calendar.NOLEAP, 4, Mode.FIXED, 0)
        self.refused(Axis.of, Calendar.NOLEAP, Period.DAY, 0, 0)
        self.refused(Axis.of, Calendar.NOLEAP, Mode.FIXED, Period.DAY, 0)

    @needs("fields_of")
    def test_offsets(self):
        axis = Axis.of(Calendar.NOLEAP, Period.DAY, Mode.FIXED, 0)
        for offset in NO_NUMBERS:
            self.refused(axis.read, offset)
            self.refused(axis.read_run, [offset])
            self.refused(axis.read_run, [0, offset])
            self.refused(axis.read_run, [0.5, offset])
        for run in (None, 1, 1.5, "12", b"12", bytearray(8), object(), memoryview(bytes(8)).cast("c")):
            self.refused(axis.read_run, run)
        self.refused(axis.read_run, memoryview(bytes(32)).cast("d", (2, 2)))

    def test_records(self):
        for data in (None, 1, 1.5, "12345678", [], [1], object(), array.array("d", [1.0]), array.array("i", [1, 2])):
            self.refused(read_datetime64, data, "<M8[s]")
        for identifier in (None, 0, [], bytearray(b"<M8[s]"), object()):
            self.refused(read_datetime64, bytes(8), identifier)
            self.refused(write_datetime64, [0], identifier)
        self.refused(read_datetime64, bytes(8))
        self.refused(write_datetime64, [0])

    def test_instants(self):
        for number in [*NO_NUMBERS, 1.0, datetime.datetime(1970, 1, 1), Reading(0, True, Calendar.PROLEPTIC_GREGORIAN)]:
            self.refused(write_datetime64, [0, number], "<M8[s]")
        for instants in (None, 1, 1.5, "12", b"12", bytearray(8), object(), array.array("d", [1.0]), memoryview(bytes(8)).cast("d")):
            self.refused(write_datetime64, instants, "<M8[s]")
        self.refused(write_datetime64, memoryview(bytes(32)).cast("q", (2, 2)), "<M8[s]")

    @needs("fields_of")
    def test_times(self):
        axis = Axis.of(Calendar.NOLEAP, Period.DAY, Mode.FIXED, 0)
        for time in [*NO_NUMBERS, 1.0, (2000, 1, 1), Date(2000), Fields("2000"), Fields(2000, 1.0), Fields(2000, True)]:
            self.refused(axis.write, time)
        self.refused(axis.write, Reading(0.5, True, Calendar.NOLEAP))


def in_threads(work):
    """All that four threads find."""
    found = []
    threads = [threading.Thread(target=lambda: found.extend(work())) for _ in range(4)]
    for thread in threads:
        thread.start()
    for thread in threads:
        thread.join()
    return found


class Threads(unittest.TestCase):
    @needs("read_units", "read_doubles")
    def test_threads_share_an_axis(self):
        axis = Axis("hours since 1900-01-01", calendar="julian")
        offsets = [n / 7 for n in range(2000)]
        expected = axis.read_run(offsets).instants
        found = in_threads(lambda: [axis.read_run(offsets).instants == expected for _ in range(20)])
        self.assertEqual(found, [True] * 80)

    @needs("read_units", "start_units", "add_units", "end_units", "fields_of")
    def test_threads_have_readers_of_their_own(self):
        text = b"calendar months since 1930-01-30"
        expected = Axis(text)

        def read():
            reader = UnitsReader()
            for byte in text:
                reader.add(bytes([byte]))
            return reader.end() == expected

        self.assertEqual(in_threads(lambda: [read() for _ in range(20)]), [True] * 80)
