"""TT2000 and lists of leap seconds: the values of documents 02 and 003, runs, and what is refused."""

import array
import copy
import datetime
import pathlib
import pickle
import struct
import tempfile
import unittest

from uppinalo import LeapSeconds, Refused, UtcFields

from .calls import REPOSITORY, needs

CALLS = ("read_tt2000", "write_tt2000")
FILE = REPOSITORY / "data" / "leap_seconds_2017.bin"
RECORDS = FILE.read_bytes()
SECOND = 10**9
#: The start of 2017, after a leap second.
START_OF_2017 = 536_500_869_184_000_000
LEAP_SECOND = UtcFields(2016, 12, 31, 23, 59, 60)


def list_of(*pairs):
    return b"".join(struct.pack("<qq", day, count) for day, count in pairs)


def first_records(count):
    """The list of some year: 25 records are those of source document 003."""
    return LeapSeconds(RECORDS[: 16 * count])


class Case(unittest.TestCase):
    def refused(self, number, call, *arguments, place=None):
        with self.assertRaises(Refused, msg=arguments) as caught:
            call(*arguments)
        self.assertEqual((caught.exception.number, caught.exception.place), (number, place), arguments)
        return caught.exception


class Values(Case):
    def same(self, leap_seconds, tt2000, text):
        fields = leap_seconds.read(tt2000)
        self.assertEqual(fields.isoformat(), text)
        self.assertEqual(leap_seconds.write(fields), tt2000)

    @needs(*CALLS)
    def test_j2000(self):
        for count in (23, 25, 28):
            self.same(first_records(count), 0, "2000-01-01T11:58:55.816000000Z")

    @needs(*CALLS)
    def test_2009(self):
        """A count of 34, so TT is 66.184 s ahead of UTC."""
        noon = (datetime.date(2009, 1, 1) - datetime.date(2000, 1, 1)).days * 86400 * SECOND
        self.same(first_records(25), noon + 66_184_000_000, "2009-01-01T12:00:00.000000000Z")

    @needs(*CALLS)
    def test_end_of_the_range(self):
        """Source document 003 says 11:46:08.670775807, for which its list would have to count 36 and not 34."""
        for count, second in ((25, "10"), (27, "08"), (28, "07")):
            self.same(first_records(count), 2**63 - 1, f"2292-04-11T11:46:{second}.670775807Z")

    @needs(*CALLS)
    def test_before_1972(self):
        leap_seconds = first_records(28)
        first = leap_seconds.write(UtcFields(1972))
        self.same(leap_seconds, first, "1972-01-01T00:00:00.000000000Z")
        self.refused(15, leap_seconds.read, first - 1)
        self.refused(15, leap_seconds.write, UtcFields(1971, 12, 31, 23, 59, 59, 999_999_999))
        for number in (-(2**63), -(2**63) + 1, -(2**63) + 2):
            self.refused(15, leap_seconds.read, number)
        self.refused(15, leap_seconds.write, UtcFields(1707, 9, 22, 12, 13, 15, 145_224_194))

    @needs(*CALLS)
    def test_every_leap_second(self):
        leap_seconds = first_records(28)
        for day, count in list(struct.iter_unpack("<qq", RECORDS))[1:]:
            date = datetime.date(1970, 1, 1) + datetime.timedelta(day)
            eve = date - datetime.timedelta(1)
            midnight = ((day - 10957) * 86400 - 43200 + count) * SECOND + 32_184_000_000
            self.same(leap_seconds, midnight - SECOND - 1, f"{eve}T23:59:59.999999999Z")
            self.same(leap_seconds, midnight - SECOND, f"{eve}T23:59:60.000000000Z")
            self.same(leap_seconds, midnight - 1, f"{eve}T23:59:60.999999999Z")
            self.same(leap_seconds, midnight, f"{date}T00:00:00.000000000Z")

    @needs(*CALLS)
    def test_against_python(self):
        """After the last leap second the count of 37 holds."""
        epoch = datetime.datetime(2000, 1, 1, 12) - datetime.timedelta(seconds=37, milliseconds=32_184)
        leap_seconds = first_records(28)
        for tt2000 in range(START_OF_2017, 2**63, 997 * 10**14):
            time = epoch + datetime.timedelta(microseconds=tt2000 // 1000)
            self.same(leap_seconds, tt2000, f"{time.isoformat(timespec='microseconds')}{tt2000 % 1000:03}Z")


class Lists(Case):
    @needs(*CALLS)
    def test_sources(self):
        expected = LeapSeconds(RECORDS)
        gaps = memoryview(bytes(byte for pair in zip(RECORDS, RECORDS) for byte in pair))[::2]
        for records in (bytearray(RECORDS), memoryview(RECORDS), array.array("B", RECORDS), gaps):
            self.assertEqual(LeapSeconds(records), expected)
        self.assertEqual((expected.records, hash(expected)), (RECORDS, hash(LeapSeconds(bytearray(RECORDS)))))
        self.assertNotEqual(expected, first_records(27))
        self.assertNotEqual(expected, RECORDS)
        self.assertEqual(repr(expected), "<LeapSeconds: 28 records>")

    @needs(*CALLS)
    def test_files(self):
        self.assertEqual(LeapSeconds.from_file(FILE), LeapSeconds(RECORDS))
        self.assertEqual(LeapSeconds.from_file(str(FILE)), LeapSeconds(RECORDS))
        with tempfile.TemporaryDirectory() as folder:
            path = pathlib.Path(folder, "list")
            self.assertRaises(FileNotFoundError, LeapSeconds.from_file, path)
            path.write_bytes(RECORDS[:17])
            self.refused(14, LeapSeconds.from_file, path)

    @needs(*CALLS)
    def test_copies(self):
        records = bytearray(RECORDS)
        leap_seconds = LeapSeconds(records)
        records[:] = bytes(len(records))
        self.assertEqual(leap_seconds.read(START_OF_2017), UtcFields(2017))
        for other in (copy.copy(leap_seconds), copy.deepcopy(leap_seconds), pickle.loads(pickle.dumps(leap_seconds))):
            self.assertEqual(other, leap_seconds)

    @needs(*CALLS)
    def test_bad_lists(self):
        for records in (
            b"",
            RECORDS[:15],
            RECORDS[:-1],
            RECORDS + b"\0",
            RECORDS[16:],
            RECORDS + RECORDS,
            list_of((730, 9)),
            list_of((731, 10)),
            list_of((730, 10), (730, 11)),
            list_of((730, 10), (-(2**63), 11)),
            list_of((730, 10), (1000, 12)),
            list_of((730, 10), (1000, 10)),
            list_of(*((730 + place, 10 + place) for place in range(65))),
        ):
            self.assertIn(f"{len(records)} bytes", str(self.refused(14, LeapSeconds, records)))
        longest = list_of(*((730 + place, 10 + place) for place in range(64)))
        for records in (list_of((730, 10)), longest, list_of((730, 10), (2**63 - 1, 11))):
            self.assertEqual(LeapSeconds(records).records, records)

    def test_wrong_types(self):
        for records in (None, 0, 1.5, "730", [730, 10], object(), array.array("q", RECORDS), array.array("d", [1.0, 2.0])):
            self.assertRaises(TypeError, LeapSeconds, records)


class Writing(Case):
    @needs(*CALLS)
    def test_refused(self):
        leap_seconds = first_records(28)
        for fields, number in [
            (LEAP_SECOND._replace(day=30), 4),
            (LEAP_SECOND._replace(year=2017), 4),
            (LEAP_SECOND._replace(hour=22), 4),
            (LEAP_SECOND._replace(second=61), 4),
            (LEAP_SECOND._replace(month=6, day=31), 4),
            (UtcFields(1971, 12, 31, 23, 59, 60), 4),
            (UtcFields(10**30, 13), 4),
            (UtcFields(2000, 1, 32), 4),
            (UtcFields(2000, -1), 4),
            (UtcFields(2000, 1, 1, nanosecond=10**9), 4),
            (UtcFields(2000, 1, 1, nanosecond=2**32), 4),
            (UtcFields(2100, 2, 29), 12),
            (UtcFields(1900, 2, 29), 12),
            (UtcFields(1900), 15),
            (UtcFields(2292, 4, 11, 11, 46, 7, 670_775_808), 5),
        ]:
            self.assertIn(repr(fields), str(self.refused(number, leap_seconds.write, fields)))

    @needs(*CALLS)
    def test_years_of_any_size(self):
        """A year past 64 bits has the dates of its rule."""
        leap_seconds = first_records(1)
        for year in (2**63 - 1, 2**63, 2**63 + 191, 2**63 + 192, 2**64, 10**30, 10**30 + 1, 10**30 + 100):
            for sign, number in ((1, 5), (-1, 15)):
                is_leap = year % 4 == 0 and year % 100 != 0 or year % 400 == 0
                self.refused(number, leap_seconds.write, UtcFields(sign * year, 2, 28))
                self.refused(number if is_leap else 12, leap_seconds.write, UtcFields(sign * year, 2, 29))
                self.refused(12, leap_seconds.write, UtcFields(sign * year, 2, 30))

    @needs(*CALLS)
    def test_numbers_of_any_size(self):
        leap_seconds = first_records(28)
        for number in (2**63, 2**64, 10**40):
            self.assertIn(str(number), str(self.refused(5, leap_seconds.read, number)))
        for number in (-(2**63) - 1, -(10**40)):
            self.refused(15, leap_seconds.read, number)

    @needs(*CALLS)
    def test_wrong_types(self):
        leap_seconds = first_records(28)
        for number in (None, "0", b"0", True, 0.0, 1.5, [], object()):
            self.assertRaises(TypeError, leap_seconds.read, number)
            self.assertRaises(TypeError, leap_seconds.read_run, [0, number])
            self.assertRaises(TypeError, leap_seconds.write, UtcFields(2000, number))
            self.assertRaises(TypeError, leap_seconds.write, UtcFields(number))
        for fields in (None, 0, (2000, 1, 1, 0, 0, 0, 0), "2000-01-01", datetime.datetime(2000, 1, 1)):
            self.assertRaises(TypeError, leap_seconds.write, fields)
            self.assertRaises(TypeError, leap_seconds.write_run, [fields])


class Runs(Case):
    NUMBERS = [0, START_OF_2017 - SECOND, START_OF_2017, 2**63 - 1]

    @needs(*CALLS)
    def test_there_and_back(self):
        leap_seconds = first_records(28)
        fields = leap_seconds.read_run(self.NUMBERS)
        self.assertEqual(fields, [leap_seconds.read(number) for number in self.NUMBERS])
        self.assertEqual(fields[1], LEAP_SECOND)
        self.assertEqual(leap_seconds.write_run(fields), self.NUMBERS)
        for run in (tuple(self.NUMBERS), iter(self.NUMBERS), array.array("q", self.NUMBERS)):
            self.assertEqual(leap_seconds.read_run(run), fields)
        self.assertEqual((leap_seconds.read_run([]), leap_seconds.write_run([])), ([], []))

    @needs(*CALLS)
    def test_refused(self):
        leap_seconds = first_records(28)
        for place in range(4):
            numbers = [0] * place + [-(2**63), 2**63]
            self.refused(15, leap_seconds.read_run, numbers, place=place)
            refused = self.refused(4, leap_seconds.write_run, [LEAP_SECOND] * place + [UtcFields(2000, 13)] * 2, place=place)
            self.assertTrue(str(refused).endswith(f"at place {place}"))

    @needs(*CALLS)
    def test_numpy(self):
        try:
            import numpy
        except ImportError:
            self.skipTest("no NumPy")
        leap_seconds = first_records(28)
        numbers = numpy.array(self.NUMBERS)
        self.assertEqual(leap_seconds.read_run(numbers), leap_seconds.read_run(self.NUMBERS))
        self.assertEqual(leap_seconds.read(numbers[1]), LEAP_SECOND)
        self.refused(5, leap_seconds.read, numpy.uint64(2**63))
        masked = numpy.ma.masked_array(numbers, [0, 1, 0, 0])
        for wrong in (numbers.astype(float), numbers.reshape(2, 2), numbers.astype("M8[ns]"), masked):
            self.assertRaises(TypeError, leap_seconds.read_run, wrong)
