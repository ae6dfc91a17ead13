"""datetime64 arrays of NumPy, and NumPy's own conversions beside ours; skipped where there is no NumPy."""

import array
import unittest

from uppinalo import Axis, Refused, read_datetime64, write_datetime64, write_iso
from uppinalo._datetime64 import _records

from .calls import needs
from .records import DAY, IDENTIFIERS, LAST, LEAST, PARTS, instants_of, numbers_of, packed, raw, reading, unit_of, writing

try:
    import numpy
except ImportError:
    numpy = None

BOTH = ("read_datetime64", "write_datetime64")


def times(identifier, numbers):
    """A datetime64 array of some numbers."""
    return numpy.frombuffer(packed(identifier, numbers), identifier)


def read_numbers(unit, count, seed):
    return [number for number in numbers_of(unit, count, seed) if reading(unit, number)[0] == 0]


class Case(unittest.TestCase):
    def same(self, found, expected, about=""):
        self.assertEqual((found.dtype, found.shape, found.tobytes()), (expected.dtype, expected.shape, expected.tobytes()), about)

    def refused(self, number, place, call, *arguments, **named):
        with self.assertRaises(Refused) as caught:
            call(*arguments, **named)
        self.assertEqual((caught.exception.number, caught.exception.place), (number, place))


class Presence(unittest.TestCase):
    @needs(*BOTH)
    def test_arrays_are_numpys_where_there_is_numpy(self):
        written = write_datetime64([DAY], ">M8[D]")
        run = read_datetime64(packed(">M8[D]", [1]), ">M8[D]")
        expected = (bytearray, array.array) if numpy is None else (numpy.ndarray, numpy.ndarray)
        self.assertEqual((type(written), type(run.instants)), expected)
        self.assertEqual((raw(written), run.instants.tolist()), (packed(">M8[D]", [1]), [DAY]))


@unittest.skipIf(numpy is None, "NumPy is not installed")
class BesideNumpy(Case):
    """NumPy tests no range and cuts what is finer than a microsecond, so it is asked for numbers that are read; and not for the
    least of them, where its own division leaves 64 bits."""

    @needs(*BOTH)
    def test_reading(self):
        for identifier in IDENTIFIERS:
            unit = unit_of(identifier)
            numbers = [number for number in read_numbers(unit, 2000, 4) if number > LEAST + PARTS.get(unit, 0)]
            source = times(identifier, numbers)
            run = read_datetime64(source)
            self.same(run.datetime64(), source.astype("M8[us]"), identifier)
            self.assertEqual(run.instants.tolist(), [reading(unit, number)[1] for number in numbers])

    @needs(*BOTH)
    def test_writing(self):
        for identifier in IDENTIFIERS:
            instants = [i for i in instants_of(unit_of(identifier), 2000, 5) if writing(unit_of(identifier), i)[0] == 0]
            written = write_datetime64(instants, identifier)
            self.assertEqual(written.dtype.str, identifier)
            self.same(written, numpy.array(instants).view("M8[us]").astype(identifier), identifier)
            self.same(write_datetime64(numpy.array(instants), identifier), written, identifier)

    @needs(*BOTH)
    def test_round_trips(self):
        for identifier in IDENTIFIERS:
            source = times(identifier, read_numbers(unit_of(identifier), 500, 6))
            written = write_datetime64(read_datetime64(source), identifier)
            self.same(written, source, identifier)
            self.assertEqual(written.tobytes(), source.tobytes())

    @needs(*BOTH)
    def test_what_numpy_cuts_is_refused(self):
        for unit, parts in PARTS.items():
            for number in (1, -1, parts - 1, parts + 1, 7 * parts - 1):
                self.refused(6, 0, read_datetime64, times(f"<M8[{unit}]", [number]))
        for identifier, instant in [("<M8[ms]", -1), ("<M8[s]", 999), ("<M8[M]", DAY), ("<M8[Y]", 31 * DAY), ("<M8[ns]", LAST)]:
            self.refused(6, 1, write_datetime64, numpy.array([0, instant]), identifier)

    @needs(*BOTH)
    def test_texts(self):
        for text in ("1969-12-31T23:59:59.999999", "0000-03-01T00:00:00.000000", "9999-12-31T23:59:59.999999"):
            run = read_datetime64(numpy.array([text], "M8[us]"))
            self.assertEqual(write_iso(int(run.instants[0]), run.calendar), text + "Z")


@unittest.skipIf(numpy is None, "NumPy is not installed")
class Arrays(Case):
    def layouts(self, identifier):
        """Arrays of one type in every order of memory."""
        whole = times(identifier, range(24)).reshape(4, 6)
        packed_rows = numpy.zeros(3, [("a", "i1"), ("b", identifier)])
        packed_rows["b"] = whole[0, :3]
        fixed = whole.copy()
        fixed.flags.writeable = False
        odd = numpy.frombuffer(b"x" + whole.tobytes(), identifier, offset=1)
        swapped = whole.byteswap().view(whole.dtype.newbyteorder())
        views = [whole.T, whole[::2], whole[:, ::3], whole[::-1], whole[::-2, ::-1], whole[:, 2], whole[1:1], whole[:0, 1:]]
        ones = [whole[1, 2], whole[1, 2:3].reshape(())]
        return [whole, fixed, odd, swapped, numpy.asfortranarray(whole), packed_rows["b"], *ones, *views]

    @needs(*BOTH)
    def test_every_layout(self):
        for identifier in ("<M8[D]", ">M8[us]", "<M8[M]"):
            for source in self.layouts(identifier):
                run = read_datetime64(source)
                self.same(run.datetime64(), numpy.asarray(source).astype("M8[us]"))
                self.assertEqual(len(run), source.size)
                self.same(write_datetime64(run, identifier), numpy.asarray(source).astype(identifier))
                self.same(write_datetime64(run.datetime64()[...].T, identifier), numpy.asarray(source).astype(identifier).T)

    def test_what_is_contiguous_is_not_copied(self):
        whole, fixed, odd, swapped = self.layouts(">M8[us]")[:4]
        for source in (whole, fixed, odd, swapped, whole[1:3]):
            self.assertTrue(numpy.shares_memory(_records(source, None)[0], source))

    @needs(*BOTH)
    def test_what_holds_an_array(self):
        class Series:
            def __array__(self, dtype=None, copy=None):
                return times("<M8[ns]", [1000, 2000])

        self.assertEqual(read_datetime64(Series()).instants.tolist(), [1, 2])

    @needs(*BOTH)
    def test_raw_records_in_arrays(self):
        records = packed(">M8[s]", [1, 2])
        for kind in ("u1", "i1", "S1", "V8", ">i8", "<u8"):
            found = read_datetime64(numpy.frombuffer(records, kind), ">M8[s]")
            self.same(found.instants, numpy.array([1_000_000, 2_000_000]), kind)
        rows = numpy.frombuffer(records, "u1").reshape(2, 8)
        self.same(read_datetime64(rows, ">M8[s]").instants, numpy.array([1_000_000, 2_000_000]))
        backwards = rows[:, ::-1]
        self.same(read_datetime64(backwards, "<M8[s]").instants, numpy.array([1_000_000, 2_000_000]))
        self.refused(9, None, read_datetime64, rows[:, 1:], ">M8[s]")

    @needs(*BOTH)
    def test_places_of_refusals(self):
        source = times(">M8[D]", [0, 1, 2, 3, LEAST, 5]).reshape(2, 3)
        self.refused(10, 4, read_datetime64, source)
        self.refused(10, 3, read_datetime64, source.T)
        self.refused(10, 1, read_datetime64, source[::-1])
        self.refused(5, 1, write_datetime64, numpy.array([0, "NaT"], "M8[us]"), "<M8[us]")

    @needs(*BOTH)
    def test_masked_arrays(self):
        source = numpy.ma.array(times("<M8[D]", [1, LEAST]), mask=[False, False])
        self.assertEqual(read_datetime64(source[:1]).instants.tolist(), [DAY])
        source[1] = numpy.ma.masked
        for call, arguments in ((read_datetime64, ()), (write_datetime64, ("<M8[D]",))):
            with self.assertRaises(ValueError):
                call(source, *arguments)

    @needs(*BOTH)
    def test_kinds_that_are_none(self):
        for kind in ("?", "f2", "f8", "c16", "i4", "u2", "U2", "O", [("a", "M8[s]")], [("a", "i8")], numpy.longdouble):
            with self.assertRaises(TypeError, msg=kind):
                read_datetime64(numpy.zeros(2, kind), "<M8[s]")
        for kind in ("?", "f8", "c16", "U2", "O", "M8[ns]", "M8[2us]", "M8", "m8[us]", [("a", "i8")]):
            with self.assertRaises(TypeError, msg=kind):
                write_datetime64(numpy.zeros(2, kind), "<M8[s]")


@unittest.skipIf(numpy is None, "NumPy is not installed")
class Identifiers(Case):
    @needs(*BOTH)
    def test_an_array_has_its_own(self):
        source = times(">M8[s]", [1])
        for identifier in (None, ">M8[s]", b">M8[s]"):
            self.assertEqual(read_datetime64(source, identifier).instants.tolist(), [1_000_000])
        for identifier in ("<M8[s]", ">M8[ms]", "M8[s]", "", ">m8[s]"):
            with self.assertRaises(ValueError) as caught:
                read_datetime64(source, identifier)
            self.assertNotIsInstance(caught.exception, Refused)
            self.assertEqual(str(caught.exception), f"the array is of '>M8[s]', and the identifier is {identifier!r}")

    @needs(*BOTH)
    def test_types_that_are_not_taken(self):
        for kind in ("M8", "M8[25s]", ">M8[2W]", "m8", "m8[ns]", ">m8[s]"):
            self.refused(3, None, read_datetime64, numpy.zeros(2, kind))
        with self.assertRaises(ValueError):
            read_datetime64(numpy.zeros(2, "m8[s]"), "<M8[s]")

    @needs(*BOTH)
    def test_other_arrays_need_one(self):
        for data in (numpy.zeros(8, "u1"), numpy.zeros(1, int), bytes(8)):
            with self.assertRaises(TypeError):
                read_datetime64(data)


@unittest.skipIf(numpy is None, "NumPy is not installed")
class Instants(Case):
    @needs(*BOTH)
    def test_kinds(self):
        expected = times(">M8[us]", [0, 1, 2])
        for kind in "i1 i2 i4 i8 >i8 u1 u2 u4 u8 >u8 M8[us] >M8[us]".split():
            self.same(write_datetime64(numpy.arange(3).astype(kind), ">M8[us]"), expected, kind)
        self.refused(5, 1, write_datetime64, numpy.array([0, 2**64 - 1], "u8"), "<M8[us]")

    @needs(*BOTH)
    def test_shapes(self):
        for shape in ((), (0,), (3, 0), (2, 3), (2, 3, 4)):
            instants = DAY * numpy.arange(numpy.prod(shape, dtype=int)).reshape(shape)
            self.same(write_datetime64(instants, "<M8[D]"), instants.view("M8[us]").astype("M8[D]"))

    @needs("read_units", "read_doubles", *BOTH)
    def test_a_run_of_an_axis_is_not_copied(self):
        axis = Axis("days since 1970-01-01", calendar="proleptic_gregorian")
        for offsets in (numpy.arange(6.0).reshape(2, 3), [0.0, 1.0]):
            run = axis.read_run(offsets)
            dates = run.datetime64()
            self.assertTrue(numpy.shares_memory(dates, numpy.frombuffer(run.instants)))
            dates[...] = numpy.datetime64("2000-01-01")
            self.assertEqual(memoryview(run.instants).tobytes(), packed("<", [10_957 * DAY] * len(run)))
            self.same(write_datetime64(run, ">M8[D]"), numpy.full(dates.shape, "2000-01-01", ">M8[D]"))


@unittest.skipIf(numpy is None, "NumPy is not installed")
class Rooms(Case):
    @needs(*BOTH)
    def test_rooms_for_instants(self):
        room = numpy.full((2, 2), 9)
        run = read_datetime64(times("<M8[D]", [1, 2, 3]), out=room)
        self.assertIs(run.instants, room)
        self.assertEqual((room.tolist(), len(run)), ([[DAY, 2 * DAY], [3 * DAY, 9]], 3))
        self.same(write_datetime64(run, "<M8[D]"), times("<M8[D]", [1, 2, 3]))
        with self.assertRaises(ValueError):
            read_datetime64(room.view("M8[us]"), out=room)

    @needs(*BOTH)
    def test_rooms_for_records(self):
        room = numpy.zeros(3, ">M8[D]")
        self.assertIs(write_datetime64([DAY, 2 * DAY], ">M8[D]", out=room), room)
        self.same(room, times(">M8[D]", [1, 2, 0]))
        raw = bytearray(8)
        self.assertIs(write_datetime64(numpy.array([DAY]), ">M8[D]", out=raw), raw)
        self.assertEqual(raw, packed(">M8[D]", [1]))
        self.refused(7, None, write_datetime64, [0, 0], ">M8[D]", out=room[:1])
        with self.assertRaises(ValueError):
            write_datetime64([0], "<M8[D]", out=room)
        fixed = room.copy()
        fixed.flags.writeable = False
        for wrong in (room[::2], fixed, numpy.zeros(2), numpy.zeros(2, "i4"), numpy.zeros(2, "?")):
            with self.assertRaises(TypeError):
                write_datetime64([0], ">M8[D]", out=wrong)

    @needs(*BOTH)
    def test_rooms_that_overlap(self):
        memory = numpy.arange(4)
        with self.assertRaises(ValueError):
            write_datetime64(memory[:2], "<M8[us]", out=memory.view("M8[us]")[1:])
        write_datetime64(memory[:2], "<M8[us]", out=memory[2:])
        self.assertEqual(memory.tolist(), [0, 1, 0, 1])
        mixed = array.array("q", [0])
        read_datetime64(times("<M8[D]", [1]), out=mixed)
        self.assertEqual(mixed[0], DAY)
