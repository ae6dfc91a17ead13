"""The reader of units texts in fragments in Python: blocks, calendars, whatever holds bytes, copies."""

import array
import copy
import ctypes
import mmap
import pickle
import unittest

from uppinalo import Axis, Calendar, Refused, UnitsReader
from uppinalo._lent import contiguous

from .calls import needs
from .readers import CALLS, TEXT, TEXTS, Case, outcome, reader_of

try:
    import numpy
except ImportError:
    numpy = None


class Blocks(Case):
    @needs(*CALLS)
    def test_the_end_of_a_block_ends(self):
        with UnitsReader(calendar="noleap") as reader:
            for fragment in (b"days since", b" 1850-01-01"):
                reader.add(fragment)
        self.assertEqual(reader.axis, Axis(TEXT, calendar="noleap"))
        self.closed(reader)

    @needs(*CALLS)
    def test_a_block_that_is_left_early(self):
        def first_with_a_date(fragments):
            with UnitsReader() as reader:
                for fragment in fragments:
                    reader.add(fragment)
                    if b"-" in fragment:
                        return reader

        self.assertEqual(first_with_a_date([b"days since ", b"1850-01-01", b"more"]).axis, Axis(TEXT))

    @needs(*CALLS)
    def test_an_exception_goes_on_and_nothing_ends(self):
        reader = UnitsReader()
        for exception in (ConnectionError, KeyboardInterrupt, GeneratorExit):
            with self.assertRaises(exception):
                with reader:
                    reader.add(b"")
                    raise exception
        self.assertRaises(RuntimeError, lambda: reader.axis)
        with reader:
            reader.add(TEXT)
        self.assertEqual(reader.axis, Axis(TEXT))

    @needs(*CALLS)
    def test_an_end_within(self):
        with reader_of(TEXT) as reader:
            self.assertEqual(reader.end("julian"), Axis(TEXT, calendar="julian"))
        self.assertEqual(reader.axis.calendar, Calendar.JULIAN)
        with reader_of(b"days") as reader:
            self.refused(3, reader.end)
        self.refused(3, lambda: reader.axis)

    @needs(*CALLS)
    def test_a_refused_end_of_a_block(self):
        with self.assertRaises(Refused) as caught:
            with reader_of(b"days") as reader:
                reader.add(b" si")
        self.assertEqual(caught.exception.number, 3)
        again = self.refused(3, lambda: reader.axis)
        self.assertEqual(str(again), str(caught.exception))
        self.closed(reader)

    @needs(*CALLS)
    def test_a_fragment_after_the_end_within(self):
        with self.assertRaises(Refused) as caught:
            with reader_of(TEXT) as reader:
                reader.end()
                reader.add(b"Z")
        self.assertEqual(caught.exception.number, 11)
        self.assertEqual(reader.axis, Axis(TEXT))


class Calendars(Case):
    @needs(*CALLS)
    def test_given_each_way(self):
        for name in ("noleap", b"noleap", "365_day", Calendar.NOLEAP):
            assigned = reader_of(TEXT)
            assigned.calendar = name
            for reader in (reader_of(TEXT, calendar=name), assigned):
                self.assertEqual(reader.calendar, name)
                self.assertEqual(reader.end().calendar, Calendar.NOLEAP)
            for other in (Calendar.STANDARD, "julian", "tai"):
                self.assertEqual(reader_of(TEXT, calendar=other).end(name), Axis(TEXT, calendar=name))

    @needs(*CALLS)
    def test_standard_where_none_is_given(self):
        for end in (lambda reader: reader.end(), lambda reader: reader.end(None), lambda reader: reader.end("")):
            self.assertEqual(end(reader_of(TEXT)), Axis(TEXT))

    @needs(*CALLS)
    def test_within_a_block(self):
        with UnitsReader() as reader:
            reader.add(TEXT)
            reader.calendar = "360_day"
        self.assertEqual(reader.axis, Axis(TEXT, calendar="360_day"))

    @needs(*CALLS)
    def test_an_unknown_name_is_refused_at_the_end(self):
        for name in ("tai", "Standard", b"\xff", "noleap\0", "\u0660", "x" * 10_000):
            reader = reader_of(b"no units text", calendar=name)
            self.refused(2, reader.end)
            self.closed(reader)

    @needs(*CALLS)
    def test_a_wrong_type_ends_nothing(self):
        reader = reader_of(TEXT, calendar="julian")
        for wrong in (0, 3, 1.5, True, [], bytearray(b"noleap"), object()):
            self.assertRaises(TypeError, reader.end, wrong)
            self.assertRaises(TypeError, setattr, reader, "calendar", wrong)
            self.assertRaises(TypeError, lambda: UnitsReader(calendar=wrong))
        self.assertRaises(TypeError, setattr, reader, "calendar", None)
        self.assertEqual((reader.calendar, reader.end()), ("julian", Axis(TEXT, calendar="julian")))


class Fragments(Case):
    def holders(self):
        wide = bytes(byte for pair in zip(TEXT, b"x" * len(TEXT)) for byte in pair)
        mapped = mmap.mmap(-1, len(TEXT))
        mapped[:] = TEXT
        return [
            TEXT,
            bytearray(TEXT),
            memoryview(TEXT),
            memoryview(bytearray(b"x" + TEXT))[1:],
            memoryview(TEXT).cast("c", (3, 7)),
            array.array("B", TEXT),
            array.array("b", TEXT),
            (ctypes.c_char * len(TEXT)).from_buffer_copy(TEXT),
            mapped,
            memoryview(wide)[::2],
            memoryview(TEXT[::-1])[::-1],
        ]

    @needs(*CALLS)
    def test_whatever_holds_bytes(self):
        for fragment in self.holders():
            self.assertEqual(reader_of(fragment).end(), Axis(TEXT), fragment)

    def test_what_is_contiguous_is_not_copied(self):
        for fragment in self.holders()[:-2]:
            self.assertIs(contiguous(fragment, ""), fragment)

    @needs(*CALLS)
    def test_empty(self):
        for fragment in (b"", bytearray(), memoryview(b""), array.array("B"), memoryview(TEXT)[5:5], memoryview(TEXT)[9:2:3]):
            self.assertEqual(reader_of(TEXT, fragment).end(), Axis(TEXT))

    @needs(*CALLS)
    def test_nothing_stays_lent(self):
        fragment, numbers = bytearray(TEXT), array.array("H", [1])
        reader = reader_of(fragment)
        self.assertRaises(TypeError, reader.add, numbers)
        reader.end()
        self.refused(11, reader.add, fragment)
        fragment.append(0)
        numbers.append(0)

    @needs(*CALLS)
    def test_what_was_added_is_kept(self):
        fragment = bytearray(TEXT)
        reader = reader_of(fragment)
        fragment[:] = b"x" * len(TEXT)
        self.assertEqual(reader.end(), Axis(TEXT))

    @needs(*CALLS)
    def test_wrong_types_add_nothing(self):
        released = memoryview(TEXT)
        released.release()
        reader = reader_of(TEXT)
        for wrong in (array.array("H", [1]), array.array("q", [1]), memoryview(bytes(8)).cast("I"), released):
            self.assertRaises(TypeError, reader.add, wrong)
        with self.assertRaises(TypeError) as caught:
            reader.add("days")
        self.assertEqual(str(caught.exception), "a fragment must be bytes, not str")
        self.assertEqual(reader.end(), Axis(TEXT))

    @unittest.skipIf(numpy is None, "NumPy is not installed")
    @needs(*CALLS)
    def test_arrays_of_numpy(self):
        letters = numpy.frombuffer(TEXT, "S1")
        wide = numpy.repeat(letters, 2)[::2]
        for fragment in (letters, numpy.frombuffer(TEXT, "u1"), letters.reshape(3, 7), wide, numpy.bytes_(TEXT)):
            self.assertEqual(reader_of(fragment).end(), Axis(TEXT))
        texts = [numpy.array(TEXT), numpy.array(["days"]), numpy.array([TEXT], object)]
        for wrong in (*texts, numpy.arange(3), numpy.zeros(1, "M8[s]")):
            self.assertRaises(TypeError, UnitsReader().add, wrong)


class Copies(Case):
    def copies(self, reader):
        dumps = [pickle.dumps(reader, protocol) for protocol in range(pickle.HIGHEST_PROTOCOL + 1)]
        return [copy.copy(reader), copy.deepcopy(reader), *map(pickle.loads, dumps)]

    @needs(*CALLS)
    def test_a_copy_goes_on_alone(self):
        reader = reader_of(TEXT[:9], calendar="360_day")
        for other in self.copies(reader):
            other.add(b"e 1970")
            self.assertEqual(other.end(), Axis("days since 1970", calendar="360_day"))
        reader.add(TEXT[9:])
        self.assertEqual(reader.end(), Axis(TEXT, calendar="360_day"))

    @needs(*CALLS)
    def test_a_copy_after_the_end(self):
        for name, text, _ in TEXTS:
            reader = reader_of(text)
            expected = outcome(reader.end, name)
            for other in self.copies(reader):
                self.assertEqual(outcome(lambda: other.axis), expected)
                self.closed(other)

    @needs(*CALLS)
    def test_a_damaged_copy(self):
        reader = UnitsReader()
        *others, state = reader.__getstate__()
        reader.__setstate__((*others, b"\xff" * len(state)))
        self.closed(reader)
