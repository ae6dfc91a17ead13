"""datetime64 arrays as bytes, with NumPy and without: every unit and byte order beside whole numbers of any size."""

import array
import ctypes
import mmap
import unittest

from uppinalo import Axis, Calendar, Refused, Run, read_datetime64, write_datetime64
from uppinalo._datetime64 import _records

from .calls import needs
from .records import DAY, FIRST, IDENTIFIERS, LAST, LEAST, MOST, instants_of, numbers_of, packed, raw, reading, unit_of, writing

BOTH = ("read_datetime64", "write_datetime64")
NOT_TAKEN = """<m8[ns] >m8[s] |M8[ns] =M8[ns] M8[ns] <M8 <M8[] <M8[25s] <M8[1s] <M8[ns]x <M8[ns <M8ns] <m8 <M8[n] <M8[NS] <M8[S]
    <M8[d] <M8[H] <M8[u] <M8[ms/2] <M8[generic] <i8 <M4[ns] <datetime64[ns] datetime64[ns] <M8[ns]] <<M8[ns] < > M8""".split()


class Case(unittest.TestCase):
    def refused(self, number, place, call, *arguments, **named):
        with self.assertRaises(Refused, msg=f"{arguments!r}"[:200]) as caught:
            call(*arguments, **named)
        self.assertEqual((caught.exception.number, caught.exception.place), (number, place), f"{arguments!r}"[:200])
        return caught.exception


class Units(Case):
    @needs(*BOTH)
    def test_numbers_are_read_as_by_hand(self):
        for identifier in IDENTIFIERS:
            good = []
            for number in numbers_of(unit_of(identifier), 100):
                refusal, instant = reading(unit_of(identifier), number)
                if refusal:
                    self.refused(refusal, 1, read_datetime64, packed(identifier, [0, number, LEAST]), identifier)
                else:
                    good.append((number, instant))
            numbers, instants = map(list, zip(*good))
            run = read_datetime64(packed(identifier, numbers), identifier)
            self.assertEqual((run.instants.tolist(), len(run), run.rounded), (instants, len(good), 0), identifier)
            self.assertIs(run.calendar, Calendar.PROLEPTIC_GREGORIAN)

    @needs(*BOTH)
    def test_instants_are_written_as_by_hand(self):
        for identifier in IDENTIFIERS:
            good = []
            for instant in instants_of(unit_of(identifier), 100):
                refusal, number = writing(unit_of(identifier), instant)
                if refusal:
                    self.refused(refusal, 1, write_datetime64, [0, instant, MOST], identifier)
                else:
                    good.append((instant, number))
            instants, numbers = map(list, zip(*good))
            self.assertEqual(raw(write_datetime64(instants, identifier)), packed(identifier, numbers), identifier)

    @needs(*BOTH)
    def test_round_trips(self):
        for identifier in IDENTIFIERS:
            unit = unit_of(identifier)
            records = packed(identifier, [n for n in numbers_of(unit, 300, 2) if reading(unit, n)[0] == 0])
            run = read_datetime64(records, identifier)
            self.assertEqual(raw(write_datetime64(run, identifier)), records, identifier)
            self.assertEqual(raw(write_datetime64(run.instants, identifier.encode())), records, identifier)
            instants = [i for i in instants_of(unit, 300, 3) if writing(unit, i)[0] == 0]
            self.assertEqual(read_datetime64(write_datetime64(instants, identifier), identifier).instants.tolist(), instants)

    @needs(*BOTH)
    def test_dates(self):
        for identifier, number, instant in [
            ("<M8[Y]", -1, -365 * DAY),
            (">M8[Y]", 30, 10_957 * DAY),
            ("<M8[M]", -1, -31 * DAY),
            (">M8[M]", 361, 10_988 * DAY),
            ("<M8[W]", -1, -7 * DAY),
            ("<M8[ns]", -1000, -1),
        ]:
            self.assertEqual(read_datetime64(packed(identifier, [number]), identifier).instants[0], instant)


class Refusals(Case):
    @needs(*BOTH)
    def test_identifiers_that_are_not_taken(self):
        for identifier in ["", " ", *NOT_TAKEN, "<M8[ns] ", " <M8[ns]", "<M8[ns]\0", "<M8[µs]", "<M8[ns]" * 100_000, b"\xff"]:
            self.refused(3, None, read_datetime64, bytes(8), identifier)
            self.refused(3, None, read_datetime64, bytes(7), identifier, out=array.array("q"))
            self.refused(3, None, write_datetime64, [0], identifier)
            self.refused(3, None, write_datetime64, [MOST], identifier, out=bytearray())
        self.assertIn("records of '<M8[25s]'", str(self.refused(3, None, read_datetime64, b"", "<M8[25s]")))

    @needs(*BOTH)
    def test_identifiers_with_one_byte_changed(self):
        changed = set()
        for identifier in IDENTIFIERS:
            for place in range(len(identifier) + 1):
                before, after = identifier[:place], identifier[place:]
                changed.add(before + after[1:])
                for byte in "<>=|Mm8[]YWDhsunpfa 1\0~":
                    changed |= {before + byte + after, before + byte + after[1:]}
        for identifier in changed - {*IDENTIFIERS}:
            self.refused(3, None, read_datetime64, b"", identifier)
            self.refused(3, None, write_datetime64, [], identifier)

    @needs(*BOTH)
    def test_a_part_of_a_record(self):
        for size in (1, 7, 9, 15, 4001):
            self.refused(9, None, read_datetime64, b"\x80" * size, ">M8[us]")
            self.refused(9, None, read_datetime64, b"\x80" * size, ">M8[us]", out=array.array("q"))

    @needs(*BOTH)
    def test_not_a_time(self):
        for identifier in IDENTIFIERS:
            for place in (0, 1, 5):
                numbers = [0] * place + [LEAST, LEAST, 0]
                refused = self.refused(10, place, read_datetime64, packed(identifier, numbers), identifier)
            self.assertIn(f"records of '{identifier}', at place 5", str(refused))

    @needs(*BOTH)
    def test_the_first_refused_record(self):
        for numbers, number, place in [([0, 1, LEAST], 6, 1), ([0, LEAST, 1], 10, 1), ([1000, 2000, 999], 6, 2)]:
            self.refused(number, place, read_datetime64, packed("<M8[ns]", numbers), "<M8[ns]")
        self.refused(5, 2, read_datetime64, packed("<M8[us]", [LAST, FIRST, LAST + 1, LEAST]), "<M8[us]")

    @needs(*BOTH)
    def test_the_first_refused_instant(self):
        for instants, number, place in [([0, DAY, 1, MOST], 6, 2), ([0, LAST + 1, 1], 5, 1), ([FIRST - 1], 5, 0), ([10**30], 5, 0)]:
            refused = self.refused(number, place, write_datetime64, instants, ">M8[D]")
        self.assertIn("instants as '>M8[D]', at place 0", str(refused))

    @needs(*BOTH)
    def test_a_refused_call_writes_nothing(self):
        room = array.array("q", [7, 8, 9])
        records = bytearray(b"x" * 24)
        for source in (packed("<M8[D]", [0, 1, LEAST]), bytes(32), bytes(23)):
            with self.assertRaises(Refused):
                read_datetime64(source, "<M8[D]", out=room)
        for instants in ([0, DAY, 1], [0, 0, 0, 0], [0, MOST]):
            with self.assertRaises(Refused):
                write_datetime64(instants, "<M8[D]", out=records)
        self.assertEqual((list(room), records), ([7, 8, 9], b"x" * 24))

    @needs(*BOTH)
    def test_too_little_room(self):
        self.refused(7, None, read_datetime64, packed("<M8[s]", [LEAST, 1]), "<M8[s]", out=array.array("q", [0]))
        for size in (0, 8, 15):
            self.refused(7, None, write_datetime64, [MOST, 1], "<M8[s]", out=bytearray(size))


class Sources(Case):
    RECORDS = packed("<M8[s]", [1, -2, 3])
    INSTANTS = [1_000_000, -2_000_000, 3_000_000]

    def holders(self):
        wide = bytes(byte for record in self.RECORDS for byte in (record, 0))
        mapped = mmap.mmap(-1, 24)
        mapped[:] = self.RECORDS
        return [
            self.RECORDS,
            bytearray(self.RECORDS),
            memoryview(self.RECORDS),
            array.array("q", [1, -2, 3]),
            array.array("Q", [1, 2**64 - 2, 3]),
            array.array("B", self.RECORDS),
            (ctypes.c_int64 * 3)(1, -2, 3),
            (ctypes.c_char * 24).from_buffer_copy(self.RECORDS),
            mapped,
            memoryview(b"x" + self.RECORDS)[1:],
            memoryview(self.RECORDS).cast("b", (3, 8)),
            memoryview(wide)[::2],
            memoryview(self.RECORDS[::-1])[::-1],
        ]

    @needs(*BOTH)
    def test_whatever_holds_bytes(self):
        for data in self.holders():
            run = read_datetime64(data, "<M8[s]")
            self.assertEqual(run.instants.tolist(), self.INSTANTS, data)

    def test_what_is_contiguous_is_not_copied(self):
        for data in self.holders()[:-2]:
            self.assertIs(_records(data, "<M8[s]")[0], data)

    @needs(*BOTH)
    def test_empty(self):
        for data in (b"", bytearray(), memoryview(b""), array.array("q")):
            run = read_datetime64(data, "<M8[Y]")
            self.assertEqual((run.instants.tolist(), len(run)), ([], 0))
        for instants in ([], (), array.array("q"), range(0), read_datetime64(b"", ">M8[as]")):
            self.assertEqual(raw(write_datetime64(instants, ">M8[as]")), b"")

    @needs(*BOTH)
    def test_whatever_holds_instants(self):
        wholes = array.array("q", self.INSTANTS)
        for instants in (
            self.INSTANTS,
            tuple(self.INSTANTS),
            iter(self.INSTANTS),
            wholes,
            array.array("l", self.INSTANTS),
            memoryview(wholes),
            memoryview(wholes.tobytes()).cast("q"),
            memoryview(bytearray(b"x") + wholes.tobytes())[1:].cast("q"),
            memoryview(array.array("q", [9, 3_000_000, 9, -2_000_000, 9, 1_000_000]))[::-2],
            (ctypes.c_int64 * 3)(*self.INSTANTS),
            Run(wholes, 0, 3, Calendar.PROLEPTIC_GREGORIAN),
        ):
            self.assertEqual(raw(write_datetime64(instants, "<M8[s]")), self.RECORDS, instants)
        self.assertEqual(raw(write_datetime64(range(0, 3 * DAY, DAY), ">M8[D]")), packed(">M8[D]", [0, 1, 2]))

    @needs("read_units", "read_wholes", *BOTH)
    def test_runs_of_an_axis(self):
        run = Axis("hours since 2000-01-01", calendar="proleptic_gregorian").read_run([0, 24])
        self.assertEqual(raw(write_datetime64(run, "<M8[D]")), packed("<M8[D]", [10_957, 10_958]))
        for calendar in ("standard", "julian", "noleap"):
            with self.assertRaises(ValueError):
                write_datetime64(Axis("days since 2000-01-01", calendar=calendar).read_run([0]), "<M8[D]")

    @needs(*BOTH)
    def test_a_run_in_a_longer_room(self):
        room = array.array("q", [7] * 5)
        run = read_datetime64(self.RECORDS, "<M8[s]", out=room)
        self.assertEqual(raw(write_datetime64(run, "<M8[s]")), self.RECORDS)
        del room[2:]
        self.assertEqual(raw(write_datetime64(run, "<M8[s]")), self.RECORDS[:16])


class Rooms(Case):
    @needs(*BOTH)
    def test_places_beyond_the_records_stay(self):
        room = array.array("q", [7, 8, 9])
        run = read_datetime64(packed(">M8[D]", [1, 2]), ">M8[D]", out=room)
        self.assertIs(run.instants, room)
        self.assertEqual((list(room), len(run)), ([DAY, 2 * DAY, 9], 2))

    @needs(*BOTH)
    def test_bytes_beyond_the_records_stay(self):
        for size in (16, 17, 23, 24, 100):
            room = bytearray(b"x" * size)
            self.assertIs(write_datetime64([0, DAY], ">M8[D]", out=room), room)
            self.assertEqual(room, packed(">M8[D]", [0, 1]) + b"x" * (size - 16))

    @needs(*BOTH)
    def test_rooms_for_records(self):
        arrays = [array.array("q", [0]), array.array("B", bytes(8))]
        for room in (bytearray(8), memoryview(bytearray(9))[1:], *arrays, mmap.mmap(-1, 8), ctypes.c_int64()):
            self.assertIs(write_datetime64([5], "<M8[us]", out=room), room)
            self.assertEqual(bytes(room), packed("<M8[us]", [5]))

    @needs(*BOTH)
    def test_rooms_that_are_none(self):
        views = [memoryview(bytes(8)), memoryview(bytearray(16))[::2]]
        for room in (bytes(8), *views, array.array("d", [0]), array.array("i", [0, 0]), [0], 0, "12345678"):
            with self.assertRaises(TypeError, msg=repr(room)):
                write_datetime64([0], "<M8[s]", out=room)
        for room in (bytearray(8), array.array("d", [0]), [0], memoryview(bytes(8)).cast("q"), 0):
            with self.assertRaises(TypeError, msg=repr(room)):
                read_datetime64(bytes(8), "<M8[s]", out=room)

    @needs(*BOTH)
    def test_rooms_that_overlap(self):
        memory = array.array("q", [1, 2, 3, 4])
        view = memoryview(memory)
        for source, room in [(memory, memory), (view[:2], view[1:]), (view.cast("B")[:9], view[1:])]:
            with self.assertRaises(ValueError):
                read_datetime64(source, "<M8[s]", out=room)
        for source, room in [(memory, memory), (view[:2], view[1:]), (view[2:], view.cast("B")[:17])]:
            with self.assertRaises(ValueError):
                write_datetime64(source, "<M8[us]", out=room)
        self.assertEqual(memory, array.array("q", [1, 2, 3, 4]))
        read_datetime64(view.cast("B")[:16], "<M8[ms]", out=view[2:])
        self.assertEqual(memory, array.array("q", [1, 2, 1000, 2000]))

    @needs(*BOTH)
    def test_nothing_stays_lent(self):
        source, room = bytearray(8), array.array("q", [0])
        read_datetime64(source, "<M8[s]", out=room)
        write_datetime64(room, "<M8[s]", out=source)
        for wrong in (lambda: read_datetime64(source, "?", out=room), lambda: write_datetime64(room, "?", out=source)):
            self.refused(3, None, wrong)
        for wrong in (lambda: read_datetime64(source, "<M8[s]", out=source), lambda: write_datetime64(room, "<M8[s]", out=[])):
            self.assertRaises(TypeError, wrong)
        source.append(0)
        room.append(0)
