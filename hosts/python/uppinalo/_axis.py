"""Axes, and offsets on them."""

from __future__ import annotations

import math
from typing import TYPE_CHECKING, Any, Optional, Tuple, Union

from ._codes import Calendar, Mode, Period
from ._instants import CUTOVER_1582, CalendarOrName, Cutover, Date, Fields, Reading, calendar_of, cutover_numbers, date_of
from ._instants import field_numbers, fields_of, name_of, reading_of, refused
from ._lendable import Instants, Offsets, lendable, lent_room, room_for, shape_of
from ._lent import Lent
from ._library import call
from ._missing import NOT_A_TIME, Fills, put, without_missing
from ._numbers import Text, double, encoded, is_whole, signed
from ._refused import Refused
from ._runs import Run, looped
from ._structs import AxisAnswer, AxisCodes, DateNumbers
from ._times import Times, instants_in

if TYPE_CHECKING:
    import numpy

#: A calendar, a period, a mode, a reference instant and a cutover.
Parts = Tuple[Calendar, Period, Mode, int, Date]


def parts_read(answer: AxisAnswer, subject: str, cutover: DateNumbers, name: str) -> Parts:
    """The parts of the axis that a call reads a units text as."""
    if answer.number:
        raise refused(answer.number, subject, cutover, name)
    axis = answer.axis
    return Calendar(axis.calendar), Period(axis.period), Mode(axis.mode), axis.reference, date_of(axis.cutover)


class Axis:
    """A calendar with its cutover, a period, a mode and a reference instant, read from a units text such as ``days since
    1850-01-01``.

    >>> axis = Axis("days since 1850-01-01", calendar="noleap")
    >>> axis.read(59).isoformat()
    '1850-03-01T00:00:00.000000Z'

    The cutover is the first Gregorian date of ``standard``, 1582-10-15 if none is given. It is a :class:`Date`, a
    ``datetime.date`` or a tuple of year, month and day. Other calendars do not look at it.

    >>> diary = Axis("days since 1752-09-02", cutover=(1752, 9, 14))
    >>> diary.read(1).isoformat()
    '1752-09-14T00:00:00.000000Z'

    Months and years have one fixed length, unless the text begins with the word ``calendar``. An axis never changes, so
    threads may share it.
    """

    __slots__ = ("_codes", "_key")

    def __init__(self, units: Text, calendar: CalendarOrName = Calendar.STANDARD, *, cutover: Cutover = None) -> None:
        name, given = name_of(calendar), cutover_numbers(cutover)
        name_bytes, text = encoded(name, "a calendar"), encoded(units, "a units text")
        answer = call["read_units"](name_bytes, len(name_bytes), given, text, len(text))
        self._set(*parts_read(answer, f"units {units!r}, calendar {name!r}", given, "read_units"))

    @classmethod
    def of(cls, calendar: CalendarOrName, period: Period, mode: Mode, reference: int, cutover: Cutover = None) -> Axis:
        """The axis of these parts. In ``standard`` a cutover that is not allowed is refused, and a reference past the range."""
        known, given = calendar_of(calendar), date_of(cutover_numbers(cutover))
        if not isinstance(period, Period) or not isinstance(mode, Mode):
            raise TypeError("a period must be a Period, and a mode a Mode")
        instant = signed(reference, "a reference")
        fields_of(instant, known, cutover=given)
        axis = cls.__new__(cls)
        axis._set(known, period, mode, instant, given)
        return axis

    def _set(self, calendar: Calendar, period: Period, mode: Mode, reference: int, cutover: Date) -> None:
        self._key = (calendar, period, mode, reference, cutover)
        self._codes = AxisCodes(calendar, period, mode, reference, cutover_numbers(cutover))

    @property
    def calendar(self) -> Calendar:
        return self._key[0]

    @property
    def period(self) -> Period:
        return self._key[1]

    @property
    def mode(self) -> Mode:
        return self._key[2]

    @property
    def reference(self) -> int:
        """The reference instant, in microseconds from 1970-01-01T00:00:00."""
        return self._key[3]

    @property
    def cutover(self) -> Date:
        """The cutover as it was given, or that of 1582."""
        return self._key[4]

    def __eq__(self, other: object) -> bool:
        return isinstance(other, Axis) and self._key == other._key

    def __hash__(self) -> int:
        return hash(self._key)

    def __repr__(self) -> str:
        calendar, period, mode, reference, cutover = self._key
        more = "" if cutover == CUTOVER_1582 else f", {cutover!r}"
        return f"Axis.of(Calendar.{calendar.name}, Period.{period.name}, Mode.{mode.name}, {reference}{more})"

    def __reduce__(self) -> Any:
        return Axis.of, self._key

    def read(self, offset: Union[int, float]) -> Reading:
        """The instant of one offset. An int is a whole offset; a float is read by its exact value, to the nearest microsecond.

        On an axis of calendar months or years the reading's ``days_back`` says how far the day of the month was moved.
        """
        name = "read_whole" if is_whole(offset) else "read_double"
        number = signed(offset, "an offset") if is_whole(offset) else double(offset, "an offset")
        answer = call[name](self._codes, number)
        if answer.number:
            raise Refused(answer.number, f"offset {offset!r}", None, name)
        return reading_of(answer, self.calendar, self.cutover)

    def read_run(self, offsets: Offsets, out: Optional[Instants] = None, *, missing: Optional[Fills] = None) -> Run:
        """The instants of many offsets: all of them, or none and a refusal with the place of the first refused offset.

        NumPy arrays of float64 and int64, ``array.array`` of ``d`` and ``q`` and their memoryviews are read where they lie. Any
        other numbers are copied. The instants come in a NumPy array for a NumPy array, of its shape, and else in an
        ``array.array``. ``out`` is room for them that the caller lends; places of it beyond the offsets keep what they had. Neither
        may be changed by another thread meanwhile.

        Where ``missing`` is given, a fill value or a tuple of several, what equals one of them is not read, nor is a NaN, a None or
        what an array masks: it comes out as NumPy's not-a-time, and marked in ``Run.mask``. ``missing=math.nan`` is for files
        without a fill value. Where it is not given, a NaN is refused with 8.
        """
        source, mask = (lendable(offsets), None) if missing is None else without_missing(offsets, missing)
        room = room_for(source) if out is None else out
        with Lent(source) as lent, lent_room(room) as written:
            if lent.overlaps(written):
                raise ValueError("the room for instants overlaps the offsets")
            name = "read_doubles" if lent.format == "d" else "read_wholes"
            answer = call[name](self._codes, lent.start, lent.length, written.start, written.length)
        if answer.number:
            raise Refused(answer.number, "a run of offsets", None if answer.number == 7 else answer.place, name)
        if mask is not None:
            put(room, mask, NOT_A_TIME)
        return Run(room, answer.rounded, answer.length, self.calendar, self.cutover, mask, shape_of(source))

    def write(self, time: Union[int, Reading, Fields, numpy.datetime64]) -> int:
        """The whole offset that reads as an instant, a reading, fields or a time of NumPy's; it is written exactly, or refused with 6."""
        name = "write_fields" if isinstance(time, Fields) else "write_instant"
        answer = call[name](self._codes, field_numbers(time) if isinstance(time, Fields) else self._instant(time))
        if answer.number:
            raise Refused(answer.number, str(time) if isinstance(time, Reading) else repr(time), None, name)
        return int(answer.offset)

    def write_run(self, times: Times, *, missing: Optional[int] = None) -> Any:
        """The whole offsets that read as many times: all of them, or none and a refusal with the place of the first refused time.

        The times are those of a run, instants as whole numbers, or a NumPy array of datetime64 of any unit. Times of
        ``proleptic_gregorian``, as those of datetime64 are, are times of ``standard`` from its cutover on. The offsets come in a
        NumPy array of int64 for one of times, of its shape, and else in an ``array.array``.

        ``missing`` is the offset that is written for what is missing: NaT, what an array masks, and what a run's mask marks. Where
        it is not given, a missing time is a ValueError.
        """
        instants, mask = instants_in(self.calendar, self.cutover, times)
        if mask is not None and missing is None:
            raise ValueError("what is missing has no offset: say what is to be written for it by `missing`")
        shape, room = shape_of(instants), room_for(instants)
        looped("write_instant", (self._codes,), instants, mask, math.prod(shape), room, "a run of instants")
        if mask is not None:
            put(room, mask, signed(missing, "a fill value"))
        return room

    def _instant(self, time: Any) -> int:
        if getattr(getattr(time, "dtype", None), "kind", "") == "M":
            instant, mask = instants_in(self.calendar, self.cutover, time)
            if mask is not None:
                raise ValueError("not-a-time has no offset")
            return int(instant)
        if not isinstance(time, Reading):
            return signed(time, "an instant")
        if time.calendar is not self.calendar:
            raise ValueError(f"an instant of {time.calendar.cf_name} is none of {self.calendar.cf_name}")
        if self.calendar is Calendar.STANDARD and time.cutover != self.cutover:
            raise ValueError(f"an instant with the cutover {time.cutover} is none with {self.cutover}")
        return signed(time.instant, "an instant")
