"""Instants, days, and their texts in a calendar."""

from __future__ import annotations

import ctypes
import dataclasses
import datetime
import functools
from typing import NamedTuple, Optional, Tuple, Union

from ._codes import Calendar
from ._library import call
from ._numbers import Text, encoded, signed, unsigned
from ._refused import Refused
from ._structs import DateNumbers, FieldNumbers, ReadingAnswer

#: A calendar or its name.
CalendarOrName = Union[Calendar, str, bytes]


class Date(NamedTuple):
    """A date of some calendar."""

    year: int
    month: int = 1
    day: int = 1


#: The cutover of ``standard`` where none is given.
CUTOVER_1582 = Date(1582, 10, 15)
#: A cutover: a date, or None for that of 1582.
Cutover = Optional[Union[Date, datetime.date, Tuple[int, int, int]]]


class Fields(NamedTuple):
    """A date and a time of day, in UTC."""

    year: int
    month: int = 1
    day: int = 1
    hour: int = 0
    minute: int = 0
    second: int = 0
    microsecond: int = 0


def _date_numbers(year: int, month: int, day: int) -> DateNumbers:
    return DateNumbers(signed(year, "a year"), unsigned(month, "a month"), unsigned(day, "a day"))


def cutover_numbers(cutover: Cutover) -> DateNumbers:
    """The cutover as the library is given it."""
    if cutover is None:
        return _date_numbers(*CUTOVER_1582)
    if isinstance(cutover, datetime.date) and not isinstance(cutover, datetime.datetime):
        return _date_numbers(cutover.year, cutover.month, cutover.day)
    if isinstance(cutover, tuple) and len(cutover) == 3:
        return _date_numbers(*cutover)
    raise TypeError(f"a cutover must be a Date, a datetime.date or a tuple of year, month and day, not {type(cutover).__name__}")


def date_of(numbers: DateNumbers) -> Date:
    return Date(numbers.year, numbers.month, numbers.day)


def shown(date: DateNumbers) -> str:
    """The date as an ISO text has it."""
    return f"{date.year:04}-{date.month:02}-{date.day:02}"


def refused(number: int, subject: str, cutover: DateNumbers, name: str) -> Refused:
    """The refusal of a call, which names the cutover where it is at fault."""
    return Refused(number, f"{subject}, cutover {shown(cutover)}" if number == 16 else subject, None, name)


@functools.lru_cache(maxsize=64)
def _named(name: bytes) -> Calendar:
    """The calendar that the library knows by a name."""
    answer = call["read_units"](name, len(name), cutover_numbers(None), b"s since 1970", 12)
    if answer.number:
        raise Refused(answer.number, f"calendar {name.decode(errors='replace')!r}", None, "read_units")
    return Calendar(answer.axis.calendar)


def name_of(calendar: CalendarOrName) -> Text:
    """The name by which a text is read in a calendar. Whether there is such a calendar, the reading says."""
    return calendar.cf_name if isinstance(calendar, Calendar) else calendar


def calendar_of(calendar: CalendarOrName) -> Calendar:
    """A calendar as it is, or by its name; the empty name is ``standard``."""
    if isinstance(calendar, Calendar):
        return calendar
    return _named(encoded(calendar, "a calendar"))


def fields_of(instant: int, calendar: CalendarOrName, *, cutover: Cutover = None) -> Fields:
    """The fields of an instant, which is a count of microseconds since the start of 1970 in its calendar."""
    known, given = calendar_of(calendar), cutover_numbers(cutover)
    answer = call["fields_of"](known, given, signed(instant, "an instant"))
    if answer.number:
        raise refused(answer.number, f"instant {instant} of {known.cf_name}", given, "fields_of")
    return fields_from(answer.fields)


def fields_from(numbers: FieldNumbers) -> Fields:
    return Fields(*(getattr(numbers, name) for name in Fields._fields))


def date_of_day(day: int, calendar: CalendarOrName, *, cutover: Cutover = None) -> Date:
    """The date of a day number; day 0 is 1970-01-01."""
    known, given = calendar_of(calendar), cutover_numbers(cutover)
    answer = call["date_of_day"](known, given, signed(day, "a day number"))
    if answer.number:
        raise refused(answer.number, f"day {day} of {known.cf_name}", given, "date_of_day")
    return date_of(answer.date)


def day_of_date(date: Date, calendar: CalendarOrName, *, cutover: Cutover = None) -> int:
    """The day number of a date."""
    known, given = calendar_of(calendar), cutover_numbers(cutover)
    if not isinstance(date, Date):
        raise TypeError(f"a date must be a Date, not {type(date).__name__}")
    answer = call["day_of_date"](known, given, _date_numbers(*date))
    if answer.number:
        raise refused(answer.number, f"{date} of {known.cf_name}", given, "day_of_date")
    return int(answer.day)


def field_numbers(fields: Fields) -> FieldNumbers:
    numbers = (unsigned(value, f"a {name}") for name, value in zip(Fields._fields[1:], fields[1:]))
    return FieldNumbers(signed(fields.year, "a year"), *numbers)


def write_iso(instant: int, calendar: CalendarOrName, *, cutover: Cutover = None) -> str:
    """The ISO text of an instant: ``YYYY-MM-DDThh:mm:ss.ffffffZ``, after a minus sign in negative years."""
    known, given = calendar_of(calendar), cutover_numbers(cutover)
    room = (ctypes.c_uint8 * 28)()
    answer = call["write_iso"](known, given, signed(instant, "an instant"), room, len(room))
    if answer.number:
        raise refused(answer.number, f"instant {instant} of {known.cf_name}", given, "write_iso")
    return bytes(room[: answer.length]).decode("ascii")


@dataclasses.dataclass(frozen=True)
class Reading:
    """An instant of a calendar, and whether it is exactly what was read and not the nearest microsecond to it. ``cutover`` is
    the one with which it was read.

    Calendar months and years step a day that the month lacks back until it exists. ``days_back`` is by how many days: the
    reference's day of the month less the given one, at most 3, but in the month of which ``standard`` dropped dates at most as
    many as these, or, before a cutover that is the first of a month, at most from a 31st to the last day kept. It is 0 in
    fixed mode, in shorter periods and for ISO texts.

    >>> reading = Axis("calendar months since 1930-01-31").read(1)
    >>> reading.isoformat(), reading.days_back
    ('1930-02-28T00:00:00.000000Z', 3)
    """

    instant: int
    exact: bool
    calendar: Calendar
    days_back: int = 0
    cutover: Date = CUTOVER_1582

    @property
    def fields(self) -> Fields:
        """Year, month, day, hour, minute, second and microsecond."""
        return fields_of(self.instant, self.calendar, cutover=self.cutover)

    def isoformat(self) -> str:
        """The ISO text."""
        return write_iso(self.instant, self.calendar, cutover=self.cutover)

    def __str__(self) -> str:
        return self.isoformat()


def reading_of(answer: ReadingAnswer, calendar: Calendar, cutover: Date) -> Reading:
    """The reading in a calendar with a cutover that an answer without a refusal holds."""
    return Reading(answer.instant, answer.exact != 0, calendar, answer.days_back, cutover)


def read_iso(text: Text, calendar: CalendarOrName = Calendar.STANDARD, *, cutover: Cutover = None) -> Reading:
    """The instant that an ISO text names in a calendar. The text has a year, and may have a month, a day, a time and a zone."""
    name, given = name_of(calendar), cutover_numbers(cutover)
    name_bytes, text_bytes = encoded(name, "a calendar"), encoded(text, "an ISO text")
    answer = call["read_iso"](name_bytes, len(name_bytes), given, text_bytes, len(text_bytes))
    if answer.number:
        raise refused(answer.number, f"ISO text {text!r}, calendar {name!r}", given, "read_iso")
    return reading_of(answer, calendar_of(calendar), date_of(given))
