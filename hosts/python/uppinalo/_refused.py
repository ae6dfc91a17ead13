"""Why a call gives no result."""

from __future__ import annotations

from typing import Dict, Optional

# refusals: begin, written by docs/refusals.py from README.md's table
#: The refusals by number, in plain words.
WORDS = {
    1: "the text is longer than 128 bytes",
    2: "the calendar is not one of the six",
    3: "the text is not of the form that its grammar gives, or a code names no period or mode",
    4: "a field is one that no date has, such as month 13, day 32, hour 24 or zone hour 24, or second 60 where no leap second is: look for a typing error",
    5: "the year or the instant lies past -9999 to 9999, or a TT2000 past 64 bits",
    6: "no whole offset or number of the unit reads as the instant; the double is not whole in calendar mode; the number is no whole count of microseconds",
    7: "too little room was lent",
    8: "the double is a NaN or infinite",
    9: "the bytes are no whole number of records",
    10: "the record is not-a-time",
    11: "the fragments of the units text have ended, or the state is damaged",
    12: "the calendar has no such year or day, such as year 0 or 30 February: look whether it is the calendar that was meant",
    13: "the calendar left this day out: in `standard` a Julian date after the last day kept and before the cutover, by default 1582-10-05 to 1582-10-14",
    14: "the list of leap seconds is not good: 1 to 64 records of 16 bytes, the first day 730 with count 10, then later days, each count one more",
    15: "the time lies before 1972-01-01, where the list of leap seconds begins",
    16: "the cutover is not allowed in `standard`: it must be a Gregorian date from 1582-10-15 to 1923-12-31, and the dates it drops must lie in one month and leave the first of it",
}
# refusals: end

_NO_DATE_HAS = "a field is one that no date has, such as month 13, day 32, hour 24 or zone hour 24: look for a typing error"
_PAST = "the time lies past the years -9999 to 9999"
_NO_TYPE = "the identifier is none of datetime64 with one unit, such as <M8[ns]"
_UNITS = {3: "the units are not a period, `since` and a date, such as `days since 1850-01-01`", 4: _NO_DATE_HAS, 5: _PAST}
_OFFSET = {5: _PAST, 6: "in calendar mode the offset must be a whole number"}
_WRITTEN = {4: _NO_DATE_HAS, 5: _PAST}
_TT2000 = {5: "the TT2000 lies past 64 bits"}

#: Where a number has several meanings, the words of the one that it has in a call.
WORDS_IN: Dict[str, Dict[int, str]] = {
    "read_units": _UNITS,
    "end_units": _UNITS,
    "read_iso": {3: "the text is no ISO date or time, such as `1850-01-01T12:00:00Z`", 4: _NO_DATE_HAS, 5: _PAST},
    "write_iso": {5: _PAST},
    "fields_of": {5: _PAST},
    "date_of_day": {5: "the day lies past the years -9999 to 9999"},
    "day_of_date": {4: "no date has such a month or day: look for a typing error", 5: "the year lies past -9999 to 9999"},
    "read_whole": _OFFSET,
    "read_double": _OFFSET,
    "read_wholes": _OFFSET,
    "read_doubles": {**_OFFSET, 8: "the double is a NaN or infinite; a NaN that stands for a missing value is taken with `missing`"},
    "write_instant": _WRITTEN,
    "write_fields": _WRITTEN,
    "read_datetime64": {3: _NO_TYPE, 5: _PAST, 6: "the number is no whole count of microseconds"},
    "write_datetime64": {3: _NO_TYPE, 5: _PAST, 6: "no number of the unit reads as this time"},
    "read_tt2000": _TT2000,
    "write_tt2000": _TT2000,
}


class Refused(ValueError):
    """A call that the library refuses.

    ``number`` is the refusal's number and ``words`` says in plain words what it means for ``call``, the library's call. ``place``
    is the place, from 0, of the first refused offset, record, instant, TT2000 or fields of a run, counted in the order of the
    elements also in an array of two or more dimensions, and None where it is none of these that is refused. ``subject`` is what
    was asked.
    """

    def __init__(self, number: int, subject: str = "", place: Optional[int] = None, call: str = "") -> None:
        super().__init__(number, subject, place, call)
        self.number = number
        self.subject = subject
        self.place = place
        self.call = call

    @property
    def words(self) -> str:
        words = WORDS_IN.get(self.call, {}).get(self.number) or WORDS.get(self.number)
        return words or "a refusal that this package has no words for"

    def __str__(self) -> str:
        about = f": {self.subject}" if self.subject else ""
        where = "" if self.place is None else f", at place {self.place}"
        return f"refused {self.number}: {self.words}{about}{where}"
