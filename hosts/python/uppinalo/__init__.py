"""The time axes of gridded data: units texts, calendars and offsets to dates, and the reverse; datetime64 arrays and TT2000 too.

    >>> from uppinalo import Axis
    >>> axis = Axis("days since 1850-01-01", calendar="noleap")
    >>> reading = axis.read(59.5)
    >>> reading.isoformat(), reading.exact
    ('1850-03-01T12:00:00.000000Z', True)
    >>> axis.write(reading)
    Traceback (most recent call last):
    ...
    uppinalo.Refused: refused 6: no whole offset or number of the unit reads as the instant; ...

The work is done by a proved library, ``libuppinalo.so``; this package lends it Python's numbers, texts and arrays. Whatever
the library refuses is the exception ``Refused``, and what has the wrong type a TypeError. It may be used from many threads, each
``UnitsReader`` from one at a time.
"""

from ._axis import Axis
from ._codes import Calendar, Mode, Period
from ._datetime64 import read_datetime64, write_datetime64
from ._instants import CUTOVER_1582, Date, Fields, Reading, calendar_of, date_of_day, day_of_date, fields_of, read_iso, write_iso
from ._leap_seconds import LeapSeconds, UtcFields
from ._refused import WORDS, Refused
from ._runs import Run
from ._units_reader import UnitsReader
from ._version import __version__

__all__ = [
    "Axis",
    "CUTOVER_1582",
    "Calendar",
    "Date",
    "Fields",
    "LeapSeconds",
    "Mode",
    "Period",
    "Reading",
    "Refused",
    "Run",
    "UnitsReader",
    "UtcFields",
    "WORDS",
    "__version__",
    "calendar_of",
    "date_of_day",
    "day_of_date",
    "fields_of",
    "read_datetime64",
    "read_iso",
    "write_datetime64",
    "write_iso",
]

for _name in __all__:
    if isinstance(globals()[_name], type):
        globals()[_name].__module__ = __name__
