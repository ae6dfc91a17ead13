"""How often a reader shows the same date as we do, to the microsecond, and why it does not."""
import collections
from fractions import Fraction

import numpy
from uppinalo import Axis, Date, Period, Refused, day_of_date, fields_of

from others import DAY, NotTaken

LENGTHS = {
    Period.MILLISECOND: 1_000,
    Period.SECOND: 1_000_000,
    Period.MINUTE: 60_000_000,
    Period.HOUR: 3_600_000_000,
    Period.DAY: DAY,
    Period.WEEK: 7 * DAY,
    Period.MONTH: 2_629_743_831_225,
    Period.YEAR: 31_556_925_974_700,
}

REASONS = {
    "r": "Rounded otherwise: the product of offset and period is rounded or cut in floating point, or a tie goes the other way. "
    "Ours is the nearest microsecond to the exact time, which this run tests with exact fractions for every offset.",
    "s": "cftime shows a time within a microsecond of a whole second as that second. Ours is the nearest microsecond to the "
    "double's exact value; the second is often what the file's writer meant.",
    "p": "datetime64 is proleptic_gregorian: before 1582-10-15 it has other dates than `standard`, for the reference too.",
    "m": "A month is 30 days in cftime's `360_day`; a fixed month has the table's length in every calendar here.",
    "d": "UDUNITS names no month or day of a calendar for a time before the first of its Julian days, in the year -4713.",
    "5": "We refuse what lies past the year 9999, with 5; they go on.",
    "u": "They do not take these units, this zone or this calendar.",
}


class Unexplained(Exception):
    """A difference for which there is no reason."""


def instant_of(fields, calendar):
    """The instant of some fields, or None where the calendar lacks them."""
    year, month, day, hour, minute, second, microsecond = fields
    try:
        number = day_of_date(Date(year, month, day), calendar)
    except Refused:
        return None
    return number * DAY + ((hour * 60 + minute) * 60 + second) * 1_000_000 + microsecond


def ours(axis, offsets):
    """For each offset its reading, or None where it is refused. Each is tested to be the nearest microsecond."""
    readings = []
    for offset in offsets.tolist():
        try:
            reading = axis.read(offset)
        except Refused:
            readings.append(None)
            continue
        if axis.mode == 0:
            exact = axis.reference + Fraction(offset) * LENGTHS[axis.period]
            distance = abs(exact - reading.instant)
            assert 2 * distance <= 1 and reading.exact == (distance == 0), (axis, offset)
        readings.append(reading)
    return readings


def reason(reader, axis, reading, fields):
    """Why a reader shows other fields than we do."""
    if reading is None:
        return "5"
    calendar = axis.calendar.cf_name
    theirs = instant_of(fields, axis.calendar)
    difference = None if theirs is None else abs(theirs - reading.instant)
    if difference is not None and difference <= 1 and fields[6] == 0 and reader == "cftime":
        return "s"
    if difference is not None and difference <= 100:
        return "r"
    is_early = min(reading.fields, fields_of(axis.reference, axis.calendar)) < (1582, 10, 15)
    if reader == "NumPy" and calendar == "standard" and is_early:
        return "p"
    if reader == "UDUNITS" and reading.fields < (-4712,):
        return "d"
    if calendar == "360_day" and axis.period is Period.MONTH:
        return "m"
    raise Unexplained(reader, axis, reading, fields)


def row(case, calendar, readers):
    """For each reader a count of agreements and of reasons; None where it does not take the axis."""
    axis = Axis(case.units, calendar=calendar)
    readings = ours(axis, case.offsets)
    cells = []
    for reader in readers:
        try:
            answer = reader.read(case.units, calendar, case.offsets)
        except NotTaken:
            cells.append(None)
            continue
        # xarray hands on cftime's dates where it has none of its own
        name = "cftime" if answer.dtype == object else reader.name
        counts = collections.Counter()
        for reading, fields in zip(readings, reader.fields(answer)):
            agrees = reading is not None and tuple(reading.fields) == fields
            counts["agree" if agrees else reason(name, axis, reading, fields)] += 1
        cells.append(counts)
    return cells


def text_row(text, readers):
    """What each reader makes of a units text in `standard` at offset 0: a date or a refusal."""
    cells = []
    try:
        cells.append(Axis(text).read(0).isoformat()[:19])
    except Refused as refused:
        cells.append(f"refused {refused.number}")
    for reader in readers:
        try:
            fields = reader.fields(reader.read(text, "standard", numpy.zeros(1)))[0]
            cells.append("{:04}-{:02}-{:02}T{:02}:{:02}:{:02}".format(*fields[:6]))
        except NotTaken:
            cells.append("refused")
    return cells
