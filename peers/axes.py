"""The axes that all readers are given, with offsets drawn from a seed."""
import dataclasses

import numpy

COUNT = 5000


@dataclasses.dataclass(frozen=True)
class Case:
    what: str
    units: str
    calendars: tuple
    offsets: numpy.ndarray


def cases():
    random = numpy.random.default_rng(1582)

    def draw(least, most):
        return random.integers(least, most, COUNT)

    everywhere = ("standard", "proleptic_gregorian", "julian", "noleap", "all_leap", "360_day")
    return [
        Case("hours of 250 years, as doubles in days", "days since 1850-01-01", everywhere, draw(0, 2_191_000) / 24),
        Case("seconds of 250 years, as doubles in days", "days since 1850-01-01", everywhere, draw(0, 7_889_000_000) / 86400),
        Case("minutes since year 1, as doubles in days", "days since 1-01-01", everywhere, draw(0, 1_062_000_000) / 1440),
        Case("whole hours", "hours since 1900-01-01 00:00:00", ("standard", "noleap"), draw(-900_000, 2_000_000)),
        Case("microseconds, as doubles in seconds", "seconds since 1970-01-01", ("standard",), draw(-(10**15), 4 * 10**15) / 1e6),
        Case("any fraction of a second", "seconds since 1970-01-01", ("standard",), random.uniform(-1e9, 4e9, COUNT)),
        Case("ties: odd numbers of 128ths of a second", "seconds since 1970-01-01", ("standard",), (2 * draw(0, 10**11) + 1) / 128),
        Case("whole milliseconds", "msecs since 1970-01-01", ("standard",), draw(-(10**13), 10**13)),
        Case("thirds of minutes, with a zone", "minutes since 2000-01-01 00:00 +05:30", ("standard",), draw(0, 10**8) / 3),
        Case("days about the cutover of 1582", "days since 1582-10-01", everywhere[:3], numpy.arange(COUNT) / 160),
        Case("days about year 1", "days since 1-01-01", everywhere, numpy.arange(COUNT) - COUNT // 2),
        Case("days of all years", "days since 1970-01-01", everywhere, draw(-4_000_000, 2_800_000)),
        Case("any fraction of a day of all years", "days since 1970-01-01", everywhere[:2], random.uniform(-4e6, 2.8e6, COUNT)),
        Case("days beyond the year 9999", "days since 9990-01-01", everywhere[:2], draw(0, 8000)),
        Case("weeks", "weeks since 1970-01-01", ("standard",), draw(-30_000, 30_000) / 7),
        Case("fixed months", "months since 1930-01-01", ("standard", "360_day"), draw(-1000, 1000)),
        Case("fixed years", "years since 1850-01-01", ("standard",), draw(-1000, 1000)),
        Case("calendar months", "calendar months since 1930-01-01", ("proleptic_gregorian",), draw(-20_000, 20_000)),
    ]


#: Units texts in `standard` that some readers refuse and others read.
TEXTS = [
    "days since 1970",
    "days since 1970-1-1",
    "days since 1970-01-01T00:00:00Z",
    "days since 1970-01-01 00:00 +05:30",
    "days since 1970-13-01",
    "days since 1970-02-30",
    "days since 1582-10-05",
    "days since 1970-01-01 24:00",
    "days since 0-01-01",
    "days since 12345-01-01",
    "days  SINCE 1970-01-01",
    "days after 1970-01-01",
    "days since 1970-01-01 ",
]
