"""TT2000 through ERFA and through us: the list of leap seconds, how often times are the same, and nanoseconds for each time.

ERFA has its own list. It holds a time as two doubles whose sum is a Julian date: here a whole or half day, and a part in steps of
one or two hundredths of a nanosecond. It shows a time to the nearest nanosecond, and so its Julian dates are rounded here too."""
import collections
import contextlib
import pathlib
import re
import warnings
from fractions import Fraction

import erfa
import numpy
from uppinalo import LeapSeconds, Refused, UtcFields

from agreement import Unexplained
from axes import COUNT
from timing import best_of

FILE = pathlib.Path(__file__).resolve().parent.parent / "data" / "leap_seconds_2017.bin"
LEAP_SECONDS = LeapSeconds.from_file(FILE)
#: The days from which a count of TAI less UTC holds, from 1970-01-01, and the counts.
DAYS, COUNTS = numpy.frombuffer(LEAP_SECONDS.records, "<i8").reshape(-1, 2).T
SECOND = 10**9
DAY = 86400 * SECOND
#: J2000 as a Julian date, and the day number of its date.
J2000, J2000_DAY = 2451545, 10957

REASONS = {"15": "We refuse what lies before 1972, with 15; ERFA has UTC from 1960 on, whose seconds were longer then than those of TT."}
#: Times of which some are refused or warned about.
TIMES = [
    UtcFields(2000, 1, 1, 11, 58, 55, 816_000_000),
    UtcFields(2016, 12, 31, 23, 59, 60, 999_999_999),
    UtcFields(2016, 12, 31, 23, 59, 61),
    UtcFields(2016, 12, 31, 22, 59, 60),
    UtcFields(2017, 12, 31, 23, 59, 60),
    UtcFields(2016, 12, 31, 24),
    UtcFields(2015, 2, 29),
    UtcFields(1972),
    UtcFields(1971, 12, 31, 23, 59, 59),
    UtcFields(2292, 4, 11, 11, 46, 7, 670_775_807),
    UtcFields(2292, 4, 11, 11, 46, 7, 670_775_808),
]


@contextlib.contextmanager
def _any_year():
    """Without ERFA's warning that its list may lack later leap seconds."""
    with warnings.catch_warnings():
        warnings.filterwarnings("ignore", message=".*dubious year", category=erfa.ErfaWarning)
        yield


def same_records():
    """How many records our list has. ERFA's own is tested to have the same from 1972 on."""
    table = erfa.leap_seconds.get()
    table = table[table["year"] >= 1972]
    months = 12 * (table["year"].astype("i8") - 1970) + table["month"] - 1
    days = months.astype("M8[M]").astype("M8[D]").astype("i8")
    if not (numpy.array_equal(days, DAYS) and numpy.array_equal(table["tai_utc"], COUNTS)):
        raise Unexplained(table, LEAP_SECONDS.records)
    return len(DAYS)


def _read(numbers):
    """The fields of TT2000 numbers by ERFA, each an array."""
    days, rest = numpy.divmod(numbers, DAY)
    tai = erfa.tttai(J2000 + days, rest / DAY)
    year, month, day, clock = erfa.d2dtf("UTC", 9, *erfa.taiutc(*tai))
    return [year, month, day, *(clock[name] for name in "hmsf")]


def _write(year, month, day, hour, minute, second, nanosecond):
    """The Julian dates in TT of fields by ERFA."""
    utc = erfa.dtf2d("UTC", year, month, day, hour, minute, second + nanosecond / 1e9)
    return erfa.taitt(*erfa.utctai(*utc))


def _exact(whole, part):
    """The exact nanoseconds from J2000 of a Julian date."""
    return (Fraction(whole) - J2000 + Fraction(part)) * DAY


def _answer(work, given):
    """What a call gives, or its refusal."""
    try:
        return work(given)
    except Refused as refused:
        return refused


def _why(ours, theirs, year):
    """Why we have no such answer as ERFA has, for a time of a year."""
    if isinstance(ours, Refused) and ours.number == 15 and year < 1972:
        return "15"
    if ours != theirs:
        raise Unexplained(ours, theirs)
    return "agree"


def _midnights(days):
    """The TT2000 of the starts of days from 1972 on."""
    counts = COUNTS[numpy.searchsorted(DAYS, days, "right") - 1]
    return ((days - J2000_DAY) * 86400 - 43200 + counts) * SECOND + 32_184_000_000


def cases():
    """What numbers are of, and the numbers."""
    random = numpy.random.default_rng(2016)
    leaps = _midnights(DAYS[1:]) - SECOND
    halves = numpy.arange(-4, 7) * (SECOND // 2)
    edges = (leaps[:, None, None] + halves[:, None] + [-1, 0, 1]).ravel()
    near = random.choice(leaps, COUNT) + random.integers(-2 * SECOND, 3 * SECOND, COUNT)
    ends = numpy.array(["1972-01-01", "2030-01-01"], "M8[D]").astype("i8")
    first, later = _midnights(ends).tolist()
    midnights = _midnights(random.integers(ends[0] + 1, ends[1], COUNT))
    return {
        "J2000, the number 0": numpy.zeros(1, int),
        "half seconds about every leap second, and the nanoseconds beside them": edges,
        "nanoseconds within two seconds of a leap second": near,
        "nanoseconds beside the midnights of 1972 to 2029": midnights + random.integers(-2, 3, COUNT),
        "nanoseconds of 1972 to 2029": random.integers(first, later, COUNT),
        "nanoseconds of 2030 to 2292, up to the last number": random.integers(later, 2**63 - 1, COUNT, endpoint=True),
        "nanoseconds of the ten years before 1972": random.integers(first - 3652 * DAY, first, COUNT),
    }


@_any_year()
def row(numbers):
    """How many there are, the counts of numbers that are read and of ERFA's fields that are written, and how far, in nanoseconds,
    ERFA's Julian date is at most from the number that we write."""
    arrays = _read(numbers)
    read, written, farthest = collections.Counter(), collections.Counter(), Fraction(0)
    fields = [UtcFields(*field) for field in zip(*(array.tolist() for array in arrays))]
    for number, shown, *parts in zip(numbers.tolist(), fields, *(array.tolist() for array in _write(*arrays))):
        ours, exact = _answer(LEAP_SECONDS.write, shown), _exact(*parts)
        read[_why(_answer(LEAP_SECONDS.read, number), shown, shown.year)] += 1
        written[_why(ours, round(exact), shown.year)] += 1
        farthest = max(farthest, 0 if isinstance(ours, Refused) else abs(exact - ours))
    return len(numbers), read, written, float(farthest)


def text_row(fields):
    """What we and ERFA write for one time: a number, a number and a warning, or a refusal."""
    ours = _answer(LEAP_SECONDS.write, fields)
    cells = [fields.isoformat(), f"refused {ours.number}" if isinstance(ours, Refused) else str(ours)]
    with warnings.catch_warnings(record=True) as caught:
        warnings.simplefilter("always")
        try:
            theirs = str(round(_exact(*map(float, _write(*fields)))))
        except erfa.ErfaError:
            return [*cells, "refused"]
    words = {re.search(r'of "(.*?)(?: \(Note \d\))?"', str(warning.message))[1] for warning in caught}
    return [*cells, "; ".join([theirs, *sorted(f"warns: {word}" for word in words)])]


@_any_year()
def timed(numbers, count, erfa_count):
    """The nanoseconds for each time: read by us and by ERFA, written by us and by ERFA."""
    few, many = numpy.resize(numbers, count), numpy.resize(numbers, erfa_count)
    fields, arrays = LEAP_SECONDS.read_run(few), _read(many)
    works = [
        lambda: LEAP_SECONDS.read_run(few),
        lambda: _read(many),
        lambda: LEAP_SECONDS.write_run(fields),
        lambda: _write(*arrays),
    ]
    return best_of(works, [count, erfa_count] * 2)
