"""The other readers of time axes. `read` takes units, a calendar and offsets and answers in the reader's own form; `fields` shows that as
year, month, day, hour, minute, second and microsecond. An axis that a reader does not take is the exception NotTaken."""
import ctypes
import re
import warnings

import cftime
import numpy
from xarray.coding.times import decode_cf_datetime

DAY = 86_400_000_000
#: NumPy has no units text; these are the words that its user translates.
SECONDS = {"msec": 1e-3, "second": 1.0, "minute": 60.0, "hour": 3600.0, "day": 86400.0, "week": 604800.0}


class NotTaken(Exception):
    """The reader refuses the axis."""


def _clock(microseconds):
    """The time of day of a count of microseconds from midnight."""
    seconds, microsecond = divmod(microseconds, 1_000_000)
    return seconds // 3600, seconds // 60 % 60, seconds % 60, microsecond


def _of_cftime(dates):
    return [(d.year, d.month, d.day, d.hour, d.minute, d.second, d.microsecond) for d in dates]


def _of_datetime64(times):
    """NumPy's own dates, to the microsecond."""
    days = times.astype("M8[D]")
    within = (times - days).astype("i8").tolist()
    months = days.astype("M8[M]")
    years = (months.astype("M8[Y]").astype("i8") + 1970).tolist()
    month_numbers = (months.astype("i8") % 12 + 1).tolist()
    day_numbers = ((days - months.astype("M8[D]")).astype("i8") + 1).tolist()
    return [(*date, *_clock(rest)) for *date, rest in zip(years, month_numbers, day_numbers, within)]


class Cftime:
    name = "cftime"

    @staticmethod
    def read(units, calendar, offsets):
        try:
            with warnings.catch_warnings():
                warnings.simplefilter("ignore")
                return cftime.num2date(offsets, units, calendar=calendar, only_use_cftime_datetimes=True)
        except (ValueError, TypeError, OverflowError) as error:
            raise NotTaken(str(error)) from None

    @staticmethod
    def fields(answer):
        return _of_cftime(answer)


class Xarray:
    name = "xarray"

    @staticmethod
    def read(units, calendar, offsets):
        try:
            with warnings.catch_warnings():
                warnings.simplefilter("ignore")
                return decode_cf_datetime(offsets, units, calendar)
        except (ValueError, TypeError, OverflowError) as error:
            raise NotTaken(str(error)) from None

    @staticmethod
    def fields(answer):
        """Nanoseconds are rounded to the nearest microsecond."""
        if answer.dtype == object:
            return _of_cftime(answer)
        nanoseconds = answer.astype("i8")
        whole, rest = nanoseconds // 1000, nanoseconds % 1000
        up = (rest > 500) | ((rest == 500) & (whole % 2 == 1))
        return _of_datetime64((whole + up).astype("M8[us]"))


class Numpy:
    """The product of offset and period is made in double precision and cast to datetime64, as is usual."""

    name = "NumPy"

    @staticmethod
    def read(units, calendar, offsets):
        if calendar not in ("proleptic_gregorian", "standard"):
            raise NotTaken("datetime64 has one calendar")
        found = re.fullmatch(r"(calendar )?(\w+?)s? since (-?\d+)-(\d+)-(\d+)(?: 00:00(?::0+)?)?", units)
        if not found:
            raise NotTaken("a zone")
        steps, word, *date = found.groups()
        start = numpy.datetime64("{:04}-{:02}-{:02}".format(*map(int, date)))
        if steps:
            return (start.astype("M8[M]") + offsets.astype("i8")).astype("M8[us]")
        if word not in SECONDS:
            raise NotTaken("no fixed months or years")
        return start.astype("M8[us]") + (offsets * (SECONDS[word] * 1e6)).astype("m8[us]")

    @staticmethod
    def fields(answer):
        return _of_datetime64(answer)


class Udunits:
    """UDUNITS has one calendar, the mixed one. It converts an axis to microseconds since 1970, as doubles."""

    name = "UDUNITS"

    def __init__(self):
        library = ctypes.CDLL("libudunits2.so.0")
        for name in ("ut_read_xml", "ut_parse", "ut_get_converter", "ut_set_error_message_handler", "cv_convert_doubles"):
            getattr(library, name).restype = ctypes.c_void_p
        library.ut_encode_time.restype = ctypes.c_double
        library.ut_set_error_message_handler(ctypes.cast(library.ut_ignore, ctypes.c_void_p))
        self.library = library
        self.system = ctypes.c_void_p(library.ut_read_xml(None))
        self.epoch = library.ut_encode_time(1970, 1, 1, 0, 0, ctypes.c_double(0))

    def _unit(self, text):
        unit = self.library.ut_parse(self.system, text.encode(), 1)
        if not unit:
            raise NotTaken("the units text")
        return ctypes.c_void_p(unit)

    def read(self, units, calendar, offsets):
        if calendar != "standard":
            raise NotTaken("one calendar")
        target = self._unit("microseconds since 1970-01-01 00:00:00 UTC")
        converter = self.library.ut_get_converter(self._unit(units), target)
        if not converter:
            raise NotTaken("the units text")
        source = numpy.ascontiguousarray(offsets, dtype=float)
        answer = numpy.empty(len(source))
        pointers = (ctypes.c_void_p(source.ctypes.data), ctypes.c_size_t(len(source)), ctypes.c_void_p(answer.ctypes.data))
        self.library.cv_convert_doubles(ctypes.c_void_p(converter), *pointers)
        return answer

    def _date(self, day):
        """The date that UDUNITS itself shows for the noon of a day."""
        parts = [ctypes.c_int() for _ in range(5)]
        rest = [ctypes.c_double() for _ in range(2)]
        noon = ctypes.c_double(self.epoch + 86400.0 * day + 43200.0)
        self.library.ut_decode_time(noon, *map(ctypes.byref, parts), *map(ctypes.byref, rest))
        return tuple(part.value for part in parts[:3])

    def fields(self, answer):
        counts = [round(microseconds) for microseconds in answer.tolist()]
        return [self._date(count // DAY) + _clock(count % DAY) for count in counts]


OTHERS = [Cftime(), Xarray(), Numpy(), Udunits()]
