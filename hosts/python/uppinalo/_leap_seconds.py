"""Lists of leap seconds, and TT2000 read and written with them."""

from __future__ import annotations

import ctypes
import os
import pathlib
from typing import TYPE_CHECKING, Any, Callable, Iterable, List, NamedTuple, TypeVar, Union

from ._lendable import each, numpy_of, unmasked
from ._lent import lent_bytes
from ._library import call
from ._numbers import LEAST, MOST, unsigned, whole
from ._refused import Refused
from ._runs import looped
from ._structs import UtcFieldNumbers

if TYPE_CHECKING:
    import numpy
    from _typeshed import ReadableBuffer

_Given = TypeVar("_Given")
_Result = TypeVar("_Result")


class UtcFields(NamedTuple):
    """A date of ``proleptic_gregorian`` and a time of day in UTC, whose second is 60 within a leap second."""

    year: int
    month: int = 1
    day: int = 1
    hour: int = 0
    minute: int = 0
    second: int = 0
    nanosecond: int = 0

    def isoformat(self) -> str:
        """The ISO text, with nine decimals."""
        date = f"{'-' if self.year < 0 else ''}{abs(self.year):04}-{self.month:02}-{self.day:02}"
        return f"{date}T{self.hour:02}:{self.minute:02}:{self.second:02}.{self.nanosecond:09}Z"


class LeapSeconds:
    """A good list of leap seconds, with which TT2000, as CDF files hold it, is read as UTC and written.

    >>> leap_seconds = LeapSeconds(bytes.fromhex("da02000000000000 0a00000000000000 9003000000000000 0b00000000000000"))
    >>> leap_seconds.read(-867931157816000000).isoformat()
    '1972-06-30T23:59:60.000000000Z'

    It is made of records of 16 bytes, from anything bytes-like, of which it keeps a copy: each is two signed 64-bit little-endian
    numbers, the day number, from 1970-01-01, from which a count of TAI less UTC holds, and that count. A bad list is refused
    with 14. A TT2000 is a whole number of nanoseconds from 2000-01-01T12:00:00 in Terrestrial Time. A list never changes, so
    threads may share it.
    """

    __slots__ = ("_records",)

    def __init__(self, records: ReadableBuffer) -> None:
        with lent_bytes(records, "a list of leap seconds") as lent:
            self._records = ctypes.string_at(lent.start or b"", lent.size)
        answer = call["read_tt2000"](self._records, len(self._records), 0)
        if answer.number:
            raise Refused(answer.number, f"a list of {len(self._records)} bytes", None, "read_tt2000")

    @classmethod
    def from_file(cls, path: Union[str, os.PathLike[str]]) -> LeapSeconds:
        """The list that a file holds."""
        return cls(pathlib.Path(path).read_bytes())

    @property
    def records(self) -> bytes:
        return self._records

    def __eq__(self, other: object) -> bool:
        return isinstance(other, LeapSeconds) and self._records == other._records

    def __hash__(self) -> int:
        return hash(self._records)

    def __repr__(self) -> str:
        return f"<LeapSeconds: {len(self._records) // 16} records>"

    def __reduce__(self) -> Any:
        return LeapSeconds, (self._records,)

    def read(self, tt2000: int) -> UtcFields:
        """The UTC time of a TT2000. Before 1972 it is refused with 15."""
        number = whole(tt2000, "a TT2000")
        if number > MOST:
            raise Refused(5, f"TT2000 {number}", None, "read_tt2000")
        answer = call["read_tt2000"](self._records, len(self._records), max(LEAST, number))
        if answer.number:
            raise Refused(answer.number, f"TT2000 {number}", None, "read_tt2000")
        return UtcFields(*(getattr(answer.fields, name) for name in UtcFields._fields))

    def write(self, fields: UtcFields) -> int:
        """The TT2000 of a UTC time. Second 60 where no leap second is is refused with 4."""
        answer = call["write_tt2000"](self._records, len(self._records), _numbers(fields))
        if answer.number:
            raise Refused(answer.number, f"{fields!r}", None, "write_tt2000")
        return int(answer.tt2000)

    def read_run(self, numbers: Iterable[int]) -> List[UtcFields]:
        """The UTC time of every number, as of a NumPy array of int64, or none and a refusal with the place of the first refused."""
        return _every(self.read, numbers)

    def write_run(self, fields: Union[Iterable[UtcFields], numpy.ndarray[Any, Any]]) -> Any:
        """The TT2000 of every UTC time, or none and a refusal with the place of the first refused: a list, and for a NumPy array with
        a field for each of :class:`UtcFields`, the year of int64 and the others of uint32, an array of int64 of its shape."""
        numpy = numpy_of(fields)
        if numpy is None or numpy.asanyarray(fields).dtype != numpy.dtype(UtcFieldNumbers):
            return _every(self.write, fields)
        source = numpy.require(unmasked(numpy, numpy.asanyarray(fields)), None, ["C", "A"])
        room, given = numpy.empty(source.shape, numpy.int64), (self._records, len(self._records))
        return looped("write_tt2000", given, source, None, source.size, room, "a run of UTC times")


def _every(one: Callable[[_Given], _Result], run: Iterable[_Given]) -> List[_Result]:
    results: List[_Result] = []
    try:
        for result in each(one, run):
            results.append(result)
    except Refused as refused:
        raise Refused(refused.number, refused.subject, len(results), refused.call) from None
    return results


def _numbers(fields: UtcFields) -> UtcFieldNumbers:
    if not isinstance(fields, UtcFields):
        raise TypeError(f"a UTC time must be UtcFields, not {type(fields).__name__}")
    numbers = (unsigned(value, f"a {name}") for name, value in zip(UtcFields._fields[1:], fields[1:]))
    return UtcFieldNumbers(_year(fields.year), *numbers)


def _year(value: int) -> int:
    """The year as a signed 64-bit number. One past these becomes one that has the same dates, which recur every 400 years."""
    year = whole(value, "a year")
    if year > MOST:
        return MOST - (MOST - year) % 400
    return year if year >= LEAST else LEAST + (year - LEAST) % 400
