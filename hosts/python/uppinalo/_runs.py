"""Runs: the instants of many offsets or records.

>>> from uppinalo import Axis
>>> run = Axis("days since 1850-01-01", calendar="noleap").read_run([59.5, 60.0])
>>> run.isoformat()
['1850-03-01T12:00:00.000000Z', '1850-03-02T00:00:00.000000Z']
>>> run = Axis("days since 1970-01-01").read_run([1.5, -999.0], missing=-999.0)
>>> run.isoformat(), run.mask
(['1970-01-02T12:00:00.000000Z', ''], [False, True])
>>> Axis("days since 1970-01-01").write_run([0, 86_400_000_000])
array('q', [0, 1])
"""

from __future__ import annotations

import ctypes
import dataclasses
import math
import sys
from typing import TYPE_CHECKING, Any, Optional, Tuple

from ._codes import Calendar
from ._instants import CUTOVER_1582, Date, cutover_numbers, day_of_date, fields_from, write_iso
from ._lendable import Instants, lendable
from ._lent import Lent
from ._library import loop
from ._missing import Mask
from ._refused import Refused
from ._structs import FieldNumbers

if TYPE_CHECKING:
    import numpy

__all__ = ["Run", "lendable", "looped"]

DAY = 86_400_000_000
ISO_TEXT = 28


@dataclasses.dataclass(frozen=True, eq=False)
class Run:
    """The instants of a run in the order of its offsets or records, and how many of them were rounded to the nearest microsecond.

    ``shape`` is that of the array that was read, and the number of elements for what is no array. ``mask`` marks what was missing,
    where ``instants`` has the least 64-bit number; it is None where nothing was. Where the caller lent a longer room, ``instants``
    is that room; everything else here speaks of what was read.
    """

    instants: Instants
    rounded: int
    length: int
    calendar: Calendar
    cutover: Date = CUTOVER_1582
    mask: Optional[Mask] = None
    shape: Tuple[int, ...] = None  # type: ignore[assignment]

    def __post_init__(self) -> None:
        if self.shape is None:
            object.__setattr__(self, "shape", (self.length,))

    def __len__(self) -> int:
        return self.length

    def datetime64(self) -> numpy.ndarray[Any, Any]:
        """The instants as NumPy's ``datetime64[us]``, NaT where they are missing. These are those of ``proleptic_gregorian`` and of no
        other calendar. Nothing is copied."""
        self.check_proleptic_gregorian()
        import numpy

        return _read(numpy, self).view("datetime64[us]")  # type: ignore[no-any-return]

    def fields(self) -> Any:
        """Year, month, day, hour, minute, second and microsecond of every instant: a NumPy array with a field of each name for a
        run in a NumPy array, else a list of :class:`Fields`. What is missing has zeros."""
        numpy = self._numpy()
        if numpy is not None:
            return self._each("fields_of", numpy.zeros(self.shape, numpy.dtype(FieldNumbers)))
        return [fields_from(numbers) for numbers in self._each("fields_of", (FieldNumbers * self.length)())]

    def isoformat(self) -> Any:
        """The ISO text of every instant: a NumPy array of texts for a run in a NumPy array, else a list. What is missing has an
        empty text."""
        numpy = self._numpy()
        if numpy is not None:
            return self._each("write_iso", numpy.zeros(self.shape, f"U{ISO_TEXT}"))
        room = self._each("write_iso", (ctypes.c_uint32 * ISO_TEXT * self.length)())
        return [bytes(text).decode("utf-32-le").rstrip("\0") for text in room]

    def instants_left(self) -> Any:
        """Those of the instants that the room still has, without what lies beyond them in a longer room."""
        numpy = self._numpy()
        return _flat(self.instants)[: self.length] if numpy is None else _read(numpy, self)

    def read_instants(self) -> Any:
        """The instants that were read, without what lies beyond them in a longer room."""
        left = self.instants_left()
        if math.prod(left.shape) < self.length:
            raise ValueError(f"the run has {self.length} instants, and its room has been cut to {len(left)}")
        return left

    def check_proleptic_gregorian(self) -> None:
        if self.calendar is not Calendar.PROLEPTIC_GREGORIAN:
            raise ValueError(f"datetime64 is proleptic_gregorian, and this run is of {self.calendar.cf_name}")

    def check_calendar(self, calendar: Calendar, cutover: Date) -> None:
        """That the instants are as well those of a calendar with a cutover, which is so from where on both are Gregorian."""
        if self.calendar is calendar and (calendar is not Calendar.STANDARD or self.cutover == cutover):
            return
        ours, theirs = _named(self.calendar, self.cutover), _named(calendar, cutover)
        starts = [_gregorian_from(self.calendar, self.cutover), _gregorian_from(calendar, cutover)]
        known = [start for start in starts if start is not None]
        if len(known) < 2:
            raise ValueError(f"the run is of {ours}, whose dates are not those of {theirs}")
        place = self._first_before(max(known))
        if place is not None:
            early = write_iso(_flat(self.instants)[place], self.calendar, cutover=self.cutover)
            raise ValueError(f"the run is of {ours}, whose dates before a cutover are not those of {theirs}: {early}, at place {place}")

    def _first_before(self, instant: int) -> Optional[int]:
        """The place of the first instant, of those that are not missing, that lies before another."""
        numpy = self._numpy()
        if numpy is not None:
            is_before = _read(numpy, self).reshape(-1) < instant
            if self.mask is not None:
                is_before &= ~self.mask.reshape(-1)  # type: ignore[union-attr]
            return int(is_before.argmax()) if is_before.any() else None
        missing = self.mask or [False] * self.length
        read = enumerate(zip(self.read_instants(), missing))
        return next((place for place, (one, is_missing) in read if one < instant and not is_missing), None)

    def _numpy(self) -> Any:
        """NumPy, where the instants are in one of its arrays."""
        numpy = sys.modules.get("numpy")
        return numpy if numpy is not None and isinstance(self.instants, numpy.ndarray) else None

    def _each(self, name: str, room: Any) -> Any:
        """The room with what a call gives for every instant of the calendar that is not missing."""
        given = self.calendar, cutover_numbers(self.cutover)
        return looped(name, given, self.read_instants(), self.mask, self.length, room, "a run of instants")


def _flat(instants: Any) -> memoryview:
    return memoryview(instants).cast("B").cast("q")


def _read(numpy: Any, run: Run) -> Any:
    return numpy.asarray(run.instants).reshape(-1)[: run.length].reshape(run.shape)


def _named(calendar: Calendar, cutover: Date) -> str:
    more = f" with the cutover {cutover.year:04}-{cutover.month:02}-{cutover.day:02}" if calendar is Calendar.STANDARD else ""
    return calendar.cf_name + more


def _gregorian_from(calendar: Calendar, cutover: Date) -> Optional[int]:
    """The first instant from which on a calendar has the dates of ``proleptic_gregorian``, or None where there is none."""
    if calendar is Calendar.STANDARD:
        return day_of_date(cutover, calendar, cutover=cutover) * DAY
    return -(2**63) if calendar is Calendar.PROLEPTIC_GREGORIAN else None


def looped(name: str, given: Tuple[Any, ...], source: Any, mask: Optional[Mask], length: int, room: Any, subject: str) -> Any:
    """The room with what a call gives for every element of a source that is not masked; or the refusal of the first that is refused."""
    skipped = b"" if mask is None else bytes(mask) if isinstance(mask, list) else mask
    with Lent(source) as lent, Lent(skipped) as marks, Lent(room, is_written=True) as written:
        answer = loop[name](*given, lent.start, marks.start, length, written.start)
    if answer.number:
        raise Refused(answer.number, subject, answer.place, name)
    return room
