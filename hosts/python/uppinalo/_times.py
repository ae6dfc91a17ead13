"""Times that are to be written, as instants of a calendar."""

from __future__ import annotations

import dataclasses
from typing import Any, Optional, Tuple, Union

from ._codes import Calendar
from ._datetime64 import RunOrInstants, read_datetime64
from ._instants import Date
from ._lendable import lendable_instants, numpy_of
from ._missing import Mask
from ._runs import Run

#: A run, instants as whole numbers, or a NumPy array of datetime64 or of whole numbers.
Times = Union[RunOrInstants, Any]


def instants_in(calendar: Calendar, cutover: Date, times: Times) -> Tuple[Any, Optional[Mask]]:
    """The times as instants of a calendar with a cutover, as they are lent; and which of them are missing, or None where none is."""
    if isinstance(times, Run):
        times.check_calendar(calendar, cutover)
        return times.read_instants(), times.mask
    numpy = numpy_of(times)
    if numpy is None:
        return lendable_instants(times), None
    given, mask = _without_missing(numpy, numpy.asanyarray(times))
    if given.dtype.kind != "M":
        return lendable_instants(given), mask
    run = dataclasses.replace(read_datetime64(given), mask=mask)
    return instants_in(calendar, cutover, run)


def _without_missing(numpy: Any, times: Any) -> Tuple[Any, Optional[Mask]]:
    """An array with 0 in the place of what is masked or not-a-time, and which that is."""
    given, mask = numpy.ma.getdata(times), numpy.ma.getmaskarray(times)
    if given.dtype.kind == "M":
        mask = mask | numpy.isnat(given)
    if not mask.any():
        return given, None
    mask = numpy.require(mask, bool, ["C"])
    return numpy.where(mask, numpy.zeros((), given.dtype), given), mask
