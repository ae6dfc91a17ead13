"""Missing values: what stands for them among offsets, and among instants, where it is NumPy's not-a-time."""

from __future__ import annotations

import math
from typing import TYPE_CHECKING, Any, List, Optional, Tuple, Union

from ._lendable import Instants, elements_of, lendable, numpy_of, offsets_from_elements
from ._numbers import LEAST, double, is_double, is_whole, whole

if TYPE_CHECKING:
    import numpy

#: What stands at the place of a missing value among instants: the least 64-bit number, which no instant is and which NumPy shows as NaT.
NOT_A_TIME = LEAST
#: A fill value or several.
Fills = Union[int, float, Tuple[Union[int, float], ...]]
#: Which elements are missing.
Mask = Union["numpy.ndarray[Any, Any]", List[bool]]


def without_missing(offsets: Any, missing: Fills) -> Tuple[Any, Optional[Mask]]:
    """The offsets as they are lent, with 0, which every axis reads, in the place of each that is missing; and which those are, or
    None where none is."""
    fills = [_fill(fill) for fill in (missing if isinstance(missing, tuple) else (missing,))]
    numpy = numpy_of(offsets)
    if numpy is None:
        return _without_missing_elements(offsets, fills)
    masked = numpy.asanyarray(offsets)
    given = numpy.ma.getdata(masked)
    if given.dtype.kind not in "iuf":
        return lendable(given), None
    mask = numpy.ma.getmaskarray(masked) | (given != given)
    for fill in fills:
        mask |= _holds(numpy, given, fill)
    if not mask.any():
        return lendable(given), None
    mask = numpy.require(mask, bool, ["C"])
    return lendable(numpy.where(mask, given.dtype.type(0), given)), mask


def _fill(fill: Any) -> Union[int, float]:
    return whole(fill, "a fill value") if is_whole(fill) else double(fill, "a fill value")


def _holds(numpy: Any, given: Any, fill: Union[int, float]) -> Any:
    """Where an array holds a fill value. A file stores it in the array's own type: among singles it is a single."""
    stored = _stored_whole(numpy, given.dtype, fill) if given.dtype.kind in "iu" else _stored_float(numpy, given.dtype, fill)
    return numpy.zeros(given.shape, bool) if stored is None else given == stored


def _stored_whole(numpy: Any, dtype: Any, fill: Union[int, float]) -> Any:
    """The fill value as a whole number of a type, or None where that has no such number."""
    if isinstance(fill, float) and not fill.is_integer():
        return None
    number, bounds = int(fill), numpy.iinfo(dtype)
    return dtype.type(number) if bounds.min <= number <= bounds.max else None


def _stored_float(numpy: Any, dtype: Any, fill: Union[int, float]) -> Any:
    """The fill value rounded to a type, or None where it is past its range."""
    try:
        with numpy.errstate(over="ignore"):
            stored = dtype.type(fill)
    except OverflowError:
        return None
    return None if math.isinf(stored) and not math.isinf(fill) else stored


def _without_missing_elements(offsets: Any, fills: List[Union[int, float]]) -> Tuple[Any, Optional[Mask]]:
    if isinstance(offsets, (str, bytes, bytearray)):
        return lendable(offsets), None
    elements = elements_of(offsets)
    mask = [_is_missing(element, fills) for element in elements]
    if not any(mask):
        return offsets_from_elements(elements), None
    return offsets_from_elements([0 if is_missing else element for element, is_missing in zip(elements, mask)]), mask


def _is_missing(element: Any, fills: List[Union[int, float]]) -> bool:
    """Whether an element is missing; None is too. What is no number is not, and the reading says what is wrong with it."""
    if not (is_whole(element) or is_double(element)):
        return element is None
    return bool(element != element or element in fills)


def put(room: Instants, mask: Mask, number: int) -> None:
    """Puts a number at every place of the room that a mask marks."""
    numpy = numpy_of(mask)
    if numpy is not None:
        numpy.asarray(room).reshape(-1)[: mask.size][mask.reshape(-1)] = number  # type: ignore[union-attr]
        return
    for place, is_missing in enumerate(mask):
        if is_missing:
            room[place] = number
