"""As what offsets and instants are lent to the library: memory that holds them as doubles or as signed 64-bit numbers."""

from __future__ import annotations

import array
import struct
import sys
from typing import TYPE_CHECKING, Any, Callable, Iterable, Iterator, List, Optional, Tuple, TypeVar, Union

from ._lent import Lent
from ._numbers import MOST, double, is_whole, signed

if TYPE_CHECKING:
    import numpy

#: What holds the instants of a run.
Instants = Union["array.array[int]", "numpy.ndarray[Any, Any]", memoryview]
#: What holds the offsets of a run.
Offsets = Union["numpy.ndarray[Any, Any]", "array.array[Any]", memoryview, Iterable[Union[int, float, None]]]

_Given = TypeVar("_Given")
_Result = TypeVar("_Result")


def numpy_of(run: Any) -> Any:
    """NumPy, where it holds the run, or where the run says how to be held by it, as series of pandas and arrays of xarray do; else None."""
    numpy = sys.modules.get("numpy")
    return numpy if numpy is not None and hasattr(run, "__array__") else None


def shape_of(run: Any) -> Tuple[int, ...]:
    return tuple(run.shape) if hasattr(run, "shape") else (len(run),)


def each(convert: Callable[[_Given], _Result], elements: Iterable[_Given]) -> Iterator[_Result]:
    """Every element converted. The error for one that has the wrong type names its place."""
    for place, element in enumerate(elements):
        try:
            yield convert(element)
        except TypeError as error:
            raise TypeError(f"{error}, at place {place}") from None


def lendable(offsets: Any) -> Any:
    """The offsets as a NumPy array, an array or a memoryview. What holds them as doubles or as signed 64-bit numbers is not copied."""
    numpy = numpy_of(offsets)
    if numpy is not None:
        return _offsets_from_numpy(numpy, unmasked(numpy, numpy.asanyarray(offsets)))
    return _lent_as_it_is(offsets, "offsets must be numbers", ("d", "q")) or offsets_from_elements(elements_of(offsets))


def lendable_instants(instants: Any) -> Any:
    """The instants as what :func:`lendable` gives, but never as doubles."""
    numpy = numpy_of(instants)
    if numpy is not None:
        return _instants_from_numpy(numpy, unmasked(numpy, numpy.asanyarray(instants)))
    as_it_is = _lent_as_it_is(instants, "instants must be whole numbers", ("q",))
    return as_it_is or array.array("q", each(lambda instant: signed(instant, "an instant"), elements_of(instants)))


def _lent_as_it_is(run: Any, wrong: str, formats: Tuple[str, ...]) -> Any:
    """An array or a memoryview that holds elements of such a format and has no gaps; else None."""
    if isinstance(run, (str, bytes, bytearray)):
        raise TypeError(f"{wrong}, not {type(run).__name__}")
    if not isinstance(run, (array.array, memoryview)):
        return None
    view = memoryview(run)
    if view.ndim != 1:
        raise TypeError("a memoryview of a run must have one dimension")
    if not view.c_contiguous or not len(view):
        return None
    with Lent(view) as lent:
        return run if lent.format in formats and lent.is_aligned else None


def elements_of(run: Any) -> List[Any]:
    """The elements. Python itself lists those of a memoryview only where no byte order is named."""
    if not isinstance(run, memoryview):
        return list(run)
    try:
        return [element for element, in struct.iter_unpack(run.format, run.tobytes())]
    except (struct.error, ValueError):
        raise TypeError(f"a memoryview of a run must hold numbers, not elements of the format {run.format!r}") from None


def offsets_from_elements(elements: List[Any]) -> array.array[Any]:
    """Whole numbers, if all of them are; else doubles. A whole number that no double equals is far past every range."""
    if all(map(is_whole, elements)):
        return array.array("q", each(lambda offset: signed(offset, "an offset"), elements))
    return array.array("d", each(_as_double, elements))


def _as_double(offset: Any) -> float:
    return float(signed(offset, "an offset")) if is_whole(offset) else double(offset, "an offset")


def _offsets_from_numpy(numpy: Any, offsets: Any) -> Any:
    """Singles and shorter numbers are widened. Arrays that are not contiguous, or of another byte order, are copied."""
    kind, size = offsets.dtype.kind, offsets.dtype.itemsize
    if kind in "iu":
        return _wholes(numpy, offsets)
    if kind == "f" and size <= 8:
        return numpy.require(offsets, numpy.float64, ["C", "A"])
    raise TypeError(f"an array of offsets must be of int64 or float64, not {offsets.dtype}")


def _instants_from_numpy(numpy: Any, instants: Any) -> Any:
    kind = instants.dtype.kind
    if kind in "iu":
        return _wholes(numpy, instants)
    if kind == "M" and numpy.datetime_data(instants.dtype) == ("us", 1):
        return numpy.require(instants, "datetime64[us]", ["C", "A"]).view(numpy.int64)
    raise TypeError(f"an array of instants must be of int64 or datetime64[us], not {instants.dtype}")


def _wholes(numpy: Any, numbers: Any) -> Any:
    if numbers.dtype.kind == "u" and numbers.dtype.itemsize == 8:
        numbers = numpy.minimum(numbers, numpy.uint64(MOST))
    return numpy.require(numbers, numpy.int64, ["C", "A"])


def unmasked(numpy: Any, run: Any) -> Any:
    """The run itself, or what is below its mask where that hides nothing."""
    if not isinstance(run, numpy.ma.MaskedArray):
        return run
    if numpy.ma.is_masked(run):
        raise ValueError("what is masked has no reading: fill or compress the array first, or say what is `missing`")
    return numpy.ma.getdata(run)


def room_for(source: Any) -> Instants:
    """Room for the instants of a run: a NumPy array for one, else an array."""
    numpy: Optional[Any] = sys.modules.get("numpy")
    if numpy is not None and isinstance(source, numpy.ndarray):
        return numpy.empty(source.shape, numpy.int64)  # type: ignore[no-any-return]
    return array.array("q", bytes(8 * len(source)))


def lent_room(out: Any) -> Lent:
    """The room that a caller lends for the instants."""
    try:
        room = Lent(out, is_written=True)
    except (TypeError, ValueError, BufferError) as error:
        raise TypeError(f"the room for instants must be a contiguous writable array of int64: {error}") from None
    if room.format != "q" or not room.is_aligned:
        with room:
            raise TypeError("the room for instants must be a contiguous writable array of int64")
    return room
