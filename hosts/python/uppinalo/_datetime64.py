"""datetime64 arrays: records of eight bytes, of the type that an identifier such as ``<M8[ns]`` names, and their instants."""

from __future__ import annotations

import array
import functools
import sys
from typing import Any, Iterable, Optional, Tuple, Union

from ._codes import Calendar
from ._lendable import Instants, lendable_instants, lent_room, shape_of, unmasked
from ._lent import Lent, contiguous
from ._library import call
from ._numbers import Text, encoded
from ._refused import Refused
from ._runs import Run
from ._structs import RunAnswer

#: What holds instants to be written.
RunOrInstants = Union[Run, Instants, Iterable[int]]


def read_datetime64(data: Any, identifier: Optional[Text] = None, out: Optional[Instants] = None) -> Run:
    """The instants of a datetime64 array, which are of ``proleptic_gregorian``: all of them, or none and a refusal with the place
    of the first refused record.

    >>> chunk = bytes.fromhex("00006bc32d0bae17 00a023f4730eae17")
    >>> run = read_datetime64(chunk, "<M8[ns]")
    >>> run.instants.tolist()
    [1706313600000000, 1706317200000000]

    ``data`` is a NumPy array of datetime64, of any unit and byte order, or anything bytes-like that holds raw records, with
    their identifier: ``<`` or ``>`` for the byte order, then ``M8[``, one of ``Y M W D h m s ms us ns ps fs as``, and ``]``.
    An array's own identifier is its ``dtype.str``; to give another one with it is a ValueError. Records are read where they
    lie; those with gaps between them or in another order are copied first. Where NumPy is installed the instants come in an
    array of int64, of the shape of an array of records that was given, and else in an ``array.array``. ``out`` is room for them
    that the caller lends; places of it beyond the records keep what they had. Neither may be changed by another thread meanwhile.

    NumPy's NaT is refused with 10, and a number of ``ns`` to ``as`` that is no whole count of microseconds with 6: nothing is cut.
    """
    source, name = _records(data, identifier)
    with _lent_records(source) as lent:
        room = _room_for_instants(source, lent.length) if out is None else out
        with lent_room(room) as written:
            if lent.overlaps(written):
                raise ValueError("the room for instants overlaps the records")
            answer = call["read_datetime64"](name, len(name), lent.start, lent.size, written.start, written.length)
        shape = _shape(source, lent.length)
    _check(answer, "read_datetime64", f"records of {name.decode(errors='replace')!r}")
    return Run(room, answer.rounded, answer.length, Calendar.PROLEPTIC_GREGORIAN, shape=shape)


def write_datetime64(instants: RunOrInstants, identifier: Text, out: Optional[Any] = None) -> Any:
    """The datetime64 array of instants of ``proleptic_gregorian``: each is written exactly, or none is and the place of the first
    that is refused is told.

    >>> write_datetime64([86_400_000_000], ">M8[D]", out=bytearray(8)).hex()
    '0000000000000001'

    The instants are those of a run, or microseconds since 1970 as whole numbers; NumPy arrays of int64 and of datetime64[us],
    ``array.array`` of ``q`` and their memoryviews are read where they lie, and others are copied. Where NumPy is installed the
    result is an array of the identifier's type, of the shape of an array that was given, and else a bytearray. ``out`` is room
    that the caller lends, bytes or a datetime64 array of that type, and then it is the result; what lies beyond the records
    keeps what it had.

    An instant that no number of the unit reads as is refused with 6.
    """
    name = encoded(identifier, "an identifier")
    if isinstance(instants, Run):
        instants.check_proleptic_gregorian()
    # the room of a run may hold more than its instants, or have been cut to fewer
    source = instants.instants_left() if isinstance(instants, Run) else lendable_instants(instants)
    with Lent(source) as lent:
        room = _room_for_records(source) if out is None else _raw_room(out, identifier)
        with _lent_records(room, is_written=True) as written:
            if lent.overlaps(written):
                raise ValueError("the room for records overlaps the instants")
            answer = call["write_datetime64"](name, len(name), lent.start, lent.length, written.start, written.size)
    _check(answer, "write_datetime64", f"instants as {name.decode(errors='replace')!r}")
    if out is not None:
        return out
    return room if isinstance(room, bytearray) else room.view(name.decode())


def _check(answer: RunAnswer, name: str, subject: str) -> None:
    if answer.number:
        raise Refused(answer.number, subject, None if answer.number in (3, 7, 9) else answer.place, name)


def _records(data: Any, identifier: Optional[Text]) -> tuple[Any, bytes]:
    """What holds the records in order and without gaps, and their identifier."""
    numpy = sys.modules.get("numpy")
    if numpy is not None and hasattr(data, "__array__"):
        records = numpy.require(unmasked(numpy, numpy.asanyarray(data)), None, ["C"])
        if records.dtype.kind in "Mm":
            return records.view(numpy.int64), _own_identifier(records, identifier)
        source = records
    else:
        source = contiguous(data, "records must be bytes or a datetime64 array")
    if identifier is None:
        raise TypeError("records that are not in a datetime64 array need an identifier, such as '<M8[ns]'")
    return source, encoded(identifier, "an identifier")


def _own_identifier(records: Any, identifier: Optional[Text]) -> bytes:
    """The identifier of a datetime64 array, which is the one that is given, if any."""
    own: str = records.dtype.str
    if identifier is not None and encoded(identifier, "an identifier") != own.encode():
        raise ValueError(f"the array is of {own!r}, and the identifier is {identifier!r}")
    return own.encode()


def _lent_records(records: Any, is_written: bool = False) -> Lent:
    """Records, or the room for them."""
    what = "the room for records must be writable and contiguous," if is_written else "records must be"
    wrong = f"{what} bytes, whole numbers of eight bytes or a datetime64 array"
    try:
        lent = Lent(records, is_written)
    except (TypeError, ValueError, BufferError) as error:
        raise TypeError(f"{wrong}: {error}") from None
    if not lent.is_raw:
        with lent:
            raise TypeError(wrong)
    return lent


def _raw_room(out: Any, identifier: Text) -> Any:
    """The room that a caller lends for records; NumPy lends no datetime64 array as such."""
    numpy = sys.modules.get("numpy")
    if numpy is None or not isinstance(out, numpy.ndarray) or out.dtype.kind not in "Mm":
        return out
    _own_identifier(out, identifier)
    return out.view(numpy.int64)


def _room_for_instants(source: Any, count: int) -> Instants:
    numpy = _installed_numpy()
    if numpy is None:
        return array.array("q", bytes(8 * count))
    return numpy.empty(_shape(source, count), numpy.int64)  # type: ignore[no-any-return]


def _room_for_records(source: Any) -> Any:
    numpy = _installed_numpy()
    return bytearray(8 * len(source)) if numpy is None else numpy.empty(shape_of(source), numpy.int64)


def _shape(source: Any, count: int) -> Tuple[int, ...]:
    """The shape of so many elements, which is that of an array that has as many."""
    return shape_of(source) if getattr(source, "size", None) == count else (count,)


@functools.lru_cache(maxsize=None)
def _installed_numpy() -> Any:
    try:
        import numpy
    except ImportError:
        return None
    return numpy
