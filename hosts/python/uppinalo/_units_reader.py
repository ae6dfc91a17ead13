"""Units texts that come in fragments."""

from __future__ import annotations

from typing import TYPE_CHECKING, Any, Optional, Tuple, Type

from ._axis import Axis, parts_read
from ._codes import Calendar
from ._instants import CalendarOrName, Cutover, Date, cutover_numbers, date_of, name_of
from ._lent import lent_bytes
from ._library import call
from ._numbers import encoded
from ._refused import Refused
from ._structs import UnitsState

if TYPE_CHECKING:
    from _typeshed import ReadableBuffer


class UnitsReader:
    """Reads a units text that comes in fragments of any lengths, cut anywhere.

    >>> reader = UnitsReader()
    >>> for fragment in (b"days si", b"", b"nce 1850-01-01"):
    ...     reader.add(fragment)
    >>> reader.end("noleap").read(59).isoformat()
    '1850-03-01T00:00:00.000000Z'

    In a ``with`` statement the text ends with the block, unless an exception leaves it; then more may be added later.

    >>> with UnitsReader(calendar="noleap") as reader:
    ...     reader.add(b"days since 1850-01-01")
    >>> reader.axis.read(59).isoformat()
    '1850-03-01T00:00:00.000000Z'

    The end gives or refuses what ``Axis`` does for the joined text. After it, even if it was refused, a fragment or another end
    is refused with 11: another text takes another reader. One thread at a time may use a reader. A copy of it, by ``copy`` or
    ``pickle``, goes on alone from the fragments so far.
    """

    __slots__ = ("_axis", "_calendar", "_cutover", "_refusal", "_state")

    def __init__(self, *, calendar: CalendarOrName = Calendar.STANDARD, cutover: Cutover = None) -> None:
        self.calendar = calendar
        self.cutover = cutover  # type: ignore[assignment]
        self._state: UnitsState = call["start_units"]()
        self._axis: Optional[Axis] = None
        self._refusal: Optional[Tuple[Any, ...]] = None

    @property
    def calendar(self) -> CalendarOrName:
        """The calendar of an end that names none. A header may tell it after the units, so it may be set until the end."""
        return self._calendar

    @calendar.setter
    def calendar(self, calendar: CalendarOrName) -> None:
        encoded(name_of(calendar), "a calendar")
        self._calendar = calendar

    @property
    def cutover(self) -> Date:
        """The cutover of an end that is given none. It may be set until the end, to None for that of 1582."""
        return self._cutover

    @cutover.setter
    def cutover(self, cutover: Cutover) -> None:
        self._cutover = date_of(cutover_numbers(cutover))

    def add(self, fragment: ReadableBuffer) -> None:
        """Takes the next bytes of the text, or none, from anything bytes-like. They are read where they lie; bytes with gaps
        between them or in another order are copied first."""
        with lent_bytes(fragment, "a fragment") as lent:
            number = call["add_units"](self._state, lent.start, lent.size)
        if number:
            raise Refused(number, f"a fragment after {self._units()}", None, "add_units")

    def end(self, calendar: Optional[CalendarOrName] = None, *, cutover: Cutover = None) -> Axis:
        """Ends the text and gives its axis, in a calendar with a cutover or, where none is given, with the reader's own."""
        name = name_of(self.calendar if calendar is None else calendar)
        name_bytes, given = encoded(name, "a calendar"), cutover_numbers(self.cutover if cutover is None else cutover)
        answer = call["end_units"](self._state, name_bytes, len(name_bytes), given)
        try:
            parts = parts_read(answer, f"{self._units()}, calendar {name!r}", given, "end_units")
        except Refused as refusal:
            if refusal.number != 11:
                self._refusal = refusal.args
            raise
        self._axis = Axis.of(*parts)
        return self._axis

    @property
    def axis(self) -> Axis:
        """The axis that the end gave; where it was refused, so is this. Before the end it is a RuntimeError to ask for it."""
        if self._refusal is not None:
            raise Refused(*self._refusal)
        if self._axis is None:
            raise RuntimeError("the units text has not ended, so there is no axis yet")
        return self._axis

    def __enter__(self) -> UnitsReader:
        return self

    def __exit__(self, exception: Optional[Type[BaseException]], *_: object) -> None:
        if exception is None and not self._state.ended:
            self.end()

    def __repr__(self) -> str:
        ended = ", ended" if self._state.ended else ""
        return f"<UnitsReader: {self._units()}, calendar {name_of(self.calendar)!r}{ended}>"

    def __getstate__(self) -> Any:
        return self._calendar, self._cutover, self._axis, self._refusal, bytes(self._state)

    def __setstate__(self, state: Any) -> None:
        self._calendar, self._cutover, self._axis, self._refusal, raw = state
        self._state = UnitsState.from_buffer_copy(raw)

    def _units(self) -> str:
        """The text so far, or its first 128 bytes."""
        kept = bytes(self._state.bytes)
        more = " and more" if self._state.count > len(kept) else ""
        return f"units {kept[: self._state.count]!r}{more}"
