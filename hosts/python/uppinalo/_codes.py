"""The codes of calendars, periods and modes, as ``include/uppinalo.h`` has them."""

from __future__ import annotations

import enum


class Calendar(enum.IntEnum):
    """A calendar. Its ``cf_name`` is the name by which the CF conventions know it.

    ``STANDARD`` and ``JULIAN`` have no year 0: year 1 comes after -1. The others have one. ``STANDARD`` is Julian up to its
    cutover, which calls and axes are given; no other looks at it.
    """

    STANDARD = 0
    PROLEPTIC_GREGORIAN = 1
    JULIAN = 2
    NOLEAP = 3
    ALL_LEAP = 4
    DAYS_360 = 5

    @property
    def cf_name(self) -> str:
        return "360_day" if self is Calendar.DAYS_360 else self.name.lower()


class Period(enum.IntEnum):
    """The period that an axis counts in."""

    SECOND = 0
    MILLISECOND = 1
    MINUTE = 2
    HOUR = 3
    DAY = 4
    WEEK = 5
    MONTH = 6
    YEAR = 7


class Mode(enum.IntEnum):
    """Whether months and years have one fixed length or are those of the calendar."""

    FIXED = 0
    CALENDAR = 1
