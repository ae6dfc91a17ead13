#!/usr/bin/env python3
"""Writes the day number of every first of January from -9999 to 9999, for each calendar, found year by year.

    hosts/vectors.py > crates/year_starts/stdout

A line for each century: the calendar, the line's first year, the day number of its January 1st, and one character for the
length of each year of the line: 5 is 365 days, 6 is 366, 0 is 360, A is 355 (1582 of `standard`). The January 1sts
inside a line follow by addition. Nothing here is shared with the proved library or with hosts/second: a year's length comes from its
leap rule, and the days before 1970 are counted backward. `proleptic_gregorian` is held against Python's own calendar from
year 1 on, and against the shift of whole 400-year cycles before it.
"""
import datetime
import itertools
import sys

FIRST, LAST = -9999, 9999
LETTER = {365: "5", 366: "6", 360: "0", 355: "A"}


def gregorian(year):
    return 365 + (year % 4 == 0) - (year % 100 == 0) + (year % 400 == 0)


def julian(year):
    """No year 0: the years before 1 count one higher in the leap rule."""
    return 366 if (year + 1 if year < 0 else year) % 4 == 0 else 365


def standard(year):
    """Ten days are dropped in 1582; before it the years are those of `julian`."""
    if year == 1582:
        return 355
    return gregorian(year) if year > 1582 else julian(year)


CALENDARS = [
    ("standard", standard),
    ("proleptic_gregorian", gregorian),
    ("julian", julian),
    ("noleap", lambda year: 365),
    ("all_leap", lambda year: 366),
    ("360_day", lambda year: 360),
]


def years_of(name):
    return [year for year in range(FIRST, LAST + 1) if year != 0 or name not in ("standard", "julian")]


def year_starts(name, length):
    """The day number of each January 1st, counted away from 1970 in both directions."""
    years = years_of(name)
    starts = {1970: 0}
    at = years.index(1970)
    for before, year in zip(years[at:], years[at + 1 :]):
        starts[year] = starts[before] + length(before)
    for after, year in zip(years[at::-1], years[at - 1 :: -1]):
        starts[year] = starts[after] - length(year)
    return starts


def lines(name, length, starts):
    """Centuries: -9999 to -9901, -9900 to -9801, .., -100 to -1, 0 to 99, .., 9900 to 9999."""
    for _, century in itertools.groupby(years_of(name), lambda year: year // 100):
        years = list(century)
        yield f"{name} {years[0]} {starts[years[0]]} {''.join(LETTER[length(year)] for year in years)}"


def check_gregorian(starts):
    epoch = datetime.date(1970, 1, 1).toordinal()
    for year in range(1, LAST + 1):
        assert starts[year] == datetime.date(year, 1, 1).toordinal() - epoch, year
    for year in range(FIRST, 1):
        assert starts[year] == starts[year % 400 + 400] + 146097 * ((year - year % 400 - 400) // 400), year


def main():
    for name, length in CALENDARS:
        starts = year_starts(name, length)
        if name == "proleptic_gregorian":
            check_gregorian(starts)
        for line in lines(name, length, starts):
            sys.stdout.write(line + "\n")


main()
