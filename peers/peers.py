#!/usr/bin/env python3
"""The same axes through cftime, xarray, NumPy, UDUNITS and through us, datetime64 arrays through NumPy and through us, and TT2000
through ERFA and through us. Prints the tables, and puts them into docs/PEERS.md.

    peers/run       has what this needs, and runs it

Every difference has one of the reasons in agreement.py, datetime64.py or tt2000.py, or the run fails.
"""
import os
import pathlib
import subprocess
import sys

import agreement
import axes
import datetime64
import timing
import tt2000
from others import OTHERS

DOCUMENT = pathlib.Path(__file__).resolve().parent.parent / "docs" / "PEERS.md"
BEGIN, END = "<!-- peers: begin -->\n", "<!-- peers: end -->\n"
PACKAGES = ["python3-cftime", "python3-xarray", "python3-pandas", "python3-numpy", "libudunits2-0", "python3-erfa", "liberfa1"]


def table(heads, rows):
    lines = [heads, ["---"] * len(heads), *rows]
    return "".join(f"| {' | '.join(line)} |\n" for line in lines)


def cell(counts):
    if counts is None:
        return "u"
    others = [f"{count} {why}" for why, count in sorted(counts.items()) if why != "agree"]
    return "; ".join([str(counts["agree"]), *others])


def versions():
    query = ["dpkg-query", "-W", "-f", "${Package} ${Version}, ", *PACKAGES]
    return subprocess.run(query, capture_output=True, text=True, check=True).stdout.rstrip(", ")


def agreements(cases):
    rows, used = [], {"u"}
    for case in cases:
        alike = {}
        for calendar in case.calendars:
            cells = agreement.row(case, calendar, OTHERS)
            used.update(why for counts in cells if counts for why in counts)
            alike.setdefault(tuple(map(cell, cells)), []).append(f"`{calendar}`")
        rows += [[case.what, f"`{case.units}`", ", ".join(calendars), *cells] for cells, calendars in alike.items()]
    reasons = "".join(f"- **{why}**: {text}\n" for why, text in agreement.REASONS.items() if why in used)
    heads = ["offsets", "units", "calendar", *(reader.name for reader in OTHERS)]
    return table(heads, rows) + "\n" + reasons


def texts():
    readers = [reader for reader in OTHERS if reader.name in ("cftime", "xarray", "UDUNITS")]
    rows = [[f"`{text}`", *agreement.text_row(text, readers)] for text in axes.TEXTS]
    return table(["units text", "Uppinalo", *(reader.name for reader in readers)], rows)


def arrays():
    alike = {}
    for unit, counts in datetime64.rows():
        alike.setdefault(tuple(map(cell, counts)), []).append(f"`{unit}`")
    rows = [[", ".join(units), *cells] for cells, units in alike.items()]
    reasons = "".join(f"- **{why}**: {text}\n" for why, text in datetime64.REASONS.items())
    return table(["unit", "read, within the years", "read, numbers of any size", "written"], rows) + "\n" + reasons


def array_times(is_stub):
    rows = [
        [f"`{identifier}`", *(f"{figure:.2f}" for figure in best)]
        for identifier, best in datetime64.timed(2_000 if is_stub else 1_000_000)
    ]
    return table(["nanoseconds for each record", "read by Uppinalo", "by NumPy", "written by Uppinalo", "by NumPy"], rows)


def utc_times(cases):
    rows = []
    for what, numbers in cases.items():
        count, *counts, farthest = tt2000.row(numbers)
        rows.append([what, str(count), *map(cell, counts), f"{farthest:.3f}" if counts[1]["agree"] else "-"])
    heads = ["times", "how many", "read", "written", "ERFA off by at most"]
    return table(heads, rows) + "\n" + "".join(f"- **{why}**: {text}\n" for why, text in tt2000.REASONS.items())


def utc_texts():
    return table(["UTC", "Uppinalo", "ERFA"], map(tt2000.text_row, tt2000.TIMES))


def utc_speeds(cases, is_stub):
    rows = []
    for what in ("nanoseconds within two seconds of a leap second", "nanoseconds of 1972 to 2029"):
        best = tt2000.timed(cases[what], 2_000 if is_stub else 10_000, 100_000)
        rows.append([what, *(f"{figure:.0f}" for figure in best)])
    return table(["nanoseconds for each time", "read by Uppinalo", "by ERFA", "written by Uppinalo", "by ERFA"], rows)


#: The cases that are timed, by what they are of, and the calendar of each.
TIMED = [
    ("hours of 250 years, as doubles in days", "standard"),
    ("hours of 250 years, as doubles in days", "noleap"),
    ("whole hours", "standard"),
    ("any fraction of a second", "standard"),
    ("calendar months", "proleptic_gregorian"),
]


def times(cases, is_stub):
    counts = {None: 2_000 if is_stub else 1_000_000, "cftime": 10_000, "xarray": 100_000, "NumPy": 1_000_000, "UDUNITS": 1_000_000}
    by_name = {case.what: case for case in cases}
    rows = []
    for what, calendar in TIMED:
        case = by_name[what]
        best = timing.measure(case, calendar, OTHERS, {**counts, "xarray": 10_000 if calendar == "noleap" else 100_000})
        ours, *others = ["u" if figure is None else f"{figure:.{1 if figure < 100 else 0}f}" for figure in best]
        rows.append([case.what, f"`{calendar}`", "runs are not exported yet" if ours == "u" else ours, *others])
    return table(["nanoseconds for each offset", "calendar", "Uppinalo", *(reader.name for reader in OTHERS)], rows)


def main():
    is_stub = "target/stub" in os.environ["UPPINALO_LIBRARY"]
    ours = "**the second program in its place (hosts/stub), whose times mean nothing**" if is_stub else "the archive"
    cases, utc_cases = axes.cases(), tt2000.cases()
    text = (
        f"Uppinalo is {ours}; the others are {versions()}.\n\n"
        f"How many of {axes.COUNT} offsets show the same date to the microsecond, and how many of the others differ for which "
        "reason:\n\n"
        f"{agreements(cases)}\n"
        "What each makes of a units text in `standard`, at offset 0:\n\n"
        f"{texts()}\n"
        f"Time for each offset, the best of {timing.LOTS} lots in one run and one thread, each answering in its own form:\n\n"
        f"{times(cases, is_stub)}\n"
        f"Of {axes.COUNT} records or instants of a datetime64 array, how many are the same by NumPy's `astype`, and how many of the others "
        "differ for which reason. Half of the numbers from `ns` to `as` are whole counts of microseconds, and half of the instants are "
        "times that the unit has:\n\n"
        f"{arrays()}\n"
        f"Time for each record, the best of {timing.LOTS} lots in the same run, times of 1850 to 2100 read to and written from microseconds:\n\n"
        f"{array_times(is_stub)}\n"
        f"ERFA's list of leap seconds has from 1972 on the same {tt2000.same_records()} records as `data/{tt2000.FILE.name}`. How many TT2000 "
        "numbers are read as the same UTC time, and how many of ERFA's UTC times are written as the same number, to the nanosecond; and by how "
        "many nanoseconds ERFA's Julian date is at most off from our number before it is rounded:\n\n"
        f"{utc_times(utc_cases)}\n"
        "What each writes for a UTC time:\n\n"
        f"{utc_texts()}\n"
        f"Time for each, the best of {timing.LOTS} lots in the same run. Ours is a loop in Python with one call for each time, and ERFA's calls "
        "take whole arrays:\n\n"
        f"{utc_speeds(utc_cases, is_stub)}"
    )
    sys.stdout.write(text)
    before, rest = DOCUMENT.read_text().split(BEGIN)
    after = rest.split(END)[1]
    DOCUMENT.write_text(before + BEGIN + text + END + after)


main()
