#!/usr/bin/env python3
"""Writes a list of leap seconds as the records that the TT2000 calls are lent.

    data/leap_seconds.py > data/leap_seconds_2017.bin    the list of this script
    data/leap_seconds.py --from LIST > FILE              that of a leap-seconds.list in NTP's form
    data/leap_seconds.py --check                         compares the stored file with both, where the system has such a list

A record has 16 bytes: two signed 64-bit little-endian numbers, a day number from 1970-01-01 and TAI less UTC in seconds from that
day on.
"""
import datetime
import pathlib
import struct
import sys

#: The days from which the counts 10, 11, 12 and so on hold: source document 003 has those up to 2009, the IERS announced the others.
DAYS = """
    1972-01-01 1972-07-01 1973-01-01 1974-01-01 1975-01-01 1976-01-01 1977-01-01 1978-01-01 1979-01-01 1980-01-01
    1981-07-01 1982-07-01 1983-07-01 1985-07-01 1988-01-01 1990-01-01 1991-01-01 1992-07-01 1993-07-01 1994-07-01
    1996-01-01 1997-07-01 1999-01-01 2006-01-01 2009-01-01 2012-07-01 2015-07-01 2017-01-01
""".split()
FIRST_COUNT = 10
STORED = pathlib.Path(__file__).with_name("leap_seconds_2017.bin")
SYSTEM = pathlib.Path("/usr/share/zoneinfo/leap-seconds.list")
#: NTP counts seconds from 1900-01-01.
NTP_DAYS = (datetime.date(1970, 1, 1) - datetime.date(1900, 1, 1)).days


def published():
    """The days and counts of this script."""
    days = ((datetime.date.fromisoformat(day) - datetime.date(1970, 1, 1)).days for day in DAYS)
    return list(zip(days, range(FIRST_COUNT, FIRST_COUNT + len(DAYS))))


def from_ntp(path):
    """The days and counts of a leap-seconds.list."""
    lines = (line.partition("#")[0].split() for line in path.read_text().splitlines())
    try:
        pairs = [(int(seconds), int(count)) for seconds, count in filter(None, lines)]
    except ValueError:
        pairs = []
    if not pairs or any(seconds % 86400 for seconds, _ in pairs):
        sys.exit(f"{path}: no list of leap seconds in NTP's form")
    return [(seconds // 86400 - NTP_DAYS, count) for seconds, count in pairs]


def records(pairs):
    return b"".join(struct.pack("<qq", day, count) for day, count in pairs)


def check():
    if STORED.read_bytes() != records(published()):
        sys.exit(f"{STORED}: other records than those of {__file__}")
    system = from_ntp(SYSTEM) if SYSTEM.is_file() else published()
    if any(ours != theirs for ours, theirs in zip(published(), system)):
        sys.exit(f"{STORED}: other records than those of {SYSTEM}")
    if len(system) > len(DAYS):
        print(f"{SYSTEM} has later leap seconds: renew {STORED}")


def main(words):
    if words == ["--check"]:
        check()
    elif not words:
        sys.stdout.buffer.write(records(published()))
    elif len(words) == 2 and words[0] == "--from":
        sys.stdout.buffer.write(records(from_ntp(pathlib.Path(words[1]))))
    else:
        sys.exit(__doc__)


main(sys.argv[1:])
