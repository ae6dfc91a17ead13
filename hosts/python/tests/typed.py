"""A user's program, for `mypy --strict`, which hosts/run runs on it; it is run as a test too."""

import array
import datetime
import math
from typing import List, Optional

import uppinalo
from uppinalo import Axis, Calendar, Date, Fields, LeapSeconds, Mode, Period, Reading, Refused, Run, UnitsReader, UtcFields
from uppinalo import read_datetime64, read_iso, tidy_calendar, tidy_units, write_datetime64, write_iso


def dates(units: str, calendar: str, offsets: List[Optional[float]]) -> List[str]:
    axis = Axis(tidy_units(units), tidy_calendar(calendar), cutover=Date(1752, 9, 14))
    run: Run = axis.read_run(offsets, missing=math.nan)
    texts: List[str] = run.isoformat()
    return texts


def offset(axis: Axis, time: Fields) -> Optional[int]:
    try:
        return axis.write(time)
    except Refused as refused:
        number: int = refused.number
        return None if number == 6 else -1


def parts(axis: Axis) -> Axis:
    calendar: Calendar = axis.calendar
    period: Period = axis.period
    mode: Mode = axis.mode
    return Axis.of(calendar, period, mode, axis.reference, axis.cutover)


def read_all(text: bytes) -> str:
    with UnitsReader(calendar="noleap", cutover=datetime.date(1752, 9, 14)) as reader:
        reader.add(text)
    reading: Reading = reader.axis.read(59.5)
    return f"{reading} {reading.exact} {reading.days_back} {reading.fields.year}"


def leap_second(records: bytes) -> UtcFields:
    leap_seconds = LeapSeconds(records)
    return leap_seconds.read(leap_seconds.write(UtcFields(1972, 6, 30, 23, 59, 60)))


def records(identifier: str) -> bytes:
    run = read_datetime64(bytes(8), identifier)
    return bytes(write_datetime64(run, identifier, out=bytearray(8)))


def main() -> None:
    assert dates("Days since 1850-01-01 ", "NoLeap", [1.0, None]) == ["1850-01-02T00:00:00.000000Z", ""]
    axis = Axis("days since 1850-01-01")
    assert offset(axis, Fields(1850, 1, 1, hour=12)) is None and parts(axis) == axis
    assert read_all(b"days since 1850-01-01") == "1850-03-01T12:00:00.000000Z True 0 1850"
    assert leap_second(bytes.fromhex("da020000000000000a0000000000000090030000000000000b00000000000000")).second == 60
    assert records("<M8[s]") == bytes(8)
    assert list(axis.write_run(array.array("q", [read_iso("1850-01-03").instant]))) == [2]
    assert write_iso(0, Calendar.NOLEAP) == "1970-01-01T00:00:00.000000Z" and uppinalo.__version__ != ""


if __name__ == "__main__":
    main()
