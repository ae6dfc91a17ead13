"""The structs and the calls of the C boundary, as ``include/uppinalo.h`` declares them, and the loops of ``loops.c``."""

from __future__ import annotations

from ctypes import POINTER, Structure, c_char_p, c_double, c_int64, c_size_t, c_uint8, c_uint32, c_void_p
from typing import Any


class DateNumbers(Structure):
    _fields_ = [("year", c_int64), ("month", c_uint32), ("day", c_uint32)]


class AxisCodes(Structure):
    _fields_ = [(name, c_uint32) for name in ("calendar", "period", "mode")] + [
        ("reference", c_int64),
        ("cutover", DateNumbers),
    ]


class FieldNumbers(Structure):
    _fields_ = [("year", c_int64)] + [
        (name, c_uint32) for name in ("month", "day", "hour", "minute", "second", "microsecond")
    ]


class UtcFieldNumbers(Structure):
    _fields_ = [("year", c_int64)] + [
        (name, c_uint32) for name in ("month", "day", "hour", "minute", "second", "nanosecond")
    ]


class UnitsState(Structure):
    _fields_ = [("count", c_uint32), ("ended", c_uint32), ("bytes", c_uint8 * 128)]


class AxisAnswer(Structure):
    _fields_ = [("number", c_uint32), ("axis", AxisCodes)]


class ReadingAnswer(Structure):
    _fields_ = [("number", c_uint32), ("instant", c_int64), ("exact", c_uint8), ("days_back", c_uint32)]


class OffsetAnswer(Structure):
    _fields_ = [("number", c_uint32), ("offset", c_int64)]


class FieldsAnswer(Structure):
    _fields_ = [("number", c_uint32), ("fields", FieldNumbers)]


class DateAnswer(Structure):
    _fields_ = [("number", c_uint32), ("date", DateNumbers)]


class DayAnswer(Structure):
    _fields_ = [("number", c_uint32), ("day", c_int64)]


class LengthAnswer(Structure):
    _fields_ = [("number", c_uint32), ("length", c_size_t)]


class RunAnswer(Structure):
    _fields_ = [("number", c_uint32), ("place", c_size_t), ("length", c_size_t), ("rounded", c_size_t)]


class LoopAnswer(Structure):
    _fields_ = [("number", c_uint32), ("place", c_size_t)]


class UtcFieldsAnswer(Structure):
    _fields_ = [("number", c_uint32), ("fields", UtcFieldNumbers)]


class Tt2000Answer(Structure):
    _fields_ = [("number", c_uint32), ("tt2000", c_int64)]


_TEXTS = [c_char_p, c_size_t, DateNumbers, c_char_p, c_size_t]
_RUN = [AxisCodes, c_void_p, c_size_t, c_void_p, c_size_t]
_RECORDS = [c_char_p, c_size_t, c_void_p, c_size_t, c_void_p, c_size_t]

#: For each call, its answer and its arguments.
CALLS: dict[str, tuple[Any, list[Any]]] = {
    "read_units": (AxisAnswer, _TEXTS),
    "start_units": (UnitsState, []),
    "add_units": (c_uint32, [POINTER(UnitsState), c_void_p, c_size_t]),
    "end_units": (AxisAnswer, [POINTER(UnitsState), c_char_p, c_size_t, DateNumbers]),
    "read_iso": (ReadingAnswer, _TEXTS),
    "write_iso": (LengthAnswer, [c_uint32, DateNumbers, c_int64, POINTER(c_uint8), c_size_t]),
    "fields_of": (FieldsAnswer, [c_uint32, DateNumbers, c_int64]),
    "date_of_day": (DateAnswer, [c_uint32, DateNumbers, c_int64]),
    "day_of_date": (DayAnswer, [c_uint32, DateNumbers, DateNumbers]),
    "read_whole": (ReadingAnswer, [AxisCodes, c_int64]),
    "read_double": (ReadingAnswer, [AxisCodes, c_double]),
    "write_instant": (OffsetAnswer, [AxisCodes, c_int64]),
    "write_fields": (OffsetAnswer, [AxisCodes, FieldNumbers]),
    "read_wholes": (RunAnswer, _RUN),
    "read_doubles": (RunAnswer, _RUN),
    "read_datetime64": (RunAnswer, _RECORDS),
    "write_datetime64": (RunAnswer, _RECORDS),
    "read_tt2000": (UtcFieldsAnswer, [c_char_p, c_size_t, c_int64]),
    "write_tt2000": (Tt2000Answer, [c_char_p, c_size_t, UtcFieldNumbers]),
}

#: For each loop, which calls the library's call of that name for every element, its arguments but for these: first that call, and
#: at the end the elements, which of them are skipped, their number, and the room for what they give.
LOOPS: dict[str, list[Any]] = {
    "fields_of": [c_uint32, DateNumbers],
    "write_iso": [c_uint32, DateNumbers],
    "write_instant": [AxisCodes],
    "write_tt2000": [c_char_p, c_size_t],
}
