"""The declarations against the header, and the shared object against the list of its calls."""

import ctypes
import re
import unittest

from uppinalo import CUTOVER_1582, WORDS, Refused, _library
from uppinalo._codes import Calendar, Mode, Period

from .calls import LISTED, REPOSITORY

HEADER = (REPOSITORY / "include" / "uppinalo.h").read_text()
STRUCTS = {
    "axis": _library.AxisCodes,
    "date": _library.DateNumbers,
    "fields": _library.FieldNumbers,
    "utc_fields": _library.UtcFieldNumbers,
    "units_state": _library.UnitsState,
    "axis_answer": _library.AxisAnswer,
    "reading": _library.ReadingAnswer,
    "offset_answer": _library.OffsetAnswer,
    "fields_answer": _library.FieldsAnswer,
    "date_answer": _library.DateAnswer,
    "day_answer": _library.DayAnswer,
    "length_answer": _library.LengthAnswer,
    "run_answer": _library.RunAnswer,
    "utc_fields_answer": _library.UtcFieldsAnswer,
    "tt2000_answer": _library.Tt2000Answer,
}
KINDS = {
    "uint8_t": ctypes.c_uint8,
    "uint32_t": ctypes.c_uint32,
    "int64_t": ctypes.c_int64,
    "size_t": ctypes.c_size_t,
    "bool": ctypes.c_uint8,
    "double": ctypes.c_double,
    **{f"uppinalo_{name}": struct for name, struct in STRUCTS.items()},
}


def fields(body):
    """The fields that the body of a struct in the header declares."""
    for declaration in filter(None, map(str.strip, body.split(";"))):
        kind, names = declaration.split(None, 1)
        for name, length in re.findall(r"(\w+)(?:\[(\d+)\])?", names):
            yield name, KINDS[kind] * int(length) if length else KINDS[kind]


def argument_kind(argument):
    """What an argument in the header is, or None for a pointer to elements."""
    kind, name = argument.rsplit(None, 1)
    pointed = ctypes.POINTER(KINDS[kind]) if kind == "uppinalo_units_state" else None
    return pointed if name.startswith("*") else KINDS[kind]


class Header(unittest.TestCase):
    def test_structs(self):
        found = dict(re.findall(r"typedef struct \{([^}]*)\} uppinalo_(\w+);", HEADER))
        self.assertEqual(sorted(found.values()), sorted(STRUCTS))
        for body, name in found.items():
            self.assertEqual(list(fields(body)), list(STRUCTS[name]._fields_), name)

    def test_calls(self):
        found = re.findall(r"^(\w+) uppinalo_(\w+)\(([^)]*)\);", HEADER, re.MULTILINE)
        self.assertEqual(sorted(name for _, name, _ in found), sorted(_library.CALLS))
        for answer, name, arguments in found:
            expected = [argument_kind(argument.strip()) for argument in arguments.split(",") if argument != "void"]
            restype, argtypes = _library.CALLS[name]
            self.assertIs(restype, KINDS[answer], name)
            self.assertEqual(len(argtypes), len(expected), name)
            for declared, kind in zip(argtypes, expected):
                self.assertTrue(declared is kind or kind is None, name)

    def test_cutover(self):
        year, month, day = CUTOVER_1582
        self.assertIn(f"#define UPPINALO_CUTOVER_1582 ((uppinalo_date){{{year}, {month}, {day}}})\n", HEADER)

    def test_codes(self):
        for codes in (Calendar, Period, Mode):
            for code in codes:
                name = "360_DAY" if code is Calendar.DAYS_360 else code.name
                self.assertRegex(HEADER, rf"UPPINALO_{name} = {int(code)}\b")


class Calls(unittest.TestCase):
    def test_every_listed_call_is_exported(self):
        for name in LISTED - {"listing"}:
            self.assertIsInstance(_library.call[name], ctypes._CFuncPtr, f"uppinalo_{name}")

    def test_no_other_call_is_exported(self):
        for name in set(_library.CALLS) - LISTED:
            self.assertNotIsInstance(_library.call[name], ctypes._CFuncPtr, f"{name} is exported and not listed")
            with self.assertRaises(NotImplementedError):
                _library.call[name]()


class Words(unittest.TestCase):
    def test_words_are_those_of_the_readme(self):
        table = re.findall(r"^\| (\d+) \| (.*) \|$", (REPOSITORY / "README.md").read_text(), re.MULTILINE)
        listed = {int(number): words for number, words in table if number != "0"}
        self.assertEqual(WORDS, listed)

    def test_a_refusal_is_a_value_error_with_its_words(self):
        refused = Refused(4, "x", 2)
        self.assertIsInstance(refused, ValueError)
        self.assertEqual(str(refused), f"refused 4: {WORDS[4]}: x, at place 2")
        self.assertEqual((refused.number, refused.words, refused.place), (4, WORDS[4], 2))
        self.assertIn("refused 99", str(Refused(99)))
