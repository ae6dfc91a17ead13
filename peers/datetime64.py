"""datetime64 arrays through NumPy's casts and through us: how often they agree, and nanoseconds for each record."""
import collections

import numpy
from tests.records import FIRST, LAST, PARTS, UNITS, ends, instant_of, number_of, reading, unit_of, writing
from uppinalo import Refused, read_datetime64, write_datetime64

from agreement import Unexplained
from axes import COUNT
from timing import best_of

REASONS = {
    "c": "NumPy cuts the time to a whole microsecond, or to a whole number of the unit. We refuse it with 6.",
    "o": "NumPy's arithmetic leaves 64 bits, and another time comes out. We refuse it, in reading with 5 and in writing with 6.",
    "5": "We refuse what lies past the years -9999 to 9999, with 5; NumPy goes on.",
}
#: The types that are timed, and the first and the last instant of the times that stand in them.
TIMED = ["<M8[us]", "<M8[ns]", ">M8[s]", "<M8[M]"]
YEARS = [numpy.datetime64(day, "us").astype(int).item() for day in ("1850-01-01", "2100-01-01")]


def _half_whole(numbers, parts):
    """The numbers, the first half of them made whole counts of microseconds."""
    numbers[: COUNT // 2] -= numbers[: COUNT // 2] % parts
    return numbers


def _of_any_size(random):
    """Signed numbers of 1 to 63 bits."""
    return random.integers(0, 2**63, COUNT) >> random.integers(0, 63, COUNT) ^ -random.integers(0, 2, COUNT)


def _answer(work):
    """What a call gives, or its refusal."""
    try:
        return work()
    except Refused as refused:
        return refused


def _why(ours, theirs, exact, rest):
    """Why NumPy has another number than ours. The exact one is cut where it has a rest."""
    if not isinstance(ours, Refused):
        if ours != theirs:
            raise Unexplained(ours, theirs, exact)
        return "agree"
    if theirs != exact:
        return "o"
    return "c" if rest else "5"


def _read(unit, numbers):
    theirs = numbers.view(f"M8[{unit}]").astype("M8[us]").view("i8").tolist()
    counts = collections.Counter()
    for number, cast in zip(numbers.tolist(), theirs):
        ours = _answer(lambda: read_datetime64(number.to_bytes(8, "big", signed=True), f">M8[{unit}]").instants.item())
        refusal, instant = reading(unit, number)
        assert ours == instant if refusal == 0 else ours.number == refusal, (unit, number)
        counts[_why(ours, cast, *instant_of(unit, number))] += 1
    return counts


def _written(unit, instants):
    theirs = instants.view("M8[us]").astype(f"M8[{unit}]").view("i8").tolist()
    counts = collections.Counter()
    for instant, cast in zip(instants.tolist(), theirs):
        ours = _answer(lambda: write_datetime64([instant], f"<M8[{unit}]").view("i8").item())
        refusal, number = writing(unit, instant)
        assert ours == number if refusal == 0 else ours.number == refusal, (unit, instant)
        exact = number_of(unit, instant)
        counts[_why(ours, cast, exact, instant - instant_of(unit, exact)[0])] += 1
    return counts


def rows():
    """For each unit the counts of numbers within the years, of numbers of any size, and of instants that are written."""
    random = numpy.random.default_rng(1970)
    for unit in UNITS:
        parts = PARTS.get(unit, 1)
        inside = _half_whole(random.integers(*ends(unit), COUNT), parts)
        anywhere = _half_whole(_of_any_size(random), parts)
        instants = random.integers(FIRST, LAST, COUNT)
        instants[: COUNT // 2] = [instant_of(unit, number)[0] for number in inside[: COUNT // 2].tolist()]
        yield unit, [_read(unit, inside), _read(unit, anywhere), _written(unit, instants)]


def timed(count):
    """For each type the nanoseconds for each record: read by us and by NumPy, written by us and by NumPy."""
    random = numpy.random.default_rng(2262)
    for identifier in TIMED:
        unit = unit_of(identifier)
        numbers = random.integers(*(number_of(unit, instant) for instant in YEARS), count)
        records = (numbers - numbers % PARTS.get(unit, 1)).astype(identifier.replace("M8", "i8")[:3]).tobytes()
        array = numpy.frombuffer(records, identifier)
        instants = array.astype("M8[us]")
        works = [
            lambda: read_datetime64(records, identifier),
            lambda: array.astype("M8[us]"),
            lambda: write_datetime64(instants, identifier),
            lambda: instants.astype(identifier),
        ]
        assert (works[0]().datetime64() == works[1]()).all() and (works[2]() == works[3]()).all(), identifier
        yield identifier, best_of(works, [count] * len(works))
