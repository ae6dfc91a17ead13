"""datetime64 by other means: whole numbers of any size, and the dates of Python's own calendar, which repeats every 400 years."""

import datetime
import random
import struct

DAY = 86_400_000_000
LEAST, MOST = -(2**63), 2**63 - 1
#: Microseconds of a unit, and the parts of a microsecond.
LENGTHS = {"W": 7 * DAY, "D": DAY, "h": 3_600_000_000, "m": 60_000_000, "s": 1_000_000, "ms": 1_000, "us": 1}
PARTS = {"ns": 10**3, "ps": 10**6, "fs": 10**9, "as": 10**12}
UNITS = ["Y", "M", *LENGTHS, *PARTS]
IDENTIFIERS = [f"{order}M8[{unit}]" for unit in UNITS for order in "<>"]


def midnight(year, month):
    """The instant of the first of a month in any year of ``proleptic_gregorian``."""
    cycles, rest = divmod(year - 1, 400)
    first = datetime.date(rest + 1, month, 1).toordinal() + 146_097 * cycles
    return (first - datetime.date(1970, 1, 1).toordinal()) * DAY


FIRST, LAST = midnight(-9999, 1), midnight(10_000, 1) - 1


def unit_of(identifier):
    return identifier[4:-1]


def instant_of(unit, number):
    """The instant of a number, of any year and cut to a whole microsecond, and what was cut off."""
    if unit in PARTS:
        return divmod(number, PARTS[unit])
    if unit in LENGTHS:
        return number * LENGTHS[unit], 0
    years, months = (number, 0) if unit == "Y" else divmod(number, 12)
    return midnight(1970 + years, 1 + months), 0


def number_of(unit, instant):
    """The number of an instant, of any size and cut to a whole one."""
    if unit in PARTS:
        return instant * PARTS[unit]
    if unit in LENGTHS:
        return instant // LENGTHS[unit]
    cycles, days = divmod(instant // DAY, 146_097)
    date = datetime.date(1970, 1, 1) + datetime.timedelta(days)
    years = date.year - 1970 + 400 * cycles
    return years if unit == "Y" else 12 * years + date.month - 1


def reading(unit, number):
    """The refusal, or 0, and the instant of a number."""
    if number == LEAST:
        return 10, None
    instant, rest = instant_of(unit, number)
    if rest:
        return 6, None
    return (0, instant) if FIRST <= instant <= LAST else (5, None)


def writing(unit, instant):
    """The refusal, or 0, and the number of an instant."""
    if not FIRST <= instant <= LAST:
        return 5, None
    number = number_of(unit, instant)
    is_written = LEAST < number <= MOST and instant_of(unit, number) == (instant, 0)
    return (0, number) if is_written else (6, None)


def ends(unit):
    """The least and the greatest 64-bit number within the years; the least of all is not-a-time."""
    return max(number_of(unit, FIRST), LEAST + 1), min(number_of(unit, LAST), MOST)


def packed(identifier, numbers):
    """The records of some numbers."""
    return struct.pack(f"{identifier[0]}{len(numbers)}q", *numbers)


def raw(written):
    """The bytes of what was written, which NumPy does not lend as such where they are datetime64."""
    return bytes(written) if isinstance(written, bytearray) else written.tobytes()


def numbers_of(unit, count, seed=1):
    """Numbers at the ends of what is read and of 64 bits, and random ones of any size, many of them within the years."""
    draw = random.Random(f"{unit} {seed}")
    least, most = ends(unit)
    parts = PARTS.get(unit, 1)
    edges = {least // parts * parts, most // parts * parts, 0, LEAST, MOST}
    near = {n + parts * d for n in edges for d in (-2, -1, 0, 1, 2)} | {n + d for n in edges for d in (-1, 1)}
    sizes = [draw.randrange(-(2**bits), 2**bits) for bits in range(1, 64)]
    some = [draw.randrange(least, most) // parts * parts for _ in range(count)]
    return [n for n in [*sorted(near), *sizes, *some] if LEAST <= n <= MOST]


def instants_of(unit, count, seed=1):
    """Instants that are written in a unit, instants beside them, firsts of months, and some past the years."""
    draw = random.Random(f"{unit} {seed}")
    read = [instant for refusal, instant in (reading(unit, n) for n in numbers_of(unit, count, seed)) if refusal == 0]
    beside = [instant + draw.choice((-DAY, -1000, -1, 1, 1000, DAY)) for instant in read]
    firsts = [midnight(draw.randrange(-9999, 10_000), draw.randrange(1, 13)) for _ in range(count)]
    others = [draw.randrange(FIRST, LAST) for _ in range(count)]
    return [*read, *beside, *firsts, *others, FIRST - 1, FIRST, LAST, LAST + 1, LEAST, MOST]
