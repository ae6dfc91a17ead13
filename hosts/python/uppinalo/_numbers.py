"""Python's numbers and texts as those of the C boundary. Whatever is no number or text of the kind asked for is a TypeError.

Python's ints have no bounds. One past the bounds of its place is handed on as the greatest or least number of that place, which
the library refuses for the same reason: no instant, day or offset as far off is in range, and no date has such a field. This
does not hold for a TT2000 and the year of UTC fields, for which every number of 64 bits is good.
"""

from __future__ import annotations

import operator
from typing import Union

Text = Union[str, bytes]

LEAST, MOST = -(2**63), 2**63 - 1
MOST_UNSIGNED = 2**32 - 1


def is_whole(value: object) -> bool:
    """Whether a value is a whole number by its type. Truth values are none."""
    kind = getattr(getattr(value, "dtype", None), "kind", "i")
    return hasattr(value, "__index__") and not isinstance(value, (bool, type)) and kind in "iu"


def whole(value: object, what: str) -> int:
    """The int itself."""
    if not is_whole(value):
        raise TypeError(f"{what} must be an int, not {type(value).__name__}")
    return operator.index(value)  # type: ignore[arg-type]


def signed(value: object, what: str) -> int:
    """The int as a signed 64-bit number."""
    return max(LEAST, min(whole(value, what), MOST))


def unsigned(value: object, what: str) -> int:
    """The int as an unsigned 32-bit number; one that is negative becomes the greatest."""
    number = whole(value, what)
    return number if 0 <= number <= MOST_UNSIGNED else MOST_UNSIGNED


def is_double(value: object) -> bool:
    """Whether a value is a float, or a NumPy float of at most 64 bits, which a double holds exactly. Decimals and fractions are
    none: they would be rounded."""
    if isinstance(value, float):
        return True
    dtype = getattr(value, "dtype", None)
    kind, size = getattr(dtype, "kind", ""), getattr(dtype, "itemsize", 0)
    return getattr(value, "shape", None) == () and kind == "f" and size <= 8


def double(value: object, what: str) -> float:
    """The float itself."""
    if not is_double(value):
        raise TypeError(f"{what} must be an int or a float, not {type(value).__name__}")
    return float(value)  # type: ignore[arg-type]


def encoded(text: object, what: str) -> bytes:
    """The bytes of a text. Those of a str are its UTF-8; the library takes ASCII only and refuses the rest."""
    if isinstance(text, str):
        return text.encode("utf-8", "surrogatepass")
    if isinstance(text, bytes):
        return text
    raise TypeError(f"{what} must be a str or bytes, not {type(text).__name__}")
