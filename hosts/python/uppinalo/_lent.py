"""The memory of a Python object, lent to a call of the library."""

from __future__ import annotations

import ctypes
from typing import Any, Optional

_WRITABLE, _FORMAT, _C_CONTIGUOUS = 0x1, 0x4, 0x38


class _Buffer(ctypes.Structure):
    """Python's Py_buffer."""

    _fields_ = [
        ("start", ctypes.c_void_p),
        ("owner", ctypes.c_void_p),
        ("bytes", ctypes.c_ssize_t),
        ("element_bytes", ctypes.c_ssize_t),
        ("is_read_only", ctypes.c_int),
        ("dimensions", ctypes.c_int),
        ("format", ctypes.c_char_p),
        ("shape", ctypes.c_void_p),
        ("strides", ctypes.c_void_p),
        ("suboffsets", ctypes.c_void_p),
        ("internal", ctypes.c_void_p),
    ]


_get = ctypes.pythonapi.PyObject_GetBuffer
_get.argtypes, _get.restype = [ctypes.py_object, ctypes.POINTER(_Buffer), ctypes.c_int], ctypes.c_int
_release = ctypes.pythonapi.PyBuffer_Release
_release.argtypes, _release.restype = [ctypes.POINTER(_Buffer)], None


class Lent:
    """Contiguous memory. While this is open, its owner can neither move nor resize it."""

    def __init__(self, owner: Any, is_written: bool = False) -> None:
        self._buffer = _Buffer()
        _get(owner, self._buffer, _C_CONTIGUOUS | _FORMAT | (_WRITABLE if is_written else 0))

    def __enter__(self) -> Lent:
        return self

    def __exit__(self, *_: object) -> None:
        _release(self._buffer)

    @property
    def start(self) -> Optional[int]:
        """The address, or None where there are no bytes."""
        return int(self._buffer.start) if self._buffer.bytes else None

    @property
    def size(self) -> int:
        """The number of bytes."""
        return int(self._buffer.bytes)

    @property
    def length(self) -> int:
        """The number of elements of eight bytes."""
        return self.size // 8

    @property
    def format(self) -> str:
        """``d`` for doubles, ``q`` for signed 64-bit numbers, and any other text for what is neither."""
        form = (self._buffer.format or b"").decode().lstrip("@=<")
        if self._buffer.element_bytes != 8:
            return "other"
        return {"l": "q"}.get(form, form)

    @property
    def is_raw(self) -> bool:
        """Whether the elements are bytes, or of eight bytes each and neither doubles nor objects."""
        form = (self._buffer.format or b"B").decode().lstrip("@=<>!0123456789")
        return form in ("B", "b", "c", "s", "x", "q", "Q", "l", "L") and self._buffer.element_bytes in (1, 8)

    @property
    def is_bytes(self) -> bool:
        """Whether the elements are bytes."""
        return self.is_raw and self._buffer.element_bytes == 1

    @property
    def is_aligned(self) -> bool:
        return (self.start or 0) % 8 == 0

    def overlaps(self, other: Lent) -> bool:
        mine, others = self.start or 0, other.start or 0
        return max(mine, others) < min(mine + self.size, others + other.size)


def contiguous(data: Any, wrong: str) -> Any:
    """What is bytes-like, as it is, or a copy of its bytes where they have gaps between them or another order."""
    try:
        view = memoryview(data)
    except TypeError:
        raise TypeError(f"{wrong}, not {type(data).__name__}") from None
    return data if view.c_contiguous else view.tobytes()


def lent_bytes(data: Any, what: str) -> Lent:
    """Anything bytes-like; bytes with gaps between them or in another order are copied first."""
    wrong = f"{what} must be bytes"
    try:
        lent = Lent(contiguous(data, wrong))
    except (ValueError, BufferError) as error:
        raise TypeError(f"{wrong}: {error}") from None
    if not lent.is_bytes:
        with lent:
            raise TypeError(f"{wrong}, not a {type(data).__name__} of other elements")
    return lent
