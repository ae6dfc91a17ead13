"""The shared object, and its calls.

It is sought in this order: the file that the environment variable UPPINALO_LIBRARY names, ``libuppinalo.so`` beside this
file, as in an installed package, ``target/staticlib/libuppinalo.so`` of the repository, and where the system keeps its
libraries. One that is missing, that this machine cannot load or that is of another version is an ImportError. One that exports
some of the calls only has these, and the others are a NotImplementedError.

``libuppinalo_loops.so``, made of ``loops.c``, stands beside this file or in ``target/python`` of the repository.
"""

from __future__ import annotations

import ctypes
import functools
import os
import pathlib
from typing import Any

from ._structs import CALLS, LOOPS, AxisAnswer, AxisCodes, DateAnswer, DateNumbers, DayAnswer, FieldNumbers, FieldsAnswer
from ._structs import LengthAnswer, LoopAnswer, OffsetAnswer, ReadingAnswer, RunAnswer, Tt2000Answer, UnitsState
from ._structs import UtcFieldNumbers, UtcFieldsAnswer
from ._version import __version__

__all__ = [
    "AxisAnswer",
    "AxisCodes",
    "CALLS",
    "DateAnswer",
    "DateNumbers",
    "DayAnswer",
    "FieldNumbers",
    "FieldsAnswer",
    "LengthAnswer",
    "OffsetAnswer",
    "ReadingAnswer",
    "RunAnswer",
    "Tt2000Answer",
    "UnitsState",
    "UtcFieldNumbers",
    "UtcFieldsAnswer",
    "call",
    "loop",
]

_HERE = pathlib.Path(__file__).resolve().parent
_TARGET = _HERE.joinpath("..", "..", "..", "target")
_ADVICE = "build it by `make lib` in the repository of uppinalo, and install the package anew"


def _loaded(path: str, advice: str) -> ctypes.CDLL:
    try:
        return ctypes.CDLL(path)
    except OSError as error:
        raise ImportError(f"uppinalo cannot load {path} ({error}): {advice}") from None


def _library() -> ctypes.CDLL:
    named = os.environ.get("UPPINALO_LIBRARY")
    if named:
        return _loaded(named, "UPPINALO_LIBRARY must name the libuppinalo.so of this machine, or be unset")
    for folder in (_HERE, _TARGET / "staticlib"):
        if (folder / "libuppinalo.so").is_file():
            return _loaded(str(folder / "libuppinalo.so"), _ADVICE)
    return _loaded("libuppinalo.so.0", f"{_ADVICE}, or name it in UPPINALO_LIBRARY")


def _loops() -> ctypes.CDLL:
    folders = [folder for folder in (_HERE, _TARGET / "python") if (folder / "libuppinalo_loops.so").is_file()]
    return _loaded(str((folders or [_HERE])[0] / "libuppinalo_loops.so"), _ADVICE)


def _missing(name: str) -> Any:
    def missing(*_: object) -> Any:
        raise NotImplementedError(f"the shared object does not export uppinalo_{name}")

    return missing


def _is_exported(function: Any) -> bool:
    return isinstance(function, ctypes._CFuncPtr)


def _declared(library: ctypes.CDLL, symbol: str, answer: Any, arguments: list[Any]) -> Any:
    """The function, or None where the shared object does not have it."""
    try:
        function = library[symbol]
    except AttributeError:
        return None
    function.restype, function.argtypes = answer, arguments
    return function


def _calls(library: ctypes.CDLL) -> dict[str, Any]:
    """The calls, of which one is tried: a shared object of another version, with other arguments, says another time. A call that
    the shared object does not have is one that says so."""
    calls = {name: _declared(library, f"uppinalo_{name}", *CALLS[name]) or _missing(name) for name in CALLS}
    if not any(map(_is_exported, calls.values())):
        lacking = f"no uppinalo_{next(iter(calls))} nor any other call"
        raise ImportError(f"{library._name} has {lacking}, so it is none of uppinalo {__version__}: {_ADVICE}")
    if _is_exported(calls["fields_of"]):
        answer = calls["fields_of"](0, DateNumbers(1582, 10, 15), 0)
        if bytes(answer.fields) != bytes(FieldNumbers(1970, 1, 1)):
            raise ImportError(f"{library._name} is not of uppinalo {__version__}: {_ADVICE}")
    return calls


def _looped(library: ctypes.CDLL, name: str) -> Any:
    if not _is_exported(call[name]):
        return call[name]
    around = [ctypes.c_void_p, ctypes.c_void_p, ctypes.c_size_t, ctypes.c_void_p]
    made = _declared(library, f"loop_{name}", LoopAnswer, [ctypes.c_void_p, *LOOPS[name], *around])
    if made is None:
        raise ImportError(f"{library._name} has no loop_{name}, so it is none of uppinalo {__version__}: {_ADVICE}")
    return functools.partial(made, ctypes.cast(call[name], ctypes.c_void_p))


_CALLED = _library()
#: The calls by name. They hold no state, and other threads of Python go on while one runs.
call = _calls(_CALLED)
_LOOPING = _loops()
#: For each call of LOOPS, that call made for every element.
loop = {name: _looped(_LOOPING, name) for name in LOOPS}
#: The files of both.
FILES = (_CALLED._name, _LOOPING._name)
