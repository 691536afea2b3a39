"""The shared library behind the package: found, loaded, and its functions declared as include/kamurjesh.h has them.

For the modules of this package alone. What a function is lent is checked before it is called (calls.py)."""

import ctypes
import os
from pathlib import Path
from typing import Any, Dict, List

NAME = "libkamurjesh.so.1"

_BYTES = [ctypes.c_void_p, ctypes.c_size_t]
_NUMBER = [ctypes.c_uint64]
_OUT = [ctypes.POINTER(ctypes.c_uint64)]
_SIGNED_OUT = [ctypes.POINTER(ctypes.c_int64)]
_LEVEL = _OUT + _SIGNED_OUT + _OUT + _OUT

# What each call takes, the same for bonds and for equities.
_BOTH: Dict[str, List[Any]] = {
    "open": _BYTES * 4 + _NUMBER + _BYTES * 2,
    "submit": _BYTES * 3 + _OUT,
    "run": _BYTES * 2 + _NUMBER + _OUT * 3,
    "load": _BYTES * 3 + _OUT * 4,
    "depth": _BYTES + _NUMBER * 2 + _LEVEL,
    "top": _BYTES + _NUMBER + _LEVEL,
    "read": _BYTES + _OUT,
    "copy": _BYTES + _NUMBER * 2 + _BYTES * 2 + _NUMBER + _BYTES + _OUT * 2,
    "copy_read": _BYTES + _OUT,
    "save": _BYTES * 2,
    "restore": _BYTES * 2 + _OUT,
}

# What stands in the library once.
_ONCE: Dict[str, List[Any]] = {
    "field": _BYTES + _NUMBER + _OUT * 2,
}


def _places() -> List[Path]:
    """Where the library is looked for: what KAMURJESH_LIBRARY names, beside this file, and in the lib folder of an unpacked release."""
    named = os.environ.get("KAMURJESH_LIBRARY")
    if named:
        return [Path(named)]
    here = Path(__file__).resolve().parent
    return [here / NAME, here.parent.parent / "lib" / NAME]


def _load() -> ctypes.CDLL:
    places = _places()
    for place in places:
        if place.is_file():
            return ctypes.CDLL(str(place))
    raise ImportError(
        f"{NAME} is not in {' or '.join(str(place.parent) for place in places)}: install the wheel of a release, or set KAMURJESH_LIBRARY to the library's path"
    )


def _declare(library: ctypes.CDLL) -> None:
    for prefix, calls in (("kamurjesh_", _BOTH), ("kamurjesh_equities_", _BOTH), ("kamurjesh_", _ONCE)):
        for name, takes in calls.items():
            function = getattr(library, prefix + name)
            function.argtypes = takes
            function.restype = ctypes.c_uint64


library = _load()
_declare(library)
