"""The shared object: where it is found, and its functions, each looked up when it is first called."""
from __future__ import annotations

import ctypes
import os
import pathlib
import threading
from typing import Any, List, Optional

from ._tables import FUNCTIONS, c_types

NAME = "libtsorvenk.so"

_lock = threading.Lock()
_loaded: Optional[ctypes.CDLL] = None


class LibraryMissing(OSError):
    """The shared object is not where it is looked for, or cannot be loaded."""


class FunctionMissing(NotImplementedError):
    """The shared object is older than this package: it does not have the function that was called."""


def places() -> List[pathlib.Path]:
    """Where the shared object is looked for, the first place first.

    TSORVENK_SO alone, where it is set; else beside this file, where an installation puts it, and then where
    ``build-library`` of the repository leaves it.
    """
    named = os.environ.get("TSORVENK_SO")
    if named:
        return [pathlib.Path(named)]
    here = pathlib.Path(__file__).resolve().parent
    found = [here / NAME]
    # in the repository, where this file is bindings/python/tsorvenk/_library.py, and not where it is installed
    top = here.parents[min(2, len(here.parents) - 1)]
    if (top / "build-library").is_file():
        found.append(top / "target" / "staticlib" / NAME)
    return found


def library() -> ctypes.CDLL:
    """The shared object, loaded by the first call. LibraryMissing if there is none."""
    global _loaded
    with _lock:
        if _loaded is None:
            _loaded = _load()
        return _loaded


def _load() -> ctypes.CDLL:
    looked = places()
    for path in looked:
        if path.is_file():
            try:
                # a bare name would be looked for elsewhere
                return ctypes.CDLL(str(path.resolve()))
            except OSError as why:
                raise LibraryMissing(f"{path} cannot be loaded: {why}") from None
    raise LibraryMissing(
        f"{NAME} is not there: ./build-library of the repository leaves it, or TSORVENK_SO says where it is; "
        f"looked for {', '.join(map(str, looked))}"
    )


def has(name: str) -> bool:
    """Whether the shared object has the function of this name, without ``tsorvenk_``."""
    return hasattr(library(), "tsorvenk_" + name)


def function(name: str) -> Any:
    """The function of this name in the shared object, with its types. FunctionMissing if it is not there."""
    try:
        found = getattr(library(), "tsorvenk_" + name)
    except AttributeError:
        raise FunctionMissing(
            f"the shared object has no tsorvenk_{name}: it is older than this package; run ./build-library"
        ) from None
    found.argtypes = c_types(FUNCTIONS[name])
    found.restype = ctypes.c_uint8
    return found
