"""The library: it is loaded when the first call is made, so that nothing but a call asks for it."""
import ctypes
import functools
import os
import sys
import threading
from pathlib import Path
from typing import Any, Callable, List

from gixcfg._calls import CALLS, Span

NAME = "libgix_config.so.0"
HERE = Path(__file__).resolve().parent


def places() -> List[Path]:
    """Where the library lies beside this file: in the package, or where `make lib` puts it in a clone from which the package runs."""
    clone = HERE.parents[2]
    return [HERE / NAME, *([clone / "out/lib" / NAME] if (clone / "bindings/python/gixcfg") == HERE else [])]


@functools.lru_cache(maxsize=None)
def opened() -> ctypes.PyDLL:
    """The library: that which GIXCFG_LIBRARY names, else the one that lies beside this file, else the system's, which is found by its
    soname. Raises ImportError if there is none."""
    beside = [str(it) for it in places() if it.exists()]
    name = os.environ.get("GIXCFG_LIBRARY") or [*beside, NAME][0]
    try:
        return ctypes.PyDLL(name)
    except OSError as error:
        raise ImportError(f"gixcfg: the library for C can't be loaded: {error}") from error


# (the calls keep the interpreter's lock, so no two of them run at once: docs/c.md says why a file and its copies want that)
LOCK = threading.Lock()


def locked(call: Callable[..., Any]) -> Callable[..., Any]:
    """The same, for an interpreter without such a lock."""
    def made(*given: Any) -> Any:
        with LOCK:
            return call(*given)
    return made


class Library:
    """The calls, each declared when it is first asked for."""

    def __getattr__(self, name: str) -> Any:
        if name not in CALLS:
            raise AttributeError(name)
        call = getattr(opened(), name)
        call.argtypes, call.restype = CALLS[name]
        made = call if getattr(sys, "_is_gil_enabled", lambda: True)() else locked(call)
        setattr(self, name, made)
        return made


LIBRARY = Library()


def bytes_at(found: Any) -> bytes:
    """A copy of the bytes of a block or a span."""
    return ctypes.string_at(found.at, found.len) if found.len else b""


def words_of(number: int) -> str:
    """What the number of an error says."""
    words = Span()
    LIBRARY.gix_config_refusal_text(number, words)
    return bytes_at(words).decode()
