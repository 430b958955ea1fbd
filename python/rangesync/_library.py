"""The library that is called: its functions, a handle that is given back once, and what it refuses."""

from __future__ import annotations

import contextlib
import ctypes
import os
import threading
import weakref
from collections.abc import Iterator
from pathlib import Path
from typing import NoReturn, TypeVar, Union

from ._refused import Refused

# What is taken as bytes.
Data = Union[bytes, bytearray, memoryview]


class _Handle(ctypes.Structure):
    _fields_ = [("at", ctypes.c_void_p)]


def _path() -> str:
    """The library that RANGESYNC_LIBRARY names, or that beside this package, of c/build in a clone, or installed."""
    name = "librangesync.so.1"
    folder = Path(__file__).resolve().parent.parent
    found = [str(path) for path in (folder / name, folder.parent / "c/out" / name) if path.exists()]
    return os.environ.get("RANGESYNC_LIBRARY") or (found[0] if found else name)


def _load() -> ctypes.CDLL:
    """The library, with what its functions take and return."""
    path = _path()
    try:
        library = ctypes.CDLL(path)
    except OSError as fault:
        raise ImportError(f"{fault} (c/build makes it; RANGESYNC_LIBRARY may name it)") from fault
    size, number, handle = ctypes.c_size_t, ctypes.c_uint32, ctypes.POINTER(_Handle)
    sizes, numbers, flag = ctypes.POINTER(size), ctypes.POINTER(number), ctypes.POINTER(ctypes.c_bool)
    data = ctypes.c_char_p
    calls: dict[str, list[type]] = {
        "rs_strategy_read": [data, size, handle],
        "rs_set_read": [handle, number, data, size, handle],
        "rs_set_insert": [handle, data, size, flag],
        "rs_set_count": [handle, sizes],
        "rs_set_share": [handle, handle],
        "rs_version_count": [handle, sizes],
        "rs_version_has": [handle, data, size, flag],
        "rs_version_count_in": [handle, data, size, data, size, sizes],
        "rs_version_item_in": [handle, data, size, data, size, size, data, size, sizes],
        "rs_version_part": [handle, data, size, data, size, handle],
        "rs_session_open": [handle, number, number, handle],
        "rs_session_push": [handle, data, size, sizes],
        "rs_session_finish": [handle],
        "rs_session_pull": [handle, data, size, sizes],
        "rs_session_state": [handle, numbers, numbers],
        "rs_session_messages": [handle, numbers, numbers],
        "rs_session_learned": [handle, sizes, sizes],
        "rs_session_ours": [handle, size, data, size, sizes],
        "rs_session_theirs": [handle, size, data, size, sizes],
        "rs_session_differing": [handle, number, data, size],
        "rs_shards_read": [handle, data, size, number, number, data, size, handle],
        "rs_shards_insert": [handle, data, size, flag],
        "rs_shards_count": [handle, sizes],
        "rs_shards_share": [handle, number, data, size, data, size, handle],
        "rs_shards_selector": [handle, number, data, size, data, size, data, size, sizes],
        "rs_shards_asked": [handle, data, size, ctypes.c_bool, numbers, sizes, numbers, handle],
    }
    for name, arguments in calls.items():
        call = getattr(library, name)
        call.argtypes, call.restype = arguments, number
    library.rs_free.argtypes, library.rs_free.restype = [_Handle], None
    return library


_LIBRARY = _load()


def _call(name: str, *arguments: object) -> None:
    """Calls the library, and raises what it refuses."""
    number: int = getattr(_LIBRARY, name)(*arguments)
    if number:
        raise Refused(number)


def _bytes(data: Data) -> bytes:
    """The bytes of what holds some; a text holds none."""
    return data if isinstance(data, bytes) else bytes(memoryview(data))


_Self = TypeVar("_Self", bound="_Held")


class _Held:
    """An object of the library, which is given back once, and is used by one call at a time."""

    def __init__(self, handle: _Handle) -> None:
        self._handle = handle
        self._lock = threading.Lock()
        self._free = weakref.finalize(self, _LIBRARY.rs_free, handle)
        # A thread may still use it when the process ends.
        self._free.atexit = False

    def close(self) -> None:
        """Gives it back; a second call does nothing."""
        with self._lock:
            self._free()

    def __enter__(self: _Self) -> _Self:
        return self

    def __exit__(self, *_exception: object) -> None:
        self.close()

    def __reduce__(self) -> NoReturn:
        """It is given back once, so it is neither copied nor pickled."""
        raise TypeError(f"a {type(self).__name__} can be neither copied nor pickled")

    @contextlib.contextmanager
    def _in_use(self) -> Iterator[None]:
        """For calls with its handle: no other thread makes one meanwhile."""
        with self._lock:
            if not self._free.alive:
                raise ValueError(f"this {type(self).__name__} is closed")
            yield

    def _ask(self, name: str, *arguments: object) -> None:
        """Calls the library for this object."""
        with self._in_use():
            _call(name, ctypes.byref(self._handle), *arguments)

    def _make(self, name: str, *arguments: object) -> _Handle:
        """A handle that the library makes of this object."""
        made = _Handle()
        self._ask(name, *arguments, ctypes.byref(made))
        return made

    def _count(self, name: str) -> int:
        count = ctypes.c_size_t()
        self._ask(name, ctypes.byref(count))
        return count.value

    def _says(self, name: str, item: Data) -> bool:
        text, flag = _bytes(item), ctypes.c_bool()
        self._ask(name, text, len(text), ctypes.byref(flag))
        return flag.value
