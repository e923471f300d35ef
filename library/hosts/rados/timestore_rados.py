"""A store of records that keeps every version, in objects of a Ceph pool and in this process.

    >>> import timestore_rados
    >>> place = timestore_rados.Place(pool="store", store="reg", user="store")
    >>> timestore_rados.make(place)
    >>> with timestore_rados.Store(place) as store:
    ...     with store.begin(label=9) as txn:
    ...         txn.put(1, 7, b"a")
    ...     store.at(1, 7, txn.time)
    (b'a',)

A store is a `timestore.Store` and has all that it has. While it is open it is the only owner of its
objects. Whoever takes it over has the cluster refuse all that this one writes from then on, which
raises `Fenced`; its views answer on as long as they need no archive.

It needs `libtimestore_rados.so`: of the path in the environment's `TIMESTORE_RADOS_LIBRARY`, beside
this file, where both were installed, or where the system looks for libraries.
"""

import ctypes
import os
import threading
from collections.abc import Callable, Iterator
from dataclasses import dataclass
from pathlib import Path
from typing import Any, NamedTuple, NoReturn

import timestore

MEBIBYTE = 1 << 20
# What `timestore` has for its hosts alone.
_Info, _Handle, _FAULTS = (getattr(timestore, name) for name in ("_Info", "_Handle", "_FAULTS"))


class Fenced(timestore.Failed, code=-120):
    """Another host has taken the store over: nothing is written any more."""


class Cause(NamedTuple):
    """Why the cluster or the system refused a call: what was asked, and `errno`, 0 where no call was made."""

    code: int
    errno: int
    text: str


@dataclass(frozen=True)
class Place:
    """Where a store lies and how it is opened.

    With a `folder` status and heap are files of it, and the archive alone is in the pool. `cache` is
    the most bytes of the archive that are kept in memory, 0 for all. An owner that has said nothing
    for `lease` seconds may be replaced, and with `take_over` any owner is.
    """

    pool: str
    store: str
    user: str
    conf: str | os.PathLike[str] | None = None
    folder: str | os.PathLike[str] | None = None
    cache: int = 64 * MEBIBYTE
    lease: int = 30
    take_over: bool = False


class _Place(ctypes.Structure):
    _fields_ = [
        *((name, ctypes.c_char_p) for name in ("conf", "user", "pool", "store", "folder")),
        ("cache", ctypes.c_uint64),
        ("lease", ctypes.c_uint32),
        ("take_over", ctypes.c_bool),
    ]


class _Cause(ctypes.Structure):
    code: int
    error: int
    text: bytes
    _fields_ = [("code", ctypes.c_int32), ("error", ctypes.c_int), ("text", ctypes.c_char * 240)]


def _prototypes() -> dict[str, list[Any]]:
    host, info, size = ctypes.c_void_p, ctypes.POINTER(_Info), ctypes.POINTER(ctypes.c_size_t)
    place, out = ctypes.POINTER(_Place), ctypes.POINTER(ctypes.c_void_p)
    return {
        "ts_rados_format": [place, ctypes.c_uint32],
        "ts_rados_format_endless": [place, ctypes.c_uint32],
        "ts_rados_open": [place, out, info],
        "ts_rados_error": [host, ctypes.POINTER(_Cause)],
        "ts_rados_pump": [host, info],
        "ts_rados_job_pump": [host, info],
        "ts_rados_archive": [host, out, size],
        "ts_rados_lent": [host],
        "ts_rados_flush": [host],
        "ts_rados_job": [host],
    }


def _path() -> str:
    """Where the library is: named, beside this file, installed with it, or known to the system."""
    if named := os.environ.get("TIMESTORE_RADOS_LIBRARY"):
        return named
    folder = Path(__file__).resolve().parent
    for found in (folder / "libtimestore_rados.so", folder / "../../../lib/libtimestore_rados.so.0"):
        if found.exists():
            return str(found)
    return "libtimestore_rados.so.0"


def _load() -> ctypes.CDLL:
    """The library, which finds in this process the `libtimestore.so` that `timestore` has loaded."""
    library = ctypes.CDLL(_path())
    for name, types in _prototypes().items():
        function = getattr(library, name)
        function.argtypes, function.restype = types, ctypes.c_int32
    library.ts_rados_text.argtypes, library.ts_rados_text.restype = [ctypes.c_int32], ctypes.c_char_p
    library.ts_rados_store.argtypes = [ctypes.c_void_p]
    library.ts_rados_store.restype = ctypes.POINTER(_Handle)
    library.ts_rados_close.argtypes, library.ts_rados_close.restype = [ctypes.c_void_p], None
    return library


_library = _load()
# Refusals that come with a cause.
_CAUSED = {fault.code for fault in (timestore.System, timestore.Locked, timestore.NotAStore, timestore.Occupied, Fenced)}


def _cause(host: ctypes.c_void_p | None = None) -> Cause | None:
    """The cause of the device call that a store was refused, or else of this thread's last refusal; None where there was none."""
    found = _Cause()
    if _library.ts_rados_error(host, found) != 0:
        return None
    return Cause(found.code, found.error, found.text.decode(errors="replace"))


def _refused(code: int, info: Any = None) -> NoReturn:
    text = _library.ts_rados_text(code).decode()
    if code in _CAUSED and (cause := _cause()):
        text = f"{text}: {cause.text}"
    first, second = (info.a, info.b) if info else (0, 0)
    raise _FAULTS.get(code, timestore.Refused)(text, first, second)


def _c_place(place: Place) -> _Place:
    def text(value: str | os.PathLike[str] | None) -> bytes | None:
        return None if value is None else os.fsencode(value)

    return _Place(
        *(text(value) for value in (place.conf, place.user, place.pool, place.store, place.folder)),
        place.cache,
        place.lease,
        place.take_over,
    )


def make(place: Place, slots: int = 1024) -> None:
    """Makes a store with 16 to 65,536 slots where the place has none. Pool and folder are there."""
    code = _library.ts_rados_format(_c_place(place), timestore._number(slots, 32))
    if code < 0:
        _refused(code)


def make_endless(place: Place, extents: int = 262_144) -> None:
    """The same of the endless profile, as `timestore.make_endless`."""
    code = _library.ts_rados_format_endless(_c_place(place), timestore._number(extents, 32))
    if code < 0:
        _refused(code)


class Store(timestore.Store):
    """An open store, of which this is the only owner. As a context it is closed at its end."""

    def __init__(self, place: Place) -> None:
        self._info = _Info()
        self._value = ctypes.create_string_buffer(timestore._VALUE_MOST)
        self._owner = threading.get_ident()
        self._file: ctypes.c_void_p | None = None
        host = ctypes.c_void_p()
        code = _library.ts_rados_open(_c_place(place), host, self._info)
        if code < 0:
            _refused(code, self._info)
        self._file = host
        self._at = _library.ts_rados_store(host)
        timestore._opened.add(self)

    def _end(self) -> None:
        _library.ts_rados_close(self._file)
        self._forget()

    @property
    def cause(self) -> Cause | None:
        """Of the device call that was refused, since which the store is failed; None where none was."""
        return _cause(self._of_file())

    def _note_failure(self, refusal: timestore.Refused) -> None:
        """Notes of a refusal why the store failed."""
        if cause := self.cause:
            refusal.add_note(cause.text)

    def _of_host(self, function: Callable[..., int], *args: Any) -> None:
        """A call of the host. Where it failed since another has the store, that is told."""
        code = function(self._of_file(), *args)
        if code == timestore.Failed.code and (cause := self.cause) and cause.code == Fenced.code:
            raise Fenced(f"{_library.ts_rados_text(Fenced.code).decode()}: {cause.text}")
        if code < 0:
            _refused(code, self._info)

    def flush(self) -> None:
        """Publishes what waits."""
        self._of_host(_library.ts_rados_flush)

    def pump(self) -> tuple[timestore.Step, int]:
        """One step of the group that is written: what it did, how many commits are published."""
        self._of_host(_library.ts_rados_pump, self._info)
        return timestore.Step(self._info.a), self._info.b

    def job(self) -> None:
        """All steps of the job that is being made."""
        self._of_host(_library.ts_rados_job)

    def job_pump(self) -> timestore.Step:
        """One step of the job that is being made: what it did."""
        self._of_host(_library.ts_rados_job_pump, self._info)
        return timestore.Step(self._info.a)

    def refuse(self, call: int) -> NoReturn:
        """This host has no calls for tests."""
        raise NotImplementedError

    def _archive(self) -> tuple[ctypes.c_void_p, ctypes.c_size_t]:
        """The archive, whose blocks come from the pool as a query reads them."""
        at, size = ctypes.c_void_p(), ctypes.c_size_t()
        self._of_host(_library.ts_rados_archive, at, size)
        return at, size

    def _read(self, function: Callable[..., int], *args: Any) -> timestore.Fields | None:
        try:
            return super()._read(function, *args)
        finally:
            self._of_host(_library.ts_rados_lent)

    def _rows(
        self, function: Callable[..., int], *args: int, lends: bool = False
    ) -> Iterator[timestore.Row]:
        try:
            return super()._rows(function, *args, lends=lends)
        finally:
            self._of_host(_library.ts_rados_lent)

    def _times(self, function: Callable[..., int], label: int) -> list[int]:
        try:
            return super()._times(function, label)
        finally:
            self._of_host(_library.ts_rados_lent)
