"""libtimestore.so: where it is, its types, its calls, and what they refuse."""

import ctypes
import os
from collections.abc import Callable
from pathlib import Path
from typing import Any

from ._refused import FAULTS, Cached, Failed, InDoubt, Refused, System

# The number in the shared library's name: that of the interface that is called here.
_LIBRARY = "libtimestore.so.1"
# Codes that are no refusals of a caller.
NONE, READ_ONLY, SMALL, NEEDS_ARCHIVE = 1, 3, -4, -26


class Handle(ctypes.Structure):
    _fields_ = [("at", ctypes.c_void_p), ("full", ctypes.c_bool)]


class Info(ctypes.Structure):
    a: int
    b: int
    _fields_ = [("a", ctypes.c_uint64), ("b", ctypes.c_uint64)]


class RawPolicy(ctypes.Structure):
    _fields_ = [("every", ctypes.c_uint64), ("keep", ctypes.c_uint64), ("grows", ctypes.c_bool)]


class _Cause(ctypes.Structure):
    call: bytes
    file: bytes
    number: int
    _fields_ = [("call", ctypes.c_char_p), ("file", ctypes.c_char_p), ("number", ctypes.c_int)]


def _prototypes() -> dict[str, list[Any]]:
    u64, u16, size, buf = ctypes.c_uint64, ctypes.c_uint16, ctypes.c_size_t, ctypes.c_void_p
    handle, info, text = ctypes.POINTER(Handle), ctypes.POINTER(Info), ctypes.c_char_p
    out = [buf, size, info]
    lent = [buf, size]
    made = [ctypes.POINTER(buf), info]
    return {
        "ts_last": [handle, info],
        "ts_begin": [handle, info],
        "ts_put": [handle, u64, u16, u64, text, size],
        "ts_delete": [handle, u64, u16, u64],
        "ts_get": [handle, u64, u16, u64, *out],
        "ts_submit": [handle, u64, u64, u64, info],
        "ts_abort": [handle, u64],
        "ts_redeem": [handle, u64, info],
        "ts_give_up": [handle, u64],
        "ts_view": [handle, info],
        "ts_end": [handle, u64],
        "ts_recent": [handle, u64, u16, u64, u64, *out],
        "ts_at": [handle, u64, u16, u64, u64, *lent, *out],
        "ts_cursor_of": [handle, u64, u16, u64, u64, *made],
        "ts_cursor_at": [handle, u64, u16, u64, u64, u64, *lent, *made],
        "ts_cursor_between": [handle, u64, u16, u64, u64, u64, u64, *lent, *made],
        "ts_cursor_next": [buf, size, ctypes.POINTER(buf), ctypes.POINTER(size), ctypes.POINTER(buf)],
        "ts_times_of": [handle, u64, *lent, *out],
        "ts_archive": [handle, u64, info],
        "ts_reclaim": [handle, info],
        "ts_floor": [handle, u64, info],
        "ts_floor_of": [handle, u16, u64, info],
        "ts_grow": [handle, info],
        "ts_file_archive": [buf, ctypes.POINTER(buf), ctypes.POINTER(size)],
        "ts_file_format": [text, ctypes.c_uint32],
        "ts_file_format_endless": [text, ctypes.c_uint32],
        "ts_file_open": [text, ctypes.POINTER(buf), info],
        "ts_file_error": [buf, ctypes.POINTER(_Cause)],
        "ts_file_pump": [buf, info],
        "ts_file_job_pump": [buf, info],
        "ts_file_flush": [buf],
        "ts_file_job": [buf],
    }


def _shared_prototypes() -> dict[str, list[Any]]:
    u64, u16, size, buf = ctypes.c_uint64, ctypes.c_uint16, ctypes.c_size_t, ctypes.c_void_p
    store, info, text = buf, ctypes.POINTER(Info), ctypes.c_char_p
    out = [buf, size, info]
    made = [ctypes.POINTER(buf), info]
    return {
        "ts_shared_open": [text, ctypes.POINTER(store), info],
        "ts_shared_close": [store],
        "ts_shared_error": [store, ctypes.POINTER(_Cause)],
        "ts_shared_last": [store, info],
        "ts_shared_put": [store, u16, u64, text, size, u64, u64, info],
        "ts_shared_delete": [store, u16, u64, u64, u64, info],
        "ts_shared_get": [store, u16, u64, *out],
        "ts_shared_begin": [store, info],
        "ts_shared_txn_put": [store, u64, u16, u64, text, size],
        "ts_shared_txn_delete": [store, u64, u16, u64],
        "ts_shared_txn_get": [store, u64, u16, u64, *out],
        "ts_shared_commit": [store, u64, u64, u64, info],
        "ts_shared_resume": [store, u64, info],
        "ts_shared_give_up": [store, u64],
        "ts_shared_abort": [store, u64],
        "ts_shared_view": [store, info],
        "ts_shared_end": [store, u64],
        "ts_shared_at": [store, u64, u16, u64, u64, *out],
        "ts_shared_cursor_of": [store, u64, u16, u64, u64, *made],
        "ts_shared_cursor_at": [store, u64, u16, u64, u64, u64, *made],
        "ts_shared_cursor_between": [store, u64, u16, u64, u64, u64, u64, *made],
        "ts_shared_times_of": [store, u64, buf, size, info],
        "ts_shared_archive": [store, u64, info],
        "ts_shared_reclaim": [store, info],
        "ts_shared_floor_of": [store, u16, u64, info],
        "ts_shared_floor": [store, u64, info],
        "ts_shared_grow": [store, info],
        "ts_shared_job": [store],
        "ts_shared_vacuum": [store, ctypes.POINTER(RawPolicy)],
        "ts_shared_vacuumed": [store, info],
    }


def _path() -> str:
    """Where the library is: named, beside this file, installed with it, or known to the system."""
    if named := os.environ.get("TIMESTORE_LIBRARY"):
        return named
    folder = Path(__file__).resolve().parent
    places = (folder / _LIBRARY, folder / "libtimestore.so", folder / "../../../../lib" / _LIBRARY)
    return next((str(place) for place in places if place.exists()), _LIBRARY)


def _load() -> ctypes.CDLL:
    loaded = ctypes.CDLL(_path())
    for name, types in (_prototypes() | _shared_prototypes()).items():
        function = getattr(loaded, name)
        function.argtypes, function.restype = types, ctypes.c_int32
    loaded.ts_text.argtypes, loaded.ts_text.restype = [ctypes.c_int32], ctypes.c_char_p
    loaded.timestore_version.argtypes, loaded.timestore_version.restype = [], ctypes.c_char_p
    loaded.ts_file_store.argtypes = [ctypes.c_void_p]
    loaded.ts_file_store.restype = ctypes.POINTER(Handle)
    loaded.ts_file_close.argtypes, loaded.ts_file_close.restype = [ctypes.c_void_p], None
    loaded.ts_cursor_free.argtypes, loaded.ts_cursor_free.restype = [ctypes.c_void_p], None
    loaded.ts_shared_free.argtypes, loaded.ts_shared_free.restype = [ctypes.c_void_p], None
    return loaded


library = _load()


def _note(refusal: Refused, tell: Callable[..., int], of: ctypes.c_void_p | None) -> None:
    cause = _Cause()
    if tell(of, cause) != 0:
        return
    refusal.call, refusal.file, refusal.errno = cause.call.decode(), cause.file.decode(), cause.number
    refusal.add_note(f"{refusal.call} of {refusal.file or 'the folder'}: {os.strerror(cause.number)}")
    if isinstance(refusal, System):
        refusal.args = (os.strerror(cause.number),)


def note_cause(refusal: Refused, file: ctypes.c_void_p | None) -> None:
    """Notes of a refusal what the system refused: to a file, or for None the last call of this thread."""
    _note(refusal, library.ts_file_error, file)


def note_shared_cause(refusal: Refused, store: ctypes.c_void_p) -> None:
    """The same of a store that threads share."""
    _note(refusal, library.ts_shared_error, store)


def ask(
    code: int, info: Info | None = None, failed: Callable[[Refused], None] | None = None
) -> int:
    """The code of an answer; raises what a refusal is named. `failed` notes why a store failed."""
    if code >= 0 and code != InDoubt.code:
        return code
    first, second = (info.a, info.b) if info else (0, 0)
    refusal = FAULTS.get(code, Refused)(library.ts_text(code).decode(), first, second)
    if isinstance(refusal, (System, Cached)):
        note_cause(refusal, None)
    elif failed and isinstance(refusal, (Failed, InDoubt)):
        failed(refusal)
    raise refusal
