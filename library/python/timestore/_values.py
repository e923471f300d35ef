"""Records, values and times, and the memory for them, as the library has them."""

import ctypes
import os
import time
from collections.abc import Iterator
from datetime import datetime, timedelta, timezone
from struct import Struct
from typing import NamedTuple

from ._native import NONE, ask, library
from ._refused import BadSlots, BadValue

Fields = tuple[bytes, ...]
Time = datetime | int

_EPOCH = datetime(1970, 1, 1, tzinfo=timezone.utc)
# The bytes of the longest value.
VALUE_MOST = 4097
# The greatest number of a record.
LAST_RECORD = (1 << 64) - 1
# How often a transaction is tried that others were ahead of.
ATTEMPTS = 10
# A row as the library has it, and how many are taken of a cursor at once.
_ROW = Struct("=5Q")
_BLOCK = 256


class Row(NamedTuple):
    """What a record held from one time on, up to another."""

    record: int
    start: int
    end: int
    fields: Fields

    @property
    def moments(self) -> tuple[datetime, datetime]:
        """Start and end as `datetime`s in UTC."""
        return moment(self.start), moment(self.end)


def number_of(number: int, bits: int = 64) -> int:
    """The number, which C would cut to so many bits."""
    if not 0 <= number < 1 << bits:
        raise ValueError(f"{number} is not from 0 to 2^{bits} - 1")
    return number


def key_of(relation: int, record: int) -> tuple[int, int]:
    """The names of a record."""
    return number_of(relation, 16), number_of(record)


def range_of(relation: int, first: int, last: int) -> tuple[int, int, int]:
    """The names of the records of a relation from one on up to another."""
    return number_of(relation, 16), number_of(first), number_of(last)


def micros(time: Time) -> int:
    """Microseconds since 1970 of a time."""
    if isinstance(time, datetime):
        if time.tzinfo is None:
            raise ValueError("a time without its zone")
        time = (time - _EPOCH) // timedelta(microseconds=1)
    return number_of(time)


def moment(time: int) -> datetime:
    """The `datetime` of a time, in UTC. `OverflowError` after the year 9999."""
    return _EPOCH + timedelta(microseconds=time)


def clock() -> int:
    """Microseconds since 1970 by the system's clock."""
    return max(time.time_ns() // 1000, 0)


def commit_time(now: Time | None) -> int:
    """The time that a commit is to have: the one that is given, or else the clock's."""
    return clock() if now is None else micros(now)


def spelled(fields: tuple[bytes, ...]) -> bytes:
    """A value as the bytes that the library has it in."""
    if not 1 <= len(fields) <= 16 or any(len(field) > 255 for field in fields):
        raise BadValue("bad value")
    return bytes([len(fields)]) + b"".join(bytes([len(field)]) + field for field in fields)


def fields_of(value: bytes, at: int = 0) -> Fields:
    """The value of such bytes, from this one on."""
    count, fields = value[at], []
    at += 1
    for _ in range(count):
        end = at + 1 + value[at]
        fields.append(value[at + 1:end])
        at = end
    return tuple(fields)


def make(folder: str | os.PathLike[str], slots: int = 1024) -> None:
    """Makes a store with 16 to 65,536 slots in a folder that is there."""
    if not 16 <= slots <= 65_536:
        raise BadSlots("bad slots")
    ask(library.ts_file_format(os.fsencode(folder), slots))


def make_endless(folder: str | os.PathLike[str], extents: int = 262_144) -> None:
    """Makes a store of the endless profile in a folder that is there.

    Its heap may have so many extents of 8,192 bytes, a multiple of 16 from 64 to 1,048,576. This
    profile is being made: later versions may not read its files.
    """
    if not 0 <= extents < 1 << 32:
        raise BadSlots("bad slots")
    ask(library.ts_file_format_endless(os.fsencode(folder), extents))


class Cursor:
    """What a query has found. It is given back where it is let go."""

    def __init__(self) -> None:
        self.at = ctypes.c_void_p()

    def __del__(self) -> None:
        library.ts_cursor_free(self.at)


def rows_of(cursor: Cursor) -> Iterator[Row]:
    """The rows of a cursor, each made as it is taken. No more than a block of them is held here."""
    rows, count, values = ctypes.c_void_p(), ctypes.c_size_t(), ctypes.c_void_p()
    while library.ts_cursor_next(cursor.at, _BLOCK, rows, count, values) != NONE:
        block = [*_ROW.iter_unpack(ctypes.string_at(rows, _ROW.size * count.value))]
        start, (_, _, _, last, size) = block[0][3], block[-1]
        found = ctypes.string_at((values.value or 0) + start, last + size - start)
        for record, since, until, at, _ in block:
            yield Row(record, since, until, fields_of(found, at - start))


Row.__module__ = micros.__module__ = moment.__module__ = "timestore"
make.__module__ = make_endless.__module__ = "timestore"
