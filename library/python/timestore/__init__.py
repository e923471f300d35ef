"""A store of records that keeps every version, in files of a folder and in this process.

    >>> import timestore
    >>> timestore.make("reg")
    >>> with timestore.Store("reg") as store:
    ...     first = store.put(1, 7, b"a", label=9)
    ...     with store.begin(label=9) as txn:
    ...         txn.put(1, 7, b"b")
    ...     store.get(1, 7), store.at(1, 7, first)
    ((b'b',), (b'a',))

A record is named by its relation (0 to 65,535) and its number (0 to 2^64 - 1); its value is a
tuple of 1 to 16 fields of at most 255 bytes. A time is a `datetime` with its zone, or microseconds
since 1970 as an `int`; what is given out is an `int`, which `moment` makes a `datetime` of. A
number or a time out of range raises `ValueError`.

A commit has the time of the system's clock, or the one that is given as `now`; where that is not
after the last commit, it comes a microsecond after it.

A `Store` stays on the thread that opened it, and so does all that it gave out: a call on another
thread raises `RuntimeError`. What is let go there is given back with the owner's next call. A
`SharedStore` is for any thread. In the child of a fork the store is closed. It needs Python 3.11
and `libtimestore.so`: of the path in the environment's `TIMESTORE_LIBRARY`, in this folder, where
both were installed, or where the system looks for libraries.
"""

import ctypes
import os
import threading
import weakref
from collections import deque
from collections.abc import Callable, Iterator
from enum import IntEnum
from typing import Any, Self, cast

from ._common import CommonStore as _CommonStore
from ._common import CommonTransaction as _CommonTransaction
from ._common import CommonView as _CommonView
from ._common import Given as _Given
from ._native import NEEDS_ARCHIVE as _NEEDS_ARCHIVE
from ._native import NONE as _NONE
from ._native import READ_ONLY as _READ_ONLY
from ._native import Handle as _Handle
from ._native import Info as _Info
from ._native import ask as _answer
from ._native import library as _library
from ._native import note_cause as _note_cause
from ._refused import FAULTS as _FAULTS
from ._refused import (
    AlreadyOpen,
    ArchiveFull,
    BadSlots,
    BadValue,
    BeforeKept,
    Busy,
    Cached,
    ClockEnd,
    Closed,
    Conflict,
    Damaged,
    EmptyInterval,
    Failed,
    HeapFull,
    InDoubt,
    InUse,
    JobBusy,
    Locked,
    Missing,
    NeedsArchive,
    NoMemory,
    NotAStore,
    NotGrowable,
    NothingToDo,
    NotYet,
    Occupied,
    Pending,
    Refused,
    StatusFull,
    Stranger,
    System,
    TooManyKeys,
    Unknown,
    Waiting,
    WrongProfile,
)
from ._shared import SharedStore, SharedTicket, SharedTransaction, SharedView
from ._values import VALUE_MOST as _VALUE_MOST
from ._values import Fields, Row, Time, make, make_endless, micros, moment
from ._values import fields_of as _fields
from ._values import key_of as _key
from ._values import number_of as _number

__version__ = "1.0.0"

__all__ = [
    "AlreadyOpen",
    "ArchiveFull",
    "BadSlots",
    "BadValue",
    "BeforeKept",
    "Busy",
    "Cached",
    "ClockEnd",
    "Closed",
    "Conflict",
    "Damaged",
    "EmptyInterval",
    "Failed",
    "Fields",
    "HeapFull",
    "InDoubt",
    "InUse",
    "JobBusy",
    "Locked",
    "Missing",
    "NeedsArchive",
    "NoMemory",
    "NotAStore",
    "NotGrowable",
    "NotYet",
    "NothingToDo",
    "Occupied",
    "Pending",
    "Refused",
    "Row",
    "SharedStore",
    "SharedTicket",
    "SharedTransaction",
    "SharedView",
    "StatusFull",
    "Step",
    "Store",
    "Stranger",
    "System",
    "Ticket",
    "Time",
    "TooManyKeys",
    "Transaction",
    "Unknown",
    "View",
    "Waiting",
    "WrongProfile",
    "library_version",
    "make",
    "make_endless",
    "micros",
    "moment",
]

# How many words of a call are the room for a value or for times, or the cursor, and what it tells.
_VALUE_WORDS, _ROWS_WORDS, _TIMES_WORDS = 3, 2, 3
# What is lent for an archive of no bytes.
_NOTHING = ctypes.create_string_buffer(1)


class Step(IntEnum):
    """What a step of a group or of a job did."""

    IDLE = 0
    WROTE = 1
    SYNCED = 2
    BODY_WRITTEN = 3
    BODY_SYNCED = 4
    GATE_WRITTEN = 5
    PUBLISHED = 6  # of a job: it is done
    KEPT_WRITTEN = 7
    KEPT_SYNCED = 8
    ZEROS_WRITTEN = 9
    ZEROS_SYNCED = 10
    ENTRY_WRITTEN = 12
    GATE_CLOSED = 13
    ROLL_WRITTEN = 14
    ROLL_SYNCED = 15
    ROOT_WRITTEN = 16
    ROOT_SYNCED = 17
    TURN_WRITTEN = 18


def library_version() -> str:
    """The version of the shared library that is loaded."""
    version: bytes = _library.timestore_version()
    return version.decode()


class Store(_CommonStore["Transaction", "View"]):
    """An open store. As a context it is closed at its end."""

    _has_files = False
    _file: ctypes.c_void_p | None
    _let_go: deque[tuple[Callable[..., int], int]]

    def __new__(cls, *_: Any, **__: Any) -> Self:
        """What the store of each host has.

        That of another host than files derives from this class. It makes `_info`, `_value`, `_owner`,
        `_file` and `_at`, and has an `_end`, an `_archive`, a `flush`, `pump`, `job` and `job_pump`.
        """
        store = super().__new__(cls)
        store._let_go = deque()
        return store

    def __init__(self, folder: str | os.PathLike[str]) -> None:
        self._info = _Info()
        self._value = ctypes.create_string_buffer(_VALUE_MOST)
        self._owner = threading.get_ident()
        self._file = None
        file = ctypes.c_void_p()
        _answer(_library.ts_file_open(os.fsencode(folder), file, self._info), self._info)
        self._file = file
        self._has_files = True
        self._at = _library.ts_file_store(file)
        _opened.add(self)

    @property
    def _handle(self) -> Any:
        """The library's handle. A call lets other threads run, so none of them may make one."""
        if threading.get_ident() != self._owner:
            raise RuntimeError("a store stays on the thread that opened it")
        while self._let_go:
            function, number = self._let_go.popleft()
            function(self._at, number)
        return self._at

    def _give_back(self, function: Callable[..., int], number: int) -> None:
        """Gives a transaction, ticket or view back, on another thread with the owner's next call."""
        if self._file is None:
            return
        if threading.get_ident() == self._owner:
            function(self._at, number)
        else:
            self._let_go.append((function, number))

    def close(self) -> None:
        """Ends the store: what waits is not published."""
        if self._file is not None:
            self._of_file()
            self._end()

    def _end(self) -> None:
        _library.ts_file_close(self._file)
        self._forget()

    def _forget(self) -> None:
        self._file = None
        self._at = ctypes.pointer(_Handle())

    def __del__(self) -> None:
        # Nothing refers to the store any more, so no other thread is in a call of it.
        if getattr(self, "_file", None) is not None:
            self._end()

    def _ask(self, function: Callable[..., int], *args: Any) -> int:
        return _answer(function(self._handle, *args, self._info), self._info, self._note_failure)

    def _note_failure(self, refusal: Refused) -> None:
        """Notes why the store failed, where files are its host."""
        if self._has_files:
            _note_cause(refusal, self._file)

    def _of_file(self) -> ctypes.c_void_p:
        if self._file is None:
            raise Closed("no store is open")
        _ = self._handle
        return self._file

    def _ask_file(self, function: Callable[..., int], *args: Any) -> int:
        info = self._info if self._info in args else None
        return _answer(function(self._of_file(), *args), info, self._note_failure)

    def _info_of_call(self) -> _Info:
        return self._info

    def _last(self) -> _Info:
        self._ask(_library.ts_last)
        return self._info

    def begin(self, label: int = 0, now: Time | None = None) -> "Transaction":
        """A transaction on what is published now. As a context it is committed at its end."""
        self._ask(_library.ts_begin)
        return Transaction(self, self._info.a, self._info.b, label, now)

    def put(
        self, relation: int, record: int, *fields: bytes, label: int = 0, now: Time | None = None
    ) -> int:
        """Commits one value; the commit's time."""
        with self.begin(label, now) as txn:
            txn.put(relation, record, *fields)
        return cast(int, txn.time)  # something was written

    def delete(
        self, relation: int, record: int, *, label: int = 0, now: Time | None = None
    ) -> int:
        """Commits the deletion of a record that has a value; the commit's time."""
        with self.begin(label, now) as txn:
            txn.delete(relation, record)
        return cast(int, txn.time)  # something was written

    def get(self, relation: int, record: int) -> Fields | None:
        """The value after the last commit; None where there is none."""
        with self.view() as view:
            return view.get(relation, record)

    def flush(self) -> None:
        """Publishes what waits."""
        self._ask_file(_library.ts_file_flush)

    def pump(self) -> tuple[Step, int]:
        """One step of the group that is written: what it did, how many commits are published."""
        self._ask_file(_library.ts_file_pump, self._info)
        return Step(self._info.a), self._info.b

    def view(self) -> "View":
        """What is published now, which later commits do not change."""
        last = self.last
        self._ask(_library.ts_view)
        return View(self, self._info.a, last)

    def times_of(self, label: int) -> list[int]:
        """The times of the commits with a label, rising.

        Where the log lies in the heap the names of those up to its last reclaim are read in the archive,
        and what refuses `at` may refuse this: `System`, `Damaged`, `NoMemory`.
        """
        return self._times(self._lending(_library.ts_times_of, _TIMES_WORDS), label)

    def archive(self, upto: Time) -> None:
        """Copies what ended by a time into the archive."""
        self.archive_start(upto)
        self.job()

    def archive_start(self, upto: Time) -> None:
        """Begins that copy, of which `job_pump` takes each step."""
        self._ask(_library.ts_archive, micros(upto))

    def reclaim(self) -> None:
        """Gives up in the heap and in memory what is archived."""
        self.reclaim_start()
        self.job()

    def reclaim_start(self) -> None:
        """Begins that, of which `job_pump` takes each step."""
        self._ask(_library.ts_reclaim)

    def floor_of(self, relation: int, time: Time) -> None:
        """Raises the floor of a relation to a time: of it views from then on answer `BeforeKept` at
        an earlier one."""
        self.floor_of_start(relation, time)
        self.job()

    def floor_of_start(self, relation: int, time: Time) -> None:
        """Begins that, of which `job_pump` takes each step."""
        self._ask(_library.ts_floor_of, _number(relation, 16), micros(time))

    def raise_floor(self, time: Time) -> None:
        """The same of all relations, in a store that an earlier timestore made."""
        self.floor_start(time)
        self.job()

    def floor_start(self, time: Time) -> None:
        """Begins that, of which `job_pump` takes each step."""
        self._ask(_library.ts_floor, micros(time))

    def grow(self) -> None:
        """Makes 256 slots more."""
        self.grow_start()
        self.job()

    def grow_start(self) -> None:
        """Begins that, of which `job_pump` takes each step."""
        self._ask(_library.ts_grow)

    def job(self) -> None:
        """All steps of the job that is being made."""
        self._ask_file(_library.ts_file_job)

    def job_pump(self) -> Step:
        """One step of the job that is being made: what it did."""
        self._ask_file(_library.ts_file_job_pump, self._info)
        return Step(self._info.a)

    def _archive(self) -> tuple[ctypes.c_void_p, ctypes.c_size_t]:
        """The archive, which stays in memory until the next such call."""
        at, size = ctypes.c_void_p(), ctypes.c_size_t()
        self._ask_file(_library.ts_file_archive, at, size)
        return at, size

    def _lending(self, function: Callable[..., int], room_words: int) -> Callable[..., int]:
        """The call of a query, whose last words are its room, with the archive before them.

        The archive is lent only where the query needs it.
        """

        def call(*words: Any) -> int:
            query, room = words[:-room_words], words[-room_words:]
            code = function(*query, _NOTHING, 0, *room)
            if code == _NEEDS_ARCHIVE:
                code = function(*query, *self._archive(), *room)
            return code

        return call

    def _read(self, function: Callable[..., int], *args: Any) -> Fields | None:
        code = self._ask(function, *args, self._value, _VALUE_MOST)
        return None if code == _NONE else _fields(ctypes.string_at(self._value, self._info.a))

    def _rows(
        self, function: Callable[..., int], *args: int, lends: bool = False
    ) -> Iterator[Row]:
        if lends:
            function = self._lending(function, _ROWS_WORDS)
        return super()._rows(function, *args)


_opened: weakref.WeakSet[Store] = weakref.WeakSet()


def _forget_all() -> None:
    """In the child of a fork, which would write the files while its parent does."""
    for store in _opened:
        store._forget()


os.register_at_fork(after_in_child=_forget_all)


class Ticket(_Given[Store]):
    """A commit that waits, or is published. One that is let go is given up."""

    _back = "ts_give_up"

    def redeem(self) -> int | None:
        """The time of the commit once it is published, else None. Then the ticket is spent."""
        number, handle = self._open(), self._store._handle
        self._number = None
        info = self._store._info
        code = _answer(_library.ts_redeem(handle, number, info), info, self._store._note_failure)
        if code == Waiting.code:
            self._number = info.a
            return None
        return info.a

    def give_up(self) -> None:
        """Spends the ticket; the commit goes its way."""
        self._end()


class Transaction(_CommonTransaction[Store]):
    """An open transaction: what it reads is its snapshot with its own writes over it.

    As a context it is committed at its end, or given up where an exception ends it; so it is too
    where it is let go. `snapshot` is the time of its snapshot, `time` that of its commit.
    """

    _back, _calls, _cursors = "ts_abort", "ts_", "ts_cursor_"

    def submit(self, label: int | None = None, now: Time | None = None) -> Ticket | None:
        """Queues the writes as a commit; None where there are none. The transaction is over."""
        words = self._label_and_time(label, now)
        handle = self._store._handle
        number, self._number = self._open(), None
        info = self._store._info
        code = _library.ts_submit(handle, number, *words, info)
        if _answer(code, info, self._store._note_failure) == _READ_ONLY:
            return None
        return Ticket(self._store, info.a)

    def commit(self, label: int | None = None, now: Time | None = None) -> int | None:
        """Submits, publishes, and gives the commit's time; None where nothing was written.

        `InDoubt` where the device failed on the way, `Waiting` where memory was refused there; any
        other refusal says that nothing was committed.
        """
        ticket = self.submit(label, now)
        if ticket is None:
            return None
        refusal = None
        try:
            self._store.flush()
        except Refused as why:  # the ticket says what became of the commit
            refusal = why
        self.time = ticket.redeem()
        if self.time is None:
            waiting = Waiting("waiting")
            waiting.ticket = ticket
            raise waiting from refusal
        return self.time


class View(_CommonView[Store]):
    """What was published at one moment. As a context, or let go, it is given back.

    `last` is the time of the last commit that it has, 0 for none.
    """

    _back, _calls, _cursors = "ts_end", "ts_", "ts_cursor_"

    def _value_at(self, *key_and_time: int) -> Fields | None:
        call = self._store._lending(_library.ts_at, _VALUE_WORDS)
        return self._store._read(call, self._open(), *key_and_time)

    def _rows(self, name: str, *args: int) -> Iterator[Row]:
        return self._store._rows(self._cursor(name), self._open(), *args, lends=True)

    def get(self, relation: int, record: int) -> Fields | None:
        """The value of a record after the view's last commit, None where it had none."""
        return self.recent(relation, record, self.last)

    def recent(self, relation: int, record: int, time: Time) -> Fields | None:
        """`at` from memory alone: `NeedsArchive` at a time before the view's last reclaim."""
        key, at = _key(relation, record), micros(time)
        return self._store._read(_library.ts_recent, self._open(), *key, at)

    def end(self) -> None:
        """Gives the view back."""
        if self._store._file is not None:
            self._end()
        self._number = None
