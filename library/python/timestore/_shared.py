"""A store that any thread may call."""

import ctypes
import os
from collections.abc import Callable
from typing import Any, cast

from ._common import CommonStore, CommonTransaction, CommonView, Given
from ._native import NONE, READ_ONLY, Info, RawPolicy, ask, library, note_shared_cause
from ._refused import Closed, Refused, Waiting
from ._values import (
    VALUE_MOST,
    Fields,
    Time,
    commit_time,
    fields_of,
    key_of,
    micros,
    number_of,
    spelled,
)

# How many buffers a store keeps for its next queries.
_KEPT = 16


class SharedStore(CommonStore["SharedTransaction", "SharedView"]):
    """An open store that any thread may call. As a context it is closed at its end.

    Commits of several threads are written together, up to 16 with the syncs of one. Calls let other threads
    run; queries are made one at a time. Transactions and views may go from thread to thread.
    """

    _open: ctypes.c_void_p | None = None  # until nothing refers to the store

    def __init__(self, folder: str | os.PathLike[str]) -> None:
        self._values: list[Any] = []
        store, info = ctypes.c_void_p(), Info()
        ask(library.ts_shared_open(os.fsencode(folder), store, info), info)
        self._open = store

    def close(self) -> None:
        """Closes the store, once the calls that are being made have returned.

        All others, on any thread, are refused with `Closed`.
        """
        if self._open is not None:
            library.ts_shared_close(self._open)  # refused where it is closed

    def __del__(self) -> None:
        # Nothing refers to the store any more, so no thread is in a call of it.
        if self._open is not None:
            library.ts_shared_free(self._open)
            self._open = None

    @property
    def _handle(self) -> ctypes.c_void_p:
        if self._open is None:
            raise Closed("no store is open")
        return self._open

    def _note_failure(self, refusal: Refused) -> None:
        note_shared_cause(refusal, self._handle)

    def _info_of_call(self) -> Info:
        return Info()

    def _ask(self, function: Callable[..., int], *args: Any) -> tuple[int, Info]:
        """What a call answers and tells, whose last word is what it tells."""
        info = Info()
        return ask(function(self._handle, *args, info), info, self._note_failure), info

    def _give_back(self, function: Callable[..., int], number: int) -> None:
        if self._open is not None:
            function(self._open, number)

    def _last(self) -> Info:
        return self._ask(library.ts_shared_last)[1]

    def begin(self, label: int = 0, now: Time | None = None) -> "SharedTransaction":
        """A transaction on what is published now. As a context it is committed at its end."""
        _, info = self._ask(library.ts_shared_begin)
        return SharedTransaction(self, info.a, info.b, label, now)

    def _committed(self, function: Callable[..., int], *args: Any) -> int | None:
        """The time of a commit, None where nothing was written."""
        code, info = self._ask(function, *args)
        if code == Waiting.code:
            waiting = Waiting("waiting")
            waiting.ticket = SharedTicket(self, info.a)
            raise waiting
        return None if code == READ_ONLY else info.a

    def put(
        self, relation: int, record: int, *fields: bytes, label: int = 0, now: Time | None = None
    ) -> int:
        """Commits one value; the commit's time, once it outlasts a stop."""
        value, time = spelled(fields), commit_time(now)
        args = (*key_of(relation, record), value, len(value), number_of(label), time)
        return cast(int, self._committed(library.ts_shared_put, *args))  # something was written

    def delete(
        self, relation: int, record: int, *, label: int = 0, now: Time | None = None
    ) -> int:
        """Commits the deletion of a record that has a value; the commit's time."""
        args = (*key_of(relation, record), number_of(label), commit_time(now))
        return cast(int, self._committed(library.ts_shared_delete, *args))  # something was written

    def get(self, relation: int, record: int) -> Fields | None:
        """The value after the last commit; None where there is none."""
        return self._read(library.ts_shared_get, *key_of(relation, record))

    def view(self) -> "SharedView":
        """What is published now, which later commits do not change."""
        _, info = self._ask(library.ts_shared_view)
        return SharedView(self, info.a, info.b)

    def times_of(self, label: int) -> list[int]:
        """The times of the commits with a label, rising, as `Store.times_of`."""
        return self._times(library.ts_shared_times_of, label)

    def archive(self, upto: Time) -> None:
        """Copies what ended by a time into the archive, while commits go on, as all jobs do.

        One job is made at a time: `JobBusy`.
        """
        self._ask(library.ts_shared_archive, micros(upto))

    def reclaim(self) -> None:
        """Gives up in the heap and in memory what is archived."""
        self._ask(library.ts_shared_reclaim)

    def floor_of(self, relation: int, time: Time) -> None:
        """Raises the floor of a relation to a time: of it views from then on answer `BeforeKept` at
        an earlier one."""
        self._ask(library.ts_shared_floor_of, number_of(relation, 16), micros(time))

    def raise_floor(self, time: Time) -> None:
        """The same of all relations, in a store that an earlier timestore made."""
        self._ask(library.ts_shared_floor, micros(time))

    def grow(self) -> None:
        """Makes 256 slots more."""
        self._ask(library.ts_shared_grow)

    def job(self) -> None:
        """Goes on with a job that ended in `NoMemory` on its way, if there is one."""
        self._do(library.ts_shared_job)

    def vacuum(self, every: float = 60.0, keep: float = 0.0, grows: bool = False) -> None:
        """Starts a thread that archives and reclaims every so many seconds until the store is closed.

        Memory keeps what ended less than `keep` seconds before the last commit. Where `grows`, 256
        slots more are made once something was refused with `StatusFull`, which is then done again.
        """
        times = (number_of(round(1e6 * seconds)) for seconds in (every, keep))
        policy = RawPolicy(*times, grows)
        self._do(library.ts_shared_vacuum, policy)

    def vacuumed(self) -> int | None:
        """How many archives, reclaims and growths that thread has made, None without one.

        What it was refused last is raised, but not that it had nothing to do or was to wait.
        """
        code, info = self._ask(library.ts_shared_vacuumed)
        return None if code == NONE else info.a

    def _read(self, function: Callable[..., int], *args: Any) -> Fields | None:
        try:
            value = self._values.pop()
        except IndexError:
            value = ctypes.create_string_buffer(VALUE_MOST)
        code, info = self._ask(function, *args, value, VALUE_MOST)
        found = None if code == NONE else fields_of(ctypes.string_at(value, info.a))
        if len(self._values) < _KEPT:
            self._values.append(value)
        return found


class SharedTicket(Given[SharedStore]):
    """A commit that memory was refused for on its way. One that is let go is given up."""

    _back = "ts_shared_give_up"

    def resume(self) -> int:
        """Goes on with the commit; its time, once it outlasts a stop. The ticket is spent."""
        number, self._number = self._open(), None
        return cast(int, self._store._committed(library.ts_shared_resume, number))


class SharedTransaction(CommonTransaction[SharedStore]):
    """An open transaction: what it reads is its snapshot with its own writes over it.

    As a context it is committed at its end, or given up where an exception ends it; so it is too
    where it is let go. `snapshot` is the time of its snapshot, `time` that of its commit.
    """

    _back, _calls, _cursors = "ts_shared_abort", "ts_shared_txn_", "ts_shared_cursor_"

    def commit(self, label: int | None = None, now: Time | None = None) -> int | None:
        """Commits it; its time, once it outlasts a stop, or None where nothing was written.

        `InDoubt` where the device failed on the way, `Waiting` where memory was refused there; any
        other refusal says that nothing was committed. The transaction is over.
        """
        words = self._label_and_time(label, now)
        number, self._number = self._open(), None
        self.time = self._store._committed(library.ts_shared_commit, number, *words)
        return self.time


class SharedView(CommonView[SharedStore]):
    """What was published at one moment. As a context, or let go, it is given back.

    `last` is the time of the last commit that it has, 0 for none.
    """

    _back, _calls, _cursors = "ts_shared_end", "ts_shared_", "ts_shared_cursor_"


for _it in (SharedStore, SharedTicket, SharedTransaction, SharedView):
    _it.__module__ = "timestore"
