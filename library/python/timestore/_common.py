"""What a store of one thread and one that threads share have alike, and what they give out."""

import ctypes
from collections.abc import Callable, Iterator
from types import TracebackType
from typing import Any, Generic, Self, TypeVar

from ._native import SMALL, Info, ask, library
from ._refused import Conflict, Refused, Unknown
from ._values import (
    ATTEMPTS,
    LAST_RECORD,
    Cursor,
    Fields,
    Row,
    Time,
    commit_time,
    key_of,
    micros,
    number_of,
    range_of,
    rows_of,
    spelled,
)

_Result = TypeVar("_Result")
_Store = TypeVar("_Store", bound="CommonStore[Any, Any]")
_Transaction = TypeVar("_Transaction", bound="CommonTransaction[Any]")
_View = TypeVar("_View", bound="CommonView[Any]")


class CommonStore(Generic[_Transaction, _View]):
    """An open store. As a context it is closed at its end."""

    @property
    def _handle(self) -> Any:
        """What the library knows the store by."""
        raise NotImplementedError

    def _info_of_call(self) -> Info:
        """Where a call tells something."""
        raise NotImplementedError

    def _last(self) -> Info:
        """The time of the last commit, and the floor."""
        raise NotImplementedError

    def _note_failure(self, refusal: Refused) -> None:
        """Notes of a refusal why the store failed."""
        raise NotImplementedError

    def _give_back(self, function: Callable[..., int], number: int) -> None:
        """Gives a number back, also where the store is gone."""
        raise NotImplementedError

    def _read(self, function: Callable[..., int], *args: Any) -> Fields | None:
        """The value that a call finds."""
        raise NotImplementedError

    def _do(self, function: Callable[..., int], *args: Any) -> None:
        """A call that tells nothing."""
        ask(function(self._handle, *args), None, self._note_failure)

    def close(self) -> None:
        """Ends the store."""
        raise NotImplementedError

    def begin(self, label: int = 0, now: Time | None = None) -> _Transaction:
        """A transaction on what is published now. As a context it is committed at its end."""
        raise NotImplementedError

    def view(self) -> _View:
        """What is published now, which later commits do not change."""
        raise NotImplementedError

    def __enter__(self) -> Self:
        return self

    def __exit__(self, *_: object) -> None:
        self.close()

    @property
    def last(self) -> int:
        """The time of the last commit, 0 for none."""
        return self._last().a

    @property
    def floor(self) -> int:
        """The time before which nothing is promised, 0 where each relation has one of its own."""
        return self._last().b

    def transact(
        self,
        work: Callable[[_Transaction], _Result],
        *,
        label: int = 0,
        now: Time | None = None,
        attempts: int = ATTEMPTS,
    ) -> _Result:
        """What `work` gives for a transaction, which is committed then.

        Where another transaction was ahead in a record, `work` is called again with a new one; after
        so many attempts the `Conflict` is raised. What `work` raises gives the transaction up.
        """
        if attempts < 1:
            raise ValueError("at least one attempt is made")
        for _ in range(attempts - 1):
            try:
                return self._transact_once(work, label, now)
            except Conflict:
                continue
        return self._transact_once(work, label, now)

    def _transact_once(
        self, work: Callable[[_Transaction], _Result], label: int, now: Time | None
    ) -> _Result:
        with self.begin(label, now) as txn:
            return work(txn)

    def at(self, relation: int, record: int, time: Time) -> Fields | None:
        """`at` of a view that is taken for it, as those below are."""
        with self.view() as view:
            return view.at(relation, record, time)

    def scan(
        self, relation: int, *, first: int = 0, last: int = LAST_RECORD
    ) -> Iterator[tuple[int, Fields]]:
        """`scan` of a view: what is there after the last commit."""
        with self.view() as view:
            return view.scan(relation, first=first, last=last)

    def scan_at(
        self, relation: int, time: Time, *, first: int = 0, last: int = LAST_RECORD
    ) -> Iterator[tuple[int, Fields]]:
        """`scan_at` of a view."""
        with self.view() as view:
            return view.scan_at(relation, time, first=first, last=last)

    def between(self, relation: int, record: int, start: Time, end: Time) -> Iterator[Row]:
        """`between` of a view."""
        with self.view() as view:
            return view.between(relation, record, start, end)

    def scan_between(
        self, relation: int, start: Time, end: Time, *, first: int = 0, last: int = LAST_RECORD
    ) -> Iterator[Row]:
        """`scan_between` of a view."""
        with self.view() as view:
            return view.scan_between(relation, start, end, first=first, last=last)

    def _times(self, function: Callable[..., int], label: int) -> list[int]:
        """The times that a call finds, rising."""
        room, info = 16, self._info_of_call()
        while True:
            times = (ctypes.c_uint64 * room)()
            code = function(self._handle, number_of(label), times, room, info)
            if code != SMALL:
                ask(code, info, self._note_failure)
                return list(times[: info.a])
            room = info.a

    def _rows(self, function: Callable[..., int], *args: int) -> Iterator[Row]:
        """The rows of a cursor that a call makes: it is asked at once, and each row made as it is taken."""
        cursor, info = Cursor(), self._info_of_call()
        ask(function(self._handle, *args, cursor.at, info), info, self._note_failure)
        return rows_of(cursor)


class Given(Generic[_Store]):
    """What a store gave out under a number. It is given back where it is let go."""

    # The names of the call that gives it back, and how those of its own calls and cursors begin.
    _back: str
    _calls: str
    _cursors: str

    def __init__(self, store: _Store, number: int) -> None:
        self._store = store
        self._number: int | None = number

    def _open(self) -> int:
        if self._number is None:
            raise Unknown("unknown")
        return self._number

    def _call(self, name: str) -> Any:
        """The library's call of this name."""
        return getattr(library, self._calls + name)

    def _cursor(self, name: str) -> Any:
        """That of this name which makes a cursor."""
        return getattr(library, self._cursors + name)

    def _end(self) -> None:
        """Gives it back, if it was not. Where that is refused it is still to be given back."""
        number, self._number = self._number, None
        if number is None:
            return
        try:
            self._store._do(getattr(library, self._back), number)
        except BaseException:
            self._number = number
            raise

    def _drop(self) -> None:
        """Gives it back, on any thread and whatever became of its store."""
        number, self._number = self._number, None
        if number is not None:
            self._store._give_back(getattr(library, self._back), number)

    def __del__(self) -> None:
        self._drop()


class CommonTransaction(Given[_Store]):
    """An open transaction: what it reads is its snapshot with its own writes over it.

    As a context it is committed at its end, or given up where an exception ends it; so it is too
    where it is let go. `snapshot` is the time of its snapshot, `time` that of its commit.
    """

    def __init__(
        self, store: _Store, number: int, snapshot: int, label: int, now: Time | None
    ) -> None:
        super().__init__(store, number)
        self._label = label
        self._now = now
        self.snapshot = snapshot
        self.time: int | None = None

    def put(self, relation: int, record: int, *fields: bytes) -> None:
        """Writes a value of 1 to 16 fields."""
        key, value = key_of(relation, record), spelled(fields)
        self._store._do(self._call("put"), self._open(), *key, value, len(value))

    def delete(self, relation: int, record: int) -> None:
        """Deletes a record that has a value."""
        self._store._do(self._call("delete"), self._open(), *key_of(relation, record))

    def get(self, relation: int, record: int) -> Fields | None:
        """The value that the transaction sees."""
        return self._store._read(self._call("get"), self._open(), *key_of(relation, record))

    def scan(
        self, relation: int, *, first: int = 0, last: int = LAST_RECORD
    ) -> Iterator[tuple[int, Fields]]:
        """The records of a relation with their values, in rising order, from `first` up to `last`,
        which counts too."""
        words = range_of(relation, first, last)
        rows = self._store._rows(self._cursor("of"), self._open(), *words)
        return ((row.record, row.fields) for row in rows)

    def _label_and_time(self, label: int | None, now: Time | None) -> tuple[int, int]:
        """What its commit is to have."""
        label = number_of(self._label if label is None else label)
        return label, commit_time(self._now if now is None else now)

    def commit(self, label: int | None = None, now: Time | None = None) -> int | None:
        """Commits it."""
        raise NotImplementedError

    def abort(self) -> None:
        """Gives the transaction up."""
        self._end()

    def __enter__(self) -> Self:
        return self

    def __exit__(
        self,
        kind: type[BaseException] | None,
        why: BaseException | None,
        trace: TracebackType | None,
    ) -> None:
        if kind is not None:
            self._drop()
        elif self._number is not None:
            self.commit()


class CommonView(Given[_Store]):
    """What was published at one moment. As a context, or let go, it is given back.

    `last` is the time of the last commit that it has, 0 for none.
    """

    def __init__(self, store: _Store, number: int, last: int) -> None:
        super().__init__(store, number)
        self.last = last

    def _value_at(self, *key_and_time: int) -> Fields | None:
        return self._store._read(self._call("at"), self._open(), *key_and_time)

    def _rows(self, name: str, *args: int) -> Iterator[Row]:
        return self._store._rows(self._cursor(name), self._open(), *args)

    def get(self, relation: int, record: int) -> Fields | None:
        """The value of a record after the view's last commit, None where it had none."""
        return self.at(relation, record, self.last)

    def scan(
        self, relation: int, *, first: int = 0, last: int = LAST_RECORD
    ) -> Iterator[tuple[int, Fields]]:
        """The records of a relation with their values after the view's last commit."""
        return self.scan_at(relation, self.last, first=first, last=last)

    def at(self, relation: int, record: int, time: Time) -> Fields | None:
        """The value of a record at a time, None where it had none."""
        return self._value_at(*key_of(relation, record), micros(time))

    def scan_at(
        self, relation: int, time: Time, *, first: int = 0, last: int = LAST_RECORD
    ) -> Iterator[tuple[int, Fields]]:
        """The records of a relation that have a value at a time, in rising order, from `first` up to
        `last`, which counts too."""
        rows = self._rows("at", *range_of(relation, first, last), micros(time))
        return ((row.record, row.fields) for row in rows)

    def between(self, relation: int, record: int, start: Time, end: Time) -> Iterator[Row]:
        """What a record held from one time up to another, by rising time."""
        return self.scan_between(relation, start, end, first=record, last=record)

    def scan_between(
        self, relation: int, start: Time, end: Time, *, first: int = 0, last: int = LAST_RECORD
    ) -> Iterator[Row]:
        """The same of a relation's records, by record and then by time, from `first` up to `last`,
        which counts too."""
        words = range_of(relation, first, last)
        return self._rows("between", *words, micros(start), micros(end))

    def end(self) -> None:
        """Gives the view back."""
        self._drop()

    def __enter__(self) -> Self:
        return self

    def __exit__(
        self,
        kind: type[BaseException] | None,
        why: BaseException | None,
        trace: TracebackType | None,
    ) -> None:
        if kind is not None:
            self._drop()
        else:
            self.end()
