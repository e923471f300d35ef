"""The store of a register and the one thread that owns it. Any thread may ask an `Office`."""

import os
import random
import time
from collections.abc import Callable, Iterator
from concurrent.futures import ThreadPoolExecutor
from contextlib import contextmanager
from typing import Any, NamedTuple, ParamSpec, Self, TypeVar

import timestore

from . import times
from .schema import Case, Clerk, Label, Refusal, Relation, Row, description, fields_of, row_of

TRIES = 50
PAUSE_SECONDS, PAUSE_SECONDS_MOST = 0.002, 0.1
LOCK_PAUSE_SECONDS = 0.02
P = ParamSpec("P")
T = TypeVar("T")


class Author(NamedTuple):
    """On whose behalf, and why, something is entered."""

    clerk: int
    case: int
    kind: str
    corrects: int = 0
    remark: str = ""


class Entry(NamedTuple):
    """A commit: who made it, and when."""

    time: int
    label: Label
    case: Case


class Desk:
    """A transaction with rows for fields. It sees what stood when it began, and what it has put."""

    def __init__(self, office: "Office", txn: timestore.Transaction) -> None:
        self._office = office
        self._txn = txn

    def get(self, relation: Relation, record: int) -> Any:
        """The row of a record, or None."""
        fields = self._office.ask(self._txn.get, relation, record)
        return None if fields is None else row_of(relation, fields)

    def scan(self, relation: Relation) -> list[tuple[int, Any]]:
        """All records of a relation with their rows, in rising order."""
        found = self._office.ask(lambda: list(self._txn.scan(relation)))
        return [(record, row_of(relation, fields)) for record, fields in found]

    def put(self, relation: Relation, record: int, row: Row) -> None:
        """Writes a row."""
        self._office.ask(self._txn.put, relation, record, *fields_of(row))

    def delete(self, relation: Relation, record: int) -> None:
        """Ends a record that has a value."""
        self._office.ask(self._txn.delete, relation, record)


class Office:
    """An open register. As a context it is closed at its end."""

    def __init__(self, folder: str, wait_seconds: float = 5.0) -> None:
        self._owner = ThreadPoolExecutor(1, thread_name_prefix="owner")
        try:
            self._store = self.ask(_opened, folder, wait_seconds)
        except BaseException:
            self._owner.shutdown()
            raise

    def ask(self, function: Callable[P, T], *args: P.args, **named: P.kwargs) -> T:
        """Calls a function on the owner's thread, behind what others asked before."""
        return self._owner.submit(function, *args, **named).result()

    def question(self, function: Callable[..., T], *args: Any) -> T:
        """Asks a function of the store, as those of `past`."""
        return self.ask(function, self._store, *args)

    @contextmanager
    def desk(self) -> Iterator[Desk]:
        """A transaction that is only read, or that `enter` submits; at the end it is given up."""
        txn = self.ask(self._store.begin)
        try:
            yield Desk(self, txn)
        finally:
            self.ask(txn.abort)

    def enter(self, author: Author, change: Callable[[Desk], None]) -> Entry:
        """Makes an entry, which then outlasts any stop. A change that conflicts is tried anew on what stands then."""
        for tries in range(TRIES):
            try:
                return self._enter_once(author, change)
            except timestore.Conflict:
                # A pause by chance, so that all who wait do not meet again.
                time.sleep(random.uniform(0, min(PAUSE_SECONDS_MOST, PAUSE_SECONDS * tries)))
        raise Refusal(f"others changed the same records {TRIES} times in a row: try again")

    def _enter_once(self, author: Author, change: Callable[[Desk], None]) -> Entry:
        txn = self.ask(self._store.begin)
        desk = Desk(self, txn)
        try:
            change(desk)
            before: Case | None = desk.get(Relation.CASES, author.case)
            case = Case(author.clerk, before.part + 1 if before else 0, *author[2:])
            label = Label(author.clerk, author.case, case.part)
            desk.put(Relation.CASES, author.case, case)
            ticket = self.ask(txn.submit, label.number, times.now())
        finally:
            self.ask(txn.abort)  # which does nothing once it was submitted
        assert ticket is not None  # the case was written
        return Entry(self.ask(_published, self._store, ticket), label, case)

    def close(self) -> None:
        """Ends the store. What was entered stays."""
        self.ask(self._store.close)
        self._owner.shutdown()

    def __enter__(self) -> Self:
        return self

    def __exit__(self, *_: object) -> None:
        self.close()


def _published(store: timestore.Store, ticket: timestore.Ticket) -> int:
    """The time of a commit. Those that wait beside it are written with it, by the same syncs."""
    refusal = None
    try:
        store.flush()
    except timestore.Refused as why:  # the ticket says what became of the commit
        refusal = why
    time_of_commit = ticket.redeem()
    if time_of_commit is None:
        raise Refusal("no memory: whether the entry was made shows in the journal, later") from refusal
    return time_of_commit


def make(folder: str, slots: int, case: int, clerk: Clerk) -> Entry:
    """Makes a register, with its schema and its first clerk, whose number is 1."""
    os.makedirs(folder, exist_ok=True)
    try:
        timestore.make(folder, slots)
    except timestore.Occupied:
        pass  # where it has no entry, who made it was stopped
    first = Case(1, 0, "first entry", 0, "")
    label = Label(1, case, 0)
    with timestore.Store(folder) as store:
        if store.last > 0:
            raise Refusal(f"{folder} has a store already")
        with store.begin(label.number, times.now()) as txn:
            for record, fields in description().items():
                txn.put(Relation.SCHEMA, record, *fields)
            txn.put(Relation.CLERKS, 1, *fields_of(clerk))
            txn.put(Relation.CASES, case, *fields_of(first))
    assert txn.time is not None  # something was written
    return Entry(txn.time, label, first)


def _opened(folder: str, wait_seconds: float) -> timestore.Store:
    """The store of a register, once no other process has it open."""
    end = time.monotonic() + wait_seconds
    while True:
        try:
            store = timestore.Store(folder)
            break
        except timestore.Locked:
            if time.monotonic() > end:
                raise Refusal(f"{folder} is open in another process. Let that one end, or have it serve all: python3 -m register serve {folder}") from None
            time.sleep(LOCK_PAUSE_SECONDS)
    found = dict(store.scan_at(Relation.SCHEMA, store.last))
    if found != description():
        store.close()
        raise Refusal(f"{folder} is no register, or one of another version" if found else f"{folder} is a store, but no register")
    return store
