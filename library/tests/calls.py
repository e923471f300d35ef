"""The Python module's calls: calls.py FOLDER, with the library of faults.c preloaded."""

import ctypes
import errno
import functools
import gc
import itertools
import os
import resource
import struct
import sys
import tracemalloc
from collections.abc import Callable, Iterator
from concurrent.futures import ThreadPoolExecutor
from contextlib import contextmanager
from datetime import datetime, timezone
from pathlib import Path
from typing import TypeVar

import timestore

Fault = TypeVar("Fault", bound=Exception)
FAULTS = ctypes.CDLL(None)


@contextmanager
def refused(call: int, number: int = errno.EIO) -> Iterator[None]:
    """The write or sync of this number from now on is refused with this errno."""
    FAULTS.faults_refuse(ctypes.c_uint64(call), number)
    yield
    FAULTS.faults_refuse(ctypes.c_uint64(0), 0)


def refuses(fault: type[Fault], call: Callable[..., object], *args: object) -> Fault:
    try:
        call(*args)
    except fault as why:
        return why
    raise AssertionError(f"not refused: {call} {args}")


def test_values(store: timestore.Store) -> None:
    with store.begin(label=1, now=datetime(2020, 1, 1, tzinfo=timezone.utc)) as txn:
        for record in range(200):
            txn.put(2, record, b"x" * 255, b"", bytes([record]))
        assert txn.get(2, 5) == (b"x" * 255, b"", b"\5")
        assert [record for record, _ in txn.scan(2)] == list(range(200))
    time = txn.time
    assert timestore.moment(time) == datetime(2020, 1, 1, tzinfo=timezone.utc)
    with store.view() as view:
        assert len(list(view.scan_at(2, time))) == 200
        assert view.at(2, 199, time)[2] == b"\xc7"
        rows = list(view.scan_between(2, 0, time + 1))
        assert len(rows) == 200 and rows[3] == (3, time, time + 1, (b"x" * 255, b"", b"\3"))
        assert rows[3].moments[0] == datetime(2020, 1, 1, tzinfo=timezone.utc)
        assert list(view.between(2, 3, 0, time + 1)) == [rows[3]]
    refuses(timestore.Unknown, view.at, 2, 1, time)
    for fields in ((), (b"x" * 256,), (b"",) * 17):
        refuses(timestore.BadValue, store.begin().put, 2, 1, *fields)


def test_transactions(store: timestore.Store) -> None:
    try:
        with store.begin() as txn:
            txn.put(2, 5, b"gone")
            raise KeyError
    except KeyError:
        pass
    assert store.at(2, 5, store.last)[2] == b"\5"
    assert store.begin().commit() is None
    first, second = store.begin(), store.begin()
    first.put(2, 5, b"first")
    second.put(2, 5, b"second")
    ticket = first.submit(2)
    assert ticket.redeem() is None
    why = refuses(timestore.Conflict, second.submit)
    assert (why.relation, why.record, why.code) == (2, 5, -8)
    store.flush()
    assert ticket.redeem() == store.last
    refuses(timestore.Unknown, ticket.redeem)
    assert store.times_of(2) == [store.last]
    for number in range(20):
        with store.begin(label=3) as txn:
            txn.put(3, number, b"n")
    assert len(store.times_of(3)) == 20
    refuses(timestore.NotYet, store.at, 2, 5, store.last + 1)
    refuses(timestore.Missing, store.begin().delete, 2, 1000)


def test_refused_call(folder: Path) -> None:
    with timestore.Store(folder) as store:
        before = store.last
        refuses(timestore.AlreadyOpen, timestore.Store, folder)
        refuses(timestore.Locked, timestore.Store, folder)
        store.archive(before)
        refuses(timestore.NothingToDo, store.archive, before)
        first = store.at(2, 5, store.times_of(1)[0])
        store.reclaim()
        refuses(timestore.NothingToDo, store.reclaim)
        with store.view() as view:
            refuses(timestore.NeedsArchive, view.recent, 2, 5, store.times_of(1)[0])
            assert view.recent(2, 5, before) == (b"first",)
            assert view.at(2, 5, store.times_of(1)[0]) == first
            assert len(list(view.scan_at(2, store.times_of(1)[0]))) == 200
            assert len(list(view.between(2, 5, 0, before + 1))) == 2
            refuses(timestore.WrongProfile, store.raise_floor, before)
            assert refuses(timestore.NotYet, store.floor_of, 2, before + 1).last == before
            refuses(ValueError, store.floor_of, 65_536, before)
            store.floor_of(2, before)
            assert store.floor == 0
            refuses(timestore.NothingToDo, store.floor_of, 2, before)
            assert refuses(timestore.BeforeKept, store.at, 2, 5, before - 1).floor == before
            assert store.at(3, 19, before - 1) is None
            assert store.at(2, 5, before) == (b"first",)
            assert view.at(2, 5, store.times_of(1)[0]) == first
        store.grow()
        txn = store.begin()
        txn.put(2, 5, b"lost")
        with refused(3):
            why = refuses(timestore.InDoubt, txn.commit)
        assert (why.call, why.file, why.errno) == ("pwrite", "status", errno.EIO)
        assert store.last == before
        assert store.at(2, 5, before) == (b"first",)
        failed = refuses(timestore.Failed, store.begin)
        assert (failed.call, failed.file, failed.errno) == ("pwrite", "status", errno.EIO)
        assert failed.__notes__ == [f"pwrite of status: {os.strerror(errno.EIO)}"]
    refuses(timestore.Closed, store.flush)
    refuses(timestore.Closed, store.begin)
    with timestore.Store(folder) as store:
        assert refuses(timestore.BeforeKept, store.at, 2, 5, 0).floor == before
        assert store.at(2, 5, before) == (b"first",)


def has_all(store: timestore.Store) -> None:
    assert [store.at(1, 7, time) for time in (99, 199, 200, 300)] == [None, (b"a",), (b"b",), (b"c",)]
    assert [row[1:] for row in store.between(1, 7, 100, 301)] == [(100, 200, (b"a",)), (200, 300, (b"b",)), (300, 301, (b"c",))]
    assert store.times_of(9) == [100, 200, 300] and store.times_of(8) == []


def test_make_endless(folder: Path) -> None:
    """A store of the endless profile is made, or refused."""
    assert refuses(timestore.System, timestore.make_endless, folder).errno == errno.ENOENT
    folder.mkdir()
    for extents in (-64, 0, 48, 63, 72, 1_048_592, (1 << 32) + 64):
        refuses(timestore.BadSlots, timestore.make_endless, folder, extents)
    assert [*folder.iterdir()] == []
    with refused(4):
        why = refuses(timestore.System, timestore.make_endless, folder)
    assert (why.call, why.file, why.errno) == ("pwrite", "heap", errno.EIO)
    timestore.make_endless(folder)
    for extents in (64, 262_144):
        refuses(timestore.Occupied, timestore.make_endless, folder, extents)
    refuses(timestore.Occupied, timestore.make, folder)
    header = (b"NOOVER01" + struct.pack("<5I", 4, 262_144, 0, 1, 0)).ljust(512, b"\0")
    for name, wanted in (("status", header), ("heap", bytes(8192)), ("archive", b"")):
        assert (folder / name).read_bytes() == wanted, name
    with timestore.Store(folder) as store:
        assert store.last == 0 and store.put(1, 7, b"a", now=100) == 100 and store.get(1, 7) == (b"a",)
        refuses(timestore.AlreadyOpen, timestore.make_endless, folder)
        refuses(timestore.NotGrowable, store.grow)
    shared = timestore.SharedStore(folder)
    assert shared.get(1, 7) == (b"a",)
    shared.close()


def test_endless(folder: Path) -> None:
    """A store whose log lies in the heap, of 64 extents: its archive and its reclaim, and what stood when, also where it is opened again."""
    folder.mkdir()
    timestore.make_endless(folder, 64)
    step = timestore.Step
    with timestore.Store(folder) as store:
        for time, value in ((100, b"a"), (200, b"b"), (300, b"c")):
            store.put(1, 7, value, label=9, now=time)
        refuses(timestore.NothingToDo, store.reclaim)
        assert refuses(timestore.NotYet, store.archive, 301).last == 300
        store.archive_start(200)
        refuses(timestore.JobBusy, store.archive, 300)
        steps = [step.WROTE, step.SYNCED, step.ENTRY_WRITTEN, step.GATE_CLOSED, step.KEPT_SYNCED, step.GATE_WRITTEN, step.PUBLISHED]
        assert [store.job_pump() for _ in steps] == steps and store.job_pump() == step.IDLE
        refuses(timestore.NothingToDo, store.archive, 200)
        has_all(store)
        store.reclaim_start()
        refuses(timestore.JobBusy, store.reclaim)
        steps = [step.KEPT_WRITTEN, step.KEPT_WRITTEN, step.KEPT_SYNCED, step.ROLL_WRITTEN, step.ROLL_SYNCED]
        steps += [step.ROOT_WRITTEN, step.ROOT_SYNCED, step.TURN_WRITTEN, step.PUBLISHED]
        assert [store.job_pump() for _ in steps] == steps and store.job_pump() == step.IDLE
        refuses(timestore.NothingToDo, store.reclaim)
        has_all(store)
    with timestore.Store(folder) as store:
        refuses(timestore.NothingToDo, store.archive, 200)
        refuses(timestore.NothingToDo, store.reclaim)
        has_all(store)
        store.archive(300)
        store.reclaim()
        has_all(store)
    with timestore.Store(folder) as store:
        has_all(store)


def test_damaged(folder: Path) -> None:
    """A file that is cut is named, and where."""
    (folder / "archive").write_bytes(b"")
    why = refuses(timestore.Damaged, timestore.Store, folder)
    assert (why.area, why.place) == ("archive", 0)
    (folder / "heap").write_bytes(b"")
    assert refuses(timestore.Damaged, timestore.Store, folder).area == "heap"


def test_numbers(store: timestore.Store) -> None:
    """What C would cut to its bits is refused, and changes nothing."""
    with store.begin() as txn:
        for key in ((65_536, 1), (-1, 1), (1, 1 << 64), (1, -1)):
            refuses(ValueError, txn.put, *key, b"cut")
            refuses(ValueError, txn.get, *key)
        refuses(ValueError, txn.scan, 65_538)
        refuses(ValueError, txn.submit, 1 << 64)
        refuses(ValueError, txn.submit, 1, datetime(1969, 12, 31, tzinfo=timezone.utc))
        refuses(ValueError, txn.submit, 1, datetime(2020, 1, 1))
        assert txn.commit() is None
    with store.view() as view:
        refuses(ValueError, view.at, 2, 5, -1)
        refuses(ValueError, view.between, 2, 5, 0, 1 << 64)
        # A query is asked when it is called, not once its rows are taken.
        assert refuses(timestore.NotYet, view.between, 2, 5, 0, store.last + 2).last == store.last
        refuses(timestore.EmptyInterval, view.scan_between, 2, 5, 5)
        rows = view.scan_at(2, store.last)
    assert len(list(rows)) == 200


def test_let_go(store: timestore.Store) -> None:
    """More than 65,536 may be taken where none is kept: what is let go is given back."""
    for _ in range(70_000):
        store.view()
    for number in range(70_000):
        store.begin()
    assert [*store.scan_between(2, 0, 1)] == []
    assert sum(1 for _ in store.scan_at(2, store.last)) == 200


def test_fork(store: timestore.Store, folder: Path) -> None:
    """In the child of a fork the store is closed, and in its parent it is not."""
    with store.view() as view:
        child = os.fork()
        if child == 0:
            try:
                refuses(timestore.Closed, store.begin)
                refuses(timestore.Closed, store.flush)
                store.close()
                view.end()
                assert type(refuses(timestore.Locked, timestore.Store, folder)) is timestore.Locked
            except BaseException:
                os._exit(1)
            os._exit(0)
        assert os.waitpid(child, 0)[1] == 0
        assert view.at(2, 5, store.last) is not None


def test_threads(store: timestore.Store) -> None:
    """No other thread may make a call."""
    with ThreadPoolExecutor(1) as other, store.view() as view:
        for call in (store.begin, store.flush, store.close, store.view, view.end):
            try:
                other.submit(call).result()
            except RuntimeError:
                continue
            raise AssertionError(f"{call} on another thread")


def test_left_to_a_child(folder: Path) -> None:
    """While a child lives that was forked under an open store, its parent opens it again."""
    ends = os.pipe()
    with timestore.Store(folder):
        child = os.fork()
        if child == 0:
            os.close(ends[1])
            os.read(ends[0], 1)
            os._exit(0)
        os.close(ends[0])
    with timestore.Store(folder) as store:
        store.put(2, 5, b"beside")
    os.close(ends[1])
    assert os.waitpid(child, 0)[1] == 0


def test_let_go_elsewhere(folder: Path) -> None:
    """What dies on another thread is given back on the owner's: no snapshot is left that bars a reclaim."""
    with ThreadPoolExecutor(1) as owner:
        store = owner.submit(timestore.Store, folder).result()

        def raises(kind: str) -> None:
            """Its exception has the frame, and so what it took, where the exception goes."""
            txn, view = store.begin(), store.view()
            if kind == "ticket":
                txn.put(4, 1, b"t")
                ticket = txn.submit(4)
            raise KeyError(kind)

        for kind in ("transaction", "ticket"):
            why = owner.submit(raises, kind).exception()
            assert isinstance(why, KeyError)
            del why
            gc.collect()
        owner.submit(store.flush).result()
        last = owner.submit(store.put, 4, 1, b"later").result()
        owner.submit(store.archive, last).result()
        owner.submit(store.reclaim).result()
        # So many may be out at a time, and no more are let go than that.
        for _ in range(3):
            views = owner.submit(lambda: [store.view() for _ in range(30_000)]).result()
            del views
        owner.submit(store.close).result()


def test_exceptions_stay(folder: Path) -> None:
    """What ends a context is raised, whatever became of the store and on any thread."""

    def closes(store: timestore.Store) -> None:
        with store.begin() as txn:
            txn.put(2, 5, b"gone")
            store.close()
            raise KeyError("mine")

    def goes_on(taken: timestore.Transaction | timestore.View) -> None:
        with taken:
            raise KeyError("mine")

    with timestore.Store(folder) as store:
        refuses(KeyError, closes, store)
    with timestore.Store(folder) as store:
        with ThreadPoolExecutor(1) as other:
            for taken in (store.begin(), store.view()):
                assert isinstance(other.submit(goes_on, taken).exception(), KeyError)
        store.put(2, 5, b"then")
        last = store.last
        store.archive(last)
        store.reclaim()


def test_names() -> None:
    """A refusal has the name by which it is caught, and that of a user its own."""

    class Mine(timestore.Refused):
        pass

    assert (timestore.NotYet.__module__, Mine.__module__) == ("timestore", __name__)


def test_now(folder: Path) -> None:
    """What stands now is one call, and a commit has the time of the clock."""
    with timestore.Store(folder) as store:
        before = timestore.micros(datetime.now(timezone.utc))
        first = store.put(5, 1, b"a", b"", label=50)
        assert before <= first < before + 60_000_000
        with store.view() as view:
            assert view.last == store.last == first
            second = store.put(5, 2, b"b", now=first + 10, label=50)
            assert second == first + 10
            assert (view.get(5, 1), view.get(5, 2)) == ((b"a", b""), None)
            assert [*view.scan(5)] == [(1, (b"a", b""))]
        assert store.get(5, 2) == (b"b",)
        assert [*store.scan(5)] == [(1, (b"a", b"")), (2, (b"b",))]
        third = store.delete(5, 1, now=1)
        assert third == second + 1
        assert store.get(5, 1) is None
        refuses(timestore.Missing, store.delete, 5, 1)
        refuses(timestore.BadValue, store.put, 5, 1)
        refuses(ValueError, store.get, 65_536, 1)
        refuses(ValueError, store.put, 5, 1 << 64, b"a")
        assert store.times_of(50) == [first, second]
        assert timestore.library_version() == timestore.__version__


def test_transact(folder: Path) -> None:
    """A transaction that others were ahead of is made again, so often as it may be."""

    def count(txn: timestore.Transaction) -> int:
        counted = (txn.get(6, 1) or (b"\0",))[0][0] + 1
        txn.put(6, 1, bytes([counted]))
        return counted

    with timestore.Store(folder) as store:
        ahead = [1, 2, 3]

        def beaten(txn: timestore.Transaction) -> int:
            counted = count(txn)
            if ahead:
                ahead.pop()
                store.transact(count)
            return counted

        assert store.transact(beaten, attempts=4) == 4
        assert store.get(6, 1) == (b"\4",)
        calls = []

        def always_beaten(txn: timestore.Transaction) -> None:
            calls.append(count(txn))
            store.transact(count)

        why = refuses(timestore.Conflict, lambda: store.transact(always_beaten, attempts=3))
        assert (why.relation, why.record, calls) == (6, 1, [5, 6, 7])
        assert store.get(6, 1) == (b"\7",)

        def fails(txn: timestore.Transaction) -> None:
            count(txn)
            raise KeyError

        refuses(KeyError, store.transact, fails)
        assert store.get(6, 1) == (b"\7",)
        refuses(ValueError, lambda: store.transact(count, attempts=0))
        assert store.transact(lambda txn: txn.get(6, 1)) == (b"\7",)


def ranges_of(ask: Callable[..., Iterator[tuple[int, timestore.Fields]]], wanted: dict[int, timestore.Fields]) -> None:
    """A query gives the records of a range, whether or not it has any."""
    most = (1 << 64) - 1
    for first, last in ((0, most), (0, 0), (5, 5), (7, 300), (299, most), (300, 299), (most, most), (1, 0)):
        found = ask(first=first, last=last)
        assert iter(found) is found
        assert [*found] == [it for it in wanted.items() if first <= it[0] <= last], (first, last)
    assert [*itertools.islice(ask(first=100), 3)] == [(record, wanted[record]) for record in (100, 102, 104)]
    refuses(ValueError, lambda: ask(first=-1))
    refuses(ValueError, lambda: ask(last=most + 1))


def test_ranges(folder: Path) -> None:
    """Queries of a range of records, of each kind that gives rows."""
    wanted = {record: (bytes([record % 256]) * 200,) for record in range(0, 600, 2)}
    for kind in (timestore.Store, timestore.SharedStore):
        with kind(folder) as store:
            with store.begin() as txn:
                for record, fields in wanted.items():
                    txn.put(7, record, *fields)
                ranges_of(functools.partial(txn.scan, 7), wanted)
            ranges_of(functools.partial(store.scan, 7), wanted)
            ranges_of(functools.partial(store.scan_at, 7, store.last), wanted)
            with store.view() as view:
                ranges_of(functools.partial(view.scan, 7), wanted)
                ranges_of(functools.partial(view.scan_at, 7, view.last), wanted)
                rows = functools.partial(view.scan_between, 7, view.last, view.last + 1)
                ranges_of(lambda **ends: ((row.record, row.fields) for row in rows(**ends)), wanted)
                assert [row.record for row in view.between(7, 8, view.last, view.last + 1)] == [8]
                assert [*view.between(7, 9, view.last, view.last + 1)] == []
            # What was found stays, by turns with another query, and beyond its view and its store.
            first, second = store.scan(7), store.scan(7)
            assert [*zip(first, second)] == [*zip(wanted.items(), wanted.items())]
            left, _ = store.scan(7), store.scan(7)
        assert dict(left) == wanted


def test_blocks(folder: Path) -> None:
    """An iterator holds no more than a block of rows, of 256."""
    with timestore.Store(folder) as store:
        for part in range(4):
            with store.begin() as txn:
                for record in range(1000 * part, 1000 * part + 1000):
                    txn.put(8, record, b"v" * 255)
        tracemalloc.start()
        try:
            assert sum(1 for _ in store.scan(8)) == 4000
            peak = tracemalloc.get_traced_memory()[1]
        finally:
            tracemalloc.stop()
    assert peak < 1 << 19, peak  # the values take twice as much


def test_causes(folder: Path) -> None:
    """Why the system refused a call."""
    small, reads = folder.with_name("calls-small"), folder.with_name("calls-reads")
    for path in (small, reads):
        path.mkdir()
        timestore.make(path, 64)
    limits = resource.getrlimit(resource.RLIMIT_FSIZE)
    with timestore.Store(small) as store:
        resource.setrlimit(resource.RLIMIT_FSIZE, (40_000, limits[1]))
        try:
            for _ in range(4):
                store.put(1, 7, b"a")
            why = refuses(timestore.InDoubt, store.put, 1, 7, b"a")
        finally:
            resource.setrlimit(resource.RLIMIT_FSIZE, limits)
        assert (why.call, why.file, why.errno) == ("pwrite", "heap", errno.EFBIG)
    with timestore.Store(reads) as store:
        first = store.put(1, 7, b"a")
        store.archive(store.put(1, 7, b"b"))
        store.reclaim()
        with store.view() as view:
            FAULTS.faults_refuse_reads(errno.EIO)
            assert view.get(1, 7) == (b"b",)
            for ask in (lambda: view.at(1, 7, first), lambda: view.between(1, 7, 0, first)):
                unread = refuses(timestore.System, ask)
                assert (unread.call, unread.file, unread.errno) == ("pread", "archive", errno.EIO)
                assert str(unread) == os.strerror(errno.EIO)
            FAULTS.faults_refuse_reads(0)
            assert view.at(1, 7, first) == (b"a",)
            assert [row.fields for row in view.between(1, 7, 0, first + 1)] == [(b"a",)]
    unopened = refuses(timestore.System, timestore.Store, folder / "none")
    assert (unopened.call, unopened.file, unopened.errno) == ("open", "", errno.ENOENT)
    assert refuses(timestore.NotYet, lambda: timestore.Store(reads).at(1, 7, 1 << 62)).errno is None


def main() -> None:
    folder = Path(sys.argv[1]) / "calls"
    assert refuses(timestore.System, timestore.make, folder).errno == errno.ENOENT
    folder.mkdir()
    refuses(timestore.BadSlots, timestore.make, folder, 15)
    refuses(timestore.NotAStore, timestore.Store, folder)
    refuses(timestore.System, timestore.Store, folder / "none")
    timestore.make(folder)
    refuses(timestore.Occupied, timestore.make, folder)
    with timestore.Store(folder) as store:
        test_values(store)
        test_transactions(store)
        test_numbers(store)
        test_let_go(store)
        test_threads(store)
        test_fork(store, folder)
    test_refused_call(folder)
    test_left_to_a_child(folder)
    test_let_go_elsewhere(folder)
    test_exceptions_stay(folder)
    test_names()
    test_now(folder)
    test_transact(folder)
    test_ranges(folder)
    test_blocks(folder)
    test_causes(folder)
    test_make_endless(folder.parent / "make-endless")
    test_endless(folder.parent / "endless")
    test_damaged(folder)


if __name__ == "__main__":
    main()
