"""A store that threads share, from Python: shared.py FOLDER, with the library of faults.c preloaded."""

import ctypes
import errno
import gc
import os
import random
import sys
import threading
from collections.abc import Callable
from concurrent.futures import ThreadPoolExecutor
from pathlib import Path
from typing import TypeVar

import timestore

Fault = TypeVar("Fault", bound=Exception)
FAULTS = ctypes.CDLL(None)
THREADS = 16


def refuses(fault: type[Fault], call: Callable[..., object], *args: object) -> Fault:
    try:
        call(*args)
    except fault as why:
        return why
    raise AssertionError(f"not refused: {call} {args}")


def new_folder(top: Path, name: str) -> Path:
    folder = top / name
    folder.mkdir()
    timestore.make(folder)
    return folder


def test_calls(top: Path) -> None:
    folder = new_folder(top, "calls")
    with timestore.SharedStore(folder) as store:
        refuses(timestore.AlreadyOpen, timestore.SharedStore, folder)
        assert store.get(1, 7) is None and store.last == 0 and store.vacuumed() is None
        first = store.put(1, 7, b"a", label=9, now=100)
        assert first == 100
        with store.begin(label=9) as txn:
            assert txn.snapshot == 100
            txn.put(1, 7, b"b")
            txn.put(1, 8, b"c", b"")
            assert txn.get(1, 7) == (b"b",) and len(list(txn.scan(1))) == 2
            assert store.get(1, 7) == (b"a",)
        second = txn.time
        refuses(timestore.Unknown, txn.put, 1, 7, b"x")
        with store.view() as view:
            assert view.last == second
            store.delete(1, 8)
            assert view.get(1, 8) == (b"c", b"") and store.get(1, 8) is None
            assert view.at(1, 7, 100) == (b"a",)
            assert dict(view.scan(1)) == {7: (b"b",), 8: (b"c", b"")} and dict(store.scan(1)) == {7: (b"b",)}
            assert [row.start for row in view.between(1, 7, 0, second + 1)] == [100, second]
            assert len(list(view.scan_between(1, 0, second + 1))) == 3
            assert refuses(timestore.NotYet, view.at, 1, 7, second + 1).last == second
        refuses(timestore.Unknown, view.get, 1, 7)
        assert store.times_of(9) == [100, second]
        assert store.at(1, 7, 100) == (b"a",) and dict(store.scan_at(1, 100)) == {7: (b"a",)}
        refuses(timestore.BadValue, store.put, 1, 7)
        refuses(timestore.Missing, store.delete, 1, 99)
        refuses(ValueError, store.get, 65_536, 7)
        assert store.begin().commit() is None


def test_jobs(top: Path) -> None:
    folder = new_folder(top, "jobs")
    with timestore.SharedStore(folder) as store:
        first, second = store.put(1, 7, b"a", now=1), store.put(1, 7, b"b", now=2)
        store.archive(second)
        refuses(timestore.NothingToDo, store.archive, second)
        store.reclaim()
        assert store.at(1, 7, first) == (b"a",)
        store.floor_of(1, second)
        assert refuses(timestore.BeforeKept, store.at, 1, 7, first).floor == second
        refuses(timestore.WrongProfile, store.raise_floor, second)
        store.grow()
        store.job()
        store.vacuum(every=0.002, keep=0.000005, grows=True)
        refuses(timestore.Busy, store.vacuum)
        while (store.vacuumed() or 0) < 2:
            store.put(1, 7, b"c")
        assert store.floor == 0
    refuses(timestore.Closed, store.get, 1, 7)
    refuses(timestore.Closed, store.begin)
    store.close()


def test_conflicts(top: Path) -> None:
    with timestore.SharedStore(new_folder(top, "conflicts")) as store:
        one, other = store.begin(), store.begin()
        one.put(1, 7, b"one")
        other.put(1, 7, b"other")
        one.commit()
        why = refuses(timestore.Conflict, other.commit)
        assert (why.relation, why.record) == (1, 7)

        def count(txn: timestore.SharedTransaction) -> int:
            counted = int((txn.get(2, 1) or (b"0",))[0]) + 1
            txn.put(2, 1, b"%d" % counted)
            return counted

        with ThreadPoolExecutor(THREADS) as threads:
            counts = threads.map(lambda _: store.transact(count, label=3, attempts=10_000), range(200))
            assert sorted(counts) == list(range(1, 201))
        assert len(store.times_of(3)) == 200


def test_threads(top: Path) -> None:
    """Threads commit and note it, beside readers; what was answered as done is there, also opened again."""
    folder = new_folder(top, "threads")
    done: list[dict[int, tuple[int, int]]] = [{} for _ in range(THREADS)]
    store, over = timestore.SharedStore(folder), threading.Event()

    def write(thread: int) -> None:
        chance = random.Random(thread)
        for number in range(40):
            record = chance.randrange(8)
            time = store.put(1, record, b"%d %d" % (thread, number), label=thread)
            done[thread][time] = record, number

    def read() -> int:
        asked = 0
        while not over.is_set():
            with store.view() as view:
                values = dict(view.scan(1))
                assert values == {record: view.get(1, record) for record in values}
                asked += 1
        return asked

    with ThreadPoolExecutor(THREADS + 2) as threads:
        readers = [threads.submit(read) for _ in range(2)]
        for it in [threads.submit(write, thread) for thread in range(THREADS)]:
            it.result()
        over.set()
        assert all(it.result() > 0 for it in readers)

    def compare(opened: timestore.SharedStore | timestore.Store) -> None:
        for thread, commits in enumerate(done):
            assert opened.times_of(thread) == sorted(commits)
            with opened.view() as view:
                for time, (record, number) in commits.items():
                    assert view.at(1, record, time) == (b"%d %d" % (thread, number),)

    compare(store)
    store.close()
    with timestore.Store(folder) as opened:
        compare(opened)


def test_left_open(top: Path) -> None:
    """What a thread leaves, by an exception too, is given back, on whichever thread."""
    store = timestore.SharedStore(new_folder(top, "left"))
    store.put(1, 7, b"a", now=10)

    def leave() -> None:
        txn = store.begin()
        txn.put(1, 7, b"left")
        raise KeyError(7)

    with ThreadPoolExecutor(1) as other:
        refuses(KeyError, other.submit(leave).result)
        view = other.submit(store.view).result()
        assert view.get(1, 7) == (b"a",)
    gc.collect()
    store.archive(10)
    store.put(1, 7, b"b", now=20)
    store.archive(20)
    store.reclaim()
    assert view.at(1, 7, 10) == (b"a",)
    txn = store.begin()
    del store  # the view and the transaction keep it open
    gc.collect()
    txn.put(1, 8, b"c")
    assert txn.commit() and view.get(1, 7) == (b"a",)


def test_closed(top: Path) -> None:
    """Threads that call while the store is closed are told, and what was done is there."""
    folder = new_folder(top, "closed")
    store = timestore.SharedStore(folder)
    done = [0] * 8

    def write(thread: int) -> None:
        try:
            while True:
                store.put(1, thread, b"%d" % (done[thread] + 1))
                done[thread] += 1
        except timestore.Closed:
            return

    with ThreadPoolExecutor(8) as threads:
        writers = [threads.submit(write, thread) for thread in range(8)]
        while sum(done) < 50:
            pass
        store.close()
        for it in writers:
            it.result()
    with timestore.Store(folder) as opened:
        for thread, count in enumerate(done):
            assert opened.get(1, thread) == (b"%d" % count,) if count else opened.get(1, thread) is None


def test_refused(top: Path) -> None:
    store = timestore.SharedStore(new_folder(top, "refused"))
    store.put(1, 7, b"kept", now=10)
    FAULTS.faults_refuse(ctypes.c_uint64(2), errno.ENOSPC)
    why = refuses(timestore.InDoubt, store.put, 1, 7, b"lost")
    FAULTS.faults_refuse(ctypes.c_uint64(0), 0)
    assert (why.errno, why.call, why.file) == (errno.ENOSPC, "fdatasync", "heap")
    assert refuses(timestore.Failed, store.begin).errno == errno.ENOSPC
    assert store.get(1, 7) == (b"kept",) and store.last == 10


def test_fork(top: Path) -> None:
    folder = new_folder(top, "fork")
    store = timestore.SharedStore(folder)
    store.put(1, 7, b"a")
    with store.view() as view, ThreadPoolExecutor(4) as threads:
        writers = [threads.submit(store.put, 1, record, b"b") for record in range(100)]
        child = os.fork()
        if child == 0:
            refuses(timestore.Closed, store.put, 1, 7, b"c")
            refuses(timestore.Closed, view.get, 1, 7)
            refuses(timestore.Locked, timestore.Store, folder)
            os._exit(0)
        assert os.waitpid(child, 0)[1] == 0
        for it in writers:
            it.result()
    assert len(dict(store.scan(1))) == 100


def main() -> None:
    top = Path(sys.argv[1])
    top.mkdir()
    for test in (test_calls, test_jobs, test_conflicts, test_threads, test_left_open, test_closed, test_refused, test_fork):
        test(top)


if __name__ == "__main__":
    main()
