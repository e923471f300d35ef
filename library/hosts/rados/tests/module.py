"""The Python module on a running cluster: module.py CLUSTER FOLDER. What is refused and why; and queries over an archive of which only a
part fits into memory, beside the same in a dictionary."""

import errno
import inspect
import random
import subprocess
import sys
from collections.abc import Callable
from dataclasses import replace
from pathlib import Path

import timestore
import timestore_rados as rados

RECORDS = 1024
ROUNDS = 4  # commits of all records


def raises(kind: type[timestore.Refused], call: Callable[[], object]) -> timestore.Refused:
    try:
        call()
    except kind as refusal:
        return refusal
    raise AssertionError(f"no {kind.__name__}")


def objects(place: rados.Place) -> list[str]:
    command = ["rados", "-c", str(place.conf), "-p", place.pool, "-N", place.store, "ls"]
    listed: str = subprocess.run(command, check=True, stdout=subprocess.PIPE, text=True).stdout
    return listed.split()


def refusals(place: rados.Place, work: Path) -> None:
    refusal = raises(timestore.NotAStore, lambda: rados.Store(place))
    assert 'the layout is ""' in str(refusal) and objects(place) == []  # asking leaves nothing
    rados.make(place)
    raises(timestore.Occupied, lambda: rados.make(place))
    raises(timestore.BadSlots, lambda: rados.make(replace(place, store="other"), 15))
    with rados.Store(place) as store:
        assert store.cause is None and store.last == 0
        assert raises(timestore.Locked, lambda: rados.Store(place))
        raises(timestore.Locked, lambda: rados.make(place))
        with rados.Store(replace(place, take_over=True)) as second:
            with second.begin(label=9, now=1) as txn:
                txn.put(1, 7, b"a")
            txn = store.begin()
            txn.put(1, 7, b"b")
            doubt = raises(timestore.InDoubt, txn.commit)
            assert any("shutdown" in note for note in doubt.__notes__), doubt.__notes__
            assert store.cause and store.cause.code == rados.Fenced.code and store.cause.errno == errno.ESHUTDOWN
            raises(timestore.Failed, store.begin)
            raises(rados.Fenced, store.flush)
            assert second.at(1, 7, 1) == (b"a",) and second.times_of(9) == [1]
    with rados.Store(place) as store:
        assert store.at(1, 7, 1) == (b"a",)
    stranger = raises(timestore.System, lambda: rados.Store(replace(place, user="stranger")))
    assert "Operation not permitted" in str(stranger), stranger
    raises(timestore.System, lambda: rados.Store(replace(place, pool="nowhere")))
    raises(timestore.System, lambda: rados.Store(replace(place, conf=work / "none")))
    for wrong in (replace(place, store=""), replace(place, lease=2), replace(place, cache=4096)):
        assert "Invalid argument" in str(raises(timestore.System, lambda: rados.Store(wrong)))


def endless(place: rados.Place, work: Path) -> None:
    """Stores of the endless profile, in the pool and with the archive alone there."""
    cold = replace(place, store="endless-cold", folder=work / "endless")
    (work / "endless").mkdir()
    for each in (replace(place, store="endless"), cold):
        for extents in (48, 63, 72, 1_048_592):
            raises(timestore.BadSlots, lambda: rados.make_endless(each, extents))
        rados.make_endless(each, 64)
        raises(timestore.Occupied, lambda: rados.make_endless(each, 64))
        raises(timestore.Occupied, lambda: rados.make(each))
        with rados.Store(each) as store:
            first = store.put(1, 7, b"a", label=9)
            last = store.put(1, 7, b"b", label=9)
            raises(timestore.NotGrowable, store.grow)
            store.archive(last)
            store.reclaim()
        with rados.Store(each) as store:
            assert store.get(1, 7) == (b"b",) and store.at(1, 7, first) == (b"a",)
            assert store.times_of(9) == [first, last]


def cold_refusals(place: rados.Place, work: Path) -> None:
    """A folder opens with its own archive alone, and an archive with its own folder."""
    folders = [work / name for name in ("first", "second")]
    colds = [replace(place, store=folder.name, folder=folder) for folder in folders]
    for folder, cold in zip(folders, colds):
        raises(timestore.System, lambda: rados.make(cold))  # no folder
        folder.mkdir()
        rados.make(cold)
        assert sorted(path.name for path in folder.iterdir()) == ["archive.id", "heap", "status"]
        raises(timestore.Occupied, lambda: rados.make(cold))
        raises(timestore.NotAStore, lambda: timestore.Store(folder))
    raises(timestore.NotAStore, lambda: rados.Store(replace(colds[0], store="second")))
    raises(timestore.NotAStore, lambda: rados.Store(replace(colds[0], folder=None)))
    raises(timestore.NotAStore, lambda: rados.Store(replace(place, folder=folders[0])))
    raises(timestore.Occupied, lambda: rados.make(replace(colds[0], folder=None)))
    (work / "third").mkdir()
    raises(timestore.Occupied, lambda: rados.make(replace(colds[0], folder=work / "third")))
    for cold in colds:
        rados.Store(cold).close()


def value_of(record: int, number: int) -> tuple[bytes, ...]:
    """About a thousand bytes, other ones for each record and commit."""
    return tuple(random.Random(f"{record} {number} {field}").randbytes(250) for field in range(4))


def fill(store: timestore.Store) -> None:
    for number in range(1, ROUNDS + 1):
        with store.begin(label=number, now=100 * number) as txn:
            for record in range(RECORDS):
                txn.put(1, record, *value_of(record, number))


def check_archive(store: timestore.Store, chance: random.Random) -> None:
    """Values and histories at times that the archive alone has."""
    with store.view() as view:
        for _ in range(300):
            record, number = chance.randrange(RECORDS), chance.randrange(1, ROUNDS)
            assert view.at(1, record, 100 * number + chance.randrange(100)) == value_of(record, number)
        record = chance.randrange(RECORDS)
        rows = [(row.start, row.end, row.fields) for row in view.between(1, record, 100, 100 * ROUNDS)]
        assert rows == [(100 * n, 100 * n + 100, value_of(record, n)) for n in range(1, ROUNDS)]
        assert sum(1 for _ in view.scan_at(1, 150)) == RECORDS
        assert sum(1 for _ in view.scan_between(1, 100, 100 * ROUNDS)) == RECORDS * (ROUNDS - 1)


def archives(place: rados.Place, cold: bool) -> None:
    if cold:
        assert place.folder
        Path(place.folder).mkdir()
    rados.make(place)
    chance = random.Random(1)
    with rados.Store(place) as store:
        fill(store)
        for number in range(2, ROUNDS + 1):  # each makes a run of its own
            store.archive(100 * number)
        store.reclaim()
        check_archive(store, chance)
    for cache in (rados.MEBIBYTE, 64 * rados.MEBIBYTE, 0):
        with rados.Store(replace(place, cache=cache)) as store:
            check_archive(store, chance)
    named = {name.split(".")[0] for name in objects(place)}
    assert named == ({"head", "archive"} if cold else {"head", "status", "heap", "archive"}), named


def fenced_queries(place: rados.Place) -> None:
    """Whose store was taken over is told so by a query that needs the archive, and answered one that does not."""
    with rados.Store(place) as first, rados.Store(replace(place, take_over=True)) as second:
        raises(rados.Fenced, lambda: first.at(1, 0, 150))
        raises(rados.Fenced, lambda: first.between(1, 0, 100, 200))
        assert first.at(1, 0, 100 * ROUNDS) == first.get(1, 0) == value_of(0, ROUNDS)
        assert list(first.scan(1)) == [(record, value_of(record, ROUNDS)) for record in range(RECORDS)]
        assert second.at(1, 0, 150) == value_of(0, 1)


def what_stands(place: rados.Place) -> None:
    """The calls that commit one value or ask what stands now."""
    rados.make(place)
    with rados.Store(place) as store:
        assert store.get(1, 7) is None and list(store.scan(1)) == []
        assert [store.put(1, record, b"a", b"", label=9, now=100) for record in (7, 3)] == [100, 101]
        assert store.put(1, 7, b"b", now=110) == 110 and store.delete(1, 3, now=0) == 111
        raises(timestore.Missing, lambda: store.delete(1, 3))
        assert store.last == 111 and store.times_of(9) == [100, 101]
    with rados.Store(place) as store:
        assert store.get(1, 7) == (b"b",) and store.get(1, 3) is None and list(store.scan(1)) == [(7, (b"b",))]


def marks(place: rados.Place, work: Path) -> None:
    """The first store of each host in this process: a number of the one names nothing in the other."""
    (work / "marks").mkdir()
    timestore.make(work / "marks")
    rados.make(place)
    with timestore.Store(work / "marks") as files, rados.Store(place) as pool:
        views = files.view(), pool.view()  # each is the first of its store
        for store, view in zip((pool, files), views):
            raises(timestore.Unknown, lambda: store._ask(timestore._library.ts_recent, view._number, 1, 7, 0, store._value, 4097))
        assert all(view.get(1, 7) is None for view in views)


def nothing_of_files() -> None:
    """Each method of `timestore.Store` that calls the host for files is another one here."""
    for name, method in inspect.getmembers(timestore.Store, inspect.isfunction):
        if "ts_file_" in inspect.getsource(method):
            assert name in vars(rados.Store), name


def main() -> None:
    cluster, work = Path(sys.argv[1]), Path(sys.argv[2])
    place = rados.Place("store", "module", "store", cluster / "ceph.conf")
    nothing_of_files()
    marks(replace(place, store="marks"), work)
    what_stands(replace(place, store="stands"))
    refusals(place, work)
    endless(place, work)
    cold_refusals(place, work)
    archives(replace(place, store="archives"), False)
    fenced_queries(replace(place, store="archives"))
    archives(replace(place, store="cold", folder=work / "cold"), True)


if __name__ == "__main__":
    main()
