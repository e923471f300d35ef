"""A host that is killed amid commits, archives, reclaims, floors and growths: killed.py FOLDER. What it was answered
as done is there, of a floor too."""

import os
import random
import signal
import subprocess
import sys
import time
from pathlib import Path

import timestore

ROUNDS = 8
KEPT = 40  # times behind the last commit that are never given up
RECORDS = 5


def commit(store: timestore.Store, number: int) -> None:
    """A number in two records; it is told once it is done."""
    txn = store.begin()
    txn.put(1, 7, str(number).encode())
    txn.put(1, number % RECORDS + 10, str(number).encode())
    print("done", txn.commit(9, number), flush=True)


def floor_of(store: timestore.Store) -> int:
    """The floor of relation 1, which a query before it tells."""
    try:
        store.at(1, 7, 0)
    except timestore.BeforeKept as why:
        return why.floor
    return 0


def vacuum(store: timestore.Store, number: int) -> None:
    """An archive and a reclaim of all, a floor, which is told once it is raised, and a growth."""
    store.archive(number)
    store.reclaim()
    if number > KEPT:
        store.floor_of(1, number - KEPT)
        print("floor", floor_of(store), flush=True)
    store.grow()


def write(folder: str) -> None:
    """Commits numbers, and makes a vacuum behind every tenth, until it is killed."""
    with timestore.Store(folder) as store:
        number = store.last
        while True:
            number += 1
            commit(store, number)
            if number % 10 == 0:
                try:
                    vacuum(store, number)
                except (timestore.NothingToDo, timestore.NotGrowable):
                    continue


def round_trip(folder: Path, wait: float) -> int:
    """One killed host; the last commit that stands after it."""
    with subprocess.Popen([sys.executable, __file__, "write", folder], stdout=subprocess.PIPE) as host:
        first = host.stdout.readline()
        time.sleep(wait)
        os.kill(host.pid, signal.SIGKILL)
        told = [first, host.stdout.read()]
    # The last line may be cut.
    lines = [line.split() for line in b"".join(told).split(b"\n")[:-1]]
    done = max(int(number) for word, number in lines if word == b"done")
    floor = max((int(number) for word, number in lines if word == b"floor"), default=0)
    with timestore.Store(folder) as store:
        last = store.last
        assert last in (done, done + 1), (last, done)
        kept = floor_of(store)
        assert floor <= kept <= max(floor, last - KEPT), (floor, kept, last)
        with store.view() as view:
            for number in range(max(1, kept), last + 1):
                value = (str(number).encode(),)
                assert view.at(1, 7, number) == value
                assert view.at(1, number % RECORDS + 10, number) == value
    return last


def main() -> None:
    folder = Path(sys.argv[1])
    folder.mkdir()
    timestore.make(folder, 1024)
    chance, last = random.Random(7), 0
    for _ in range(ROUNDS):
        now = round_trip(folder, chance.uniform(0.005, 0.2))
        assert now > last
        last = now


if __name__ == "__main__":
    if sys.argv[1] == "write":
        write(sys.argv[2])
    main()
