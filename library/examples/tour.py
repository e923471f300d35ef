"""The tour: tour.py FOLDER, a folder that is there."""

import sys
from datetime import datetime, timezone

import timestore


def main(folder: str) -> None:
    timestore.make(folder)
    with timestore.Store(folder) as store:
        with store.begin(label=9, now=100) as txn:
            print("snapshot", txn.snapshot)
            txn.put(1, 7, b"a")
        print("done", txn.time)
        print("at 100:", store.at(1, 7, 100))
        try:
            store.at(1, 7, 101)
        except timestore.NotYet as why:
            print(f"refused: {why} {why.last}")
        for row in store.between(1, 7, 0, 101):
            print(row.start, row.end, row.fields)
        # Two transactions that wrote the same record: the first one wins.
        first, second = store.begin(), store.begin()
        first.put(1, 7, b"b")
        second.put(1, 7, b"c")
        first.commit(9, datetime(2026, 1, 1, tzinfo=timezone.utc))
        try:
            second.commit(9)
        except timestore.Conflict as why:
            print(f"refused: {why} {why.relation} {why.record}")
        print("last:", timestore.moment(store.last).isoformat())

        def count(txn: timestore.Transaction) -> int:
            """Adds one to the number in a record. Where another transaction is ahead, it is called again."""
            counted = (txn.get(1, 8) or (b"\0",))[0][0] + 1
            txn.put(1, 8, bytes([counted]))
            return counted

        for _ in range(3):
            counted = store.transact(count, label=9)
        print("counted", counted, store.get(1, 8))


if __name__ == "__main__":
    main(sys.argv[1])
