"""Calls a second from Python: bench.py FOLDER COMMITS QUERIES, a folder that is there and empty."""

import sys
import time

import timestore


def rate(what: str, count: int, start: float) -> None:
    print(f"{what:58} {count / (time.monotonic() - start):12.0f} /s", flush=True)


def main(folder: str, commits: int, queries: int) -> None:
    timestore.make(folder, 65536)
    with timestore.Store(folder) as store:
        start = time.monotonic()
        for number in range(commits):
            with store.begin(label=number) as txn:
                txn.put(1, number, b"abcdefgh")
        rate("Python: commits a second, one at a time", commits, start)
        last, records = store.last, min(commits, 200)
        start = time.monotonic()
        for number in range(queries):
            store.at(1, number % records, last)
        rate("Python: point queries a second, a view each", queries, start)
        with store.view() as view:
            start = time.monotonic()
            for number in range(queries):
                view.at(1, number % records, last)
            rate("Python: point queries a second, on one view", queries, start)


if __name__ == "__main__":
    main(sys.argv[1], int(sys.argv[2]), int(sys.argv[3]))
