"""One store and several threads: owner.py FOLDER.

An executor of one thread owns the store. What the others want of it waits in its queue.
"""

import sys
from concurrent.futures import ThreadPoolExecutor

import timestore


def commit(store: timestore.Store, record: int) -> int:
    """Runs on the owner's thread."""
    return store.put(1, record, b"a")


def main(folder: str) -> None:
    timestore.make(folder)
    with ThreadPoolExecutor(1) as owner, ThreadPoolExecutor(4) as others:
        store = owner.submit(timestore.Store, folder).result()

        def ask(record: int) -> int:
            return owner.submit(commit, store, record).result()

        times = set(others.map(ask, range(100)))
        print(f"4 threads, {len(times)} commits")
        owner.submit(store.close).result()


if __name__ == "__main__":
    main(sys.argv[1])
