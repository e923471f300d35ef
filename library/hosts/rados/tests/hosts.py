"""Hosts that are killed, suspended and replaced, over object stores that are killed too: hosts.py CLUSTER FOLDER. CLUSTER is the folder
of a running cluster of cluster.sh, FOLDER one that is there and empty, whose name begins those of the stores. Each test asserts that
what a host was answered as done is there, whatever became of the host; archives, reclaims, floors and growths run among the commits."""

import contextlib
import hashlib
import os
import random
import signal
import subprocess
import sys
import threading
import time
from collections.abc import Callable
from dataclasses import replace
from pathlib import Path
from typing import Self

import timestore
import timestore_rados as rados

HERE = Path(__file__).resolve().parent
sys.path.insert(0, str(HERE.parents[2] / "tests"))
import killed  # noqa: E402

LEASE = 4  # seconds, where an owner is replaced once its lease has ended
PATIENCE = 90  # seconds that a cluster may take to serve again
VACUUM_EVERY = 40  # commits


def place_of(cluster: Path, name: str, cold: Path | None = None, lease: int = 30, take_over: bool = False) -> rados.Place:
    return rados.Place("store", name, "store", cluster / "ceph.conf", cold, rados.MEBIBYTE, lease, take_over)


# ---- a host in a process of its own


def write(place: rados.Place, seconds: int) -> None:
    """Commits numbers, with a vacuum now and then, until it is killed or refused, which is told with its cause's code; or for so
    many seconds, where they are not 0, if it owns the store so long."""
    end = time.monotonic() + seconds if seconds else float("inf")
    try:
        store = rados.Store(place)
    except (rados.Fenced, timestore.Locked) as refusal:
        print("refused", type(refusal).__name__, refusal.code, flush=True)
        return
    with store:
        number = store.last
        try:
            while time.monotonic() < end:
                number += 1
                killed.commit(store, number)
                if number % VACUUM_EVERY == 0:
                    vacuum(store, number)
            print("still owner", flush=True)
        except timestore.Refused as refusal:
            cause = store.cause
            print("refused", type(refusal).__name__, cause.code if cause else 0, flush=True)


def commit(store: rados.Store, number: int) -> None:
    """A commit of this process, which tells of none."""
    with contextlib.redirect_stdout(None):
        killed.commit(store, number)


def vacuum(store: rados.Store, number: int) -> None:
    try:
        killed.vacuum(store, number)
    except (timestore.NothingToDo, timestore.NotGrowable):
        pass


class Writer:
    """Such a host. What it tells is read as it comes."""

    def __init__(self, place: rados.Place, seconds: int = 0) -> None:
        words = [place.conf, place.store, place.folder or "", place.lease, int(place.take_over), seconds]
        self.process = subprocess.Popen([sys.executable, __file__, "write", *map(str, words)], stdout=subprocess.PIPE, text=True)
        self.lines: list[str] = []
        self._reader = threading.Thread(target=self._read)
        self._reader.start()

    def _read(self) -> None:
        assert self.process.stdout
        for line in self.process.stdout:
            if line.endswith("\n"):  # the last one may be cut
                self.lines.append(line.rstrip())

    @property
    def done(self) -> int:
        """The last commit that it was answered as done."""
        return max((int(line.split()[1]) for line in list(self.lines) if line.startswith("done ")), default=0)

    @property
    def floor(self) -> int:
        return max((int(line.split()[1]) for line in list(self.lines) if line.startswith("floor ")), default=0)

    @property
    def refusal(self) -> list[str]:
        """The name of the refusal that ended it, and the code of its cause."""
        return next((line.split()[1:] for line in self.lines if line.startswith("refused ")), [])

    def await_done(self, number: int) -> None:
        """Waits until it was answered a commit of this number, or a later one."""
        end = time.monotonic() + PATIENCE
        while self.done < number:
            assert time.monotonic() < end and self.process.poll() is None, (number, self.lines[-3:])
            time.sleep(0.01)

    def signal(self, number: int) -> None:
        os.kill(self.process.pid, number)

    def end(self, number: int | None = None) -> Self:
        """Waits for its end, after a signal if one is given; then all that it told is here."""
        if number is not None:
            self.signal(number)
        self.process.wait(PATIENCE)
        self._reader.join()
        return self


def check_store(store: rados.Store, done: int, floor: int) -> None:
    """That a store has all commits up to this one, perhaps one more, and a floor as late as this one."""
    last, kept = store.last, killed.floor_of(store)
    assert last in (done, done + 1), (last, done)
    assert floor <= kept <= max(floor, last - killed.KEPT), (floor, kept, last)
    with store.view() as view:
        for number in range(max(1, kept), last + 1):
            value = (str(number).encode(),)
            assert view.at(1, 7, number) == value, number
            assert view.at(1, number % killed.RECORDS + 10, number) == value, number


def check_after(place: rados.Place, writer: Writer) -> int:
    """Opens the store as a second host, which has what the writer was answered; its last commit. It can commit too."""
    with rados.Store(place) as store:
        check_store(store, writer.done, writer.floor)
        store.begin().abort()
        commit(store, store.last + 1)
        return store.last


# ---- the tests


class Cluster:
    def __init__(self, folder: Path, work: Path) -> None:
        self.folder, self.work = folder, work
        self.chance = random.Random(7)

    def run(self, *words: str) -> None:
        subprocess.run([HERE.parent / "cluster.sh", words[0], self.folder, *words[1:]], check=True)

    def ceph(self, *words: str) -> None:
        command = ["ceph", "-c", str(self.folder / "ceph.conf"), *words]
        subprocess.run(command, check=True, stdout=subprocess.DEVNULL, stderr=subprocess.DEVNULL, timeout=60)

    def of_objects(self, store: str, *words: str) -> bytes:
        command = ["rados", "-c", str(self.folder / "ceph.conf"), "-p", "store", "-N", store, *words]
        return subprocess.run(command, check=True, stdout=subprocess.PIPE, timeout=60).stdout

    def digests(self, store: str) -> dict[str, str]:
        """Of each object of an area its bytes' digest."""
        names = sorted(self.of_objects(store, "ls").decode().split())
        return {name: hashlib.sha256(self.of_objects(store, "get", name, "-")).hexdigest() for name in names if name != "head"}

    def soon(self) -> None:
        time.sleep(self.chance.uniform(0.05, 0.8))

    def made(self, name: str, cold: bool = False) -> rados.Place:
        folder = self.work / name if cold else None
        if folder:
            folder.mkdir()
        place = place_of(self.folder, f"{self.work.name}-{name}", folder)
        rados.make(place, 4096)
        return place

    def replacing(self, place: rados.Place) -> rados.Place:
        return replace(place, take_over=True)


def killed_hosts(cluster: Cluster, name: str = "killed", cold: bool = False) -> None:
    """A host is killed amid commits, and a second one takes the store over."""
    place, last = cluster.made(name, cold), 0
    for _ in range(5):
        writer = Writer(cluster.replacing(place))
        writer.await_done(last + 1)
        cluster.soon()
        writer.end(signal.SIGKILL)
        now = check_after(cluster.replacing(place), writer)
        assert now > last
        last = now


def killed_cold_hosts(cluster: Cluster) -> None:
    """The same where status and heap are local files, and the archive alone is in the pool."""
    killed_hosts(cluster, "killed-cold", True)


def ended_lease(cluster: Cluster) -> None:
    """Without being told to replace its owner, a host has the store only once the lease of the killed one has ended."""
    place = replace(cluster.made("lease"), lease=LEASE)
    writer = Writer(place)
    writer.await_done(5)
    writer.end(signal.SIGKILL)
    start, refused = time.monotonic(), 0
    while True:
        try:
            check_after(place, writer)
            break
        except timestore.Locked:
            refused += 1
            assert time.monotonic() < start + LEASE + PATIENCE
            time.sleep(0.2)
    assert refused > 0


def kept_lease(cluster: Cluster) -> None:
    """A host that lives keeps its store beyond its lease's first end."""
    place = replace(cluster.made("kept"), lease=3)
    writer = Writer(place)
    writer.await_done(1)
    for _ in range(16):
        try:
            rados.Store(place).close()
            raise AssertionError("two owners")
        except timestore.Locked:
            time.sleep(0.4)
    last = writer.done
    writer.await_done(last + 5)
    check_after(cluster.replacing(place), writer.end(signal.SIGKILL))


def killed_object_stores(cluster: Cluster) -> None:
    """Each object store is killed in turn amid commits, which go on without it; so they do when it comes back."""
    place = cluster.made("osds")
    writer = Writer(place)
    writer.await_done(10)
    for number in "012":
        cluster.run("stop-osd", number, "KILL")
        writer.await_done(writer.done + 50)
        cluster.run("start-osd", number)
        writer.await_done(writer.done + 50)
    writer.end(signal.SIGKILL)
    check_after(cluster.replacing(place), writer)


def all_killed(cluster: Cluster) -> None:
    """All object stores and the host are killed at once."""
    place = cluster.made("all")
    writer = Writer(place)
    writer.await_done(30)
    cluster.soon()
    threads = [threading.Thread(target=cluster.run, args=("stop-osd", number, "KILL")) for number in "012"]
    for thread in threads:
        thread.start()
    writer.end(signal.SIGKILL)
    for thread in threads:
        thread.join()
    for number in "012":
        cluster.run("start-osd", number)
    check_after(cluster.replacing(place), writer)


def suspended(cluster: Cluster, place: rados.Place, taker: rados.Place, wait: float) -> None:
    """A host is suspended amid commits, and another takes the store over; once the first one goes on it can't write."""
    writer = Writer(place)
    writer.await_done(10)
    cluster.soon()
    writer.signal(signal.SIGSTOP)
    time.sleep(wait)
    with rados.Store(taker) as store:
        check_store(store, writer.done, writer.floor)
        done = store.last
        for number in range(done + 1, done + 21):
            commit(store, number)
        before = cluster.digests(place.store)
        assert len(before) >= 2
        writer.signal(signal.SIGCONT)
        writer.end()
        name, cause = writer.refusal
        assert name in ("InDoubt", "Fenced") and int(cause) == rados.Fenced.code, writer.lines[-3:]
        assert cluster.digests(place.store) == before
        assert writer.done <= done
        commit(store, done + 21)
    with rados.Store(place) as store:
        check_store(store, done + 21, writer.floor)


def suspended_hosts(cluster: Cluster) -> None:
    place = cluster.made("suspended")
    for _ in range(3):
        suspended(cluster, place, cluster.replacing(place), 0)


def suspended_cold_host(cluster: Cluster) -> None:
    """The same of an archive that is alone in the pool: the local files are locked, and nothing takes the store over on this machine."""
    place = cluster.made("suspended-cold", True)
    writer = Writer(place)
    writer.await_done(3)
    writer.signal(signal.SIGSTOP)
    try:
        rados.Store(cluster.replacing(place)).close()
        raise AssertionError("two owners")
    except timestore.Locked:
        pass
    writer.signal(signal.SIGCONT)
    writer.await_done(writer.done + 5)
    check_after(cluster.replacing(place), writer.end(signal.SIGKILL))


def suspended_beyond_the_lease(cluster: Cluster) -> None:
    place = replace(cluster.made("beyond"), lease=LEASE)
    for _ in range(2):
        suspended(cluster, place, place, LEASE + 1)


def race(cluster: Cluster) -> None:
    """Four hosts take a store over at once: one owns it at the end, and what any of them was answered is there."""
    place = cluster.made("race")
    for _ in range(3):
        writers = [Writer(cluster.replacing(place), 4) for _ in range(4)]
        for writer in writers:
            writer.end()
        assert sum("still owner" in writer.lines for writer in writers) == 1, [writer.lines[-2:] for writer in writers]
        with rados.Store(place) as store:
            check_store(store, max(writer.done for writer in writers), max(writer.floor for writer in writers))


def full_pool(cluster: Cluster) -> None:
    """A full pool refuses a commit, with its cause, and loses none of those that were done."""
    place = cluster.made("full")
    writer = Writer(place)
    writer.await_done(3)
    cluster.ceph("osd", "pool", "set-quota", "store", "max_bytes", "4096")
    writer.end()
    name, cause = writer.refusal
    assert name in ("InDoubt", "Failed") and int(cause) == timestore.System.code, writer.lines[-3:]
    cluster.ceph("osd", "pool", "set-quota", "store", "max_bytes", "0")
    end = time.monotonic() + PATIENCE
    while True:
        try:
            check_after(place, writer)
            break
        except (timestore.Failed, timestore.InDoubt, timestore.System):  # the pool is still marked as full
            assert time.monotonic() < end
            time.sleep(0.5)


TESTS: tuple[Callable[[Cluster], None], ...] = (
    killed_hosts,
    killed_cold_hosts,
    ended_lease,
    kept_lease,
    killed_object_stores,
    all_killed,
    suspended_hosts,
    suspended_beyond_the_lease,
    suspended_cold_host,
    race,
    full_pool,
)


def main() -> None:
    cluster = Cluster(Path(sys.argv[1]), Path(sys.argv[2]))
    wanted = sys.argv[3:]
    for test in TESTS:
        if wanted and test.__name__ not in wanted:
            continue
        print(f"{'hosts: ' + test.__name__.replace('_', ' '):<60} ", end="", flush=True)
        start = time.monotonic()
        test(cluster)
        print(f"ok {time.monotonic() - start:.1f} s", flush=True)


if __name__ == "__main__":
    if sys.argv[1] == "write":
        conf, name, folder, lease, take_over, seconds = sys.argv[2:]
        write(place_of(Path(conf).parent, name, Path(folder) if folder else None, int(lease), take_over == "1"), int(seconds))
    else:
        main()
