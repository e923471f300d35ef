"""A disk that lacks what the system has of it in memory, as after a sync that failed: stale.py FOLDER.

The store lies in a file system within a file. One test takes a gate away from that file, behind the back of the
system, which goes on to have the gate in memory; in the other the device refuses what a sync writes. Where no file
system can be mounted the status is 4, and the last line says why.
"""

import ctypes
import errno
import mmap
import os
import subprocess
import sys
from pathlib import Path

import timestore

FRONT, SLOT, PAGE = 512, 512, 4096
SIZE = 1 << 24
COMMITS = 7  # the slot of the last one is the last in the first page of the status file
NOT_TRIED = 4


class Disk:
    """A file system in a file of a folder."""

    def __init__(self, folder: Path) -> None:
        self.image, self.place = folder / "image", folder / "mounted"
        self.place.mkdir()
        with self.image.open("wb") as image:
            os.posix_fallocate(image.fileno(), 0, SIZE)
        options = ["-b", str(PAGE), "-O", "^has_journal", "-E", "nodiscard"]
        subprocess.run(["mkfs.ext4", "-q", "-F", *options, self.image], check=True)

    def __enter__(self) -> "Disk":
        subprocess.run(["mount", "-o", "loop", self.image, self.place], check=True, capture_output=True)
        return self

    def __exit__(self, *_: object) -> None:
        subprocess.run(["umount", self.place], check=True)

    def find(self, page: bytes) -> int:
        """Where this page lies, which is there once."""
        content = self.image.read_bytes()
        at = content.find(page)
        assert at >= 0 and at % PAGE == 0 and content.find(page, at + 1) < 0
        return at

    def has(self, at: int) -> bytes:
        """A page as the disk has it."""
        with self.image.open("rb", buffering=0) as image:
            image.seek(at)
            return image.read(PAGE)

    def take(self, at: int) -> None:
        """The disk has a byte no more, which the system has in memory."""
        with self.image.open("r+b", buffering=0) as image:
            image.seek(at)
            assert image.write(b"\0") == 1
            os.fsync(image.fileno())


class Small:
    """A folder in memory that has little more room than a disk needs."""

    def __init__(self, folder: Path) -> None:
        self.place = folder
        self.ballast = folder / "ballast"
        folder.mkdir()

    def __enter__(self) -> "Small":
        options = ["-t", "tmpfs", "-o", f"size={SIZE + (1 << 20)}"]
        subprocess.run(["mount", *options, "none", self.place], check=True, capture_output=True)
        return self

    def __exit__(self, *_: object) -> None:
        subprocess.run(["umount", self.place], check=True)

    def fill(self) -> None:
        """There is no room left."""
        with self.ballast.open("ab", buffering=0) as ballast:
            try:
                while True:
                    ballast.write(bytes(PAGE))
            except OSError as why:
                assert why.errno == errno.ENOSPC

    def drop(self, disk: Disk, at: int) -> None:
        """A page of the disk has no room any more, and reads as zeros. What fills the folder comes in its place."""
        hole = 3  # a hole, and the length as it is
        with disk.image.open("r+b", buffering=0) as image:
            length = ctypes.c_int64(PAGE)
            assert ctypes.CDLL(None).fallocate(image.fileno(), hole, ctypes.c_int64(at), length) == 0
        self.fill()

    def empty(self) -> None:
        """There is room again."""
        self.ballast.unlink()


def store_on(disk: Disk) -> Path:
    """The folder of a store on it, with some commits."""
    reg = disk.place / "reg"
    reg.mkdir()
    timestore.make(reg, 64)
    with timestore.Store(reg) as store:
        for number in range(1, COMMITS + 1):
            store.put(1, number, b"done", now=100 * number)
    os.sync()
    return reg


def is_refused_while_mapped(reg: Path) -> None:
    """The system drops no page that is mapped, and so what differs from the disk is not opened."""
    with (reg / "status").open("rb") as file, mmap.mmap(file.fileno(), PAGE, prot=mmap.PROT_READ) as mapped:
        assert mapped[0] != 0
        try:
            raise AssertionError(timestore.Store(reg))
        except timestore.Cached as why:
            assert (why.call, why.file, why.errno) == ("posix_fadvise", "status", errno.EBUSY)


def a_gate_that_is_taken_away(folder: Path) -> None:
    disk = Disk(folder)
    with disk:
        reg = store_on(disk)
        page = (reg / "status").read_bytes()[:PAGE]
        gate = FRONT + (COMMITS - 1) * SLOT
        disk.take(disk.find(page) + gate)
        assert (reg / "status").read_bytes()[gate] == page[gate] != 0
        is_refused_while_mapped(reg)
        with timestore.Store(reg) as store:
            assert store.last == 100 * (COMMITS - 1), store.last
            later = store.put(1, COMMITS, b"later", now=100 * COMMITS + 50)
    with disk, timestore.Store(reg) as store:
        assert store.last == later, (store.last, later)
        assert store.get(1, COMMITS) == (b"later",)


def begin_commit(store: timestore.Store) -> None:
    """A commit whose body is on the disk, in the second page of the status file, and its gate not."""
    txn = store.begin()
    txn.put(1, COMMITS + 1, b"lost")
    ticket = txn.submit(now=100 * (COMMITS + 1))
    assert ticket is not None
    while store.pump()[0] is not timestore.Step.BODY_SYNCED:
        pass


def fails_at_its_gate(store: timestore.Store) -> None:
    """Its sync is refused by the device, which had no part in the write before it."""
    assert store.pump()[0] is timestore.Step.GATE_WRITTEN
    try:
        raise AssertionError(store.pump())
    except timestore.Failed as why:
        assert (why.call, why.file) == ("fdatasync", "status"), why
        assert why.errno in (errno.EIO, errno.ENOSPC), why


def a_sync_that_fails(folder: Path) -> None:
    with Small(folder / "small") as small:
        disk = Disk(small.place)
        with disk:
            reg = store_on(disk)
            with timestore.Store(reg) as store:
                begin_commit(store)
                at = disk.find((reg / "status").read_bytes()[PAGE:2 * PAGE])
                small.drop(disk, at)
                fails_at_its_gate(store)
            # The gate is in memory, where it counts as written, and the disk has not even its slot.
            assert (reg / "status").read_bytes()[PAGE] != 0 and disk.has(at) == bytes(PAGE)
            small.empty()
            with timestore.Store(reg) as store:
                assert store.last == 100 * COMMITS, store.last
                assert store.get(1, COMMITS + 1) is None
                later = store.put(1, COMMITS + 1, b"later", now=100 * (COMMITS + 2))
        with disk, timestore.Store(reg) as store:
            assert store.last == later, (store.last, later)
            assert store.get(1, COMMITS + 1) == (b"later",)


def why_not(folder: Path) -> str | None:
    """Why no file system can be mounted here; None where one can."""
    try:
        with Small(folder / "tried-small"), Disk(folder):
            return None
    except (FileNotFoundError, PermissionError, subprocess.CalledProcessError) as why:
        return str(why)


def main() -> int:
    folder = Path(sys.argv[1])
    names = ("mounted-here", "taken", "failed")
    for name in names:
        (folder / name).mkdir(parents=True)
    here, taken, failed = (folder / name for name in names)
    reason = why_not(here)
    if reason is not None:
        print(reason)
        return NOT_TRIED
    a_gate_that_is_taken_away(taken)
    a_sync_that_fails(failed)
    return 0


if __name__ == "__main__":
    sys.exit(main())
