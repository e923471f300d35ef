"""Takes a copy of a store, which can then be read for as long as one likes while others go on writing."""

import fcntl
import shutil
import time
from pathlib import Path
from typing import IO

from .chains import has_chains
from .slots import last_reclaim

LOCK_PAUSE_SECONDS = 0.02
TRIES = 3


class InUse(Exception):
    """Another process has the store open, or went on changing it."""


class NeedsLock(Exception):
    """A store of profile 4 is not copied while another process may write it."""


def stamp(folder: Path) -> tuple[int, ...]:
    """What changes where the store does: when its status and its heap were written last, and how long they are."""
    states = [(folder / name).stat() for name in ("status", "heap")]
    return tuple(number for state in states for number in (state.st_mtime_ns, state.st_size))


def copy(folder: Path, target: Path, wait_seconds: float, is_locked: bool) -> None:
    """Copies a store's files. `InUse` where another process has it.

    It is locked, shared, while status and heap are copied. The archive follows without: what it has is never
    written over. Without the lock it is copied again where a reclaim came in between, which lets bytes of the heap
    be written over. A store of profile 4 is never copied without (`NeedsLock`): the log itself is in the heap, and the
    copy might have the gate of a chain whose other extents were copied before they were written.
    """
    with open(folder / "status", "rb") as status:
        if is_locked:
            _lock(status, wait_seconds)
            _copy_front(folder, target)
            fcntl.flock(status, fcntl.LOCK_UN)
        elif has_chains(status.read()):
            raise NeedsLock("--unlocked is not for a store of profile 4, whose copy could be damaged")
        else:
            _copy_unlocked(folder, target)
    shutil.copyfile(folder / "archive", target / "archive")


def _copy_front(folder: Path, target: Path) -> None:
    for name in ("status", "heap"):
        shutil.copyfile(folder / name, target / name)


def _copy_unlocked(folder: Path, target: Path) -> None:
    """The same while a process may have the store open."""
    for _ in range(TRIES):
        _copy_front(folder, target)
        before, after = ((it / "status").read_bytes() for it in (target, folder))
        if last_reclaim(before) == last_reclaim(after):
            return
    raise InUse("the store was reclaimed while it was copied")


def _lock(status: IO[bytes], wait_seconds: float) -> None:
    end = time.monotonic() + wait_seconds
    while True:
        try:
            fcntl.flock(status, fcntl.LOCK_SH | fcntl.LOCK_NB)
            return
        except BlockingIOError:
            if time.monotonic() > end:
                raise InUse("another process has the store open") from None
            time.sleep(LOCK_PAUSE_SECONDS)
