"""What calls are refused with, each by its code."""

from typing import TYPE_CHECKING

if TYPE_CHECKING:
    from . import SharedTicket, Ticket


class Refused(Exception):
    """A call that was refused. `first` and `second` are the numbers that it told.

    Where the system refused a call, `call` is its name, `file` the store's file that it was about
    (empty for the folder) and `errno` says why; else they are None.
    """

    __module__ = "timestore"
    code = 0
    errno: int | None = None
    call: str | None = None
    file: str | None = None

    def __init_subclass__(cls, code: int | None = None) -> None:
        if cls.__module__ == __name__:
            cls.__module__ = "timestore"
        if code is not None:
            cls.code = code
            FAULTS[code] = cls

    def __init__(self, text: str, first: int = 0, second: int = 0) -> None:
        super().__init__(text)
        self.first = first
        self.second = second


FAULTS: dict[int, type[Refused]] = {}


class Waiting(Refused, code=2):
    """Memory was refused amid a commit, which waits: a later flush publishes it. `ticket` is the
    commit's."""

    ticket: "Ticket | SharedTicket"


class InDoubt(Refused, code=4):
    """The device failed before the commit was published: opened again, the store has it or not."""


class Pending(Refused, code=-1):
    """The last device call was not made yet."""


class Closed(Refused, code=-2):
    """No store is open."""


class Unknown(Refused, code=-3):
    """No such transaction, ticket or view: it was given back."""


class NoMemory(Refused, code=-5):
    """Memory was refused."""


class Failed(Refused, code=-6):
    """A device call was refused, now or before."""


class Stranger(Refused, code=-7):
    """A transaction, ticket or view of another store."""


class Conflict(Refused, code=-8):
    """Another transaction wrote a record too, and was first: `relation` and `record` name it."""

    @property
    def relation(self) -> int:
        """The relation of the least such record."""
        return self.first

    @property
    def record(self) -> int:
        """Its number."""
        return self.second


class HeapFull(Refused, code=-9):
    """The records need more extents than are free, or an archive or a floor where there are no slots."""


class StatusFull(Refused, code=-10):
    """Too few slots of the status log are left."""


class ClockEnd(Refused, code=-11):
    """No commit time is left."""


class Missing(Refused, code=-12):
    """A delete of a record that has no value."""


class TooManyKeys(Refused, code=-13):
    """A transaction writes at most 1,024 records."""


class BadValue(Refused, code=-14):
    """A value has 1 to 16 fields of at most 255 bytes."""


class BeforeKept(Refused, code=-15):
    """History before the floor may be gone."""

    @property
    def floor(self) -> int:
        """The time of the relation's floor."""
        return self.first


class NotYet(Refused, code=-16):
    """The time is after the last commit: a later one may change the answer."""

    @property
    def last(self) -> int:
        """The time of the last commit."""
        return self.first


class EmptyInterval(Refused, code=-17):
    """An interval that ends where it begins, or before."""


class Damaged(Refused, code=-18):
    """The files are not what a stop can leave."""

    @property
    def area(self) -> str:
        """The file that breaks a rule: `status`, `heap` or `archive`."""
        return ("status", "heap", "archive")[self.second]

    @property
    def place(self) -> int:
        """Where: a slot, the first extent of a chain, or the first byte of what an archive wrote."""
        return self.first


class NotAStore(Refused, code=-19):
    """The folder has no store."""


class Busy(Refused, code=-20):
    """One slot is written at a time: pump the other one."""


class JobBusy(Refused, code=-21):
    """An archive, a reclaim, a floor or a growth is being made."""


class NothingToDo(Refused, code=-22):
    """All of it is archived or reclaimed, or the floor is as late."""


class ArchiveFull(Refused, code=-23):
    """The archive is full."""


class BadSlots(Refused, code=-24):
    """A store has 16 to 65,536 slots; one of the endless profile 64 to 1,048,576 extents, by 16."""


class InUse(Refused, code=-25):
    """An open transaction reads below that."""

    @property
    def snapshot(self) -> int:
        """The time of the least open snapshot."""
        return self.first


class NeedsArchive(Refused, code=-26):
    """The answer needs the archive."""


class WrongProfile(Refused, code=-27):
    """This store has a floor for each relation, or one for all."""


class NotGrowable(Refused, code=-28):
    """The store would have more than 65,536 slots, it has none, or the first timestore made it."""


class System(Refused, code=-100):
    """The system refused a call: `call`, `file` and `errno` say which and why."""


class Locked(Refused, code=-101):
    """Another process has the store open."""


class Occupied(Refused, code=-102):
    """A store, or something else, is there already."""


class Cached(Refused, code=-103):
    """The system keeps a part of a file in memory that the disk may lack, and it can't be compared."""


class AlreadyOpen(Locked, code=-104):
    """This process has the store open."""
