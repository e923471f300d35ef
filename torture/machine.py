"""The small machine: what a store answers, by its write sets alone. It knows nothing of files."""
from __future__ import annotations

from collections.abc import Sequence
from dataclasses import dataclass, field
from typing import TypeVar

GROUP_MOST = 16
NAMES_MOST = 64
LATEST = (1 << 63) - 1
# a submit leaves so many slots for jobs
SPARE_FOR_JOBS = 2
# the slots of a piece, and the most that a store has
PIECE, SLOTS_MOST = 256, 65536
# those with slots: a store of the first one does not grow; in the last one each relation has a
# floor of its own
PROFILES = (1, 2, 3)
NEWEST = PROFILES[-1]
# the one whose log lies in the heap
ENDLESS = 4

# relation, record
Key = tuple[int, int]
# the fields as they are written in a script, or None where the record is gone
Fields = str | None
# of each relation that has one; the one of all relations is that of None
Floors = dict[int | None, int]
Found = TypeVar("Found")


@dataclass(frozen=True)
class Commit:
    time: int
    label: int
    writes: dict[Key, Fields]


@dataclass
class Transaction:
    snapshot: int
    writes: dict[Key, Fields] = field(default_factory=dict)


History = Sequence[Commit]
# from, up to (None: it still stands), fields
Version = tuple[int, int | None, str]


# ---- what a history answers


def versions(history: History, key: Key) -> list[Version]:
    """The versions of a key, oldest first."""
    found: list[Version] = []
    for commit in history:
        if key in commit.writes:
            if found and found[-1][1] is None:
                found[-1] = (found[-1][0], commit.time, found[-1][2])
            if commit.writes[key] is not None:
                found.append((commit.time, None, commit.writes[key]))
    return found


def all_versions(history: History) -> list[tuple[Key, int, int | None, str]]:
    return [
        (key, *it)
        for key in sorted({key for it in history for key in it.writes})
        for it in versions(history, key)
    ]


def last(history: History) -> int:
    return history[-1].time if history else 0


def refusal(newest: int, floor: int, first: int, end: int) -> list[str]:
    """Why a query from a time to one before an end is refused, the first reason that applies;
    empty where it is answered."""
    if min(first, end) < floor:
        return [f"refused: before kept {floor}"]
    if end > newest + 1:
        return [f"refused: not yet {newest}"]
    return ["refused: empty interval"] if end <= first else []


def at(history: History, key: Key, time: int, floor: int = 0) -> list[str]:
    """The line that answers a query at a time."""
    refused = refusal(last(history), floor, time, time + 1)
    for start, end, fields in versions(history, key) if not refused else []:
        if start <= time and (end is None or time < end):
            return [f"value {fields}"]
    return refused or ["none"]


def between(history: History, key: Key, a: int, b: int, floor: int = 0) -> list[str]:
    refused = refusal(last(history), floor, a, b)
    if refused:
        return refused
    rows = []
    for start, end, fields in versions(history, key):
        low, high = max(a, start), b if end is None else min(b, end)
        if low < high:
            rows.append(f"{low} {high} {fields}")
    return rows + [f"rows {len(rows)}"]


def scan(history: History, relation: int, time: int, floor: int = 0) -> list[str]:
    refused = refusal(last(history), floor, time, time + 1)
    if refused:
        return refused
    keys = sorted({key for commit in history for key in commit.writes if key[0] == relation})
    found = [(key, at(history, key, time)[0]) for key in keys]
    rows = [f"{key[1]} {said.removeprefix('value ')}" for key, said in found if said != "none"]
    return rows + [f"rows {len(rows)}"]


def times(history: History, label: int) -> list[str]:
    return [" ".join(["times", *(str(it.time) for it in history if it.label == label)])]


# ---- profiles


def can_grow(profile: int) -> bool:
    return profile in (2, 3)


def has_own_floors(profile: int) -> bool:
    """Whether each relation has a floor of its own."""
    return profile >= 3


def floor_of(floors: Floors, relation: int) -> int:
    return floors.get(relation, floors.get(None, 0))


def floor_line(profile: int, relation: int, time: int) -> str:
    """The line that raises the floor of a relation, or the one floor that there is."""
    return f"floorof {relation} {time}" if has_own_floors(profile) else f"floor {time}"


def opened(profile: int, newest: int, floors: Floors) -> str:
    """What `reopen` says."""
    said = f"floors {len(floors)}" if has_own_floors(profile) else f"floor {floor_of(floors, 0)}"
    return f"last {newest} {said}"


# ---- the steps of a group and of a job

SLOT_STEPS = ("body written", "body synced", "gate written")
# what may come after a step, and first; each kind of job and the group has its own
Order = dict[str | None, tuple[str, ...]]


def slot_after(step: str | None, end: str) -> Order:
    """The four calls of a slot behind a step; the last one has an answer of its own."""
    return {
        step: ("body written",), "body written": ("body synced",),
        "body synced": ("gate written",), "gate written": (end,),
    }


NEXT: dict[str, Order] = {
    "group": {
        None: ("wrote extent",), "wrote extent": ("wrote extent", "heap synced"),
        **slot_after("heap synced", "published"),
    },
    "archive": {
        None: ("wrote run", "run synced"), "wrote run": ("wrote run", "run synced"),
        **slot_after("run synced", "job done"),
    },
    "reclaim": {
        None: ("wrote extent", "heap synced"), "wrote extent": ("wrote extent", "heap synced"),
        **slot_after("heap synced", "job done"),
    },
    "floor": slot_after(None, "job done"),
}
# each step of a growth, which takes no slot
GROWTH = ("wrote zeros",) * 16 + ("zeros synced", "gate written", "job done")


@dataclass
class Job:
    """An archive, a reclaim or a floor, up to a time, or a growth; its last step and how many it
    has made; and the relation of a floor that is not that of all."""

    kind: str
    upto: int
    step: str | None = None
    relation: int | None = None
    made: int = 0

    def takes_slot(self) -> bool:
        return self.kind != "grow"

    def next_steps(self) -> tuple[str, ...]:
        """The steps that may come next."""
        return NEXT[self.kind][self.step] if self.takes_slot() else (GROWTH[self.made],)

    def is_in_slot(self) -> bool:
        return self.takes_slot() and self.step in SLOT_STEPS

    def begins_slot(self) -> bool:
        return self.takes_slot() and self.next_steps() == ("body written",)

    def makes(self, step: str) -> None:
        self.step, self.made = step, self.made + 1


@dataclass(frozen=True)
class Front:
    """What a stop may leave: one of these numbers of an order's first commits, with floors that are
    one of these, and one of these numbers of slots."""

    order: History
    counts: Sequence[int]
    floors: Sequence[Floors]
    slots: Sequence[int]


class Machine:
    """A store without its disk: what is published, what waits, the open transactions, and how far
    a group and a job are."""

    group_most = GROUP_MOST
    group_steps = NEXT["group"]

    def __init__(
        self, published: History = (), slots: int = SLOTS_MOST, used: int = 0, profile: int = 2,
        floors: Floors | None = None,
    ) -> None:
        self.published = list(published)
        self.archived, self.reclaimed = 0, 0
        self.profile, self.floors = profile, dict(floors or {})
        # the slots of the store, and those of its log
        self.slots, self.used = slots, used
        self.forget_what_waits()

    @property
    def floor(self) -> int:
        """The floor of all relations."""
        return self.floors.get(None, 0)

    def forget_what_waits(self) -> None:
        self.queue: list[Commit] = []
        self.group = 0
        # a transaction that is open, or the time of a ticket
        self.names: dict[str, Transaction | int] = {}
        # the last step of the group
        self.turn: str | None = None
        self.job: Job | None = None

    def with_group(self) -> list[Commit]:
        return self.published + self.queue[: self.group]

    def front(self) -> Front:
        """What a stop leaves now: what is published, or that with the group, the floor or the
        piece whose gate is in the writing."""
        order = self.with_group() if self.turn == "gate written" else list(self.published)
        is_open = self.job is not None and self.job.step == "gate written"
        return Front(
            order, (len(self.published), len(order)),
            self.floors_with_job() if is_open else (dict(self.floors),),
            self.slots_with_job() if is_open else (self.slots,),
        )

    def floors_with_job(self) -> tuple[Floors, ...]:
        """The floors now, and those once the job is done, if it raises one."""
        now, job = dict(self.floors), self.job
        is_floor = job is not None and job.kind == "floor"
        return (now, {**now, job.relation: job.upto}) if is_floor else (now,)

    def slots_with_job(self) -> tuple[int, ...]:
        """The slots now, and those once the job is done, if it is a growth."""
        is_growth = self.job is not None and self.job.kind == "grow"
        return (self.slots, self.slots + PIECE) if is_growth else (self.slots,)

    def spare(self) -> int:
        """The slots that no commit, group or job is to have."""
        in_slot = self.turn in SLOT_STEPS
        waiting = len(self.queue) - (self.group if in_slot else 0)
        has_slot = self.job is not None and self.job.takes_slot()
        return self.slots - self.used - in_slot - has_slot - waiting

    # ---- transactions

    def begin(self, name: str) -> list[str]:
        if name in self.names or len(self.names) >= NAMES_MOST:
            return ["refused: name"]
        self.names[name] = Transaction(last(self.published))
        return [f"snapshot {last(self.published)}"]

    def own(self, name: str, kind: type[Found]) -> Found | None:
        found = self.names.get(name)
        return found if isinstance(found, kind) else None

    def put(self, name: str, key: Key, fields: str) -> list[str]:
        txn = self.own(name, Transaction)
        if txn is None:
            return ["refused: name"]
        txn.writes[key] = fields
        return ["ok"]

    def delete(self, name: str, key: Key) -> list[str]:
        txn = self.own(name, Transaction)
        if txn is None:
            return ["refused: name"]
        before = self.seen(txn.snapshot, key)
        if (txn.writes[key] if key in txn.writes else before) is None:
            return ["refused: missing"]
        if before is None:
            del txn.writes[key]
        else:
            txn.writes[key] = None
        return ["ok"]

    def seen(self, snapshot: int, key: Key) -> Fields:
        before = [it for it in self.published if it.time <= snapshot]
        said = at(before, key, min(snapshot, last(self.published)))[0]
        return said.removeprefix("value ") if said.startswith("value ") else None

    def get(self, name: str, key: Key) -> list[str]:
        txn = self.own(name, Transaction)
        if txn is None:
            return ["refused: name"]
        fields = txn.writes[key] if key in txn.writes else self.seen(txn.snapshot, key)
        return ["none"] if fields is None else [f"value {fields}"]

    def submit(self, name: str, label: int, now: int) -> list[str]:
        txn = self.own(name, Transaction)
        if txn is None:
            return ["refused: name"]
        del self.names[name]
        if not txn.writes:
            return [f"readonly {txn.snapshot}"]
        order = self.published + self.queue
        for key in sorted(txn.writes):
            if any(it.time > txn.snapshot and key in it.writes for it in order):
                return [f"refused: conflict {key[0]} {key[1]}"]
        if self.spare() <= SPARE_FOR_JOBS:
            return ["refused: status full"]
        time = max(last(order) + 1, now)
        if time > LATEST:
            return ["refused: clock end"]
        self.queue.append(Commit(time, label, dict(txn.writes)))
        self.names[name] = time
        return ["queued"]

    def abort(self, name: str) -> list[str]:
        if self.own(name, Transaction) is None:
            return ["refused: name"]
        del self.names[name]
        return ["ok"]

    def redeem(self, name: str) -> list[str]:
        time = self.own(name, int)
        if time is None:
            return ["refused: name"]
        if time > last(self.published):
            return ["waiting"]
        del self.names[name]
        return [f"done {time}"]

    # ---- steps: how many extents and pieces there are is the store's to say, and is followed here

    def group_waits(self) -> bool:
        """Whether the next step of the group waits for the job: its slot is not begun while the
        job's is in the writing."""
        return self.job is not None and self.job.is_in_slot() and self.turn == "heap synced"

    def job_waits(self) -> bool:
        """Whether the next step of the job waits for the group, in the same way."""
        return self.job is not None and self.job.begins_slot() and self.turn in SLOT_STEPS

    def pumped(self, said: str) -> str | None:
        """Follows one step of a group; returns why it may not be answered so, or None."""
        if said == "idle":
            return None if not self.queue else "idle with a commit that waits"
        if not self.queue:
            return f"{said} with nothing that waits"
        if (said == "refused: busy") != self.group_waits():
            return f"{said} where the job's step is {self.job and self.job.step}"
        if said == "refused: busy":
            return None
        self.group = self.group or min(self.group_most, len(self.queue))
        name = "published" if said == f"published {self.group}" else said
        if name not in self.group_steps[self.turn]:
            return f"{said} is no step of a group of {self.group} after {self.turn}"
        self.turn = name
        if name == "published":
            self.publish()
        return None

    def publish(self) -> None:
        self.published, self.queue = self.with_group(), self.queue[self.group:]
        self.group, self.turn, self.used = 0, None, self.used + 1

    def jobbed(self, said: str) -> str | None:
        """Follows one step of a job."""
        if said == "idle":
            return None if self.job is None else "idle with a job that runs"
        if self.job is None:
            return f"{said} with no job"
        if (said == "refused: busy") != self.job_waits():
            return f"{said} where the group's step is {self.turn}"
        if said == "refused: busy":
            return None
        if said not in self.job.next_steps():
            return f"{said} is no step of this {self.job.kind} after {self.job.step}"
        self.job.makes(said)
        if said == "job done":
            self.end_job()
        return None

    def end_job(self) -> None:
        if self.job.kind == "archive":
            self.archived = self.job.upto
        elif self.job.kind == "reclaim":
            self.reclaimed = self.job.upto
        self.floors, self.slots = self.floors_with_job()[-1], self.slots_with_job()[-1]
        self.job, self.used = None, self.used + self.job.takes_slot()

    def floor_of(self, relation: int) -> int:
        return floor_of(self.floors, relation)

    # ---- starts of jobs

    def start(
        self, kind: str, upto: int, now: int, oldest_needed: int, relation: int | None = None
    ) -> list[str]:
        """Begins a job, unless one runs, it has nothing to do, no commit is as late, a snapshot is
        older, or there is no slot."""
        snapshots = [it.snapshot for it in self.names.values() if isinstance(it, Transaction)]
        if self.job is not None:
            return ["refused: job busy"]
        if upto <= now:
            return ["refused: nothing to do"]
        if upto > last(self.published):
            return [f"refused: not yet {last(self.published)}"]
        if min(snapshots, default=oldest_needed) < oldest_needed:
            return [f"refused: in use {min(snapshots)}"]
        if self.spare() < 1:
            return ["refused: status full"]
        self.job = Job(kind, upto, relation=relation)
        return ["started"]

    def archive(self, upto: int) -> list[str]:
        return self.start("archive", upto, self.archived, 0)

    def reclaim(self) -> list[str]:
        return self.start("reclaim", self.archived, self.reclaimed, self.archived)

    def raise_floor(self, floor: int) -> list[str]:
        if has_own_floors(self.profile):
            return ["refused: wrong profile"]
        return self.start("floor", floor, self.floor, floor)

    def raise_floor_of(self, relation: int, floor: int) -> list[str]:
        if not has_own_floors(self.profile):
            return ["refused: wrong profile"]
        return self.start("floor", floor, self.floor_of(relation), floor, relation)

    def grow(self) -> list[str]:
        if self.job is not None:
            return ["refused: job busy"]
        if not can_grow(self.profile) or self.slots + PIECE > SLOTS_MOST:
            return ["refused: not growable"]
        self.job = Job("grow", 0)
        return ["started"]

    # ---- whole lines

    def flush(self) -> list[str]:
        """Pumps to the end: all that waits is published, but where a job's slot is in the
        writing."""
        while self.queue:
            self.group = self.group or min(self.group_most, len(self.queue))
            if self.job is not None and self.job.is_in_slot():
                self.turn = "heap synced"
                return ["refused: busy"]
            self.publish()
        return ["idle"]

    def finish(self) -> list[str]:
        """Makes the job to its end, but where it is to take a slot and a group's is in the
        writing."""
        if self.job is not None and self.job.takes_slot() and self.turn in SLOT_STEPS:
            last_step = {"archive": "run synced", "reclaim": "heap synced", "floor": None}
            self.job.step = last_step[self.job.kind]
            return ["refused: busy"]
        if self.job is not None:
            self.end_job()
        return ["idle"]

    def reopened(self) -> list[str]:
        """What waits is lost, but for a group or a job whose gate is written: the files have
        it."""
        if self.turn == "gate written":
            self.publish()
        if self.job is not None and self.job.step == "gate written":
            self.end_job()
        self.forget_what_waits()
        return [opened(self.profile, last(self.published), self.floors)]

    def vacuum(self, upto: int) -> list[str]:
        """The command, on a store that no one has open: what it says."""
        archived = self.archived
        said = self.archive(upto)
        if said != ["started"]:
            return said
        self.finish()
        whole = all_versions(self.published)
        gone = sum(
            stop is not None and max(archived, self.floor_of(key[0])) < stop <= upto
            for key, _, stop, _ in whole
        )
        stand = sum(start <= upto and (stop is None or stop > upto) for _, start, stop, _ in whole)
        said = self.reclaim()
        self.finish()
        return [f"archived {gone}", *([f"reclaimed {stand}"] if said == ["started"] else said)]

    def growth(self) -> list[str]:
        """The command, on a store that no one has open: what it says."""
        said = self.grow()
        if said != ["started"]:
            return said
        self.finish()
        return [f"slots {self.slots}"]

    def answer(self, line: str) -> list[str] | None:
        """What a line answers; None for a step, whose answer is the store's to say, and is
        followed."""
        word, *rest = line.split(" ")
        if word in ("begin", "abort", "redeem"):
            return getattr(self, word)(rest[0])
        if word == "put":
            return self.put(rest[0], (int(rest[1]), int(rest[2])), " ".join(rest[3:]))
        if word in ("del", "get"):
            answer = self.delete if word == "del" else self.get
            return answer(rest[0], (int(rest[1]), int(rest[2])))
        if word == "submit":
            return self.submit(rest[0], int(rest[1]), int(rest[2]))
        if word in ("archive", "floor"):
            return (self.archive if word == "archive" else self.raise_floor)(int(rest[0]))
        if word == "floorof":
            return self.raise_floor_of(int(rest[0]), int(rest[1]))
        if word in ("reclaim", "grow", "flush", "finish"):
            return getattr(self, word)()
        if word == "reopen":
            return self.reopened()
        return self.asked(word, [int(it) for it in rest])

    def asked(self, word: str, numbers: list[int]) -> list[str] | None:
        """What a question answers."""
        if word == "at":
            relation, record, time = numbers
            return at(self.published, (relation, record), time, self.floor_of(relation))
        if word == "between":
            relation, record, start, end = numbers
            return between(self.published, (relation, record), start, end, self.floor_of(relation))
        if word == "scan":
            return scan(self.published, *numbers, self.floor_of(numbers[0]))
        if word == "times":
            return times(self.published, *numbers)
        return None
