"""The small machine of a store of profile 4, whose log lies in the heap. It has the chains of the
log, as far as what a job may do depends on them; how many extents they take is the store's to
say."""
from __future__ import annotations

from dataclasses import dataclass
from typing import NamedTuple

import machine
from machine import ENDLESS, LATEST, Floors, History, Job, Machine, Order, Transaction

GROUP_MOST = 1024
# so many that what the tests commit never fills the heap, or the share of it that the log or its
# base may have
EXTENTS = 65_536

# what may come after each step of a chain that is added to the log: of a group, or what an archive
# and a floor say
GROUP: Order = {
    None: ("wrote extent",), "wrote extent": ("wrote extent", "gate closed"),
    "gate closed": ("heap synced",), "heap synced": ("gate written",),
    "gate written": ("published",),
}
ENTRY_STEPS = ("wrote entry", "gate closed", "heap synced", "gate written")
ENTRY: Order = dict(zip(ENTRY_STEPS, ((it,) for it in (*ENTRY_STEPS[1:], "job done"))))
RUN: Order = {
    None: ("wrote run", "run synced"), "wrote run": ("wrote run", "run synced"),
    "run synced": ("wrote entry",), **ENTRY,
}
FLOOR: Order = {None: ("wrote entry",), **ENTRY}
ROOT_STEPS = ("root written", "root synced", "turn written", "job done")
# of a reclaim: its extents, its roll if it has one, and the root
EXTENTS_WRITTEN: Order = {
    None: ("wrote extent",), "wrote extent": ("wrote extent", "heap synced"),
}
ROOT: Order = {one: (other,) for one, other in zip(ROOT_STEPS, ROOT_STEPS[1:])}
RECLAIM: Order = {**EXTENTS_WRITTEN, "heap synced": ("root written",), **ROOT}
RECLAIM_WITH_ROLL: Order = {
    **EXTENTS_WRITTEN, "heap synced": ("wrote roll",), "wrote roll": ("wrote roll", "roll synced"),
    "roll synced": ("root written",), **ROOT,
}


class Chain(NamedTuple):
    """A chain of the log: a group, of which the last commit has this time, an archive, a floor, or
    a base up to this time."""

    kind: str
    time: int = 0


@dataclass
class EndlessJob(Job):
    """A job, what may come after each of its steps, whether its chain has waited for a group, and
    of a reclaim how many chains its base replaces."""

    order: Order | None = None
    waits: bool = False
    front: int = 0

    def takes_slot(self) -> bool:
        return False

    def next_steps(self) -> tuple[str, ...]:
        return self.order[self.step] if self.order else ()

    def steps_behind(self) -> tuple[str | None, ...]:
        """The steps that are made, up to the last one."""
        steps = tuple(self.order)
        return steps[: steps.index(self.step) + 1]

    def is_entered(self) -> bool:
        """Whether the writing of its chain has begun."""
        return self.kind != "reclaim" and self.step in ENTRY_STEPS

    def is_ready(self) -> bool:
        """Whether its chain comes next."""
        return self.next_steps() == ("wrote entry",)


class Endless(Machine):
    """A store of profile 4."""

    group_most = GROUP_MOST
    group_steps = GROUP

    def __init__(
        self, published: History = (), floors: Floors | None = None, log: list[Chain] | None = None,
        extents: int = EXTENTS,
    ) -> None:
        self.log = list(log or [])
        super().__init__(published, extents, profile=ENDLESS, floors=floors)
        self.reclaimed = self.base_mark()

    def base_mark(self) -> int:
        """The time up to which the base tells all, 0 for no base."""
        return self.log[0].time if self.log and self.log[0].kind == "base" else 0

    def spare(self) -> int:
        return LATEST

    # ---- steps

    def bars_groups(self) -> bool:
        """Whether no group begins before the chain of the job."""
        job = self.job
        return isinstance(job, EndlessJob) and (job.waits or job.is_entered())

    def is_turned(self) -> bool:
        """Whether the root is turned, and that is not synced."""
        return self.job is not None and self.job.step == "turn written"

    def group_waits(self) -> bool:
        if self.turn is None:
            return self.bars_groups()
        return self.turn == "heap synced" and self.is_turned()

    def job_waits(self) -> bool:
        job = self.job
        if not isinstance(job, EndlessJob):
            return False
        if job.is_ready():
            return self.turn is not None
        return job.step == "root synced" and self.turn == "gate written"

    def jobbed(self, said: str) -> str | None:
        why = super().jobbed(said)
        if why is None and said == "refused: busy":
            self.has_waited()
        return why

    def has_waited(self) -> None:
        """The job has waited for a group: no other one begins before its chain."""
        if isinstance(self.job, EndlessJob):
            self.job.waits = self.job.kind != "reclaim"

    def publish(self) -> None:
        super().publish()
        self.log.append(Chain("group", machine.last(self.published)))

    def end_job(self) -> None:
        job = self.job
        super().end_job()
        if job.kind == "reclaim":
            self.log[: job.front] = [Chain("base", job.upto)]
        else:
            self.log.append(Chain(job.kind))

    # ---- starts of jobs

    def start(
        self, kind: str, upto: int, now: int, oldest_needed: int, relation: int | None = None
    ) -> list[str]:
        said = super().start(kind, upto, now, oldest_needed, relation)
        if said == ["started"]:
            order = RUN if kind == "archive" else FLOOR
            self.job = EndlessJob(kind, upto, relation=relation, order=order)
        return said

    def reclaim(self) -> list[str]:
        """The base replaces the chains before the first that has a commit later than the archive
        mark. There is nothing to do where that is the base alone that stands."""
        mark, before = self.archived, self.base_mark()
        if self.job is not None:
            return ["refused: job busy"]
        later = (at for at, it in enumerate(self.log) if it.kind == "group" and it.time > mark)
        front = next(later, len(self.log))
        if mark == 0 or before == mark and front <= 1:
            return ["refused: nothing to do"]
        snapshots = [it.snapshot for it in self.names.values() if isinstance(it, Transaction)]
        if min(snapshots, default=mark) < mark:
            return [f"refused: in use {min(snapshots)}"]
        has_roll = any(before < it.time <= mark for it in self.published)
        order = RECLAIM_WITH_ROLL if has_roll else RECLAIM
        self.job = EndlessJob("reclaim", mark, order=order, front=front)
        return ["started"]

    # ---- whole lines

    def grow(self) -> list[str]:
        """It has no slots, whether a job runs or not."""
        return ["refused: not growable"]

    def flush(self) -> list[str]:
        while self.queue:
            if self.turn is None and self.bars_groups():
                return ["refused: busy"]
            self.group = self.group or min(self.group_most, len(self.queue))
            if self.is_turned():
                self.turn = "heap synced"
                return ["refused: busy"]
            self.publish()
        return ["idle"]

    def finish(self) -> list[str]:
        job = self.job
        if not isinstance(job, EndlessJob):
            return ["idle"]
        if job.kind == "reclaim" and self.turn == "gate written" and not self.is_turned():
            job.step = "root synced"
            return ["refused: busy"]
        if job.kind != "reclaim" and self.turn is not None and not job.is_entered():
            job.step = "run synced" if job.kind == "archive" else None
            self.has_waited()
            return ["refused: busy"]
        self.end_job()
        return ["idle"]

    def reopened(self) -> list[str]:
        """As of slots; and a base whose turn is written stands."""
        if self.is_turned():
            self.end_job()
        return super().reopened()
