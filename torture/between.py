#!/usr/bin/env python3
"""A job with commits between its steps, stopped before, within and after each device call; what is
left then reclaims, commits, and is stopped again at each device call of that.

between.py PROGRAM [--only archive|reclaim|floor|one floor|grow] [--seconds S] [--jobs N]

A record has three versions and a deletion. Before each step of the job a commit is begun, and
pumped until it is published or meets the job's slot; of a growth each step but the first comes
behind one step of a commit. Then the log has the slots that KINDS names, counted by hand. What a
stop may leave is all that was written since the syncs, nothing of it, all of it torn or half of
the last write, torn to bytes 00, c7 and ff; a stop before a call leaves what one after the call
before it may leave. Each image is opened and asked at every time, and compared with the list of
write sets (machine.py) and with a plain reader (image.py). With --seconds it ends after so many;
the images of the first stop are then spread over all of them. The status is 1 where one fails; a
script is left that shows it. It is 3 where there is no C compiler: the device calls are then not
looked at.
"""
from __future__ import annotations

import hashlib
import os
import sys
import tempfile
from collections import Counter
from collections.abc import Iterator
from concurrent.futures import ProcessPoolExecutor
from dataclasses import dataclass

import image
from image import Slot
from machine import NEWEST, PIECE, Front, Machine
from program import (
    FAILURES_MOST, Areas, Failure, Until, format_store, read_areas, report, spread, status_at_end,
    use_memory, words_of, write_areas
)
from scripts import LARGE, check_left
from stops import CALLS_UNSEEN, Stops, Traced, step, tell
from wrong import has_compiler, left_out, library

SLOTS = 16
# a record with three versions and a deletion
VERSIONS = [
    "begin a", "put a 1 7 61", "submit a 1 100", "flush", "begin b", "put b 1 7 62",
    "submit b 2 110", "flush", "begin c", "del c 1 7", "submit c 3 120", "flush", "begin d",
    "put d 1 7 63", "submit d 4 130", "flush",
]
TIMES = range(99, 140)
# what is committed once the next job is done: the extents that a commit takes, and its records
AFTER = ((1, ["1 7 64"]), (4, [f"2 {record} {LARGE}" for record in range(4)]))


def commits(*members: tuple[int, int, int]) -> Slot:
    """A slot of commits of one record: the label, the time and the extent of each."""
    return "commit", [(label, time, extent, 1, 1) for label, time, extent in members]


FIRST_SLOTS = [commits(it) for it in ((1, 100, 1), (2, 110, 2), (3, 120, 3), (4, 130, 4))]


@dataclass(frozen=True)
class Kind:
    """A job: what stands before it, its start, the device calls of it and the commits between, the
    slots behind the first four, and the job that comes next; the store's profile, and how many
    slots it has then."""

    before: list[str]
    start: str
    calls: int
    slots: list[Slot]
    then: str
    profile: int = NEWEST
    all_slots: int = SLOTS


# three commits are published beside an archive or a reclaim; the fourth waits for the job's slot,
# and the fifth and the sixth behind it go into one slot
KINDS = {
    "archive": Kind(
        [], "archive 120", 37,
        [
            commits((11, 131, 5)), commits((12, 132, 6)), commits((13, 133, 7)),
            ("archived", (120, 0, 74, 2)), commits((14, 134, 8)),
            commits((15, 135, 9), (16, 136, 10)),
        ],
        "reclaim",
    ),
    "reclaim": Kind(
        ["archive 110", "finish"], "reclaim", 37,
        [
            ("archived", (110, 0, 37, 1)), commits((11, 131, 6)), commits((12, 132, 7)),
            commits((13, 133, 8)), ("reclaimed", (110, 5, 1, 1)), commits((14, 134, 9)),
            commits((15, 135, 10), (16, 136, 11)),
        ],
        "floorof 1 120",
    ),
    "floor": Kind(
        [], "floorof 1 115", 23,
        [
            commits((11, 131, 5)), ("floor", (115, 1)), commits((12, 132, 6)),
            commits((13, 133, 7), (14, 134, 8)),
        ],
        "archive 120",
    ),
    # the same of all relations, in a store of an earlier profile
    "one floor": Kind(
        [], "floor 115", 23,
        [
            commits((11, 131, 5)), ("floor", (115,)), commits((12, 132, 6)),
            commits((13, 133, 7), (14, 134, 8)),
        ],
        "archive 120", profile=1,
    ),
    # three commits beside 19 calls, and the third one's gate just before the piece's
    "grow": Kind(
        [], "grow", 37, [commits((11, 131, 5)), commits((12, 132, 6)), commits((13, 133, 7))],
        "grow", all_slots=SLOTS + PIECE,
    ),
}
# of the zeros that a second growth writes, at which ones it is stopped
ZEROS_STOPPED = (1, 8, 16)


@dataclass(frozen=True)
class Left:
    """An image that a stop may leave, and of what front it has to be one."""

    where: str
    areas: Areas
    front: Front

    def key(self) -> bytes:
        text = hashlib.sha256(
            repr(
                (self.front.counts, self.front.floors, self.front.slots, len(self.front.order))
            ).encode()
        )
        for area, data in self.areas.items():
            text.update(f"{area} {len(data)} ".encode() + data)
        return text.digest()


def lefts(where: str, stops: Stops, small: Machine) -> Iterator[Left]:
    for number, areas in enumerate(stops.each_left()):
        yield Left(f"{where}, image {number}", areas, small.front())


class Walk:
    """A script of steps on a store, and what a stop may leave after each of its device calls."""

    def __init__(self, program: str, folder: str, small: Machine) -> None:
        self.session, self.small, self.calls = Traced(program, folder), small, 0
        self.stops = Stops(self.session.start)

    def tell(self, *lines: str) -> None:
        for line in lines:
            tell(self.session, self.small, self.stops, line)

    def step(self, line: str) -> Iterator[Left]:
        """One step; nothing is made where its way is barred or at the end."""
        said = step(self.session, self.small, self.stops, line)
        if said not in ("idle", "refused: busy"):
            self.calls += 1
            yield from lefts(f"call {self.calls}, {line} answered {said}", self.stops, self.small)

    def steps(self, line: str) -> Iterator[Left]:
        calls = -1
        while calls != self.calls:
            calls = self.calls
            yield from self.step(line)

    def begin_commit(self, number: int, *records: str) -> None:
        self.tell(
            f"begin t{number}", *(f"put t{number} {it}" for it in records),
            f"submit t{number} {10 + number} 0",
        )

    def commit(self, number: int, *records: str) -> Iterator[Left]:
        self.begin_commit(number, *records)
        yield from self.steps("pump")

    def job_between_commits(self, start: str) -> Iterator[Left]:
        yield from lefts("before the first call", self.stops, self.small)
        self.tell(start)
        if start == "grow":
            yield from self.growth_between_steps()
            return
        number = 0
        while self.small.job:
            number += 1
            yield from self.commit(number, f"1 {100 + number} 65")
            yield from self.step("job")
        yield from self.steps("pump")

    def growth_between_steps(self) -> Iterator[Left]:
        """Behind its first step one of a group and one of the growth in turns."""
        number = 0
        yield from self.step("job")
        while self.small.job:
            if not self.small.queue:
                number += 1
                self.begin_commit(number, f"1 {100 + number} 65")
            yield from self.step("pump")
            yield from self.step("job")

    def job_and_commits(self, start: str) -> Iterator[Left]:
        """The next job, if there is one to be done, and commits behind it."""
        yield from lefts("opened", self.stops, self.small)
        self.tell(start)
        for left in self.steps("job"):
            job = self.small.job
            if job is None or job.step != "wrote zeros" or job.made in ZEROS_STOPPED:
                yield left
        for number, (extents, records) in enumerate(AFTER):
            yield from self.commit_in_least(20 + number, extents, records)
        self.session.end_well()

    def commit_in_least(self, number: int, extents: int, records: list[str]) -> Iterator[Left]:
        """A commit of so many extents, which takes the least that are free."""
        live = image.read(self.stops.now).live
        yield from self.commit(number, *records)
        taken = image.read(self.stops.now).live - live
        free = sorted({*range(1, len(live) + extents + 1)} - live)[:extents]
        if taken != {*free}:
            raise self.session.failure(
                f"a commit takes the extents {sorted(taken)}, where {free} are free", None, []
            )


class Between:
    """Tries images in a process of its own."""

    program: str
    until: Until
    seen: set[bytes]

    @classmethod
    def begin(cls, program: str, until: Until) -> None:
        use_memory()
        cls.program, cls.until, cls.seen = program, until, set()

    @classmethod
    def one(cls, first: tuple[str, Left]) -> tuple[Counter, Failure | None]:
        """Opens what a first stop left, goes on, and opens what a second one leaves."""
        (name, left), tried = first, Counter()
        if cls.until.is_over():
            return tried, None
        try:
            small = check_left(cls.program, left.areas, left.front, f"{name}, {left.where}", TIMES)
            tried[name, "first"] += 1
            with tempfile.TemporaryDirectory(prefix="between-") as folder:
                write_areas(folder, left.areas)
                for again in cls.second(folder, small, KINDS[name].then):
                    check_left(
                        cls.program, again.areas, again.front,
                        f"{name}, {left.where}; then {again.where}", TIMES,
                    )
                    tried[name, "second"] += 1
            return tried, None
        except Failure as why:
            return tried, why

    @classmethod
    def second(cls, folder: str, small: Machine, start: str) -> Iterator[Left]:
        """What a second stop leaves, each image once."""
        walk = Walk(cls.program, folder, small)
        try:
            for left in walk.job_and_commits(start):
                if left.key() not in cls.seen and not cls.until.is_over():
                    cls.seen.add(left.key())
                    yield left
        finally:
            walk.session.kill()


def first_stops(program: str, kind: Kind) -> list[Left]:
    """What a stop may leave at each call of a job with commits between, each image once."""
    small = Machine(slots=SLOTS, profile=kind.profile)
    with tempfile.TemporaryDirectory(prefix="between-") as folder:
        format_store(program, folder, SLOTS, kind.profile)
        before = Walk(program, folder, small)
        before.tell(*VERSIONS, *kind.before)
        before.session.end_well()
        small.reopened()
        walk = Walk(program, folder, small)
        try:
            found = {left.key(): left for left in walk.job_between_commits(kind.start)}
            walk.session.end_well()
        finally:
            walk.session.kill()
        status = read_areas(folder)["status"]
        slots, count = image.read_log(status).slots, image.header(status)
    wanted = (kind.calls, FIRST_SLOTS + kind.slots, kind.all_slots)
    if (walk.calls, slots, count) != wanted:
        raise Failure(f"{kind.start}: {walk.calls} device calls and of {count} slots {slots}")
    return list(found.values())


def try_all(
    program: str, firsts: list[tuple[str, Left]], jobs: int, until: Until
) -> tuple[Counter, int]:
    tried, bad = Counter(), 0
    with ProcessPoolExecutor(jobs, initializer=Between.begin, initargs=(program, until)) as pool:
        for one, why in pool.map(Between.one, spread(firsts)):
            tried += one
            bad += why is not None
            if why and bad <= FAILURES_MOST:
                report("a job with commits between", why)
    return tried, bad


def main() -> int:
    words = words_of(__doc__)
    words.add_argument("--only", choices=KINDS)
    words.add_argument("--seconds", type=float, help="for how long (until all is tried)")
    words.add_argument("--jobs", type=int, default=2, help="images tried at once (2)")
    given = words.parse_args()
    use_memory()
    program, until = os.path.abspath(given.program), Until(given.seconds)
    kinds = [given.only] if given.only else [*KINDS]
    if has_compiler():
        library()
    try:
        firsts = [(name, left) for name in kinds for left in first_stops(program, KINDS[name])]
    except Failure as why:
        report("a job with commits between", why)
        return 1
    tried, bad = try_all(program, firsts, given.jobs, until)
    for name in kinds:
        firsts_of, seconds_of = tried[name, "first"], tried[name, "second"]
        print(
            f"{name}: {KINDS[name].calls} device calls; {firsts_of} images of a first stop"
            f" and {seconds_of} of a second one"
        )
    print(f"{until.rate(tried.total(), 'images')}; {bad} failed")
    return status_at_end(bad, left_out(CALLS_UNSEEN))


if __name__ == "__main__":
    sys.exit(main())
