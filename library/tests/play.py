"""Random calls beside a small machine, and the files after each device call beside a plain reader of the
format: play.py FOLDER [SEED [CALLS]]. Archives, reclaims and floors run beside the commits, and views that
were taken before them are asked behind them. Machine and reader stand in torture/, written apart from the store."""

import random
import sys
from collections.abc import Iterator
from pathlib import Path
from typing import NamedTuple

import timestore

sys.path.insert(0, str(Path(__file__).resolve().parents[2] / "torture"))
import image  # noqa: E402
import machine  # noqa: E402

AREAS = ("status", "heap", "archive")
SLOTS = 2048
VIEWS_MOST = 4
PUMPED = ("idle", "wrote extent", "heap synced", "body written", "body synced", "gate written")
JOBBED = ("idle", "wrote run", "run synced", "body written", "body synced", "gate written", "job done", "wrote extent", "heap synced", "wrote zeros", "zeros synced")
TEXTS = {"conflict": "refused: conflict {} {}", "not yet": "refused: not yet {}", "in use": "refused: in use {}", "before kept": "refused: before kept {}"}


def spelled(fields: timestore.Fields | None) -> str | None:
    return image.fields_of(fields)


def some_fields(chance: random.Random) -> tuple[bytes, ...]:
    many, size = chance.choice((1, 1, 1, 2, 16)), chance.choice((0, 1, 2, 16, 255))
    return tuple(bytes(chance.randrange(3) for _ in range(size)) for _ in range(many))


def some_key(chance: random.Random) -> tuple[int, int]:
    return chance.choice((1, 1, 1, 2, 65535)), chance.choice((0, 1, 2, 3, 7, (1 << 64) - 1))


class Kept(NamedTuple):
    """A view, and what was published when it was taken."""

    view: timestore.View
    history: list[machine.Commit]
    floor: int
    reclaimed: int


class Play:
    """A store and the machine that it is to be like."""

    def __init__(self, folder: Path, chance: random.Random) -> None:
        self.folder, self.chance = folder, chance
        self.small = machine.Machine(slots=SLOTS)
        self.store = timestore.Store(folder)
        self.held: dict[str, timestore.Transaction | timestore.Ticket] = {}
        self.views: list[Kept] = []
        self.images = 0
        self.jobs = {"archive": 0, "reclaim": 0, "floor": 0}

    def same(self, said: list[str], wanted: list[str]) -> None:
        assert said == wanted, (said, wanted)

    def asked(self, call, *args) -> list[str]:
        """What a call answers, as the machine says it."""
        try:
            return call(*args)
        except timestore.Refused as why:
            return [TEXTS.get(str(why), f"refused: {why}").format(why.first, why.second)]

    def play(self, calls: int) -> None:
        kinds = {self.begin: 5, self.write: 8, self.read: 4, self.submit: 6, self.abort: 1, self.redeem: 3,
                 self.pump: 18, self.job: 12, self.archive: 2, self.reclaim: 2, self.raise_floor: 0.5, self.keep: 1, self.ask: 3, self.ask_kept: 2, self.reopen: 0.3}  # fmt: skip
        for _ in range(calls):
            self.chance.choices(list(kinds), list(kinds.values()))[0]()
        self.reopen()
        self.store.close()

    def name_of(self, kind: type) -> str | None:
        names = [name for name, held in self.held.items() if isinstance(held, kind)]
        return self.chance.choice(names) if names else None

    def begin(self) -> None:
        name = f"t{self.chance.randrange(4)}"
        if name in self.held:
            return
        txn = self.store.begin()
        self.held[name] = txn
        self.same([f"snapshot {txn.snapshot}"], self.small.begin(name))

    def write(self) -> None:
        if (name := self.name_of(timestore.Transaction)) is None:
            return
        key, txn, fields = some_key(self.chance), self.held[name], some_fields(self.chance)
        if self.chance.random() < 0.8:
            self.same(self.asked(lambda: txn.put(*key, *fields) or ["ok"]), self.small.put(name, key, spelled(fields)))
        else:
            self.same(self.asked(lambda: txn.delete(*key) or ["ok"]), self.small.delete(name, key))

    def read(self) -> None:
        if (name := self.name_of(timestore.Transaction)) is None:
            return
        key = some_key(self.chance)
        fields = spelled(self.held[name].get(*key))
        self.same(["none"] if fields is None else [f"value {fields}"], self.small.get(name, key))
        for record, fields in self.held[name].scan(key[0]):
            self.same([f"value {spelled(fields)}"], self.small.get(name, (key[0], record)))

    def submit(self) -> None:
        if (name := self.name_of(timestore.Transaction)) is None:
            return
        txn = self.held.pop(name)
        label = self.chance.randrange(3)
        now = self.chance.choice((0, 0, machine.last(self.small.published) + self.chance.randrange(20)))

        def submitted() -> list[str]:
            ticket = txn.submit(label, now)
            if ticket is None:
                return [f"readonly {txn.snapshot}"]
            self.held[name] = ticket
            return ["queued"]

        self.same(self.asked(submitted), self.small.submit(name, label, now))

    def abort(self) -> None:
        if (name := self.name_of(timestore.Transaction)) is not None:
            self.held.pop(name).abort()
            self.same(["ok"], self.small.abort(name))

    def redeem(self) -> None:
        if (name := self.name_of(timestore.Ticket)) is None:
            return
        time = self.held[name].redeem()
        if time is not None:
            del self.held[name]
        self.same(["waiting" if time is None else f"done {time}"], self.small.redeem(name))

    def pump(self) -> None:
        def pumped() -> list[str]:
            did, count = self.store.pump()
            return [PUMPED[did] if did < len(PUMPED) else f"published {count}"]

        why = self.small.pumped(self.asked(pumped)[0])
        assert why is None, why
        self.compare_files()

    def job(self) -> None:
        why = self.small.jobbed(self.asked(lambda: [JOBBED[self.store.job_pump()]])[0])
        assert why is None, why
        self.compare_files()

    def some_time(self) -> int:
        return self.chance.randrange(machine.last(self.small.published) + 3)

    def started(self, kind: str, said: list[str], wanted: list[str]) -> None:
        self.same(said, wanted)
        self.jobs[kind] += said == ["started"]

    def archive(self) -> None:
        upto = self.some_time()
        said = self.asked(lambda: self.store.archive_start(upto) or ["started"])
        self.started("archive", said, self.small.archive(upto))

    def reclaim(self) -> None:
        said = self.asked(lambda: self.store.reclaim_start() or ["started"])
        self.started("reclaim", said, self.small.reclaim())

    def raise_floor(self) -> None:
        # A small step, so that times are left to ask of.
        floor = min(self.some_time(), self.small.floor + self.chance.randrange(1, 20))
        said = self.asked(lambda: self.store.floor_start(floor) or ["started"])
        self.started("floor", said, self.small.raise_floor(floor))

    def keep(self) -> None:
        """Takes a view, and gives the oldest one back where there are many."""
        small = self.small
        self.views.append(Kept(self.store.view(), list(small.published), small.floor, small.reclaimed))
        if len(self.views) > VIEWS_MOST:
            self.views.pop(0).view.end()

    def ask(self) -> None:
        small = self.small
        with self.store.view() as view:
            self.ask_of(Kept(view, small.published, small.floor, small.reclaimed))
        for label in range(3):
            wanted = [commit.time for commit in small.published if commit.label == label]
            assert self.store.times_of(label) == wanted

    def ask_kept(self) -> None:
        """Views answer as when they were taken, whatever was archived, reclaimed or given up since."""
        if self.views:
            self.ask_of(self.chance.choice(self.views))

    def ask_of(self, kept: Kept) -> None:
        view, history, floor, reclaimed = kept
        key, newest, moment = some_key(self.chance), machine.last(history), self.some_time()

        def value(fields: timestore.Fields | None) -> list[str]:
            return ["none"] if fields is None else [f"value {spelled(fields)}"]

        def scan() -> list[str]:
            found = list(view.scan_at(key[0], moment))
            return [f"{record} {spelled(fields)}" for record, fields in found] + [f"rows {len(found)}"]

        at = machine.at(history, key, moment, floor)
        recent = ["refused: needs disk"] if moment < reclaimed and not machine.refusal(newest, floor, moment, moment + 1) else at
        self.same(self.asked(lambda: value(view.at(*key, moment))), at)
        self.same(self.asked(lambda: value(view.recent(*key, moment))), recent)
        self.same(self.asked(scan), machine.scan(history, key[0], moment, floor))
        self.ask_rows(kept, key, moment, newest + 1)

    def ask_rows(self, kept: Kept, key: machine.Key, start: int, end: int) -> None:
        """The rows of a record and those of its relation."""
        view, history, floor, _ = kept

        def shown(rows: Iterator[timestore.Row], record: int) -> list[str]:
            lines = [f"{row.start} {row.end} {spelled(row.fields)}" for row in rows if row.record == record]
            return [*lines, f"rows {len(lines)}"]

        self.same(self.asked(lambda: shown(view.between(*key, start, end), key[1])), machine.between(history, key, start, end, floor))
        if machine.refusal(machine.last(history), floor, start, end):
            return
        found = list(view.scan_between(key[0], start, end))
        assert [(row.record, row.start) for row in found] == sorted((row.record, row.start) for row in found)
        for record in {key[1], *(row.record for row in found)}:
            self.same(shown(iter(found), record), machine.between(history, (key[0], record), start, end, floor))

    def reopen(self) -> None:
        self.store.close()
        self.store, self.held, self.views = timestore.Store(self.folder), {}, []
        self.same([f"last {self.store.last} floor {self.store.floor}"], self.small.reopened())

    def compare_files(self) -> None:
        """The plain reader finds what is published or, once its gate is written, that with the whole group; and so of a job's mark."""
        small = self.small
        areas = {area: (self.folder / area).read_bytes() for area in AREAS}
        found = image.read(areas)
        wanted = small.with_group() if small.turn == "gate written" else small.published
        why = image.why_not(areas, found, wanted)
        assert why is None, why
        marks = {"archive": small.archived, "reclaim": small.reclaimed, "floor": small.floor}
        if small.job is not None and small.job.step == "gate written":
            marks[small.job.kind] = small.job.upto
        assert [found.log.archived, found.log.reclaimed, found.log.floor] == list(marks.values())
        self.images += 1


def main() -> None:
    folder = Path(sys.argv[1])
    seed = int(sys.argv[2]) if len(sys.argv) > 2 else 1
    calls = int(sys.argv[3]) if len(sys.argv) > 3 else 1500
    folder.mkdir()
    timestore.make(folder, SLOTS)
    with (folder / "status").open("r+b") as status:  # one floor for all, as the machine and the reader have it
        status.seek(8)
        status.write(b"\2")
    play = Play(folder, random.Random(seed))
    play.play(calls)
    done = ", ".join(f"{count} {kind}s" for kind, count in play.jobs.items())
    print(f"{play.images} images, {done}, ", end="")


if __name__ == "__main__":
    main()
