"""Scripts with a stop after each device call: what was written since the last sync of a file is
torn, opened and compared."""
from __future__ import annotations

import random
import tempfile
from collections import Counter
from collections.abc import Iterable, Iterator

import chains
import image
import machine
from endless import Endless
from machine import ENDLESS, SLOT_STEPS, Job, Machine
from program import (
    AREAS, Areas, Failure, Session, Shown, command, read_areas, status_of, write_areas
)
from scripts import BY_STEPS, a_vacuum, check_left, reader_of, some_line
from wrong import Call, Wrong, has_compiler

# the area that a step syncs; the others write
SYNCED = {
    "heap synced": "heap", "body synced": "status", "published": "status", "run synced": "archive",
    "job done": "status", "zeros synced": "status",
}
# what one call of a growth writes
ZEROS = 8192
# what is left out where there is no compiler
CALLS_UNSEEN = "the device calls of each line"
FILLINGS = (0x00, 0xC7, 0xFF)
# lines between two ends of a session, how often a vacuum or the command of a growth stands between,
# and how often a vacuum stands behind a line
SESSIONS = (20, 60, 200)
VACUUMS, GROWTHS = 0.5, 0.1
OWN_VACUUMS = 0.04
SECOND_STOPS = 0.02
DEEPEST = 2


def step_name(said: str) -> str:
    return "published" if said.startswith("published") else said


def growth_call(growth: Job, status: bytes) -> Call:
    """The write of a growth as it stands after it: zeros behind the slots, or the gate of the next
    piece."""
    if growth.step == "wrote zeros":
        at = image.slot_at(image.header(status)) + ZEROS * (growth.made - 1)
        return Call("write", "status", at, at + ZEROS)
    at = image.GATES[image.pieces(status)]
    return Call("write", "status", at, at + 1)


def extent_call(before: Areas, after: Areas, head: int | None = None) -> Call:
    """The write of the first extent that has changed; of one that begins at the head all but its
    gate. Where there is a head and no change, that of some extent."""
    new = after["heap"]
    old = before["heap"].ljust(len(new), b"\0")
    changed_at = (
        at
        for at in range(0, len(new), image.EXTENT)
        if new[at: at + image.EXTENT] != old[at: at + image.EXTENT]
    )
    low = next(changed_at, None)
    if low is None and head is not None:
        return Call("write", "heap")
    low = low or 0
    return Call("write", "heap", low + (low == head), low + image.EXTENT)


def endless_call(said: str, before: Areas, after: Areas, job: Job | None) -> Call | None:
    """The same in a store of profile 4: a write of an extent, of the gate of a chain or of the one
    where the log will end, of a run or a roll, of the root that does not count or of the turn
    gate; or a sync."""
    is_reclaim = job is not None and job.kind == "reclaim"
    synced = {
        **SYNCED, "published": "heap", "job done": "status" if is_reclaim else "heap",
        "roll synced": "archive", "root synced": "status",
    }
    if step_name(said) in synced:
        return Call("sync", synced[step_name(said)])
    status, log = before["status"], chains.read_log(before, set())
    head = image.EXTENT * (log.next - 1)
    if said in ("wrote extent", "wrote entry"):
        return extent_call(before, after, None if is_reclaim else head)
    if said == "gate written":
        return Call("write", "heap", head, head + 1)
    if said == "gate closed":
        end = image.EXTENT * (image.u(before["heap"], head + 16, 4) - 1)
        return Call("write", "heap", end, end + 1)
    if said in ("wrote run", "wrote roll"):
        return Call("write", "archive", log.end, len(after["archive"]))
    if said == "root written":
        other = chains.ROOTS[status[chains.TURN] != image.OPEN]
        return Call("write", "status", other, other + 4)
    if said == "turn written":
        return Call("write", "status", chains.TURN, chains.TURN + 1)
    return None


def call_of(said: str, before: Areas, after: Areas, job: Job | None = None) -> Call | None:
    """The device call of a step, as the files show it: of a growth, if it is one's; of the first
    closed slot all but the gate, or the gate; an extent; behind the last run."""
    if image.profile_of(before["status"]) == ENDLESS:
        return endless_call(said, before, after, job)
    log = image.read_log(before["status"])
    slot = image.slot_at(len(log.slots))
    if step_name(said) in SYNCED:
        return Call("sync", SYNCED[step_name(said)])
    if job and job.kind == "grow":
        return growth_call(job, before["status"])
    if said == "body written":
        return Call("write", "status", slot + 1, slot + image.SLOT)
    if said == "gate written":
        return Call("write", "status", slot, slot + 1)
    if said == "wrote run":
        return Call("write", "archive", log.end, len(after["archive"]))
    return extent_call(before, after) if said == "wrote extent" else None


def is_of(call: Call, shown: Call) -> bool:
    """Whether a device call that was made is the one that the files show: a run has pieces, and an
    extent may be written as it was."""
    if shown.area == "archive":
        is_within = call.kind == "sync" or shown.low <= call.low < call.high <= shown.high
        return (call.kind, call.area) == (shown.kind, shown.area) and is_within
    if (shown.kind, shown.area) == ("write", "heap") and shown.high - shown.low != 1:
        length, least = call.high - call.low, image.EXTENT - 1
        is_long = length == shown.high - shown.low if shown.high else length in (least, least + 1)
        is_extent = is_long and call.high % image.EXTENT == 0
        return (call.kind, call.area) == ("write", "heap") and is_extent
    return call == shown


def opens_by(calls: list[Call]) -> bool:
    """Whether these are the calls of an opening: a read of the header, which tells the layout, then
    a sync of each area, and then reads."""
    header, syncs, reads = calls[:1], calls[1 : 1 + len(AREAS)], calls[1 + len(AREAS):]
    is_synced = {it.area for it in syncs} == {*AREAS} and {it.kind for it in syncs} == {"sync"}
    is_read = all(it.kind == "read" for it in reads)
    return header == [Call("read", "status", 0, 512)] and is_synced and is_read


class Traced(Session):
    """A session whose device calls are written down, where there is a compiler for what does
    that."""

    def __init__(self, program: str, folder: str) -> None:
        self.trace = Wrong(folder) if has_compiler() else None
        super().__init__(program, folder, self.trace.environment if self.trace else None)
        self.expect("times 0", self.times())
        calls = self.calls()
        if self.trace and not opens_by(calls):
            raise self.failure(
                f"opening makes the calls {calls}, and not the header and three syncs", None, []
            )

    def times(self) -> list[str]:
        """The commits with label 0 of the files."""
        found = reader_of(self.start).read(self.start).history
        return [" ".join(["times", *(str(it.time) for it in found if it.label == 0)])]

    def calls(self) -> list[Call]:
        return self.trace.calls() if self.trace else []


class Stops:
    """The bytes that are synced, and what was written since: any stop may tear it."""

    def __init__(self, areas: Areas) -> None:
        self.firm, self.now = dict(areas), dict(areas)
        self.loose: list[Call] = []

    def called(self, after: Areas, calls: Iterable[Call]) -> str | None:
        """After some device calls; why, if bytes have changed where none of them wrote."""
        calls = list(calls)
        for area in AREAS:
            old, new = self.now[area], after[area]
            unwritten = bytearray(new)
            for call in calls:
                if (call.kind, call.area) == ("write", area):
                    unwritten[call.low: call.high] = old[call.low: call.high].ljust(
                        call.high - call.low, b"\0"
                    )
            if unwritten != old.ljust(len(new), b"\0"):
                return f"the {area} file has changed where none of {calls} wrote"
        self.now = dict(after)
        for call in calls:
            if call.kind == "write":
                self.loose.append(call)
            elif call.kind == "sync":
                self.firm[call.area] = after[call.area]
                self.loose = [it for it in self.loose if it.area != call.area]
        return None

    @staticmethod
    def torn(new: bytes, old: bytes, chance: random.Random) -> bytes | None:
        """What may be left of a write: nothing, all, a front of it before the old bytes or a
        filling, or a filling alone."""
        how, filling = chance.randrange(5), bytes([chance.choice(FILLINGS)])
        cut = chance.randrange(len(new) + 1)
        if how == 0:
            return None
        if how == 1:
            return new[:cut] + old[cut:]
        if how == 2:
            return new[:cut] + filling * (len(new) - cut)
        return filling * len(new) if how == 3 else new

    def left(self, chance: random.Random) -> Areas:
        """One image that a stop may leave."""
        torn = [
            self.torn(
                self.now[it.area][it.low:it.high], self.firm[it.area][it.low:it.high], chance
            )
            for it in self.loose
        ]
        return self.with_loose(
            torn,
            bytes([chance.choice(FILLINGS)]) * chance.choice(
                (0, 0, 0, chance.randrange(2 * image.EXTENT))
            ),
        )

    def with_loose(self, torn: list[bytes | None], behind: bytes = b"") -> Areas:
        """What is synced, with these bytes where was written since (None: nothing of a write), and
        others behind the end of each file."""
        areas = {area: bytearray(self.firm[area] + behind) for area in AREAS}
        for call, piece in zip(self.loose, torn):
            data = areas[call.area]
            if piece is not None:
                data.extend(bytes(max(0, call.low - len(data))))
                data[call.low: call.low + len(piece)] = piece
        return {area: bytes(data) for area, data in areas.items()}

    def each_left(self) -> Iterator[Areas]:
        """Images that a stop may leave: all of what was written since the syncs, nothing of it,
        and with each filling all of it torn, or half of the last write."""
        new = [self.now[it.area][it.low:it.high] for it in self.loose]
        yield self.with_loose([*new])
        if not self.loose:
            return
        yield self.with_loose([None] * len(new))
        half = len(new[-1]) // 2
        for filling in (bytes([it]) for it in FILLINGS):
            yield self.with_loose([filling * len(it) for it in new], filling * 100)
            yield self.with_loose([*new[:-1], new[-1][:half] + filling * (len(new[-1]) - half)])


class Play:
    """Random lines on a store, and vacuums between its sessions, with a stop after each device
    call."""

    def __init__(
        self, program: str, chance: random.Random, depth: int = 0, has_stops: bool = True
    ) -> None:
        self.program, self.chance, self.depth, self.has_stops = program, chance, depth, has_stops
        self.tried: Counter = Counter()

    def play(self, folder: str, small: Machine, count: int) -> None:
        while count > 0:
            lines = min(count, self.chance.choice(SESSIONS))
            self.session(folder, small, lines)
            count -= lines
            if self.chance.random() < VACUUMS:
                self.vacuum(folder, small)
            if self.chance.random() < GROWTHS:
                self.command(folder, small.growth(), "grow DIR", small)

    def session(self, folder: str, small: Machine, count: int) -> None:
        session = Traced(self.program, folder)
        stops = Stops(session.start)
        try:
            for _ in range(count):
                self.line(session, small, stops)
                if self.chance.random() < OWN_VACUUMS:
                    for line in a_vacuum(self.chance, small):
                        tell(session, small, stops, line)
            if self.chance.random() < 0.5:
                tell(session, small, stops, "reopen")
            session.end_well()
            small.reopened()
        finally:
            session.kill()
        self.tried["lines"] += len(session.lines)

    def vacuum(self, folder: str, small: Machine) -> None:
        newest = machine.last(small.published)
        upto = self.chance.choice((newest, self.chance.randrange(newest + 3)))
        self.command(folder, small.vacuum(upto), f"vacuum DIR {upto}", small)

    def command(self, folder: str, wanted: list[str], words: str, small: Machine) -> None:
        """A command between two sessions, after which the machine stands for the files."""
        start = read_areas(folder)
        status, said = command(self.program, *words.replace("DIR", folder).split(" "))
        if (status, said) != (status_of(wanted), wanted):
            raise Failure(
                f"{words}: answered {said} with status {status}, and not {wanted}",
                Shown(start, [], wanted, {}, words),
            )
        self.tried[f"commands, {words.split(' ')[0]}"] += 1
        check_left(self.program, read_areas(folder), small.front(), f"after {words}")

    def line(self, session: Traced, small: Machine, stops: Stops) -> None:
        line = some_line(self.chance, small, BY_STEPS)
        if line not in ("pump", "job"):
            tell(session, small, stops, line)
            # some zeros at once, so that sessions come to a growth's gate
            is_new = small.job is not None and small.job.kind == "grow" and not small.job.made
            for _ in range(self.chance.randrange(17) if is_new and line == "grow" else 0):
                step(session, small, stops, "job")
            return
        said = step(session, small, stops, line)
        if said not in ("idle", "refused: busy") and self.has_stops:
            self.stop(small, stops, f"a stop after {line} answered {said}")
            self.tried[f"stops, {step_name(said)}"] += 1

    def stop(self, small: Machine, stops: Stops, where: str) -> None:
        """What a stop may leave opens as what is published or, while a gate is in the writing, as
        that with the whole group, the floor or the piece."""
        areas = stops.left(self.chance)
        again = check_left(self.program, areas, small.front(), where)
        self.tried["images"] += 1
        if self.depth < DEEPEST and self.chance.random() < SECOND_STOPS:
            self.play_on(areas, again)

    def play_on(self, areas: Areas, again: Machine) -> None:
        """Goes on with what a stop left, and stops again."""
        with tempfile.TemporaryDirectory(prefix="torture-") as folder:
            write_areas(folder, areas)
            deeper = Play(self.program, self.chance, self.depth + 1)
            deeper.play(folder, again, 40)
        self.tried += deeper.tried
        self.tried["second stops"] += 1


def areas_of(line: str, small: Machine) -> set[str]:
    """The areas that a line of many steps syncs; where another's slot is in the writing, its own
    is not begun."""
    if isinstance(small, Endless):
        return endless_areas_of(line, small)
    synced = ("heap synced", "run synced", *SLOT_STEPS)
    is_barred = small.job is not None and small.job.is_in_slot()
    if line == "finish":
        is_barred = small.turn in SLOT_STEPS and small.job is not None and small.job.takes_slot()
    if line == "flush" and small.queue:
        is_done = small.turn in synced and (is_barred or len(small.queue) == small.group)
        return (set() if is_done else {"heap"}) | (set() if is_barred else {"status"})
    if line == "finish" and small.job:
        data = {"archive": {"archive"}, "reclaim": {"heap"}}.get(small.job.kind, set())
        return (set() if small.job.step in synced else data) | (set() if is_barred else {"status"})
    return set(AREAS) if line == "reopen" else set()


def endless_areas_of(line: str, small: Endless) -> set[str]:
    """The same in a store of profile 4."""
    if line == "reopen":
        return set(AREAS)
    if line == "flush" and small.queue:
        return set() if small.group_waits() else {"heap"}
    job = small.job if line == "finish" else None
    if job is None:
        return set()
    made = job.steps_behind()
    if job.kind != "reclaim":
        data = {"archive"} if job.kind == "archive" and "run synced" not in made else set()
        return data | (set() if small.turn is not None and not job.is_entered() else {"heap"})
    is_barred = small.turn == "gate written" and "turn written" not in made
    synced = {"heap synced": "heap", "roll synced": "archive", "root synced": "status"}
    areas = {area for step, area in synced.items() if step in job.order and step not in made}
    return areas | (set() if is_barred else {"status"})


def tell(session: Traced, small: Machine, stops: Stops, line: str) -> None:
    """Feeds a line whose answer is known. Only one of many steps makes device calls."""
    areas = areas_of(line, small)
    wanted = small.answer(line) or []
    session.expect(line, wanted)
    shown = [Call("sync", it) for it in sorted(areas)]
    made = [it for it in session.calls() if it.kind != "read"]
    if session.trace and {it.area for it in made} != {it.area for it in shown}:
        raise session.failure(
            f"{line}: makes the calls {made}, and syncs {shown}", wanted, ["other calls"]
        )
    changed(session, stops, line, wanted, made or shown)


def step(session: Traced, small: Machine, stops: Stops, line: str) -> str:
    """Feeds one `pump` or `job`, which makes one device call, or none where its way is barred or
    at its end."""
    job = small.job if line == "job" else None
    said = session.step(line, small.pumped if line == "pump" else small.jobbed)
    shown = call_of(said, stops.now, read_areas(session.folder), job)
    made = [it for it in session.calls() if it.kind != "read"]
    if session.trace and (len(made) != (shown is not None) or shown and not is_of(made[0], shown)):
        raise session.failure(
            f"{line}: answered {said}, and makes the calls {made}, not {shown}", [said],
            ["other calls"],
        )
    changed(session, stops, line, [said], made or ([shown] if shown else []))
    return said


def changed(session: Traced, stops: Stops, line: str, said: list[str], calls: list[Call]) -> None:
    """Notes what was called; without a trace the files have changed where a line of many steps
    wrote, too."""
    if not session.trace and line not in ("pump", "job"):
        stops.now = read_areas(session.folder)
    why = stops.called(read_areas(session.folder), calls)
    if why:
        raise session.failure(f"{line}: {why}", said, ["no change"])
