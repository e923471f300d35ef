"""Random lines of scripts, drawn beside a small machine, and what is left of a store compared with
a history."""
from __future__ import annotations

import random
import tempfile
from collections.abc import Iterable, Sequence
from types import ModuleType

import chains
import image
import machine
from endless import Endless
from machine import ENDLESS, Front, History, Key, Machine, Transaction
from program import Areas, Failure, Shown, command, differing, run, write_areas

KINDS = (
    "begin", "put", "del", "get", "submit", "abort", "redeem", "flush", "finish", "pump",
    "archive", "reclaim", "floor", "grow", "job", "ask", "reopen",
)
# how often each is drawn: where each step is one of a script's lines, and where a line takes all
# of them
BY_STEPS = (8, 12, 4, 1, 10, 1, 5, 2, 1, 40, 4, 4, 2, 1, 40, 2, 0)
BY_LINES = (6, 10, 3, 1, 8, 1, 5, 8, 8, 1, 4, 4, 3, 1, 1, 8, 1)
# and how much less often where it can do nothing now
IDLE = 0.1
NAMES = [f"t{it}" for it in range(6)]
ASKED = ("at", "between", "scan", "times")
# of a longer history only so many moments are asked for, evenly; its intervals are asked for whole
MOMENTS_MOST = 60
# how often a commit is handed in at the end of all time
LATE = 0.002
# fields of which two records do not go into one extent
LARGE = " ".join(["ab" * 255] * 16)


def some_fields(chance: random.Random) -> str:
    many = chance.choice((1, 1, 1, 2, 3, 16))
    size = chance.choice((0, 1, 1, 2, 16, 255))
    return " ".join(
        bytes(chance.randrange(3) for _ in range(size)).hex() or "-" for _ in range(many)
    )


def some_key(chance: random.Random) -> Key:
    relation = chance.choice((1, 1, 1, 1, 2, 65535))
    return relation, chance.choice((0, 0, 0, 1, 1, 3, 7, (1 << 64) - 1))


def key_text(key: Key) -> str:
    return f"{key[0]} {key[1]}"


def some_moment(chance: random.Random, small: Machine) -> int:
    """A time near one of a commit or of the floor, or any up to just behind the last one."""
    newest = machine.last(small.published)
    near = [newest, small.archived, *small.floors.values()]
    near += [it.time for it in small.published[-8:]]
    if chance.random() < 0.8:
        return max(0, chance.choice(near) + chance.randrange(-1, 3))
    return chance.randrange(newest + 3)


def fitting(kind: str, small: Machine) -> list[str]:
    """The names that a line of this kind can do something with."""
    found = [(name, small.names.get(name)) for name in NAMES]
    if kind in ("begin", "redeem"):
        sort = int if kind == "redeem" else type(None)
        return [name for name, it in found if isinstance(it, sort)]
    opened = [(name, it) for name, it in found if isinstance(it, Transaction)]
    return [name for name, it in opened if kind != "submit" or it.writes]


def can_do(kind: str, small: Machine) -> bool:
    """Whether a line of this kind can do something now."""
    newest, has_job = machine.last(small.published), small.job is not None
    if kind == "begin":
        count = sum(isinstance(it, Transaction) for it in small.names.values())
        return count < 2 and bool(fitting(kind, small))
    if kind in ("put", "del", "get", "submit", "abort", "redeem"):
        return bool(fitting(kind, small))
    if kind in ("flush", "pump"):
        return bool(small.queue)
    if kind in ("finish", "job"):
        return has_job
    if kind == "grow":
        return not has_job and machine.can_grow(small.profile)
    marks = {
        "archive": (small.archived, newest), "reclaim": (small.reclaimed, small.archived),
        "floor": (small.floor_of(1), newest),
    }
    return kind not in marks or not has_job and marks[kind][0] < marks[kind][1]


def question(chance: random.Random, small: Machine) -> str:
    key, moment = some_key(chance), some_moment(chance, small)
    kind = chance.choice(ASKED)
    if kind == "at":
        return f"at {key_text(key)} {moment}"
    if kind == "between":
        return f"between {key_text(key)} {moment} {some_moment(chance, small)}"
    return f"scan {key[0]} {moment}" if kind == "scan" else f"times {chance.randrange(3)}"


def some_floor(chance: random.Random, small: Machine, upto: int) -> str:
    """A line that raises a floor, now and then one of another profile, or of a relation without
    records."""
    relation = chance.choice((some_key(chance)[0], some_key(chance)[0], 3))
    profile = small.profile if chance.random() < 0.95 else chance.choice(machine.PROFILES)
    return machine.floor_line(profile, relation, upto)


def some_line(chance: random.Random, small: Machine, weights: Sequence[int]) -> str:
    newest = machine.last(small.published)
    kind = chance.choices(
        KINDS, [often if can_do(it, small) else often * IDLE for it, often in zip(KINDS, weights)]
    )[0]
    names = fitting(kind, small)
    key = some_key(chance)
    name = chance.choice(names if names and chance.random() < 0.95 else NAMES)
    if kind in ("begin", "abort", "redeem"):
        return f"{kind} {name}"
    if kind == "put":
        return f"put {name} {key_text(key)} {some_fields(chance)}"
    if kind in ("del", "get"):
        return f"{kind} {name} {key_text(key)}"
    if kind == "submit":
        if chance.random() < LATE:
            now = chance.choice((machine.LATEST, machine.LATEST + 1))
        else:
            now = chance.choice((0, 0, newest + chance.randrange(20)))
        return f"submit {name} {chance.randrange(3)} {now}"
    if kind in ("archive", "floor"):
        upto = chance.choice((newest, some_moment(chance, small)))
        return f"archive {upto}" if kind == "archive" else some_floor(chance, small, upto)
    return question(chance, small) if kind == "ask" else kind


def a_vacuum(chance: random.Random, small: Machine) -> list[str]:
    """Lines that raise a floor, grow, archive and reclaim, or some of these, no transaction being
    open, and ask below the marks."""
    opened = [name for name, it in small.names.items() if isinstance(it, Transaction)]
    has_floor, jobs = chance.random() < 0.4, ["grow"] if chance.random() < 0.1 else []
    if has_floor:
        jobs.append(some_floor(chance, small, some_moment(chance, small)))
    if chance.random() < 0.9:
        upto = chance.choice((machine.last(small.published), some_moment(chance, small)))
        jobs += [f"archive {upto}", "reclaim"]
    return [
        *(f"abort {name}" for name in opened), *(line for job in jobs for line in (job, "finish")),
        *(question(chance, small) for _ in range(4)),
    ]


# ---- what is left of a store


def moments_of(small: Machine, floor: int, others: Iterable[int]) -> list[int]:
    """When to ask of a relation with this floor: at the moments from it on, some of which are of
    many, and at others."""
    moments = [0, *(it.time + by for it in small.published for by in (-1, 0, 1))]
    moments = sorted({it for it in moments if it >= floor})
    some = moments[:: -(-len(moments) // MOMENTS_MOST) or 1]
    return sorted({0, floor, max(floor - 1, 0), *some, *others})


def questions(small: Machine, others: Iterable[int] = ()) -> list[str]:
    """Lines that ask for all that a history says from its floors on, and at other moments."""
    keys = sorted({key for it in small.published for key in it.writes}) or [(1, 1)]
    relations = sorted({key[0] for key in keys} | {*small.floors} - {None})
    moments = {it: moments_of(small, small.floor_of(it), others) for it in relations}
    newest, lines = machine.last(small.published), []
    for key in keys:
        starts = sorted({0, small.floor_of(key[0])})
        lines += [f"at {key_text(key)} {moment}" for moment in moments[key[0]]]
        lines += [f"between {key_text(key)} {start} {newest + 1}" for start in starts]
    for relation in relations:
        lines += [f"scan {relation} {moment}" for moment in moments[relation]]
    return lines + [f"times {it}" for it in sorted({it.label for it in small.published})]


def why_no_front(found: image.Image, front: Front) -> str | None:
    """Why what files stand for is not one of a front; None where it is."""
    said = {
        "commits": (len(found.history), front.counts), "floors": (found.log.floors, front.floors),
        "slots": (found.slots, front.slots),
    }
    return next(
        (f"{name} {it} are left, and not one of {some}" for name, (it, some) in said.items()
         if it not in some),
        None,
    )


def check_left(
    program: str, areas: Areas, front: Front, where: str, others: Iterable[int] = ()
) -> Machine:
    """Files that were left open as one of a front, and answer as it does: the machine of what they
    stand for."""

    def failure(why: str, lines: list[str], wanted: list[str], words: str = "run DIR") -> Failure:
        return Failure(f"{where}: {why}", Shown(areas, lines, wanted, {}, words))

    newest = machine.last(front.order[: front.counts[0]])
    first = [machine.opened(image.profile_of(areas["status"]), newest, front.floors[0])]
    reader = reader_of(areas)
    try:
        found = reader.read(areas)
    except image.Refused as why:
        raise failure(f"the plain reader is refused: {why}", ["reopen"], first) from None
    why = why_no_front(found, front)
    if why:
        raise failure(why, ["reopen"], first)
    left = machine_of(found, front.order[: len(found.history)])
    lines = ["reopen", *questions(left, others)]
    wanted = [said for line in lines for said in left.answer(line) or []]
    why = reader.why_not(areas, found, left.published)
    if why:
        raise failure(f"the plain reader finds {why}", lines, wanted)
    with tempfile.TemporaryDirectory(prefix="torture-") as folder:
        write_areas(folder, areas)
        said, due = run(program, folder, lines), (0, wanted)
        if said != due:
            raise failure(f"what was left {differing(said, due)}", lines, wanted)
        # how many slots there are is told by the log's text alone
        if len({*front.slots}) == 1:
            return left
        due = (0, image.dump(areas["status"]))
        said = command(program, "dump", folder)
        if said != due:
            raise failure(f"dump of what was left {differing(said, due)}", [], due[1], "dump DIR")
    return left


def reader_of(areas: Areas) -> ModuleType:
    """The plain reader of such files."""
    return chains if image.profile_of(areas["status"]) == ENDLESS else image


def machine_of(found: image.Image, history: History) -> Machine:
    """A machine that goes on with files."""
    log = found.log
    if found.profile == ENDLESS:
        endless = Endless(history, log.floors, log.chains, found.slots)
        endless.archived = log.archived
        return endless
    small = Machine(history, found.slots, len(log.slots), found.profile, log.floors)
    small.archived, small.reclaimed = log.archived, log.reclaimed
    return small
