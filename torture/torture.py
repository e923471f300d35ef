#!/usr/bin/env python3
"""Tries the program with real files: random scripts and vacuums, stops at each device call, kills,
full disks, forged files, refused calls.

torture.py PROGRAM [--minutes M] [--seed N] [--only KIND]

Each case has a seed of its own: `--seed N --only KIND` begins with the one that failed. A script
of `pump` and `job` lines makes one device call a line, so the files after each line are all that a
stop may find; what was written since the last sync of a file may be torn, and is: to a prefix, to
what stood there before, or to other bytes. What is left is opened and asked for every record, and
compared with the small machine (machine.py) and with a plain reader of the format (image.py); of
profile 4 with those of endless.py and chains.py. That profile is tried by all kinds but forged.

KIND: stops, kills, full (a disk without room), forged, refused (a call of the system). The status
is 1 where a case fails; a script is left that shows it (`sh SCRIPT PROGRAM`). It is 3 where there
is no C compiler: the last line tells what was left out.
"""
from __future__ import annotations

import copy
import os
import random
import resource
import shutil
import signal
import subprocess
import sys
import tempfile
import threading
import time
from collections import Counter
from collections.abc import Iterator

import forged
import image
import machine
import wrong
from endless import EXTENTS, Endless
from machine import ENDLESS, Commit, Front, Machine
from program import (
    AREAS, Areas, Failure, Session, format_endless, format_store, read_areas, report,
    seconds_to_begin, status_at_end, use_memory, words_of
)
from refused_scripts import Case
from scripts import (
    BY_LINES, a_vacuum, check_left, key_text, questions, some_fields, some_key, some_line
)
from stops import CALLS_UNSEEN, Play

FAILURES_MOST = 5
# how often a call of each class is refused
REFUSED = (8, 1, 1, 3, 2, 6, 6, 1, 1)


def new_store(program: str, folder: str, slots: int, profile: int) -> Machine:
    """A new store, and its machine. One of profile 4 has more than enough extents."""
    if profile == ENDLESS:
        format_endless(program, folder, EXTENTS)
        return Endless()
    format_store(program, folder, slots, profile)
    return Machine(slots=slots, profile=profile)


def stops_case(program: str, chance: random.Random, folder: str, profile: int) -> Counter:
    play = Play(program, chance)
    play.play(folder, new_store(program, folder, chance.choice((16, 32, 256)), profile), 200)
    return play.tried


# ---- kills


class Killed:
    """A script on a store, until it is killed: what it may have left."""

    def __init__(
        self, program: str, folder: str, chance: random.Random, small: Machine
    ) -> None:
        self.session, self.chance, self.small = Session(program, folder), chance, small
        self.order: list[Commit] = []
        self.done = 0

    def lines(self, number: int) -> list[str]:
        """The lines of a commit, whose time is its number; now and then of an archive, a reclaim,
        a floor, a growth."""
        chance, key = self.chance, some_key(self.chance)
        fields = bytes(chance.randrange(256) for _ in range(16)).hex()
        self.order.append(Commit(number, number, {key: fields}))
        lines = [
            "begin t", f"put t {key_text(key)} {fields}", f"submit t {number} 0", "flush",
            "redeem t",
        ]
        if chance.random() < 0.1:
            lines += [f"archive {chance.randrange(1, number + 1)}", "finish"]
            lines += ["reclaim", "finish"] if chance.random() < 0.7 else []
        if chance.random() < 0.1:
            floor = chance.randrange(max(1, number - 20), number + 1)
            lines += [machine.floor_line(self.small.profile, some_key(chance)[0], floor), "finish"]
        if chance.random() < 0.05 and machine.can_grow(self.small.profile):
            lines += ["grow", "finish"]
        return lines

    def feed(self, line: str) -> bool:
        """Feeds a line; whether it was answered. The machine is told of the jobs alone."""
        said = self.session.ask(line)
        if said is None:
            return False
        self.done += said[0].startswith("done ")
        if said == ["started"]:
            self.small.published = self.order
            self.small.answer(line)
        if line == "finish":
            self.small.answer(line)
        return True

    def front(self) -> Front:
        return Front(
            self.order, range(self.done, len(self.order) + 1), self.small.floors_with_job(),
            self.small.slots_with_job(),
        )


def kills_case(program: str, chance: random.Random, folder: str, profile: int) -> Counter:
    """The program is killed in a script, and in a command: a front of the commits is left, with
    each that it answered done."""
    killed = Killed(program, folder, chance, new_store(program, folder, 4096, profile))
    timer = threading.Timer(
        seconds_to_begin(program) * (1 + 20 * chance.random()), killed.session.process.kill
    )
    timer.start()
    alive = True
    while alive and len(killed.order) < 1200:
        alive = all(killed.feed(line) for line in killed.lines(len(killed.order) + 1))
    timer.cancel()
    killed.session.kill()
    left = check_left(program, read_areas(folder), killed.front(), "killed")
    tried = Counter({"kills": 1, "images": 1, "commits before them": killed.done})
    if left.published:
        word = killed_command(program, chance, folder, left)
        tried += Counter({f"kills in {word}": 1, "images": 1})
    return tried


def killed_command(program: str, chance: random.Random, folder: str, small: Machine) -> str:
    """A vacuum or a growth is killed; which one."""
    newest, word = machine.last(small.published), chance.choice(("vacuum", "vacuum", "grow"))
    words = [str(chance.choice((newest, chance.randrange(1, newest + 1))))]
    if word == "grow":
        words = []
        small.grow()
    process = subprocess.Popen(
        [program, word, folder, *words], stdout=subprocess.DEVNULL,
    )
    time.sleep(seconds_to_begin(program) * (0.5 + 3 * chance.random()))
    process.kill()
    process.wait()
    front = Front(
        small.published, (len(small.published),), small.floors_with_job(), small.slots_with_job()
    )
    check_left(program, read_areas(folder), front, f"killed in {word}")
    return word


# ---- a full disk


def full_case(program: str, chance: random.Random, folder: str, profile: int) -> Counter:
    """A file may not grow past a limit: the store says failed, goes on reading, and loses nothing
    that it answered done."""
    small = new_store(program, folder, 64, profile)
    limit = 34000 + chance.randrange(1, 12) * 8192 - chance.choice((0, 0, 1, 8191))
    # with room for a piece of slots or not
    limit += chance.choice((0, 0, 256 * 512))

    def limited() -> None:
        signal.signal(signal.SIGXFSZ, signal.SIG_IGN)
        resource.setrlimit(resource.RLIMIT_FSIZE, (limit, limit))

    session = Session(program, folder, before=limited)
    try:
        small, front = write_on(session, small, chance)
        if front:
            session.expect("redeem t", ["in doubt"] if small.queue else ["refused: name"])
            session.expect("begin u", ["refused: failed"])
        for line in questions(small):
            session.expect(line, small.answer(line) or [], "on a full disk, ")
        session.end_well()
    finally:
        session.kill()
    left = check_left(program, read_areas(folder), front or small.front(), "after a full disk")
    go_on(program, folder, left)
    filled = "disks with room" if front is None else "disks filled"
    return Counter({filled: 1, "images": 1})


def write_on(
    session: Session, small: Machine, chance: random.Random
) -> tuple[Machine, Front | None]:
    """Commits, archives, reclaims, floors and a growth, until one is refused: what stands, and what
    may be left then."""
    growth = chance.choice((0, 0, 3, 9, 15))
    for number in range(1, 25):
        key, fields = some_key(chance), some_fields(chance)
        for line in ("begin t", f"put t {key_text(key)} {fields}", f"submit t {number} 0"):
            session.expect(line, small.answer(line) or [])
        steps = ["flush", "redeem t"]
        if number % 4 == 0:
            steps += [
                f"archive {small.archived + 1 + chance.randrange(number - small.archived)}",
                "finish", "reclaim", "finish",
            ]
        if number % 4 == 2:
            floor = chance.randrange(number + 2)
            steps += [machine.floor_line(small.profile, some_key(chance)[0], floor), "finish"]
        if number == growth:
            steps += ["grow", "finish"]
        for line in steps:
            before = copy.deepcopy(small)
            wanted = small.answer(line) or []
            said = session.ask(line)
            if said == ["refused: failed"]:
                order = [*before.published, *before.queue]
                counts = range(len(before.published), len(order) + 1)
                return before, Front(
                    order, counts, before.floors_with_job(), before.slots_with_job()
                )
            if said != wanted:
                raise session.failure(f"{line}: answered {said}, and not {wanted}", said, wanted)
    return small, None


def go_on(program: str, folder: str, small: Machine) -> None:
    """With room again the store goes on."""
    session = Session(program, folder)
    try:
        for line in ("begin t", "put t 1 7 61", "submit t 1 0", "flush", "redeem t"):
            session.expect(line, small.answer(line) or [], "with room again, ")
        session.end_well()
    finally:
        session.kill()
    check_left(program, read_areas(folder), small.front(), "with room again")


# ---- forged files


def forged_case(program: str, chance: random.Random, folder: str, profile: int) -> Counter:
    """Bytes of the files are changed, one is cut, or it is that of another store: the program
    opens them, or says why not, as the plain reader does."""
    whole = played(program, chance, folder, profile)
    other = played(program, chance, folder + "/other", chance.choice(machine.PROFILES))
    keys = [(relation, record) for relation in (1, 2) for record in (0, 1, 7)]
    found, tried = image.read(whole), Counter()
    for _ in range(60):
        areas = {area: bytearray(whole[area]) for area in AREAS}
        if chance.random() < 0.05:
            area = chance.choice(AREAS)
            areas[area] = bytearray(other[area])
        else:
            for _ in range(chance.choice((1, 1, 1, 2))):
                forge(areas, found, chance)
        said = forged.check(
            program, {area: bytes(areas[area]) for area in AREAS}, "forged", keys,
            chance.random() < 0.2,
        )
        tried += Counter({said: 1, "images": 1})
    return tried


def played(program: str, chance: random.Random, folder: str, profile: int) -> Areas:
    """The files of a store after some lines."""
    os.makedirs(folder, exist_ok=True)
    small = new_store(program, folder, chance.choice((16, 64)), profile)
    Play(program, chance, has_stops=False).play(folder, small, 200)
    return read_areas(folder)


def forge(areas: dict[str, bytearray], found: image.Image, chance: random.Random) -> None:
    """One byte of an area is another, mostly one that counts, or the area is cut."""
    area = chance.choice(("status", "status", "heap", "heap", "archive"))
    data = areas[area]
    if not data:
        return
    if chance.random() < 0.05:
        del data[chance.randrange(len(data)):]
        return
    at = chance.randrange(len(data))
    if area == "status" and chance.random() < 0.9:
        at = image.slot_at(chance.randrange(-1, len(found.log.slots) + 1)) + chance.choice(
            (chance.randrange(40), chance.randrange(image.SLOT))
        )
        # now and then the gate of a piece
        at = chance.choice(image.GATES[:4]) if chance.random() < 0.1 else at
    elif area == "heap" and found.live and chance.random() < 0.9:
        at = (chance.choice(sorted(found.live)) - 1) * image.EXTENT + chance.choice(
            (chance.randrange(16), chance.randrange(96), chance.randrange(image.EXTENT))
        )
    if at < len(data):
        data[at] = chance.choice(
            (
                0x00, 0x01, 0x37, 0xC7, 0xFF, data[at] ^ 0xFF, (data[at] + 1) % 256,
                data[at] ^ 1 << chance.randrange(8),
            )
        )


# ---- refused calls


def drawn(chance: random.Random, case: Case, count: int, opened: Counter) -> Iterator[str]:
    """Random lines; and how many calls there were of each class before the second one."""
    yield "times 0"
    opened.update(case.wrong.counts())
    for _ in range(count):
        yield some_line(chance, case.small, BY_LINES)
        if chance.random() < 0.06:
            yield from a_vacuum(chance, case.small)


def refused_case(program: str, chance: random.Random, folder: str, profile: int) -> Counter:
    """Some calls of a random script, each refused in a run of its own."""
    formatted, store = os.path.join(folder, "formatted"), os.path.join(folder, "store")
    os.makedirs(formatted)
    new_store(program, formatted, 256, profile)
    start, nothing = read_areas(formatted), wrong.Wrong(folder)
    first = Case(program, store, start, nothing)
    opened: Counter = Counter()
    first.play(drawn(chance, first, 60, opened))
    counts, tried = nothing.counts(), Counter()
    for _ in range(10):
        kind = chance.choices(
            wrong.CLASSES, [often * (counts[it] > 0) for it, often in zip(wrong.CLASSES, REFUSED)]
        )[0]
        # mostly behind the opening
        least = opened[kind] if counts[kind] > opened[kind] and chance.random() < 0.9 else 0
        what = (kind, chance.randrange(least, counts[kind]) + 1, chance.choice(wrong.HOWS[kind]))
        refused = wrong.Wrong(folder, what, program)
        outcome = Case(program, store, start, refused).play(first.session.lines)
        tried += Counter({f"{kind} {outcome}": 1, "images": 1})
    return tried


# ---- all of it

KINDS = {
    "stops": stops_case, "kills": kills_case, "full": full_case, "forged": forged_case,
    "refused": refused_case,
}


# the kinds that try stores of profile 4 too
WITH_ENDLESS = ("stops", "kills", "full", "refused")
# what of a kind is left out where there is no compiler
NEEDS_COMPILER = {"stops": CALLS_UNSEEN, "refused": "refused calls"}


def one_case(program: str, kind: str, seed: int) -> Counter | None:
    """Runs a case, on a store of the profile whose turn it is: what it tried, or None where it
    fails."""
    folder = tempfile.mkdtemp(prefix=f"torture-{kind}-")
    profiles = (*machine.PROFILES, *([ENDLESS] if kind in WITH_ENDLESS else []))
    profile = profiles[-1 - (seed + [*KINDS].index(kind)) % len(profiles)]
    try:
        chance = random.Random(f"{kind} {seed}")
        return KINDS[kind](program, chance, folder, profile) + Counter({f"profile {profile}": 1})
    except Failure as why:
        report(f"{kind} of seed {seed}", why)
        return None
    finally:
        shutil.rmtree(folder, ignore_errors=True)


def say(tried: dict[str, Counter], cases: Counter, seconds: float) -> None:
    for kind, found in tried.items():
        print(
            f"{kind}: {cases[kind]} cases: "
            + ", ".join(f"{count} {name}" for name, count in sorted(found.items()) if count)
        )
    images = sum(it["images"] for it in tried.values())
    print(
        f"{cases.total()} cases and {images} images in {seconds:.0f} s:"
        f" {cases.total() / seconds:.1f} cases and {images / seconds:.0f} images a second"
    )


def main() -> int:
    words = words_of(__doc__)
    words.add_argument("--minutes", type=float, default=1.0, help="for how long (1)")
    words.add_argument("--seed", type=int, default=1, help="the first case's seed (1)")
    words.add_argument("--only", choices=sorted(KINDS))
    given = words.parse_args()
    use_memory()
    program, began, seed = os.path.abspath(given.program), time.time(), given.seed
    kinds = [given.only] if given.only else [*KINDS]
    left_out = wrong.left_out(*(NEEDS_COMPILER[it] for it in kinds if it in NEEDS_COMPILER))
    kinds = [it for it in kinds if it != "refused" or wrong.has_compiler()]
    tried, cases, failed = {kind: Counter() for kind in kinds}, Counter(), 0
    while kinds and time.time() < began + 60 * given.minutes and failed < FAILURES_MOST:
        for kind in kinds:
            found = one_case(program, kind, seed)
            failed += found is None
            cases[kind] += 1
            tried[kind] += found or Counter()
        seed += 1
    say(tried, cases, time.time() - began)
    print(f"seeds {given.seed} to {seed - 1}, {failed} failed")
    return status_at_end(failed, left_out)


if __name__ == "__main__":
    sys.exit(main())
