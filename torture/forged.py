#!/usr/bin/env python3
"""Files that no store left: each check of opening broken by a byte, and pairs of them; every byte
of a small store's log, extents and runs set to other values; each file cut at every length. So of
a store of the newest profile; of one of each other profile the checks, and the bytes of its header
and of its floors, in which profiles differ.

forged.py PROGRAM [--only KIND] [--seconds S] [--jobs N] [--table]

What is to be answered is computed by a plain reader of the format (image.py, homes.py), which
shares nothing with the program: that the files open, and then every record at every time; or which
check is the first to fail. KIND: table, pairs, log, extents, runs, cuts. The status is 1 where an
answer is another one; a script is left that shows it. With --seconds it ends after so many: first
comes the table, then of each kind one image after the other, spread over all of them. --table
prints the checks, their changes and answers.
"""
from __future__ import annotations

import argparse
import itertools
import os
import sys
import tempfile
from collections import Counter
from collections.abc import Iterable, Iterator
from concurrent.futures import ProcessPoolExecutor

import image
from checks import Change, Small, heap_at, overlap, slot, table
from homes import Files
from machine import NEWEST, PROFILES, Key
from program import (
    AREAS, FAILURES_MOST, Answer, Areas, Failure, Shown, Until, command, differing, read_areas,
    report, run, spread, use_memory, words_of, write_areas
)

VALUES = (0x00, 0x37, 0xC7, 0xFF)
# images that are tried by a process before the time is looked at
AT_ONCE = 16


def asked_of(areas: Areas, keys: list[Key]) -> tuple[list[str], Answer, str]:
    """Lines that ask files for all that they say, the status and the answers, and how the files
    are."""
    try:
        files = Files(areas)
    except image.Refused as why:
        kind = str(why) if str(why) == "not a store" else str(why).rsplit(" ", 1)[0]
        return ["reopen"], (1, [f"refused: {why}"]), kind
    lines = files.questions(keys)
    wanted = [
        files.opened(),
        *(said for line in lines for said in files.answer(line)),
    ]
    outcome = "opens" if files.is_sound() else "opens, a run is damaged"
    return ["reopen", *lines], (0, wanted), outcome


def dumped(status: bytes) -> Answer:
    try:
        return 0, image.dump(status)
    except image.Refused as why:
        return 1, [f"refused: {why}"]


def check(program: str, areas: Areas, what: str, keys: list[Key], has_dump: bool = False) -> str:
    """Opens the files and asks, and has their log printed; says how they are."""
    lines, wanted, outcome = asked_of(areas, keys)
    with tempfile.TemporaryDirectory(prefix="forged-") as folder:
        write_areas(folder, areas)
        try:
            found = run(program, folder, lines)
        except Failure as why:
            raise Failure(f"{what}: {why}", Shown(areas, lines, wanted[1], {})) from None
        if found != wanted:
            raise Failure(
                f"{what}: {differing(found, wanted)}", Shown(areas, lines, wanted[1], {})
            )
        if has_dump:
            found, wanted = command(program, "dump", folder), dumped(areas["status"])
            if found != wanted:
                raise Failure(
                    f"{what}: dump {differing(found, wanted)}",
                    Shown(areas, [], wanted[1], {}, "dump DIR"),
                )
        if read_areas(folder) != areas:
            raise Failure(
                f"{what}: opening and questions have changed a file",
                Shown(areas, lines, wanted[1], {}),
            )
    return outcome


# ---- the images

# the profile of the store, its kind, what it is, the changes, the answer if the table says it
Forgery = tuple[int, str, str, list[Change], "str | None"]


def tabled(small: Small) -> Iterator[Forgery]:
    for name, change, answer in table(small):
        yield small.profile, "table", name, [change], answer


def pairs(small: Small) -> Iterator[Forgery]:
    """Two checks broken: the first one is named, as the plain reader has it."""
    rows = table(small)
    for place, (name, change, _) in enumerate(rows):
        for other, also, _ in rows[place + 1:]:
            if not overlap(change, also):
                # a cut comes last: what it leaves is changed before
                both = sorted((change, also), key=lambda it: it[2] is None)
                yield small.profile, "pairs", f"{name} and {other}", both, None


def bytes_of(small: Small, kind: str, area: str, places: Iterable[int]) -> Iterator[Forgery]:
    """Each of these bytes set to each of the values, and to its complement."""
    for place in places:
        now = small.areas[area][place]
        for value in sorted({*VALUES, now ^ 0xFF} - {now}):
            change = (area, place, bytes([value]))
            yield small.profile, kind, f"{area} {place} := {value:02x}", [change], None


def in_log(small: Small, every: int) -> list[int]:
    """The bytes of the header and the log, and two slots more; of the slots behind it the gates,
    and of their zeros one of so many. Of a store of an earlier profile those of the header and the
    floors."""
    end = slot(len(small.found) + 2, 0)
    if small.profile == NEWEST:
        behind = range(end, len(small.areas["status"]))
        some = (it for it in behind if it % image.SLOT == 0 or it % every == every - 1)
        return [*range(end), *some]
    floors = [slot(at, 0) for at, kind in enumerate(small.kinds) if kind == "floor"]
    return [it for first in (0, *floors) for it in range(first, first + image.SLOT)]


def in_extents(small: Small, every: int) -> list[int]:
    """The bytes of the live extents: the front and what is used, and of the zeros behind it one of
    so many."""
    places = []
    for number in sorted(small.live):
        used = 16 + image.u(small.areas["heap"], heap_at(number, 8), 4)
        places += [
            heap_at(number, place)
            for place in range(image.EXTENT)
            if place < min(used + 2, 160) or place % every == every - 1
        ]
    return places


def lengths(small: Small, area: str, every: int) -> list[int]:
    """Where to cut an area: of the closed slots behind the log one place of so many."""
    size = len(small.areas[area])
    end = slot(len(small.found) + 2, 0) if area == "status" else size
    return [it for it in range(size) if it < end or it % every == every - 1 or it == size - 1]


def cuts(small: Small, every: int) -> Iterator[Forgery]:
    for area in AREAS:
        for length in lengths(small, area, every):
            cut = (area, length, None)
            yield small.profile, f"cuts of {area}", f"{area} cut to {length}", [cut], None


KINDS = ("table", "pairs", "log", "extents", "runs", "cuts")
# of an earlier profile
EARLIER = ("table", "log")


def forgeries(small: Small, kind: str, zeros: int) -> Iterator[Forgery]:
    if small.profile != NEWEST and kind not in EARLIER:
        return iter(())
    return {
        "table": lambda: tabled(small), "pairs": lambda: pairs(small),
        "cuts": lambda: cuts(small, zeros),
        "log": lambda: bytes_of(small, "bytes of the log", "status", in_log(small, zeros)),
        "extents": lambda: bytes_of(
            small, "bytes of live extents", "heap", in_extents(small, zeros)
        ),
        "runs": lambda: bytes_of(
            small, "bytes of runs", "archive", range(len(small.areas["archive"]))
        ),
    }[kind]()


def in_turns(kinds: list[list[Forgery]]) -> Iterator[Forgery]:
    """One of each kind after the other, each spread over its kind."""
    for some in itertools.zip_longest(*(spread(it) for it in kinds)):
        yield from (it for it in some if it is not None)


def why_refused(areas: Areas) -> str:
    try:
        image.read(areas)
    except image.Refused as why:
        return str(why)
    return "nothing"


class Trier:
    """Tries images in a process of its own."""

    program: str
    smalls: dict[int, Small]

    @classmethod
    def begin(cls, program: str, smalls: dict[int, Small]) -> None:
        use_memory()
        cls.program, cls.smalls = program, smalls

    @classmethod
    def one(cls, forgery: Forgery) -> tuple[str, str, Failure | None]:
        profile, kind, what, changes, answer = forgery
        small, kind = cls.smalls[profile], f"profile {profile}, {kind}"
        try:
            areas = small.changed(changes)
            said = check(
                cls.program, areas, f"profile {profile}, {what}", small.keys,
                all(area == "status" for area, _, _ in changes),
            )
            if answer is not None and why_refused(areas) != answer:
                raise Failure(
                    f"{what}: the plain reader says {why_refused(areas)}, and the table {answer}"
                )
            return kind, said, None
        except Failure as why:
            return kind, "FAILED", why


def print_table(small: Small) -> None:
    for name, (area, place, data), _ in table(small):
        change = f"{area} cut to {place} bytes"
        if data is not None:
            change = f"{area} {place} := {data[:24].hex()}" + " .." * (len(data) > 24)
        try:
            files = Files(small.changed([(area, place, data)]))
            answer = f"opens, {files.opened()}" + (
                "" if files.is_sound() else ", a run is damaged"
            )
        except image.Refused as why:
            answer = str(why)
        print(f"profile {small.profile}, {name}: {change}: {answer}")


def all_images(smalls: dict[int, Small], given: argparse.Namespace) -> Iterator[Forgery]:
    """The tables, and then of each other kind one after the other, each kind spread over itself."""
    kinds = [given.only] if given.only else KINDS
    images = {
        kind: [it for small in smalls.values() for it in forgeries(small, kind, given.zeros)]
        for kind in kinds
    }
    yield from images.pop("table", ())
    yield from in_turns([it for it in images.values() if it])


def try_all(
    program: str, smalls: dict[int, Small], given: argparse.Namespace, until: Until
) -> tuple[Counter, int]:
    tried: Counter = Counter()
    bad, all_of = 0, all_images(smalls, given)
    with ProcessPoolExecutor(
        given.jobs, initializer=Trier.begin, initargs=(program, smalls)
    ) as pool:
        while some := list(itertools.islice(all_of, AT_ONCE * given.jobs)):
            for kind, said, why in pool.map(Trier.one, some, chunksize=AT_ONCE // 4):
                tried[kind, said] += 1
                if why:
                    bad += 1
                    report("a forged image", why)
            if until.is_over() or bad >= FAILURES_MOST:
                break
    return tried, bad


def small_store(program: str, profile: int) -> Small:
    with tempfile.TemporaryDirectory(prefix="forged-store-") as folder:
        return Small(program, folder, profile)


def say(tried: Counter) -> None:
    rows: dict[str, list[str]] = {}
    for (kind, said), count in tried.items():
        rows.setdefault(kind, []).append(f"{count} {said}")
    for kind, found in rows.items():
        print(f"{kind}: " + ", ".join(found))


def main() -> int:
    words = words_of(__doc__)
    words.add_argument("--seconds", type=float, help="for how long (until all is tried)")
    words.add_argument(
        "--zeros", type=int, default=64,
        help="of the zeros of an extent and behind the log one of so many (64)",
    )
    words.add_argument("--only", choices=KINDS)
    words.add_argument("--jobs", type=int, default=2, help="images tried at once (2)")
    words.add_argument("--table", action="store_true", help="print the tables of checks")
    given = words.parse_args()
    use_memory()
    program, until = os.path.abspath(given.program), Until(given.seconds)
    try:
        smalls = {it: small_store(program, it) for it in reversed(PROFILES)}
    except Failure as why:
        report("a store to be forged", why)
        return 1
    if given.table:
        for small in smalls.values():
            print_table(small)
        return 0
    tried, bad = try_all(program, smalls, given, until)
    say(tried)
    print(f"{until.rate(tried.total(), 'images')}; {bad} failed")
    return 1 if bad else 0


if __name__ == "__main__":
    sys.exit(main())
