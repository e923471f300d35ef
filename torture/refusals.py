#!/usr/bin/env python3
"""Each call that the program makes of the system, refused: every growth, read, length, write,
sync, opening and lock of a script and of each command, one at a time; reads and writes that move
one byte or are interrupted; and the program killed before each write and sync.

refusals.py PROGRAM [--only NAME] [--seconds S]

A library (refuse.c) stands between the program and the system, counts the calls and lets one go
wrong. Each answer is compared with the small machine's (machine.py): at the call that went wrong
the refusal that docs/USING.md names, then the same line again as where nothing is refused; after a
refused write or sync `failed`, every ticket that was not published in doubt, and queries as
before. Then the store is opened again: a front of the commits with each that was answered done.
One refused growth alone may change no answer, that of the cache of archive blocks: it is traced
that the function which keeps a block was running.

With --seconds it ends after so many: first comes each call of the files that is not made, and then
the others, spread over all of them. The status is 1 where a case fails; the script that shows it
is named. It is 3 where there is no C compiler, and so nothing is tried.
"""
from __future__ import annotations

import os
import sys
import tempfile
from collections import Counter
from collections.abc import Callable

from machine import NEWEST, Machine
from program import (
    FAILURES_MOST, Areas, Failure, Until, format_store, read_areas, report, run, spread,
    status_at_end, use_memory, words_of, write_areas
)
from refused_commands import BEFORE, COMMANDS, Command
from refused_scripts import PROFILES, SCRIPTS, Case
from wrong import NONE, What, Wrong, cases_of, has_compiler, is_first, left_out


# the example on the disk in memory
IN_MEMORY = "memory"
NAMES = [*SCRIPTS, IN_MEMORY, *COMMANDS]


class Refusals:
    def __init__(self, program: str, folder: str, until: Until) -> None:
        self.program, self.folder, self.until = program, folder, until
        self.tried: Counter = Counter()
        self.bad = 0

    def wrong(self, what: What = NONE) -> Wrong:
        return Wrong(self.folder, what, self.program)

    def guard(self, name: str, play: Callable[[Wrong], str], wrong: Wrong) -> None:
        """Runs one case."""
        try:
            outcome = play(wrong)
        except Failure as why:
            report(name, why)
            self.bad += 1
            outcome = "FAILED"
        self.tried[name, wrong.kind, wrong.how, outcome] += 1

    def cases(self, name: str, play: Callable[[Wrong], str]) -> list[What]:
        """Plays it with nothing refused: the calls that can be."""
        nothing = self.wrong()
        self.guard(name, play, nothing)
        counts = nothing.counts()
        print(
            f"{name}: " + ", ".join(f"{count} of {kind}" for kind, count in counts.items()),
            flush=True,
        )
        return cases_of(counts)

    def all(self, names: list[str]) -> None:
        plays = {name: self.play_of(name) for name in names}
        cases = [(name, what) for name, play in plays.items() for what in self.cases(name, play)]
        firsts = [it for it in cases if is_first(it[1])]
        for name, what in [*firsts, *spread([it for it in cases if not is_first(it[1])])]:
            if self.until.is_over() or self.bad >= FAILURES_MOST:
                return
            self.guard(name, plays[name], self.wrong(what))

    def play_of(self, name: str) -> Callable[[Wrong], str]:
        folder = os.path.join(self.folder, "store")
        if name in COMMANDS:
            one = Command(self.program, name, folder, *self.stored())
            return lambda wrong: one.play(wrong, self.wrong)
        if name == IN_MEMORY:
            return lambda wrong: Case(self.program, "", {}, wrong).play(SCRIPTS["example"])
        start = self.formatted(PROFILES.get(name, NEWEST))
        return lambda wrong: Case(self.program, folder, start, wrong).play(SCRIPTS[name])

    def formatted(self, profile: int = NEWEST) -> Areas:
        folder = os.path.join(self.folder, f"formatted {profile}")
        if not os.path.exists(folder):
            os.makedirs(folder)
            format_store(self.program, folder, 64, profile)
        return read_areas(folder)

    def stored(self) -> tuple[Areas, Machine]:
        """A store with some commits and a floor."""
        folder = os.path.join(self.folder, "stored")
        if not os.path.exists(folder):
            write_areas(folder, self.formatted())
            run(self.program, folder, BEFORE)
        small = Machine(slots=64, profile=NEWEST)
        for line in BEFORE:
            small.answer(line)
        return read_areas(folder), small

    def say(self) -> None:
        rows: dict[tuple[str, str, str], list[str]] = {}
        for (name, kind, how, outcome), count in self.tried.items():
            if kind:
                rows.setdefault((name, kind, how), []).append(f"{count} {outcome}")
        for (name, kind, how), outcomes in rows.items():
            print(f"{name}, {kind} {how}: " + ", ".join(outcomes))


def main() -> int:
    words = words_of(__doc__)
    words.add_argument("--only", choices=NAMES)
    words.add_argument("--seconds", type=float, help="for how long (until all is tried)")
    given = words.parse_args()
    use_memory()
    if not has_compiler():
        return status_at_end(0, left_out("refused calls"))
    until = Until(given.seconds)
    with tempfile.TemporaryDirectory(prefix="refusals-") as folder:
        all_of = Refusals(os.path.abspath(given.program), folder, until)
        all_of.all([given.only] if given.only else NAMES)
        if given.seconds is None:
            all_of.say()
    count = all_of.tried.total()
    print(f"{until.rate(count, 'calls went wrong')}; {all_of.bad} failed")
    return 1 if all_of.bad else 0


if __name__ == "__main__":
    sys.exit(main())
