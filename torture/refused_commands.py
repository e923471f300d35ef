"""Commands with one call of the system that goes wrong, and then the same again."""
from __future__ import annotations

import copy
import shutil
import signal
from collections.abc import Callable
from dataclasses import replace

import image
from machine import PIECE, Machine
from program import (
    AREAS, Areas, Failure, Shown, ended, read_areas, run, status_of, write_areas
)
from scripts import check_left, machine_of
from wrong import HARMLESS, Wrong

# what stands before a command
BEFORE = """begin a
put a 1 7 61
put a 1 8 78
submit a 1 100
flush
begin b
put b 1 7 62
submit b 2 110
flush
begin c
del c 1 7
submit c 3 120
flush
begin d
put d 1 7 63
submit d 4 130
flush
floorof 1 105
finish
""".splitlines()
COMMANDS = {
    "at": "at DIR 1 7 105", "between": "between DIR 1 7 105 131", "dump": "dump DIR",
    "vacuum": "vacuum DIR 120", "grow": "grow DIR", "format": "format DIR --slots 16",
}
# those that are a job of a store that is open
JOBS = ("vacuum", "grow")
# an opening syncs each area, and its refusal is not that of a job
OPENING_SYNCS = len(AREAS)


def refusal_of(name: str, wrong: Wrong) -> str:
    """What a command answers where this call is refused."""
    if wrong.kind == "growth":
        return "refused: no memory"
    is_of_a_job = wrong.kind == "write" or wrong.kind == "sync" and wrong.at > OPENING_SYNCS
    fails = name in JOBS and is_of_a_job
    return "refused: failed" if fails else "refused: device"


class Command:
    """A command on a store, or in an empty folder."""

    def __init__(self, program: str, name: str, folder: str, start: Areas, small: Machine) -> None:
        self.program, self.name, self.words, self.folder = program, name, COMMANDS[name], folder
        self.start, self.small = {} if name == "format" else start, small
        self.complaint = ""

    def usual(self) -> list[str]:
        """What it answers where nothing goes wrong."""
        if self.name == "format":
            return ["formatted 16"]
        if self.name == "dump":
            return image.dump(self.start["status"])
        if self.name in JOBS:
            return self.done_on(copy.deepcopy(self.small))
        return self.small.answer(self.words.replace("DIR ", "")) or []

    def done_on(self, small: Machine) -> list[str]:
        """What a command that is a job says of a store."""
        return small.vacuum(120) if self.name == "vacuum" else small.growth()

    def begin(self) -> None:
        shutil.rmtree(self.folder, ignore_errors=True)
        write_areas(self.folder, self.start)

    def do(self, wrong: Wrong) -> tuple[int, list[str]]:
        words = self.words.replace("DIR", self.folder).split(" ")
        done = ended([self.program, *words], env=wrong.environment)
        self.complaint = done.stderr
        return done.returncode, done.stdout.splitlines()

    def failure(self, wrong: Wrong, why: str, wanted: list[str]) -> Failure:
        return Failure(
            f"{self.words} {wrong}: {why}",
            Shown(self.start, [], wanted, wrong.environment, self.words),
        )

    def play(self, wrong: Wrong, nothing: Callable[[], Wrong]) -> str:
        """One call goes wrong; says how it went."""
        self.begin()
        (status, said), usual = self.do(wrong), self.usual()
        if wrong.kind and not wrong.came():
            raise self.failure(wrong, "the call never came", usual)
        may_pass = not wrong.kind or wrong.how in HARMLESS or wrong.was_in_cache()
        if may_pass or (status, said) == (0, usual):
            if not may_pass or (status, said) != (0, usual):
                raise self.failure(wrong, f"answers {said} with status {status}", usual)
            outcome = "no change"
        else:
            outcome = self.refused(wrong, status, said, usual)
            self.again(wrong, nothing())
        return outcome

    def refused(self, wrong: Wrong, status: int, said: list[str], usual: list[str]) -> str:
        """The refusal, behind what was answered before; nothing or a part of it where the output
        is refused; nothing where the words found no memory, or where it is killed."""
        wanted = refusal_of(self.name, wrong)
        if wrong.how == "killed" and status == -signal.SIGKILL and not said:
            return "ended"
        if wrong.kind == "output" and status == 1:
            return "ended"
        if wrong.kind == "growth" and status == 2 and not said and self.complaint:
            return "a usage fault"
        is_told = said and said[-1] == wanted and said[:-1] == usual[: len(said) - 1]
        # the buffer of the output is asked for before the first answer
        if not is_told and not (wrong.kind == "growth" and not said) or status != 1:
            raise self.failure(wrong, f"answers {said} with status {status}", [wanted])
        return wanted if is_told else "ended"

    def again(self, wrong: Wrong, nothing: Wrong) -> None:
        """The same again, on what was left, answers as on a store where that stands."""
        left = self.left(wrong)
        status, said = self.do(nothing)
        has_job = left is not None and self.name in JOBS
        wanted = self.done_on(left) if has_job else self.usual()
        if self.name == "format" and left is not None:
            wanted = ["refused: occupied"]
        if (status, said) != (status_of(wanted), wanted):
            raise self.failure(
                wrong, f"and then again: answers {said} with status {status}, and not {wanted}",
                wanted,
            )
        if left and self.name == "vacuum":
            self.reclaim(wrong, left)

    def left(self, wrong: Wrong) -> Machine | None:
        """The machine of what was left, if that is a store."""
        if self.name == "format":
            try:
                return machine_of(image.read(read_areas(self.folder)), [])
            except (image.Refused, FileNotFoundError):
                return None
        front = self.small.front()
        if self.name == "grow":
            front = replace(front, slots=(self.small.slots, self.small.slots + PIECE))
        return check_left(
            self.program, read_areas(self.folder), front, f"after {self.words} {wrong}"
        )

    def reclaim(self, wrong: Wrong, left: Machine) -> None:
        """Where the archive of a vacuum was done before, the reclaim comes by a script."""
        lines = ["reclaim", "finish"]
        wanted = [said for line in lines for said in left.answer(line) or []]
        said = run(self.program, self.folder, lines)
        if said != (0, wanted) or (left.archived, left.reclaimed) != (120, 120):
            raise self.failure(
                wrong, f"and then {lines}: answers {said}, and not {wanted}", wanted
            )
