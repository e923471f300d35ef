"""Scripts with one call of the system that goes wrong, each answer compared with the small
machine's."""
from __future__ import annotations

import copy
import signal
from collections.abc import Iterable

import machine
from machine import Front, Machine, Transaction
from program import Areas, Failure, Session, is_whole, read_areas, write_areas
from scripts import LARGE, check_left, machine_of, questions, reader_of
from wrong import HARMLESS, Wrong

BY_A_REFUSED_CALL = ("refused: no memory", "refused: device", "refused: failed")
# lines that write, in which a growth of the disk in memory may be refused
WRITES = ("pump", "job", "flush", "finish")
# of a new store in memory
SLOTS = 16

EXAMPLE = """begin t
put t 1 7 61
get t 1 7
submit t 9 100
redeem t
flush
redeem t
at 1 7 99
at 1 7 100
at 1 7 101
between 1 7 0 101
times 9
archive 100
finish
reclaim
finish
reopen
at 1 7 100
""".splitlines()

WIDE = f"""begin a
put a 1 7 61 62
put a 1 8 -
put a 2 0 61
put a 2 1 {LARGE}
put a 2 2 {LARGE}
submit a 1 100
flush
begin b
begin c
begin d
put b 1 7 61 63
del c 1 8
get c 1 8
put d 3 1 64
submit b 2 110
submit c 2 0
submit d 3 0
flush
redeem a
redeem b
begin e
begin f
put e 1 7 64 63
put f 1 7 65
submit e 4 120
submit f 5 0
pump
pump
redeem e
flush
redeem e
scan 1 105
scan 1 120
between 1 7 0 121
between 1 8 0 121
archive 112
job
job
begin g
put g 1 8 66
submit g 6 130
flush
finish
reclaim
job
job
begin h
put h 2 1 67
submit h 7 140
flush
finish
redeem g
redeem h
at 1 7 105
at 1 9 105
between 1 7 0 141
scan 2 100
scan 2 140
begin i
put i 1 7 68
submit i 8 150
flush
archive 150
finish
reclaim
finish
at 1 7 115
at 2 2 141
between 1 8 0 151
times 2
reopen
begin j
put j 9 9 -
submit j 9 160
flush
at 1 7 115
between 2 1 0 161
scan 1 119
""".splitlines()

# floors of two relations beside commits, archives and reclaims; each reason why one is not raised
FLOORS = """begin a
put a 1 7 61
put a 1 8 -
put a 2 1 7a
submit a 1 100
flush
begin b
put b 1 7 62
del b 1 8
put b 2 1 79
submit b 2 110
flush
floor 105
floorof 1 111
begin c
floorof 1 110
job
begin d
put d 1 7 63
submit d 3 120
flush
floorof 2 109
job
archive 110
job
put c 1 9 64
submit c 4 125
pump
pump
job
flush
at 1 7 109
at 1 7 110
at 2 1 109
between 1 7 105 126
between 1 7 110 126
between 2 1 105 126
scan 1 100
scan 1 110
scan 2 100
floorof 1 110
floorof 1 126
begin e
begin f
put f 2 1 65
submit f 5 130
flush
floorof 2 105
finish
archive 120
finish
floorof 1 126
floorof 9 126
abort e
floorof 1 126
job
pump
finish
reclaim
finish
at 1 8 126
at 1 7 125
at 2 1 104
between 2 1 105 131
scan 1 126
reopen
at 1 7 125
at 2 1 109
between 1 7 126 131
floorof 1 126
archive 130
floorof 2 130
finish
floorof 2 130
finish
floorof 65535 1
finish
reclaim
finish
reopen
at 1 7 129
at 1 7 130
at 2 1 129
scan 2 130
scan 9 1
""".splitlines()

# the floor of all relations, in a store of an earlier profile
ONE_FLOOR = """begin a
put a 1 7 61
put a 1 8 -
submit a 1 100
flush
begin b
put b 1 7 62
del b 1 8
submit b 2 110
flush
floorof 1 105
floor 111
begin c
floor 110
job
begin d
put d 1 7 63
submit d 3 120
flush
floor 109
job
archive 110
job
put c 1 9 64
submit c 4 125
pump
pump
job
flush
at 1 7 109
at 1 7 110
between 1 7 105 126
between 1 7 110 126
scan 1 100
scan 1 110
floor 110
floor 126
begin e
begin f
put f 2 1 65
submit f 5 130
flush
archive 120
finish
floor 126
abort e
floor 126
job
pump
finish
reclaim
finish
at 1 8 126
at 1 7 125
scan 1 126
reopen
at 1 7 125
between 1 7 126 131
floor 126
archive 130
floor 130
finish
floor 130
finish
reclaim
finish
reopen
at 1 7 129
at 1 7 130
scan 2 130
""".splitlines()

# growths with commits between their steps, and one that is begun and lost
GROWTHS = """begin a
put a 1 7 61
put a 1 8 -
submit a 1 100
flush
begin b
put b 1 7 62
submit b 2 110
grow
grow
archive 100
job
job
pump
job
pump
pump
job
flush
floorof 1 100
reclaim
redeem b
finish
archive 110
grow
finish
grow
begin c
del c 1 8
submit c 3 120
pump
pump
job
job
reopen
grow
finish
job
reclaim
finish
grow
begin d
put d 2 1 63
submit d 4 130
flush
finish
floorof 1 110
finish
reopen
at 1 7 109
at 1 7 110
between 1 8 110 131
scan 2 130
grow
job
""".splitlines()

SCRIPTS = {
    "example": EXAMPLE, "wide": WIDE, "floors": FLOORS, "one floor": ONE_FLOOR, "growths": GROWTHS
}
# the others are tried on a store of the newest one
PROFILES = {"one floor": 2}


class Case:
    """A script with one call that goes wrong, on these files in a folder or, without a folder, on
    a new store in memory."""

    def __init__(self, program: str, folder: str, start: Areas, wrong: Wrong) -> None:
        self.program, self.wrong, self.folder = program, wrong, folder
        # a store in memory is of the newest profile
        in_memory = Machine(slots=SLOTS, profile=machine.NEWEST)
        self.small = machine_of(reader_of(start).read(start), []) if folder else in_memory
        self.front = self.small.front()
        self.done: list[int] = []
        if folder:
            write_areas(folder, start)
        self.session = Session(program, folder, wrong.environment)

    def play(self, script: Iterable[str]) -> str:
        """Runs the script; says how it went."""
        try:
            how = self.lines(script)
        except Failure as why:
            raise Failure(f"{self.wrong}: {why}", why.shown) from None
        finally:
            self.session.kill()
        if self.folder:
            self.look()
        return how

    def failure(
        self, why: str, said: list[str] | None = None, wanted: list[str] | None = None
    ) -> Failure:
        return self.session.failure(why, said, wanted)

    def tell(self, line: str) -> tuple[list[str] | None, list[str] | None, Machine]:
        """Feeds a line: what is said, what the machine says, and the machine before it."""
        before = copy.deepcopy(self.small)
        wanted = self.small.answer(line)
        said = self.session.ask(line)
        if wanted is None and said is not None and not said[0].startswith(BY_A_REFUSED_CALL):
            why = (self.small.pumped if line == "pump" else self.small.jobbed)(said[0])
            if why:
                raise self.failure(f"{line}: {why}", said, [f"another step: {why}"])
            wanted = said
        if said is not None and line.startswith("redeem") and said[0].startswith("done"):
            self.done.append(int(said[0].split(" ")[1]))
        return said, wanted, before

    def may_be_left(self, before: Machine) -> None:
        """A stop now leaves what was published before the line, what is published now, or a front
        between."""
        first, then = before.front(), self.small.front()
        order = max(first.order, then.order, key=len)
        self.front = Front(
            order, range(len(before.published), len(order) + 1), (*first.floors, *then.floors),
            (*first.slots, *then.slots),
        )

    def lines(self, script: Iterable[str]) -> str:
        outcome, before = "no change", self.small
        for number, line in enumerate(script):
            is_due = not self.wrong.came()
            said, wanted, before = self.tell(line)
            self.may_be_left(before)
            if said is not None and said == wanted:
                if is_due and self.wrong.came() and self.wrong.how not in HARMLESS:
                    if not self.may_pass():
                        raise self.failure(
                            f"{line}: answered {said}, and nothing is refused", said, ["a refusal"]
                        )
                    if self.wrong.kind == "growth":
                        outcome = f"no change of {line.split(' ')[0]}, the block is not kept"
                continue
            is_refusable = self.wrong.came() and self.wrong.how not in HARMLESS
            if not outcome.startswith("no change") or not is_refusable:
                raise self.failure(f"{line}: answered {said}, and not {wanted}", said, wanted)
            outcome = self.went_wrong(number, line, said, wanted, before)
            if outcome in ("ended", "not opened", "failed"):
                return outcome
        return self.at_the_end(outcome)

    def may_pass(self) -> bool:
        """Whether the refused call may change nothing here: a growth of the cache of archive
        blocks; a read of the input behind this line's answer; a write of the answer, which is
        gathered and written again as the program ends."""
        return self.wrong.was_in_cache() or self.wrong.kind in ("input", "output")

    def at_the_end(self, outcome: str) -> str:
        status, rest = self.session.end()
        if status and self.wrong.came() and self.wrong.kind in ("input", "output", "growth"):
            return "ended"
        must_end = self.wrong.kind in ("input", "output") and self.wrong.how not in HARMLESS
        if status or rest or must_end:
            raise self.failure(f"the script ends with status {status}, and says {rest!r}")
        if self.wrong.at and not self.wrong.came():
            raise self.failure("the call that was to go wrong never came")
        if self.wrong.at and outcome == "no change" and self.wrong.how not in HARMLESS:
            raise self.failure("the call that went wrong at the end has changed nothing")
        self.may_be_left(self.small)
        return outcome

    def went_wrong(
        self, number: int, line: str, said: list[str] | None, wanted: list[str] | None,
        before: Machine,
    ) -> str:
        kind = self.kind_of(line, said, number == 0)
        is_cut = said is None or kind == "growth" and not is_whole(line, said)
        if is_cut or kind in ("input", "output"):
            return self.ended(said, wanted, number == 0)
        opening = "refused: no memory" if kind == "growth" else "refused: device"
        refusal = "refused: failed" if kind in ("write", "sync") else opening
        if (number == 0 or line == "reopen") and said == [opening]:
            # a refused opening, after which nothing is answered
            if self.session.ask("times 0") is None:
                return self.not_opened(before)
        if said != [refusal] or line == "reopen":
            raise self.failure(f"{line}: answered {said}, and not {refusal}", said, [refusal])
        if kind in ("write", "sync"):
            self.failed(before)
            return "failed"
        if number == 0 and self.session.lines[-1] == "times 0":
            self.session.said.append("times")
        self.again(line, wanted, before)
        return "refused"

    def kind_of(self, line: str, said: list[str] | None, is_first: bool) -> str:
        """The class of what was refused: a growth of the disk in memory is a write of it."""
        is_opening = is_first or line == "reopen"
        refusal = "refused: device" if is_opening else "refused: failed"
        is_of_disk = not self.folder and said == [refusal] and (is_opening or line in WRITES)
        return "write" if is_of_disk and self.wrong.kind == "growth" else self.wrong.kind

    def ended(
        self, said: list[str] | None, wanted: list[str] | None, is_first: bool
    ) -> str:
        """The program is killed, the input or the output is refused, or there is no memory for
        either or for the program's words: it ends, and has given out a front of the answer."""
        status, _ = self.session.end()
        if self.wrong.how == "killed" and status == -signal.SIGKILL and said is None:
            return "ended"
        # want of memory while the words are read is told on standard error, with the status of a
        # usage fault
        may_end = status == 1 or status == 2 and is_first and said is None
        is_front = "\n".join(wanted or []).startswith("\n".join(said or []))
        if not (may_end and is_front) or self.wrong.kind not in ("growth", "input", "output"):
            raise self.failure(f"ends with {said} and status {status}", said, wanted)
        return "ended"

    def not_opened(self, before: Machine) -> str:
        status, rest = self.session.end()
        if status != 1 or rest:
            raise self.failure(f"a refused opening ends with status {status}, and says {rest!r}")
        return "not opened"

    def again(self, line: str, wanted: list[str] | None, before: Machine) -> None:
        """The same line again answers as where nothing was refused; a submit has ended its
        transaction."""
        word, *rest = line.split(" ")
        if word == "submit":
            self.submit_anew(line, rest[0], before)
            return
        if word in ("pump", "job"):
            self.small = before
            said, wanted, _ = self.tell(line)
        else:
            said = self.session.ask(line)
        if said != wanted:
            raise self.failure(f"{line} again: answered {said}, and not {wanted}", said, wanted)

    def submit_anew(self, line: str, name: str, before: Machine) -> None:
        """After a refused submit: the transaction from its beginning."""
        self.small = before
        del self.small.names[name]
        lines = self.session.lines[:-1]
        first = max(at for at, it in enumerate(lines) if it == f"begin {name}")
        own = [
            it
            for it in lines[first:]
            if it.split(" ")[0] in ("begin", "put", "del") and it.split(" ")[1] == name
        ]
        for one in [*own, line]:
            said, wanted, _ = self.tell(one)
            if said != wanted:
                raise self.failure(
                    f"after a refused submit {one}: answered {said}, and not {wanted}", said,
                    wanted,
                )
        self.may_be_left(self.small)

    # ---- after a refused write or sync

    def failed(self, before: Machine) -> None:
        """The store writes nothing more, each ticket that is not published is in doubt, and it
        reads on."""
        self.small = small = before
        self.publish_groups()
        for line in (
            "begin zz", "pump", "job", "flush", "finish", "archive 1", "reclaim", "floor 1",
            "floorof 1 1", "grow",
        ):
            self.session.expect(line, ["refused: failed"], "after failed, ")
        for name, what in list(small.names.items()):
            if isinstance(what, Transaction):
                self.session.expect(f"get {name} 1 7", small.get(name, (1, 7)), "after failed, ")
                self.session.expect(f"submit {name} 1 0", ["refused: failed"], "after failed, ")
            else:
                published = what <= machine.last(small.published)
                self.session.expect(
                    f"redeem {name}", [f"done {what}" if published else "in doubt"],
                    "after failed, ",
                )
                self.done += [what] * published
        for line in questions(small):
            self.session.expect(line, small.answer(line) or [], "after failed, ")
        self.session.end_well()

    def publish_groups(self) -> None:
        """A line of several groups may have published the first ones: how many is asked."""
        small = self.small
        said = self.session.ask(f"at 1 1 {machine.LATEST + 1}")
        group = small.group or small.group_most
        while small.queue and said != [f"refused: not yet {machine.last(small.published)}"]:
            small.published = small.published + small.queue[:group]
            small.queue, group = small.queue[group:], small.group_most
        if said != [f"refused: not yet {machine.last(small.published)}"]:
            raise self.failure(
                f"after failed, the last commit is {said}", said, ["that of a whole group"]
            )
        order = small.published + small.queue[:group]
        self.front = Front(
            order, (len(small.published), len(order)), small.floors_with_job(),
            small.slots_with_job(),
        )

    def look(self) -> None:
        """The store is opened again: a front of the commits, with each that was done."""
        left = check_left(
            self.program, read_areas(self.folder), self.front, f"{self.wrong}: opened again"
        )
        if [it for it in self.done if it > machine.last(left.published)]:
            raise Failure(
                f"opened again with {len(left.published)} commits, and {self.done} were done"
            )
