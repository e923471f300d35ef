#!/usr/bin/env python3
"""Tries the edits that `rt ci` leaves out, crates/NAME/more-edits/*.edit, over the libraries that `rt ci` or `rt lib` left in crates/*/out:
the prover must refuse each of them too. Where there are none, and no --began, rt lib builds them.

usage: .ci/more_edits.py [--minutes N [--began SECONDS] [--proofs FILE]] [--new] [--first-tells] [--write] [NAME ..]

A NAME is a crate or CRATE/EDIT; with none all are meant. --new leaves out those that the table below tells to be refused as they are now.

.ci/edits_tried.tsv tells when each edit was last tried and refused, and by which text. First come the edits of which it tells nothing, or whose
crate or own text has changed since then; after them those that were tried the longest ago. --write puts what is refused into that table.

First each edit is seen to apply: its texts stand once in the files that it names. Then each crate is proved once as it is (its seed), and its edits
are tried over what that proof left, as many at a time as RT_JOBS says. Over libraries of rt lib, and with no --began, a seed begins with what rt check
kept. Nothing in the repository is changed but that table.

With no --minutes all edits are tried. With --minutes none is begun after so many minutes of the clock, and no seed that would leave no time for
edits. --began is when the whole run began, in seconds since 1970: it is to end within 120 minutes of that, and within 165 where the
machine is slow, with fewer edits or none. On a machine that is slower than the reference machine (.ci/ci_cost.py) the minutes are then fewer:
--proofs is the file in which that program wrote what each proof took.

The status is 1 where an edit is proved, does not apply or compile any more, or is refused only because a proof names what it takes away; and where
nothing could be tried. With --first-tells an edit of which the table tells nothing, and which applies, is only told then. An edit whose check was
killed or cut off has no verdict, and is left to be tried.
"""
import argparse
import collections
import contextlib
import dataclasses
import hashlib
import json
import os
import pathlib
import resource
import shutil
import signal
import subprocess
import sys
import tempfile
import threading
import time

import ci_cost
import rt_once

ROOT = pathlib.Path(os.path.realpath(__file__)).parents[1]
TABLE = ROOT / ".ci/edits_tried.tsv"
COLUMNS = ("crate", "edit", "tried", "sum", "refused by")
# Minutes of the clock that a whole run may take, with some for what its neighbours do to a machine as fast as the reference machine; for
# each time that a machine is slower than that; and on any machine.
WHOLE_RUN, WHOLE_RUN_BY_SLOWNESS, WHOLE_RUN_AT_MOST = 120, 100, 165
# Minutes before the end of that in which nothing new begins.
TO_END = 4
# Where nothing else tells it: the seconds that a proof takes for each kilobyte of src/ on the reference machine, no more than a few crates need.
SECONDS_A_KILOBYTE = 4
# The fewest edits for which a seed is made, where there are so many.
FOR_A_SEED = 3
# Megabytes of disk that a seed may need.
DISK_FOR_A_SEED = 3000
BY_NAMES_ALONE = "only because a proof file names what the edit took away"


def kit():
    """The kit's command rt as a module, with the repository's crates in it, lowest first."""
    made = rt_once.kit()
    # (its first call sets a signal's handler, which only the main thread may)
    made.rtlib.guarded()
    made.Crate.allowed = made.handles_of(str(ROOT))
    return made, made.crates_of(str(ROOT))


@dataclasses.dataclass
class Row:
    """What the table tells of an edit: when it was last refused, by what, and the sum of the sources and of the edit."""

    crate: str
    edit: str
    tried: str
    sum: str
    refused_by: str


def read_table():
    if not TABLE.is_file():
        return {}
    rows = [Row(*line.split("\t")) for line in TABLE.read_text(encoding="utf-8").splitlines()[1:]]
    return {(it.crate, it.edit): it for it in rows}


def write_table(rows):
    """Writes the rows of those edits that there still are."""
    kept = [rows[it] for it in sorted(rows) if (ROOT / "crates" / it[0] / "more-edits" / f"{it[1]}.edit").is_file()]
    lines = ["\t".join(COLUMNS), *("\t".join(dataclasses.astuple(it)) for it in kept)]
    with tempfile.NamedTemporaryFile("w", dir=TABLE.parent, prefix=".edits-", delete=False, encoding="utf-8") as it:
        it.write("\n".join(lines) + "\n")
    os.chmod(it.name, 0o644)
    os.replace(it.name, TABLE)


def sources_of(crate):
    """A sum of the crate's texts."""
    found = hashlib.sha256()
    for part in ("src", "specs", "proofs"):
        for file in sorted(pathlib.Path(crate.folder, part).rglob("*")):
            if file.is_file():
                found.update(repr((str(file.relative_to(crate.folder)), file.read_bytes())).encode())
    return found.digest()


@dataclasses.dataclass
class Edit:
    path: pathlib.Path
    sum: str
    row: Row | None

    @property
    def name(self):
        return self.path.stem

    @property
    def is_new(self):
        return self.row is None or self.row.sum != self.sum

    @property
    def last_tried(self):
        return self.row.tried if self.row else ""


class Turn:
    """One crate's edits, those to be tried first at the front: waiting, then its seed is made, then they are tried, then it is over."""

    def __init__(self, crate, rows, names=(), only_new=False):
        self.crate, self.sources = crate, sources_of(crate)
        self.edits, self.state, self.seed, self.files, self.running = [], "waiting", None, {}, 0
        # (edit, kind, text) of each that was tried over the seed
        self.tried, self.seed_seconds, self.edit_seconds = [], 0.0, 0.0
        for path in sorted(pathlib.Path(crate.folder, "more-edits").glob("*.edit")):
            found = hashlib.sha256(self.sources + path.read_bytes()).hexdigest()[:12]
            self.edits.append(Edit(path, found, rows.get((crate.name, path.stem))))
        if names and crate.name not in names:
            self.edits = [it for it in self.edits if f"{crate.name}/{it.name}" in names]
        self.edits = [it for it in self.edits if it.is_new or not only_new]
        self.edits.sort(key=lambda it: (not it.is_new, it.last_tried, it.name))
        self.count = len(self.edits)

    @property
    def has_new(self):
        return bool(self.edits) and self.edits[0].is_new


class Clock:
    """When the last edit may begin, and when what still runs is cut off, in seconds since 1970: never without minutes, and without one."""

    def __init__(self, minutes, began, slowness):
        now = time.time()
        self.whole = min(max(WHOLE_RUN, WHOLE_RUN_BY_SLOWNESS * slowness), WHOLE_RUN_AT_MOST)
        self.took = (now - began) / 60 if began else 0
        self.minutes, self.began = minutes, began
        if minutes is not None:
            self.minutes = max(0, min(minutes / max(slowness, 1), self.whole - self.took - TO_END if began else minutes))
        self.last_begin = now + 60 * self.minutes if minutes is not None else float("inf")
        self.end = began + 60 * self.whole if began else float("inf")

    def told(self, slowness):
        """How many minutes there are, and why."""
        whole = f", and the run has taken {self.took:.0f} of its {self.whole:.0f} minutes" if self.took else ""
        if self.minutes < 1:
            return f"more edits: no time is left for them{whole}"
        speed = f"; a proof takes {slowness:.2f} of what it takes on the reference machine" if self.began else ""
        return f"more edits: {self.minutes:.0f} minutes for them{speed}{whole}"

    def has_time_for(self, seconds):
        return time.time() + seconds < self.last_begin


class Lanes:
    """The turns of the crates, and the threads that take their seeds and edits."""

    def __init__(self, rt, turns, clock, proofs, slowness, over_kept):
        self.rt, self.turns, self.clock, self.proofs, self.slowness, self.over_kept = rt, turns, clock, proofs, slowness, over_kept
        self.changed, self.is_stopped, self.was_cut, self.seedless = threading.Condition(), False, False, []

    def seed_estimate(self, turn):
        """The seconds that the crate's proof takes here, about."""
        if turn.crate.name in self.proofs:
            return self.proofs[turn.crate.name]
        kilobytes = sum(it.stat().st_size for it in pathlib.Path(turn.crate.folder, "src").rglob("*.rt")) / 1000
        return SECONDS_A_KILOBYTE * kilobytes * self.slowness

    def fits(self, turn):
        """Whether there is time for the crate's seed and some edits over it."""
        seed = self.seed_estimate(turn)
        an_edit = 6 * self.slowness + seed / 12
        return self.clock.has_time_for(seed + min(FOR_A_SEED, len(turn.edits)) * an_edit)

    def may_try(self, turn):
        """Whether the next edit of a crate whose seed is made may be tried now: one that was tried before waits for those that never were."""
        if turn.state != "seeded" or not turn.edits or self.is_stopped or not self.clock.has_time_for(0):
            return False
        is_due = turn.has_new or self.clock.minutes is None
        return is_due or not any(it.state == "waiting" and it.has_new and self.fits(it) for it in self.turns)

    def next_task(self):
        """What a free lane is to do: a call, None where it has to wait, or False where nothing is left for it."""
        for turn in self.turns:
            if turn.state == "seeded" and not turn.running and not self.may_try(turn):
                turn.state = "ending"
                return lambda turn=turn: self.end(turn)
        for turn in self.turns:
            if self.may_try(turn):
                edit = turn.edits.pop(0)
                turn.running += 1
                return lambda turn=turn, edit=edit: self.try_edit(turn, edit)
        for turn in self.turns:
            if turn.state == "waiting" and not self.is_stopped and self.fits(turn):
                turn.state = "seeding"
                return lambda turn=turn: self.make_seed(turn)
        return None if any(it.state in ("seeding", "seeded", "ending") for it in self.turns) else False

    def lane(self):
        while True:
            with self.changed:
                while (task := self.next_task()) is None:
                    self.changed.wait(1)
            if not task:
                return
            try:
                task()
            except Exception as fault:  # of the kit's or the system's; the run goes on, and fails
                self.seedless.append(f"a lane met {fault!r}")
            with self.changed:
                self.changed.notify_all()

    def make_seed(self, turn):
        began, seed = time.time(), None
        try:
            if self.rt.left_on_disk(tempfile.gettempdir()) < DISK_FOR_A_SEED:
                self.seedless.append(f"{turn.crate.name}: the disk has less than {DISK_FOR_A_SEED} MB left")
            else:
                seed = self.rt.seeded(turn.crate, ["--jobs", "1"], self.rt.work_for(turn.crate) if self.over_kept else None)
                if seed is None and not self.is_stopped:
                    self.seedless.append(f"{turn.crate.name}: it is not proved over the libraries in crates/*/out, or its check was killed")
        finally:
            turn.seed_seconds = time.time() - began
            turn.files = self.rt.listing(f"{seed}/seed") if seed else {}
            turn.seed, turn.state = seed, "seeded" if seed else "over"

    def try_edit(self, turn, edit):
        began, kind, text = time.time(), self.rt.UNSURE, ""
        over = f"{turn.seed}/{edit.name}"
        try:
            self.rt.linked(f"{turn.seed}/seed", over)
            kind, text = self.rt.must_fail(turn.crate, str(edit.path), ["--jobs", "1"], over)
            if kind == self.rt.MISSED:
                # (as rt does: what is proved over the seed is checked once more from nothing)
                whole = self.rt.must_fail(turn.crate, str(edit.path), ["--jobs", "1"])
                kind, text = (kind, text) if whole[0] == self.rt.UNSURE else whole
        except (OSError, shutil.Error) as fault:
            text = f"more-edits {turn.crate.name}/{edit.path.name}: NOT TRIED: {fault}"
        finally:
            shutil.rmtree(over, ignore_errors=True)
            with self.changed:
                turn.edit_seconds += time.time() - began
                # (of one that the end of the time cut off rt would say that memory was short)
                turn.tried.append((edit, kind, "" if self.is_stopped and kind == self.rt.UNSURE else text))
                turn.running -= 1

    def end(self, turn):
        """Sees that the crate is still proved over its seed, so that what was refused was refused for the edit, and removes the seed."""
        is_sound = False
        try:
            is_same = self.rt.listing(f"{turn.seed}/seed") == turn.files and sources_of(turn.crate) == turn.sources
            is_sound = is_same and not (turn.tried and self.rt.checked(turn.crate, {}, ["--jobs", "1"], f"{turn.seed}/seed").returncode)
        finally:
            if not is_sound:
                refused = (self.rt.REFUSED, self.rt.AT_LIMIT)
                turn.tried = [(edit, self.rt.UNSURE, "") if kind in refused else (edit, kind, text) for edit, kind, text in turn.tried]
                if not self.is_stopped:
                    self.seedless.append(f"{turn.crate.name}: it is not proved again over what its proof left, or its files were changed meanwhile")
            shutil.rmtree(turn.seed, ignore_errors=True)
            turn.state = "over"

    def run(self, count, at_end):
        """Runs the lanes until nothing is left, calls at_end for each crate when it is over, and cuts off what runs past the clock's end."""
        threads, told = [threading.Thread(target=self.lane, daemon=True) for _ in range(count)], set()
        for it in threads:
            it.start()
        try:
            while any(it.is_alive() for it in threads) and time.time() < self.clock.end:
                threads[0].join(timeout=0.5)
                next((it for it in threads if it.is_alive()), threads[0]).join(timeout=0.5)
                for turn in self.turns:
                    if turn.state == "over" and turn.crate.name not in told:
                        told.add(turn.crate.name)
                        at_end(turn)
        finally:
            self.is_stopped, self.was_cut = True, any(it.is_alive() for it in threads)
            while any(it.is_alive() for it in threads):
                end_checks()
                time.sleep(0.2)
            for turn in self.turns:
                if turn.state == "over" and turn.crate.name not in told:
                    at_end(turn)


def end_checks():
    """Ends the checks that this process began."""
    now = ci_cost.processes()
    for pid, process in now.items():
        if process.is_check() and ci_cost.is_below(pid, os.getpid(), now):
            with contextlib.suppress(OSError):
                os.kill(pid, signal.SIGKILL)


def built_of(crate):
    """What stands in the crate's out/: no library, one that CI made, one that rt lib made of these files, or an older one."""
    if not os.path.isfile(f"{crate.rlib}/format"):
        return "none"
    if os.path.isfile(f"{crate.folder}/out/rlib/stamp"):
        return "own" if crate.is_built() else "old"
    texts = [it for part in ("src", "specs", "proofs") for it in pathlib.Path(crate.folder, part).rglob("*")]
    newest = max((it.stat().st_mtime for it in texts), default=0)
    return "of CI" if newest <= os.stat(crate.rlib).st_mtime else "old"


def libraries(crates, may_build):
    """Looks whether the libraries below the crates are there and of one kind, and builds them where that may be. Returns whether they are those of rt
    lib, and what is wrong, if anything is."""
    below = list({it.name: it for crate in crates for it in crate.below()}.values())
    kinds = {it.name: built_of(it) for it in below}
    found = set(kinds.values())
    if len(found) <= 1 and not found & {"none", "old"}:
        return "of CI" not in found, None
    if not may_build or "of CI" in found:
        told = "; ".join(f"{kind}: {' '.join(it for it in kinds if kinds[it] == kind)}" for kind in sorted(found))
        return False, f"the libraries in crates/*/out are not those of one run of CI; run it in a fresh clone ({told})"
    for it in below:
        if it.is_built():
            continue
        print(f"rt lib builds {it.name}", flush=True)
        ran = subprocess.run(["rt", "lib"], cwd=it.folder, stdout=subprocess.PIPE, stderr=subprocess.STDOUT, text=True, errors="replace")
        if ran.returncode:
            return True, f"rt lib does not build {it.name}:\n{ran.stdout[-2000:]}"
    return True, None


def slowness_of(proofs, rt, crates):
    """How many times as long as on the reference machine a proof takes here: by the proofs of this run, or else by one of `history` now."""
    unit = ci_cost.unit_of(proofs)
    if unit is not None:
        return unit / sum(ci_cost.UNIT.values())
    first = next(iter(ci_cost.UNIT))
    crate = next((it for it in crates if it.name == first), None)
    before = resource.getrusage(resource.RUSAGE_CHILDREN)
    if crate is None or rt.checked(crate, {}, ["--jobs", "1"], None).returncode:
        return 1.0
    after = resource.getrusage(resource.RUSAGE_CHILDREN)
    return (after.ru_utime + after.ru_stime - before.ru_utime - before.ru_stime) / ci_cost.UNIT[first]


def told_of(text):
    """What rt says of an edit, which it takes for one of must-fail."""
    return text.replace("must-fail", "more-edits", 1)


class Results:
    """What the edits of all crates came to, told as each crate ends."""

    def __init__(self, rt, rows, writes, first_tells):
        self.rt, self.rows, self.writes, self.first_tells = rt, rows, writes, first_tells
        self.counts, self.failed, self.to_mend = collections.Counter(), [], []

    def is_refused(self, kind, text):
        return kind in (self.rt.REFUSED, self.rt.AT_LIMIT) and BY_NAMES_ALONE not in text

    def take_out_unfit(self, turn):
        """Takes those of a crate's edits out that do not apply any more, and says so: they fail whether there is time to try them or not."""
        for edit in list(turn.edits):
            _, why = self.rt.read_edit(str(edit.path), turn.crate.folder)
            if why:
                turn.edits.remove(edit)
                self.failed.append(f"{turn.crate.name}/{edit.name}")
                self.rows.pop((turn.crate.name, edit.name), None)
                print(f"more-edits {turn.crate.name}/{edit.path.name}: BAD EDIT: {why}")

    def take(self, turn):
        """Notes what a crate's edits came to and says it."""
        crate, today = turn.crate.name, time.strftime("%Y-%m-%d", time.gmtime())
        for edit, kind, text in turn.tried:
            if self.is_refused(kind, text):
                self.counts["refused"] += 1
                why = " ".join(text.partition(": refused, as it must be")[2].removeprefix(":").split()) or "-"
                self.rows[crate, edit.name] = Row(crate, edit.name, today, edit.sum, why)
            elif kind == self.rt.UNSURE:
                self.counts["no verdict"] += 1
                print("".join(f"{told_of(line)}\n" for line in text.split("\n")[:1] if line), end="")
            else:
                lacks_row = self.first_tells and edit.row is None
                (self.to_mend if lacks_row else self.failed).append(f"{crate}/{edit.name}")
                self.rows.pop((crate, edit.name), None)
                print(told_of(text))
        if turn.tried:
            count = sum(self.is_refused(kind, text) for _, kind, text in turn.tried)
            mean = turn.edit_seconds / len(turn.tried)
            print(f"{crate}: {count} of {len(turn.tried)} refused, {turn.count - len(turn.tried)} not tried; {turn.seed_seconds:.0f} s to prove it, {mean:.0f} s an edit", flush=True)
        if self.writes:
            write_table(self.rows)

    def sum_up(self, turns, began):
        """Says how many were tried and how many are left."""
        left = [edit for turn in turns for edit in turn.edits]
        left += [edit for turn in turns for edit, kind, _ in turn.tried if kind == self.rt.UNSURE]
        new, oldest = sum(it.is_new for it in left), min((it.last_tried for it in left if not it.is_new), default="")
        print(f"more edits: {self.counts['refused']} of {sum(it.count for it in turns)} tried and refused in {(time.time() - began) / 60:.0f} minutes" + (f", {self.counts['no verdict']} with no verdict" if self.counts["no verdict"] else "") + f"; left: {new} that are new or whose crate has changed since they were tried, and {len(left) - new} others" + (f", the oldest tried on {oldest}" if oldest else ""))
        if self.to_mend:
            print(f"more edits: to be mended, tried for the first time: {' '.join(self.to_mend)}")
        if self.failed:
            print(f"more edits: NOT REFUSED AS THEY MUST BE: {' '.join(self.failed)}")


def lanes_here(rt):
    """As many as RT_JOBS says, or else one a core, or one for each 3 GiB of memory where that is fewer."""
    given = os.environ.get("RT_JOBS", "")
    return int(given) if given.isdigit() and int(given) else max(1, min(rt.processors(), rt.free() // (3 << 30)))


def ordered(turns, estimate):
    """The crates with new edits first, those that were tried the longest ago before others, and of these the cheapest."""
    return sorted(turns, key=lambda it: (not it.has_new, it.edits[0].last_tried if not it.has_new else "", estimate(it)))


def unknown_of(names, crates):
    """The names that are no crate with edits, and no edit."""
    edits = {f"{it.name}/{edit.stem}" for it in crates for edit in pathlib.Path(it.folder, "more-edits").glob("*.edit")}
    return [it for it in names if it not in edits and it not in {edit.partition("/")[0] for edit in edits}]


def parsed(words):
    parser = argparse.ArgumentParser(description=__doc__, formatter_class=argparse.RawDescriptionHelpFormatter)
    parser.add_argument("--minutes", type=float)
    parser.add_argument("--began", type=float)
    parser.add_argument("--proofs")
    parser.add_argument("--new", action="store_true")
    parser.add_argument("--first-tells", action="store_true")
    parser.add_argument("--write", action="store_true")
    parser.add_argument("names", nargs="*")
    return parser.parse_args(words)


def main(words):
    given, began = parsed(words), time.time()
    signal.signal(signal.SIGTERM, lambda *_: sys.exit(128 + signal.SIGTERM))
    # (a later rt removes a folder of this name whose process is gone)
    with tempfile.TemporaryDirectory(prefix=f"rt-edits-{os.getpid()}-") as room:
        tempfile.tempdir = room
        rt, crates = kit()
        rows = read_table()
        every = [Turn(it, rows, given.names, given.new) for it in crates]
        unknown = unknown_of(given.names, crates)
        if unknown:
            print(f"no such edits in more-edits: {' '.join(unknown)}", file=sys.stderr)
            return 2
        results = Results(rt, rows, given.write, given.first_tells)
        for it in every:
            results.take_out_unfit(it)
        turns = [it for it in every if it.edits]
        are_own, lack = libraries([it.crate for it in turns], given.began is None)
        if lack:
            print(f"more edits: none tried: {lack}", file=sys.stderr)
            return 1
        proofs = json.loads(pathlib.Path(given.proofs).read_text(encoding="utf-8")) if given.proofs else {}
        slowness = slowness_of(proofs, rt, crates) if given.minutes and given.began else 1.0
        clock = Clock(given.minutes, given.began, slowness)
        if given.minutes is not None:
            print(clock.told(slowness), flush=True)
        lanes = Lanes(rt, turns, clock, proofs, slowness, are_own and given.began is None)
        lanes.turns = turns = ordered(turns, lanes.seed_estimate)
        lanes.run(lanes_here(rt), results.take)
        results.sum_up(turns, began)
        for it in lanes.seedless:
            print(f"more edits: {it}", file=sys.stderr)
        has_none = results.counts["no verdict"] and not results.counts["refused"] and not lanes.was_cut
        return 1 if results.failed or lanes.seedless or has_none else 0


if __name__ == "__main__":
    sys.exit(main(sys.argv[1:]))
