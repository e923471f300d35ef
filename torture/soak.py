#!/usr/bin/env python3
"""A soak: eight writers of the same 32 records and eight readers in threads of one process, over one
store on real files, beside a committer and a vacuum; then all that they were told is compared with
the list of write sets, and so is what the files hold.

soak.py BENCH PROGRAM [--minutes M] [--seed S] [--rush] [--notes FILE] [--keep]

BENCH is the built program of crates/bench, PROGRAM the program timestore. Writers begin
a round every 40 ms, all at once, for M minutes; with --rush they make no pause, and M minutes are as
many rounds as they make in M times 1,500. Half of the writers commit by one call: a put, and a put
or a delete of another record. The others read a record in a transaction and write it. Readers ask a
view for values and rows, through the lock and from memory. A refusal that is not named here ends it:

    conflict  a later commit wrote the record        missing  a delete of a record that is not there
    full      the log or the heap is full            needs disk  memory has no more of that time

The status is 1 where an answer differs. With --notes the lines of a soak that was run before are
compared, and not the files.
"""
from __future__ import annotations

import argparse
import os
import shutil
import subprocess
import sys
import tempfile
import time
from bisect import bisect_left, bisect_right
from collections import Counter
from collections.abc import Iterable, Iterator
from dataclasses import dataclass, field

from program import run

RECORDS = 32
RELATION = 1
ROUND_MS = 40
# what a digest of rows is made with
WORD = 1 << 64
FAILURES_MOST = 20


@dataclass(frozen=True)
class Told:
    """What one thread was told, as the words of a line, behind what it knew of times before."""

    thread: str
    words: list[str]
    # the next time that its thread has seen published, or none
    next_seen: int | None


@dataclass
class Small:
    """The small machine: of each record what was written at which time, 0 for a delete."""

    commits: list[tuple[int, int]] = field(default_factory=list)
    times: dict[int, list[int]] = field(default_factory=dict)
    values: dict[int, list[int]] = field(default_factory=dict)

    def last(self) -> int:
        return self.commits[-1][0] if self.commits else 0

    def at(self, record: int, at: int) -> int:
        """The value of a record at a time, 0 of none."""
        count = bisect_right(self.times.get(record, []), at)
        return self.values[record][count - 1] if count else 0

    def writes_after(self, record: int, at: int) -> list[int]:
        times = self.times.get(record, [])
        return times[bisect_right(times, at):]

    def is_gone_within(self, record: int, first: int, end: int) -> bool:
        """Whether the record is not there at some time from one to another."""
        if self.at(record, first) == 0:
            return True
        times = self.times.get(record, [])
        between = range(bisect_left(times, first), bisect_right(times, end))
        return any(self.values[record][place] == 0 for place in between)

    def rows(self, record: int, a: int, b: int) -> list[tuple[int, int, int]]:
        """The rows of a record from a time up to another."""
        times, found = self.times.get(record, []), []
        for place in range(max(bisect_right(times, a) - 1, 0), bisect_left(times, b)):
            start = max(a, times[place])
            end = min(b, times[place + 1]) if place + 1 < len(times) else b
            if self.values[record][place] and start < end:
                found.append((start, end, self.values[record][place]))
        return found


def digest(rows: Iterable[tuple[int, int, int]]) -> int:
    total = 0
    for start, end, value in rows:
        total = (total * 1_000_003 + start * 31 + end * 17 + value) % WORD
    return total


# ---- the lines of a soak


def time_seen(words: list[str]) -> int | None:
    """The last published time that the thread had seen before."""
    return int(words[1 if words[0] in ("value", "recent") else 2]) if words[0] != "rows" else None


def time_done(words: list[str]) -> int | None:
    return int(words[-1]) if words[-2:-1] == ["done"] else None


def told(lines: Iterable[str]) -> Iterator[Told]:
    """The lines, each with its thread and with what that has seen by its next line."""
    thread, before = "", None
    for line in lines:
        words = line.split()
        if words[0] in ("writer", "reader"):
            if before:
                yield Told(thread, before, None)
            thread, before = line.strip(), None
            continue
        if before:
            yield Told(thread, before, time_seen(words))
        before = words
    if before:
        yield Told(thread, before, None)


def writes_of(words: list[str]) -> dict[int, int]:
    """What a commit that is done wrote."""
    label = int(words[1])
    if words[0] == "txn":
        return {int(words[3]): label}
    return {int(words[3]): label, int(words[4]): 0 if words[5] == "1" else label}


def machine_of(all_told: Iterable[Told]) -> Small:
    """The small machine of all commits of which a thread was told that they are done."""
    done = sorted(
        (time_done(it.words), int(it.words[1]), writes_of(it.words))
        for it in all_told
        if time_done(it.words) is not None
    )
    small = Small()
    for at, label, writes in done:
        if at <= small.last():
            raise SystemExit(f"FAILED: two commits at {at}")
        small.commits.append((at, label))
        for record, value in writes.items():
            small.times.setdefault(record, []).append(at)
            small.values.setdefault(record, []).append(value)
    return small


# ---- what is wrong with a line, by the machine


def commit_fault(small: Small, it: Told) -> str:
    seen, puts, other, deletes = (int(word) for word in it.words[2:6])
    ending = it.words[6:]
    if ending[0] == "done":
        at = int(ending[1])
        if at <= seen:
            return f"a commit at {at} whose caller had seen {seen}"
        if deletes and small.at(other, at - 1) == 0:
            return "a delete of a record that is not there"
    if ending[0] == "conflict":
        record = int(ending[1])
        if record not in (puts, other) or not small.writes_after(record, seen):
            return "a conflict with no commit"
    if ending[0] == "missing":
        end = small.last() if it.next_seen is None else it.next_seen
        if not deletes or not small.is_gone_within(other, seen, end):
            return "a record that is missing was there all the time"
    return ""


def transaction_fault(small: Small, it: Told) -> str:
    snapshot, record, read = (int(word) for word in it.words[2:5])
    ending = it.words[5:]
    if small.at(record, snapshot) != read:
        return f"the record has {small.at(record, snapshot)} at the snapshot"
    later = small.writes_after(record, snapshot)
    if ending[0] == "done" and (not later or later[0] != int(ending[1])):
        return "the record was written between the snapshot and the commit"
    if ending[0] == "conflict" and (int(ending[1]) != record or not later):
        return "a conflict with no commit"
    return ""


def reading_fault(small: Small, it: Told) -> str:
    if it.words[0] == "rows":
        record, a, b, count, said = (int(word) for word in it.words[1:])
        rows = small.rows(record, a, b)
        return "" if (len(rows), digest(rows)) == (count, said) else f"the rows are {rows}"
    seen, record, at, value = (int(word) for word in it.words[1:])
    if at > seen:
        return "a time that is not yet"
    return "" if small.at(record, at) == value else f"the record has {small.at(record, at)}"


FAULTS = {
    "commit": commit_fault, "txn": transaction_fault,
    "value": reading_fault, "recent": reading_fault, "rows": reading_fault,
}


@dataclass
class Order:
    """What a thread has seen never goes back, and has what was done for it."""

    thread: str = ""
    known: int = 0

    def fault(self, it: Told) -> str:
        if it.thread != self.thread:
            self.thread, self.known = it.thread, 0
        seen = time_seen(it.words)
        if seen is not None and seen < self.known:
            return f"it had seen {self.known} before"
        self.known = max(self.known, seen or 0, time_done(it.words) or 0)
        return ""


def compare_lines(small: Small, all_told: Iterable[Told]) -> tuple[Counter, int]:
    """How many lines there are of each kind and ending, and how many are wrong."""
    counts, wrong, order = Counter(), 0, Order()
    for it in all_told:
        ending = [word for word in it.words[5:7] if word.isalpha()]
        counts[" ".join([it.words[0], *ending[:1]])] += 1
        why = FAULTS[it.words[0]](small, it) or order.fault(it)
        if why:
            wrong += 1
            if wrong <= FAILURES_MOST:
                print(f"FAILED: {it.thread}: {' '.join(it.words)}: {why}")
    return counts, wrong


# ---- what the files hold


def spelled(value: int) -> str:
    return value.to_bytes(8, "little").hex()


def compare_files(program: str, folder: str, small: Small) -> tuple[Counter, int]:
    """The log's slots of each kind, and how many answers of the program differ."""
    wrong = 0
    asked = subprocess.run([program, "dump", folder], stdout=subprocess.PIPE, text=True, check=True)
    lines = [line.split() for line in asked.stdout.splitlines()]
    slots = Counter(words[2] for words in lines if words[0] == "slot")
    members = [(int(words[2]), int(words[1])) for words in lines if words[0] == "member"]
    if members != small.commits:
        print(f"FAILED: the log has {len(members)} commits, not the {len(small.commits)} that were done")
        wrong += 1
    end = small.last() + 1
    questions = [f"between {RELATION} {record} 0 {end}" for record in range(RECORDS)]
    status, said = run(program, folder, questions)
    wanted = []
    for record in range(RECORDS):
        rows = small.rows(record, 0, end)
        wanted += [f"{start} {stop} {spelled(value)}" for start, stop, value in rows]
        wanted.append(f"rows {len(rows)}")
    if status != 0 or said != wanted:
        differ = next((pair for pair in zip(said, wanted) if pair[0] != pair[1]), (status, len(said)))
        print(f"FAILED: the program says {differ[0]} for {differ[1]}")
        wrong += 1
    return slots, wrong


# ---- a soak


def soak(bench: str, folder: str, verb: str, rounds: int, seed: int, out: str) -> float:
    """Runs it, and gives its seconds."""
    began = time.monotonic()
    with open(out, "w", encoding="utf-8") as notes:
        done = subprocess.run([bench, verb, folder, str(rounds), str(seed)], stdout=notes)
    if done.returncode != 0:
        raise SystemExit(f"FAILED: {bench} {verb} ended with {done.returncode}")
    return time.monotonic() - began


def shown(counts: Counter) -> str:
    return ", ".join(f"{name} {count:,}" for name, count in sorted(counts.items()))


def compare(notes: str) -> tuple[Small, int]:
    with open(notes, encoding="utf-8") as lines:
        small = machine_of(told(lines))
    with open(notes, encoding="utf-8") as lines:
        counts, wrong = compare_lines(small, told(lines))
    print(f"{counts.total():,} answers: {shown(counts)}")
    return small, wrong


def main() -> int:
    words = argparse.ArgumentParser(
        description=__doc__, formatter_class=argparse.RawDescriptionHelpFormatter
    )
    words.add_argument("bench")
    words.add_argument("program")
    words.add_argument("--minutes", type=float, default=10.0)
    words.add_argument("--seed", type=int, default=1)
    words.add_argument("--rush", action="store_true")
    words.add_argument("--notes", help="lines of a soak that was run before")
    words.add_argument("--folder", help="where the store is made (a temporary folder)")
    words.add_argument("--keep", action="store_true", help="leave the store and the lines there")
    given = words.parse_args()
    if given.notes:
        return 1 if compare(given.notes)[1] else 0
    folder = tempfile.mkdtemp(dir=given.folder)
    notes, rounds = os.path.join(folder, "notes"), max(1, int(given.minutes * 60_000 / ROUND_MS))
    verb = "rush" if given.rush else "soak"
    seconds = soak(os.path.abspath(given.bench), folder, verb, rounds, given.seed, notes)
    small, wrong = compare(notes)
    slots, differ = compare_files(os.path.abspath(given.program), os.path.join(folder, "store"), small)
    load = " ".join(f"{number:.1f}" for number in os.getloadavg())
    print(f"{seconds:.0f} s, load {load} at the end; the log's slots: {shown(slots)}")
    print(f"{wrong + differ} failed")
    if given.keep:
        print(folder)
    else:
        shutil.rmtree(folder)
    return 1 if wrong + differ else 0


if __name__ == "__main__":
    sys.exit(main())
