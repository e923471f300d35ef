#!/usr/bin/env python3
"""Runs a command and prints what processor time each crate took in it: its proof, its tests, the first of its must-fail edits and the others;
the dearest edits; and the most memory that one check of the crate held. It only reads /proc, twice a second. Its exit status is the command's.

usage: .ci/ci_cost.py [--limit MINUTES] [--edits FILE] [--table FILE] [--proofs FILE] [COMMAND ..]

With no command it runs rt ci. What a machine makes of a number is told by the proofs of three crates, UNIT below: the column `units` is a time as a
multiple of what these three took in the same run. With --limit the status is 1 too where the sum is above so many processor minutes of the
reference machine. Where one of the three was not proved in this run, since an earlier one had proved it, there is no such limit. --edits adds a line
for each edit that was tried to the file: its seconds, its crate and its name. --table writes the table to the file, too, with the day and the state.
--proofs writes the seconds of each crate's proof to the file, as JSON.
"""
import collections
import contextlib
import dataclasses
import io
import json
import os
import pathlib
import re
import signal
import subprocess
import sys
import threading
import time

# The crates whose proofs tell a machine's speed, and the seconds of processor time that each takes on the reference machine.
UNIT = {"history": 37, "disk": 42, "wire": 78}
TICKS_A_SECOND = os.sysconf("SC_CLK_TCK")
SECONDS_BETWEEN_LOOKS = 0.5
PHASES = ("proof", "tests", "code", "edits", "edit alone")
DEAREST_SHOWN = 12


def is_check(words):
    """Whether the words of a process are those of a check by the prover."""
    return os.path.basename(words[0]) == "rattle" and "--crate-name" in words


@dataclasses.dataclass
class Process:
    parent: int
    began: int
    seconds: float  # of the processor, with those of children that ended
    words: list
    folder: str  # that it works in, where it is a check

    def is_check(self):
        return is_check(self.words)

    def crate(self):
        return self.words[self.words.index("--crate-name") + 1]

    def phase(self):
        if "--test" in self.words:
            return "tests"
        if any("rt-edits-" in it for it in self.words):
            return "edits"
        if "--crate-checked" in self.words:
            return "code"
        return "edit alone" if "/rt-edit-" in self.folder else "proof"

    def edit(self):
        """The edit's number among those of its crate, where the check is a try of one over what the crate's own check left."""
        found = [re.search(r"rt-edits-[^/]*/(\d+)$", it) for it in self.words]
        return next((int(it[1]) for it in found if it), None)


@dataclasses.dataclass
class Check:
    """One run of the prover."""

    crate: str
    phase: str
    edit: int | None
    seconds: float = 0
    peak: int = 0  # kilobytes


def processes():
    found = {}
    for pid in filter(str.isdigit, os.listdir("/proc")):
        try:
            with open(f"/proc/{pid}/stat") as it:
                stat = it.read().rpartition(")")[2].split()
            with open(f"/proc/{pid}/cmdline", "rb") as it:
                words = it.read().decode(errors="replace").split("\0")
            folder = os.readlink(f"/proc/{pid}/cwd") if is_check(words) else ""
        except OSError:
            continue
        found[int(pid)] = Process(int(stat[1]), int(stat[19]), sum(map(int, stat[11:15])) / TICKS_A_SECOND, words, folder)
    return found


def peak_of(pid):
    """The most memory that a process has held, in kilobytes."""
    try:
        with open(f"/proc/{pid}/status") as it:
            found = re.search(r"^VmHWM:\s+(\d+)", it.read(), re.M)
    except OSError:
        return 0
    return int(found[1]) if found else 0


def is_below(pid, top, now):
    while pid in now and pid != top:
        pid = now[pid].parent
    return pid == top


def look(top, checks):
    """Notes what the checks below a process have used so far."""
    now = processes()
    held = collections.Counter()
    for pid, process in now.items():
        if not process.is_check() or not is_below(pid, top, now):
            continue
        first = pid
        while now[first].parent in now and now[now[first].parent].is_check():
            first = now[first].parent
        held[first] += peak_of(pid)
        if first == pid:
            check = checks.setdefault((process.began, pid), Check(process.crate(), process.phase(), process.edit()))
            check.seconds = max(check.seconds, process.seconds)
    for pid, kilobytes in held.items():
        check = checks[now[pid].began, pid]
        check.peak = max(check.peak, kilobytes)


def longest_chain(seconds):
    """The crates whose proofs wait for one another longest, by crates.txt, and what they and the last one's tests and edits take."""
    try:
        with open("crates.txt") as it:
            lines = [line.partition(":") for line in it if ":" in line]
    except OSError:
        return 0, []
    below = {name.split()[0]: names.split() for name, _, names in lines if name.split()}
    waits = {}

    def chain(name):
        if name not in waits:
            before = max((chain(it) for it in below[name] if it in below), default=(0, []))
            waits[name] = before[0] + seconds[name]["proof"], [*before[1], name]
        return waits[name]

    return max(((chain(it)[0] + sum(seconds[it].values()) - seconds[it]["proof"], chain(it)[1]) for it in below), default=(0, []))


def number_edits(checks):
    """Numbers the tries of a crate's edits, where their words say no number: rt tries them by name, each over what those before it left."""
    tried = collections.Counter()
    for _, check in sorted(checks.items(), key=lambda it: it[0]):
        if check.phase == "edits" and check.edit is None:
            check.edit = tried[check.crate]
            tried[check.crate] += 1


def edits_by_cost(checks):
    """The edits that were tried: the seconds of each, its crate and its name, dearest first."""
    seconds = collections.Counter()
    for check in checks.values():
        if check.edit is not None:
            seconds[check.crate, check.edit] += check.seconds
    names = {crate: sorted(it.name for it in pathlib.Path("crates", crate, "must-fail").glob("*.edit")) for crate, _ in seconds}
    found = [(cost, crate, names[crate][number]) for (crate, number), cost in seconds.items() if number < len(names[crate])]
    return sorted(found, reverse=True)


def proof_seconds(checks):
    """The seconds of each crate's proof, of those that were proved."""
    seconds = collections.Counter()
    for check in checks.values():
        if check.phase == "proof":
            seconds[check.crate] += check.seconds
    return dict(seconds)


def unit_of(proofs):
    """The seconds that the three crates of the unit took, or None where one of them was not proved in this run."""
    return sum(proofs[it] for it in UNIT) if all(proofs.get(it) for it in UNIT) else None


def in_units(seconds, unit):
    return f"{seconds / unit:.1f}" if unit else "-"


def table(checks, wall):
    """Prints the table and returns the processor minutes."""
    unit = unit_of(proof_seconds(checks))
    seconds, first, others = collections.defaultdict(collections.Counter), {}, collections.defaultdict(list)
    peaks = collections.Counter()
    for _, check in sorted(checks.items(), key=lambda it: it[0]):
        seconds[check.crate][check.phase] += check.seconds
        peaks[check.crate] = max(peaks[check.crate], check.peak)
        if check.phase == "edits" and check.crate not in first:
            first[check.crate] = check.seconds
        elif check.phase in ("edits", "edit alone"):
            others[check.crate].append(check.seconds)
    print(f"{'crate':18}{'total s':>9}{'units':>7}{'proof':>8}{'tests':>8}{'code':>7}{'edit 1':>8}{'runs':>6}{'s a run':>9}{'peak MB':>9}")
    for crate in sorted(seconds, key=lambda it: -sum(seconds[it].values())):
        mine, rest = seconds[crate], others[crate]
        mean = sum(rest) / len(rest) if rest else 0
        print(f"{crate:18}{sum(mine.values()):9.0f}{in_units(sum(mine.values()), unit):>7}{mine['proof']:8.0f}{mine['tests']:8.0f}{mine['code']:7.0f}{first.get(crate, 0):8.0f}{len(rest):6}{mean:9.1f}{peaks[crate] / 1024:9.0f}")
    for cost, crate, name in edits_by_cost(checks)[:DEAREST_SHOWN]:
        print(f"edit {crate}/{name}: {cost:.0f} s")
    length, names = longest_chain(seconds)
    print(f"longest chain: {length / 60:.0f} processor minutes, {in_units(length, unit)} units: {' '.join(names)}")
    sums = {it: sum(mine[it] for mine in seconds.values()) / 60 for it in PHASES}
    total, firsts = sum(sums.values()), sum(first.values()) / 60
    rest = sums["edits"] + sums["edit alone"] - firsts
    print(f"CI cost: {total:.0f} processor minutes, {wall:.0f} seconds on {os.cpu_count()} cores; of it proofs {sums['proof']:.0f}, tests {sums['tests']:.0f}, code {sums['code']:.0f}, first edits {firsts:.0f}, other edits {rest:.0f}; most memory of one check {max(peaks.values(), default=0) / 1024:.0f} MB")
    if unit is None:
        print(f"CI cost: not told in units, since not all of {', '.join(UNIT)} were proved in this run")
    else:
        print(f"CI cost: {in_units(total * 60, unit)} units; one unit, the proofs of {', '.join(UNIT)}, took {unit:.0f} seconds here, {unit / sum(UNIT.values()):.2f} of what it takes on the reference machine")
    return total


def keep_table(file, text):
    """Writes the table to the file, below the day and the state that it is of."""
    state = subprocess.run(["git", "log", "-1", "--format=%h %s"], capture_output=True, text=True).stdout
    try:
        pathlib.Path(file).parent.mkdir(parents=True, exist_ok=True)
        pathlib.Path(file).write_text(f"{time.strftime('%Y-%m-%d %H:%M')} {state}{text}", encoding="utf-8")
    except OSError as fault:
        print(f"CI cost: the table is not kept: {fault}", file=sys.stderr)


def passed_on(stream, lines):
    """Writes each line of a stream to standard output as it comes, and notes those that tell how much was done in this run."""
    for line in stream:
        sys.stdout.buffer.write(line)
        sys.stdout.buffer.flush()
        if line.startswith(b"rt: ok"):
            lines.append(line.decode(errors="replace"))


def share_done(line):
    """What rt ci says of how much it did itself, in one plain line."""
    found = re.search(r"done in this run: (\d+) of the (\d+) proofs[^;]*?(?: and (\d+) of the (\d+) must-fail edits)?;", line)
    if not found:
        return "proved in this run: every proof, and every must-fail edit was tried in it"
    edits = f", and {found[3]} of {found[4]} must-fail edits were tried in it" if found[3] else ""
    return f"proved in this run: {found[1]} of {found[2]} proofs{edits}; the others were kept from earlier runs on this machine"


def is_above(limit, total, unit):
    """Says what became of the limit, in processor minutes of the reference machine, and returns whether the total is above it."""
    if unit is None:
        print("CI cost: no limit is applied, since what tells the machine's speed was not proved in this run")
        return False
    here = limit * unit / sum(UNIT.values())
    print(f"CI cost: the limit is {limit:.0f} processor minutes of the reference machine, {here:.0f} of this one: {total:.0f} is {'above it' if total > here else 'within it'}")
    return total > here


def run(words, checks, lines):
    """Runs the command, looks at its checks until it ends, and returns its status."""
    ran = subprocess.Popen(words, stdout=subprocess.PIPE)
    reader = threading.Thread(target=passed_on, args=(ran.stdout, lines), daemon=True)
    reader.start()
    try:
        while ran.poll() is None:
            look(ran.pid, checks)
            time.sleep(SECONDS_BETWEEN_LOOKS)
    finally:
        if ran.poll() is None:
            ran.terminate()
            ran.wait()
    reader.join(timeout=10)
    return ran.returncode if ran.returncode >= 0 else 128 - ran.returncode


def options(words):
    """The options that stand before the command, each with its value, and the command."""
    found = {}
    while words[:1] and words[0] in ("--limit", "--edits", "--table", "--proofs"):
        found[words[0][2:]], words = words[1], words[2:]
    return found, words


def main(words):
    if words[:1] in (["-h"], ["--help"]):
        print(__doc__, end="")
        return 0
    given, words = options(words)
    signal.signal(signal.SIGTERM, lambda *_: sys.exit(128 + signal.SIGTERM))
    started, checks, lines = time.time(), {}, []
    status = run(words or ["rt", "ci"], checks, lines)
    number_edits(checks)
    with contextlib.redirect_stdout(io.StringIO()) as text:
        total = table(checks, time.time() - started)
    print(text.getvalue(), end="", flush=True)
    if "table" in given:
        keep_table(given["table"], text.getvalue())
    if "edits" in given:
        with open(given["edits"], "a", encoding="utf-8") as it:
            it.writelines(f"{cost:.1f} {crate} {name}\n" for cost, crate, name in edits_by_cost(checks))
    proofs = proof_seconds(checks)
    if "proofs" in given:
        pathlib.Path(given["proofs"]).write_text(json.dumps(proofs), encoding="utf-8")
    above = "limit" in given and is_above(float(given["limit"]), total, unit_of(proofs))
    print("".join(share_done(it) + "\n" for it in lines[-1:]), end="", flush=True)
    return status or int(above)


if __name__ == "__main__":
    sys.exit(main(sys.argv[1:]))
