#!/usr/bin/env python3
"""Queries of the program a second, with their script lines, on values of four fields of 16 bytes. The
script comes from a file and the answers go to one, so one core is measured.

    bench/rates.py PROGRAM [--folder FOLDER] [--share SHARE] [--instructions]

FOLDER is where the stores are made (a temporary folder if left out). One query of SHARE is asked (all
if left out), for a program that is slow. With --instructions valgrind counts the machine's instructions
a line of output, which do not depend on what else the machine does.

Each rate is told twice: by the clock, and by the processor's time, which a machine that does other things
too gives to the program in parts.
"""
import argparse
import os
import re
import resource
import statistics
import subprocess
import sys
import tempfile
import time

from program import run

# The records of a store and the versions of each, where time is measured, and where instructions are counted.
TIMED = (1_000, 100)
COUNTED = (200, 50)
ROUNDS = 5
VALUE = " ".join(["ab" * 16] * 4)
# What is aimed at, a second.
AIMS = {"at": 300_000, "rows of scan": 2_000_000, "rows of between": 2_000_000}


def files(base):
    return os.path.join(base, "script"), os.path.join(base, "out")


def answer_lines(path):
    with open(path, "rb") as file:
        return sum(part.count(b"\n") for part in iter(lambda: file.read(1 << 20), b""))


def processor_seconds():
    used = resource.getrusage(resource.RUSAGE_CHILDREN)
    return used.ru_utime + used.ru_stime


def run_script(words, script, base):
    """Runs a script from a file to one. Gives the seconds by the clock and those of the processor, the lines
    that were answered, and what stood on standard error."""
    path, out = files(base)
    with open(path, "w", encoding="utf-8") as file:
        file.write(script)
    with open(path, "rb") as given, open(out, "wb") as into:
        start, used = time.perf_counter(), processor_seconds()
        done = subprocess.run(words, stdin=given, stdout=into, stderr=subprocess.PIPE)
        taken = time.perf_counter() - start, processor_seconds() - used
    assert done.returncode == 0, done.stderr
    return taken, answer_lines(out), done.stderr.decode()


def seconds_of(program, folder, script, base):
    """The median seconds of a script without those of opening the store, by the clock and of the processor, and
    the lines that were answered. Each of its rounds runs the store with no script, with this one, and with none
    again."""
    words, rounds = [program, "run", folder], []
    for _ in range(ROUNDS):
        before, (taken, lines, _), after = [run_script(words, text, base) for text in ("", script, "")]
        rounds.append([taken[i] - (before[0][i] + after[0][i]) / 2 for i in (0, 1)])
    return [statistics.median(each[i] for each in rounds) for i in (0, 1)], lines


def instructions_of(program, folder, script, base):
    """The instructions of one run, and the lines that were answered."""
    words = ["valgrind", "--tool=callgrind", f"--callgrind-out-file={os.path.join(base, 'profile')}"]
    _, lines, said = run_script([*words, program, "run", folder], script, base)
    return int(re.search(r"Collected : (\d+)", said)[1]), lines


def filled(program, base, keys, versions):
    """A store of so many records with so many versions each, the seconds of writing them, and its folder."""
    folder = os.path.join(base, f"store{keys}")
    os.mkdir(folder)
    assert run(program, ["format", folder, "--slots", "256"])[0] == 0
    script = ""
    for version in range(1, versions + 1):
        puts = "".join(f"put t 1 {key} {version:02x}{VALUE[2:]}\n" for key in range(keys))
        script += f"begin t\n{puts}submit t 1 {version}\nflush\nredeem t\n"
    start = time.perf_counter()
    status, said, _ = run(program, ["run", folder], script)
    taken = time.perf_counter() - start
    assert status == 0 and said.count("queued") == versions, said[-200:]
    return folder, taken


def scripts(keys, versions, share):
    """Of each kind of query a script."""
    return {
        "at": "".join(f"at 1 {n * 7919 % keys} {n * 104729 % versions + 1}\n" for n in range(1_200_000 // share)),
        "rows of scan": "".join(f"scan 1 {n % versions + 1}\n" for n in range(4_000 // share)),
        "rows of between": "".join(f"between 1 {n * 7919 % keys} 0 {versions}\n" for n in range(40_000 // share)),
    }


def print_rates(program, base, share):
    keys, versions = TIMED
    folder, loaded = filled(program, base, keys, versions)
    opening, _, _ = run_script([program, "run", folder], "", base)
    print(f"load {' '.join(f'{number:.1f}' for number in os.getloadavg())}")
    print(f"opening, {keys * versions:,} versions: {1000 * opening[0]:.0f} ms, {1000 * opening[1]:.0f} of the processor")
    print(f"put lines a second, with {versions} commits of {keys:,}: {keys * versions / loaded:,.0f}")
    for name, script in scripts(keys, versions, share).items():
        taken, lines = seconds_of(program, folder, script, base)
        by_clock, by_processor = [lines / seconds for seconds in taken]
        print(f"{name}, lines a second: {by_clock:,.0f}, {by_processor:,.0f} of the processor; "
              f"aimed at {AIMS[name]:,}: {by_clock / AIMS[name]:.0%}, {by_processor / AIMS[name]:.0%}")


def print_instructions(program, base):
    keys, versions = COUNTED
    folder, _ = filled(program, base, keys, versions)
    opening, _ = instructions_of(program, folder, "", base)
    for name, script in scripts(keys, versions, 120).items():
        taken, lines = instructions_of(program, folder, script, base)
        print(f"{name}, instructions a line: {(taken - opening) / lines:,.0f}")


def main():
    parser = argparse.ArgumentParser(description=__doc__, formatter_class=argparse.RawDescriptionHelpFormatter)
    parser.add_argument("program")
    parser.add_argument("--folder")
    parser.add_argument("--share", type=int, default=1)
    parser.add_argument("--instructions", action="store_true")
    asked = parser.parse_args()
    program = os.path.abspath(asked.program)
    with tempfile.TemporaryDirectory(dir=asked.folder) as base:
        if asked.instructions:
            print_instructions(program, base)
        else:
            print_rates(program, base, asked.share)


if __name__ == "__main__":
    sys.exit(main())
