#!/usr/bin/env python3
"""Measures a store on real files that threads share, round after round, and prints medians as a table.

    bench/shared_bench.py BENCH [--rounds N] [--folder FOLDER] [--verbs c1,r2] [--share S]

BENCH is the built program of crates/bench, which says what each verb does. FOLDER is where
stores are made (a temporary folder if left out: name one on the disk that you mean to measure, since /tmp
may be memory). S makes each count smaller or larger. Where a C compiler is there, as many callers of raw
groups in C (bench/peers/callers.c), who sleep as those of the store do, run in the same rounds, in both of its forms.
"""
import argparse
import json
import os
import platform
import subprocess
import sys
import tempfile

from store_bench import HERE, LEAST_IN_GATES, LEAST_OF_RAW, load, measured, median, medium, processor, shown

# Each verb, what its value is, and how often it is done in a round.
VERBS = {
    **{f"c{count}": (f"commits of one record by {count} writers, /s", 2_000 * min(count, 16)) for count in (1, 2, 4, 8, 16, 32)},
    **{f"ec{count}": (f"the same, the log in the heap, by {count} writers, /s", 2_000 * min(count, 16)) for count in (1, 2, 4, 8, 16, 32)},
    **{f"r{count}": (f"views by {count} readers beside a writer, /s", 300_000) for count in (1, 2, 3, 4)},
    **{f"l{count}": (f"latest views by {count} readers beside a writer, /s", 300_000) for count in (1, 2, 3, 4)},
    **{f"n{count}": (f"values by {count} readers of a view each, which is renewed before each, beside a writer, /s", 5_000_000) for count in (1, 2, 3, 4)},
    **{f"q{count}": (f"values by {count} readers of a view each, beside a writer, /s", 5_000_000) for count in (1, 2, 3, 4)},
    "h": ("the lock held for a sync, µs", 200),
}


# How long a caller in C holds its lock, in microseconds: about what the store does of one commit under its own.
LOCKED = "4"
# The forms of the callers in C, and the word that asks for each.
FORMS = {"callers": [], "posted": ["posted"]}


def built_callers(folder):
    """The callers of raw groups in C, if they can be built here."""
    out = os.path.join(folder, "callers")
    try:
        done = subprocess.run(["cc", "-O2", "-pthread", os.path.join(HERE, "peers", "callers.c"), "-o", out], stderr=subprocess.DEVNULL)
    except FileNotFoundError:
        return None
    return out if done.returncode == 0 else None


def called(callers, verb, count, base):
    """What as many callers in C reach of raw groups, in each form, if they were built."""
    if callers is None or verb[0] != "c":
        return {}
    writers, found = verb[1:], {}
    for form, word in FORMS.items():
        with tempfile.TemporaryDirectory(dir=base) as folder:
            ran = subprocess.run([callers, folder, writers, str(max(2, count // int(writers))), LOCKED, *word], stdout=subprocess.PIPE, check=True)
        found.update({f"{form}_{name}": value for name, value in json.loads(ran.stdout).items()})
    return found


def all_rounds(program, callers, verbs, share, rounds, base):
    """Of each verb the answers of all rounds; every second round goes backwards."""
    found = {verb: [] for verb in verbs}
    for turn in range(rounds):
        for verb in verbs if turn % 2 == 0 else reversed(verbs):
            count = max(1, int(VERBS[verb][1] * share))
            found[verb].append({**measured(program, verb, count, base), **called(callers, verb, count, base)})
    return found


def beside(verb, answers):
    """What the machine does itself, and where the time goes."""
    if "c" in verb:
        raw = f"raw {shown(median(answers, 'raw'))}: {median(answers, 'of_raw'):.2f} of it; {median(answers, 'members'):.1f} a group"
        parts = ", ".join(f"{kind} {median(answers, kind + '_us'):,.0f}" for kind in ("gathering", "writing", "syncing"))
        told = [
            f"; {form} in C {shown(median(answers, form + '_value'))}: {median(answers, form + '_of_raw'):.2f} of raw, gathering {median(answers, form + '_gathering_us'):,.0f}"
            for form in FORMS
            if form + "_value" in answers[0]
        ]
        return f"{raw}; µs a group: {parts}; raw {median(answers, 'raw_us'):,.0f}{''.join(told)}"
    if verb[0] in "rlnq":
        return f"the writer's commits {shown(median(answers, 'commits_s'))} /s"
    kinds = ("begin", "submit", "redeem", "view", "write", "job", "start")
    held = (f"{kind} {median(answers, kind + '_us'):.1f} (most {median(answers, kind + '_most_us'):,.0f})" for kind in kinds)
    return f"most {median(answers, 'sync_most_us'):,.0f}; {', '.join(held)}"


def aimed(verb, answers):
    """What is aimed at, and whether it was met."""
    if verb[0] != "c" or verb == "c32":
        return ""
    raw = median(answers, "raw")
    least, text = LEAST_OF_RAW * raw, f"{LEAST_OF_RAW:.0%} of raw"
    if verb == "c16":
        text += f", {LEAST_IN_GATES:,} where raw allows it"
        least = max(least, LEAST_IN_GATES if raw >= LEAST_IN_GATES else 0)
    return f"{text}: {'yes' if median(answers, 'value') >= least else 'no'}"


def arguments():
    parser = argparse.ArgumentParser(description=__doc__, formatter_class=argparse.RawDescriptionHelpFormatter)
    parser.add_argument("bench")
    parser.add_argument("--rounds", type=int, default=5)
    parser.add_argument("--folder")
    parser.add_argument("--verbs", default=",".join(VERBS))
    parser.add_argument("--share", type=float, default=1.0)
    return parser.parse_args()


def main():
    asked = arguments()
    verbs = [verb for verb in asked.verbs.split(",") if verb.strip()]
    with tempfile.TemporaryDirectory(dir=asked.folder) as base:
        print(f"`{' '.join(sys.argv)}`")
        print(f"{os.cpu_count()} cores ({processor()}), Linux {platform.release()}, {medium(base)}; "
              f"load {load()} at the beginning; medians of {asked.rounds} rounds")
        found = all_rounds(os.path.abspath(asked.bench), built_callers(base), verbs, asked.share, asked.rounds, base)
        print("\n| Verb | Value | Count | Store | Beside it | Aimed at |\n" + "|---" * 6 + "|")
        for verb in verbs:
            count = max(1, int(VERBS[verb][1] * asked.share))
            answers = found[verb]
            print(f"| {verb} | {VERBS[verb][0]} | {count:,} | {shown(median(answers, 'value'))} | {beside(verb, answers)} | {aimed(verb, answers)} |")
        print(f"\nload {load()} at the end")


if __name__ == "__main__":
    main()
