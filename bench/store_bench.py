#!/usr/bin/env python3
"""Measures the store on real files, round after round, and prints medians as a table.

    bench/store_bench.py BENCH [--rounds N] [--folder FOLDER] [--verbs w1,w4] [--share S] [--versions N]
                         [--vacuums 100000,1000000x10] [--program TIMESTORE] [--alone]

BENCH is the built program of crates/bench, which says what each verb does. FOLDER is where stores
are made (a temporary folder if left out: name one on the disk that you mean to measure, since /tmp may be
memory). S makes each count smaller or larger. Each of the 1,000 keys that w4 to w6 and w8 ask has N versions
(100 if left out, 1,000 at most). Each vacuum is so many ended versions, in so many runs (one if left out), of
1,000 keys, or, with a k behind, one of each key; `--verbs= ` or `--vacuums= ` leaves the verbs or the vacuums
out. TIMESTORE is the built program, of which the memory of an opened version is measured. Where a C compiler
and the libraries are there, SQLite and LMDB run the same workloads in the same rounds (bench/peers); --alone
leaves them out.
"""
import argparse
import json
import os
import platform
import shutil
import statistics
import subprocess
import sys
import tempfile

HERE = os.path.dirname(os.path.abspath(__file__))
# Each verb, what its value is, and how often it is done in a round.
VERBS = {
    "w1": ("commits of one record, one at a time, /s", 2_000),
    "w2g": ("commits of one record, 16 under one gate, /s", 500),
    "w3": ("records in commits of 1,024, /s", 200),
    "w4": ("values of a key as of a random time, /s", 300_000),
    "w5": ("rows of all versions of a key, /s", 20_000),
    "w5w": ("the same, walked over in a loan, /s", 20_000),
    "w6": ("scans of 1,000 records as of a random time, /s", 2_000),
    "w7": ("opening after so many commits, ms", 3_000),
    "w8": ("bytes on disk a version", 1),
}
# What is aimed at: of a verb the least value, or a share of what the raw writes and syncs allow.
MOST_TIMES_RAW = 1.15
LEAST_IN_GATES = 40_000
LEAST_OF_RAW = 0.8
LEAST = {"w3": 500_000, "w4": 2_000_000, "w5": 20_000_000, "w5w": 20_000_000, "w6": 5_000}
# Of a vacuum: megabytes a second, where a plain copy of the file reaches as much.
LEAST_MB = 200
VACUUMS = "100000x1,100000x10,100000x100,1000000x1,1000000x10,1000000x100,100000k,500000k"
# How many versions each key has that is asked, and the verbs that ask.
VERSIONS = 100
ASKING = ("w4", "w5", "w5w", "w6", "w8")
# What a peer is asked that has one verb for both.
PEERS_VERBS = {"w5w": "w5"}
PEERS = {"SQLite": ("sqlite.c", "-lsqlite3"), "LMDB": ("lmdb.c", "-llmdb")}


def built_peers(folder):
    """The peers that can be built here, by their names."""
    built = {}
    for name, (source, library) in PEERS.items():
        out = os.path.join(folder, name)
        files = [os.path.join(HERE, "peers", it) for it in ("workloads.c", source)]
        try:
            done = subprocess.run(["cc", "-O2", *files, "-o", out, library], stderr=subprocess.DEVNULL)
        except FileNotFoundError:
            return built
        if done.returncode == 0:
            built[name] = out
    return built


def called(program, verb, folder, *numbers):
    """What one call prints."""
    done = subprocess.run([program, verb, folder, *map(str, numbers)], stdout=subprocess.PIPE)
    if done.returncode != 0:
        sys.exit(f"{program} {verb} ended with {done.returncode}")
    return json.loads(done.stdout)


def measured(program, verb, numbers, base):
    """What one call prints, in a folder of its own."""
    folder = tempfile.mkdtemp(dir=base)
    answer = called(program, verb, folder, *numbers)
    shutil.rmtree(folder)
    return answer


def all_rounds(contenders, verbs, share, rounds, base, versions=VERSIONS):
    """Of each contender and verb the answers of all rounds; every second round goes backwards."""
    found = {(name, verb): [] for name in contenders for verb in verbs}
    for turn in range(rounds):
        calls = list(found)
        for name, verb in calls if turn % 2 == 0 else reversed(calls):
            count = max(1, int(VERBS[verb][1] * share))
            asked = verb if name == "timestore" else PEERS_VERBS.get(verb, verb)
            numbers = (count, versions) if verb in ASKING else (count,)
            found[name, verb].append(measured(contenders[name], asked, numbers, base))
    return found


def median(answers, field):
    return statistics.median(answer[field] for answer in answers)


def shown(number):
    return f"{number:,.0f}" if number >= 100 else f"{number:,.2f}"


def value(answers):
    """The median of the values; where each group was timed, with that of the groups' median times."""
    times = f" ({median(answers, 'median_us'):,.0f} µs)" if "median_us" in answers[0] else ""
    return shown(median(answers, "value")) + times


def beside(verb, answers):
    """What the machine does itself, and how the store stands to it."""
    if verb in ("w1", "w2g", "w3"):
        raw = f"raw {shown(median(answers, 'raw'))} ({median(answers, 'raw_median_us'):,.0f} µs)"
        return f"{raw}: {median(answers, 'times_raw'):.2f} times"
    if verb in ("w4", "w5", "w5w", "w6"):
        return f"copies {shown(median(answers, 'copies'))}; opening {median(answers, 'opening_ms'):.0f} ms"
    if verb == "w7":
        return f"reading {median(answers, 'reading_ms'):.1f} ms for {median(answers, 'bytes') / 1e6:.1f} MB"
    return f"heap {median(answers, 'heap'):.1f}"


def aimed(verb, answers):
    """What is aimed at, and whether it was met."""
    if verb == "w1":
        text, met = f"at most {MOST_TIMES_RAW} times raw", median(answers, "times_raw") <= MOST_TIMES_RAW
    elif verb == "w2g":
        raw = median(answers, "raw")
        least = max(LEAST_OF_RAW * raw, LEAST_IN_GATES if raw >= LEAST_IN_GATES else 0)
        text, met = f"{LEAST_OF_RAW:.0%} of raw, {LEAST_IN_GATES:,} where raw allows it", median(answers, "value") >= least
    elif verb in LEAST:
        text, met = shown(LEAST[verb]), median(answers, "value") >= LEAST[verb]
    else:
        return ""
    return f"{text}: {'yes' if met else 'no'}"


def shapes(words, share):
    """Of each vacuum the verb that makes its store, how many versions ended, and its runs."""
    found = []
    for word in words.split(","):
        versions, _, runs = word.partition("x")
        verb = "v0k" if versions.endswith("k") else "v0"
        count = max(1_000, int(int(versions.rstrip("k")) * share) // 1_000 * 1_000)
        found.append((verb, count, min(int(runs or 1), count // 1_000)))
    return found


def questions(verb, count, share):
    """Each verb that is called before a vacuum and after it, with its count."""
    verbs = {"v5": 5, "v6": count}
    if verb == "v0":
        verbs.update({"v3": max(1, int(20_000 * share)), "v4": 3})
    return verbs


def vacuumed(program, shape, share, base):
    """What the calls before a vacuum, of it, and after it print."""
    verb, count, runs = shape
    folder = tempfile.mkdtemp(dir=base)
    called(program, verb, folder, count)
    before = {name: called(program, name, folder, number) for name, number in questions(verb, count, share).items()}
    tasks = {"v1": called(program, "v1", folder, count, runs), "v2": called(program, "v2", folder, count)}
    after = {name: called(program, name, folder, number) for name, number in questions(verb, count, share).items()}
    shutil.rmtree(folder)
    return before, {**tasks, **after}


def task_cells(answers):
    """A task: what it took, beside the values and a plain copy, and whether it was fast enough."""
    ms, rate, copy = (median(answers, name) for name in ("value", "mb_s", "copy_mb_s"))
    parts = ", ".join(f"{name} {median(answers, name + '_ms'):,.1f}" for name in ("starting", "writing", "syncing", "turning", "ending"))
    size, values = (median(answers, name) / 1e6 for name in ("bytes", "value_bytes"))
    grown = max(answer["most"] - answer["held_before"] for answer in answers) / 1e6
    beside = (f"{size:,.2f} MB, values {values:,.1f} MB; {rate:,.0f} MB/s, plain copy {median(answers, 'copy_ms'):,.1f} ms "
              f"({copy:,.0f} MB/s); {parts}; memory +{grown:.1f} MB at most")
    return f"{ms:,.1f}", beside, rate, copy


def question_cells(verb, before, after):
    """A question: its value after the vacuum, and beside it that of before."""
    if verb in ("v3", "v4"):
        names = ("first_us", "again_us", "last_us")
        of = {name: [shown(median(answers, name)) for answers in (before, after)] for name in names}
        beside = (f"before {shown(median(before, 'us'))}; first {of['first_us'][1]} (before {of['first_us'][0]}), "
                  f"again {of['again_us'][1]} ({of['again_us'][0]}), as of the last commit {of['last_us'][1]} ({of['last_us'][0]})")
        return shown(median(after, "us")), beside
    beside = f"before {shown(median(before, 'value'))}"
    if verb == "v5":
        beside += f"; reading the files {median(after, 'reading_ms'):.1f}, before {median(before, 'reading_ms'):.1f}"
    else:
        beside += f"; {median(after, 'held') / 1e6:.1f} MB, before {median(before, 'held') / 1e6:.1f}"
    return shown(median(after, "value")), beside


VACUUM_VERBS = {
    "v1": "archive, ms",
    "v2": "reclaim, ms",
    "v3": "a value as of a time below the reclaim mark, µs",
    "v4": "a scan of 1,000 records as of such a time, µs",
    "v5": "opening after the vacuum, with a first answer, ms",
    "v6": "memory of an opened store a version, bytes",
}


def print_vacuums(program, words, share, rounds, base):
    """A table of vacuums and of what they leave."""
    print("\n| Verb | Value | Ended versions | Runs | Store | Beside it | Aimed at |\n" + "|---" * 7 + "|")
    for shape in shapes(words, share):
        found = [vacuumed(program, shape, share, base) for _ in range(rounds)]
        keys = " of as many keys" if shape[0] == "v0k" else ""
        for verb, text in VACUUM_VERBS.items():
            if verb not in found[0][1]:
                continue
            after = [answers[verb] for _, answers in found]
            aim = ""
            if verb in ("v1", "v2"):
                value_cell, beside_cell, rate, copy = task_cells(after)
                if verb == "v1":
                    aim = f"{LEAST_MB} MB/s where the copy has it: {'yes' if rate >= min(LEAST_MB, copy) else 'no'}"
            else:
                value_cell, beside_cell = question_cells(verb, [answers[verb] for answers, _ in found], after)
            print(f"| {verb} | {text} | {shape[1]:,}{keys} | {shape[2]} | {value_cell} | {beside_cell} | {aim} |", flush=True)


def held_memory(program, folder):
    """What a process holds that has opened a store, and the most that it held, in bytes."""
    process = subprocess.Popen([program, "run", folder], stdin=subprocess.PIPE, stdout=subprocess.PIPE)
    process.stdin.write(b"times 1\n")
    process.stdin.flush()
    process.stdout.readline()
    with open(f"/proc/{process.pid}/status", encoding="utf-8") as status:
        fields = dict(line.split(":", 1) for line in status)
    process.communicate()
    return [int(fields[name].split()[0]) * 1024 for name in ("VmRSS", "VmHWM")]


def print_memory(bench, program, base, versions):
    """The memory of a version, where 1,000 keys have so many: of that store beside an empty one."""
    folder = tempfile.mkdtemp(dir=base)
    empty = os.path.join(folder, "empty")
    os.mkdir(empty)
    subprocess.run([program, "format", empty], stdout=subprocess.DEVNULL, check=True)
    full = os.path.join(folder, "full")
    os.mkdir(full)
    count = called(bench, "w8", full, 1, versions)["versions"]
    pairs = zip(held_memory(program, os.path.join(full, "store")), held_memory(program, empty))
    held, most = [(with_all - with_none) / count for with_all, with_none in pairs]
    shutil.rmtree(folder)
    print(f"\nAn opened store of {count:,} versions of 64 bytes holds {held:,.0f} bytes of memory a version, "
          f"and {most:,.0f} at the most while it is opened.")


def medium(folder):
    """The file system of a folder, and its device."""
    done = subprocess.run(["df", "--output=fstype,source", folder], stdout=subprocess.PIPE)
    return " on ".join(done.stdout.decode().splitlines()[-1].split())


def processor():
    for line in open("/proc/cpuinfo", encoding="utf-8"):
        if line.startswith("model name"):
            return line.split(":", 1)[1].strip()
    return platform.machine()


def load():
    return " ".join(f"{number:.1f}" for number in os.getloadavg())


def arguments():
    parser = argparse.ArgumentParser(description=__doc__, formatter_class=argparse.RawDescriptionHelpFormatter)
    parser.add_argument("bench")
    parser.add_argument("--rounds", type=int, default=5)
    parser.add_argument("--folder")
    parser.add_argument("--verbs", default=",".join(VERBS))
    parser.add_argument("--vacuums", default=VACUUMS)
    parser.add_argument("--share", type=float, default=1.0)
    parser.add_argument("--versions", type=int, default=VERSIONS)
    parser.add_argument("--program")
    parser.add_argument("--alone", action="store_true")
    return parser.parse_args()


def print_verbs(found, verbs, share):
    """A table of the verbs, with the peers' values beside the store's."""
    peers = sorted({name for name, _ in found if name != "timestore"})
    print("\n| Verb | Value | Count | Store | Beside it | Aimed at |" + "".join(f" {name} |" for name in peers))
    print("|---" * (6 + len(peers)) + "|")
    for verb in verbs:
        answers = found["timestore", verb]
        others = "".join(f" {value(found[name, verb])} |" for name in peers)
        count = max(1, int(VERBS[verb][1] * share))
        store = f"{value(answers)} | {beside(verb, answers)} | {aimed(verb, answers)}"
        print(f"| {verb} | {VERBS[verb][0]} | {count:,} | {store} |{others}")


def main():
    asked = arguments()
    verbs = [verb for verb in asked.verbs.split(",") if verb.strip()]
    bench = os.path.abspath(asked.bench)
    with tempfile.TemporaryDirectory(dir=asked.folder) as base:
        contenders = {"timestore": bench}
        if verbs and not asked.alone:
            contenders.update(built_peers(base))
        print(f"`{' '.join(sys.argv)}`")
        print(f"{os.cpu_count()} cores ({processor()}), Linux {platform.release()}, {medium(base)}; "
              f"load {load()} at the beginning; medians of {asked.rounds} rounds")
        if verbs:
            print_verbs(all_rounds(contenders, verbs, asked.share, asked.rounds, base, asked.versions), verbs, asked.share)
        if asked.vacuums.strip():
            print_vacuums(bench, asked.vacuums, asked.share, asked.rounds, base)
        print(f"\nload {load()} at the end")
        if asked.program:
            print_memory(bench, os.path.abspath(asked.program), base, asked.versions)


if __name__ == "__main__":
    main()
