#!/usr/bin/env python3
"""Measures the program `timestore` on real files, beside what the files themselves cost.

    bench/program_bench.py PROGRAM [FOLDER]

PROGRAM is the built program; FOLDER is where the stores are made (a temporary folder if left out:
take one on the disk that you mean to measure, since /tmp may be memory). Prints a table.
"""
import os
import subprocess
import sys
import tempfile
import threading
import time


def timed(work):
    start = time.perf_counter()
    result = work()
    return time.perf_counter() - start, result


def run(program, words, script=""):
    done = subprocess.run([program, *words], input=script.encode(), stdout=subprocess.PIPE)
    return done.returncode, done.stdout.decode()


def raw_syncs(folder, count):
    """What a commit of one extent cannot do without: three writes, each followed by a sync."""
    heap = os.open(os.path.join(folder, "raw-heap"), os.O_RDWR | os.O_CREAT)
    status = os.open(os.path.join(folder, "raw-status"), os.O_RDWR | os.O_CREAT)
    os.pwrite(status, bytes(512 * (count + 1)), 0)
    os.fsync(status)
    for n in range(count):
        os.pwrite(heap, bytes([n % 251]) * 8192, 8192 * n)
        os.fsync(heap)
        os.pwrite(status, b"x" * 511, 512 * n + 1)
        os.fsync(status)
        os.pwrite(status, b"\xc7", 512 * n)
        os.fsync(status)
    os.close(heap)
    os.close(status)


def row(what, number, unit):
    print(f"{what:58} {number:12,.0f} {unit}")


def format_time(program, folder):
    seconds, (status, out) = timed(lambda: run(program, ["format", folder, "--slots", "65536"]))
    assert (status, out) == (0, "formatted 65536\n"), (status, out)
    row("format of 65,536 slots", 1000 * seconds, "ms")


def commit_rate(program, folder, count):
    run(program, ["format", folder, "--slots", "65536"])
    script = "".join(f"begin t\nput t 1 {n} 6162636465666768\nsubmit t {n} 0\nflush\nredeem t\n" for n in range(count))
    seconds, (status, out) = timed(lambda: run(program, ["run", folder], script))
    assert status == 0 and out.count("done ") == count, (status, out[-200:])
    plain, _ = timed(lambda: raw_syncs(folder, count))
    row(f"commits a second, one at a time ({count})", count / seconds, "/s")
    row(f"three raw writes and syncs, as many times", count / plain, "/s")
    row("a commit beside three raw writes and syncs", 100 * seconds / plain, "%")


def group_rate(program, folder, groups):
    names = [f"t{n}" for n in range(16)]
    script = ""
    for g in range(groups):
        for n, name in enumerate(names):
            script += f"begin {name}\nput {name} 2 {16 * g + n} 6162\nsubmit {name} {g} 0\n"
        script += "flush\n" + "".join(f"redeem {name}\n" for name in names)
    seconds, (status, out) = timed(lambda: run(program, ["run", folder], script))
    assert status == 0 and out.count("done ") == 16 * groups, (status, out[-200:])
    row(f"commits a second, 16 under one gate ({16 * groups})", 16 * groups / seconds, "/s")


def query_rate(program, folder, count):
    last = run(program, ["run", folder], "reopen\n")[1].split()[1]
    opening, _ = timed(lambda: run(program, ["run", folder], ""))
    script = "".join(f"at 1 {n % 200} {last}\n" for n in range(count))
    seconds, (status, out) = timed(lambda: run(program, ["run", folder], script))
    assert status == 0 and out.count("value ") == count, (status, out[-200:])
    row(f"point queries a second, with their script lines ({count})", count / (seconds - opening), "/s")
    row("opening that store", 1000 * opening, "ms")


class Session:
    """A script that is fed in parts, so that one part alone can be timed."""

    def __init__(self, program, folder):
        self.process = subprocess.Popen([program, "run", folder], stdin=subprocess.PIPE, stdout=subprocess.PIPE)

    def answers(self, lines):
        """The answers to these lines, in whatever time they take."""
        text = "".join(line + "\n" for line in lines).encode()
        # The writer is a thread: neither side may fill its pipe while the other waits.
        writer = threading.Thread(target=self.feed, args=(text,))
        writer.start()
        found = [self.process.stdout.readline().decode().rstrip("\n") for _ in lines]
        writer.join()
        return found

    def feed(self, text):
        self.process.stdin.write(text)
        self.process.stdin.flush()

    def end(self):
        self.process.stdin.close()
        return self.process.wait()


def store_of(program, folder, keys):
    """A store with so many keys of relation 1, each with one value. Gives the time of its last commit."""
    os.mkdir(folder)
    run(program, ["format", folder])
    script = ""
    for first in range(0, keys, 1024):
        puts = "".join(f"put t 1 {n} 61\n" for n in range(first, min(first + 1024, keys)))
        script += f"begin t\n{puts}submit t 1 0\nflush\nredeem t\n"
    status, out = run(program, ["run", folder], script)
    commits = -(-keys // 1024)
    assert status == 0 and out.endswith(f"done {commits}\n"), (status, out[-200:])
    return commits


def begin_and_view_time(program, base, keys, count):
    folder = os.path.join(base, f"keys-{keys}")
    last = store_of(program, folder, keys)
    session = Session(program, folder)
    assert session.answers(["times 1"])[0].startswith("times 1")
    begin, found = timed(lambda: session.answers(["begin t", "abort t"] * count))
    assert found == [f"snapshot {last}", "ok"] * count, found[-2:]
    view, found = timed(lambda: session.answers([f"at 1 {n % keys} {last}" for n in range(count)]))
    assert found == ["value 61"] * count, found[-2:]
    assert session.end() == 0
    row(f"begin and abort at {keys:,} keys, with two script lines", 1e9 * begin / count, "ns")
    row(f"view, query and end at {keys:,} keys, with a script line", 1e9 * view / count, "ns")


def ending_time(session, ending, answer, count):
    """The ends of this many transactions with write sets of 1,024 keys, of which the greatest conflicts."""
    begins = [line for n in range(count) for line in [f"begin t{n}", *(f"put t{n} 1 {key} 62" for key in range(1024))]]
    assert session.answers(begins).count("ok") == 1024 * count
    other = session.answers(["begin u", "put u 1 1023 63", "submit u 1 0", "flush", "redeem u"])
    assert other[-1].startswith("done "), other
    seconds, found = timed(lambda: session.answers([ending.format(n) for n in range(count)]))
    assert found == [answer] * count, found[-1]
    return seconds


def conflict_time(program, base, keys, count, rounds):
    """Submits that are refused for the greatest of 1,024 keys, beside aborts: the shortest of some rounds."""
    session = Session(program, os.path.join(base, f"keys-{keys}"))
    aborts = min(ending_time(session, "abort t{}", "ok", count) for _ in range(rounds))
    submits = min(ending_time(session, "submit t{} 2 0", "refused: conflict 1 1023", count) for _ in range(rounds))
    assert session.end() == 0
    row(f"conflict test of 1,024 keys at {keys:,} keys", 1e6 * (submits - aborts) / count, "us")


def archive_time(program, base, keys):
    """An archive of so many versions, each replaced once: its beginning, which counts them, and its steps."""
    folder = os.path.join(base, f"archive-{keys}")
    last = store_of(program, folder, keys)
    script = ""
    for first in range(0, keys, 1024):
        puts = "".join(f"put t 1 {n} 62\n" for n in range(first, min(first + 1024, keys)))
        script += f"begin t\n{puts}submit t 2 0\nflush\nredeem t\n"
    status, out = run(program, ["run", folder], script)
    assert status == 0 and out.endswith(f"done {2 * last}\n"), (status, out[-200:])
    session = Session(program, folder)
    assert session.answers(["times 2"])[0].startswith("times ")
    begun, found = timed(lambda: session.answers([f"archive {2 * last}"]))
    assert found == ["started"], found
    made, found = timed(lambda: session.answers(["finish"]))
    assert found == ["idle"], found
    assert session.answers([f"at 1 {keys - 1} {last}", f"archive {2 * last}"]) == ["value 61", "refused: nothing to do"]
    assert session.end() == 0
    # A record of one field of one byte has 29 bytes, and its entry of the index 8.
    length = os.path.getsize(os.path.join(folder, "archive"))
    assert length == 37 * keys, length
    row(f"archive of {keys:,} versions begun", 1e6 * begun, "us")
    row(f"and made, written and synced, {length:,} bytes", 1e6 * made, "us")


def endless_files(program, base, group, groups):
    """A store of the layout that is being built, of so many groups: what its heap takes, and what an opening with a first answer does."""
    folder = os.path.join(base, f"endless-{group}")
    os.mkdir(folder)
    assert run(program, ["format", folder, "--profile", "4"])[0] == 0
    names, value, script = [f"t{n}" for n in range(group)], " ".join(["61" * 16] * 4), ""
    for number in range(groups):
        script += "".join(f"begin {name}\nput {name} 1 {number * group + n} {value}\nsubmit {name} 1 0\n" for n, name in enumerate(names))
        script += "flush\n" + "".join(f"redeem {name}\n" for name in names)
    status, out = run(program, ["run", folder], script)
    count = group * groups
    assert status == 0 and out.count("done ") == count, (status, out[-200:])
    bare = min(timed(lambda: run(program, ["--version"]))[0] for _ in range(5))
    opening = min(timed(lambda: run(program, ["get", folder, "1", "0"]))[0] for _ in range(5))
    row(f"heap a version of 64 bytes, {group} under a gate ({count:,})", os.path.getsize(os.path.join(folder, "heap")) / count, "bytes")
    row("opening that store, with a first answer", 1000 * (opening - bare), "ms")


def main():
    program = os.path.abspath(sys.argv[1])
    with tempfile.TemporaryDirectory(dir=sys.argv[2] if len(sys.argv) > 2 else None) as base:
        for name in ("format", "commits"):
            os.mkdir(os.path.join(base, name))
        format_time(program, os.path.join(base, "format"))
        commit_rate(program, os.path.join(base, "commits"), 300)
        group_rate(program, os.path.join(base, "commits"), 60)
        query_rate(program, os.path.join(base, "commits"), 200_000)
        for keys in (16, 1_024, 100_000):
            begin_and_view_time(program, base, keys, 20_000)
        for keys in (1_024, 100_000):
            conflict_time(program, base, keys, 60, 5)
        for keys in (1_024, 100_000):
            archive_time(program, base, keys)
        for group, groups in ((1, 10_000), (16, 6_250), (64, 1_563)):
            endless_files(program, base, group, groups)


if __name__ == "__main__":
    main()
