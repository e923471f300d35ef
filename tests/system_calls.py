#!/usr/bin/env python3
"""The calls that the program makes of the system, as `strace` sees them: which file each write goes
to, that each is synced, and that answers are written a piece at a time and not a byte. It fails where
there is no `strace`.

    tests/system_calls.py PROGRAM
"""
import os
import re
import shutil
import subprocess
import sys
import tempfile

from trial import run

CALL = re.compile(r"^(?:\d+ +)?(\w+)\((?:AT_FDCWD[^,]*, )?(?:\"([^\"]*)\"|\d+<([^>]*)>)(.*)$")
TRACED = "openat,open,creat,pwrite64,pwritev,ftruncate,fallocate,fsync,fdatasync,write,read,flock"


def traced(program, words, script, log):
    """The calls of a run, each with the name of its file and the rest of its line."""
    command = ["strace", "-f", "-y", "-s", "8", "-e", f"trace={TRACED}", "-o", log, program, *words]
    done = subprocess.run(command, input=script.encode(), stdout=subprocess.PIPE, stderr=subprocess.PIPE)
    calls = []
    for line in open(log, encoding="utf-8", errors="replace"):
        found = CALL.match(line)
        if found:
            calls.append((found[1], found[2] or found[3] or "", found[4]))
    return done.returncode, done.stdout.decode(), calls


def on_files(calls, folder):
    """The writes and syncs of the store's files."""
    return [f"{call} {os.path.basename(path)}" for call, path, _ in calls
            if call in ("pwrite64", "pwritev", "fsync", "fdatasync", "ftruncate", "fallocate")
            and (os.path.dirname(path) == folder or path == folder)]


SLOT = ["pwrite64 status", "fdatasync status", "pwrite64 status", "fdatasync status"]
OPENING = [f"fdatasync {name}" for name in ("status", "heap", "archive")]


def commits_and_archives(program, folder, log):
    status, said, calls = traced(program, ["format", folder, "--slots", "16"], "", log)
    assert (status, said) == (0, "formatted 16\n")
    made = on_files(calls, folder)
    names = [f"fsync {name}" for name in ("status", "heap", "archive")] + [f"fsync {os.path.basename(folder)}"]
    assert made[:4] == names, made
    assert made[4] == "pwrite64 status" and made[-1] == "fdatasync status", made
    assert all(call.endswith(" status") for call in made[4:]), made

    script = "begin t\nput t 1 7 61\nsubmit t 9 100\nflush\nredeem t\nbegin t\nput t 1 7 62\nsubmit t 9 200\nflush\narchive 200\nfinish\n"
    status, said, calls = traced(program, ["run", folder], script, log)
    assert status == 0 and said.endswith("started\nidle\n"), (status, said)
    made = on_files(calls, folder)
    assert sorted(made[:3]) == sorted(OPENING), made
    commit = ["pwrite64 heap", "fdatasync heap", *SLOT]
    assert made[3:] == [*commit, *commit, "pwrite64 archive", "fdatasync archive", *SLOT], made
    # Each file holds what is its own: a header, an extent's number, a run's relation.
    first = {name: open(os.path.join(folder, name), "rb").read(8) for name in ("status", "heap", "archive")}
    assert first == {"status": b"NOOVER01", "heap": b"\1\0\0\0\0\0\0\0", "archive": b"\1\0\7\0\0\0\0\0"}, first


def opening_makes_nothing(program, base, log):
    empty = os.path.join(base, "empty")
    os.mkdir(empty)
    for words in (["run", empty], ["at", empty, "1", "7", "1"], ["dump", empty]):
        status, said, calls = traced(program, words, "", log)
        assert (status, said) == (1, "refused: not a store\n"), (words, said)
        assert not [call for call in calls if "O_CREAT" in call[2]], calls
        assert on_files(calls, empty) == [], calls


def reading_writes_nothing(program, folder, log):
    status, said, calls = traced(program, ["dump", folder], "", log)
    assert status == 0 and said.startswith("header 16 pieces 0\nslot 0 commit\nmember 9 100 1 1 1 1970-01-01T00:00:00Z\n"), said
    assert on_files(calls, folder) == [], calls
    assert not [call for call in calls if "O_RDWR" in call[2] or "O_WRONLY" in call[2]], calls


def answers_are_gathered(program, base, log):
    """20 scans of 1,000 rows with values of 64 bytes: a write for some 64 KiB, and a read likewise."""
    folder = os.path.join(base, "rows")
    os.mkdir(folder)
    assert run(program, ["format", folder, "--slots", "16"])[0] == 0
    value = " ".join(["ab" * 16] * 4)
    script = "begin t\n" + "".join(f"put t 1 {n} {value}\n" for n in range(1_000)) + "submit t 1 1\nflush\n" + "scan 1 1\n" * 20
    status, said, calls = traced(program, ["run", folder], script, log)
    assert status == 0 and said.count("rows 1000\n") == 20, (status, said[-100:])
    writes = sum(1 for call, path, _ in calls if call == "write" and os.path.dirname(path) != folder)
    reads = sum(1 for call, path, _ in calls if call == "read" and os.path.dirname(path) != folder)
    assert writes <= 2 * len(said) // 65_536 + 8, (writes, len(said))
    assert reads <= 200, reads
    print(f"20 scans of 1,000 rows, {len(said):,} bytes: {writes} writes, {reads} reads")


def main():
    program = os.path.abspath(sys.argv[1])
    if not shutil.which("strace"):
        sys.exit("the system calls are not tested: there is no strace")
    with tempfile.TemporaryDirectory() as base:
        folder, log = os.path.join(base, "store"), os.path.join(base, "log")
        os.mkdir(folder)
        commits_and_archives(program, folder, log)
        opening_makes_nothing(program, base, log)
        reading_writes_nothing(program, folder, log)
        answers_are_gathered(program, base, log)
    print("system calls: ok")


if __name__ == "__main__":
    main()
