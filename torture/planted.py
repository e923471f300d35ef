#!/usr/bin/env python3
"""Plants one fault at a time in a copy of the sources, makes the program of it without proofs (`rt
try`), and looks whether the tests find it.

planted.py [NAME ..] [--keep FOLDER]

Each file planted/NAME.edit names the test that has to fail, a file, a text that stands there once,
and what is put in its place. The status is 1 where a fault is not found. With --keep the programs
stay in the folder, and those that are there are not made again.
"""
from __future__ import annotations

import argparse
import contextlib
import glob
import os
import shutil
import signal
import subprocess
import sys
import tempfile
import time

HERE = os.path.dirname(os.path.abspath(__file__))
ROOT = os.path.dirname(HERE)
PLANTED = os.path.join(HERE, "planted")
# of a program, in bytes; what is smaller is not written yet
LEAST = 1 << 20
PATIENCE = 1200


def words_of(name: str) -> dict[str, str]:
    """The lines of an edit, by their first words."""
    with open(os.path.join(PLANTED, f"{name}.edit"), encoding="utf-8") as it:
        return dict(line.rstrip("\n").split(": ", 1) for line in it)


def copy_sources(folder: str) -> None:
    listed = subprocess.run(
        ["git", "ls-files", "-z", "crates", "crates.txt", "HANDLES"], cwd=ROOT,
        stdout=subprocess.PIPE, check=True,
    )
    for name in filter(None, listed.stdout.decode().split("\0")):
        target = os.path.join(folder, name)
        os.makedirs(os.path.dirname(target), exist_ok=True)
        shutil.copy(os.path.join(ROOT, name), target)


def plant(folder: str, edit: dict[str, str]) -> None:
    path = os.path.join(folder, edit["file"])
    with open(path, encoding="utf-8") as it:
        text = it.read()
    if text.count(edit["old"]) != 1:
        raise SystemExit(
            f"{edit['file']}: {edit['old']!r} stands there {text.count(edit['old'])} times"
        )
    with open(path, "w", encoding="utf-8") as it:
        it.write(text.replace(edit["old"], edit["new"]))


def does_run(program: str) -> bool:
    return subprocess.run(
        [program, "--help"], stdout=subprocess.DEVNULL, stderr=subprocess.DEVNULL, check=False
    ).returncode == 0


def make_program(folder: str, program: str) -> bool:
    """The program of these sources: `rt try` makes it in a folder of its own and keeps nothing, so
    it is taken from there."""
    made = os.path.join(folder, "made")
    os.makedirs(made)
    with open(os.path.join(folder, "log"), "wb") as log:
        # a run that takes long enough to take the program meanwhile
        words = ["rt", "try", "--steps", "1", "--seconds", "60", "--", "stress", "8", "0", "1000"]
        process = subprocess.Popen(
            words, cwd=os.path.join(folder, "crates", "timestore"), stdin=subprocess.DEVNULL,
            stdout=log, stderr=log, env={**os.environ, "TMPDIR": made}, start_new_session=True,
        )
        taken, until = False, time.monotonic() + PATIENCE
        while not taken and time.monotonic() < until:
            ended = process.poll() is not None
            taken = any(
                take(found, program) for found in glob.glob(f"{made}/**/program", recursive=True)
            )
            if ended:
                break
            time.sleep(0.05)
        end(process)
    return taken


def end(process: subprocess.Popen) -> None:
    """Ends a run of `rt`, and all that it has begun: asked to, it ends what runs in groups of its
    own."""
    for number in (signal.SIGTERM, signal.SIGKILL):
        if process.poll() is None:
            os.killpg(process.pid, number)
        with contextlib.suppress(subprocess.TimeoutExpired):
            process.wait(20)
            return


def take(found: str, program: str) -> bool:
    """Copies a program, if it is whole."""
    try:
        if os.path.getsize(found) < LEAST:
            return False
        shutil.copy(found, program)
    except OSError:
        return False
    os.chmod(program, 0o755)
    return does_run(program)


def finds(name: str, program: str) -> bool:
    """Whether the test fails on the program, by an answer that it names."""
    words = words_of(name)["tries"].split(" ")
    began = time.time()
    done = subprocess.run(
        [os.path.join(HERE, words[0]), program, *words[1:]], stdout=subprocess.PIPE,
        stderr=subprocess.STDOUT, text=True, check=False,
    )
    named = next((line for line in done.stdout.splitlines() if line.startswith("FAILED: ")), "")
    is_found = done.returncode == 1 and bool(named)
    outcome = "found" if is_found else f"NOT FOUND, status {done.returncode}"
    print(
        f"{name}: {' '.join(words)}: {outcome} in {time.time() - began:.0f} s: {named[8:400]}",
        flush=True,
    )
    return is_found


def one(name: str, programs: str) -> bool:
    program = os.path.join(programs, name)
    with tempfile.TemporaryDirectory(prefix="planted-", dir="/tmp") as folder:
        if not os.path.exists(program):
            copy_sources(folder)
            plant(folder, words_of(name))
            if not make_program(folder, program):
                with open(os.path.join(folder, "log"), encoding="utf-8", errors="replace") as it:
                    print(f"{name}: no program: {it.read()[-600:]}", flush=True)
                return False
    return finds(name, program)


def main() -> int:
    words = argparse.ArgumentParser(
        description=__doc__, formatter_class=argparse.RawDescriptionHelpFormatter
    )
    words.add_argument("names", nargs="*", metavar="NAME")
    words.add_argument("--keep", metavar="FOLDER", help="where the programs stay")
    given = words.parse_args()
    names = given.names or sorted(it.removesuffix(".edit") for it in os.listdir(PLANTED))
    with tempfile.TemporaryDirectory(prefix="planted-programs-", dir="/tmp") as own:
        programs = given.keep or own
        os.makedirs(programs, exist_ok=True)
        missed = [name for name in names if not one(name, programs)]
    print(
        f"{len(names) - len(missed)} of {len(names)} faults found"
        + (f"; not found: {', '.join(missed)}" if missed else "")
    )
    return 1 if missed else 0


if __name__ == "__main__":
    sys.exit(main())
