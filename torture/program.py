"""The program on real files: the areas of a store, scripts and their answers; a case that failed,
as a script that can be run."""
from __future__ import annotations

import argparse
import base64
import contextlib
import functools
import gzip
import math
import os
import signal
import subprocess
import tempfile
import time
from collections.abc import Callable, Iterable, Iterator, Sequence
from dataclasses import dataclass
from types import FrameType
from typing import Any, TypeVar

from machine import ENDLESS, NEWEST

# the words of refuse.c that a script of its own needs
REFUSES = ("REFUSE_CLASS", "REFUSE_AT", "REFUSE_HOW")
AREAS = ("status", "heap", "archive")
Areas = dict[str, bytes]
Item = TypeVar("Item")
# a status and the lines that are said
Answer = tuple[int, list[str]]
# an answer or a run of the program that takes longer is a failure, in seconds; counted one by one,
# so that none passes while the machine or the tests are stopped
PATIENCE = 60
MEMORY = "/dev/shm"
# of a test, behind which it ends
FAILURES_MOST = 20
# the status of a test that could not try all of what it is for
NOT_TRIED = 3


def words_of(test: str | None) -> argparse.ArgumentParser:
    """The words of a test, by what it says of itself; the first one is the program."""
    words = argparse.ArgumentParser(
        description=test, formatter_class=argparse.RawDescriptionHelpFormatter
    )
    words.add_argument("program")
    return words


def status_at_end(bad: int, left_out: Iterable[str]) -> int:
    """The status of a test by how many cases failed; what was left out, and why, is its last line."""
    left_out = [*left_out]
    if left_out:
        print(f"not tried: {'; '.join(left_out)}")
    return 1 if bad else NOT_TRIED if left_out else 0


def use_memory() -> None:
    """Lets the stores of the tests lie in memory, if there is a file system for that: a sync then
    costs nothing."""
    if "TMPDIR" in os.environ or not os.access(MEMORY, os.W_OK):
        return
    if not os.statvfs(MEMORY).f_flag & os.ST_NOEXEC:
        tempfile.tempdir = MEMORY


class Until:
    """When to end: after some seconds, or never."""

    def __init__(self, seconds: float | None) -> None:
        self.began, self.end = time.monotonic(), time.monotonic() + (seconds if seconds else 1e9)

    def is_over(self) -> bool:
        return time.monotonic() > self.end

    def seconds(self) -> float:
        """Since it began."""
        return time.monotonic() - self.began

    def rate(self, count: int, what: str) -> str:
        """How many there were since it began, as text."""
        return f"{count} {what} in {self.seconds():.0f} s, {count / self.seconds():.0f} a second"


def spread(items: Sequence[Item]) -> list[Item]:
    """The items in an order of which each front is spread over all of them: by steps of the golden
    section."""
    count = len(items)
    step = next(it for it in range(int(0.618 * count) or 1, count + 2) if math.gcd(it, count) == 1)
    return [items[at * step % count] for at in range(count)]


@dataclass
class Shown:
    """Files, and the lines that a run on them was given, with what they should have been
    answered."""

    areas: Areas
    lines: list[str]
    wanted: list[str]
    # where a call of the system is refused: the words of refuse.c
    environment: dict[str, str]
    words: str = "run DIR"

    def script(self, title: str) -> str:
        """A script of its own: `sh SCRIPT PROGRAM` shows where the program's answers differ."""
        refuses = {
            name: value
            for name, value in self.environment.items()
            if name in REFUSES and self.environment.get("REFUSE_CLASS")
        }
        rows = [
            "#!/bin/sh", f"# {title}",
            "# usage: sh THIS PROGRAM" + (
                " REFUSE.SO (cc -shared -fPIC -o REFUSE.SO torture/refuse.c)" if refuses else ""
            ),
            'dir=$(mktemp -d) && mkdir "$dir/store" || exit 2',
        ]
        for area, data in self.areas.items():
            text = base64.b64encode(gzip.compress(data, mtime=0)).decode()
            rows.append(f"echo {text} | base64 -d | gzip -d > \"$dir/store/{area}\"")
        for name, lines in (("script", self.lines), ("wanted", self.wanted)):
            rows += [f"cat > \"$dir/{name}\" <<'END'", *lines, "END"]
        # fed line by line, as the test did: so it asks for memory at the same places
        prefix = "".join(f"{name}={value} " for name, value in refuses.items())
        prefix = f'env {prefix}LD_PRELOAD="$2" ' if prefix else ""
        words = self.words.replace("DIR", '"$dir/store"')
        rows.append(
            'while IFS= read -r line; do printf "%s\\n" "$line"; sleep 0.01; done < "$dir/script"'
            f' | {prefix}"$1" {words} | diff - "$dir/wanted"'
        )
        return "\n".join(rows) + "\n"


class Failure(Exception):
    """What the program may not do, with what shows it, if a script alone does."""

    def __init__(self, why: str, shown: Shown | None = None) -> None:
        super().__init__(why)
        self.shown = shown


def report(title: str, why: Failure) -> None:
    """Prints a failure, and leaves the script that shows it."""
    print(f"FAILED: {title}: {str(why)[:600]}", flush=True)
    if why.shown:
        fd, place = tempfile.mkstemp(prefix="torture-", suffix=".sh", dir="/tmp")
        with os.fdopen(fd, "w", encoding="utf-8") as it:
            it.write(why.shown.script(f"{title}: {str(why)[:200]}".replace("\n", " ")))
        print(
            f"  to see it: sh {place} PROGRAM" + (
                " REFUSE.SO" if why.shown.environment.get("REFUSE_CLASS") else ""
            ),
            flush=True,
        )


@contextlib.contextmanager
def patience(failure: Callable[[str], Failure]) -> Iterator[None]:
    """What hangs is a failure, and does not hold up the tests."""
    left = PATIENCE

    def second(number: int, frame: FrameType | None) -> None:
        nonlocal left
        left -= 1
        if not left:
            raise failure(f"nothing in {PATIENCE} seconds")

    before = signal.signal(signal.SIGALRM, second)
    signal.setitimer(signal.ITIMER_REAL, 1, 1)
    try:
        yield
    finally:
        signal.setitimer(signal.ITIMER_REAL, 0)
        signal.signal(signal.SIGALRM, before)


def read_areas(folder: str) -> Areas:
    found = {}
    for area in AREAS:
        with open(os.path.join(folder, area), "rb") as it:
            found[area] = it.read()
    return found


def write_areas(folder: str, areas: Areas) -> None:
    os.makedirs(folder, exist_ok=True)
    for area, data in areas.items():
        with open(os.path.join(folder, area), "wb") as it:
            it.write(data)


def ended(
    words: Sequence[str], lines: Iterable[str] = (), **how: Any
) -> subprocess.CompletedProcess[str]:
    """A run of the program to its end, given these lines."""
    with patience(lambda why: Failure(f"{words}: {why}")):
        return subprocess.run(
            words, input="".join(f"{it}\n" for it in lines), stdout=subprocess.PIPE,
            stderr=subprocess.PIPE, text=True, check=False, **how,
        )


def run(program: str, folder: str, lines: Iterable[str]) -> Answer:
    """The status and the answers of a script."""
    done = ended([program, "run", folder], lines)
    return done.returncode, done.stdout.splitlines()


def command(program: str, *words: str) -> Answer:
    """The status and the lines of a command."""
    done = ended([program, *words])
    return done.returncode, done.stdout.splitlines()


def status_of(said: list[str]) -> int:
    """The status of a command that says this."""
    return int(any(it.startswith("refused") for it in said))


def differing(found: Answer, wanted: Answer) -> str:
    """The first line that is another one."""
    both = zip([*found[1], "nothing"], [*wanted[1], "nothing"])
    said, due = next(((a, b) for a, b in both if a != b), ("as it should", "that"))
    return f"answers {said} with status {found[0]}, and not {due} with status {wanted[0]}"


def format_endless(program: str, folder: str, extents: int) -> None:
    """A new store of profile 4."""
    words = ("--profile", str(ENDLESS), "--extents", str(extents))
    said = command(program, "format", folder, *words)
    if said != (0, [f"formatted {extents}"]):
        raise Failure(f"format {' '.join(words)} answers {said}")


def format_store(program: str, folder: str, slots: int, profile: int = NEWEST) -> None:
    """A new store with slots: the program makes one of the newest profile, and one of an earlier
    profile differs in one byte of its header."""
    said = command(program, "format", folder, "--slots", str(slots))
    if said != (0, [f"formatted {slots}"]):
        raise Failure(f"format answers {said}")
    with open(os.path.join(folder, "status"), "r+b") as status:
        status.seek(8)
        if status.read(4) != NEWEST.to_bytes(4, "little"):
            raise Failure("format does not make the newest profile")
        status.seek(8)
        status.write(bytes([profile]))


@functools.cache
def seconds_to_begin(program: str) -> float:
    """What the program takes for a script without lines."""
    with tempfile.TemporaryDirectory(prefix="torture-") as folder:
        format_store(program, folder, 16)
        began = time.monotonic()
        run(program, folder, [])
        return time.monotonic() - began


def has_rows(line: str) -> bool:
    """Whether the answer of a line may have many lines."""
    return line.startswith(("between", "scan"))


def is_whole(line: str, said: list[str]) -> bool:
    """Whether these lines are the whole answer of a line."""
    return bool(said) and (not has_rows(line) or said[-1].startswith(("rows ", "refused: ")))


class Session:
    """The program with a script that is fed line by line, on the store of a folder or, where that
    is empty, on a new store in memory."""

    def __init__(
        self, program: str, folder: str, environment: dict[str, str] | None = None,
        before: Callable[[], object] | None = None,
    ) -> None:
        self.folder, self.environment = folder, environment or {}
        self.start = read_areas(folder) if folder else {}
        self.lines: list[str] = []
        self.said: list[str] = []
        self.process = subprocess.Popen(
            [program, *(["run", folder] if folder else [])], stdin=subprocess.PIPE,
            stdout=subprocess.PIPE, stderr=subprocess.DEVNULL, text=True, env=environment,
            preexec_fn=before, restore_signals=before is None,
        )

    def ask(self, line: str) -> list[str] | None:
        """The lines of the answer; None where the program has ended instead."""
        self.lines.append(line)
        try:
            self.process.stdin.write(line + "\n")
            self.process.stdin.flush()
        except BrokenPipeError:
            pass
        said: list[str] = []
        with patience(lambda why: self.failure(f"{line}: {why}", None, ["an answer"])):
            while not is_whole(line, said):
                one = self.process.stdout.readline()
                if not one:
                    break
                said.append(one.rstrip("\n"))
        self.said += said
        return said or None

    def failure(self, why: str, said: list[str] | None, wanted: list[str] | None) -> Failure:
        before = self.said[: len(self.said) - len(said or [])]
        words = "run DIR" if self.folder else ""
        return Failure(
            why, Shown(self.start, self.lines, before + (wanted or []), self.environment, words)
        )

    def expect(self, line: str, wanted: list[str], where: str = "") -> None:
        """Feeds a line whose answer is known."""
        said = self.ask(line)
        if said != wanted:
            raise self.failure(f"{where}{line}: answered {said}, and not {wanted}", said, wanted)

    def step(self, line: str, follow: Callable[[str], str | None]) -> str:
        """Feeds a step of a group or of a job, and returns the answer."""
        said = self.ask(line)
        why = follow(said[0]) if said else "no answer"
        if why:
            raise self.failure(f"{line}: {why}", said, [f"another step: {why}"])
        return said[0]

    def end(self) -> tuple[int, str]:
        """Ends the script: the status, and what is still said."""
        try:
            self.process.stdin.close()
        except BrokenPipeError:
            pass
        with patience(lambda why: self.failure(f"at the end: {why}", None, [])):
            said = self.process.stdout.read()
            return self.process.wait(), said

    def end_well(self) -> None:
        status, said = self.end()
        if status or said:
            raise self.failure(
                f"the script ends with status {status}, and says {said!r}", None, []
            )

    def kill(self) -> None:
        if self.process.poll() is None:
            self.process.send_signal(signal.SIGKILL)
        self.process.wait()
        for it in (self.process.stdin, self.process.stdout):
            try:
                it.close()
            except BrokenPipeError:
                pass
