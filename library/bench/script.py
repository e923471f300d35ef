"""The same by the program's script, for comparison: script.py PROGRAM FOLDER COMMITS QUERIES, a new folder."""

import subprocess
import sys
import time
from collections.abc import Iterator
from pathlib import Path


def run(program: str, folder: Path, lines: Iterator[str]) -> float:
    """How long the program takes for these lines, its start and its opening among it."""
    script = "".join(lines)
    start = time.monotonic()
    done = subprocess.run([program, "run", str(folder)], input=script, stdout=subprocess.PIPE, text=True, check=True)
    took = time.monotonic() - start
    assert "refused" not in done.stdout
    return took


def commit(number: int) -> str:
    return f"begin t\nput t 1 {number} 6162636465666768\nsubmit t {number} 0\nflush\nredeem t\n"


def group(number: int) -> str:
    begun = "".join(f"begin t{n}\nput t{n} 1 {16 * number + n} 6162\nsubmit t{n} {number} 0\n" for n in range(16))
    return begun + "flush\n" + "".join(f"redeem t{n}\n" for n in range(16))


def main(program: str, folder: Path, commits: int, queries: int) -> None:
    folder.mkdir()
    subprocess.run([program, "format", str(folder), "--slots", "65536"], check=True, stdout=subprocess.DEVNULL)
    took = run(program, folder, (commit(number) for number in range(commits)))
    print(f"{'script: commits a second, one at a time':58} {commits / took:12.0f} /s", flush=True)
    groups = commits // 4
    took = run(program, folder, (group(number) for number in range(groups)))
    print(f"{'script: commits a second, 16 under one gate':58} {16 * groups / took:12.0f} /s", flush=True)
    # each commit came a microsecond after the one before
    last = commits + 16 * groups
    took = run(program, folder, (f"at 1 {number % 200} {last}\n" for number in range(queries)))
    print(f"{'script: point queries a second':58} {queries / took:12.0f} /s", flush=True)


if __name__ == "__main__":
    main(sys.argv[1], Path(sys.argv[2]), int(sys.argv[3]), int(sys.argv[4]))
