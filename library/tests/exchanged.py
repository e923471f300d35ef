"""Images of the library opened by the program, and back: exchanged.py PROGRAM FOLDER."""

import subprocess
import sys
from pathlib import Path

import timestore


def ask(program: str, *words: object, script: str = "") -> str:
    answer = subprocess.run([program, *map(str, words)], input=script, capture_output=True, text=True)
    assert answer.returncode == 0, answer
    return answer.stdout


SCRIPT = "".join(
    f"begin t\nput t 1 7 {number:02x}\nput t 1 {number + 10} - {b'two'.hex()}\nsubmit t 9 {100 * number}\nflush\nredeem t\n"
    for number in (1, 2, 3)
)


def commit_three(store: timestore.Store) -> None:
    """The commits of that script."""
    for number in (1, 2, 3):
        txn = store.begin()
        txn.put(1, 7, bytes([number]))
        txn.put(1, number + 10, b"", b"two")
        txn.commit(9, 100 * number)


def compare(ours: Path, theirs: Path) -> None:
    for name in ("status", "heap", "archive"):
        assert (ours / name).read_bytes() == (theirs / name).read_bytes(), name


def same_bytes(program: str, folder: Path) -> None:
    """The same commits, archive, reclaim, floor and growth by each, from the same empty files, leave the same files."""
    ours, theirs = folder / "ours", folder / "theirs"
    for place in (ours, theirs):
        place.mkdir()
    timestore.make(ours, 64)
    ask(program, "format", theirs, "--slots", 64)
    with timestore.Store(ours) as store:
        commit_three(store)
        store.archive(200)
        store.reclaim()
        store.floor_of(1, 150)
        store.grow()
    said = ask(program, "run", theirs, script=SCRIPT + "archive 200\nfinish\nreclaim\nfinish\nfloorof 1 150\nfinish\ngrow\nfinish\n")
    assert "refused" not in said, said
    compare(ours, theirs)


def same_in_the_heap(program: str, folder: Path) -> None:
    """The same where the log lies in the heap: a new store, commits, two archives and a floor between."""
    ours, theirs = folder / "ours-in-the-heap", folder / "theirs-in-the-heap"
    for place in (ours, theirs):
        place.mkdir()
    timestore.make_endless(ours, 64)
    ask(program, "format", theirs, "--profile", 4, "--extents", 64)
    compare(ours, theirs)
    with timestore.Store(ours) as store:
        commit_three(store)
        store.archive(200)
        store.floor_of(1, 150)
        store.archive(300)
        assert store.at(1, 7, 250) == (b"\2",)
    said = ask(program, "run", theirs, script=SCRIPT + "archive 200\nfinish\nfloorof 1 150\nfinish\narchive 300\nfinish\n")
    assert "refused" not in said, said
    compare(ours, theirs)
    assert ask(program, "between", ours, 1, 7, 150, 301) == "150 200 01\n200 300 02\n300 301 03\nrows 3\n"
    with timestore.Store(theirs) as store:
        assert [store.at(1, 7, time) for time in (160, 250, 300)] == [(b"\1",), (b"\2",), (b"\3",)]


def new_in_the_heap(program: str, folder: Path) -> None:
    """New stores of either, of each size that is not refused; where one stands the other makes none."""
    for number, words in enumerate(((), (64,), (80,), (262_144,), (1_048_576,), (48,), (72,), (1_048_592,))):
        ours, theirs = folder / f"ours-{number}", folder / f"theirs-{number}"
        for place in (ours, theirs):
            place.mkdir()
        size = [word for extents in words for word in ("--extents", str(extents))]
        said = subprocess.run([program, "format", theirs, "--profile", "4", *size], capture_output=True, text=True)
        try:
            timestore.make_endless(ours, *words)
        except timestore.BadSlots as why:
            assert said.stdout == f"refused: {why}\n", said
            continue
        assert said.returncode == 0, said
        compare(ours, theirs)
        again = subprocess.run([program, "format", ours, "--profile", "4"], capture_output=True, text=True)
        assert again.stdout == "refused: occupied\n", again
        try:
            timestore.make_endless(theirs)
        except timestore.Occupied:
            continue
        raise AssertionError(theirs)


def to_and_fro(program: str, folder: Path) -> None:
    place = folder / "ours"
    assert ask(program, "between", place, 1, 7, 150, 301) == "150 200 01\n200 300 02\n300 301 03\nrows 3\n"
    said = ask(program, "run", place, script="begin t\nput t 1 7 ff\nsubmit t 9 400\nflush\nredeem t\n")
    assert said.endswith("done 400\n"), said
    with timestore.Store(place) as store:
        assert store.at(1, 7, 400) == (b"\xff",)
        assert store.at(1, 7, 250) == (b"\2",)
        # The program's archive has this one, and the heap has it no more.
        assert store.at(1, 7, 160) == (b"\1",)
        try:
            raise AssertionError(store.at(1, 7, 149))
        except timestore.BeforeKept as why:
            assert why.floor == 150
        assert store.times_of(9) == [100, 200, 300, 400]
        # While the library has the store, the program is refused.
        busy = subprocess.run([program, "at", place, "1", "7", "400"], capture_output=True, text=True)
        assert busy.returncode != 0 or busy.stdout.startswith("refused: "), busy


def main() -> None:
    program, folder = sys.argv[1], Path(sys.argv[2])
    folder.mkdir()
    same_bytes(program, folder)
    same_in_the_heap(program, folder)
    new_in_the_heap(program, folder)
    to_and_fro(program, folder)


if __name__ == "__main__":
    main()
