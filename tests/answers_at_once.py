#!/usr/bin/env python3
"""The program answers each line at once, though it gathers what it writes: over pipes that are held
open, and in a terminal.

    tests/answers_at_once.py PROGRAM
"""
import os
import pty
import sys
import tempfile
import termios
import tty

from trial import Fed, run

DIALOGUE = [
    ("begin t", "snapshot 0"),
    ("put t 1 7 61 - 6263", "ok"),
    ("get t 1 7", "value 61 - 6263"),
    ("submit t 9 100", "queued"),
    ("redeem t", "waiting"),
    ("pump", "wrote extent"),
    ("flush", "idle"),
    ("redeem t", "done 100"),
    ("at 1 7 100", "value 61 - 6263"),
    ("between 1 7 0 101", "100 101 61 - 6263", "rows 1"),
    ("scan 1 100", "7 61 - 6263", "rows 1"),
    ("at 1 7 101", "refused: not yet 100"),
    ("reopen", "last 100 floors 0"),
]


def over_pipes(program, folder):
    fed = Fed(program, ["run", folder])
    for line, *answers in DIALOGUE:
        fed.asks(line, *answers)
    # Half a line is no line yet, and does not hold the answers before it back.
    fed.feed("at 1 7 100\nat 1 ")
    assert fed.line() == "value 61 - 6263"
    assert fed.waits(0.2)
    fed.feed("7 99\n")
    assert fed.line() == "none"
    # Several lines at once are answered in their order; the last needs no line feed.
    fed.feed("at 1 7 100\n" * 1_000 + "at 1 7 99")
    assert [fed.line() for _ in range(1_000)] == ["value 61 - 6263"] * 1_000
    assert fed.waits(0.2)
    fed.process.stdin.close()
    assert fed.line() == "none"
    assert fed.process.wait() == 0


def bad_line_over_pipes(program, folder):
    """The answers before a line of no form are given out though the input is held open."""
    fed = Fed(program, ["run", folder])
    fed.feed("at 1 7 100\nforget\n")
    assert [fed.line(), fed.line()] == ["value 61 - 6263", "line 2: bad"]
    assert fed.process.wait() == 1


def in_a_terminal(program, folder):
    ours, theirs = pty.openpty()
    tty.setraw(theirs, termios.TCSANOW)
    fed = Fed(program, ["run", folder], stdin=theirs, stdout=theirs)
    fed.into = fed.out = ours
    os.close(theirs)
    for line, *answers in [("begin t", "snapshot 100"), ("get t 1 7", "value 61 - 6263"), ("abort t", "ok"), *DIALOGUE[8:]]:
        fed.asks(line, *answers)
    fed.kill()


def refused_output(program, folder):
    """An output that cannot be written is status 1, whenever it shows."""
    full = os.open("/dev/full", os.O_WRONLY)
    for words, script in [(["run", folder], "at 1 7 100\n"), (["run", folder], "scan 1 100\n" * 100_000),
                          (["at", folder, "1", "7", "100"], ""), (["dump", folder], "")]:
        fed = Fed(program, words, stdout=full)
        try:
            fed.process.stdin.write(script.encode())
            fed.process.stdin.close()
        except BrokenPipeError:
            pass
        assert fed.process.wait() == 1, words
    os.close(full)


def main():
    program = os.path.abspath(sys.argv[1])
    with tempfile.TemporaryDirectory() as folder:
        assert run(program, ["format", folder, "--slots", "16"]) == (0, "formatted 16\n", "")
        over_pipes(program, folder)
        bad_line_over_pipes(program, folder)
        in_a_terminal(program, folder)
        refused_output(program, folder)
    print("answers at once: ok")


if __name__ == "__main__":
    main()
