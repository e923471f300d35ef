"""The command line: python3 -m register COMMAND REGISTER .."""

import argparse
import os
import signal
import sys
from collections.abc import Callable, Generator
from contextlib import closing
from io import TextIOWrapper
from typing import NoReturn

import timestore

from . import serve
from .commands import COMMANDS, new, read_file, reason
from .office import Office
from .schema import COMPANY_MOST, LABEL_BITS, SEAT_MOST, Refusal

ABOUT = "A register of companies that keeps what stood, since when, and who entered it."
SLOTS = 8_192


def _number_to(most: int) -> Callable[[str], int]:
    """The parser of a number from 1 to another one."""

    def parse(text: str) -> int:
        if not (text.isascii() and text.isdigit() and 1 <= int(text) <= most):
            raise argparse.ArgumentTypeError(f"{text!r} is not from 1 to {most}")
        return int(text)

    return parse


CASE = _number_to((1 << LABEL_BITS["case"]) - 1)
COMPANY = _number_to(COMPANY_MOST)
SEAT = _number_to(SEAT_MOST)


class _Commands:
    """The parsers of the commands, which share some arguments."""

    def __init__(self, parser: argparse.ArgumentParser) -> None:
        self._parsers = parser.add_subparsers(dest="command", required=True, metavar="COMMAND")

    def command(self, name: str, about: str) -> argparse.ArgumentParser:
        """A command on a register."""
        parser = self._parsers.add_parser(name, help=about, description=about)
        parser.add_argument("register", metavar="REGISTER", help="the folder of the register")
        return parser

    def entry(self, name: str, about: str) -> argparse.ArgumentParser:
        """A command that makes an entry."""
        parser = self.command(name, about)
        clerk = os.environ.get("REGISTER_CLERK")
        parser.add_argument("--clerk", metavar="LOGIN", default=clerk, required=not clerk, help="who makes the entry; else $REGISTER_CLERK")
        parser.add_argument("--case", metavar="N", type=CASE, required=True, help="the number of the case")
        parser.add_argument("--remark", metavar="TEXT", help="why")
        return parser

    def question(self, name: str, about: str) -> argparse.ArgumentParser:
        """A command that asks what stood at a moment."""
        parser = self.command(name, about)
        parser.add_argument("--at", metavar="TIME", help="a day (its end, in UTC) or an instant such as 2026-05-03T14:30:00Z; else now")
        return parser


def _entries(commands: _Commands) -> None:
    parser = commands.entry("new", "make a register with its first clerk")
    parser.add_argument("--name", required=True, help="the first clerk's name")
    parser.add_argument("--slots", metavar="N", type=int, default=SLOTS, help=f"room for so many entries, {SLOTS} if not given")
    parser = commands.entry("clerk", "add a clerk")
    parser.add_argument("login", metavar="LOGIN")
    parser.add_argument("name", metavar="NAME")
    parser = commands.entry("import", "enter the companies of a CSV file; one that was stopped goes on")
    parser.add_argument("file", metavar="FILE")
    parser = commands.entry("add", "enter a new company")
    parser.add_argument("fields", metavar="FIELD=VALUE", nargs="+")
    parser = commands.entry("change", "change fields of a company")
    _number(parser)
    parser.add_argument("fields", metavar="FIELD=VALUE", nargs="+")
    parser = commands.entry("correct", "correct what a case entered: the error stays in the history")
    _number(parser)
    parser.add_argument("fields", metavar="FIELD=VALUE", nargs="+")
    parser.add_argument("--corrects", metavar="N", type=CASE, required=True, help="the case that had the error")
    parser = commands.entry("appoint", "appoint an officer of a company")
    _number(parser)
    parser.add_argument("name", metavar="NAME")
    parser.add_argument("role", metavar="ROLE")
    parser = commands.entry("dismiss", "end the office of who has a seat")
    _number(parser)
    parser.add_argument("seat", metavar="SEAT", type=SEAT)


def _questions(commands: _Commands) -> None:
    commands.question("list", "list the companies")
    _number(commands.question("show", "show a company"))
    _number(commands.command("history", "show every change of a company, and who made it"))
    parser = commands.command("journal", "list the entries")
    parser.add_argument("--by", metavar="LOGIN", help="those of a clerk")
    parser.add_argument("--of", metavar="N", type=CASE, help="those of a case")
    parser = commands.command("extract", "write the whole history of a company for a court")
    _number(parser)
    parser.add_argument("--csv", action="store_true", help="as CSV, a row for each field that changed")
    commands.question("export", "write all companies as CSV, as import reads it")
    commands.command("serve", "have the register open for the commands of others, until it is interrupted")


def _number(parser: argparse.ArgumentParser) -> None:
    parser.add_argument("number", metavar="NUMBER", type=COMPANY, help="the number of the company")


def parser() -> argparse.ArgumentParser:
    """The parser of the command line."""
    whole = argparse.ArgumentParser(prog="register", description=ABOUT)
    commands = _Commands(whole)
    _entries(commands)
    _questions(commands)
    return whole


def _lines(args: argparse.Namespace) -> Generator[str, None, None]:
    """What a command tells, of who serves the register or of the register itself."""
    if args.command == "new":
        yield from new(args)
        return
    read_file(args)
    if args.command == "serve":
        yield from serve.serve(args.register)
        return
    served = serve.ask(args)
    if served is not None:
        yield from served
        return
    with Office(args.register) as office:
        yield from COMMANDS[args.command](office, args)


def main(words: list[str] | None = None) -> int:
    """The exit status of a command line, else of the process's own: 0, or 1 where it was refused. `SystemExit` with 2
    where it is no command."""
    args = parser().parse_args(words)
    signal.signal(signal.SIGTERM, _interrupt)
    assert isinstance(sys.stdout, TextIOWrapper)  # nothing stands in for it
    sys.stdout.reconfigure(encoding="utf-8", newline="\n")
    try:
        with closing(_lines(args)) as lines:
            for line in lines:
                print(line, flush=True)
    except BrokenPipeError:  # who reads has gone
        os.dup2(os.open(os.devnull, os.O_WRONLY), sys.stdout.fileno())
    except KeyboardInterrupt:
        return 130
    except (Refusal, timestore.Refused, OSError) as why:
        print(f"register: {reason(why, args.register)}", file=sys.stderr)
        return 1
    return 0


def _interrupt(*_: object) -> NoReturn:
    raise KeyboardInterrupt


if __name__ == "__main__":
    sys.exit(main())
