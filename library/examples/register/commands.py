"""The commands. Each is a function of an `Office` and its arguments that gives lines to be told, as they come."""

import argparse
import os
from collections.abc import Callable, Iterator

import timestore

from . import entries, output, past, times
from .office import Author, Entry, Office, make
from .schema import Case, Clerk, Officer, Refusal, read_field

Args = argparse.Namespace


def _author(office: Office, args: Args, kind: str, corrects: int = 0) -> Author:
    remark = read_field(Case, "remark", args.remark or "")
    return Author(entries.clerk_number(office, args.clerk), args.case, kind, corrects, remark)


def _entered(entry: Entry) -> str:
    return f"entered {times.spelled(entry.time)}"


def _settled(office: Office, args: Args) -> past.Moment:
    return office.question(past.settled, times.moment_of(args.at) if args.at else None)


def _standing(office: Office, number: int, time: int) -> past.Standing:
    standing = office.question(past.company, number, time)
    if standing is None:
        raise Refusal(f"no company {number} stood at {times.spelled(time)}")
    return standing


def new(args: Args) -> Iterator[str]:
    """Makes a register. It is no function of an office, since there is none yet."""
    clerk = Clerk(read_field(Clerk, "login", args.clerk), read_field(Clerk, "name", args.name))
    entry = make(args.register, args.slots, args.case, clerk)
    yield f"made {args.register}, with the clerk {args.clerk}, {_entered(entry)}"


def clerk(office: Office, args: Args) -> Iterator[str]:
    """Adds a clerk."""
    yield _entered(entries.add_clerk(office, _author(office, args, "new clerk"), args.login, args.name))


def import_file(office: Office, args: Args) -> Iterator[str]:
    """Imports a CSV file, part by part."""
    number = entries.clerk_number(office, args.clerk)
    count = 0
    for part in entries.import_parts(office, number, args.case, args.file_name, args.text):
        lines = f"lines {part.lines[0].line} to {part.lines[-1].line}"
        count += len(part.lines)
        yield f"{lines}: {_entered(part.entry) if part.entry else 'entered before'}"
    yield f"{count} companies"


def add(office: Office, args: Args) -> Iterator[str]:
    """Adds a company."""
    number, entry = entries.add_company(office, _author(office, args, "new company"), args.fields)
    yield f"company {number} {_entered(entry)}"


def change(office: Office, args: Args) -> Iterator[str]:
    """Changes a company."""
    yield _entered(entries.change_company(office, _author(office, args, "change"), args.number, args.fields))


def correct(office: Office, args: Args) -> Iterator[str]:
    """Corrects what another case entered."""
    if not args.remark:
        raise Refusal("a correction needs a --remark that says what was wrong")
    author = _author(office, args, "correction", args.corrects)
    yield _entered(entries.change_company(office, author, args.number, args.fields))


def appoint(office: Office, args: Args) -> Iterator[str]:
    """Appoints an officer."""
    officer = Officer(read_field(Officer, "name", args.name), read_field(Officer, "role", args.role))
    seat, entry = entries.appoint(office, _author(office, args, "appointment"), args.number, officer)
    yield f"seat {seat} {_entered(entry)}"


def dismiss(office: Office, args: Args) -> Iterator[str]:
    """Ends the office of an officer."""
    yield _entered(entries.dismiss(office, _author(office, args, "dismissal"), args.number, args.seat))


def list_companies(office: Office, args: Args) -> Iterator[str]:
    """All companies at a moment."""
    moment = _settled(office, args)
    standings = office.question(past.companies, moment.time)
    yield from output.company_list(standings)
    yield f"{len(standings)} companies, capital {past.capital(standings)}"
    if moment.remark:
        yield moment.remark


def show(office: Office, args: Args) -> Iterator[str]:
    """A company at a moment, and whose entry was the last one by then."""
    moment = _settled(office, args)
    yield from output.sheet(_standing(office, args.number, moment.time))
    steps = [step for step in office.question(past.history, args.number) if step.entry.time <= moment.time]
    yield f"since     {output.author(steps[-1].entry, steps[-1].clerk)}"
    if moment.remark:
        yield moment.remark


def history(office: Office, args: Args) -> Iterator[str]:
    """Each entry that changed a company."""
    for step in _history(office, args.number):
        yield from output.step_lines(step)


def _history(office: Office, number: int) -> list[past.Step]:
    steps = office.question(past.history, number)
    if not steps:
        raise Refusal(f"there is no company {number}, nor was there one")
    return steps


def journal(office: Office, args: Args) -> Iterator[str]:
    """All entries, or those of a clerk or a case."""
    clerks = office.question(past.clerks)
    for entry in office.question(past.journal):
        who = clerks[entry.label.clerk]
        if args.by in (None, who.login) and args.of in (None, entry.label.case):
            yield output.author(entry, who)


def extract(office: Office, args: Args) -> Iterator[str]:
    """The whole history of a company, for a court."""
    steps = _history(office, args.number)
    if args.csv:
        yield from (line.removesuffix("\n") for line in output.history_csv(steps))
        return
    last = office.question(past.settled, None).time
    standing = office.question(past.company, args.number, last)
    checked = all(office.question(past.agrees, step.entry) for step in steps)
    yield from output.Extract(args.number, standing, steps, last, checked).lines()


def export(office: Office, args: Args) -> Iterator[str]:
    """All companies at a moment as CSV. A remark about the moment would be no CSV, so there is none."""
    standings = office.question(past.companies, _settled(office, args).time)
    yield from (line.removesuffix("\n") for line in output.companies_csv(standings))


COMMANDS: dict[str, Callable[[Office, Args], Iterator[str]]] = {
    "clerk": clerk,
    "import": import_file,
    "add": add,
    "change": change,
    "correct": correct,
    "appoint": appoint,
    "dismiss": dismiss,
    "list": list_companies,
    "show": show,
    "history": history,
    "journal": journal,
    "extract": extract,
    "export": export,
}


def reason(why: Exception, register: str) -> str:
    """What a clerk is told of a refusal."""
    match why:
        case Refusal():
            return str(why)
        case timestore.NotAStore():
            return f"{register} is no register: make one with python3 -m register new {register}"
        case timestore.StatusFull():
            return f"{register} has no room for more entries: timestore grow {register} makes some"
        case timestore.HeapFull():
            return f"{register} has no room for more: timestore vacuum {register} TIME makes some"
        case timestore.InDoubt() | timestore.Failed():
            return f"the disk refused a write ({why}). Mend that, then see in the journal whether the entry was made"
        case timestore.BeforeKept():
            return f"what stood before {times.spelled(why.floor)} was let go"
        case timestore.Damaged():
            return f"the files of {register} are damaged ({why.area}, {why.place}): keep them, and restore a backup"
        case OSError():
            return f"{why.filename or register}: {why.strerror or why}"
        case _:
            return f"{register}: {why}"


def read_file(args: Args) -> None:
    """Reads the file of an import, where the command was given."""
    if getattr(args, "file", None) is not None:
        args.file_name = os.path.basename(args.file)
        try:
            with open(args.file, encoding="utf-8-sig", newline="") as file:
                args.text = file.read()
        except UnicodeDecodeError as why:
            raise Refusal(f"{args.file} is not in UTF-8: {why.reason} at byte {why.start}") from None
