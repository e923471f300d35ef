"""The pages, as HTML."""

from typing import NamedTuple

import timestore

from . import chart
from .markup import Markup, element, join
from .reading import Difference, Names, Past, Summary
from .records import Commit
from .values import instant, is_text, lasting, spelled

ROWS_MOST = 500
CHART_MOST = 60


class Frame(NamedTuple):
    """What is around each page."""

    folder: str
    copied: str  # when the copy was made that is shown; empty where there is none
    notice: str  # what is to be said of the copy; empty for nothing

    def page(self, title: str, *inside: object) -> str:
        """A whole page."""
        head = (
            element("meta", charset="utf-8"),
            element("meta", name="viewport", content="width=device-width, initial-scale=1"),
            element("title", f"{title} · timestore"),
            element("link", rel="stylesheet", href="/style.css"),
            element("script", src="/slider.js", defer=True),
        )
        body = (
            element("a", "Skip to the content", class_="skip", href="#content"),
            element("header", self._bar(), self._notice()),
            element("main", element("h1", title), inside, id="content"),
        )
        return "<!DOCTYPE html>\n" + element("html", element("head", head), element("body", body), lang="en")

    def _bar(self) -> Markup:
        again = element("button", "Copy again", title="Shows the store as it is now") if self.copied else element("button", "Try again")
        form = element("form", element("span", f"copied at {self.copied}", class_="copied") if self.copied else None, again, method="post", action="/copy")
        links = element("a", "Relations", href="/"), element("a", "Commits", href="/commits")
        return element("nav", element("strong", self.folder), links, form, aria_label="Store")

    def _notice(self) -> Markup | None:
        return element("p", self.notice, class_="notice", role="status") if self.notice else None


def _moment(time: int) -> Markup:
    return element("time", instant(time), title=f"{time} microseconds since 1970")


def _field(field: bytes, is_marked: bool = False) -> Markup:
    if not field:
        shown = element("span", "(empty)", class_="empty")
    else:
        shown = element("span", spelled(field), class_="text" if is_text(field) else "hexadecimal")
    return element("mark", shown) if is_marked else shown


def _value(names: Names, fields: timestore.Fields | None, other: timestore.Fields | None = None) -> Markup:
    """A value as a list of its fields. Where another value is named, those are marked that it has not."""
    if fields is None:
        return element("span", "no value", class_="empty")
    items = []
    for place, field in enumerate(fields):
        is_marked = other is not None and other[place : place + 1] != (field,)
        name = element("span", names.field(place), class_="name") if names.field(place) else None
        items.append(element("li", name, _field(field, is_marked)))
    return element("ol", items, class_="fields")


def _called(past: Past, number: int, word: str = "Relation") -> str:
    """A relation by its number, and its name where it has one."""
    name = past.names(number).relation
    return f"{word} {number}, {name}" if name else f"{word} {number}"


def _table(caption: str, columns: tuple[str, ...], rows: list[Markup]) -> Markup:
    head = element("tr", [element("th", name, scope="col") for name in columns])
    table = element("table", element("caption", caption), element("thead", head), element("tbody", rows))
    return element("div", table, class_="wide", tabindex=0, role="region", aria_label=caption)


def _row(*cells: object, **attributes: object) -> Markup:
    first, *rest = cells
    return element("tr", element("th", first, scope="row"), [element("td", cell) for cell in rest], **attributes)


def _counted(count: int, name: str) -> str:
    return f"{count:,} {name}" if count == 1 else f"{count:,} {name}s"


def home(frame: Frame, past: Past) -> str:
    """The relations of the store."""
    intro = element("p", f"{_counted(len(past.commits), 'commit')}, the last one at ", _moment(past.last), " UTC. All times are in UTC.")
    if not past.last:
        intro = element("p", "Nothing was committed yet.")
    columns = ("Relation", "Records now", "Records ever", "Versions", "First change", "Last change")
    rows = [_summary_row(past, summary) for summary in past.relations.values()]
    return frame.page("Relations", intro, _table("The relations that have records", columns, rows) if rows else None)


def _summary_row(past: Past, summary: Summary) -> Markup:
    name = past.names(summary.relation).relation
    link = join(element("a", summary.relation, href=f"/relations/{summary.relation}"), " " if name else None, name)
    floor = element("span", " or earlier: history before was let go", class_="empty") if summary.floor else None
    counts = (f"{count:,}" for count in (summary.standing, summary.records, summary.versions))
    return _row(link, *counts, join(_moment(summary.first), floor), _moment(summary.last), class_="numbers")


class Moment(NamedTuple):
    """A relation at a time, from the row of a number on."""

    relation: int
    time: int
    first: int = 0


def relation(frame: Frame, past: Past, moment: Moment) -> str:
    """The records of a relation at a time, with a slider over the times at which they changed."""
    number = moment.relation
    moments = past.moments(number)
    title = _called(past, number)
    if not moments:
        return frame.page(title, element("p", "It has no records, and had none."))
    step = past.step(number, moment.time)
    most, rows = len(moments) - 1, f"/relations/{number}/rows"
    slider = element("input", type="range", id="step", name="step", min=0, max=most, value=step, data_rows=rows, aria_describedby="moment")
    steps = element("form", element("label", "Change", for_="step"), slider, element("button", "Show", id="show"), class_="slider")
    field = element("input", name="at", id="at", value=instant(moment.time), size=27)
    jump = element("form", element("label", "Or at the time", for_="at"), field, element("button", "Show"), class_="jump")
    return frame.page(title, steps, jump, element("div", records(past, moment), id="rows", aria_live="polite"))


def records(past: Past, moment: Moment) -> Markup:
    """The part of a relation's page that the slider changes."""
    number, time, first = moment
    moments, names = past.moments(number), past.names(number)
    step = past.step(number, time)
    rows = past.records(number, time)
    shown = rows[first : first + ROWS_MOST]
    lines = [_row(element("a", record, href=f"/relations/{number}/records/{record}"), _value(names, fields)) for record, fields in shown]
    return join(
        element("p", f"Change {step + 1:,} of {len(moments):,}: the records at ", _moment(time), " UTC", id="moment"),
        element("p", _steps(number, moments, step), class_="links"),
        element("p", _relation_links(past, number, time, step), class_="links"),
        _table(_counted(len(rows), "record"), ("Record", "Value"), lines) if rows else element("p", "No record had a value then."),
        _pages(f"/relations/{number}?at={time}", first, len(rows)),
    )


def _steps(number: int, moments: list[int], step: int) -> list[Markup]:
    names = (("First", 0), ("Previous", step - 1), ("Next", step + 1), ("Last", len(moments) - 1))
    there = [(name, to) if 0 <= to < len(moments) and to != step else (name, None) for name, to in names]
    return [
        element("span", name, class_="empty") if to is None else element("a", name, href=f"/relations/{number}?step={to}")
        for name, to in there
    ]


def _relation_links(past: Past, number: int, time: int, step: int) -> list[Markup]:
    moments = past.moments(number)
    before = moments[step - 1] if step else max(moments[0] - 1, past.floor(number))
    return [
        element("a", "What this change did", href=f"/relations/{number}/changes?from={before}&to={moments[step]}"),
        element("a", "Compare with now", href=f"/relations/{number}/changes?from={time}&to={past.last}"),
        element("a", "These records as CSV", href=f"/relations/{number}.csv?at={time}", download=True),
        element("a", "All versions as CSV", href=f"/relations/{number}/history.csv", download=True),
    ]


def _pages(path: str, first: int, count: int) -> Markup | None:
    if count <= ROWS_MOST:
        return None
    last = min(first + ROWS_MOST, count)
    before = element("a", "Rows before", href=f"{path}&first={max(0, first - ROWS_MOST)}") if first else None
    after = element("a", "Rows after", href=f"{path}&first={last}") if last < count else None
    return element("p", f"Rows {first + 1:,} to {last:,} of {count:,}. ", before, " ", after, class_="links")


def record(frame: Frame, past: Past, number: int, name: int) -> str:
    """The history of a record."""
    rows = past.versions(number, name)
    title = f"Record {name} of {_called(past, number, 'relation')}"
    back = element("a", _called(past, number), href=f"/relations/{number}")
    if not rows:
        return frame.page(title, element("p", "It has no value, and had none."), element("p", back, class_="links"))
    found = chart.spans(rows, past.last)
    picture = chart.timeline(found[-CHART_MOST:], f"record {name}", past.last)
    cut = element("p", f"The picture shows the last {CHART_MOST} of {len(found):,} spans.") if len(found) > CHART_MOST else None
    links = element("p", back, element("a", "These versions as CSV", href=f"/relations/{number}/records/{name}.csv", download=True), class_="links")
    columns = ("Version", "From", "Up to", "Lasted", "Label", "Value")
    before = {span.version: span.fields for span in found if span.version}
    lines = [_span_row(past, number, span, before.get(span.version - 1)) for span in reversed(found)]
    return frame.page(title, links, picture, cut, _table(f"{_counted(len(rows), 'version')}, the last one first", columns, lines))


def _span_row(past: Past, number: int, span: chart.Span, before: timestore.Fields | None) -> Markup:
    is_last = span.end > past.last
    upto = element("span", "still", class_="empty") if is_last else _moment(span.end)
    lasted = "" if is_last else lasting(span.end - span.start)
    version = span.version or element("span", "–", class_="empty")
    value = _value(past.names(number), span.fields, before)
    return _row(version, _moment(span.start), upto, lasted, _label(past, span.start), value, id=f"v{span.version}" if span.version else None)


def _label(past: Past, time: int) -> Markup | None:
    label = past.label(time)
    return None if label is None else element("a", label, href=f"/commits/{time}", title=f"hexadecimal {label:x}")


class Interval(NamedTuple):
    """A relation between two moments, from the row of a number on."""

    relation: int
    start: int
    end: int
    first: int = 0


def changes(frame: Frame, past: Past, interval: Interval) -> str:
    """What changed in a relation between two moments."""
    number, start, end, first = interval
    found = past.differences(number, start, end)
    fields = [_time_field("from", "After", start), _time_field("to", "Up to", end)]
    form = element("form", fields, element("button", "Compare"), class_="jump")
    query = f"from={start}&to={end}"
    links = (
        element("a", _called(past, number), href=f"/relations/{number}"),
        element("a", "These changes as CSV", href=f"/relations/{number}/changes.csv?{query}", download=True),
    )
    none = "Nothing changed between these two moments." if start < end else "The second moment is not after the first one."
    table = _differences(past, number, found[first : first + ROWS_MOST], _counted(len(found), "record")) if found else element("p", none)
    pages = _pages(f"/relations/{number}/changes?{query}", first, len(found))
    return frame.page(f"Changes of {_called(past, number, 'relation')}", form, element("p", links, class_="links"), table, pages)


def _time_field(name: str, label: str, time: int) -> Markup:
    return join(element("label", label, for_=name), element("input", name=name, id=name, value=instant(time), size=27))


def _differences(past: Past, number: int, found: list[Difference], caption: str) -> Markup:
    lines = [_difference_row(past.names(number), number, it) for it in found]
    return _table(caption, ("Record", "What became of it", "Changes", "Before", "After"), lines)


def _difference_row(names: Names, number: int, it: Difference) -> Markup:
    link = element("a", it.record, href=f"/relations/{number}/records/{it.record}")
    kind = element("span", it.kind, class_="kind")
    return _row(link, kind, f"{it.changes:,}", _value(names, it.before, it.after), _value(names, it.after, it.before))


def commits(frame: Frame, past: Past, first: int) -> str:
    """The log: the commits, the last one first."""
    found = past.commits[::-1][first : first + ROWS_MOST]
    table = _table(_counted(len(past.commits), "commit"), ("Time", "Label", "Records"), [_commit_row(commit) for commit in found])
    return frame.page("Commits", element("p", "The last one first."), table, _pages("/commits?", first, len(past.commits)))


def _commit_row(commit: Commit) -> Markup:
    link = element("a", instant(commit.time), href=f"/commits/{commit.time}", title=f"{commit.time} microseconds since 1970")
    records = element("span", "not told", class_="empty") if commit.records is None else f"{commit.records:,}"
    return _row(link, element("span", commit.label, title=f"hexadecimal {commit.label:x}"), records, class_="numbers")


def commit(frame: Frame, past: Past, time: int) -> str:
    """What a commit changed."""
    parts = []
    for number in past.relations:
        if past.floor(number) < time and (found := past.differences(number, time - 1, time)):
            title = element("h2", element("a", _called(past, number), href=f"/relations/{number}?at={time}"))
            parts += [title, _differences(past, number, found, _counted(len(found), "record"))]
    label = past.label(time)
    intro = element("p", "Its label is ", element("strong", label), f", in hexadecimal {label:x}. It is of ", _moment(time), " UTC.")
    return frame.page("A commit", intro, parts or element("p", "What it changed was let go, or the values were the same before."))


def message(frame: Frame, title: str, text: str) -> str:
    """A page that says something."""
    return frame.page(title, element("p", text))
