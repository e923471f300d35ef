"""A record's history as a picture: above, its versions to scale of time; below, each with the same width."""

from typing import NamedTuple

import timestore

from .markup import Markup, element, join
from .values import instant, spelled

BOX_WIDTH, BOX_GAP = 132, 8
LANE_TOP, LANE_HEIGHT = 26, 22
BOX_TOP, BOX_HEIGHT = 92, 58
HEIGHT = BOX_TOP + BOX_HEIGHT + 4
WIDTH_LEAST = 1110
TEXT_MOST = 12
TICKS = 4
DAYS, SECONDS = 5 * 86_400_000_000, 5_000_000  # microseconds from which on ticks are days, and seconds
SHARE = 0.93  # of the width, for what was committed


class Span(NamedTuple):
    """A version, or a time in which the record had no value."""

    start: int
    end: int
    fields: timestore.Fields | None
    version: int  # counted from 1; 0 of a gap
    news: tuple[bytes, ...]  # the fields that the span before has not


def spans(rows: list[timestore.Row], last: int) -> list[Span]:
    """The versions of a record and the gaps between them, up to the last commit."""
    found: list[Span] = []
    for version, row in enumerate(rows, 1):
        if found and found[-1].end < row.start:
            found.append(Span(found[-1].end, row.start, None, 0, ()))
        before = found[-1].fields if found else None
        found.append(Span(row.start, row.end, row.fields, version, _news(before or (), row.fields)))
    if found and found[-1].end <= last:
        found.append(Span(found[-1].end, last + 1, None, 0, ()))
    return found


def _news(before: timestore.Fields, fields: timestore.Fields) -> tuple[bytes, ...]:
    return tuple(field for place, field in enumerate(fields) if before[place : place + 1] != (field,))


class _Scale(NamedTuple):
    """Where the times from the first change to the last commit are drawn. What still holds reaches beyond them."""

    start: int
    last: int
    width: int

    def x(self, time: int) -> float:
        if time > self.last:
            return self.width
        return round((time - self.start) / max(1, self.last - self.start) * self.width * SHARE, 1)


def _cut(text: str) -> str:
    line = text.split("\n")[0]
    return line if len(line) <= TEXT_MOST and line == text else line[: TEXT_MOST - 1] + "…"


def _title(span: Span) -> str:
    what = "no value" if span.fields is None else ", ".join(spelled(field) for field in span.fields)
    return f"from {instant(span.start)}: {what}"


def _kind(span: Span) -> str:
    return "gap" if span.fields is None else f"version shade{span.version % 2}"


def _segment(span: Span, scale: _Scale) -> Markup:
    left = scale.x(span.start)
    width = max(1, scale.x(span.end) - left)
    return element("rect", class_=f"lane {_kind(span)}", x=left, y=LANE_TOP, width=width, height=LANE_HEIGHT)


def _box(place: int, span: Span, scale: _Scale) -> Markup:
    left = place * (BOX_WIDTH + BOX_GAP)
    middle = left + BOX_WIDTH / 2
    shown = ", ".join(spelled(field) or "(empty)" for field in span.news)
    first = "no value" if span.fields is None else _cut(shown)
    number = "" if span.fields is None else f"{span.version}. "
    date, _, clock = instant(span.start).partition(" ")
    path = f"M{scale.x(span.start)} {LANE_TOP + LANE_HEIGHT} C{scale.x(span.start)} {BOX_TOP - 14} {middle} {BOX_TOP - 26} {middle} {BOX_TOP}"
    texts = (
        element("text", f"{number}{first}", class_="first", x=8, y=19),
        element("text", date, x=8, y=36),
        element("text", clock, x=8, y=50),
    )
    inside = (
        element("title", _title(span)),
        element("rect", class_=f"box {_kind(span)}", x=left, y=BOX_TOP, width=BOX_WIDTH, height=BOX_HEIGHT, rx=4),
        element("svg", texts, x=left, y=BOX_TOP, width=BOX_WIDTH - 2, height=BOX_HEIGHT),  # which cuts what is too long
    )
    linked = element("a", *inside, href=f"#v{span.version}") if span.version else element("g", *inside)
    return join(element("path", class_="thread", d=path), linked)


def _ticks(scale: _Scale) -> list[Markup]:
    """The times above the lane, of which the first is told in full."""
    length = scale.last - scale.start
    first, *later = sorted({scale.start + length * number // TICKS for number in range(TICKS + 1)})
    return [_tick(first, scale, instant(first), "start"), *(_tick(time, scale, _short(time, length), "middle") for time in later)]


def _tick(time: int, scale: _Scale, text: str, anchor: str) -> Markup:
    x = scale.x(time)
    line = element("line", class_="tick", x1=x, x2=x, y1=LANE_TOP - 5, y2=LANE_TOP)
    return join(line, element("text", text, x=x, y=LANE_TOP - 9, text_anchor=anchor))


def _short(time: int, length: int) -> str:
    """A time without what the times beside it have too: a day, a clock's time, or microseconds of a second."""
    if length >= DAYS:
        return instant(time).split(" ")[0]
    clock = instant(time).partition(" ")[2]
    return clock.partition(".")[0] if length >= SECONDS else f".{time % 1_000_000:06}"


def timeline(found: list[Span], name: str, last: int) -> Markup:
    """The picture of some spans, one behind the other, and of the last commit."""
    width = max(WIDTH_LEAST, len(found) * (BOX_WIDTH + BOX_GAP) - BOX_GAP)
    scale = _Scale(found[0].start, last, width)
    segments = [_segment(span, scale) for span in found]
    boxes = [_box(place, span, scale) for place, span in enumerate(found)]
    label = f"Timeline of {name}: {sum(span.version > 0 for span in found)} versions, which the table below has too"
    picture = element("svg", _ticks(scale), segments, boxes, viewBox=f"-1 0 {width + 2} {HEIGHT}", width=width + 2, height=HEIGHT, role="img", aria_label=label)
    return element("div", picture, class_="picture", tabindex=0, role="group", aria_label="Timeline")
