"""What can be downloaded, as CSV (RFC 4180, in UTF-8)."""

import csv
import io
from collections.abc import Iterable

import timestore

from .reading import Past
from .values import instant, spelled


def _csv(rows: Iterable[Iterable[object]]) -> str:
    text = io.StringIO(newline="")
    csv.writer(text).writerows(rows)
    return text.getvalue()


def _columns(values: Iterable[timestore.Fields | None], prefix: str = "field") -> list[str]:
    most = max((len(fields) for fields in values if fields is not None), default=0)
    return [f"{prefix}{number}" for number in range(1, most + 1)]


def _padded(fields: timestore.Fields | None, count: int) -> list[str]:
    texts = [spelled(field) for field in fields or ()]
    return texts + [""] * (count - len(texts))


def records_csv(past: Past, relation: int, time: int) -> str:
    """The records of a relation at a time."""
    rows = past.records(relation, time)
    columns = _columns(fields for _, fields in rows)
    lines = ([record, len(fields), *_padded(fields, len(columns))] for record, fields in rows)
    return _csv([["record", "fields", *columns], *lines])


def versions_csv(past: Past, rows: list[timestore.Row]) -> str:
    """Versions with the times from and up to which they held; `to` is empty where one still holds."""
    columns = _columns(row.fields for row in rows)
    lines = (_version_cells(past, row, len(columns)) for row in rows)
    return _csv([["record", "from", "from_utc", "to", "to_utc", "label", "fields", *columns], *lines])


def _version_cells(past: Past, row: timestore.Row, count: int) -> list[object]:
    label = past.label(row.start)
    ends = ("", "") if row.end > past.last else (row.end, instant(row.end))
    known = "" if label is None else label
    return [row.record, row.start, instant(row.start), *ends, known, len(row.fields), *_padded(row.fields, count)]


def differences_csv(past: Past, relation: int, start: int, end: int) -> str:
    """What changed in a relation after one moment, up to another one."""
    found = past.differences(relation, start, end)
    before, after = _columns((it.before for it in found), "before"), _columns((it.after for it in found), "after")
    lines = ([it.record, it.kind, it.changes, *_padded(it.before, len(before)), *_padded(it.after, len(after))] for it in found)
    return _csv([["record", "kind", "changes", *before, *after], *lines])
