"""HTML from elements: whatever is no `Markup` is escaped."""

import html
from collections.abc import Iterable


class Markup(str):
    """Text that is HTML already."""


def _flat(inside: Iterable[object]) -> Iterable[object]:
    for part in inside:
        if isinstance(part, (list, tuple)):
            yield from _flat(part)
        elif part is not None:
            yield part


def join(*inside: object) -> Markup:
    """Elements and texts one behind the other. Lists are gone through, and None is left out."""
    return Markup("".join(part if isinstance(part, Markup) else html.escape(str(part)) for part in _flat(inside)))


def element(name: str, /, *inside: object, **attributes: object) -> Markup:
    """An element. An attribute `class_` is class, `aria_label` aria-label; None and False leave one out, True has no value."""
    words = [name]
    for key, value in attributes.items():
        key = key.rstrip("_").replace("_", "-")
        if value is True:
            words.append(key)
        elif value is not None and value is not False:
            words.append(f'{key}="{html.escape(str(value))}"')
    if name in ("input", "link", "meta", "rect", "line", "path"):
        return Markup(f"<{' '.join(words)}/>")
    return Markup(f"<{' '.join(words)}>{join(*inside)}</{name}>")
