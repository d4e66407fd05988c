"""HTML as values: text is escaped once, when it is put into an element."""

from __future__ import annotations

import html
from typing import Iterable, Union


class Markup(str):
    """Text that is HTML already."""


Child = Union[str, int, None, Iterable["Child"]]


def _flat(child: Child) -> str:
    """A child as HTML: text escaped, markup as it is, lists one after the other."""
    if child is None:
        return ""
    if isinstance(child, Markup):
        return child
    if isinstance(child, (str, int)):
        return html.escape(str(child))
    return "".join(_flat(each) for each in child)


def element(name: str, /, *children: Child, **attributes: object) -> Markup:
    """An element. In an attribute's name `_` is written `-`, a last one not at all; None leaves it out, True has no value."""
    written = ""
    for key, value in attributes.items():
        key = key.rstrip("_").replace("_", "-")
        if value is True:
            written += f" {key}"
        elif value is not None and value is not False:
            written += f' {key}="{html.escape(str(value))}"'
    if name in ("meta", "link"):
        return Markup(f"<{name}{written}>")
    return Markup(f"<{name}{written}>{_flat(list(children))}</{name}>")


def joined(children: Iterable[Child]) -> Markup:
    """Children one after the other."""
    return Markup(_flat(list(children)))


def between(children: Iterable[Child], separator: Child) -> Markup:
    """Children with a separator between them."""
    return Markup(_flat(separator).join(_flat(each) for each in children))


def link(target: str, *children: Child, **attributes: object) -> Markup:
    """A link to a place of the page or to a file beside it."""
    return element("a", *children, href=target, **attributes)


def table(caption: str, heads: Iterable[Child], rows: Iterable[Markup], class_: str = "", hidden: bool = True) -> Markup:
    """A table that scrolls by itself on a narrow screen. The caption names it, for those who do not see it where hidden."""
    top = element("tr", [element("th", head, scope="col") for head in heads])
    title = element("caption", caption, class_="unseen" if hidden else None)
    inner = element("table", title, element("thead", top), element("tbody", list(rows)), class_=class_ or None)
    return element("div", inner, class_="wide", tabindex="0", role="region", aria_label=caption)


def row(first: Child, *cells: Child, **attributes: object) -> Markup:
    """A row whose first cell is its head."""
    return element("tr", element("th", first, scope="row"), [element("td", cell) for cell in cells], **attributes)


def folded(summary: Child, *children: Child, open_: bool = False, **attributes: object) -> Markup:
    """What is shown only when it is opened."""
    return element("details", element("summary", summary), *children, open_=open_, **attributes)
