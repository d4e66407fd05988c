"""A plain list of rules for pages that everyone can read, and what of a page breaks them."""

from __future__ import annotations

import re
from dataclasses import dataclass, field
from html.parser import HTMLParser
from typing import Iterator, Optional

VOID = frozenset(("meta", "link", "br", "img", "input", "hr"))
LANDMARKS = frozenset(("main", "header", "footer", "nav"))
HEADINGS = ("h1", "h2", "h3", "h4", "h5", "h6")
LIST_PARTS = {"ul": {"li"}, "ol": {"li"}, "dl": {"dt", "dd"}, "tr": {"th", "td"}}


@dataclass
class Node:
    """An element of a page."""

    name: str
    attributes: dict[str, str]
    parent: Optional[Node]
    children: list[Node] = field(default_factory=list)
    pieces: list[str] = field(default_factory=list)

    def all(self) -> Iterator[Node]:
        """The element and all that is in it."""
        yield self
        for child in self.children:
            yield from child.all()

    @property
    def text(self) -> str:
        """All text in it."""
        return "".join(self.pieces) + "".join(child.text for child in self.children)

    def within(self, names: frozenset[str]) -> bool:
        """Whether it is, or stands in, an element of one of these names."""
        return self.name in names or (self.parent is not None and self.parent.within(names))


class _Reader(HTMLParser):
    """Reads a page and keeps what is not closed as it was opened."""

    def __init__(self) -> None:
        super().__init__(convert_charrefs=True)
        self.top = Node("", {}, None)
        self.here = self.top
        self.unclosed: list[str] = []

    def handle_starttag(self, tag: str, attrs: list[tuple[str, Optional[str]]]) -> None:
        node = Node(tag, {name: value or "" for name, value in attrs}, self.here)
        self.here.children.append(node)
        if tag not in VOID:
            self.here = node

    def handle_startendtag(self, tag: str, attrs: list[tuple[str, Optional[str]]]) -> None:
        self.here.children.append(Node(tag, {name: value or "" for name, value in attrs}, self.here))

    def handle_endtag(self, tag: str) -> None:
        if self.here.name != tag or self.here.parent is None:
            self.unclosed.append(f"</{tag}> closes <{self.here.name}>")
            return
        self.here = self.here.parent

    def handle_data(self, data: str) -> None:
        self.here.pieces.append(data)


def _document(top: Node, nodes: list[Node]) -> Iterator[str]:
    """Language, title and view of the whole page."""
    html = next((node for node in nodes if node.name == "html"), None)
    if html is None or not html.attributes.get("lang"):
        yield "the page names no language"
    titles = [node for node in nodes if node.name == "title" and node.within(frozenset(("head",)))]
    if len(titles) != 1 or not titles[0].text.strip():
        yield "the page has no title, or several"
    view = next((node.attributes.get("content", "") for node in nodes if node.attributes.get("name") == "viewport"), "")
    if "width=device-width" not in view or "user-scalable=no" in view or "maximum-scale" in view:
        yield "the page does not fit a narrow screen, or forbids to enlarge it"


def _headings(nodes: list[Node]) -> Iterator[str]:
    """One first heading, and no level left out."""
    levels = [(HEADINGS.index(node.name) + 1, node.text.strip()) for node in nodes if node.name in HEADINGS]
    if [level for level, _ in levels].count(1) != 1 or levels[0][0] != 1:
        yield "the page has no first heading at its head, or several"
    for (before, _), (level, text) in zip(levels, levels[1:]):
        if level > before + 1:
            yield f"the heading '{text}' leaves a level out"
    for _, text in levels:
        if not text:
            yield "a heading is empty"


def _landmarks(nodes: list[Node]) -> Iterator[str]:
    """One main part, and no text outside all landmarks but the link that skips to it."""
    if sum(node.name == "main" for node in nodes) != 1:
        yield "the page has no main part, or several"
    for node in nodes:
        inside = node.within(LANDMARKS) or not node.within(frozenset(("body",)))
        if not inside and "".join(node.pieces).strip() and node.attributes.get("class") != "skip":
            yield f"text outside all landmarks: {node.text.strip()[:40]}"


def _names(nodes: list[Node]) -> Iterator[str]:
    """Identifiers stand once, links lead to them, and what is labelled by one finds it."""
    names = [node.attributes["id"] for node in nodes if "id" in node.attributes]
    for name in sorted({name for name in names if names.count(name) > 1}):
        yield f"the identifier {name} stands twice"
    known = set(names)
    for node in nodes:
        target = node.attributes.get("href") or node.attributes.get("xlink:href") or ""
        if target.startswith("#") and target[1:] not in known:
            yield f"a link leads nowhere: {target}"
        for name in node.attributes.get("aria-labelledby", "").split():
            if name not in known:
                yield f"a label is missing: {name}"


def _tables(nodes: list[Node]) -> Iterator[str]:
    """Each table has a caption and heads that say what they head."""
    for node in nodes:
        if node.name == "table":
            if not any(child.name == "caption" and child.text.strip() for child in node.children):
                yield "a table has no caption"
            if not any(inner.name == "th" for inner in node.all()):
                yield "a table has no heads"
        if node.name == "th" and node.attributes.get("scope") not in ("col", "row"):
            yield f"a head of a table has no scope: {node.text[:30]}"


def _parts(nodes: list[Node]) -> Iterator[str]:
    """Lists hold their entries alone, and what is folded begins with its summary."""
    for node in nodes:
        allowed = LIST_PARTS.get(node.name)
        if allowed is not None and any(child.name not in allowed for child in node.children):
            yield f"<{node.name}> holds something else than {sorted(allowed)}"
        if node.name == "details":
            first = node.children[0] if node.children else None
            if first is None or first.name != "summary" or not first.text.strip():
                yield "something folded has no summary"


def _words(nodes: list[Node]) -> Iterator[str]:
    """Pictures, links and regions have names, each region one of its own."""
    regions: list[str] = []
    for node in nodes:
        if node.name == "svg":
            title = node.children[0] if node.children else None
            labelled = title is not None and title.attributes.get("id") == node.attributes.get("aria-labelledby")
            if not labelled or title is None or title.name != "title" or not title.text.strip():
                yield "a picture has no title"
        if node.name == "a" and not (node.text.strip() or node.attributes.get("aria-label")):
            yield "a link has no words"
        if node.name == "img" and "alt" not in node.attributes:
            yield "a picture has no text in its place"
        if node.attributes.get("role") == "region":
            regions.append(node.attributes.get("aria-label", ""))
        scrolls = node.name == "pre" or node.attributes.get("class") in ("wide", "figure")
        if scrolls and node.attributes.get("tabindex") != "0":
            yield f"<{node.name}> scrolls and can't be reached by keys"
    for label in sorted({label for label in regions if not label or regions.count(label) > 1}):
        yield f"a region has no name of its own: {label}"


def _alone(page: str, nodes: list[Node]) -> Iterator[str]:
    """No script, and nothing that the network must bring."""
    if any(node.name in ("script", "iframe", "img", "object", "embed") for node in nodes):
        yield "the page has a script or a part from elsewhere"
    for node in nodes:
        for key in ("src", "href", "xlink:href"):
            if re.match(r"(?:[a-z]+:)?//", node.attributes.get(key, "")):
                yield f"the page needs the network: {node.attributes[key]}"
    if re.search(r"@import|url\(", page):
        yield "the style sheet needs another file"


def luminance(colour: str) -> float:
    """The relative luminance of a colour `#rrggbb`, from 0 to 1."""
    parts = [int(colour[at : at + 2], 16) / 255 for at in (1, 3, 5)]
    red, green, blue = (part / 12.92 if part <= 0.03928 else ((part + 0.055) / 1.055) ** 2.4 for part in parts)
    return 0.2126 * red + 0.7152 * green + 0.0722 * blue


def contrast(ink: str, paper: str) -> float:
    """The contrast of two colours, from 1 to 21."""
    one, other = luminance(ink), luminance(paper)
    return (max(one, other) + 0.05) / (min(one, other) + 0.05)


def faults_of(page: str) -> list[str]:
    """What of a page breaks a rule, in words."""
    reader = _Reader()
    reader.feed(page)
    reader.close()
    nodes = list(reader.top.all())
    found = list(reader.unclosed)
    if reader.here is not reader.top:
        found.append(f"<{reader.here.name}> is not closed")
    for rule in (_headings, _landmarks, _names, _tables, _parts, _words):
        found += list(rule(nodes))
    return found + list(_document(reader.top, nodes)) + list(_alone(page, nodes))
