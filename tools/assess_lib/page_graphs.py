"""The pictures on a page, with their legends, and the reduction level by level."""

from __future__ import annotations

from assess_lib.analysis import Analysed
from assess_lib.graph import NoPicture, level_graph, line_graph
from assess_lib.markup import Markup, between, element, folded, joined, row, table
from assess_lib.page_source import line_link
from assess_lib.report import Heading
from assess_lib.sentences import counted

_OPEN_NODES = 80


def _swatch(class_: str, text: str) -> Markup:
    """An entry of a legend."""
    return element("li", element("span", class_=f"swatch {class_}", aria_hidden="true"), text)


def _legend(each: Analysed) -> Markup:
    """The legend of a line graph."""
    entries = [
        _swatch("interval0", "one colour for each interval of level 0"),
        _swatch("deciding", "thick red frame: a test that decides a variable"),
        element("li", "double frame: a loop's head; rounded box: a loop"),
        element("li", "dashed frame: unreachable; T and F: the way of a true and of a false test"),
    ]
    if not each.report.reducible:
        entries.append(_swatch("twice", "thick violet frame: the cycle that has two entries"))
    if not each.report.has(Heading.PATHS):
        entries.append(element("li", "the report gives no arcs: these are made from the source by this tool"))
    return element("ul", entries, class_="legend")


def _no_picture(reason: str) -> Markup:
    """The word that stands where a picture is missing."""
    return element("p", f"There is no picture here: {reason}.")


def picture(each: Analysed, number: int) -> Markup:
    """The line graph of a procedure."""
    title = element("h3", "Line graph", id=f"p{number}-picture")
    try:
        drawn = line_graph(each, f"p{number}")
    except NoPicture as missing:
        return joined([title, _no_picture(missing.reason)])
    name = f"Line graph of {each.report.name}"
    frame = element("div", drawn, class_="figure", tabindex="0", role="region", aria_label=name)
    shown = element("figure", frame, element("figcaption", _legend(each)))
    return joined([title, folded("Show the graph", shown, open_=each.report.line_count <= _OPEN_NODES)])


def _level_picture(each: Analysed, level: int, number: int) -> Markup:
    """The picture of a level."""
    try:
        drawn = level_graph(each, level, f"p{number}")
    except NoPicture as missing:
        return _no_picture(missing.reason)
    name = f"Level {level} of {each.report.name}"
    frame = element("div", drawn, class_="figure", tabindex="0", role="region", aria_label=name)
    return element("figure", frame, element("figcaption", f"Level {level}: a node for each interval of level {level - 1}"))


def reduction(each: Analysed, number: int) -> Markup:
    """The reduction of a procedure, level by level."""
    control = each.report.control
    rows = []
    for level, intervals in enumerate(control.levels):
        for interval in intervals:
            members = between([line_link(number, line) for line in interval.members], " ")
            rows.append(row(level, line_link(number, interval.head), members))
    members = sum(len(interval.members) for level in control.levels for interval in level)
    made = table(f"Intervals of {each.report.name}", ["Level", "Head", "Members"], rows)
    pictures = [_level_picture(each, level, number) for level in range(1, len(control.levels))]
    ends = "one interval is left, so it is reducible" if each.report.reducible else "only single nodes are left"
    told = element("p", f"The last level is {len(control.levels) - 1}: {ends}.") if control.levels else None
    title = element("h3", "Reduction, level by level", id=f"p{number}-reduction")
    return joined([title, told, folded(counted(len(rows), "interval"), made, *pictures, open_=members <= 60)])
