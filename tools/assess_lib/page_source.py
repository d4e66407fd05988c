"""The source on a page: the file's lines beside the report's, with what the report says of each."""

from __future__ import annotations

from assess_lib.analysis import Analysed, Analysis
from assess_lib.findings import threat_line
from assess_lib.markup import Markup, between, element, folded, joined, link, row, table
from assess_lib.outline import MODES
from assess_lib.report import Verdict
from assess_lib.sentences import counted

_OPEN_LINES = 150


def line_link(number: int, line: int) -> Markup:
    """A link to a line of the report's in the source of the procedure of that number."""
    return link(f"#p{number}-L{line}", f"L{line}")


def mark(text: str, colour: str) -> Markup:
    """A small mark."""
    return element("span", text, class_=f"mark {colour}")


def _marks(each: Analysed, number: int, line: int) -> list[Markup]:
    """What the report says of a line."""
    report, control = each.report, each.report.control
    marks = []
    if line in control.unreachable:
        marks.append(mark("unreachable", "quiet"))
    if line in control.stuck:
        marks.append(mark("stuck: the end is not reached", "left"))
    if any(loop.head == line for loop in control.loops):
        marks.append(mark("loop head", "fact"))
    if any(line in loop.leading for loop in control.loops):
        marks.append(mark("leads the loop", "fact"))
    if line in report.deciding:
        marks.append(mark("decides " + ", ".join(flow.variable for flow in report.flow if line in flow.tests), "fact"))
    entries = control.two_entries
    if entries is not None and line in entries.cycle:
        door = line in (entries.first[-1:] + entries.second[-1:])
        marks.append(mark("in the cycle with two entries: an entry" if door else "in the cycle with two entries", "left"))
    return marks + _threat_marks(each, number, line)


def _threat_marks(each: Analysed, number: int, line: int) -> list[Markup]:
    """Links to the threats that stop at a line and are not False."""
    compliance = each.report.compliance
    if compliance is None:
        return []
    last = each.report.line_count - 1
    left = [threat for threat in compliance.threats if threat.verdict is not Verdict.FALSE]
    return [
        link(f"#p{number}-threat{one.number}", f"{one.verdict.value.capitalize()} threat {one.number}", class_="mark refused")
        for one in left
        if threat_line(one, last) == line
    ]


def _state(each: Analysed, lines: list[int]) -> str:
    """The class of a source row: of what is unreachable or stuck."""
    control = each.report.control
    if lines and all(line in control.unreachable for line in lines):
        return "unreachable"
    return "stuck" if lines and any(line in control.stuck for line in lines) else ""


def _source_row(each: Analysed, number: int, file_line: int, lines: list[int], mode: str) -> Markup:
    """The row of a line of the file."""
    names = between([link(f"#p{number}-L{line}", f"L{line}", id=f"p{number}-L{line}") for line in lines], " ")
    marks = [mark(mode, "quiet")] if mode else []
    marks += [each_mark for line in lines for each_mark in _marks(each, number, line)]
    text = element("td", each.listing.source.line_text(file_line), class_="text mono")
    cells = [element("th", file_line, scope="row"), element("td", names), text, element("td", marks)]
    return element("tr", cells, id=f"f{file_line}", class_=_state(each, lines) or None)


def source_table(each: Analysed, number: int) -> Markup:
    """The source of a procedure."""
    listing, procedure = each.listing, each.listing.procedure
    first = listing.source.line_of(procedure.statement.first)
    end = procedure.end or procedure.statement
    last = listing.source.line_of(end.after - 1)
    at: dict[int, list[int]] = {}
    for line in listing.lines:
        at.setdefault(listing.source.line_of(line.statement.first), []).append(line.number)
    modes: dict[int, str] = {}
    for variable in procedure.variables:
        where = listing.source.line_of(variable.statement.first)
        modes[where] = _mode_words(variable.mode.value)
    rows = [_source_row(each, number, line, at.get(line, []), modes.get(line, "")) for line in range(first, last + 1)]
    heads = ["File", "Report", "Text", "What the report says of it"]
    made = table(f"Source of {procedure.name}", heads, rows, "source")
    title = element("h3", "Source", id=f"p{number}-source")
    return joined([title, folded(counted(len(rows), "line"), made, open_=len(rows) <= _OPEN_LINES)])


def _mode_words(mode: str) -> str:
    """What a mode means."""
    words = {
        "IN": "IN: given, never assigned",
        "INOUT": "INOUT: given and handed back",
        "OUT": "OUT: handed back",
        "LOCAL": "LOCAL: inside alone",
    }
    return words[mode] if mode in MODES else ""


def head_of_text(found: Analysis) -> Markup:
    """What stands before the first procedure: title, constants and types."""
    if not found.procedures:
        return Markup("")
    first = found.source.line_of(found.procedures[0].listing.procedure.statement.first)
    if first == 1:
        return Markup("")
    lines = [(line, element("span", found.source.line_text(line), class_="mono text")) for line in range(1, first)]
    rows = [row(line, text, id=f"f{line}") for line, text in lines]
    made = table("Head of the text", ["File", "Text"], rows, "source")
    title = element("h2", "Head of the text", id="head")
    return joined([title, folded(counted(len(rows), "line"), made, open_=len(rows) <= 40)])
