"""The sections of a report as tables of a page: variables, paths, tables of regions, test inputs and threats."""

from __future__ import annotations

import re

from assess_lib.analysis import Analysed
from assess_lib.findings import threat_line
from assess_lib.markup import Child, Markup, between, element, folded, joined, link, row, table
from assess_lib.page_source import line_link, mark
from assess_lib.report import Heading, InputTable, RegionTable, Row, Threat, UseRow, Value, Verdict
from assess_lib.sentences import counted, stop_words
from assess_lib.walk import walk

_AT_ONCE = 100
_FACTS = {
    "RF": "read before any write on some path",
    "OW": "written twice with no read between on some path",
    "LW": "the last event is a write on some path to the end",
    "NR": "read on no path",
    "NW": "written on no path",
    "EU": "never written on some path to the end",
}
_VERDICTS = {
    Verdict.SHOWN: ("Shown: an input takes this path", "refused"),
    Verdict.OPEN: ("Open: neither shown nor ruled out", "left"),
    Verdict.FALSE: ("False: no input takes this path", "clean"),
}


def _sources(each: Analysed) -> list[str]:
    """The variables that are a source of some variable, in the order of declaration."""
    named = {source for flow in each.report.flow for source in flow.sources}
    names = [use.variable for use in each.report.use] or [flow.variable for flow in each.report.flow]
    return [name for name in names if name in named]


def _variable_row(each: Analysed, number: int, use: UseRow, sources: list[str]) -> Markup:
    """A row of the matrix."""
    flow = next((flow for flow in each.report.flow if flow.variable == use.variable), None)
    variable = each.listing.procedure.variable(use.variable)
    mode = f"{variable.mode.value}, {variable.type_text}" if variable else ""
    facts = [element("strong", "yes") if use.facts.get(name) else "-" for name in _FACTS]
    from_ = [element("strong", "from") if flow and source in flow.sources else "-" for source in sources]
    tests: Child = between([line_link(number, line) for line in flow.tests], " ") if flow and flow.tests else "-"
    return row(use.variable, mode, *facts, *from_, tests)


def variables_section(each: Analysed, number: int) -> Markup:
    """Use and flow as one matrix with its legend."""
    sources = _sources(each)
    heads: list[Child] = ["Variable", "Mode, type", *_FACTS, *[f"from {source}" for source in sources], "decided in"]
    rows = [_variable_row(each, number, use, sources) for use in each.report.use]
    made = table(f"Use and flow in {each.report.name}", heads, rows, "matrix")
    entries = [joined([element("dt", name), element("dd", text)]) for name, text in _FACTS.items()]
    entries.append(joined([element("dt", "from x"), element("dd", "the final value hangs on the initial x")]))
    entries.append(joined([element("dt", "decided in"), element("dd", "the tests that decide the final value")]))
    legend = folded("Legend", element("dl", entries, class_="head"))
    return joined([element("h3", "Use and flow", id=f"p{number}-use"), made, legend])


def slices_section(each: Analysed, number: int) -> Markup:
    """What the slice for each variable keeps."""
    if not each.report.has(Heading.SLICE):
        return Markup("")
    rows = []
    for one in each.report.slices:
        kept = between([line_link(number, line) for line in one.keep], " ") if one.keep else "-"
        rows.append(row(one.variable, kept, " ".join(one.fixed) or "-"))
    made = table(f"Slices of {each.report.name}", ["Variable", "Lines kept", "Tests fixed"], rows)
    words = "Where a run of the procedure ends well, so does that of the slice, with the same final value of the variable."
    return joined([element("h3", "Slices", id=f"p{number}-slices"), element("p", words), folded(counted(len(rows), "slice"), made)])


def _reference(number: int, text: str) -> Markup:
    """What stands behind the `=` of a path definition, with links to the definitions that it names."""
    parts = re.split(r"(E\d+)", text)
    return joined([link(f"#p{number}-{part}", part) if re.fullmatch(r"E\d+", part) else part for part in parts])


def paths_section(each: Analysed, number: int) -> Markup:
    """The path definitions and the arcs, folded."""
    paths = each.report.paths
    if paths is None:
        return Markup("")
    arcs = [row(f"a{arc.number}", line_link(number, arc.tail), line_link(number, arc.head)) for arc in paths.arcs]
    definitions = [row(one.name, _reference(number, one.text), id=f"p{number}-{one.name}") for one in paths.definitions]
    first = element("p", "All paths from L0 to the last line: ", _reference(number, paths.everything), ". ")
    words = element(
        "p", "+ is either of two sets of paths, . a path of the first and then one of the second, * any number of paths."
    )
    shown = table(f"Path definitions of {each.report.name}", ["Name", "Is"], definitions)
    listed = table(f"Arcs of {each.report.name}", ["Arc", "From", "To"], arcs)
    return joined(
        [
            element("h3", "Paths", id=f"p{number}-paths"),
            first,
            words,
            folded(counted(len(definitions), "definition"), shown),
            folded(counted(len(arcs), "arc"), listed),
        ]
    )


def _in_parts(rows: list[Markup], name: str, heads: list[str], class_: str = "") -> Markup:
    """A table, cut into folded parts where it is long."""
    if len(rows) <= _AT_ONCE:
        return table(name, heads, rows, class_)
    parts = []
    for at in range(0, len(rows), _AT_ONCE):
        part = rows[at : at + _AT_ONCE]
        which = f"rows {at + 1} to {at + len(part)}"
        parts.append(folded(which, table(f"{name}, {which}", heads, part, class_)))
    return joined(parts)


def _stop(number: int, stop: str) -> Markup:
    """A stop with a link to its line."""
    word, _, line = stop.partition(" ")
    behind: Child = [" at ", line_link(number, int(line[1:]))] if line[1:].isdigit() else ""
    return joined([stop_words(word), behind])


def _table_row(number: int, region: int, each: Row) -> Markup:
    """A row of a region's table: conditions and stop, and each changed place's value in terms of the start."""
    listed = [element("li", literal, class_="mono") for literal in each.literals]
    conditions: Child = element("ul", listed) if listed else "always"
    lines = [element("div", value.place, class_="mono") for value in each.values]
    values = [element("div", value.text, class_="mono") for value in each.values]
    path = element("span", each.path or "-", class_="mono")
    ends: list[Child] = [_stop(number, each.stop), lines, values or "as at the start"]
    return row(each.number, path, conditions, *ends, id=f"p{number}-R{region}-{each.number}")


def _region_table(each: Analysed, number: int, region: RegionTable) -> Markup:
    """The table of a region."""
    title = element("h4", f"Region L{region.head}", id=f"p{number}-R{region.head}")
    begins = element("p", "begins at ", line_link(number, region.head))
    if region.past:
        return joined([title, begins, element("p", mark(f"past its size: {region.past.lower()}", "left"))])
    heads = ["Row", "Path", "Where, at the start", "Stop", "Place", "Its value at the stop, in values of the start"]
    rows = [_table_row(number, region.head, one) for one in region.rows]
    name = f"Table of region L{region.head} of {each.report.name}"
    made = _in_parts(rows, name, heads, "rows")
    return joined([title, begins, folded(counted(len(rows), "row"), made, open_=len(rows) <= 20)])


def tables_section(each: Analysed, number: int) -> Markup:
    """The tables, region by region."""
    if not each.report.has(Heading.SEMANTIC):
        return Markup("")
    words = "Each input of a region takes one row. All values of a row speak of the region's start; what is not named stays."
    parts = [element("h3", "Tables by region", id=f"p{number}-tables"), element("p", words)]
    return joined(parts + [_region_table(each, number, region) for region in each.report.tables])


def _values(caption: str, values: list[Value]) -> Markup:
    """The values of an input as a table."""
    if not values:
        return element("p", "The procedure has no variable.")
    return table(caption, ["Place", "Value"], [row(value.place, value.text) for value in values], hidden=False)


def _inputs_of(each: Analysed, number: int, region: InputTable) -> Markup:
    """The test inputs of a region."""
    listed = {one.number for part in each.report.tables if part.head == region.head for one in part.rows}
    rows = []
    for one in region.rows:
        values = ", ".join(f"{value.place} = {value.text}" for value in one.values or []) or "any"
        name = f"row {one.number}"
        shown = link(f"#p{number}-R{region.head}-{one.number}", name) if one.number in listed else name
        rows.append(row(shown, "none was found" if one.values is None else values))
    name = f"Test inputs of region L{region.head} of {each.report.name}"
    return joined([element("h4", name), _in_parts(rows, name, ["Row", "Input"])])


def inputs_section(each: Analysed, number: int) -> Markup:
    """The test inputs, region by region."""
    if not each.report.has(Heading.INPUTS):
        return Markup("")
    parts = [_inputs_of(each, number, region) for region in each.report.inputs]
    return joined([element("h3", "Test inputs", id=f"p{number}-inputs"), *parts])


def _walked(each: Analysed, number: int, threat: Threat) -> Markup:
    """The path of a threat on the source lines."""
    steps = walk(each, threat.region, threat.path)
    if steps is None:
        return element("p", "Its path could not be laid over the lines.")
    shown = []
    for step in steps:
        line = each.listing.line(step.line)
        sides = f" [{', '.join(step.decisions)}]" if step.decisions else ""
        text = element("span", line.text if line else "", class_="mono")
        shown.append(element("li", line_link(number, step.line), " ", text, sides))
    return element("ol", shown)


def _threat(each: Analysed, number: int, threat: Threat) -> Markup:
    """A threat with its stop, its region, its path, and its input or what is undecided."""
    line = threat_line(threat, each.report.line_count - 1)
    listed = any(region.head == threat.region for region in each.report.tables)
    name = f"region L{threat.region}"
    begins = link(f"#p{number}-R{threat.region}", name) if listed else joined(["region ", line_link(number, threat.region)])
    told: list[Child] = [f"Threat {threat.number}: ", stop_words(threat.stop), " at ", line_link(number, line), ", ", begins]
    path = element("p", "Path ", element("span", threat.path or "-", class_="mono"))
    body: list[Child] = [path, _walked(each, number, threat)]
    if threat.verdict is Verdict.SHOWN:
        body.insert(0, _values(f"Input of threat {threat.number} of {each.report.name}", threat.values))
    if threat.verdict is Verdict.OPEN:
        body.insert(0, element("p", "Undecided: ", element("span", threat.literal, class_="mono")))
    shown = folded("Input and path", body, open_=threat.verdict is Verdict.SHOWN)
    return element("li", element("p", told), shown, id=f"p{number}-threat{threat.number}")


def threats_section(each: Analysed, number: int) -> Markup:
    """The threats by verdict, those that are left first."""
    compliance = each.report.compliance
    if compliance is None or not each.report.has(Heading.COMPLIANCE):
        return Markup("")
    parts: list[Markup] = [element("h3", "Threats by verdict", id=f"p{number}-threats")]
    for region, size in compliance.past.items():
        told = f"region L{region} is past its size ({size.lower()}): it has no threats here"
        parts.append(element("p", mark(told, "left")))
    for verdict, (words, colour) in _VERDICTS.items():
        threats = [threat for threat in compliance.threats if threat.verdict is verdict]
        if threats:
            shown = element("ul", [_threat(each, number, threat) for threat in threats])
            open_ = verdict is not Verdict.FALSE and len(threats) <= _AT_ONCE
            parts.append(folded(joined([mark(words, colour), f" {len(threats)}"]), shown, open_=open_))
    if not compliance.threats and not compliance.past:
        parts.append(element("p", "None."))
    return joined(parts)
