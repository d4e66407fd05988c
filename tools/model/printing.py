"""The text of a report."""

from __future__ import annotations

from typing import Iterator

from model.expressions import definitions_of
from model.findings import Finding, Row, Threat, findings_of
from model.flowing import flows_of
from model.graphs import Control, Graph, control_of, graph_of
from model.intervals import Derivation, derive
from model.machine import State
from model.program import CheckedProcedure, CheckedText
from model.terms import atom_of, normal_of, text_of, text_of_form
from model.usage import data_use
from model.ways import Stop

SECTIONS = ("CONTROL", "USE", "FLOW", "PATHS", "SEMANTIC", "INPUTS", "COMPLIANCE")
SIX = tuple(section for section in SECTIONS if section != "INPUTS")
"""The six reports, which are written where no section is asked for."""


def lines_text(lines: list[int]) -> str:
    """A list of lines."""
    return " ".join(f"L{line}" for line in lines) or "-"


def names_text(names: list[str]) -> str:
    """A list of names."""
    return " ".join(names) or "-"


def path_text(decisions: tuple[bool, ...]) -> str:
    """The decisions of a path."""
    return "".join("T" if decision else "F" for decision in decisions) or "-"


def stop_text(stop: Stop) -> str:
    """A stop."""
    name, line = stop
    return name if line < 0 else f"{name} L{line}"


def control_lines(control: Control, derivation: Derivation) -> Iterator[str]:
    """The control section."""
    yield f"UNREACHABLE {lines_text(control.unreachable)}"
    yield f"STUCK {lines_text(control.stuck)}"
    for loop in control.loops:
        yield f"LOOP L{loop.head}: {lines_text(loop.members)} LEADING {lines_text(loop.leading)}"
    for number, level in enumerate(derivation.levels):
        yield f"LEVEL {number}"
        for interval in level:
            yield f"INTERVAL L{interval[0]}: {lines_text(interval)}"
    if control.entries is None:
        yield "SHAPE REDUCIBLE"
        return
    yield "SHAPE TWO ENTRIES"
    yield f"CYCLE {lines_text(control.entries.cycle)}"
    yield f"FIRST {lines_text(control.entries.first)}"
    yield f"SECOND {lines_text(control.entries.second)}"


def use_lines(procedure: CheckedProcedure, graph: Graph) -> Iterator[str]:
    """The use section."""
    for place, facts in data_use(procedure, graph):
        answers = " ".join(f"{name}={'Y' if fact else 'N'}" for name, fact in facts.items())
        yield f"VAR {procedure.places[place].text()} {answers}"


def flow_lines(procedure: CheckedProcedure, graph: Graph) -> Iterator[str]:
    """The flow section."""
    for flow in flows_of(procedure, graph):
        sources = names_text([procedure.places[place].text() for place in flow.sources])
        yield f"VAR {procedure.places[flow.place].text()} FROM {sources} TESTS {lines_text(flow.tests)}"


def path_lines(graph: Graph, derivation: Derivation) -> Iterator[str]:
    """The path section."""
    for number, (tail, head) in enumerate(graph.arcs(), 1):
        yield f"ARC a{number} L{tail} L{head}"
    definitions = definitions_of(graph, derivation.order)
    yield from definitions.lines
    yield f"ALL = {definitions.whole}"


def region_line(finding: Finding) -> str:
    """The line that begins a region."""
    return f"REGION L{finding.first}" + (f" PAST {finding.past}" if finding.past else "")


def row_lines(number: int, row: Row, names: list[str]) -> Iterator[str]:
    """One row of a table."""
    yield f"ROW {number} PATH {path_text(row.decisions)}"
    for form in row.forms:
        if not form.always():
            yield f"IF {text_of_form(form, names)}"
    yield f"STOP {stop_text(row.stop)}"
    for place, value in enumerate(row.values):
        if value is not normal_of(0, [(atom_of("place", place), 1)]):
            yield f"{names[place]} := {text_of(value, names)}"


def semantic_lines(findings: list[Finding], names: list[str]) -> Iterator[str]:
    """The semantic section."""
    for finding in findings:
        yield region_line(finding)
        for number, row in enumerate(finding.rows, 1):
            yield from row_lines(number, row, names)


def input_text(values: State, names: list[str]) -> str:
    """The value of each place."""
    return ", ".join(f"{name} = {value}" for name, value in zip(names, values)) or "EMPTY"


def input_lines(findings: list[Finding], names: list[str]) -> Iterator[str]:
    """The section on test inputs."""
    for finding in findings:
        yield region_line(finding)
        for number, row in enumerate(finding.rows, 1):
            yield f"ROW {number} INPUT {'-' if row.input is None else input_text(row.input, names)}"


def verdict_text(threat: Threat, names: list[str]) -> str:
    """A verdict with its evidence."""
    if threat.verdict == "SHOWN":
        return f"SHOWN {input_text(threat.shown, names)}"
    if threat.open_form is not None:
        return f"OPEN {text_of_form(threat.open_form, names)}"
    return threat.verdict


def compliance_lines(findings: list[Finding], names: list[str]) -> Iterator[str]:
    """The compliance section."""
    threats = []
    for finding in findings:
        yield region_line(finding)
        for threat in finding.threats:
            threats.append(threat)
            head = f"THREAT {len(threats)} PATH {path_text(threat.decisions)} STOP {stop_text(threat.stop)}"
            yield f"{head} {verdict_text(threat, names)}"
    verdicts = [threat.verdict for threat in threats]
    counts = " ".join(f"{verdict} {verdicts.count(verdict)}" for verdict in ("FALSE", "SHOWN", "OPEN"))
    past = sum(1 for finding in findings if finding.past is not None)
    yield f"THREATS {len(threats)} {counts} PAST {past}"


def procedure_lines(procedure: CheckedProcedure, sections: tuple[str, ...]) -> tuple[list[str], bool]:
    """The part of one procedure, and whether all is well with it."""
    graph = graph_of(procedure)
    control = control_of(procedure, graph)
    derivation = derive(graph)
    lines = [f"PROCEDURE {procedure.name} LINES {len(procedure.lines)}"]
    lines.extend(f"EXPANDED L{span.first} L{span.last} {span.callee}" for span in procedure.spans)
    reducible = control.entries is None
    findings = findings_of(procedure, control) if reducible else []
    names = [place.text() for place in procedure.places]
    for section in sections:
        lines.append(section)
        if section == "CONTROL":
            lines.extend(control_lines(control, derivation))
        elif not reducible:
            lines.append("NOT REPORTED IRREDUCIBLE")
        elif section == "USE":
            lines.extend(use_lines(procedure, graph))
        elif section == "FLOW":
            lines.extend(flow_lines(procedure, graph))
        elif section == "PATHS":
            lines.extend(path_lines(graph, derivation))
        elif section == "SEMANTIC":
            lines.extend(semantic_lines(findings, names))
        elif section == "INPUTS":
            lines.extend(input_lines(findings, names))
        else:
            lines.extend(compliance_lines(findings, names))
    refuted = all(threat.verdict == "FALSE" for finding in findings for threat in finding.threats)
    return lines, reducible and refuted and all(finding.past is None for finding in findings)


def report_of(text: CheckedText, sections: tuple[str, ...]) -> tuple[str, int]:
    """The report of a text, and the status that it ends with."""
    lines = [f"MALPAS PROFILE {text.profile}", f"TITLE {text.title}"]
    status = 0
    for procedure in text.procedures:
        part, well = procedure_lines(procedure, sections)
        lines.extend(part)
        if not well:
            status = 1
    lines.append(f"STATUS {status}")
    return "\n".join(lines) + "\n", status
