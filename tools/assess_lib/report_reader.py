"""Reads what malpas wrote: a report, whole or cut short, a refusal, or the line on words.

A line that no section knows is kept in `unread` of its procedure, so nothing is lost when a section is new.
"""

from __future__ import annotations

import re
from typing import Callable, Optional

from assess_lib.report import (
    Arc,
    Compliance,
    Definition,
    Expansion,
    FlowRow,
    Heading,
    InputRow,
    InputTable,
    Interval,
    Loop,
    Paths,
    ProcedureReport,
    Refusal,
    RegionTable,
    Report,
    Row,
    SliceRow,
    Threat,
    TwoEntries,
    UseRow,
    Value,
    Verdict,
)

NOT_REPORTED = "NOT REPORTED IRREDUCIBLE"
_REFUSAL = re.compile(r"malpas: (E\d\d) at byte (\d+): (.*)\n")
_NAMES = {heading.value: heading for heading in Heading}


def read_refusal(output: str) -> Optional[Refusal]:
    """The refusal that the whole output is, if it is one."""
    found = _REFUSAL.fullmatch(output)
    return Refusal(found[1], int(found[2]), found[3]) if found else None


def _lines(text: str) -> list[int]:
    """A list of lines, each an `L` and its number; `-` is the empty one."""
    return [int(word[1:]) for word in text.split() if word != "-"]


def _names(text: str) -> list[str]:
    """A list of names; `-` is the empty one."""
    return [word for word in text.split() if word != "-"]


def _values(text: str) -> list[Value]:
    """A list of places with their values; EMPTY is the empty one."""
    if text == "EMPTY":
        return []
    return [Value(*entry.split(" = ", 1)) for entry in text.split(", ")]


def _control(procedure: ProcedureReport, line: str) -> bool:
    """Takes a line of the control section."""
    control = procedure.control
    word, _, rest = line.partition(" ")
    if word == "UNREACHABLE":
        control.unreachable = _lines(rest)
    elif word == "STUCK":
        control.stuck = _lines(rest)
    elif word == "LEVEL":
        control.levels.append([])
    elif word == "INTERVAL":
        head, _, members = rest.partition(": ")
        control.levels[-1].append(Interval(int(head[1:]), _lines(members)))
    elif word == "LOOP":
        head, members, leading = re.split(r": | LEADING ", rest)
        control.loops.append(Loop(int(head[1:]), _lines(members), _lines(leading)))
    else:
        return _shape(procedure, word, rest)
    return True


def _shape(procedure: ProcedureReport, word: str, rest: str) -> bool:
    """Takes a line on the shape of the line graph."""
    control = procedure.control
    if word == "SHAPE":
        control.two_entries = TwoEntries([], [], []) if rest == "TWO ENTRIES" else None
        return True
    found = control.two_entries
    if found is None or word not in ("CYCLE", "FIRST", "SECOND"):
        return False
    {"CYCLE": found.cycle, "FIRST": found.first, "SECOND": found.second}[word].extend(_lines(rest))
    return True


def _use(procedure: ProcedureReport, line: str) -> bool:
    """Takes a line of the use section."""
    word, name, *facts = line.split()
    if word != "VAR":
        return False
    procedure.use.append(UseRow(name, {fact[:2]: fact[3:] == "Y" for fact in facts}))
    return True


def _flow(procedure: ProcedureReport, line: str) -> bool:
    """Takes a line of the flow section."""
    found = re.fullmatch(r"VAR (\S+) FROM (.+) TESTS (.+)", line)
    if found is None:
        return False
    procedure.flow.append(FlowRow(found[1], _names(found[2]), _lines(found[3])))
    return True


def _slice(procedure: ProcedureReport, line: str) -> bool:
    """Takes a line of the slices."""
    found = re.fullmatch(r"VAR (\S+) KEEP (.+) FIXED (.+)", line)
    if found is None:
        return False
    procedure.slices.append(SliceRow(found[1], _lines(found[2]), _names(found[3])))
    return True


def _paths(procedure: ProcedureReport, line: str) -> bool:
    """Takes a line of the path section."""
    procedure.paths = procedure.paths or Paths()
    if line.startswith("ARC a"):
        number, tail, head = line[5:].split()
        procedure.paths.arcs.append(Arc(int(number), int(tail[1:]), int(head[1:])))
        return True
    name, found, text = line.partition(" = ")
    if name == "ALL":
        procedure.paths.everything = text
    else:
        procedure.paths.definitions.append(Definition(name, text))
    return bool(found)


def _region(line: str) -> Optional[tuple[int, str]]:
    """The head of a REGION line, and the size that its table passes or nothing."""
    found = re.fullmatch(r"REGION L(\d+)(?: PAST (\w+))?", line)
    return (int(found[1]), found[2] or "") if found else None


def _semantic(procedure: ProcedureReport, line: str) -> bool:
    """Takes a line of the tables."""
    region = _region(line)
    if region is not None:
        procedure.tables.append(RegionTable(*region))
        return True
    if not procedure.tables:
        return False
    rows = procedure.tables[-1].rows
    found = re.fullmatch(r"ROW (\d+) PATH (\S+)", line)
    if found:
        rows.append(Row(int(found[1]), "" if found[2] == "-" else found[2]))
        return True
    return bool(rows) and _row(rows[-1], line)


def _row(row: Row, line: str) -> bool:
    """Takes a line of a table's row."""
    if line.startswith("IF "):
        row.literals.append(line[3:])
    elif line.startswith("STOP "):
        row.stop = line[5:]
    elif " := " in line:
        row.values.append(Value(*line.split(" := ", 1)))
    else:
        return False
    return True


def _inputs(procedure: ProcedureReport, line: str) -> bool:
    """Takes a line of the test inputs."""
    region = _region(line)
    if region is not None:
        procedure.inputs.append(InputTable(*region))
        return True
    found = re.fullmatch(r"ROW (\d+) INPUT (.+)", line)
    if found is None or not procedure.inputs:
        return False
    values = None if found[2] == "-" else _values(found[2])
    procedure.inputs[-1].rows.append(InputRow(int(found[1]), values))
    return True


def _compliance(procedure: ProcedureReport, line: str) -> bool:
    """Takes a line of the compliance section."""
    procedure.compliance = procedure.compliance or Compliance()
    compliance = procedure.compliance
    region = _region(line)
    if region is not None:
        compliance.regions.append(region[0])
        if region[1]:
            compliance.past[region[0]] = region[1]
        return True
    if line.startswith("THREATS "):
        return True
    found = re.fullmatch(r"THREAT (\d+) PATH (\S+) STOP (.+?) (FALSE|SHOWN|OPEN)(?: (.+))?", line)
    if found is None or not compliance.regions:
        return False
    verdict = Verdict(found[4])
    values = _values(found[5]) if verdict is Verdict.SHOWN else []
    literal = found[5] if verdict is Verdict.OPEN else ""
    path = "" if found[2] == "-" else found[2]
    compliance.threats.append(Threat(int(found[1]), compliance.regions[-1], path, found[3], verdict, values, literal))
    return True


def _certificates(procedure: ProcedureReport, line: str) -> bool:
    """Takes a line of the certificates as it stands."""
    procedure.certificates.append(line)
    return True


_READERS: dict[Heading, Callable[[ProcedureReport, str], bool]] = {
    Heading.CONTROL: _control,
    Heading.USE: _use,
    Heading.FLOW: _flow,
    Heading.SLICE: _slice,
    Heading.PATHS: _paths,
    Heading.SEMANTIC: _semantic,
    Heading.INPUTS: _inputs,
    Heading.COMPLIANCE: _compliance,
    Heading.CERTIFICATES: _certificates,
}


def _take(procedure: ProcedureReport, line: str) -> None:
    """Takes a line of a procedure: a heading, a call's lines, or a line of the section that was begun last."""
    expansion = re.fullmatch(r"EXPANDED L(\d+) L(\d+) (\S+)", line)
    if line in _NAMES:
        procedure.headings.append(_NAMES[line])
    elif expansion:
        procedure.expansions.append(Expansion(int(expansion[1]), int(expansion[2]), expansion[3]))
    elif line == NOT_REPORTED and procedure.headings:
        procedure.not_reported.append(procedure.headings[-1])
    elif not procedure.headings or not _reads(procedure, line):
        procedure.unread.append(line)


def _reads(procedure: ProcedureReport, line: str) -> bool:
    """Whether the section that was begun last knows the line, which it then takes."""
    try:
        return _READERS[procedure.headings[-1]](procedure, line)
    except (ValueError, IndexError, TypeError):
        return False


def read_report(output: str) -> Optional[Report]:
    """The report that the output is, whole or up to where it was cut off; None where it is no report."""
    lines = output.split("\n")[:-1]
    if len(lines) < 2 or not re.fullmatch(r"MALPAS PROFILE \d+", lines[0]) or not lines[1].startswith("TITLE "):
        return None
    report = Report(profile=int(lines[0].split()[-1]), title=lines[1][6:])
    for line in lines[2:]:
        begun = re.fullmatch(r"PROCEDURE (\S+) LINES (\d+)", line)
        ended = re.fullmatch(r"STATUS (\d)", line)
        if begun:
            report.procedures.append(ProcedureReport(begun[1], int(begun[2])))
        elif ended:
            report.status = int(ended[1])
        elif report.procedures:
            _take(report.procedures[-1], line)
    return report
